#include "mend.h"

#define CLEAR(bytes) memset(bytes, 0, sizeof(bytes))

static void mend_header(seddolki_header *header, size_t blocks) {
    size_t curves = seddolki_get_u16(&header->curves);
    header->kind = SEDDOLKI_HEADER_KIND;
    header->zero_after_kind = 0;
    if (curves < blocks) seddolki_set_u16(&header->trade_blocks, (uint16_t)(blocks - 1 - curves));
    CLEAR(header->zero_after_valuation_day);
}

static void mend_curve(seddolki_curve *curve, size_t id) {
    curve->kind = SEDDOLKI_CURVE_KIND;
    curve->zero_after_kind = 0;
    curve->id = (uint8_t)id;
    CLEAR(curve->zero_after_steps);
    CLEAR(curve->zero_after_ranges);
    for (size_t i = 0; i < SEDDOLKI_MAX_NODES; i++) CLEAR(curve->places[i].zero_after_day);
    for (size_t i = curve->node_count; i < SEDDOLKI_MAX_NODES; i++)
        memset(&curve->places[i], 0, sizeof curve->places[i]);
    CLEAR(curve->zero_after_places);
}

static void mend_trades(seddolki_trade_block *block) {
    block->kind = SEDDOLKI_TRADES_KIND;
    for (size_t i = block->count; i < SEDDOLKI_FULL_BLOCK; i++)
        memset(&block->places[i], 0, sizeof block->places[i]);
}

void mend_places(seddolki_block *book, size_t blocks) {
    if (!blocks) return;
    mend_header(&book->header, blocks);
    size_t curves = seddolki_get_u16(&book->header.curves);
    for (size_t i = 0; i < blocks; i++) {
        seddolki_set_u16(&book[i].head.number, (uint16_t)i);
        if (i > curves) mend_trades(&book[i].trades);
        else if (i) mend_curve(&book[i].curve, i);
    }
}

#include "fill.h"

#include "held.h"

#include <string.h>

/* So small an amount keeps every flow within its limit, whatever the price, rate and indices. */
static seddolki_record with_amount(seddolki_record trade, uint64_t amount) {
    if (trade.security != SEDDOLKI_NO_SECURITY) seddolki_set_u64(&trade.nominal, amount);
    if (trade.kind != SEDDOLKI_OUTRIGHT) seddolki_set_u64(&trade.repo_cash, amount);
    return trade;
}

/* A block of the trades from a position on, up to `trades`. */
static void fill_block(seddolki_block *block, const input *in, size_t position, size_t trades) {
    const seddolki_block *from = trade_blocks_of(in->lent);
    size_t own = trades_of(in->lent, in->used), left = trades - position;
    size_t count = left < SEDDOLKI_FULL_BLOCK ? left : SEDDOLKI_FULL_BLOCK;
    block->trades.kind = SEDDOLKI_TRADES_KIND;
    block->trades.count = (uint8_t)count;
    for (size_t i = position; i < position + count; i++)
        block->trades.places[i - position] = with_amount(*trade_at(from, i % own), i + 1);
}

size_t fill(uint8_t to[SEDDOLKI_LARGEST_BOOK], const input *in) {
    seddolki_block *blocks = (seddolki_block *)to;
    size_t first = 1 + curves_of(in->lent), most = SEDDOLKI_MAX_BLOCKS - first;
    size_t trades = in->filled, needed = (trades + SEDDOLKI_FULL_BLOCK - 1) / SEDDOLKI_FULL_BLOCK;
    if (!trades || !trades_of(in->lent, in->used)) return 0;
    if (needed > most) needed = most, trades = most * SEDDOLKI_FULL_BLOCK;
    memcpy(to, in->lent, first * SEDDOLKI_BLOCK);
    memset(to + first * SEDDOLKI_BLOCK, 0, needed * SEDDOLKI_BLOCK);
    seddolki_set_u16(&blocks->header.trade_blocks, (uint16_t)needed);
    for (size_t i = 0; i < needed; i++) {
        fill_block(&blocks[first + i], in, i * SEDDOLKI_FULL_BLOCK, trades);
        seddolki_set_u16(&blocks[first + i].head.number, (uint16_t)(first + i));
        seddolki_seal(&blocks[first + i]);
    }
    seddolki_seal(blocks);
    return (first + needed) * SEDDOLKI_BLOCK;
}

/*
 * Changes inputs so that many get past the length, the checks and the rules
 * of a book: one time in ten any bytes change, otherwise a field in its
 * place, a whole record, the days of its payments, a block of trades, the bond
 * and its cash, the day that the book is for or the current day, the position,
 * the amount, rate and day of a present value, or the lengths that are lent. At
 * times a book is to be filled with trades.
 * The current day is that of the book most times. The length of the book, the
 * places of its blocks and their checks are then mended.
 */
#include "answers.h"
#include "bond.h"
#include "draw.h"
#include "input.h"
#include "mend.h"
#include "seddolki.h"

#include <string.h>

size_t LLVMFuzzerMutate(uint8_t *data, size_t size, size_t most);

static input_head *head_of(uint8_t *data) { return (input_head *)data; }

/* A block of the book that an input holds. */
static seddolki_block *block_at(uint8_t *data, size_t number) {
    return (seddolki_block *)(data + HEAD) + number;
}

/* The curves that the header of so many blocks counts. */
static size_t curves_of(uint8_t *data, size_t blocks) {
    return blocks ? seddolki_get_u16(&block_at(data, 0)->header.curves) : 0;
}

/* Lent bytes that the book uses; all of them where the head says too many are behind it. */
static size_t used_of(uint8_t *data, size_t size) {
    size_t len = size - HEAD, behind = seddolki_get_u32(&head_of(data)->behind);
    return behind < len ? len - behind : len;
}

/* Gives a field of 1, 2 or 4 bytes a number near its own, a small one, or any. */
static void change_field(uint8_t *at, uint64_t *state) {
    size_t width = (size_t)1 << draw(state, 3);
    uint32_t number = 0;
    memcpy(&number, at, width);
    switch (draw(state, 4)) {
    case 0: number += 1; break;
    case 1: number -= 1; break;
    case 2: number = (uint32_t)draw(state, 400); break;
    default: number = (uint32_t)draw(state, (size_t)1 << (8 * width - 1));
    }
    memcpy(at, &number, width);
}

/* A field of the head, of a block's first bytes, or of one of its records or nodes. */
static void change_some_field(uint8_t *data, size_t blocks, uint64_t *state) {
    if (!blocks || draw(state, 4) == 0) {
        change_field(data + draw(state, HEAD - 4), state);
        return;
    }
    size_t within = draw(state, 8) ? 4 + draw(state, 240) : draw(state, 504);
    change_field(block_at(data, draw(state, blocks))->bytes + (within & ~(size_t)1), state);
}

/* Puts the head's record behind the last of the last block. */
static void put_record(uint8_t *data, size_t blocks) {
    if (!blocks) return;
    seddolki_trade_block *last = &block_at(data, blocks - 1)->trades;
    if (last->kind != SEDDOLKI_TRADES_KIND || last->count >= SEDDOLKI_FULL_BLOCK) return;
    last->places[last->count++] = head_of(data)->record;
}

/* A trade of the book, the head's record where it has none. */
static seddolki_record *draw_trade(uint8_t *data, size_t blocks, uint64_t *state) {
    seddolki_record *record = &head_of(data)->record;
    size_t first = 1 + curves_of(data, blocks);
    if (first >= blocks) return record;
    seddolki_trade_block *from = &block_at(data, first + draw(state, blocks - first))->trades;
    if (!from->count || from->count > SEDDOLKI_FULL_BLOCK) return record;
    return &from->places[draw(state, from->count)];
}

/* Takes a trade of the book into the head, at times for the other side. */
static void take_record(uint8_t *data, size_t blocks, uint64_t *state) {
    seddolki_record *record = &head_of(data)->record;
    *record = *draw_trade(data, blocks, state);
    if (draw(state, 2)) record->side = SEDDOLKI_BUYER + SEDDOLKI_SELLER - record->side;
}

/* Moves the payments of a trade so that one falls on or beside one of its value days. */
static void move_payments(seddolki_record *trade, uint64_t *state) {
    if (trade->security == SEDDOLKI_NO_SECURITY) return;
    const seddolki_u16 *value_day = draw(state, 2) ? &trade->value_day_1 : &trade->value_day_2;
    size_t near = seddolki_get_u16(value_day) + draw(state, 3), day = near ? near - 1 : 0;
    if (trade->security != SEDDOLKI_SINGLE_PAYMENT) {
        size_t before = draw(state, 4), room = 1 + day / (before + 1);
        size_t period = 1 + draw(state, room < SEDDOLKI_MAX_PERIOD ? room : SEDDOLKI_MAX_PERIOD);
        seddolki_set_u16(&trade->period, (uint16_t)period);
        seddolki_set_u16(&trade->payments, (uint16_t)(before + 1 + draw(state, 4)));
        if (before * period < day) day -= before * period;
    }
    seddolki_set_u16(&trade->first_payment_day, (uint16_t)day);
}

/* Moves the payments of the head's record or of a trade of the book. */
static void move_some_payments(uint8_t *data, size_t blocks, uint64_t *state) {
    int of_head = draw(state, 2) == 0;
    move_payments(of_head ? &head_of(data)->record : draw_trade(data, blocks, state), state);
}

/* A bond with many payments, bought or sold on a curve for cash today. */
static seddolki_record draw_often_paying(uint8_t curve, uint64_t *state) {
    seddolki_record trade = {.kind = SEDDOLKI_OUTRIGHT, .security = SEDDOLKI_COUPONS};
    size_t payments = 1 + draw(state, SEDDOLKI_MAX_PAYMENTS), period = 1 + draw(state, 90);
    trade.side = draw(state, 2) ? SEDDOLKI_BUYER : SEDDOLKI_SELLER;
    trade.security_curve = trade.cash_curve = curve;
    seddolki_set_u16(&trade.first_payment_day,
                     (uint16_t)(1 + draw(state, SEDDOLKI_MAX_DAY - payments * period)));
    seddolki_set_u16(&trade.period, (uint16_t)period);
    seddolki_set_u16(&trade.payments, (uint16_t)payments);
    seddolki_set_u32(&trade.coupon, (uint32_t)draw(state, 200000));
    seddolki_set_u64(&trade.nominal, 1 + draw(state, 1000000000));
    seddolki_set_u32(&trade.price_or_rate, (uint32_t)(1 + draw(state, 2000000)));
    return trade;
}

/* Fills the last block with such bonds on a curve: it has flows on many days, in many scenarios. */
static void pay_often(uint8_t *data, size_t blocks, uint64_t *state) {
    size_t curves = curves_of(data, blocks);
    if (curves == 0 || curves + 1 >= blocks) return;
    seddolki_trade_block *last = &block_at(data, blocks - 1)->trades;
    uint8_t id = (uint8_t)(1 + draw(state, curves));
    for (int i = 0; i < SEDDOLKI_COMPONENTS; i++)
        block_at(data, id)->curve.steps[i] = (uint8_t)(1 + draw(state, SEDDOLKI_MAX_STEPS));
    last->count = SEDDOLKI_FULL_BLOCK;
    for (size_t i = 0; i < SEDDOLKI_FULL_BLOCK; i++)
        last->places[i] = draw_often_paying(id, state);
}

/* A bond that ends after a curve does. */
static seddolki_bond draw_bond(const seddolki_curve *curve, uint64_t *state) {
    size_t end = last_node_day(curve), most = draw(state, 8) ? 8 : SEDDOLKI_MAX_PAYMENTS;
    size_t later = end < SEDDOLKI_MAX_DAY ? SEDDOLKI_MAX_DAY - end : 1;
    size_t last = end + 1 + draw(state, later < 2000 ? later : 2000);
    size_t payments = 1 + draw(state, last < most ? last : most);
    size_t room = payments > 1 ? (last - 1) / (payments - 1) : SEDDOLKI_MAX_PERIOD;
    size_t period = 1 + draw(state, room < SEDDOLKI_MAX_PERIOD ? room : SEDDOLKI_MAX_PERIOD);
    seddolki_bond bond;
    seddolki_set_u16(&bond.first_payment_day, (uint16_t)(last - (payments - 1) * period));
    seddolki_set_u16(&bond.period, (uint16_t)period);
    seddolki_set_u16(&bond.payments, (uint16_t)payments);
    seddolki_set_u16(&bond.term, 0);
    seddolki_set_u32(&bond.coupon, (uint32_t)draw(state, 200000));
    seddolki_set_u64(&bond.nominal, 1 + draw(state, 1000000000));
    return bond;
}

/* Puts a bond into the head that lengthens a curve of the book, at the cash of some rate. */
static void quote_bond(uint8_t *data, size_t blocks, uint64_t *state) {
    input_head *head = head_of(data);
    size_t curves = curves_of(data, blocks);
    if (curves == 0 || curves >= blocks) return;
    uint32_t id = 1 + (uint32_t)draw(state, curves);
    const seddolki_curve *curve = &block_at(data, id)->curve;
    if (curve->node_count < SEDDOLKI_MIN_NODES || curve->node_count >= SEDDOLKI_MAX_NODES) return;
    head->bond = draw_bond(curve, state);
    uint32_t rate = (uint32_t)draw(state, SEDDOLKI_MAX_RATE + 1);
    seddolki_curve longer = lengthened(curve, &head->bond, rate);
    seddolki_set_u32(&head->curve, id);
    seddolki_set_u64(&head->cash, value_of(&head->bond, &longer));
    for (int i = 0; i < SEDDOLKI_COMPONENTS; i++)
        seddolki_set_i32(&head->components[i],
                         (int32_t)draw(state, 2 * SEDDOLKI_MAX_COMPONENT) - SEDDOLKI_MAX_COMPONENT);
}

/* Changes bytes of the day that the book is for, or of the current day, at times one alone. */
static void change_day(uint8_t *data, size_t blocks, uint64_t *state) {
    int of_book = blocks && draw(state, 2);
    seddolki_u32 *day =
        of_book ? &block_at(data, 0)->header.valuation_day : &head_of(data)->days_apart;
    for (size_t left = draw(state, 2) ? 1 : sizeof day->bytes; left; left--)
        day->bytes[draw(state, sizeof day->bytes)] = (uint8_t)draw(state, 256);
}

/* Asks for one of the book's positions, or for the one behind the last. */
static void move_position(uint8_t *data, size_t blocks, uint64_t *state) {
    size_t first = 1 + curves_of(data, blocks), trades = 0;
    for (size_t i = first; i < blocks; i++) trades += block_at(data, i)->trades.count;
    seddolki_set_u32(&head_of(data)->position, (uint32_t)draw(state, trades + 1));
}

/* Asks for the present value of a small amount or any, at times in whole years or at 100%. */
static void ask_value(input_head *head, uint64_t *state) {
    enum { MILLION = 1000000, YEAR = 365, YEARS = SEDDOLKI_MAX_DAY / YEAR };
    uint64_t amount = draw(state, MILLION);
    if (draw(state, 2)) amount += MILLION * (uint64_t)draw(state, MILLION);
    size_t rate = draw(state, 4) ? draw(state, SEDDOLKI_MAX_RATE + 1) : SEDDOLKI_MAX_RATE;
    size_t day = draw(state, 4) ? draw(state, SEDDOLKI_MAX_DAY + 1) : YEAR * draw(state, YEARS + 1);
    seddolki_set_u64(&head->amount, amount);
    seddolki_set_u64(&head->rate, rate);
    seddolki_set_u64(&head->day, day);
}

/*
 * With the strike alone, and at times otherwise, asks for a filled book: about
 * a full one, one with a few trades, or any. What is above a full one is full.
 */
static void fill_at_times(uint8_t *data, uint64_t *state) {
    enum { MOST = (SEDDOLKI_MAX_BLOCKS - 2) * SEDDOLKI_FULL_BLOCK };
    enum { TIMES = ALONE == STRIKE ? 1 : ALONE == STATEMENT ? 8 : 256 };
    size_t trades = 0;
    if (draw(state, TIMES) == 0) {
        switch (draw(state, 4)) {
        case 0: trades = MOST - draw(state, SEDDOLKI_MAX_CURVES * SEDDOLKI_FULL_BLOCK); break;
        case 1: trades = 1 + draw(state, 4 * SEDDOLKI_FULL_BLOCK); break;
        default: trades = 1 + draw(state, MOST);
        }
    }
    seddolki_set_u16(&head_of(data)->filled, (uint16_t)trades);
}

/* Gives what is lent behind the book, or for the report, a length at which an answer may change. */
static size_t move_end(uint8_t *data, size_t size, size_t most, uint64_t *state) {
    static const uint16_t ends[] = {0, 1, SEDDOLKI_BLOCK - 1, SEDDOLKI_BLOCK, SEDDOLKI_BLOCK + 1};
    uint16_t length = ends[draw(state, sizeof ends / sizeof *ends)];
    size_t end = HEAD + used_of(data, size) + length;
    if (draw(state, 2) || end > most) {
        seddolki_set_u16(&head_of(data)->report_len, length);
        return size;
    }
    if (end > size) memset(data + size, 0, end - size);
    seddolki_set_u32(&head_of(data)->behind, length);
    return end;
}

/* Cuts the book to whole blocks. */
static size_t cut(uint8_t *data, size_t size) {
    size_t used = used_of(data, size), behind = size - HEAD - used, odd = used % SEDDOLKI_BLOCK;
    uint8_t *end = data + HEAD + used;
    memmove(end - odd, end, behind);
    seddolki_set_u32(&head_of(data)->behind, (uint32_t)behind);
    return size - odd;
}

/* Mends the length of the book, the places of its blocks and their checks, each most times. */
static size_t mend(uint8_t *data, size_t size, uint64_t *state) {
    if (draw(state, 8)) size = cut(data, size);
    size_t blocks = used_of(data, size) / SEDDOLKI_BLOCK;
    if (draw(state, 4)) mend_places(block_at(data, 0), blocks);
    if (draw(state, 16) == 0) return size;
    for (size_t i = 0; i < blocks; i++) seddolki_seal(block_at(data, i));
    return size;
}

size_t LLVMFuzzerCustomMutator(uint8_t *data, size_t size, size_t most, unsigned seed) {
    uint64_t state = seed;
    size_t way = size < HEAD ? 0 : draw(&state, 12);
    size_t blocks = size < HEAD ? 0 : used_of(data, size) / SEDDOLKI_BLOCK;
    if (size >= HEAD && draw(&state, 8)) seddolki_set_u32(&head_of(data)->days_apart, 0);
    if (size >= HEAD) fill_at_times(data, &state);
    switch (way) {
    case 0: size = LLVMFuzzerMutate(data, size, most); break;
    case 1: put_record(data, blocks); break;
    case 2: take_record(data, blocks, &state); break;
    case 3: quote_bond(data, blocks, &state); break;
    case 4: size = move_end(data, size, most, &state); break;
    case 5: move_some_payments(data, blocks, &state); break;
    case 6: change_day(data, blocks, &state); break;
    case 7: move_position(data, blocks, &state); break;
    case 8: ask_value(head_of(data), &state); break;
    default:
        if (draw(&state, 64)) change_some_field(data, blocks, &state);
        else pay_often(data, blocks, &state);
    }
    return size < HEAD ? size : mend(data, size, &state);
}

/*
 * What a strike promises: the book without the trade at the position, a block
 * left empty as zeros, and no other byte changed. Where an input asks for it
 * its book is filled with trades, and then struck at one position after another.
 */
#include "answers.h"
#include "calls.h"
#include "day.h"
#include "draw.h"
#include "fill.h"
#include "held.h"
#include "lent.h"

#include <stdio.h>
#include <string.h>

/* Strikes of a filled book, if it has so many trades. */
enum { STRIKES = 64 };

/* Each place of a trade struck in its block, by the number of trades in the last. */
KEPT struck[SEDDOLKI_FULL_BLOCK][SEDDOLKI_FULL_BLOCK];

/* How many strikes were done, on filled books and in all, left a block empty, and moved trades. */
static uint64_t done, of_filled, emptying, moving, moved;

__attribute__((destructor)) static void print_strikes(void) {
    if (!done) return;
    fprintf(stderr, "%llu strikes done, %llu of them on filled books", (unsigned long long)done,
            (unsigned long long)of_filled);
    fprintf(stderr, "; %llu left a block empty, %llu moved trades, %llu in all\n",
            (unsigned long long)emptying, (unsigned long long)moving, (unsigned long long)moved);
}

static void count_strike(size_t behind, size_t emptied) {
    done++;
    emptying += emptied > 0;
    moving += behind > 0;
    moved += behind;
}

/* That the trades are those before without the one struck, in their order. */
static void expect_others(const input *in, const uint8_t *book, size_t left) {
    const seddolki_block *before = trade_blocks_of(in->lent), *after = trade_blocks_of(book);
    for (size_t i = 0; i < left; i++) {
        const seddolki_record *due = trade_at(before, i + (i >= in->position));
        expect(!memcmp(trade_at(after, i), due, SEDDOLKI_RECORD), "the other trades stay in order");
    }
}

/* That header and curves are those before, but for the header's count of blocks and its check. */
static void expect_head(const input *in, const uint8_t *book) {
    seddolki_block header = *blocks_of(in->lent);
    header.header.trade_blocks = blocks_of(book)->header.trade_blocks;
    seddolki_seal(&header);
    expect(!memcmp(book, &header, SEDDOLKI_BLOCK), "strike changes a count of the header alone");
    expect(!memcmp(book + SEDDOLKI_BLOCK, in->lent + SEDDOLKI_BLOCK,
                   curves_of(in->lent) * SEDDOLKI_BLOCK),
           "strike leaves the curves");
}

/* That a done strike of an accepted book has left every lent byte as it is due. */
static void expect_struck(const input *in, const uint8_t *book, size_t used) {
    size_t trades = trades_of(in->lent, in->used);
    expect(in->position < trades, "a strike is done at a trade's position");
    size_t left = trades - 1, emptied = left % SEDDOLKI_FULL_BLOCK ? 0 : SEDDOLKI_BLOCK;
    expect(used + emptied == in->used, "the used length falls by a block left empty alone");
    expect(all_zero(book + used, emptied), "a block left empty becomes zeros");
    expect(!memcmp(book + in->used, in->lent + in->used, in->len - in->used), "bytes behind stay");
    expect(seddolki_check(book, in->len, used).number == 0, "a struck book is accepted");
    expect_same_day(in, book);
    expect(trades_of(book, used) == left, "a struck book has a trade fewer");
    expect_others(in, book, left);
    expect_head(in, book);
    count_strike(left - in->position, emptied);
}

/* The first position or the last, one at an edge of a block, or any. */
static size_t draw_position(uint64_t *state, size_t trades) {
    size_t any = draw(state, trades), edge = any - any % SEDDOLKI_FULL_BLOCK;
    switch (draw(state, 6)) {
    case 0: return 0;
    case 1: return trades - 1;
    case 2: return edge;
    case 3: return edge ? edge - 1 : 0;
    default: return any;
    }
}

/* A strike of a book that is to be struck, in its lent bytes; gives the used length. */
static size_t strike_on(const input *in, uint8_t *book) {
    seddolki_answer answer =
        seen(STRIKE, seddolki_strike(book, in->len, in->used, in->day, in->position));
    expect(answer.number == 0, "a trade of an accepted book is struck on the book's day");
    expect_struck(in, book, answer.value);
    of_filled++;
    return answer.value;
}

/* Strikes the book of an input, filled as it asks, with painted bytes behind. */
static void strike_filled(const input *in) {
    static uint8_t before[SEDDOLKI_LARGEST_BOOK + SPACE_MOST];
    input next = *in;
    size_t behind = (in->len - in->used) % SPACE_MOST, trades;
    uint64_t state = (uint64_t)in->filled << 32 | in->position;
    next.lent = before;
    next.used = fill(before, in);
    next.len = next.used + behind;
    if (!next.used) return;
    memcpy(before + next.used, lend_painted(1, behind), behind);
    uint8_t *book = lend(0, before, next.len);
    expect(seddolki_check(book, next.len, next.used).number == 0, "a filled book is accepted");
    for (int i = 0; i < STRIKES && (trades = trades_of(before, next.used)); i++) {
        next.position = draw_position(&state, trades);
        next.used = strike_on(&next, book);
        memcpy(before, book, next.len);
    }
}

void try_strike(const input *in, seddolki_answer due) {
    uint8_t *book = lend(0, in->lent, in->len);
    seddolki_answer answer =
        seen(STRIKE, seddolki_strike(book, in->len, in->used, in->day, in->position));
    expect_due(answer, due, "strike refuses what check refuses, and another day");
    if (answer.number) {
        expect(!memcmp(book, in->lent, in->len), "a refused strike writes nothing");
    } else {
        size_t trades = trades_of(in->lent, in->used);
        expect_struck(in, book, answer.value);
        note_length(STRIKE, in->used, answer.value);
        struck[trades % SEDDOLKI_FULL_BLOCK][in->position % SEDDOLKI_FULL_BLOCK] = 1;
    }
    if (due.number == 0) strike_filled(in);
}

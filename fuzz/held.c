#include "held.h"

#include "answers.h"
#include "bond.h"
#include "flows.h"

#include <stdio.h>

/* Flows times scenarios that are valued at most. */
#ifndef WORK
#define WORK 200000
#endif

/* A scenario takes as long as so many flows by itself. */
enum { A_SCENARIO = 8 };

/* Each kind, side, phase and security of a trade in an accepted book; each number of curves. */
KEPT held[4][4][4][4], curves_held[9];

/* Where a payment falls beside a repo's value day 2. */
enum { BEFORE, ON, NEXT_DAY, LATER, DAYS };

/* Each kind, side and phase of a repo in an accepted book, by its first payment and its last. */
KEPT paid[4][4][4][DAYS][DAYS];

/* Those of all inputs, and how many there were. */
static uint8_t paid_so_far[sizeof paid];
static int ways;

/*
 * How many repos were met, by whether the first leg has settled, and whether
 * they pay up to value day 2, before and after it, or after it.
 */
static uint64_t repos[2][3];

/* Each worst scenario of a report, by the sign of the base. */
KEPT worst[2][343];

const seddolki_block *blocks_of(const uint8_t *book) { return (const seddolki_block *)book; }

size_t curves_of(const uint8_t *book) { return seddolki_get_u16(&blocks_of(book)->header.curves); }

size_t trades_of(const uint8_t *book, size_t used) {
    const seddolki_block *blocks = blocks_of(book);
    size_t trade_blocks = seddolki_get_u16(&blocks->header.trade_blocks);
    if (!trade_blocks) return 0;
    size_t last = blocks[used / SEDDOLKI_BLOCK - 1].trades.count;
    return (trade_blocks - 1) * SEDDOLKI_FULL_BLOCK + last;
}

const seddolki_block *trade_blocks_of(const uint8_t *book) {
    return blocks_of(book) + 1 + curves_of(book);
}

const seddolki_record *trade_at(const seddolki_block *trade_blocks, size_t position) {
    const seddolki_trade_block *block = &trade_blocks[position / SEDDOLKI_FULL_BLOCK].trades;
    return &block->places[position % SEDDOLKI_FULL_BLOCK];
}

int has_currency(const uint8_t *book, uint8_t currency) {
    for (size_t id = 1; id <= curves_of(book); id++)
        if (blocks_of(book)[id].curve.currency == currency) return 1;
    return 0;
}

size_t work_of(const uint8_t *book, size_t used) {
    const seddolki_block *blocks = blocks_of(book);
    size_t curves = curves_of(book), flows = 0, scenarios = 0;
    for (size_t i = 1; i <= curves; i++) {
        const uint8_t *steps = blocks[i].curve.steps;
        scenarios += (2 * steps[0] + 1) * (2 * steps[1] + 1) * (2 * steps[2] + 1);
    }
    for (size_t i = 1 + curves; i < used / SEDDOLKI_BLOCK; i++)
        for (size_t j = 0; j < blocks[i].trades.count; j++)
            flows += 2 + seddolki_get_u16(&blocks[i].trades.places[j].payments);
    return (A_SCENARIO + flows) * scenarios;
}

int is_quick(const uint8_t *book, size_t used) { return work_of(book, used) < WORK; }

__attribute__((destructor)) static void print_repos(void) {
    static const char *words[] = {"not settled", "settled"};
    for (int i = 0; i < 2; i++)
        fprintf(stderr,
                "repos held, first leg %s: %llu pay up to value day 2, %llu before and after, "
                "%llu after\n",
                words[i], (unsigned long long)repos[i][0], (unsigned long long)repos[i][1],
                (unsigned long long)repos[i][2]);
    fprintf(stderr, "%d ways of kind, side and phase, first payment and last\n", ways);
}

static int place_of(uint64_t day, const seddolki_record *repo) {
    uint64_t value_day_2 = seddolki_get_u16(&repo->value_day_2);
    if (day < value_day_2) return BEFORE;
    if (day == value_day_2) return ON;
    return day == value_day_2 + 1 ? NEXT_DAY : LATER;
}

static void note_payments(const seddolki_record *repo) {
    seddolki_bond bond = seddolki_bond_of(repo);
    int first = place_of(seddolki_get_u16(&repo->first_payment_day), repo);
    int last = place_of(last_payment_day(&bond), repo);
    uint8_t *way = &paid[repo->kind][repo->side][repo->phase][first][last];
    size_t place = (size_t)(way - &paid[0][0][0][0][0]);
    *way = 1;
    ways += !paid_so_far[place];
    paid_so_far[place] = 1;
    repos[is_settled(repo)][(first > ON) + (last > ON)]++;
}

static void note_trade(const seddolki_record *record) {
    held[record->kind][record->side][record->phase][record->security] = 1;
    if (record->security == SEDDOLKI_NO_SECURITY) return;
    expect(seddolki_get_u16(&record->first_payment_day) > seddolki_get_u16(&record->value_day_1),
           "a first payment comes after value day 1, or after day 0 where that is not used");
    if (record->kind != SEDDOLKI_OUTRIGHT) note_payments(record);
}

void note_held(const uint8_t *book, size_t used) {
    const seddolki_block *blocks = blocks_of(book);
    size_t curves = curves_of(book);
    curves_held[curves] = 1;
    for (size_t i = 1 + curves; i < used / SEDDOLKI_BLOCK; i++)
        for (size_t j = 0; j < blocks[i].trades.count; j++)
            note_trade(&blocks[i].trades.places[j]);
}

void note_worst(const seddolki_report *report) {
    for (size_t i = 0; i < SEDDOLKI_MAX_CURVES; i++) {
        const seddolki_curve_figures *curve = &report->curves[i];
        if (seddolki_get_u32(&curve->currency))
            worst[seddolki_get_i64(&curve->base) < 0][seddolki_get_u32(&curve->scenario)] = 1;
    }
}

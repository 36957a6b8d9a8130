/*
 * What a bootstrap promises: the curve gets a node at the smallest rate at
 * which the bond is worth at most its cash, and nothing else is written.
 */
#include "answers.h"
#include "bond.h"
#include "calls.h"
#include "day.h"
#include "held.h"
#include "lent.h"

#include <string.h>

/* Each number of nodes that a curve was lengthened from, by the digits of the rate found. */
KEPT lengthened_from[SEDDOLKI_MAX_NODES][8];

/* The digits of a rate stand for its size. */
static void note_lengthened(size_t nodes, uint32_t rate) {
    size_t digits = 0;
    for (; rate; rate /= 10) digits++;
    lengthened_from[nodes][digits] = 1;
}

/* The block of a curve that the input's bond has lengthened, at a rate. */
static seddolki_block lengthened_block(const input *in, const seddolki_curve *curve,
                                       uint32_t rate) {
    const input_head *head = in->head;
    seddolki_block block;
    block.curve = lengthened(curve, &head->bond, rate);
    memcpy(block.curve.places[curve->node_count].components, head->components,
           sizeof head->components);
    seddolki_seal(&block);
    return block;
}

/* What the input's bond is worth on a curve that it has lengthened, at a rate. */
static uint64_t worth(const input *in, const seddolki_curve *curve, uint32_t rate) {
    seddolki_curve longer = lengthened(curve, &in->head->bond, rate);
    return value_of(&in->head->bond, &longer);
}

/* That the new node is the one due, and that nothing else of the lent bytes has changed. */
static void expect_lengthened(const input *in, uint8_t *book, size_t id) {
    size_t start = id * SEDDOLKI_BLOCK, end = start + SEDDOLKI_BLOCK;
    const seddolki_curve *before = &blocks_of(in->lent)[id].curve;
    const seddolki_block *after = &blocks_of(book)[id];
    uint64_t cash = seddolki_get_u64(&in->head->cash);
    uint32_t rate = seddolki_get_u32(&after->curve.places[before->node_count].rate);
    seddolki_block due = lengthened_block(in, before, rate);
    expect(!memcmp(book, in->lent, start), "bytes before the curve's block stay");
    expect(!memcmp(book + end, in->lent + end, in->len - end),
           "bytes behind the curve's block stay");
    expect(!memcmp(after, &due, sizeof due), "the curve has a node more, and its check");
    expect(worth(in, before, rate) <= cash, "at the rate the bond is worth at most the cash");
    expect(rate ? worth(in, before, rate - 1) > cash : worth(in, before, 0) == cash,
           "at a lower rate the bond is worth more");
    expect(seddolki_check(book, in->len, in->used).number == 0, "a lengthened book is accepted");
    uint8_t *report = lend(2, due.bytes, sizeof due);
    expect(!is_quick(book, in->used) ||
               !seddolki_margin(book, in->len, in->used, in->day, report, sizeof due).number,
           "a lengthened book has a margin");
    note_lengthened(before->node_count, rate);
}

/* That a curve of the book cannot be lengthened, by ground 17 or 18. */
static void expect_not_to_fit(const input *in, uint64_t ground, size_t id) {
    const seddolki_curve *curve = &blocks_of(in->lent)[id].curve;
    uint64_t cash = seddolki_get_u64(&in->head->cash);
    int takes_node = curve->node_count < SEDDOLKI_MAX_NODES &&
                     last_payment_day(&in->head->bond) > last_node_day(curve);
    expect(takes_node == (ground == SEDDOLKI_RATE_RANGE), "by 17 the curve takes no node there");
    expect(!takes_node || worth(in, curve, SEDDOLKI_MAX_RATE) > cash || worth(in, curve, 0) < cash,
           "by 18 no rate fits the cash");
}

void try_bootstrap(const input *in, seddolki_answer due) {
    const input_head *head = in->head;
    const int32_t components[] = {seddolki_get_i32(&head->components[0]),
                                  seddolki_get_i32(&head->components[1]),
                                  seddolki_get_i32(&head->components[2])};
    const uint8_t *given = (const uint8_t *)&head->bond;
    size_t id = seddolki_get_u32(&head->curve);
    uint8_t *book = lend(0, in->lent, in->len), *bond = lend(1, given, SEDDOLKI_BOND);
    seddolki_answer answer =
        seen(BOOTSTRAP,
             seddolki_bootstrap(book, in->len, in->used, in->day, id, bond,
                                seddolki_get_u64(&head->cash), components[0], components[1],
                                components[2]));
    expect(!memcmp(bond, given, SEDDOLKI_BOND), "bootstrap leaves the bond");
    expect_due(answer, due, "bootstrap refuses what check refuses, and another day");
    expect(due.number || answer.value == 0, "bootstrap names no block of an accepted book");
    if (answer.number) {
        expect(!memcmp(book, in->lent, in->len), "a refused bootstrap writes nothing");
        if (answer.number == SEDDOLKI_CURVE_END || answer.number == SEDDOLKI_RATE_RANGE)
            expect_not_to_fit(in, answer.number, id);
        return;
    }
    expect_lengthened(in, book, id);
}

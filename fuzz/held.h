/* What an accepted book and its report hold. */
#ifndef HELD_H
#define HELD_H

#include "seddolki.h"

const seddolki_block *blocks_of(const uint8_t *book);

/* Of an accepted book: how many curves and trades it has, and its blocks of trades. */
size_t curves_of(const uint8_t *book);
size_t trades_of(const uint8_t *book, size_t used);
const seddolki_block *trade_blocks_of(const uint8_t *book);

/* The trade at a position of a book's blocks of trades. */
const seddolki_record *trade_at(const seddolki_block *trade_blocks, size_t position);

/* Whether a curve has a currency. */
int has_currency(const uint8_t *book, uint8_t currency);

/* A book's flows times scenarios, and whether they are few. */
size_t work_of(const uint8_t *book, size_t used);
int is_quick(const uint8_t *book, size_t used);

/* Guide the fuzzer to forms of trades, days of payments, numbers of curves and worst scenarios. */
void note_held(const uint8_t *book, size_t used);
void note_worst(const seddolki_report *report);

#endif

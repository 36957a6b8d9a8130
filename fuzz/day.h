/* The day that a book is for, and the current day that a call is given. */
#ifndef DAY_H
#define DAY_H

#include "input.h"
#include "seddolki.h"

/* The valuation day of lent bytes; 0 where they end before it does. */
uint32_t valuation_day(const uint8_t *lent, size_t len);

/*
 * How a call that is given the input's day is to refuse its book: by 19 where
 * the check accepts it and the days differ, else as the check does.
 */
seddolki_answer due_on_day(const input *in, seddolki_answer checked);

/* That a call refuses a book as it is due, and by 19 in no other case. */
void expect_due(seddolki_answer answer, seddolki_answer due, const char *promise);

/* That an edited book is still for the day that it was for. */
void expect_same_day(const input *in, const uint8_t *book);

#endif

/* The calls that are tried, and what they answered. */
#ifndef ANSWERS_H
#define ANSWERS_H

#include "seddolki.h"

enum { CHECK, MARGIN, APPEND, PREVIEW, STRIKE, READ, PRESENT_VALUE, BOOTSTRAP, STATEMENT, CALLS };

/* The one call that is tried beside the check; every one where none is named. */
#ifndef ALONE
#define ALONE CALLS
#endif

/* libFuzzer keeps an input that raises one of these counters. */
#define KEPT __attribute__((section("__libfuzzer_extra_counters"))) static uint8_t

/* Stops the run where a promise is broken. */
void expect(int holds, const char *promise);

/* Counts the answer of a call, and gives it again. */
seddolki_answer seen(int call, seddolki_answer answer);

/* Notes whether a call that is done changes, or would change, the book's length. */
void note_length(int call, size_t before, size_t after);

int same(seddolki_answer a, seddolki_answer b);

#endif

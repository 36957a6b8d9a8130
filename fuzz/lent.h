/* Bytes lent to a call, with a page of memory behind them that nothing may touch. */
#ifndef LENT_H
#define LENT_H

#include <stddef.h>
#include <stdint.h>

/* Most bytes that are lent at once, and most for a report or behind a filled book. */
#define LENT_MOST (1 << 20)
#define SPACE_MOST 2048

/* Copies bytes to the end of one of four places and gives where they start. */
uint8_t *lend(int place, const uint8_t *bytes, size_t len);

/* The same with bytes that show where they were written. */
uint8_t *lend_painted(int place, size_t len);
int is_painted(const uint8_t *bytes, size_t len);

int all_zero(const uint8_t *bytes, size_t len);

#endif

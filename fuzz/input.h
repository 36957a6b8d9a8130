/* What an input of the fuzzing is: a head that says what is asked, then the lent bytes. */
#ifndef INPUT_H
#define INPUT_H

#include "seddolki.h"

typedef struct {
    seddolki_u32 behind;                          /* 0: lent bytes that the book does not use */
    seddolki_u32 position;                        /* 4 */
    seddolki_u64 amount;                          /* 8: amount, rate and day of a present value */
    seddolki_u64 rate;                            /* 16 */
    seddolki_u64 day;                             /* 24 */
    seddolki_record record;                       /* 32 */
    seddolki_u16 report_len;                      /* 88: the length of the report space */
    seddolki_u16 filled;                          /* 90: trades to fill the book with */
    seddolki_u32 curve;                           /* 92: that the bond is to lengthen */
    seddolki_bond bond;                           /* 96 */
    seddolki_u64 cash;                            /* 116 */
    seddolki_i32 components[SEDDOLKI_COMPONENTS]; /* 124 */
    seddolki_u32 days_apart;                      /* 136: the bits in which the current day
                                                          differs from the book's */
} input_head;

enum { HEAD = sizeof(input_head) };

/* What an input asks for. */
typedef struct {
    const input_head *head;
    const uint8_t *record, *lent;
    size_t len, used, position, report_len, filled;
    uint32_t day;
} input;

#endif

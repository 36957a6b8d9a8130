#include "day.h"

#include "answers.h"

/*
 * By a bit for each byte: which bytes of an accepted book's day are not 0, and
 * which differ from the current day's.
 */
KEPT bytes_held[16], bytes_apart[16];

uint32_t valuation_day(const uint8_t *lent, size_t len) {
    if (len < sizeof(seddolki_header)) return 0;
    return seddolki_get_u32(&((const seddolki_header *)lent)->valuation_day);
}

/* Which bytes of a number are not 0, a bit for each. */
static size_t bytes_of(uint32_t number) {
    size_t bytes = 0;
    for (int i = 0; i < 4; i++) bytes |= (size_t)((number >> 8 * i & 0xff) != 0) << i;
    return bytes;
}

seddolki_answer due_on_day(const input *in, seddolki_answer checked) {
    uint32_t own = valuation_day(in->lent, in->len);
    if (checked.number) return checked;
    bytes_held[bytes_of(own)] = 1;
    bytes_apart[bytes_of(own ^ in->day)] = 1;
    return (seddolki_answer){own == in->day ? SEDDOLKI_DONE : SEDDOLKI_VALUATION_DAY, 0};
}

void expect_due(seddolki_answer answer, seddolki_answer due, const char *promise) {
    expect(!due.number || same(answer, due), promise);
    expect(due.number || answer.number != SEDDOLKI_VALUATION_DAY, "19 is for another day alone");
}

void expect_same_day(const input *in, const uint8_t *book) {
    expect(valuation_day(book, in->len) == in->day, "an edited book keeps its day");
}

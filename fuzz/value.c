/*
 * What a present value promises: amount times discount factor over 10^12, to
 * the nearest, a half up. The factor itself is what 10^12 is worth. Beside the
 * amount that an input asks for, amounts are tried that are worth a half, or
 * next to it.
 */
#include "answers.h"
#include "calls.h"
#include "half_up.h"

#include <stdio.h>

enum { YEAR = 365, YEARS = SEDDOLKI_MAX_DAY / YEAR + 1 };

/* One, in a factor. */
static const uint64_t unit = SEDDOLKI_MAX_AMOUNT, half_unit = SEDDOLKI_MAX_AMOUNT / 2;

/* The years to an amount worth a half, and whether days are left over. */
KEPT half_in[YEARS][2];

/* How many values were looked at, and how many of them were of a half exactly. */
static uint64_t valued, of_a_half;

__attribute__((destructor)) static void print_values(void) {
    if (!valued) return;
    fprintf(stderr, "%llu present values looked at, %llu of them of a half\n",
            (unsigned long long)valued, (unsigned long long)of_a_half);
}

/* Amounts due on a day, at a rate and so at a factor. */
typedef struct {
    uint64_t rate, day, factor;
} terms;

static uint64_t value_at(const terms *at, uint64_t amount) {
    uint64_t tolerance;
    seddolki_answer answer = seddolki_present_value(amount, at->rate, at->day, &tolerance);
    expect(answer.number == SEDDOLKI_DONE, "an amount within its limit has a value");
    return answer.value;
}

static void expect_nearest(const terms *at, uint64_t amount) {
    wide worth = (wide)amount * at->factor;
    expect(value_at(at, amount) == half_up(worth, unit), "a present value is to the nearest");
    valued++;
    if (worth % unit != half_unit) return;
    of_a_half++;
    half_in[at->day / YEAR][at->day % YEAR != 0] = 1;
}

/* The least amount that is worth so many hundredths and a half, or more, and the one before. */
static void try_beside_half(const terms *at, uint64_t hundredths) {
    wide twice = 2 * (wide)at->factor, worth = (2 * (wide)hundredths + 1) * unit;
    wide least = (worth + twice - 1) / twice;
    if (least > unit) return;
    expect_nearest(at, (uint64_t)least);
    expect_nearest(at, (uint64_t)least - 1);
}

static uint64_t common_divisor(uint64_t a, uint64_t b) { return b ? common_divisor(b, a % b) : a; }

/* The least amount that is worth a half exactly, if any is, and one near to an amount. */
static void try_halves(const terms *at, uint64_t amount) {
    uint64_t least = half_unit / common_divisor(at->factor, half_unit);
    uint64_t near = least * (amount / least / 2 * 2 + 1);
    expect_nearest(at, least);
    if (near <= unit) expect_nearest(at, near);
}

void try_present_value(const input *in, seddolki_answer due) {
    (void)due;
    uint64_t amount = seddolki_get_u64(&in->head->amount), tolerance = 7;
    terms at = {.rate = seddolki_get_u64(&in->head->rate), .day = seddolki_get_u64(&in->head->day)};
    seddolki_answer answer =
        seen(PRESENT_VALUE, seddolki_present_value(amount, at.rate, at.day, &tolerance));
    expect(!answer.number || tolerance == 0, "a refused present value has tolerance 0");
    if (answer.number) return;
    expect(answer.value <= amount, "a present value is at most the amount");
    at.factor = value_at(&at, unit);
    expect_nearest(&at, amount);
    try_beside_half(&at, answer.value);
    try_halves(&at, amount);
}

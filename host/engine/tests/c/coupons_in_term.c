/*
 * Margins repos whose bond pays inside their term, by the names of the header
 * alone, and looks at what is refused: coupons_in_term BOOK
 *
 * The rate of both curves is 25%, in scenario 0 it is 0 and in scenario 2 100%.
 * What is paid on a day is worth today:
 *
 *                  day 0     365     730   1,095
 *   base               1     0.8    0.64   0.512
 *   scenario 0         1       1       1       1
 *   scenario 2         1     0.5    0.25   0.125
 *
 * The cash is 10,000.00 from day 0 to day 730 at 25%: interest 5,000.00, of
 * which 15% are withheld, second leg 14,250.00. The bond has a nominal of
 * 10,000.00 and coupons of 20%: it pays 2,000.00 on days 365 and 730, and
 * 12,000.00 on day 1,095. In hundredths, for the repo member:
 *
 *                                           base  scenario 0  scenario 2
 *   first leg not settled
 *   curve 1, out on days 365 and 730    -288,000    -400,000    -150,000
 *            loss                                    112,000    -138,000
 *   curve 2, in on day 0, out on 730      88,000    -425,000     643,750
 *            loss                                    513,000    -555,750
 *   first leg settled
 *   curve 1, in on day 1,095             614,400   1,200,000     150,000
 *            loss                                   -585,600     464,400
 *   curve 2, out on day 730             -912,000  -1,425,000    -356,250
 *            loss                                    513,000    -555,750
 *
 * The other side has each with the other sign, and nothing in pool 3. If the
 * bond pays its last on day 730, that is 12,000.00 there, then of curve 1:
 *
 *   first leg not settled               -928,000  -1,400,000    -400,000
 *            loss                                    472,000    -528,000
 *   first leg settled                          0           0           0
 *
 * A flow's tolerance is amount * 2 * years / 10^12 on these days, rounded up:
 * 0 on day 0, 1 on the others.
 */
#include "book.h"
#include "seddolki.h"

#include <inttypes.h>
#include <string.h>

enum { BLOCKS = 4, LAST = BLOCKS - 1, USED = BLOCKS * SEDDOLKI_BLOCK };

static seddolki_block empty[BLOCKS];

static seddolki_record specified_repo(void) {
    seddolki_record trade;
    memset(&trade, 0, sizeof trade);
    trade.kind = SEDDOLKI_SPECIFIED;
    trade.side = SEDDOLKI_REPO_MEMBER;
    trade.phase = 1;
    trade.security_curve = 1;
    trade.cash_curve = 2;
    trade.security = SEDDOLKI_COUPONS;
    seddolki_set_u16(&trade.value_day_2, 730);
    seddolki_set_u16(&trade.first_payment_day, 365);
    seddolki_set_u16(&trade.period, 365);
    seddolki_set_u16(&trade.payments, 3);
    seddolki_set_u16(&trade.term, 730);
    seddolki_set_u32(&trade.coupon, 200000);
    seddolki_set_u64(&trade.nominal, 1000000);
    seddolki_set_u64(&trade.repo_cash, 1000000);
    seddolki_set_u32(&trade.price_or_rate, 250000);
    return trade;
}

static seddolki_answer append(seddolki_block book[BLOCKS], const seddolki_record *trade) {
    memcpy(book, empty, sizeof empty);
    return seddolki_append((uint8_t *)book, USED, USED - SEDDOLKI_BLOCK, valuation_day(book),
                           (const uint8_t *)trade);
}

static void print_curve(const seddolki_curve_figures *curve) {
    printf(" base %" PRId64 " loss %" PRId64 " scenario %" PRIu32 " tolerance %" PRIu64 ";",
           seddolki_get_i64(&curve->base), seddolki_get_i64(&curve->worst_loss),
           seddolki_get_u32(&curve->scenario), seddolki_get_u64(&curve->tolerance));
}

static void print_margin(const seddolki_record *trade) {
    seddolki_block book[BLOCKS], report;
    seddolki_answer answer = append(book, trade);
    expect(answer.number == SEDDOLKI_DONE && answer.value == USED, "the trade is appended");
    answer = seddolki_check((const uint8_t *)book, USED, USED);
    expect(answer.number == SEDDOLKI_DONE, "the book is accepted");
    answer = seddolki_margin((const uint8_t *)book, USED, USED, valuation_day(book), report.bytes,
                             sizeof report);
    expect(answer.number == SEDDOLKI_DONE, "the book has a margin");
    printf("kind %d phase %d side %d:", trade->kind, trade->phase, trade->side);
    print_curve(&report.report.curves[0]);
    print_curve(&report.report.curves[1]);
    printf(" total %" PRId64 "\n", seddolki_get_i64(&report.report.currencies[0].total));
}

/* Before the first leg is settled and after, for both sides. */
static void print_phases(seddolki_record trade, uint8_t kind, uint8_t phase) {
    trade.kind = kind;
    for (trade.phase = phase; trade.phase <= phase + 1; trade.phase++) {
        trade.side = SEDDOLKI_REPO_MEMBER;
        print_margin(&trade);
        trade.side = SEDDOLKI_REVERSE_REPO_MEMBER;
        print_margin(&trade);
    }
}

/* What an append answers and a check of the book with the trade in it. */
static seddolki_answer answer_of(const seddolki_record *trade) {
    seddolki_block book[BLOCKS];
    seddolki_trade_block *trades = &book[LAST].trades;
    seddolki_answer appended = append(book, trade), checked;
    if (appended.number == SEDDOLKI_DONE) return appended;
    expect(!memcmp(book, empty, sizeof book), "a refused call writes nothing");
    seddolki_set_u16(&book[0].header.trade_blocks, 1);
    seddolki_seal(&book[0]);
    trades->kind = SEDDOLKI_TRADES_KIND;
    trades->count = 1;
    seddolki_set_u16(&trades->number, LAST);
    trades->places[0] = *trade;
    seddolki_seal(&book[LAST]);
    checked = seddolki_check((const uint8_t *)book, USED, USED);
    expect(checked.number == appended.number && checked.value == appended.value,
           "the book is refused as the trade is");
    return checked;
}

static void print_answer(const char *what, const seddolki_record *trade) {
    seddolki_answer answer = answer_of(trade);
    if (answer.number == SEDDOLKI_DONE) printf("%s: accepted\n", what);
    else printf("%s: refused by %" PRIu64 " in block %" PRIu64 "\n", what, answer.number,
                answer.value);
}

/* Rule 9: the first payment on the day before the first that is allowed, and on that. */
static void print_first_days(void) {
    seddolki_record trade = specified_repo();
    seddolki_set_u16(&trade.value_day_1, 1);
    seddolki_set_u16(&trade.value_day_2, 731);
    seddolki_set_u16(&trade.first_payment_day, 1);
    print_answer("on value day 1", &trade);
    seddolki_set_u16(&trade.first_payment_day, 2);
    print_answer("after value day 1", &trade);
    trade = specified_repo();
    trade.phase = 2;
    seddolki_set_u16(&trade.first_payment_day, 0);
    print_answer("settled, on day 0", &trade);
    seddolki_set_u16(&trade.first_payment_day, 1);
    print_answer("settled, after day 0", &trade);
}

/* Rule 12: a last payment above the limit, where it is a flow and where it is none. */
static void print_large_payments(void) {
    seddolki_record trade = specified_repo();
    seddolki_set_u64(&trade.nominal, SEDDOLKI_MAX_AMOUNT);
    print_answer("too large after value day 2", &trade);
    trade.phase = 2;
    print_answer("settled, too large after value day 2", &trade);
    seddolki_set_u16(&trade.payments, 2);
    print_answer("settled, too large on value day 2", &trade);
    trade.phase = 1;
    print_answer("too large on value day 2", &trade);
}

int main(int count, char **names) {
    seddolki_record trade = specified_repo();
    seddolki_block book[BLOCKS];
    uint32_t day;
    expect(count == 2, "coupons_in_term BOOK");
    expect(seddolki_day_of(2026, 11, 16, &day), "there is such a date");
    write_header(&empty[0], 2, day);
    write_curve(&empty[1], 1);
    write_curve(&empty[2], 2);
    append(book, &trade);
    compare(book, BLOCKS, names[1]);
    print_phases(trade, SEDDOLKI_SPECIFIED, 1);
    print_phases(trade, SEDDOLKI_POOL, 2);
    seddolki_set_u16(&trade.payments, 2);
    print_phases(trade, SEDDOLKI_SPECIFIED, 1);
    print_first_days();
    print_large_payments();
    expect(fflush(stdout) == 0, "all is printed");
    return 0;
}

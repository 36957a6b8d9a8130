/*
 * Document 01's example: its book built, margined and emptied again by the
 * names of the header alone, and compared with a file: example_book BOOK
 */
#include "book.h"
#include "seddolki.h"

#include <inttypes.h>
#include <string.h>

static void write_trade(seddolki_record *trade) {
    trade->kind = SEDDOLKI_OUTRIGHT;
    trade->side = SEDDOLKI_BUYER;
    trade->security_curve = 1;
    trade->cash_curve = 1;
    trade->security = SEDDOLKI_SINGLE_PAYMENT;
    seddolki_set_u16(&trade->value_day_1, 0);
    seddolki_set_u16(&trade->first_payment_day, 365);
    seddolki_set_u64(&trade->nominal, 100000);
    seddolki_set_u32(&trade->price_or_rate, 700000);
}

static void append(seddolki_block book[3], const seddolki_record *trade) {
    seddolki_answer answer = seddolki_append((uint8_t *)book, 3 * sizeof *book, 2 * sizeof *book,
                                             valuation_day(book), (const uint8_t *)trade);
    expect(answer.number == SEDDOLKI_DONE, "the trade is appended");
    expect(answer.value == 3 * sizeof *book, "the book has a block more");
    expect(seddolki_get_u16(&book[0].header.trade_blocks) == 1, "the header counts the block");
    expect(book[2].trades.kind == SEDDOLKI_TRADES_KIND, "the block is one of trades");
    expect(book[2].trades.count == 1, "the block counts the trade");
    expect(!memcmp(&book[2].trades.places[0], trade, sizeof *trade), "the trade is in its place");
}

static void print_curves(const seddolki_report *report) {
    int i;
    for (i = 0; i < SEDDOLKI_MAX_CURVES; i++) {
        const seddolki_curve_figures *curve = &report->curves[i];
        printf("curve %d currency %" PRIu32 " base %" PRId64 " loss %" PRId64 " scenario %" PRIu32
               " tolerance %" PRIu64 "\n",
               i + 1, seddolki_get_u32(&curve->currency), seddolki_get_i64(&curve->base),
               seddolki_get_i64(&curve->worst_loss), seddolki_get_u32(&curve->scenario),
               seddolki_get_u64(&curve->tolerance));
    }
}

static void print_currencies(const seddolki_report *report) {
    int i;
    for (i = 0; i < SEDDOLKI_MAX_CURRENCIES; i++) {
        const seddolki_currency_figures *currency = &report->currencies[i];
        printf("currency %d initial %" PRId64 " variation %" PRId64 " total %" PRId64 "\n", i + 1,
               seddolki_get_i64(&currency->initial), seddolki_get_i64(&currency->variation),
               seddolki_get_i64(&currency->total));
    }
}

static void margin(const seddolki_block book[3]) {
    seddolki_block report;
    seddolki_answer answer =
        seddolki_margin((const uint8_t *)book, 3 * sizeof *book, 3 * sizeof *book,
                        valuation_day(book), report.bytes, sizeof report);
    expect(answer.number == SEDDOLKI_DONE, "the book has a margin");
    expect(report.head.kind == SEDDOLKI_REPORT_KIND, "a report is of its kind");
    expect(seddolki_get_u32(&report.head.check) == seddolki_check_of(&report),
           "a report has its check");
    printf("report %" PRIu16 " account %" PRIu32 "\n", seddolki_get_u16(&report.report.number),
           seddolki_get_u32(&report.report.account));
    print_curves(&report.report);
    print_currencies(&report.report);
}

static void read_back(const seddolki_block book[3], const seddolki_record *trade) {
    seddolki_record again;
    seddolki_answer answer = seddolki_read((const uint8_t *)book, 3 * sizeof *book,
                                           3 * sizeof *book, 0, (uint8_t *)&again);
    expect(answer.number == SEDDOLKI_DONE, "the trade is read");
    expect(!memcmp(&again, trade, sizeof again), "the trade is the one appended");
}

int main(int count, char **names) {
    static seddolki_block book[3], before[3];
    static seddolki_record trade;
    seddolki_answer struck;
    expect(count == 2, "example_book BOOK");
    write_header(&book[0], 1, 0);
    write_curve(&book[1], 1);
    memcpy(before, book, sizeof book);
    write_trade(&trade);
    append(book, &trade);
    compare(book, 3, names[1]);
    margin(book);
    read_back(book, &trade);
    struck = seddolki_strike((uint8_t *)book, sizeof book, sizeof book, valuation_day(book), 0);
    expect(struck.number == SEDDOLKI_DONE, "the trade is struck");
    expect(struck.value == 2 * sizeof *book, "the book has a block fewer");
    expect(!memcmp(book, before, sizeof book), "the book is as before");
    expect(fflush(stdout) == 0, "all is printed");
    return 0;
}

/*
 * Shows the margin of document 01's example with one more trade, by the names
 * of the header alone, and previews that are refused: preview BOOK
 */
#include "load.h"
#include "seddolki.h"

#include <inttypes.h>
#include <string.h>

enum {
    BLOCKS = 3,
    LAST = BLOCKS - 1,
    USED = BLOCKS * SEDDOLKI_BLOCK,
    ROOM = USED + SEDDOLKI_BLOCK,
    PAINT = 0xa5
};

/* The book, and behind it the place of one block more. */
static seddolki_block book[BLOCKS + 1], before[BLOCKS + 1];

/* The space for a report, and bytes behind a report. */
static uint8_t space[SEDDOLKI_BLOCK + 7], painted[sizeof space];

/* What a call is given beside the book. */
typedef struct {
    size_t len;
    seddolki_record record;
    size_t report_len;
} trial;

/* The book's first trade, with all the room that it can need. */
static trial once_more(void) {
    trial asked;
    asked.len = ROOM;
    asked.record = book[LAST].trades.places[0];
    asked.report_len = sizeof space;
    return asked;
}

static seddolki_answer preview(const trial *asked) {
    seddolki_record record = asked->record;
    seddolki_answer answer;
    memcpy(before, book, sizeof book);
    memcpy(space, painted, sizeof space);
    answer = seddolki_preview((const uint8_t *)book, asked->len, USED, valuation_day(book),
                              (const uint8_t *)&record, space, asked->report_len);
    expect(!memcmp(book, before, sizeof book), "the book stays");
    expect(!memcmp(&record, &asked->record, sizeof record), "the record stays");
    return answer;
}

static void print_refusal(const char *what, const trial *asked) {
    seddolki_answer answer = preview(asked);
    expect(answer.number != SEDDOLKI_DONE, what);
    expect(!memcmp(space, painted, sizeof space), "a refused call writes nothing");
    printf("%s: refused by %" PRIu64 " in block %" PRIu64 "\n", what, answer.number, answer.value);
}

/* The margin of a copy of the book, in as many lent bytes, after an append. */
static seddolki_block appended_margin(const trial *asked) {
    static seddolki_block copy[BLOCKS + 1];
    seddolki_block report;
    seddolki_answer answer;
    memcpy(copy, book, sizeof copy);
    answer = seddolki_append((uint8_t *)copy, asked->len, USED, valuation_day(book),
                             (const uint8_t *)&asked->record);
    expect(answer.number == SEDDOLKI_DONE, "the trade is appended");
    answer = seddolki_margin((const uint8_t *)copy, asked->len, (size_t)answer.value,
                             valuation_day(book), report.bytes, sizeof report);
    expect(answer.number == SEDDOLKI_DONE, "the longer book has a margin");
    return report;
}

static void print_preview(const char *what) {
    trial asked = once_more();
    seddolki_block due = appended_margin(&asked);
    seddolki_answer answer = preview(&asked);
    const seddolki_currency_figures *figures = &due.report.currencies[SEDDOLKI_TRY - 1];
    expect(answer.number == SEDDOLKI_DONE, "there is a preview");
    expect(answer.value == 0, "there is no other result");
    expect(!memcmp(space, &due, sizeof due), "the report is that of the longer book");
    expect(!memcmp(space + sizeof due, painted, sizeof space - sizeof due),
           "bytes past the report stay");
    printf("%s: initial %" PRId64 " variation %" PRId64 " total %" PRId64 "\n", what,
           seddolki_get_i64(&figures->initial), seddolki_get_i64(&figures->variation),
           seddolki_get_i64(&figures->total));
}

/* Appends the first trade until its block is full. */
static void fill_block(void) {
    const seddolki_record trade = once_more().record;
    while (book[LAST].trades.count < SEDDOLKI_FULL_BLOCK) {
        seddolki_answer answer = seddolki_append((uint8_t *)book, USED, USED, valuation_day(book),
                                                 (const uint8_t *)&trade);
        expect(answer.number == SEDDOLKI_DONE && answer.value == USED, "the block takes a trade");
    }
}

/* All that can be wrong at once, of which the first is mended each time. */
static void print_refusals(void) {
    trial asked = once_more();
    asked.len = ROOM - 1;
    asked.report_len = SEDDOLKI_BLOCK - 1;
    seddolki_set_u16(&asked.record.first_payment_day, SEDDOLKI_MAX_DAY + 1);
    book[1].head.check.bytes[0] ^= 1;
    print_refusal("a wrong check", &asked);
    book[1].head.check.bytes[0] ^= 1;
    print_refusal("a day too late", &asked);
    asked.record = once_more().record;
    if (book[LAST].trades.count == SEDDOLKI_FULL_BLOCK)
        print_refusal("no room for a block", &asked);
    asked.len = ROOM;
    print_refusal("no space for a report", &asked);
}

int main(int count, char **names) {
    expect(count == 2, "preview BOOK");
    expect(load(names[1], book, BLOCKS) == BLOCKS, "the file has the blocks");
    memset(&book[BLOCKS], PAINT, sizeof *book);
    memset(painted, PAINT, sizeof painted);
    print_refusals();
    print_preview("a second trade");
    fill_block();
    print_refusals();
    print_preview("a tenth trade");
    expect(fflush(stdout) == 0, "all is printed");
    return 0;
}

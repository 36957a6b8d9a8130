/*
 * Prints the account statements of books by the names of the header alone,
 * after calls that are refused, and that of the last book, which has one curve,
 * when it is full of its first trade: statement BOOK ...
 */
#include "load.h"
#include "seddolki.h"

#include <string.h>

enum { PAINT = 0xa5, FULL = SEDDOLKI_MAX_BLOCKS * SEDDOLKI_BLOCK };

static seddolki_block book[SEDDOLKI_MAX_BLOCKS], before[SEDDOLKI_MAX_BLOCKS];
static size_t used;

/* The space for the longest page with bytes behind it, and what it is due to hold. */
static uint8_t space[SEDDOLKI_PAGE_SIZE + 7], due[sizeof space];

/* That a call gives this answer, and leaves in the space what is due there. */
static void expect_answer(uint32_t day, size_t page_len, uint64_t number, uint64_t value) {
    seddolki_answer answer;
    memcpy(before, book, sizeof book);
    memset(space, PAINT, sizeof space);
    answer = seddolki_statement((const uint8_t *)book, sizeof book, used, day, space, page_len);
    expect(answer.number == number && answer.value == value, "the answer is the one due");
    expect(!memcmp(book, before, sizeof book), "the book stays");
    expect(!memcmp(space, due, sizeof space), "the space holds what is due");
}

/* All that can be wrong at once, of which the first is mended each time; nothing is written. */
static void expect_refusals(size_t length) {
    const uint32_t day = valuation_day(book);
    memset(due, PAINT, sizeof due);
    book[1].head.check.bytes[0] ^= 1;
    expect_answer(day + 1, length - 1, SEDDOLKI_CHECK, 1);
    book[1].head.check.bytes[0] ^= 1;
    expect_answer(day + 1, length - 1, SEDDOLKI_VALUATION_DAY, 0);
    expect_answer(day + 1, length, SEDDOLKI_VALUATION_DAY, 0);
    expect_answer(day + 1, 0, SEDDOLKI_VALUATION_DAY, 0);
    expect_answer(day, length - 1, SEDDOLKI_REPORT_SPACE, 0);
    expect_answer(day, 0, SEDDOLKI_REPORT_SPACE, 0);
}

/* Prints the page, the same in longer space and in space of its own length. */
static void print_page(size_t length) {
    const uint32_t day = valuation_day(book);
    expect_refusals(length);
    seddolki_statement((const uint8_t *)book, sizeof book, used, day, space, sizeof space);
    memcpy(due, space, length);
    expect_answer(day, sizeof space, SEDDOLKI_DONE, length);
    expect_answer(day, length, SEDDOLKI_DONE, length);
    expect(fwrite(space, 1, length, stdout) == length, "the page is printed");
}

/* The page's length, by the book's blocks and the currencies of its curves. */
static size_t length_of(size_t blocks) {
    const size_t curves = seddolki_get_u16(&book[0].header.curves);
    size_t lines = 1 + curves, i;
    int has[SEDDOLKI_MAX_CURRENCIES + 1] = {0};
    for (i = 1; i <= curves; i++) has[book[i].curve.currency] = 1;
    for (i = SEDDOLKI_TRY; i <= SEDDOLKI_EUR; i++) lines += has[i] ? 1 : 0;
    for (i = 1 + curves; i < blocks; i++) lines += book[i].trades.count;
    return lines * SEDDOLKI_LINE_SIZE;
}

static void append_until_full(void) {
    const seddolki_record trade = book[2].trades.places[0];
    seddolki_answer answer;
    for (;;) {
        answer = seddolki_append((uint8_t *)book, sizeof book, used, valuation_day(book),
                                 (const uint8_t *)&trade);
        if (answer.number != SEDDOLKI_DONE) break;
        used = (size_t)answer.value;
    }
    expect(answer.number == SEDDOLKI_BOOK_SPACE && used == FULL, "the book is full");
}

int main(int count, char **names) {
    int i;
    expect(count > 1, "statement BOOK ...");
    for (i = 1; i < count; i++) {
        size_t blocks = load(names[i], book, SEDDOLKI_MAX_BLOCKS);
        used = blocks * SEDDOLKI_BLOCK;
        print_page(length_of(blocks));
    }
    append_until_full();
    expect(length_of(SEDDOLKI_MAX_BLOCKS) == SEDDOLKI_PAGE_SIZE, "no page is longer");
    print_page(SEDDOLKI_PAGE_SIZE);
    expect(fflush(stdout) == 0, "all is printed");
    return 0;
}

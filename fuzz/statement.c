/*
 * What a statement promises: a page of whole lines with the book's trades and
 * the figures that a margin of the same day reports, and no other byte written.
 * Where an input asks for it, the page of its book filled with trades is looked
 * at too.
 */
#include "answers.h"
#include "bond.h"
#include "calls.h"
#include "day.h"
#include "fill.h"
#include "held.h"
#include "lent.h"
#include "page.h"

#include <stdio.h>
#include <string.h>

/* The work of a filled book at most: of single payments a full one has a ninth for a scenario. */
enum { FILLED_WORK = 20000 };

/* How many pages were written, in all and of filled books, and the most bytes of one. */
static uint64_t done, of_filled, longest;

__attribute__((destructor)) static void print_pages(void) {
    if (!done) return;
    fprintf(stderr, "%llu pages, %llu of them of filled books; the longest of %llu bytes\n",
            (unsigned long long)done, (unsigned long long)of_filled, (unsigned long long)longest);
}

/* The letters of a currency by its number. */
static const char *const letters[] = {"", "TRY", "USD", "EUR"};

/* The length of an accepted book's page. */
static size_t length_of(const uint8_t *book, size_t used) {
    size_t lines = 1 + trades_of(book, used) + curves_of(book);
    for (uint8_t i = SEDDOLKI_TRY; i <= SEDDOLKI_EUR; i++) lines += has_currency(book, i);
    return lines * SEDDOLKI_LINE_SIZE;
}

static void expect_title(page_line line, const seddolki_header *header) {
    read_word(&line, "account");
    expect(read_number(&line) == seddolki_get_u32(&header->account), "a page has the account");
    read_amounts(&line, NULL, 0);
}

static void expect_trade(page_line line, size_t position, const seddolki_record *trade) {
    seddolki_bond bond = seddolki_bond_of(trade);
    int has_security = trade->security != SEDDOLKI_NO_SECURITY;
    uint64_t day = has_security ? last_payment_day(&bond) : seddolki_get_u16(&trade->value_day_2);
    int64_t nominal;
    expect(read_number(&line) == position, "a trade has its position");
    expect(read_number(&line) == trade->kind, "a trade has its kind");
    expect(read_number(&line) == trade->side, "a trade has its side");
    expect(read_number(&line) == day, "a trade has its last day");
    read_amounts(&line, &nominal, 1);
    expect(nominal == (int64_t)seddolki_get_u64(&trade->nominal), "a trade has its nominal");
}

static void expect_curve(page_line line, const seddolki_curve *curve,
                         const seddolki_curve_figures *figures) {
    int64_t amounts[3];
    expect(read_number(&line) == curve->id, "a curve has its id");
    expect(read_number(&line) == seddolki_get_u32(&figures->scenario), "a curve has its scenario");
    read_word(&line, letters[curve->currency]);
    read_amounts(&line, amounts, 3);
    expect(amounts[0] == seddolki_get_i64(&figures->base), "a curve has its base");
    expect(amounts[1] == seddolki_get_i64(&figures->worst_loss), "a curve has its worst loss");
    expect(amounts[2] == (int64_t)seddolki_get_u64(&figures->tolerance),
           "a curve has its tolerance");
}

static void expect_currency(page_line line, uint8_t currency,
                            const seddolki_currency_figures *figures) {
    int64_t amounts[3];
    read_word(&line, letters[currency]);
    read_amounts(&line, amounts, 3);
    expect(amounts[0] == seddolki_get_i64(&figures->initial), "a currency has its initial");
    expect(amounts[1] == seddolki_get_i64(&figures->variation), "a currency has its variation");
    expect(amounts[2] == seddolki_get_i64(&figures->total), "a currency has its total");
}

/* That a page has the lines due: of the book, and of the report of its margin. */
static void expect_lines(const uint8_t *page, const input *in, const seddolki_report *report) {
    const seddolki_block *blocks = blocks_of(in->lent), *trade_blocks = trade_blocks_of(in->lent);
    size_t trades = trades_of(in->lent, in->used), next = 0;
    expect_title(line_of(page, next++), &blocks->header);
    for (size_t i = 0; i < trades; i++)
        expect_trade(line_of(page, next++), i, trade_at(trade_blocks, i));
    for (size_t id = 1; id <= curves_of(in->lent); id++)
        expect_curve(line_of(page, next++), &blocks[id].curve, &report->curves[id - 1]);
    for (uint8_t i = SEDDOLKI_TRY; i <= SEDDOLKI_EUR; i++)
        if (has_currency(in->lent, i))
            expect_currency(line_of(page, next++), i, &report->currencies[i - 1]);
}

/* That a done statement of an accepted book has left every byte of the space as it is due. */
static void expect_page(const input *in, const uint8_t *page, size_t page_len, size_t length) {
    uint8_t *report = lend_painted(2, SEDDOLKI_BLOCK);
    seddolki_answer margin =
        seddolki_margin(in->lent, in->len, in->used, in->day, report, SEDDOLKI_BLOCK);
    expect(margin.number == 0, "a book with a statement has a margin");
    expect(is_painted(page + length, page_len - length), "bytes past the page stay");
    expect_lines(page, in, &blocks_of(report)->report);
    note_worst(&blocks_of(report)->report);
    done++;
    if (length > longest) longest = length;
}

/* A statement in so many lent bytes; `length` is that of the page, where the book is accepted. */
static void state(const input *in, seddolki_answer due, size_t page_len, size_t length) {
    uint8_t *book = lend(0, in->lent, in->len), *page = lend_painted(1, page_len);
    seddolki_answer answer = seen(
        STATEMENT, seddolki_statement(book, in->len, in->used, in->day, page, page_len));
    expect(!memcmp(book, in->lent, in->len), "statement leaves the book");
    expect_due(answer, due, "statement refuses what check refuses, and another day");
    expect(!answer.number || is_painted(page, page_len), "a refused statement writes nothing");
    if (due.number) return;
    seddolki_answer fitting = {page_len < length ? SEDDOLKI_REPORT_SPACE : SEDDOLKI_DONE,
                               page_len < length ? 0 : length};
    expect(same(answer, fitting), "a page that fits is written, any other refused by 13");
    if (answer.number == 0) expect_page(in, page, page_len, length);
}

/* No space for a page, a byte less than its length, its length, and more or fewer. */
static size_t space_for(size_t length, size_t report_len) {
    switch (report_len % 5) {
    case 0: return 0;
    case 1: return length - 1;
    case 2: return length;
    case 3: return length + report_len;
    default: return report_len % length;
    }
}

/* The statement of an accepted book that is for the input's day. */
static void state_fitting(const input *in) {
    size_t length = length_of(in->lent, in->used);
    state(in, (seddolki_answer){0, 0}, space_for(length, in->report_len), length);
}

/* That of the input's book filled as it asks. */
static void state_filled(const input *in) {
    static uint8_t book[SEDDOLKI_LARGEST_BOOK];
    input next = *in;
    next.lent = book;
    next.len = next.used = fill(book, in);
    if (!next.used || work_of(book, next.used) > FILLED_WORK) return;
    uint64_t before = done;
    state_fitting(&next);
    of_filled += done - before;
}

void try_statement(const input *in, seddolki_answer due) {
    if (due.number) {
        state(in, due, in->report_len, 0);
        return;
    }
    if (is_quick(in->lent, in->used)) state_fitting(in);
    state_filled(in);
}

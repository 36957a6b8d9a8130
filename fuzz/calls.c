/*
 * The calls on any bytes. Whatever a call promises of the lent bytes is looked
 * at after it.
 */
#include "calls.h"

#include "answers.h"
#include "day.h"
#include "flows.h"
#include "held.h"
#include "lent.h"

#include <string.h>

/* That a report has the sums of the flows' present values and tolerances. */
static void expect_sums(const uint8_t *book, size_t used, const seddolki_report *report) {
    for (uint8_t id = 1; id <= curves_of(book); id++) {
        const seddolki_curve_figures *shown = &report->curves[id - 1];
        worth due = worth_on(blocks_of(book), used, id);
        expect(seddolki_get_i64(&shown->base) == due.base, "a base is its flows' present value");
        expect(seddolki_get_u64(&shown->tolerance) == due.tolerance,
               "a tolerance is the sum of its flows'");
    }
}

static void try_margin(const input *in, seddolki_answer due) {
    uint8_t *book = lend(0, in->lent, in->len);
    if (due.number == 0 && !is_quick(book, in->used)) return;
    uint8_t *report = lend_painted(1, in->report_len);
    seddolki_answer answer =
        seen(MARGIN, seddolki_margin(book, in->len, in->used, in->day, report, in->report_len));
    expect(!memcmp(book, in->lent, in->len), "margin leaves the book");
    expect_due(answer, due, "margin refuses what check refuses, and another day");
    if (answer.number) {
        expect(is_painted(report, in->report_len), "a refused margin writes nothing");
        return;
    }
    const seddolki_block *first = blocks_of(book), *block = blocks_of(report);
    note_worst(&block->report);
    expect(block->head.kind == SEDDOLKI_REPORT_KIND, "a report is of its kind");
    expect(seddolki_get_u32(&block->report.account) == seddolki_get_u32(&first->header.account),
           "a report has the account");
    expect(seddolki_get_u32(&block->head.check) == seddolki_check_of(block),
           "a report has its check");
    expect(is_painted(report + SEDDOLKI_BLOCK, in->report_len - SEDDOLKI_BLOCK),
           "bytes past the report stay");
    expect_sums(book, in->used, &block->report);
}

static void try_read(const input *in, seddolki_answer due) {
    uint8_t *book = lend(0, in->lent, in->len);
    uint8_t *record = lend(1, in->record, SEDDOLKI_RECORD);
    seddolki_answer answer =
        seen(READ, seddolki_read(book, in->len, in->used, in->position, record));
    expect(!memcmp(book, in->lent, in->len), "read leaves the book");
    expect_due(answer, due, "read refuses what check refuses");
    expect(!answer.number || all_zero(record, SEDDOLKI_RECORD), "a refused read gives zeros");
}

static void try_append(const input *in, seddolki_answer due) {
    uint8_t *book = lend(0, in->lent, in->len);
    uint8_t *record = lend(1, in->record, SEDDOLKI_RECORD);
    seddolki_answer answer =
        seen(APPEND, seddolki_append(book, in->len, in->used, in->day, record));
    expect(!memcmp(record, in->record, SEDDOLKI_RECORD), "append leaves the record");
    expect_due(answer, due, "append refuses what check refuses, and another day");
    if (answer.number) {
        expect(!memcmp(book, in->lent, in->len), "a refused append writes nothing");
        return;
    }
    size_t used = answer.value;
    expect(used == in->used || used == in->used + SEDDOLKI_BLOCK, "append adds at most a block");
    note_length(APPEND, in->used, used);
    expect(!memcmp(book + used, in->lent + used, in->len - used), "bytes behind stay");
    expect(seddolki_check(book, in->len, used).number == 0, "an appended book is accepted");
    expect_same_day(in, book);
    note_held(book, used);
    size_t last = trades_of(book, used) - 1;
    uint8_t *again = lend(2, in->record, SEDDOLKI_RECORD);
    memset(again, 0, SEDDOLKI_RECORD);
    expect(seddolki_read(book, in->len, used, last, again).number == 0, "a new record is read");
    expect(!memcmp(again, in->record, SEDDOLKI_RECORD), "a new record is the one given");
    seddolki_answer struck = seddolki_strike(book, in->len, used, in->day, last);
    expect(struck.number == 0 && struck.value == in->used, "a new record is struck");
    expect(!memcmp(book, in->lent, in->used), "append and strike cancel");
}

static input parse(const uint8_t *data, size_t size) {
    const input_head *head = (const input_head *)data;
    input in = {.head = head, .lent = data + HEAD, .len = size - HEAD};
    in.record = (const uint8_t *)&head->record;
    in.position = seddolki_get_u32(&head->position);
    in.report_len = seddolki_get_u16(&head->report_len) % SPACE_MOST;
    in.filled = seddolki_get_u16(&head->filled);
    in.used = in.len - seddolki_get_u32(&head->behind);
    in.day = valuation_day(in.lent, in.len) ^ seddolki_get_u32(&head->days_apart);
    return in;
}

static void try_calls(const input *in, seddolki_answer checked) {
    static try_call *const tries[CALLS] = {
        [MARGIN] = try_margin,       [APPEND] = try_append, [PREVIEW] = try_preview,
        [STRIKE] = try_strike,       [READ] = try_read,     [PRESENT_VALUE] = try_present_value,
        [BOOTSTRAP] = try_bootstrap, [STATEMENT] = try_statement,
    };
    seddolki_answer on_day = due_on_day(in, checked);
    for (int call = CHECK + 1; call < CALLS; call++)
        if (ALONE == CALLS || ALONE == call) tries[call](in, call == READ ? checked : on_day);
}

int LLVMFuzzerTestOneInput(const uint8_t *data, size_t size) {
    if (size < HEAD || size > LENT_MOST) return 0;
    expect(seddolki_version() == SEDDOLKI_VERSION, "the archive is of the header's version");
    input in = parse(data, size);
    uint8_t *book = lend(0, in.lent, in.len);
    seddolki_answer checked = seen(CHECK, seddolki_check(book, in.len, in.used));
    expect(!memcmp(book, in.lent, in.len), "check leaves the book");
    expect(checked.number || checked.value == 0, "an accepted book has value 0");
    expect(checked.number <= SEDDOLKI_FLOW_LIMIT, "check refuses by 1 to 12");
    if (checked.number == 0) note_held(book, in.used);
    try_calls(&in, checked);
    return 0;
}

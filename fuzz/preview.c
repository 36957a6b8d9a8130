/*
 * What a preview promises: it answers and shows what an append and then a
 * margin would on a copy of the book, in as many lent bytes, and writes
 * nothing else.
 */
#include "answers.h"
#include "calls.h"
#include "day.h"
#include "held.h"
#include "lent.h"

#include <string.h>

/* Each kind, side, phase and security of a trade previewed, and each place in its block. */
KEPT previewed[4][4][4][4], places[SEDDOLKI_FULL_BLOCK];

static void note_previewed(const input *in, const uint8_t *longer, size_t used) {
    const seddolki_record *record = &in->head->record;
    previewed[record->kind][record->side][record->phase][record->security] = 1;
    places[blocks_of(longer)[used / SEDDOLKI_BLOCK - 1].trades.count - 1] = 1;
    note_length(PREVIEW, in->used, used);
    note_held(longer, used);
}

/* That a preview is the margin of the longer book. */
static void expect_margin(const input *in, const uint8_t *longer, size_t used,
                          seddolki_answer answer, const uint8_t *report) {
    uint8_t *due = lend_painted(1, in->report_len);
    seddolki_answer margin = seddolki_margin(longer, in->len, used, in->day, due, in->report_len);
    expect(same(answer, margin), "preview answers as margin does after the append");
    expect(!memcmp(report, due, in->report_len), "preview shows the margin after the append");
    if (answer.number) return;
    expect(is_painted(report + SEDDOLKI_BLOCK, in->report_len - SEDDOLKI_BLOCK),
           "bytes past the preview stay");
    note_previewed(in, longer, used);
    note_worst(&blocks_of(report)->report);
}

void try_preview(const input *in, seddolki_answer due) {
    uint8_t *longer = lend(3, in->lent, in->len);
    seddolki_answer appended = seddolki_append(longer, in->len, in->used, in->day, in->record);
    if (appended.number == 0 && !is_quick(longer, appended.value)) return;
    uint8_t *book = lend(0, in->lent, in->len), *record = lend(1, in->record, SEDDOLKI_RECORD);
    uint8_t *report = lend_painted(2, in->report_len);
    seddolki_answer answer = seen(PREVIEW, seddolki_preview(book, in->len, in->used, in->day,
                                                            record, report, in->report_len));
    expect(!memcmp(book, in->lent, in->len), "preview leaves the book");
    expect(!memcmp(record, in->record, SEDDOLKI_RECORD), "preview leaves the record");
    expect_due(answer, due, "preview refuses what check refuses, and another day");
    expect(!answer.number || is_painted(report, in->report_len),
           "a refused preview writes nothing");
    expect(!appended.number || same(answer, appended), "preview refuses what append refuses");
    if (appended.number == 0) expect_margin(in, longer, appended.value, answer, report);
}

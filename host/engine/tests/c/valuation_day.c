/*
 * Gives the current day to the functions that ask for it, by the names of the
 * header alone: the day that the book is for, and others: valuation_day BOOK
 */
#include "load.h"
#include "seddolki.h"

#include <inttypes.h>
#include <string.h>

enum {
    BLOCKS = 4,
    LAST = BLOCKS - 1,
    USED = BLOCKS * SEDDOLKI_BLOCK,
    ROOM = USED + SEDDOLKI_BLOCK,
    /* A title, the trades of a full block, two curves of one currency. */
    PAGE = SEDDOLKI_LINE_SIZE * (1 + SEDDOLKI_FULL_BLOCK + 2 + 1),
    PAINT = 0xa5
};

/* The book, and behind it the place of one block more. */
static seddolki_block book[BLOCKS + 1], before[BLOCKS + 1];

/* The space for a report or a page. */
static uint8_t space[PAGE], painted[PAGE];

/* Calls that ground 19 refused. */
static int refused;

/* What a call is given beside the book. */
typedef struct {
    size_t len;
    uint32_t day;
    seddolki_record record;
    size_t position;
    size_t curve;
    size_t space_len;
} given;

static given all_right(void) {
    given asked;
    asked.len = ROOM;
    asked.day = valuation_day(book);
    asked.record = book[LAST].trades.places[0];
    asked.position = 0;
    asked.curve = 1;
    asked.space_len = sizeof space;
    return asked;
}

static seddolki_answer margin(const given *asked) {
    return seddolki_margin((const uint8_t *)book, asked->len, USED, asked->day, space,
                           asked->space_len);
}

static seddolki_answer statement(const given *asked) {
    return seddolki_statement((const uint8_t *)book, asked->len, USED, asked->day, space,
                              asked->space_len);
}

static seddolki_answer append(const given *asked) {
    return seddolki_append((uint8_t *)book, asked->len, USED, asked->day,
                           (const uint8_t *)&asked->record);
}

static seddolki_answer preview(const given *asked) {
    return seddolki_preview((const uint8_t *)book, asked->len, USED, asked->day,
                            (const uint8_t *)&asked->record, space, asked->space_len);
}

static seddolki_answer strike(const given *asked) {
    return seddolki_strike((uint8_t *)book, asked->len, USED, asked->day, asked->position);
}

/* By the trade's bond, which pays its last behind the curve's last node, for 9,024.00. */
static seddolki_answer bootstrap(const given *asked) {
    seddolki_bond bond = seddolki_bond_of(&asked->record);
    seddolki_set_u16(&bond.term, 0);
    return seddolki_bootstrap((uint8_t *)book, asked->len, USED, asked->day, asked->curve,
                              (const uint8_t *)&bond, 902400, 0, 0, 0);
}

static void spoil_record(given *asked) { asked->record.kind = 0; }

static void spoil_room(given *asked) { asked->len = ROOM - 1; }

static void spoil_position(given *asked) { asked->position = SEDDOLKI_FULL_BLOCK; }

static void spoil_curve(given *asked) { asked->curve = 0; }

static void spoil_report(given *asked) { asked->space_len = SEDDOLKI_BLOCK - 1; }

static void spoil_page(given *asked) { asked->space_len = PAGE - 1; }

/* A function, something wrong that it may be given, and how that is refused. */
typedef struct {
    const char *what;
    seddolki_answer (*call)(const given *asked);
    void (*spoil)(given *asked);
    uint64_t number, block;
} trial;

static const trial trials[] = {
    {"margin without space", margin, spoil_report, SEDDOLKI_REPORT_SPACE, 0},
    {"statement without space", statement, spoil_page, SEDDOLKI_REPORT_SPACE, 0},
    {"append of a wrong record", append, spoil_record, SEDDOLKI_FORM, BLOCKS},
    {"append without room", append, spoil_room, SEDDOLKI_BOOK_SPACE, 0},
    {"preview of a wrong record", preview, spoil_record, SEDDOLKI_FORM, BLOCKS},
    {"preview without room", preview, spoil_room, SEDDOLKI_BOOK_SPACE, 0},
    {"preview without space", preview, spoil_report, SEDDOLKI_REPORT_SPACE, 0},
    {"strike of no trade", strike, spoil_position, SEDDOLKI_POSITION, 0},
    {"bootstrap of no curve", bootstrap, spoil_curve, SEDDOLKI_FORM, 0},
};

enum { TRIALS = sizeof trials / sizeof *trials };

/* That a call is refused so, and writes nothing. */
static void expect_refusal(const trial *tried, const given *asked, uint64_t number,
                           uint64_t block) {
    seddolki_answer answer;
    memcpy(before, book, sizeof book);
    answer = tried->call(asked);
    expect(answer.number == number && answer.value == block, tried->what);
    expect(!memcmp(book, before, sizeof book), "a refused call leaves the book");
    expect(!memcmp(space, painted, sizeof space), "a refused call leaves the space");
}

/* Days that are not the book's: one byte differs, the next one, and the one before. */
static void try_other_days(const trial *tried, const given *asked) {
    const uint32_t own = valuation_day(book);
    const uint32_t others[] = {own ^ 0x01,       own ^ 0x8000, own ^ 0x10000,
                               own ^ 0x80000000, own + 1,      own - 1};
    size_t i;
    for (i = 0; i < sizeof others / sizeof *others; i++) {
        given other = *asked;
        other.day = others[i];
        expect_refusal(tried, &other, SEDDOLKI_VALUATION_DAY, 0);
        refused++;
    }
}

/* A block's own ground comes first, whatever the day. */
static void try_wrong_block(const trial *tried, const given *asked) {
    given other = *asked;
    other.day++;
    book[LAST].head.check.bytes[0] ^= 1;
    expect_refusal(tried, &other, SEDDOLKI_CHECK, LAST);
    book[LAST].head.check.bytes[0] ^= 1;
}

/* The day comes before what the call itself asks. */
static void try_order(const trial *tried) {
    given asked = all_right();
    try_other_days(tried, &asked);
    tried->spoil(&asked);
    expect_refusal(tried, &asked, tried->number, tried->block);
    try_other_days(tried, &asked);
    try_wrong_block(tried, &asked);
}

static void expect_kept(seddolki_answer answer, size_t used, uint32_t day) {
    expect(answer.number == SEDDOLKI_DONE && answer.value == used, "the call is done");
    expect(valuation_day(book) == day, "the book keeps its day");
}

/* The calls with the book's own day or none; the book then has a node more. */
static void keep_day(uint32_t day) {
    given asked = all_right();
    seddolki_answer answer;
    expect_kept(margin(&asked), 0, day);
    expect_kept(preview(&asked), 0, day);
    expect_kept(statement(&asked), PAGE, day);
    memcpy(space, painted, sizeof space);
    expect_kept(append(&asked), ROOM, day);
    answer = seddolki_strike((uint8_t *)book, ROOM, ROOM, day, SEDDOLKI_FULL_BLOCK);
    expect_kept(answer, USED, day);
    expect_kept(bootstrap(&asked), 0, day);
    answer = seddolki_check((const uint8_t *)book, USED, USED);
    expect_kept(answer, 0, day);
    answer = seddolki_read((const uint8_t *)book, USED, USED, 0, (uint8_t *)&asked.record);
    expect_kept(answer, 0, day);
}

static void set_day(uint32_t day) {
    seddolki_set_u32(&book[0].header.valuation_day, day);
    seddolki_seal(&book[0]);
}

static void try_day(uint32_t day) {
    int i;
    set_day(day);
    refused = 0;
    for (i = 0; i < TRIALS; i++) try_order(&trials[i]);
    keep_day(day);
    printf("day %" PRIu32 ": %d calls refused by %d\n", day, refused, SEDDOLKI_VALUATION_DAY);
}

/* Appends the book's trade until its block is full. */
static void fill_block(void) {
    given asked = all_right();
    while (book[LAST].trades.count < SEDDOLKI_FULL_BLOCK)
        expect(append(&asked).number == SEDDOLKI_DONE, "the block takes a trade");
}

int main(int count, char **names) {
    static seddolki_block whole[BLOCKS + 1];
    uint32_t days[] = {0, 0, 0x01020304, UINT32_MAX};
    size_t i;
    expect(count == 2, "valuation_day BOOK");
    expect(load(names[1], book, BLOCKS) == BLOCKS, "the file has the blocks");
    expect(seddolki_day_of(2026, 11, 16, &days[1]), "there is such a date");
    expect(valuation_day(book) == days[1], "the book is for that day");
    memset(painted, PAINT, sizeof painted);
    memcpy(space, painted, sizeof space);
    fill_block();
    memcpy(whole, book, sizeof whole);
    for (i = 0; i < sizeof days / sizeof *days; i++) {
        memcpy(book, whole, sizeof book);
        try_day(days[i]);
    }
    expect(fflush(stdout) == 0, "all is printed");
    return 0;
}

#include "page.h"

#include "answers.h"

#include <string.h>

enum { COLUMNS = SEDDOLKI_LINE_SIZE - 1, AMOUNT = 22, DECIMALS = 2 };

/* Each number of characters of an amount, by whether it is below 0. */
KEPT characters[2][AMOUNT + 1];

page_line line_of(const uint8_t *page, size_t number) {
    page_line line = {page + number * SEDDOLKI_LINE_SIZE, 0};
    for (size_t i = 0; i < COLUMNS; i++)
        expect(line.bytes[i] >= ' ' && line.bytes[i] <= '~', "a line is of printable characters");
    expect(line.bytes[COLUMNS] == '\n', "a line ends in a line feed");
    return line;
}

static void read_blank(page_line *line) {
    expect(line->bytes[line->column++] == ' ', "blanks stand where nothing else does");
}

void read_word(page_line *line, const char *word) {
    size_t length = strlen(word);
    expect(!memcmp(line->bytes + line->column, word, length), "a word is the one due");
    line->column += length;
    read_blank(line);
}

static int is_digit(uint8_t byte) { return byte >= '0' && byte <= '9'; }

uint64_t read_number(page_line *line) {
    const uint8_t *digits = line->bytes + line->column;
    size_t count = 0;
    uint64_t number = 0;
    while (is_digit(digits[count])) number = 10 * number + (digits[count++] - '0');
    expect(count > 0, "a number has a digit");
    expect(count == 1 || digits[0] != '0', "no zero stands before a number");
    line->column += count;
    read_blank(line);
    return number;
}

/* The amount in its columns: the one way in which it is to be written. */
static int64_t amount_in(const uint8_t columns[AMOUNT]) {
    const size_t point = AMOUNT - 1 - DECIMALS;
    size_t first = 0;
    while (first < point && columns[first] == ' ') first++;
    int below = columns[first] == '-';
    size_t at = first + (size_t)below;
    expect(at < point, "a digit stands before the point");
    expect(columns[at] != '0' || at == point - 1, "no zero stands before an amount");
    uint64_t amount = 0;
    for (; at < AMOUNT; at++) {
        expect(at == point ? columns[at] == '.' : is_digit(columns[at]),
               "an amount has digits, and a point before the last two");
        if (at != point) amount = 10 * amount + (columns[at] - '0');
    }
    expect(amount || !below, "zero has no minus");
    characters[below][AMOUNT - first] = 1;
    return below ? -(int64_t)amount : (int64_t)amount;
}

void read_amounts(page_line *line, int64_t *amounts, size_t count) {
    const size_t start = COLUMNS - count * AMOUNT;
    while (line->column < start) read_blank(line);
    expect(line->column == start, "what a line is of ends before its amounts");
    for (size_t i = 0; i < count; i++) amounts[i] = amount_in(line->bytes + start + i * AMOUNT);
}

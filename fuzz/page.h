/* Reads the lines of an account statement, and looks at their form. */
#ifndef PAGE_H
#define PAGE_H

#include "seddolki.h"

/* A line, and the column that is read next, counted from 0. */
typedef struct {
    const uint8_t *bytes;
    size_t column;
} page_line;

/* The line of a page with this number, counted from 0: 80 printable characters and a line feed. */
page_line line_of(const uint8_t *page, size_t number);

/* Read a word or a number from the left, and the blank behind it. */
void read_word(page_line *line, const char *word);
uint64_t read_number(page_line *line);

/* Reads the amounts that the line ends in, in hundredths; what is left before them is blank. */
void read_amounts(page_line *line, int64_t *amounts, size_t count);

#endif

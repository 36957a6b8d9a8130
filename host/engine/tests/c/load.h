/* Reads the book of an example, and which day it is for. */
#ifndef LOAD_H
#define LOAD_H

#include "expect.h"
#include "seddolki.h"

/* Gives how many blocks the book has, of `most` that there is room for. */
static size_t load(const char *name, seddolki_block *book, size_t most) {
    FILE *file = fopen(name, "rb");
    size_t blocks;
    expect(file != NULL, name);
    blocks = fread(book, sizeof *book, most, file);
    expect(fgetc(file) == EOF, "the file has no more");
    fclose(file);
    return blocks;
}

static uint32_t valuation_day(const seddolki_block *book) {
    return seddolki_get_u32(&book->header.valuation_day);
}

#endif

/* Writes the header of a book, and curves as document 01's example has one. */
#ifndef BOOK_H
#define BOOK_H

#include "load.h"
#include "seddolki.h"

#include <string.h>

static void write_header(seddolki_block *block, uint16_t curves, uint32_t day) {
    seddolki_header *header = &block->header;
    header->kind = SEDDOLKI_HEADER_KIND;
    seddolki_set_u32(&header->account, 7);
    seddolki_set_u16(&header->curves, curves);
    seddolki_set_u32(&header->valuation_day, day);
    seddolki_seal(block);
}

static void write_node(seddolki_node *node, uint16_t day) {
    seddolki_set_u16(&node->day, day);
    seddolki_set_u32(&node->rate, 250000);
    seddolki_set_i32(&node->components[0], 250000);
}

static void write_curve(seddolki_block *block, uint8_t id) {
    seddolki_curve *curve = &block->curve;
    curve->kind = SEDDOLKI_CURVE_KIND;
    seddolki_set_u16(&curve->number, id);
    curve->id = id;
    curve->currency = SEDDOLKI_TRY;
    curve->node_count = 2;
    curve->steps[0] = 1;
    seddolki_set_u16(&curve->ranges[0], 300);
    write_node(&curve->places[0], 365);
    write_node(&curve->places[1], 730);
    seddolki_seal(block);
}

static void compare(const seddolki_block *book, size_t blocks, const char *name) {
    static seddolki_block file[SEDDOLKI_MAX_BLOCKS];
    expect(load(name, file, blocks) == blocks, "the file has the blocks");
    expect(!memcmp(book, file, blocks * sizeof *book), "the book is that of the file");
}

#endif

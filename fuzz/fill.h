/* Books with as many trades as an input asks for. */
#ifndef FILL_H
#define FILL_H

#include "input.h"
#include "seddolki.h"

/*
 * Writes the accepted book of an input with the number of trades that it is to
 * be filled with, or as many as a book takes: its own over and over, each with
 * an amount that no other has. Gives the used length; 0 where the book has no
 * trade or is not to be filled.
 */
size_t fill(uint8_t to[SEDDOLKI_LARGEST_BOOK], const input *in);

#endif

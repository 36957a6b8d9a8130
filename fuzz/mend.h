/* Mends what is wrong in a book's blocks for no reason but their place. */
#ifndef MEND_H
#define MEND_H

#include "seddolki.h"

/* Writes kinds, numbers and ids, the header's count of trade blocks, and the bytes due to be 0. */
void mend_places(seddolki_block *book, size_t blocks);

#endif

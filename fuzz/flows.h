/* What a book's cash flows add up to on a curve, by the engine's single present values. */
#ifndef FLOWS_H
#define FLOWS_H

#include "seddolki.h"

typedef struct {
    int64_t base;
    uint64_t tolerance;
} worth;

/* The base value and the tolerance that a report is to show of a curve of an accepted book. */
worth worth_on(const seddolki_block *book, size_t used, uint8_t id);

/* Whether a repo's first leg has settled. */
int is_settled(const seddolki_record *repo);

#endif

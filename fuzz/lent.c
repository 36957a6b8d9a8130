#define _DEFAULT_SOURCE
#include "lent.h"

#include <stdlib.h>
#include <string.h>
#include <sys/mman.h>

#define GUARD 4096
#define PAINT 0xa5

/* The end of a place: a page of memory without access starts there. */
static uint8_t *end_of(int place) {
    static uint8_t *ends[4];
    if (!ends[place]) {
        uint8_t *start = mmap(NULL, LENT_MOST + GUARD, PROT_READ | PROT_WRITE,
                              MAP_PRIVATE | MAP_ANONYMOUS, -1, 0);
        if (start == MAP_FAILED || mprotect(start + LENT_MOST, GUARD, PROT_NONE)) abort();
        ends[place] = start + LENT_MOST;
    }
    return ends[place];
}

uint8_t *lend(int place, const uint8_t *bytes, size_t len) {
    uint8_t *start = end_of(place) - len;
    if (len) memcpy(start, bytes, len);
    return start;
}

uint8_t *lend_painted(int place, size_t len) { return memset(end_of(place) - len, PAINT, len); }

/* The first byte is paint, and each is as the one before. */
int is_painted(const uint8_t *bytes, size_t len) {
    return !len || (bytes[0] == PAINT && !memcmp(bytes, bytes + 1, len - 1));
}

int all_zero(const uint8_t *bytes, size_t len) {
    for (size_t i = 0; i < len; i++)
        if (bytes[i]) return 0;
    return 1;
}

/* Numbers drawn from a state. */
#ifndef DRAW_H
#define DRAW_H

#include <stddef.h>
#include <stdint.h>

/* A number below `end`. */
static inline size_t draw(uint64_t *state, size_t end) {
    *state = *state * 6364136223846793005u + 1442695040888963407u;
    return (size_t)(*state >> 33) % end;
}

#endif

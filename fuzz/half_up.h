/* Numbers rounded to the nearest, a half up. */
#ifndef HALF_UP_H
#define HALF_UP_H

#include <stdint.h>

typedef unsigned __int128 wide;

static inline uint64_t half_up(wide number, wide divisor) {
    return (uint64_t)((2 * number + divisor) / (2 * divisor));
}

#endif

/* Arbitrary numbers that are the same in each run of a seed, for the programs of this folder. */
#ifndef ARBITRARY_H
#define ARBITRARY_H

#include <stdint.h>

/* Set to the seed, which is not 0. */
static uint64_t state;

/* A number below n. */
static unsigned below(unsigned n) {
    state ^= state << 13;
    state ^= state >> 7;
    state ^= state << 17;
    return (unsigned)((state >> 11) % n);
}

#endif

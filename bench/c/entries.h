/* Arbitrary entries and lists in a pool, most of which a controller takes: for the programs of this folder. */
#ifndef ENTRIES_H
#define ENTRIES_H

#include "arbitrary.h"
#include "nvmectl.h"

#include <string.h>

enum { PAGE = 4096, PAGES = 24, POOL = PAGES * PAGE, BLOCKS = 16, ENTRIES = 4, QUEUES = 3 };

/* Where the rings of each queue begin. */
static const nvmectl_queue queues[QUEUES] = {{0, 1}, {2, 3}, {4, 5}};

/* A number, its lowest byte first. */
static void put(uint8_t *at, uint64_t value, int bytes) {
    for (int i = 0; i < bytes; i++) at[i] = (uint8_t)(value >> 8 * i);
}

/* A descriptor: of data mostly, with what is wrong with it now and then. */
static void describe(uint8_t *at, unsigned depth) {
    static const unsigned lengths[] = {512, 512, 512, 1024, 256, 0, 700, 4096};
    unsigned type = below(8) == 0 ? below(16) : depth < 3 && below(3) == 0 ? 2 + below(2) : below(6) == 0;
    memset(at, 0, 16);
    put(at, below(40) == 0 ? UINT64_C(0xFFFFFFFFFFFFFFF0) : below(PAGES) * PAGE + (below(2) == 0 ? 0 : 8 * below(512)), 8);
    put(at + 8, type == 2 || type == 3 ? 16 * below(6) : lengths[below(8)], 4);
    if (below(60) == 0) at[12] = 1;
    at[15] = (uint8_t)(type << 4 | (below(60) == 0));
}

/* An entry in a ring of a queue: of the admin queue, or a command with a list. */
static void entry(uint8_t *pool, unsigned q) {
    uint8_t *at = pool + 2 * q * PAGE + 64 * below(ENTRIES);
    memset(at, 0, 64);
    put(at + 2, below(4), 2);
    if (q == 0) {
        static const unsigned opcodes[] = {0, 1, 4, 5, 8, 6};
        unsigned named = 1 + below(QUEUES);
        at[0] = (uint8_t)opcodes[below(6)];
        put(at + 24, (uint64_t)below(PAGES + 2) * PAGE, 8);
        put(at + 40, at[0] == 8 ? named | below(4) << 16 : named | (ENTRIES - 1) << 16, 4);
        put(at + 44, at[0] == 1 ? 1 | named << 16 : 1, 4);
        return;
    }
    at[0] = (uint8_t)(below(12) == 0 ? below(16) : below(3) == 0 ? 5 : 1 + below(2));
    at[1] = below(30) == 0 ? (uint8_t)below(256) : 0x40;
    put(at + 4, below(30) == 0 ? 2 : 1, 4);
    describe(at + 24, 0);
    put(at + 40, below(BLOCKS), 8);
    put(at + 48, below(3), 2);
}

/* Six descriptors in a page behind the rings. */
static void spell(uint8_t *pool) {
    uint8_t *at = pool + (6 + below(PAGES - 6)) * PAGE;
    for (unsigned i = 0; i < 6; i++) describe(at + 16 * i, i);
}

#endif

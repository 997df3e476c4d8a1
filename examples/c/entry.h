/* What the guests of the examples write by hand: an entry of a submission queue and its list (NVM Express Base Specification 2.0, sections 3.3.3.1 and 4.1.2). */
#ifndef ENTRY_H
#define ENTRY_H

#include "nvmesgl.h"

#include <stdio.h>
#include <string.h>

enum { OPCODE_WRITE = 1, OPCODE_READ = 2, OPCODE_COMPARE = 5 };
enum { DATA_BLOCK = 0, A_SEGMENT = 2, THE_LAST_SEGMENT = 3 };

/* A number, its lowest byte first. */
static inline void put(uint8_t *at, uint64_t value, int bytes) {
    for (int i = 0; i < bytes; i++) at[i] = (uint8_t)(value >> 8 * i);
}

/* A descriptor of a scatter-gather list. */
static inline void describe(uint8_t *at, unsigned type, uint64_t address, uint32_t length) {
    memset(at, 0, 16);
    put(at, address, 8);
    put(at + 8, length, 4);
    at[15] = (uint8_t)(type << 4);
}

/* An entry over blocks of the one namespace. Its list begins with a descriptor in the entry, which describe writes to entry + 24. */
static inline void write_entry(uint8_t *entry, unsigned opcode, uint16_t cid, uint64_t slba, unsigned blocks) {
    memset(entry, 0, 64);
    entry[0] = (uint8_t)opcode;
    entry[1] = 0x40; /* its data by a scatter-gather list */
    put(entry + 2, cid, 2);
    put(entry + 4, 1, 4); /* the namespace */
    put(entry + 40, slba, 8);
    put(entry + 48, blocks - 1, 2);
}

/* Tells of a call that was not done. Whether it was. */
static inline int told(const char *call, uint32_t code) {
    if (code != NVMESGL_DONE) printf("%s: %s\n", call, nvmesgl_text(code));
    return code == NVMESGL_DONE;
}

#endif

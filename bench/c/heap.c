/* Arbitrary wishes to the library's memory over an array: blocks keep their bytes, do not overlap, and all of them come back. */
#include "heap.h"
#include "nvmesgl.h"

#include <stdio.h>
#include <string.h>

enum { BLOCKS = 64, ROOM = 40000 };

static unsigned char room[ROOM];
static struct {
    unsigned char *p;
    size_t n;
    unsigned char mark;
} blocks[BLOCKS];
static uint64_t state = 88172645463325252u;

static unsigned below(unsigned n) {
    state ^= state << 13;
    state ^= state >> 7;
    state ^= state << 17;
    return (unsigned)((state >> 11) % n);
}

static int holds(int i) {
    for (size_t k = 0; k < blocks[i].n; k++)
        if (blocks[i].p[k] != blocks[i].mark) return 0;
    return 1;
}

int main(void) {
    unsigned long refused = 0;
    nvmesgl_heap_array(room + 3, sizeof room - 3);
    for (long step = 0; step < 300000; step++) {
        int i = (int)below(BLOCKS);
        size_t n = below(4) == 0 ? below(5000) : below(200);
        struct tried got;
        if (blocks[i].p == NULL) {
            got = nvmesgl_heap_alloc(n, 16);
        } else if (below(3) == 0) {
            got = nvmesgl_heap_realloc(blocks[i].p, blocks[i].n, n, 16);
            if (got.ok) {
                if (n < blocks[i].n) blocks[i].n = n;
                blocks[i].p = got.p;
                if (!holds(i)) return 1;
            }
        } else {
            if (!holds(i)) return 1;
            nvmesgl_heap_dealloc(blocks[i].p);
            blocks[i].p = NULL;
            continue;
        }
        if (!got.ok) {
            refused++;
            if (got.p == NULL) return 1;
            continue;
        }
        if ((uintptr_t)got.p % 16 != 0) return 1;
        if ((unsigned char *)got.p < room || (unsigned char *)got.p + n > room + ROOM) return 1;
        blocks[i].p = got.p;
        blocks[i].n = n;
        blocks[i].mark = (unsigned char)below(256);
        memset(got.p, blocks[i].mark, n);
    }
    for (int i = 0; i < BLOCKS; i++)
        if (blocks[i].p != NULL) nvmesgl_heap_dealloc(blocks[i].p);
    /* All is one free run again. */
    struct tried all = nvmesgl_heap_alloc(ROOM - 64, 16);
    if (!all.ok || refused == 0) return 1;
    nvmesgl_heap_dealloc(all.p);
    nvmesgl_heap_array(room, 8);
    if (nvmesgl_heap_alloc(1, 16).ok) return 1;
    return 0;
}

/* A controller over regions beside one over a pool: regions SEED CALLS. The bytes of the pool lie cut into regions at arbitrary places, in an arbitrary order, with
 * empty ones among them, and behind them in the table others that overlap them: each call of the one answers what the call of the other answers, all bytes are the
 * same afterwards, those that are overlapped stay, and so does the table. First some tables by hand. */
#include "entries.h"

#include <stdio.h>
#include <stdlib.h>
#include <string.h>

enum { PIECES = 9, HIDDEN = 3 };

static uint8_t pool[POOL], before[POOL], kept[HIDDEN][POOL];
static nvmectl by_pool = NVMECTL_CLOSED, by_regions = NVMECTL_CLOSED;
static nvmectl_region table[PIECES + HIDDEN], table_before[PIECES + HIDDEN];
static size_t pieces, hidden;
static unsigned long done, refused;

static void fail(const char *why, uint32_t code) {
    printf("%s: %s (%u)\n", why, nvmesgl_text(code), code);
    exit(1);
}

static void want(const char *what, int holds) {
    if (!holds) fail(what, 0);
}

static void open_at(nvmectl *handle, const nvmectl_queue *pages, size_t count) {
    nvmectl_options options = NVMECTL_OPTIONS;
    options.blocks = BLOCKS;
    nvmectl_close(handle);
    uint32_t code = nvmectl_open(handle, &options, pages, count, NULL, 0);
    if (code != NVMESGL_DONE) fail("open", code);
}

/* Tables by hand ---------------------------------------------------------------------------------------------------- */

/* A Read of one block to an address, by a descriptor in the entry. */
static void lay_read(uint8_t *entry, uint16_t cid, uint64_t address) {
    memset(entry, 0, 64);
    entry[0] = 2;
    entry[1] = 0x40;
    put(entry + 2, cid, 2);
    put(entry + 4, 1, 4);
    put(entry + 24, address, 8);
    put(entry + 32, 512, 4);
}

/* The fetch, and then the walk to its end: how it ends, or the code of the fetch behind 1,000. */
static unsigned read_over(uint8_t *ring, const nvmectl_region *regions, size_t count, uint64_t address) {
    nvmesgl_answer answer;
    open_at(&by_regions, queues, 2);
    lay_read(ring, 3, address);
    want("tail", nvmectl_tail(&by_regions, 1, 1) == NVMESGL_DONE);
    uint32_t code = nvmectl_fetch_over(&by_regions, 1, regions, count, &answer);
    if (code != NVMESGL_DONE) return 1000 + code;
    do {
        code = nvmectl_walk_over(&by_regions, 1, 3, regions, count, &answer);
        if (code != NVMESGL_DONE) fail("walk", code);
    } while (answer.state == NVMESGL_WALK_MORE);
    return answer.state == NVMESGL_WALK_END ? 0 : answer.sc;
}

static int all(const uint8_t *bytes, uint8_t value, size_t count) {
    for (size_t i = 0; i < count; i++)
        if (bytes[i] != value) return 0;
    return 1;
}

#define HIGH UINT64_C(0x100000000)
#define PAST (UINT64_C(1) << 44)

static void by_hand(void) {
    enum { MISSING = 0x04, OUT = 1000 + NVMESGL_SLOT_OUT };
    static uint8_t low[4 * PAGE], first[512], second[1024], entry[64];
    nvmectl_region guest[4] = {{0, low, sizeof low}, {HIGH, first, 512}, {HIGH + 512, second, 512}, {0, NULL, 0}};
    uint8_t *ring = low + 2 * PAGE;

    /* Above 4 GiB; over the seam of two regions; one byte past the end of each; where there is a gap. */
    memset(first, 0xFF, 512), memset(second, 0xFF, 1024);
    want("above 4 GiB", read_over(ring, guest, 4, HIGH) == 0 && all(first, 0, 512) && all(second, 0xFF, 1024));
    memset(first, 0xFF, 512);
    want("over a seam", read_over(ring, guest, 4, HIGH + 100) == 0 && all(first, 0xFF, 100) && all(first + 100, 0, 412) && all(second, 0, 100) && all(second + 100, 0xFF, 924));
    want("past the end", read_over(ring, guest, 4, HIGH + 513) == MISSING);
    want("before the start", read_over(ring, guest, 4, HIGH - 1) == MISSING);
    guest[2].len = 99;
    want("a byte short", read_over(ring, guest, 4, HIGH + 100) == MISSING);
    guest[2].len = 100;
    want("no byte short", read_over(ring, guest, 4, HIGH + 100) == 0);
    guest[2].addr = HIGH + 513;
    want("a gap of one byte", read_over(ring, guest, 4, HIGH + 1) == MISSING);

    /* Overlapping: the first in the table has the byte. */
    nvmectl_region over[3] = {{0, low, sizeof low}, {HIGH + 100, first, 100}, {HIGH, second, 1024}};
    memset(first, 0xFF, 512), memset(second, 0xFF, 1024);
    want("overlapped", read_over(ring, over, 3, HIGH) == 0 && all(first, 0, 100) && all(first + 100, 0xFF, 412));
    want("overlapped bytes stay", all(second, 0, 100) && all(second + 100, 0xFF, 100) && all(second + 200, 0, 312) && all(second + 512, 0xFF, 512));

    /* No region, empty ones, a ring that is a byte short. */
    want("no region", read_over(ring, NULL, 0, HIGH) == OUT);
    want("empty regions", read_over(ring, guest + 3, 1, HIGH) == OUT);
    guest[0].len = 2 * PAGE + 63;
    want("a slot that is a byte short", read_over(ring, guest, 4, HIGH) == OUT);
    guest[0].len = 2 * PAGE + 64;
    want("a slot that is there", read_over(ring, guest, 4, HIGH) == 0);

    /* The end of the addresses: page numbers have 32 bits, and addresses 64. */
    nvmectl_region far[3] = {{0, low, sizeof low}, {PAST - 512, second, 1024}, {UINT64_MAX - 511, first, 512}};
    want("the last page", read_over(ring, far, 3, PAST - 512) == 0);
    want("past the last page", read_over(ring, far, 3, PAST - 511) == MISSING);
    want("the last address", read_over(ring, far, 3, UINT64_MAX - 511) == MISSING);

    /* A ring above 4 GiB. */
    const nvmectl_queue high[2] = {{0, 1}, {HIGH / PAGE, 3}};
    nvmectl_region rings[2] = {{0, low, sizeof low}, {HIGH, entry, 64}};
    nvmesgl_answer answer;
    open_at(&by_regions, high, 2);
    lay_read(entry, 9, 0);
    want("tail", nvmectl_tail(&by_regions, 1, 1) == NVMESGL_DONE);
    want("a ring above 4 GiB", nvmectl_fetch_over(&by_regions, 1, rings, 2, &answer) == NVMESGL_DONE && answer.cid == 9 && answer.touched[0] == HIGH / PAGE);
}

/* Arbitrary ones ---------------------------------------------------------------------------------------------------- */

/* What the guest wrote into the pool stands in the regions too. */
static void copy_pool(void) {
    for (size_t i = 0; i < pieces; i++)
        if (table[i].len != 0) memcpy(table[i].bytes, pool + table[i].addr, table[i].len);
}

static void add(size_t place, uint64_t addr, size_t len) {
    void *bytes = len == 0 ? NULL : malloc(len);
    if (len != 0 && bytes == NULL) exit(3);
    table[place].addr = addr;
    table[place].bytes = bytes;
    table[place].len = len;
}

/* The pool is cut anew: up to nine pieces in any order, and up to three behind them that overlap them. */
static void cut(void) {
    size_t cuts[PIECES + 1] = {0};
    for (size_t i = 0; i < pieces + hidden; i++) free(table[i].bytes);
    pieces = 1 + below(PIECES), hidden = below(HIDDEN + 1);
    for (size_t i = 1; i < pieces; i++) {
        size_t at = below(3) == 0 ? below(PAGES) * PAGE : below(POOL), j = i;
        for (; j > 1 && cuts[j - 1] > at; j--) cuts[j] = cuts[j - 1];
        cuts[j] = at;
    }
    cuts[pieces] = POOL;
    for (size_t i = 0; i < pieces; i++) add(i, cuts[i], cuts[i + 1] - cuts[i]);
    for (size_t i = pieces; i > 1; i--) {
        size_t j = below((unsigned)i);
        nvmectl_region other = table[j];
        table[j] = table[i - 1], table[i - 1] = other;
    }
    for (size_t i = 0; i < hidden; i++) {
        size_t from = below(POOL), len = below((unsigned)(POOL - from));
        add(pieces + i, from, len);
        for (size_t k = 0; k < len; k++) kept[i][k] = (uint8_t)below(256);
        if (len != 0) memcpy(table[pieces + i].bytes, kept[i], len);
    }
    copy_pool();
}

static void compare(uint32_t code, uint32_t over, const nvmesgl_answer *a, const nvmesgl_answer *b) {
    if (code != over) fail("another code than over the pool", over);
    if (memcmp(a, b, sizeof *a) != 0) fail("another answer than over the pool", code);
    if (memcmp(table, table_before, sizeof table) != 0) fail("the table was written", code);
    for (size_t i = 0; i < pieces; i++)
        if (table[i].len != 0 && memcmp(table[i].bytes, pool + table[i].addr, table[i].len) != 0) fail("other bytes than in the pool", code);
    for (size_t i = 0; i < hidden; i++)
        if (table[pieces + i].len != 0 && memcmp(table[pieces + i].bytes, kept[i], table[pieces + i].len) != 0) fail("an overlapped byte was written", code);
    if (code == NVMESGL_DONE) done++;
    else refused++;
}

static void step(void) {
    nvmectl_step found, other, tried = {1 + below(3), (uint16_t)below(QUEUES), (uint16_t)below(4), {0}};
    nvmesgl_answer a, b;
    memset(&a, 0, sizeof a), memset(&b, 0, sizeof b);
    memcpy(table_before, table, sizeof table);
    uint32_t code = nvmectl_next(&by_pool, pool, POOL, &found);
    uint32_t over = nvmectl_next_over(&by_regions, table, pieces + hidden, &other);
    if (code != NVMESGL_DONE || over != NVMESGL_DONE) fail("next", over);
    if (memcmp(&found, &other, sizeof found) != 0) fail("another step than over the pool", over);
    const nvmectl_step *s = below(8) == 0 || found.kind == NVMECTL_REST ? &tried : &found;
    memcpy(before, pool, POOL);
    if (s->kind == NVMECTL_FETCH) {
        code = nvmectl_fetch(&by_pool, s->q, pool, POOL, &a);
        over = nvmectl_fetch_over(&by_regions, s->q, table, pieces + hidden, &b);
    } else if (s->kind == NVMECTL_WALK) {
        code = nvmectl_walk(&by_pool, s->q, s->cid, pool, POOL, &a);
        over = nvmectl_walk_over(&by_regions, s->q, s->cid, table, pieces + hidden, &b);
    } else {
        code = nvmectl_complete(&by_pool, s->q, s->cid, pool, POOL, &a);
        over = nvmectl_complete_over(&by_regions, s->q, s->cid, table, pieces + hidden, &b);
    }
    if (code != NVMESGL_DONE && memcmp(before, pool, POOL) != 0) fail("a refused call wrote", code);
    compare(code, over, &a, &b);
}

static void doorbell(uint32_t (*ring)(nvmectl *, uint16_t, uint16_t)) {
    uint16_t q = (uint16_t)below(4), value = (uint16_t)below(5);
    if (ring(&by_pool, q, value) != ring(&by_regions, q, value)) fail("another doorbell than over the pool", 0);
}

int main(int argc, char **argv) {
    if (argc != 3) return 2;
    state = strtoull(argv[1], NULL, 10) * UINT64_C(0x9E3779B97F4A7C15) + 1;
    by_hand();
    for (unsigned i = 0; i < POOL; i++) pool[i] = (uint8_t)below(256);
    open_at(&by_pool, queues, QUEUES), open_at(&by_regions, queues, QUEUES);
    cut();
    for (unsigned long left = strtoul(argv[2], NULL, 10); left != 0; left--) {
        unsigned what = below(64);
        if (what < 10) entry(pool, below(16) == 0 ? 0 : below(QUEUES)), copy_pool();
        else if (what < 14) spell(pool), copy_pool();
        else if (what < 22) doorbell(nvmectl_tail);
        else if (what < 32) doorbell(nvmectl_head);
        else if (what < 34) cut();
        else if (what == 34 && below(4) == 0) open_at(&by_pool, queues, QUEUES), open_at(&by_regions, queues, QUEUES);
        else step();
    }
    for (size_t i = 0; i < pieces + hidden; i++) free(table[i].bytes);
    nvmectl_close(&by_pool);
    nvmectl_close(&by_regions);
    nvmesgl_answer answer;
    if (nvmectl_fetch_over(&by_regions, 1, table, 0, &answer) != NVMESGL_CLOSED_HANDLE) fail("a closed handle", 0);
    printf("%lu calls done and %lu refused, over regions as over a pool\n", done, refused);
    return 0;
}

/* A controller whose blocks lie on a disk: disk SEED COMMANDS. A namespace of 2^31 blocks over a sparse file: by hand its first and last blocks, wrong calls, callbacks that fail
 * and a guest that changes an entry meanwhile; then arbitrary commands beside a model in memory, with a callback that fails now and then. */
#define _XOPEN_SOURCE 700
#define _FILE_OFFSET_BITS 64
#include "../../examples/c/file_disk.h"
#include "arbitrary.h"

#include <stdlib.h>

enum { PAGE = 4096, ENTRIES = 4, RING = 2 * PAGE, ENDS = 3 * PAGE, LIST = 4 * PAGE, MOST = 8, WINDOWS = 6, WINDOW = 24 };
enum { DIFFERS = 0x285, OUT_OF_RANGE = 0x080 };
#define BLOCKS UINT32_C(0x80000000)
#define HIGH UINT64_C(0x100000000)

static uint8_t low[8 * PAGE], data[8 * PAGE];
static const nvmectl_region guest[2] = {{0, low, sizeof low}, {HIGH, data, sizeof data}};
static const nvmectl_queue queues[2] = {{0, 1}, {2, 3}};
static nvmectl controller = NVMECTL_CLOSED;
static nvmesgl_answer answer;
static nvmectl_wanted wanted;
static unsigned slot, head;
static unsigned long commands, failures;

static void fail(const char *what, uint32_t code) {
    printf("%s: %s (%u)\n", what, nvmesgl_text(code), code);
    exit(1);
}

static void want(const char *what, uint32_t code, uint32_t wished) {
    if (code != wished) fail(what, code);
}

static void holds(const char *what, int is) {
    if (!is) fail(what, 0);
}

/* The disk ---------------------------------------------------------------------------------------------------------- */

static int file;
static unsigned reads, writes, failing, changing;

static int disk_read(void *context, uint64_t slba, uint32_t blocks, uint8_t *into) {
    reads++;
    if (failing != 0 && --failing == 0) return -1;
    /* Meanwhile the guest writes other entries, of other blocks. */
    if (changing != 0) changing--, low[RING + 64 * ((slot + ENTRIES - 1) % ENTRIES) + 40]++;
    return read_file(context, slba, blocks, into);
}

static int disk_write(void *context, uint64_t slba, uint32_t blocks, const uint8_t *from) {
    writes++;
    if (failing != 0 && --failing == 0) return -1;
    return write_file(context, slba, blocks, from);
}

static const nvmectl_disk disk = {&file, disk_read, disk_write};

/* The guest --------------------------------------------------------------------------------------------------------- */

/* A command of queue 1: its data is at the start of the high memory, in one piece or in two. */
static void submit(unsigned opcode, uint16_t cid, uint64_t slba, unsigned blocks, unsigned cut) {
    uint8_t *entry = low + RING + 64 * slot;
    write_entry(entry, opcode, cid, slba, blocks);
    describe(entry + 24, cut ? THE_LAST_SEGMENT : DATA_BLOCK, cut ? LIST : HIGH, cut ? 32 : BLOCK * blocks);
    describe(low + LIST, DATA_BLOCK, HIGH, cut);
    describe(low + LIST + 16, DATA_BLOCK, HIGH + cut, BLOCK * blocks - cut);
    slot = (slot + 1) % ENTRIES;
    want("tail", nvmectl_tail(&controller, 1, (uint16_t)slot), NVMESGL_DONE);
}

/* The status of the completion at the head, which is taken. */
static unsigned reap(uint16_t cid) {
    const uint8_t *end = low + ENDS + 16 * head;
    holds("another command has ended", end[12] == (cid & 255) && end[13] == cid >> 8);
    head = (head + 1) % ENTRIES;
    want("head", nvmectl_head(&controller, 1, (uint16_t)head), NVMESGL_DONE);
    return (unsigned)(end[14] | end[15] << 8) >> 1;
}

static void walk(uint16_t cid) {
    do want("walk", nvmectl_walk_over(&controller, 1, cid, guest, 2, &answer), NVMESGL_DONE);
    while (answer.state == NVMESGL_WALK_MORE);
}

static uint32_t fetch(void) { return nvmectl_fetch_disk(&controller, 1, guest, 2, &disk, &answer); }

static uint32_t complete(uint16_t cid) { return nvmectl_complete_disk(&controller, 1, cid, guest, 2, &disk, &answer); }

/* All that the controller can do; a step that the disk fails is done again. */
static void serve(void) {
    nvmectl_step step;
    for (;;) {
        want("next", nvmectl_next_over(&controller, guest, 2, &step), NVMESGL_DONE);
        if (step.kind == NVMECTL_REST) return;
        if (step.kind == NVMECTL_WALK) want("walk", nvmectl_walk_over(&controller, step.q, step.cid, guest, 2, &answer), NVMESGL_DONE);
        for (int i = 0; step.kind != NVMECTL_WALK; i++) {
            unsigned was = failing;
            uint32_t code = step.kind == NVMECTL_FETCH ? fetch() : complete(step.cid);
            if (code == NVMESGL_DONE) break;
            if (i > 0 || code != NVMESGL_DISK || was == 0) fail("a step", code);
            failures++;
        }
    }
}

static unsigned done(unsigned opcode, uint16_t cid, uint64_t slba, unsigned blocks) {
    submit(opcode, cid, slba, blocks, 0);
    serve();
    return reap(cid);
}

static void open_lent(uint32_t blocks) {
    nvmectl_options options = NVMECTL_OPTIONS;
    options.blocks = blocks;
    nvmectl_close(&controller);
    slot = head = 0;
    memset(low, 0, sizeof low);
    want("open", nvmectl_open_lent(&controller, &options, queues, 2), NVMESGL_DONE);
}

/* By hand ----------------------------------------------------------------------------------------------------------- */

static int all(const uint8_t *bytes, uint8_t value, size_t count) {
    for (size_t i = 0; i < count; i++)
        if (bytes[i] != value) return 0;
    return 1;
}

/* The first and the last blocks, and those that were never written. */
static void far_blocks(void) {
    memset(data, 7, sizeof data);
    holds("Write of the last blocks", done(OPCODE_WRITE, 1, BLOCKS - 8, 8) == 0 && writes == 1 && reads == 0);
    holds("Compare with them", done(OPCODE_COMPARE, 2, BLOCKS - 8, 8) == 0 && reads == 1);
    data[8 * BLOCK - 1]++;
    holds("Compare with others", done(OPCODE_COMPARE, 3, BLOCKS - 8, 8) == DIFFERS);
    holds("Read of never written blocks", done(OPCODE_READ, 4, BLOCKS / 2, 8) == 0 && all(data, 0, 8 * BLOCK));
    holds("Read of the last block", done(OPCODE_READ, 5, BLOCKS - 1, 1) == 0 && all(data, 7, BLOCK) && all(data + BLOCK, 0, 7 * BLOCK));
    holds("Read past the last block", done(OPCODE_READ, 6, BLOCKS - 1, 2) == OUT_OF_RANGE && done(OPCODE_READ, 7, BLOCKS, 1) == OUT_OF_RANGE);
    holds("Read of block 0", done(OPCODE_READ, 8, 0, 1) == 0 && all(data, 0, BLOCK));
}

/* Codes of calls that are lent blocks, step by step. */
static void lent_calls(void) {
    static uint8_t blocks[4 * BLOCK], longer[4 * BLOCK];
    uint8_t *const one = blocks + BLOCK;
    submit(OPCODE_READ, 9, 5, 1, 0);
    want("a buffer of no whole blocks", nvmectl_fetch_lent(&controller, 1, guest, 2, 0, blocks, 511, &wanted, &answer), NVMESGL_NO_BLOCKS);
    want("a buffer past the end", nvmectl_fetch_lent(&controller, 1, guest, 2, BLOCKS - 3, blocks, sizeof blocks, &wanted, &answer), NVMESGL_NO_BLOCKS);
    want("nothing lent", nvmectl_fetch_lent(&controller, 1, guest, 2, 0, NULL, 0, &wanted, &answer), NVMESGL_NOT_LENT);
    holds("what is wanted", wanted.slba == 5 && wanted.blocks == 1 && wanted.opcode == OPCODE_READ && answer.touched_count == 1 && all(wanted.reserved, 0, sizeof wanted.reserved));
    want("other blocks", nvmectl_fetch_lent(&controller, 1, guest, 2, 6, blocks, sizeof blocks, &wanted, &answer), NVMESGL_NOT_LENT);
    memset(blocks, 1, sizeof blocks), memset(one, 2, BLOCK);
    want("more blocks", nvmectl_fetch_lent(&controller, 1, guest, 2, 4, blocks, sizeof blocks, &wanted, &answer), NVMESGL_DONE);
    want("the bytes of a Read", nvmectl_bytes(&controller, 1, 9, longer, sizeof longer, &answer), NVMESGL_DONE);
    holds("which are those that were lent", answer.bytes == BLOCK && all(longer, 2, BLOCK) && all(longer + BLOCK, 0, BLOCK));
    walk(9);
    want("a Read completes with nothing lent", nvmectl_complete_lent(&controller, 1, 9, guest, 2, 0, NULL, 0, &wanted, &answer), NVMESGL_DONE);
    holds("a Read", reap(9) == 0 && all(data, 2, BLOCK));

    memset(data, 3, BLOCK);
    submit(OPCODE_WRITE, 10, 5, 1, 0);
    want("a Write is fetched with nothing lent", nvmectl_fetch_lent(&controller, 1, guest, 2, 0, NULL, 0, &wanted, &answer), NVMESGL_DONE);
    want("it walks", nvmectl_complete_lent(&controller, 1, 10, guest, 2, 0, NULL, 0, &wanted, &answer), NVMESGL_WALKING);
    walk(10);
    want("nothing lent", nvmectl_complete_lent(&controller, 1, 10, guest, 2, 0, NULL, 0, &wanted, &answer), NVMESGL_NOT_LENT);
    holds("what is wanted", wanted.slba == 5 && wanted.blocks == 1 && wanted.opcode == OPCODE_WRITE);
    want("too short", nvmectl_bytes(&controller, 1, 10, longer, BLOCK - 1, &answer), NVMESGL_TOO_SHORT);
    holds("how many they are", answer.bytes == BLOCK && all(longer, 2, BLOCK));
    want("no such command", nvmectl_bytes(&controller, 1, 11, longer, sizeof longer, &answer), NVMESGL_NO_JOB);
    want("past the end", nvmectl_complete_lent(&controller, 1, 10, guest, 2, UINT64_MAX, blocks, BLOCK, &wanted, &answer), NVMESGL_NO_BLOCKS);
    want("lent", nvmectl_complete_lent(&controller, 1, 10, guest, 2, 4, blocks, sizeof blocks, &wanted, &answer), NVMESGL_DONE);
    holds("a Write", reap(10) == 0 && all(blocks, 1, BLOCK) && all(one, 3, BLOCK) && all(one + BLOCK, 1, 2 * BLOCK));
}

/* Calls of a controller of the other kind. */
static void other_calls(void) {
    static uint8_t pool[4 * PAGE];
    nvmectl_options options = NVMECTL_OPTIONS;
    nvmectl own = NVMECTL_CLOSED;
    nvmectl_job job;
    uint8_t block[BLOCK];
    want("open", nvmectl_open(&own, &options, queues, 2, NULL, 0), NVMESGL_DONE);
    want("an open handle", nvmectl_open_lent(&own, &options, queues, 2), NVMESGL_OPEN_HANDLE);
    want("fetch_lent", nvmectl_fetch_lent(&own, 1, guest, 2, 0, NULL, 0, &wanted, &answer), NVMESGL_OTHER_CALL);
    want("complete_lent", nvmectl_complete_lent(&own, 1, 0, guest, 2, 0, NULL, 0, &wanted, &answer), NVMESGL_OTHER_CALL);
    want("fetch_disk", nvmectl_fetch_disk(&own, 1, guest, 2, &disk, &answer), NVMESGL_OTHER_CALL);
    want("complete_disk", nvmectl_complete_disk(&own, 1, 0, guest, 2, &disk, &answer), NVMESGL_OTHER_CALL);
    want("bytes", nvmectl_bytes(&own, 1, 0, block, BLOCK, &answer), NVMESGL_NO_JOB);
    want("blocks", nvmectl_blocks(&own, 0, block, BLOCK), NVMESGL_DONE);
    nvmectl_close(&own);
    want("a closed handle", nvmectl_fetch_lent(&own, 1, guest, 2, 0, NULL, 0, &wanted, &answer), NVMESGL_CLOSED_HANDLE);
    options.blocks = 0;
    want("no block", nvmectl_open_lent(&own, &options, queues, 2), NVMESGL_BAD_IMAGE);
    options.blocks = UINT32_MAX;
    want("as many as there are", nvmectl_open_lent(&own, &options, queues, 2), NVMESGL_DONE);
    nvmectl_close(&own);

    want("an open handle", nvmectl_open(&controller, &options, queues, 2, NULL, 0), NVMESGL_OPEN_HANDLE);
    want("fetch", nvmectl_fetch(&controller, 1, pool, sizeof pool, &answer), NVMESGL_OTHER_CALL);
    want("fetch_over", nvmectl_fetch_over(&controller, 1, guest, 2, &answer), NVMESGL_OTHER_CALL);
    want("complete", nvmectl_complete(&controller, 1, 0, pool, sizeof pool, &answer), NVMESGL_OTHER_CALL);
    want("complete_over", nvmectl_complete_over(&controller, 1, 0, guest, 2, &answer), NVMESGL_OTHER_CALL);
    want("blocks", nvmectl_blocks(&controller, 0, block, BLOCK), NVMESGL_OTHER_CALL);
    want("walk", nvmectl_walk(&controller, 1, 0, pool, sizeof pool, &answer), NVMESGL_NO_JOB);
    want("command", nvmectl_command(&controller, 1, 0, &job), NVMESGL_NO_JOB);
}

/* A callback that fails: nothing is lost. */
static void failing_disk(void) {
    nvmectl_job job;
    memset(data, 9, sizeof data);
    submit(OPCODE_WRITE, 11, 100, 2, 0);
    want("fetch", fetch(), NVMESGL_DONE);
    walk(11);
    failing = 1;
    want("a Write that the disk fails", complete(11), NVMESGL_DISK);
    want("which is there still", nvmectl_command(&controller, 1, 11, &job), NVMESGL_DONE);
    want("again", complete(11), NVMESGL_DONE);
    holds("a Write", reap(11) == 0);
    submit(OPCODE_COMPARE, 12, 100, 2, 0);
    want("fetch", fetch(), NVMESGL_DONE);
    walk(12);
    failing = 1;
    want("a Compare that the disk fails", complete(12), NVMESGL_DISK);
    want("again", complete(12), NVMESGL_DONE);
    holds("a Compare", reap(12) == 0);
    memset(data, 0, sizeof data);
    submit(OPCODE_READ, 13, 100, 2, 0);
    failing = 1;
    want("a Read that the disk fails", fetch(), NVMESGL_DISK);
    want("which is not fetched", nvmectl_command(&controller, 1, 13, &job), NVMESGL_NO_JOB);
    serve();
    holds("a Read", reap(13) == 0 && all(data, 9, 2 * BLOCK) && all(data + 2 * BLOCK, 0, BLOCK));
}

/* The guest writes another entry at each read: the last blocks that were read are not those that are wanted. */
static void changing_guest(void) {
    submit(OPCODE_READ, 14, 1, 1, 0);
    changing = 1;
    want("an entry that is changed once", fetch(), NVMESGL_DONE);
    walk(14);
    want("complete", complete(14), NVMESGL_DONE);
    holds("a Read", reap(14) == 0);
    submit(OPCODE_READ, 15, 1, 1, 0);
    changing = 1000;
    want("an entry that is always changed", fetch(), NVMESGL_NOT_LENT);
    changing = 0;
    serve();
    holds("a Read", reap(15) == 0);
}

/* A Write whose completion finds no room at first. */
static void full_ring(void) {
    uint8_t block[BLOCK];
    for (uint16_t cid = 16; cid < 19; cid++) submit(OPCODE_READ, cid, cid, 1, 0), serve();
    memset(data, 5, BLOCK);
    submit(OPCODE_WRITE, 19, 1000, 1, 0);
    want("fetch", fetch(), NVMESGL_DONE);
    walk(19);
    want("a full ring", complete(19), NVMESGL_FULL);
    holds("the disk has it already", pread(file, block, BLOCK, 1000 * BLOCK) == BLOCK && all(block, 5, BLOCK));
    holds("a Read", reap(16) == 0);
    want("room", complete(19), NVMESGL_DONE);
    holds("the others", reap(17) == 0 && reap(18) == 0 && reap(19) == 0);
    want("reset", nvmectl_reset(&controller), NVMESGL_DONE);
    want("only queue 0 is there", fetch(), NVMESGL_IDLE);
}

/* Arbitrary commands ------------------------------------------------------------------------------------------------ */

/* Places on the disk, with what should stand there. */
static const uint64_t starts[WINDOWS] = {2000, 65536, UINT64_C(0x3FFFFFF0), UINT64_C(0x40000000) + 77, UINT64_C(0x7FFF0000), BLOCKS - 2 * WINDOW};
static uint8_t model[WINDOWS][WINDOW * BLOCK];

static void arbitrary(uint16_t cid) {
    static const unsigned opcodes[] = {OPCODE_WRITE, OPCODE_READ, OPCODE_COMPARE};
    unsigned opcode = opcodes[below(3)], w = below(WINDOWS), blocks = 1 + below(MOST), at = below(WINDOW - MOST + 1), len = BLOCK * blocks;
    uint8_t *here = model[w] + BLOCK * at;
    int same = opcode == OPCODE_COMPARE && below(2) == 0;
    for (unsigned i = 0; i < len; i++) data[i] = same ? here[i] : (uint8_t)below(256);
    int differs = opcode == OPCODE_COMPARE && memcmp(data, here, len) != 0;
    if (below(16) == 0) failing = 1 + below(3);
    submit(opcode, cid, starts[w] + at, blocks, below(2) == 0 ? 0 : 1 + below(len - 1));
    serve();
    if (opcode == OPCODE_WRITE) memcpy(here, data, len);
    holds("how it ended", reap(cid) == (differs ? DIFFERS : 0));
    holds("its bytes", opcode == OPCODE_COMPARE || memcmp(data, here, len) == 0);
    commands++;
}

int main(int argc, char **argv) {
    FILE *temporary = tmpfile();
    if (argc != 3 || temporary == NULL) return 2;
    file = fileno(temporary);
    state = strtoull(argv[1], NULL, 10) * UINT64_C(0x9E3779B97F4A7C15) + 1;
    open_lent(BLOCKS);
    far_blocks();
    lent_calls();
    other_calls();
    failing_disk();
    changing_guest();
    full_ring();
    open_lent(BLOCKS);
    for (unsigned long left = strtoul(argv[2], NULL, 10); left != 0; left--) arbitrary((uint16_t)below(65536));
    nvmectl_close(&controller);
    want("a closed handle", fetch(), NVMESGL_CLOSED_HANDLE);
    fclose(temporary);
    printf("%lu commands over a disk of %lu blocks as in a model, the disk failed %lu times, and nothing was lost\n", commands, (unsigned long)BLOCKS, failures);
    return 0;
}

/* Pools in memory of the caller's: memory SEED COMMANDS. A device that reads and writes that memory by itself carries out the commands of a host; each byte that it reaches for
 * lies on a page with the right for that, each byte stands where the calls say, and each completion is asked for before it is reaped. */
#include "arbitrary.h"
#include "nvmehost.h"

#include <stdio.h>
#include <stdlib.h>
#include <string.h>

enum { PAGE = 4096, MOST = 512, QUEUES = 3, ENTRIES = 9, BLOCK = 512, EACH = 16, BLOCKS = QUEUES * ENTRIES * EACH, STRIDE = 1, FRONT = 64 };

/* A command of the test: the blocks of its own that it asks for, and how it should end. */
typedef struct command {
    uint32_t kind, blocks, sc, count;
    bool sent;
    nvmesgl_piece pieces[FRONT];
} command;

static uint8_t pool[MOST * PAGE] __attribute__((aligned(4096))), other[16 * PAGE] __attribute__((aligned(4096)));
static uint8_t image[BLOCKS * BLOCK], wanted[BLOCKS * BLOCK], bytes[EACH * BLOCK];
static uint32_t registers[2 * PAGE / 4];
static nvmehost host = NVMEHOST_CLOSED;
static nvmehost_options options = NVMEHOST_OPTIONS;
static nvmehost_memory memory;
static nvmesgl_answer answer;
static nvmehost_doorbell bell;
static command commands[QUEUES][ENTRIES];
static struct device {
    uint32_t head, slot, phase;
} device[QUEUES];
static unsigned long in_place, reached, done;

static void fail(const char *why, uint32_t code) {
    printf("%s: %s (%u)\n", why, nvmesgl_text(code), code);
    exit(1);
}

static void want(const char *what, uint32_t code) {
    if (code != NVMESGL_DONE) fail(what, code);
}

static nvmehost_queue look(uint16_t q) {
    nvmehost_queue found;
    want("a queue", nvmehost_look(&host, q, &found));
    return found;
}

static uint64_t word(const uint8_t *at, int count) {
    uint64_t found = 0;
    while (count-- > 0) found = found << 8 | at[count];
    return found;
}

/* Where bytes of the pool stand, which the device may reach so. */
static uint8_t *reach(uint64_t at, size_t count, uint32_t wants) {
    uint32_t right, page = (uint32_t)(at / PAGE);
    want("a right", nvmehost_may(&host, page, &right));
    if (right != wants || at % PAGE + count > PAGE) fail("the device reaches for a page that it may not", page);
    reached++;
    return pool + at;
}

/* The device does what a list says with the blocks from a byte of the image on; whether they are alike, where it compares. */
static bool walk(const uint8_t *list, size_t count, uint32_t opcode, uint8_t *blocks) {
    bool alike = true;
    for (size_t i = 0; i < count; i++, list += 16) {
        uint64_t at = word(list, 8), len = word(list + 8, 4);
        unsigned type = list[15] >> 4;
        if (type >= 2) return walk(reach(at, len, NVMEHOST_READ), len / 16, opcode, blocks) && alike;
        if (type == 0) {
            uint8_t *data = reach(at, len, opcode == 2 ? NVMEHOST_WRITE : NVMEHOST_READ);
            if (opcode == 1) memcpy(blocks, data, len);
            if (opcode == 2) memcpy(data, blocks, len);
            if (opcode == 5 && memcmp(data, blocks, len) != 0) alike = false;
        }
        blocks += len;
    }
    return alike;
}

/* The device takes each entry that was rung, and posts its completion. */
static void work(uint16_t q) {
    struct device *d = &device[q];
    while (d->head != registers[(PAGE + ((8u * q) << STRIDE)) / 4]) {
        nvmehost_queue queue = look(q);
        const uint8_t *entry = reach((uint64_t)PAGE * queue.submission_page + 64 * d->head, 64, NVMEHOST_READ);
        bool alike = walk(entry + 24, 1, entry[0], image + BLOCK * word(entry + 40, 8));
        uint8_t *slot = reach((uint64_t)PAGE * queue.completion_page + 16 * d->slot, 16, NVMEHOST_WRITE);
        uint16_t status = alike ? 0 : 0x285 << 1;
        d->head = (d->head + 1) % ENTRIES;
        memset(slot, 0, 12);
        slot[8] = (uint8_t)d->head;
        slot[10] = (uint8_t)q;
        memcpy(slot + 12, entry + 2, 2);
        __atomic_store_n((uint16_t *)(void *)(slot + 14), (uint16_t)(status | d->phase), __ATOMIC_RELEASE);
        d->slot = (d->slot + 1) % ENTRIES;
        if (d->slot == 0) d->phase ^= 1;
    }
}

/* Each data piece of a command, by the place that is told, with the bytes of its blocks: in, or from there. */
static void place(uint16_t q, uint16_t cid, bool fills) {
    const command *c = &commands[q][cid];
    uint32_t data = 0;
    for (uint32_t i = 0, at = 0; i < c->count; at += c->pieces[i++].len) {
        nvmehost_place p;
        if (c->pieces[i].kind == NVMESGL_BUCKET) continue;
        want("a place", nvmehost_data_place(&host, q, cid, data++, &p));
        if (p.offset != c->pieces[i].offset || p.len != c->pieces[i].len) fail("a place is not the piece's", i);
        uint8_t *there = pool + (size_t)PAGE * p.page + p.offset;
        if (fills) memcpy(there, bytes + at, p.len);
        else if (memcmp(there, bytes + at, p.len) != 0) fail("a byte of a finished command is another one", at);
        in_place++;
    }
    nvmehost_place none;
    if (nvmehost_data_place(&host, q, cid, data, &none) != NVMESGL_NO_PIECE) fail("a place of no piece", data);
}

/* The runs of a command are its pages, and each has the right that is told of its page. */
static void runs(uint16_t q, uint16_t cid, uint32_t pages, uint32_t of_data) {
    nvmehost_run found[MOST];
    size_t count;
    want("runs", nvmehost_runs(&host, q, cid, found, MOST, &count));
    for (size_t i = 0; i < count; i++)
        for (size_t k = 0; k < found[i].count; k++, pages--) {
            uint32_t right;
            nvmesgl_page_owner owner;
            want("a right", nvmehost_may(&host, found[i].first + (uint32_t)k, &right));
            want("an owner", nvmehost_owner(&host, found[i].first + (uint32_t)k, &owner));
            if (owner.q != q || owner.cid != cid || right != found[i].right) fail("a run of another right", found[i].first);
            if (right != (owner.kind == NVMESGL_DATA || of_data == 0 ? of_data : NVMEHOST_READ)) fail("a page of another right", found[i].first);
        }
    if (pages != 0) fail("runs of other pages than the command's", pages);
    if (count > 1 && nvmehost_runs(&host, q, cid, found, count - 1, &count) != NVMESGL_TOO_SHORT) fail("runs in too short a buffer", 0);
}

/* Pieces for so many bytes, any but the last one now and then a bucket. */
static uint32_t cut(nvmesgl_piece *pieces, uint32_t left, bool buckets) {
    uint32_t count = 0;
    while (left != 0) {
        uint32_t len = count + 1 == FRONT ? left : 1 + below(below(2) ? 64 : left);
        if (len > left) len = left;
        uint32_t offset = len > PAGE ? 0 : below(PAGE - len + 1);
        if (len > PAGE) len = PAGE;
        bool bucket = buckets && len < left && below(6) == 0;
        pieces[count++] = (nvmesgl_piece){bucket ? 0 : offset, len, bucket ? NVMESGL_BUCKET : NVMESGL_PIECE};
        left -= len;
    }
    return count;
}

/* A new command on a queue, if the host has room: reserved, filled by a call or in place, and submitted. */
static void start(uint16_t q) {
    command c = {.kind = below(3), .blocks = 1 + below(EACH / 2), .sent = true};
    c.count = cut(c.pieces, BLOCK * c.blocks, c.kind == NVMESGL_READ);
    /* The identifier is the lowest that is free, and so are the blocks. */
    uint16_t cid = 0;
    while (cid < ENTRIES && commands[q][cid].sent) cid++;
    uint64_t slba = (uint64_t)(q * ENTRIES + cid) * EACH;
    uint32_t code = nvmehost_reserve(&host, q, c.kind, slba, c.blocks, c.pieces, c.count, &answer);
    if (code == NVMESGL_NO_PAGES || code == NVMESGL_NO_IDENTIFIER) return;
    want("reserve", code);
    if (answer.cid != cid) fail("another identifier", answer.cid);
    uint32_t pages = answer.data_pages + answer.chain_pages;
    commands[q][cid] = c;
    runs(q, cid, pages, NVMEHOST_NOTHING);
    if (c.kind != NVMESGL_READ) {
        for (uint32_t i = 0; i < BLOCK * c.blocks; i++) bytes[i] = (uint8_t)below(256);
        if (c.kind == NVMESGL_COMPARE && below(2)) memcpy(bytes, wanted + BLOCK * slba, BLOCK * c.blocks);
        if (c.kind == NVMESGL_COMPARE && memcmp(bytes, wanted + BLOCK * slba, BLOCK * c.blocks) != 0) commands[q][cid].sc = 0x85;
        if (c.kind == NVMESGL_WRITE) memcpy(wanted + BLOCK * slba, bytes, BLOCK * c.blocks);
        if (below(2)) place(q, cid, true);
        else want("fill", nvmehost_fill(&host, q, cid, bytes, BLOCK * c.blocks, &answer));
    }
    want("build", nvmehost_build(&host, q, cid, &answer));
    want("submit", nvmehost_submit(&host, q, cid, &answer));
    runs(q, cid, pages, c.kind == NVMESGL_READ ? NVMEHOST_WRITE : NVMEHOST_READ);
}

static void write_doorbell(void) {
    nvmehost_write_doorbell(registers, STRIDE, bell);
}

/* A command has ended: its status and its bytes are as they should be. */
static void finish(uint16_t q, uint16_t cid) {
    command *c = &commands[q][cid];
    uint32_t size = BLOCK * c->blocks;
    want("collect", nvmehost_collect(&host, q, cid, &answer));
    if (answer.sc != c->sc || answer.sct != (c->sc == 0 ? 0 : 2)) fail("another status", answer.sc);
    if (c->kind == NVMESGL_READ) {
        memcpy(bytes, wanted + BLOCK * EACH * (q * ENTRIES + cid), size);
        place(q, cid, false);
    }
    want("release", nvmehost_release(&host, q, cid, &answer));
    c->sent = false;
    done++;
}

/* Reaps what stands in a ring, each once it is there, and no more. */
static void take(uint16_t q) {
    for (;;) {
        nvmehost_queue queue = look(q);
        bool ready = nvmehost_ready(&memory, &queue);
        want("reap", nvmehost_reap(&host, q, &bell, &answer));
        if (ready != bell.rings) fail("a completion that is ready is not reaped, or one that is not is", q);
        if (!ready) return;
        if (answer.state != NVMESGL_REAP_DONE) fail("a completion that fits no command", answer.state);
        write_doorbell();
        if (registers[(PAGE + ((8u * q + 4) << STRIDE)) / 4] != bell.value) fail("a doorbell elsewhere", bell.offset);
        finish(q, answer.cid);
    }
}

/* Each page of the pool stands at its place. */
static void marks(void) {
    for (uint32_t page = 0; page < options.pages; page++) {
        uint8_t mark[4] = {(uint8_t)page, (uint8_t)(page >> 8), 0x5A, 1};
        want("a mark", nvmehost_write(&host, (uint64_t)PAGE * page + 8 * (page % 500), mark, sizeof mark));
        if (memcmp(pool + (size_t)PAGE * page + 8 * (page % 500), mark, sizeof mark) != 0) fail("a page stands elsewhere", page);
    }
    for (uint32_t page = 0; page < options.pages; page++) memset(pool + (size_t)PAGE * page, 0, PAGE);
}

static void opens(void) {
    want("open", nvmehost_open_at(&host, &options, &memory, &answer));
    for (size_t i = 0; i < (size_t)PAGE * options.pages; i++)
        if (pool[i] != 0) fail("a byte of an opened pool is not zero", (uint32_t)i);
    marks();
    for (uint16_t q = 0; q < QUEUES; q++) device[q] = (struct device){0, 0, 1};
    memset(registers, 0, sizeof registers);
    memset(image, 0, sizeof image);
    memset(wanted, 0, sizeof wanted);
}

/* What is refused leaves the handle closed and the memory alone; a second pool stands beside. */
static void refuses_bad_memory(void) {
    nvmehost second = NVMEHOST_CLOSED;
    nvmehost_memory beside = {other, 16, 0, NULL};
    nvmehost_options small = NVMEHOST_OPTIONS;
    memset(pool, 0xA5, sizeof pool);
    memory.pages--;
    if (nvmehost_open_at(&host, &options, &memory, &answer) != NVMESGL_BAD_OPTION) fail("a page too few", 0);
    memory.pages += 2;
    if (nvmehost_open_at(&host, &options, &memory, &answer) != NVMESGL_BAD_OPTION) fail("a page too many", 0);
    memory.pages--;
    options.queues = 64;
    options.entries = 1024;
    if (nvmehost_open_at(&host, &options, &memory, &answer) != NVMESGL_NO_PAGES) fail("too few pages for the rings", 0);
    options.queues = QUEUES - 1;
    options.entries = ENTRIES;
    for (size_t i = 0; i < sizeof pool; i++)
        if (pool[i] != 0xA5 && i >= (size_t)PAGE * options.pages) fail("a byte behind the memory changed", (uint32_t)(i / PAGE));
    opens();
    if (nvmehost_open_at(&host, &small, &beside, &answer) != NVMESGL_OPEN_HANDLE) fail("a second opening", 0);
    if (nvmehost_open_at(&host, &options, &memory, &answer) != NVMESGL_OPEN_HANDLE) fail("a second opening over its own memory", 0);
    want("a second pool", nvmehost_open_at(&second, &small, &beside, &answer));
    nvmehost_close_at(&second, &beside);
    want("a byte of the first pool", nvmehost_write(&host, 0, (const uint8_t *)"", 1));
    nvmehost_close_at(&host, &memory);
    nvmehost_close_at(&host, &memory);
}

/* A pool of so many pages is opened and driven, and again. */
static void plays(uint32_t pages, unsigned long count) {
    options.pages = pages;
    memory = (nvmehost_memory){pool, pages, 0, NULL};
    refuses_bad_memory();
    for (int round = 0; round < 2; round++) {
        opens();
        unsigned long until = done + count / 2;
        while (done < until) {
            uint16_t q = (uint16_t)(1 + below(QUEUES - 1));
            for (unsigned left = below(6); left != 0; left--) start(q);
            want("ring", nvmehost_ring(&host, q, &bell, &answer));
            write_doorbell();
            if (below(4) != 0) work(q);
            if (below(3) != 0) take(q);
        }
        for (uint16_t q = 1; q < QUEUES; q++) {
            want("ring", nvmehost_ring(&host, q, &bell, &answer));
            write_doorbell();
            work(q);
            take(q);
        }
        if (memcmp(image, wanted, sizeof image) != 0) fail("the image is another one", pages);
        nvmehost_close_at(&host, &memory);
    }
    printf("%u pages: %lu commands, %lu places looked at, %lu ranges reached for\n", pages, done, in_place, reached);
    done = in_place = reached = 0;
}

int main(int argc, char **argv) {
    if (argc != 3) return 2;
    state = strtoull(argv[1], NULL, 10) * UINT64_C(0x9E3779B97F4A7C15) + 1;
    options.queues = QUEUES - 1;
    options.entries = ENTRIES;
    options.segment = 2 + below(20);
    for (uint32_t pages = 64; pages <= MOST; pages = pages == 64 ? 256 : pages * 2) plays(pages, strtoul(argv[2], NULL, 10));
    return 0;
}

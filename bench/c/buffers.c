/* Commands whose bytes lie in several buffers: buffers SEED COMMANDS. A machine carries arbitrary ones by one call each, and another the same over one buffer: each byte, code and answer is the
 * same, and no byte around a buffer changes. Then a host sends such commands to a controller over memory that both share, and takes their completions by polls and by single calls; each tells
 * the tag with which its command was sent. */
#include "arbitrary.h"
#include "nvmectl.h"
#include "nvmehost.h"

#include <stdio.h>
#include <stdlib.h>
#include <string.h>

enum { PAGE = 4096, BLOCKS = 64, MOST = 40 * 512, PARTS = 7, PAGES = 64, ENTRIES = 8 };

static nvmesgl_answer answer, twin_answer;
static unsigned long codes[64], refused, polled, full, reaped, reset;

static void fail(const char *why, uint32_t code) {
    printf("%s: %s (%u)\n", why, nvmesgl_text(code), code);
    exit(1);
}

static void want(const char *what, uint32_t code, uint32_t wanted) {
    if (code != wanted) fail(what, code);
}

/* Buffers of so many bytes in all, with a byte around each that stays 0xEE. */
static nvmesgl_iovec buffers[PARTS];
static uint8_t room[MOST + PARTS + 8];

static void cut(uint32_t count) {
    uint8_t *at = room;
    memset(room, 0xEE, sizeof room);
    for (int i = 0; i < PARTS; i++) {
        uint32_t len = i == PARTS - 1 ? count : below(3) == 0 ? 0 : below(4) == 0 ? count : below(count + 1);
        buffers[i].base = len == 0 && below(2) == 0 ? NULL : at + 1;
        buffers[i].len = len;
        at += len + 1;
        count -= len;
    }
}

static void put(const uint8_t *bytes) {
    for (int i = 0; i < PARTS; i++) {
        if (buffers[i].len != 0) memcpy(buffers[i].base, bytes, buffers[i].len);
        bytes += buffers[i].len;
    }
}

static void get(uint8_t *bytes) {
    for (int i = 0; i < PARTS; i++) {
        if (buffers[i].len != 0) memcpy(bytes, buffers[i].base, buffers[i].len);
        bytes += buffers[i].len;
    }
}

static void unspoilt(void) {
    const uint8_t *at = room;
    for (int i = 0; i < PARTS; i++) {
        if (*at != 0xEE) fail("a byte before a buffer", *at);
        at += buffers[i].len + 1;
    }
    for (; at < room + sizeof room; at++)
        if (*at != 0xEE) fail("a byte after the buffers", *at);
}

static uint32_t length(void) {
    uint32_t count = 512 * below(MOST / 512 + 1);
    return below(20) == 0 ? below(MOST + 1) : count;
}

static void random_bytes(uint8_t *bytes, uint32_t count) {
    for (uint32_t i = 0; i < count; i++) bytes[i] = (uint8_t)below(256);
}

static void by_one_call(nvmesgl *machine, nvmesgl *twin) {
    static uint8_t one[MOST], several[MOST];
    uint32_t count = length(), kind = below(3), code, twin_code;
    uint16_t q = (uint16_t)(below(30) == 0 ? 2 : 1);
    uint64_t slba = below(BLOCKS + 4);
    cut(count);
    random_bytes(one, count);
    if (kind == NVMESGL_COMPARE && below(2) == 0) twin_code = nvmesgl_read(twin, q, slba, one, count, &twin_answer), code = nvmesgl_read(machine, q, slba, several, count, &answer);
    put(one);
    if (kind == NVMESGL_READ) {
        code = nvmesgl_readv(machine, q, slba, buffers, PARTS, &answer);
        twin_code = nvmesgl_read(twin, q, slba, one, count, &twin_answer);
    } else if (kind == NVMESGL_WRITE) {
        code = nvmesgl_writev(machine, q, slba, buffers, PARTS, &answer);
        twin_code = nvmesgl_write(twin, q, slba, one, count, &twin_answer);
    } else {
        code = nvmesgl_comparev(machine, q, slba, buffers, PARTS, &answer);
        twin_code = nvmesgl_compare(twin, q, slba, one, count, &twin_answer);
    }
    codes[code]++;
    if (code != twin_code) fail("another code", code);
    if (memcmp(&answer, &twin_answer, sizeof answer) != 0) fail("another answer", code);
    get(several);
    if (memcmp(one, several, count) != 0) fail("other bytes", code);
    unspoilt();
}

/* A host and a controller over the same memory. */

static nvmehost host = NVMEHOST_CLOSED;
static nvmectl controller = NVMECTL_CLOSED;
static uint8_t pool[PAGES * PAGE] __attribute__((aligned(4096)));
static uint8_t image[BLOCKS * 512];

typedef struct sent {
    bool is; /* it is outstanding */
    uint32_t kind, count;
    uint64_t slba, tag;
    uint8_t bytes[4 * 512];
} sent;
static sent outstanding[ENTRIES];

static void serve(void) {
    nvmectl_step step;
    nvmesgl_answer told;
    for (;;) {
        want("next", nvmectl_next(&controller, pool, sizeof pool, &step), NVMESGL_DONE);
        if (step.kind == NVMECTL_REST) return;
        if (step.kind == NVMECTL_FETCH) want("fetch", nvmectl_fetch(&controller, step.q, pool, sizeof pool, &told), NVMESGL_DONE);
        if (step.kind == NVMECTL_WALK) want("walk", nvmectl_walk(&controller, step.q, step.cid, pool, sizeof pool, &told), NVMESGL_DONE);
        if (step.kind == NVMECTL_COMPLETE) {
            const sent *ended = &outstanding[step.cid];
            want("complete", nvmectl_complete(&controller, step.q, step.cid, pool, sizeof pool, &told), NVMESGL_DONE);
            if (ended->kind == NVMESGL_WRITE && ended->slba + ended->count / 512 <= BLOCKS) memcpy(image + 512 * ended->slba, ended->bytes, ended->count);
        }
    }
}

/* A Write and another command that are outstanding at once have no order: a Write waits for all others, and they wait for it. */
static bool waits(uint32_t kind) {
    for (int i = 0; i < ENTRIES; i++)
        if (outstanding[i].is && (kind == NVMESGL_WRITE || outstanding[i].kind == NVMESGL_WRITE)) return true;
    return false;
}

/* A command is sent by one call. */
static void send(void) {
    static sent next;
    uint32_t count = 512 * below(5), kind = below(20) == 0 ? 7 : below(3);
    if (below(20) == 0) count = below(4 * 512);
    if (waits(kind)) return;
    cut(count);
    random_bytes(next.bytes, count);
    next.is = true, next.kind = kind, next.count = count, next.slba = below(BLOCKS), next.tag = (uint64_t)below(1u << 30) << 33 | below(5);
    put(next.bytes);
    nvmehost_pages before, after;
    want("counts", nvmehost_counts(&host, &before), NVMESGL_DONE);
    uint32_t code = nvmehost_submit_iov(&host, 1, kind, next.slba, buffers, PARTS, next.tag, &answer);
    want("counts", nvmehost_counts(&host, &after), NVMESGL_DONE);
    codes[code]++;
    unspoilt();
    if (kind == 7) want("no kind", code, NVMESGL_NO_KIND);
    else if (count < 512) want("too few bytes", code, NVMESGL_BAD_COUNT);
    else if (count % 512 != 0) want("a block that is cut short", code, NVMESGL_LENGTH_MISMATCH);
    if (code != NVMESGL_DONE) {
        refused++;
        if (memcmp(&before, &after, sizeof before) != 0) fail("pages of a command that was refused", code);
        return;
    }
    if (answer.data_pages != (count + PAGE - 1) / PAGE || outstanding[answer.cid].is) fail("a reservation", answer.cid);
    outstanding[answer.cid] = next;
}

/* A command that is reserved by its own call has the tag that the call names, and else none, whatever its identifier had before. */
static void send_by_steps(void) {
    nvmesgl_piece piece = {0, 512, NVMESGL_PIECE};
    static sent next;
    next.is = true, next.kind = NVMESGL_READ, next.count = 512, next.slba = 3, next.tag = below(2) == 0 ? 0 : (uint64_t)below(1u << 31) << 32 | below(3);
    if (waits(NVMESGL_READ)) return;
    uint32_t code = next.tag == 0 && below(2) == 0 ? nvmehost_reserve(&host, 1, NVMESGL_READ, 3, 1, &piece, 1, &answer)
                                                   : nvmehost_reserve_tagged(&host, 1, NVMESGL_READ, 3, 1, &piece, 1, next.tag, &answer);
    if (answer.tag != 0) fail("a reservation tells a tag", answer.cid);
    if (code != NVMESGL_DONE) return;
    uint16_t cid = answer.cid;
    want("build", nvmehost_build(&host, 1, cid, &answer), NVMESGL_DONE);
    want("submit", nvmehost_submit(&host, 1, cid, &answer), NVMESGL_DONE);
    outstanding[cid] = next;
}

/* A command that has ended and is collected is gathered and released. */
static void finish(uint16_t cid, uint8_t sct, uint8_t sc) {
    static uint8_t bytes[4 * 512];
    sent *command = &outstanding[cid];
    bool inside = command->slba + command->count / 512 <= BLOCKS;
    if (command->kind != NVMESGL_COMPARE && (sct == 0 && sc == 0) != inside) fail("a status", sc);
    cut(command->count);
    uint8_t short_of = 0xEE;
    nvmesgl_iovec little = {&short_of, command->kind == NVMESGL_READ ? 1 : 0};
    want("gather", nvmehost_gather_iov(&host, 1, cid, &little, 1, &answer), command->kind == NVMESGL_READ ? NVMESGL_TOO_SHORT : NVMESGL_DONE);
    if (short_of != 0xEE || answer.bytes != (command->kind == NVMESGL_READ ? command->count : 0)) fail("a short buffer", short_of);
    want("gather", nvmehost_gather_iov(&host, 1, cid, buffers, PARTS, &answer), NVMESGL_DONE);
    unspoilt();
    get(bytes);
    if (command->kind == NVMESGL_READ && inside && memcmp(bytes, image + 512 * command->slba, command->count) != 0) fail("other bytes", cid);
    want("release", nvmehost_release(&host, 1, cid, &answer), NVMESGL_DONE);
    if (answer.tag != 0) fail("a release tells a tag", cid);
    command->is = false;
}

/* A completion is taken and its command collected by single calls: both tell its tag, and where there is none, or it has not ended, 0 is told. */
static void reap(void) {
    nvmehost_doorbell bell;
    uint16_t other = (uint16_t)below(ENTRIES);
    uint32_t code = nvmehost_collect(&host, 1, other, &answer);
    if (code != NVMESGL_NO_VALUE && code != NVMESGL_NOT_YET) fail("a command that has not ended", code);
    if (answer.tag != 0) fail("the tag of a command that has not ended", other);
    want("reap", nvmehost_reap(&host, 1, &bell, &answer), NVMESGL_DONE);
    if (answer.state == NVMESGL_REAP_EMPTY) {
        if (answer.tag != 0) fail("a tag where nothing was found", answer.state);
        return;
    }
    uint16_t cid = answer.cid;
    if (answer.state != NVMESGL_REAP_DONE || !outstanding[cid].is || answer.tag != outstanding[cid].tag) fail("a reap tells another tag", cid);
    want("head", nvmectl_head(&controller, 1, (uint16_t)bell.value), NVMESGL_DONE);
    want("collect", nvmehost_collect(&host, 1, cid, &answer), NVMESGL_DONE);
    if (answer.tag != outstanding[cid].tag) fail("a collection tells another tag", cid);
    finish(cid, answer.sct, answer.sc);
    reaped++;
}

/* Completions are taken by one call. */
static void poll(void) {
    static nvmehost_ended ended[ENTRIES];
    nvmehost_doorbell bell;
    size_t most = below(ENTRIES), count;
    want("poll", nvmehost_poll(&host, 1, ended, most, &count, &bell, &answer), NVMESGL_DONE);
    if (count > most || bell.rings != (count != 0)) fail("a poll", (uint32_t)count);
    if (count < most ? answer.state != NVMESGL_REAP_EMPTY : answer.state != 0) fail("the end of a poll", answer.state);
    if (count == most) full++;
    if (bell.rings) want("head", nvmectl_head(&controller, 1, (uint16_t)bell.value), NVMESGL_DONE);
    for (size_t i = 0; i < count; i++, polled++) {
        sent *command = &outstanding[ended[i].cid];
        if (ended[i].state != NVMESGL_REAP_DONE || ended[i].code != NVMESGL_DONE || !command->is) fail("a completion", ended[i].state);
        if (ended[i].tag != command->tag) fail("another tag", ended[i].cid);
        finish(ended[i].cid, ended[i].sct, ended[i].sc);
    }
}

/* Where the host begins again every command that was submitted has ended, and its collection tells its tag. */
static void begin_again(void) {
    for (int i = 0; i < ENTRIES; i++) send();
    want("reset", nvmehost_reset(&host, &answer), NVMESGL_DONE);
    for (uint16_t cid = 0; cid < ENTRIES; cid++) {
        if (!outstanding[cid].is) continue;
        want("collect", nvmehost_collect(&host, 1, cid, &answer), NVMESGL_DONE);
        if (answer.tag != outstanding[cid].tag || answer.sct != 0 || answer.sc == 0) fail("a command that a reset ended", cid);
        want("release", nvmehost_release(&host, 1, cid, &answer), NVMESGL_DONE);
        outstanding[cid].is = false;
        reset++;
    }
}

static void by_polls(unsigned long left) {
    nvmehost_options options = NVMEHOST_OPTIONS;
    nvmectl_options own = NVMECTL_OPTIONS;
    nvmectl_queue queues[2];
    nvmehost_memory memory = {pool, PAGES, 0, NULL};
    nvmehost_doorbell bell;
    options.pages = PAGES, options.entries = own.entries = ENTRIES, own.blocks = BLOCKS;
    want("open", nvmehost_open_at(&host, &options, &memory, &answer), NVMESGL_DONE);
    for (uint16_t q = 0; q < 2; q++) {
        nvmehost_queue queue;
        want("look", nvmehost_look(&host, q, &queue), NVMESGL_DONE);
        queues[q] = (nvmectl_queue){queue.submission_page, queue.completion_page};
    }
    want("open", nvmectl_open(&controller, &own, queues, 2, NULL, 0), NVMESGL_DONE);
    while (left-- != 0) {
        if (below(3) != 0) send();
        else if (below(4) == 0) send_by_steps();
        if (below(3) == 0) {
            want("ring", nvmehost_ring(&host, 1, &bell, &answer), NVMESGL_DONE);
            want("tail", nvmectl_tail(&controller, 1, (uint16_t)bell.value), NVMESGL_DONE);
            serve();
        }
        if (below(3) == 0) poll();
        else if (below(3) == 0) reap();
    }
    begin_again();
    size_t count;
    want("no queue", nvmehost_poll(&host, 5, NULL, 0, &count, &bell, &answer), NVMESGL_DONE); /* no room: no reap */
    nvmehost_ended ended;
    want("no queue", nvmehost_poll(&host, 5, &ended, 1, &count, &bell, &answer), NVMESGL_NO_QUEUE);
    want("no queue", nvmehost_submit_iov(&host, 5, NVMESGL_READ, 0, buffers, 0, 7, &answer), NVMESGL_NO_QUEUE);
    want("no value", nvmehost_gather_iov(&host, 1, ENTRIES, NULL, 0, &answer), NVMESGL_NO_VALUE);
    nvmehost_close_at(&host, &memory);
    nvmectl_close(&controller);
    want("a closed handle", nvmehost_poll(&host, 1, &ended, 1, &count, &bell, &answer), NVMESGL_CLOSED_HANDLE);
    if (count != 0 || bell.rings) fail("a closed handle", 0);
}

int main(int argc, char **argv) {
    if (argc != 3) return 2;
    state = strtoull(argv[1], NULL, 10) * UINT64_C(0x9E3779B97F4A7C15) + 1;
    unsigned long left = strtoul(argv[2], NULL, 10);
    nvmesgl machine = NVMESGL_CLOSED, twin = NVMESGL_CLOSED;
    nvmesgl_options options = NVMESGL_OPTIONS;
    options.blocks = BLOCKS;
    want("a closed handle", nvmesgl_readv(&machine, 1, 0, NULL, 0, &answer), NVMESGL_CLOSED_HANDLE);
    want("open", nvmesgl_open(&machine, &options, NULL, 0, &answer), NVMESGL_DONE);
    want("open", nvmesgl_open(&twin, &options, NULL, 0, &answer), NVMESGL_DONE);
    for (unsigned long i = 0; i < left; i++) by_one_call(&machine, &twin);
    nvmesgl_iovec twice[2] = {{room, 256}, {room, 256}};
    want("a buffer that stands there twice", nvmesgl_writev(&machine, 1, 0, twice, 2, &answer), NVMESGL_DONE);
    want("a buffer that stands there twice", nvmesgl_comparev(&machine, 1, 0, twice, 2, &answer), NVMESGL_DONE);
    if (answer.sct != 0 || answer.sc != 0) fail("a buffer that stands there twice", answer.sc);
    nvmesgl_close(&machine), nvmesgl_close(&twin);
    by_polls(left);
    printf("%lu commands polled, %lu polls that were full, %lu reaped by single calls, %lu ended by a reset, %lu refused by the host; codes:", polled, full, reaped, reset, refused);
    for (unsigned i = 0; i < 64; i++)
        if (codes[i] != 0) printf(" %u:%lu", i, codes[i]);
    printf("\n");
    return 0;
}

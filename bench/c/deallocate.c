/* A Deallocate, whose data is ranges of blocks. Sent by a host alone, its entry says how many there are and names the page with their bytes, which the device may read; a machine ends it with 0:01,
 * and its blocks stay as they are. */
#include "nvmehost.h"

#include <stdio.h>
#include <stdlib.h>
#include <string.h>

enum { PAGE = 4096, MOST = 256 };

static nvmesgl_answer answer;
static nvmesgl_range ranges[MOST];

static void want(bool good, const char *what, uint32_t number) {
    if (good) return;
    printf("%s (%u)\n", what, number);
    exit(1);
}

static void done(uint32_t code, const char *call) { want(code == NVMESGL_DONE, call, code); }

/* The first range has other numbers in each byte: it lies in memory as the standard has it. */
static void lay_ranges(void) {
    static const uint8_t first[16] = {0, 0, 0, 0, 4, 3, 2, 1, 0x18, 0x17, 0x16, 0x15, 0x14, 0x13, 0x12, 0x11};
    for (uint32_t i = 0; i < MOST; i++) ranges[i] = (nvmesgl_range){0, i, UINT64_C(0x0102030405060708) * i};
    ranges[0] = (nvmesgl_range){0, 0x01020304, UINT64_C(0x1112131415161718)};
    want(sizeof ranges[0] == sizeof first && memcmp(ranges, first, sizeof first) == 0, "the bytes of a range", 0);
}

/* It has 1 to 256 ranges, of 16 bytes each; a bucket does not count. */
static void refuses(nvmehost *host) {
    const nvmesgl_piece some[] = {{0, PAGE, NVMESGL_PIECE}, {0, 16, NVMESGL_PIECE}}, more[] = {{0, 16, NVMESGL_PIECE}, {0, 16, NVMESGL_BUCKET}};
    want(nvmehost_reserve(host, 1, NVMESGL_DEALLOCATE, 0, 0, NULL, 0, &answer) == NVMESGL_BAD_COUNT, "no range", 0);
    want(nvmehost_reserve(host, 1, NVMESGL_DEALLOCATE, 0, MOST + 1, some, 2, &answer) == NVMESGL_BAD_COUNT, "more than 256 ranges", 0);
    want(nvmehost_reserve(host, 1, NVMESGL_DEALLOCATE, 0, 1, NULL, 0, &answer) == NVMESGL_LENGTH_MISMATCH, "a range without bytes", 0);
    want(nvmehost_reserve(host, 1, NVMESGL_DEALLOCATE, 0, 1, some, 1, &answer) == NVMESGL_LENGTH_MISMATCH, "a range of 4,096 bytes", 0);
    want(nvmehost_reserve(host, 1, NVMESGL_DEALLOCATE, 0, 2, more, 2, &answer) == NVMESGL_LENGTH_MISMATCH, "a range in a bucket", 0);
    done(nvmehost_reserve(host, 1, NVMESGL_DEALLOCATE, 0, 1, more, 2, &answer), "a bucket beside a range");
    done(nvmehost_cancel(host, 1, answer.cid, &answer), "cancel");
}

/* Its entry, and what the device finds in its page. Neither a first block nor a flag is in the entry. */
static void is_sent(nvmehost *host, const nvmehost_queue *queue, uint16_t cid, uint32_t count) {
    uint8_t bytes[PAGE];
    uint32_t entry[16], right;
    nvmehost_place at;
    done(nvmehost_data_place(host, 1, cid, 0, &at), "data_place");
    done(nvmehost_read(host, (uint64_t)queue->submission_page * PAGE + 64u * queue->submission_tail, (uint8_t *)entry, sizeof entry), "the entry");
    const uint32_t wanted[16] = {[0] = 0x4009 | (uint32_t)cid << 16, [1] = 2, [6] = PAGE * at.page + at.offset, [8] = 16 * count, [10] = count - 1, [11] = 4};
    want(memcmp(entry, wanted, sizeof entry) == 0, "the entry of so many ranges", count);
    done(nvmehost_may(host, at.page, &right), "may");
    want(right == NVMEHOST_READ, "the right of its page", right);
    done(nvmehost_read(host, (uint64_t)PAGE * at.page + at.offset, bytes, at.len), "the ranges");
    want(at.len == 16 * count && memcmp(bytes, ranges, at.len) == 0, "the bytes of so many ranges", count);
}

/* It ends as any command does, and brings nothing. */
static void ends(nvmehost *host, const nvmehost_queue *queue, uint16_t cid) {
    const uint32_t completion[4] = {0, 0, 1u << 16 | (queue->submission_tail + 1u), 1u << 16 | cid};
    nvmehost_doorbell bell;
    done(nvmehost_write(host, (uint64_t)queue->completion_page * PAGE + 16u * queue->completion_head, (const uint8_t *)completion, sizeof completion), "its completion");
    done(nvmehost_reap(host, 1, &bell, &answer), "reap");
    want(answer.state == NVMESGL_REAP_DONE && answer.cid == cid, "its reap", answer.state);
    done(nvmehost_collect(host, 1, cid, &answer), "collect");
    want(answer.sct == 0 && answer.sc == 0 && answer.tag == 9, "its collection", answer.sc);
    done(nvmehost_gather(host, 1, cid, NULL, 0, &answer), "gather");
    done(nvmehost_release(host, 1, cid, &answer), "release");
}

/* Of a host alone: 1, 3 and 256 ranges, in one queue. */
static void of_a_host(void) {
    static const uint32_t counts[] = {1, 3, MOST};
    nvmehost host = NVMEHOST_CLOSED;
    nvmehost_options options = NVMEHOST_OPTIONS;
    nvmehost_queue queue;
    options.entries = 8;
    done(nvmehost_open(&host, &options, &answer), "open");
    refuses(&host);
    for (unsigned i = 0; i < sizeof counts / sizeof counts[0]; i++) {
        const uint32_t count = counts[i];
        const nvmesgl_piece piece = {count == MOST ? 0 : 8, 16 * count, NVMESGL_PIECE};
        const nvmesgl_request request = {sizeof request, NVMESGL_DEALLOCATE, 2, NVMESGL_FUA, 7, count, 4096, {0}};
        done(nvmehost_look(&host, 1, &queue), "look");
        done(nvmehost_reserve_request(&host, 1, &request, &piece, 1, 9, &answer), "reserve_request");
        want(answer.data_pages == 1 && answer.chain_pages == 0, "the pages of so many ranges", count);
        uint16_t cid = answer.cid;
        done(nvmehost_fill(&host, 1, cid, (const uint8_t *)ranges, sizeof ranges[0] * count, &answer), "fill");
        done(nvmehost_build(&host, 1, cid, &answer), "build");
        done(nvmehost_submit(&host, 1, cid, &answer), "submit");
        is_sent(&host, &queue, cid, count);
        ends(&host, &queue, cid);
    }
    nvmehost_close(&host);
}

/* Of a machine, whose controller does not have it. */
static void of_a_machine(void) {
    uint8_t image[2 * 512], block[sizeof image];
    nvmesgl machine = NVMESGL_CLOSED;
    const nvmesgl_options options = NVMESGL_OPTIONS;
    const nvmesgl_range all = {0, 2, 0};
    const nvmesgl_piece piece = {0, sizeof all, NVMESGL_PIECE};
    memset(image, 0x5A, sizeof image);
    done(nvmesgl_open(&machine, &options, image, sizeof image, &answer), "open");
    done(nvmesgl_reserve(&machine, 1, NVMESGL_DEALLOCATE, 0, 1, &piece, 1, &answer), "reserve");
    uint16_t cid = answer.cid;
    done(nvmesgl_fill(&machine, 1, cid, (const uint8_t *)&all, sizeof all, &answer), "fill");
    done(nvmesgl_build(&machine, 1, cid, &answer), "build");
    done(nvmesgl_submit(&machine, 1, cid, &answer), "submit");
    done(nvmesgl_ring(&machine, 1, &answer), "ring");
    done(nvmesgl_serve(&machine, &answer), "serve");
    done(nvmesgl_reap(&machine, 1, &answer), "reap");
    done(nvmesgl_collect(&machine, 1, cid, &answer), "collect");
    want(answer.sct == 0 && answer.sc == 1, "its status of a machine", answer.sc);
    done(nvmesgl_release(&machine, 1, cid, &answer), "release");
    done(nvmesgl_read(&machine, 1, 0, block, sizeof block, &answer), "read");
    want(answer.sct == 0 && answer.sc == 0 && memcmp(block, image, sizeof image) == 0, "the blocks of a machine", answer.sc);
    nvmesgl_close(&machine);
}

int main(void) {
    lay_ranges();
    of_a_host();
    of_a_machine();
    printf("1, 3 and 256 ranges\n");
    return 0;
}

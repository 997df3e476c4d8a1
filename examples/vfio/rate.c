/*
 * How many random Reads a second the driver does: rate ADDRESS DEPTH BYTES [--open]
 *
 * So many are under way at a time, on one queue that is polled; the bytes stay where the device laid them.
 */
#include "nvme.h"

#include <signal.h>
#include <stdio.h>
#include <stdlib.h>
#include <string.h>
#include <unistd.h>

enum { SECONDS = 1, AREA = 4 << 20, MOST_DEPTH = 63, MOST_PIECES = 256 };

static struct nvme nvme;
static nvmesgl_piece pieces[MOST_PIECES];
static uint32_t piece_count;
static uint32_t bytes;
static volatile sig_atomic_t is_over;

/* Whole pages, as many as the bytes take. */
static void lay_pieces(void) {
    for (uint32_t left = bytes; left > 0; left -= pieces[piece_count++].len)
        pieces[piece_count] = (nvmesgl_piece){0, left < NVME_PAGE ? left : NVME_PAGE, NVMESGL_PIECE};
}

static void submit(void) {
    uint32_t blocks = bytes / nvme.block;
    uint64_t slba = (uint64_t)(rand() % (AREA / (int)bytes)) * blocks;
    uint16_t cid;
    nvme_done(nvme_reserve(&nvme, 1, NVMESGL_READ, slba, blocks, pieces, piece_count, &cid), "reserve");
    nvme_submit(&nvme, 1, cid);
}

/* Takes all completions that are there: how many. */
static unsigned finish(void) {
    unsigned count = 0;
    nvmesgl_answer answer;
    for (; nvme_reap(&nvme, 1, &answer); count++) {
        uint16_t cid = answer.cid;
        nvme_done(nvmehost_collect(&nvme.host, 1, cid, &answer), "collect");
        need(answer.sct == 0 && answer.sc == 0, "a Read fails");
        nvme_done(nvmehost_release(&nvme.host, 1, cid, &answer), "release");
    }
    return count;
}

static void end_it(int signal) {
    (void)signal;
    is_over = 1;
}

/* Reads for a while, so many at a time: how many were done in a second. The clock is read twice alone, as a guest may pay much for it. */
static double measure(unsigned depth) {
    unsigned long done = 0;
    double from = seconds();
    signal(SIGALRM, end_it);
    alarm(SECONDS);
    for (unsigned i = 0; i < depth; i++) submit();
    nvme_ring(&nvme, 1);
    while (!is_over) {
        unsigned count = finish();
        if (count == 0) continue;
        done += count;
        for (unsigned i = 0; i < count; i++) submit();
        nvme_ring(&nvme, 1);
    }
    double took = seconds() - from;
    for (unsigned left = depth; left > 0;) left -= finish();
    return (double)done / took;
}

int main(int count, char **words) {
    need(count >= 4, "rate ADDRESS DEPTH BYTES [--open]");
    unsigned depth = (unsigned)atoi(words[2]);
    bytes = (uint32_t)atoi(words[3]);
    need(depth >= 1 && depth <= MOST_DEPTH && bytes >= 512 && bytes <= 1 << 20, "a depth of 1 to 63, and 512 to 1,048,576 bytes");
    bool is_open = count > 4 && strcmp(words[4], "--open") == 0;
    struct nvme_options options = {.address = words[1], .nsid = 1, .queues = 1, .pages = 1024, .entries = MOST_DEPTH + 1, .segment = 256, .open = is_open};
    nvme_start(&nvme, &options);
    lay_pieces();
    printf("%.0f\n", measure(depth));
    nvme_stop(&nvme);
    return 0;
}

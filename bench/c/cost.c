/* What a command costs in the host alone, without a device: cost PAGES QUEUES OUTSTANDING PIECES COMMANDS place|copies. Its completion is laid by hand into the ring. Prints the
 * nanoseconds, the allocations and the allocated bytes of a command; nothing of them where COMMANDS is 0. bench/host_cost builds and runs it.
 * Each command is a Write or a Read in turn, of pieces of 4,096 bytes, on the last queue: reserve, fill (not in place), build, submit, ring, look, ready, reap, collect, gather (not in place), release. */
#define _POSIX_C_SOURCE 200809L

#include "nvmehost.h"

#include <stdio.h>
#include <stdlib.h>
#include <string.h>
#include <time.h>

enum { PAGE = 4096, ENTRIES = 1024, MOST = 256, ROUNDS = 5 };

static unsigned long allocations, allocated;

/* The linker's --wrap leads the library here. */
void *__real_malloc(size_t);
void *__real_realloc(void *, size_t);

void *__wrap_malloc(size_t size) {
    allocations++;
    allocated += size;
    return __real_malloc(size);
}

void *__wrap_realloc(void *at, size_t size) {
    allocations++;
    allocated += size;
    return __real_realloc(at, size);
}

static nvmehost host = NVMEHOST_CLOSED;
static nvmehost_memory memory;
static nvmesgl_answer answer;
static nvmehost_doorbell bell;
static nvmesgl_piece pieces[MOST];
static uint8_t bytes[MOST * PAGE];
static uint16_t queue_of_all;
static bool copies;

static void want(const char *what, uint32_t code) {
    if (code == NVMESGL_DONE) return;
    fprintf(stderr, "%s: %s\n", what, nvmesgl_text(code));
    exit(1);
}

/* A command on a queue, up to its entry: its identifier. */
static uint16_t submit(uint16_t q, uint32_t kind, uint32_t count) {
    want("reserve", nvmehost_reserve(&host, q, kind, 0, 8 * count, pieces, count, &answer));
    uint16_t cid = answer.cid;
    if (copies && kind == NVMESGL_WRITE) want("fill", nvmehost_fill(&host, q, cid, bytes, (size_t)PAGE * count, &answer));
    want("build", nvmehost_build(&host, q, cid, &answer));
    want("submit", nvmehost_submit(&host, q, cid, &answer));
    want("ring", nvmehost_ring(&host, q, &bell, &answer));
    return cid;
}

/* What a device would write: a completion of a command that has no fault, which has heard all entries. */
static void lay(const nvmehost_queue *at, uint16_t q, uint16_t cid) {
    uint16_t entry[8] = {0, 0, 0, 0, at->submission_tail, q, cid, at->phase ? 1 : 0};
    memcpy((char *)memory.at + (size_t)PAGE * at->completion_page + 16u * at->completion_head, entry, sizeof entry);
}

static void carry(uint16_t q, uint32_t kind, uint32_t count) {
    nvmehost_queue at;
    uint16_t cid = submit(q, kind, count);
    want("look", nvmehost_look(&host, q, &at));
    lay(&at, q, cid);
    if (!nvmehost_ready(&memory, &at)) want("a completion", NVMESGL_NOT_YET);
    want("reap", nvmehost_reap(&host, q, &bell, &answer));
    if (answer.state != NVMESGL_REAP_DONE || answer.cid != cid) want("its command", NVMESGL_NOT_YET);
    want("collect", nvmehost_collect(&host, q, cid, &answer));
    if (copies && kind == NVMESGL_READ) want("gather", nvmehost_gather(&host, q, cid, bytes, sizeof bytes, &answer));
    want("release", nvmehost_release(&host, q, cid, &answer));
}

static double now(void) {
    struct timespec at;
    clock_gettime(CLOCK_PROCESS_CPUTIME_ID, &at);
    return 1e9 * (double)at.tv_sec + (double)at.tv_nsec;
}

/* So many commands: the nanoseconds of one. */
static double round_of(unsigned long commands, uint32_t count) {
    double begun = now();
    for (unsigned long i = 0; i < commands; i++) carry(queue_of_all, i % 2 ? NVMESGL_READ : NVMESGL_WRITE, count);
    return (now() - begun) / (double)commands;
}

int main(int argc, char **argv) {
    nvmehost_options options = NVMEHOST_OPTIONS;
    if (argc != 7) return 2;
    options.pages = (uint32_t)strtoul(argv[1], NULL, 10);
    options.queues = (uint32_t)strtoul(argv[2], NULL, 10);
    options.entries = ENTRIES;
    queue_of_all = (uint16_t)options.queues;
    unsigned long outstanding = strtoul(argv[3], NULL, 10), commands = strtoul(argv[5], NULL, 10);
    uint32_t count = (uint32_t)strtoul(argv[4], NULL, 10);
    copies = strcmp(argv[6], "copies") == 0;
    if (count > MOST) return 2;
    for (uint32_t i = 0; i < count; i++) pieces[i] = (nvmesgl_piece){0, PAGE, NVMESGL_PIECE};
    memory = (nvmehost_memory){aligned_alloc(PAGE, (size_t)PAGE * options.pages), options.pages, 0, NULL};
    if (memory.at == NULL) return 1;
    want("open", nvmehost_open_at(&host, &options, &memory, &answer));
    while (outstanding-- != 0) submit(1, NVMESGL_READ, 1);
    if (commands != 0) {
        double least = round_of(commands, count);
        unsigned long before = allocations, size = allocated;
        for (int i = 1; i < ROUNDS; i++) {
            double found = round_of(commands, count);
            if (found < least) least = found;
        }
        double all = (double)commands * (ROUNDS - 1);
        printf("%.0f %.1f %.0f\n", least, (double)(allocations - before) / all, (double)(allocated - size) / all);
    }
    nvmehost_close_at(&host, &memory);
    free(memory.at);
    return 0;
}

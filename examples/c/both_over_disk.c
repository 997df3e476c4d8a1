/* A driver and a controller in one program, over a disk: the host's pool stands in the program's memory, which the controller reaches as one region, and the namespace, of one TiB, lies in a
 * file behind two callbacks. nvmesgl_* is both sides over an image in memory. */
#define _XOPEN_SOURCE 700
#define _FILE_OFFSET_BITS 64
#include "file_disk.h"
#include "nvmehost.h"

enum { PAGES = 16, QUEUES = 2, BYTES = 3 * 4096 };

static uint8_t pool[PAGES * 4096] __attribute__((aligned(4096)));
static const nvmectl_region region = {0, pool, sizeof pool};
static nvmehost_memory memory = {pool, PAGES, 0, NULL};
static nvmehost host = NVMEHOST_CLOSED;
static nvmectl controller = NVMECTL_CLOSED;
static int file;
static const nvmectl_disk disk = {&file, read_file, write_file};

/* Opens both, with the same rings: 4 entries each, where the host has laid them. */
static int open_both(uint32_t blocks) {
    nvmehost_options at_host = NVMEHOST_OPTIONS;
    nvmectl_options at_controller = NVMECTL_OPTIONS;
    nvmectl_queue rings[QUEUES];
    nvmesgl_answer answer;
    at_host.pages = PAGES;
    at_controller.blocks = blocks;
    if (!told("open the host", nvmehost_open_at(&host, &at_host, &memory, &answer))) return 0;
    for (uint16_t q = 0; q < QUEUES; q++) {
        nvmehost_queue queue;
        if (!told("look", nvmehost_look(&host, q, &queue))) return 0;
        rings[q] = (nvmectl_queue){queue.submission_page, queue.completion_page};
    }
    return told("open the controller", nvmectl_open_lent(&controller, &at_controller, rings, QUEUES));
}

/* The doorbells are calls, as both sides are here. Between them the controller does all that it can. */
static int ring_and_serve(void) {
    nvmesgl_answer answer;
    nvmehost_doorbell bell;
    return told("ring", nvmehost_ring(&host, 1, &bell, &answer)) && told("tail", nvmectl_tail(&controller, 1, (uint16_t)bell.value)) && serve_over(&controller, &region, &disk);
}

/* Takes the one completion, once it is there (rule 6 of docs/C.md), and lets the controller know. */
static int poll_one(nvmehost_ended *ended) {
    nvmesgl_answer answer;
    nvmehost_doorbell bell;
    nvmehost_queue queue;
    size_t count;
    if (!told("look", nvmehost_look(&host, 1, &queue)) || !nvmehost_ready(&memory, &queue)) return 0;
    return told("poll", nvmehost_poll(&host, 1, ended, 1, &count, &bell, &answer)) && count == 1 && ended->state == NVMESGL_REAP_DONE && told("collect", ended->code)
        && told("head", nvmectl_head(&controller, 1, (uint16_t)bell.value));
}

/* A command of 24 blocks, from its submission to its release: its status. */
static unsigned command(const char *name, uint32_t kind, uint64_t slba, uint8_t *bytes) {
    nvmesgl_iovec buffer = {bytes, BYTES};
    nvmesgl_answer answer;
    nvmehost_ended ended;
    if (!told("submit", nvmehost_submit_iov(&host, 1, kind, slba, &buffer, 1, 0, &answer)) || !ring_and_serve() || !poll_one(&ended)) return ~0u;
    unsigned status = (unsigned)ended.sct << 8 | ended.sc;
    if (kind == NVMESGL_READ && status == 0 && !told("gather", nvmehost_gather_iov(&host, 1, ended.cid, &buffer, 1, &answer))) return ~0u;
    if (!told("release", nvmehost_release(&host, 1, ended.cid, &answer))) return ~0u;
    printf("%-8s of 24 blocks from %lu on: %s\n", name, (unsigned long)slba, nvmesgl_status_text(ended.sct, ended.sc));
    return status;
}

int main(void) {
    static uint8_t bytes[BYTES], back[BYTES];
    const uint32_t blocks = UINT32_C(1) << 31;
    const uint64_t far_out = UINT64_C(2000000000);
    FILE *temporary = tmpfile();
    nvmehost_pages counts;
    if (temporary == NULL) return 1;
    file = fileno(temporary);
    if (!open_both(blocks)) return 1;

    for (int i = 0; i < BYTES; i++) bytes[i] = (uint8_t)(11 * i + i / 256);
    if (command("Write", NVMESGL_WRITE, far_out, bytes) != 0) return 1;
    if (command("Read", NVMESGL_READ, far_out, back) != 0 || memcmp(back, bytes, BYTES) != 0) return 1;
    if (command("Compare", NVMESGL_COMPARE, far_out, bytes) != 0) return 1;
    if (command("Compare", NVMESGL_COMPARE, far_out + 1, bytes) != 0x285) return 1;
    if (command("Read", NVMESGL_READ, blocks - 1, back) != 0x080) return 1;
    if (!told("counts", nvmehost_counts(&host, &counts)) || counts.free_pages != PAGES - 2 * QUEUES) return 1;
    nvmectl_close(&controller);
    nvmehost_close_at(&host, &memory);
    fclose(temporary);
    return 0;
}

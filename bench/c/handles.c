/* Handles that are none of the kind that a call takes: another kind's, never zeroed, overwritten. Each call of the library answers NO_HANDLE, and leaves the handle as it was; a closing leaves
 * the memory of a host that is open, too. */
#include "nvmectl.h"
#include "nvmehost.h"

#include <stdio.h>
#include <stdlib.h>
#include <string.h>

enum { PAGE = 4096 };

static nvmesgl_answer answer;
static uint8_t pool[16 * PAGE] __attribute__((aligned(PAGE))), block[512];
static unsigned made;

static void want(const char *what, uint32_t code, uint32_t wanted) {
    made++;
    if (code == wanted) return;
    printf("%s: %s (%u)\n", what, nvmesgl_text(code), code);
    exit(1);
}

#define STRANGE(call) want(#call, call, NVMESGL_NO_HANDLE)

/* The calls that a machine and a host both have, with the same words. */
#define SHARED_CALLS(side, h)                                                  \
    do {                                                                       \
        STRANGE(side##_reserve(h, 1, NVMESGL_READ, 0, 1, &piece, 1, &answer)); \
        STRANGE(side##_fill(h, 1, 0, block, 512, &answer));                    \
        STRANGE(side##_build(h, 1, 0, &answer));                               \
        STRANGE(side##_submit(h, 1, 0, &answer));                              \
        STRANGE(side##_cancel(h, 1, 0, &answer));                              \
        STRANGE(side##_collect(h, 1, 0, &answer));                             \
        STRANGE(side##_gather(h, 1, 0, block, 512, &answer));                  \
        STRANGE(side##_release(h, 1, 0, &answer));                             \
        STRANGE(side##_abort(h, 1, 0, &answer));                               \
        STRANGE(side##_delete_sq(h, 1, &answer));                              \
        STRANGE(side##_delete_cq(h, 1, &answer));                              \
        STRANGE(side##_create_cq(h, 1, &answer));                              \
        STRANGE(side##_create_sq(h, 1, &answer));                              \
        STRANGE(side##_retire(h, 1, &answer));                                 \
        STRANGE(side##_reset(h, &answer));                                     \
        STRANGE(side##_counts(h, &pages));                                     \
        STRANGE(side##_owner(h, 0, &owner));                                   \
        side##_close(h);                                                       \
    } while (0)

static void machine_calls(nvmesgl *h) {
    nvmesgl_options options = NVMESGL_OPTIONS;
    nvmesgl_request request = {0}; /* of no size: that comes later */
    nvmesgl_piece piece = {0, 512, NVMESGL_PIECE};
    nvmesgl_pages pages;
    nvmesgl_page_owner owner;
    nvmesgl_iovec buffer = {block, 512};
    STRANGE(nvmesgl_open(h, &options, NULL, 0, &answer));
    STRANGE(nvmesgl_reserve(h, 1, 99, 0, 1, &piece, 1, &answer));
    STRANGE(nvmesgl_reserve_request(h, 1, &request, &piece, 1, &answer));
    STRANGE(nvmesgl_ring(h, 1, &answer));
    STRANGE(nvmesgl_reap(h, 1, &answer));
    STRANGE(nvmesgl_forge(h, 1, 0, block, &answer));
    STRANGE(nvmesgl_fetch(h, 1, &answer));
    STRANGE(nvmesgl_walk(h, 1, 0, &answer));
    STRANGE(nvmesgl_complete(h, 1, 0, &answer));
    STRANGE(nvmesgl_serve(h, &answer));
    STRANGE(nvmesgl_read(h, 1, 0, block, 512, &answer));
    STRANGE(nvmesgl_write(h, 1, 0, block, 512, &answer));
    STRANGE(nvmesgl_compare(h, 1, 0, block, 512, &answer));
    STRANGE(nvmesgl_readv(h, 1, 0, &buffer, 1, &answer));
    STRANGE(nvmesgl_writev(h, 1, 0, &buffer, 1, &answer));
    STRANGE(nvmesgl_comparev(h, 1, 0, &buffer, 1, &answer));
    SHARED_CALLS(nvmesgl, h);
}

static void host_calls(nvmehost *h) {
    nvmehost_options options = NVMEHOST_OPTIONS;
    nvmesgl_request request = {0}; /* of no size: that comes later */
    nvmesgl_admin admin = {0};
    nvmesgl_piece piece = {0, 512, NVMESGL_PIECE};
    nvmehost_doorbell bell;
    nvmehost_pages pages;
    nvmesgl_page_owner owner;
    nvmehost_queue queue;
    nvmehost_run run;
    nvmehost_place place;
    nvmehost_ended ended;
    nvmesgl_iovec buffer = {block, 512};
    nvmehost_memory memory = {pool, 16, 0, NULL};
    uint32_t right;
    size_t count;
    STRANGE(nvmehost_open(h, &options, &answer));
    STRANGE(nvmehost_open_at(h, &options, &memory, &answer));
    STRANGE(nvmehost_ring(h, 1, &bell, &answer));
    STRANGE(nvmehost_reap(h, 1, &bell, &answer));
    STRANGE(nvmehost_poll(h, 1, &ended, 1, &count, &bell, &answer));
    STRANGE(nvmehost_reserve_tagged(h, 1, NVMESGL_READ, 0, 1, &piece, 1, 7, &answer));
    STRANGE(nvmehost_reserve_request(h, 1, &request, &piece, 1, 7, &answer));
    STRANGE(nvmehost_reserve_admin(h, &admin, 7, &answer));
    STRANGE(nvmehost_submit_iov(h, 1, NVMESGL_READ, 0, &buffer, 1, 7, &answer));
    STRANGE(nvmehost_gather_iov(h, 1, 0, &buffer, 1, &answer));
    STRANGE(nvmehost_create_cq_vector(h, 1, 3, &answer));
    STRANGE(nvmehost_read(h, 0, block, 512));
    STRANGE(nvmehost_write(h, 0, block, 512));
    STRANGE(nvmehost_look(h, 1, &queue));
    STRANGE(nvmehost_may(h, 0, &right));
    STRANGE(nvmehost_runs(h, 1, 0, &run, 1, &count));
    STRANGE(nvmehost_data_place(h, 1, 0, 0, &place));
    nvmehost_close_at(h, &memory);
    SHARED_CALLS(nvmehost, h);
}

static void controller_calls(nvmectl *h) {
    nvmectl_options options = NVMECTL_OPTIONS;
    nvmectl_queue queues[2] = {{0, 1}, {2, 3}};
    nvmectl_region region = {0, pool, sizeof pool};
    nvmectl_disk disk = {NULL, NULL, NULL};
    nvmectl_step step;
    nvmectl_job job;
    nvmectl_wanted wanted;
    STRANGE(nvmectl_open(h, &options, queues, 2, NULL, 0));
    STRANGE(nvmectl_reset(h));
    STRANGE(nvmectl_tail(h, 1, 1));
    STRANGE(nvmectl_head(h, 1, 1));
    STRANGE(nvmectl_fetch(h, 1, pool, sizeof pool, &answer));
    STRANGE(nvmectl_walk(h, 1, 0, pool, sizeof pool, &answer));
    STRANGE(nvmectl_complete(h, 1, 0, pool, sizeof pool, &answer));
    STRANGE(nvmectl_next(h, pool, sizeof pool, &step));
    STRANGE(nvmectl_fetch_over(h, 1, &region, 1, &answer));
    STRANGE(nvmectl_walk_over(h, 1, 0, &region, 1, &answer));
    STRANGE(nvmectl_complete_over(h, 1, 0, &region, 1, &answer));
    STRANGE(nvmectl_next_over(h, &region, 1, &step));
    STRANGE(nvmectl_command(h, 1, 0, &job));
    STRANGE(nvmectl_blocks(h, 0, block, 512));
    STRANGE(nvmectl_bytes(h, 1, 0, block, 512, &answer));
    STRANGE(nvmectl_open_lent(h, &options, queues, 2));
    STRANGE(nvmectl_fetch_lent(h, 1, &region, 1, 0, block, 512, &wanted, &answer));
    STRANGE(nvmectl_complete_lent(h, 1, 0, &region, 1, 0, block, 512, &wanted, &answer));
    STRANGE(nvmectl_fetch_disk(h, 1, &region, 1, &disk, &answer));
    STRANGE(nvmectl_complete_disk(h, 1, 0, &region, 1, &disk, &answer));
    nvmectl_close(h);
}

/* Every call on a handle with these bytes; they stay. */
static void on_bytes(const void *bytes, int but) {
    nvmesgl machine;
    nvmehost host;
    nvmectl controller;
    memcpy(&machine, bytes, sizeof machine), memcpy(&host, bytes, sizeof host), memcpy(&controller, bytes, sizeof controller);
    if (but != 0) machine_calls(&machine);
    if (but != 1) host_calls(&host);
    if (but != 2) controller_calls(&controller);
    if (memcmp(&machine, bytes, sizeof machine) || memcmp(&host, bytes, sizeof host) || memcmp(&controller, bytes, sizeof controller)) want("a strange handle was written", 0, 1);
}

int main(void) {
    nvmesgl machine = NVMESGL_CLOSED;
    nvmehost host = NVMEHOST_CLOSED;
    nvmectl controller = NVMECTL_CLOSED;
    nvmesgl_options options = NVMESGL_OPTIONS;
    nvmehost_options host_options = NVMEHOST_OPTIONS;
    nvmectl_options controller_options = NVMECTL_OPTIONS;
    nvmectl_queue queues[2] = {{0, 1}, {2, 3}};
    want("open", nvmesgl_open(&machine, &options, NULL, 0, &answer), NVMESGL_DONE);
    want("open", nvmehost_open(&host, &host_options, &answer), NVMESGL_DONE);
    want("open", nvmectl_open(&controller, &controller_options, queues, 2, NULL, 0), NVMESGL_DONE);
    on_bytes(&machine, 0), on_bytes(&host, 1), on_bytes(&controller, 2);
    uint8_t bytes[sizeof(nvmesgl)];
    for (int byte = 1; byte < 256; byte++) memset(bytes, byte, sizeof bytes), on_bytes(bytes, 3);
    /* Those that are open answer as ever. */
    want("write", nvmesgl_write(&machine, 1, 0, block, 512, &answer), NVMESGL_DONE);
    want("reset", nvmehost_reset(&host, &answer), NVMESGL_DONE);
    want("reset", nvmectl_reset(&controller), NVMESGL_DONE);
    nvmesgl_close(&machine), nvmehost_close(&host), nvmectl_close(&controller);
    want("a closed handle", nvmesgl_ring(&machine, 1, &answer), NVMESGL_CLOSED_HANDLE);
    want("a closed handle", nvmehost_reset(&host, &answer), NVMESGL_CLOSED_HANDLE);
    want("a closed handle", nvmectl_reset(&controller), NVMESGL_CLOSED_HANDLE);
    /* Where a closing of a strange handle took the memory of another, the last one here would free what malloc never gave. */
    nvmehost strange = {NULL, 1};
    nvmehost_memory memory = {pool, 16, 0, NULL};
    want("open_at", nvmehost_open_at(&host, &host_options, &memory, &answer), NVMESGL_DONE);
    nvmehost_close_at(&strange, &memory), nvmehost_close_at(&host, &memory);
    printf("%u calls, each with its code\n", made);
    return 0;
}

/* A controller in a device: no malloc, and all memory in static arrays. The host's side is written by hand: a Write of two blocks by a list of two
 * segments, and a Read of the same blocks by another list. */
#include "entry.h"
#include "nvmectl.h"

enum { PAGE = 4096, BYTES = 1024, SUBMISSIONS = 2 * PAGE, COMPLETIONS = 3 * PAGE, SEGMENT = 4 * PAGE, LAST_SEGMENT = 5 * PAGE };

/* The controller's memory, and the memory that it shares with the host. */
static uint8_t heap[128 * 1024];
static uint8_t pool[16 * PAGE];

/* The admin queue has the pages 0 and 1, and queue 1 the pages 2 and 3. */
static const nvmectl_queue queues[2] = {{0, 1}, {2, 3}};

static nvmectl controller = NVMECTL_CLOSED;
static uint16_t slot;

/* An entry of queue 1, for the two blocks from block 5 on. The list begins with the descriptor in it. */
static void submit(uint8_t opcode, uint16_t cid, unsigned type, uint64_t address, uint32_t length) {
    uint8_t *entry = pool + SUBMISSIONS + 64 * slot;
    write_entry(entry, opcode, cid, 5, 2);
    describe(entry + 24, type, address, length);
}

/* Rings, lets the controller do all that it can, and looks at the completion. */
static int carry(uint16_t cid) {
    nvmesgl_answer answer;
    nvmectl_step step;
    const uint8_t *completion = pool + COMPLETIONS + 16 * slot;
    slot++;
    if (!told("tail", nvmectl_tail(&controller, 1, slot))) return 0;
    while (told("next", nvmectl_next(&controller, pool, sizeof pool, &step)) && step.kind != NVMECTL_REST) {
        uint32_t code;
        if (step.kind == NVMECTL_FETCH) {
            code = nvmectl_fetch(&controller, step.q, pool, sizeof pool, &answer);
            printf("  fetch     command %u", answer.cid);
        } else if (step.kind == NVMECTL_WALK) {
            code = nvmectl_walk(&controller, step.q, step.cid, pool, sizeof pool, &answer);
            printf("  walk      %s", answer.state == NVMESGL_WALK_MORE ? "more" : answer.state == NVMESGL_WALK_END ? "end" : "fault");
        } else {
            code = nvmectl_complete(&controller, step.q, step.cid, pool, sizeof pool, &answer);
            printf("  complete ");
        }
        for (uint32_t i = 0; i < answer.touched_count; i++) printf("%s %u", i == 0 ? ", touched page" : ",", answer.touched[i]);
        printf("\n");
        if (!told("step", code)) return 0;
    }
    unsigned status = completion[14] | completion[15] << 8;
    printf("  status    %s\n", nvmesgl_status_text((uint8_t)(status >> 9 & 7), (uint8_t)(status >> 1)));
    return status == 1 && completion[12] == cid && told("head", nvmectl_head(&controller, 1, slot));
}

int main(void) {
    nvmectl_options options = NVMECTL_OPTIONS;
    uint8_t bytes[BYTES], found[BYTES];
    for (int i = 0; i < BYTES; i++) bytes[i] = (uint8_t)(7 * i + i / 256);

    nvmesgl_heap_array(heap, sizeof heap);
    if (!told("open", nvmectl_open(&controller, &options, queues, 2, NULL, 0))) return 1;

    /* The Write: 300 and 212 bytes, and after a link to another segment the last 512 at the end of a page. */
    memcpy(pool + 8 * PAGE, bytes, 300);
    memcpy(pool + 9 * PAGE + 100, bytes + 300, 212);
    memcpy(pool + 11 * PAGE - 512, bytes + 512, 512);
    describe(pool + SEGMENT, DATA_BLOCK, 8 * PAGE, 300);
    describe(pool + SEGMENT + 16, DATA_BLOCK, 9 * PAGE + 100, 212);
    describe(pool + SEGMENT + 32, THE_LAST_SEGMENT, LAST_SEGMENT, 16);
    describe(pool + LAST_SEGMENT, DATA_BLOCK, 11 * PAGE - 512, 512);
    submit(OPCODE_WRITE, 1, A_SEGMENT, SEGMENT, 48);
    printf("Write of blocks 5 and 6\n");
    if (!carry(1)) return 1;

    /* The Read: 700 bytes and 324, by one segment. */
    describe(pool + SEGMENT, DATA_BLOCK, 12 * PAGE + 8, 700);
    describe(pool + SEGMENT + 16, DATA_BLOCK, 13 * PAGE, 324);
    submit(OPCODE_READ, 2, THE_LAST_SEGMENT, SEGMENT, 32);
    printf("Read of blocks 5 and 6\n");
    if (!carry(2)) return 1;

    memcpy(found, pool + 12 * PAGE + 8, 700);
    memcpy(found + 700, pool + 13 * PAGE, 324);
    int same = memcmp(found, bytes, BYTES) == 0;
    same = told("blocks", nvmectl_blocks(&controller, 5, found, BYTES)) && memcmp(found, bytes, BYTES) == 0 && same;
    printf("%d bytes %s\n", BYTES, same ? "agree" : "differ");
    nvmectl_close(&controller);
    return !same;
}

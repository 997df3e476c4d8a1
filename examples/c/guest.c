/* A controller for an emulator: the guest has memory in two regions, one of them above 4 GiB. The guest's rings and lists lie low, and its data high. It writes
 * two blocks and reads them again; then it asks for data at an address where it has no memory, and its command ends with Data Transfer Error. */
#include "entry.h"
#include "nvmectl.h"

enum { PAGE = 4096, BYTES = 1024, SUBMISSIONS = 2 * PAGE, COMPLETIONS = 3 * PAGE, SEGMENT = 4 * PAGE };

/* The guest's memory. An emulator maps it; here it is two arrays. */
#define HIGH UINT64_C(0x100000000)
static uint8_t low[16 * PAGE], high[16 * PAGE];
static const nvmectl_region guest[2] = {{0, low, sizeof low}, {HIGH, high, sizeof high}};

/* The admin queue has the pages 0 and 1, and queue 1 the pages 2 and 3. */
static const nvmectl_queue queues[2] = {{0, 1}, {2, 3}};

static nvmectl controller = NVMECTL_CLOSED;
static uint16_t slot;

/* The guest's driver ------------------------------------------------------------------------------------------------ */

/* An entry of queue 1, for the two blocks from block 5 on, and the doorbell. */
static int submit(uint8_t opcode, uint16_t cid, unsigned type, uint64_t address, uint32_t length) {
    uint8_t *entry = low + SUBMISSIONS + 64 * slot;
    write_entry(entry, opcode, cid, 5, 2);
    describe(entry + 24, type, address, length);
    slot++;
    return told("tail", nvmectl_tail(&controller, 1, slot));
}

/* The emulator ------------------------------------------------------------------------------------------------------ */

/* Lets the controller do all that it can: after a doorbell was written. Each call is lent the guest's memory. */
static int serve(void) {
    nvmesgl_answer answer;
    nvmectl_step step;
    while (told("next", nvmectl_next_over(&controller, guest, 2, &step)) && step.kind != NVMECTL_REST) {
        uint32_t code;
        if (step.kind == NVMECTL_FETCH) code = nvmectl_fetch_over(&controller, step.q, guest, 2, &answer);
        else if (step.kind == NVMECTL_WALK) code = nvmectl_walk_over(&controller, step.q, step.cid, guest, 2, &answer);
        else code = nvmectl_complete_over(&controller, step.q, step.cid, guest, 2, &answer);
        if (!told("step", code)) return 0;
        printf("  %s", step.kind == NVMECTL_FETCH ? "fetch   " : step.kind == NVMECTL_WALK ? "walk    " : "complete");
        for (uint32_t i = 0; i < answer.touched_count; i++) printf("%s %#lx", i == 0 ? ", touched the page at" : " and", (unsigned long)PAGE * answer.touched[i]);
        printf("\n");
    }
    return 1;
}

/* The status of the last command's completion, as the guest finds it. */
static unsigned ended(uint16_t cid) {
    const uint8_t *completion = low + COMPLETIONS + 16 * (slot - 1);
    unsigned status = (unsigned)(completion[14] | completion[15] << 8) >> 1;
    printf("  command %u: %s\n", cid, nvmesgl_status_text((uint8_t)(status >> 8 & 7), (uint8_t)status));
    return completion[12] == cid && told("head", nvmectl_head(&controller, 1, slot)) ? status : ~0u;
}

int main(void) {
    nvmectl_options options = NVMECTL_OPTIONS;
    uint8_t bytes[BYTES];
    for (int i = 0; i < BYTES; i++) bytes[i] = (uint8_t)(7 * i + i / 256);
    if (!told("open", nvmectl_open(&controller, &options, queues, 2, NULL, 0))) return 1;

    printf("Write, from memory above 4 GiB\n");
    memcpy(high + 100, bytes, 700);
    memcpy(high + 9 * PAGE, bytes + 700, 324);
    describe(low + SEGMENT, DATA_BLOCK, HIGH + 100, 700);
    describe(low + SEGMENT + 16, DATA_BLOCK, HIGH + 9 * PAGE, 324);
    if (!submit(OPCODE_WRITE, 1, THE_LAST_SEGMENT, SEGMENT, 32) || !serve() || ended(1) != 0) return 1;

    printf("Read, to the end of that memory\n");
    if (!submit(OPCODE_READ, 2, DATA_BLOCK, HIGH + sizeof high - BYTES, BYTES) || !serve() || ended(2) != 0) return 1;
    int same = memcmp(high + sizeof high - BYTES, bytes, BYTES) == 0;
    printf("%d bytes %s\n", BYTES, same ? "agree" : "differ");

    printf("Read, one byte past it\n");
    if (!submit(OPCODE_READ, 3, DATA_BLOCK, HIGH + sizeof high - BYTES + 1, BYTES) || !serve() || ended(3) != 0x04) return 1;
    nvmectl_close(&controller);
    return !same;
}

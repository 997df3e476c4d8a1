/* A file as the disk of a controller: an emulator whose namespace of 2^31 blocks, one TiB, lies behind two callbacks. The guest writes two blocks far out, reads them again, compares
 * them, and reads blocks that were never written. The file is sparse. */
#define _XOPEN_SOURCE 700
#define _FILE_OFFSET_BITS 64
#include "file_disk.h"

enum { PAGE = 4096, BYTES = 2 * BLOCK, SUBMISSIONS = 2 * PAGE, COMPLETIONS = 3 * PAGE, DATA = 4 * PAGE };

/* The guest's memory: the rings of the admin queue and of queue 1 on pages 0 to 3, and data after them. */
static uint8_t memory[8 * PAGE];
static const nvmectl_region guest = {0, memory, sizeof memory};
static const nvmectl_queue queues[2] = {{0, 1}, {2, 3}};

static nvmectl controller = NVMECTL_CLOSED;
static uint16_t slot;

static int file;
static const nvmectl_disk disk = {&file, read_file, write_file};

/* An entry of queue 1, for two blocks, whose data is one run, and the doorbell. */
static int submit(uint8_t opcode, uint16_t cid, uint64_t slba) {
    uint8_t *entry = memory + SUBMISSIONS + 64 * slot;
    write_entry(entry, opcode, cid, slba, BYTES / BLOCK);
    describe(entry + 24, DATA_BLOCK, DATA, BYTES);
    slot = (slot + 1) % 4;
    return told("tail", nvmectl_tail(&controller, 1, slot));
}

/* A command from its entry to its completion: how it ended. */
static unsigned command(const char *name, uint8_t opcode, uint16_t cid, uint64_t slba) {
    const uint8_t *completion = memory + COMPLETIONS + 16 * slot;
    if (!submit(opcode, cid, slba) || !serve_over(&controller, &guest, &disk) || completion[12] != cid || !told("head", nvmectl_head(&controller, 1, slot))) return ~0u;
    unsigned status = (unsigned)(completion[14] | completion[15] << 8) >> 1;
    printf("%-8s of blocks %lu and %lu: %s\n", name, (unsigned long)slba, (unsigned long)slba + 1, nvmesgl_status_text((uint8_t)(status >> 8 & 7), (uint8_t)status));
    return status;
}

int main(void) {
    nvmectl_options options = NVMECTL_OPTIONS;
    FILE *temporary = tmpfile();
    uint8_t bytes[BYTES];
    const uint64_t far_out = UINT64_C(2000000000);
    if (temporary == NULL) return 1;
    file = fileno(temporary);
    options.blocks = UINT32_C(1) << 31;
    if (!told("open", nvmectl_open_lent(&controller, &options, queues, 2))) return 1;

    for (int i = 0; i < BYTES; i++) bytes[i] = (uint8_t)(7 * i + i / 256);
    memcpy(memory + DATA, bytes, BYTES);
    if (command("Write", OPCODE_WRITE, 1, far_out) != 0) return 1;
    memset(memory + DATA, 0, BYTES);
    if (command("Read", OPCODE_READ, 2, far_out) != 0 || memcmp(memory + DATA, bytes, BYTES) != 0) return 1;
    if (command("Compare", OPCODE_COMPARE, 3, far_out) != 0) return 1;
    if (command("Compare", OPCODE_COMPARE, 4, far_out + 1) != 0x285) return 1;
    if (command("Read", OPCODE_READ, 5, 5) != 0) return 1;
    for (int i = 0; i < BYTES; i++)
        if (memory[DATA + i] != 0) return 1;
    if (command("Read", OPCODE_READ, 6, options.blocks - 1) != 0x080) return 1;
    nvmectl_close(&controller);
    fclose(temporary);
    return 0;
}

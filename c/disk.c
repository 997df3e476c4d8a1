/* A controller's blocks behind two callbacks: a step is tried with nothing lent, what it wants is read or written, and it is tried again with that lent. */
#include "heap.h"
#include "nvmectl.h"

enum { BLOCK = 512, OPCODE_WRITE = 1, TRIES = 4 };

/* Blocks by the callback; the buffer is the caller's. */
static uint32_t read_blocks(const nvmectl_disk *disk, const nvmectl_wanted *wanted, uint8_t *into) {
    return disk->read(disk->context, wanted->slba, wanted->blocks, into) == 0 ? NVMESGL_DONE : NVMESGL_DISK;
}

uint32_t nvmectl_fetch_disk(nvmectl *controller, uint16_t q, const nvmectl_region *regions, size_t region_count, const nvmectl_disk *disk, nvmesgl_answer *answer) {
    nvmectl_wanted wanted;
    uint32_t code = nvmectl_fetch_lent(controller, q, regions, region_count, 0, NULL, 0, &wanted, answer);
    /* Between two calls the guest may write another entry there, which wants other blocks. */
    for (int tries = 0; code == NVMESGL_NOT_LENT && tries < TRIES; tries++) {
        size_t len = (size_t)BLOCK * wanted.blocks;
        struct tried got = nvmesgl_heap_alloc(len, 1);
        if (!got.ok) return NVMESGL_MEMORY;
        uint64_t slba = wanted.slba;
        code = read_blocks(disk, &wanted, got.p);
        if (code == NVMESGL_DONE) code = nvmectl_fetch_lent(controller, q, regions, region_count, slba, got.p, len, &wanted, answer);
        nvmesgl_heap_dealloc(got.p);
    }
    return code;
}

/* What a completion wants: a Compare's blocks are read, and a Write's bytes are written, before the completion is posted. */
static uint32_t move_blocks(nvmectl *controller, uint16_t q, uint16_t cid, const nvmectl_disk *disk, const nvmectl_wanted *wanted, uint8_t *buffer, size_t len) {
    nvmesgl_answer bytes;
    if (wanted->opcode != OPCODE_WRITE) return read_blocks(disk, wanted, buffer);
    uint32_t code = nvmectl_bytes(controller, q, cid, buffer, len, &bytes);
    if (code != NVMESGL_DONE) return code;
    return disk->write(disk->context, wanted->slba, wanted->blocks, buffer) == 0 ? NVMESGL_DONE : NVMESGL_DISK;
}

uint32_t nvmectl_complete_disk(nvmectl *controller, uint16_t q, uint16_t cid, const nvmectl_region *regions, size_t region_count, const nvmectl_disk *disk,
                               nvmesgl_answer *answer) {
    nvmectl_wanted wanted;
    uint32_t code = nvmectl_complete_lent(controller, q, cid, regions, region_count, 0, NULL, 0, &wanted, answer);
    if (code != NVMESGL_NOT_LENT) return code;
    size_t len = (size_t)BLOCK * wanted.blocks;
    struct tried got = nvmesgl_heap_alloc(len, 1);
    if (!got.ok) return NVMESGL_MEMORY;
    uint64_t slba = wanted.slba;
    code = move_blocks(controller, q, cid, disk, &wanted, got.p, len);
    if (code == NVMESGL_DONE) code = nvmectl_complete_lent(controller, q, cid, regions, region_count, slba, got.p, len, &wanted, answer);
    nvmesgl_heap_dealloc(got.p);
    return code;
}

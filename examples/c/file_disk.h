/* A disk in a file, for a controller's two callbacks, and a controller that is served over a disk. The context of the callbacks is the file's descriptor. */
#ifndef FILE_DISK_H
#define FILE_DISK_H

#include "entry.h"
#include "nvmectl.h"

#include <unistd.h>

enum { BLOCK = 512 };

/* Reads blocks; those after the end of the file, which nobody wrote yet, are zeros. */
static inline int read_file(void *context, uint64_t slba, uint32_t blocks, uint8_t *into) {
    size_t len = (size_t)BLOCK * blocks, have = 0;
    while (have < len) {
        ssize_t got = pread(*(int *)context, into + have, len - have, (off_t)(BLOCK * slba + have));
        if (got < 0) return -1;
        if (got == 0) memset(into + have, 0, len - have), got = (ssize_t)(len - have);
        have += (size_t)got;
    }
    return 0;
}

static inline int write_file(void *context, uint64_t slba, uint32_t blocks, const uint8_t *from) {
    size_t len = (size_t)BLOCK * blocks, have = 0;
    while (have < len) {
        ssize_t got = pwrite(*(int *)context, from + have, len - have, (off_t)(BLOCK * slba + have));
        if (got <= 0) return -1;
        have += (size_t)got;
    }
    return 0;
}

/* Lets the controller do all that it can over one region. A step that the disk fails may be made again; this program gives up. */
static inline int serve_over(nvmectl *controller, const nvmectl_region *region, const nvmectl_disk *disk) {
    nvmesgl_answer answer;
    nvmectl_step step;
    while (told("next", nvmectl_next_over(controller, region, 1, &step)) && step.kind != NVMECTL_REST) {
        uint32_t code;
        if (step.kind == NVMECTL_FETCH) code = nvmectl_fetch_disk(controller, step.q, region, 1, disk, &answer);
        else if (step.kind == NVMECTL_WALK) code = nvmectl_walk_over(controller, step.q, step.cid, region, 1, &answer);
        else code = nvmectl_complete_disk(controller, step.q, step.cid, region, 1, disk, &answer);
        if (!told("step", code)) return 0;
    }
    return 1;
}

#endif

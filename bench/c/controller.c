/* Arbitrary calls of a controller over arbitrary bytes: controller SEED CALLS. A call that is refused changes no byte of the pool, a step that the controller
 * says it can do is done, and a controller that says it can do nothing refuses what is tried. */
#include "entries.h"

#include <stdio.h>
#include <stdlib.h>
#include <string.h>

static uint8_t pool[POOL], before[POOL];
static nvmectl controller = NVMECTL_CLOSED;
static nvmesgl_answer answer;
static unsigned long counts[64], steps;

static void fail(const char *why, uint32_t code) {
    printf("%s: %s (%u)\n", why, nvmesgl_text(code), code);
    exit(1);
}

static uint32_t call(const nvmectl_step *step) {
    memcpy(before, pool, sizeof pool);
    uint32_t code = step->kind == NVMECTL_FETCH  ? nvmectl_fetch(&controller, step->q, pool, sizeof pool, &answer)
                    : step->kind == NVMECTL_WALK ? nvmectl_walk(&controller, step->q, step->cid, pool, sizeof pool, &answer)
                                                 : nvmectl_complete(&controller, step->q, step->cid, pool, sizeof pool, &answer);
    counts[code]++;
    if (code != NVMESGL_DONE && memcmp(before, pool, sizeof pool) != 0) fail("a refused call wrote", code);
    if (answer.touched_count > 4) fail("too many pages", code);
    return code;
}

static void step(void) {
    nvmectl_step found, tried = {1 + below(3), (uint16_t)below(QUEUES), (uint16_t)below(4), {0}};
    uint32_t code = nvmectl_next(&controller, pool, sizeof pool, &found);
    if (code != NVMESGL_DONE) fail("next", code);
    if (below(8) == 0 || found.kind == NVMECTL_REST) {
        code = call(&tried);
        if (code == NVMESGL_DONE && found.kind == NVMECTL_REST) fail("a step was done at rest", code);
    } else {
        code = call(&found);
        if (code != NVMESGL_DONE) fail("a step that can be done", code);
        steps++;
    }
}

/* All queues are live again, whatever was fetched. */
static void reopen(void) {
    nvmectl_options options = NVMECTL_OPTIONS;
    options.blocks = BLOCKS;
    nvmectl_close(&controller);
    uint32_t code = nvmectl_open(&controller, &options, queues, QUEUES, NULL, 0);
    if (code != NVMESGL_DONE) fail("open", code);
}

int main(int argc, char **argv) {
    nvmectl_job job;
    uint8_t block[512];
    if (argc != 3) return 2;
    state = strtoull(argv[1], NULL, 10) * UINT64_C(0x9E3779B97F4A7C15) + 1;
    for (unsigned i = 0; i < sizeof pool; i++) pool[i] = (uint8_t)below(256);
    reopen();
    for (unsigned long left = strtoul(argv[2], NULL, 10); left != 0; left--) {
        unsigned what = below(64);
        if (what < 10) entry(pool, below(16) == 0 ? 0 : below(QUEUES));
        else if (what < 14) spell(pool);
        else if (what < 22) counts[nvmectl_tail(&controller, (uint16_t)below(4), (uint16_t)below(5))]++;
        else if (what < 32) counts[nvmectl_head(&controller, (uint16_t)below(4), (uint16_t)below(5))]++;
        else if (what < 33) counts[nvmectl_command(&controller, (uint16_t)below(4), (uint16_t)below(4), &job)]++;
        else if (what < 34) counts[nvmectl_blocks(&controller, below(BLOCKS + 2), block, below(8) == 0 ? 500 : 512)]++;
        else if (what == 34 && below(4) == 0) reopen();
        else if (what == 35 && below(40) == 0) counts[nvmectl_reset(&controller)]++;
        else step();
    }
    nvmectl_close(&controller);
    if (nvmectl_reset(&controller) != NVMESGL_CLOSED_HANDLE) fail("a closed handle", 0);
    printf("%lu steps that could be done; codes:", steps);
    for (unsigned i = 0; i < 64; i++)
        if (counts[i] != 0) printf(" %u:%lu", i, counts[i]);
    printf("\n");
    return 0;
}

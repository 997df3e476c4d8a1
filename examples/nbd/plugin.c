/* A block device over nvmesgl, for nbdkit: each request goes by whole commands through the driver, its lists, and the modelled controller.
 *
 * `machines` handles of at most 32 MiB each, in stripes; a lock each, since a handle takes one call at a time. Requests that do not cover whole blocks read the
 * blocks, and write them changed. nbdkit ./plugin.so [size=SIZE] [machines=N] [pages=N] [entries=N] [segment=N] [command=BYTES] */
#define NBDKIT_API_VERSION 2
#include <errno.h>
#include <malloc.h>
#include <pthread.h>
#include <stdbool.h>
#include <stdint.h>
#include <string.h>
#include <nbdkit-plugin.h>
#include "nvmesgl.h"

#define THREAD_MODEL NBDKIT_THREAD_MODEL_PARALLEL
enum { BLOCK = 512, MOST_MACHINES = 64, MOST_COMMAND = 1 << 20 };
#define MOST_IMAGE (65536 * BLOCK)
#define STRIPE (128u << 10)

struct machine {
    nvmesgl handle;
    pthread_mutex_t lock;
    uint8_t blocks[MOST_COMMAND]; /* of a request that does not cover whole blocks */
};

static struct machine machines[MOST_MACHINES];
static int64_t size = 32 << 20;
static unsigned machine_count = 1, pages = 512, entries = 16, segment = 256, most = 128 << 10;

/* Carries one command of whole blocks, at most MOST_COMMAND bytes. 0, or an errno. */
static int carry(struct machine *m, bool writes, uint64_t at, uint8_t *bytes, uint32_t count) {
    nvmesgl_answer answer;
    uint32_t code = writes ? nvmesgl_write(&m->handle, 1, at / BLOCK, bytes, count, &answer) : nvmesgl_read(&m->handle, 1, at / BLOCK, bytes, count, &answer);
    if (code == NVMESGL_DONE && answer.sct == 0 && answer.sc == 0) return 0;
    nbdkit_error("%s, %s", nvmesgl_text(code), nvmesgl_status_text(answer.sct, answer.sc));
    return code == NVMESGL_MEMORY ? ENOMEM : EIO;
}

/* Carries a part of a request that lies in one machine, and in one command. */
static int part(struct machine *m, bool writes, uint64_t at, uint8_t *bytes, uint32_t count) {
    uint64_t from = at / BLOCK * BLOCK, to = (at + count + BLOCK - 1) / BLOCK * BLOCK;
    int why;
    if (from == at && to == at + count) return carry(m, writes, at, bytes, count);
    why = carry(m, false, from, m->blocks, (uint32_t)(to - from));
    if (why != 0) return why;
    if (!writes) {
        memcpy(bytes, m->blocks + (at - from), count);
        return 0;
    }
    memcpy(m->blocks + (at - from), bytes, count);
    return carry(m, true, from, m->blocks, (uint32_t)(to - from));
}

static int each(bool writes, uint8_t *bytes, uint32_t count, uint64_t offset) {
    while (count != 0) {
        uint64_t stripe = offset / STRIPE;
        uint32_t in = (uint32_t)(offset % STRIPE), n = STRIPE - in;
        struct machine *m = &machines[stripe % machine_count];
        if (n > most - offset % BLOCK) n = most - (uint32_t)(offset % BLOCK);
        if (n > count) n = count;
        pthread_mutex_lock(&m->lock);
        int why = part(m, writes, stripe / machine_count * STRIPE + in, bytes, n);
        pthread_mutex_unlock(&m->lock);
        if (why != 0) {
            nbdkit_set_error(why);
            return -1;
        }
        bytes += n;
        offset += n;
        count -= n;
    }
    return 0;
}

static int set(const char *key, const char *value) {
    struct {
        const char *name;
        unsigned *at;
    } words[] = {{"machines", &machine_count}, {"pages", &pages}, {"entries", &entries}, {"segment", &segment}, {"command", &most}};
    if (strcmp(key, "size") == 0) return (size = nbdkit_parse_size(value)) < 0 ? -1 : 0;
    for (size_t i = 0; i < sizeof words / sizeof *words; i++)
        if (strcmp(key, words[i].name) == 0) return nbdkit_parse_unsigned(key, value, words[i].at);
    nbdkit_error("there is no parameter %s", key);
    return -1;
}

static int all_set(void) {
    if (machine_count >= 1 && machine_count <= MOST_MACHINES && most >= BLOCK && most <= MOST_COMMAND && most % BLOCK == 0
        && size > 0 && size % ((int64_t)machine_count * STRIPE) == 0 && size / machine_count <= MOST_IMAGE) return 0;
    nbdkit_error("size: whole stripes of 128 KiB of each machine, 32 MiB a machine at most; machines: 1 to 64; command: whole blocks, 1 MiB at most");
    return -1;
}

static int ready(void) {
    for (unsigned i = 0; i < machine_count; i++) {
        nvmesgl_options options = NVMESGL_OPTIONS;
        nvmesgl_answer answer;
        options.pages = pages, options.entries = entries, options.segment = segment;
        options.blocks = (uint32_t)(size / machine_count / BLOCK);
        uint32_t code = nvmesgl_open(&machines[i].handle, &options, NULL, 0, &answer);
        if (code != NVMESGL_DONE) {
            nbdkit_error("open: %s (need %u pages, free %u)", nvmesgl_text(code), answer.need, answer.free);
            return -1;
        }
        pthread_mutex_init(&machines[i].lock, NULL);
    }
    return 0;
}

static void unload(void) {
    for (unsigned i = 0; i < MOST_MACHINES; i++) nvmesgl_close(&machines[i].handle);
}

/* A command takes lists as long as its bytes. What is freed stays with malloc, so that the next command's lists need no new memory of the system. */
static void load(void) {
#ifdef M_TRIM_THRESHOLD
    mallopt(M_MMAP_THRESHOLD, 4 << 20);
    mallopt(M_TRIM_THRESHOLD, 256 << 20);
    mallopt(M_TOP_PAD, 1 << 20);
#endif
}

static void *begin(int readonly) { return (void)readonly, NBDKIT_HANDLE_NOT_NEEDED; }
static int64_t bytes_of(void *h) { return (void)h, size; }
static int yes(void *h) { return (void)h, 1; }
static int reads(void *h, void *into, uint32_t count, uint64_t at, uint32_t flags) { return (void)h, (void)flags, each(false, into, count, at); }
static int writes(void *h, const void *from, uint32_t count, uint64_t at, uint32_t flags) { return (void)h, (void)flags, each(true, (uint8_t *)(uintptr_t)from, count, at); }
static int flush(void *h, uint32_t flags) { return (void)h, (void)flags, 0; } /* the image is memory: a Write that ended is there */

static struct nbdkit_plugin plugin = {
    .name = "nvmesgl", .version = NVMESGL_VERSION, .load = load, .config = set, .config_complete = all_set, .after_fork = ready, .unload = unload, .open = begin,
    .get_size = bytes_of, .can_multi_conn = yes, .can_flush = yes, .pread = reads, .pwrite = writes, .flush = flush,
};
NBDKIT_REGISTER_PLUGIN(plugin)

/* The library's memory: over an array, where nvmesgl_heap_array gave one, else over malloc; the pages of a pool over memory of the caller's, where
 * nvmehost_open_at gave some. With NVMESGL_ARRAY_ALONE there is no malloc: libnvmesgl_array.a is for programs without one. */
#include "heap.h"
#include "nvmehost.h"

#include <string.h>
#ifndef NVMESGL_ARRAY_ALONE
#include <stdlib.h>
#endif

/* A free run. All runs stand in the order of their addresses, and no two touch. Each block, free or not, has a head of 16 bytes, and a size
 * that is a multiple of 16 and counts the head. */
struct run {
    size_t size;
    struct run *next;
};

enum { HEAD = 16, LEAST = 32 };

static struct run *first;
static unsigned char *array_from, *array_end;
static unsigned char nothing[16] __attribute__((aligned(16)));

static bool in_array(const void *p) {
    return (uintptr_t)p - (uintptr_t)array_from < (uintptr_t)array_end - (uintptr_t)array_from;
}

void nvmesgl_heap_array(void *array, size_t bytes) {
    size_t skip = (HEAD - (uintptr_t)array % HEAD) % HEAD;
    first = NULL;
    array_from = array_end = NULL;
    if (bytes < skip + LEAST) {
        /* No block fits: every wish is refused. */
        array_from = nothing;
        array_end = nothing;
        return;
    }
    array_from = (unsigned char *)array + skip;
    array_end = array_from + ((bytes - skip) & ~(size_t)(HEAD - 1));
    first = (struct run *)(void *)array_from;
    first->size = (size_t)(array_end - array_from);
    first->next = NULL;
}

static struct tried array_alloc(size_t n) {
    if (n > ((size_t)1 << 62)) return (struct tried){false, nothing};
    size_t want = ((n == 0 ? 1 : n) + HEAD + HEAD - 1) & ~(size_t)(HEAD - 1);
    for (struct run **at = &first; *at != NULL; at = &(*at)->next) {
        struct run *here = *at;
        if (here->size < want) continue;
        if (here->size - want >= LEAST) {
            struct run *rest = (struct run *)(void *)((unsigned char *)here + want);
            rest->size = here->size - want;
            rest->next = here->next;
            here->size = want;
            *at = rest;
        } else {
            *at = here->next;
        }
        return (struct tried){true, (unsigned char *)here + HEAD};
    }
    return (struct tried){false, nothing};
}

static void array_dealloc(void *p) {
    struct run *here = (struct run *)(void *)((unsigned char *)p - HEAD);
    struct run **at = &first;
    struct run *before = NULL;
    while (*at != NULL && *at < here) {
        before = *at;
        at = &(*at)->next;
    }
    here->next = *at;
    *at = here;
    if (here->next != NULL && (unsigned char *)here + here->size == (unsigned char *)here->next) {
        here->size += here->next->size;
        here->next = here->next->next;
    }
    if (before != NULL && (unsigned char *)before + before->size == (unsigned char *)here) {
        before->size += here->size;
        before->next = here->next;
    }
}

/* Memories of open hosts, and the one of a host that is being opened. The store asks for its pages in the order of their numbers, 4,096 bytes of alignment 1 each,
 * and for nothing else of that size and alignment while it opens. */
static nvmehost_memory *memories, *opening;

static bool in_memory(const void *p) {
    for (const nvmehost_memory *m = memories; m != NULL; m = m->next)
        if ((uintptr_t)p - (uintptr_t)m->at < (uintptr_t)4096 * m->pages) return true;
    return false;
}

static void unlink_memory(nvmehost_memory *memory) {
    for (nvmehost_memory **at = &memories; *at != NULL; at = &(*at)->next)
        if (*at == memory) {
            *at = memory->next;
            return;
        }
}

uint32_t nvmehost_open_at(nvmehost *host, const nvmehost_options *options, nvmehost_memory *memory, nvmesgl_answer *answer) {
    /* Refused: what is open stays where it is, and so does what is no handle of a host. */
    if (host->mark != 0) return nvmehost_open(host, options, answer);
    if (memory->pages != options->pages) {
        memset(answer, 0, sizeof *answer);
        return NVMESGL_BAD_OPTION;
    }
    unlink_memory(memory);
    memory->next = memories;
    memory->used = 0;
    memories = opening = memory;
    uint32_t code = nvmehost_open(host, options, answer);
    opening = NULL;
    /* It does not come: each page is asked for as said above. A library that asked otherwise would not be over this memory. */
    if (code == NVMESGL_DONE && memory->used != memory->pages) {
        nvmehost_close(host);
        code = NVMESGL_MEMORY;
    }
    if (code != NVMESGL_DONE) unlink_memory(memory);
    return code;
}

void nvmehost_close_at(nvmehost *host, nvmehost_memory *memory) {
    nvmehost_close(host);
    /* What is no handle of a host was left alone: its memory may be that of a host that is open. */
    if (host != NULL && host->mark == 0) unlink_memory(memory);
}

struct tried nvmesgl_heap_alloc(size_t n, size_t align) {
    if (opening != NULL && n == 4096 && align == 1 && opening->used < opening->pages)
        return (struct tried){true, (unsigned char *)opening->at + (size_t)4096 * opening->used++};
    if (array_from != NULL) return array_alloc(n);
#ifdef NVMESGL_ARRAY_ALONE
    return (struct tried){false, nothing};
#else
    void *p = malloc(n == 0 ? align : n);
    return p == NULL ? (struct tried){false, nothing} : (struct tried){true, p};
#endif
}

struct tried nvmesgl_heap_realloc(void *p, size_t kept, size_t n, size_t align) {
#ifndef NVMESGL_ARRAY_ALONE
    if (array_from == NULL) {
        void *moved = realloc(p, n == 0 ? align : n);
        return moved == NULL ? (struct tried){false, nothing} : (struct tried){true, moved};
    }
#endif
    struct tried got = nvmesgl_heap_alloc(n, align);
    if (got.ok) {
        memcpy(got.p, p, kept < n ? kept : n);
        nvmesgl_heap_dealloc(p);
    }
    return got;
}

void nvmesgl_heap_dealloc(void *p) {
    if (in_memory(p)) return;
    if (in_array(p)) {
        array_dealloc(p);
        return;
    }
#ifndef NVMESGL_ARRAY_ALONE
    free(p);
#endif
}

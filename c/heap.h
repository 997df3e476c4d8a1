/* What the library calls for its memory; heap.c has it. No part of nvmesgl.h: a program never calls these. The proved code calls them rattle_alloc and so on; the Makefile
 * renames them there, so that another library of Rattle's may stand in the same program. */
#ifndef NVMESGL_HEAP_H
#define NVMESGL_HEAP_H

#include <stdbool.h>
#include <stddef.h>

/* An answer that is not ok has a pointer all the same. */
struct tried {
    bool ok;
    void *p;
};

struct tried nvmesgl_heap_alloc(size_t n, size_t align);
struct tried nvmesgl_heap_realloc(void *p, size_t kept, size_t n, size_t align);
void nvmesgl_heap_dealloc(void *p);

#endif

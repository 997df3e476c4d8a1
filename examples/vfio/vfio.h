/*
 * A PCI function through Linux VFIO: its registers, the memory that it reaches, and its interrupts. A call that fails says why in a sentence and ends the program.
 */
#ifndef VFIO_FUNCTION_H
#define VFIO_FUNCTION_H

#include <stdbool.h>
#include <stddef.h>
#include <stdint.h>

/* What a function may do with memory that is mapped for it. */
enum { VFIO_READS = 1, VFIO_WRITES = 2 };

struct vfio {
    int container;
    int device;
    int event;               /* of all interrupts; -1 where there is none */
    volatile char *bar;      /* the registers: BAR0 */
    unsigned long maps;      /* how many calls */
    unsigned long unmaps;
};

/* Ends the program with the sentence unless it is true; the second also with what the system said last (errno). */
void need(bool is_true, const char *sentence);
void need_system(bool is_true, const char *sentence);

/* Seconds of a clock that never goes back. */
double seconds(void);

/* Opens a function, such as 0000:01:00.0, that is bound to vfio-pci. It reaches no memory yet. */
void vfio_open(struct vfio *, const char *address);

/* Lets the function reach memory: its addresses from `at` on are the bytes from `memory` on. Both, and the size, are multiples of 4,096. */
void vfio_map(struct vfio *, uint64_t at, void *memory, uint64_t size, uint32_t rights);

/* Takes back all that is mapped in a range, which may hold several mappings and gaps, and cuts none: how many bytes that were. */
uint64_t vfio_unmap(struct vfio *, uint64_t at, uint64_t size);

/* Gives the first MSI-X vectors one event. */
void vfio_interrupts(struct vfio *, unsigned vectors);

/* Waits for that event; false where none comes in 20 seconds. */
bool vfio_wait(struct vfio *);

#endif

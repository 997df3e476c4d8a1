/*
 * nvmectl: the modelled NVMe controller alone, over memory of the caller's, for C (C99) and C++.
 *
 * Memory is lent to each call that reaches it, in one of two forms, and no call keeps anything of it:
 *
 * regions   a table of any number of regions of any lengths, each at an address of its own: the memory of a guest. At an address stands the byte of the
 *           first region of the table that has one there; where none has, and from address 2^44 on, the byte is missing. Page p is the addresses 4,096 p to
 *           4,096 p + 4,095. nvmectl_next_over, nvmectl_fetch_over, nvmectl_walk_over, nvmectl_complete_over.
 * a pool    one array, of at most 256 MiB: address a is its byte a. An address past its end is missing. nvmectl_next, nvmectl_fetch, nvmectl_walk,
 *           nvmectl_complete.
 *
 * A controller holds the blocks of its namespace as an image (nvmectl_open), or they are lent to it too, at each call that reads or writes them (nvmectl_open_lent):
 * the namespace then lies on a disk, in a file or in flash, of up to 2^32 - 1 blocks, behind two callbacks (nvmectl_fetch_disk, nvmectl_complete_disk).
 *
 * Memory may move, grow and be another one between calls, and anybody may write into it between them: what a call promises it promises for any bytes. A call
 * writes the bytes that its step of the controller writes, and no others; which those are, a completion's slot or the data of a Read, its contract says.
 *
 * Of C nothing more is asked than nvmesgl.h asks (1 to 5 there); a pool and a region overlap no answer, no handle and no table, and the bytes of one region
 * are not those of another. What is proved of each call stands in crates/nvmesgl_c: a call that is not done changes nothing but the answer.
 */
#ifndef NVMECTL_H
#define NVMECTL_H

#include "nvmesgl.h"

#ifdef __cplusplus
extern "C" {
#endif

/* A controller that is open, or none. Opaque: C gives it room. */
typedef struct nvmectl {
    void *at;
    uint32_t mark; /* 0 where it is closed, and the mark of its kind where it is open */
} nvmectl;

#define NVMECTL_CLOSED {NULL, 0}

/* What a controller is opened with. The reserved words are 0; a later version may give one a meaning. */
typedef struct nvmectl_options {
    uint32_t size;    /* sizeof(nvmectl_options) */
    uint32_t entries; /* of each ring, 2 to 1,024 */
    uint32_t blocks;  /* of an image of zeros, 1 to 65,536; looked at only where no image is given. Of nvmectl_open_lent: of the namespace, 1 to 2^32 - 1 */
    uint32_t reserved[5];
} nvmectl_options;

#define NVMECTL_OPTIONS {sizeof(nvmectl_options), 4, 64, {0}}

/* Where the two rings of a queue begin: the numbers of pages. */
typedef struct nvmectl_queue {
    uint32_t sq;
    uint32_t cq;
} nvmectl_queue;

/* Memory at the addresses from addr on. bytes may be null where len is 0. */
typedef struct nvmectl_region {
    uint64_t addr;
    void *bytes;
    size_t len;
} nvmectl_region;

/* A command that was fetched and not completed. */
typedef struct nvmectl_job {
    uint32_t units; /* of its list that were done */
    bool ended;     /* it has its verdict: nothing is left to walk */
    uint8_t sct;    /* status code type of the verdict */
    uint8_t sc;     /* status code of the verdict */
    uint32_t reserved[4]; /* 0 */
} nvmectl_job;

/* Blocks that a command wants and that were not lent. */
typedef struct nvmectl_wanted {
    uint64_t slba;   /* the first of them */
    uint32_t blocks; /* how many, of 512 bytes */
    uint8_t opcode;  /* of the command: 1 a Write, 2 a Read, 5 a Compare */
    uint8_t reserved[19]; /* 0 */
} nvmectl_wanted;

enum nvmectl_step_kind { NVMECTL_REST = 0, NVMECTL_FETCH = 1, NVMECTL_WALK = 2, NVMECTL_COMPLETE = 3 };

/* A call that would be done now. */
typedef struct nvmectl_step {
    uint32_t kind; /* enum nvmectl_step_kind */
    uint16_t q;
    uint16_t cid; /* of a walk and a completion */
    uint32_t reserved[4]; /* 0 */
} nvmectl_step;

/* Opening and closing --------------------------------------------------------------------------------------------- */

/* Opens over the bytes of an image, whole blocks of 512, or over options.blocks blocks of zeros where image_len is 0. Queue i has the i-th
 * of the pages, and queue 0 is the admin queue; at most 65,536. Each queue is live, with empty rings. A reset after the opening leaves queue 0 alone, and the
 * others to Create I/O CQ and SQ. Refused, the first that holds: OPEN_HANDLE or NO_HANDLE, BAD_SIZE, BAD_OPTION,
 * BAD_CONFIG, BAD_IMAGE, MEMORY. */
uint32_t nvmectl_open(nvmectl *, const nvmectl_options *, const nvmectl_queue *queues, size_t queue_count, const uint8_t *image, size_t image_len) NVMESGL_CALL(1, 2);
/* Opens a controller that holds no blocks: the namespace has options.blocks of them, 1 to 2^32 - 1, which are lent to the calls below, over regions. All else is as
 * nvmectl_open does it. Refused, the first that holds: OPEN_HANDLE or NO_HANDLE, BAD_SIZE, BAD_OPTION, BAD_CONFIG, BAD_IMAGE (there is no block), MEMORY. */
uint32_t nvmectl_open_lent(nvmectl *, const nvmectl_options *, const nvmectl_queue *queues, size_t queue_count) NVMESGL_CALL(1, 2);
/* Closes a handle; one that is closed stays so, and of a null pointer, and of a handle of another kind, nothing is done. */
void nvmectl_close(nvmectl *);
/* A Controller Level Reset: no command is left, the I/O queues are gone, and queue 0 stays with empty rings. The image is as it was. */
uint32_t nvmectl_reset(nvmectl *) NVMESGL_CALL(1);

/* The doorbells --------------------------------------------------------------------------------------------------- */

/* A value is written to the tail doorbell of submission queue q. Refused: NO_QUEUE, BAD_DOORBELL (it is no slot of the ring). */
uint32_t nvmectl_tail(nvmectl *, uint16_t q, uint16_t value) NVMESGL_CALL(1);
/* A value is written to the head doorbell of completion queue q. Refused: NO_QUEUE, BAD_DOORBELL (it is outside the last head to the tail). */
uint32_t nvmectl_head(nvmectl *, uint16_t q, uint16_t value) NVMESGL_CALL(1);

/* Steps over regions: each tells the pages that it touched. The table is only read -------------------------------------- */

/* Fetches an entry that was rung: answer.cid. One of queue 0 is decided and carried out here: a creation may name rings up to the end of the region that ends
 * last. An identifier that is outstanding is answered at once, with Command ID Conflict. Refused: IDLE, SLOT_OUT (a byte of the slot is missing), FULL, SLOT_OUT,
 * MEMORY. */
uint32_t nvmectl_fetch_over(nvmectl *, uint16_t q, const nvmectl_region *regions, size_t region_count, nvmesgl_answer *) NVMESGL_CALL(1, 5);
/* Does one unit of a fetched command's list, one descriptor or the bytes of one page: answer.state, one of NVMESGL_WALK_MORE, NVMESGL_WALK_END and NVMESGL_WALK_FAULT.
 * A byte that is missing is a fault: Data Transfer Error. Refused: NO_JOB, NOTHING. */
uint32_t nvmectl_walk_over(nvmectl *, uint16_t q, uint16_t cid, const nvmectl_region *regions, size_t region_count, nvmesgl_answer *) NVMESGL_CALL(1, 6);
/* Posts a completion; a Write that ends well changes the image here. Refused: NO_JOB, WALKING, WAITS, FULL, SLOT_OUT. */
uint32_t nvmectl_complete_over(nvmectl *, uint16_t q, uint16_t cid, const nvmectl_region *regions, size_t region_count, nvmesgl_answer *) NVMESGL_CALL(1, 6);

/* The steps over regions of a controller that holds no blocks: nvmectl_walk_over as above, and these. A fetch or a completion over regions or a pool above and below
 * (nvmectl_fetch_over, nvmectl_fetch, nvmectl_complete_over, nvmectl_complete) is of one that holds an image, as is nvmectl_blocks: OTHER_CALL, of these calls
 * likewise where the controller holds an image ------------------------------------------------------------------------- */

/* As nvmectl_fetch_over. It is lent blocks_len / 512 blocks of the namespace, from slba on, and only reads them: those of the Read that is fetched are wanted.
 * Refused: OTHER_CALL, NO_BLOCKS (no whole blocks, or they pass the end of the namespace), IDLE, SLOT_OUT, FULL, SLOT_OUT, NOT_LENT (they are not all lent: wanted),
 * MEMORY. NOT_LENT changes nothing: wanted tells which, and the answer which page was touched. The guest may write another entry before the next call. */
uint32_t nvmectl_fetch_lent(nvmectl *, uint16_t q, const nvmectl_region *regions, size_t region_count, uint64_t slba, uint8_t *blocks, size_t blocks_len,
                            nvmectl_wanted *wanted, nvmesgl_answer *) NVMESGL_CALL(1, 8, 9);
/* As nvmectl_complete_over. The blocks of a Compare and of a Write that end well so far are wanted. A Write's bytes then stand in what was lent, and are the
 * caller's to keep. Refused: OTHER_CALL, NO_BLOCKS, NO_JOB, WALKING, WAITS, NOT_LENT (wanted), FULL, SLOT_OUT. */
uint32_t nvmectl_complete_lent(nvmectl *, uint16_t q, uint16_t cid, const nvmectl_region *regions, size_t region_count, uint64_t slba, uint8_t *blocks,
                               size_t blocks_len, nvmectl_wanted *wanted, nvmesgl_answer *) NVMESGL_CALL(1, 9, 10);

/* Where the blocks of a namespace are kept. Each callback is given the context, and answers 0 where it has read or written all the blocks, of 512 bytes; they lie in the
 * namespace. A block that was never written reads as the disk has it. A callback calls nothing of the same handle. */
typedef struct nvmectl_disk {
    void *context;
    int (*read)(void *context, uint64_t slba, uint32_t blocks, uint8_t *into);
    int (*write)(void *context, uint64_t slba, uint32_t blocks, const uint8_t *from);
} nvmectl_disk;

/* nvmectl_fetch_lent over a disk: the blocks of a Read are read, into memory that the library takes and lets go. Refused as that, and: DISK (the callback failed),
 * MEMORY, NOT_LENT (the guest changed the entry at each of four tries). Then nothing is fetched, and the call may be made again. */
uint32_t nvmectl_fetch_disk(nvmectl *, uint16_t q, const nvmectl_region *regions, size_t region_count, const nvmectl_disk *, nvmesgl_answer *) NVMESGL_CALL(1, 5, 6);
/* nvmectl_complete_lent over a disk: the blocks of a Compare are read, and those of a Write are written before its completion is posted. Refused as that, and: DISK,
 * MEMORY. Then nothing is completed, and the call may be made again; a Write that was refused FULL or SLOT_OUT is on the disk already, and is written again. */
uint32_t nvmectl_complete_disk(nvmectl *, uint16_t q, uint16_t cid, const nvmectl_region *regions, size_t region_count, const nvmectl_disk *, nvmesgl_answer *)
    NVMESGL_CALL(1, 6, 7);

/* The same steps over a pool: of at most 268,435,456 bytes, else POOL_TOO_LONG --------------------------------------- */

/* As nvmectl_fetch_over; a creation's rings lie in the pool. */
uint32_t nvmectl_fetch(nvmectl *, uint16_t q, uint8_t *pool, size_t pool_len, nvmesgl_answer *) NVMESGL_CALL(1, 5);
/* As nvmectl_walk_over. */
uint32_t nvmectl_walk(nvmectl *, uint16_t q, uint16_t cid, uint8_t *pool, size_t pool_len, nvmesgl_answer *) NVMESGL_CALL(1, 6);
/* As nvmectl_complete_over. */
uint32_t nvmectl_complete(nvmectl *, uint16_t q, uint16_t cid, uint8_t *pool, size_t pool_len, nvmesgl_answer *) NVMESGL_CALL(1, 6);

/* Looks: they change nothing -------------------------------------------------------------------------------------- */

/* A step that would be done now (want of memory and of lent blocks left aside), or NVMECTL_REST where each would be refused. It goes over the queues and then over the commands. */
uint32_t nvmectl_next_over(nvmectl *, const nvmectl_region *regions, size_t region_count, nvmectl_step *) NVMESGL_CALL(1, 4);
/* The same over a pool of at most 268,435,456 bytes, else POOL_TOO_LONG. */
uint32_t nvmectl_next(nvmectl *, uint8_t *pool, size_t pool_len, nvmectl_step *) NVMESGL_CALL(1, 4);
/* A command that was fetched and not completed. Refused: NO_JOB. */
uint32_t nvmectl_command(nvmectl *, uint16_t q, uint16_t cid, nvmectl_job *) NVMESGL_CALL(1, 4);
/* The bytes of such a command, at the start of the buffer: those of a Read's blocks, and what a Write or a Compare has fetched so far; a Write's are what its completion
 * writes. answer.bytes: how many they are, of an admin command 0. Refused: NO_JOB, TOO_SHORT (the buffer; answer.bytes is told). */
uint32_t nvmectl_bytes(nvmectl *, uint16_t q, uint16_t cid, uint8_t *buffer, size_t buffer_len, nvmesgl_answer *) NVMESGL_CALL(1, 6);
/* Blocks of the image from slba on, as many as the buffer has. Refused: NO_BLOCKS (the image has not so many, or the buffer is not whole blocks of 512). */
uint32_t nvmectl_blocks(nvmectl *, uint64_t slba, uint8_t *buffer, size_t buffer_len) NVMESGL_CALL(1);

#ifdef __cplusplus
}
#endif
#endif

/*
 * nvmehost: the NVMe host driver alone, over a pool of 4,096-byte pages that any device may read and write, for C (C99) and C++.
 *
 * A handle keeps the driver and its pool. The controller is the caller's: what crosses is the pool's bytes (nvmehost_read and nvmehost_write, as a device reads and
 * writes memory), and the values that the caller writes to the device's doorbells (nvmehost_ring and nvmehost_reap tell them). Address a is byte a
 * of the pool, and page p its bytes 4,096 p to 4,096 p + 4,095.
 *
 * What each call promises it promises against any device, whatever stands in the pool and whatever is written there between calls: each page has one
 * owner, no identifier of a queue is outstanding twice, and a completion that fits no submitted command is rejected. What is proved of each call stands in
 * crates/nvmesgl_c: a call that is not done changes nothing but the answer.
 *
 * Of C nothing more is asked than nvmesgl.h asks (1 to 5 there): a handle is all zero bytes before its opening (NVMEHOST_CLOSED), it is never copied, and one
 * call at a time is made on it; and of a pool in memory of the caller's what rules 6 to 8 of docs/C.md say. Codes, kinds, pieces, requests, answers and
 * owners are those of nvmesgl.h.
 */
#ifndef NVMEHOST_H
#define NVMEHOST_H

#include "nvmesgl.h"

#ifdef __cplusplus
extern "C" {
#endif

/* A host that is open, or none. Opaque: C gives it room. */
typedef struct nvmehost {
    void *at;
    uint32_t mark; /* 0 where it is closed, and the mark of its kind where it is open */
} nvmehost;

#define NVMEHOST_CLOSED {NULL, 0}

/* What a host is opened with. The reserved words are 0; a later version may give one a meaning. */
typedef struct nvmehost_options {
    uint32_t size;    /* sizeof(nvmehost_options) */
    uint32_t pages;   /* of the pool, 8 to 65,536 */
    uint32_t queues;  /* I/O queues, 1 to 64 */
    uint32_t entries; /* of each ring, 2 to 1,024 */
    uint32_t segment; /* the most descriptors of a segment, 2 to 256 */
    uint32_t reserved[3];
} nvmehost_options;

#define NVMEHOST_OPTIONS {sizeof(nvmehost_options), 16, 1, 4, 256, {0}}

/* A value for a doorbell register of the device (NVM Express over PCIe Transport Specification 1.0, section 3.1.2). */
typedef struct nvmehost_doorbell {
    uint32_t offset; /* of the register, from the device's first one on, where doorbells lie 4 bytes apart (CAP.DSTRD is 0): 4,096 + 4 * (2 q) of a tail and
                      * 4,096 + 4 * (2 q + 1) of a head. Another stride: 4,096 + ((offset - 4,096) << CAP.DSTRD) */
    uint32_t value;  /* to write there */
    bool rings;      /* whether there is one; else the others are 0 */
    uint32_t reserved[4]; /* 0 */
} nvmehost_doorbell;

/* A completion that nvmehost_poll took. */
typedef struct nvmehost_ended {
    uint64_t tag;   /* of NVMESGL_REAP_DONE: the command's, and 0 where it was reserved by nvmehost_reserve; else 0 */
    uint32_t state; /* NVMESGL_REAP_DONE to NVMESGL_REAP_UNKNOWN_ID */
    uint32_t code;  /* of NVMESGL_REAP_DONE: the code of the collection of the command; else 0 */
    uint32_t dw0;   /* of NVMESGL_REAP_ADMIN_DONE */
    uint16_t cid;   /* of both */
    uint8_t sct;    /* status code type, of both */
    uint8_t sc;     /* status code */
    uint8_t retry_delay; /* of a command that was collected: what its completion hints at, as in nvmesgl_answer; else 0 */
    bool more;
    bool do_not_retry;
    uint8_t reserved[13]; /* 0 */
} nvmehost_ended;

enum nvmehost_queue_state {
    NVMEHOST_LIVE = 0,
    NVMEHOST_DELETING = 1,  /* the deletion of its submission queue was sent, */
    NVMEHOST_DELETED = 2,   /* and has ended: it waits to be retired */
    NVMEHOST_RETIRED = 3,   /* its submission half is given back */
    NVMEHOST_GONE = 4,      /* both halves are given back */
    NVMEHOST_MAKING_CQ = 5, /* the creation of its completion queue was sent, */
    NVMEHOST_HALF_MADE = 6, /* and has ended */
    NVMEHOST_MAKING_SQ = 7  /* the creation of its submission queue was sent */
};

/* Where the host stands in the rings of a queue. */
typedef struct nvmehost_queue {
    uint32_t state;           /* enum nvmehost_queue_state */
    uint16_t submission_tail; /* the slot of the next entry */
    uint16_t submission_head; /* of the controller, as a completion told it last */
    uint16_t completion_head; /* the slot where the next completion is looked for */
    bool phase;               /* the phase tag of a new completion there */
    uint32_t submission_page; /* the first page of the submission ring, and of the completion ring; 0 where the host has none */
    uint32_t completion_page;
    size_t submission_pages; /* how many pages each has */
    size_t completion_pages;
    uint32_t reserved[4]; /* 0 */
} nvmehost_queue;

/* What a device may do with a page now. */
enum nvmehost_right { NVMEHOST_NOTHING = 0, NVMEHOST_READ = 1, NVMEHOST_WRITE = 2 };

/* Consecutive pages with one right. */
typedef struct nvmehost_run {
    uint32_t first; /* the first page */
    uint32_t right; /* enum nvmehost_right, of each */
    size_t count;   /* how many pages there are */
    uint32_t reserved[4]; /* 0 */
} nvmehost_run;

/* Where the bytes of a data piece lie: at address 4,096 * page + offset. */
typedef struct nvmehost_place {
    uint32_t page;
    uint32_t offset;
    uint32_t len;
    uint32_t reserved[4]; /* 0 */
} nvmehost_place;

typedef struct nvmehost_pages {
    uint32_t pages; /* of the pool: the sum of the next four */
    uint32_t free_pages;
    uint32_t queue_pages;
    uint32_t chain_pages;
    uint32_t data_pages;
    uint32_t reserved[4]; /* 0 */
} nvmehost_pages;

/* Opening and closing --------------------------------------------------------------------------------------------- */

/* Opens a closed handle: every page is zero and every queue is live with empty rings. Queue q, from the admin queue 0 on, has the lowest pages: first its submission ring of
 * S = ceil(entries / 64) pages, from page q (S + C) on, and then its completion ring of C = ceil(entries / 256) pages, from page q (S + C) + S on. A device whose I/O
 * queues are to be made by Create I/O CQ and SQ is met by nvmehost_reset first: then queue 0 alone is live, at the same pages.
 * Refused, the first that holds: OPEN_HANDLE or NO_HANDLE, BAD_SIZE, BAD_OPTION, BAD_CONFIG, NO_PAGES, MEMORY. */
uint32_t nvmehost_open(nvmehost *, const nvmehost_options *, nvmesgl_answer *) NVMESGL_CALL(1, 2, 3);

/* Closes a handle: what is open is let go, whatever is outstanding. One that is closed stays so; of a null pointer, and of a handle of another kind, nothing is done. */
void nvmehost_close(nvmehost *);

/* Memory of the caller's in which a pool stands, as it is mapped for a device: at is a multiple of 4,096, with 4,096 * pages bytes. The last two are the library's. */
typedef struct nvmehost_memory {
    void *at;
    uint32_t pages;
    uint32_t used;
    struct nvmehost_memory *next;
} nvmehost_memory;

/* Opens as nvmehost_open does, over the caller's memory: page p of the pool stands at memory->at + 4,096 p until the handle is closed, whether the page is in or out. Such a handle is
 * closed by nvmehost_close_at; until then the struct stays where it is. One opening at a time in a program.
 * Refused after OPEN_HANDLE and NO_HANDLE, and before all else: BAD_OPTION where memory->pages is not options->pages. */
uint32_t nvmehost_open_at(nvmehost *, const nvmehost_options *, nvmehost_memory *, nvmesgl_answer *) NVMESGL_CALL(1, 2, 3, 4);
/* Closes a handle as nvmehost_close does; the memory, which is that of its opening, is the caller's again. */
void nvmehost_close_at(nvmehost *, nvmehost_memory *);

/* Over such memory (rule 6 of docs/C.md) the caller may write the data of a draft in place, from reserve to submit, as nvmehost_fill would, and read that of a finished command, from collect to
 * release; the device reads and writes what is in the pool, as nvmehost_read and nvmehost_write would. While a call runs nobody writes what it reads. So a completion is reaped once it is ready: */

/* Whether the completion that nvmehost_reap would take stands in the queue's ring: its phase tag is read, and all that is read later is read after it (acquire). */
static inline bool nvmehost_ready(const nvmehost_memory *memory, const nvmehost_queue *queue) {
    const char *ring = (const char *)memory->at + (size_t)4096 * queue->completion_page;
    const uint16_t *tag = (const uint16_t *)(const void *)(ring + (size_t)16 * queue->completion_head + 14);
    return (__atomic_load_n(tag, __ATOMIC_ACQUIRE) & 1) == (queue->phase ? 1 : 0);
}

/* Writes a doorbell register, after all that was written to memory before. registers: the device's first one (BAR0); stride: CAP.DSTRD. Nothing is written where the doorbell does not ring. */
static inline void nvmehost_write_doorbell(volatile void *registers, unsigned stride, nvmehost_doorbell bell) {
    if (!bell.rings) return;
#if defined(__aarch64__)
    __asm__ volatile("dmb oshst" ::: "memory");
#else
    __atomic_thread_fence(__ATOMIC_SEQ_CST);
#endif
    *(volatile uint32_t *)((volatile char *)registers + 4096 + ((bell.offset - 4096) << stride)) = bell.value;
}

/* A command, named by its queue and identifier ---------------------------------------------------------------------- */

/* Below, "Refused" names the codes of a handle that is open, in the order in which they are looked for. But where memory is refused for the copy
 * of pieces (where a command is reserved, after BAD_PIECE), MEMORY comes before what would be looked for next. */

/* Reserves a command of namespace 1, with no flag, of blocks of 512 bytes from slba on: the lowest free identifier (answer.cid) and pages (data_pages, chain_pages), as a draft.
 * The pages are out of the pool until the draft is submitted or cancelled.
 * Refused: NO_KIND, BAD_PIECE, NO_QUEUE, DELETING, a fault of the request (TOO_MANY_PIECES to LENGTH_MISMATCH), NO_IDENTIFIER, NO_PAGES, MEMORY. */
uint32_t nvmehost_reserve(nvmehost *, uint16_t q, uint32_t kind, uint64_t slba, uint32_t blocks, const nvmesgl_piece *pieces, size_t piece_count,
                          nvmesgl_answer *) NVMESGL_CALL(1, 8);
/* Reserves a command as nvmehost_reserve does, with a tag: 64 bits of the caller's, which nvmehost_reap, nvmehost_collect and nvmehost_poll tell when the command has ended, also where a
 * reset ended it. One that nvmehost_reserve reserves has the tag 0, whatever its identifier had before. Refused: as nvmehost_reserve, and MEMORY for a tag that is not 0. */
uint32_t nvmehost_reserve_tagged(nvmehost *, uint16_t q, uint32_t kind, uint64_t slba, uint32_t blocks, const nvmesgl_piece *pieces, size_t piece_count, uint64_t tag,
                                 nvmesgl_answer *) NVMESGL_CALL(1, 9);
/* Reserves a command as nvmehost_reserve_tagged does, of any namespace, with blocks of any size and with any flags. Refused: BAD_SIZE, BAD_OPTION, and then as nvmehost_reserve_tagged. */
uint32_t nvmehost_reserve_request(nvmehost *, uint16_t q, const nvmesgl_request *, const nvmesgl_piece *pieces, size_t piece_count, uint64_t tag, nvmesgl_answer *) NVMESGL_CALL(1, 3, 7);
/* Reserves an admin command of the caller's own, of queue 0, with a tag: a draft as any other, whose page, if it has one, the entry names as PRP1. It is filled where data is taken from the
 * page, built, submitted, rung and reaped (NVMESGL_REAP_ADMIN_DONE, with dw0), collected (which tells its tag), gathered where data comes, and released, all with q = 0; a reset ends it as it ends an I/O command.
 * Not taken: what the host sends by calls of its own, and what hands a device memory for longer than the command lasts (Create and Delete I/O Queue, Abort, Doorbell Buffer Config, and
 * Set Features of the Host Memory Buffer). Refused: BAD_SIZE, BAD_OPTION, NO_KIND for an opcode above 255 or another use of a page, CROSSES_PAGE for more bytes than a page has,
 * LENGTH_MISMATCH for a page without bytes or bytes without a page, HOSTS_OWN, NO_IDENTIFIER, NO_PAGES, MEMORY. */
uint32_t nvmehost_reserve_admin(nvmehost *, const nvmesgl_admin *, uint64_t tag, nvmesgl_answer *) NVMESGL_CALL(1, 2, 4);
/* Fills the draft of a Write, a Compare or a Deallocate, or of an admin command whose data is taken, with the bytes, and zeros after them. Refused: NO_VALUE, NOT_A_SOURCE, WRONG_LENGTH. */
uint32_t nvmehost_fill(nvmehost *, uint16_t q, uint16_t cid, const uint8_t *bytes, size_t byte_count, nvmesgl_answer *) NVMESGL_CALL(1, 6);
/* Lays the draft's chain. Refused: NO_VALUE, MEMORY. */
uint32_t nvmehost_build(nvmehost *, uint16_t q, uint16_t cid, nvmesgl_answer *) NVMESGL_CALL(1, 4);
/* Submits a draft that is built: its pages are in the pool, and its entry stands where the tail was. A ticket takes its place. Refused: NO_VALUE, NOT_BUILT, QUEUE_GONE, QUEUE_FULL. */
uint32_t nvmehost_submit(nvmehost *, uint16_t q, uint16_t cid, nvmesgl_answer *) NVMESGL_CALL(1, 4);
/* Cancels a draft: its pages and its identifier are free. Refused: NO_VALUE. */
uint32_t nvmehost_cancel(nvmehost *, uint16_t q, uint16_t cid, nvmesgl_answer *) NVMESGL_CALL(1, 4);
/* Collects a command that has ended, by its ticket: answer.sct and answer.sc, what its completion hints at, and its answer.tag. Its pages are out of the pool. Refused: NO_VALUE, NOT_YET, MEMORY. */
uint32_t nvmehost_collect(nvmehost *, uint16_t q, uint16_t cid, nvmesgl_answer *) NVMESGL_CALL(1, 4);
/* Gathers the bytes that a finished Read or admin command brought into the front of a buffer: answer.bytes; none of another.
 * Refused: NO_VALUE, MEMORY, TOO_SHORT (the buffer stays as it was). */
uint32_t nvmehost_gather(nvmehost *, uint16_t q, uint16_t cid, uint8_t *buffer, size_t buffer_len, nvmesgl_answer *) NVMESGL_CALL(1, 6);
/* Releases a finished command: its pages and its identifier are free. Refused: NO_VALUE. */
uint32_t nvmehost_release(nvmehost *, uint16_t q, uint16_t cid, nvmesgl_answer *) NVMESGL_CALL(1, 4);
/* Several of these calls in one, over the bytes of several buffers, which are as one: the bytes of the first, then those of the second, and so on. All together they are 1 to
 * 2,048 whole blocks of 512 bytes; a data page each takes 4,096 of them, and the last what is left. Reserves a command, fills it with the bytes where it is a Write or a Compare,
 * builds it and submits it (answer: as nvmehost_reserve). It is not rung. Of a Read only the lengths are looked at: its bytes are gathered once it has ended. Of the other
 * kinds a Flush alone can be sent so, with no byte. The tag is that of nvmehost_reserve_tagged.
 * Refused: NO_KIND, BAD_COUNT for more than 1,048,576 bytes, and then what nvmehost_reserve (BAD_COUNT for fewer than 512 bytes, LENGTH_MISMATCH where the last block is cut
 * short), nvmehost_fill, nvmehost_build and nvmehost_submit are refused for, and MEMORY for a tag that is not 0; nothing of the command is left then: one that was reserved is cancelled. */
uint32_t nvmehost_submit_iov(nvmehost *, uint16_t q, uint32_t kind, uint64_t slba, const nvmesgl_iovec *buffers, size_t buffer_count, uint64_t tag,
                             nvmesgl_answer *) NVMESGL_CALL(1, 8);
/* Gathers the bytes that a finished Read or admin command brought into the buffers, one after the other: answer.bytes; none of another.
 * Refused: NO_VALUE, TOO_SHORT (the buffers stay as they were), MEMORY. */
uint32_t nvmehost_gather_iov(nvmehost *, uint16_t q, uint16_t cid, const nvmesgl_iovec *buffers, size_t buffer_count, nvmesgl_answer *) NVMESGL_CALL(1, 6);
/* Sends an Abort of a submitted command on queue 0: answer.cid. It is not rung.
 * Refused: NO_QUEUE, WRONG_STATE, NO_SUCH_COMMAND, NO_IDENTIFIER, QUEUE_FULL. */
uint32_t nvmehost_abort(nvmehost *, uint16_t q, uint16_t cid, nvmesgl_answer *) NVMESGL_CALL(1, 4);

/* A queue ----------------------------------------------------------------------------------------------------------- */

/* Tells the value for the queue's tail doorbell, with which the device hears all that was submitted. Refused: NO_QUEUE. */
uint32_t nvmehost_ring(nvmehost *, uint16_t q, nvmehost_doorbell *, nvmesgl_answer *) NVMESGL_CALL(1, 3, 4);
/* Takes one completion: answer.state says what was found (NVMESGL_REAP_EMPTY to NVMESGL_REAP_UNKNOWN_ID), and of NVMESGL_REAP_DONE answer.tag is the command's. Where one was taken, the
 * value for the completion queue's head doorbell is told.
 * Refused: NO_QUEUE. */
uint32_t nvmehost_reap(nvmehost *, uint16_t q, nvmehost_doorbell *, nvmesgl_answer *) NVMESGL_CALL(1, 3, 4);
/* Takes completions, each as nvmehost_reap would, as many as the buffer holds, and collects the command that each ends, as nvmehost_collect would, but on queue 0. They stand in the front of the buffer, and
 * how many there are is told, and the value for the head doorbell after the last. answer.state is NVMESGL_REAP_EMPTY where there is no other; else the buffer is full. A command whose entry
 * has a code (MEMORY) has ended and is not collected: collect it. Over memory that a device writes by itself it is called with room for one completion, once nvmehost_ready
 * says that it is there (rule 6 of docs/C.md): it reaps until there is no other. Refused: NO_QUEUE. */
uint32_t nvmehost_poll(nvmehost *, uint16_t q, nvmehost_ended *buffer, size_t buffer_len, size_t *count, nvmehost_doorbell *, nvmesgl_answer *) NVMESGL_CALL(1, 5, 6, 7);
/* Each sends an admin command on queue 0 (answer.cid), which is not rung. Refused: NO_QUEUE, WRONG_STATE, OUTSTANDING (create_cq alone),
 * NO_IDENTIFIER, NO_RUN (create_cq and create_sq), QUEUE_FULL. */
uint32_t nvmehost_delete_sq(nvmehost *, uint16_t q, nvmesgl_answer *) NVMESGL_CALL(1, 3);
uint32_t nvmehost_delete_cq(nvmehost *, uint16_t q, nvmesgl_answer *) NVMESGL_CALL(1, 3);
uint32_t nvmehost_create_cq(nvmehost *, uint16_t q, nvmesgl_answer *) NVMESGL_CALL(1, 3);
/* With interrupts on a vector of the device's, where nvmehost_create_cq is polled. The command tells the device so; interrupts are the caller's. */
uint32_t nvmehost_create_cq_vector(nvmehost *, uint16_t q, uint16_t vector, nvmesgl_answer *) NVMESGL_CALL(1, 4);
uint32_t nvmehost_create_sq(nvmehost *, uint16_t q, nvmesgl_answer *) NVMESGL_CALL(1, 3);
/* Gives back the submission ring of a queue whose deletion was reaped. Refused: NOT_DELETED, NOT_DRAINED. */
uint32_t nvmehost_retire(nvmehost *, uint16_t q, nvmesgl_answer *) NVMESGL_CALL(1, 3);
/* Begins again, where the device is reset: queue 0 is as it opened, the I/O queues are gone, and every command that was submitted has ended, aborted. It is done always. */
uint32_t nvmehost_reset(nvmehost *, nvmesgl_answer *) NVMESGL_CALL(1, 2);

/* The device's side of the pool: 1 to 4,096 bytes from an address on -------------------------------------------------- */

/* Copies bytes of the pool into a buffer. Refused, and the buffer stays as it was: BAD_LENGTH (the buffer has 0 or more than 4,096 bytes), PAGE_OUT (a byte is outside the pool, or on a page that
 * is out: one of a draft or of a finished command). */
uint32_t nvmehost_read(nvmehost *, uint64_t addr, uint8_t *buffer, size_t buffer_len) NVMESGL_CALL(1);
/* Writes bytes into the pool. Refused, and no byte changed: BAD_LENGTH, PAGE_OUT. */
uint32_t nvmehost_write(nvmehost *, uint64_t addr, const uint8_t *bytes, size_t byte_count) NVMESGL_CALL(1);

/* Looks: they change nothing -------------------------------------------------------------------------------------- */

uint32_t nvmehost_counts(nvmehost *, nvmehost_pages *) NVMESGL_CALL(1, 2);
/* Refused: NO_PAGE. */
uint32_t nvmehost_owner(nvmehost *, uint32_t page, nvmesgl_page_owner *) NVMESGL_CALL(1, 3);
/* What the host knows of a queue. Refused: NO_QUEUE. */
uint32_t nvmehost_look(nvmehost *, uint16_t q, nvmehost_queue *) NVMESGL_CALL(1, 3);
/* What a device may do with a page now (enum nvmehost_right), whatever it wrote: it reads submission rings, and the chain and the data of each Write, Compare and Deallocate that is submitted and not yet
 * reaped; it writes completion rings, and the data of each Read that is; and nothing else. Of a page outside the pool: NVMEHOST_NOTHING. */
uint32_t nvmehost_may(nvmehost *, uint32_t page, uint32_t *right) NVMESGL_CALL(1, 3);
/* The pages of a command as runs, first of its data and then of its chain, with what a device may do with them now; none where no such command is outstanding. How many runs were laid into the
 * front of the buffer is told. TOO_SHORT: there are more, and the buffer is full. */
uint32_t nvmehost_runs(nvmehost *, uint16_t q, uint16_t cid, nvmehost_run *buffer, size_t buffer_len, size_t *count) NVMESGL_CALL(1, 6);
/* Where data piece i of an outstanding command lies; pieces are counted from 0, and buckets are left aside. Refused: NO_PIECE. */
uint32_t nvmehost_data_place(nvmehost *, uint16_t q, uint16_t cid, uint32_t piece, nvmehost_place *) NVMESGL_CALL(1, 5);

#ifdef __cplusplus
}
#endif
#endif

/*
 * nvmesgl: an NVMe host driver and a modelled controller over one pool of 4,096-byte pages, for C (C99) and C++.
 *
 * nvmesgl_*  both sides over one pool. A call is one step; the code says whether it was done, the answer what it told.
 * nvmectl_*  the controller alone over the caller's memory: nvmectl.h.
 * nvmehost_* the driver alone over a pool that any device may read and write: nvmehost.h.
 *
 * What C must keep, and nothing here checks:
 *  1. A handle is all zero bytes before its opening (NVMESGL_CLOSED). It is never copied and never written while it is open. A handle of another kind, and one that was never zeroed or
 *     was overwritten, is told by its mark and left alone (NVMESGL_NO_HANDLE); but arbitrary bytes may hold the mark, once in 2^32.
 *  2. One call at a time on a handle. It may go from thread to thread, where calls are ordered by a lock, or by the start or the end of a thread. No call from a signal handler, and
 *     none from a forked child.
 *  3. A pointer to a handle (but of a closing), an answer, options or another struct is not null. A pointer that goes with a length may be null where the
 *     length is 0. Else it points to so many elements. What a call writes overlaps nothing else that it is given.
 *  4. malloc, realloc and free come from one allocator and align to 16; or nvmesgl_heap_array was called before the first opening.
 *  5. The array of nvmesgl_heap_array has one user at a time: with handles in several threads, malloc serves, and the array does not.
 *
 * What is proved of each call stands in crates/nvmesgl_c: a call that is not done changes nothing but the answer (what nvmesgl_serve or a whole command
 * had done by then stays done, and the answer tells it). A wrong queue, identifier, kind, page or length, a closed or strange handle and a second opening
 * each have a code. So has want of memory: nothing is lost then, and no call leaks. What is open at nvmesgl_close is let go, whatever is outstanding.
 */
#ifndef NVMESGL_H
#define NVMESGL_H

#include <stdbool.h>
#include <stddef.h>
#include <stdint.h>

#ifdef __cplusplus
extern "C" {
#endif

/* Version --------------------------------------------------------------------------------------------------------- */

/* The version of this header, and of the library that is linked. Versions 0.N may differ in any call and struct. */
#define NVMESGL_VERSION "0.9.0"
#define NVMESGL_VERSION_MAJOR 0
#define NVMESGL_VERSION_MINOR 9
#define NVMESGL_VERSION_PATCH 0
const char *nvmesgl_version(void);

/* Of a call: its code is looked at, and the pointers at these places are not null (rule 3). */
#if defined(__GNUC__)
#define NVMESGL_CALL(...) __attribute__((warn_unused_result, nonnull(__VA_ARGS__)))
#else
#define NVMESGL_CALL(...)
#endif

/* Codes ----------------------------------------------------------------------------------------------------------- */

enum nvmesgl_code {
    NVMESGL_DONE = 0,
    /* The handle is closed: of every call but an opening, before every other code. */
    NVMESGL_CLOSED_HANDLE = 1,
    /* The handle is open already. */
    NVMESGL_OPEN_HANDLE = 2,
    /* No draft, ticket or finished command, whichever the call takes, has this queue and identifier. */
    NVMESGL_NO_VALUE = 3,
    /* No kind of command has this number. */
    NVMESGL_NO_KIND = 4,
    /* The buffer is shorter than answer.bytes. */
    NVMESGL_TOO_SHORT = 5,
    /* The pool has no such page. */
    NVMESGL_NO_PAGE = 6,
    /* The size in the options, or in a request, is not the size of the struct. */
    NVMESGL_BAD_SIZE = 7,
    /* A reserved word of the options, or of a request, is not 0, or a flag or the block size of a request is unknown. */
    NVMESGL_BAD_OPTION = 8,
    /* The image is not 1 to 65,536 whole blocks of 512 bytes. */
    NVMESGL_BAD_IMAGE = 9,
    /* No queue of this number takes the call. */
    NVMESGL_NO_QUEUE = 10,
    /* The queue is being deleted. */
    NVMESGL_DELETING = 11,
    /* A number of the options is outside its limits. */
    NVMESGL_BAD_CONFIG = 12,
    /* Each identifier of the queue is outstanding. */
    NVMESGL_NO_IDENTIFIER = 13,
    /* Too few pages are free: answer.need and answer.free. */
    NVMESGL_NO_PAGES = 14,
    /* Memory was refused. */
    NVMESGL_MEMORY = 15,
    /* No record in the fitting phase belongs to the value. */
    NVMESGL_STRANGER = 16,
    /* The draft was not built. */
    NVMESGL_NOT_BUILT = 17,
    /* The queue takes no commands any more. */
    NVMESGL_QUEUE_GONE = 18,
    /* The submission ring is full. */
    NVMESGL_QUEUE_FULL = 19,
    /* The command has not ended. */
    NVMESGL_NOT_YET = 20,
    /* The queue's state does not allow the call. */
    NVMESGL_WRONG_STATE = 21,
    /* There is no such submitted command. */
    NVMESGL_NO_SUCH_COMMAND = 22,
    /* No deleted submission queue of this number waits to be retired. */
    NVMESGL_NOT_DELETED = 23,
    /* A completion waits to be reaped. */
    NVMESGL_NOT_DRAINED = 24,
    /* A command of the queue is outstanding. */
    NVMESGL_OUTSTANDING = 25,
    /* No run of answer.need consecutive pages is free. */
    NVMESGL_NO_RUN = 26,
    /* The queue has no such slot. */
    NVMESGL_NO_SLOT = 27,
    /* There is nothing to fetch. */
    NVMESGL_IDLE = 28,
    /* The slot's page is out of the store. */
    NVMESGL_SLOT_OUT = 29,
    /* The completion ring is full. */
    NVMESGL_FULL = 30,
    /* There is no such job. */
    NVMESGL_NO_JOB = 31,
    /* The job has nothing to walk. */
    NVMESGL_NOTHING = 32,
    /* The job has no verdict yet. */
    NVMESGL_WALKING = 33,
    /* The job's completion waits for others. */
    NVMESGL_WAITS = 34,
    /* The modelled controller has blocks of another size than the request. */
    NVMESGL_OTHER_BLOCKS = 35,
    /* A request with more than 1,024 pieces. */
    NVMESGL_TOO_MANY_PIECES = 40,
    /* A piece of length 0. */
    NVMESGL_EMPTY_PIECE = 41,
    /* A data piece that passes the end of its page. */
    NVMESGL_CROSSES_PAGE = 42,
    /* No blocks, or more than 1 MiB of them; of a Deallocate no ranges, or more than 256; or blocks of a Flush. */
    NVMESGL_BAD_COUNT = 43,
    /* Pieces that count are not the bytes of the blocks, or of the ranges. */
    NVMESGL_LENGTH_MISMATCH = 44,
    /* A Read is not filled, nor an admin command that brings data. */
    NVMESGL_NOT_A_SOURCE = 45,
    /* There are more bytes than the data pieces take. */
    NVMESGL_WRONG_LENGTH = 46,
    /* The host keeps this admin command to itself. */
    NVMESGL_HOSTS_OWN = 47,
    /* Of nvmectl.h: the doorbell does not hear the value. */
    NVMESGL_BAD_DOORBELL = 50,
    /* The pool has more than 65,536 pages. */
    NVMESGL_POOL_TOO_LONG = 51,
    /* The image or the namespace has not so many blocks there, or the buffer is not whole blocks. */
    NVMESGL_NO_BLOCKS = 52,
    /* Of nvmehost.h: no bytes, or more than 4,096. */
    NVMESGL_BAD_LENGTH = 53,
    /* A byte is outside the pool, or on a page that is out of it. */
    NVMESGL_PAGE_OUT = 54,
    /* No such command is outstanding, or it has no such data piece. */
    NVMESGL_NO_PIECE = 55,
    /* The kind of a piece is neither NVMESGL_PIECE nor NVMESGL_BUCKET. */
    NVMESGL_BAD_PIECE = 56,
    /* The handle is none of the kind that the call takes: another kind's, never zeroed, or overwritten. Before every other code; the handle is left as it is. */
    NVMESGL_NO_HANDLE = 57,
    /* Of nvmectl.h: the command wants blocks that are not lent. */
    NVMESGL_NOT_LENT = 58,
    /* The call is of a controller of the other kind: one that holds an image, or one whose blocks are lent. */
    NVMESGL_OTHER_CALL = 59,
    /* A callback of the disk failed. */
    NVMESGL_DISK = 60
};

/* The code as a sentence for people; "no such code" for other numbers. */
const char *nvmesgl_text(uint32_t code);

/* The name of a status (NVM Express Base Specification 2.0, section 3.3.3.2.1), or "unnamed status". */
const char *nvmesgl_status_text(uint8_t sct, uint8_t sc);

/* Values ---------------------------------------------------------------------------------------------------------- */

/* A machine that is open, or none. Opaque: C gives it room. */
typedef struct nvmesgl {
    void *at;
    uint32_t mark; /* 0 where it is closed, and the mark of its kind where it is open */
} nvmesgl;

#define NVMESGL_CLOSED {NULL, 0}

/* What a handle is opened with. The reserved words are 0; a later version may give one a meaning. */
typedef struct nvmesgl_options {
    uint32_t size;    /* sizeof(nvmesgl_options) */
    uint32_t pages;   /* of the pool, 8 to 65,536 */
    uint32_t queues;  /* I/O queues, 1 to 64 */
    uint32_t entries; /* of each ring, 2 to 1,024; a queue of n entries has n - 1 identifiers, 0 to n - 2 */
    uint32_t segment; /* the most descriptors of a segment, 2 to 256 */
    uint32_t blocks;  /* of an image of zeros, 1 to 65,536; looked at only where no image is given */
    uint32_t reserved[10];
} nvmesgl_options;

#define NVMESGL_OPTIONS {sizeof(nvmesgl_options), 16, 1, 4, 256, 64, {0}}

/* Numbers 3 to 5 have no data, so they have no piece, and a Flush has neither blocks nor a first one. A Deallocate is Dataset Management with the attribute Deallocate: its data is ranges of
 * blocks that are not needed any more, each an nvmesgl_range. The modelled controller does not have numbers 3 to 6: 0:01. */
enum nvmesgl_kind {
    NVMESGL_READ = 0,
    NVMESGL_WRITE = 1,
    NVMESGL_COMPARE = 2,
    NVMESGL_WRITE_ZEROES = 3,
    NVMESGL_VERIFY = 4,
    NVMESGL_FLUSH = 5,
    NVMESGL_DEALLOCATE = 6
};

enum nvmesgl_piece_kind { NVMESGL_PIECE = 0, NVMESGL_BUCKET = 1 };

/* A piece of a command's data: `len` bytes from `offset` on in a page of its own, or so many that a Read discards. */
typedef struct nvmesgl_piece {
    uint32_t offset;
    uint32_t len;
    uint32_t kind; /* enum nvmesgl_piece_kind */
} nvmesgl_piece;

/* A range of blocks, laid out as the standard has it (NVM Command Set Specification 1.0, "Dataset Management", Range Definition), on a little-endian machine. An array of 1 to 256 of them is
 * the data of a Deallocate. */
typedef struct nvmesgl_range {
    uint32_t attributes; /* Context Attributes; 0 says nothing */
    uint32_t blocks;     /* how many blocks */
    uint64_t slba;       /* the first block */
} nvmesgl_range;

/* Flags of a command that names blocks in its entry (NVM Command Set Specification 1.0, section 3.2, CDW12). A Flush and a Deallocate have none. */
enum nvmesgl_flag {
    NVMESGL_FUA = 1,          /* Force Unit Access: the command ends once its data is in non-volatile media, or comes from there */
    NVMESGL_LIMITED_RETRY = 2 /* the controller makes only a limited effort to try again where it fails */
};

/* What a command asks for, beside its pieces. Zero all of it and set its size first, or begin with NVMESGL_REQUEST. The reserved words are 0; a later version may give one
 * a meaning. */
typedef struct nvmesgl_request {
    uint32_t size;   /* sizeof(nvmesgl_request) */
    uint32_t kind;   /* enum nvmesgl_kind */
    uint32_t nsid;   /* the namespace; where it is 0, none is named, and it is namespace 1 */
    uint32_t flags;  /* enum nvmesgl_flag, added up */
    uint64_t slba;   /* the first block; 0 of a Flush and of a Deallocate, whose entries name none */
    uint32_t blocks; /* how many blocks, or, of a Deallocate, ranges: its pieces are 16 bytes for each */
    uint32_t block_bytes; /* how many bytes a block of the namespace has: 512, 1024, 2048 or 4096; where it is 0, 512 */
    uint32_t reserved[4];
} nvmesgl_request;

#define NVMESGL_REQUEST {sizeof(nvmesgl_request), NVMESGL_READ, 1, 0, 0, 0, 512, {0}}

/* What an admin command does with a page of the host's. */
enum nvmesgl_page_use {
    NVMESGL_WITHOUT_PAGE = 0, /* it has none */
    NVMESGL_PAGE_WRITTEN = 1, /* data comes to it */
    NVMESGL_PAGE_READ = 2     /* data is taken from it */
};

/* What an admin command of the caller's own asks for (NVM Express Base Specification 2.0, "Admin Command Set"), with no page or one. Zero all of it and set its size first. The reserved word
 * is 0; a later version may give it a meaning. */
typedef struct nvmesgl_admin {
    uint32_t size;   /* sizeof(nvmesgl_admin) */
    uint32_t opcode; /* 0 to 255 */
    uint32_t nsid;   /* the namespace; 0 where none is named */
    uint32_t page;   /* enum nvmesgl_page_use */
    uint32_t bytes;  /* how many bytes of data the page has, from its start: 1 to 4,096, and 0 without a page */
    uint32_t cdw10;
    uint32_t cdw11;
    uint32_t cdw12;
    uint32_t cdw13;
    uint32_t cdw14;
    uint32_t cdw15;
    uint32_t reserved;
} nvmesgl_admin;

/* Bytes of the caller's: len bytes from base on, which may be null where there are none. It is laid out as POSIX's struct iovec. */
typedef struct nvmesgl_iovec {
    void *base;
    size_t len;
} nvmesgl_iovec;

enum nvmesgl_state {
    NVMESGL_WALK_MORE = 1,       /* a walk goes on */
    NVMESGL_WALK_END = 2,        /* all bytes are counted */
    NVMESGL_WALK_FAULT = 3,      /* the list is at fault: sct and sc */
    NVMESGL_REAP_EMPTY = 4,      /* no new completion */
    NVMESGL_REAP_DONE = 5,       /* a command of an I/O queue has ended: cid, sct and sc */
    NVMESGL_REAP_ADMIN_DONE = 6, /* a command of queue 0 has ended: cid, sct, sc and dw0 */
    NVMESGL_REAP_WRONG_QUEUE = 7, /* a completion of no command was consumed: its queue is another's, */
    NVMESGL_REAP_BAD_HEAD = 8,    /* its head is outside the known head to the tail, */
    NVMESGL_REAP_UNKNOWN_ID = 9,  /* no submitted command has its identifier */
    NVMESGL_SERVE_MORE = 10,      /* the controller has more to do: nvmesgl_serve again */
    NVMESGL_LEFT = 11             /* a whole command was not carried to its end, and is outstanding: cid */
};

/* What a call tells besides its code. Each call writes all of it; a field that it has nothing to say in is 0. */
typedef struct nvmesgl_answer {
    uint32_t state;         /* of a walk, a reap, a serve and a whole command: enum nvmesgl_state */
    uint32_t dw0;           /* of a reap of queue 0 */
    uint32_t need;          /* pages needed: NVMESGL_NO_PAGES, NVMESGL_NO_RUN */
    uint32_t free;          /* pages free: NVMESGL_NO_PAGES */
    uint32_t data_pages;    /* of a reservation */
    uint32_t chain_pages;   /* of a reservation */
    size_t bytes;           /* of a gather and a whole Read: how many bytes the Read brought */
    uint32_t touched[4];    /* the pages that fetch, walk or complete touched, in order, also where it was refused */
    uint32_t touched_count; /* how many of them there are, 0 to 4 */
    uint16_t cid;           /* reserved, fetched, sent on queue 0, or reaped */
    uint8_t sct;            /* status code type: of a walk's fault, a reap, a collect and a whole command */
    uint8_t sc;             /* status code */
    uint32_t count;         /* of a serve: commands that it completed */
    uint8_t retry_delay;    /* Command Retry Delay, 0 to 3: of a collect and a whole command, as are the next two. All 0 where no completion ended the command */
    bool more;              /* More: the Error Information log has more on it */
    bool do_not_retry;      /* Do Not Retry: it is expected to fail again */
    uint8_t reserved[9];    /* 0 */
    uint64_t tag;           /* of nvmehost_reap and nvmehost_collect: that of the command of an I/O queue that has ended */
} nvmesgl_answer;

typedef struct nvmesgl_pages {
    uint32_t pages;       /* of the pool: the sum of the next four */
    uint32_t free_pages;
    uint32_t queue_pages;
    uint32_t chain_pages;
    uint32_t data_pages;
    bool trusted;         /* nothing was forged since the opening or the last reset */
    uint32_t reserved[4]; /* 0 */
} nvmesgl_pages;

enum nvmesgl_owner_kind {
    NVMESGL_FREE = 0,
    NVMESGL_SUBMISSION_QUEUE = 1,
    NVMESGL_COMPLETION_QUEUE = 2,
    NVMESGL_DATA = 3,
    NVMESGL_CHAIN = 4
};

typedef struct nvmesgl_page_owner {
    uint32_t kind; /* enum nvmesgl_owner_kind */
    uint16_t q;        /* the queue, or the command's queue */
    uint16_t cid;      /* the command's identifier */
    uint32_t reserved[4]; /* 0 */
} nvmesgl_page_owner;

/* Memory ---------------------------------------------------------------------------------------------------------- */

/* All memory from now on comes from this array, and none from malloc. What came from malloc before goes back there. A second call takes a new array: only
 * where nothing of the first is in use. It has one user at a time (rule 5). A program without malloc links libnvmesgl_array.a, which has this memory alone. */
void nvmesgl_heap_array(void *array, size_t bytes);

/* Opening and closing --------------------------------------------------------------------------------------------- */

/* Opens a closed handle over the bytes of an image, which are copied; with image_len 0 over options->blocks blocks of zeros.
 * Refused, the first that holds: OPEN_HANDLE or NO_HANDLE, BAD_SIZE, BAD_OPTION, BAD_IMAGE, BAD_CONFIG, NO_PAGES (the queues' rings need more pages than
 * there are), MEMORY. */
uint32_t nvmesgl_open(nvmesgl *, const nvmesgl_options *, const uint8_t *image, size_t image_len, nvmesgl_answer *) NVMESGL_CALL(1, 2, 5);

/* Closes a handle. One that is closed stays so; of a null pointer, and of a handle of another kind, nothing is done. */
void nvmesgl_close(nvmesgl *);

/* The driver: a command, named by its queue and identifier -------------------------------------------------------- */

/* Below, "Refused" names the codes of a handle that is open, in the order in which they are looked for. But where memory is refused for the copy
 * of pieces or bytes (nvmesgl_reserve and nvmesgl_reserve_request, after BAD_PIECE; nvmesgl_fill), MEMORY comes before what would be looked for next. */

/* Reserves a command of namespace 1, with no flag, of blocks of 512 bytes from slba on: an identifier (answer.cid) and pages (data_pages, chain_pages), as a draft.
 * Refused: NO_KIND, BAD_PIECE, NO_QUEUE, DELETING, a fault of the request (TOO_MANY_PIECES to LENGTH_MISMATCH), NO_IDENTIFIER, NO_PAGES, MEMORY. */
uint32_t nvmesgl_reserve(nvmesgl *, uint16_t q, uint32_t kind, uint64_t slba, uint32_t blocks, const nvmesgl_piece *pieces, size_t piece_count,
                         nvmesgl_answer *) NVMESGL_CALL(1, 8);
/* Reserves a command as nvmesgl_reserve does, of any namespace and with any flags. The modelled controller has namespace 1 alone: a command of another ends with 0:0B. It
 * does the same with a flag as without. Its blocks have 512 bytes: OTHER_BLOCKS, before NO_IDENTIFIER, where a request says otherwise. Refused: BAD_SIZE, BAD_OPTION, and
 * then as nvmesgl_reserve. */
uint32_t nvmesgl_reserve_request(nvmesgl *, uint16_t q, const nvmesgl_request *, const nvmesgl_piece *pieces, size_t piece_count, nvmesgl_answer *) NVMESGL_CALL(1, 3, 6);
/* Fills the draft of a Write, a Compare or a Deallocate with the bytes, and zeros after them; a draft that was built may be filled again.
 * Refused: NO_VALUE, NOT_A_SOURCE, WRONG_LENGTH, MEMORY. */
uint32_t nvmesgl_fill(nvmesgl *, uint16_t q, uint16_t cid, const uint8_t *bytes, size_t byte_count, nvmesgl_answer *) NVMESGL_CALL(1, 6);
/* Lays the draft's chain. Refused: NO_VALUE, MEMORY. */
uint32_t nvmesgl_build(nvmesgl *, uint16_t q, uint16_t cid, nvmesgl_answer *) NVMESGL_CALL(1, 4);
/* Submits a draft that is built; a ticket takes its place. Refused: NO_VALUE, NOT_BUILT, QUEUE_GONE, QUEUE_FULL. */
uint32_t nvmesgl_submit(nvmesgl *, uint16_t q, uint16_t cid, nvmesgl_answer *) NVMESGL_CALL(1, 4);
/* Cancels a draft: its pages and its identifier are free. Refused: NO_VALUE. */
uint32_t nvmesgl_cancel(nvmesgl *, uint16_t q, uint16_t cid, nvmesgl_answer *) NVMESGL_CALL(1, 4);
/* Collects a command that has ended, by its ticket: answer.sct and answer.sc, and what its completion hints at (answer.retry_delay, answer.more,
 * answer.do_not_retry). Refused: NO_VALUE, NOT_YET, MEMORY. */
uint32_t nvmesgl_collect(nvmesgl *, uint16_t q, uint16_t cid, nvmesgl_answer *) NVMESGL_CALL(1, 4);
/* Gathers the bytes of a finished Read into the front of a buffer: answer.bytes; none of another. What a Read that failed did not bring is zeros.
 * Refused: NO_VALUE, MEMORY, TOO_SHORT (the buffer stays as it was). */
uint32_t nvmesgl_gather(nvmesgl *, uint16_t q, uint16_t cid, uint8_t *buffer, size_t buffer_len, nvmesgl_answer *) NVMESGL_CALL(1, 6);
/* Releases a finished command: its pages and its identifier are free. Refused: NO_VALUE. */
uint32_t nvmesgl_release(nvmesgl *, uint16_t q, uint16_t cid, nvmesgl_answer *) NVMESGL_CALL(1, 4);
/* Sends an Abort of a submitted command on queue 0: answer.cid. It is not rung.
 * Refused: NO_QUEUE, WRONG_STATE, NO_SUCH_COMMAND, NO_IDENTIFIER, QUEUE_FULL. */
uint32_t nvmesgl_abort(nvmesgl *, uint16_t q, uint16_t cid, nvmesgl_answer *) NVMESGL_CALL(1, 4);

/* The driver: a queue --------------------------------------------------------------------------------------------- */

/* Rings the tail doorbell. Refused: NO_QUEUE. */
uint32_t nvmesgl_ring(nvmesgl *, uint16_t q, nvmesgl_answer *) NVMESGL_CALL(1, 3);
/* Takes one completion: answer.state says what was found. Refused: NO_QUEUE. */
uint32_t nvmesgl_reap(nvmesgl *, uint16_t q, nvmesgl_answer *) NVMESGL_CALL(1, 3);
/* Each sends an admin command on queue 0 (answer.cid), which is not rung. Refused: NO_QUEUE, WRONG_STATE, OUTSTANDING (create_cq alone),
 * NO_IDENTIFIER, NO_RUN (create_cq and create_sq), QUEUE_FULL. */
uint32_t nvmesgl_delete_sq(nvmesgl *, uint16_t q, nvmesgl_answer *) NVMESGL_CALL(1, 3);
uint32_t nvmesgl_delete_cq(nvmesgl *, uint16_t q, nvmesgl_answer *) NVMESGL_CALL(1, 3);
uint32_t nvmesgl_create_cq(nvmesgl *, uint16_t q, nvmesgl_answer *) NVMESGL_CALL(1, 3);
uint32_t nvmesgl_create_sq(nvmesgl *, uint16_t q, nvmesgl_answer *) NVMESGL_CALL(1, 3);
/* Gives back the submission ring of a queue whose deletion was reaped. Refused: NOT_DELETED, NOT_DRAINED. */
uint32_t nvmesgl_retire(nvmesgl *, uint16_t q, nvmesgl_answer *) NVMESGL_CALL(1, 3);
/* Overwrites the 16 bytes of a completion slot, as a bad controller may. Refused: NO_QUEUE, NO_SLOT. */
uint32_t nvmesgl_forge(nvmesgl *, uint16_t q, uint16_t slot, const uint8_t bytes[16], nvmesgl_answer *) NVMESGL_CALL(1, 4, 5);

/* The controller -------------------------------------------------------------------------------------------------- */

/* Fetches an entry that was rung: answer.cid. Refused: IDLE, SLOT_OUT, FULL, SLOT_OUT, MEMORY. */
uint32_t nvmesgl_fetch(nvmesgl *, uint16_t q, nvmesgl_answer *) NVMESGL_CALL(1, 3);
/* Does one unit of a fetched command's list: answer.state. Refused: NO_JOB, NOTHING (its verdict stands already, as that of a command which the fetch itself
 * found at fault: it is completed at once). */
uint32_t nvmesgl_walk(nvmesgl *, uint16_t q, uint16_t cid, nvmesgl_answer *) NVMESGL_CALL(1, 4);
/* Posts a completion. Refused: NO_JOB, WALKING, WAITS, FULL, SLOT_OUT. */
uint32_t nvmesgl_complete(nvmesgl *, uint16_t q, uint16_t cid, nvmesgl_answer *) NVMESGL_CALL(1, 4);
/* Resets the controller: every command that was submitted has ended, aborted. It is done always. */
uint32_t nvmesgl_reset(nvmesgl *, nvmesgl_answer *) NVMESGL_CALL(1, 2);
/* Does all that the controller can do, of every queue, each step as one of the three calls above would: answer.count says how many commands it completed, and
 * answer.state is NVMESGL_SERVE_MORE where it stopped after 65,536 steps with more to do. Refused: MEMORY, and after a forgery what a step is refused for;
 * answer.count says what was done before. */
uint32_t nvmesgl_serve(nvmesgl *, nvmesgl_answer *) NVMESGL_CALL(1, 2);

/* Whole commands -------------------------------------------------------------------------------------------------- */

/* Each carries a command of the whole blocks of a buffer, from block slba on, through all its steps: it reserves, fills, builds, submits and rings; has the controller
 * serve every queue; reaps the queue until the command has ended (other commands of the queue that end meanwhile are collected as always); collects, gathers and
 * releases. NVMESGL_DONE says that it ended: answer.sct and answer.sc tell how. The buffer has 1 to 2,048 blocks of 512 bytes.
 * Refused: what nvmesgl_reserve, nvmesgl_fill, nvmesgl_build and nvmesgl_submit are refused for, and nothing of the command is left; BAD_COUNT for fewer than 512 bytes and for
 * more than 1,048,576, LENGTH_MISMATCH where the last block is cut short. Or answer.state is NVMESGL_LEFT: the command answer.cid is outstanding, and the code is that of the step that could not be
 * made (NOT_YET: it has not ended, as where another command's completion was forged; MEMORY); go on by single calls. */
uint32_t nvmesgl_read(nvmesgl *, uint16_t q, uint64_t slba, uint8_t *buffer, size_t buffer_len, nvmesgl_answer *) NVMESGL_CALL(1, 6);
uint32_t nvmesgl_write(nvmesgl *, uint16_t q, uint64_t slba, const uint8_t *bytes, size_t byte_count, nvmesgl_answer *) NVMESGL_CALL(1, 6);
uint32_t nvmesgl_compare(nvmesgl *, uint16_t q, uint64_t slba, const uint8_t *bytes, size_t byte_count, nvmesgl_answer *) NVMESGL_CALL(1, 6);
/* The same of several buffers, which are as one: the bytes of the first, then those of the second, and so on. Only all of them together are whole blocks. A Read writes
 * the buffers, which overlap nothing; a Write and a Compare read them, and one may stand there twice. The array of buffers is read alone. */
uint32_t nvmesgl_readv(nvmesgl *, uint16_t q, uint64_t slba, const nvmesgl_iovec *buffers, size_t buffer_count, nvmesgl_answer *) NVMESGL_CALL(1, 6);
uint32_t nvmesgl_writev(nvmesgl *, uint16_t q, uint64_t slba, const nvmesgl_iovec *buffers, size_t buffer_count, nvmesgl_answer *) NVMESGL_CALL(1, 6);
uint32_t nvmesgl_comparev(nvmesgl *, uint16_t q, uint64_t slba, const nvmesgl_iovec *buffers, size_t buffer_count, nvmesgl_answer *) NVMESGL_CALL(1, 6);

/* Looks: they change nothing -------------------------------------------------------------------------------------- */

uint32_t nvmesgl_counts(nvmesgl *, nvmesgl_pages *) NVMESGL_CALL(1, 2);
/* Refused: NO_PAGE. */
uint32_t nvmesgl_owner(nvmesgl *, uint32_t page, nvmesgl_page_owner *) NVMESGL_CALL(1, 3);

#ifdef __cplusplus
}
#endif
#endif

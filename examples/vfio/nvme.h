/*
 * An NVMe function over VFIO, driven by the host of nvmehost.h: the controller is brought up, its queues are made, and commands go there and come back.
 *
 * The device works in place, in the pages of the host's pool, and the IOMMU holds it to what the host says that it may do (nvmehost_may): it reads submission rings, lists
 * and the data of Writes and Compares, and writes completion rings and the data of Reads. A command's pages are mapped as it is submitted, and taken back as its
 * completion is reaped. A call that fails says why in a sentence and ends the program.
 */
#ifndef NVME_FUNCTION_H
#define NVME_FUNCTION_H

#include "nvmehost.h"
#include "vfio.h"

enum { NVME_PAGE = 4096, NVME_MOST_RUNS = 1100 };

struct nvme_options {
    const char *address; /* of the PCI function, such as 0000:01:00.0 */
    uint32_t nsid;       /* of the namespace */
    uint32_t queues;     /* I/O queues, from number 1 on: 1 to 63 */
    uint32_t pages;      /* of the pool, */
    uint32_t entries;    /* of each ring, and */
    uint32_t segment;    /* of a list's segment: as in nvmehost_options */
    bool open;           /* no judge: the device reaches the whole pool always */
    bool mirror;         /* the device works in pages of its own, from and to which those of the pool are copied */
    bool interrupts;     /* completions come with MSI-X */
};

struct nvme {
    struct nvme_options options;
    struct vfio vfio;
    nvmehost host;
    nvmehost_memory memory; /* the device finds page p at memory.at + 4,096 p, */
    unsigned stride;        /* of the doorbells: CAP.DSTRD */
    double patience;        /* seconds that the controller may take to start and to stop */
    unsigned long admin_commands;
    uint32_t flags; /* of each command that is reserved: enum nvmesgl_flag, added up */
    nvmehost_run runs[NVME_MOST_RUNS];

    /* What Identify said. */
    char model[41];
    char firmware[9];
    uint32_t block;  /* bytes of a block */
    uint64_t blocks; /* of the namespace */
    uint32_t most;   /* bytes of a command at most */
    uint32_t grain;  /* bytes that each address and length of a list is a multiple of: 1 or 4 */
    bool compares;   /* whether it has Compare, */
    bool deallocates; /* and Dataset Management */
};

/* Ends the program with the call's name and what the code says, unless the call was done. */
void nvme_done(uint32_t code, const char *call);

/* Opens the function and the host, starts the controller, asks what it is, and makes its queues. */
void nvme_start(struct nvme *, const struct nvme_options *);

/* Stops the controller. Nothing is mapped for it any more. */
void nvme_stop(struct nvme *);

/* Stops the controller, and the host begins again: how many bytes of the pool the device reached until then. Every command that was submitted has ended, with status 0:08; each is
 * to be collected and released before nvme_resume. */
uint64_t nvme_halt(struct nvme *);

/* Starts the controller again, and makes its queues. */
void nvme_resume(struct nvme *);

/* Does an admin command of the caller's own while the I/O queues rest, and puts the bytes of its page, if any come, at data. What it tells is its double word; where it fails, the
 * program ends with this sentence. */
uint32_t nvme_admin(struct nvme *, const nvmesgl_admin *, uint8_t *data, const char *failure);

/* Reserves a command of blocks of the namespace. Its code. */
uint32_t nvme_reserve(struct nvme *, uint16_t q, uint32_t kind, uint64_t slba, uint32_t blocks, const nvmesgl_piece *pieces, size_t count, uint16_t *cid);

/* Where a data piece of a command lies, to be written from reserve to submit and read from collect to release. Not of a mirrored pool. */
uint8_t *nvme_piece(struct nvme *, uint16_t q, uint16_t cid, uint32_t piece, uint32_t *len);

/* Copies bytes into the data of a draft, and out of that of a finished Read. */
void nvme_put(struct nvme *, uint16_t q, uint16_t cid, const uint8_t *bytes, uint32_t size);
void nvme_get(struct nvme *, uint16_t q, uint16_t cid, uint8_t *bytes, uint32_t size);

/* Builds and submits a draft, and lets the device reach its pages. It hears of it by nvme_ring. */
void nvme_submit(struct nvme *, uint16_t q, uint16_t cid);

/* Submits a Flush: its identifier. */
uint16_t nvme_submit_flush(struct nvme *, uint16_t q);

/* Rings the tail doorbell of a queue. */
void nvme_ring(struct nvme *, uint16_t q);

/* Takes a completion of a queue, where there is one, and takes back the pages of the command that it ends. */
bool nvme_reap(struct nvme *, uint16_t q, nvmesgl_answer *);

/* Takes completions of a queue until this command has ended, and no other may end. */
void nvme_wait(struct nvme *, uint16_t q, uint16_t cid);

/* The 64 bytes of the entry that was submitted last: as the device will read them, and overwritten before the queue is rung. What the host promises holds whatever stands in the pool. */
void nvme_read_entry(struct nvme *, uint16_t q, uint32_t entry[16]);
void nvme_write_entry(struct nvme *, uint16_t q, const uint32_t entry[16]);

/* The host's look at a queue. */
nvmehost_queue nvme_look(struct nvme *, uint16_t q);

#endif

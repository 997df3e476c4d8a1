/* The version, and codes and statuses for people. */
#include "nvmesgl.h"

const char *nvmesgl_version(void) { return NVMESGL_VERSION; }

const char *nvmesgl_text(uint32_t code) {
    switch (code) {
    case NVMESGL_DONE: return "done";
    case NVMESGL_CLOSED_HANDLE: return "the handle is closed";
    case NVMESGL_OPEN_HANDLE: return "the handle is open already";
    case NVMESGL_NO_VALUE: return "no value of the fitting kind has this queue and identifier";
    case NVMESGL_NO_KIND: return "no kind of command has this number";
    case NVMESGL_TOO_SHORT: return "the buffer is too short";
    case NVMESGL_NO_PAGE: return "the pool has no such page";
    case NVMESGL_BAD_SIZE: return "the options or the request have another size";
    case NVMESGL_BAD_OPTION: return "a reserved word of the options or the request is not 0, or a flag is unknown";
    case NVMESGL_BAD_IMAGE: return "an image is 1 to 65,536 whole blocks of 512 bytes";
    case NVMESGL_NO_QUEUE: return "no queue of this number takes the call";
    case NVMESGL_DELETING: return "the queue is being deleted";
    case NVMESGL_BAD_CONFIG: return "a number of the options is outside its limits";
    case NVMESGL_NO_IDENTIFIER: return "each identifier of the queue is outstanding";
    case NVMESGL_NO_PAGES: return "too few pages are free";
    case NVMESGL_MEMORY: return "memory was refused";
    case NVMESGL_STRANGER: return "no record in the fitting phase belongs to the value";
    case NVMESGL_NOT_BUILT: return "the draft was not built";
    case NVMESGL_QUEUE_GONE: return "the queue takes no commands any more";
    case NVMESGL_QUEUE_FULL: return "the submission ring is full";
    case NVMESGL_NOT_YET: return "the command has not ended";
    case NVMESGL_WRONG_STATE: return "the queue's state does not allow the call";
    case NVMESGL_NO_SUCH_COMMAND: return "there is no such submitted command";
    case NVMESGL_NOT_DELETED: return "no deleted submission queue of this number waits to be retired";
    case NVMESGL_NOT_DRAINED: return "a completion waits to be reaped";
    case NVMESGL_OUTSTANDING: return "a command of the queue is outstanding";
    case NVMESGL_NO_RUN: return "no run of so many consecutive pages is free";
    case NVMESGL_NO_SLOT: return "the queue has no such slot";
    case NVMESGL_IDLE: return "there is nothing to fetch";
    case NVMESGL_SLOT_OUT: return "the slot's page is out of the store";
    case NVMESGL_FULL: return "the completion ring is full";
    case NVMESGL_NO_JOB: return "there is no such job";
    case NVMESGL_NOTHING: return "the job has nothing to walk";
    case NVMESGL_WALKING: return "the job has no verdict yet";
    case NVMESGL_WAITS: return "the job's completion waits for others";
    case NVMESGL_OTHER_BLOCKS: return "the controller has blocks of another size than the request";
    case NVMESGL_TOO_MANY_PIECES: return "a request has at most 1,024 pieces";
    case NVMESGL_EMPTY_PIECE: return "a piece has length 0";
    case NVMESGL_CROSSES_PAGE: return "a data piece passes the end of its page";
    case NVMESGL_BAD_COUNT: return "a command has 1 block to 1 MiB of them, a Deallocate 1 to 256 ranges, and a Flush none";
    case NVMESGL_HOSTS_OWN: return "the host keeps this admin command to itself";
    case NVMESGL_LENGTH_MISMATCH: return "the lengths of the pieces are not the bytes of the blocks or ranges";
    case NVMESGL_NOT_A_SOURCE: return "a Read is not filled";
    case NVMESGL_WRONG_LENGTH: return "there are more bytes than the data pieces take";
    case NVMESGL_BAD_PIECE: return "the kind of a piece is neither data nor a bucket";
    case NVMESGL_BAD_DOORBELL: return "the doorbell does not hear the value";
    case NVMESGL_POOL_TOO_LONG: return "a pool has at most 65,536 pages";
    case NVMESGL_NO_BLOCKS: return "there are not so many blocks there, or the buffer is not whole blocks";
    case NVMESGL_BAD_LENGTH: return "a call moves 1 to 4,096 bytes";
    case NVMESGL_PAGE_OUT: return "a byte is outside the pool or on a page that is out";
    case NVMESGL_NO_PIECE: return "no such command is outstanding, or it has no such data piece";
    case NVMESGL_NO_HANDLE: return "the handle is none of the kind that the call takes";
    case NVMESGL_NOT_LENT: return "the command wants blocks that are not lent";
    case NVMESGL_OTHER_CALL: return "the call is of a controller of the other kind: one with an image, or one whose blocks are lent";
    case NVMESGL_DISK: return "the disk failed to read or to write blocks";
    default: return "no such code";
    }
}

const char *nvmesgl_status_text(uint8_t sct, uint8_t sc) {
    switch (sct << 8 | sc) {
    case 0x000: return "Successful Completion";
    case 0x001: return "Invalid Command Opcode";
    case 0x002: return "Invalid Field in Command";
    case 0x003: return "Command ID Conflict";
    case 0x004: return "Data Transfer Error";
    case 0x007: return "Command Abort Requested";
    case 0x008: return "Command Aborted due to SQ Deletion";
    case 0x00B: return "Invalid Namespace or Format";
    case 0x00D: return "Invalid SGL Segment Descriptor";
    case 0x00E: return "Invalid Number of SGL Descriptors";
    case 0x00F: return "Data SGL Length Invalid";
    case 0x011: return "SGL Descriptor Type Invalid";
    case 0x080: return "LBA Out of Range";
    case 0x100: return "Completion Queue Invalid";
    case 0x101: return "Invalid Queue Identifier";
    case 0x102: return "Invalid Queue Size";
    case 0x10C: return "Invalid Queue Deletion";
    case 0x285: return "Compare Failure";
    default: return "unnamed status";
    }
}

/* Plays a script of steps (docs/SCRIPT.md) by the library, and writes what `nvmesgl steps` writes. Standard input has the script; the five
 * numbers of the options may be given: PAGES QUEUES ENTRIES SEGMENT BLOCKS. The script has no fault. */
#include "nvmesgl.h"

#include <stdio.h>
#include <stdlib.h>
#include <string.h>

#ifdef ROOM
static unsigned char room[ROOM];
#endif

static nvmesgl machine = NVMESGL_CLOSED;
static nvmesgl_answer answer;
static uint8_t bytes[1 << 20];
static nvmesgl_piece pieces[2048];
static char line[20000];

static const char *const names[] = {
    [NVMESGL_NO_VALUE] = "NoValue", [NVMESGL_NO_QUEUE] = "NoQueue", [NVMESGL_DELETING] = "Deleting", [NVMESGL_NO_IDENTIFIER] = "NoIdentifier",
    [NVMESGL_OTHER_BLOCKS] = "OtherBlocks",
    [NVMESGL_NO_PAGES] = "NoPages", [NVMESGL_MEMORY] = "Memory", [NVMESGL_STRANGER] = "Stranger", [NVMESGL_NOT_BUILT] = "NotBuilt",
    [NVMESGL_QUEUE_GONE] = "QueueGone", [NVMESGL_QUEUE_FULL] = "QueueFull", [NVMESGL_NOT_YET] = "NotYet", [NVMESGL_WRONG_STATE] = "WrongState",
    [NVMESGL_NO_SUCH_COMMAND] = "NoSuchCommand", [NVMESGL_NOT_DELETED] = "NotDeleted", [NVMESGL_NOT_DRAINED] = "NotDrained",
    [NVMESGL_OUTSTANDING] = "Outstanding", [NVMESGL_NO_RUN] = "NoRun", [NVMESGL_NO_SLOT] = "NoSlot", [NVMESGL_IDLE] = "Idle",
    [NVMESGL_SLOT_OUT] = "SlotOut", [NVMESGL_FULL] = "Full", [NVMESGL_NO_JOB] = "NoJob", [NVMESGL_NOTHING] = "Nothing",
    [NVMESGL_WALKING] = "Walking", [NVMESGL_WAITS] = "Waits", [NVMESGL_TOO_MANY_PIECES] = "Bad TooManyPieces",
    [NVMESGL_EMPTY_PIECE] = "Bad EmptyPiece", [NVMESGL_CROSSES_PAGE] = "Bad CrossesPage", [NVMESGL_BAD_COUNT] = "Bad BadCount",
    [NVMESGL_LENGTH_MISMATCH] = "Bad LengthMismatch", [NVMESGL_HOSTS_OWN] = "Bad HostsOwn", [NVMESGL_NOT_A_SOURCE] = "NotASource", [NVMESGL_WRONG_LENGTH] = "WrongLength",
};

static void touched(void) {
    printf(" touched %s", answer.touched_count == 0 ? "-" : "");
    for (uint32_t i = 0; i < answer.touched_count; i++) printf("%s%u", i == 0 ? "" : ",", answer.touched[i]);
    printf("\n");
}

static void status(const char *before) { printf("%s%u:%02X", before, answer.sct, answer.sc); }

static void runs(size_t n) {
    if (n == 0) printf("-");
    for (size_t i = 0; i < n;) {
        size_t j = i;
        while (j < n && bytes[j] == bytes[i]) j++;
        printf("%s%02X*%zu", i == 0 ? "" : ",", bytes[i], j - i);
        i = j;
    }
    printf("\n");
}

static void refused(uint32_t code) {
    printf("refused %s", names[code]);
    if (code == NVMESGL_NO_PAGES) printf(" need %u free %u", answer.need, answer.free);
    if (code == NVMESGL_NO_RUN) printf(" need %u", answer.need);
    printf("\n");
}

static void owners(void) {
    nvmesgl_pages all;
    nvmesgl_page_owner was = {0, 0, 0, {0}}, is = {0, 0, 0, {0}};
    uint32_t from = 0;
    if (nvmesgl_counts(&machine, &all) != NVMESGL_DONE) exit(3);
    for (uint32_t p = 0; p <= all.pages; p++) {
        uint32_t code = nvmesgl_owner(&machine, p, &is);
        if (code != (p < all.pages ? NVMESGL_DONE : NVMESGL_NO_PAGE)) exit(3);
        if (p == 0) was = is;
        if (p < all.pages && was.kind == is.kind && was.q == is.q && was.cid == is.cid) continue;
        printf("%u-%u ", from, p - 1);
        switch (was.kind) {
        case NVMESGL_FREE: printf("free\n"); break;
        case NVMESGL_SUBMISSION_QUEUE: printf("queue %u sq\n", was.q); break;
        case NVMESGL_COMPLETION_QUEUE: printf("queue %u cq\n", was.q); break;
        case NVMESGL_DATA: printf("command %u %u data\n", was.q, was.cid); break;
        default: printf("command %u %u chain\n", was.q, was.cid); break;
        }
        was = is;
        from = p;
    }
}

static size_t hex(const char *text) {
    size_t n = 0;
    for (; text[0] != 0 && text[1] != 0; text += 2) {
        char pair[3] = {text[0], text[1], 0};
        bytes[n++] = (uint8_t)strtoul(pair, NULL, 16);
    }
    return n;
}

static char *word(void) { return strtok(NULL, " \t\r\n"); }
static uint64_t number(void) {
    char *w = word();
    return w == NULL ? 0 : strtoull(w, NULL, 10);
}

static uint32_t reserve(uint16_t q) {
    const char *kind = word();
    nvmesgl_request request = NVMESGL_REQUEST;
    static const char *const kinds[] = {"read", "write", "compare", "write_zeroes", "verify", "flush", "deallocate"}; /* as enum nvmesgl_kind */
    while (strcmp(kinds[request.kind], kind) != 0) request.kind++;
    request.slba = number();
    request.blocks = (uint32_t)number();
    size_t n = 0;
    char *w;
    while ((w = word()) != NULL && strchr("nbfl", w[0]) == NULL) {
        nvmesgl_piece piece = {0, 0, w[0] == 'x'};
        if (piece.kind == NVMESGL_BUCKET) {
            piece.len = (uint32_t)strtoul(w + 1, NULL, 10);
        } else {
            char *plus;
            piece.offset = (uint32_t)strtoul(w, &plus, 10);
            piece.len = (uint32_t)strtoul(plus + 1, NULL, 10);
        }
        pieces[n++] = piece;
    }
    if (w == NULL) return nvmesgl_reserve(&machine, q, request.kind, request.slba, request.blocks, n == 0 ? NULL : pieces, n, &answer);
    for (; w != NULL; w = word()) {
        if (w[0] == 'n') request.nsid = (uint32_t)number();
        else if (w[0] == 'b') request.block_bytes = (uint32_t)number();
        else request.flags |= w[0] == 'f' ? NVMESGL_FUA : NVMESGL_LIMITED_RETRY;
    }
    return nvmesgl_reserve_request(&machine, q, &request, n == 0 ? NULL : pieces, n, &answer);
}

#define IS(name) (strcmp(verb, #name) == 0)

static void step(unsigned at, const char *verb) {
    uint32_t code;
    if (IS(owners)) {
        owners();
        return;
    }
    printf("%u %s ", at, verb);
    if (IS(reset)) {
        code = nvmesgl_reset(&machine, &answer);
        if (code == 0) printf("ok\n");
        else refused(code);
        return;
    }
    uint16_t q = (uint16_t)number();
    if (IS(reserve)) {
        code = reserve(q);
        if (code == 0) printf("q %u cid %u data %u chain %u\n", q, answer.cid, answer.data_pages, answer.chain_pages);
    } else if (IS(ring) || IS(retire)) {
        code = IS(ring) ? nvmesgl_ring(&machine, q, &answer) : nvmesgl_retire(&machine, q, &answer);
        if (code == 0) printf("ok\n");
    } else if (IS(fetch)) {
        code = nvmesgl_fetch(&machine, q, &answer);
        if (code == 0) {
            printf("cid %u", answer.cid);
            touched();
        }
    } else if (IS(reap)) {
        code = nvmesgl_reap(&machine, q, &answer);
        if (code == 0) switch (answer.state) {
            case NVMESGL_REAP_EMPTY: printf("empty\n"); break;
            case NVMESGL_REAP_DONE: printf("done cid %u", answer.cid); status(" status "); printf("\n"); break;
            case NVMESGL_REAP_ADMIN_DONE: printf("admin cid %u", answer.cid); status(" status "); printf(" dw0 %u\n", answer.dw0); break;
            case NVMESGL_REAP_WRONG_QUEUE: printf("rejected WrongQueue\n"); break;
            case NVMESGL_REAP_BAD_HEAD: printf("rejected BadHead\n"); break;
            default: printf("rejected UnknownId\n"); break;
            }
    } else if (IS(delete_sq) || IS(delete_cq) || IS(create_cq) || IS(create_sq)) {
        code = IS(delete_sq)   ? nvmesgl_delete_sq(&machine, q, &answer)
               : IS(delete_cq) ? nvmesgl_delete_cq(&machine, q, &answer)
               : IS(create_cq) ? nvmesgl_create_cq(&machine, q, &answer)
                               : nvmesgl_create_sq(&machine, q, &answer);
        if (code == 0) printf("cid %u\n", answer.cid);
    } else {
        uint16_t cid = (uint16_t)number();
        if (IS(fill)) {
            size_t n = hex(word());
            code = nvmesgl_fill(&machine, q, cid, bytes, n, &answer);
            if (code == 0) printf("ok\n");
        } else if (IS(forge)) {
            hex(word());
            code = nvmesgl_forge(&machine, q, cid, bytes, &answer);
            if (code == 0) printf("ok\n");
        } else if (IS(walk)) {
            code = nvmesgl_walk(&machine, q, cid, &answer);
            if (code == 0) {
                if (answer.state == NVMESGL_WALK_FAULT) status("fault ");
                else printf(answer.state == NVMESGL_WALK_MORE ? "more" : "end");
                touched();
            }
        } else if (IS(complete)) {
            code = nvmesgl_complete(&machine, q, cid, &answer);
            if (code == 0) {
                printf("ok");
                touched();
            }
        } else if (IS(collect)) {
            code = nvmesgl_collect(&machine, q, cid, &answer);
            if (code == 0) {
                status("status ");
                printf("\n");
            }
        } else if (IS(gather)) {
            code = nvmesgl_gather(&machine, q, cid, bytes, 0, &answer);
            if (code == NVMESGL_TOO_SHORT) code = nvmesgl_gather(&machine, q, cid, bytes, answer.bytes, &answer);
            if (code == 0) runs(answer.bytes);
        } else if (IS(abort)) {
            code = nvmesgl_abort(&machine, q, cid, &answer);
            if (code == 0) printf("cid %u\n", answer.cid);
        } else {
            code = IS(build)    ? nvmesgl_build(&machine, q, cid, &answer)
                   : IS(submit) ? nvmesgl_submit(&machine, q, cid, &answer)
                   : IS(cancel) ? nvmesgl_cancel(&machine, q, cid, &answer)
                                : nvmesgl_release(&machine, q, cid, &answer);
            if (code == 0) printf("ok\n");
        }
    }
    if (code != 0) refused(code);
}

int main(int argc, char **argv) {
    nvmesgl_options options = NVMESGL_OPTIONS;
    nvmesgl_pages all;
    uint32_t *fields[5] = {&options.pages, &options.queues, &options.entries, &options.segment, &options.blocks};
    for (int i = 1; i < argc && i <= 5; i++) *fields[i - 1] = (uint32_t)strtoul(argv[i], NULL, 10);
#ifdef ROOM
    nvmesgl_heap_array(room, sizeof room);
#endif
    uint32_t code = nvmesgl_open(&machine, &options, NULL, 0, &answer);
    if (code != NVMESGL_DONE) {
        fprintf(stderr, "open: %s\n", nvmesgl_text(code));
        return 2;
    }
    for (unsigned at = 1; fgets(line, sizeof line, stdin) != NULL; at++) {
        char *verb = strtok(line, " \t\r\n");
        if (verb != NULL && verb[0] != '#') step(at, verb);
    }
    if (nvmesgl_counts(&machine, &all) != NVMESGL_DONE) exit(3);
    printf("counts free %u queue %u chain %u data %u\n", all.free_pages, all.queue_pages, all.chain_pages, all.data_pages);
    nvmesgl_close(&machine);
    return 0;
}

/* Arbitrary calls of a host whose device writes arbitrary bytes: host SEED CALLS. A call that is refused changes neither a byte of the pool nor a page's owner, nor what a device may do
 * with it, nor what the host knows of its queues; whatever the device writes, the classes of pages add up to the pool, each page has the owner that they count and the right that its owner
 * asks for, and the runs of a command and the rings of a queue are the pages that it owns. */
#include "arbitrary.h"
#include "nvmehost.h"

#include <stdio.h>
#include <stdlib.h>
#include <string.h>

enum { PAGE = 4096, PAGES = 24, QUEUES = 3, ENTRIES = 4 };

/* What can be seen of a host without changing it. */
typedef struct seen {
    uint8_t bytes[PAGES][PAGE];
    uint32_t codes[PAGES];
    nvmesgl_page_owner owners[PAGES];
    uint32_t rights[PAGES];
    nvmehost_pages pages;
    nvmehost_queue queues[QUEUES];
} seen;

static seen before, after;
static nvmehost host = NVMEHOST_CLOSED;
static nvmesgl_answer answer;
static nvmehost_doorbell bell;
static unsigned long counts[64], writes, rejected;

static void fail(const char *why, uint32_t code) {
    printf("%s: %s (%u)\n", why, nvmesgl_text(code), code);
    exit(1);
}

static void see(seen *s) {
    memset(s, 0, sizeof *s);
    for (uint32_t p = 0; p < PAGES; p++) {
        s->codes[p] = nvmehost_read(&host, (uint64_t)p * PAGE, s->bytes[p], PAGE);
        if (s->codes[p] != NVMESGL_DONE && s->codes[p] != NVMESGL_PAGE_OUT) fail("a page is read", s->codes[p]);
        uint32_t code = nvmehost_owner(&host, p, &s->owners[p]);
        if (code != NVMESGL_DONE) fail("an owner", code);
        code = nvmehost_may(&host, p, &s->rights[p]);
        if (code != NVMESGL_DONE) fail("a right", code);
    }
    uint32_t code = nvmehost_counts(&host, &s->pages);
    if (code != NVMESGL_DONE) fail("counts", code);
    for (uint16_t q = 0; q < QUEUES; q++) {
        nvmehost_queue found;
        code = nvmehost_look(&host, q, &found);
        if (code != NVMESGL_DONE) fail("a queue", code);
        s->queues[q].state = found.state;
        s->queues[q].submission_tail = found.submission_tail;
        s->queues[q].submission_head = found.submission_head;
        s->queues[q].completion_head = found.completion_head;
        s->queues[q].phase = found.phase;
        s->queues[q].submission_page = found.submission_page;
        s->queues[q].completion_page = found.completion_page;
        s->queues[q].submission_pages = found.submission_pages;
        s->queues[q].completion_pages = found.completion_pages;
    }
}

/* The owners are those that are counted, and each page that is out is a command's. */
static void recount(const seen *s) {
    uint32_t classes[5] = {0};
    for (uint32_t p = 0; p < PAGES; p++) {
        if (s->owners[p].kind > NVMESGL_CHAIN) fail("an owner of no kind", s->owners[p].kind);
        classes[s->owners[p].kind]++;
        if (s->codes[p] == NVMESGL_PAGE_OUT && s->owners[p].kind < NVMESGL_DATA) fail("a page is out that is no command's", p);
    }
    if (classes[NVMESGL_FREE] != s->pages.free_pages || classes[NVMESGL_SUBMISSION_QUEUE] + classes[NVMESGL_COMPLETION_QUEUE] != s->pages.queue_pages
        || classes[NVMESGL_DATA] != s->pages.data_pages || classes[NVMESGL_CHAIN] != s->pages.chain_pages)
        fail("the owners are not as they are counted", 0);
    if (s->pages.free_pages + s->pages.queue_pages + s->pages.data_pages + s->pages.chain_pages != s->pages.pages || s->pages.pages != PAGES)
        fail("the classes do not add up", 0);
}

/* Of each page the device may do what its owner asks for: read a submission ring, write a completion ring, and of a page that is out, or nobody's, nothing. */
static void rights(const seen *s) {
    for (uint32_t p = 0; p < PAGES; p++) {
        uint32_t right = s->rights[p], kind = s->owners[p].kind;
        if (right > NVMEHOST_WRITE) fail("a right of no kind", right);
        if ((kind == NVMESGL_FREE || s->codes[p] == NVMESGL_PAGE_OUT) && right != NVMEHOST_NOTHING) fail("a page that nobody lent", p);
        if (kind == NVMESGL_SUBMISSION_QUEUE && right != NVMEHOST_READ) fail("a submission ring that is not read", p);
        if (kind == NVMESGL_COMPLETION_QUEUE && right != NVMEHOST_WRITE) fail("a completion ring that is not written", p);
        if (kind == NVMESGL_CHAIN && right == NVMEHOST_WRITE) fail("a list that is written", p);
    }
}

/* The rings of each queue, and the runs of each command, are the pages that it owns, and no others. */
static void belongings(const seen *s) {
    uint32_t left = s->pages.pages - s->pages.free_pages;
    for (uint16_t q = 0; q < QUEUES; q++) {
        const nvmehost_queue *queue = &s->queues[q];
        for (uint32_t i = 0; i < queue->submission_pages; i++, left--)
            if (s->owners[queue->submission_page + i].kind != NVMESGL_SUBMISSION_QUEUE || s->owners[queue->submission_page + i].q != q) fail("a ring of another's", q);
        for (uint32_t i = 0; i < queue->completion_pages; i++, left--)
            if (s->owners[queue->completion_page + i].kind != NVMESGL_COMPLETION_QUEUE || s->owners[queue->completion_page + i].q != q) fail("a ring of another's", q);
        for (uint16_t cid = 0; cid < ENTRIES; cid++) {
            nvmehost_run runs[PAGES];
            size_t count;
            uint32_t code = nvmehost_runs(&host, q, cid, runs, PAGES, &count);
            if (code != NVMESGL_DONE) fail("runs", code);
            for (size_t i = 0; i < count; i++)
                for (uint32_t p = runs[i].first; p < runs[i].first + runs[i].count; p++, left--)
                    if (s->owners[p].kind < NVMESGL_DATA || s->owners[p].q != q || s->owners[p].cid != cid || s->rights[p] != runs[i].right) fail("a run of another's", p);
        }
    }
    if (left != 0) fail("a page that is owned, and in no ring and no run", left);
}

/* The device writes: any bytes anywhere, or a completion that fits now and then. */
static void device(void) {
    uint8_t bytes[PAGE];
    writes++;
    if (below(3) == 0) {
        uint32_t count = 1 + below(below(4) == 0 ? PAGE : 64);
        for (uint32_t i = 0; i < count; i++) bytes[i] = (uint8_t)below(256);
        counts[nvmehost_write(&host, below(PAGES * PAGE + 200), bytes, count)]++;
        return;
    }
    uint16_t q = (uint16_t)below(QUEUES);
    nvmehost_queue queue;
    if (nvmehost_look(&host, q, &queue) != NVMESGL_DONE) fail("a queue", 0);
    memset(bytes, 0, 16);
    bytes[8] = (uint8_t)(below(8) == 0 ? below(ENTRIES) : queue.submission_tail);
    bytes[10] = (uint8_t)(below(16) == 0 ? below(QUEUES) : q);
    bytes[12] = (uint8_t)below(ENTRIES);
    bytes[14] = (uint8_t)((queue.phase ? 1 : 0) ^ (below(32) == 0));
    if (below(6) == 0) bytes[14] = (uint8_t)(bytes[14] | below(128) << 1);
    counts[nvmehost_write(&host, (uint64_t)queue.completion_page * PAGE + 16u * queue.completion_head, bytes, 16)]++;
}

static uint32_t arbitrary(void) {
    uint16_t q = (uint16_t)below(QUEUES + 1), cid = (uint16_t)below(ENTRIES);
    uint8_t bytes[2 * PAGE] = {0};
    switch (below(23)) {
    case 0:
    case 1: {
        nvmesgl_piece pieces[4];
        uint32_t blocks = below(3), kind = below(8), each = kind == NVMESGL_DEALLOCATE ? sizeof(nvmesgl_range) : 512;
        size_t count = below(4);
        for (size_t i = 0; i < count; i++) pieces[i] = (nvmesgl_piece){8 * below(500), each * below(3), below(5) == 0};
        if (below(3) != 0) pieces[0] = (nvmesgl_piece){0, each * blocks, NVMESGL_PIECE}, count = 1;
        if (below(3) == 0) {
            nvmesgl_request request = {sizeof request - (below(20) == 0), kind, below(3), below(5), below(16), blocks, below(4) == 0 ? 256u << below(6) : 0, {0}};
            if (below(20) == 0) request.reserved[below(4)] = 1 + below(9);
            return nvmehost_reserve_request(&host, q, &request, pieces, count, below(3), &answer);
        }
        if (below(2) == 0) return nvmehost_reserve_tagged(&host, q, kind, below(16), blocks, pieces, count, below(3), &answer);
        return nvmehost_reserve(&host, q, kind, below(16), blocks, pieces, count, &answer);
    }
    case 2:
    case 3: memset(bytes, 7, sizeof bytes); return nvmehost_fill(&host, q, cid, bytes, below(2) == 0 ? 512 : below(sizeof bytes), &answer);
    case 4:
    case 5: return nvmehost_build(&host, q, cid, &answer);
    case 6:
    case 7: return nvmehost_submit(&host, q, cid, &answer);
    case 8: return below(4) == 0 ? nvmehost_cancel(&host, q, cid, &answer) : nvmehost_build(&host, q, cid, &answer);
    case 9: return nvmehost_ring(&host, q, &bell, &answer);
    case 10:
    case 11:
    case 12: {
        uint32_t code = nvmehost_reap(&host, q, &bell, &answer);
        if (code == NVMESGL_DONE && bell.rings != (answer.state != NVMESGL_REAP_EMPTY)) fail("a head is told where nothing was taken", answer.state);
        if (code == NVMESGL_DONE && answer.state >= NVMESGL_REAP_WRONG_QUEUE) rejected++;
        return code;
    }
    case 13:
    case 14: return nvmehost_collect(&host, q, cid, &answer);
    case 15: return nvmehost_gather(&host, q, cid, bytes, below(3) == 0 ? 100 : sizeof bytes, &answer);
    case 16: return nvmehost_release(&host, q, cid, &answer);
    case 17: return nvmehost_abort(&host, q, cid, &answer);
    case 18: return below(3) == 0 ? nvmehost_delete_sq(&host, q, &answer) : cid % 2 == 0 ? nvmehost_create_cq_vector(&host, q, cid, &answer) : nvmehost_create_cq(&host, q, &answer);
    case 19: return below(3) == 0 ? nvmehost_delete_cq(&host, q, &answer) : nvmehost_create_sq(&host, q, &answer);
    case 20: return nvmehost_retire(&host, q, &answer);
    case 21: {
        nvmehost_place place;
        nvmehost_run run;
        size_t count;
        return below(2) == 0 ? nvmehost_data_place(&host, q, cid, below(4), &place) : nvmehost_runs(&host, q, cid, &run, below(2), &count);
    }
    default: return below(40) == 0 ? nvmehost_reset(&host, &answer) : nvmehost_write(&host, below(PAGES) * PAGE, bytes, below(2) == 0 ? 0 : PAGE + 1);
    }
}

static void refuses_bad_use(const nvmehost_options *options) {
    uint8_t byte;
    uint32_t right;
    nvmehost_options wrong = *options;
    if (nvmehost_ring(&host, 1, &bell, &answer) != NVMESGL_CLOSED_HANDLE || bell.rings) fail("a closed handle", 0);
    if (nvmehost_read(&host, 0, &byte, 1) != NVMESGL_CLOSED_HANDLE) fail("a closed handle", 0);
    if (nvmehost_may(&host, 0, &right) != NVMESGL_CLOSED_HANDLE) fail("a closed handle", 0);
    wrong.size = 8;
    if (nvmehost_open(&host, &wrong, &answer) != NVMESGL_BAD_SIZE) fail("another size", 0);
    wrong = *options;
    wrong.reserved[2] = 1;
    if (nvmehost_open(&host, &wrong, &answer) != NVMESGL_BAD_OPTION) fail("a reserved word", 0);
    wrong = *options;
    wrong.pages = 7;
    if (nvmehost_open(&host, &wrong, &answer) != NVMESGL_BAD_CONFIG) fail("too few pages", 0);
    wrong = *options;
    wrong.pages = 8;
    wrong.queues = 64;
    if (nvmehost_open(&host, &wrong, &answer) != NVMESGL_NO_PAGES || answer.need != 130 || answer.free != 8) fail("too few pages for the rings", 0);
}

/* A request that is refused for its form leaves the host as it is; the namespace and the flags of one that is not stand in its entry. */
static void asks(const nvmehost_options *options) {
    nvmehost own = NVMEHOST_CLOSED;
    nvmesgl_piece piece = {0, 1024, NVMESGL_PIECE}, none = {0, 1024, 2};
    for (unsigned turn = 0; turn < 8; turn++) {
        if (nvmehost_open(&own, options, &answer) != NVMESGL_DONE) fail("open", 0);
        static const uint32_t codes[] = {NVMESGL_BAD_SIZE, NVMESGL_BAD_OPTION, NVMESGL_BAD_OPTION, NVMESGL_BAD_OPTION, NVMESGL_NO_KIND, NVMESGL_BAD_PIECE, NVMESGL_NO_QUEUE};
        nvmesgl_request request = {sizeof request, NVMESGL_WRITE, turn < 4 ? turn : UINT32_MAX, turn % 4, UINT64_C(0xFEDCBA9876543210), 2, turn % 2 * 512, {0}}, wrong = request;
        nvmehost_queue queue;
        uint32_t entry[16];
        /* Each is refused for the first that is wrong with it; then that is mended. */
        wrong.size = turn, wrong.reserved[turn % 4] = 1u << turn, wrong.block_bytes = 256u << turn % 2 * 5, wrong.flags = 4u << turn | turn, wrong.kind = NVMESGL_DEALLOCATE + 1 + turn;
        for (unsigned i = 0; i < 7; i++) {
            if (nvmehost_reserve_request(&own, 9, &wrong, i < 6 ? &none : &piece, 1, 0, &answer) != codes[i]) fail("a request with a fault", i);
            if (i == 0) wrong.size = sizeof wrong;
            else if (i == 1) wrong.reserved[turn % 4] = 0;
            else if (i == 2) wrong.flags = turn % 4;
            else if (i == 3) wrong.block_bytes = 1024;
            else if (i == 4) wrong.kind = NVMESGL_COMPARE;
        }
        if (nvmehost_look(&own, 1, &queue) != NVMESGL_DONE) fail("a queue", 0);
        if (nvmehost_reserve_request(&own, 1, &request, &piece, 1, turn, &answer) != NVMESGL_DONE) fail("a request", turn);
        uint16_t cid = answer.cid;
        if (nvmehost_build(&own, 1, cid, &answer) != NVMESGL_DONE || nvmehost_submit(&own, 1, cid, &answer) != NVMESGL_DONE) fail("a submission", turn);
        if (nvmehost_read(&own, (uint64_t)queue.submission_page * PAGE + 64u * queue.submission_tail, (uint8_t *)entry, sizeof entry) != NVMESGL_DONE) fail("an entry", turn);
        if ((entry[0] & 0xFF) != 1 || entry[10] != 0x76543210 || entry[11] != 0xFEDCBA98) fail("what a request asks for", turn);
        if (entry[1] != (request.nsid == 0 ? 1 : request.nsid)) fail("the namespace in an entry", entry[1]);
        if (entry[12] != (1 | (turn & 1) << 30 | (turn >> 1 & 1) << 31)) fail("the flags in an entry", entry[12]);
        if (nvmehost_reset(&own, &answer) != NVMESGL_DONE || nvmehost_collect(&own, 1, cid, &answer) != NVMESGL_DONE || answer.tag != turn) fail("the tag of a request", turn);
        nvmehost_close(&own);
    }
}

/* The blocks of a request have the bytes that it says: its pieces are as many, and its entry says how many blocks. */
static void asks_in_other_blocks(const nvmehost_options *options) {
    for (uint32_t bytes = 512; bytes <= 4096; bytes *= 2) {
        nvmehost own = NVMEHOST_CLOSED;
        nvmehost_queue queue;
        nvmesgl_piece piece = {0, 4096, NVMESGL_PIECE};
        nvmesgl_request request = {sizeof request, NVMESGL_WRITE, 1, 0, 5, 4096 / bytes, bytes, {0}};
        uint32_t entry[16];
        if (nvmehost_open(&own, options, &answer) != NVMESGL_DONE || nvmehost_look(&own, 1, &queue) != NVMESGL_DONE) fail("open", 0);
        request.blocks++;
        if (nvmehost_reserve_request(&own, 1, &request, &piece, 1, 0, &answer) != NVMESGL_LENGTH_MISMATCH) fail("a block too many", bytes);
        request.blocks = 1048576 / bytes + 1;
        if (nvmehost_reserve_request(&own, 1, &request, &piece, 1, 0, &answer) != NVMESGL_BAD_COUNT) fail("more than 1 MiB", bytes);
        request.blocks = 4096 / bytes;
        if (nvmehost_reserve_request(&own, 1, &request, &piece, 1, 0, &answer) != NVMESGL_DONE) fail("other blocks", bytes);
        uint16_t cid = answer.cid;
        if (nvmehost_build(&own, 1, cid, &answer) != NVMESGL_DONE || nvmehost_submit(&own, 1, cid, &answer) != NVMESGL_DONE) fail("a submission", bytes);
        if (nvmehost_read(&own, (uint64_t)queue.submission_page * PAGE + 64u * queue.submission_tail, (uint8_t *)entry, sizeof entry) != NVMESGL_DONE) fail("an entry", bytes);
        if (entry[10] != 5 || entry[12] != 4096 / bytes - 1) fail("the blocks in an entry", bytes);
        nvmehost_close(&own);
    }
}

/* A command that moves no data takes no page; its entry names no list, and only a Flush names no blocks. */
static void asks_without_data(const nvmehost_options *options) {
    static const uint32_t kinds[] = {NVMESGL_WRITE_ZEROES, NVMESGL_VERIFY, NVMESGL_FLUSH}, opcodes[] = {0x08, 0x0C, 0x00};
    nvmesgl_piece piece = {0, 512, NVMESGL_PIECE};
    for (unsigned i = 0; i < 3; i++) {
        uint32_t blocks = kinds[i] == NVMESGL_FLUSH ? 0 : 9, entry[16];
        nvmehost own = NVMEHOST_CLOSED;
        nvmehost_queue queue;
        if (nvmehost_open(&own, options, &answer) != NVMESGL_DONE || nvmehost_look(&own, 1, &queue) != NVMESGL_DONE) fail("open", 0);
        if (nvmehost_reserve(&own, 1, kinds[i], 0, blocks, &piece, 1, &answer) != NVMESGL_LENGTH_MISMATCH) fail("a piece without data", i);
        if (nvmehost_reserve(&own, 1, kinds[i], 0, blocks == 0 ? 1 : 0, NULL, 0, &answer) != NVMESGL_BAD_COUNT) fail("a wrong number of blocks", i);
        if (nvmehost_reserve(&own, 1, kinds[i], 0, blocks, NULL, 0, &answer) != NVMESGL_DONE || answer.data_pages != 0 || answer.chain_pages != 0) fail("a page without data", i);
        uint16_t cid = answer.cid;
        if (nvmehost_build(&own, 1, cid, &answer) != NVMESGL_DONE || nvmehost_submit(&own, 1, cid, &answer) != NVMESGL_DONE) fail("a submission", i);
        if (nvmehost_read(&own, (uint64_t)queue.submission_page * PAGE + 64u * queue.submission_tail, (uint8_t *)entry, sizeof entry) != NVMESGL_DONE) fail("an entry", i);
        if (entry[0] != (opcodes[i] | (uint32_t)cid << 16) || entry[1] != 1 || entry[12] != (blocks == 0 ? 0 : 8)) fail("an entry without data", i);
        for (unsigned word = 2; word < 16; word++)
            if (word != 12 && entry[word] != 0) fail("a word of an entry without data", word);
        nvmehost_close(&own);
    }
}

/* An admin command of the caller's own goes through queue 0 as any command: its entry has what was asked for and names its page, which the device may write, and its bytes are gathered. */
static void asks_of_the_admin_queue(const nvmehost_options *options) {
    nvmehost own = NVMEHOST_CLOSED;
    nvmehost_queue queue;
    nvmehost_doorbell bell;
    nvmehost_run run;
    size_t runs;
    uint8_t page[PAGE], back[PAGE];
    uint32_t entry[16], completion[4] = {77, 0, 1, 1u << 16};
    nvmesgl_admin asked = {sizeof asked, 0x06, 3, NVMESGL_PAGE_WRITTEN, PAGE, 1, 2, 3, 4, 5, 6, 0}, wrong = asked;
    static const uint32_t codes[] = {NVMESGL_BAD_SIZE, NVMESGL_BAD_OPTION, NVMESGL_NO_KIND, NVMESGL_NO_KIND, NVMESGL_CROSSES_PAGE, NVMESGL_LENGTH_MISMATCH, NVMESGL_HOSTS_OWN};
    if (nvmehost_open(&own, options, &answer) != NVMESGL_DONE || nvmehost_look(&own, 0, &queue) != NVMESGL_DONE) fail("open", 0);
    wrong.size = 44, wrong.reserved = 1, wrong.opcode = 256, wrong.page = 3, wrong.bytes = 4097;
    for (unsigned i = 0; i < 7; i++) {
        if (nvmehost_reserve_admin(&own, &wrong, 0, &answer) != codes[i]) fail("an admin command with a fault", i);
        if (i == 0) wrong.size = sizeof wrong;
        else if (i == 1) wrong.reserved = 0;
        else if (i == 2) wrong.opcode = 0x01;
        else if (i == 3) wrong.page = NVMESGL_PAGE_READ;
        else if (i == 4) wrong.bytes = 0;
        else if (i == 5) wrong.bytes = PAGE;
    }
    if (nvmehost_reserve_admin(&own, &asked, 9, &answer) != NVMESGL_DONE || answer.data_pages != 1 || answer.chain_pages != 0) fail("an admin command", 0);
    uint16_t cid = answer.cid;
    if (nvmehost_fill(&own, 0, cid, page, 1, &answer) != NVMESGL_NOT_A_SOURCE) fail("a page that is brought", 0);
    if (nvmehost_build(&own, 0, cid, &answer) != NVMESGL_DONE || nvmehost_submit(&own, 0, cid, &answer) != NVMESGL_DONE) fail("an admin submission", 0);
    if (nvmehost_runs(&own, 0, cid, &run, 1, &runs) != NVMESGL_DONE || runs != 1 || run.count != 1 || run.right != NVMEHOST_WRITE) fail("the page of an admin command", (unsigned)runs);
    if (nvmehost_read(&own, (uint64_t)queue.submission_page * PAGE + 64u * queue.submission_tail, (uint8_t *)entry, sizeof entry) != NVMESGL_DONE) fail("an entry", 0);
    uint32_t wanted[16] = {[0] = 0x06 | (uint32_t)cid << 16, [1] = 3, [6] = (uint32_t)(run.first * PAGE), [10] = 1, [11] = 2, [12] = 3, [13] = 4, [14] = 5, [15] = 6};
    if (memcmp(entry, wanted, sizeof entry) != 0) fail("the entry of an admin command", 0);
    memset(page, 0x5A, sizeof page);
    completion[3] |= cid;
    if (nvmehost_write(&own, (uint64_t)run.first * PAGE, page, PAGE) != NVMESGL_DONE) fail("a page", 0);
    if (nvmehost_write(&own, (uint64_t)queue.completion_page * PAGE, (const uint8_t *)completion, sizeof completion) != NVMESGL_DONE) fail("a completion", 0);
    if (nvmehost_reap(&own, 0, &bell, &answer) != NVMESGL_DONE || answer.state != NVMESGL_REAP_ADMIN_DONE || answer.cid != cid || answer.dw0 != 77) fail("its reap", answer.state);
    if (nvmehost_collect(&own, 0, cid, &answer) != NVMESGL_DONE || answer.sct != 0 || answer.sc != 0 || answer.tag != 9) fail("its collection", 0);
    if (nvmehost_gather(&own, 0, cid, back, sizeof back, &answer) != NVMESGL_DONE || memcmp(back, page, sizeof page) != 0) fail("its bytes", 0);
    if (nvmehost_release(&own, 0, cid, &answer) != NVMESGL_DONE) fail("its release", 0);
    nvmehost_close(&own);
}

/* What a completion hints at is told by the collection of its command, and by a poll. */
static void tells_hints(const nvmehost_options *options) {
    nvmehost own = NVMEHOST_CLOSED;
    uint8_t block[512];
    const nvmesgl_iovec buffer = {block, sizeof block};
    if (nvmehost_open(&own, options, &answer) != NVMESGL_DONE) fail("open", 0);
    for (unsigned turn = 0; turn < 2; turn++) {
        nvmehost_queue queue;
        nvmehost_ended ended = {0};
        size_t count;
        /* 0:02 in the first pass of the ring: Do Not Retry, More, and a Command Retry Delay of 2. */
        uint8_t bytes[16] = {[10] = 1, [14] = 0x05, [15] = 0xE0};
        if (nvmehost_submit_iov(&own, 1, NVMESGL_READ, 0, &buffer, 1, 0, &answer) != NVMESGL_DONE) fail("a Read", 0);
        uint16_t cid = answer.cid;
        if (nvmehost_look(&own, 1, &queue) != NVMESGL_DONE) fail("a queue", 0);
        bytes[8] = (uint8_t)queue.submission_tail;
        bytes[12] = (uint8_t)cid;
        if (nvmehost_write(&own, (uint64_t)queue.completion_page * PAGE + 16u * queue.completion_head, bytes, 16) != NVMESGL_DONE) fail("a completion", 0);
        if (turn == 0) {
            if (nvmehost_reap(&own, 1, &bell, &answer) != NVMESGL_DONE || answer.sc != 2 || answer.more) fail("a reap", 0);
            if (nvmehost_collect(&own, 1, cid, &answer) != NVMESGL_DONE || answer.sc != 2) fail("a collection", 0);
            if (answer.retry_delay != 2 || !answer.more || !answer.do_not_retry) fail("the hints of a collection", 0);
        } else {
            if (nvmehost_poll(&own, 1, &ended, 1, &count, &bell, &answer) != NVMESGL_DONE || count != 1 || ended.cid != cid || ended.sc != 2) fail("a poll", 0);
            if (ended.retry_delay != 2 || !ended.more || !ended.do_not_retry) fail("the hints of a poll", 0);
        }
        if (nvmehost_release(&own, 1, cid, &answer) != NVMESGL_DONE || answer.more) fail("a release", 0);
    }
    nvmehost_close(&own);
}

int main(int argc, char **argv) {
    nvmehost_options options = NVMEHOST_OPTIONS;
    if (argc != 3) return 2;
    state = strtoull(argv[1], NULL, 10) * UINT64_C(0x9E3779B97F4A7C15) + 1;
    options.pages = PAGES;
    options.queues = QUEUES - 1;
    options.entries = ENTRIES;
    refuses_bad_use(&options);
    asks(&options);
    asks_in_other_blocks(&options);
    asks_without_data(&options);
    asks_of_the_admin_queue(&options);
    tells_hints(&options);
    uint32_t code = nvmehost_open(&host, &options, &answer);
    if (code != NVMESGL_DONE) fail("open", code);
    if (nvmehost_open(&host, &options, &answer) != NVMESGL_OPEN_HANDLE) fail("a second opening", 0);
    if (nvmehost_read(&host, 0, NULL, 0) != NVMESGL_BAD_LENGTH || nvmehost_write(&host, 0, NULL, 0) != NVMESGL_BAD_LENGTH) fail("no byte", 0);
    for (unsigned long left = strtoul(argv[2], NULL, 10); left != 0; left--) {
        if (below(3) == 0) device();
        bool looks = below(8) == 0;
        if (looks) see(&before);
        code = arbitrary();
        counts[code]++;
        if (!looks) continue;
        see(&after);
        recount(&after);
        rights(&after);
        belongings(&after);
        if (code != NVMESGL_DONE && memcmp(&before, &after, sizeof before) != 0) fail("a refused call changed what is seen", code);
    }
    nvmehost_close(&host);
    nvmehost_close(&host);
    if (nvmehost_reset(&host, &answer) != NVMESGL_CLOSED_HANDLE) fail("a closed handle", 0);
    printf("%lu writes of the device, %lu completions rejected; codes:", writes, rejected);
    for (unsigned i = 0; i < 64; i++)
        if (counts[i] != 0) printf(" %u:%lu", i, counts[i]);
    printf("\n");
    return 0;
}

#include "nvme.h"

#include <stdio.h>
#include <stdlib.h>
#include <string.h>
#include <sys/mman.h>

/* The controller's registers (NVM Express Base Specification 2.0, section 3.1.3). */
enum { CAP = 0x00, CC = 0x14, CSTS = 0x1c, AQA = 0x24, ASQ = 0x28, ACQ = 0x30 };
enum { CC_ENABLE = 1, CC_ENTRY_SIZES = 6 << 16 | 4 << 20, CSTS_READY = 1, CSTS_FATAL = 2 };
enum { OPCODE_IDENTIFY = 0x06, OPCODE_SET_FEATURES = 0x09, IDENTIFY_NAMESPACE = 0, IDENTIFY_CONTROLLER = 1, FEATURE_QUEUES = 0x07 };
enum { ENTRY_BYTES = 64, COMPLETION_BYTES = 16, MOST_BYTES = 1 << 20, PATIENCE = 20 };

void nvme_done(uint32_t code, const char *call) {
    if (code == NVMESGL_DONE) return;
    fflush(stdout);
    fprintf(stderr, "%s is refused: %s\n", call, nvmesgl_text(code));
    exit(2);
}

/* Registers ------------------------------------------------------------------------------------------------------------------------------------------------ */

static uint32_t get32(const struct nvme *nvme, int at) {
    return *(volatile uint32_t *)(nvme->vfio.bar + at);
}

static void set32(const struct nvme *nvme, int at, uint32_t value) {
    *(volatile uint32_t *)(nvme->vfio.bar + at) = value;
}

static uint64_t get64(const struct nvme *nvme, int at) {
    return get32(nvme, at) | (uint64_t)get32(nvme, at + 4) << 32;
}

static void set64(const struct nvme *nvme, int at, uint64_t value) {
    set32(nvme, at, (uint32_t)value);
    set32(nvme, at + 4, (uint32_t)(value >> 32));
}

static void wait_ready(const struct nvme *nvme, bool ready) {
    double until = seconds() + nvme->patience;
    while (((get32(nvme, CSTS) & CSTS_READY) != 0) != ready) {
        need(!(ready && get32(nvme, CSTS) & CSTS_FATAL), "the controller says that it failed");
        need(seconds() < until, ready ? "the controller does not start" : "the controller does not stop");
    }
}

/* What the device reaches ---------------------------------------------------------------------------------------------------------------------------------- */

static uint8_t *page_at(const struct nvme *nvme, uint32_t page) {
    return (uint8_t *)nvme->memory.at + (size_t)NVME_PAGE * page;
}

static uint64_t pool_bytes(const struct nvme *nvme) {
    return (uint64_t)NVME_PAGE * nvme->options.pages;
}

static void copy_out(struct nvme *nvme, uint32_t first, size_t count) {
    for (uint32_t page = first; page < first + count; page++)
        nvme_done(nvmehost_read(&nvme->host, (uint64_t)NVME_PAGE * page, page_at(nvme, page), NVME_PAGE), "read");
}

static void copy_in(struct nvme *nvme, uint32_t first, size_t count) {
    for (uint32_t page = first; page < first + count; page++)
        nvme_done(nvmehost_write(&nvme->host, (uint64_t)NVME_PAGE * page, page_at(nvme, page), NVME_PAGE), "write");
}

static void grant(struct nvme *nvme, uint32_t first, size_t count, uint32_t right) {
    if (nvme->options.mirror) copy_out(nvme, first, count);
    if (nvme->options.open) return;
    uint32_t rights = right == NVMEHOST_WRITE ? VFIO_WRITES : VFIO_READS;
    vfio_map(&nvme->vfio, (uint64_t)NVME_PAGE * first, page_at(nvme, first), NVME_PAGE * count, rights);
}

static void take_back(struct nvme *nvme, uint32_t first, size_t count) {
    uint64_t size = (uint64_t)NVME_PAGE * count;
    if (!nvme->options.open) need(vfio_unmap(&nvme->vfio, (uint64_t)NVME_PAGE * first, size) == size, "pages that are taken back were not all given");
    if (nvme->options.mirror) copy_in(nvme, first, count);
}

/* The pages of a command, into nvme->runs: how many runs there are. None where the device works in the pool and reaches all of it. */
static size_t look_at_runs(struct nvme *nvme, uint16_t q, uint16_t cid) {
    size_t count;
    if (nvme->options.open && !nvme->options.mirror) return 0;
    nvme_done(nvmehost_runs(&nvme->host, q, cid, nvme->runs, NVME_MOST_RUNS, &count), "runs");
    return count;
}

static void grant_command(struct nvme *nvme, uint16_t q, uint16_t cid) {
    size_t count = look_at_runs(nvme, q, cid);
    for (size_t i = 0; i < count; i++) grant(nvme, nvme->runs[i].first, nvme->runs[i].count, nvme->runs[i].right);
}

static void take_back_command(struct nvme *nvme, uint16_t q, uint16_t cid) {
    size_t count = look_at_runs(nvme, q, cid);
    for (size_t i = 0; i < count; i++) take_back(nvme, nvme->runs[i].first, nvme->runs[i].count);
}

/* Queues ---------------------------------------------------------------------------------------------------------------------------------------------------- */

nvmehost_queue nvme_look(struct nvme *nvme, uint16_t q) {
    nvmehost_queue queue;
    nvme_done(nvmehost_look(&nvme->host, q, &queue), "look");
    return queue;
}

static void grant_completions(struct nvme *nvme, uint16_t q) {
    nvmehost_queue queue = nvme_look(nvme, q);
    grant(nvme, queue.completion_page, queue.completion_pages, NVMEHOST_WRITE);
}

static void grant_submissions(struct nvme *nvme, uint16_t q) {
    nvmehost_queue queue = nvme_look(nvme, q);
    grant(nvme, queue.submission_page, queue.submission_pages, NVMEHOST_READ);
}

/* The address of the entry that was submitted last. */
static uint64_t last_entry_at(struct nvme *nvme, uint16_t q) {
    nvmehost_queue queue = nvme_look(nvme, q);
    uint32_t entries = nvme->options.entries;
    return (uint64_t)NVME_PAGE * queue.submission_page + ENTRY_BYTES * ((queue.submission_tail + entries - 1) % entries);
}

void nvme_read_entry(struct nvme *nvme, uint16_t q, uint32_t entry[16]) {
    nvme_done(nvmehost_read(&nvme->host, last_entry_at(nvme, q), (uint8_t *)entry, ENTRY_BYTES), "read");
}

void nvme_write_entry(struct nvme *nvme, uint16_t q, const uint32_t entry[16]) {
    nvme_done(nvmehost_write(&nvme->host, last_entry_at(nvme, q), (const uint8_t *)entry, ENTRY_BYTES), "write");
}

void nvme_ring(struct nvme *nvme, uint16_t q) {
    nvmehost_doorbell bell;
    nvmesgl_answer answer;
    nvmehost_queue queue = nvme_look(nvme, q);
    if (nvme->options.mirror) copy_out(nvme, queue.submission_page, queue.submission_pages);
    nvme_done(nvmehost_ring(&nvme->host, q, &bell, &answer), "ring");
    nvmehost_write_doorbell(nvme->vfio.bar, nvme->stride, bell);
}

bool nvme_reap(struct nvme *nvme, uint16_t q, nvmesgl_answer *answer) {
    nvmehost_queue queue = nvme_look(nvme, q);
    if (!nvmehost_ready(&nvme->memory, &queue)) return false;
    uint64_t at = (uint64_t)NVME_PAGE * queue.completion_page + COMPLETION_BYTES * queue.completion_head;
    const uint8_t *completion = (const uint8_t *)nvme->memory.at + at;
    if (nvme->options.mirror) nvme_done(nvmehost_write(&nvme->host, at, completion, COMPLETION_BYTES), "write");
    nvmehost_doorbell bell;
    nvme_done(nvmehost_reap(&nvme->host, q, &bell, answer), "reap");
    nvmehost_write_doorbell(nvme->vfio.bar, nvme->stride, bell);
    if (answer->state == NVMESGL_REAP_DONE || answer->state == NVMESGL_REAP_ADMIN_DONE) take_back_command(nvme, q, answer->cid);
    return true;
}

/* Rings a queue, and waits for a completion of it. */
static nvmesgl_answer ring_and_reap(struct nvme *nvme, uint16_t q) {
    nvmesgl_answer answer;
    nvme_ring(nvme, q);
    double until = seconds() + PATIENCE;
    while (!nvme_reap(nvme, q, &answer)) {
        need(seconds() < until, "a command is not done");
    }
    return answer;
}

void nvme_wait(struct nvme *nvme, uint16_t q, uint16_t cid) {
    nvmesgl_answer answer = ring_and_reap(nvme, q);
    need(answer.state == NVMESGL_REAP_DONE && answer.cid == cid, "another command ended");
}

/* Admin commands -------------------------------------------------------------------------------------------------------------------------------------------- */

static nvmesgl_answer admin(struct nvme *nvme, const char *failure) {
    nvmesgl_answer answer = ring_and_reap(nvme, 0);
    nvme->admin_commands++;
    need(answer.state == NVMESGL_REAP_ADMIN_DONE && answer.sct == 0 && answer.sc == 0, failure);
    return answer;
}

uint32_t nvme_admin(struct nvme *nvme, const nvmesgl_admin *command, uint8_t *data, const char *failure) {
    nvmehost *host = &nvme->host;
    nvmesgl_answer answer;
    nvme_done(nvmehost_reserve_admin(host, command, 0, &answer), "reserve_admin");
    uint16_t cid = answer.cid;
    nvme_done(nvmehost_build(host, 0, cid, &answer), "build");
    nvme_done(nvmehost_submit(host, 0, cid, &answer), "submit");
    grant_command(nvme, 0, cid);
    uint32_t told = admin(nvme, failure).dw0;
    nvme_done(nvmehost_collect(host, 0, cid, &answer), "collect");
    if (data != NULL) nvme_done(nvmehost_gather(host, 0, cid, data, command->bytes, &answer), "gather");
    nvme_done(nvmehost_release(host, 0, cid, &answer), "release");
    return told;
}

static void identify(struct nvme *nvme, uint32_t nsid, uint32_t what, uint8_t data[NVME_PAGE], const char *failure) {
    nvmesgl_admin command = {.size = sizeof command, .opcode = OPCODE_IDENTIFY, .nsid = nsid, .page = NVMESGL_PAGE_WRITTEN, .bytes = NVME_PAGE, .cdw10 = what};
    nvme_admin(nvme, &command, data, failure);
}

static void identify_controller(struct nvme *nvme) {
    uint8_t data[NVME_PAGE];
    identify(nvme, 0, IDENTIFY_CONTROLLER, data, "Identify of the controller fails");
    memcpy(nvme->model, data + 24, 40);
    memcpy(nvme->firmware, data + 64, 8);
    uint8_t mdts = data[77];
    nvme->most = mdts == 0 || mdts >= 8 ? MOST_BYTES : (uint32_t)NVME_PAGE << mdts;
    nvme->compares = (data[520] & 1) != 0;
    nvme->deallocates = (data[520] & 4) != 0;
    nvme->grain = (data[536] & 3) == 2 ? 4 : 1;
    need((data[536] & 3) != 0, "the controller takes no lists (SGLs)");
}

static void identify_namespace(struct nvme *nvme) {
    uint8_t data[NVME_PAGE];
    identify(nvme, nvme->options.nsid, IDENTIFY_NAMESPACE, data, "Identify of the namespace fails");
    const uint8_t *format = data + 128 + 4 * (data[26] & 15);
    memcpy(&nvme->blocks, data, sizeof nvme->blocks);
    need(nvme->blocks != 0, "there is no such namespace");
    need(format[0] == 0 && format[1] == 0, "the namespace has metadata");
    need(format[2] >= 9 && format[2] <= 12, "the namespace has blocks of another size than 512 to 4,096 bytes");
    nvme->block = 1u << format[2];
}

static void make_queue(struct nvme *nvme, uint16_t q) {
    nvmesgl_answer answer;
    if (nvme->options.interrupts) nvme_done(nvmehost_create_cq_vector(&nvme->host, q, q, &answer), "create_cq_vector");
    else nvme_done(nvmehost_create_cq(&nvme->host, q, &answer), "create_cq");
    grant_completions(nvme, q);
    admin(nvme, "Create I/O Completion Queue fails");
    nvme_done(nvmehost_create_sq(&nvme->host, q, &answer), "create_sq");
    grant_submissions(nvme, q);
    admin(nvme, "Create I/O Submission Queue fails");
}

static void make_queues(struct nvme *nvme) {
    uint32_t last = nvme->options.queues - 1;
    nvmesgl_admin command = {.size = sizeof command, .opcode = OPCODE_SET_FEATURES, .cdw10 = FEATURE_QUEUES, .cdw11 = last << 16 | last};
    uint32_t given = nvme_admin(nvme, &command, NULL, "Set Features, Number of Queues, fails");
    need((given & 0xffff) >= last && given >> 16 >= last, "the controller gives too few queues");
    for (uint16_t q = 1; q <= nvme->options.queues; q++) make_queue(nvme, q);
}

/* Starting and stopping ---------------------------------------------------------------------------------------------------------------------------------- */

static void enable(struct nvme *nvme) {
    nvmehost_queue queue = nvme_look(nvme, 0);
    uint32_t last = nvme->options.entries - 1;
    grant_submissions(nvme, 0);
    grant_completions(nvme, 0);
    set32(nvme, AQA, last << 16 | last);
    set64(nvme, ASQ, (uint64_t)NVME_PAGE * queue.submission_page);
    set64(nvme, ACQ, (uint64_t)NVME_PAGE * queue.completion_page);
    set32(nvme, CC, CC_ENTRY_SIZES | CC_ENABLE);
    wait_ready(nvme, true);
}

/* How many bytes of the pool the device reached until then. */
static uint64_t disable(struct nvme *nvme) {
    set32(nvme, CC, 0);
    wait_ready(nvme, false);
    return nvme->options.open ? pool_bytes(nvme) : vfio_unmap(&nvme->vfio, 0, pool_bytes(nvme));
}

static void open_registers(struct nvme *nvme) {
    uint64_t capabilities = get64(nvme, CAP);
    nvme->stride = capabilities >> 32 & 15;
    nvme->patience = PATIENCE + (double)(capabilities >> 24 & 0xff) / 2; /* CAP.TO: half seconds */
    need((capabilities & 0xffff) >= nvme->options.entries - 1, "the controller's rings are shorter");
    need((capabilities >> 48 & 15) == 0, "the controller's pages are longer than 4,096 bytes");
}

static void open_host(struct nvme *nvme) {
    const struct nvme_options *o = &nvme->options;
    nvmehost_options options = {sizeof options, o->pages, o->queues, o->entries, o->segment, {0}};
    nvmesgl_answer answer;
    size_t pool = pool_bytes(nvme);
    void *at = mmap(NULL, pool, PROT_READ | PROT_WRITE, MAP_PRIVATE | MAP_ANONYMOUS, -1, 0);
    need_system(at != MAP_FAILED, "there is no memory for the pool");
    nvme->memory = (nvmehost_memory){.at = at, .pages = o->pages};
    if (o->mirror) nvme_done(nvmehost_open(&nvme->host, &options, &answer), "open");
    else nvme_done(nvmehost_open_at(&nvme->host, &options, &nvme->memory, &answer), "open_at");
    nvme_done(nvmehost_reset(&nvme->host, &answer), "reset");
    if (o->open) vfio_map(&nvme->vfio, 0, at, pool, VFIO_READS | VFIO_WRITES);
}

void nvme_start(struct nvme *nvme, const struct nvme_options *options) {
    *nvme = (struct nvme){.options = *options};
    vfio_open(&nvme->vfio, options->address);
    open_registers(nvme);
    set32(nvme, CC, 0);
    wait_ready(nvme, false);
    open_host(nvme);
    if (options->interrupts) vfio_interrupts(&nvme->vfio, options->queues + 1);
    enable(nvme);
    identify_controller(nvme);
    identify_namespace(nvme);
    make_queues(nvme);
}

void nvme_stop(struct nvme *nvme) {
    disable(nvme);
    vfio_unmap(&nvme->vfio, 0, pool_bytes(nvme));
    if (nvme->options.mirror) nvmehost_close(&nvme->host);
    else nvmehost_close_at(&nvme->host, &nvme->memory);
}

uint64_t nvme_halt(struct nvme *nvme) {
    nvmesgl_answer answer;
    uint64_t reached = disable(nvme);
    nvme_done(nvmehost_reset(&nvme->host, &answer), "reset");
    return reached;
}

void nvme_resume(struct nvme *nvme) {
    enable(nvme);
    make_queues(nvme);
}

/* Commands -------------------------------------------------------------------------------------------------------------------------------------------------- */

uint32_t nvme_reserve(struct nvme *nvme, uint16_t q, uint32_t kind, uint64_t slba, uint32_t blocks, const nvmesgl_piece *pieces, size_t count, uint16_t *cid) {
    nvmesgl_request request = {.size = sizeof request, .kind = kind, .nsid = nvme->options.nsid, .flags = nvme->flags, .slba = slba, .blocks = blocks, .block_bytes = nvme->block};
    nvmesgl_answer answer;
    uint32_t code = nvmehost_reserve_request(&nvme->host, q, &request, pieces, count, 0, &answer);
    *cid = answer.cid;
    return code;
}

uint8_t *nvme_piece(struct nvme *nvme, uint16_t q, uint16_t cid, uint32_t piece, uint32_t *len) {
    nvmehost_place place;
    nvme_done(nvmehost_data_place(&nvme->host, q, cid, piece, &place), "data_place");
    *len = place.len;
    return page_at(nvme, place.page) + place.offset;
}

void nvme_put(struct nvme *nvme, uint16_t q, uint16_t cid, const uint8_t *bytes, uint32_t size) {
    nvmesgl_answer answer;
    if (nvme->options.mirror) {
        nvme_done(nvmehost_fill(&nvme->host, q, cid, bytes, size, &answer), "fill");
        return;
    }
    for (uint32_t piece = 0, done = 0, len; done < size; piece++, done += len) {
        uint8_t *there = nvme_piece(nvme, q, cid, piece, &len);
        memcpy(there, bytes + done, len);
    }
}

void nvme_get(struct nvme *nvme, uint16_t q, uint16_t cid, uint8_t *bytes, uint32_t size) {
    nvmesgl_answer answer;
    if (nvme->options.mirror) {
        nvme_done(nvmehost_gather(&nvme->host, q, cid, bytes, size, &answer), "gather");
        return;
    }
    for (uint32_t piece = 0, done = 0, len; done < size; piece++, done += len) {
        const uint8_t *there = nvme_piece(nvme, q, cid, piece, &len);
        memcpy(bytes + done, there, len);
    }
}

void nvme_submit(struct nvme *nvme, uint16_t q, uint16_t cid) {
    nvmesgl_answer answer;
    nvme_done(nvmehost_build(&nvme->host, q, cid, &answer), "build");
    nvme_done(nvmehost_submit(&nvme->host, q, cid, &answer), "submit");
    grant_command(nvme, q, cid);
}

uint16_t nvme_submit_flush(struct nvme *nvme, uint16_t q) {
    uint16_t cid;
    nvme_done(nvme_reserve(nvme, q, NVMESGL_FLUSH, 0, 0, NULL, 0, &cid), "reserve");
    nvme_submit(nvme, q, cid);
    return cid;
}

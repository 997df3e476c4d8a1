/* Prints each struct that Python calls with: its name, its size, and where each of its fields begins. */
#include "nvmectl.h"
#include "nvmehost.h"

#include <stdio.h>

#define STRUCT(name) printf("%s %zu", #name, sizeof(name))
#define FIELD(name, field) printf(" %zu", offsetof(name, field))
#define END putchar('\n')

int main(void) {
    STRUCT(nvmesgl_options), FIELD(nvmesgl_options, size), FIELD(nvmesgl_options, pages), FIELD(nvmesgl_options, queues), FIELD(nvmesgl_options, entries);
    FIELD(nvmesgl_options, segment), FIELD(nvmesgl_options, blocks), FIELD(nvmesgl_options, reserved), END;
    STRUCT(nvmesgl_piece), FIELD(nvmesgl_piece, offset), FIELD(nvmesgl_piece, len), FIELD(nvmesgl_piece, kind), END;
    STRUCT(nvmesgl_request), FIELD(nvmesgl_request, size), FIELD(nvmesgl_request, kind), FIELD(nvmesgl_request, nsid), FIELD(nvmesgl_request, flags);
    FIELD(nvmesgl_request, slba), FIELD(nvmesgl_request, blocks), FIELD(nvmesgl_request, block_bytes), FIELD(nvmesgl_request, reserved), END;
    STRUCT(nvmesgl_range), FIELD(nvmesgl_range, attributes), FIELD(nvmesgl_range, blocks), FIELD(nvmesgl_range, slba), END;
    STRUCT(nvmesgl_iovec), FIELD(nvmesgl_iovec, base), FIELD(nvmesgl_iovec, len), END;
    STRUCT(nvmesgl_answer), FIELD(nvmesgl_answer, state), FIELD(nvmesgl_answer, dw0), FIELD(nvmesgl_answer, need), FIELD(nvmesgl_answer, free);
    FIELD(nvmesgl_answer, data_pages), FIELD(nvmesgl_answer, chain_pages), FIELD(nvmesgl_answer, bytes), FIELD(nvmesgl_answer, touched);
    FIELD(nvmesgl_answer, touched_count), FIELD(nvmesgl_answer, cid), FIELD(nvmesgl_answer, sct), FIELD(nvmesgl_answer, sc);
    FIELD(nvmesgl_answer, count), FIELD(nvmesgl_answer, retry_delay), FIELD(nvmesgl_answer, more), FIELD(nvmesgl_answer, do_not_retry);
    FIELD(nvmesgl_answer, reserved), FIELD(nvmesgl_answer, tag), END;
    STRUCT(nvmesgl_pages), FIELD(nvmesgl_pages, pages), FIELD(nvmesgl_pages, free_pages), FIELD(nvmesgl_pages, queue_pages);
    FIELD(nvmesgl_pages, chain_pages), FIELD(nvmesgl_pages, data_pages), FIELD(nvmesgl_pages, trusted), FIELD(nvmesgl_pages, reserved), END;
    STRUCT(nvmesgl_page_owner), FIELD(nvmesgl_page_owner, kind), FIELD(nvmesgl_page_owner, q), FIELD(nvmesgl_page_owner, cid), FIELD(nvmesgl_page_owner, reserved), END;
    STRUCT(nvmectl_options), FIELD(nvmectl_options, size), FIELD(nvmectl_options, entries), FIELD(nvmectl_options, blocks), FIELD(nvmectl_options, reserved), END;
    STRUCT(nvmectl_queue), FIELD(nvmectl_queue, sq), FIELD(nvmectl_queue, cq), END;
    STRUCT(nvmectl_region), FIELD(nvmectl_region, addr), FIELD(nvmectl_region, bytes), FIELD(nvmectl_region, len), END;
    STRUCT(nvmectl_job), FIELD(nvmectl_job, units), FIELD(nvmectl_job, ended), FIELD(nvmectl_job, sct), FIELD(nvmectl_job, sc), FIELD(nvmectl_job, reserved), END;
    STRUCT(nvmectl_step), FIELD(nvmectl_step, kind), FIELD(nvmectl_step, q), FIELD(nvmectl_step, cid), FIELD(nvmectl_step, reserved), END;
    STRUCT(nvmehost), FIELD(nvmehost, at), FIELD(nvmehost, mark), END;
    STRUCT(nvmehost_options), FIELD(nvmehost_options, size), FIELD(nvmehost_options, pages), FIELD(nvmehost_options, queues);
    FIELD(nvmehost_options, entries), FIELD(nvmehost_options, segment), FIELD(nvmehost_options, reserved), END;
    STRUCT(nvmehost_doorbell), FIELD(nvmehost_doorbell, offset), FIELD(nvmehost_doorbell, value), FIELD(nvmehost_doorbell, rings), FIELD(nvmehost_doorbell, reserved), END;
    STRUCT(nvmehost_ended), FIELD(nvmehost_ended, tag), FIELD(nvmehost_ended, state), FIELD(nvmehost_ended, code), FIELD(nvmehost_ended, dw0), FIELD(nvmehost_ended, cid);
    FIELD(nvmehost_ended, sct), FIELD(nvmehost_ended, sc), FIELD(nvmehost_ended, retry_delay), FIELD(nvmehost_ended, more);
    FIELD(nvmehost_ended, do_not_retry), FIELD(nvmehost_ended, reserved), END;
    STRUCT(nvmehost_queue), FIELD(nvmehost_queue, state), FIELD(nvmehost_queue, submission_tail), FIELD(nvmehost_queue, submission_head);
    FIELD(nvmehost_queue, completion_head), FIELD(nvmehost_queue, phase), FIELD(nvmehost_queue, submission_page), FIELD(nvmehost_queue, completion_page);
    FIELD(nvmehost_queue, submission_pages), FIELD(nvmehost_queue, completion_pages), FIELD(nvmehost_queue, reserved), END;
    STRUCT(nvmehost_run), FIELD(nvmehost_run, first), FIELD(nvmehost_run, right), FIELD(nvmehost_run, count), FIELD(nvmehost_run, reserved), END;
    STRUCT(nvmehost_place), FIELD(nvmehost_place, page), FIELD(nvmehost_place, offset), FIELD(nvmehost_place, len), FIELD(nvmehost_place, reserved), END;
    STRUCT(nvmehost_pages), FIELD(nvmehost_pages, pages), FIELD(nvmehost_pages, free_pages), FIELD(nvmehost_pages, queue_pages);
    FIELD(nvmehost_pages, chain_pages), FIELD(nvmehost_pages, data_pages), FIELD(nvmehost_pages, reserved), END;
    STRUCT(nvmehost_memory), FIELD(nvmehost_memory, at), FIELD(nvmehost_memory, pages), FIELD(nvmehost_memory, used), FIELD(nvmehost_memory, next), END;
    return 0;
}

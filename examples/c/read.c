/* A Read of one block, step by step, as examples/read.script; then one past the end of the image, which the controller finds at fault as it fetches it. */
#include "nvmesgl.h"

#include <stdio.h>
#include <string.h>

static nvmesgl machine = NVMESGL_CLOSED;
static nvmesgl_answer answer;
static int failures;

/* Tells a call that was not done. */
static void done(const char *call, uint32_t code) {
    printf("%-8s %s\n", call, nvmesgl_text(code));
    if (code != NVMESGL_DONE) failures++;
}

int main(void) {
    nvmesgl_options options = NVMESGL_OPTIONS;
    nvmesgl_piece piece = {0, 512, NVMESGL_PIECE};
    nvmesgl_pages pages;
    uint8_t image[2 * 512], block[512];
    uint16_t cid;
    uint32_t walked;

    memset(image, 0xA5, sizeof image);
    done("open", nvmesgl_open(&machine, &options, image, sizeof image, &answer));

    /* The driver asks for block 1, into one page. */
    done("reserve", nvmesgl_reserve(&machine, 1, NVMESGL_READ, 1, 1, &piece, 1, &answer));
    cid = answer.cid;
    done("build", nvmesgl_build(&machine, 1, cid, &answer));
    done("submit", nvmesgl_submit(&machine, 1, cid, &answer));
    done("ring", nvmesgl_ring(&machine, 1, &answer));

    /* The controller fetches the entry, walks the list to its end, and completes. */
    done("fetch", nvmesgl_fetch(&machine, 1, &answer));
    do {
        done("walk", walked = nvmesgl_walk(&machine, 1, cid, &answer));
    } while (walked == NVMESGL_DONE && answer.state == NVMESGL_WALK_MORE);
    done("complete", nvmesgl_complete(&machine, 1, cid, &answer));

    /* The driver reaps the completion and has the bytes. */
    done("reap", nvmesgl_reap(&machine, 1, &answer));
    done("collect", nvmesgl_collect(&machine, 1, cid, &answer));
    printf("status   %u:%02X %s\n", answer.sct, answer.sc, nvmesgl_status_text(answer.sct, answer.sc));
    done("gather", nvmesgl_gather(&machine, 1, cid, block, sizeof block, &answer));
    if (memcmp(block, image, sizeof block) != 0) failures++;
    done("release", nvmesgl_release(&machine, 1, cid, &answer));

    /* Block 1,000 is not there. All that the controller does of it is one call here; by single calls nothing of it is walked (NVMESGL_NOTHING). */
    done("reserve", nvmesgl_reserve(&machine, 1, NVMESGL_READ, 1000, 1, &piece, 1, &answer));
    cid = answer.cid;
    done("build", nvmesgl_build(&machine, 1, cid, &answer));
    done("submit", nvmesgl_submit(&machine, 1, cid, &answer));
    done("ring", nvmesgl_ring(&machine, 1, &answer));
    done("serve", nvmesgl_serve(&machine, &answer));
    if (answer.count != 1) failures++;
    done("reap", nvmesgl_reap(&machine, 1, &answer));
    done("collect", nvmesgl_collect(&machine, 1, cid, &answer));
    printf("status   %u:%02X %s\n", answer.sct, answer.sc, nvmesgl_status_text(answer.sct, answer.sc));
    if (answer.sct != 0 || answer.sc != 0x80) failures++;
    done("release", nvmesgl_release(&machine, 1, cid, &answer));

    done("counts", nvmesgl_counts(&machine, &pages));
    printf("pages    %u free, %u of queues, %u of chains, %u of data\n", pages.free_pages, pages.queue_pages, pages.chain_pages, pages.data_pages);
    nvmesgl_close(&machine);
    return failures != 0;
}

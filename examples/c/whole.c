/* Whole commands, each in one call: a disk of 32 MiB that a program reads and writes. */
#include "nvmesgl.h"

#include <stdio.h>
#include <stdlib.h>
#include <string.h>

static nvmesgl machine = NVMESGL_CLOSED;
static nvmesgl_answer answer;

/* Ends the program where a call was not done, and tells how its command ended. */
static void ended(const char *what, uint32_t code) {
    if (code != NVMESGL_DONE) {
        fprintf(stderr, "%s: %s\n", what, nvmesgl_text(code));
        exit(1);
    }
    printf("%-8s %u:%02X %s\n", what, answer.sct, answer.sc, nvmesgl_status_text(answer.sct, answer.sc));
}

int main(void) {
    enum { BYTES = 1 << 20 };
    nvmesgl_options options = NVMESGL_OPTIONS;
    uint8_t *out = malloc(BYTES), *in = malloc(BYTES);
    if (out == NULL || in == NULL) return 1;
    options.pages = 300; /* a command of 1 MiB has 256 data pages, and one for its list */
    options.blocks = 65536;
    if (nvmesgl_open(&machine, &options, NULL, 0, &answer) != NVMESGL_DONE) return 1;

    for (int i = 0; i < BYTES; i++) out[i] = (uint8_t)(i * 7 + i / 256);
    ended("write", nvmesgl_write(&machine, 1, 2048, out, BYTES, &answer));
    ended("read", nvmesgl_read(&machine, 1, 2048, in, BYTES, &answer));
    if (answer.bytes != BYTES || memcmp(in, out, BYTES) != 0) return 1;
    ended("compare", nvmesgl_compare(&machine, 1, 2048, out, 512, &answer));
    ended("compare", nvmesgl_compare(&machine, 1, 0, out, 512, &answer));
    ended("read", nvmesgl_read(&machine, 1, 65536, in, 512, &answer));
    nvmesgl_iovec head_and_rest[] = {{in, 16}, {in + 4096, 1024 - 16}}; /* two blocks into two buffers */
    ended("readv", nvmesgl_readv(&machine, 1, 2048, head_and_rest, 2, &answer));
    if (memcmp(in, out, 16) != 0 || memcmp(in + 4096, out + 16, 1024 - 16) != 0) return 1;
    printf("513 bytes: %s\n", nvmesgl_text(nvmesgl_read(&machine, 1, 0, in, 513, &answer)));

    nvmesgl_close(&machine);
    free(out);
    free(in);
    return 0;
}

/* What whole commands take: processor time of a Read and a Write in one call, by the bytes that they move. The least of five rounds, in microseconds. */
#include "nvmesgl.h"

#include <stdio.h>
#include <time.h>

static const uint32_t sizes[] = {512, 4096, 65536, 131072, 1048576};
static uint8_t buffer[1048576];

static double now(void) {
    struct timespec at;
    clock_gettime(CLOCK_PROCESS_CPUTIME_ID, &at);
    return (double)at.tv_sec * 1e6 + (double)at.tv_nsec / 1e3;
}

int main(void) {
    nvmesgl machine = NVMESGL_CLOSED;
    nvmesgl_options options = NVMESGL_OPTIONS;
    nvmesgl_answer answer;
    options.pages = 600, options.entries = 16, options.blocks = 65536;
    if (nvmesgl_open(&machine, &options, NULL, 0, &answer) != NVMESGL_DONE) return 1;
    for (size_t i = 0; i < sizeof sizes / sizeof *sizes; i++) {
        int count = (int)(40000000 / (sizes[i] + 20000));
        double least[2] = {1e9, 1e9};
        for (int round = 0; round < 5; round++)
            for (int writes = 0; writes < 2; writes++) {
                double from = now();
                for (int k = 0; k < count; k++)
                    if ((writes ? nvmesgl_write(&machine, 1, 0, buffer, sizes[i], &answer) : nvmesgl_read(&machine, 1, 0, buffer, sizes[i], &answer)) != NVMESGL_DONE) return 1;
                double each = (now() - from) / count;
                if (each < least[writes]) least[writes] = each;
            }
        printf("%u %.2f %.2f\n", sizes[i], least[0], least[1]);
    }
    nvmesgl_close(&machine);
    return 0;
}

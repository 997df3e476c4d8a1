/* One handle of each kind, carried from thread to thread: opened in one, used by four under a lock, closed in another. */
#include "nvmectl.h"
#include "nvmehost.h"

#include <pthread.h>
#include <stdio.h>
#include <stdlib.h>
#include <string.h>

enum { THREADS = 4, ROUNDS = 200, BLOCKS = 8, BYTES = 512 * BLOCKS };

static pthread_mutex_t lock = PTHREAD_MUTEX_INITIALIZER;
static nvmesgl machine = NVMESGL_CLOSED;
static nvmectl controller = NVMECTL_CLOSED;
static nvmehost host = NVMEHOST_CLOSED;
static uint8_t pool[16 * 4096];
static int failures;

static void want(int holds, const char *what) {
    if (holds) return;
    fprintf(stderr, "%s\n", what);
    failures++;
}

static void *opens(void *given) {
    nvmesgl_options options = NVMESGL_OPTIONS;
    nvmectl_options alone = NVMECTL_OPTIONS;
    nvmehost_options driver = NVMEHOST_OPTIONS;
    nvmectl_queue queues[2] = {{0, 1}, {2, 3}};
    nvmesgl_answer answer;
    (void)given;
    options.pages = 64, options.entries = 8;
    want(nvmesgl_open(&machine, &options, NULL, 0, &answer) == NVMESGL_DONE, "nvmesgl_open");
    want(nvmectl_open(&controller, &alone, queues, 2, NULL, 0) == NVMESGL_DONE, "nvmectl_open");
    want(nvmehost_open(&host, &driver, &answer) == NVMESGL_DONE, "nvmehost_open");
    return NULL;
}

static void *uses(void *given) {
    unsigned number = *(unsigned *)given;
    uint8_t out[BYTES], in[BYTES];
    for (unsigned round = 0; round < ROUNDS; round++) {
        nvmesgl_answer answer;
        nvmesgl_piece piece = {0, 512, NVMESGL_PIECE};
        nvmectl_step step;
        memset(out, (int)(number * ROUNDS + round), sizeof out);
        pthread_mutex_lock(&lock);
        want(nvmesgl_write(&machine, 1, number * BLOCKS, out, sizeof out, &answer) == NVMESGL_DONE && answer.sc == 0, "nvmesgl_write");
        pthread_mutex_unlock(&lock);
        pthread_mutex_lock(&lock);
        want(nvmesgl_read(&machine, 1, number * BLOCKS, in, sizeof in, &answer) == NVMESGL_DONE && answer.sc == 0, "nvmesgl_read");
        want(nvmectl_next(&controller, pool, sizeof pool, &step) == NVMESGL_DONE && step.kind == NVMECTL_REST, "nvmectl_next");
        want(nvmehost_reserve(&host, 1, NVMESGL_READ, 0, 1, &piece, 1, &answer) == NVMESGL_DONE, "nvmehost_reserve");
        want(nvmehost_cancel(&host, 1, answer.cid, &answer) == NVMESGL_DONE, "nvmehost_cancel");
        pthread_mutex_unlock(&lock);
        want(memcmp(in, out, sizeof in) == 0, "other bytes");
    }
    return NULL;
}

static void *closes(void *given) {
    (void)given;
    nvmesgl_close(&machine);
    nvmectl_close(&controller);
    nvmehost_close(&host);
    return NULL;
}

int main(void) {
    pthread_t threads[THREADS];
    unsigned numbers[THREADS];
    pthread_create(&threads[0], NULL, opens, NULL);
    pthread_join(threads[0], NULL);
    for (unsigned i = 0; i < THREADS; i++) {
        numbers[i] = i;
        pthread_create(&threads[i], NULL, uses, &numbers[i]);
    }
    for (unsigned i = 0; i < THREADS; i++) pthread_join(threads[i], NULL);
    pthread_create(&threads[0], NULL, closes, NULL);
    pthread_join(threads[0], NULL);
    return failures != 0;
}

/* Writes a script of arbitrary steps: random SEED STEPS. The same seed gives the same script. */
#include "arbitrary.h"
#include <stdint.h>
#include <stdio.h>
#include <stdlib.h>

static unsigned queue(void) { return below(16) == 0 ? below(4) : 1 + below(2); }
static unsigned command(void) { return below(16) == 0 ? below(6) : below(3); }

/* The first three move data, the next three have none, and that of the last is ranges of blocks. */
static const char *const kinds[] = {"read", "write", "compare", "write_zeroes", "verify", "flush", "deallocate"};
enum { COMPARE = 2, FLUSH = 5, DEALLOCATE = 6 };

static unsigned any_kind(void) { return below(8) == 0 ? COMPARE + 1 + below(4) : below(COMPARE + 1); }

/* How many bytes of data its blocks have, or its ranges. */
static unsigned data_of(unsigned kind, unsigned blocks) { return kind == DEALLOCATE ? 16 * blocks : kind > COMPARE ? 0 : 512 * blocks; }

/* A namespace, a block size and flags after the pieces, now and then. */
static void end_reserve(void) {
    if (below(12) == 0) printf(" nsid %u", 1 + below(3));
    if (below(16) == 0) printf(" block_size %u", 512u << below(4));
    if (below(6) == 0) printf(" fua");
    if (below(6) == 0) printf(" lr");
    printf("\n");
}

static void reserve(void) {
    unsigned kind = any_kind(), blocks = kind == FLUSH ? 0 : 1 + below(3), left = below(8) == 0 ? 512 * blocks : data_of(kind, blocks);
    if (below(24) == 0) blocks = below(3000);
    printf("reserve %u %s %u %u", queue(), kinds[kind], below(8) == 0 ? below(80) : below(4), blocks);
    while (left != 0 && below(40) != 0) {
        unsigned n = below(3) == 0 ? left : 1 + below(left);
        unsigned at = below(4) == 0 ? below(4096) : below(64);
        if (n > 4096) n = 4096;
        if (at + n > 4096 && below(32) != 0) at = 4096 - n;
        if (below(8) == 0) printf(" x%u", n);
        else printf(" %u+%u", at, n);
        left -= n;
    }
    end_reserve();
}

static void hex(unsigned n) {
    while (n-- != 0) printf("%02X", below(3) == 0 ? below(256) : 0x11);
    printf("\n");
}

/* Steps go out one by one, and no more than were asked for; one in forty of a burst is left out. */
static unsigned long left_over;
static int next(void) {
    if (left_over == 0 || below(40) == 0) return 0;
    left_over--;
    return 1;
}

/* A command of a queue through all its steps. */
static void carry(void) {
    unsigned q = 1 + below(2), cid = below(3), walks = 1 + below(6), kind = any_kind(), blocks = kind == FLUSH ? 0 : 1 + below(3), data = data_of(kind, blocks);
    if (next()) {
        printf("reserve %u %s %u %u", q, kinds[kind], below(8) == 0 ? below(80) : below(4), blocks);
        for (unsigned left = data; left != 0; left -= data / blocks) printf(" %u+%u", below(3584), data / blocks);
        end_reserve();
    }
    if (kind != 0 && data != 0 && next()) {
        printf("fill %u %u ", q, cid);
        hex(1 + below(data));
    }
    static const char *const front[] = {"build", "submit"}, *const middle[] = {"ring", "fetch"}, *const back[] = {"collect", "gather", "release"};
    for (int k = 0; k < 2; k++)
        if (next()) printf("%s %u %u\n", front[k], q, cid);
    for (int k = 0; k < 2; k++)
        if (next()) printf("%s %u\n", middle[k], q);
    if (below(12) == 0 && next()) printf("abort %u %u\nring 0\nfetch 0\n", q, cid);
    while (walks-- != 0)
        if (next()) printf("walk %u %u\n", q, cid);
    if (next()) printf("complete %u %u\n", q, cid);
    if (below(3) == 0 && next()) printf("complete 0 %u\nreap 0\n", below(3));
    if (next()) printf("reap %u\n", q);
    for (int k = 0; k < 3; k++)
        if (next()) printf("%s %u %u\n", back[k], q, cid);
}

/* An admin command through all its steps, under any of the three identifiers of queue 0. */
static void admin(const char *what, unsigned q) {
    if (next()) printf("%s %u\n", what, q);
    if (next()) printf("ring 0\n");
    if (next()) printf("fetch 0\n");
    for (unsigned cid = 0; cid < 3; cid++)
        if (next()) printf("complete 0 %u\n", cid);
    if (next()) printf("reap 0\n");
}

static void one(void) {
    static const char *const of_queue[] = {"ring", "ring", "fetch", "fetch", "fetch", "reap", "reap", "reap"};
    static const char *const of_command[] = {"build", "build", "submit", "submit", "walk", "walk", "walk", "walk", "complete", "complete", "collect", "gather",
                                             "release", "cancel"};
    unsigned what = below(100);
    if (!next()) return;
    if (what < 12) reserve();
    else if (what < 18) {
        printf("fill %u %u ", queue(), command());
        hex(1 + below(600));
    } else if (what < 46) printf("%s %u\n", of_queue[below(8)], queue());
    else if (what < 90) printf("%s %u %u\n", of_command[below(14)], queue(), command());
    else if (what < 93) printf("abort %u %u\n", queue(), command());
    else if (what < 96) printf("%s 0\n", of_queue[below(8)]);
    else if (what < 98) printf("%s 0 %u\n", below(2) == 0 ? "complete" : "walk", command());
    else if (what < 99) printf("owners\n");
    else if (below(8) == 0) {
        printf("forge %u %u ", queue(), below(5));
        hex(16);
    }
}

int main(int argc, char **argv) {
    if (argc != 3) return 1;
    state = strtoull(argv[1], NULL, 10) * UINT64_C(0x9E3779B97F4A7C15) + 1;
    left_over = strtoul(argv[2], NULL, 10);
    while (left_over != 0) {
        unsigned what = below(400);
        if (what < 250) one();
        else if (what < 380) carry();
        else if (what < 383) {
            unsigned q = 1 + below(2);
            admin("delete_sq", q);
            if (next()) printf("retire %u\n", q);
            admin("delete_cq", q);
        } else if (what < 399) {
            unsigned q = 1 + below(2);
            admin("create_cq", q);
            admin("create_sq", q);
        } else if (below(4) == 0 && next()) printf("reset\n");
    }
    return 0;
}

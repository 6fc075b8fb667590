/*
 * Answers a batch of mesh files from standard input by del_fem_mesh_read, a line for each: `0 n m` or `8 place`. A case is its length, four bytes with the lowest first, and then its bytes
 * (meshes/README.md). Each file is read twice: from a block of just its length, where a checker of memory sees a byte read outside, and right before a page that may not be read.
 * Both answers have to be the same, and the file's bytes have to stay. Status 2: the batch is malformed.
 */
#define _DEFAULT_SOURCE
#include "del_fem.h"
#include <stdio.h>
#include <stdlib.h>
#include <string.h>
#include <sys/mman.h>
#include <unistd.h>

#define ROOM ((size_t)1 << 24) /* longer than any case */

struct answer {
    uint32_t number;
    size_t n, m, place;
};

static void stop(int status, const char *why, unsigned long at) {
    fprintf(stderr, "mesh: case %lu: %s\n", at, why);
    exit(status);
}

static struct answer ask(const uint8_t *file, size_t len) {
    struct answer a = {99, 99, 99, 99};
    a.number = del_fem_mesh_read(file, len, &a.n, &a.m, &a.place);
    return a;
}

static int same(struct answer a, struct answer b) {
    return a.number == b.number && a.n == b.n && a.m == b.m && a.place == b.place;
}

/* the end of ROOM bytes with a page behind them that may not be read */
static uint8_t *fenced_end(void) {
    size_t page = (size_t)sysconf(_SC_PAGESIZE);
    uint8_t *room = mmap(NULL, ROOM + page, PROT_READ | PROT_WRITE, MAP_PRIVATE | MAP_ANONYMOUS, -1, 0);
    if (room == MAP_FAILED || mprotect(room + ROOM, page, PROT_NONE) != 0) {
        stop(1, "no room", 0);
    }
    return room + ROOM;
}

int main(void) {
    uint8_t *end = fenced_end();
    unsigned long at = 0;
    for (;; at++) {
        uint8_t head[4];
        size_t got = fread(head, 1, 4, stdin);
        if (got == 0 && feof(stdin)) {
            break;
        }
        if (got != 4) {
            stop(2, "its length is cut", at);
        }
        size_t len = head[0] | (size_t)head[1] << 8 | (size_t)head[2] << 16 | (size_t)head[3] << 24;
        if (len > ROOM) {
            stop(2, "too long", at);
        }
        uint8_t *file = malloc(len), *fenced = end - len;
        if (file == NULL) {
            stop(1, "no room", at);
        }
        if (fread(file, 1, len, stdin) != len) {
            stop(2, "its bytes are cut", at);
        }
        memcpy(fenced, file, len);
        struct answer a = ask(file, len);
        int kept = memcmp(file, fenced, len) == 0;
        struct answer b = ask(fenced, len);
        if (!kept || memcmp(file, fenced, len) != 0) {
            stop(1, "the file was changed", at);
        }
        if (!same(a, b)) {
            stop(1, "another answer at another address", at);
        }
        free(file);
        if (a.number == 0 && a.place == 0) {
            printf("0 %zu %zu\n", a.n, a.m);
        } else if (a.number == 8 && a.n == 0 && a.m == 0) {
            printf("8 %zu\n", a.place);
        } else {
            stop(1, "an answer of neither form", at);
        }
    }
    return 0;
}

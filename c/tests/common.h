/* What the tests in C share: a file is read, and what a call answers is compared with what was worked out by hand. */
#ifndef DRAMSIM_COMMON_H
#define DRAMSIM_COMMON_H

#include "dramsim.h"

#include <stdio.h>
#include <stdlib.h>

#define EXPECT(what, expected) expect(#what, (uint64_t)(what), (uint64_t)(expected))

static inline void expect(const char *what, uint64_t got, uint64_t expected) {
    if (got != expected) {
        fprintf(stderr, "%s is %llu, and not %llu\n", what, (unsigned long long)got, (unsigned long long)expected);
        exit(1);
    }
}

static inline size_t read_text(const char *path, uint8_t *text, size_t room) {
    FILE *file = fopen(path, "rb");
    if (!file) { perror(path); exit(1); }
    size_t length = fread(text, 1, room, file);
    fclose(file);
    return length;
}

#endif

/* For tests: counts checks that hold, and prints the others with their place. */
#ifndef CHECK_H
#define CHECK_H

#include <stdbool.h>
#include <stdint.h>
#include <stdio.h>
#include <stdlib.h>
#include <string.h>

static int checks, failures;

static void check_at(bool holds, const char *what, const char *file, int line) {
    checks++;
    if (holds) return;
    failures++;
    printf("%s:%d: %s does not hold\n", file, line, what);
}

#define CHECK(holds) check_at((holds), #holds, __FILE__, __LINE__)

static inline bool same(const uint8_t *found, const char *wanted, size_t size) { return memcmp(found, wanted, size) == 0; }

static inline int checked(void) {
    printf("%d checks, %d failed\n", checks, failures);
    return failures ? EXIT_FAILURE : EXIT_SUCCESS;
}

#endif

/* The packets of a run, for the programs of this folder. A line of standard input is the millisecond at which a packet arrives, and its
 * bytes as hexadecimal digits; a line of standard output is the millisecond at which a unit leaves, and its bytes. */
#ifndef SCHEDULE_H
#define SCHEDULE_H

#include <stdint.h>
#include <stdio.h>
#include <stdlib.h>
#include <string.h>

enum { MOST_BYTES = 1500 };

typedef struct {
    int64_t at;
    size_t size;
    uint8_t bytes[MOST_BYTES];
} arrival;

static void fail(const char *what) {
    fprintf(stderr, "losses: %s\n", what);
    exit(EXIT_FAILURE);
}

/* Whether there was another packet. */
static int next_arrival(arrival *to) {
    static char digits[2 * MOST_BYTES + 1];
    long long at;
    if (scanf("%lld %3000s", &at, digits) != 2) return 0;
    to->at = at;
    to->size = strlen(digits) / 2;
    for (size_t i = 0; i < to->size; i++) {
        unsigned byte;
        if (sscanf(digits + 2 * i, "%2x", &byte) != 1) fail("no hexadecimal digits");
        to->bytes[i] = (uint8_t)byte;
    }
    return 1;
}

static void print_unit(int64_t at, const uint8_t *bytes, size_t size) {
    printf("%lld ", (long long)at);
    for (size_t i = 0; i < size; i++) printf("%02x", bytes[i]);
    putchar('\n');
}

#endif

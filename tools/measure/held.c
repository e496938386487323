/* Pushes and pops with a given number of held packets, for a count of instructions: held ORDER HELD. In order: after a gap, a
 * packet arrives and the oldest unit is released. Scattered: a window of packets arrives in a mixed order, and then all units
 * are released. tools/measure/instructions.sh runs it under callgrind, which counts only inside `measured`. */
#include "codec_payload.h"

#include <stdio.h>
#include <stdlib.h>
#include <string.h>

enum { ROUNDS = 4096 };

static cpay_buffer buffer = CPAY_INIT;

static void check(cpay_status status) {
    if (status == CPAY_OK) return;
    fprintf(stderr, "%s\n", cpay_status_text(status));
    exit(EXIT_FAILURE);
}

static void push(uint64_t number) {
    static const uint8_t payload[8] = {0};
    cpay_received packet = {.number = number, .rtp_time = number * 960};
    check(cpay_buffer_push(&buffer, &packet, payload, sizeof payload));
}

static void pop(uint64_t number) {
    static uint8_t bytes[8];
    cpay_unit unit = {0};
    check(cpay_buffer_pop(&buffer, &unit, bytes, sizeof bytes));
    if (unit.first != number) exit(EXIT_FAILURE);
}

/* The first number is released at once, the second is missing, and `held` packets wait after it. */
static uint64_t fill(uint64_t held) {
    push(0);
    pop(0);
    for (uint64_t number = 2; number < 2 + held; number++) push(number);
    return 2 + held;
}

__attribute__((noinline)) static void measured(bool in_order, uint64_t next, uint64_t held) {
    if (in_order) {
        for (uint64_t number = next; number < next + ROUNDS; number++) {
            push(number);
            pop(number - held);
        }
        return;
    }
    for (uint64_t window = next; window < next + ROUNDS; window += held) {
        /* an odd factor goes through all numbers of a window whose length is a power of two */
        for (uint64_t i = 0; i < held; i++) push(window + (i * 2531 + 17) % held);
        for (uint64_t i = 0; i < held; i++) pop(window + i);
    }
}

int main(int count, char **words) {
    cpay_spec spec = {.codec = CPAY_OPUS, .rate = 48000};
    uint64_t held = count == 3 ? strtoull(words[2], NULL, 10) : 0;
    if (held == 0 || held > 32768) return 2;
    bool in_order = strcmp(words[1], "in-order") == 0;
    /* scattered: nothing is held between two windows, and only the order decides the release of frames */
    check(cpay_buffer_new(&buffer, &spec, in_order ? held : 0, 65536));
    if (!in_order) push(0), pop(0);
    measured(in_order, in_order ? fill(held) : 1, held);
    cpay_buffer_free(&buffer);
    return 0;
}

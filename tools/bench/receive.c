/* Receives packets of Opus or VP8 while a number of packets is held: receive CALL KIND HELD. Each of ROUNDS packets arrives, and
 * then the units that are complete leave. KIND: `opus` (120 bytes, in order), `ranges` (the same, ranges of 32 in reverse order),
 * `vp8` (1,200 bytes, 17 packets a frame) or `ring` (packets of Opus through a ring that keeps no promises). tools/measure/receiving.py
 * runs it under callgrind, which counts only inside the function of CALL: `receive`, `pop`, `lend`, `push`, `pop_buffer`, `put` or
 * `take`. With CALL `time` it prints the nanoseconds of processor time of a packet, as the least of several runs, with `time-lend` those of
 * a packet whose unit is lent, with `time-buffer` those of a buffer, and with `time-cold` those of HELD receivers in turn, 10,000 if HELD is
 * 0. A unit leaves after each packet that ends a frame: by `lend` and `time-lend` it is lent, and otherwise copied. */
#define _POSIX_C_SOURCE 199309L
#include "codec_payload.h"

#include <stdio.h>
#include <stdlib.h>
#include <string.h>
#include <time.h>

enum { ROUNDS = 2176, HEADER = 12, LARGEST = 1400, RANGE = 32, FRAME = 17, STREAMS = 10000, RUNS = 12 };

static cpay_receiver receiver = CPAY_INIT;
static cpay_buffer buffer = CPAY_INIT;
static uint8_t datagram[LARGEST], bytes[FRAME * LARGEST];
static size_t payload_len = 120;
static uint64_t packets_a_frame = 1, range = 1;

static void check(cpay_status status) {
    if (status == CPAY_OK) return;
    fprintf(stderr, "receive: %s\n", cpay_status_text(status));
    exit(EXIT_FAILURE);
}

/* The number of the packet that arrives at this place: in order, or ranges that are each in reverse order. */
static uint64_t number_at(uint64_t place) {
    return place / range * range + range - 1 - place % range;
}

static bool ends_frame(uint64_t number) {
    return number % packets_a_frame == packets_a_frame - 1;
}

static void make_packet(uint64_t number) {
    uint32_t time = (uint32_t)(number / packets_a_frame * 960);
    bool is_video = packets_a_frame > 1;
    datagram[0] = 0x80, datagram[1] = (uint8_t)(96 | (is_video && ends_frame(number) ? 0x80 : 0));
    datagram[2] = (uint8_t)(number >> 8), datagram[3] = (uint8_t)number;
    for (int i = 0; i < 4; i++) datagram[4 + i] = (uint8_t)(time >> (24 - 8 * i)), datagram[8 + i] = (uint8_t)(i == 3 ? 7 : 0);
    /* the payload descriptor of VP8, which says whether a partition starts */
    if (is_video) datagram[HEADER] = number % packets_a_frame == 0 ? 0x10 : 0;
}

static void receive_by(cpay_receiver *one, uint64_t now) {
    cpay_outcome outcome;
    check(cpay_receiver_receive(one, now, datagram, HEADER + payload_len, &outcome));
}

static cpay_status pop_of(cpay_receiver *one, uint64_t now) {
    cpay_unit unit;
    return cpay_receiver_pop(one, now, &unit, bytes, sizeof bytes);
}

static void push_packet(uint64_t number) {
    cpay_received packet = {.number = number, .rtp_time = number / packets_a_frame * 960,
                            .marker = packets_a_frame > 1 && ends_frame(number)};
    check(cpay_buffer_push(&buffer, &packet, datagram + HEADER, payload_len));
}

/* ---- What is counted ---- */

#define COUNTED __attribute__((noinline, noclone)) void

COUNTED receive(uint64_t now) {
    receive_by(&receiver, now);
}

COUNTED pop(uint64_t now) {
    check(pop_of(&receiver, now));
}

COUNTED lend(uint64_t now) {
    cpay_unit unit;
    const uint8_t *at;
    check(cpay_receiver_lend(&receiver, now, &unit, &at));
}

COUNTED push(uint64_t number) {
    push_packet(number);
}

COUNTED pop_buffer(void) {
    cpay_unit unit;
    check(cpay_buffer_pop(&buffer, &unit, bytes, sizeof bytes));
}

/* A bound from below: slots by number, an allocation for each payload, no frames and no promises. */
static struct { uint8_t *payload; size_t len; } ring[1 << 16];

COUNTED put(uint64_t number) {
    size_t slot = number & 0xffff;
    ring[slot].payload = malloc(payload_len);
    if (!ring[slot].payload) exit(EXIT_FAILURE);
    ring[slot].len = payload_len;
    memcpy(ring[slot].payload, datagram + HEADER, payload_len);
}

COUNTED take(uint64_t number) {
    size_t slot = number & 0xffff;
    memcpy(bytes, ring[slot].payload, ring[slot].len);
    free(ring[slot].payload);
    ring[slot].payload = NULL;
}

/* ---- The work around it ---- */

static void new_receiver(cpay_receiver *one, cpay_receiver_settings settings, uint32_t codec, uint32_t rate) {
    settings.spec.codec = codec, settings.spec.rate = rate, settings.payload_type = 96, settings.limit = 65536;
    check(cpay_receiver_new(one, &settings, NULL, 0));
}

static void through_receiver(uint64_t place) {
    make_packet(number_at(place));
    receive(place);
    if (ends_frame(place)) pop(place);
}

static void through_loans(uint64_t place) {
    make_packet(number_at(place));
    receive(place);
    if (ends_frame(place)) lend(place);
}

static void through_buffer(uint64_t place) {
    make_packet(number_at(place));
    push(number_at(place));
    if (ends_frame(place)) pop_buffer();
}

static uint64_t held;

static void through_ring(uint64_t place) {
    put(place);
    take(place - held);
}

static double time_now(void) {
    struct timespec time;
    clock_gettime(CLOCK_PROCESS_CPUTIME_ID, &time);
    return 1e9 * (double)time.tv_sec + (double)time.tv_nsec;
}

/* A packet arrives and a unit leaves, in each of many receivers in turn, so that each is cold. */
static void print_cold(uint32_t codec, uint32_t rate) {
    static cpay_receiver receivers[STREAMS];
    const size_t streams = held > 0 && held < STREAMS ? (size_t)held : STREAMS;
    cpay_receiver_settings live;
    cpay_receiver_settings_init(&live, CPAY_OPUS, 48000, 0, CPAY_FOR_LIVE); /* the windows of audio for each codec */
    for (size_t i = 0; i < streams; i++) new_receiver(&receivers[i], live, codec, rate);
    double least = 0;
    for (uint64_t run = 0; run < RUNS; run++) {
        double start = time_now();
        make_packet(run);
        for (size_t i = 0; i < streams; i++) {
            receive_by(&receivers[i], run);
            cpay_status status = pop_of(&receivers[i], run);
            if (run > 0) check(status); /* the first unit waits for a second packet */
        }
        double took = (time_now() - start) / (double)streams;
        if (run == 1 || (run > 1 && took < least)) least = took;
    }
    printf("%.1f\n", least);
}

int main(int count, char **words) {
    if (count != 4 || strtoull(words[3], NULL, 10) > 30000) return EXIT_FAILURE;
    const char *call = words[1], *kind = words[2];
    held = strtoull(words[3], NULL, 10);
    uint32_t codec = CPAY_OPUS, rate = 48000;
    if (!strcmp(kind, "ranges")) range = RANGE;
    if (!strcmp(kind, "vp8")) codec = CPAY_VP8, rate = 90000, packets_a_frame = FRAME, payload_len = 1200;
    if (!strcmp(call, "time-cold")) return print_cold(codec, rate), 0;
    bool is_timed = !strncmp(call, "time", 4);
    bool bare = !strcmp(call, "push") || !strcmp(call, "pop_buffer") || !strcmp(call, "time-buffer");
    bool lends = !strcmp(call, "lend") || !strcmp(call, "time-lend");
    void (*once)(uint64_t) = !strcmp(kind, "ring") ? through_ring : bare ? through_buffer : lends ? through_loans : through_receiver;
    const cpay_spec spec = {.codec = codec, .rate = rate};
    check(cpay_buffer_new(&buffer, &spec, CPAY_NO_HOLD_BACK, 65536));
    cpay_receiver_settings file;
    cpay_receiver_settings_init(&file, codec, rate, 0, CPAY_FOR_FILE); /* a frame waits for missing packets without a limit of time */
    new_receiver(&receiver, file, codec, rate);
    uint64_t place = 0;
    for (; place < held; place++) {
        make_packet(number_at(place));
        if (once == through_ring) put(place);
        else if (bare) push_packet(number_at(place));
        else receive_by(&receiver, place);
    }
    double least = 0;
    for (int run = 0; run < (is_timed ? RUNS : 1); run++) {
        double start = time_now();
        for (uint64_t i = 0; i < ROUNDS; i++) once(place++);
        double took = (time_now() - start) / ROUNDS;
        if (run == 0 || took < least) least = took;
    }
    if (is_timed) printf("%.1f\n", least);
    return EXIT_SUCCESS;
}

/* Receives datagrams in a session, each followed by polls until there is no event:
 *
 *   sessions streams N ROUNDS BATCH   N streams of Opus in turn, 120 bytes a packet, nothing is lost; polls follow each BATCH datagrams
 *   sessions gap HELD COUNT           HELD packets of VP8 wait behind a lost one, which is requested; the next deadline is asked for too
 *   sessions frames SIZE COUNT        VP8 of SIZE packets a frame, of which none is lost, in the same way
 *   sessions call SDP PCAP            a captured call, each datagram at its time, by the session description of its sender; requests
 *                                     are made, and go nowhere
 *
 * It prints how many datagrams the function `counted` had, inside which tools/measure/receiving.py counts instructions by callgrind.
 * Except for `call` it also prints the nanoseconds of processor time of a datagram, in the least of the rounds through all streams or
 * of COUNT. */
#define _POSIX_C_SOURCE 199309L
#include "codec_payload.h"
#include "codec_payload_sdp.h"

#include <stdio.h>
#include <stdlib.h>
#include <string.h>
#include <time.h>

enum { HEADER = 12, PAYLOAD = 120, VIDEO = 20, WARM = 4, MOST = 1 << 22 };

static cpay_session session = CPAY_INIT;
static uint8_t file[MOST];

static void check(cpay_status status) {
    if (status == CPAY_OK) return;
    fprintf(stderr, "sessions: %s\n", cpay_status_text(status));
    exit(EXIT_FAILURE);
}

static size_t units;
static uint32_t batch = 1, waiting;
static bool asks_deadline;

/* A datagram, and all events after the last one of a batch. */
static void take(uint64_t now, const uint8_t *datagram, size_t len) {
    cpay_arrival arrival;
    cpay_event event;
    cpay_status status;
    uint64_t deadline;
    check(cpay_session_receive(&session, now, datagram, len, &arrival));
    if (++waiting < batch) return;
    waiting = 0;
    while ((status = cpay_session_poll(&session, now, &event)) != CPAY_NONE) {
        check(status);
        units += event.kind == CPAY_EVENT_UNIT;
    }
    if (asks_deadline && cpay_session_next_deadline(&session, &deadline) != CPAY_NONE && deadline <= now) exit(EXIT_FAILURE);
}

__attribute__((noinline, noclone)) void counted(uint64_t now, const uint8_t *datagram, size_t len) {
    take(now, datagram, len);
}

static double time_now(void) {
    struct timespec time;
    clock_gettime(CLOCK_PROCESS_CPUTIME_ID, &time);
    return 1e9 * (double)time.tv_sec + (double)time.tv_nsec;
}

static void print_least(uint64_t datagrams, double least) {
    printf("%lu %.1f\n", (unsigned long)datagrams, least);
}

/* Writes a header of RTP: the number, the time and the SSRC. */
static void put_header(uint8_t *datagram, uint32_t number, uint32_t time, uint32_t ssrc) {
    datagram[2] = (uint8_t)(number >> 8), datagram[3] = (uint8_t)number;
    for (int i = 0; i < 4; i++) datagram[4 + i] = (uint8_t)(time >> (24 - 8 * i)), datagram[8 + i] = (uint8_t)(ssrc >> (24 - 8 * i));
}

static int of_streams(uint32_t streams, uint32_t rounds) {
    static uint8_t datagram[HEADER + PAYLOAD] = {0x80, 96};
    const cpay_session_format opus = {.spec = {.codec = CPAY_OPUS, .rate = 48000}, .payload_type = 96};
    cpay_session_settings settings;
    cpay_session_settings_init(&settings, CPAY_FOR_LIVE);
    settings.max_streams = streams;
    check(cpay_session_new(&session, &settings, &opus, 1, NULL, 0, NULL, 0));
    double least = 0;
    for (uint32_t number = 0; number < WARM + rounds; number++) {
        double start = time_now();
        for (uint32_t ssrc = 1; ssrc <= streams; ssrc++) {
            put_header(datagram, number, 960 * number, ssrc);
            (number < WARM ? take : counted)(20u * number, datagram, sizeof datagram);
        }
        double took = (time_now() - start) / streams;
        if (number == WARM || (number > WARM && took < least)) least = took;
    }
    if (units + batch < (size_t)(WARM + rounds) * streams) return EXIT_FAILURE;
    print_least((uint64_t)rounds * streams, least);
    return EXIT_SUCCESS;
}

/* A packet of a stream of VP8, which begins a frame, or ends it, or both. */
static const uint8_t *video(uint32_t number, uint32_t frame, bool first, bool last) {
    static uint8_t datagram[VIDEO];
    datagram[0] = 0x80, datagram[1] = last ? 0x80 | 96 : 96;
    put_header(datagram, number, 3000 * frame, 5);
    datagram[HEADER] = first ? 0x10 : 0, datagram[HEADER + 1] = first ? 0x11 : 7;
    return datagram;
}

/* The kinds `gap` and `frames` of tools/speed/src/bin/hostile.rs. */
static int of_video(bool has_gap, uint32_t size, uint32_t count) {
    const cpay_session_format vp8 = {.spec = {.codec = CPAY_VP8, .rate = 90000}, .payload_type = 96, .nack = true, .pli = true};
    const uint8_t name[] = "bench";
    cpay_session_settings settings;
    cpay_session_settings_init(&settings, CPAY_FOR_LIVE);
    settings.limit = 65536;
    check(cpay_session_settings_feedback(&settings, 1, name, sizeof name - 1));
    check(cpay_session_new(&session, &settings, &vp8, 1, NULL, 0, NULL, 0));
    uint32_t number = 0;
    for (; number < 2; number++) take(0, video(number, number, true, true), VIDEO);
    asks_deadline = true;
    if (has_gap) number++;
    for (uint32_t part = 0; part < size; part++) take(0, video(number++, 2, part == 0, !has_gap && part + 1 == size), VIDEO);
    double start = time_now();
    for (uint32_t place = 0; place < count; place++) {
        uint32_t part = place % size, frame = 3 + (has_gap ? place : place / size);
        counted((1 + place) / 1000, video(number++, frame, !has_gap && part == 0, !has_gap && part + 1 == size), VIDEO);
    }
    print_least(count, (time_now() - start) / count);
    return EXIT_SUCCESS;
}

static size_t read_file(const char *name) {
    FILE *in = fopen(name, "rb");
    size_t len = in ? fread(file, 1, sizeof file, in) : 0;
    if (!in || len == 0 || len == sizeof file) exit(EXIT_FAILURE);
    fclose(in);
    return len;
}

static uint32_t number_at(const uint8_t *at) {
    return (uint32_t)at[0] | (uint32_t)at[1] << 8 | (uint32_t)at[2] << 16 | (uint32_t)at[3] << 24;
}

/* A capture of tcpdump, little-endian, with microseconds, of UDP over IPv4 over Ethernet. */
static int of_call(const char *description, const char *capture) {
    static cpay_sdp_media media[8];
    static cpay_sdp_session_settings of;
    const uint8_t name[] = "bench";
    cpay_sdp_fault fault;
    cpay_sdp_session_fault clash;
    size_t count = 0, done = 0;
    check(cpay_sdp_read((const char *)file, read_file(description), media, 8, &count, &fault));
    check(cpay_sdp_session(media, count, &of, &clash));
    check(cpay_session_settings_feedback(&of.settings, 1, name, sizeof name - 1));
    check(cpay_session_new(&session, &of.settings, of.formats, of.formats_len, of.no_media, of.no_media_len, of.pairs, of.pairs_len));
    size_t len = read_file(capture), at = 24;
    if (len < at || number_at(file) != 0xa1b2c3d4u || number_at(file + 20) != 1) return EXIT_FAILURE;
    while (at + 16 <= len) {
        const uint64_t now = (uint64_t)number_at(file + at) * 1000 + number_at(file + at + 4) / 1000;
        const size_t size = number_at(file + at + 8);
        const uint8_t *frame = file + at + 16;
        at += 16 + size;
        if (at > len || size < 42 || frame[12] != 8 || frame[13] != 0 || frame[23] != 17) continue;
        const size_t header = 14 + 4u * (frame[14] & 15u) + 8;
        const size_t udp = (size_t)(frame[header - 4] << 8 | frame[header - 3]);
        if (udp < 8 || header + udp - 8 > size) continue;
        counted(now, frame + header, udp - 8);
        done++;
    }
    printf("%lu\n", (unsigned long)done);
    return units ? EXIT_SUCCESS : EXIT_FAILURE;
}

int main(int count, char **words) {
    uint32_t numbers[2] = {0};
    for (int i = 0; i < 2 && i + 2 < count; i++) numbers[i] = (uint32_t)strtoul(words[i + 2], NULL, 10);
    if (count == 4 && !strcmp(words[1], "call")) return of_call(words[2], words[3]);
    if (count < 4 || numbers[0] == 0 || numbers[1] == 0) return EXIT_FAILURE;
    if (count == 4 && !strcmp(words[1], "gap")) return of_video(true, numbers[0], numbers[1]);
    if (count == 4 && !strcmp(words[1], "frames")) return of_video(false, numbers[0], numbers[1]);
    if (count != 5 || strcmp(words[1], "streams") || atoi(words[4]) <= 0) return EXIT_FAILURE;
    batch = (uint32_t)atoi(words[4]);
    return of_streams(numbers[0], numbers[1]);
}

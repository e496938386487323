/* Times calls of the library for C, whose code is proved: bench CASE TIMES REPEATS MTU does the work of that case TIMES times in a
 * row, REPEATS times, and prints the case and the nanoseconds that one frame took, in the least of the repeats and in the median,
 * separated by tabs. Without arguments it prints the names of all cases. tools/measure/bench.sh and tools/measure/allocations.sh run it. */
#define _POSIX_C_SOURCE 199309L
#include "codec_payload.h"

#include <stdio.h>
#include <stdlib.h>
#include <string.h>
#include <time.h>

enum { LARGEST = 200000 + 64, PACKETS = 4096, STREAMS = 10000, RED_STEP = 960 };

static size_t mtu;
static uint8_t frame[LARGEST], space[2 * LARGEST];
static size_t frame_len;

static void fail(const char *why) {
    fprintf(stderr, "bench: %s\n", why);
    exit(EXIT_FAILURE);
}

static void check(cpay_status status) {
    if (status != CPAY_OK) fail(cpay_status_text(status));
}

/* ---- Frames ---- */

/* Bytes without a pattern, always the same. */
static void noise(uint8_t *out, size_t count) {
    uint64_t x = 0x243f6a8885a308d3u;
    for (size_t i = 0; i < count; i++) {
        x ^= x << 13, x ^= x >> 7, x ^= x << 17;
        out[i] = (uint8_t)x;
    }
}

static size_t put_leb(uint8_t *out, size_t number) {
    size_t size = 0;
    for (; number >= 128; number /= 128) out[size++] = (uint8_t)(number % 128 + 128);
    out[size++] = (uint8_t)number;
    return size;
}

/* Adds an OBU with this header and `count` bytes to the frame. */
static void put_obu(uint8_t header, size_t count) {
    frame[frame_len++] = header;
    frame_len += put_leb(frame + frame_len, count);
    noise(frame + frame_len, count);
    frame_len += count;
}

/* A temporal unit of about that many bytes: a delimiter, a sequence header and a frame, or a frame header and eight tile groups. */
static void make_av1(size_t size, bool tiles) {
    uint8_t scratch[10];
    frame_len = 0;
    put_obu(0x12, 0);
    if (tiles) {
        put_obu(0x1a, 8);
        for (size_t each = (size - frame_len) / 8 - 4, i = 0; i < 8; i++) put_obu(0x22, each);
    } else {
        put_obu(0x0a, 10);
        size_t rest = size - frame_len - 2;
        put_obu(0x32, rest + 1 - put_leb(scratch, rest));
    }
}

/* A type of frames: the settings of its codec, and the first byte of its frames, if it matters. */
typedef struct {
    const char *name;
    cpay_spec spec;
    uint8_t first;
} kind;

static const kind KINDS[] = {
    {"opus", {.codec = CPAY_OPUS}, 0},
    {"g711", {.codec = CPAY_PCMU}, 0},
    {"amrwb-be", {.codec = CPAY_AMR_WB}, 0x44}, /* type 8, whole */
    {"amrwb-octet", {.codec = CPAY_AMR_WB, .octet_align = true}, 0x44},
    {"cn", {.codec = CPAY_CN}, 0},
    {"tele", {.codec = CPAY_TELE}, 0},
    {"vp8", {.codec = CPAY_VP8}, 0x87}, /* an interframe */
    {"vp8-id", {.codec = CPAY_VP8, .vp8_ids = true}, 0x87},
    {"vp9", {.codec = CPAY_VP9}, 0x87},
    {"vp9-flex", {.codec = CPAY_VP9, .vp9_flexible = true}, 0x87},
    {"av1", {.codec = CPAY_AV1}, 0},
    {"av1-tiles", {.codec = CPAY_AV1}, 0},
};

/* A number of bytes stands last in each name. */
static const char *const FAMILIES[] = {
    "opus-120", "g711-160", "amrwb-be-61", "amrwb-octet-61", "cn-8", "tele-4", "vp8-1k", "vp8-20k", "vp8-200k", "vp8-id-1k",
    "vp8-id-20k", "vp8-id-200k", "vp9-1k", "vp9-20k", "vp9-200k", "vp9-flex-1k", "vp9-flex-20k", "vp9-flex-200k", "av1-1k",
    "av1-20k", "av1-200k", "av1-tiles-1k", "av1-tiles-20k", "av1-tiles-200k",
};

/* The settings of a family, whose frame is made. */
static cpay_spec make_frame(const char *family) {
    const char *digits = strrchr(family, '-') + 1;
    size_t size = strtoull(digits, NULL, 10) * (strchr(digits, 'k') ? 1000 : 1);
    for (size_t i = 0; i < sizeof KINDS / sizeof *KINDS; i++) {
        if (strlen(KINDS[i].name) != (size_t)(digits - 1 - family) || strncmp(KINDS[i].name, family, strlen(KINDS[i].name)))
            continue;
        cpay_spec spec = KINDS[i].spec;
        spec.rate = 8000;
        noise(frame, frame_len = size);
        if (KINDS[i].first) frame[0] = KINDS[i].first;
        if (spec.codec == CPAY_TELE) memcpy(frame, "\5\x8a\3\x20", 4);
        if (spec.codec == CPAY_AV1) make_av1(size, strcmp(KINDS[i].name, "av1") != 0);
        return spec;
    }
    fail("no such family");
    return KINDS[0].spec;
}

/* ---- The timed work ---- */

static cpay_packetizer packetizer = CPAY_INIT;
static cpay_depacketizer depacketizer = CPAY_INIT;
static cpay_sender sender = CPAY_INIT;
static cpay_receiver receiver = CPAY_INIT;
static cpay_red_sender red = CPAY_INIT;
static cpay_buffer buffer = CPAY_INIT;
static cpay_buffer streams[STREAMS];
/* The packets of the frame, one behind the other, and where each begins. */
static uint8_t packets[2 * LARGEST];
static size_t starts[PACKETS + 1], packet_count;
static uint64_t next, held;
static bool has_jitter;
static uint8_t datagram[120];

static void packetize(void) {
    size_t count;
    check(cpay_packetize(&packetizer, mtu, false, frame, frame_len, &count));
}

static void packetize_into(void) {
    static cpay_placed_packet placed[PACKETS];
    const cpay_frame_cut cut = {.mtu = mtu, .headroom = 12};
    cpay_frame_room room;
    check(cpay_packetize_into(&packetizer, &cut, frame, frame_len, space, sizeof space, placed, PACKETS, &room));
}

static void send_frame(void) {
    size_t count;
    check(cpay_sender_send(&sender, next += 960, false, frame, frame_len, &count));
}

static void depacketize(void) {
    size_t size;
    cpay_extra extra;
    for (size_t i = 0; i < packet_count; i++) check(cpay_depacketize(&depacketizer, packets + starts[i], starts[i + 1] - starts[i]));
    check(cpay_depacketized(&depacketizer, &size, &extra, space, sizeof space));
}

/* The frame is read where the depacketizer has it. */
static void depacketize_lent(void) {
    cpay_lent_unit unit = {0};
    for (size_t i = 0; i < packet_count; i++) check(cpay_depacketize(&depacketizer, packets + starts[i], starts[i + 1] - starts[i]));
    check(cpay_depacketizer_unit(&depacketizer, &unit));
    __asm__ volatile("" : : "r"(unit.at) : "memory");
    check(cpay_depacketizer_clear(&depacketizer));
}

/* Copies each packet into separate memory. */
static void copy(void) {
    uint8_t **all = malloc((packet_count + 1) * sizeof *all);
    for (size_t i = 0; all && i < packet_count; i++)
        if ((all[i] = malloc(starts[i + 1] - starts[i]))) memcpy(all[i], packets + starts[i], starts[i + 1] - starts[i]);
    for (size_t i = 0; all && i < packet_count; i++) free(all[i]);
    free(all);
}

/* Copies all packets into memory that is used again. */
static void copy_into(void) {
    for (size_t i = 0; i < packet_count; i++) memcpy(space + starts[i], packets + starts[i], starts[i + 1] - starts[i]);
    __asm__ volatile("" : : "r"(space) : "memory");
}

static void wrap(void) {
    size_t size;
    check(cpay_red_wrap(&red, (uint32_t)(next += RED_STEP), mtu, frame, 120, space, sizeof space, &size));
    packet_count = 1;
    starts[1] = size;
}

static void decode(void) {
    cpay_red_block_place places[33];
    size_t count;
    check(cpay_red_blocks(packets, starts[1], places, 33, &count));
}

/* The number of the k-th packet: each 32 consecutive packets arrive in another order. */
static uint64_t number_of(uint64_t k) {
    return has_jitter ? k / 32 * 32 + k % 32 * 13 % 32 : k;
}

static void push(cpay_buffer *to, uint64_t number) {
    const cpay_received packet = {.number = number, .received = number, .rtp_time = number * 960, .marker = true};
    check(cpay_buffer_push(to, &packet, frame, 100));
}

static void pop(cpay_buffer *from) {
    cpay_unit unit;
    cpay_status status = cpay_buffer_pop(from, &unit, space, sizeof space);
    if (status != CPAY_NONE) check(status);
}

static void new_buffer(cpay_buffer *it, uint32_t codec) {
    const cpay_spec spec = {.codec = codec, .rate = 90000};
    cpay_buffer_free(it);
    check(cpay_buffer_new(it, &spec, 0, 65536));
}

/* A packet comes and a unit goes. */
static void steady(void) {
    push(&buffer, number_of(next++));
    pop(&buffer);
}

/* A buffer is filled from the last packet to the first, and gives all its units. */
static void reverse(void) {
    new_buffer(&buffer, CPAY_OPUS);
    for (uint64_t k = held; k > 0; k--) push(&buffer, k - 1);
    for (uint64_t k = 0; k < held; k++) pop(&buffer);
}

static void waiting(void) {
    pop(&buffer);
}

/* A packet comes and a unit goes, in each stream in turn. */
static void in_turn(void) {
    for (size_t i = 0; i < STREAMS; i++) push(&streams[i], next), pop(&streams[i]);
    next++;
}

/* The numbers of packets pushed and of units popped so far by a new buffer. */
static uint64_t kept_pushed, kept_popped;

static void keep_buffer(void) {
    new_buffer(&buffer, CPAY_OPUS);
    for (uint64_t k = 0; k < kept_pushed; k++) push(&buffer, k);
    for (uint64_t k = 0; k < kept_popped; k++) pop(&buffer);
}

static void nothing(void) {}

/* A sequence number, and a time of 960 ticks a number. */
static void put_number(uint64_t number) {
    uint32_t time = (uint32_t)(number * 960);
    datagram[2] = (uint8_t)(number >> 8), datagram[3] = (uint8_t)number;
    for (int i = 0; i < 4; i++) datagram[4 + i] = (uint8_t)(time >> (24 - 8 * i));
}

static void parse(void) {
    cpay_rtp_info info;
    put_number(next++);
    check(cpay_rtp_read(datagram, sizeof datagram, &info));
}

static void values(void) {
    static cpay_extension_values found;
    const cpay_extension_ids ids = {.audio_level = 1};
    put_number(next++);
    check(cpay_extension_values_of(datagram, sizeof datagram, &ids, &found));
}

static void copy_datagram(void) {
    put_number(next++);
    memcpy(space, datagram, 112);
    __asm__ volatile("" : : "r"(space) : "memory");
}

static void receive(void) {
    cpay_outcome outcome;
    put_number(number_of(next++));
    check(cpay_receiver_receive(&receiver, next, datagram, sizeof datagram, &outcome));
}

static void receive_and_pop(void) {
    cpay_unit unit;
    receive();
    cpay_status status = cpay_receiver_pop(&receiver, next, &unit, space, sizeof space);
    if (status != CPAY_NONE) check(status);
}

/* A receiver that waits only for missing packets. */
static void new_receiver(void) {
    cpay_receiver_settings settings = {.spec = {.codec = CPAY_OPUS, .rate = 48000}, .limit = 65536, .max_wait = 1 << 20,
                                       .tick_rate = 48000, .forward = 3000, .backward = 1000, .payload_type = 96,
                                       .has_max_wait = true};
    next = 0;
    cpay_receiver_free(&receiver);
    check(cpay_receiver_new(&receiver, &settings, NULL, 0));
}

static void keep_receiver(void) {
    new_receiver();
    for (uint64_t k = 0; k < held; k++) receive();
}

/* ---- Cases ---- */

typedef void work(void);

/* The work of a call of a family of frames; its packets are made. */
static work *frames_case(const char *family, const char *call) {
    cpay_spec spec = make_frame(family);
    cpay_packet_info info;
    check(cpay_packetizer_new(&packetizer, &spec));
    check(cpay_packetize(&packetizer, mtu, false, frame, frame_len, &packet_count));
    for (size_t i = 0; i < packet_count; i++) {
        check(cpay_packet(&packetizer, &info, packets + starts[i], sizeof packets - starts[i]));
        starts[i + 1] = starts[i] + info.bytes;
    }
    if (!strcmp(call, "packetize")) return packetize;
    if (!strcmp(call, "packetize-into")) return packetize_into;
    if (!strcmp(call, "copy")) return copy;
    if (!strcmp(call, "memcpy")) return copy_into;
    if (!strncmp(call, "depacketize", 11)) {
        check(cpay_depacketizer_new(&depacketizer, &spec));
        return strcmp(call, "depacketize") ? depacketize_lent : depacketize;
    }
    if (strcmp(call, "send")) return NULL;
    const cpay_sender_settings settings = {.spec = spec, .mtu = mtu, .ssrc = 7, .payload_type = 96};
    check(cpay_sender_new(&sender, &settings));
    return send_frame;
}

/* Payloads of 120 bytes in RED; the digits of the name are the distances at which they are repeated. */
static work *red_case(const char *family, const char *call) {
    uint32_t distances[8];
    size_t count = 0;
    for (const char *at = family + 4; *at && count < 8; at++) distances[count++] = (uint32_t)(*at - '0');
    check(cpay_red_sender_new(&red, 63, 111, distances, count));
    noise(frame, 120);
    for (int i = 0; i < 16; i++) wrap();
    memcpy(packets, space, starts[1]);
    if (!strcmp(call, "wrap")) return wrap;
    if (!strcmp(call, "decode")) return decode;
    return strcmp(call, "copy") ? NULL : copy;
}

/* Payloads of Opus of 100 bytes through a buffer; `waiting` holds parts of a frame whose end never comes. */
static work *buffer_case(const char *call) {
    noise(frame, 100);
    if (!strcmp(call, "reverse")) return reverse;
    if (!strcmp(call, "waiting")) {
        new_buffer(&buffer, CPAY_VP8);
        for (uint64_t number = 0; number < held; number++) {
            const cpay_received packet = {.number = number};
            check(cpay_buffer_push(&buffer, &packet, (const uint8_t *)"\x10\x90", 2));
        }
        return waiting;
    }
    has_jitter = !strcmp(call, "jitter");
    if (!has_jitter && strcmp(call, "in-order")) return NULL;
    new_buffer(&buffer, CPAY_OPUS);
    for (uint64_t k = 1; k < held; k++) push(&buffer, number_of(next++));
    return steady;
}

static work *packet_case(const char *call) {
    if (!strcmp(call, "parse")) return parse;
    if (!strcmp(call, "values")) return values;
    return strcmp(call, "memcpy") ? NULL : copy_datagram;
}

static work *receiver_case(const char *call) {
    new_receiver();
    has_jitter = !strcmp(call, "jitter");
    for (uint64_t k = 1; k < held; k++) receive();
    return has_jitter || !strcmp(call, "in-order") ? receive_and_pop : NULL;
}

/* What there was of a stream before its memory is looked at. */
static work *memory_case(const char *state) {
    static const struct {
        const char *name;
        uint64_t pushed, popped;
    } states[] = {{"idle", 0, 0}, {"one", 1, 1}, {"held-64", 64, 0}, {"drained-4096", 4096, 4096}, {"drained-65536", 65536, 65536}};
    noise(frame, 100);
    if (!strcmp(state, "none")) return nothing;
    if (!strncmp(state, "receiver-", 9)) {
        held = strtoull(state + 9, NULL, 10);
        return keep_receiver;
    }
    for (size_t i = 0; i < sizeof states / sizeof *states; i++) {
        if (strcmp(states[i].name, state)) continue;
        kept_pushed = states[i].pushed;
        kept_popped = states[i].popped;
        return keep_buffer;
    }
    return NULL;
}

/* The work of a case, and how many frames each piece of it has. */
static work *case_of(const char *family, const char *call, uint64_t *frames) {
    noise(datagram, sizeof datagram);
    /* Opus of SSRC 7 under payload type 96, with an audio level in a header extension (RFC 8285, RFC 6464) */
    memcpy(datagram, "\x90\x60\0\0\0\0\0\0\0\0\0\7\xbe\xde\0\1\x10\x8a\0\0", 20);
    if (!strncmp(family, "buffer-", 7)) {
        held = strtoull(family + 7, NULL, 10);
        if (!strcmp(call, "reverse")) *frames = held;
        return buffer_case(call);
    }
    if (!strncmp(family, "buffers-", 8)) {
        noise(frame, 100);
        *frames = STREAMS;
        for (size_t i = 0; i < STREAMS; i++) new_buffer(&streams[i], CPAY_OPUS);
        return in_turn;
    }
    if (!strncmp(family, "receiver-", 9)) {
        held = strtoull(family + 9, NULL, 10);
        return receiver_case(call);
    }
    if (!strcmp(family, "rtp")) return packet_case(call);
    if (!strcmp(family, "memory")) return memory_case(call);
    if (!strncmp(family, "red-", 4)) return red_case(family, call);
    return frames_case(family, call);
}

static void list_cases(void) {
    static const char *const calls[] = {"packetize", "packetize-into", "send", "depacketize", "depacketize-lent", "copy", "memcpy"};
    static const char *const rest[] = {
        "red-1/wrap", "red-1/decode", "red-1/copy", "red-12/wrap", "red-12/decode", "red-12/copy", "red-135/wrap", "red-135/decode",
        "red-135/copy", "buffer-64/in-order", "buffer-512/in-order", "buffer-4096/in-order", "buffer-65536/in-order",
        "buffer-64/jitter", "buffer-512/jitter", "buffer-4096/jitter", "buffer-65536/jitter", "buffer-64/reverse",
        "buffer-512/reverse", "buffer-4096/reverse", "buffer-65536/reverse", "buffer-64/waiting", "buffer-512/waiting",
        "buffer-4096/waiting", "buffer-65536/waiting", "buffers-10000/in-order", "memory/none", "memory/idle", "memory/one",
        "memory/held-64", "memory/drained-4096", "memory/drained-65536", "rtp/parse", "rtp/values", "rtp/memcpy",
        "receiver-64/in-order", "receiver-512/in-order", "receiver-4096/in-order", "receiver-64/jitter", "receiver-512/jitter",
        "receiver-4096/jitter", "memory/receiver-0", "memory/receiver-64",
    };
    for (size_t i = 0; i < sizeof FAMILIES / sizeof *FAMILIES; i++)
        for (size_t k = 0; k < sizeof calls / sizeof *calls; k++) printf("%s/%s\n", FAMILIES[i], calls[k]);
    for (size_t i = 0; i < sizeof rest / sizeof *rest; i++) printf("%s\n", rest[i]);
}

static int compare(const void *one, const void *other) {
    double a = *(const double *)one, b = *(const double *)other;
    return (a > b) - (a < b);
}

static double now(void) {
    struct timespec time;
    clock_gettime(CLOCK_MONOTONIC, &time);
    return 1e9 * (double)time.tv_sec + (double)time.tv_nsec;
}

int main(int count, char **words) {
    static double took[1000];
    if (count == 1) return list_cases(), 0;
    char family[64];
    const char *call = count == 5 ? strchr(words[1], '/') : NULL;
    if (!call || (size_t)(call - words[1]) >= sizeof family) fail("usage: bench CASE TIMES REPEATS MTU");
    snprintf(family, sizeof family, "%.*s", (int)(call - words[1]), words[1]);
    uint64_t times = strtoull(words[2], NULL, 10), repeats = strtoull(words[3], NULL, 10), frames = 1;
    mtu = strtoull(words[4], NULL, 10);
    work *once = case_of(family, call + 1, &frames);
    if (!once || !times || !repeats || repeats > 1000) fail("no such case");
    for (uint64_t i = 0; i < times; i++) once(); /* to warm up */
    for (uint64_t k = 0; k < repeats; k++) {
        double start = now();
        for (uint64_t i = 0; i < times; i++) once();
        took[k] = (now() - start) / (double)(times * frames);
    }
    qsort(took, repeats, sizeof *took, compare);
    printf("%s\t%.1f\t%.1f\n", words[1], took[0], took[repeats / 2]);
    return 0;
}

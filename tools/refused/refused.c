/* Makes one call of the library for C, whose code is proved, by the name that is the arguments, and prints what it answered and how
 * things are after it. scripts/refuse.sh refuses each of its allocations in turn. The status is 3, and nothing is printed, if memory
 * was refused before the call or after it, and 2 if there is no such call. */
#define _POSIX_C_SOURCE 200809L
#include "codec_payload.h"

#include <stdarg.h>
#include <stdio.h>
#include <stdlib.h>
#include <string.h>
#include <unistd.h>

/* A string and its length. */
#define BYTES(text) (const uint8_t *)(text), sizeof(text) - 1

static char text[2048];
static size_t text_len;

__attribute__((format(printf, 1, 2))) static void put(const char *form, ...) {
    va_list values;
    va_start(values, form);
    text_len += (size_t)vsnprintf(text + text_len, sizeof text - text_len, form, values);
    va_end(values);
}

/* A space and the bytes as hexadecimal digits, or `-` for no bytes. */
static void put_bytes(const uint8_t *bytes, size_t count) {
    put(count ? " " : " -");
    for (size_t i = 0; i < count; i++) put("%02x", bytes[i]);
}

static void put_answer(cpay_status status) {
    if (status)
        put(" fault %d", (int)status);
    else
        put(" ok");
}

/* A call before the one that is tried, or after it. */
static void check(cpay_status status) {
    if (status) exit(status == CPAY_OUT_OF_MEMORY ? 3 : 1);
}

/* A frame of a codec, the MTU that it is cut for, and its payloads as the rules of docs/use/FORMATS.md have them. */
typedef struct {
    const char *name;
    cpay_spec spec;
    size_t mtu;
    const uint8_t *frame;
    size_t frame_len;
    struct {
        const uint8_t *bytes;
        size_t count;
    } payloads[3];
} example;

static const example EXAMPLES[] = {
    {"opus", {.codec = CPAY_OPUS}, 2, BYTES("\x90\x90\x90"), {{BYTES("\x90\x90")}, {BYTES("\x90")}}},
    {"pcmu", {.codec = CPAY_PCMU}, 2, BYTES("\x90\x90\x90"), {{BYTES("\x90\x90")}, {BYTES("\x90")}}},
    {"g722", {.codec = CPAY_G722}, 2, BYTES("\x90\x90\x90"), {{BYTES("\x90\x90")}, {BYTES("\x90")}}},
    {"cn", {.codec = CPAY_CN}, 1200, BYTES("\x2a\x80\x40"), {{BYTES("\x2a\x80\x40")}}},
    {"amrwb", {.codec = CPAY_AMR_WB}, 2, BYTES("\x74"), {{BYTES("\xf7\x40")}}},
    {"amrwb-octet", {.codec = CPAY_AMR_WB, .octet_align = true}, 2, BYTES("\x74"), {{BYTES("\xf0\x74")}}},
    {"tele", {.codec = CPAY_TELE}, 8, BYTES("\x05\x8a\x03\x20\x06\x0a\x01\x40"), {{BYTES("\x05\x8a\x03\x20\x06\x0a\x01\x40")}}},
    {"vp8", {.codec = CPAY_VP8}, 2, BYTES("\x90\x90\x90"), {{BYTES("\x10\x90")}, {BYTES("\0\x90")}, {BYTES("\0\x90")}}},
    {"vp8-id", {.codec = CPAY_VP8, .vp8_ids = true, .first_id = 0x20}, 5, BYTES("\x90\x90\x90"),
     {{BYTES("\x90\x80\x20\x90\x90")}, {BYTES("\x80\x80\x20\x90")}}},
    {"vp9", {.codec = CPAY_VP9, .first_id = 0x1234}, 10, BYTES("\x82\x49\x83"),
     {{BYTES("\xaa\x92\x34\x10\x01\0\x82\x49")}, {BYTES("\xa4\x92\x34\x10\x01\x83")}}},
    {"vp9-flex", {.codec = CPAY_VP9, .vp9_flexible = true, .first_id = 0x1234}, 5, BYTES("\x82\x49\x83"),
     {{BYTES("\x98\x92\x34\x82\x49")}, {BYTES("\x94\x92\x34\x83")}}},
    {"av1", {.codec = CPAY_AV1}, 3, BYTES("\x12\0\x0a\x01\xaa\x32\x02\xbb\xcc"),
     {{BYTES("\x18\x08\xaa")}, {BYTES("\x50\x30\xbb")}, {BYTES("\x90\xcc")}}},
    {"null", {.codec = CPAY_NULL}, 2, BYTES("\x90\x90\x90"), {{BYTES("\x90\x90\x90")}}},
};

static size_t count_of(const example *it) {
    size_t count = 0;
    while (count < 3 && it->payloads[count].bytes) count++;
    return count;
}

static cpay_packetizer packetizer = CPAY_INIT;
static cpay_depacketizer depacketizer = CPAY_INIT;
static cpay_buffer buffer = CPAY_INIT;
static cpay_red_sender red = CPAY_INIT;
static uint8_t space[256];

static void put_packets(void) {
    cpay_packet_info info;
    while (cpay_packet(&packetizer, &info, space, sizeof space) == CPAY_OK) put_bytes(space, info.bytes);
}

/* Cuts the frame, and then cuts it again, which shows the ids. */
static void packetizes(const example *it) {
    size_t count;
    check(cpay_packetizer_new(&packetizer, &it->spec));
    put("packetize");
    cpay_status status = cpay_packetize(&packetizer, it->mtu, false, it->frame, it->frame_len, &count);
    if (status) put_answer(status);
    put_packets();
    put(", then");
    check(cpay_packetize(&packetizer, it->mtu, false, it->frame, it->frame_len, &count));
    put_packets();
}

/* Reads the last payload after the others. After a fault it is read again, which shows which bytes the fault left. */
static void depacketizes(const example *it) {
    size_t last = count_of(it) - 1, size;
    cpay_extra extra;
    check(cpay_depacketizer_new(&depacketizer, &it->spec));
    for (size_t i = 0; i < last; i++) check(cpay_depacketize(&depacketizer, it->payloads[i].bytes, it->payloads[i].count));
    cpay_status status = cpay_depacketize(&depacketizer, it->payloads[last].bytes, it->payloads[last].count);
    put("depacketize");
    put_answer(status);
    put(", then");
    if (status) check(cpay_depacketize(&depacketizer, it->payloads[last].bytes, it->payloads[last].count));
    check(cpay_depacketized(&depacketizer, &size, &extra, space, sizeof space));
    put_bytes(space, size);
}

static cpay_status push(uint64_t number, uint64_t time, bool marker, const uint8_t *payload, size_t count) {
    const cpay_received packet = {.number = number, .rtp_time = time, .marker = marker};
    return cpay_buffer_push(&buffer, &packet, payload, count);
}

static void new_buffer(uint32_t codec, size_t limit) {
    const cpay_spec spec = {.codec = codec, .rate = 8000};
    check(cpay_buffer_new(&buffer, &spec, 0, limit));
}

static void put_held(void) {
    cpay_buffer_counts_info counts;
    check(cpay_buffer_counts(&buffer, &counts));
    put(" held %zu ready %zu", counts.held, counts.ready);
}

static void put_unit(const cpay_unit *unit) {
    put(" unit %llu %llu %d", (unsigned long long)unit->first, (unsigned long long)unit->last, unit->contiguous);
    put_bytes(space, unit->bytes);
}

static void put_all_popped(void) {
    cpay_unit unit;
    cpay_status status;
    put(", then");
    while ((status = cpay_buffer_pop(&buffer, &unit, space, sizeof space)) != CPAY_NONE) check(status), put_unit(&unit);
}

/* Pops the next unit, and then all. */
static void pops(void) {
    cpay_unit unit;
    cpay_status status = cpay_buffer_pop(&buffer, &unit, space, sizeof space);
    put("pop");
    if (status)
        put_answer(status);
    else
        put_unit(&unit);
    put_held();
    put_all_popped();
}

/* Pops the first unit of the packets of a frame. */
static void pops_frame(const example *it) {
    cpay_spec spec = it->spec;
    spec.first_id = 0;
    check(cpay_buffer_new(&buffer, &spec, 0, 4096));
    size_t count = count_of(it);
    for (size_t i = 0; i < count; i++) check(push(i, 0, i + 1 == count, it->payloads[i].bytes, it->payloads[i].count));
    pops();
}

/* Pops after a frame that is older than the one before, by its picture id. Each frame is longer than the memory of the last. */
static void pops_after_skipping(void) {
    cpay_unit unit;
    new_buffer(CPAY_VP8, 4096);
    check(push(1, 1, true, BYTES("\x90\xe0\x0a\x05\0\1")));
    check(cpay_buffer_pop(&buffer, &unit, space, sizeof space));
    check(push(2, 2, true, BYTES("\x90\xe0\x09\x05\0\1\2\3\4\5\6\7\x08\x09")));
    check(push(3, 3, true, BYTES("\x90\xe0\x0b\x06\0\1\2\3\4\5\6\7\x08\x09\x0a\x0b\x0c\x0d\x0e\x0f\x10\x11")));
    pops();
}

/* Pushes the last packet of a VP8 frame, then pushes it again. */
static void pushes(void) {
    new_buffer(CPAY_VP8, 4096);
    check(push(1, 0, false, BYTES("\x10\x90")));
    for (uint64_t number = 2; number < 5; number++) check(push(number, 0, false, BYTES("\0\x91")));
    cpay_status status = push(5, 0, true, BYTES("\0\x92"));
    put("push");
    put_answer(status);
    put_held();
    check(push(5, 0, true, BYTES("\0\x92")));
    put_all_popped();
}

/* Pushes a fifth packet of Opus to a buffer with room for four, which evicts the first one. */
static void pushes_and_evicts(void) {
    new_buffer(CPAY_OPUS, 4);
    for (uint64_t number = 1; number < 5; number++) check(push(number, number, false, BYTES("\x90")));
    cpay_status status = push(5, 5, false, BYTES("\x91"));
    put("push");
    put_answer(status);
    put_held();
    put_all_popped();
}

static void encodes(void) {
    const cpay_red_older older = {.start = 0, .bytes = 2, .offset = 960, .payload_type = 96};
    size_t size = 0;
    cpay_status status = cpay_red_encode(96, BYTES("\1\2\3"), &older, 1, BYTES("\x09\x09"), space, sizeof space, &size);
    put("encode");
    if (status)
        put_answer(status);
    else
        put_bytes(space, size);
}

#define RED_PAYLOAD BYTES("\xe0\x0f\0\2\x60\x09\x09\1\2\3")

static void decodes(void) {
    cpay_red_block_place blocks[33];
    size_t count = 0;
    cpay_status status = cpay_red_blocks(RED_PAYLOAD, blocks, 33, &count);
    put("decode");
    if (status) put_answer(status);
    for (size_t i = 0; !status && i < count; i++) {
        const uint8_t bytes[] = {0xe0, 0x0f, 0, 2, 0x60, 9, 9, 1, 2, 3};
        put(" %d %u", blocks[i].payload_type, (unsigned)blocks[i].offset);
        put_bytes(bytes + blocks[i].start, blocks[i].bytes);
    }
}

/* Recovers the packet of number 11 from that of number 12. */
static void recovers(void) {
    cpay_recovered_info info = {0};
    cpay_status status = cpay_red_recover(96, 960, 12, 2880, RED_PAYLOAD, 0, &info, space, sizeof space);
    put("recover");
    if (status) {
        put_answer(status);
        return;
    }
    put(" %llu %u", (unsigned long long)info.number, (unsigned)info.rtp_time);
    put_bytes(space, info.bytes);
}

static cpay_status wrap(uint32_t time, uint8_t byte, size_t *size) {
    return cpay_red_wrap(&red, time, 200, &byte, 1, space, sizeof space, size);
}

/* Wraps a payload after `before` others, and then one more, which shows the remembered payloads. */
static void wraps(uint8_t before) {
    static const uint32_t distances[2] = {1, 3};
    size_t size = 0;
    check(cpay_red_sender_new(&red, 63, 111, distances, 2));
    for (uint8_t byte = 0; byte < before; byte++) check(wrap(960u * byte, byte, &size));
    cpay_status status = wrap(960u * before, 0x2a, &size);
    put("wrap");
    if (status)
        put_answer(status);
    else
        put_bytes(space, size);
    put(", then");
    check(wrap(960u * before + 960, 0x2b, &size));
    put_bytes(space, size);
}

/* The call of an example's codec, and whether there is one. */
static bool call_of(const char *call, const example *it) {
    example with_rate = *it;
    with_rate.spec.rate = 8000;
    if (!strcmp(call, "packetize"))
        packetizes(&with_rate);
    else if (!strcmp(call, "depacketize"))
        depacketizes(&with_rate);
    else if (!strcmp(call, "pop"))
        pops_frame(&with_rate);
    else
        return false;
    return true;
}

static bool call_alone(const char *call) {
    if (!strcmp(call, "pop-skipping"))
        pops_after_skipping();
    else if (!strcmp(call, "push"))
        pushes();
    else if (!strcmp(call, "push-evicting"))
        pushes_and_evicts();
    else if (!strcmp(call, "encode"))
        encodes();
    else if (!strcmp(call, "decode"))
        decodes();
    else if (!strcmp(call, "recover"))
        recovers();
    else if (!strcmp(call, "wrap"))
        wraps(4);
    else if (!strcmp(call, "wrap-again"))
        wraps(20);
    else
        return false;
    return true;
}

int main(int count, char **words) {
    bool made = count == 2 && call_alone(words[1]);
    for (size_t i = 0; count == 3 && i < sizeof EXAMPLES / sizeof *EXAMPLES; i++)
        if (!strcmp(words[2], EXAMPLES[i].name)) made = call_of(words[1], &EXAMPLES[i]);
    if (!made) return 2;
    text[text_len++] = '\n';
    /* not by stdio, which would allocate */
    return write(STDOUT_FILENO, text, text_len) == (ssize_t)text_len ? 0 : 1;
}

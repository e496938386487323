/* Facts that the library reads from frames. Input: one frame per line, `CODEC HEX`, with the codec's number.
 *
 *   frames report    prints a line for each: info=STATUS key=0|1|- size=WIDTHxHEIGHT|- duration=TICKS|-, then its parts (OBUs,
 *                    frames of a superframe, frames of AMR-WB), and end=STATUS, the status that ended them
 *   frames hostile   makes the queries for each beginning of each frame, for each frame with each byte changed to all others, and
 *                    for all strings of one and two bytes. The header must name each status. An error must leave the outputs
 *                    unchanged. Parts must lie in the frame, one after another
 *   frames times     prints the nanoseconds of one cpay_frame_info for each, the minimum of many rounds
 *
 * tests/media/media_peers.py compares the output with other readers. */
#define _POSIX_C_SOURCE 199309L
#include "codec_payload.h"

#include <ctype.h>
#include <inttypes.h>
#include <stdio.h>
#include <stdlib.h>
#include <string.h>
#include <time.h>

enum { ROUNDS = 3000, CALLS = 200, UNTOLD = 0xa5 };

/* A part of a unit: an OBU, a frame of a superframe, a frame of AMR-WB. */
typedef struct {
    size_t start, bytes;
    unsigned a, b, c; /* its other fields */
} part;

static uint32_t codecs[] = {CPAY_VP8, CPAY_VP9, CPAY_AV1, CPAY_OPUS, CPAY_AMR_WB, CPAY_PCMU, CPAY_G722};

static void stop(const char *message) {
    fprintf(stderr, "frames: %s\n", message);
    exit(EXIT_FAILURE);
}

static bool is_fault(cpay_status status) { return status >= CPAY_FRAME_TOO_SHORT && status <= CPAY_FRAME_SIZES; }

/* The part after the given one, with `index` parts before it; CPAY_NONE for a codec without parts. */
static cpay_status next_part(uint32_t codec, const uint8_t *unit, size_t len, size_t index, part *found) {
    size_t offset = found->start + found->bytes;
    cpay_status status = CPAY_NONE;
    if (codec == CPAY_AV1) {
        cpay_obu_info obu = {0};
        status = cpay_av1_obu(unit, len, offset, &obu);
        if (status == CPAY_OK) *found = (part){obu.start, obu.bytes, obu.obu_type, obu.temporal_id, obu.spatial_id};
    } else if (codec == CPAY_VP9) {
        cpay_vp9_frame_info frame = {0};
        status = cpay_vp9_frame(unit, len, index, &frame);
        if (status == CPAY_OK) *found = (part){frame.start, frame.bytes, 0, 0, 0};
    } else if (codec == CPAY_AMR_WB) {
        cpay_amr_wb_frame_info frame = {0};
        status = cpay_amr_wb_frame(unit, len, offset, &frame);
        if (status == CPAY_OK) *found = (part){frame.start, frame.bytes, frame.frame_type, frame.quality, 0};
    }
    return status;
}

static void print_facts(uint32_t codec, const uint8_t *frame, size_t len) {
    cpay_frame_facts facts = {0};
    cpay_status status = cpay_frame_info(codec, frame, len, &facts);
    printf("info=%" PRIu32 " key=%s size=", status, !facts.has_keyframe ? "-" : facts.keyframe ? "1" : "0");
    if (facts.has_size)
        printf("%" PRIu32 "x%" PRIu32, facts.width, facts.height);
    else
        putchar('-');
    if (facts.has_duration)
        printf(" duration=%" PRIu64, facts.duration);
    else
        fputs(" duration=-", stdout);
}

/* The av1C record of a sequence header OBU, which begins where the previous part ended. */
static void print_record(const uint8_t *obu, size_t len) {
    static uint8_t bytes[4096];
    size_t size = 0;
    cpay_status status = cpay_av1c(obu, len, bytes, sizeof bytes, &size);
    printf(" record=%" PRIu32 ":", status);
    for (size_t at = 0; status == CPAY_OK && at < size; at++) printf("%02x", bytes[at]);
}

static void report(uint32_t codec, const uint8_t *frame, size_t len) {
    part found = {0};
    cpay_status status;
    print_facts(codec, frame, len);
    for (size_t index = 0, behind = 0; (status = next_part(codec, frame, len, index, &found)) == CPAY_OK; index++) {
        printf(" part=%zu+%zu:%u:%u:%u", found.start, found.bytes, found.a, found.b, found.c);
        if (codec == CPAY_AV1 && found.a == 1) print_record(frame + behind, found.start + found.bytes - behind);
        if (codec == CPAY_VP9) {
            putchar('[');
            print_facts(codec, frame + found.start, found.bytes);
            putchar(']');
        }
        behind = found.start + found.bytes;
    }
    printf(" end=%" PRIu32 "\n", status);
}

/* Makes all queries about bytes, which are copied to memory of their length, so that a sanitizer detects a read past them. */
static void ask(uint32_t codec, const uint8_t *frame, size_t len) {
    cpay_frame_facts facts, before;
    uint8_t *copy = malloc(len + !len);
    if (!copy) stop("no memory");
    if (len) memcpy(copy, frame, len);
    memset(&facts, 0, sizeof facts);
    facts.duration = facts.width = facts.height = UNTOLD;
    before = facts;
    cpay_status status = cpay_frame_info(codec, copy, len, &facts);
    if (status && !is_fault(status)) stop("a status that the call does not have");
    if (status && memcmp(&facts, &before, sizeof facts) != 0) stop("something is told beside a fault");
    part found = {0}, last = {0};
    size_t index = 0;
    while ((status = next_part(codec, copy, len, index, &found)) == CPAY_OK) {
        if (found.start < last.start + last.bytes || found.start > len || found.bytes > len - found.start)
            stop("a part that is not behind the last one, or not in the unit");
        if (index++ > len + 8) stop("more parts than bytes");
        last = found;
    }
    if (status != CPAY_NONE && !is_fault(status)) stop("a status that does not end parts");
    free(copy);
}

/* Each beginning, and each byte changed. */
static size_t ask_around(uint32_t codec, uint8_t *frame, size_t len) {
    size_t asked = 0;
    for (size_t size = 0; size <= len; size++, asked++) ask(codec, frame, size);
    for (size_t at = 0; at < len; at++)
        for (unsigned change = 1; change < 256; change++, asked++) {
            frame[at] ^= (uint8_t)change;
            ask(codec, frame, len);
            frame[at] ^= (uint8_t)change;
        }
    return asked;
}

static size_t ask_short(void) {
    size_t asked = 0;
    for (size_t which = 0; which < sizeof codecs / sizeof *codecs; which++)
        for (unsigned first = 0; first < 256; first++) {
            uint8_t bytes[2] = {(uint8_t)first, 0};
            ask(codecs[which], bytes, 1);
            for (unsigned second = 0; second < 256; second++) {
                bytes[1] = (uint8_t)second;
                ask(codecs[which], bytes, 2);
            }
            asked += 257;
        }
    return asked;
}

static double now(void) {
#ifdef _WIN32
    return (double)clock() * 1e9 / CLOCKS_PER_SEC;
#else
    struct timespec time;
    clock_gettime(CLOCK_MONOTONIC, &time);
    return (double)time.tv_sec * 1e9 + (double)time.tv_nsec;
#endif
}

static void measure(uint32_t codec, const uint8_t *frame, size_t len) {
    double least = 1e9;
    cpay_frame_facts facts = {0};
    cpay_status status = CPAY_OK;
    for (int round = 0; round < ROUNDS; round++) {
        double began = now();
        for (int call = 0; call < CALLS; call++) status |= cpay_frame_info(codec, frame, len, &facts);
        double took = (now() - began) / CALLS;
        if (took < least) least = took;
    }
    printf("codec %" PRIu32 " of %zu bytes: status %" PRIu32 ", %.1f ns\n", codec, len, status, least);
}

/* Decodes hexadecimal digits in place. */
static size_t from_hex(char *text) {
    static const char digits[] = "0123456789abcdef";
    size_t len = 0;
    for (; isxdigit((unsigned char)text[2 * len]); len++) {
        const char *high = strchr(digits, text[2 * len]), *low = strchr(digits, text[2 * len + 1]);
        if (!high || !low || !*low) stop("no hexadecimal digits");
        text[len] = (char)(16 * (high - digits) + (low - digits));
    }
    return len;
}

int main(int argc, char **argv) {
    static char line[1 << 20];
    size_t asked = 0;
    const char *what = argc == 2 ? argv[1] : "";
    bool reports = !strcmp(what, "report"), tries = !strcmp(what, "hostile"), times = !strcmp(what, "times");
    if (!reports && !tries && !times) stop("usage: frames report|hostile|times");
    if (tries) asked = ask_short();
    while (fgets(line, sizeof line, stdin)) {
        char *hex = NULL;
        uint32_t codec = (uint32_t)strtoul(line, &hex, 10);
        if (*hex++ != ' ') stop("a line is CODEC HEX");
        size_t len = from_hex(hex);
        uint8_t *frame = (uint8_t *)hex;
        if (reports)
            report(codec, frame, len);
        else if (times)
            measure(codec, frame, len);
        else
            asked += ask_around(codec, frame, len);
    }
    if (tries) printf("%zu asked\n", asked);
    return EXIT_SUCCESS;
}

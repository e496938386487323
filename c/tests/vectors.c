/* Runs the scripts of the program payload_vectors through the library, and prints what the program prints, with the same status.
 * docs/use/PROGRAM.md, "The program's lines", describes both. Each packet and each unit is first requested with an empty buffer. */
#include "codec_payload.h"

#include <inttypes.h>
#include <stdarg.h>
#include <stdio.h>
#include <stdlib.h>
#include <string.h>

enum { INPUT_LIMIT = 1048576, MOST_FIELDS = 6, MEDIA_TYPE = 96, RED_TYPE = 63, MOST_DISTANCES = 8, MOST_REPEATED = 1023 };

typedef struct {
    const char *at;
    size_t len;
} text;

typedef struct {
    uint64_t time;
    bool starts;
    uint8_t *bytes;
    size_t size;
} sample;

typedef struct {
    cpay_received head;
    uint8_t *bytes;
    size_t size;
} packet;

typedef struct {
    char what; /* 's'end, 'p'ush, 'o' for pop */
    uint64_t first, second;
} step;

typedef struct {
    char *at;
    size_t len, room;
} output;

static struct {
    bool is_set, has_limit, has_red;
    cpay_spec spec;
    uint64_t hold_back, first_number, limit, red_step, red_budget;
    uint32_t distances[MOST_DISTANCES];
    size_t n_distances;
    sample *samples;
    size_t n_samples;
    step *steps;
    size_t n_steps;
    packet *packets;
    size_t n_packets;
} run;

static void stop(int status, const char *message) {
    fprintf(stderr, "%s\n", message);
    exit(status);
}

/* Room for one more entry in a list that grows by doubling. */
static void *grown(void *list, size_t count, size_t size) {
    if (count & (count + 1)) return list;
    list = realloc(list, (2 * count + 1) * size);
    if (!list) stop(1, "out of memory");
    return list;
}

static void print(output *to, const char *format, ...) {
    va_list args, again;
    va_start(args, format);
    va_copy(again, args);
    size_t len = (size_t)vsnprintf(NULL, 0, format, args);
    if (to->len + len + 1 > to->room) {
        to->room = 2 * (to->len + len + 1);
        to->at = realloc(to->at, to->room);
        if (!to->at) stop(1, "out of memory");
    }
    to->len += (size_t)vsnprintf(to->at + to->len, len + 1, format, again);
    va_end(again);
    va_end(args);
}

static void print_bytes(output *to, const uint8_t *bytes, size_t count) {
    if (count == 0) print(to, "-");
    for (size_t i = 0; i < count; i++) print(to, "%02x", bytes[i]);
    print(to, "\n");
}

/* ---- Lines ---- */

static bool is(text field, const char *word) { return field.len == strlen(word) && !memcmp(field.at, word, field.len); }

static bool number(text field, uint64_t most, uint64_t *value) {
    *value = 0;
    if (field.len == 0) return false;
    for (size_t i = 0; i < field.len; i++) {
        if (field.at[i] < '0' || field.at[i] > '9') return false;
        uint64_t digit = (uint64_t)(field.at[i] - '0');
        if (*value > (most - digit) / 10 || digit > most) return false;
        *value = 10 * *value + digit;
    }
    return true;
}

static int digit_of(char c) {
    if (c >= '0' && c <= '9') return c - '0';
    if (c >= 'a' && c <= 'f') return c - 'a' + 10;
    if (c >= 'A' && c <= 'F') return c - 'A' + 10;
    return -1;
}

static bool bytes_of(text field, sample *to) {
    to->size = is(field, "-") ? 0 : field.len / 2;
    if (!is(field, "-") && (field.len == 0 || field.len % 2 != 0)) return false;
    to->bytes = malloc(to->size + 1);
    if (!to->bytes) stop(1, "out of memory");
    for (size_t i = 0; i < to->size; i++) {
        int high = digit_of(field.at[2 * i]), low = digit_of(field.at[2 * i + 1]);
        if (high < 0 || low < 0) return false;
        to->bytes[i] = (uint8_t)(16 * high + low);
    }
    return true;
}

static bool codec_line(const text *fields) {
    static const struct {
        const char *name;
        cpay_spec spec;
    } names[] = {
        {"opus", {.codec = CPAY_OPUS}},
        {"pcmu", {.codec = CPAY_PCMU}},
        {"pcma", {.codec = CPAY_PCMA}},
        {"g722", {.codec = CPAY_G722}},
        {"cn", {.codec = CPAY_CN}},
        {"amrwb", {.codec = CPAY_AMR_WB}},
        {"amrwb-octet", {.codec = CPAY_AMR_WB, .octet_align = true}},
        {"vp8", {.codec = CPAY_VP8}},
        {"vp8-id", {.codec = CPAY_VP8, .vp8_ids = true}},
        {"vp9", {.codec = CPAY_VP9}},
        {"vp9-flex", {.codec = CPAY_VP9, .vp9_flexible = true}},
        {"av1", {.codec = CPAY_AV1}},
        {"tele", {.codec = CPAY_TELE}},
        {"null", {.codec = CPAY_NULL}},
    };
    uint64_t rate, id;
    for (size_t i = 0; i < sizeof names / sizeof names[0]; i++) {
        if (!is(fields[1], names[i].name)) continue;
        if (!number(fields[2], UINT32_MAX, &rate) || rate == 0 || !number(fields[3], SIZE_MAX, &run.hold_back)) return false;
        if (!number(fields[4], (uint64_t)1 << 62, &run.first_number) || !number(fields[5], 32767, &id)) return false;
        run.spec = names[i].spec;
        run.spec.rate = (uint32_t)rate;
        run.spec.first_id = (uint16_t)id;
        return true;
    }
    return false;
}

static bool sample_line(const text *fields) {
    sample *to = (run.samples = grown(run.samples, run.n_samples, sizeof(sample))) + run.n_samples;
    to->starts = is(fields[2], "1");
    if (!number(fields[1], UINT64_MAX, &to->time) || (!to->starts && !is(fields[2], "0")) || !bytes_of(fields[3], to)) return false;
    run.n_samples++;
    return true;
}

static bool step_line(char what, const text *first, const text *second) {
    step *to = (run.steps = grown(run.steps, run.n_steps, sizeof(step))) + run.n_steps;
    to->what = what;
    if (first && !number(*first, SIZE_MAX, &to->first)) return false;
    if (second && !number(*second, SIZE_MAX, &to->second)) return false;
    run.n_steps++;
    return true;
}

static bool limit_line(text field) {
    if (run.has_limit || !number(field, 65536, &run.limit) || run.limit == 0) return false;
    run.has_limit = true;
    return true;
}

static bool distances_of(text field) {
    uint64_t last = 0, value;
    if (is(field, "-")) return true;
    for (const char *at = field.at, *end = field.at + field.len; at <= end;) {
        const char *comma = memchr(at, ',', (size_t)(end - at));
        text one = {at, (size_t)((comma ? comma : end) - at)};
        if (!number(one, MOST_DISTANCES, &value) || value <= last) return false;
        run.distances[run.n_distances++] = (uint32_t)(last = value);
        at += one.len + 1;
    }
    return true;
}

static bool red_line(const text *fields) {
    if (run.has_red || !number(fields[1], 16383, &run.red_step) || run.red_step == 0) return false;
    run.has_red = true;
    return number(fields[2], SIZE_MAX, &run.red_budget) && distances_of(fields[3]);
}

/* A line without its newline. The first sets up the run, and no other does. */
static bool read_line(const char *line, size_t len) {
    text fields[MOST_FIELDS];
    size_t count = 0;
    for (const char *at = line; count < MOST_FIELDS; count++) {
        const char *space = memchr(at, ' ', (size_t)(line + len - at));
        fields[count].at = at;
        fields[count].len = (size_t)((space ? space : line + len) - at);
        if (!space) break;
        at = space + 1;
        if (count + 1 == MOST_FIELDS) return false;
    }
    count++;
    if (!run.is_set) return run.is_set = count == 6 && is(fields[0], "codec") && codec_line(fields);
    if (count == 4 && is(fields[0], "sample")) return sample_line(fields);
    if (count == 4 && is(fields[0], "red")) return red_line(fields);
    if (count == 3 && is(fields[0], "send")) return step_line('s', &fields[1], &fields[2]);
    if (count == 2 && is(fields[0], "push")) return step_line('p', &fields[1], NULL);
    if (count == 2 && is(fields[0], "limit")) return limit_line(fields[1]);
    return count == 1 && is(fields[0], "pop") && step_line('o', NULL, NULL);
}

static void read_script(void) {
    static char input[INPUT_LIMIT + 1];
    size_t len = fread(input, 1, sizeof input, stdin), lines = 0, at = 0;
    if (ferror(stdin)) stop(1, "input or output failed");
    if (len > INPUT_LIMIT) stop(2, "input too long");
    do {
        const char *end = memchr(input + at, '\n', len - at);
        lines++;
        if (!end || !read_line(input + at, (size_t)(end - input) - at)) {
            fprintf(stderr, "bad line %zu\n", lines);
            exit(2);
        }
        at = (size_t)(end - input) + 1;
    } while (at < len);
}

/* ---- Steps ---- */

static void check(cpay_status status) {
    if (status == CPAY_OUT_OF_MEMORY) stop(1, "out of memory");
    if (status) {
        fprintf(stderr, "unexpected status: %s\n", cpay_status_text(status));
        exit(3);
    }
}

/* Wraps a packet in RED. A payload grows at most by all blocks that can be repeated, so a larger budget changes nothing. */
static void protect(cpay_red_sender *red, packet *p) {
    size_t most = p->size + 1 + MOST_DISTANCES * (4 + MOST_REPEATED), size = 0;
    size_t budget = run.red_budget < most ? (size_t)run.red_budget : most;
    uint8_t *bytes = malloc(most);
    if (!bytes) stop(1, "out of memory");
    check(cpay_red_wrap(red, (uint32_t)p->head.rtp_time, budget, p->bytes, p->size, bytes, most, &size));
    free(p->bytes);
    p->bytes = bytes;
    p->size = size;
}

static void take_packet(cpay_packetizer *sender, cpay_red_sender *red, const sample *from, output *to) {
    cpay_packet_info info = {0};
    uint8_t none[1];
    if (cpay_packet(sender, &info, none, 0) == CPAY_TOO_SMALL && info.bytes == 0) stop(3, "no room is too small for nothing");
    packet *p = (run.packets = grown(run.packets, run.n_packets, sizeof(packet))) + run.n_packets;
    p->size = info.bytes;
    p->bytes = malloc(info.bytes + 1);
    if (!p->bytes) stop(1, "out of memory");
    if (info.bytes) check(cpay_packet(sender, &info, p->bytes, p->size));
    p->head = (cpay_received){.number = run.first_number + run.n_packets, .marker = info.marker};
    p->head.rtp_time = (uint32_t)from->time;
    if (run.has_red) protect(red, p);
    print(to, "packet %" PRIu64 " %d ", p->head.number, info.marker);
    print_bytes(to, p->bytes, p->size);
    run.n_packets++;
}

static void send(cpay_packetizer *sender, cpay_red_sender *red, const step *by, output *to) {
    size_t count = 0;
    if (by->first >= run.n_samples) return;
    const sample *from = &run.samples[by->first];
    cpay_status status = cpay_packetize(sender, (size_t)by->second, from->starts, from->bytes, from->size, &count);
    if (status && status != CPAY_OUT_OF_MEMORY && status < CPAY_NONE) {
        print(to, "refused %u\n", (unsigned)status);
        return;
    }
    check(status);
    print(to, "sent %zu\n", count);
    for (size_t i = 0; i < count; i++) take_packet(sender, red, from, to);
}

/* Pushes a packet, or, in RED, all packets in its payload. An invalid RED payload is skipped. */
static void push(cpay_buffer *buffer, const packet *p) {
    if (!run.has_red) {
        check(cpay_buffer_push(buffer, &p->head, p->bytes, p->size));
        return;
    }
    uint8_t *bytes = malloc(p->size + 1);
    if (!bytes) stop(1, "out of memory");
    for (size_t i = 0;; i++) {
        cpay_recovered_info info = {0};
        cpay_status status = cpay_red_recover(MEDIA_TYPE, (uint32_t)run.red_step, p->head.number, (uint32_t)p->head.rtp_time,
                                              p->bytes, p->size, i, &info, bytes, p->size + 1);
        if (status == CPAY_NONE || status == CPAY_RED_CORRUPTED) break;
        check(status);
        cpay_received head = {.number = info.number, .marker = info.is_primary && p->head.marker};
        head.rtp_time = info.rtp_time;
        check(cpay_buffer_push(buffer, &head, bytes, info.bytes));
    }
    free(bytes);
}

static void pop(cpay_buffer *buffer, output *to) {
    cpay_unit unit = {0};
    uint8_t none[1], *bytes = none;
    cpay_status status = cpay_buffer_pop(buffer, &unit, none, 0);
    if (status == CPAY_TOO_SMALL) {
        bytes = malloc(unit.bytes);
        if (!bytes) stop(1, "out of memory");
        status = cpay_buffer_pop(buffer, &unit, bytes, unit.bytes);
    }
    if (status == CPAY_NONE) {
        print(to, "none\n");
    } else if (status && status != CPAY_OUT_OF_MEMORY && status < CPAY_NONE) {
        print(to, "fault %u\n", (unsigned)status);
    } else {
        check(status);
        print(to, "unit %" PRIu64 " %" PRIu64 " %d ", unit.first, unit.last, unit.contiguous);
        print_bytes(to, bytes, unit.bytes);
    }
    if (bytes != none) free(bytes);
}

int main(void) {
    cpay_packetizer sender = CPAY_INIT;
    cpay_buffer buffer = CPAY_INIT;
    cpay_red_sender red = CPAY_INIT;
    output sent = {0}, popped = {0};
    read_script();
    check(cpay_packetizer_new(&sender, &run.spec));
    if (run.has_red) check(cpay_red_sender_new(&red, RED_TYPE, MEDIA_TYPE, run.distances, run.n_distances));
    check(cpay_buffer_new(&buffer, &run.spec, (size_t)run.hold_back, run.has_limit ? (size_t)run.limit : 4096));
    for (size_t i = 0; i < run.n_steps; i++) {
        const step *by = &run.steps[i];
        if (by->what == 's') {
            send(&sender, &red, by, &sent);
        } else if (by->what == 'o') {
            pop(&buffer, &popped);
        } else if (by->first < run.n_packets) {
            push(&buffer, &run.packets[by->first]);
        }
    }
    cpay_packetizer_free(&sender);
    cpay_red_sender_free(&red);
    cpay_buffer_free(&buffer);
    if (sent.len) fwrite(sent.at, 1, sent.len, stdout);
    if (popped.len) fwrite(popped.at, 1, popped.len, stdout);
    for (size_t i = 0; i < run.n_samples; i++) free(run.samples[i].bytes);
    for (size_t i = 0; i < run.n_packets; i++) free(run.packets[i].bytes);
    free(run.samples);
    free(run.packets);
    free(run.steps);
    free(sent.at);
    free(popped.at);
    return ferror(stdout) || fflush(stdout) ? 1 : 0;
}

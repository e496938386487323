/* A recorder's core: writes the frames of the VP8 stream that a capture has to one UDP port to an IVF file, as they are released.
 *
 *     cc recorder.c $(pkg-config --cflags --libs codec-payload)
 *     ./a.out capture.pcap 5004 96 frames.ivf
 *
 * It reads captures of the classic format with Ethernet and IPv4. tools/rtp_record is a whole recorder.
 *
 * The rules:
 * - Begin the file with a keyframe.
 * - The time of a frame is its RTP time; it does not wrap.
 * - At the end call cpay_receiver_finish, then pop the remaining frames.
 * - From a file wait without a time limit (CPAY_FOR_FILE); from a live stream use CPAY_FOR_LIVE.
 * - Report the faults of the disk: fclose reports what fwrite buffered. */
#include "codec_payload.h"

#include <stdio.h>
#include <stdlib.h>
#include <string.h>

enum { RECORD = 16, ETHERNET = 14, UDP = 8, MOST = 65536, MOST_FRAME = 1 << 22 };

/* The first four bytes of a capture, by the unit of its times. */
static const uint32_t MICROSECONDS = 0xa1b2c3d4, NANOSECONDS = 0xa1b23c4d;

typedef struct {
    cpay_receiver receiver;
    FILE *file;
    uint32_t frames;
    uint64_t first_time;
} recording;

static void check(cpay_status status, const char *what) {
    if (status == CPAY_OK) return;
    fprintf(stderr, "%s: %s\n", what, cpay_status_text(status));
    exit(EXIT_FAILURE);
}

static void require(bool holds, const char *what) {
    if (holds) return;
    fprintf(stderr, "%s\n", what);
    exit(EXIT_FAILURE);
}

static uint32_t little(const uint8_t *bytes) {
    return bytes[0] | (uint32_t)bytes[1] << 8 | (uint32_t)bytes[2] << 16 | (uint32_t)bytes[3] << 24;
}

static void put(recording *it, uint64_t value, int bytes) {
    for (int place = 0; place < bytes; place++) fputc((int)(value >> 8 * place & 255), it->file);
}

/* The header of an IVF file: 32 bytes. */
static void put_file_header(recording *it, const cpay_frame_facts *facts) {
    fputs("DKIF", it->file);
    put(it, 0, 2);
    put(it, 32, 2);
    fputs("VP80", it->file);
    put(it, facts->width, 2);
    put(it, facts->height, 2);
    put(it, 90000, 4);
    put(it, 1, 4);
    put(it, 0, 8);
}

/* Writes the frames that are due, from the first keyframe on. */
static void take_frames(recording *it, uint64_t now) {
    static uint8_t frame[MOST_FRAME];
    cpay_unit unit = {0};
    cpay_status status;
    while (!(status = cpay_receiver_pop(&it->receiver, now, &unit, frame, sizeof frame))) {
        cpay_frame_facts facts = {0};
        if (unit.fault) {
            fprintf(stderr, "a frame is lost: %s\n", cpay_status_text(unit.fault));
            continue;
        }
        if (cpay_frame_info(CPAY_VP8, frame, unit.bytes, &facts) || (!it->frames && !facts.keyframe)) continue;
        if (!it->frames++) {
            it->first_time = unit.rtp_time;
            put_file_header(it, &facts);
        }
        put(it, unit.bytes, 4);
        put(it, unit.rtp_time - it->first_time, 8);
        fwrite(frame, 1, unit.bytes, it->file);
    }
    if (status != CPAY_NONE) check(status, "pop");
}

/* The payload of a UDP datagram to that port in an Ethernet frame, or NULL. */
static const uint8_t *udp_payload(const uint8_t *packet, size_t size, unsigned port, size_t *payload_size) {
    if (size < ETHERNET + 20 || packet[12] != 8 || packet[13] != 0 || packet[ETHERNET] >> 4 != 4 || packet[ETHERNET + 9] != 17)
        return NULL;
    size_t at = ETHERNET + 4 * (size_t)(packet[ETHERNET] & 15);
    if (size < at + UDP || (packet[at + 2] << 8 | packet[at + 3]) != (int)port) return NULL;
    size_t length = (size_t)(packet[at + 4] << 8 | packet[at + 5]);
    if (length < UDP || length > size - at) return NULL;
    *payload_size = length - UDP;
    return packet + at + UDP;
}

static void record(recording *it, FILE *capture, unsigned port) {
    static uint8_t head[RECORD], packet[MOST];
    uint8_t file_head[24];
    uint64_t now = 0;
    uint32_t magic = 0;
    require(fread(file_head, sizeof file_head, 1, capture) == 1, "the capture is empty");
    magic = little(file_head);
    require((magic == MICROSECONDS || magic == NANOSECONDS) && little(file_head + 20) == 1, "no classic capture of Ethernet");
    while (fread(head, sizeof head, 1, capture) == 1) {
        size_t size = little(head + 8), payload_size = 0;
        cpay_outcome outcome = CPAY_HELD;
        require(size <= sizeof packet && fread(packet, 1, size, capture) == size, "the capture is cut off");
        now = (uint64_t)little(head) * 1000 + little(head + 4) / (magic == NANOSECONDS ? 1000000 : 1000);
        const uint8_t *payload = udp_payload(packet, size, port, &payload_size);
        if (!payload) continue;
        cpay_status status = cpay_receiver_receive(&it->receiver, now, payload, payload_size, &outcome);
        if (status == CPAY_OUT_OF_MEMORY) check(status, "receive");
        take_frames(it, now);
    }
    check(cpay_receiver_finish(&it->receiver), "finish");
    take_frames(it, now);
}

int main(int count, char **words) {
    cpay_receiver_settings settings;
    recording it = {.receiver = CPAY_INIT};
    require(count == 5, "usage: recorder CAPTURE PORT PAYLOAD-TYPE FILE");
    FILE *capture = fopen(words[1], "rb");
    it.file = fopen(words[4], "wb");
    require(capture && it.file, "a file cannot be opened");
    cpay_receiver_settings_init(&settings, CPAY_VP8, 90000, (uint8_t)atoi(words[3]), CPAY_FOR_FILE);
    check(cpay_receiver_new(&it.receiver, &settings, NULL, 0), "receiver");
    record(&it, capture, (unsigned)atoi(words[2]));
    fclose(capture);
    require(fclose(it.file) == 0, "the file is not written");
    cpay_receiver_free(&it.receiver);
    printf("%u frames\n", (unsigned)it.frames);
    return EXIT_SUCCESS;
}

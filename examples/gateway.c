/* Audio gateway with RED (RFC 2198), both sides. Each frame of 20 ms of Opus is sent with the previous frame and the third frame
 * before it; one datagram in six is lost. The frames are released in order, and among them frames that only a later datagram carried:
 *
 *     cc gateway.c $(pkg-config --cflags --libs codec-payload) && ./a.out
 *
 * The rules:
 * - Packetize with an MTU of the budget minus 1: a payload of `budget` bytes or more is sent without RED framing.
 * - `red_step` is the packet time in ticks of the RTP clock: 960 for 20 ms of Opus.
 * - Wait at least as long as the largest distance: three packets are 60 ms here, and `max_wait` is 100 ms.
 * - A frame that a later packet supplied is counted in `recovered`, and its number is not requested by NACK.
 * The status is 0 if exactly the frames arrived that some datagram carried. */
#include "codec_payload.h"

#include <inttypes.h>
#include <stdio.h>
#include <stdlib.h>
#include <string.h>

enum { FRAMES = 1000, STEP = 960, BUDGET = 1200, HEADER = 12, OPUS_TYPE = 96, RED_TYPE = 63 };

static const uint32_t distances[] = {1, 3};

static void check(cpay_status status, const char *what) {
    if (status == CPAY_OK) return;
    fprintf(stderr, "%s: %s\n", what, cpay_status_text(status));
    exit(EXIT_FAILURE);
}

/* Passes a datagram that came from the network. One that is malformed is counted, and the stream continues. */
static void take(cpay_receiver *receiver, uint64_t now, const uint8_t *datagram, size_t size) {
    cpay_outcome outcome = CPAY_HELD;
    cpay_status status = cpay_receiver_receive(receiver, now, datagram, size, &outcome);
    if (status == CPAY_OUT_OF_MEMORY) check(status, "receive");
}

/* The same numbers in each run, so that each run prints the same. */
static bool one_in(uint32_t times) {
    static uint32_t chance = 1;
    chance = chance * 1664525 + 1013904223;
    return (chance >> 16) % times == 0;
}

/* The header of RFC 3550, section 5.1. */
static void put_header(uint8_t *datagram, uint16_t number, uint32_t time, uint32_t ssrc) {
    const uint8_t header[HEADER] = {
        0x80, RED_TYPE, (uint8_t)(number >> 8), (uint8_t)number,
        (uint8_t)(time >> 24), (uint8_t)(time >> 16), (uint8_t)(time >> 8), (uint8_t)time,
        (uint8_t)(ssrc >> 24), (uint8_t)(ssrc >> 16), (uint8_t)(ssrc >> 8), (uint8_t)ssrc,
    };
    memcpy(datagram, header, HEADER);
}

/* Writes the datagram of a frame, whose bytes are its number, and returns its size. */
static size_t send_frame(cpay_red_sender *red, uint32_t frame, uint8_t *datagram) {
    uint8_t opus[40];
    size_t size = 0;
    memset(opus, (int)(frame & 255), sizeof opus);
    check(cpay_red_wrap(red, frame * STEP, BUDGET, opus, sizeof opus, datagram + HEADER, BUDGET, &size), "wrap");
    put_header(datagram, (uint16_t)frame, frame * STEP, 7);
    return HEADER + size;
}

/* Pops the units that are due, and notes which frames arrived. */
static void play(cpay_receiver *receiver, uint64_t now, bool *came) {
    uint8_t opus[BUDGET];
    cpay_unit unit = {0};
    cpay_status status;
    while (!(status = cpay_receiver_pop(receiver, now, &unit, opus, sizeof opus))) {
        if (unit.fault || unit.bytes == 0) continue; /* a refused frame is lost */
        uint32_t frame = (uint32_t)unit.rtp_time / STEP;
        if (frame < FRAMES && opus[0] == (frame & 255)) came[frame] = true;
    }
    if (status != CPAY_NONE) check(status, "pop");
}

int main(void) {
    static bool arrived[FRAMES + 3], came[FRAMES];
    uint8_t datagram[HEADER + BUDGET];
    cpay_receiver_settings settings;
    cpay_receiver_counts_info counts = {0};
    cpay_red_sender red = CPAY_INIT;
    cpay_receiver receiver = CPAY_INIT;
    unsigned lost = 0, missing = 0, wrong = 0;
    cpay_receiver_settings_init(&settings, CPAY_OPUS, 48000, OPUS_TYPE, CPAY_FOR_LIVE);
    settings.has_red = true;
    settings.red_payload_type = RED_TYPE;
    settings.red_step = STEP;
    check(cpay_red_sender_new(&red, RED_TYPE, OPUS_TYPE, distances, 2), "sender");
    check(cpay_receiver_new(&receiver, &settings, NULL, 0), "receiver");
    for (uint32_t frame = 0; frame < FRAMES; frame++) {
        size_t size = send_frame(&red, frame, datagram);
        arrived[frame] = !one_in(6);
        lost += !arrived[frame];
        if (arrived[frame]) take(&receiver, frame * 20, datagram, size);
        play(&receiver, frame * 20, came);
    }
    check(cpay_receiver_finish(&receiver), "finish");
    play(&receiver, FRAMES * 20, came);
    check(cpay_receiver_counts(&receiver, &counts), "counts");
    for (uint32_t frame = 0; frame < FRAMES; frame++) {
        missing += !came[frame];
        wrong += came[frame] != (arrived[frame] || arrived[frame + 1] || arrived[frame + 3]);
    }
    printf("%u datagrams lost, %" PRIu64 " frames recovered, %u missing\n", lost, counts.recovered, missing);
    cpay_red_sender_free(&red);
    cpay_receiver_free(&receiver);
    return wrong ? EXIT_FAILURE : EXIT_SUCCESS;
}

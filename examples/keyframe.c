/* Keyframe requests: after a loss, drops frames that a decoder cannot use and asks for a keyframe (PLI, RFC 4585, section 6.3.1).
 *
 *     cc keyframe.c $(pkg-config --cflags --libs codec-payload) && ./a.out
 *
 * The rules:
 * - `contiguous` reports that no frame is missing between this one and the previous one. It does not report whether the frames
 *   that this one refers to arrived. After one gap drop every frame until a keyframe, also the contiguous ones.
 * - Ask cpay_frame_info whether a frame is a keyframe. `extra.is_keyframe` comes from the payload descriptors, which some senders
 *   of VP9 fill in wrongly.
 * - A status from 1 to 16 is a lost frame too.
 * - If `left` of cpay_receiver_counts grows while no unit is released, request a keyframe too (docs/use/LIMITS.md).
 * - Repeat the request, at most once per interval, until a keyframe arrives.
 * The network is simulated. The status is 0 if the decoder got nine frames of ten, and only decodable ones. */
#include "codec_payload.h"

#include <stdio.h>
#include <stdlib.h>
#include <string.h>

enum { FRAMES = 900, FRAME = 2000, INTERVAL = 33, REQUEST_INTERVAL = 300, ANSWER = 60, ROOM = 1500 };

static void check(cpay_status status, const char *what) {
    if (status == CPAY_OK) return;
    fprintf(stderr, "%s: %s\n", what, cpay_status_text(status));
    exit(EXIT_FAILURE);
}

/* Passes a datagram that came from the network. One that is malformed is counted, and the stream continues. */
static void take(cpay_receiver *receiver, uint64_t now, const uint8_t *datagram, size_t size) {
    cpay_outcome outcome = CPAY_HELD;
    cpay_status status = cpay_receiver_receive(receiver, now, datagram, size, &outcome);
    if (status == CPAY_OUT_OF_MEMORY) check(status, "receive");
}

/* ---- The recipe ---- */

typedef struct {
    bool needs_keyframe;
    bool has_asked;
    uint64_t asked_at;
} keyframe_filter;

/* Whether the decoder can use this frame. The first frame has to be a keyframe too: begin with needs_keyframe. */
static bool is_decodable(keyframe_filter *it, cpay_codec codec, const cpay_unit *unit, const uint8_t *bytes) {
    cpay_frame_facts facts = {0};
    bool readable = cpay_frame_info(codec, bytes, unit->bytes, &facts) == CPAY_OK;
    bool keyframe = readable && facts.has_keyframe && facts.keyframe;
    if (!readable || !unit->contiguous) it->needs_keyframe = true;
    if (keyframe) it->needs_keyframe = it->has_asked = false;
    return !it->needs_keyframe;
}

/* Whether to send a PLI now. */
static bool should_ask(keyframe_filter *it, uint64_t now) {
    if (!it->needs_keyframe || (it->has_asked && now - it->asked_at < REQUEST_INTERVAL)) return false;
    it->has_asked = true;
    it->asked_at = now;
    return true;
}

/* ---- The simulated sender: each frame ends with its number, so that the test sees whether the frame before it was decoded ---- */

static void put_vp8(uint8_t *frame, bool keyframe, uint32_t number) {
    static const uint8_t start[] = {0x9d, 0x01, 0x2a, 0x40, 0x01, 0xf0, 0x00}; /* start code, 320 x 240 */
    uint32_t tag = (keyframe ? 0u : 1u) | 1u << 4 | 100u << 5;                   /* shown; a first partition of 100 bytes */
    memset(frame, 0, FRAME);
    memcpy(frame + FRAME - sizeof number, &number, sizeof number);
    for (int i = 0; i < 3; i++) frame[i] = (uint8_t)(tag >> 8 * i);
    if (keyframe) memcpy(frame + 3, start, sizeof start);
}

static bool lost(void) {
    static uint32_t chance = 5;
    chance = chance * 1664525 + 1013904223;
    return (chance >> 16) % 100 == 0;
}

int main(void) {
    static uint8_t frame[FRAME], bytes[FRAME], datagram[ROOM];
    cpay_spec vp8 = {.codec = CPAY_VP8, .rate = 90000};
    cpay_sender_settings sends = {.spec = vp8, .mtu = 1200, .ssrc = 7, .payload_type = 96};
    cpay_receiver_settings settings;
    cpay_sender sender = CPAY_INIT;
    cpay_receiver receiver = CPAY_INIT;
    keyframe_filter filter = {.needs_keyframe = true};
    cpay_unit unit = {0};
    unsigned decoded = 0, dropped = 0, requests = 0, wrong = 0;
    uint32_t number = 0, keyframes = 0, decoded_last = 0;
    uint64_t keyframe_at = 0;
    bool pending = true;
    cpay_receiver_settings_init(&settings, CPAY_VP8, 90000, 96, CPAY_FOR_LIVE);
    check(cpay_sender_new(&sender, &sends), "sender");
    check(cpay_receiver_new(&receiver, &settings, NULL, 0), "receiver");
    for (uint64_t now = 0; now < FRAMES * INTERVAL; now += INTERVAL) {
        size_t count = 0, size = 0;
        cpay_status status;
        bool keyframe = pending && now >= keyframe_at;
        keyframes += keyframe;
        pending = pending && !keyframe;
        put_vp8(frame, keyframe, ++number);
        check(cpay_sender_send(&sender, now * 90, false, frame, FRAME, &count), "send");
        for (size_t i = 0; i < count; i++) {
            check(cpay_sender_datagram(&sender, i, datagram, ROOM, &size), "datagram");
            if (!lost()) take(&receiver, now, datagram, size);
        }
        while (!(status = cpay_receiver_pop(&receiver, now, &unit, bytes, FRAME))) {
            if (unit.fault) { /* a refused frame is lost */
                filter.needs_keyframe = true;
                continue;
            }
            if (!is_decodable(&filter, CPAY_VP8, &unit, bytes)) {
                dropped++;
                continue;
            }
            /* A decoder needs a keyframe, or the frame right before this one. */
            uint32_t this_number = 0;
            memcpy(&this_number, bytes + FRAME - sizeof this_number, sizeof this_number);
            wrong += (bytes[0] & 1) && this_number != decoded_last + 1;
            decoded_last = this_number;
            decoded++;
        }
        if (should_ask(&filter, now)) {
            uint8_t pli[12];
            check(cpay_write_pli(8, 7, pli, sizeof pli, &size), "PLI"); /* send these bytes */
            requests++;
            if (!pending) {
                pending = true;
                keyframe_at = now + ANSWER;
            }
        }
    }
    printf("%u frames decoded, %u dropped, %u requests, %u keyframes, %u undecodable\n", decoded, dropped, requests, keyframes,
           wrong);
    cpay_sender_free(&sender);
    cpay_receiver_free(&receiver);
    return wrong || decoded < FRAMES * 9 / 10 ? EXIT_FAILURE : EXIT_SUCCESS;
}

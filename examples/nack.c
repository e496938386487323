/* NACK loop: the receiver requests missing packets and stores the retransmissions (RFC 4585, section 6.2.1), and the sender resends
 * them from its history.
 *
 *     cc nack.c $(pkg-config --cflags --libs codec-payload) && ./a.out
 *
 * The rules of such a loop:
 * - Request each missing number once per round-trip time, at most TRIES times.
 * - Set max_wait to twice the round-trip time and 100 ms more. If it is below the round-trip time, frames are released without the
 *   packets that were requested.
 * - Stop at the cutoff: cpay_receiver_missing no longer reports numbers whose frames were released or discarded.
 * - A retransmission under its own SSRC and payload type (RFC 4588) needs has_rtx in the settings; one under the stream's own SSRC
 *   needs nothing.
 * The network is simulated: 10 % loss, 20 ms each way. The status is 0 if every frame arrived. */
#include "codec_payload.h"

#include <stdio.h>
#include <stdlib.h>
#include <string.h>

enum { FRAMES = 600, FRAME = 3000, INTERVAL = 33, ONE_WAY = 20, TRIES = 5, ASKED = 512, MTU = 1200, ROOM = 1500 };

static void check(cpay_status status, const char *what) {
    if (status == CPAY_OK) return;
    fprintf(stderr, "%s: %s\n", what, cpay_status_text(status));
    exit(EXIT_FAILURE);
}

/* Passes a datagram that came from the network. One that is malformed is counted, and the stream continues. */
static void take(cpay_receiver *receiver, uint64_t now, const uint8_t *datagram, size_t size) {
    cpay_outcome outcome = CPAY_HELD;
    cpay_status status = cpay_receiver_receive(receiver, now, datagram, size, &outcome);
    if (status == CPAY_OUT_OF_MEMORY) check(status, "receive");
}

/* ---- The recipe: the receiver's half ---- */

typedef struct {
    uint64_t number, asked_at;
    unsigned tries;
} request;

typedef struct {
    request requests[ASKED]; /* by number modulo ASKED */
} nack_loop;

/* Writes the numbers to request now, at most `most`, and returns their count. */
static size_t due_requests(nack_loop *it, cpay_receiver *receiver, uint64_t now, uint64_t round_trip, uint64_t *due, size_t most) {
    uint64_t missing[ASKED];
    size_t count = 0, found = 0;
    check(cpay_receiver_missing(receiver, missing, ASKED, &found), "missing");
    for (size_t i = 0; i < found && count < most; i++) {
        request *one = &it->requests[missing[i] % ASKED];
        if (one->number != missing[i]) *one = (request){.number = missing[i]};
        if (one->tries == TRIES || (one->tries > 0 && now - one->asked_at < round_trip)) continue;
        one->asked_at = now;
        one->tries++;
        due[count++] = missing[i];
    }
    return count;
}

static void put(uint8_t *at, uint32_t value, int bytes) {
    for (int i = 0; i < bytes; i++) at[i] = (uint8_t)(value >> 8 * (bytes - 1 - i));
}

/* Writes a generic NACK for rising numbers and returns its size: 12 bytes, and 4 for each pair of PID and bit mask. */
static size_t put_nack(uint8_t *packet, uint32_t own_ssrc, uint32_t media_ssrc, const uint64_t *numbers, size_t count) {
    size_t size = 12;
    for (size_t i = 0; i < count;) {
        uint64_t first = numbers[i++];
        uint32_t mask = 0;
        for (; i < count && numbers[i] - first <= 16; i++) mask |= 1u << (numbers[i] - first - 1);
        put(packet + size, (uint32_t)(first & 0xffff), 2);
        put(packet + size + 2, mask, 2);
        size += 4;
    }
    packet[0] = 0x81; /* version 2, format 1: generic NACK */
    packet[1] = 205;  /* transport-layer feedback */
    put(packet + 2, (uint32_t)(size / 4 - 1), 2);
    put(packet + 4, own_ssrc, 4);
    put(packet + 8, media_ssrc, 4);
    return size;
}

/* ---- The simulated network ---- */

typedef struct {
    uint8_t bytes[ROOM];
    size_t size;
    uint64_t arrives_at;
} datagram;

static datagram on_the_way[2 * ASKED];
static size_t count_on_the_way;

static bool lost(void) {
    static uint32_t chance = 1;
    chance = chance * 1664525 + 1013904223;
    return (chance >> 16) % 10 == 0;
}

static void carry(const datagram *it, uint64_t arrives_at) {
    if (count_on_the_way == sizeof on_the_way / sizeof *on_the_way) exit(EXIT_FAILURE);
    on_the_way[count_on_the_way] = *it;
    on_the_way[count_on_the_way++].arrives_at = arrives_at;
}

static void deliver(cpay_receiver *receiver, uint64_t now) {
    size_t left = 0;
    for (size_t i = 0; i < count_on_the_way; i++) {
        const datagram *it = &on_the_way[i];
        if (it->arrives_at > now) on_the_way[left++] = *it;
        else take(receiver, now, it->bytes, it->size);
    }
    count_on_the_way = left;
}

/* ---- The recipe: the sender's half ---- */

/* Sends the datagrams of a frame, and keeps each of them. The first frame arrives. */
static void send_frame(cpay_sender *sender, cpay_history *history, uint64_t now, const uint8_t *frame, size_t size) {
    size_t count = 0;
    datagram it;
    check(cpay_sender_send(sender, now * 90, false, frame, size, &count), "send");
    for (size_t i = 0; i < count; i++) {
        check(cpay_sender_datagram(sender, i, it.bytes, ROOM, &it.size), "datagram");
        check(cpay_history_keep(history, it.bytes, it.size, NULL), "keep");
        if (!lost() || now == 0) carry(&it, now + ONE_WAY);
    }
}

/* Resends what the feedback requests. A request and its answer take a round trip. A datagram that is not feedback is skipped. */
static void answer(cpay_history *history, const uint8_t *feedback, size_t size, uint64_t now) {
    uint16_t numbers[ASKED];
    size_t count = 0;
    bool wants_keyframe = false; /* this would go to the encoder */
    datagram it;
    if (cpay_read_requests(feedback, size, 7, false, numbers, ASKED, &count, &wants_keyframe) != CPAY_OK) return;
    for (size_t i = 0; i < count && i < ASKED; i++) {
        cpay_resent resent = CPAY_RESENT_NOT_KEPT;
        check(cpay_history_resend(history, now, numbers[i], it.bytes, ROOM, &it.size, &resent), "resend");
        if (!lost() && resent == CPAY_RESENT_WRITTEN) carry(&it, now + 2 * ONE_WAY);
    }
}

int main(void) {
    static uint8_t frame[FRAME], unit_bytes[FRAME];
    static nack_loop loop;
    cpay_spec vp8 = {.codec = CPAY_VP8, .rate = 90000};
    cpay_sender_settings sends = {.spec = vp8, .mtu = MTU, .ssrc = 7, .payload_type = 96};
    cpay_history_settings keeps = {.limit = 512};
    cpay_receiver_settings settings;
    cpay_receiver_counts_info counts = {0};
    cpay_sender sender = CPAY_INIT;
    cpay_history history = CPAY_INIT;
    cpay_receiver receiver = CPAY_INIT;
    cpay_unit unit = {0};
    unsigned frames = 0, gaps = 0, nacks = 0;
    cpay_receiver_settings_init(&settings, CPAY_VP8, 90000, 96, CPAY_FOR_LIVE_WITH_NACK);
    settings.has_ssrc = true;
    settings.ssrc = 7;
    settings.max_wait = 2 * (2 * ONE_WAY) + 100;
    settings.start = 1;
    check(cpay_sender_new(&sender, &sends), "sender");
    check(cpay_history_new(&history, &keeps), "history");
    check(cpay_receiver_new(&receiver, &settings, NULL, 0), "receiver");
    for (uint64_t now = 0; now < (FRAMES + 30) * INTERVAL; now++) {
        uint64_t due[ASKED];
        uint8_t packet[12 + 4 * ASKED];
        cpay_status status;
        if (now % INTERVAL == 0 && now / INTERVAL < FRAMES) send_frame(&sender, &history, now, frame, FRAME);
        deliver(&receiver, now);
        size_t asked = due_requests(&loop, &receiver, now, 2 * ONE_WAY, due, ASKED);
        if (asked > 0) {
            size_t size = put_nack(packet, 8, 7, due, asked);
            answer(&history, packet, size, now);
            nacks++;
        }
        while (!(status = cpay_receiver_pop(&receiver, now, &unit, unit_bytes, FRAME))) {
            if (unit.fault) continue; /* a refused frame is lost */
            frames++;
            gaps += !unit.contiguous;
        }
        if (status != CPAY_NONE) check(status, "pop");
    }
    check(cpay_receiver_counts(&receiver, &counts), "counts");
    printf("%u of %d frames, %u gaps, %u NACKs, %u packets missing at the end\n", frames, FRAMES, gaps, nacks,
           (unsigned)(FRAMES * 3 - counts.released));
    cpay_sender_free(&sender);
    cpay_history_free(&history);
    cpay_receiver_free(&receiver);
    return frames == FRAMES ? EXIT_SUCCESS : EXIT_FAILURE;
}

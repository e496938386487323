/* Waits that follow the network: the streams of a format wait as long as missing packets are late.
 *
 *     cc waits.c $(pkg-config --cflags --libs codec-payload) && ./a.out
 *
 * The rules:
 * - late_wait of a format: each of its streams keeps a cpay_adaptive_wait, by each datagram that it takes. `late` of the session's
 *   settings has the bounds.
 * - cpay_session_next_deadline reports when a frame has waited for long enough.
 * The network is simulated: the second of six packets is lost, and its retransmission arrives 64 ms after the third. */
#include "codec_payload.h"

#include <inttypes.h>
#include <stdio.h>
#include <stdlib.h>

enum { RTX = 97 };

static void check(cpay_status status, const char *what) {
    if (status == CPAY_OK) return;
    fprintf(stderr, "%s: %s\n", what, cpay_status_text(status));
    exit(EXIT_FAILURE);
}

/* Polls until there is no event. Returns the number of units. */
static unsigned poll(cpay_session *session, uint64_t now) {
    cpay_event event;
    unsigned units = 0;
    while (cpay_session_poll(session, now, &event) == CPAY_OK) units += event.kind == CPAY_EVENT_UNIT;
    return units;
}

/* ---- The simulated network ---- */

/* A packet of G.711, or its retransmission. */
static size_t packet(uint8_t number, bool again, uint8_t out[15]) {
    const uint8_t type = again ? RTX : 0, ssrc = again ? 9 : 7;
    const uint8_t header[12] = {0x80, type, 0, number, 0, 0, number, 0, 0, 0, 0, ssrc};
    size_t size = 0;
    for (; size < sizeof header; size++) out[size] = header[size];
    if (again) {
        out[size++] = 0;
        out[size++] = number;
    }
    out[size++] = 1;
    return size;
}

static void receive(cpay_session *session, uint64_t now, const uint8_t *datagram, size_t size) {
    cpay_arrival arrival;
    check(cpay_session_receive(session, now, datagram, size, &arrival), "receive");
}

int main(void) {
    static const cpay_ssrc_pair pairs[1] = {{.ssrc = 7, .rtx_ssrc = 9}};
    static const cpay_session_format format = {
        .spec = {.codec = CPAY_PCMU, .rate = 8000}, .rtx_payload_type = RTX, .has_rtx = true, .late_wait = true};
    cpay_session_settings settings;
    cpay_session session = CPAY_INIT;
    uint8_t datagram[15];
    uint64_t before = 0, after = 0;
    unsigned units = 0;
    cpay_session_settings_init(&settings, CPAY_FOR_LIVE);
    check(cpay_session_new(&session, &settings, &format, 1, NULL, 0, pairs, 1), "session");
    for (uint8_t number = 0; number < 48; number++) {
        uint64_t now = 20u * number;
        if (number % 6 == 1) continue;
        if (number % 6 == 0 && number > 0) receive(&session, now - 16, datagram, packet((uint8_t)(number - 5), true, datagram));
        receive(&session, now, datagram, packet(number, false, datagram));
        units += poll(&session, now);
    }
    check(cpay_session_next_deadline(&session, &before), "deadline");
    /* After the eighth retransmission the limit is 5/4 of 64 ms, so the next packet behind a gap is released after 80 ms. */
    receive(&session, 944, datagram, packet(43, true, datagram));
    receive(&session, 980, datagram, packet(49, false, datagram));
    units += poll(&session, 980);
    check(cpay_session_next_deadline(&session, &after), "deadline");
    printf("%u units, a deadline at %" PRIu64 " ms and then at %" PRIu64 " ms\n", units, before, after);
    cpay_session_free(&session);
    return before != 1080 || after != 1060;
}

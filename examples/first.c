#include "codec_payload.h"
#include <stdio.h>

/* Passes a datagram that came from a socket at time `now`. A datagram that is not an RTP packet is counted and skipped. */
static cpay_status take(cpay_receiver *receiver, uint64_t now, const uint8_t *datagram, size_t size) {
    cpay_outcome outcome = CPAY_HELD;
    cpay_status status = cpay_receiver_receive(receiver, now, datagram, size, &outcome);
    if (status == CPAY_OK || status == CPAY_OUT_OF_MEMORY) return status;
    printf("skipped: %s\n", cpay_status_text(status));
    return CPAY_OK;
}

int main(void) {
    static uint8_t frame[3000], datagram[1500], bytes[3000];
    cpay_spec vp8 = {.codec = CPAY_VP8, .rate = 90000};
    cpay_sender_settings sends = {.spec = vp8, .mtu = 1200, .ssrc = 0x12345678, .payload_type = 96};
    cpay_receiver_settings receives;
    cpay_sender sender = CPAY_INIT;
    cpay_receiver receiver = CPAY_INIT;
    cpay_unit unit = {0};
    size_t count = 0, size = 0;
    cpay_receiver_settings_init(&receives, CPAY_VP8, 90000, 96, CPAY_FOR_LIVE);
    cpay_status status = cpay_sender_new(&sender, &sends);
    if (!status) status = cpay_receiver_new(&receiver, &receives, NULL, 0);
    if (!status) status = take(&receiver, 0, (const uint8_t *)"hello", 5);
    if (!status) status = cpay_sender_send(&sender, 3000, false, frame, sizeof frame, &count);
    for (size_t place = 0; !status && place < count; place++) {
        status = cpay_sender_datagram(&sender, place, datagram, sizeof datagram, &size);
        if (!status) status = take(&receiver, 20, datagram, size);
    }
    while (!status && !(status = cpay_receiver_pop(&receiver, 120, &unit, bytes, sizeof bytes))) {
        if (unit.fault) printf("a frame is lost: %s\n", cpay_status_text(unit.fault));
        else printf("packets %u to %u: a frame of %zu bytes\n", (unsigned)unit.first, (unsigned)unit.last, unit.bytes);
    }
    printf("%s\n", cpay_status_text(status));
    cpay_sender_free(&sender);
    cpay_receiver_free(&receiver);
    return status != CPAY_NONE;
}

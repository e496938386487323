/* protect.c beside libsrtp: the same bytes for 400,000 packets of four streams, whose numbers come to 0 again, are late, and come
 * twice. */
#include "server.h"

#include <libavutil/intreadwrite.h>
#include <stdlib.h>
#include <string.h>

enum { PACKETS = 100000, STREAMS = 4, BEHIND = 40, MOST = 1200 };

static size_t write_packet(uint8_t *to, uint32_t ssrc, uint32_t number) {
    size_t extension = number % 3 == 0 ? 8 : 0, size = 12 + extension + number % 7 * 150 % (MOST - 40);
    for (size_t i = 0; i < size; i++) to[i] = (uint8_t)(number * 31 + i * 7 + ssrc);
    to[0] = extension ? 0x90 : 0x80;
    AV_WB16(to + 2, (uint16_t)number);
    AV_WB32(to + 8, ssrc);
    if (extension) AV_WB32(to + 12, 0xbede0001);
    return size;
}

int main(void) {
    uint8_t key[28], ours[MOST + SRTP_ROOM], theirs[MOST + SRTP_ROOM];
    srtp_policy_t policy = {.ssrc = {.type = ssrc_any_outbound}, .key = key, .window_size = 1024, .allow_repeat_tx = 1};
    srtp_t out = NULL;
    for (size_t i = 0; i < sizeof key; i++) key[i] = (uint8_t)(i * 11 + 3);
    protection *it = protect_new(key, key + 16);
    srand48(1);
    if (!it || srtp_init() || srtp_crypto_policy_set_from_profile_for_rtp(&policy.rtp, srtp_profile_aead_aes_128_gcm) ||
        srtp_crypto_policy_set_from_profile_for_rtcp(&policy.rtcp, srtp_profile_aead_aes_128_gcm) || srtp_create(&out, &policy))
        return EXIT_FAILURE;
    for (uint32_t place = 0; place < PACKETS * STREAMS; place++) {
        uint32_t ssrc = 1000 + place % STREAMS, number = place / STREAMS + 30000;
        if (place > STREAMS * BEHIND && drand48() < 0.1) number -= (uint32_t)(drand48() * BEHIND);
        int size = (int)write_packet(ours, ssrc, number), length = size;
        memcpy(theirs, ours, (size_t)size);
        if (!protect_packet(it, ours, &size) || srtp_protect(out, theirs, &length) || size != length ||
            memcmp(ours, theirs, (size_t)size)) {
            printf("packet %u differs\n", number);
            return EXIT_FAILURE;
        }
    }
    protect_free(it);
    srtp_dealloc(out);
    printf("%d packets are the same\n", PACKETS * STREAMS);
    return EXIT_SUCCESS;
}

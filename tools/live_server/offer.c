/* The rate that is offered to a publisher, by REMB: what its path carries, and at most --bitrate. The library estimates the path
 * by the times at which the packets were sent: abs-send-time, or without it the RTP time of the video. */
#include "server.h"

#include <libavutil/intreadwrite.h>
#include <sys/param.h>

enum {
    BESIDE = 44,              /* bytes that a packet has on the path beside its RTP: SRTP, UDP and IP */
    MOST_LOST = 1000,         /* losses that are noted at once */
    FIRST_ROUND_TRIP = 50000, /* us: before the session knows it */
    VIDEO_RATE = 90           /* ticks of the video's clock in a ms */
};

bool offer_begin(offering *it) {
    cpay_rate_offer_settings settings;
    cpay_rate_offer_settings_init(&settings);
    settings.wants = the.bitrate;
    settings.most = MAX(settings.most, the.bitrate);
    return cpay_rate_offer_new(&it->offer, &settings) == CPAY_OK;
}

void offer_note(offering *it, uint8_t send_time_id, const uint8_t *datagram, size_t size, uint64_t now) {
    uint8_t time[3];
    size_t length = 0;
    if (!cpay_extension(datagram, size, send_time_id, time, sizeof time, &length) && length == sizeof time)
        (void)!cpay_rate_offer_arrived(&it->offer, now, AV_RB24(time), (uint32_t)size + BESIDE);
}

/* All packets of a frame have its time: the later ones look as if they had waited. */
void offer_note_by(offering *it, uint32_t rtp_time, size_t size, uint64_t now) {
    if (it->time == 0) it->time = (1ull << 32) + rtp_time;
    it->time += (uint64_t)(int64_t)(int32_t)(rtp_time - (uint32_t)it->time);
    (void)!cpay_rate_offer_arrived_by(&it->offer, now, it->time * 1000 / VIDEO_RATE, (uint32_t)size + BESIDE);
}

/* A packet that is late counts as arrived when it comes. */
void offer_losses(offering *it, int track, int64_t lost) {
    for (int64_t more = MIN(lost - it->lost[track], MOST_LOST); more > 0; more--) (void)!cpay_rate_offer_lost(&it->offer);
    it->lost[track] = lost;
}

/* Without a measured round trip `round_trip` is 0. */
bool offer_due(offering *it, uint64_t now, uint64_t round_trip) {
    return cpay_rate_offer_take_due(&it->offer, now, round_trip ? round_trip : FIRST_ROUND_TRIP, &it->rate) == CPAY_OK;
}

void offer_free(offering *it) { cpay_rate_offer_free(&it->offer); }

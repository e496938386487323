/* Times of a stream: RTP times that jump, as after a restart of the sender, become times that advance with the clock. */
#ifndef RTP_RECORD_TIMELINE_H
#define RTP_RECORD_TIMELINE_H

#include <stdbool.h>
#include <stdint.h>

typedef struct {
    uint32_t rate; /* of the RTP clock, in hertz */
    bool begun;
    uint64_t first_rtp; /* the RTP time of the first unit */
    uint64_t rtp_time;  /* of the unit before, and when it came */
    uint64_t received;
    int64_t time;  /* what it became, in ticks from the first unit on */
    bool reported; /* by a sender report: this NTP time and this RTP time are one moment */
    uint64_t ntp;
    uint32_t ntp_rtp;
} timeline;

void timeline_begin(timeline *it, uint32_t rate);

/* The time of a unit whose RTP time does not wrap and which came then, in nanoseconds: in ticks of the RTP clock from the first
 * unit on. If the RTP time and the clock advance by amounts that differ by more than ten seconds, the clock decides. */
int64_t timeline_at(timeline *it, uint64_t rtp_time, uint64_t received);

/* What a sender report says. The first one holds. */
void timeline_report(timeline *it, uint64_t ntp, uint32_t rtp_time);

/* When the first unit was sampled, in nanoseconds of the clock of the sender. false before a unit and a report were there. */
bool timeline_began(const timeline *it, int64_t *nanoseconds);

#endif

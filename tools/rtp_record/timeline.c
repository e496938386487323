#include "timeline.h"

static const int64_t SECOND = 1000000000;

enum { LONGEST_JUMP = 10 }; /* seconds */

void timeline_begin(timeline *it, uint32_t rate) { *it = (timeline){.rate = rate}; }

int64_t timeline_at(timeline *it, uint64_t rtp_time, uint64_t received) {
    if (!it->begun) {
        it->begun = true;
        it->first_rtp = rtp_time;
    } else {
        int64_t ticks = (int64_t)(rtp_time - it->rtp_time);
        /* a double has room for the years of a capture, to within a tick */
        int64_t clock = (int64_t)((double)(int64_t)(received - it->received) * it->rate / 1e9);
        int64_t apart = ticks > clock ? ticks - clock : clock - ticks;
        it->time += apart > LONGEST_JUMP * (int64_t)it->rate ? (clock > 0 ? clock : 0) : ticks;
    }
    it->rtp_time = rtp_time;
    it->received = received;
    return it->time;
}

void timeline_report(timeline *it, uint64_t ntp, uint32_t rtp_time) {
    if (it->reported) return;
    it->reported = true;
    it->ntp = ntp;
    it->ntp_rtp = rtp_time;
}

bool timeline_began(const timeline *it, int64_t *nanoseconds) {
    if (!it->begun || !it->reported) return false;
    /* ticks from the report to the first unit; negative if the unit is earlier */
    int32_t ticks = (int32_t)((uint32_t)it->first_rtp - it->ntp_rtp);
    int64_t report = (int64_t)(it->ntp >> 32) * SECOND + (int64_t)(((it->ntp & 0xffffffff) * (uint64_t)SECOND) >> 32);
    *nanoseconds = report + (int64_t)((double)ticks * 1e9 / it->rate);
    return true;
}

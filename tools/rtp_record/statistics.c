#include "statistics.h"

#include <string.h>

enum { FORWARD = 3000, BACKWARD = 100, WAITED_FOR = 64, FIRST_NUMBER = 65536 };

static bool is_seen(const statistics *it, uint64_t number) {
    return it->seen[number % STATISTICS_WINDOW / 64] >> number % 64 & 1;
}

static void set_seen(statistics *it, uint64_t number, bool seen) {
    uint64_t *word = &it->seen[number % STATISTICS_WINDOW / 64];
    *word = seen ? *word | UINT64_C(1) << number % 64 : *word & ~(UINT64_C(1) << number % 64);
}

/* The sender begins, or restarts, with this number. */
static void begin(statistics *it, uint16_t number) {
    it->wanted_before += it->begun ? it->greatest - it->base + 1 : 0;
    it->came_before += it->came;
    it->begun = true;
    it->base = it->greatest = (uint64_t)FIRST_NUMBER + number;
    it->came = 0;
    it->has_suspect = it->has_transit = false;
    memset(it->seen, 0, sizeof it->seen);
}

/* A number ahead of the greatest: those between may come yet. */
static void go_on(statistics *it, uint64_t number) {
    for (uint64_t between = it->greatest + 1; between <= number; between++) set_seen(it, between, false);
    it->greatest = number;
}

/* The interarrival jitter of RFC 3550, appendix A.8. Timestamps wrap, so that differences are taken modulo 2^32. */
static void take_time(statistics *it, uint64_t time, uint32_t rate, uint32_t timestamp) {
    /* the difference of two transit times is small, so that it does not matter that they are reckoned modulo 2^32 */
    double ticks = (double)(time / 1000000000u % (UINT64_C(1) << 32)) * rate + (double)(time % 1000000000u) * rate / 1e9;
    double transit = ticks - timestamp;
    if (it->has_transit) {
        double apart = transit - it->transit;
        apart -= 4294967296.0 * (double)(int64_t)(apart / 4294967296.0 + (apart < 0 ? -0.5 : 0.5));
        it->jitter += ((apart < 0 ? -apart : apart) - it->jitter) / 16;
    }
    it->transit = transit;
    it->has_transit = true;
}

/* The extended number of a packet; 0 if the number is outside the windows around the highest one (a suspect packet). */
static uint64_t place_of(statistics *it, uint16_t number) {
    uint16_t ahead = (uint16_t)(number - it->greatest);
    if (ahead < FORWARD) return it->greatest + ahead;
    if (ahead >= (uint16_t)-BACKWARD) return it->greatest - (uint16_t)-ahead;
    if (it->has_suspect && number == it->suspect) {
        begin(it, (uint16_t)(number - 1));
        it->came = 1; /* the suspect packet before this one is the first of the restarted stream */
        set_seen(it, it->greatest, true);
        it->restarts++;
        return it->greatest + 1;
    }
    it->suspect = (uint16_t)(number + 1);
    it->has_suspect = true;
    return 0;
}

void statistics_packet(statistics *it, uint64_t time, uint32_t rate, const cpay_rtp_info *packet) {
    if (!it->begun) begin(it, packet->sequence_number);
    uint64_t number = place_of(it, packet->sequence_number);
    if (number == 0) return;
    it->has_suspect = false;
    if (number > it->greatest) {
        go_on(it, number);
    } else if (it->came > 0) {
        if (is_seen(it, number)) {
            it->duplicates++;
            return;
        }
        it->reordered++;
        it->late += it->greatest - number > WAITED_FOR;
        if (number < it->base) it->base = number;
    }
    set_seen(it, number, true);
    it->came++;
    take_time(it, time, rate, packet->timestamp);
}

uint64_t statistics_lost(const statistics *it) {
    uint64_t wanted = it->wanted_before + (it->begun ? it->greatest - it->base + 1 : 0);
    return wanted - it->came_before - it->came;
}

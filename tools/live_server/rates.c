/* What a track sends, as the path to a viewer carries it: delta frames by their layers, and the latest keyframe. */
#include "server.h"

#include <sys/param.h>

enum {
    INTERVAL = 500, /* ms in which bytes are counted for a rate */
    CARRIED = 52    /* bytes that a packet has on the path to a viewer beside its RTP */
};

/* Keyframes of video are not part of the rate: they come when a viewer needs one. */
void rates_count(rates *of, bool video, const cpay_rtp_info *info, layer at, bool begins_keyframe) {
    size_t size = info->payload_len + 12 + CARRIED;
    int spatial = MIN(at.spatial, MOST_SPATIAL - 1), temporal = MIN(at.temporal, MOST_TEMPORAL - 1);
    if (video && begins_keyframe && info->timestamp != of->time) {
        for (int i = 0; i < MOST_SPATIAL; i++) of->last_keyframe[i] = of->keyframe[i], of->keyframe[i] = 0;
        of->time = info->timestamp;
        of->has_keyframe = true;
    }
    of->highest = MAX(of->highest, spatial);
    if (video && of->has_keyframe && info->timestamp == of->time) of->keyframe[spatial] += size;
    else of->counted[spatial][temporal] += size;
}

/* The rate of one layer. If it rises, half of it is the latest interval, and otherwise an eighth. */
static void measure_one(rates *of, int spatial, int temporal, uint64_t passed) {
    uint64_t rate = of->at ? of->counted[spatial][temporal] * 8000 / passed : 0, *known = &of->rates[spatial][temporal];
    unsigned weight = rate > *known ? 2 : 8;
    of->latest[spatial][temporal] = rate;
    *known = *known && rate ? (*known * (weight - 1) + rate) / weight : rate;
    of->counted[spatial][temporal] = 0;
}

void rates_measure(rates *of, uint64_t now) {
    uint64_t passed = now - of->at;
    if (passed < INTERVAL) return;
    for (int spatial = 0; spatial < MOST_SPATIAL; spatial++)
        for (int temporal = 0; temporal < MOST_TEMPORAL; temporal++) measure_one(of, spatial, temporal, passed);
    of->at = now;
}

static uint64_t sum(const uint64_t all[MOST_SPATIAL][MOST_TEMPORAL], layer up_to) {
    uint64_t rate = 0;
    for (int spatial = 0; spatial <= up_to.spatial && spatial < MOST_SPATIAL; spatial++)
        for (int temporal = 0; temporal <= up_to.temporal && temporal < MOST_TEMPORAL; temporal++) rate += all[spatial][temporal];
    return rate;
}

uint64_t rates_of(const rates *of, layer up_to) { return sum(of->rates, up_to); }

uint64_t rates_latest(const rates *of, layer up_to) { return sum(of->latest, up_to); }

/* The larger one of the latest keyframe so far, and the one before it. */
uint64_t rates_keyframe(const rates *of, int spatial) {
    uint64_t latest = 0, before = 0;
    for (int i = 0; i <= spatial && i < MOST_SPATIAL; i++) latest += of->keyframe[i], before += of->last_keyframe[i];
    return MAX(latest, before);
}

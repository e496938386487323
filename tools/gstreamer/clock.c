#include "clock.h"

#define WINDOW (2 * GST_SECOND)
#define JUMP (1 * GST_SECOND)

gint64 cpay_clock_media_time(const CpayClock *clock, guint64 rtp_time, guint rate) {
    gint64 ticks = (gint64)(rtp_time - clock->first_rtp);
    if (ticks < 0) return -(gint64)gst_util_uint64_scale((guint64)-ticks, GST_SECOND, rate);
    return (gint64)gst_util_uint64_scale((guint64)ticks, GST_SECOND, rate);
}

static void begin(CpayClock *clock, guint64 rtp_time, GstClockTime arrived) {
    CpayClock fresh = {.begun = TRUE, .first_rtp = rtp_time, .first = arrived, .now_least = G_MAXINT64, .window_end = arrived + WINDOW};
    fresh.sync = clock->sync, fresh.wants_sync = clock->wants_sync, fresh.last = clock->last;
    *clock = fresh;
}

/* Down at once while the stream is young, since the first frame may have come late; later by a sixteenth of the way. */
static void follow(CpayClock *clock, gint64 delay, GstClockTime arrived) {
    clock->now_least = MIN(clock->now_least, delay);
    if (arrived >= clock->window_end) {
        clock->least[clock->windows++ % CPAY_CLOCK_WINDOWS] = clock->now_least;
        clock->now_least = delay, clock->window_end = arrived + WINDOW;
    }
    gint64 least = clock->now_least;
    for (guint i = 0; i < MIN(clock->windows, CPAY_CLOCK_WINDOWS); i++) least = MIN(least, clock->least[i]);
    clock->skew = clock->windows == 0 ? least : clock->skew + (least - clock->skew) / 16;
    /* streams that are synchronised move by at most 1 ms a frame */
    clock->sync += CLAMP(clock->wants_sync - clock->sync, -(gint64)GST_MSECOND, (gint64)GST_MSECOND);
}

GstClockTime cpay_clock_time(CpayClock *clock, CpayFrameTime frame, guint rate, gboolean *jumped) {
    gboolean has_time = GST_CLOCK_TIME_IS_VALID(frame.arrived);
    GstClockTime arrived = has_time ? frame.arrived : 0;
    *jumped = FALSE;
    if (clock->begun && has_time) {
        gint64 off = (gint64)(arrived - clock->first) - cpay_clock_media_time(clock, frame.rtp_time, rate) - clock->skew;
        *jumped = ABS(off) > (gint64)JUMP;
    }
    if (!clock->begun || *jumped) begin(clock, frame.rtp_time, arrived);
    gint64 media = cpay_clock_media_time(clock, frame.rtp_time, rate);
    if (has_time) follow(clock, (gint64)(arrived - clock->first) - media, arrived);
    gint64 time = (gint64)clock->first + media + clock->skew + clock->sync;
    GstClockTime found = time < 0 ? 0 : (GstClockTime)time;
    return clock->last = MAX(found, clock->last);
}

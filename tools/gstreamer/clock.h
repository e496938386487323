/* The clock of a stream: from RTP times to running times. */
#ifndef CPAY_CLOCK_H
#define CPAY_CLOCK_H

#include <gst/gst.h>

enum { CPAY_CLOCK_WINDOWS = 4 };

/** The delay of a frame is its time of arrival less its RTP time. The least delay of the last eight seconds is the delay of the network
 * without queues. So the running time of a frame is its RTP time and the least delay. Clocks that drift apart move it slowly. */
typedef struct {
    gboolean begun;
    guint64 first_rtp;                /**< RTP time of the first frame, without wrap */
    GstClockTime first;               /**< running time of the first frame */
    gint64 least[CPAY_CLOCK_WINDOWS]; /**< least delays of windows of two seconds */
    gint64 now_least, skew;
    GstClockTime window_end;
    guint windows;
    gint64 sync, wants_sync; /**< added so that streams of one sender stay together */
    GstClockTime last;
} CpayClock;

/** A frame: its RTP time without wrap, and when it arrived, or GST_CLOCK_TIME_NONE. */
typedef struct {
    guint64 rtp_time;
    GstClockTime arrived;
} CpayFrameTime;

/** Nanoseconds since the first frame, by the RTP clock; negative before it. */
gint64 cpay_clock_media_time(const CpayClock *clock, guint64 rtp_time, guint rate);

/** The running time of a frame: never before the running time of the frame before it. *jumped: the RTP time left the time of arrival by
 * more than a second, and the clock began again. */
GstClockTime cpay_clock_time(CpayClock *clock, CpayFrameTime frame, guint rate, gboolean *jumped);

#endif

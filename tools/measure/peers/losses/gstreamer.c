/* The units of a schedule through GStreamer's rtpjitterbuffer, with its defaults, and a depayloader, on a clock of a test: gstreamer KIND.
 * After each packet and each time that is due the threads of the jitter buffer get a millisecond of the machine. */
#include <gst/check/gstharness.h>
#include <gst/check/gsttestclock.h>

#include "schedule.h"

static void print_units(GstHarness *one, int64_t now) {
    for (GstBuffer *unit; (unit = gst_harness_try_pull(one));) {
        GstMapInfo map;
        if (!gst_buffer_map(unit, &map, GST_MAP_READ)) fail("no bytes");
        print_unit(now, map.data, map.size);
        gst_buffer_unmap(unit, &map);
        gst_buffer_unref(unit);
    }
}

/* Lets all waits end that are due. */
static void release_waits(GstTestClock *clock) {
    for (GstClockID next; gst_test_clock_peek_next_pending_id(clock, &next);) {
        gboolean is_due = gst_clock_id_get_time(next) <= gst_clock_get_time(GST_CLOCK(clock));
        gst_clock_id_unref(next);
        if (!is_due) return;
        GstClockID ended = gst_test_clock_process_next_clock_id(clock);
        if (!ended) return;
        gst_clock_id_unref(ended);
        g_usleep(1000);
    }
}

int main(int count, char **words) {
    static arrival packet;
    if (count != 2) return EXIT_FAILURE;
    gst_init(NULL, NULL);
    gboolean is_video = !strcmp(words[1], "vp8");
    GstHarness *one = gst_harness_new_parse(is_video ? "rtpjitterbuffer ! rtpvp8depay" : "rtpjitterbuffer ! rtpopusdepay");
    if (!one) fail("the elements are missing");
    gst_harness_use_testclock(one);
    gst_harness_set_src_caps_str(one, is_video ? "application/x-rtp,media=video,clock-rate=90000,encoding-name=VP8,payload=96"
                                               : "application/x-rtp,media=audio,clock-rate=48000,encoding-name=OPUS,payload=96");
    GstTestClock *clock = gst_harness_get_testclock(one);
    int64_t now = 0;
    for (int more = next_arrival(&packet); more; now++) {
        gst_harness_set_time(one, (GstClockTime)now * GST_MSECOND);
        release_waits(clock);
        for (; more && packet.at <= now; more = next_arrival(&packet)) {
            GstBuffer *buffer = gst_buffer_new_memdup(packet.bytes, packet.size);
            GST_BUFFER_DTS(buffer) = GST_BUFFER_PTS(buffer) = (GstClockTime)now * GST_MSECOND;
            if (gst_harness_push(one, buffer) != GST_FLOW_OK) fail("a packet is refused");
            g_usleep(1000);
            release_waits(clock);
        }
        print_units(one, now);
    }
    return EXIT_SUCCESS;
}

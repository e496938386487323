/* Receives packets of Opus or VP8 through GStreamer's rtpjitterbuffer and depayloader: gstreamer KIND RUNS. The jitter buffer runs in the
 * mode that follows no clock, so it gives each packet in order at once. It prints the nanoseconds of processor time of a packet, of all
 * threads, as the least of several runs, and with `idle` the bytes of a stream that got one packet. */
#define _POSIX_C_SOURCE 199309L
#include <gst/check/gstharness.h>

#include <malloc.h>
#include <stdio.h>
#include <stdlib.h>
#include <string.h>
#include <time.h>

enum { ROUNDS = 2176, HEADER = 12, FRAME = 17, STREAMS = 50 };

static gboolean is_video;

static void fail(const char *what) {
    fprintf(stderr, "gstreamer: %s\n", what);
    exit(EXIT_FAILURE);
}

static GstHarness *new_stream(void) {
    GstHarness *one = gst_harness_new_parse(is_video ? "rtpjitterbuffer mode=none faststart-min-packets=1 ! rtpvp8depay" : "rtpjitterbuffer mode=none faststart-min-packets=1 ! rtpopusdepay");
    if (!one) fail("the elements are missing");
    gst_harness_set_src_caps_str(one, is_video ? "application/x-rtp,media=video,clock-rate=90000,encoding-name=VP8,payload=96"
                                               : "application/x-rtp,media=audio,clock-rate=48000,encoding-name=OPUS,payload=96");
    return one;
}

static void receive(GstHarness *one, guint64 number) {
    size_t frame = is_video ? FRAME : 1, len = HEADER + (is_video ? 1200 : 120);
    guint32 time = (guint32)(number / frame * 960);
    GstBuffer *buffer = gst_buffer_new_allocate(NULL, len, NULL);
    GstMapInfo map;
    if (!buffer || !gst_buffer_map(buffer, &map, GST_MAP_WRITE)) fail("out of memory");
    memset(map.data, 0, len);
    gboolean ends = is_video && number % FRAME == FRAME - 1;
    map.data[0] = 0x80, map.data[1] = (guint8)(96 | (ends ? 0x80 : 0)), map.data[2] = (guint8)(number >> 8), map.data[3] = (guint8)number;
    for (int i = 0; i < 4; i++) map.data[4 + i] = (guint8)(time >> (24 - 8 * i));
    map.data[11] = 7;
    /* the first octets of a keyframe: the depayloader drops what comes before one */
    if (is_video && number % FRAME == 0) memcpy(map.data + HEADER, "\x10\x00\x00\x00\x9d\x01\x2a\x40\x01\xf0\x00", 11);
    gst_buffer_unmap(buffer, &map);
    GST_BUFFER_DTS(buffer) = GST_BUFFER_PTS(buffer) = number / frame * 20 * GST_MSECOND;
    if (gst_harness_push(one, buffer) != GST_FLOW_OK) fail("a packet is refused");
}

static void take(GstHarness *one, guint64 count) {
    for (guint64 i = 0; i < count; i++) {
        GstBuffer *unit = gst_harness_pull(one); /* waits for it */
        if (!unit) fail("a frame is missing");
        gst_buffer_unref(unit);
    }
}

static double time_now(void) {
    struct timespec time;
    clock_gettime(CLOCK_PROCESS_CPUTIME_ID, &time);
    return 1e9 * (double)time.tv_sec + (double)time.tv_nsec;
}

static void print_idle(void) {
    GstHarness *first = new_stream(); /* with what all streams share */
    receive(first, 0);
    size_t before = mallinfo2().uordblks;
    for (int i = 0; i < STREAMS; i++) {
        receive(new_stream(), 0);
    }
    g_usleep(G_USEC_PER_SEC); /* the streams have threads */
    printf("%zu\n", (mallinfo2().uordblks - before) / STREAMS);
}

int main(int count, char **words) {
    if (count != 3) return EXIT_FAILURE;
    gst_init(NULL, NULL);
    is_video = !strcmp(words[1], "vp8");
    if (!strcmp(words[1], "idle")) return print_idle(), EXIT_SUCCESS;
    GstHarness *one = new_stream();
    guint64 number = 0, frame = is_video ? FRAME : 1;
    double least = 0;
    for (int run = 0; run < atoi(words[2]); run++) {
        double start = time_now();
        for (guint64 i = 0; i < ROUNDS; i++) receive(one, number++);
        take(one, ROUNDS / frame);
        double took = (time_now() - start) / ROUNDS;
        if (run == 0 || took < least) least = took;
    }
    printf("%.1f\n", least);
    return EXIT_SUCCESS;
}

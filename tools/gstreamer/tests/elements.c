/* The elements by themselves: packets written by hand in, buffers, events and RTCP out, by a clock of the test. */
#include <gst/audio/audio.h>
#include <gst/check/gstharness.h>
#include <gst/rtp/rtp.h>
#include <gst/video/video.h>
#include <string.h>

enum { PCMU = 0, VP8 = 96, VP9 = 98, SSRC = 0x1234 };
#define FRAME (20 * GST_MSECOND)
#define PICTURE (GST_SECOND / 30)
#define AUDIO "application/x-rtp,media=audio,payload=0,encoding-name=PCMU,clock-rate=8000"
#define VIDEO "application/x-rtp,media=video,payload=96,encoding-name=VP8,clock-rate=90000"
#define NACK_PLI ",rtcp-fb-nack=true,rtcp-fb-nack-pli=true"
#define OTHER_VIDEO "application/x-rtp,media=video,payload=98,encoding-name=VP9,clock-rate=90000"

/* ---- A harness around a session ---- */

typedef struct {
    GstHarness *h, *rtcp;
    guint pads;
} Port;

static void added(GstElement *element, GstPad *pad, gpointer port_) {
    Port *port = port_;
    (void)element;
    if (!GST_PAD_IS_SRC(pad) || g_str_has_prefix(GST_PAD_NAME(pad), "rtcp")) return;
    if (port->pads++ == 0) gst_harness_add_element_src_pad(port->h, pad);
}

static void open_port(Port *port, const char *formats, guint latency, const char *undecodable) {
    GstElement *element = gst_element_factory_make("cpaysession", NULL);
    g_assert_nonnull(element);
    gst_util_set_object_arg(G_OBJECT(element), "formats", formats);
    gst_util_set_object_arg(G_OBJECT(element), "undecodable", undecodable);
    g_object_set(element, "latency", latency, "report-interval", 0, NULL);
    port->pads = 0;
    /* the element gets the clock of the last harness */
    port->rtcp = gst_harness_new_with_element(element, NULL, "rtcp_src");
    port->h = gst_harness_new_with_element(element, "sink", NULL);
    g_signal_connect(element, "pad-added", G_CALLBACK(added), port);
    gst_harness_set_src_caps_str(port->h, "application/x-rtp");
    gst_object_unref(element);
}

static void close_port(Port *port) {
    gst_harness_teardown(port->rtcp);
    gst_harness_teardown(port->h);
}

/* ---- Packets ---- */

typedef struct {
    guint16 number;
    guint32 time;
    guint8 type;
    gboolean marker;
} Header;

static GstBuffer *packet(Header header, const guint8 *payload, guint size, GstClockTime arrived) {
    GstRTPBuffer rtp = GST_RTP_BUFFER_INIT;
    GstBuffer *buffer = gst_rtp_buffer_new_allocate(size, 0, 0);
    gst_rtp_buffer_map(buffer, GST_MAP_WRITE, &rtp);
    gst_rtp_buffer_set_payload_type(&rtp, header.type);
    gst_rtp_buffer_set_seq(&rtp, header.number);
    gst_rtp_buffer_set_timestamp(&rtp, header.time);
    gst_rtp_buffer_set_ssrc(&rtp, SSRC);
    gst_rtp_buffer_set_marker(&rtp, header.marker);
    memcpy(gst_rtp_buffer_get_payload(&rtp), payload, size);
    gst_rtp_buffer_unmap(&rtp);
    GST_BUFFER_PTS(buffer) = arrived;
    return buffer;
}

/* 20 ms of G.711, by its place in the stream, and when it arrives. */
static void push_audio_at(Port *port, guint place, guint16 first, GstClockTime at) {
    guint8 samples[160];
    memset(samples, (int)place, sizeof samples);
    Header header = {(guint16)(first + place), 160 * place, PCMU, FALSE};
    gst_harness_set_time(port->h, at);
    g_assert_cmpint(gst_harness_push(port->h, packet(header, samples, sizeof samples, at)), ==, GST_FLOW_OK);
}

static void push_audio(Port *port, guint place, guint16 first) {
    push_audio_at(port, place, first, place * FRAME);
}

/* A frame of VP8 in one packet: the descriptor without ids, the header of a frame (RFC 6386, section 9.1), whose first partition has two
 * bytes, and three bytes. */
static GstBuffer *video_packet(guint place, gboolean key) {
    static const guint8 keyframe[] = {0x10, 0x50, 0x00, 0x00, 0x9d, 0x01, 0x2a, 0x40, 0x01, 0xf0, 0x00, 1, 2, 3};
    static const guint8 delta[] = {0x10, 0x51, 0x00, 0x00, 4, 5, 6};
    Header header = {(guint16)(100 + place), 3000 * place, VP8, TRUE};
    return packet(header, key ? keyframe : delta, key ? sizeof keyframe : sizeof delta, place * PICTURE);
}

static void push_video(Port *port, guint place, gboolean key) {
    gst_harness_set_time(port->h, place * PICTURE);
    g_assert_cmpint(gst_harness_push(port->h, video_packet(place, key)), ==, GST_FLOW_OK);
}

/* ---- Output ---- */

static GstBuffer *pull(Port *port) {
    GstBuffer *buffer = gst_harness_pull(port->h);
    g_assert_nonnull(buffer);
    return buffer;
}

/* The next buffer is the audio of that place. Returns its flags. */
static guint audio_comes(Port *port, guint place) {
    guint8 sample = 0;
    g_autoptr(GstBuffer) buffer = pull(port);
    g_assert_cmpuint(gst_buffer_get_size(buffer), ==, 160);
    gst_buffer_extract(buffer, 0, &sample, 1);
    g_assert_cmpuint(sample, ==, place & 255);
    g_assert_cmpuint(GST_BUFFER_PTS(buffer), ==, place * FRAME);
    g_assert_cmpuint(GST_BUFFER_DURATION(buffer), ==, FRAME);
    return GST_BUFFER_FLAGS(buffer);
}

static GstEvent *event_comes(Port *port, GstEventType type) {
    for (;;) {
        GstEvent *event = gst_harness_pull_event(port->h);
        g_assert_nonnull(event);
        if (GST_EVENT_TYPE(event) == type) return event;
        gst_event_unref(event);
    }
}

/* Lets the clock go on from deadline to deadline of the session until the pad has a buffer. None of them is later than `most`. The thread
 * of the session arms its next deadline by itself, so an id that is pending now may be replaced in the next moment. */
static void deadlines_until(Port *port, GstHarness *pad, GstClockTime most) {
    g_autoptr(GstTestClock) clock = gst_harness_get_testclock(port->h);
    for (guint turn = 0; gst_harness_buffers_in_queue(pad) == 0; turn++) {
        GstClockID id = NULL, done = NULL;
        g_assert_cmpuint(turn, <, 30000);
        if (gst_test_clock_peek_next_pending_id(clock, &id)) {
            GstClockTime at = gst_clock_id_get_time(id);
            gst_clock_id_unref(id);
            if (at <= most) {
                if (at > gst_clock_get_time(GST_CLOCK(clock))) gst_test_clock_set_time(clock, at);
                done = gst_test_clock_process_next_clock_id(clock);
                if (done) gst_clock_id_unref(done);
            }
        }
        if (!done) g_usleep(1000);
    }
}

/* ---- Tests of cpaysession ---- */

static void numbers_wrap(void) {
    Port port;
    open_port(&port, AUDIO, 100, "drop");
    for (guint i = 0; i < 40; i++) push_audio(&port, i, 65520);
    for (guint i = 0; i < 40; i++) {
        guint flags = audio_comes(&port, i);
        g_assert_cmpint((flags & GST_BUFFER_FLAG_DISCONT) != 0, ==, i == 0);
    }
    g_autoptr(GstEvent) start = event_comes(&port, GST_EVENT_STREAM_START);
    g_autoptr(GstEvent) caps = event_comes(&port, GST_EVENT_CAPS);
    GstCaps *of;
    gst_event_parse_caps(caps, &of);
    g_assert_true(gst_structure_has_name(gst_caps_get_structure(of, 0), "audio/x-mulaw"));
    close_port(&port);
}

static void packets_change_places(void) {
    static const guint order[] = {0, 1, 3, 2, 5, 4, 6, 7, 7, 3};
    Port port;
    open_port(&port, AUDIO, 100, "drop");
    for (guint i = 0; i < G_N_ELEMENTS(order); i++) push_audio_at(&port, order[i], 0, i * GST_MSECOND);
    for (guint i = 0; i < 8; i++) {
        guint8 sample = 255;
        g_autoptr(GstBuffer) buffer = pull(&port);
        gst_buffer_extract(buffer, 0, &sample, 1);
        g_assert_cmpuint(sample, ==, i);
    }
    g_assert_cmpuint(gst_harness_buffers_in_queue(port.h), ==, 0);
    close_port(&port);
}

/* Nobody resends, so a frame after a gap waits for half of the latency: then it leaves by the clock alone, behind a GAP. */
static void a_loss_is_a_gap(void) {
    Port port;
    GstClockTime from, long_;
    open_port(&port, AUDIO, 200, "drop");
    for (guint i = 0; i < 6; i++)
        if (i != 3) push_audio(&port, i, 0);
    for (guint i = 0; i < 3; i++) audio_comes(&port, i);
    g_assert_cmpuint(gst_harness_buffers_in_queue(port.h), ==, 0);
    deadlines_until(&port, port.h, 5 * FRAME + 200 * GST_MSECOND);
    g_autoptr(GstTestClock) clock = gst_harness_get_testclock(port.h);
    GstClockTime now = gst_clock_get_time(GST_CLOCK(clock));
    g_assert_cmpuint(now, >=, 4 * FRAME + 100 * GST_MSECOND);
    g_assert_cmpuint(now, <=, 5 * FRAME + 200 * GST_MSECOND);
    g_assert_true(audio_comes(&port, 4) & GST_BUFFER_FLAG_DISCONT);
    g_assert_false(audio_comes(&port, 5) & GST_BUFFER_FLAG_DISCONT);
    g_autoptr(GstEvent) gap = event_comes(&port, GST_EVENT_GAP);
    gst_event_parse_gap(gap, &from, &long_);
    g_assert_cmpuint(from, ==, 3 * FRAME);
    g_assert_cmpuint(long_, ==, FRAME);
    close_port(&port);
}

static guint64 milliseconds(GstBuffer *buffer) {
    return (GST_BUFFER_PTS(buffer) + GST_MSECOND / 2) / GST_MSECOND;
}

/* After a lost frame all frames up to the next keyframe are marked. */
static void frames_without_their_base_are_marked(void) {
    Port port;
    open_port(&port, VIDEO, 20, "mark");
    for (guint i = 0; i < 8; i++)
        if (i != 2) push_video(&port, i, i == 0 || i == 5);
    for (guint i = 0; i < 7; i++) {
        g_autoptr(GstBuffer) buffer = pull(&port);
        guint place = i < 2 ? i : i + 1;
        gboolean corrupted = GST_BUFFER_FLAG_IS_SET(buffer, GST_BUFFER_FLAG_CORRUPTED);
        gboolean delta = GST_BUFFER_FLAG_IS_SET(buffer, GST_BUFFER_FLAG_DELTA_UNIT);
        g_assert_cmpuint(milliseconds(buffer), ==, (place * 100 + 1) / 3);
        g_assert_cmpint(corrupted, ==, place == 3 || place == 4);
        g_assert_cmpint(delta, ==, place != 0 && place != 5);
    }
    close_port(&port);
}

static void frames_without_their_base_are_dropped(void) {
    static const guint left[] = {0, 1, 5, 6};
    Port port;
    open_port(&port, VIDEO, 20, "drop");
    for (guint i = 0; i < 7; i++)
        if (i != 2) push_video(&port, i, i == 0 || i == 5);
    for (guint i = 0; i < G_N_ELEMENTS(left); i++) {
        g_autoptr(GstBuffer) buffer = pull(&port);
        g_assert_cmpuint(milliseconds(buffer), ==, (left[i] * 100 + 1) / 3);
        g_assert_cmpint(GST_BUFFER_IS_DISCONT(buffer), ==, left[i] == 0 || left[i] == 5);
    }
    close_port(&port);
}

/* The caps have the size that the keyframe says: 320 by 240. */
static void caps_have_the_size(void) {
    Port port;
    GstCaps *of;
    int width = 0, height = 0;
    open_port(&port, VIDEO, 20, "drop");
    for (guint i = 0; i < 3; i++) push_video(&port, i, i == 0);
    gst_buffer_unref(pull(&port));
    g_autoptr(GstEvent) caps = event_comes(&port, GST_EVENT_CAPS);
    gst_event_parse_caps(caps, &of);
    gst_structure_get_int(gst_caps_get_structure(of, 0), "width", &width);
    gst_structure_get_int(gst_caps_get_structure(of, 0), "height", &height);
    g_assert_cmpint(width, ==, 320);
    g_assert_cmpint(height, ==, 240);
    close_port(&port);
}

/* Numbers and times of the sender jump: the stream goes on with DISCONT, and its running time does not jump. */
static void a_sender_restarts(void) {
    Port port;
    guint8 samples[160] = {7};
    open_port(&port, AUDIO, 100, "drop");
    for (guint i = 0; i < 20; i++) push_audio(&port, i, 0);
    for (guint i = 0; i < 20; i++) audio_comes(&port, i);
    for (guint i = 20; i < 40; i++) {
        Header header = {(guint16)(30000 + i), 5000000 + 160 * i, PCMU, FALSE};
        gst_harness_set_time(port.h, i * FRAME);
        gst_harness_push(port.h, packet(header, samples, sizeof samples, i * FRAME));
    }
    g_autoptr(GstBuffer) first = pull(&port);
    g_assert_true(GST_BUFFER_IS_DISCONT(first));
    g_assert_cmpuint(GST_BUFFER_PTS(first), >=, 20 * FRAME);
    g_assert_cmpuint(GST_BUFFER_PTS(first), <=, 24 * FRAME);
    g_assert_cmpuint(port.pads, ==, 1);
    close_port(&port);
}

static void latency_is_reported(void) {
    Port port;
    open_port(&port, AUDIO, 150, "drop");
    gst_harness_set_upstream_latency(port.h, 30 * GST_MSECOND);
    for (guint i = 0; i < 3; i++) push_audio(&port, i, 0);
    audio_comes(&port, 0);
    g_assert_cmpuint(gst_harness_query_latency(port.h), ==, 180 * GST_MSECOND);
    g_object_set(port.h->element, "latency", 40, NULL);
    g_assert_cmpuint(gst_harness_query_latency(port.h), ==, 70 * GST_MSECOND);
    close_port(&port);
}

static void a_flush_drops_what_waits(void) {
    Port port;
    open_port(&port, AUDIO, 100, "drop");
    for (guint i = 0; i < 10; i++) push_audio(&port, i, 0);
    for (guint i = 0; i < 10; i++) audio_comes(&port, i);
    g_assert_true(gst_harness_push_event(port.h, gst_event_new_flush_start()));
    GstSegment segment;
    gst_segment_init(&segment, GST_FORMAT_TIME);
    g_assert_true(gst_harness_push_event(port.h, gst_event_new_flush_stop(TRUE)));
    g_assert_true(gst_harness_push_event(port.h, gst_event_new_segment(&segment)));
    for (guint i = 10; i < 15; i++) push_audio(&port, i, 0);
    g_assert_true(audio_comes(&port, 10) & GST_BUFFER_FLAG_DISCONT);
    for (guint i = 11; i < 15; i++) audio_comes(&port, i);
    close_port(&port);
}

/* A frame of VP9 in one packet: the descriptor with B and E, and a frame whose header is not read. */
static void push_vp9(Port *port, guint place) {
    static const guint8 frame[] = {0x0c, 0x82, 0x49, 0x83, 0x42, 0x00, 0x13, 0xf0, 0x0e, 0xf0, 0x00};
    Header header = {(guint16)(500 + place), 900000 + 3000 * place, VP9, TRUE};
    gst_harness_set_time(port->h, place * PICTURE);
    gst_harness_push(port->h, packet(header, frame, sizeof frame, place * PICTURE));
}

/* The session gets another format while it plays. The sender changes to it, and its pad gets other caps. */
static void a_pad_survives_a_change_of_format(void) {
    Port port;
    GstCaps *of;
    open_port(&port, VIDEO, 20, "mark");
    for (guint i = 0; i < 5; i++) push_video(&port, i, i == 0);
    for (guint i = 0; i < 5; i++) gst_buffer_unref(pull(&port));
    gst_event_unref(event_comes(&port, GST_EVENT_CAPS));
    gst_util_set_object_arg(G_OBJECT(port.h->element), "formats", VIDEO "; " OTHER_VIDEO);
    for (guint i = 5; i < 12; i++) push_vp9(&port, i);
    g_autoptr(GstBuffer) buffer = pull(&port);
    g_assert_cmpuint(gst_buffer_get_size(buffer), ==, 10);
    g_assert_true(GST_BUFFER_IS_DISCONT(buffer));
    g_assert_cmpuint(port.pads, ==, 1);
    g_autoptr(GstEvent) caps = event_comes(&port, GST_EVENT_CAPS);
    gst_event_parse_caps(caps, &of);
    g_assert_true(gst_structure_has_name(gst_caps_get_structure(of, 0), "video/x-vp9"));
    close_port(&port);
}

/* The values of header extensions: the audio level (RFC 6464) of a one-byte element with id 1. */
static void a_level_is_a_meta(void) {
    Port port;
    guint8 samples[160] = {0}, level = 0x80 | 42;
    guint64 number = 0;
    open_port(&port, AUDIO ",extmap-1=\"urn:ietf:params:rtp-hdrext:ssrc-audio-level\"", 100, "drop");
    for (guint i = 0; i < 3; i++) {
        GstRTPBuffer rtp = GST_RTP_BUFFER_INIT;
        GstBuffer *buffer = packet((Header){(guint16)i, 160 * i, PCMU, FALSE}, samples, sizeof samples, i * FRAME);
        gst_rtp_buffer_map(buffer, GST_MAP_READWRITE, &rtp);
        gst_rtp_buffer_add_extension_onebyte_header(&rtp, 1, &level, 1);
        gst_rtp_buffer_unmap(&rtp);
        gst_harness_push(port.h, buffer);
    }
    g_autoptr(GstBuffer) buffer = pull(&port);
    GstAudioLevelMeta *meta = gst_buffer_get_audio_level_meta(buffer);
    g_assert_nonnull(meta);
    g_assert_cmpuint(meta->level, ==, 42);
    g_assert_true(meta->voice_activity);
    GstCustomMeta *unit = gst_buffer_get_custom_meta(buffer, "GstCpayUnitMeta");
    g_assert_true(gst_structure_get_uint64(gst_custom_meta_get_structure(unit), "first-seqnum", &number));
    g_assert_cmpuint(number, ==, 65536);
    close_port(&port);
}

static guint requested_number(GstBuffer *rtcp) {
    guint8 bytes[200];
    gsize size = gst_buffer_extract(rtcp, 0, bytes, sizeof bytes);
    for (gsize at = 0; at + 16 <= size; at += 4 * (1 + GST_READ_UINT16_BE(bytes + at + 2)))
        if (bytes[at] == 0x81 && bytes[at + 1] == 205) return GST_READ_UINT16_BE(bytes + at + 12);
    return G_MAXUINT;
}

static gboolean has_pli(GstBuffer *rtcp) {
    guint8 bytes[200];
    gsize size = gst_buffer_extract(rtcp, 0, bytes, sizeof bytes);
    for (gsize at = 0; at + 12 <= size; at += 4 * (1 + GST_READ_UINT16_BE(bytes + at + 2)))
        if (bytes[at] == 0x81 && bytes[at + 1] == 206) return TRUE;
    return FALSE;
}

/* A lost packet is requested; the retransmission fills its gap. A decoder's wish becomes a PLI. */
static void losses_and_keyframes_are_requested(void) {
    Port port;
    open_port(&port, VIDEO NACK_PLI, 200, "drop");
    /* the first frame waits for packets before it, until twelve more came or the latency has passed */
    for (guint i = 0; i < 15; i++) push_video(&port, i, i == 0);
    for (guint i = 0; i < 15; i++) gst_buffer_unref(pull(&port));
    push_video(&port, 16, FALSE);
    g_assert_cmpuint(gst_harness_buffers_in_queue(port.rtcp), ==, 0);
    deadlines_until(&port, port.rtcp, 16 * PICTURE + 20 * GST_MSECOND);
    g_autoptr(GstBuffer) request = gst_harness_pull(port.rtcp);
    g_assert_cmpuint(requested_number(request), ==, 115);
    g_assert_cmpuint(gst_harness_buffers_in_queue(port.h), ==, 0);
    gst_harness_push(port.h, video_packet(15, FALSE));
    for (guint i = 15; i < 17; i++) gst_buffer_unref(pull(&port));
    g_assert_true(gst_harness_push_upstream_event(port.h, gst_video_event_new_upstream_force_key_unit(GST_CLOCK_TIME_NONE, TRUE, 0)));
    g_autoptr(GstBuffer) wish = gst_harness_pull(port.rtcp);
    g_assert_true(has_pli(wish));
    close_port(&port);
}

static void garbage_is_counted(void) {
    Port port;
    GstStructure *stats = NULL;
    guint64 malformed = 0;
    open_port(&port, AUDIO, 100, "drop");
    for (guint size = 0; size < 40; size++) {
        GstBuffer *buffer = gst_buffer_new_allocate(NULL, size, NULL);
        gst_buffer_memset(buffer, 0, 0xff, size);
        g_assert_cmpint(gst_harness_push(port.h, buffer), ==, GST_FLOW_OK);
    }
    g_object_get(port.h->element, "stats", &stats, NULL);
    g_assert_true(gst_structure_get_uint64(stats, "malformed", &malformed));
    g_assert_cmpuint(malformed, ==, 40);
    gst_structure_free(stats);
    close_port(&port);
}

/* ---- Tests of cpaysend ---- */

/* RFC 4585, sections 6.2.1 and 6.3.1: type, format, sender, media, and what is asked. */
static GstBuffer *feedback(guint8 format_and_type[2], guint16 number) {
    guint8 bytes[16] = {format_and_type[0], format_and_type[1], 0, 3};
    gsize size = format_and_type[1] == 206 ? 12 : 16;
    bytes[3] = (guint8)(size / 4 - 1);
    GST_WRITE_UINT32_BE(bytes + 8, SSRC);
    GST_WRITE_UINT16_BE(bytes + 12, number);
    return gst_buffer_new_memdup(bytes, size);
}

static GstElement *make_sender(void) {
    GstElement *element = gst_element_factory_make("cpaysend", NULL);
    g_object_set(element, "rtx-pt", 97, "rtx-ssrc", 77, "report-interval", 1, NULL);
    return element;
}

static void requests_are_answered(void) {
    g_autoptr(GstElement) element = make_sender();
    GstHarness *h = gst_harness_new_with_element(element, "sink", "src");
    GstHarness *requests = gst_harness_new_with_element(element, "rtcp_sink", NULL);
    gst_harness_set_src_caps_str(h, VIDEO);
    gst_harness_set_src_caps_str(requests, "application/x-rtcp");
    for (guint i = 0; i < 5; i++) gst_harness_push(h, video_packet(i, i == 0));
    for (guint i = 0; i < 5; i++) gst_buffer_unref(gst_harness_pull(h));
    gst_harness_push(requests, feedback((guint8[]){0x81, 205}, 103));
    GstRTPBuffer rtp = GST_RTP_BUFFER_INIT;
    g_autoptr(GstBuffer) again = gst_harness_pull(h);
    gst_rtp_buffer_map(again, GST_MAP_READ, &rtp);
    g_assert_cmpuint(gst_rtp_buffer_get_payload_type(&rtp), ==, 97);
    g_assert_cmpuint(gst_rtp_buffer_get_ssrc(&rtp), ==, 77);
    g_assert_cmpuint(GST_READ_UINT16_BE(gst_rtp_buffer_get_payload(&rtp)), ==, 103);
    gst_rtp_buffer_unmap(&rtp);
    gst_harness_push(requests, feedback((guint8[]){0x81, 205}, 9999));
    gst_harness_push(requests, feedback((guint8[]){0x81, 206}, 0));
    GstEvent *wish;
    while ((wish = gst_harness_pull_upstream_event(h)) && !gst_video_event_is_force_key_unit(wish)) gst_event_unref(wish);
    g_assert_nonnull(wish);
    gst_event_unref(wish);
    g_assert_cmpuint(gst_harness_buffers_in_queue(h), ==, 0);
    gst_harness_teardown(requests);
    gst_harness_teardown(h);
}

static void reports_have_the_counts(void) {
    guint8 bytes[28];
    g_autoptr(GstElement) element = make_sender();
    GstHarness *reports = gst_harness_new_with_element(element, NULL, "rtcp_src");
    GstHarness *h = gst_harness_new_with_element(element, "sink", "src");
    gst_harness_set_src_caps_str(h, VIDEO);
    gst_harness_push(h, video_packet(0, TRUE));
    g_autoptr(GstBuffer) report = gst_harness_pull(reports);
    g_assert_cmpuint(gst_buffer_extract(report, 0, bytes, sizeof bytes), ==, 28);
    g_assert_cmpuint(bytes[1], ==, 200);
    g_assert_cmpuint(GST_READ_UINT32_BE(bytes + 4), ==, SSRC);
    g_assert_cmpuint(GST_READ_UINT32_BE(bytes + 20), ==, 1);
    g_assert_cmpuint(GST_READ_UINT32_BE(bytes + 24), ==, 14);
    gst_harness_teardown(reports);
    gst_harness_teardown(h);
}

/* ---- Tests of cpayforward ---- */

typedef struct {
    GstElement *element;
    GstHarness *h, *viewer, *requests;
    guint16 next; /* the number of the viewer's next packet */
} Room;

static void open_room(Room *room) {
    room->element = gst_element_factory_make("cpayforward", NULL);
    g_assert_nonnull(room->element);
    room->viewer = gst_harness_new_with_element(room->element, NULL, "src_0");
    room->requests = gst_harness_new_with_element(room->element, "rtcp_sink_0", NULL);
    room->h = gst_harness_new_with_element(room->element, "sink", NULL);
    g_autoptr(GstPad) pad = gst_element_get_static_pad(room->element, "src_0");
    g_object_set(pad, "ssrc", SSRC + 1, "pt", 100, NULL);
    gst_harness_set_src_caps_str(room->requests, "application/x-rtcp");
    gst_harness_set_src_caps_str(room->h, VIDEO);
}

static void close_room(Room *room) {
    gst_harness_teardown(room->requests);
    gst_harness_teardown(room->viewer);
    gst_harness_teardown(room->h);
    gst_object_unref(room->element);
}

/* A packet of a source, by its place in the stream. */
static void send_to_room(Room *room, guint32 source, guint place, gboolean key) {
    GstBuffer *buffer = video_packet(place, key);
    GstMapInfo map;
    gst_buffer_map(buffer, &map, GST_MAP_WRITE);
    GST_WRITE_UINT32_BE(map.data + 8, source);
    gst_buffer_unmap(buffer, &map);
    g_assert_cmpint(gst_harness_push(room->h, buffer), ==, GST_FLOW_OK);
}

/* The viewer's next packet has its SSRC and payload type, and the next number. */
static void viewer_gets(Room *room, gboolean begins) {
    GstRTPBuffer rtp = GST_RTP_BUFFER_INIT;
    g_autoptr(GstBuffer) buffer = gst_harness_pull(room->viewer);
    g_assert_true(gst_rtp_buffer_map(buffer, GST_MAP_READ, &rtp));
    g_assert_cmpuint(gst_rtp_buffer_get_ssrc(&rtp), ==, SSRC + 1);
    g_assert_cmpuint(gst_rtp_buffer_get_payload_type(&rtp), ==, 100);
    if (!begins) g_assert_cmpuint(gst_rtp_buffer_get_seq(&rtp), ==, room->next);
    room->next = (guint16)(gst_rtp_buffer_get_seq(&rtp) + 1);
    gst_rtp_buffer_unmap(&rtp);
}

static gboolean keyframe_is_wanted(Room *room) {
    GstEvent *event;
    gboolean wanted = FALSE;
    while ((event = gst_harness_try_pull_upstream_event(room->h))) {
        wanted |= gst_video_event_is_force_key_unit(event);
        gst_event_unref(event);
    }
    return wanted;
}

/* A viewer begins with a keyframe, which the source is asked for. */
static void a_viewer_begins_with_a_keyframe(void) {
    Room room;
    open_room(&room);
    send_to_room(&room, 1, 0, FALSE);
    send_to_room(&room, 1, 1, FALSE);
    g_assert_true(keyframe_is_wanted(&room));
    g_assert_cmpuint(gst_harness_buffers_in_queue(room.viewer), ==, 0);
    for (guint i = 2; i < 6; i++) send_to_room(&room, 1, i, i == 2);
    send_to_room(&room, 1, 5, FALSE); /* again: nothing is forwarded twice */
    for (guint i = 2; i < 6; i++) viewer_gets(&room, i == 2);
    g_assert_cmpuint(gst_harness_buffers_in_queue(room.viewer), ==, 0);
    g_autoptr(GstCaps) caps = gst_pad_get_current_caps(room.viewer->sinkpad);
    int payload = 0;
    g_assert_true(gst_structure_get_int(gst_caps_get_structure(caps, 0), "payload", &payload));
    g_assert_cmpint(payload, ==, 100);
    close_room(&room);
}

/* At a switch the viewer's numbers go on. */
static void a_viewer_goes_over_to_another_source(void) {
    Room room;
    open_room(&room);
    for (guint i = 0; i < 3; i++) send_to_room(&room, 1, i, i == 0);
    for (guint i = 0; i < 3; i++) viewer_gets(&room, i == 0);
    g_autoptr(GstPad) pad = gst_element_get_static_pad(room.element, "src_0");
    g_object_set(pad, "source", 2, NULL);
    send_to_room(&room, 2, 700, FALSE);
    send_to_room(&room, 1, 3, FALSE);
    viewer_gets(&room, FALSE);
    send_to_room(&room, 2, 701, TRUE);
    send_to_room(&room, 1, 4, FALSE);
    send_to_room(&room, 2, 702, FALSE);
    for (guint i = 0; i < 2; i++) viewer_gets(&room, FALSE);
    g_assert_cmpuint(gst_harness_buffers_in_queue(room.viewer), ==, 0);
    close_room(&room);
}

static void a_viewer_gets_a_packet_again(void) {
    Room room;
    open_room(&room);
    for (guint i = 0; i < 4; i++) send_to_room(&room, 1, i, i == 0);
    for (guint i = 0; i < 4; i++) viewer_gets(&room, i == 0);
    guint16 last = (guint16)(room.next - 1);
    GstBuffer *request = feedback((guint8[]){0x81, 205}, last);
    GstMapInfo map;
    gst_buffer_map(request, &map, GST_MAP_WRITE);
    GST_WRITE_UINT32_BE(map.data + 8, SSRC + 1);
    gst_buffer_unmap(request, &map);
    gst_harness_push(room.requests, request);
    room.next = last;
    viewer_gets(&room, FALSE);
    close_room(&room);
}

/* ---- Tests of the payloaders ---- */

static void a_frame_is_a_list_of_packets(void) {
    guint8 frame[3000] = {0x10, 0x02, 0x00, 0x9d, 0x01, 0x2a, 0x40, 0x01, 0xf0, 0x00};
    GstHarness *h = gst_harness_new_parse("cpayvp8pay mtu=1200 picture-id-offset=5 seqnum-offset=65535 timestamp-offset=0");
    gst_harness_set_src_caps_str(h, "video/x-vp8,width=320,height=240,framerate=30/1");
    GstBuffer *buffer = gst_buffer_new_memdup(frame, sizeof frame);
    GST_BUFFER_PTS(buffer) = GST_SECOND;
    g_assert_cmpint(gst_harness_push(h, buffer), ==, GST_FLOW_OK);
    for (guint i = 0; i < 3; i++) {
        GstRTPBuffer rtp = GST_RTP_BUFFER_INIT;
        g_autoptr(GstBuffer) one = gst_harness_pull(h);
        g_assert_cmpuint(gst_buffer_get_size(one), <=, 1200);
        gst_rtp_buffer_map(one, GST_MAP_READ, &rtp);
        const guint8 *payload = gst_rtp_buffer_get_payload(&rtp);
        g_assert_cmpuint(gst_rtp_buffer_get_seq(&rtp), ==, (65535 + i) & 65535);
        g_assert_cmpuint(gst_rtp_buffer_get_timestamp(&rtp), ==, 90000);
        g_assert_cmpint(gst_rtp_buffer_get_marker(&rtp), ==, i == 2);
        g_assert_cmpuint(payload[0], ==, i == 0 ? 0x90 : 0x80); /* X; S at the start (RFC 7741, section 4.2) */
        g_assert_cmpuint(payload[2], ==, 5);                    /* the id, of 7 bits */
        gst_rtp_buffer_unmap(&rtp);
    }
    gst_harness_teardown(h);
}

int main(int count, char **words) {
    gst_init(&count, &words);
    g_test_init(&count, &words, NULL);
#define TEST(name) g_test_add_func("/" #name, name)
    TEST(numbers_wrap);
    TEST(packets_change_places);
    TEST(a_loss_is_a_gap);
    TEST(frames_without_their_base_are_marked);
    TEST(frames_without_their_base_are_dropped);
    TEST(caps_have_the_size);
    TEST(a_sender_restarts);
    TEST(latency_is_reported);
    TEST(a_flush_drops_what_waits);
    TEST(a_pad_survives_a_change_of_format);
    TEST(a_level_is_a_meta);
    TEST(losses_and_keyframes_are_requested);
    TEST(garbage_is_counted);
    TEST(requests_are_answered);
    TEST(reports_have_the_counts);
    TEST(a_viewer_begins_with_a_keyframe);
    TEST(a_viewer_goes_over_to_another_source);
    TEST(a_viewer_gets_a_packet_again);
    TEST(a_frame_is_a_list_of_packets);
    int status = g_test_run();
    gst_deinit();
    return status;
}

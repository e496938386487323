/* An application that misbehaves: tests/stress CAPTURES SEED ROUNDS. Packets of captures are changed, dropped, doubled and pushed by
 * sources that are live or not; meanwhile states, formats and the latency change, pads are left without a sink, and events come at any
 * time. It fails by a signal: of a sanitizer, or of an alarm if something waits for ever. */
#include <gst/app/gstappsrc.h>
#include <gst/gst.h>
#include <gst/video/video.h>
#include <stdio.h>
#include <stdlib.h>
#include <string.h>
#include <unistd.h>

enum { ALARM = 300 /* seconds */ };

static const char *const names[] = {"chromium-vp8",  "chromium-vp9",    "chromium-av1",   "chromium-red",
                                    "chromium-keys", "chromium-change", "chromium-layers"};
static guint64 buffers;

typedef struct {
    GRand *random;
    GstElement *pipeline, *source, *session;
    gchar *sdp;
    gboolean live;
} Round;

static guint pick(Round *it, gint below) {
    return (guint)g_rand_int_range(it->random, 0, below);
}

/* ---- captures ---- */

/* How many bytes come before the UDP payload, by the link type of the pcap file. */
static gsize head_of(guint32 link) {
    return link == 1 ? 42 : link == 113 ? 44 : 28;
}

static GPtrArray *load(const gchar *name) {
    gchar *bytes = NULL;
    gsize size = 0, at = 24;
    guint32 link, length;
    GPtrArray *packets = g_ptr_array_new_with_free_func((GDestroyNotify)g_bytes_unref);
    if (!g_file_get_contents(name, &bytes, &size, NULL)) g_error("no %s", name);
    memcpy(&link, bytes + 20, 4);
    while (at + 16 < size) {
        memcpy(&length, bytes + at + 8, 4);
        at += 16;
        if (length > head_of(link)) g_ptr_array_add(packets, g_bytes_new(bytes + at + head_of(link), length - head_of(link)));
        at += length;
    }
    g_free(bytes);
    return packets;
}

/* ---- the pipeline ---- */

static GstPadProbeReturn count(GstPad *pad, GstPadProbeInfo *info, gpointer data) {
    (void)pad, (void)info, (void)data;
    buffers++;
    return GST_PAD_PROBE_OK;
}

static void sink_for(GstElement *pipeline, GstPad *pad) {
    GstElement *sink = gst_element_factory_make("fakesink", NULL);
    g_object_set(sink, "sync", FALSE, "async", FALSE, NULL);
    gst_bin_add(GST_BIN(pipeline), sink);
    gst_element_sync_state_with_parent(sink);
    g_autoptr(GstPad) to = gst_element_get_static_pad(sink, "sink");
    gst_pad_add_probe(to, GST_PAD_PROBE_TYPE_BUFFER, count, NULL, NULL);
    gst_pad_link(pad, to);
}

static void added(GstElement *element, GstPad *pad, gpointer pipeline) {
    (void)element;
    if (GST_PAD_IS_SRC(pad) && !g_str_has_prefix(GST_PAD_NAME(pad), "rtcp") && g_random_int() % 8) sink_for(pipeline, pad);
}

static void build(Round *it) {
    it->pipeline = gst_pipeline_new(NULL);
    it->source = gst_element_factory_make("appsrc", NULL);
    it->session = gst_element_factory_make("cpaysession", NULL);
    it->live = g_rand_boolean(it->random);
    g_object_set(it->source, "is-live", it->live, "format", GST_FORMAT_TIME, "do-timestamp", it->live && g_rand_boolean(it->random), NULL);
    g_object_set(it->session, "sdp", it->sdp, "latency", pick(it, 300), "undecodable", pick(it, 3), "max-queue", 2 + pick(it, 48),
                 "max-streams", 1 + pick(it, 4), "reduced-size-rtcp", g_rand_boolean(it->random), NULL);
    gst_bin_add_many(GST_BIN(it->pipeline), it->source, it->session, NULL);
    gst_element_link(it->source, it->session);
    g_signal_connect(it->session, "pad-added", G_CALLBACK(added), it->pipeline);
    if (g_rand_boolean(it->random)) {
        g_autoptr(GstPad) rtcp = gst_element_request_pad_simple(it->session, "rtcp_src");
        sink_for(it->pipeline, rtcp);
    }
    gst_element_set_state(it->pipeline, GST_STATE_PLAYING);
}

/* ---- what goes wrong ---- */

static GstBuffer *changed(Round *it, GBytes *packet, guint what) {
    gsize size;
    const guint8 *bytes = g_bytes_get_data(packet, &size);
    GstBuffer *buffer = gst_buffer_new_memdup(bytes, size);
    GstMapInfo map;
    if (what < 16 || what > 40) return buffer;
    gst_buffer_map(buffer, &map, GST_MAP_WRITE);
    for (int i = 0; i < 3 && size; i++) map.data[pick(it, (gint)MIN(size, 40))] ^= (guint8)(1 << pick(it, 8));
    gst_buffer_unmap(buffer, &map);
    if (what == 20) gst_buffer_resize(buffer, 0, (gssize)pick(it, (gint)size + 1));
    return buffer;
}

static void flush(Round *it) {
    GstSegment segment;
    g_autoptr(GstPad) pad = gst_element_get_static_pad(it->source, "src");
    gst_segment_init(&segment, GST_FORMAT_TIME);
    gst_pad_push_event(pad, gst_event_new_flush_start());
    gst_pad_push_event(pad, gst_event_new_flush_stop(TRUE));
    gst_pad_push_event(pad, gst_event_new_segment(&segment));
}

static void wish(Round *it) {
    GValue first = G_VALUE_INIT;
    GstIterator *pads = gst_element_iterate_src_pads(it->session);
    if (gst_iterator_next(pads, &first) == GST_ITERATOR_OK) {
        gst_pad_send_event(g_value_get_object(&first), gst_video_event_new_upstream_force_key_unit(GST_CLOCK_TIME_NONE, TRUE, 0));
        g_value_unset(&first);
    }
    gst_iterator_free(pads);
}

static void interfere(Round *it, guint what) {
    GstStructure *stats = NULL;
    GstQuery *query;
    switch (what) {
    case 21:
        g_object_get(it->session, "stats", &stats, NULL);
        gst_structure_free(stats);
        break;
    case 22: g_object_set(it->session, "latency", pick(it, 300), NULL); break;
    case 23: wish(it); break;
    case 24:
        gst_element_set_state(it->pipeline, g_rand_boolean(it->random) ? GST_STATE_READY : GST_STATE_PAUSED);
        gst_element_set_state(it->pipeline, GST_STATE_PLAYING);
        break;
    case 25:
        if (!it->live) flush(it);
        break;
    case 26:
        query = gst_query_new_latency();
        gst_element_query(it->pipeline, query);
        gst_query_unref(query);
        break;
    case 27: g_usleep(3000); break;
    case 28:
        gst_util_set_object_arg(G_OBJECT(it->session), "formats",
                                "application/x-rtp,media=video,payload=96,encoding-name=VP8,clock-rate=90000");
        break;
    case 29: g_object_set(it->session, "sdp", g_rand_boolean(it->random) ? it->sdp : NULL, NULL); break;
    default: break;
    }
}

static void finish(Round *it) {
    if (g_rand_boolean(it->random)) {
        gst_app_src_end_of_stream(GST_APP_SRC(it->source));
        g_autoptr(GstBus) bus = gst_element_get_bus(it->pipeline);
        GstMessage *message = gst_bus_timed_pop_filtered(bus, 2 * GST_SECOND, GST_MESSAGE_EOS | GST_MESSAGE_ERROR);
        if (message) gst_message_unref(message);
    } else g_usleep(pick(it, 30000));
    gst_element_set_state(it->pipeline, GST_STATE_NULL);
    gst_object_unref(it->pipeline);
}

static void play(Round *it, GPtrArray *packets) {
    build(it);
    for (guint i = 0; i < packets->len; i++) {
        guint what = pick(it, 200);
        if (what < 10) continue;
        for (int times = what < 16 ? 2 : 1; times > 0; times--) {
            GstBuffer *buffer = changed(it, packets->pdata[i], what);
            if (!it->live || g_rand_boolean(it->random)) GST_BUFFER_PTS(buffer) = i * 5 * GST_MSECOND;
            gst_app_src_push_buffer(GST_APP_SRC(it->source), buffer);
        }
        interfere(it, what);
    }
    finish(it);
}

int main(int words, char **word) {
    if (words != 4) return 2;
    gst_init(NULL, NULL);
    alarm(ALARM);
    Round it = {.random = g_rand_new_with_seed((guint32)atoi(word[2]))};
    for (int round = 0; round < atoi(word[3]); round++) {
        const char *name = names[pick(&it, G_N_ELEMENTS(names))];
        g_autofree gchar *capture = g_strdup_printf("%s/%s.pcap", word[1], name);
        g_autoptr(GPtrArray) packets = load(capture);
        it.sdp = g_strdup_printf("%s/%s.sdp", word[1], name);
        play(&it, packets);
        g_free(it.sdp);
    }
    printf("seed %s: %s rounds, %" G_GUINT64_FORMAT " buffers\n", word[2], word[3], buffers);
    g_rand_free(it.random);
    gst_deinit();
    return 0;
}

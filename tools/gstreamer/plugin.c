/* The plugin: registration, and what more than one element does. */
#include "cpay.h"

GST_DEBUG_CATEGORY(cpay_debug);

/* gst_pad_create_stream_id wants at most one sink pad. */
gchar *cpay_stream_id(GstElement *element, GstPad *sink, const gchar *part) {
    g_autofree gchar *from = gst_pad_get_stream_id(sink);
    g_autofree gchar *name = gst_element_get_name(element);
    return g_strdup_printf("%s/%s", from ? from : name, part);
}

void cpay_begin_rtcp(GstElement *element, GstPad *sink, GstPad *pad) {
    GstSegment segment;
    g_autofree gchar *id = cpay_stream_id(element, sink, "rtcp");
    g_autoptr(GstCaps) caps = gst_caps_new_empty_simple("application/x-rtcp");
    gst_pad_push_event(pad, gst_event_new_stream_start(id));
    gst_pad_push_event(pad, gst_event_new_caps(caps));
    gst_segment_init(&segment, GST_FORMAT_TIME);
    gst_pad_push_event(pad, gst_event_new_segment(&segment));
}

static gboolean start(GstPlugin *plugin) {
    GST_DEBUG_CATEGORY_INIT(cpay_debug, "cpay", 0, "RTP payloads of codec-payload-core");
    return gst_element_register(plugin, "cpaysession", GST_RANK_NONE, gst_cpay_session_get_type()) &&
           gst_element_register(plugin, "cpaysend", GST_RANK_NONE, gst_cpay_send_get_type()) &&
           gst_element_register(plugin, "cpayforward", GST_RANK_NONE, gst_cpay_forward_get_type()) && cpay_register_payloaders(plugin);
}

#ifndef PACKAGE
#define PACKAGE "codec-payload-core"
#endif
#ifndef CPAY_PLUGIN_VERSION
#define CPAY_PLUGIN_VERSION "0.1.0"
#endif

GST_PLUGIN_DEFINE(GST_VERSION_MAJOR, GST_VERSION_MINOR, codecpayload, "RTP sessions and payloads, proved", start, CPAY_PLUGIN_VERSION,
                  "unknown", "codec-payload-core", "codec-payload-core")

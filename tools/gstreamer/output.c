/* Events and queries that come from downstream. */
#include "session.h"

#include <gst/video/video.h>

static gboolean request_keyframe(GstCpaySession *it, GstCpayPad *pad) {
    cpay_keyframe_answer answer = CPAY_KEYFRAME_NO_STREAM;
    g_mutex_lock(&it->lock);
    if (it->has_session && cpay_session_request_keyframe(&it->session, pad->ssrc, &answer) == CPAY_OK) cpay_session_take_events(it);
    cpay_timer_arm(it);
    CpayOutcome all = cpay_session_take_outcome(it);
    g_mutex_unlock(&it->lock);
    cpay_session_carry_out(it, all);
    return answer == CPAY_KEYFRAME_REQUESTED;
}

gboolean cpay_output_event(GstPad *pad, GstObject *parent, GstEvent *event) {
    GstEventType type = GST_EVENT_TYPE(event);
    if (gst_video_event_is_force_key_unit(event)) {
        gst_event_unref(event);
        return request_keyframe((GstCpaySession *)parent, (GstCpayPad *)pad);
    }
    if (type == GST_EVENT_LATENCY) return gst_pad_event_default(pad, parent, event);
    gst_event_unref(event);
    return type == GST_EVENT_RECONFIGURE || type == GST_EVENT_QOS; /* no seeking in what others send */
}

gboolean cpay_output_query(GstPad *pad, GstObject *parent, GstQuery *query) {
    GstCpaySession *it = (GstCpaySession *)parent;
    gboolean live;
    GstClockTime least, most;
    if (GST_QUERY_TYPE(query) != GST_QUERY_LATENCY) return gst_pad_query_default(pad, parent, query);
    if (!gst_pad_peer_query(it->sink, query)) return FALSE;
    gst_query_parse_latency(query, &live, &least, &most);
    g_mutex_lock(&it->lock);
    guint latency = it->latency;
    g_mutex_unlock(&it->lock);
    /* nothing is lost if a sink waits longer, so there is no upper limit */
    if (live) gst_query_set_latency(query, TRUE, least + latency * GST_MSECOND, GST_CLOCK_TIME_NONE);
    return TRUE;
}

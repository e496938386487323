/* The sink pads: datagrams, caps, segments, EOS and flushes. */
#include "session.h"

#define GST_CAT_DEFAULT cpay_debug

/* The running time by the clock of the pipeline, in ticks; G_MAXUINT64 without a clock. */
static guint64 clock_ticks(GstCpaySession *it) {
    g_autoptr(GstClock) clock = gst_element_get_clock(GST_ELEMENT(it));
    if (!clock) return G_MAXUINT64;
    GstClockTime now = gst_clock_get_time(clock), base = gst_element_get_base_time(GST_ELEMENT(it));
    return now > base ? (now - base) / CPAY_TICK : 0;
}

/* When a datagram arrived, in ticks. */
static guint64 ticks_of(GstCpaySession *it, GstBuffer *buffer) {
    GstClockTime time = GST_BUFFER_DTS_OR_PTS(buffer);
    guint64 ticks = G_MAXUINT64;
    if (GST_CLOCK_TIME_IS_VALID(time) && it->segment.format == GST_FORMAT_TIME)
        time = gst_segment_to_running_time(&it->segment, GST_FORMAT_TIME, time);
    if (GST_CLOCK_TIME_IS_VALID(time)) ticks = time / CPAY_TICK;
    else if (it->live) ticks = clock_ticks(it);
    if (ticks == G_MAXUINT64) return it->now;
    it->has_times = TRUE;
    return ticks;
}

/* Passes a datagram to the session. The caller holds the lock. */
static cpay_status receive(GstCpaySession *it, GstBuffer *buffer) {
    GstMapInfo map;
    cpay_arrival arrival;
    if (!gst_buffer_map(buffer, &map, GST_MAP_READ)) return CPAY_OK;
    it->now = MAX(it->now, ticks_of(it, buffer));
    cpay_status status = cpay_session_receive(&it->session, it->now, map.data, map.size, &arrival);
    gst_buffer_unmap(buffer, &map);
    return status;
}

/* Streams whose pad is not there yet do not count: only time lets them begin. */
static gboolean is_full(GstCpaySession *it) {
    for (GList *at = it->streams; at; at = at->next) {
        CpayStream *stream = at->data;
        if (!stream->waits && stream->queue.length >= it->max_queue) return TRUE;
    }
    return FALSE;
}

/* Whether datagrams are taken now. The caller holds the lock. */
static GstFlowReturn flow_now(GstCpaySession *it) {
    if (it->stop || it->flushing) return GST_FLOW_FLUSHING;
    if (it->eos) return GST_FLOW_EOS;
    return it->has_session ? GST_FLOW_OK : GST_FLOW_NOT_NEGOTIATED;
}

/* Takes datagrams and the events of the session. Waits while a stream has a full queue: a live source then has its own limit, the
 * buffer of its socket. */
static GstFlowReturn take(GstCpaySession *it, GstBuffer *one, GstBufferList *many) {
    cpay_status status = CPAY_OK;
    g_mutex_lock(&it->lock);
    GstFlowReturn flow = flow_now(it);
    if (flow != GST_FLOW_OK) {
        g_mutex_unlock(&it->lock);
        return flow;
    }
    if (one) status = receive(it, one);
    for (guint i = 0; many && !status && i < gst_buffer_list_length(many); i++) status = receive(it, gst_buffer_list_get(many, i));
    gboolean fine = cpay_session_take_events(it) && status == CPAY_OK;
    cpay_timer_arm(it);
    CpayOutcome all = cpay_session_take_outcome(it);
    if (all.begun || all.rtcp || all.messages) {
        g_mutex_unlock(&it->lock);
        cpay_session_carry_out(it, all);
        g_mutex_lock(&it->lock);
    }
    while (is_full(it) && !it->stop && !it->flushing) g_cond_wait(&it->drained, &it->lock);
    if (it->stop || it->flushing) flow = GST_FLOW_FLUSHING;
    g_mutex_unlock(&it->lock);
    return fine ? flow : GST_FLOW_ERROR;
}

static GstFlowReturn report(GstCpaySession *it, GstFlowReturn flow) {
    if (flow == GST_FLOW_NOT_NEGOTIATED)
        GST_ELEMENT_ERROR(it, STREAM, FORMAT, (NULL), ("no formats: set sdp, formats, or caps of application/x-rtp on the source"));
    if (flow == GST_FLOW_ERROR) GST_ELEMENT_ERROR(it, RESOURCE, NO_SPACE_LEFT, (NULL), ("out of memory"));
    return flow;
}

GstFlowReturn cpay_input_chain(GstPad *pad, GstObject *parent, GstBuffer *buffer) {
    (void)pad;
    GstFlowReturn flow = report((GstCpaySession *)parent, take((GstCpaySession *)parent, buffer, NULL));
    gst_buffer_unref(buffer);
    return flow;
}

GstFlowReturn cpay_input_chain_list(GstPad *pad, GstObject *parent, GstBufferList *list) {
    (void)pad;
    GstFlowReturn flow = report((GstCpaySession *)parent, take((GstCpaySession *)parent, NULL, list));
    gst_buffer_list_unref(list);
    return flow;
}

/* ---- Events ---- */

static void ask_whether_live(GstCpaySession *it) {
    gboolean live = FALSE;
    GstQuery *query = gst_query_new_latency();
    if (gst_pad_peer_query(it->sink, query)) gst_query_parse_latency(query, &live, NULL, NULL);
    gst_query_unref(query);
    g_mutex_lock(&it->lock);
    it->live = live;
    g_cond_signal(&it->wake);
    cpay_timer_arm(it);
    g_mutex_unlock(&it->lock);
}

/* The last datagram came: all complete frames leave, and then EOS. */
static void finish(GstCpaySession *it) {
    g_mutex_lock(&it->lock);
    if (it->eos) {
        g_mutex_unlock(&it->lock);
        return;
    }
    it->eos = TRUE;
    if (it->has_session && cpay_session_finish(&it->session, it->now) == CPAY_OK) cpay_session_take_events(it);
    cpay_stream_settle(it, TRUE);
    gboolean any = it->streams != NULL;
    CpayOutcome all = cpay_session_take_outcome(it);
    g_mutex_unlock(&it->lock);
    cpay_session_carry_out(it, all);
    gst_element_no_more_pads(GST_ELEMENT(it));
    GST_OBJECT_LOCK(it);
    GstPad *pad = it->rtcp_src ? gst_object_ref(it->rtcp_src) : NULL;
    GST_OBJECT_UNLOCK(it);
    if (pad) gst_pad_push_event(pad, gst_event_new_eos());
    gst_clear_object(&pad);
    if (!any) GST_ELEMENT_WARNING(it, STREAM, WRONG_TYPE, (NULL), ("the source ended before any stream began"));
}

/* What waits in the queues is dropped. Numbers and times of the senders go on: they know of no flush. */
static gboolean flush(GstCpaySession *it, GstEvent *event) {
    GList *pads = NULL;
    gboolean begins = GST_EVENT_TYPE(event) == GST_EVENT_FLUSH_START;
    g_mutex_lock(&it->lock);
    it->flushing = begins;
    for (GList *at = it->streams; at; at = at->next) {
        CpayStream *stream = at->data;
        gpointer item;
        if (GST_OBJECT_PARENT(stream->pad)) pads = g_list_prepend(pads, gst_object_ref(stream->pad));
        while ((item = g_queue_pop_head(&stream->queue))) gst_mini_object_unref(item);
        if (stream->stage == CPAY_ENDED && !begins) cpay_stream_enqueue(stream, gst_event_new_eos());
        stream->flow = GST_FLOW_OK;
        stream->has_last = FALSE;
    }
    g_cond_broadcast(&it->drained);
    g_mutex_unlock(&it->lock);
    for (GList *at = pads; at; at = at->next) {
        GstSegment segment; /* a flush forgets it */
        gst_pad_push_event(at->data, gst_event_ref(event));
        if (begins) continue;
        gst_segment_init(&segment, GST_FORMAT_TIME);
        gst_pad_push_event(at->data, gst_event_new_segment(&segment));
    }
    g_list_free_full(pads, gst_object_unref);
    return TRUE;
}

static gboolean take_caps(GstCpaySession *it, GstEvent *event) {
    GstCaps *caps;
    g_autoptr(GError) error = NULL;
    gboolean fine = TRUE;
    gst_event_parse_caps(event, &caps);
    g_mutex_lock(&it->lock);
    if (!it->has_session && gst_structure_has_field(gst_caps_get_structure(caps, 0), "payload")) fine = cpay_session_open(it, caps, &error);
    g_mutex_unlock(&it->lock);
    if (!fine) GST_ELEMENT_ERROR(it, STREAM, FORMAT, ("%s", error->message), (NULL));
    return fine;
}

static void take_segment(GstCpaySession *it, GstEvent *event) {
    g_mutex_lock(&it->lock);
    gst_event_copy_segment(event, &it->segment);
    g_mutex_unlock(&it->lock);
    ask_whether_live(it);
}

gboolean cpay_input_event(GstPad *pad, GstObject *parent, GstEvent *event) {
    GstCpaySession *it = (GstCpaySession *)parent;
    gboolean fine = TRUE, first = pad == it->sink;
    switch (GST_EVENT_TYPE(event)) {
    case GST_EVENT_CAPS: fine = take_caps(it, event); break;
    case GST_EVENT_SEGMENT:
        if (first) take_segment(it, event);
        break;
    case GST_EVENT_EOS:
        if (first) finish(it);
        break;
    case GST_EVENT_FLUSH_START:
    case GST_EVENT_FLUSH_STOP:
        if (first) fine = flush(it, event);
        break;
    default: break;
    }
    gst_event_unref(event);
    return fine;
}

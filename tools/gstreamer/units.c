/* Events of the session: units become buffers, and what has to be pushed is kept until the lock is released. */
#include "session.h"

#include <string.h>

#define GST_CAT_DEFAULT cpay_debug

static void learn_size(CpayStream *stream, const cpay_frame_facts *facts) {
    if (!facts->has_size || !facts->width || !facts->height) return;
    if (facts->width == stream->width && facts->height == stream->height) return;
    stream->width = facts->width, stream->height = facts->height;
    stream->caps = gst_caps_make_writable(stream->caps);
    gst_caps_set_simple(stream->caps, "width", G_TYPE_INT, facts->width, "height", G_TYPE_INT, facts->height, NULL);
    if (stream->has_last) cpay_stream_enqueue(stream, gst_event_new_caps(stream->caps));
}

/* The running time at which the moment of the latest sender report would be shown, less that moment. */
static gboolean shown_after_wall(GstCpaySession *it, CpayStream *stream, gint64 *after) {
    cpay_sender_clock_info clock;
    const CpayClock *own = &stream->clock;
    if (!own->begun || stream->stage != CPAY_GOES_ON) return FALSE;
    if (cpay_session_sender_clock(&it->session, stream->ssrc, stream->payload_type, &clock)) return FALSE;
    gint32 ahead = (gint32)(clock.rtp_time - (guint32)own->first_rtp);
    gint64 shown = (gint64)own->first + own->skew + (gint64)ahead * (gint64)GST_SECOND / (gint64)stream->codec->rate;
    *after = shown - (gint64)gst_util_uint64_scale(clock.ntp_time, GST_SECOND, G_GUINT64_CONSTANT(1) << 32);
    return TRUE;
}

/* Streams with sender reports have a wall clock. All get the delay of the latest stream, if the delays differ by less than three seconds.
 */
static void synchronise(GstCpaySession *it) {
    gint64 latest = G_MININT64, after;
    guint with = 0;
    for (GList *at = it->streams; at; at = at->next)
        if (shown_after_wall(it, at->data, &after)) latest = MAX(latest, after), with++;
    for (GList *at = it->streams; at && with > 1; at = at->next)
        if (shown_after_wall(it, at->data, &after) && latest - after < (gint64)(3 * GST_SECOND))
            ((CpayStream *)at->data)->clock.wants_sync = latest - after;
}

/* AV1 in RTP has no temporal delimiters; its caps in GStreamer have them. */
static GstBuffer *buffer_of(const CpayStream *stream, const cpay_event *event) {
    static const guint8 delimiter[2] = {0x12, 0x00};
    if (stream->codec->codec != CPAY_AV1 || (event->data[0] & 0x78) == 0x10) return gst_buffer_new_memdup(event->data, event->bytes);
    GstBuffer *buffer = gst_buffer_new_allocate(NULL, event->bytes + sizeof delimiter, NULL);
    gst_buffer_fill(buffer, 0, delimiter, sizeof delimiter);
    gst_buffer_fill(buffer, sizeof delimiter, event->data, event->bytes);
    return buffer;
}

static void mark_video(const cpay_unit *unit, const cpay_frame_facts *facts, GstBuffer *buffer) {
    gboolean key = facts->has_keyframe ? facts->keyframe : unit->extra.is_keyframe;
    GST_BUFFER_FLAG_SET(buffer, GST_BUFFER_FLAG_MARKER);
    if (!key) GST_BUFFER_FLAG_SET(buffer, GST_BUFFER_FLAG_DELTA_UNIT);
    if (unit->extra.discardable) GST_BUFFER_FLAG_SET(buffer, GST_BUFFER_FLAG_DROPPABLE);
    if (!unit->decodable) GST_BUFFER_FLAG_SET(buffer, GST_BUFFER_FLAG_CORRUPTED);
}

/* Lost packets of audio are a GAP, so that decoders conceal them. */
static void mark_audio(CpayStream *stream, const cpay_unit *unit, GstBuffer *buffer) {
    GstClockTime time = GST_BUFFER_PTS(buffer);
    if (unit->starts_talk_spurt) GST_BUFFER_FLAG_SET(buffer, GST_BUFFER_FLAG_RESYNC);
    if (stream->has_last && unit->first > stream->last_number + 1 && !unit->contiguous && time > stream->last_end)
        cpay_stream_enqueue(stream, gst_event_new_gap(stream->last_end, time - stream->last_end));
    stream->last_end = GST_BUFFER_DURATION_IS_VALID(buffer) ? time + GST_BUFFER_DURATION(buffer) : time;
}

/* What a frame says of itself. Its size is that of its lowest spatial layer; the descriptor has the sizes of all. */
static cpay_frame_facts facts_of(const CpayStream *stream, const cpay_event *event) {
    cpay_frame_facts facts = {0};
    if (cpay_frame_info(stream->codec->codec, event->data, event->bytes, &facts)) memset(&facts, 0, sizeof facts);
    for (int i = 0; i < 3; i++) {
        const cpay_vp9_layer *layer = &event->unit.extra.layers[i];
        if (facts.has_size && layer->has_width && layer->has_height) facts.width = layer->width, facts.height = layer->height;
    }
    return facts;
}

/* Whether the session dropped frames since the last unit that skipped numbers: no packet is missing, but frames are. */
static gboolean dropped_frames(GstCpaySession *it, CpayStream *stream) {
    cpay_session_stream info;
    for (size_t i = 0; cpay_session_stream_at(&it->session, i, &info) == CPAY_OK; i++) {
        if (info.ssrc != stream->ssrc || info.payload_type != stream->payload_type) continue;
        gboolean more = info.counts.undecodable != stream->undecodable;
        stream->undecodable = info.counts.undecodable;
        return more;
    }
    return FALSE;
}

/* Whether something is missing between the last buffer and this unit. */
static gboolean is_discont(GstCpaySession *it, CpayStream *stream, const cpay_unit *unit) {
    gboolean skips = stream->has_last && unit->first > stream->last_number + 1;
    gboolean dropped = skips && it->undecodable == CPAY_UNDECODABLE_DROP && dropped_frames(it, stream);
    return !stream->has_last || !unit->contiguous || dropped;
}

static void take_unit(GstCpaySession *it, const cpay_event *event) {
    CpayStream *stream = cpay_stream_find(it, event->ssrc, event->payload_type);
    const cpay_unit *unit = &event->unit;
    gboolean jumped;
    if (!event->bytes || (!stream && !(stream = cpay_stream_begin(it, event)))) return;
    if (stream->flow != GST_FLOW_OK && stream->flow != GST_FLOW_NOT_LINKED) return;
    cpay_frame_facts facts = facts_of(stream, event);
    CpayFrameTime when = {unit->rtp_time, it->has_times ? unit->received * CPAY_TICK : GST_CLOCK_TIME_NONE};
    GstBuffer *buffer = buffer_of(stream, event);
    GST_BUFFER_PTS(buffer) = cpay_clock_time(&stream->clock, when, stream->codec->rate, &jumped);
    if (facts.has_duration) GST_BUFFER_DURATION(buffer) = gst_util_uint64_scale(facts.duration, GST_SECOND, stream->codec->rate);
    if (is_discont(it, stream, unit) || jumped) GST_BUFFER_FLAG_SET(buffer, GST_BUFFER_FLAG_DISCONT);
    if (stream->codec->media[0] == 'v') {
        learn_size(stream, &facts);
        mark_video(unit, &facts, buffer);
    } else mark_audio(stream, unit, buffer);
    cpay_add_metas(it, stream, event, buffer);
    stream->has_last = TRUE;
    stream->last_number = unit->last;
    stream->buffers++, stream->bytes += event->bytes;
    cpay_stream_enqueue(stream, buffer);
}

static CpayStream *stream_of_ssrc(GstCpaySession *it, guint32 ssrc) {
    for (GList *at = it->streams; at; at = at->next) {
        CpayStream *stream = at->data;
        if (stream->ssrc == ssrc && stream->stage != CPAY_ENDED) return stream;
    }
    return NULL;
}

/* Reports a key once, as rtpdtmfdepay does, and sends an event down the stream of its SSRC. */
static void take_telephone(GstCpaySession *it, const cpay_event *event) {
    cpay_tele_event key;
    CpayStream *stream = stream_of_ssrc(it, event->ssrc);
    guint rate = stream ? stream->codec->rate : 8000;
    if (stream && stream->telephone_time == event->unit.rtp_time) return;
    if (stream) stream->telephone_time = event->unit.rtp_time;
    for (size_t i = 0; cpay_tele_read(event->data, event->bytes, rate, i, &key) == CPAY_OK; i++) {
        GstStructure *said = gst_structure_new("dtmf-event", "type", G_TYPE_INT, 1, "method", G_TYPE_INT, 1, "number", G_TYPE_INT,
                                               (int)key.event, "volume", G_TYPE_INT, (int)key.volume, "ssrc", G_TYPE_UINT, event->ssrc,
                                               "rtp-time", G_TYPE_UINT, (guint)event->unit.rtp_time, NULL);
        if (stream) cpay_stream_enqueue(stream, gst_event_new_custom(GST_EVENT_CUSTOM_DOWNSTREAM, gst_structure_copy(said)));
        g_ptr_array_add(it->messages, gst_message_new_element(GST_OBJECT(it), said));
    }
}

static void take_end(GstCpaySession *it, const cpay_event *event) {
    CpayStream *stream = cpay_stream_find(it, event->ssrc, event->payload_type);
    GST_INFO_OBJECT(it, "stream %u ends: %s", event->ssrc, cpay_ending_text(event->why));
    if (!stream) return;
    if (event->why != CPAY_ENDED_BY_CHANGE) cpay_stream_end(stream);
    else stream->stage = CPAY_CHANGED, stream->changed_at = it->now;
}

static void take_event(GstCpaySession *it, const cpay_event *event) {
    switch (event->kind) {
    case CPAY_EVENT_UNIT: take_unit(it, event); break;
    case CPAY_EVENT_BEGUN: break; /* its pad comes with its first unit, which has the caps */
    case CPAY_EVENT_FEEDBACK:
    case CPAY_EVENT_REPORT:
    case CPAY_EVENT_TRANSPORT_FEEDBACK:
        if (it->rtcp_src) g_ptr_array_add(it->rtcp, gst_buffer_new_memdup(event->data, event->bytes));
        if (event->kind == CPAY_EVENT_REPORT && it->sync) synchronise(it);
        break;
    case CPAY_EVENT_TELEPHONE: take_telephone(it, event); break;
    case CPAY_EVENT_FAULT: GST_WARNING_OBJECT(it, "stream %u: a frame is lost: %s", event->ssrc, cpay_status_text(event->status)); break;
    case CPAY_EVENT_ENDED: take_end(it, event); break;
    }
}

gboolean cpay_session_take_events(GstCpaySession *it) {
    cpay_event event;
    cpay_status status;
    while (!(status = cpay_session_poll(&it->session, it->now, &event))) take_event(it, &event);
    cpay_stream_settle(it, FALSE);
    return status == CPAY_NONE;
}

/* ---- After a poll, without the lock ---- */

CpayOutcome cpay_session_take_outcome(GstCpaySession *it) {
    CpayOutcome all = {NULL, NULL, g_steal_pointer(&it->begun)};
    if (it->rtcp->len) all.rtcp = it->rtcp, it->rtcp = g_ptr_array_new();
    if (it->messages->len) all.messages = it->messages, it->messages = g_ptr_array_new();
    return all;
}

static void push_rtcp(GstCpaySession *it, GPtrArray *packets) {
    GST_OBJECT_LOCK(it);
    GstPad *pad = it->rtcp_src ? gst_object_ref(it->rtcp_src) : NULL;
    gboolean ready = it->rtcp_ready;
    it->rtcp_ready = pad != NULL;
    GST_OBJECT_UNLOCK(it);
    if (pad && !ready) cpay_begin_rtcp(GST_ELEMENT(it), it->sink, pad);
    for (guint i = 0; i < packets->len; i++) {
        if (pad) gst_pad_push(pad, packets->pdata[i]);
        else gst_buffer_unref(packets->pdata[i]);
    }
    gst_clear_object(&pad);
}

void cpay_session_carry_out(GstCpaySession *it, CpayOutcome all) {
    for (GList *at = all.begun; at; at = at->next) cpay_stream_add(it, at->data);
    g_list_free(all.begun);
    for (guint i = 0; all.messages && i < all.messages->len; i++) gst_element_post_message(GST_ELEMENT(it), all.messages->pdata[i]);
    if (all.messages) g_ptr_array_free(all.messages, TRUE);
    if (!all.rtcp) return;
    push_rtcp(it, all.rtcp);
    g_ptr_array_free(all.rtcp, TRUE);
}

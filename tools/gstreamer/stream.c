/* Streams: their pads, their queues and the threads that push them. */
#include "session.h"

#define GST_CAT_DEFAULT cpay_debug

/* How long a pad waits for media of another format, and media of another format for the end of the former, in ticks. */
enum { CHANGE_WAIT = 5000 * CPAY_TICKS_PER_MS, BEGIN_WAIT = 1000 * CPAY_TICKS_PER_MS };

/* ---- The pad: a GstPad with names for its stream ---- */

typedef struct {
    GstPadClass parent;
} GstCpayPadClass;

G_DEFINE_TYPE(GstCpayPad, gst_cpay_pad, GST_TYPE_PAD)

enum { PAD_SSRC = 1, PAD_PT, PAD_MID, PAD_RID };

static void pad_get(GObject *object, guint id, GValue *value, GParamSpec *spec) {
    GstCpayPad *pad = (GstCpayPad *)object;
    switch (id) {
    case PAD_SSRC: g_value_set_uint(value, pad->ssrc); break;
    case PAD_PT: g_value_set_uint(value, pad->payload_type); break;
    case PAD_MID: g_value_set_string(value, pad->mid); break;
    case PAD_RID: g_value_set_string(value, pad->rid); break;
    default: G_OBJECT_WARN_INVALID_PROPERTY_ID(object, id, spec);
    }
}

static void pad_finalize(GObject *object) {
    GstCpayPad *pad = (GstCpayPad *)object;
    g_free(pad->mid);
    g_free(pad->rid);
    G_OBJECT_CLASS(gst_cpay_pad_parent_class)->finalize(object);
}

static void gst_cpay_pad_class_init(GstCpayPadClass *class) {
    GObjectClass *object = G_OBJECT_CLASS(class);
    const GParamFlags flags = G_PARAM_READABLE | G_PARAM_STATIC_STRINGS;
    object->get_property = pad_get;
    object->finalize = pad_finalize;
    g_object_class_install_property(object, PAD_SSRC, g_param_spec_uint("ssrc", "SSRC", "SSRC of the stream", 0, G_MAXUINT32, 0, flags));
    g_object_class_install_property(object, PAD_PT,
                                    g_param_spec_uint("pt", "Payload type", "Payload type of the stream", 0, 127, 0, flags));
    g_object_class_install_property(object, PAD_MID,
                                    g_param_spec_string("mid", "MID", "Media description of the stream (RFC 9143)", NULL, flags));
    g_object_class_install_property(object, PAD_RID, g_param_spec_string("rid", "RID", "Layer of a simulcast (RFC 8852)", NULL, flags));
}

static void gst_cpay_pad_init(GstCpayPad *pad) {
    (void)pad;
}

static void name_pad(GstCpaySession *it, GstCpayPad *pad, const CpayStream *stream) {
    cpay_stream_names names = {0};
    pad->ssrc = stream->ssrc;
    pad->payload_type = stream->payload_type;
    if (cpay_session_names(&it->session, stream->ssrc, stream->payload_type, &names)) return;
    if (names.mid_len) g_free(pad->mid), pad->mid = g_utf8_make_valid((const char *)names.mid, names.mid_len);
    if (names.rid_len) g_free(pad->rid), pad->rid = g_utf8_make_valid((const char *)names.rid, names.rid_len);
}

/* ---- The queue ---- */

CpayStream *cpay_stream_find(GstCpaySession *it, guint32 ssrc, guint8 payload_type) {
    for (GList *at = g_list_last(it->streams); at; at = at->prev) {
        CpayStream *stream = at->data;
        if (stream->ssrc == ssrc && stream->payload_type == payload_type && stream->stage == CPAY_GOES_ON) return stream;
    }
    return NULL;
}

void cpay_stream_enqueue(CpayStream *stream, gpointer item) {
    if (stream->flushing) {
        gst_mini_object_unref(item);
        return;
    }
    g_queue_push_tail(&stream->queue, item);
    if (stream->queue.length == 1) g_cond_signal(&stream->filled);
}

void cpay_stream_end(CpayStream *stream) {
    if (stream->stage == CPAY_ENDED) return;
    stream->stage = CPAY_ENDED;
    cpay_stream_enqueue(stream, gst_event_new_eos());
}

void cpay_stream_stop(CpayStream *stream) {
    stream->flushing = TRUE;
    g_cond_signal(&stream->filled);
}

static void free_stream(CpayStream *stream) {
    gpointer item;
    while ((item = g_queue_pop_head(&stream->queue))) gst_mini_object_unref(item);
    gst_clear_caps(&stream->caps);
    g_cond_clear(&stream->filled);
    gst_clear_object(&stream->pad);
    g_free(stream);
}

void cpay_stream_remove(GstCpaySession *it, CpayStream *stream) {
    g_mutex_lock(&it->lock);
    cpay_stream_stop(stream);
    g_mutex_unlock(&it->lock);
    gst_pad_stop_task(stream->pad);
    gst_pad_set_active(stream->pad, FALSE);
    if (GST_OBJECT_PARENT(stream->pad)) gst_element_remove_pad(GST_ELEMENT(it), stream->pad);
    free_stream(stream);
}

static void remove_later(GstElement *element, gpointer stream) {
    cpay_stream_remove((GstCpaySession *)element, stream);
}

/* Pushes a buffer. Returns FALSE if nothing more can be pushed: a decoder refuses the caps, or fails. */
static gboolean push_buffer(GstCpaySession *it, CpayStream *stream, GstBuffer *buffer) {
    GstFlowReturn flow = gst_pad_push(stream->pad, buffer);
    if (flow == GST_FLOW_OK) return TRUE;
    GST_DEBUG_OBJECT(stream->pad, "%s", gst_flow_get_name(flow));
    g_mutex_lock(&it->lock);
    stream->flow = flow;
    g_mutex_unlock(&it->lock);
    if (flow >= GST_FLOW_EOS) return TRUE;
    GST_ELEMENT_FLOW_ERROR(it, flow);
    gst_pad_push_event(stream->pad, gst_event_new_eos());
    return FALSE;
}

/* The last item was EOS: the pad leaves, by a thread that is not its own. */
static void leave(GstCpaySession *it, CpayStream *stream) {
    g_mutex_lock(&it->lock);
    gboolean mine = g_list_find(it->streams, stream) != NULL;
    it->streams = g_list_remove(it->streams, stream);
    g_mutex_unlock(&it->lock);
    if (mine) gst_element_call_async(GST_ELEMENT(it), remove_later, stream, NULL);
}

/* The task of a pad: pushes what waits in the queue. */
static void push_loop(GstPad *pad) {
    CpayStream *stream = gst_pad_get_element_private(pad);
    GstCpaySession *it = (GstCpaySession *)GST_OBJECT_PARENT(pad);
    g_mutex_lock(&it->lock);
    while (!stream->queue.length && !stream->flushing) g_cond_wait(&stream->filled, &it->lock);
    if (stream->flushing) {
        g_mutex_unlock(&it->lock);
        gst_pad_pause_task(pad);
        return;
    }
    gpointer item = g_queue_pop_head(&stream->queue);
    if (stream->queue.length + 1 == it->max_queue) g_cond_broadcast(&it->drained);
    gboolean ended = stream->stage == CPAY_ENDED && !stream->queue.length;
    g_mutex_unlock(&it->lock);
    if (GST_IS_EVENT(item)) gst_pad_push_event(pad, item);
    else if (!push_buffer(it, stream, item)) gst_pad_pause_task(pad);
    if (ended) {
        gst_pad_pause_task(pad);
        leave(it, stream);
    }
}

/* ---- The beginning ---- */

/* The latest stream of this SSRC and medium that a stream of another format can follow. */
static CpayStream *former_stream(GstCpaySession *it, guint32 ssrc, const CpayCodec *codec) {
    for (GList *at = g_list_last(it->streams); at; at = at->prev) {
        CpayStream *stream = at->data;
        gboolean same = stream->ssrc == ssrc && g_str_equal(stream->codec->media, codec->media);
        if (same && !stream->waits && (stream->stage == CPAY_CHANGED || stream->stage == CPAY_GOES_ON)) return stream;
    }
    return NULL;
}

static GstCaps *caps_of(const CpayCodec *codec) {
    GstCaps *caps = gst_caps_from_string(codec->caps);
    if (codec->codec == CPAY_OPUS) gst_caps_set_simple(caps, "channels", G_TYPE_INT, 2, "rate", G_TYPE_INT, 48000, NULL);
    /* any rate of frames; muxers want the field */
    if (codec->media[0] == 'v') gst_caps_set_simple(caps, "framerate", GST_TYPE_FRACTION, 0, 1, NULL);
    return caps;
}

static GstPad *make_pad(GstCpaySession *it, const CpayCodec *codec) {
    gboolean video = codec->media[0] == 'v';
    g_autofree gchar *name = g_strdup_printf("%s_%u", codec->media, it->numbers[video]++);
    GstPadTemplate *template = gst_element_get_pad_template(GST_ELEMENT(it), video ? "video_%u" : "audio_%u");
    GstPad *pad = g_object_new(gst_cpay_pad_get_type(), "name", name, "direction", GST_PAD_SRC, "template", template, NULL);
    gst_object_ref_sink(pad);
    gst_pad_set_event_function(pad, cpay_output_event);
    gst_pad_set_query_function(pad, cpay_output_query);
    gst_pad_use_fixed_caps(pad);
    return pad;
}

CpayStream *cpay_stream_begin(GstCpaySession *it, const cpay_event *event) {
    const CpayCodec *codec = g_hash_table_lookup(it->codecs, GUINT_TO_POINTER(event->payload_type));
    if (!codec) return NULL; /* comfort noise or telephone events as a format: no pad */
    CpayStream *stream = g_new0(CpayStream, 1);
    stream->codec = codec;
    stream->ssrc = event->ssrc;
    stream->payload_type = event->payload_type;
    stream->telephone_time = G_MAXUINT64;
    stream->follows = former_stream(it, event->ssrc, codec);
    stream->waits = TRUE;
    stream->begun_at = it->now;
    GST_INFO_OBJECT(it, "stream %u of payload type %u begins%s", stream->ssrc, stream->payload_type,
                    stream->follows ? ", in the place of another" : "");
    stream->pad = make_pad(it, codec);
    name_pad(it, (GstCpayPad *)stream->pad, stream);
    stream->caps = caps_of(codec);
    g_cond_init(&stream->filled);
    g_queue_init(&stream->queue);
    gst_pad_set_element_private(stream->pad, stream);
    it->streams = g_list_append(it->streams, stream);
    return stream;
}

/* Whether the stream need not wait for the end of the stream that it follows. */
static gboolean may_begin(GstCpaySession *it, CpayStream *stream, gboolean all) {
    CpayStream *former = stream->follows;
    if (!former || former->stage == CPAY_CHANGED) return TRUE;
    if (former->stage == CPAY_GOES_ON && !all && it->now - stream->begun_at < BEGIN_WAIT) return FALSE;
    stream->follows = NULL; /* a separate pad */
    return TRUE;
}

void cpay_stream_settle(GstCpaySession *it, gboolean all) {
    for (GList *at = it->streams; at; at = at->next) {
        CpayStream *stream = at->data;
        if (!stream->waits || !may_begin(it, stream, all)) continue;
        stream->waits = FALSE;
        if (stream->follows) stream->follows->stage = CPAY_FOLLOWED;
        it->begun = g_list_append(it->begun, stream);
    }
    for (GList *at = it->streams; at; at = at->next) {
        CpayStream *stream = at->data;
        if (stream->stage == CPAY_CHANGED && (all || it->now - stream->changed_at > CHANGE_WAIT)) cpay_stream_end(stream);
    }
}

static gboolean group_of(GstPad *pad, GstEvent **event, gpointer group) {
    (void)pad;
    if (GST_EVENT_TYPE(*event) == GST_EVENT_STREAM_START) gst_event_parse_group_id(*event, group);
    return TRUE;
}

static GstCaps *caps_now(GstCpaySession *it, CpayStream *stream) {
    g_mutex_lock(&it->lock);
    GstCaps *caps = gst_caps_ref(stream->caps);
    g_mutex_unlock(&it->lock);
    return caps;
}

static void begin_pad(GstCpaySession *it, CpayStream *stream) {
    GstSegment segment;
    g_autoptr(GstCaps) caps = caps_now(it, stream);
    if (it->group == GST_GROUP_ID_INVALID) {
        gst_pad_sticky_events_foreach(it->sink, group_of, &it->group);
        if (it->group == GST_GROUP_ID_INVALID) it->group = gst_util_group_id_next();
    }
    g_autofree gchar *part = g_strdup_printf("%08x-%u", stream->ssrc, stream->payload_type);
    g_autofree gchar *id = cpay_stream_id(GST_ELEMENT(it), it->sink, part);
    GstEvent *start = gst_event_new_stream_start(id);
    gst_event_set_group_id(start, it->group);
    gst_pad_set_active(stream->pad, TRUE);
    gst_pad_push_event(stream->pad, start);
    gst_pad_push_event(stream->pad, gst_event_new_caps(caps));
    gst_segment_init(&segment, GST_FORMAT_TIME);
    gst_pad_push_event(stream->pad, gst_event_new_segment(&segment));
    gst_element_add_pad(GST_ELEMENT(it), stream->pad);
    gst_pad_start_task(stream->pad, (GstTaskFunction)push_loop, stream->pad, NULL);
}

/* The stream takes the place and the pad of the stream that it follows. The caller holds the lock. */
static void take_place(GstCpaySession *it, CpayStream *former, CpayStream *stream) {
    GstCpayPad *pad = (GstCpayPad *)former->pad;
    gpointer item;
    former->stage = CPAY_GOES_ON;
    former->codec = stream->codec;
    former->payload_type = stream->payload_type;
    stream->clock.last = MAX(stream->clock.last, former->clock.last);
    former->clock = stream->clock;
    gst_caps_replace(&former->caps, stream->caps);
    former->width = stream->width, former->height = stream->height;
    former->last_number = stream->last_number, former->last_end = stream->last_end;
    former->orientation = 0;
    former->buffers += stream->buffers, former->bytes += stream->bytes;
    name_pad(it, pad, former);
    cpay_stream_enqueue(former, gst_event_new_caps(former->caps));
    while ((item = g_queue_pop_head(&stream->queue))) cpay_stream_enqueue(former, item);
    if (stream->stage != CPAY_GOES_ON) former->stage = stream->stage, former->changed_at = stream->changed_at;
    it->streams = g_list_remove(it->streams, stream);
}

void cpay_stream_add(GstCpaySession *it, CpayStream *stream) {
    CpayStream *former = stream->follows;
    if (former) {
        g_autoptr(GstCaps) caps = caps_now(it, stream);
        gboolean accepted = gst_pad_peer_query_accept_caps(former->pad, caps);
        GST_INFO_OBJECT(former->pad, "downstream %s %" GST_PTR_FORMAT, accepted ? "accepts" : "refuses", caps);
        g_mutex_lock(&it->lock);
        if (accepted) take_place(it, former, stream);
        else cpay_stream_end(former);
        stream->follows = NULL;
        g_mutex_unlock(&it->lock);
        if (accepted) {
            free_stream(stream);
            return;
        }
    }
    begin_pad(it, stream);
}

/* cpaysession replaces rtpbin, rtpjitterbuffer and a depayloader. This file has its pads, states and properties. */
#include "session.h"

#define GST_CAT_DEFAULT cpay_debug

typedef struct {
    GstElementClass parent;
} GstCpaySessionClass;

G_DEFINE_TYPE(GstCpaySession, gst_cpay_session, GST_TYPE_ELEMENT)

enum {
    P_FORMATS = 1,
    P_SDP,
    P_LATENCY,
    P_UNDECODABLE,
    P_NACK,
    P_PLI,
    P_TRANSPORT,
    P_REDUCED,
    P_REPORT_INTERVAL,
    P_MAX_STREAMS,
    P_MAX_QUEUE,
    P_CNAME,
    P_SSRC,
    P_REFERENCES,
    P_KEYFRAME_INTERVAL,
    P_LONGEST_RETRY,
    P_SYNC,
    P_STATS,
};

#define VIDEO_CAPS "video/x-vp8; video/x-vp9; video/x-av1, stream-format=(string)obu-stream, alignment=(string)tu"
#define AUDIO_CAPS                                                                                                                         \
    "audio/x-opus, channel-mapping-family=(int)0; audio/x-mulaw, rate=(int)8000, channels=(int)1; audio/x-alaw, rate=(int)8000, "          \
    "channels=(int)1; audio/G722, rate=(int)16000, channels=(int)1; audio/AMR-WB, rate=(int)16000, channels=(int)1"
#define TEMPLATE(name, direction, presence, caps) GST_STATIC_PAD_TEMPLATE(name, direction, presence, GST_STATIC_CAPS(caps))

static GstStaticPadTemplate sink_template = TEMPLATE("sink", GST_PAD_SINK, GST_PAD_ALWAYS, "application/x-rtp; application/x-rtcp");
static GstStaticPadTemplate rtcp_sink_template = TEMPLATE("rtcp_sink", GST_PAD_SINK, GST_PAD_REQUEST, "application/x-rtcp");
static GstStaticPadTemplate rtcp_src_template = TEMPLATE("rtcp_src", GST_PAD_SRC, GST_PAD_REQUEST, "application/x-rtcp");
static GstStaticPadTemplate video_template = TEMPLATE("video_%u", GST_PAD_SRC, GST_PAD_SOMETIMES, VIDEO_CAPS);
static GstStaticPadTemplate audio_template = TEMPLATE("audio_%u", GST_PAD_SRC, GST_PAD_SOMETIMES, AUDIO_CAPS);

static GType undecodable_type(void) {
    static gsize type = 0;
    static const GEnumValue values[] = {
        {CPAY_UNDECODABLE_PASS, "Release it like any other frame, and request no keyframe for it", "pass"},
        {CPAY_UNDECODABLE_MARK, "Release it with the flag GST_BUFFER_FLAG_CORRUPTED, and request a keyframe", "mark"},
        {CPAY_UNDECODABLE_DROP, "Drop it, and request a keyframe", "drop"},
        {0, NULL, NULL},
    };
    if (g_once_init_enter(&type)) g_once_init_leave(&type, g_enum_register_static("GstCpayUndecodable", values));
    return (GType)type;
}

/* ---- Request pads ---- */

static GstPad *request_pad(GstElement *element, GstPadTemplate *template, const gchar *name, const GstCaps *caps) {
    GstCpaySession *it = (GstCpaySession *)element;
    (void)caps;
    gboolean is_sink = GST_PAD_TEMPLATE_DIRECTION(template) == GST_PAD_SINK;
    GstPad **place = is_sink ? &it->rtcp_sink : &it->rtcp_src;
    /* Without its name nobody gets rtcp_src: `cpaysession ! filesink` is to link the media, whose pad comes later. */
    if (*place || (!is_sink && !name)) return NULL;
    GstPad *pad = gst_pad_new_from_template(template, is_sink ? "rtcp_sink" : "rtcp_src");
    if (is_sink) {
        gst_pad_set_chain_function(pad, cpay_input_chain);
        gst_pad_set_chain_list_function(pad, cpay_input_chain_list);
        gst_pad_set_event_function(pad, cpay_input_event);
    } else gst_pad_use_fixed_caps(pad);
    gst_pad_set_active(pad, TRUE);
    GST_OBJECT_LOCK(it);
    *place = pad;
    if (!is_sink) it->rtcp_ready = FALSE;
    GST_OBJECT_UNLOCK(it);
    gst_element_add_pad(element, pad);
    return pad;
}

static void release_pad(GstElement *element, GstPad *pad) {
    GstCpaySession *it = (GstCpaySession *)element;
    GST_OBJECT_LOCK(it);
    if (pad == it->rtcp_sink) it->rtcp_sink = NULL;
    if (pad == it->rtcp_src) it->rtcp_src = NULL;
    GST_OBJECT_UNLOCK(it);
    gst_pad_set_active(pad, FALSE);
    gst_element_remove_pad(element, pad);
}

/* ---- States ---- */

static gboolean begin(GstCpaySession *it) {
    g_autoptr(GError) error = NULL;
    gboolean fine = TRUE;
    g_mutex_lock(&it->lock);
    it->stop = it->flushing = FALSE;
    gst_segment_init(&it->segment, GST_FORMAT_UNDEFINED);
    if (it->sdp || it->formats) fine = cpay_session_open(it, NULL, &error);
    g_mutex_unlock(&it->lock);
    if (fine) cpay_timer_start(it);
    else GST_ELEMENT_ERROR(it, RESOURCE, SETTINGS, ("%s", error->message), (NULL));
    return fine;
}

static void forget_session(GstCpaySession *it) {
    g_mutex_lock(&it->lock);
    GList *streams = g_steal_pointer(&it->streams);
    cpay_session_free(&it->session);
    it->has_session = it->eos = it->has_times = it->live = FALSE;
    it->rtcp_ready = FALSE;
    it->now = 0, it->group = GST_GROUP_ID_INVALID;
    it->numbers[0] = it->numbers[1] = 0;
    for (GList *at = streams; at; at = at->next) cpay_stream_stop(at->data);
    g_hash_table_remove_all(it->codecs);
    g_mutex_unlock(&it->lock);
    for (GList *at = streams; at; at = at->next) cpay_stream_remove(it, at->data);
    g_list_free(streams);
}

static GstStateChangeReturn change_state(GstElement *element, GstStateChange change) {
    GstCpaySession *it = (GstCpaySession *)element;
    if (change == GST_STATE_CHANGE_READY_TO_PAUSED && !begin(it)) return GST_STATE_CHANGE_FAILURE;
    if (change == GST_STATE_CHANGE_PAUSED_TO_READY) cpay_timer_stop(it);
    GstStateChangeReturn result = GST_ELEMENT_CLASS(gst_cpay_session_parent_class)->change_state(element, change);
    if (change == GST_STATE_CHANGE_PAUSED_TO_PLAYING) { /* there is a clock now */
        g_mutex_lock(&it->lock);
        g_cond_signal(&it->wake);
        g_mutex_unlock(&it->lock);
    }
    if (change == GST_STATE_CHANGE_PAUSED_TO_READY) forget_session(it);
    return result;
}

/* ---- Properties ---- */

static void set_latency(GstCpaySession *it, guint latency) {
    it->latency = latency;
    if (!it->has_session) return;
    cpay_wait_limits waits = cpay_session_waits(it);
    for (GList *at = it->streams; at; at = at->next) {
        CpayStream *stream = at->data;
        if (cpay_session_set_wait_limits(&it->session, stream->ssrc, stream->payload_type, &waits)) continue; /* it ended */
    }
}

/* A property was set, perhaps while the session runs. Without the lock. */
static void after_setting(GstCpaySession *it, guint id) {
    g_autoptr(GError) error = NULL;
    if (id == P_LATENCY) gst_element_post_message(GST_ELEMENT(it), gst_message_new_latency(GST_OBJECT(it)));
    if (id != P_FORMATS && id != P_SDP) return;
    g_mutex_lock(&it->lock);
    gboolean fine = !it->has_session || cpay_session_change_formats(it, &error);
    if (it->has_session) cpay_session_take_events(it);
    CpayOutcome all = cpay_session_take_outcome(it);
    g_mutex_unlock(&it->lock);
    cpay_session_carry_out(it, all);
    if (!fine) GST_ELEMENT_WARNING(it, STREAM, FORMAT, ("The formats stay as they were"), ("%s", error->message));
}

static void set_property(GObject *object, guint id, const GValue *value, GParamSpec *spec) {
    GstCpaySession *it = (GstCpaySession *)object;
    g_mutex_lock(&it->lock);
    switch (id) {
    case P_FORMATS: gst_caps_take(&it->formats, gst_value_get_caps(value) ? gst_caps_copy(gst_value_get_caps(value)) : NULL); break;
    case P_SDP: g_free(it->sdp), it->sdp = g_value_dup_string(value); break;
    case P_CNAME: g_free(it->cname), it->cname = g_value_dup_string(value); break;
    case P_LATENCY: set_latency(it, g_value_get_uint(value)); break;
    case P_UNDECODABLE: it->undecodable = g_value_get_enum(value); break;
    case P_NACK: it->nack = g_value_get_boolean(value); break;
    case P_PLI: it->pli = g_value_get_boolean(value); break;
    case P_TRANSPORT: it->transport = g_value_get_boolean(value); break;
    case P_REDUCED: it->reduced = g_value_get_boolean(value); break;
    case P_REPORT_INTERVAL: it->report_interval = g_value_get_uint(value); break;
    case P_KEYFRAME_INTERVAL: it->keyframe_interval = g_value_get_uint(value); break;
    case P_LONGEST_RETRY: it->longest_retry = g_value_get_uint(value); break;
    case P_MAX_STREAMS: it->max_streams = g_value_get_uint(value); break;
    case P_MAX_QUEUE: it->max_queue = g_value_get_uint(value); break;
    case P_SSRC: it->ssrc = g_value_get_uint(value); break;
    case P_REFERENCES: it->references = g_value_get_boolean(value); break;
    case P_SYNC: it->sync = g_value_get_boolean(value); break;
    default: G_OBJECT_WARN_INVALID_PROPERTY_ID(object, id, spec);
    }
    g_mutex_unlock(&it->lock);
    after_setting(it, id);
}

static void get_property(GObject *object, guint id, GValue *value, GParamSpec *spec) {
    GstCpaySession *it = (GstCpaySession *)object;
    if (id == P_STATS) {
        g_value_take_boxed(value, cpay_session_stats(it));
        return;
    }
    g_mutex_lock(&it->lock);
    switch (id) {
    case P_FORMATS: gst_value_set_caps(value, it->formats); break;
    case P_SDP: g_value_set_string(value, it->sdp); break;
    case P_CNAME: g_value_set_string(value, it->cname); break;
    case P_LATENCY: g_value_set_uint(value, it->latency); break;
    case P_UNDECODABLE: g_value_set_enum(value, it->undecodable); break;
    case P_NACK: g_value_set_boolean(value, it->nack); break;
    case P_PLI: g_value_set_boolean(value, it->pli); break;
    case P_TRANSPORT: g_value_set_boolean(value, it->transport); break;
    case P_REDUCED: g_value_set_boolean(value, it->reduced); break;
    case P_REPORT_INTERVAL: g_value_set_uint(value, it->report_interval); break;
    case P_KEYFRAME_INTERVAL: g_value_set_uint(value, it->keyframe_interval); break;
    case P_LONGEST_RETRY: g_value_set_uint(value, it->longest_retry); break;
    case P_MAX_STREAMS: g_value_set_uint(value, it->max_streams); break;
    case P_MAX_QUEUE: g_value_set_uint(value, it->max_queue); break;
    case P_SSRC: g_value_set_uint(value, it->ssrc); break;
    case P_REFERENCES: g_value_set_boolean(value, it->references); break;
    case P_SYNC: g_value_set_boolean(value, it->sync); break;
    default: G_OBJECT_WARN_INVALID_PROPERTY_ID(object, id, spec);
    }
    g_mutex_unlock(&it->lock);
}

static void finalize(GObject *object) {
    GstCpaySession *it = (GstCpaySession *)object;
    cpay_session_free(&it->session);
    g_hash_table_unref(it->codecs);
    g_ptr_array_free(it->rtcp, TRUE);
    g_ptr_array_free(it->messages, TRUE);
    gst_clear_caps(&it->formats);
    g_free(it->sdp);
    g_free(it->cname);
    g_mutex_clear(&it->lock);
    g_cond_clear(&it->wake);
    g_cond_clear(&it->drained);
    G_OBJECT_CLASS(gst_cpay_session_parent_class)->finalize(object);
}

#define SET_READY ((GParamFlags)(G_PARAM_READWRITE | G_PARAM_STATIC_STRINGS | GST_PARAM_MUTABLE_READY))
#define SET_PLAYING ((GParamFlags)(G_PARAM_READWRITE | G_PARAM_STATIC_STRINGS | GST_PARAM_MUTABLE_PLAYING))

static void install_description(GObjectClass *object) {
    g_object_class_install_property(
        object, P_FORMATS,
        g_param_spec_boxed("formats", "Formats",
                           "One application/x-rtp structure for each payload type of the port, with payload, encoding-name and clock-rate; "
                           "media, apt (of RTX), rtcp-fb-nack, rtcp-fb-nack-pli, rtcp-fb-transport-cc, extmap-N. Can change while playing: "
                           "streams of formats that stay go on",
                           GST_TYPE_CAPS, SET_PLAYING));
    g_object_class_install_property(
        object, P_SDP,
        g_param_spec_string("sdp", "Session description",
                            "A session description (SDP, RFC 8866) whose formats the port receives, or the name "
                            "of a file with one; used instead of formats. Can change while playing",
                            NULL, SET_PLAYING));
    g_object_class_install_property(object, P_CNAME,
                                    g_param_spec_string("cname", "CNAME",
                                                        "Canonical name in reports (RFC 3550), at most 255 bytes; random by default", NULL,
                                                        SET_READY));
    g_object_class_install_property(object, P_UNDECODABLE,
                                    g_param_spec_enum("undecodable", "Undecodable",
                                                      "What happens to video that a decoder cannot show after a loss", undecodable_type(),
                                                      CPAY_UNDECODABLE_DROP, SET_READY));
    g_object_class_install_property(object, P_STATS,
                                    g_param_spec_boxed("stats", "Statistics", "Counts of the port and of each stream", GST_TYPE_STRUCTURE,
                                                       G_PARAM_READABLE | G_PARAM_STATIC_STRINGS));
}

/* A property that is a number. */
typedef struct {
    guint id, least, most, otherwise;
    const char *name, *nick, *blurb;
    GParamFlags flags;
} Number;

static void install_numbers(GObjectClass *object) {
    static const Number numbers[] = {
        {P_LATENCY, 0, 60000, 200, "latency", "Latency", "How long a frame waits for missing packets at most, in ms", SET_PLAYING},
        {P_REPORT_INTERVAL, 0, 3600000, 1000, "report-interval", "Report interval", "Time between two receiver reports, in ms; 0: none",
         SET_READY},
        {P_KEYFRAME_INTERVAL, 0, 60000, 100, "keyframe-interval", "Keyframe interval",
         "Least time between two requests of a stream for a keyframe, in ms", SET_READY},
        {P_LONGEST_RETRY, 0, 60000, 0, "longest-retry", "Longest retry",
         "Largest time between two requests of a packet, in ms: below the round trip a packet is requested again before its answer can "
         "come; "
         "0: a quarter of the latency",
         SET_READY},
        {P_MAX_STREAMS, 1, 100000, 64, "max-streams", "Streams", "Largest number of streams", SET_READY},
        {P_MAX_QUEUE, 2, G_MAXUINT, 1000, "max-queue", "Queue",
         "How many buffers of a stream wait for downstream before the source has to wait", SET_PLAYING},
        {P_SSRC, 0, G_MAXUINT32, 0, "ssrc", "SSRC", "SSRC of the reports; 0: random", SET_READY},
    };
    for (guint i = 0; i < G_N_ELEMENTS(numbers); i++) {
        const Number *it = &numbers[i];
        g_object_class_install_property(object, it->id,
                                        g_param_spec_uint(it->name, it->nick, it->blurb, it->least, it->most, it->otherwise, it->flags));
    }
}

/* A property that is on or off. */
typedef struct {
    guint id;
    gboolean otherwise;
    const char *name, *nick, *blurb;
} Choice;

static void install_choices(GObjectClass *object) {
    static const Choice choices[] = {
        {P_NACK, TRUE, "nack", "NACK", "Request missing packets of formats with rtcp-fb-nack (RFC 4585)"},
        {P_PLI, TRUE, "pli", "PLI", "Request keyframes of formats with rtcp-fb-nack-pli (RFC 4585)"},
        {P_TRANSPORT, TRUE, "transport-cc", "Transport-wide feedback", "Send transport-wide feedback if the formats have it"},
        {P_REDUCED, FALSE, "reduced-size-rtcp", "RTCP of reduced size", "Send requests without a report before them (RFC 5506)"},
        {P_REFERENCES, TRUE, "dependency-descriptor", "Dependency descriptor",
         "Read the dependency descriptor if the formats have its extension"},
        {P_SYNC, TRUE, "rtcp-sync", "Synchronise", "Keep streams together by the wall clock of sender reports"},
    };
    for (guint i = 0; i < G_N_ELEMENTS(choices); i++) {
        const Choice *it = &choices[i];
        g_object_class_install_property(object, it->id, g_param_spec_boolean(it->name, it->nick, it->blurb, it->otherwise, SET_READY));
    }
}

static void gst_cpay_session_class_init(GstCpaySessionClass *class) {
    GObjectClass *object = G_OBJECT_CLASS(class);
    GstElementClass *element = GST_ELEMENT_CLASS(class);
    cpay_register_metas();
    object->set_property = set_property;
    object->get_property = get_property;
    object->finalize = finalize;
    element->change_state = change_state;
    element->request_new_pad = request_pad;
    element->release_pad = release_pad;
    install_description(object);
    install_numbers(object);
    install_choices(object);
    gst_element_class_add_static_pad_template(element, &sink_template);
    gst_element_class_add_static_pad_template(element, &rtcp_sink_template);
    gst_element_class_add_static_pad_template(element, &rtcp_src_template);
    gst_element_class_add_static_pad_template(element, &video_template);
    gst_element_class_add_static_pad_template(element, &audio_template);
    gst_element_class_set_static_metadata(
        element, "RTP session receiver", "Codec/Depayloader/Network/RTP",
        "Receives all RTP streams of a port: order, requests for missing packets and keyframes, reports, media", "codec-payload-core");
    gst_type_mark_as_plugin_api(undecodable_type(), 0);
    gst_type_mark_as_plugin_api(gst_cpay_pad_get_type(), 0);
}

static void gst_cpay_session_init(GstCpaySession *it) {
    g_mutex_init(&it->lock);
    g_cond_init(&it->wake);
    g_cond_init(&it->drained);
    it->codecs = g_hash_table_new(NULL, NULL);
    it->rtcp = g_ptr_array_new();
    it->messages = g_ptr_array_new();
    it->group = GST_GROUP_ID_INVALID;
    it->latency = 200, it->max_streams = 64, it->max_queue = 1000, it->report_interval = 1000, it->keyframe_interval = 100;
    it->nack = it->pli = it->transport = it->references = it->sync = TRUE;
    it->undecodable = CPAY_UNDECODABLE_DROP;
    it->sink = gst_pad_new_from_static_template(&sink_template, "sink");
    gst_pad_set_chain_function(it->sink, cpay_input_chain);
    gst_pad_set_chain_list_function(it->sink, cpay_input_chain_list);
    gst_pad_set_event_function(it->sink, cpay_input_event);
    gst_element_add_pad(GST_ELEMENT(it), it->sink);
}

/* cpaysend follows a payloader. It keeps the packets that it sends, and answers NACKs (RFC 4585), by RTX if rtx-pt is set (RFC 4588). PLI
 * and FIR request a keyframe of the encoder. Sender reports have a name (RFC 3550). It replaces rtprtxsend and rtpsession for one stream.
 */
#include "cpay.h"

#include <gst/rtp/rtp.h>
#include <gst/video/video.h>
#include <string.h>

#define GST_CAT_DEFAULT cpay_debug

typedef struct {
    GstElement parent;
    GMutex lock, push;
    cpay_history history;
    GstPad *sink, *src, *rtcp_sink, *rtcp_src;
    gboolean rtcp_ready, has_ssrc;
    guint32 ssrc, rate;
    guint32 packets, octets, rtp_time;
    GstClockTime rtp_pts; /* running time of the last packet */
    GstSegment segment;
    guint64 last_report; /* in ms */
    gboolean has_reported;
    guint64 requested, resent, not_kept, keyframes;
    /* properties */
    gchar *cname;
    guint limit, interval, report_interval, rtx_ssrc, keyframe_interval;
    gint rtx_pt;
    guint64 last_keyframe; /* in ms */
} GstCpaySend;

typedef struct {
    GstElementClass parent;
} GstCpaySendClass;

G_DEFINE_TYPE(GstCpaySend, gst_cpay_send, GST_TYPE_ELEMENT)

enum { P_LIMIT = 1, P_INTERVAL, P_RTX_PT, P_RTX_SSRC, P_REPORT_INTERVAL, P_KEYFRAME_INTERVAL, P_CNAME, P_STATS };

static GstStaticPadTemplate sink_template =
    GST_STATIC_PAD_TEMPLATE("sink", GST_PAD_SINK, GST_PAD_ALWAYS, GST_STATIC_CAPS("application/x-rtp"));
static GstStaticPadTemplate src_template =
    GST_STATIC_PAD_TEMPLATE("src", GST_PAD_SRC, GST_PAD_ALWAYS, GST_STATIC_CAPS("application/x-rtp"));
static GstStaticPadTemplate rtcp_sink_template =
    GST_STATIC_PAD_TEMPLATE("rtcp_sink", GST_PAD_SINK, GST_PAD_REQUEST, GST_STATIC_CAPS("application/x-rtcp"));
static GstStaticPadTemplate rtcp_src_template =
    GST_STATIC_PAD_TEMPLATE("rtcp_src", GST_PAD_SRC, GST_PAD_REQUEST, GST_STATIC_CAPS("application/x-rtcp"));

/* Remembers a packet. The caller holds the lock. */
static void keep(GstCpaySend *it, GstBuffer *buffer) {
    GstMapInfo map;
    cpay_rtp_info info;
    if (!gst_buffer_map(buffer, &map, GST_MAP_READ)) return;
    if (cpay_rtp_read(map.data, map.size, &info) == CPAY_OK && cpay_history_keep(&it->history, map.data, map.size, NULL) == CPAY_OK) {
        it->ssrc = info.ssrc, it->has_ssrc = TRUE;
        it->packets++, it->octets += (guint32)info.payload_len, it->rtp_time = info.timestamp;
        if (it->segment.format == GST_FORMAT_TIME && GST_BUFFER_PTS_IS_VALID(buffer))
            it->rtp_pts = gst_segment_to_running_time(&it->segment, GST_FORMAT_TIME, GST_BUFFER_PTS(buffer));
    }
    gst_buffer_unmap(buffer, &map);
}

/* Time that passed, in ms, by a clock that never goes back. */
static guint64 milliseconds(void) {
    return (guint64)(g_get_monotonic_time() / 1000);
}

/* The RTP time of this moment: the time of the last packet, and the time since its capture. */
static guint32 rtp_time_now(GstCpaySend *it) {
    guint64 since = 0;
    g_autoptr(GstClock) clock = gst_element_get_clock(GST_ELEMENT(it));
    if (clock && GST_CLOCK_TIME_IS_VALID(it->rtp_pts)) {
        GstClockTime shown = gst_element_get_base_time(GST_ELEMENT(it)) + it->rtp_pts, now = gst_clock_get_time(clock);
        if (now > shown) since = now - shown;
    }
    return it->rtp_time + (guint32)gst_util_uint64_scale(since, it->rate, GST_SECOND);
}

/* The time of day as RTCP has it: seconds since 1900 in the upper 32 bits, fractions of a second in the lower 32 bits. */
static guint64 ntp_now(void) {
    guint64 now = (guint64)g_get_real_time();
    return ((now / G_USEC_PER_SEC + G_GUINT64_CONSTANT(2208988800)) << 32) | ((now % G_USEC_PER_SEC << 32) / G_USEC_PER_SEC);
}

/* The report that is due, or NULL. The caller holds the lock. */
static GstBuffer *report(GstCpaySend *it) {
    guint8 bytes[600];
    size_t first = 0, second = 0;
    guint64 now = milliseconds();
    if (!it->rtcp_src || !it->has_ssrc || !it->report_interval || !it->rate) return NULL;
    if (it->has_reported && now - it->last_report < it->report_interval) return NULL;
    it->has_reported = TRUE, it->last_report = now;
    cpay_sender_report_info info = {.ssrc = it->ssrc, .rtp_time = rtp_time_now(it), .packets = it->packets, .octets = it->octets};
    if (cpay_write_sender_report(ntp_now(), &info, NULL, 0, bytes, sizeof bytes, &first)) return NULL;
    if (cpay_write_cname(it->ssrc, (const uint8_t *)it->cname, strlen(it->cname), bytes + first, sizeof bytes - first, &second))
        return NULL;
    return gst_buffer_new_memdup(bytes, first + second);
}

static void push_rtcp(GstCpaySend *it, GstBuffer *packet) {
    if (!packet) return;
    GST_OBJECT_LOCK(it);
    GstPad *pad = it->rtcp_src ? gst_object_ref(it->rtcp_src) : NULL;
    gboolean ready = it->rtcp_ready;
    it->rtcp_ready = pad != NULL;
    GST_OBJECT_UNLOCK(it);
    if (!pad) {
        gst_buffer_unref(packet);
        return;
    }
    if (!ready) cpay_begin_rtcp(GST_ELEMENT(it), it->sink, pad);
    gst_pad_push(pad, packet);
    gst_object_unref(pad);
}

static GstFlowReturn chain(GstPad *pad, GstObject *parent, GstBuffer *buffer) {
    GstCpaySend *it = (GstCpaySend *)parent;
    (void)pad;
    g_mutex_lock(&it->lock);
    keep(it, buffer);
    GstBuffer *due = report(it);
    g_mutex_unlock(&it->lock);
    push_rtcp(it, due);
    g_mutex_lock(&it->push);
    GstFlowReturn flow = gst_pad_push(it->src, buffer);
    g_mutex_unlock(&it->push);
    return flow;
}

static GstFlowReturn chain_list(GstPad *pad, GstObject *parent, GstBufferList *list) {
    GstCpaySend *it = (GstCpaySend *)parent;
    (void)pad;
    g_mutex_lock(&it->lock);
    for (guint i = 0; i < gst_buffer_list_length(list); i++) keep(it, gst_buffer_list_get(list, i));
    GstBuffer *due = report(it);
    g_mutex_unlock(&it->lock);
    push_rtcp(it, due);
    g_mutex_lock(&it->push);
    GstFlowReturn flow = gst_pad_push_list(it->src, list);
    g_mutex_unlock(&it->push);
    return flow;
}

/* The retransmission of a number, or NULL. The caller holds the lock. */
static GstBuffer *resend(GstCpaySend *it, guint16 number) {
    guint8 bytes[2048];
    size_t size = 0;
    cpay_resent resent = CPAY_RESENT_NOT_KEPT;
    g_autofree guint8 *large = NULL;
    guint8 *at = bytes;
    cpay_status status = cpay_history_resend(&it->history, milliseconds(), number, bytes, sizeof bytes, &size, &resent);
    if (status == CPAY_TOO_SMALL) {
        at = large = g_malloc(size);
        status = cpay_history_resend(&it->history, milliseconds(), number, at, size, &size, &resent);
    }
    if (status == CPAY_OK && resent == CPAY_RESENT_NOT_KEPT) it->not_kept++;
    if (status != CPAY_OK || resent != CPAY_RESENT_WRITTEN) return NULL;
    GstBuffer *packet = gst_buffer_new_memdup(at, size);
    GST_BUFFER_FLAG_SET(packet, GST_RTP_BUFFER_FLAG_RETRANSMISSION);
    it->resent++;
    return packet;
}

/* Answers the requests of a compound packet. Returns the retransmissions, or NULL. The caller holds the lock. */
static GstBufferList *answer(GstCpaySend *it, const GstMapInfo *map, gboolean *keyframe) {
    size_t count = 0, room = map->size / 4 * 17 + 1; /* a NACK names at most 17 numbers in 4 bytes */
    bool wanted = false;
    GstBufferList *list = NULL;
    g_autofree guint16 *numbers = g_new(guint16, room);
    if (!it->has_ssrc || cpay_read_requests(map->data, map->size, it->ssrc, false, numbers, room, &count, &wanted)) return NULL;
    it->requested += count;
    for (size_t i = 0; i < count; i++) {
        GstBuffer *packet = resend(it, numbers[i]);
        if (!packet) continue;
        if (!list) list = gst_buffer_list_new();
        gst_buffer_list_add(list, packet);
    }
    guint64 now = milliseconds();
    *keyframe = wanted && (!it->keyframes || now - it->last_keyframe >= it->keyframe_interval);
    if (*keyframe) it->last_keyframe = now, it->keyframes++;
    return list;
}

static GstFlowReturn rtcp_chain(GstPad *pad, GstObject *parent, GstBuffer *buffer) {
    GstCpaySend *it = (GstCpaySend *)parent;
    GstMapInfo map;
    GstBufferList *list = NULL;
    gboolean keyframe = FALSE;
    (void)pad;
    if (gst_buffer_map(buffer, &map, GST_MAP_READ)) {
        g_mutex_lock(&it->lock);
        list = answer(it, &map, &keyframe);
        g_mutex_unlock(&it->lock);
        gst_buffer_unmap(buffer, &map);
    }
    gst_buffer_unref(buffer);
    if (list) {
        g_mutex_lock(&it->push);
        gst_pad_push_list(it->src, list);
        g_mutex_unlock(&it->push);
    }
    if (keyframe) gst_pad_push_event(it->sink, gst_video_event_new_upstream_force_key_unit(GST_CLOCK_TIME_NONE, TRUE, 0));
    return GST_FLOW_OK;
}

static gboolean sink_event(GstPad *pad, GstObject *parent, GstEvent *event) {
    GstCpaySend *it = (GstCpaySend *)parent;
    if (GST_EVENT_TYPE(event) == GST_EVENT_CAPS) {
        GstCaps *caps;
        int rate = 0;
        gst_event_parse_caps(event, &caps);
        gst_structure_get_int(gst_caps_get_structure(caps, 0), "clock-rate", &rate);
        g_mutex_lock(&it->lock);
        it->rate = (guint32)rate;
        g_mutex_unlock(&it->lock);
    }
    if (GST_EVENT_TYPE(event) == GST_EVENT_SEGMENT) {
        g_mutex_lock(&it->lock);
        gst_event_copy_segment(event, &it->segment);
        g_mutex_unlock(&it->lock);
    }
    return gst_pad_event_default(pad, parent, event);
}

static gboolean rtcp_event(GstPad *pad, GstObject *parent, GstEvent *event) {
    (void)pad, (void)parent;
    gst_event_unref(event);
    return TRUE;
}

static GstPad *request_pad(GstElement *element, GstPadTemplate *template, const gchar *name, const GstCaps *caps) {
    GstCpaySend *it = (GstCpaySend *)element;
    gboolean is_sink = GST_PAD_TEMPLATE_DIRECTION(template) == GST_PAD_SINK;
    GstPad **place = is_sink ? &it->rtcp_sink : &it->rtcp_src;
    (void)name, (void)caps;
    if (*place) return NULL;
    GstPad *pad = gst_pad_new_from_template(template, is_sink ? "rtcp_sink" : "rtcp_src");
    if (is_sink) gst_pad_set_chain_function(pad, rtcp_chain), gst_pad_set_event_function(pad, rtcp_event);
    else gst_pad_use_fixed_caps(pad);
    gst_pad_set_active(pad, TRUE);
    GST_OBJECT_LOCK(it);
    *place = pad;
    if (!is_sink) it->rtcp_ready = FALSE;
    GST_OBJECT_UNLOCK(it);
    gst_element_add_pad(element, pad);
    return pad;
}

static void release_pad(GstElement *element, GstPad *pad) {
    GstCpaySend *it = (GstCpaySend *)element;
    GST_OBJECT_LOCK(it);
    if (pad == it->rtcp_sink) it->rtcp_sink = NULL;
    if (pad == it->rtcp_src) it->rtcp_src = NULL;
    GST_OBJECT_UNLOCK(it);
    gst_pad_set_active(pad, FALSE);
    gst_element_remove_pad(element, pad);
}

static gboolean begin(GstCpaySend *it) {
    g_mutex_lock(&it->lock);
    cpay_history_settings settings = {.limit = it->limit,
                                      .interval = it->interval,
                                      .has_rtx = it->rtx_pt >= 0,
                                      .rtx_ssrc = it->rtx_ssrc,
                                      .rtx_first_number = (uint16_t)g_random_int(),
                                      .rtx_payload_type = (uint8_t)(it->rtx_pt & 127)};
    cpay_status status = cpay_history_new(&it->history, &settings);
    gst_segment_init(&it->segment, GST_FORMAT_UNDEFINED);
    it->rtp_pts = GST_CLOCK_TIME_NONE, it->has_ssrc = it->has_reported = it->rtcp_ready = FALSE;
    it->packets = it->octets = 0;
    it->keyframes = it->requested = it->resent = it->not_kept = 0;
    g_mutex_unlock(&it->lock);
    if (status) GST_ELEMENT_ERROR(it, RESOURCE, SETTINGS, (NULL), ("%s", cpay_status_text(status)));
    return status == CPAY_OK;
}

static GstStateChangeReturn change_state(GstElement *element, GstStateChange change) {
    GstCpaySend *it = (GstCpaySend *)element;
    if (change == GST_STATE_CHANGE_READY_TO_PAUSED && !begin(it)) return GST_STATE_CHANGE_FAILURE;
    GstStateChangeReturn result = GST_ELEMENT_CLASS(gst_cpay_send_parent_class)->change_state(element, change);
    if (change == GST_STATE_CHANGE_PAUSED_TO_READY) {
        g_mutex_lock(&it->lock);
        cpay_history_free(&it->history);
        g_mutex_unlock(&it->lock);
    }
    return result;
}

static void set_cname(GstCpaySend *it, const gchar *name) {
    g_free(it->cname);
    it->cname = name ? g_strndup(name, 255) : g_strdup_printf("user%08x@host-%08x", g_random_int(), g_random_int());
}

static void set_property(GObject *object, guint id, const GValue *value, GParamSpec *spec) {
    GstCpaySend *it = (GstCpaySend *)object;
    g_mutex_lock(&it->lock);
    switch (id) {
    case P_LIMIT: it->limit = g_value_get_uint(value); break;
    case P_INTERVAL: it->interval = g_value_get_uint(value); break;
    case P_RTX_PT: it->rtx_pt = g_value_get_int(value); break;
    case P_RTX_SSRC: it->rtx_ssrc = g_value_get_uint(value); break;
    case P_REPORT_INTERVAL: it->report_interval = g_value_get_uint(value); break;
    case P_KEYFRAME_INTERVAL: it->keyframe_interval = g_value_get_uint(value); break;
    case P_CNAME: set_cname(it, g_value_get_string(value)); break;
    default: G_OBJECT_WARN_INVALID_PROPERTY_ID(object, id, spec);
    }
    g_mutex_unlock(&it->lock);
}

static void get_property(GObject *object, guint id, GValue *value, GParamSpec *spec) {
    GstCpaySend *it = (GstCpaySend *)object;
    g_mutex_lock(&it->lock);
    switch (id) {
    case P_LIMIT: g_value_set_uint(value, it->limit); break;
    case P_INTERVAL: g_value_set_uint(value, it->interval); break;
    case P_RTX_PT: g_value_set_int(value, it->rtx_pt); break;
    case P_RTX_SSRC: g_value_set_uint(value, it->rtx_ssrc); break;
    case P_REPORT_INTERVAL: g_value_set_uint(value, it->report_interval); break;
    case P_KEYFRAME_INTERVAL: g_value_set_uint(value, it->keyframe_interval); break;
    case P_CNAME: g_value_set_string(value, it->cname); break;
    case P_STATS:
        g_value_take_boxed(value, gst_structure_new("application/x-cpay-send-stats", "packets", G_TYPE_UINT, it->packets, "octets",
                                                    G_TYPE_UINT, it->octets, "requested", G_TYPE_UINT64, it->requested, "resent",
                                                    G_TYPE_UINT64, it->resent, "not-kept", G_TYPE_UINT64, it->not_kept,
                                                    "keyframes-requested", G_TYPE_UINT64, it->keyframes, NULL));
        break;
    default: G_OBJECT_WARN_INVALID_PROPERTY_ID(object, id, spec);
    }
    g_mutex_unlock(&it->lock);
}

static void finalize(GObject *object) {
    GstCpaySend *it = (GstCpaySend *)object;
    cpay_history_free(&it->history);
    g_free(it->cname);
    g_mutex_clear(&it->lock);
    g_mutex_clear(&it->push);
    G_OBJECT_CLASS(gst_cpay_send_parent_class)->finalize(object);
}

static void install_properties(GObjectClass *object) {
    const GParamFlags set = G_PARAM_READWRITE | G_PARAM_STATIC_STRINGS | GST_PARAM_MUTABLE_READY;
    g_object_class_install_property(object, P_LIMIT,
                                    g_param_spec_uint("limit", "Limit", "How many packets are kept", 1, CPAY_MAX_HISTORY, 2048, set));
    g_object_class_install_property(object, P_INTERVAL,
                                    g_param_spec_uint("interval", "Interval",
                                                      "Least time between two retransmissions of a packet, in ms: about a round trip", 0,
                                                      10000, 20, set));
    g_object_class_install_property(object, P_RTX_PT,
                                    g_param_spec_int("rtx-pt", "RTX payload type",
                                                     "Payload type of retransmissions (RFC 4588); -1: packets are sent again as they were",
                                                     -1, 127, -1, set));
    g_object_class_install_property(
        object, P_RTX_SSRC,
        g_param_spec_uint("rtx-ssrc", "RTX SSRC", "SSRC of retransmissions; random by default", 0, G_MAXUINT32, 0, set));
    g_object_class_install_property(object, P_REPORT_INTERVAL,
                                    g_param_spec_uint("report-interval", "Report interval",
                                                      "Time between two sender reports, in ms; 0: none. They leave with media", 0, 3600000,
                                                      1000, set));
    g_object_class_install_property(object, P_KEYFRAME_INTERVAL,
                                    g_param_spec_uint("keyframe-interval", "Keyframe interval",
                                                      "Least time between two keyframes that receivers request, in ms", 0, 3600000, 300,
                                                      set));
    g_object_class_install_property(
        object, P_CNAME,
        g_param_spec_string("cname", "CNAME", "Canonical name in reports (RFC 3550), at most 255 bytes; random by default", NULL, set));
    g_object_class_install_property(
        object, P_STATS,
        g_param_spec_boxed("stats", "Statistics", "Counts", GST_TYPE_STRUCTURE, G_PARAM_READABLE | G_PARAM_STATIC_STRINGS));
}

static void gst_cpay_send_class_init(GstCpaySendClass *class) {
    GObjectClass *object = G_OBJECT_CLASS(class);
    GstElementClass *element = GST_ELEMENT_CLASS(class);
    object->set_property = set_property;
    object->get_property = get_property;
    object->finalize = finalize;
    element->change_state = change_state;
    element->request_new_pad = request_pad;
    element->release_pad = release_pad;
    install_properties(object);
    gst_element_class_add_static_pad_template(element, &sink_template);
    gst_element_class_add_static_pad_template(element, &src_template);
    gst_element_class_add_static_pad_template(element, &rtcp_sink_template);
    gst_element_class_add_static_pad_template(element, &rtcp_src_template);
    gst_element_class_set_static_metadata(element, "RTP sender", "Codec/Network/RTP",
                                          "Answers requests for packets and keyframes, and sends reports, for one RTP stream",
                                          "codec-payload-core");
}

static void gst_cpay_send_init(GstCpaySend *it) {
    g_mutex_init(&it->lock);
    g_mutex_init(&it->push);
    it->limit = 2048, it->interval = 20, it->rtx_pt = -1, it->rtx_ssrc = g_random_int(), it->report_interval = 1000,
    it->keyframe_interval = 300;
    set_cname(it, NULL);
    it->sink = gst_pad_new_from_static_template(&sink_template, "sink");
    gst_pad_set_chain_function(it->sink, chain);
    gst_pad_set_chain_list_function(it->sink, chain_list);
    gst_pad_set_event_function(it->sink, sink_event);
    GST_PAD_SET_PROXY_CAPS(it->sink);
    GST_PAD_SET_PROXY_ALLOCATION(it->sink);
    gst_element_add_pad(GST_ELEMENT(it), it->sink);
    it->src = gst_pad_new_from_static_template(&src_template, "src");
    GST_PAD_SET_PROXY_CAPS(it->src);
    gst_element_add_pad(GST_ELEMENT(it), it->src);
}

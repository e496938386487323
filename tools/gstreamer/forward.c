/* cpayforward: RTP of one or more sources in, a stream for each viewer out. Numbers, times and picture ids go on at a switch, and each
 * viewer's requests are answered. The caps name the codec.
 *
 * The thread of the sink pad writes each packet for each viewer, and pushes it. Requests come by rtcp_sink_%u in other threads. One lock
 * guards the forwarders and the stores. Nothing is pushed while it is held. */
#include "cpay.h"

#include <gst/rtp/rtp.h>
#include <gst/video/video.h>
#include <stdio.h>
#include <string.h>

#define GST_CAT_DEFAULT cpay_debug

enum {
    STORE = 2048,           /* packets of a source that are kept */
    EARLY = 64,             /* packets of a keyframe that may come before its first one */
    MOST_RESENT = 256,      /* packets that one packet of RTCP can ask for */
    KEYFRAME_INTERVAL = 300 /* ms between two keyframes that viewers request */
};

/* A viewer: its source pad. */
typedef struct {
    GstPad parent;
    cpay_forwarder forwarder;
    gboolean has_forwarder;
    guint32 ssrc, rtx_ssrc, source; /* source: the SSRC that it gets; 0: the first that arrives */
    gint payload_type, rtx_pt;      /* payload_type -1: the caps have it */
    guint64 requested, not_kept;
} GstCpayForwardPad;

typedef struct {
    GstPadClass parent;
} GstCpayForwardPadClass;

typedef struct {
    GstElement parent;
    GMutex lock;
    GstPad *sink;
    GHashTable *stores; /* SSRC of a source to its cpay_history */
    const CpayCodec *codec;
    gint payload_type; /* of the sources; -1: any */
    guint32 first;     /* SSRC of the first source */
    gboolean has_first;
    gint64 last_keyframe; /* microseconds */
    guint viewers;
} GstCpayForward;

typedef struct {
    GstElementClass parent;
} GstCpayForwardClass;

GType gst_cpay_forward_pad_get_type(void);
G_DEFINE_TYPE(GstCpayForwardPad, gst_cpay_forward_pad, GST_TYPE_PAD)
G_DEFINE_TYPE(GstCpayForward, gst_cpay_forward, GST_TYPE_ELEMENT)

#define RTP_TEMPLATE(name, direction, presence) GST_STATIC_PAD_TEMPLATE(name, direction, presence, GST_STATIC_CAPS("application/x-rtp"))
static GstStaticPadTemplate sink_template = RTP_TEMPLATE("sink", GST_PAD_SINK, GST_PAD_ALWAYS);
static GstStaticPadTemplate src_template = RTP_TEMPLATE("src_%u", GST_PAD_SRC, GST_PAD_REQUEST);
static GstStaticPadTemplate rtcp_template =
    GST_STATIC_PAD_TEMPLATE("rtcp_sink_%u", GST_PAD_SINK, GST_PAD_REQUEST, GST_STATIC_CAPS("application/x-rtcp"));

/* ---- Viewers ---- */

enum { V_SSRC = 1, V_PT, V_RTX_PT, V_RTX_SSRC, V_SOURCE, V_STATS };

static GstStructure *viewer_stats(GstCpayForwardPad *viewer) {
    cpay_forwarder_counts_info counts = {0};
    if (viewer->has_forwarder && cpay_forwarder_counts(&viewer->forwarder, &counts)) return NULL;
    return gst_structure_new("application/x-cpay-forward-stats", "packets", G_TYPE_UINT64, counts.packets, "octets", G_TYPE_UINT64,
                             counts.octets, "switches", G_TYPE_UINT64, counts.switches, "refused", G_TYPE_UINT64, counts.refused, "resent",
                             G_TYPE_UINT64, counts.resent, "requested", G_TYPE_UINT64, viewer->requested, "not-kept", G_TYPE_UINT64,
                             viewer->not_kept, NULL);
}

/* The lock of the element of a pad, or NULL without one. */
static GMutex *lock_of(GstCpayForwardPad *viewer) {
    GstObject *parent = GST_OBJECT_PARENT(viewer);
    return parent ? &((GstCpayForward *)parent)->lock : NULL;
}

static void viewer_set(GObject *object, guint id, const GValue *value, GParamSpec *spec) {
    GstCpayForwardPad *viewer = (GstCpayForwardPad *)object;
    GMutex *lock = lock_of(viewer);
    if (lock) g_mutex_lock(lock);
    switch (id) {
    case V_SSRC: viewer->ssrc = g_value_get_uint(value); break;
    case V_PT: viewer->payload_type = g_value_get_int(value); break;
    case V_RTX_PT: viewer->rtx_pt = g_value_get_int(value); break;
    case V_RTX_SSRC: viewer->rtx_ssrc = g_value_get_uint(value); break;
    case V_SOURCE: viewer->source = g_value_get_uint(value); break;
    default: G_OBJECT_WARN_INVALID_PROPERTY_ID(object, id, spec);
    }
    if (lock) g_mutex_unlock(lock);
}

static void viewer_get(GObject *object, guint id, GValue *value, GParamSpec *spec) {
    GstCpayForwardPad *viewer = (GstCpayForwardPad *)object;
    GMutex *lock = lock_of(viewer);
    if (lock) g_mutex_lock(lock);
    switch (id) {
    case V_SSRC: g_value_set_uint(value, viewer->ssrc); break;
    case V_PT: g_value_set_int(value, viewer->payload_type); break;
    case V_RTX_PT: g_value_set_int(value, viewer->rtx_pt); break;
    case V_RTX_SSRC: g_value_set_uint(value, viewer->rtx_ssrc); break;
    case V_SOURCE: g_value_set_uint(value, viewer->source); break;
    case V_STATS: g_value_take_boxed(value, viewer_stats(viewer)); break;
    default: G_OBJECT_WARN_INVALID_PROPERTY_ID(object, id, spec);
    }
    if (lock) g_mutex_unlock(lock);
}

static void viewer_finalize(GObject *object) {
    cpay_forwarder_free(&((GstCpayForwardPad *)object)->forwarder);
    G_OBJECT_CLASS(gst_cpay_forward_pad_parent_class)->finalize(object);
}

static void gst_cpay_forward_pad_class_init(GstCpayForwardPadClass *class) {
    GObjectClass *object = G_OBJECT_CLASS(class);
    const GParamFlags set = G_PARAM_READWRITE | G_PARAM_STATIC_STRINGS | GST_PARAM_MUTABLE_READY;
    const GParamFlags live = G_PARAM_READWRITE | G_PARAM_STATIC_STRINGS | GST_PARAM_MUTABLE_PLAYING;
    object->set_property = viewer_set;
    object->get_property = viewer_get;
    object->finalize = viewer_finalize;
    g_object_class_install_property(
        object, V_SSRC, g_param_spec_uint("ssrc", "SSRC", "SSRC of the viewer's stream; random by default", 0, G_MAXUINT32, 0, set));
    g_object_class_install_property(
        object, V_PT,
        g_param_spec_int("pt", "Payload type", "Payload type of the viewer's stream; -1: that of the sources", -1, 127, -1, set));
    g_object_class_install_property(object, V_RTX_PT,
                                    g_param_spec_int("rtx-pt", "RTX payload type",
                                                     "Payload type of retransmissions (RFC 4588); -1: packets are sent again as they were",
                                                     -1, 127, -1, set));
    g_object_class_install_property(
        object, V_RTX_SSRC,
        g_param_spec_uint("rtx-ssrc", "RTX SSRC", "SSRC of retransmissions; random by default", 0, G_MAXUINT32, 0, set));
    g_object_class_install_property(
        object, V_SOURCE,
        g_param_spec_uint("source", "Source",
                          "SSRC of the source that the viewer gets; it goes over at the next keyframe. 0: the first that arrives", 0,
                          G_MAXUINT32, 0, live));
    g_object_class_install_property(
        object, V_STATS,
        g_param_spec_boxed("stats", "Statistics", "Counts of the viewer", GST_TYPE_STRUCTURE, G_PARAM_READABLE | G_PARAM_STATIC_STRINGS));
}

static void gst_cpay_forward_pad_init(GstCpayForwardPad *viewer) {
    viewer->ssrc = g_random_int();
    viewer->rtx_ssrc = g_random_int();
    viewer->payload_type = viewer->rtx_pt = -1;
}

static gboolean open_forwarder(GstCpayForward *it, GstCpayForwardPad *viewer) {
    cpay_forwarder_settings settings;
    if (viewer->has_forwarder) return TRUE;
    guint8 type = (guint8)((viewer->payload_type >= 0 ? viewer->payload_type : it->payload_type) & 127);
    cpay_forwarder_settings_init(&settings, it->codec->codec, viewer->ssrc, type);
    settings.first_time = g_random_int();
    settings.first_number = (uint16_t)(g_random_int() & 0x7fff); /* a loss near a wrap would confuse SRTP (RFC 3711, section 3.3.1) */
    settings.rtx_first_number = (uint16_t)(g_random_int() & 0x7fff);
    settings.has_rtx = viewer->rtx_pt >= 0;
    settings.rtx_ssrc = viewer->rtx_ssrc;
    settings.rtx_payload_type = (uint8_t)(viewer->rtx_pt & 127);
    viewer->has_forwarder = cpay_forwarder_new(&viewer->forwarder, &settings) == CPAY_OK;
    return viewer->has_forwarder;
}

/* ---- Packets ---- */

/* A packet that is pushed once the lock is released. */
typedef struct {
    GstPad *pad;
    GstBuffer *buffer;
} Push;

typedef struct {
    GArray *pushes;
    gboolean keyframe;
} Outcome;

static void add_push(Outcome *all, GstCpayForwardPad *viewer, GstBuffer *buffer) {
    Push push = {gst_object_ref(viewer), buffer};
    g_array_append_val(all->pushes, push);
}

static GstFlowReturn carry_out(GstCpayForward *it, Outcome *all) {
    GstFlowReturn flow = GST_FLOW_OK;
    for (guint i = 0; i < all->pushes->len; i++) {
        Push *push = &g_array_index(all->pushes, Push, i);
        GstFlowReturn one = gst_pad_push(push->pad, push->buffer);
        if (one < GST_FLOW_EOS) flow = one; /* other viewers go on if one left or flushes */
        gst_object_unref(push->pad);
    }
    g_array_free(all->pushes, TRUE);
    if (all->keyframe) gst_pad_push_event(it->sink, gst_video_event_new_upstream_force_key_unit(GST_CLOCK_TIME_NONE, TRUE, 0));
    return flow;
}

/* A keyframe is requested at most each 300 ms, for all viewers together. */
static void want_keyframe(GstCpayForward *it, Outcome *all) {
    gint64 now = g_get_monotonic_time();
    if (it->last_keyframe && now - it->last_keyframe < KEYFRAME_INTERVAL * 1000) return;
    it->last_keyframe = now;
    all->keyframe = it->codec->media[0] == 'v';
}

/* A datagram that arrived. */
typedef struct {
    const guint8 *bytes;
    gsize size;
    GstBuffer *from;
} Datagram;

/* Writes a packet for a viewer. Returns whether the viewer begins with it. */
static gboolean write_for(GstCpayForward *it, GstCpayForwardPad *viewer, Datagram datagram, Outcome *all) {
    g_autofree guint8 *bytes = g_malloc(datagram.size);
    size_t size = 0;
    cpay_forwarded done = CPAY_FORWARDED_OTHER_SOURCE;
    guint64 ticks = gst_util_uint64_scale((guint64)g_get_monotonic_time(), it->codec->rate, G_USEC_PER_SEC);
    if (cpay_forwarder_write(&viewer->forwarder, ticks, datagram.bytes, datagram.size, bytes, datagram.size, &size, &done)) return FALSE;
    if (done == CPAY_FORWARDED_NO_KEYFRAME) want_keyframe(it, all);
    if (!size) return FALSE;
    GstBuffer *buffer = gst_buffer_new_wrapped(g_steal_pointer(&bytes), datagram.size);
    gst_buffer_set_size(buffer, (gssize)size);
    gst_buffer_copy_into(buffer, datagram.from, GST_BUFFER_COPY_TIMESTAMPS | GST_BUFFER_COPY_FLAGS, 0, -1);
    add_push(all, viewer, buffer);
    return done == CPAY_FORWARDED_BEGAN;
}

/* Packets of a keyframe that came before its first one. */
static void write_early(GstCpayForward *it, GstCpayForwardPad *viewer, cpay_history *store, Datagram first, Outcome *all) {
    guint16 number = GST_READ_UINT16_BE(first.bytes + 2);
    for (guint16 last = (guint16)(number + EARLY); number++ != last;) {
        guint8 bytes[2048];
        size_t size = 0;
        cpay_resent found = CPAY_RESENT_NOT_KEPT;
        if (cpay_history_resend(store, 0, number, bytes, sizeof bytes, &size, &found) || found != CPAY_RESENT_WRITTEN) continue;
        write_for(it, viewer, (Datagram){bytes, size, first.from}, all);
    }
}

static void forward_to(GstCpayForward *it, GstCpayForwardPad *viewer, cpay_history *store, Datagram datagram, Outcome *all) {
    guint32 ssrc = GST_READ_UINT32_BE(datagram.bytes + 8), wanted = 0;
    if (!open_forwarder(it, viewer)) return;
    guint32 wish = viewer->source ? viewer->source : it->first;
    if (ssrc == wish && (cpay_forwarder_wanted(&viewer->forwarder, &wanted) || wanted != wish)) {
        if (cpay_forwarder_want(&viewer->forwarder, wish)) return;
        want_keyframe(it, all);
    }
    if (write_for(it, viewer, datagram, all)) write_early(it, viewer, store, datagram, all);
}

static void free_store(gpointer store) {
    cpay_history_free(store);
    g_free(store);
}

/* The store of a source, or NULL out of memory. */
static cpay_history *store_of(GstCpayForward *it, guint32 ssrc) {
    cpay_history *store = g_hash_table_lookup(it->stores, GUINT_TO_POINTER(ssrc));
    cpay_history_settings settings = {.limit = STORE};
    if (store) return store;
    store = g_new0(cpay_history, 1);
    if (cpay_history_new(store, &settings)) {
        g_free(store);
        return NULL;
    }
    g_hash_table_insert(it->stores, GUINT_TO_POINTER(ssrc), store);
    return store;
}

/* Keeps a packet, and writes it for each viewer. The caller holds the lock. */
static void take(GstCpayForward *it, Datagram datagram, Outcome *all) {
    cpay_rtp_info info;
    cpay_kept_once kept = CPAY_KEPT_KNOWN;
    if (cpay_rtp_read(datagram.bytes, datagram.size, &info)) return;
    if (it->payload_type >= 0 && info.payload_type != it->payload_type) return;
    cpay_history *store = store_of(it, info.ssrc);
    if (!store || cpay_history_keep_once(store, datagram.bytes, datagram.size, &kept) || kept != CPAY_KEPT_NEW) return;
    if (!it->has_first) it->first = info.ssrc, it->has_first = TRUE;
    GST_OBJECT_LOCK(it);
    GList *viewers = g_list_copy(GST_ELEMENT(it)->srcpads);
    for (GList *at = viewers; at; at = at->next) gst_object_ref(at->data);
    GST_OBJECT_UNLOCK(it);
    for (GList *at = viewers; at; at = at->next) forward_to(it, at->data, store, datagram, all);
    g_list_free_full(viewers, gst_object_unref);
}

static GstFlowReturn chain(GstPad *pad, GstObject *parent, GstBuffer *buffer) {
    GstCpayForward *it = (GstCpayForward *)parent;
    Outcome all = {g_array_new(FALSE, FALSE, sizeof(Push)), FALSE};
    GstMapInfo map;
    (void)pad;
    g_mutex_lock(&it->lock);
    gboolean ready = it->codec != NULL;
    if (ready && gst_buffer_map(buffer, &map, GST_MAP_READ)) {
        take(it, (Datagram){map.data, map.size, buffer}, &all);
        gst_buffer_unmap(buffer, &map);
    }
    g_mutex_unlock(&it->lock);
    GstFlowReturn flow = carry_out(it, &all);
    gst_buffer_unref(buffer);
    return ready ? flow : GST_FLOW_NOT_NEGOTIATED;
}

/* ---- Requests ---- */

static void resend(GstCpayForward *it, GstCpayForwardPad *viewer, guint16 number, Outcome *all) {
    guint8 bytes[2048];
    size_t size = 0;
    guint32 source = 0;
    cpay_resent done = CPAY_RESENT_NOT_KEPT;
    if (cpay_forwarder_source(&viewer->forwarder, &source)) return;
    cpay_history *store = g_hash_table_lookup(it->stores, GUINT_TO_POINTER(source));
    viewer->requested++;
    if (!store || cpay_forwarder_resend(&viewer->forwarder, store, number, bytes, sizeof bytes, &size, &done)) return;
    if (done != CPAY_RESENT_WRITTEN) {
        viewer->not_kept++;
        return;
    }
    GstBuffer *buffer = gst_buffer_new_memdup(bytes, size);
    GST_BUFFER_FLAG_SET(buffer, GST_RTP_BUFFER_FLAG_RETRANSMISSION);
    add_push(all, viewer, buffer);
}

/* Reads the requests of a viewer. The caller holds the lock. */
static void answer(GstCpayForward *it, GstCpayForwardPad *viewer, const GstMapInfo *map, Outcome *all) {
    uint16_t numbers[MOST_RESENT];
    size_t count = 0;
    bool keyframe = false;
    if (!viewer->has_forwarder || cpay_read_requests(map->data, map->size, viewer->ssrc, false, numbers, MOST_RESENT, &count, &keyframe))
        return;
    for (size_t i = 0; i < MIN(count, MOST_RESENT); i++) resend(it, viewer, numbers[i], all);
    if (keyframe) want_keyframe(it, all);
}

static GstFlowReturn rtcp_chain(GstPad *pad, GstObject *parent, GstBuffer *buffer) {
    GstCpayForward *it = (GstCpayForward *)parent;
    Outcome all = {g_array_new(FALSE, FALSE, sizeof(Push)), FALSE};
    GstMapInfo map;
    g_autofree gchar *name = g_strdup_printf("src_%s", GST_PAD_NAME(pad) + strlen("rtcp_sink_"));
    g_autoptr(GstPad) viewer = gst_element_get_static_pad(GST_ELEMENT(it), name);
    if (viewer && gst_buffer_map(buffer, &map, GST_MAP_READ)) {
        g_mutex_lock(&it->lock);
        answer(it, (GstCpayForwardPad *)viewer, &map, &all);
        g_mutex_unlock(&it->lock);
        gst_buffer_unmap(buffer, &map);
    }
    carry_out(it, &all);
    gst_buffer_unref(buffer);
    return GST_FLOW_OK;
}

static gboolean rtcp_event(GstPad *pad, GstObject *parent, GstEvent *event) {
    (void)pad, (void)parent;
    gst_event_unref(event);
    return TRUE;
}

/* ---- Events and pads ---- */

static const CpayCodec *codec_named(const gchar *encoding) {
    for (const CpayCodec *codec = cpay_codecs; encoding && codec->element; codec++)
        if (g_ascii_strcasecmp(codec->encoding, encoding) == 0) return codec;
    return NULL;
}

static gboolean take_caps(GstCpayForward *it, GstCaps *caps) {
    const GstStructure *of = gst_caps_get_structure(caps, 0);
    const CpayCodec *codec = codec_named(gst_structure_get_string(of, "encoding-name"));
    g_mutex_lock(&it->lock);
    it->codec = codec;
    if (!gst_structure_get_int(of, "payload", &it->payload_type)) it->payload_type = -1;
    g_mutex_unlock(&it->lock);
    if (!codec)
        GST_ELEMENT_ERROR(it, STREAM, FORMAT, (NULL), ("caps without an encoding-name that can be forwarded: %" GST_PTR_FORMAT, caps));
    return codec != NULL;
}

/* An event as a viewer gets it: a separate id, and caps with the viewer's SSRC and payload type. */
static GstEvent *event_for(GstCpayForward *it, GstCpayForwardPad *viewer, GstEvent *event) {
    if (GST_EVENT_TYPE(event) == GST_EVENT_STREAM_START) {
        g_autofree gchar *id = cpay_stream_id(GST_ELEMENT(it), it->sink, GST_PAD_NAME(viewer));
        return gst_event_new_stream_start(id);
    }
    if (GST_EVENT_TYPE(event) != GST_EVENT_CAPS) return gst_event_ref(event);
    GstCaps *caps;
    gst_event_parse_caps(event, &caps);
    g_autoptr(GstCaps) own = gst_caps_copy(caps);
    gst_caps_set_simple(own, "ssrc", G_TYPE_UINT, viewer->ssrc, NULL);
    if (viewer->payload_type >= 0) gst_caps_set_simple(own, "payload", G_TYPE_INT, viewer->payload_type, NULL);
    return gst_event_new_caps(own);
}

static gboolean push_to_viewer(GstElement *element, GstPad *pad, gpointer event) {
    gst_pad_push_event(pad, event_for((GstCpayForward *)element, (GstCpayForwardPad *)pad, event));
    return TRUE;
}

static gboolean sink_event(GstPad *pad, GstObject *parent, GstEvent *event) {
    GstCpayForward *it = (GstCpayForward *)parent;
    GstCaps *caps;
    gboolean fine = TRUE;
    (void)pad;
    if (GST_EVENT_TYPE(event) == GST_EVENT_CAPS) {
        gst_event_parse_caps(event, &caps);
        fine = take_caps(it, caps);
    }
    if (fine) gst_element_foreach_src_pad(GST_ELEMENT(it), push_to_viewer, event);
    gst_event_unref(event);
    return fine;
}

static gboolean push_sticky(GstPad *sink, GstEvent **event, gpointer viewer) {
    push_to_viewer(GST_ELEMENT(GST_OBJECT_PARENT(sink)), viewer, *event);
    return TRUE;
}

/* Number of a pad of that name; without a name the next one. */
static guint number_of(GstCpayForward *it, const gchar *name, const gchar *form) {
    guint number;
    if (!name || sscanf(name, form, &number) != 1) number = it->viewers;
    it->viewers = MAX(it->viewers, number + 1);
    return number;
}

static GstPad *request_pad(GstElement *element, GstPadTemplate *template, const gchar *name, const GstCaps *caps) {
    GstCpayForward *it = (GstCpayForward *)element;
    gboolean is_sink = GST_PAD_TEMPLATE_DIRECTION(template) == GST_PAD_SINK;
    const gchar *form = is_sink ? "rtcp_sink_%u" : "src_%u";
    (void)caps;
    if (is_sink && !name) return NULL; /* it belongs to the viewer with its number */
    guint number = number_of(it, name, form);
    g_autofree gchar *own = is_sink ? g_strdup_printf("rtcp_sink_%u", number) : g_strdup_printf("src_%u", number);
    GType type = is_sink ? GST_TYPE_PAD : gst_cpay_forward_pad_get_type();
    GstPad *pad = g_object_new(type, "name", own, "direction", GST_PAD_TEMPLATE_DIRECTION(template), "template", template, NULL);
    if (is_sink) gst_pad_set_chain_function(pad, rtcp_chain), gst_pad_set_event_function(pad, rtcp_event);
    gst_pad_set_active(pad, TRUE);
    if (!gst_element_add_pad(element, pad)) return NULL;
    if (!is_sink) gst_pad_sticky_events_foreach(it->sink, push_sticky, pad);
    return pad;
}

static void release_pad(GstElement *element, GstPad *pad) {
    gst_pad_set_active(pad, FALSE);
    gst_element_remove_pad(element, pad);
}

static GstStateChangeReturn change_state(GstElement *element, GstStateChange change) {
    GstCpayForward *it = (GstCpayForward *)element;
    GstStateChangeReturn result = GST_ELEMENT_CLASS(gst_cpay_forward_parent_class)->change_state(element, change);
    if (change == GST_STATE_CHANGE_PAUSED_TO_READY) {
        g_mutex_lock(&it->lock);
        g_hash_table_remove_all(it->stores);
        it->has_first = FALSE, it->codec = NULL, it->last_keyframe = 0;
        g_mutex_unlock(&it->lock);
    }
    return result;
}

static void finalize(GObject *object) {
    GstCpayForward *it = (GstCpayForward *)object;
    g_hash_table_unref(it->stores);
    g_mutex_clear(&it->lock);
    G_OBJECT_CLASS(gst_cpay_forward_parent_class)->finalize(object);
}

static void gst_cpay_forward_class_init(GstCpayForwardClass *class) {
    GstElementClass *element = GST_ELEMENT_CLASS(class);
    G_OBJECT_CLASS(class)->finalize = finalize;
    element->change_state = change_state;
    element->request_new_pad = request_pad;
    element->release_pad = release_pad;
    gst_element_class_add_static_pad_template(element, &sink_template);
    gst_element_class_add_static_pad_template_with_gtype(element, &src_template, gst_cpay_forward_pad_get_type());
    gst_element_class_add_static_pad_template(element, &rtcp_template);
    gst_element_class_set_static_metadata(element, "RTP forwarder", "Codec/Network/RTP",
                                          "Forwards RTP to viewers: each gets a stream of its own, which goes on at a switch of the source",
                                          "codec-payload-core");
    gst_type_mark_as_plugin_api(gst_cpay_forward_pad_get_type(), 0);
}

static void gst_cpay_forward_init(GstCpayForward *it) {
    g_mutex_init(&it->lock);
    it->stores = g_hash_table_new_full(NULL, NULL, NULL, free_store);
    it->payload_type = -1;
    it->sink = gst_pad_new_from_static_template(&sink_template, "sink");
    gst_pad_set_chain_function(it->sink, chain);
    gst_pad_set_event_function(it->sink, sink_event);
    gst_element_add_pad(GST_ELEMENT(it), it->sink);
}

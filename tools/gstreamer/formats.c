/* The codecs, and session descriptions from caps: the fields of application/x-rtp that rtpbin's payload type map has. */
#include "cpay.h"

const CpayCodec cpay_codecs[] = {
    {"vp8", "VP8", "VP8", "video", "video/x-vp8", 90000, 96, CPAY_VP8, FALSE},
    {"vp9", "VP9", "VP9", "video", "video/x-vp9", 90000, 98, CPAY_VP9, FALSE},
    {"av1", "AV1", "AV1", "video", "video/x-av1, stream-format=(string)obu-stream, alignment=(string)tu", 90000, 45, CPAY_AV1, FALSE},
    {"opus", "Opus", "OPUS", "audio", "audio/x-opus, channel-mapping-family=(int)0", 48000, 111, CPAY_OPUS, FALSE},
    {"pcmu", "G.711 mu-law", "PCMU", "audio", "audio/x-mulaw, rate=(int)8000, channels=(int)1", 8000, 0, CPAY_PCMU, TRUE},
    {"pcma", "G.711 A-law", "PCMA", "audio", "audio/x-alaw, rate=(int)8000, channels=(int)1", 8000, 8, CPAY_PCMA, TRUE},
    {"g722", "G.722", "G722", "audio", "audio/G722, rate=(int)16000, channels=(int)1", 8000, 9, CPAY_G722, TRUE},
    {"amrwb", "AMR-WB", "AMR-WB", "audio", "audio/AMR-WB, rate=(int)16000, channels=(int)1", 16000, 97, CPAY_AMR_WB, FALSE},
    {NULL, NULL, NULL, NULL, NULL, 0, 0, CPAY_NULL, FALSE},
};

const CpayCodec *cpay_codec_of(cpay_codec codec) {
    for (const CpayCodec *it = cpay_codecs; it->element; it++)
        if (it->codec == codec) return it;
    return NULL;
}

/* A field as text: a string as it is, another value as GStreamer writes it. */
static gchar *text_of(const GstStructure *from, const char *field) {
    const GValue *value = gst_structure_get_value(from, field);
    if (!value) return NULL;
    return G_VALUE_HOLDS_STRING(value) ? g_value_dup_string(value) : gst_value_serialize(value);
}

typedef struct {
    GString *to;
    int payload;
} Lines;

static gboolean add_line(GQuark quark, const GValue *value, gpointer lines_) {
    Lines *lines = lines_;
    const char *field = g_quark_to_string(quark);
    if (g_str_has_prefix(field, "rtcp-fb-") && G_VALUE_HOLDS_BOOLEAN(value) && g_value_get_boolean(value)) {
        g_autofree gchar *what = g_strdelimit(g_strdup(field + 8), "-", ' ');
        /* "transport-cc" and "goog-remb" are one word */
        if (g_str_equal(what, "transport cc") || g_str_equal(what, "goog remb")) g_strdelimit(what, " ", '-');
        g_string_append_printf(lines->to, "a=rtcp-fb:%d %s\n", lines->payload, what);
    } else if (g_str_has_prefix(field, "extmap-")) {
        const char *uri = NULL;
        if (G_VALUE_HOLDS_STRING(value)) uri = g_value_get_string(value);
        else if (GST_VALUE_HOLDS_ARRAY(value) && gst_value_array_get_size(value) == 3) /* direction, URI, attributes */
            uri = g_value_get_string(gst_value_array_get_value(value, 1));
        if (uri) g_string_append_printf(lines->to, "a=extmap:%s %s\n", field + 7, uri);
    } else if (g_str_has_prefix(field, "a-") && G_VALUE_HOLDS_STRING(value) && field[2]) {
        const char *it = g_value_get_string(value);
        g_string_append_printf(lines->to, it[0] ? "a=%s:%s\n" : "a=%s\n", field + 2, it);
    } else if (g_str_has_prefix(field, "ssrc-group-") && G_VALUE_HOLDS_STRING(value)) {
        g_string_append_printf(lines->to, "a=ssrc-group:%s\n", g_value_get_string(value));
    }
    return TRUE;
}

static gboolean add_format(GString *attributes, GString *payloads, const GstStructure *from, GError **error) {
    int payload = -1, rate = 0;
    g_autofree gchar *name = text_of(from, "encoding-name"), *channels = text_of(from, "encoding-params"), *apt = text_of(from, "apt"),
                     *aligned = text_of(from, "octet-align");
    gst_structure_get_int(from, "payload", &payload);
    gst_structure_get_int(from, "clock-rate", &rate);
    if (payload < 0 || payload > 127) {
        g_set_error(error, GST_STREAM_ERROR, GST_STREAM_ERROR_FORMAT, "caps without payload=0 to 127");
        return FALSE;
    }
    g_string_append_printf(payloads, " %d", payload);
    if (name) {
        if (rate <= 0) {
            g_set_error(error, GST_STREAM_ERROR, GST_STREAM_ERROR_FORMAT, "caps of payload %d without clock-rate", payload);
            return FALSE;
        }
        g_string_append_printf(attributes, "a=rtpmap:%d %s/%d%s%s\n", payload, name, rate, channels ? "/" : "", channels ? channels : "");
    }
    if (apt) g_string_append_printf(attributes, "a=fmtp:%d apt=%s\n", payload, apt);
    if (aligned) g_string_append_printf(attributes, "a=fmtp:%d octet-align=%s\n", payload, aligned);
    Lines lines = {attributes, payload};
    gst_structure_foreach(from, add_line, &lines);
    return TRUE;
}

gchar *cpay_sdp_of_caps(const GstCaps *caps, GError **error) {
    GString *to = g_string_new("v=0\n");
    static const char *const kinds[] = {"audio", "video"};
    for (guint kind = 0; kind < 2; kind++) {
        g_autoptr(GString) attributes = g_string_new(NULL);
        g_autoptr(GString) payloads = g_string_new(NULL);
        for (guint i = 0; i < gst_caps_get_size(caps); i++) {
            const GstStructure *from = gst_caps_get_structure(caps, i);
            const char *media = gst_structure_get_string(from, "media");
            if (!gst_structure_has_name(from, "application/x-rtp")) continue;
            if (g_strcmp0(media ? media : "video", kinds[kind]) != 0) continue;
            if (!add_format(attributes, payloads, from, error)) {
                g_string_free(to, TRUE);
                return NULL;
            }
        }
        if (payloads->len) g_string_append_printf(to, "m=%s 9 RTP/AVPF%s\n%s", kinds[kind], payloads->str, attributes->str);
    }
    return g_string_free(to, FALSE);
}

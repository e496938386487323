/* cpayvp8pay, cpayvp9pay, cpayav1pay, cpayopuspay, cpaypcmupay, cpaypcmapay, cpayg722pay, cpayamrwbpay: frames in, RTP packets out, a
 * buffer list for each frame. They are GstRTPBasePayload elements, so mtu, pt, ssrc, seqnum, timestamp-offset, stats, header extensions and
 * the negotiation of caps are those of every payloader.
 *
 * All packets of a frame lie in one block of memory, each with room for its RTP header in front. */
#include "cpay.h"

#include <gst/rtp/rtp.h>
#include <string.h>

#define GST_CAT_DEFAULT cpay_debug

enum { HEADER = 12 };

typedef struct {
    GstRTPBasePayload parent;
    cpay_packetizer packetizer;
    cpay_placed_packet *places;
    gsize places_len;
    /* properties */
    gboolean picture_ids, flexible;
    gint first_id;
} GstCpayPay;

typedef struct {
    GstRTPBasePayloadClass parent;
    const CpayCodec *codec;
} GstCpayPayClass;

enum { P_PICTURE_IDS = 1, P_FLEXIBLE, P_FIRST_ID };

static GObjectClass *parent_class;

#define CODEC_OF(it) (((GstCpayPayClass *)G_OBJECT_GET_CLASS(it))->codec)

/* The block of a frame's packets: freed with the last of them. */
typedef struct {
    gint users;
    guint8 bytes[];
} Block;

static void leave_block(gpointer block_) {
    Block *block = block_;
    if (g_atomic_int_dec_and_test(&block->users)) g_free(block);
}

static gboolean open_packetizer(GstCpayPay *it) {
    const CpayCodec *codec = CODEC_OF(it);
    cpay_spec spec = {.codec = codec->codec,
                      .rate = codec->rate,
                      .octet_align = codec->codec == CPAY_AMR_WB,
                      .vp8_ids = it->picture_ids,
                      .vp9_flexible = it->flexible,
                      .first_id = (uint16_t)(it->first_id < 0 ? g_random_int_range(0, 0x8000) : it->first_id)};
    cpay_packetizer_free(&it->packetizer);
    cpay_status status = cpay_packetizer_new(&it->packetizer, &spec);
    if (status) GST_ELEMENT_ERROR(it, RESOURCE, NO_SPACE_LEFT, (NULL), ("%s", cpay_status_text(status)));
    return status == CPAY_OK;
}

static gboolean set_caps(GstRTPBasePayload *base, GstCaps *caps) {
    GstCpayPay *it = (GstCpayPay *)base;
    const CpayCodec *codec = CODEC_OF(it);
    const char *form = gst_structure_get_string(gst_caps_get_structure(caps, 0), "stream-format");
    int channels = 2;
    if (form && !g_str_equal(form, "obu-stream")) return FALSE; /* AV1 of Annex B */
    if (!open_packetizer(it)) return FALSE;
    gst_rtp_base_payload_set_options(base, codec->media, !codec->is_static || base->pt != codec->payload_type, codec->encoding,
                                     codec->rate);
    if (codec->codec == CPAY_OPUS) {
        gst_structure_get_int(gst_caps_get_structure(caps, 0), "channels", &channels);
        return gst_rtp_base_payload_set_outcaps(base, "encoding-params", G_TYPE_STRING, "2", "sprop-stereo", G_TYPE_STRING,
                                                channels == 2 ? "1" : "0", NULL);
    }
    if (codec->codec == CPAY_AMR_WB)
        return gst_rtp_base_payload_set_outcaps(base, "encoding-params", G_TYPE_STRING, "1", "octet-align", G_TYPE_STRING, "1", NULL);
    return gst_rtp_base_payload_set_outcaps(base, NULL);
}

/* How a frame is cut. */
typedef struct {
    size_t mtu; /* of payloads */
    gboolean spurt;
} Cut;

/* Cuts a frame into a block. Returns NULL if the frame is refused, with the status. */
static Block *cut(GstCpayPay *it, const GstMapInfo *frame, Cut into, cpay_frame_room *room, cpay_status *status) {
    cpay_frame_cut how = {.mtu = into.mtu, .headroom = HEADER, .starts_talk_spurt = into.spurt};
    /* enough for nearly each frame of this size */
    size_t guess = frame->size + (frame->size / into.mtu + 8) * (HEADER + 24);
    for (int tries = 0; tries < 2; tries++) {
        Block *block = g_malloc(sizeof *block + guess);
        *status =
            cpay_packetize_into(&it->packetizer, &how, frame->data, frame->size, block->bytes, guess, it->places, it->places_len, room);
        if (*status == CPAY_OK) return block;
        g_free(block);
        if (*status != CPAY_TOO_SMALL) return NULL;
        guess = room->bytes;
        if (it->places_len < room->count) it->places = g_renew(cpay_placed_packet, it->places, room->count), it->places_len = room->count;
    }
    return NULL;
}

/* A packet of the block, with the first two bytes of its header; the base class writes the rest. */
static GstBuffer *packet_of(GstRTPBasePayload *base, Block *block, const cpay_placed_packet *place, const GstBuffer *frame) {
    gboolean audio = CODEC_OF(base)->media[0] == 'a';
    guint8 *at = block->bytes + place->offset - HEADER;
    gsize size = HEADER + place->bytes;
    memset(at, 0, HEADER);
    at[0] = 0x80;
    at[1] = (guint8)(base->pt | (place->marker ? 0x80 : 0));
    GstBuffer *packet = gst_buffer_new_wrapped_full(0, at, size, 0, size, block, leave_block);
    GST_BUFFER_PTS(packet) = GST_BUFFER_PTS(frame);
    GST_BUFFER_DTS(packet) = GST_BUFFER_DTS(frame);
    if (place->marker && !audio) GST_BUFFER_FLAG_SET(packet, GST_BUFFER_FLAG_MARKER);
    if (GST_BUFFER_FLAG_IS_SET(frame, GST_BUFFER_FLAG_DELTA_UNIT)) GST_BUFFER_FLAG_SET(packet, GST_BUFFER_FLAG_DELTA_UNIT);
    return packet;
}

static GstFlowReturn refuse(GstCpayPay *it, cpay_status status) {
    if (status == CPAY_OUT_OF_MEMORY) {
        GST_ELEMENT_ERROR(it, RESOURCE, NO_SPACE_LEFT, (NULL), ("%s", cpay_status_text(status)));
        return GST_FLOW_ERROR;
    }
    GST_ELEMENT_WARNING(it, STREAM, ENCODE, ("A frame cannot be sent"), ("%s", cpay_status_text(status)));
    return GST_FLOW_OK;
}

/* Whether a talk spurt begins, or something was lost before the frame. */
static gboolean is_discont(const GstBuffer *frame) {
    return GST_BUFFER_IS_DISCONT(frame) || GST_BUFFER_FLAG_IS_SET(frame, GST_BUFFER_FLAG_RESYNC);
}

static GstFlowReturn handle_buffer(GstRTPBasePayload *base, GstBuffer *buffer_) {
    GstCpayPay *it = (GstCpayPay *)base;
    g_autoptr(GstBuffer) buffer = buffer_;
    gboolean discont = is_discont(buffer), audio = CODEC_OF(it)->media[0] == 'a';
    cpay_frame_room room = {0, 0};
    cpay_status status = CPAY_OK;
    GstMapInfo frame;
    if (!gst_buffer_map(buffer, &frame, GST_MAP_READ)) return GST_FLOW_ERROR;
    guint mtu = GST_RTP_BASE_PAYLOAD_MTU(base) > HEADER ? GST_RTP_BASE_PAYLOAD_MTU(base) - HEADER : 1;
    Block *block = cut(it, &frame, (Cut){mtu, audio && discont}, &room, &status);
    gst_buffer_unmap(buffer, &frame);
    if (status) return refuse(it, status);
    if (!room.count) { /* a frame without packets */
        g_free(block);
        return GST_FLOW_OK;
    }
    GstBufferList *list = gst_buffer_list_new_sized((guint)room.count);
    block->users = (gint)room.count;
    for (size_t i = 0; i < room.count; i++) {
        GstBuffer *packet = packet_of(base, block, &it->places[i], buffer);
        if (discont && i == 0) GST_BUFFER_FLAG_SET(packet, GST_BUFFER_FLAG_DISCONT);
        gst_buffer_list_add(list, packet);
    }
    return gst_rtp_base_payload_push_list(base, list);
}

static GstStateChangeReturn change_state(GstElement *element, GstStateChange change) {
    GstCpayPay *it = (GstCpayPay *)element;
    GstStateChangeReturn result = GST_ELEMENT_CLASS(parent_class)->change_state(element, change);
    if (change == GST_STATE_CHANGE_PAUSED_TO_READY) cpay_packetizer_free(&it->packetizer);
    return result;
}

static void set_property(GObject *object, guint id, const GValue *value, GParamSpec *spec) {
    GstCpayPay *it = (GstCpayPay *)object;
    switch (id) {
    case P_PICTURE_IDS: it->picture_ids = g_value_get_boolean(value); break;
    case P_FLEXIBLE: it->flexible = g_value_get_boolean(value); break;
    case P_FIRST_ID: it->first_id = g_value_get_int(value); break;
    default: G_OBJECT_WARN_INVALID_PROPERTY_ID(object, id, spec);
    }
}

static void get_property(GObject *object, guint id, GValue *value, GParamSpec *spec) {
    GstCpayPay *it = (GstCpayPay *)object;
    switch (id) {
    case P_PICTURE_IDS: g_value_set_boolean(value, it->picture_ids); break;
    case P_FLEXIBLE: g_value_set_boolean(value, it->flexible); break;
    case P_FIRST_ID: g_value_set_int(value, it->first_id); break;
    default: G_OBJECT_WARN_INVALID_PROPERTY_ID(object, id, spec);
    }
}

static void finalize(GObject *object) {
    GstCpayPay *it = (GstCpayPay *)object;
    cpay_packetizer_free(&it->packetizer);
    g_free(it->places);
    parent_class->finalize(object);
}

static void install_properties(GObjectClass *object, const CpayCodec *codec) {
    const GParamFlags flags = G_PARAM_READWRITE | G_PARAM_STATIC_STRINGS | GST_PARAM_MUTABLE_READY;
    if (codec->codec == CPAY_VP8)
        g_object_class_install_property(
            object, P_PICTURE_IDS,
            g_param_spec_boolean("picture-ids", "Picture ids", "Send picture ids (RFC 7741, section 4.2)", TRUE, flags));
    if (codec->codec == CPAY_VP9)
        g_object_class_install_property(
            object, P_FLEXIBLE, g_param_spec_boolean("flexible", "Flexible mode", "Send in the flexible mode (RFC 9628)", FALSE, flags));
    if (codec->codec == CPAY_VP8 || codec->codec == CPAY_VP9)
        g_object_class_install_property(
            object, P_FIRST_ID,
            g_param_spec_int("picture-id-offset", "First picture id", "The first picture id; -1: random", -1, 0x7FFF, -1, flags));
}

static void install_pads(GstElementClass *element, const CpayCodec *codec) {
    g_autoptr(GstCaps) in = gst_caps_from_string(codec->caps);
    if (codec->codec == CPAY_OPUS) gst_caps_set_simple(in, "channels", GST_TYPE_INT_RANGE, 1, 2, NULL);
    if (codec->codec == CPAY_AV1) gst_structure_remove_field(gst_caps_get_structure(in, 0), "stream-format"); /* av1enc does not say it */
    g_autofree gchar *rtp =
        g_strdup_printf("application/x-rtp, media=(string)%s, payload=(int)[ 0, 127 ], clock-rate=(int)%u, encoding-name=(string)%s",
                        codec->media, codec->rate, codec->encoding);
    g_autoptr(GstCaps) out = gst_caps_from_string(rtp);
    gst_element_class_add_pad_template(element, gst_pad_template_new("sink", GST_PAD_SINK, GST_PAD_ALWAYS, in));
    gst_element_class_add_pad_template(element, gst_pad_template_new("src", GST_PAD_SRC, GST_PAD_ALWAYS, out));
    g_autofree gchar *long_name = g_strdup_printf("RTP %s payloader", codec->name);
    g_autofree gchar *text = g_strdup_printf("Cuts %s into RTP packets, by proved code", codec->name);
    gst_element_class_set_metadata(element, long_name, "Codec/Payloader/Network/RTP", text, "codec-payload-core");
}

static void class_init(gpointer class_, gpointer codec) {
    GstCpayPayClass *class = class_;
    GObjectClass *object = G_OBJECT_CLASS(class);
    class->codec = codec;
    parent_class = g_type_class_peek_parent(class);
    object->set_property = set_property;
    object->get_property = get_property;
    object->finalize = finalize;
    GST_ELEMENT_CLASS(class)->change_state = change_state;
    class->parent.set_caps = set_caps;
    class->parent.handle_buffer = handle_buffer;
    install_properties(object, codec);
    install_pads(GST_ELEMENT_CLASS(class), codec);
}

static void init(GTypeInstance *instance, gpointer class) {
    GstCpayPay *it = (GstCpayPay *)instance;
    GstRTPBasePayload *base = GST_RTP_BASE_PAYLOAD(it);
    (void)class;
    it->picture_ids = TRUE, it->first_id = -1;
    it->places_len = 32;
    it->places = g_new0(cpay_placed_packet, it->places_len);
    base->pt = ((GstCpayPayClass *)class)->codec->payload_type;
}

gboolean cpay_register_payloaders(GstPlugin *plugin) {
    gboolean fine = TRUE;
    for (const CpayCodec *codec = cpay_codecs; codec->element; codec++) {
        GTypeInfo info = {.class_size = sizeof(GstCpayPayClass),
                          .class_init = class_init,
                          .class_data = codec,
                          .instance_size = sizeof(GstCpayPay),
                          .instance_init = init};
        g_autofree gchar *type_name = g_strdup_printf("GstCpayPay_%s", codec->element);
        g_autofree gchar *name = g_strdup_printf("cpay%spay", codec->element);
        fine = fine &&
               gst_element_register(plugin, name, GST_RANK_NONE, g_type_register_static(GST_TYPE_RTP_BASE_PAYLOAD, type_name, &info, 0));
    }
    return fine;
}

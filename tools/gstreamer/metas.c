/* Header extensions and payload descriptors, as GStreamer has them. The audio level is a GstAudioLevelMeta, the capture time a
 * GstReferenceTimestampMeta with timestamp/x-ntp, and the orientation a tag. The custom meta GstCpayUnitMeta has all else. */
#include "session.h"

#include <gst/audio/audio.h>

#define META "GstCpayUnitMeta"

void cpay_register_metas(void) {
    static const gchar *tags[] = {NULL};
    static gsize done = 0;
    if (!g_once_init_enter(&done)) return;
    gst_meta_register_custom(META, tags, NULL, NULL, NULL);
    g_once_init_leave(&done, 1);
}

/* The byte of 3GPP TS 26.114, section 7.4.5: R1 R0 are quarters of a turn clockwise, F is a horizontal flip. */
static const gchar *orientation_of(guint8 byte) {
    static const gchar *const names[] = {"rotate-0",      "rotate-90",      "rotate-180",      "rotate-270",
                                         "flip-rotate-0", "flip-rotate-90", "flip-rotate-180", "flip-rotate-270"};
    return names[byte & 7];
}

static void set_orientation(CpayStream *stream, guint8 byte) {
    if (stream->orientation == (byte & 7) + 1) return;
    stream->orientation = (guint8)((byte & 7) + 1);
    cpay_stream_enqueue(stream, gst_event_new_tag(gst_tag_list_new(GST_TAG_IMAGE_ORIENTATION, orientation_of(byte), NULL)));
}

/* Seconds since 1900, with their fraction in the low 32 bits. */
static void add_capture_time(GstBuffer *buffer, guint64 ntp) {
    static GstStaticCaps ntp_caps = GST_STATIC_CAPS("timestamp/x-ntp");
    g_autoptr(GstCaps) caps = gst_static_caps_get(&ntp_caps);
    GstClockTime time = (ntp >> 32) * GST_SECOND + gst_util_uint64_scale(ntp & G_MAXUINT32, GST_SECOND, G_GUINT64_CONSTANT(1) << 32);
    gst_buffer_add_reference_timestamp_meta(buffer, caps, time, GST_CLOCK_TIME_NONE);
}

static void add_timing(GstStructure *to, const cpay_video_timing *timing) {
    gst_structure_set(to, "encode-start", G_TYPE_UINT, (guint)timing->encode_start, "encode-finish", G_TYPE_UINT,
                      (guint)timing->encode_finish, "packetize-complete", G_TYPE_UINT, (guint)timing->packetize_complete, "last-left-pacer",
                      G_TYPE_UINT, (guint)timing->last_left_pacer, NULL);
}

static void add_ids(GstStructure *to, const cpay_extra *extra) {
    if (extra->has_picture_id) gst_structure_set(to, "picture-id", G_TYPE_UINT64, extra->picture_id, NULL);
    if (extra->has_tl0_picture_id) gst_structure_set(to, "tl0-picture-id", G_TYPE_UINT64, extra->tl0_picture_id, NULL);
    if (extra->has_temporal_layer) gst_structure_set(to, "temporal-layer", G_TYPE_UINT, (guint)extra->temporal_layer, NULL);
}

void cpay_add_metas(GstCpaySession *it, CpayStream *stream, const cpay_event *event, GstBuffer *buffer) {
    cpay_extension_values values;
    const cpay_unit *unit = &event->unit;
    GstCustomMeta *meta = gst_buffer_add_custom_meta(buffer, META);
    GstStructure *to = gst_custom_meta_get_structure(meta);
    gst_structure_set(to, "first-seqnum", G_TYPE_UINT64, unit->first, "last-seqnum", G_TYPE_UINT64, unit->last, "rtp-time", G_TYPE_UINT64,
                      unit->rtp_time, NULL);
    add_ids(to, &unit->extra);
    if (cpay_session_values(&it->session, &values)) return;
    if (values.has_audio_level)
        gst_buffer_add_audio_level_meta(buffer, (guint8)-values.audio_level, values.has_voice_activity && values.voice_activity);
    if (values.has_abs_capture_time) add_capture_time(buffer, values.abs_capture_time);
    if (values.has_video_orientation) set_orientation(stream, values.video_orientation);
    if (values.has_video_content_type) gst_structure_set(to, "screen", G_TYPE_BOOLEAN, values.video_content_type == 1, NULL);
    if (values.has_video_timing) add_timing(to, &values.video_timing);
}

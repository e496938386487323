/* Formats of a section that go together, and the settings of a port with FEC: for sdp.c. */
#ifndef SDP_FEC_H
#define SDP_FEC_H

#include "sdp_text.h"

static bool is_video(uint32_t codec) { return codec == CPAY_VP8 || codec == CPAY_VP9 || codec == CPAY_AV1; }

/* Whether the payload type is RTCP's on the same port, if a marker is set (RFC 5761, section 4). */
static bool is_reserved(uint8_t payload_type) { return payload_type >= 64 && payload_type <= 95; }

/* The first retransmissions of a payload type. Returns whether there are any. */
static bool retransmission_of(const cpay_sdp_media *media, uint8_t payload_type, uint8_t *found) {
    for (size_t i = 0; i < media->format_count; i++) {
        const cpay_sdp_format *format = &media->formats[i];
        if (format->role != CPAY_SDP_RETRANSMISSION || !format->has_of || format->of != payload_type) continue;
        *found = format->payload_type;
        return true;
    }
    return false;
}

static bool is_ulpfec(const cpay_sdp_format *format) {
    return format->role == CPAY_SDP_FEC && same((text){format->name, strlen(format->name)}, "ulpfec");
}

/* Writes the payload types of RED and of ULPFEC, if the section has video with both. */
static bool fec_types(const cpay_sdp_media *media, cpay_fec_port_settings *settings) {
    const cpay_sdp_format *red = NULL, *fec = NULL;
    bool has_video = false;
    for (size_t i = 0; i < media->format_count; i++) {
        const cpay_sdp_format *format = &media->formats[i];
        has_video = has_video || (format->role == CPAY_SDP_MEDIA && is_video(format->codec));
        if (!red && format->role == CPAY_SDP_RED && !format->has_of) red = format;
        if (!fec && is_ulpfec(format)) fec = format;
    }
    if (!has_video || !red || !fec) return false;
    settings->red_type = red->payload_type;
    settings->fec_type = fec->payload_type;
    return true;
}

/* Writes the payload types of retransmissions, and the ids of the extensions that senders fill in late. */
static void set_fec_port(cpay_sdp_fec_port_settings *port, const cpay_sdp_media *media) {
    cpay_fec_port_settings *settings = &port->settings;
    settings->has_red_retransmission = retransmission_of(media, settings->red_type, &settings->red_retransmission);
    for (size_t i = 0; i < media->format_count; i++) {
        cpay_retransmission_type pair = {media->formats[i].payload_type, 0};
        if (media->formats[i].role != CPAY_SDP_MEDIA || !retransmission_of(media, pair.media, &pair.retransmission)) continue;
        port->retransmissions[port->retransmissions_len++] = pair;
    }
    settings->transport_number = media->transport_cc_id;
    settings->abs_send_time = media->send_time_id;
    settings->transmission_offset = media->offset_id;
    settings->video_timing = media->extension_ids.video_timing;
}

/* Whether a payload type of the settings is reserved. */
static bool has_reserved(const cpay_sdp_fec_port_settings *port) {
    const cpay_fec_port_settings *settings = &port->settings;
    if (is_reserved(settings->red_type) || is_reserved(settings->fec_type)) return true;
    if (settings->has_red_retransmission && is_reserved(settings->red_retransmission)) return true;
    for (size_t i = 0; i < port->retransmissions_len; i++)
        if (is_reserved(port->retransmissions[i].media) || is_reserved(port->retransmissions[i].retransmission)) return true;
    return false;
}

#endif

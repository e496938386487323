/* The calls of codec_payload.h over the proved calls, which accept a handle of any type and no NULL. Here NULL with a length of 0
 * becomes a valid pointer; NULL with another length is refused. Written by c/check_header.py --calls. */
#include "codec_payload.h"

typedef char status_is_four_bytes[sizeof(cpay_status) == 4 ? 1 : -1];

/* Bytes of length 0 begin here. Nothing reads or writes it. */
static uint64_t nothing[2];

uint32_t cpay_version(void) { return CPAY_VERSION; }

void proved_cpay_free(cpay_handle *handle);
void proved_cpay_path_object_free(cpay_handle *handle);

void cpay_packetizer_free(cpay_packetizer *packetizer) {
    if (packetizer) proved_cpay_free(&packetizer->handle);
}

void cpay_buffer_free(cpay_buffer *buffer) {
    if (buffer) proved_cpay_free(&buffer->handle);
}

void cpay_depacketizer_free(cpay_depacketizer *depacketizer) {
    if (depacketizer) proved_cpay_free(&depacketizer->handle);
}

void cpay_red_sender_free(cpay_red_sender *sender) {
    if (sender) proved_cpay_free(&sender->handle);
}

void cpay_sender_free(cpay_sender *sender) {
    if (sender) proved_cpay_free(&sender->handle);
}

void cpay_history_free(cpay_history *history) {
    if (history) proved_cpay_free(&history->handle);
}

void cpay_forwarder_free(cpay_forwarder *forwarder) {
    if (forwarder) proved_cpay_free(&forwarder->handle);
}

void cpay_receiver_free(cpay_receiver *receiver) {
    if (receiver) proved_cpay_free(&receiver->handle);
}

void cpay_adaptive_wait_free(cpay_adaptive_wait *wait) {
    if (wait) proved_cpay_free(&wait->handle);
}

void cpay_freezes_free(cpay_freezes *freezes) {
    if (freezes) proved_cpay_free(&freezes->handle);
}

void cpay_transport_reporter_free(cpay_transport_reporter *reporter) {
    if (reporter) proved_cpay_free(&reporter->handle);
}

void cpay_sent_packets_free(cpay_sent_packets *packets) {
    if (packets) proved_cpay_free(&packets->handle);
}

void cpay_path_free(cpay_path *path) {
    if (path) proved_cpay_path_object_free(&path->handle);
}

void cpay_resend_limit_free(cpay_resend_limit *limit) {
    if (limit) proved_cpay_path_object_free(&limit->handle);
}

void cpay_rate_offer_free(cpay_rate_offer *offer) {
    if (offer) proved_cpay_path_object_free(&offer->handle);
}

void cpay_packet_store_free(cpay_packet_store *store) {
    if (store) proved_cpay_path_object_free(&store->handle);
}

void cpay_fec_receiver_free(cpay_fec_receiver *receiver) {
    if (receiver) proved_cpay_path_object_free(&receiver->handle);
}

void cpay_fec_port_free(cpay_fec_port *port) {
    if (port) proved_cpay_path_object_free(&port->handle);
}

void cpay_fec_sender_free(cpay_fec_sender *sender) {
    if (sender) proved_cpay_path_object_free(&sender->handle);
}

void cpay_session_free(cpay_session *session) {
    if (session) proved_cpay_free(&session->handle);
}

cpay_status proved_cpay_packetizer_new(cpay_handle *packetizer, const cpay_spec *spec);
cpay_status cpay_packetizer_new(cpay_packetizer *packetizer, const cpay_spec *spec) {
    return proved_cpay_packetizer_new(&packetizer->handle, spec);
}

cpay_status proved_cpay_packetize(cpay_handle *packetizer, size_t mtu, bool starts_talk_spurt, const uint8_t *frame,
                                  size_t frame_len, size_t *count);
cpay_status cpay_packetize(cpay_packetizer *packetizer, size_t mtu, bool starts_talk_spurt, const uint8_t *frame,
                           size_t frame_len, size_t *count) {
    if (!frame && frame_len) return CPAY_INVALID;
    return proved_cpay_packetize(&packetizer->handle, mtu, starts_talk_spurt, frame ? frame : (const uint8_t *)nothing,
                                 frame_len, count);
}

cpay_status proved_cpay_packet(cpay_handle *packetizer, cpay_packet_info *info, uint8_t *bytes, size_t bytes_len);
cpay_status cpay_packet(cpay_packetizer *packetizer, cpay_packet_info *info, uint8_t *bytes, size_t bytes_len) {
    if (!bytes && bytes_len) return CPAY_INVALID;
    return proved_cpay_packet(&packetizer->handle, info, bytes ? bytes : (uint8_t *)nothing, bytes_len);
}

cpay_status proved_cpay_packetize_into(cpay_handle *packetizer, const cpay_frame_cut *cut, const uint8_t *frame,
                                       size_t frame_len, uint8_t *bytes, size_t bytes_len, cpay_placed_packet *packets,
                                       size_t packets_len, cpay_frame_room *room);
cpay_status cpay_packetize_into(cpay_packetizer *packetizer, const cpay_frame_cut *cut, const uint8_t *frame, size_t frame_len,
                                uint8_t *bytes, size_t bytes_len, cpay_placed_packet *packets, size_t packets_len,
                                cpay_frame_room *room) {
    if ((!frame && frame_len) || (!bytes && bytes_len) || (!packets && packets_len)) return CPAY_INVALID;
    return proved_cpay_packetize_into(&packetizer->handle, cut, frame ? frame : (const uint8_t *)nothing, frame_len,
                                      bytes ? bytes : (uint8_t *)nothing, bytes_len,
                                      packets ? packets : (cpay_placed_packet *)nothing, packets_len, room);
}

cpay_status proved_cpay_buffer_new(cpay_handle *buffer, const cpay_spec *spec, size_t hold_back, size_t limit);
cpay_status cpay_buffer_new(cpay_buffer *buffer, const cpay_spec *spec, size_t hold_back, size_t limit) {
    return proved_cpay_buffer_new(&buffer->handle, spec, hold_back, limit);
}

cpay_status proved_cpay_buffer_push(cpay_handle *buffer, const cpay_received *packet, const uint8_t *payload,
                                    size_t payload_len);
cpay_status cpay_buffer_push(cpay_buffer *buffer, const cpay_received *packet, const uint8_t *payload, size_t payload_len) {
    if (!payload && payload_len) return CPAY_INVALID;
    return proved_cpay_buffer_push(&buffer->handle, packet, payload ? payload : (const uint8_t *)nothing, payload_len);
}

cpay_status proved_cpay_buffer_pop(cpay_handle *buffer, cpay_unit *unit, uint8_t *bytes, size_t bytes_len);
cpay_status cpay_buffer_pop(cpay_buffer *buffer, cpay_unit *unit, uint8_t *bytes, size_t bytes_len) {
    if (!bytes && bytes_len) return CPAY_INVALID;
    return proved_cpay_buffer_pop(&buffer->handle, unit, bytes ? bytes : (uint8_t *)nothing, bytes_len);
}

cpay_status proved_cpay_buffer_counts(cpay_handle *buffer, cpay_buffer_counts_info *counts);
cpay_status cpay_buffer_counts(cpay_buffer *buffer, cpay_buffer_counts_info *counts) {
    return proved_cpay_buffer_counts(&buffer->handle, counts);
}

cpay_status proved_cpay_buffer_set_hold_back(cpay_handle *buffer, size_t hold_back);
cpay_status cpay_buffer_set_hold_back(cpay_buffer *buffer, size_t hold_back) {
    return proved_cpay_buffer_set_hold_back(&buffer->handle, hold_back);
}

cpay_status proved_cpay_buffer_skip_number(cpay_handle *buffer, uint64_t number);
cpay_status cpay_buffer_skip_number(cpay_buffer *buffer, uint64_t number) {
    return proved_cpay_buffer_skip_number(&buffer->handle, number);
}

bool proved_cpay_is_rtcp(const uint8_t *datagram, size_t datagram_len);
bool cpay_is_rtcp(const uint8_t *datagram, size_t datagram_len) {
    if (!datagram && datagram_len) return false;
    return proved_cpay_is_rtcp(datagram ? datagram : (const uint8_t *)nothing, datagram_len);
}

cpay_status proved_cpay_rtp_read(const uint8_t *datagram, size_t datagram_len, cpay_rtp_info *packet);
cpay_status cpay_rtp_read(const uint8_t *datagram, size_t datagram_len, cpay_rtp_info *packet) {
    if (!datagram && datagram_len) return CPAY_INVALID;
    return proved_cpay_rtp_read(datagram ? datagram : (const uint8_t *)nothing, datagram_len, packet);
}

cpay_status proved_cpay_extension(const uint8_t *datagram, size_t datagram_len, uint8_t id, uint8_t *bytes, size_t bytes_len,
                                  size_t *size);
cpay_status cpay_extension(const uint8_t *datagram, size_t datagram_len, uint8_t id, uint8_t *bytes, size_t bytes_len,
                           size_t *size) {
    if ((!datagram && datagram_len) || (!bytes && bytes_len)) return CPAY_INVALID;
    return proved_cpay_extension(datagram ? datagram : (const uint8_t *)nothing, datagram_len, id,
                                 bytes ? bytes : (uint8_t *)nothing, bytes_len, size);
}

cpay_status proved_cpay_extension_values_of(const uint8_t *datagram, size_t datagram_len, const cpay_extension_ids *ids,
                                            cpay_extension_values *values);
cpay_status cpay_extension_values_of(const uint8_t *datagram, size_t datagram_len, const cpay_extension_ids *ids,
                                     cpay_extension_values *values) {
    if (!datagram && datagram_len) return CPAY_INVALID;
    return proved_cpay_extension_values_of(datagram ? datagram : (const uint8_t *)nothing, datagram_len, ids, values);
}

cpay_status proved_cpay_sender_new(cpay_handle *sender, const cpay_sender_settings *settings);
cpay_status cpay_sender_new(cpay_sender *sender, const cpay_sender_settings *settings) {
    return proved_cpay_sender_new(&sender->handle, settings);
}

cpay_status proved_cpay_sender_send(cpay_handle *sender, uint64_t rtp_time, bool starts_talk_spurt, const uint8_t *frame,
                                    size_t frame_len, size_t *count);
cpay_status cpay_sender_send(cpay_sender *sender, uint64_t rtp_time, bool starts_talk_spurt, const uint8_t *frame,
                             size_t frame_len, size_t *count) {
    if (!frame && frame_len) return CPAY_INVALID;
    return proved_cpay_sender_send(&sender->handle, rtp_time, starts_talk_spurt, frame ? frame : (const uint8_t *)nothing,
                                   frame_len, count);
}

cpay_status proved_cpay_sender_send_sample(cpay_handle *sender, const cpay_sample *sample, const uint8_t *frame,
                                           size_t frame_len, size_t *count);
cpay_status cpay_sender_send_sample(cpay_sender *sender, const cpay_sample *sample, const uint8_t *frame, size_t frame_len,
                                    size_t *count) {
    if (!frame && frame_len) return CPAY_INVALID;
    return proved_cpay_sender_send_sample(&sender->handle, sample, frame ? frame : (const uint8_t *)nothing, frame_len, count);
}

cpay_status proved_cpay_sender_datagram(cpay_handle *sender, size_t place, uint8_t *bytes, size_t bytes_len, size_t *size);
cpay_status cpay_sender_datagram(cpay_sender *sender, size_t place, uint8_t *bytes, size_t bytes_len, size_t *size) {
    if (!bytes && bytes_len) return CPAY_INVALID;
    return proved_cpay_sender_datagram(&sender->handle, place, bytes ? bytes : (uint8_t *)nothing, bytes_len, size);
}

cpay_status proved_cpay_sender_datagram_with_tail(cpay_handle *sender, size_t place, size_t tail, uint8_t *bytes,
                                                  size_t bytes_len, size_t *size);
cpay_status cpay_sender_datagram_with_tail(cpay_sender *sender, size_t place, size_t tail, uint8_t *bytes, size_t bytes_len,
                                           size_t *size) {
    if (!bytes && bytes_len) return CPAY_INVALID;
    return proved_cpay_sender_datagram_with_tail(&sender->handle, place, tail, bytes ? bytes : (uint8_t *)nothing, bytes_len,
                                                 size);
}

cpay_status proved_cpay_sender_set_format(cpay_handle *sender, const cpay_spec *spec, uint8_t payload_type);
cpay_status cpay_sender_set_format(cpay_sender *sender, const cpay_spec *spec, uint8_t payload_type) {
    return proved_cpay_sender_set_format(&sender->handle, spec, payload_type);
}

cpay_status proved_cpay_sender_counts(cpay_handle *sender, cpay_sender_counts_info *counts);
cpay_status cpay_sender_counts(cpay_sender *sender, cpay_sender_counts_info *counts) {
    return proved_cpay_sender_counts(&sender->handle, counts);
}

cpay_status proved_cpay_sender_report(cpay_handle *sender, uint64_t now, cpay_sender_report_info *report);
cpay_status cpay_sender_report(cpay_sender *sender, uint64_t now, cpay_sender_report_info *report) {
    return proved_cpay_sender_report(&sender->handle, now, report);
}

cpay_status proved_cpay_history_new(cpay_handle *history, const cpay_history_settings *settings);
cpay_status cpay_history_new(cpay_history *history, const cpay_history_settings *settings) {
    return proved_cpay_history_new(&history->handle, settings);
}

cpay_status proved_cpay_history_keep(cpay_handle *history, const uint8_t *datagram, size_t datagram_len, cpay_kept *kept);
cpay_status cpay_history_keep(cpay_history *history, const uint8_t *datagram, size_t datagram_len, cpay_kept *kept) {
    cpay_kept no_kept = (cpay_kept)0;
    if (!datagram && datagram_len) return CPAY_INVALID;
    return proved_cpay_history_keep(&history->handle, datagram ? datagram : (const uint8_t *)nothing, datagram_len,
                                    kept ? kept : &no_kept);
}

cpay_status proved_cpay_history_keep_once(cpay_handle *history, const uint8_t *datagram, size_t datagram_len,
                                          cpay_kept_once *kept);
cpay_status cpay_history_keep_once(cpay_history *history, const uint8_t *datagram, size_t datagram_len, cpay_kept_once *kept) {
    if (!datagram && datagram_len) return CPAY_INVALID;
    return proved_cpay_history_keep_once(&history->handle, datagram ? datagram : (const uint8_t *)nothing, datagram_len, kept);
}

cpay_status proved_cpay_rtx_original(uint32_t ssrc, uint8_t payload_type, const uint8_t *datagram, size_t datagram_len,
                                     uint8_t *bytes, size_t bytes_len, size_t *size);
cpay_status cpay_rtx_original(uint32_t ssrc, uint8_t payload_type, const uint8_t *datagram, size_t datagram_len, uint8_t *bytes,
                              size_t bytes_len, size_t *size) {
    if ((!datagram && datagram_len) || (!bytes && bytes_len)) return CPAY_INVALID;
    return proved_cpay_rtx_original(ssrc, payload_type, datagram ? datagram : (const uint8_t *)nothing, datagram_len,
                                    bytes ? bytes : (uint8_t *)nothing, bytes_len, size);
}

cpay_status proved_cpay_history_resend(cpay_handle *history, uint64_t now, uint16_t number, uint8_t *bytes, size_t bytes_len,
                                       size_t *size, cpay_resent *resent);
cpay_status cpay_history_resend(cpay_history *history, uint64_t now, uint16_t number, uint8_t *bytes, size_t bytes_len,
                                size_t *size, cpay_resent *resent) {
    if (!bytes && bytes_len) return CPAY_INVALID;
    return proved_cpay_history_resend(&history->handle, now, number, bytes ? bytes : (uint8_t *)nothing, bytes_len, size,
                                      resent);
}

cpay_status proved_cpay_read_requests(const uint8_t *rtcp, size_t rtcp_len, uint32_t ssrc, bool full, uint16_t *numbers,
                                      size_t numbers_len, size_t *count, bool *wants_keyframe);
cpay_status cpay_read_requests(const uint8_t *rtcp, size_t rtcp_len, uint32_t ssrc, bool full, uint16_t *numbers,
                               size_t numbers_len, size_t *count, bool *wants_keyframe) {
    if ((!rtcp && rtcp_len) || (!numbers && numbers_len)) return CPAY_INVALID;
    return proved_cpay_read_requests(rtcp ? rtcp : (const uint8_t *)nothing, rtcp_len, ssrc, full,
                                     numbers ? numbers : (uint16_t *)nothing, numbers_len, count, wants_keyframe);
}

void proved_cpay_forwarder_settings_init(cpay_forwarder_settings *settings, cpay_codec codec, uint32_t ssrc,
                                         uint8_t payload_type);
void cpay_forwarder_settings_init(cpay_forwarder_settings *settings, cpay_codec codec, uint32_t ssrc, uint8_t payload_type) {
    proved_cpay_forwarder_settings_init(settings, codec, ssrc, payload_type);
}

cpay_status proved_cpay_forwarder_new(cpay_handle *forwarder, const cpay_forwarder_settings *settings);
cpay_status cpay_forwarder_new(cpay_forwarder *forwarder, const cpay_forwarder_settings *settings) {
    return proved_cpay_forwarder_new(&forwarder->handle, settings);
}

cpay_status proved_cpay_forwarder_want(cpay_handle *forwarder, uint32_t ssrc);
cpay_status cpay_forwarder_want(cpay_forwarder *forwarder, uint32_t ssrc) {
    return proved_cpay_forwarder_want(&forwarder->handle, ssrc);
}

cpay_status proved_cpay_forwarder_mute(cpay_handle *forwarder);
cpay_status cpay_forwarder_mute(cpay_forwarder *forwarder) {
    return proved_cpay_forwarder_mute(&forwarder->handle);
}

cpay_status proved_cpay_forwarder_source(cpay_handle *forwarder, uint32_t *ssrc);
cpay_status cpay_forwarder_source(cpay_forwarder *forwarder, uint32_t *ssrc) {
    return proved_cpay_forwarder_source(&forwarder->handle, ssrc);
}

cpay_status proved_cpay_forwarder_wanted(cpay_handle *forwarder, uint32_t *ssrc);
cpay_status cpay_forwarder_wanted(cpay_forwarder *forwarder, uint32_t *ssrc) {
    return proved_cpay_forwarder_wanted(&forwarder->handle, ssrc);
}

cpay_status proved_cpay_forwarder_write(cpay_handle *forwarder, uint64_t now, const uint8_t *datagram, size_t datagram_len,
                                        uint8_t *bytes, size_t bytes_len, size_t *size, cpay_forwarded *forwarded);
cpay_status cpay_forwarder_write(cpay_forwarder *forwarder, uint64_t now, const uint8_t *datagram, size_t datagram_len,
                                 uint8_t *bytes, size_t bytes_len, size_t *size, cpay_forwarded *forwarded) {
    if ((!datagram && datagram_len) || (!bytes && bytes_len)) return CPAY_INVALID;
    return proved_cpay_forwarder_write(&forwarder->handle, now, datagram ? datagram : (const uint8_t *)nothing, datagram_len,
                                       bytes ? bytes : (uint8_t *)nothing, bytes_len, size, forwarded);
}

cpay_status proved_cpay_forwarder_leave_out(cpay_handle *forwarder, const uint8_t *datagram, size_t datagram_len,
                                            uint8_t *bytes, size_t bytes_len, size_t *size, cpay_forwarded *forwarded);
cpay_status cpay_forwarder_leave_out(cpay_forwarder *forwarder, const uint8_t *datagram, size_t datagram_len, uint8_t *bytes,
                                     size_t bytes_len, size_t *size, cpay_forwarded *forwarded) {
    if ((!datagram && datagram_len) || (!bytes && bytes_len)) return CPAY_INVALID;
    return proved_cpay_forwarder_leave_out(&forwarder->handle, datagram ? datagram : (const uint8_t *)nothing, datagram_len,
                                           bytes ? bytes : (uint8_t *)nothing, bytes_len, size, forwarded);
}

cpay_status proved_cpay_forwarder_resend(cpay_handle *forwarder, cpay_handle *history, uint16_t number, uint8_t *bytes,
                                         size_t bytes_len, size_t *size, cpay_resent *resent);
cpay_status cpay_forwarder_resend(cpay_forwarder *forwarder, cpay_history *history, uint16_t number, uint8_t *bytes,
                                  size_t bytes_len, size_t *size, cpay_resent *resent) {
    if (!bytes && bytes_len) return CPAY_INVALID;
    return proved_cpay_forwarder_resend(&forwarder->handle, &history->handle, number, bytes ? bytes : (uint8_t *)nothing,
                                        bytes_len, size, resent);
}

cpay_status proved_cpay_forwarder_counts(cpay_handle *forwarder, cpay_forwarder_counts_info *counts);
cpay_status cpay_forwarder_counts(cpay_forwarder *forwarder, cpay_forwarder_counts_info *counts) {
    return proved_cpay_forwarder_counts(&forwarder->handle, counts);
}

cpay_status proved_cpay_forwarder_report(cpay_handle *forwarder, uint32_t ssrc, uint32_t rtp_time,
                                         cpay_sender_report_info *report);
cpay_status cpay_forwarder_report(cpay_forwarder *forwarder, uint32_t ssrc, uint32_t rtp_time,
                                  cpay_sender_report_info *report) {
    return proved_cpay_forwarder_report(&forwarder->handle, ssrc, rtp_time, report);
}

void proved_cpay_receiver_settings_init(cpay_receiver_settings *settings, cpay_codec codec, uint32_t rate, uint8_t payload_type,
                                        cpay_purpose purpose);
void cpay_receiver_settings_init(cpay_receiver_settings *settings, cpay_codec codec, uint32_t rate, uint8_t payload_type,
                                 cpay_purpose purpose) {
    proved_cpay_receiver_settings_init(settings, codec, rate, payload_type, purpose);
}

cpay_status proved_cpay_receiver_new(cpay_handle *receiver, const cpay_receiver_settings *settings, const uint8_t *no_media,
                                     size_t no_media_len);
cpay_status cpay_receiver_new(cpay_receiver *receiver, const cpay_receiver_settings *settings, const uint8_t *no_media,
                              size_t no_media_len) {
    if (!no_media && no_media_len) return CPAY_INVALID;
    return proved_cpay_receiver_new(&receiver->handle, settings, no_media ? no_media : (const uint8_t *)nothing, no_media_len);
}

cpay_status proved_cpay_receiver_receive(cpay_handle *receiver, uint64_t now, const uint8_t *datagram, size_t datagram_len,
                                         cpay_outcome *outcome);
cpay_status cpay_receiver_receive(cpay_receiver *receiver, uint64_t now, const uint8_t *datagram, size_t datagram_len,
                                  cpay_outcome *outcome) {
    if (!datagram && datagram_len) return CPAY_INVALID;
    return proved_cpay_receiver_receive(&receiver->handle, now, datagram ? datagram : (const uint8_t *)nothing, datagram_len,
                                        outcome);
}

cpay_status proved_cpay_receiver_pop(cpay_handle *receiver, uint64_t now, cpay_unit *unit, uint8_t *bytes, size_t bytes_len);
cpay_status cpay_receiver_pop(cpay_receiver *receiver, uint64_t now, cpay_unit *unit, uint8_t *bytes, size_t bytes_len) {
    if (!bytes && bytes_len) return CPAY_INVALID;
    return proved_cpay_receiver_pop(&receiver->handle, now, unit, bytes ? bytes : (uint8_t *)nothing, bytes_len);
}

cpay_status proved_cpay_receiver_lend(cpay_handle *receiver, uint64_t now, cpay_unit *unit, const uint8_t **at);
cpay_status cpay_receiver_lend(cpay_receiver *receiver, uint64_t now, cpay_unit *unit, const uint8_t **at) {
    return proved_cpay_receiver_lend(&receiver->handle, now, unit, at);
}

cpay_status proved_cpay_receiver_values(cpay_handle *receiver, cpay_extension_values *values);
cpay_status cpay_receiver_values(cpay_receiver *receiver, cpay_extension_values *values) {
    return proved_cpay_receiver_values(&receiver->handle, values);
}

cpay_status proved_cpay_receiver_wants_keyframe(cpay_handle *receiver, bool *wants);
cpay_status cpay_receiver_wants_keyframe(cpay_receiver *receiver, bool *wants) {
    return proved_cpay_receiver_wants_keyframe(&receiver->handle, wants);
}

cpay_status proved_cpay_receiver_next_deadline(cpay_handle *receiver, uint64_t *at);
cpay_status cpay_receiver_next_deadline(cpay_receiver *receiver, uint64_t *at) {
    return proved_cpay_receiver_next_deadline(&receiver->handle, at);
}

cpay_status proved_cpay_receiver_set_wait_limits(cpay_handle *receiver, const cpay_wait_limits *wait_limits);
cpay_status cpay_receiver_set_wait_limits(cpay_receiver *receiver, const cpay_wait_limits *wait_limits) {
    return proved_cpay_receiver_set_wait_limits(&receiver->handle, wait_limits);
}

cpay_status proved_cpay_receiver_finish(cpay_handle *receiver);
cpay_status cpay_receiver_finish(cpay_receiver *receiver) {
    return proved_cpay_receiver_finish(&receiver->handle);
}

cpay_status proved_cpay_receiver_restart(cpay_handle *receiver);
cpay_status cpay_receiver_restart(cpay_receiver *receiver) {
    return proved_cpay_receiver_restart(&receiver->handle);
}

cpay_status proved_cpay_receiver_restart_as(cpay_handle *receiver, uint32_t ssrc, uint32_t rtx_ssrc);
cpay_status cpay_receiver_restart_as(cpay_receiver *receiver, uint32_t ssrc, uint32_t rtx_ssrc) {
    return proved_cpay_receiver_restart_as(&receiver->handle, ssrc, rtx_ssrc);
}

cpay_status proved_cpay_receiver_missing(cpay_handle *receiver, uint64_t *numbers, size_t numbers_len, size_t *count);
cpay_status cpay_receiver_missing(cpay_receiver *receiver, uint64_t *numbers, size_t numbers_len, size_t *count) {
    if (!numbers && numbers_len) return CPAY_INVALID;
    return proved_cpay_receiver_missing(&receiver->handle, numbers ? numbers : (uint64_t *)nothing, numbers_len, count);
}

cpay_status proved_cpay_receiver_report(cpay_handle *receiver, cpay_report_info *report);
cpay_status cpay_receiver_report(cpay_receiver *receiver, cpay_report_info *report) {
    return proved_cpay_receiver_report(&receiver->handle, report);
}

cpay_status proved_cpay_receiver_counts(cpay_handle *receiver, cpay_receiver_counts_info *counts);
cpay_status cpay_receiver_counts(cpay_receiver *receiver, cpay_receiver_counts_info *counts) {
    return proved_cpay_receiver_counts(&receiver->handle, counts);
}

void proved_cpay_adaptive_wait_settings_init(cpay_adaptive_wait_settings *settings);
void cpay_adaptive_wait_settings_init(cpay_adaptive_wait_settings *settings) {
    proved_cpay_adaptive_wait_settings_init(settings);
}

cpay_status proved_cpay_adaptive_wait_new(cpay_handle *wait, const cpay_adaptive_wait_settings *settings);
cpay_status cpay_adaptive_wait_new(cpay_adaptive_wait *wait, const cpay_adaptive_wait_settings *settings) {
    return proved_cpay_adaptive_wait_new(&wait->handle, settings);
}

cpay_status proved_cpay_adaptive_wait_arrived(cpay_handle *wait, uint64_t now, uint16_t number);
cpay_status cpay_adaptive_wait_arrived(cpay_adaptive_wait *wait, uint64_t now, uint16_t number) {
    return proved_cpay_adaptive_wait_arrived(&wait->handle, now, number);
}

cpay_status proved_cpay_adaptive_wait_missing(cpay_handle *wait, uint64_t now, const uint64_t *numbers, size_t numbers_len);
cpay_status cpay_adaptive_wait_missing(cpay_adaptive_wait *wait, uint64_t now, const uint64_t *numbers, size_t numbers_len) {
    if (!numbers && numbers_len) return CPAY_INVALID;
    return proved_cpay_adaptive_wait_missing(&wait->handle, now, numbers ? numbers : (const uint64_t *)nothing, numbers_len);
}

cpay_status proved_cpay_adaptive_wait_limit(cpay_handle *wait, uint64_t *limit);
cpay_status cpay_adaptive_wait_limit(cpay_adaptive_wait *wait, uint64_t *limit) {
    return proved_cpay_adaptive_wait_limit(&wait->handle, limit);
}

cpay_status proved_cpay_freezes_new(cpay_handle *freezes, uint32_t tick_rate);
cpay_status cpay_freezes_new(cpay_freezes *freezes, uint32_t tick_rate) {
    return proved_cpay_freezes_new(&freezes->handle, tick_rate);
}

cpay_status proved_cpay_freezes_shown(cpay_handle *freezes, uint64_t at);
cpay_status cpay_freezes_shown(cpay_freezes *freezes, uint64_t at) {
    return proved_cpay_freezes_shown(&freezes->handle, at);
}

cpay_status proved_cpay_freezes_counts(cpay_handle *freezes, cpay_freeze_counts_info *counts);
cpay_status cpay_freezes_counts(cpay_freezes *freezes, cpay_freeze_counts_info *counts) {
    return proved_cpay_freezes_counts(&freezes->handle, counts);
}

void proved_cpay_transport_reporter_settings_init(cpay_transport_reporter_settings *settings, uint8_t extension_id,
                                                  uint32_t ssrc);
void cpay_transport_reporter_settings_init(cpay_transport_reporter_settings *settings, uint8_t extension_id, uint32_t ssrc) {
    proved_cpay_transport_reporter_settings_init(settings, extension_id, ssrc);
}

cpay_status proved_cpay_transport_reporter_new(cpay_handle *reporter, const cpay_transport_reporter_settings *settings,
                                               const uint8_t *cname, size_t cname_len);
cpay_status cpay_transport_reporter_new(cpay_transport_reporter *reporter, const cpay_transport_reporter_settings *settings,
                                        const uint8_t *cname, size_t cname_len) {
    if (!cname && cname_len) return CPAY_INVALID;
    return proved_cpay_transport_reporter_new(&reporter->handle, settings, cname ? cname : (const uint8_t *)nothing, cname_len);
}

cpay_status proved_cpay_transport_reporter_receive(cpay_handle *reporter, uint64_t now, const uint8_t *datagram,
                                                   size_t datagram_len);
cpay_status cpay_transport_reporter_receive(cpay_transport_reporter *reporter, uint64_t now, const uint8_t *datagram,
                                            size_t datagram_len) {
    if (!datagram && datagram_len) return CPAY_INVALID;
    return proved_cpay_transport_reporter_receive(&reporter->handle, now, datagram ? datagram : (const uint8_t *)nothing,
                                                  datagram_len);
}

cpay_status proved_cpay_transport_reporter_poll(cpay_handle *reporter, uint64_t now, uint8_t *bytes, size_t bytes_len,
                                                size_t *size);
cpay_status cpay_transport_reporter_poll(cpay_transport_reporter *reporter, uint64_t now, uint8_t *bytes, size_t bytes_len,
                                         size_t *size) {
    if (!bytes && bytes_len) return CPAY_INVALID;
    return proved_cpay_transport_reporter_poll(&reporter->handle, now, bytes ? bytes : (uint8_t *)nothing, bytes_len, size);
}

cpay_status proved_cpay_transport_reporter_next_deadline(cpay_handle *reporter, uint64_t *at);
cpay_status cpay_transport_reporter_next_deadline(cpay_transport_reporter *reporter, uint64_t *at) {
    return proved_cpay_transport_reporter_next_deadline(&reporter->handle, at);
}

cpay_status proved_cpay_transport_reporter_restart(cpay_handle *reporter);
cpay_status cpay_transport_reporter_restart(cpay_transport_reporter *reporter) {
    return proved_cpay_transport_reporter_restart(&reporter->handle);
}

cpay_status proved_cpay_sent_packets_new(cpay_handle *packets, size_t limit);
cpay_status cpay_sent_packets_new(cpay_sent_packets *packets, size_t limit) {
    return proved_cpay_sent_packets_new(&packets->handle, limit);
}

cpay_status proved_cpay_sent_packets_assign(cpay_handle *packets, uint64_t now, uint16_t *number);
cpay_status cpay_sent_packets_assign(cpay_sent_packets *packets, uint64_t now, uint16_t *number) {
    return proved_cpay_sent_packets_assign(&packets->handle, now, number);
}

cpay_status proved_cpay_sent_packets_sent_at(cpay_handle *packets, uint16_t number, uint64_t *at);
cpay_status cpay_sent_packets_sent_at(cpay_sent_packets *packets, uint16_t number, uint64_t *at) {
    return proved_cpay_sent_packets_sent_at(&packets->handle, number, at);
}

cpay_status proved_cpay_number_datagram(uint8_t extension_id, uint16_t number, const uint8_t *datagram, size_t datagram_len,
                                        uint8_t *bytes, size_t bytes_len, size_t *size);
cpay_status cpay_number_datagram(uint8_t extension_id, uint16_t number, const uint8_t *datagram, size_t datagram_len,
                                 uint8_t *bytes, size_t bytes_len, size_t *size) {
    if ((!datagram && datagram_len) || (!bytes && bytes_len)) return CPAY_INVALID;
    return proved_cpay_number_datagram(extension_id, number, datagram ? datagram : (const uint8_t *)nothing, datagram_len,
                                       bytes ? bytes : (uint8_t *)nothing, bytes_len, size);
}

cpay_status proved_cpay_read_transport_feedback(const uint8_t *rtcp, size_t rtcp_len, bool full, size_t index,
                                                cpay_transport_feedback_info *info, cpay_packet_arrival *packets,
                                                size_t packets_len);
cpay_status cpay_read_transport_feedback(const uint8_t *rtcp, size_t rtcp_len, bool full, size_t index,
                                         cpay_transport_feedback_info *info, cpay_packet_arrival *packets, size_t packets_len) {
    if ((!rtcp && rtcp_len) || (!packets && packets_len)) return CPAY_INVALID;
    return proved_cpay_read_transport_feedback(rtcp ? rtcp : (const uint8_t *)nothing, rtcp_len, full, index, info,
                                               packets ? packets : (cpay_packet_arrival *)nothing, packets_len);
}

cpay_status proved_cpay_write_remb(uint32_t sender_ssrc, uint64_t bitrate, const uint32_t *ssrcs, size_t ssrcs_len,
                                   uint8_t *bytes, size_t bytes_len, size_t *size);
cpay_status cpay_write_remb(uint32_t sender_ssrc, uint64_t bitrate, const uint32_t *ssrcs, size_t ssrcs_len, uint8_t *bytes,
                            size_t bytes_len, size_t *size) {
    if ((!ssrcs && ssrcs_len) || (!bytes && bytes_len)) return CPAY_INVALID;
    return proved_cpay_write_remb(sender_ssrc, bitrate, ssrcs ? ssrcs : (const uint32_t *)nothing, ssrcs_len,
                                  bytes ? bytes : (uint8_t *)nothing, bytes_len, size);
}

cpay_status proved_cpay_read_remb(const uint8_t *rtcp, size_t rtcp_len, bool full, size_t index, uint64_t *bitrate,
                                  uint32_t *ssrcs, size_t ssrcs_len, size_t *count);
cpay_status cpay_read_remb(const uint8_t *rtcp, size_t rtcp_len, bool full, size_t index, uint64_t *bitrate, uint32_t *ssrcs,
                           size_t ssrcs_len, size_t *count) {
    if ((!rtcp && rtcp_len) || (!ssrcs && ssrcs_len)) return CPAY_INVALID;
    return proved_cpay_read_remb(rtcp ? rtcp : (const uint8_t *)nothing, rtcp_len, full, index, bitrate,
                                 ssrcs ? ssrcs : (uint32_t *)nothing, ssrcs_len, count);
}

void proved_cpay_path_settings_init(cpay_path_settings *settings);
void cpay_path_settings_init(cpay_path_settings *settings) {
    proved_cpay_path_settings_init(settings);
}

cpay_status proved_cpay_path_new(cpay_handle *path, uint64_t now, const cpay_path_settings *settings);
cpay_status cpay_path_new(cpay_path *path, uint64_t now, const cpay_path_settings *settings) {
    return proved_cpay_path_new(&path->handle, now, settings);
}

cpay_status proved_cpay_path_push(cpay_handle *path, const cpay_path_packet *packet);
cpay_status cpay_path_push(cpay_path *path, const cpay_path_packet *packet) {
    return proved_cpay_path_push(&path->handle, packet);
}

cpay_status proved_cpay_path_pop(cpay_handle *path, uint64_t now, cpay_path_leaving *leaving);
cpay_status cpay_path_pop(cpay_path *path, uint64_t now, cpay_path_leaving *leaving) {
    return proved_cpay_path_pop(&path->handle, now, leaving);
}

cpay_status proved_cpay_path_remove(cpay_handle *path, cpay_path_kind kind, cpay_path_packet *packet);
cpay_status cpay_path_remove(cpay_path *path, cpay_path_kind kind, cpay_path_packet *packet) {
    return proved_cpay_path_remove(&path->handle, kind, packet);
}

cpay_status proved_cpay_path_next_deadline(cpay_handle *path, uint64_t *deadline);
cpay_status cpay_path_next_deadline(cpay_path *path, uint64_t *deadline) {
    return proved_cpay_path_next_deadline(&path->handle, deadline);
}

cpay_status proved_cpay_path_resend(cpay_handle *path, uint64_t now, uint16_t number, uint32_t size, uint64_t round_trip,
                                    cpay_resend_answer *answer);
cpay_status cpay_path_resend(cpay_path *path, uint64_t now, uint16_t number, uint32_t size, uint64_t round_trip,
                             cpay_resend_answer *answer) {
    return proved_cpay_path_resend(&path->handle, now, number, size, round_trip, answer);
}

cpay_status proved_cpay_path_feedback(cpay_handle *path, uint64_t now, uint64_t round_trip, const uint8_t *rtcp,
                                      size_t rtcp_len, bool full, size_t index);
cpay_status cpay_path_feedback(cpay_path *path, uint64_t now, uint64_t round_trip, const uint8_t *rtcp, size_t rtcp_len,
                               bool full, size_t index) {
    if (!rtcp && rtcp_len) return CPAY_INVALID;
    return proved_cpay_path_feedback(&path->handle, now, round_trip, rtcp ? rtcp : (const uint8_t *)nothing, rtcp_len, full,
                                     index);
}

cpay_status proved_cpay_path_choose(cpay_handle *path, uint64_t now, const cpay_path_choice *choices, size_t choices_len,
                                    cpay_path_order_info *order);
cpay_status cpay_path_choose(cpay_path *path, uint64_t now, const cpay_path_choice *choices, size_t choices_len,
                             cpay_path_order_info *order) {
    if (!choices && choices_len) return CPAY_INVALID;
    return proved_cpay_path_choose(&path->handle, now, choices ? choices : (const cpay_path_choice *)nothing, choices_len,
                                   order);
}

cpay_status proved_cpay_path_state(cpay_handle *path, cpay_path_state_info *state);
cpay_status cpay_path_state(cpay_path *path, cpay_path_state_info *state) {
    return proved_cpay_path_state(&path->handle, state);
}

cpay_status proved_cpay_path_estimate(cpay_handle *path, cpay_path_estimate_info *info);
cpay_status cpay_path_estimate(cpay_path *path, cpay_path_estimate_info *info) {
    return proved_cpay_path_estimate(&path->handle, info);
}

cpay_status proved_cpay_path_lost(cpay_handle *path, const uint8_t *rtcp, size_t rtcp_len, bool full, size_t index,
                                  uint16_t *numbers, size_t numbers_len, size_t *count);
cpay_status cpay_path_lost(cpay_path *path, const uint8_t *rtcp, size_t rtcp_len, bool full, size_t index, uint16_t *numbers,
                           size_t numbers_len, size_t *count) {
    if ((!rtcp && rtcp_len) || (!numbers && numbers_len)) return CPAY_INVALID;
    return proved_cpay_path_lost(&path->handle, rtcp ? rtcp : (const uint8_t *)nothing, rtcp_len, full, index,
                                 numbers ? numbers : (uint16_t *)nothing, numbers_len, count);
}

cpay_status proved_cpay_path_take_back(cpay_handle *path, uint16_t number);
cpay_status cpay_path_take_back(cpay_path *path, uint16_t number) {
    return proved_cpay_path_take_back(&path->handle, number);
}

void proved_cpay_resend_limit_settings_init(cpay_resend_limit_settings *settings);
void cpay_resend_limit_settings_init(cpay_resend_limit_settings *settings) {
    proved_cpay_resend_limit_settings_init(settings);
}

cpay_status proved_cpay_resend_limit_new(cpay_handle *limit, const cpay_resend_limit_settings *settings);
cpay_status cpay_resend_limit_new(cpay_resend_limit *limit, const cpay_resend_limit_settings *settings) {
    return proved_cpay_resend_limit_new(&limit->handle, settings);
}

cpay_status proved_cpay_resend_limit_sent(cpay_handle *limit, uint64_t now, uint32_t size);
cpay_status cpay_resend_limit_sent(cpay_resend_limit *limit, uint64_t now, uint32_t size) {
    return proved_cpay_resend_limit_sent(&limit->handle, now, size);
}

cpay_status proved_cpay_resend_limit_ask(cpay_handle *limit, uint64_t now, uint16_t number, uint32_t size, uint64_t round_trip,
                                         cpay_resend_answer *answer);
cpay_status cpay_resend_limit_ask(cpay_resend_limit *limit, uint64_t now, uint16_t number, uint32_t size, uint64_t round_trip,
                                  cpay_resend_answer *answer) {
    return proved_cpay_resend_limit_ask(&limit->handle, now, number, size, round_trip, answer);
}

void proved_cpay_rate_offer_settings_init(cpay_rate_offer_settings *settings);
void cpay_rate_offer_settings_init(cpay_rate_offer_settings *settings) {
    proved_cpay_rate_offer_settings_init(settings);
}

cpay_status proved_cpay_rate_offer_new(cpay_handle *offer, const cpay_rate_offer_settings *settings);
cpay_status cpay_rate_offer_new(cpay_rate_offer *offer, const cpay_rate_offer_settings *settings) {
    return proved_cpay_rate_offer_new(&offer->handle, settings);
}

cpay_status proved_cpay_rate_offer_arrived(cpay_handle *offer, uint64_t now, uint32_t abs_send_time, uint32_t size);
cpay_status cpay_rate_offer_arrived(cpay_rate_offer *offer, uint64_t now, uint32_t abs_send_time, uint32_t size) {
    return proved_cpay_rate_offer_arrived(&offer->handle, now, abs_send_time, size);
}

cpay_status proved_cpay_rate_offer_arrived_by(cpay_handle *offer, uint64_t now, uint64_t sent, uint32_t size);
cpay_status cpay_rate_offer_arrived_by(cpay_rate_offer *offer, uint64_t now, uint64_t sent, uint32_t size) {
    return proved_cpay_rate_offer_arrived_by(&offer->handle, now, sent, size);
}

cpay_status proved_cpay_rate_offer_lost(cpay_handle *offer);
cpay_status cpay_rate_offer_lost(cpay_rate_offer *offer) {
    return proved_cpay_rate_offer_lost(&offer->handle);
}

cpay_status proved_cpay_rate_offer_set_wants(cpay_handle *offer, uint64_t wants);
cpay_status cpay_rate_offer_set_wants(cpay_rate_offer *offer, uint64_t wants) {
    return proved_cpay_rate_offer_set_wants(&offer->handle, wants);
}

cpay_status proved_cpay_rate_offer_take_due(cpay_handle *offer, uint64_t now, uint64_t round_trip, uint64_t *rate);
cpay_status cpay_rate_offer_take_due(cpay_rate_offer *offer, uint64_t now, uint64_t round_trip, uint64_t *rate) {
    return proved_cpay_rate_offer_take_due(&offer->handle, now, round_trip, rate);
}

cpay_status proved_cpay_xr_receive(cpay_xr_exchange *exchange, uint32_t ssrc, uint32_t tick_rate, uint64_t now,
                                   const uint8_t *rtcp, size_t rtcp_len, bool full, bool *answered);
cpay_status cpay_xr_receive(cpay_xr_exchange *exchange, uint32_t ssrc, uint32_t tick_rate, uint64_t now, const uint8_t *rtcp,
                            size_t rtcp_len, bool full, bool *answered) {
    if (!rtcp && rtcp_len) return CPAY_INVALID;
    return proved_cpay_xr_receive(exchange, ssrc, tick_rate, now, rtcp ? rtcp : (const uint8_t *)nothing, rtcp_len, full,
                                  answered);
}

cpay_status proved_cpay_xr_write(const cpay_xr_exchange *exchange, uint32_t ssrc, uint32_t tick_rate, uint64_t now,
                                 uint8_t *bytes, size_t bytes_len, size_t *size);
cpay_status cpay_xr_write(const cpay_xr_exchange *exchange, uint32_t ssrc, uint32_t tick_rate, uint64_t now, uint8_t *bytes,
                          size_t bytes_len, size_t *size) {
    if (!bytes && bytes_len) return CPAY_INVALID;
    return proved_cpay_xr_write(exchange, ssrc, tick_rate, now, bytes ? bytes : (uint8_t *)nothing, bytes_len, size);
}

bool proved_cpay_xr_sent(cpay_xr_exchange *exchange);
bool cpay_xr_sent(cpay_xr_exchange *exchange) {
    return proved_cpay_xr_sent(exchange);
}

cpay_status proved_cpay_ccfb_read(const uint8_t *rtcp, size_t rtcp_len, bool full, size_t index, size_t stream,
                                  cpay_ccfb_info *info, cpay_ccfb_packet *packets, size_t packets_len);
cpay_status cpay_ccfb_read(const uint8_t *rtcp, size_t rtcp_len, bool full, size_t index, size_t stream, cpay_ccfb_info *info,
                           cpay_ccfb_packet *packets, size_t packets_len) {
    if ((!rtcp && rtcp_len) || (!packets && packets_len)) return CPAY_INVALID;
    return proved_cpay_ccfb_read(rtcp ? rtcp : (const uint8_t *)nothing, rtcp_len, full, index, stream, info,
                                 packets ? packets : (cpay_ccfb_packet *)nothing, packets_len);
}

cpay_status proved_cpay_ccfb_write(const cpay_ccfb_info *info, const cpay_ccfb_packet *packets, size_t packets_len,
                                   uint8_t *bytes, size_t bytes_len, size_t *size);
cpay_status cpay_ccfb_write(const cpay_ccfb_info *info, const cpay_ccfb_packet *packets, size_t packets_len, uint8_t *bytes,
                            size_t bytes_len, size_t *size) {
    if ((!packets && packets_len) || (!bytes && bytes_len)) return CPAY_INVALID;
    return proved_cpay_ccfb_write(info, packets ? packets : (const cpay_ccfb_packet *)nothing, packets_len,
                                  bytes ? bytes : (uint8_t *)nothing, bytes_len, size);
}

uint16_t proved_cpay_ccfb_offset(uint64_t now, uint64_t time);
uint16_t cpay_ccfb_offset(uint64_t now, uint64_t time) {
    return proved_cpay_ccfb_offset(now, time);
}

cpay_status proved_cpay_fec_read(const uint8_t *fec, size_t fec_len, cpay_fec_info *info);
cpay_status cpay_fec_read(const uint8_t *fec, size_t fec_len, cpay_fec_info *info) {
    if (!fec && fec_len) return CPAY_INVALID;
    return proved_cpay_fec_read(fec ? fec : (const uint8_t *)nothing, fec_len, info);
}

cpay_status proved_cpay_packet_store_new(cpay_handle *store, size_t bytes);
cpay_status cpay_packet_store_new(cpay_packet_store *store, size_t bytes) {
    return proved_cpay_packet_store_new(&store->handle, bytes);
}

cpay_status proved_cpay_packet_store_keep(cpay_handle *store, const uint8_t *packet, size_t packet_len);
cpay_status cpay_packet_store_keep(cpay_packet_store *store, const uint8_t *packet, size_t packet_len) {
    if (!packet && packet_len) return CPAY_INVALID;
    return proved_cpay_packet_store_keep(&store->handle, packet ? packet : (const uint8_t *)nothing, packet_len);
}

cpay_status proved_cpay_packet_store_rebuild(cpay_handle *store, uint32_t ssrc, const uint8_t *fec, size_t fec_len,
                                             uint8_t *bytes, size_t bytes_len, size_t *size);
cpay_status cpay_packet_store_rebuild(cpay_packet_store *store, uint32_t ssrc, const uint8_t *fec, size_t fec_len,
                                      uint8_t *bytes, size_t bytes_len, size_t *size) {
    if ((!fec && fec_len) || (!bytes && bytes_len)) return CPAY_INVALID;
    return proved_cpay_packet_store_rebuild(&store->handle, ssrc, fec ? fec : (const uint8_t *)nothing, fec_len,
                                            bytes ? bytes : (uint8_t *)nothing, bytes_len, size);
}

cpay_status proved_cpay_fec_receiver_new(cpay_handle *receiver, const cpay_fec_receiver_settings *settings);
cpay_status cpay_fec_receiver_new(cpay_fec_receiver *receiver, const cpay_fec_receiver_settings *settings) {
    return proved_cpay_fec_receiver_new(&receiver->handle, settings);
}

cpay_status proved_cpay_fec_receiver_receive(cpay_handle *receiver, const uint8_t *datagram, size_t datagram_len);
cpay_status cpay_fec_receiver_receive(cpay_fec_receiver *receiver, const uint8_t *datagram, size_t datagram_len) {
    if (!datagram && datagram_len) return CPAY_INVALID;
    return proved_cpay_fec_receiver_receive(&receiver->handle, datagram ? datagram : (const uint8_t *)nothing, datagram_len);
}

cpay_status proved_cpay_fec_receiver_next(cpay_handle *receiver, uint8_t *bytes, size_t bytes_len, size_t *size);
cpay_status cpay_fec_receiver_next(cpay_fec_receiver *receiver, uint8_t *bytes, size_t bytes_len, size_t *size) {
    if (!bytes && bytes_len) return CPAY_INVALID;
    return proved_cpay_fec_receiver_next(&receiver->handle, bytes ? bytes : (uint8_t *)nothing, bytes_len, size);
}

cpay_status proved_cpay_fec_receiver_restart(cpay_handle *receiver);
cpay_status cpay_fec_receiver_restart(cpay_fec_receiver *receiver) {
    return proved_cpay_fec_receiver_restart(&receiver->handle);
}

void proved_cpay_fec_port_settings_init(cpay_fec_port_settings *settings);
void cpay_fec_port_settings_init(cpay_fec_port_settings *settings) {
    proved_cpay_fec_port_settings_init(settings);
}

cpay_status proved_cpay_fec_port_new(cpay_handle *port, const cpay_fec_port_settings *settings,
                                     const cpay_retransmission_type *retransmissions, size_t retransmissions_len);
cpay_status cpay_fec_port_new(cpay_fec_port *port, const cpay_fec_port_settings *settings,
                              const cpay_retransmission_type *retransmissions, size_t retransmissions_len) {
    if (!retransmissions && retransmissions_len) return CPAY_INVALID;
    return proved_cpay_fec_port_new(&port->handle, settings,
                                    retransmissions ? retransmissions : (const cpay_retransmission_type *)nothing,
                                    retransmissions_len);
}

cpay_status proved_cpay_fec_port_receive(cpay_handle *port, const uint8_t *datagram, size_t datagram_len,
                                         cpay_lent_packet *passed);
cpay_status cpay_fec_port_receive(cpay_fec_port *port, const uint8_t *datagram, size_t datagram_len, cpay_lent_packet *passed) {
    if (!datagram && datagram_len) return CPAY_INVALID;
    return proved_cpay_fec_port_receive(&port->handle, datagram ? datagram : (const uint8_t *)nothing, datagram_len, passed);
}

cpay_status proved_cpay_fec_port_next(cpay_handle *port, cpay_lent_packet *packet);
cpay_status cpay_fec_port_next(cpay_fec_port *port, cpay_lent_packet *packet) {
    return proved_cpay_fec_port_next(&port->handle, packet);
}

cpay_status proved_cpay_fec_port_restart(cpay_handle *port, uint32_t ssrc);
cpay_status cpay_fec_port_restart(cpay_fec_port *port, uint32_t ssrc) {
    return proved_cpay_fec_port_restart(&port->handle, ssrc);
}

cpay_status proved_cpay_fec_port_end(cpay_handle *port, uint32_t ssrc);
cpay_status cpay_fec_port_end(cpay_fec_port *port, uint32_t ssrc) {
    return proved_cpay_fec_port_end(&port->handle, ssrc);
}

cpay_status proved_cpay_fec_port_counts(cpay_handle *port, cpay_fec_counts_info *counts);
cpay_status cpay_fec_port_counts(cpay_fec_port *port, cpay_fec_counts_info *counts) {
    return proved_cpay_fec_port_counts(&port->handle, counts);
}

cpay_status proved_cpay_fec_port_stream_counts(cpay_handle *port, uint32_t ssrc, cpay_fec_counts_info *counts);
cpay_status cpay_fec_port_stream_counts(cpay_fec_port *port, uint32_t ssrc, cpay_fec_counts_info *counts) {
    return proved_cpay_fec_port_stream_counts(&port->handle, ssrc, counts);
}

cpay_status proved_cpay_fec_sender_new(cpay_handle *sender, const cpay_fec_sender_settings *settings);
cpay_status cpay_fec_sender_new(cpay_fec_sender *sender, const cpay_fec_sender_settings *settings) {
    return proved_cpay_fec_sender_new(&sender->handle, settings);
}

cpay_status proved_cpay_fec_sender_push(cpay_handle *sender, const uint8_t *datagram, size_t datagram_len,
                                        cpay_lent_packet *packet, bool *ends);
cpay_status cpay_fec_sender_push(cpay_fec_sender *sender, const uint8_t *datagram, size_t datagram_len,
                                 cpay_lent_packet *packet, bool *ends) {
    if (!datagram && datagram_len) return CPAY_INVALID;
    return proved_cpay_fec_sender_push(&sender->handle, datagram ? datagram : (const uint8_t *)nothing, datagram_len, packet,
                                       ends);
}

cpay_status proved_cpay_fec_sender_finish_frame(cpay_handle *sender, bool keyframe, size_t *count);
cpay_status cpay_fec_sender_finish_frame(cpay_fec_sender *sender, bool keyframe, size_t *count) {
    return proved_cpay_fec_sender_finish_frame(&sender->handle, keyframe, count);
}

cpay_status proved_cpay_fec_sender_packet(cpay_handle *sender, size_t place, uint8_t *bytes, size_t bytes_len, size_t *size);
cpay_status cpay_fec_sender_packet(cpay_fec_sender *sender, size_t place, uint8_t *bytes, size_t bytes_len, size_t *size) {
    if (!bytes && bytes_len) return CPAY_INVALID;
    return proved_cpay_fec_sender_packet(&sender->handle, place, bytes ? bytes : (uint8_t *)nothing, bytes_len, size);
}

cpay_status proved_cpay_fec_sender_protect(cpay_handle *sender, uint8_t protection, uint8_t keyframe_protection);
cpay_status cpay_fec_sender_protect(cpay_fec_sender *sender, uint8_t protection, uint8_t keyframe_protection) {
    return proved_cpay_fec_sender_protect(&sender->handle, protection, keyframe_protection);
}

void proved_cpay_session_settings_init(cpay_session_settings *settings, cpay_purpose purpose);
void cpay_session_settings_init(cpay_session_settings *settings, cpay_purpose purpose) {
    proved_cpay_session_settings_init(settings, purpose);
}

cpay_status proved_cpay_session_settings_feedback(cpay_session_settings *settings, uint32_t ssrc, const uint8_t *cname,
                                                  size_t cname_len);
cpay_status cpay_session_settings_feedback(cpay_session_settings *settings, uint32_t ssrc, const uint8_t *cname,
                                           size_t cname_len) {
    if (!cname && cname_len) return CPAY_INVALID;
    return proved_cpay_session_settings_feedback(settings, ssrc, cname ? cname : (const uint8_t *)nothing, cname_len);
}

cpay_status proved_cpay_session_new(cpay_handle *session, const cpay_session_settings *settings,
                                    const cpay_session_format *formats, size_t formats_len, const uint8_t *no_media,
                                    size_t no_media_len, const cpay_ssrc_pair *pairs, size_t pairs_len);
cpay_status cpay_session_new(cpay_session *session, const cpay_session_settings *settings, const cpay_session_format *formats,
                             size_t formats_len, const uint8_t *no_media, size_t no_media_len, const cpay_ssrc_pair *pairs,
                             size_t pairs_len) {
    if ((!formats && formats_len) || (!no_media && no_media_len) || (!pairs && pairs_len)) return CPAY_INVALID;
    return proved_cpay_session_new(&session->handle, settings, formats ? formats : (const cpay_session_format *)nothing,
                                   formats_len, no_media ? no_media : (const uint8_t *)nothing, no_media_len,
                                   pairs ? pairs : (const cpay_ssrc_pair *)nothing, pairs_len);
}

cpay_status proved_cpay_session_settings_check(const cpay_session_settings *settings, const cpay_session_format *formats,
                                               size_t formats_len, const uint8_t *no_media, size_t no_media_len,
                                               cpay_settings_fault *fault);
cpay_status cpay_session_settings_check(const cpay_session_settings *settings, const cpay_session_format *formats,
                                        size_t formats_len, const uint8_t *no_media, size_t no_media_len,
                                        cpay_settings_fault *fault) {
    if ((!formats && formats_len) || (!no_media && no_media_len)) return CPAY_INVALID;
    return proved_cpay_session_settings_check(settings, formats ? formats : (const cpay_session_format *)nothing, formats_len,
                                              no_media ? no_media : (const uint8_t *)nothing, no_media_len, fault);
}

cpay_status proved_cpay_session_receive(cpay_handle *session, uint64_t now, const uint8_t *datagram, size_t datagram_len,
                                        cpay_arrival *arrival);
cpay_status cpay_session_receive(cpay_session *session, uint64_t now, const uint8_t *datagram, size_t datagram_len,
                                 cpay_arrival *arrival) {
    if (!datagram && datagram_len) return CPAY_INVALID;
    return proved_cpay_session_receive(&session->handle, now, datagram ? datagram : (const uint8_t *)nothing, datagram_len,
                                       arrival);
}

cpay_status proved_cpay_session_receive_at(cpay_handle *session, uint64_t now, uint64_t micros, const uint8_t *datagram,
                                           size_t datagram_len, cpay_arrival *arrival);
cpay_status cpay_session_receive_at(cpay_session *session, uint64_t now, uint64_t micros, const uint8_t *datagram,
                                    size_t datagram_len, cpay_arrival *arrival) {
    if (!datagram && datagram_len) return CPAY_INVALID;
    return proved_cpay_session_receive_at(&session->handle, now, micros, datagram ? datagram : (const uint8_t *)nothing,
                                          datagram_len, arrival);
}

cpay_status proved_cpay_session_poll(cpay_handle *session, uint64_t now, cpay_event *event);
cpay_status cpay_session_poll(cpay_session *session, uint64_t now, cpay_event *event) {
    return proved_cpay_session_poll(&session->handle, now, event);
}

cpay_status proved_cpay_session_values(cpay_handle *session, cpay_extension_values *values);
cpay_status cpay_session_values(cpay_session *session, cpay_extension_values *values) {
    return proved_cpay_session_values(&session->handle, values);
}

cpay_status proved_cpay_session_next_deadline(cpay_handle *session, uint64_t *at);
cpay_status cpay_session_next_deadline(cpay_session *session, uint64_t *at) {
    return proved_cpay_session_next_deadline(&session->handle, at);
}

cpay_status proved_cpay_session_end(cpay_handle *session, uint64_t now, uint32_t ssrc);
cpay_status cpay_session_end(cpay_session *session, uint64_t now, uint32_t ssrc) {
    return proved_cpay_session_end(&session->handle, now, ssrc);
}

cpay_status proved_cpay_session_restart_transport(cpay_handle *session);
cpay_status cpay_session_restart_transport(cpay_session *session) {
    return proved_cpay_session_restart_transport(&session->handle);
}

cpay_status proved_cpay_session_finish(cpay_handle *session, uint64_t now);
cpay_status cpay_session_finish(cpay_session *session, uint64_t now) {
    return proved_cpay_session_finish(&session->handle, now);
}

cpay_status proved_cpay_session_counts(cpay_handle *session, cpay_session_counts_info *counts);
cpay_status cpay_session_counts(cpay_session *session, cpay_session_counts_info *counts) {
    return proved_cpay_session_counts(&session->handle, counts);
}

cpay_status proved_cpay_session_stream_at(cpay_handle *session, size_t place, cpay_session_stream *stream);
cpay_status cpay_session_stream_at(cpay_session *session, size_t place, cpay_session_stream *stream) {
    return proved_cpay_session_stream_at(&session->handle, place, stream);
}

cpay_status proved_cpay_session_last_stream(cpay_handle *session, cpay_session_stream *stream);
cpay_status cpay_session_last_stream(cpay_session *session, cpay_session_stream *stream) {
    return proved_cpay_session_last_stream(&session->handle, stream);
}

cpay_status proved_cpay_session_missing(cpay_handle *session, uint32_t ssrc, uint8_t payload_type, uint64_t *numbers,
                                        size_t numbers_len, size_t *count);
cpay_status cpay_session_missing(cpay_session *session, uint32_t ssrc, uint8_t payload_type, uint64_t *numbers,
                                 size_t numbers_len, size_t *count) {
    if (!numbers && numbers_len) return CPAY_INVALID;
    return proved_cpay_session_missing(&session->handle, ssrc, payload_type, numbers ? numbers : (uint64_t *)nothing,
                                       numbers_len, count);
}

cpay_status proved_cpay_session_wants_keyframe(cpay_handle *session, uint32_t ssrc, uint8_t payload_type, bool *wants);
cpay_status cpay_session_wants_keyframe(cpay_session *session, uint32_t ssrc, uint8_t payload_type, bool *wants) {
    return proved_cpay_session_wants_keyframe(&session->handle, ssrc, payload_type, wants);
}

cpay_status proved_cpay_session_report(cpay_handle *session, uint64_t now, uint32_t ssrc, uint8_t payload_type,
                                       cpay_report_block_info *block);
cpay_status cpay_session_report(cpay_session *session, uint64_t now, uint32_t ssrc, uint8_t payload_type,
                                cpay_report_block_info *block) {
    return proved_cpay_session_report(&session->handle, now, ssrc, payload_type, block);
}

cpay_status proved_cpay_session_peek_report(cpay_handle *session, uint64_t now, uint32_t ssrc, uint8_t payload_type,
                                            cpay_report_block_info *block);
cpay_status cpay_session_peek_report(cpay_session *session, uint64_t now, uint32_t ssrc, uint8_t payload_type,
                                     cpay_report_block_info *block) {
    return proved_cpay_session_peek_report(&session->handle, now, ssrc, payload_type, block);
}

cpay_status proved_cpay_session_sender_clock(cpay_handle *session, uint32_t ssrc, uint8_t payload_type,
                                             cpay_sender_clock_info *clock);
cpay_status cpay_session_sender_clock(cpay_session *session, uint32_t ssrc, uint8_t payload_type,
                                      cpay_sender_clock_info *clock) {
    return proved_cpay_session_sender_clock(&session->handle, ssrc, payload_type, clock);
}

cpay_status proved_cpay_session_names(cpay_handle *session, uint32_t ssrc, uint8_t payload_type, cpay_stream_names *names);
cpay_status cpay_session_names(cpay_session *session, uint32_t ssrc, uint8_t payload_type, cpay_stream_names *names) {
    return proved_cpay_session_names(&session->handle, ssrc, payload_type, names);
}

cpay_status proved_cpay_session_set_wait_limits(cpay_handle *session, uint32_t ssrc, uint8_t payload_type,
                                                const cpay_wait_limits *wait_limits);
cpay_status cpay_session_set_wait_limits(cpay_session *session, uint32_t ssrc, uint8_t payload_type,
                                         const cpay_wait_limits *wait_limits) {
    return proved_cpay_session_set_wait_limits(&session->handle, ssrc, payload_type, wait_limits);
}

cpay_status proved_cpay_session_set_round_trip(cpay_handle *session, uint32_t ssrc, uint8_t payload_type, uint64_t round_trip);
cpay_status cpay_session_set_round_trip(cpay_session *session, uint32_t ssrc, uint8_t payload_type, uint64_t round_trip) {
    return proved_cpay_session_set_round_trip(&session->handle, ssrc, payload_type, round_trip);
}

cpay_status proved_cpay_session_add_pair(cpay_handle *session, uint32_t ssrc, uint32_t retransmission);
cpay_status cpay_session_add_pair(cpay_session *session, uint32_t ssrc, uint32_t retransmission) {
    return proved_cpay_session_add_pair(&session->handle, ssrc, retransmission);
}

cpay_status proved_cpay_session_remove_pair(cpay_handle *session, uint32_t ssrc);
cpay_status cpay_session_remove_pair(cpay_session *session, uint32_t ssrc) {
    return proved_cpay_session_remove_pair(&session->handle, ssrc);
}

cpay_status proved_cpay_session_request_keyframe(cpay_handle *session, uint32_t ssrc, cpay_keyframe_answer *answer);
cpay_status cpay_session_request_keyframe(cpay_session *session, uint32_t ssrc, cpay_keyframe_answer *answer) {
    return proved_cpay_session_request_keyframe(&session->handle, ssrc, answer);
}

cpay_status proved_cpay_session_set_formats(cpay_handle *session, uint64_t now, const cpay_session_format *formats,
                                            size_t formats_len);
cpay_status cpay_session_set_formats(cpay_session *session, uint64_t now, const cpay_session_format *formats,
                                     size_t formats_len) {
    if (!formats && formats_len) return CPAY_INVALID;
    return proved_cpay_session_set_formats(&session->handle, now, formats ? formats : (const cpay_session_format *)nothing,
                                           formats_len);
}

cpay_status proved_cpay_read_report(const uint8_t *rtcp, size_t rtcp_len, bool full, size_t index,
                                    cpay_rtcp_report_info *report);
cpay_status cpay_read_report(const uint8_t *rtcp, size_t rtcp_len, bool full, size_t index, cpay_rtcp_report_info *report) {
    if (!rtcp && rtcp_len) return CPAY_INVALID;
    return proved_cpay_read_report(rtcp ? rtcp : (const uint8_t *)nothing, rtcp_len, full, index, report);
}

cpay_status proved_cpay_read_report_block(const uint8_t *rtcp, size_t rtcp_len, bool full, size_t index, size_t place,
                                          cpay_report_block_info *block);
cpay_status cpay_read_report_block(const uint8_t *rtcp, size_t rtcp_len, bool full, size_t index, size_t place,
                                   cpay_report_block_info *block) {
    if (!rtcp && rtcp_len) return CPAY_INVALID;
    return proved_cpay_read_report_block(rtcp ? rtcp : (const uint8_t *)nothing, rtcp_len, full, index, place, block);
}

cpay_status proved_cpay_read_cname(const uint8_t *rtcp, size_t rtcp_len, bool full, uint32_t ssrc, uint8_t *bytes,
                                   size_t bytes_len, size_t *size);
cpay_status cpay_read_cname(const uint8_t *rtcp, size_t rtcp_len, bool full, uint32_t ssrc, uint8_t *bytes, size_t bytes_len,
                            size_t *size) {
    if ((!rtcp && rtcp_len) || (!bytes && bytes_len)) return CPAY_INVALID;
    return proved_cpay_read_cname(rtcp ? rtcp : (const uint8_t *)nothing, rtcp_len, full, ssrc,
                                  bytes ? bytes : (uint8_t *)nothing, bytes_len, size);
}

cpay_status proved_cpay_write_sender_report(uint64_t ntp_time, const cpay_sender_report_info *report,
                                            const cpay_report_block_info *blocks, size_t blocks_len, uint8_t *bytes,
                                            size_t bytes_len, size_t *size);
cpay_status cpay_write_sender_report(uint64_t ntp_time, const cpay_sender_report_info *report,
                                     const cpay_report_block_info *blocks, size_t blocks_len, uint8_t *bytes, size_t bytes_len,
                                     size_t *size) {
    if ((!blocks && blocks_len) || (!bytes && bytes_len)) return CPAY_INVALID;
    return proved_cpay_write_sender_report(ntp_time, report, blocks ? blocks : (const cpay_report_block_info *)nothing,
                                           blocks_len, bytes ? bytes : (uint8_t *)nothing, bytes_len, size);
}

cpay_status proved_cpay_write_receiver_report(uint32_t ssrc, const cpay_report_block_info *blocks, size_t blocks_len,
                                              uint8_t *bytes, size_t bytes_len, size_t *size);
cpay_status cpay_write_receiver_report(uint32_t ssrc, const cpay_report_block_info *blocks, size_t blocks_len, uint8_t *bytes,
                                       size_t bytes_len, size_t *size) {
    if ((!blocks && blocks_len) || (!bytes && bytes_len)) return CPAY_INVALID;
    return proved_cpay_write_receiver_report(ssrc, blocks ? blocks : (const cpay_report_block_info *)nothing, blocks_len,
                                             bytes ? bytes : (uint8_t *)nothing, bytes_len, size);
}

cpay_status proved_cpay_write_cname(uint32_t ssrc, const uint8_t *cname, size_t cname_len, uint8_t *bytes, size_t bytes_len,
                                    size_t *size);
cpay_status cpay_write_cname(uint32_t ssrc, const uint8_t *cname, size_t cname_len, uint8_t *bytes, size_t bytes_len,
                             size_t *size) {
    if ((!cname && cname_len) || (!bytes && bytes_len)) return CPAY_INVALID;
    return proved_cpay_write_cname(ssrc, cname ? cname : (const uint8_t *)nothing, cname_len,
                                   bytes ? bytes : (uint8_t *)nothing, bytes_len, size);
}

cpay_status proved_cpay_write_pli(uint32_t sender_ssrc, uint32_t media_ssrc, uint8_t *bytes, size_t bytes_len, size_t *size);
cpay_status cpay_write_pli(uint32_t sender_ssrc, uint32_t media_ssrc, uint8_t *bytes, size_t bytes_len, size_t *size) {
    if (!bytes && bytes_len) return CPAY_INVALID;
    return proved_cpay_write_pli(sender_ssrc, media_ssrc, bytes ? bytes : (uint8_t *)nothing, bytes_len, size);
}

cpay_status proved_cpay_write_fir(uint32_t sender_ssrc, uint32_t media_ssrc, uint8_t command, uint8_t *bytes, size_t bytes_len,
                                  size_t *size);
cpay_status cpay_write_fir(uint32_t sender_ssrc, uint32_t media_ssrc, uint8_t command, uint8_t *bytes, size_t bytes_len,
                           size_t *size) {
    if (!bytes && bytes_len) return CPAY_INVALID;
    return proved_cpay_write_fir(sender_ssrc, media_ssrc, command, bytes ? bytes : (uint8_t *)nothing, bytes_len, size);
}

cpay_status proved_cpay_write_bye(uint32_t ssrc, const uint8_t *reason, size_t reason_len, uint8_t *bytes, size_t bytes_len,
                                  size_t *size);
cpay_status cpay_write_bye(uint32_t ssrc, const uint8_t *reason, size_t reason_len, uint8_t *bytes, size_t bytes_len,
                           size_t *size) {
    if ((!reason && reason_len) || (!bytes && bytes_len)) return CPAY_INVALID;
    return proved_cpay_write_bye(ssrc, reason ? reason : (const uint8_t *)nothing, reason_len,
                                 bytes ? bytes : (uint8_t *)nothing, bytes_len, size);
}

cpay_status proved_cpay_depacketizer_new(cpay_handle *depacketizer, const cpay_spec *spec);
cpay_status cpay_depacketizer_new(cpay_depacketizer *depacketizer, const cpay_spec *spec) {
    return proved_cpay_depacketizer_new(&depacketizer->handle, spec);
}

cpay_status proved_cpay_depacketize(cpay_handle *depacketizer, const uint8_t *payload, size_t payload_len);
cpay_status cpay_depacketize(cpay_depacketizer *depacketizer, const uint8_t *payload, size_t payload_len) {
    if (!payload && payload_len) return CPAY_INVALID;
    return proved_cpay_depacketize(&depacketizer->handle, payload ? payload : (const uint8_t *)nothing, payload_len);
}

cpay_status proved_cpay_depacketizer_unit(cpay_handle *depacketizer, cpay_lent_unit *unit);
cpay_status cpay_depacketizer_unit(cpay_depacketizer *depacketizer, cpay_lent_unit *unit) {
    return proved_cpay_depacketizer_unit(&depacketizer->handle, unit);
}

cpay_status proved_cpay_depacketizer_clear(cpay_handle *depacketizer);
cpay_status cpay_depacketizer_clear(cpay_depacketizer *depacketizer) {
    return proved_cpay_depacketizer_clear(&depacketizer->handle);
}

cpay_status proved_cpay_depacketized(cpay_handle *depacketizer, size_t *size, cpay_extra *extra, uint8_t *bytes,
                                     size_t bytes_len);
cpay_status cpay_depacketized(cpay_depacketizer *depacketizer, size_t *size, cpay_extra *extra, uint8_t *bytes,
                              size_t bytes_len) {
    if (!bytes && bytes_len) return CPAY_INVALID;
    return proved_cpay_depacketized(&depacketizer->handle, size, extra, bytes ? bytes : (uint8_t *)nothing, bytes_len);
}

cpay_status proved_cpay_red_sender_new(cpay_handle *sender, uint8_t red_pt, uint8_t primary_pt, const uint32_t *distances,
                                       size_t distances_len);
cpay_status cpay_red_sender_new(cpay_red_sender *sender, uint8_t red_pt, uint8_t primary_pt, const uint32_t *distances,
                                size_t distances_len) {
    if (!distances && distances_len) return CPAY_INVALID;
    return proved_cpay_red_sender_new(&sender->handle, red_pt, primary_pt, distances ? distances : (const uint32_t *)nothing,
                                      distances_len);
}

cpay_status proved_cpay_red_sync(cpay_handle *sender, uint8_t red_pt, uint8_t primary_pt, const uint32_t *distances,
                                 size_t distances_len);
cpay_status cpay_red_sync(cpay_red_sender *sender, uint8_t red_pt, uint8_t primary_pt, const uint32_t *distances,
                          size_t distances_len) {
    if (!distances && distances_len) return CPAY_INVALID;
    return proved_cpay_red_sync(&sender->handle, red_pt, primary_pt, distances ? distances : (const uint32_t *)nothing,
                                distances_len);
}

cpay_status proved_cpay_red_wrap(cpay_handle *sender, uint32_t rtp_time, size_t budget, const uint8_t *payload,
                                 size_t payload_len, uint8_t *bytes, size_t bytes_len, size_t *size);
cpay_status cpay_red_wrap(cpay_red_sender *sender, uint32_t rtp_time, size_t budget, const uint8_t *payload, size_t payload_len,
                          uint8_t *bytes, size_t bytes_len, size_t *size) {
    if ((!payload && payload_len) || (!bytes && bytes_len)) return CPAY_INVALID;
    return proved_cpay_red_wrap(&sender->handle, rtp_time, budget, payload ? payload : (const uint8_t *)nothing, payload_len,
                                bytes ? bytes : (uint8_t *)nothing, bytes_len, size);
}

cpay_status proved_cpay_red_encode(uint8_t primary_pt, const uint8_t *primary, size_t primary_len, const cpay_red_older *older,
                                   size_t older_len, const uint8_t *media, size_t media_len, uint8_t *bytes, size_t bytes_len,
                                   size_t *size);
cpay_status cpay_red_encode(uint8_t primary_pt, const uint8_t *primary, size_t primary_len, const cpay_red_older *older,
                            size_t older_len, const uint8_t *media, size_t media_len, uint8_t *bytes, size_t bytes_len,
                            size_t *size) {
    if ((!primary && primary_len) || (!older && older_len) || (!media && media_len) || (!bytes && bytes_len)) return CPAY_INVALID;
    return proved_cpay_red_encode(primary_pt, primary ? primary : (const uint8_t *)nothing, primary_len,
                                  older ? older : (const cpay_red_older *)nothing, older_len,
                                  media ? media : (const uint8_t *)nothing, media_len, bytes ? bytes : (uint8_t *)nothing,
                                  bytes_len, size);
}

cpay_status proved_cpay_red_block(const uint8_t *payload, size_t payload_len, size_t index, cpay_red_block_info *info,
                                  uint8_t *bytes, size_t bytes_len);
cpay_status cpay_red_block(const uint8_t *payload, size_t payload_len, size_t index, cpay_red_block_info *info, uint8_t *bytes,
                           size_t bytes_len) {
    if ((!payload && payload_len) || (!bytes && bytes_len)) return CPAY_INVALID;
    return proved_cpay_red_block(payload ? payload : (const uint8_t *)nothing, payload_len, index, info,
                                 bytes ? bytes : (uint8_t *)nothing, bytes_len);
}

cpay_status proved_cpay_red_blocks(const uint8_t *payload, size_t payload_len, cpay_red_block_place *blocks, size_t blocks_len,
                                   size_t *count);
cpay_status cpay_red_blocks(const uint8_t *payload, size_t payload_len, cpay_red_block_place *blocks, size_t blocks_len,
                            size_t *count) {
    if ((!payload && payload_len) || (!blocks && blocks_len)) return CPAY_INVALID;
    return proved_cpay_red_blocks(payload ? payload : (const uint8_t *)nothing, payload_len,
                                  blocks ? blocks : (cpay_red_block_place *)nothing, blocks_len, count);
}

cpay_status proved_cpay_red_recover(uint8_t primary_pt, uint32_t step, uint64_t number, uint32_t rtp_time,
                                    const uint8_t *payload, size_t payload_len, size_t index, cpay_recovered_info *info,
                                    uint8_t *bytes, size_t bytes_len);
cpay_status cpay_red_recover(uint8_t primary_pt, uint32_t step, uint64_t number, uint32_t rtp_time, const uint8_t *payload,
                             size_t payload_len, size_t index, cpay_recovered_info *info, uint8_t *bytes, size_t bytes_len) {
    if ((!payload && payload_len) || (!bytes && bytes_len)) return CPAY_INVALID;
    return proved_cpay_red_recover(primary_pt, step, number, rtp_time, payload ? payload : (const uint8_t *)nothing,
                                   payload_len, index, info, bytes ? bytes : (uint8_t *)nothing, bytes_len);
}

cpay_status proved_cpay_vp8_fields(const uint8_t *payload, size_t payload_len, cpay_vp8_fields_info *fields,
                                   bool *starts_keyframe);
cpay_status cpay_vp8_fields(const uint8_t *payload, size_t payload_len, cpay_vp8_fields_info *fields, bool *starts_keyframe) {
    if (!payload && payload_len) return CPAY_INVALID;
    return proved_cpay_vp8_fields(payload ? payload : (const uint8_t *)nothing, payload_len, fields, starts_keyframe);
}

cpay_status proved_cpay_vp8_patch(uint8_t *payload, size_t payload_len, const cpay_vp8_fields_info *values);
cpay_status cpay_vp8_patch(uint8_t *payload, size_t payload_len, const cpay_vp8_fields_info *values) {
    if (!payload && payload_len) return CPAY_INVALID;
    return proved_cpay_vp8_patch(payload ? payload : (uint8_t *)nothing, payload_len, values);
}

cpay_status proved_cpay_tele_read(const uint8_t *payload, size_t payload_len, uint32_t rate, size_t index,
                                  cpay_tele_event *event);
cpay_status cpay_tele_read(const uint8_t *payload, size_t payload_len, uint32_t rate, size_t index, cpay_tele_event *event) {
    if (!payload && payload_len) return CPAY_INVALID;
    return proved_cpay_tele_read(payload ? payload : (const uint8_t *)nothing, payload_len, rate, index, event);
}

cpay_status proved_cpay_tele_write(const cpay_tele_event *event, uint32_t rate, uint8_t *bytes, size_t bytes_len);
cpay_status cpay_tele_write(const cpay_tele_event *event, uint32_t rate, uint8_t *bytes, size_t bytes_len) {
    if (!bytes && bytes_len) return CPAY_INVALID;
    return proved_cpay_tele_write(event, rate, bytes ? bytes : (uint8_t *)nothing, bytes_len);
}

bool proved_cpay_vp8_is_keyframe(const uint8_t *payload, size_t payload_len);
bool cpay_vp8_is_keyframe(const uint8_t *payload, size_t payload_len) {
    if (!payload && payload_len) return false;
    return proved_cpay_vp8_is_keyframe(payload ? payload : (const uint8_t *)nothing, payload_len);
}

bool proved_cpay_vp9_is_keyframe(const uint8_t *payload, size_t payload_len);
bool cpay_vp9_is_keyframe(const uint8_t *payload, size_t payload_len) {
    if (!payload && payload_len) return false;
    return proved_cpay_vp9_is_keyframe(payload ? payload : (const uint8_t *)nothing, payload_len);
}

bool proved_cpay_vp9_frame_is_keyframe(const uint8_t *frame, size_t frame_len);
bool cpay_vp9_frame_is_keyframe(const uint8_t *frame, size_t frame_len) {
    if (!frame && frame_len) return false;
    return proved_cpay_vp9_frame_is_keyframe(frame ? frame : (const uint8_t *)nothing, frame_len);
}

bool proved_cpay_av1_is_keyframe(const uint8_t *payload, size_t payload_len);
bool cpay_av1_is_keyframe(const uint8_t *payload, size_t payload_len) {
    if (!payload && payload_len) return false;
    return proved_cpay_av1_is_keyframe(payload ? payload : (const uint8_t *)nothing, payload_len);
}

cpay_status proved_cpay_is_head(cpay_codec codec, const uint8_t *payload, size_t payload_len, bool *is_head);
cpay_status cpay_is_head(cpay_codec codec, const uint8_t *payload, size_t payload_len, bool *is_head) {
    if (!payload && payload_len) return CPAY_INVALID;
    return proved_cpay_is_head(codec, payload ? payload : (const uint8_t *)nothing, payload_len, is_head);
}

cpay_status proved_cpay_is_tail(cpay_codec codec, bool marker, const uint8_t *payload, size_t payload_len, bool *is_tail);
cpay_status cpay_is_tail(cpay_codec codec, bool marker, const uint8_t *payload, size_t payload_len, bool *is_tail) {
    if (!payload && payload_len) return CPAY_INVALID;
    return proved_cpay_is_tail(codec, marker, payload ? payload : (const uint8_t *)nothing, payload_len, is_tail);
}

cpay_status proved_cpay_begins_keyframe(cpay_codec codec, const uint8_t *payload, size_t payload_len, bool *begins);
cpay_status cpay_begins_keyframe(cpay_codec codec, const uint8_t *payload, size_t payload_len, bool *begins) {
    if (!payload && payload_len) return CPAY_INVALID;
    return proved_cpay_begins_keyframe(codec, payload ? payload : (const uint8_t *)nothing, payload_len, begins);
}

cpay_status proved_cpay_temporal_layer(cpay_codec codec, const uint8_t *payload, size_t payload_len,
                                       cpay_temporal_layer_info *layer);
cpay_status cpay_temporal_layer(cpay_codec codec, const uint8_t *payload, size_t payload_len, cpay_temporal_layer_info *layer) {
    if (!payload && payload_len) return CPAY_INVALID;
    return proved_cpay_temporal_layer(codec, payload ? payload : (const uint8_t *)nothing, payload_len, layer);
}

cpay_status proved_cpay_vp9_spatial_place(const uint8_t *payload, size_t payload_len, cpay_spatial_place_info *place);
cpay_status cpay_vp9_spatial_place(const uint8_t *payload, size_t payload_len, cpay_spatial_place_info *place) {
    if (!payload && payload_len) return CPAY_INVALID;
    return proved_cpay_vp9_spatial_place(payload ? payload : (const uint8_t *)nothing, payload_len, place);
}

cpay_status proved_cpay_spatial_filter_take(cpay_spatial_filter_state *filter, uint16_t number,
                                            const cpay_spatial_place_info *place, bool *marker);
cpay_status cpay_spatial_filter_take(cpay_spatial_filter_state *filter, uint16_t number, const cpay_spatial_place_info *place,
                                     bool *marker) {
    return proved_cpay_spatial_filter_take(filter, number, place, marker);
}

cpay_status proved_cpay_spatial_filter_again(const cpay_spatial_filter_state *filter, uint16_t number,
                                             const cpay_spatial_place_info *place, bool *marker);
cpay_status cpay_spatial_filter_again(const cpay_spatial_filter_state *filter, uint16_t number,
                                      const cpay_spatial_place_info *place, bool *marker) {
    return proved_cpay_spatial_filter_again(filter, number, place, marker);
}

uint64_t proved_cpay_extend_number(uint64_t previous, bool has_previous, uint16_t number);
uint64_t cpay_extend_number(uint64_t previous, bool has_previous, uint16_t number) {
    return proved_cpay_extend_number(previous, has_previous, number);
}

cpay_status proved_cpay_frame_info(cpay_codec codec, const uint8_t *frame, size_t frame_len, cpay_frame_facts *facts);
cpay_status cpay_frame_info(cpay_codec codec, const uint8_t *frame, size_t frame_len, cpay_frame_facts *facts) {
    if (!frame && frame_len) return CPAY_INVALID;
    return proved_cpay_frame_info(codec, frame ? frame : (const uint8_t *)nothing, frame_len, facts);
}

cpay_status proved_cpay_av1_obu(const uint8_t *unit, size_t unit_len, size_t offset, cpay_obu_info *info);
cpay_status cpay_av1_obu(const uint8_t *unit, size_t unit_len, size_t offset, cpay_obu_info *info) {
    if (!unit && unit_len) return CPAY_INVALID;
    return proved_cpay_av1_obu(unit ? unit : (const uint8_t *)nothing, unit_len, offset, info);
}

cpay_status proved_cpay_amr_wb_frame(const uint8_t *unit, size_t unit_len, size_t offset, cpay_amr_wb_frame_info *info);
cpay_status cpay_amr_wb_frame(const uint8_t *unit, size_t unit_len, size_t offset, cpay_amr_wb_frame_info *info) {
    if (!unit && unit_len) return CPAY_INVALID;
    return proved_cpay_amr_wb_frame(unit ? unit : (const uint8_t *)nothing, unit_len, offset, info);
}

cpay_status proved_cpay_vp9_frame(const uint8_t *unit, size_t unit_len, size_t index, cpay_vp9_frame_info *info);
cpay_status cpay_vp9_frame(const uint8_t *unit, size_t unit_len, size_t index, cpay_vp9_frame_info *info) {
    if (!unit && unit_len) return CPAY_INVALID;
    return proved_cpay_vp9_frame(unit ? unit : (const uint8_t *)nothing, unit_len, index, info);
}

cpay_status proved_cpay_av1c(const uint8_t *obu, size_t obu_len, uint8_t *bytes, size_t bytes_len, size_t *size);
cpay_status cpay_av1c(const uint8_t *obu, size_t obu_len, uint8_t *bytes, size_t bytes_len, size_t *size) {
    if ((!obu && obu_len) || (!bytes && bytes_len)) return CPAY_INVALID;
    return proved_cpay_av1c(obu ? obu : (const uint8_t *)nothing, obu_len, bytes ? bytes : (uint8_t *)nothing, bytes_len, size);
}

cpay_status proved_cpay_opus_head(uint8_t channels, uint16_t pre_skip, uint32_t input_sample_rate, uint8_t *bytes,
                                  size_t bytes_len);
cpay_status cpay_opus_head(uint8_t channels, uint16_t pre_skip, uint32_t input_sample_rate, uint8_t *bytes, size_t bytes_len) {
    if (!bytes && bytes_len) return CPAY_INVALID;
    return proved_cpay_opus_head(channels, pre_skip, input_sample_rate, bytes ? bytes : (uint8_t *)nothing, bytes_len);
}

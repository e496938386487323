/* Objects that the library allocates: codec_payload_bindings.h. Written by c/check_header.py --bindings. */
#include "codec_payload_bindings.h"

#include <stdlib.h>

cpay_status cpay_packetizer_create(cpay_packetizer **packetizer, const cpay_spec *spec) {
    cpay_packetizer *made = malloc(sizeof *made);
    if (!made) return CPAY_OUT_OF_MEMORY;
    *made = (cpay_packetizer)CPAY_INIT;
    const cpay_status status = cpay_packetizer_new(made, spec);
    if (status) free(made);
    else *packetizer = made;
    return status;
}

void cpay_packetizer_destroy(cpay_packetizer *packetizer) {
    cpay_packetizer_free(packetizer);
    free(packetizer);
}

cpay_status cpay_buffer_create(cpay_buffer **buffer, const cpay_spec *spec, size_t hold_back, size_t limit) {
    cpay_buffer *made = malloc(sizeof *made);
    if (!made) return CPAY_OUT_OF_MEMORY;
    *made = (cpay_buffer)CPAY_INIT;
    const cpay_status status = cpay_buffer_new(made, spec, hold_back, limit);
    if (status) free(made);
    else *buffer = made;
    return status;
}

void cpay_buffer_destroy(cpay_buffer *buffer) {
    cpay_buffer_free(buffer);
    free(buffer);
}

cpay_status cpay_depacketizer_create(cpay_depacketizer **depacketizer, const cpay_spec *spec) {
    cpay_depacketizer *made = malloc(sizeof *made);
    if (!made) return CPAY_OUT_OF_MEMORY;
    *made = (cpay_depacketizer)CPAY_INIT;
    const cpay_status status = cpay_depacketizer_new(made, spec);
    if (status) free(made);
    else *depacketizer = made;
    return status;
}

void cpay_depacketizer_destroy(cpay_depacketizer *depacketizer) {
    cpay_depacketizer_free(depacketizer);
    free(depacketizer);
}

cpay_status cpay_red_sender_create(cpay_red_sender **sender, uint8_t red_pt, uint8_t primary_pt, const uint32_t *distances,
                                   size_t distances_len) {
    cpay_red_sender *made = malloc(sizeof *made);
    if (!made) return CPAY_OUT_OF_MEMORY;
    *made = (cpay_red_sender)CPAY_INIT;
    const cpay_status status = cpay_red_sender_new(made, red_pt, primary_pt, distances, distances_len);
    if (status) free(made);
    else *sender = made;
    return status;
}

void cpay_red_sender_destroy(cpay_red_sender *sender) {
    cpay_red_sender_free(sender);
    free(sender);
}

cpay_status cpay_sender_create(cpay_sender **sender, const cpay_sender_settings *settings) {
    cpay_sender *made = malloc(sizeof *made);
    if (!made) return CPAY_OUT_OF_MEMORY;
    *made = (cpay_sender)CPAY_INIT;
    const cpay_status status = cpay_sender_new(made, settings);
    if (status) free(made);
    else *sender = made;
    return status;
}

void cpay_sender_destroy(cpay_sender *sender) {
    cpay_sender_free(sender);
    free(sender);
}

cpay_status cpay_history_create(cpay_history **history, const cpay_history_settings *settings) {
    cpay_history *made = malloc(sizeof *made);
    if (!made) return CPAY_OUT_OF_MEMORY;
    *made = (cpay_history)CPAY_INIT;
    const cpay_status status = cpay_history_new(made, settings);
    if (status) free(made);
    else *history = made;
    return status;
}

void cpay_history_destroy(cpay_history *history) {
    cpay_history_free(history);
    free(history);
}

cpay_status cpay_forwarder_create(cpay_forwarder **forwarder, const cpay_forwarder_settings *settings) {
    cpay_forwarder *made = malloc(sizeof *made);
    if (!made) return CPAY_OUT_OF_MEMORY;
    *made = (cpay_forwarder)CPAY_INIT;
    const cpay_status status = cpay_forwarder_new(made, settings);
    if (status) free(made);
    else *forwarder = made;
    return status;
}

void cpay_forwarder_destroy(cpay_forwarder *forwarder) {
    cpay_forwarder_free(forwarder);
    free(forwarder);
}

cpay_status cpay_receiver_create(cpay_receiver **receiver, const cpay_receiver_settings *settings, const uint8_t *no_media,
                                 size_t no_media_len) {
    cpay_receiver *made = malloc(sizeof *made);
    if (!made) return CPAY_OUT_OF_MEMORY;
    *made = (cpay_receiver)CPAY_INIT;
    const cpay_status status = cpay_receiver_new(made, settings, no_media, no_media_len);
    if (status) free(made);
    else *receiver = made;
    return status;
}

void cpay_receiver_destroy(cpay_receiver *receiver) {
    cpay_receiver_free(receiver);
    free(receiver);
}

cpay_status cpay_adaptive_wait_create(cpay_adaptive_wait **wait, const cpay_adaptive_wait_settings *settings) {
    cpay_adaptive_wait *made = malloc(sizeof *made);
    if (!made) return CPAY_OUT_OF_MEMORY;
    *made = (cpay_adaptive_wait)CPAY_INIT;
    const cpay_status status = cpay_adaptive_wait_new(made, settings);
    if (status) free(made);
    else *wait = made;
    return status;
}

void cpay_adaptive_wait_destroy(cpay_adaptive_wait *wait) {
    cpay_adaptive_wait_free(wait);
    free(wait);
}

cpay_status cpay_freezes_create(cpay_freezes **freezes, uint32_t tick_rate) {
    cpay_freezes *made = malloc(sizeof *made);
    if (!made) return CPAY_OUT_OF_MEMORY;
    *made = (cpay_freezes)CPAY_INIT;
    const cpay_status status = cpay_freezes_new(made, tick_rate);
    if (status) free(made);
    else *freezes = made;
    return status;
}

void cpay_freezes_destroy(cpay_freezes *freezes) {
    cpay_freezes_free(freezes);
    free(freezes);
}

cpay_status cpay_transport_reporter_create(cpay_transport_reporter **reporter, const cpay_transport_reporter_settings *settings,
                                           const uint8_t *cname, size_t cname_len) {
    cpay_transport_reporter *made = malloc(sizeof *made);
    if (!made) return CPAY_OUT_OF_MEMORY;
    *made = (cpay_transport_reporter)CPAY_INIT;
    const cpay_status status = cpay_transport_reporter_new(made, settings, cname, cname_len);
    if (status) free(made);
    else *reporter = made;
    return status;
}

void cpay_transport_reporter_destroy(cpay_transport_reporter *reporter) {
    cpay_transport_reporter_free(reporter);
    free(reporter);
}

cpay_status cpay_sent_packets_create(cpay_sent_packets **packets, size_t limit) {
    cpay_sent_packets *made = malloc(sizeof *made);
    if (!made) return CPAY_OUT_OF_MEMORY;
    *made = (cpay_sent_packets)CPAY_INIT;
    const cpay_status status = cpay_sent_packets_new(made, limit);
    if (status) free(made);
    else *packets = made;
    return status;
}

void cpay_sent_packets_destroy(cpay_sent_packets *packets) {
    cpay_sent_packets_free(packets);
    free(packets);
}

cpay_status cpay_path_create(cpay_path **path, uint64_t now, const cpay_path_settings *settings) {
    cpay_path *made = malloc(sizeof *made);
    if (!made) return CPAY_OUT_OF_MEMORY;
    *made = (cpay_path)CPAY_INIT;
    const cpay_status status = cpay_path_new(made, now, settings);
    if (status) free(made);
    else *path = made;
    return status;
}

void cpay_path_destroy(cpay_path *path) {
    cpay_path_free(path);
    free(path);
}

cpay_status cpay_resend_limit_create(cpay_resend_limit **limit, const cpay_resend_limit_settings *settings) {
    cpay_resend_limit *made = malloc(sizeof *made);
    if (!made) return CPAY_OUT_OF_MEMORY;
    *made = (cpay_resend_limit)CPAY_INIT;
    const cpay_status status = cpay_resend_limit_new(made, settings);
    if (status) free(made);
    else *limit = made;
    return status;
}

void cpay_resend_limit_destroy(cpay_resend_limit *limit) {
    cpay_resend_limit_free(limit);
    free(limit);
}

cpay_status cpay_rate_offer_create(cpay_rate_offer **offer, const cpay_rate_offer_settings *settings) {
    cpay_rate_offer *made = malloc(sizeof *made);
    if (!made) return CPAY_OUT_OF_MEMORY;
    *made = (cpay_rate_offer)CPAY_INIT;
    const cpay_status status = cpay_rate_offer_new(made, settings);
    if (status) free(made);
    else *offer = made;
    return status;
}

void cpay_rate_offer_destroy(cpay_rate_offer *offer) {
    cpay_rate_offer_free(offer);
    free(offer);
}

cpay_status cpay_packet_store_create(cpay_packet_store **store, size_t bytes) {
    cpay_packet_store *made = malloc(sizeof *made);
    if (!made) return CPAY_OUT_OF_MEMORY;
    *made = (cpay_packet_store)CPAY_INIT;
    const cpay_status status = cpay_packet_store_new(made, bytes);
    if (status) free(made);
    else *store = made;
    return status;
}

void cpay_packet_store_destroy(cpay_packet_store *store) {
    cpay_packet_store_free(store);
    free(store);
}

cpay_status cpay_fec_receiver_create(cpay_fec_receiver **receiver, const cpay_fec_receiver_settings *settings) {
    cpay_fec_receiver *made = malloc(sizeof *made);
    if (!made) return CPAY_OUT_OF_MEMORY;
    *made = (cpay_fec_receiver)CPAY_INIT;
    const cpay_status status = cpay_fec_receiver_new(made, settings);
    if (status) free(made);
    else *receiver = made;
    return status;
}

void cpay_fec_receiver_destroy(cpay_fec_receiver *receiver) {
    cpay_fec_receiver_free(receiver);
    free(receiver);
}

cpay_status cpay_fec_port_create(cpay_fec_port **port, const cpay_fec_port_settings *settings,
                                 const cpay_retransmission_type *retransmissions, size_t retransmissions_len) {
    cpay_fec_port *made = malloc(sizeof *made);
    if (!made) return CPAY_OUT_OF_MEMORY;
    *made = (cpay_fec_port)CPAY_INIT;
    const cpay_status status = cpay_fec_port_new(made, settings, retransmissions, retransmissions_len);
    if (status) free(made);
    else *port = made;
    return status;
}

void cpay_fec_port_destroy(cpay_fec_port *port) {
    cpay_fec_port_free(port);
    free(port);
}

cpay_status cpay_fec_sender_create(cpay_fec_sender **sender, const cpay_fec_sender_settings *settings) {
    cpay_fec_sender *made = malloc(sizeof *made);
    if (!made) return CPAY_OUT_OF_MEMORY;
    *made = (cpay_fec_sender)CPAY_INIT;
    const cpay_status status = cpay_fec_sender_new(made, settings);
    if (status) free(made);
    else *sender = made;
    return status;
}

void cpay_fec_sender_destroy(cpay_fec_sender *sender) {
    cpay_fec_sender_free(sender);
    free(sender);
}

cpay_status cpay_session_create(cpay_session **session, const cpay_session_settings *settings,
                                const cpay_session_format *formats, size_t formats_len, const uint8_t *no_media,
                                size_t no_media_len, const cpay_ssrc_pair *pairs, size_t pairs_len) {
    cpay_session *made = malloc(sizeof *made);
    if (!made) return CPAY_OUT_OF_MEMORY;
    *made = (cpay_session)CPAY_INIT;
    const cpay_status status = cpay_session_new(made, settings, formats, formats_len, no_media, no_media_len, pairs, pairs_len);
    if (status) free(made);
    else *session = made;
    return status;
}

void cpay_session_destroy(cpay_session *session) {
    cpay_session_free(session);
    free(session);
}

/** @file
 * For languages other than C and C++: what codec_payload.h has as inline functions and as structs in the caller's memory, by calls.
 *
 * OBJECTS. A handle of codec_payload.h lives in memory of the caller, who must not copy it. A language that moves its values, or
 * does not know the size of a struct, calls *_create instead of *_new, and *_destroy instead of *_free: the handle then has memory
 * of its own, and the program keeps a pointer. All other calls take this pointer as they take each other pointer to a handle.
 *
 * TEXTS. The functions named *_text of the other headers are compiled into each program. The calls named cpay_text_of_* return the
 * same texts. They take any number. */
#ifndef CODEC_PAYLOAD_BINDINGS_H
#define CODEC_PAYLOAD_BINDINGS_H

#include "codec_payload.h"
#include "codec_payload_sdp.h"

#ifdef __cplusplus
extern "C" {
#endif

/** Returns an English text for a status, as cpay_status_text does. It is never NULL, and lives as long as the program. */
const char *cpay_text_of_status(uint32_t status);

/** Returns an English text for the reason why a stream ended, as cpay_ending_text does. */
const char *cpay_text_of_ending(uint32_t why);

/** Returns an English text for a fault of the settings of a session, as cpay_settings_fault_text does. */
const char *cpay_text_of_settings_fault(uint32_t kind);

/** Returns an English text for the reason why a session description is not read, as cpay_sdp_error_text does. */
const char *cpay_text_of_sdp_error(uint32_t error);

/** Returns an English text for the reason why sections give no settings of a session, as cpay_sdp_session_error_text does. */
const char *cpay_text_of_sdp_session_error(uint32_t error);

/** Returns whether a status says that one datagram from the network is malformed, and nothing else: CPAY_RED_CORRUPTED, the
 * statuses of RTP packets, retransmissions, RTCP and feedback, 42 to 73, and those of RFC 8888 and of FEC, 78 to 86. Any peer can
 * cause these: count them, and go on. Of all other errors CPAY_OUT_OF_MEMORY may pass, and each other one is a fault of the
 * program. */
bool cpay_status_is_of_datagram(uint32_t status);

/** Writes the codec and the rate of a format to *spec, by its encoding name (RFC 8866, section 6.6), in upper or lower case:
 * "opus", "VP8". All other fields get 0. `rate` is the rate of its RTP clock in hertz; 0 stands for the usual one: 48000 for
 * Opus, 90000 for video, 16000 for AMR-WB, 8000 for all others. The name needs no final 0. CPAY_NONE: the library has no codec
 * with this name. CPAY_INVALID: `name` is NULL. If the call fails, *spec is unchanged. */
CPAY_CHECKED cpay_status cpay_format_by_name(const char *name, size_t name_len, uint32_t rate, cpay_spec *spec);

/** Returns the encoding name of a codec, or NULL for a number without a name, such as CPAY_NULL. */
const char *cpay_codec_name(uint32_t codec);

/** Receives a datagram and lends the next unit, in one crossing of the border between two languages. *received gets what
 * cpay_receiver_receive returns for the datagram, and *outcome its outcome; the result, *unit and *at are those of
 * cpay_receiver_lend, also if the datagram was not accepted. After CPAY_OK call cpay_receiver_lend until CPAY_NONE: a datagram can
 * complete several units. [m] */
CPAY_CHECKED cpay_status cpay_receiver_take(cpay_receiver *receiver, uint64_t now, const uint8_t *datagram, size_t datagram_len,
                                            cpay_status *received, cpay_outcome *outcome, cpay_unit *unit, const uint8_t **at);

/** Creates a packetizer as cpay_packetizer_new does, in memory that the library allocates, and writes its address to *packetizer.
 * CPAY_OUT_OF_MEMORY: also if there is no memory for the handle. If the call fails, *packetizer is unchanged. The other calls
 * named *_create do the same for their objects. [m] */
CPAY_CHECKED cpay_status cpay_packetizer_create(cpay_packetizer **packetizer, const cpay_spec *spec);

/** Frees a packetizer and the memory of its handle. NULL is allowed. The pointer is then invalid. The other calls named *_destroy
 * do the same. */
void cpay_packetizer_destroy(cpay_packetizer *packetizer);

/** Creates a buffer as cpay_buffer_new does. [m] */
CPAY_CHECKED cpay_status cpay_buffer_create(cpay_buffer **buffer, const cpay_spec *spec, size_t hold_back, size_t limit);

/** Frees a buffer and the memory of its handle. */
void cpay_buffer_destroy(cpay_buffer *buffer);

/** Creates a depacketizer as cpay_depacketizer_new does. [m] */
CPAY_CHECKED cpay_status cpay_depacketizer_create(cpay_depacketizer **depacketizer, const cpay_spec *spec);

/** Frees a depacketizer and the memory of its handle. */
void cpay_depacketizer_destroy(cpay_depacketizer *depacketizer);

/** Creates a sender of RED as cpay_red_sender_new does. [m] */
CPAY_CHECKED cpay_status cpay_red_sender_create(cpay_red_sender **sender, uint8_t red_pt, uint8_t primary_pt,
                                                const uint32_t *distances, size_t distances_len);

/** Frees a sender of RED and the memory of its handle. */
void cpay_red_sender_destroy(cpay_red_sender *sender);

/** Creates a sender as cpay_sender_new does. [m] */
CPAY_CHECKED cpay_status cpay_sender_create(cpay_sender **sender, const cpay_sender_settings *settings);

/** Frees a sender and the memory of its handle. */
void cpay_sender_destroy(cpay_sender *sender);

/** Creates a history as cpay_history_new does. [m] */
CPAY_CHECKED cpay_status cpay_history_create(cpay_history **history, const cpay_history_settings *settings);

/** Frees a history and the memory of its handle. */
void cpay_history_destroy(cpay_history *history);

/** Creates a forwarder as cpay_forwarder_new does. [m] */
CPAY_CHECKED cpay_status cpay_forwarder_create(cpay_forwarder **forwarder, const cpay_forwarder_settings *settings);

/** Frees a forwarder and the memory of its handle. */
void cpay_forwarder_destroy(cpay_forwarder *forwarder);

/** Creates a receiver as cpay_receiver_new does. [m] */
CPAY_CHECKED cpay_status cpay_receiver_create(cpay_receiver **receiver, const cpay_receiver_settings *settings,
                                              const uint8_t *no_media, size_t no_media_len);

/** Frees a receiver and the memory of its handle. */
void cpay_receiver_destroy(cpay_receiver *receiver);

/** Creates an adaptive wait as cpay_adaptive_wait_new does. [m] */
CPAY_CHECKED cpay_status cpay_adaptive_wait_create(cpay_adaptive_wait **wait, const cpay_adaptive_wait_settings *settings);

/** Frees an adaptive wait and the memory of its handle. */
void cpay_adaptive_wait_destroy(cpay_adaptive_wait *wait);

/** Creates a counter of freezes as cpay_freezes_new does. [m] */
CPAY_CHECKED cpay_status cpay_freezes_create(cpay_freezes **freezes, uint32_t tick_rate);

/** Frees a counter of freezes and the memory of its handle. */
void cpay_freezes_destroy(cpay_freezes *freezes);

/** Creates a transport reporter as cpay_transport_reporter_new does. [m] */
CPAY_CHECKED cpay_status cpay_transport_reporter_create(cpay_transport_reporter **reporter,
                                                        const cpay_transport_reporter_settings *settings, const uint8_t *cname,
                                                        size_t cname_len);

/** Frees a transport reporter and the memory of its handle. */
void cpay_transport_reporter_destroy(cpay_transport_reporter *reporter);

/** Creates the sent packets of a transport as cpay_sent_packets_new does. [m] */
CPAY_CHECKED cpay_status cpay_sent_packets_create(cpay_sent_packets **packets, size_t limit);

/** Frees the sent packets of a transport and the memory of its handle. */
void cpay_sent_packets_destroy(cpay_sent_packets *packets);

/** Creates a path as cpay_path_new does. [m] */
CPAY_CHECKED cpay_status cpay_path_create(cpay_path **path, uint64_t now, const cpay_path_settings *settings);

/** Frees a path and the memory of its handle. */
void cpay_path_destroy(cpay_path *path);

/** Creates a limit of retransmissions as cpay_resend_limit_new does. [m] */
CPAY_CHECKED cpay_status cpay_resend_limit_create(cpay_resend_limit **limit, const cpay_resend_limit_settings *settings);

/** Frees a limit of retransmissions and the memory of its handle. */
void cpay_resend_limit_destroy(cpay_resend_limit *limit);

/** Creates an offer of a rate as cpay_rate_offer_new does. [m] */
CPAY_CHECKED cpay_status cpay_rate_offer_create(cpay_rate_offer **offer, const cpay_rate_offer_settings *settings);

/** Frees an offer of a rate and the memory of its handle. */
void cpay_rate_offer_destroy(cpay_rate_offer *offer);

/** Creates a store of packets as cpay_packet_store_new does. [m] */
CPAY_CHECKED cpay_status cpay_packet_store_create(cpay_packet_store **store, size_t bytes);

/** Frees a store of packets and the memory of its handle. */
void cpay_packet_store_destroy(cpay_packet_store *store);

/** Creates a receiver of FEC as cpay_fec_receiver_new does. [m] */
CPAY_CHECKED cpay_status cpay_fec_receiver_create(cpay_fec_receiver **receiver, const cpay_fec_receiver_settings *settings);

/** Frees a receiver of FEC and the memory of its handle. */
void cpay_fec_receiver_destroy(cpay_fec_receiver *receiver);

/** Creates a port with FEC as cpay_fec_port_new does. [m] */
CPAY_CHECKED cpay_status cpay_fec_port_create(cpay_fec_port **port, const cpay_fec_port_settings *settings,
                                              const cpay_retransmission_type *retransmissions, size_t retransmissions_len);

/** Frees a port with FEC and the memory of its handle. */
void cpay_fec_port_destroy(cpay_fec_port *port);

/** Creates a sender of FEC as cpay_fec_sender_new does. [m] */
CPAY_CHECKED cpay_status cpay_fec_sender_create(cpay_fec_sender **sender, const cpay_fec_sender_settings *settings);

/** Frees a sender of FEC and the memory of its handle. */
void cpay_fec_sender_destroy(cpay_fec_sender *sender);

/** Creates a session as cpay_session_new does. [m] */
CPAY_CHECKED cpay_status cpay_session_create(cpay_session **session, const cpay_session_settings *settings,
                                             const cpay_session_format *formats, size_t formats_len, const uint8_t *no_media,
                                             size_t no_media_len, const cpay_ssrc_pair *pairs, size_t pairs_len);

/** Frees a session and the memory of its handle. */
void cpay_session_destroy(cpay_session *session);

#ifdef __cplusplus
}
#endif

#endif

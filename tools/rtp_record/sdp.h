/* The signalled session: SDPs, which the library reads (codec_payload_sdp.h), and payload types given by hand. */
#ifndef RTP_RECORD_SDP_H
#define RTP_RECORD_SDP_H

#include "codec.h"
#include "wire.h"

#include <codec_payload_sdp.h>

/* A section of an SDP. A payload type that it does not name has the codec of an unknown one. */
typedef struct {
    uint16_t port;
    bool encrypted;
    codec_use uses[PAYLOAD_TYPES];
    cpay_sdp_source sources[CPAY_SDP_MAX_SOURCES];
    size_t source_count;
} sdp_medium;

/* Begin with {0}. */
typedef struct {
    sdp_medium *media;
    size_t media_count;
    codec_use *by_hand; /* PAYLOAD_TYPES of them, or NULL */
} signalling;

/* Reads an SDP, and adds its sections. On failure it prints the error with its line, and adds nothing. */
bool signalling_read_sdp(signalling *it, const char *path);

/* Takes a payload type as PT=NAME/RATE, PT=NAME/RATE/CHANNELS or one of both with ;PARAMETERS behind it. */
bool signalling_map(signalling *it, const char *text);

/* The codec of a payload type of a stream. A type given by hand comes first. Next is the section of the SDP that matches the stream:
 * by its SSRC, by its port, or by the payload type, in this order. Last is RFC 3551. */
codec_use signalling_use(const signalling *it, const wire_flow *flow, uint32_t ssrc, uint8_t payload_type);

/* Whether that section says SRTP. */
bool signalling_encrypts(const signalling *it, const wire_flow *flow, uint32_t ssrc, uint8_t payload_type);

/* The payload type of RED (CODEC_RED) or retransmissions (CODEC_RTX) that names the payload type of media; or of RED that names none and
 * has the rate of the media. PAYLOAD_TYPES: none is signalled. */
uint8_t signalling_around(const signalling *it, const wire_flow *flow, uint32_t ssrc, const codec_use *media, uint8_t payload_type,
                          codec_kind kind);

/* The source of an SDP whose media or retransmissions have this SSRC (RFC 5576, section 4.2). NULL: there is none. */
const cpay_sdp_source *signalling_source(const signalling *it, uint32_t ssrc);

void signalling_free(signalling *it);

#endif

/* Bytes from the network: link, IP and UDP headers, the type of a datagram, and RTCP sender reports.
 *
 * Only the library, libpcap and wire.c read untrusted bytes. All its reads go through a reader that knows where its
 * bytes end; nothing is allocated, and each loop takes at least a byte a turn. */
#ifndef RTP_RECORD_WIRE_H
#define RTP_RECORD_WIRE_H

#include <stdbool.h>
#include <stddef.h>
#include <stdint.h>

/* Bytes that are still to be read. */
typedef struct {
    const uint8_t *at;
    size_t left;
} wire_bytes;

/* The ends of a flow. IPv4 addresses are the first four bytes, and the others are 0. No byte of padding, so that flows compare
 * as bytes. */
typedef struct {
    uint8_t source[16];
    uint8_t destination[16];
    uint16_t source_port;
    uint16_t destination_port;
    uint32_t version; /* 4 or 6 */
} wire_flow;

typedef struct {
    wire_flow flow;
    wire_bytes payload;
} wire_datagram;

typedef enum {
    WIRE_UDP,       /* a whole UDP datagram */
    WIRE_NOT_UDP,   /* another protocol */
    WIRE_FRAGMENT,  /* a fragment of an IP packet */
    WIRE_CUT,       /* the capture has only its beginning */
    WIRE_MALFORMED, /* its headers contradict one another */
} wire_kind;

/* Whether wire_read knows a link type, one of libpcap's DLT_*. */
bool wire_knows_link(int link_type);

/* Reads the headers in front of a UDP payload: Ethernet with VLAN tags, loopback, Linux cooked of both versions, or none; IPv4
 * or IPv6. Of a packet that had `length` bytes `captured` are there. *datagram is written with WIRE_UDP alone, and lends the
 * bytes. */
wire_kind wire_read(int link_type, const uint8_t *bytes, size_t captured, size_t length, wire_datagram *datagram);

/* What a datagram is by its first byte, where protocols share a port (RFC 7983, section 7). */
typedef enum { WIRE_STUN, WIRE_ZRTP, WIRE_DTLS, WIRE_TURN, WIRE_RTP_OR_RTCP, WIRE_UNKNOWN } wire_protocol;

wire_protocol wire_protocol_of(wire_bytes payload);

/* What a sender report says (RFC 3550, section 6.4.1). */
typedef struct {
    uint32_t ssrc;
    uint64_t ntp;      /* seconds since 1900 in the upper 32 bits, fractions in the lower */
    uint32_t rtp_time; /* the same moment by the RTP clock */
} wire_report;

/* Takes the bytes of a compound RTCP packet up to its next sender report, and reads the report. Reports of a sender without a clock are
 * skipped. false: no report follows, or the next bytes are not RTCP. */
bool wire_next_report(wire_bytes *rtcp, wire_report *report);

/* Writes an end of a flow as text: 10.0.0.1:5004, [::1]:5004. */
enum { WIRE_END_TEXT = 56 };
void wire_source_text(const wire_flow *flow, char text[WIRE_END_TEXT]);
void wire_destination_text(const wire_flow *flow, char text[WIRE_END_TEXT]);

#endif

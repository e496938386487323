#include "wire.h"

#include <arpa/inet.h>
#include <pcap/dlt.h>
#include <stdio.h>
#include <string.h>

enum { ETHERTYPE_IPV4 = 0x0800, ETHERTYPE_IPV6 = 0x86dd, ETHERTYPE_VLAN = 0x8100, ETHERTYPE_QINQ = 0x88a8, ETHERTYPE_QINQ_OLD = 0x9100 };
enum { PROTOCOL_HOP_BY_HOP = 0, PROTOCOL_UDP = 17, PROTOCOL_ROUTING = 43, PROTOCOL_FRAGMENT = 44, PROTOCOL_OPTIONS = 60 };
enum { RTCP_SENDER_REPORT = 200 };

/* ---- Reading ---- */

static bool skip(wire_bytes *bytes, size_t count) {
    if (bytes->left < count) return false;
    bytes->at += count;
    bytes->left -= count;
    return true;
}

/* Takes bytes from the front, or leaves all where they are too few. */
static bool take(wire_bytes *bytes, size_t count, wire_bytes *taken) {
    const uint8_t *front = bytes->at;
    if (!skip(bytes, count)) return false;
    *taken = (wire_bytes){.at = front, .left = count};
    return true;
}

static bool take_8(wire_bytes *bytes, uint8_t *value) {
    wire_bytes taken;
    if (!take(bytes, 1, &taken)) return false;
    *value = taken.at[0];
    return true;
}

static bool take_16(wire_bytes *bytes, uint16_t *value) {
    wire_bytes taken;
    if (!take(bytes, 2, &taken)) return false;
    *value = (uint16_t)(taken.at[0] << 8 | taken.at[1]);
    return true;
}

static bool take_32(wire_bytes *bytes, uint32_t *value) {
    wire_bytes taken;
    if (!take(bytes, 4, &taken)) return false;
    *value = (uint32_t)taken.at[0] << 24 | (uint32_t)taken.at[1] << 16 | (uint32_t)taken.at[2] << 8 | taken.at[3];
    return true;
}

/* Takes an address of `count` bytes, and fills the rest with zeros. */
static bool take_address(wire_bytes *bytes, size_t count, uint8_t address[16]) {
    wire_bytes taken;
    if (!take(bytes, count, &taken)) return false;
    memset(address, 0, 16);
    memcpy(address, taken.at, count);
    return true;
}

/* Keeps at most `count` bytes; false where there are fewer. */
static bool keep(wire_bytes *bytes, size_t count) {
    if (bytes->left < count) return false;
    bytes->left = count;
    return true;
}

/* ---- Links ---- */

bool wire_knows_link(int link_type) {
    switch (link_type) {
    case DLT_NULL:
    case DLT_LOOP:
    case DLT_EN10MB:
    case DLT_RAW:
    case DLT_IPV4:
    case DLT_IPV6:
    case DLT_LINUX_SLL:
    case DLT_LINUX_SLL2: return true;
    default: return false;
    }
}

/* The EtherType that an IP packet has by its first four bits. */
static uint16_t type_of_ip(wire_bytes bytes) {
    if (!bytes.left) return 0;
    if (bytes.at[0] >> 4 == 4) return ETHERTYPE_IPV4;
    return bytes.at[0] >> 4 == 6 ? ETHERTYPE_IPV6 : 0;
}

/* Takes the link's header and VLAN tags, and writes the EtherType of the next header. */
static bool take_link(int link_type, wire_bytes *bytes, uint16_t *type) {
    bool taken = false;
    switch (link_type) {
    case DLT_EN10MB: taken = skip(bytes, 12) && take_16(bytes, type); break;
    case DLT_LINUX_SLL: taken = skip(bytes, 14) && take_16(bytes, type); break;
    case DLT_LINUX_SLL2: taken = take_16(bytes, type) && skip(bytes, 18); break;
    case DLT_NULL:
    case DLT_LOOP: /* the family's number differs between systems, so the packet itself says which IP it is */
        taken = skip(bytes, 4);
        *type = type_of_ip(*bytes);
        break;
    default:
        taken = true;
        *type = type_of_ip(*bytes);
        break;
    }
    while (taken && (*type == ETHERTYPE_VLAN || *type == ETHERTYPE_QINQ || *type == ETHERTYPE_QINQ_OLD))
        taken = skip(bytes, 2) && take_16(bytes, type);
    return taken;
}

/* ---- IP and UDP ---- */

/* Reads an IP header. WIRE_UDP: a UDP header follows, and *missing is the number of bytes that the capture cut from the packet. */
static wire_kind take_ipv4(wire_bytes *bytes, wire_flow *flow, size_t *missing) {
    wire_bytes header = *bytes;
    uint8_t first = 0;
    uint8_t protocol = 0;
    uint16_t total = 0;
    uint16_t fragment = 0;
    if (!take_8(&header, &first) || !skip(&header, 1) || !take_16(&header, &total) || !skip(&header, 2) ||
        !take_16(&header, &fragment) || !skip(&header, 1) || !take_8(&header, &protocol) || !skip(&header, 2) ||
        !take_address(&header, 4, flow->source) || !take_address(&header, 4, flow->destination))
        return WIRE_CUT;
    size_t header_length = (size_t)(first & 15) * 4;
    if (first >> 4 != 4 || header_length < 20 || total < header_length) return WIRE_MALFORMED;
    if (fragment & 0x3fff) return WIRE_FRAGMENT; /* "more fragments", or an offset */
    if (protocol != PROTOCOL_UDP) return WIRE_NOT_UDP;
    *missing = bytes->left < total ? total - bytes->left : 0;
    if (!*missing) keep(bytes, total);
    flow->version = 4;
    return skip(bytes, header_length) ? WIRE_UDP : WIRE_CUT;
}

static wire_kind take_ipv6(wire_bytes *bytes, wire_flow *flow, size_t *missing) {
    uint8_t first = 0;
    uint8_t next = 0;
    uint16_t length = 0;
    if (!take_8(bytes, &first) || !skip(bytes, 3) || !take_16(bytes, &length) || !take_8(bytes, &next) || !skip(bytes, 1) ||
        !take_address(bytes, 16, flow->source) || !take_address(bytes, 16, flow->destination))
        return WIRE_CUT;
    if (first >> 4 != 6) return WIRE_MALFORMED;
    *missing = bytes->left < length ? length - bytes->left : 0;
    if (!*missing) keep(bytes, length);
    while (next == PROTOCOL_HOP_BY_HOP || next == PROTOCOL_ROUTING || next == PROTOCOL_OPTIONS) {
        uint8_t units = 0;
        if (!take_8(bytes, &next) || !take_8(bytes, &units) || !skip(bytes, 6 + (size_t)units * 8))
            return *missing ? WIRE_CUT : WIRE_MALFORMED;
    }
    if (next == PROTOCOL_FRAGMENT) return WIRE_FRAGMENT;
    flow->version = 6;
    return next == PROTOCOL_UDP ? WIRE_UDP : WIRE_NOT_UDP;
}

wire_kind wire_read(int link_type, const uint8_t *bytes, size_t captured, size_t length, wire_datagram *datagram) {
    wire_bytes rest = {.at = bytes, .left = captured};
    wire_kind short_by = captured < length ? WIRE_CUT : WIRE_MALFORMED;
    wire_datagram found = {0};
    size_t missing = 0;
    uint16_t type = 0;
    uint16_t udp_length = 0;
    if (!take_link(link_type, &rest, &type)) return short_by;
    if (type != ETHERTYPE_IPV4 && type != ETHERTYPE_IPV6) return WIRE_NOT_UDP;
    wire_kind kind =
        type == ETHERTYPE_IPV4 ? take_ipv4(&rest, &found.flow, &missing) : take_ipv6(&rest, &found.flow, &missing);
    if (kind == WIRE_CUT) return short_by;
    if (kind != WIRE_UDP) return kind;
    if (missing) return short_by;
    if (!take_16(&rest, &found.flow.source_port) || !take_16(&rest, &found.flow.destination_port) || !take_16(&rest, &udp_length) ||
        !skip(&rest, 2) || udp_length < 8 || !keep(&rest, (size_t)udp_length - 8))
        return WIRE_MALFORMED;
    found.payload = rest;
    *datagram = found;
    return WIRE_UDP;
}

wire_protocol wire_protocol_of(wire_bytes payload) {
    uint8_t first = 0;
    if (!take_8(&payload, &first)) return WIRE_UNKNOWN;
    if (first <= 3) return WIRE_STUN;
    if (first >= 16 && first <= 19) return WIRE_ZRTP;
    if (first >= 20 && first <= 63) return WIRE_DTLS;
    if (first >= 64 && first <= 79) return WIRE_TURN;
    return first >= 128 && first <= 191 ? WIRE_RTP_OR_RTCP : WIRE_UNKNOWN;
}

/* ---- RTCP ---- */

/* Takes the next packet of a compound one: its type, and its bytes after the header. */
static bool take_rtcp(wire_bytes *rtcp, uint8_t *type, wire_bytes *packet) {
    uint8_t first = 0;
    uint16_t words = 0;
    return take_8(rtcp, &first) && take_8(rtcp, type) && take_16(rtcp, &words) && first >> 6 == 2 &&
           take(rtcp, (size_t)words * 4, packet);
}

/* Takes what the two clocks of a sender say; false if the sender has no clock, and so reports a moment of 0. */
static bool take_moment(wire_bytes *packet, wire_report *report) {
    uint32_t seconds = 0;
    uint32_t fraction = 0;
    if (!take_32(packet, &report->ssrc) || !take_32(packet, &seconds) || !take_32(packet, &fraction) ||
        !take_32(packet, &report->rtp_time))
        return false;
    report->ntp = (uint64_t)seconds << 32 | fraction;
    return report->ntp != 0;
}

bool wire_next_report(wire_bytes *rtcp, wire_report *report) {
    uint8_t type = 0;
    wire_bytes packet;
    while (take_rtcp(rtcp, &type, &packet))
        if (type == RTCP_SENDER_REPORT && take_moment(&packet, report)) return true;
    return false;
}

/* ---- Text ---- */

static void end_text(const wire_flow *flow, const uint8_t address[16], uint16_t port, char text[WIRE_END_TEXT]) {
    char host[INET6_ADDRSTRLEN] = "?";
    inet_ntop(flow->version == 6 ? AF_INET6 : AF_INET, address, host, sizeof host);
    snprintf(text, WIRE_END_TEXT, flow->version == 6 ? "[%s]:%u" : "%s:%u", host, (unsigned)port);
}

void wire_source_text(const wire_flow *flow, char text[WIRE_END_TEXT]) {
    end_text(flow, flow->source, flow->source_port, text);
}

void wire_destination_text(const wire_flow *flow, char text[WIRE_END_TEXT]) {
    end_text(flow, flow->destination, flow->destination_port, text);
}

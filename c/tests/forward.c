/* Forwarders and stores: the bytes of packets by RFC 3550, RFC 4588 and RFC 7741, written by hand; statuses; hostile datagrams; and an
 * SFU between two layers of VP8 and a viewer, with losses on both hops. */
#include "any.h"
#include "check.h"
#include "codec_payload.h"

enum { UNTOUCHED = 0xaa, ROOM = 1500, FRAME = 3500, VIEWER = 0x7777 };

/* A call with its outputs. */
typedef struct {
    uint8_t bytes[ROOM];
    size_t size;
    uint32_t answer;
} output;

static void clear(output *to) {
    memset(to->bytes, UNTOUCHED, sizeof to->bytes);
    to->size = 7;
    to->answer = 99;
}

static bool is_untouched(const output *it, size_t from) {
    for (size_t i = from; i < sizeof it->bytes; i++)
        if (it->bytes[i] != UNTOUCHED) return false;
    return true;
}

static bool changed_nothing(const output *it, size_t size) { return it->size == size && it->answer == 99 && is_untouched(it, 0); }

static cpay_status write(cpay_forwarder *it, uint64_t now, const uint8_t *datagram, size_t size, size_t room, output *to) {
    cpay_forwarded forwarded = (cpay_forwarded)99;
    clear(to);
    cpay_status status = cpay_forwarder_write(it, now, datagram, size, to->bytes, room, &to->size, &forwarded);
    to->answer = forwarded;
    return status;
}

static cpay_status leave_out(cpay_forwarder *it, const uint8_t *datagram, size_t size, size_t room, output *to) {
    cpay_forwarded forwarded = (cpay_forwarded)99;
    clear(to);
    cpay_status status = cpay_forwarder_leave_out(it, datagram, size, to->bytes, room, &to->size, &forwarded);
    to->answer = forwarded;
    return status;
}

static cpay_status resend(cpay_forwarder *it, cpay_history *store, uint16_t number, size_t room, output *to) {
    cpay_resent resent = (cpay_resent)99;
    clear(to);
    cpay_status status = cpay_forwarder_resend(it, store, number, to->bytes, room, &to->size, &resent);
    to->answer = resent;
    return status;
}

static cpay_kept_once keep(cpay_history *store, const uint8_t *datagram, size_t size) {
    cpay_kept_once kept = (cpay_kept_once)99;
    CHECK(cpay_history_keep_once(store, datagram, size, &kept) == CPAY_OK);
    return kept;
}

static bool wrote(const output *it, uint32_t answer, const uint8_t *bytes, size_t size) {
    return it->answer == answer && it->size == size && !memcmp(it->bytes, bytes, size) && is_untouched(it, size);
}

static bool wrote_nothing(const output *it, uint32_t answer) {
    return it->answer == answer && it->size == 0 && is_untouched(it, 0);
}

static uint16_t number_of(const output *it) { return (uint16_t)(it->bytes[2] << 8 | it->bytes[3]); }

static cpay_forwarder_settings settings_for(cpay_codec codec) {
    cpay_forwarder_settings settings;
    cpay_forwarder_settings_init(&settings, codec, VIEWER, 101);
    settings.first_number = 65530;
    settings.first_time = UINT32_MAX - 5000;
    return settings;
}

static void make(cpay_forwarder *it, cpay_codec codec) {
    const cpay_forwarder_settings settings = settings_for(codec);
    CHECK(cpay_forwarder_new(it, &settings) == CPAY_OK);
}

static void make_store(cpay_history *it) {
    const cpay_history_settings settings = {.limit = 2048};
    CHECK(cpay_history_new(it, &settings) == CPAY_OK);
}

/* The marker, payload type 96, number 0x1234, time 256, SSRC 9, a CSRC, an extension of one word, the payload 42 43 and two bytes of
 * padding; and the same as the viewer gets it: number 65530, the first time, SSRC 0x7777, payload type 101, no CSRC, no extension. */
static const uint8_t ARRIVED[28] = {0xb1, 0xe0, 0x12, 0x34, 0, 0, 1, 0, 0, 0, 0, 9, 1, 2, 3, 4, 0xbe, 0xde, 0, 1, 0x10, 5, 0, 0,
                                    42,   43,   0,    2};
static const uint8_t SENT[16] = {0xa0, 0xe5, 0xff, 0xfa, 0xff, 0xff, 0xec, 0x77, 0, 0, 0x77, 0x77, 42, 43, 0, 2};

/* The packet with that number, time 7 and SSRC, and this payload. */
static size_t put_packet(uint8_t *to, uint16_t number, uint8_t ssrc, const uint8_t *payload, size_t size) {
    const uint8_t header[12] = {0x80, 0x80 | 96, (uint8_t)(number >> 8), (uint8_t)number, 0, 0, 0, 7, 0, 0, 0, ssrc};
    memcpy(to, header, sizeof header);
    if (size) memcpy(to + 12, payload, size);
    return 12 + size;
}

/* Each byte of a packet; and output buffers that are too small, also for a packet that is not written: nothing changes. */
static void bytes(void) {
    cpay_forwarder it = CPAY_INIT;
    output to;
    uint32_t ssrc = 5;
    make(&it, CPAY_OPUS);
    CHECK(write(&it, 0, ARRIVED, sizeof ARRIVED, ROOM, &to) == CPAY_OK && wrote_nothing(&to, CPAY_FORWARDED_OTHER_SOURCE));
    CHECK(write(&it, 0, ARRIVED, sizeof ARRIVED, 15, &to) == CPAY_TOO_SMALL && changed_nothing(&to, 16));
    CHECK(cpay_forwarder_source(&it, &ssrc) == CPAY_NONE && cpay_forwarder_wanted(&it, &ssrc) == CPAY_NONE && ssrc == 5);
    CHECK(cpay_forwarder_want(&it, 9) == CPAY_OK && cpay_forwarder_wanted(&it, &ssrc) == CPAY_OK && ssrc == 9);
    CHECK(cpay_forwarder_source(&it, &ssrc) == CPAY_NONE);
    for (size_t room = 0; room < 16; room++)
        CHECK(write(&it, 0, ARRIVED, sizeof ARRIVED, room, &to) == CPAY_TOO_SMALL && changed_nothing(&to, 16));
    CHECK(write(&it, 0, ARRIVED, sizeof ARRIVED, 16, &to) == CPAY_OK && wrote(&to, CPAY_FORWARDED_BEGAN, SENT, sizeof SENT));
    CHECK(cpay_forwarder_source(&it, &ssrc) == CPAY_OK && ssrc == 9);
    CHECK(write(&it, 9, ARRIVED, sizeof ARRIVED, ROOM, &to) == CPAY_OK && wrote(&to, CPAY_FORWARDED_WRITTEN, SENT, sizeof SENT));
    CHECK(cpay_forwarder_mute(&it) == CPAY_OK && cpay_forwarder_source(&it, &ssrc) == CPAY_NONE);
    CHECK(write(&it, 9, ARRIVED, sizeof ARRIVED, ROOM, &to) == CPAY_OK && wrote_nothing(&to, CPAY_FORWARDED_OTHER_SOURCE));
    /* not RTP packets */
    for (size_t size = 0; size < 12; size++) {
        CHECK(write(&it, 0, ARRIVED, size, ROOM, &to) == CPAY_RTP_HEADER_TOO_SHORT && changed_nothing(&to, 7));
        CHECK(leave_out(&it, ARRIVED, size, ROOM, &to) == CPAY_RTP_HEADER_TOO_SHORT && changed_nothing(&to, 7));
    }
    CHECK(write(&it, 0, ARRIVED, 15, ROOM, &to) == CPAY_RTP_CSRCS_TOO_SHORT && changed_nothing(&to, 7));
    CHECK(write(&it, 0, (const uint8_t *)"............", 12, ROOM, &to) == CPAY_RTP_VERSION && changed_nothing(&to, 7));
    cpay_forwarder_free(&it);
}

/* VP8, VP9 and AV1: a payload with which no viewer can begin, and one with which each can. */
static void keyframes(void) {
    static const struct {
        cpay_codec codec;
        uint8_t other[3], first[3];
    } cases[] = {
        {CPAY_VP8, {0x10, 0x01, 7}, {0x10, 0x00, 7}},
        {CPAY_VP8, {0x00, 0x00, 7}, {0x10, 0x00, 7}},
        {CPAY_VP9, {0x04, 7, 7}, {0x08, 7, 7}},
        {CPAY_AV1, {0x98, 7, 7}, {0x18, 7, 7}},
    };
    uint8_t packet[32];
    output to;
    for (size_t i = 0; i < sizeof cases / sizeof *cases; i++) {
        cpay_forwarder it = CPAY_INIT;
        make(&it, cases[i].codec);
        CHECK(cpay_forwarder_want(&it, 1) == CPAY_OK);
        size_t size = put_packet(packet, 10, 1, cases[i].other, 3);
        CHECK(write(&it, 0, packet, size, ROOM, &to) == CPAY_OK && wrote_nothing(&to, CPAY_FORWARDED_NO_KEYFRAME));
        put_packet(packet, 11, 1, cases[i].first, 3);
        CHECK(write(&it, 0, packet, size, ROOM, &to) == CPAY_OK && to.answer == CPAY_FORWARDED_BEGAN && number_of(&to) == 65530);
        put_packet(packet, 10, 1, cases[i].other, 3);
        CHECK(write(&it, 0, packet, size, ROOM, &to) == CPAY_OK && wrote_nothing(&to, CPAY_FORWARDED_TOO_OLD));
        put_packet(packet, 13, 1, cases[i].other, 3);
        CHECK(write(&it, 0, packet, size, ROOM, &to) == CPAY_OK && to.answer == CPAY_FORWARDED_WRITTEN && number_of(&to) == 65532);
        cpay_forwarder_free(&it);
    }
}

/* A packet that is left out takes no number; late, its number is filled with padding. */
static void left_out(void) {
    static const uint8_t payload[2] = {0x18, 7};
    cpay_forwarder it = CPAY_INIT;
    cpay_forwarder_counts_info counts = {0};
    uint8_t packet[14];
    output to;
    make(&it, CPAY_AV1);
    CHECK(cpay_forwarder_want(&it, 1) == CPAY_OK);
    size_t size = put_packet(packet, 10, 1, payload, 2);
    CHECK(leave_out(&it, packet, size, ROOM, &to) == CPAY_OK && wrote_nothing(&to, CPAY_FORWARDED_OTHER_SOURCE));
    CHECK(write(&it, 0, packet, size, ROOM, &to) == CPAY_OK && to.answer == CPAY_FORWARDED_BEGAN);
    put_packet(packet, 11, 1, payload, 2);
    CHECK(leave_out(&it, packet, size, 12, &to) == CPAY_TOO_SMALL && changed_nothing(&to, 13));
    CHECK(leave_out(&it, packet, size, 13, &to) == CPAY_OK && wrote_nothing(&to, CPAY_FORWARDED_LEFT_OUT));
    put_packet(packet, 12, 1, payload, 2);
    CHECK(write(&it, 0, packet, size, ROOM, &to) == CPAY_OK && to.answer == CPAY_FORWARDED_WRITTEN && number_of(&to) == 65531);
    put_packet(packet, 14, 1, payload, 2);
    CHECK(write(&it, 0, packet, size, ROOM, &to) == CPAY_OK && to.answer == CPAY_FORWARDED_WRITTEN && number_of(&to) == 65533);
    /* 13 was lost and comes late; 11 comes again, and is wanted now */
    put_packet(packet, 13, 1, payload, 2);
    CHECK(leave_out(&it, packet, size, ROOM, &to) == CPAY_OK && to.answer == CPAY_FORWARDED_FILLED && number_of(&to) == 65532);
    CHECK(to.size == 13 && to.bytes[0] == 0xa0 && to.bytes[12] == 1);
    put_packet(packet, 11, 1, payload, 2);
    CHECK(write(&it, 0, packet, size, ROOM, &to) == CPAY_OK && wrote_nothing(&to, CPAY_FORWARDED_LEFT_OUT));
    put_packet(packet, 9, 1, payload, 2);
    CHECK(leave_out(&it, packet, size, ROOM, &to) == CPAY_OK && wrote_nothing(&to, CPAY_FORWARDED_TOO_OLD));
    CHECK(cpay_forwarder_counts(&it, &counts) == CPAY_OK);
    CHECK(counts.packets == 4 && counts.octets == 6 && counts.switches == 1 && counts.filled == 1);
    CHECK(counts.left_out == 2 && counts.refused == 2 && counts.resent == 0);
    cpay_forwarder_free(&it);
}

/* A VP8 payload with a PictureID of 15 bits, TL0PICIDX and TID 1 (RFC 7741, section 4.2), in a packet. */
static size_t put_vp8(uint8_t *to, uint16_t number, uint8_t ssrc, uint16_t id, uint8_t tl0, bool keyframe) {
    const uint8_t payload[8] = {0x90, 0xe0, (uint8_t)(0x80 | id >> 8), (uint8_t)id, tl0, 0x40, !keyframe, 9};
    return put_packet(to, number, ssrc, payload, sizeof payload);
}

/* A layer that the viewer does not want: PictureIDs close up behind each picture that is left out (RFC 7741, section 4.2). */
static void pictures_close_up(void) {
    cpay_forwarder_settings settings = settings_for(CPAY_VP8);
    cpay_forwarder it = CPAY_INIT;
    uint8_t packet[20];
    output to;
    CHECK(cpay_forwarder_new(&it, &settings) == CPAY_OK && cpay_forwarder_want(&it, 1) == CPAY_OK);
    for (uint16_t n = 0; n < 40000; n++) {
        size_t size = put_vp8(packet, n, 1, (uint16_t)((500 + n) & 0x7fff), 77, n == 0);
        if (n % 3 == 2) {
            CHECK(leave_out(&it, packet, size, ROOM, &to) == CPAY_OK && wrote_nothing(&to, CPAY_FORWARDED_LEFT_OUT));
            continue;
        }
        uint16_t id = (uint16_t)(n - n / 3) & 0x7fff;
        CHECK(write(&it, 0, packet, size, ROOM, &to) == CPAY_OK && to.size == size);
        CHECK(to.bytes[14] == (0x80 | id >> 8) && to.bytes[15] == (id & 0xff));
    }
    cpay_forwarder_free(&it);
}

/* What the viewer requests: wrapped, and as it was sent; each with output buffers that are too small. */
static void resent(void) {
    /* SSRC 0x8888, payload type 102, the number of the retransmission, the first time, 65530 in front; then the ids of the viewer */
    static const uint8_t wrapped[22] = {0x80, 0xe6, 0xff, 0xff, 0xff, 0xff, 0xec, 0x77, 0, 0, 0x88, 0x88, 0xff, 0xfa,
                                        0x90, 0xe0, 0x80, 0,    0,    0x40, 0,    9};
    cpay_forwarder_settings settings = settings_for(CPAY_VP8);
    cpay_forwarder it = CPAY_INIT;
    cpay_history store = CPAY_INIT, other = CPAY_INIT;
    cpay_forwarder_counts_info counts = {0};
    cpay_sender_report_info report = {0};
    uint8_t packet[20];
    output to, before;
    make_store(&store);
    make_store(&other);
    settings.has_rtx = true;
    settings.rtx_ssrc = 0x8888;
    settings.rtx_payload_type = 102;
    settings.rtx_first_number = 65535;
    CHECK(cpay_forwarder_new(&it, &settings) == CPAY_OK && cpay_forwarder_want(&it, 1) == CPAY_OK);
    CHECK(resend(&it, &store, 65530, ROOM, &to) == CPAY_OK && wrote_nothing(&to, CPAY_RESENT_NOT_KEPT));
    size_t size = put_vp8(packet, 10, 1, 500, 77, true);
    CHECK(keep(&store, packet, size) == CPAY_KEPT_NEW && write(&it, 0, packet, size, ROOM, &to) == CPAY_OK);
    for (size_t room = 0; room < 22; room++)
        CHECK(resend(&it, &store, 65530, room, &to) == CPAY_TOO_SMALL && changed_nothing(&to, 22));
    CHECK(resend(&it, &store, 65530, 22, &to) == CPAY_OK && wrote(&to, CPAY_RESENT_WRITTEN, wrapped, 22));
    CHECK(resend(&it, &store, 65530, ROOM, &to) == CPAY_OK && to.size == 22 && to.bytes[2] == 0 && to.bytes[3] == 0);
    /* the packet above the highest number; a store without the packet; the same number of another source */
    CHECK(resend(&it, &store, 65531, ROOM, &to) == CPAY_OK && wrote_nothing(&to, CPAY_RESENT_NOT_KEPT));
    CHECK(resend(&it, &other, 65530, ROOM, &to) == CPAY_OK && wrote_nothing(&to, CPAY_RESENT_NOT_KEPT));
    put_vp8(packet, 10, 2, 500, 77, true);
    CHECK(keep(&other, packet, size) == CPAY_KEPT_NEW);
    CHECK(resend(&it, &other, 65530, ROOM, &to) == CPAY_OK && wrote_nothing(&to, CPAY_RESENT_NOT_KEPT));
    CHECK(cpay_forwarder_counts(&it, &counts) == CPAY_OK && counts.packets == 1 && counts.octets == 8 && counts.resent == 2);
    CHECK(cpay_forwarder_report(&it, 2, 0, &report) == CPAY_NONE && report.ssrc == 0);
    CHECK(cpay_forwarder_report(&it, 1, 107, &report) == CPAY_OK);
    CHECK(report.ssrc == VIEWER && report.rtp_time == UINT32_MAX - 4900 && report.packets == 1 && report.octets == 8);
    cpay_forwarder_free(&it);

    settings.has_rtx = false;
    CHECK(cpay_forwarder_new(&it, &settings) == CPAY_OK && cpay_forwarder_want(&it, 1) == CPAY_OK);
    put_vp8(packet, 10, 1, 500, 77, true);
    CHECK(write(&it, 0, packet, size, ROOM, &before) == CPAY_OK && before.size == size);
    CHECK(resend(&it, &store, 65530, size - 1, &to) == CPAY_TOO_SMALL && changed_nothing(&to, size));
    CHECK(resend(&it, &store, 65530, size, &to) == CPAY_OK && wrote(&to, CPAY_RESENT_WRITTEN, before.bytes, size));
    CHECK(cpay_forwarder_counts(&it, &counts) == CPAY_OK && counts.packets == 2 && counts.octets == 16 && counts.resent == 1);
    cpay_forwarder_free(&it);
    cpay_history_free(&store);
    cpay_history_free(&other);
}

/* Each number once: the first datagram of a number is the one that is resent. */
static void stored_once(void) {
    static const uint8_t payloads[2] = {1, 2};
    const cpay_history_settings settings = {.limit = 10};
    cpay_history store = CPAY_INIT;
    cpay_resent resent_as = CPAY_RESENT_NOT_KEPT;
    cpay_kept_once kept = (cpay_kept_once)99;
    uint8_t packet[13], found[13];
    size_t size = put_packet(packet, 20, 1, payloads, 1), found_size = 0;
    CHECK(cpay_history_new(&store, &settings) == CPAY_OK);
    CHECK(keep(&store, packet, size) == CPAY_KEPT_NEW && keep(&store, packet, size) == CPAY_KEPT_KNOWN);
    put_packet(packet, 20, 1, payloads + 1, 1);
    CHECK(keep(&store, packet, size) == CPAY_KEPT_KNOWN);
    CHECK(cpay_history_resend(&store, 0, 20, found, sizeof found, &found_size, &resent_as) == CPAY_OK && found[12] == 1);
    for (uint16_t number = 11; number < 25; number++) {
        put_packet(packet, number, 1, payloads, 1);
        CHECK(keep(&store, packet, size) == (number == 20 ? CPAY_KEPT_KNOWN : CPAY_KEPT_NEW));
    }
    put_packet(packet, 14, 1, payloads, 1); /* ten below 24 */
    CHECK(keep(&store, packet, size) == CPAY_KEPT_OUTDATED);
    /* two numbers that follow each other far below: the sender has restarted, unless a packet comes in between */
    put_packet(packet, 60000, 1, payloads, 1);
    CHECK(keep(&store, packet, size) == CPAY_KEPT_OUTDATED);
    put_packet(packet, 24, 1, payloads, 1);
    CHECK(keep(&store, packet, size) == CPAY_KEPT_KNOWN);
    put_packet(packet, 60001, 1, payloads, 1);
    CHECK(keep(&store, packet, size) == CPAY_KEPT_OUTDATED);
    put_packet(packet, 60002, 1, payloads, 1);
    CHECK(keep(&store, packet, size) == CPAY_KEPT_NEW && keep(&store, packet, size) == CPAY_KEPT_KNOWN);
    put_packet(packet, 24, 1, payloads, 1);
    CHECK(keep(&store, packet, size) == CPAY_KEPT_NEW);
    CHECK(cpay_history_keep_once(&store, packet, 11, &kept) == CPAY_RTP_HEADER_TOO_SHORT && kept == 99);
    CHECK(cpay_history_keep_once(&store, NULL, 1, &kept) == CPAY_INVALID && kept == 99);
    cpay_history_free(&store);
}

/* The packet that a retransmission repeats, with the CSRC and the extension of the retransmission, and without its padding. */
static void originals(void) {
    static const uint8_t again[31] = {0xb1, 0xe1, 0xff, 0xff, 1,    2,    3, 4, 7,   8,   9,   10, 9, 9, 9, 9,
                                      0xbe, 0xde, 0,    1,    0x10, 0x42, 0, 0, 0x12, 0x34, 'a', 'b', 'c', 0, 2};
    static const uint8_t original[27] = {0x91, 0xe0, 0x12, 0x34, 1,    2,    3, 4, 5,   6,   7, 8, 9, 9, 9, 9,
                                         0xbe, 0xde, 0,    1,    0x10, 0x42, 0, 0, 'a', 'b', 'c'};
    output to;
    for (size_t room = 0; room < 27; room++) {
        clear(&to);
        CHECK(cpay_rtx_original(0x05060708, 96, again, 31, to.bytes, room, &to.size) == CPAY_TOO_SMALL && changed_nothing(&to, 27));
    }
    CHECK(cpay_rtx_original(0x05060708, 96, again, 31, to.bytes, 27, &to.size) == CPAY_OK && wrote(&to, 99, original, 27));
    clear(&to);
    CHECK(cpay_rtx_original(1, 128, again, 31, to.bytes, ROOM, &to.size) == CPAY_INVALID && changed_nothing(&to, 7));
    CHECK(cpay_rtx_original(1, 96, again, 15, to.bytes, ROOM, &to.size) == CPAY_RTP_CSRCS_TOO_SHORT && changed_nothing(&to, 7));
    CHECK(cpay_rtx_original(1, 96, NULL, 1, to.bytes, ROOM, &to.size) == CPAY_INVALID && changed_nothing(&to, 7));
    for (size_t size = 12; size < 14; size++) {
        uint8_t padding[14] = {0x80, 97};
        CHECK(cpay_rtx_original(1, 96, padding, size, to.bytes, ROOM, &to.size) == CPAY_RTX_TOO_SHORT && changed_nothing(&to, 7));
    }
}

/* Settings out of range, and handles that are empty, in use or of another type. */
static void refusals(void) {
    any it = ANY_INIT, store = ANY_INIT;
    cpay_forwarder_settings settings = settings_for(CPAY_VP8);
    cpay_forwarder_counts_info counts = {.packets = 5};
    cpay_sender_report_info report = {.ssrc = 5};
    uint32_t ssrc = 5;
    output to;
    CHECK(settings.codec == CPAY_VP8 && settings.ssrc == VIEWER && settings.payload_type == 101 && !settings.has_rtx);
    settings.payload_type = 128;
    CHECK(cpay_forwarder_new(&it.forwarder, &settings) == CPAY_INVALID);
    settings.payload_type = 127;
    settings.rtx_payload_type = 128;
    settings.has_rtx = true;
    CHECK(cpay_forwarder_new(&it.forwarder, &settings) == CPAY_INVALID);
    settings.rtx_payload_type = 127;
    for (uint32_t codec = 6; codec < 9; codec++) { /* reserved for H.26x */
        settings.codec = (cpay_codec)codec;
        CHECK(cpay_forwarder_new(&it.forwarder, &settings) == CPAY_INVALID);
    }
    settings.codec = (cpay_codec)14;
    CHECK(cpay_forwarder_new(&it.forwarder, &settings) == CPAY_INVALID);
    settings.codec = CPAY_TELE;
    CHECK(cpay_forwarder_want(&it.forwarder, 9) == CPAY_EMPTY && cpay_forwarder_mute(&it.forwarder) == CPAY_EMPTY);
    CHECK(cpay_forwarder_source(&it.forwarder, &ssrc) == CPAY_EMPTY && cpay_forwarder_wanted(&it.forwarder, &ssrc) == CPAY_EMPTY);
    CHECK(write(&it.forwarder, 0, ARRIVED, sizeof ARRIVED, ROOM, &to) == CPAY_EMPTY && changed_nothing(&to, 7));
    CHECK(leave_out(&it.forwarder, ARRIVED, sizeof ARRIVED, ROOM, &to) == CPAY_EMPTY && changed_nothing(&to, 7));
    CHECK(resend(&it.forwarder, &store.history, 0, ROOM, &to) == CPAY_EMPTY && changed_nothing(&to, 7));
    CHECK(cpay_forwarder_counts(&it.forwarder, &counts) == CPAY_EMPTY && counts.packets == 5);
    CHECK(cpay_forwarder_report(&it.forwarder, 0, 0, &report) == CPAY_EMPTY && report.ssrc == 5);
    CHECK(cpay_forwarder_new(&it.forwarder, &settings) == CPAY_OK && cpay_forwarder_new(&it.forwarder, &settings) == CPAY_FULL);
    CHECK(cpay_forwarder_write(&it.forwarder, 0, NULL, 1, to.bytes, ROOM, &to.size, &(cpay_forwarded){0}) == CPAY_INVALID);
    CHECK(cpay_forwarder_write(&it.forwarder, 0, ARRIVED, 12, NULL, 1, &to.size, &(cpay_forwarded){0}) == CPAY_INVALID);
    CHECK(resend(&it.forwarder, &store.history, 0, ROOM, &to) == CPAY_EMPTY && changed_nothing(&to, 7));
    CHECK(cpay_forwarder_new(&store.forwarder, &settings) == CPAY_OK);
    CHECK(resend(&it.forwarder, &store.history, 0, ROOM, &to) == CPAY_OTHER_KIND && changed_nothing(&to, 7));
    CHECK(cpay_forwarder_want(&store.forwarder, 1) == CPAY_OK); /* it is still there */
    cpay_forwarder_free(&it.forwarder);
    cpay_forwarder_free(&it.forwarder);
    cpay_forwarder_free(NULL);
    make_store(&it.history);
    CHECK(write(&it.forwarder, 0, ARRIVED, sizeof ARRIVED, ROOM, &to) == CPAY_OTHER_KIND && changed_nothing(&to, 7));
    CHECK(resend(&it.forwarder, &store.history, 0, ROOM, &to) == CPAY_OTHER_KIND && changed_nothing(&to, 7));
    CHECK(cpay_forwarder_want(&it.forwarder, 1) == CPAY_OTHER_KIND);
    CHECK(keep(&it.history, ARRIVED, sizeof ARRIVED) == CPAY_KEPT_NEW);
    cpay_history_free(&it.history);
    cpay_forwarder_free(&store.forwarder);
    CHECK(!it.forwarder.handle.full && !store.forwarder.handle.full);
}

static uint32_t random_below(uint32_t below) {
    static uint64_t state = 7;
    state = state * 6364136223846793005u + 1442695040888963407u;
    return (uint32_t)(state >> 33) % below;
}

/* Any bytes: each call answers, and writes nothing that is not an RTP packet of the viewer. */
static void hostile(void) {
    static const cpay_codec codecs[4] = {CPAY_VP8, CPAY_VP9, CPAY_AV1, CPAY_OPUS};
    cpay_forwarder it = CPAY_INIT;
    cpay_history store = CPAY_INIT;
    uint8_t datagram[64];
    unsigned written = 0, filled = 0, again = 0;
    uint16_t last = 0;
    output to;
    make_store(&store);
    for (unsigned i = 0; i < 100000; i++) {
        cpay_rtp_info read = {0};
        cpay_kept_once kept;
        size_t size = random_below(sizeof datagram + 1);
        if (i % 25000 == 0) {
            cpay_forwarder_free(&it);
            make(&it, codecs[i / 25000]);
        }
        for (size_t k = 0; k < size; k++) datagram[k] = (uint8_t)random_below(256);
        /* mostly of one of three sources, near the same number */
        if (size > 11 && random_below(8)) {
            datagram[0] = (uint8_t)(0x80 | (datagram[0] & 0x3f & (random_below(4) ? 0 : 0xff)));
            datagram[2] = 0xff;
            memset(datagram + 8, 0, 3);
            datagram[11] = (uint8_t)random_below(3);
        }
        if (random_below(100) == 0) CHECK(cpay_forwarder_want(&it, random_below(3)) == CPAY_OK);
        if (random_below(500) == 0) CHECK(cpay_forwarder_mute(&it) == CPAY_OK);
        cpay_status stored = cpay_history_keep_once(&store, datagram, size, &kept);
        size_t room = random_below(8) ? ROOM : random_below(64);
        bool leaves = random_below(4) == 0;
        cpay_status status = leaves ? leave_out(&it, datagram, size, room, &to) : write(&it, i, datagram, size, room, &to);
        CHECK(status == CPAY_OK || status == CPAY_TOO_SMALL || (status >= CPAY_RTP_HEADER_TOO_SHORT && status == stored));
        if (status == CPAY_OK && to.size) {
            written++;
            filled += to.answer == CPAY_FORWARDED_FILLED;
            last = number_of(&to);
            CHECK(cpay_rtp_read(to.bytes, to.size, &read) == CPAY_OK && read.ssrc == VIEWER && read.payload_type == 101);
            CHECK(!read.has_extension && !read.csrc_count && is_untouched(&to, to.size));
        }
        status = resend(&it, &store, (uint16_t)(last - random_below(200)), room, &to);
        CHECK(status == CPAY_OK || status == CPAY_TOO_SMALL);
        again += status == CPAY_OK && to.answer == CPAY_RESENT_WRITTEN;
    }
    CHECK(written > 5000 && filled > 1000 && again > 1000);
    cpay_forwarder_free(&it);
    cpay_history_free(&store);
}

/* ---- An SFU ---- */

typedef struct {
    cpay_history stores[2];
    cpay_forwarder forwarder;
    cpay_receiver viewer;
    unsigned frames, switches, lost;
    unsigned layer_before;
} sfu;

/* The second hop: one datagram in twenty is lost, unless it was requested. */
static void send_to_viewer(sfu *it, uint64_t now, const output *sent, bool requested) {
    cpay_outcome outcome = CPAY_HELD;
    if (!requested && random_below(20) == 0) return;
    CHECK(cpay_receiver_receive(&it->viewer, now, sent->bytes, sent->size, &outcome) == CPAY_OK);
}

/* A datagram that arrived: kept once, and forwarded if it is new. */
static void forward(sfu *it, uint64_t now, const uint8_t *datagram, size_t size) {
    cpay_rtp_info packet = {0};
    output to, kept;
    CHECK(cpay_rtp_read(datagram, size, &packet) == CPAY_OK && packet.ssrc - 1 < 2);
    cpay_history *store = &it->stores[packet.ssrc - 1];
    if (keep(store, datagram, size) != CPAY_KEPT_NEW) return;
    CHECK(write(&it->forwarder, 90 * now, datagram, size, ROOM, &to) == CPAY_OK);
    if (to.size) send_to_viewer(it, now, &to, false);
    if (to.answer != CPAY_FORWARDED_BEGAN) return;
    it->switches++;
    for (uint16_t step = 1; step < 64; step++) { /* packets of the keyframe that came before its first one */
        cpay_resent found = CPAY_RESENT_NOT_KEPT;
        uint16_t number = (uint16_t)(packet.sequence_number + step);
        CHECK(cpay_history_resend(store, now, number, kept.bytes, ROOM, &kept.size, &found) == CPAY_OK);
        if (found != CPAY_RESENT_WRITTEN) continue;
        CHECK(write(&it->forwarder, 90 * now, kept.bytes, kept.size, ROOM, &to) == CPAY_OK);
        if (to.size) send_to_viewer(it, now, &to, false);
    }
}

static void answer_viewer(sfu *it, uint64_t now) {
    uint64_t numbers[64];
    size_t count = 0;
    uint32_t source = 0;
    output to;
    if (cpay_forwarder_source(&it->forwarder, &source) != CPAY_OK) return;
    CHECK(cpay_receiver_missing(&it->viewer, numbers, 64, &count) == CPAY_OK);
    for (size_t i = 0; i < count && i < 64; i++) {
        CHECK(resend(&it->forwarder, &it->stores[source - 1], (uint16_t)numbers[i], ROOM, &to) == CPAY_OK);
        if (to.answer == CPAY_RESENT_WRITTEN) send_to_viewer(it, now, &to, true);
    }
}

/* Each frame is whole, of one layer, and a layer begins with a keyframe. */
static void watch(sfu *it, uint64_t now) {
    static uint8_t frame[FRAME];
    cpay_unit unit = {0};
    while (cpay_receiver_pop(&it->viewer, now, &unit, frame, FRAME) == CPAY_OK) {
        if (unit.fault) {
            it->lost++;
            continue;
        }
        unsigned layer = frame[FRAME - 1];
        CHECK(unit.bytes == FRAME && frame[1500] == layer);
        CHECK(layer == it->layer_before || !(frame[0] & 1));
        it->layer_before = layer;
        it->frames++;
    }
}

static void put_frame(uint8_t *frame, bool keyframe, uint8_t layer) {
    static const uint8_t start[] = {0x9d, 0x01, 0x2a, 0x40, 0x01, 0xf0, 0x00};
    uint32_t tag = (keyframe ? 0u : 1u) | 1u << 4 | 100u << 5;
    memset(frame, layer, FRAME);
    for (int i = 0; i < 3; i++) frame[i] = (uint8_t)(tag >> 8 * i);
    if (keyframe) memcpy(frame + 3, start, sizeof start);
}

/* The first hop: a datagram is repeated, comes three frames later, or comes now, and some change places. */
static void layers_and_viewer(void) {
    static uint8_t frame[FRAME], late[4][64][ROOM];
    static size_t late_size[4][64], late_count[4];
    cpay_sender layers[2] = {CPAY_INIT, CPAY_INIT};
    sfu it = {.stores = {CPAY_INIT, CPAY_INIT}, .forwarder = CPAY_INIT, .viewer = CPAY_INIT, .layer_before = 9};
    cpay_receiver_settings receives;
    cpay_forwarder_settings forwards;
    for (uint32_t i = 0; i < 2; i++) {
        const cpay_spec spec = {.codec = CPAY_VP8, .rate = 90000, .first_id = (uint16_t)(1000 * i), .vp8_ids = true};
        const cpay_sender_settings sends = {.spec = spec, .mtu = 1200, .ssrc = i + 1, .payload_type = 96,
                                            .first_number = (uint16_t)(65000 - 30000 * i)};
        CHECK(cpay_sender_new(&layers[i], &sends) == CPAY_OK);
        make_store(&it.stores[i]);
    }
    cpay_forwarder_settings_init(&forwards, CPAY_VP8, VIEWER, 101);
    CHECK(cpay_forwarder_new(&it.forwarder, &forwards) == CPAY_OK);
    cpay_receiver_settings_init(&receives, CPAY_VP8, 90000, 101, CPAY_FOR_LIVE);
    CHECK(cpay_receiver_new(&it.viewer, &receives, NULL, 0) == CPAY_OK);
    for (uint32_t number = 0; number < 600; number++) {
        uint64_t now = 33 * number;
        size_t *waiting = &late_count[number % 4];
        if (number % 60 == 0) CHECK(cpay_forwarder_want(&it.forwarder, 1 + number / 60 % 2) == CPAY_OK);
        for (size_t i = 0; i < *waiting; i++) forward(&it, now, late[number % 4][i], late_size[number % 4][i]);
        *waiting = 0;
        for (uint32_t i = 0; i < 2; i++) {
            size_t count = 0;
            put_frame(frame, number % 20 == 10 * i, (uint8_t)i);
            CHECK(cpay_sender_send(&layers[i], 2970 * number + 999999 * i, false, frame, FRAME, &count) == CPAY_OK);
            for (size_t k = 0; k < count; k++) {
                output sent;
                size_t place = count - 1 - k; /* the first packet comes last */
                CHECK(cpay_sender_datagram(&layers[i], place, sent.bytes, ROOM, &sent.size) == CPAY_OK);
                uint32_t how = random_below(12);
                if (how != 0) forward(&it, now, sent.bytes, sent.size);
                size_t *there = &late_count[(number + 3) % 4];
                if (how < 2 && *there < 64) {
                    memcpy(late[(number + 3) % 4][*there], sent.bytes, sent.size);
                    late_size[(number + 3) % 4][(*there)++] = sent.size;
                }
            }
        }
        answer_viewer(&it, now);
        watch(&it, now);
    }
    CHECK(it.switches == 10 && it.frames >= 560 && it.lost == 0);
    printf("%u frames, %u switches\n", it.frames, it.switches);
    for (int i = 0; i < 2; i++) {
        cpay_sender_free(&layers[i]);
        cpay_history_free(&it.stores[i]);
    }
    cpay_forwarder_free(&it.forwarder);
    cpay_receiver_free(&it.viewer);
}

int main(void) {
    bytes();
    keyframes();
    left_out();
    pictures_close_up();
    resent();
    stored_once();
    originals();
    refusals();
    hostile();
    layers_and_viewer();
    return checked();
}

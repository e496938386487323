/* Datagrams: RTP packets by RFC 3550, a sender, and a receiver on streams that break receivers: numbers that wrap, restart or
 * carry no media, and the end of a stream. Expected bytes follow the RFCs named here. */
#include "any.h"
#include "check.h"
#include "codec_payload.h"

enum { TYPE = 111, EVENTS = 101, SSRC = 0x01020304 };

static cpay_spec opus(void) {
    cpay_spec spec = {.codec = CPAY_OPUS, .rate = 48000};
    return spec;
}

static cpay_receiver_settings settings_of(cpay_spec spec) {
    cpay_receiver_settings settings;
    cpay_receiver_settings_init(&settings, spec.codec, spec.rate, TYPE, CPAY_FOR_FILE);
    settings.hold_back = 30;
    settings.spec = spec;
    settings.has_ssrc = true;
    settings.ssrc = SSRC;
    return settings;
}

static cpay_receiver receiver_of(const cpay_receiver_settings *settings) {
    static const uint8_t no_media[] = {EVENTS};
    cpay_receiver receiver = CPAY_INIT;
    CHECK(cpay_receiver_new(&receiver, settings, no_media, 1) == CPAY_OK);
    return receiver;
}

/* An RTP packet with a header of 12 bytes and `size` bytes of payload; each payload byte is the low byte of its number. */
static size_t packet(uint8_t *out, uint8_t type, uint16_t number, uint32_t time, size_t size) {
    const uint8_t header[12] = {0x80, type, (uint8_t)(number >> 8), (uint8_t)number, (uint8_t)(time >> 24), (uint8_t)(time >> 16),
                                (uint8_t)(time >> 8), (uint8_t)time, SSRC >> 24, SSRC >> 16 & 255, SSRC >> 8 & 255, SSRC & 255};
    memcpy(out, header, sizeof header);
    memset(out + 12, (uint8_t)number, size);
    return 12 + size;
}

/* The outcome of a packet with this type and number. Its RTP time is 960 times the number; numbers right below 0 count as negative. */
static uint32_t came(cpay_receiver *receiver, uint64_t now, uint8_t type, uint16_t number) {
    uint8_t bytes[16];
    cpay_outcome outcome = (cpay_outcome)99;
    uint32_t place = number < 0xff00 ? number : number - (uint32_t)65536;
    size_t size = packet(bytes, type, number, place * 960, 2);
    CHECK(cpay_receiver_receive(receiver, now, bytes, size, &outcome) == CPAY_OK);
    return outcome;
}

/* The number of the next unit, modulo 65536; -1 if no unit is due. */
static long next(cpay_receiver *receiver, uint64_t now) {
    uint8_t bytes[8];
    cpay_unit unit = {0};
    cpay_status status = cpay_receiver_pop(receiver, now, &unit, bytes, sizeof bytes);
    if (status == CPAY_NONE) return -1;
    CHECK(status == CPAY_OK && unit.bytes == 2 && bytes[0] == (uint8_t)unit.first && bytes[1] == bytes[0]);
    return (long)(unit.first % 65536);
}

static cpay_receiver_counts_info counts_of(cpay_receiver *receiver) {
    cpay_receiver_counts_info c = {0};
    CHECK(cpay_receiver_counts(receiver, &c) == CPAY_OK);
    uint64_t dropped = c.no_media + c.duplicates + c.late + c.suspect + c.evicted;
    CHECK(c.received + c.recovered == c.rtcp + c.malformed + c.other_streams + c.undecided + dropped + c.held + c.released + c.left);
    CHECK(c.left == c.incomplete + c.skipped + c.refused);
    return c;
}

/* Every field of the header; extension and padding; each fault. */
static void packets(void) {
    /* V=2, P, X, two CSRCs; M, type 96; an extension of one word; three bytes of payload; two of padding. */
    static const uint8_t whole[] = {0xb2, 0xe0, 0x12, 0x34, 1, 2, 3, 4, 5, 6, 7, 8, 9, 9, 9, 9, 8, 8, 8, 8,
                                    0xbe, 0xde, 0, 1, 0x10, 0xaa, 0, 0, 'a', 'b', 'c', 0, 2};
    static const struct {
        const char *name;
        size_t size;
        cpay_status status;
        uint8_t bytes[24];
    } rows[] = {
        {"nothing", 0, CPAY_RTP_HEADER_TOO_SHORT, {0}},
        {"11 bytes", 11, CPAY_RTP_HEADER_TOO_SHORT, {0x80}},
        {"version 1", 12, CPAY_RTP_VERSION, {0x40}},
        {"version 3", 12, CPAY_RTP_VERSION, {0xc0}},
        {"a CSRC of 3 bytes", 15, CPAY_RTP_CSRCS_TOO_SHORT, {0x81}},
        {"3 bytes that announce", 15, CPAY_RTP_EXTENSION_HEADER_TOO_SHORT, {0x90}},
        {"an extension of 3 bytes", 19, CPAY_RTP_EXTENSION_TOO_SHORT, {0x90, 0, 0, 0, 0, 0, 0, 0, 0, 0, 0, 0, 0, 0, 0, 1}},
        {"padding of 0", 13, CPAY_RTP_PADDING_OF_ZERO, {0xa0}},
        {"padding of 2 in 1", 13, CPAY_RTP_PADDING_TOO_LONG, {0xa0, 0, 0, 0, 0, 0, 0, 0, 0, 0, 0, 0, 2}},
        {"padding of nothing", 12, CPAY_RTP_PADDING_TOO_LONG, {0xa0}},
        {"no payload", 12, CPAY_OK, {0x80}},
    };
    cpay_rtp_info info = {.ssrc = 7};
    for (size_t i = 0; i < sizeof rows / sizeof *rows; i++) {
        cpay_rtp_info untold = {.ssrc = 7};
        cpay_status status = cpay_rtp_read(rows[i].bytes, rows[i].size, &untold);
        if (status != rows[i].status) printf("%s: %u\n", rows[i].name, (unsigned)status);
        CHECK(status == rows[i].status && untold.ssrc == (status ? 7u : 0u));
    }
    CHECK(cpay_rtp_read(NULL, 0, &info) == CPAY_RTP_HEADER_TOO_SHORT);
    CHECK(cpay_rtp_read(NULL, 1, &info) == CPAY_INVALID);
    CHECK(cpay_rtp_read(whole, sizeof whole, &info) == CPAY_OK);
    CHECK(info.marker && info.payload_type == 96 && info.sequence_number == 0x1234);
    CHECK(info.timestamp == 0x01020304 && info.ssrc == 0x05060708 && info.csrc_count == 2);
    CHECK(info.has_extension && info.extension_profile == 0xbede && info.extension_at == 24 && info.extension_len == 4);
    CHECK(info.payload_at == 28 && info.payload_len == 3 && info.padding == 2 && same(whole + info.payload_at, "abc", 3));
    for (size_t size = 0; size < sizeof whole - 2; size++) CHECK(cpay_rtp_read(whole, size, &info) != CPAY_OK);
    CHECK(cpay_is_rtcp((const uint8_t *)"\x80\xc8", 2) && cpay_is_rtcp((const uint8_t *)"\0\xc0", 2));
    CHECK(cpay_is_rtcp((const uint8_t *)"\0\xdf", 2) && !cpay_is_rtcp((const uint8_t *)"\x80\xe0", 2));
    CHECK(!cpay_is_rtcp((const uint8_t *)"\x80\xbf", 2) && !cpay_is_rtcp((const uint8_t *)"\xc8", 1) && !cpay_is_rtcp(NULL, 0));
}

/* Settings out of range, and calls on handles that are empty or of another type. */
static void settings(void) {
    any it = ANY_INIT;
    cpay_receiver_settings right = settings_of(opus()), wrong;
    cpay_sender_settings sends = {.spec = opus(), .mtu = 100, .payload_type = TYPE};
    cpay_receiver_counts_info counts = {.held = 7};
    cpay_sender_counts_info sent = {.packets = 7};
    cpay_sender_report_info sender_report = {.packets = 7};
    cpay_report_info report = {.highest = 7};
    cpay_wait_limits wait_limits = {.hold_back = 1};
    cpay_unit unit = {.first = 7};
    uint8_t bytes[4] = {7, 7, 7, 7};
    cpay_outcome outcome = (cpay_outcome)7;
    uint64_t at = 7;
    size_t count = 7;
    bool wants = true;
#define REFUSED(field, value) \
    wrong = right; \
    wrong.field = (value); \
    CHECK(cpay_receiver_new(&it.receiver, &wrong, NULL, 0) == CPAY_INVALID)
    REFUSED(payload_type, 128);
    REFUSED(limit, 0);
    REFUSED(limit, 65537);
    REFUSED(forward, 0);
    REFUSED(forward, 32769);
    REFUSED(backward, 12000);
    REFUSED(tick_rate, 0);
    REFUSED(from_keyframe, 3);
    REFUSED(spec.rate, 0);
    REFUSED(spec.codec, 6);
    right.has_red = right.has_rtx = right.has_red_rtx = true;
    right.red_step = 1;
    REFUSED(red_step, 0);
    REFUSED(red_step, 16384);
    REFUSED(red_payload_type, 128);
    REFUSED(red_payload_type, TYPE);
    REFUSED(rtx_payload_type, 128);
    REFUSED(red_rtx_payload_type, 128);
    sends.payload_type = 128;
    CHECK(cpay_sender_new(&it.sender, &sends) == CPAY_INVALID);
    sends.payload_type = TYPE;
    for (int kind = 0; kind < 2; kind++) {
        cpay_status status = kind == 0 ? CPAY_EMPTY : CPAY_OTHER_KIND;
        if (kind == 1) CHECK(cpay_sender_new(&it.sender, &sends) == CPAY_OK);
        CHECK(cpay_receiver_receive(&it.receiver, 0, bytes, 4, &outcome) == status);
        CHECK(cpay_receiver_pop(&it.receiver, 0, &unit, bytes, 4) == status);
        CHECK(cpay_receiver_next_deadline(&it.receiver, &at) == status);
        CHECK(cpay_receiver_wants_keyframe(&it.receiver, &wants) == status && wants);
        CHECK(cpay_receiver_set_wait_limits(&it.receiver, &wait_limits) == status);
        CHECK(cpay_receiver_finish(&it.receiver) == status);
        CHECK(cpay_receiver_restart(&it.receiver) == status);
        CHECK(cpay_receiver_restart_as(&it.receiver, 1, 2) == status);
        CHECK(cpay_receiver_report(&it.receiver, &report) == status);
        CHECK(cpay_receiver_counts(&it.receiver, &counts) == status);
    }
    CHECK(cpay_receiver_new(&it.receiver, &right, NULL, 0) == CPAY_FULL);
    cpay_sender_free(&it.sender);
    cpay_sender_free(&it.sender);
    for (int kind = 0; kind < 2; kind++) {
        cpay_status status = kind == 0 ? CPAY_EMPTY : CPAY_OTHER_KIND;
        if (kind == 1) CHECK(cpay_receiver_new(&it.receiver, &right, NULL, 0) == CPAY_OK);
        CHECK(cpay_sender_send(&it.sender, 0, false, bytes, 4, &count) == status);
        CHECK(cpay_sender_datagram(&it.sender, 0, bytes, 4, &count) == status);
        CHECK(cpay_sender_datagram_with_tail(&it.sender, 0, 0, bytes, 4, &count) == status);
        CHECK(cpay_sender_set_format(&it.sender, &sends.spec, TYPE) == status);
        CHECK(cpay_sender_counts(&it.sender, &sent) == status);
        CHECK(cpay_sender_report(&it.sender, 0, &sender_report) == status);
    }
    CHECK(cpay_sender_new(&it.sender, &sends) == CPAY_FULL);
    CHECK(same(bytes, "\7\7\7\7", 4) && outcome == 7 && at == 7 && count == 7 && unit.first == 7);
    CHECK(counts.held == 7 && sent.packets == 7 && report.highest == 7 && sender_report.packets == 7);
    cpay_receiver_free(&it.receiver);
}

/* A frame of VP8 in two packets, byte by byte (RFC 3550, section 5.1; RFC 7741, section 4.2). */
static void sending(void) {
    cpay_sender sender = CPAY_INIT;
    cpay_sender_settings settings = {.spec = {.codec = CPAY_VP8, .rate = 90000}, .mtu = 4, .ssrc = SSRC, .first_number = 0xffff,
                                     .payload_type = 96};
    cpay_sender_counts_info counts = {0};
    uint8_t bytes[64];
    size_t count = 0, size = 0;
    CHECK(cpay_sender_new(&sender, &settings) == CPAY_OK);
    CHECK(cpay_sender_counts(&sender, &counts) == CPAY_OK);
    CHECK(counts.packets == 0 && !counts.has_rtp_time && counts.next_number == 0xffff);
    CHECK(cpay_sender_send(&sender, 0x100000005, false, (const uint8_t *)"abcde", 5, &count) == CPAY_OK && count == 2);
    CHECK(cpay_sender_datagram(&sender, 0, bytes, 15, &size) == CPAY_TOO_SMALL && size == 16);
    CHECK(cpay_sender_datagram(&sender, 0, bytes, sizeof bytes, &size) == CPAY_OK && size == 16);
    CHECK(same(bytes, "\x80\x60\xff\xff\0\0\0\5\1\2\3\4\x10" "abc", 16));
    CHECK(cpay_sender_datagram(&sender, 1, bytes, sizeof bytes, &size) == CPAY_OK && size == 15);
    CHECK(same(bytes, "\x80\xe0\0\0\0\0\0\5\1\2\3\4\0" "de", 15));
    CHECK(cpay_sender_datagram(&sender, 2, bytes, sizeof bytes, &size) == CPAY_NONE && size == 15);
    CHECK(cpay_sender_counts(&sender, &counts) == CPAY_OK);
    CHECK(counts.packets == 2 && counts.octets == 7 && counts.has_rtp_time && counts.rtp_time == 5 && counts.next_number == 1);
    CHECK(cpay_sender_send(&sender, 6, false, NULL, 0, &count) == CPAY_OK && count == 0);
    CHECK(cpay_sender_datagram(&sender, 0, bytes, sizeof bytes, &size) == CPAY_NONE);
    cpay_sender_free(&sender);
}

/* A datagram of 16 bytes with room for the tag of SRTP after it: 10 bytes by default (RFC 3711, section 5.2). */
static void tails(void) {
    cpay_sender sender = CPAY_INIT;
    cpay_sender_settings settings = {.spec = opus(), .mtu = 100, .ssrc = SSRC, .first_number = 0x1234, .payload_type = TYPE};
    static const uint8_t wanted[] = {0x80, 0x80 | TYPE, 0x12, 0x34, 0, 0, 0, 5, 1, 2, 3, 4, 'o', 'p', 'u', 's'};
    uint8_t bytes[64], before[64];
    size_t count = 0, size = 7;
    memset(bytes, 9, sizeof bytes);
    memset(before, 9, sizeof before);
    CHECK(cpay_sender_new(&sender, &settings) == CPAY_OK);
    CHECK(cpay_sender_datagram_with_tail(&sender, 0, 10, bytes, sizeof bytes, &size) == CPAY_NONE && size == 7);
    CHECK(cpay_sender_send(&sender, 5, true, (const uint8_t *)"opus", 4, &count) == CPAY_OK && count == 1);
    CHECK(cpay_sender_datagram_with_tail(&sender, 0, 10, NULL, 1, &size) == CPAY_INVALID && size == 7);
    CHECK(cpay_sender_datagram_with_tail(&sender, 1, 10, bytes, sizeof bytes, &size) == CPAY_NONE && size == 7);
    CHECK(cpay_sender_datagram_with_tail(&sender, 0, 10, NULL, 0, &size) == CPAY_TOO_SMALL && size == 26);
    CHECK(cpay_sender_datagram_with_tail(&sender, 0, 10, bytes, 25, &size) == CPAY_TOO_SMALL && size == 26);
    CHECK(cpay_sender_datagram_with_tail(&sender, 0, SIZE_MAX, bytes, sizeof bytes, &size) == CPAY_TOO_SMALL && size == SIZE_MAX);
    CHECK(cpay_sender_datagram_with_tail(&sender, 0, SIZE_MAX - 16, bytes, 64, &size) == CPAY_TOO_SMALL && size == SIZE_MAX);
    CHECK(cpay_sender_datagram_with_tail(&sender, 0, SIZE_MAX - 17, bytes, 64, &size) == CPAY_TOO_SMALL && size == SIZE_MAX - 1);
    CHECK(memcmp(bytes, before, sizeof bytes) == 0);
    CHECK(cpay_sender_datagram_with_tail(&sender, 0, 10, bytes, 26, &size) == CPAY_OK && size == 16);
    CHECK(memcmp(bytes, wanted, 16) == 0 && memcmp(bytes + 16, before, 48) == 0);
    CHECK(cpay_sender_datagram_with_tail(&sender, 0, 0, bytes, 16, &size) == CPAY_OK && size == 16);
    cpay_sender_free(&sender);
}

/* A call changes from Opus to PCMU: numbers, SSRC and counts go on, and the payload type is the new one (RFC 3551). */
static void another_format(void) {
    cpay_sender sender = CPAY_INIT;
    cpay_sender_settings settings = {.spec = opus(), .mtu = 100, .ssrc = SSRC, .first_number = 0xffff, .payload_type = TYPE};
    cpay_spec pcmu = {.codec = CPAY_PCMU, .rate = 8000}, missing = {.codec = 6, .rate = 8000}, silent = {.codec = CPAY_PCMU};
    cpay_sender_counts_info counts = {0};
    uint8_t bytes[64];
    size_t count = 0, size = 0;
    CHECK(cpay_sender_new(&sender, &settings) == CPAY_OK);
    CHECK(cpay_sender_send(&sender, 960, false, (const uint8_t *)"opus", 4, &count) == CPAY_OK && count == 1);
    CHECK(cpay_sender_set_format(&sender, &pcmu, 128) == CPAY_INVALID);
    CHECK(cpay_sender_set_format(&sender, &missing, 0) == CPAY_INVALID);
    CHECK(cpay_sender_set_format(&sender, &silent, 0) == CPAY_INVALID);
    CHECK(cpay_sender_set_format(&sender, &pcmu, 0) == CPAY_OK);
    CHECK(cpay_sender_datagram(&sender, 0, bytes, sizeof bytes, &size) == CPAY_OK && size == 16);
    CHECK(same(bytes, "\x80\x6f\xff\xff\0\0\3\xc0\1\2\3\4opus", 16));
    CHECK(cpay_sender_send(&sender, 320, true, (const uint8_t *)"u", 1, &count) == CPAY_OK && count == 1);
    CHECK(cpay_sender_datagram(&sender, 0, bytes, sizeof bytes, &size) == CPAY_OK && size == 13);
    CHECK(same(bytes, "\x80\x80\0\0\0\0\1\x40\1\2\3\4u", 13));
    CHECK(cpay_sender_counts(&sender, &counts) == CPAY_OK && counts.packets == 2 && counts.octets == 5 && counts.next_number == 1);
    cpay_sender_free(&sender);
}

/* A sender report of a moment 480 ticks after the latest frame (RFC 3550, section 6.4.1): the RTP time has 32 bits. */
static void sender_reports(void) {
    cpay_sender sender = CPAY_INIT;
    cpay_sender_settings settings = {.spec = opus(), .mtu = 100, .ssrc = SSRC, .payload_type = TYPE};
    cpay_sender_report_info report = {0};
    size_t count = 0;
    CHECK(cpay_sender_new(&sender, &settings) == CPAY_OK);
    CHECK(cpay_sender_report(&sender, 5, &report) == CPAY_OK);
    CHECK(report.ssrc == SSRC && report.rtp_time == 5 && report.packets == 0 && report.octets == 0);
    CHECK(cpay_sender_send(&sender, 0xffffff00, false, (const uint8_t *)"opus", 4, &count) == CPAY_OK);
    CHECK(cpay_sender_report(&sender, 0xffffff00u + UINT64_C(480), &report) == CPAY_OK);
    CHECK(report.ssrc == SSRC && report.rtp_time == 480 - 256 && report.packets == 1 && report.octets == 4);
    cpay_sender_free(&sender);
}

/* The first number is 0, and the one before it comes second. */
static void first_numbers_swapped(void) {
    cpay_receiver_settings settings = settings_of(opus());
    settings.start = 1;
    cpay_receiver receiver = receiver_of(&settings);
    CHECK(came(&receiver, 0, TYPE, 0) == CPAY_HELD);
    CHECK(next(&receiver, 0) == -1);
    CHECK(came(&receiver, 1, TYPE, 65535) == CPAY_HELD);
    CHECK(next(&receiver, 1) == 65535 && next(&receiver, 1) == 0 && next(&receiver, 1) == -1);
    CHECK(came(&receiver, 2, TYPE, 1) == CPAY_HELD && next(&receiver, 2) == 1);
    CHECK(counts_of(&receiver).released == 3);
    cpay_receiver_free(&receiver);
}

/* The sender restarts at 30000 after 50000: one packet is suspect, and the next confirms the restart. */
static void restarts(void) {
    cpay_receiver_settings settings = settings_of(opus());
    settings.hold_back = 0;
    cpay_receiver receiver = receiver_of(&settings);
    CHECK(came(&receiver, 0, TYPE, 50000) == CPAY_HELD && next(&receiver, 0) == 50000);
    CHECK(came(&receiver, 1, TYPE, 30000) == CPAY_SUSPECT && next(&receiver, 1) == -1);
    CHECK(came(&receiver, 2, TYPE, 30001) == CPAY_RESTARTED);
    CHECK(next(&receiver, 2) == 30000 && next(&receiver, 2) == 30001);
    cpay_receiver_counts_info counts = counts_of(&receiver);
    CHECK(counts.restarts == 1 && counts.suspect == 0 && counts.released == 3);
    cpay_receiver_free(&receiver);
}

/* Each tenth packet is padding, and some are telephone events: neither is a gap. */
static void without_media(void) {
    cpay_receiver_settings settings = settings_of(opus());
    cpay_receiver receiver = receiver_of(&settings);
    uint8_t padding[13];
    cpay_outcome outcome = (cpay_outcome)99;
    long units = 0;
    for (uint16_t number = 100; number < 200; number++) {
        if (number % 10 == 0) {
            (void)packet(padding, TYPE, number, 0, 1);
            padding[0] |= 0x20;
            padding[12] = 1;
            CHECK(cpay_receiver_receive(&receiver, number, padding, 13, &outcome) == CPAY_OK && outcome == CPAY_NO_MEDIA);
        } else if (number % 10 == 5) {
            CHECK(came(&receiver, number, EVENTS, number) == CPAY_NO_MEDIA);
        } else {
            CHECK(came(&receiver, number, TYPE, number) == CPAY_HELD);
        }
        while (next(&receiver, number) >= 0) units++;
    }
    cpay_receiver_counts_info counts = counts_of(&receiver);
    CHECK(units == 80 && counts.units == 80 && counts.no_media == 20 && counts.held == 0);
    cpay_receiver_free(&receiver);
}

/* A gap at the end of a stream: the frame after it waits, and is released at its deadline or when the stream ends. */
static void ends(void) {
    cpay_receiver_settings settings = settings_of(opus());
    settings.has_max_wait = true;
    settings.max_wait = 50;
    cpay_receiver receiver = receiver_of(&settings);
    uint64_t at = 0;
    CHECK(came(&receiver, 10, TYPE, 7) == CPAY_HELD && next(&receiver, 10) == 7);
    CHECK(cpay_receiver_next_deadline(&receiver, &at) == CPAY_NONE);
    CHECK(came(&receiver, 20, TYPE, 9) == CPAY_HELD && next(&receiver, 20) == -1);
    CHECK(cpay_receiver_next_deadline(&receiver, &at) == CPAY_OK && at == 70);
    CHECK(next(&receiver, 69) == -1 && next(&receiver, 70) == 9);
    CHECK(came(&receiver, 80, TYPE, 12) == CPAY_HELD && next(&receiver, 80) == -1);
    CHECK(cpay_receiver_finish(&receiver) == CPAY_OK);
    CHECK(next(&receiver, 80) == 12 && next(&receiver, 80) == -1);
    CHECK(came(&receiver, 81, TYPE, 11) == CPAY_LATE && came(&receiver, 82, TYPE, 12) == CPAY_LATE);
    cpay_receiver_free(&receiver);
}

/* Other wait limits: held packets stay, and the next pop and the next deadline use the new limits. */
static void other_wait_limits(void) {
    cpay_receiver_settings settings = settings_of(opus());
    cpay_wait_limits none = {0}, until = {.max_wait = 50, .hold_back = 30, .has_max_wait = true};
    cpay_wait_limits longer = {.max_wait = 100, .hold_back = 30, .has_max_wait = true}, one = {.hold_back = 1};
    settings.start = 1;
    cpay_receiver receiver = receiver_of(&settings);
    uint64_t at = 0;
    CHECK(came(&receiver, 10, TYPE, 7) == CPAY_HELD && next(&receiver, 10) == -1);
    CHECK(cpay_receiver_set_wait_limits(&receiver, &none) == CPAY_OK);
    CHECK(next(&receiver, 10) == 7);
    /* a gap at 8 with two complete frames after it: one is released if the limit is one */
    CHECK(cpay_receiver_set_wait_limits(&receiver, &one) == CPAY_OK);
    CHECK(came(&receiver, 20, TYPE, 9) == CPAY_HELD && next(&receiver, 20) == -1);
    CHECK(came(&receiver, 20, TYPE, 11) == CPAY_HELD && next(&receiver, 20) == 9 && next(&receiver, 20) == -1);
    /* and with a longest wait of 50 instead of 20, then 100, and 50 again */
    CHECK(cpay_receiver_next_deadline(&receiver, &at) == CPAY_NONE);
    CHECK(cpay_receiver_set_wait_limits(&receiver, &until) == CPAY_OK);
    CHECK(cpay_receiver_next_deadline(&receiver, &at) == CPAY_OK && at == 70 && next(&receiver, 69) == -1);
    CHECK(cpay_receiver_set_wait_limits(&receiver, &longer) == CPAY_OK);
    CHECK(cpay_receiver_next_deadline(&receiver, &at) == CPAY_OK && at == 120 && next(&receiver, 70) == -1);
    CHECK(cpay_receiver_set_wait_limits(&receiver, &until) == CPAY_OK && next(&receiver, 70) == 11);
    CHECK(counts_of(&receiver).released == 3 && counts_of(&receiver).held == 0);
    cpay_receiver_free(&receiver);
}

/* Packets of other streams are reported and counted, and change nothing. */
static void others(void) {
    cpay_receiver_settings settings = settings_of(opus());
    cpay_receiver receiver = receiver_of(&settings);
    uint8_t bytes[16];
    cpay_outcome outcome = (cpay_outcome)99;
    size_t size = packet(bytes, TYPE, 5, 0, 2);
    CHECK(came(&receiver, 0, TYPE, 4) == CPAY_HELD && came(&receiver, 0, TYPE, 4) == CPAY_DUPLICATE);
    CHECK(came(&receiver, 0, 96, 5) == CPAY_OTHER_STREAM);
    bytes[11] ^= 1;
    CHECK(cpay_receiver_receive(&receiver, 0, bytes, size, &outcome) == CPAY_OK && outcome == CPAY_OTHER_STREAM);
    bytes[1] = 200;
    CHECK(cpay_receiver_receive(&receiver, 0, bytes, size, &outcome) == CPAY_OK && outcome == CPAY_RTCP);
    bytes[0] = 0;
    bytes[1] = 0;
    outcome = 99;
    CHECK(cpay_receiver_receive(&receiver, 0, bytes, size, &outcome) == CPAY_RTP_VERSION && outcome == 99);
    CHECK(cpay_receiver_receive(&receiver, 0, NULL, 0, &outcome) == CPAY_RTP_HEADER_TOO_SHORT);
    cpay_receiver_counts_info counts = counts_of(&receiver);
    CHECK(counts.received == 7 && counts.duplicates == 1 && counts.other_streams == 2 && counts.rtcp == 1 && counts.malformed == 2);
    CHECK(counts.held == 1 && counts.has_ssrc && counts.ssrc == SSRC);
    cpay_receiver_free(&receiver);
}

/* A unit waits for a larger output buffer, and is reported meanwhile. */
static void small_room(void) {
    cpay_receiver_settings settings = settings_of(opus());
    cpay_receiver receiver = receiver_of(&settings);
    cpay_unit unit = {0};
    uint8_t bytes[2] = {0, 0};
    CHECK(came(&receiver, 3, TYPE, 65535) == CPAY_HELD);
    CHECK(cpay_receiver_pop(&receiver, 3, &unit, bytes, 1) == CPAY_TOO_SMALL && unit.bytes == 2 && bytes[0] == 0);
    uint64_t at = 9;
    CHECK(cpay_receiver_next_deadline(&receiver, &at) == CPAY_OK && at == 0); /* the next pop has it at once */
    CHECK(counts_of(&receiver).waiting);
    CHECK(cpay_receiver_pop(&receiver, 3, &unit, NULL, 0) == CPAY_TOO_SMALL);
    CHECK(cpay_receiver_pop(&receiver, 3, &unit, bytes, 2) == CPAY_OK && bytes[0] == 255 && unit.received == 3);
    CHECK(!counts_of(&receiver).waiting && cpay_receiver_pop(&receiver, 3, &unit, bytes, 2) == CPAY_NONE);
    cpay_receiver_free(&receiver);
}

/* AMR-WB with 23 frames per packet, one of ten packets lost: with a longest wait of a second no unit waits longer. */
static void amr_wb(void) {
    cpay_spec spec = {.codec = CPAY_AMR_WB, .rate = 16000, .octet_align = true};
    cpay_receiver_settings settings = settings_of(spec);
    settings.has_max_wait = true;
    settings.max_wait = 1000;
    cpay_receiver receiver = receiver_of(&settings);
    uint8_t bytes[12 + 1 + 23 + 23 * 17], unit_bytes[23 * 18];
    cpay_unit unit = {0};
    cpay_outcome outcome = (cpay_outcome)99;
    int units = 0;
    for (uint16_t number = 0; number < 10; number++) {
        size_t size = packet(bytes, TYPE, number, (uint32_t)number * 23 * 320, 1 + 23 + 23 * 17);
        bytes[12] = 0xf0; /* no mode request; then the table of contents: 6.6 kbit/s, undamaged, the last without F */
        for (int frame = 0; frame < 23; frame++) bytes[13 + frame] = frame < 22 ? 0x84 : 0x04;
        uint64_t now = (uint64_t)number * 460;
        if (number != 4) CHECK(cpay_receiver_receive(&receiver, now, bytes, size, &outcome) == CPAY_OK && outcome == CPAY_HELD);
        while (cpay_receiver_pop(&receiver, now, &unit, unit_bytes, sizeof unit_bytes) == CPAY_OK) {
            CHECK(now - unit.received < 1460 && unit.bytes == 23 * 18);
            units++;
        }
    }
    CHECK(units == 9);
    cpay_receiver_free(&receiver);
}

/* The outcome of a packet with this SSRC and number. */
static uint32_t came_of(cpay_receiver *receiver, uint64_t now, uint32_t ssrc, uint16_t number) {
    uint8_t bytes[16];
    cpay_outcome outcome = (cpay_outcome)99;
    size_t size = packet(bytes, TYPE, number, (uint32_t)number * 960, 2);
    for (int i = 0; i < 4; i++) bytes[8 + i] = (uint8_t)(ssrc >> (24 - 8 * i));
    CHECK(cpay_receiver_receive(receiver, now, bytes, size, &outcome) == CPAY_OK);
    return outcome;
}

/* No SSRC in the settings: a stray packet comes first, and two packets of one SSRC choose the stream; both are stored, with
 * their own times. */
static void choice(void) {
    cpay_receiver_settings settings = settings_of(opus());
    settings.has_ssrc = false;
    settings.tick_rate = 1000;
    settings.has_max_wait = true;
    settings.max_wait = 50;
    cpay_receiver receiver = receiver_of(&settings);
    CHECK(came_of(&receiver, 0, 1, 500) == CPAY_UNDECIDED && came_of(&receiver, 5, 2, 11) == CPAY_UNDECIDED);
    CHECK(counts_of(&receiver).undecided == 2 && counts_of(&receiver).received == 2 && !counts_of(&receiver).has_ssrc);
    CHECK(next(&receiver, 5) == -1);
    CHECK(came_of(&receiver, 7, 2, 10) == CPAY_HELD);
    cpay_receiver_counts_info counts = counts_of(&receiver);
    CHECK(counts.has_ssrc && counts.ssrc == 2 && counts.undecided == 0 && counts.other_streams == 1 && counts.held == 2);
    CHECK(next(&receiver, 7) == 10 && next(&receiver, 7) == 11 && came_of(&receiver, 8, 1, 501) == CPAY_OTHER_STREAM);
    /* the stream is silent for two seconds, and two packets of another choose again */
    CHECK(came_of(&receiver, 2006, 3, 900) == CPAY_OTHER_STREAM && came_of(&receiver, 2007, 3, 901) == CPAY_UNDECIDED);
    CHECK(came_of(&receiver, 2027, 3, 902) == CPAY_HELD && counts_of(&receiver).ssrc == 3 && counts_of(&receiver).restarts == 1);
    /* after a restart the first frame waits like a frame after a gap */
    CHECK(next(&receiver, 2056) == -1 && next(&receiver, 2057) == 901 && next(&receiver, 2057) == 902);
    cpay_receiver_free(&receiver);
    /* of the waiting packets the first is released at the end */
    receiver = receiver_of(&settings);
    CHECK(came_of(&receiver, 0, 2, 10) == CPAY_UNDECIDED && came_of(&receiver, 0, 1, 500) == CPAY_UNDECIDED);
    CHECK(cpay_receiver_finish(&receiver) == CPAY_OK && next(&receiver, 0) == 10 && counts_of(&receiver).other_streams == 1);
    cpay_receiver_free(&receiver);
}

/* A new SSRC is set, and a new one for retransmissions: packets of the previous ones belong to another stream. */
static void told_as(void) {
    cpay_receiver_settings settings = settings_of(opus());
    settings.has_rtx = true;
    settings.rtx_ssrc = 2;
    settings.rtx_payload_type = 112;
    settings.has_max_wait = true;
    settings.max_wait = 50;
    cpay_receiver receiver = receiver_of(&settings);
    uint8_t bytes[20];
    cpay_outcome outcome = (cpay_outcome)99;
    CHECK(came(&receiver, 0, TYPE, 7) == CPAY_HELD && next(&receiver, 0) == 7);
    CHECK(cpay_receiver_restart_as(&receiver, 3, 4) == CPAY_OK);
    CHECK(came(&receiver, 1, TYPE, 8) == CPAY_OTHER_STREAM && came_of(&receiver, 1, 3, 100) == CPAY_RESTARTED_ALONE);
    CHECK(came_of(&receiver, 50, 3, 102) == CPAY_HELD && next(&receiver, 50) == -1);
    CHECK(next(&receiver, 51) == 100 && next(&receiver, 51) == -1);
    size_t size = packet(bytes, 112, 500, 0, 4);
    memcpy(bytes + 8, "\0\0\0\4\0\145\145\145", 8); /* number 101 of SSRC 4 */
    CHECK(cpay_receiver_receive(&receiver, 52, bytes, size, &outcome) == CPAY_OK && outcome == CPAY_HELD);
    CHECK(next(&receiver, 52) == 101 && next(&receiver, 52) == 102);
    bytes[11] = 2;
    CHECK(cpay_receiver_receive(&receiver, 53, bytes, size, &outcome) == CPAY_OK && outcome == CPAY_OTHER_STREAM);
    CHECK(cpay_receiver_restart(&receiver) == CPAY_OK && counts_of(&receiver).ssrc == 3);
    cpay_receiver_free(&receiver);
}

/* After the end of a stream a call starts the next one, with another SSRC and any number. */
static void told_anew(void) {
    cpay_receiver_settings settings = settings_of(opus());
    cpay_receiver receiver = receiver_of(&settings);
    uint8_t bytes[16];
    cpay_outcome outcome = (cpay_outcome)99;
    size_t size = packet(bytes, TYPE, 40000, 0, 2);
    CHECK(came(&receiver, 0, TYPE, 7) == CPAY_HELD && cpay_receiver_finish(&receiver) == CPAY_OK && next(&receiver, 0) == 7);
    bytes[8] ^= 1;
    CHECK(cpay_receiver_receive(&receiver, 1, bytes, size, &outcome) == CPAY_OK && outcome == CPAY_OTHER_STREAM);
    CHECK(cpay_receiver_restart_as(&receiver, SSRC ^ 0x01000000, 0) == CPAY_OK);
    CHECK(cpay_receiver_receive(&receiver, 2, bytes, size, &outcome) == CPAY_OK && outcome == CPAY_RESTARTED_ALONE);
    CHECK(counts_of(&receiver).restarts == 1 && counts_of(&receiver).ssrc == (SSRC ^ 0x01000000));
    cpay_receiver_free(&receiver);
}

/* RFC 2198: each of three packets repeats the previous one; the second is lost and recovered from the third. */
static void red(void) {
    cpay_receiver_settings settings = settings_of(opus());
    cpay_red_sender sender = CPAY_INIT;
    static const uint32_t distances[1] = {1};
    uint8_t bytes[64];
    cpay_outcome outcome = (cpay_outcome)99;
    size_t size = 0;
    settings.has_red = true;
    settings.red_payload_type = 63;
    settings.red_step = 960;
    cpay_receiver receiver = receiver_of(&settings);
    CHECK(cpay_red_sender_new(&sender, 63, TYPE, distances, 1) == CPAY_OK);
    for (uint16_t number = 10; number < 13; number++) {
        uint8_t media[2] = {(uint8_t)number, (uint8_t)number};
        (void)packet(bytes, 63, number, number * 960u, 0);
        CHECK(cpay_red_wrap(&sender, number * 960u, 40, media, 2, bytes + 12, sizeof bytes - 12, &size) == CPAY_OK);
        if (number == 11) continue;
        CHECK(cpay_receiver_receive(&receiver, 0, bytes, 12 + size, &outcome) == CPAY_OK && outcome == CPAY_HELD);
    }
    CHECK(next(&receiver, 0) == 10 && next(&receiver, 0) == 11 && next(&receiver, 0) == 12);
    CHECK(counts_of(&receiver).recovered == 1 && counts_of(&receiver).received == 2);
    size = packet(bytes, 63, 13, 0, 1); /* the header of an older block; three bytes of the block are missing */
    bytes[12] = 0x80 | TYPE;
    CHECK(cpay_receiver_receive(&receiver, 0, bytes, size, &outcome) == CPAY_RED_CORRUPTED && counts_of(&receiver).malformed == 1);
    cpay_red_sender_free(&sender);
    cpay_receiver_free(&receiver);
}

/* The windows by rate equal the windows of audio and video at their rates, and a receiver accepts all of them. */
static void windows_by_rate(void) {
    cpay_receiver_settings audio, video;
    cpay_receiver_settings_init(&audio, CPAY_OPUS, 48000, TYPE, CPAY_FOR_LIVE);
    cpay_receiver_settings_init(&video, CPAY_VP8, 90000, TYPE, CPAY_FOR_LIVE);
    CHECK(CPAY_FORWARD_FOR(0) == audio.forward && CPAY_BACKWARD_FOR(0) == audio.backward);
    CHECK(CPAY_FORWARD_FOR(200u) == audio.forward && CPAY_BACKWARD_FOR(200u) == audio.backward);
    CHECK(CPAY_FORWARD_FOR(1000) == video.forward && CPAY_BACKWARD_FOR(1000) == video.backward);
    CHECK(CPAY_FORWARD_FOR(UINT32_MAX) == 32760 && CPAY_BACKWARD_FOR(UINT32_MAX) == 13650);
    for (uint32_t rate = 0; rate < 3000; rate += 7) {
        cpay_receiver_settings settings = settings_of(opus());
        settings.forward = CPAY_FORWARD_FOR(rate);
        settings.backward = CPAY_BACKWARD_FOR(rate);
        cpay_receiver receiver = receiver_of(&settings);
        CHECK(2 * settings.backward < settings.forward);
        cpay_receiver_free(&receiver);
    }
}

/* Number 11 is padding that is lost: the block of number 12 has the time of number 10, which came, and is not stored again. */
static void red_once(void) {
    cpay_receiver_settings settings = settings_of(opus());
    uint8_t bytes[64] = {0};
    cpay_outcome outcome = (cpay_outcome)99;
    settings.has_red = true;
    settings.red_payload_type = 63;
    settings.red_step = 960;
    cpay_receiver receiver = receiver_of(&settings);
    CHECK(came(&receiver, 0, TYPE, 10) == CPAY_HELD);
    size_t size = packet(bytes, 63, 12, 11 * 960, 8);
    memcpy(bytes + 12, "\xef\x0f\0\x02\x6f\x0a\x0a\x0c", 8); /* an offset of 960, two bytes; then the packet's own byte */
    CHECK(cpay_receiver_receive(&receiver, 0, bytes, size, &outcome) == CPAY_OK && outcome == CPAY_HELD);
    CHECK(next(&receiver, 0) == 10 && next(&receiver, 0) == -1);
    CHECK(counts_of(&receiver).recovered == 0 && counts_of(&receiver).held == 1);
    cpay_receiver_free(&receiver);
}

/* RFC 4588 over RFC 2198: the retransmission of RED packet 12, which repeats packet 11; both are lost. A receiver that does not
 * know its payload type, or has no stream of retransmissions, takes it for another stream's. */
static void red_sent_again(void) {
    static const uint8_t original[] = {0, 12, 0xef, 0x0f, 0, 2, 0x6f, 11, 11, 12, 12};
    cpay_receiver_settings settings = settings_of(opus());
    uint8_t bytes[32];
    cpay_outcome outcome = (cpay_outcome)99;
    settings.has_red = settings.has_rtx = settings.has_red_rtx = true;
    settings.red_payload_type = 63;
    settings.red_step = 960;
    settings.rtx_ssrc = 0x0a0b0c0d;
    settings.rtx_payload_type = 112;
    settings.red_rtx_payload_type = 113;
    cpay_receiver receiver = receiver_of(&settings);
    CHECK(came(&receiver, 0, TYPE, 10) == CPAY_HELD && came(&receiver, 0, TYPE, 13) == CPAY_HELD);
    CHECK(next(&receiver, 0) == 10 && next(&receiver, 0) == -1);
    size_t size = packet(bytes, 113, 500, 12 * 960, sizeof original);
    memcpy(bytes + 8, "\x0a\x0b\x0c\x0d", 4);
    memcpy(bytes + 12, original, sizeof original);
    CHECK(cpay_receiver_receive(&receiver, 0, bytes, size, &outcome) == CPAY_OK && outcome == CPAY_HELD);
    for (long number = 11; number < 14; number++) CHECK(next(&receiver, 0) == number);
    CHECK(counts_of(&receiver).retransmitted == 1 && counts_of(&receiver).recovered == 1);
    CHECK(cpay_receiver_receive(&receiver, 0, bytes, 13, &outcome) == CPAY_RTX_TOO_SHORT);
    CHECK(cpay_receiver_receive(&receiver, 0, bytes, 15, &outcome) == CPAY_RED_CORRUPTED);
    cpay_receiver_free(&receiver);
    for (int without = 0; without < 2; without++) {
        cpay_receiver_settings less = settings;
        if (without == 0) less.has_red_rtx = false;
        else less.has_rtx = false;
        less.red_rtx_payload_type = without == 0 ? 255 : 113; /* ignored without has_red_rtx */
        receiver = receiver_of(&less);
        CHECK(came(&receiver, 0, TYPE, 10) == CPAY_HELD);
        CHECK(cpay_receiver_receive(&receiver, 0, bytes, size, &outcome) == CPAY_OK && outcome == CPAY_OTHER_STREAM);
        cpay_receiver_free(&receiver);
    }
}

/* RFC 4588, section 4: the original number of two bytes precedes the payload, under another SSRC and payload type. */
static void sent_again(void) {
    cpay_receiver_settings settings = settings_of(opus());
    uint8_t bytes[20];
    cpay_outcome outcome = (cpay_outcome)99;
    settings.has_rtx = true;
    settings.rtx_ssrc = 0x0a0b0c0d;
    settings.rtx_payload_type = 112;
    cpay_receiver receiver = receiver_of(&settings);
    CHECK(came(&receiver, 0, TYPE, 65535) == CPAY_HELD && came(&receiver, 0, TYPE, 1) == CPAY_HELD);
    CHECK(next(&receiver, 0) == 65535 && next(&receiver, 0) == -1);
    size_t size = packet(bytes, 112, 500, 0, 4);
    memcpy(bytes + 8, "\x0a\x0b\x0c\x0d", 4);
    memset(bytes + 12, 0, 4);
    CHECK(cpay_receiver_receive(&receiver, 0, bytes, size, &outcome) == CPAY_OK && outcome == CPAY_HELD);
    CHECK(next(&receiver, 0) == 0 && next(&receiver, 0) == 1 && counts_of(&receiver).retransmitted == 1);
    CHECK(cpay_receiver_receive(&receiver, 0, bytes, 12, &outcome) == CPAY_OK && outcome == CPAY_NO_MEDIA);
    CHECK(cpay_receiver_receive(&receiver, 0, bytes, 13, &outcome) == CPAY_RTX_TOO_SHORT);
    cpay_receiver_free(&receiver);
}

/* Times of units continue when 32 bits wrap. */
static void times(void) {
    cpay_receiver_settings settings = settings_of(opus());
    cpay_receiver receiver = receiver_of(&settings);
    static const uint32_t timestamps[3] = {0xfffffc40, 0, 960};
    uint8_t bytes[16];
    cpay_outcome outcome = (cpay_outcome)99;
    cpay_unit unit = {0};
    for (uint16_t number = 0; number < 3; number++) {
        size_t size = packet(bytes, TYPE, number, timestamps[number], 2);
        CHECK(cpay_receiver_receive(&receiver, number, bytes, size, &outcome) == CPAY_OK && outcome == CPAY_HELD);
        CHECK(cpay_receiver_pop(&receiver, number, &unit, bytes, 2) == CPAY_OK);
        CHECK(unit.rtp_time == 0x1fffffc40 + 960ull * number);
    }
    cpay_receiver_free(&receiver);
}

/* RFC 3550, appendix A.3: one of the numbers 50000 to 50003 is lost; then one of four. */
static void reports(void) {
    cpay_receiver_settings settings = settings_of(opus());
    cpay_receiver receiver = receiver_of(&settings);
    cpay_report_info report = {.highest = 7};
    CHECK(cpay_receiver_report(&receiver, &report) == CPAY_NONE && report.highest == 7);
    for (uint16_t number = 50000; number < 50004; number++)
        if (number != 50001) CHECK(came(&receiver, number * 20u, TYPE, number) == CPAY_HELD);
    CHECK(cpay_receiver_report(&receiver, &report) == CPAY_OK);
    CHECK(report.cumulative_lost == 1 && report.fraction_lost == 64 && report.highest == 50003 && report.jitter == 0);
    CHECK(cpay_receiver_report(&receiver, &report) == CPAY_OK && report.fraction_lost == 0 && report.cumulative_lost == 1);
    CHECK(came(&receiver, 50003 * 20u, TYPE, 50003) == CPAY_DUPLICATE);
    CHECK(cpay_receiver_report(&receiver, &report) == CPAY_OK && report.cumulative_lost == 0);
    cpay_receiver_free(&receiver);
}

/* Packets 65534 to 4, over the wrap of the numbers: 65535, 1 and 3 are lost, and 1 arrives late. */
static void missing(void) {
    cpay_receiver_settings settings = settings_of(opus());
    cpay_receiver receiver = CPAY_INIT;
    any it = ANY_INIT;
    uint64_t numbers[3] = {7, 7, 7};
    size_t count = 9;
    CHECK(cpay_receiver_missing(&receiver, numbers, 3, &count) == CPAY_EMPTY && count == 9 && numbers[0] == 7);
    receiver = receiver_of(&settings);
    CHECK(cpay_receiver_missing(&receiver, numbers, 3, &count) == CPAY_OK && count == 0 && numbers[0] == 7);
    static const uint16_t here[] = {65534, 0, 2, 4};
    for (size_t i = 0; i < 4; i++) CHECK(came(&receiver, i * 960u, TYPE, here[i]) == CPAY_HELD);
    CHECK(cpay_receiver_missing(&receiver, numbers, 3, &count) == CPAY_OK && count == 3);
    CHECK((uint16_t)numbers[0] == 65535 && numbers[1] == numbers[0] + 2 && numbers[2] == numbers[0] + 4);
    numbers[0] = numbers[1] = numbers[2] = 7;
    CHECK(cpay_receiver_missing(&receiver, numbers, 1, &count) == CPAY_OK && count == 1);
    CHECK((uint16_t)numbers[0] == 65535 && numbers[1] == 7 && numbers[2] == 7);
    CHECK(cpay_receiver_missing(&receiver, NULL, 0, &count) == CPAY_OK && count == 0);
    CHECK(cpay_receiver_missing(&receiver, NULL, 1, &count) == CPAY_INVALID);
    CHECK(came(&receiver, 960u, TYPE, 1) == CPAY_HELD);
    CHECK(cpay_receiver_missing(&receiver, numbers, 3, &count) == CPAY_OK && count == 2 && (uint16_t)numbers[1] == 3);
    cpay_receiver_free(&receiver);
    cpay_sender_settings sends = {.spec = opus(), .mtu = 100, .payload_type = TYPE};
    CHECK(cpay_sender_new(&it.sender, &sends) == CPAY_OK);
    count = 9;
    CHECK(cpay_receiver_missing(&it.receiver, numbers, 3, &count) == CPAY_OTHER_KIND && count == 9);
    cpay_sender_free(&it.sender);
}

/* A frame of VP8 that ends in its payload descriptor (RFC 7741, section 4.2), between two good ones: the pop reports its fault and
 * nothing else, and the next pop goes on. The values of the unit before stay. */
static void refused_frame(void) {
    static const uint8_t key[] = {0x10, 0x10, 0, 0, 0x9d, 0x01, 0x2a, 0x10, 0, 0x10, 0}, cut[] = {0x90, 0x40, 0};
    cpay_spec spec = {.codec = CPAY_VP8, .rate = 90000};
    cpay_receiver_settings settings = settings_of(spec);
    cpay_receiver receiver = receiver_of(&settings);
    cpay_unit unit = {0}, none = {0};
    cpay_extension_values values = {0};
    uint8_t bytes[24], taken[16] = {9};
    cpay_outcome outcome = (cpay_outcome)99;
    bool wants = false;
    for (uint16_t number = 1; number <= 3; number++) {
        packet(bytes, 0x80 | TYPE, number, (uint32_t)number * 3000, 0);
        memcpy(bytes + 12, number == 2 ? cut : key, number == 2 ? sizeof cut : sizeof key);
        size_t size = 12 + (number == 2 ? sizeof cut : sizeof key);
        CHECK(cpay_receiver_receive(&receiver, 0, bytes, size, &outcome) == CPAY_OK && outcome == CPAY_HELD);
    }
    CHECK(cpay_receiver_finish(&receiver) == CPAY_OK);
    CHECK(cpay_receiver_pop(&receiver, 0, &unit, taken, sizeof taken) == CPAY_OK && unit.fault == 0 && unit.bytes == 10);
    memset(taken, 9, sizeof taken);
    CHECK(cpay_receiver_pop(&receiver, 0, &unit, taken, 0) == CPAY_OK && unit.fault == CPAY_VP8_CORRUPTED);
    CHECK(unit.first == none.first && unit.last == 0 && unit.rtp_time == 0 && unit.received == 0 && unit.bytes == 0);
    CHECK(!unit.contiguous && !unit.starts_talk_spurt && !unit.decodable && !unit.keyframe && unit.extra.kind == none.extra.kind);
    CHECK(taken[0] == 9 && cpay_receiver_values(&receiver, &values) == CPAY_OK);
    CHECK(cpay_receiver_wants_keyframe(&receiver, &wants) == CPAY_OK && wants && counts_of(&receiver).refused == 1);
    CHECK(cpay_receiver_pop(&receiver, 0, &unit, taken, sizeof taken) == CPAY_OK && unit.fault == 0 && unit.first % 65536 == 3);
    CHECK(cpay_receiver_pop(&receiver, 0, &unit, taken, sizeof taken) == CPAY_NONE);
    cpay_receiver_free(&receiver);
}

/* A unit of 11 bytes between two of 10, where 10 bytes are allowed: the pop reports it and drops it, and the next pop continues. */
static void large_unit(void) {
    static const uint8_t key[] = {0x10, 0x10, 0, 0, 0x9d, 0x01, 0x2a, 0x10, 0, 0x10, 0, 5};
    cpay_spec spec = {.codec = CPAY_VP8, .rate = 90000};
    cpay_receiver_settings settings = settings_of(spec);
    CHECK(settings.max_unit == 1048576);
    settings.max_unit = 10;
    cpay_receiver receiver = receiver_of(&settings);
    cpay_unit unit = {0};
    uint8_t bytes[24], taken[16] = {9};
    cpay_outcome outcome = (cpay_outcome)99;
    bool wants = false;
    for (uint16_t number = 1; number <= 3; number++) {
        packet(bytes, 0x80 | TYPE, number, (uint32_t)number * 3000, 0);
        size_t size = number == 2 ? sizeof key : sizeof key - 1;
        memcpy(bytes + 12, key, size);
        CHECK(cpay_receiver_receive(&receiver, 0, bytes, 12 + size, &outcome) == CPAY_OK && outcome == CPAY_HELD);
    }
    CHECK(cpay_receiver_finish(&receiver) == CPAY_OK);
    CHECK(cpay_receiver_pop(&receiver, 0, &unit, taken, sizeof taken) == CPAY_OK && unit.fault == 0 && unit.bytes == 10);
    memset(taken, 9, sizeof taken);
    CHECK(cpay_receiver_pop(&receiver, 0, &unit, taken, 0) == CPAY_OK && unit.fault == CPAY_UNIT_TOO_LARGE);
    CHECK(unit.first == 0 && unit.last == 0 && unit.rtp_time == 0 && unit.bytes == 0 && !unit.contiguous && taken[0] == 9);
    CHECK(cpay_receiver_wants_keyframe(&receiver, &wants) == CPAY_OK && wants);
    CHECK(counts_of(&receiver).refused == 1 && counts_of(&receiver).left == 1 && counts_of(&receiver).too_large == 1);
    CHECK(counts_of(&receiver).released == 1 && counts_of(&receiver).units == 1 && !counts_of(&receiver).waiting);
    CHECK(cpay_receiver_pop(&receiver, 0, &unit, taken, sizeof taken) == CPAY_OK && unit.fault == 0 && unit.first % 65536 == 3);
    CHECK(cpay_receiver_pop(&receiver, 0, &unit, taken, sizeof taken) == CPAY_NONE);
    cpay_receiver_free(&receiver);
    settings.max_unit = CPAY_NO_MAX_UNIT;
    receiver = receiver_of(&settings);
    CHECK(came(&receiver, 0, TYPE, 1) == CPAY_HELD);
    cpay_receiver_free(&receiver);
}

/* Frames of VP8 (RFC 6386, section 9.1; RFC 7741, section 4.2), in one packet each: packet 3 is lost, 1 and 6 are keyframes. */
static void keyframes(uint8_t from_keyframe, const char *marks, const char *decodable, const char *keyframe, uint64_t undecodable) {
    static const uint8_t key[] = {0x10, 0x10, 0, 0, 0x9d, 0x01, 0x2a, 0x10, 0, 0x10, 0}, delta[] = {0x10, 0x11, 0, 0};
    cpay_spec spec = {.codec = CPAY_VP8, .rate = 90000};
    cpay_receiver_settings settings = settings_of(spec);
    settings.from_keyframe = from_keyframe;
    cpay_receiver receiver = receiver_of(&settings);
    cpay_unit unit = {0};
    uint8_t bytes[24], taken[16];
    cpay_outcome outcome = (cpay_outcome)99;
    bool wants = true;
    CHECK(cpay_receiver_wants_keyframe(&receiver, &wants) == CPAY_OK && !wants);
    for (uint16_t number = 1; number <= 7; number++) {
        bool is_key = number == 1 || number == 6;
        packet(bytes, 0x80 | TYPE, number, (uint32_t)number * 3000, 0);
        memcpy(bytes + 12, is_key ? key : delta, is_key ? sizeof key : sizeof delta);
        size_t size = 12 + (is_key ? sizeof key : sizeof delta);
        if (number != 3) CHECK(cpay_receiver_receive(&receiver, 0, bytes, size, &outcome) == CPAY_OK && outcome == CPAY_HELD);
    }
    CHECK(cpay_receiver_finish(&receiver) == CPAY_OK);
    for (; *marks; marks++, decodable++, keyframe++) {
        CHECK(cpay_receiver_pop(&receiver, 0, &unit, taken, sizeof taken) == CPAY_OK && unit.first % 65536 == (uint64_t)(*marks - '0'));
        CHECK(unit.decodable == (*decodable == 'd') && unit.keyframe == (*keyframe == 'k'));
        CHECK(cpay_receiver_wants_keyframe(&receiver, &wants) == CPAY_OK && wants == !unit.decodable);
    }
    CHECK(cpay_receiver_pop(&receiver, 0, &unit, taken, sizeof taken) == CPAY_NONE);
    CHECK(counts_of(&receiver).undecodable == undecodable && counts_of(&receiver).units == 6);
    CHECK(cpay_receiver_restart(&receiver) == CPAY_OK && cpay_receiver_wants_keyframe(&receiver, &wants) == CPAY_OK);
    CHECK(wants == (from_keyframe != CPAY_KEYFRAME_OFF));
    cpay_receiver_free(&receiver);
}

/* Pictures of VP8 in the layers 0 1 0 1 .., with both ids (RFC 7741, section 4.2); 1 and 9 refer to the base layer alone (Y), and packet
 * 3 is lost. So 5 and 7 may refer to a lost picture, although nothing is missing in front of them. */
/* A keyframe of VP9 with two spatial layers, and a picture behind it. The viewer leaves the upper layer after the keyframe. */
static void spatial_layers(void) {
    static const uint8_t descriptors[][2] = {{0x2c, 0x00}, {0x2c, 0x03}, {0x6c, 0x00}, {0x6c, 0x03}};
    static const cpay_status kept[] = {CPAY_OK, CPAY_OK, CPAY_OK, CPAY_NONE};
    static const bool markers[] = {false, true, true, true};
    cpay_spatial_filter_state filter = {.wanted = 1};
    cpay_spatial_place_info place = {.layer = 9};
    CHECK(cpay_vp9_spatial_place(NULL, 0, &place) == CPAY_NONE && place.layer == 9);
    CHECK(cpay_vp9_spatial_place(descriptors[0], 1, &place) == CPAY_NONE && place.layer == 9);
    for (uint16_t i = 0; i < 4; i++) {
        uint16_t number = (uint16_t)(65534 + i);
        if (i == 1) filter.wanted = 0;
        CHECK(!cpay_vp9_spatial_place(descriptors[i], 2, &place));
        CHECK(place.layer == i % 2 && place.begins && place.ends && place.intra == (i < 2));
        bool marker = i % 2;
        CHECK(cpay_spatial_filter_take(&filter, number, &place, &marker) == kept[i] && marker == markers[i]);
        marker = i % 2;
        CHECK(cpay_spatial_filter_again(&filter, number, &place, &marker) == kept[i] && marker == markers[i]);
    }
    CHECK(filter.kept == 0 && filter.before == 1 && filter.since == 65536 && filter.has_highest && filter.highest == 65537);
}

static void temporal_layers(void) {
    static const uint8_t key[] = {0x10, 0, 0, 0x9d, 0x01, 0x2a, 0x10, 0, 0x10, 0}, delta[] = {0x11, 0, 0};
    cpay_spec spec = {.codec = CPAY_VP8, .rate = 90000};
    cpay_receiver_settings settings = settings_of(spec);
    cpay_receiver receiver = receiver_of(&settings);
    cpay_unit unit = {0};
    uint8_t bytes[40], taken[16];
    cpay_outcome outcome = (cpay_outcome)99;
    bool wants = true;
    for (uint16_t number = 0; number < 12; number++) {
        uint8_t layer = number % 2, sync = number == 1 || number == 9;
        const uint8_t descriptor[] = {0x90, 0xe0, 0x80, (uint8_t)(7 + number), (uint8_t)(number / 2), (uint8_t)(layer << 6 | sync << 5)};
        size_t size = number == 0 ? sizeof key : sizeof delta;
        packet(bytes, 0x80 | TYPE, number, (uint32_t)number * 3000, 0);
        memcpy(bytes + 12, descriptor, sizeof descriptor);
        memcpy(bytes + 12 + sizeof descriptor, number == 0 ? key : delta, size);
        size += 12 + sizeof descriptor;
        if (number != 3) CHECK(cpay_receiver_receive(&receiver, 0, bytes, size, &outcome) == CPAY_OK && outcome == CPAY_HELD);
    }
    CHECK(cpay_receiver_finish(&receiver) == CPAY_OK);
    for (uint64_t number = 0; number < 12; number++) {
        if (number == 3) continue;
        CHECK(cpay_receiver_pop(&receiver, 0, &unit, taken, sizeof taken) == CPAY_OK && unit.first % 65536 == number);
        CHECK(unit.contiguous && unit.decodable == (number != 5 && number != 7));
        CHECK(cpay_receiver_wants_keyframe(&receiver, &wants) == CPAY_OK && !wants);
    }
    CHECK(cpay_receiver_pop(&receiver, 0, &unit, taken, sizeof taken) == CPAY_NONE && counts_of(&receiver).undecodable == 2);
    cpay_receiver_free(&receiver);
}

int main(void) {
    packets();
    settings();
    sending();
    tails();
    another_format();
    sender_reports();
    first_numbers_swapped();
    restarts();
    without_media();
    ends();
    other_wait_limits();
    others();
    small_room();
    amr_wb();
    choice();
    told_as();
    told_anew();
    red();
    red_once();
    red_sent_again();
    windows_by_rate();
    sent_again();
    times();
    reports();
    missing();
    refused_frame();
    large_unit();
    spatial_layers();
    temporal_layers();
    keyframes(CPAY_KEYFRAME_MARK, "124567", "dd--dd", "k---k-", 2);
    keyframes(CPAY_KEYFRAME_DROP, "1267", "dddd", "k-k-", 2);
    keyframes(CPAY_KEYFRAME_OFF, "124567", "dddddd", "------", 0);
    return checked();
}

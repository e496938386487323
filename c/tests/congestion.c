/* Congestion control: reports of arrivals, the numbers of sent packets, transport-wide feedback and REMB. The bytes were written by
 * hand after draft-holmer-rmcat-transport-wide-cc-extensions-01, draft-alvestrand-rmcat-remb-03 and RFC 4585, section 6.1. */
#include "any.h"
#include "check.h"
#include "codec_payload.h"

enum { UNTOUCHED = 0xaa, SSRC = 7, SENDER = 1, ID = 5 };

/* A packet with this transport-wide number, in the one-byte form (RFC 8285, section 4.2). Its payload type is known to nobody. */
static cpay_status arrives(cpay_transport_reporter *reporter, uint64_t now, uint16_t number) {
    const uint8_t packet[21] = {0x90, 50, 0, 1, 0, 0, 0, 0, 0, 0, 0, SSRC, 0xbe, 0xde, 0, 1, 16 * ID + 1, (uint8_t)(number >> 8),
                                (uint8_t)number, 0, 9};
    return cpay_transport_reporter_receive(reporter, now, packet, sizeof packet);
}

static cpay_transport_reporter reporter_of(const cpay_transport_reporter_settings *settings) {
    cpay_transport_reporter reporter = CPAY_INIT;
    CHECK(cpay_transport_reporter_new(&reporter, settings, NULL, 0) == CPAY_OK);
    return reporter;
}

static uint64_t due(cpay_transport_reporter *reporter) {
    uint64_t at = 7777;
    cpay_status status = cpay_transport_reporter_next_deadline(reporter, &at);
    CHECK(status == CPAY_OK || (status == CPAY_NONE && at == 7777));
    return at;
}

/* Whether the packet that is due has these bytes, and no others are written. */
static bool polls(cpay_transport_reporter *reporter, uint64_t now, const uint8_t *wanted, size_t size) {
    uint8_t bytes[64];
    size_t found = 99;
    memset(bytes, UNTOUCHED, sizeof bytes);
    if (cpay_transport_reporter_poll(reporter, now, bytes, sizeof bytes, &found)) return false;
    for (size_t i = found; i < sizeof bytes; i++)
        if (bytes[i] != UNTOUCHED) return false;
    return found == size && !memcmp(bytes, wanted, size);
}

static bool polls_nothing(cpay_transport_reporter *reporter, uint64_t now) {
    uint8_t byte = UNTOUCHED;
    size_t size = 99;
    return cpay_transport_reporter_poll(reporter, now, &byte, 1, &size) == CPAY_NONE && size == 99 && byte == UNTOUCHED;
}

/* Number 65534 arrives 100 ms after the start of the clock: the reference time 64 ms, and a delta of 144 quarters of a millisecond.
 * Then 65535 is missing, and 0 arrives at 110 ms: a vector of two bits, and a delta of 184 quarters. Then 65535 comes. */
static void reports(void) {
    static const uint8_t first[24] = {0x8f, 205, 0, 5, 0, 0, 0, SENDER, 0, 0, 0, SSRC, 255, 254, 0, 1, 0, 0, 1, 0, 0x20, 1, 144, 0};
    static const uint8_t second[24] = {0x8f, 205, 0, 5, 0, 0, 0, SENDER, 0, 0, 0, SSRC, 255, 255, 0, 2, 0, 0, 1, 1, 0xc4, 0, 184, 0};
    /* 120 ms is 480, and 110 ms is 440: a delta of -40 in two's complement needs two bytes */
    static const uint8_t third[28] = {0x8f, 205, 0, 6,    0, 0, 0, SENDER, 0,    0,    0, SSRC, 255, 255,
                                      0,    2,   0, 0, 1, 2, 0xd8, 0, 224, 0xff, 0xd8, 0, 0, 0};
    cpay_transport_reporter_settings settings;
    cpay_transport_reporter_settings_init(&settings, ID, SENDER);
    CHECK(settings.interval == 100 && settings.size == 1100 && settings.window == 2048 && settings.tick_rate == 1000);
    CHECK(settings.ssrc == SENDER && settings.extension_id == ID && !settings.has_report);
    cpay_transport_reporter reporter = reporter_of(&settings);
    CHECK(due(&reporter) == 7777 && polls_nothing(&reporter, 0));
    /* without a number, and no RTP packet */
    static const uint8_t unnumbered[13] = {0x80, 96, 0, 1, 0, 0, 0, 0, 0, 0, 0, SSRC, 9};
    CHECK(cpay_transport_reporter_receive(&reporter, 5, unnumbered, sizeof unnumbered) == CPAY_OK);
    CHECK(cpay_transport_reporter_receive(&reporter, 5, unnumbered, 5) == CPAY_OK);
    CHECK(cpay_transport_reporter_receive(&reporter, 5, NULL, 0) == CPAY_OK);
    CHECK(cpay_transport_reporter_receive(&reporter, 5, NULL, 1) == CPAY_INVALID);
    CHECK(due(&reporter) == 7777);
    CHECK(arrives(&reporter, 100, 65534) == CPAY_OK && due(&reporter) == 0);
    CHECK(polls(&reporter, 150, first, sizeof first) && polls_nothing(&reporter, 1000));
    /* twice, and the first time counts */
    CHECK(arrives(&reporter, 110, 0) == CPAY_OK && arrives(&reporter, 111, 0) == CPAY_OK);
    CHECK(due(&reporter) == 250 && polls_nothing(&reporter, 249));
    CHECK(polls(&reporter, 250, second, sizeof second) && due(&reporter) == 7777);
    CHECK(arrives(&reporter, 120, 65535) == CPAY_OK && due(&reporter) == 350);
    CHECK(polls(&reporter, 350, third, sizeof third));
    cpay_transport_reporter_free(&reporter);
}

/* A packet that does not fit waits, and is due at once. A restart drops it, with all numbers. */
static void waits(void) {
    static const uint8_t wanted[24] = {0x8f, 205, 0, 5, 0, 0, 0, SENDER, 0, 0, 0, SSRC, 0, 3, 0, 1, 0, 0, 0, 0, 0x20, 1, 4, 0};
    cpay_transport_reporter_settings settings;
    cpay_transport_reporter_settings_init(&settings, ID, SENDER);
    cpay_transport_reporter reporter = reporter_of(&settings);
    uint8_t bytes[24] = {0};
    size_t size = 99;
    for (int round = 0; round < 2; round++) {
        CHECK(arrives(&reporter, 1, 3) == CPAY_OK);
        CHECK(cpay_transport_reporter_poll(&reporter, 0, NULL, 1, &size) == CPAY_INVALID && size == 99);
        CHECK(cpay_transport_reporter_poll(&reporter, 0, NULL, 0, &size) == CPAY_TOO_SMALL && size == 24 && due(&reporter) == 0);
        size = 99;
        CHECK(cpay_transport_reporter_poll(&reporter, 0, bytes, 23, &size) == CPAY_TOO_SMALL && size == 24 && !bytes[0]);
        size = 99;
        if (round == 0) {
            CHECK(polls(&reporter, 0, wanted, sizeof wanted) && due(&reporter) == 7777);
            CHECK(cpay_transport_reporter_restart(&reporter) == CPAY_OK);
        } else {
            CHECK(cpay_transport_reporter_restart(&reporter) == CPAY_OK && due(&reporter) == 7777);
            CHECK(polls_nothing(&reporter, 1000));
        }
    }
    cpay_transport_reporter_free(&reporter);
}

/* In a compound packet the empty report and the name come first (RFC 3550, section 6.1). The clock has microseconds: 1,250 of them
 * are five quarters of a millisecond. */
static void compound(void) {
    static const uint8_t wanted[48] = {
        0x80, 201, 0, 1, 0, 0, 0, SENDER,                                                              /* the report */
        0x81, 202, 0, 3, 0, 0, 0, SENDER, 1, 2, 'm', 'e', 0, 0, 0, 0,                                  /* the name */
        0x8f, 205, 0, 5, 0, 0, 0, SENDER, 0, 0, 0,   SSRC, 0, 1, 0, 1, 0, 0, 0, 0, 0x20, 1, 5, 0}; /* the feedback */
    cpay_transport_reporter_settings settings;
    cpay_transport_reporter_settings_init(&settings, ID, SENDER);
    settings.has_report = true;
    settings.tick_rate = 1000000;
    cpay_transport_reporter reporter = CPAY_INIT;
    CHECK(cpay_transport_reporter_new(&reporter, &settings, (const uint8_t *)"me", 2) == CPAY_OK);
    CHECK(arrives(&reporter, 1499, 1) == CPAY_OK && polls(&reporter, 2000, wanted, sizeof wanted));
    cpay_transport_reporter_free(&reporter);
}

static void settings_out_of_range(void) {
    static const uint8_t name[256] = {0};
    cpay_transport_reporter_settings good, bad;
    cpay_transport_reporter_settings_init(&good, 255, SENDER);
    cpay_transport_reporter reporter = CPAY_INIT;
    for (int way = 0; way < 4; way++) {
        bad = good;
        if (way == 0) bad.tick_rate = 0;
        if (way == 1) bad.extension_id = 0;
        if (way == 2) bad.window = 0;
        if (way == 3) bad.window = 32769;
        CHECK(cpay_transport_reporter_new(&reporter, &bad, NULL, 0) == CPAY_INVALID);
    }
    CHECK(cpay_transport_reporter_new(&reporter, &good, name, 256) == CPAY_INVALID);
    CHECK(cpay_transport_reporter_new(&reporter, &good, NULL, 1) == CPAY_INVALID);
    good.window = 32768;
    CHECK(cpay_transport_reporter_new(&reporter, &good, name, 255) == CPAY_OK);
    CHECK(cpay_transport_reporter_new(&reporter, &good, name, 255) == CPAY_FULL);
    cpay_transport_reporter_free(&reporter);
    cpay_transport_reporter_free(NULL);
}

/* Numbers from 0 on, and the times of the last three packets. */
static void sent(void) {
    cpay_sent_packets packets = CPAY_INIT;
    uint64_t at = 77;
    uint16_t number = 9;
    CHECK(cpay_sent_packets_new(&packets, 0) == CPAY_INVALID && cpay_sent_packets_new(&packets, 32769) == CPAY_INVALID);
    CHECK(cpay_sent_packets_new(&packets, 3) == CPAY_OK && cpay_sent_packets_new(&packets, 3) == CPAY_FULL);
    CHECK(cpay_sent_packets_sent_at(&packets, 65535, &at) == CPAY_NONE && at == 77);
    bool same = true;
    for (uint32_t i = 0; i < 70000; i++) {
        same &= cpay_sent_packets_assign(&packets, 10 * (uint64_t)i, &number) == CPAY_OK && number == i % 65536;
        for (uint32_t back = 0; back < 3 && back <= i; back++)
            same &= cpay_sent_packets_sent_at(&packets, (uint16_t)(i - back), &at) == CPAY_OK && at == 10 * (uint64_t)(i - back);
        same &= cpay_sent_packets_sent_at(&packets, (uint16_t)(i - 3), &at) == CPAY_NONE;
        same &= cpay_sent_packets_sent_at(&packets, (uint16_t)(i + 1), &at) == CPAY_NONE;
    }
    CHECK(same);
    cpay_sent_packets_free(&packets);
}

/* A number goes into the extension in the one-byte form, after the other elements and in place of an earlier number. */
static void numbers(void) {
    static const uint8_t plain[13] = {0x80, 96, 0, 1, 0, 0, 0, 2, 0, 0, 0, SSRC, 9};
    static const uint8_t wanted[21] = {0x90, 96, 0, 1, 0, 0, 0, 2, 0, 0, 0, SSRC, 0xbe, 0xde, 0, 1, 0x51, 0x12, 0x34, 0, 9};
    static const uint8_t had[25] = {0x90, 96, 0, 1, 0, 0, 0, 2, 0, 0, 0, SSRC, 0xbe, 0xde, 0, 2, 0x51, 1, 2, 0x30, 7, 0, 0, 0, 9};
    static const uint8_t has[25] = {0x90, 96, 0, 1, 0, 0, 0, 2, 0, 0, 0, SSRC, 0xbe, 0xde, 0, 2, 0x30, 7, 0x51, 0xff, 0xfe, 0, 0, 0, 9};
    uint8_t bytes[32] = {0}, other[25];
    size_t size = 99;
    CHECK(cpay_number_datagram(ID, 0x1234, plain, 13, bytes, 20, &size) == CPAY_TOO_SMALL && size == 21 && !bytes[0]);
    CHECK(cpay_number_datagram(ID, 0x1234, plain, 13, bytes, 21, &size) == CPAY_OK && size == 21 && !memcmp(bytes, wanted, 21));
    CHECK(cpay_number_datagram(ID, 0xfffe, had, 25, bytes, 32, &size) == CPAY_OK && size == 25 && !memcmp(bytes, has, 25));
    size = 99;
    CHECK(cpay_number_datagram(ID, 1, plain, 11, bytes, 32, &size) == CPAY_RTP_HEADER_TOO_SHORT);
    CHECK(cpay_number_datagram(0, 1, plain, 13, bytes, 32, &size) == CPAY_EXTENSION_ROOM);
    memcpy(other, had, sizeof other);
    other[12] = 0x12;
    CHECK(cpay_number_datagram(ID, 1, other, 25, bytes, 32, &size) == CPAY_EXTENSION_PROFILE && size == 99);
    CHECK(cpay_number_datagram(ID, 1, NULL, 1, bytes, 32, &size) == CPAY_INVALID && size == 99);
    CHECK(cpay_number_datagram(ID, 1, plain, 13, NULL, 1, &size) == CPAY_INVALID && size == 99 && !memcmp(bytes, has, 25));
}

/* Two feedbacks in one datagram: a vector of the tests of pion/rtcp, number 153, which arrived 148 quarters after the reference time
 * 4,057,090 of 64 ms; and two numbers, of which the first is missing, with a delta of -1. */
static const uint8_t TWO[52] = {0x8f, 205, 0, 5, 0, 0, 0, 1, 0, 0, 0, 2, 0, 153, 0, 1, 61, 232, 2, 23, 32, 1, 148, 1,
                                0x8f, 205, 0, 6, 0, 0, 0, 3, 0, 0, 0, 4, 255, 255, 0, 2, 0, 0, 1, 24, 0xc8, 0, 0xff, 0xff, 0, 0, 0, 0};

static void feedback(void) {
    cpay_transport_feedback_info info = {.count = 99};
    cpay_packet_arrival packets[3] = {{.time = 9}, {.time = 9}, {.time = 9}};
    CHECK(cpay_read_transport_feedback(TWO, sizeof TWO, false, 0, &info, packets, 3) == CPAY_OK);
    CHECK(info.count == 1 && info.sender_ssrc == 1 && info.media_ssrc == 2 && info.base == 153 && info.counter == 23);
    CHECK(packets[0].arrived && packets[0].number == 153 && packets[0].time == 4057090u * 256 + 148 && packets[1].time == 9);
    packets[0].time = 9;
    CHECK(cpay_read_transport_feedback(TWO, sizeof TWO, false, 1, &info, packets, 1) == CPAY_TOO_SMALL);
    CHECK(info.count == 2 && info.sender_ssrc == 3 && info.base == 65535 && info.counter == 24 && packets[0].time == 9);
    CHECK(cpay_read_transport_feedback(TWO, sizeof TWO, false, 1, &info, packets, 2) == CPAY_OK);
    CHECK(!packets[0].arrived && packets[0].number == 65535 && packets[0].time == 0);
    CHECK(packets[1].arrived && packets[1].number == 0 && packets[1].time == 255 && packets[2].time == 9);
    info.count = 99;
    CHECK(cpay_read_transport_feedback(TWO, sizeof TWO, false, 2, &info, packets, 3) == CPAY_NONE && info.count == 99);
    CHECK(cpay_read_transport_feedback(TWO, sizeof TWO, true, 0, &info, packets, 3) == CPAY_RTCP_FIRST_NOT_REPORT);
    CHECK(cpay_read_transport_feedback(TWO, sizeof TWO - 1, false, 0, &info, packets, 3) == CPAY_RTCP_PACKET_TOO_SHORT);
    CHECK(cpay_read_transport_feedback(NULL, 0, false, 0, &info, packets, 3) == CPAY_RTCP_HEADER_TOO_SHORT);
    CHECK(cpay_read_transport_feedback(NULL, 1, false, 0, &info, packets, 3) == CPAY_INVALID && info.count == 99);
}

/* The status of one feedback with this control information. */
static cpay_status status_of(const char *control, uint8_t size) {
    uint8_t bytes[64] = {0x8f, 205, 0, (uint8_t)(2 + size / 4), 0, 0, 0, 1, 0, 0, 0, 2};
    cpay_transport_feedback_info info = {.count = 99};
    cpay_packet_arrival packets[16] = {{.time = 9}};
    memcpy(bytes + 12, control, size);
    cpay_status status = cpay_read_transport_feedback(bytes, 12u + size, false, 0, &info, packets, 16);
    CHECK((status == CPAY_OK) == (info.count != 99) && (status == CPAY_OK || packets[0].time == 9));
    return status;
}

static void faults(void) {
    CHECK(status_of("\0\1\0\1", 4) == CPAY_TRANSPORT_HEADER_TOO_SHORT);
    CHECK(status_of("\0\1\0\1\0\0\0\0", 8) == CPAY_TRANSPORT_CHUNKS_TOO_SHORT);
    CHECK(status_of("\0\1\0\1\0\0\0\0\x60\1\0\0", 12) == CPAY_TRANSPORT_RESERVED);
    CHECK(status_of("\0\1\0\3\0\0\0\0\x20\3\1\1", 12) == CPAY_TRANSPORT_DELTAS_TOO_SHORT);
    CHECK(status_of("\0\1\0\2\0\0\0\0\x20\2\1\1", 12) == CPAY_OK);
}

/* 1,000,003 bits per second are 250,000 times 4, and 3 that do not fit in 18 binary digits. */
static void remb(void) {
    static const uint8_t wanted[28] = {0x8f, 206, 0, 6, 0, 0, 0, 5, 0, 0, 0, 0, 'R', 'E', 'M', 'B', 2, 11, 208, 144, 1, 2, 3, 4, 0, 0, 0, 9};
    static const uint32_t ssrcs[256] = {0x01020304, 9};
    uint8_t bytes[28] = {0};
    uint32_t found[3] = {7, 7, 7};
    uint64_t bitrate = 99;
    size_t size = 99, count = 99;
    CHECK(cpay_write_remb(5, 1000003, ssrcs, 256, bytes, sizeof bytes, &size) == CPAY_INVALID && size == 99);
    CHECK(cpay_write_remb(5, 1000003, NULL, 1, bytes, sizeof bytes, &size) == CPAY_INVALID && size == 99);
    CHECK(cpay_write_remb(5, 1000003, ssrcs, 2, bytes, 27, &size) == CPAY_TOO_SMALL && size == 28 && !bytes[0]);
    CHECK(cpay_write_remb(5, 1000003, ssrcs, 2, bytes, 28, &size) == CPAY_OK && size == 28 && !memcmp(bytes, wanted, 28));
    CHECK(cpay_read_remb(bytes, 28, false, 0, &bitrate, found, 1, &count) == CPAY_OK && bitrate == 1000000 && count == 2);
    CHECK(found[0] == 0x01020304 && found[1] == 7);
    CHECK(cpay_read_remb(bytes, 28, false, 0, &bitrate, found, 3, &count) == CPAY_OK && found[1] == 9 && found[2] == 7);
    bitrate = count = 99;
    CHECK(cpay_read_remb(bytes, 28, false, 1, &bitrate, found, 3, &count) == CPAY_NONE);
    CHECK(cpay_read_remb(bytes, 28, true, 0, &bitrate, found, 3, &count) == CPAY_RTCP_FIRST_NOT_REPORT);
    CHECK(cpay_read_remb(TWO, sizeof TWO, false, 0, &bitrate, found, 3, &count) == CPAY_NONE);
    bytes[16] = 3;
    CHECK(cpay_read_remb(bytes, 28, false, 0, &bitrate, found, 3, &count) == CPAY_REMB_SOURCES_TOO_SHORT);
    bytes[17] = 0xff;
    CHECK(cpay_read_remb(bytes, 28, false, 0, &bitrate, found, 3, &count) == CPAY_REMB_TOO_LARGE);
    bytes[14] = 'N';
    CHECK(cpay_read_remb(bytes, 28, false, 0, &bitrate, found, 3, &count) == CPAY_REMB_OTHER);
    bytes[3] = 3;
    CHECK(cpay_read_remb(bytes, 16, false, 0, &bitrate, found, 3, &count) == CPAY_REMB_TOO_SHORT && bitrate == 99 && count == 99);
    CHECK(cpay_write_remb(5, UINT64_MAX, NULL, 0, bytes, 28, &size) == CPAY_OK && size == 20);
    /* 18 binary digits of 1, and 46 of 0 */
    CHECK(cpay_read_remb(bytes, 20, false, 0, &bitrate, NULL, 0, &count) == CPAY_OK && bitrate == 0xffffc00000000000u && !count);
}

/* Calls on handles that are empty or of another type, which change nothing. */
static void handles(void) {
    any it = ANY_INIT;
    const cpay_history_settings keeps = {.limit = 1};
    uint8_t byte = UNTOUCHED;
    uint64_t at = 7;
    size_t size = 7;
    uint16_t number = 7;
    cpay_sent_packets_free(NULL);
    for (int kind = 0; kind < 2; kind++) {
        cpay_status status = kind == 0 ? CPAY_EMPTY : CPAY_OTHER_KIND;
        if (kind == 1) CHECK(cpay_history_new(&it.history, &keeps) == CPAY_OK);
        CHECK(arrives(&it.transport_reporter, 0, 1) == status);
        CHECK(cpay_transport_reporter_poll(&it.transport_reporter, 0, &byte, 1, &size) == status && byte == UNTOUCHED && size == 7);
        CHECK(cpay_transport_reporter_next_deadline(&it.transport_reporter, &at) == status && at == 7);
        CHECK(cpay_transport_reporter_restart(&it.transport_reporter) == status);
        CHECK(cpay_sent_packets_assign(&it.sent_packets, 0, &number) == status && number == 7);
        CHECK(cpay_sent_packets_sent_at(&it.sent_packets, 0, &at) == status && at == 7);
    }
    cpay_transport_reporter_free(&it.transport_reporter);
}

/* Bytes at random and changed packets, to each call that reads any: none reads out of bounds, and each outcome has a status. */
static void hostile(void) {
    cpay_transport_reporter_settings settings;
    cpay_transport_reporter_settings_init(&settings, ID, SENDER);
    cpay_transport_reporter reporter = reporter_of(&settings);
    uint32_t seed = 12345;
    bool good = true;
    for (int round = 0; round < 20000; round++) {
        uint8_t bytes[52];
        memcpy(bytes, TWO, sizeof bytes);
        for (int change = 0; change < 4; change++) {
            seed = seed * 1664525 + 1013904223;
            bytes[seed >> 16 & 31] = (uint8_t)(seed >> 8);
        }
        size_t size = seed >> 24 & 63;
        if (size > sizeof bytes) size = sizeof bytes;
        cpay_transport_feedback_info info = {0};
        static cpay_packet_arrival packets[65535];
        uint32_t ssrcs[4];
        uint64_t bitrate = 0;
        size_t count = 0;
        cpay_status status = cpay_read_transport_feedback(bytes, size, false, 0, &info, packets, 65535);
        good &= status != CPAY_OUT_OF_MEMORY && status != CPAY_TOO_SMALL && status <= CPAY_TRANSPORT_DELTAS_TOO_SHORT;
        bytes[1] = 206;
        status = cpay_read_remb(bytes, size, false, 0, &bitrate, ssrcs, 4, &count);
        good &= status <= CPAY_REMB_SOURCES_TOO_SHORT && count < 256;
        bytes[0] = 0x90;
        good &= cpay_transport_reporter_receive(&reporter, (uint64_t)round << 44, bytes, size) == CPAY_OK;
        uint8_t packet[1200];
        while ((status = cpay_transport_reporter_poll(&reporter, (uint64_t)round << 44, packet, sizeof packet, &size)) == CPAY_OK)
            good &= size <= 1120;
        good &= status == CPAY_NONE;
    }
    CHECK(good);
    cpay_transport_reporter_free(&reporter);
}

int main(void) {
    reports();
    waits();
    compound();
    settings_out_of_range();
    sent();
    numbers();
    feedback();
    faults();
    remb();
    handles();
    hostile();
    return checked();
}

/* RTCP without a session, freezes, and what payloads say to a server. The bytes were written by hand after RFC 3550, sections 6.4.1,
 * 6.4.2, 6.5 and 6.6, RFC 4585, section 6.3.1, RFC 5104, section 4.3.1, RFC 7741 and RFC 9628, section 4.2; freezes were worked by the W3C's rule. */
#include "any.h"
#include "check.h"
#include "codec_payload.h"

enum { UNTOUCHED = 0xaa };

/* A sender report of SSRC 1 with a block about SSRC 2, and its bytes. */
static const cpay_sender_report_info REPORT = {.ssrc = 1, .rtp_time = 0x04030201, .packets = 300, .octets = 70000};
static const cpay_report_block_info BLOCK = {.ssrc = 2,
                                             .cumulative_lost = 0xfffffe,
                                             .highest = 0x0001ffff,
                                             .jitter = 9,
                                             .last_sender_report = 0xa1b2c3d4,
                                             .delay_since_sender_report = 65536,
                                             .fraction_lost = 128};
static const uint64_t NTP = 0x8899aabbccddeeff;
static const uint8_t BLOCK_BYTES[24] = {0, 0, 0, 2, 128, 0xff, 0xff, 0xfe, 0, 1, 0xff, 0xff, 0, 0, 0, 9, 0xa1, 0xb2, 0xc3, 0xd4, 0, 1, 0, 0};
static const uint8_t SENDER[28] = {0x81, 200, 0, 12, 0, 0, 0, 1, 0x88, 0x99, 0xaa, 0xbb, 0xcc, 0xdd,
                                   0xee, 0xff, 4, 3, 2, 1, 0, 0, 1, 0x2c, 0, 1, 0x11, 0x70};
/* A receiver report of SSRC 3 without blocks, and the name "ab" of SSRC 3: one item, its end, and zeros up to a whole word. */
static const uint8_t RECEIVER[8] = {0x80, 201, 0, 1, 0, 0, 0, 3};
static const uint8_t NAME[16] = {0x81, 202, 0, 3, 0, 0, 0, 3, 1, 2, 'a', 'b', 0, 0, 0, 0};
static const uint8_t PLI[12] = {0x81, 206, 0, 2, 0, 0, 0, 3, 0, 0, 0, 2};
/* Command 7 to SSRC 2: the media SSRC of the header is 0, and the reserved bytes of the entry are 0. */
static const uint8_t FIR[20] = {0x84, 206, 0, 4, 0, 0, 0, 3, 0, 0, 0, 0, 0, 0, 0, 2, 7, 0, 0, 0};

static bool is_untouched(const uint8_t *bytes, size_t size) {
    for (size_t i = 0; i < size; i++)
        if (bytes[i] != UNTOUCHED) return false;
    return true;
}

/* The packet of a call, which is made with each size of the output buffer up to one byte more. */
#define WRITES(wanted, length, call) \
    for (size_t room = 0; room <= (length) + 1; room++) { \
        uint8_t bytes[64]; \
        size_t size = 99; \
        memset(bytes, UNTOUCHED, sizeof bytes); \
        cpay_status told = (call); \
        CHECK(told == (room < (length) ? CPAY_TOO_SMALL : CPAY_OK) && size == (length)); \
        size_t put = room < (length) ? 0 : (length); \
        CHECK(!memcmp(bytes, wanted, put) && is_untouched(bytes + put, sizeof bytes - put)); \
    }

static void packets(void) {
    uint8_t sender[52];
    memcpy(sender, SENDER, 28), memcpy(sender + 28, BLOCK_BYTES, 24);
    WRITES(sender, 52, cpay_write_sender_report(NTP, &REPORT, &BLOCK, 1, bytes, room, &size))
    /* without a block the count is 0, and the length 6 words */
    memcpy(sender, (const uint8_t[4]){0x80, 200, 0, 6}, 4);
    WRITES(sender, 28, cpay_write_sender_report(NTP, &REPORT, NULL, 0, bytes, room, &size))
    WRITES(RECEIVER, 8, cpay_write_receiver_report(3, NULL, 0, bytes, room, &size))
    uint8_t receiver[32] = {0x81, 201, 0, 7, 0, 0, 0, 3};
    memcpy(receiver + 8, BLOCK_BYTES, 24);
    WRITES(receiver, 32, cpay_write_receiver_report(3, &BLOCK, 1, bytes, room, &size))
    WRITES(NAME, 16, cpay_write_cname(3, (const uint8_t *)"ab", 2, bytes, room, &size))
    /* a name of 1 byte needs one zero: 8, 2 and 1 bytes and the zero are 12 */
    static const uint8_t shortest[12] = {0x81, 202, 0, 2, 0, 0, 0, 3, 1, 1, 'a', 0};
    WRITES(shortest, 12, cpay_write_cname(3, (const uint8_t *)"a", 1, bytes, room, &size))
    WRITES(PLI, 12, cpay_write_pli(3, 2, bytes, room, &size))
    WRITES(FIR, 20, cpay_write_fir(3, 2, 7, bytes, room, &size))
}

/* A BYE without a reason; with one of 2 bytes, which a zero fills to whole words; with one of 3, which needs none. */
static void byes(void) {
    static const uint8_t none[8] = {0x81, 203, 0, 1, 0, 0, 0, 3};
    static const uint8_t two[12] = {0x81, 203, 0, 2, 0, 0, 0, 3, 2, 'a', 'b', 0}, three[12] = {0x81, 203, 0, 2, 0, 0, 0, 3, 3, 'a', 'b', 'c'};
    WRITES(none, 8, cpay_write_bye(3, NULL, 0, bytes, room, &size))
    WRITES(two, 12, cpay_write_bye(3, (const uint8_t *)"ab", 2, bytes, room, &size))
    WRITES(three, 12, cpay_write_bye(3, (const uint8_t *)"abc", 3, bytes, room, &size))
}

/* What no packet can have. */
static void bounds(void) {
    static cpay_report_block_info blocks[32];
    static uint8_t name[256], bytes[800];
    size_t size = 99;
    memset(bytes, UNTOUCHED, sizeof bytes);
    CHECK(cpay_write_receiver_report(1, blocks, 32, bytes, sizeof bytes, &size) == CPAY_INVALID && size == 99);
    CHECK(cpay_write_sender_report(0, &REPORT, blocks, 32, bytes, sizeof bytes, &size) == CPAY_INVALID && size == 99);
    blocks[30].cumulative_lost = 1 << 24;
    CHECK(cpay_write_receiver_report(1, blocks, 31, bytes, sizeof bytes, &size) == CPAY_INVALID && size == 99);
    CHECK(cpay_write_cname(1, name, 256, bytes, sizeof bytes, &size) == CPAY_INVALID && size == 99);
    CHECK(cpay_write_cname(1, NULL, 1, bytes, sizeof bytes, &size) == CPAY_INVALID && size == 99);
    CHECK(cpay_write_bye(1, name, 256, bytes, sizeof bytes, &size) == CPAY_INVALID && size == 99);
    CHECK(cpay_write_bye(1, NULL, 1, bytes, sizeof bytes, &size) == CPAY_INVALID && size == 99);
    CHECK(is_untouched(bytes, sizeof bytes));
    blocks[30].cumulative_lost = (1 << 24) - 1;
    CHECK(cpay_write_receiver_report(1, blocks, 31, bytes, sizeof bytes, &size) == CPAY_OK && size == 8 + 31 * 24 && bytes[0] == 0x9f);
    CHECK(cpay_write_cname(1, name, 255, bytes, sizeof bytes, &size) == CPAY_OK && size == 268 && bytes[9] == 255);
    CHECK(cpay_write_bye(1, name, 255, bytes, sizeof bytes, &size) == CPAY_OK && size == 264 && bytes[8] == 255 && bytes[3] == 65);
}

/* A compound packet of the four, as a server sends it: its reports and their blocks. */
static void reading(void) {
    uint8_t rtcp[88];
    cpay_rtcp_report_info report = {0};
    cpay_report_block_info block = {0};
    memcpy(rtcp, SENDER, 28), memcpy(rtcp + 28, BLOCK_BYTES, 24), memcpy(rtcp + 52, RECEIVER, 8), memcpy(rtcp + 60, NAME, 16);
    memcpy(rtcp + 76, PLI, 12);
    CHECK(cpay_read_report(rtcp, 88, true, 0, &report) == CPAY_OK && report.is_sender && report.ssrc == 1 && report.blocks == 1);
    CHECK(report.ntp_time == NTP && report.rtp_time == 0x04030201 && report.packets == 300 && report.octets == 70000);
    CHECK(cpay_read_report_block(rtcp, 88, true, 0, 0, &block) == CPAY_OK && block.ssrc == 2 && block.fraction_lost == 128);
    CHECK(block.cumulative_lost == 0xfffffe && block.highest == 0x0001ffff && block.jitter == 9);
    CHECK(block.last_sender_report == 0xa1b2c3d4 && block.delay_since_sender_report == 65536);
    CHECK(cpay_read_report(rtcp, 88, true, 1, &report) == CPAY_OK && !report.is_sender && report.ssrc == 3 && report.blocks == 0);
    CHECK(report.ntp_time == 0 && report.rtp_time == 0 && report.packets == 0 && report.octets == 0);
    const cpay_rtcp_report_info kept = report;
    CHECK(cpay_read_report(rtcp, 88, true, 2, &report) == CPAY_NONE && report.ssrc == kept.ssrc);
    CHECK(cpay_read_report(rtcp, 88, true, SIZE_MAX, &report) == CPAY_NONE);
    CHECK(cpay_read_report_block(rtcp, 88, true, 0, 1, &block) == CPAY_NONE && block.ssrc == 2);
    CHECK(cpay_read_report_block(rtcp, 88, true, 0, SIZE_MAX, &block) == CPAY_NONE);
    CHECK(cpay_read_report_block(rtcp, 88, true, 1, 0, &block) == CPAY_NONE);
    /* one that does not begin with a report, and one that ends inside a block */
    CHECK(cpay_read_report(rtcp + 60, 28, true, 0, &report) == CPAY_RTCP_FIRST_NOT_REPORT);
    CHECK(cpay_read_report(rtcp + 60, 28, false, 0, &report) == CPAY_NONE);
    CHECK(cpay_read_report(rtcp, 51, true, 0, &report) == CPAY_RTCP_PACKET_TOO_SHORT);
    rtcp[3] = 11; /* one word less than the block has */
    CHECK(cpay_read_report_block(rtcp, 48, true, 0, 0, &block) == CPAY_RTCP_REPORT_TOO_SHORT && block.ssrc == 2);
    CHECK(cpay_read_report(NULL, 0, false, 0, &report) == CPAY_RTCP_HEADER_TOO_SHORT);
    CHECK(cpay_read_report(NULL, 1, false, 0, &report) == CPAY_INVALID && report.ssrc == kept.ssrc);
}

/* A receiver report, a source description with two chunks, whose first one has another item in front of its name, and one with a chunk
 * without a name, a second name of a source and an empty name. */
static void names(void) {
    static const uint8_t rtcp[] = {
        0x80, 201, 0, 1, 0, 0, 0, 3,                                                     /* a receiver report of SSRC 3 */
        0x82, 202, 0, 6, 0, 0, 0, 5, 2, 1, 'x', 1, 2, 'a', 'b', 0,                       /* SSRC 5: NAME, CNAME, the end */
        0, 0, 0, 6, 1, 3, 'c', 'd', 'e', 0, 0, 0,                                        /* SSRC 6: CNAME, the end, zeros */
        0x83, 202, 0, 7, 0, 0, 0, 8, 2, 1, 'y', 0, 0, 0, 0, 6, 1, 2, 'z', 'z', 0, 0, 0, 0, /* SSRC 8: NAME; SSRC 6 once more */
        0, 0, 0, 9, 1, 0, 0, 0};                                                         /* SSRC 9: an empty CNAME */
    uint8_t bytes[8];
    size_t size = 99;
    CHECK(sizeof rtcp == 8 + 28 + 32);
    memset(bytes, UNTOUCHED, sizeof bytes);
    CHECK(cpay_read_cname(rtcp, sizeof rtcp, true, 5, bytes, sizeof bytes, &size) == CPAY_OK && size == 2 && !memcmp(bytes, "ab", 2));
    CHECK(is_untouched(bytes + 2, sizeof bytes - 2));
    CHECK(cpay_read_cname(rtcp, sizeof rtcp, true, 6, bytes, 3, &size) == CPAY_OK && size == 3 && !memcmp(bytes, "cde", 3));
    CHECK(cpay_read_cname(rtcp, sizeof rtcp, true, 6, bytes, 2, &size) == CPAY_TOO_SMALL && size == 3 && !memcmp(bytes, "cde", 3));
    CHECK(cpay_read_cname(rtcp, sizeof rtcp, true, 9, NULL, 0, &size) == CPAY_OK && size == 0);
    size = 99;
    CHECK(cpay_read_cname(rtcp, sizeof rtcp, true, 8, bytes, sizeof bytes, &size) == CPAY_NONE && size == 99);
    CHECK(cpay_read_cname(rtcp, sizeof rtcp, true, 3, bytes, sizeof bytes, &size) == CPAY_NONE && size == 99);
    CHECK(cpay_read_cname(rtcp + 8, 28, true, 5, bytes, sizeof bytes, &size) == CPAY_RTCP_FIRST_NOT_REPORT && size == 99);
    CHECK(cpay_read_cname(rtcp + 8, 28, false, 6, bytes, sizeof bytes, &size) == CPAY_OK && size == 3);
    CHECK(cpay_read_cname(NULL, 0, false, 5, bytes, sizeof bytes, &size) == CPAY_RTCP_HEADER_TOO_SHORT);
    CHECK(cpay_read_cname(NULL, 1, false, 5, bytes, sizeof bytes, &size) == CPAY_INVALID);
}

/* Any bytes, at the end of a page as far as a sanitizer sees it. */
static void hostile(void) {
    uint32_t chance = 1;
    for (int turn = 0; turn < 20000; turn++) {
        size_t size = (size_t)turn % 61;
        uint8_t *rtcp = malloc(size + 1);
        cpay_rtcp_report_info report = {0};
        cpay_report_block_info block = {0};
        cpay_temporal_layer_info layer = {0};
        bool begins = false;
        for (size_t i = 0; i < size; i++) rtcp[i] = (uint8_t)((chance = chance * 1664525 + 1013904223) >> 24);
        if (turn % 2 && size > 4) {
            const uint8_t head[4] = {(uint8_t)(0x80 | (rtcp[0] & 0x1f)), (uint8_t)(200 + turn % 3), 0, (uint8_t)(size / 4 - 1)};
            memcpy(rtcp, head, sizeof head);
        }
        for (size_t index = 0; index < 3; index++) {
            cpay_status told = cpay_read_report(rtcp, size, false, index, &report);
            CHECK(told == CPAY_OK || told == CPAY_NONE || (told >= CPAY_RTCP_HEADER_TOO_SHORT && told <= CPAY_RTCP_FIR_LENGTH));
            for (size_t place = 0; told == CPAY_OK && place < report.blocks; place++)
                CHECK(cpay_read_report_block(rtcp, size, false, index, place, &block) == CPAY_OK && block.cumulative_lost >> 24 == 0);
            if (told == CPAY_OK) CHECK(cpay_read_report_block(rtcp, size, false, index, report.blocks, &block) == CPAY_NONE);
        }
        for (int codec = CPAY_VP8; codec <= CPAY_AV1; codec++) {
            CHECK(cpay_begins_keyframe((cpay_codec)codec, rtcp, size, &begins) == CPAY_OK);
            cpay_status told = cpay_temporal_layer((cpay_codec)codec, rtcp, size, &layer);
            CHECK((told == CPAY_OK && layer.id < 8) || told == CPAY_NONE);
        }
        free(rtcp);
    }
}

static bool begins(cpay_codec codec, const uint8_t *payload, size_t size) {
    bool it = false;
    CHECK(cpay_begins_keyframe(codec, payload, size, &it) == CPAY_OK);
    return it;
}

#define BEGINS(codec, ...) begins(codec, (const uint8_t[]){__VA_ARGS__}, sizeof((const uint8_t[]){__VA_ARGS__}))

static void keyframes(void) {
    bool it = true;
    /* VP8: S, PID 0 and a P bit of 0; not S; PID 1; P of 1; with a picture id of two bytes */
    CHECK(BEGINS(CPAY_VP8, 0x10, 0x10) && !BEGINS(CPAY_VP8, 0, 0x10) && !BEGINS(CPAY_VP8, 0x11, 0x10) && !BEGINS(CPAY_VP8, 0x10, 0x11));
    CHECK(BEGINS(CPAY_VP8, 0x90, 0x80, 0x81, 2, 0x10) && !BEGINS(CPAY_VP8, 0x90, 0x80, 0x81, 2, 0x11) && !BEGINS(CPAY_VP8, 0x10));
    /* VP9: B; with P; without B; L with SID 0 and 1; the layers behind a picture id of one byte and of two */
    CHECK(BEGINS(CPAY_VP9, 0x08, 1) && !BEGINS(CPAY_VP9, 0x48, 1) && !BEGINS(CPAY_VP9, 0, 1));
    CHECK(BEGINS(CPAY_VP9, 0x28, 0x01, 0, 1) && !BEGINS(CPAY_VP9, 0x28, 0x02, 0, 1));
    CHECK(BEGINS(CPAY_VP9, 0xa8, 5, 0x20, 0, 1) && !BEGINS(CPAY_VP9, 0xa8, 5, 0x22, 0, 1));
    CHECK(BEGINS(CPAY_VP9, 0xa8, 0x85, 2, 0x20, 0, 1) && !BEGINS(CPAY_VP9, 0xa8, 0x85, 2, 0x22, 0, 1));
    /* AV1: N; with Z; without N */
    CHECK(BEGINS(CPAY_AV1, 0x08, 1) && !BEGINS(CPAY_AV1, 0x88, 1) && !BEGINS(CPAY_AV1, 0x10, 1));
    CHECK(!begins(CPAY_VP8, NULL, 0) && !begins(CPAY_VP9, NULL, 0) && !begins(CPAY_AV1, NULL, 0));
    CHECK(begins(CPAY_OPUS, NULL, 0) && BEGINS(CPAY_PCMU, 1));
    CHECK(cpay_begins_keyframe((cpay_codec)8, NULL, 0, &it) == CPAY_INVALID && it);
    CHECK(cpay_begins_keyframe(CPAY_VP8, NULL, 1, &it) == CPAY_INVALID && it);
}

static unsigned layer_of(cpay_codec codec, const uint8_t *payload, size_t size) {
    cpay_temporal_layer_info layer = {9, false};
    cpay_status told = cpay_temporal_layer(codec, payload, size, &layer);
    CHECK(told == CPAY_OK || (told == CPAY_NONE && layer.id == 9));
    return layer.id * 2u + layer.sync;
}

#define LAYER(codec, ...) layer_of(codec, (const uint8_t[]){__VA_ARGS__}, sizeof((const uint8_t[]){__VA_ARGS__}))

static void layers(void) {
    enum { NONE = 18 };
    /* VP8: X, then T: TID 2 and Y; TID 1 without Y; behind a picture id of one byte, of two, and TL0PICIDX */
    CHECK(LAYER(CPAY_VP8, 0x90, 0x20, 0xa0, 0) == 5 && LAYER(CPAY_VP8, 0x90, 0x20, 0x40, 0) == 2);
    CHECK(LAYER(CPAY_VP8, 0x90, 0xa0, 0x7f, 0xe0, 0) == 7 && LAYER(CPAY_VP8, 0x90, 0xa0, 0x80, 0x20, 0x40, 0) == 2);
    CHECK(LAYER(CPAY_VP8, 0x90, 0x60, 0xff, 0x40, 0) == 2 && LAYER(CPAY_VP8, 0x90, 0xf0, 0x81, 0x01, 0xff, 0xdf, 0) == 6);
    /* without X, without T though K is set, and cut off */
    CHECK(LAYER(CPAY_VP8, 0x10, 0x20, 0xa0) == NONE && LAYER(CPAY_VP8, 0x90, 0x10, 0xc0, 0) == NONE);
    CHECK(LAYER(CPAY_VP8, 0x90, 0x20) == NONE && LAYER(CPAY_VP8, 0x90) == NONE && LAYER(CPAY_VP8, 0x90, 0xe0, 0x80, 1, 2) == NONE);
    /* VP9: L: TID 3 and U; TID 7 without U; behind a picture id; without L */
    CHECK(LAYER(CPAY_VP9, 0x28, 0x70, 0) == 7 && LAYER(CPAY_VP9, 0x28, 0xe0, 0) == 14 && LAYER(CPAY_VP9, 0xa8, 0x85, 2, 0x30, 0) == 3);
    CHECK(LAYER(CPAY_VP9, 0x88, 0x70, 0x70) == NONE && LAYER(CPAY_VP9, 0xa8, 0x85, 2) == NONE);
    CHECK(LAYER(CPAY_AV1, 0x28, 0x70) == NONE && LAYER(CPAY_OPUS, 0x90, 0x20, 0xa0) == NONE && LAYER(8, 0x90, 0x20, 0xa0) == NONE);
    CHECK(layer_of(CPAY_VP8, NULL, 0) == NONE && layer_of(CPAY_VP9, NULL, 0) == NONE);
}

static cpay_freeze_counts_info counts_of(cpay_freezes *freezes) {
    cpay_freeze_counts_info counts = {77, 77};
    CHECK(cpay_freezes_counts(freezes, &counts) == CPAY_OK);
    return counts;
}

/* The counts after that number of frames, each shown for `each` ticks, and then one shown for `last`. */
static cpay_freeze_counts_info after(uint32_t rate, unsigned frames, uint64_t each, uint64_t last) {
    cpay_freezes it = CPAY_INIT;
    uint64_t now = 1000;
    CHECK(cpay_freezes_new(&it, rate) == CPAY_OK);
    for (unsigned i = 0; i <= frames; i++, now += each) CHECK(cpay_freezes_shown(&it, now) == CPAY_OK);
    CHECK(counts_of(&it).freezes == 0);
    CHECK(cpay_freezes_shown(&it, now - each + last) == CPAY_OK);
    cpay_freeze_counts_info counts = counts_of(&it);
    cpay_freezes_free(&it);
    return counts;
}

/* With 29 durations of 50 ms and one of d ms the average is (1450 + d) / 30. d is 150 ms above it from 29 d >= 5950 on, that is 206 ms
 * (205 * 29 is 5945), and three times the average from 161.1 ms on. With 29 of 200 ms d must be three times the average: 27 d >= 17400,
 * that is 645 ms. */
static void freezes(void) {
    cpay_freeze_counts_info counts = after(1000, 29, 50, 205);
    CHECK(counts.freezes == 0 && counts.frozen == 0);
    counts = after(1000, 29, 50, 206);
    CHECK(counts.freezes == 1 && counts.frozen == 206);
    /* only the last 30 count: 40 before are the same */
    CHECK(after(1000, 40, 50, 205).freezes == 0 && after(1000, 40, 50, 206).freezes == 1);
    CHECK(after(1000, 29, 200, 644).freezes == 0 && after(1000, 29, 200, 645).freezes == 1);
    /* the same in ticks of 1/90,000 s: 29 d >= 30 * 13500 + 29 * 4500, that is d >= 18465.6 */
    CHECK(after(90000, 29, 4500, 18465).freezes == 0 && after(90000, 29, 4500, 18466).freezes == 1);
    /* three of 50 ms before: the average is (150 + d) / 4, so 3 d >= 750 and d >= 3/4 (150 + d): d >= 450 */
    CHECK(after(1000, 3, 50, 449).freezes == 0 && after(1000, 3, 50, 450).freezes == 1);
    /* the first duration is its own average */
    CHECK(after(1000, 0, 0, UINT64_MAX / 2).freezes == 0);
}

/* A clock that goes back, and times as far apart as they can be. */
static void any_times(void) {
    cpay_freezes it = CPAY_INIT;
    CHECK(cpay_freezes_new(&it, UINT32_MAX) == CPAY_OK);
    for (int i = 0; i < 100; i++) CHECK(cpay_freezes_shown(&it, i % 2 ? 0 : UINT64_MAX) == CPAY_OK);
    /* half of the durations are 2^64 - 1, and half are 0: none is three times the average of 30 */
    CHECK(counts_of(&it).freezes == 0);
    for (int i = 0; i < 30; i++) CHECK(cpay_freezes_shown(&it, 5) == CPAY_OK);
    CHECK(counts_of(&it).freezes == 0);
    CHECK(cpay_freezes_shown(&it, UINT64_MAX) == CPAY_OK && counts_of(&it).freezes == 1 && counts_of(&it).frozen == UINT64_MAX - 5);
    cpay_freezes_free(&it);
}

static void handles(void) {
    any it = ANY_INIT;
    const cpay_history_settings keeps = {.limit = 1};
    cpay_freeze_counts_info counts = {7, 8};
    cpay_freezes_free(NULL);
    CHECK(cpay_freezes_new(&it.freezes, 0) == CPAY_INVALID);
    for (int kind = 0; kind < 2; kind++) {
        cpay_status status = kind == 0 ? CPAY_EMPTY : CPAY_OTHER_KIND;
        if (kind == 1) CHECK(cpay_history_new(&it.history, &keeps) == CPAY_OK);
        CHECK(cpay_freezes_shown(&it.freezes, 1) == status);
        CHECK(cpay_freezes_counts(&it.freezes, &counts) == status && counts.freezes == 7 && counts.frozen == 8);
    }
    CHECK(cpay_freezes_new(&it.freezes, 1000) == CPAY_FULL);
    cpay_freezes_free(&it.freezes);
    CHECK(cpay_freezes_new(&it.freezes, 1000) == CPAY_OK && cpay_freezes_new(&it.freezes, 1000) == CPAY_FULL);
    CHECK(cpay_history_keep(&it.history, NULL, 0, NULL) == CPAY_OTHER_KIND);
    cpay_freezes_free(&it.freezes);
    CHECK(cpay_freezes_counts(&it.freezes, &counts) == CPAY_EMPTY);
}

int main(void) {
    packets();
    byes();
    bounds();
    reading();
    names();
    hostile();
    keyframes();
    layers();
    freezes();
    any_times();
    handles();
    return checked();
}

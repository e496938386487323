/* Whole frames, and whole RED payloads, in one call: all packets in the caller's buffer, with room around each; and elements of
 * header extensions. Expected bytes follow the RFCs named here. */
#include "any.h"
#include "check.h"
#include "codec_payload.h"

enum { UNTOUCHED = 0xaa };

static bool all_are(const uint8_t *bytes, size_t size, uint8_t wanted) {
    for (size_t i = 0; i < size; i++)
        if (bytes[i] != wanted) return false;
    return true;
}

static const cpay_frame_cut five = {.mtu = 5, .headroom = 2, .tailroom = 1, .starts_talk_spurt = true};

/* VP8 with picture ids (RFC 7741, section 4.2): X S, I, the id, and the frame, in 15 bytes with the rooms. */
static void vp8_into(cpay_packetizer *sender, uint8_t id) {
    static const uint8_t frame[3] = {0x90, 0x90, 0x90};
    const uint8_t first[5] = {0x90, 0x80, id, 0x90, 0x90}, second[4] = {0x80, 0x80, id, 0x90};
    uint8_t bytes[16];
    cpay_placed_packet packets[3] = {{0}};
    cpay_frame_room room = {0};
    memset(bytes, UNTOUCHED, sizeof bytes);
    packets[0].offset = packets[2].offset = 7;
    /* one byte too few, one packet too few, and none: the required size is reported, and nothing has changed */
    CHECK(cpay_packetize_into(sender, &five, frame, 3, bytes, 14, packets, 3, &room) == CPAY_TOO_SMALL);
    CHECK(room.bytes == 15 && room.count == 2);
    room = (cpay_frame_room){0};
    CHECK(cpay_packetize_into(sender, &five, frame, 3, bytes, 16, packets, 1, &room) == CPAY_TOO_SMALL);
    CHECK(room.bytes == 15 && room.count == 2);
    room = (cpay_frame_room){0};
    CHECK(cpay_packetize_into(sender, &five, frame, 3, NULL, 0, NULL, 0, &room) == CPAY_TOO_SMALL);
    CHECK(room.bytes == 15 && room.count == 2);
    CHECK(all_are(bytes, 16, UNTOUCHED) && packets[0].offset == 7 && packets[1].offset == 0);
    /* exactly enough */
    room = (cpay_frame_room){0};
    CHECK(cpay_packetize_into(sender, &five, frame, 3, bytes, 15, packets, 2, &room) == CPAY_OK);
    CHECK(room.bytes == 15 && room.count == 2);
    CHECK(packets[0].offset == 2 && packets[0].bytes == 5 && !packets[0].marker && packets[0].nackable);
    CHECK(packets[1].offset == 10 && packets[1].bytes == 4 && packets[1].marker && packets[1].nackable);
    CHECK(packets[2].offset == 7);
    CHECK(memcmp(bytes + 2, first, 5) == 0 && memcmp(bytes + 10, second, 4) == 0);
    CHECK(all_are(bytes, 2, UNTOUCHED) && all_are(bytes + 7, 3, UNTOUCHED) && all_are(bytes + 14, 2, UNTOUCHED));
}

/* The packets of one call do not affect the packets of the other. */
static void vp8(void) {
    cpay_packetizer sender = CPAY_INIT;
    cpay_spec spec = {.codec = CPAY_VP8, .rate = 90000, .first_id = 32, .vp8_ids = true};
    cpay_packet_info packet = {0};
    size_t count = 0;
    uint8_t bytes[8] = {0};
    CHECK(cpay_packetizer_new(&sender, &spec) == CPAY_OK);
    vp8_into(&sender, 32);
    vp8_into(&sender, 33);
    CHECK(cpay_packetize(&sender, 5, false, (const uint8_t *)"\x90\x90\x90", 3, &count) == CPAY_OK && count == 2);
    CHECK(cpay_packet(&sender, &packet, bytes, 8) == CPAY_OK && same(bytes, "\x90\x80\x22\x90\x90", 5));
    vp8_into(&sender, 35);
    CHECK(cpay_packet(&sender, &packet, bytes, 8) == CPAY_OK && same(bytes, "\x80\x80\x22\x90", 4) && packet.marker);
    CHECK(cpay_packet(&sender, &packet, bytes, 8) == CPAY_NONE);
    cpay_packetizer_free(&sender);
}

/* Faults, ends of ranges, and handles that are empty or of another type. */
static void refusals(void) {
    any it = ANY_INIT;
    cpay_spec noise = {.codec = CPAY_CN, .rate = 8000}, opus = {.codec = CPAY_OPUS, .rate = 48000};
    cpay_frame_cut cut = {.mtu = 3}, wide = {.mtu = 3, .headroom = SIZE_MAX, .tailroom = SIZE_MAX, .starts_talk_spurt = true};
    uint8_t frame[4] = {1, 2, 3, 4}, bytes[8];
    cpay_placed_packet packets[2] = {{.offset = 7}};
    cpay_frame_room room = {.bytes = 7, .count = 7};
    memset(bytes, UNTOUCHED, sizeof bytes);
    CHECK(cpay_packetize_into(&it.packetizer, &cut, frame, 4, bytes, 8, packets, 2, &room) == CPAY_EMPTY);
    CHECK(cpay_depacketizer_new(&it.depacketizer, &opus) == CPAY_OK);
    CHECK(cpay_packetize_into(&it.packetizer, &cut, frame, 4, bytes, 8, packets, 2, &room) == CPAY_OTHER_KIND);
    cpay_depacketizer_free(&it.depacketizer);
    CHECK(cpay_packetizer_new(&it.packetizer, &noise) == CPAY_OK);
    CHECK(cpay_packetize_into(&it.packetizer, &cut, frame, 4, bytes, 8, packets, 2, &room) == CPAY_PAYLOAD_TOO_LARGE);
    CHECK(cpay_packetize_into(&it.packetizer, &cut, NULL, 4, bytes, 8, packets, 2, &room) == CPAY_INVALID);
    CHECK(cpay_packetize_into(&it.packetizer, &cut, frame, 4, NULL, 8, packets, 2, &room) == CPAY_INVALID);
    CHECK(cpay_packetize_into(&it.packetizer, &cut, frame, 4, bytes, 8, NULL, 2, &room) == CPAY_INVALID);
    CHECK(room.bytes == 7 && room.count == 7 && packets[0].offset == 7 && all_are(bytes, 8, UNTOUCHED));
    cpay_packetizer_free(&it.packetizer);

    CHECK(cpay_packetizer_new(&it.packetizer, &opus) == CPAY_OK);
    CHECK(cpay_packetize_into(&it.packetizer, &wide, frame, 4, bytes, 8, packets, 2, &room) == CPAY_TOO_SMALL);
    CHECK(room.bytes == SIZE_MAX && room.count == 2 && all_are(bytes, 8, UNTOUCHED));
    wide.headroom = 0;
    CHECK(cpay_packetize_into(&it.packetizer, &wide, frame, 4, bytes, 8, packets, 2, &room) == CPAY_TOO_SMALL);
    CHECK(room.bytes == SIZE_MAX && all_are(bytes, 8, UNTOUCHED));
    /* an empty frame has no packets, and needs no room */
    CHECK(cpay_packetize_into(&it.packetizer, &wide, NULL, 0, NULL, 0, NULL, 0, &room) == CPAY_OK);
    CHECK(room.bytes == 0 && room.count == 0);
    /* a talk spurt marks each packet of audio, and none of them may be retransmitted */
    wide.tailroom = 0;
    CHECK(cpay_packetize_into(&it.packetizer, &wide, frame, 4, bytes, 4, packets, 2, &room) == CPAY_OK && room.count == 2);
    CHECK(packets[0].marker && packets[1].marker && !packets[0].nackable && packets[1].offset == 3 && packets[1].bytes == 1);
    CHECK(same(bytes, "\1\2\3\4\xaa\xaa\xaa\xaa", 8));
    cpay_packetizer_free(&it.packetizer);
}

/* A frame of Opus that fits the MTU is one packet, as it is (RFC 7587, section 4.2), marked if a talk spurt begins (RFC 3551, section
 * 4.1). */
static void one_packet(void) {
    static const cpay_spec opus = {.codec = CPAY_OPUS, .rate = 48000};
    static const uint8_t frame[4] = {1, 2, 3, 4};
    cpay_packetizer sender = CPAY_INIT;
    cpay_frame_cut cut = {.mtu = 4, .headroom = 2, .tailroom = 1, .starts_talk_spurt = true};
    uint8_t bytes[9];
    cpay_placed_packet packets[2] = {{0}};
    cpay_frame_room room = {0};
    memset(bytes, UNTOUCHED, sizeof bytes);
    packets[1].offset = 7;
    CHECK(cpay_packetizer_new(&sender, &opus) == CPAY_OK);
    /* one byte too few, and no packet: the required size is reported, and nothing has changed */
    CHECK(cpay_packetize_into(&sender, &cut, frame, 4, bytes, 6, packets, 2, &room) == CPAY_TOO_SMALL);
    CHECK(room.bytes == 7 && room.count == 1);
    room = (cpay_frame_room){0};
    CHECK(cpay_packetize_into(&sender, &cut, frame, 4, bytes, 9, NULL, 0, &room) == CPAY_TOO_SMALL);
    CHECK(room.bytes == 7 && room.count == 1 && all_are(bytes, 9, UNTOUCHED) && packets[0].offset == 0);
    CHECK(cpay_packetize_into(&sender, &cut, frame, 4, bytes, 7, packets, 1, &room) == CPAY_OK && room.bytes == 7 && room.count == 1);
    CHECK(same(bytes, "\xaa\xaa\1\2\3\4\xaa\xaa\xaa", 9) && packets[0].offset == 2 && packets[0].bytes == 4);
    CHECK(packets[0].marker && !packets[0].nackable && packets[1].offset == 7);
    cut.starts_talk_spurt = false;
    CHECK(cpay_packetize_into(&sender, &cut, frame, 4, bytes, 9, packets, 2, &room) == CPAY_OK && !packets[0].marker);
    /* a byte more than the MTU */
    cut.mtu = 3;
    CHECK(cpay_packetize_into(&sender, &cut, frame, 4, bytes, 9, packets, 2, &room) == CPAY_TOO_SMALL);
    CHECK(room.bytes == 10 && room.count == 2);
    cpay_packetizer_free(&sender);
}

/* Frames of a codec, through each of the two calls: the same packets. */
static void both(uint32_t codec, size_t mtu, size_t headroom, size_t tailroom) {
    enum { FRAMES = 6, LONGEST = 700 };
    static uint8_t frame[LONGEST], bytes[64 * LONGEST], one[LONGEST];
    static cpay_placed_packet packets[LONGEST];
    cpay_packetizer whole = CPAY_INIT, single = CPAY_INIT;
    cpay_spec spec = {.codec = codec, .rate = 90000, .first_id = 126, .vp8_ids = true};
    cpay_frame_cut cut = {.mtu = mtu, .headroom = headroom, .tailroom = tailroom, .starts_talk_spurt = true};
    CHECK(cpay_packetizer_new(&whole, &spec) == CPAY_OK && cpay_packetizer_new(&single, &spec) == CPAY_OK);
    for (size_t i = 0; i < FRAMES; i++) {
        size_t size = 297 + i * (LONGEST - 297) / FRAMES, count = 0, at = 0;
        cpay_packet_info info = {0};
        cpay_frame_room room = {0};
        for (size_t k = 0; k < size; k++) frame[k] = (uint8_t)(k * 7 + i);
        if (codec == CPAY_AV1) { /* the header of an OBU, and its length in two bytes */
            frame[0] = 0x32, frame[1] = (uint8_t)(0x80 | ((size - 3) & 0x7f)), frame[2] = (uint8_t)((size - 3) >> 7);
        }
        CHECK(cpay_packetize_into(&whole, &cut, frame, size, NULL, 0, packets, LONGEST, &room) == CPAY_TOO_SMALL);
        memset(bytes, UNTOUCHED, sizeof bytes);
        CHECK(cpay_packetize_into(&whole, &cut, frame, size, bytes, room.bytes - 1, packets, LONGEST, &room) == CPAY_TOO_SMALL);
        CHECK(cpay_packetize_into(&whole, &cut, frame, size, bytes, room.bytes, packets, room.count, &room) == CPAY_OK);
        CHECK(cpay_packetize(&single, mtu, true, frame, size, &count) == CPAY_OK && count == room.count);
        for (size_t k = 0; k < count; k++) {
            CHECK(cpay_packet(&single, &info, one, LONGEST) == CPAY_OK);
            CHECK(info.bytes == packets[k].bytes && info.marker == packets[k].marker && info.nackable == packets[k].nackable);
            CHECK(packets[k].offset == at + headroom && memcmp(bytes + at + headroom, one, info.bytes) == 0);
            CHECK(all_are(bytes + at, headroom, UNTOUCHED));
            at += headroom + info.bytes + tailroom;
            CHECK(all_are(bytes + at - tailroom, tailroom, UNTOUCHED));
        }
        CHECK(at == room.bytes && all_are(bytes + at, sizeof bytes - at, UNTOUCHED));
    }
    cpay_packetizer_free(&whole);
    cpay_packetizer_free(&single);
}

/* RFC 2198, section 3: for each older block F and the type, 14 bits of offset, 10 of length; F clear and the type; the bytes. */
static void red(void) {
    static const uint8_t payload[15] = {0xef, 0x1e, 0x00, 0x02, 0xee, 0x0f, 0x00, 0x01, 0x6f, 1, 2, 3, 4, 5, 6};
    cpay_red_block_place blocks[4];
    size_t count = 7;
    memset(blocks, 0, sizeof blocks);
    blocks[0].start = blocks[3].start = 77;
    CHECK(cpay_red_blocks(payload, 15, blocks, 2, &count) == CPAY_TOO_SMALL && count == 3 && blocks[0].start == 77);
    count = 7;
    CHECK(cpay_red_blocks(payload, 15, NULL, 0, &count) == CPAY_TOO_SMALL && count == 3);
    count = 7;
    CHECK(cpay_red_blocks(payload, 9 + 2, blocks, 4, &count) == CPAY_RED_CORRUPTED);
    CHECK(cpay_red_blocks(NULL, 0, blocks, 4, &count) == CPAY_RED_CORRUPTED);
    CHECK(cpay_red_blocks(NULL, 1, blocks, 4, &count) == CPAY_INVALID);
    CHECK(cpay_red_blocks(payload, 15, NULL, 1, &count) == CPAY_INVALID);
    CHECK(count == 7 && blocks[0].start == 77);
    CHECK(cpay_red_blocks(payload, 15, blocks, 3, &count) == CPAY_OK && count == 3 && blocks[3].start == 77);
    CHECK(blocks[0].start == 9 && blocks[0].bytes == 2 && blocks[0].offset == 1920 && blocks[0].payload_type == 111);
    CHECK(blocks[1].start == 11 && blocks[1].bytes == 1 && blocks[1].offset == 960 && blocks[1].payload_type == 110);
    CHECK(blocks[2].start == 12 && blocks[2].bytes == 3 && blocks[2].offset == 0 && blocks[2].payload_type == 111);
    CHECK(!blocks[0].is_primary && !blocks[1].is_primary && blocks[2].is_primary);
    /* only the primary block, without a byte */
    CHECK(cpay_red_blocks((const uint8_t *)"\x6f", 1, blocks, 1, &count) == CPAY_OK && count == 1);
    CHECK(blocks[0].start == 1 && blocks[0].bytes == 0 && blocks[0].is_primary);
    /* 32 older blocks are the maximum */
    uint8_t many[33 * 4 + 1];
    cpay_red_block_place all[33];
    for (size_t i = 0; i < sizeof many; i++) many[i] = i % 4 ? 0 : 0x80;
    many[32 * 4] = 1;
    CHECK(cpay_red_blocks(many, 32 * 4 + 1, all, 33, &count) == CPAY_OK && count == 33 && all[32].start == 129);
    many[32 * 4] = 0x80, many[33 * 4] = 1;
    CHECK(cpay_red_blocks(many, 33 * 4 + 1, all, 33, &count) == CPAY_RED_CORRUPTED);
}

/* RFC 8285, sections 4.2 and 4.3, after a header of RFC 3550 with the X bit: the profile, the length in words, the elements. */
static void elements(void) {
    static const uint8_t one[24] = {0x90, 96, 0, 1, 0, 0, 0, 0, 0, 0, 0, 7,
                                    0xbe, 0xde, 0, 2, 0x10, 0x85, 0, 0x31, 1, 2, 0x30, 9};
    static const uint8_t two[24] = {0x90, 96, 0, 1, 0, 0, 0, 0, 0, 0, 0, 7, 0x10, 0, 0, 2, 0xc8, 3, 1, 2, 3, 5, 0, 0};
    static const uint8_t other[16] = {0x90, 96, 0, 1, 0, 0, 0, 0, 0, 0, 0, 7, 0, 1, 0, 0}, bare[12] = {0x80, 96};
    uint8_t bytes[4] = {7, 7, 7, 7};
    size_t size = 99;
    CHECK(cpay_extension(one, 24, 2, bytes, 4, &size) == CPAY_NONE);
    CHECK(cpay_extension(one, 24, 0, bytes, 4, &size) == CPAY_NONE);
    CHECK(cpay_extension(other, 16, 1, bytes, 4, &size) == CPAY_NONE);
    CHECK(cpay_extension(bare, 12, 1, bytes, 4, &size) == CPAY_NONE);
    CHECK(cpay_extension(one, 23, 1, bytes, 4, &size) == CPAY_RTP_EXTENSION_TOO_SHORT);
    CHECK(cpay_extension(one, 11, 1, bytes, 4, &size) == CPAY_RTP_HEADER_TOO_SHORT);
    CHECK(cpay_extension(NULL, 0, 1, bytes, 4, &size) == CPAY_RTP_HEADER_TOO_SHORT);
    CHECK(cpay_extension(NULL, 1, 1, bytes, 4, &size) == CPAY_INVALID);
    CHECK(cpay_extension(one, 24, 1, NULL, 1, &size) == CPAY_INVALID);
    CHECK(size == 99 && same(bytes, "\7\7\7\7", 4));
    CHECK(cpay_extension(one, 24, 3, bytes, 1, &size) == CPAY_TOO_SMALL && size == 2 && same(bytes, "\7\7\7\7", 4));
    size = 99;
    CHECK(cpay_extension(one, 24, 1, NULL, 0, &size) == CPAY_TOO_SMALL && size == 1);
    CHECK(cpay_extension(one, 24, 1, bytes, 1, &size) == CPAY_OK && size == 1 && same(bytes, "\x85\7\7\7", 4));
    CHECK(cpay_extension(one, 24, 3, bytes, 2, &size) == CPAY_OK && size == 2 && same(bytes, "\1\2\7\7", 4));
    CHECK(cpay_extension(two, 24, 200, bytes, 4, &size) == CPAY_OK && size == 3 && same(bytes, "\1\2\3\7", 4));
    CHECK(cpay_extension(two, 24, 5, NULL, 0, &size) == CPAY_OK && size == 0);
}

int main(void) {
    static const uint32_t codecs[] = {CPAY_OPUS, CPAY_G722, CPAY_VP8, CPAY_VP9, CPAY_AV1};
    vp8();
    refusals();
    one_packet();
    red();
    elements();
    for (size_t i = 0; i < sizeof codecs / sizeof *codecs; i++) {
        both(codecs[i], 100, 0, 0);
        both(codecs[i], 100, 12, 10);
        both(codecs[i], 20, 5, 0);
        both(codecs[i], 1200, 3, 2);
    }
    both(CPAY_NULL, 1, 12, 4);
    return checked();
}

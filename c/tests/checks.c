/* The result of each call: statuses, waiting packets and units, and outputs. Expected bytes follow the RFCs named here. */
#include "any.h"
#include "check.h"
#include "codec_payload.h"

static cpay_spec spec_of(uint32_t codec, uint32_t rate) {
    cpay_spec spec = {.codec = codec, .rate = rate};
    return spec;
}

/* Every call on a handle that is empty or of another type. */
static void refusals(any *it, cpay_status packets, cpay_status units, cpay_status red, cpay_status pieces) {
    uint8_t bytes[4] = {7, 7, 7, 7};
    size_t count = 7;
    uint32_t distance = 1;
    cpay_packet_info packet = {.bytes = 7};
    cpay_received received = {.number = 1};
    cpay_unit unit = {.first = 7};
    cpay_buffer_counts_info counts = {.held = 7};
    cpay_extra extra = {.picture_id = 7};
    cpay_lent_unit lent = {.bytes = 7};
    uint8_t payload[1] = {0};
    if (packets) {
        CHECK(cpay_packetize(&it->packetizer, 100, false, payload, 1, &count) == packets);
        CHECK(cpay_packet(&it->packetizer, &packet, bytes, 4) == packets);
    }
    if (units) {
        CHECK(cpay_buffer_push(&it->buffer, &received, payload, 1) == units);
        CHECK(cpay_buffer_pop(&it->buffer, &unit, bytes, 4) == units);
        CHECK(cpay_buffer_counts(&it->buffer, &counts) == units);
    }
    if (red) {
        CHECK(cpay_red_sync(&it->red_sender, 1, 2, &distance, 1) == red);
        CHECK(cpay_red_wrap(&it->red_sender, 0, 4, payload, 1, bytes, 4, &count) == red);
    }
    if (pieces) {
        CHECK(cpay_depacketize(&it->depacketizer, payload, 1) == pieces);
        CHECK(cpay_depacketized(&it->depacketizer, &count, &extra, bytes, 4) == pieces);
        CHECK(cpay_depacketizer_unit(&it->depacketizer, &lent) == pieces);
        CHECK(cpay_depacketizer_clear(&it->depacketizer) == pieces);
    }
    CHECK(same(bytes, "\7\7\7\7", 4));
    CHECK(count == 7 && packet.bytes == 7 && unit.first == 7 && counts.held == 7 && extra.picture_id == 7 && lent.bytes == 7);
}

/* The text of each status. */
static void texts(void) {
    static const struct {
        uint32_t status;
        const char *text;
    } rows[] = {
        {0, "success"},
        {1, "the packet is too short"},
        {2, "the payload exceeds the MTU"},
        {3, "too many spatial layers"},
        {4, "too many references"},
        {11, "the VP8 packet is corrupted"},
        {12, "the VP9 packet is corrupted"},
        {13, "the AV1 packet or frame is corrupted"},
        {14, "the RED packet is corrupted"},
        {15, "invalid telephone-event payload"},
        {16, "the AMR-WB packet or frame is corrupted"},
        {17, "out of memory"},
        {32, "nothing available"},
        {33, "output buffer too small"},
        {34, "handle not initialised"},
        {35, "handle of another type"},
        {36, "handle already in use"},
        {37, "invalid argument"},
        {38, "frame truncated"},
        {39, "wrong start code or marker in frame"},
        {40, "reserved value in frame"},
        {41, "inconsistent sizes in frame"},
        {5, "unknown status"},
        {18, "unknown status"},
        {42, "the RTP packet is shorter than its fixed header"},
        {43, "the RTP version is not 2"},
        {44, "the RTP packet ends inside its CSRCs"},
        {45, "the RTP packet ends inside the header of its extension"},
        {46, "the RTP packet ends inside its extension"},
        {47, "RTP padding length is 0"},
        {48, "RTP padding exceeds the payload"},
        {49, "the retransmission has no original sequence number"},
        {50, "the RTCP packet is shorter than its header"},
        {51, "the RTCP version is not 2"},
        {52, "the compound RTCP packet does not begin with a report"},
        {53, "the RTCP length passes the end"},
        {54, "RTCP padding before the last packet"},
        {55, "RTCP padding length is 0"},
        {56, "RTCP padding exceeds the packet"},
        {57, "the RTCP report ends inside its report blocks"},
        {58, "the RTCP SDES ends inside an SSRC"},
        {59, "the RTCP SDES ends inside a chunk"},
        {60, "the RTCP BYE ends inside its SSRCs"},
        {61, "the RTCP BYE ends inside its reason"},
        {62, "the RTCP feedback ends inside its SSRCs"},
        {63, "the RTCP NACK has a wrong length"},
        {64, "the RTCP PLI has a wrong length"},
        {65, "the RTCP FIR has a wrong length"},
        {66, "REMB is shorter than its bitrate"},
        {67, "the feedback is not REMB"},
        {68, "the bitrate of REMB has more than 64 bits"},
        {69, "REMB ends inside its SSRCs"},
        {70, "the transport-wide feedback is shorter than its header"},
        {71, "the transport-wide feedback ends inside its chunks"},
        {72, "the transport-wide feedback has a reserved status"},
        {73, "the transport-wide feedback ends inside its deltas"},
        {74, "the header extension has no elements"},
        {75, "the header extension has no room for the number"},
        {76, "the unit is larger than the settings allow"},
        {77, "more bytes would wait than the settings allow"},
        {78, "the RFC 8888 feedback is shorter than its SSRC and its timestamp"},
        {79, "the RFC 8888 feedback ends inside the head of a block"},
        {80, "the RFC 8888 feedback has a block of more than 16384 packets"},
        {81, "the RFC 8888 feedback ends inside the packets of a block"},
        {82, "the FEC packet is shorter than its header"},
        {83, "the FEC packet has its extension flag set"},
        {84, "the FEC packet ends inside the header of level 0"},
        {85, "the FEC packet protects no packet"},
        {86, "the FEC packet ends inside the payload of level 0"},
        {87, "the streams of the port with FEC are not 1 to 256"},
        {88, "a payload type of the settings is out of range"},
        {89, "a payload type of the settings has two meanings"},
        {90, "the packet exceeds 65547 bytes"},
        {91, "the packet is of another stream"},
        {92, "the packet has the payload type of RED or of ULPFEC"},
        {93, "the packet comes too late"},
        {94, "unknown status"},
    };
    for (size_t i = 0; i < sizeof rows / sizeof *rows; i++)
        CHECK(strcmp(cpay_status_text((cpay_status)rows[i].status), rows[i].text) == 0);
}

static void kinds(void) {
    any it = ANY_INIT;
    cpay_spec opus = spec_of(CPAY_OPUS, 48000);
    uint32_t distance = 1;
    refusals(&it, CPAY_EMPTY, CPAY_EMPTY, CPAY_EMPTY, CPAY_EMPTY);
    cpay_buffer_free(&it.buffer);
    CHECK(cpay_packetizer_new(&it.packetizer, &opus) == CPAY_OK);
    CHECK(cpay_packetizer_new(&it.packetizer, &opus) == CPAY_FULL);
    CHECK(cpay_buffer_new(&it.buffer, &opus, 0, 1) == CPAY_FULL);
    CHECK(cpay_depacketizer_new(&it.depacketizer, &opus) == CPAY_FULL);
    CHECK(cpay_red_sender_new(&it.red_sender, 1, 2, &distance, 1) == CPAY_FULL);
    refusals(&it, CPAY_OK, CPAY_OTHER_KIND, CPAY_OTHER_KIND, CPAY_OTHER_KIND);
    cpay_buffer_free(&it.buffer);
    cpay_buffer_free(&it.buffer);
    refusals(&it, CPAY_EMPTY, CPAY_EMPTY, CPAY_EMPTY, CPAY_EMPTY);
    CHECK(cpay_buffer_new(&it.buffer, &opus, 0, 1) == CPAY_OK);
    refusals(&it, CPAY_OTHER_KIND, CPAY_OK, CPAY_OTHER_KIND, CPAY_OTHER_KIND);
    cpay_buffer_free(&it.buffer);
    CHECK(cpay_red_sender_new(&it.red_sender, 1, 2, &distance, 1) == CPAY_OK);
    refusals(&it, CPAY_OTHER_KIND, CPAY_OTHER_KIND, CPAY_OK, CPAY_OTHER_KIND);
    cpay_buffer_free(&it.buffer);
    CHECK(cpay_depacketizer_new(&it.depacketizer, &opus) == CPAY_OK);
    refusals(&it, CPAY_OTHER_KIND, CPAY_OTHER_KIND, CPAY_OTHER_KIND, CPAY_OK);
    cpay_buffer_free(&it.buffer);
}

static void arguments(void) {
    any it = ANY_INIT;
    for (uint32_t codec = 0; codec < 20; codec++) {
        bool there = codec <= CPAY_AMR_WB || (codec >= CPAY_VP8 && codec <= CPAY_TELE);
        cpay_spec spec = spec_of(codec, 8000), stopped = spec_of(codec, 0), ids = spec;
        ids.first_id = 32768;
        CHECK(cpay_packetizer_new(&it.packetizer, &spec) == (there ? CPAY_OK : CPAY_INVALID));
        cpay_buffer_free(&it.buffer);
        CHECK(cpay_depacketizer_new(&it.depacketizer, &spec) == (there ? CPAY_OK : CPAY_INVALID));
        cpay_buffer_free(&it.buffer);
        CHECK(cpay_buffer_new(&it.buffer, &spec, 0, 65536) == (there ? CPAY_OK : CPAY_INVALID));
        cpay_buffer_free(&it.buffer);
        CHECK(cpay_packetizer_new(&it.packetizer, &stopped) == CPAY_INVALID);
        CHECK(cpay_packetizer_new(&it.packetizer, &ids) == CPAY_INVALID);
        /* A depacketizer ignores the picture id. */
        CHECK(cpay_depacketizer_new(&it.depacketizer, &ids) == (there ? CPAY_OK : CPAY_INVALID));
        cpay_buffer_free(&it.buffer);
        CHECK(cpay_buffer_new(&it.buffer, &ids, 0, 1) == (there ? CPAY_OK : CPAY_INVALID));
        cpay_buffer_free(&it.buffer);
        CHECK(cpay_buffer_new(&it.buffer, &stopped, 0, 1) == CPAY_INVALID);
        CHECK(cpay_buffer_new(&it.buffer, &spec, 0, 0) == CPAY_INVALID);
        CHECK(cpay_buffer_new(&it.buffer, &spec, 0, 65537) == CPAY_INVALID);
        CHECK(!it.buffer.handle.full);
    }
    uint32_t falling[2] = {2, 1}, far[1] = {9};
    CHECK(cpay_red_sender_new(&it.red_sender, 1, 2, falling, 2) == CPAY_INVALID);
    CHECK(cpay_red_sender_new(&it.red_sender, 1, 2, far, 1) == CPAY_INVALID);
    CHECK(cpay_red_sender_new(&it.red_sender, 1, 2, far, 0) == CPAY_OK);
    CHECK(cpay_red_sync(&it.red_sender, 1, 2, falling, 2) == CPAY_INVALID);
    cpay_buffer_free(&it.buffer);
}

/* VP8 with picture ids (RFC 7741, section 4.2): X S, I, the id, and the frame. */
static void vp8(void) {
    cpay_packetizer sender = CPAY_INIT;
    cpay_buffer buffer = CPAY_INIT;
    cpay_spec spec = {.codec = CPAY_VP8, .rate = 90000, .first_id = 32, .vp8_ids = true};
    const uint8_t frame[3] = {0x90, 0x90, 0x90};
    uint8_t bytes[8] = {0};
    size_t count = 0;
    cpay_packet_info packet = {0};
    CHECK(cpay_packetizer_new(&sender, &spec) == CPAY_OK);
    CHECK(cpay_buffer_new(&buffer, &spec, 2, 100) == CPAY_OK);
    CHECK(cpay_packet(&sender, &packet, bytes, 8) == CPAY_NONE);
    CHECK(cpay_packetize(&sender, 5, true, frame, 3, &count) == CPAY_OK && count == 2);
    CHECK(cpay_packet(&sender, &packet, bytes, 4) == CPAY_TOO_SMALL && packet.bytes == 5);
    CHECK(cpay_packet(&sender, &packet, bytes, 5) == CPAY_OK && same(bytes, "\x90\x80\x20\x90\x90", 5));
    CHECK(!packet.marker && packet.nackable);
    cpay_received received = {.number = 7, .received = 20, .rtp_time = 3000};
    CHECK(cpay_buffer_push(&buffer, &received, bytes, 5) == CPAY_OK);
    CHECK(cpay_packet(&sender, &packet, bytes, 8) == CPAY_OK && packet.bytes == 4 && same(bytes, "\x80\x80\x20\x90", 4));
    CHECK(packet.marker);
    CHECK(cpay_packet(&sender, &packet, bytes, 8) == CPAY_NONE);

    cpay_unit unit = {0};
    cpay_buffer_counts_info counts = {0};
    CHECK(cpay_buffer_pop(&buffer, &unit, bytes, 8) == CPAY_NONE);
    received = (cpay_received){.number = 8, .received = 10, .rtp_time = 3000, .marker = true};
    CHECK(cpay_buffer_push(&buffer, &received, bytes, 4) == CPAY_OK);
    CHECK(cpay_buffer_counts(&buffer, &counts) == CPAY_OK);
    CHECK(counts.held == 2 && counts.ready == 1 && counts.limit == 100 && !counts.waiting);
    CHECK(cpay_buffer_pop(&buffer, &unit, bytes, 2) == CPAY_TOO_SMALL && unit.bytes == 3);
    CHECK(cpay_buffer_counts(&buffer, &counts) == CPAY_OK && counts.held == 0 && counts.waiting);
    memset(&unit, 0, sizeof unit);
    CHECK(cpay_buffer_pop(&buffer, &unit, bytes, 3) == CPAY_OK && same(bytes, "\x90\x90\x90", 3));
    CHECK(unit.first == 7 && unit.last == 8 && unit.rtp_time == 3000 && unit.received == 10 && unit.bytes == 3);
    CHECK(unit.contiguous && !unit.starts_talk_spurt);
    CHECK(unit.extra.kind == CPAY_EXTRA_VP8 && unit.extra.has_picture_id && unit.extra.picture_id == 32);
    CHECK(!unit.extra.has_tl0_picture_id && unit.extra.is_keyframe && unit.extra.has_temporal_layer);
    CHECK(cpay_buffer_pop(&buffer, &unit, bytes, 3) == CPAY_NONE);
    cpay_packetizer_free(&sender);
    cpay_buffer_free(&buffer);
}

static void descriptors(void) {
    uint8_t one[4] = {0x90, 0x80, 0x20, 0x90}, two[5] = {0x90, 0x80, 0xff, 0xff, 0x91};
    cpay_vp8_fields_info fields = {0}, values = {0};
    bool keyframe = false;
    CHECK(cpay_vp8_fields(one, 4, &fields, &keyframe) == CPAY_OK);
    CHECK(fields.has_picture_id && fields.picture_id == 32 && fields.picture_id_bits == 7 && keyframe);
    CHECK(!fields.has_tl0_pic_idx && !fields.has_key_idx);
    CHECK(cpay_vp8_fields(two, 5, &fields, &keyframe) == CPAY_OK && fields.picture_id == 32767 && fields.picture_id_bits == 15 && !keyframe);
    CHECK(cpay_vp8_fields(one, 3, &fields, &keyframe) == CPAY_SHORT_PACKET);
    CHECK(cpay_vp8_fields((const uint8_t *)"\x90\x40\x00\x90", 4, &fields, &keyframe) == CPAY_VP8_CORRUPTED);
    CHECK(cpay_vp8_patch(one, 4, &values) == CPAY_OK && same(one, "\x90\x80\x20\x90", 4));
    values.has_picture_id = true;
    values.picture_id = 33;
    CHECK(cpay_vp8_patch(one, 4, &values) == CPAY_OK && same(one, "\x90\x80\x21\x90", 4));
    values.picture_id = 128;
    CHECK(cpay_vp8_patch(one, 4, &values) == CPAY_INVALID && same(one, "\x90\x80\x21\x90", 4));
    values.picture_id = 0x1234;
    CHECK(cpay_vp8_patch(two, 5, &values) == CPAY_OK && same(two, "\x90\x80\x92\x34\x91", 5));
    CHECK(cpay_vp8_patch(one, 3, &values) == CPAY_SHORT_PACKET);
    values = (cpay_vp8_fields_info){.has_tl0_pic_idx = true};
    CHECK(cpay_vp8_patch(two, 5, &values) == CPAY_NONE);
    /* X S, L T K, TL0PICIDX, TID Y KEYIDX, and bytes after them */
    uint8_t layered[9] = {0x90, 0x70, 5, 0x61, 0x91, 6, 7, 8, 9};
    values = (cpay_vp8_fields_info){.tl0_pic_idx = 200, .key_idx = 31, .has_tl0_pic_idx = true, .has_key_idx = true};
    CHECK(cpay_vp8_patch(layered, 9, &values) == CPAY_OK && same(layered, "\x90\x70\xc8\x7f\x91\6\7\x8\x9", 9));
    values.key_idx = 32;
    CHECK(cpay_vp8_patch(layered, 9, &values) == CPAY_INVALID && layered[2] == 200);
}

/* RFC 2198, section 3: F and the type, 14 bits of offset, 10 of length; F clear and the type; the bytes of the blocks. */
static void red(void) {
    cpay_red_sender sender = CPAY_INIT;
    uint32_t distance = 1;
    uint8_t bytes[16] = {0};
    size_t size = 0;
    CHECK(cpay_red_sender_new(&sender, 63, 111, &distance, 1) == CPAY_OK);
    CHECK(cpay_red_wrap(&sender, 0, 16, (const uint8_t *)"\1\2", 2, bytes, 15, &size) == CPAY_TOO_SMALL && size == 16);
    CHECK(cpay_red_wrap(&sender, 0, 16, (const uint8_t *)"\1\2", 2, bytes, 16, &size) == CPAY_OK);
    CHECK(size == 3 && same(bytes, "\x6f\1\2", 3));
    CHECK(cpay_red_wrap(&sender, 960, 16, (const uint8_t *)"\3", 1, bytes, 16, &size) == CPAY_OK);
    CHECK(size == 8 && same(bytes, "\xef\x0f\x00\x02\x6f\1\2\3", 8));
    CHECK(cpay_red_sync(&sender, 63, 111, &distance, 0) == CPAY_OK);
    uint8_t plain[16] = {0};
    CHECK(cpay_red_wrap(&sender, 1920, 16, (const uint8_t *)"\4", 1, plain, 16, &size) == CPAY_OK && size == 2);
    cpay_red_sender_free(&sender);

    uint8_t found[4] = {0};
    cpay_red_block_info block = {0};
    CHECK(cpay_red_block(bytes, 8, 0, &block, found, 1) == CPAY_TOO_SMALL && block.bytes == 2);
    CHECK(cpay_red_block(bytes, 8, 0, &block, found, 4) == CPAY_OK && same(found, "\1\2", 2));
    CHECK(block.offset == 960 && block.payload_type == 111 && !block.is_primary);
    CHECK(cpay_red_block(bytes, 8, 1, &block, found, 4) == CPAY_OK && block.is_primary && found[0] == 3);
    CHECK(cpay_red_block(bytes, 8, 2, &block, found, 4) == CPAY_NONE);
    CHECK(cpay_red_block(bytes, 1, 0, &block, found, 4) == CPAY_RED_CORRUPTED);

    cpay_recovered_info packet = {0};
    CHECK(cpay_red_recover(111, 960, 7, 960, bytes, 8, 0, &packet, found, 4) == CPAY_OK);
    CHECK(packet.number == 6 && packet.rtp_time == 0 && packet.bytes == 2 && !packet.is_primary && same(found, "\1\2", 2));
    CHECK(cpay_red_recover(111, 960, 7, 960, bytes, 8, 1, &packet, found, 4) == CPAY_OK);
    CHECK(packet.number == 7 && packet.rtp_time == 960 && packet.is_primary);
    CHECK(cpay_red_recover(111, 960, 7, 960, bytes, 8, 2, &packet, found, 4) == CPAY_NONE);
    CHECK(cpay_red_recover(111, 960, 7, 960, bytes, 1, 0, &packet, found, 4) == CPAY_RED_CORRUPTED);
    CHECK(cpay_red_recover(111, 0, 7, 960, bytes, 8, 0, &packet, found, 4) == CPAY_INVALID);
    CHECK(cpay_red_recover(111, 16384, 7, 960, bytes, 8, 0, &packet, found, 4) == CPAY_INVALID);

    cpay_red_older older = {.start = 1, .bytes = 2, .offset = 960, .payload_type = 111};
    CHECK(cpay_red_encode(111, (const uint8_t *)"\3", 1, &older, 1, (const uint8_t *)"\0\1\2", 3, plain, 16, &size) == CPAY_OK);
    CHECK(size == 8 && same(plain, "\xef\x0f\x00\x02\x6f\1\2\3", 8));
    CHECK(cpay_red_encode(111, found, 1, &older, 1, (const uint8_t *)"\0\1\2", 3, plain, 7, &size) == CPAY_TOO_SMALL && size == 8);
    older.bytes = 3;
    CHECK(cpay_red_encode(111, found, 1, &older, 1, (const uint8_t *)"\0\1\2", 3, plain, 16, &size) == CPAY_INVALID);
    older.bytes = SIZE_MAX;
    CHECK(cpay_red_encode(111, found, 1, &older, 1, (const uint8_t *)"\0\1\2", 3, plain, 16, &size) == CPAY_INVALID);
}

/* RFC 4733, section 2.3: the event, E R and the volume, the duration. 800 ticks at 8 kHz are 100 ms. */
static void telephone(void) {
    static const uint8_t reports[8] = {5, 0x8a, 3, 0x20, 6, 10, 1, 0x40};
    cpay_tele_event event = {0};
    uint8_t bytes[4] = {0};
    CHECK(cpay_tele_read(reports, 8, 8000, 0, &event) == CPAY_OK);
    CHECK(event.event == 5 && event.end && event.volume == 10 && event.duration == 100000000);
    CHECK(cpay_tele_write(&event, 8000, bytes, 3) == CPAY_TOO_SMALL);
    CHECK(cpay_tele_write(&event, 8000, bytes, 4) == CPAY_OK && same(bytes, "\5\x8a\3\x20", 4));
    CHECK(cpay_tele_read(reports, 8, 8000, 1, &event) == CPAY_OK && event.event == 6 && !event.end);
    CHECK(event.duration == 40000000);
    CHECK(cpay_tele_read(reports, 8, 8000, 2, &event) == CPAY_NONE);
    CHECK(cpay_tele_read(reports, 7, 8000, 0, &event) == CPAY_TELE_INVALID);
    CHECK(cpay_tele_read(reports, 0, 8000, 0, &event) == CPAY_TELE_INVALID);
    CHECK(cpay_tele_read(reports, 8, 0, 0, &event) == CPAY_INVALID);
    event.duration = 65536 * (uint64_t)125000;
    CHECK(cpay_tele_write(&event, 8000, bytes, 4) == CPAY_INVALID);
    CHECK(cpay_tele_write(&event, 0, bytes, 4) == CPAY_INVALID);
}

static void looks(void) {
    bool answer = false;
    CHECK(cpay_is_head(CPAY_VP8, (const uint8_t *)"\x10\x90", 2, &answer) == CPAY_OK && answer);
    CHECK(cpay_is_head(CPAY_VP8, (const uint8_t *)"\x00\x90", 2, &answer) == CPAY_OK && !answer);
    CHECK(cpay_is_tail(CPAY_VP8, true, (const uint8_t *)"\x00\x90", 2, &answer) == CPAY_OK && answer);
    CHECK(cpay_is_tail(CPAY_VP8, false, (const uint8_t *)"\x00\x90", 2, &answer) == CPAY_OK && !answer);
    CHECK(cpay_is_head(6, (const uint8_t *)"", 0, &answer) == CPAY_INVALID);
    CHECK(cpay_is_tail(99, true, (const uint8_t *)"", 0, &answer) == CPAY_INVALID);
    CHECK(cpay_vp8_is_keyframe((const uint8_t *)"\x10\x90", 2) && !cpay_vp8_is_keyframe((const uint8_t *)"\x10\x91", 2));
    CHECK(cpay_vp9_frame_is_keyframe((const uint8_t *)"\x82\x49\x83", 3));
    CHECK(!cpay_vp9_frame_is_keyframe((const uint8_t *)"\x86", 1));
    CHECK(cpay_av1_is_keyframe((const uint8_t *)"\x18\x0a", 2) && !cpay_av1_is_keyframe((const uint8_t *)"\x10\x32", 2));
    CHECK(cpay_vp9_is_keyframe((const uint8_t *)"\x08\x82", 2) && !cpay_vp9_is_keyframe((const uint8_t *)"\x48\x82", 2));
    CHECK(cpay_extend_number(0, false, 65535) == 65535);
    CHECK(cpay_extend_number(65535, true, 0) == 65536);
    CHECK(cpay_extend_number(65536, true, 65535) == 65535);
    CHECK(cpay_extend_number(65536, true, 32768) == 65536 + 32768);
    CHECK(cpay_extend_number(65536, true, 32769) == 32769);
}

/* A unit that is lent: the bytes are those that cpay_depacketized copies, and it begins anew only when that is said. */
static void lent(void) {
    cpay_depacketizer depacketizer = CPAY_INIT;
    cpay_spec vp8 = spec_of(CPAY_VP8, 90000);
    cpay_lent_unit unit = {.bytes = 7};
    cpay_extra extra = {0};
    uint8_t bytes[8] = {0};
    size_t size = 9;
    CHECK(cpay_depacketizer_unit(&depacketizer, &unit) == CPAY_EMPTY && unit.bytes == 7);
    CHECK(cpay_depacketizer_clear(&depacketizer) == CPAY_EMPTY);
    CHECK(cpay_depacketizer_new(&depacketizer, &vp8) == CPAY_OK);
    CHECK(cpay_depacketizer_unit(&depacketizer, &unit) == CPAY_OK && unit.bytes == 0 && unit.extra.kind == CPAY_EXTRA_NONE);
    CHECK(cpay_depacketize(&depacketizer, (const uint8_t *)"\x10\x82\x49", 3) == CPAY_OK);
    CHECK(cpay_depacketize(&depacketizer, (const uint8_t *)"\x00\x83", 2) == CPAY_OK);
    for (int i = 0; i < 2; i++)
        CHECK(cpay_depacketizer_unit(&depacketizer, &unit) == CPAY_OK && unit.bytes == 3 && same(unit.at, "\x82\x49\x83", 3));
    CHECK(unit.extra.kind == CPAY_EXTRA_VP8 && unit.extra.is_keyframe);
    CHECK(cpay_depacketized(&depacketizer, &size, &extra, bytes, 2) == CPAY_TOO_SMALL && size == 3);
    CHECK(cpay_depacketizer_unit(&depacketizer, &unit) == CPAY_OK && unit.bytes == 3 && same(unit.at, "\x82\x49\x83", 3));
    CHECK(cpay_depacketizer_clear(&depacketizer) == CPAY_OK);
    CHECK(cpay_depacketizer_unit(&depacketizer, &unit) == CPAY_OK && unit.bytes == 0 && unit.extra.kind == CPAY_EXTRA_NONE);
    CHECK(cpay_depacketized(&depacketizer, &size, &extra, bytes, 8) == CPAY_OK && size == 0);
    /* What comes after it is a unit of its own, also in the memory of the last one. */
    CHECK(cpay_depacketize(&depacketizer, (const uint8_t *)"\x10\x85", 2) == CPAY_OK);
    CHECK(cpay_depacketizer_unit(&depacketizer, &unit) == CPAY_OK && unit.bytes == 1 && unit.at[0] == 0x85);
    CHECK(!unit.extra.is_keyframe);
    CHECK(cpay_depacketized(&depacketizer, &size, &extra, bytes, 8) == CPAY_OK && size == 1 && bytes[0] == 0x85);
    cpay_depacketizer_free(&depacketizer);
}

/* Payloads of VP9 (RFC 9628, section 4.2) and of telephone events through a depacketizer. */
static void pieces(void) {
    cpay_depacketizer depacketizer = CPAY_INIT;
    cpay_spec vp9 = spec_of(CPAY_VP9, 90000), tele = spec_of(CPAY_TELE, 8000);
    cpay_extra extra = {0};
    uint8_t bytes[8] = {0};
    size_t size = 9;
    CHECK(cpay_depacketizer_new(&depacketizer, &vp9) == CPAY_OK);
    /* I L B, a 15-bit id, layers 0, TL0PICIDX 7; then I L E and the same */
    CHECK(cpay_depacketize(&depacketizer, (const uint8_t *)"\xa8\x92\x34\x00\x07\x82\x49", 7) == CPAY_OK);
    CHECK(cpay_depacketize(&depacketizer, (const uint8_t *)"\xa4\x92\x34\x00\x07\x83", 6) == CPAY_OK);
    CHECK(cpay_depacketized(&depacketizer, &size, &extra, bytes, 2) == CPAY_TOO_SMALL && size == 3);
    CHECK(cpay_depacketized(&depacketizer, &size, &extra, bytes, 8) == CPAY_OK && size == 3 && same(bytes, "\x82\x49\x83", 3));
    CHECK(extra.kind == CPAY_EXTRA_VP9 && extra.has_picture_id && extra.picture_id == 0x1234 && extra.is_keyframe);
    CHECK(extra.has_tl0_picture_id && extra.tl0_picture_id == 7 && extra.has_temporal_layer && extra.temporal_layer == 0);
    CHECK(extra.layers[0].has_end && extra.layers[0].end == 3 && !extra.layers[1].has_end && !extra.layers[0].has_width);
    CHECK(cpay_depacketized(&depacketizer, &size, &extra, bytes, 8) == CPAY_OK && size == 0 && extra.kind == CPAY_EXTRA_NONE);
    CHECK(cpay_depacketize(&depacketizer, bytes, 0) == CPAY_SHORT_PACKET);
    cpay_depacketizer_free(&depacketizer);
    CHECK(cpay_depacketizer_new(&depacketizer, &tele) == CPAY_OK);
    CHECK(cpay_depacketize(&depacketizer, (const uint8_t *)"\5\x8a\3", 3) == CPAY_TELE_INVALID);
    CHECK(cpay_depacketize(&depacketizer, (const uint8_t *)"\5\x8a\3\x20", 4) == CPAY_OK);
    CHECK(cpay_depacketized(&depacketizer, &size, &extra, bytes, 8) == CPAY_OK && size == 4);
    CHECK(extra.kind == CPAY_EXTRA_TELE && extra.event.duration == 100000000 && extra.event.event == 5 && extra.event.end);
    cpay_depacketizer_free(&depacketizer);
}

static void audio(void) {
    cpay_packetizer sender = CPAY_INIT;
    cpay_spec opus = spec_of(CPAY_OPUS, 48000), cn = spec_of(CPAY_CN, 8000), null = spec_of(CPAY_NULL, 8000);
    uint8_t bytes[4] = {0};
    size_t count = 9;
    cpay_packet_info packet = {0};
    CHECK(cpay_packetizer_new(&sender, &opus) == CPAY_OK);
    CHECK(cpay_packetize(&sender, 2, true, (const uint8_t *)"\1\2\3", 3, &count) == CPAY_OK && count == 2);
    CHECK(cpay_packet(&sender, &packet, bytes, 4) == CPAY_OK && packet.marker && !packet.nackable);
    CHECK(cpay_packet(&sender, &packet, bytes, 4) == CPAY_OK && packet.marker && packet.bytes == 1 && bytes[0] == 3);
    CHECK(cpay_packetize(&sender, 2, false, (const uint8_t *)"\4", 1, &count) == CPAY_OK && count == 1);
    CHECK(cpay_packet(&sender, &packet, bytes, 4) == CPAY_OK && !packet.marker);
    CHECK(cpay_packetize(&sender, 2, false, bytes, 0, &count) == CPAY_OK && count == 0);
    cpay_packetizer_free(&sender);
    CHECK(cpay_packetizer_new(&sender, &cn) == CPAY_OK);
    CHECK(cpay_packetize(&sender, 4, true, (const uint8_t *)"\1\2\3", 3, &count) == CPAY_OK && count == 1);
    CHECK(cpay_packetize(&sender, 2, true, (const uint8_t *)"\4\5\6", 3, &count) == CPAY_PAYLOAD_TOO_LARGE);
    CHECK(cpay_packet(&sender, &packet, bytes, 4) == CPAY_OK && !packet.marker && same(bytes, "\1\2\3", 3));
    cpay_packetizer_free(&sender);
    /* CPAY_NULL ignores the MTU and talk spurts, and accepts an empty frame. */
    CHECK(cpay_packetizer_new(&sender, &null) == CPAY_OK);
    CHECK(cpay_packetize(&sender, 2, true, (const uint8_t *)"\1\2\3", 3, &count) == CPAY_OK && count == 1);
    CHECK(cpay_packet(&sender, &packet, bytes, 4) == CPAY_OK && !packet.marker && packet.bytes == 3 && same(bytes, "\1\2\3", 3));
    CHECK(cpay_packetize(&sender, 0, false, bytes, 0, &count) == CPAY_OK && count == 1);
    CHECK(cpay_packet(&sender, &packet, bytes, 4) == CPAY_OK && packet.bytes == 0);
    cpay_packetizer_free(&sender);
}

/* NULL is allowed with a length of 0 only. */
static void nulls(void) {
    cpay_packetizer sender = CPAY_INIT;
    cpay_buffer buffer = CPAY_INIT;
    cpay_red_sender red = CPAY_INIT;
    cpay_spec opus = spec_of(CPAY_OPUS, 48000);
    cpay_packet_info packet = {0};
    cpay_received received = {.number = 1};
    cpay_unit unit = {0};
    bool answer = true;
    uint8_t bytes[4] = {0};
    size_t count = 9;
    CHECK(cpay_packetizer_new(&sender, &opus) == CPAY_OK && cpay_buffer_new(&buffer, &opus, 0, 9) == CPAY_OK);
    CHECK(cpay_packetize(&sender, 9, false, NULL, 0, &count) == CPAY_OK && count == 0);
    CHECK(cpay_packetize(&sender, 9, false, NULL, 1, &count) == CPAY_INVALID && count == 0);
    CHECK(cpay_packetize(&sender, 9, false, (const uint8_t *)"\7", 1, &count) == CPAY_OK && count == 1);
    CHECK(cpay_packet(&sender, &packet, NULL, 1) == CPAY_INVALID && packet.bytes == 0);
    CHECK(cpay_packet(&sender, &packet, NULL, 0) == CPAY_TOO_SMALL && packet.bytes == 1);
    CHECK(cpay_buffer_push(&buffer, &received, NULL, 1) == CPAY_INVALID);
    CHECK(cpay_buffer_push(&buffer, &received, (const uint8_t *)"\7", 1) == CPAY_OK);
    CHECK(cpay_buffer_pop(&buffer, &unit, NULL, 0) == CPAY_TOO_SMALL && unit.bytes == 1);
    CHECK(cpay_buffer_pop(&buffer, &unit, NULL, 1) == CPAY_INVALID);
    CHECK(cpay_buffer_pop(&buffer, &unit, bytes, 1) == CPAY_OK && bytes[0] == 7);
    CHECK(cpay_red_sender_new(&red, 63, 111, NULL, 1) == CPAY_INVALID);
    CHECK(cpay_red_sender_new(&red, 63, 111, NULL, 0) == CPAY_OK);
    CHECK(cpay_is_head(CPAY_OPUS, NULL, 0, &answer) == CPAY_OK && cpay_is_head(CPAY_OPUS, NULL, 1, &answer) == CPAY_INVALID);
    CHECK(!cpay_vp8_is_keyframe(NULL, 0) && !cpay_vp8_is_keyframe(NULL, 1));
    CHECK(cpay_version() == CPAY_VERSION);
    cpay_packetizer_free(&sender);
    cpay_buffer_free(&buffer);
    cpay_red_sender_free(&red);
    cpay_packetizer_free(NULL);
    cpay_buffer_free(NULL);
    cpay_depacketizer_free(NULL);
    cpay_red_sender_free(NULL);
}

/* Headers of frames: bytes that libvpx and libaom wrote, and the bytes of RFC 6716, RFC 7845 and RFC 4867. */
static void frames(void) {
    static const uint8_t vp8[] = {0x10, 0x00, 0x00, 0x9d, 0x01, 0x2a, 0x40, 0x00, 0x30, 0x00};
    static const uint8_t unit[] = {0x12, 0x00, 0x0a, 0x0a, 0x00, 0x00, 0x00, 0x02, 0xaf,
                                   0xf7, 0x9b, 0x5f, 0x20, 0x08, 0x32, 0x01, 0x10};
    static const uint8_t opus[] = {0x78, 0x81}, sound[] = {0x70, 0x4c, 1, 2, 3, 4, 5};
    cpay_frame_facts facts = {0};
    CHECK(cpay_frame_info(CPAY_VP8, vp8, sizeof vp8, &facts) == CPAY_OK);
    CHECK(facts.has_keyframe && facts.keyframe && facts.has_size && facts.width == 64 && facts.height == 48);
    CHECK(!facts.has_duration);
    CHECK(cpay_frame_info(CPAY_AV1, unit, sizeof unit, &facts) == CPAY_OK);
    CHECK(facts.keyframe && facts.width == 64 && facts.height == 48);
    CHECK(cpay_frame_info(CPAY_OPUS, opus, sizeof opus, &facts) == CPAY_OK);
    CHECK(!facts.has_keyframe && !facts.has_size && facts.has_duration && facts.duration == 960);
    facts.duration = 7;
    CHECK(cpay_frame_info(CPAY_VP8, vp8, 9, &facts) == CPAY_FRAME_TOO_SHORT);
    CHECK(cpay_frame_info(CPAY_VP9, vp8, sizeof vp8, &facts) == CPAY_FRAME_MARKER);
    CHECK(cpay_frame_info(CPAY_AV1, unit + 1, sizeof unit - 1, &facts) == CPAY_FRAME_RESERVED);
    CHECK(cpay_frame_info(CPAY_AV1, unit, 9, &facts) == CPAY_FRAME_SIZES && facts.duration == 7);

    cpay_obu_info obu = {0};
    unsigned types = 0;
    for (size_t offset = 0; cpay_av1_obu(unit, sizeof unit, offset, &obu) == CPAY_OK; offset = obu.start + obu.bytes)
        types = 16 * types + obu.obu_type;
    CHECK(types == 0x216 && obu.start == 16 && obu.bytes == 1 && !obu.has_extension);
    CHECK(cpay_av1_obu(unit, sizeof unit, sizeof unit, &obu) == CPAY_NONE);
    CHECK(cpay_av1_obu(unit, sizeof unit, sizeof unit + 1, &obu) == CPAY_INVALID);
    CHECK(cpay_av1_obu(unit, sizeof unit - 1, 14, &obu) == CPAY_FRAME_SIZES && obu.start == 16);

    cpay_amr_wb_frame_info frame = {0};
    CHECK(cpay_amr_wb_frame(sound, sizeof sound, 0, &frame) == CPAY_OK);
    CHECK(frame.start == 1 && frame.bytes == 0 && frame.frame_type == 14 && !frame.quality);
    CHECK(cpay_amr_wb_frame(sound, sizeof sound, 1, &frame) == CPAY_OK);
    CHECK(frame.start == 2 && frame.bytes == 5 && frame.frame_type == 9 && frame.quality);
    CHECK(cpay_amr_wb_frame(sound, sizeof sound, 7, &frame) == CPAY_NONE);
    CHECK(cpay_amr_wb_frame(sound, 6, 1, &frame) == CPAY_FRAME_TOO_SHORT && frame.bytes == 5);

    /* A superframe of two frames, whose sizes have two bytes, and a byte of no frame. */
    static const uint8_t two[] = {0x84, 7, 0x86, 9, 0xc9, 2, 0, 1, 0, 0xc9};
    cpay_vp9_frame_info place = {0};
    CHECK(cpay_vp9_frame(two, sizeof two, 0, &place) == CPAY_OK && place.start == 0 && place.bytes == 2);
    CHECK(cpay_vp9_frame(two, sizeof two, 1, &place) == CPAY_OK && place.start == 2 && place.bytes == 1);
    CHECK(cpay_vp9_frame(two, sizeof two, 2, &place) == CPAY_NONE && place.start == 2);
    CHECK(cpay_vp9_frame(two, sizeof two, SIZE_MAX, &place) == CPAY_NONE);
    CHECK(cpay_vp9_frame(two, sizeof two - 1, 0, &place) == CPAY_OK && place.bytes == sizeof two - 1);
    CHECK(cpay_vp9_frame(two + 2, sizeof two - 2, 0, &place) == CPAY_FRAME_SIZES && place.bytes == sizeof two - 1);
    CHECK(cpay_vp9_frame(two, 0, 0, &place) == CPAY_FRAME_TOO_SHORT);

    uint8_t bytes[19] = {7};
    size_t size = 0;
    CHECK(cpay_av1c(unit + 2, 12, bytes, 15, &size) == CPAY_TOO_SMALL && size == 16 && bytes[0] == 7);
    CHECK(cpay_av1c(unit + 2, 12, bytes, sizeof bytes, &size) == CPAY_OK && size == 16);
    CHECK(same(bytes, "\x81\x00\x0c\x00\x0a\x0a", 6));
    CHECK(cpay_av1c(unit, 2, bytes, sizeof bytes, &size) == CPAY_INVALID);
    CHECK(cpay_av1c(unit + 2, 13, bytes, sizeof bytes, &size) == CPAY_INVALID && bytes[0] == 0x81);
    CHECK(cpay_opus_head(2, 312, 48000, bytes, 18) == CPAY_TOO_SMALL);
    CHECK(cpay_opus_head(2, 312, 48000, bytes, sizeof bytes) == CPAY_OK);
    CHECK(same(bytes, "OpusHead\1\2\x38\1\x80\xbb\0\0\0\0\0", 19));
    CHECK(cpay_opus_head(0, 312, 48000, bytes, sizeof bytes) == CPAY_INVALID);
    CHECK(cpay_opus_head(3, 312, 48000, bytes, sizeof bytes) == CPAY_INVALID);
}

int main(void) {
    texts();
    kinds();
    arguments();
    audio();
    vp8();
    descriptors();
    red();
    telephone();
    looks();
    pieces();
    lent();
    nulls();
    frames();
    return checked();
}

/* Values of header extensions: values passed to a sender are in its datagrams, and a receiver returns them with the unit.
 * Expected bytes follow RFC 8285, sections 4.2 and 4.3, RFC 6464, section 3, and the formats that docs/use/DATAGRAMS.md names. */
#include "any.h"
#include "check.h"
#include "codec_payload.h"

enum { TYPE = 111, SSRC = 0x01020304 };

static const cpay_extension_ids ids = {.abs_capture_time = 1, .video_orientation = 2, .video_content_type = 3,
                                       .video_timing = 4, .layers_allocation = 5, .audio_level = 6};

/* Values of every extension, without an offset of the clock. */
static cpay_extension_values all_values(void) {
    cpay_extension_values values = {.abs_capture_time = 0x0102030405060708, .has_abs_capture_time = true,
                                    .video_orientation = 0x0b, .has_video_orientation = true,
                                    .video_content_type = 1, .has_video_content_type = true,
                                    .video_timing = {0x0102, 0x0304, 0x0506, 0x0708, 0x090a, 0x0b0c, 2}, .has_video_timing = true,
                                    .layers_allocation = "xyz", .layers_allocation_len = 3, .has_layers_allocation = true,
                                    .audio_level = -5, .has_audio_level = true,
                                    .voice_activity = true, .has_voice_activity = true};
    return values;
}

static bool same_timing(const cpay_video_timing *a, const cpay_video_timing *b) {
    return a->encode_start == b->encode_start && a->encode_finish == b->encode_finish && a->flags == b->flags
           && a->packetize_complete == b->packetize_complete && a->last_left_pacer == b->last_left_pacer
           && a->network_1 == b->network_1 && a->network_2 == b->network_2;
}

/* Compares every field, absent ones included. */
static bool same_values(const cpay_extension_values *a, const cpay_extension_values *b) {
    return a->abs_capture_time == b->abs_capture_time && a->has_abs_capture_time == b->has_abs_capture_time
           && a->clock_offset == b->clock_offset && a->has_clock_offset == b->has_clock_offset
           && same_timing(&a->video_timing, &b->video_timing) && a->has_video_timing == b->has_video_timing
           && a->video_orientation == b->video_orientation && a->has_video_orientation == b->has_video_orientation
           && a->video_content_type == b->video_content_type && a->has_video_content_type == b->has_video_content_type
           && a->audio_level == b->audio_level && a->has_audio_level == b->has_audio_level
           && a->layers_allocation_len == b->layers_allocation_len && a->has_layers_allocation == b->has_layers_allocation
           && memcmp(a->layers_allocation, b->layers_allocation, sizeof a->layers_allocation) == 0
           && a->voice_activity == b->voice_activity && a->has_voice_activity == b->has_voice_activity;
}

static bool has_none(const cpay_extension_values *values) {
    static const cpay_extension_values none = {0};
    return same_values(values, &none);
}

static cpay_sender sender_of(uint32_t codec, uint32_t rate, cpay_extension_ids under) {
    cpay_sender sender = CPAY_INIT;
    cpay_sender_settings settings = {.spec = {.codec = codec, .rate = rate}, .mtu = 4, .ssrc = SSRC, .first_number = 0xffff,
                                     .payload_type = TYPE, .extension_ids = under};
    CHECK(cpay_sender_new(&sender, &settings) == CPAY_OK);
    return sender;
}

static cpay_receiver receiver_of(uint32_t codec, uint32_t rate, cpay_extension_ids under) {
    cpay_receiver receiver = CPAY_INIT;
    cpay_receiver_settings settings;
    cpay_receiver_settings_init(&settings, codec, rate, TYPE, CPAY_FOR_FILE);
    settings.has_ssrc = true;
    settings.ssrc = SSRC;
    settings.extension_ids = under;
    CHECK(cpay_receiver_new(&receiver, &settings, NULL, 0) == CPAY_OK);
    return receiver;
}

/* Checks that the datagram at a place is these bytes, and passes it to the receiver. */
static void sent(cpay_sender *sender, size_t place, const uint8_t *wanted, size_t size, cpay_receiver *receiver) {
    uint8_t bytes[512];
    size_t found = 0;
    cpay_outcome outcome = (cpay_outcome)99;
    CHECK(cpay_sender_datagram(sender, place, bytes, sizeof bytes, &found) == CPAY_OK && found == size);
    CHECK(found == size && memcmp(bytes, wanted, size) == 0);
    CHECK(cpay_receiver_receive(receiver, 0, bytes, found, &outcome) == CPAY_OK && outcome == CPAY_HELD);
}

/* Checks the values of the unit that was returned last. */
static bool tells(cpay_receiver *receiver, const cpay_extension_values *wanted) {
    cpay_extension_values found = {.clock_offset = 7, .layers_allocation = {8}};
    return cpay_receiver_values(receiver, &found) == CPAY_OK && same_values(&found, wanted);
}

static bool tells_none(cpay_receiver *receiver) {
    cpay_extension_values found = {.clock_offset = 7, .has_clock_offset = true, .layers_allocation = {8}};
    return cpay_receiver_values(receiver, &found) == CPAY_OK && has_none(&found);
}

/* A frame of VP8 in two packets: each value is on its packet, in the one-byte form. */
static void video(void) {
    static const uint8_t first[] = {0x90, TYPE, 0xff, 0xff, 0, 0, 0, 5, 1, 2, 3, 4, 0xbe, 0xde, 0, 4,
                                    0x17, 1, 2, 3, 4, 5, 6, 7, 8, 0x52, 'x', 'y', 'z', 0x60, 0x85, 0, 0x10, 'a', 'b', 'c'};
    static const uint8_t second[] = {0x90, 0x80 | TYPE, 0, 0, 0, 0, 0, 5, 1, 2, 3, 4, 0xbe, 0xde, 0, 5, 0x20, 0x0b, 0x30, 1,
                                     0x4c, 2, 1, 2, 3, 4, 5, 6, 7, 8, 9, 10, 11, 12, 0x60, 0x85, 0, 'd', 'e'};
    static const uint8_t bare[] = {0x80, 0x80 | TYPE, 0, 1, 0, 0, 0, 6, 1, 2, 3, 4, 0x10, 'f'};
    cpay_sender sender = sender_of(CPAY_VP8, 90000, ids);
    cpay_receiver receiver = receiver_of(CPAY_VP8, 90000, ids);
    cpay_extension_ids none = {0};
    cpay_receiver deaf = receiver_of(CPAY_VP8, 90000, none);
    cpay_sample sample = {.rtp_time = 0x100000005, .values = all_values()};
    cpay_extension_values wanted = all_values(), part = {.clock_offset = 7};
    cpay_unit unit = {0};
    size_t count = 0;
    cpay_outcome outcome = (cpay_outcome)99;
    uint8_t bytes[8];
    CHECK(cpay_sender_send_sample(&sender, &sample, (const uint8_t *)"abcde", 5, &count) == CPAY_OK && count == 2);
    sent(&sender, 0, first, sizeof first, &receiver);
    sent(&sender, 1, second, sizeof second, &receiver);
    CHECK(cpay_receiver_pop(&receiver, 0, &unit, bytes, 4) == CPAY_TOO_SMALL);
    /* no unit was returned yet */
    CHECK(cpay_receiver_values(&receiver, &part) == CPAY_NONE && part.clock_offset == 7);
    memset(&unit, 0, sizeof unit);
    CHECK(cpay_receiver_pop(&receiver, 0, &unit, bytes, 8) == CPAY_OK && unit.bytes == 5 && same(bytes, "abcde", 5));
    CHECK(tells(&receiver, &wanted));
    /* they stay until the next unit is returned */
    CHECK(cpay_receiver_pop(&receiver, 0, &unit, bytes, 8) == CPAY_NONE && tells(&receiver, &wanted));
    /* a receiver without ids reads no values */
    CHECK(cpay_receiver_receive(&deaf, 0, first, sizeof first, &outcome) == CPAY_OK);
    CHECK(cpay_receiver_receive(&deaf, 0, second, sizeof second, &outcome) == CPAY_OK);
    CHECK(cpay_receiver_pop(&deaf, 0, &unit, bytes, 8) == CPAY_OK && unit.bytes == 5 && tells_none(&deaf));
    /* a single datagram has only some of them */
    CHECK(cpay_extension_values_of(first, sizeof first, &ids, &part) == CPAY_OK);
    CHECK(part.has_abs_capture_time && part.abs_capture_time == wanted.abs_capture_time && !part.has_clock_offset);
    CHECK(part.has_layers_allocation && part.layers_allocation_len == 3 && same(part.layers_allocation, "xyz\0", 4));
    CHECK(part.has_audio_level && part.audio_level == -5 && part.has_voice_activity && part.voice_activity);
    CHECK(!part.has_video_timing && !part.has_video_orientation && !part.has_video_content_type && part.clock_offset == 0);
    CHECK(cpay_extension_values_of(second, sizeof second, &ids, &part) == CPAY_OK);
    CHECK(part.has_video_timing && same_timing(&part.video_timing, &wanted.video_timing) && !part.has_abs_capture_time);
    CHECK(part.has_video_orientation && part.video_orientation == 0x0b && part.has_video_content_type);
    CHECK(part.video_content_type == 1 && !part.has_layers_allocation && part.layers_allocation[0] == 0);
    /* a sample without values is a frame as cpay_sender_send sends it */
    cpay_sample plain = {.rtp_time = 6};
    CHECK(cpay_sender_send_sample(&sender, &plain, (const uint8_t *)"f", 1, &count) == CPAY_OK && count == 1);
    sent(&sender, 0, bare, sizeof bare, &receiver);
    CHECK(cpay_receiver_pop(&receiver, 0, &unit, bytes, 8) == CPAY_OK && unit.bytes == 1 && tells_none(&receiver));
    cpay_receiver_free(&receiver);
    cpay_receiver_free(&deaf);
    cpay_sender_free(&sender);
}

/* The one byte of the extension of an audio packet with these values; -1 if it has none. */
static int level_byte(cpay_sender *sender, const cpay_extension_values *values) {
    static const uint8_t front[4] = {0xbe, 0xde, 0, 1};
    cpay_sample sample = {.values = *values};
    uint8_t bytes[64];
    size_t count = 0, size = 0;
    CHECK(cpay_sender_send_sample(sender, &sample, (const uint8_t *)"o", 1, &count) == CPAY_OK && count == 1);
    CHECK(cpay_sender_datagram(sender, 0, bytes, sizeof bytes, &size) == CPAY_OK);
    if (size == 13) return bytes[0] == 0x80 ? -1 : -2;
    bool right = size == 21 && bytes[0] == 0x90 && memcmp(bytes + 12, front, 4) == 0 && bytes[16] == 0xe0;
    return right && bytes[18] == 0 && bytes[19] == 0 ? bytes[17] : -2;
}

/* RFC 6464, section 3: V, and seven bits of the level below 0 dBov. */
static void levels(void) {
    static const struct {
        int8_t level;
        bool has_level, has_voice, voice;
        int wanted;
    } rows[] = {
        {0, true, false, false, 0},      {-127, true, false, false, 127}, {-1, true, true, false, 1},
        {0, true, true, true, 0x80},     {-127, true, true, true, 0xff},  {1, true, true, true, -1},
        {-128, true, true, true, -1},    {-5, false, true, true, -1},     {-5, false, false, true, -1},
        {-5, true, false, true, 5},
    };
    cpay_extension_ids under = {.audio_level = 14};
    cpay_sender sender = sender_of(CPAY_OPUS, 48000, under);
    for (size_t i = 0; i < sizeof rows / sizeof *rows; i++) {
        cpay_extension_values values = {.audio_level = rows[i].level, .has_audio_level = rows[i].has_level,
                                        .voice_activity = rows[i].voice, .has_voice_activity = rows[i].has_voice,
                                        .video_orientation = 1, .has_video_orientation = true};
        int found = level_byte(&sender, &values);
        if (found != rows[i].wanted) printf("row %u: %d\n", (unsigned)i, found);
        CHECK(found == rows[i].wanted);
    }
    cpay_sender_free(&sender);
}

/* 16 bytes with the offset of the clock, an id above 14, and 17 bytes of layers: the two-byte form. */
static void two_bytes(void) {
    static const uint8_t wanted[] = {0x90, 0x80 | TYPE, 0xff, 0xff, 0, 0, 0, 9, 1, 2, 3, 4, 0x10, 0, 0, 10,
                                     1, 16, 0, 0, 0, 0, 0, 0, 0, 7, 0xff, 0xff, 0xff, 0xff, 0xff, 0xff, 0xff, 0xfe,
                                     200, 17, 1, 2, 3, 4, 5, 6, 7, 8, 9, 10, 11, 12, 13, 14, 15, 16, 17, 0, 0, 0, 'o', 'p'};
    cpay_extension_ids under = {.abs_capture_time = 1, .layers_allocation = 200};
    cpay_sender sender = sender_of(CPAY_OPUS, 48000, under);
    cpay_receiver receiver = receiver_of(CPAY_OPUS, 48000, under);
    cpay_sample sample = {.rtp_time = 9, .starts_talk_spurt = true,
                          .values = {.abs_capture_time = 7, .has_abs_capture_time = true, .clock_offset = -2, .has_clock_offset = true,
                                     .layers_allocation = {1, 2, 3, 4, 5, 6, 7, 8, 9, 10, 11, 12, 13, 14, 15, 16, 17},
                                     .layers_allocation_len = 17, .has_layers_allocation = true}};
    cpay_unit unit = {0};
    size_t count = 0;
    uint8_t bytes[8];
    CHECK(cpay_sender_send_sample(&sender, &sample, (const uint8_t *)"op", 2, &count) == CPAY_OK && count == 1);
    sent(&sender, 0, wanted, sizeof wanted, &receiver);
    CHECK(cpay_receiver_pop(&receiver, 0, &unit, bytes, 8) == CPAY_OK && unit.starts_talk_spurt);
    CHECK(tells(&receiver, &sample.values));
    /* bytes after the length, and an offset without a time, are ignored */
    sample.values.layers_allocation_len = 0;
    sample.values.has_abs_capture_time = false;
    sample.rtp_time = 10;
    static const uint8_t empty[] = {0x90, 0x80 | TYPE, 0, 0, 0, 0, 0, 10, 1, 2, 3, 4, 0x10, 0, 0, 1, 200, 0, 0, 0, 'q'};
    CHECK(cpay_sender_send_sample(&sender, &sample, (const uint8_t *)"q", 1, &count) == CPAY_OK && count == 1);
    sent(&sender, 0, empty, sizeof empty, &receiver);
    CHECK(cpay_receiver_pop(&receiver, 0, &unit, bytes, 8) == CPAY_OK);
    cpay_extension_values found = {.clock_offset = 7, .layers_allocation = {8}};
    CHECK(cpay_receiver_values(&receiver, &found) == CPAY_OK);
    CHECK(found.has_layers_allocation && found.layers_allocation_len == 0 && found.layers_allocation[0] == 0);
    CHECK(!found.has_abs_capture_time && !found.has_clock_offset && found.clock_offset == 0);
    cpay_sender_free(&sender);
    cpay_receiver_free(&receiver);
}

/* The longest allocation: 255 bytes, after an id and a length, and three bytes of padding. */
static void longest(void) {
    cpay_extension_ids under = {.layers_allocation = 5};
    cpay_sender sender = sender_of(CPAY_OPUS, 48000, under);
    cpay_receiver receiver = receiver_of(CPAY_OPUS, 48000, under);
    cpay_sample sample = {.values = {.layers_allocation_len = 255, .has_layers_allocation = true}};
    uint8_t wanted[12 + 4 + 260 + 1] = {0x90, TYPE, 0xff, 0xff, 0, 0, 0, 0, 1, 2, 3, 4, 0x10, 0, 0, 65, 5, 255}, bytes[8];
    cpay_unit unit = {0};
    size_t count = 0;
    for (size_t i = 0; i < 255; i++) sample.values.layers_allocation[i] = wanted[18 + i] = (uint8_t)(i + 1);
    wanted[276] = 'o';
    CHECK(cpay_sender_send_sample(&sender, &sample, (const uint8_t *)"o", 1, &count) == CPAY_OK && count == 1);
    sent(&sender, 0, wanted, sizeof wanted, &receiver);
    CHECK(cpay_receiver_pop(&receiver, 0, &unit, bytes, 8) == CPAY_OK && tells(&receiver, &sample.values));
    cpay_sender_free(&sender);
    cpay_receiver_free(&receiver);
}

/* Values whose length differs from their format's, faults, and ids that are equal or absent. */
static void looks(void) {
    static const uint8_t odd[24] = {0x90, 96, 0, 1, 0, 0, 0, 0, 0, 0, 0, 7,
                                    0xbe, 0xde, 0, 2, 0x21, 1, 2, 0x60, 0x03, 0x60, 0x04, 0};
    static const uint8_t other[16] = {0x90, 96, 0, 1, 0, 0, 0, 0, 0, 0, 0, 7, 0, 1, 0, 0};
    cpay_extension_ids both = {.video_orientation = 6, .video_content_type = 6}, none = {0};
    cpay_extension_values values = all_values(), untold = all_values();
    CHECK(cpay_extension_values_of(odd, 23, &ids, &values) == CPAY_RTP_EXTENSION_TOO_SHORT);
    CHECK(cpay_extension_values_of(odd, 11, &ids, &values) == CPAY_RTP_HEADER_TOO_SHORT);
    CHECK(cpay_extension_values_of(NULL, 0, &ids, &values) == CPAY_RTP_HEADER_TOO_SHORT);
    CHECK(cpay_extension_values_of(NULL, 1, &ids, &values) == CPAY_INVALID);
    CHECK(same_values(&values, &untold));
    CHECK(cpay_extension_values_of(odd, 24, &none, &values) == CPAY_OK && has_none(&values));
    values = untold;
    CHECK(cpay_extension_values_of(other, 16, &ids, &values) == CPAY_OK && has_none(&values));
    CHECK(cpay_extension_values_of(odd, 24, &ids, &values) == CPAY_OK);
    CHECK(!values.has_video_orientation && values.has_audio_level && values.audio_level == -3);
    CHECK(values.has_voice_activity && !values.voice_activity && !values.has_layers_allocation);
    CHECK(cpay_extension_values_of(odd, 24, &both, &values) == CPAY_OK);
    CHECK(values.has_video_orientation && values.video_orientation == 3 && values.video_content_type == 3);
}

/* Equal ids, and handles that are empty or of another type. */
static void refusals(void) {
    any it = ANY_INIT;
    cpay_sender_settings settings = {.spec = {.codec = CPAY_OPUS, .rate = 48000}, .mtu = 100, .payload_type = TYPE,
                                     .extension_ids = {.video_orientation = 255, .audio_level = 255}};
    cpay_receiver_settings receives;
    cpay_sample sample = {.values = all_values()};
    cpay_wait_limits wait_limits = {.hold_back = 1};
    size_t count = 7;
    cpay_receiver_settings_init(&receives, CPAY_OPUS, 48000, 0, CPAY_FOR_LIVE);
    receives.extension_ids = settings.extension_ids;
    CHECK(cpay_sender_new(&it.sender, &settings) == CPAY_INVALID);
    CHECK(cpay_sender_send_sample(&it.sender, &sample, (const uint8_t *)"o", 1, &count) == CPAY_EMPTY);
    CHECK(cpay_receiver_set_wait_limits(&it.receiver, &wait_limits) == CPAY_EMPTY);
    /* a receiver accepts them, and reads one element for both */
    CHECK(cpay_receiver_new(&it.receiver, &receives, NULL, 0) == CPAY_OK);
    CHECK(cpay_receiver_set_wait_limits(&it.receiver, &wait_limits) == CPAY_OK);
    CHECK(cpay_sender_send_sample(&it.sender, &sample, (const uint8_t *)"o", 1, &count) == CPAY_OTHER_KIND);
    cpay_receiver_free(&it.receiver);
    settings.extension_ids.audio_level = 0;
    CHECK(cpay_sender_new(&it.sender, &settings) == CPAY_OK);
    CHECK(cpay_receiver_set_wait_limits(&it.receiver, &wait_limits) == CPAY_OTHER_KIND);
    CHECK(cpay_sender_send_sample(&it.sender, &sample, NULL, 1, &count) == CPAY_INVALID);
    CHECK(count == 7);
    CHECK(cpay_sender_send_sample(&it.sender, &sample, NULL, 0, &count) == CPAY_OK && count == 0);
    cpay_sender_free(&it.sender);
    /* a refused frame has no datagrams, whatever its values */
    settings.spec.codec = CPAY_CN;
    settings.spec.rate = 8000;
    settings.mtu = 1;
    count = 7;
    CHECK(cpay_sender_new(&it.sender, &settings) == CPAY_OK);
    CHECK(cpay_sender_send_sample(&it.sender, &sample, (const uint8_t *)"noise", 5, &count) == CPAY_PAYLOAD_TOO_LARGE && count == 7);
    cpay_sender_free(&it.sender);
}

int main(void) {
    video();
    levels();
    two_bytes();
    longest();
    looks();
    refusals();
    return checked();
}

/* Units of a receiver that are lent: what cpay_receiver_lend returns is what cpay_receiver_pop returns over the same datagrams, with
 * losses, frames that are refused and units that are too large; and the bytes stay where they are until the next unit. */
#include "any.h"
#include "check.h"
#include "codec_payload.h"

enum { TYPE = 96, SSRC = 7, PAYLOAD = 1200, MOST = 9, LARGEST = 8000, FRAMES = 400 };

static cpay_receiver receiver_of(uint32_t codec, uint32_t rate, size_t max_unit) {
    cpay_receiver receiver = CPAY_INIT;
    cpay_receiver_settings settings;
    cpay_receiver_settings_init(&settings, codec, rate, TYPE, CPAY_FOR_FILE);
    settings.hold_back = 2;
    settings.has_ssrc = true;
    settings.ssrc = SSRC;
    settings.max_unit = max_unit;
    settings.extension_ids.audio_level = 1;
    CHECK(cpay_receiver_new(&receiver, &settings, NULL, 0) == CPAY_OK);
    return receiver;
}

/* An RTP packet (RFC 3550, section 5.1) with room for a payload behind its 12 bytes. */
static size_t header(uint8_t *out, bool marker, uint16_t number, uint32_t time, size_t payload) {
    const uint8_t bytes[12] = {0x80, (uint8_t)(TYPE | (marker ? 0x80 : 0)), (uint8_t)(number >> 8), (uint8_t)number,
                               (uint8_t)(time >> 24), (uint8_t)(time >> 16), (uint8_t)(time >> 8), (uint8_t)time, 0, 0, 0, SSRC};
    memcpy(out, bytes, sizeof bytes);
    return sizeof bytes + payload;
}

static void receive(cpay_receiver *receiver, uint64_t now, const uint8_t *datagram, size_t size) {
    cpay_outcome outcome = (cpay_outcome)99;
    CHECK(cpay_receiver_receive(receiver, now, datagram, size, &outcome) == CPAY_OK && outcome == CPAY_HELD);
}

/* A packet of Opus with the level -number of RFC 6464 under id 1, and two bytes of media, its number. */
static void receive_opus(cpay_receiver *receiver, uint8_t number) {
    const uint8_t bytes[22] = {0x90, TYPE, 0, number, 0, 0, 0, number, 0, 0, 0, SSRC, 0xbe, 0xde, 0, 1, 0x10, number, 0, 0,
                               number, number};
    receive(receiver, number, bytes, sizeof bytes);
}

static int level_of(cpay_receiver *receiver) {
    cpay_extension_values values = {0};
    CHECK(cpay_receiver_values(receiver, &values) == CPAY_OK && values.has_audio_level);
    return values.audio_level;
}

static bool is_waiting(cpay_receiver *receiver) {
    cpay_receiver_counts_info counts = {0};
    CHECK(cpay_receiver_counts(receiver, &counts) == CPAY_OK);
    return counts.waiting;
}

static bool same_unit(const cpay_unit *a, const cpay_unit *b) {
    return a->first == b->first && a->last == b->last && a->rtp_time == b->rtp_time && a->received == b->received
           && a->bytes == b->bytes && a->contiguous == b->contiguous && a->starts_talk_spurt == b->starts_talk_spurt
           && a->decodable == b->decodable && a->keyframe == b->keyframe && a->fault == b->fault && a->extra.kind == b->extra.kind
           && a->extra.is_keyframe == b->extra.is_keyframe;
}

enum { UNITS, REFUSED, TOO_LARGE, UNDECODABLE, COUNTS };

/* The units of one receiver are popped, those of the other are lent, until none is due. */
static void compare(cpay_receiver *popped, cpay_receiver *lent, uint64_t now, int counts[COUNTS]) {
    static const uint8_t nothing = 0;
    static uint8_t bytes[MOST * PAYLOAD];
    for (;;) {
        cpay_unit copied = {0}, told = {0};
        const uint8_t *at = &nothing;
        cpay_status status = cpay_receiver_pop(popped, now, &copied, bytes, sizeof bytes);
        CHECK(cpay_receiver_lend(lent, now, &told, &at) == status && same_unit(&copied, &told));
        CHECK((at == &nothing) == (status != CPAY_OK || told.fault != CPAY_OK));
        CHECK(at == &nothing || (told.bytes > 0 && memcmp(at, bytes, told.bytes) == 0));
        if (status != CPAY_OK) {
            CHECK(status == CPAY_NONE);
            return;
        }
        CHECK(told.fault == CPAY_OK || told.fault == CPAY_VP8_CORRUPTED || told.fault == CPAY_UNIT_TOO_LARGE);
        counts[told.fault == CPAY_OK ? UNITS : told.fault == CPAY_VP8_CORRUPTED ? REFUSED : TOO_LARGE]++;
        counts[UNDECODABLE] += told.fault == CPAY_OK && !told.decodable;
    }
}

/* The payload of packet `place` of the `count` of a frame of VP8 (RFC 7741, section 4.2; RFC 6386, section 9.1): each eighth frame is a
 * keyframe, and each nineteenth ends in its payload descriptor. */
static size_t vp8_payload(uint8_t *out, int frame, int place, uint16_t number) {
    static const uint8_t key[] = {0x10, 0x10, 0, 0, 0x9d, 0x01, 0x2a, 0x10, 0, 0x10, 0}, cut[] = {0x90, 0x40, 0};
    if (frame % 19 == 18) return memcpy(out, cut, sizeof cut), sizeof cut;
    for (int i = 0; i < PAYLOAD; i++) out[i] = (uint8_t)(number * 31 + i * 7);
    out[0] = place == 0 ? 0x10 : 0;
    if (place == 0 && frame % 8 == 0) memcpy(out, key, sizeof key);
    else if (place == 0) out[1] = 0x11;
    return PAYLOAD;
}

/* Frames of 1 to 9 packets, over 8,192 bytes too; each 23rd packet is lost, and pairs of packets are exchanged. */
static void same_units(void) {
    static uint8_t before[12 + PAYLOAD], bytes[12 + PAYLOAD];
    cpay_receiver popped = receiver_of(CPAY_VP8, 90000, LARGEST + 1500), lent = receiver_of(CPAY_VP8, 90000, LARGEST + 1500);
    int counts[COUNTS] = {0};
    size_t waits = 0;
    uint16_t number = 65000;
    for (int frame = 0; frame < FRAMES; frame++) {
        int packets = frame % 19 == 18 ? 1 : 1 + frame % MOST;
        for (int place = 0; place < packets; place++, number++) {
            size_t payload = vp8_payload(bytes + 12, frame, place, number);
            size_t size = header(bytes, place + 1 == packets, number, (uint32_t)frame * 3000, payload);
            if (number % 23 == 5) continue;
            if (number % 4 == 1 && !waits) {
                memcpy(before, bytes, size);
                waits = size;
                continue;
            }
            receive(&popped, (uint64_t)frame, bytes, size), receive(&lent, (uint64_t)frame, bytes, size);
            if (waits) receive(&popped, (uint64_t)frame, before, waits), receive(&lent, (uint64_t)frame, before, waits);
            waits = 0;
            compare(&popped, &lent, (uint64_t)frame, counts);
        }
    }
    CHECK(cpay_receiver_finish(&popped) == CPAY_OK && cpay_receiver_finish(&lent) == CPAY_OK);
    compare(&popped, &lent, FRAMES, counts);
    CHECK(counts[UNITS] > 150 && counts[REFUSED] > 10 && counts[TOO_LARGE] > 10);
    CHECK(counts[UNDECODABLE] > 10 && counts[UNDECODABLE] < counts[UNITS]);
    cpay_receiver_free(&popped);
    cpay_receiver_free(&lent);
}

/* A unit that waits since a pop is lent next. The values are those of the unit before until then. */
static void after_a_pop(void) {
    cpay_receiver receiver = receiver_of(CPAY_OPUS, 48000, CPAY_NO_MAX_UNIT);
    cpay_unit unit = {0};
    uint8_t bytes[2] = {0, 0};
    const uint8_t *at = NULL;
    for (uint8_t number = 1; number < 9; number++) {
        receive_opus(&receiver, number);
        if (number % 3) CHECK(cpay_receiver_pop(&receiver, number, &unit, bytes, 1) == CPAY_TOO_SMALL && is_waiting(&receiver));
        if (number > 1) CHECK(level_of(&receiver) == 1 - number);
        CHECK(cpay_receiver_lend(&receiver, number, &unit, &at) == CPAY_OK && !is_waiting(&receiver));
        CHECK(unit.first % 65536 == number && unit.last == unit.first && unit.bytes == 2 && unit.fault == CPAY_OK);
        CHECK(at && at[0] == number && at[1] == number && level_of(&receiver) == -number);
        CHECK(cpay_receiver_pop(&receiver, number, &unit, bytes, 2) == CPAY_NONE && level_of(&receiver) == -number);
        CHECK(bytes[0] == 0);
    }
    cpay_receiver_free(&receiver);
}

/* Pops and loans in turn: each unit comes once, in order. */
static void in_turn(void) {
    cpay_receiver receiver = receiver_of(CPAY_OPUS, 48000, CPAY_NO_MAX_UNIT);
    cpay_unit unit = {0};
    uint8_t bytes[2] = {0, 0};
    const uint8_t *at = NULL;
    for (uint8_t number = 1; number < 20; number++) receive_opus(&receiver, number);
    for (uint8_t number = 1; number < 20; number++) {
        bool lends = number % 5 == 1 || number % 2;
        if (lends) CHECK(cpay_receiver_lend(&receiver, 20, &unit, &at) == CPAY_OK && at[0] == number && at[1] == number);
        else CHECK(cpay_receiver_pop(&receiver, 20, &unit, bytes, 2) == CPAY_OK && bytes[0] == number && bytes[1] == number);
        CHECK(unit.first % 65536 == number && level_of(&receiver) == -number);
    }
    at = bytes;
    CHECK(cpay_receiver_lend(&receiver, 20, &unit, &at) == CPAY_NONE && at == bytes && unit.first % 65536 == 19);
    cpay_receiver_free(&receiver);
}

/* No call changes bytes that are lent, except those for the next unit; and a small unit is lent after a large one. */
static void stays(void) {
    static uint8_t bytes[12 + PAYLOAD], copy[MOST * PAYLOAD];
    cpay_receiver receiver = receiver_of(CPAY_VP8, 90000, CPAY_NO_MAX_UNIT);
    cpay_unit unit = {0};
    cpay_receiver_counts_info counts = {0};
    cpay_extension_values values = {0};
    cpay_report_info report = {0};
    const cpay_wait_limits limits = {.hold_back = 1};
    const uint8_t *at = NULL, *next = NULL;
    uint64_t deadline = 0, missing[4];
    size_t count = 0;
    bool wants = false;
    uint16_t number = 1;
    for (int frame = 0; frame < 2; frame++)
        for (int place = 0; place < (frame ? 1 : MOST); place++, number++) {
            size_t payload = vp8_payload(bytes + 12, frame, place, number);
            size_t size = header(bytes, frame || place + 1 == MOST, number, (uint32_t)frame * 3000, payload);
            receive(&receiver, 0, bytes, size);
        }
    CHECK(cpay_receiver_lend(&receiver, 0, &unit, &at) == CPAY_OK && unit.bytes == MOST * (PAYLOAD - 1) && unit.keyframe);
    memcpy(copy, at, unit.bytes);
    for (int i = 0; i < 50; i++, number++) {
        size_t payload = vp8_payload(bytes + 12, 2 + i, 0, number);
        receive(&receiver, 0, bytes, header(bytes, true, number, (uint32_t)(2 + i) * 3000, payload));
    }
    CHECK(cpay_receiver_values(&receiver, &values) == CPAY_OK && cpay_receiver_counts(&receiver, &counts) == CPAY_OK);
    CHECK(cpay_receiver_report(&receiver, &report) == CPAY_OK && cpay_receiver_missing(&receiver, missing, 4, &count) == CPAY_OK);
    CHECK(cpay_receiver_next_deadline(&receiver, &deadline) == CPAY_NONE && counts.held == 51 && !counts.waiting);
    CHECK(cpay_receiver_set_wait_limits(&receiver, &limits) == CPAY_OK && cpay_receiver_wants_keyframe(&receiver, &wants) == CPAY_OK);
    CHECK(cpay_receiver_finish(&receiver) == CPAY_OK && memcmp(copy, at, unit.bytes) == 0);
    CHECK(cpay_receiver_lend(&receiver, 0, &unit, &next) == CPAY_OK && unit.bytes == PAYLOAD - 1 && next[0] == 0x11 && !unit.keyframe);
    cpay_receiver_free(&receiver);
}

/* A frame that is refused between two that are not: it has no bytes and no place, and the values of the unit before stay. */
static void refused_frame(void) {
    static uint8_t bytes[12 + PAYLOAD];
    cpay_receiver receiver = receiver_of(CPAY_VP8, 90000, CPAY_NO_MAX_UNIT);
    cpay_unit unit = {0}, none = {0};
    cpay_extension_values values = {0};
    const uint8_t *at = NULL;
    bool wants = false;
    for (uint16_t number = 1; number <= 3; number++) {
        size_t payload = vp8_payload(bytes + 12, number == 2 ? 18 : 0, 0, number);
        receive(&receiver, 0, bytes, header(bytes, true, number, (uint32_t)number * 3000, payload));
    }
    CHECK(cpay_receiver_finish(&receiver) == CPAY_OK && cpay_receiver_values(&receiver, &values) == CPAY_NONE);
    CHECK(cpay_receiver_lend(&receiver, 0, &unit, &at) == CPAY_OK && unit.fault == CPAY_OK && unit.first % 65536 == 1 && at[0] == 0x10);
    at = bytes;
    CHECK(cpay_receiver_lend(&receiver, 0, &unit, &at) == CPAY_OK && unit.fault == CPAY_VP8_CORRUPTED && at == bytes);
    none.fault = unit.fault;
    CHECK(same_unit(&unit, &none) && cpay_receiver_values(&receiver, &values) == CPAY_OK);
    CHECK(cpay_receiver_wants_keyframe(&receiver, &wants) == CPAY_OK && wants);
    CHECK(cpay_receiver_lend(&receiver, 0, &unit, &at) == CPAY_OK && unit.fault == CPAY_OK && unit.first % 65536 == 3 && at != bytes);
    CHECK(at[0] == 0x10 && cpay_receiver_lend(&receiver, 0, &unit, &at) == CPAY_NONE);
    cpay_receiver_free(&receiver);
}

/* Handles that are empty or of another type: nothing is lent, and nothing changes. */
static void handles(void) {
    any it = ANY_INIT;
    const cpay_history_settings keeps = {.limit = 1};
    const uint8_t byte = 0, *at = &byte;
    cpay_unit unit = {.first = 7};
    CHECK(cpay_receiver_lend(&it.receiver, 0, &unit, &at) == CPAY_EMPTY);
    CHECK(cpay_history_new(&it.history, &keeps) == CPAY_OK);
    CHECK(cpay_receiver_lend(&it.receiver, 0, &unit, &at) == CPAY_OTHER_KIND && at == &byte && unit.first == 7);
    cpay_history_free(&it.history);
}

int main(void) {
    same_units();
    after_a_pop();
    in_turn();
    stays();
    refused_frame();
    handles();
    return checked();
}

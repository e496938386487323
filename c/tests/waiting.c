/* A limit of waiting that follows how late missing packets arrive: 5/4 of the greatest of the latest 32 ages, within the bounds of
 * the settings. All expected limits are worked by this rule. The last test puts it around a receiver. Also: settings for clocks with
 * other numbers of ticks per second. */
#include "any.h"
#include "check.h"
#include "codec_payload.h"

enum { TYPE = 111, RTX = 112, SSRC = 7, RTX_SSRC = 9 };

static const cpay_adaptive_wait_settings LIVE = {.shortest = 20, .longest = 400, .first = 200, .lost_after = 1000};

static cpay_adaptive_wait wait_of(const cpay_adaptive_wait_settings *settings) {
    cpay_adaptive_wait wait = CPAY_INIT;
    CHECK(cpay_adaptive_wait_new(&wait, settings) == CPAY_OK);
    return wait;
}

static uint64_t limit_of(cpay_adaptive_wait *wait) {
    uint64_t limit = 7777;
    CHECK(cpay_adaptive_wait_limit(wait, &limit) == CPAY_OK);
    return limit;
}

/* `count` packets are missing from time 0 on, beginning with that number, and arrive at `age`. */
static void late(cpay_adaptive_wait *wait, uint64_t number, unsigned count, uint64_t age) {
    for (; count > 0; count--, number++) {
        CHECK(cpay_adaptive_wait_missing(wait, 0, &number, 1) == CPAY_OK);
        CHECK(cpay_adaptive_wait_arrived(wait, age, (uint16_t)number) == CPAY_OK);
    }
}

/* The limit after `few` packets of one age and then `more` of another. */
static uint64_t after(const cpay_adaptive_wait_settings *settings, unsigned few, uint64_t age, unsigned more, uint64_t other) {
    cpay_adaptive_wait wait = wait_of(settings);
    late(&wait, 65536, few, age);
    late(&wait, 65536 + few, more, other);
    uint64_t limit = limit_of(&wait);
    cpay_adaptive_wait_free(&wait);
    return limit;
}

static void rule(void) {
    const cpay_adaptive_wait_settings short_one = {.shortest = 20, .longest = 10, .first = 200, .lost_after = 1000};
    const cpay_adaptive_wait_settings any_values = {UINT64_MAX, UINT64_MAX, 0, 0};
    /* at least 200 until eight packets arrived */
    CHECK(after(&LIVE, 0, 0, 0, 0) == 200 && after(&LIVE, 7, 80, 0, 0) == 200 && after(&LIVE, 8, 80, 0, 0) == 100);
    /* the greatest age counts, and a quarter of it is rounded down */
    CHECK(after(&LIVE, 1, 300, 7, 0) == 375 && after(&LIVE, 7, 16, 1, 83) == 103);
    /* the bounds */
    CHECK(after(&LIVE, 8, 0, 0, 0) == 20 && after(&LIVE, 8, 321, 0, 0) == 400 && after(&LIVE, 8, 900, 0, 0) == 400);
    CHECK(after(&short_one, 0, 0, 0, 0) == 10 && after(&any_values, 0, 0, 0, 0) == UINT64_MAX);
    /* an age counts for 32 packets */
    CHECK(after(&LIVE, 1, 240, 31, 0) == 300 && after(&LIVE, 1, 240, 32, 0) == 20);
}

/* Packets are lost after 1000 ticks. Numbers that were not missing change nothing; nor do numbers below a missing one. */
static void losses(void) {
    static const uint64_t eight[8] = {65536, 65537, 65538, 65539, 65540, 65541, 65542, 65543}, again[2] = {65600, 65599};
    cpay_adaptive_wait wait = wait_of(&LIVE);
    CHECK(cpay_adaptive_wait_missing(&wait, 0, eight, 8) == CPAY_OK);
    CHECK(cpay_adaptive_wait_missing(&wait, 0, NULL, 0) == CPAY_OK);
    CHECK(cpay_adaptive_wait_missing(&wait, 0, NULL, 1) == CPAY_INVALID);
    CHECK(cpay_adaptive_wait_arrived(&wait, 999, 100) == CPAY_OK && limit_of(&wait) == 200);
    CHECK(cpay_adaptive_wait_arrived(&wait, 1000, 100) == CPAY_OK && limit_of(&wait) == 20);
    /* it is too late for number 65536 */
    CHECK(cpay_adaptive_wait_arrived(&wait, 1000, 0) == CPAY_OK && limit_of(&wait) == 20);
    /* 65600 is missing from 1100 on, also if it is reported again; 65599 is below it */
    CHECK(cpay_adaptive_wait_missing(&wait, 1100, again, 2) == CPAY_OK);
    CHECK(cpay_adaptive_wait_missing(&wait, 1150, again, 2) == CPAY_OK);
    CHECK(cpay_adaptive_wait_arrived(&wait, 1180, 63) == CPAY_OK && limit_of(&wait) == 20);
    CHECK(cpay_adaptive_wait_arrived(&wait, 1180, 64) == CPAY_OK && limit_of(&wait) == 100);
    cpay_adaptive_wait_free(&wait);
}

/* Calls on handles that are empty or of another type, which change nothing. */
static void handles(void) {
    any it = ANY_INIT;
    const cpay_history_settings keeps = {.limit = 1};
    const uint64_t number = 65536;
    uint64_t limit = 7;
    cpay_adaptive_wait_free(NULL);
    for (int kind = 0; kind < 2; kind++) {
        cpay_status status = kind == 0 ? CPAY_EMPTY : CPAY_OTHER_KIND;
        if (kind == 1) CHECK(cpay_history_new(&it.history, &keeps) == CPAY_OK);
        CHECK(cpay_adaptive_wait_arrived(&it.adaptive_wait, 0, 1) == status);
        CHECK(cpay_adaptive_wait_missing(&it.adaptive_wait, 0, &number, 1) == status);
        CHECK(cpay_adaptive_wait_limit(&it.adaptive_wait, &limit) == status && limit == 7);
    }
    CHECK(cpay_adaptive_wait_new(&it.adaptive_wait, &LIVE) == CPAY_FULL);
    cpay_adaptive_wait_free(&it.adaptive_wait);
    CHECK(cpay_adaptive_wait_new(&it.adaptive_wait, &LIVE) == CPAY_OK);
    CHECK(cpay_adaptive_wait_new(&it.adaptive_wait, &LIVE) == CPAY_FULL);
    CHECK(cpay_history_keep(&it.history, NULL, 0, NULL) == CPAY_OTHER_KIND);
    cpay_adaptive_wait_free(&it.adaptive_wait);
    CHECK(cpay_adaptive_wait_limit(&it.adaptive_wait, &limit) == CPAY_EMPTY && limit == 7);
}

/* A packet of one byte, its number; of a retransmission (RFC 4588) its original number is in front. */
static size_t packet(uint8_t *out, uint16_t number, bool again) {
    const uint32_t time = 960u * number;
    const uint8_t header[12] = {
        0x80, again ? RTX : TYPE, (uint8_t)(number >> 8), (uint8_t)number, 0, (uint8_t)(time >> 16), (uint8_t)(time >> 8),
        (uint8_t)time, 0, 0, 0, again ? RTX_SSRC : SSRC};
    const uint8_t payload[3] = {(uint8_t)(number >> 8), (uint8_t)number, (uint8_t)number};
    memcpy(out, header, sizeof header);
    memcpy(out + 12, again ? payload : payload + 2, again ? 3 : 1);
    return again ? 15 : 13;
}

/* The calls around each datagram of a stream, by the rules of docs/use/C.md. */
static void receive(cpay_receiver *receiver, cpay_adaptive_wait *wait, cpay_wait_limits *limits, uint64_t now, uint16_t number,
                    bool again) {
    uint8_t bytes[16];
    uint64_t missing[64];
    cpay_outcome outcome = (cpay_outcome)99;
    size_t count = 99, size = packet(bytes, number, again);
    CHECK(cpay_adaptive_wait_arrived(wait, now, number) == CPAY_OK);
    CHECK(cpay_receiver_receive(receiver, now, bytes, size, &outcome) == CPAY_OK && outcome == CPAY_HELD);
    CHECK(cpay_receiver_missing(receiver, missing, 64, &count) == CPAY_OK);
    CHECK(cpay_adaptive_wait_missing(wait, now, missing, count) == CPAY_OK);
    CHECK(cpay_adaptive_wait_limit(wait, &limits->max_wait) == CPAY_OK);
    CHECK(cpay_receiver_set_wait_limits(receiver, limits) == CPAY_OK);
}

/* Packets every 20 ticks. In each six, the second is lost; its retransmission arrives 64 ticks after the third. After eight the
 * limit is 80 ticks. Then a retransmission never comes, and the packet behind the gap is released after 80 ticks. */
static void around_a_receiver(void) {
    cpay_receiver_settings settings;
    cpay_wait_limits limits = {.hold_back = CPAY_NO_HOLD_BACK, .start = 1, .has_max_wait = true};
    cpay_adaptive_wait wait = wait_of(&LIVE);
    cpay_receiver receiver = CPAY_INIT;
    cpay_unit unit = {0};
    uint8_t bytes[4];
    uint16_t units = 0;
    cpay_receiver_settings_init(&settings, CPAY_OPUS, 48000, TYPE, CPAY_FOR_LIVE);
    settings.has_ssrc = settings.has_rtx = true;
    settings.ssrc = SSRC;
    settings.rtx_ssrc = RTX_SSRC;
    settings.rtx_payload_type = RTX;
    CHECK(cpay_receiver_new(&receiver, &settings, NULL, 0) == CPAY_OK);
    for (uint16_t number = 0; number < 48; number++) {
        uint64_t now = 20u * number;
        if (number % 6 == 1) continue;
        if (number % 6 == 0 && number > 0) {
            /* 6n + 1 was first missing when 6n + 2 arrived, 80 ticks before 6n + 6 */
            receive(&receiver, &wait, &limits, now - 16, (uint16_t)(number - 5), true);
        }
        receive(&receiver, &wait, &limits, now, number, false);
        CHECK(limits.max_wait == 200);
        while (cpay_receiver_pop(&receiver, now, &unit, bytes, sizeof bytes) == CPAY_OK) CHECK(bytes[0] == units++);
    }
    receive(&receiver, &wait, &limits, 944, 43, true);
    CHECK(limits.max_wait == 80);
    while (cpay_receiver_pop(&receiver, 944, &unit, bytes, sizeof bytes) == CPAY_OK) CHECK(bytes[0] == units++);
    CHECK(units == 48);
    receive(&receiver, &wait, &limits, 980, 49, false);
    CHECK(limits.max_wait == 80 && cpay_receiver_pop(&receiver, 1059, &unit, bytes, sizeof bytes) == CPAY_NONE);
    CHECK(cpay_receiver_pop(&receiver, 1060, &unit, bytes, sizeof bytes) == CPAY_OK && bytes[0] == 49 && !unit.contiguous);
    cpay_receiver_free(&receiver);
    cpay_adaptive_wait_free(&wait);
}

/* Each default time, in milliseconds, is the stated number of ticks by other clocks: the least number that is not shorter. */
static void tick_rates(void) {
    static const uint32_t rates[] = {1, 7, 1000, 48000, 90000, 1000000, 1000000000, UINT32_MAX};
    for (size_t i = 0; i < sizeof rates / sizeof *rates; i++) {
        const uint64_t rate = rates[i];
        cpay_session_settings settings;
        cpay_session_settings_init(&settings, CPAY_FOR_LIVE_WITH_NACK);
        CHECK(cpay_session_settings_feedback(&settings, 9, (const uint8_t *)"me", 2) == CPAY_OK);
        CHECK(cpay_session_settings_set_tick_rate(&settings, rates[i]) == CPAY_OK);
        const uint64_t pairs[][2] = {
            {settings.audio.max_wait, 200},          {settings.video.max_wait, 200},
            {settings.late.shortest, 20},            {settings.late.longest, 400},
            {settings.late.first, 200},              {settings.late.lost_after, 1000},
            {settings.idle_timeout, 30000},          {settings.bye_wait, 200},
            {settings.feedback.keyframe_interval, 100}, {settings.feedback.silence, 2000},
            {settings.feedback.first_wait, 10},      {settings.feedback.retry, 100},
            {settings.feedback.shortest_retry, 20},  {settings.feedback.longest_retry, 400},
            {settings.feedback.longest_wait, 1500},  {settings.feedback.report_interval, 1000},
            {settings.transport.interval, 100},
        };
        for (size_t k = 0; k < sizeof pairs / sizeof *pairs; k++) {
            CHECK(pairs[k][0] * 1000 >= pairs[k][1] * rate);
            CHECK((pairs[k][0] - 1) * 1000 < pairs[k][1] * rate);
        }
        CHECK(settings.tick_rate == rate && settings.feedback.tries == 6 && settings.limit == 4096);
        cpay_receiver_settings receiver;
        cpay_receiver_settings_init(&receiver, CPAY_VP8, 90000, 96, CPAY_FOR_LIVE);
        CHECK(cpay_receiver_settings_set_tick_rate(&receiver, rates[i]) == CPAY_OK);
        CHECK(receiver.tick_rate == rate && receiver.has_max_wait && receiver.spec.rate == 90000);
        CHECK(receiver.max_wait * 1000 >= 100 * rate && (receiver.max_wait - 1) * 1000 < 100 * rate);
    }
    CHECK(cpay_ticks_at(1000, 1000000000, UINT64_MAX / 1000000) == UINT64_MAX / 1000000 * 1000000);
    CHECK(cpay_ticks_at(1000, 1000000000, UINT64_MAX / 1000000 + 1) == UINT64_MAX);
    CHECK(cpay_ticks_at(1000, UINT32_MAX, UINT64_MAX) == UINT64_MAX && cpay_ticks_at(1, UINT32_MAX, UINT64_MAX) == UINT64_MAX);
    CHECK(cpay_ticks_at(UINT32_MAX, 1, UINT64_MAX) == UINT64_C(4294967297) && cpay_ticks_at(UINT32_MAX, 1, 1) == 1);
    CHECK(cpay_ticks_at(UINT32_MAX, UINT32_MAX, UINT64_MAX) == UINT64_MAX && cpay_ticks_at(5, 7, 0) == 0);
    cpay_receiver_settings none = {.tick_rate = 0, .max_wait = 5};
    CHECK(cpay_receiver_settings_set_tick_rate(&none, 1000) == CPAY_INVALID && none.max_wait == 5);
    none.tick_rate = 1000;
    CHECK(cpay_receiver_settings_set_tick_rate(&none, 0) == CPAY_INVALID && none.tick_rate == 1000);
    cpay_session_settings session;
    cpay_session_settings_init(&session, CPAY_FOR_LIVE);
    CHECK(cpay_session_settings_set_tick_rate(&session, 0) == CPAY_INVALID && session.tick_rate == 1000 && session.bye_wait == 200);
}

int main(void) {
    rule();
    tick_rates();
    losses();
    handles();
    around_a_receiver();
    return checked();
}

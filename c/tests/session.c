/* Sessions: two senders and a BYE on one port, losses and retransmissions, RED, telephone events, faults, output buffers that are too small, and
 * refused settings. Expected results follow the RFCs named here and docs/use/SESSION.md. */
#include "any.h"
#include "check.h"
#include "codec_payload.h"

enum { AUDIO = 111, VIDEO = 96, RED = 63, RTX = 112, RED_RTX = 113, EVENTS = 101, NOISE = 13 };

static const cpay_session_format FORMATS[2] = {
    {.spec = {.codec = CPAY_OPUS, .rate = 48000},
     .payload_type = AUDIO,
     .has_red = true,
     .red_payload_type = RED,
     .red_step = 960,
     .has_rtx = true,
     .rtx_payload_type = RTX,
     .has_red_rtx = true,
     .red_rtx_payload_type = RED_RTX},
    {.spec = {.codec = CPAY_VP8, .rate = 90000}, .payload_type = VIDEO},
};
static const uint8_t NO_MEDIA[2] = {NOISE, EVENTS + CPAY_TELEPHONE};
static const cpay_ssrc_pair PAIRS[1] = {{.ssrc = 1, .rtx_ssrc = 9}};
static const uint8_t NAME[7] = {'m', 'e', '@', 'h', 'o', 's', 't'};

static cpay_session session_of(const cpay_session_settings *settings) {
    cpay_session session = CPAY_INIT;
    CHECK(cpay_session_new(&session, settings, FORMATS, 2, NO_MEDIA, 2, PAIRS, 1) == CPAY_OK);
    return session;
}

static cpay_session live(void) {
    cpay_session_settings settings;
    cpay_session_settings_init(&settings, CPAY_FOR_LIVE);
    return session_of(&settings);
}

/* An RTP packet; its time is 960 times its number. */
static size_t packet(uint8_t *out, uint8_t type, uint8_t ssrc, uint16_t number, const void *payload, size_t size) {
    const uint32_t time = 960u * number;
    const uint8_t header[12] = {
        0x80, type, (uint8_t)(number >> 8), (uint8_t)number, 0, (uint8_t)(time >> 16), (uint8_t)(time >> 8), (uint8_t)time, 0, 0, 0,
        ssrc};
    memcpy(out, header, sizeof header);
    if (size) memcpy(out + 12, payload, size);
    return 12 + size;
}

/* What the session does with such a packet. */
static cpay_arrival sent(cpay_session *session, uint64_t now, uint8_t type, uint8_t ssrc, uint16_t number, const void *payload,
                         size_t size) {
    uint8_t bytes[64];
    cpay_arrival arrival = {.kind = 99};
    size = packet(bytes, type, ssrc, number, payload, size);
    CHECK(cpay_session_receive(session, now, bytes, size, &arrival) == CPAY_OK);
    return arrival;
}

/* A packet of Opus with its number as payload, which the stream of that SSRC stores. */
static void opus(cpay_session *session, uint64_t now, uint8_t ssrc, uint16_t number) {
    uint8_t payload = (uint8_t)number;
    cpay_arrival it = sent(session, now, AUDIO, ssrc, number, &payload, 1);
    CHECK(it.kind == CPAY_ARRIVAL_STREAM && it.ssrc == ssrc && it.payload_type == AUDIO);
    CHECK(it.status == CPAY_OK && it.outcome == CPAY_HELD);
}

/* A BYE (RFC 3550, section 6.6), alone as RFC 5506 allows. */
static void bye(cpay_session *session, uint64_t now, uint8_t ssrc) {
    const uint8_t bytes[8] = {0x81, 203, 0, 1, 0, 0, 0, ssrc};
    cpay_arrival arrival = {.ssrc = 99};
    CHECK(cpay_session_receive(session, now, bytes, sizeof bytes, &arrival) == CPAY_OK);
    CHECK(arrival.kind == CPAY_ARRIVAL_RTCP && arrival.ssrc == 0);
}

/* The next event as text: B, U, F, E or a dot for none, the SSRC, and the unit's number, the error or the reason. */
static const char *next(cpay_session *session, uint64_t now) {
    static char text[32];
    cpay_event event = {.kind = 99};
    cpay_status status = cpay_session_poll(session, now, &event);
    CHECK(status == CPAY_OK || (status == CPAY_NONE && event.kind == 99 && !event.data));
    if (status) return ".";
    CHECK(event.data);
    if (event.kind == CPAY_EVENT_UNIT) {
        CHECK(event.status == CPAY_OK && event.why == 0 && event.unit.bytes >= 1);
        CHECK(event.payload_type != AUDIO || event.data[0] == (uint8_t)event.unit.first);
        sprintf(text, "U%u:%u%s", (unsigned)event.ssrc, (unsigned)(event.unit.first % 65536),
                event.unit.decodable ? "" : "?");
        return text;
    }
    CHECK(event.unit.bytes == 0 && event.unit.first == 0 && event.unit.extra.kind == 0 && !event.unit.decodable && !event.unit.fault);
    unsigned more = event.kind == CPAY_EVENT_FAULT ? event.status : event.payload_type;
    if (event.kind == CPAY_EVENT_ENDED) more = event.why;
    sprintf(text, "%c%u:%u", "B?FE"[event.kind & 3], (unsigned)event.ssrc, more);
    return text;
}

/* All events until there is none. */
static bool happens(cpay_session *session, uint64_t now, const char *wanted) {
    char found[256] = "";
    for (int most = 0; most < 20; most++) {
        const char *one = next(session, now);
        if (strlen(found) + strlen(one) + 2 < sizeof found) strcat(strcat(found, most ? " " : ""), one);
        if (*one == '.') break;
    }
    if (strcmp(found, wanted)) printf("events: %s, not %s\n", found, wanted);
    return !strcmp(found, wanted);
}

/* The counters; each received datagram is counted once. */
static cpay_session_counts_info counts_of(cpay_session *session) {
    cpay_session_counts_info counts = {.streams = 99};
    cpay_session_stream stream = {.ssrc = 99};
    uint64_t taken = 0;
    CHECK(cpay_session_counts(session, &counts) == CPAY_OK);
    for (size_t place = 0; cpay_session_stream_at(session, place, &stream) == CPAY_OK; place++) {
        taken += stream.taken;
        const cpay_receiver_counts_info *c = &stream.counts;
        CHECK(c->received == stream.taken && c->has_ssrc && c->ssrc == stream.ssrc && !c->waiting);
        CHECK(c->received + c->recovered == c->malformed + c->no_media + c->duplicates + c->late + c->suspect + c->evicted +
                                                c->held + c->released + c->left + c->other_streams + c->rtcp);
        CHECK(place < counts.streams);
    }
    CHECK(counts.received ==
          counts.rtcp + counts.malformed + counts.unknown + counts.refused + counts.unassociated + counts.ended + taken);
    return counts;
}

static uint64_t deadline(cpay_session *session) {
    uint64_t at = 0;
    cpay_status status = cpay_session_next_deadline(session, &at);
    CHECK(status == CPAY_OK || (status == CPAY_NONE && at == 0));
    return status ? UINT64_MAX : at;
}

/* Two senders on one port; one leaves by a BYE, and the other stays until the end. */
static void two_senders(void) {
    cpay_session session = live();
    cpay_session_stream stream = {.ssrc = 99};
    CHECK(happens(&session, 0, ".") && deadline(&session) == UINT64_MAX);
    opus(&session, 0, 1, 1);
    CHECK(happens(&session, 0, ".") && deadline(&session) == UINT64_MAX); /* in probation */
    opus(&session, 5, 2, 9);
    CHECK(cpay_session_stream_at(&session, 1, &stream) == CPAY_OK && stream.stage == CPAY_STREAM_PROBATION && stream.ssrc == 2);
    CHECK(cpay_session_stream_at(&session, 2, &stream) == CPAY_NONE && stream.ssrc == 2);
    opus(&session, 20, 1, 2);
    CHECK(deadline(&session) == 0);
    CHECK(happens(&session, 20, "B1:111 U1:1 U1:2 ."));
    opus(&session, 25, 2, 10);
    CHECK(happens(&session, 25, "B2:111 U2:9 U2:10 ."));
    CHECK(counts_of(&session).streams == 2);
    bye(&session, 30, 1);
    CHECK(cpay_session_stream_at(&session, 0, &stream) == CPAY_OK && stream.stage == CPAY_STREAM_LEAVING);
    CHECK(stream.ends_at == 230 && stream.why == CPAY_ENDED_BY_BYE && stream.payload_type == AUDIO && stream.counts.units == 2);
    opus(&session, 40, 1, 3); /* it comes after the BYE */
    CHECK(happens(&session, 40, "U1:3 .") && deadline(&session) == 230);
    CHECK(happens(&session, 229, ".") && happens(&session, 230, "E1:0 ."));
    CHECK(cpay_session_last_stream(&session, &stream) == CPAY_OK && stream.ssrc == 1 && stream.why == CPAY_ENDED_BY_BYE);
    CHECK(stream.taken == 3 && stream.counts.units == 3 && stream.counts.released == 3);
    CHECK(counts_of(&session).ended == 3 && counts_of(&session).streams == 1 && counts_of(&session).rtcp == 1);
    CHECK(cpay_session_finish(&session, 300) == CPAY_OK && happens(&session, 300, "E2:2 ."));
    cpay_arrival late = sent(&session, 310, AUDIO, 3, 1, "x", 1);
    CHECK(late.kind == CPAY_ARRIVAL_REFUSED && late.ssrc == 0);
    CHECK(counts_of(&session).received == 7 && counts_of(&session).refused == 1 && counts_of(&session).streams == 0);
    cpay_session_free(&session);
}

/* A stream that you end, one that falls silent, and one of a single packet at the end. */
static void ends(void) {
    cpay_session session = live();
    opus(&session, 0, 1, 1);
    opus(&session, 0, 1, 2);
    opus(&session, 0, 2, 1);
    opus(&session, 0, 2, 2);
    CHECK(happens(&session, 0, "B1:111 U1:1 U1:2 B2:111 U2:1 U2:2 ."));
    CHECK(cpay_session_end(&session, 10, 7) == CPAY_OK && happens(&session, 10, "."));
    CHECK(cpay_session_end(&session, 10, 1) == CPAY_OK && happens(&session, 10, "E1:2 ."));
    CHECK(deadline(&session) == 30000 && happens(&session, 29999, ".") && happens(&session, 30000, "E2:1 ."));
    opus(&session, 30000, 3, 5);
    CHECK(happens(&session, 60000, ".") && cpay_session_finish(&session, 60000) == CPAY_OK);
    CHECK(happens(&session, 60000, "B3:111 U3:5 E3:2 ."));
    CHECK(counts_of(&session).ended == 5 && counts_of(&session).received == 5);
    cpay_session_free(&session);
}

/* A lost packet is reported as missing, delays the next one until the deadline, or comes by a retransmission (RFC 4588). */
static void losses(void) {
    cpay_session session = live();
    cpay_wait_limits limits = {.max_wait = 10, .hold_back = CPAY_NO_HOLD_BACK, .has_max_wait = true};
    uint64_t numbers[3] = {7, 7, 7};
    size_t count = 9;
    opus(&session, 0, 1, 1);
    opus(&session, 0, 1, 2);
    CHECK(happens(&session, 0, "B1:111 U1:1 U1:2 ."));
    CHECK(cpay_session_missing(&session, 1, AUDIO, numbers, 3, &count) == CPAY_OK && count == 0);
    opus(&session, 40, 1, 5);
    CHECK(happens(&session, 40, ".") && deadline(&session) == 140);
    CHECK(cpay_session_missing(&session, 1, AUDIO, numbers, 3, &count) == CPAY_OK && count == 2);
    CHECK(numbers[0] == 65536 + 3 && numbers[1] == 65536 + 4 && numbers[2] == 7);
    CHECK(cpay_session_missing(&session, 1, AUDIO, numbers, 1, &count) == CPAY_OK && count == 1);
    CHECK(cpay_session_missing(&session, 2, AUDIO, numbers, 3, &count) == CPAY_NONE && count == 1);
    CHECK(cpay_session_missing(&session, 1, VIDEO, numbers, 3, &count) == CPAY_NONE && count == 1);
    cpay_arrival it = sent(&session, 50, RTX, 9, 3, "\0\3\3", 3);
    CHECK(it.kind == CPAY_ARRIVAL_STREAM && it.ssrc == 1 && it.payload_type == AUDIO && it.outcome == CPAY_HELD);
    CHECK(happens(&session, 50, "U1:3 ."));
    it = sent(&session, 50, RTX, 9, 2, "\0", 1);
    CHECK(it.kind == CPAY_ARRIVAL_STREAM && it.ssrc == 1 && it.status == CPAY_RTX_TOO_SHORT && it.outcome == 0);
    CHECK(sent(&session, 50, RTX, 8, 1, "\0\4\4", 3).kind == CPAY_ARRIVAL_UNASSOCIATED);
    CHECK(cpay_session_set_wait_limits(&session, 2, AUDIO, &limits) == CPAY_NONE && deadline(&session) == 140);
    CHECK(cpay_session_set_wait_limits(&session, 1, AUDIO, &limits) == CPAY_OK && deadline(&session) == 50);
    CHECK(happens(&session, 49, ".") && happens(&session, 50, "U1:5 ."));
    CHECK(counts_of(&session).unassociated == 1);
    /* Number 4 was lost, so its retransmission is late. A copy of it is a probe, and one of number 5; number 5 itself is late again. */
    cpay_session_stream stream = {.probes = 99};
    CHECK(sent(&session, 60, RTX, 9, 4, "\0\4\4", 3).outcome == CPAY_LATE && cpay_session_stream_at(&session, 0, &stream) == CPAY_OK);
    CHECK(stream.probes == 0 && stream.counts.late == 1);
    CHECK(sent(&session, 60, RTX, 9, 5, "\0\4\4", 3).outcome == CPAY_LATE && sent(&session, 60, RTX, 9, 6, "\0\5\5", 3).outcome == CPAY_LATE);
    CHECK(sent(&session, 60, AUDIO, 1, 5, "\5", 1).outcome == CPAY_LATE && cpay_session_stream_at(&session, 0, &stream) == CPAY_OK);
    CHECK(stream.probes == 2 && stream.counts.late == 2 && stream.counts.duplicates == 0);
    cpay_session_free(&session);
}

/* A sender that joins later: its retransmissions have SSRC 80, which is named while the stream waits for one. */
static void pairs(void) {
    cpay_session session = live();
    opus(&session, 0, 8, 1);
    opus(&session, 0, 8, 3);
    CHECK(happens(&session, 0, "B8:111 U8:1 ."));
    CHECK(sent(&session, 10, RTX, 80, 1, "\0\2\2", 3).kind == CPAY_ARRIVAL_UNASSOCIATED);
    CHECK(cpay_session_add_pair(&session, 8, 80) == CPAY_OK);
    cpay_arrival it = sent(&session, 20, RTX, 80, 2, "\0\2\2", 3);
    CHECK(it.kind == CPAY_ARRIVAL_STREAM && it.ssrc == 8 && it.outcome == CPAY_HELD);
    CHECK(happens(&session, 20, "U8:2 U8:3 ."));
    /* The pair of another sender stays, and the later pair wins. */
    opus(&session, 30, 1, 1);
    it = sent(&session, 30, RTX, 9, 1, "\0\3\3", 3);
    CHECK(it.kind == CPAY_ARRIVAL_STREAM && it.ssrc == 1);
    CHECK(cpay_session_add_pair(&session, 8, 81) == CPAY_OK);
    CHECK(sent(&session, 30, RTX, 80, 3, "\0\4\4", 3).kind == CPAY_ARRIVAL_UNASSOCIATED);
    CHECK(sent(&session, 30, RTX, 81, 1, "\0\4\4", 3).ssrc == 8);
    CHECK(cpay_session_remove_pair(&session, 8) == CPAY_OK);
    CHECK(cpay_session_remove_pair(&session, 7) == CPAY_OK);
    CHECK(sent(&session, 30, RTX, 81, 2, "\0\5\5", 3).kind == CPAY_ARRIVAL_UNASSOCIATED);
    CHECK(sent(&session, 30, RTX, 9, 2, "\0\4\4", 3).ssrc == 1);
    CHECK(counts_of(&session).unassociated == 3);
    cpay_session_free(&session);
}

/* A sender that goes from Opus to G.711 under one SSRC: 200 ms after its last packet the first stream ends. Video under that SSRC
 * ends no audio. */
static void change_of_format(void) {
    enum { PCMU = 0 };
    cpay_session_settings settings;
    cpay_session_settings_init(&settings, CPAY_FOR_LIVE);
    static const cpay_session_format formats[3] = {
        {.spec = {.codec = CPAY_OPUS, .rate = 48000}, .payload_type = AUDIO},
        {.spec = {.codec = CPAY_PCMU, .rate = 8000}, .payload_type = PCMU},
        {.spec = {.codec = CPAY_VP8, .rate = 90000}, .payload_type = VIDEO},
    };
    cpay_session session = CPAY_INIT;
    CHECK(cpay_session_new(&session, &settings, formats, 3, NULL, 0, NULL, 0) == CPAY_OK);
    opus(&session, 0, 1, 1);
    opus(&session, 20, 1, 2);
    CHECK(happens(&session, 20, "B1:111 U1:1 U1:2 ."));
    uint64_t ended = 0;
    for (uint16_t number = 3; number < 9; number++) {
        uint64_t now = 40u * number;
        sent(&session, now - 1, VIDEO | 0x80, 1, number, "\x10\1\0", 3);
        if (number == 6)
            for (const char *one; *(one = next(&session, now)) != '.';)
                CHECK(strcmp(one, "E1:3"));
        cpay_arrival it = sent(&session, now, PCMU, 1, number, "\1", 1);
        CHECK(it.kind == CPAY_ARRIVAL_STREAM && it.payload_type == PCMU);
        for (const char *one; *(one = next(&session, now)) != '.';)
            if (!strcmp(one, "E1:3")) ended = now;
    }
    CHECK(ended == 240 && CPAY_ENDED_BY_CHANGE == 3);
    static const char *const texts[] = {"a BYE", "the idle timeout", "a call", "a change of format", "unknown reason"};
    for (uint32_t why = 0; why < 5; why++) CHECK(strcmp(cpay_ending_text(why), texts[why]) == 0);
    CHECK(counts_of(&session).streams == 2 && counts_of(&session).ended == 2);
    cpay_session_free(&session);
}

/* A new description: the stream of the format that is gone ends, the other one goes on, and a new format begins a stream. */
static void formats_that_change(void) {
    enum { PCMU = 0 };
    cpay_session_format formats[3] = {
        {.spec = {.codec = CPAY_OPUS, .rate = 48000}, .payload_type = AUDIO},
        {.spec = {.codec = CPAY_PCMU, .rate = 8000}, .payload_type = PCMU},
        {.spec = {.codec = CPAY_PCMA, .rate = 8000}, .payload_type = AUDIO},
    };
    cpay_session_settings settings;
    cpay_session_settings_init(&settings, CPAY_FOR_LIVE);
    cpay_session session = CPAY_INIT;
    CHECK(cpay_session_new(&session, &settings, formats, 2, NULL, 0, NULL, 0) == CPAY_OK);
    opus(&session, 0, 1, 1);
    opus(&session, 20, 1, 2);
    for (uint16_t number = 1; number < 3; number++) sent(&session, 20, PCMU, 2, number, "\1", 1);
    CHECK(happens(&session, 20, "B1:111 U1:1 U1:2 B2:0 U2:1 U2:2 ."));
    CHECK(cpay_session_set_formats(&session, 30, formats, 3) == CPAY_INVALID);
    formats[2].spec.rate = 0, formats[2].payload_type = 8;
    CHECK(cpay_session_set_formats(&session, 30, formats, 3) == CPAY_INVALID);
    CHECK(cpay_session_set_formats(&session, 30, NULL, 1) == CPAY_INVALID);
    opus(&session, 40, 1, 3);
    CHECK(sent(&session, 40, PCMU, 2, 3, "\1", 1).kind == CPAY_ARRIVAL_STREAM);
    CHECK(happens(&session, 40, "U1:3 U2:3 ."));
    CHECK(cpay_session_set_formats(&session, 60, formats, 1) == CPAY_OK);
    CHECK(happens(&session, 60, "E2:3 ."));
    CHECK(sent(&session, 80, PCMU, 2, 4, "\1", 1).kind == CPAY_ARRIVAL_UNKNOWN);
    opus(&session, 80, 1, 4);
    CHECK(happens(&session, 80, "U1:4 ."));
    CHECK(cpay_session_set_formats(&session, 100, formats, 2) == CPAY_OK);
    for (uint16_t number = 5; number < 7; number++) sent(&session, 100, PCMU, 2, number, "\1", 1);
    CHECK(happens(&session, 100, "B2:0 U2:5 U2:6 ."));
    CHECK(counts_of(&session).unknown == 1);
    CHECK(cpay_session_set_formats(&session, 120, NULL, 0) == CPAY_OK);
    CHECK(happens(&session, 120, "E1:3 E2:3 ."));
    cpay_session_free(&session);
}

/* Requests (RFC 4585): a NACK 10 ms after a number is first missing, once more after 100 ms, and a PLI for video. */
static void requests(void) {
    static const uint8_t delta[] = {0x10, 0x11, 0, 0, 1};
    static const uint8_t nack[] = {0x81, 205, 0, 3, 0, 0, 0, 77, 0, 0, 0, 1, 0, 3, 0, 1};
    static const uint8_t pli[] = {0x81, 206, 0, 2, 0, 0, 0, 77, 0, 0, 0, 1};
    cpay_session_settings settings;
    cpay_session_settings_init(&settings, CPAY_FOR_LIVE);
    cpay_session_format formats[2];
    cpay_session session = CPAY_INIT;
    cpay_event event = {.kind = 99};
    memcpy(formats, FORMATS, sizeof formats);
    formats[0].nack = formats[1].pli = true;
    CHECK(cpay_session_settings_feedback(&settings, 77, NAME, sizeof NAME) == CPAY_OK);
    settings.audio.max_wait = 500;
    CHECK(cpay_session_new(&session, &settings, formats, 2, NULL, 0, NULL, 0) == CPAY_OK);
    opus(&session, 0, 1, 1);
    opus(&session, 0, 1, 2);
    CHECK(happens(&session, 0, "B1:111 U1:1 U1:2 ."));
    opus(&session, 0, 1, 5);
    CHECK(happens(&session, 0, ".") && deadline(&session) == 10);
    for (uint64_t now = 10; now < 300; now += 100) {
        CHECK(cpay_session_poll(&session, now, &event) == CPAY_OK && event.kind == CPAY_EVENT_FEEDBACK && event.bytes == 16);
        CHECK(event.unit.bytes == 0 && event.ssrc == 1 && event.payload_type == AUDIO && same(event.data, (const char *)nack, 16));
        CHECK(happens(&session, now, ".") && deadline(&session) == now + 100);
    }
    sent(&session, 310, VIDEO | 0x80, 1, 1, delta, sizeof delta);
    sent(&session, 310, VIDEO | 0x80, 1, 2, delta, sizeof delta);
    while (cpay_session_poll(&session, 510, &event) == CPAY_OK)
        if (event.kind == CPAY_EVENT_FEEDBACK && event.payload_type == VIDEO) break;
    CHECK(event.payload_type == VIDEO && event.bytes == 12 && same(event.data, (const char *)pli, 12));
    /* Three NACKs of two numbers, and one PLI, are in the last counts too. */
    cpay_session_stream stream = {.ssrc = 99};
    CHECK(cpay_session_last_stream(&session, &stream) == CPAY_NONE && stream.ssrc == 99);
    CHECK(cpay_session_stream_at(&session, 0, &stream) == CPAY_OK && stream.payload_type == AUDIO);
    CHECK(stream.numbers_requested == 6 && stream.keyframes_requested == 0);
    CHECK(cpay_session_stream_at(&session, 1, &stream) == CPAY_OK && stream.payload_type == VIDEO);
    CHECK(stream.numbers_requested == 0 && stream.keyframes_requested == 1);
    CHECK(cpay_session_finish(&session, 510) == CPAY_OK);
    for (int ended = 0; ended < 2; ended++) {
        while (cpay_session_poll(&session, 510, &event) == CPAY_OK && event.kind != CPAY_EVENT_ENDED) {}
        CHECK(event.kind == CPAY_EVENT_ENDED && cpay_session_last_stream(&session, &stream) == CPAY_OK);
        CHECK(stream.payload_type == event.payload_type && stream.ssrc == 1 && stream.stage == CPAY_STREAM_DRAINING);
        CHECK(stream.numbers_requested == (ended == 0 ? 6u : 0u) && stream.keyframes_requested == (ended == 0 ? 0u : 1u));
        CHECK(stream.taken == (ended == 0 ? 3u : 2u) && stream.counts.received == stream.taken && stream.counts.held == 0);
        CHECK(stream.bytes == (ended == 0 ? 3u : 2 * sizeof delta));
        CHECK(stream.counts.has_ssrc && stream.counts.ssrc == 1 && !stream.counts.waiting);
        CHECK(stream.counts.units == (ended == 0 ? 3u : 2u) && stream.why == CPAY_ENDED_BY_CALL);
    }
    cpay_session_free(&session);
}

/* A round trip that reports measured: the second NACK leaves after 9/8 of 160 ms and 5 ms. Without one it leaves after 100 ms. */
static void round_trips(void) {
    cpay_session_settings settings;
    cpay_session_settings_init(&settings, CPAY_FOR_LIVE);
    CHECK(cpay_session_settings_feedback(&settings, 77, NAME, sizeof NAME) == CPAY_OK);
    CHECK(settings.feedback.keyframe_interval == 100 && settings.feedback.longest_wait == 1500);
    cpay_session_format formats[2];
    memcpy(formats, FORMATS, sizeof formats);
    formats[0].nack = true;
    settings.audio.max_wait = 500;
    for (int known = 0; known < 2; known++) {
        cpay_session session = CPAY_INIT;
        cpay_session_stream stream;
        cpay_event event;
        CHECK(cpay_session_new(&session, &settings, formats, 2, NULL, 0, NULL, 0) == CPAY_OK);
        CHECK(cpay_session_set_round_trip(&session, 1, AUDIO, 160) == CPAY_NONE);
        opus(&session, 0, 1, 1);
        opus(&session, 0, 1, 2);
        CHECK(cpay_session_set_round_trip(&session, 1, VIDEO, 7) == CPAY_NONE);
        CHECK(cpay_session_set_round_trip(&session, 1, AUDIO, 160) == CPAY_OK);
        if (!known) CHECK(cpay_session_set_round_trip(&session, 1, AUDIO, 0) == CPAY_OK);
        CHECK(cpay_session_stream_at(&session, 0, &stream) == CPAY_OK && stream.has_round_trip == (known == 1));
        CHECK(stream.round_trip == (known ? 160u : 0u));
        CHECK(happens(&session, 0, "B1:111 U1:1 U1:2 ."));
        opus(&session, 0, 1, 4);
        CHECK(happens(&session, 0, ".") && deadline(&session) == 10);
        CHECK(cpay_session_poll(&session, 10, &event) == CPAY_OK && event.kind == CPAY_EVENT_FEEDBACK);
        CHECK(happens(&session, 10, ".") && deadline(&session) == (known ? 195u : 110u));
        cpay_session_free(&session);
    }
}

/* Keyframes that viewers need: one PLI in 500 ms (RFC 4585, section 6.3.1), none after a keyframe, and none without an agreement. */
static void keyframes_for_others(void) {
    static const uint8_t delta[] = {0x10, 0x11, 0, 0, 1};
    static const uint8_t key[] = {0x10, 0x10, 1, 0, 0x9d, 0x01, 0x2a, 16, 0, 16, 0, 1, 2, 3, 4, 5, 6, 7, 8, 9};
    static const uint8_t pli[] = {0x81, 206, 0, 2, 0, 0, 0, 77, 0, 0, 0, 1};
    cpay_session_settings settings;
    cpay_session_settings_init(&settings, CPAY_FOR_LIVE);
    cpay_session_format formats[2];
    cpay_session session = CPAY_INIT;
    cpay_event event = {.kind = 99};
    cpay_keyframe_answer answer = (cpay_keyframe_answer)99;
    uint8_t marked = VIDEO | 0x80;
    memcpy(formats, FORMATS, sizeof formats);
    formats[1].pli = true;
    CHECK(cpay_session_settings_feedback(&settings, 77, NAME, sizeof NAME) == CPAY_OK);
    settings.feedback.has_report_interval = false;
    settings.feedback.keyframe_interval = 500;
    settings.audio.start = settings.video.start = 0;
    CHECK(cpay_session_new(&session, &settings, formats, 2, NULL, 0, NULL, 0) == CPAY_OK);
    sent(&session, 0, marked, 1, 1, key, sizeof key);
    sent(&session, 0, marked, 1, 2, delta, sizeof delta);
    opus(&session, 0, 3, 1);
    opus(&session, 0, 3, 2);
    CHECK(happens(&session, 0, "B1:96 U1:1 U1:2 B3:111 U3:1 U3:2 ."));
    CHECK(cpay_session_request_keyframe(&session, 2, &answer) == CPAY_OK && answer == CPAY_KEYFRAME_NO_STREAM);
    CHECK(cpay_session_request_keyframe(&session, 3, &answer) == CPAY_OK && answer == CPAY_KEYFRAME_NOT_NEGOTIATED);
    CHECK(happens(&session, 0, "."));
    CHECK(cpay_session_request_keyframe(&session, 1, &answer) == CPAY_OK && answer == CPAY_KEYFRAME_REQUESTED);
    CHECK(deadline(&session) == 0);
    CHECK(cpay_session_poll(&session, 5, &event) == CPAY_OK && event.kind == CPAY_EVENT_FEEDBACK && event.ssrc == 1);
    CHECK(event.bytes == 12 && same(event.data, (const char *)pli, 12) && happens(&session, 5, "."));
    CHECK(cpay_session_request_keyframe(&session, 1, &answer) == CPAY_OK && answer == CPAY_KEYFRAME_REQUESTED);
    CHECK(happens(&session, 100, ".") && deadline(&session) == 505);
    sent(&session, 200, marked, 1, 3, key, sizeof key);
    CHECK(happens(&session, 200, "U1:3 .") && happens(&session, 505, "."));
    CHECK(cpay_session_end(&session, 505, 1) == CPAY_OK);
    CHECK(cpay_session_request_keyframe(&session, 1, &answer) == CPAY_OK && answer == CPAY_KEYFRAME_NO_STREAM);
    cpay_session_free(&session);
}

/* Receiver reports (RFC 3550, section 6.4.2): one each second, with a block about the announced stream, and the name (6.5). */
static void sent_reports(void) {
    static const uint8_t name[] = {0x81, 202, 0, 4, 0, 0, 0, 77, 1, 7, 'm', 'e', '@', 'h', 'o', 's', 't', 0, 0, 0};
    static const uint8_t first[] = {0x81, 201, 0, 7, 0, 0, 0, 77, 0, 0, 0, 1, 64, 0, 0, 1, 0, 0, 0, 4};
    static const uint8_t second[] = {0x81, 201, 0, 7, 0, 0, 0, 77, 0, 0, 0, 1, 0, 0, 0, 1, 0, 0, 0, 5};
    /* RFC 3611, section 4.4: 1.999 s, in units of 1/2^32 s */
    static const uint8_t time[] = {0x80, 207, 0, 4, 0, 0, 0, 77, 4, 0, 0, 2, 0, 0, 0, 1, 0xff, 0xbe, 0x76, 0xc8};
    cpay_session_settings settings;
    cpay_session_settings_init(&settings, CPAY_FOR_LIVE);
    cpay_session session = CPAY_INIT;
    cpay_event event = {.kind = 99};
    CHECK(cpay_session_settings_feedback(&settings, 77, NAME, sizeof NAME) == CPAY_OK);
    CHECK(cpay_session_new(&session, &settings, FORMATS, 2, NULL, 0, NULL, 0) == CPAY_OK);
    opus(&session, 0, 1, 1);
    opus(&session, 0, 1, 2);
    opus(&session, 0, 1, 4);
    opus(&session, 0, 2, 9);
    while (cpay_session_poll(&session, 999, &event) == CPAY_OK) CHECK(event.kind != CPAY_EVENT_REPORT);
    CHECK(deadline(&session) == 1999);
    /* 4 are expected, and 1 is lost: 256 / 4 */
    CHECK(cpay_session_poll(&session, 1999, &event) == CPAY_OK && event.kind == CPAY_EVENT_REPORT);
    CHECK(event.bytes == 72 && event.unit.bytes == 0);
    CHECK(event.ssrc == 0 && event.payload_type == 0 && same(event.data, (const char *)first, sizeof first));
    CHECK(same(event.data + 32, (const char *)name, sizeof name) && same(event.data + 52, (const char *)time, sizeof time));
    CHECK(happens(&session, 1999, ".") && deadline(&session) == 2999);
    opus(&session, 2000, 1, 5);
    while (cpay_session_poll(&session, 2998, &event) == CPAY_OK) CHECK(event.kind != CPAY_EVENT_REPORT);
    CHECK(cpay_session_poll(&session, 2999, &event) == CPAY_OK && same(event.data, (const char *)second, sizeof second));
    cpay_session_free(&session);
    settings.feedback.has_report_interval = false;
    CHECK(cpay_session_new(&session, &settings, FORMATS, 2, NULL, 0, NULL, 0) == CPAY_OK);
    opus(&session, 0, 1, 1);
    opus(&session, 0, 1, 2);
    while (cpay_session_poll(&session, 9, &event) == CPAY_OK) {}
    CHECK(cpay_session_poll(&session, 5000, &event) == CPAY_NONE);
    cpay_session_free(&session);
}

/* Extended reports (RFC 3611, sections 4.4 and 4.5): an answer gives the round trip, and the session answers the times of others. */
static void extended_reports(void) {
    /* an answer of SSRC 5 to SSRC 77: the middle 32 bits of 1 s, which came 37 ms ago */
    static const uint8_t answer[] = {0x80, 207, 0, 5, 0, 0, 0, 5, 5, 0, 0, 3, 0, 0, 0, 77, 0, 1, 0, 0, 0, 0, 9, 0x79};
    static const uint8_t time[] = {0x80, 207, 0, 4, 0, 0, 0, 5, 4, 0, 0, 2, 1, 2, 3, 4, 5, 6, 7, 8};
    /* the reference time of 2 s, and the answer to that of SSRC 5, which came half a second ago */
    static const uint8_t both[] = {0x80, 207, 0, 4, 0, 0, 0, 77, 4, 0, 0, 2, 0, 0, 0, 2, 0, 0, 0, 0,
                                   0x80, 207, 0, 5, 0, 0, 0, 77, 5, 0, 0, 3, 0, 0, 0, 5, 3, 4, 5, 6, 0, 0, 0x80, 0};
    for (int on = 0; on < 2; on++) {
        cpay_session_settings settings;
        cpay_session session = CPAY_INIT;
        cpay_session_format format = FORMATS[0];
        cpay_session_stream stream = {0};
        cpay_event event;
        cpay_arrival arrival;
        format.nack = true;
        cpay_session_settings_init(&settings, CPAY_FOR_LIVE);
        CHECK(cpay_session_settings_feedback(&settings, 77, (const uint8_t *)"me", 2) == CPAY_OK);
        settings.feedback.extended = on;
        CHECK(cpay_session_new(&session, &settings, &format, 1, NULL, 0, NULL, 0) == CPAY_OK);
        opus(&session, 0, 1, 1);
        opus(&session, 0, 1, 2);
        while (cpay_session_poll(&session, 0, &event) == CPAY_OK) {}
        CHECK(cpay_session_poll(&session, 1000, &event) == CPAY_OK && event.kind == CPAY_EVENT_REPORT);
        CHECK(event.bytes == (on ? 68u : 48u));
        CHECK(cpay_session_receive(&session, 1197, answer, sizeof answer, &arrival) == CPAY_OK && arrival.kind == CPAY_ARRIVAL_RTCP);
        CHECK(cpay_session_stream_at(&session, 0, &stream) == CPAY_OK && stream.has_round_trip == (on == 1));
        CHECK(stream.round_trip == (on ? 160u : 0u));
        CHECK(cpay_session_receive(&session, 1500, time, sizeof time, &arrival) == CPAY_OK);
        CHECK(cpay_session_poll(&session, 2000, &event) == CPAY_OK && event.kind == CPAY_EVENT_REPORT);
        CHECK(event.bytes == (on ? 92u : 48u));
        if (on) CHECK(same(event.data + 48, (const char *)both, sizeof both));
        cpay_session_free(&session);
    }
}

/* A report with room for one block: two streams take turns (RFC 3550, section 6.1). */
static void turns(void) {
    cpay_session_settings settings;
    cpay_session session = CPAY_INIT;
    cpay_event event;
    cpay_session_settings_init(&settings, CPAY_FOR_LIVE);
    CHECK(cpay_session_settings_feedback(&settings, 9, (const uint8_t *)"me", 2) == CPAY_OK);
    CHECK(settings.feedback.max_report == 1200 && settings.feedback.extended);
    settings.feedback.max_report = 48;
    settings.feedback.extended = false;
    CHECK(cpay_session_new(&session, &settings, FORMATS, 2, NULL, 0, NULL, 0) == CPAY_OK);
    for (uint8_t ssrc = 1; ssrc <= 2; ssrc++) {
        opus(&session, 0, ssrc, 1);
        opus(&session, 0, ssrc, 2);
    }
    while (cpay_session_poll(&session, 0, &event) == CPAY_OK) {}
    for (uint64_t now = 1000; now <= 4000; now += 1000) {
        CHECK(cpay_session_poll(&session, now, &event) == CPAY_OK && event.kind == CPAY_EVENT_REPORT);
        /* a header, our SSRC, a block whose first word is the SSRC of its sender, and the name */
        CHECK(event.bytes == 48 && event.data[0] == 0x81 && event.data[11] == (now / 1000 + 1) % 2 + 1);
        CHECK(cpay_session_poll(&session, now, &event) == CPAY_NONE);
    }
    cpay_session_free(&session);
}

/* Transport-wide feedback (draft-holmer-rmcat-transport-wide-cc-extensions-01, section 3.1): each interval, with the times of
   microseconds, and from a new number on after a restart. */
static void transports(void) {
    /* number 1 under id 5, in the one-byte form (RFC 8285, section 4.2) */
    uint8_t datagram[] = {0x90, 0x80 | AUDIO, 0, 1, 0, 0, 0, 0, 0, 0, 0, 7, 0xbe, 0xde, 0, 1, 0x51, 0, 1, 0, 1};
    /* 64.5 ms are 64 ms and two quarters: one status, in a run of one small delta */
    static const uint8_t first[] = {0x8f, 205, 0, 5, 0, 0, 0, 9, 0, 0, 0, 7, 0, 1, 0, 1, 0, 0, 1, 0, 0x20, 1, 2, 0};
    cpay_session_settings settings;
    cpay_session session = CPAY_INIT;
    cpay_arrival arrival;
    cpay_event event;
    uint64_t at = 77;
    cpay_session_settings_init(&settings, CPAY_FOR_LIVE);
    CHECK(!settings.has_transport && settings.transport.interval == 100 && settings.transport.window == 2048);
    CHECK(cpay_session_settings_feedback(&settings, 9, (const uint8_t *)"me", 2) == CPAY_OK);
    settings.feedback.has_report_interval = false;
    settings.has_transport = true;
    settings.transport.extension_id = 5;
    CHECK(cpay_session_new(&session, &settings, FORMATS, 2, NULL, 0, NULL, 0) == CPAY_OK);
    CHECK(cpay_session_receive_at(&session, 10, 64500, datagram, sizeof datagram, &arrival) == CPAY_OK);
    CHECK(arrival.kind == CPAY_ARRIVAL_STREAM && arrival.ssrc == 7);
    CHECK(cpay_session_next_deadline(&session, &at) == CPAY_OK && at == 0);
    CHECK(cpay_session_poll(&session, 10, &event) == CPAY_OK && event.kind == CPAY_EVENT_TRANSPORT_FEEDBACK);
    CHECK(event.ssrc == 0 && event.bytes == sizeof first && memcmp(event.data, first, sizeof first) == 0);
    CHECK(cpay_session_poll(&session, 10, &event) == CPAY_NONE);
    /* by the ticks: 110 ms are 440 quarters; the number is behind the first one, so it waits for the restart */
    datagram[17] = 0x90;
    CHECK(cpay_session_restart_transport(&session) == CPAY_OK);
    CHECK(cpay_session_receive(&session, 110, datagram, sizeof datagram, &arrival) == CPAY_OK);
    CHECK(cpay_session_poll(&session, 110, &event) == CPAY_OK && event.kind == CPAY_EVENT_TRANSPORT_FEEDBACK);
    CHECK(event.data[12] == 0x90 && event.data[13] == 1 && event.data[18] == 1 && event.data[19] == 1 && event.data[22] == 440 - 256);
    cpay_session_free(&session);
}

/* RED (RFC 2198): a lost packet is recovered from the next one; invalid RED is reported; comfort noise carries no media. */
static void redundant(void) {
    cpay_session session = live();
    opus(&session, 0, 1, 1);
    opus(&session, 0, 1, 2);
    /* one byte of 960 ticks before, and the byte of this packet */
    cpay_arrival it = sent(&session, 20, RED, 1, 4, "\xef\x0f\0\x01\x6f\3\4", 7);
    CHECK(it.kind == CPAY_ARRIVAL_STREAM && it.ssrc == 1 && it.payload_type == AUDIO && it.outcome == CPAY_HELD);
    CHECK(happens(&session, 20, "B1:111 U1:1 U1:2 U1:3 U1:4 ."));
    it = sent(&session, 30, RED, 1, 5, "\xff", 1);
    CHECK(it.kind == CPAY_ARRIVAL_STREAM && it.status == CPAY_RED_CORRUPTED && it.outcome == 0);
    it = sent(&session, 40, NOISE, 1, 5, "\100", 1);
    CHECK(it.kind == CPAY_ARRIVAL_STREAM && it.outcome == CPAY_NO_MEDIA && happens(&session, 40, "."));
    CHECK(sent(&session, 40, NOISE, 3, 5, "\100", 1).kind == CPAY_ARRIVAL_UNKNOWN);
    CHECK(sent(&session, 40, 77, 1, 5, "x", 1).kind == CPAY_ARRIVAL_UNKNOWN);
    CHECK(cpay_session_receive(&session, 40, (const uint8_t *)"hello", 5, &it) == CPAY_OK && it.kind == CPAY_ARRIVAL_MALFORMED);
    CHECK(cpay_session_receive(&session, 40, NULL, 0, &it) == CPAY_OK && it.kind == CPAY_ARRIVAL_MALFORMED);
    /* a BYE whose length is a word too long (RFC 3550, section 6.4.1) */
    const uint8_t cut[8] = {0x81, 203, 0, 2, 0, 0, 0, 1};
    CHECK(cpay_session_receive(&session, 40, cut, 8, &it) == CPAY_OK && it.kind == CPAY_ARRIVAL_MALFORMED);
    cpay_session_counts_info counts = counts_of(&session);
    CHECK(counts.unknown == 2 && counts.malformed == 3 && counts.rtcp == 0 && counts.streams == 1);
    cpay_session_free(&session);
}

/* Telephone events beside audio (RFC 4733): they come first and in order, audio does not wait for their numbers, at most 32 wait, and
 * others are counted. */
static void telephone(void) {
    static const uint8_t digit[4] = {5, 0x80 | 10, 1, 0xe0}; /* the digit 5, its end, -10 dBm0, 480 ticks (section 2.3) */
    cpay_session session = live();
    cpay_event event = {.kind = 99};
    uint64_t at = 99;
    opus(&session, 0, 1, 1);
    opus(&session, 0, 1, 2);
    cpay_arrival it = sent(&session, 0, EVENTS | 0x80, 1, 3, digit, 4);
    CHECK(it.kind == CPAY_ARRIVAL_STREAM && it.payload_type == AUDIO && it.outcome == CPAY_NO_MEDIA);
    sent(&session, 0, EVENTS, 1, 4, digit, 4);
    CHECK(sent(&session, 0, EVENTS, 3, 5, digit, 4).kind == CPAY_ARRIVAL_UNKNOWN);
    opus(&session, 0, 1, 5);
    CHECK(cpay_session_next_deadline(&session, &at) == CPAY_OK && at == 0);
    for (int place = 0; place < 2; place++) {
        memset(&event, 99, sizeof event);
        CHECK(cpay_session_poll(&session, 0, &event) == CPAY_OK && event.kind == CPAY_EVENT_TELEPHONE);
        CHECK(event.ssrc == 1 && event.payload_type == EVENTS && event.status == CPAY_OK && event.why == 0 && event.bytes == 4);
        CHECK(event.unit.rtp_time == 960u * (3u + (unsigned)place) && event.unit.bytes == 4);
        CHECK(event.unit.starts_talk_spurt == (place == 0) && event.unit.first == 0 && !event.unit.decodable);
        CHECK(!memcmp(event.data, digit, 4));
    }
    CHECK(happens(&session, 0, "B1:111 U1:1 U1:2 U1:5 ."));
    for (uint16_t number = 6; number < 39; number++) sent(&session, 0, EVENTS, 1, number, digit, 4);
    CHECK(counts_of(&session).telephone_dropped == 1);
    for (int place = 0; place < 32; place++)
        CHECK(cpay_session_poll(&session, 0, &event) == CPAY_OK && event.kind == CPAY_EVENT_TELEPHONE);
    CHECK(happens(&session, 0, "."));
    cpay_session_free(&session);
}

/* Video: units that a decoder cannot show, a refused frame, and a stream beside audio under the same SSRC. */
static void video(void) {
    /* a VP8 payload descriptor (RFC 7741, section 4.2), and headers of a delta frame and of a keyframe of 16 by 16 pixels */
    static const uint8_t delta[] = {0x10, 0x11, 0, 0, 1};
    static const uint8_t key[] = {0x10, 0x10, 1, 0, 0x9d, 0x01, 0x2a, 16, 0, 16, 0, 1, 2, 3, 4, 5, 6, 7, 8, 9};
    cpay_session session = live();
    bool wants = false;
    uint8_t marked = VIDEO | 0x80;
    sent(&session, 0, marked, 1, 1, delta, sizeof delta);
    sent(&session, 33, marked, 1, 2, delta, sizeof delta);
    opus(&session, 40, 1, 500);
    opus(&session, 40, 1, 501);
    CHECK(happens(&session, 40, "B1:96 B1:111 U1:500 U1:501 ."));
    CHECK(happens(&session, 233, "U1:1? U1:2? ."));
    CHECK(cpay_session_wants_keyframe(&session, 1, VIDEO, &wants) == CPAY_OK && wants);
    sent(&session, 240, marked, 1, 3, key, sizeof key);
    CHECK(happens(&session, 240, "U1:3 ."));
    CHECK(cpay_session_wants_keyframe(&session, 1, VIDEO, &wants) == CPAY_OK && !wants);
    sent(&session, 270, marked, 1, 4, "\x90", 1); /* a descriptor that announces a byte which is missing */
    CHECK(happens(&session, 270, "F1:1 ."));
    CHECK(cpay_session_wants_keyframe(&session, 1, VIDEO, &wants) == CPAY_OK && wants);
    CHECK(cpay_session_wants_keyframe(&session, 2, VIDEO, &wants) == CPAY_NONE && wants);
    CHECK(cpay_session_wants_keyframe(&session, 1, AUDIO, &wants) == CPAY_OK && !wants);
    cpay_session_free(&session);
}

/* A packet of VP8 with MID `v` and this RID in its header extension (RFC 8285, section 4.2), stored by the stream of that SSRC. */
static void layer(cpay_session *session, uint8_t ssrc, uint16_t number, const char *rid) {
    const uint8_t extended[14] = {0xbe, 0xde, 0, 2, 0x30, 'v', 0x41, (uint8_t)rid[0], (uint8_t)rid[1], 0, 0, 0, 0x10, 0x11};
    uint8_t bytes[64];
    cpay_arrival arrival = {.kind = 99};
    size_t size = packet(bytes, VIDEO, ssrc, number, extended, sizeof extended);
    bytes[0] |= 0x10;
    CHECK(cpay_session_receive(session, 0, bytes, size, &arrival) == CPAY_OK && arrival.kind == CPAY_ARRIVAL_STREAM);
    CHECK(arrival.ssrc == ssrc && arrival.status == CPAY_OK && arrival.outcome == CPAY_HELD);
}

/* Two layers of a simulcast have two RIDs; a stream in another format begins with the names of its SSRC, and one without names has
 * lengths of 0. */
static void names(void) {
    cpay_session_settings settings;
    cpay_stream_names told = {.mid = "x", .mid_len = 99};
    const cpay_stream_names none = {.mid_len = 0};
    cpay_session_settings_init(&settings, CPAY_FOR_LIVE);
    CHECK(settings.name_ids.mid == 0 && settings.name_ids.rid == 0 && settings.name_ids.repaired_rid == 0);
    settings.name_ids = (cpay_stream_name_ids){.mid = 3, .rid = 4, .repaired_rid = 5};
    cpay_session session = session_of(&settings);
    CHECK(cpay_session_names(&session, 1, VIDEO, &told) == CPAY_NONE && told.mid[0] == 'x' && told.mid_len == 99);
    layer(&session, 1, 10, "hi");
    layer(&session, 2, 10, "lo");
    CHECK(cpay_session_names(&session, 1, VIDEO, &told) == CPAY_OK && told.mid_len == 1 && told.mid[0] == 'v');
    CHECK(told.rid_len == 2 && same(told.rid, "hi\0", 3) && told.repaired_rid_len == 0);
    CHECK(cpay_session_names(&session, 2, VIDEO, &told) == CPAY_OK && told.rid_len == 2 && same(told.rid, "lo", 2));
    CHECK(cpay_session_names(&session, 1, AUDIO, &told) == CPAY_NONE && same(told.rid, "lo", 2));
    opus(&session, 0, 1, 10);
    CHECK(cpay_session_names(&session, 1, AUDIO, &told) == CPAY_OK && told.mid_len == 1 && told.mid[0] == 'v' && same(told.rid, "hi", 2));
    opus(&session, 0, 3, 10);
    CHECK(cpay_session_names(&session, 3, AUDIO, &told) == CPAY_OK && !memcmp(&told, &none, sizeof told));
    cpay_session_free(&session);
}

/* A frame of VP8 in one packet with a dependency descriptor (AV1 RTP specification, appendix A), whose frame number is its sequence
 * number: 1 is a keyframe with a structure, later odd numbers are of temporal layer 0 and refer to the frame 2 before, even numbers are
 * of layer 1 and refer to the frame before. Returns whether its unit is decodable. */
static bool is_shown(cpay_session *session, uint16_t number) {
    const uint8_t template = number == 1 ? 0 : (uint8_t)(2 - number % 2);
    const uint8_t structure[6] = {0x80, 0x00, 0x1f, 0xf4, 0x50, 0x00};
    const uint8_t key[11] = {0x10, 0x10, 0, 0, 0x9d, 0x01, 0x2a, 16, 0, 16, 0};
    uint8_t payload[27] = {0xbe, 0xde, 0, 3, 0x60 | 2, 0xc0 | template, (uint8_t)(number >> 8), (uint8_t)number};
    uint8_t bytes[64];
    cpay_arrival arrival;
    cpay_event event = {0};
    bool shown = false;
    if (number == 1) payload[4] = 0x60 | 8, memcpy(payload + 8, structure, sizeof structure);
    memcpy(payload + 16, key, sizeof key);
    if (number != 1) payload[17] = 0x11; /* P of the frame header (RFC 6386, section 9.1) */
    size_t size = packet(bytes, 0x80 | VIDEO, 3, number, payload, sizeof payload);
    bytes[0] |= 0x10;
    CHECK(cpay_session_receive(session, 1000u * number, bytes, size, &arrival) == CPAY_OK);
    while (cpay_session_poll(session, 1000u * number + 500, &event) == CPAY_OK)
        if (event.kind == CPAY_EVENT_UNIT) shown = event.unit.decodable;
    return shown;
}

/* A lost frame of the upper layer holds back nothing if the descriptor is read, and else all. */
static void descriptors(void) {
    cpay_session_settings settings;
    cpay_session_settings_init(&settings, CPAY_FOR_LIVE);
    CHECK(settings.dependency_descriptor == 0);
    settings.probation = 1;
    for (uint8_t id = 0; id <= 6; id += 6) {
        settings.dependency_descriptor = id;
        cpay_session session = session_of(&settings);
        CHECK(is_shown(&session, 1));
        CHECK(is_shown(&session, 3) == (id == 6) && is_shown(&session, 4) == (id == 6) && is_shown(&session, 5) == (id == 6));
        CHECK(!is_shown(&session, 8) && !is_shown(&session, 9)); /* both refer to frame 7 */
        cpay_session_free(&session);
    }
}

/* Figure 2 of RFC 3550: a sender report of 46,853.125 s arrives, and 5.250 s later a block is made. */
static void reports(void) {
    static const uint8_t sender_report[28] = {0x80, 200, 0, 6, 0, 0, 0, 1, 0xb4, 0x4d, 0xb7, 0x05, 0x20, 0, 0, 0, 0, 0, 0x1e, 0x61};
    cpay_session session = live();
    cpay_report_block_info block = {.ssrc = 99};
    cpay_sender_clock_info clock = {.rtp_time = 99};
    cpay_arrival arrival = {0};
    CHECK(cpay_session_report(&session, 0, 1, AUDIO, &block) == CPAY_NONE && block.ssrc == 99);
    CHECK(cpay_session_peek_report(&session, 0, 1, AUDIO, &block) == CPAY_NONE && block.ssrc == 99);
    opus(&session, 100000, 1, 10);
    opus(&session, 100040, 1, 12);
    opus(&session, 100040, 2, 10);
    for (int again = 0; again < 2; again++) { /* looking changes nothing */
        CHECK(cpay_session_peek_report(&session, 100041, 1, AUDIO, &block) == CPAY_OK && block.ssrc == 1);
        CHECK(block.fraction_lost == 85 && block.cumulative_lost == 1 && block.highest == 12);
    }
    CHECK(cpay_session_peek_report(&session, 100041, 1, VIDEO, &block) == CPAY_NONE && block.ssrc == 1);
    CHECK(cpay_session_report(&session, 100041, 1, AUDIO, &block) == CPAY_OK && block.last_sender_report == 0);
    CHECK(block.fraction_lost == 85 && block.cumulative_lost == 1 && block.delay_since_sender_report == 0); /* 1 of 3 */
    CHECK(cpay_session_sender_clock(&session, 1, AUDIO, &clock) == CPAY_NONE && clock.rtp_time == 99);
    CHECK(cpay_session_receive(&session, 100050, sender_report, sizeof sender_report, &arrival) == CPAY_OK);
    CHECK(arrival.kind == CPAY_ARRIVAL_RTCP);
    CHECK(cpay_session_report(&session, 105300, 1, AUDIO, &block) == CPAY_OK && block.ssrc == 1 && block.fraction_lost == 0);
    CHECK(block.cumulative_lost == 1 && block.highest == 12 && block.jitter == 0);
    CHECK(block.last_sender_report == 0xb7052000 && block.delay_since_sender_report == 0x54000);
    CHECK(cpay_session_sender_clock(&session, 1, AUDIO, &clock) == CPAY_OK && clock.ntp_time == 0xb44db70520000000);
    CHECK(clock.rtp_time == 7777 && clock.arrived == 100050);
    CHECK(cpay_session_sender_clock(&session, 2, AUDIO, &clock) == CPAY_NONE && clock.rtp_time == 7777);
    CHECK(cpay_session_sender_clock(&session, 1, VIDEO, &clock) == CPAY_NONE && clock.rtp_time == 7777);
    CHECK(cpay_session_report(&session, 105300, 2, AUDIO, &block) == CPAY_OK && block.ssrc == 2 && block.highest == 10);
    cpay_session_free(&session);
}

/* The bytes of an event are lent: they stay where they are through every call but the next poll. */
static void lent(void) {
    cpay_session session = live();
    cpay_event event = {.kind = 99}, other = {.kind = 99};
    cpay_extension_values values = {.audio_level = 5};
    uint64_t at = 99;
    CHECK(sent(&session, 0, AUDIO, 1, 1, "abc", 3).outcome == CPAY_HELD);
    CHECK(sent(&session, 0, AUDIO, 1, 2, "d", 1).outcome == CPAY_HELD);
    CHECK(cpay_session_poll(&session, 0, &event) == CPAY_OK && event.kind == CPAY_EVENT_BEGUN && event.bytes == 0 && event.data);
    CHECK(cpay_session_values(&session, &values) == CPAY_NONE && values.audio_level == 5);
    CHECK(cpay_session_poll(&session, 0, &event) == CPAY_OK && event.kind == CPAY_EVENT_UNIT && event.bytes == 3);
    CHECK(event.unit.bytes == 3 && event.unit.first == 65537 && event.ssrc == 1 && same(event.data, "abc", 3));
    CHECK(sent(&session, 0, AUDIO, 1, 3, "efgh", 4).outcome == CPAY_HELD);
    bye(&session, 0, 1);
    CHECK(counts_of(&session).received == 4 && cpay_session_next_deadline(&session, &at) == CPAY_OK);
    CHECK(cpay_session_values(&session, &values) == CPAY_OK && !values.has_audio_level && values.audio_level == 0);
    CHECK(same(event.data, "abc", 3) && event.unit.last == 65537);
    CHECK(event.unit.rtp_time == ((uint64_t)1 << 32) + 960 && event.unit.decodable && !event.unit.keyframe);
    CHECK(cpay_session_poll(&session, 500, &event) == CPAY_OK && event.unit.first == 65538 && same(event.data, "d", 1));
    CHECK(cpay_session_poll(&session, 500, &event) == CPAY_OK && event.unit.first == 65539 && same(event.data, "efgh", 4));
    CHECK(cpay_session_poll(&session, 500, &event) == CPAY_OK && event.kind == CPAY_EVENT_ENDED && event.why == 0);
    CHECK(event.bytes == 0 && event.data);
    /* the values of the latest unit stay, and no event leaves the struct unchanged */
    CHECK(cpay_session_values(&session, &values) == CPAY_OK && !values.has_audio_level);
    CHECK(cpay_session_poll(&session, 500, &other) == CPAY_NONE && other.kind == 99 && !other.data);
    cpay_session_free(&session);
}

/* Values of header extensions, and streams in more places than there are. */
static void values_and_places(void) {
    cpay_session_settings settings;
    cpay_session_settings_init(&settings, CPAY_FOR_LIVE);
    cpay_sender_settings sends = {.spec = FORMATS[0].spec, .mtu = 100, .ssrc = 1, .payload_type = AUDIO};
    cpay_sample sample = {
        .values = {.audio_level = -9, .has_audio_level = true, .has_voice_activity = true, .voice_activity = true}};
    cpay_sender sender = CPAY_INIT;
    cpay_extension_values values = {.audio_level = 5};
    cpay_arrival arrival = {0};
    uint8_t bytes[64];
    size_t count = 0, size = 0;
    settings.extension_ids.audio_level = sends.extension_ids.audio_level = 2;
    settings.max_streams = 2;
    settings.probation = 3;
    cpay_session session = session_of(&settings);
    CHECK(cpay_sender_new(&sender, &sends) == CPAY_OK);
    for (int i = 0; i < 3; i++, sample.rtp_time += 960) {
        CHECK(cpay_sender_send_sample(&sender, &sample, (const uint8_t *)"o", 1, &count) == CPAY_OK && count == 1);
        CHECK(cpay_sender_datagram(&sender, 0, bytes, sizeof bytes, &size) == CPAY_OK);
        CHECK(cpay_session_receive(&session, 0, bytes, size, &arrival) == CPAY_OK && arrival.outcome == CPAY_HELD);
    }
    cpay_event event = {0};
    CHECK(cpay_session_poll(&session, 0, &event) == CPAY_OK && event.kind == CPAY_EVENT_BEGUN);
    CHECK(cpay_session_poll(&session, 0, &event) == CPAY_OK && event.kind == CPAY_EVENT_UNIT);
    CHECK(cpay_session_values(&session, &values) == CPAY_OK && values.audio_level == -9 && values.voice_activity);
    opus(&session, 0, 2, 1);
    opus(&session, 0, 3, 1); /* it takes the place of the stream in probation */
    CHECK(counts_of(&session).ended == 1 && counts_of(&session).streams == 2);
    opus(&session, 0, 3, 2);
    opus(&session, 0, 3, 3);
    CHECK(sent(&session, 0, AUDIO, 4, 1, "x", 1).kind == CPAY_ARRIVAL_REFUSED && counts_of(&session).refused == 1);
    cpay_sender_free(&sender);
    cpay_session_free(&session);
}

/* A frame of 1.2 MB, above max_unit of 1 MiB: it is a fault, and both streams go on. */
static void large_unit(void) {
    static const uint8_t key[] = {0x10, 0x10, 0, 0, 0x9d, 0x01, 0x2a, 0x10, 0, 0x10, 0};
    cpay_session session = live();
    cpay_event event = {0};
    unsigned units[2] = {0}, faults = 0;
    uint16_t numbers[2] = {0};
    for (uint8_t time = 0; time < 6; time++) {
        for (uint8_t ssrc = 1; ssrc <= 2; ssrc++) {
            const unsigned packets = ssrc == 1 && time == 2 ? 1000 : 1;
            for (unsigned place = 0; place < packets; place++) {
                uint8_t bytes[12 + 1 + 1200] = {0x80, VIDEO};
                cpay_arrival arrival = {0};
                const uint16_t number = numbers[ssrc - 1]++;
                if (place + 1 == packets) bytes[1] |= 0x80;
                bytes[2] = (uint8_t)(number >> 8);
                bytes[3] = (uint8_t)number;
                bytes[6] = time;
                bytes[11] = ssrc;
                if (place == 0) memcpy(bytes + 12, key, sizeof key);
                CHECK(cpay_session_receive(&session, time, bytes, sizeof bytes, &arrival) == CPAY_OK);
                CHECK(arrival.kind == CPAY_ARRIVAL_STREAM);
            }
        }
        cpay_status status;
        while ((status = cpay_session_poll(&session, time, &event)) == CPAY_OK) {
            if (event.kind == CPAY_EVENT_UNIT) units[event.ssrc - 1]++;
            if (event.kind != CPAY_EVENT_FAULT) continue;
            CHECK(event.ssrc == 1 && event.status == CPAY_UNIT_TOO_LARGE && event.bytes == 0 && event.unit.bytes == 0);
            faults++;
        }
        CHECK(status == CPAY_NONE);
    }
    CHECK(units[0] == 5 && units[1] == 6 && faults == 1);
    cpay_session_free(&session);
}

/* The first fault of these settings, or no fault, is this one; -1: it names no format, or no payload type. A session is refused
 * exactly if there is a fault. */
static void fault_is(const cpay_session_settings *settings, const cpay_session_format *formats, const uint8_t *no_media,
                     size_t no_media_len, cpay_settings_fault_kind kind, int format, int payload_type) {
    cpay_settings_fault fault = {.format = 9, .payload_type = 9};
    cpay_session session = CPAY_INIT;
    const cpay_status wanted = kind == CPAY_SETTINGS_FIT ? CPAY_OK : CPAY_INVALID;
    CHECK(cpay_session_settings_check(settings, formats, 2, no_media, no_media_len, &fault) == wanted && fault.kind == kind);
    CHECK(fault.has_format == (format >= 0) && fault.format == (size_t)(format >= 0 ? format : 0));
    CHECK(fault.has_payload_type == (payload_type >= 0) && fault.payload_type == (payload_type >= 0 ? payload_type : 0));
    CHECK(cpay_session_new(&session, settings, formats, 2, no_media, no_media_len, NULL, 0) == wanted);
    cpay_session_free(&session);
}

/* Each fault has a name, and says where it is; of two faults the first counts. */
static void faults_of_settings(void) {
    cpay_session_settings right, wrong;
    cpay_session_format formats[2];
    cpay_settings_fault fault = {.kind = CPAY_SETTINGS_CNAME};
    cpay_session_settings_init(&right, CPAY_FOR_LIVE);
    fault_is(&right, FORMATS, NO_MEDIA, 2, CPAY_SETTINGS_FIT, -1, -1);
#define FAULT(field, value, kind) \
    wrong = right; \
    wrong.field = (value); \
    fault_is(&wrong, FORMATS, NO_MEDIA, 2, kind, -1, -1)
    FAULT(tick_rate, 0, CPAY_SETTINGS_TICK_RATE);
    FAULT(from_keyframe, 3, CPAY_SETTINGS_FROM_KEYFRAME);
    FAULT(limit, 0, CPAY_SETTINGS_LIMIT);
    FAULT(limit, 65537, CPAY_SETTINGS_LIMIT);
    FAULT(max_streams, 0, CPAY_SETTINGS_MAX_STREAMS);
    FAULT(has_transport, true, CPAY_SETTINGS_TRANSPORT_ID); /* id 0 is padding (RFC 8285, section 4.1.1) */
    wrong.transport.extension_id = 5;
    wrong.transport.window = 32769;
    fault_is(&wrong, FORMATS, NO_MEDIA, 2, CPAY_SETTINGS_TRANSPORT_WINDOW, -1, -1);
    FAULT(has_feedback, true, CPAY_SETTINGS_CNAME); /* RFC 3550, section 6.1: each compound packet has a name */
#define FAULT_AT(at, field, value, kind, payload_type) \
    memcpy(formats, FORMATS, sizeof formats); \
    formats[at].field = (value); \
    fault_is(&right, formats, NO_MEDIA, 2, kind, at, payload_type)
    FAULT_AT(0, spec.rate, 0, CPAY_SETTINGS_RATE, -1);
    FAULT_AT(1, spec.rate, 0, CPAY_SETTINGS_RATE, -1);
    FAULT_AT(1, spec.codec, 6, CPAY_SETTINGS_CODEC, -1); /* H.264 has no depacketizer */
    FAULT_AT(0, red_step, 16384, CPAY_SETTINGS_RED_STEP, -1);
    FAULT_AT(1, payload_type, 128, CPAY_SETTINGS_PAYLOAD_TYPE, 128);
    FAULT_AT(0, rtx_payload_type, 72, CPAY_SETTINGS_PAYLOAD_TYPE, 72); /* RFC 5761, section 4 */
    FAULT_AT(1, payload_type, AUDIO, CPAY_SETTINGS_TWO_MEANINGS, AUDIO);
    FAULT_AT(0, red_rtx_payload_type, RTX, CPAY_SETTINGS_TWO_MEANINGS, RTX);
    static const uint8_t reserved[] = {95}, taken[] = {VIDEO}, both[] = {NOISE, NOISE + CPAY_TELEPHONE};
    static const uint8_t keys[] = {EVENTS + CPAY_TELEPHONE, VIDEO + CPAY_TELEPHONE};
    fault_is(&right, FORMATS, reserved, 1, CPAY_SETTINGS_PAYLOAD_TYPE, -1, 95);
    fault_is(&right, FORMATS, taken, 1, CPAY_SETTINGS_TWO_MEANINGS, -1, VIDEO);
    fault_is(&right, FORMATS, keys, 2, CPAY_SETTINGS_TWO_MEANINGS, -1, VIDEO);
    fault_is(&right, FORMATS, both, 2, CPAY_SETTINGS_TWO_MEANINGS, -1, NOISE);
    wrong = right;
    wrong.limit = 0;
    memcpy(formats, FORMATS, sizeof formats);
    formats[1].spec.codec = 6;
    fault_is(&wrong, formats, reserved, 1, CPAY_SETTINGS_LIMIT, -1, -1);
    formats[1].spec.rate = 0;
    fault_is(&wrong, formats, reserved, 1, CPAY_SETTINGS_RATE, 1, -1);
    /* without lists; and no list at all, which is no fault of the settings */
    fault.format = 7;
    CHECK(cpay_session_settings_check(&right, NULL, 1, NULL, 0, &fault) == CPAY_INVALID && fault.kind == CPAY_SETTINGS_CNAME);
    CHECK(cpay_session_settings_check(&right, NULL, 0, NULL, 1, &fault) == CPAY_INVALID && fault.format == 7);
    CHECK(cpay_session_settings_check(&right, NULL, 0, NULL, 0, &fault) == CPAY_OK && fault.kind == CPAY_SETTINGS_FIT);
    const char *last = "";
    for (uint32_t kind = CPAY_SETTINGS_FIT; kind <= CPAY_SETTINGS_TRANSPORT_WINDOW; kind++) {
        const char *text = cpay_settings_fault_text((cpay_settings_fault_kind)kind);
        CHECK(strcmp(text, last) != 0 && strcmp(text, "unknown fault") != 0);
        last = text;
    }
    CHECK(strcmp(cpay_settings_fault_text((cpay_settings_fault_kind)(CPAY_SETTINGS_TRANSPORT_WINDOW + 1)), "unknown fault") == 0);
}

/* Settings out of range. */
static void settings(void) {
    cpay_session_settings right;
    cpay_session_settings_init(&right, CPAY_FOR_LIVE);
    cpay_session_settings wrong;
    cpay_session_format formats[2];
    cpay_session session = CPAY_INIT;
    static const uint8_t long_name[256] = {1};
#define REFUSED(field, value) \
    wrong = right; \
    wrong.field = (value); \
    CHECK(cpay_session_new(&session, &wrong, FORMATS, 2, NULL, 0, NULL, 0) == CPAY_INVALID)
    REFUSED(limit, 0);
    REFUSED(limit, 65537);
    REFUSED(max_streams, 0);
    REFUSED(tick_rate, 0);
    REFUSED(from_keyframe, 3);
    REFUSED(has_feedback, true); /* without a name */
    CHECK(cpay_session_settings_feedback(&wrong, 1, NAME, 0) == CPAY_INVALID);
    CHECK(cpay_session_settings_feedback(&wrong, 1, long_name, 256) == CPAY_INVALID && wrong.feedback.cname_len == 0);
    CHECK(cpay_session_settings_feedback(&wrong, 1, long_name, 255) == CPAY_OK && wrong.feedback.cname_len == 255);
#define REFUSED_FORMAT(field, value) \
    memcpy(formats, FORMATS, sizeof formats); \
    formats[0].field = (value); \
    CHECK(cpay_session_new(&session, &right, formats, 2, NULL, 0, NULL, 0) == CPAY_INVALID)
    REFUSED_FORMAT(spec.rate, 0);
    REFUSED_FORMAT(spec.codec, 6);
    REFUSED_FORMAT(payload_type, 128);
    REFUSED_FORMAT(red_payload_type, 128);
    REFUSED_FORMAT(red_payload_type, AUDIO);
    REFUSED_FORMAT(red_step, 0);
    REFUSED_FORMAT(red_step, 16384);
    REFUSED_FORMAT(rtx_payload_type, 128);
    REFUSED_FORMAT(red_rtx_payload_type, 128);
    static const uint8_t reserved[] = {64, 72, 95}; /* RTCP's with a marker (RFC 5761, section 4) */
    for (size_t i = 0; i < sizeof reserved; i++) {
        REFUSED_FORMAT(payload_type, reserved[i]);
        REFUSED_FORMAT(red_payload_type, reserved[i]);
        REFUSED_FORMAT(rtx_payload_type, reserved[i]);
        REFUSED_FORMAT(red_rtx_payload_type, reserved[i]);
        CHECK(cpay_session_new(&session, &right, FORMATS, 2, &reserved[i], 1, NULL, 0) == CPAY_INVALID);
    }
    /* payload types with two meanings */
    static const uint8_t both[] = {NOISE, NOISE + CPAY_TELEPHONE}, taken[] = {VIDEO, RED, RTX, RED_RTX, VIDEO + CPAY_TELEPHONE};
    REFUSED_FORMAT(payload_type, VIDEO);
    REFUSED_FORMAT(red_payload_type, VIDEO);
    REFUSED_FORMAT(rtx_payload_type, VIDEO);
    REFUSED_FORMAT(rtx_payload_type, RED);
    REFUSED_FORMAT(red_rtx_payload_type, RED);
    REFUSED_FORMAT(red_rtx_payload_type, RTX);
    REFUSED_FORMAT(red_rtx_payload_type, AUDIO);
    CHECK(cpay_session_new(&session, &right, FORMATS, 2, both, 2, NULL, 0) == CPAY_INVALID);
    for (size_t i = 0; i < sizeof taken; i++)
        CHECK(cpay_session_new(&session, &right, FORMATS, 2, &taken[i], 1, NULL, 0) == CPAY_INVALID);
    memcpy(formats, FORMATS, sizeof formats);
    formats[0] = FORMATS[0];
    formats[1].spec.rate = 0;
    CHECK(cpay_session_new(&session, &right, formats, 2, NULL, 0, NULL, 0) == CPAY_INVALID);
    CHECK(cpay_session_new(&session, &right, NULL, 1, NULL, 0, NULL, 0) == CPAY_INVALID);
    CHECK(cpay_session_new(&session, &right, FORMATS, 2, NULL, 1, NULL, 0) == CPAY_INVALID);
    CHECK(cpay_session_new(&session, &right, FORMATS, 2, NULL, 0, NULL, 1) == CPAY_INVALID);
    CHECK(cpay_session_new(&session, &right, NULL, 0, NULL, 0, NULL, 0) == CPAY_OK);
    CHECK(cpay_session_new(&session, &right, FORMATS, 2, NULL, 0, NULL, 0) == CPAY_FULL);
    CHECK(sent(&session, 0, AUDIO, 1, 1, "x", 1).kind == CPAY_ARRIVAL_UNKNOWN);
    cpay_session_free(&session);
    /* without RED and retransmissions their numbers are ignored */
    formats[0] = FORMATS[0];
    formats[0].has_red = formats[0].has_rtx = false;
    formats[0].red_payload_type = formats[0].rtx_payload_type = formats[0].red_rtx_payload_type = 255;
    CHECK(cpay_session_new(&session, &right, formats, 1, NO_MEDIA, 1, PAIRS, 1) == CPAY_OK);
    cpay_session_free(&session);
    for (int without = 0; without < 3; without++) {
        formats[0] = FORMATS[0];
        if (without == 0) formats[0].has_red_rtx = false;
        if (without == 1) formats[0].has_rtx = false;
        if (without == 2) formats[0].has_red = false;
        formats[0].red_rtx_payload_type = 255;
        CHECK(cpay_session_new(&session, &right, formats, 1, NO_MEDIA, 1, PAIRS, 1) == CPAY_OK);
        cpay_session_free(&session);
    }
}

/* A retransmitted RED packet (RFC 4588 over RFC 2198): the original number, then the RED payload, under the payload type whose
 * `apt` is that of RED. Number 4 repeats number 3; both are lost. A format that names no such payload type does not know it. */
static void redundant_again(void) {
    static const uint8_t original[] = {0, 4, 0xef, 0x0f, 0, 1, 0x6f, 3, 4};
    cpay_session_settings live_settings;
    cpay_session_settings_init(&live_settings, CPAY_FOR_LIVE);
    cpay_session session = live();
    opus(&session, 0, 1, 1);
    opus(&session, 0, 1, 2);
    opus(&session, 20, 1, 5);
    CHECK(happens(&session, 20, "B1:111 U1:1 U1:2 ."));
    cpay_arrival it = sent(&session, 40, RED_RTX, 9, 4, original, sizeof original);
    CHECK(it.kind == CPAY_ARRIVAL_STREAM && it.ssrc == 1 && it.payload_type == AUDIO);
    CHECK(it.status == CPAY_OK && it.outcome == CPAY_HELD);
    CHECK(happens(&session, 40, "U1:3 U1:4 U1:5 ."));
    it = sent(&session, 50, RED_RTX, 9, 4, original, 1);
    CHECK(it.kind == CPAY_ARRIVAL_STREAM && it.status == CPAY_RTX_TOO_SHORT);
    it = sent(&session, 50, RED_RTX, 9, 4, original, 3);
    CHECK(it.kind == CPAY_ARRIVAL_STREAM && it.status == CPAY_RED_CORRUPTED);
    CHECK(sent(&session, 50, RED_RTX, 8, 4, original, sizeof original).kind == CPAY_ARRIVAL_UNASSOCIATED);
    CHECK(counts_of(&session).unknown == 0);
    cpay_session_free(&session);
    for (int without = 0; without < 2; without++) {
        cpay_session_format format = FORMATS[0];
        if (without == 0) format.has_red_rtx = false;
        else format.has_rtx = false;
        CHECK(cpay_session_new(&session, &live_settings, &format, 1, NULL, 0, PAIRS, 1) == CPAY_OK);
        opus(&session, 0, 1, 1);
        CHECK(sent(&session, 0, RED_RTX, 9, 4, original, sizeof original).kind == CPAY_ARRIVAL_UNKNOWN);
        cpay_session_free(&session);
    }
}

/* Calls on handles that are empty or of another type, which change no output. */
static void handles(void) {
    any it = ANY_INIT;
    cpay_session_settings right;
    cpay_session_settings_init(&right, CPAY_FOR_LIVE);
    cpay_receiver_settings receives;
    cpay_receiver_settings_init(&receives, CPAY_OPUS, 48000, AUDIO, CPAY_FOR_LIVE);
    cpay_arrival arrival = {.kind = 7};
    cpay_event event = {.kind = 7};
    cpay_extension_values values = {.audio_level = 7};
    cpay_session_counts_info counts = {.rtcp = 7};
    cpay_session_stream stream = {.ssrc = 7};
    cpay_wait_limits limits = {.hold_back = 1};
    cpay_report_block_info block = {.ssrc = 7};
    cpay_sender_clock_info clock = {.rtp_time = 7};
    cpay_stream_names told = {.mid_len = 7};
    uint8_t bytes[4] = {7, 7, 7, 7};
    uint64_t at = 7, numbers[1] = {7};
    cpay_outcome outcome = (cpay_outcome)7;
    size_t count = 7;
    bool wants = true;
    cpay_keyframe_answer answer = (cpay_keyframe_answer)7;
    receives.spec = FORMATS[0].spec;
    for (int kind = 0; kind < 2; kind++) {
        cpay_status status = kind == 0 ? CPAY_EMPTY : CPAY_OTHER_KIND;
        if (kind == 1) CHECK(cpay_receiver_new(&it.receiver, &receives, NULL, 0) == CPAY_OK);
        CHECK(cpay_session_receive(&it.session, 0, bytes, 4, &arrival) == status);
        CHECK(cpay_session_poll(&it.session, 0, &event) == status);
        CHECK(cpay_session_values(&it.session, &values) == status);
        CHECK(cpay_session_next_deadline(&it.session, &at) == status);
        CHECK(cpay_session_end(&it.session, 0, 1) == status);
        CHECK(cpay_session_finish(&it.session, 0) == status);
        CHECK(cpay_session_counts(&it.session, &counts) == status);
        CHECK(cpay_session_stream_at(&it.session, 0, &stream) == status);
        CHECK(cpay_session_last_stream(&it.session, &stream) == status);
        CHECK(cpay_session_missing(&it.session, 1, AUDIO, numbers, 1, &count) == status);
        CHECK(cpay_session_wants_keyframe(&it.session, 1, AUDIO, &wants) == status);
        CHECK(cpay_session_set_wait_limits(&it.session, 1, AUDIO, &limits) == status);
        CHECK(cpay_session_set_round_trip(&it.session, 1, AUDIO, 160) == status);
        CHECK(cpay_session_add_pair(&it.session, 1, 9) == status);
        CHECK(cpay_session_remove_pair(&it.session, 1) == status);
        CHECK(cpay_session_request_keyframe(&it.session, 1, &answer) == status && (int)answer == 7);
        CHECK(cpay_session_set_formats(&it.session, 0, FORMATS, 2) == status);
        CHECK(cpay_session_report(&it.session, 0, 1, AUDIO, &block) == status);
        CHECK(cpay_session_peek_report(&it.session, 0, 1, AUDIO, &block) == status);
        CHECK(cpay_session_sender_clock(&it.session, 1, AUDIO, &clock) == status);
        CHECK(cpay_session_names(&it.session, 1, AUDIO, &told) == status);
    }
    CHECK(told.mid_len == 7);
    CHECK(block.ssrc == 7 && clock.rtp_time == 7);
    CHECK(arrival.kind == 7 && event.kind == 7 && values.audio_level == 7 && at == 7 && counts.rtcp == 7 && stream.ssrc == 7);
    CHECK(same(bytes, "\7\7\7\7", 4) && numbers[0] == 7 && count == 7 && wants);
    CHECK(cpay_session_new(&it.session, &right, FORMATS, 2, NULL, 0, NULL, 0) == CPAY_FULL);
    cpay_session_free(&it.session);
    cpay_session_free(NULL);
    CHECK(cpay_session_new(&it.session, &right, FORMATS, 2, NULL, 0, NULL, 0) == CPAY_OK);
    CHECK(cpay_receiver_receive(&it.receiver, 0, bytes, 4, &outcome) == CPAY_OTHER_KIND && outcome == 7);
    cpay_session_free(&it.session);
}

int main(void) {
    two_senders();
    ends();
    losses();
    pairs();
    change_of_format();
    formats_that_change();
    requests();
    round_trips();
    keyframes_for_others();
    sent_reports();
    extended_reports();
    turns();
    transports();
    redundant();
    redundant_again();
    telephone();
    video();
    names();
    descriptors();
    reports();
    lent();
    values_and_places();
    large_unit();
    settings();
    faults_of_settings();
    handles();
    return checked();
}

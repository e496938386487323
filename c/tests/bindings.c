/* codec_payload_bindings.h: texts, names, and objects that the library allocates. */
#include "codec_payload_bindings.h"
#include "check.h"

/* Each text is that of the inline function, for each number and beyond the last. */
static void texts(void) {
    for (uint32_t i = 0; i < 300; i++) {
        CHECK(strcmp(cpay_text_of_status(i), cpay_status_text((cpay_status)i)) == 0);
        CHECK(strcmp(cpay_text_of_ending(i), cpay_ending_text((cpay_ending)i)) == 0);
        CHECK(strcmp(cpay_text_of_settings_fault(i), cpay_settings_fault_text((cpay_settings_fault_kind)i)) == 0);
        CHECK(strcmp(cpay_text_of_sdp_error(i), cpay_sdp_error_text((cpay_sdp_error)i)) == 0);
        CHECK(strcmp(cpay_text_of_sdp_session_error(i), cpay_sdp_session_error_text((cpay_sdp_session_error)i)) == 0);
    }
    CHECK(strcmp(cpay_text_of_status(17), "out of memory") == 0);
    CHECK(strcmp(cpay_text_of_status(UINT32_MAX), "unknown status") == 0);
}

/* The statuses that a malformed datagram causes, and their neighbours. */
static void datagrams(void) {
    for (uint32_t i = 0; i < 300; i++) CHECK(cpay_status_is_of_datagram(i) == (i == 14 || (i >= 42 && i <= 73) || (i >= 78 && i <= 86)));
    uint8_t red[] = {0x80, 63, 0, 1, 0, 0, 0, 1, 0, 0, 0, 7, 0x80}; /* a block header of RED that ends after a byte */
    cpay_receiver_settings settings;
    cpay_outcome outcome = CPAY_HELD;
    cpay_receiver *receiver = NULL;
    cpay_receiver_settings_init(&settings, CPAY_OPUS, 48000, 111, CPAY_FOR_LIVE);
    settings.has_red = true;
    settings.red_payload_type = 63;
    settings.red_step = 960;
    CHECK(cpay_receiver_create(&receiver, &settings, NULL, 0) == CPAY_OK && receiver);
    CHECK(cpay_status_is_of_datagram(cpay_receiver_receive(receiver, 0, (const uint8_t *)"hello", 5, &outcome)));
    CHECK(cpay_status_is_of_datagram(cpay_receiver_receive(receiver, 0, red, sizeof red, &outcome)));
    CHECK(!cpay_status_is_of_datagram(cpay_receiver_new(receiver, &settings, NULL, 0)));
    cpay_receiver_destroy(receiver);
}

/* Names as SDP has them (RFC 7587, RFC 3551, RFC 4867, RFC 4733, RFC 3389, RFC 7741, RFC 9628, the RTP format of AV1). */
static void names(void) {
    static const struct {
        const char *name;
        cpay_codec codec;
        uint32_t rate;
    } rows[] = {{"opus", CPAY_OPUS, 48000}, {"PCMU", CPAY_PCMU, 8000}, {"PCMA", CPAY_PCMA, 8000}, {"G722", CPAY_G722, 8000},
                {"AMR-WB", CPAY_AMR_WB, 16000}, {"CN", CPAY_CN, 8000}, {"telephone-event", CPAY_TELE, 8000}, {"VP8", CPAY_VP8, 90000},
                {"VP9", CPAY_VP9, 90000}, {"AV1", CPAY_AV1, 90000}};
    cpay_spec spec = {0};
    for (size_t i = 0; i < sizeof rows / sizeof *rows; i++) {
        spec = (cpay_spec){.first_id = 9, .octet_align = true, .vp8_ids = true, .vp9_flexible = true};
        CHECK(cpay_format_by_name(rows[i].name, strlen(rows[i].name), 0, &spec) == CPAY_OK);
        CHECK(spec.codec == rows[i].codec && spec.rate == rows[i].rate);
        CHECK(spec.first_id == 0 && !spec.octet_align && !spec.vp8_ids && !spec.vp9_flexible);
        CHECK(strcmp(cpay_codec_name((uint32_t)rows[i].codec), rows[i].name) == 0);
    }
    CHECK(cpay_format_by_name("TELEPHONE-event/48000", 15, 48000, &spec) == CPAY_OK);
    CHECK(spec.codec == CPAY_TELE && spec.rate == 48000);
    CHECK(cpay_format_by_name("red", 3, 0, &spec) == CPAY_NONE && cpay_format_by_name("H264", 4, 0, &spec) == CPAY_NONE);
    CHECK(cpay_format_by_name("", 0, 0, &spec) == CPAY_NONE && cpay_format_by_name(NULL, 0, 0, &spec) == CPAY_INVALID);
    CHECK(spec.codec == CPAY_TELE && spec.rate == 48000);
    CHECK(!cpay_codec_name(CPAY_NULL) && !cpay_codec_name(6) && !cpay_codec_name(UINT32_MAX));
}

/* Objects of three kinds: created, used by their pointers, destroyed; and one whose settings are refused. */
static void objects(void) {
    static uint8_t frame[3000], bytes[1500];
    cpay_spec vp8 = {.codec = CPAY_VP8, .rate = 90000}, wrong = {.codec = CPAY_VP8, .rate = 0};
    cpay_sender_settings sends = {.spec = vp8, .mtu = 1200, .ssrc = 7, .payload_type = 96};
    cpay_session_settings settings;
    cpay_session_format format = {.spec = vp8, .payload_type = 96};
    cpay_sender *sender = NULL;
    cpay_session *session = NULL;
    cpay_depacketizer *depacketizer = NULL;
    cpay_arrival arrival = {0};
    size_t count = 0, size = 0;
    cpay_session_settings_init(&settings, CPAY_FOR_LIVE);
    CHECK(cpay_depacketizer_create(&depacketizer, &wrong) == CPAY_INVALID && !depacketizer);
    CHECK(cpay_sender_create(&sender, &sends) == CPAY_OK && cpay_session_create(&session, &settings, &format, 1, NULL, 0, NULL, 0) == CPAY_OK);
    CHECK(cpay_sender_send(sender, 3000, false, frame, sizeof frame, &count) == CPAY_OK && count == 3);
    for (size_t i = 0; i < count; i++) {
        CHECK(cpay_sender_datagram(sender, i, bytes, sizeof bytes, &size) == CPAY_OK);
        CHECK(cpay_session_receive(session, 1, bytes, size, &arrival) == CPAY_OK && arrival.kind == CPAY_ARRIVAL_STREAM);
    }
    cpay_sender_destroy(sender);
    cpay_session_destroy(session);
    cpay_depacketizer_destroy(NULL);
}

/* Each datagram with the unit that it completes, beside a receiver that gets the two calls apart. The third datagram of each frame comes
 * before the second. */
static void taking(void) {
    static uint8_t frame[3000], bytes[1500];
    static const size_t order[] = {0, 2, 1};
    const cpay_spec vp8 = {.codec = CPAY_VP8, .rate = 90000};
    const cpay_sender_settings sends = {.spec = vp8, .mtu = 1200, .ssrc = 7, .payload_type = 96};
    cpay_receiver_settings receives;
    cpay_sender *sender = NULL;
    cpay_receiver *together = NULL, *apart = NULL;
    cpay_status received = CPAY_NONE;
    cpay_outcome outcome = CPAY_DUPLICATE, other = CPAY_DUPLICATE;
    cpay_unit unit = {0}, other_unit = {0};
    const uint8_t *at = NULL, *other_at = NULL;
    size_t count = 0, size = 0, units = 0;
    cpay_receiver_settings_init(&receives, CPAY_VP8, 90000, 96, CPAY_FOR_LIVE);
    CHECK(cpay_sender_create(&sender, &sends) == CPAY_OK && cpay_receiver_create(&together, &receives, NULL, 0) == CPAY_OK);
    CHECK(cpay_receiver_create(&apart, &receives, NULL, 0) == CPAY_OK);
    for (unsigned i = 0; i < 30; i++) {
        for (size_t k = 10; k < sizeof frame; k++) frame[k] = (uint8_t)(k * 7 + i);
        CHECK(cpay_sender_send(sender, 3000 * i, false, frame, sizeof frame, &count) == CPAY_OK && count == 3);
        for (size_t k = 0; k < count; k++) {
            CHECK(cpay_sender_datagram(sender, order[k], bytes, sizeof bytes, &size) == CPAY_OK);
            if (k == 0 && i % 5 == 4) size = 5; /* a lost datagram, in whose place other bytes come */
            const cpay_status status = cpay_receiver_take(together, 33 * i, bytes, size, &received, &outcome, &unit, &at);
            CHECK(received == cpay_receiver_receive(apart, 33 * i, bytes, size, &other) && outcome == other);
            CHECK(received == (size == 5 ? CPAY_RTP_HEADER_TOO_SHORT : CPAY_OK));
            CHECK(status == cpay_receiver_lend(apart, 33 * i, &other_unit, &other_at));
            if (status == CPAY_OK) {
                units++;
                CHECK(unit.first == other_unit.first && unit.last == other_unit.last && unit.bytes == other_unit.bytes);
                CHECK(unit.bytes == sizeof frame && !memcmp(at, other_at, unit.bytes));
            }
        }
    }
    CHECK(units > 10);
    cpay_sender_destroy(sender);
    cpay_receiver_destroy(together);
    cpay_receiver_destroy(apart);
}

int main(void) {
    taking();
    texts();
    datagrams();
    names();
    objects();
    return checked();
}

/* Histories of sent packets: by RFC 4588, section 4, and as they were; and requests, by the figures of RFC 4585 and RFC 5104. The
 * bytes were written by hand after the figures. */
#include "any.h"
#include "check.h"
#include "codec_payload.h"

enum { UNTOUCHED = 0xaa };

/* The marker, payload type 96, number 0x1234, time 0x01020304, SSRC 0x05060708, a CSRC, an extension of one word, and four bytes of
 * padding after the payload "abc". */
static const uint8_t PACKET[31] = {0xb1, 0xe0, 0x12, 0x34, 1,    2,    3, 4, 5,   6,   7,   8, 9, 9, 9, 9,
                                   0xbe, 0xde, 0,    1,    0x10, 0x42, 0, 0, 'a', 'b', 'c', 0, 0, 0, 4};

/* Its retransmission: the SSRC, the payload type and the number are those of the retransmissions, all other fields are the
 * packet's, the number 0x1234 is in front of the payload, and the padding is gone. */
static const uint8_t AGAIN[29] = {0x91, 0xe1, 0xff, 0xff, 1,    2,    3, 4, 7,    8,    9,   10,  9,  9, 9, 9,
                                  0xbe, 0xde, 0,    1,    0x10, 0x42, 0, 0, 0x12, 0x34, 'a', 'b', 'c'};

static const cpay_history_settings AS_IT_WAS = {.limit = 3, .interval = 100};
static const cpay_history_settings AS_RTX = {.limit = 3, .interval = 100, .rtx_ssrc = 0x0708090a, .rtx_first_number = 0xffff,
                                             .rtx_payload_type = 97, .has_rtx = true};

/* A call with its outputs. */
typedef struct {
    uint8_t bytes[64];
    size_t size;
    cpay_resent resent;
} output;

static cpay_status resend(cpay_history *history, uint64_t now, uint16_t number, size_t room, output *to) {
    memset(to->bytes, UNTOUCHED, sizeof to->bytes);
    to->size = 7;
    to->resent = 9;
    return cpay_history_resend(history, now, number, to->bytes, room, &to->size, &to->resent);
}

static bool is_untouched(const output *it, size_t from) {
    for (size_t i = from; i < sizeof it->bytes; i++)
        if (it->bytes[i] != UNTOUCHED) return false;
    return true;
}

static bool wrote(const output *it, const uint8_t *bytes, size_t size) {
    return it->resent == CPAY_RESENT_WRITTEN && it->size == size && !memcmp(it->bytes, bytes, size) && is_untouched(it, size);
}

static bool wrote_nothing(const output *it, uint32_t resent) {
    return it->resent == resent && it->size == 0 && is_untouched(it, 0);
}

/* The smallest packet with that number. */
static cpay_status keep(cpay_history *history, uint16_t number) {
    const uint8_t packet[12] = {0x80, 96, (uint8_t)(number >> 8), (uint8_t)number, 0, 0, 0, 0, 0, 0, 0, 7};
    return cpay_history_keep(history, packet, sizeof packet, NULL);
}

/* Whether the call answers this. */
static bool keep_as(cpay_history *history, uint16_t number, uint32_t wanted) {
    const uint8_t packet[12] = {0x80, 96, (uint8_t)(number >> 8), (uint8_t)number, 0, 0, 0, 0, 0, 0, 0, 7};
    cpay_kept kept = (cpay_kept)9;
    return cpay_history_keep(history, packet, sizeof packet, &kept) == CPAY_OK && kept == wanted;
}

/* Both ways, too soon, and memory that is too small: nothing is spent then, so that the next call writes the same number. */
static void resent(void) {
    cpay_history history = CPAY_INIT;
    output to;
    CHECK(cpay_history_new(&history, &AS_IT_WAS) == CPAY_OK && cpay_history_keep(&history, PACKET, sizeof PACKET, NULL) == CPAY_OK);
    CHECK(resend(&history, 50, 0x1234, 30, &to) == CPAY_TOO_SMALL);
    CHECK(to.size == 31 && to.resent == 9 && is_untouched(&to, 0));
    CHECK(resend(&history, 50, 0x1234, 31, &to) == CPAY_OK && wrote(&to, PACKET, sizeof PACKET));
    CHECK(resend(&history, 149, 0x1234, 0, &to) == CPAY_OK && wrote_nothing(&to, CPAY_RESENT_TOO_SOON));
    CHECK(resend(&history, 0, 0x1234, 64, &to) == CPAY_OK && wrote_nothing(&to, CPAY_RESENT_TOO_SOON));
    CHECK(resend(&history, 149, 0x1235, 64, &to) == CPAY_OK && wrote_nothing(&to, CPAY_RESENT_NOT_KEPT));
    CHECK(resend(&history, 150, 0x1234, 64, &to) == CPAY_OK && wrote(&to, PACKET, sizeof PACKET));
    cpay_history_free(&history);

    CHECK(cpay_history_new(&history, &AS_RTX) == CPAY_OK && cpay_history_keep(&history, PACKET, sizeof PACKET, NULL) == CPAY_OK);
    for (size_t room = 0; room < 29; room++) {
        CHECK(resend(&history, 0, 0x1234, room, &to) == CPAY_TOO_SMALL);
        CHECK(to.size == 29 && to.resent == 9 && is_untouched(&to, 0));
    }
    to.size = 7;
    CHECK(cpay_history_resend(&history, 0, 0x1234, NULL, 0, &to.size, &to.resent) == CPAY_TOO_SMALL && to.size == 29);
    CHECK(resend(&history, 0, 0x1234, 29, &to) == CPAY_OK && wrote(&to, AGAIN, sizeof AGAIN));
    /* the next one has the next number, which wraps */
    CHECK(resend(&history, 99, 0x1234, 64, &to) == CPAY_OK && wrote_nothing(&to, CPAY_RESENT_TOO_SOON));
    CHECK(resend(&history, 100, 0x1234, 64, &to) == CPAY_OK && to.size == 29 && to.bytes[2] == 0 && to.bytes[3] == 0);
    cpay_history_free(&history);
}

/* The last packets are kept, over the wrap of numbers. A number that is `limit` or more above the highest one removes all others. */
static void kept(void) {
    cpay_history history = CPAY_INIT;
    output to;
    CHECK(cpay_history_new(&history, &AS_IT_WAS) == CPAY_OK);
    CHECK(resend(&history, 0, 0, 64, &to) == CPAY_OK && wrote_nothing(&to, CPAY_RESENT_NOT_KEPT));
    for (uint32_t number = 65533; number < 65540; number++) CHECK(keep(&history, (uint16_t)number) == CPAY_OK);
    for (uint16_t number = 1; number < 4; number++) {
        CHECK(resend(&history, 0, number, 64, &to) == CPAY_OK && to.resent == CPAY_RESENT_WRITTEN);
        CHECK(to.size == 12 && to.bytes[2] == 0 && to.bytes[3] == number);
    }
    CHECK(resend(&history, 0, 0, 64, &to) == CPAY_OK && wrote_nothing(&to, CPAY_RESENT_NOT_KEPT));
    CHECK(resend(&history, 0, 4, 64, &to) == CPAY_OK && wrote_nothing(&to, CPAY_RESENT_NOT_KEPT));
    CHECK(keep(&history, 9) == CPAY_OK);
    CHECK(resend(&history, 500, 3, 64, &to) == CPAY_OK && wrote_nothing(&to, CPAY_RESENT_NOT_KEPT));
    CHECK(resend(&history, 500, 9, 64, &to) == CPAY_OK && to.resent == CPAY_RESENT_WRITTEN && to.bytes[3] == 9);
    /* not RTP packets: nothing changes */
    CHECK(cpay_history_keep(&history, PACKET, 11, NULL) == CPAY_RTP_HEADER_TOO_SHORT);
    CHECK(cpay_history_keep(&history, NULL, 0, NULL) == CPAY_RTP_HEADER_TOO_SHORT);
    CHECK(cpay_history_keep(&history, NULL, 12, NULL) == CPAY_INVALID);
    CHECK(cpay_history_keep(&history, (const uint8_t *)"............", 12, NULL) == CPAY_RTP_VERSION);
    CHECK(cpay_history_keep(&history, PACKET, 15, NULL) == CPAY_RTP_CSRCS_TOO_SHORT);
    CHECK(resend(&history, 600, 9, 64, &to) == CPAY_OK && to.resent == CPAY_RESENT_WRITTEN);
    cpay_history_free(&history);
}

/* Packets in the order in which a forwarder gets them; the one whose number is too old, and the sender that restarts behind it. */
static void any_order(void) {
    static const uint8_t ORDER[] = {1, 2, 4, 5, 3, 6};
    cpay_history_settings settings = AS_IT_WAS;
    cpay_history history = CPAY_INIT;
    output to;
    settings.limit = 10;
    CHECK(cpay_history_new(&history, &settings) == CPAY_OK);
    for (size_t i = 0; i < sizeof ORDER; i++) CHECK(keep_as(&history, ORDER[i], CPAY_KEPT_STORED));
    for (uint16_t number = 1; number <= 6; number++)
        CHECK(resend(&history, 0, number, 64, &to) == CPAY_OK && to.resent == CPAY_RESENT_WRITTEN && to.bytes[3] == number);
    CHECK(resend(&history, 0, 7, 64, &to) == CPAY_OK && wrote_nothing(&to, CPAY_RESENT_NOT_KEPT));
    CHECK(keep_as(&history, 65532, CPAY_KEPT_TOO_OLD)); /* ten below 6 */
    CHECK(resend(&history, 200, 6, 64, &to) == CPAY_OK && to.resent == CPAY_RESENT_WRITTEN);
    CHECK(keep_as(&history, 40000, CPAY_KEPT_TOO_OLD));
    CHECK(keep_as(&history, 40001, CPAY_KEPT_STORED)); /* the sender has restarted */
    CHECK(resend(&history, 400, 6, 64, &to) == CPAY_OK && wrote_nothing(&to, CPAY_RESENT_NOT_KEPT));
    CHECK(resend(&history, 400, 40001, 64, &to) == CPAY_OK && to.resent == CPAY_RESENT_WRITTEN);
    cpay_history_free(&history);
}

/* Settings out of range, and handles that are empty, in use or of another type. */
static void refusals(void) {
    any it = ANY_INIT;
    cpay_history_settings settings = AS_RTX;
    const cpay_spec opus = {.codec = CPAY_OPUS, .rate = 48000};
    output to;
    settings.limit = 0;
    CHECK(cpay_history_new(&it.history, &settings) == CPAY_INVALID);
    settings.limit = CPAY_MAX_HISTORY + 1;
    CHECK(cpay_history_new(&it.history, &settings) == CPAY_INVALID);
    settings.limit = CPAY_MAX_HISTORY;
    settings.rtx_payload_type = 128;
    CHECK(cpay_history_new(&it.history, &settings) == CPAY_INVALID);
    CHECK(cpay_history_keep(&it.history, PACKET, sizeof PACKET, NULL) == CPAY_EMPTY);
    CHECK(resend(&it.history, 0, 0x1234, 64, &to) == CPAY_EMPTY && to.size == 7 && to.resent == 9 && is_untouched(&to, 0));
    settings.has_rtx = false; /* the payload type of retransmissions is ignored */
    CHECK(cpay_history_new(&it.history, &settings) == CPAY_OK);
    CHECK(cpay_history_new(&it.history, &AS_RTX) == CPAY_FULL);
    CHECK(cpay_history_keep(&it.history, PACKET, sizeof PACKET, NULL) == CPAY_OK);
    CHECK(resend(&it.history, 0, 0x1234, 64, &to) == CPAY_OK && wrote(&to, PACKET, sizeof PACKET));
    CHECK(cpay_history_resend(&it.history, 0, 0x1234, NULL, 1, &to.size, &to.resent) == CPAY_INVALID);
    CHECK(cpay_depacketize(&it.depacketizer, PACKET, 1) == CPAY_OTHER_KIND);
    cpay_history_free(&it.history);
    cpay_history_free(&it.history);
    cpay_history_free(NULL);
    CHECK(cpay_depacketizer_new(&it.depacketizer, &opus) == CPAY_OK);
    CHECK(cpay_history_keep(&it.history, PACKET, sizeof PACKET, NULL) == CPAY_OTHER_KIND);
    CHECK(resend(&it.history, 0, 0x1234, 64, &to) == CPAY_OTHER_KIND && to.size == 7 && to.resent == 9);
    CHECK(cpay_history_new(&it.history, &AS_RTX) == CPAY_FULL);
    cpay_history_free(&it.history);
    CHECK(!it.history.handle.full);
}

/* An empty receiver report; a NACK for source 7 with PID 0xfffe and the bits of the second and the last number after it, and PID 5
 * alone; a PLI for source 7; a FIR for sources 8 and 7; a NACK and a PLI for source 8; a NACK for source 6; a BYE of nobody. */
static const uint8_t FEEDBACK[116] = {
    0x80, 201, 0, 1, 0, 0, 0, 1,
    0x81, 205, 0, 4, 0, 0, 0, 1, 0, 0, 0, 7, 0xff, 0xfe, 0x80, 0x02, 0, 5, 0, 0,
    0x81, 206, 0, 2, 0, 0, 0, 1, 0, 0, 0, 7,
    0x84, 206, 0, 6, 0, 0, 0, 1, 0, 0, 0, 0, 0, 0, 0, 8, 3, 0, 0, 0, 0, 0, 0, 7, 4, 0, 0, 0,
    0x81, 205, 0, 3, 0, 0, 0, 1, 0, 0, 0, 8, 0, 1, 0, 0,
    0x81, 206, 0, 2, 0, 0, 0, 1, 0, 0, 0, 8,
    0x81, 205, 0, 3, 0, 0, 0, 1, 0, 0, 0, 6, 0, 3, 0xff, 0xff,
    0x80, 203, 0, 0,
};

/* What a call for one source found. */
typedef struct {
    uint16_t numbers[20];
    size_t count;
    bool wants_keyframe;
} request;

static cpay_status read(const uint8_t *rtcp, size_t size, uint32_t ssrc, bool full, size_t room, request *to) {
    for (size_t i = 0; i < 20; i++) to->numbers[i] = UNTOUCHED;
    to->count = 99;
    return cpay_read_requests(rtcp, size, ssrc, full, to->numbers, room, &to->count, &to->wants_keyframe);
}

static void requests(void) {
    static const uint16_t of_seven[4] = {0xfffe, 0, 14, 5};
    request it = {.wants_keyframe = false};
    CHECK(read(FEEDBACK, sizeof FEEDBACK, 7, true, 20, &it) == CPAY_OK && it.count == 4 && it.wants_keyframe);
    CHECK(!memcmp(it.numbers, of_seven, sizeof of_seven) && it.numbers[4] == UNTOUCHED);
    /* as many as fit, and how many there are */
    it.wants_keyframe = false;
    CHECK(read(FEEDBACK, sizeof FEEDBACK, 7, false, 2, &it) == CPAY_OK && it.count == 4 && it.wants_keyframe);
    CHECK(it.numbers[0] == 0xfffe && it.numbers[1] == 0 && it.numbers[2] == UNTOUCHED);
    CHECK(cpay_read_requests(FEEDBACK, sizeof FEEDBACK, 7, false, NULL, 0, &it.count, &it.wants_keyframe) == CPAY_OK);
    CHECK(it.count == 4);
    CHECK(read(FEEDBACK, sizeof FEEDBACK, 8, true, 20, &it) == CPAY_OK && it.count == 1 && it.numbers[0] == 1);
    CHECK(it.wants_keyframe && it.numbers[1] == UNTOUCHED);
    /* all sixteen bits, and no keyframe */
    CHECK(read(FEEDBACK, sizeof FEEDBACK, 6, true, 20, &it) == CPAY_OK && it.count == 17 && !it.wants_keyframe);
    for (uint16_t i = 0; i < 17; i++) CHECK(it.numbers[i] == 3 + i);
    CHECK(it.numbers[17] == UNTOUCHED);
    CHECK(read(FEEDBACK, sizeof FEEDBACK, 9, true, 20, &it) == CPAY_OK && it.count == 0 && !it.wants_keyframe);
    CHECK(it.numbers[0] == UNTOUCHED);
}

/* A packet with a fault anywhere requests nothing, and each fault has its status. */
static void faults(void) {
    static const struct {
        size_t size;
        bool full;
        cpay_status status;
        uint8_t bytes[28];
    } wrong[] = {
        {0, false, CPAY_RTCP_HEADER_TOO_SHORT, {0}},
        {3, false, CPAY_RTCP_HEADER_TOO_SHORT, {0x80, 201, 0}},
        {8, false, CPAY_RTCP_VERSION, {0x40, 201, 0, 1, 0, 0, 0, 1}},
        {12, true, CPAY_RTCP_FIRST_NOT_REPORT, {0x81, 206, 0, 2, 0, 0, 0, 1, 0, 0, 0, 7}},
        {8, false, CPAY_RTCP_PACKET_TOO_SHORT, {0x80, 201, 0, 2, 0, 0, 0, 1}},
        {16, false, CPAY_RTCP_PADDING_NOT_LAST, {0xa0, 201, 0, 1, 0, 0, 0, 4, 0x80, 201, 0, 1, 0, 0, 0, 1}},
        {12, false, CPAY_RTCP_PADDING_OF_ZERO, {0xa0, 201, 0, 2, 0, 0, 0, 1, 0, 0, 0, 0}},
        {12, false, CPAY_RTCP_PADDING_TOO_LONG, {0xa0, 201, 0, 2, 0, 0, 0, 1, 0, 0, 0, 12}},
        {8, false, CPAY_RTCP_REPORT_TOO_SHORT, {0x81, 201, 0, 1, 0, 0, 0, 1}},
        {4, false, CPAY_RTCP_CHUNK_TOO_SHORT, {0x81, 202, 0, 0}},
        {12, false, CPAY_RTCP_ITEMS_TOO_SHORT, {0x81, 202, 0, 2, 0, 0, 0, 1, 1, 9, 'a', 'b'}},
        {4, false, CPAY_RTCP_BYE_TOO_SHORT, {0x81, 203, 0, 0}},
        {12, false, CPAY_RTCP_REASON_TOO_SHORT, {0x81, 203, 0, 2, 0, 0, 0, 1, 9, 'a', 'b', 'c'}},
        {8, false, CPAY_RTCP_FEEDBACK_TOO_SHORT, {0x81, 205, 0, 1, 0, 0, 0, 1}},
        {12, false, CPAY_RTCP_NACK_LENGTH, {0x81, 205, 0, 2, 0, 0, 0, 1, 0, 0, 0, 7}},
        {16, false, CPAY_RTCP_PLI_LENGTH, {0x81, 206, 0, 3, 0, 0, 0, 1, 0, 0, 0, 7, 0, 0, 0, 0}},
        {16, false, CPAY_RTCP_FIR_LENGTH, {0x84, 206, 0, 3, 0, 0, 0, 1, 0, 0, 0, 0, 0, 0, 0, 7}},
    };
    request it = {.wants_keyframe = true};
    for (size_t i = 0; i < sizeof wrong / sizeof *wrong; i++) {
        CHECK(read(wrong[i].bytes, wrong[i].size, 7, wrong[i].full, 20, &it) == wrong[i].status);
        CHECK(it.numbers[0] == UNTOUCHED && it.count == 99 && it.wants_keyframe);
        CHECK(strcmp(cpay_status_text(wrong[i].status), "unknown status") != 0);
    }
    CHECK(read(FEEDBACK, sizeof FEEDBACK - 1, 7, true, 20, &it) == CPAY_RTCP_HEADER_TOO_SHORT && it.count == 99);
    CHECK(read(NULL, 0, 7, true, 20, &it) == CPAY_RTCP_HEADER_TOO_SHORT);
    CHECK(read(NULL, 1, 7, true, 20, &it) == CPAY_INVALID);
    CHECK(cpay_read_requests(FEEDBACK, sizeof FEEDBACK, 7, true, NULL, 1, &it.count, &it.wants_keyframe) == CPAY_INVALID);
    CHECK(read(FEEDBACK + 8, sizeof FEEDBACK - 8, 7, false, 20, &it) == CPAY_OK && it.count == 4);
}

int main(void) {
    resent();
    kept();
    any_order();
    refusals();
    requests();
    faults();
    return checked();
}

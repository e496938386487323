/* The path to a viewer, a limit of retransmissions alone, and the rate that is offered to a publisher. The times follow from the rates by
 * hand; the feedback was written by hand after draft-holmer-rmcat-transport-wide-cc-extensions-01. */
#include "check.h"
#include "codec_payload.h"

enum { UNTOUCHED = 0xaa, SSRC = 7, SENDER = 1 };

/* Memory for a handle of either type, since after a cast a handle of one type may reach a call of the other. */
typedef union {
    cpay_path path;
    cpay_resend_limit limit;
    cpay_rate_offer offer;
} either;

#define EITHER_INIT { CPAY_INIT }

/* A path of 800 kbit/s, 100 bytes each millisecond, from which 1,000 bytes may leave at once. */
static cpay_path path_of(uint64_t bound) {
    cpay_path path = CPAY_INIT;
    cpay_path_settings settings;
    cpay_path_settings_init(&settings);
    settings.start = 800000;
    settings.burst = 1000;
    settings.bound = bound;
    CHECK(cpay_path_new(&path, 0, &settings) == CPAY_OK);
    return path;
}

static cpay_status pushes(cpay_path *path, cpay_path_kind kind, uint32_t size, uint64_t id) {
    const cpay_path_packet packet = {.id = id, .size = size, .kind = kind};
    return cpay_path_push(path, &packet);
}

/* Whether the packet that leaves now has this name, kind and number. */
static bool leaves(cpay_path *path, uint64_t now, uint64_t id, cpay_path_kind kind, uint16_t number) {
    cpay_path_leaving leaving = {0};
    if (cpay_path_pop(path, now, &leaving)) return false;
    return leaving.packet.id == id && leaving.packet.kind == kind && leaving.number == number;
}

static bool nothing_leaves(cpay_path *path, uint64_t now) {
    cpay_path_leaving leaving = {.packet = {.id = 77, .size = 7}, .number = 7};
    return cpay_path_pop(path, now, &leaving) == CPAY_NONE && leaving.packet.id == 77 && leaving.packet.size == 7 && leaving.number == 7;
}

static uint64_t due(cpay_path *path) {
    uint64_t at = 7777777;
    cpay_status status = cpay_path_next_deadline(path, &at);
    CHECK(status == CPAY_OK || (status == CPAY_NONE && at == 7777777));
    return at;
}

static cpay_path_state_info state_of(cpay_path *path) {
    cpay_path_state_info state = {0};
    CHECK(cpay_path_state(path, &state) == CPAY_OK);
    return state;
}

static void defaults(void) {
    cpay_path_settings settings;
    cpay_resend_limit_settings limit;
    cpay_path_settings_init(&settings);
    CHECK(settings.start == 300000 && settings.least == 50000 && settings.most == 10000000 && settings.choice == 0);
    CHECK(settings.bound == 250000 && settings.burst == 2500 && settings.pause == 2000000);
    CHECK(settings.half_window == 500000 && settings.share == 250);
    cpay_resend_limit_settings_init(&limit);
    CHECK(limit.half_window == 500000 && limit.share == 250);
}

/* Audio leaves first, then retransmissions, media and padding: two packets of 1,000 bytes at once, and then one each 10 ms. */
static void pace(void) {
    cpay_path path = path_of(250000);
    CHECK(due(&path) == 7777777 && nothing_leaves(&path, 0));
    CHECK(pushes(&path, CPAY_PATH_MEDIA, 1000, 1) == CPAY_OK && pushes(&path, CPAY_PATH_AUDIO, 1000, 2) == CPAY_OK);
    CHECK(pushes(&path, CPAY_PATH_RESENT, 1000, 3) == CPAY_OK && pushes(&path, CPAY_PATH_PADDING, 1000, 4) == CPAY_OK);
    CHECK(state_of(&path).waiting == 4000 && state_of(&path).estimate == 800000 && state_of(&path).choice == 0);
    CHECK(due(&path) == 0 && leaves(&path, 0, 2, CPAY_PATH_AUDIO, 0) && leaves(&path, 0, 3, CPAY_PATH_RESENT, 1));
    CHECK(due(&path) == 10000 && nothing_leaves(&path, 0) && nothing_leaves(&path, 9999));
    CHECK(leaves(&path, 10000, 1, CPAY_PATH_MEDIA, 2) && due(&path) == 20000 && leaves(&path, 20000, 4, CPAY_PATH_PADDING, 3));
    CHECK(due(&path) == 7777777 && nothing_leaves(&path, 1000000) && state_of(&path).waiting == 0);
    cpay_path_free(&path);
}

/* What waits is removed, from the front of its kind; the bound counts the bytes of all kinds. */
static void queues(void) {
    cpay_path path = path_of(2500);
    cpay_path_packet packet = {.id = 77};
    CHECK(pushes(&path, CPAY_PATH_MEDIA, 1000, 1) == CPAY_OK && pushes(&path, CPAY_PATH_MEDIA, 1000, 2) == CPAY_OK);
    CHECK(pushes(&path, CPAY_PATH_AUDIO, 501, 3) == CPAY_QUEUE_FULL && pushes(&path, CPAY_PATH_AUDIO, 500, 4) == CPAY_OK);
    CHECK(pushes(&path, CPAY_PATH_AUDIO, UINT32_MAX, 5) == CPAY_QUEUE_FULL && pushes(&path, CPAY_PATH_AUDIO, 0, 6) == CPAY_OK);
    CHECK(pushes(&path, (cpay_path_kind)4, 0, 7) == CPAY_INVALID && pushes(&path, (cpay_path_kind)-1, 0, 7) == CPAY_INVALID);
    CHECK(cpay_path_remove(&path, (cpay_path_kind)4, &packet) == CPAY_INVALID && packet.id == 77);
    CHECK(cpay_path_remove(&path, CPAY_PATH_PADDING, &packet) == CPAY_NONE && packet.id == 77);
    CHECK(cpay_path_remove(&path, CPAY_PATH_MEDIA, &packet) == CPAY_OK && packet.id == 1 && packet.size == 1000);
    CHECK(packet.kind == CPAY_PATH_MEDIA && state_of(&path).waiting == 1500);
    CHECK(cpay_path_remove(&path, CPAY_PATH_MEDIA, &packet) == CPAY_OK && packet.id == 2);
    CHECK(cpay_path_remove(&path, CPAY_PATH_MEDIA, &packet) == CPAY_NONE && state_of(&path).waiting == 500);
    CHECK(leaves(&path, 0, 4, CPAY_PATH_AUDIO, 0) && leaves(&path, 0, 6, CPAY_PATH_AUDIO, 1));
    cpay_path_free(&path);
}

static cpay_resend_answer asked(cpay_path *path, uint64_t now, uint16_t number, uint32_t size) {
    cpay_resend_answer answer = (cpay_resend_answer)9;
    CHECK(cpay_path_resend(path, now, number, size, 50000, &answer) == CPAY_OK);
    return answer;
}

/* A quarter of what left for the first time, and each number once in a round trip of 50 ms. */
static void resends(void) {
    cpay_path path = path_of(250000);
    CHECK(asked(&path, 0, 7, 1) == CPAY_RESEND_SHARE && asked(&path, 0, 7, 0) == CPAY_RESEND_NOW);
    CHECK(pushes(&path, CPAY_PATH_MEDIA, 4000, 1) == CPAY_OK && asked(&path, 50000, 8, 1) == CPAY_RESEND_SHARE);
    CHECK(leaves(&path, 50000, 1, CPAY_PATH_MEDIA, 0) && asked(&path, 50000, 8, 1001) == CPAY_RESEND_SHARE);
    CHECK(asked(&path, 50000, 8, 1000) == CPAY_RESEND_NOW && asked(&path, 50000, 9, 1) == CPAY_RESEND_SHARE);
    CHECK(asked(&path, 99999, 8, 1) == CPAY_RESEND_TOO_SOON && asked(&path, 100000, 8, 0) == CPAY_RESEND_NOW);
    cpay_path_free(&path);

    cpay_resend_limit limit = CPAY_INIT;
    const cpay_resend_limit_settings settings = {.half_window = 500000, .share = 250};
    cpay_resend_answer answer = (cpay_resend_answer)9;
    CHECK(cpay_resend_limit_new(&limit, &settings) == CPAY_OK && cpay_resend_limit_new(&limit, &settings) == CPAY_FULL);
    CHECK(cpay_resend_limit_sent(&limit, 0, 4000) == CPAY_OK);
    CHECK(cpay_resend_limit_ask(&limit, 0, 7, 1000, 50000, &answer) == CPAY_OK && answer == CPAY_RESEND_NOW);
    CHECK(cpay_resend_limit_ask(&limit, 49999, 7, 0, 50000, &answer) == CPAY_OK && answer == CPAY_RESEND_TOO_SOON);
    CHECK(cpay_resend_limit_ask(&limit, 49999, 8, 1, 50000, &answer) == CPAY_OK && answer == CPAY_RESEND_SHARE);
    for (uint16_t number = 8; number < 135; number++)
        CHECK(cpay_resend_limit_ask(&limit, 49999, number, 0, 50000, &answer) == CPAY_OK && answer == CPAY_RESEND_NOW);
    CHECK(cpay_resend_limit_ask(&limit, 49999, 200, 0, 50000, &answer) == CPAY_OK && answer == CPAY_RESEND_TOO_MANY);
    /* the first one is a round trip ago, and its place is free again */
    CHECK(cpay_resend_limit_ask(&limit, 50000, 200, 0, 50000, &answer) == CPAY_OK && answer == CPAY_RESEND_NOW);
    /* the bytes that were sent count for less than a second */
    CHECK(cpay_resend_limit_sent(&limit, 2000000, 4) == CPAY_OK);
    CHECK(cpay_resend_limit_ask(&limit, 2000000, 300, 2, 50000, &answer) == CPAY_OK && answer == CPAY_RESEND_SHARE);
    CHECK(cpay_resend_limit_ask(&limit, 2000000, 300, 1, 50000, &answer) == CPAY_OK && answer == CPAY_RESEND_NOW);
    cpay_resend_limit_free(&limit);
}

/* Feedback about two packets from `base` on: a run of two symbols, and deltas of 0 for those that arrived. */
static size_t feedback(uint8_t *bytes, uint8_t base, bool arrived) {
    const uint8_t packet[24] = {0x8f, 205, 0, 5, 0, 0, 0, SENDER, 0, 0, 0, SSRC, 0, base, 0, 2, 0, 0, 1, 0, arrived ? 0x20 : 0, 2, 0, 0};
    memcpy(bytes, packet, sizeof packet);
    return sizeof packet;
}

/* Fifty packets of 1,000 bytes leave, one each 10 ms. If the viewer has none of them, the estimate becomes a half less a twentieth, since
 * no packet shows what the path carries. What did not leave counts for nothing. */
static void hears(void) {
    cpay_path path = path_of(250000);
    uint8_t bytes[48];
    size_t size = feedback(bytes, 0, false);
    for (uint16_t i = 0; i < 50; i++) {
        CHECK(pushes(&path, CPAY_PATH_MEDIA, 1000, i) == CPAY_OK);
        CHECK(leaves(&path, (uint64_t)i * 10000, i, CPAY_PATH_MEDIA, i));
    }
    size = feedback(bytes, 100, false);
    CHECK(cpay_path_feedback(&path, 500000, 50000, bytes, size, false, 0) == CPAY_OK && state_of(&path).estimate == 800000);
    CHECK(cpay_path_feedback(&path, 500000, 50000, bytes, size, false, 1) == CPAY_NONE);
    CHECK(cpay_path_feedback(&path, 500000, 50000, bytes, size, true, 0) == CPAY_RTCP_FIRST_NOT_REPORT);
    CHECK(cpay_path_feedback(&path, 500000, 50000, bytes, 23, false, 0) == CPAY_RTCP_PACKET_TOO_SHORT);
    CHECK(cpay_path_feedback(&path, 500000, 50000, NULL, 0, false, 0) == CPAY_RTCP_HEADER_TOO_SHORT);
    CHECK(cpay_path_feedback(&path, 500000, 50000, NULL, 1, false, 0) == CPAY_INVALID);
    bytes[3] = 3;
    CHECK(cpay_path_feedback(&path, 500000, 50000, bytes, 16, false, 0) == CPAY_TRANSPORT_HEADER_TOO_SHORT);
    bytes[3] = 4;
    CHECK(cpay_path_feedback(&path, 500000, 50000, bytes, 20, false, 0) == CPAY_TRANSPORT_CHUNKS_TOO_SHORT);
    size = feedback(bytes, 0, true);
    bytes[20] = 0x60;
    CHECK(cpay_path_feedback(&path, 500000, 50000, bytes, size, false, 0) == CPAY_TRANSPORT_RESERVED);
    bytes[20] = 0x40; /* two deltas of two bytes */
    CHECK(cpay_path_feedback(&path, 500000, 50000, bytes, size, false, 0) == CPAY_TRANSPORT_DELTAS_TOO_SHORT);
    CHECK(state_of(&path).estimate == 800000);
    for (uint8_t base = 0; base < 50; base = (uint8_t)(base + 2)) {
        CHECK(state_of(&path).estimate == 800000);
        /* the second of two packets of RTCP */
        size = feedback(bytes, 100, true);
        size += feedback(bytes + size, base, false);
        CHECK(cpay_path_feedback(&path, 500000 + (uint64_t)base * 50000, 50000, bytes, size, false, 1) == CPAY_OK);
    }
    CHECK(state_of(&path).estimate == 380000);
    cpay_path_free(&path);
}

/* Each packet that a feedback reports lost is named once. */
static void names_lost(void) {
    cpay_path path = path_of(250000);
    uint8_t bytes[24];
    uint16_t numbers[3] = {77, 77, 77};
    size_t count = 9, size = feedback(bytes, 0, false);
    CHECK(cpay_path_lost(&path, bytes, size, false, 0, numbers, 3, &count) == CPAY_OK && count == 0 && numbers[0] == 77);
    for (uint16_t i = 0; i < 2; i++)
        CHECK(pushes(&path, CPAY_PATH_MEDIA, 1000, i) == CPAY_OK && leaves(&path, 0, i, CPAY_PATH_MEDIA, i));
    CHECK(cpay_path_lost(&path, bytes, size, false, 0, numbers, 1, &count) == CPAY_TOO_SMALL && count == 2 && numbers[0] == 77);
    CHECK(cpay_path_lost(&path, bytes, size, false, 0, NULL, 0, &count) == CPAY_TOO_SMALL && count == 2);
    CHECK(cpay_path_lost(&path, bytes, size, false, 0, numbers, 3, &count) == CPAY_OK && count == 2);
    CHECK(numbers[0] == 0 && numbers[1] == 1 && numbers[2] == 77);
    CHECK(cpay_path_lost(&path, bytes, size, false, 1, numbers, 3, &count) == CPAY_NONE && count == 2);
    CHECK(cpay_path_lost(&path, bytes, 23, false, 0, numbers, 3, &count) == CPAY_RTCP_PACKET_TOO_SHORT && count == 2);
    CHECK(cpay_path_feedback(&path, 100000, 50000, bytes, size, false, 0) == CPAY_OK);
    CHECK(cpay_path_lost(&path, bytes, size, false, 0, numbers, 3, &count) == CPAY_OK && count == 0);
    /* of two packets that left the first one arrived */
    for (uint16_t i = 2; i < 4; i++)
        CHECK(pushes(&path, CPAY_PATH_MEDIA, 100, i) == CPAY_OK && leaves(&path, 200000, i, CPAY_PATH_MEDIA, i));
    size = feedback(bytes, 2, true);
    bytes[20] = 0xa0; /* a vector of 14 symbols of one bit: the first one arrived */
    bytes[21] = 0;
    CHECK(cpay_path_lost(&path, bytes, size, false, 0, numbers, 3, &count) == CPAY_OK && count == 1 && numbers[0] == 3);
    bytes[20] = 0x60;
    bytes[21] = 2;
    CHECK(cpay_path_lost(&path, bytes, size, false, 0, numbers, 3, &count) == CPAY_TRANSPORT_RESERVED && count == 1);
    cpay_path_free(&path);
}

/* The latest packet is taken back once, and the next one gets its number; not once feedback reported on it. */
static void takes_back(void) {
    cpay_path path = path_of(250000);
    uint8_t bytes[24];
    CHECK(cpay_path_take_back(&path, 65535) == CPAY_NONE && cpay_path_take_back(&path, 0) == CPAY_NONE);
    for (uint16_t i = 0; i < 4; i++) CHECK(pushes(&path, CPAY_PATH_AUDIO, 100, i) == CPAY_OK);
    CHECK(leaves(&path, 0, 0, CPAY_PATH_AUDIO, 0) && leaves(&path, 0, 1, CPAY_PATH_AUDIO, 1));
    CHECK(cpay_path_take_back(&path, 0) == CPAY_NONE && cpay_path_take_back(&path, 1) == CPAY_OK);
    CHECK(cpay_path_take_back(&path, 1) == CPAY_NONE && leaves(&path, 0, 2, CPAY_PATH_AUDIO, 1));
    CHECK(cpay_path_feedback(&path, 100000, 50000, bytes, feedback(bytes, 0, true), false, 0) == CPAY_OK);
    CHECK(cpay_path_take_back(&path, 1) == CPAY_NONE && leaves(&path, 100000, 3, CPAY_PATH_AUDIO, 2));
    cpay_path_free(&path);
}

/* What a new path knows, and one whose trial is under way: to twice the estimate, since the next choice wants more. */
static void knows(void) {
    static const cpay_path_choice choices[2] = {{.rate = 100000}, {.rate = 4000000}};
    cpay_path path = path_of(250000);
    cpay_path_estimate_info info = {.standing = 7, .has_trial = true, .is_draining = true};
    cpay_path_order_info order = {0};
    CHECK(cpay_path_estimate(&path, &info) == CPAY_OK && info.estimate == 800000 && info.carries == 800000);
    CHECK(info.standing == 0 && info.usual_losses == 0 && info.trial_rate == 0 && !info.has_trial && !info.is_draining);
    CHECK(cpay_path_choose(&path, 10000, choices, 2, &order) == CPAY_OK);
    CHECK(cpay_path_estimate(&path, &info) == CPAY_OK && info.has_trial && info.trial_rate == 1600000);
    cpay_path_free(&path);
}

/* The highest choice whose rate, and 5 percent if it is above the current one, is within the estimate. */
static void chooses(void) {
    static const cpay_path_choice choices[3] = {{.rate = 100000}, {.rate = 400000}, {.rate = 900000, .begin = 1000000}};
    cpay_path path = path_of(250000);
    cpay_path_order_info order = {.choice = 9, .padding = 9, .fell = true};
    CHECK(cpay_path_choose(&path, 10000, choices, 3, &order) == CPAY_OK);
    CHECK(order.choice == 1 && order.rose && !order.fell && state_of(&path).choice == 1);
    CHECK(cpay_path_choose(&path, 20000, choices, 3, &order) == CPAY_OK && order.choice == 1 && !order.rose && !order.fell);
    CHECK(cpay_path_choose(&path, 30000, choices, 1, &order) == CPAY_OK && order.choice == 0 && order.fell && !order.rose);
    /* no rise in the two seconds after a fall */
    CHECK(cpay_path_choose(&path, 40000, choices, 3, &order) == CPAY_OK && order.choice == 0 && !order.fell);
    CHECK(cpay_path_choose(&path, 2030000, choices, 3, &order) == CPAY_OK && order.choice == 1 && order.rose);
    CHECK(cpay_path_choose(&path, 2040000, NULL, 0, &order) == CPAY_OK && order.choice == 0 && order.padding <= 6000);
    CHECK(cpay_path_choose(&path, 2050000, NULL, 1, &order) == CPAY_INVALID);
    cpay_path_free(&path);
}

/* ---- a rate that is offered ---- */

enum { LINK_DELAY = 20000, LATE = 300000, SENT_SIZE = 1000, UNDER_WAY = 1024, AHEAD = 1234567890 };

/* A publisher behind a link, whose clock is ahead: it sends at the rate that it was offered, 300 ms after the offer. The link has a queue
 * of 300 ms, and drops what does not fit. */
typedef struct {
    cpay_rate_offer offer;
    bool by_time; /* without abs-send-time */
    uint64_t now, rate, next_rate, next_at, owed, free_at;
    struct {
        uint64_t sent, arrives;
    } under_way[UNDER_WAY];
    unsigned begun, ended;
    uint64_t offers; /* how many there were */
    bool good;       /* none was above what is wanted, and each call succeeded */
} publishing;

/* Seconds with 18 binary digits, of which the extension has 24. */
static uint32_t abs_send_time(uint64_t sent) { return (uint32_t)(((sent / 1000000) << 18) + ((sent % 1000000) << 18) / 1000000) & 0xffffff; }

static void sends(publishing *it, uint64_t link) {
    uint64_t begin = it->free_at > it->now ? it->free_at : it->now;
    if (begin - it->now > LATE) {
        it->good &= cpay_rate_offer_lost(&it->offer) == CPAY_OK;
        return;
    }
    it->free_at = begin + 8000000ull * SENT_SIZE / link;
    it->under_way[it->begun % UNDER_WAY].sent = it->now + AHEAD;
    it->under_way[it->begun++ % UNDER_WAY].arrives = it->free_at + LINK_DELAY;
}

static void arrives(publishing *it) {
    for (; it->ended != it->begun && it->under_way[it->ended % UNDER_WAY].arrives <= it->now; it->ended++) {
        uint64_t sent = it->under_way[it->ended % UNDER_WAY].sent, at = it->under_way[it->ended % UNDER_WAY].arrives;
        cpay_status status = it->by_time ? cpay_rate_offer_arrived_by(&it->offer, at, sent, SENT_SIZE)
                                         : cpay_rate_offer_arrived(&it->offer, at, abs_send_time(sent), SENT_SIZE);
        it->good &= status == CPAY_OK;
    }
}

/* Runs for some seconds over a link of that many bits per second. Returns the latest offer. */
static uint64_t publishes(publishing *it, unsigned seconds, uint64_t link, uint64_t wants) {
    for (uint64_t until = it->now + seconds * 1000000ull; it->now < until; it->now += 1000) {
        uint64_t due = 0;
        if (it->now >= it->next_at) it->rate = it->next_rate;
        for (it->owed += it->rate / 1000; it->owed >= SENT_SIZE * 8; it->owed -= SENT_SIZE * 8) sends(it, link);
        arrives(it);
        if (cpay_rate_offer_take_due(&it->offer, it->now, 2 * LINK_DELAY, &due)) continue;
        it->good &= due <= wants;
        it->offers++;
        if (it->rate == it->next_rate) it->next_at = it->now + LATE;
        it->next_rate = due;
    }
    return it->next_rate;
}

/* The offer rises to what is wanted on a free link, falls below the rate of a link that carries less, and rises again. */
static void offers(bool by_time) {
    cpay_rate_offer_settings settings;
    cpay_rate_offer_settings_init(&settings);
    settings.wants = 1000000;
    publishing it = {.offer = CPAY_INIT, .by_time = by_time, .good = true};
    CHECK(cpay_rate_offer_new(&it.offer, &settings) == CPAY_OK && cpay_rate_offer_new(&it.offer, &settings) == CPAY_FULL);
    CHECK(publishes(&it, 20, 3000000, 1000000) == 1000000);
    uint64_t narrow = publishes(&it, 20, 400000, 1000000);
    CHECK(narrow >= 200000 && narrow <= 500000);
    CHECK(publishes(&it, 40, 3000000, 1000000) == 1000000);
    CHECK(cpay_rate_offer_set_wants(&it.offer, 600000) == CPAY_OK && publishes(&it, 2, 3000000, 600000) == 600000);
    CHECK(it.good && it.offers >= 82);
    cpay_rate_offer_free(&it.offer);
}

/* Before any packet: the rate at the beginning, at once; no judgement for 50 ms; an offer each second; and what is wanted, at once. */
static void first_offers(void) {
    cpay_rate_offer offer = CPAY_INIT;
    cpay_rate_offer_settings settings;
    uint64_t rate = 7;
    cpay_rate_offer_settings_init(&settings);
    CHECK(settings.start == 300000 && settings.least == 50000 && settings.most == 10000000 && settings.wants == 2500000);
    CHECK(cpay_rate_offer_new(&offer, &settings) == CPAY_OK);
    CHECK(cpay_rate_offer_take_due(&offer, 5000000, 50000, &rate) == CPAY_OK && rate == 300000);
    rate = 7;
    CHECK(cpay_rate_offer_set_wants(&offer, 150000) == CPAY_OK);
    CHECK(cpay_rate_offer_take_due(&offer, 5049999, 50000, &rate) == CPAY_NONE && rate == 7);
    CHECK(cpay_rate_offer_take_due(&offer, 5050000, 50000, &rate) == CPAY_OK && rate == 150000);
    rate = 7;
    CHECK(cpay_rate_offer_take_due(&offer, 6049999, 50000, &rate) == CPAY_NONE && rate == 7);
    CHECK(cpay_rate_offer_take_due(&offer, 6099999, 50000, &rate) == CPAY_OK && rate == 150000);
    cpay_rate_offer_free(&offer);
}

/* Calls on handles that are empty or of the other type, which change nothing. */
static void offers_nothing(void) {
    either it = EITHER_INIT;
    const cpay_resend_limit_settings limits = {.share = 250};
    cpay_rate_offer_settings settings;
    uint64_t rate = 7;
    cpay_rate_offer_settings_init(&settings);
    cpay_rate_offer_free(NULL);
    for (int kind = 0; kind < 2; kind++) {
        cpay_status status = kind == 0 ? CPAY_EMPTY : CPAY_OTHER_KIND;
        if (kind == 1) CHECK(cpay_resend_limit_new(&it.limit, &limits) == CPAY_OK && cpay_rate_offer_new(&it.offer, &settings) == CPAY_FULL);
        CHECK(cpay_rate_offer_arrived(&it.offer, 0, 0, 1) == status && cpay_rate_offer_arrived_by(&it.offer, 0, 0, 1) == status);
        CHECK(cpay_rate_offer_lost(&it.offer) == status && cpay_rate_offer_set_wants(&it.offer, 1) == status);
        CHECK(cpay_rate_offer_take_due(&it.offer, 0, 0, &rate) == status && rate == 7);
    }
    cpay_resend_limit_free(&it.limit);
}

/* Times that jump, and sizes at their bounds: no offer is above what is wanted. */
static void hostile_arrivals(void) {
    static const uint64_t times[4] = {0, 1, UINT64_MAX, 1ull << 63};
    cpay_rate_offer offer = CPAY_INIT;
    cpay_rate_offer_settings settings;
    uint32_t seed = 12345;
    bool good = true;
    cpay_rate_offer_settings_init(&settings);
    CHECK(cpay_rate_offer_new(&offer, &settings) == CPAY_OK);
    for (int round = 0; round < 20000; round++) {
        uint64_t rate = 0, now = round % 97 == 0 ? times[seed >> 30] : (uint64_t)round * 10000;
        seed = seed * 1664525 + 1013904223;
        uint32_t size = round % 50 ? seed >> 22 : UINT32_MAX;
        good &= cpay_rate_offer_arrived(&offer, now, seed, size) == CPAY_OK;
        good &= cpay_rate_offer_arrived_by(&offer, now, round % 7 ? (uint64_t)seed << (seed & 31) : now, size) == CPAY_OK;
        if (seed >> 31) good &= cpay_rate_offer_lost(&offer) == CPAY_OK;
        cpay_status status = cpay_rate_offer_take_due(&offer, now, seed, &rate);
        good &= (status == CPAY_OK || status == CPAY_NONE) && rate <= settings.wants;
    }
    CHECK(good);
    cpay_rate_offer_free(&offer);
}

/* Calls on handles that are empty or of the other type, which change nothing. */
static void handles(void) {
    either it = EITHER_INIT;
    const cpay_resend_limit_settings limits = {.share = 250};
    cpay_path_settings settings;
    cpay_path_packet packet = {.id = 7};
    cpay_path_leaving leaving = {.number = 7};
    cpay_path_order_info order = {.choice = 7};
    cpay_path_state_info state = {.choice = 7};
    cpay_path_estimate_info info = {.estimate = 7};
    size_t count = 7;
    cpay_resend_answer answer = CPAY_RESEND_SHARE;
    uint64_t at = 7;
    uint8_t bytes[24];
    size_t size = feedback(bytes, 0, true);
    cpay_path_settings_init(&settings);
    cpay_path_free(NULL);
    cpay_resend_limit_free(NULL);
    for (int kind = 0; kind < 2; kind++) {
        cpay_status status = kind == 0 ? CPAY_EMPTY : CPAY_OTHER_KIND;
        if (kind == 1) CHECK(cpay_resend_limit_new(&it.limit, &limits) == CPAY_OK && cpay_path_new(&it.path, 0, &settings) == CPAY_FULL);
        CHECK(cpay_path_push(&it.path, &packet) == status && cpay_path_pop(&it.path, 0, &leaving) == status && leaving.number == 7);
        CHECK(cpay_path_remove(&it.path, CPAY_PATH_AUDIO, &packet) == status && packet.id == 7);
        CHECK(cpay_path_next_deadline(&it.path, &at) == status && at == 7);
        CHECK(cpay_path_resend(&it.path, 0, 1, 0, 0, &answer) == status && answer == CPAY_RESEND_SHARE);
        CHECK(cpay_path_feedback(&it.path, 0, 0, bytes, size, false, 0) == status);
        CHECK(cpay_path_choose(&it.path, 0, NULL, 0, &order) == status && order.choice == 7);
        CHECK(cpay_path_state(&it.path, &state) == status && state.choice == 7);
        CHECK(cpay_path_estimate(&it.path, &info) == status && info.estimate == 7);
        CHECK(cpay_path_lost(&it.path, bytes, size, false, 0, NULL, 0, &count) == status && count == 7);
        CHECK(cpay_path_take_back(&it.path, 0) == status);
    }
    cpay_path_free(&it.path);
    for (int kind = 0; kind < 2; kind++) {
        cpay_status status = kind == 0 ? CPAY_EMPTY : CPAY_OTHER_KIND;
        if (kind == 1) CHECK(cpay_path_new(&it.path, 0, &settings) == CPAY_OK && cpay_path_new(&it.path, 0, &settings) == CPAY_FULL);
        CHECK(cpay_resend_limit_sent(&it.limit, 0, 1) == status);
        CHECK(cpay_resend_limit_ask(&it.limit, 0, 1, 0, 0, &answer) == status && answer == CPAY_RESEND_SHARE);
    }
    cpay_resend_limit_free(&it.limit);
    CHECK(cpay_path_state(&it.path, &state) == CPAY_EMPTY);
}

/* Bytes at random as feedback, times that jump, sizes at their bounds: each outcome has a status, and the estimate keeps its bounds. */
static void hostile(void) {
    static const uint64_t times[4] = {0, 1, UINT64_MAX, 1ull << 63};
    cpay_path path = path_of(UINT64_MAX);
    uint32_t seed = 12345;
    bool good = true;
    for (int round = 0; round < 20000; round++) {
        uint8_t bytes[48];
        size_t size = feedback(bytes, (uint8_t)round, round % 3);
        for (int change = 0; change < 3; change++) {
            seed = seed * 1664525 + 1013904223;
            bytes[14 + (seed >> 16) % 10] = (uint8_t)(seed >> 8);
        }
        uint64_t now = round % 97 == 0 ? times[seed >> 30] : (uint64_t)round * 1000;
        cpay_path_leaving leaving = {0};
        cpay_path_order_info order = {0};
        cpay_resend_answer answer = CPAY_RESEND_NOW;
        cpay_path_choice choices[2] = {{.rate = seed}, {.rate = (uint64_t)seed << 32, .begin = UINT64_MAX}};
        good &= pushes(&path, (cpay_path_kind)(seed >> 13 & 3), round % 50 ? seed >> 22 : UINT32_MAX, seed) <= CPAY_QUEUE_FULL;
        cpay_status status = cpay_path_pop(&path, now, &leaving);
        good &= status == CPAY_OK || status == CPAY_NONE;
        status = cpay_path_feedback(&path, now, seed, bytes, size, false, 0);
        good &= status == CPAY_OK || (status >= CPAY_TRANSPORT_HEADER_TOO_SHORT && status <= CPAY_TRANSPORT_DELTAS_TOO_SHORT);
        good &= cpay_path_resend(&path, now, (uint16_t)seed, seed >> 20, seed, &answer) == CPAY_OK && answer <= CPAY_RESEND_TOO_MANY;
        good &= cpay_path_choose(&path, now, choices, 2, &order) == CPAY_OK && order.choice < 2 && order.padding <= 6000;
        cpay_path_state_info state = state_of(&path);
        good &= state.estimate >= 50000 && state.estimate <= 10000000;
    }
    CHECK(good);
    cpay_path_free(&path);
}

int main(void) {
    defaults();
    pace();
    queues();
    resends();
    hears();
    names_lost();
    takes_back();
    knows();
    chooses();
    handles();
    hostile();
    first_offers();
    offers(false);
    offers(true);
    offers_nothing();
    hostile_arrivals();
    return checked();
}

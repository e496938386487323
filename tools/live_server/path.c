/* The path to a viewer: packets wait here until the pace lets them leave. What the viewer reports about them says what its path
 * carries. The library decides when a packet leaves (cpay_path); a packet is written when it leaves. */
#include "viewers.h"

#include <libavutil/intreadwrite.h>
#include <stdlib.h>
#include <string.h>

enum {
    CARRIED = 52,             /* bytes that a packet has on the path beside its RTP: its number, SRTP, UDP and IP */
    SHARE = 500,              /* thousandths: at most half of the bytes that are sent are sent again */
    OPEN = 100000000,         /* bits per second: the pace for a viewer that reports nothing */
    UNHEARD = 2000000,        /* us after which a viewer counts as one that reports nothing */
    FIRST_ROUND_TRIP = 50000, /* us: before the first report */
    OVERTAKEN = 10000,        /* us: a packet may be overtaken by those that left within them after it */
    ROUND_TRIP_MARGIN = 10000 /* us: a report comes at most this much later */
};

/* ---- the beginning and the end ---- */

static bool begin(viewer_path *path, bool follows) {
    cpay_path_settings settings;
    cpay_path_settings_init(&settings);
    settings.share = SHARE;
    if (path->choice >= 0) settings.choice = (size_t)path->choice;
    if (!follows) settings.start = settings.least = settings.most = OPEN;
    path->follows = follows;
    path->begun = true;
    return cpay_path_new(&path->carries, now_us(), &settings) == CPAY_OK;
}

bool path_begin(peer *it) {
    if (!(it->path = calloc(1, sizeof *it->path))) return false;
    it->path->round_trip = FIRST_ROUND_TRIP;
    it->path->choice = -1;
    it->path->wishes = (wishes){.most = MOST_SIZES - 1, .temporal = ALL_LAYERS};
    it->path->follows = it->transport_id != 0;
    it->path->deadline = UINT64_MAX;
    return true;
}

/* A viewer that agreed on feedback and sends none: its path is as for one that did not agree. */
static void give_up_feedback(peer *it) {
    viewer_stops(it);
    cpay_path_free(&it->path->carries);
    if (!begin(it->path, false)) it->ended = true;
}

void path_free(peer *it) {
    if (it->path) cpay_path_free(&it->path->carries);
    free(it->path);
    it->path = NULL;
}

/* ---- what waits ---- */

static uint64_t id_of(waiting one) {
    uint64_t id = 0;
    memcpy(&id, &one, sizeof one);
    return id;
}

static waiting waiting_of(uint64_t id) {
    waiting one;
    memcpy(&one, &id, sizeof one);
    return one;
}

static void note_deadline(viewer_path *path) {
    if (cpay_path_next_deadline(&path->carries, &path->deadline)) path->deadline = UINT64_MAX;
}

/* Packets of video keep their order, also those that are left out: the forwarder sees them as they came. */
static bool put_in_order(viewer_path *path, waiting one) {
    if (path->order_len == MOST_ORDERED) return false;
    path->order[(path->order_first + path->order_len++) % MOST_ORDERED] = one;
    return true;
}

/* Leaves out what is in front. */
static void pass_left_out(peer *it, peer *from) {
    viewer_path *path = it->path;
    while (path->order_len > 0 && path->order[path->order_first].what == LEFT_OUT) {
        viewer_leave_out(it, from, &path->order[path->order_first]);
        path->order_first = (path->order_first + 1) % MOST_ORDERED;
        path->order_len--;
    }
}

void path_push(peer *it, cpay_path_kind kind, waiting one, size_t size) {
    viewer_path *path = it->path;
    const cpay_path_packet packet = {.id = id_of(one), .size = (uint32_t)size + CARRIED, .kind = kind};
    bool orders = kind == CPAY_PATH_MEDIA;
    if (!path->begun && !begin(path, path->follows)) it->ended = true;
    if (orders && path->order_len == MOST_ORDERED) path->dropped++;
    else if (cpay_path_push(&path->carries, &packet)) path->dropped++;
    else {
        if (orders) put_in_order(path, one);
        path->deadline = 0;
    }
}

void path_leave_out(peer *it, peer *from, waiting one) {
    one.what = LEFT_OUT;
    if (!put_in_order(it->path, one)) it->path->dropped++;
    pass_left_out(it, from);
}

void path_remove_video(peer *it) {
    cpay_path_packet packet;
    while (cpay_path_remove(&it->path->carries, CPAY_PATH_MEDIA, &packet) == CPAY_OK) continue;
    it->path->order_first = it->path->order_len = 0;
    it->path->deadline = 0;
}

bool path_thin(peer *it, peer *from, cpay_spatial_filter_state *filter) {
    viewer_path *path = it->path;
    waiting all[MOST_ORDERED];
    size_t count = path->order_len;
    uint8_t before = filter->kept;
    for (size_t i = 0; i < count; i++) all[i] = path->order[(path->order_first + i) % MOST_ORDERED];
    path_remove_video(it);
    for (size_t i = 0; i < count; i++) viewer_offer_again(it, from, all[i], filter);
    return filter->kept != before;
}

/* Fills a trial of a higher rate with packets that the viewer has. */
void path_fill(peer *it, uint32_t bytes) {
    const outgoing *to = &it->viewer[VIDEO];
    waiting one = {.what = AGAIN, .track = VIDEO, .number = to->newest};
    for (size_t size = to->newest_len + CARRIED; bytes > 0 && to->newest_len > 0;
         bytes -= bytes < size ? bytes : (uint32_t)size) {
        path_push(it, CPAY_PATH_PADDING, one, to->newest_len);
        it->path->padding += size;
    }
}

/* ---- what leaves ---- */

static void tick(peer *it, peer *from, uint64_t now) {
    viewer_path *path = it->path;
    if (path->follows && !path->heard && path->first_left && now - path->first_left > UNHEARD) give_up_feedback(it);
    path_choose(it, from, now);
}

static void send_packet(peer *it, peer *from, const cpay_path_leaving *leaving, uint64_t now) {
    viewer_path *path = it->path;
    waiting one = waiting_of(leaving->packet.id);
    uint8_t packet[MOST_DATAGRAM], *out = network_room();
    if (leaving->packet.kind == CPAY_PATH_MEDIA && path->order_len > 0) {
        path->order_first = (path->order_first + 1) % MOST_ORDERED;
        path->order_len--;
    }
    bool numbers = path->follows && one.what != FILLED; /* padding leaves again as it was: SRTP has one nonce for it */
    size_t size = from ? viewer_write(it, from, &one, numbers ? packet : out, MOST_DATAGRAM) : 0, length = 0;
    if (from) pass_left_out(it, from);
    if (size == 0 || (numbers && cpay_number_datagram(it->transport_id, leaving->number, packet, size, out, MOST_DATAGRAM, &length))) {
        if (cpay_path_take_back(&path->carries, leaving->number)) it->ended = true; /* it is the latest one */
        return;
    }
    size_t place = leaving->number % MOST_LEFT;
    path->left[place].at = (uint32_t)now;
    path->left[place].number = leaving->number;
    path->left[place].repeats = one.what == AGAIN && leaving->packet.kind == CPAY_PATH_RESENT ? one.number : AV_RB16(out + 2);
    path->left[place].is_video = one.track != AUDIO && one.what != FILLED && leaving->packet.kind != CPAY_PATH_PADDING;
    if (!path->first_left) path->first_left = now;
    srtp_send(it, out, numbers ? length : size, false);
    if (from && path->tails && (one.what == PACKET || one.what == LAST_PACKET) && one.track != AUDIO && out[1] & 0x80)
        viewer_resend(it, from, VIDEO, path->left[place].repeats);
}

void path_send(peer *it, peer *from, uint64_t now) {
    viewer_path *path = it->path;
    cpay_path_leaving leaving;
    while (cpay_path_pop(&path->carries, now, &leaving) == CPAY_OK) send_packet(it, from, &leaving, now);
    note_deadline(path);
}

uint64_t path_deadline(const peer *it) {
    return it->path->deadline < it->path->next_choice ? it->path->deadline : it->path->next_choice;
}

void path_serve(peer *it, peer *from, uint64_t now) {
    if (it->path->next_choice <= now) tick(it, from, now);
    if (it->path->deadline <= now) path_send(it, from, now);
}

/* ---- what the viewer reports ---- */

bool path_may_resend(peer *it, uint16_t number, size_t size) {
    cpay_resend_answer answer = CPAY_RESEND_SHARE;
    uint64_t round_trip = it->path->round_trip + ROUND_TRIP_MARGIN;
    return !cpay_path_resend(&it->path->carries, now_us(), number, (uint32_t)size + CARRIED, round_trip, &answer) &&
           answer == CPAY_RESEND_NOW;
}

/* The round trip by the last packet that a feedback names. */
static void measure_round_trip(viewer_path *path, const cpay_transport_feedback_info *info, uint64_t now) {
    uint16_t last = (uint16_t)(info->base + info->count - 1);
    uint32_t passed = (uint32_t)now - path->left[last % MOST_LEFT].at;
    if (info->count > 0 && path->left[last % MOST_LEFT].number == last && passed < 5000000) path->round_trip = passed;
}

/* A packet of video that is lost leaves again at once. The viewer requests it only when the next packet of video comes, and a
 * retransmission later than its report. One that left some time after it arrived, so it was not overtaken. */
static void repeat_lost(peer *it, peer *from, const cpay_packet_arrival *packets, size_t count) {
    viewer_path *path = it->path;
    uint32_t after = 0;
    bool any = false;
    for (size_t i = count; i-- > 0 && from;) {
        size_t place = packets[i].number % MOST_LEFT;
        if (path->left[place].number != packets[i].number) continue;
        if (packets[i].arrived && !any) after = path->left[place].at, any = true;
        if (packets[i].arrived || !any || !path->left[place].is_video || after - path->left[place].at < OVERTAKEN) continue;
        path->left[place].is_video = false;
        viewer_resend(it, from, VIDEO, path->left[place].repeats);
    }
}

void path_hear(peer *it, peer *from, const uint8_t *rtcp, size_t size) {
    static cpay_packet_arrival packets[MOST_LEFT];
    viewer_path *path = it->path;
    cpay_transport_feedback_info info = {0};
    uint64_t now = now_us();
    if (!path->follows || !path->begun) return;
    for (size_t index = 0;; index++) {
        cpay_status status = cpay_read_transport_feedback(rtcp, size, false, index, &info, packets, MOST_LEFT);
        if (status != CPAY_OK && status != CPAY_TOO_SMALL) return;
        measure_round_trip(path, &info, now);
        if (cpay_path_feedback(&path->carries, now, path->round_trip, rtcp, size, false, index)) return;
        if (status == CPAY_OK) repeat_lost(it, from, packets, info.count);
        path->heard = path->next_choice = now; /* a path that carries less is to be heeded at once */
    }
}

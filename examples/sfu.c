/* SFU: a publisher sends two sizes of VP8, a viewer gets the one that its path carries, and packets are lost on both hops.
 *
 *     cc sfu.c $(pkg-config --cflags --libs codec-payload) && ./a.out
 *
 * The rules:
 * - A session receives from the publisher, and requests what is missing. A store for each layer keeps each packet once, for all
 *   viewers. A path for each viewer says when its packets leave, and which layer it gets. A forwarder writes them.
 * - A retransmission is the packet that it repeats: unwrap it, then treat it like any other.
 * - What waits on the path is a packet of a store, and it is written when it leaves. So a packet that is removed leaves no gap in
 *   the viewer's numbers.
 * - A layer is pushed from a keyframe on. Ask the session for one as long as a viewer waits for a layer, and when the viewer itself
 *   asks: it sends a PLI at most once in 500 ms. Packets of that keyframe may have come before its first one: push them too. If
 *   the choice falls, what waits of the larger layer is removed.
 * - Keep what was sent to the viewer, and answer its NACKs from there: the store of a new layer lacks what was lost before it.
 * - The viewer reports when each packet arrived. A trial of a higher rate is filled with packets that are written again.
 * The network is simulated: 20 ms for a hop, with losses each way on both hops. The link to the viewer carries 1,000 kbit/s, then
 * 200, and so on. The status is 0 if the viewer shows what it should. */
#include "codec_payload.h"
#include "codec_payload_media.h"

#include <stdio.h>
#include <stdlib.h>
#include <string.h>

enum { LAYERS = 2, FRAMES = 480, INTERVAL = 50, STEP = 120, ROOM = 1500, HOP = 20, QUEUE = 256, LONGEST = 300000 };
enum { VP8 = 96, RTX = 97, RTX_SSRC = 10, VIEWER = 99, VIEWER_RTX = 98, SFU = 50, NUMBERS = 3 };
enum { MORE = 8, LEFT = 1024 }; /* bytes that a number adds to a packet; packets whose departure is known */
enum { SMALL = 700, LARGE = 2500 }; /* bytes of a frame: 112 and 400 kbit/s */

static void check(cpay_status status, const char *what) {
    if (status == CPAY_OK) return;
    fprintf(stderr, "%s: %s\n", what, cpay_status_text(status));
    exit(EXIT_FAILURE);
}

static void put(uint8_t *at, uint32_t value, int bytes) {
    for (int i = 0; i < bytes; i++) at[i] = (uint8_t)(value >> 8 * (bytes - 1 - i));
}

/* ---- One direction of a hop of the network ---- */

typedef struct {
    uint64_t chance;  /* of the next loss */
    unsigned loss;    /* percent */
    uint64_t rate;    /* bits per second; 0: no bound */
    uint64_t free_at; /* microseconds: the datagrams before it have left then */
    size_t first, len;
    struct {
        uint64_t due;
        size_t size;
        uint8_t bytes[ROOM];
    } queue[QUEUE];
} way;

/* A link drops what would wait longer than its queue is. */
static void send(way *to, uint64_t now, const uint8_t *bytes, size_t size) {
    uint64_t begin = to->free_at > now * 1000 ? to->free_at : now * 1000;
    if (begin - now * 1000 > LONGEST) return;
    if (to->rate > 0) to->free_at = begin + size * 8000000 / to->rate;
    to->chance = to->chance * 6364136223846793005u + 1442695040888963407u;
    if ((to->chance >> 33) % 100 < to->loss || to->len == QUEUE || size > ROOM) return;
    size_t place = (to->first + to->len++) % QUEUE;
    to->queue[place].due = (to->rate > 0 ? to->free_at / 1000 : now) + HOP;
    to->queue[place].size = size;
    memcpy(to->queue[place].bytes, bytes, size);
}

/* The next datagram that arrives until now, or NULL. */
static const uint8_t *arrived(way *from, uint64_t now, size_t *size) {
    size_t place = from->first;
    if (from->len == 0 || from->queue[place].due > now) return NULL;
    from->first = (place + 1) % QUEUE;
    from->len--;
    *size = from->queue[place].size;
    return from->queue[place].bytes;
}

static way to_sfu, to_publisher, to_viewer, from_viewer;

/* ---- The recipe ---- */

typedef struct {
    cpay_session session;        /* receives from the publisher, and requests what is missing */
    cpay_history stores[LAYERS]; /* the latest packets of each layer, for all viewers */
    cpay_path path;              /* to one viewer: when packets leave, and which layer it gets. Its times are microseconds */
    cpay_forwarder viewer;       /* the stream of the viewer */
    cpay_history sent;           /* what was sent to it, for its requests */
    uint32_t source;             /* the layer whose packets are pushed; 0: a keyframe of the wanted one is awaited */
    uint16_t latest;             /* the number of the packet that left last */
    bool has_latest;
    uint64_t left[LEFT], round_trip; /* when packets left, by their transport-wide numbers; how long a report takes */
} sfu;

/* The session sends a PLI, if no keyframe comes before its limit allows one. */
static void request_keyframe(sfu *it, uint32_t ssrc) {
    cpay_keyframe_answer answer = CPAY_KEYFRAME_NO_STREAM;
    check(cpay_session_request_keyframe(&it->session, ssrc, &answer), "request a keyframe");
}

/* A packet waits, named by its source and its number; of the viewer's own stream the source is 0. If there is no room, the viewer
 * requests it, or a keyframe. */
static void push(sfu *it, cpay_path_kind kind, uint32_t source, uint16_t number, size_t size) {
    const cpay_path_packet packet = {.id = (uint64_t)source << 16 | number, .size = (uint32_t)size + MORE, .kind = kind};
    cpay_status status = cpay_path_push(&it->path, &packet);
    if (status != CPAY_QUEUE_FULL) check(status, "push");
}

/* A packet of a layer came, and is in its store: it waits, if the viewer gets the layer. */
static void offer(sfu *it, uint32_t source, const uint8_t *datagram, size_t size) {
    uint32_t wanted = 0;
    bool begins = false;
    cpay_rtp_info packet = {0};
    uint8_t bytes[ROOM];
    cpay_resent found = CPAY_RESENT_NOT_KEPT;
    check(cpay_rtp_read(datagram, size, &packet), "read");
    check(cpay_begins_keyframe(CPAY_VP8, datagram + packet.payload_at, packet.payload_len, &begins), "keyframe");
    bool is_wanted = cpay_forwarder_wanted(&it->viewer, &wanted) == CPAY_OK && wanted == source;
    begins = begins && is_wanted && it->source != source;
    if (begins) it->source = source;
    if (it->source == source) push(it, CPAY_PATH_MEDIA, source, packet.sequence_number, size);
    for (uint16_t step = 1; begins && step < 64; step++) { /* packets of the keyframe that came before its first one */
        uint16_t number = (uint16_t)(packet.sequence_number + step);
        check(cpay_history_resend(&it->stores[source - 1], 0, number, bytes, ROOM, &size, &found), "find");
        if (found == CPAY_RESENT_WRITTEN) push(it, CPAY_PATH_MEDIA, source, number, size);
    }
}

/* A datagram of the publisher. The session says which of its streams received it; the streams are the layers. */
static void receive(sfu *it, uint64_t now, const uint8_t *datagram, size_t size) {
    uint8_t bytes[ROOM];
    static cpay_arrival to;
    cpay_rtp_info packet = {0};
    cpay_kept_once seen = CPAY_KEPT_KNOWN;
    check(cpay_session_receive(&it->session, now, datagram, size, &to), "receive");
    if (to.kind != CPAY_ARRIVAL_STREAM || to.status) return; /* RTCP, not of a layer, or padding alone: a probe */
    check(cpay_rtp_read(datagram, size, &packet), "read");
    if (packet.ssrc != to.ssrc) { /* a retransmission: the packet that it repeats */
        check(cpay_rtx_original(to.ssrc, to.payload_type, datagram, size, bytes, ROOM, &size), "unwrap");
        datagram = bytes;
    }
    check(cpay_history_keep_once(&it->stores[to.ssrc - 1], datagram, size, &seen), "keep");
    if (seen == CPAY_KEPT_NEW) offer(it, to.ssrc, datagram, size);
}

/* Writes what leaves. Returns its size; 0: it is gone. */
static size_t write_leaving(sfu *it, uint64_t now, uint64_t id, uint8_t *out) {
    uint8_t packet[ROOM];
    uint32_t source = (uint32_t)(id >> 16);
    size_t size = 0, out_size = 0;
    cpay_rtp_info written = {0};
    cpay_resent found = CPAY_RESENT_NOT_KEPT;
    cpay_forwarded did = CPAY_FORWARDED_OTHER_SOURCE;
    if (source == 0) {
        check(cpay_history_resend(&it->sent, now, (uint16_t)id, out, ROOM, &out_size, &found), "resend");
        return out_size;
    }
    check(cpay_history_resend(&it->stores[source - 1], 0, (uint16_t)id, packet, ROOM, &size, &found), "find");
    if (found != CPAY_RESENT_WRITTEN) return 0;
    check(cpay_forwarder_write(&it->viewer, 90 * now, packet, size, out, ROOM, &out_size, &did), "forward");
    if (out_size == 0) return 0;
    check(cpay_history_keep(&it->sent, out, out_size, NULL), "keep what was sent");
    check(cpay_rtp_read(out, out_size, &written), "read");
    it->latest = written.sequence_number;
    it->has_latest = true;
    return out_size;
}

/* Sends what leaves now. */
static void send_due(sfu *it, uint64_t now) {
    uint8_t out[ROOM], numbered[ROOM];
    cpay_path_leaving leaving = {0};
    while (cpay_path_pop(&it->path, now * 1000, &leaving) == CPAY_OK) {
        size_t size = write_leaving(it, now, leaving.packet.id, out);
        if (size == 0) continue;
        check(cpay_number_datagram(NUMBERS, leaving.number, out, size, numbered, ROOM, &size), "number");
        it->left[leaving.number % LEFT] = now * 1000;
        send(&to_viewer, now, numbered, size);
    }
}

/* How many bytes a packet of the viewer's stream has if it is sent again; 0: it is not kept. */
static size_t size_again(sfu *it, uint64_t now, uint16_t number) {
    size_t size = 0;
    cpay_resent found = CPAY_RESENT_NOT_KEPT;
    return cpay_history_resend(&it->sent, now, number, NULL, 0, &size, &found) == CPAY_TOO_SMALL ? size : 0;
}

/* What the viewer reports about packets that left. The last one measures the round trip. */
static void hear(sfu *it, uint64_t now, const uint8_t *rtcp, size_t rtcp_size) {
    static cpay_packet_arrival packets[65536];
    cpay_transport_feedback_info info = {0};
    for (size_t i = 0; cpay_read_transport_feedback(rtcp, rtcp_size, false, i, &info, packets, 65536) == CPAY_OK; i++) {
        if (info.count > 0) it->round_trip = now * 1000 - it->left[(info.base + info.count - 1) % LEFT];
        check(cpay_path_feedback(&it->path, now * 1000, it->round_trip, rtcp, rtcp_size, false, i), "feedback");
    }
}

/* RTCP of the viewer. What is malformed requests nothing. */
static void answer(sfu *it, uint64_t now, const uint8_t *rtcp, size_t rtcp_size) {
    uint16_t numbers[512];
    size_t count = 0, size = 0;
    bool keyframe = false;
    cpay_resend_answer may = CPAY_RESEND_SHARE;
    hear(it, now, rtcp, rtcp_size);
    if (cpay_read_requests(rtcp, rtcp_size, VIEWER, false, numbers, 512, &count, &keyframe)) return;
    for (size_t i = 0; i < count && i < 512; i++) {
        if ((size = size_again(it, now, numbers[i])) == 0) continue;
        check(cpay_path_resend(&it->path, now * 1000, numbers[i], (uint32_t)size + MORE, it->round_trip, &may), "resend");
        if (may == CPAY_RESEND_NOW) push(it, CPAY_PATH_RESENT, 0, numbers[i], size);
    }
    if (keyframe && it->source > 0) request_keyframe(it, it->source);
}

/* Chooses the layer, each 10 ms, and fills a trial with the packet that left last. */
static void choose(sfu *it, uint64_t now) {
    static const cpay_path_choice choices[LAYERS] = {{120000, 0}, {420000, 500000}};
    cpay_path_order_info order = {0};
    cpay_path_packet removed = {0};
    check(cpay_path_choose(&it->path, now * 1000, choices, LAYERS, &order), "choose");
    if (order.fell) {
        while (cpay_path_remove(&it->path, CPAY_PATH_MEDIA, &removed) == CPAY_OK) continue;
        it->source = 0;
        check(cpay_forwarder_mute(&it->viewer), "mute"); /* also the same source goes on with a keyframe */
    }
    check(cpay_forwarder_want(&it->viewer, 1 + (uint32_t)order.choice), "want");
    size_t size = it->has_latest ? size_again(it, now, it->latest) : 0;
    for (size_t filled = 0; size > 0 && filled < order.padding; filled += size + MORE)
        push(it, CPAY_PATH_PADDING, 0, it->latest, size);
}

/* What is due by the clock. Units of the session are for those who record or mix. */
static void poll(sfu *it, uint64_t now) {
    static cpay_event event;
    uint32_t wanted = 0;
    if (now % 10 == 0) choose(it, now);
    if (cpay_forwarder_wanted(&it->viewer, &wanted) == CPAY_OK && it->source != wanted) request_keyframe(it, wanted);
    while (cpay_session_poll(&it->session, now, &event) == CPAY_OK)
        if (event.kind == CPAY_EVENT_FEEDBACK || event.kind == CPAY_EVENT_REPORT)
            send(&to_publisher, now, event.data, event.bytes);
    send_due(it, now);
}

/* ---- The simulated publisher ---- */

typedef struct {
    cpay_sender sender;
    cpay_history sent;
    bool keyframe; /* the next frame is one */
} layer;

/* A frame whose last bytes have the time and the layer. */
static void send_frame(layer *it, uint32_t ssrc, uint64_t now) {
    static const uint8_t start[] = {0x9d, 0x01, 0x2a, 0x40, 0x01, 0xf0, 0x00};
    static uint8_t frame[LARGE], datagram[ROOM];
    size_t count = 0, size = 0, bytes = ssrc == 1 ? SMALL : LARGE;
    memset(frame, 0, bytes);
    put(frame + bytes - 5, (uint32_t)now, 4);
    frame[bytes - 1] = (uint8_t)ssrc;
    put(frame, (uint32_t)((it->keyframe ? 0x10 : 0x11) | (100u << 5 & 0xff)) << 16 | (100u >> 3) << 8, 3);
    if (it->keyframe) memcpy(frame + 3, start, sizeof start);
    it->keyframe = false;
    check(cpay_sender_send(&it->sender, 90 * now + 777777 * ssrc, false, frame, bytes, &count), "send");
    for (size_t place = 0; place < count; place++) {
        check(cpay_sender_datagram(&it->sender, place, datagram, ROOM, &size), "datagram");
        check(cpay_history_keep(&it->sent, datagram, size, NULL), "keep what was sent");
        send(&to_sfu, now, datagram, size);
    }
}

static void resend(layer *it, uint32_t ssrc, uint64_t now, const uint8_t *rtcp, size_t rtcp_size) {
    uint16_t numbers[512];
    uint8_t out[ROOM];
    size_t count = 0, size = 0;
    bool wants_keyframe = false;
    cpay_resent found = CPAY_RESENT_NOT_KEPT;
    check(cpay_read_requests(rtcp, rtcp_size, ssrc, false, numbers, 512, &count, &wants_keyframe), "requests");
    it->keyframe |= wants_keyframe;
    for (size_t i = 0; i < count && i < 512; i++) {
        check(cpay_history_resend(&it->sent, now, numbers[i], out, ROOM, &size, &found), "resend");
        if (found == CPAY_RESENT_WRITTEN) send(&to_sfu, now, out, size);
    }
}

/* ---- The simulated viewer ---- */

typedef struct {
    unsigned shown, switches;
    cpay_freezes freezes;
    uint8_t latest[5]; /* the time and the layer of the frame before */
} picture;

/* Counts a frame. Two layers may have one of the same time, which counts once. */
static void show(picture *it, uint64_t now, const uint8_t *end) {
    bool again = it->shown > 0 && !memcmp(end, it->latest, 4);
    it->switches += it->shown > 0 && it->latest[4] != end[4];
    memcpy(it->latest, end, sizeof it->latest);
    if (again) return;
    it->shown++;
    check(cpay_freezes_shown(&it->freezes, now), "show");
}

static void watch(cpay_session *viewer, picture *it, uint64_t now) {
    static cpay_event event;
    while (cpay_session_poll(viewer, now, &event) == CPAY_OK) {
        if (event.kind == CPAY_EVENT_FEEDBACK || event.kind == CPAY_EVENT_REPORT || event.kind == CPAY_EVENT_TRANSPORT_FEEDBACK)
            send(&from_viewer, now, event.data, event.bytes);
        if (event.kind == CPAY_EVENT_UNIT && event.bytes >= SMALL) show(it, now, event.data + event.bytes - 5);
    }
}

/* ---- All together ---- */

static void begin_session(cpay_session *it, uint32_t own_ssrc, const cpay_ssrc_pair *pairs, size_t pairs_len) {
    cpay_session_settings settings;
    const cpay_spec spec = {.codec = CPAY_VP8, .rate = 90000};
    const cpay_session_format format = {
        .spec = spec, .payload_type = VP8, .rtx_payload_type = RTX, .has_rtx = true, .nack = true, .pli = true};
    cpay_session_settings_init(&settings, CPAY_FOR_LIVE);
    settings.from_keyframe = CPAY_KEYFRAME_DROP;
    settings.has_transport = true; /* of the viewer: it reports when each packet arrived */
    settings.transport.extension_id = NUMBERS;
    check(cpay_session_settings_feedback(&settings, own_ssrc, (const uint8_t *)"sfu", 3), "feedback");
    check(cpay_session_new(it, &settings, &format, 1, NULL, 0, pairs, pairs_len), "session");
}

static void begin_sfu(sfu *it) {
    static const cpay_ssrc_pair pairs[LAYERS] = {{1, RTX_SSRC + 1}, {2, RTX_SSRC + 2}};
    const cpay_history_settings keeps = {.limit = 2048};
    const cpay_history_settings sent = {.limit = 256, .rtx_ssrc = VIEWER_RTX, .rtx_payload_type = RTX, .has_rtx = true};
    cpay_forwarder_settings settings;
    cpay_path_settings path;
    begin_session(&it->session, SFU, pairs, LAYERS);
    for (int i = 0; i < LAYERS; i++) {
        check(cpay_history_new(&it->stores[i], &keeps), "store");
    }
    check(cpay_history_new(&it->sent, &sent), "what was sent");
    cpay_forwarder_settings_init(&settings, CPAY_VP8, VIEWER, VP8);
    check(cpay_forwarder_new(&it->viewer, &settings), "forwarder");
    cpay_path_settings_init(&path);
    check(cpay_path_new(&it->path, 0, &path), "path");
    it->round_trip = 2000 * HOP;
}

static void begin_layer(layer *it, uint32_t ssrc) {
    const cpay_spec spec = {.codec = CPAY_VP8, .rate = 90000, .first_id = (uint16_t)(1000 * ssrc), .vp8_ids = true};
    const cpay_sender_settings sends = {
        .spec = spec, .mtu = 1188, .ssrc = ssrc, .first_number = (uint16_t)(30000 * ssrc), .payload_type = VP8};
    const cpay_history_settings keeps = {.limit = 512, .rtx_ssrc = RTX_SSRC + ssrc, .rtx_payload_type = RTX, .has_rtx = true};
    check(cpay_sender_new(&it->sender, &sends), "sender");
    check(cpay_history_new(&it->sent, &keeps), "history");
    it->keyframe = true;
}

/* A millisecond of all three. */
static void step(layer layers[LAYERS], sfu *it, cpay_session *viewer, picture *seen, uint64_t now) {
    const uint8_t *bytes;
    size_t size = 0;
    static cpay_arrival arrival;
    while ((bytes = arrived(&to_publisher, now, &size)))
        for (uint32_t i = 0; i < LAYERS; i++) resend(&layers[i], i + 1, now, bytes, size);
    if (now % INTERVAL == 0 && now < FRAMES * INTERVAL)
        for (uint32_t i = 0; i < LAYERS; i++) send_frame(&layers[i], i + 1, now);
    to_viewer.rate = now / (STEP * INTERVAL) % 2 == 0 ? 1000000 : 200000;
    while ((bytes = arrived(&to_sfu, now, &size))) receive(it, now, bytes, size);
    while ((bytes = arrived(&from_viewer, now, &size))) answer(it, now, bytes, size);
    poll(it, now);
    while ((bytes = arrived(&to_viewer, now, &size)))
        check(cpay_session_receive_at(viewer, now, now * 1000, bytes, size, &arrival), "watch");
    watch(viewer, seen, now);
}

/* A run at a loss in percent. Returns whether it is as good as it should be. */
static bool run(unsigned loss) {
    static const cpay_ssrc_pair pair = {VIEWER, VIEWER_RTX};
    way *ways[] = {&to_sfu, &to_publisher, &to_viewer, &from_viewer};
    layer layers[LAYERS] = {{CPAY_INIT, CPAY_INIT, true}, {CPAY_INIT, CPAY_INIT, true}};
    static sfu it;
    memset(&it, 0, sizeof it);
    cpay_session viewer = CPAY_INIT;
    picture seen = {.freezes = CPAY_INIT};
    cpay_freeze_counts_info counts = {0};
    check(cpay_freezes_new(&seen.freezes, 1000), "freezes");
    for (unsigned i = 0; i < 4; i++) {
        memset(ways[i], 0, sizeof *ways[i]);
        ways[i]->chance = i + 1;
        ways[i]->loss = loss;
    }
    for (uint32_t i = 0; i < LAYERS; i++) begin_layer(&layers[i], i + 1);
    begin_sfu(&it);
    begin_session(&viewer, VIEWER + 1, &pair, 1);
    for (uint64_t now = 0; now < FRAMES * INTERVAL + 1000; now++) step(layers, &it, &viewer, &seen, now);
    check(cpay_freezes_counts(&seen.freezes, &counts), "counts");
    printf("%u %%: %u of %d frames shown, %u switches, %u freezes, %u ms frozen\n", loss, seen.shown, FRAMES, seen.switches,
           (unsigned)counts.freezes, (unsigned)counts.frozen);
    for (int i = 0; i < LAYERS; i++) {
        cpay_sender_free(&layers[i].sender);
        cpay_history_free(&layers[i].sent);
        cpay_history_free(&it.stores[i]);
    }
    cpay_session_free(&it.session);
    cpay_session_free(&viewer);
    cpay_forwarder_free(&it.viewer);
    cpay_history_free(&it.sent);
    cpay_path_free(&it.path);
    cpay_freezes_free(&seen.freezes);
    /* at least 95 of 100 frames, and at most 0.6 s frozen, with losses 3 s */
    return seen.switches == 4 && seen.shown * 100 >= 95 * FRAMES && counts.frozen <= (loss ? 3500 : 600);
}

int main(void) { return run(0) && run(2) && run(5) ? EXIT_SUCCESS : EXIT_FAILURE; }

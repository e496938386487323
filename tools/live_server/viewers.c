/* Viewers: each gets the packets of its publisher under other SSRCs and numbers, and again what it requests. */
#include "viewers.h"

#include <codec_payload_media.h>
#include <libavutil/intreadwrite.h>
#include <stdlib.h>
#include <string.h>

enum {
    REPORT_INTERVAL = 1000, /* ms between two sender reports */
    FILLED_FOR = 5000,      /* ms: numbers come again after 65,536 packets */
    EARLY = 64,             /* packets of a keyframe that may come before its first one */
    RED_BUDGET = 1200,      /* bytes of a RED payload */
    LARGE = 600,            /* bytes of a packet that fills a trial well */
    BEFORE = 31             /* in place of a layer in a note: before the viewer began again */
};

/* The packet that came just now. It is in its store too. */
static struct {
    const uint8_t *bytes;
    size_t size;
    uint32_t ssrc;
    uint16_t number;
} fresh;

static uint64_t rate_of(int kind) { return kind == AUDIO ? 48000 : 90000; }

static bool begin_stream(outgoing *to, const agreed *media) {
    static const uint32_t distance[] = {1};
    cpay_forwarder_settings settings;
    secret(&to->ssrc, sizeof to->ssrc);
    to->temporal = to->layers = ALL_LAYERS;
    if (!media->used) return true;
    cpay_forwarder_settings_init(&settings, media->codec, to->ssrc, media->payload_type);
    secret(&settings.first_time, sizeof settings.first_time);
    secret(&settings.first_number, sizeof settings.first_number);
    settings.first_number &= 0x7fff; /* a loss near a wrap would confuse SRTP (RFC 3711, section 3.3.1) */
    settings.has_rtx = media->rtx_payload_type != 0;
    settings.rtx_ssrc = to->ssrc + 1;
    settings.rtx_payload_type = media->rtx_payload_type;
    if (cpay_forwarder_new(&to->forwarder, &settings)) return false;
    return !media->red_payload_type ||
           cpay_red_sender_new(&to->red, media->red_payload_type, media->payload_type, distance, 1) == CPAY_OK;
}

/* A viewer begins with the smallest size, unless it reports nothing about its path. */
const char *viewer_begin(peer *it, peer *of) {
    const agreed *video = &it->media[VIDEO];
    if (video->used && !video->rtx_payload_type)
        it->transport_id = 0; /* a packet that leaves again has its own bytes: see path.c */
    it->viewer = of ? calloc(KINDS, sizeof *it->viewer) : NULL;
    if (!it->viewer || !path_begin(it)) return "Out of memory.\n";
    for (int kind = 0; kind < KINDS; kind++) {
        outgoing *to = &it->viewer[kind];
        to->track = to->wanted = kind == VIDEO && !it->path->follows ? last_track(of) : kind;
        if (!it->path->follows) to->filter.wanted = MOST_SPATIAL - 1;
        if (!begin_stream(to, &it->media[kind])) return "Out of memory.\n";
    }
    return NULL;
}

uint32_t viewer_ssrc(const peer *it, int kind) { return it->viewer[kind].ssrc; }

/* ---- packets: each waits on the path until it may leave, and is written then ---- */

/* The layers of a packet of video. */
typedef struct {
    bool layered; /* the packet names a temporal layer */
    bool first;   /* it is the first one of a picture */
    cpay_temporal_layer_info temporal;
    cpay_spatial_place_info spatial; /* of VP9 */
} place;

static place place_of(cpay_codec codec, const uint8_t *payload, size_t size) {
    place it = {0};
    it.layered = (codec == CPAY_VP8 || codec == CPAY_VP9) && !cpay_temporal_layer(codec, payload, size, &it.temporal);
    if (codec == CPAY_VP8) it.first = size > 0 && (payload[0] & 0x1f) == 0x10; /* S, and partition 0 */
    if (codec == CPAY_VP9 && !cpay_vp9_spatial_place(payload, size, &it.spatial)) it.first = it.spatial.begins && it.spatial.layer == 0;
    return it;
}

static int spatial_layer(cpay_codec codec, const uint8_t *datagram, size_t size) {
    cpay_rtp_info info = {0};
    if (codec != CPAY_VP9 || cpay_rtp_read(datagram, size, &info)) return 0;
    return place_of(codec, datagram + info.payload_at, info.payload_len).spatial.layer;
}

/* Wraps a packet of audio in RED, with the one before it (RFC 2198). Returns the new size. */
static size_t wrap(outgoing *to, uint8_t red_payload_type, uint8_t *packet, size_t size) {
    uint8_t payload[MOST_DATAGRAM];
    size_t length = 0;
    cpay_status status = cpay_red_wrap(&to->red, AV_RB32(packet + 4), RED_BUDGET, packet + HEADER, size - HEADER, payload,
                                       sizeof payload, &length);
    if (status || size - HEADER >= RED_BUDGET) return size;
    memcpy(packet + HEADER, payload, length);
    packet[1] = (uint8_t)((packet[1] & 0x80) | red_payload_type);
    return HEADER + length;
}

/* The padding that was sent under this number lately; NULL: it is not kept. */
static const uint8_t *filled_under(const outgoing *to, uint16_t number) {
    for (size_t i = 0; i < MOST_FILLED && i < to->filled_count; i++)
        if (AV_RB16(to->filled[i].bytes + 2) == number && now_ms() - to->filled[i].sent < FILLED_FOR) return to->filled[i].bytes;
    return NULL;
}

/* The packet of a source that waits: the one that came just now, or from its store. NULL: it is gone. */
static const uint8_t *packet_of(peer *from, const waiting *one, uint8_t *room, size_t *size) {
    source *of = publisher_source(from, one->track);
    cpay_resent found = CPAY_RESENT_NOT_KEPT;
    if (fresh.bytes && fresh.ssrc == one->ssrc && fresh.number == one->number) {
        *size = fresh.size;
        return fresh.bytes;
    }
    if (!of->arrived || of->ssrc != one->ssrc) return NULL;
    bool gone =
        cpay_history_resend(&of->store, 0, one->number, room, MOST_DATAGRAM, size, &found) || found != CPAY_RESENT_WRITTEN;
    return gone ? NULL : room;
}

/* Notes the spatial layer and the marker of a packet of video that leaves. */
static void note(outgoing *to, const uint8_t *packet, int layer) {
    uint16_t number = AV_RB16(packet + 2);
    size_t place = number % MOST_NOTED;
    to->notes[place].number = number;
    to->notes[place].layer = layer & 7;
    to->notes[place].left = true;
    to->notes[place].marked = packet[1] & 0x80;
}

static bool is_noted(const outgoing *to, uint16_t number) {
    return to->notes[number % MOST_NOTED].left && to->notes[number % MOST_NOTED].number == number;
}

/* Writes a packet of the publisher. Returns its size. */
static size_t write_packet(peer *it, peer *from, const waiting *one, uint8_t *out, size_t room) {
    int kind = kind_of(one->track);
    outgoing *to = &it->viewer[kind];
    uint8_t store[MOST_DATAGRAM];
    size_t datagram_len = 0, size = 0;
    cpay_forwarded done = CPAY_FORWARDED_OTHER_SOURCE;
    const uint8_t *datagram = packet_of(from, one, store, &datagram_len);
    uint64_t ticks = now_us() * rate_of(kind) / 1000000;
    if (!datagram || cpay_forwarder_write(&to->forwarder, ticks, datagram, datagram_len, out, room, &size, &done) || size == 0)
        return 0;
    bool in_red = it->media[kind].red_payload_type && !to->without_red;
    if (in_red) size = wrap(to, it->media[kind].red_payload_type, out, size);
    if (one->what == LAST_PACKET) out[1] |= 0x80;
    if (kind == VIDEO) note(to, out, spatial_layer(it->media[VIDEO].codec, datagram, datagram_len));
    if (kind == VIDEO && (size >= LARGE || to->newest_len < LARGE || (uint16_t)(AV_RB16(out + 2) - to->newest) > 128)) {
        to->newest = AV_RB16(out + 2);
        to->newest_len = size;
    }
    return size;
}

/* Writes a packet again that was sent. Returns its size, which is written also if there is no room. The store of the source has
 * the packet with another marker. */
static size_t write_again(peer *it, peer *from, const waiting *one, uint8_t *out, size_t room) {
    outgoing *to = &it->viewer[one->track];
    size_t size = 0;
    cpay_resent resent = CPAY_RESENT_NOT_KEPT;
    cpay_status status =
        cpay_forwarder_resend(&to->forwarder, &publisher_source(from, to->track)->store, one->number, out, room, &size, &resent);
    if (status == CPAY_OK && size > 0 && one->track == VIDEO && is_noted(to, one->number))
        out[1] = (uint8_t)((out[1] & 0x7f) | to->notes[one->number % MOST_NOTED].marked << 7);
    return status == CPAY_OK || status == CPAY_TOO_SMALL ? size : 0;
}

size_t viewer_write(peer *it, peer *from, const waiting *one, uint8_t *out, size_t room) {
    if (one->what == PACKET || one->what == LAST_PACKET) return write_packet(it, from, one, out, room);
    if (one->what == AGAIN) return write_again(it, from, one, out, room);
    const uint8_t *padding = filled_under(&it->viewer[one->track], one->number);
    if (!padding) return 0;
    memcpy(out, padding, HEADER + 1);
    return HEADER + 1;
}

/* Leaves a packet out. The padding that takes the place of a late one is kept, and leaves as soon as it may. */
void viewer_leave_out(peer *it, peer *from, const waiting *one) {
    outgoing *to = &it->viewer[VIDEO];
    uint8_t store[MOST_DATAGRAM], out[MOST_DATAGRAM];
    size_t datagram_len = 0, size = 0;
    cpay_forwarded done = CPAY_FORWARDED_OTHER_SOURCE;
    const uint8_t *datagram = packet_of(from, one, store, &datagram_len);
    if (!datagram || cpay_forwarder_leave_out(&to->forwarder, datagram, datagram_len, out, sizeof out, &size, &done)) return;
    if (size != HEADER + 1) return;
    size_t place = to->filled_count++ % MOST_FILLED;
    memcpy(to->filled[place].bytes, out, size);
    to->filled[place].sent = now_ms();
    path_push(it, CPAY_PATH_RESENT, (waiting){.what = FILLED, .track = VIDEO, .number = AV_RB16(out + 2)}, size);
}

/* ---- which packets a viewer is to get ---- */

void viewer_stops(peer *it) {
    path_remove_video(it);
    it->viewer[VIDEO].begun = false;
    if (it->media[VIDEO].used) (void)!cpay_forwarder_mute(&it->viewer[VIDEO].forwarder);
}

/* Goes over to layers. What waits of a larger size is not sent any more: the path would carry it too late. Of spatial layers the
 * picture that has begun to leave stays whole. */
bool viewer_goes_to(peer *it, peer *from, int track, layer up_to, bool red) {
    outgoing *to = &it->viewer[VIDEO];
    it->viewer[AUDIO].without_red = !red;
    to->temporal = up_to.temporal;
    to->filter.wanted = (uint8_t)up_to.spatial;
    to->wanted = track;
    if (to->begun && track < to->track) viewer_stops(it);
    if (!to->begun || it->media[VIDEO].codec != CPAY_VP9 || to->filter.wanted >= to->filter.kept) return false;
    cpay_spatial_filter_state thinner = {.kept = UINT8_MAX, .wanted = to->filter.wanted}; /* the picture in front stays as it is */
    if (path_thin(it, from, &thinner)) to->filter = thinner;
    return true;
}

int viewer_size(const peer *it, const peer *from) {
    const outgoing *to = &it->viewer[VIDEO];
    int size = from->layers_len > 1 ? to->track - VIDEO : to->filter.kept;
    return size < publisher_sizes(from) ? size : publisher_sizes(from) - 1;
}

/* Whether a packet is the first of a keyframe with which the viewer goes over to another source. */
static bool begins(const outgoing *to, int track, cpay_codec codec, const cpay_rtp_info *info, const uint8_t *datagram) {
    bool begins = false;
    if (track != to->wanted || (to->begun && to->source == info->ssrc)) return false;
    return !cpay_begins_keyframe(codec, datagram + info->payload_at, info->payload_len, &begins) && begins;
}

/* Whether a packet belongs to the source that the viewer gets, and is not older than its first keyframe. */
static bool is_current(outgoing *to, int track, const cpay_rtp_info *info) {
    if (!to->begun || track != to->track || info->ssrc != to->source) return false;
    uint16_t passed = (uint16_t)(info->sequence_number - to->first);
    if (passed >= 32768) return false;
    if (passed > 16384) to->first = (uint16_t)(info->sequence_number - 8192);
    return true;
}

/* Whether the temporal layer of a packet is left out: all packets of a picture, or none. More layers begin with a keyframe, in VP8
 * with a picture of the next layer that refers to the base layer alone, and in VP9 after a picture from which on pictures of
 * higher layers refer to no earlier ones of their layers. */
static bool leaves_out(outgoing *to, cpay_codec codec, const place *at) {
    const cpay_temporal_layer_info *of = &at->temporal;
    bool rises = at->first && to->layers < to->temporal;
    if (!at->layered) return false;
    if (at->first && to->layers > to->temporal) to->layers = to->temporal;
    if (rises && codec == CPAY_VP8 && of->sync && of->id == to->layers + 1) to->layers++;
    if (rises && codec == CPAY_VP9 && (at->spatial.intra || (of->sync && of->id <= to->layers))) to->layers = to->temporal;
    return of->id > to->layers;
}

/* Whether a packet of video is left out. The filter moves the marker. */
static bool is_left_out(outgoing *to, cpay_codec codec, const cpay_rtp_info *info, const place *at, bool *marker) {
    bool left_out = leaves_out(to, codec, at);
    if (codec != CPAY_VP9) return left_out;
    return cpay_spatial_filter_take(&to->filter, info->sequence_number, &at->spatial, marker) == CPAY_NONE || left_out;
}

/* A packet of the publisher waits for a viewer, if the viewer is to get it. Returns whether the viewer goes over with it. */
static bool offer(peer *it, peer *from, int track, const cpay_rtp_info *info, const uint8_t *datagram) {
    int kind = kind_of(track);
    outgoing *to = &it->viewer[kind];
    cpay_codec codec = it->media[kind].codec;
    waiting one = {.what = PACKET, .track = (uint8_t)track, .number = info->sequence_number, .ssrc = info->ssrc};
    if (!it->secure || !it->media[kind].used || codec != from->media[kind].codec) return false;
    bool began = begins(to, track, codec, info, datagram);
    if (began) {
        if (cpay_forwarder_want(&to->forwarder, info->ssrc)) return false;
        to->begun = true;
        to->source = info->ssrc;
        to->first = info->sequence_number;
        to->track = track;
        to->layers = to->temporal;
        to->filter = (cpay_spatial_filter_state){.wanted = to->filter.wanted};
    }
    if (!is_current(to, track, info)) return false;
    place at = place_of(codec, datagram + info->payload_at, info->payload_len);
    bool marker = info->marker, left_out = kind == VIDEO && is_left_out(to, codec, info, &at, &marker);
    if (marker && !info->marker) one.what = LAST_PACKET;
    if (left_out) path_leave_out(it, from, one);
    else
        path_push(it, kind == AUDIO ? CPAY_PATH_AUDIO : CPAY_PATH_MEDIA, one,
                  HEADER + info->payload_len * (kind == AUDIO ? 2 : 1));
    return began;
}

/* A packet that waited waits again, if the filter keeps it. */
void viewer_offer_again(peer *it, peer *from, waiting one, cpay_spatial_filter_state *filter) {
    uint8_t store[MOST_DATAGRAM];
    size_t size = 0;
    cpay_rtp_info info = {0};
    const uint8_t *datagram = packet_of(from, &one, store, &size);
    if (!datagram || cpay_rtp_read(datagram, size, &info)) return;
    place at = place_of(CPAY_VP9, datagram + info.payload_at, info.payload_len);
    bool marker = info.marker, out = cpay_spatial_filter_take(filter, one.number, &at.spatial, &marker) == CPAY_NONE;
    if (out || one.what == LEFT_OUT) {
        path_leave_out(it, from, one);
        return;
    }
    if (marker && !info.marker) one.what = LAST_PACKET;
    path_push(it, CPAY_PATH_MEDIA, one, HEADER + info.payload_len);
}

/* Packets of a keyframe that came before its first one. */
static void offer_early(peer *it, peer *from, int track, uint16_t number) {
    uint8_t datagram[MOST_DATAGRAM];
    size_t size = 0;
    cpay_rtp_info info = {0};
    cpay_resent found = CPAY_RESENT_NOT_KEPT;
    cpay_history *store = &publisher_source(from, track)->store;
    for (uint16_t last = number + EARLY; number++ != last;)
        if (!cpay_history_resend(store, 0, number, datagram, sizeof datagram, &size, &found) && found == CPAY_RESENT_WRITTEN &&
            !cpay_rtp_read(datagram, size, &info))
            offer(it, from, track, &info, datagram);
}

/* What the publisher sends is counted by its layers. */
static void count(peer *from, int track, const cpay_rtp_info *info, const uint8_t *datagram) {
    cpay_codec codec = from->media[kind_of(track)].codec;
    bool begins = false;
    const uint8_t *payload = datagram + info->payload_at;
    if (track != AUDIO && cpay_begins_keyframe(codec, payload, info->payload_len, &begins)) begins = false;
    place at = place_of(codec, payload, info->payload_len);
    publisher_count(from, track, info, (layer){at.spatial.layer, at.layered ? at.temporal.id : 0}, begins);
}

bool viewers_forward(peer *from, int track, const uint8_t *datagram, size_t size) {
    cpay_kept_once kept = CPAY_KEPT_KNOWN;
    cpay_rtp_info info = {0};
    if (cpay_history_keep_once(&publisher_source(from, track)->store, datagram, size, &kept)) return true;
    if (kept != CPAY_KEPT_NEW) return kept != CPAY_KEPT_KNOWN;
    if (cpay_rtp_read(datagram, size, &info)) return true;
    count(from, track, &info, datagram);
    fresh.bytes = datagram, fresh.size = size, fresh.ssrc = info.ssrc, fresh.number = info.sequence_number;
    EACH_PEER (it) {
        if (!it->viewer || strcmp(it->name, from->name)) continue;
        if (offer(it, from, track, &info, datagram)) offer_early(it, from, track, info.sequence_number);
        if (it->path->deadline == 0) path_send(it, from, now_us());
    }
    fresh.bytes = NULL;
    return true;
}

/* ---- RTCP of a viewer ---- */

/* The viewer begins with a keyframe again, and nothing before it is sent again. */
static void begins_again(peer *it) {
    outgoing *to = &it->viewer[VIDEO];
    for (size_t i = 0; i < MOST_NOTED; i++) to->notes[i].layer = BEFORE;
    viewer_stops(it);
}

/* Whether a packet of video is to be sent again. One of spatial layers that has not left waits, and leaves with its marker. If a
 * picture lacks a packet of a layer that the viewer does not get any more, browsers wait for it, and show no later picture: the
 * viewer begins again. */
static bool is_wanted(peer *it, const peer *from, uint16_t number) {
    outgoing *to = &it->viewer[VIDEO];
    size_t place = number % MOST_NOTED;
    if (!is_noted(to, number)) return from->layers_len > 1 || publisher_sizes(from) == 1;
    if (to->notes[place].layer != BEFORE && to->notes[place].layer > to->filter.wanted) begins_again(it);
    return to->notes[place].layer <= to->filter.wanted;
}

void viewer_resend(peer *it, peer *from, int kind, uint16_t number) {
    outgoing *to = &it->viewer[kind];
    bool padding = filled_under(to, number); /* the packet that was left out is not to come in its place */
    waiting one = {.what = padding ? FILLED : AGAIN, .track = (uint8_t)kind, .number = number};
    size_t size = padding ? HEADER + 1 : write_again(it, from, &one, NULL, 0);
    to->not_kept += size == 0;
    if (size == 0) return;
    bool refused = kind == VIDEO && !padding && !is_wanted(it, from, number);
    if (!refused && path_may_resend(it, number, size)) path_push(it, CPAY_PATH_RESENT, one, size);
    else to->refused++;
}

/* The usual share of losses, by what was sent between two reports. */
static void note_losses(outgoing *to) {
    cpay_forwarder_counts_info counts = {0};
    if (cpay_forwarder_counts(&to->forwarder, &counts) || counts.packets < to->sent_before + 20) return;
    int64_t lost = (int64_t)to->reported.lost - to->lost_before, sent = (int64_t)(counts.packets - to->sent_before);
    unsigned now = lost <= 0 ? 0 : lost >= sent ? 1000 : (unsigned)(1000 * lost / sent);
    to->losses = (7 * to->losses + now) / 8;
    to->sent_before = counts.packets;
    to->lost_before = to->reported.lost;
}

/* What the viewer reports: losses, and the round trip by the sender report that it names (RFC 3550, section 6.4.1). */
static void read_report(outgoing *to, const uint8_t *bytes, size_t size) {
    if (!rtcp_read_block(bytes, size, to->ssrc, &to->reported)) return;
    note_losses(to);
    if (to->reported.last == 0 || to->reported.last != to->report_ntp) return;
    uint64_t passed = now_ms() - to->report_sent, waited = (uint64_t)to->reported.delay * 1000 / 65536;
    to->round_trip = passed > waited ? passed - waited : 0;
}

void viewer_take(peer *it, const uint8_t *bytes, size_t size) {
    uint16_t numbers[512];
    peer *from = peer_publisher(it->name);
    path_hear(it, from, bytes, size);
    for (int kind = 0; kind < KINDS && from; kind++) {
        outgoing *to = &it->viewer[kind];
        size_t count = 0;
        if (!it->media[kind].used) continue;
        bool keyframe = false;
        if (cpay_read_requests(bytes, size, to->ssrc, false, numbers, 512, &count, &keyframe)) return;
        read_report(to, bytes, size);
        to->requested += count;
        for (size_t i = 0; kind == VIDEO && i < count && i < 512; i++) viewer_resend(it, from, kind, numbers[i]);
        to->keyframes_wanted += keyframe;
        if (keyframe) publisher_wants_keyframe(from, to->track);
    }
}

/* The publisher's clock on the viewer's time line, so that audio and video stay together. */
static void send_report(peer *it, int kind, uint32_t source, const cpay_sender_clock_info *clock, uint64_t now) {
    outgoing *to = &it->viewer[kind];
    uint64_t passed = now - clock->arrived, ntp_time = clock->ntp_time + (passed << 32) / 1000;
    cpay_sender_report_info report = {0};
    uint8_t *out = network_room();
    uint32_t rtp_time = clock->rtp_time + (uint32_t)(passed * rate_of(kind) / 1000);
    if (cpay_forwarder_report(&to->forwarder, source, rtp_time, &report)) return;
    to->report_sent = now;
    to->report_ntp = (uint32_t)(ntp_time >> 16);
    srtp_send(it, out, rtcp_write_report(out, ntp_time, &report, it->name), true);
}

static void tick_stream(peer *it, peer *from, int kind, uint64_t now) {
    outgoing *to = &it->viewer[kind];
    cpay_sender_clock_info clock = {0};
    uint32_t source = 0;
    if (kind == VIDEO && to->wanted > last_track(from)) to->wanted = last_track(from); /* the next publisher has fewer layers */
    bool gets = cpay_forwarder_source(&to->forwarder, &source) == CPAY_OK;
    bool waits = !to->begun || to->track != to->wanted || to->source != publisher_source(from, to->wanted)->ssrc;
    if (it->media[kind].codec == CPAY_VP9) waits |= to->filter.kept < to->filter.wanted;
    if (kind == VIDEO && waits) publisher_wants_keyframe(from, to->wanted);
    bool same = gets && source == publisher_source(from, to->track)->ssrc;
    if (same && now - to->report_sent >= REPORT_INTERVAL && publisher_clock(from, to->track, &clock))
        send_report(it, kind, source, &clock, now);
}

void viewer_tick(peer *it, uint64_t now) {
    peer *from = peer_publisher(it->name);
    for (int kind = 0; kind < KINDS && from && it->secure; kind++)
        if (it->media[kind].used) tick_stream(it, from, kind, now);
}

/* ---- the viewer's wishes, and its counts ---- */

/* `T0` to `T3`: the highest temporal layer. A RID, or S0 to S2: this size. `fits`: the size that fits the path; `fits RID`: at most
 * this one. */
bool viewer_wants_layer(peer *it, const char *name) {
    const peer *from = peer_publisher(it->name);
    wishes *wish = it->viewer ? &it->path->wishes : NULL;
    bool fits = !strncmp(name, "fits", 4) && (name[4] == ' ' || !name[4]);
    if (!wish) return false;
    if (name[0] == 'T' && name[1] >= '0' && name[1] <= '0' + ALL_LAYERS && !name[2]) {
        wish->temporal = name[1] - '0';
        return true;
    }
    if (fits && !name[4]) {
        wish->least = 0, wish->most = MOST_SIZES - 1;
        return true;
    }
    for (int i = 0; from && i < publisher_sizes(from); i++) {
        if (!*publisher_size_name(from, i) || strcmp(publisher_size_name(from, i), fits ? name + 5 : name)) continue;
        wish->most = i;
        wish->least = fits ? 0 : i;
        return true;
    }
    return false;
}

static void path_stats(const viewer_path *path, FILE *to) {
    fprintf(to,
            COUNT("estimate") COUNT("queued") COUNT("dropped") COUNT("padding") COUNT("pathRoundTrip")
                COUNT("standing") COUNT("usualLosses") COUNT("trial") "\"choice\":%d,\"rates\":[",
            path->follows ? path->state.estimate : 0, path->state.waiting, path->dropped, path->padding, path->round_trip / 1000,
            path->knows.standing / 1000, path->knows.usual_losses, path->knows.trial_rate, path->choice);
    for (size_t i = 0; i < path->rates_len; i++) fprintf(to, "%s%" PRIu64, i ? "," : "", path->rates[i]);
    fputs("],", to);
}

void viewer_stats(peer *it, FILE *to) {
    const peer *from = peer_publisher(it->name);
    const char *comma = "";
    path_stats(it->path, to);
    fputs("\"streams\":[", to);
    for (int kind = 0; kind < KINDS; kind++) {
        outgoing *of = &it->viewer[kind];
        cpay_forwarder_counts_info counts = {0};
        if (!it->media[kind].used || cpay_forwarder_counts(&of->forwarder, &counts)) continue;
        fputs(comma, to);
        comma = ",";
        stats_stream(to, kind, &it->media[kind], kind == VIDEO && from ? publisher_size_name(from, viewer_size(it, from)) : "");
        fprintf(to,
                COUNT("packets") COUNT("bytes") COUNT("resent") COUNT("leftOut") COUNT("filled") COUNT("switches")
                    COUNT("requested") COUNT("refused") COUNT("notKept") COUNT("keyframesRequested")
                        COUNT("roundTrip") "\"temporal\":%d,\"lost\":%d}",
                counts.packets, counts.octets, counts.resent, counts.left_out, counts.filled, counts.switches, of->requested,
                of->refused, of->not_kept, of->keyframes_wanted, of->round_trip, of->temporal, of->reported.lost);
    }
    fputs("]", to);
}

void viewer_free(peer *it) {
    for (int kind = 0; kind < KINDS; kind++) {
        cpay_forwarder_free(&it->viewer[kind].forwarder);
        cpay_red_sender_free(&it->viewer[kind].red);
    }
    free(it->viewer);
    it->viewer = NULL;
    path_free(it);
}

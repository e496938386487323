/* A publisher: its datagrams go into a session of the library. The session's feedback goes back, its units are recorded, and each
 * packet goes to the viewers. */
#include "server.h"

#include <libavutil/intreadwrite.h>
#include <stdlib.h>
#include <string.h>

enum {
    MOST_STREAMS = 8,                   /* of a publisher */
    MOST_HELD = 2048,                   /* packets of a stream */
    MOST_UNIT = 1 << 20,                /* bytes */
    MOST_MISSING = 256,                 /* numbers that are requested: their NACK fits a datagram */
    MOST_KEPT = 2048,                   /* packets of a stream, for viewers that request them */
    MOST_FORWARDED = MOST_DATAGRAM - 2  /* bytes of a packet: a retransmission has two more */
};

/* What is known about the latest stream of a track. */
typedef struct {
    source source;
    bool begun;
    cpay_session_stream stream; /* as the session described it last: at its end the session forgets it */
    cpay_report_block_info reported;
    uint64_t frames, bytes, keyframes, faults, requested, keyframes_requested;
    uint64_t waited, longest_wait; /* ms from the first packet of a frame to its release: of all frames, and of one */
    rates rates;
} track;

struct publisher {
    cpay_session session;
    recording *record;
    track tracks[TRACKS];
    uint32_t ssrc;     /* ours */
    uint32_t red_step; /* ticks of a packet of audio, with RED */
    offering offering; /* with REMB */
};

int last_track(const peer *it) { return VIDEO + (it->layers_len > 1 ? it->layers_len - 1 : 0); }

/* The sizes of the picture, from the smallest one: the layers of simulcast, or the spatial layers of the only stream. */
int publisher_sizes(const peer *it) { return it->layers_len > 1 ? it->layers_len : it->publisher->tracks[VIDEO].rates.highest + 1; }

int publisher_size_track(const peer *it, int size) { return it->layers_len > 1 ? VIDEO + size : VIDEO; }

/* The RID of a layer of simulcast, or S0 to S2; "" if there is one size alone. */
const char *publisher_size_name(const peer *it, int size) {
    static const char *const spatial[MOST_SPATIAL] = {"S0", "S1", "S2"};
    if (it->layers_len > 1) return it->layers[size];
    return publisher_sizes(it) > 1 ? spatial[size] : "";
}

static int number_of(const peer *it, const track *of) { return (int)(of - it->publisher->tracks); }

/* AUDIO or VIDEO; -1: the answer does not have the payload type. */
static int kind_with(const peer *it, uint8_t payload_type) {
    for (int kind = 0; kind < KINDS; kind++)
        if (it->media[kind].used && it->media[kind].payload_type == payload_type) return kind;
    return -1;
}

/* ---- the beginning ---- */

static bool begin_session(peer *it, cpay_sdp_session_settings *found) {
    cpay_session_settings *settings = &found->settings;
    size_t kept = 0;
    for (size_t i = 0; i < found->formats_len; i++) {
        if (kind_with(it, found->formats[i].payload_type) < 0) continue;
        if (found->formats[i].has_red) it->publisher->red_step = found->formats[i].red_step;
        found->formats[kept++] = found->formats[i];
    }
    settings->max_streams = MOST_STREAMS;
    settings->limit = MOST_HELD;
    settings->max_unit = MOST_UNIT;
    settings->from_keyframe = CPAY_KEYFRAME_DROP;
    settings->has_transport = it->transport_id != 0;
    settings->transport.extension_id = it->transport_id;
    if (cpay_session_settings_feedback(settings, it->publisher->ssrc, (const uint8_t *)"live_server", 11)) return false;
    settings->feedback.capacity = MOST_MISSING;
    return cpay_session_new(&it->publisher->session, settings, found->formats, kept, found->no_media, found->no_media_len,
                            found->pairs, found->pairs_len) == CPAY_OK;
}

/* The offer, and not the answer, has the SSRCs. */
const char *publisher_begin(peer *it, const cpay_sdp_media *media, size_t count) {
    static cpay_sdp_session_settings found;
    cpay_sdp_session_fault wrong = {0, CPAY_SDP_NO_CLASH};
    char name[MOST_NAME + 32];
    if (cpay_sdp_session(media, count, &found, &wrong)) return cpay_sdp_session_error_text(wrong.error);
    if (!(it->publisher = calloc(1, sizeof *it->publisher))) return "Out of memory.\n";
    secret(&it->publisher->ssrc, sizeof it->publisher->ssrc);
    snprintf(name, sizeof name, "%s-%llu", it->name, (unsigned long long)it->number);
    it->publisher->record = record_new(name, it->media);
    if (the.remb && !offer_begin(&it->publisher->offering)) return "Out of memory.\n";
    return it->publisher->record && begin_session(it, &found) ? NULL : "Out of memory.\n";
}

/* ---- packets ---- */

/* The track of a stream by its payload type and, with simulcast, by its RID. NULL: none. */
static track *track_of(const peer *it, uint8_t payload_type, uint32_t ssrc) {
    track *tracks = it->publisher->tracks;
    int kind = kind_with(it, payload_type);
    cpay_stream_names names;
    if (kind < 0) return NULL;
    if (kind == AUDIO || it->layers_len < 2) return &tracks[kind];
    for (int i = VIDEO; i <= last_track(it); i++)
        if (tracks[i].source.arrived && tracks[i].source.ssrc == ssrc) return &tracks[i];
    if (cpay_session_names(&it->publisher->session, ssrc, payload_type, &names)) return NULL;
    for (int i = 0; i < it->layers_len; i++)
        if (strlen(it->layers[i]) == names.rid_len && !memcmp(it->layers[i], names.rid, names.rid_len)) return &tracks[VIDEO + i];
    return NULL;
}

/* Notes what the session says about the stream of each track. */
static void describe(peer *it) {
    cpay_session *session = &it->publisher->session;
    cpay_session_stream stream = {0};
    for (size_t place = 0; cpay_session_stream_at(session, place, &stream) == CPAY_OK; place++) {
        track *of = track_of(it, stream.payload_type, stream.ssrc);
        if (of && of->source.ssrc == stream.ssrc &&
            !cpay_session_peek_report(session, now_ms(), stream.ssrc, stream.payload_type, &of->reported))
            of->stream = stream;
    }
}

/* The packets of a track that are lost: 24 bits with a sign (RFC 3550, section 6.4.1). */
static int lost_of(const track *of) {
    uint32_t lost = of->reported.cumulative_lost;
    return lost < 1 << 23 ? (int)lost : (int)lost - (1 << 24);
}

/* The packets in RED (RFC 2198), each under its own number: one that was lost is forwarded from a later packet. */
static void forward_red(peer *it, const cpay_rtp_info *info, const uint8_t *bytes) {
    uint8_t out[MOST_DATAGRAM], opus = it->media[AUDIO].payload_type;
    cpay_recovered_info one = {0};
    for (size_t i = 0; i < 33; i++) {
        if (cpay_red_recover(opus, it->publisher->red_step, 65536 + (uint64_t)info->sequence_number, info->timestamp,
                             bytes + info->payload_at, info->payload_len, i, &one, out + 12, sizeof out - 12))
            return;
        AV_WB16(out, 0x8000u | (one.is_primary && info->marker ? 0x80u : 0) | opus);
        AV_WB16(out + 2, (uint16_t)one.number);
        AV_WB32(out + 4, one.rtp_time);
        AV_WB32(out + 8, info->ssrc);
        if (one.bytes) viewers_forward(it, AUDIO, out, 12 + one.bytes);
    }
}

/* Another SSRC has other numbers, and so another store. */
static bool begin_source(source *to, uint32_t ssrc) {
    cpay_history_settings settings = {.limit = MOST_KEPT};
    if (to->arrived && to->ssrc == ssrc) return true;
    cpay_history_free(&to->store);
    to->ssrc = ssrc;
    return to->arrived = cpay_history_new(&to->store, &settings) == CPAY_OK;
}

/* Forwards the packet itself, those that are in RED, or the one that a retransmission repeats. */
static void forward(peer *it, const cpay_arrival *arrival, const uint8_t *bytes, size_t size) {
    uint8_t original[MOST_DATAGRAM];
    cpay_rtp_info info = {0};
    track *of = track_of(it, arrival->payload_type, arrival->ssrc);
    if (!of || size > MOST_FORWARDED || cpay_rtp_read(bytes, size, &info) || !begin_source(&of->source, arrival->ssrc)) return;
    int number = number_of(it, of);
    uint8_t red = it->media[kind_of(number)].red_payload_type;
    if (info.payload_type == arrival->payload_type) viewers_forward(it, number, bytes, size);
    else if (red && info.payload_type == red) forward_red(it, &info, bytes);
    else if (cpay_rtx_original(arrival->ssrc, arrival->payload_type, bytes, size, original, sizeof original, &size) == CPAY_OK)
        viewers_forward(it, number, original, size);
}

static void send_rtcp(peer *it, const uint8_t *bytes, size_t size) {
    uint8_t *out = network_room();
    if (size > MOST_DATAGRAM) return;
    memcpy(out, bytes, size);
    srtp_send(it, out, size, true);
}

/* Offers a rate to the publisher if that is due: for all layers together. */
static void offer_rate(peer *it, uint64_t now) {
    publisher *own = it->publisher;
    uint8_t bytes[64];
    uint32_t ssrcs[TRACKS];
    size_t count = 0, size = 0;
    for (int i = VIDEO; i < TRACKS; i++)
        if (own->tracks[i].source.arrived) ssrcs[count++] = own->tracks[i].source.ssrc;
    if (count == 0 || !offer_due(&own->offering, now, own->tracks[last_track(it)].stream.round_trip * 1000)) return;
    if (cpay_write_remb(own->ssrc, own->offering.rate, ssrcs, count, bytes, sizeof bytes, &size) == CPAY_OK)
        send_rtcp(it, bytes, size);
}

/* Without abs-send-time the time of the layer that viewers get first counts alone: other layers have other times. */
static void note_arrival(peer *it, const uint8_t *bytes, size_t size) {
    offering *to = &it->publisher->offering;
    const source *of = &it->publisher->tracks[last_track(it)].source;
    cpay_rtp_info info = {0};
    uint64_t now = now_us();
    if (cpay_is_rtcp(bytes, size)) return;
    if (it->send_time_id) offer_note(to, it->send_time_id, bytes, size, now);
    else if (!cpay_rtp_read(bytes, size, &info) && of->arrived && of->ssrc == info.ssrc) offer_note_by(to, info.timestamp, size, now);
    offer_rate(it, now);
}

/* A datagram for which the session has no memory is a loss. */
void publisher_take(peer *it, uint8_t *bytes, size_t size) {
    cpay_arrival arrival = {0};
    bool taken = !cpay_session_receive_at(&it->publisher->session, now_ms(), now_us(), bytes, size, &arrival);
    if (taken && arrival.kind == CPAY_ARRIVAL_STREAM && !arrival.status) forward(it, &arrival, bytes, size);
    if (the.remb) note_arrival(it, bytes, size);
}

/* ---- events ---- */

static void count_unit(track *to, const cpay_event *event) {
    uint64_t waited = now_ms() - event->unit.received;
    to->frames++;
    to->bytes += event->bytes;
    to->keyframes += event->unit.keyframe;
    to->waited += waited;
    if (waited > to->longest_wait) to->longest_wait = waited;
}

static void count_requests(track *to, const cpay_event *event) {
    uint16_t numbers[1];
    size_t count = 0;
    bool keyframe = false;
    if (cpay_read_requests(event->data, event->bytes, event->ssrc, false, numbers, 1, &count, &keyframe)) return;
    to->requested += count;
    to->keyframes_requested += keyframe;
}

static bool is_recorded(const peer *it, int number) { return number == AUDIO || number == last_track(it); }

static void handle(peer *it, const cpay_event *event) {
    if (event->kind == CPAY_EVENT_REPORT || event->kind == CPAY_EVENT_FEEDBACK || event->kind == CPAY_EVENT_TRANSPORT_FEEDBACK)
        send_rtcp(it, event->data, event->bytes);
    track *to = track_of(it, event->payload_type, event->ssrc);
    if (!to) return;
    int number = number_of(it, to);
    switch (event->kind) {
    case CPAY_EVENT_BEGUN:
        to->begun = true;
        peer_says(it, it->media[kind_of(number)].name);
        break;
    case CPAY_EVENT_UNIT:
        count_unit(to, event);
        if (is_recorded(it, number)) record_unit(it->publisher->record, kind_of(number), &event->unit, event->data);
        break;
    case CPAY_EVENT_FEEDBACK: count_requests(to, event); break;
    case CPAY_EVENT_FAULT: to->faults++; break;
    default: break;
    }
}

void publisher_poll(peer *it) {
    cpay_event event = {0};
    while (cpay_session_poll(&it->publisher->session, now_ms(), &event) == CPAY_OK) handle(it, &event);
}

uint64_t publisher_deadline(peer *it) {
    uint64_t at;
    return cpay_session_next_deadline(&it->publisher->session, &at) == CPAY_OK ? at : UINT64_MAX;
}

/* ---- what is due by the clock ---- */

/* A request for a viewer. The session sends a PLI with its next feedback, within its own limit. */
void publisher_wants_keyframe(peer *it, int number) {
    cpay_keyframe_answer answer;
    const track *of = &it->publisher->tracks[number];
    if (of->source.arrived) (void)!cpay_session_request_keyframe(&it->publisher->session, of->source.ssrc, &answer);
}

bool publisher_clock(peer *it, int number, cpay_sender_clock_info *clock) {
    const track *of = &it->publisher->tracks[number];
    uint8_t payload_type = it->media[kind_of(number)].payload_type;
    return of->begun && cpay_session_sender_clock(&it->publisher->session, of->source.ssrc, payload_type, clock) == CPAY_OK;
}

void publisher_count(peer *it, int number, const cpay_rtp_info *info, layer at, bool begins_keyframe) {
    rates_count(&it->publisher->tracks[number].rates, number != AUDIO, info, at, begins_keyframe);
}

source *publisher_source(peer *it, int number) { return &it->publisher->tracks[number].source; }

const rates *publisher_rates(const peer *it, int number) { return &it->publisher->tracks[number].rates; }

void publisher_tick(peer *it, uint64_t now) {
    publisher *own = it->publisher;
    cpay_sender_clock_info clock = {0};
    for (int i = 0; i < TRACKS; i++) rates_measure(&own->tracks[i].rates, now);
    for (int i = 0; i < TRACKS; i++)
        if (is_recorded(it, i) && publisher_clock(it, i, &clock)) record_clock(own->record, kind_of(i), &clock);
    if (!the.remb) return;
    describe(it);
    for (int i = 0; i < TRACKS; i++) offer_losses(&own->offering, i, lost_of(&own->tracks[i]));
    offer_rate(it, now_us());
}

/* ---- counts ---- */

static void track_stats(const peer *it, int number, FILE *to) {
    const track *of = &it->publisher->tracks[number];
    const cpay_receiver_counts_info *counts = &of->stream.counts;
    stats_stream(to, kind_of(number), &it->media[kind_of(number)],
                 number != AUDIO && it->layers_len > 1 ? it->layers[number - VIDEO] : "");
    fprintf(to,
            COUNT("packets") COUNT("bytes") COUNT("frames") COUNT("keyframes") COUNT("requested") COUNT("keyframesRequested")
                COUNT("recovered") COUNT("late") COUNT("duplicates") COUNT("probes") COUNT("incomplete") COUNT("undecodable") COUNT("faults")
                    COUNT("held") COUNT("waited") COUNT("longestWait") COUNT("roundTrip") COUNT("jitter") "\"lost\":%d}",
            of->stream.taken, of->bytes, of->frames, of->keyframes, of->requested, of->keyframes_requested,
            counts->retransmitted + counts->recovered, counts->late, counts->duplicates, of->stream.probes, counts->incomplete,
            counts->undecodable, of->faults, (uint64_t)counts->held, of->waited, of->longest_wait, of->stream.round_trip,
            (uint64_t)of->reported.jitter, lost_of(of));
}

void publisher_stats(peer *it, FILE *to) {
    publisher *own = it->publisher;
    cpay_session_counts_info counts = {0};
    const char *comma = "";
    describe(it);
    if (cpay_session_counts(&own->session, &counts)) counts = (cpay_session_counts_info){0};
    fprintf(to,
            COUNT("received") COUNT("rtcp") COUNT("malformed") COUNT("unknown") COUNT("unassociated") COUNT("offered"),
            counts.received, counts.rtcp, counts.malformed, counts.unknown, counts.unassociated, own->offering.rate);
    record_stats(own->record, to);
    fputs("\"sizes\":[", to);
    for (int i = 0; i < publisher_sizes(it); i++) fprintf(to, "%s\"%s\"", i ? "," : "", publisher_size_name(it, i));
    fputs("],\"streams\":[", to);
    for (int i = 0; i < TRACKS; i++) {
        if (!own->tracks[i].begun) continue;
        fputs(comma, to);
        track_stats(it, i, to);
        comma = ",";
    }
    fputs("]", to);
}

void publisher_free(peer *it) {
    publisher *own = it->publisher;
    if (cpay_session_finish(&own->session, now_ms()) == CPAY_OK) publisher_poll(it);
    record_free(own->record);
    cpay_session_free(&own->session);
    offer_free(&own->offering);
    for (int i = 0; i < TRACKS; i++) cpay_history_free(&own->tracks[i].source.store);
    free(own);
    it->publisher = NULL;
}

#include "streams.h"

#include "guess.h"
#include "message.h"

#include <errno.h>
#include <inttypes.h>
#include <stdio.h>
#include <stdlib.h>
#include <string.h>
#include <sys/stat.h>

/* ---- finding ---- */

static bool is_stream(const stream *it, const wire_flow *flow, uint32_t ssrc) {
    return it->ssrc == ssrc && memcmp(&it->flow, flow, sizeof *flow) == 0;
}

static size_t bucket_of(const wire_flow *flow, uint32_t ssrc) {
    uint32_t mixed = (ssrc ^ (uint32_t)flow->source_port << 16 ^ flow->destination_port) * 2654435761u;
    return mixed >> 22; /* the upper bits of a product are the mixed ones: 10 of them, for 1024 buckets */
}

/* The stream of a flow and an SSRC that was found or added last. */
static stream *find(streams *it, const wire_flow *flow, uint32_t ssrc) {
    if (it->latest && is_stream(it->latest, flow, ssrc)) return it->latest;
    for (stream *one = it->buckets[bucket_of(flow, ssrc)]; one; one = one->next)
        if (is_stream(one, flow, ssrc)) return it->latest = one;
    return NULL;
}

static stream *add(streams *it, const wire_flow *flow, uint32_t ssrc) {
    if (it->count == MOST_STREAMS) return NULL;
    if (it->count == it->room) {
        size_t room = it->room ? 2 * it->room : 16;
        stream **grown = realloc(it->list, room * sizeof *grown);
        if (!grown) return NULL;
        it->list = grown;
        it->room = room;
    }
    stream *made = calloc(1, sizeof *made);
    if (!made) return NULL;
    made->flow = *flow;
    made->ssrc = ssrc;
    made->use = codec_use_unknown();
    made->payload_type = made->red_payload_type = PAYLOAD_TYPES;
    stream **bucket = &it->buckets[bucket_of(flow, ssrc)];
    made->next = *bucket;
    *bucket = made;
    return it->list[it->count++] = made;
}

/* ---- what its payload types are ---- */

/* The payload type inside RED: the signalled one, else the type of the packet's primary block, or PAYLOAD_TYPES. */
static uint8_t type_in_red(const codec_use *red, const uint8_t *payload, size_t size) {
    static uint8_t media[UINT16_MAX];
    cpay_red_block_info block = {0};
    if (red->inner < PAYLOAD_TYPES) return red->inner;
    for (size_t i = 0; cpay_red_block(payload, size, i, &block, media, sizeof media) == CPAY_OK; i++)
        if (block.is_primary) return block.payload_type;
    return PAYLOAD_TYPES;
}

/* Settles the codec by the payload type of a packet, if it is known. */
static void settle_by(stream *it, const signalling *known, const record_packet *packet) {
    uint8_t payload_type = packet->header.payload_type;
    codec_use use = signalling_use(known, &it->flow, it->ssrc, payload_type);
    it->encrypted = signalling_encrypts(known, &it->flow, it->ssrc, payload_type);
    if (use.codec->kind == CODEC_RED && !it->encrypted) {
        uint8_t type = type_in_red(&use, packet->bytes + packet->header.payload_at, packet->header.payload_len);
        codec_use inner = type < PAYLOAD_TYPES ? signalling_use(known, &it->flow, it->ssrc, type) : codec_use_unknown();
        if (!codec_is_media(&inner)) return;
        it->red_payload_type = payload_type;
        it->payload_type = type;
        use = inner;
    } else if (codec_is_media(&use)) {
        it->payload_type = payload_type;
        if (use.codec->kind == CODEC_AUDIO) /* whose sender may go over to RED later */
            it->red_payload_type = signalling_around(known, &it->flow, it->ssrc, &use, payload_type, CODEC_RED);
    } else if (use.codec->kind != CODEC_UNSUPPORTED) {
        if (it->use.codec->kind == CODEC_UNKNOWN) it->use = use; /* as it is called; media may come yet */
        return;
    }
    it->use = use;
    it->settled = true;
}

/* Types that come beside media: events, comfort noise and the like. */
static size_t beside(const stream *it, const signalling *known, uint8_t types[PAYLOAD_TYPES]) {
    size_t count = 0;
    for (uint8_t type = 0; type < PAYLOAD_TYPES; type++) {
        codec_use use = signalling_use(known, &it->flow, it->ssrc, type);
        bool carries_none = use.codec->kind == CODEC_EVENTS || use.codec->kind == CODEC_BESIDE || use.codec->kind == CODEC_RTX;
        if (carries_none && type != it->payload_type && type != it->red_payload_type) types[count++] = type;
    }
    return count;
}

/* Whether the payload type is another format of the sender, which this stream does not record. */
static bool is_other_format(const stream *it, const signalling *known, uint8_t payload_type) {
    if (!it->settled || payload_type == it->payload_type || payload_type == it->red_payload_type) return false;
    codec_use use = signalling_use(known, &it->flow, it->ssrc, payload_type);
    return codec_is_media(&use);
}

/* The stream of a packet. A sender may change its format and keep its SSRC (RFC 3550, section 5.1). Each format is a separate stream,
 * and a packet goes to the stream of its payload type. NULL: too many streams, or out of memory. */
static stream *stream_of(streams *all, const signalling *known, const wire_flow *flow, const cpay_rtp_info *header) {
    stream *it = find(all, flow, header->ssrc);
    if (!it) return add(all, flow, header->ssrc);
    if (!is_other_format(it, known, header->payload_type)) return it;
    for (stream *one = all->buckets[bucket_of(flow, header->ssrc)]; one; one = one->next)
        if (is_stream(one, flow, header->ssrc) && !is_other_format(one, known, header->payload_type)) return all->latest = one;
    return all->latest = add(all, flow, header->ssrc);
}

/* ---- recording ---- */

/* The step from the previous packet to the packet at a place, in ticks of the RTP clock. 0 if their numbers are not consecutive, or
 * if RED cannot express the step (RFC 2198, section 3: 14 bits). */
static uint32_t step_at(const stream *it, size_t place) {
    const cpay_rtp_info *before = &it->kept[place - 1].header, *packet = &it->kept[place].header;
    uint32_t step = packet->timestamp - before->timestamp;
    bool follows = packet->sequence_number == (uint16_t)(before->sequence_number + 1);
    return follows && step < 1 << 14 ? step : 0;
}

/* The step of a stream in RED, in ticks of the RTP clock: the most frequent step of the kept packets. If two are equally frequent, the
 * smaller one; if no step is known, 20 ms. A single step says little: GStreamer's first Opus packet lasts 648 ticks, the others 960. */
static uint32_t step_of(const stream *it) {
    uint32_t found = it->use.rate / 50;
    size_t most = 0;
    for (size_t i = 1; i < it->kept_count; i++) {
        uint32_t step = step_at(it, i);
        size_t times = 0;
        for (size_t k = 1; k < it->kept_count; k++) times += step_at(it, k) == step;
        if (step > 0 && (times > most || (times == most && step < found))) {
            found = step;
            most = times;
        }
    }
    return found;
}

/* The path of a stream's file: FOLDER/SSRC.ENDING, or a name beside the named file. A second flow with the same SSRC, and a second
 * stream beside a file, get another name. NULL: out of memory. */
static char *path_of(const streams *all, const stream *it, const streams_output *output, const char *ending) {
    size_t before = 0;
    char number[24] = "";
    for (size_t i = 0; all->list[i] != it; i++) before += all->list[i]->ssrc == it->ssrc;
    if (before > 0) snprintf(number, sizeof number, "-%zu", before + 1);
    const char *base = output->folder ? output->folder : output->file;
    size_t size = strlen(base) + strlen(ending) + 48;
    char *path = malloc(size);
    if (!path) return NULL;
    const char *dot = strrchr(base, '.');
    int stem = output->folder || !dot ? (int)strlen(base) : (int)(dot - base);
    if (it->has_name) snprintf(path, size, "%.*s.%s", stem, base, ending);
    else snprintf(path, size, "%.*s%c%08" PRIx32 "%s.%s", stem, base, output->folder ? '/' : '-', it->ssrc, number, ending);
    return path;
}

/* The file of one stream alone. */
static void begin_file(streams *all, stream *it, const record_stream *described, streams_output *output) {
    const char *ending = it->use.codec->extension;
    if (output->folder && mkdir(output->folder, 0777) != 0 && errno != EEXIST)
        complain("%s: %s", output->folder, strerror(errno));
    if (output->file) {
        it->has_name = !output->file_is_taken;
        output->file_is_taken = true;
        ending = strrchr(output->file, '.') + 1;
    }
    it->path = path_of(all, it, output, ending);
    if (it->path) it->file = writer_new(it->path, 1);
    if (it->file) it->record = record_open(described, it->file, 0, &output->options);
}

/* Adds the retransmissions of a stream, if an SDP names their SSRC and their payload type. */
static void describe_rtx(record_stream *described, const stream *it, const signalling *known) {
    const cpay_sdp_source *source = signalling_source(known, it->ssrc);
    if (!source || !source->has_rtx || source->ssrc != it->ssrc) return;
    described->rtx_ssrc = source->rtx_ssrc;
    described->rtx_payload_type = signalling_around(known, &it->flow, it->ssrc, &it->use, it->payload_type, CODEC_RTX);
    described->has_rtx = described->rtx_payload_type < PAYLOAD_TYPES;
}

static void begin_record(streams *all, stream *it, const signalling *known, streams_output *output) {
    uint8_t types[PAYLOAD_TYPES];
    record_stream described = {
        .use = it->use,
        .ssrc = it->ssrc,
        .payload_type = it->payload_type,
        .has_red = it->red_payload_type < PAYLOAD_TYPES,
        .red_payload_type = it->red_payload_type,
        .red_step = step_of(it),
        .no_media = types,
    };
    described.no_media_len = beside(it, known, types);
    describe_rtx(&described, it, known);
    if (output->together) {
        size_t track = 0;
        for (size_t i = 0; i < all->count; i++) track += all->list[i]->record != NULL;
        it->path = strdup(output->mux);
        it->record = record_open(&described, output->together, track, &output->options);
    } else {
        begin_file(all, it, &described, output);
    }
    if (!it->record) return;
    it->recorded = true;
    for (size_t i = 0; i < REPORTS && i < all->report_count; i++) {
        const wire_report *report = &all->reports[i];
        if (report->ssrc == it->ssrc) record_sender_report(it->record, report->ntp, report->rtp_time);
    }
}

/* A packet of a stream whose codec is known goes to its file and its events. */
static void take(stream *it, const signalling *known, const record_packet *packet) {
    uint8_t payload_type = packet->header.payload_type;
    if (it->record) record_take(it->record, packet);
    if (!it->events && payload_type != it->payload_type && payload_type != it->red_payload_type) {
        codec_use use = signalling_use(known, &it->flow, it->ssrc, payload_type);
        if (use.codec->kind == CODEC_EVENTS) it->events = events_new(payload_type, use.rate);
    }
    if (it->events) events_datagram(it->events, packet->time, packet->bytes, packet->size);
}

/* A retransmission goes to the streams of the SSRC whose packets are retransmitted. */
static void repair(const streams *all, const stream *it, const signalling *known, const record_packet *packet) {
    const cpay_sdp_source *source = signalling_source(known, it->ssrc);
    if (!source || source->ssrc == it->ssrc) return;
    for (stream *one = all->buckets[bucket_of(&it->flow, source->ssrc)]; one; one = one->next)
        if (is_stream(one, &it->flow, source->ssrc) && one->record) record_take(one->record, packet);
}

static void drop_kept(streams *all, stream *it) {
    for (size_t i = 0; i < it->kept_count; i++) {
        all->kept_bytes -= it->kept[i].size;
        free((uint8_t *)it->kept[i].bytes);
    }
    it->kept_count = 0;
}

/* Counts the kept packets again, now that the rate of their clock is known. */
static void count_again(stream *it) {
    if (it->packets != it->kept_count) return;
    it->headers = (statistics){0};
    for (size_t i = 0; i < it->kept_count; i++)
        statistics_packet(&it->headers, it->kept[i].time, it->use.rate, &it->kept[i].header);
}

/* The codec is known, or stays unknown: the kept packets go to the record and the events. */
static void settle(streams *all, stream *it, const signalling *known, streams_output *output) {
    if (!it->settled && it->use.codec->kind == CODEC_UNKNOWN) {
        it->use = guess_codec(it);
        for (size_t i = 0; i < it->kept_count && it->payload_type == PAYLOAD_TYPES; i++)
            it->payload_type = it->kept[i].header.payload_type;
        count_again(it);
    }
    it->settled = true;
    bool writes = (output->folder || output->file || output->together) && it->valid && !it->encrypted && codec_is_media(&it->use);
    if (writes) begin_record(all, it, known, output);
    for (size_t i = 0; i < it->kept_count; i++) take(it, known, &it->kept[i]);
    drop_kept(all, it);
}

static void keep(streams *all, stream *it, const record_packet *packet) {
    uint8_t *copy = malloc(packet->size);
    if (!copy) return;
    memcpy(copy, packet->bytes, packet->size);
    it->kept[it->kept_count] = *packet;
    it->kept[it->kept_count++].bytes = copy;
    all->kept_bytes += packet->size;
}

/* The codec of a stream is known, and of a stream in RED how far apart its packets are. */
static bool knows_enough(const stream *it) {
    return it->settled && (it->red_payload_type == PAYLOAD_TYPES || it->kept_count >= STEPS_SEEN);
}

/* Keeps packets until the stream is valid and its codec known. Once too many are kept, settles the stream with what is known. */
static void keep_or_settle(streams *all, stream *it, const signalling *known, streams_output *output, const record_packet *packet) {
    keep(all, it, packet);
    bool full = it->kept_count == MOST_KEPT || all->kept_bytes > MOST_KEPT_BYTES;
    if (!it->valid && full) drop_kept(all, it);
    else if (it->valid && (knows_enough(it) || full)) settle(all, it, known, output);
}

/* ---- datagrams ---- */

static void count_packet(stream *it, const record_packet *packet) {
    if (it->packets == 0) it->first = packet->time;
    else if ((uint16_t)(packet->header.sequence_number - it->number) == 1) it->valid = true;
    it->number = packet->header.sequence_number;
    it->packets++;
    it->bytes += packet->size;
    it->of_type[packet->header.payload_type]++;
    if (packet->time > it->last) it->last = packet->time;
    statistics_packet(&it->headers, packet->time, it->use.rate, &packet->header);
}

static void take_rtp(streams *all, const signalling *known, streams_output *output, uint64_t time, const wire_datagram *datagram) {
    record_packet packet = {.time = time, .bytes = datagram->payload.at, .size = datagram->payload.left};
    if (cpay_rtp_read(packet.bytes, packet.size, &packet.header)) {
        all->malformed++;
        return;
    }
    stream *it = stream_of(all, known, &datagram->flow, &packet.header);
    if (!it) {
        all->too_many++;
        return;
    }
    all->rtp++;
    if (!it->settled) settle_by(it, known, &packet);
    count_packet(it, &packet);
    if (it->use.codec->kind == CODEC_RTX) repair(all, it, known, &packet);
    if (it->settled && it->valid && it->kept_count == 0) take(it, known, &packet);
    else keep_or_settle(all, it, known, output, &packet);
}

static void take_rtcp(streams *it, wire_bytes rtcp) {
    wire_report report;
    it->rtcp++;
    while (wire_next_report(&rtcp, &report)) {
        it->reports[it->report_count++ % REPORTS] = report;
        for (size_t i = 0; i < it->count; i++)
            if (it->list[i]->ssrc == report.ssrc && it->list[i]->record)
                record_sender_report(it->list[i]->record, report.ntp, report.rtp_time);
    }
}

void streams_datagram(streams *it, const signalling *known, streams_output *output, uint64_t time, const wire_datagram *datagram) {
    switch (wire_protocol_of(datagram->payload)) {
    case WIRE_STUN: it->stun++; break;
    case WIRE_DTLS: it->dtls++; break;
    case WIRE_ZRTP: it->zrtp++; break;
    case WIRE_RTP_OR_RTCP:
        if (cpay_is_rtcp(datagram->payload.at, datagram->payload.left)) take_rtcp(it, datagram->payload);
        else take_rtp(it, known, output, time, datagram);
        break;
    default: it->other++;
    }
}

/* ---- the end ---- */

static void close_stream(streams *all, stream *it, const signalling *known, streams_output *output) {
    if (it->valid && it->kept_count > 0) settle(all, it, known, output);
    bool whole = !it->record || record_close(it->record, &it->totals);
    it->record = NULL;
    if (it->file && !writer_close(it->file)) whole = false;
    it->file = NULL;
    if (!whole) complain("stream %08" PRIx32 ": %s is not written as a whole", it->ssrc, it->path ? it->path : "it");
    else if (it->recorded && it->totals.frames == 0)
        complain("stream %08" PRIx32 ": nothing was written: there is no whole %s", it->ssrc,
                 it->use.codec->kind == CODEC_VIDEO ? "keyframe" : "frame");
    if (it->events && events_count(it->events) > 0 && (output->folder || output->file)) {
        char *path = path_of(all, it, output, "events.json");
        if (path) events_write(it->events, path);
        free(path);
    }
}

void streams_close(streams *it, const signalling *known, streams_output *output) {
    for (size_t i = 0; i < it->count; i++) close_stream(it, it->list[i], known, output);
    if (output->together) writer_close(output->together);
    output->together = NULL;
}

void streams_free(streams *it) {
    for (size_t i = 0; i < it->count; i++) {
        stream *one = it->list[i];
        drop_kept(it, one);
        events_free(one->events);
        free(one->path);
        free(one);
    }
    free(it->list);
}

#include "record.h"

#include "message.h"
#include "timeline.h"
#include "unit.h"

#include <codec_payload.h>
#include <stdlib.h>
#include <string.h>

enum {
    TYPES = 128,
    CLOCK = 1000000000,  /* ticks of the capture's clock in a second */
    LOOK_EACH = 16,      /* packets without a marker */
    MOST_HELD = 4 << 20, /* bytes of frames before the first keyframe, which has the size of the picture */
};

/* A video frame before the first keyframe, in a list. */
typedef struct held {
    struct held *next;
    int64_t time;
    uint64_t received;
    size_t size;
    uint8_t bytes[];
} held;

struct record {
    record_stream stream;
    record_options options;
    uint8_t no_media[TYPES];
    writer *file;
    size_t track;
    cpay_receiver receiver;
    timeline times;
    record_totals totals;
    unsigned packets_since; /* units were looked for */
    held *first_held, **end_held;
    size_t held_bytes;
    uint8_t *bytes; /* of a unit, as many as the largest so far */
    size_t room;
    int64_t last_time;
    int64_t last_duration;
    bool begun;
    bool broken; /* a malformed frame of video was left out since the latest keyframe */
    bool failed;
};

static bool fail(record *it, const char *what) {
    if (!it->failed) complain("stream %08x: %s", (unsigned)it->stream.ssrc, what);
    it->failed = true;
    return false;
}

static bool receives(record *it) {
    const codec_use *use = &it->stream.use;
    cpay_receiver_settings settings;
    cpay_receiver_settings_init(&settings, use->codec->library, use->rate, it->stream.payload_type, CPAY_FOR_FILE);
    settings.spec.octet_align = use->octet_align;
    settings.dependency_descriptor = use->descriptor;
    settings.has_ssrc = true;
    settings.ssrc = it->stream.ssrc;
    settings.start = 1;
    if (use->codec->kind != CODEC_VIDEO) { /* CPAY_FOR_FILE has the windows of video */
        settings.forward = CPAY_FORWARD_FOR(0);
        settings.backward = CPAY_BACKWARD_FOR(0);
    }
    /* No packet comes after those of the capture, so wait for a gap as long as a jitter buffer might, by the capture's clock. */
    settings.has_max_wait = true;
    settings.max_wait = 2ull * CLOCK;
    settings.tick_rate = CLOCK;
    settings.has_red = it->stream.has_red;
    settings.red_payload_type = it->stream.red_payload_type;
    settings.red_step = it->stream.red_step;
    settings.has_rtx = it->stream.has_rtx;
    settings.rtx_ssrc = it->stream.rtx_ssrc;
    settings.rtx_payload_type = it->stream.rtx_payload_type;
    cpay_status status = cpay_receiver_new(&it->receiver, &settings, it->no_media, it->stream.no_media_len);
    return status == CPAY_OK || fail(it, cpay_status_text(status));
}

record *record_open(const record_stream *stream, writer *file, size_t track, const record_options *options) {
    record *it = calloc(1, sizeof *it);
    if (!it) {
        complain("stream %08x: out of memory", (unsigned)stream->ssrc);
        return NULL;
    }
    it->stream = *stream;
    it->options = *options;
    it->file = file;
    it->track = track;
    if (it->stream.no_media_len > TYPES) it->stream.no_media_len = TYPES;
    if (it->stream.no_media_len > 0) memcpy(it->no_media, stream->no_media, it->stream.no_media_len);
    it->stream.no_media = it->no_media;
    it->end_held = &it->first_held;
    timeline_begin(&it->times, stream->use.rate);
    if (receives(it)) return it;
    free(it);
    return NULL;
}

/* Whether a decoder can show a unit. The library reports it, but counts malformed frames as frames, and these are left out here. */
static bool is_decodable(record *it, const cpay_unit *unit) {
    if (unit->keyframe) it->broken = false;
    return unit->decodable && !it->broken;
}

/* Whether a frame is left out, which is counted: before the first keyframe, and, if the option says so, if a decoder cannot show it. */
static bool is_left_out(record *it, bool decodable) {
    if (decodable || (it->begun && !it->options.decodable)) return false;
    it->totals.skipped++;
    it->totals.undecodable += it->begun;
    return true;
}

/* Begins the track with this frame; its header describes the track. */
static bool begin(record *it, const unit_facts *facts, uint64_t received, size_t size) {
    uint8_t configuration[UNIT_CONFIGURATION];
    writer_track track = {
        .codec = it->stream.use.codec->ffmpeg,
        .clock_rate = it->stream.use.rate,
        .sample_rate = it->stream.use.codec->sample_rate,
        .channels = it->stream.use.channels > 0 ? it->stream.use.channels : 1,
        .width = (int)facts->width,
        .height = (int)facts->height,
        .configuration = configuration,
    };
    track.received = (int64_t)received;
    track.configuration_len = unit_configuration(&it->stream.use, it->bytes, size, configuration);
    it->begun = writer_begin(it->file, it->track, &track);
    return it->begun || fail(it, "the file has no track for it");
}

static bool put(record *it, const writer_frame *frame) {
    if (!writer_write(it->file, it->track, frame)) return fail(it, "the file cannot be written any more");
    it->totals.frames++;
    it->totals.damaged += frame->damaged;
    it->totals.bytes += frame->size;
    it->totals.seconds = (double)(frame->time + frame->duration) / it->stream.use.rate;
    it->last_time = frame->time;
    it->last_duration = frame->duration;
    return true;
}

/* Keeps a frame until the first keyframe. If too many bytes wait, the frame is left out. */
static bool hold(record *it, int64_t time, const cpay_unit *unit) {
    held *one = it->held_bytes + unit->bytes <= MOST_HELD ? malloc(sizeof *one + unit->bytes) : NULL;
    if (!one) {
        it->totals.skipped++;
        return true;
    }
    *one = (held){.time = time, .received = unit->received, .size = unit->bytes};
    memcpy(one->bytes, it->bytes, unit->bytes);
    *it->end_held = one;
    it->end_held = &one->next;
    it->held_bytes += unit->bytes;
    return true;
}

static void drop_held(record *it) {
    while (it->first_held) {
        held *one = it->first_held;
        it->first_held = one->next;
        free(one);
    }
    it->end_held = &it->first_held;
    it->held_bytes = 0;
}

/* Writes the frames before the first keyframe, as damaged ones. */
static bool put_held(record *it) {
    for (const held *one = it->first_held; one; one = one->next) {
        writer_frame frame = {.time = one->time, .damaged = true, .bytes = one->bytes, .size = one->size};
        if (!put(it, &frame)) return false;
    }
    drop_held(it);
    return true;
}

/* Replaces lost frames by silence, if the codec has a frame for it. */
static bool fill_gap(record *it, int64_t until) {
    unit_part part;
    int64_t duration = 0;
    if (!it->options.fill || it->totals.frames == 0 || !unit_silence(&it->stream.use, &part, &duration)) return true;
    for (int64_t time = it->last_time + it->last_duration; time + duration <= until; time += duration) {
        if (until - time > 60 * (int64_t)it->stream.use.rate) break; /* no gap, but a time that has jumped */
        writer_frame frame = {.time = time, .duration = duration, .keyframe = true, .bytes = part.bytes, .size = part.size};
        if (!put(it, &frame)) return false;
        it->totals.filled++;
    }
    return true;
}

/* Writes a unit as frames of the track: one, or for AMR-WB each frame of the unit. */
static bool put_unit(record *it, int64_t time, const cpay_unit *unit, bool damaged) {
    unit_parts parts;
    unit_split(&parts, &it->stream.use, it->bytes, unit->bytes);
    for (unit_part part; unit_next(&parts, &part);) {
        writer_frame frame = {.time = time, .duration = parts.duration, .damaged = damaged, .bytes = part.bytes, .size = part.size};
        frame.keyframe = unit->keyframe || it->stream.use.codec->kind != CODEC_VIDEO;
        if (!put(it, &frame)) return false;
        time += parts.duration;
    }
    return true;
}

/* Writes a unit, unless it is left out or has to wait for the first keyframe. */
static bool take_unit(record *it, const cpay_unit *unit) {
    unit_facts facts;
    if (!unit_look(&it->stream.use, it->bytes, unit->bytes, &facts)) {
        it->totals.refused++;
        it->broken = facts.video;
        return true;
    }
    bool follows = unit->contiguous && it->totals.frames + it->totals.skipped > 0;
    if (!follows && it->begun) it->totals.gaps++;
    bool decodable = is_decodable(it, unit);
    bool holds = it->options.all && !it->begun && !decodable;
    if (!holds && is_left_out(it, decodable)) return true;
    int64_t time = timeline_at(&it->times, unit->rtp_time, unit->received), began;
    if (holds) return hold(it, time, unit);
    uint64_t first = it->first_held ? it->first_held->received : unit->received;
    if (!it->begun && !(begin(it, &facts, first, unit->bytes) && put_held(it))) return false;
    if (timeline_began(&it->times, &began)) writer_synchronize(it->file, it->track, began);
    if (!follows && !fill_gap(it, time)) return false;
    return put_unit(it, time, unit, !decodable);
}

/* Takes all units that are due. */
static bool take_units(record *it, uint64_t now) {
    while (!it->failed) {
        cpay_unit unit = {0};
        cpay_status status = cpay_receiver_pop(&it->receiver, now, &unit, it->bytes, it->room);
        if (status == CPAY_NONE) return true;
        if (status == CPAY_OUT_OF_MEMORY) return fail(it, "out of memory");
        if (status == CPAY_TOO_SMALL) {
            uint8_t *grown = realloc(it->bytes, unit.bytes);
            if (!grown) return fail(it, "out of memory");
            it->bytes = grown;
            it->room = unit.bytes;
        } else if (status != CPAY_OK) {
            return fail(it, cpay_status_text(status));
        } else if (unit.fault) {
            it->totals.refused++;
        } else if (!take_unit(it, &unit)) {
            return false;
        }
    }
    return false;
}

bool record_take(record *it, const record_packet *packet) {
    uint32_t outcome = 0;
    if (it->failed) return false;
    if (cpay_receiver_receive(&it->receiver, packet->time, packet->bytes, packet->size, &outcome) == CPAY_OUT_OF_MEMORY)
        return fail(it, "out of memory");
    /* Most video frames end with a marker. Pops follow each marker, and each 16 packets without one. Audio has a unit in each packet. */
    it->packets_since++;
    bool looks = packet->header.marker || it->packets_since >= LOOK_EACH || it->stream.use.codec->kind == CODEC_AUDIO;
    if (!looks) return true;
    it->packets_since = 0;
    return take_units(it, packet->time);
}

void record_sender_report(record *it, uint64_t ntp, uint32_t rtp_time) { timeline_report(&it->times, ntp, rtp_time); }

static void count_repairs(record *it) {
    cpay_receiver_counts_info counts = {0};
    if (cpay_receiver_counts(&it->receiver, &counts)) return;
    it->totals.recovered = counts.recovered;
    it->totals.retransmitted = counts.retransmitted;
}

bool record_close(record *it, record_totals *totals) {
    if (!it->failed && cpay_receiver_finish(&it->receiver) == CPAY_OK) take_units(it, UINT64_MAX);
    for (const held *one = it->first_held; one; one = one->next) it->totals.skipped++;
    drop_held(it);
    count_repairs(it);
    *totals = it->totals;
    bool whole = !it->failed;
    cpay_receiver_free(&it->receiver);
    free(it->bytes);
    free(it);
    return whole;
}

#include "writer.h"

#include "message.h"

#include <libavcodec/avcodec.h>
#include <libavformat/avformat.h>
#include <stdio.h>
#include <stdlib.h>
#include <string.h>
#include <sys/stat.h>
#include <unistd.h>

enum {
    MOST_TRACKS = 16,
    MOST_WAITING = 16 << 20, /* bytes that wait at most until it is known how tracks lie in time */
};

/* In nanoseconds: the longest wait for a track; the difference from which two senders have different clocks; the most media that is
 * lost if the disk is full. */
static const int64_t LONGEST_WAIT = 10000000000, CLOCKS_APART = 10000000000, BETWEEN_FLUSHES = 1000000000;

/* A packet that waits, and those behind it. */
typedef struct waiting {
    struct waiting *next;
    AVPacket *packet;
} waiting;

/* Times are in nanoseconds. */
typedef struct {
    bool begun;
    bool given_up; /* the file was begun without it */
    bool synchronized;
    int64_t received;  /* when it began: by the capture's clock, and by the sender's */
    int64_t began;
    int64_t offset;    /* from the beginning of the file */
    AVRational base;
    AVStream *stream;
    int64_t last; /* of its latest packet, in the time base of its stream */
    bool has_last;
} track;

struct writer {
    char *path;
    AVFormatContext *format; /* from the first track that begins */
    size_t tracks;
    track track[MOST_TRACKS];
    bool begun; /* the header is written */
    bool failed;
    int64_t flushed; /* time of the packet after which the file was flushed */
    int64_t whole;   /* how many bytes it had then: so far it plays, whatever comes */
    AVPacket *lent;  /* with one track: each frame in turn, whose bytes are the caller's */
    waiting *first, **end; /* until then */
    size_t waiting_bytes;
};

static const AVRational NANOSECONDS = {1, 1000000000};

static bool fail(writer *file, const char *what, int error) {
    char text[AV_ERROR_MAX_STRING_SIZE] = "";
    if (file->failed) return false;
    file->failed = true;
    if (error) av_strerror(error, text, sizeof text);
    complain("%s: %s%s%s", file->path, what, error ? ": " : "", text);
    return false;
}

static bool ends_with(const char *path, const char *ending) {
    size_t length = strlen(path), rest = strlen(ending);
    return length > rest && !strcmp(path + length - rest, ending);
}

bool writer_knows(const char *path) {
    static const char *const endings[] = {".webm", ".mkv", ".mka", ".ivf", ".obu", ".ogg", ".opus", ".wav", ".awb"};
    for (size_t i = 0; i < sizeof endings / sizeof *endings; i++)
        if (ends_with(path, endings[i])) return true;
    return false;
}

writer *writer_new(const char *path, size_t tracks) {
    writer *file = calloc(1, sizeof *file);
    if (file) file->path = strdup(path);
    if (file) file->lent = av_packet_alloc();
    if (!file || !file->path || !file->lent) {
        complain("%s: out of memory", path);
        if (file) writer_close(file);
        return NULL;
    }
    file->tracks = tracks < MOST_TRACKS ? tracks : MOST_TRACKS;
    file->end = &file->first;
    return file;
}

bool writer_has(const writer *file, size_t number) { return file->track[number].begun; }

/* Copies the description of a track into its stream. */
static bool describe(writer *file, AVStream *stream, const writer_track *info) {
    AVCodecParameters *codec = stream->codecpar;
    codec->codec_id = info->codec;
    codec->codec_type = avcodec_get_type(info->codec);
    codec->sample_rate = info->sample_rate;
    codec->width = info->width;
    codec->height = info->height;
    if (codec->codec_type == AVMEDIA_TYPE_AUDIO) {
        av_channel_layout_default(&codec->ch_layout, info->channels);
        codec->bits_per_coded_sample = av_get_bits_per_sample(info->codec);
        codec->block_align = codec->bits_per_coded_sample * info->channels / 8;
    }
    if (info->configuration_len == 0) return true;
    codec->extradata = av_mallocz(info->configuration_len + AV_INPUT_BUFFER_PADDING_SIZE);
    if (!codec->extradata) return fail(file, "out of memory", 0);
    memcpy(codec->extradata, info->configuration, info->configuration_len);
    codec->extradata_size = (int)info->configuration_len;
    return true;
}

/* Flushes the file to the disk, up to the end of a packet (Matroska: of a cluster). */
static bool flush(writer *file) {
    int error = av_write_frame(file->format, NULL);
    avio_flush(file->format->pb);
    if (error >= 0) error = file->format->pb->error;
    if (error < 0) return fail(file, "cannot be written", error);
    file->whole = avio_tell(file->format->pb);
    return true;
}

/* Gives a packet, whose times are in nanoseconds from the beginning of its track, to the file: in the time base of its stream,
 * behind the one before. */
static bool put(writer *file, AVPacket *packet) {
    track *to = NULL;
    for (size_t i = 0; i < file->tracks; i++)
        if (file->track[i].stream && file->track[i].stream->index == packet->stream_index) to = &file->track[i];
    if (!to) return fail(file, "a packet of no track", 0);
    packet->pts += to->offset;
    packet->dts = packet->pts;
    int64_t time = packet->pts;
    av_packet_rescale_ts(packet, NANOSECONDS, to->stream->time_base);
    if (to->has_last && packet->pts <= to->last) packet->pts = to->last + 1;
    packet->dts = packet->pts;
    to->last = packet->pts;
    to->has_last = true;
    int error = file->tracks == 1 ? av_write_frame(file->format, packet) : av_interleaved_write_frame(file->format, packet);
    if (error < 0) return fail(file, "cannot be written", error);
    if (time - file->flushed < BETWEEN_FLUSHES) return true;
    file->flushed = time;
    return flush(file);
}

static bool all(const writer *file, bool synchronized) {
    for (size_t i = 0; i < file->tracks; i++)
        if (!file->track[i].begun || (synchronized && !file->track[i].synchronized)) return false;
    return true;
}

/* Whether the clocks of the senders go together: each track began as long behind the first one by these clocks as by the
 * capture's, to within some seconds. Two senders can have two clocks. */
static bool one_clock(const writer *file) {
    const track *first = &file->track[0];
    for (size_t i = 1; i < file->tracks; i++) {
        const track *it = &file->track[i];
        int64_t apart = (it->began - first->began) - (it->received - first->received);
        if (apart > CLOCKS_APART || apart < -CLOCKS_APART) return false;
    }
    return true;
}

/* Puts the tracks that have begun together in time, the first at 0. */
static void put_together(writer *file) {
    bool by_senders = all(file, true) && one_clock(file);
    int64_t first = INT64_MAX;
    for (size_t i = 0; i < file->tracks; i++) {
        track *it = &file->track[i];
        it->given_up = !it->begun;
        it->offset = by_senders ? it->began : it->received;
        if (it->begun && it->offset < first) first = it->offset;
    }
    for (size_t i = 0; i < file->tracks; i++) file->track[i].offset -= first;
}

/* Opens the file and writes its header, then what waits. Tracks that have not begun are left out. */
static bool begin_file(writer *file) {
    int error;
    put_together(file);
    file->begun = true;
    if ((error = avio_open(&file->format->pb, file->path, AVIO_FLAG_WRITE)) < 0) return fail(file, "cannot be made", error);
    file->format->flush_packets = 0; /* this is done here, once a second */
    if ((error = avformat_write_header(file->format, NULL)) < 0) return fail(file, "the format does not take it", error);
    if (!flush(file)) return false;
    while (file->first && !file->failed) {
        waiting *it = file->first;
        file->first = it->next;
        put(file, it->packet);
        av_packet_free(&it->packet);
        free(it);
    }
    return !file->failed;
}

void writer_synchronize(writer *file, size_t number, int64_t began) {
    if (file->track[number].synchronized) return;
    file->track[number].synchronized = true;
    file->track[number].began = began;
}

bool writer_begin(writer *file, size_t number, const writer_track *info) {
    track *it = &file->track[number];
    if (file->failed || it->begun || it->given_up) return !file->failed && it->begun;
    if (!file->format) {
        int error = avformat_alloc_output_context2(&file->format, NULL, ends_with(file->path, ".awb") ? "amr" : NULL, file->path);
        if (error < 0) return fail(file, "no format is known by its ending", error);
    }
    if (avformat_query_codec(file->format->oformat, info->codec, FF_COMPLIANCE_NORMAL) == 0) {
        complain("%s: the format %s does not take %s", file->path, file->format->oformat->name, avcodec_get_name(info->codec));
        it->given_up = true;
        return false;
    }
    it->stream = avformat_new_stream(file->format, NULL);
    if (!it->stream || !describe(file, it->stream, info)) return fail(file, "out of memory", 0);
    it->base = (AVRational){1, (int)info->clock_rate};
    it->stream->time_base = it->base;
    it->received = info->received;
    it->begun = true;
    return true;
}

/* Fills in everything of a packet except its bytes. The frame's time is in nanoseconds from the beginning of its track. */
static void describe_frame(AVPacket *packet, const track *of, const writer_frame *frame) {
    packet->stream_index = of->stream->index;
    packet->flags = 0;
    packet->pts = packet->dts = av_rescale_q(frame->time, of->base, NANOSECONDS);
    packet->duration = av_rescale_q(frame->duration, of->base, NANOSECONDS);
    if (frame->keyframe) packet->flags |= AV_PKT_FLAG_KEY;
    if (frame->damaged) packet->flags |= AV_PKT_FLAG_CORRUPT;
}

/* A frame with a copy of its bytes. */
static AVPacket *copy_of(const track *of, const writer_frame *frame) {
    AVPacket *packet = av_packet_alloc();
    if (!packet || av_new_packet(packet, (int)frame->size) < 0) {
        av_packet_free(&packet);
        return NULL;
    }
    memcpy(packet->data, frame->bytes, frame->size);
    describe_frame(packet, of, frame);
    return packet;
}

/* A frame of a file's only track. libavformat does not keep it, or copies it first, so its bytes stay the caller's. */
static bool put_lent(writer *file, const track *to, const writer_frame *frame) {
    describe_frame(file->lent, to, frame);
    file->lent->data = (uint8_t *)frame->bytes; /* which libavformat does not change */
    file->lent->size = (int)frame->size;
    bool put_in = put(file, file->lent);
    file->lent->data = NULL;
    file->lent->size = 0;
    return put_in;
}

/* A packet waits until it is known how tracks lie in time, or too much waits. */
static bool hold(writer *file, AVPacket *packet) {
    waiting *it = calloc(1, sizeof *it);
    if (!it) {
        av_packet_free(&packet);
        return fail(file, "out of memory", 0);
    }
    it->packet = packet;
    *file->end = it;
    file->end = &it->next;
    file->waiting_bytes += (size_t)packet->size;
    return (file->waiting_bytes < MOST_WAITING && packet->pts < LONGEST_WAIT) || begin_file(file);
}

bool writer_write(writer *file, size_t number, const writer_frame *frame) {
    const track *to = &file->track[number];
    if (file->failed || !to->begun || frame->size > INT32_MAX) return false;
    if (!file->begun && all(file, file->tracks > 1) && !begin_file(file)) return false;
    if (file->begun && file->tracks == 1) return put_lent(file, to, frame);
    AVPacket *packet = copy_of(to, frame);
    if (!packet) return fail(file, "out of memory", 0);
    if (!file->begun) return hold(file, packet);
    bool put_in = put(file, packet);
    av_packet_free(&packet);
    return put_in;
}

/* Ends a file. Waiting frames are written before the trailer, so they are in the file even if the trailer fails. */
static void end_file(writer *file) {
    int error = file->tracks > 1 ? av_interleaved_write_frame(file->format, NULL) : 0;
    if (error < 0) fail(file, "cannot be written", error);
    if (file->failed || !flush(file)) return;
    error = av_write_trailer(file->format);
    if (error >= 0) error = file->format->pb->error;
    if (error < 0) fail(file, "cannot be ended", error);
}

/* What could not be written as a whole ends where it was whole last, and plays up to there. */
static void cut_off(const writer *file) {
    struct stat about;
    if (stat(file->path, &about) != 0 || !S_ISREG(about.st_mode)) return;
    if (file->whole == 0) remove(file->path);
    else if (truncate(file->path, file->whole) != 0) complain("%s: cannot be cut off behind what is whole", file->path);
}

bool writer_close(writer *file) {
    if (file->format && !file->failed && (file->begun || (file->first && begin_file(file)))) end_file(file);
    while (file->first) {
        waiting *it = file->first;
        file->first = it->next;
        av_packet_free(&it->packet);
        free(it);
    }
    bool opened = file->format && file->format->pb;
    if (opened && avio_closep(&file->format->pb) < 0) fail(file, "cannot be written", 0);
    if (file->failed && opened) cut_off(file);
    avformat_free_context(file->format);
    av_packet_free(&file->lent);
    bool whole = !file->failed;
    free(file->path);
    free(file);
    return whole;
}

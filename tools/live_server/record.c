/* A WebM file of a publisher: the frames as they came, not encoded again. The writer, the time line and the facts about codecs
 * are those of tools/rtp_record. */
#include "server.h"

#include "message.h"
#include "timeline.h"
#include "unit.h"
#include "writer.h"

#include <stdarg.h>
#include <stdlib.h>
#include <string.h>

static const uint64_t MOST_BYTES = (uint64_t)4 << 30; /* of a recording: then it ends */

struct recording {
    char path[64]; /* in the folder of recordings */
    char fault[128];
    writer *file;
    codec_use use[KINDS];
    int track[KINDS]; /* of the file; -1: none */
    timeline times[KINDS];
    uint64_t bytes;
};

/* The recording that is written now: the writer complains about it. */
static recording *current;

/* The writer's messages, for the log and for the page, where quotes and backslashes have no place. */
void complain(const char *format, ...) {
    char message[512];
    va_list values;
    va_start(values, format);
    vsnprintf(message, sizeof message, format, values);
    va_end(values);
    fprintf(stderr, "live_server: %s\n", message);
    if (!current) return;
    const char *reason = strrchr(message, '/');
    snprintf(current->fault, sizeof current->fault, "%.127s", reason ? reason + 1 : message);
    for (char *at = current->fault; *at; at++)
        if (*at == '"' || *at == '\\' || (unsigned char)*at < ' ') *at = '\'';
}

recording *record_new(const char *name, const agreed media[KINDS]) {
    char path[4096];
    recording *it = calloc(1, sizeof *it);
    if (!it) return NULL;
    snprintf(it->path, sizeof it->path, "%s-%08llx.webm", name, (unsigned long long)now_us());
    snprintf(path, sizeof path, "%s/%s", the.folder, it->path);
    for (int kind = 0; kind < KINDS; kind++) it->use[kind] = codec_use_of(media[kind].name, 0, 0);
    it->track[AUDIO] = media[AUDIO].used ? 0 : -1;
    it->track[VIDEO] = media[VIDEO].used ? media[AUDIO].used : -1;
    av_log_set_level(AV_LOG_ERROR); /* else it reports each cluster of a file */
    it->file = writer_new(path, (size_t)media[AUDIO].used + media[VIDEO].used);
    return it;
}

/* Begins a track: that of video with a keyframe that has a size. */
static bool begin(recording *it, int kind, const unit_facts *facts, const cpay_unit *unit, const uint8_t *bytes) {
    const codec_use *use = &it->use[kind];
    uint8_t configuration[UNIT_CONFIGURATION];
    if (kind == VIDEO && (!unit->keyframe || facts->width == 0)) return false;
    writer_track track = {.codec = use->codec->ffmpeg,
                          .clock_rate = use->rate,
                          .sample_rate = use->codec->sample_rate,
                          .channels = use->channels,
                          .width = (int)facts->width,
                          .height = (int)facts->height,
                          .received = (int64_t)now_us() * 1000,
                          .configuration = configuration,
                          .configuration_len = unit_configuration(use, bytes, unit->bytes, configuration)};
    timeline_begin(&it->times[kind], use->rate);
    return writer_begin(it->file, (size_t)it->track[kind], &track);
}

static void write_unit(recording *it, int kind, const cpay_unit *unit, const uint8_t *bytes) {
    size_t track = (size_t)it->track[kind];
    unit_facts facts;
    bool whole = unit_look(&it->use[kind], bytes, unit->bytes, &facts);
    if (!writer_has(it->file, track) && !(whole && begin(it, kind, &facts, unit, bytes))) return;
    writer_frame frame = {.keyframe = kind == AUDIO || unit->keyframe, .bytes = bytes, .size = unit->bytes};
    frame.duration = facts.duration;
    frame.time = timeline_at(&it->times[kind], unit->rtp_time, now_us() * 1000);
    writer_write(it->file, track, &frame);
    it->bytes += unit->bytes;
}

/* A recording that cannot be written, such as on a full disk, ends there, and plays up to there. The viewers see nothing of it.
 */
void record_unit(recording *it, int kind, const cpay_unit *unit, const uint8_t *bytes) {
    if (!it->file || it->track[kind] < 0) return;
    current = it;
    write_unit(it, kind, unit, bytes);
    if (it->bytes > MOST_BYTES) complain("%s: too long", it->path);
    if (it->fault[0]) {
        writer_close(it->file);
        it->file = NULL;
    }
    current = NULL;
}

void record_clock(recording *it, int kind, const cpay_sender_clock_info *clock) {
    int64_t began;
    if (!it->file || it->track[kind] < 0) return;
    timeline_report(&it->times[kind], clock->ntp_time, clock->rtp_time);
    if (timeline_began(&it->times[kind], &began)) writer_synchronize(it->file, (size_t)it->track[kind], began);
}

void record_stats(const recording *it, FILE *to) {
    fprintf(to, "\"recording\":\"%s\",\"recordingFault\":\"%s\",", it->path, it->fault);
}

void record_free(recording *it) {
    if (!it) return;
    bool whole = it->file && writer_close(it->file);
    if (it->file && it->bytes > 0) fprintf(stderr, "%s: %s\n", it->path, whole ? "complete" : "not complete");
    free(it);
}

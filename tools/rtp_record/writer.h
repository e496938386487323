/* Files that play, by libavformat: the frames of one or more tracks are stored unchanged, without encoding them again. */
#ifndef RTP_RECORD_WRITER_H
#define RTP_RECORD_WRITER_H

#include <libavcodec/codec_id.h>
#include <stdbool.h>
#include <stddef.h>
#include <stdint.h>

/* A file; the ending of its name selects the format. A file with several tracks is begun once all tracks have begun and their offsets
 * in time are known, or once ten seconds or 16 MiB wait. Tracks that have not begun by then are left out. */
typedef struct writer writer;

/* The description of a track, from its first frame. */
typedef struct {
    enum AVCodecID codec;
    uint32_t clock_rate; /* of the times of its frames, in hertz */
    int sample_rate;     /* of audio, in hertz; 0 of video */
    int channels;
    int width; /* of video, in pixels */
    int height;
    int64_t received; /* when its first frame came, in nanoseconds of the capture's clock */
    const uint8_t *configuration; /* the codec's configuration for the container, such as av1C; copied */
    size_t configuration_len;
} writer_track;

typedef struct {
    int64_t time;     /* in ticks of the track's clock, from 0 at the beginning of the track */
    int64_t duration; /* in these ticks, or 0 if unknown */
    bool keyframe;
    bool damaged; /* frames that it refers to may be missing */
    const uint8_t *bytes;
    size_t size;
} writer_frame;

/* Whether files with this ending can be written. */
bool writer_knows(const char *path);

/* Creates a file with the given number of tracks, 1 to 16. Nothing is opened yet. NULL: out of memory; a message was printed. */
writer *writer_new(const char *path, size_t tracks);

/* Whether a track has begun. */
bool writer_has(const writer *file, size_t track);

/* Begins a track. false: the format of the file does not support the codec; a message was printed. */
bool writer_begin(writer *file, size_t track, const writer_track *info);

/* Sets when a track began by the clock of its sender, in nanoseconds. If all tracks have such a time, these synchronise them; else the
 * arrival of their first frames does. Calls after the file was begun have no effect. */
void writer_synchronize(writer *file, size_t track, int64_t began);

/* Writes a frame of a track that has begun. Times of a track rise: a time that does not is moved after the previous one. false: the
 * file cannot be written any more; a message was printed once. */
bool writer_write(writer *file, size_t track, const writer_frame *frame);

/* Writes the waiting frames and ends the file. Without frames no file is made. false: the file is not complete. */
bool writer_close(writer *file);

#endif

/* Codecs: what the library, libavformat and SDPs call them. */
#ifndef RTP_RECORD_CODEC_H
#define RTP_RECORD_CODEC_H

#include <libavcodec/codec_id.h>
#include <stdbool.h>
#include <stddef.h>
#include <stdint.h>

typedef enum {
    CODEC_UNKNOWN,     /* nothing is known of it */
    CODEC_UNSUPPORTED, /* known by name alone */
    CODEC_AUDIO,
    CODEC_VIDEO,
    CODEC_EVENTS, /* telephone events (RFC 4733) */
    CODEC_RED,    /* redundant audio (RFC 2198) around another codec */
    CODEC_RTX,    /* retransmissions of another payload type (RFC 4588) */
    CODEC_BESIDE, /* comes beside media, and becomes no file: comfort noise, error correction */
} codec_kind;

/* A codec. Those without a place in libavformat have AV_CODEC_ID_NONE, and those without one in the library CPAY_NULL. */
typedef struct {
    const char *name; /* as SDPs have it */
    codec_kind kind;
    uint32_t library;      /* CPAY_* */
    enum AVCodecID ffmpeg; /* of audio and video */
    uint32_t clock_rate;   /* of the RTP clock, in hertz, where nothing else is said */
    int sample_rate;       /* of audio, in hertz */
    const char *extension; /* of the file that is written by default */
} codec;

enum { CODEC_NAME = 24, PAYLOAD_TYPES = 128 };

/* The meaning of a payload type: from an SDP, from --map, from RFC 3551, or from a guess. */
typedef struct {
    const codec *codec;
    char name[CODEC_NAME]; /* as it was said */
    uint32_t rate;         /* of the RTP clock, in hertz */
    int channels;          /* of audio */
    uint8_t inner;         /* of RED and retransmissions: the payload type inside, or PAYLOAD_TYPES where it is not said */
    uint8_t descriptor;    /* the id of the dependency descriptor, or 0 */
    bool octet_align;      /* of AMR-WB */
    bool guessed;
} codec_use;

/* A codec by a name in any case, with a rate of the RTP clock, or 0 for the usual one, and a number of channels, or 0. */
codec_use codec_use_of(const char *name, uint32_t rate, int channels);

/* An unknown codec. */
codec_use codec_use_unknown(void);

/* A codec that is known by name only. */
codec_use codec_use_unsupported(const char *name);

/* Whether a stream of it becomes a file that plays. */
bool codec_is_media(const codec_use *use);

#endif

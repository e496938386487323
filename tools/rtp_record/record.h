/* One stream of RTP becomes frames of a track: the library's receiver puts its packets in order and together. */
#ifndef RTP_RECORD_RECORD_H
#define RTP_RECORD_RECORD_H

#include "codec.h"
#include "writer.h"
#include <codec_payload.h>
#include <stdbool.h>
#include <stddef.h>
#include <stdint.h>

typedef struct {
    bool all;       /* write frames before the first keyframe too */
    bool decodable; /* leave out frames that a decoder cannot show, up to the next keyframe */
    bool fill;      /* put "no data" frames of AMR-WB and silence of G.711 where packets are lost */
} record_options;

/* A stream, as it was found. */
typedef struct {
    codec_use use; /* a codec with media */
    uint32_t ssrc;
    uint8_t payload_type;
    bool has_red; /* it is sent in RED, whose payload type this is */
    uint8_t red_payload_type;
    uint32_t red_step; /* how many ticks of the RTP clock packets in RED are apart, 1 to 16383 */
    bool has_rtx; /* its packets are retransmitted (RFC 4588) under this SSRC and payload type */
    uint32_t rtx_ssrc;
    uint8_t rtx_payload_type;
    const uint8_t *no_media; /* payload types that come under its SSRC and carry no media of it */
    size_t no_media_len;
} record_stream;

/* An RTP packet: when it came, in nanoseconds, what the library read of its header, and all its bytes. */
typedef struct {
    uint64_t time;
    cpay_rtp_info header;
    const uint8_t *bytes;
    size_t size;
} record_packet;

/* Counts of written frames, and of frames that were not written. */
typedef struct {
    uint64_t frames;  /* written */
    uint64_t bytes;   /* of these frames */
    uint64_t gaps;    /* frames that do not follow the previous frame */
    uint64_t skipped; /* complete frames that were left out: before the first keyframe, or undecodable */
    uint64_t undecodable; /* of these, frames after the first keyframe that a decoder cannot show */
    uint64_t damaged; /* frames that were written, but a decoder cannot show them */
    uint64_t refused; /* units that the codec's format refuses */
    uint64_t filled;  /* frames of silence that replace lost packets */
    double seconds;   /* from the first frame to the last */
    uint64_t recovered; /* packets that others in RED carried */
    uint64_t retransmitted; /* missing packets that retransmissions filled in */
} record_totals;

typedef struct record record;

/* Begins to record a stream as a track of a file. NULL: the library does not support the stream, or out of memory; a message was
 * printed. */
record *record_open(const record_stream *stream, writer *file, size_t track, const record_options *options);

/* A packet of the stream's SSRC, whatever its payload type, or a retransmission. false where the file cannot be written any more. */
bool record_take(record *it, const record_packet *packet);

/* A sender report of the stream's SSRC: the same moment as an NTP time, seconds since 1900 in the upper 32 bits, and as RTP time.
 * The first one puts the tracks of a file together in time. */
void record_sender_report(record *it, uint64_t ntp, uint32_t rtp_time);

/* Ends the stream: releases the held frames and writes *totals. The file stays open. false: something failed. */
bool record_close(record *it, record_totals *totals);

#endif

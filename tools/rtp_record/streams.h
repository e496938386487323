/* The streams of a capture: found by flow and SSRC, counted, and recorded. */
#ifndef RTP_RECORD_STREAMS_H
#define RTP_RECORD_STREAMS_H

#include "codec.h"
#include "events.h"
#include "record.h"
#include "sdp.h"
#include "statistics.h"
#include "wire.h"
#include "writer.h"

#include <codec_payload.h>

enum {
    MOST_STREAMS = 4096,
    MOST_KEPT = 64,            /* packets of a stream whose codec is not known yet */
    MOST_KEPT_BYTES = 8 << 20, /* of all such streams */
    STEPS_SEEN = 16,           /* packets of a stream in RED before its step is taken from them */
    BUCKETS = 1024,
    REPORTS = 64, /* sender reports that are kept for streams that are not written yet */
};

typedef struct stream {
    struct stream *next; /* in its bucket */
    wire_flow flow;
    uint32_t ssrc;
    bool valid; /* two packets in sequence came (RFC 3550, appendix A.1) */
    bool encrypted;
    uint16_t number; /* of the packet before */
    uint64_t packets, bytes;
    uint64_t first, last; /* when its packets came, in nanoseconds since 1970 */
    uint64_t of_type[PAYLOAD_TYPES];
    codec_use use;             /* of its media */
    uint8_t payload_type;      /* of its media, inside RED too */
    uint8_t red_payload_type;  /* PAYLOAD_TYPES without RED */
    bool settled;              /* the codec is known, or will stay unknown */
    statistics headers;
    record_packet kept[MOST_KEPT]; /* until it is settled; their bytes are the stream's */
    size_t kept_count;
    record *record;
    bool recorded; /* it had a record */
    writer *file;
    char *path;       /* of the file of this stream, or of all streams */
    bool has_name;    /* the file has exactly the name that was given for the output */
    events *events;
    record_totals totals;
} stream;

typedef struct {
    stream **list;
    size_t count, room;
    stream *buckets[BUCKETS];
    stream *latest; /* the stream of the packet before */
    size_t kept_bytes;
    wire_report reports[REPORTS]; /* the latest sender reports, whose place is their count modulo REPORTS */
    size_t report_count;
    uint64_t packets, rtp, rtcp, fragments, cut, malformed, stun, dtls, zrtp, other, too_many;
} streams;

/* How streams are written. */
typedef struct {
    const char *folder; /* one file a stream; NULL: none */
    const char *file;   /* or this one for the first stream, and those behind it beside it */
    bool file_is_taken;
    const char *mux;  /* or all of them into this file */
    writer *together; /* which is made once the streams are known */
    record_options options;
} streams_output;

/* Passes a datagram to its stream; adds the stream if it is new. */
void streams_datagram(streams *it, const signalling *known, streams_output *output, uint64_t time, const wire_datagram *datagram);

/* All streams end, and their files too. */
void streams_close(streams *it, const signalling *known, streams_output *output);

void streams_free(streams *it);

#endif

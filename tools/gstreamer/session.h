/* The parts of cpaysession: RTP and RTCP of a whole port in, media of each stream out.
 *
 * Threads. The thread of a sink pad passes datagrams to the session and polls it. With a live source a second thread polls at the
 * session's deadlines, by the clock of the pipeline. Each stream has its own thread, which pushes what a poll put into its queue, so a
 * sink that waits for its time delays no other stream. One lock guards the session, the streams and their queues. Nothing is pushed
 * while it is held. */
#ifndef CPAY_SESSION_H
#define CPAY_SESSION_H

#include "clock.h"
#include "cpay.h"

enum { CPAY_TICK = 1000 /* nanoseconds: the session's clock has microseconds */, CPAY_TICKS_PER_MS = 1000 };

/** What happens to video that a decoder cannot show. */
typedef enum { CPAY_UNDECODABLE_PASS, CPAY_UNDECODABLE_MARK, CPAY_UNDECODABLE_DROP } CpayUndecodable;

typedef struct GstCpaySession GstCpaySession;

/** The source pad of a stream: a GstPad with names for its stream. */
typedef struct {
    GstPad parent;
    guint32 ssrc;
    guint8 payload_type;
    gchar *mid, *rid;
} GstCpayPad;

GType gst_cpay_pad_get_type(void);

/** The stage of a stream. */
typedef enum {
    CPAY_GOES_ON,
    CPAY_CHANGED,  /**< its sender continues in another format: its pad waits for the stream that follows it */
    CPAY_FOLLOWED, /**< that stream began, and downstream decides whether the pad stays */
    CPAY_ENDED     /**< EOS is in its queue */
} CpayStage;

/** A stream, from its first unit on. */
typedef struct CpayStream {
    GstPad *pad;
    const CpayCodec *codec;
    guint32 ssrc;
    guint8 payload_type;
    GQueue queue; /**< of GstBuffer and GstEvent, in order */
    GCond filled;
    CpayClock clock;
    GstCaps *caps;
    guint width, height;
    guint64 last_number;
    guint64 undecodable;   /**< how many frames a decoder could not show, when last asked */
    GstClockTime last_end; /**< of audio: where the last unit ends */
    gboolean has_last, flushing;
    CpayStage stage;
    gboolean waits;             /**< its pad is not there yet */
    guint64 begun_at;           /**< ticks of the session at its first unit */
    guint64 changed_at;         /**< and at CPAY_CHANGED */
    struct CpayStream *follows; /**< the stream whose pad it takes over, if downstream accepts its caps */
    GstFlowReturn flow;
    guint8 orientation; /**< the last one that was sent as a tag, plus one */
    guint64 telephone_time;
    guint64 buffers, bytes;
} CpayStream;

struct GstCpaySession {
    GstElement parent;
    GMutex lock;
    GCond wake, drained;
    cpay_session session;
    gboolean has_session;
    GHashTable *codecs;  /**< payload type to its CpayCodec */
    GList *streams;      /**< of CpayStream, in the order in which they began */
    GPtrArray *rtcp;     /**< packets to push once the lock is released */
    GList *begun;        /**< streams whose pads are to be added */
    GPtrArray *messages; /**< to post once the lock is released */
    GstPad *sink, *rtcp_sink, *rtcp_src;
    GstSegment segment;
    gboolean live, has_times, eos, flushing, rtcp_ready;
    gboolean repeats; /**< packets of a format can be requested */
    guint64 now;      /**< ticks of the session: microseconds of running time */
    guint numbers[2];
    guint group;
    /* the thread that polls at deadlines */
    GThread *timer;
    GstClockID waiting;
    guint64 waits_until;
    gboolean stop;
    /* properties */
    GstCaps *formats;
    gchar *sdp, *cname;
    guint latency, max_streams, max_queue, report_interval, keyframe_interval, longest_retry;
    guint32 ssrc;
    gboolean nack, pli, transport, reduced, references, sync;
    CpayUndecodable undecodable;
};

/** The work after a poll that is done without the lock. */
typedef struct {
    GPtrArray *rtcp, *messages;
    GList *begun;
} CpayOutcome;

/* settings.c. The caller holds the lock. */

/** Creates the session, from the properties or else from the caps of the source. */
gboolean cpay_session_open(GstCpaySession *it, const GstCaps *from_pad, GError **error);

/** Replaces the formats of the session by the formats of the properties. */
gboolean cpay_session_change_formats(GstCpaySession *it, GError **error);

/** How long streams wait, by the latency. */
cpay_wait_limits cpay_session_waits(const GstCpaySession *it);

/* stream.c */

/** The stream of a format, or NULL. The caller holds the lock. */
CpayStream *cpay_stream_find(GstCpaySession *it, guint32 ssrc, guint8 payload_type);

/** Begins a stream with the first unit of it, or returns NULL if its format has no pad. The caller holds the lock. */
CpayStream *cpay_stream_begin(GstCpaySession *it, const cpay_event *event);

/** Puts a buffer or an event into the queue, which then owns it. The caller holds the lock. */
void cpay_stream_enqueue(CpayStream *stream, gpointer item);

/** No item follows: EOS, and then the pad is removed. The caller holds the lock. */
void cpay_stream_end(CpayStream *stream);

/** Lets streams begin that need not wait for the end of another, and ends streams whose sender continued in no other format for five
 * seconds; with `all` at once. The caller holds the lock. */
void cpay_stream_settle(GstCpaySession *it, gboolean all);

/** Adds the pad of a stream, or gives it the pad of the stream that it follows: without the lock. */
void cpay_stream_add(GstCpaySession *it, CpayStream *stream);

/** Stops the thread of a stream, removes its pad and frees it: without the lock, and not in that thread. */
void cpay_stream_remove(GstCpaySession *it, CpayStream *stream);

/** Wakes the thread of a stream, which then ends. The caller holds the lock. */
void cpay_stream_stop(CpayStream *stream);

/* units.c */

/** Takes all events of the session at the time `now`. Returns FALSE out of memory. The caller holds the lock. */
gboolean cpay_session_take_events(GstCpaySession *it);
CpayOutcome cpay_session_take_outcome(GstCpaySession *it);

/** Adds pads, posts messages and pushes RTCP: without the lock. */
void cpay_session_carry_out(GstCpaySession *it, CpayOutcome all);

/* metas.c */

/** Adds what the header extensions and the payload say of a unit to its buffer. The caller holds the lock. */
void cpay_add_metas(GstCpaySession *it, CpayStream *stream, const cpay_event *event, GstBuffer *buffer);
void cpay_register_metas(void);

/* timer.c */

void cpay_timer_start(GstCpaySession *it);
void cpay_timer_stop(GstCpaySession *it);

/** Wakes the thread if the session has an earlier deadline now. The caller holds the lock. */
void cpay_timer_arm(GstCpaySession *it);

/* input.c: the sink pads */

GstFlowReturn cpay_input_chain(GstPad *pad, GstObject *parent, GstBuffer *buffer);
GstFlowReturn cpay_input_chain_list(GstPad *pad, GstObject *parent, GstBufferList *list);
gboolean cpay_input_event(GstPad *pad, GstObject *parent, GstEvent *event);

/* output.c: events and queries of the source pads */

gboolean cpay_output_event(GstPad *pad, GstObject *parent, GstEvent *event);
gboolean cpay_output_query(GstPad *pad, GstObject *parent, GstQuery *query);

/* stats.c */

/** The counts of the port and of its streams. Takes the lock. */
GstStructure *cpay_session_stats(GstCpaySession *it);

#endif

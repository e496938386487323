/* The property stats of cpaysession. */
#include "session.h"

#define COUNT(of, name, field) name, G_TYPE_UINT64, (guint64)(of)->field

/* What goes into the next receiver report (RFC 3550, section 6.4.1). */
static void add_report(GstCpaySession *it, const cpay_session_stream *stream, GstStructure *to) {
    cpay_report_block_info block;
    if (cpay_session_peek_report(&it->session, it->now, stream->ssrc, stream->payload_type, &block)) return;
    gst_structure_set(to, "jitter", G_TYPE_UINT, block.jitter, "cumulative-lost", G_TYPE_INT, (int)(block.cumulative_lost << 8) >> 8,
                      "fraction-lost", G_TYPE_UINT, (guint)block.fraction_lost, NULL);
}

static GstStructure *stream_stats(GstCpaySession *it, const cpay_session_stream *stream) {
    const CpayStream *own = cpay_stream_find(it, stream->ssrc, stream->payload_type);
    GstStructure *to = gst_structure_new(
        "application/x-cpay-stream-stats", "ssrc", G_TYPE_UINT, stream->ssrc, "pt", G_TYPE_UINT, (guint)stream->payload_type,
        COUNT(stream, "bytes-received", bytes), COUNT(stream, "packets-requested", numbers_requested),
        COUNT(stream, "keyframes-requested", keyframes_requested), COUNT(&stream->counts, "packets-received", received),
        COUNT(&stream->counts, "duplicates", duplicates), COUNT(&stream->counts, "late", late), COUNT(stream, "probes", probes),
        COUNT(&stream->counts, "suspect", suspect),
        COUNT(&stream->counts, "evicted", evicted), COUNT(&stream->counts, "incomplete", incomplete),
        COUNT(&stream->counts, "refused", refused), COUNT(&stream->counts, "retransmitted", retransmitted),
        COUNT(&stream->counts, "recovered", recovered), COUNT(&stream->counts, "units", units),
        COUNT(&stream->counts, "undecodable", undecodable), COUNT(&stream->counts, "restarts", restarts),
        COUNT(&stream->counts, "held", held), NULL);
    if (stream->has_round_trip) gst_structure_set(to, "round-trip", G_TYPE_UINT64, (guint64)stream->round_trip * CPAY_TICK, NULL);
    if (own) gst_structure_set(to, "skew", G_TYPE_INT64, own->clock.skew, "sync", G_TYPE_INT64, own->clock.sync, NULL);
    add_report(it, stream, to);
    return to;
}

GstStructure *cpay_session_stats(GstCpaySession *it) {
    cpay_session_counts_info counts;
    cpay_session_stream stream;
    GValue list = G_VALUE_INIT;
    GstStructure *all = gst_structure_new_empty("application/x-cpay-session-stats");
    g_value_init(&list, GST_TYPE_ARRAY);
    g_mutex_lock(&it->lock);
    if (it->has_session && cpay_session_counts(&it->session, &counts) == CPAY_OK)
        gst_structure_set(all, COUNT(&counts, "received", received), COUNT(&counts, "rtcp", rtcp), COUNT(&counts, "malformed", malformed),
                          COUNT(&counts, "unknown", unknown), COUNT(&counts, "refused", refused),
                          COUNT(&counts, "unassociated", unassociated), COUNT(&counts, "ended", ended),
                          COUNT(&counts, "telephone-dropped", telephone_dropped), NULL);
    for (size_t i = 0; it->has_session && cpay_session_stream_at(&it->session, i, &stream) == CPAY_OK; i++) {
        GValue one = G_VALUE_INIT;
        g_value_init(&one, GST_TYPE_STRUCTURE);
        g_value_take_boxed(&one, stream_stats(it, &stream));
        gst_value_array_append_and_take_value(&list, &one);
    }
    g_mutex_unlock(&it->lock);
    gst_structure_take_value(all, "streams", &list);
    return all;
}

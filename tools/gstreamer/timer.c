/* The thread that polls the session at its deadlines, if the source is live. */
#include "session.h"

void cpay_timer_arm(GstCpaySession *it) {
    uint64_t at = 0;
    if (!it->live || !it->has_session || it->stop) return;
    if (cpay_session_next_deadline(&it->session, &at) != CPAY_OK || at >= it->waits_until) return;
    it->waits_until = at;
    if (it->waiting) gst_clock_id_unschedule(it->waiting);
    else g_cond_signal(&it->wake);
}

static guint64 ticks_now(GstCpaySession *it, GstClock *clock) {
    GstClockTime base = gst_element_get_base_time(GST_ELEMENT(it)), time = gst_clock_get_time(clock);
    return time > base ? (time - base) / CPAY_TICK : 0;
}

/* Waits until `at`, or until an earlier deadline is armed. The lock is released meanwhile. */
static void wait_until(GstCpaySession *it, GstClock *clock, guint64 at) {
    GstClockID id = gst_clock_new_single_shot_id(clock, gst_element_get_base_time(GST_ELEMENT(it)) + at * CPAY_TICK);
    it->waits_until = at;
    it->waiting = id;
    g_mutex_unlock(&it->lock);
    gst_clock_id_wait(id, NULL);
    g_mutex_lock(&it->lock);
    it->waiting = NULL;
    gst_clock_id_unref(id);
}

/* Polls once the deadline has come. The caller holds the lock, which is released meanwhile. */
static void poll_at(GstCpaySession *it, guint64 now) {
    it->now = MAX(it->now, now);
    gboolean fine = cpay_session_take_events(it);
    CpayOutcome all = cpay_session_take_outcome(it);
    g_mutex_unlock(&it->lock);
    cpay_session_carry_out(it, all);
    if (!fine) GST_ELEMENT_ERROR(it, RESOURCE, NO_SPACE_LEFT, (NULL), ("out of memory"));
    g_mutex_lock(&it->lock);
}

static gpointer timer_loop(gpointer it_) {
    GstCpaySession *it = it_;
    g_mutex_lock(&it->lock);
    while (!it->stop) {
        uint64_t at = 0;
        g_autoptr(GstClock) clock = it->live && it->has_session && !it->eos ? gst_element_get_clock(GST_ELEMENT(it)) : NULL;
        it->waits_until = G_MAXUINT64;
        if (!clock || cpay_session_next_deadline(&it->session, &at) != CPAY_OK) {
            g_cond_wait(&it->wake, &it->lock);
            continue;
        }
        if (at > ticks_now(it, clock)) wait_until(it, clock, at);
        guint64 now = ticks_now(it, clock);
        if (!it->stop && it->has_session && at <= now) poll_at(it, now);
    }
    g_mutex_unlock(&it->lock);
    return NULL;
}

void cpay_timer_start(GstCpaySession *it) {
    if (!it->timer) it->timer = g_thread_new("cpaysession", timer_loop, it);
}

void cpay_timer_stop(GstCpaySession *it) {
    g_mutex_lock(&it->lock);
    it->stop = TRUE;
    if (it->waiting) gst_clock_id_unschedule(it->waiting);
    g_cond_broadcast(&it->wake);
    g_cond_broadcast(&it->drained);
    /* the threads of streams hold the stream locks of their pads while they wait */
    for (GList *at = it->streams; at; at = at->next) cpay_stream_stop(at->data);
    g_mutex_unlock(&it->lock);
    if (it->timer) g_thread_join(it->timer);
    it->timer = NULL;
}

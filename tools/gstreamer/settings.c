/* From descriptions and properties to the settings of a session. */
#include "session.h"

#include <string.h>

/* The library's defaults are for a clock of milliseconds. */
static void scale(cpay_session_settings *it) {
    const guint64 by = CPAY_TICKS_PER_MS;
    it->late.shortest *= by, it->late.longest *= by, it->late.first *= by, it->late.lost_after *= by;
    it->idle_timeout *= by, it->bye_wait *= by;
    it->feedback.keyframe_interval *= by, it->feedback.silence *= by, it->feedback.first_wait *= by;
    it->feedback.retry *= by, it->feedback.shortest_retry *= by, it->feedback.longest_retry *= by;
    it->feedback.longest_wait *= by, it->feedback.report_interval *= by;
    it->transport.interval *= by;
    it->tick_rate *= (guint32)by;
}

static gchar *description(GstCpaySession *it, const GstCaps *from_pad, GError **error) {
    if (it->sdp) {
        gchar *text = NULL;
        if (g_str_has_prefix(it->sdp, "v=")) return g_strdup(it->sdp);
        return g_file_get_contents(it->sdp, &text, NULL, error) ? text : NULL;
    }
    const GstCaps *caps = it->formats ? it->formats : from_pad;
    if (caps) return cpay_sdp_of_caps(caps, error);
    g_set_error(error, GST_STREAM_ERROR, GST_STREAM_ERROR_FORMAT,
                "no formats: set sdp, formats, or caps of application/x-rtp on the source");
    return NULL;
}

/* Reads the description. Free what it returns; NULL with an error. */
static cpay_sdp_session_settings *read_description(GstCpaySession *it, const GstCaps *from_pad, GError **error) {
    size_t count = 0;
    cpay_sdp_fault fault = {0, CPAY_SDP_NO_ERROR};
    cpay_sdp_session_fault clash = {0, CPAY_SDP_NO_CLASH};
    g_autofree gchar *text = description(it, from_pad, error);
    if (!text) return NULL;
    g_autofree cpay_sdp_session_settings *found = g_new0(cpay_sdp_session_settings, 1);
    cpay_status status = cpay_sdp_read(text, strlen(text), NULL, 0, &count, &fault); /* how many sections there are */
    g_autofree cpay_sdp_media *media = g_new0(cpay_sdp_media, count ? count : 1);
    if (status == CPAY_TOO_SMALL) status = cpay_sdp_read(text, strlen(text), media, count, &count, &fault);
    if (status) {
        g_set_error(error, GST_STREAM_ERROR, GST_STREAM_ERROR_FORMAT, "line %" G_GSIZE_FORMAT " of the description: %s", fault.line,
                    cpay_sdp_error_text(fault.error));
        return NULL;
    }
    if (cpay_sdp_session(media, count, found, &clash)) {
        g_set_error(error, GST_STREAM_ERROR, GST_STREAM_ERROR_FORMAT, "the formats: %s (%u)", cpay_sdp_session_error_text(clash.error),
                    clash.value);
        return NULL;
    }
    return g_steal_pointer(&found);
}

static void set_feedback(GstCpaySession *it, cpay_session_settings *settings) {
    g_autofree gchar *made = it->cname ? g_strdup(it->cname) : g_strdup_printf("user%08x@host-%08x", g_random_int(), g_random_int());
    g_autofree gchar *cname = g_strndup(made, 255);
    if (!it->ssrc) it->ssrc = g_random_int();
    if (cpay_session_settings_feedback(settings, it->ssrc, (const uint8_t *)cname, strlen(cname))) g_assert_not_reached();
    settings->feedback.has_report = !it->reduced;
    settings->feedback.has_report_interval = it->report_interval != 0;
    settings->feedback.report_interval = it->report_interval;
    settings->feedback.keyframe_interval = it->keyframe_interval;
    /* The library asks again after the round trip and an eighth; over long ways that leaves two tries. Four fit into the latency. */
    settings->feedback.longest_retry = it->longest_retry ? it->longest_retry : MAX(it->latency / 4, 20);
    if (!it->nack && !it->pli) settings->feedback.tries = 0;
}

/* Sinks wait for the latency that the element reports, so waiting less would gain nothing. If nobody resends, the wait is for packets in
 * another order, and keyframes are requested the earlier. A keyframe at the start may wait for its packets. */
cpay_wait_limits cpay_session_waits(const GstCpaySession *it) {
    const uint64_t wait = (uint64_t)it->latency * CPAY_TICKS_PER_MS;
    return (cpay_wait_limits){
        .max_wait = it->repeats ? wait : wait / 2, .hold_back = CPAY_NO_HOLD_BACK, .start = it->latency * 60 / 1000, .has_max_wait = true};
}

static void set_waits(GstCpaySession *it, cpay_session_settings *settings) {
    cpay_wait_limits waits = cpay_session_waits(it);
    settings->feedback.has_longest_wait = false;
    settings->audio.has_max_wait = settings->video.has_max_wait = true;
    settings->audio.max_wait = settings->video.max_wait = waits.max_wait;
    settings->video.start = MAX(settings->video.start, waits.start);
}

static void take_formats(GstCpaySession *it, cpay_sdp_session_settings *found) {
    it->repeats = FALSE;
    g_hash_table_remove_all(it->codecs);
    for (size_t i = 0; i < found->formats_len; i++) {
        cpay_session_format *format = &found->formats[i];
        format->nack = format->nack && it->nack;
        format->pli = format->pli && it->pli;
        it->repeats |= format->nack;
        g_hash_table_insert(it->codecs, GUINT_TO_POINTER(format->payload_type), (gpointer)cpay_codec_of(format->spec.codec));
    }
}

static void explain(cpay_sdp_session_settings *found, cpay_status status, GError **error) {
    cpay_settings_fault wrong = {0, CPAY_SETTINGS_FIT, 0, false, false};
    if (status == CPAY_INVALID && cpay_session_settings_check(&found->settings, found->formats, found->formats_len, found->no_media,
                                                              found->no_media_len, &wrong) == CPAY_INVALID)
        g_set_error(error, GST_STREAM_ERROR, GST_STREAM_ERROR_FORMAT, "the formats: %s", cpay_settings_fault_text(wrong.kind));
    else g_set_error(error, GST_RESOURCE_ERROR, GST_RESOURCE_ERROR_NO_SPACE_LEFT, "%s", cpay_status_text(status));
}

gboolean cpay_session_open(GstCpaySession *it, const GstCaps *from_pad, GError **error) {
    static const uint8_t policies[] = {CPAY_KEYFRAME_OFF, CPAY_KEYFRAME_MARK, CPAY_KEYFRAME_DROP};
    g_autofree cpay_sdp_session_settings *found = read_description(it, from_pad, error);
    if (!found) return FALSE;
    cpay_session_settings *settings = &found->settings;
    set_feedback(it, settings);
    settings->from_keyframe = policies[it->undecodable];
    settings->max_streams = it->max_streams;
    settings->has_transport = settings->has_transport && it->transport;
    if (!it->references) settings->dependency_descriptor = 0;
    scale(settings);
    take_formats(it, found);
    set_waits(it, settings);
    cpay_status status = cpay_session_new(&it->session, settings, found->formats, found->formats_len, found->no_media, found->no_media_len,
                                          found->pairs, found->pairs_len);
    it->has_session = status == CPAY_OK;
    if (status) explain(found, status, error);
    return it->has_session;
}

gboolean cpay_session_change_formats(GstCpaySession *it, GError **error) {
    g_autofree cpay_sdp_session_settings *found = read_description(it, NULL, error);
    if (!found) return FALSE;
    g_autoptr(GHashTable) former = it->codecs;
    it->codecs = g_hash_table_new(NULL, NULL);
    take_formats(it, found);
    cpay_status status = cpay_session_set_formats(&it->session, it->now, found->formats, found->formats_len);
    if (!status) return TRUE;
    g_hash_table_unref(it->codecs);
    it->codecs = g_steal_pointer(&former);
    explain(found, status, error);
    return FALSE;
}

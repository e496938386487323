/* The calls of the library that the twin makes, without structs: Rust sees pointers and numbers alone, so a field that is new in
 * codec_payload.h changes nothing here. */
#include "codec_payload.h"
#include <stdlib.h>
#include <string.h>

enum { FLEXIBLE = 1, VP8_IDS = 2, OCTET_ALIGN = 4 };

static cpay_spec spec_of(uint32_t codec, uint32_t rate, uint32_t flags, uint16_t first_id) {
    cpay_spec spec = { 0 };
    spec.codec = codec;
    spec.rate = rate;
    spec.first_id = first_id;
    spec.octet_align = flags & OCTET_ALIGN;
    spec.vp8_ids = flags & VP8_IDS;
    spec.vp9_flexible = flags & FLEXIBLE;
    return spec;
}

/* A packetizer, or NULL if the library refuses it. */
void *twin_packetizer(uint32_t codec, uint32_t rate, uint32_t flags, uint16_t first_id) {
    cpay_spec spec = spec_of(codec, rate, flags, first_id);
    cpay_packetizer *made = calloc(1, sizeof *made);
    if (made && !cpay_packetizer_new(made, &spec)) return made;
    free(made);
    return NULL;
}

uint32_t twin_packetize(void *packetizer, size_t mtu, const uint8_t *frame, size_t frame_len, size_t *count) {
    return cpay_packetize(packetizer, mtu, false, frame, frame_len, count);
}

/* The next packet: its size and whether it may be asked for again. */
uint32_t twin_packet(void *packetizer, uint8_t *bytes, size_t bytes_len, size_t *size, bool *nackable) {
    cpay_packet_info info = { 0 };
    cpay_status status = cpay_packet(packetizer, &info, bytes, bytes_len);
    *size = info.bytes;
    *nackable = info.nackable;
    return status;
}

void twin_packetizer_free(void *packetizer) {
    cpay_packetizer_free(packetizer);
    free(packetizer);
}

void *twin_depacketizer(uint32_t codec, uint32_t rate, uint32_t flags) {
    cpay_spec spec = spec_of(codec, rate, flags, 0);
    cpay_depacketizer *made = calloc(1, sizeof *made);
    if (made && !cpay_depacketizer_new(made, &spec)) return made;
    free(made);
    return NULL;
}

uint32_t twin_depacketize(void *depacketizer, const uint8_t *payload, size_t payload_len) {
    return cpay_depacketize(depacketizer, payload, payload_len);
}

/* What cpay_depacketized does, by the calls that lend. */
static cpay_status lent(cpay_depacketizer *depacketizer, size_t *size, cpay_extra *extra, uint8_t *bytes, size_t bytes_len) {
    cpay_lent_unit unit = { 0 };
    cpay_status status = cpay_depacketizer_unit(depacketizer, &unit);
    if (status) return status;
    *size = unit.bytes;
    *extra = unit.extra;
    if (bytes_len < unit.bytes) return CPAY_TOO_SMALL;
    if (unit.bytes) memcpy(bytes, unit.at, unit.bytes);
    return cpay_depacketizer_clear(depacketizer);
}

/* The result of the payloads, by each of the two ways in turn: bytes, and from the codec-specific data its type, its keyframe bit and its picture id (or 0). */
uint32_t twin_depacketized(void *depacketizer, uint8_t *bytes, size_t bytes_len, size_t *size, uint64_t extra[3]) {
    static unsigned turn;
    cpay_extra told = { 0 };
    cpay_status status = turn++ % 2 ? lent(depacketizer, size, &told, bytes, bytes_len)
                                    : cpay_depacketized(depacketizer, size, &told, bytes, bytes_len);
    extra[0] = told.kind;
    extra[1] = told.is_keyframe;
    extra[2] = told.has_picture_id ? told.picture_id : 0;
    return status;
}

void twin_depacketizer_free(void *depacketizer) {
    cpay_depacketizer_free(depacketizer);
    free(depacketizer);
}

/* A receiver by settings in the order of the fields of cpay_receiver_settings. A `hold_back` of SIZE_MAX
 * sets no bound by count, a `max_wait` of UINT64_MAX none by time; 0 means no RED, or no retransmissions. With both, RED is
 * retransmitted with payload type 99. */
void *twin_receiver(uint32_t codec, uint32_t rate, uint32_t flags, const uint64_t values[9]) {
    cpay_receiver_settings settings;
    cpay_receiver_settings_init(&settings, codec, rate, 96, CPAY_FOR_FILE);
    settings.spec = spec_of(codec, rate, flags, 0);
    settings.has_ssrc = true;
    settings.ssrc = 1;
    settings.hold_back = (size_t)values[0];
    settings.start = (size_t)values[1];
    settings.max_wait = values[2];
    settings.has_max_wait = values[2] != UINT64_MAX;
    settings.limit = (size_t)values[3];
    settings.forward = (uint16_t)values[4];
    settings.backward = (uint16_t)values[5];
    settings.tick_rate = (uint32_t)values[6];
    settings.has_red = values[7];
    settings.red_payload_type = 63;
    settings.red_step = (uint32_t)values[7];
    settings.has_rtx = values[8];
    settings.rtx_ssrc = (uint32_t)values[8];
    settings.rtx_payload_type = 98;
    settings.has_red_rtx = settings.has_red && settings.has_rtx;
    settings.red_rtx_payload_type = 99;
    static const uint8_t no_media[] = { 97, 13 };
    cpay_receiver *made = calloc(1, sizeof *made);
    if (made && !cpay_receiver_new(made, &settings, no_media, sizeof no_media)) return made;
    free(made);
    return NULL;
}

uint32_t twin_receive(void *receiver, uint64_t now, const uint8_t *datagram, size_t datagram_len, uint32_t *outcome) {
    return cpay_receiver_receive(receiver, now, datagram, datagram_len, outcome);
}

/* What cpay_receiver_pop does, by the call that lends. */
static cpay_status pop_lent(cpay_receiver *receiver, uint64_t now, cpay_unit *unit, uint8_t *bytes, size_t bytes_len) {
    const uint8_t *at = NULL;
    cpay_status status = cpay_receiver_lend(receiver, now, unit, &at);
    if (status || unit->fault) return status;
    if (bytes_len < unit->bytes) return CPAY_TOO_SMALL;
    if (unit->bytes) memcpy(bytes, at, unit->bytes);
    return CPAY_OK;
}

/* The next unit, by each of the two ways in turn: first and last number, RTP time, whether it is contiguous, its size, and the fault of
 * a refused frame. */
uint32_t twin_pop(void *receiver, uint64_t now, uint8_t *bytes, size_t bytes_len, uint64_t unit[6]) {
    static unsigned turn;
    cpay_unit it = { 0 };
    cpay_status status = turn++ % 2 ? pop_lent(receiver, now, &it, bytes, bytes_len) : cpay_receiver_pop(receiver, now, &it, bytes, bytes_len);
    unit[0] = it.first;
    unit[1] = it.last;
    unit[2] = it.rtp_time;
    unit[3] = it.contiguous;
    unit[4] = it.bytes;
    unit[5] = it.fault;
    return status;
}

uint32_t twin_next_deadline(void *receiver, uint64_t *at) { return cpay_receiver_next_deadline(receiver, at); }

uint32_t twin_finish(void *receiver) { return cpay_receiver_finish(receiver); }

uint32_t twin_missing(void *receiver, uint64_t *numbers, size_t numbers_len, size_t *count) {
    return cpay_receiver_missing(receiver, numbers, numbers_len, count);
}

/* Received, malformed, released, evicted, recovered, late, suspect, duplicates, units. */
uint32_t twin_counts(void *receiver, uint64_t counts[9]) {
    cpay_receiver_counts_info it = { 0 };
    cpay_status status = cpay_receiver_counts(receiver, &it);
    uint64_t told[9] = { it.received, it.malformed, it.released, it.evicted, it.recovered, it.late, it.suspect, it.duplicates, it.units };
    for (int place = 0; place < 9; place++) counts[place] = told[place];
    return status;
}

void twin_receiver_free(void *receiver) {
    cpay_receiver_free(receiver);
    free(receiver);
}

/* A session of two formats: the given one with payload type 96, RED 63, retransmissions 98 and retransmissions of RED 99, and Opus
 * with payload type 100. The values are max_wait, start, limit, max_streams, probation, idle_timeout, bye_wait and from_keyframe. */
void *twin_session(uint32_t codec, uint32_t rate, uint32_t flags, const uint64_t values[8]) {
    cpay_session_settings settings;
    cpay_session_format formats[2] = { { .red_step = 0 }, { .red_step = 0 } };
    static const uint8_t no_media[] = { 97 + CPAY_TELEPHONE, 13 };
    static const cpay_ssrc_pair pairs[] = { { 1, 2 } };
    static const uint8_t name[] = { 'm', 'e', '@', 'h', 'o', 's', 't' };
    cpay_session_settings_init(&settings, CPAY_FOR_LIVE);
    formats[0].spec = spec_of(codec, rate, flags, 0);
    formats[0].payload_type = 96;
    formats[0].has_red = formats[0].has_rtx = formats[0].has_red_rtx = true;
    formats[0].red_payload_type = 63;
    formats[0].red_step = 90;
    formats[0].rtx_payload_type = 98;
    formats[0].red_rtx_payload_type = 99;
    formats[1].spec = spec_of(CPAY_OPUS, 48000, 0, 0);
    formats[1].payload_type = 100;
    formats[1].late_wait = true;
    settings.audio.max_wait = settings.video.max_wait = values[0];
    settings.audio.start = settings.video.start = (size_t)values[1];
    settings.limit = (size_t)values[2];
    settings.max_streams = (size_t)values[3];
    settings.probation = values[4];
    settings.idle_timeout = values[5];
    settings.bye_wait = values[6];
    settings.from_keyframe = (uint8_t)values[7];
    settings.name_ids = (cpay_stream_name_ids){ .mid = 3, .rid = 4, .repaired_rid = 5 };
    settings.dependency_descriptor = 2;
    if (cpay_session_settings_feedback(&settings, 77, name, sizeof name)) return NULL;
    formats[0].nack = formats[0].pli = formats[1].nack = formats[1].pli = true;
    cpay_session *made = calloc(1, sizeof *made);
    if (made && !cpay_session_new(made, &settings, formats, 2, no_media, sizeof no_media, pairs, 1)) return made;
    free(made);
    return NULL;
}

/* What was done: kind, SSRC, payload type, status, outcome. */
uint32_t twin_session_receive(void *session, uint64_t now, const uint8_t *datagram, size_t datagram_len, uint64_t arrival[5]) {
    cpay_arrival it = { 0 };
    cpay_status status = cpay_session_receive(session, now, datagram, datagram_len, &it);
    uint64_t told[5] = { it.kind, it.ssrc, it.payload_type, it.status, it.outcome };
    for (int place = 0; place < 5; place++) arrival[place] = told[place];
    return status;
}

/* The next event: kind, SSRC, payload type, status, why, and of its unit the first and the last number, the RTP time, whether it is
 * contiguous, decodable and a keyframe; the number of its bytes, and whether it starts a talk spurt. */
uint32_t twin_session_poll(void *session, uint64_t now, uint8_t *bytes, size_t bytes_len, uint64_t event[13]) {
    cpay_event it = { 0 };
    cpay_status status = cpay_session_poll(session, now, &it);
    if (status == CPAY_OK && it.bytes > bytes_len) return CPAY_TOO_SMALL;
    if (status == CPAY_OK && it.bytes > 0) memcpy(bytes, it.data, it.bytes);
    uint64_t told[13] = { it.kind, it.ssrc, it.payload_type, it.status, it.why, it.unit.first, it.unit.last, it.unit.rtp_time,
                          it.unit.contiguous, it.unit.decodable, it.unit.keyframe, it.bytes, it.unit.starts_talk_spurt };
    for (int place = 0; place < 13; place++) event[place] = told[place];
    return status;
}

uint32_t twin_session_next_deadline(void *session, uint64_t *at) { return cpay_session_next_deadline(session, at); }

uint32_t twin_session_end(void *session, uint64_t now, uint32_t ssrc) { return cpay_session_end(session, now, ssrc); }

uint32_t twin_session_finish(void *session, uint64_t now) { return cpay_session_finish(session, now); }

uint32_t twin_session_missing(void *session, uint32_t ssrc, uint8_t payload_type, uint64_t *numbers, size_t numbers_len,
                              size_t *count) {
    return cpay_session_missing(session, ssrc, payload_type, numbers, numbers_len, count);
}

/* SSRC, fraction lost, lost, highest number, jitter, last sender report, delay since. */
uint32_t twin_session_report(void *session, uint64_t now, uint32_t ssrc, uint8_t payload_type, uint32_t block[7]) {
    cpay_report_block_info it = { 0 };
    cpay_status status = cpay_session_report(session, now, ssrc, payload_type, &it);
    uint32_t told[7] = { it.ssrc, it.fraction_lost, it.cumulative_lost, it.highest, it.jitter, it.last_sender_report,
                         it.delay_since_sender_report };
    for (int place = 0; place < 7; place++) block[place] = told[place];
    return status;
}

/* The three names, each as its length and 32 bytes. */
uint32_t twin_session_names(void *session, uint32_t ssrc, uint8_t payload_type, uint8_t names[99]) {
    cpay_stream_names it = { .mid_len = 0 };
    cpay_status status = cpay_session_names(session, ssrc, payload_type, &it);
    names[0] = it.mid_len, names[33] = it.rid_len, names[66] = it.repaired_rid_len;
    memcpy(names + 1, it.mid, 32);
    memcpy(names + 34, it.rid, 32);
    memcpy(names + 67, it.repaired_rid, 32);
    return status;
}

uint32_t twin_session_request_keyframe(void *session, uint32_t ssrc) {
    cpay_keyframe_answer answer = CPAY_KEYFRAME_NO_STREAM;
    cpay_status status = cpay_session_request_keyframe(session, ssrc, &answer);
    return status ? 100 + (uint32_t)status : (uint32_t)answer;
}

uint32_t twin_session_add_pair(void *session, uint32_t ssrc, uint32_t rtx_ssrc) {
    return cpay_session_add_pair(session, ssrc, rtx_ssrc);
}

/* Received, RTCP, malformed, unknown, refused, unassociated, ended, streams, dropped telephone events. */
uint32_t twin_session_counts(void *session, uint64_t counts[9]) {
    cpay_session_counts_info it = { 0 };
    cpay_status status = cpay_session_counts(session, &it);
    uint64_t told[9] = { it.received, it.rtcp, it.malformed, it.unknown, it.refused, it.unassociated, it.ended, it.streams,
                         it.telephone_dropped };
    for (int place = 0; place < 9; place++) counts[place] = told[place];
    return status;
}

void twin_session_free(void *session) {
    cpay_session_free(session);
    free(session);
}

/* A limit of waiting by shortest, longest, first and lost_after. */
void *twin_wait(const uint64_t values[4]) {
    const cpay_adaptive_wait_settings settings = { values[0], values[1], values[2], values[3] };
    cpay_adaptive_wait *made = calloc(1, sizeof *made);
    if (made && !cpay_adaptive_wait_new(made, &settings)) return made;
    free(made);
    return NULL;
}

uint32_t twin_wait_arrived(void *wait, uint64_t now, uint16_t number) { return cpay_adaptive_wait_arrived(wait, now, number); }

uint32_t twin_wait_missing(void *wait, uint64_t now, const uint64_t *numbers, size_t numbers_len) {
    return cpay_adaptive_wait_missing(wait, now, numbers, numbers_len);
}

uint32_t twin_wait_limit(void *wait, uint64_t *limit) { return cpay_adaptive_wait_limit(wait, limit); }

void twin_wait_free(void *wait) {
    cpay_adaptive_wait_free(wait);
    free(wait);
}

/* A history by limit, interval, whether there are retransmissions, their SSRC, payload type and first number; NULL if refused. */
void *twin_history(const uint64_t values[6]) {
    cpay_history_settings settings = { 0 };
    settings.limit = values[0];
    settings.interval = values[1];
    settings.has_rtx = values[2];
    settings.rtx_ssrc = (uint32_t)values[3];
    settings.rtx_payload_type = (uint8_t)values[4];
    settings.rtx_first_number = (uint16_t)values[5];
    cpay_history *made = calloc(1, sizeof *made);
    if (made && !cpay_history_new(made, &settings)) return made;
    free(made);
    return NULL;
}

uint32_t twin_history_keep(void *history, const uint8_t *datagram, size_t datagram_len, uint32_t *kept) {
    return cpay_history_keep(history, datagram, datagram_len, kept);
}

uint32_t twin_history_resend(void *history, uint64_t now, uint16_t number, uint8_t *bytes, size_t bytes_len, size_t *size,
                             uint32_t *resent) {
    return cpay_history_resend(history, now, number, bytes, bytes_len, size, resent);
}

void twin_history_free(void *history) {
    cpay_history_free(history);
    free(history);
}

uint32_t twin_read_requests(const uint8_t *rtcp, size_t rtcp_len, uint32_t ssrc, bool full, uint16_t *numbers, size_t numbers_len,
                            size_t *count, bool *wants_keyframe) {
    return cpay_read_requests(rtcp, rtcp_len, ssrc, full, numbers, numbers_len, count, wants_keyframe);
}

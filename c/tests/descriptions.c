/* Reads session descriptions by codec_payload_sdp.h. c/tests/check.sh compares the output with c/tests/sdp.
 *
 *   descriptions <NAME.sdp             prints the sections and the settings of a session as NAME.txt has them, or the fault
 *   descriptions faults <TABLE         reads lines LINE|ERROR|DESCRIPTION, with \n for the ends of lines; fails if one differs
 *   descriptions clashes <TABLE        reads lines VALUE|ERROR|DESCRIPTION: what a description says that gives no settings of a session
 *   descriptions fuzz <NAME.sdp        reads 3000 changed copies; fails if a section is out of bounds or makes no receiver, or if
 *                                      all sections make no session and no error is reported
 *   descriptions changed N <NAME.sdp   prints the first N changed copies, each as read */
#include "codec_payload_sdp.h"

#ifdef _WIN32
#include <fcntl.h>
#include <io.h>
#endif
#include <stdio.h>
#include <stdlib.h>
#include <string.h>

enum { MOST_TEXT = 1 << 16, MOST_MEDIA = 32, MOST_GROUPS = 1000, CHANGES = 3000 };

static char given[MOST_TEXT], changed[MOST_TEXT];
static cpay_sdp_media media[MOST_MEDIA];

static const char *const roles[] = {"ignored", "media", "RED", "retransmission", "events", "comfort noise", "FEC"};
static const char *const kinds[] = {"other", "audio", "video"};
static const char *const directions[] = {"sendrecv", "sendonly", "recvonly", "inactive"};
static const char *const setups[] = {"none", "active", "passive", "actpass", "holdconn"};

static void fail(const char *what) {
    fprintf(stderr, "descriptions: %s\n", what);
    exit(EXIT_FAILURE);
}

/* ---- Printing ---- */

/* ` NAME TEXT`, if there is a text. A 0 in it is printed as `?`. */
static void print_text(const char *name, cpay_sdp_text it) {
    if (it.len == 0) return;
    printf("%s", name);
    for (size_t i = 0; i < it.len; i++) putchar(it.at[i] ? it.at[i] : '?');
}

static void print_format(const cpay_sdp_format *it) {
    printf("%u %s/%u/%u: %s", it->payload_type, it->name, it->clock_rate, it->channels, roles[it->role]);
    if (it->role == CPAY_SDP_MEDIA) printf(" %u", it->codec);
    if (it->has_of) printf(" of %u", it->of);
    if (it->profile) printf(" profile %u", it->profile);
    printf("%s%s%s%s%s%s\n", it->octet_align ? " octet-align" : "", it->nack ? " nack" : "", it->pli ? " pli" : "",
           it->fir ? " fir" : "", it->transport_cc ? " transport-cc" : "", it->remb ? " remb" : "");
    print_text("fmtp ", it->fmtp);
    if (it->fmtp.len) printf("\n");
}

static void print_ids(const cpay_sdp_media *it) {
    const cpay_extension_ids *known = &it->extension_ids;
    const struct {
        const char *name;
        uint8_t id;
    } ids[] = {{"capture-time", known->abs_capture_time}, {"orientation", known->video_orientation},
               {"content-type", known->video_content_type}, {"timing", known->video_timing},
               {"layers", known->layers_allocation}, {"level", known->audio_level}, {"mid", it->mid_id},
               {"rid", it->rid_id}, {"repaired-rid", it->repaired_rid_id}, {"transport-cc", it->transport_cc_id},
               {"send-time", it->send_time_id}, {"toffset", it->offset_id}, {"descriptor", it->dependency_descriptor_id}};
    printf("ids:");
    for (size_t i = 0; i < sizeof ids / sizeof *ids; i++)
        if (ids[i].id) printf(" %s %u", ids[i].name, ids[i].id);
    printf("\n");
}

/* The settings of a receiver for a payload type of media, which a receiver must accept. */
static void print_receiver(const cpay_sdp_media *it, uint8_t payload_type) {
    cpay_receiver_settings settings;
    cpay_receiver receiver = CPAY_INIT;
    uint8_t no_media[CPAY_SDP_MAX_FORMATS];
    size_t no_media_len = 0;
    if (cpay_sdp_receiver(it, payload_type, &settings, no_media, &no_media_len)) fail("media without settings");
    if (cpay_receiver_new(&receiver, &settings, no_media, no_media_len)) fail("settings of no receiver");
    cpay_receiver_free(&receiver);
    printf("receiver of %u: wait %u", payload_type, (unsigned)settings.max_wait);
    if (settings.has_red) printf(", RED %u step %u", settings.red_payload_type, settings.red_step);
    if (settings.has_red_rtx) printf(" RTX %u", settings.red_rtx_payload_type);
    if (settings.has_ssrc) printf(", SSRC %u", settings.ssrc);
    if (settings.has_rtx) printf(", RTX %u SSRC %u", settings.rtx_payload_type, settings.rtx_ssrc);
    if (settings.dependency_descriptor) printf(", descriptor %u", settings.dependency_descriptor);
    if (no_media_len > 0) printf(", no media in");
    for (size_t i = 0; i < no_media_len; i++) printf(" %u", no_media[i]);
    printf("\n");
}

static void print_transport(const cpay_sdp_transport *it) {
    printf("ICE:");
    print_text(" user ", it->ice_ufrag);
    print_text(" password ", it->ice_pwd);
    print_text(" options ", it->ice_options);
    printf("%s%s\n", it->ice_lite ? " lite" : "", it->end_of_candidates ? " end" : "");
    for (size_t i = 0; i < it->candidate_count; i++) print_text(i ? "\ncandidate " : "candidate ", it->candidates[i]);
    if (it->candidate_count) printf("\n");
    if (it->more_candidates) printf("%zu more candidates\n", it->more_candidates);
    if (it->setup) printf("setup %s\n", setups[it->setup]);
    for (size_t i = 0; i < it->fingerprint_count; i++) {
        print_text("fingerprint ", it->fingerprints[i].hash);
        print_text(" ", it->fingerprints[i].value);
        printf("\n");
    }
}

static void print_layers(const cpay_sdp_media *it) {
    for (size_t i = 0; i < it->rid_count; i++) {
        print_text("rid ", it->rids[i].id);
        printf(" %s", it->rids[i].sent ? "send" : "recv");
        print_text(" ", it->rids[i].restrictions);
        printf("\n");
    }
    if (it->more_rids) printf("%zu more rids\n", it->more_rids);
    for (size_t i = 0; i < it->layer_count; i++) {
        const cpay_sdp_layer *layer = &it->layers[i];
        printf("simulcast %s %u", layer->sent ? "send" : "recv", layer->stream);
        print_text(" ", layer->rid);
        printf("%s\n", layer->paused ? " paused" : "");
    }
    if (it->more_layers) printf("%zu more layers\n", it->more_layers);
}

/* What a section says beside formats. */
static void print_beside_formats(const cpay_sdp_media *it) {
    print_text("type ", it->type);
    print_text(" ", it->protocol);
    print_text(" mid ", it->mid);
    printf(" %s\n", directions[it->direction]);
    for (size_t i = 0; i < it->msid_count; i++) {
        print_text("msid ", it->msids[i].stream);
        print_text(" ", it->msids[i].track);
        printf("\n");
    }
    if (it->more_msids) printf("%zu more msids\n", it->more_msids);
    print_layers(it);
    print_transport(&it->transport);
}

static void print_media(const cpay_sdp_media *it) {
    printf("line %zu: %s, port %u%s%s%s%s%s", it->line, kinds[it->kind], it->port, it->is_rtp ? "" : ", not RTP",
           it->encrypted ? ", encrypted" : "", it->rtcp_mux ? ", rtcp-mux" : "", it->receiver_rtt ? ", rcvr-rtt" : "",
           it->bundle_only ? ", bundle-only" : "");
    if (it->packet_time) printf(", ptime %u", it->packet_time);
    printf("\n");
    print_beside_formats(it);
    for (size_t i = 0; i < it->format_count; i++) print_format(&it->formats[i]);
    print_ids(it);
    for (size_t i = 0; i < it->source_count; i++) {
        printf("SSRC %u", it->sources[i].ssrc);
        if (it->sources[i].has_rtx) printf(" RTX %u", it->sources[i].rtx_ssrc);
        printf("\n");
    }
    for (size_t i = 0; i < it->format_count; i++)
        if (it->formats[i].role == CPAY_SDP_MEDIA) print_receiver(it, it->formats[i].payload_type);
}

/* ---- Settings of a session ---- */

static cpay_sdp_session_settings session;

static void print_session_format(const cpay_session_format *it) {
    printf("format %u: codec %u/%u%s", it->payload_type, it->spec.codec, it->spec.rate, it->spec.octet_align ? " octet-align" : "");
    if (it->has_red) printf(", RED %u step %u", it->red_payload_type, it->red_step);
    if (it->has_red_rtx) printf(" RTX %u", it->red_rtx_payload_type);
    if (it->has_rtx) printf(", RTX %u", it->rtx_payload_type);
    printf("%s%s\n", it->nack ? ", nack" : "", it->pli ? ", pli" : "");
}

static void print_session_ids(const cpay_session_settings *settings) {
    const cpay_extension_ids *it = &settings->extension_ids;
    const cpay_stream_name_ids *names = &settings->name_ids;
    const struct {
        const char *name;
        uint8_t id;
    } ids[] = {{"capture-time", it->abs_capture_time}, {"orientation", it->video_orientation},
               {"content-type", it->video_content_type}, {"timing", it->video_timing},
               {"layers", it->layers_allocation}, {"level", it->audio_level}, {"mid", names->mid},
               {"rid", names->rid}, {"repaired-rid", names->repaired_rid}, {"descriptor", settings->dependency_descriptor}};
    printf("session ids:");
    for (size_t i = 0; i < sizeof ids / sizeof *ids; i++)
        if (ids[i].id) printf(" %s %u", ids[i].name, ids[i].id);
    printf("\n");
}

/* A session must accept these settings. */
static void check_session(void) {
    cpay_session made = CPAY_INIT;
    if (cpay_session_new(&made, &session.settings, session.formats, session.formats_len, session.no_media, session.no_media_len,
                         session.pairs, session.pairs_len))
        fail("settings of no session");
    cpay_session_free(&made);
}

/* The settings of a session for all sections, which a session must accept, or why there are none. */
static void print_session(size_t count) {
    cpay_sdp_session_fault fault = {0, CPAY_SDP_NO_CLASH};
    cpay_status status = cpay_sdp_session(media, count, &session, &fault);
    if (status) {
        if (status != CPAY_INVALID || fault.error == CPAY_SDP_NO_CLASH) fail("no settings, and no reason");
        printf("no session: %s (%u)\n", cpay_sdp_session_error_text(fault.error), fault.value);
        return;
    }
    check_session();
    printf("session: wait %u %u\n", (unsigned)session.settings.audio.max_wait, (unsigned)session.settings.video.max_wait);
    for (size_t i = 0; i < session.formats_len; i++) print_session_format(&session.formats[i]);
    printf("session without media:");
    for (size_t i = 0; i < session.no_media_len; i++) {
        bool is_telephone = session.no_media[i] >= CPAY_TELEPHONE;
        printf(" %u%s", session.no_media[i] % CPAY_TELEPHONE, is_telephone ? " (events)" : "");
    }
    printf("\n");
    print_session_ids(&session.settings);
    for (size_t i = 0; i < session.pairs_len; i++) printf("pair %u %u\n", session.pairs[i].ssrc, session.pairs[i].rtx_ssrc);
}

/* The settings of a port with FEC, which a port must accept, if there are any. */
static void print_fec_port(size_t count) {
    static cpay_sdp_fec_port_settings found;
    const cpay_fec_port_settings *it = &found.settings;
    cpay_fec_port made = CPAY_INIT;
    cpay_status status = cpay_sdp_fec_port(media, count, &found);
    if (status == CPAY_NONE) return;
    if (status || cpay_fec_port_new(&made, it, found.retransmissions, found.retransmissions_len)) fail("a port does not take its settings");
    cpay_fec_port_free(&made);
    printf("FEC port: RED %u", it->red_type);
    if (it->has_red_retransmission) printf(" RTX %u", it->red_retransmission);
    printf(", ULPFEC %u, late %u %u %u %u", it->fec_type, it->transport_number, it->abs_send_time, it->transmission_offset, it->video_timing);
    for (size_t i = 0; i < found.retransmissions_len; i++)
        printf(", %u RTX %u", found.retransmissions[i].media, found.retransmissions[i].retransmission);
    printf("\n");
}

/* The groups, or the fault of one. */
static void print_groups(const char *text, size_t size) {
    static cpay_sdp_group groups[MOST_GROUPS];
    cpay_sdp_fault fault = {0, CPAY_SDP_NO_ERROR};
    size_t count = 0;
    cpay_status status = cpay_sdp_groups(text, size, groups, MOST_GROUPS, &count, &fault);
    if (status == CPAY_INVALID) printf("groups: line %zu: %s\n", fault.line, cpay_sdp_error_text(fault.error));
    else if (status) fail(cpay_status_text(status));
    for (size_t i = 0; !status && i < count; i++) {
        print_text("group ", groups[i].semantics);
        for (cpay_sdp_text mid = cpay_sdp_word(&groups[i].mids); mid.len > 0; mid = cpay_sdp_word(&groups[i].mids)) print_text(" ", mid);
        printf("\n");
    }
}

static void print_description(const char *text, size_t size) {
    cpay_sdp_fault fault = {0, CPAY_SDP_NO_ERROR};
    size_t count = 0;
    print_groups(text, size);
    cpay_status status = cpay_sdp_read(text, size, media, MOST_MEDIA, &count, &fault);
    if (status == CPAY_INVALID) printf("line %zu: %s\n", fault.line, cpay_sdp_error_text(fault.error));
    else if (status) fail(cpay_status_text(status));
    for (size_t i = 0; !status && i < count; i++) print_media(&media[i]);
    if (!status) print_session(count);
    if (!status) print_fec_port(count);
}

/* ---- Faults ---- */

/* Turns \n into the end of a line, and returns the size. */
static size_t unescape(char *text) {
    size_t to = 0;
    for (size_t from = 0; text[from]; from++) {
        bool is_end = text[from] == '\\' && text[from + 1] == 'n';
        text[to++] = is_end ? '\n' : text[from];
        from += is_end;
    }
    return to;
}

/* The parts NUMBER|ERROR|DESCRIPTION of a row. */
static void split(char *row, char **error, char **text) {
    *error = strchr(row, '|');
    *text = *error ? strchr(*error + 1, '|') : NULL;
    if (!*text) fail("a row is not NUMBER|ERROR|DESCRIPTION");
    *(*error)++ = '\0';
    *(*text)++ = '\0';
}

static void compare_clash(char *row, unsigned number) {
    char *error, *text;
    cpay_sdp_fault line = {0, CPAY_SDP_NO_ERROR};
    cpay_sdp_session_fault fault = {0, CPAY_SDP_NO_CLASH};
    size_t count = 0;
    split(row, &error, &text);
    if (cpay_sdp_read(text, unescape(text), media, MOST_MEDIA, &count, &line)) fail("a line is malformed");
    session.pairs_len = 77;
    cpay_status status = cpay_sdp_session(media, count, &session, &fault);
    bool as_wanted = strcmp(cpay_sdp_session_error_text(fault.error), error) == 0 && fault.value == strtoul(row, NULL, 10);
    if (as_wanted && status == (fault.error ? CPAY_INVALID : CPAY_OK) && (session.pairs_len == 77) == (status != CPAY_OK)) return;
    fprintf(stderr, "row %u: %s (%u)\n", number, cpay_sdp_session_error_text(fault.error), fault.value);
    fail("another error than the table's");
}

static void compare_fault(char *row, unsigned number) {
    char *error, *text;
    cpay_sdp_fault fault = {0, CPAY_SDP_NO_ERROR};
    size_t count = 77;
    split(row, &error, &text);
    cpay_status status = cpay_sdp_read(text, unescape(text), media, MOST_MEDIA, &count, &fault);
    bool as_wanted = strcmp(cpay_sdp_error_text(fault.error), error) == 0 && fault.line == strtoul(row, NULL, 10);
    if (as_wanted && status == (fault.error ? CPAY_INVALID : CPAY_OK) && (count == 77) == (status != CPAY_OK)) return;
    fprintf(stderr, "row %u: line %zu: %s\n", number, fault.line, cpay_sdp_error_text(fault.error));
    fail("another fault than the table's");
}

/* Pairs of SSRCs in 16 sections: there is room for all, and for no more. */
static void check_pairs(void) {
    cpay_sdp_session_fault fault = {99, CPAY_SDP_NO_CLASH};
    memset(media, 0, sizeof media);
    for (size_t i = 0; i < 17; i++) {
        media[i].is_rtp = true;
        media[i].format_count = 1;
        media[i].formats[0] = (cpay_sdp_format){.role = CPAY_SDP_MEDIA, .codec = CPAY_PCMU, .clock_rate = 8000};
        media[i].source_count = i < 16 ? 64 : 1;
        for (uint32_t k = 0; k < 64; k++) media[i].sources[k] = (cpay_sdp_source){100 * (uint32_t)i + k, 5000 + k, true};
    }
    if (cpay_sdp_session(media, 16, &session, &fault) || session.pairs_len != CPAY_SDP_MAX_PAIRS || fault.value != 99) fail("1024 pairs");
    if (session.pairs[1023].ssrc != 1563 || session.pairs[1023].rtx_ssrc != 5063) fail("the last pair");
    session.pairs_len = 7;
    if (cpay_sdp_session(media, 17, &session, &fault) != CPAY_INVALID || fault.error != CPAY_SDP_TOO_MANY_PAIRS || fault.value != 0)
        fail("1025 pairs");
    media[0].formats[0].payload_type = 128;
    if (cpay_sdp_session(media, 1, &session, &fault) != CPAY_INVALID || fault.error != CPAY_SDP_PAYLOAD_TYPE_CLASHES ||
        fault.value != 128)
        fail("payload type 128");
    fault.value = 55;
    if (cpay_sdp_session(NULL, 1, &session, &fault) != CPAY_INVALID || fault.value != 55) fail("a length without sections");
    if (cpay_sdp_session(NULL, 0, &session, &fault) != CPAY_INVALID || fault.error != CPAY_SDP_NO_MEDIA || fault.value != 0)
        fail("no sections");
    if (session.pairs_len != 7) fail("a failing call changed the settings");
}

/* Sections with and without a port with FEC: RED and ULPFEC of video in one section, and payload types that differ from those of RTCP. */
static void check_fec_ports(void) {
    static const struct {
        const char *text;
        unsigned red, fec; /* 0: there is no port */
    } rows[] = {
        {"m=video 9 RTP/AVP 96 98 99\na=rtpmap:96 VP8/90000\na=rtpmap:98 red/90000\na=rtpmap:99 ulpfec/90000\n", 98, 99},
        {"m=video 9 RTP/AVP 96 98 99\na=rtpmap:96 AV1/90000\na=rtpmap:98 RED/90000\na=rtpmap:99 ULPFEC/90000\n", 98, 99},
        {"m=video 9 RTP/AVP 96 98\na=rtpmap:96 VP8/90000\na=rtpmap:98 red/90000\n", 0, 0},
        {"m=video 9 RTP/AVP 96 99\na=rtpmap:96 VP8/90000\na=rtpmap:99 ulpfec/90000\n", 0, 0},
        {"m=video 9 RTP/AVP 96 98 99\na=rtpmap:96 VP8/90000\na=rtpmap:98 red/90000\na=rtpmap:99 flexfec-03/90000\n", 0, 0},
        {"m=video 9 RTP/AVP 96 98 99\na=rtpmap:96 H264/90000\na=rtpmap:98 red/90000\na=rtpmap:99 ulpfec/90000\n", 0, 0},
        {"m=audio 9 RTP/AVP 96 98 99\na=rtpmap:96 opus/48000/2\na=rtpmap:98 red/48000\na=rtpmap:99 ulpfec/48000\n", 0, 0},
        {"m=video 9 RTP/AVP 96 98 99\na=rtpmap:96 VP8/90000\na=rtpmap:98 red/90000\na=fmtp:98 96/96\na=rtpmap:99 ulpfec/90000\n", 0, 0},
        {"m=video 9 RTP/AVP 96 70 99\na=rtpmap:96 VP8/90000\na=rtpmap:70 red/90000\na=rtpmap:99 ulpfec/90000\n", 0, 0},
        {"m=video 9 RTP/AVP 96 98 95\na=rtpmap:96 VP8/90000\na=rtpmap:98 red/90000\na=rtpmap:95 ulpfec/90000\n", 0, 0},
        {"m=video 9 RTP/AVP 96 98 99 64\na=rtpmap:96 VP8/90000\na=rtpmap:98 red/90000\na=rtpmap:99 ulpfec/90000\na=rtpmap:64 rtx/90000\n"
         "a=fmtp:64 apt=98\n", 0, 0},
        {"m=audio 9 RTP/AVP 98 99\na=rtpmap:98 red/48000\na=rtpmap:99 ulpfec/48000\nm=video 9 RTP/AVP 96 101 100\na=rtpmap:96 VP9/90000\n"
         "a=rtpmap:100 red/90000\na=rtpmap:101 ulpfec/90000\n", 100, 101},
    };
    static cpay_sdp_fec_port_settings port;
    cpay_sdp_fault fault = {0, CPAY_SDP_NO_ERROR};
    size_t count = 0;
    for (size_t i = 0; i < sizeof rows / sizeof *rows; i++) {
        if (cpay_sdp_read(rows[i].text, strlen(rows[i].text), media, MOST_MEDIA, &count, &fault)) fail("a line is malformed");
        port.retransmissions_len = 77, port.settings.red_type = port.settings.fec_type = 0;
        cpay_status status = cpay_sdp_fec_port(media, count, &port);
        bool has_port = rows[i].red > 0;
        if (status != (has_port ? CPAY_OK : CPAY_NONE) || (port.retransmissions_len == 77) == has_port) fail(rows[i].text);
        if (port.settings.red_type != rows[i].red || port.settings.fec_type != rows[i].fec) fail(rows[i].text);
    }
    if (cpay_sdp_fec_port(NULL, 1, &port) != CPAY_INVALID || cpay_sdp_fec_port(NULL, 0, &port) != CPAY_NONE) fail("no sections");
}

/* Appends a line `count` times. */
static size_t add(char *text, size_t size, const char *line, unsigned count) {
    for (unsigned i = 0; i < count; i++) size += (size_t)sprintf(text + size, "%s", line);
    return size;
}

/* More of a section than there is room for is counted; more fingerprints are refused. */
static void check_lists(void) {
    static char many[1 << 14];
    cpay_sdp_fault fault = {0, CPAY_SDP_NO_ERROR};
    const cpay_sdp_media *it = &media[0];
    size_t count = 0, size = add(many, 0, "m=video 9 RTP/AVP 34\n", 1);
    size = add(many, size, "a=candidate:1 1 udp 1 192.0.2.1 9 typ host\n", CPAY_SDP_MAX_CANDIDATES + 2);
    size = add(many, size, "a=rid:1 send\n", CPAY_SDP_MAX_RIDS + 2);
    size = add(many, size, "a=msid:a b\n", CPAY_SDP_MAX_MSIDS + 2);
    size = add(many, size, "a=simulcast:send 1", 1);
    size = add(many, size, ";1", CPAY_SDP_MAX_LAYERS + 1);
    size = add(many, size, "\na=fingerprint:sha-256 AB\n", CPAY_SDP_MAX_FINGERPRINTS);
    if (cpay_sdp_read(many, size, media, 1, &count, &fault)) fail("long lists");
    if (it->transport.candidate_count != CPAY_SDP_MAX_CANDIDATES || it->transport.more_candidates != 2) fail("66 candidates");
    if (it->rid_count != CPAY_SDP_MAX_RIDS || it->more_rids != 2) fail("18 rids");
    if (it->msid_count != CPAY_SDP_MAX_MSIDS || it->more_msids != 2) fail("10 msids");
    if (it->layer_count != CPAY_SDP_MAX_LAYERS || it->more_layers != 2 || it->layers[31].stream != 31) fail("34 layers");
    if (it->transport.fingerprint_count != CPAY_SDP_MAX_FINGERPRINTS) fail("8 fingerprints");
    size = add(many, size, "a=fingerprint:sha-256 AB\n", 1);
    if (cpay_sdp_read(many, size, media, 1, &count, &fault) != CPAY_INVALID || fault.error != CPAY_SDP_TOO_MANY_FINGERPRINTS)
        fail("9 fingerprints");
}

/* Groups: their bounds, and words of a text. */
static void check_groups(void) {
    static const char text[] = "v=0\r\na=group:BUNDLE a  b\r\na=group:LS\r\nm=audio 9 RTP/AVP 0\r\na=group:FID 1\r\n";
    cpay_sdp_group groups[3];
    cpay_sdp_fault fault = {99, CPAY_SDP_NO_ERROR};
    size_t count = 77;
    memset(groups, 0, sizeof groups);
    if (cpay_sdp_groups(text, sizeof text - 1, groups, 1, &count, &fault) != CPAY_TOO_SMALL || count != 2 || groups[0].mids.len > 0)
        fail("two groups in place of one");
    if (cpay_sdp_groups(text, sizeof text - 1, groups, 3, &count, &fault) || count != 2 || fault.line != 99) fail("two groups");
    if (groups[1].mids.len || !cpay_sdp_text_is(groups[1].semantics, "LS") || groups[2].semantics.at) fail("the second group");
    if (!cpay_sdp_text_is(cpay_sdp_word(&groups[0].mids), "a") || !cpay_sdp_text_is(cpay_sdp_word(&groups[0].mids), "b") ||
        cpay_sdp_word(&groups[0].mids).len || cpay_sdp_text_is(groups[0].semantics, "bundle"))
        fail("the first group");
    if (!cpay_sdp_text_is(groups[2].mids, "") || cpay_sdp_word(&groups[2].mids).len) fail("no text");
    if (cpay_sdp_groups(NULL, 1, groups, 3, &count, &fault) != CPAY_INVALID || fault.line != 99) fail("a length without a text");
    if (cpay_sdp_groups(NULL, 0, NULL, 0, &count, &fault) || count) fail("no description");
    if (cpay_sdp_groups("a=x\na=group:", 12, groups, 3, &count, &fault) != CPAY_INVALID || fault.error != CPAY_SDP_BAD_GROUP ||
        fault.line != 2)
        fail("a group without semantics");
}

/* A megabyte of each of these lines, in time that grows with the lines alone: else this takes minutes. */
static void check_long(void) {
    static const char *const lines[] = {"a=mid:0\n", "a=msid:a\n", "a=candidate:1 1 udp 1 a 9 typ host\n", "a=rid:1 send\n",
                                        "a=simulcast:send 1;2 recv 3,~4\n", "a=rtcp-fb:* nack\n", "a=fmtp:0 x;y\n", "a=group:LS\n"};
    static const char *const parts[][2] = {
        {"a=simulcast:send 1", ";1"}, {"a=simulcast:send 1", ",~1"}, {"a=fingerprint:x AB", ":AB"}, {"a=fmtp:0 ", "x;"}, {"a=group:x", " a"}};
    static char many[(1 << 20) + 100];
    cpay_sdp_fault fault = {0, CPAY_SDP_NO_ERROR};
    size_t count = 0;
    for (size_t i = 0; i < sizeof lines / sizeof *lines; i++) {
        size_t size = add(many, 0, "m=audio 9 RTP/AVP 0\n", 1);
        size = add(many, size, lines[i], (unsigned)((1 << 20) / strlen(lines[i])));
        if (cpay_sdp_read(many, size, media, 1, &count, &fault)) fail("many lines");
    }
    for (size_t i = 0; i < sizeof parts / sizeof *parts; i++) {
        size_t size = add(many, 0, "m=audio 9 RTP/AVP 0\n", 1);
        size = add(many, size, parts[i][0], 1);
        size = add(many, size, parts[i][1], (unsigned)((1 << 20) / strlen(parts[i][1])));
        if (cpay_sdp_read(many, size, media, 1, &count, &fault)) fail("a long line");
    }
}

/* Many sections, and little room: what no table shows. */
static void check_bounds(void) {
    static char many[40 * (CPAY_SDP_MAX_MEDIA + 1)];
    cpay_sdp_fault fault = {0, CPAY_SDP_NO_ERROR};
    size_t size = 0, count = 0;
    for (size_t i = 0; i < CPAY_SDP_MAX_MEDIA; i++) size += (size_t)sprintf(many + size, "m=audio 9 RTP/AVP 0\n");
    media[0].line = media[1].line = 99;
    if (cpay_sdp_read(many, size, media, 1, &count, &fault) != CPAY_TOO_SMALL || count != CPAY_SDP_MAX_MEDIA || media[0].line != 99)
        fail("1024 sections in place of one");
    size += (size_t)sprintf(many + size, "m=audio 9 RTP/AVP 0\n");
    if (cpay_sdp_read(many, size, media, 1, &count, &fault) != CPAY_INVALID || fault.error != CPAY_SDP_TOO_MANY_MEDIA ||
        fault.line != CPAY_SDP_MAX_MEDIA + 1)
        fail("1025 sections");
    if (cpay_sdp_read(NULL, 0, NULL, 0, &count, &fault) || count != 0) fail("an empty description");
    if (cpay_sdp_read(NULL, 1, NULL, 0, &count, &fault) != CPAY_INVALID) fail("a length without a text");
    size = (size_t)sprintf(many, "m=audio 9 RTP/AVP 0\n");
    for (unsigned i = 0; i < CPAY_SDP_MAX_SOURCES; i++) size += (size_t)sprintf(many + size, "a=ssrc:%u\n", i);
    if (cpay_sdp_read(many, size, media, 1, &count, &fault) || media[0].source_count != CPAY_SDP_MAX_SOURCES) fail("128 SSRCs");
    size += (size_t)sprintf(many + size, "a=ssrc:128\n");
    if (cpay_sdp_read(many, size, media, 1, &count, &fault) != CPAY_INVALID || fault.error != CPAY_SDP_TOO_MANY_SOURCES)
        fail("129 SSRCs");
}

static void compare(void (*row)(char *, unsigned)) {
    unsigned rows = 0;
    while (fgets(given, sizeof given, stdin)) {
        given[strcspn(given, "\n")] = '\0';
        if (given[0] && given[0] != '#') row(given, ++rows);
    }
    printf("%u rows, all as the table has them\n", rows);
}

/* ---- Changed descriptions ---- */

static uint32_t drawn(uint32_t *seed, size_t below) {
    *seed = *seed * 1664525u + 1013904223u;
    return (uint32_t)((*seed >> 8) % below);
}

/* Copies the text with one to eight changes: a byte replaced, a piece cut out, or a piece from elsewhere put in its place. */
static size_t change(uint32_t seed, size_t size) {
    static const char bytes[] = "0123456789:/;= *\n\ram\t-";
    memcpy(changed, given, size);
    for (uint32_t times = 1 + drawn(&seed, 8); times > 0 && size > 64; times--) {
        size_t at = drawn(&seed, size - 40), length = 1 + drawn(&seed, 32), from = drawn(&seed, size - 40);
        switch (drawn(&seed, 4)) {
        case 0: changed[at] = bytes[drawn(&seed, sizeof bytes - 1)]; break;
        case 1: changed[at] = (char)drawn(&seed, 128); break;
        case 2:
            memmove(changed + at, changed + at + length, size - at - length);
            size -= length;
            break;
        default: memmove(changed + at, changed + from, length);
        }
    }
    return size;
}

/* A piece of the description must lie within it. */
static void check_text(cpay_sdp_text it, const char *text, size_t size) {
    if (it.len > 0 && (it.at < text || it.len > size || (size_t)(it.at - text) > size - it.len)) fail("a text is out of bounds");
}

static void check_beside_formats(const cpay_sdp_media *it, const char *text, size_t size) {
    const cpay_sdp_transport *transport = &it->transport;
    const cpay_sdp_text texts[] = {it->type, it->protocol, it->mid, transport->ice_ufrag, transport->ice_pwd, transport->ice_options};
    if (transport->fingerprint_count > CPAY_SDP_MAX_FINGERPRINTS || transport->candidate_count > CPAY_SDP_MAX_CANDIDATES ||
        it->msid_count > CPAY_SDP_MAX_MSIDS || it->rid_count > CPAY_SDP_MAX_RIDS || it->layer_count > CPAY_SDP_MAX_LAYERS ||
        it->direction > CPAY_SDP_INACTIVE || transport->setup > CPAY_SDP_HOLDCONN)
        fail("a list is out of bounds");
    for (size_t i = 0; i < sizeof texts / sizeof *texts; i++) check_text(texts[i], text, size);
    for (size_t i = 0; i < transport->fingerprint_count; i++) check_text(transport->fingerprints[i].value, text, size);
    for (size_t i = 0; i < transport->candidate_count; i++) check_text(transport->candidates[i], text, size);
    for (size_t i = 0; i < it->msid_count; i++) check_text(it->msids[i].track, text, size);
    for (size_t i = 0; i < it->rid_count; i++) check_text(it->rids[i].restrictions, text, size);
    for (size_t i = 0; i < it->layer_count; i++) check_text(it->layers[i].rid, text, size);
    for (size_t i = 0; i < it->format_count; i++) check_text(it->formats[i].fmtp, text, size);
}

static void check_media(const cpay_sdp_media *it) {
    if (it->format_count > CPAY_SDP_MAX_FORMATS || it->source_count > CPAY_SDP_MAX_SOURCES || it->kind > CPAY_SDP_VIDEO)
        fail("a section is out of bounds");
    for (size_t i = 0; i < it->format_count; i++) {
        const cpay_sdp_format *format = &it->formats[i];
        bool is_found = cpay_sdp_format_of(it, format->payload_type) == format;
        if (!is_found || format->payload_type > 127 || format->role > CPAY_SDP_FEC || !memchr(format->name, 0, CPAY_SDP_NAME))
            fail("a format is out of bounds");
        if (format->role != CPAY_SDP_MEDIA) continue;
        cpay_receiver_settings settings;
        cpay_receiver receiver = CPAY_INIT;
        uint8_t no_media[CPAY_SDP_MAX_FORMATS];
        size_t no_media_len = 0;
        if (cpay_sdp_receiver(it, format->payload_type, &settings, no_media, &no_media_len) ||
            cpay_receiver_new(&receiver, &settings, no_media, no_media_len))
            fail("media whose settings make no receiver");
        cpay_receiver_free(&receiver);
    }
}

/* Whether the sections give settings of a session, which a session accepts. */
static bool makes_session(size_t count) {
    cpay_sdp_session_fault fault = {0, CPAY_SDP_NO_CLASH};
    bool is_made = cpay_sdp_session(media, count, &session, &fault) == CPAY_OK;
    if (is_made == (fault.error != CPAY_SDP_NO_CLASH)) fail("settings and a reason, or neither");
    if (is_made) check_session();
    return is_made;
}

static void fuzz(size_t size) {
    unsigned read = 0, made = 0;
    for (uint32_t i = 0; i < CHANGES; i++) {
        /* a block of exactly the text's size, so that a sanitizer sees each byte that is read past it */
        size_t left = change(i, size), count = 0;
        char *copy = malloc(left);
        cpay_sdp_fault fault = {0, CPAY_SDP_NO_ERROR};
        if (!copy) fail("out of memory");
        memcpy(copy, changed, left);
        cpay_status status = cpay_sdp_read(copy, left, media, MOST_MEDIA, &count, &fault);
        if (status == CPAY_INVALID && (fault.line == 0 || fault.error == CPAY_SDP_NO_ERROR)) fail("a fault without line or error");
        for (size_t k = 0; status == CPAY_OK && k < count; k++) {
            check_beside_formats(&media[k], copy, left);
            check_media(&media[k]);
        }
        if (status == CPAY_OK) made += makes_session(count);
        read += status == CPAY_OK;
        free(copy);
    }
    printf("%u of %d changed descriptions were read, and %u gave sessions\n", read, CHANGES, made);
}

int main(int count, char **words) {
    if (count > 1 && strcmp(words[1], "faults") == 0) {
        check_bounds();
        check_lists();
        check_groups();
        check_long();
        compare(compare_fault);
        return EXIT_SUCCESS;
    }
    if (count > 1 && strcmp(words[1], "clashes") == 0) {
        check_pairs();
        check_fec_ports();
        compare(compare_clash);
        return EXIT_SUCCESS;
    }
#ifdef _WIN32
    _setmode(_fileno(stdin), _O_BINARY); /* the ends of lines stay as they are */
#endif
    size_t size = fread(given, 1, sizeof given, stdin);
    if (count > 1 && strcmp(words[1], "fuzz") == 0) fuzz(size);
    else if (count > 2)
        for (uint32_t i = 0; i < strtoul(words[2], NULL, 10); i++) print_description(changed, change(i, size));
    else print_description(given, size);
    return EXIT_SUCCESS;
}

/* Reads session descriptions (SDP, RFC 8866): codec_payload_sdp.h. Plain C, by hand, without allocation; not proved.
 *
 * A section is read twice: first its `m=` and `a=rtpmap` lines, which say what each payload type is, then all others. So the order of
 * the lines does not matter. */
#include "sdp_fec.h"
#include "sdp_transport.h"

enum { PAYLOAD_TYPES = 128, DEFAULT_PACKET_TIME = 20000, MOST_PACKET_TIME = 100000000, MOST_RED_STEP = 16383 };

/* ---- Formats ---- */

static const struct {
    const char *name;
    uint32_t codec;
    uint8_t role;
} encodings[] = {
    {"opus", CPAY_OPUS, CPAY_SDP_MEDIA},
    {"PCMU", CPAY_PCMU, CPAY_SDP_MEDIA},
    {"PCMA", CPAY_PCMA, CPAY_SDP_MEDIA},
    {"G722", CPAY_G722, CPAY_SDP_MEDIA},
    {"AMR-WB", CPAY_AMR_WB, CPAY_SDP_MEDIA},
    {"VP8", CPAY_VP8, CPAY_SDP_MEDIA},
    {"VP9", CPAY_VP9, CPAY_SDP_MEDIA},
    {"AV1", CPAY_AV1, CPAY_SDP_MEDIA},
    {"red", CPAY_NULL, CPAY_SDP_RED},
    {"rtx", CPAY_NULL, CPAY_SDP_RETRANSMISSION},
    {"telephone-event", CPAY_TELE, CPAY_SDP_EVENTS},
    {"CN", CPAY_CN, CPAY_SDP_COMFORT_NOISE},
    {"ulpfec", CPAY_NULL, CPAY_SDP_FEC},
    {"parityfec", CPAY_NULL, CPAY_SDP_FEC},
    {"flexfec", CPAY_NULL, CPAY_SDP_FEC},
    {"flexfec-03", CPAY_NULL, CPAY_SDP_FEC},
};

/* Payload types that need no `a=rtpmap` (RFC 3551, section 6). */
static const struct {
    uint8_t payload_type;
    const char *name;
    uint32_t clock_rate, channels;
} static_types[] = {
    {0, "PCMU", 8000, 1},   {3, "GSM", 8000, 1},    {4, "G723", 8000, 1},   {5, "DVI4", 8000, 1},   {6, "DVI4", 16000, 1},
    {7, "LPC", 8000, 1},    {8, "PCMA", 8000, 1},   {9, "G722", 8000, 1},   {10, "L16", 44100, 2},  {11, "L16", 44100, 1},
    {12, "QCELP", 8000, 1}, {13, "CN", 8000, 1},    {14, "MPA", 90000, 1},  {15, "G728", 8000, 1},  {16, "DVI4", 11025, 1},
    {17, "DVI4", 22050, 1}, {18, "G729", 8000, 1},  {25, "CelB", 90000, 1}, {26, "JPEG", 90000, 1}, {28, "nv", 90000, 1},
    {31, "H261", 90000, 1}, {32, "MPV", 90000, 1},  {33, "MP2T", 90000, 1}, {34, "H263", 90000, 1},
};

static void describe(cpay_sdp_format *it, text name, uint32_t clock_rate, uint32_t channels) {
    size_t size = name.len < CPAY_SDP_NAME ? name.len : CPAY_SDP_NAME - 1;
    it->codec = CPAY_NULL;
    it->role = CPAY_SDP_IGNORED;
    for (size_t i = 0; i < sizeof encodings / sizeof *encodings; i++) {
        if (!same(name, encodings[i].name)) continue;
        it->codec = encodings[i].codec;
        it->role = encodings[i].role;
    }
    it->clock_rate = clock_rate;
    it->channels = channels;
    memset(it->name, 0, sizeof it->name);
    memcpy(it->name, name.at, size);
}

static void describe_static(cpay_sdp_format *it) {
    it->codec = CPAY_NULL;
    it->channels = 1;
    for (size_t i = 0; i < sizeof static_types / sizeof *static_types; i++) {
        text name = {static_types[i].name, strlen(static_types[i].name)};
        if (static_types[i].payload_type == it->payload_type)
            describe(it, name, static_types[i].clock_rate, static_types[i].channels);
    }
}

static cpay_sdp_format *format_of(cpay_sdp_media *media, uint32_t payload_type) {
    for (size_t i = 0; i < media->format_count; i++)
        if (media->formats[i].payload_type == payload_type) return &media->formats[i];
    return NULL;
}

const cpay_sdp_format *cpay_sdp_format_of(const cpay_sdp_media *media, uint8_t payload_type) {
    for (size_t i = 0; i < media->format_count; i++)
        if (media->formats[i].payload_type == payload_type) return &media->formats[i];
    return NULL;
}

/* ---- The lines of a section ---- */

/* A section that is read, or what precedes the first one. */
typedef struct {
    cpay_sdp_media *media;
    bool is_section;
    uint32_t repair[CPAY_SDP_MAX_SOURCES]; /* SSRCs of repair alone */
    size_t repair_count;
} section;

/* `audio 49170/2 UDP/TLS/RTP/SAVPF 111 0` */
static cpay_sdp_error read_media(section *it, text line) {
    cpay_sdp_media *media = it->media;
    text kind = word(&line), ports = word(&line), protocol = word(&line);
    uint32_t port = 0;
    if (kind.len == 0 || protocol.len == 0 || !number(part(&ports, '/'), UINT16_MAX, &port)) return CPAY_SDP_BAD_MEDIA;
    media->port = (uint16_t)port;
    media->type = kind;
    media->protocol = protocol;
    media->kind = same(kind, "audio") ? CPAY_SDP_AUDIO : same(kind, "video") ? CPAY_SDP_VIDEO : CPAY_SDP_OTHER;
    while (protocol.len > 0) {
        text layer = part(&protocol, '/');
        media->is_rtp |= same(layer, "RTP");
        media->encrypted |= begins(layer, "SAVP");
    }
    if (!media->is_rtp) return CPAY_SDP_NO_ERROR;
    for (text type = word(&line); type.len > 0; type = word(&line)) {
        uint32_t payload_type = 0;
        if (!number(type, PAYLOAD_TYPES - 1, &payload_type)) return CPAY_SDP_BAD_PAYLOAD_TYPE;
        if (format_of(media, payload_type)) continue;
        cpay_sdp_format *format = &media->formats[media->format_count++];
        format->payload_type = (uint8_t)payload_type;
        describe_static(format);
    }
    return media->format_count > 0 ? CPAY_SDP_NO_ERROR : CPAY_SDP_BAD_MEDIA;
}

/* `111 opus/48000/2` */
static cpay_sdp_error read_rtpmap(section *it, text value) {
    uint32_t payload_type = 0, clock_rate = 0, channels = 1;
    if (!number(word(&value), PAYLOAD_TYPES - 1, &payload_type)) return CPAY_SDP_BAD_PAYLOAD_TYPE;
    text encoding = word(&value);
    text name = part(&encoding, '/'), rate = part(&encoding, '/');
    if (name.len == 0 || !number(rate, UINT32_MAX, &clock_rate) || clock_rate == 0) return CPAY_SDP_BAD_RTPMAP;
    if (encoding.len > 0 && (!number(encoding, UINT8_MAX, &channels) || channels == 0)) return CPAY_SDP_BAD_RTPMAP;
    cpay_sdp_format *format = format_of(it->media, payload_type);
    if (format) describe(format, name, clock_rate, channels);
    return CPAY_SDP_NO_ERROR;
}

/* The first payload type of `111/111`, the list of RED (RFC 2198, section 5). */
static cpay_sdp_error read_red(cpay_sdp_format *format, text list) {
    uint32_t primary = 0, other = 0;
    if (!number(part(&list, '/'), PAYLOAD_TYPES - 1, &primary)) return CPAY_SDP_BAD_FMTP;
    while (list.len > 0)
        if (!number(part(&list, '/'), PAYLOAD_TYPES - 1, &other)) return CPAY_SDP_BAD_FMTP;
    format->of = (uint8_t)primary;
    format->has_of = true;
    return CPAY_SDP_NO_ERROR;
}

/* A parameter of AMR-WB. CRCs, sorting and interleaving (RFC 4867, section 8.1) are payloads that the library does not read. */
static cpay_sdp_error read_amr_wb(cpay_sdp_format *format, text key, text value) {
    uint32_t found = 0;
    bool is_flag = same(key, "octet-align") || same(key, "crc") || same(key, "robust-sorting");
    if (is_flag && !number(value, 1, &found)) return CPAY_SDP_BAD_FMTP;
    if (same(key, "octet-align")) format->octet_align = found == 1;
    else if ((is_flag && found == 1) || same(key, "interleaving")) {
        format->role = CPAY_SDP_IGNORED;
        format->codec = CPAY_NULL;
        format->octet_align = false;
    }
    return CPAY_SDP_NO_ERROR;
}

static cpay_sdp_error read_parameter(cpay_sdp_format *format, text key, text value) {
    uint32_t found = 0;
    if (format->role == CPAY_SDP_RETRANSMISSION && same(key, "apt")) {
        if (!number(value, PAYLOAD_TYPES - 1, &found)) return CPAY_SDP_BAD_FMTP;
        format->of = (uint8_t)found;
        format->has_of = true;
    }
    bool is_profile = (format->codec == CPAY_VP9 && same(key, "profile-id")) || (format->codec == CPAY_AV1 && same(key, "profile"));
    if (is_profile && !number(value, UINT8_MAX, &format->profile)) return CPAY_SDP_BAD_FMTP;
    return format->codec == CPAY_AMR_WB ? read_amr_wb(format, key, value) : CPAY_SDP_NO_ERROR;
}

/* `97 apt=96`, `111 minptime=10;useinbandfec=1` */
static cpay_sdp_error read_fmtp(section *it, text value) {
    uint32_t payload_type = 0;
    if (!number(word(&value), PAYLOAD_TYPES - 1, &payload_type)) return CPAY_SDP_BAD_PAYLOAD_TYPE;
    cpay_sdp_format *format = format_of(it->media, payload_type);
    if (!format) return CPAY_SDP_NO_ERROR;
    format->fmtp = trimmed(value);
    if (format->role == CPAY_SDP_RED) return read_red(format, word(&value));
    while (value.len > 0) {
        text parameter = part(&value, ';');
        text key = trimmed(part(&parameter, '='));
        cpay_sdp_error error = read_parameter(format, key, trimmed(parameter));
        if (error) return error;
    }
    return CPAY_SDP_NO_ERROR;
}

static void add_feedback(cpay_sdp_format *format, text type, text parameter) {
    if (same(type, "nack") && parameter.len == 0) format->nack = true;
    if (same(type, "nack") && same(parameter, "pli")) format->pli = true;
    if (same(type, "ccm") && same(parameter, "fir")) format->fir = true;
    if (same(type, "transport-cc")) format->transport_cc = true;
    if (same(type, "goog-remb")) format->remb = true;
}

/* `96 nack pli`, `* nack` (RFC 4585, section 4.2) */
static cpay_sdp_error read_feedback(section *it, text value) {
    text types = word(&value), type = word(&value), parameter = word(&value);
    uint32_t payload_type = 0;
    bool all = same(types, "*");
    if (!all && !number(types, PAYLOAD_TYPES - 1, &payload_type)) return CPAY_SDP_BAD_PAYLOAD_TYPE;
    if (type.len == 0) return CPAY_SDP_BAD_RTCP_FB;
    for (size_t i = 0; i < it->media->format_count; i++) {
        cpay_sdp_format *format = &it->media->formats[i];
        if (all || format->payload_type == payload_type) add_feedback(format, type, parameter);
    }
    return CPAY_SDP_NO_ERROR;
}

/* ---- Ids of header extensions (RFC 8285) ---- */

enum { EXTENSIONS = 13, TRANSPORT_CC = 9, DEPENDENCY_DESCRIPTOR = 12, MOST_ID = 255, FIRST_UNASSIGNED_ID = 4096, LAST_UNASSIGNED_ID = 4351 };

static const char *const uris[EXTENSIONS] = {
    "http://www.webrtc.org/experiments/rtp-hdrext/abs-capture-time",
    "urn:3gpp:video-orientation",
    "http://www.webrtc.org/experiments/rtp-hdrext/video-content-type",
    "http://www.webrtc.org/experiments/rtp-hdrext/video-timing",
    "http://www.webrtc.org/experiments/rtp-hdrext/video-layers-allocation00",
    "urn:ietf:params:rtp-hdrext:ssrc-audio-level",
    "urn:ietf:params:rtp-hdrext:sdes:mid",
    "urn:ietf:params:rtp-hdrext:sdes:rtp-stream-id",
    "urn:ietf:params:rtp-hdrext:sdes:repaired-rtp-stream-id",
    "http://www.ietf.org/id/draft-holmer-rmcat-transport-wide-cc-extensions-01",
    "http://www.webrtc.org/experiments/rtp-hdrext/abs-send-time",
    "urn:ietf:params:rtp-hdrext:toffset",
    "https://aomediacodec.github.io/av1-rtp-spec/#dependency-descriptor-rtp-header-extension",
};

/* The field for the id of each URI. */
static void ids_of(cpay_sdp_media *media, uint8_t *ids[EXTENSIONS]) {
    cpay_extension_ids *known = &media->extension_ids;
    uint8_t *const found[EXTENSIONS] = {
        &known->abs_capture_time, &known->video_orientation, &known->video_content_type, &known->video_timing,
        &known->layers_allocation, &known->audio_level, &media->mid_id, &media->rid_id, &media->repaired_rid_id,
        &media->transport_cc_id, &media->send_time_id, &media->offset_id, &media->dependency_descriptor_id,
    };
    memcpy(ids, found, sizeof found);
}

static bool has_id(uint8_t *const ids[EXTENSIONS], uint32_t id) {
    for (size_t i = 0; i < EXTENSIONS; i++)
        if (*ids[i] == id) return true;
    return false;
}

/* `3/sendonly urn:3gpp:video-orientation`. If one extension has two ids, the first counts. Ids from 4096 on are for an
 * offer, whose answer chooses an id (RFC 8285, section 6). */
static cpay_sdp_error read_extmap(section *it, text value) {
    text mapped = word(&value), uri = word(&value);
    uint32_t id = 0;
    uint8_t *ids[EXTENSIONS];
    if (uri.len == 0 || !number(part(&mapped, '/'), LAST_UNASSIGNED_ID, &id) || id == 0) return CPAY_SDP_BAD_EXTMAP;
    if (id > MOST_ID) return id >= FIRST_UNASSIGNED_ID ? CPAY_SDP_NO_ERROR : CPAY_SDP_BAD_EXTMAP;
    ids_of(it->media, ids);
    for (size_t i = 0; i < EXTENSIONS; i++) {
        if (!equals(uri, uris[i]) || *ids[i] != 0) continue;
        if (has_id(ids, id)) return CPAY_SDP_BAD_EXTMAP;
        *ids[i] = (uint8_t)id;
    }
    return CPAY_SDP_NO_ERROR;
}

/* A section takes the ids of the session for extensions that have no id in the section. */
static void inherit_ids(cpay_sdp_media *media, cpay_sdp_media *session) {
    uint8_t *ids[EXTENSIONS], *inherited[EXTENSIONS];
    ids_of(media, ids);
    ids_of(session, inherited);
    for (size_t i = 0; i < EXTENSIONS; i++)
        if (*ids[i] == 0 && *inherited[i] != 0 && !has_id(ids, *inherited[i])) *ids[i] = *inherited[i];
}

/* ---- SSRCs (RFC 5576) ---- */

/* Finds a source, and adds it if there is room. */
static cpay_sdp_source *source_of(cpay_sdp_media *media, uint32_t ssrc) {
    for (size_t i = 0; i < media->source_count; i++)
        if (media->sources[i].ssrc == ssrc) return &media->sources[i];
    if (media->source_count == CPAY_SDP_MAX_SOURCES) return NULL;
    cpay_sdp_source *source = &media->sources[media->source_count++];
    *source = (cpay_sdp_source){ssrc, 0, false};
    return source;
}

/* `7 cname:..` */
static cpay_sdp_error read_ssrc(section *it, text value) {
    uint32_t ssrc = 0;
    if (!number(word(&value), UINT32_MAX, &ssrc)) return CPAY_SDP_BAD_SSRC;
    return source_of(it->media, ssrc) ? CPAY_SDP_NO_ERROR : CPAY_SDP_TOO_MANY_SOURCES;
}

/* `FID 7 9`: after the first SSRC of FID (retransmissions), FEC and FEC-FR (RFC 5956) repair alone follows. */
static cpay_sdp_error read_group(section *it, text value) {
    text semantics = word(&value);
    bool is_fid = same(semantics, "FID");
    bool repairs = is_fid || same(semantics, "FEC") || same(semantics, "FEC-FR");
    cpay_sdp_source *first = NULL;
    for (text one = word(&value); one.len > 0; one = word(&value)) {
        uint32_t ssrc = 0;
        if (!number(one, UINT32_MAX, &ssrc)) return CPAY_SDP_BAD_SSRC;
        if (!first || !repairs) {
            first = source_of(it->media, ssrc);
            if (!first) return CPAY_SDP_TOO_MANY_SOURCES;
            continue;
        }
        if (it->repair_count == CPAY_SDP_MAX_SOURCES) return CPAY_SDP_TOO_MANY_SOURCES;
        it->repair[it->repair_count++] = ssrc;
        if (!is_fid || first->has_rtx) continue;
        first->rtx_ssrc = ssrc;
        first->has_rtx = true;
    }
    return CPAY_SDP_NO_ERROR;
}

static bool is_repair(const section *it, uint32_t ssrc) {
    for (size_t i = 0; i < it->repair_count; i++)
        if (it->repair[i] == ssrc) return true;
    return false;
}

/* SSRCs of repair leave the sources. */
static void drop_repair(section *it) {
    size_t kept = 0;
    for (size_t i = 0; i < it->media->source_count; i++)
        if (!is_repair(it, it->media->sources[i].ssrc)) it->media->sources[kept++] = it->media->sources[i];
    it->media->source_count = kept;
}

/* ---- A description ---- */

/* Milliseconds, with a fraction or without, in microseconds. */
static cpay_sdp_error read_packet_time(section *it, text value) {
    text time = word(&value);
    uint32_t whole = 0, found = 0, digit = 0;
    if (!number(part(&time, '.'), MOST_PACKET_TIME / 1000, &whole)) return CPAY_SDP_BAD_PTIME;
    found = 1000 * whole;
    for (uint32_t unit = 100; time.len > 0; skip(&time, 1), unit /= 10) {
        if (!number(front(time, 1), 9, &digit)) return CPAY_SDP_BAD_PTIME;
        found += digit * unit;
    }
    if (found == 0 || found > MOST_PACKET_TIME) return CPAY_SDP_BAD_PTIME;
    it->media->packet_time = found;
    return CPAY_SDP_NO_ERROR;
}

/* What says the formats: the first pass. */
static cpay_sdp_error read_formats(section *it, text line) {
    if (skips(&line, "m=")) return read_media(it, line);
    return it->media->is_rtp && skips(&line, "a=rtpmap:") ? read_rtpmap(it, line) : CPAY_SDP_NO_ERROR;
}

/* `rcvr-rtt=all:10000 stat-summary=loss` */
static bool has_receiver_rtt(text value) {
    for (text format = word(&value); format.len > 0; format = word(&value)) {
        if (!skips(&format, "rcvr-rtt=")) continue;
        text mode = part(&format, ':');
        if (equals(mode, "all") || equals(mode, "sender")) return true;
    }
    return false;
}

/* What formats, SSRCs and feedback are read from, in a section of RTP. */
static cpay_sdp_error read_rtp(section *it, text attribute) {
    if (equals(attribute, "rtcp-mux")) it->media->rtcp_mux = true;
    if (skips(&attribute, "fmtp:")) return read_fmtp(it, attribute);
    if (skips(&attribute, "rtcp-fb:")) return read_feedback(it, attribute);
    if (skips(&attribute, "ssrc:")) return read_ssrc(it, attribute);
    if (skips(&attribute, "ssrc-group:")) return read_group(it, attribute);
    if (skips(&attribute, "ptime:")) return read_packet_time(it, attribute);
    return read_beside_formats(it->media, attribute, true);
}

/* All else: the second pass. */
static cpay_sdp_error read_attribute(section *it, text line) {
    cpay_sdp_group group;
    if (line.len == 0) return CPAY_SDP_NO_ERROR;
    if (line.len < 2 || line.at[1] != '=' || !memchr("vosiuepcbtrzkam", line.at[0], 15)) return CPAY_SDP_BAD_LINE;
    if (!skips(&line, "a=")) return CPAY_SDP_NO_ERROR;
    if (begins(line, "crypto:") || begins(line, "fingerprint:")) it->media->encrypted = true;
    if (skips(&line, "extmap:")) return read_extmap(it, line);
    if (!it->is_section && skips(&line, "group:")) return read_group_of_sections(&group, line);
    if ((!it->is_section || it->media->is_rtp) && skips(&line, "rtcp-xr:")) {
        it->media->receiver_rtt |= has_receiver_rtt(line);
        return CPAY_SDP_NO_ERROR;
    }
    return it->media->is_rtp ? read_rtp(it, line) : read_beside_formats(it->media, line, it->is_section);
}

/* The lines up to the next `m=` line, and how many they are. The first line belongs to the section whatever it is. */
static text section_of(text *it, size_t *lines) {
    text rest = *it;
    *lines = 0;
    while (rest.len > 0 && (*lines == 0 || !begins(rest, "m="))) {
        line_of(&rest);
        ++*lines;
    }
    text found = front(*it, it->len - rest.len);
    *it = rest;
    return found;
}

/* Calls `read` with each line. On an error *line is the number of the line at fault. */
static cpay_sdp_error read_lines(section *it, text lines, size_t *line, cpay_sdp_error (*read)(section *, text)) {
    size_t first = *line;
    while (lines.len > 0) {
        cpay_sdp_error error = read(it, line_of(&lines));
        if (error) return error;
        ++*line;
    }
    *line = first;
    return CPAY_SDP_NO_ERROR;
}

static cpay_sdp_error read_section(cpay_sdp_media *media, cpay_sdp_media *session, text lines, size_t *line) {
    section it = {.media = media, .is_section = session != NULL, .repair_count = 0};
    memset(media, 0, sizeof *media);
    media->line = *line;
    if (session) begin_with(media, session);
    cpay_sdp_error error = read_lines(&it, lines, line, read_formats);
    if (!error) error = read_lines(&it, lines, line, read_attribute);
    drop_repair(&it);
    if (session) {
        inherit_ids(media, session);
        inherit_fingerprints(&media->transport, &session->transport);
        media->encrypted |= session->encrypted;
        media->receiver_rtt |= media->is_rtp && session->receiver_rtt;
    }
    return error;
}

/* Reads a whole description. Sections beyond `media_len` are read into `spare`, and counted. */
static cpay_sdp_error read_all(text it, cpay_sdp_media *media, size_t media_len, size_t *count, size_t *line) {
    cpay_sdp_media session, spare; /* each is large, and `read_section` writes the whole of it */
    cpay_sdp_error error = CPAY_SDP_NO_ERROR;
    size_t lines = 0;
    *line = 1;
    *count = 0;
    if (begins(it, "m=")) {
        memset(&session, 0, sizeof session);
    } else {
        error = read_section(&session, NULL, section_of(&it, &lines), line);
        /* an `m=` line cannot be first here, so this part has no formats */
        if (!error) *line += lines;
    }
    while (!error && it.len > 0) {
        if (*count == CPAY_SDP_MAX_MEDIA) return CPAY_SDP_TOO_MANY_MEDIA;
        error = read_section(*count < media_len ? &media[*count] : &spare, &session, section_of(&it, &lines), line);
        if (!error) *line += lines;
        ++*count;
    }
    return error;
}

cpay_status cpay_sdp_read(const char *text_at, size_t text_len, cpay_sdp_media *media, size_t media_len, size_t *count,
                          cpay_sdp_fault *fault) {
    text all = {text_at, text_len};
    size_t line = 0, found = 0;
    if ((!text_at && text_len) || (!media && media_len)) return CPAY_INVALID;
    cpay_sdp_error error = read_all(all, NULL, 0, &found, &line);
    if (error) {
        *fault = (cpay_sdp_fault){line, error};
        return CPAY_INVALID;
    }
    *count = found;
    if (found > media_len) return CPAY_TOO_SMALL;
    (void)read_all(all, media, media_len, &found, &line);
    return CPAY_OK;
}

/* Reads the groups of the lines in front of the first section. Groups beyond `groups_len` are counted. */
static cpay_sdp_error read_groups(text it, cpay_sdp_group *groups, size_t groups_len, size_t *count, size_t *line) {
    *count = 0;
    for (*line = 1; it.len > 0 && !begins(it, "m="); ++*line) {
        text value = line_of(&it);
        cpay_sdp_group group;
        if (!skips(&value, "a=group:")) continue;
        cpay_sdp_error error = read_group_of_sections(&group, value);
        if (error) return error;
        if (*count < groups_len) groups[*count] = group;
        ++*count;
    }
    return CPAY_SDP_NO_ERROR;
}

cpay_status cpay_sdp_groups(const char *text_at, size_t text_len, cpay_sdp_group *groups, size_t groups_len, size_t *count,
                            cpay_sdp_fault *fault) {
    text all = {text_at, text_len};
    size_t line = 0, found = 0;
    if ((!text_at && text_len) || (!groups && groups_len)) return CPAY_INVALID;
    cpay_sdp_error error = read_groups(all, NULL, 0, &found, &line);
    if (error) {
        *fault = (cpay_sdp_fault){line, error};
        return CPAY_INVALID;
    }
    *count = found;
    if (found > groups_len) return CPAY_TOO_SMALL;
    (void)read_groups(all, groups, groups_len, &found, &line);
    return CPAY_OK;
}

cpay_sdp_text cpay_sdp_word(cpay_sdp_text *rest) { return rest->len > 0 ? word(rest) : *rest; }

bool cpay_sdp_text_is(cpay_sdp_text it, const char *other) { return it.len == strlen(other) && (it.len == 0 || equals(it, other)); }

/* ---- Settings ---- */

static cpay_receiver_settings settings_for(const cpay_sdp_media *media, const cpay_sdp_format *format) {
    cpay_receiver_settings settings;
    uint32_t codec = media->kind == CPAY_SDP_VIDEO ? CPAY_VP8 : CPAY_OPUS; /* windows and wait are those of the section */
    cpay_receiver_settings_init(&settings, codec, 1, 0, format->nack ? CPAY_FOR_LIVE_WITH_NACK : CPAY_FOR_LIVE);
    return settings;
}

/* The packet time in ticks of the RTP clock, within what RED can express (RFC 2198, section 3: 14 bits). */
static uint32_t red_step(const cpay_sdp_media *media, uint32_t clock_rate) {
    uint64_t time = media->packet_time > 0 ? media->packet_time : DEFAULT_PACKET_TIME;
    uint64_t step = time * clock_rate / 1000000;
    return step < 1 ? 1 : step > MOST_RED_STEP ? MOST_RED_STEP : (uint32_t)step;
}

/* RED over the payload type, or, with `any`, RED that names no payload type. */
static const cpay_sdp_format *red_over(const cpay_sdp_media *media, uint8_t payload_type, bool any) {
    const cpay_sdp_format *other = NULL;
    for (size_t i = 0; i < media->format_count; i++) {
        const cpay_sdp_format *format = &media->formats[i];
        if (format->role != CPAY_SDP_RED) continue;
        if (format->has_of && format->of == payload_type) return format;
        if (any && !format->has_of && !other) other = format;
    }
    return other;
}

static void set_red(cpay_receiver_settings *settings, const cpay_sdp_media *media, const cpay_sdp_format *red) {
    settings->has_red = true;
    settings->red_payload_type = red->payload_type;
    settings->red_step = red_step(media, settings->spec.rate);
    settings->has_red_rtx = retransmission_of(media, red->payload_type, &settings->red_rtx_payload_type);
}

static void set_source(cpay_receiver_settings *settings, const cpay_sdp_media *media) {
    const cpay_sdp_source *source = &media->sources[0];
    if (media->source_count != 1) return;
    settings->has_ssrc = true;
    settings->ssrc = source->ssrc;
    if (!source->has_rtx || !retransmission_of(media, settings->payload_type, &settings->rtx_payload_type)) return;
    settings->has_rtx = true;
    settings->rtx_ssrc = source->rtx_ssrc;
}

cpay_status cpay_sdp_receiver(const cpay_sdp_media *media, uint8_t payload_type, cpay_receiver_settings *settings,
                              uint8_t no_media[CPAY_SDP_MAX_FORMATS], size_t *no_media_len) {
    const cpay_sdp_format *format = cpay_sdp_format_of(media, payload_type);
    if (!format || format->role != CPAY_SDP_MEDIA) return CPAY_INVALID;
    const cpay_sdp_format *red = red_over(media, payload_type, true);
    size_t count = 0;
    *settings = settings_for(media, format);
    settings->spec.codec = format->codec;
    settings->spec.rate = format->clock_rate;
    settings->spec.octet_align = format->octet_align;
    settings->payload_type = payload_type;
    settings->extension_ids = media->extension_ids;
    settings->dependency_descriptor = media->dependency_descriptor_id;
    if (red) set_red(settings, media, red);
    set_source(settings, media);
    for (size_t i = 0; i < media->format_count; i++)
        if (media->formats[i].role >= CPAY_SDP_EVENTS) no_media[count++] = media->formats[i].payload_type;
    *no_media_len = count;
    return CPAY_OK;
}

/* ---- Settings of a session ---- */

/* The sections so far. */
typedef struct {
    cpay_sdp_session_settings *session;
    const cpay_sdp_format *known[PAYLOAD_TYPES]; /* the first format of each payload type */
    uint8_t ids[EXTENSIONS];                     /* of header extensions, in the order of `uris` */
    bool transport_cc;                           /* a format of media has feedback about the transport */
} port;

static cpay_sdp_session_fault clash(cpay_sdp_session_error error, uint8_t value) { return (cpay_sdp_session_fault){value, error}; }

static bool same_target(const cpay_sdp_format *one, const cpay_sdp_format *other) {
    return one->has_of == other->has_of && (!one->has_of || one->of == other->of);
}

/* Whether two sections use a payload type for the same. */
static bool same_use(const cpay_sdp_format *one, const cpay_sdp_format *other) {
    if (one->role != other->role) return false;
    if (one->role == CPAY_SDP_RED || one->role == CPAY_SDP_RETRANSMISSION) return same_target(one, other);
    if (one->role != CPAY_SDP_MEDIA) return true;
    return one->codec == other->codec && one->clock_rate == other->clock_rate && one->octet_align == other->octet_align;
}

/* Adds the ids of a section to those of all sections. */
static cpay_sdp_session_fault join_ids(uint8_t known[EXTENSIONS], const cpay_sdp_media *media) {
    uint8_t *ids[EXTENSIONS];
    ids_of((cpay_sdp_media *)media, ids); /* they are only read */
    for (size_t i = 0; i < EXTENSIONS; i++) {
        uint8_t id = *ids[i];
        if (id == 0 || id == known[i]) continue;
        if (known[i] != 0 || memchr(known, id, EXTENSIONS)) return clash(CPAY_SDP_EXTENSION_ID_CLASHES, id);
        known[i] = id;
    }
    return clash(CPAY_SDP_NO_CLASH, 0);
}

/* The ids of the extensions whose values the library reads. */
static cpay_extension_ids extension_ids_of(const uint8_t ids[EXTENSIONS]) {
    return (cpay_extension_ids){.abs_capture_time = ids[0], .video_orientation = ids[1], .video_content_type = ids[2],
                                .video_timing = ids[3], .layers_allocation = ids[4], .audio_level = ids[5]};
}

/* The ids of the extensions that name streams. */
static cpay_stream_name_ids name_ids_of(const uint8_t ids[EXTENSIONS]) {
    return (cpay_stream_name_ids){.mid = ids[6], .rid = ids[7], .repaired_rid = ids[8]};
}

/* Whether no format of media precedes this one in its section. */
static bool is_first_media(const cpay_sdp_media *media, const cpay_sdp_format *format) {
    for (const cpay_sdp_format *it = media->formats; it != format; it++)
        if (it->role == CPAY_SDP_MEDIA) return false;
    return true;
}

/* Whether RED of the section carries FEC beside video. Sessions do not use FEC: a port in front of them does. */
static bool has_fec_in_red(const cpay_sdp_media *media, const cpay_sdp_format *format) {
    if (!is_video(format->codec)) return false;
    for (size_t i = 0; i < media->format_count; i++)
        if (media->formats[i].role == CPAY_SDP_FEC) return true;
    return false;
}

/* The format of a session for a format of media. */
static cpay_session_format session_format(const cpay_sdp_media *media, const cpay_sdp_format *format) {
    bool is_first = is_first_media(media, format);
    const cpay_sdp_format *red = has_fec_in_red(media, format) ? NULL : red_over(media, format->payload_type, is_first);
    cpay_session_format it = {.payload_type = format->payload_type, .nack = format->nack, .pli = format->pli};
    it.spec.codec = format->codec;
    it.spec.rate = format->clock_rate;
    it.spec.octet_align = format->octet_align;
    it.has_rtx = retransmission_of(media, format->payload_type, &it.rtx_payload_type);
    if (!red) return it;
    it.has_red = true;
    it.red_payload_type = red->payload_type;
    it.red_step = red_step(media, format->clock_rate);
    it.has_red_rtx = retransmission_of(media, red->payload_type, &it.red_rtx_payload_type);
    return it;
}

/* Whether an earlier format is sent in RED with this payload type, which names no payload type then. */
static bool has_red(const cpay_sdp_session_settings *session, uint8_t red_payload_type) {
    for (size_t i = 0; i < session->formats_len; i++)
        if (session->formats[i].has_red && session->formats[i].red_payload_type == red_payload_type) return true;
    return false;
}

/* Adds a format of media that no earlier section has. */
static void add_session_format(cpay_sdp_session_settings *session, const cpay_sdp_media *media, const cpay_sdp_format *format) {
    cpay_session_format it = session_format(media, format);
    if (it.has_red && has_red(session, it.red_payload_type)) {
        it.has_red = it.has_red_rtx = false;
        it.red_step = it.red_payload_type = it.red_rtx_payload_type = 0;
    }
    session->formats[session->formats_len++] = it;
}

/* Joins a format of media with the one of an earlier section. */
static void join_session_format(cpay_sdp_session_settings *session, const cpay_session_format *other) {
    cpay_session_format *it = session->formats;
    while (it->payload_type != other->payload_type) it++;
    if (!it->has_red && other->has_red && !has_red(session, other->red_payload_type)) {
        it->has_red = true;
        it->red_payload_type = other->red_payload_type;
        it->red_step = other->red_step;
        it->has_red_rtx = other->has_red_rtx;
        it->red_rtx_payload_type = other->red_rtx_payload_type;
    }
    if (!it->has_rtx) {
        it->has_rtx = other->has_rtx;
        it->rtx_payload_type = other->rtx_payload_type;
    }
    it->nack = it->nack && other->nack;
    it->pli = it->pli && other->pli;
}

static cpay_sdp_session_fault add_format(port *it, const cpay_sdp_media *media, const cpay_sdp_format *format) {
    cpay_sdp_session_settings *session = it->session;
    uint8_t type = format->payload_type;
    bool is_known = type < PAYLOAD_TYPES && it->known[type], is_media = format->role == CPAY_SDP_MEDIA;
    if (type >= PAYLOAD_TYPES || (is_known && !same_use(it->known[type], format))) return clash(CPAY_SDP_PAYLOAD_TYPE_CLASHES, type);
    if (is_known && is_media) {
        cpay_session_format other = session_format(media, format);
        join_session_format(session, &other);
    } else if (is_media) {
        add_session_format(session, media, format);
    } else if (!is_known && format->role == CPAY_SDP_EVENTS) {
        session->no_media[session->no_media_len++] = (uint8_t)(type + CPAY_TELEPHONE);
    } else if (!is_known && format->role > CPAY_SDP_EVENTS) {
        session->no_media[session->no_media_len++] = type;
    }
    if (!is_known) it->known[type] = format;
    it->transport_cc = it->transport_cc || (is_media && format->transport_cc);
    return clash(CPAY_SDP_NO_CLASH, 0);
}

static cpay_sdp_session_fault add_section(port *it, const cpay_sdp_media *media) {
    cpay_sdp_session_fault fault = join_ids(it->ids, media);
    for (size_t i = 0; !fault.error && i < media->format_count; i++) fault = add_format(it, media, &media->formats[i]);
    return fault;
}

/* Adds the pairs of SSRCs. Returns whether there is room for all. */
static bool add_pairs(cpay_sdp_session_settings *session, const cpay_sdp_media *media) {
    for (size_t i = 0; i < media->source_count; i++) {
        const cpay_sdp_source *source = &media->sources[i];
        if (!source->has_rtx) continue;
        if (session->pairs_len == CPAY_SDP_MAX_PAIRS) return false;
        session->pairs[session->pairs_len++] = (cpay_ssrc_pair){source->ssrc, source->rtx_ssrc};
    }
    return true;
}

static cpay_sdp_session_fault add_sections(port *it, const cpay_sdp_media *media, size_t media_len) {
    cpay_sdp_session_fault fault = clash(CPAY_SDP_NO_CLASH, 0);
    for (size_t i = 0; !fault.error && i < media_len; i++)
        if (media[i].is_rtp) fault = add_section(it, &media[i]);
    if (!fault.error && it->session->formats_len == 0) return clash(CPAY_SDP_NO_MEDIA, 0);
    for (size_t i = 0; !fault.error && i < media_len; i++)
        if (!add_pairs(it->session, &media[i])) return clash(CPAY_SDP_TOO_MANY_PAIRS, 0);
    return fault;
}

/* The payload type of the format that is reserved; 0 if none is. */
static uint8_t reserved_type(const cpay_session_format *it) {
    if (is_reserved(it->payload_type)) return it->payload_type;
    if (it->has_red && is_reserved(it->red_payload_type)) return it->red_payload_type;
    if (!it->has_rtx) return 0;
    if (is_reserved(it->rtx_payload_type)) return it->rtx_payload_type;
    return it->has_red_rtx && is_reserved(it->red_rtx_payload_type) ? it->red_rtx_payload_type : 0;
}

/* The first payload type without media that is reserved, of telephone events or not; 0 if none is. */
static uint8_t reserved_listed(const cpay_sdp_session_settings *session, bool of_events) {
    for (size_t i = 0; i < session->no_media_len; i++) {
        uint8_t entry = session->no_media[i], type = entry % CPAY_TELEPHONE;
        if ((entry >= CPAY_TELEPHONE) == of_events && is_reserved(type)) return type;
    }
    return 0;
}

/* The first payload type that is reserved; 0 if none is. */
static uint8_t reserved_in(const cpay_sdp_session_settings *session) {
    uint8_t type = 0;
    for (size_t i = 0; i < session->formats_len && type == 0; i++) type = reserved_type(&session->formats[i]);
    if (type == 0) type = reserved_listed(session, false);
    return type == 0 ? reserved_listed(session, true) : type;
}

/* Sets how long frames wait: with retransmission if a format of their kind has `nack`. */
static void set_wait_limits(cpay_sdp_session_settings *session) {
    cpay_session_settings with_nack;
    cpay_session_settings_init(&with_nack, CPAY_FOR_LIVE_WITH_NACK);
    for (size_t i = 0; i < session->formats_len; i++) {
        uint32_t codec = session->formats[i].spec.codec;
        if (!session->formats[i].nack) continue;
        if (is_video(codec)) session->settings.video = with_nack.video;
        else session->settings.audio = with_nack.audio;
    }
}

/* Sets how arrivals are reported, if a format has feedback about the transport and its extension has an id. */
static void set_transport(cpay_session_settings *settings, const port *it) {
    uint8_t id = it->ids[TRANSPORT_CC];
    settings->has_transport = it->transport_cc && id != 0;
    settings->transport.extension_id = settings->has_transport ? id : 0;
}

cpay_status cpay_sdp_session(const cpay_sdp_media *media, size_t media_len, cpay_sdp_session_settings *session,
                             cpay_sdp_session_fault *fault) {
    static const cpay_sdp_session_settings none;
    cpay_sdp_session_settings found = none;
    port it = {.session = &found};
    if (!media && media_len) return CPAY_INVALID;
    cpay_session_settings_init(&found.settings, CPAY_FOR_LIVE);
    found.settings.video = found.settings.audio;
    cpay_sdp_session_fault what = add_sections(&it, media, media_len);
    if (!what.error && reserved_in(&found) > 0) what = clash(CPAY_SDP_PAYLOAD_TYPE_CLASHES, reserved_in(&found));
    if (what.error) {
        *fault = what;
        return CPAY_INVALID;
    }
    found.settings.extension_ids = extension_ids_of(it.ids);
    found.settings.name_ids = name_ids_of(it.ids);
    found.settings.dependency_descriptor = it.ids[DEPENDENCY_DESCRIPTOR];
    set_transport(&found.settings, &it);
    set_wait_limits(&found);
    *session = found;
    return CPAY_OK;
}

/* ---- Settings of a port with FEC ---- */

cpay_status cpay_sdp_fec_port(const cpay_sdp_media *media, size_t media_len, cpay_sdp_fec_port_settings *port) {
    static const cpay_sdp_fec_port_settings none;
    cpay_sdp_fec_port_settings found = none;
    if (!media && media_len) return CPAY_INVALID;
    cpay_fec_port_settings_init(&found.settings);
    for (size_t i = 0; i < media_len; i++) {
        if (!media[i].is_rtp || !fec_types(&media[i], &found.settings)) continue;
        set_fec_port(&found, &media[i]);
        if (has_reserved(&found)) return CPAY_NONE;
        *port = found;
        return CPAY_OK;
    }
    return CPAY_NONE;
}

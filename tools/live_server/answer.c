/* The answer to an offer (RFC 9725, section 4.2): one codec of audio and one of video, ICE-lite, DTLS passive. The library reads the
 * offer. */
#include "server.h"

#include <string.h>
#include <strings.h>

enum { MOST_SECTIONS = 16, MOST_ANSWER = 16 << 10, OK = 201, BAD = 400, NOT_ACCEPTABLE = 406 };

#define TRANSPORT_WIDE "http://www.ietf.org/id/draft-holmer-rmcat-transport-wide-cc-extensions-01"
#define SEND_TIME "http://www.webrtc.org/experiments/rtp-hdrext/abs-send-time"

/* A piece of the offer, for "%.*s". */
#define PIECE(it) (int)(it).len, (it).at

/* An offer that was read. */
typedef struct {
    const cpay_sdp_media *sections;
    size_t count;
} description;

/* ---- writing ---- */

static void write_extension(FILE *to, uint8_t id, const char *name) {
    if (id) fprintf(to, "a=extmap:%u %s\r\n", id, name);
}

/* `a=rtpmap`, `a=fmtp` and `a=rtcp-fb` of what was chosen. */
static void write_formats(FILE *to, const cpay_sdp_media *media, const peer *it, const agreed *of) {
    bool video = of == &it->media[VIDEO];
    unsigned type = of->payload_type, red = of->red_payload_type, rtx = of->rtx_payload_type;
    cpay_sdp_text parameters = cpay_sdp_format_of(media, of->payload_type)->fmtp;
    if (red) fprintf(to, "a=rtpmap:%u red/48000/2\r\na=fmtp:%u %u/%u\r\n", red, red, type, type);
    fprintf(to, "a=rtpmap:%u %s/%s\r\n", type, of->name, video ? "90000" : "48000/2");
    if (parameters.len) fprintf(to, "a=fmtp:%u %.*s\r\n", type, PIECE(parameters));
    if (!video) return;
    fprintf(to, "a=rtcp-fb:%u nack\r\na=rtcp-fb:%u nack pli\r\n", type, type);
    if (it->publisher && the.remb) fprintf(to, "a=rtcp-fb:%u goog-remb\r\n", type);
    if (rtx) fprintf(to, "a=rtpmap:%u rtx/90000\r\na=fmtp:%u apt=%u\r\n", rtx, rtx, type);
}

/* Simulcast (RFC 8853): the layers, which packets name by their RID (RFC 8852). */
static void write_layers(FILE *to, const peer *it, const cpay_sdp_media *media) {
    if (it->layers_len < 2) return;
    write_extension(to, media->mid_id, "urn:ietf:params:rtp-hdrext:sdes:mid");
    write_extension(to, media->rid_id, "urn:ietf:params:rtp-hdrext:sdes:rtp-stream-id");
    write_extension(to, media->repaired_rid_id, "urn:ietf:params:rtp-hdrext:sdes:repaired-rtp-stream-id");
    for (int i = 0; i < it->layers_len; i++) fprintf(to, "a=rid:%s recv\r\n", it->layers[i]);
    for (int i = 0; i < it->layers_len; i++) fprintf(to, "%s%s", i ? ";" : "a=simulcast:recv ", it->layers[i]);
    fputs("\r\n", to);
}

/* The SSRCs of what a viewer gets (RFC 5576). */
static void write_sources(FILE *to, const peer *it, const agreed *of) {
    bool video = of == &it->media[VIDEO];
    uint32_t ssrc = viewer_ssrc(it, video ? VIDEO : AUDIO);
    fprintf(to, "a=msid:%s %s\r\na=ssrc:%u cname:%s\r\n", it->name, video ? "video" : "audio", ssrc, it->name);
    if (of->rtx_payload_type) fprintf(to, "a=ssrc-group:FID %u %u\r\na=ssrc:%u cname:%s\r\n", ssrc, ssrc + 1, ssrc + 1, it->name);
}

/* ICE-lite and DTLS, the same for each section. */
static void write_transport(FILE *to, const peer *it) {
    fprintf(to, "a=ice-ufrag:%s\r\na=ice-pwd:%s\r\na=fingerprint:sha-256 %s\r\na=setup:passive\r\n", it->ufrag, it->password,
            dtls_fingerprint);
    for (int i = 0; i < the.candidates_len; i++)
        fprintf(to, "a=candidate:%d 1 udp %d %s %u typ host\r\n", i + 1, 2130706431 - 256 * i, the.candidates[i], the.udp);
    fputs("a=end-of-candidates\r\na=rtcp-mux\r\na=rtcp-rsize\r\n", to);
}

/* What was agreed on for a section. NULL: it is refused. */
static const agreed *agreed_for(const peer *it, const cpay_sdp_media *media) {
    for (int kind = 0; kind < KINDS; kind++)
        if (it->media[kind].used && it->media[kind].line == media->line) return &it->media[kind];
    return NULL;
}

static void write_section(FILE *to, const peer *it, const cpay_sdp_media *media) {
    const agreed *of = agreed_for(it, media);
    fprintf(to, "m=%.*s %u %.*s", PIECE(media->type), of ? the.udp : 0u, PIECE(media->protocol));
    if (of && of->red_payload_type) fprintf(to, " %u", of->red_payload_type);
    fprintf(to, " %u", of ? of->payload_type : 0u);
    if (of && of->rtx_payload_type) fprintf(to, " %u", of->rtx_payload_type);
    fprintf(to, "\r\nc=IN IP4 %s\r\n", of ? the.candidates[0] : "0.0.0.0");
    if (media->mid.len) fprintf(to, "a=mid:%.*s\r\n", PIECE(media->mid));
    if (!of) return;
    write_transport(to, it);
    fprintf(to, "a=%s\r\n", it->publisher ? "recvonly" : "sendonly");
    if (media->receiver_rtt) fputs("a=rtcp-xr:rcvr-rtt=all\r\n", to);
    write_formats(to, media, it, of);
    if (it->transport_id && media->transport_cc_id)
        fprintf(to, "a=extmap:%u " TRANSPORT_WIDE "\r\na=rtcp-fb:%u transport-cc\r\n", media->transport_cc_id, of->payload_type);
    write_extension(to, media->send_time_id, SEND_TIME);
    if (!it->publisher) write_sources(to, it, of);
    else if (of == &it->media[VIDEO]) write_layers(to, it, media);
}

static void write_answer(FILE *to, const peer *it, const description *offer) {
    fprintf(to, "v=0\r\no=- %llu 1 IN IP4 %s\r\ns=-\r\nt=0 0\r\na=ice-lite\r\na=group:BUNDLE", (unsigned long long)it->number,
            the.candidates[0]);
    for (size_t i = 0; i < offer->count; i++) {
        const cpay_sdp_media *media = &offer->sections[i];
        if (agreed_for(it, media) && media->mid.len) fprintf(to, " %.*s", PIECE(media->mid));
    }
    fputs("\r\n", to);
    for (size_t i = 0; i < offer->count; i++) write_section(to, it, &offer->sections[i]);
}

/* ---- reading ---- */

/* The first codec of a section that is forwarded, with its RED or its retransmissions; of a viewer the codec of its publisher. */
static agreed choose(const cpay_sdp_media *media, const agreed *publisher) {
    agreed found = {0};
    for (size_t i = 0; i < media->format_count && !found.used; i++) {
        const cpay_sdp_format *it = &media->formats[i];
        bool known = it->codec == CPAY_OPUS || it->codec == CPAY_VP8 || it->codec == CPAY_VP9 || it->codec == CPAY_AV1;
        if (it->role != CPAY_SDP_MEDIA || !known || it->profile != 0) continue;
        if (publisher && (!publisher->used || publisher->codec != it->codec)) continue;
        found = (agreed){.used = true, .line = media->line, .codec = it->codec, .payload_type = it->payload_type};
        memcpy(found.name, it->name, sizeof found.name);
    }
    for (size_t i = 0; i < media->format_count && found.used; i++) {
        const cpay_sdp_format *it = &media->formats[i];
        uint8_t *type = found.codec == CPAY_OPUS ? &found.red_payload_type : &found.rtx_payload_type;
        uint8_t role = found.codec == CPAY_OPUS ? CPAY_SDP_RED : CPAY_SDP_RETRANSMISSION;
        if (it->role == role && it->has_of && it->of == found.payload_type && !*type) *type = it->payload_type;
    }
    return found;
}

/* The layers of simulcast of VP8, whose picture ids the server continues at a switch. */
static void read_layers(peer *it, const cpay_sdp_media *media) {
    for (size_t i = 0; media->rid_id && i < media->layer_count && it->layers_len < MOST_LAYERS; i++) {
        char *name = it->layers[it->layers_len];
        int size = snprintf(name, MOST_NAME, "%.*s", PIECE(media->layers[i].rid));
        if (media->layers[i].sent && size < MOST_NAME && is_name(name)) it->layers_len++;
    }
}

/* Chooses the codecs. Returns NULL, or what is wrong. */
static const char *read_section(peer *it, const cpay_sdp_media *media, const peer *of) {
    int kind = media->kind == CPAY_SDP_VIDEO ? VIDEO : AUDIO;
    if (media->kind == CPAY_SDP_OTHER || it->media[kind].used) return NULL;
    it->media[kind] = choose(media, of ? &of->media[kind] : NULL);
    if (kind == VIDEO && media->format_count > 0 && !it->media[VIDEO].used && !of)
        return "The offer has no VP8, VP9 or AV1. This server has no other codec of video, and no H.264.\n";
    if (kind == VIDEO && of && of->media[VIDEO].used && !it->media[VIDEO].used)
        return "The publisher sends a codec of video that this browser does not offer.\n";
    if (kind == VIDEO && !of && it->media[VIDEO].codec == CPAY_VP8) read_layers(it, media);
    if (the.transport && media->transport_cc_id) it->transport_id = media->transport_cc_id;
    if (the.remb && kind == VIDEO && !of) it->send_time_id = media->send_time_id;
    return NULL;
}

/* Forgets the header extensions that the answer does not accept: other stacks give one id to different ones in two sections. */
static void forget_extensions(const peer *it, cpay_sdp_media *media) {
    media->extension_ids = (cpay_extension_ids){0};
    media->offset_id = media->dependency_descriptor_id = 0;
    if (media->send_time_id != it->send_time_id) media->send_time_id = 0;
    if (it->layers_len < 2) media->mid_id = media->rid_id = media->repaired_rid_id = 0;
}

/* The first fingerprint of SHA-256 in a section. */
static bool read_fingerprint(peer *it, const cpay_sdp_transport *transport) {
    for (size_t i = 0; i < transport->fingerprint_count; i++) {
        const cpay_sdp_fingerprint *found = &transport->fingerprints[i];
        if (found->hash.len != strlen("sha-256") || strncasecmp(found->hash.at, "sha-256", found->hash.len)) continue;
        return snprintf(it->fingerprint, sizeof it->fingerprint, "%.*s", PIECE(found->value)) < (int)sizeof it->fingerprint;
    }
    return false;
}

const char *answer(peer *it, const char *offer, bool publishes, unsigned *status) {
    static cpay_sdp_media media[MOST_SECTIONS];
    static char bytes[MOST_ANSWER + 1]; /* with a 0 at the end */
    description read = {.sections = media};
    cpay_sdp_fault wrong = {0, CPAY_SDP_NO_ERROR};
    peer *of = publishes ? NULL : peer_publisher(it->name);
    const char *fault = NULL;
    *status = BAD;
    if (cpay_sdp_read(offer, strlen(offer), media, MOST_SECTIONS, &read.count, &wrong))
        return wrong.error ? cpay_sdp_error_text(wrong.error) : "too many sections";
    size_t at = 0;
    while (at < read.count && !read_fingerprint(it, &media[at].transport)) at++;
    if (at == read.count) return "The offer has no fingerprint of SHA-256.\n";
    *status = NOT_ACCEPTABLE;
    for (size_t i = 0; i < read.count && !fault; i++) fault = read_section(it, &media[i], of);
    if (fault) return fault;
    for (size_t i = 0; i < read.count; i++) forget_extensions(it, &media[i]);
    if (!it->media[AUDIO].used && !it->media[VIDEO].used) return "The offer has no audio or video that can be forwarded.\n";
    *status = BAD;
    fault = publishes ? publisher_begin(it, media, read.count) : viewer_begin(it, of);
    if (fault) return fault;
    FILE *to = fmemopen(bytes, MOST_ANSWER, "w");
    if (to) write_answer(to, it, &read);
    if (!to || fclose(to)) return "The offer is too long.\n";
    *status = OK;
    return bytes;
}

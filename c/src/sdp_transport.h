/* The lines of a session description beside formats: names of sections, streams and layers, direction, ICE, DTLS: for sdp.c. */
#ifndef SDP_TRANSPORT_H
#define SDP_TRANSPORT_H

#include "sdp_text.h"

static bool is_letter_or_digit(char it) { return (lower(it) >= 'a' && lower(it) <= 'z') || (it >= '0' && it <= '9'); }

/* The only word of a text. Returns false if the text has no word, or several. */
static bool only_word(text value, text *found) {
    *found = word(&value);
    return found->len > 0 && trimmed(value).len == 0;
}

/* ---- Sections, streams and layers ---- */

/* `0` (RFC 5888, section 4) */
static cpay_sdp_error read_mid(cpay_sdp_media *media, text value) {
    text mid;
    if (!only_word(value, &mid)) return CPAY_SDP_BAD_MID;
    media->mid = mid;
    return CPAY_SDP_NO_ERROR;
}

/* `- a300c720` (RFC 8830, section 2) */
static cpay_sdp_error read_msid(cpay_sdp_media *media, text value) {
    cpay_sdp_msid it = {0};
    it.stream = word(&value);
    it.track = word(&value);
    if (it.stream.len == 0 || trimmed(value).len > 0) return CPAY_SDP_BAD_MSID;
    if (media->msid_count == CPAY_SDP_MAX_MSIDS) media->more_msids++;
    else media->msids[media->msid_count++] = it;
    return CPAY_SDP_NO_ERROR;
}

/* The restriction identifier at the front (RFC 8851, section 10), which is skipped; empty if the text has no identifier. */
static text rid_of(text *it) {
    size_t size = 0;
    while (size < it->len && (is_letter_or_digit(it->at[size]) || it->at[size] == '-' || it->at[size] == '_')) size++;
    text found = front(*it, size);
    skip(it, size);
    return found;
}

/* `1 send pt=97;max-width=1280` (RFC 8851, section 4) */
static cpay_sdp_error read_rid(cpay_sdp_media *media, text value) {
    text id = word(&value), direction = word(&value);
    cpay_sdp_rid it = {.sent = equals(direction, "send"), .restrictions = trimmed(value)};
    it.id = rid_of(&id);
    if (it.id.len == 0 || id.len > 0 || (!it.sent && !equals(direction, "recv"))) return CPAY_SDP_BAD_RID;
    if (media->rid_count == CPAY_SDP_MAX_RIDS) media->more_rids++;
    else media->rids[media->rid_count++] = it;
    return CPAY_SDP_NO_ERROR;
}

/* `1,~4;2`: streams, each with its alternatives. Returns whether the list has this form. */
static bool read_layers(cpay_sdp_media *media, text list, bool sent) {
    cpay_sdp_layer it = {.sent = sent};
    for (;; skip(&list, 1)) {
        it.paused = skips(&list, "~");
        it.rid = rid_of(&list);
        if (it.rid.len == 0) return false;
        if (media->layer_count == CPAY_SDP_MAX_LAYERS) media->more_layers++;
        else media->layers[media->layer_count++] = it;
        if (list.len == 0) return true;
        if (*list.at != ',' && *list.at != ';') return false;
        it.stream += *list.at == ';';
    }
}

/* `send 1,~4;2 recv c` (RFC 8853, section 5.1) */
static cpay_sdp_error read_simulcast(cpay_sdp_media *media, text value) {
    text first = word(&value), streams = word(&value), second = word(&value), others = word(&value);
    bool sends = equals(first, "send");
    if (!sends && !equals(first, "recv")) return CPAY_SDP_BAD_SIMULCAST;
    media->layer_count = media->more_layers = 0;
    if (!read_layers(media, streams, sends)) return CPAY_SDP_BAD_SIMULCAST;
    if (second.len == 0) return CPAY_SDP_NO_ERROR;
    bool has_form = equals(second, sends ? "recv" : "send") && trimmed(value).len == 0 && read_layers(media, others, !sends);
    return has_form ? CPAY_SDP_NO_ERROR : CPAY_SDP_BAD_SIMULCAST;
}

/* ---- ICE (RFC 8839) ---- */

/* `5NkD`: `least` to 256 letters, digits, `+` and `/` (section 5.4), and four characters of older peers. */
static bool read_secret(text value, size_t least, text *found) {
    text it;
    if (!only_word(value, &it) || it.len < least || it.len > 256) return false;
    for (size_t i = 0; i < it.len; i++)
        if (!is_letter_or_digit(it.at[i]) && !memchr("+/-_=#", it.at[i], 6)) return false;
    *found = it;
    return true;
}

static cpay_sdp_error read_ice_ufrag(cpay_sdp_media *media, text value) {
    return read_secret(value, 4, &media->transport.ice_ufrag) ? CPAY_SDP_NO_ERROR : CPAY_SDP_BAD_ICE_UFRAG;
}

static cpay_sdp_error read_ice_pwd(cpay_sdp_media *media, text value) {
    return read_secret(value, 22, &media->transport.ice_pwd) ? CPAY_SDP_NO_ERROR : CPAY_SDP_BAD_ICE_PWD;
}

/* `trickle ice2` (section 5.6) */
static cpay_sdp_error read_ice_options(cpay_sdp_media *media, text value) {
    text options = trimmed(value);
    if (options.len == 0) return CPAY_SDP_BAD_ICE_OPTIONS;
    media->transport.ice_options = options;
    return CPAY_SDP_NO_ERROR;
}

/* `1 1 UDP 2130706431 203.0.113.141 8998 typ host` (section 5.1) */
static cpay_sdp_error read_candidate(cpay_sdp_media *media, text value) {
    cpay_sdp_transport *it = &media->transport;
    text rest = value, seventh = {0};
    for (int i = 0; i < 7; i++) seventh = word(&rest);
    if (!same(seventh, "typ") || word(&rest).len == 0) return CPAY_SDP_BAD_CANDIDATE;
    if (it->candidate_count == CPAY_SDP_MAX_CANDIDATES) it->more_candidates++;
    else it->candidates[it->candidate_count++] = trimmed(value);
    return CPAY_SDP_NO_ERROR;
}

/* ---- DTLS ---- */

/* `AB:CD`: pairs of hexadecimal digits. */
static bool is_fingerprint(text it) {
    for (size_t i = 0; i < it.len; i++) {
        char at = lower(it.at[i]);
        bool is_digit = (at >= '0' && at <= '9') || (at >= 'a' && at <= 'f');
        if (i % 3 == 2 ? at != ':' : !is_digit) return false;
    }
    return it.len % 3 == 2;
}

/* `sha-256 AB:CD:..` (RFC 8122, section 5) */
static cpay_sdp_error read_fingerprint(cpay_sdp_media *media, text value) {
    cpay_sdp_transport *transport = &media->transport;
    cpay_sdp_fingerprint it = {.hash = word(&value)};
    if (!only_word(value, &it.value) || !is_fingerprint(it.value)) return CPAY_SDP_BAD_FINGERPRINT;
    if (transport->fingerprint_count == CPAY_SDP_MAX_FINGERPRINTS) return CPAY_SDP_TOO_MANY_FINGERPRINTS;
    transport->fingerprints[transport->fingerprint_count++] = it;
    return CPAY_SDP_NO_ERROR;
}

/* `actpass` (RFC 4145, section 4) */
static cpay_sdp_error read_setup(cpay_sdp_media *media, text value) {
    static const char *const roles[] = {"active", "passive", "actpass", "holdconn"}; /* CPAY_SDP_ACTIVE and so on */
    text role;
    if (!only_word(value, &role)) return CPAY_SDP_BAD_SETUP;
    for (uint8_t i = 0; i < sizeof roles / sizeof *roles; i++) {
        if (!same(role, roles[i])) continue;
        media->transport.setup = (uint8_t)(CPAY_SDP_ACTIVE + i);
        return CPAY_SDP_NO_ERROR;
    }
    return CPAY_SDP_BAD_SETUP;
}

/* ---- All of them ---- */

/* `BUNDLE 0 1` (RFC 5888, section 5) */
static cpay_sdp_error read_group_of_sections(cpay_sdp_group *it, text value) {
    it->semantics = word(&value);
    it->mids = trimmed(value);
    return it->semantics.len > 0 ? CPAY_SDP_NO_ERROR : CPAY_SDP_BAD_GROUP;
}

/* `sendonly` and so on (RFC 8866, section 6.7), `bundle-only` (RFC 9143, section 6), `ice-lite` (RFC 8839, section 5.3),
 * `end-of-candidates` (RFC 8840) */
static void read_flag(cpay_sdp_media *media, text name, bool in_section) {
    static const char *const directions[] = {"sendrecv", "sendonly", "recvonly", "inactive"}; /* CPAY_SDP_SENDRECV and so on */
    for (uint8_t i = 0; i < sizeof directions / sizeof *directions; i++)
        if (equals(name, directions[i])) media->direction = i;
    if (equals(name, "bundle-only")) media->bundle_only = true;
    if (!in_section && equals(name, "ice-lite")) media->transport.ice_lite = true;
    if (equals(name, "end-of-candidates")) media->transport.end_of_candidates = true;
}

/* In which parts an attribute is read: in all, in sections, in sections of RTP. */
enum { IN_ALL, IN_SECTIONS, IN_RTP };

static const struct {
    const char *name;
    int where;
    cpay_sdp_error (*read)(cpay_sdp_media *, text);
} attributes[] = {
    {"ice-ufrag:", IN_ALL, read_ice_ufrag},        {"ice-pwd:", IN_ALL, read_ice_pwd},
    {"ice-options:", IN_ALL, read_ice_options},    {"fingerprint:", IN_ALL, read_fingerprint},
    {"setup:", IN_ALL, read_setup},                {"mid:", IN_SECTIONS, read_mid},
    {"candidate:", IN_SECTIONS, read_candidate},   {"msid:", IN_RTP, read_msid},
    {"rid:", IN_RTP, read_rid},                    {"simulcast:", IN_RTP, read_simulcast},
};

/* Reads an attribute, if it is one of these. */
static cpay_sdp_error read_beside_formats(cpay_sdp_media *media, text attribute, bool in_section) {
    int where = media->is_rtp ? IN_RTP : in_section ? IN_SECTIONS : IN_ALL;
    for (size_t i = 0; i < sizeof attributes / sizeof *attributes; i++)
        if (attributes[i].where <= where && skips(&attribute, attributes[i].name)) return attributes[i].read(media, attribute);
    read_flag(media, attribute, in_section);
    return CPAY_SDP_NO_ERROR;
}

/* A section begins with what the session says. The section's first fingerprint replaces all of the session's. */
static void begin_with(cpay_sdp_media *media, const cpay_sdp_media *session) {
    media->direction = session->direction;
    media->transport = session->transport;
    media->transport.fingerprint_count = 0;
}

/* A section without fingerprints has those of the session (RFC 8122, section 5), with which it began. */
static void inherit_fingerprints(cpay_sdp_transport *it, const cpay_sdp_transport *session) {
    if (it->fingerprint_count == 0) it->fingerprint_count = session->fingerprint_count;
}

#endif

#include "sdp.h"

#include "message.h"

#include <errno.h>
#include <stdio.h>
#include <stdlib.h>
#include <string.h>

enum { MOST_BYTES = 1 << 20, MAP_LIMIT = 256 };

/* ---- Reading ---- */

/* The codec of a format of an SDP. */
static codec_use use_of(const cpay_sdp_format *format) {
    if (!format->name[0]) return codec_use_unknown();
    codec_use use = codec_use_of(format->name, format->clock_rate, (int)format->channels);
    if (codec_is_media(&use) && format->role != CPAY_SDP_MEDIA) use = codec_use_unsupported(format->name);
    if (format->has_of) use.inner = format->of;
    use.octet_align = format->octet_align;
    return use;
}

static void describe(sdp_medium *medium, const cpay_sdp_media *read) {
    medium->port = read->port;
    medium->encrypted = read->encrypted;
    medium->source_count = read->source_count;
    memcpy(medium->sources, read->sources, sizeof medium->sources);
    for (size_t i = 0; i < PAYLOAD_TYPES; i++) medium->uses[i] = codec_use_unknown();
    for (size_t i = 0; i < read->format_count; i++) {
        codec_use *use = &medium->uses[read->formats[i].payload_type];
        *use = use_of(&read->formats[i]);
        use->descriptor = read->dependency_descriptor_id;
    }
}

/* Adds the sections of a text. On failure prints a message that begins with `name`. */
static bool add_media(signalling *it, const char *name, const char *text, size_t size) {
    cpay_sdp_fault fault = {0};
    size_t count = 0;
    cpay_status status = cpay_sdp_read(text, size, NULL, 0, &count, &fault);
    if (status == CPAY_INVALID) {
        complain("%s:%zu: %s", name, fault.line, cpay_sdp_error_text(fault.error));
        return false;
    }
    if (count == 0) {
        complain("%s: no SDP, or one without media", name);
        return false;
    }
    cpay_sdp_media *read = calloc(count, sizeof *read);
    sdp_medium *media = realloc(it->media, (it->media_count + count) * sizeof *media);
    if (media) it->media = media;
    bool done = read && media && cpay_sdp_read(text, size, read, count, &count, &fault) == CPAY_OK;
    if (!done) complain("%s: out of memory", name);
    for (size_t i = 0; done && i < count; i++) describe(&it->media[it->media_count++], &read[i]);
    free(read);
    return done;
}

bool signalling_read_sdp(signalling *it, const char *path) {
    FILE *file = fopen(path, "r");
    if (!file) {
        complain("%s: %s", path, strerror(errno));
        return false;
    }
    char *text = malloc(MOST_BYTES);
    size_t size = text ? fread(text, 1, MOST_BYTES, file) : 0;
    bool whole = text && !ferror(file) && size < MOST_BYTES;
    if (!whole) complain("%s: %s", path, !text ? "out of memory" : ferror(file) ? "cannot be read" : "larger than 1 MB");
    bool read = whole && add_media(it, path, text, size);
    free(text);
    fclose(file);
    return read;
}

/* The codec of the first payload type of the text's section; unknown if the text is malformed. */
static codec_use first_use(const char *text) {
    static cpay_sdp_media media;
    cpay_sdp_fault fault = {0};
    size_t count = 0;
    if (cpay_sdp_read(text, strlen(text), &media, 1, &count, &fault)) return codec_use_unknown();
    return use_of(&media.formats[0]);
}

/* A payload type that needs no signalling (RFC 3551, section 6). A new stream asks for all of them, so each is read once. */
static codec_use static_use(uint8_t payload_type) {
    static codec_use uses[PAYLOAD_TYPES];
    static bool read[PAYLOAD_TYPES];
    if (!read[payload_type]) {
        char text[32];
        snprintf(text, sizeof text, "m=- 0 RTP/AVP %u", payload_type);
        uses[payload_type] = first_use(text);
        read[payload_type] = true;
    }
    return uses[payload_type];
}

bool signalling_map(signalling *it, const char *text) {
    char sdp[MAP_LIMIT], name[CODEC_NAME] = "";
    unsigned payload_type = 0, rate = 0;
    int channels = 0;
    int found = sscanf(text, "%u=%23[^/;]/%u/%d", &payload_type, name, &rate, &channels);
    if (found < 2 || payload_type >= PAYLOAD_TYPES || channels < 0 || channels > 8 || (found > 2 && !rate)) return false;
    codec_use use = codec_use_of(name, rate, channels);
    int size = snprintf(sdp, sizeof sdp, "m=- 0 RTP/AVP %u\na=rtpmap:%u %s/%u/%d", payload_type, payload_type, name,
                        (unsigned)use.rate, use.channels);
    const char *parameters = strchr(text, ';');
    if (parameters) size += snprintf(sdp + size, sizeof sdp - (size_t)size, "\na=fmtp:%u %s", payload_type, parameters + 1);
    if (size >= (int)sizeof sdp) return false;
    use = first_use(sdp);
    if (use.codec->kind == CODEC_UNSUPPORTED || use.codec->kind == CODEC_UNKNOWN) return false;
    if (!it->by_hand) {
        it->by_hand = calloc(PAYLOAD_TYPES, sizeof *it->by_hand);
        for (size_t i = 0; it->by_hand && i < PAYLOAD_TYPES; i++) it->by_hand[i] = codec_use_unknown();
    }
    if (it->by_hand) it->by_hand[payload_type] = use;
    return it->by_hand != NULL;
}

/* ---- Asking ---- */

static const cpay_sdp_source *source_in(const sdp_medium *medium, uint32_t ssrc) {
    for (size_t i = 0; i < medium->source_count; i++) {
        const cpay_sdp_source *source = &medium->sources[i];
        if (source->ssrc == ssrc || (source->has_rtx && source->rtx_ssrc == ssrc)) return source;
    }
    return NULL;
}

/* How well a section fits to a stream: 0 not at all. */
static int fit(const sdp_medium *medium, const wire_flow *flow, uint32_t ssrc, uint8_t payload_type) {
    if (medium->uses[payload_type].codec->kind == CODEC_UNKNOWN) return 0;
    if (source_in(medium, ssrc)) return 4;
    if (medium->port && medium->port == flow->destination_port) return 3;
    if (medium->port && medium->port == flow->source_port) return 2;
    return 1;
}

static const sdp_medium *medium_of(const signalling *it, const wire_flow *flow, uint32_t ssrc, uint8_t payload_type) {
    const sdp_medium *best = NULL;
    int best_fit = 0;
    for (size_t i = 0; i < it->media_count; i++) {
        int this_fit = fit(&it->media[i], flow, ssrc, payload_type);
        if (this_fit > best_fit) {
            best_fit = this_fit;
            best = &it->media[i];
        }
    }
    return best;
}

/* The codec of a payload type by --map or an SDP. NULL: neither names it. */
static const codec_use *named_use(const signalling *it, const wire_flow *flow, uint32_t ssrc, uint8_t payload_type) {
    if (it->by_hand && it->by_hand[payload_type].codec->kind != CODEC_UNKNOWN) return &it->by_hand[payload_type];
    const sdp_medium *medium = medium_of(it, flow, ssrc, payload_type);
    return medium ? &medium->uses[payload_type] : NULL;
}

codec_use signalling_use(const signalling *it, const wire_flow *flow, uint32_t ssrc, uint8_t payload_type) {
    const codec_use *use = named_use(it, flow, ssrc, payload_type);
    return use ? *use : static_use(payload_type);
}

uint8_t signalling_around(const signalling *it, const wire_flow *flow, uint32_t ssrc, const codec_use *media, uint8_t payload_type,
                          codec_kind kind) {
    for (uint8_t type = 0; type < PAYLOAD_TYPES; type++) {
        const codec_use *use = named_use(it, flow, ssrc, type);
        if (!use || use->codec->kind != kind) continue;
        bool names_none = kind == CODEC_RED && use->inner == PAYLOAD_TYPES && use->rate == media->rate;
        if (use->inner == payload_type || names_none) return type;
    }
    return PAYLOAD_TYPES;
}

const cpay_sdp_source *signalling_source(const signalling *it, uint32_t ssrc) {
    const cpay_sdp_source *source = NULL;
    for (size_t i = 0; i < it->media_count && !source; i++) source = source_in(&it->media[i], ssrc);
    return source;
}

bool signalling_encrypts(const signalling *it, const wire_flow *flow, uint32_t ssrc, uint8_t payload_type) {
    const sdp_medium *medium = medium_of(it, flow, ssrc, payload_type);
    return medium && medium->encrypted;
}

void signalling_free(signalling *it) {
    free(it->media);
    free(it->by_hand);
    *it = (signalling){0};
}

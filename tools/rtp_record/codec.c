#include "codec.h"

#include "codec_payload.h"

#include <stdio.h>
#include <stdlib.h>
#include <string.h>
#include <strings.h>

static const codec codecs[] = {
    {"VP8", CODEC_VIDEO, CPAY_VP8, AV_CODEC_ID_VP8, 90000, 0, "webm"},
    {"VP9", CODEC_VIDEO, CPAY_VP9, AV_CODEC_ID_VP9, 90000, 0, "webm"},
    {"AV1", CODEC_VIDEO, CPAY_AV1, AV_CODEC_ID_AV1, 90000, 0, "webm"},
    {"opus", CODEC_AUDIO, CPAY_OPUS, AV_CODEC_ID_OPUS, 48000, 48000, "webm"},
    {"PCMU", CODEC_AUDIO, CPAY_PCMU, AV_CODEC_ID_PCM_MULAW, 8000, 8000, "mka"},
    {"PCMA", CODEC_AUDIO, CPAY_PCMA, AV_CODEC_ID_PCM_ALAW, 8000, 8000, "mka"},
    {"G722", CODEC_AUDIO, CPAY_G722, AV_CODEC_ID_ADPCM_G722, 8000, 16000, "mka"}, /* RFC 3551, section 4.5.2 */
    {"AMR-WB", CODEC_AUDIO, CPAY_AMR_WB, AV_CODEC_ID_AMR_WB, 16000, 16000, "awb"},
    {"telephone-event", CODEC_EVENTS, CPAY_NULL, AV_CODEC_ID_NONE, 8000, 0, "json"},
    {"red", CODEC_RED, CPAY_NULL, AV_CODEC_ID_NONE, 8000, 0, NULL},
    {"CN", CODEC_BESIDE, CPAY_NULL, AV_CODEC_ID_NONE, 8000, 0, NULL},
    {"rtx", CODEC_RTX, CPAY_NULL, AV_CODEC_ID_NONE, 90000, 0, NULL},
    {"ulpfec", CODEC_BESIDE, CPAY_NULL, AV_CODEC_ID_NONE, 90000, 0, NULL},
    {"flexfec-03", CODEC_BESIDE, CPAY_NULL, AV_CODEC_ID_NONE, 90000, 0, NULL},
};

static const codec unsupported = {"", CODEC_UNSUPPORTED, CPAY_NULL, AV_CODEC_ID_NONE, 90000, 0, NULL};
static const codec unknown = {"?", CODEC_UNKNOWN, CPAY_NULL, AV_CODEC_ID_NONE, 90000, 0, NULL};

static const codec *codec_named(const char *name) {
    for (size_t i = 0; i < sizeof codecs / sizeof *codecs; i++)
        if (!strcasecmp(codecs[i].name, name)) return &codecs[i];
    return &unsupported;
}

static codec_use use_of(const codec *it, const char *name, uint32_t rate, int channels) {
    codec_use use = {.codec = it, .rate = rate ? rate : it->clock_rate, .channels = channels ? channels : 1, .inner = PAYLOAD_TYPES};
    snprintf(use.name, sizeof use.name, "%s", name);
    if (it->library == CPAY_OPUS) use.channels = 2; /* RFC 7587, section 7 */
    return use;
}

codec_use codec_use_of(const char *name, uint32_t rate, int channels) {
    const codec *it = codec_named(name);
    return use_of(it, it == &unsupported ? name : it->name, rate, channels);
}

codec_use codec_use_unknown(void) { return use_of(&unknown, unknown.name, 0, 0); }

codec_use codec_use_unsupported(const char *name) { return use_of(&unsupported, name, 0, 0); }

bool codec_is_media(const codec_use *use) { return use->codec->kind == CODEC_AUDIO || use->codec->kind == CODEC_VIDEO; }

#include "unit.h"

#include <codec_payload.h>
#include <string.h>

enum { PART = 20, SILENCE = 160 }; /* 20 ms of G.711 */

bool unit_look(const codec_use *use, const uint8_t *bytes, size_t size, unit_facts *facts) {
    cpay_frame_facts found = {0};
    *facts = (unit_facts){.video = use->codec->kind == CODEC_VIDEO};
    if (cpay_frame_info(use->codec->library, bytes, size, &found) != CPAY_OK) return false;
    if (found.has_size) {
        facts->width = found.width;
        facts->height = found.height;
    }
    facts->duration = (int64_t)found.duration;
    return true;
}

/* The av1C record, by the sequence header of a temporal unit. */
static size_t av1c(const uint8_t *bytes, size_t size, uint8_t configuration[UNIT_CONFIGURATION]) {
    cpay_obu_info obu = {0};
    size_t written = 0;
    for (size_t at = 0; cpay_av1_obu(bytes, size, at, &obu) == CPAY_OK; at = obu.start + obu.bytes) {
        if (obu.obu_type != 1) continue;
        cpay_status status = cpay_av1c(bytes + at, obu.start + obu.bytes - at, configuration, UNIT_CONFIGURATION, &written);
        return status == CPAY_OK ? written : 0;
    }
    return 0;
}

size_t unit_configuration(const codec_use *use, const uint8_t *bytes, size_t size, uint8_t configuration[UNIT_CONFIGURATION]) {
    enum { OPUS_HEAD = 19, PRE_SKIP = 312 };
    uint8_t channels = use->channels == 1 ? 1 : 2;
    switch (use->codec->library) {
    case CPAY_AV1: return av1c(bytes, size, configuration);
    case CPAY_OPUS:
        return cpay_opus_head(channels, PRE_SKIP, 48000, configuration, UNIT_CONFIGURATION) == CPAY_OK ? OPUS_HEAD : 0;
    default: return 0;
    }
}

void unit_split(unit_parts *parts, const codec_use *use, const uint8_t *bytes, size_t size) {
    unit_facts facts;
    *parts = (unit_parts){.use = use, .bytes = bytes, .size = size};
    if (use->codec->library == CPAY_AMR_WB) parts->duration = use->rate / 1000 * PART;
    else if (unit_look(use, bytes, size, &facts)) parts->duration = facts.duration;
}

bool unit_next(unit_parts *parts, unit_part *part) {
    cpay_amr_wb_frame_info frame = {0};
    size_t end = parts->size;
    if (parts->at >= parts->size) return false;
    if (parts->use->codec->library == CPAY_AMR_WB) {
        if (cpay_amr_wb_frame(parts->bytes, parts->size, parts->at, &frame) != CPAY_OK) return false;
        end = frame.start + frame.bytes;
    }
    *part = (unit_part){parts->bytes + parts->at, end - parts->at};
    parts->at = end;
    return true;
}

bool unit_silence(const codec_use *use, unit_part *part, int64_t *duration) {
    static const uint8_t no_data[1] = {15 << 3 | 4}; /* RFC 4867, section 5.3: type 15, undamaged */
    static uint8_t mu_law[SILENCE], a_law[SILENCE];
    memset(mu_law, 0xff, sizeof mu_law);
    memset(a_law, 0xd5, sizeof a_law);
    *duration = use->rate / 1000 * PART;
    switch (use->codec->library) {
    case CPAY_AMR_WB: *part = (unit_part){no_data, sizeof no_data}; return true;
    case CPAY_PCMU: *part = (unit_part){mu_law, sizeof mu_law}; return true;
    case CPAY_PCMA: *part = (unit_part){a_law, sizeof a_law}; return true;
    default: return false;
    }
}

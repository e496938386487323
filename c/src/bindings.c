/* Texts, names and two calls in one for other languages: codec_payload_bindings.h. */
#include "codec_payload_bindings.h"

#include <string.h>

const char *cpay_text_of_status(uint32_t status) { return cpay_status_text((cpay_status)status); }

const char *cpay_text_of_ending(uint32_t why) { return cpay_ending_text((cpay_ending)why); }

const char *cpay_text_of_settings_fault(uint32_t kind) { return cpay_settings_fault_text((cpay_settings_fault_kind)kind); }

const char *cpay_text_of_sdp_error(uint32_t error) { return cpay_sdp_error_text((cpay_sdp_error)error); }

const char *cpay_text_of_sdp_session_error(uint32_t error) { return cpay_sdp_session_error_text((cpay_sdp_session_error)error); }

bool cpay_status_is_of_datagram(uint32_t status) {
    return status == CPAY_RED_CORRUPTED || (status >= CPAY_RTP_HEADER_TOO_SHORT && status <= CPAY_TRANSPORT_DELTAS_TOO_SHORT) ||
           (status >= CPAY_CCFB_TOO_SHORT && status <= CPAY_FEC_PAYLOAD_TOO_SHORT);
}

cpay_status cpay_receiver_take(cpay_receiver *receiver, uint64_t now, const uint8_t *datagram, size_t datagram_len,
                               cpay_status *received, cpay_outcome *outcome, cpay_unit *unit, const uint8_t **at) {
    *received = cpay_receiver_receive(receiver, now, datagram, datagram_len, outcome);
    return cpay_receiver_lend(receiver, now, unit, at);
}

/* The encoding names of codecs, and the usual rates of their clocks (RFC 3551, section 6, and the RFC of each format). */
static const struct {
    const char *name;
    cpay_codec codec;
    uint32_t rate;
} names[] = {
    {"opus", CPAY_OPUS, 48000}, {"PCMU", CPAY_PCMU, 8000}, {"PCMA", CPAY_PCMA, 8000},   {"G722", CPAY_G722, 8000},
    {"CN", CPAY_CN, 8000},      {"VP8", CPAY_VP8, 90000},  {"VP9", CPAY_VP9, 90000},    {"AV1", CPAY_AV1, 90000},
    {"AMR-WB", CPAY_AMR_WB, 16000}, {"telephone-event", CPAY_TELE, 8000},
};
enum { NAMES = sizeof names / sizeof *names };

static char lower(char letter) { return letter >= 'A' && letter <= 'Z' ? (char)(letter - 'A' + 'a') : letter; }

static bool is_name(const char *name, size_t size, const char *other) {
    if (strlen(other) != size) return false;
    for (size_t i = 0; i < size; i++)
        if (lower(name[i]) != lower(other[i])) return false;
    return true;
}

cpay_status cpay_format_by_name(const char *name, size_t name_len, uint32_t rate, cpay_spec *spec) {
    if (!name) return CPAY_INVALID;
    for (size_t i = 0; i < NAMES; i++) {
        if (!is_name(name, name_len, names[i].name)) continue;
        *spec = (cpay_spec){.codec = names[i].codec, .rate = rate ? rate : names[i].rate};
        return CPAY_OK;
    }
    return CPAY_NONE;
}

const char *cpay_codec_name(uint32_t codec) {
    for (size_t i = 0; i < NAMES; i++)
        if ((uint32_t)names[i].codec == codec) return names[i].name;
    return NULL;
}

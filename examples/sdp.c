/* From SDP to settings: reads a session description (RFC 8866), and makes a receiver for the media of each section.
 *
 *     cc sdp.c $(pkg-config --cflags --libs codec-payload) && ./a.out
 *
 * The rules:
 * - Take one payload type of media from the section: here the first. If a sender changes it, make another receiver.
 * - Pass the payload types without media (telephone events, comfort noise) to cpay_receiver_new.
 * - Without a=ssrc lines, or with several SSRCs (simulcast), the settings name no SSRC: set it, or let two packets choose it. */
#include "codec_payload_sdp.h"

#include <stdio.h>
#include <stdlib.h>
#include <string.h>

enum { MEDIA = 8 };

static const char *const session =
    "v=0\n"
    "m=audio 9 UDP/TLS/RTP/SAVPF 111 63 110\n"
    "a=rtpmap:111 opus/48000/2\n"
    "a=rtpmap:63 red/48000/2\n"
    "a=fmtp:63 111/111\n"
    "a=rtpmap:110 telephone-event/48000\n"
    "a=extmap:1 urn:ietf:params:rtp-hdrext:ssrc-audio-level\n"
    "m=video 9 UDP/TLS/RTP/SAVPF 96 97\n"
    "a=rtpmap:96 VP8/90000\n"
    "a=rtcp-fb:96 nack\n"
    "a=rtpmap:97 rtx/90000\n"
    "a=fmtp:97 apt=96\n"
    "a=extmap:4 urn:3gpp:video-orientation\n"
    "a=ssrc-group:FID 7 9\n";

static void check(cpay_status status, const char *what) {
    if (status == CPAY_OK) return;
    fprintf(stderr, "%s: %s\n", what, cpay_status_text(status));
    exit(EXIT_FAILURE);
}

/* ---- The recipe ---- */

/* The first payload type of media of a section, or -1. */
static int media_type(const cpay_sdp_media *it) {
    for (size_t i = 0; i < it->format_count; i++)
        if (it->formats[i].role == CPAY_SDP_MEDIA) return it->formats[i].payload_type;
    return -1;
}

/* Makes a receiver for a section, and prints its settings. */
static void receive(const cpay_sdp_media *it) {
    cpay_receiver_settings settings;
    cpay_receiver receiver = CPAY_INIT;
    uint8_t no_media[CPAY_SDP_MAX_FORMATS];
    size_t no_media_len = 0;
    int payload_type = media_type(it);
    if (payload_type < 0) return;
    check(cpay_sdp_receiver(it, (uint8_t)payload_type, &settings, no_media, &no_media_len), "settings");
    check(cpay_receiver_new(&receiver, &settings, no_media, no_media_len), "receiver");
    printf("codec %u at %u Hz, type %u, wait %u ms", settings.spec.codec, settings.spec.rate, settings.payload_type,
           (unsigned)settings.max_wait);
    if (settings.has_red) printf(", RED type %u, step %u", settings.red_payload_type, settings.red_step);
    for (size_t i = 0; i < no_media_len; i++) printf(", no media in type %u", no_media[i]);
    if (settings.has_ssrc) printf(", SSRC %u", settings.ssrc);
    if (settings.has_rtx) printf(", retransmissions in type %u, SSRC %u", settings.rtx_payload_type, settings.rtx_ssrc);
    printf("\n");
    cpay_receiver_free(&receiver);
}

int main(void) {
    static cpay_sdp_media media[MEDIA];
    cpay_sdp_fault fault = {0, CPAY_SDP_NO_ERROR};
    size_t count = 0;
    cpay_status status = cpay_sdp_read(session, strlen(session), media, MEDIA, &count, &fault);
    if (status == CPAY_INVALID) fprintf(stderr, "line %zu: %s\n", fault.line, cpay_sdp_error_text(fault.error));
    check(status, "description");
    for (size_t i = 0; i < count; i++) receive(&media[i]);
    return EXIT_SUCCESS;
}

/* rtp_record: the RTP streams of a capture, listed and written as files that play. */
#include "capture.h"
#include "message.h"
#include "options.h"
#include "report.h"

#include <libavutil/log.h>
#include <signal.h>
#include <stdlib.h>

enum { DONE = 0, FAILED = 1, WRONG_USE = 2 };

static void stop(int number) {
    (void)number;
    capture_stop();
}

/* Reads the capture once, and gives its datagrams to the streams. */
static void read_all(const options *wanted, capture *from, streams *to, streams_output *output) {
    capture_packet packet;
    while (capture_next(from, &packet) == 1) {
        wire_datagram datagram;
        switch (wire_read(capture_link(from), packet.bytes, packet.captured, packet.length, &datagram)) {
        case WIRE_UDP:
            to->packets++;
            streams_datagram(to, &wanted->known, output, packet.time, &datagram);
            break;
        case WIRE_FRAGMENT: to->fragments++; break;
        case WIRE_CUT: to->cut++; break;
        case WIRE_MALFORMED: to->malformed++; break;
        case WIRE_NOT_UDP: break;
        }
        progress(capture_position(from), capture_size(from), to->packets);
    }
    progress_end();
}

static capture *open_capture(const options *wanted) {
    const char *name = wanted->interface ? wanted->interface : wanted->capture;
    capture *from = capture_open(name, wanted->interface != NULL, wanted->filter);
    if (from && !wire_knows_link(capture_link(from))) {
        complain("%s: unsupported link type %d", name, capture_link(from));
        capture_close(from);
        return NULL;
    }
    return from;
}

/* How many streams of the capture become tracks of a file. */
static size_t count_tracks(const options *wanted) {
    streams found = {0};
    streams_output none = {0};
    size_t tracks = 0;
    capture *from = open_capture(wanted);
    if (!from) return 0;
    read_all(wanted, from, &found, &none);
    streams_close(&found, &wanted->known, &none);
    for (size_t i = 0; i < found.count; i++)
        tracks += found.list[i]->valid && !found.list[i]->encrypted && codec_is_media(&found.list[i]->use);
    streams_free(&found);
    capture_close(from);
    return tracks;
}

static void run(options *wanted) {
    streams found = {0};
    if (wanted->output.mux) {
        size_t tracks = count_tracks(wanted);
        if (tracks == 0) complain("%s: no stream can be written", wanted->output.mux);
        else wanted->output.together = writer_new(wanted->output.mux, tracks);
    }
    capture *from = open_capture(wanted);
    if (!from) return;
    read_all(wanted, from, &found, &wanted->output);
    /* an interruption is the normal end of a live recording */
    if (capture_stopped() && !wanted->interface) complain("%s: interrupted; everything before was written", wanted->capture);
    streams_close(&found, &wanted->known, &wanted->output);
    if (wanted->json) report_json(&found);
    else report_table(&found);
    streams_free(&found);
    capture_close(from);
}

int main(int count, char **words) {
    options wanted;
    options_answer answer = options_read(&wanted, count, words);
    if (answer == OPTIONS_RUN) {
        struct sigaction action = {.sa_handler = stop};
        sigaction(SIGINT, &action, NULL);
        sigaction(SIGTERM, &action, NULL);
        signal(SIGXFSZ, SIG_IGN); /* a write beyond the file size limit then fails, and the failure is reported */
        av_log_set_level(AV_LOG_FATAL);
        run(&wanted);
    }
    signalling_free(&wanted.known);
    if (answer == OPTIONS_WRONG) return WRONG_USE;
    return complaints() > 0 ? FAILED : DONE;
}

/* Records everything that arrives on a UDP port, and requests what is missing. Two senders on loopback play VP8 and Opus; every
 * 21st packet of the video is lost, and retransmitted on request; the audio leaves by a BYE. Each stream goes to a file in FOLDER,
 * if it is given: for each unit its size as four bytes, and its bytes. Prints what came:
 *
 *     cc port.c $(pkg-config --cflags --libs codec-payload) && ./a.out [FOLDER]
 *     cc port.c -I../include ../c/out/libcodec_payload.a && ./a.out [FOLDER]      without pkg-config */
#define _POSIX_C_SOURCE 200809L
#include "codec_payload.h"

#include <arpa/inet.h>
#include <errno.h>
#include <inttypes.h>
#include <poll.h>
#include <stdio.h>
#include <stdlib.h>
#include <sys/socket.h>
#include <time.h>
#include <unistd.h>

enum { FRAMES = 100, VIDEO = 96, AUDIO = 111, STREAMS = 64, ROOM = 1500, MOST_REQUESTED = 32 };

/* What your session description names: the formats, and payload types without media. `nack`: a=rtcp-fb:96 nack. */
static const cpay_session_format FORMATS[] = {
    {.spec = {.codec = CPAY_VP8, .rate = 90000}, .payload_type = VIDEO, .nack = true},
    {.spec = {.codec = CPAY_OPUS, .rate = 48000}, .payload_type = AUDIO},
};
static const uint8_t NO_MEDIA[] = {101}; /* telephone events */

static void check(cpay_status status, const char *what) {
    if (status == CPAY_OK) return;
    fprintf(stderr, "%s: %s\n", what, cpay_status_text(status));
    exit(EXIT_FAILURE);
}

/* Creates the session, or says which setting it cannot meet. */
static void create(cpay_session *session, const cpay_session_settings *settings) {
    cpay_settings_fault fault = {0, CPAY_SETTINGS_FIT, 0, false, false};
    cpay_status status = cpay_session_new(session, settings, FORMATS, 2, NO_MEDIA, sizeof NO_MEDIA, NULL, 0);
    if (status == CPAY_INVALID &&
        cpay_session_settings_check(settings, FORMATS, 2, NO_MEDIA, sizeof NO_MEDIA, &fault) == CPAY_INVALID) {
        fprintf(stderr, "settings: %s", cpay_settings_fault_text(fault.kind));
        if (fault.has_format) fprintf(stderr, ", format %zu", fault.format);
        if (fault.has_payload_type) fprintf(stderr, ", payload type %u", (unsigned)fault.payload_type);
        fputc('\n', stderr);
    }
    check(status, "session");
}

/* A stream that is recorded. */
typedef struct {
    uint32_t ssrc;
    uint8_t payload_type;
    uint64_t units, bytes;
    struct sockaddr_in from; /* where its first datagram came from: its RTCP goes there */
    FILE *file;
} track;

typedef struct {
    cpay_session session;
    track tracks[STREAMS];
    size_t count;
    const char *folder;
    int port;
    struct sockaddr_in from; /* of the latest datagram */
    uint64_t units;
    unsigned requests;
} recorder;

static void require(bool holds, const char *what) {
    if (holds) return;
    perror(what);
    exit(EXIT_FAILURE);
}

/* Milliseconds of a clock that never goes back. */
static uint64_t now(void) {
    struct timespec time;
    require(clock_gettime(CLOCK_MONOTONIC, &time) == 0, "clock_gettime");
    return (uint64_t)time.tv_sec * 1000 + (uint64_t)time.tv_nsec / 1000000;
}

static track *track_of(recorder *it, const cpay_event *event) {
    for (size_t i = 0; i < it->count; i++)
        if (it->tracks[i].ssrc == event->ssrc && it->tracks[i].payload_type == event->payload_type) return &it->tracks[i];
    return NULL;
}

static void begin(recorder *it, const cpay_event *event) {
    char path[4096];
    if (it->count == STREAMS) return; /* it is heard, and not recorded */
    track *track = &it->tracks[it->count++];
    track->ssrc = event->ssrc;
    track->payload_type = event->payload_type;
    track->units = track->bytes = 0;
    track->from = it->from;
    track->file = NULL;
    if (!it->folder) return;
    snprintf(path, sizeof path, "%s/%08" PRIx32 "-%u.units", it->folder, event->ssrc, (unsigned)event->payload_type);
    require((track->file = fopen(path, "wb")) != NULL, path);
}

static void keep(recorder *it, track *track, const uint8_t *bytes, size_t size) {
    const uint8_t length[4] = {(uint8_t)(size >> 24), (uint8_t)(size >> 16), (uint8_t)(size >> 8), (uint8_t)size};
    it->units++;
    track->units++;
    track->bytes += size;
    if (track->file) require(fwrite(length, 1, 4, track->file) == 4 && fwrite(bytes, 1, size, track->file) == size, "fwrite");
}

/* Sends RTCP to the sender of a stream. What is lost on the way, the session requests or reports again. */
static void send_rtcp(const recorder *it, const track *track, const uint8_t *bytes, size_t size) {
    (void)sendto(it->port, bytes, size, 0, (const struct sockaddr *)&track->from, sizeof track->from);
}

/* Sends a receiver report, which is about all streams, to each sender. */
static void report(const recorder *it, const uint8_t *bytes, size_t size) {
    for (size_t i = 0; i < it->count; i++) send_rtcp(it, &it->tracks[i], bytes, size);
}

static void end(recorder *it, track *track, cpay_ending why) {
    printf("stream %" PRIu32 " of payload type %u: %" PRIu64 " units, %" PRIu64 " bytes, until %s\n", track->ssrc,
           (unsigned)track->payload_type, track->units, track->bytes, cpay_ending_text(why));
    if (track->file) require(fclose(track->file) == 0, "fclose");
    *track = it->tracks[--it->count];
}

/* Handles all events that are due. The session lends the bytes of an event until the next poll. */
static void drain(recorder *it) {
    cpay_event event;
    cpay_status status;
    while ((status = cpay_session_poll(&it->session, now(), &event)) == CPAY_OK) {
        track *track = track_of(it, &event);
        it->requests += event.kind == CPAY_EVENT_FEEDBACK;
        if (event.kind == CPAY_EVENT_BEGUN) begin(it, &event);
        else if (event.kind == CPAY_EVENT_REPORT) report(it, event.data, event.bytes);
        else if (!track) continue;
        else if (event.kind == CPAY_EVENT_UNIT) keep(it, track, event.data, event.bytes);
        else if (event.kind == CPAY_EVENT_FEEDBACK) send_rtcp(it, track, event.data, event.bytes);
        else if (event.kind == CPAY_EVENT_FAULT) fprintf(stderr, "a frame is lost: %s\n", cpay_status_text(event.status));
        else if (event.kind == CPAY_EVENT_ENDED) end(it, track, event.why);
    }
    if (status != CPAY_NONE) check(status, "poll");
}

/* Waits for a datagram, at most until the next deadline. Returns whether one came. */
static bool serve(recorder *it) {
    uint8_t datagram[2048];
    struct pollfd one = {.fd = it->port, .events = POLLIN};
    socklen_t length = sizeof it->from;
    cpay_arrival arrival;
    uint64_t at = 0, time = now();
    int wait = 1000;
    if (cpay_session_next_deadline(&it->session, &at) == CPAY_OK && at < time + 1000) wait = at > time ? (int)(at - time) : 0;
    int ready = poll(&one, 1, wait);
    require(ready >= 0 || errno == EINTR, "poll");
    if (ready > 0) {
        ssize_t size = recvfrom(it->port, datagram, sizeof datagram, 0, (struct sockaddr *)&it->from, &length);
        require(size >= 0, "recvfrom");
        check(cpay_session_receive(&it->session, now(), datagram, (size_t)size, &arrival), "receive");
    }
    drain(it);
    return ready > 0;
}

/* A sender of media, and the packets that it can retransmit. */
typedef struct {
    cpay_sender sender;
    cpay_history history;
    int to;
    uint32_t ssrc;
    size_t sent;
} player;

/* Sends a frame, and returns how many datagrams it sent. Of every `lost` ones the network loses one; 0: none. */
static size_t play(player *it, uint64_t rtp_time, size_t size, size_t lost) {
    static uint8_t frame[3000];
    uint8_t datagram[ROOM];
    size_t count = 0, out = 0;
    check(cpay_sender_send(&it->sender, rtp_time, false, frame, size, &count), "send");
    for (size_t place = 0; place < count; place++) {
        check(cpay_sender_datagram(&it->sender, place, datagram, sizeof datagram, &size), "datagram");
        check(cpay_history_keep(&it->history, datagram, size, NULL), "keep");
        if (lost && ++it->sent % lost == 0) continue;
        require(send(it->to, datagram, size, 0) == (ssize_t)size, "send");
        out++;
    }
    return out;
}

/* Retransmits what the RTCP that came requests, and returns how many datagrams it sent. */
static size_t answer(player *it) {
    uint8_t rtcp[ROOM], datagram[ROOM];
    uint16_t numbers[MOST_REQUESTED];
    size_t out = 0;
    for (ssize_t came; (came = recv(it->to, rtcp, sizeof rtcp, MSG_DONTWAIT)) > 0;) {
        size_t count = 0, size = 0;
        bool wants_keyframe = false; /* this would go to the encoder */
        if (cpay_read_requests(rtcp, (size_t)came, it->ssrc, false, numbers, MOST_REQUESTED, &count, &wants_keyframe)) continue;
        for (size_t i = 0; i < count && i < MOST_REQUESTED; i++) {
            cpay_resent resent = CPAY_RESENT_NOT_KEPT;
            check(cpay_history_resend(&it->history, now(), numbers[i], datagram, sizeof datagram, &size, &resent), "resend");
            if (resent == CPAY_RESENT_WRITTEN && send(it->to, datagram, size, 0) == (ssize_t)size) out++;
        }
    }
    return out;
}

static void begin_player(player *it, const cpay_session_format *format, uint32_t ssrc, int to) {
    cpay_sender_settings settings = {.spec = format->spec, .mtu = 1200, .ssrc = ssrc, .payload_type = format->payload_type};
    cpay_history_settings keeps = {.limit = 512, .interval = 1000}; /* ms: a packet is retransmitted at most once a second */
    check(cpay_sender_new(&it->sender, &settings), "sender");
    check(cpay_history_new(&it->history, &keeps), "history");
    it->to = to;
    it->ssrc = ssrc;
}

static void end_player(player *it) {
    cpay_sender_free(&it->sender);
    cpay_history_free(&it->history);
    close(it->to);
}

/* A socket of a sender, which sends to this address. */
static int connected(const struct sockaddr_in *address) {
    int from = socket(AF_INET, SOCK_DGRAM, 0);
    require(from >= 0 && connect(from, (const struct sockaddr *)address, sizeof *address) == 0, "connect");
    return from;
}

int main(int argc, char **argv) {
    static recorder it = {.session = CPAY_INIT};
    static player video = {CPAY_INIT, CPAY_INIT, 0, 0, 0}, audio = {CPAY_INIT, CPAY_INIT, 0, 0, 0};
    static const uint8_t NAME[] = "port", BYE[8] = {0x81, 203, 0, 1, 0, 0, 0, 2};
    struct sockaddr_in address = {.sin_family = AF_INET, .sin_addr = {.s_addr = htonl(INADDR_LOOPBACK)}};
    socklen_t length = sizeof address;
    cpay_session_settings settings;
    cpay_session_counts_info counts = {0};
    size_t sent = 0;
    it.port = socket(AF_INET, SOCK_DGRAM, 0);
    require(it.port >= 0 && bind(it.port, (struct sockaddr *)&address, length) == 0, "socket");
    require(getsockname(it.port, (struct sockaddr *)&address, &length) == 0, "getsockname");
    it.folder = argc > 1 ? argv[1] : NULL;
    cpay_session_settings_init(&settings, CPAY_FOR_LIVE);
    check(cpay_session_settings_feedback(&settings, 3, NAME, sizeof NAME - 1), "feedback");
    create(&it.session, &settings);
    begin_player(&video, &FORMATS[0], 1, connected(&address));
    begin_player(&audio, &FORMATS[1], 2, connected(&address));
    for (uint64_t frame = 0; frame < FRAMES; frame++) {
        sent = play(&video, 1800 * frame, 3000, 21) + play(&audio, 960 * frame, 80, 0);
        for (; sent > 0; sent += answer(&video))
            if (serve(&it)) sent--;
    }
    for (uint64_t until = now() + 1000; it.units < 2 * FRAMES && now() < until; answer(&video)) serve(&it);
    require(send(audio.to, BYE, sizeof BYE, 0) == (ssize_t)sizeof BYE, "send");
    while (!serve(&it)) continue;
    check(cpay_session_finish(&it.session, now()), "finish");
    drain(&it);
    check(cpay_session_counts(&it.session, &counts), "counts");
    printf("%u requests of lost packets\n", it.requests);
    printf("%" PRIu64 " datagrams, %" PRIu64 " of RTCP, %" PRIu64 " for no stream\n", counts.received, counts.rtcp,
           counts.malformed + counts.unknown + counts.refused + counts.unassociated);
    end_player(&video);
    end_player(&audio);
    cpay_session_free(&it.session);
    close(it.port);
    return counts.streams != 0 || counts.received < counts.ended + counts.rtcp;
}

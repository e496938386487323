/* Sends 500 frames of VP8 over UDP on loopback. One datagram in twenty is lost, and one in twenty is duplicated. Prints the
 * outcome:
 *
 *     cc loopback.c $(pkg-config --cflags --libs codec-payload) && ./a.out */
#define _POSIX_C_SOURCE 200809L
#include "codec_payload.h"

#include <arpa/inet.h>
#include <inttypes.h>
#include <stdio.h>
#include <stdlib.h>
#include <string.h>
#include <sys/socket.h>
#include <sys/time.h>
#include <time.h>
#include <unistd.h>

enum { FRAMES = 500, FRAME = 3000 };

typedef struct {
    cpay_sender sender;
    cpay_receiver receiver;
    int from, to; /* two sockets, the first connected to the second */
    uint32_t chance;
    uint64_t bytes, gaps;
} call;

static void check(cpay_status status, const char *what) {
    if (status == CPAY_OK) return;
    fprintf(stderr, "%s: %s\n", what, cpay_status_text(status));
    exit(EXIT_FAILURE);
}

static void require(bool holds, const char *what) {
    if (holds) return;
    perror(what);
    exit(EXIT_FAILURE);
}

/* Milliseconds of a clock that never goes back. */
static uint64_t now(void) {
    struct timespec time;
    require(clock_gettime(CLOCK_MONOTONIC, &time) == 0, "clock_gettime");
    return (uint64_t)time.tv_sec * 1000 + (uint64_t)time.tv_nsec / 1000000;
}

/* The same numbers in each run, so that each run prints the same. */
static bool one_in(call *it, uint32_t times) {
    it->chance = it->chance * 1664525 + 1013904223;
    return (it->chance >> 16) % times == 0;
}

static void begin(call *it) {
    struct sockaddr_in address = {.sin_family = AF_INET, .sin_addr = {.s_addr = htonl(INADDR_LOOPBACK)}};
    socklen_t size = sizeof address;
    struct timeval second = {.tv_sec = 1};
    cpay_spec spec = {.codec = CPAY_VP8, .rate = 90000};
    cpay_sender_settings sends = {.spec = spec, .mtu = 1200, .ssrc = 0x12345678, .payload_type = 96};
    cpay_receiver_settings receives;
    it->from = socket(AF_INET, SOCK_DGRAM, 0);
    it->to = socket(AF_INET, SOCK_DGRAM, 0);
    require(it->from >= 0 && it->to >= 0, "socket");
    require(bind(it->to, (struct sockaddr *)&address, size) == 0, "bind");
    require(getsockname(it->to, (struct sockaddr *)&address, &size) == 0, "getsockname");
    require(connect(it->from, (struct sockaddr *)&address, size) == 0, "connect");
    require(setsockopt(it->to, SOL_SOCKET, SO_RCVTIMEO, &second, sizeof second) == 0, "setsockopt");
    cpay_receiver_settings_init(&receives, CPAY_VP8, 90000, 96, CPAY_FOR_LIVE);
    receives.hold_back = 5;
    receives.max_wait = 200;
    check(cpay_sender_new(&it->sender, &sends), "sender");
    check(cpay_receiver_new(&it->receiver, &receives, NULL, 0), "receiver");
}

/* Sends a frame, and returns the number of datagrams that will arrive. */
static size_t send_frame(call *it, uint64_t frame) {
    static uint8_t bytes[FRAME];
    uint8_t datagram[1500];
    size_t count = 0, size = 0, arriving = 0;
    memset(bytes, (int)(frame & 255), sizeof bytes);
    check(cpay_sender_send(&it->sender, frame * 3000, false, bytes, sizeof bytes, &count), "send");
    for (size_t place = 0; place < count; place++) {
        check(cpay_sender_datagram(&it->sender, place, datagram, sizeof datagram, &size), "datagram");
        int copies = one_in(it, 20) ? 0 : 1 + one_in(it, 20);
        for (int copy = 0; copy < copies; copy++, arriving++)
            require(send(it->from, datagram, size, 0) == (ssize_t)size, "send");
    }
    return arriving;
}

static void receive(call *it) {
    uint8_t datagram[1500];
    cpay_outcome outcome = CPAY_HELD;
    ssize_t size = recv(it->to, datagram, sizeof datagram, 0);
    require(size >= 0, "recv");
    /* A datagram that is not a packet is counted, and the stream continues. */
    cpay_status status = cpay_receiver_receive(&it->receiver, now(), datagram, (size_t)size, &outcome);
    if (status) fprintf(stderr, "%s\n", cpay_status_text(status));
}

static void take_units(call *it) {
    static uint8_t bytes[FRAME];
    cpay_unit unit = {0};
    cpay_status status;
    while (!(status = cpay_receiver_pop(&it->receiver, now(), &unit, bytes, sizeof bytes))) {
        if (unit.fault) continue; /* a refused frame is lost */
        it->bytes += unit.bytes;
        it->gaps += !unit.contiguous;
    }
    if (status != CPAY_NONE) check(status, "pop");
}

static void report(call *it) {
    cpay_sender_counts_info sent = {0};
    cpay_receiver_counts_info counts = {0};
    check(cpay_sender_counts(&it->sender, &sent), "counts");
    check(cpay_receiver_counts(&it->receiver, &counts), "counts");
    printf("sent %" PRIu32 " packets with %" PRIu32 " bytes of payload\n", sent.packets, sent.octets);
    printf("received %" PRIu64 ", recovered %" PRIu64 ", retransmitted %" PRIu64 ", restarts %" PRIu64 "\n", counts.received,
           counts.recovered, counts.retransmitted, counts.restarts);
    printf("rtcp %" PRIu64 ", malformed %" PRIu64 ", other streams %" PRIu64 ", no media %" PRIu64 "\n", counts.rtcp,
           counts.malformed, counts.other_streams, counts.no_media);
    printf("duplicates %" PRIu64 ", late %" PRIu64 ", suspect %" PRIu64 ", evicted %" PRIu64 "\n", counts.duplicates, counts.late,
           counts.suspect, counts.evicted);
    printf("released %" PRIu64 " in %" PRIu64 " units, left %" PRIu64 ", held %zu\n", counts.released, counts.units, counts.left,
           counts.held);
    printf("%" PRIu64 " bytes of frames, %" PRIu64 " gaps\n", it->bytes, it->gaps);
}

int main(void) {
    call it = {.sender = CPAY_INIT, .receiver = CPAY_INIT, .chance = 1};
    begin(&it);
    for (uint64_t frame = 0; frame < FRAMES; frame++) {
        for (size_t arriving = send_frame(&it, frame); arriving > 0; arriving--) receive(&it);
        if (frame + 1 == FRAMES) check(cpay_receiver_finish(&it.receiver), "finish");
        take_units(&it);
    }
    report(&it);
    cpay_sender_free(&it.sender);
    cpay_receiver_free(&it.receiver);
    close(it.from);
    close(it.to);
    return 0;
}

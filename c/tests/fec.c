/* Ports with FEC and senders of FEC. What passes and what is sent was written by hand after RFC 2198, RFC 4588, section 4, RFC 5109,
 * section 7, and docs/use/FEC.md.
 *
 *   fec                  all but the next one
 *   fec chromium <FILE   31 datagrams that Chromium 156 sent, each with its length in two bytes in front (rust/tests/fec_ports):
 *                        each packet of media is lost in turn, and the port rebuilds it byte for byte */
#include "check.h"
#include "codec_payload.h"

#ifdef _WIN32
#include <fcntl.h>
#include <io.h>
#endif

enum { UNTOUCHED = 0xaa, VP8 = 96, AGAIN = 97, RED = 116, ULPFEC = 117, RED_AGAIN = 118, SSRC = 7, MOST = 1500 };

static const cpay_retransmission_type PAIRS[1] = {{.media = VP8, .retransmission = AGAIN}};

static cpay_fec_port_settings port_settings(void) {
    cpay_fec_port_settings settings;
    cpay_fec_port_settings_init(&settings);
    settings.red_type = RED;
    settings.fec_type = ULPFEC;
    settings.red_retransmission = RED_AGAIN;
    settings.has_red_retransmission = true;
    settings.transport_number = 3;
    return settings;
}

static cpay_fec_port new_port(void) {
    cpay_fec_port port = CPAY_INIT;
    const cpay_fec_port_settings settings = port_settings();
    CHECK(cpay_fec_port_new(&port, &settings, PAIRS, 1) == CPAY_OK);
    return port;
}

/* What passes in the place of a datagram. */
static cpay_lent_packet passes(cpay_fec_port *port, const uint8_t *datagram, size_t size) {
    cpay_lent_packet passed = {datagram, size};
    CHECK(cpay_fec_port_receive(port, datagram, size, &passed) == CPAY_OK);
    return passed;
}

static bool is_packet(cpay_lent_packet found, const void *wanted, size_t size) {
    return found.bytes == size && memcmp(found.at, wanted, size) == 0;
}

/* Whether the port has no rebuilt packet. */
static bool has_none(cpay_fec_port *port) {
    cpay_lent_packet packet = {NULL, 99};
    return cpay_fec_port_next(port, &packet) == CPAY_NONE && !packet.at && packet.bytes == 99;
}

/* ---- What passes ---- */

static void what_passes(void) {
    const uint8_t fixed[] = {0, 1, 0, 0, 0, 9, 0, 0, 0, SSRC};
    const uint8_t front[] = {0x91, 0x80 | RED, 0xff, 0xff, 0, 0, 0, 9, 0, 0, 0, SSRC, 0, 0, 0, 1, 0xbe, 0xde, 0, 1, 0x31, 9, 9, 0};
    cpay_fec_port port = new_port();
    uint8_t datagram[64], wanted[64];
    /* a packet of RED with marker, CSRC and extension */
    memcpy(datagram, front, 24);
    memcpy(datagram + 24, (const uint8_t[]){VP8, 'a', 'b', 'c'}, 4);
    memcpy(wanted, front, 24);
    wanted[1] = 0x80 | VP8;
    memcpy(wanted + 24, "abc", 3);
    CHECK(is_packet(passes(&port, datagram, 28), wanted, 27) && has_none(&port));
    /* FEC, in RED or not: a byte of padding under its number */
    for (uint8_t kind = RED; kind <= ULPFEC; kind++) {
        datagram[0] = 0x80, datagram[1] = kind;
        memcpy(datagram + 2, fixed, 10);
        memset(datagram + 12, 0, 20);
        datagram[12] = ULPFEC;
        const uint8_t padding[13] = {0xa0, ULPFEC, 0, 1, 0, 0, 0, 9, 0, 0, 0, SSRC, 1};
        CHECK(is_packet(passes(&port, datagram, 32), padding, 13) && has_none(&port));
    }
    /* a retransmission of a packet in RED */
    datagram[1] = RED_AGAIN;
    memcpy(datagram + 12, (const uint8_t[]){0x12, 0x34, VP8, 'a', 'b'}, 5);
    memcpy(wanted, datagram, 14);
    wanted[1] = AGAIN;
    memcpy(wanted + 14, "ab", 2);
    CHECK(is_packet(passes(&port, datagram, 17), wanted, 16));
    datagram[14] = VP8 + 1; /* media without retransmissions */
    CHECK(passes(&port, datagram, 17).at == datagram);
    cpay_fec_port_free(&port);
    cpay_fec_port_free(NULL);
}

/* These pass as they are, and begin no stream. */
static void what_stays(void) {
    static const struct {
        uint8_t bytes[20];
        size_t size;
    } same_ones[] = {
        {{0x80, VP8, 0, 1, 0, 0, 0, 9, 0, 0, 0, SSRC, 5}, 13},                    /* no RED */
        {{0x80, AGAIN, 0, 1, 0, 0, 0, 9, 0, 0, 0, 8, 0, 1, VP8, 5}, 16},          /* a retransmission without RED */
        {{0x80, RED, 0, 1, 0, 0, 0, 9, 0, 0, 0, SSRC}, 12},                       /* RED without a block */
        {{0x80, RED, 0, 1, 0, 0, 0, 9, 0, 0, 0, SSRC, RED, VP8, 1}, 15},          /* RED in RED */
        {{0x80, RED, 0, 1, 0, 0, 0, 9, 0, 0, 0, SSRC, 0x80 | VP8, 0, 0, 1, VP8, 7, 8}, 19}, /* two blocks */
        {{0x80, RED, 0, 1, 0, 0, 0, 9, 0, 0, 0}, 11},                             /* shorter than a header */
        {{0x80, 200, 0, 1, 0, 0, 0, SSRC}, 8},                                    /* RTCP */
        {{0}, 0},
    };
    cpay_fec_port port = new_port();
    cpay_fec_counts_info counts = {9, 9, 9};
    for (size_t i = 0; i < sizeof same_ones / sizeof *same_ones; i++) {
        CHECK(passes(&port, same_ones[i].bytes, same_ones[i].size).at == same_ones[i].bytes);
        CHECK(has_none(&port));
    }
    cpay_lent_packet passed = {NULL, 0};
    CHECK(cpay_fec_port_receive(&port, NULL, 0, &passed) == CPAY_OK && !passed.at);
    CHECK(cpay_fec_port_receive(&port, NULL, 1, &passed) == CPAY_INVALID && !passed.at);
    CHECK(cpay_fec_port_counts(&port, &counts) == CPAY_OK && !counts.media && !counts.fec && !counts.rebuilt);
    counts.media = 9;
    CHECK(cpay_fec_port_stream_counts(&port, SSRC, &counts) == CPAY_NONE && counts.media == 9);
    cpay_fec_port_free(&port);
}

/* ---- Settings and handles ---- */

static cpay_status made_port(const cpay_fec_port_settings *settings, const cpay_retransmission_type *pairs, size_t count) {
    cpay_fec_port port = CPAY_INIT;
    const cpay_status status = cpay_fec_port_new(&port, settings, pairs, count);
    cpay_lent_packet packet = {NULL, 0};
    CHECK(cpay_fec_port_next(&port, &packet) == (status ? CPAY_EMPTY : CPAY_NONE));
    cpay_fec_port_free(&port);
    return status;
}

static void settings_of_ports(void) {
    cpay_fec_port_settings settings = port_settings();
    cpay_retransmission_type pairs[2] = {PAIRS[0], {98, 99}};
    CHECK(settings.bytes == 768000 && settings.max_streams == 64 && made_port(&settings, NULL, 0) == CPAY_OK);
    CHECK(made_port(&settings, NULL, 1) == CPAY_INVALID && made_port(&settings, pairs, 2) == CPAY_OK);
    settings.max_streams = 256;
    CHECK(made_port(&settings, pairs, 2) == CPAY_OK);
    settings.max_streams = 257, settings.red_type = 128;
    CHECK(made_port(&settings, pairs, 2) == CPAY_FEC_STREAMS);
    settings.max_streams = 0;
    CHECK(made_port(&settings, pairs, 2) == CPAY_FEC_STREAMS);
    settings.max_streams = 1;
    CHECK(made_port(&settings, pairs, 2) == CPAY_FEC_PAYLOAD_TYPE);
    settings = port_settings(), settings.fec_type = 72;
    CHECK(made_port(&settings, pairs, 2) == CPAY_FEC_PAYLOAD_TYPE);
    settings.fec_type = RED;
    CHECK(made_port(&settings, pairs, 2) == CPAY_FEC_TWO_MEANINGS);
    settings = port_settings(), settings.red_retransmission = ULPFEC;
    CHECK(made_port(&settings, pairs, 2) == CPAY_FEC_TWO_MEANINGS);
    settings.has_red_retransmission = false; /* the number is not read then */
    CHECK(made_port(&settings, pairs, 2) == CPAY_OK);
    pairs[1].retransmission = RED;
    CHECK(made_port(&settings, pairs, 2) == CPAY_FEC_TWO_MEANINGS && made_port(&settings, pairs, 1) == CPAY_OK);
    pairs[1].media = 95;
    CHECK(made_port(&settings, pairs, 2) == CPAY_FEC_PAYLOAD_TYPE);
    cpay_fec_port_settings_init(&settings); /* without payload types */
    CHECK(made_port(&settings, NULL, 0) == CPAY_FEC_TWO_MEANINGS);
}

static cpay_fec_sender_settings sender_settings(void) {
    return (cpay_fec_sender_settings){.ssrc = SSRC, .first_number = 65535, .red_type = RED, .fec_type = ULPFEC,
                                      .protection = 85, .keyframe_protection = 128, .transport_number = 3};
}

static void settings_of_senders(void) {
    static const struct {
        uint8_t red_type, fec_type;
        cpay_status status;
    } made[] = {{127, 0, CPAY_OK}, {128, 200, CPAY_FEC_PAYLOAD_TYPE}, {RED, 128, CPAY_FEC_PAYLOAD_TYPE}, {RED, RED, CPAY_FEC_TWO_MEANINGS}};
    for (size_t i = 0; i < sizeof made / sizeof *made; i++) {
        cpay_fec_sender_settings settings = sender_settings();
        cpay_fec_sender sender = CPAY_INIT;
        settings.red_type = made[i].red_type, settings.fec_type = made[i].fec_type;
        CHECK(cpay_fec_sender_new(&sender, &settings) == made[i].status);
        CHECK(cpay_fec_sender_protect(&sender, 1, 2) == (made[i].status ? CPAY_EMPTY : CPAY_OK));
        cpay_fec_sender_free(&sender);
    }
    cpay_fec_sender_free(NULL);
}

/* Calls on handles that are empty or of another type, which change nothing. */
static void handles(void) {
    union {
        cpay_fec_port port;
        cpay_fec_sender sender;
    } it = {CPAY_INIT};
    const cpay_fec_port_settings of_port = port_settings();
    const cpay_fec_sender_settings of_sender = sender_settings();
    const uint8_t packet[13] = {0x80, VP8, 0, 1, 0, 0, 0, 9, 0, 0, 0, SSRC, 1};
    cpay_fec_counts_info counts = {5, 5, 5};
    cpay_lent_packet lent = {packet, 7};
    uint8_t byte = UNTOUCHED;
    size_t size = 5;
    bool ends = true;
    for (int kind = 0; kind < 3; kind++) {
        const cpay_status of_ports = kind == 0 ? CPAY_EMPTY : kind == 1 ? CPAY_OTHER_KIND : CPAY_OK;
        const cpay_status of_senders = kind == 0 ? CPAY_EMPTY : kind == 2 ? CPAY_OTHER_KIND : CPAY_OK;
        if (kind == 1) CHECK(cpay_fec_sender_new(&it.sender, &of_sender) == CPAY_OK);
        if (kind == 2) CHECK(cpay_fec_port_new(&it.port, &of_port, NULL, 0) == CPAY_OK);
        if (kind) CHECK(cpay_fec_sender_new(&it.sender, &of_sender) == CPAY_FULL && cpay_fec_port_new(&it.port, &of_port, NULL, 0) == CPAY_FULL);
        CHECK(cpay_fec_port_restart(&it.port, SSRC) == of_ports && cpay_fec_port_end(&it.port, SSRC) == of_ports);
        CHECK(cpay_fec_sender_protect(&it.sender, 9, 9) == of_senders);
        if (kind < 2) {
            CHECK(cpay_fec_port_receive(&it.port, packet, 13, &lent) == of_ports && cpay_fec_port_next(&it.port, &lent) == of_ports);
            CHECK(cpay_fec_port_counts(&it.port, &counts) == of_ports && cpay_fec_port_stream_counts(&it.port, SSRC, &counts) == of_ports);
        }
        if (kind != 1) {
            CHECK(cpay_fec_sender_push(&it.sender, packet, 13, &lent, &ends) == of_senders);
            CHECK(cpay_fec_sender_finish_frame(&it.sender, true, &size) == of_senders);
            CHECK(cpay_fec_sender_packet(&it.sender, 0, &byte, 1, &size) == of_senders);
        }
        CHECK(lent.at == packet && lent.bytes == 7 && byte == UNTOUCHED && size == 5 && ends && counts.media == 5);
        if (kind) cpay_fec_port_free(&it.port);
    }
}

/* ---- A sender ---- */

/* Passes a packet to a sender, and returns what it lends. */
static cpay_lent_packet pushed(cpay_fec_sender *sender, const uint8_t *packet, size_t size, bool ends) {
    cpay_lent_packet lent = {NULL, 0};
    bool ended = !ends;
    CHECK(cpay_fec_sender_push(sender, packet, size, &lent, &ended) == CPAY_OK && ended == ends);
    return lent;
}

static size_t finished(cpay_fec_sender *sender, bool keyframe) {
    size_t count = 99;
    CHECK(cpay_fec_sender_finish_frame(sender, keyframe, &count) == CPAY_OK);
    return count;
}

/* A frame of two packets: 85/256 of 2 is one packet of FEC. It is the exclusive or of both (RFC 5109, section 8.1), and the numbers wrap. */
static void a_frame(void) {
    const uint8_t first[14] = {0x80, VP8, 0, 1, 0, 0, 0, 9, 0, 0, 0, SSRC, 'a', 'b'};
    const uint8_t second[13] = {0x80, 0x80 | VP8, 0, 2, 0, 0, 0, 9, 0, 0, 0, SSRC, 'c'};
    const uint8_t first_sent[15] = {0x80, RED, 0xff, 0xff, 0, 0, 0, 9, 0, 0, 0, SSRC, VP8, 'a', 'b'};
    const uint8_t second_sent[14] = {0x80, 0x80 | RED, 0, 0, 0, 0, 0, 9, 0, 0, 0, SSRC, VP8, 'c'};
    const uint8_t fec[29] = {0x80, RED, 0, 1, 0, 0, 0, 9, 0, 0, 0, SSRC, ULPFEC, 0, 0x80, 0xff, 0xff, 0, 0, 0, 0, 0, 2 ^ 1,
                             0, 2, 0xc0, 0, 'a' ^ 'c', 'b'};
    const cpay_fec_sender_settings settings = sender_settings();
    cpay_fec_sender sender = CPAY_INIT;
    uint8_t bytes[40];
    size_t size = 99;
    CHECK(cpay_fec_sender_new(&sender, &settings) == CPAY_OK && cpay_fec_sender_packet(&sender, 0, bytes, 40, &size) == CPAY_NONE);
    CHECK(is_packet(pushed(&sender, first, 14, false), first_sent, 15));
    CHECK(is_packet(pushed(&sender, second, 13, true), second_sent, 14));
    CHECK(finished(&sender, false) == 1 && cpay_fec_sender_packet(&sender, 1, bytes, 40, &size) == CPAY_NONE && size == 99);
    memset(bytes, UNTOUCHED, sizeof bytes);
    CHECK(cpay_fec_sender_packet(&sender, 0, bytes, 28, &size) == CPAY_TOO_SMALL && size == 29 && bytes[0] == UNTOUCHED);
    for (int again = 0; again < 2; again++) {
        CHECK(cpay_fec_sender_packet(&sender, 0, bytes, 40, &size) == CPAY_OK && size == 29 && !memcmp(bytes, fec, 29));
        CHECK(bytes[29] == UNTOUCHED);
    }
    /* the next packet has the number after the FEC; padding is sent without RED, and not protected */
    const uint8_t padding[13] = {0xa0, VP8, 0, 3, 0, 0, 0, 9, 0, 0, 0, SSRC, 1};
    const uint8_t padding_sent[13] = {0xa0, VP8, 0, 2, 0, 0, 0, 9, 0, 0, 0, SSRC, 1};
    CHECK(is_packet(pushed(&sender, padding, 13, false), padding_sent, 13) && finished(&sender, true) == 0);
    CHECK(cpay_fec_sender_packet(&sender, 0, bytes, 40, &size) == CPAY_NONE);
    cpay_fec_sender_free(&sender);
}

/* Packets that are refused use no number, and change nothing that the caller has. */
static void refused_packets(void) {
    static uint8_t large[65548] = {0x80, VP8, 0, 9, 0, 0, 0, 9, 0, 0, 0, SSRC};
    uint8_t packet[13] = {0x80, 0x80 | VP8, 0, 1, 0, 0, 0, 9, 0, 0, 0, SSRC, 'a'};
    const cpay_fec_sender_settings settings = sender_settings();
    cpay_fec_sender sender = CPAY_INIT;
    cpay_lent_packet lent = {packet, 77};
    bool ends = false;
    CHECK(cpay_fec_sender_new(&sender, &settings) == CPAY_OK);
    CHECK(cpay_fec_sender_push(&sender, large, sizeof large, &lent, &ends) == CPAY_FEC_PACKET_TOO_LARGE);
    CHECK(cpay_fec_sender_push(&sender, packet, 11, &lent, &ends) == CPAY_RTP_HEADER_TOO_SHORT);
    CHECK(cpay_fec_sender_push(&sender, NULL, 0, &lent, &ends) == CPAY_RTP_HEADER_TOO_SHORT);
    CHECK(cpay_fec_sender_push(&sender, NULL, 1, &lent, &ends) == CPAY_INVALID);
    packet[0] = 0x40;
    CHECK(cpay_fec_sender_push(&sender, packet, 13, &lent, &ends) == CPAY_RTP_VERSION);
    packet[0] = 0xa0, packet[12] = 2;
    CHECK(cpay_fec_sender_push(&sender, packet, 13, &lent, &ends) == CPAY_RTP_PADDING_TOO_LONG);
    packet[0] = 0x80, packet[11] = SSRC + 1;
    CHECK(cpay_fec_sender_push(&sender, packet, 13, &lent, &ends) == CPAY_FEC_OTHER_STREAM);
    packet[11] = SSRC, packet[1] = 0x80 | ULPFEC;
    CHECK(cpay_fec_sender_push(&sender, packet, 13, &lent, &ends) == CPAY_FEC_PACKET_TYPE);
    packet[1] = 0x80 | VP8;
    CHECK(lent.at == packet && lent.bytes == 77 && !ends);
    /* number 1 is not sent; then FEC is made 64 times, and once more */
    for (uint8_t frame = 0; frame < 65; frame++) {
        packet[3] = (uint8_t)(2 + frame);
        const cpay_lent_packet sent = pushed(&sender, packet, 13, true);
        const uint16_t number = (uint16_t)(65535 + 2 * frame);
        CHECK(sent.at[2] == number >> 8 && sent.at[3] == (uint8_t)number && finished(&sender, false) == 1);
    }
    packet[3] = 2;
    CHECK(cpay_fec_sender_push(&sender, packet, 13, &lent, &ends) == CPAY_FEC_TOO_OLD && lent.at == packet);
    packet[3] = 3; /* the number that it got before */
    CHECK(pushed(&sender, packet, 13, false).at[3] == 1);
    cpay_fec_sender_free(&sender);
}

/* The share of protection: 256ths of the packets, rounded, and at least one if it is not 0. */
static void shares(void) {
    static const struct {
        uint8_t protection, keyframe_protection;
        bool keyframe;
        size_t count;
    } rows[] = {{0, 0, true, 0}, {0, 1, false, 0}, {0, 1, true, 1}, {128, 0, false, 5}, {255, 0, false, 10}, {255, 0, true, 0}, {76, 9, false, 3}};
    const cpay_fec_sender_settings settings = sender_settings();
    cpay_fec_sender sender = CPAY_INIT;
    uint8_t packet[13] = {0x80, VP8, 0, 0, 0, 0, 0, 9, 0, 0, 0, SSRC, 1};
    CHECK(cpay_fec_sender_new(&sender, &settings) == CPAY_OK);
    for (size_t row = 0; row < sizeof rows / sizeof *rows; row++) {
        CHECK(cpay_fec_sender_protect(&sender, rows[row].protection, rows[row].keyframe_protection) == CPAY_OK);
        for (int i = 0; i < 10; i++, packet[3]++) (void)pushed(&sender, packet, 13, false);
        CHECK(finished(&sender, rows[row].keyframe) == rows[row].count);
    }
    cpay_fec_sender_free(&sender);
}

/* ---- A call ---- */

enum { FRAMES = 300, FRAME = 3100, MTU = 1000 };

/* The bytes of a frame of VP8 (RFC 6386, section 9.1): the first one is a keyframe. */
static void frame_of(uint8_t *frame, unsigned i) {
    const uint8_t keyframe[10] = {0x10, 0, 0, 0x9d, 0x01, 0x2a, 0x10, 0, 0x10, 0};
    const uint8_t other[3] = {0x11, 0, 0};
    for (size_t k = 0; k < FRAME; k++) frame[k] = (uint8_t)(k * 7 + i * 31);
    if (i == 0) memcpy(frame, keyframe, sizeof keyframe);
    else memcpy(frame, other, sizeof other);
}

/* A sender, the FEC behind it, a network that loses one packet of each frame, a port with FEC, and a session behind it. */
typedef struct {
    cpay_sender media;
    cpay_fec_sender fec;
    cpay_fec_port port;
    cpay_session session;
    uint64_t now;
    unsigned frame, place, lost; /* of the frame: the number of the next packet, and of the one that is lost */
    unsigned units, rebuilt, requests;
} call;

static void receives(call *it, const uint8_t *packet, size_t size) {
    cpay_arrival arrival = {0};
    CHECK(cpay_session_receive(&it->session, it->now, packet, size, &arrival) == CPAY_OK && arrival.status == CPAY_OK);
    CHECK(arrival.kind == CPAY_ARRIVAL_STREAM && arrival.outcome != CPAY_LATE && arrival.outcome != CPAY_DUPLICATE);
}

/* A packet on its way. */
static void travels(call *it, const uint8_t *packet, size_t size) {
    cpay_lent_packet passed;
    if (it->place++ == it->lost) return;
    passed = passes(&it->port, packet, size);
    receives(it, passed.at, passed.bytes);
    while (cpay_fec_port_next(&it->port, &passed) == CPAY_OK) {
        receives(it, passed.at, passed.bytes);
        it->rebuilt++;
    }
}

/* Sends a frame of four packets, and one packet of FEC behind it. */
static void sends(call *it, const uint8_t *frame) {
    uint8_t datagram[MOST];
    size_t count = 0, size = 0, behind = 0;
    it->place = 0;
    CHECK(cpay_sender_send(&it->media, 3000 * it->frame, false, frame, FRAME, &count) == CPAY_OK && count == 4);
    for (size_t i = 0; i < count; i++) {
        CHECK(cpay_sender_datagram(&it->media, i, datagram, sizeof datagram, &size) == CPAY_OK);
        const cpay_lent_packet sent = pushed(&it->fec, datagram, size, i + 1 == count);
        travels(it, sent.at, sent.bytes);
    }
    CHECK(cpay_fec_sender_finish_frame(&it->fec, it->frame == 0, &behind) == CPAY_OK && behind == (it->frame == 0 ? 2 : 1));
    for (size_t i = 0; i < behind; i++) {
        CHECK(cpay_fec_sender_packet(&it->fec, i, datagram, sizeof datagram, &size) == CPAY_OK);
        travels(it, datagram, size);
    }
}

/* Polls: each unit is the next frame, byte for byte. */
static void polls(call *it) {
    uint8_t wanted[FRAME];
    cpay_event event = {.kind = 99};
    while (cpay_session_poll(&it->session, it->now, &event) == CPAY_OK) {
        if (event.kind == CPAY_EVENT_FEEDBACK) it->requests++;
        if (event.kind != CPAY_EVENT_UNIT) continue;
        frame_of(wanted, it->units++);
        CHECK(event.bytes == FRAME && !memcmp(event.data, wanted, FRAME) && event.unit.decodable);
    }
}

static void begins(call *it) {
    const cpay_spec spec = {.codec = CPAY_VP8, .rate = 90000, .vp8_ids = true, .first_id = 32760};
    const cpay_sender_settings media = {.spec = spec, .mtu = MTU, .ssrc = SSRC, .payload_type = VP8, .first_number = 65000};
    const cpay_session_format format = {.spec = {.codec = CPAY_VP8, .rate = 90000}, .payload_type = VP8, .nack = true, .pli = true};
    const uint8_t no_media[1] = {ULPFEC};
    const cpay_fec_sender_settings fec = sender_settings();
    cpay_session_settings settings;
    cpay_session_settings_init(&settings, CPAY_FOR_LIVE_WITH_NACK);
    CHECK(cpay_session_settings_feedback(&settings, 1, (const uint8_t *)"me", 2) == CPAY_OK);
    settings.feedback.has_report_interval = false;
    settings.video.start = 0;
    CHECK(cpay_sender_new(&it->media, &media) == CPAY_OK && cpay_fec_sender_new(&it->fec, &fec) == CPAY_OK);
    CHECK(cpay_session_new(&it->session, &settings, &format, 1, no_media, 1, NULL, 0) == CPAY_OK);
    it->port = new_port();
}

/* Of each frame one packet is lost, in turn each of the media and the FEC. No frame waits, and nothing is requested: of media each lost
 * packet is rebuilt, and the numbers of FEC carry no media. */
static void a_call(void) {
    call it = {.media = CPAY_INIT, .fec = CPAY_INIT, .session = CPAY_INIT};
    static uint8_t frame[FRAME];
    unsigned lost_media = 0;
    begins(&it);
    for (it.frame = 0; it.frame < FRAMES; it.frame++, it.now += 33) {
        it.lost = it.frame == 0 ? 99 : it.frame % 5; /* the fifth packet of a frame is its FEC */
        lost_media += it.lost < 4;
        frame_of(frame, it.frame);
        sends(&it, frame);
        polls(&it);
        CHECK(it.units == it.frame + 1);
    }
    CHECK(it.rebuilt == lost_media && lost_media == 239 && it.requests == 0);
    cpay_fec_counts_info counts = {0}, of_stream = {0};
    CHECK(cpay_fec_port_counts(&it.port, &counts) == CPAY_OK && cpay_fec_port_stream_counts(&it.port, SSRC, &of_stream) == CPAY_OK);
    CHECK(counts.media == 4 * FRAMES - lost_media && counts.fec == FRAMES + 1 - 60 && counts.rebuilt == lost_media);
    CHECK(!memcmp(&counts, &of_stream, sizeof counts));
    cpay_sender_free(&it.media);
    cpay_fec_sender_free(&it.fec);
    cpay_fec_port_free(&it.port);
    cpay_session_free(&it.session);
}

/* ---- Streams ---- */

/* A packet of media, or with `kind` ULPFEC the FEC over packets 1 and 2 of a stream, in RED. */
static size_t in_red(uint8_t *out, uint8_t ssrc, uint8_t number, uint8_t kind) {
    const uint8_t head[13] = {0x80, RED, 0, number, 0, 0, 0, 9, 0, 0, 0, ssrc, kind};
    const uint8_t fec[17] = {0, 0, 0, 1, 0, 0, 0, 0, 0, 0, 0, 1, 0xc0, 0, 1 ^ 2};
    memcpy(out, head, sizeof head);
    if (kind == ULPFEC) memcpy(out + 13, fec, 15);
    else out[13] = number;
    return kind == ULPFEC ? 28 : 14;
}

static void takes(cpay_fec_port *port, uint8_t ssrc, uint8_t number, uint8_t kind) {
    uint8_t bytes[40];
    (void)passes(port, bytes, in_red(bytes, ssrc, number, kind));
}

/* Packet 2 of a stream is rebuilt from packet 1 and its FEC, unless the stream restarted or ended in between. */
static void streams(void) {
    cpay_fec_port port = new_port();
    for (uint8_t ssrc = 1; ssrc < 4; ssrc++) {
        takes(&port, ssrc, 1, VP8);
        if (ssrc == 2) CHECK(cpay_fec_port_restart(&port, ssrc) == CPAY_OK);
        if (ssrc == 3) CHECK(cpay_fec_port_end(&port, ssrc) == CPAY_OK);
        takes(&port, ssrc, 3, ULPFEC);
        cpay_lent_packet packet = {NULL, 0};
        if (ssrc == 1) {
            const uint8_t second[13] = {0x80, VP8, 0, 2, 0, 0, 0, 9, 0, 0, 0, 1, 2};
            CHECK(cpay_fec_port_next(&port, &packet) == CPAY_OK && is_packet(packet, second, 13));
            /* it is lent while the port has no other one, and takes others */
            takes(&port, 9, 1, VP8);
            CHECK(has_none(&port) && is_packet(packet, second, 13));
        }
        CHECK(has_none(&port));
        cpay_fec_counts_info counts = {0};
        CHECK(cpay_fec_port_stream_counts(&port, ssrc, &counts) == CPAY_OK && counts.fec == 1 && counts.rebuilt == (ssrc == 1));
        CHECK(counts.media == (ssrc == 3 ? 0u : 1u));
    }
    CHECK(cpay_fec_port_end(&port, 77) == CPAY_OK && cpay_fec_port_restart(&port, 77) == CPAY_OK);
    cpay_fec_counts_info counts = {0};
    CHECK(cpay_fec_port_counts(&port, &counts) == CPAY_OK && counts.media == 4 && counts.fec == 3 && counts.rebuilt == 1);
    cpay_fec_port_free(&port);
}

/* ---- Chromium ---- */

enum { CALL = 31, CHROMIUM_RED = 118, CHROMIUM_ULPFEC = 120 };

typedef struct {
    uint8_t bytes[MOST];
    size_t size;
} datagram;

static datagram of_call[CALL];

static void read_call(void) {
#ifdef _WIN32
    _setmode(_fileno(stdin), _O_BINARY);
#endif
    for (size_t i = 0; i < CALL; i++) {
        int high = getchar(), low = getchar();
        of_call[i].size = high < 0 || low < 0 ? 0 : (size_t)(256 * high + low);
        CHECK(of_call[i].size > 20 && of_call[i].size <= MOST);
        if (of_call[i].size > MOST) exit(EXIT_FAILURE);
        CHECK(fread(of_call[i].bytes, 1, of_call[i].size, stdin) == of_call[i].size);
    }
    CHECK(getchar() == EOF);
}

static size_t block_of(const datagram *it) { return 16 + 4 * (size_t)(256 * it->bytes[14] + it->bytes[15]); }

static bool is_fec(const datagram *it) { return it->bytes[block_of(it)] == CHROMIUM_ULPFEC; }

/* The packet before RED, with padding in the place of the elements of its extension that Chromium fills in late. */
static datagram before_red(const datagram *it) {
    datagram out = *it;
    const size_t block = block_of(it);
    for (size_t at = 16; at < block;) {
        const uint8_t id = out.bytes[at] >> 4;
        const size_t size = out.bytes[at] == 0 ? 1 : (out.bytes[at] & 15u) + 2u;
        if (id == 1 || id == 2 || id == 4 || id == 7) memset(out.bytes + at, 0, size);
        at += size;
    }
    out.bytes[1] = (uint8_t)((out.bytes[1] & 0x80) | out.bytes[block]);
    memmove(out.bytes + block, out.bytes + block + 1, it->size - block - 1);
    out.size--;
    return out;
}

/* Whether the port rebuilds the packet that is lost, and nothing else. */
static bool is_rebuilt(size_t lost) {
    const datagram wanted = before_red(&of_call[lost]);
    cpay_fec_port port = CPAY_INIT;
    cpay_fec_port_settings settings;
    cpay_lent_packet packet = {NULL, 0};
    unsigned found = 0;
    cpay_fec_port_settings_init(&settings);
    settings.red_type = CHROMIUM_RED, settings.fec_type = CHROMIUM_ULPFEC;
    settings.transport_number = 4, settings.abs_send_time = 2, settings.transmission_offset = 1, settings.video_timing = 7;
    CHECK(cpay_fec_port_new(&port, &settings, NULL, 0) == CPAY_OK);
    for (size_t i = 0; i < CALL; i++) {
        if (i == lost) continue;
        (void)passes(&port, of_call[i].bytes, of_call[i].size);
        while (cpay_fec_port_next(&port, &packet) == CPAY_OK) {
            CHECK(is_packet(packet, wanted.bytes, wanted.size));
            found++;
        }
    }
    cpay_fec_port_free(&port);
    return found == 1;
}

static void of_chromium(void) {
    unsigned media = 0, rebuilt = 0;
    read_call();
    for (size_t i = 0; i < CALL; i++) {
        if (is_fec(&of_call[i])) continue;
        media++;
        rebuilt += is_rebuilt(i);
    }
    CHECK(media == 20 && rebuilt == 20);
}

int main(int count, char **words) {
    if (count > 1 && !strcmp(words[1], "chromium")) {
        of_chromium();
        return checked();
    }
    what_passes();
    what_stays();
    settings_of_ports();
    settings_of_senders();
    handles();
    a_frame();
    refused_packets();
    shares();
    a_call();
    streams();
    return checked();
}

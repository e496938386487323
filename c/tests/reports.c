/* Extended reports (RFC 3611), congestion control feedback (RFC 8888) and forward error correction (RFC 5109). The bytes were written by
 * hand after the figures of the RFCs; the packet of FEC is that of RFC 5109, section 10.1. */
#include "check.h"
#include "codec_payload.h"

enum { UNTOUCHED = 0xaa };

static bool untouched(const uint8_t *bytes, size_t from, size_t size) {
    for (size_t i = from; i < size; i++)
        if (bytes[i] != UNTOUCHED) return false;
    return true;
}

/* A receiver with SSRC 5 whose clock has a tick each microsecond, and the sender of its media with SSRC 6. 1.5 s are 0x18000 units of
 * 1/65536 s. The receiver reports at 1.5 s; the sender takes it at 10 s and reports at 10.25 s; the answer comes at 2 s: a round trip of
 * 0.25 s. */
static void round_trip(void) {
    static const uint8_t asks[20] = {0x80, 207, 0, 4, 0, 0, 0, 5, 4, 0, 0, 2, 0, 0, 0, 1, 0x80, 0, 0, 0};
    static const uint8_t own[20] = {0x80, 207, 0, 4, 0, 0, 0, 6, 4, 0, 0, 2, 0, 0, 0, 10, 0x40, 0, 0, 0};
    static const uint8_t answers[24] = {0x80, 207, 0, 5, 0, 0, 0, 6, 5, 0, 0, 3, 0, 0, 0, 5, 0, 1, 0x80, 0, 0, 0, 0x40, 0};
    static const uint8_t empty[8] = {0x80, 201, 0, 1, 0, 0, 0, 6};
    cpay_xr_exchange receiver = {0}, sender = {0}, unused = {0};
    uint8_t bytes[64];
    bool answered = true;
    size_t size = 99;
    memset(bytes, UNTOUCHED, sizeof bytes);
    CHECK(cpay_xr_write(&receiver, 5, 1000000, 1500000, bytes, 19, &size) == CPAY_TOO_SMALL && size == 20 && untouched(bytes, 0, 64));
    CHECK(cpay_xr_write(&receiver, 5, 1000000, 1500000, bytes, sizeof bytes, &size) == CPAY_OK && size == 20);
    CHECK(!memcmp(bytes, asks, 20) && untouched(bytes, 20, 64) && !cpay_xr_sent(&receiver));
    CHECK(cpay_xr_receive(&sender, 6, 1000000, 10000000, bytes, 20, false, &answered) == CPAY_OK && !answered);
    CHECK(sender.has_peer && sender.peer_ssrc == 5 && sender.peer_last_rr == 0x18000 && sender.peer_arrived == 0xa0000);
    CHECK(cpay_xr_write(&sender, 6, 1000000, 10250000, bytes, sizeof bytes, &size) == CPAY_OK && size == 44);
    CHECK(!memcmp(bytes, own, 20) && !memcmp(bytes + 20, answers, 24) && untouched(bytes, 44, 64));
    CHECK(!cpay_xr_sent(&sender) && !sender.has_peer && sender.peer_ssrc == 0 && sender.peer_arrived == 0);
    answered = false;
    CHECK(cpay_xr_receive(&receiver, 5, 1000000, 2000000, bytes, 44, false, &answered) == CPAY_OK && answered);
    CHECK(receiver.has_round_trip && receiver.round_trip == 250000 && receiver.unanswered == 0 && receiver.peer_ssrc == 6);
    /* another SSRC is not answered */
    CHECK(cpay_xr_receive(&unused, 7, 1000000, 2000000, bytes, 44, false, &answered) == CPAY_OK && !answered && !unused.has_round_trip);
    /* three reports may have no answer */
    for (int i = 1; i <= 3; i++) CHECK(!cpay_xr_sent(&receiver) && receiver.unanswered == i && receiver.has_round_trip);
    CHECK(cpay_xr_sent(&receiver) && !receiver.has_round_trip && receiver.round_trip == 0 && receiver.unanswered == 0);
    /* faults change nothing */
    sender.round_trip = 77;
    CHECK(cpay_xr_receive(&sender, 6, 0, 0, bytes, 20, false, &answered) == CPAY_INVALID);
    CHECK(cpay_xr_receive(&sender, 6, 1, 0, bytes, 20, true, &answered) == CPAY_RTCP_FIRST_NOT_REPORT);
    CHECK(cpay_xr_receive(&sender, 6, 1, 0, bytes, 19, false, &answered) == CPAY_RTCP_PACKET_TOO_SHORT);
    CHECK(cpay_xr_receive(&sender, 6, 1, 0, NULL, 0, false, &answered) == CPAY_RTCP_HEADER_TOO_SHORT);
    CHECK(cpay_xr_receive(&sender, 6, 1, 0, NULL, 1, false, &answered) == CPAY_INVALID && !answered && sender.round_trip == 77);
    CHECK(cpay_xr_write(&sender, 6, 0, 0, bytes, sizeof bytes, &size) == CPAY_INVALID && size == 44);
    CHECK(cpay_xr_receive(&sender, 6, 1000, 0, empty, sizeof empty, true, &answered) == CPAY_OK && !answered && !sender.has_peer);
}

/* Type 205, format 11. Stream 2 begins at number 65535 with three packets: ECT(0) with an offset of 1, one that did not arrive, and CE
 * with the largest offset; two bytes fill the block. Stream 3 reports nothing. Stream 4 reports on two packets, one over range and one
 * unavailable. */
static const uint8_t FEEDBACK[48] = {0x8b, 205, 0, 11, 0, 0, 0, 1, 0, 0, 0, 2, 0xff, 0xff, 0, 3, 0xc0, 1, 0, 0, 0xff, 0xfd, 0, 0,
                                     0, 0, 0, 3, 0x12, 0x34, 0, 0, 0, 0, 0, 4, 0, 9, 0, 2, 0x9f, 0xfe, 0x9f, 0xff, 0x89, 0xab, 0xcd, 0xef};

static bool is(const cpay_ccfb_packet *packet, bool arrived, uint8_t ecn, uint16_t offset) {
    return packet->arrived == arrived && packet->ecn == ecn && packet->offset == offset;
}

static void feedback(void) {
    cpay_ccfb_info info = {0};
    cpay_ccfb_packet packets[4] = {{0}};
    packets[3].offset = 77;
    CHECK(cpay_ccfb_read(FEEDBACK, 48, false, 0, 0, &info, packets, 4) == CPAY_OK && info.count == 3 && info.sender_ssrc == 1);
    CHECK(info.ssrc == 2 && info.first == 65535 && info.timestamp == 0x89abcdef && packets[3].offset == 77);
    CHECK(is(&packets[0], true, 2, 1) && is(&packets[1], false, 0, 0) && is(&packets[2], true, 3, 8189));
    CHECK(cpay_ccfb_read(FEEDBACK, 48, false, 0, 1, &info, NULL, 0) == CPAY_OK && info.count == 0 && info.ssrc == 3 && info.first == 0x1234);
    info.count = 99;
    CHECK(cpay_ccfb_read(FEEDBACK, 48, false, 0, 2, &info, packets, 1) == CPAY_TOO_SMALL && info.count == 2 && info.ssrc == 4);
    CHECK(is(&packets[0], true, 2, 1) && cpay_ccfb_read(FEEDBACK, 48, false, 0, 2, &info, packets, 2) == CPAY_OK);
    CHECK(is(&packets[0], true, 0, 8190) && is(&packets[1], true, 0, 8191) && info.first == 9);
    info.count = 99;
    CHECK(cpay_ccfb_read(FEEDBACK, 48, false, 0, 3, &info, packets, 4) == CPAY_NONE);
    CHECK(cpay_ccfb_read(FEEDBACK, 48, false, 1, 0, &info, packets, 4) == CPAY_NONE);
    CHECK(cpay_ccfb_read(FEEDBACK, 48, true, 0, 0, &info, packets, 4) == CPAY_RTCP_FIRST_NOT_REPORT);
    CHECK(cpay_ccfb_read(FEEDBACK, 47, false, 0, 0, &info, packets, 4) == CPAY_RTCP_PACKET_TOO_SHORT);
    CHECK(cpay_ccfb_read(NULL, 1, false, 0, 0, &info, packets, 4) == CPAY_INVALID && cpay_ccfb_read(FEEDBACK, 48, false, 0, 0, &info, NULL, 4) == CPAY_INVALID);
    /* the second of two; and what the RFC says to ignore */
    uint8_t two[96];
    memcpy(two, FEEDBACK, 48);
    memcpy(two + 48, FEEDBACK, 48);
    two[66] = 0x7f;
    two[67] = 0xff;
    CHECK(cpay_ccfb_read(two, 96, false, 1, 0, &info, packets, 4) == CPAY_OK && info.count == 3 && is(&packets[1], false, 0, 0));
    /* the faults: no time of the report, 4 bytes of a block, more packets than 16384, and packets that are not there */
    uint8_t bytes[16] = {0x8b, 205, 0, 1, 0, 0, 0, 1};
    CHECK(cpay_ccfb_read(bytes, 8, false, 0, 0, &info, packets, 4) == CPAY_CCFB_TOO_SHORT);
    bytes[3] = 3;
    CHECK(cpay_ccfb_read(bytes, 16, false, 0, 0, &info, packets, 4) == CPAY_CCFB_BLOCK_TOO_SHORT);
    memcpy(two, FEEDBACK, 48);
    two[14] = 0x40;
    two[15] = 1;
    CHECK(cpay_ccfb_read(two, 48, false, 0, 0, &info, packets, 4) == CPAY_CCFB_TOO_MANY);
    two[15] = 0;
    CHECK(cpay_ccfb_read(two, 48, false, 0, 0, &info, packets, 4) == CPAY_CCFB_METRICS_TOO_SHORT && info.count == 3);
}

static void feedback_written(void) {
    /* an odd number of packets: two bytes fill the block */
    static const uint8_t wanted[28] = {0x8b, 205, 0, 6, 0, 0, 0, 1, 0, 0, 0, 2, 0xff, 0xff, 0, 3, 0xc0, 1, 0, 0, 0xff, 0xfd, 0, 0, 0x89, 0xab, 0xcd, 0xef};
    static cpay_ccfb_packet many[16385];
    static uint8_t bytes[40000];
    cpay_ccfb_packet packets[3] = {{.offset = 1, .ecn = 2, .arrived = true}, {.offset = 9, .ecn = 9}, {.offset = 8189, .ecn = 3, .arrived = true}};
    cpay_ccfb_info info = {.count = 77, .sender_ssrc = 1, .ssrc = 2, .timestamp = 0x89abcdef, .first = 65535};
    size_t size = 99;
    memset(bytes, UNTOUCHED, 64);
    CHECK(cpay_ccfb_write(&info, packets, 3, bytes, 27, &size) == CPAY_TOO_SMALL && size == 28 && untouched(bytes, 0, 64));
    CHECK(cpay_ccfb_write(&info, packets, 3, bytes, 64, &size) == CPAY_OK && size == 28 && !memcmp(bytes, wanted, 28) && untouched(bytes, 28, 64));
    CHECK(cpay_ccfb_write(&info, NULL, 0, bytes, 64, &size) == CPAY_OK && size == 20);
    size = 99;
    packets[0].ecn = 4;
    CHECK(cpay_ccfb_write(&info, packets, 3, bytes, 64, &size) == CPAY_INVALID);
    packets[0].ecn = 3;
    packets[0].offset = 8192;
    CHECK(cpay_ccfb_write(&info, packets, 3, bytes, 64, &size) == CPAY_INVALID);
    CHECK(cpay_ccfb_write(&info, many, 16385, bytes, sizeof bytes, &size) == CPAY_INVALID && size == 99);
    CHECK(cpay_ccfb_write(&info, NULL, 1, bytes, 64, &size) == CPAY_INVALID && size == 99);
    CHECK(cpay_ccfb_write(&info, many, 16384, bytes, sizeof bytes, &size) == CPAY_OK && size == 20 + 2 * 16384);
    /* a second is 1,024 units; up to a quarter of a millisecond is nothing */
    CHECK(cpay_ccfb_offset(1000000, 1000000) == 0 && cpay_ccfb_offset(2000000, 1000000) == 1024 && cpay_ccfb_offset(1000249, 1000000) == 0);
    CHECK(cpay_ccfb_offset(1000000, 1000250) == 8191 && cpay_ccfb_offset(8997070 + 1000000, 1000000) == 8190);
    CHECK(cpay_ccfb_offset(7997250 + 1000000, 1000000) == 8189 && cpay_ccfb_offset(UINT64_MAX, 0) != 0);
}

/* Packets A to D of the example: their headers as it has them, and any bytes as payloads, which it does not give. */
static size_t example(uint8_t *packet, int which) {
    static const struct {
        uint8_t second, number, time;
        size_t payload;
    } of[4] = {{0x80 | 11, 8, 3, 200}, {18, 9, 5, 140}, {0x80 | 11, 10, 7, 100}, {18, 11, 9, 340}};
    const uint8_t header[12] = {0x80, of[which].second, 0, of[which].number, 0, 0, 0, of[which].time, 0, 0, 0, 2};
    memcpy(packet, header, 12);
    for (size_t i = 0; i < of[which].payload; i++) packet[12 + i] = (uint8_t)(17 * (size_t)which + 31 * i + i / 7);
    return 12 + of[which].payload;
}

/* The packet of FEC: recovery fields 0, SN base 8, TS recovery 8, length recovery 372, protection length 340, mask 61440; the payload is
 * the exclusive or of the payloads. */
static size_t example_fec(uint8_t *fec) {
    static const uint8_t head[14] = {0, 0, 0, 8, 0, 0, 0, 8, 0x01, 0x74, 0x01, 0x54, 0xf0, 0};
    uint8_t packet[400];
    memcpy(fec, head, 14);
    memset(fec + 14, 0, 340);
    for (int which = 0; which < 4; which++) {
        size_t size = example(packet, which);
        for (size_t i = 12; i < size; i++) fec[2 + i] ^= packet[i];
    }
    return 354;
}

static void rebuilds(void) {
    uint8_t fec[400], packet[400], bytes[400];
    size_t fec_size = example_fec(fec), size = 99;
    cpay_fec_info info = {0};
    CHECK(cpay_fec_read(fec, fec_size, &info) == CPAY_OK && info.base == 8 && info.mask == 0xf00000000000 && info.bytes == 340);
    for (int lost = 0; lost < 4; lost++) {
        cpay_packet_store store = CPAY_INIT;
        CHECK(cpay_packet_store_new(&store, 512 * 400) == CPAY_OK);
        for (int which = 0; which < 4; which++) {
            if (which == lost) continue;
            /* with two of them missing nothing is rebuilt */
            size = 99;
            CHECK(cpay_packet_store_rebuild(&store, 2, fec, fec_size, bytes, sizeof bytes, &size) == CPAY_NONE && size == 99);
            CHECK(cpay_packet_store_keep(&store, packet, example(packet, which)) == CPAY_OK);
        }
        size_t wanted = example(packet, lost);
        memset(bytes, UNTOUCHED, sizeof bytes);
        CHECK(cpay_packet_store_rebuild(&store, 2, fec, fec_size, bytes, wanted - 1, &size) == CPAY_TOO_SMALL && size == wanted);
        CHECK(untouched(bytes, 0, sizeof bytes));
        CHECK(cpay_packet_store_rebuild(&store, 2, fec, fec_size, bytes, sizeof bytes, &size) == CPAY_OK && size == wanted);
        CHECK(!memcmp(bytes, packet, wanted) && untouched(bytes, wanted, sizeof bytes));
        CHECK(cpay_packet_store_keep(&store, bytes, size) == CPAY_OK);
        CHECK(cpay_packet_store_rebuild(&store, 2, fec, fec_size, bytes, sizeof bytes, &size) == CPAY_NONE);
        cpay_packet_store_free(&store);
    }
    /* a packet above the 512th part of the memory is not kept */
    cpay_packet_store store = CPAY_INIT;
    CHECK(cpay_packet_store_new(&store, 512 * 300) == CPAY_OK && cpay_packet_store_new(&store, 1) == CPAY_FULL);
    for (int which = 1; which < 4; which++) CHECK(cpay_packet_store_keep(&store, packet, example(packet, which)) == CPAY_OK);
    CHECK(cpay_packet_store_rebuild(&store, 2, fec, fec_size, bytes, sizeof bytes, &size) == CPAY_NONE);
    cpay_packet_store_free(&store);
}

static void fec_faults(void) {
    uint8_t fec[400];
    size_t size = example_fec(fec);
    cpay_fec_info info = {.base = 77};
    cpay_packet_store store = CPAY_INIT;
    uint8_t byte = UNTOUCHED;
    CHECK(cpay_packet_store_new(&store, 0) == CPAY_OK);
    CHECK(cpay_fec_read(fec, 9, &info) == CPAY_FEC_HEADER_TOO_SHORT && cpay_fec_read(NULL, 0, &info) == CPAY_FEC_HEADER_TOO_SHORT);
    CHECK(cpay_fec_read(NULL, 1, &info) == CPAY_INVALID && cpay_fec_read(fec, 13, &info) == CPAY_FEC_LEVEL_TOO_SHORT);
    CHECK(cpay_fec_read(fec, size - 1, &info) == CPAY_FEC_PAYLOAD_TOO_SHORT);
    CHECK(cpay_packet_store_rebuild(&store, 2, fec, size - 1, &byte, 1, &size) == CPAY_FEC_PAYLOAD_TOO_SHORT && byte == UNTOUCHED);
    fec[12] = 0;
    CHECK(cpay_fec_read(fec, 354, &info) == CPAY_FEC_EMPTY_MASK);
    fec[12] = 0xf0;
    fec[0] = 64; /* a mask of 48 bits: its last four bytes are the first ones of the payload */
    CHECK(cpay_fec_read(fec, 17, &info) == CPAY_FEC_LEVEL_TOO_SHORT && info.base == 77);
    fec[14] = 0;
    fec[15] = fec[16] = 0;
    fec[17] = 1;
    fec[11] = 0;
    fec[10] = 0;
    CHECK(cpay_fec_read(fec, 354, &info) == CPAY_OK && info.mask == 0xf00000000001 && info.bytes == 0 && info.base == 8);
    fec[0] = 128;
    CHECK(cpay_fec_read(fec, 354, &info) == CPAY_FEC_EXTENDED);
    cpay_packet_store_free(&store);
    cpay_packet_store_free(NULL);
}

/* The example over the wire: packets in RED or without it, FEC in RED, one packet is lost. Its transport-wide number is filled in late. */
static size_t in_red(uint8_t *datagram, const uint8_t *packet, size_t size, uint8_t kind) {
    memcpy(datagram, packet, 12);
    datagram[1] = (uint8_t)((packet[1] & 0x80) | 116);
    datagram[12] = kind;
    memcpy(datagram + 13, packet + 12, size - 12);
    return size + 1;
}

static void receives_fec(void) {
    const cpay_fec_receiver_settings settings = {.bytes = 512 * 400, .ssrc = 2, .red_type = 116, .fec_type = 117, .transport_number = 3};
    uint8_t fec[400], packet[400], datagram[420], bytes[400];
    uint8_t head[12] = {0x80, 116, 0, 12, 0, 0, 0, 9, 0, 0, 0, 2};
    size_t fec_size = example_fec(fec), size = 99;
    for (int lost = 0; lost < 4; lost++) {
        cpay_fec_receiver receiver = CPAY_INIT;
        CHECK(cpay_fec_receiver_new(&receiver, &settings) == CPAY_OK && cpay_fec_receiver_new(&receiver, &settings) == CPAY_FULL);
        for (int round = 0; round < 2; round++) {
            for (int which = 0; which < 4; which++) {
                if (which == lost) continue;
                size_t length = example(packet, which);
                bool plain = which == 3;
                length = plain ? (memcpy(datagram, packet, length), length) : in_red(datagram, packet, length, packet[1] & 0x7f);
                CHECK(cpay_fec_receiver_receive(&receiver, datagram, length) == CPAY_OK);
                CHECK(cpay_fec_receiver_next(&receiver, bytes, sizeof bytes, &size) == CPAY_NONE);
            }
            /* the first time all is forgotten before the FEC comes */
            if (round == 0) CHECK(cpay_fec_receiver_restart(&receiver) == CPAY_OK);
        }
        memcpy(datagram, head, 12);
        datagram[12] = 117;
        memcpy(datagram + 13, fec, fec_size);
        CHECK(cpay_fec_receiver_receive(&receiver, datagram, 13 + fec_size) == CPAY_OK);
        size_t wanted = example(packet, lost);
        memset(bytes, UNTOUCHED, sizeof bytes);
        CHECK(cpay_fec_receiver_next(&receiver, bytes, wanted - 1, &size) == CPAY_TOO_SMALL && size == wanted && untouched(bytes, 0, sizeof bytes));
        CHECK(cpay_fec_receiver_next(&receiver, bytes, sizeof bytes, &size) == CPAY_OK && size == wanted);
        CHECK(!memcmp(bytes, packet, wanted) && untouched(bytes, wanted, sizeof bytes));
        CHECK(cpay_fec_receiver_next(&receiver, bytes, sizeof bytes, &size) == CPAY_NONE);
        cpay_fec_receiver_free(&receiver);
    }
    cpay_fec_receiver_free(NULL);
}

/* What the sender fills in late is zero in FEC and in what is rebuilt: the transport-wide number (id 3), not the other element (id 4). */
static void late_elements(void) {
    const cpay_fec_receiver_settings settings = {.bytes = 512 * 400, .ssrc = 2, .red_type = 116, .fec_type = 117, .transport_number = 3};
    const uint8_t first[23] = {0x90, 96, 0, 8, 0, 0, 0, 9, 0, 0, 0, 2, 0xbe, 0xde, 0, 1, 0x31, 0, 0, 0, 'a', 'b', 'c'};
    const uint8_t second[24] = {0x90, 96, 0, 9, 0, 0, 0, 9, 0, 0, 0, 2, 0xbe, 0xde, 0, 1, 0x40, 7, 0, 0, 'd', 'e', 'f', 'g'};
    uint8_t fec[26 + 12] = {0x80, 117, 0, 10, 0, 0, 0, 9, 0, 0, 0, 2, 0, 0, 0, 8, 0, 0, 0, 0, 0, 11 ^ 12, 0, 12, 0xc0, 0};
    uint8_t came[23], bytes[64];
    size_t size = 0;
    for (size_t i = 0; i < 12; i++) fec[26 + i] = (uint8_t)((i < 11 ? first[12 + i] : 0) ^ second[12 + i]);
    memcpy(came, first, sizeof came);
    came[17] = 0x12, came[18] = 0x34; /* the number that the pacer wrote */
    cpay_fec_receiver receiver = CPAY_INIT;
    CHECK(cpay_fec_receiver_new(&receiver, &settings) == CPAY_OK && cpay_fec_receiver_receive(&receiver, came, sizeof came) == CPAY_OK);
    CHECK(cpay_fec_receiver_receive(&receiver, fec, sizeof fec) == CPAY_OK);
    CHECK(cpay_fec_receiver_next(&receiver, bytes, sizeof bytes, &size) == CPAY_OK && size == sizeof second && !memcmp(bytes, second, sizeof second));
    cpay_fec_receiver_free(&receiver);
}

/* Calls on handles that are empty or of another type, which change nothing. */
static void handles(void) {
    union {
        cpay_packet_store store;
        cpay_fec_receiver receiver;
        cpay_resend_limit limit;
    } it = {CPAY_INIT};
    const cpay_resend_limit_settings limits = {.share = 250};
    uint8_t fec[400], byte = UNTOUCHED;
    size_t fec_size = example_fec(fec), size = 7;
    for (int kind = 0; kind < 2; kind++) {
        cpay_status status = kind == 0 ? CPAY_EMPTY : CPAY_OTHER_KIND;
        if (kind == 1) CHECK(cpay_resend_limit_new(&it.limit, &limits) == CPAY_OK && cpay_packet_store_new(&it.store, 1) == CPAY_FULL);
        CHECK(cpay_packet_store_keep(&it.store, fec, fec_size) == status);
        CHECK(cpay_packet_store_rebuild(&it.store, 2, fec, fec_size, &byte, 1, &size) == status && size == 7 && byte == UNTOUCHED);
        CHECK(cpay_fec_receiver_receive(&it.receiver, fec, fec_size) == status && cpay_fec_receiver_restart(&it.receiver) == status);
        CHECK(cpay_fec_receiver_next(&it.receiver, &byte, 1, &size) == status && size == 7 && byte == UNTOUCHED);
    }
    cpay_packet_store_free(&it.store);
}

/* Bytes at random and changed packets, to each call that reads any: none reads out of bounds, and each outcome has a status. */
static void hostile(void) {
    cpay_packet_store store = CPAY_INIT;
    cpay_xr_exchange exchange = {0};
    uint32_t seed = 12345;
    bool good = cpay_packet_store_new(&store, 512 * 1000) == CPAY_OK;
    for (int round = 0; round < 20000; round++) {
        uint8_t bytes[96], fec[400], packet[400];
        static uint8_t rebuilt[70000];
        cpay_ccfb_info info = {0};
        static cpay_ccfb_packet packets[16384];
        cpay_fec_info protects = {0};
        bool answered = false;
        size_t size = 0, length = example_fec(fec);
        memcpy(bytes, FEEDBACK, 48);
        for (int change = 0; change < 4; change++) {
            seed = seed * 1664525 + 1013904223;
            bytes[4 + (seed >> 16) % 44] = (uint8_t)(seed >> 8);
            fec[(seed >> 20) % 20] = (uint8_t)(seed >> 7);
        }
        cpay_status status = cpay_ccfb_read(bytes, 48, false, 0, seed & 3, &info, packets, 16384);
        good &= status == CPAY_OK || status == CPAY_NONE || (status >= CPAY_CCFB_TOO_SHORT && status <= CPAY_CCFB_METRICS_TOO_SHORT);
        good &= info.count <= 16384;
        bytes[1] = 207;
        bytes[8] = (uint8_t)(4 + (seed & 1));
        good &= cpay_xr_receive(&exchange, seed & 3, 1000, seed, bytes, 48, false, &answered) == CPAY_OK;
        good &= cpay_xr_write(&exchange, 1, seed | 1, (uint64_t)seed << 32, rebuilt, 44, &size) == CPAY_OK && size <= 44;
        (void)cpay_xr_sent(&exchange);
        good &= cpay_packet_store_keep(&store, packet, example(packet, round % 4)) == CPAY_OK;
        status = cpay_fec_read(fec, length - (seed & 1), &protects);
        good &= (status == CPAY_OK && protects.mask != 0 && protects.mask >> 48 == 0) || (status >= CPAY_FEC_HEADER_TOO_SHORT && status <= CPAY_FEC_PAYLOAD_TOO_SHORT);
        status = cpay_packet_store_rebuild(&store, 2, fec, length, rebuilt, sizeof rebuilt, &size);
        good &= status == CPAY_OK || status == CPAY_NONE || (status >= CPAY_FEC_HEADER_TOO_SHORT && status <= CPAY_FEC_PAYLOAD_TOO_SHORT);
    }
    CHECK(good);
    cpay_packet_store_free(&store);
}

int main(void) {
    round_trip();
    feedback();
    feedback_written();
    rebuilds();
    receives_fec();
    late_elements();
    fec_faults();
    handles();
    hostile();
    return checked();
}

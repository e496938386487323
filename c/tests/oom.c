/* Counts allocations. First, an object of each type is made, and takes no more bytes than its type may. Pops in steady state
 * allocate nothing. Then an object of each type is made, used and freed, with packets, units and bytes left in it. Memory that
 * was not released is counted before and after the free, and for each other call. Then one session of each type runs again
 * and again; each time one more allocation succeeds, and the next one fails. The call that asked for it must return 17 and
 * change no output. It is made once more, and the session must then end as with all memory, with all memory released. Linked
 * with -Wl,--wrap=malloc,--wrap=realloc,--wrap=free. */
#include "any.h"
#include "codec_payload.h"
#include "refuse.h"

#include <stdio.h>
#include <stdlib.h>
#include <string.h>

enum { FRAMES = 4, FRAME = 300, MTU = 100 };

/* 0 if all results are right; *met counts the results of 17. */
static int video(uint32_t codec, int *met) {
    long before = kept;
    cpay_packetizer sender = CPAY_INIT;
    cpay_buffer buffer = CPAY_INIT;
    cpay_depacketizer pieces = CPAY_INIT;
    cpay_spec spec = {.codec = codec, .rate = 90000, .vp8_ids = true, .first_id = 126};
    static uint8_t frame[FRAME], bytes[FRAME];
    cpay_status status;
    uint64_t number = 5;
    for (size_t i = 0; i < FRAME; i++) frame[i] = (uint8_t)(i * 7);
    if (codec == CPAY_AV1) memcpy(frame, "\x32\xa9\x02", 3); /* the header of an OBU, and its length, 297 */
    AGAIN(status, cpay_packetizer_new(&sender, &spec));
    if (status) return 1;
    AGAIN(status, cpay_buffer_new(&buffer, &spec, 0, 64));
    if (status) return 2;
    AGAIN(status, cpay_depacketizer_new(&pieces, &spec));
    if (status) return 3;
    for (uint32_t i = 0; i < FRAMES; i++) {
        size_t count = 0, size = 0;
        cpay_packet_info packet = {0};
        cpay_unit unit = {0};
        cpay_extra extra = {0};
        cpay_lent_unit lent = {0};
        AGAIN(status, cpay_packetize(&sender, MTU, false, frame, FRAME, &count));
        if (status) return 4;
        for (size_t k = 0; k < count; k++) {
            if (cpay_packet(&sender, &packet, bytes, 1) != CPAY_TOO_SMALL) return 5;
            if (cpay_packet(&sender, &packet, bytes, FRAME) != CPAY_OK) return 6;
            cpay_received received = {.number = number++, .rtp_time = 3000 * i, .marker = packet.marker};
            AGAIN(status, cpay_buffer_push(&buffer, &received, bytes, packet.bytes));
            if (status) return 7;
            refused = false;
            status = cpay_depacketize(&pieces, bytes, packet.bytes);
            if (status == CPAY_OUT_OF_MEMORY) {
                /* The parts of a frame that were read may be lost, so this frame is discarded. */
                (*met)++;
                if (!refused) return 8;
                cpay_depacketizer_free(&pieces);
                if (cpay_depacketizer_new(&pieces, &spec)) return 9;
            } else if (status && *met == 0) {
                return 10;
            }
        }
        AGAIN(status, cpay_buffer_pop(&buffer, &unit, bytes, 1));
        if (status != CPAY_TOO_SMALL || unit.bytes != FRAME) return 11;
        if (cpay_buffer_pop(&buffer, &unit, bytes, FRAME) != CPAY_OK || memcmp(bytes, frame, FRAME)) return 12;
        if (cpay_buffer_pop(&buffer, &unit, bytes, FRAME) != CPAY_NONE) return 13;
        memset(bytes, 0, FRAME);
        if (cpay_depacketizer_unit(&pieces, &lent) != CPAY_OK) return 17;
        if (*met == 0 && (lent.bytes != FRAME || memcmp(lent.at, frame, FRAME))) return 18;
        if (cpay_depacketized(&pieces, &size, &extra, bytes, FRAME) != CPAY_OK) return 14;
        if (*met == 0 && (size != FRAME || memcmp(bytes, frame, FRAME))) return 15;
    }
    cpay_packetizer_free(&sender);
    cpay_buffer_free(&buffer);
    cpay_depacketizer_free(&pieces);
    return kept == before ? 0 : 16;
}

/* Frames in one call. Once the memory has grown to the largest frame, no call allocates. */
static int whole_frames(uint32_t codec, int *met) {
    long before = kept;
    cpay_packetizer sender = CPAY_INIT;
    cpay_spec spec = {.codec = codec, .rate = 90000, .vp8_ids = true, .first_id = 126};
    cpay_frame_cut cut = {.mtu = MTU, .headroom = 12, .tailroom = 10};
    static uint8_t frame[FRAME], bytes[2 * FRAME];
    cpay_placed_packet packets[8];
    cpay_status status;
    memset(packets, 0, sizeof packets);
    if (codec == CPAY_AV1) memcpy(frame, "\x32\xa9\x02", 3); /* the header of an OBU, and its length, 297 */
    AGAIN(status, cpay_packetizer_new(&sender, &spec));
    if (status) return 1;
    for (int i = 0; i < FRAMES; i++) {
        cpay_frame_room room = {0, 0};
        long taken = asked;
        AGAIN(status, cpay_packetize_into(&sender, &cut, frame, FRAME, bytes, 0, packets, 8, &room));
        if (status != CPAY_TOO_SMALL) return 2;
        AGAIN(status, cpay_packetize_into(&sender, &cut, frame, FRAME, bytes, room.bytes, packets, 8, &room));
        if (status || packets[0].offset != 12) return 3;
        if (codec != CPAY_AV1 && codec != CPAY_NULL && packets[0].bytes > MTU) return 4;
        /* the third picture id of VP8 is longer than the ones before it */
        if (i > 2 && asked != taken) return 5;
        /* the packet has the picture id of the frame, also after failed allocations */
        if (codec == CPAY_VP8 && bytes[14] != (i < 2 ? 126 + i : 0x80)) return 6;
    }
    cpay_packetizer_free(&sender);
    return kept == before ? 0 : 7;
}

static int red(int *met) {
    long before = kept;
    cpay_red_sender sender = CPAY_INIT;
    static const uint32_t distances[2] = {1, 2};
    uint8_t bytes[64] = {0}, found[64] = {0};
    cpay_status status;
    size_t size = 0;
    AGAIN(status, cpay_red_sender_new(&sender, 63, 111, distances, 2));
    if (status) return 1;
    for (uint8_t i = 0; i < 4; i++) {
        AGAIN(status, cpay_red_wrap(&sender, 960u * i, 64, &i, 1, bytes, 64, &size));
        if (status) return 2;
    }
    if (size != 2 * 4 + 1 + 3 || bytes[9] != 1 || bytes[10] != 2 || bytes[11] != 3) return 3;
    for (size_t i = 0; i < 3; i++) {
        cpay_red_block_info block = {0};
        cpay_recovered_info packet = {0};
        AGAIN(status, cpay_red_block(bytes, size, i, &block, found, 64));
        if (status || found[0] != 1 + i) return 4;
        AGAIN(status, cpay_red_recover(111, 960, 10, 2880, bytes, size, i, &packet, found, 64));
        if (status || found[0] != 1 + i || packet.number != 8 + i) return 5;
    }
    cpay_red_block_place places[3];
    size_t count = 0;
    AGAIN(status, cpay_red_blocks(bytes, size, places, 3, &count));
    if (status || count != 3 || bytes[places[0].start] != 1 || bytes[places[2].start] != 3) return 8;
    cpay_red_older older[2] = {
        {.start = 0, .bytes = 1, .offset = 1920, .payload_type = 111},
        {.start = 1, .bytes = 1, .offset = 960, .payload_type = 111},
    };
    AGAIN(status, cpay_red_encode(111, (const uint8_t *)"\3", 1, older, 2, (const uint8_t *)"\1\2", 2, found, 64, &size));
    if (status || size != 12 || memcmp(bytes, found, 12)) return 6;
    cpay_red_sender_free(&sender);
    return kept == before ? 0 : 7;
}

/* A stream of datagrams: frames in four packets, each second one with values of header extensions, and a sender that restarts. */
static int datagrams(int *met) {
    long before = kept;
    cpay_spec spec = {.codec = CPAY_VP8, .rate = 90000};
    cpay_sender_settings sends = {.spec = spec, .mtu = MTU, .ssrc = 7, .payload_type = 96,
                                  .extension_ids = {.layers_allocation = 1, .audio_level = 2}};
    cpay_sample sample = {.values = {.audio_level = -1, .has_audio_level = true,
                                     .layers_allocation_len = 40, .has_layers_allocation = true}};
    cpay_receiver_settings receives;
    cpay_receiver_settings_init(&receives, CPAY_VP8, 90000, 96, CPAY_FOR_FILE);
    cpay_sender sender = CPAY_INIT;
    cpay_receiver receiver = CPAY_INIT;
    cpay_receiver_counts_info counts = {0};
    cpay_unit unit = {0};
    cpay_extension_values values = {0};
    static uint8_t frame[FRAME], bytes[FRAME];
    static const uint8_t no_media[1] = {101};
    uint64_t received = 0;
    cpay_outcome outcome = CPAY_HELD;
    cpay_status status;
    receives.spec = spec;
    receives.payload_type = 96;
    receives.hold_back = 0;
    receives.has_ssrc = true;
    receives.ssrc = 7;
    receives.extension_ids = sends.extension_ids;
    AGAIN(status, cpay_receiver_new(&receiver, &receives, no_media, 1));
    if (status) return 1;
    for (uint32_t i = 0; i < 2 * FRAMES; i++) {
        size_t count = 0, size = 0;
        bool whole = true;
        if (i % FRAMES == 0) {
            cpay_sender_free(&sender);
            sends.first_number = (uint16_t)(20000 * i);
            AGAIN(status, cpay_sender_new(&sender, &sends));
            if (status) return 2;
        }
        sample.rtp_time = 3000 * i;
        if (i % 2)
            AGAIN(status, cpay_sender_send_sample(&sender, &sample, frame, FRAME, &count));
        else
            AGAIN(status, cpay_sender_send(&sender, 3000 * i, false, frame, FRAME, &count));
        if (status || count != 4) return 3;
        for (size_t k = 0; k < count; k++, received++) {
            if (cpay_sender_datagram(&sender, k, bytes, FRAME, &size)) return 4;
            AGAIN(status, cpay_receiver_receive(&receiver, i, bytes, size, &outcome));
            if (status) return 5;
            /* A suspect packet for which memory ran out when it could be stored is discarded, and the outcome says so. */
            if (outcome == CPAY_RESTARTED_ALONE) whole = !refused, (*met)++;
        }
        /* units are popped, lent after a pop, and lent in turn */
        const uint8_t *at = bytes;
        if (i % 3 < 2) {
            AGAIN(status, cpay_receiver_pop(&receiver, i, &unit, bytes, 1));
            if (!whole && status == CPAY_NONE) continue;
            if (status != CPAY_TOO_SMALL || unit.bytes != FRAME) return 6;
        }
        if (i % 3 == 0) status = cpay_receiver_pop(&receiver, i, &unit, bytes, FRAME);
        else AGAIN(status, cpay_receiver_lend(&receiver, i, &unit, &at));
        if (status || (at == bytes) != (i % 3 == 0) || memcmp(at, frame, FRAME)) return 7;
        if (cpay_receiver_values(&receiver, &values)) return 10;
        if (whole && (values.has_audio_level != (i % 2) || values.layers_allocation_len != 40 * (i % 2))) return 11;
    }
    if (cpay_receiver_counts(&receiver, &counts) || counts.received != received || counts.restarts != 1) return 8;
    cpay_sender_free(&sender);
    cpay_receiver_free(&receiver);
    return kept == before ? 0 : 9;
}

/* Six packets are sent, and the last two are resent. */
static int history(int *met) {
    long before = kept;
    const cpay_history_settings settings = {.limit = 2, .rtx_ssrc = 9, .rtx_first_number = 65535, .rtx_payload_type = 97,
                                            .has_rtx = true};
    cpay_history it = CPAY_INIT;
    cpay_status status;
    AGAIN(status, cpay_history_new(&it, &settings));
    if (status) return 1;
    for (uint8_t number = 0; number < 6; number++) {
        const uint8_t sent[13] = {0x80, 96, 0, number, 0, 0, 0, 0, 0, 0, 0, 7, number};
        AGAIN(status, cpay_history_keep(&it, sent, sizeof sent, NULL));
        if (status) return 2;
    }
    for (uint8_t number = 3; number < 6; number++) {
        uint8_t bytes[15] = {0};
        size_t size = 99;
        cpay_resent resent = (cpay_resent)99;
        refused = false;
        status = cpay_history_resend(&it, 0, number, bytes, 14, &size, &resent);
        if (status == CPAY_OUT_OF_MEMORY) {
            (*met)++;
            if (!refused || size != 99 || resent != 99) return 3;
            status = cpay_history_resend(&it, 0, number, bytes, 14, &size, &resent);
        }
        if (number == 3) {
            if (status || resent != CPAY_RESENT_NOT_KEPT || size) return 4;
            continue;
        }
        if (status != CPAY_TOO_SMALL || size != 15 || resent != 99 || bytes[0]) return 5;
        long resent_first = asked;
        if (cpay_history_resend(&it, 0, number, bytes, 15, &size, &resent) || resent != CPAY_RESENT_WRITTEN || size != 15) return 6;
        if (asked != resent_first || bytes[12] || bytes[13] != number || bytes[14] != number) return 7;
        if (bytes[2] != (number == 4 ? 255 : 0) || bytes[3] != bytes[2]) return 8; /* the number of the retransmission */
    }
    cpay_history_free(&it);
    return kept == before ? 0 : 9;
}

/* Freezes, and RTCP that a caller writes itself. Only the first call keeps memory. */
static int watching(int *met) {
    long before = kept;
    static const cpay_report_block_info block = {.ssrc = 2};
    static const cpay_sender_report_info report = {.ssrc = 1};
    cpay_freezes freezes = CPAY_INIT;
    cpay_freeze_counts_info counts = {1, 1};
    uint8_t bytes[52];
    size_t size = 0;
    cpay_status status;
    AGAIN(status, cpay_freezes_new(&freezes, 1000));
    if (status) return 1;
    long made = asked, held = kept;
    if (cpay_freezes_shown(&freezes, 5) || cpay_freezes_counts(&freezes, &counts) || counts.freezes || asked != made) return 2;
    AGAIN(status, cpay_write_sender_report(7, &report, &block, 1, bytes, sizeof bytes, &size));
    if (status || size != 52 || bytes[1] != 200) return 3;
    AGAIN(status, cpay_write_receiver_report(3, &block, 1, bytes, sizeof bytes, &size));
    if (status || size != 32 || bytes[1] != 201) return 4;
    AGAIN(status, cpay_write_cname(3, bytes, 2, bytes + 20, 32, &size));
    if (status || size != 16 || bytes[21] != 202) return 5;
    AGAIN(status, cpay_write_pli(3, 2, bytes, sizeof bytes, &size));
    if (status || size != 12 || bytes[1] != 206 || kept != held) return 6;
    AGAIN(status, cpay_write_fir(3, 2, 1, bytes, sizeof bytes, &size));
    if (status || size != 20 || bytes[1] != 206 || kept != held) return 8;
    AGAIN(status, cpay_write_bye(3, bytes, 2, bytes + 20, 32, &size));
    if (status || size != 12 || bytes[21] != 203 || kept != held) return 9;
    cpay_freezes_free(&freezes);
    return kept == before ? 0 : 7;
}

/* A limit of waiting: two numbers are missing, and one arrives. Only the first call allocates. */
static int waiting(int *met) {
    long before = kept;
    cpay_adaptive_wait_settings settings;
    cpay_adaptive_wait_settings_init(&settings);
    static const uint64_t numbers[2] = {65536, 65537};
    cpay_adaptive_wait wait = CPAY_INIT;
    uint64_t limit = 0;
    cpay_status status;
    AGAIN(status, cpay_adaptive_wait_new(&wait, &settings));
    if (status) return 1;
    long made = asked;
    if (cpay_adaptive_wait_missing(&wait, 0, numbers, 2) || cpay_adaptive_wait_arrived(&wait, 300, 1)) return 2;
    if (cpay_adaptive_wait_limit(&wait, &limit) || limit != 375) return 3;
    if (asked != made || kept == before) return 4;
    cpay_adaptive_wait_free(&wait);
    return kept == before ? 0 : 5;
}

/* A packet with this transport-wide number under id 5. */
static cpay_status numbered(cpay_transport_reporter *reporter, uint64_t now, uint8_t number) {
    const uint8_t datagram[20] = {0x90, 96, 0, 1, 0, 0, 0, 0, 0, 0, 0, 7, 0xbe, 0xde, 0, 1, 0x51, 0, number, 0};
    return cpay_transport_reporter_receive(reporter, now, datagram, sizeof datagram);
}

/* A path: packets wait, leave and are reported, and layers are chosen. A call without memory changes nothing. */
static int paths(int *met) {
    static const uint8_t feedback[24] = {0x8f, 205, 0, 5, 0, 0, 0, 1, 0, 0, 0, 7, 0, 0, 0, 2, 0, 0, 1, 0, 0, 2, 0, 0};
    static const cpay_path_choice choices[3] = {{.rate = 1000}, {.rate = 2000}, {.rate = 3000}};
    long before = kept;
    cpay_path_settings settings;
    cpay_path_settings_init(&settings);
    const cpay_resend_limit_settings limits = {.share = 250};
    cpay_path path = CPAY_INIT;
    cpay_resend_limit limit = CPAY_INIT;
    cpay_path_leaving leaving = {0};
    cpay_path_state_info state = {0};
    cpay_path_order_info order = {.choice = 99};
    cpay_status status;
    AGAIN(status, cpay_path_new(&path, 0, &settings));
    if (status) return 1;
    AGAIN(status, cpay_resend_limit_new(&limit, &limits));
    if (status) return 2;
    for (uint32_t i = 0; i < 8; i++) {
        const cpay_path_packet packet = {.id = i, .size = 100, .kind = (cpay_path_kind)(i % 4)};
        refused = false;
        status = cpay_path_push(&path, &packet);
        if (status == CPAY_OUT_OF_MEMORY) {
            (*met)++;
            if (!refused || cpay_path_state(&path, &state) || state.waiting != 100 * i) return 3;
            status = cpay_path_push(&path, &packet);
        }
        if (status || cpay_path_state(&path, &state) || state.waiting != 100 * (i + 1)) return 4;
    }
    for (uint16_t i = 0; i < 8; i++)
        if (cpay_path_pop(&path, 0, &leaving) || leaving.number != i || leaving.packet.id != (i % 2) * 4u + i / 2) return 5;
    uint16_t numbers[2] = {0};
    size_t count = 0;
    AGAIN(status, cpay_path_lost(&path, feedback, sizeof feedback, false, 0, numbers, 2, &count));
    if (status || count != 2 || numbers[1] != 1) return 10;
    AGAIN(status, cpay_path_feedback(&path, 0, 0, feedback, sizeof feedback, false, 0));
    if (status) return 6;
    refused = false;
    status = cpay_path_choose(&path, 0, choices, 3, &order);
    if (status == CPAY_OUT_OF_MEMORY) {
        (*met)++;
        if (!refused || order.choice != 99 || cpay_path_state(&path, &state) || state.choice != 0) return 7;
        status = cpay_path_choose(&path, 0, choices, 3, &order);
    }
    if (status || order.choice != 2) return 8;
    cpay_path_free(&path);
    cpay_resend_limit_free(&limit);
    return kept == before ? 0 : 9;
}

/* An offer of a rate takes about 8 kB. A call without memory leaves the handle empty, and no other call allocates. */
static int offers(int *met) {
    long before = kept;
    size_t bytes = total;
    cpay_rate_offer_settings settings;
    cpay_rate_offer_settings_init(&settings);
    cpay_rate_offer offer = CPAY_INIT;
    cpay_status status;
    uint64_t rate = 0;
    AGAIN(status, cpay_rate_offer_new(&offer, &settings));
    if (status) return 1;
    if (*met == 0 && total - bytes > 9000) return 2;
    long steady = asked;
    for (uint32_t i = 0; i < 1000; i++) {
        if (cpay_rate_offer_arrived(&offer, 10000 * i, 2621 * i, 1000) || cpay_rate_offer_lost(&offer)) return 3;
        if (cpay_rate_offer_set_wants(&offer, 1000 * i)) return 4;
        status = cpay_rate_offer_take_due(&offer, 10000 * i, 50000, &rate);
        if ((status && status != CPAY_NONE) || rate > 1000 * i) return 5;
    }
    if (asked != steady) return 6;
    cpay_rate_offer_free(&offer);
    return kept == before ? 0 : 7;
}

/* Reports that are written and read, and a packet that is rebuilt. A call without memory changes nothing. */
static int reports(int *met) {
    static const uint8_t sent[2][12] = {{0x80, 96, 0, 8, 0, 0, 0, 3, 0, 0, 0, 7}, {0x80, 96, 0, 9, 0, 0, 0, 3, 0, 0, 0, 7}};
    static const uint8_t fec[14] = {0, 0, 0, 8, 0, 0, 0, 0, 0, 0, 0, 0, 0xc0, 0};
    static const cpay_ccfb_packet packets[2] = {{.offset = 5, .ecn = 1, .arrived = true}};
    long before = kept;
    const cpay_xr_exchange exchange = {.peer_ssrc = 9, .has_peer = true};
    cpay_ccfb_info info = {.sender_ssrc = 1, .ssrc = 7, .first = 8};
    cpay_ccfb_packet read[2] = {{0}};
    cpay_packet_store store = CPAY_INIT;
    uint8_t bytes[64] = {0};
    size_t size = 99;
    cpay_status status;
    AGAIN(status, cpay_xr_write(&exchange, 1, 1000, 1000, bytes, sizeof bytes, &size));
    if (status || size != 44) return 1;
    AGAIN(status, cpay_ccfb_write(&info, packets, 2, bytes, sizeof bytes, &size));
    if (status || size != 24) return 2;
    AGAIN(status, cpay_ccfb_read(bytes, size, false, 0, 0, &info, read, 2));
    if (status || info.count != 2 || read[0].offset != 5 || read[1].arrived) return 3;
    AGAIN(status, cpay_packet_store_new(&store, 512 * 100));
    if (status) return 4;
    refused = false;
    status = cpay_packet_store_keep(&store, sent[0], 12);
    if (status == CPAY_OUT_OF_MEMORY) {
        (*met)++;
        /* nothing is kept */
        if (!refused || cpay_packet_store_rebuild(&store, 7, fec, sizeof fec, bytes, sizeof bytes, &size) != CPAY_NONE) return 5;
        status = cpay_packet_store_keep(&store, sent[0], 12);
    }
    if (status) return 6;
    size = 99;
    refused = false;
    status = cpay_packet_store_rebuild(&store, 7, fec, sizeof fec, bytes, sizeof bytes, &size);
    if (status == CPAY_OUT_OF_MEMORY) {
        (*met)++;
        if (!refused || size != 99) return 7;
        status = cpay_packet_store_rebuild(&store, 7, fec, sizeof fec, bytes, sizeof bytes, &size);
    }
    if (status || size != 12 || memcmp(bytes, sent[1], 12)) return 8;
    cpay_packet_store_free(&store);
    return kept == before ? 0 : 9;
}

/* A receiver of FEC rebuilds the second of two packets. A call without memory changes nothing, and no packet is lost. */
static int fec_receiver(int *met) {
    static const uint8_t sent[2][12] = {{0x80, 96, 0, 8, 0, 0, 0, 3, 0, 0, 0, 7}, {0x80, 96, 0, 9, 0, 0, 0, 3, 0, 0, 0, 7}};
    static const uint8_t fec[26] = {0x80, 117, 0, 10, 0, 0, 0, 3, 0, 0, 0, 7, 0, 0, 0, 8, 0, 0, 0, 0, 0, 0, 0, 0, 0xc0, 0};
    const cpay_fec_receiver_settings settings = {.bytes = 512 * 100, .ssrc = 7, .red_type = 116, .fec_type = 117};
    long before = kept;
    cpay_fec_receiver receiver = CPAY_INIT;
    uint8_t bytes[64] = {0};
    size_t size = 99;
    cpay_status status;
    AGAIN(status, cpay_fec_receiver_new(&receiver, &settings));
    if (status) return 1;
    AGAIN(status, cpay_fec_receiver_receive(&receiver, sent[0], 12));
    if (status) return 2;
    AGAIN(status, cpay_fec_receiver_receive(&receiver, fec, sizeof fec));
    if (status) return 3;
    AGAIN(status, cpay_fec_receiver_next(&receiver, bytes, sizeof bytes, &size));
    if (status || size != 12 || memcmp(bytes, sent[1], 12)) return 4;
    cpay_fec_receiver_free(&receiver);
    return kept == before ? 0 : 5;
}

/* A sender puts two frames of two packets in RED, with a packet of FEC behind each. Of each frame the second packet is lost, and the port
 * rebuilds it. A call without memory uses no number, changes no output, and loses no packet. */
static int fec_call(int *met) {
    const cpay_fec_sender_settings sends = {.ssrc = 7, .first_number = 1, .red_type = 116, .fec_type = 117, .protection = 1};
    const cpay_retransmission_type pair = {96, 97};
    cpay_fec_port_settings receives;
    cpay_fec_port_settings_init(&receives);
    receives.red_type = 116, receives.fec_type = 117, receives.bytes = 51200;
    long before = kept;
    cpay_fec_sender sender = CPAY_INIT;
    cpay_fec_port port = CPAY_INIT;
    cpay_status status;
    AGAIN(status, cpay_fec_sender_new(&sender, &sends));
    if (status) return 1;
    AGAIN(status, cpay_fec_port_new(&port, &receives, &pair, 1));
    if (status) return 2;
    for (uint8_t number = 0; number < 4; number++) {
        const bool last = number % 2 == 1;
        const uint8_t packet[13] = {0x80, last ? 0x80 | 96 : 96, 0, number, 0, 0, 0, 3, 0, 0, 0, 7, number};
        cpay_lent_packet sent = {NULL, 99}, passed = {packet, 99};
        uint8_t fec[64] = {0}, wanted[13];
        size_t count = 99, size = 99;
        bool ends = !last;
        AGAIN(status, cpay_fec_sender_push(&sender, packet, sizeof packet, &sent, &ends));
        if (status || sent.bytes != 14 || ends != last || sent.at[3] != number + 1 + (number > 1)) return 3;
        if (!last) {
            AGAIN(status, cpay_fec_port_receive(&port, sent.at, sent.bytes, &passed));
            if (status || passed.bytes != 13 || passed.at[12] != number) return 4;
            continue;
        }
        memcpy(wanted, packet, 13), wanted[3] = sent.at[3];
        AGAIN(status, cpay_fec_sender_finish_frame(&sender, false, &count));
        if (status || count != 1 || cpay_fec_sender_packet(&sender, 0, fec, sizeof fec, &size)) return 5;
        AGAIN(status, cpay_fec_port_receive(&port, fec, size, &passed));
        if (status || passed.bytes != 13 || passed.at[1] != 117) return 6;
        AGAIN(status, cpay_fec_port_next(&port, &passed));
        if (status || passed.bytes != 13 || memcmp(passed.at, wanted, 13)) return 7;
        if (cpay_fec_port_next(&port, &passed) != CPAY_NONE) return 8;
    }
    cpay_fec_sender_free(&sender);
    cpay_fec_port_free(&port);
    return kept == before ? 0 : 9;
}

/* A reporter with a name: packets arrive, with a gap, and are reported; the feedback is read with the times of sending. REMB. */
static int transport(int *met) {
    long before = kept;
    cpay_transport_reporter_settings settings;
    cpay_transport_reporter_settings_init(&settings, 5, 1);
    settings.has_report = true;
    cpay_transport_reporter reporter = CPAY_INIT;
    cpay_sent_packets sent = CPAY_INIT;
    cpay_transport_feedback_info info = {0};
    cpay_packet_arrival packets[8] = {{0}};
    uint8_t bytes[64] = {0};
    static const uint32_t ssrcs[2] = {1, 2};
    uint64_t at = 0;
    uint16_t number = 99;
    size_t size = 99;
    cpay_status status;
    AGAIN(status, cpay_transport_reporter_new(&reporter, &settings, (const uint8_t *)"me", 2));
    if (status) return 1;
    AGAIN(status, cpay_sent_packets_new(&sent, 8));
    if (status) return 2;
    for (uint8_t i = 0; i < 8; i++) {
        refused = false;
        status = cpay_sent_packets_assign(&sent, i, &number);
        if (status == CPAY_OUT_OF_MEMORY) {
            (*met)++;
            if (!refused || (i > 0 && number != i - 1)) return 3;
            status = cpay_sent_packets_assign(&sent, i, &number);
        }
        if (status || number != i) return 4;
        if (i == 3) continue;
        static const uint8_t plain[12] = {0x80, 96, 0, 1, 0, 0, 0, 0, 0, 0, 0, 7};
        size_t length = 0;
        AGAIN(status, cpay_number_datagram(5, number, plain, sizeof plain, bytes, sizeof bytes, &length));
        if (status || length != 20) return 5;
        AGAIN(status, cpay_transport_reporter_receive(&reporter, 64 + i, bytes, length));
        if (status) return 16;
    }
    refused = false;
    bytes[0] = 0;
    status = cpay_transport_reporter_poll(&reporter, 100, bytes, 10, &size);
    if (status == CPAY_OUT_OF_MEMORY) {
        (*met)++;
        if (!refused || size != 99 || cpay_transport_reporter_next_deadline(&reporter, &at) || at) return 6;
        status = cpay_transport_reporter_poll(&reporter, 100, bytes, 10, &size);
    }
    if (status != CPAY_TOO_SMALL || size != 56 || bytes[0]) return 7;
    if (cpay_transport_reporter_poll(&reporter, 100, bytes, sizeof bytes, &size) || size != 56) return 8;
    if (cpay_transport_reporter_poll(&reporter, 1000, bytes, sizeof bytes, &size) != CPAY_NONE) return 9;
    AGAIN(status, cpay_read_transport_feedback(bytes, 56, true, 0, &info, packets, 8));
    if (status || info.count != 8 || info.counter) return 10;
    for (uint8_t i = 0; i < 8; i++) {
        if (packets[i].number != i || packets[i].arrived != (i != 3) || packets[i].time != (i == 3 ? 0 : 256 + 4u * i)) return 11;
        if (cpay_sent_packets_sent_at(&sent, packets[i].number, &at) || at != i) return 12;
    }
    size = 99;
    refused = false;
    status = cpay_write_remb(1, 1000, ssrcs, 2, bytes, sizeof bytes, &size);
    if (status == CPAY_OUT_OF_MEMORY) {
        (*met)++;
        if (!refused || size != 99) return 13;
        status = cpay_write_remb(1, 1000, ssrcs, 2, bytes, sizeof bytes, &size);
    }
    if (status || size != 28) return 14;
    cpay_transport_reporter_free(&reporter);
    cpay_sent_packets_free(&sent);
    return kept == before ? 0 : 15;
}

/* A packet of Opus: its header of 12 bytes, and the payload. */
static size_t packet(uint8_t *out, uint8_t type, uint8_t ssrc, uint8_t number, const char *payload, size_t size) {
    const uint8_t header[12] = {0x80, type, 0, number, 0, 0, 0, number, 0, 0, 0, ssrc};
    memcpy(out, header, sizeof header);
    memcpy(out + 12, payload, size);
    return 12 + size;
}

/* One packet waits for the choice of the stream. If memory runs out for it at the end, it still waits, and the next call releases
 * it. */
static int ending(int *met) {
    long before = kept;
    cpay_receiver_settings receives;
    cpay_receiver receiver = CPAY_INIT;
    cpay_receiver_counts_info counts = {0};
    cpay_unit unit = {0};
    uint8_t bytes[32];
    cpay_outcome outcome = CPAY_HELD;
    cpay_status status;
    cpay_receiver_settings_init(&receives, CPAY_OPUS, 48000, 111, CPAY_FOR_FILE);
    AGAIN(status, cpay_receiver_new(&receiver, &receives, NULL, 0));
    if (status) return 1;
    size_t size = packet(bytes, 111, 7, 10, "\x0a", 1);
    AGAIN(status, cpay_receiver_receive(&receiver, 0, bytes, size, &outcome));
    if (status || outcome != CPAY_UNDECIDED) return 2;
    AGAIN(status, cpay_receiver_finish(&receiver));
    if (status || cpay_receiver_counts(&receiver, &counts) || counts.undecided || counts.held != 1) return 3;
    AGAIN(status, cpay_receiver_pop(&receiver, 0, &unit, bytes, 1));
    if (status || unit.fault || unit.bytes != 1 || bytes[0] != 10) return 4;
    cpay_receiver_free(&receiver);
    return kept == before ? 0 : 5;
}

/* A stream falls silent, and two packets of another SSRC choose theirs. If memory runs out for the first of them, nothing has changed:
 * the stream before is still chosen. If it runs out for the second, the first was received and has chosen. */
static int choosing(int *met) {
    long before = kept;
    cpay_receiver_settings receives;
    cpay_receiver receiver = CPAY_INIT;
    cpay_receiver_counts_info counts = {0}, after = {0};
    cpay_report_info report = {0};
    uint8_t bytes[32];
    cpay_outcome outcome = CPAY_HELD;
    cpay_status status;
    cpay_receiver_settings_init(&receives, CPAY_OPUS, 48000, 111, CPAY_FOR_FILE);
    AGAIN(status, cpay_receiver_new(&receiver, &receives, NULL, 0));
    if (status) return 1;
    for (uint8_t i = 0; i < 4; i++) {
        size_t size = packet(bytes, 111, 7, 10 + i, "\x0a", 1);
        AGAIN(status, cpay_receiver_receive(&receiver, 20 * i, bytes, size, &outcome));
        if (status || outcome != (i ? CPAY_HELD : CPAY_UNDECIDED)) return 2;
    }
    size_t size = packet(bytes, 111, 9, 200, "\x0b", 1);
    AGAIN(status, cpay_receiver_receive(&receiver, 2100, bytes, size, &outcome));
    if (status || outcome != CPAY_UNDECIDED) return 3;
    if (cpay_receiver_counts(&receiver, &counts) || counts.ssrc != 7 || counts.undecided != 1) return 4;
    size = packet(bytes, 111, 9, 201, "\x0c", 1);
    refused = false;
    status = cpay_receiver_receive(&receiver, 2120, bytes, size, &outcome);
    if ((status == CPAY_OUT_OF_MEMORY) != refused) return 5;
    if (refused) {
        (*met)++;
        if (cpay_receiver_counts(&receiver, &after) || !after.has_ssrc) return 6;
        if (after.ssrc == 7 && memcmp(&after, &counts, sizeof counts)) return 7;
        if (after.ssrc == 7 && (cpay_receiver_report(&receiver, &report) || report.highest != 13)) return 8;
        if (after.ssrc == 9 && (after.received != counts.received || after.undecided || after.held != counts.held + 1)) return 9;
        status = cpay_receiver_receive(&receiver, 2120, bytes, size, &outcome);
    }
    if (status || outcome != CPAY_HELD) return 10;
    if (cpay_receiver_counts(&receiver, &after) || after.ssrc != 9 || after.received != 6 || after.held != 6 || after.restarts != 1) return 11;
    cpay_receiver_free(&receiver);
    return kept == before ? 0 : 12;
}

/* Four packets: the second arrives in RED with the third (RFC 2198), and the last is retransmitted (RFC 4588). A packet with
 * padding only arrives too. The settings name no SSRC, so the first packet waits for the next one. */
static int recovery(int *met) {
    long before = kept;
    cpay_receiver_settings receives;
    cpay_receiver_settings_init(&receives, CPAY_OPUS, 48000, 111, CPAY_FOR_FILE);
    cpay_receiver receiver = CPAY_INIT;
    cpay_receiver_counts_info counts = {0};
    cpay_unit unit = {0};
    uint8_t bytes[32];
    cpay_outcome outcome = CPAY_HELD;
    uint64_t received = 5;
    cpay_status status;
    receives.spec = (cpay_spec){.codec = CPAY_OPUS, .rate = 48000};
    receives.payload_type = 111;
    receives.has_red = receives.has_rtx = true;
    receives.red_payload_type = 63;
    receives.red_step = 1;
    receives.rtx_payload_type = 112;
    receives.rtx_ssrc = 9;
    AGAIN(status, cpay_receiver_new(&receiver, &receives, NULL, 0));
    if (status) return 1;
#define COMES(wanted, ...) \
    do { \
        size_t size = packet(bytes, __VA_ARGS__); \
        AGAIN(status, cpay_receiver_receive(&receiver, 0, bytes, size, &outcome)); \
        if (status || outcome != (wanted)) return 2; \
    } while (0)
    COMES(CPAY_UNDECIDED, 63, 7, 10, "\x6f\x0a", 2);
    size_t size = packet(bytes, 63, 7, 12, "\xef\0\x04\x01\x6f\x0b\x0c", 7);
    AGAIN(status, cpay_receiver_receive(&receiver, 0, bytes, size, &outcome));
    /* If memory ran out for a redundant block, the packet itself was stored, and is a duplicate when passed again. */
    if (!status && outcome == CPAY_DUPLICATE && refused) received++;
    else if (status || outcome != CPAY_HELD) return 3;
    COMES(CPAY_HELD, 112, 9, 2, "\0\x0d\x0d", 3);
    COMES(CPAY_NO_MEDIA, 112, 9, 3, "", 0);
    size = packet(bytes, 111, 7, 14, "\1", 1);
    bytes[0] |= 0x20; /* the byte is padding */
    AGAIN(status, cpay_receiver_receive(&receiver, 0, bytes, size, &outcome));
    if (status || outcome != CPAY_NO_MEDIA) return 5;
    for (uint8_t number = 10; number < 14; number++) {
        AGAIN(status, cpay_receiver_pop(&receiver, 0, &unit, bytes, 1));
        if (status || unit.bytes != 1 || bytes[0] != number || !unit.contiguous) return 6;
    }
    if (cpay_receiver_counts(&receiver, &counts) || counts.received != received) return 7;
    if (counts.released != 4 || counts.recovered != 1 || counts.retransmitted != 1 || counts.no_media != 2) return 8;
    cpay_receiver_free(&receiver);
    return kept == before ? 0 : 9;
}

/* The streams of a port: two senders and a BYE, a loss and its retransmission. */
static int port(int *met) {
    long before = kept;
    cpay_session_settings settings;
    cpay_session_settings_init(&settings, CPAY_FOR_LIVE);
    const cpay_session_format format = {.spec = {.codec = CPAY_OPUS, .rate = 48000}, .payload_type = 111, .has_rtx = true,
                                        .rtx_payload_type = 112};
    const cpay_ssrc_pair pair = {.ssrc = 7, .rtx_ssrc = 9};
    static const uint8_t no_media[1] = {101 + CPAY_TELEPHONE};
    cpay_session session = CPAY_INIT;
    cpay_session_counts_info counts = {0};
    cpay_arrival arrival = {0};
    cpay_event event = {0};
    uint8_t bytes[32];
    cpay_status status;
    AGAIN(status, cpay_session_new(&session, &settings, &format, 1, no_media, 1, &pair, 1));
    if (status) return 1;
#define ARRIVES(wanted, ...) \
    do { \
        size_t size = packet(bytes, __VA_ARGS__); \
        AGAIN(status, cpay_session_receive(&session, 0, bytes, size, &arrival)); \
        if (status || arrival.kind || arrival.status || arrival.outcome != (wanted)) return 2; \
    } while (0)
    ARRIVES(CPAY_HELD, 111, 7, 10, "\x0a", 1);
    ARRIVES(CPAY_HELD, 111, 8, 20, "\x14", 1);
    ARRIVES(CPAY_HELD, 111, 7, 11, "\x0b", 1);
    ARRIVES(CPAY_HELD, 111, 7, 13, "\x0d", 1);
    ARRIVES(CPAY_HELD, 111, 8, 21, "\x15", 1);
    ARRIVES(CPAY_HELD, 112, 9, 12, "\0\x0c\x0c", 3);
    ARRIVES(CPAY_NO_MEDIA, 101, 7, 14, "\5\x0a\0\xa0", 4);
    if (cpay_session_poll(&session, 0, &event) || event.kind != CPAY_EVENT_TELEPHONE || event.data[0] != 5) return 10;
    AGAIN(status, cpay_session_receive(&session, 0, (const uint8_t *)"\x81\xcb\0\1\0\0\0\x08", 8, &arrival));
    if (status || arrival.kind != CPAY_ARRIVAL_RTCP) return 3;
    for (uint8_t units = 0; units < 6;) {
        AGAIN(status, cpay_session_poll(&session, 0, &event));
        if (status == CPAY_OK && event.kind == CPAY_EVENT_BEGUN) continue;
        if (status || event.kind != CPAY_EVENT_UNIT || event.bytes != 1) return 4;
        if (event.data[0] != (units < 4 ? 10 + units : 16 + units)) return 5;
        units++;
    }
    if (cpay_session_poll(&session, 0, &event) != CPAY_NONE) return 6;
    if (cpay_session_poll(&session, 200, &event) || event.kind != CPAY_EVENT_ENDED || event.ssrc != 8) return 7;
    if (cpay_session_counts(&session, &counts) || counts.received != 8 || counts.ended != 2) return 8;
    cpay_session_free(&session);
    return kept == before ? 0 : 9;
}

/* Frees the object in a handle of any type. Returns whether it held memory, and all memory allocated since `before` was
 * released. */
static bool gives_back(any *it, long before) {
    bool took = kept > before;
    cpay_buffer_free(&it->buffer);
    return took && kept == before;
}

/* An object of each type is freed with something left in it. 0 if all memory was released. */
static int left_behind(uint32_t codec) {
    long before = kept;
    any it = ANY_INIT;
    cpay_spec spec = {.codec = codec, .rate = 90000, .vp8_ids = true, .first_id = 126};
    cpay_received received = {.number = 5, .rtp_time = 3000, .marker = true};
    uint8_t payload[64] = {0}, byte = 0;
    size_t count = 0, size = 0;
    cpay_packet_info packet = {0};
    cpay_unit unit = {0};
    cpay_extra extra = {0};
    /* packets that were not fetched */
    if (cpay_packetizer_new(&it.packetizer, &spec)) return 1;
    if (cpay_packetize(&it.packetizer, 20, false, (const uint8_t *)"\x32\x1e 12345678901234567890123456789", 32, &count)) return 2;
    if (!count || cpay_packet(&it.packetizer, &packet, payload, 64)) return 3;
    if (!gives_back(&it, before)) return 4;
    /* a packet that is held, and then a unit that waits */
    if (cpay_buffer_new(&it.buffer, &spec, 0, 64)) return 5;
    if (cpay_buffer_push(&it.buffer, &received, payload, packet.bytes)) return 6;
    if (!gives_back(&it, before)) return 7;
    if (cpay_buffer_new(&it.buffer, &spec, 0, 64)) return 8;
    if (cpay_buffer_push(&it.buffer, &received, payload, packet.bytes)) return 9;
    if (codec != CPAY_AV1 && cpay_buffer_pop(&it.buffer, &unit, &byte, 0) != CPAY_TOO_SMALL) return 10;
    if (!gives_back(&it, before)) return 11;
    /* bytes that were not fetched, and that wait */
    if (cpay_depacketizer_new(&it.depacketizer, &spec)) return 12;
    if (cpay_depacketize(&it.depacketizer, payload, packet.bytes)) return 13;
    if (codec != CPAY_AV1 && cpay_depacketized(&it.depacketizer, &size, &extra, &byte, 0) != CPAY_TOO_SMALL) return 14;
    if (!gives_back(&it, before)) return 15;
    return 0;
}

/* A sender of RED is freed with a history, and calls without a handle keep nothing. */
static int left_in_red(void) {
    long before = kept;
    any it = ANY_INIT;
    static const uint32_t distances[2] = {1, 2};
    uint8_t bytes[64] = {0}, found[64] = {0};
    size_t size = 0;
    size_t places = 0;
    cpay_red_block_info block = {0};
    cpay_recovered_info packet = {0};
    cpay_red_older older = {.start = 0, .bytes = 1, .offset = 960, .payload_type = 111};
    if (cpay_red_sender_new(&it.red_sender, 63, 111, distances, 2)) return 1;
    for (uint8_t i = 0; i < 4; i++)
        if (cpay_red_wrap(&it.red_sender, 960u * i, 64, &i, 1, bytes, 64, &size)) return 2;
    if (!gives_back(&it, before)) return 3;
    if (cpay_red_block(bytes, size, 0, &block, found, 64) || kept != before) return 4;
    if (cpay_red_block(bytes, 3, 0, &block, found, 64) != CPAY_RED_CORRUPTED || kept != before) return 5;
    if (cpay_red_blocks(bytes, size, NULL, 0, &places) != CPAY_TOO_SMALL || kept != before) return 9;
    if (cpay_red_recover(111, 960, 10, 2880, bytes, size, 0, &packet, found, 64) || kept != before) return 6;
    if (cpay_red_encode(111, bytes, 1, &older, 1, bytes, 1, found, 64, &size) || kept != before) return 7;
    if (cpay_red_encode(111, bytes, 1, &older, 1, bytes, 1, found, 1, &size) != CPAY_TOO_SMALL || kept != before) return 8;
    return 0;
}

/* A session is freed with packets that are held, and then with a unit that is lent and one that was. */
static int left_in_session(void) {
    long before = kept;
    any it = ANY_INIT;
    cpay_session_settings settings;
    cpay_session_settings_init(&settings, CPAY_FOR_LIVE);
    const cpay_session_format format = {.spec = {.codec = CPAY_OPUS, .rate = 48000}, .payload_type = 111};
    cpay_arrival arrival = {0};
    cpay_event event = {0};
    uint8_t bytes[32];
    for (int units = 0; units < 2; units++) {
        if (cpay_session_new(&it.session, &settings, &format, 1, NULL, 0, NULL, 0)) return 1;
        for (uint8_t number = 1; number < 4; number++) {
            size_t size = packet(bytes, 111, 7, number, "x", 1);
            if (cpay_session_receive(&it.session, 0, bytes, size, &arrival) || arrival.outcome != CPAY_HELD) return 2;
        }
        if (units && (cpay_session_poll(&it.session, 0, &event) || event.kind != CPAY_EVENT_BEGUN)) return 3;
        if (units && (cpay_session_poll(&it.session, 0, &event) || event.kind != CPAY_EVENT_UNIT)) return 4;
        if (units && (cpay_session_poll(&it.session, 0, &event) || event.kind != CPAY_EVENT_UNIT)) return 5;
        if (!gives_back(&it, before)) return 6;
    }
    return 0;
}

/* A history, before its first packet, and with packets and the memory of a retransmission. */
static int left_in_history(void) {
    for (uint8_t packets = 0; packets < 4; packets++) {
        const cpay_history_settings settings = {.limit = 2};
        long before = kept;
        any it = ANY_INIT;
        uint8_t bytes[12];
        size_t size = 0;
        cpay_resent resent = CPAY_RESENT_WRITTEN;
        if (cpay_history_new(&it.history, &settings)) return 1;
        for (uint8_t number = 0; number < packets; number++) {
            const uint8_t sent[12] = {0x80, 96, 0, number, 0, 0, 0, 0, 0, 0, 0, 7};
            if (cpay_history_keep(&it.history, sent, sizeof sent, NULL)) return 2;
            if (cpay_history_resend(&it.history, 0, number, bytes, 0, &size, &resent) != CPAY_TOO_SMALL) return 3;
            if (cpay_history_resend(&it.history, 0, number, bytes, 12, &size, &resent) || bytes[3] != number) return 4;
        }
        if (!gives_back(&it, before)) return 5;
    }
    return 0;
}

/* A reporter with numbers, with a packet that waits, and with neither; and sent packets. */
static int left_in_transport(void) {
    for (int stage = 0; stage < 3; stage++) {
        long before = kept;
        any it = ANY_INIT;
        size_t size = 0;
        cpay_transport_reporter_settings settings;
        cpay_transport_reporter_settings_init(&settings, 5, 1);
        if (cpay_transport_reporter_new(&it.transport_reporter, &settings, (const uint8_t *)"me", 2)) return 1;
        if (stage > 0 && numbered(&it.transport_reporter, 0, 1)) return 2;
        if (stage > 1 && cpay_transport_reporter_poll(&it.transport_reporter, 0, NULL, 0, &size) != CPAY_TOO_SMALL) return 3;
        if (!gives_back(&it, before)) return 4;
        uint16_t number = 0;
        if (cpay_sent_packets_new(&it.sent_packets, 4)) return 5;
        for (int i = 0; i < 3 * stage; i++)
            if (cpay_sent_packets_assign(&it.sent_packets, 0, &number)) return 6;
        if (!gives_back(&it, before)) return 7;
    }
    return 0;
}

/* A path with packets that wait, after feedback and a choice, and without; and a limit of retransmissions. */
static int left_in_path(void) {
    static const uint8_t feedback[24] = {0x8f, 205, 0, 5, 0, 0, 0, 1, 0, 0, 0, 7, 0, 0, 0, 2, 0, 0, 1, 0, 0x20, 2, 0, 0};
    static const cpay_path_choice choices[2] = {{.rate = 1}, {.rate = 2}};
    const cpay_resend_limit_settings limits = {.share = 250};
    cpay_path_settings settings;
    cpay_path_settings_init(&settings);
    for (int stage = 0; stage < 3; stage++) {
        long before = kept;
        cpay_path path = CPAY_INIT;
        cpay_resend_limit limit = CPAY_INIT;
        cpay_path_leaving leaving = {0};
        cpay_path_order_info order = {0};
        if (cpay_path_new(&path, 0, &settings) || cpay_resend_limit_new(&limit, &limits)) return 1;
        for (int i = 0; i < 3 * stage; i++) {
            const cpay_path_packet packet = {.size = 100, .kind = (cpay_path_kind)(i % 4)};
            if (cpay_path_push(&path, &packet)) return 2;
        }
        if (stage > 0 && cpay_path_pop(&path, 0, &leaving)) return 3;
        if (stage > 1 && (cpay_path_feedback(&path, 0, 0, feedback, sizeof feedback, false, 0) || cpay_path_choose(&path, 0, choices, 2, &order)))
            return 4;
        cpay_path_free(&path);
        cpay_resend_limit_free(&limit);
        if (kept != before) return 5;
    }
    return 0;
}

/* Packets of one size: once a history is full, no call allocates. */
static int resends_allocate(void) {
    const cpay_history_settings settings = {.limit = 4};
    cpay_history it = CPAY_INIT;
    if (cpay_history_new(&it, &settings)) return 1;
    for (uint8_t number = 0; number < 40; number++) {
        const uint8_t sent[12] = {0x80, 96, 0, number, 0, 0, 0, 0, 0, 0, 0, 7};
        uint8_t bytes[12];
        size_t size = 0;
        cpay_resent resent = CPAY_RESENT_WRITTEN;
        long steady = asked;
        if (cpay_history_keep(&it, sent, sizeof sent, NULL)) return 2;
        if (cpay_history_resend(&it, 0, number, bytes, 12, &size, &resent) || resent != CPAY_RESENT_WRITTEN) return 3;
        if (number > 8 && asked != steady) return 4;
    }
    cpay_history_free(&it);
    return 0;
}

/* Frees an object that was just made, and returns whether it took at most that many bytes since `before`. */
static bool is_within(any *it, const char *type, size_t before, size_t most) {
    size_t took = total - before;
    cpay_buffer_free(&it->buffer);
    if (took > most) printf("a new %s takes %zu bytes\n", type, took);
    return took <= most;
}

/* The number of types whose objects take more bytes than they may when they are new. */
static int too_large(void) {
    const cpay_spec opus = {.codec = CPAY_OPUS, .rate = 48000};
    const cpay_sender_settings sends = {.spec = opus, .mtu = MTU, .ssrc = 7, .payload_type = 111};
    cpay_session_settings port;
    cpay_session_settings_init(&port, CPAY_FOR_LIVE);
    const cpay_session_format format = {.spec = opus, .payload_type = 111};
    const cpay_history_settings keeps = {.limit = 512};
    cpay_forwarder_settings forwards;
    cpay_forwarder_settings_init(&forwards, CPAY_VP8, 9, 101);
    cpay_adaptive_wait_settings waits;
    cpay_adaptive_wait_settings_init(&waits);
    cpay_transport_reporter_settings reports;
    cpay_transport_reporter_settings_init(&reports, 5, 1);
    static const uint32_t distance = 1;
    cpay_receiver_settings receives;
    cpay_receiver_settings_init(&receives, CPAY_OPUS, 48000, 111, CPAY_FOR_LIVE);
    any it = ANY_INIT;
    int bad = 0;
    size_t before = total;
    receives.spec = opus;
    receives.payload_type = 111;
#define TAKES(most, type, call) bad += (before = total, (call) != CPAY_OK) || !is_within(&it, type, before, most)
    TAKES(200, "packetizer", cpay_packetizer_new(&it.packetizer, &opus));
    TAKES(350, "depacketizer", cpay_depacketizer_new(&it.depacketizer, &opus));
    TAKES(650, "buffer", cpay_buffer_new(&it.buffer, &opus, 0, 64));
    TAKES(150, "sender of RED", cpay_red_sender_new(&it.red_sender, 63, 111, &distance, 1));
    TAKES(1200, "sender", cpay_sender_new(&it.sender, &sends));
    TAKES(200, "history", cpay_history_new(&it.history, &keeps));
    TAKES(400, "forwarder", cpay_forwarder_new(&it.forwarder, &forwards));
    TAKES(1750, "receiver", cpay_receiver_new(&it.receiver, &receives, NULL, 0));
    TAKES(1900, "adaptive wait", cpay_adaptive_wait_new(&it.adaptive_wait, &waits));
    TAKES(350, "counter of freezes", cpay_freezes_new(&it.freezes, 1000));
    TAKES(250, "transport reporter", cpay_transport_reporter_new(&it.transport_reporter, &reports, NULL, 0));
    TAKES(100, "list of sent packets", cpay_sent_packets_new(&it.sent_packets, 2048));
    TAKES(1680, "session", cpay_session_new(&it.session, &port, &format, 1, NULL, 0, NULL, 0));
    return bad;
}

/* Units of a receiver and of a buffer, with one byte each. 0 if the bytes are right, a unit that waits stays, the values of the
 * unit before stay until then, and only the first two pops allocate. */
static int pops_allocate(void) {
    long before = kept;
    cpay_receiver_settings receives;
    cpay_receiver_settings_init(&receives, CPAY_OPUS, 48000, 111, CPAY_FOR_LIVE);
    const cpay_spec opus = {.codec = CPAY_OPUS, .rate = 48000};
    cpay_receiver receiver = CPAY_INIT;
    cpay_buffer buffer = CPAY_INIT;
    cpay_extension_values values;
    cpay_unit unit;
    uint8_t bytes[32];
    cpay_outcome outcome;
    receives.spec = opus;
    receives.payload_type = 111;
    receives.start = 0;
    receives.has_ssrc = true;
    receives.ssrc = 7;
    receives.extension_ids.audio_level = 1;
    if (cpay_receiver_new(&receiver, &receives, NULL, 0) || cpay_buffer_new(&buffer, &opus, 0, 64)) return 1;
    for (uint8_t number = 1; number < 9; number++) {
        const uint8_t levelled[21] = {0x90, 111, 0, number, 0, 0, 0, number, 0, 0, 0, 7,
                                      0xbe, 0xde, 0, 1, 0x10, number, 0, 0, number};
        cpay_received received = {.number = number, .rtp_time = number};
        if (cpay_receiver_receive(&receiver, 0, levelled, sizeof levelled, &outcome)) return 2;
        if (cpay_buffer_push(&buffer, &received, &number, 1)) return 3;
        long popped = asked;
        if (cpay_receiver_pop(&receiver, 0, &unit, bytes, 0) != CPAY_TOO_SMALL || unit.first % 65536 != number) return 4;
        if (number > 1 && (cpay_receiver_values(&receiver, &values) || values.audio_level != 1 - number)) return 5;
        if (cpay_receiver_pop(&receiver, 0, &unit, bytes, 1) || unit.first % 65536 != number || bytes[0] != number) return 6;
        if (cpay_receiver_values(&receiver, &values) || values.audio_level != -number) return 7;
        if (cpay_receiver_pop(&receiver, 0, &unit, bytes, 1) != CPAY_NONE) return 8;
        if (cpay_buffer_pop(&buffer, &unit, bytes, 0) != CPAY_TOO_SMALL || unit.first != number) return 9;
        if (cpay_buffer_pop(&buffer, &unit, bytes, 1) || unit.first != number || bytes[0] != number) return 10;
        if (number > 2 && asked != popped) return 11;
    }
    cpay_receiver_free(&receiver);
    cpay_buffer_free(&buffer);
    return kept == before ? 0 : 12;
}

/* Units of a receiver that are lent, with one byte each, and with `more` once. 0 if the bytes are right, only the first two loans of
 * small units allocate, and a receiver that is freed while it lends keeps nothing. */
static int loans_allocate(size_t more) {
    long before = kept;
    static uint8_t datagram[12 + 60000] = {0x80, 111};
    cpay_receiver_settings receives;
    cpay_receiver_settings_init(&receives, CPAY_OPUS, 48000, 111, CPAY_FOR_LIVE);
    cpay_receiver receiver = CPAY_INIT;
    cpay_unit unit;
    cpay_outcome outcome;
    const uint8_t *at = NULL;
    receives.start = 0;
    receives.has_ssrc = true;
    receives.ssrc = 7;
    datagram[11] = 7;
    if (cpay_receiver_new(&receiver, &receives, NULL, 0)) return 1;
    for (uint8_t number = 1; number < 12; number++) {
        size_t payload = number == 5 ? more : 1;
        datagram[3] = datagram[7] = datagram[12] = datagram[11 + payload] = number;
        if (cpay_receiver_receive(&receiver, 0, datagram, 12 + payload, &outcome)) return 2;
        long popped = asked;
        if (cpay_receiver_lend(&receiver, 0, &unit, &at) || unit.first % 65536 != number || unit.bytes != payload) return 3;
        if (at[0] != number || at[payload - 1] != number || cpay_receiver_lend(&receiver, 0, &unit, &at) != CPAY_NONE) return 4;
        if (number > 2 && (number < 5 || number > 7) && asked != popped) return 5;
        if (cpay_receiver_receive(&receiver, 0, datagram, 12 + payload, &outcome) || outcome != CPAY_LATE) return 6;
    }
    cpay_receiver_free(&receiver);
    return kept == before ? 0 : 7;
}

/* The number of uses that kept memory, or failed. */
static int leaks(void) {
    static const uint32_t codecs[4] = {CPAY_VP8, CPAY_VP9, CPAY_AV1, CPAY_NULL};
    int bad = 0, ended;
    for (size_t i = 0; i < 4; i++)
        if ((ended = left_behind(codecs[i]))) printf("memory left by codec %u: ended %d\n", (unsigned)codecs[i], ended), bad++;
    if ((ended = left_in_red())) printf("memory left by RED: ended %d\n", ended), bad++;
    if ((ended = left_in_session())) printf("memory left by a session: ended %d\n", ended), bad++;
    if ((ended = left_in_history())) printf("memory left by a history: ended %d\n", ended), bad++;
    if ((ended = left_in_transport())) printf("memory left by a transport: ended %d\n", ended), bad++;
    if ((ended = left_in_path())) printf("memory left by a path: ended %d\n", ended), bad++;
    if ((ended = resends_allocate())) printf("resends in steady state: ended %d\n", ended), bad++;
    if ((ended = pops_allocate())) printf("pops in steady state: ended %d\n", ended), bad++;
    if ((ended = loans_allocate(1))) printf("loans in steady state: ended %d\n", ended), bad++;
    if ((ended = loans_allocate(60000))) printf("loans after a large unit: ended %d\n", ended), bad++;
    return bad + too_large();
}

static int session(int *met) {
    static const uint32_t codecs[4] = {CPAY_VP8, CPAY_VP9, CPAY_AV1, CPAY_NULL};
    for (size_t i = 0; i < 4; i++) {
        int ended = video(codecs[i], met);
        if (!ended && (ended = whole_frames(codecs[i], met))) ended += 20;
        if (ended) return 100 * (int)codecs[i] + ended;
    }
    int ended = red(met);
    if (!ended) ended = datagrams(met);
    if (!ended) ended = history(met);
    if (!ended) ended = waiting(met);
    if (!ended) ended = watching(met);
    if (!ended) ended = transport(met);
    if (!ended) ended = paths(met);
    if (!ended) ended = offers(met);
    if (!ended) ended = reports(met);
    if (!ended) ended = fec_receiver(met);
    if (!ended) ended = fec_call(met);
    if (!ended) ended = port(met);
    if (!ended) ended = ending(met);
    if (!ended) ended = choosing(met);
    return ended ? ended : recovery(met);
}

int main(void) {
    int met = 0, bad = leaks(), ended;
    asked = 0;
    ended = session(&met);
    long all = asked;
    if (ended || met) printf("with all memory: ended %d, met %d\n", ended, met), bad++;
    for (refuse_at = 1; refuse_at <= all; refuse_at++) {
        asked = met = 0;
        ended = session(&met);
        /* Std may ask for more room than it needs, and ask again for less. */
        if (ended || met > 1) printf("at allocation %ld: ended %d, met %d\n", refuse_at, ended, met), bad++;
    }
    printf("%ld allocations refused in turn, %d went wrong\n", all, bad);
    return bad ? EXIT_FAILURE : EXIT_SUCCESS;
}

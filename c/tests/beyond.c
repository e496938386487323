/* Out of memory only if memory was refused. The allocator refuses nothing here, so no call may return CPAY_OUT_OF_MEMORY, however
 * large its input is: each call that allocates ([m] in the header) is made on inputs of each size, below and beyond the bounds of real
 * media, of the code and of settings. Linked with -Wl,--wrap=malloc,--wrap=realloc,--wrap=free. */
#include "codec_payload.h"
#include "refuse.h"

#include <stdio.h>
#include <stdlib.h>
#include <string.h>

enum { MOST = 70000, OPUS = 111, VP8 = 96, RED = 63, RTX = 97, EVENTS = 126, ID = 5 };

static long calls, bad;

/* Counts a call, and whether it says out of memory though no allocation failed. */
static cpay_status told_at(cpay_status status, const char *call, size_t size, int line) {
    calls++;
    if (status == CPAY_OUT_OF_MEMORY && !refused) {
        bad++;
        printf("beyond.c:%d: out of memory at size %zu: %s\n", line, size, call);
    }
    return status;
}

#define TOLD(call) told_at((call), #call, size, __LINE__)
/* A call without another fault. */
#define MADE(call) \
    do { \
        cpay_status made_as = TOLD(call); \
        if (made_as && made_as != CPAY_OUT_OF_MEMORY) bad++, printf("beyond.c:%d: status %d at size %zu\n", __LINE__, (int)made_as, size); \
    } while (0)

static uint8_t frame[MOST], room[40 * MOST];

static size_t least(size_t size, size_t most) { return size < most ? size : most; }

/* An RTP packet with the marker and a payload of that many bytes, in `out`. */
static size_t packet(uint8_t *out, uint8_t type, uint32_t ssrc, uint32_t number, const uint8_t *payload, size_t size) {
    const uint8_t header[12] = {0x80, (uint8_t)(0x80 | type), (uint8_t)(number >> 8), (uint8_t)number, (uint8_t)(number >> 24),
                                (uint8_t)(number >> 16), (uint8_t)(number >> 8), (uint8_t)number, (uint8_t)(ssrc >> 24),
                                (uint8_t)(ssrc >> 16), (uint8_t)(ssrc >> 8), (uint8_t)ssrc};
    memcpy(out, header, sizeof header);
    memcpy(out + 12, payload, size);
    return 12 + size;
}

/* A keyframe of VP8 with a transport-wide number (RFC 8285, section 4.2; RFC 7741, section 4.2). */
static size_t numbered(uint8_t *out, uint32_t ssrc, uint32_t number) {
    const uint8_t rest[20] = {0xbe, 0xde, 0, 1, 16 * ID + 1, (uint8_t)(number >> 8), (uint8_t)number, 0,
                              0x10, 0x10, 0, 0, 0x9d, 1, 0x2a, 0x10, 0, 0x10, 0, 7};
    size_t size = packet(out, VP8, ssrc, number, rest, sizeof rest);
    out[0] |= 0x10;
    return size;
}

static void packetizers(size_t size) {
    static const uint32_t codecs[] = {CPAY_OPUS, CPAY_PCMU, CPAY_G722, CPAY_AMR_WB, CPAY_VP8, CPAY_VP9, CPAY_AV1, CPAY_NULL};
    static cpay_placed_packet places[2 * MOST];
    for (size_t i = 0; i < sizeof codecs / sizeof *codecs; i++) {
        const cpay_spec spec = {.codec = codecs[i], .rate = 90000, .vp8_ids = true, .first_id = 32767};
        const cpay_frame_cut cut = {.mtu = 60, .headroom = 12, .tailroom = 10};
        cpay_packetizer it = CPAY_INIT;
        cpay_depacketizer pieces = CPAY_INIT;
        cpay_frame_room wanted = {0, 0};
        cpay_packet_info info;
        cpay_extra extra;
        size_t count = 0, all = 0;
        memset(frame, 0x82, sizeof frame);
        if (codecs[i] == CPAY_AV1)
            for (size_t k = 0; k + 3 <= size; k += 3) memcpy(frame + k, "\x32\1\x09", 3);
        MADE(cpay_packetizer_new(&it, &spec));
        MADE(cpay_depacketizer_new(&pieces, &spec));
        (void)!TOLD(cpay_packetize(&it, 60, true, frame, size, &count));
        while (cpay_packet(&it, &info, room, sizeof room) == CPAY_OK) (void)!TOLD(cpay_depacketize(&pieces, room, info.bytes));
        (void)!TOLD(cpay_depacketize(&pieces, frame, size));
        (void)!TOLD(cpay_depacketized(&pieces, &all, &extra, room, sizeof room));
        (void)!TOLD(cpay_packetize_into(&it, &cut, frame, size, room, sizeof room, places, 2 * MOST, &wanted));
        cpay_packetizer_free(&it);
        cpay_depacketizer_free(&pieces);
    }
}

static void buffers(size_t size) {
    const cpay_spec spec = {.codec = CPAY_OPUS, .rate = 48000};
    cpay_buffer it = CPAY_INIT;
    cpay_unit unit;
    MADE(cpay_buffer_new(&it, &spec, SIZE_MAX, size ? least(size, 65536) : 1));
    for (uint64_t number = 0; number < least(size, 20000) + 1; number++) {
        const cpay_received received = {.number = number * 7919 % 65521, .rtp_time = number, .marker = true};
        MADE(cpay_buffer_push(&it, &received, frame, number == 9 ? size : 20));
    }
    MADE(cpay_buffer_set_hold_back(&it, 0));
    while (TOLD(cpay_buffer_pop(&it, &unit, room, sizeof room)) == CPAY_OK) {
    }
    cpay_buffer_free(&it);
}

static void red(size_t size) {
    static const uint32_t all[8] = {1, 2, 3, 4, 5, 6, 7, 8};
    static cpay_red_older older[MOST];
    static uint8_t payload[2 * MOST];
    cpay_red_block_place places[33];
    cpay_red_block_info block;
    cpay_recovered_info recovered;
    cpay_red_sender it = CPAY_INIT;
    size_t found = 0, count = 0;
    MADE(cpay_red_sender_new(&it, RED, OPUS, all, 8));
    for (uint32_t i = 0; i < 20; i++) MADE(cpay_red_wrap(&it, 960 * i, MOST, frame, size, room, sizeof room, &found));
    cpay_red_sender_free(&it);
    for (size_t i = 0; i < size; i++)
        older[i] = (cpay_red_older){.start = 0, .bytes = least(size, 1023), .offset = (uint32_t)(i % 16384), .payload_type = OPUS};
    MADE(cpay_red_encode(OPUS, frame, size, older, size, frame, 1023, payload, sizeof payload, &found));
    MADE(cpay_red_blocks(payload, found, places, 33, &count));
    for (size_t i = 0; i < count; i++) {
        MADE(cpay_red_block(payload, found, i, &block, room, sizeof room));
        (void)!TOLD(cpay_red_recover(OPUS, 1, 70000, 70000, payload, found, i, &recovered, room, sizeof room));
    }
}

/* A sender, a history of all its datagrams, and two viewers. */
static void senders(size_t size) {
    const cpay_spec spec = {.codec = CPAY_VP8, .rate = 90000, .vp8_ids = true};
    const cpay_sender_settings sends = {.spec = spec, .mtu = 60, .ssrc = 7, .payload_type = VP8, .extension_ids = {.audio_level = 6}};
    const cpay_sample sample = {.values = {.audio_level = -1, .has_audio_level = true}};
    const cpay_history_settings keeps = {.limit = size ? least(size, CPAY_MAX_HISTORY) : 1, .rtx_ssrc = 9, .rtx_payload_type = RTX,
                                         .has_rtx = true};
    cpay_forwarder_settings forwards;
    cpay_forwarder_settings_init(&forwards, CPAY_VP8, 1, VP8);
    forwards.has_rtx = true;
    forwards.rtx_payload_type = RTX;
    cpay_sender sender = CPAY_INIT;
    cpay_history history = CPAY_INIT, arrived = CPAY_INIT;
    cpay_forwarder forwarder = CPAY_INIT;
    cpay_kept kept_as;
    cpay_kept_once once;
    cpay_resent resent;
    cpay_forwarded forwarded;
    size_t count = 0, found = 0;
    memset(frame, 0x10, sizeof frame);
    MADE(cpay_sender_new(&sender, &sends));
    MADE(cpay_history_new(&history, &keeps));
    MADE(cpay_history_new(&arrived, &(cpay_history_settings){.limit = keeps.limit}));
    MADE(cpay_forwarder_new(&forwarder, &forwards));
    MADE(cpay_forwarder_want(&forwarder, 7));
    MADE(cpay_sender_send_sample(&sender, &sample, frame, least(size, 1000), &count));
    MADE(cpay_sender_send(&sender, 0, false, frame, size, &count));
    for (size_t i = 0; i < count; i++) {
        MADE(cpay_sender_datagram(&sender, i, room, sizeof room, &found));
        MADE(cpay_history_keep(&history, room, found, &kept_as));
        MADE(cpay_history_keep_once(&arrived, room, found, &once));
        if (i % 3 == 1) MADE(cpay_forwarder_leave_out(&forwarder, room, found, room + MOST, MOST, &found, &forwarded));
        else MADE(cpay_forwarder_write(&forwarder, i, room, found, room + MOST, MOST, &found, &forwarded));
    }
    uint8_t *large = room + MOST;
    size_t bytes = packet(large, VP8, 7, 60000, frame, least(size, 65000));
    MADE(cpay_history_keep(&history, large, bytes, &kept_as));
    MADE(cpay_history_keep_once(&arrived, large, bytes, &once));
    MADE(cpay_forwarder_write(&forwarder, 1, large, bytes, room, MOST, &found, &forwarded));
    for (uint32_t number = 0; number < 65536; number += number < 40 ? 1 : 7493) {
        MADE(cpay_history_resend(&history, 9, (uint16_t)number, room, MOST, &found, &resent));
        MADE(cpay_forwarder_resend(&forwarder, &arrived, (uint16_t)number, room, MOST, &found, &resent));
    }
    if (cpay_history_resend(&history, 99, 60000, room, MOST, &found, &resent) == CPAY_OK && found)
        MADE(cpay_rtx_original(7, VP8, room, found, large, MOST, &found));
    (void)!TOLD(cpay_history_keep(&history, frame, size, &kept_as));
    (void)!TOLD(cpay_rtx_original(7, VP8, frame, size, room, sizeof room, &found));
    cpay_sender_free(&sender);
    cpay_history_free(&history);
    cpay_history_free(&arrived);
    cpay_forwarder_free(&forwarder);
}

/* Packets with gaps that wait, payload types without media, RED, retransmissions, and a large datagram. */
static void receivers(size_t size) {
    static uint8_t payload[2 * MOST];
    uint8_t no_media[100];
    cpay_receiver_settings receives;
    cpay_receiver_settings_init(&receives, CPAY_OPUS, 48000, OPUS, CPAY_FOR_FILE);
    receives.has_red = receives.has_rtx = true;
    receives.red_payload_type = RED;
    receives.red_step = 1;
    receives.rtx_payload_type = RTX;
    receives.rtx_ssrc = 9;
    receives.limit = size < 2 ? 2 : least(size, 65533);
    receives.max_unit = CPAY_NO_MAX_UNIT;
    receives.start = SIZE_MAX;
    for (uint8_t i = 0; i < sizeof no_media; i++) no_media[i] = i < RED ? i : (uint8_t)(i + 1 + (i + 1 >= RTX));
    cpay_receiver it = CPAY_INIT;
    cpay_outcome outcome;
    cpay_unit unit;
    size_t count = least(size, 33);
    MADE(cpay_receiver_new(&it, &receives, no_media, least(size, 90)));
    for (uint32_t number = 0; number < least(size, 6000); number++) {
        size_t bytes = packet(room, number % 3 ? OPUS : 13, 7, 4 * number, frame, 30);
        (void)!TOLD(cpay_receiver_receive(&it, number, room, bytes, &outcome));
        frame[0] = (uint8_t)((4 * number - 1) >> 8), frame[1] = (uint8_t)(4 * number - 1);
        bytes = packet(room, RTX, 9, number, frame, 30);
        (void)!TOLD(cpay_receiver_receive(&it, number, room, bytes, &outcome));
    }
    for (size_t i = 0; i < count; i++) memcpy(payload + 4 * i, "\xef\0\4\1", 4), payload[4 * i + 2] = (uint8_t)(4 * (count - i));
    payload[4 * count] = OPUS;
    size_t bytes = packet(room, RED, 7, 25000, payload, 4 * count + 1 + least(size + count, 60000));
    (void)!TOLD(cpay_receiver_receive(&it, 0, room, bytes, &outcome));
    (void)!TOLD(cpay_receiver_receive(&it, 0, frame, size, &outcome));
    MADE(cpay_receiver_finish(&it));
    const uint8_t *at = NULL;
    cpay_status status = CPAY_OK;
    for (int i = 0; status == CPAY_OK; i++)
        status = i % 2 ? TOLD(cpay_receiver_lend(&it, 9, &unit, &at)) : TOLD(cpay_receiver_pop(&it, 9, &unit, room, sizeof room));
    cpay_receiver_free(&it);
}

/* Reports of arrivals, and what their reader makes of them. */
static void transport(size_t size) {
    static cpay_packet_arrival packets[MOST];
    static uint32_t ssrcs[255];
    cpay_transport_reporter_settings settings;
    cpay_transport_reporter_settings_init(&settings, ID, 1);
    settings.size = SIZE_MAX;
    settings.window = size ? least(size, 32768) : 1;
    cpay_transport_reporter it = CPAY_INIT;
    cpay_sent_packets sent = CPAY_INIT;
    cpay_transport_feedback_info info;
    uint16_t number = 0;
    size_t found = 0;
    MADE(cpay_transport_reporter_new(&it, &settings, frame, least(size, 255)));
    MADE(cpay_sent_packets_new(&sent, settings.window));
    for (uint32_t i = 0; i < least(size, 33000); i++) {
        MADE(cpay_sent_packets_assign(&sent, i, &number));
        size_t bytes = numbered(room, 7, 2 * i);
        MADE(cpay_transport_reporter_receive(&it, 20 * i, room, bytes));
    }
    for (int i = 0; i < 9 && TOLD(cpay_transport_reporter_poll(&it, 1000000, room, sizeof room, &found)) == CPAY_OK; i++)
        (void)!TOLD(cpay_read_transport_feedback(room, found, false, 0, &info, packets, MOST));
    MADE(cpay_write_remb(1, UINT64_MAX, ssrcs, least(size, 255), room, sizeof room, &found));
    size_t bytes = packet(room, VP8, 7, 1, frame, least(size, 65000));
    MADE(cpay_number_datagram(ID, 9, room, bytes, room + MOST, MOST, &found));
    /* one that says that it reports on this many packets, all of which arrived */
    memset(room, 1, 3 * MOST);
    const uint8_t head[20] = {0x8f, 205, 0, 0, 0, 0, 0, 1, 0, 0, 0, 7, 0, 0, (uint8_t)(size >> 8), (uint8_t)size, 0, 0, 0, 0};
    memcpy(room, head, sizeof head);
    size_t at = sizeof head;
    for (size_t left = size; left; left -= least(left, 8191), at += 2)
        room[at] = (uint8_t)(0x20 | least(left, 8191) >> 8), room[at + 1] = (uint8_t)least(left, 8191);
    at = (at + size + 3) / 4 * 4;
    room[2] = (uint8_t)((at / 4 - 1) >> 8), room[3] = (uint8_t)(at / 4 - 1);
    MADE(cpay_read_transport_feedback(room, at, false, 0, &info, packets, MOST));
    cpay_transport_reporter_free(&it);
    cpay_sent_packets_free(&sent);
}

/* A session that requests, reports and has room for as much as its settings can say. */
static void new_session(cpay_session *it, size_t size) {
    static const uint8_t no_media[1] = {EVENTS + CPAY_TELEPHONE};
    const cpay_session_format formats[2] = {
        {.spec = {.codec = CPAY_VP8, .rate = 90000}, .payload_type = VP8, .has_rtx = true, .rtx_payload_type = RTX, .nack = true, .pli = true},
        {.spec = {.codec = CPAY_OPUS, .rate = 48000}, .payload_type = OPUS, .nack = true},
    };
    static cpay_ssrc_pair pairs[1000];
    cpay_session_settings settings;
    cpay_settings_fault fault;
    cpay_session_settings_init(&settings, CPAY_FOR_LIVE);
    MADE(cpay_session_settings_feedback(&settings, 1, frame, size ? least(size, 255) : 1));
    settings.feedback.capacity = settings.feedback.max_report = SIZE_MAX;
    settings.feedback.has_report = settings.feedback.has_report_interval = true;
    settings.feedback.report_interval = 1;
    settings.has_transport = true;
    settings.transport = (cpay_session_transport){.interval = 1, .size = SIZE_MAX, .window = 32768, .extension_id = ID};
    settings.probation = 1;
    settings.max_streams = SIZE_MAX;
    settings.max_unit = CPAY_NO_MAX_UNIT;
    for (uint32_t i = 0; i < 1000; i++) pairs[i] = (cpay_ssrc_pair){100000 + i, 200000 + i};
    MADE(cpay_session_settings_check(&settings, formats, 2, no_media, 1, &fault));
    MADE(cpay_session_new(it, &settings, formats, 2, no_media, 1, pairs, least(size, 1000)));
}

/* Streams, missing numbers in a row and each second one, telephone events, and a large datagram. */
static void sessions(size_t size) {
    static const uint8_t digit[4] = {5, 0x8a, 3, 0x20};
    static const uint64_t times[5] = {0, 15, 200, 2000, 30000};
    cpay_session it = CPAY_INIT;
    cpay_session_format formats[40];
    cpay_arrival arrival;
    cpay_event event;
    new_session(&it, size);
    for (uint32_t i = 0; i < least(size, 400); i++) {
        size_t bytes = numbered(room, 1000 + i, 1);
        MADE(cpay_session_receive_at(&it, 0, i, room, bytes, &arrival));
        bytes = numbered(room, 1000 + i, 3);
        MADE(cpay_session_receive(&it, 0, room, bytes, &arrival));
        MADE(cpay_session_add_pair(&it, 1000 + i, 300000 + i));
    }
    for (uint32_t i = 0; i <= least(size, 3000); i++) {
        size_t bytes = numbered(room, 5, 2 * i);
        MADE(cpay_session_receive(&it, 0, room, bytes, &arrival));
    }
    size_t bytes = numbered(room, 6, 0);
    MADE(cpay_session_receive(&it, 0, room, bytes, &arrival));
    bytes = numbered(room, 6, (uint32_t)least(size, 2900) + 1);
    MADE(cpay_session_receive(&it, 0, room, bytes, &arrival));
    for (uint32_t i = 0; i < least(size, 200); i++) {
        bytes = packet(room, EVENTS, 5, 10000 + i, digit, sizeof digit);
        MADE(cpay_session_receive(&it, 0, room, bytes, &arrival));
    }
    bytes = packet(room, OPUS, 8, 1, frame, least(size, 65000));
    MADE(cpay_session_receive(&it, 0, room, bytes, &arrival));
    MADE(cpay_session_receive(&it, 0, frame, size, &arrival));
    for (size_t i = 0; i < 5; i++)
        while (TOLD(cpay_session_poll(&it, times[i], &event)) == CPAY_OK) {
        }
    for (uint8_t i = 0; i < 40; i++)
        formats[i] = (cpay_session_format){.spec = {.codec = CPAY_OPUS, .rate = 48000}, .payload_type = i};
    MADE(cpay_session_set_formats(&it, 30000, formats, least(size, 40)));
    cpay_session_free(&it);
}

static void waits(size_t size) {
    cpay_adaptive_wait_settings settings;
    cpay_adaptive_wait_settings_init(&settings);
    settings.longest = (uint64_t)size << 40;
    cpay_adaptive_wait it = CPAY_INIT;
    MADE(cpay_adaptive_wait_new(&it, &settings));
    cpay_adaptive_wait_free(&it);
    cpay_freezes seen = CPAY_INIT;
    MADE(cpay_freezes_new(&seen, (uint32_t)size + 1));
    cpay_freezes_free(&seen);
}

/* RTCP that a caller writes itself: with the longest name, and with all blocks of a report. */
static void rtcp(size_t size) {
    const cpay_sender_report_info report = {.ssrc = (uint32_t)size};
    static cpay_report_block_info blocks[31];
    size_t found = 0;
    MADE(cpay_write_pli(1, (uint32_t)size, room, sizeof room, &found));
    MADE(cpay_write_fir(1, (uint32_t)size, (uint8_t)size, room, sizeof room, &found));
    MADE(cpay_write_bye(1, frame, least(size, 255), room, sizeof room, &found));
    MADE(cpay_write_cname(1, frame, least(size, 255), room, sizeof room, &found));
    MADE(cpay_write_sender_report(size, &report, blocks, least(size, 31), room, sizeof room, &found));
    MADE(cpay_write_receiver_report(1, blocks, least(size, 31), room, sizeof room, &found));
}

/* A path on which that many packets wait and leave, with feedback about as many, and as many choices of layers. */
static void paths(size_t size) {
    static cpay_path_choice choices[MOST];
    static uint16_t numbers[MOST];
    cpay_path_settings settings;
    cpay_path_settings_init(&settings);
    settings.bound = UINT64_MAX;
    settings.start = UINT64_MAX;
    const cpay_resend_limit_settings limits = {.share = UINT32_MAX, .half_window = UINT64_MAX};
    cpay_path it = CPAY_INIT;
    cpay_resend_limit limit = CPAY_INIT;
    cpay_path_leaving leaving = {0};
    cpay_path_order_info order = {0};
    size_t count = 0;
    MADE(cpay_path_new(&it, 0, &settings));
    MADE(cpay_resend_limit_new(&limit, &limits));
    for (uint32_t i = 0; i < size; i++) {
        const cpay_path_packet packet = {.id = i, .size = (uint32_t)size, .kind = (cpay_path_kind)(i % 4)};
        MADE(cpay_path_push(&it, &packet));
    }
    for (uint64_t now = 0; now < size; now++)
        if (cpay_path_pop(&it, now << 32, &leaving)) bad++;
    /* one that says that all of them are missing */
    const uint8_t head[20] = {0x8f, 205, 0, 0, 0, 0, 0, 1, 0, 0, 0, 7, 0, 0, (uint8_t)(size >> 8), (uint8_t)size, 0, 0, 0, 0};
    memcpy(room, head, sizeof head);
    size_t at = sizeof head;
    for (size_t left = size; left; left -= least(left, 8191), at += 2)
        room[at] = (uint8_t)(least(left, 8191) >> 8), room[at + 1] = (uint8_t)least(left, 8191);
    room[at] = room[at + 1] = 0;
    at = (at + 3) / 4 * 4;
    room[2] = (uint8_t)((at / 4 - 1) >> 8), room[3] = (uint8_t)(at / 4 - 1);
    MADE(cpay_path_lost(&it, room, at, false, 0, numbers, MOST, &count));
    MADE(cpay_path_feedback(&it, UINT64_MAX, 1, room, at, false, 0));
    MADE(cpay_path_choose(&it, UINT64_MAX, choices, size, &order));
    cpay_path_free(&it);
    cpay_resend_limit_free(&limit);
    const cpay_rate_offer_settings offers = {.start = size, .most = UINT64_MAX, .wants = UINT64_MAX};
    cpay_rate_offer offer = CPAY_INIT;
    MADE(cpay_rate_offer_new(&offer, &offers));
    cpay_rate_offer_free(&offer);
}

/* Reports about that many packets, and FEC over as many bytes. */
static void reports(size_t size) {
    static cpay_ccfb_packet packets[16384];
    static uint8_t fec[2 * MOST];
    const cpay_xr_exchange exchange = {.has_peer = true, .peer_arrived = (uint32_t)size};
    cpay_ccfb_info info = {.ssrc = (uint32_t)size};
    cpay_packet_store store = CPAY_INIT;
    size_t found = 0;
    MADE(cpay_xr_write(&exchange, 1, (uint32_t)size + 1, UINT64_MAX, room, sizeof room, &found));
    MADE(cpay_ccfb_write(&info, packets, least(size, 16384), room, sizeof room, &found));
    MADE(cpay_ccfb_read(room, found, false, 0, 0, &info, packets, 16384));
    MADE(cpay_packet_store_new(&store, 512 * size));
    size_t bytes = packet(room, VP8, 7, 1, frame, least(size, 65000));
    MADE(cpay_packet_store_keep(&store, room, bytes));
    /* it protects this packet and the next one, which is missing: of another length */
    const uint8_t head[14] = {0, 0, 0, 1, 0, 0, 0, 0, 0, 1, (uint8_t)(least(size, 65535) >> 8), (uint8_t)least(size, 65535), 0xc0, 0};
    memcpy(fec, head, sizeof head);
    cpay_status status = TOLD(cpay_packet_store_rebuild(&store, 7, fec, sizeof head + least(size, 65535), room, sizeof room, &found));
    if (status && status != CPAY_NONE && status != CPAY_OUT_OF_MEMORY) bad++;
    cpay_packet_store_free(&store);
    const cpay_fec_receiver_settings settings = {.bytes = 512 * size, .ssrc = 7, .red_type = 116, .fec_type = 117};
    cpay_fec_receiver receiver = CPAY_INIT;
    MADE(cpay_fec_receiver_new(&receiver, &settings));
    bytes = packet(room, VP8, 7, 1, frame, least(size, 65000));
    MADE(cpay_fec_receiver_receive(&receiver, room, bytes));
    bytes = packet(room, 117, 7, 1, fec, sizeof head + least(size, 65000));
    MADE(cpay_fec_receiver_receive(&receiver, room, bytes));
    status = TOLD(cpay_fec_receiver_next(&receiver, room, sizeof room, &found));
    if (status && status != CPAY_NONE && status != CPAY_OUT_OF_MEMORY) bad++;
    cpay_fec_receiver_free(&receiver);
}

/* Packets of a frame with as many bytes in all, their FEC, and a port that misses the last one. */
static void fec_ports(size_t size) {
    const cpay_fec_sender_settings sends = {.ssrc = 7, .red_type = 116, .fec_type = 117, .protection = 255};
    static const cpay_retransmission_type pairs[128];
    cpay_fec_port_settings receives;
    cpay_fec_sender sender = CPAY_INIT;
    cpay_fec_port port = CPAY_INIT;
    cpay_lent_packet lent = {room, 0};
    size_t count = 0, found = 0;
    bool ends = false;
    cpay_fec_port_settings_init(&receives);
    receives.red_type = 116, receives.fec_type = 117, receives.bytes = 512 * size + 1, receives.max_streams = 256;
    cpay_status status = TOLD(cpay_fec_port_new(&port, &receives, pairs, least(size, 128)));
    if (status && status != CPAY_OUT_OF_MEMORY) bad++;
    MADE(cpay_fec_sender_new(&sender, &sends));
    for (uint8_t number = 0; number < 3; number++) {
        MADE(cpay_fec_sender_push(&sender, room, packet(room, VP8, 7, number, frame, least(size, 65000)), &lent, &ends));
        if (number < 2) MADE(cpay_fec_port_receive(&port, lent.at, lent.bytes, &lent));
    }
    MADE(cpay_fec_sender_finish_frame(&sender, false, &count));
    for (size_t i = 0; i < count; i++) {
        if (cpay_fec_sender_packet(&sender, i, room, sizeof room, &found)) bad++;
        MADE(cpay_fec_port_receive(&port, room, found, &lent));
        status = TOLD(cpay_fec_port_next(&port, &lent));
        if (status && status != CPAY_NONE && status != CPAY_OUT_OF_MEMORY) bad++;
    }
    cpay_fec_sender_free(&sender);
    cpay_fec_port_free(&port);
}

int main(void) {
    static const size_t sizes[] = {0, 1, 2, 3, 4, 5, 8, 9, 10, 16, 17, 31, 32, 33, 63, 64, 65, 128, 129, 255, 256, 257, 1023, 1024, 1025,
                                   1200, 1201, 1400, 1401, 4097, 10000, 33000, 65500};
    static void (*const made[])(size_t) = {packetizers, buffers, red, senders, receivers, transport, sessions, waits, rtcp, paths, reports,
                                          fec_ports};
    kept = 0; /* on Windows the start of a program allocates too */
    for (size_t i = 0; i < sizeof sizes / sizeof *sizes; i++)
        for (size_t k = 0; k < sizeof made / sizeof *made; k++) made[k](sizes[i]);
    if (refused || kept) bad++, printf("refused %d, kept %ld\n", refused, kept);
    printf("%ld calls with all memory, %ld went wrong\n", calls, bad);
    return bad ? EXIT_FAILURE : EXIT_SUCCESS;
}

/* codec_payload.hpp, as C++17 and as C++20: frames pass through each class and return unchanged, a moved-from object is empty,
 * and checks are counted. */
#include "codec_payload.hpp"
#include "check.h"

#include <algorithm>
#include <array>
#include <type_traits>
#include <vector>
#if __cplusplus >= 202002L
#include <span>
#endif

namespace {

const cpay_spec VP8 = {CPAY_VP8, 90000, 0, false, false, false};
const cpay_spec OPUS = {CPAY_OPUS, 48000, 0, false, false, false};

static_assert(std::is_nothrow_move_constructible_v<cpay::receiver> && !std::is_copy_constructible_v<cpay::receiver>);
static_assert(std::is_nothrow_move_assignable_v<cpay::sender> && !std::is_copy_assignable_v<cpay::sender>);
static_assert(std::is_convertible_v<std::vector<std::uint8_t> &, cpay::room>);
static_assert(std::is_convertible_v<const std::vector<std::uint8_t> &, cpay::bytes>);
static_assert(!std::is_convertible_v<const std::vector<std::uint8_t> &, cpay::room>);
static_assert(!std::is_convertible_v<std::vector<std::uint16_t> &, cpay::bytes>);
#if __cplusplus >= 202002L
static_assert(std::is_convertible_v<std::span<std::uint8_t>, cpay::room>);
static_assert(std::is_constructible_v<std::span<const std::uint8_t>, cpay::bytes>);
#endif

static_assert(std::is_convertible_v<const cpay::storage &, cpay::bytes> && !std::is_convertible_v<const cpay::storage &, cpay::room>);

/* Whether the memory has exactly these bytes. */
bool has(const cpay::storage &found, const std::vector<std::uint8_t> &wanted) {
    return std::equal(found.begin(), found.end(), wanted.begin(), wanted.end());
}

void over_datagrams() {
    cpay_sender_settings sends = {};
    sends.spec = VP8;
    sends.mtu = 1200;
    sends.payload_type = 96;
    sends.ssrc = 7;
    cpay_receiver_settings receives;
    cpay_receiver_settings_init(&receives, CPAY_VP8, 90000, 96, CPAY_FOR_LIVE);
    receives.ssrc = 7;
    receives.has_ssrc = true;
    cpay::sender from;
    cpay::receiver to;
    CHECK(from.make(sends) == CPAY_OK);
    CHECK(from.make(sends) == CPAY_FULL);
    CHECK(to.make(receives) == CPAY_OK);
    const std::vector<std::uint8_t> frame(3000, 7);
    cpay::storage datagram, found;
    std::size_t count = 0;
    cpay_outcome outcome = CPAY_HELD;
    CHECK(from.send(3000, false, frame, count) == CPAY_OK && count == 3);
    for (std::size_t place = 0; place < count; place++) {
        CHECK(from.datagram(place, datagram) == CPAY_OK);
        CHECK(to.receive(0, datagram, outcome) == CPAY_OK && outcome == CPAY_HELD);
    }
    CHECK(from.datagram(count, datagram) == CPAY_NONE && datagram.empty());
    std::array<std::uint8_t, 1500> room = {};
    std::size_t size = 0;
    CHECK(from.datagram_with_tail(0, 1500, room, size) == CPAY_TOO_SMALL && size > 1500);
    CHECK(from.datagram_with_tail(0, 16, room, size) == CPAY_OK && size <= 1484);
    cpay_sender_report_info sender_report = {};
    CHECK(from.report(0x100000003, sender_report) == CPAY_OK && sender_report.rtp_time == 3 && sender_report.packets == 3);
    CHECK(from.set_format(VP8, 97) == CPAY_OK && from.set_format(VP8, 128) == CPAY_INVALID);
    cpay::receiver moved = std::move(to);
    cpay_unit unit = {};
    CHECK(to.pop(100, unit, found) == CPAY_EMPTY);
    CHECK(moved.pop(100, unit, found) == CPAY_OK && has(found, frame) && unit.bytes == 3000);
    CHECK(moved.pop(100, unit, found) == CPAY_NONE && found.empty());
    cpay_extension_values values = {};
    CHECK(moved.values(values) == CPAY_OK && !values.has_audio_level);
    to = std::move(moved);
    std::array<std::uint64_t, 4> missing = {};
    CHECK(to.missing(missing, count) == CPAY_OK && count == 0);
    const std::uint8_t *at = nullptr;
    CHECK(to.lend(100, unit, at) == CPAY_NONE && at == nullptr && moved.lend(100, unit, at) == CPAY_EMPTY);
    cpay_receiver_counts_info counts = {};
    CHECK(to.counts(counts) == CPAY_OK && counts.units == 1);
    CHECK(to.finish() == CPAY_OK);
    to.clear();
    CHECK(to.finish() == CPAY_EMPTY);
    CHECK(to.make(receives) == CPAY_OK);
}

void over_a_port() {
    cpay_session_settings settings;
    cpay_session_settings_init(&settings, CPAY_FOR_LIVE);
    cpay_session_format formats[2] = {};
    formats[0].spec = VP8;
    formats[0].payload_type = 96;
    formats[1].spec = OPUS;
    formats[1].payload_type = 111;
    cpay_sender_settings sends = {};
    sends.spec = VP8;
    sends.mtu = 1200;
    sends.payload_type = 96;
    sends.ssrc = 7;
    cpay::sender from;
    cpay::session to;
    cpay_settings_fault fault = {};
    cpay_session_format twice[2] = {formats[0], formats[0]};
    CHECK(cpay::check_settings(settings, twice, {}, fault) == CPAY_INVALID && fault.kind == CPAY_SETTINGS_TWO_MEANINGS);
    CHECK(fault.has_format && fault.format == 1 && fault.payload_type == 96 && to.make(settings, twice) == CPAY_INVALID);
    CHECK(from.make(sends) == CPAY_OK && to.make(settings, formats) == CPAY_OK && to.make(settings, formats) == CPAY_FULL);
    const std::vector<std::uint8_t> frame(3000, 7);
    cpay::storage datagram;
    std::size_t count = 0;
    cpay_arrival arrival = {};
    CHECK(from.send(3000, false, frame, count) == CPAY_OK && count == 3);
    for (std::size_t place = 0; place < count; place++) {
        CHECK(from.datagram(place, datagram) == CPAY_OK);
        CHECK(to.receive(0, datagram, arrival) == CPAY_OK && arrival.kind == CPAY_ARRIVAL_STREAM && arrival.ssrc == 7);
    }
    CHECK(to.receive_at(0, 5, datagram, arrival) == CPAY_OK && arrival.outcome == CPAY_DUPLICATE);
    CHECK(to.restart_transport() == CPAY_OK);
    std::uint64_t at = 9;
    CHECK(to.next_deadline(at) == CPAY_OK && at == 0);
    cpay_event event = {};
    CHECK(to.poll(0, event) == CPAY_OK && event.kind == CPAY_EVENT_BEGUN && event.bytes == 0);
    CHECK(to.poll(0, event) == CPAY_NONE && event.kind == CPAY_EVENT_BEGUN);
    CHECK(to.set_wait_limits(7, 96, settings.audio) == CPAY_OK && to.set_wait_limits(8, 96, settings.audio) == CPAY_NONE);
    CHECK(to.poll(100, event) == CPAY_OK && event.kind == CPAY_EVENT_UNIT && event.bytes == frame.size());
    CHECK(std::equal(frame.begin(), frame.end(), event.data));
    cpay_extension_values values = {};
    CHECK(to.values(values) == CPAY_OK && !values.has_audio_level);
    std::array<std::uint64_t, 4> missing = {};
    bool wants = false;
    CHECK(to.missing(7, 96, missing, count) == CPAY_OK && count == 0 && to.wants_keyframe(7, 96, wants) == CPAY_OK);
    cpay_report_block_info block = {};
    cpay_sender_clock_info clock = {};
    CHECK(to.report(100, 7, 96, block) == CPAY_OK && block.ssrc == 7 && to.report(100, 8, 96, block) == CPAY_NONE);
    CHECK(to.sender_clock(7, 96, clock) == CPAY_NONE);
    cpay_stream_names names = {};
    CHECK(to.names(7, 96, names) == CPAY_OK && names.rid_len == 0 && to.names(8, 96, names) == CPAY_NONE);
    cpay_session_stream stream = {};
    cpay_session_counts_info counts = {};
    CHECK(to.stream_at(0, stream) == CPAY_OK && stream.counts.units == 1 && to.stream_at(1, stream) == CPAY_NONE);
    CHECK(to.end(100, 7) == CPAY_OK && to.finish(100) == CPAY_OK);
    CHECK(to.poll(100, event) == CPAY_OK && event.kind == CPAY_EVENT_ENDED && event.bytes == 0);
    CHECK(to.counts(counts) == CPAY_OK && counts.received == 4 && counts.ended == 4);
}

void over_payloads() {
    cpay::packetizer from;
    cpay::buffer to;
    cpay::depacketizer reads;
    CHECK(from.make(VP8) == CPAY_OK && to.make(VP8, 0, 16) == CPAY_OK && reads.make(VP8) == CPAY_OK);
    const std::vector<std::uint8_t> frame = {0x90, 0x91, 0x92};
    cpay::storage payload, found;
    std::size_t count = 0;
    cpay_packet_info info = {};
    CHECK(from.packetize(2, false, frame, count) == CPAY_OK && count == 3);
    for (std::uint64_t number = 0; number < count; number++) {
        CHECK(from.packet(info, payload) == CPAY_OK && payload.size() == 2);
        cpay_received packet = {number, 0, 3000, info.marker};
        CHECK(to.push(packet, payload) == CPAY_OK && reads.depacketize(payload) == CPAY_OK);
    }
    cpay_unit unit = {};
    cpay_extra extra = {};
    CHECK(to.pop(unit, found) == CPAY_OK && has(found, frame) && unit.last == 2);
    cpay_lent_unit lent = {};
    CHECK(reads.unit(lent) == CPAY_OK && lent.bytes == frame.size() && std::equal(frame.begin(), frame.end(), lent.at));
    CHECK(reads.depacketized(extra, found) == CPAY_OK && has(found, frame) && extra.kind == CPAY_EXTRA_VP8);
    CHECK(reads.clear() == CPAY_OK && reads.unit(lent) == CPAY_OK && lent.bytes == 0);
}

void over_a_history() {
    const std::vector<std::uint8_t> packet = {0x80, 96, 0, 5, 0, 0, 0, 0, 0, 0, 0, 7, 1};
    const std::uint8_t nack[] = {0x81, 205, 0, 3, 0, 0, 0, 1, 0, 0, 0, 7, 0, 5, 0, 1};
    const cpay_history_settings settings = {8, 10, 0, 0, 0, false};
    std::uint16_t numbers[2] = {};
    std::size_t count = 0, size = 0;
    cpay_resent resent = CPAY_RESENT_TOO_SOON;
    bool wants_keyframe = true;
    cpay::storage found;
    cpay::history kept;
    CHECK(kept.make(settings) == CPAY_OK && kept.keep(packet) == CPAY_OK);
    CHECK(cpay::read_requests(nack, 7, false, numbers, count, wants_keyframe) == CPAY_OK && count == 2 && !wants_keyframe);
    CHECK(kept.resend(0, numbers[0], cpay::room(), size, resent) == CPAY_TOO_SMALL && size == 13 && resent == CPAY_RESENT_TOO_SOON);
    CHECK(kept.resend(0, numbers[0], found, resent) == CPAY_OK && resent == CPAY_RESENT_WRITTEN && has(found, packet));
    CHECK(kept.resend(9, numbers[0], found, resent) == CPAY_OK && resent == CPAY_RESENT_TOO_SOON && found.empty());
    CHECK(kept.resend(9, numbers[1], found, resent) == CPAY_OK && resent == CPAY_RESENT_NOT_KEPT && found.empty());
}

/* A packet is kept once, forwarded to a viewer, and resent from the store. */
void over_a_forwarder() {
    const std::array<std::uint8_t, 13> packet{0x80, 96, 0, 5, 0, 0, 0, 0, 0, 0, 0, 7, 42};
    const std::array<std::uint8_t, 13> sent{0x80, 101, 0, 0, 0, 0, 0, 0, 0, 0, 0, 9, 42};
    const cpay_history_settings keeps = {8, 0, 0, 0, 0, false};
    cpay_forwarder_settings settings;
    cpay_forwarder_settings_init(&settings, CPAY_OPUS, 9, 101);
    cpay::forwarder forwarder;
    cpay::history store;
    cpay::storage to;
    cpay_kept_once kept{};
    cpay_forwarded forwarded{};
    cpay_resent resent{};
    cpay_forwarder_counts_info counts{};
    cpay_sender_report_info report{};
    std::uint32_t ssrc = 0;
    CHECK(forwarder.make(settings) == CPAY_OK && store.make(keeps) == CPAY_OK);
    CHECK(forwarder.want(7) == CPAY_OK && forwarder.wanted(ssrc) == CPAY_OK && ssrc == 7 && forwarder.source(ssrc) == CPAY_NONE);
    CHECK(store.keep_once(packet, kept) == CPAY_OK && kept == CPAY_KEPT_NEW);
    CHECK(store.keep_once(packet, kept) == CPAY_OK && kept == CPAY_KEPT_KNOWN);
    CHECK(forwarder.write(0, packet, to, forwarded) == CPAY_OK && forwarded == CPAY_FORWARDED_BEGAN);
    CHECK(to.size() == 13 && std::equal(sent.begin(), sent.end(), to.begin()));
    CHECK(forwarder.resend(store, 0, to, resent) == CPAY_OK && resent == CPAY_RESENT_WRITTEN && to.size() == 13);
    CHECK(forwarder.leave_out(packet, to, forwarded) == CPAY_OK && forwarded == CPAY_FORWARDED_FILLED && to.size() == 13);
    CHECK(forwarder.counts(counts) == CPAY_OK && counts.packets == 3 && counts.resent == 1);
    CHECK(forwarder.report(7, 0, report) == CPAY_OK && report.ssrc == 9 && report.packets == 3);
    CHECK(forwarder.mute() == CPAY_OK && forwarder.report(7, 0, report) == CPAY_NONE);
    std::array<std::uint8_t, 13> original{};
    std::size_t size = 0;
    const std::array<std::uint8_t, 15> again{0x80, 97, 0, 1, 0, 0, 0, 0, 0, 0, 0, 8, 0, 5, 42};
    CHECK(cpay::rtx_original(7, 96, again, original, size) == CPAY_OK && size == 13 && original == packet);
}

void over_an_adaptive_wait() {
    cpay_adaptive_wait_settings settings;
    cpay_adaptive_wait_settings_init(&settings);
    std::uint64_t limit = 0;
    cpay::adaptive_wait wait;
    CHECK(wait.limit(limit) == CPAY_EMPTY && wait.make(settings) == CPAY_OK && wait.make(settings) == CPAY_FULL);
    CHECK(wait.limit(limit) == CPAY_OK && limit == 200);
    const std::vector<std::uint64_t> numbers = {65536, 65537, 65538, 65539, 65540, 65541, 65542, 65543};
    CHECK(wait.missing(0, numbers) == CPAY_OK);
    for (std::uint16_t number = 0; number < 8; number++) CHECK(wait.arrived(80, number) == CPAY_OK);
    CHECK(wait.limit(limit) == CPAY_OK && limit == 100);
}

void over_freezes() {
    cpay_freeze_counts_info counts = {};
    cpay::freezes freezes;
    CHECK(freezes.counts(counts) == CPAY_EMPTY && freezes.make(0) == CPAY_INVALID && freezes.make(1000) == CPAY_OK);
    // 29 durations of 50 ms and one of 206 ms: the average is 55.2 ms
    for (std::uint64_t at = 0; at <= 1450; at += 50) CHECK(freezes.shown(at) == CPAY_OK);
    CHECK(freezes.shown(1450 + 206) == CPAY_OK && freezes.counts(counts) == CPAY_OK && counts.freezes == 1 && counts.frozen == 206);
}

void over_rtcp() {
    std::array<std::uint8_t, 64> to{};
    std::size_t size = 0;
    const std::array<cpay_report_block_info, 1> blocks = {{{2, 0, 0, 0, 0, 0, 0}}};
    const cpay_sender_report_info sent = {1, 2, 3, 4};
    const std::array<std::uint8_t, 2> name = {'m', 'e'};
    cpay_rtcp_report_info report = {};
    cpay_report_block_info block = {};
    CHECK(cpay::write_sender_report(5, sent, blocks, to, size) == CPAY_OK && size == 52);
    const cpay::bytes written{to.data(), size};
    CHECK(cpay::read_report(written, true, 0, report) == CPAY_OK && report.ntp_time == 5 && report.octets == 4 && report.is_sender);
    CHECK(cpay::read_report_block(written, true, 0, 0, block) == CPAY_OK && block.ssrc == 2);
    CHECK(cpay::write_receiver_report(1, blocks, to, size) == CPAY_OK && size == 32);
    CHECK(cpay::write_cname(1, name, to, size) == CPAY_OK && size == 16);
    CHECK(cpay::write_pli(1, 2, to, size) == CPAY_OK && size == 12 && to[1] == 206);
    CHECK(cpay::write_fir(1, 2, 3, to, size) == CPAY_OK && size == 20 && to[0] == 0x84 && to[16] == 3);
    CHECK(cpay::write_bye(1, {}, to, size) == CPAY_OK && size == 8 && to[1] == 203);
    const std::array<std::uint8_t, 4> payload = {0x90, 0x20, 0xa0, 0};
    cpay_temporal_layer_info layer = {};
    bool begins = false;
    CHECK(cpay::begins_keyframe(CPAY_VP8, payload, begins) == CPAY_OK && begins);
    CHECK(cpay::temporal_layer(CPAY_VP8, payload, layer) == CPAY_OK && layer.id == 2 && layer.sync);
}

void over_a_transport() {
    cpay_transport_reporter_settings settings;
    cpay_transport_reporter_settings_init(&settings, 5, 1);
    const std::uint8_t packet[] = {0x90, 96, 0, 1, 0, 0, 0, 0, 0, 0, 0, 7, 0xbe, 0xde, 0, 1, 0x51, 0, 0, 0};
    const std::array<std::uint8_t, 2> cname = {'m', 'e'};
    cpay::transport_reporter reporter;
    cpay::sent_packets sent;
    cpay::storage found;
    cpay_transport_feedback_info info = {};
    cpay_packet_arrival arrivals[2] = {};
    std::uint64_t at = 9, bitrate = 0;
    std::uint16_t number = 9;
    std::size_t size = 0, count = 0;
    CHECK(reporter.poll(0, found) == CPAY_EMPTY && found.empty());
    CHECK(reporter.make(settings, cname) == CPAY_OK && sent.make(8) == CPAY_OK && sent.assign(3, number) == CPAY_OK && number == 0);
    CHECK(reporter.next_deadline(at) == CPAY_NONE && reporter.receive(64, packet) == CPAY_OK);
    CHECK(reporter.next_deadline(at) == CPAY_OK && at == 0 && reporter.poll(64, found) == CPAY_OK && found.size() == 24);
    CHECK(cpay::read_transport_feedback(found, false, 0, info, arrivals) == CPAY_OK && info.count == 1 && arrivals[0].time == 256);
    CHECK(sent.sent_at(arrivals[0].number, at) == CPAY_OK && at == 3 && reporter.restart() == CPAY_OK);
    const std::uint32_t ssrcs[] = {7};
    std::array<std::uint8_t, 24> remb = {};
    std::uint32_t sources[1] = {};
    CHECK(cpay::write_remb(1, 1000, ssrcs, remb, size) == CPAY_OK && size == 24);
    CHECK(cpay::read_remb(remb, false, 0, bitrate, sources, count) == CPAY_OK && bitrate == 1000 && count == 1 && sources[0] == 7);
}

void over_a_path() {
    cpay_path_settings settings;
    cpay_path_settings_init(&settings);
    cpay_resend_limit_settings limits;
    cpay_resend_limit_settings_init(&limits);
    const std::uint8_t feedback[] = {0x8f, 205, 0, 5, 0, 0, 0, 1, 0, 0, 0, 7, 0, 0, 0, 1, 0, 0, 1, 0, 0x20, 1, 0, 0};
    const cpay_path_choice choices[] = {{1000, 0}, {2000, 0}};
    cpay_path_packet packet = {5, 100, CPAY_PATH_MEDIA};
    cpay_path_leaving leaving = {};
    cpay_path_order_info order = {};
    cpay_path_state_info state = {};
    cpay_resend_answer answer = CPAY_RESEND_SHARE;
    std::uint64_t at = 9;
    cpay::path path;
    cpay::resend_limit limit;
    CHECK(path.push(packet) == CPAY_EMPTY && path.make(0, settings) == CPAY_OK && limit.make(limits) == CPAY_OK);
    CHECK(path.next_deadline(at) == CPAY_NONE && path.push(packet) == CPAY_OK && path.push(packet) == CPAY_OK);
    CHECK(path.next_deadline(at) == CPAY_OK && at == 0 && path.remove(CPAY_PATH_MEDIA, packet) == CPAY_OK && packet.id == 5);
    CHECK(path.pop(0, leaving) == CPAY_OK && leaving.packet.id == 5 && leaving.number == 0);
    CHECK(path.feedback(50000, 50000, feedback, false, 0) == CPAY_OK && path.resend(50000, 1, 25, 50000, answer) == CPAY_OK);
    CHECK(answer == CPAY_RESEND_NOW && path.choose(50000, choices, order) == CPAY_OK && order.choice == 1 && order.rose);
    CHECK(path.state(state) == CPAY_OK && state.choice == 1 && state.waiting == 0);
    CHECK(limit.sent(0, 100) == CPAY_OK && limit.ask(0, 1, 26, 1, answer) == CPAY_OK && answer == CPAY_RESEND_SHARE);
    cpay_rate_offer_settings offers;
    cpay_rate_offer_settings_init(&offers);
    cpay::rate_offer offer;
    std::uint64_t rate = 9;
    CHECK(offer.lost() == CPAY_EMPTY && offer.make(offers) == CPAY_OK && offer.make(offers) == CPAY_FULL);
    CHECK(offer.arrived(5000000, 0x123456, 1100) == CPAY_OK && offer.arrived_by(5000001, 5000000, 1100) == CPAY_OK);
    CHECK(offer.set_wants(150000) == CPAY_OK && offer.take_due(5000001, 50000, rate) == CPAY_OK && rate == 150000);
    CHECK(offer.take_due(5000002, 50000, rate) == CPAY_NONE && offer.lost() == CPAY_OK);
}

void over_reports() {
    cpay_xr_exchange exchange = {};
    cpay_ccfb_info info = {};
    cpay_fec_info protects = {};
    cpay_ccfb_packet packets[2] = {{5, 1, true}, {}};
    std::array<std::uint8_t, 64> to = {};
    std::size_t size = 0;
    bool answered = true;
    CHECK(cpay::xr_write(exchange, 1, 1000, 1000, to, size) == CPAY_OK && size == 20);
    CHECK(cpay::xr_receive(exchange, 2, 1000, 0, cpay::bytes(to.data(), size), false, answered) == CPAY_OK && !answered);
    CHECK(exchange.has_peer && exchange.peer_ssrc == 1 && !cpay_xr_sent(&exchange) && !exchange.has_peer);
    CHECK(cpay::ccfb_write(info, packets, to, size) == CPAY_OK && size == 24);
    CHECK(cpay::ccfb_read(cpay::bytes(to.data(), size), false, 0, 0, info, packets) == CPAY_OK && info.count == 2);
    CHECK(packets[0].offset == 5 && packets[0].ecn == 1 && packets[0].arrived && !packets[1].arrived);
    const std::uint8_t fec[] = {0, 0, 0, 8, 0, 0, 0, 0, 0, 0, 0, 0, 0xc0, 0};
    const std::uint8_t sent[] = {0x80, 96, 0, 8, 0, 0, 0, 3, 0, 0, 0, 7};
    cpay::packet_store store;
    CHECK(cpay::fec_read(fec, protects) == CPAY_OK && protects.base == 8 && protects.mask == 0xc00000000000);
    CHECK(store.keep(sent) == CPAY_EMPTY && store.make(51200) == CPAY_OK && store.keep(sent) == CPAY_OK);
    CHECK(store.rebuild(7, fec, to, size) == CPAY_OK && size == 12 && to[3] == 9);
    std::uint8_t in_packet[26] = {0x80, 117, 0, 10, 0, 0, 0, 3, 0, 0, 0, 7};
    std::copy(std::begin(fec), std::end(fec), in_packet + 12);
    cpay_fec_receiver_settings settings = {};
    settings.bytes = 51200, settings.ssrc = 7, settings.red_type = 116, settings.fec_type = 117;
    cpay::fec_receiver receiver;
    CHECK(receiver.receive(sent) == CPAY_EMPTY && receiver.make(settings) == CPAY_OK && receiver.receive(sent) == CPAY_OK);
    CHECK(receiver.receive(in_packet) == CPAY_OK && receiver.next(to, size) == CPAY_OK && size == 12 && to[3] == 9);
    CHECK(receiver.next(to, size) == CPAY_NONE && receiver.restart() == CPAY_OK);
}

void over_fec() {
    const std::uint8_t first[] = {0x80, 96, 0, 8, 0, 0, 0, 3, 0, 0, 0, 7, 'a'};
    const std::uint8_t second[] = {0x80, 0x80 | 96, 0, 9, 0, 0, 0, 3, 0, 0, 0, 7, 'b'};
    const std::uint8_t rebuilt[] = {0x80, 0x80 | 96, 0, 1, 0, 0, 0, 3, 0, 0, 0, 7, 'b'};
    const cpay_retransmission_type pairs[] = {{96, 97}};
    cpay_fec_sender_settings sends = {};
    cpay_fec_port_settings receives = {};
    cpay_fec_counts_info counts = {};
    std::array<std::uint8_t, 64> to = {};
    std::size_t count = 0, size = 0;
    cpay::bytes sent, passed;
    cpay::fec_sender sender;
    cpay::fec_port port;
    bool ends = true;
    cpay_fec_port_settings_init(&receives);
    receives.red_type = sends.red_type = 116, receives.fec_type = sends.fec_type = 117, sends.ssrc = 7;
    CHECK(port.next(passed) == CPAY_EMPTY && port.make(receives, pairs) == CPAY_OK && sender.make(sends) == CPAY_OK);
    CHECK(sender.protect(128, 128) == CPAY_OK && sender.push(first, sent, ends) == CPAY_OK && !ends && sent.size() == 14);
    CHECK(port.receive(sent, passed) == CPAY_OK && passed.size() == 13 && passed[12] == 'a');
    CHECK(port.receive(first, passed) == CPAY_OK && passed.data() == first && passed.size() == 13);
    CHECK(sender.push(second, sent, ends) == CPAY_OK && ends && sender.finish_frame(false, count) == CPAY_OK && count == 1);
    CHECK(sender.packet(0, to, size) == CPAY_OK && port.receive(cpay::bytes(to.data(), size), passed) == CPAY_OK);
    CHECK(port.next(passed) == CPAY_OK && passed.size() == 13 && std::equal(std::begin(rebuilt), std::end(rebuilt), passed.data()));
    CHECK(port.next(passed) == CPAY_NONE && port.counts(counts) == CPAY_OK && counts.rebuilt == 1);
    CHECK(port.counts(7, counts) == CPAY_OK && counts.media == 2 && port.restart(7) == CPAY_OK && port.end(7) == CPAY_OK);
    CHECK(port.counts(7, counts) == CPAY_NONE);
}

void over_red() {
    const std::uint32_t distances[] = {1};
    const std::uint8_t payload[] = {1, 2, 3};
    std::array<std::uint8_t, 64> wrapped = {};
    std::size_t size = 0, count = 0;
    cpay::red_sender from;
    CHECK(from.make(63, 111, distances) == CPAY_OK);
    CHECK(from.wrap(960, 64, payload, wrapped, size) == CPAY_OK && size == 4);
    CHECK(from.wrap(1920, 64, payload, wrapped, size) == CPAY_OK && size == 11);
    cpay_red_block_place blocks[2] = {};
    CHECK(cpay_red_blocks(wrapped.data(), size, blocks, 2, &count) == CPAY_OK && count == 2 && blocks[0].offset == 960);
    cpay::packetizer opus;
    CHECK(opus.make(OPUS) == CPAY_OK);
}

} // namespace

int main() {
    over_datagrams();
    over_a_port();
    over_payloads();
    over_a_history();
    over_a_forwarder();
    over_an_adaptive_wait();
    over_freezes();
    over_rtcp();
    over_a_transport();
    over_a_path();
    over_reports();
    over_fec();
    over_red();
    return checked();
}

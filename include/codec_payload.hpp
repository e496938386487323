/** @file
 * codec_payload.h for C++17 and later: handles that free themselves, and bytes by one argument.
 *
 * Each class below holds one handle of codec_payload.h in the object itself. Objects can be moved and not copied; the destructor
 * frees the handle. `make` is the call named *_new, and each other method the call with its name there, with the same statuses.
 * Nothing here throws, except a cpay::storage that grows. Bytes are passed as containers with data() and size(): std::vector,
 * std::array, std::span, cpay::storage. For calls without a method, use get(). */
#ifndef CODEC_PAYLOAD_HPP
#define CODEC_PAYLOAD_HPP

#include "codec_payload.h"

#include <cstddef>
#include <cstdint>
#include <memory>
#include <type_traits>
#include <utility>

namespace cpay {

/** Consecutive items that belong to somebody else, like std::span of C++20, from and to which it converts. */
template <class Item> class view {
public:
    constexpr view() noexcept = default;
    constexpr view(Item *at, std::size_t size) noexcept : at_(at), size_(size) {}
    template <std::size_t Size> constexpr view(Item (&items)[Size]) noexcept : at_(items), size_(Size) {}
    template <class Items, class = std::enable_if_t<
                               !std::is_same_v<std::remove_cv_t<std::remove_reference_t<Items>>, view> &&
                               std::is_convertible_v<std::remove_pointer_t<decltype(std::declval<Items &>().data())> (*)[],
                                                     Item (*)[]>>>
    constexpr view(Items &&items) noexcept : at_(items.data()), size_(items.size()) {}

    constexpr Item *data() const noexcept { return at_; }
    constexpr std::size_t size() const noexcept { return size_; }
    constexpr bool empty() const noexcept { return size_ == 0; }
    constexpr Item *begin() const noexcept { return at_; }
    constexpr Item *end() const noexcept { return at_ + size_; }
    constexpr Item &operator[](std::size_t place) const noexcept { return at_[place]; }

private:
    Item *at_ = nullptr;
    std::size_t size_ = 0;
};

/** Bytes that a call reads, and bytes that it writes. */
using bytes = view<const std::uint8_t>;
using room = view<std::uint8_t>;

/** The common base of all handle classes. */
template <class Kind, void (*Free)(Kind *)> class handle {
public:
    handle() noexcept = default;
    handle(handle &&other) noexcept : kind_(std::exchange(other.kind_, Kind{})) {}
    handle &operator=(handle &&other) noexcept {
        if (this != &other) {
            Free(&kind_);
            kind_ = std::exchange(other.kind_, Kind{});
        }
        return *this;
    }
    handle(const handle &) = delete;
    handle &operator=(const handle &) = delete;
    ~handle() { Free(&kind_); }

    /** For calls of codec_payload.h. Do not copy the handle that it points to. */
    Kind *get() noexcept { return &kind_; }
    /** Frees the object; you may then call `make` again. */
    void clear() noexcept { Free(&kind_); }

private:
    Kind kind_ = {};
};

/** Memory for the bytes that a call writes. It grows as needed, and is used again by the next call; no call fills it with zeros.
 * After a call it has exactly the bytes of that call, and is empty on each status except CPAY_OK. */
class storage {
public:
    const std::uint8_t *data() const noexcept { return at_.get(); }
    std::size_t size() const noexcept { return size_; }
    bool empty() const noexcept { return size_ == 0; }
    const std::uint8_t *begin() const noexcept { return data(); }
    const std::uint8_t *end() const noexcept { return data() + size_; }
    std::uint8_t operator[](std::size_t place) const noexcept { return at_[place]; }

    /** Calls with the present memory, and once more if it was too small: `call` takes a room, and writes the size to `size`. */
    template <class Call> [[nodiscard]] cpay_status fill(std::size_t &size, Call call) {
        cpay_status status = call(room(at_.get(), room_));
        if (status == CPAY_TOO_SMALL) {
            at_.reset(new std::uint8_t[size]);
            room_ = size;
            status = call(room(at_.get(), room_));
        }
        size_ = status == CPAY_OK ? size : 0;
        return status;
    }

private:
    std::unique_ptr<std::uint8_t[]> at_;
    std::size_t room_ = 0, size_ = 0;
};

/** Frames in, the datagrams of one stream out. */
class sender : public handle<cpay_sender, cpay_sender_free> {
public:
    [[nodiscard]] cpay_status make(const cpay_sender_settings &settings) noexcept { return cpay_sender_new(get(), &settings); }
    [[nodiscard]] cpay_status send(std::uint64_t rtp_time, bool starts_talk_spurt, bytes frame, std::size_t &count) noexcept {
        return cpay_sender_send(get(), rtp_time, starts_talk_spurt, frame.data(), frame.size(), &count);
    }
    [[nodiscard]] cpay_status send_sample(const cpay_sample &sample, bytes frame, std::size_t &count) noexcept {
        return cpay_sender_send_sample(get(), &sample, frame.data(), frame.size(), &count);
    }
    [[nodiscard]] cpay_status datagram(std::size_t place, room datagram, std::size_t &size) noexcept {
        return cpay_sender_datagram(get(), place, datagram.data(), datagram.size(), &size);
    }
    /** The same into memory that grows as needed. */
    [[nodiscard]] cpay_status datagram(std::size_t place, storage &to) {
        std::size_t size = 0;
        return to.fill(size, [&](room it) { return datagram(place, it, size); });
    }
    /** A datagram and room for `tail` bytes after it, as a tag of SRTP needs. */
    [[nodiscard]] cpay_status datagram_with_tail(std::size_t place, std::size_t tail, room datagram, std::size_t &size) noexcept {
        return cpay_sender_datagram_with_tail(get(), place, tail, datagram.data(), datagram.size(), &size);
    }
    [[nodiscard]] cpay_status set_format(const cpay_spec &spec, std::uint8_t payload_type) noexcept {
        return cpay_sender_set_format(get(), &spec, payload_type);
    }
    [[nodiscard]] cpay_status counts(cpay_sender_counts_info &counts) noexcept { return cpay_sender_counts(get(), &counts); }
    [[nodiscard]] cpay_status report(std::uint64_t now, cpay_sender_report_info &report) noexcept {
        return cpay_sender_report(get(), now, &report);
    }
};

/** The last datagrams of a stream, which are resent when a receiver requests them. */
class history : public handle<cpay_history, cpay_history_free> {
public:
    [[nodiscard]] cpay_status make(const cpay_history_settings &settings) noexcept { return cpay_history_new(get(), &settings); }
    [[nodiscard]] cpay_status keep(bytes datagram) noexcept {
        return cpay_history_keep(get(), datagram.data(), datagram.size(), nullptr);
    }
    /** The same, and what the history did with the datagram: CPAY_KEPT_STORED or CPAY_KEPT_TOO_OLD. */
    [[nodiscard]] cpay_status keep(bytes datagram, cpay_kept &kept) noexcept {
        return cpay_history_keep(get(), datagram.data(), datagram.size(), &kept);
    }
    /** Keeps each number once, and says whether the datagram is new. */
    [[nodiscard]] cpay_status keep_once(bytes datagram, cpay_kept_once &kept) noexcept {
        return cpay_history_keep_once(get(), datagram.data(), datagram.size(), &kept);
    }
    [[nodiscard]] cpay_status resend(std::uint64_t now, std::uint16_t number, room to, std::size_t &size,
                                     cpay_resent &resent) noexcept {
        return cpay_history_resend(get(), now, number, to.data(), to.size(), &size, &resent);
    }
    /** The same into memory that grows as needed. It has the datagram with CPAY_RESENT_WRITTEN, and is empty otherwise. */
    [[nodiscard]] cpay_status resend(std::uint64_t now, std::uint16_t number, storage &to,
                                     cpay_resent &resent) {
        std::size_t size = 0;
        return to.fill(size, [&](room it) { return resend(now, number, it, size, resent); });
    }
};

/** The packet that a retransmission repeats: see cpay_rtx_original. */
[[nodiscard]] inline cpay_status rtx_original(std::uint32_t ssrc, std::uint8_t payload_type, bytes datagram, room to,
                                              std::size_t &size) noexcept {
    return cpay_rtx_original(ssrc, payload_type, datagram.data(), datagram.size(), to.data(), to.size(), &size);
}

/** Packets of one source after another in, the packets of one stream of a viewer out. */
class forwarder : public handle<cpay_forwarder, cpay_forwarder_free> {
public:
    [[nodiscard]] cpay_status make(const cpay_forwarder_settings &settings) noexcept {
        return cpay_forwarder_new(get(), &settings);
    }
    [[nodiscard]] cpay_status want(std::uint32_t ssrc) noexcept { return cpay_forwarder_want(get(), ssrc); }
    [[nodiscard]] cpay_status mute() noexcept { return cpay_forwarder_mute(get()); }
    [[nodiscard]] cpay_status source(std::uint32_t &ssrc) noexcept { return cpay_forwarder_source(get(), &ssrc); }
    [[nodiscard]] cpay_status wanted(std::uint32_t &ssrc) noexcept { return cpay_forwarder_wanted(get(), &ssrc); }
    [[nodiscard]] cpay_status write(std::uint64_t now, bytes datagram, room to, std::size_t &size,
                                    cpay_forwarded &forwarded) noexcept {
        return cpay_forwarder_write(get(), now, datagram.data(), datagram.size(), to.data(), to.size(), &size, &forwarded);
    }
    /** The same into memory that grows as needed. It is empty if nothing was written. */
    [[nodiscard]] cpay_status write(std::uint64_t now, bytes datagram, storage &to, cpay_forwarded &forwarded) {
        std::size_t size = 0;
        return to.fill(size, [&](room it) { return write(now, datagram, it, size, forwarded); });
    }
    [[nodiscard]] cpay_status leave_out(bytes datagram, room to, std::size_t &size, cpay_forwarded &forwarded) noexcept {
        return cpay_forwarder_leave_out(get(), datagram.data(), datagram.size(), to.data(), to.size(), &size, &forwarded);
    }
    /** The same into memory that grows as needed. It has a packet with CPAY_FORWARDED_FILLED, and is empty otherwise. */
    [[nodiscard]] cpay_status leave_out(bytes datagram, storage &to, cpay_forwarded &forwarded) {
        std::size_t size = 0;
        return to.fill(size, [&](room it) { return leave_out(datagram, it, size, forwarded); });
    }
    [[nodiscard]] cpay_status resend(history &store, std::uint16_t number, room to, std::size_t &size,
                                     cpay_resent &resent) noexcept {
        return cpay_forwarder_resend(get(), store.get(), number, to.data(), to.size(), &size, &resent);
    }
    /** The same into memory that grows as needed. It has the packet with CPAY_RESENT_WRITTEN, and is empty otherwise. */
    [[nodiscard]] cpay_status resend(history &store, std::uint16_t number, storage &to, cpay_resent &resent) {
        std::size_t size = 0;
        return to.fill(size, [&](room it) { return resend(store, number, it, size, resent); });
    }
    [[nodiscard]] cpay_status counts(cpay_forwarder_counts_info &counts) noexcept { return cpay_forwarder_counts(get(), &counts); }
    [[nodiscard]] cpay_status report(std::uint32_t ssrc, std::uint32_t rtp_time, cpay_sender_report_info &report) noexcept {
        return cpay_forwarder_report(get(), ssrc, rtp_time, &report);
    }
};

/** What RTCP feedback requests of the stream with this SSRC: see cpay_read_requests. */
[[nodiscard]] inline cpay_status read_requests(bytes rtcp, std::uint32_t ssrc, bool full, view<std::uint16_t> numbers,
                                               std::size_t &count, bool &wants_keyframe) noexcept {
    return cpay_read_requests(rtcp.data(), rtcp.size(), ssrc, full, numbers.data(), numbers.size(), &count, &wants_keyframe);
}

/** Datagrams of a socket in, whole units of one stream out in order. */
class receiver : public handle<cpay_receiver, cpay_receiver_free> {
public:
    [[nodiscard]] cpay_status make(const cpay_receiver_settings &settings, bytes no_media = {}) noexcept {
        return cpay_receiver_new(get(), &settings, no_media.data(), no_media.size());
    }
    [[nodiscard]] cpay_status receive(std::uint64_t now, bytes datagram, cpay_outcome &outcome) noexcept {
        return cpay_receiver_receive(get(), now, datagram.data(), datagram.size(), &outcome);
    }
    [[nodiscard]] cpay_status pop(std::uint64_t now, cpay_unit &unit, room to) noexcept {
        return cpay_receiver_pop(get(), now, &unit, to.data(), to.size());
    }
    /** The same into memory that grows as needed. */
    [[nodiscard]] cpay_status pop(std::uint64_t now, cpay_unit &unit, storage &to) {
        return to.fill(unit.bytes, [&](room it) { return pop(now, unit, it); });
    }
    /** The unit without a copy: `at` points to its bytes until the next pop or lend. See cpay_receiver_lend. */
    [[nodiscard]] cpay_status lend(std::uint64_t now, cpay_unit &unit, const std::uint8_t *&at) noexcept {
        return cpay_receiver_lend(get(), now, &unit, &at);
    }
    [[nodiscard]] cpay_status values(cpay_extension_values &values) noexcept { return cpay_receiver_values(get(), &values); }
    [[nodiscard]] cpay_status wants_keyframe(bool &wants) noexcept { return cpay_receiver_wants_keyframe(get(), &wants); }
    [[nodiscard]] cpay_status next_deadline(std::uint64_t &at) noexcept { return cpay_receiver_next_deadline(get(), &at); }
    [[nodiscard]] cpay_status set_wait_limits(const cpay_wait_limits &limits) noexcept {
        return cpay_receiver_set_wait_limits(get(), &limits);
    }
    [[nodiscard]] cpay_status finish() noexcept { return cpay_receiver_finish(get()); }
    [[nodiscard]] cpay_status restart() noexcept { return cpay_receiver_restart(get()); }
    [[nodiscard]] cpay_status restart_as(std::uint32_t ssrc, std::uint32_t rtx_ssrc) noexcept {
        return cpay_receiver_restart_as(get(), ssrc, rtx_ssrc);
    }
    [[nodiscard]] cpay_status missing(view<std::uint64_t> numbers, std::size_t &count) noexcept {
        return cpay_receiver_missing(get(), numbers.data(), numbers.size(), &count);
    }
    [[nodiscard]] cpay_status report(cpay_report_info &report) noexcept { return cpay_receiver_report(get(), &report); }
    [[nodiscard]] cpay_status counts(cpay_receiver_counts_info &counts) noexcept { return cpay_receiver_counts(get(), &counts); }
};

/** A limit of waiting that follows how late missing packets arrive. */
class adaptive_wait : public handle<cpay_adaptive_wait, cpay_adaptive_wait_free> {
public:
    [[nodiscard]] cpay_status make(const cpay_adaptive_wait_settings &settings) noexcept {
        return cpay_adaptive_wait_new(get(), &settings);
    }
    [[nodiscard]] cpay_status arrived(std::uint64_t now, std::uint16_t number) noexcept {
        return cpay_adaptive_wait_arrived(get(), now, number);
    }
    [[nodiscard]] cpay_status missing(std::uint64_t now, view<const std::uint64_t> numbers) noexcept {
        return cpay_adaptive_wait_missing(get(), now, numbers.data(), numbers.size());
    }
    [[nodiscard]] cpay_status limit(std::uint64_t &limit) noexcept { return cpay_adaptive_wait_limit(get(), &limit); }
};

/** Counts the freezes of a video, by the rule of the W3C. */
class freezes : public handle<cpay_freezes, cpay_freezes_free> {
public:
    [[nodiscard]] cpay_status make(std::uint32_t tick_rate) noexcept { return cpay_freezes_new(get(), tick_rate); }
    [[nodiscard]] cpay_status shown(std::uint64_t at) noexcept { return cpay_freezes_shown(get(), at); }
    [[nodiscard]] cpay_status counts(cpay_freeze_counts_info &counts) noexcept { return cpay_freezes_counts(get(), &counts); }
};

/** Report number `index` of a datagram of RTCP: see cpay_read_report. */
[[nodiscard]] inline cpay_status read_report(bytes rtcp, bool full, std::size_t index, cpay_rtcp_report_info &report) noexcept {
    return cpay_read_report(rtcp.data(), rtcp.size(), full, index, &report);
}

/** Block number `place` of a report: see cpay_read_report_block. */
[[nodiscard]] inline cpay_status read_report_block(bytes rtcp, bool full, std::size_t index, std::size_t place,
                                                   cpay_report_block_info &block) noexcept {
    return cpay_read_report_block(rtcp.data(), rtcp.size(), full, index, place, &block);
}

/** A sender report: see cpay_write_sender_report. */
[[nodiscard]] inline cpay_status write_sender_report(std::uint64_t ntp_time, const cpay_sender_report_info &report,
                                                     view<const cpay_report_block_info> blocks, room to, std::size_t &size) noexcept
                                                     {
    return cpay_write_sender_report(ntp_time, &report, blocks.data(), blocks.size(), to.data(), to.size(), &size);
}

/** A receiver report: see cpay_write_receiver_report. */
[[nodiscard]] inline cpay_status write_receiver_report(std::uint32_t ssrc, view<const cpay_report_block_info> blocks, room to,
                                                       std::size_t &size) noexcept {
    return cpay_write_receiver_report(ssrc, blocks.data(), blocks.size(), to.data(), to.size(), &size);
}

/** A source description with a canonical name: see cpay_write_cname. */
[[nodiscard]] inline cpay_status write_cname(std::uint32_t ssrc, bytes cname, room to, std::size_t &size) noexcept {
    return cpay_write_cname(ssrc, cname.data(), cname.size(), to.data(), to.size(), &size);
}

/** A FIR: see cpay_write_fir. */
[[nodiscard]] inline cpay_status write_fir(std::uint32_t sender_ssrc, std::uint32_t media_ssrc, std::uint8_t command, room to,
                                           std::size_t &size) noexcept {
    return cpay_write_fir(sender_ssrc, media_ssrc, command, to.data(), to.size(), &size);
}
/** A BYE, with a reason if it has bytes: see cpay_write_bye. */
[[nodiscard]] inline cpay_status write_bye(std::uint32_t ssrc, bytes reason, room to, std::size_t &size) noexcept {
    return cpay_write_bye(ssrc, reason.data(), reason.size(), to.data(), to.size(), &size);
}
/** A PLI: see cpay_write_pli. */
[[nodiscard]] inline cpay_status write_pli(std::uint32_t sender_ssrc, std::uint32_t media_ssrc, room to,
                                           std::size_t &size) noexcept {
    return cpay_write_pli(sender_ssrc, media_ssrc, to.data(), to.size(), &size);
}

/** Whether a keyframe begins in a payload: see cpay_begins_keyframe. */
[[nodiscard]] inline cpay_status begins_keyframe(cpay_codec codec, bytes payload, bool &begins) noexcept {
    return cpay_begins_keyframe(codec, payload.data(), payload.size(), &begins);
}

/** The spatial layer of a payload of VP9: see cpay_vp9_spatial_place. */
[[nodiscard]] inline cpay_status vp9_spatial_place(bytes payload, cpay_spatial_place_info &place) noexcept {
    return cpay_vp9_spatial_place(payload.data(), payload.size(), &place);
}

/** The temporal layer of a payload: see cpay_temporal_layer. */
[[nodiscard]] inline cpay_status temporal_layer(cpay_codec codec, bytes payload, cpay_temporal_layer_info &layer) noexcept {
    return cpay_temporal_layer(codec, payload.data(), payload.size(), &layer);
}

/** Datagrams of a transport in, packets that report when each of its packets arrived out. */
class transport_reporter : public handle<cpay_transport_reporter, cpay_transport_reporter_free> {
public:
    [[nodiscard]] cpay_status make(const cpay_transport_reporter_settings &settings, bytes cname = {}) noexcept {
        return cpay_transport_reporter_new(get(), &settings, cname.data(), cname.size());
    }
    [[nodiscard]] cpay_status receive(std::uint64_t now, bytes datagram) noexcept {
        return cpay_transport_reporter_receive(get(), now, datagram.data(), datagram.size());
    }
    [[nodiscard]] cpay_status poll(std::uint64_t now, room to, std::size_t &size) noexcept {
        return cpay_transport_reporter_poll(get(), now, to.data(), to.size(), &size);
    }
    /** The same into memory that grows as needed. */
    [[nodiscard]] cpay_status poll(std::uint64_t now, storage &to) {
        std::size_t size = 0;
        return to.fill(size, [&](room it) { return poll(now, it, size); });
    }
    [[nodiscard]] cpay_status next_deadline(std::uint64_t &at) noexcept {
        return cpay_transport_reporter_next_deadline(get(), &at);
    }
    [[nodiscard]] cpay_status restart() noexcept { return cpay_transport_reporter_restart(get()); }
};

/** The numbers and the times of the packets that are sent on a transport. */
class sent_packets : public handle<cpay_sent_packets, cpay_sent_packets_free> {
public:
    [[nodiscard]] cpay_status make(std::size_t limit) noexcept { return cpay_sent_packets_new(get(), limit); }
    [[nodiscard]] cpay_status assign(std::uint64_t now, std::uint16_t &number) noexcept {
        return cpay_sent_packets_assign(get(), now, &number);
    }
    [[nodiscard]] cpay_status sent_at(std::uint16_t number, std::uint64_t &at) noexcept {
        return cpay_sent_packets_sent_at(get(), number, &at);
    }
};

/** A copy of a datagram with a transport-wide number: see cpay_number_datagram. */
[[nodiscard]] inline cpay_status number_datagram(std::uint8_t extension_id, std::uint16_t number, bytes datagram, room to,
                                                 std::size_t &size) noexcept {
    return cpay_number_datagram(extension_id, number, datagram.data(), datagram.size(), to.data(), to.size(), &size);
}

/** What transport-wide feedback number `index` of a datagram says: see cpay_read_transport_feedback. */
[[nodiscard]] inline cpay_status read_transport_feedback(bytes rtcp, bool full, std::size_t index,
                                                         cpay_transport_feedback_info &info,
                                                         view<cpay_packet_arrival> packets) noexcept {
    return cpay_read_transport_feedback(rtcp.data(), rtcp.size(), full, index, &info, packets.data(), packets.size());
}

/** A packet of REMB: see cpay_write_remb. */
[[nodiscard]] inline cpay_status write_remb(std::uint32_t sender_ssrc, std::uint64_t bitrate, view<const std::uint32_t> ssrcs,
                                            room to, std::size_t &size) noexcept {
    return cpay_write_remb(sender_ssrc, bitrate, ssrcs.data(), ssrcs.size(), to.data(), to.size(), &size);
}

/** REMB in application layer feedback number `index` of a datagram: see cpay_read_remb. */
[[nodiscard]] inline cpay_status read_remb(bytes rtcp, bool full, std::size_t index, std::uint64_t &bitrate,
                                           view<std::uint32_t> ssrcs, std::size_t &count) noexcept {
    return cpay_read_remb(rtcp.data(), rtcp.size(), full, index, &bitrate, ssrcs.data(), ssrcs.size(), &count);
}

/** The path to a viewer: what leaves now, what may be retransmitted, and which layers fit. */
class path : public handle<cpay_path, cpay_path_free> {
public:
    [[nodiscard]] cpay_status make(std::uint64_t now, const cpay_path_settings &settings) noexcept {
        return cpay_path_new(get(), now, &settings);
    }
    [[nodiscard]] cpay_status push(const cpay_path_packet &packet) noexcept { return cpay_path_push(get(), &packet); }
    [[nodiscard]] cpay_status pop(std::uint64_t now, cpay_path_leaving &leaving) noexcept {
        return cpay_path_pop(get(), now, &leaving);
    }
    [[nodiscard]] cpay_status remove(cpay_path_kind kind, cpay_path_packet &packet) noexcept {
        return cpay_path_remove(get(), kind, &packet);
    }
    [[nodiscard]] cpay_status next_deadline(std::uint64_t &deadline) noexcept { return cpay_path_next_deadline(get(), &deadline); }
    [[nodiscard]] cpay_status resend(std::uint64_t now, std::uint16_t number, std::uint32_t size, std::uint64_t round_trip,
                                     cpay_resend_answer &answer) noexcept {
        return cpay_path_resend(get(), now, number, size, round_trip, &answer);
    }
    [[nodiscard]] cpay_status feedback(std::uint64_t now, std::uint64_t round_trip, bytes rtcp, bool full,
                                       std::size_t index) noexcept {
        return cpay_path_feedback(get(), now, round_trip, rtcp.data(), rtcp.size(), full, index);
    }
    [[nodiscard]] cpay_status choose(std::uint64_t now, view<const cpay_path_choice> choices,
                                     cpay_path_order_info &order) noexcept {
        return cpay_path_choose(get(), now, choices.data(), choices.size(), &order);
    }
    [[nodiscard]] cpay_status state(cpay_path_state_info &state) noexcept { return cpay_path_state(get(), &state); }
    [[nodiscard]] cpay_status estimate(cpay_path_estimate_info &info) noexcept { return cpay_path_estimate(get(), &info); }
    [[nodiscard]] cpay_status lost(bytes rtcp, bool full, std::size_t index, view<std::uint16_t> numbers,
                                   std::size_t &count) noexcept {
        return cpay_path_lost(get(), rtcp.data(), rtcp.size(), full, index, numbers.data(), numbers.size(), &count);
    }
    [[nodiscard]] cpay_status take_back(std::uint16_t number) noexcept { return cpay_path_take_back(get(), number); }
};

/** A limit of retransmissions to one viewer, without a path. */
class resend_limit : public handle<cpay_resend_limit, cpay_resend_limit_free> {
public:
    [[nodiscard]] cpay_status make(const cpay_resend_limit_settings &settings) noexcept {
        return cpay_resend_limit_new(get(), &settings);
    }
    [[nodiscard]] cpay_status sent(std::uint64_t now, std::uint32_t size) noexcept {
        return cpay_resend_limit_sent(get(), now, size);
    }
    [[nodiscard]] cpay_status ask(std::uint64_t now, std::uint16_t number, std::uint32_t size, std::uint64_t round_trip,
                                  cpay_resend_answer &answer) noexcept {
        return cpay_resend_limit_ask(get(), now, number, size, round_trip, &answer);
    }
};

/** The rate that is offered to one publisher. */
class rate_offer : public handle<cpay_rate_offer, cpay_rate_offer_free> {
public:
    [[nodiscard]] cpay_status make(const cpay_rate_offer_settings &settings) noexcept {
        return cpay_rate_offer_new(get(), &settings);
    }
    [[nodiscard]] cpay_status arrived(std::uint64_t now, std::uint32_t abs_send_time, std::uint32_t size) noexcept {
        return cpay_rate_offer_arrived(get(), now, abs_send_time, size);
    }
    [[nodiscard]] cpay_status arrived_by(std::uint64_t now, std::uint64_t sent, std::uint32_t size) noexcept {
        return cpay_rate_offer_arrived_by(get(), now, sent, size);
    }
    [[nodiscard]] cpay_status lost() noexcept { return cpay_rate_offer_lost(get()); }
    [[nodiscard]] cpay_status set_wants(std::uint64_t wants) noexcept { return cpay_rate_offer_set_wants(get(), wants); }
    [[nodiscard]] cpay_status take_due(std::uint64_t now, std::uint64_t round_trip, std::uint64_t &rate) noexcept {
        return cpay_rate_offer_take_due(get(), now, round_trip, &rate);
    }
};

/** Takes a datagram of RTCP for the round trip: see cpay_xr_receive. */
[[nodiscard]] inline cpay_status xr_receive(cpay_xr_exchange &exchange, std::uint32_t ssrc, std::uint32_t tick_rate,
                                            std::uint64_t now, bytes rtcp, bool full, bool &answered) noexcept {
    return cpay_xr_receive(&exchange, ssrc, tick_rate, now, rtcp.data(), rtcp.size(), full, &answered);
}

/** What a report has to say for the round trip: see cpay_xr_write. */
[[nodiscard]] inline cpay_status xr_write(const cpay_xr_exchange &exchange, std::uint32_t ssrc, std::uint32_t tick_rate,
                                          std::uint64_t now, room to, std::size_t &size) noexcept {
    return cpay_xr_write(&exchange, ssrc, tick_rate, now, to.data(), to.size(), &size);
}

/** What congestion control feedback says about one of its streams: see cpay_ccfb_read. */
[[nodiscard]] inline cpay_status ccfb_read(bytes rtcp, bool full, std::size_t index, std::size_t stream, cpay_ccfb_info &info,
                                           view<cpay_ccfb_packet> packets) noexcept {
    return cpay_ccfb_read(rtcp.data(), rtcp.size(), full, index, stream, &info, packets.data(), packets.size());
}

/** Congestion control feedback about one stream: see cpay_ccfb_write. */
[[nodiscard]] inline cpay_status ccfb_write(const cpay_ccfb_info &info, view<const cpay_ccfb_packet> packets, room to,
                                            std::size_t &size) noexcept {
    return cpay_ccfb_write(&info, packets.data(), packets.size(), to.data(), to.size(), &size);
}

/** What a packet of FEC protects: see cpay_fec_read. */
[[nodiscard]] inline cpay_status fec_read(bytes fec, cpay_fec_info &info) noexcept {
    return cpay_fec_read(fec.data(), fec.size(), &info);
}

/** The latest packets of a stream, from which packets of FEC rebuild lost ones. */
class packet_store : public handle<cpay_packet_store, cpay_packet_store_free> {
public:
    [[nodiscard]] cpay_status make(std::size_t size) noexcept { return cpay_packet_store_new(get(), size); }
    [[nodiscard]] cpay_status keep(bytes packet) noexcept { return cpay_packet_store_keep(get(), packet.data(), packet.size()); }
    [[nodiscard]] cpay_status rebuild(std::uint32_t ssrc, bytes fec, room to, std::size_t &size) noexcept {
        return cpay_packet_store_rebuild(get(), ssrc, fec.data(), fec.size(), to.data(), to.size(), &size);
    }
};

/** Rebuilds lost packets of a stream from its FEC: see cpay_fec_receiver_new. */
class fec_receiver : public handle<cpay_fec_receiver, cpay_fec_receiver_free> {
public:
    [[nodiscard]] cpay_status make(const cpay_fec_receiver_settings &settings) noexcept {
        return cpay_fec_receiver_new(get(), &settings);
    }
    [[nodiscard]] cpay_status receive(bytes datagram) noexcept {
        return cpay_fec_receiver_receive(get(), datagram.data(), datagram.size());
    }
    [[nodiscard]] cpay_status next(room to, std::size_t &size) noexcept {
        return cpay_fec_receiver_next(get(), to.data(), to.size(), &size);
    }
    [[nodiscard]] cpay_status restart() noexcept { return cpay_fec_receiver_restart(get()); }
};

/** Rebuilds lost packets of all streams of a port: see cpay_fec_port_new. */
class fec_port : public handle<cpay_fec_port, cpay_fec_port_free> {
public:
    [[nodiscard]] cpay_status make(const cpay_fec_port_settings &settings,
                                   view<const cpay_retransmission_type> retransmissions = {}) noexcept {
        return cpay_fec_port_new(get(), &settings, retransmissions.data(), retransmissions.size());
    }
    /** `passed` is what to pass to the session: the datagram, or the packet that is lent in its place. */
    [[nodiscard]] cpay_status receive(bytes datagram, bytes &passed) noexcept {
        cpay_lent_packet packet = {datagram.data(), datagram.size()};
        const cpay_status status = cpay_fec_port_receive(get(), datagram.data(), datagram.size(), &packet);
        if (status == CPAY_OK) passed = bytes(packet.at, packet.bytes);
        return status;
    }
    [[nodiscard]] cpay_status next(bytes &packet) noexcept {
        cpay_lent_packet rebuilt = {};
        const cpay_status status = cpay_fec_port_next(get(), &rebuilt);
        if (status == CPAY_OK) packet = bytes(rebuilt.at, rebuilt.bytes);
        return status;
    }
    [[nodiscard]] cpay_status restart(std::uint32_t ssrc) noexcept { return cpay_fec_port_restart(get(), ssrc); }
    [[nodiscard]] cpay_status end(std::uint32_t ssrc) noexcept { return cpay_fec_port_end(get(), ssrc); }
    [[nodiscard]] cpay_status counts(cpay_fec_counts_info &counts) noexcept { return cpay_fec_port_counts(get(), &counts); }
    [[nodiscard]] cpay_status counts(std::uint32_t ssrc, cpay_fec_counts_info &counts) noexcept {
        return cpay_fec_port_stream_counts(get(), ssrc, &counts);
    }
};

/** Puts packets in RED, and writes FEC behind each frame: see cpay_fec_sender_new. */
class fec_sender : public handle<cpay_fec_sender, cpay_fec_sender_free> {
public:
    [[nodiscard]] cpay_status make(const cpay_fec_sender_settings &settings) noexcept {
        return cpay_fec_sender_new(get(), &settings);
    }
    [[nodiscard]] cpay_status push(bytes datagram, bytes &packet, bool &ends) noexcept {
        cpay_lent_packet lent = {};
        const cpay_status status = cpay_fec_sender_push(get(), datagram.data(), datagram.size(), &lent, &ends);
        if (status == CPAY_OK) packet = bytes(lent.at, lent.bytes);
        return status;
    }
    [[nodiscard]] cpay_status finish_frame(bool keyframe, std::size_t &count) noexcept {
        return cpay_fec_sender_finish_frame(get(), keyframe, &count);
    }
    [[nodiscard]] cpay_status packet(std::size_t place, room to, std::size_t &size) noexcept {
        return cpay_fec_sender_packet(get(), place, to.data(), to.size(), &size);
    }
    [[nodiscard]] cpay_status protect(std::uint8_t protection, std::uint8_t keyframe_protection) noexcept {
        return cpay_fec_sender_protect(get(), protection, keyframe_protection);
    }
};

/** The first setting that no session can meet: see cpay_session_settings_check. */
[[nodiscard]] inline cpay_status check_settings(const cpay_session_settings &settings, view<const cpay_session_format> formats,
                                                bytes no_media, cpay_settings_fault &fault) noexcept {
    return cpay_session_settings_check(&settings, formats.data(), formats.size(), no_media.data(), no_media.size(), &fault);
}

/** All datagrams of a port in, the events of its streams out. */
class session : public handle<cpay_session, cpay_session_free> {
public:
    [[nodiscard]] cpay_status make(const cpay_session_settings &settings, view<const cpay_session_format> formats,
                                   bytes no_media = {}, view<const cpay_ssrc_pair> pairs = {}) noexcept {
        return cpay_session_new(get(), &settings, formats.data(), formats.size(), no_media.data(), no_media.size(), pairs.data(),
                                pairs.size());
    }
    [[nodiscard]] cpay_status receive(std::uint64_t now, bytes datagram, cpay_arrival &arrival) noexcept {
        return cpay_session_receive(get(), now, datagram.data(), datagram.size(), &arrival);
    }
    /** `micros` is the time of arrival in microseconds, for feedback of the transport: see cpay_session_receive_at. */
    [[nodiscard]] cpay_status receive_at(std::uint64_t now, std::uint64_t micros, bytes datagram, cpay_arrival &arrival) noexcept {
        return cpay_session_receive_at(get(), now, micros, datagram.data(), datagram.size(), &arrival);
    }
    /** Forgets which packets of the transport arrived. */
    [[nodiscard]] cpay_status restart_transport() noexcept { return cpay_session_restart_transport(get()); }
    /** `event.data` lends the bytes of the event until the next poll: see cpay_session_poll. */
    [[nodiscard]] cpay_status poll(std::uint64_t now, cpay_event &event) noexcept {
        return cpay_session_poll(get(), now, &event);
    }
    [[nodiscard]] cpay_status values(cpay_extension_values &values) noexcept { return cpay_session_values(get(), &values); }
    [[nodiscard]] cpay_status next_deadline(std::uint64_t &at) noexcept { return cpay_session_next_deadline(get(), &at); }
    [[nodiscard]] cpay_status end(std::uint64_t now, std::uint32_t ssrc) noexcept { return cpay_session_end(get(), now, ssrc); }
    [[nodiscard]] cpay_status finish(std::uint64_t now) noexcept { return cpay_session_finish(get(), now); }
    [[nodiscard]] cpay_status counts(cpay_session_counts_info &counts) noexcept { return cpay_session_counts(get(), &counts); }
    [[nodiscard]] cpay_status stream_at(std::size_t place, cpay_session_stream &stream) noexcept {
        return cpay_session_stream_at(get(), place, &stream);
    }
    [[nodiscard]] cpay_status last_stream(cpay_session_stream &stream) noexcept { return cpay_session_last_stream(get(), &stream); }
    [[nodiscard]] cpay_status missing(std::uint32_t ssrc, std::uint8_t payload_type, view<std::uint64_t> numbers,
                                      std::size_t &count) noexcept {
        return cpay_session_missing(get(), ssrc, payload_type, numbers.data(), numbers.size(), &count);
    }
    [[nodiscard]] cpay_status wants_keyframe(std::uint32_t ssrc, std::uint8_t payload_type, bool &wants) noexcept {
        return cpay_session_wants_keyframe(get(), ssrc, payload_type, &wants);
    }
    [[nodiscard]] cpay_status report(std::uint64_t now, std::uint32_t ssrc, std::uint8_t payload_type,
                                     cpay_report_block_info &block) noexcept {
        return cpay_session_report(get(), now, ssrc, payload_type, &block);
    }
    [[nodiscard]] cpay_status peek_report(std::uint64_t now, std::uint32_t ssrc, std::uint8_t payload_type,
                                          cpay_report_block_info &block) noexcept {
        return cpay_session_peek_report(get(), now, ssrc, payload_type, &block);
    }
    [[nodiscard]] cpay_status names(std::uint32_t ssrc, std::uint8_t payload_type, cpay_stream_names &names) noexcept {
        return cpay_session_names(get(), ssrc, payload_type, &names);
    }
    [[nodiscard]] cpay_status sender_clock(std::uint32_t ssrc, std::uint8_t payload_type,
                                           cpay_sender_clock_info &clock) noexcept {
        return cpay_session_sender_clock(get(), ssrc, payload_type, &clock);
    }
    [[nodiscard]] cpay_status set_wait_limits(std::uint32_t ssrc, std::uint8_t payload_type,
                                              const cpay_wait_limits &limits) noexcept {
        return cpay_session_set_wait_limits(get(), ssrc, payload_type, &limits);
    }
    [[nodiscard]] cpay_status set_round_trip(std::uint32_t ssrc, std::uint8_t payload_type, std::uint64_t round_trip) noexcept {
        return cpay_session_set_round_trip(get(), ssrc, payload_type, round_trip);
    }
    [[nodiscard]] cpay_status add_pair(std::uint32_t ssrc, std::uint32_t retransmission) noexcept {
        return cpay_session_add_pair(get(), ssrc, retransmission);
    }
    [[nodiscard]] cpay_status remove_pair(std::uint32_t ssrc) noexcept { return cpay_session_remove_pair(get(), ssrc); }
    /** Asks the sender of a stream for a keyframe, within the session's limit. */
    [[nodiscard]] cpay_status request_keyframe(std::uint32_t ssrc, cpay_keyframe_answer &answer) noexcept {
        return cpay_session_request_keyframe(get(), ssrc, &answer);
    }
    /** Replaces the payload formats: streams of formats that are gone end. */
    [[nodiscard]] cpay_status set_formats(std::uint64_t now, view<const cpay_session_format> formats) noexcept {
        return cpay_session_set_formats(get(), now, formats.data(), formats.size());
    }
};

/** A frame in, its payloads out. */
class packetizer : public handle<cpay_packetizer, cpay_packetizer_free> {
public:
    [[nodiscard]] cpay_status make(const cpay_spec &spec) noexcept { return cpay_packetizer_new(get(), &spec); }
    [[nodiscard]] cpay_status packetize(std::size_t mtu, bool starts_talk_spurt, bytes frame, std::size_t &count) noexcept {
        return cpay_packetize(get(), mtu, starts_talk_spurt, frame.data(), frame.size(), &count);
    }
    [[nodiscard]] cpay_status packet(cpay_packet_info &info, room payload) noexcept {
        return cpay_packet(get(), &info, payload.data(), payload.size());
    }
    /** The same into memory that grows as needed. */
    [[nodiscard]] cpay_status packet(cpay_packet_info &info, storage &to) {
        return to.fill(info.bytes, [&](room it) { return packet(info, it); });
    }
    [[nodiscard]] cpay_status packetize_into(const cpay_frame_cut &cut, bytes frame, room to, view<cpay_placed_packet> packets,
                                             cpay_frame_room &needed) noexcept {
        return cpay_packetize_into(get(), &cut, frame.data(), frame.size(), to.data(), to.size(), packets.data(), packets.size(),
                                   &needed);
    }
};

/** Payloads in any order in, whole units out in order. */
class buffer : public handle<cpay_buffer, cpay_buffer_free> {
public:
    [[nodiscard]] cpay_status make(const cpay_spec &spec, std::size_t hold_back, std::size_t limit) noexcept {
        return cpay_buffer_new(get(), &spec, hold_back, limit);
    }
    [[nodiscard]] cpay_status push(const cpay_received &packet, bytes payload) noexcept {
        return cpay_buffer_push(get(), &packet, payload.data(), payload.size());
    }
    [[nodiscard]] cpay_status pop(cpay_unit &unit, room to) noexcept {
        return cpay_buffer_pop(get(), &unit, to.data(), to.size());
    }
    /** The same into memory that grows as needed. */
    [[nodiscard]] cpay_status pop(cpay_unit &unit, storage &to) {
        return to.fill(unit.bytes, [&](room it) { return pop(unit, it); });
    }
    [[nodiscard]] cpay_status counts(cpay_buffer_counts_info &counts) noexcept { return cpay_buffer_counts(get(), &counts); }
    [[nodiscard]] cpay_status set_hold_back(std::size_t hold_back) noexcept { return cpay_buffer_set_hold_back(get(), hold_back); }
    [[nodiscard]] cpay_status skip_number(std::uint64_t number) noexcept { return cpay_buffer_skip_number(get(), number); }
};

/** Payloads of one frame, in order, in; their media bytes out. */
class depacketizer : public handle<cpay_depacketizer, cpay_depacketizer_free> {
public:
    [[nodiscard]] cpay_status make(const cpay_spec &spec) noexcept { return cpay_depacketizer_new(get(), &spec); }
    [[nodiscard]] cpay_status depacketize(bytes payload) noexcept {
        return cpay_depacketize(get(), payload.data(), payload.size());
    }
    [[nodiscard]] cpay_status depacketized(std::size_t &size, cpay_extra &extra, room to) noexcept {
        return cpay_depacketized(get(), &size, &extra, to.data(), to.size());
    }
    /** The same into memory that grows as needed. */
    [[nodiscard]] cpay_status depacketized(cpay_extra &extra, storage &to) {
        std::size_t size = 0;
        return to.fill(size, [&](room it) { return depacketized(size, extra, it); });
    }
    /** The unit without a copy, until the next call. */
    [[nodiscard]] cpay_status unit(cpay_lent_unit &unit) noexcept { return cpay_depacketizer_unit(get(), &unit); }
    [[nodiscard]] cpay_status clear() noexcept { return cpay_depacketizer_clear(get()); }
};

/** Payloads in, RED payloads that repeat earlier ones out (RFC 2198). */
class red_sender : public handle<cpay_red_sender, cpay_red_sender_free> {
public:
    [[nodiscard]] cpay_status make(std::uint8_t red_pt, std::uint8_t primary_pt, view<const std::uint32_t> distances) noexcept {
        return cpay_red_sender_new(get(), red_pt, primary_pt, distances.data(), distances.size());
    }
    [[nodiscard]] cpay_status sync(std::uint8_t red_pt, std::uint8_t primary_pt, view<const std::uint32_t> distances) noexcept {
        return cpay_red_sync(get(), red_pt, primary_pt, distances.data(), distances.size());
    }
    [[nodiscard]] cpay_status wrap(std::uint32_t rtp_time, std::size_t budget, bytes payload, room to, std::size_t &size) noexcept {
        return cpay_red_wrap(get(), rtp_time, budget, payload.data(), payload.size(), to.data(), to.size(), &size);
    }
};

} // namespace cpay

#endif

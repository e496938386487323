//! Datagrams, their senders and receivers, histories, forwarding, sessions, and session descriptions.

use crate::formats::{depacketizer, packetizer};
use crate::{Call, made, told};
use codec_payload::forward::{ForwardSettings, Forwarder};
use codec_payload::history::{History, HistorySettings, RetransmissionStream};
use codec_payload::jitter::WaitLimits;
use codec_payload::red_writer::RedWriter;
use codec_payload::requests::NackSettings;
use codec_payload::rtp::RtpPacket;
use codec_payload::stream::ParsedDatagram;
use codec_payload::stream_edges::{EdgeRules, StreamEdges};
use codec_payload::*;

pub const CALLS: [Call; 14] = [
    Call(
        &["Sender::new", "Sender::send", "Sender::set_format"],
        sender,
    ),
    Call(&["RedWriter::write"], red_writer),
    Call(
        &[
            "History::keep",
            "History::keep_once",
            "History::resend",
            "History::resend_within",
        ],
        history,
    ),
    Call(
        &[
            "Forwarder::write",
            "Forwarder::leave_out",
            "Forwarder::write_again",
        ],
        forwarder,
    ),
    Call(
        &["Receiver::receive", "Receiver::pop"],
        packets_of_one_frame,
    ),
    Call(
        &[
            "Receiver::receive_parsed",
            "Receiver::pop_unit",
            "Receiver::missing_into",
            "Receiver::note_no_media",
        ],
        packets_of_any_kind,
    ),
    Call(&["StreamEdges::follow"], pictures_with_gaps),
    Call(
        &[
            "Receiver::receive_any",
            "Receiver::finish",
            "Receiver::drain",
        ],
        blocks_of_red,
    ),
    Call(&["Session::receive", "Session::poll"], missing_packets),
    Call(&["Session::receive_at", "Session::poll_into"], many_streams),
    Call(&["Session::add_pair"], pairs),
    Call(&["Session::receive", "Receiver::receive"], many_types),
    Call(
        &["read", "fec_port_settings", "session_settings", "groups"],
        descriptions,
    ),
    Call(&["Media::receiver_settings"], receiver_settings),
];

pub const VP8: u8 = 96;
pub const RTX: u8 = 97;
const OPUS: u8 = 111;
const RED: u8 = 63;
pub const EVENTS: u8 = 126;

/// An RTP packet with the marker (RFC 3550, section 5.1).
pub fn packet(payload_type: u8, ssrc: u32, number: u16, time: u32, payload: &[u8]) -> Vec<u8> {
    let mut bytes = vec![0x80, payload_type | 0x80];
    bytes.extend(number.to_be_bytes());
    bytes.extend(time.to_be_bytes());
    bytes.extend(ssrc.to_be_bytes());
    bytes.extend(payload);
    bytes
}

/// The payload of a keyframe of VP8 in one packet, with as many bytes behind its header (RFC 7741, section 4.2).
pub fn keyframe(size: usize) -> Vec<u8> {
    let head = [0x10, 0x10, 0, 0, 0x9d, 0x01, 0x2a, 0x10, 0, 0x10, 0];
    [&head[..], &vec![7; size]].concat()
}

/// No more than what a datagram has room for beside headers.
fn payload_size(size: usize) -> usize {
    size.min(65_400)
}

fn sender(size: usize) {
    for codec in [Codec::Vp8, Codec::Vp9, Codec::Av1, Codec::Opus, Codec::PCMU] {
        let frame = match codec {
            Codec::Av1 => [0x32, 1, 9].repeat(size.div_ceil(3)),
            _ => vec![0x82; size],
        };
        let settings = SenderSettings {
            mtu: 90,
            tailroom: size.min(1_500),
            ..SenderSettings::for_stream(96, 7, Frequency::NINETY_KHZ)
        };
        let mut sender = made(Sender::new(packetizer(codec), settings));
        let sample = |bytes| Sample {
            rtp_time: MediaTime::from_90khz(0),
            bytes,
            start_of_talk_spurt: false,
            ext_vals: ExtensionValues::default(),
        };
        made(sender.send(&sample(&frame)));
        made(sender.set_format(packetizer(Codec::Opus), 111, Frequency::FORTY_EIGHT_KHZ));
        made(sender.send(&sample(&frame[..size.min(80)])));
    }
}

fn red_writer(size: usize) {
    let all: Vec<u32> = (1..=8).collect();
    for budget in [0, 1_200, usize::MAX] {
        let mut writer = RedWriter::new(RED, OPUS, &all, budget).expect("settings in range");
        let mut out = Vec::new();
        for number in 0..12 {
            let payload = vec![1; payload_size(size)];
            let datagram = packet(OPUS, 7, number, 960 * u32::from(number), &payload);
            made(writer.write(&datagram, &mut out));
        }
        let _ = told(writer.write(&vec![0x80; size], &mut out));
    }
}

fn history(size: usize) {
    let stream = RetransmissionStream {
        ssrc: 9,
        payload_type: RTX,
        first_number: 65_535,
    };
    for limit in [1, size.clamp(1, 32_768)] {
        let mut history = History::new(HistorySettings {
            limit,
            interval: 0,
            stream: Some(stream),
        })
        .expect("settings in range");
        for number in 0..size.min(5_000) as u16 {
            made(history.keep(&packet(VP8, 7, number, 0, &[1; 50])));
        }
        let payload = vec![1; payload_size(size)];
        let mut out = Vec::new();
        for number in 5_000..5_040_u16 {
            let datagram = packet(VP8, 7, number, 0, &payload);
            made(history.keep_once(&datagram));
            made(history.keep_once(&datagram));
            made(history.resend(Ticks(1), number, &mut out));
            made(history.resend_within(Ticks(9), number, size, &mut out));
        }
        // Late packets, in front of all others.
        for number in (4_900..5_000_u16).rev().step_by(2) {
            made(history.keep(&packet(VP8, 7, number, 0, &payload)));
        }
        let _ = told(history.keep(&vec![0x80; size]));
    }
}

/// Packets of VP8 of which each third is left out, with picture ids (RFC 7741, section 4.2), and retransmissions of the others.
fn forwarder(size: usize) {
    for codec in [Codec::Vp8, Codec::Vp9, Codec::Opus] {
        let mut forwarder = Forwarder::new(ForwardSettings {
            codec,
            ssrc: 1,
            payload_type: VP8,
            first_number: 65_000,
            first_time: 0,
            retransmissions: Some(RetransmissionStream {
                ssrc: 9,
                payload_type: RTX,
                first_number: 0,
            }),
        })
        .expect("settings in range");
        forwarder.want(7);
        let mut out = Vec::new();
        let payload = |number: usize, size| {
            let id = [0x80 | (number >> 8) as u8 & 0x7f, number as u8];
            [
                &[
                    0x90, 0xe0, id[0], id[1], 5, 0x20, 0x10, 0, 0, 0x9d, 0x01, 0x2a,
                ][..],
                &vec![1; size],
            ]
            .concat()
        };
        for number in 0..size.min(10_000) {
            let large = if number < 5 { payload_size(size) } else { 9 };
            let bytes = packet(VP8, 7, (number * 2) as u16, 0, &payload(number, large));
            let packet = RtpPacket::parse(&bytes).expect("a packet");
            if number % 3 == 1 {
                made(forwarder.leave_out(&packet, &mut out));
            } else {
                made(forwarder.write(number as u64, &packet, &mut out));
                made(forwarder.write_again(&packet, &mut out));
            }
        }
        // Other sources, which begin with keyframes.
        for ssrc in [8, 9] {
            forwarder.want(ssrc);
            let bytes = packet(VP8, ssrc, 0, 0, &payload(0, payload_size(size)));
            let packet = RtpPacket::parse(&bytes).expect("a packet");
            made(forwarder.write(1_000_000, &packet, &mut out));
        }
    }
}

/// A receiver of one stream whose packets wait, with everything that settings allow.
fn receiver(codec: Codec, size: usize) -> Receiver {
    let rate = Frequency::FORTY_EIGHT_KHZ;
    let mut settings = ReceiverSettings::for_stream(OPUS, codec, rate);
    settings.ssrc = Some(7);
    settings.limit = size.clamp(2, 65_533);
    settings.no_media = (0..128)
        .filter(|it| ![OPUS, RED, RTX].contains(it))
        .collect();
    settings.red = Some(RedSettings {
        payload_type: RED,
        step: 100,
        retransmission: Some(98),
    });
    settings.no_media.retain(|it| *it != 98);
    settings.retransmission = Some(Retransmission {
        ssrc: 8,
        payload_type: RTX,
    });
    settings.max_unit = Some(usize::MAX);
    settings.wait_limits = {
        let mut limits = WaitLimits::live();
        limits.hold_back = Some(usize::MAX);
        limits.start = usize::MAX;
        limits.max_wait = None;
        limits
    };
    Receiver::new(depacketizer(codec), settings).expect("settings in range")
}

/// A frame of VP8 of that many packets, and a datagram of that many bytes.
fn packets_of_one_frame(size: usize) {
    let mut receiver = receiver(Codec::Vp8, 65_533);
    let count = size.clamp(1, 20_000) as u16;
    for number in 0..count {
        let first = if number == 0 { 0x10 } else { 0 };
        let mut datagram = packet(OPUS, 7, number, 0, &[first, 1, 2]);
        if number + 1 < count {
            datagram[1] &= 0x7f;
        }
        made(receiver.receive(Ticks(0), &datagram));
    }
    made(receiver.receive(
        Ticks(0),
        &packet(OPUS, 7, count, 90, &keyframe(payload_size(size))),
    ));
    let _ = told(receiver.receive(Ticks(0), &vec![0x80; size]));
    made(receiver.finish());
    while let Some(unit) = receiver.pop(Ticks(9)) {
        made(unit);
    }
}

/// Media, numbers without media, retransmissions with a gap before each, and RTCP.
fn packets_of_any_kind(size: usize) {
    let (mut receiver, mut unit) = (receiver(Codec::Opus, size), PoppedUnit::new());
    let mut missing = Vec::new();
    for place in 0..size.min(3_000) as u16 {
        let number = 5 * place;
        let datagrams = [
            packet(OPUS, 7, number, 960, &[1; 40]),
            packet(13, 7, number.wrapping_add(2), 960, &[]),
            packet(
                RTX,
                8,
                place,
                960,
                &[&number.wrapping_sub(1).to_be_bytes()[..], &[1; 40]].concat(),
            ),
            vec![0x81, 203, 0, 1, 0, 0, 0, 99],
        ];
        for datagram in datagrams {
            let parsed = ParsedDatagram::parse(&datagram);
            let _ = told(receiver.receive_parsed(Ticks(place.into()), &parsed));
        }
        made(receiver.missing_into(size, &mut missing));
        made(receiver.note_no_media(65_536, 65_536 + size as u64));
    }
    let large = packet(OPUS, 7, 9, 960, &vec![1; payload_size(size)]);
    made(receiver.receive_parsed(Ticks(0), &ParsedDatagram::parse(&large)));
    made(receiver.finish());
    while let Some(popped) = receiver.pop_unit(Ticks(9), &mut unit) {
        made(popped);
    }
}

/// Pictures of one packet, with gaps between them.
fn pictures_with_gaps(size: usize) {
    let mut receiver = receiver(Codec::Vp8, size);
    let settings = ReceiverSettings::for_stream(OPUS, Codec::Vp8, Frequency::NINETY_KHZ);
    let rules = EdgeRules::of(Codec::Vp8, &settings);
    let mut edges = StreamEdges::new();
    for id in 0..size.min(3_000) as u16 {
        let payload = [0x90, 0x80, 0x80 | (id >> 8) as u8, id as u8, 0x11, 0];
        let bytes = packet(OPUS, 7, 10 * id, u32::from(id) * 3_000, &payload);
        let datagram = ParsedDatagram::parse(&bytes);
        let answer = receiver.receive_parsed(Ticks(0), &datagram);
        made(edges.follow(&rules, &mut receiver, &datagram, &answer));
        let _ = told(answer);
    }
}

/// A packet of RED with that many blocks of two bytes (RFC 2198, section 3), behind a gap.
fn blocks_of_red(size: usize) {
    let mut receiver = receiver(Codec::Opus, 65_533);
    made(receiver.receive_any(Ticks(0), &packet(OPUS, 7, 0, 0, &[0])));
    let count = size.min(9_000) as u32;
    let mut payload = Vec::new();
    for back in (1..=count).rev() {
        payload.push(0x80 | OPUS);
        payload.extend(&((back * 100 % 16_384) << 10 | 2).to_be_bytes()[1..]);
    }
    payload.push(OPUS);
    payload.extend(vec![1; 2 * count as usize + 1]);
    for number in [500, 1_000] {
        let datagram = packet(RED, 7, number, u32::from(number) * 100, &payload);
        made(receiver.receive_any(Ticks(1), &datagram));
    }
    for unit in made(receiver.drain(Ticks(2))) {
        made(unit);
    }
    let mut undecided: Receiver = Receiver::new(
        depacketizer(Codec::Opus),
        ReceiverSettings::for_stream(OPUS, Codec::Opus, Frequency::FORTY_EIGHT_KHZ),
    )
    .expect("settings in range");
    made(undecided.receive_any(
        Ticks(0),
        &packet(OPUS, 7, 0, 0, &vec![1; payload_size(size)]),
    ));
    made(undecided.finish());
}

fn format(payload_type: u8, codec: Codec, rate: Frequency) -> Format {
    let spec = CodecSpec {
        codec,
        clock_rate: rate,
        octet_align: false,
    };
    {
        let mut format = Format::new(payload_type, spec);
        format.nack = true;
        format.pli = true;
        format
    }
}

/// A session that requests all, reports each tick, and has room for as much as its settings can say.
pub fn session(size: usize) -> Session {
    let mut settings = SessionSettings::live();
    settings.formats = vec![
        {
            let mut format = format(VP8, Codec::Vp8, Frequency::NINETY_KHZ);
            format.retransmission = Some(RTX);
            format
        },
        {
            let mut format = format(OPUS, Codec::Opus, Frequency::FORTY_EIGHT_KHZ);
            format.red = Some(RedSettings {
                payload_type: RED,
                step: 960,
                retransmission: None,
            });
            format
        },
    ];
    settings.telephone_events.push(EVENTS);
    settings.probation = 1;
    settings.max_streams = usize::MAX;
    settings.limit = 65_533;
    settings.max_unit = Some(usize::MAX);
    settings.feedback = Some({
        let mut it = FeedbackSettings::live(1, vec![b'n'; size.clamp(1, 255)]);
        it.nack = {
            let mut settings = NackSettings::live();
            settings.capacity = usize::MAX;
            settings
        };
        it.has_report = true;
        it.report_interval = Some(1);
        it.max_report = usize::MAX;
        it
    });
    settings.transport = Some({
        let mut settings = codec_payload::feedback::TransportSettings::live(5);
        settings.interval = 1;
        settings.size = usize::MAX;
        settings.window = 32_768;
        settings
    });
    Session::new(settings).expect("settings that can be met")
}

/// The answers of an event.
pub fn checked<U>(event: &Event<U>) {
    match event {
        Event::Unit { unit, .. } => drop(told(unit.as_ref().map_err(|it| *it))),
        Event::Feedback { packet, .. }
        | Event::Report { packet }
        | Event::TransportFeedback { packet } => {
            let _ = told(packet.as_ref().map_err(|it| *it));
        }
        _ => {}
    }
}

/// A packet with a transport-wide number under id 5, and a keyframe (RFC 8285, section 4.2).
pub fn numbered(ssrc: u32, number: u16) -> Vec<u8> {
    let [high, low] = number.to_be_bytes();
    let plain = packet(VP8, ssrc, number, 3_000 * u32::from(number), &[]);
    [
        &plain[..],
        &[0xbe, 0xde, 0, 1, 0x51, high, low, 0],
        &keyframe(1),
    ]
    .concat()
    .iter()
    .enumerate()
    .map(|(place, byte)| if place == 0 { byte | 0x10 } else { *byte })
    .collect()
}

/// A run of missing numbers, each second number, telephone events, and a large datagram.
fn missing_packets(size: usize) {
    let mut session = session(size);
    let large = packet(VP8, 9, 0, 0, &keyframe(payload_size(size)));
    made(session.receive(Ticks(0), &large));
    let count = size.min(3_000) as u16;
    for number in 0..count {
        made(session.receive(Ticks(0), &numbered(5, 2 * number)));
    }
    made(session.receive(Ticks(0), &numbered(6, 0)));
    made(session.receive(Ticks(0), &numbered(6, count)));
    for number in 0..size.min(200) as u16 {
        let events = packet(
            EVENTS,
            5,
            2 * count + number,
            0,
            &[number as u8, 0x8a, 3, 0x20],
        );
        made(session.receive(Ticks(0), &events));
    }
    let _ = made(session.receive(Ticks(0), &vec![0x80; size]));
    let compound = [0x81, 203, 0, 1, 0, 0, 0, 99].repeat(size.min(8_000));
    made(session.receive(Ticks(0), &compound));
    for now in [0, 15, 200, 2_000, 30_000] {
        while let Some(event) = session.poll(Ticks(now)) {
            checked(&event);
        }
    }
    session.finish(Ticks(40_000));
    while let Some(event) = session.poll(Ticks(40_000)) {
        checked(&event);
    }
}

/// That many streams, of which each loses a packet, and the reports and requests of all.
fn many_streams(size: usize) {
    let (mut session, mut unit) = (session(size), PoppedUnit::new());
    let count = size.min(600) as u32;
    for number in [0, 2] {
        for ssrc in 0..count {
            made(session.receive_at(Ticks(0), 100, &numbered(100 + ssrc, number)));
        }
    }
    let large = packet(VP8, 99, 0, 0, &keyframe(payload_size(size)));
    made(session.receive_at(Ticks(0), 100, &large));
    made(session.add_pair(99, 100_000));
    for now in [0, 20, 1_000] {
        while let Some(event) = session.poll_into(Ticks(now), &mut unit) {
            checked(&event);
        }
    }
    assert_eq!(session.stream_count(), count as usize + 1);
}

/// As many payload types as there are, each in turn a format, without media, and of telephone events; and pairs.
fn many_types(size: usize) {
    let types: Vec<u8> = (0..64).chain(98..128).take(size).collect();
    let video = |it: &u8| format(*it, Codec::Vp8, Frequency::NINETY_KHZ);
    for kind in 0..3 {
        let mut settings = SessionSettings::live();
        settings.formats = vec![video(&VP8)];
        match kind {
            0 => settings.formats.extend(types.iter().map(video)),
            1 => settings.no_media = types.clone(),
            _ => settings.telephone_events = types.clone(),
        }
        settings.pairs = (0..size.min(1_000) as u32)
            .map(|it| SsrcPair {
                ssrc: it,
                retransmission: 100_000 + it,
            })
            .collect();
        let mut session = Session::new(settings).expect("settings that can be met");
        for payload_type in [VP8, 5] {
            made(session.receive(Ticks(0), &packet(payload_type, 7, 1, 0, &keyframe(1))));
        }
        let mut undecided = ReceiverSettings::for_stream(VP8, Codec::Vp8, Frequency::NINETY_KHZ);
        undecided.no_media = types.clone();
        let depacketizer = depacketizer(Codec::Vp8);
        let mut receiver: Receiver = Receiver::new(depacketizer, undecided).expect("in range");
        for number in 0..3 {
            made(receiver.receive(Ticks(0), &packet(VP8, 7, number, 0, &keyframe(1))));
        }
    }
}

fn pairs(size: usize) {
    let mut session = session(size);
    for ssrc in 0..size.min(2_000) as u32 {
        made(session.add_pair(ssrc, 100_000 + ssrc));
    }
}

/// A description with that many formats, sources, extensions and sections, and long lines (RFC 8866).
fn description(size: usize) -> String {
    let types = size.clamp(1, 128);
    let list: Vec<_> = (0..types).map(|it| it.to_string()).collect();
    let mut text = format!("v=0\r\ns={}\r\n", "s".repeat(size));
    for _ in 0..size.clamp(1, 9) {
        text += &format!("m=video 9 UDP/TLS/RTP/SAVPF {}\r\n", list.join(" "));
        for payload_type in 0..types {
            text +=
                &format!("a=rtpmap:{payload_type} VP8/90000\r\na=rtcp-fb:{payload_type} nack\r\n");
        }
    }
    for source in 0..size.min(128) {
        text += &format!(
            "a=ssrc:{source} cname:c\r\na=ssrc-group:FID {source} {}\r\n",
            source + 1_000
        );
    }
    text
}

fn descriptions(size: usize) {
    let text = description(size);
    if let Ok(media) = told(sdp::read(&text)) {
        let _ = told(sdp::session_settings(&media));
        let _ = made(sdp::fec_port_settings(&media));
    }
    let _ = told(sdp::read(
        &"m=audio 9 RTP/AVP 0\r\n".repeat(size.min(5_000)),
    ));
    let _ = told(sdp::read(&"a".repeat(size)));
    let mids = " 0".repeat(size.min(5_000));
    let _ = told(sdp::groups(&format!("a=group:BUNDLE{mids}\r\n").repeat(8)));
}

fn receiver_settings(size: usize) {
    let text = description(size);
    for media in sdp::read(&text).unwrap_or_default() {
        let _ = made(media.receiver_settings(0));
    }
}

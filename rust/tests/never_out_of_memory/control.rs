//! RTCP packets, requests, feedback for congestion control, and the header of RTP packets.

use crate::{Call, made, told};
use codec_payload::bandwidth::{
    PacedKind, PacedPacket, Pacer, PacerSettings, PathSettings, ViewerPath,
};
use codec_payload::ccfb::{CongestionFeedback, PacketMetric, StreamReport, stream_report};
use codec_payload::congestion::*;
use codec_payload::fec::{
    FecPacket, FecPort, FecPortSettings, FecReceiver, FecSender, FecSenderSettings, FecSettings,
    FecWriter, LateIds, PacketStore,
};
use codec_payload::feedback::{
    FeedbackSource, StreamRequests, TransportReporter, TransportSettings,
};
use codec_payload::payloads::Payloads;
use codec_payload::requests::{NackSchedule, NackSettings};
use codec_payload::rtcp::*;
use codec_payload::rtp::*;
use codec_payload::transport::{SentPackets, write_numbered};
use codec_payload::wire::*;
use codec_payload::xr::{Dlrr, write_dlrr, write_reference_time};

pub const CALLS: [Call; 17] = [
    Call(&["Pacer::push"], paced),
    Call(
        &[
            "ViewerPath::append_lost",
            "ViewerPath::feedback",
            "ViewerPath::new",
            "ViewerPath::push",
        ],
        viewer,
    ),
    Call(
        &[
            "FecPacket::rebuild",
            "FecPacket::write",
            "FecPort::next_rebuilt",
            "FecPort::receive",
            "FecReceiver::new",
            "FecReceiver::next_rebuilt",
            "FecReceiver::receive",
            "FecSender::finish_frame",
            "FecSender::push",
            "FecWriter::write",
            "PacketStore::keep",
            "PacketStore::new",
        ],
        corrected,
    ),
    Call(
        &[
            "ReportBlock::write",
            "SenderReport::write",
            "ReceiverReport::write",
        ],
        reports,
    ),
    Call(
        &["write_cname", "SourceDescription::write", "write_padded"],
        descriptions,
    ),
    Call(&["Goodbye::write"], goodbye),
    Call(
        &["pack_numbers", "Nack::write", "PictureLoss::write"],
        nacks,
    ),
    Call(
        &["FullIntraEntry::write", "FullIntraRequest::write"],
        keyframes,
    ),
    Call(
        &[
            "NackSchedule::refresh",
            "NackSchedule::take_due",
            "NackSchedule::append_due",
        ],
        schedule,
    ),
    Call(
        &["StreamRequests::update", "StreamRequests::take_due"],
        requests,
    ),
    Call(
        &["ArrivalLog::arrived", "append_report", "take_report"],
        arrivals,
    ),
    Call(
        &[
            "TransportReporter::receive",
            "TransportReporter::receive_packet",
            "TransportReporter::take_due",
        ],
        reporter,
    ),
    Call(
        &[
            "read_transport_feedback",
            "write_transport_packet",
            "write_remb_packet",
            "SentPackets::assign",
            "SentPackets::results",
        ],
        transport,
    ),
    Call(
        &[
            "stream_report",
            "CongestionFeedback::write",
            "CongestionFeedback::read",
        ],
        congestion,
    ),
    Call(&["write_reference_time", "write_dlrr"], round_trips),
    Call(
        &["write_elements", "PacketHeader::write", "RtpPacket::write"],
        rtp_packets,
    ),
    Call(&["ExtensionIds::write", "write_numbered"], extensions),
];

/// Whole words of about this many bytes, at most as many as an extension of a report may have.
fn words(size: usize) -> Vec<u8> {
    vec![1; (4 * size).min(200_000)]
}

fn reports(size: usize) {
    let mut blocks = Vec::new();
    for place in 0..size.min(31) {
        let block = ReportBlock {
            ssrc: place as u32,
            fraction_lost: 255,
            cumulative_lost: 0x00ff_ffff,
            highest_sequence_number: u32::MAX,
            jitter: u32::MAX,
            last_sender_report: 0,
            delay_since_sender_report: 0,
        };
        made(block.write(&mut blocks));
    }
    let (mut out, extension) = (vec![0; size], words(size));
    let (blocks, extension) = (&blocks[..], &extension[..]);
    let sent = SenderReport {
        ssrc: 1,
        ntp_seconds: 0,
        ntp_fraction: 0,
        rtp_time: 0,
        packet_count: 0,
        octet_count: 0,
        blocks,
        extension,
    };
    made(sent.write(&mut out));
    let report = ReceiverReport {
        ssrc: 1,
        blocks,
        extension,
    };
    // A compound packet grows by each report.
    for _ in 0..20 {
        made(report.write(&mut out));
    }
}

fn descriptions(size: usize) {
    let text = vec![b'n'; size.min(255)];
    let (mut out, mut chunks) = (vec![0; size], Vec::new());
    made(write_cname(1, &text, &mut out));
    let items = vec![
        SdesItem {
            kind: CNAME,
            text: &text
        };
        (size / 8).min(30)
    ];
    let count = size.min(31) as u8;
    for ssrc in 0..count {
        made(codec_payload::rtcp::write_chunk(
            ssrc.into(),
            &items,
            &mut chunks,
        ));
    }
    let short = SdesItem {
        kind: CNAME,
        text: b"me",
    };
    let many = vec![short; size.min(5_000)];
    made(codec_payload::rtcp::write_chunk(1, &many, &mut out));
    let all = SourceDescription {
        count,
        chunks: &chunks,
    };
    made(all.write(&mut out));
    let whole = [&[0x80, 204, 0, 0][..], &words(size)].concat();
    for padding in [4, 252] {
        made(write_padded(&whole, padding, &mut out));
    }
}

fn goodbye(size: usize) {
    let (ssrcs, reason) = (vec![1; 4 * size.min(31)], vec![b'r'; size.min(255)]);
    for reason in [None, Some(&reason[..])] {
        let goodbye = Goodbye {
            ssrcs: &ssrcs,
            reason,
        };
        made(goodbye.write(&mut vec![0; size]));
    }
}

/// Numbers in a row, and numbers that need a pair each.
fn nacks(size: usize) {
    for step in [1, 20] {
        let numbers: Vec<u16> = (0..size).map(|it| (it * step) as u16).collect();
        let (mut pairs, mut out) = (Vec::new(), vec![0; size]);
        made(pack_numbers(&numbers, &mut pairs));
        made(pack_numbers(&numbers, &mut out));
        out.truncate(size);
        pairs.truncate(4 * 65_533);
        let nack = Nack {
            sender_ssrc: 1,
            media_ssrc: 2,
            pairs: &pairs,
        };
        if nack.fits() {
            made(nack.write(&mut out));
        }
        let picture = PictureLoss {
            sender_ssrc: 1,
            media_ssrc: 2,
        };
        made(picture.write(&mut out));
    }
}

fn keyframes(size: usize) {
    let mut entries = Vec::new();
    for ssrc in 0..size.clamp(1, 30_000) {
        let entry = FullIntraEntry {
            ssrc: ssrc as u32,
            sequence_number: 1,
        };
        made(entry.write(&mut entries));
    }
    let request = FullIntraRequest {
        sender_ssrc: 1,
        media_ssrc: 0,
        entries: &entries,
    };
    made(request.write(&mut vec![0; size]));
}

/// The settings of a schedule, with capacities below, at and above what is missing.
fn nack_settings(capacity: usize) -> NackSettings {
    {
        let mut settings = NackSettings::live();
        settings.capacity = capacity;
        settings.tries = u32::MAX;
        settings
    }
}

/// What is missing: in a row, each second one, and far apart.
fn missing(size: usize) -> [Vec<u64>; 3] {
    let all = |step: u64| {
        (0..size.min(10_000) as u64)
            .map(|it| 65_536 + it * step)
            .collect()
    };
    [all(1), all(2), all(1_000)]
}

fn schedule(size: usize) {
    for capacity in [0, 1, size, usize::MAX] {
        for missing in missing(size) {
            let mut schedule = NackSchedule::new(nack_settings(capacity));
            let mut numbers = vec![0; size];
            made(schedule.refresh(Ticks(0), &missing));
            made(schedule.append_due(Ticks(50), &mut numbers));
            made(schedule.take_due(Ticks(50), &mut numbers));
            made(schedule.refresh(Ticks(60), &missing[missing.len() / 2..]));
            made(schedule.refresh(Ticks(70), &missing));
            made(schedule.take_due(Ticks(u64::MAX), &mut numbers));
            assert!(numbers.len() >= size + 2 * missing.len().min(capacity));
        }
    }
}

fn requests(size: usize) {
    let name = vec![b'n'; size.min(255)];
    for has_report in [false, true] {
        let source = FeedbackSource::new(1, name.clone(), has_report).expect("the name is short");
        for missing in missing(size) {
            let mut requests = StreamRequests::new(2, nack_settings(usize::MAX), 0);
            made(requests.update(Ticks(0), &missing, true));
            for now in [0, 50, 500] {
                let _ = made(requests.take_due(Ticks(now), &source));
            }
        }
    }
}

/// Arrivals with gaps, late ones, and deltas that need two bytes, in windows of any size.
fn arrivals(size: usize) {
    for window in [1, size.clamp(1, 32_768), 32_768] {
        let mut log = ArrivalLog::new(window).expect("a window in range");
        for place in 0..size.min(20_000) as u32 {
            let number = (place * 3) ^ (place % 2);
            made(log.arrived(number as u16, place * 300));
        }
        let mut out = vec![0; size];
        made(append_report(&log, 0, usize::MAX, &mut out));
        made(append_report(&log, 0, size, &mut out));
        while log.has_unreported() {
            made(take_report(&mut log, 0, size.max(1), &mut out));
        }
    }
}

/// A packet with a transport-wide number under id 5, and that many bytes.
fn numbered(number: u16, size: usize) -> Vec<u8> {
    let [high, low] = number.to_be_bytes();
    let head = [0x90, 96, 0, 1, 0, 0, 0, 0, 0, 0, 0, 7, 0xbe, 0xde, 0, 1];
    [&head[..], &[0x51, high, low, 0], &vec![1; size]].concat()
}

fn reporter(size: usize) {
    let source = FeedbackSource::new(1, vec![b'n'; size.min(255)], true).expect("a short name");
    for most in [0, 1_100, usize::MAX] {
        let settings = {
            let mut settings = TransportSettings::live(5);
            settings.interval = 0;
            settings.size = most;
            settings.window = size.clamp(1, 32_768);
            settings
        };
        let mut reporter = TransportReporter::new(settings).expect("settings in range");
        for number in 0..size.min(5_000) {
            let datagram = numbered(2 * number as u16, 4);
            made(reporter.receive(40 * number as u32, &datagram));
        }
        let large = numbered(20_000, size);
        let packet = RtpPacket::parse(&large).expect("a packet");
        made(reporter.receive_packet(1 << 30, &packet));
        made(reporter.receive(1 << 30, &numbered(20_001, size)));
        let mut count = 0;
        while made(reporter.take_due(Ticks(9), &source)).is_some() && count < 50 {
            count += 1;
        }
    }
}

/// A feedback about that many numbers, in runs of small deltas, and one that ends early (section 3.1 of the draft).
fn transport(size: usize) {
    let mut control = [&[0, 0][..], &(size as u16).to_be_bytes(), &[0, 0, 0, 0]].concat();
    for left in (0..size).step_by(8_191) {
        let run = 0x2000 | (size - left).min(8_191) as u16;
        control.extend(run.to_be_bytes());
    }
    control.extend(vec![1; size]);
    let feedback = made(read_transport_feedback(&control));
    let _ = told(read_transport_feedback(&control[..control.len() / 2]));
    let mut out = vec![0; size];
    made(write_transport_packet(1, 2, &words(size), &mut out));
    let ssrcs = vec![1; 4 * size.min(255)];
    made(write_remb_packet(1, u64::MAX, &ssrcs, &mut out));
    for limit in [1, size.clamp(1, 32_768), 32_768] {
        let mut sent = SentPackets::new(limit).expect("a limit in range");
        for now in 0..size as u64 {
            made(sent.assign(Ticks(now)));
        }
        assert_eq!(made(sent.results(&feedback)).len(), size);
    }
}

fn paced(size: usize) {
    let mut pacer = Pacer::new(1, {
        let mut settings = PacerSettings::live();
        settings.burst = 0;
        settings.bound = u64::MAX;
        settings
    });
    for id in 0..size as u64 {
        let kind = [
            PacedKind::Audio,
            PacedKind::Resent,
            PacedKind::Media,
            PacedKind::Padding,
        ][id as usize % 4];
        made(pacer.push(PacedPacket {
            kind,
            size: 1_200,
            id,
        }));
    }
}

/// A path with as many packets, all of which leave, and feedback about them and as many more.
fn viewer(size: usize) {
    let mut path = made(ViewerPath::new(Ticks(0), PathSettings::live()));
    for id in 0..size as u64 {
        made(path.push(PacedPacket {
            kind: PacedKind::Media,
            size: 1,
            id,
        }));
    }
    let mut now = 0;
    while path.waiting() > 0 {
        now += 1_000;
        while path.pop(Ticks(now)).is_some() {}
    }
    let statuses = (0..2 * size as u32).map(|it| (it % 3 > 0).then_some(it));
    let feedback = TransportFeedback {
        base: 0,
        reference: 0,
        counter: 0,
        statuses: statuses.collect(),
    };
    let mut lost = vec![];
    made(path.append_lost(&feedback, &mut lost));
    assert_eq!(lost.is_empty(), size == 0);
    made(path.feedback(Ticks(now), 50_000, &feedback));
    assert!(path.waiting() == 0);
}

/// What a receiver of FEC hands out for these packets and this packet of FEC.
fn received(packets: &[&[u8]], fec: &[u8]) -> Option<Vec<u8>> {
    let mut receiver = made(FecReceiver::new(FecSettings {
        ssrc: 7,
        red_type: 116,
        fec_type: 117,
        late_ids: LateIds::default(),
        bytes: 512 * 65_548,
    }));
    for packet in packets {
        made(receiver.receive(packet));
    }
    let header = [0x80, 117, 0, 99, 0, 0, 0, 9, 0, 0, 0, 7];
    made(receiver.receive(&[&header, fec].concat()));
    made(receiver.next_rebuilt())
}

/// A frame in RED, and its FEC.
fn sent(writer: FecWriter, packets: &[&[u8]], wanted: &Payloads) {
    let mut sender = made(FecSender::new(FecSenderSettings {
        ssrc: 7,
        red_type: 116,
        fec_type: 117,
        first_number: 0,
        writer,
        late_ids: LateIds::default(),
    }));
    let (mut red, mut fec) = (vec![], made(Payloads::new(0, 0)));
    for packet in packets {
        made(sender.push(packet, &mut red));
    }
    made(sender.finish_frame(true, &mut fec));
    // Packets without a payload are not protected.
    let count = if packets[0].len() > 12 {
        wanted.len()
    } else {
        0
    };
    assert_eq!(fec.len(), count);
}

/// What a port with FEC hands out for the same.
fn ported(packets: &[&[u8]], fec: &[u8]) -> Option<Vec<u8>> {
    let settings = FecPortSettings {
        red_type: 116,
        fec_type: 117,
        red_retransmission: None,
        retransmissions: vec![],
        late_ids: LateIds::default(),
        bytes: 512 * 65_548,
        max_streams: 1,
    };
    let mut port = FecPort::new(settings).expect("settings that can be met");
    let mut out = vec![];
    // A packet of RED begins the stream.
    let [red, header] = [116, 117].map(|kind| [0x80, kind, 0, 99, 0, 0, 0, 9, 0, 0, 0, 7]);
    made(port.receive(&[&red[..], &[96, 1]].concat(), &mut out));
    for packet in packets {
        made(port.receive(packet, &mut out));
    }
    made(port.receive(&[&header, fec].concat(), &mut out));
    made(port.next_rebuilt())
}

/// Frames of packets of this size, the first of which is lost.
fn corrected(size: usize) {
    let payload = vec![9; size.min(65_535)];
    let writer = FecWriter {
        protection: 85,
        keyframe_protection: 255,
    };
    for count in [1, 2, 48, 49] {
        let all: Vec<Vec<u8>> = (0..count)
            .map(|number| [&[0x80, 96, 0, number, 0, 0, 0, 9, 0, 0, 0, 7], &payload[..]].concat())
            .collect();
        let packets: Vec<&[u8]> = all.iter().map(Vec::as_slice).collect();
        let mut store = made(PacketStore::new(512 * 65_548));
        for packet in &packets[1..] {
            made(store.keep(packet));
        }
        let mut fec = made(Payloads::new(0, 0));
        for is_keyframe in [false, true] {
            made(writer.write(is_keyframe, &packets, &mut fec));
            if is_keyframe {
                sent(writer, &packets, &fec);
            }
            for place in 0..fec.len() {
                let packet = FecPacket::read(fec.get(place)).expect("a packet of FEC");
                let mut again = vec![];
                made(packet.write(&mut again));
                assert_eq!(again, fec.get(place));
                let rebuilt = made(packet.rebuild(7, &store));
                assert_eq!(rebuilt.is_some(), packet.only_missing(&store) == Some(0));
                assert_eq!(received(&packets[1..], fec.get(place)), rebuilt);
                assert_eq!(ported(&packets[1..], fec.get(place)), rebuilt);
            }
        }
    }
}

fn round_trips(size: usize) {
    let mut out = vec![0; size];
    let answer = Dlrr {
        ssrc: 1,
        last_rr: 2,
        delay: 3,
    };
    // A compound packet grows by each report.
    for _ in 0..20 {
        made(write_reference_time(1, 2, &mut out));
        made(write_dlrr(1, answer, &mut out));
    }
}

fn congestion(size: usize) {
    let mut log = ArrivalLog::new(32_768).expect("a window in range");
    for place in 0..size.min(32_000) as u16 {
        made(log.arrived(2 * (place % 16_000), u32::from(place)));
    }
    let block = made(stream_report(7, &log, 100, usize::MAX));
    let metrics = vec![Some(PacketMetric { ecn: 3, offset: 9 }); size.min(16_384)];
    let large = StreamReport {
        ssrc: 8,
        first: 0,
        metrics,
    };
    let small = (0..size.min(20_000) as u32).map(|ssrc| StreamReport {
        ssrc,
        first: 9,
        metrics: vec![None],
    });
    for reports in [vec![block], vec![large], small.collect()] {
        let feedback = CongestionFeedback {
            sender_ssrc: 1,
            reports,
            timestamp: 0,
        };
        let mut out = vec![0; size];
        if feedback.fits() {
            made(feedback.write(&mut out));
            let read = made(CongestionFeedback::read(&out[size + 4..]));
            assert_eq!(read.reports.len(), feedback.reports.len());
        }
    }
    let _ = told(CongestionFeedback::read(&vec![0x7f; size]));
}

fn rtp_packets(size: usize) {
    let data = vec![7; size.min(255)];
    let element = |place: usize| Element {
        id: 1 + (place % 255) as u8,
        bytes: &data,
    };
    let elements: Vec<_> = (0..size.min(1_000)).map(element).collect();
    let mut bytes = Vec::new();
    made(write_elements(&elements, &mut vec![0; size]));
    let form = made(write_elements(&elements, &mut bytes));
    let csrcs = vec![1; 4 * size.min(15)];
    let header = PacketHeader {
        marker: true,
        payload_type: 96,
        sequence_number: 0,
        timestamp: 0,
        ssrc: 1,
        csrcs: &csrcs,
        extension: Some(HeaderExtension {
            profile: form.profile(),
            bytes: &bytes,
        }),
    };
    let mut out = vec![0; size];
    if header.fits() {
        made(header.write(&mut out));
        let payload = vec![1; size];
        let packet = RtpPacket {
            header,
            payload: &payload,
            padding: 255,
        };
        made(packet.write(&mut out));
    }
}

/// All values at once, the layers with as many bytes as they may have, and numbers in datagrams of any size.
fn extensions(size: usize) {
    let ids = {
        let mut ids = ExtensionIds::default();
        ids.abs_capture_time = Some(1);
        ids.video_orientation = Some(2);
        ids.video_content_type = Some(3);
        ids.video_timing = Some(4);
        ids.layers_allocation = Some(255);
        ids.audio_level = Some(6);
        ids
    };
    let values = ExtensionValues {
        abs_capture_time: Some(AbsCaptureTime {
            capture_time: u64::MAX,
            clock_offset: Some(i64::MIN),
        }),
        video_orientation: Some(3),
        video_content_type: Some(1),
        layers_allocation: VideoLayersAllocation::new(&vec![1; size.min(255)]),
        audio_level: Some(-127),
        voice_activity: Some(true),
        ..ExtensionValues::default()
    };
    made(ids.write(&values, &mut vec![0; size]));
    let mut out = vec![0; size];
    let plain = [
        &[0x80, 96, 0, 1, 0, 0, 0, 0, 0, 0, 0, 7][..],
        &vec![1; size],
    ]
    .concat();
    // An extension of many elements, in the two-byte form.
    let element = |place: usize| Element {
        id: 6 + (place % 200) as u8,
        bytes: &[7],
    };
    let elements: Vec<_> = (0..size.min(20_000)).map(element).collect();
    let mut bytes = Vec::new();
    let form = made(write_elements(&elements, &mut bytes));
    let mut many = vec![0x90, 96, 0, 1, 0, 0, 0, 0, 0, 0, 0, 7];
    many.extend(form.profile().to_be_bytes());
    many.extend(((bytes.len() / 4) as u16).to_be_bytes());
    many.extend(bytes);
    for datagram in [plain, numbered(9, size), many, vec![1; size]] {
        for id in [5, 15, 255] {
            let _ = told(write_numbered(id, 9, &datagram, &mut out));
        }
    }
}

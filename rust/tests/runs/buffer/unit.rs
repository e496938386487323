//! The packets' data in units, and units in memory that is used again.

use crate::Fail;
use crate::asserts::{assert_bytes, assert_count, assert_same};
use crate::buffer::meta;
use crate::library::{buffer_of, pop_unit, push};
use codec_payload::buffer::{Depacketized, DepacketizingBuffer, PoppedUnit, RtpMeta};
use codec_payload::error::PacketError;
use codec_payload::memory::TryVec;
use codec_payload::wire::{
    AbsCaptureTime, Codec, ExtensionValues, MediaTime, Pt, RtpHeader, SenderInfo, SeqNo, Ticks,
    VideoLayersAllocation, VideoTiming,
};

/// Pushes one of the packets 4 to 6 of a VP8 frame, which was received then.
fn push_received(
    buffer: &mut DepacketizingBuffer,
    number: u64,
    received: u64,
) -> Result<(), PacketError> {
    let mut meta = meta(number, 960);
    meta.received = Ticks(received);
    meta.header.marker = number == 6;
    meta.last_sender_info = Some(SenderInfo {
        ssrc: 1,
        ntp_time: number,
        rtp_time: 2,
        packet_count: 3,
        octet_count: 4,
    });
    let descriptor = if number == 4 { 0x10 } else { 0x00 };
    push(buffer, meta, &[descriptor, 0x90])
}

/// The NTP time of the first sender report.
fn first_ntp_time(unit: &Depacketized) -> Option<u64> {
    unit.first_sender_info().map(|info| info.ntp_time)
}

/// A VP8 frame in three packets, of which the second and the third were received first.
#[test]
fn unit_tells_of_its_packets() -> Result<(), Fail> {
    let mut buffer = buffer_of(Codec::Vp8)?;
    for (number, received) in [(4, 9), (5, 8), (6, 8)] {
        push_received(&mut buffer, number, received)?;
    }
    let unit = pop_unit(&mut buffer, "no unit")?;
    assert_count("its packets", unit.meta().len(), 3);
    let times = (unit.first_network_time(), first_ntp_time(&unit));
    assert_same("when it came", &times, &(Ticks(8), Some(5)));
    let told = (unit.seq_range(), unit.start_of_talkspurt());
    assert_same("numbers and marker", &told, &(SeqNo(4)..=SeqNo(6), false));
    Ok(())
}

/// The values of the unit that comes of a VP8 frame in packets with these values.
fn merged_of(values: &[ExtensionValues]) -> Result<ExtensionValues, Fail> {
    let mut buffer = buffer_of(Codec::Vp8)?;
    for (place, value) in values.iter().enumerate() {
        let mut meta = meta(place as u64, 960);
        meta.header.ext_vals = *value;
        meta.header.marker = place + 1 == values.len();
        // The S bit begins a frame.
        let descriptor = if place == 0 { 0x10 } else { 0x00 };
        push(&mut buffer, meta, &[descriptor, 0x01])?;
    }
    Ok(pop_unit(&mut buffer, "no unit")?.ext_vals())
}

fn captured(capture_time: u64) -> AbsCaptureTime {
    AbsCaptureTime {
        capture_time,
        clock_offset: None,
    }
}

/// Capture time and layers allocation are those of the first packet, or else of the last; all others those of the last.
#[test]
fn unit_merges_extension_values() -> Result<(), Fail> {
    let none = ExtensionValues::default();
    let first = ExtensionValues {
        abs_capture_time: Some(captured(1)),
        layers_allocation: VideoLayersAllocation::new(&[1]),
        audio_level: Some(-1),
        ..none
    };
    let last = ExtensionValues {
        abs_capture_time: Some(captured(2)),
        layers_allocation: VideoLayersAllocation::new(&[2]),
        video_orientation: Some(2),
        video_content_type: Some(2),
        ..none
    };

    let mut merged = last;
    merged.abs_capture_time = first.abs_capture_time;
    merged.layers_allocation = first.layers_allocation;
    for (values, wanted) in [
        ([first, none, last].as_slice(), merged),
        (&[none, first, last], last),
        (&[last], last),
    ] {
        assert_same("the values of a unit", &merged_of(values)?, &wanted);
    }
    let turned = merged_of(&[last, none])?.video_orientation;
    assert_same("the orientation of a unit", &turned, &None);
    Ok(())
}

/// Every value of a header extension.
fn all_values() -> ExtensionValues {
    ExtensionValues {
        abs_capture_time: Some(AbsCaptureTime {
            capture_time: 0x1234_5678_0000_0001,
            clock_offset: Some(-7),
        }),
        video_orientation: Some(3),
        video_content_type: Some(1),
        video_timing: Some(VideoTiming {
            flags: 2,
            encode_start: 1,
            encode_finish: 2,
            packetize_complete: 3,
            last_left_pacer: 4,
            network_1: 5,
            network_2: 6,
        }),
        layers_allocation: VideoLayersAllocation::new(&[0x40, 0, 0x0a]),
        audio_level: Some(-30),
        voice_activity: Some(true),
    }
}

/// What is known of a packet of Opus: every value of a header extension, or none.
fn meta_of(number: u64, ext_vals: ExtensionValues) -> RtpMeta {
    RtpMeta {
        received: Ticks(number.wrapping_add(5)),
        time: MediaTime::from_90khz(number.wrapping_mul(960)),
        seq_no: SeqNo(number),
        header: RtpHeader {
            payload_type: Pt::new_with_value(111),
            sequence_number: (number % 65_536) as u16,
            timestamp: 7,
            ssrc: 0x0102_0304,
            marker: true,
            ext_vals,
        },
        last_sender_info: Some(SenderInfo {
            ssrc: 9,
            ntp_time: 10,
            rtp_time: 11,
            packet_count: 12,
            octet_count: 13,
        }),
    }
}

/// What is known of the packet of that number: of even ones with every value of a header extension, of others with none.
fn known_of(number: u64) -> RtpMeta {
    let values = if number % 2 == 0 {
        all_values()
    } else {
        ExtensionValues::default()
    };
    meta_of(number, values)
}

/// Pushes the packet of that number.
fn push_number(buffer: &mut DepacketizingBuffer, number: u64) -> Result<(), PacketError> {
    push(buffer, known_of(number), &[0x90, (number % 256) as u8])
}

/// The unit of that number, of one packet, is the next.
fn assert_next(
    buffer: &mut DepacketizingBuffer,
    number: u64,
    unit: &mut PoppedUnit,
) -> Result<(), Fail> {
    buffer.pop_unit(unit).ok_or("no unit")??;
    let wanted = known_of(number);
    assert_same("the time of the unit", &unit.time, &wanted.time);
    assert_same("contiguous", &unit.contiguous, &true);
    assert_bytes("the unit", &unit.bytes, &[0x90, (number % 256) as u8]);
    assert_count("packets", unit.packets(), 1);
    assert_same("what is known", &unit.meta(0), &wanted);
    Ok(())
}

#[test]
fn units_into_the_same_memory() -> Result<(), Fail> {
    let mut buffer = buffer_of(Codec::Opus)?;
    let mut unit = PoppedUnit::new();
    unit.bytes = Vec::try_from_slice(&[1, 2, 3])?;
    push_number(&mut buffer, 70_000)?;
    push_number(&mut buffer, 70_001)?;
    assert_next(&mut buffer, 70_000, &mut unit)?;
    assert_next(&mut buffer, 70_001, &mut unit)?;
    let end = buffer.pop_unit(&mut unit).is_none();
    assert_same("the end", &end, &true);
    Ok(())
}

/// The number of the next unit, or none.
fn next_number(buffer: &mut DepacketizingBuffer) -> Result<Option<u64>, PacketError> {
    match buffer.pop() {
        Some(Ok(unit)) => Ok(Some(unit.seq_range().start().0)),
        Some(Err(fault)) => Err(fault),
        None => Ok(None),
    }
}

/// A burst of packets from that number on goes through a buffer, which gives memory back on the way. Returns the number of units
/// that are released in order.
fn burst(buffer: &mut DepacketizingBuffer, from: u64) -> Result<u64, PacketError> {
    for place in 0..1_000u64 {
        push_number(buffer, from.wrapping_add(place))?;
    }
    let mut in_order = 0u64;
    for place in 0..1_001u64 {
        if next_number(buffer)? == Some(from.wrapping_add(place)) {
            in_order = in_order.wrapping_add(1);
        }
    }
    Ok(in_order)
}

#[test]
fn bursts_come_out_whole() -> Result<(), Fail> {
    let mut buffer = buffer_of(Codec::Opus)?;
    assert_same("the first burst", &burst(&mut buffer, 100)?, &1_000);
    assert_same("the second burst", &burst(&mut buffer, 1_100)?, &1_000);
    Ok(())
}

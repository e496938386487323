//! Spatial layers of VP9 that a viewer does not want: a call of Chromium through a filter, a forwarder and a receiver.

use codec_payload::forward::{ForwardSettings, Forwarded, Forwarder};
use codec_payload::rtp::{PacketHeader, RtpPacket};
use codec_payload::spatial::{SpatialFilter, SpatialPlace, vp9_place};
use codec_payload::stream::{Popped, Receiver, ReceiverSettings};
use codec_payload::{Codec, CodecDepacketizer, Frequency, Ticks};
use std::error::Error;

type Outcome = Result<(), Box<dyn Error>>;

/// Chromium sends VP9 in two spatial and three temporal layers: 18 pictures, some of them keyframes.
const CALL: &[u8] = include_bytes!("../../tools/rtp_record/captures/chromium-layers.pcap");
const VP9: u8 = 98;

/// The RTP packets of a capture: Ethernet, IPv4 and UDP.
fn packets_in(capture: &[u8]) -> Vec<&[u8]> {
    let mut packets = Vec::new();
    let mut rest = &capture[24..];
    while let Some((head, behind)) = rest.split_first_chunk::<16>() {
        let size = u32::from_le_bytes([head[8], head[9], head[10], head[11]]) as usize;
        packets.push(&behind[14 + 20 + 8..size]);
        rest = &behind[size..];
    }
    packets
}

/// What a viewer gets of a call.
struct Viewer {
    filter: SpatialFilter,
    forwarder: Forwarder,
    receiver: Receiver,
    /// For each picture that was written, how many of its packets have the marker.
    markers: Vec<(u32, usize)>,
    units: Vec<Vec<u8>>,
    keyframes: Vec<bool>,
    decodable: usize,
}

impl Viewer {
    fn new(wanted: u8) -> Result<Viewer, Box<dyn Error>> {
        let settings = ForwardSettings {
            codec: Codec::Vp9,
            ssrc: 7,
            payload_type: 101,
            first_number: 65_530,
            first_time: 0,
            retransmissions: None,
        };
        let receiver = ReceiverSettings::live_video(101, Frequency::NINETY_KHZ);
        Ok(Viewer {
            filter: SpatialFilter::new(wanted),
            forwarder: Forwarder::new(settings)?,
            receiver: Receiver::new(CodecDepacketizer::try_from(Codec::Vp9)?, receiver)?,
            markers: Vec::new(),
            units: Vec::new(),
            keyframes: Vec::new(),
            decodable: 0,
        })
    }

    fn take(&mut self, now: u64, datagram: &[u8]) -> Outcome {
        // The call has STUN too.
        let Ok(packet) = RtpPacket::parse(datagram) else {
            return Ok(());
        };
        if packet.header.payload_type != VP9 || packet.payload.is_empty() {
            return Ok(());
        }
        if self.markers.is_empty() {
            self.forwarder.want(packet.header.ssrc);
        }
        let place = vp9_place(packet.payload).ok_or("a descriptor")?;
        let header = packet.header;
        let mut out = Vec::new();
        let Some(marker) = self
            .filter
            .take(header.sequence_number, place, header.marker)
        else {
            assert_eq!(
                self.forwarder.leave_out(&packet, &mut out)?,
                Forwarded::LeftOut
            );
            return Ok(());
        };
        let header = PacketHeader { marker, ..header };
        let done = self
            .forwarder
            .write(now * 90, &RtpPacket { header, ..packet }, &mut out)?;
        assert!(matches!(done, Forwarded::Began | Forwarded::Written));
        match self.markers.last_mut() {
            Some((time, count)) if *time == header.timestamp => *count += usize::from(marker),
            _ => self.markers.push((header.timestamp, usize::from(marker))),
        }
        self.receiver.receive(Ticks(now), &out)?;
        self.pop(now)
    }

    fn pop(&mut self, now: u64) -> Outcome {
        while let Some(popped) = self.receiver.pop(Ticks(now)) {
            let Popped::Unit(unit) = popped? else {
                return Err("each picture is a unit".into());
            };
            self.units.push(unit.bytes);
            self.keyframes.push(self.receiver.unit_is_keyframe());
            self.decodable += usize::from(self.receiver.unit_is_decodable());
        }
        Ok(())
    }
}

/// Passes the call to a viewer; `want` says before a packet which layer the viewer wants from then on.
fn call(wanted: u8, want: impl Fn(usize) -> Option<u8>) -> Result<Viewer, Box<dyn Error>> {
    let mut viewer = Viewer::new(wanted)?;
    let packets = packets_in(CALL);
    for (index, packet) in packets.iter().enumerate() {
        if let Some(layer) = want(index) {
            viewer.filter.want(layer);
        }
        viewer.take(10 * index as u64, packet)?;
    }
    viewer.receiver.finish()?;
    viewer.pop(10 * packets.len() as u64)?;
    Ok(viewer)
}

/// Whether a unit is the beginning of another one: the frames of the lower layers come first in a picture (RFC 9628, section 3).
fn is_lower(unit: &[u8], whole: &[u8]) -> bool {
    unit.len() < whole.len() && whole.starts_with(unit)
}

#[test]
fn the_upper_layer_is_left_out() -> Outcome {
    let (whole, lower) = (call(1, |_| None)?, call(0, |_| None)?);
    assert_eq!(whole.units.len(), 18);
    assert_eq!(whole.units.len(), lower.units.len());
    for (unit, all) in lower.units.iter().zip(&whole.units) {
        assert!(is_lower(unit, all));
    }
    for viewer in [&whole, &lower] {
        assert_eq!(viewer.decodable, viewer.units.len());
        assert!(viewer.markers.iter().all(|(_, count)| *count == 1));
    }
    Ok(())
}

/// The layer falls with the next picture, whichever packet the viewer's wish comes before, and rises with the next keyframe.
#[test]
fn layers_change_between_pictures() -> Outcome {
    let whole = call(1, |_| None)?;
    for (fall, rise) in (15..70).zip(100..) {
        let viewer = call(1, |index| match index {
            _ if index == fall => Some(0),
            _ if index == rise => Some(1),
            _ => None,
        })?;
        assert_eq!(viewer.units.len(), whole.units.len());
        assert_eq!(viewer.decodable, whole.units.len());
        assert!(viewer.markers.iter().all(|(_, count)| *count == 1));
        let whole_ones: Vec<bool> = (viewer.units.iter().zip(&whole.units))
            .map(|(unit, all)| {
                assert!(unit == all || is_lower(unit, all));
                unit == all
            })
            .collect();
        let changes: Vec<usize> = (1..whole_ones.len())
            .filter(|&k| whole_ones[k] != whole_ones[k - 1])
            .collect();
        let [falls, rises] = changes[..] else {
            return Err(format!("{whole_ones:?}").into());
        };
        assert!(whole_ones[0] && !whole_ones[falls] && whole_ones[rises]);
        assert!(viewer.keyframes[rises]);
    }
    Ok(())
}

const LOWEST: SpatialPlace = SpatialPlace {
    layer: 0,
    begins: true,
    ends: true,
    intra: false,
};
const UPPER: SpatialPlace = SpatialPlace {
    layer: 1,
    begins: true,
    ends: true,
    intra: false,
};

#[test]
fn layers_rise_with_an_intra_picture() {
    let mut filter = SpatialFilter::new(1);
    assert_eq!(filter.take(65_534, LOWEST, false), Some(true));
    assert_eq!(filter.take(65_535, UPPER, true), None);
    let key = SpatialPlace {
        intra: true,
        ..LOWEST
    };
    assert_eq!(filter.take(0, key, false), Some(false));
    assert_eq!(filter.take(1, UPPER, true), Some(true));
    // A request for a packet before the change is answered as it was sent.
    assert_eq!(filter.again(65_534, LOWEST, false), Some(true));
    assert_eq!(filter.again(65_535, UPPER, true), None);
    assert_eq!(filter.again(1, UPPER, true), Some(true));
    filter.want(0);
    assert_eq!(
        (filter.kept(), filter.take(2, UPPER, true)),
        (1, Some(true))
    );
    assert_eq!(
        (filter.take(3, LOWEST, false), filter.kept()),
        (Some(true), 0)
    );
    // A late packet of the picture before is of the layer that was kept then.
    assert_eq!(filter.take(2, UPPER, true), Some(true));
    // The beginning of a picture that comes late changes nothing.
    filter.want(1);
    assert_eq!(
        (filter.take(1, key, false), filter.kept()),
        (Some(false), 0)
    );
}

/// RFC 9628, section 4.2: I, P, L, F, B, E, V, Z; then the PictureID, and the octet of layers with TID, U, SID and D.
#[test]
fn places_of_payloads() {
    let place = |layer, begins, ends, intra| {
        Some(SpatialPlace {
            layer,
            begins,
            ends,
            intra,
        })
    };
    assert_eq!(vp9_place(&[0b0000_1000, 9]), place(0, true, false, true));
    assert_eq!(vp9_place(&[0b0100_0100, 9]), place(0, false, true, false));
    assert_eq!(
        vp9_place(&[0b0010_1100, 0b0010_0101, 0, 9]),
        place(2, true, true, true)
    );
    assert_eq!(
        vp9_place(&[0b1110_0000, 5, 0b0000_1110, 0, 9]),
        place(7, false, false, false)
    );
    assert_eq!(
        vp9_place(&[0b1010_0000, 0x85, 1, 0b1110_0010, 0, 9]),
        place(1, false, false, true)
    );
    assert_eq!(vp9_place(&[]), None);
    assert_eq!(vp9_place(&[0b0010_0000]), None);
    assert_eq!(vp9_place(&[0b1010_0000, 0x85, 1]), None);
}

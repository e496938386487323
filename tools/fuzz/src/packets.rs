//! RTP packets and header extensions; extended reports of RTCP.

use crate::input::Input;
use codec_payload::rtp::{ExtensionIds, RtpPacket, is_rtcp};
use codec_payload::xr::{ExtendedReport, XrBlock};

/// The blocks of a report that was read are its bytes.
fn extended_reports(body: &[u8]) {
    let walked = ExtendedReport {
        ssrc: 0,
        blocks: body,
    };
    let _ = (walked.reference_time(), walked.dlrr(0));
    let Ok(report) = ExtendedReport::read(body) else {
        return;
    };
    let mut rest = report.blocks;
    while !rest.is_empty() {
        let (block, others) = XrBlock::read(rest).unwrap();
        assert_eq!(rest.len(), 4 + block.contents.len() + others.len());
        rest = others;
    }
}

/// Any bytes: a packet that was read is written and read again.
pub fn packets(input: &mut Input) {
    let ids = {
        let mut ids = ExtensionIds::default();
        ids.abs_capture_time = Some(1 + input.byte() % 14);
        ids.video_orientation = Some(1 + input.byte() % 14);
        ids.audio_level = Some(1 + input.byte() % 14);
        ids
    };
    let bytes = input.0;
    let _ = is_rtcp(bytes);
    extended_reports(bytes);
    let Ok(packet) = RtpPacket::parse(bytes) else {
        return;
    };
    let mut written = Vec::new();
    packet.write(&mut written).unwrap();
    assert_eq!(written.len(), bytes.len());
    assert_eq!(RtpPacket::parse(&written), Ok(packet));
    let values = ids.values(&packet.header.extension);
    if ids.fit() {
        let mut extension = Vec::new();
        if let Some(profile) = ids.write(&values, &mut extension).unwrap() {
            let again = codec_payload::rtp::HeaderExtension {
                profile,
                bytes: &extension,
            };
            let read = ids.values(&Some(again));
            assert_eq!(
                (read.abs_capture_time, read.video_orientation),
                (values.abs_capture_time, values.video_orientation)
            );
        }
    }
    if let Some(elements) = packet.header.extension.and_then(|it| it.elements()) {
        assert!(elements.count() <= bytes.len());
    }
}

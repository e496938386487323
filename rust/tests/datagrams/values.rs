//! Values of header extensions, by their ids.

use codec_payload::rtp::packet::HeaderExtension;
use codec_payload::rtp::values::ExtensionIds;
use codec_payload::wire::ExtensionValues;

fn ids() -> ExtensionIds {
    let mut ids = ExtensionIds::default();
    ids.abs_capture_time = Some(1);
    ids.video_orientation = Some(2);
    ids.video_content_type = Some(3);
    ids.video_timing = Some(4);
    ids.layers_allocation = Some(5);
    ids.audio_level = Some(6);
    ids
}

/// The values in the words of an extension.
fn values_of(profile: u16, bytes: &[u8]) -> ExtensionValues {
    ids().values(&Some(HeaderExtension { profile, bytes }))
}

/// For each extension an element: the capture time of 8 bytes, orientation 2, content type 1, the times 1 to 6, an allocation of
/// two bytes, and speech at -10 dBov.
const EACH: [u8; 36] = [
    0x17, 0, 0, 0, 1, 0x80, 0, 0, 0, 0x20, 2, 0x30, 1, 0x4c, 1, 0, 1, 0, 2, 0, 3, 0, 4, 0, 5, 0, 6,
    0x51, 9, 8, 0x60, 0x8a, 0, 0, 0, 0,
];

#[test]
fn each_value() {
    let values = values_of(0xbede, &EACH);
    assert_eq!(
        values
            .abs_capture_time
            .map(|t| (t.capture_time, t.clock_offset)),
        Some((0x1_8000_0000, None))
    );
    assert_eq!(values.video_orientation, Some(2));
    assert_eq!(values.video_content_type, Some(1));
    assert_eq!(
        values
            .video_timing
            .map(|t| (t.flags, t.encode_start, t.network_2)),
        Some((1, 1, 6))
    );
    assert_eq!(values.layers_allocation.map(|a| a.bytes().len()), Some(2));
    assert_eq!(values.audio_level, Some(-10));
    assert_eq!(values.voice_activity, Some(true));
}

#[test]
fn lengths_of_other_formats() {
    // Nine bytes of capture time, two of orientation, none of content type in the two-byte form, and level of two bytes.
    let bytes = [
        1, 9, 0, 0, 0, 0, 0, 0, 0, 0, 0, 2, 2, 1, 1, 3, 0, 6, 2, 1, 1,
    ];
    assert_eq!(values_of(0x1000, &bytes), ExtensionValues::default());
    // The first element with an id gives the value, and an extension of another profile gives none.
    assert_eq!(
        values_of(0xbede, &[0x20, 7, 0x20, 8]).video_orientation,
        Some(7)
    );
    assert_eq!(
        values_of(0xbedf, &[0x20, 7, 0x20, 8]),
        ExtensionValues::default()
    );
    assert_eq!(ids().values(&None), ExtensionValues::default());
}

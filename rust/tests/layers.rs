//! What a payload says to a server: whether a keyframe begins in it, and its temporal layer. The bytes were written by hand after RFC
//! 7741 and RFC 9628, section 4.2, and section 4.4 of the RTP payload format for AV1.

use codec_payload::Codec;
use codec_payload::layers::{TemporalLayer, begins_keyframe, temporal_layer};

#[test]
fn a_keyframe_of_vp8_begins_with_the_start_of_partition_0() {
    let begins = |payload: &[u8]| begins_keyframe(Codec::Vp8, payload);
    assert!(begins(&[0x10, 0x10]) && begins(&[0x90, 0x80, 0x81, 2, 0x10]));
    assert!(!begins(&[0x00, 0x10]), "S is clear");
    assert!(!begins(&[0x11, 0x10]), "partition 1");
    assert!(!begins(&[0x10, 0x11]), "P of the frame is set");
    assert!(!begins(&[0x10]) && !begins(&[]));
}

#[test]
fn a_keyframe_of_vp9_begins_with_the_lowest_layer() {
    let begins = |payload: &[u8]| begins_keyframe(Codec::Vp9, payload);
    assert!(
        begins(&[0x08, 1]) && begins(&[0x28, 0x01, 0, 1]) && begins(&[0xa8, 0x85, 2, 0x20, 0, 1])
    );
    assert!(!begins(&[0x48, 1]), "P is set");
    assert!(!begins(&[0x00, 1]), "B is clear");
    assert!(
        !begins(&[0x28, 0x02, 0, 1]) && !begins(&[0xa8, 0x85, 2, 0x22, 0, 1]),
        "layer 1"
    );
}

#[test]
fn a_sequence_of_av1_begins_with_n_and_audio_anywhere() {
    assert!(begins_keyframe(Codec::Av1, &[0x08, 1]));
    assert!(!begins_keyframe(Codec::Av1, &[0x88, 1]), "Z is set");
    assert!(!begins_keyframe(Codec::Av1, &[0x10, 1]) && !begins_keyframe(Codec::Av1, &[]));
    assert!(begins_keyframe(Codec::Opus, &[]));
}

fn layer(id: u8, sync: bool) -> Option<TemporalLayer> {
    Some(TemporalLayer { id, sync })
}

#[test]
fn a_temporal_layer_of_vp8_is_behind_the_ids() {
    let read = |payload: &[u8]| temporal_layer(Codec::Vp8, payload);
    assert_eq!(read(&[0x90, 0x20, 0xa0, 0]), layer(2, true));
    assert_eq!(read(&[0x90, 0x20, 0x40, 0]), layer(1, false));
    assert_eq!(read(&[0x90, 0xa0, 0x7f, 0xe0, 0]), layer(3, true));
    assert_eq!(read(&[0x90, 0xa0, 0x80, 0x20, 0x40, 0]), layer(1, false));
    assert_eq!(read(&[0x90, 0xf0, 0x81, 1, 0xff, 0xdf, 0]), layer(3, false));
    assert_eq!(read(&[0x10, 0x20, 0xa0]), None, "X is clear");
    assert_eq!(read(&[0x90, 0x10, 0xc0, 0]), None, "T is clear");
    assert_eq!(read(&[0x90, 0xe0, 0x80, 1, 2]), None, "cut off");
}

#[test]
fn a_temporal_layer_of_vp9_is_in_the_octet_of_layers() {
    let read = |payload: &[u8]| temporal_layer(Codec::Vp9, payload);
    assert_eq!(read(&[0x28, 0x70, 0]), layer(3, true));
    assert_eq!(read(&[0x28, 0xe0, 0]), layer(7, false));
    assert_eq!(read(&[0xa8, 0x85, 2, 0x30, 0]), layer(1, true));
    assert_eq!(read(&[0x88, 0x70, 0x70]), None, "L is clear");
    assert_eq!(temporal_layer(Codec::Av1, &[0x28, 0x70]), None);
}

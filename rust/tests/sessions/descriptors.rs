//! Streams of video whose packets have dependency descriptors (AV1 RTP specification, appendix A): which units are decodable, and
//! when a keyframe is needed.

use crate::Fail;
use crate::datagrams::*;
use crate::names::with_elements;
use codec_payload::*;

const DESCRIPTOR: u8 = 6;

/// A structure of three templates for two temporal layers: a frame of layer 0 without references; one of layer 0 that refers to the
/// frame 2 before; one of layer 1 that refers to the frame before. One decode target, no chain, no resolution.
const STRUCTURE: [u8; 6] = [0x80, 0x00, 0x1f, 0xf4, 0x50, 0x00];

fn session(id: Option<u8>) -> Session {
    let mut settings = SessionSettings::live();
    settings.formats = answered_formats();
    settings.dependency_descriptor = id;
    Session::new(settings).expect("settings that can be met")
}

/// A frame of VP8 in one packet, whose frame number is its sequence number: 1 is a keyframe with the structure, later odd numbers are
/// of layer 0, and even numbers of layer 1.
fn frame(number: u16) -> Vec<u8> {
    let (template, structure) = match number {
        1 => (0, &STRUCTURE[..]),
        _ if number % 2 == 1 => (1, &[][..]),
        _ => (2, &[][..]),
    };
    let [high, low] = number.to_be_bytes();
    let descriptor = [&[0xc0 | template, high, low], structure].concat();
    with_elements(&vp8(7, number, number == 1), &[(DESCRIPTOR, &descriptor)])
}

/// Whether the units of these frames are decodable. A frame behind a gap does not wait for the next one.
fn shown(session: &mut Session, numbers: &[u16]) -> Result<Vec<bool>, Fail> {
    let mut shown = Vec::new();
    for number in numbers {
        let now = 1_000 * u64::from(*number);
        session.receive(Ticks(now), &frame(*number))?;
        while let Some(event) = session.poll(Ticks(now + 500)) {
            if let Event::Unit { decodable, .. } = event {
                shown.push(decodable);
            }
        }
    }
    Ok(shown)
}

fn wants_keyframe(session: &Session) -> bool {
    let receiver = session.receiver_of(7, VP8);
    receiver.is_some_and(|it| it.wants_keyframe())
}

/// Frame 2 is of the upper layer, and nothing refers to it.
#[test]
fn a_lost_frame_of_an_upper_layer_holds_back_nothing() -> Result<(), Fail> {
    let mut session = session(Some(DESCRIPTOR));
    assert_eq!(shown(&mut session, &[1, 3, 4, 5, 6])?, [true; 5]);
    assert!(!wants_keyframe(&session));
    Ok(())
}

/// Frame 3 is of the base layer: the frames that refer to it cannot be shown, and the first one of the base needs a keyframe.
#[test]
fn a_lost_frame_of_the_base_needs_a_keyframe() -> Result<(), Fail> {
    let mut session = session(Some(DESCRIPTOR));
    assert_eq!(shown(&mut session, &[1, 2, 4])?, [true, true, false]);
    assert!(!wants_keyframe(&session));
    assert_eq!(shown(&mut session, &[5, 6])?, [false, false]);
    assert!(wants_keyframe(&session));
    Ok(())
}

/// Without the id of the extension, and with the id of another one, each unit refers to the one before.
#[test]
fn descriptors_without_an_id_are_not_read() -> Result<(), Fail> {
    for id in [None, Some(0), Some(5)] {
        let mut session = session(id);
        assert_eq!(
            shown(&mut session, &[1, 2, 4, 5])?,
            [true, true, false, false]
        );
        assert!(wants_keyframe(&session));
    }
    Ok(())
}

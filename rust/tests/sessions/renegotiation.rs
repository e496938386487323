//! Sessions: formats that change while a session lives, as a new session description states them.

use crate::Fail;
use crate::datagrams::*;
use codec_payload::session::*;
use codec_payload::*;

/// A session with Opus and VP8, whose streams begin with the first datagram.
fn session() -> Session {
    let mut settings = SessionSettings::live();
    settings.formats = vec![opus_format(), answered_vp8()];
    settings.probation = 1;
    (settings.audio.start, settings.video.start) = (0, 0);
    Session::new(settings).expect("settings that can be met")
}

/// The events of a poll, each as a line: what it is, and the payload type.
fn told(session: &mut Session, now: u64) -> Vec<String> {
    std::iter::from_fn(|| session.poll(Ticks(now)))
        .map(|event| match event {
            Event::Begun { payload_type, .. } => format!("begun {payload_type}"),
            Event::Unit {
                payload_type, unit, ..
            } => {
                let bytes = unit.map(|unit| unit.bytes.len());
                format!("unit {payload_type} of {bytes:?}")
            }
            Event::Ended {
                payload_type, why, ..
            } => format!("ended {payload_type} {why:?}"),
            other => format!("{other:?}"),
        })
        .collect()
}

/// A stream whose format stays keeps what it holds; the other one gives its units, and then ends.
#[test]
fn streams_of_formats_that_stay_go_on() -> Result<(), Fail> {
    let mut session = session();
    session.receive(Ticks(0), &opus(1, 10))?;
    session.receive(Ticks(0), &vp8(2, 20, true))?;
    assert_eq!(told(&mut session, 0).len(), 4);
    // Number 11 is missing, so the packet after it waits in both streams.
    session.receive(Ticks(40), &opus(1, 12))?;
    session.receive(Ticks(40), &vp8(2, 22, false))?;
    assert_eq!(told(&mut session, 40), [""; 0]);

    session.set_formats(
        Ticks(41),
        vec![
            format(VP9, Codec::Vp9, Frequency::NINETY_KHZ),
            opus_format(),
        ],
    )?;
    assert_eq!(
        told(&mut session, 41),
        ["unit 96 of Ok(4)", "ended 96 Changed"]
    );
    session.receive(Ticks(42), &opus(1, 11))?;
    assert_eq!(
        told(&mut session, 42),
        ["unit 111 of Ok(2)", "unit 111 of Ok(2)"]
    );
    Ok(())
}

/// A payload type that is gone is unknown at once, also for a stream that still has to end. Media of a new format begin a stream, also
/// under the SSRC of one that ends.
#[test]
fn new_formats_begin_streams() -> Result<(), Fail> {
    let mut session = session();
    session.receive(Ticks(0), &vp8(2, 20, true))?;
    session.set_formats(
        Ticks(5),
        vec![format(VP9, Codec::Vp9, Frequency::NINETY_KHZ)],
    )?;
    assert_eq!(
        session.receive(Ticks(6), &vp8(2, 21, false))?,
        Arrival::Unknown
    );
    assert_eq!(session.receive(Ticks(6), &opus(1, 1))?, Arrival::Unknown);
    // B and E of RFC 9628, section 4.2: a whole frame.
    let frame = packet(VP9, 2, 7, 0, &[0x0c, 1, 2]);
    assert!(matches!(
        session.receive(Ticks(6), &frame)?,
        Arrival::Stream {
            payload_type: VP9,
            ..
        }
    ));
    assert_eq!(
        told(&mut session, 6),
        [
            "begun 96",
            "unit 96 of Ok(11)",
            "ended 96 Changed",
            "begun 98",
            "unit 98 of Ok(2)"
        ]
    );
    Ok(())
}

/// A format counts as the same one only with all of its fields.
#[test]
fn a_changed_field_is_another_format() -> Result<(), Fail> {
    let changes: [fn(&mut Format); 4] = [
        |it| it.nack = false,
        |it| it.retransmission = None,
        |it| it.spec.clock_rate = Frequency::FORTY_EIGHT_KHZ,
        |it| it.payload_type = 100,
    ];
    for change in changes {
        let mut session = session();
        session.receive(Ticks(0), &vp8(2, 20, true))?;
        session.set_formats(Ticks(1), vec![answered_vp8()])?;
        assert_eq!(told(&mut session, 1), ["begun 96", "unit 96 of Ok(11)"]);
        let mut other = answered_vp8();
        change(&mut other);
        session.set_formats(Ticks(2), vec![other])?;
        assert_eq!(told(&mut session, 2), ["ended 96 Changed"]);
    }
    Ok(())
}

/// Formats that no session can meet change nothing.
#[test]
fn formats_with_a_fault_are_refused() -> Result<(), Fail> {
    let mut session = session();
    session.receive(Ticks(0), &opus(1, 10))?;
    let twice = vec![
        vp8_format(),
        opus_format(),
        format(VP8, Codec::Vp9, Frequency::NINETY_KHZ),
    ];
    assert_eq!(
        session.set_formats(Ticks(1), twice),
        Err(SessionSettingsError::TwoMeanings {
            format: Some(2),
            payload_type: VP8
        })
    );
    assert_eq!(told(&mut session, 1), ["begun 111", "unit 111 of Ok(2)"]);
    assert!(matches!(
        session.receive(Ticks(2), &vp8(2, 20, true))?,
        Arrival::Stream { .. }
    ));
    Ok(())
}

/// Without formats all streams end, and none begins.
#[test]
fn no_format_ends_all() -> Result<(), Fail> {
    let mut session = session();
    session.receive(Ticks(0), &opus(1, 10))?;
    session.set_formats(Ticks(1), Vec::new())?;
    assert_eq!(
        told(&mut session, 1),
        ["begun 111", "unit 111 of Ok(2)", "ended 111 Changed"]
    );
    assert_eq!(session.receive(Ticks(2), &opus(1, 11))?, Arrival::Unknown);
    assert_eq!((session.stream_count(), session.next_deadline()), (0, None));
    Ok(())
}

//! The worked examples of telephone events.

use crate::Fail;
use crate::asserts::{assert_printed, assert_same};
use crate::audio::{Format, ReceivedRow, SentRow, assert_all_received, assert_all_sent};
use crate::tables::{Frame, receive};
use codec_payload::error::PacketError;
use codec_payload::interface::{CodecExtra, TelephoneEvent};
use codec_payload::memory::AllocError;
use codec_payload::tele::{TelephoneEventDepacketizer, duration_from_units};
use codec_payload::wire::Frequency;

/// Two reports on telephone events.
const TWO_REPORTS: [u8; 8] = [0x05, 0x8a, 0x03, 0x20, 0x06, 0x0a, 0x01, 0x40];

/// A report and the first byte of another.
const FIVE_BYTES: [u8; 5] = [0x05, 0x8a, 0x03, 0x20, 0x06];

/// Its fault.
const NOT_WHOLE: PacketError =
    PacketError::InvalidTelephoneEvent("payload must contain one or more complete 4-byte reports");

/// A frame is reports of four bytes (RFC 4733, section 2.3), and so is a payload.
static SENT: [SentRow; 1] = [SentRow {
    name: "telephone-events-in-one-packet",
    format: Format::Telephone,
    frame: Frame {
        mtu: 8,
        bytes: &TWO_REPORTS,
        packets: Ok(&[&TWO_REPORTS]),
    },
}];

/// The result is the first report.
static RECEIVED: [ReceivedRow; 2] = [
    ReceivedRow {
        name: "tele-two-reports",
        format: Format::Telephone,
        payload: &TWO_REPORTS,
        wanted: Ok(&[7, 0x05, 0x8a, 0x03, 0x20]),
    },
    ReceivedRow {
        name: "tele-five-bytes-fault",
        format: Format::Telephone,
        payload: &FIVE_BYTES,
        wanted: Err(NOT_WHOLE),
    },
];

#[test]
fn frames_and_payloads() -> Result<(), Fail> {
    assert_all_sent(&SENT);
    assert_all_received(&RECEIVED)?;
    Ok(())
}

/// The reports of a payload, at 8,000 units a second.
fn reports(payload: &[u8]) -> Result<Option<Vec<TelephoneEvent>>, AllocError> {
    match TelephoneEvent::parse_all(payload, Frequency::EIGHT_KHZ) {
        Some(reports) => Ok(Some(reports.collect())),
        None => Ok(None),
    }
}

/// The two reports.
const EVENTS: [TelephoneEvent; 2] = [
    TelephoneEvent {
        event: 5,
        end: true,
        volume: 10,
        duration: 100_000_000,
    },
    TelephoneEvent {
        event: 6,
        end: false,
        volume: 10,
        duration: 40_000_000,
    },
];

/// The unit has the first report, and both reports can be read.
#[test]
fn tele_two_reports() -> Result<(), Fail> {
    let name = "tele-two-reports";
    let mut depacketizer = TelephoneEventDepacketizer::default();
    let received = receive(&mut depacketizer, &TWO_REPORTS)?;
    assert_same(name, &received.extra, &CodecExtra::Tele(EVENTS[0]));
    let events = reports(&TWO_REPORTS)?.ok_or("reports")?;
    assert_same(name, &events.as_slice(), &EVENTS.as_slice());
    Ok(())
}

#[test]
fn tele_five_bytes_fault() -> Result<(), Fail> {
    assert_same("tele-five-bytes-fault", &NOT_WHOLE.number(), &15);
    let text = "Invalid telephone event: payload must contain one or more complete 4-byte reports";
    assert_printed(&NOT_WHOLE, text)?;
    assert!(reports(&FIVE_BYTES)?.is_none());
    Ok(())
}

#[test]
fn tele_all_ones_written() -> Result<(), Fail> {
    let event = TelephoneEvent::parse(&[0xff; 4], Frequency::EIGHT_KHZ).ok_or("a report")?;
    assert_eq!(event.volume, 63);
    assert_eq!(
        event.to_bytes(Frequency::EIGHT_KHZ),
        Some([0xff, 0xbf, 0xff, 0xff])
    );
    Ok(())
}

#[test]
fn tele_three_seconds_none() {
    let event = TelephoneEvent {
        event: 1,
        end: false,
        volume: 0,
        duration: 3_000_000_000,
    };
    assert_eq!(event.to_bytes(Frequency::FORTY_EIGHT_KHZ), None);
    assert_eq!(
        duration_from_units(48_000, Frequency::FORTY_EIGHT_KHZ),
        1_000_000_000
    );
}

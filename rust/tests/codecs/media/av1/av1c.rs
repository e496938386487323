//! The record of a file's AV1 stream.

use crate::Fail;
use codec_payload::media::av1::av1c::write_av1c;
use codec_payload::media::av1::sequence_header::Av1SequenceHeader;

/// The record that ffmpeg writes into a file of the 10-bit stream.
#[test]
fn av1c_record() -> Result<(), Fail> {
    let obu = [
        0x0a, 0x0a, 0x00, 0x00, 0x00, 0x02, 0xaf, 0xff, 0x9b, 0x5f, 0x28, 0x08,
    ];
    let header = Av1SequenceHeader::parse(&obu[2..]).ok().ok_or("a header")?;
    let mut record = Vec::new();
    write_av1c(&header, &obu, &mut record)?;
    assert_eq!(record[..4], [0x81, 0x00, 0x4c, 0x00][..]);
    assert_eq!(record[4..], obu[..]);
    Ok(())
}

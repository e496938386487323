//! OBUs of a unit.

use crate::Fail;
use crate::tables::filled;
use codec_payload::media::av1::obu::Av1Obus;
use codec_payload::media::vpx::error::MediaError;
use codec_payload::memory::TryVec;

/// The first unit of libaom's encoder: a temporal delimiter, a sequence header, and a frame of 826 bytes.
#[test]
fn av1_obus() -> Result<(), Fail> {
    let front = [
        0x12, 0x00, 0x0a, 0x0a, 0x00, 0x00, 0x00, 0x02, 0xaf, 0xf7, 0x9b, 0x5f, 0x20, 0x08, 0x32,
        0xba, 0x06,
    ];
    let unit = filled(&front, 0x14, 826, &[])?;
    let mut found = Vec::new();
    for obu in Av1Obus::new(&unit) {
        let obu = obu.ok().ok_or("an OBU")?;
        found.try_push((obu.obu_type, obu.payload.len()))?;
    }
    assert_eq!(found[..], [(2, 0), (1, 10), (6, 826)][..]);
    let mut cut = Av1Obus::new(&[0x12, 0x00, 0x0a, 0x0a, 0x00]);
    assert!(cut.next().is_some());
    assert_eq!(cut.next(), Some(Err(MediaError::SizesDoNotFit)));
    assert_eq!(cut.next(), None);
    Ok(())
}

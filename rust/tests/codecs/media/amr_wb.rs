//! Units of AMR-WB frames.

use crate::Fail;
use crate::tables::filled;
use codec_payload::media::amr_wb::{AmrWbFrames, amr_wb_ticks};
use codec_payload::media::vpx::error::MediaError;
use codec_payload::memory::TryVec;

/// A frame of mode 0, one that is lost, comfort noise, and one without data; then a reserved type.
#[test]
fn amr_wb_units() -> Result<(), Fail> {
    let unit = filled(&[0x04], 0x55, 17, &[0x70, 0x4c, 1, 2, 3, 4, 5, 0x7c])?;
    let mut found = Vec::new();
    for frame in AmrWbFrames::new(&unit) {
        let frame = frame.ok().ok_or("a frame")?;
        found.try_push((frame.frame_type, frame.quality, frame.speech.len()))?;
    }
    let wanted = [(0, true, 17), (14, false, 0), (9, true, 5), (15, true, 0)];
    assert_eq!(found[..], wanted[..]);
    assert_eq!(amr_wb_ticks(&unit), Ok(1280));
    assert_eq!(amr_wb_ticks(&[0x70, 0x50]), Err(MediaError::ReservedValue));
    assert_eq!(
        amr_wb_ticks(&[0x70, 0x4c, 1, 2, 3, 4]),
        Err(MediaError::MissingBytes)
    );
    let mut frames = AmrWbFrames::new(&[0x50, 0x70]);
    assert_eq!(frames.next(), Some(Err(MediaError::ReservedValue)));
    assert_eq!(frames.next(), None);
    Ok(())
}

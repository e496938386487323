//! Times, defaults, and LEB128 in front of a buffer.

use crate::Fail;

mod extension;
mod media;

use crate::asserts::assert_same;
use codec_payload::interface::Vp9PacketizerMode;
use codec_payload::wire::{Frequency, MediaTime, Pt, encode_leb_u63};

#[test]
fn times_are_rebased() -> Result<(), Fail> {
    let second = MediaTime::new(8_000, Frequency::EIGHT_KHZ);
    let finer = second.rebase(Frequency::FORTY_EIGHT_KHZ);
    assert_same("a second", &finer.numer(), &48_000);
    assert!(second != finer);
    let greatest = Frequency::make(u32::MAX).ok_or("a rate")?;
    let low_bits = MediaTime::new(u64::MAX, Frequency::make(1).ok_or("a rate")?).rebase(greatest);
    assert_same("the low bits", &low_bits.numer(), &0xffff_ffff_0000_0001);
    Ok(())
}

#[test]
fn times_and_defaults() {
    let of_video = MediaTime::from_90khz(5).frequency();
    assert_same("the rate of video", &of_video, &Frequency::NINETY_KHZ);
    assert!(Frequency::make(0).is_none());
    assert!(Pt::new_with_value(95) < Pt::new_with_value(96));
    let mode = Vp9PacketizerMode::default();
    assert_same("the mode", &mode, &Vp9PacketizerMode::NonFlexible);
}

#[test]
fn leb_at_the_front() {
    let mut short = [0xee; 3];
    assert_eq!(encode_leb_u63(300, &mut short), 2);
    assert_eq!(short.as_slice(), [0xacu8, 0x02, 0xee].as_slice());
    let mut long = [0xee; 9];
    assert_eq!(encode_leb_u63(0x7fff_ffff_ffff_ffff, &mut long), 9);
    assert_eq!(
        long.as_slice(),
        [0xffu8, 0xff, 0xff, 0xff, 0xff, 0xff, 0xff, 0xff, 0x7f].as_slice()
    );
}

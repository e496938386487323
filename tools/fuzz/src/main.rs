//! libFuzzer calls `LLVMFuzzerTestOneInput` with each input. The variable `FUZZ_TARGET` names the target. A target panics if a
//! property does not hold; that no call answers out of memory is one of each target.
#![no_main]

mod buffer;
mod descriptor;
mod fec;
mod formats;
mod input;
mod media;
mod packets;
mod paths;
mod ports;
mod receiver;
mod session;
mod told;

use input::Input;
use std::sync::OnceLock;

type Target = fn(&mut Input);

const TARGETS: [(&str, Target); 14] = [
    ("depacketize", formats::depacketize),
    ("units", formats::units),
    ("red", formats::red),
    ("vp8", formats::vp8),
    ("packets", packets::packets),
    ("receiver", receiver::receiver),
    ("session", session::session),
    ("buffer", buffer::buffer),
    ("media", media::media),
    ("descriptor", descriptor::descriptor),
    ("fec", fec::fec),
    ("ports", ports::ports),
    ("paths", paths::paths),
    ("offers", paths::offers),
];

fn target() -> Target {
    let name = std::env::var("FUZZ_TARGET").expect("FUZZ_TARGET names a target");
    TARGETS
        .iter()
        .find(|(known, _)| *known == name)
        .expect("a target of that name")
        .1
}

/// # Safety
///
/// `data` points to `size` bytes.
#[unsafe(no_mangle)]
pub unsafe extern "C" fn LLVMFuzzerTestOneInput(data: *const u8, size: usize) -> i32 {
    static TARGET: OnceLock<Target> = OnceLock::new();
    let bytes = if size == 0 {
        &[]
    } else {
        unsafe { std::slice::from_raw_parts(data, size) }
    };
    TARGET.get_or_init(target)(&mut Input(bytes));
    0
}

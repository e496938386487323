//! Structures of dependency descriptors.

use crate::{End, refuse_each};
use codec_payload::descriptor::{DescriptorError, DescriptorReader};

/// A structure that is refused changes nothing; with memory it replaces the one before.
#[test]
fn dependency_descriptors() {
    // Of a call of Chromium: VP9 in two spatial and three temporal layers, and AV1 in two of each.
    let vp9 = [
        0x81, 0, 1, 0x80, 5, 0x14, 0x85, 0x3a, 0xbf, 0xaa, 0xa1, 0x8f, 4, 0x30, 0x43, 2, 0xa0,
        0x2a, 0, 0x60, 1, 0, 0x1b, 0x93, 0x45, 0x15, 0xe0, 0x82, 0x70, 0x46, 8, 0xc0, 0xc7, 0x87,
        0, 0x43, 0x21, 0x65, 0x11, 0x11, 0x54, 0x32, 0x76, 0x80, 0x77, 0x80, 0x59, 0x80, 0xef,
        0x80, 0xb3, 0x80,
    ];
    let av1 = [
        0x80, 0, 1, 0x80, 3, 0x18, 0x7a, 0xaa, 0xf1, 0x30, 0xa0, 0xa0, 0x14, 0xd1, 0x41, 0x38,
        0x23, 4, 0x60, 8, 0x64, 0x22, 0x22, 0x26, 0x50, 0x0e, 0xf0, 0x0b, 0x30, 0x1d, 0xf0, 0x16,
        0x70,
    ];
    let refused = refuse_each(
        "a structure",
        || {
            let mut reader = DescriptorReader::new();
            reader.read(&vp9).expect("a descriptor");
            reader
        },
        |reader| {
            let end = match reader.read(&av1) {
                Ok(_) => End::Done,
                Err(DescriptorError::OutOfMemory) => End::OutOfMemory,
                Err(_) => End::OtherFault,
            };
            let templates = if end == End::Done { 6 } else { 10 };
            let structure = reader.structure().expect("a structure");
            assert_eq!(structure.layers().len(), templates);
            end
        },
    );
    assert!(refused >= 4, "{refused}");
}

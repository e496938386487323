//! Elements of header extensions: the figures of RFC 8285, how elements end, and written elements.

use crate::Fail;
use codec_payload::rtp::elements::{Element, ElementForm, Elements, write_elements};

/// The figures of RFC 8285: sections 4.2 and 4.3.
const ONE_BYTE: [u8; 12] = [
    0x10, 0xaa, 0x21, 0xbb, 0xbc, 0, 0, 0x33, 0xc0, 0xc1, 0xc2, 0xc3,
];

const TWO_BYTES: [u8; 12] = [1, 0, 2, 1, 0xbb, 0, 3, 4, 0xc0, 0xc1, 0xc2, 0xc3];

#[test]
fn elements_of_the_figures() {
    let mut one = Elements::new(ElementForm::OneByte, &ONE_BYTE);
    assert_eq!(
        one.next(),
        Some(Element {
            id: 1,
            bytes: &[0xaa]
        })
    );
    assert_eq!(
        one.next(),
        Some(Element {
            id: 2,
            bytes: &[0xbb, 0xbc]
        })
    );
    assert_eq!(
        one.next(),
        Some(Element {
            id: 3,
            bytes: &[0xc0, 0xc1, 0xc2, 0xc3]
        })
    );
    assert_eq!(one.next(), None);
    let mut two = Elements::new(ElementForm::TwoByte, &TWO_BYTES);
    assert_eq!(two.next(), Some(Element { id: 1, bytes: &[] }));
    assert_eq!(
        two.next(),
        Some(Element {
            id: 2,
            bytes: &[0xbb]
        })
    );
    assert_eq!(
        two.next(),
        Some(Element {
            id: 3,
            bytes: &[0xc0, 0xc1, 0xc2, 0xc3]
        })
    );
    assert_eq!(two.next(), None);
}

/// Bytes of elements, how many come, and whether an element passes the end.
struct Ended {
    name: &'static str,
    form: ElementForm,
    bytes: &'static [u8],
    count: usize,
    cut: bool,
}

/// In the one-byte form an element is a byte with its id and its length less one, and its bytes; in the two-byte form a byte with
/// its id, one with its length, and its bytes (RFC 8285, sections 4.2 and 4.3).
const ENDED: [Ended; 7] = [
    Ended {
        name: "padding-alone",
        form: ElementForm::OneByte,
        bytes: &[0, 0, 0],
        count: 0,
        cut: false,
    },
    Ended {
        name: "id-15",
        form: ElementForm::OneByte,
        bytes: &[0x10, 1, 0xf0, 2, 0x20, 3],
        count: 1,
        cut: false,
    },
    Ended {
        name: "id-0-with-a-length",
        form: ElementForm::OneByte,
        bytes: &[0x01, 1, 2, 0x10, 3],
        count: 0,
        cut: false,
    },
    Ended {
        name: "one-byte-cut",
        form: ElementForm::OneByte,
        bytes: &[0x10, 1, 0x2f, 2, 3],
        count: 1,
        cut: true,
    },
    Ended {
        name: "two-byte-cut",
        form: ElementForm::TwoByte,
        bytes: &[1, 0, 2, 255, 3],
        count: 1,
        cut: true,
    },
    Ended {
        name: "two-byte-without-length",
        form: ElementForm::TwoByte,
        bytes: &[1, 0, 2],
        count: 1,
        cut: true,
    },
    Ended {
        name: "id-15-of-two-bytes",
        form: ElementForm::TwoByte,
        bytes: &[15, 1, 9, 0],
        count: 1,
        cut: false,
    },
];

#[test]
fn elements_end() {
    for row in &ENDED {
        let mut elements = Elements::new(row.form, row.bytes);
        let count = (0..10).filter(|_| elements.next().is_some()).count();
        assert_eq!(count, row.count, "in {}", row.name);
        assert_eq!(elements.is_cut(), row.cut, "in {}", row.name);
    }
}

#[test]
fn elements_are_written() -> Result<(), Fail> {
    let few = [
        Element {
            id: 1,
            bytes: &[0xaa],
        },
        Element {
            id: 14,
            bytes: &[1, 2],
        },
    ];
    let mut out = Vec::new();
    let form = write_elements(&few, &mut out)?;
    assert_eq!(form, ElementForm::OneByte);
    assert_eq!(form.profile(), 0xbede);
    assert_eq!(out, [0x10, 0xaa, 0xe1, 1, 2, 0, 0, 0]);
    let wide = [
        Element { id: 1, bytes: &[] },
        Element {
            id: 200,
            bytes: &[7],
        },
    ];
    let mut out = Vec::new();
    let form = write_elements(&wide, &mut out)?;
    assert_eq!(form, ElementForm::TwoByte);
    assert_eq!(out, [1, 0, 200, 1, 7, 0, 0, 0]);
    Ok(())
}

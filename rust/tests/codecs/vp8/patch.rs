//! Patches of descriptors, and texts of their faults.

use crate::Fail;
use crate::asserts::{assert_bytes, assert_other, assert_printed, assert_same};
use crate::vp8::READ;
use codec_payload::vp8::{Vp8Descriptor, Vp8DescriptorError, Vp8Patch, Vp8PatchError};

/// The same with the ids 0x0234 and 0xab and the key index 31.
const PATCHED: [u8; 7] = [0x90, 0xf0, 0x82, 0x34, 0xab, 0xbf, 0x00];

/// A payload with a picture id of 7 bits alone.
const SHORT: [u8; 4] = [0x90, 0x80, 0x11, 0x00];

/// What a patch of a payload's descriptor asks for, and the payload that it gives.
struct PatchRow {
    name: &'static str,
    payload: &'static [u8],
    picture_id: Option<u16>,
    tl0_pic_idx: Option<u8>,
    key_idx: Option<u8>,
    wanted: Result<[u8; 7], Vp8PatchError>,
}

static PATCHES: [PatchRow; 11] = [
    PatchRow {
        name: "vp8-patch-and-back",
        payload: &READ,
        picture_id: Some(0x0234),
        tl0_pic_idx: Some(0xab),
        key_idx: Some(0x1f),
        wanted: Ok(PATCHED),
    },
    PatchRow {
        name: "vp8-patch-and-back, back",
        payload: &PATCHED,
        picture_id: Some(0x1234),
        tl0_pic_idx: Some(0x55),
        key_idx: Some(7),
        wanted: Ok(READ),
    },
    PatchRow {
        name: "vp8-patch-key-index-too-large",
        payload: &READ,
        picture_id: None,
        tl0_pic_idx: None,
        key_idx: Some(0x20),
        wanted: Err(Vp8PatchError::KeyIdxTooLarge),
    },
    PatchRow {
        // A descriptor without an id, and a byte of the frame.
        name: "vp8-patch-id-missing, 0",
        payload: &[0x00, 0x90],
        picture_id: Some(0),
        tl0_pic_idx: None,
        key_idx: None,
        wanted: Err(Vp8PatchError::PictureIdMissing),
    },
    PatchRow {
        name: "vp8-patch-id-missing, 0x20",
        payload: &[0x00, 0x90],
        picture_id: Some(0x20),
        tl0_pic_idx: None,
        key_idx: None,
        wanted: Err(Vp8PatchError::PictureIdMissing),
    },
    PatchRow {
        name: "vp8-patch-id-missing, 0x7fff",
        payload: &[0x00, 0x90],
        picture_id: Some(0x7fff),
        tl0_pic_idx: None,
        key_idx: None,
        wanted: Err(Vp8PatchError::PictureIdMissing),
    },
    PatchRow {
        name: "vp8-patch-id-missing, 0xffff",
        payload: &[0x00, 0x90],
        picture_id: Some(0xffff),
        tl0_pic_idx: None,
        key_idx: None,
        wanted: Err(Vp8PatchError::PictureIdMissing),
    },
    PatchRow {
        name: "vp8-patches-are-refused-in-order, all",
        payload: &SHORT,
        picture_id: Some(0x80),
        tl0_pic_idx: Some(1),
        key_idx: Some(1),
        wanted: Err(Vp8PatchError::PictureIdTooLarge),
    },
    PatchRow {
        name: "vp8-patches-are-refused-in-order, two",
        payload: &SHORT,
        picture_id: Some(0x7f),
        tl0_pic_idx: Some(1),
        key_idx: Some(1),
        wanted: Err(Vp8PatchError::Tl0PicIdxMissing),
    },
    PatchRow {
        name: "vp8-patches-are-refused-in-order, one",
        payload: &SHORT,
        picture_id: Some(0x7f),
        tl0_pic_idx: None,
        key_idx: Some(0x20),
        wanted: Err(Vp8PatchError::KeyIdxMissing),
    },
    PatchRow {
        name: "vp8-patches-are-refused-in-order, wide",
        payload: &READ,
        picture_id: Some(0x8000),
        tl0_pic_idx: None,
        key_idx: None,
        wanted: Err(Vp8PatchError::PictureIdTooLarge),
    },
];

fn patch_of(row: &PatchRow) -> Result<Result<Vp8Patch, Vp8PatchError>, Vp8DescriptorError> {
    let mut builder = Vp8Descriptor::parse(row.payload)?.patch();
    if let Some(id) = row.picture_id {
        builder = builder.picture_id(id);
    }
    if let Some(index) = row.tl0_pic_idx {
        builder = builder.tl0_pic_idx(index);
    }
    if let Some(index) = row.key_idx {
        builder = builder.key_idx(index);
    }
    Ok(builder.build())
}

/// The payload with the bytes of the patch in it.
fn patched(patch: &Vp8Patch, payload: &[u8]) -> Result<Vec<u8>, Fail> {
    let mut copy = vec![0u8; payload.len()];
    if !patch.reaches(payload.len()) {
        return Err(Fail::from("the payload is too short for its patch"));
    }
    patch.copy_to(payload, &mut copy);
    Ok(copy)
}

/// What the patch of a row gives.
fn assert_patched(row: &PatchRow) -> Result<(), Fail> {
    match (patch_of(row).ok().ok_or(row.name)?, &row.wanted) {
        (Ok(patch), Ok(wanted)) => {
            let copy = patched(&patch, row.payload)?;
            assert_bytes(row.name, &copy, wanted);
        }
        (Err(error), Err(wanted)) => assert_same(row.name, &error, wanted),
        (answer, _) => panic!("{}: {answer:?}", row.name),
    }
    Ok(())
}

#[test]
fn descriptors_are_patched() -> Result<(), Fail> {
    for row in &PATCHES {
        assert_patched(row)?;
    }
    Ok(())
}

/// A patch of the key index alone.
fn patch_of_key_idx(key_idx: u8) -> Option<Vp8Patch> {
    let descriptor = Vp8Descriptor::parse(&READ).ok()?;
    descriptor.patch().key_idx(key_idx).build().ok()
}

#[test]
fn vp8_patches_are_compared() -> Result<(), Fail> {
    let patch = patch_of_key_idx(1).ok_or("a patch")?;
    let same = patch;
    assert_same("a copy of a patch", &same, &patch);
    assert_other("another patch", &patch_of_key_idx(2), &Some(patch));
    Ok(())
}

/// The faults of patches, each with its text.
static OF_PATCHES: [(Vp8PatchError, &str); 5] = [
    (
        Vp8PatchError::PictureIdMissing,
        "VP8 payload descriptor has no PictureID",
    ),
    (
        Vp8PatchError::PictureIdTooLarge,
        "VP8 PictureID does not fit descriptor width",
    ),
    (
        Vp8PatchError::Tl0PicIdxMissing,
        "VP8 payload descriptor has no TL0PICIDX",
    ),
    (
        Vp8PatchError::KeyIdxMissing,
        "VP8 payload descriptor has no KEYIDX",
    ),
    (
        Vp8PatchError::KeyIdxTooLarge,
        "VP8 KEYIDX must fit in 5 bits",
    ),
];

#[test]
fn vp8_patch_errors() -> Result<(), Fail> {
    for (error, text) in &OF_PATCHES {
        assert_printed(error, text)?;
        assert_same(text, &error.clone(), error);
    }
    let missing = Vp8PatchError::PictureIdMissing;
    assert_other("patches", &missing, &Vp8PatchError::PictureIdTooLarge);
    Ok(())
}

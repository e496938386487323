//! Kinds and types of media.

use crate::Fail;
use crate::asserts::{assert_printed, assert_same};
use codec_payload::memory::AllocError;
use codec_payload::wire::{MediaKind, MediaType};
use std::collections::HashMap;

/// Types of media, and their kinds.
const KINDS: [(MediaType, Option<MediaKind>); 4] = [
    (MediaType::Application, None),
    (MediaType::Unknown, None),
    (MediaType::Audio, Some(MediaKind::Audio)),
    (MediaType::Video, Some(MediaKind::Video)),
];

#[test]
fn media_kind_application_none() {
    for (media_type, kind) in &KINDS {
        assert_eq!(
            MediaKind::from_media_type(*media_type),
            *kind,
            "of {media_type:?}"
        );
    }
}

/// The kinds of media by their names.
fn named_kinds() -> Result<HashMap<MediaKind, &'static str>, AllocError> {
    let mut names = HashMap::new();
    names.insert(MediaKind::Audio, "audio");
    names.insert(MediaKind::Video, "video");
    Ok(names)
}

#[test]
fn media_kinds_are_keys() -> Result<(), Fail> {
    let names = named_kinds()?;
    assert_same("the names", &names.len(), &2);
    let video = names.get(&MediaKind::Video).copied();
    assert_same("video", &video, &Some("video"));
    Ok(())
}

#[test]
fn media_kinds_are_printed() -> Result<(), Fail> {
    assert_printed(&MediaKind::Audio, "audio")?;
    assert_printed(&MediaKind::Video, "video")?;
    for (kind, is_audio) in [(MediaKind::Audio, true), (MediaKind::Video, false)] {
        assert_same("is it audio", &kind.is_audio(), &is_audio);
        assert_same("is it video", &kind.is_video(), &!is_audio);
    }
    Ok(())
}

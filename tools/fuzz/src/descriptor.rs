//! Dependency descriptors.

use crate::input::Input;
use codec_payload::parts::descriptor::{DescriptorError, DescriptorReader};

/// Any bytes as the descriptors of a stream: nothing panics, lists keep their bounds, and a fault leaves the stream unchanged.
pub fn descriptor(input: &mut Input) {
    let mut reader = DescriptorReader::new();
    while !input.0.is_empty() {
        let length = usize::from(input.byte()).min(input.0.len());
        let (bytes, rest) = input.0.split_at(length);
        input.0 = rest;
        let before = (reader.active_targets(), format!("{:?}", reader.structure()));
        match reader.read(bytes) {
            Ok(frame) => {
                let structure = reader.structure().expect("a structure was read");
                assert!((1..=64).contains(&structure.layers().len()));
                assert!((1..=32).contains(&structure.decode_targets()) && structure.chains() <= 32);
                assert_eq!(
                    frame.indications.len(),
                    usize::from(structure.decode_targets())
                );
                assert_eq!(
                    frame.chain_differences.len(),
                    usize::from(structure.chains())
                );
                assert!(
                    frame
                        .references
                        .as_slice()
                        .iter()
                        .all(|it| (1..=4_096).contains(it))
                );
                assert!(frame.references.len() <= 16 && frame.layer.spatial_id <= 3);
            }
            Err(error) => {
                assert_ne!(error, DescriptorError::OutOfMemory);
                let after = (reader.active_targets(), format!("{:?}", reader.structure()));
                assert_eq!(after, before);
            }
        }
    }
}

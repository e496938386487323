//! `Default` for types whose `new` takes nothing.

use crate::av1::Av1Depacketizer;
use crate::buffer::{PoppedPackets, PoppedUnit};
use crate::descriptor::DescriptorReader;
use crate::forward::ForwardedIds;
use crate::jitter::SequenceNumbers;
use crate::vp9::Vp9Depacketizer;

impl Default for Vp9Depacketizer {
    fn default() -> Self {
        Vp9Depacketizer::new()
    }
}

impl Default for Av1Depacketizer {
    fn default() -> Self {
        Av1Depacketizer::new()
    }
}

impl Default for SequenceNumbers {
    fn default() -> Self {
        SequenceNumbers::new()
    }
}

impl Default for PoppedUnit {
    fn default() -> Self {
        PoppedUnit::new()
    }
}

impl Default for PoppedPackets {
    fn default() -> Self {
        PoppedPackets::new()
    }
}

impl Default for ForwardedIds {
    fn default() -> Self {
        ForwardedIds::new()
    }
}

impl Default for DescriptorReader {
    fn default() -> Self {
        DescriptorReader::new()
    }
}

//! Settings with usual values.

use crate::rtp::ExtensionIds;
use crate::sender::SenderSettings;
use crate::wire::Frequency;

impl SenderSettings {
    /// Returns settings for a stream: sequence numbers from 0 on, payloads of at most 1,188 bytes (1,200 with the RTP header), no
    /// room for a tag, no header extensions. RFC 3550, section 5.1, asks for a random `first_number`: set it.
    #[must_use]
    pub fn for_stream(payload_type: u8, ssrc: u32, clock_rate: Frequency) -> Self {
        SenderSettings {
            ssrc,
            payload_type,
            first_number: 0,
            clock_rate,
            mtu: 1_188,
            tailroom: 0,
            extension_ids: ExtensionIds::default(),
        }
    }
}

//! The worked examples of RED, and what comes where memory is refused.

use codec_payload::memory::TryVec;

mod blocks;
mod receiver;
mod sender;

use codec_payload::error::PacketError;
use codec_payload::red::RedSender;
use codec_payload::wire::Pt;

/// A sender of RED under type 63 whose blocks have type 111.
pub fn sender_of(distances: &[u32]) -> RedSender {
    let red_pt = Pt::new_with_value(63);
    let primary_pt = Pt::new_with_value(111);
    RedSender::new(red_pt, primary_pt, distances)
}

/// What a sender makes of a payload at an RTP time.
pub fn wrapped(
    sender: &mut RedSender,
    payload: &[u8],
    rtp_time: u32,
    budget: usize,
) -> Result<Vec<u8>, PacketError> {
    let media = Vec::try_from_slice(payload)?;
    sender.wrap(media, rtp_time, budget)
}

/// A sender that has sent the payloads `00` to `03`, each 960 ticks after the one before.
pub fn sender_of_four() -> Result<RedSender, PacketError> {
    let mut sender = sender_of(&[1, 3]);
    for (byte, rtp_time) in [(0u8, 0u32), (1, 960), (2, 1_920), (3, 2_880)] {
        wrapped(&mut sender, &[byte], rtp_time, 1_200)?;
    }
    Ok(sender)
}

//! From SDP to settings: reads a session description (RFC 8866), and makes a receiver for the media of each section:
//!
//! ```sh
//! cargo run --example sdp
//! ```
//!
//! - Take one payload type of media from the section: here the first. If a sender changes it, make another receiver.
//! - The payload types without media (telephone events, comfort noise) are in `ReceiverSettings::no_media`.
//! - Without a=ssrc lines, or with several SSRCs (simulcast), the settings name no SSRC: set it, or let two packets choose it.

use codec_payload::sdp::{self, Media, Role};
use codec_payload::{Codec, CodecDepacketizer, Receiver};
use std::error::Error;

const SESSION: &str = "v=0
m=audio 9 UDP/TLS/RTP/SAVPF 111 63 110
a=rtpmap:111 opus/48000/2
a=rtpmap:63 red/48000/2
a=fmtp:63 111/111
a=rtpmap:110 telephone-event/48000
a=extmap:1 urn:ietf:params:rtp-hdrext:ssrc-audio-level
m=video 9 UDP/TLS/RTP/SAVPF 96 97
a=rtpmap:96 VP8/90000
a=rtcp-fb:96 nack
a=rtpmap:97 rtx/90000
a=fmtp:97 apt=96
a=extmap:4 urn:3gpp:video-orientation
a=ssrc-group:FID 7 9
";

/// The number of a codec in the library for C, which the program prints.
fn number(codec: Codec) -> u32 {
    match codec {
        Codec::Opus => 0,
        Codec::Vp8 => 9,
        _ => unreachable!("the description has two codecs"),
    }
}

/// Makes a receiver for a section, and prints its settings.
fn receive(media: &Media) -> Result<(), Box<dyn Error>> {
    let Some((payload_type, spec)) = media.formats.iter().find_map(|format| match format.role {
        Role::Media(spec) => Some((format.payload_type, spec)),
        _ => None,
    }) else {
        return Ok(());
    };
    let settings = media
        .receiver_settings(payload_type)?
        .ok_or("the payload type is of media")?;
    let (codec, rate) = (number(spec.codec), spec.clock_rate.get());
    let wait = settings.wait_limits.max_wait.unwrap_or(0);
    print!("codec {codec} at {rate} Hz, type {payload_type}, wait {wait} ms");
    if let Some(red) = &settings.red {
        print!(", RED type {}, step {}", red.payload_type, red.step);
    }
    for payload_type in &settings.no_media {
        print!(", no media in type {payload_type}");
    }
    if let Some(ssrc) = settings.ssrc {
        print!(", SSRC {ssrc}");
    }
    if let Some(rtx) = &settings.retransmission {
        let (payload_type, ssrc) = (rtx.payload_type, rtx.ssrc);
        print!(", retransmissions in type {payload_type}, SSRC {ssrc}");
    }
    println!();
    let mut depacketizer = CodecDepacketizer::try_from(spec.codec)?;
    depacketizer.configure_for(&spec);
    Receiver::new(depacketizer, settings)?;
    Ok(())
}

fn main() -> Result<(), Box<dyn Error>> {
    for media in &sdp::read(SESSION)? {
        receive(media)?;
    }
    Ok(())
}

//! The settings of a port with FEC from the sections of the port.

use super::port::is_video;
use super::{Format, Media, Role};
use crate::fec::{FecPortSettings, LateIds, RetransmissionType};
use crate::memory::{AllocError, TryVec};
use alloc::vec::Vec;

/// How many packets of media of a stream a port keeps at most, and for how large packets there is room.
const PACKETS: usize = 512;
const LARGEST: usize = 1_500;

/// The largest number of streams of a port.
const STREAMS: usize = 64;

/// Returns settings of a [`FecPort`] in front of a session whose settings [`session_settings`] made of the same sections. `None`: no section
/// of video has both `red` and `ulpfec`, or their payload types cannot be told from RTCP.
///
/// - RED and ULPFEC: the first ones of the first section of video that has both. RED whose `a=fmtp` names payload types is none for video.
/// - Retransmissions: the payload type whose `apt` is RED, and for each format of media of the section the one whose `apt` is it.
/// - Late elements: the ids of the section for the transport-wide number, abs-send-time, toffset and video-timing.
/// - At most 64 streams, of which 512 packets of up to 1,500 bytes are kept: 768,000 bytes for each.
///
/// # Errors
///
/// Out of memory; only with the feature `fallible`.
///
/// ```
/// use codec_payload::sdp;
///
/// # fn main() -> Result<(), Box<dyn std::error::Error>> {
/// let text = "v=0\r\nm=video 9 UDP/TLS/RTP/SAVPF 96 97 116 117 118\r\na=rtpmap:96 VP8/90000\r\na=rtpmap:97 rtx/90000\r\n\
///     a=fmtp:97 apt=96\r\na=rtpmap:116 red/90000\r\na=rtpmap:117 ulpfec/90000\r\na=rtpmap:118 rtx/90000\r\na=fmtp:118 apt=116\r\n";
/// let settings = sdp::fec_port_settings(&sdp::read(text)?)?.ok_or("no FEC")?;
/// assert_eq!((settings.red_type, settings.fec_type), (116, 117));
/// assert_eq!(settings.red_retransmission, Some(118));
/// assert_eq!((settings.retransmissions[0].media, settings.retransmissions[0].retransmission), (96, 97));
/// # Ok(())
/// # }
/// ```
///
/// [`FecPort`]: crate::fec::FecPort
/// [`session_settings`]: super::session_settings
pub fn fec_port_settings(media: &[Media<'_>]) -> Result<Option<FecPortSettings>, AllocError> {
    for section in media.iter().filter(|section| section.is_rtp) {
        let Some((red_type, fec_type)) = types(section) else {
            continue;
        };
        let settings = FecPortSettings {
            red_type,
            fec_type,
            red_retransmission: section.retransmission_type(red_type),
            retransmissions: retransmissions(section)?,
            late_ids: late_ids(section),
            bytes: PACKETS * LARGEST,
            max_streams: STREAMS,
        };
        return Ok(Some(settings).filter(|settings| settings.check().is_ok()));
    }
    Ok(None)
}

/// The payload types of RED and of ULPFEC, if the section has video with both.
fn types(section: &Media<'_>) -> Option<(u8, u8)> {
    let find = |is: &dyn Fn(&Format<'_>) -> bool| section.formats.iter().find(|format| is(format));
    find(&|format| matches!(format.role, Role::Media(spec) if is_video(spec.codec)))?;
    let red = find(&|format| matches!(format.role, Role::Red { over: None }))?;
    let fec = find(&|format| {
        format.role == Role::ErrorCorrection && format.name.eq_ignore_ascii_case("ulpfec")
    })?;
    Some((red.payload_type, fec.payload_type))
}

/// The payload types of media of a section that have retransmissions.
fn retransmissions(section: &Media<'_>) -> Result<Vec<RetransmissionType>, AllocError> {
    let mut pairs = Vec::new();
    for format in &section.formats {
        let again = section.retransmission_type(format.payload_type);
        if let (Role::Media(_), Some(retransmission)) = (format.role, again) {
            pairs.try_push(RetransmissionType {
                media: format.payload_type,
                retransmission,
            })?;
        }
    }
    Ok(pairs)
}

/// The ids of the extensions that senders fill in late.
fn late_ids(section: &Media<'_>) -> LateIds {
    LateIds {
        transport_number: section.other_ids.transport_cc,
        abs_send_time: section.other_ids.send_time,
        transmission_offset: section.other_ids.transmission_offset,
        video_timing: section.extension_ids.video_timing,
    }
}

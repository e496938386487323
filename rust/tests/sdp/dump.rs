//! A description as text: what `c/tests/descriptions.c` prints of it.

use codec_payload::Codec;
use codec_payload::fec::FecPort;
use codec_payload::sdp::{
    self, Direction, Format, Kind, Media, Role, SessionError, Setup, Transport,
};
use codec_payload::session::{Format as SessionFormat, SessionSettings};
use codec_payload::stream::Receiver;
use codec_payload::{CodecDepacketizer, CodecSpec};
use std::fmt::Write;

/// The number of a codec in the library for C.
fn number(codec: Codec) -> u32 {
    match codec {
        Codec::Opus => 0,
        Codec::PCMU => 1,
        Codec::PCMA => 2,
        Codec::G722 => 3,
        Codec::AmrWb => 5,
        Codec::Vp8 => 9,
        Codec::Vp9 => 10,
        Codec::Av1 => 11,
        _ => 12,
    }
}

fn of(payload_type: Option<u8>) -> String {
    payload_type.map_or(String::new(), |it| format!(" of {it}"))
}

fn role(format: &Format<'_>) -> String {
    match format.role {
        Role::Media(spec) => format!("media {}", number(spec.codec)),
        Role::Red { over } => format!("RED{}", of(over)),
        Role::Retransmission { of: media } => format!("retransmission{}", of(media)),
        Role::TelephoneEvents => "events".into(),
        Role::ComfortNoise => "comfort noise".into(),
        Role::ErrorCorrection => "FEC".into(),
        _ => "ignored".into(),
    }
}

fn add_format(out: &mut String, format: &Format<'_>) -> std::fmt::Result {
    let rate = format.clock_rate.map_or(0, |rate| rate.get());
    // In C a name is cut after 31 bytes, and ends before a 0.
    let name: String = format
        .name
        .chars()
        .take_while(|&it| it != '\0')
        .take(31)
        .collect();
    write!(
        out,
        "{} {name}/{rate}/{}: {}",
        format.payload_type,
        format.channels,
        role(format)
    )?;
    if format.profile > 0 {
        write!(out, " profile {}", format.profile)?;
    }
    let feedback = format.feedback;
    let is_octet_aligned = matches!(
        format.role,
        Role::Media(CodecSpec {
            octet_align: true,
            ..
        })
    );
    for (is_set, name) in [
        (is_octet_aligned, "octet-align"),
        (feedback.nack, "nack"),
        (feedback.pli, "pli"),
        (feedback.fir, "fir"),
        (feedback.transport_cc, "transport-cc"),
        (feedback.remb, "remb"),
    ] {
        if is_set {
            write!(out, " {name}")?;
        }
    }
    writeln!(out)?;
    if !format.fmtp.is_empty() {
        writeln!(out, "fmtp {}", printed(format.fmtp))?;
    }
    Ok(())
}

/// A text as C prints it.
fn printed(text: &str) -> String {
    text.replace('\0', "?")
}

/// `NAME TEXT`, if there is a text.
fn named(name: &str, text: &str) -> String {
    match text {
        "" => String::new(),
        _ => format!("{name}{}", printed(text)),
    }
}

/// How many more there are than C has room for.
fn add_more(out: &mut String, count: usize, room: usize, name: &str) -> std::fmt::Result {
    match count.checked_sub(room) {
        None | Some(0) => Ok(()),
        Some(more) => writeln!(out, "{more} more {name}"),
    }
}

fn add_transport(out: &mut String, it: &Transport<'_>) -> std::fmt::Result {
    let user = named(" user ", it.ice_ufrag.unwrap_or_default());
    let password = named(" password ", it.ice_pwd.unwrap_or_default());
    let options = named(" options ", it.ice_options);
    let lite = if it.is_ice_lite { " lite" } else { "" };
    let end = if it.has_end_of_candidates { " end" } else { "" };
    writeln!(out, "ICE:{user}{password}{options}{lite}{end}")?;
    for candidate in it.candidates.iter().take(64) {
        writeln!(out, "candidate {}", printed(candidate))?;
    }
    add_more(out, it.candidates.len(), 64, "candidates")?;
    if let Some(setup) = it.setup {
        let name = match setup {
            Setup::Active => "active",
            Setup::Passive => "passive",
            Setup::ActPass => "actpass",
            Setup::HoldConn => "holdconn",
        };
        writeln!(out, "setup {name}")?;
    }
    for fingerprint in &it.fingerprints {
        let (hash, value) = (printed(fingerprint.hash), printed(fingerprint.value));
        writeln!(out, "fingerprint {hash} {value}")?;
    }
    Ok(())
}

fn send(is_sent: bool) -> &'static str {
    if is_sent { "send" } else { "recv" }
}

fn add_layers(out: &mut String, media: &Media<'_>) -> std::fmt::Result {
    for rid in media.rids.iter().take(16) {
        let restrictions = named(" ", rid.restrictions);
        writeln!(out, "rid {} {}{restrictions}", rid.id, send(rid.is_sent))?;
    }
    add_more(out, media.rids.len(), 16, "rids")?;
    for layer in media.layers.iter().take(32) {
        let paused = if layer.is_paused { " paused" } else { "" };
        let (direction, stream, rid) = (send(layer.is_sent), layer.stream, layer.rid);
        writeln!(out, "simulcast {direction} {stream} {rid}{paused}")?;
    }
    add_more(out, media.layers.len(), 32, "layers")
}

/// What a section says beside formats.
fn add_beside_formats(out: &mut String, media: &Media<'_>) -> std::fmt::Result {
    let direction = match media.direction {
        Direction::SendRecv => "sendrecv",
        Direction::SendOnly => "sendonly",
        Direction::RecvOnly => "recvonly",
        Direction::Inactive => "inactive",
    };
    let media_type = named("type ", media.media_type);
    let protocol = named(" ", media.protocol);
    let mid = named(" mid ", media.mid.unwrap_or_default());
    writeln!(out, "{media_type}{protocol}{mid} {direction}")?;
    for msid in media.msids.iter().take(8) {
        let (stream, track) = (printed(msid.stream), named(" ", msid.track));
        writeln!(out, "msid {stream}{track}")?;
    }
    add_more(out, media.msids.len(), 8, "msids")?;
    add_layers(out, media)?;
    add_transport(out, &media.transport)
}

/// The groups, or the fault of one.
fn add_groups(out: &mut String, text: &str) -> std::fmt::Result {
    match sdp::groups(text) {
        Ok(groups) => {
            for group in groups {
                write!(out, "group {}", printed(group.semantics))?;
                for mid in group.mids() {
                    write!(out, " {}", printed(mid))?;
                }
                writeln!(out)?;
            }
            Ok(())
        }
        Err(fault) => writeln!(out, "groups: {fault}"),
    }
}

fn add_ids(out: &mut String, media: &Media<'_>) -> std::fmt::Result {
    let (known, other) = (&media.extension_ids, &media.other_ids);
    write!(out, "ids:")?;
    for (name, id) in [
        ("capture-time", known.abs_capture_time),
        ("orientation", known.video_orientation),
        ("content-type", known.video_content_type),
        ("timing", known.video_timing),
        ("layers", known.layers_allocation),
        ("level", known.audio_level),
        ("mid", other.mid),
        ("rid", other.rid),
        ("repaired-rid", other.repaired_rid),
        ("transport-cc", other.transport_cc),
        ("send-time", other.send_time),
        ("toffset", other.transmission_offset),
        ("descriptor", other.dependency_descriptor),
    ] {
        if let Some(id) = id {
            write!(out, " {name} {id}")?;
        }
    }
    writeln!(out)
}

/// The settings of a receiver for media, which must be those of a receiver.
fn add_receiver(out: &mut String, media: &Media<'_>, format: &Format<'_>) -> std::fmt::Result {
    let Role::Media(spec) = format.role else {
        return Ok(());
    };
    let settings = media
        .receiver_settings(format.payload_type)
        .unwrap()
        .unwrap();
    let wait = settings.wait_limits.max_wait.unwrap();
    write!(out, "receiver of {}: wait {wait}", format.payload_type)?;
    if let Some(red) = &settings.red {
        write!(out, ", RED {} step {}", red.payload_type, red.step)?;
        if let Some(rtx) = red.retransmission {
            write!(out, " RTX {rtx}")?;
        }
    }
    if let Some(ssrc) = settings.ssrc {
        write!(out, ", SSRC {ssrc}")?;
    }
    if let Some(rtx) = &settings.retransmission {
        write!(out, ", RTX {} SSRC {}", rtx.payload_type, rtx.ssrc)?;
    }
    if let Some(id) = settings.dependency_descriptor {
        write!(out, ", descriptor {id}")?;
    }
    if !settings.no_media.is_empty() {
        write!(out, ", no media in")?;
    }
    for payload_type in &settings.no_media {
        write!(out, " {payload_type}")?;
    }
    let depacketizer: CodecDepacketizer = CodecDepacketizer::from_codec(spec.codec).unwrap();
    Receiver::new(depacketizer, settings).unwrap();
    writeln!(out)
}

fn add_media(out: &mut String, media: &Media<'_>) -> std::fmt::Result {
    let kind = match media.kind {
        Kind::Audio => "audio",
        Kind::Video => "video",
        Kind::Other => "other",
    };
    write!(out, "line {}: {kind}, port {}", media.line, media.port)?;
    for (is_set, name) in [
        (!media.is_rtp, "not RTP"),
        (media.is_encrypted, "encrypted"),
        (media.has_rtcp_mux, "rtcp-mux"),
        (media.has_receiver_rtt, "rcvr-rtt"),
        (media.is_bundle_only, "bundle-only"),
    ] {
        if is_set {
            write!(out, ", {name}")?;
        }
    }
    if let Some(time) = media.packet_time {
        write!(out, ", ptime {time}")?;
    }
    writeln!(out)?;
    add_beside_formats(out, media)?;
    for format in &media.formats {
        add_format(out, format)?;
    }
    add_ids(out, media)?;
    for source in &media.sources {
        write!(out, "SSRC {}", source.ssrc)?;
        if let Some(rtx) = source.retransmission {
            write!(out, " RTX {rtx}")?;
        }
        writeln!(out)?;
    }
    for format in &media.formats {
        add_receiver(out, media, format)?;
    }
    Ok(())
}

fn add_session_format(out: &mut String, format: &SessionFormat) -> std::fmt::Result {
    let spec = &format.spec;
    write!(
        out,
        "format {}: codec {}/{}",
        format.payload_type,
        number(spec.codec),
        spec.clock_rate.get()
    )?;
    if spec.octet_align {
        write!(out, " octet-align")?;
    }
    if let Some(red) = &format.red {
        write!(out, ", RED {} step {}", red.payload_type, red.step)?;
        if let Some(rtx) = red.retransmission {
            write!(out, " RTX {rtx}")?;
        }
    }
    if let Some(rtx) = format.retransmission {
        write!(out, ", RTX {rtx}")?;
    }
    for (is_set, name) in [(format.nack, "nack"), (format.pli, "pli")] {
        if is_set {
            write!(out, ", {name}")?;
        }
    }
    writeln!(out)
}

/// Payload types without media in the order of the sections, as C has them in one list.
fn without_media(media: &[Media<'_>], settings: &SessionSettings) -> Vec<(u8, bool)> {
    let mut found = Vec::new();
    for format in media.iter().flat_map(|section| &section.formats) {
        let payload_type = format.payload_type;
        let is_event = settings.telephone_events.contains(&payload_type);
        let is_there = is_event || settings.no_media.contains(&payload_type);
        if is_there && !found.contains(&(payload_type, is_event)) {
            found.push((payload_type, is_event));
        }
    }
    found
}

/// The settings of a session for all sections, or why there are none.
fn add_session(out: &mut String, media: &[Media<'_>]) -> std::fmt::Result {
    let settings = match sdp::session_settings(media) {
        Ok(settings) => settings,
        Err(fault) => return writeln!(out, "no session: {}", reason(fault)),
    };
    let (audio, video) = (settings.audio.max_wait, settings.video.max_wait);
    writeln!(out, "session: wait {} {}", audio.unwrap(), video.unwrap())?;
    for format in &settings.formats {
        add_session_format(out, format)?;
    }
    write!(out, "session without media:")?;
    for (payload_type, is_event) in without_media(media, &settings) {
        let event = if is_event { " (events)" } else { "" };
        write!(out, " {payload_type}{event}")?;
    }
    writeln!(out)?;
    let (ids, names) = (&settings.extension_ids, &settings.name_ids);
    write!(out, "session ids:")?;
    for (name, id) in [
        ("capture-time", ids.abs_capture_time),
        ("orientation", ids.video_orientation),
        ("content-type", ids.video_content_type),
        ("timing", ids.video_timing),
        ("layers", ids.layers_allocation),
        ("level", ids.audio_level),
        ("mid", names.mid),
        ("rid", names.rid),
        ("repaired-rid", names.repaired_rid),
        ("descriptor", settings.dependency_descriptor),
    ] {
        if let Some(id) = id {
            write!(out, " {name} {id}")?;
        }
    }
    writeln!(out)?;
    for pair in &settings.pairs {
        writeln!(out, "pair {} {}", pair.ssrc, pair.retransmission)?;
    }
    Ok(())
}

/// The settings of a port with FEC, which a port must accept, if there are any.
fn add_fec_port(out: &mut String, media: &[Media<'_>]) -> std::fmt::Result {
    let Some(it) = sdp::fec_port_settings(media).unwrap() else {
        return Ok(());
    };
    write!(out, "FEC port: RED {}", it.red_type)?;
    if let Some(rtx) = it.red_retransmission {
        write!(out, " RTX {rtx}")?;
    }
    write!(out, ", ULPFEC {}, late", it.fec_type)?;
    let late = &it.late_ids;
    for id in [
        late.transport_number,
        late.abs_send_time,
        late.transmission_offset,
        late.video_timing,
    ] {
        write!(out, " {}", id.unwrap_or(0))?;
    }
    for pair in &it.retransmissions {
        write!(out, ", {} RTX {}", pair.media, pair.retransmission)?;
    }
    assert_eq!((it.bytes, it.max_streams), (768_000, 64));
    FecPort::new(it).unwrap();
    writeln!(out)
}

/// The text and the number that the library for C gives for an error.
pub fn reason(fault: SessionError) -> String {
    match fault {
        SessionError::PayloadType(it) => {
            format!("payload type is 64 to 95, exceeds 127 or has two uses ({it})")
        }
        SessionError::ExtensionId(it) => {
            format!("header extension id differs between sections ({it})")
        }
        other => format!("{other} (0)"),
    }
}

/// What was read of a description, and the settings of a session, or the fault.
pub fn dump(text: &str) -> String {
    let mut out = String::new();
    add_groups(&mut out, text).unwrap();
    match sdp::read(text) {
        Ok(found) => {
            for media in &found {
                add_media(&mut out, media).unwrap();
            }
            add_session(&mut out, &found).unwrap();
            add_fec_port(&mut out, &found).unwrap();
        }
        Err(fault) => writeln!(out, "{fault}").unwrap(),
    }
    out
}

fn drawn(seed: &mut u32, below: usize) -> usize {
    *seed = seed.wrapping_mul(1_664_525).wrapping_add(1_013_904_223);
    (*seed >> 8) as usize % below
}

/// Copies a description with one to eight changes: those of `c/tests/descriptions.c`.
pub fn changed(given: &str, mut seed: u32) -> String {
    const BYTES: &[u8] = b"0123456789:/;= *\n\ram\t-";
    let mut bytes = given.as_bytes().to_vec();
    for _ in 0..=drawn(&mut seed, 8) {
        let size = bytes.len();
        if size <= 64 {
            break;
        }
        let at = drawn(&mut seed, size - 40);
        let length = 1 + drawn(&mut seed, 32);
        let from = drawn(&mut seed, size - 40);
        match drawn(&mut seed, 4) {
            0 => bytes[at] = BYTES[drawn(&mut seed, BYTES.len())],
            1 => bytes[at] = drawn(&mut seed, 128) as u8,
            2 => drop(bytes.drain(at..at + length)),
            _ => bytes.copy_within(from..from + length, at),
        }
    }
    String::from_utf8(bytes).unwrap()
}

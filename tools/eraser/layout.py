"""Where the modules of the proved crates go in the one crate of plain Rust."""

# The crates of the library, each after the crates that it uses.
LIBRARY = ["base", "audio", "vp8", "vp9", "av1", "red", "rtp", "sending_red", "rtcp", "feedback_congestion", "sending_history", "sending_forward", "syntax", "vpx", "descriptor", "media", "keyframes", "feedback_requests", "feedback", "feedback_transport", "feedback_ccfb", "feedback_xr", "fec", "fec_receiver", "fec_port", "sending_fec", "feedback_wait", "feedback_freezes", "bandwidth_pacer", "bandwidth_layers", "bandwidth_estimate", "bandwidth_estimator", "bandwidth_offer", "bandwidth_path", "bandwidth", "layers", "spatial", "edges", "index", "queue", "references", "codec", "contiguity", "metadata", "buffer", "numbers", "jitter", "datagrams", "receiver", "stream_edges", "session_formats", "session_requests", "session_stream", "session", "sending",
           "payloader", "buffer_runs", "datagram_runs", "forward_runs", "session_runs", "server_runs"]
# Runs that do the same as those of `datagram_runs`, with one more clause; theorems alone.
NOT_HERE = {"answered_runs", "fec_runs", "session_units", "timely_runs"}
# The crates of the library for C, and the module of rust-c that each becomes.
C_LIBRARY = {"handle": "handle", "c_packets": "packets", "c_path": "path", "c_fec": "fec", "c_receiving": "receiving", "c": "calls"}
# Names the users' modules of the library again.
FACADE = "core"
# The module below which a crate's modules go. Modules of all other crates go to the root.
PLACES = {"index": "index", "metadata": "metadata", "queue": "queue", "syntax": "syntax", "rtp": "rtp", "rtcp": "rtcp", "feedback_congestion": "congestion", "vpx": "media::vpx", "descriptor": "descriptor", "media": "media", "keyframes": "keyframes", "references": "frame_notes", "sending_history": "history", "sending_forward": "forward", "feedback_requests": "requests", "feedback": "feedback", "feedback_transport": "transport", "feedback_ccfb": "ccfb", "feedback_xr": "xr", "fec_receiver": "fec", "feedback_wait": "waiting", "feedback_freezes": "freezes", "bandwidth": "bandwidth", "layers": "layers", "spatial": "spatial", "edges": "edges", "stream_edges": "stream_edges", "jitter": "jitter", "receiver": "stream", "session": "session", "payloader": "payload",
          "buffer_runs": "schedule", "datagram_runs": "schedule::datagrams", "forward_runs": "schedule::forwarded", "session_runs": "session::runs", "server_runs": "schedule::served"}
# Crates whose modules stand among those of a crate above or below: for each module, that crate.
HOMES = {"bandwidth_pacer": {"pacer": "bandwidth", "resends": "bandwidth"}, "bandwidth_layers": {"chooser": "bandwidth"},
         "bandwidth_estimate": {"arrivals": "bandwidth", "delays": "bandwidth", "losses": "bandwidth", "rate": "bandwidth", "steady": "bandwidth"}, "bandwidth_estimator": {"estimator": "bandwidth"}, "bandwidth_offer": {"offer": "bandwidth"}, "bandwidth_path": {"departures": "bandwidth", "path": "bandwidth"},
         "sending_fec": {"fec_sender": "fec_receiver", "held_frame": "fec_receiver", "red_packets": "fec_receiver", "stream_numbers": "fec_receiver"},
         "fec": {"packet": "fec_receiver", "rebuilding": "fec_receiver", "store": "fec_receiver", "strings": "fec_receiver", "writing": "fec_receiver"},
         "fec_port": {"cleared": "fec_receiver", "fec_port": "fec_receiver", "fec_stream": "fec_receiver", "plain": "fec_receiver", "port_settings": "fec_receiver"},
         "numbers": {"noted_times": "jitter", "numbers": "jitter", "seen_times": "receiver", "statistics": "receiver", "windows": "receiver"},
         "datagrams": {"choice": "receiver", "kinds": "receiver", "parsed": "receiver"},
         "session_formats": {"checks": "session", "formats": "session", "names": "session", "sort": "session", "tick_rate": "session"},
         "session_requests": {"late": "session", "named": "session", "probes": "session", "requests": "session", "transports": "session"},
         "session_stream": {"arrival": "session", "changes": "session", "dues": "session", "edges": "session", "events": "session", "pairs": "session", "renegotiation": "session", "reports": "session", "stream": "session", "telephone": "session", "times": "session", "trips": "session", "waking": "session"}}
# Names of lower crates that are public for the crates above alone. In the one crate no user sees them.
WITHIN_CRATE = {
    ("rtp", "elements.rt"): "front_element",
    ("layers", "layers.rt"): "behind_id",
    ("metadata", "known.rt"): "are_plain drop_rare is_plain last_sender_info marker number plain_meta received seq_no take time values",
    ("contiguity", "contiguity.rt"): "of",
    ("numbers", "numbers.rt"): "answer_anew answer_for backward kept_number lowest_with number_within take without_restart",
    ("numbers", "noted_times.rt"): "NotedTimes contradicts has_former is_of_former is_soon_after is_untimely make_room new note sender set_former",
    ("numbers", "seen_times.rt"): "LazySeenTimes SeenTime SeenTimes forget_if has_block is_block is_seen none note put take time",
    ("numbers", "statistics.rt"): "anew begin_if transit_change",
    ("fec_receiver", "late.rt"): "is_id plain_bytes written",
    ("datagrams", "kinds.rt"): "Datagram Malformation RedPacket RedStream SentAgain again_kind header is_among is_other is_padding_only is_sent_again media_kind number older payload primary receiver red_again_kind red_again_of red_kind under",
    ("datagrams", "choice.rt"): "Candidate Choice Origin Verdict bytes candidates forget is_silent keep note note_at number over received ssrc verdict",
    ("session_formats", "formats.rt"): "LONGEST_NAME Role is_telephone is_video limits receiver resends retransmission_for role stream_of",
    ("session_formats", "names.rt"): "are_of_one note",
    ("session_formats", "checks.rt"): "fault",
    ("session_formats", "sort.rt"): "SortedPacket sort",
    ("receiver", "tick_rate.rt"): "limits_at ticks_at_if",
    ("session_requests", "requests.rt"): "Feedback answer_if ask_keyframe begin has_requested hear original_number request_counts requests_due rest_time round_trip set_reported source_for take_due wait_by",
    ("session_requests", "named.rt"): "NamedReceiver begin finish follow inner pop_unit receive report set_retransmission set_wait_limits",
    ("session_requests", "late.rt"): "follow late_for limit_by",
    ("session_requests", "probes.rt"): "Probes note_probe probe_count probes_for without_probes",
    ("session_requests", "transports.rt"): "note reporter_for restart take_due time_of transport_deadline",
    ("session_stream", "arrival.rt"): "arrival_of feed_one",
    ("session_stream", "changes.rt"): "continues leave_behind tell_names",
    ("session_stream", "dues.rt"): "due_in",
    ("session_stream", "events.rt"): "report_event transport_event with_unit",
    ("session_stream", "pairs.rt"): "pair remove_pair with_pair",
    ("session_stream", "renegotiation.rt"): "leave_formats",
    ("session_stream", "reports.rt"): "note_packet peek_report report start_fraction",
    ("session_stream", "stream.rt"): "Step StreamState Turn begin info is_former is_left_behind is_no_memory is_nothing is_on_probation is_playing leave_if request_keyframe step take wait_if",
    ("session_stream", "telephone.rt"): "Noted TelephonePacket TelephoneQueue dropped is_empty none note settle take",
    ("session_stream", "times.rt"): "earlier",
    ("session_stream", "trips.rt"): "set_round_trip_if tell_all tell_round_trip",
    ("session_stream", "waking.rt"): "Waking except find forget grow holds step_due step_excepted unknown",
}
# Modules with another name in the one crate.
RENAMED_MODULES = {("rtp", "rtp"): "packet", ("jitter", "jitter"): "jitter_buffer", ("session", "session"): "sessions",
                   ("feedback_freezes", "freezes"): "counter", ("layers", "layers"): "reading", ("spatial", "spatial"): "filter"}
# Types with another name in the one crate, since another type has theirs: crate, module, name.
RENAMED_TYPES = {("receiver", "receiver", "Settings"): "ReceiverSettings"}
# Crates whose public modules are hidden: what they hold is public in the module above them.
FLAT = {"rtp", "rtcp", "feedback_congestion", "sending_history", "sending_forward", "vpx", "descriptor", "media", "keyframes", "references", "feedback_requests", "feedback", "feedback_transport", "feedback_ccfb", "feedback_xr", "fec_receiver", "feedback_wait", "feedback_freezes", "bandwidth", "layers", "spatial", "edges", "stream_edges", "jitter", "receiver", "session", "datagram_runs", "forward_runs", "session_runs", "server_runs"}
# Modules that are left out of the documentation of the one crate: runs are there for its tests alone.
UNDOCUMENTED_MODULES = {"session::runs"}
# Public functions that are left out of it too, since only other modules and ports of `str0m` call them.
UNDOCUMENTED_FUNCTIONS = {"abs_capture_time_of", "all_fit", "append_report", "audio_level_byte", "audio_level_of", "encode_leb_u63", "extend_u7",
                          "extend_u8", "extend_u15", "extend_u32", "extension_value", "form_for", "is_video", "keep_first", "most_reported",
                          "video_timing_bytes", "video_timing_of"}
# Modules of such crates that stay.
KEPT_MODULES = {("media", "amr_wb"), ("media", "av1"), ("media", "opus"), ("vpx", "vp8"), ("vpx", "vp9")}
# Modules of such crates whose names are for the crate alone.
UNNAMED_MODULES = {("index", "ssrcs"), ("index", "times"), ("metadata", "known"), ("metadata", "meta"), ("metadata", "packed_header"), ("queue", "search"), ("queue", "tiers"), ("syntax", "fields"), ("syntax", "reader"), ("vpx", "fields"), ("descriptor", "fields"), ("rtp", "writing")}
# Modules with functions that only callers in Rattle need.
PARTLY_USED_MODULES = {("index", "times")}

# The program that is written as plain Rust too, and the library of programs over lines.
PROGRAM = "payload_vectors"
PROGRAM_LIBRARY = "payload_lines"

# Bodies that methods of traits have in Rust, since those of `str0m` have them: file below `crates`, and name. In Rattle each
# implementation says which answer its contract states.
DEFAULT_BODIES = {("codec_payload_base/src/interface.rt", "marks_talkspurt"): "false",
                  ("codec_payload_base/src/interface.rt", "nackable"): "true"}

# Functions whose contracts state constants: Rust states those itself.
CONSTANT_FUNCTIONS = {"constants_of_wire", "constants_of_red", "default_of_extension_values", "defaults_of_interface",
                      "defaults_of_amr_wb", "defaults_of_tele"}


def place(crate, module, passed_on):
    """The path of a crate's module below the root. `passed_on` has the modules that a crate names again for another."""
    crate = passed_on.get((crate, module), crate)
    crate = HOMES.get(crate, {}).get(module, crate)
    if crate == FACADE:
        return module
    name = RENAMED_MODULES.get((crate, module), module)
    return "::".join(part for part in (PLACES.get(crate, ""), name) if part)


def may_grow(f):
    """The mark of an enum of this file that later versions may extend. rust-c follows each version of the library, and has an arm for
    each variant."""
    return '#[cfg_attr(not(feature = "exhaustive"), non_exhaustive)]' if f.is_library and f.has_users else "#[non_exhaustive]"

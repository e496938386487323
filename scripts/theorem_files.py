"""The files of docs/proof that scripts/theorem.py writes: their statements, the words in front, the parts, and the stops.

FILES has for each file

- `statements`: (crate, module, definition) of each, and the function whose clause it is, if that is not the nearest one;
- `words`: what it says, under which premises, what it does not say, and how to read it. Nothing compares these words with the
  clauses: whoever changes a clause reads them again, clause by clause;
- `parts`: after the statement, (title, the definitions with which the part begins);
- `after`: files to read before. Of a definition that one of these shows whole, only the first sentence is repeated;
- `stops`: definitions that are named and not expanded, each with the reason why the theorem stands without them;
- `without`: fields of a record that are not shown, and why.

Rules for stops. A theorem says nothing if its premise cannot be met, or if its conclusion always holds. So

1. a stop is in no premise, except a function of values, if a run that meets the premise is proved, and the contracts of the calls
   of which a run consists;
2. a relation is a stop only if it is the contract of a public function, and the statement passes it on as it is; or if it is part
   of a log, while another clause says that each run has a log;
3. never a stop: which units were sent, that a release is one of them, that a receiver was new, which calls it made, and with which
   answers.
"""
from collections import namedtuple

# What a theorem file says in front: `says`, `premises`, `not_said`, `reading`.
Words = namedtuple('Words', 'says premises not_said reading')
BUFFER, DATAGRAMS, FORWARD = 'codec_payload_buffer_runs', 'codec_payload_datagram_runs', 'codec_payload_forward_runs'
SESSION, SERVER, TIMELY = 'codec_payload_session_runs', 'codec_payload_server_runs', 'codec_payload_timely_runs'
ANSWERED = 'codec_payload_answered_runs'

RECEIVES = 'codec_payload_receiver.Sessions.ReceivesBytes'
FOLLOWS = 'codec_payload_stream_edges.Following.Follows'
POPS = 'codec_payload_receiver.Pops.PopsGated'
ENDS = 'codec_payload_receiver.Sessions.Ends'
NEW_RECEIVER = 'codec_payload_receiver.Sessions.session_by'
RUNS = 'codec_payload_session_runs.SessionRuns.Runs'
NEW_SESSION = 'codec_payload_session.Ports.new_session'
NEW_DEPACKETIZER = 'codec_payload_codec.Depacketizers.depacketizer_state_for'
READS = 'codec_payload_rtp.RtpReading.rtp_at'
DEPACKETIZES = 'codec_payload_codec.Depacketizers.DepacketizerStep'
SENDS = 'codec_payload_sending.Senders.Sends'
REFUSES = 'codec_payload_sending.Senders.Refuses'
KEEPS = 'codec_payload_sending_history.Histories.Keeps'
RESENDS = 'codec_payload_sending_history.Histories.Resends'
NEW_HISTORY = 'codec_payload_sending_history.Histories.history_by'

# What each stop is.
STOPS = {
    RECEIVES: 'the contract of `Receiver::receive`: the receiver after these bytes, with this answer.',
    FOLLOWS: 'the contract of `StreamEdges::follow`: the edges, and the receiver that records numbers without media, after these bytes.',
    POPS: 'the contract of `Receiver::pop`: the receiver after a pop, with this answer.',
    ENDS: 'the contract of `Receiver::finish`: no more datagrams come, so no pop waits.',
    NEW_RECEIVER: 'the contract of `Receiver::new`: the receiver with these settings before any datagram, or the setting that is out of range.',
    RUNS: 'the contracts of all calls of a session, one after another (docs/proof/SESSIONS.md).',
    NEW_SESSION: 'the session that `Session::new` makes of these settings: no streams, nothing counted.',
    NEW_DEPACKETIZER: 'the first state of the depacketizer of a codec, or None for a codec without one.',
    READS: 'the RTP packet that these bytes are (RFC 3550, section 5.1), or the fault: the contract of `RtpPacket::parse`.',
    DEPACKETIZES: 'the contract of `Depacketizer::depacketize`: a depacketizer reads one more payload.',
    SENDS: 'the contract of `Sender::send`: the sender after this sample, and its datagrams.',
    REFUSES: 'the contract of `Sender::send` for a sample that it refuses.',
    KEEPS: 'the contract of `History::keep`: the history after this datagram.',
    RESENDS: 'the contract of `History::resend`: the history after this request, its answer, and the bytes of the retransmission.',
    NEW_HISTORY: 'the contract of `History::new`: the history with these settings before any datagram, or the setting that is out of range.',
}
PASSED_ON = 'the statement says that the receiver makes this step, and passes the step on: it holds for any step in its place.'
A_CALL = 'the run consists of such calls. Each call has this by its contract, so calls of the library meet this premise whatever the contract says.'
A_TABLE = 'a function of the codec: a table of first values.'
OF_BYTES = 'a function of the bytes, proved against a grammar of packets both ways (`reading_follows_the_grammars`). If it read nothing, no datagram could read as its packet.'
MET = 'a function of the settings, so no two receivers meet it. That a run with such a receiver meets the premises is proved ({}).'

FILES = {
    'SAFETY': {
        'statements': [(BUFFER, 'RunPromises', 'IsSafe')],
        'words': Words(
            'A run sends samples as RTP packets, pushes any of these packets into a buffer, each any number of times and in any order, and pops. `units_of_run` '
            'gives the units that the samples have; it depends on the packetizer, the samples and the steps alone. No pop returns a fault. The popped units are '
            'among these units, at strictly rising places: in sending order, each at most once. Each has exactly the bytes of its unit, and reports one push for '
            'each packet of the unit, by a step in front of the pop. One exception: of an AV1 unit without its first packets the buffer may release the rest, '
            'at least one OBU, without exactly the OBUs that these packets carry.',
            'The call returned Ok, so there was memory, and there is no RED. The packetizer is one of the library, in any state; the sink has sent nothing; the '
            'buffer has held nothing, with any limit; its depacketizer reads the packetizer\'s payloads, and one of VP9 has read no picture id. Samples of '
            'telephone events are empty or whole reports. `run_stream` makes packetizer, sink and buffer, and has this clause with the last premise alone.',
            'That a unit is released at all (COMPLETENESS.txt), or that none is lost silently (LOSS.txt).',
            'Part 1 is the theorem: the clause, `ReleasesInOrder`, and what follows it. Ask of each line which wrong buffer it lets through. Part 2 is the premise. Part 3 has '
            'the frames that give no packets. Parts 4 to 6 are appendices: the units of AV1 and of AMR-WB, and what lost packets of AV1 carry. No stop.'),
        'parts': [('the premise', ['IsFresh']), ('frames that give no packets, and the next ids', ['is_skipped', 'refusal_of', 'packetizer_after']),
                  ('the parts of a temporal unit of AV1', ['canonical_obus', 'av1_is_skipped', 'av1_refusal', 'frame_kept']),
                  ('the bytes of a frame of AMR-WB', ['amr_wb_is_skipped', 'amr_wb_refusal', 'bytes_of_frame', 'stored']),
                  ('the parts that lost packets of AV1 carry', ['CarryParts'])],
    },
    'COMPLETENESS': {
        'statements': [(BUFFER, 'RunPromises', 'IsExact')],
        'after': ['SAFETY'],
        'words': Words(
            'In a run as in SAFETY.txt whose packets are all pushed before the first pop, into a buffer with room for all, the first pop returns the first unit, '
            'the next pop the next one, each whole, and each pop after the last unit None.',
            'Those of SAFETY.txt, and `IsAllPushed`: the limit of the buffer is at least the number of packets that the run sends, and each of them is pushed '
            'by a step after it was sent, before the first pop.',
            'Anything about a run with a lost packet, or with a push that comes after a pop for the first time.',
            'SAFETY.txt first; what it explains is only named here. Then the clause, `ReleasesUnits`, and the rest. No stop.'),
    },
    'LOSS': {
        'statements': [(BUFFER, 'RunPromises', 'LosesNothingSilently'), (BUFFER, 'RunPromises', 'PassesOverPastGaps')],
        'after': ['SAFETY'],
        'stops': {DEPACKETIZES: 'it is part of the log alone. The theorem is about each log, so a weaker step makes it say more, and the clause `logged` of the same record says '
                                'that each run has a log. That a release has the bytes of its unit is in `IsUnitAt`, without it.'},
        'words': Words(
            'A log describes a run as in SAFETY.txt pop by pop: the buffer before and after each pop, the packets pushed since the previous pop, the frames that '
            'the pop skipped, its answer. For each log: a unit whose packets are all held before a pop is released whole by that pop or a later one; or one of '
            'these pops skips it; or it is held whole when the run ends; or a push after that pop evicts one of its packets (`evicted_in` says which packets, by '
            'numbers alone). And either no pop skips a frame, or there are 16,384 units in a row of which no pop released or skipped any, and each skipped frame '
            'comes after them.',
            'Those of SAFETY.txt. A log is no premise on the run: the field `logged` of the same record says that each such run has one.',
            'When a unit is released. Anything about a unit that is never held whole before a pop.',
            'SAFETY.txt first; what it explains is only named here. Part 1 has the bound on skips, and from `LosesNothingSilently` to `IsWholeAt` the fates of a unit. '
            'Part 2 is the log: `RunLog`, and from `IsLog` on what a pop does. It decides whether `skips` and `evicts` mean what you think: ask which packets a '
            'buffer could drop and still have a log. One stop: how depacketizers read payloads.'),
        'parts': [('the log', ['RunLog', 'IsLog'])],
    },
    'STREAM': {
        'statements': [(SESSION, 'Lives', 'IsAlone', 'run_new_session'), (SESSION, 'Endings', 'FinishesHaveCauses', 'finishes_have_causes')],
        'stops': {
            RECEIVES: PASSED_ON, ENDS: PASSED_ON, FOLLOWS: PASSED_ON + ' The rules and the edges before and after it are shown (`EdgesRun`).',
            POPS: PASSED_ON + ' What the pop answers, and that the session passes it on, is shown (`answer_of`, `NamesFault`, `released_by`).',
            NEW_RECEIVER: 'a function of the settings, so no two receivers meet it: the receiver has received nothing.',
            RUNS: 'it says which session there was when the stream began. The statement uses only its settings, which `pairs_alone` fixes except for the pairs, and that it had no such '
                  'stream (`absent`). The clause `runs` of the same function shows it for the whole run.',
            NEW_SESSION: 'a function of the settings. `run_new_session` makes the session itself, so it is no premise.',
            NEW_DEPACKETIZER: A_TABLE, READS: 'a function of the bytes, proved against a grammar of packets both ways (`reading_follows_the_grammars`).'},
        'without': {'codec_payload_session_stream.Streams.Begins': (
            ['edges', 'feedback', 'late', 'sender_clock', 'was_reported', 'name_ids', 'names', 'last', 'bytes', 'accepted', 'taken'],
            'The session keeps these beside the receiver; the statement uses the receiver alone.')},
        'words': Words(
            'Make a session and any calls of it: datagrams of anybody, polls, ends, reports. For each stream that it has after these calls: its receiver was new at the datagram '
            'with which the stream began, with the settings of its format and its SSRC. From there on the receiver made the calls `own`, one after another, and nothing else changed '
            'it (`alone`). `own` consists of a part for each call of the session (`projects`). What answers show of the stream is in it exactly (`shows`): the datagrams that '
            'answers give to its SSRC and payload type, and the pops whose events are its units, refused frames or units that are too large. The rest is what `IsMadeAs` allows: at '
            'most one pop, one end, one report and one pair for each call, and after each datagram the numbers that carry no media by the edges of the stream, which follow one another '
            'from none on (`edged`). Its events are in order, and none is an end (`tells`). The second clause says that the receiver was finished at '
            'most once, and only after a call that lets the stream end.',
            'The call returned Ok: the settings have no fault, and there was memory for the session and for the list of answers. Memory may run out in each call of the session.',
            'Which streams begin, or that a stream gets the datagrams that are meant for it (SESSIONS.md). That a receiver releases anything: DATAGRAMS.txt. Which `max_wait` within its '
            'range a datagram sets, and which streams a report is about: the clause `runs` of the function is exact. Datagrams for which memory ran out may come to the receiver, which they '
            'leave as it is.',
            'The clause, `IsAlone`, and each field of it in turn. Part 2 is what a call of the session makes of a receiver, part 3 the new receiver, part 4 the order of events.'),
        'parts': [('what a call of the session makes of a receiver', ['Projects', 'shown', 'shown_of', 'StartsWithDatagram']), ('the new receiver', ['Begins']),
                  ('events in order', ['AreOfOne', 'events_of'])],
    },
    'DATAGRAMS': {
        'statements': [(DATAGRAMS, 'Releases', 'ReleasesWithinWindows'), (DATAGRAMS, 'WireLogs', 'KeepsPromisesWithinWindows')],
        'after': ['SAFETY', 'COMPLETENESS', 'LOSS'],
        'stops': {NEW_RECEIVER: MET.format('`premises_can_be_met`'), READS: OF_BYTES,
                  DEPACKETIZES: 'as in LOSS.txt: the field `logged` says that each run has a log.'},
        'words': Words(
            'A sender sends samples as datagrams. Any of these are delivered to a receiver, each any number of times and in any order, with pops at any moments, and the stream may be '
            'finished. There is one list of units, those of the samples (`canonical`), and the sent datagrams read, one by one, as the packets of the list (`datagrams`). No pop returns a '
            'fault. The pops return units of the list, in order, each at most once, whole, with the exception for AV1 of SAFETY.txt, of packets whose datagrams were delivered before the '
            'pop. If the buffer has room for all datagrams, each is delivered before a `Finish`, and no pop comes before that, the pops return all units. Pop by pop (`KeepsPromises`): '
            'there is a log, and of the packets delivered between two pops the buffer holds the highest numbers, up to its limit. A unit that is held whole has the fates of LOSS.txt, '
            'and so has a unit whose packets were all delivered before a pop while the cutoff was below them.',
            'The call returned Ok. `IsWithinWindows`: the receiver is new, for the sender\'s codec, clock rate, payload type (not 64 to 95) and SSRC, without `FromKeyframe::Drop`; '
            'its stream of retransmissions is not the sender\'s own. The samples can be read again. Counted as they were sent, the first delivered datagram is among the first '
            '65,536, and each later one is less than `forward` above the highest delivered before it, and at most `backward` below. A delivered datagram that was sent before '
            'the first delivered one has an RTP time from 5 seconds before that of the first one up to it. Runs that meet this are proved (`premises_can_be_met`).',
            'When a pop returns a unit (INTIME.txt). Anything about datagrams of others, or altered ones. A unit above `max_unit` counts as popped, although the receiver answers `TooLarge`: `LargeUnits.antt` of codec_payload_timely_runs says of which units it does so.',
            'SAFETY.txt, then LOSS.txt; what they explain is only named here. Parts 1 and 2 are the theorem. Part 3 is the log with its waits, part 4 what is promised of each log, part 5 the '
            'values of header extensions.'),
        'parts': [('the premise', ['IsWithinWindows']), ('the log', ['WireLog']), ('what is promised of each log', ['AreStretches', 'AllFollowAsSaid', 'AllInTime', 'PopsAreBrought']),
                  ('the values of header extensions', ['HaveValuesOfSamples', 'HasValuesOf', 'values_read', 'elements_for'])],
    },
    'INTIME': {
        'statements': [(TIMELY, 'TimelyRuns', 'KeepsTimesWithinWindows', 'run_in_time')],
        'after': ['DATAGRAMS', 'SAFETY', 'COMPLETENESS', 'LOSS'],
        'words': Words(
            'A run as in DATAGRAMS.txt, whose receiver has a `max_wait`. A frame is due `max_wait` after its packet with the highest number arrived. `none_overdue`: if a pop answers None and '
            'leaves a unit that is held whole, a complete frame at or before the unit was not due. `in_time`: let pops come until None after each delivery and at each deadline. Take a unit and a '
            'time. By that time all packets of the unit came before a pop, while the cutoff was below them (`ComesBy`), and each complete frame at or before the unit is due (`AllDueBy`). Then '
            'a pop returns the unit whole by that time (`LeavesBy`), or skips it by then, or a packet of it was evicted, or the run ended before that time, with the unit held whole. `after_deliveries`: the same '
            'if, in place of `AllDueBy`, each delivery of a packet up to the last one of the unit was made `max_wait` before that time or earlier.',
            'The call returned Ok, and the premises of DATAGRAMS.txt. The limits of the receiver have a `max_wait` and stay as they are. For `in_time` also `PopsInTime`: times do not fall; after a delivery, and after a pop that '
            'returned a unit, the next delivery or pop has the same time, and there is one; after a pop that answered None, the next one comes by the deadline, or at once if that has '
            'passed, or the run ends. A run that meets this, with its log, is proved (`times_can_be_met`).',
            'Anything without `max_wait`, or if `max_wait` changes during the run. When a unit is skipped.',
            'DATAGRAMS.txt first; what it explains is only named here. Part 1 is the theorem, part 2 which pops are in time, part 3 the bound.'),
        'parts': [('pops in time', ['PopsInTimeFrom0']), ('the bound', ['ComesBy', 'AllDueBy'])],
    },
    'ANSWERED': {
        'statements': [(ANSWERED, 'AnsweredRuns', 'LostPacketsComeBack', 'lost_packets_come_back')],
        'after': ['INTIME', 'DATAGRAMS', 'SAFETY', 'COMPLETENESS', 'LOSS'],
        'stops': {
            RECEIVES: A_CALL, POPS: A_CALL, ENDS: A_CALL, SENDS: A_CALL, REFUSES: A_CALL, KEEPS: A_CALL, RESENDS: A_CALL, NEW_HISTORY: MET.format('`history_premises_can_be_met`'),
            READS: OF_BYTES, DEPACKETIZES: 'as in LOSS.txt: the field `logged` says that each run has a log.', NEW_RECEIVER: MET.format('`premises_can_be_met`')},
        'words': Words(
            'A sender sends samples as datagrams, and its history keeps them. Any of them are lost on the way to a receiver, or repeated, or reordered. The receiver requests the numbers that it '
            'misses, by the schedule of `NackSchedule`; the history answers requests; requests and answers may be lost too. If the network, the settings and the polls are as the premises say, '
            'then the pops return the units of the samples in turn: the first one that was sent, the second one, and so on, each whole, and none is left out (`in_turn`). And a unit whose '
            'datagrams all come is popped in time (`in_time`): let pops come until None after each delivery and at each deadline. Take a time such that each datagram up to the last one '
            'of the unit, of those that come, came `max_wait` before it or earlier. A pop returns the unit by that time, or the run ends before it.',
            'The run consists of calls, each with its answer as its contract says; memory did not run out. Those of DATAGRAMS.txt, of the deliveries of datagrams and retransmissions together; the '
            'codec does not send picture ids with TL0PICIDX. The history is new, has no `interval`, and the receiver\'s settings name its stream. `WaitsByTime`: the receiver waits by `max_wait` '
            'alone, without `hold_back`. `KeepsUp`: when a datagram comes, at most `limit` less `room` datagrams lie from the first one that was not popped yet up to it. So a run may be as long as it '
            'likes. `AllowsTries`: k is less than `tries`, the schedule follows as many numbers as the buffer has places, and `first_wait`, k waits between requests, the delay of a request, the delay '
            'of its answer, and `slack` for each poll are together less than `max_wait`. `AllowsAnswers` is about the network: times do not fall; a poll comes at most `slack` after each delivery and '
            'after each deadline of the schedule; the first datagram that comes is the first one that was sent; at each pop the first unit came whole, or neither its last '
            'datagram nor a later one came; no `Finish`; and for each datagram, of the first k + 1 requests one arrives within `delay`, before `limit` more datagrams were sent, and its answer arrives '
            'within `delay`. Values that meet the premises are proved (`answers_can_be_met`), and a test executes their run.',
            'That a datagram comes of which no later one came: nobody requests it, so no pop returns its unit or a later one. That requests travel as RTCP, which tests do. Anything about RED, sessions or '
            'forwarders, about a history with an `interval`, or about `hold_back`.',
            'DATAGRAMS.txt and INTIME.txt first; what they explain is only named here. Part 1 is the theorem, part 2 the run, part 3 the premises, part 4 the schedule, part 5 which numbers are missing. '
            'Ask of each premise whether you can know it without the receiver.'),
        'parts': [('the run', ['AnsweredRuns']), ('the premises', ['WaitsByTime', 'KeepsUp', 'AllowsTries', 'AnswersRequests']),
                  ('the schedule of requests', ['refreshed', 'due_numbers', 'after_due', 'after_answer', 'new_schedule', 'earliest_of']), ('which numbers are missing', ['missing_numbers'])],
    },
    'FORWARDED': {
        'statements': [(FORWARD, 'ForwardReleases', 'ForwardsPackets'), (FORWARD, 'ForwardReleases', 'ReleasesForwarded'), (FORWARD, 'ForwardReleases', 'KeepsPromisesForwarded')],
        'after': ['DATAGRAMS', 'SAFETY', 'COMPLETENESS', 'LOSS'],
        'stops': {NEW_RECEIVER: MET.format('`forwarding_premises_can_be_met`'), READS: OF_BYTES},
        'words': Words(
            'Datagrams of a sender come to a forwarder, in any order, each any number of times or never. What the forwarder writes comes to the receiver of a viewer in the same way. Each '
            'written datagram is `viewer_packet` of a datagram that came to the forwarder, byte for byte: the viewer\'s SSRC and payload type, number and time moved by offsets that '
            'all written datagrams share, no CSRCs and no header extension, the same marker and padding, the same payload except for moved picture ids of VP8 and VP9. The receiver '
            'then has a run as in DATAGRAMS.txt with the datagrams of one sender, `viewer_sender`, and all that DATAGRAMS.txt says of units (`released`) and pop by pop '
            '(`KeepsPromisesForwarded`) holds for this run. The units are those of the samples (`canonical`).',
            'The call returned Ok. For the written datagrams (`ForwardsStream`): the forwarder has not begun with the sender\'s stream, or has left out no packet of it, and no '
            'picture if ids are moved that close up. For the units also (`IsForwardedWithinWindows`): if the forwarder\'s codec is VP8 or VP9, the packetizer is of this codec; '
            'its payload type and SSRC have their widths; the receiver is new, for the viewer\'s stream; what is delivered to it is within its windows and timely; the samples can '
            'be read again. The way to the forwarder has no premise. That runs with stated results meet this is proved (`forwarding_premises_can_be_met`); a test finds these results.',
            'That the forwarder writes anything: one that waits for a keyframe for ever meets all of this. The clause `runs` of the function is exact. When a pop returns a unit.',
            'DATAGRAMS.txt first; what it explains is only named here. Then the clauses, `AreForwarded`, `viewer_packet` and `ReleasesToViewer`. The offsets are those of the forwarder after the '
            'run. Part 2 is the premise, part 3 the viewer\'s payload: how ids are moved.'),
        'parts': [('the premise', ['IsForwardedWithinWindows']), ("the viewer's packet, byte for byte", ['payload_for', 'payload_as', 'viewer_bytes'])],
    },
    'SERVED': {
        'statements': [(SERVER, 'ServeStoreReleases', 'ServesStoreAsSession'), (SERVER, 'ServeStoreReleases', 'ReleasesServedWithStore')],
        'after': ['FORWARDED', 'DATAGRAMS', 'STREAM', 'SAFETY', 'COMPLETENESS', 'LOSS'],
        'stops': {
            NEW_RECEIVER: MET.format('`serving_with_store_premises_can_be_met`'), READS: OF_BYTES,
            RUNS: 'a conclusion: the session makes a run of its calls (`runs`). No unit of the viewer depends on it.',
            NEW_SESSION: 'a function of the settings, in the premise of the fields `alone`, `ended` and `order` alone. `Session::new` makes such a session, so it can be met.'},
        'words': Words(
            'A media server. Datagrams of a sender, and retransmissions of them, come to a session, with any other calls of it in between. What the session takes as a datagram of the '
            'stream comes to a store and, once the viewer has joined, to a forwarder. The receiver of the viewer gets what the forwarder writes, requests numbers, and gets what is '
            'written again. The session makes a run of its calls; if it was new, each of its streams is a receiver alone, and its events are in order (`ServesStoreAsSession`, '
            'STREAM.txt). Each packet that is written again repeats a sent datagram as the viewer gets it, and what FORWARDED.txt says of the units holds here, of the datagrams that '
            'the session took (`ReleasesServedWithStore`): the pops of the viewer return units of the samples, in order, each at most once, whole, and pop by pop as in DATAGRAMS.txt.',
            'The call returned Ok. For all of the second clause: if retransmissions come, the stream is the sender\'s (`UnwrapsSender`); the store is empty before; the forwarder is as in '
            'FORWARDED.txt. For the units those of FORWARDED.txt, of the steps after the session (`store_steps_of`), and `AreHeard`: if the forwarder has a stream of retransmissions, the receiver\'s '
            'settings name it, with a payload type that is not 64 to 95. The first clause has no premise, except that its fields on streams and events need a new session. That a run '
            'with stated results meets all this is proved (`serving_with_store_premises_can_be_met`); a test finds these results.',
            'That the session takes a datagram, that the forwarder writes one, that a request is answered, and when.',
            'FORWARDED.txt and STREAM.txt first; what they explain is only named here. Part 1 is the theorem, part 2 the premises, part 3 the steps of the run behind the session, part 4 the calls of the session.'),
        'parts': [('the premises', ['IsStoredWithinWindows', 'UnwrapsStored']), ('the steps that viewer and store see', ['stored_steps_of', 'store_steps_of', 'store_steps']), ('the session', ['ServesStoreAsSession'])],
    },
}


def words_of(name):
    """The words in front of a file, as labelled paragraphs."""
    words = FILES[name]['words']
    return [('Says', words.says), ('Premises', words.premises), ('Does not say', words.not_said), ('How to read', words.reading)]

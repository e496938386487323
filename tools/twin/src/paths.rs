//! Paths to a viewer and offers to a publisher of both, side by side; the proved ones by shim_paths.c.

use super::Compared;
use super::input::Input;
use codec_payload::Ticks;
use codec_payload::bandwidth::{
    LayerChoice, OfferSettings, PacedKind, PacedPacket, PathSettings, RateOffer, ResendRefused,
    ViewerPath,
};
use codec_payload::congestion::{
    TransportFeedback, read_transport_feedback, write_transport_feedback, write_transport_packet,
};
use codec_payload::rtcp::CompoundRule;
use codec_payload::transport::{MessageKind, read_messages};
use std::ffi::c_void;

unsafe extern "C" {
    fn twin_path(now: u64, bound: u64) -> *mut c_void;
    fn twin_path_push(it: *mut c_void, kind: u32, size: u32, id: u64) -> u32;
    fn twin_path_pop(it: *mut c_void, now: u64, values: *mut u64) -> u32;
    fn twin_path_remove(it: *mut c_void, kind: u32, values: *mut u64) -> u32;
    fn twin_path_next_deadline(it: *mut c_void, deadline: *mut u64) -> u32;
    fn twin_path_resend(it: *mut c_void, now: u64, number: u16, size: u32, answer: *mut u32)
    -> u32;
    fn twin_path_feedback(it: *mut c_void, now: u64, rtcp: *const u8, size: usize) -> u32;
    fn twin_path_choose(
        it: *mut c_void,
        now: u64,
        rates: *const u64,
        count: usize,
        order: *mut u64,
    ) -> u32;
    fn twin_path_known(it: *mut c_void, values: *mut u64) -> u32;
    fn twin_path_lost(
        it: *mut c_void,
        rtcp: *const u8,
        size: usize,
        numbers: *mut u16,
        count: *mut usize,
    ) -> u32;
    fn twin_path_take_back(it: *mut c_void, number: u16) -> u32;
    fn twin_path_free(it: *mut c_void);
    fn twin_offer() -> *mut c_void;
    fn twin_offer_arrived(it: *mut c_void, now: u64, send_time: u32, size: u32) -> u32;
    fn twin_offer_arrived_by(it: *mut c_void, now: u64, sent: u64, size: u32) -> u32;
    fn twin_offer_lost(it: *mut c_void) -> u32;
    fn twin_offer_set_wants(it: *mut c_void, wants: u64) -> u32;
    fn twin_offer_take_due(it: *mut c_void, now: u64, round_trip: u64, rate: *mut u64) -> u32;
    fn twin_offer_free(it: *mut c_void);
}

const NONE: u32 = 32;
const ROUND_TRIP: u64 = 40_000;
const KINDS: [PacedKind; 4] = [
    PacedKind::Audio,
    PacedKind::Resent,
    PacedKind::Media,
    PacedKind::Padding,
];

struct Path(*mut c_void);

impl Drop for Path {
    fn drop(&mut self) {
        unsafe { twin_path_free(self.0) }
    }
}

struct Offer(*mut c_void);

impl Drop for Offer {
    fn drop(&mut self) {
        unsafe { twin_offer_free(self.0) }
    }
}

/// `None` for the status that says so.
fn some_if<T>(status: u32, value: T) -> Option<T> {
    assert!(status == 0 || status == NONE, "{status}");
    (status == 0).then_some(value)
}

fn number_of(kind: PacedKind) -> u64 {
    KINDS.iter().position(|it| *it == kind).expect("a kind") as u64
}

fn values_of(packet: PacedPacket) -> [u64; 3] {
    [packet.id, packet.size.into(), number_of(packet.kind)]
}

/// A time that mostly goes on a bit, and seldom jumps, also back.
fn next_time(input: &mut Input, now: u64) -> u64 {
    match input.byte() {
        255 => now.wrapping_add(u64::from(input.word()) << (input.byte() % 64)),
        254 => now.saturating_sub(u64::from(input.word())),
        step => now.saturating_add(u64::from(step) * 200),
    }
}

/// A packet of RTCP with feedback near the latest number, or on any.
fn feedback(input: &mut Input, latest: u16) -> Vec<u8> {
    let base = match input.byte() % 4 {
        0 => input.word(),
        back => latest.wrapping_sub(u16::from(input.byte()) / u16::from(back)),
    };
    let mut at = u32::from(input.word()) << 8;
    let count = 1 + usize::from(input.byte() % 40);
    let statuses = (0..count).map(|_| {
        let step = u32::from(input.byte());
        at = at.wrapping_add(step);
        (step % 5 != 0).then_some(at)
    });
    let statuses: Vec<Option<u32>> = statuses.collect();
    let first = statuses.iter().flatten().next();
    let reference = first.map_or(0, |at| at / 256 * 256);
    let (mut control, mut rtcp) = (Vec::new(), Vec::new());
    write_transport_feedback(base, reference, 0, &statuses, &mut control).expect("memory");
    write_transport_packet(1, 2, &control, &mut rtcp).expect("memory");
    rtcp
}

/// The first feedback of a datagram.
fn read(rtcp: &[u8]) -> Option<TransportFeedback> {
    let mut messages =
        read_messages(CompoundRule::ReducedSize, MessageKind::Transport, rtcp).ok()?;
    read_transport_feedback(messages.next()?.control).ok()
}

fn choices(input: &mut Input) -> Vec<LayerChoice> {
    let mut rate = 0;
    let count = usize::from(input.byte() % 9);
    let next = |_| {
        rate += u64::from(input.word()) * 8;
        LayerChoice {
            rate,
            begin: u64::from(input.byte()) * 4_000,
        }
    };
    (0..count).map(next).collect()
}

/// What both know.
fn known(ours: &ViewerPath, theirs: &Path, compared: &mut Compared) {
    let it = ours.statistics();
    let ours = [
        it.estimate,
        ours.waiting(),
        ours.choice() as u64,
        it.carries,
        it.standing,
        it.usual_losses,
        it.trial.map_or(0, |trial| trial.to),
        it.trial.is_some().into(),
        it.is_draining.into(),
    ];
    let mut values = [7; 9];
    assert_eq!(unsafe { twin_path_known(theirs.0, values.as_mut_ptr()) }, 0);
    compared.answers(Ok::<_, ()>(ours), Ok(values));
}

/// A feedback comes, of any packets.
fn hear(
    input: &mut Input,
    (now, latest): (u64, u16),
    ours: &mut ViewerPath,
    theirs: &Path,
    compared: &mut Compared,
) {
    let rtcp = feedback(input, latest);
    let Some(feedback) = read(&rtcp) else {
        return;
    };
    let (mut lost, mut numbers, mut count) = (Vec::new(), [0; 64], 0);
    ours.append_lost(&feedback, &mut lost).expect("memory");
    let status = unsafe {
        twin_path_lost(
            theirs.0,
            rtcp.as_ptr(),
            rtcp.len(),
            numbers.as_mut_ptr(),
            &mut count,
        )
    };
    assert_eq!(status, 0);
    compared.answers(Ok::<_, ()>(lost), Ok(numbers[..count].to_vec()));
    ours.feedback(Ticks(now), ROUND_TRIP, &feedback)
        .expect("memory");
    let status = unsafe { twin_path_feedback(theirs.0, now, rtcp.as_ptr(), rtcp.len()) };
    assert_eq!(status, 0);
}

/// Chooses layers with both.
fn choose(
    input: &mut Input,
    now: u64,
    ours: &mut ViewerPath,
    theirs: &Path,
    compared: &mut Compared,
) {
    let all = choices(input);
    let order = ours.choose(Ticks(now), &all);
    let rates: Vec<u64> = all.iter().flat_map(|it| [it.rate, it.begin]).collect();
    let mut values = [7; 4];
    let status = unsafe {
        twin_path_choose(
            theirs.0,
            now,
            rates.as_ptr(),
            all.len(),
            values.as_mut_ptr(),
        )
    };
    assert_eq!(status, 0);
    let ours = [
        order.choice as u64,
        order.padding.into(),
        order.fell.into(),
        order.rose.into(),
    ];
    compared.answers(Ok::<_, ()>(ours), Ok(values));
}

/// Removes the packet that leaves now, and seldom takes it back. Returns the latest number.
fn pop(
    input: &mut Input,
    now: u64,
    ours: &mut ViewerPath,
    theirs: &Path,
    compared: &mut Compared,
) -> Option<u16> {
    let leaving = ours.pop(Ticks(now));
    let mut values = [7; 4];
    let status = unsafe { twin_path_pop(theirs.0, now, values.as_mut_ptr()) };
    let of = leaving.map(|it| {
        let [id, size, kind] = values_of(it.packet);
        [id, size, kind, it.number.into()]
    });
    compared.answers(Ok::<_, ()>(of), Ok(some_if(status, values)));
    let number = leaving?.number;
    if input.byte() == 7 {
        let status = unsafe { twin_path_take_back(theirs.0, number) };
        compared.answers(
            Ok::<_, ()>(ours.take_back(number)),
            Ok(some_if(status, ()).is_some()),
        );
    }
    Some(number)
}

fn resend(
    input: &mut Input,
    now: u64,
    ours: &mut ViewerPath,
    theirs: &Path,
    compared: &mut Compared,
) {
    let (number, size) = (input.word() % 64, u32::from(input.word()));
    let mut answer = 7;
    let status = unsafe { twin_path_resend(theirs.0, now, number, size, &mut answer) };
    assert_eq!(status, 0);
    let ours = match ours.resend(Ticks(now), number, size, ROUND_TRIP) {
        Ok(()) => 0,
        Err(ResendRefused::TooSoon) => 1,
        Err(ResendRefused::Share) => 2,
        Err(ResendRefused::TooMany) => 3,
        Err(_) => 4,
    };
    compared.answers(Ok::<_, ()>(ours), Ok(answer));
}

/// Packets of a viewer wait and leave, feedback comes, and layers are chosen.
pub fn paths(input: &mut Input, compared: &mut Compared) {
    let mut settings = PathSettings::live();
    settings.pacer.bound = u64::from(input.word()) * 4;
    let theirs = Path(unsafe { twin_path(0, settings.pacer.bound) });
    assert!(!theirs.0.is_null());
    let mut ours = ViewerPath::new(Ticks(0), settings).expect("memory");
    let (mut now, mut latest, mut id) = (0, 0, 0);
    while !input.is_empty() {
        now = next_time(input, now);
        match input.byte() % 8 {
            0 | 1 => {
                let kind = input.byte() % 4;
                let size = u32::from(input.word() % 2_000);
                id += 1;
                let packet = PacedPacket {
                    kind: KINDS[usize::from(kind)],
                    size,
                    id,
                };
                let status = unsafe { twin_path_push(theirs.0, kind.into(), size, id) };
                let answer = if status == 0 { Ok(()) } else { Err(status) };
                compared.answers(ours.push(packet), answer);
            }
            2 | 3 => {
                latest = pop(input, now, &mut ours, &theirs, compared).unwrap_or(latest);
            }
            4 | 5 => hear(input, (now, latest), &mut ours, &theirs, compared),
            6 => choose(input, now, &mut ours, &theirs, compared),
            _ if input.byte() % 4 > 0 => resend(input, now, &mut ours, &theirs, compared),
            _ => {
                let kind = input.byte() % 4;
                let mut values = [7; 3];
                let status =
                    unsafe { twin_path_remove(theirs.0, kind.into(), values.as_mut_ptr()) };
                let of = ours.remove(KINDS[usize::from(kind)]).map(values_of);
                compared.answers(Ok::<_, ()>(of), Ok(some_if(status, values)));
            }
        }
        known(&ours, &theirs, compared);
        let mut deadline = 7;
        let status = unsafe { twin_path_next_deadline(theirs.0, &mut deadline) };
        let of = ours.next_deadline().map(|at| at.0);
        compared.answers(Ok::<_, ()>(of), Ok(some_if(status, deadline)));
    }
}

/// Packets of a publisher arrive or are lost, and a rate is offered.
pub fn offers(input: &mut Input, compared: &mut Compared) {
    let theirs = Offer(unsafe { twin_offer() });
    assert!(!theirs.0.is_null());
    let mut ours = RateOffer::new(OfferSettings::live());
    let mut now = 0;
    while !input.is_empty() {
        now = next_time(input, now);
        let size = u32::from(input.word());
        let status = match input.byte() % 5 {
            0 | 1 => {
                let sent = u32::from(input.word()) << 8 | u32::from(input.byte());
                ours.arrived(Ticks(now), sent, size);
                unsafe { twin_offer_arrived(theirs.0, now, sent, size) }
            }
            2 => {
                let sent = next_time(input, now);
                ours.arrived_by(Ticks(now), sent, size);
                unsafe { twin_offer_arrived_by(theirs.0, now, sent, size) }
            }
            3 => {
                ours.lost();
                unsafe { twin_offer_lost(theirs.0) }
            }
            _ => {
                let wants = u64::from(input.word()) * 100;
                ours.set_wants(wants);
                unsafe { twin_offer_set_wants(theirs.0, wants) }
            }
        };
        assert_eq!(status, 0);
        let mut rate = 7;
        let round_trip = u64::from(input.byte()) * 1_000;
        let status = unsafe { twin_offer_take_due(theirs.0, now, round_trip, &mut rate) };
        let of = ours.take_due(Ticks(now), round_trip);
        compared.answers(Ok::<_, ()>(of), Ok(some_if(status, rate)));
    }
}

//! A forwarder that leaves each second frame of VP8 with picture ids out. The frames that it leaves out come to it whole and in
//! order; the others are lost and repeated on both hops, and reordered on the second. The viewer's numbers and ids have no gaps, and
//! all other frames whose datagrams came over both hops are released.

use crate::Fail;
use crate::forwarded::{copies, following, popped_in};
use crate::with_ids::{FIRST_IDS, frame_of, link_from, samples};
use codec_payload::forward::Forwarded;
use codec_payload::rtp::RtpPacket;
use codec_payload::schedule::forwarded::{
    ForwardStep, ForwardedRun, LeaveStep, run_forwarded_leaving_out,
};
use codec_payload::wire::Ticks;

/// How many frames there are.
const FRAMES: usize = 200;

/// The frames with an odd index are left out.
pub fn is_left_out(datagram: usize) -> bool {
    (datagram / 2) % 2 != 0
}

/// The steps, and the outcome of each datagram.
struct Schedule {
    steps: Vec<LeaveStep>,
    /// Which datagram each written one is.
    written: Vec<usize>,
    /// The datagram with which the forwarder begins.
    begun: Option<usize>,
    /// Whether each datagram came to the viewer.
    came: Vec<bool>,
}

impl Schedule {
    fn plain(&mut self, step: ForwardStep) {
        self.steps.push(LeaveStep::Plain(step));
    }

    /// The datagram comes to the forwarder.
    fn forward(&mut self, datagram: usize) {
        let now = datagram as u64 * 1_500;
        self.plain(ForwardStep::Forward { datagram, now });
        if self.begun.is_none() && datagram % 16 == 0 {
            self.begun = Some(datagram);
        }
        if self.begun.is_some() {
            self.written.push(datagram);
        }
    }

    /// A block of eight frames is sent, comes to the forwarder in order and to the viewer in another order, and is popped.
    fn block(&mut self, block: usize, seed: &mut u32) {
        let before = self.written.len();
        for frame in 8 * block..8 * block + 8 {
            self.plain(ForwardStep::Send(frame));
        }
        for datagram in 16 * block..16 * block + 16 {
            if is_left_out(datagram) {
                self.steps.push(LeaveStep::LeaveOut { datagram });
                continue;
            }
            for _ in 0..copies(seed, true) {
                self.forward(datagram);
            }
        }
        for written in (before..self.written.len()).rev() {
            for _ in 0..copies(seed, true) {
                self.came[self.written[written]] = true;
                let now = Ticks(0);
                self.plain(ForwardStep::Deliver { written, now });
            }
        }
        for _ in 0..9 {
            self.plain(ForwardStep::Pop { now: Ticks(0) });
        }
    }

    /// The bytes of all frames whose datagrams both came.
    fn wanted(&self) -> Vec<u8> {
        let frames = self.came.chunks(2).enumerate();
        let whole = frames.filter(|(_, came)| came[0] && came[1]);
        whole.flat_map(|(index, _)| frame_of(index)).collect()
    }
}

fn schedule_of(mut seed: u32) -> Schedule {
    following(&mut seed);
    let mut schedule = Schedule {
        steps: Vec::new(),
        written: Vec::new(),
        begun: None,
        came: vec![false; FRAMES * 2],
    };
    for block in 0..FRAMES / 8 {
        schedule.block(block, &mut seed);
    }
    schedule
}

fn run_of(id: u16, schedule: &Schedule) -> Result<ForwardedRun, Fail> {
    let mut link = link_from(id)?;
    Ok(run_forwarded_leaving_out(
        &mut link,
        &samples(FRAMES),
        &schedule.steps,
    )?)
}

/// The picture id of a payload: one byte, or two if the highest bit of the first is set (RFC 7741, section 4.2).
fn id_of(payload: &[u8]) -> u16 {
    match payload[2] {
        wide if wide & 0x80 != 0 => u16::from_be_bytes([wide & 0x7f, payload[3]]),
        narrow => u16::from(narrow),
    }
}

#[test]
fn other_frames_come_out() -> Result<(), Fail> {
    for seed in 0..10 {
        for first_id in FIRST_IDS {
            let schedule = schedule_of(seed);
            let run = run_of(first_id, &schedule)?;
            assert!(!schedule.wanted().is_empty());
            assert_eq!(popped_in(&run)?, schedule.wanted(), "seed {seed}");
            assert!(!run.answers.contains(&Forwarded::Filled));
        }
    }
    Ok(())
}

/// The numbers and ids of the written datagrams have no gaps. The forwarder began with the datagram `begun`; `written` has the datagram
/// that each written one is.
pub fn close_up(run: &ForwardedRun, begun: usize, written: &[usize]) -> Result<(), Fail> {
    assert_eq!(run.written.len(), written.len());
    for (bytes, datagram) in run.written.iter().zip(written) {
        let got = RtpPacket::parse(bytes)?;
        let sent = RtpPacket::parse(&run.run.datagrams[*datagram])?;
        // Two of each four datagrams since the first one are left out.
        let place = (begun..*datagram).filter(|it| !is_left_out(*it)).count();
        let number = 65_000u16.wrapping_add(place as u16);
        assert_eq!(got.header.sequence_number, number);
        let wide = sent.payload[2] & 0x80 != 0;
        assert_eq!(got.payload.len(), sent.payload.len());
        let frame = (place / 2) as u16;
        assert_eq!(id_of(got.payload), if wide { frame } else { frame % 0x80 });
    }
    Ok(())
}

#[test]
fn numbers_and_ids_close_up() -> Result<(), Fail> {
    for first_id in FIRST_IDS {
        let schedule = schedule_of(u32::from(first_id));
        let run = run_of(first_id, &schedule)?;
        let begun = schedule.begun.ok_or("nothing is forwarded")?;
        close_up(&run, begun, &schedule.written)?;
    }
    Ok(())
}

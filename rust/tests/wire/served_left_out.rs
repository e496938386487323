//! A media server that leaves each second frame of VP8 with picture ids out: its session gets the datagrams, beside those of other
//! senders, RTCP and malformed ones, some as retransmissions. The frames that are left out come to it whole and in order; the others are
//! lost and repeated on both hops, and reordered on the second. What comes is compared with a plain model.

use crate::Fail;
use crate::forwarded::{BLOCKS, copies, popped_in};
use crate::forwarded_left_out::{close_up, is_left_out};
use crate::served::{LEAVES, Plan, STREAM, session, taken_by};
use crate::served_again::{OPUS_AGAIN, at, now_of};
use crate::with_ids::{FIRST_IDS, frame_of, link_from, samples};
use codec_payload::codec::NoBox;
use codec_payload::forward::Forwarded;
use codec_payload::schedule::served::{
    ServeLeaveStep, ServeLink, ServeStep, ServedRun, run_served_leaving_out,
};
use codec_payload::session::runs::SessionStep;
use codec_payload::wire::Ticks;

fn link_of(id: u16) -> Result<ServeLink<NoBox, NoBox>, Fail> {
    Ok(ServeLink {
        link: link_from(id)?,
        session: session()?,
        stream: STREAM,
    })
}

/// The steps, and a plain model of the media server.
struct LeavePlan {
    plan: Plan,
    steps: Vec<ServeLeaveStep>,
}

impl LeavePlan {
    /// The steps of the media server so far become steps of a run that leaves packets out.
    fn serve(&mut self) {
        let steps = self.plan.steps.drain(..);
        self.steps.extend(steps.map(ServeLeaveStep::Plain));
    }

    /// A datagram of a frame that is left out comes to the session.
    fn leave_out(&mut self, block: usize, datagram: usize, seed: &mut u32) {
        self.serve();
        let written = self.plan.written.len();
        let place = block >= LEAVES;
        self.plan.come(now_of(block), datagram, place, seed);
        self.plan.written.truncate(written);
        let steps = self.plan.steps.drain(..);
        self.steps.extend(steps.map(ServeLeaveStep::LeaveOut));
    }

    /// A block of eight frames is sent, comes to the media server in order and to the viewer in another order, and is popped.
    fn block(&mut self, block: usize, seed: &mut u32) {
        let before = self.plan.written.len();
        self.plan.beside(block, now_of(block));
        let frames = 8 * block..8 * block + 8;
        self.plan.steps.extend(frames.map(ServeStep::Send));
        for datagram in 16 * block..16 * block + 16 {
            if is_left_out(datagram) {
                self.leave_out(block, datagram, seed);
                continue;
            }
            for _ in 0..copies(seed, true) {
                let place = block >= LEAVES;
                self.plan.come(now_of(block), datagram, place, seed);
            }
        }
        for written in (before..self.plan.written.len()).rev() {
            for _ in 0..copies(seed, true) {
                self.plan.came[self.plan.written[written]] = true;
                let now = Ticks(0);
                self.plan.steps.push(ServeStep::Deliver { written, now });
            }
        }
        let pops = (0..9).map(|_| ServeStep::Pop { now: Ticks(0) });
        self.plan.steps.extend(pops);
        self.serve();
    }

    /// The bytes of all frames whose datagrams both came.
    fn wanted(&self) -> Vec<u8> {
        let frames = self.plan.came.chunks(2).enumerate();
        let whole = frames.filter(|(_, came)| came[0] && came[1]);
        whole.flat_map(|(index, _)| frame_of(index)).collect()
    }
}

fn plan_of(mut seed: u32) -> LeavePlan {
    let mut plan = LeavePlan {
        plan: Plan::empty(),
        steps: Vec::new(),
    };
    for block in 0..BLOCKS {
        plan.block(block, &mut seed);
    }
    plan
}

/// The steps of the media server itself.
fn served(plan: &LeavePlan) -> impl Iterator<Item = &ServeStep> {
    plan.steps.iter().map(|step| match step {
        ServeLeaveStep::Plain(step) | ServeLeaveStep::LeaveOut(step) => step,
    })
}

fn run_of(id: u16, plan: &LeavePlan) -> Result<ServedRun, Fail> {
    let mut link = link_of(id)?;
    let run = run_served_leaving_out(&mut link, &samples(BLOCKS * 8), &plan.steps)?;
    assert_eq!(taken_by(&run.answers, served(plan)), plan.plan.taken);
    assert_eq!(link.session.counts().rtcp, BLOCKS as u64);
    Ok(run)
}

#[test]
fn other_frames_come_out() -> Result<(), Fail> {
    for seed in 0..10 {
        for first_id in FIRST_IDS {
            let plan = plan_of(seed);
            let run = run_of(first_id, &plan)?;
            assert!(plan.wanted().len() > 100);
            assert_eq!(popped_in(&run.run)?, plan.wanted(), "seed {seed}");
            assert!(run.run.answers.contains(&Forwarded::LeftOut));
            assert!(!run.run.answers.contains(&Forwarded::Filled));
        }
    }
    Ok(())
}

#[test]
fn numbers_and_ids_close_up() -> Result<(), Fail> {
    for first_id in FIRST_IDS {
        let plan = plan_of(u32::from(first_id));
        let run = run_of(first_id, &plan)?;
        let begun = plan.plan.begun.ok_or("nothing is forwarded")?;
        close_up(&run.run, begun, &plan.plan.written)?;
    }
    Ok(())
}

/// The steps of the theorem `serving_leaving_out_premises_can_be_met`: the second datagram is lost on the first hop, comes as a retransmission, and is
/// left out. The viewer gets the other two in another order.
pub fn steps_of_theorem() -> Vec<ServeLeaveStep> {
    let arrive = |datagram, time| ServeStep::Arrive {
        datagram,
        at: at(time),
    };
    let deliver = |written, now| ServeStep::Deliver {
        written,
        now: Ticks(now),
    };
    let pop = || ServeStep::Pop { now: Ticks(44) };
    let call = SessionStep::Poll { now: Ticks(40) };
    let repeat = ServeStep::Repeat {
        datagram: 1,
        again: OPUS_AGAIN,
        at: at(960),
    };
    let first = vec![
        ServeStep::Send(0),
        arrive(0, 0),
        ServeStep::Send(1),
        ServeStep::Call(call),
    ];
    let third = vec![ServeStep::Send(2), arrive(2, 1_920)];
    let viewer = vec![
        deliver(1, 40),
        deliver(0, 41),
        ServeStep::Finish,
        pop(),
        pop(),
    ];
    let mut steps: Vec<_> = first.into_iter().map(ServeLeaveStep::Plain).collect();
    steps.push(ServeLeaveStep::LeaveOut(repeat));
    let later = third.into_iter().chain(viewer);
    steps.extend(later.map(ServeLeaveStep::Plain));
    steps
}

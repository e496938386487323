//! Does what lines say.

use crate::line::{Event, Line};
use crate::parts::packet_lines;
use crate::print::{
    counters_line, deadline_line, missing_line, popped_line, report_line, sent_lines, word_of,
};
use crate::setup::{Draft, SenderSetup, sender_of};
use codec_payload::sender::{Sample, Sender};
use codec_payload::stream::{ReceiveError, Receiver};
use codec_payload::{ExtensionValues, Frequency, MediaTime, Ticks};

/// A sender, and the rate of the clock that its samples count.
struct TimedSender {
    sender: Sender,
    rate: Frequency,
}

/// A receiver and a sender, once lines have made them, and what the lines printed so far.
#[derive(Default)]
pub struct Player {
    draft: Option<Draft>,
    receiver: Option<Receiver>,
    sender: Option<TimedSender>,
    pub text: String,
}

impl Player {
    /// Does what a line says. `None` if the line is not allowed there.
    pub fn play(&mut self, line: Line) -> Option<()> {
        match line {
            Line::Stream(stream) => self.draft = Some(Draft::new(stream)),
            Line::Set(setting) => self.draft.as_mut()?.set(setting),
            Line::Receive => self.make_receiver()?,
            Line::Send(setup) => self.make_sender(setup)?,
            Line::Event(event) => self.ask(event)?,
            Line::Datagram { now, bytes } => self.receive(now, &bytes)?,
            Line::Packet(bytes) => self.text += &packet_lines(&bytes),
            Line::Sample {
                time,
                talk_spurt,
                bytes,
            } => self.send(time, talk_spurt, &bytes)?,
        }
        Some(())
    }

    fn print(&mut self, line: &str) {
        self.text.push_str(line);
        self.text.push('\n');
    }

    /// A receiver of the settings replaces the previous one.
    fn make_receiver(&mut self) -> Option<()> {
        match self.draft.take()?.receiver()? {
            Ok(receiver) => self.receiver = Some(receiver),
            Err(fault) => self.print(&format!("refused: {fault}")),
        }
        Some(())
    }

    /// A sender replaces the previous one.
    fn make_sender(&mut self, setup: SenderSetup) -> Option<()> {
        let rate = setup.stream.spec.clock_rate;
        match sender_of(setup)? {
            Ok(sender) => self.sender = Some(TimedSender { sender, rate }),
            Err(fault) => self.print(&format!("refused: {fault}")),
        }
        Some(())
    }

    fn receive(&mut self, now: u64, bytes: &[u8]) -> Option<()> {
        let line = match self.receiver.as_mut()?.receive(Ticks(now), bytes) {
            Ok(outcome) => word_of(outcome).into(),
            Err(ReceiveError::Rtp(fault)) => format!("malformed: {fault}"),
            Err(fault) => format!("malformed: {fault}"),
        };
        self.print(&line);
        Some(())
    }

    fn send(&mut self, time: u64, talk_spurt: bool, bytes: &[u8]) -> Option<()> {
        let timed = self.sender.as_mut()?;
        let sample = Sample {
            rtp_time: MediaTime::new(time, timed.rate),
            bytes,
            start_of_talk_spurt: talk_spurt,
            ext_vals: ExtensionValues::default(),
        };
        let answer = timed.sender.send(&sample);
        self.text += &sent_lines(answer, &timed.sender);
        Some(())
    }

    fn ask(&mut self, event: Event) -> Option<()> {
        let receiver = self.receiver.as_mut()?;
        let line = match event {
            Event::Pop(now) => {
                let popped = receiver.pop(Ticks(now));
                popped_line(popped, receiver.unit_time())
            }
            Event::Deadline => deadline_line(receiver.next_deadline()),
            Event::Missing(most) => missing_line(receiver.missing(most)),
            Event::Counters => counters_line(&receiver.counters(), receiver.held()),
            Event::Report => report_line(receiver.report()),
            Event::Finish => {
                receiver.finish().ok()?;
                return Some(());
            }
            Event::Restart => {
                receiver.restart();
                return Some(());
            }
        };
        self.print(&line);
        Some(())
    }
}

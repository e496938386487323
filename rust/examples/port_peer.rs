//! The receiving side of a call: all streams of a port, by the session description of the sender. The session requests missing
//! packets and keyframes, and reports losses each second and arrivals each 100 ms; this program sends its packets, and prints a line for
//! each event, that of a unit with the time in milliseconds. If the description has `red` and `ulpfec` of video, a port with FEC is in
//! front of the session. `tools/chromium/chromium_peer.py` runs it against Chromium:
//!
//! ```sh
//! cargo run --example port_peer OFFER ADDRESS [INTERVAL] [GRAIN]
//! ```
//!
//! - OFFER is a file with the session description (SDP); ADDRESS receives the feedback. Without them the program says so.
//! - INTERVAL is the number of milliseconds between two reports of arrivals, GRAIN that of microseconds to which their times are
//!   rounded down, to see what a coarse clock costs.
//! - The first line is `port` and its number. An empty datagram ends the program.
//! - The SSRCs of retransmissions are those of the offer (`sdp::session_settings`). For a sender that joins later, a program with
//!   signalling passes `sdp::pairs` of the new offer to `Session::add_pair`; this one has none.

use codec_payload::fec::FecPort;
use codec_payload::{Clock, Event, FeedbackSettings, Session, Ticks, sdp};
use std::error::Error;
use std::io::{self, ErrorKind, Write};
use std::net::{Ipv4Addr, UdpSocket};
use std::num::NonZero;
use std::time::{Duration, Instant};

type Failure = Box<dyn Error>;

const OWN_SSRC: u32 = 1;
/// The longest sleep.
const LONGEST_SLEEP: Duration = Duration::from_millis(100);

/// All streams of a port, and what is sent back.
struct Peer {
    /// The port with FEC, if the description has FEC, and memory for a packet.
    port: Option<FecPort>,
    plain: Vec<u8>,
    session: Session,
    /// When the clock of arrivals began.
    start: Instant,
    /// Times of arrival are multiples of it, in microseconds.
    grain: u64,
    /// The packets of RTCP to send.
    feedback: Vec<Vec<u8>>,
}

impl Peer {
    fn new(offer: &str, interval: Option<u64>, grain: u64) -> Result<Peer, Failure> {
        let media = sdp::read(offer)?;
        let mut settings = sdp::session_settings(&media)?;
        let port = sdp::fec_port_settings(&media)?.map(FecPort::new);
        settings.feedback = Some(FeedbackSettings::live(OWN_SSRC, b"me@host".to_vec()));
        if let (Some(transport), Some(interval)) = (&mut settings.transport, interval) {
            transport.interval = interval;
        }
        Ok(Peer {
            port: port.transpose()?,
            plain: Vec::new(),
            session: Session::new(settings)?,
            start: Instant::now(),
            grain,
            feedback: Vec::new(),
        })
    }

    /// Passes a datagram, and what is rebuilt, to the session.
    fn receive(&mut self, now: Ticks, datagram: &[u8]) -> Result<(), Failure> {
        let micros = self.start.elapsed().as_micros() as u64 / self.grain * self.grain;
        let Some(port) = &mut self.port else {
            self.session.receive_at(now, micros, datagram)?;
            return Ok(());
        };
        let passed = port.receive(datagram, &mut self.plain)?;
        let bytes = passed.bytes(datagram, &self.plain);
        self.session.receive_at(now, micros, bytes)?;
        while let Some(packet) = port.next_rebuilt()? {
            self.session.receive_at(now, micros, &packet)?;
        }
        Ok(())
    }

    /// Prints the events that are due, and keeps the feedback.
    fn poll(&mut self, now: Ticks, out: &mut impl Write) -> Result<(), Failure> {
        while let Some(event) = self.session.poll(now) {
            match event {
                Event::Begun {
                    ssrc, payload_type, ..
                } => writeln!(out, "begun {ssrc} {payload_type}")?,
                Event::Unit {
                    ssrc,
                    payload_type,
                    rtp_time,
                    decodable,
                    keyframe,
                    unit: Ok(unit),
                } => {
                    let time = rtp_time.ok_or("a unit has a time")?;
                    let (shown, key) = (u8::from(decodable), u8::from(keyframe));
                    write!(out, "unit {ssrc} {payload_type} {time} {shown} {key} ")?;
                    for byte in unit.bytes {
                        write!(out, "{byte:02x}")?;
                    }
                    writeln!(out, " {}", now.0)?;
                }
                Event::Unit { unit: Err(e), .. } => return Err(e.into()),
                Event::Refused { fault, .. } => writeln!(out, "fault {fault}")?,
                Event::TooLarge { unit, .. } => {
                    writeln!(out, "too large: {} bytes", unit.bytes.len())?
                }
                Event::Feedback { packet, .. }
                | Event::Report { packet }
                | Event::TransportFeedback { packet } => self.feedback.push(packet?),
                Event::Telephone { .. } => {}
                Event::Ended {
                    ssrc, payload_type, ..
                } => writeln!(out, "ended {ssrc} {payload_type}")?,
                _ => {}
            }
        }
        Ok(())
    }

    /// How long to wait for the next datagram.
    fn sleep(&self, clock: &Clock) -> Duration {
        let sleep = self.session.next_deadline().map(|at| clock.time_left(at));
        // A timeout of 0 is an error.
        sleep
            .unwrap_or(LONGEST_SLEEP)
            .clamp(Duration::from_millis(1), LONGEST_SLEEP)
    }
}

/// Receives all datagrams that the socket has, and waits for the first one. Returns whether to go on: an empty datagram is the end.
///
/// Poll behind the last one: if the program was held up, a missing packet may be among them.
fn receive_all(peer: &mut Peer, socket: &UdpSocket, clock: &Clock) -> Result<bool, Failure> {
    let mut datagram = [0; 2_048];
    socket.set_nonblocking(false)?;
    socket.set_read_timeout(Some(peer.sleep(clock)))?;
    loop {
        match socket.recv(&mut datagram) {
            Ok(0) => return Ok(false),
            Ok(size) => {
                peer.receive(clock.now(), &datagram[..size])?;
            }
            Err(why) if matches!(why.kind(), ErrorKind::WouldBlock | ErrorKind::TimedOut) => {
                return Ok(true);
            }
            // The program was stopped and continues.
            Err(why) if why.kind() == ErrorKind::Interrupted => {}
            Err(why) => return Err(why.into()),
        }
        socket.set_nonblocking(true)?;
    }
}

/// Receives until an empty datagram arrives.
fn run(offer: &str, address: &str, interval: Option<u64>, grain: u64) -> Result<(), Failure> {
    let socket = UdpSocket::bind((Ipv4Addr::LOCALHOST, 0))?;
    let mut out = io::stdout().lock();
    writeln!(out, "port {}", socket.local_addr()?.port())?;
    out.flush()?;
    let clock = Clock::new();
    let mut peer = Peer::new(offer, interval, grain)?;
    while receive_all(&mut peer, &socket, &clock)? {
        peer.poll(clock.now(), &mut out)?;
        for feedback in peer.feedback.drain(..) {
            socket.send_to(&feedback, address)?;
        }
    }
    peer.session.finish(clock.now());
    peer.poll(clock.now(), &mut out)?;
    if let Some(port) = &peer.port {
        writeln!(out, "fec {:?}", port.counts())?;
    }
    writeln!(out, "counts {:?}", peer.session.counts())?;
    Ok(())
}

fn main() -> Result<(), Failure> {
    let words: Vec<String> = std::env::args().skip(1).collect();
    let [offer, address, more @ ..] = &words[..] else {
        println!("port_peer OFFER ADDRESS [INTERVAL] [GRAIN]: see tools/chromium/chromium_peer.py");
        return Ok(());
    };
    let interval = more.first().map(|word| word.parse()).transpose()?;
    let grain = more
        .get(1)
        .map_or(Ok(1), |word| word.parse::<NonZero<u64>>().map(NonZero::get))?;
    run(&std::fs::read_to_string(offer)?, address, interval, grain)
}

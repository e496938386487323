//! Times of packets that arrive in other orders than they were sent, some of which only an attacker would choose, and the memory that
//! held packets take:
//!
//!   orders HELD ROUNDS     nanoseconds of a packet, for each order: a copy of its bytes, the buffer, a map
//!   orders memory          bytes and allocations, for buffers that hold 0 to 65,536 packets of Opus
//!   orders spike           the longest pop that a peer can cause before 60,000 packets that are no frame; fails above 2,000 nanoseconds
//!
//! All forms take turns in one run, and the least time of each counts. The map is a `BTreeMap` of the same packets, which looks for no
//! frames and releases in order.

use codec_payload::{
    Codec, CodecDepacketizer, DepacketizingBuffer, MediaTime, PoppedUnit, Pt, RtpMeta, SeqNo, Ticks,
};
use std::alloc::{GlobalAlloc, Layout, System};
use std::collections::BTreeMap;
use std::hint::black_box;
use std::sync::atomic::{AtomicUsize, Ordering::Relaxed};
use std::time::Instant;

/// Counts bytes and allocations.
struct Counting;

static BYTES: AtomicUsize = AtomicUsize::new(0);
static BLOCKS: AtomicUsize = AtomicUsize::new(0);

// SAFETY: each call is the system's, with the same arguments.
unsafe impl GlobalAlloc for Counting {
    unsafe fn alloc(&self, layout: Layout) -> *mut u8 {
        BYTES.fetch_add(layout.size(), Relaxed);
        BLOCKS.fetch_add(1, Relaxed);
        unsafe { System.alloc(layout) }
    }

    unsafe fn dealloc(&self, place: *mut u8, layout: Layout) {
        BYTES.fetch_sub(layout.size(), Relaxed);
        unsafe { System.dealloc(place, layout) }
    }
}

#[global_allocator]
static COUNTING: Counting = Counting;

const SIZE: usize = 120;
const LIMIT: usize = 65_536;
/// The frames and the packets of `orders spike`, and its bound in nanoseconds.
const FRAMES: usize = 256;
const JUNK: u64 = 60_000;
const LONGEST: u128 = 2_000;

/// In which order packets come, and what is held before.
#[derive(Clone, Copy, PartialEq)]
enum Order {
    /// One by one, each push followed by a pop, while HELD packets are held.
    Ascending,
    /// 32 at a time in reverse, in the same way.
    Rows,
    /// HELD pushes in random order, into an empty buffer.
    Random,
    /// The same, with numbers 2,999 apart.
    Far,
    /// Ascending, before HELD packets that are not a frame.
    Junk,
    /// 33 frames at once, and then 33 pops, before HELD packets that are not a frame.
    Bursts,
    /// 64 frames at once, and then 64 pops, before HELD packets that are not a frame and one frame above them.
    Walks,
}

const ORDERS: [(Order, &str); 7] = [
    (Order::Ascending, "in order"),
    (Order::Rows, "ranges of 32 in reverse"),
    (Order::Random, "random order, pushes alone"),
    (Order::Far, "the same, numbers 2,999 apart"),
    (Order::Junk, "in order, before packets that are no frame"),
    (
        Order::Bursts,
        "33 at once, before packets that are no frame",
    ),
    (
        Order::Walks,
        "64 at once, the next frame above packets that are no frame",
    ),
];

/// What receives packets and releases them.
trait Form {
    fn with_hold_back(hold_back: usize) -> Self;
    fn push(&mut self, number: u64, payload: &[u8]);
    /// Whether a packet came.
    fn pop(&mut self) -> bool;
}

fn meta(number: u64) -> RtpMeta {
    let time = MediaTime::from_90khz(number.wrapping_mul(960));
    RtpMeta::of(SeqNo(number), time, Pt::from(96), Ticks(number))
}

fn vp8() -> CodecDepacketizer {
    CodecDepacketizer::from_codec(Codec::Vp8).unwrap()
}

/// The buffer, and the unit into which it pops.
struct Now(DepacketizingBuffer, PoppedUnit);

impl Form for Now {
    fn with_hold_back(hold_back: usize) -> Self {
        let buffer = DepacketizingBuffer::with_limit(vp8(), hold_back, LIMIT);
        Now(buffer, PoppedUnit::new())
    }

    fn push(&mut self, number: u64, payload: &[u8]) {
        let mut meta = meta(number);
        meta.header.marker = payload[0] != 0;
        self.0.push(meta, payload.to_vec()).unwrap();
    }

    fn pop(&mut self) -> bool {
        self.0.pop_unit(&mut self.1).is_some()
    }
}

/// The packets by number. Payloads that begin with 0 are no frame.
struct Map(BTreeMap<u64, (RtpMeta, Vec<u8>)>, usize, Vec<u8>);

impl Form for Map {
    fn with_hold_back(hold_back: usize) -> Self {
        Map(BTreeMap::new(), hold_back, vec![])
    }

    fn push(&mut self, number: u64, payload: &[u8]) {
        self.0.insert(number, (meta(number), payload.to_vec()));
    }

    fn pop(&mut self) -> bool {
        if self.0.len() <= self.1 {
            return false;
        }
        let (_, (_, payload)) = self.0.pop_first().unwrap();
        self.2.clear();
        self.2.extend(payload);
        true
    }
}

/// A copy of each payload alone.
struct Copy(Vec<u8>);

impl Form for Copy {
    fn with_hold_back(_: usize) -> Self {
        Copy(vec![0; SIZE])
    }

    fn push(&mut self, _: u64, payload: &[u8]) {
        self.0.copy_from_slice(black_box(payload));
        black_box(&self.0);
    }

    fn pop(&mut self) -> bool {
        true
    }
}

fn shuffled(count: usize) -> Vec<u64> {
    let mut numbers: Vec<u64> = (0..count as u64).collect();
    let mut seed = 88_172_645_463_325_252_u64;
    for place in (1..count).rev() {
        seed ^= seed << 13;
        seed ^= seed >> 7;
        seed ^= seed << 17;
        numbers.swap(place, (seed >> 11) as usize % (place + 1));
    }
    numbers
}

/// The time of a packet in nanoseconds.
fn time<F: Form>(order: Order, held: usize, numbers: &[u64]) -> f64 {
    let mut frame = [7; SIZE];
    frame[0] = 0x10;
    let junk = [0; SIZE];
    let count = numbers.len() as u64;
    let stays = matches!(order, Order::Ascending | Order::Rows);
    let mut form = F::with_hold_back(if stays { held } else { 0 });
    if stays {
        // A unit and then a gap, so that frames wait until more than `hold_back` are there.
        form.push(0, &frame);
        form.pop();
        (0..held as u64 / 32 * 32).for_each(|it| form.push(it + 2, &frame));
    }
    let first = if stays { held as u64 / 32 * 32 + 2 } else { 2 };
    if matches!(order, Order::Junk | Order::Bursts | Order::Walks) {
        form.push(0, &frame);
        form.pop();
        (0..held as u64).for_each(|it| form.push(count + 1_000 + 32 * it, &junk));
    }
    if order == Order::Walks {
        form.push(count + 1_000 + 32 * held as u64, &frame);
    }
    // The allocator joins the free blocks of earlier rounds now, and not while time is taken.
    drop(black_box(Vec::<u8>::with_capacity(1 << 20)));
    let began = Instant::now();
    match order {
        Order::Ascending | Order::Junk => {
            let first = if order == Order::Junk { 1 } else { first };
            for number in 0..count {
                form.push(first + number, &frame);
                form.pop();
            }
        }
        Order::Rows => {
            for number in 0..count {
                form.push(first + number / 32 * 32 + 31 - number % 32, &frame);
                form.pop();
            }
        }
        Order::Random => numbers.iter().for_each(|it| form.push(first + it, &frame)),
        Order::Far => numbers
            .iter()
            .for_each(|it| form.push(first + 2_999 * it, &frame)),
        Order::Bursts | Order::Walks => {
            let size = if order == Order::Walks { 64 } else { 33 };
            for burst in 0..count / size {
                (0..size).for_each(|it| form.push(1 + burst * size + it, &frame));
                for _ in 0..size {
                    form.pop();
                }
            }
        }
    }
    began.elapsed().as_nanos() as f64 / count as f64
}

/// The least times of a packet: of a copy, the buffer and the map.
fn least(order: Order, held: usize, rounds: usize) -> [f64; 3] {
    let pushes = matches!(order, Order::Random | Order::Far);
    let numbers = shuffled(if pushes { held } else { 8_448 });
    let mut least = [f64::MAX; 3];
    for _ in 0..rounds {
        let times = [
            time::<Copy>(order, held, &numbers),
            time::<Now>(order, held, &numbers),
            time::<Map>(order, held, &numbers),
        ];
        for (least, time) in least.iter_mut().zip(times) {
            *least = least.min(time);
        }
    }
    least
}

/// The longest pop in nanoseconds: of each pop the least time of some rounds counts. Frames of one packet are held, packets that
/// are no frame above them, and one frame above these. So once the frames below have left, the next one is far away. The first
/// pops do not count: after that many pushes their packets are in no cache.
fn longest_pop(rounds: usize) -> u128 {
    let mut frame = [7; SIZE];
    frame[0] = 0x10;
    let mut least = [u128::MAX; FRAMES];
    for _ in 0..rounds {
        let mut form = Now::with_hold_back(0);
        // The memory into which it pops is there.
        form.push(0, &frame);
        form.pop();
        (1..=FRAMES as u64).for_each(|it| form.push(it, &frame));
        (0..JUNK).for_each(|it| form.push(1_000 + 32 * it, &[0; SIZE]));
        form.push(1_000 + 32 * JUNK, &frame);
        for least in &mut least {
            let began = Instant::now();
            assert!(form.pop());
            *least = (*least).min(began.elapsed().as_nanos());
        }
        assert_eq!(form.0.ready(), 1);
    }
    least.into_iter().skip(FRAMES / 2).max().unwrap()
}

fn print_memory() {
    println!(
        "| held | bytes in all | a packet beyond its payload | allocations a packet | bytes once emptied |"
    );
    println!("|---|---|---|---|---|");
    for held in [0_usize, 1, 64, 4_096, 65_536] {
        let start = BYTES.load(Relaxed);
        let mut form = Now(
            DepacketizingBuffer::with_limit(
                CodecDepacketizer::from_codec(Codec::Opus).unwrap(),
                held,
                LIMIT,
            ),
            PoppedUnit::new(),
        );
        let blocks = BLOCKS.load(Relaxed);
        (0..held as u64).for_each(|it| form.push(it + 2, &[7; SIZE]));
        let blocks = BLOCKS.load(Relaxed) - blocks;
        let bytes = BYTES.load(Relaxed) - start + size_of::<DepacketizingBuffer>();
        form.0.set_hold_back(0);
        while form.pop() {}
        form.1 = PoppedUnit::new();
        let left = BYTES.load(Relaxed) - start;
        let packets = held.max(1) as f64;
        let beyond = (bytes - size_of::<DepacketizingBuffer>()) as f64 / packets - SIZE as f64;
        let beyond = if held == 0 { 0.0 } else { beyond };
        println!(
            "| {held} | {bytes} | {beyond:.0} | {:.2} | {} |",
            blocks as f64 / packets,
            left + size_of::<DepacketizingBuffer>()
        );
    }
}

fn main() {
    let words: Vec<String> = std::env::args().skip(1).collect();
    match &words[..] {
        [it] if it == "memory" => print_memory(),
        [it] if it == "spike" => {
            let longest = longest_pop(30);
            println!("the longest pop before {JUNK} packets that are no frame: {longest} ns");
            assert!(longest <= LONGEST, "more than {LONGEST} ns");
        }
        [held, rounds] => {
            let (held, rounds) = (held.parse().unwrap(), rounds.parse().unwrap());
            for (order, name) in ORDERS {
                let [copy, now, map] = least(order, held, rounds);
                println!(
                    "| {name} | {held} | {copy:.1} | {now:.0} | {:.1} | {map:.0} |",
                    now / copy
                );
            }
        }
        _ => panic!("orders HELD ROUNDS, orders memory, or orders spike"),
    }
}

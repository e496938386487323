//! What is used again, and what is given back: allocations of packets in steady state, and the bytes that are left once packets
//! have left.

use codec_payload::history::{History, HistorySettings};
use codec_payload::red_writer::RedWriter;
use codec_payload::stream::{Receiver, ReceiverSettings};
use codec_payload::*;
use std::alloc::{GlobalAlloc, Layout, System};
use std::cell::Cell;

thread_local! {
    static CALLS: Cell<usize> = const { Cell::new(0) };
    static BYTES: Cell<isize> = const { Cell::new(0) };
}

fn count(call: usize, bytes: isize) {
    CALLS.set(CALLS.get() + call);
    BYTES.set(BYTES.get() + bytes);
}

/// The system's allocator, which counts the calls of each thread and the bytes that it holds.
struct Counting;

// SAFETY: it passes each call on to `System`.
unsafe impl GlobalAlloc for Counting {
    unsafe fn alloc(&self, layout: Layout) -> *mut u8 {
        count(1, layout.size() as isize);
        unsafe { System.alloc(layout) }
    }

    unsafe fn dealloc(&self, place: *mut u8, layout: Layout) {
        count(0, -(layout.size() as isize));
        unsafe { System.dealloc(place, layout) }
    }

    unsafe fn realloc(&self, place: *mut u8, layout: Layout, size: usize) -> *mut u8 {
        count(1, size as isize - layout.size() as isize);
        unsafe { System.realloc(place, layout, size) }
    }
}

#[global_allocator]
static ALLOCATOR: Counting = Counting;

type Fail = Box<dyn std::error::Error>;

/// A datagram of a stream: SSRC 7, 960 ticks a packet, and a payload of `len` bytes.
fn datagram(payload_type: u8, number: u32, len: usize) -> Vec<u8> {
    let [.., n1, n0] = number.to_be_bytes();
    let [t3, t2, t1, t0] = (960 * number).to_be_bytes();
    let header = [0x80, payload_type, n1, n0, t3, t2, t1, t0, 0, 0, 0, 7];
    header.into_iter().chain(vec![0xfc; len]).collect()
}

/// How many allocations the call makes for each of the numbers, at most.
fn most_allocations(
    numbers: std::ops::Range<u32>,
    mut call: impl FnMut(u32) -> Result<(), Fail>,
) -> Result<usize, Fail> {
    let mut most = 0;
    for number in numbers {
        let before = CALLS.get();
        call(number)?;
        most = most.max(CALLS.get() - before);
    }
    Ok(most)
}

/// A full history takes the memory of the packet that leaves.
#[test]
fn a_full_history_allocates_nothing() -> Result<(), Fail> {
    let mut history = History::new(HistorySettings {
        limit: 512,
        interval: 0,
        stream: None,
    })?;
    let packets: Vec<_> = (0..8_000)
        .map(|number| datagram(96, number, 1_200))
        .collect();
    let mut keep = |number: u32| Ok(history.keep(&packets[number as usize]).map(drop)?);
    most_allocations(0..2_000, &mut keep)?;
    assert_eq!(most_allocations(2_000..8_000, &mut keep)?, 0);
    Ok(())
}

/// A writer of RED remembers payloads in memory that it uses again.
#[test]
fn a_writer_of_red_allocates_nothing() -> Result<(), Fail> {
    let mut writer = RedWriter::new(63, 111, &[1, 2, 4], 1_200)?;
    let packets: Vec<_> = (0..2_000).map(|number| datagram(111, number, 80)).collect();
    let mut out = Vec::new();
    let mut write = |number: u32| Ok(writer.write(&packets[number as usize], &mut out)?);
    most_allocations(0..100, &mut write)?;
    assert_eq!(most_allocations(100..2_000, &mut write)?, 0);
    Ok(())
}

/// Receives `count` packets with a gap in front of them, so that they are held.
fn hold(receiver: &mut Receiver, count: u32) -> Result<usize, Fail> {
    receiver.receive(Ticks(0), &datagram(111, 0, 60))?;
    let before = CALLS.get();
    for number in 2..count + 2 {
        receiver.receive(Ticks(0), &datagram(111, number, 60))?;
    }
    // The datagrams of this test are two allocations each.
    Ok(CALLS.get() - before - 2 * count as usize)
}

fn receiver() -> Result<Receiver, Fail> {
    let mut settings = ReceiverSettings::live_audio(111, Frequency::FORTY_EIGHT_KHZ);
    settings.ssrc = Some(7);
    settings.limit = 65_536;
    Ok(Receiver::new(
        CodecDepacketizer::Opus(OpusDepacketizer {}),
        settings,
    )?)
}

/// The list of held packets grows by a factor: each packet allocates its payload and its metadata, and the list a few times more.
#[test]
fn a_list_of_packets_grows_by_a_factor() -> Result<(), Fail> {
    for count in [1_000_u32, 10_000, 60_000] {
        let calls = hold(&mut receiver()?, count)?;
        let lists = 40 * count.ilog2() as usize;
        println!("{count} packets: {calls} allocations");
        assert!(
            calls <= 2 * count as usize + lists,
            "{calls} allocations of {count} packets"
        );
    }
    Ok(())
}

/// Once the packets have left, their memory is given back, except what a few packets take.
#[test]
fn memory_of_packets_is_given_back() -> Result<(), Fail> {
    let mut receiver = receiver()?;
    let empty = BYTES.get();
    hold(&mut receiver, 60_000)?;
    let held = BYTES.get() - empty;
    let mut released = 0;
    while receiver.pop(Ticks(10_000_000)).is_some() {
        released += 1;
    }
    let left = BYTES.get() - empty;
    println!("{released} units; {held} bytes held, {left} left");
    assert_eq!(released, 60_001);
    assert!(held > 60_000 * 60);
    assert!(left <= 16_384, "{left} bytes are left");
    Ok(())
}

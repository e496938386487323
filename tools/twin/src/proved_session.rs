//! The proved sessions by shim.c.

use super::proved::{NONE, Spec};
use std::ffi::c_void;

unsafe extern "C" {
    fn twin_session(codec: u32, rate: u32, flags: u32, values: *const u64) -> *mut c_void;
    fn twin_session_receive(
        it: *mut c_void,
        now: u64,
        datagram: *const u8,
        len: usize,
        arrival: *mut u64,
    ) -> u32;
    fn twin_session_poll(
        it: *mut c_void,
        now: u64,
        bytes: *mut u8,
        room: usize,
        event: *mut u64,
    ) -> u32;
    fn twin_session_next_deadline(it: *mut c_void, at: *mut u64) -> u32;
    fn twin_session_end(it: *mut c_void, now: u64, ssrc: u32) -> u32;
    fn twin_session_finish(it: *mut c_void, now: u64) -> u32;
    fn twin_session_missing(
        it: *mut c_void,
        ssrc: u32,
        payload_type: u8,
        numbers: *mut u64,
        room: usize,
        count: *mut usize,
    ) -> u32;
    fn twin_session_report(
        it: *mut c_void,
        now: u64,
        ssrc: u32,
        payload_type: u8,
        block: *mut u32,
    ) -> u32;
    fn twin_session_names(it: *mut c_void, ssrc: u32, payload_type: u8, names: *mut u8) -> u32;
    fn twin_session_add_pair(it: *mut c_void, ssrc: u32, rtx_ssrc: u32) -> u32;
    fn twin_session_request_keyframe(it: *mut c_void, ssrc: u32) -> u32;
    fn twin_session_counts(it: *mut c_void, counts: *mut u64) -> u32;
    fn twin_session_free(it: *mut c_void);
}

/// Room for the bytes of an event.
const ROOM: usize = 1 << 16;

pub struct Session(*mut c_void);

impl Session {
    pub fn new(spec: Spec, values: &[u64; 8]) -> Option<Session> {
        let it = unsafe { twin_session(spec.codec, spec.rate, spec.flags, values.as_ptr()) };
        (!it.is_null()).then_some(Session(it))
    }

    /// Kind, SSRC, payload type, status, outcome.
    pub fn receive(&mut self, now: u64, datagram: &[u8]) -> [u64; 5] {
        let mut arrival = [0; 5];
        let (at, size) = (datagram.as_ptr(), datagram.len());
        let status = unsafe { twin_session_receive(self.0, now, at, size, arrival.as_mut_ptr()) };
        assert_eq!(status, 0);
        arrival
    }

    /// The fields of the event and of its unit, and its bytes.
    pub fn poll(&mut self, now: u64) -> Option<([u64; 12], Vec<u8>)> {
        let (mut bytes, mut event) = (vec![0; ROOM], [0; 13]);
        let status =
            unsafe { twin_session_poll(self.0, now, bytes.as_mut_ptr(), ROOM, event.as_mut_ptr()) };
        if status == NONE {
            return None;
        }
        assert_eq!(status, 0);
        bytes.truncate(event[11] as usize);
        event[11] = event[12];
        Some((event[..12].try_into().unwrap(), bytes))
    }

    pub fn next_deadline(&mut self) -> Option<u64> {
        let mut at = 0;
        (unsafe { twin_session_next_deadline(self.0, &mut at) } == 0).then_some(at)
    }

    pub fn end(&mut self, now: u64, ssrc: u32) {
        assert_eq!(unsafe { twin_session_end(self.0, now, ssrc) }, 0);
    }

    pub fn finish(&mut self, now: u64) {
        assert_eq!(unsafe { twin_session_finish(self.0, now) }, 0);
    }

    pub fn missing(&mut self, ssrc: u32, payload_type: u8, most: usize) -> Option<Vec<u64>> {
        let (mut numbers, mut count) = (vec![0; most], 0);
        let at = numbers.as_mut_ptr();
        let status =
            unsafe { twin_session_missing(self.0, ssrc, payload_type, at, most, &mut count) };
        assert!(status == 0 || status == NONE);
        numbers.truncate(count);
        (status == 0).then_some(numbers)
    }

    /// SSRC, fraction lost, lost, highest number, jitter, last sender report, delay since.
    pub fn report(&mut self, now: u64, ssrc: u32, payload_type: u8) -> Option<[u32; 7]> {
        let mut block = [0; 7];
        let status =
            unsafe { twin_session_report(self.0, now, ssrc, payload_type, block.as_mut_ptr()) };
        assert!(status == 0 || status == NONE);
        (status == 0).then_some(block)
    }

    /// MID, RID and repaired RID; without bytes where there is none.
    pub fn names(&mut self, ssrc: u32, payload_type: u8) -> Option<[Vec<u8>; 3]> {
        let mut names = [0; 99];
        let status = unsafe { twin_session_names(self.0, ssrc, payload_type, names.as_mut_ptr()) };
        assert!(status == 0 || status == NONE);
        let name = |at: usize| {
            let (bytes, rest) = names[at + 1..at + 33].split_at(names[at].into());
            assert!(rest.iter().all(|it| *it == 0));
            bytes.to_vec()
        };
        (status == 0).then(|| [name(0), name(33), name(66)])
    }

    pub fn add_pair(&mut self, ssrc: u32, rtx_ssrc: u32) {
        assert_eq!(unsafe { twin_session_add_pair(self.0, ssrc, rtx_ssrc) }, 0);
    }

    /// The number of the answer.
    pub fn request_keyframe(&mut self, ssrc: u32) -> u32 {
        unsafe { twin_session_request_keyframe(self.0, ssrc) }
    }

    /// Received, RTCP, malformed, unknown, refused, unassociated, ended, streams, dropped telephone events.
    pub fn counts(&mut self) -> [u64; 9] {
        let mut counts = [0; 9];
        let status = unsafe { twin_session_counts(self.0, counts.as_mut_ptr()) };
        assert_eq!(status, 0);
        counts
    }
}

impl Drop for Session {
    fn drop(&mut self) {
        unsafe { twin_session_free(self.0) }
    }
}

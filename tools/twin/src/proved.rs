//! The proved library by shim.c: a pointer for each object, and statuses.

use std::ffi::c_void;

unsafe extern "C" {
    fn twin_packetizer(codec: u32, rate: u32, flags: u32, first_id: u16) -> *mut c_void;
    fn twin_packetize(
        it: *mut c_void,
        mtu: usize,
        frame: *const u8,
        len: usize,
        count: *mut usize,
    ) -> u32;
    fn twin_packet(
        it: *mut c_void,
        bytes: *mut u8,
        room: usize,
        size: *mut usize,
        nackable: *mut bool,
    ) -> u32;
    fn twin_packetizer_free(it: *mut c_void);
    fn twin_depacketizer(codec: u32, rate: u32, flags: u32) -> *mut c_void;
    fn twin_depacketize(it: *mut c_void, payload: *const u8, len: usize) -> u32;
    fn twin_depacketized(
        it: *mut c_void,
        bytes: *mut u8,
        room: usize,
        size: *mut usize,
        extra: *mut u64,
    ) -> u32;
    fn twin_depacketizer_free(it: *mut c_void);
    fn twin_receiver(codec: u32, rate: u32, flags: u32, values: *const u64) -> *mut c_void;
    fn twin_receive(
        it: *mut c_void,
        now: u64,
        datagram: *const u8,
        len: usize,
        outcome: *mut u32,
    ) -> u32;
    fn twin_pop(it: *mut c_void, now: u64, bytes: *mut u8, room: usize, unit: *mut u64) -> u32;
    fn twin_next_deadline(it: *mut c_void, at: *mut u64) -> u32;
    fn twin_finish(it: *mut c_void) -> u32;
    fn twin_missing(it: *mut c_void, numbers: *mut u64, room: usize, count: *mut usize) -> u32;
    fn twin_counts(it: *mut c_void, counts: *mut u64) -> u32;
    fn twin_receiver_free(it: *mut c_void);
}

/// Room for all that one call of the twin gives.
const ROOM: usize = 1 << 18;
/// `CPAY_NONE`.
pub const NONE: u32 = 32;

/// A codec by its number in the header, its clock rate and its flags.
#[derive(Clone, Copy, Debug)]
pub struct Spec {
    pub codec: u32,
    pub rate: u32,
    pub flags: u32,
}

fn some(it: *mut c_void) -> Option<*mut c_void> {
    (!it.is_null()).then_some(it)
}

/// `Ok` for the status 0.
fn result<T>(status: u32, value: T) -> Result<T, u32> {
    if status == 0 { Ok(value) } else { Err(status) }
}

pub struct Packetizer(*mut c_void);

impl Packetizer {
    pub fn new(spec: Spec, first_id: u16) -> Option<Packetizer> {
        some(unsafe { twin_packetizer(spec.codec, spec.rate, spec.flags, first_id) })
            .map(Packetizer)
    }

    /// The payloads of a frame, each with whether it may be asked for again.
    pub fn packetize(&mut self, mtu: usize, frame: &[u8]) -> Result<Vec<(Vec<u8>, bool)>, u32> {
        let mut count = 0;
        result(
            unsafe { twin_packetize(self.0, mtu, frame.as_ptr(), frame.len(), &mut count) },
            (),
        )?;
        let mut bytes = vec![0; ROOM];
        (0..count)
            .map(|_| {
                let (mut size, mut nackable) = (0, false);
                let status = unsafe {
                    twin_packet(self.0, bytes.as_mut_ptr(), ROOM, &mut size, &mut nackable)
                };
                result(status, (bytes[..size].to_vec(), nackable))
            })
            .collect()
    }
}

impl Drop for Packetizer {
    fn drop(&mut self) {
        unsafe { twin_packetizer_free(self.0) }
    }
}

pub struct Depacketizer(*mut c_void);

impl Depacketizer {
    pub fn new(spec: Spec) -> Option<Depacketizer> {
        some(unsafe { twin_depacketizer(spec.codec, spec.rate, spec.flags) }).map(Depacketizer)
    }

    pub fn depacketize(&mut self, payload: &[u8]) -> Result<(), u32> {
        result(
            unsafe { twin_depacketize(self.0, payload.as_ptr(), payload.len()) },
            (),
        )
    }

    /// The bytes so far, and the kind of the extra, its keyframe bit and its picture id.
    pub fn take(&mut self) -> Result<(Vec<u8>, [u64; 3]), u32> {
        let (mut bytes, mut size, mut extra) = (vec![0; ROOM], 0, [0; 3]);
        result(
            unsafe {
                twin_depacketized(
                    self.0,
                    bytes.as_mut_ptr(),
                    ROOM,
                    &mut size,
                    extra.as_mut_ptr(),
                )
            },
            (),
        )?;
        bytes.truncate(size);
        Ok((bytes, extra))
    }
}

impl Drop for Depacketizer {
    fn drop(&mut self) {
        unsafe { twin_depacketizer_free(self.0) }
    }
}

pub struct Receiver(*mut c_void);

impl Receiver {
    pub fn new(spec: Spec, values: &[u64; 9]) -> Option<Receiver> {
        some(unsafe { twin_receiver(spec.codec, spec.rate, spec.flags, values.as_ptr()) })
            .map(Receiver)
    }

    pub fn receive(&mut self, now: u64, datagram: &[u8]) -> Result<u32, u32> {
        let mut outcome = 0;
        result(
            unsafe { twin_receive(self.0, now, datagram.as_ptr(), datagram.len(), &mut outcome) },
            (),
        )?;
        Ok(outcome)
    }

    /// First and last number, RTP time, whether it is contiguous, and the bytes; or the fault of a refused frame.
    pub fn pop(&mut self, now: u64) -> Option<Result<([u64; 4], Vec<u8>), u32>> {
        let (mut bytes, mut unit) = (vec![0; ROOM], [0; 6]);
        match unsafe { twin_pop(self.0, now, bytes.as_mut_ptr(), ROOM, unit.as_mut_ptr()) } {
            NONE => None,
            0 if unit[5] != 0 => {
                assert_eq!(unit[..5], [0; 5]);
                Some(Err(unit[5] as u32))
            }
            0 => {
                bytes.truncate(unit[4] as usize);
                Some(Ok(([unit[0], unit[1], unit[2], unit[3]], bytes)))
            }
            status => panic!("status {status} of a pop"),
        }
    }

    pub fn next_deadline(&mut self) -> Option<u64> {
        let mut at = 0;
        (unsafe { twin_next_deadline(self.0, &mut at) } == 0).then_some(at)
    }

    pub fn finish(&mut self) {
        assert_eq!(unsafe { twin_finish(self.0) }, 0);
    }

    pub fn missing(&mut self, most: usize) -> Vec<u64> {
        let (mut numbers, mut count) = (vec![0; most], 0);
        assert_eq!(
            unsafe { twin_missing(self.0, numbers.as_mut_ptr(), most, &mut count) },
            0
        );
        numbers.truncate(count);
        numbers
    }

    /// Received, malformed, released, evicted, recovered, late, suspect, duplicates, units.
    pub fn counts(&mut self) -> [u64; 9] {
        let mut counts = [0; 9];
        assert_eq!(unsafe { twin_counts(self.0, counts.as_mut_ptr()) }, 0);
        counts
    }
}

impl Drop for Receiver {
    fn drop(&mut self) {
        unsafe { twin_receiver_free(self.0) }
    }
}

//! The proved histories, and requests, by shim.c.

use std::ffi::c_void;

unsafe extern "C" {
    fn twin_history(values: *const u64) -> *mut c_void;
    fn twin_history_keep(it: *mut c_void, datagram: *const u8, len: usize, kept: *mut u32) -> u32;
    fn twin_history_resend(
        it: *mut c_void,
        now: u64,
        number: u16,
        bytes: *mut u8,
        room: usize,
        size: *mut usize,
        resent: *mut u32,
    ) -> u32;
    fn twin_history_free(it: *mut c_void);
    fn twin_read_requests(
        rtcp: *const u8,
        len: usize,
        ssrc: u32,
        full: bool,
        numbers: *mut u16,
        room: usize,
        count: *mut usize,
        wants_keyframe: *mut bool,
    ) -> u32;
}

/// `CPAY_TOO_SMALL`.
pub const TOO_SMALL: u32 = 33;

pub struct History(*mut c_void);

impl History {
    pub fn new(values: &[u64; 6]) -> Option<History> {
        let it = unsafe { twin_history(values.as_ptr()) };
        (!it.is_null()).then_some(History(it))
    }

    /// What was done, or the status.
    pub fn keep(&mut self, datagram: &[u8]) -> Result<u32, u32> {
        let mut kept = 9;
        match unsafe { twin_history_keep(self.0, datagram.as_ptr(), datagram.len(), &mut kept) } {
            0 => Ok(kept),
            status => {
                assert_eq!(kept, 9);
                Err(status)
            }
        }
    }

    /// What was done, and the bytes; or the status, and the size.
    pub fn resend(
        &mut self,
        now: u64,
        number: u16,
        room: usize,
    ) -> Result<(u32, Vec<u8>), (u32, usize)> {
        let (mut bytes, mut size, mut resent) = (vec![0xaa; room], 0, 9);
        let status = unsafe {
            twin_history_resend(
                self.0,
                now,
                number,
                bytes.as_mut_ptr(),
                room,
                &mut size,
                &mut resent,
            )
        };
        assert!(bytes[size.min(room)..].iter().all(|byte| *byte == 0xaa));
        bytes.truncate(size);
        if status == 0 {
            Ok((resent, bytes))
        } else {
            assert_eq!(resent, 9);
            Err((status, size))
        }
    }
}

impl Drop for History {
    fn drop(&mut self) {
        unsafe { twin_history_free(self.0) }
    }
}

/// The numbers, at most `room`, how many there are, and whether a keyframe is requested.
pub fn read_requests(
    rtcp: &[u8],
    ssrc: u32,
    full: bool,
    room: usize,
) -> Result<(Vec<u16>, usize, bool), u32> {
    let (mut numbers, mut count, mut wants_keyframe) = (vec![0; room], 0, false);
    let status = unsafe {
        twin_read_requests(
            rtcp.as_ptr(),
            rtcp.len(),
            ssrc,
            full,
            numbers.as_mut_ptr(),
            room,
            &mut count,
            &mut wants_keyframe,
        )
    };
    if status != 0 {
        return Err(status);
    }
    numbers.truncate(count);
    Ok((numbers, count, wants_keyframe))
}

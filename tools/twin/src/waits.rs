//! Limits of waiting of both, side by side; the proved ones by shim.c.

use super::Compared;
use super::input::Input;
use codec_payload::Ticks;
use codec_payload::waiting::{AdaptiveWait, AdaptiveWaitSettings};
use std::ffi::c_void;

unsafe extern "C" {
    fn twin_wait(values: *const u64) -> *mut c_void;
    fn twin_wait_arrived(it: *mut c_void, now: u64, number: u16) -> u32;
    fn twin_wait_missing(it: *mut c_void, now: u64, numbers: *const u64, count: usize) -> u32;
    fn twin_wait_limit(it: *mut c_void, limit: *mut u64) -> u32;
    fn twin_wait_free(it: *mut c_void);
}

struct Wait(*mut c_void);

impl Wait {
    fn new(settings: &AdaptiveWaitSettings) -> Wait {
        let values = [
            settings.shortest,
            settings.longest,
            settings.first,
            settings.lost_after,
        ];
        let it = unsafe { twin_wait(values.as_ptr()) };
        assert!(!it.is_null());
        Wait(it)
    }

    fn arrived(&mut self, now: u64, number: u16) {
        assert_eq!(unsafe { twin_wait_arrived(self.0, now, number) }, 0);
    }

    fn missing(&mut self, now: u64, numbers: &[u64]) {
        let status = unsafe { twin_wait_missing(self.0, now, numbers.as_ptr(), numbers.len()) };
        assert_eq!(status, 0);
    }

    fn limit(&mut self) -> u64 {
        let mut limit = 7;
        assert_eq!(unsafe { twin_wait_limit(self.0, &mut limit) }, 0);
        limit
    }
}

impl Drop for Wait {
    fn drop(&mut self) {
        unsafe { twin_wait_free(self.0) }
    }
}

/// Settings, mostly near the defaults; one in 16 has any values.
fn settings(input: &mut Input) -> AdaptiveWaitSettings {
    let wide = if input.byte() % 16 == 0 { 50 } else { 0 };
    let mut value = |most: u16| u64::from(input.word() % most) << wide;
    {
        let mut settings = AdaptiveWaitSettings::live();
        settings.shortest = value(60);
        settings.longest = value(800);
        settings.first = value(400);
        settings.lost_after = value(2_000);
        settings
    }
}

/// Packets of a stream arrive, and some are reported missing, again and again. Time mostly goes on.
pub fn waits(input: &mut Input, compared: &mut Compared) {
    let settings = settings(input);
    let mut ours = AdaptiveWait::new(settings);
    let mut theirs = Wait::new(&settings);
    let (mut now, mut highest) = (0_u64, 65_536 + u64::from(input.word()));
    while !input.is_empty() {
        let how = input.byte();
        now = if how == 0 {
            u64::from(input.word()) << (input.byte() % 48)
        } else {
            now.saturating_add(u64::from(input.byte()))
        };
        if how % 4 == 0 {
            let count = u64::from(input.byte() % 9);
            let numbers: Vec<u64> = (0..count)
                .map(|it| highest.saturating_sub(4) + it)
                .collect();
            highest += count;
            for number in &numbers {
                ours.missing(Ticks(now), *number);
            }
            theirs.missing(now, &numbers);
        } else {
            let number = highest.wrapping_sub(u64::from(input.byte() % 32)) as u16;
            ours.arrived(Ticks(now), number);
            theirs.arrived(now, number);
        }
        compared.answers(Ok::<_, ()>(ours.limit()), Ok(theirs.limit()));
    }
}

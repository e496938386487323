//! Ticks of milliseconds from the clock of the machine. Feature `std`.

use crate::wire::Ticks;
use std::time::{Duration, Instant};

/// A clock whose ticks are milliseconds since it was made: what receivers take as `now`, by `std::time`.
///
/// ```
/// use codec_payload::{Clock, Ticks};
/// use std::time::Duration;
///
/// let clock = Clock::new();
/// let deadline = Ticks(clock.now().0 + 50);
/// assert!(clock.time_left(deadline) <= Duration::from_millis(50));
/// assert_eq!(clock.ticks_at(clock.instant_of(Ticks(70)).unwrap()), Ticks(70));
/// ```
#[derive(Clone, Copy, Debug, PartialEq, Eq)]
pub struct Clock {
    began: Instant,
}

impl Default for Clock {
    fn default() -> Self {
        Clock::new()
    }
}

impl Clock {
    /// Starts a clock: tick 0 is now.
    #[must_use]
    pub fn new() -> Self {
        Clock {
            began: Instant::now(),
        }
    }

    /// Returns the ticks now.
    #[must_use]
    pub fn now(&self) -> Ticks {
        self.ticks_at(Instant::now())
    }

    /// Returns the ticks at a moment: whole milliseconds, rounded down. Moments before the clock began are tick 0.
    #[must_use]
    pub fn ticks_at(&self, moment: Instant) -> Ticks {
        let passed = moment.saturating_duration_since(self.began).as_millis();
        Ticks(u64::try_from(passed).unwrap_or(u64::MAX))
    }

    /// Returns the moment of a tick, or `None` if `Instant` cannot hold it.
    #[must_use]
    pub fn instant_of(&self, ticks: Ticks) -> Option<Instant> {
        self.began.checked_add(Duration::from_millis(ticks.0))
    }

    /// Returns how long to wait until a tick, for the time-out of a socket or a poll: 0 if it has passed.
    #[must_use]
    pub fn time_left(&self, deadline: Ticks) -> Duration {
        Duration::from_millis(deadline.0.saturating_sub(self.now().0))
    }
}

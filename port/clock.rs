//! Time: whole microseconds since the start, by the monotonic clock, and how many of them the program was told.

use super::frames::LONGEST_WAIT;
use std::time::{Duration, Instant};

pub struct Clock {
    start: Instant,
    told: u64,
}

/// A wait that the program is told: where it begins and ends.
#[derive(Clone, Copy)]
pub struct Wait {
    pub start: u64,
    pub end: u64,
}

impl Wait {
    pub fn microseconds(&self) -> u64 {
        self.end - self.start
    }
}

impl Clock {
    pub fn start() -> Clock {
        Clock { start: Instant::now(), told: 0 }
    }

    /// The whole microseconds that have passed.
    pub fn now(&self) -> u64 {
        u64::try_from(self.start.elapsed().as_micros()).unwrap_or(u64::MAX)
    }

    /// The next wait on the way to a moment, and whether that is reached with it. What is told is a total, so nothing
    /// is lost in rounding.
    pub fn next_wait(&mut self, now: u64) -> (Wait, bool) {
        let end = now.min(self.told + LONGEST_WAIT);
        let wait = Wait { start: self.told, end };
        self.told = end;
        (wait, end == now)
    }

    /// How long it is until so many microseconds after what was told.
    pub fn until(&self, after: u64) -> Duration {
        Duration::from_micros(self.told + after).saturating_sub(self.start.elapsed())
    }
}

#[cfg(test)]
mod tests {
    use super::*;

    fn waits(clock: &mut Clock, now: u64) -> Vec<u64> {
        let mut waits = Vec::new();
        loop {
            let (wait, reached) = clock.next_wait(now);
            waits.push(wait.microseconds());
            if reached {
                return waits;
            }
        }
    }

    #[test]
    fn waits_add_up_to_the_moment() {
        let mut clock = Clock::start();
        assert_eq!(waits(&mut clock, 7), [7]);
        assert_eq!(waits(&mut clock, 7), [0]);
        assert_eq!(waits(&mut clock, 1_000_000_007), [1_000_000_000]);
        assert_eq!(waits(&mut clock, 3_500_000_008), [1_000_000_000, 1_000_000_000, 500_000_001]);
        assert_eq!(clock.told, 3_500_000_008);
    }

    #[test]
    fn a_moment_that_has_passed_is_not_waited_for() {
        let clock = Clock::start();
        assert_eq!(clock.until(0), Duration::ZERO);
        let far = clock.until(LONGEST_WAIT);
        assert!(Duration::from_secs(990) < far && far <= Duration::from_secs(1000));
    }
}

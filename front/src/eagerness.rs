//! Decides whether the front polls for events before it sleeps, while one client and one server talk with each other.
//!
//! If a processor is free, polling saves the time that it takes to wake a sleeping process. If all are busy, it takes the
//! processor from the process that the front waits for. The front tries both ways from time to time, and keeps the faster one.

use std::time::Duration;

/// The longest time that the front polls before it sleeps.
pub const LOOK: Duration = Duration::from_micros(25);
/// After a poll that found nothing, the front does not poll in this many waits.
const IN_VAIN: u32 = 16;
/// The number of waits in which each way is tried, and then of waits by the faster way.
const TRIED: u32 = 128;
const TAKEN: u32 = 2_048;
/// Longer waits count as this one: they are for somebody who has nothing to say yet.
const LONGEST: Duration = Duration::from_micros(60);
/// Polling is used if it takes at most this many tenths of the time without it, so that it is worth the processor's time.
const WORTH: u32 = 8;

/// The present step of the trial.
#[derive(Clone, Copy, Debug, PartialEq, Eq)]
enum Phase {
    TriesSleep,
    TriesLooking,
    Takes,
}

/// The way that is taken at present, and the times of waits.
pub struct Eagerness {
    phase: Phase,
    left: u32,
    is_eager: bool,
    /// Waits that are left in which the front does not poll, because polling found nothing.
    rest: u32,
    /// The total time of the waits in this trial, without and with polling.
    slept: Duration,
    looked: Duration,
}

impl Eagerness {
    pub fn new() -> Eagerness {
        let none = Duration::ZERO;
        Eagerness { phase: Phase::TriesSleep, left: TRIED, is_eager: false, rest: 0, slept: none, looked: none }
    }

    /// Whether the front polls before it sleeps.
    pub fn looks(&self) -> bool {
        self.is_eager && self.rest == 0
    }

    /// Counts a wait.
    pub fn waited(&mut self, time: Duration) {
        self.rest = if self.looks() && time > LOOK { IN_VAIN } else { self.rest.saturating_sub(1) };
        match self.phase {
            Phase::TriesSleep => self.slept += time.min(LONGEST),
            Phase::TriesLooking => self.looked += time.min(LONGEST),
            Phase::Takes => {}
        }
        self.left -= 1;
        if self.left > 0 {
            return;
        }
        (self.phase, self.left, self.is_eager) = match self.phase {
            Phase::TriesSleep => (Phase::TriesLooking, TRIED, true),
            Phase::TriesLooking => (Phase::Takes, TAKEN, self.looked * 10 < self.slept * WORTH),
            Phase::Takes => {
                (self.slept, self.looked) = (Duration::ZERO, Duration::ZERO);
                (Phase::TriesSleep, TRIED, false)
            }
        };
    }
}

#[cfg(test)]
mod tests {
    use super::*;

    /// In how many of these waits the front polls, if waits take so many microseconds without and with polling.
    fn looks(eagerness: &mut Eagerness, waits: u32, slept: u64, looked: u64) -> u32 {
        let mut count = 0;
        for _ in 0..waits {
            let looks = eagerness.looks();
            count += u32::from(looks);
            eagerness.waited(Duration::from_micros(if looks { looked } else { slept }));
        }
        count
    }

    #[test]
    fn what_is_quicker_is_taken() {
        let all = 2 * TRIED + TAKEN;
        let mut eagerness = Eagerness::new();
        assert_eq!(looks(&mut eagerness, all, 30, 8), TRIED + TAKEN);
        assert_eq!(looks(&mut eagerness, all, 10, 9), TRIED, "what is hardly quicker");
        let in_vain = TRIED / (IN_VAIN + 1) + 1;
        assert_eq!(looks(&mut eagerness, all, 8, 30), in_vain);
        assert_eq!(looks(&mut eagerness, all, 2_000, 2_000), in_vain, "somebody who asks now and then");
        assert_eq!(looks(&mut eagerness, all, 30, 8), TRIED + TAKEN);
    }
}

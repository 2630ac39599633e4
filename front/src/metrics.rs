//! What the front counts of its own work, for programs that monitor it. `scraping` shows it as a page.
//!
//! Counting costs an addition. Times are taken, and lines that go to clients are counted, only if somebody may ask for them.

use std::ops::RangeInclusive;
use std::time::{Duration, Instant, SystemTime};

use memchr::memchr_iter;

use crate::quotas::Refusal;
use crate::replaying::Purpose;
use crate::turns::{Command, Turns};

/// The upper bounds of a histogram's buckets, in seconds.
pub const BOUNDS: [f64; 19] = [
    0.000_01, 0.000_025, 0.000_05, 0.000_1, 0.000_25, 0.000_5, 0.001, 0.002_5, 0.005, 0.01, 0.025, 0.05, 0.1, 0.25, 0.5,
    1.0, 2.5, 5.0, 10.0,
];
/// Codes are a letter and two digits.
const CODES: usize = 100;
/// The numbers of the codes by which the front enforces limits and rights: from `F11` on, up to `F20`.
const OF_LIMITS: RangeInclusive<usize> = 11..=20;

/// How many values there were up to each bound, and their sum.
#[derive(Debug, Default, PartialEq)]
pub struct Histogram {
    /// The number of values in each bucket, without those of smaller ones. The last bucket has no bound.
    counts: [u64; BOUNDS.len() + 1],
    sum: Duration,
}

impl Histogram {
    pub fn count(&mut self, time: Duration) {
        let seconds = time.as_secs_f64();
        self.counts[BOUNDS.partition_point(|bound| *bound < seconds)] += 1;
        self.sum += time;
    }

    /// The number of values up to each bound, and last the number of all.
    pub fn up_to(&self) -> impl Iterator<Item = u64> + '_ {
        self.counts.iter().scan(0, |sum, count| {
            *sum += count;
            Some(*sum)
        })
    }

    pub fn seconds(&self) -> f64 {
        self.sum.as_secs_f64()
    }
}

/// How many errors there were of each code.
pub struct Codes {
    /// Those of the server, `E00` to `E99`, and those of the front, `F00` to `F99`.
    counts: [[u64; CODES]; 2],
}

impl Codes {
    const LETTERS: [u8; 2] = [b'E', b'F'];

    /// Counts an error, if its code is one of the server's or the front's.
    pub fn count(&mut self, code: &[u8]) {
        if let [letter, tens @ b'0'..=b'9', ones @ b'0'..=b'9'] = code {
            let place = Codes::LETTERS.iter().position(|known| known == letter);
            let number = usize::from(tens - b'0') * 10 + usize::from(ones - b'0');
            place.into_iter().for_each(|place| self.counts[place][number] += 1);
        }
    }

    /// The codes that have occurred, with how often they did.
    pub fn all(&self) -> impl Iterator<Item = (String, u64)> + '_ {
        let of = |place: usize| self.counts[place].iter().enumerate().map(move |(number, count)| (place, number, *count));
        let found = (0..2).flat_map(of).filter(|(_, _, count)| *count > 0);
        found.map(|(place, number, count)| (format!("{}{number:02}", char::from(Codes::LETTERS[place])), count))
    }

    /// The codes of limits and rights, with how often each has occurred.
    pub fn of_limits(&self) -> impl Iterator<Item = (String, u64)> + '_ {
        OF_LIMITS.map(|number| (format!("F{number}"), self.counts[1][number]))
    }
}

/// Lines and their bytes.
#[derive(Debug, Default, PartialEq, Eq)]
pub struct Volume {
    pub lines: u64,
    pub bytes: u64,
}

/// What a client's connection ended by.
#[derive(Clone, Copy, Debug, PartialEq, Eq)]
pub enum Leaving {
    /// The client left.
    Left,
    /// The front refused what it asked for, or its group was lost.
    Refused,
    /// It had too much unread.
    Unread,
}

/// The words for these, in their order.
pub const LEAVINGS: [&str; 3] = ["left", "refused", "unread"];
/// The words for the purposes of replays, in their order.
pub const PURPOSES: [&str; 3] = ["restart", "move", "resume"];

/// The counts of a front, since it began.
pub struct Metrics {
    /// Whether somebody may ask for them.
    pub is_on: bool,
    pub begun: SystemTime,
    pub clients: u64,
    pub left: [u64; LEAVINGS.len()],
    pub received: Volume,
    pub sent: Volume,
    /// For each worker: the commands that it has answered, when it last did, and how often it was replaced.
    pub answered: Vec<u64>,
    last: Vec<Option<Instant>>,
    pub restarts: Vec<u64>,
    pub waiting: Histogram,
    pub service: Histogram,
    pub errors: Codes,
    pub refused: u64,
    pub replays: [u64; PURPOSES.len()],
    pub replays_failed: u64,
    pub spins: u64,
}

impl Metrics {
    pub fn new(workers: usize) -> Metrics {
        Metrics {
            is_on: false,
            begun: SystemTime::now(),
            clients: 0,
            left: [0; LEAVINGS.len()],
            received: Volume::default(),
            sent: Volume::default(),
            answered: vec![0; workers],
            last: vec![None; workers],
            restarts: vec![0; workers],
            waiting: Histogram::default(),
            service: Histogram::default(),
            errors: Codes { counts: [[0; CODES]; 2] },
            refused: 0,
            replays: [0; PURPOSES.len()],
            replays_failed: 0,
            spins: 0,
        }
    }

    /// The time, if times are taken.
    pub fn now(&self) -> Option<Instant> {
        self.is_on.then(Instant::now)
    }

    /// Counts what was read from a client.
    pub fn receive(&mut self, bytes: usize, lines: usize) {
        self.received.bytes += bytes as u64;
        self.received.lines += lines as u64;
    }

    /// Counts lines for a client.
    pub fn send(&mut self, lines: &[u8]) {
        if self.is_on {
            self.sent.bytes += lines.len() as u64;
            self.sent.lines += memchr_iter(b'\n', lines).count() as u64;
        }
    }

    /// Counts an error of the front, by which it refuses a request to itself.
    pub fn refuse(&mut self, code: &str) {
        self.refused += 1;
        self.errors.count(code.as_bytes());
    }

    /// Counts an error of the front, by which it enforces a limit, and its line for a client.
    pub fn exceed(&mut self, refusal: Refusal, line: &[u8]) {
        self.errors.count(refusal.code.as_bytes());
        self.send(line);
    }

    /// Notes the times of the command that a server was just given: when it came from its client, and now.
    pub fn give(&self, turns: &mut Turns, came: Option<Instant>) {
        if let (true, Some(command)) = (self.is_on, turns.under_way.back_mut()) {
            command.came = came;
            command.given = self.now();
        }
    }

    /// Counts a command that a server has answered. It began with the command when it had answered the one before.
    pub fn answer(&mut self, at: usize, command: &Command, line: &[u8], is_heard: bool) {
        self.answered[at] += u64::from(is_heard);
        if let Some(code) = line.strip_prefix(b"{\"error\":\"".as_slice()).filter(|_| is_heard) {
            self.errors.count(&code[..code.len().min(3)]);
        }
        if let (Some(given), Some(now)) = (command.given, self.now()) {
            let begun = self.last[at].map_or(given, |last| last.max(given));
            self.service.count(now.saturating_duration_since(begun));
            if let Some(came) = command.came {
                self.waiting.count(begun.saturating_duration_since(came));
            }
            self.last[at] = Some(now);
        }
    }

    /// Counts a client whose connection has ended.
    pub fn leave(&mut self, how: Leaving) {
        self.left[how as usize] += 1;
    }

    /// Counts a replay that is planned.
    pub fn replay(&mut self, purpose: Purpose) {
        let place = match purpose {
            Purpose::BringBack => 0,
            Purpose::Move => 1,
            Purpose::Resume => 2,
        };
        self.replays[place] += 1;
    }
}

#[cfg(test)]
mod tests {
    use super::*;

    #[test]
    fn a_histogram_counts_up_to_its_bounds() {
        let mut histogram = Histogram::default();
        for time in [0, 10, 11, 10_000_000, 10_000_001] {
            histogram.count(Duration::from_micros(time));
        }
        let counts: Vec<u64> = histogram.up_to().collect();
        assert_eq!((counts[0], counts[1], counts[17], counts[18], counts[19]), (2, 3, 3, 4, 5));
        assert_eq!(counts.len(), BOUNDS.len() + 1);
        assert!((histogram.seconds() - 20.000_022).abs() < 1e-9);
    }

    #[test]
    fn only_codes_are_counted() {
        let mut codes = Codes { counts: [[0; CODES]; 2] };
        for code in ["E04", "F10", "E04", "E4", "G01", "Exx", "E041", ""] {
            codes.count(code.as_bytes());
        }
        assert_eq!(codes.all().collect::<Vec<_>>(), [("E04".to_string(), 2), ("F10".to_string(), 1)]);
        codes.count(b"F19");
        let counted: Vec<(String, u64)> = codes.of_limits().collect();
        assert_eq!((counted.len(), counted[0].clone(), counted[8].clone()), (10, ("F11".into(), 0), ("F19".into(), 1)));
    }
}

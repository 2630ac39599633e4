//! Token buckets: how fast something may come, with a burst after a pause.

use std::time::{Duration, Instant};

use crate::limits::{time_of, Rate};
use crate::quotas::Account;

/// At most this part of what is left is counted in advance.
const PART: u64 = 16;

/// When the next unit would be due if all came evenly. A unit may come ahead of its time by what the rate allows. A unit that
/// is taken too early waits, and those after it wait longer.
#[derive(Clone, Copy, Debug, Default, PartialEq, Eq)]
pub struct Bucket {
    due: Option<Instant>,
}

impl Bucket {
    /// How long a unit has to wait now.
    pub fn wait(&self, rate: &Rate, now: Instant) -> Duration {
        match self.due {
            Some(due) if due > now => (due - now).saturating_sub(rate.ahead),
            _ => Duration::ZERO,
        }
    }

    /// How many units may be taken now without a wait.
    fn left(&self, rate: &Rate, now: Instant) -> u64 {
        let owed = self.due.map_or(Duration::ZERO, |due| due.saturating_duration_since(now));
        let free = rate.ahead.saturating_sub(owed).as_nanos().min(u128::from(u64::MAX)) as u64;
        free.saturating_mul(1_000) / rate.each // a unit takes picoseconds
    }

    /// Takes units.
    pub fn take(&mut self, count: u64, rate: &Rate, now: Instant) {
        let begun = self.due.map_or(now, |due| due.max(now));
        self.due = begun.checked_add(time_of(rate.each, count));
    }

    /// Whether all that was taken is due by now, so that nothing has to be kept of it.
    pub fn is_full(&self, now: Instant) -> bool {
        self.due.map_or(true, |due| due <= now)
    }
}

/// The accounts of a client, its user and its group, as far as there are any, with the rates that they may have.
pub struct Accounts<'a> {
    pub all: [Option<&'a mut Account>; 3],
    pub rates: [Option<Rate>; 3],
    /// The bucket that counts.
    pub bucket: fn(&mut Account) -> &mut Bucket,
}

impl Accounts<'_> {
    /// Calls `hear` with each bucket that has a rate, and whether it is that of the client, the user or the group.
    fn each(&mut self, mut hear: impl FnMut(usize, &mut Bucket, &Rate)) {
        for (scope, (account, rate)) in self.all.iter_mut().zip(&self.rates).enumerate() {
            if let (Some(account), Some(rate)) = (account, rate) {
                hear(scope, (self.bucket)(account), rate);
            }
        }
    }

    /// How long a unit has to wait now, and for which of the accounts.
    pub fn wait(&mut self, now: Instant) -> (Duration, usize) {
        let mut longest = (Duration::ZERO, 0);
        self.each(|scope, bucket, rate| {
            let wait = bucket.wait(rate, now);
            longest = if wait > longest.0 { (wait, scope) } else { longest };
        });
        longest
    }

    /// Takes units, and some in advance, so that not each of them is looked at: at most so many, and a small part of what each of
    /// the accounts has left. Returns how many these are.
    pub fn take(&mut self, count: u64, most: u64, now: Instant) -> u64 {
        let mut more = most;
        self.each(|_, bucket, rate| more = more.min(bucket.left(rate, now) / PART));
        self.each(|_, bucket, rate| bucket.take(count + more, rate, now));
        more
    }
}

/// How long units may be taken that are counted in advance.
pub const AHEAD: Duration = Duration::from_millis(100);

#[cfg(test)]
mod tests {
    use super::*;

    const RATE: Rate = Rate { each: 10_000_000_000, ahead: Duration::from_millis(40) };

    #[test]
    fn a_burst_is_taken_at_once_and_the_rest_evenly() {
        let (mut bucket, begun) = (Bucket::default(), Instant::now());
        let mut waits = Vec::new();
        for _ in 0..8 {
            waits.push(bucket.wait(&RATE, begun).as_millis());
            bucket.take(1, &RATE, begun);
        }
        assert_eq!(waits, [0, 0, 0, 0, 0, 10, 20, 30]);
        assert!(!bucket.is_full(begun) && bucket.is_full(begun + Duration::from_millis(80)));
    }

    #[test]
    fn a_pause_saves_up_no_more_than_the_burst() {
        let (mut bucket, begun) = (Bucket::default(), Instant::now());
        bucket.take(5, &RATE, begun);
        let later = begun + Duration::from_secs(3_600);
        bucket.take(5, &RATE, later);
        assert_eq!(bucket.wait(&RATE, later), Duration::from_millis(10));
    }

    #[test]
    fn little_is_counted_in_advance() {
        let (mut account, now) = (Account::default(), Instant::now());
        let rate = Rate { each: 1_000_000_000, ahead: Duration::from_millis(159) };
        let mut taken = |count, most| {
            let (all, rates) = ([Some(&mut account), None, None], [Some(rate), None, Some(RATE)]);
            Accounts { all, rates, bucket: |it| &mut it.commands }.take(count, most, now)
        };
        assert_eq!((taken(1, 5), taken(1, 32)), (5, 9), "159 of 160 are left, and then 153");
        assert_eq!((taken(125, 32), taken(1, 32)), (8, 0), "143 are left, and then 10");
    }

    #[test]
    fn the_longest_wait_counts() {
        let (mut own, mut group, now) = (Account::default(), Account::default(), Instant::now());
        own.commands.take(6, &RATE, now);
        group.commands.take(7, &RATE, now);
        let mut both = Accounts {
            all: [Some(&mut own), None, Some(&mut group)],
            rates: [Some(RATE); 3],
            bucket: |it| &mut it.commands,
        };
        assert_eq!(both.wait(now), (Duration::from_millis(30), 2));
        both.rates[2] = None;
        assert_eq!(both.wait(now), (Duration::from_millis(20), 0));
        both.rates = [None; 3];
        assert_eq!((both.wait(now), both.take(1, 8, now)), ((Duration::ZERO, 0), 8));
    }
}

//! Notifies systemd that the front serves, that it ends, and that it is not stuck.

use std::env;
use std::time::{Duration, Instant};

use sd_notify::{notify, NotifyState};

/// Sends notifications to systemd, if systemd has started the front and asks for them.
pub struct Notifier {
    /// The time between two notifications that the front is not stuck.
    every: Option<Duration>,
    due: Instant,
    /// The notification that the front is ready was sent.
    is_ready: bool,
}

impl Notifier {
    pub fn new() -> Notifier {
        Notifier { every: watchdog().map(|time| time / 2), due: Instant::now(), is_ready: false }
    }

    /// Notifies that clients can connect.
    pub fn ready(&mut self, words: &str) {
        self.is_ready = true;
        let _ = notify(false, &[NotifyState::Ready, NotifyState::Status(words)]);
    }

    /// Notifies that the front ends.
    pub fn stopping(&self) {
        let _ = notify(false, &[NotifyState::Stopping]);
    }

    /// Notifies that the front is not stuck, if it is time for that; returns the time until the next notification.
    pub fn tick(&mut self) -> Option<Duration> {
        let (every, now) = (self.every.filter(|_| self.is_ready)?, Instant::now());
        if now >= self.due {
            let _ = notify(false, &[NotifyState::Watchdog]);
            self.due = now + every;
        }
        Some(self.due - now)
    }
}

/// How long systemd waits before it regards this process as stuck, if it does. Without `WATCHDOG_PID` this process is meant.
fn watchdog() -> Option<Duration> {
    let own = std::process::id().to_string();
    if env::var("WATCHDOG_PID").map_or(false, |number| number != own) {
        return None;
    }
    let microseconds = env::var("WATCHDOG_USEC").ok()?.parse().ok()?;
    (microseconds > 0).then(|| Duration::from_micros(microseconds))
}

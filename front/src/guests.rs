//! Connections that speak for no session: monitors, which receive what the servers write, operators, which ask the front about
//! groups, and checks of the front's health.

use std::os::unix::io::AsRawFd;
use std::time::{Duration, Instant};

use mio::net::UnixStream;
use nix::poll::{poll, PollFd, PollFlags};
use serde_json::json;

use crate::doors::Comers;
use crate::first_lines::{ASKS_NOTHING, NOT_KNOWN};
use crate::front::Front;
use crate::health::Check;
use crate::lines::{asked_of_front, has_only, is_name, refusal, NOBODY};
use crate::people::{Came, Link};
use crate::queue::Queue;
use crate::tokens::{token, Kind};

/// The code of a monitor's last line, which says that the lines after it were left out.
const LEFT_OUT: &str = "F10";

/// The purpose of a guest.
pub enum Errand {
    /// A monitor of all sessions, or of one.
    Monitor(Option<String>),
    /// An operator, with the number of its moves that have not ended.
    Operator(usize),
    /// A check of the front's health.
    Health(Check),
}

/// A connection that speaks for no session.
pub struct Guest {
    name: String,
    pub link: Link,
    pub errand: Errand,
    is_touched: bool,
}

impl Front {
    /// Adds a new guest.
    pub fn enter_guest(&mut self, stream: UnixStream, comers: Comers) {
        let (place, kind, errand) = match comers {
            Comers::Operators => (1, "operator", Errand::Operator(0)),
            Comers::Checks => (2, "check", Errand::Health(Check::new(false))),
            Comers::Scrapes => (3, "scrape", Errand::Health(Check::new(true))),
            _ => (0, "monitor", Errand::Monitor(None)),
        };
        self.guest_counts[place] += 1;
        self.monitors += usize::from(place == 0);
        self.checks += usize::from(place == 2);
        self.scrapes += usize::from(place == 3);
        let name = format!("{kind} {}", self.guest_counts[place]);
        let key = self.next_guest;
        self.next_guest += 1;
        let mut link = Link::new(stream, token(Kind::Guest, key));
        link.watch(self.poll.registry());
        if !comers.are_checks() {
            self.log.note("guest_came", json!({"guest": name}), &format!("{name} has come"));
        }
        self.guests.insert(key, Guest { name, link, errand, is_touched: false });
        self.admit_guest(key, comers);
        self.touch_guest(key);
    }

    pub fn touch_guest(&mut self, key: usize) {
        if let Some(guest) = self.guests.get_mut(&key).filter(|guest| !guest.is_touched) {
            guest.is_touched = true;
            self.touched_guests.push(key);
        }
    }

    /// Records what a guest's connection is ready for.
    pub fn stir_guest(&mut self, key: usize, is_readable: bool, is_hung_up: bool) {
        if let Some(guest) = self.guests.get_mut(&key) {
            guest.link.stir(is_readable, is_hung_up);
        }
        self.touch_guest(key);
    }

    /// Whether any monitor is connected.
    pub fn has_monitors(&self) -> bool {
        self.monitors > 0
    }

    /// Sends a server's lines to the monitors that ask for them.
    pub fn tell_monitors(&mut self, session: &str, lines: &[u8]) {
        for (key, guest) in &mut self.guests {
            let is_concerned = match &guest.errand {
                Errand::Monitor(chosen) => chosen.as_ref().map_or(true, |chosen| chosen == session),
                _ => false,
            };
            if is_concerned && guest.link.fault.is_empty() {
                guest.link.tell(lines);
                if guest.link.leaves_too_much() {
                    let (name, how) = (&guest.name, guest.link.how_done());
                    self.log.note("guest_gone", json!({"guest": name, "how": how}), &format!("{name} {how}"));
                    guest.link.cut(&refusal(LEFT_OUT));
                    self.metrics.errors.count(LEFT_OUT.as_bytes());
                }
                if !std::mem::replace(&mut guest.is_touched, true) {
                    self.touched_guests.push(*key);
                }
            }
        }
    }

    /// Writes to guests what they have not read, and closes those that are done.
    pub fn settle_guests(&mut self) {
        for key in std::mem::take(&mut self.touched_guests) {
            if let Some(guest) = self.guests.get_mut(&key) {
                guest.is_touched = false;
            }
            self.look_after_guest(key);
        }
    }

    fn look_after_guest(&mut self, key: usize) {
        if matches!(self.guests.get(&key).map(|guest| &guest.errand), Some(Errand::Health(_))) {
            self.read_check(key);
        } else {
            let lines = self.read_guest(key);
            if let Some(line) = lines.first() {
                self.hear_guest(key, line, &lines);
            }
        }
        let guest = match self.guests.get_mut(&key) {
            Some(guest) => guest,
            None => return,
        };
        guest.link.write(self.poll.registry());
        let awaits = matches!(guest.errand, Errand::Operator(1..) | Errand::Health(Check { awaited: 1.., .. }));
        if guest.link.is_done(awaits) || guest.link.is_deaf {
            self.close_guest(key);
        } else if guest.link.is_readable && !guest.link.has_ended {
            self.touch_guest(key);
        }
    }

    /// Reads the lines that a guest has written.
    fn read_guest(&mut self, key: usize) -> Queue {
        let mut lines = Queue::default();
        if let Some(guest) = self.guests.get_mut(&key) {
            let link = &mut guest.link;
            if link.is_readable && !link.has_ended {
                match link.read(&mut self.chunk) {
                    Came::Nothing => {}
                    Came::Bytes(count) => link.cutter.feed(&self.chunk[..count], |line| lines.push(line)),
                    Came::End => link.cutter.finish(|line| lines.push(line)),
                }
            }
        }
        lines
    }

    /// Does what a guest's lines ask for: all of an operator's, and a monitor's first one.
    fn hear_guest(&mut self, key: usize, first: &[u8], lines: &Queue) {
        let guest = match self.guests.get_mut(&key) {
            Some(guest) => guest,
            None => return,
        };
        match &mut guest.errand {
            Errand::Operator(_) => lines.each(|line| self.do_for_operator(key, line)),
            Errand::Monitor(chosen) if !guest.link.has_spoken => {
                guest.link.has_spoken = true;
                if self.quotas.is_some() {
                    return self.choose_for(key, first);
                }
                match chosen_in(first) {
                    Some(name) => {
                        let answer = format!("{{\"front\":\"monitor\",\"session\":\"{name}\"}}\n");
                        guest.link.tell(answer.as_bytes());
                        *chosen = Some(name);
                    }
                    None => {
                        self.metrics.refuse(NOT_KNOWN);
                        guest.link.tell(&refusal(NOT_KNOWN));
                        guest.link.refuse(ASKS_NOTHING);
                    }
                }
            }
            Errand::Monitor(_) | Errand::Health(_) => {}
        }
    }

    /// Lets monitors read what is left for them when the front ends: until none has read anything for the time of a pause, and
    /// for at most the other time.
    pub fn finish_monitors(&mut self, pause: Duration, most: Duration) {
        let end = Instant::now() + most;
        let (mut until, mut left) = (Instant::now() + pause, usize::MAX);
        let registry = self.poll.registry();
        loop {
            let (mut ready, mut still) = (Vec::new(), 0);
            for guest in self.guests.values_mut().filter(|guest| matches!(guest.errand, Errand::Monitor(_))) {
                guest.link.write(registry);
                if !guest.link.unread.is_empty() {
                    still += guest.link.unread.len();
                    ready.push(PollFd::new(guest.link.stream.as_raw_fd(), PollFlags::POLLOUT));
                }
            }
            let now = Instant::now();
            until = if still < left { now + pause } else { until };
            left = still;
            let time = until.min(end).saturating_duration_since(now);
            if ready.is_empty() || time.is_zero() {
                return;
            }
            let _ = poll(&mut ready, time.as_millis() as i32 + 1);
        }
    }

    /// Closes a guest.
    fn close_guest(&mut self, key: usize) {
        if let Some(guest) = self.guests.remove(&key) {
            let (is_check, is_scrape) = match &guest.errand {
                Errand::Health(check) => (true, check.is_of_metrics),
                _ => (false, false),
            };
            self.forget_guest(key);
            self.monitors -= usize::from(matches!(guest.errand, Errand::Monitor(_)));
            self.checks -= usize::from(is_check && !is_scrape);
            self.scrapes -= usize::from(is_scrape);
            let (name, how, is_cut) = (guest.name, guest.link.how_done(), guest.link.is_cut);
            drop(guest.link);
            if !is_check {
                self.doors.reopen();
            }
            if !is_check && !is_cut {
                // for one that was cut off this was logged when lines were left out
                self.log.note("guest_gone", json!({"guest": name, "how": how}), &format!("{name} {how}"));
            }
        }
    }
}

/// The session whose lines a monitor's first line asks for.
fn chosen_in(line: &[u8]) -> Option<String> {
    let asked = asked_of_front(line).filter(|asked| has_only(asked, &["front", "session"]))?;
    let name = asked["session"].as_str().filter(|name| *name == NOBODY || is_name(name))?;
    (asked["front"] == "monitor").then(|| name.to_string())
}

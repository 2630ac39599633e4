//! Checks of a front's health, separate from its clients: each server is asked a question that changes nothing, for no
//! session, so clients can neither share, name nor fill what is asked.
//!
//! A check is a request of HTTP/1.0, `GET /`. The answer is one word: `alive` with the status 200, or with the status 503
//! `slow` if a server has not answered in time, `replaying` if groups are being brought back or a server is being started
//! again, and `full` if no more clients are let in. `GET /live` is for supervisors that would restart the front or close its
//! clients: there only `slow` has the status 503.

use std::time::{Duration, Instant};

use crate::front::{Front, NO_SESSION};
use crate::guests::{Errand, Guest};
use crate::people::{Came, Owner, Speaker};
use crate::scraping::{CONTENT, PATH};

/// A command for no session. The server answers it by an error, and keeps nothing of it.
pub const NOTHING: &[u8] = b"{\"do\":\"status\",\"session\":\"-\"}";
/// The path of a request that asks only whether the front and its servers live.
const LIVE: &[u8] = b"/live";
/// The most checks that are answered at the same time.
pub const CHECKS_MOST: usize = 8;
/// The most bytes that a request may have before it is complete.
const REQUEST_MOST: usize = 8_192;
/// The longest time that a server may take to answer, and that a request may take to arrive.
const PATIENCE: Duration = Duration::from_secs(2);
/// The time after that in which an answer has to be read.
const TIME_TO_READ: Duration = Duration::from_secs(8);

/// The state of a check.
pub struct Check {
    request: Vec<u8>,
    is_asked: bool,
    /// It asks only whether the front and its servers live.
    is_of_life: bool,
    /// It asks for metrics.
    pub is_of_metrics: bool,
    /// The number of servers that have not answered.
    pub awaited: usize,
    until: Instant,
}

impl Check {
    /// Makes a check that has not begun, of health or of metrics.
    pub fn new(is_of_metrics: bool) -> Check {
        let until = Instant::now() + PATIENCE;
        Check { request: Vec::new(), is_asked: false, is_of_life: false, is_of_metrics, awaited: 0, until }
    }
}

/// The method and path of a request, or nothing if the request is not complete yet.
fn asked_in(request: &[u8]) -> Option<(&[u8], &[u8])> {
    let is_whole = request.windows(2).any(|it| it == b"\n\n") || request.windows(4).any(|it| it == b"\r\n\r\n");
    let mut words = request.split(|byte| byte.is_ascii_whitespace());
    is_whole.then(|| (words.next().unwrap_or_default(), words.next().unwrap_or_default()))
}

/// An answer with a text of this type. The answer to a `HEAD` request leaves the text out.
fn answer_of(status: &str, content: &str, text: &str, is_head: bool) -> Vec<u8> {
    let length = text.len();
    let head = format!(
        "HTTP/1.0 {status}\r\nContent-Type: {content}\r\nContent-Length: {length}\r\nCache-Control: no-store\r\nConnection: close\r\n"
    );
    let body = if is_head { "" } else { text };
    format!("{head}\r\n{body}").into_bytes()
}

impl Front {
    /// Reads the request of a check.
    pub fn read_check(&mut self, key: usize) {
        let guest = match self.guests.get_mut(&key) {
            Some(guest) if guest.link.is_readable && !guest.link.has_ended => guest,
            _ => return,
        };
        let check = match &mut guest.errand {
            Errand::Health(check) => check,
            _ => return,
        };
        let count = match guest.link.read(&mut self.chunk) {
            Came::Bytes(count) if !check.is_asked => count,
            _ => return,
        };
        check.request.extend_from_slice(&self.chunk[..count]);
        match asked_in(&check.request) {
            Some((b"GET" | b"HEAD", path)) if check.is_of_metrics => {
                let is_there = path == PATH;
                check.is_asked = true;
                self.answer_scrape(key, is_there);
            }
            Some((b"GET" | b"HEAD", path)) => {
                (check.is_asked, check.is_of_life) = (true, path == LIVE);
                self.check_health(key);
            }
            Some(_) => self.answer_check(key, "405 Method Not Allowed", "GET"),
            None if check.request.len() > REQUEST_MOST => self.answer_check(key, "400 Bad Request", "long"),
            None => {}
        }
    }

    /// Asks all servers for a check.
    fn check_health(&mut self, guest: usize) {
        let is_replaying = self.workers.iter().any(|worker| worker.server.is_none() || !worker.replays.is_empty());
        let state = match (is_replaying, self.doors.are_shut()) {
            (true, _) => Some("replaying"),
            (false, true) => Some("full"),
            (false, false) => None,
        };
        if let Some(state) = state {
            return self.tell_health(guest, state);
        }
        if let Some(Errand::Health(check)) = self.guests.get_mut(&guest).map(|guest| &mut guest.errand) {
            (check.awaited, check.until) = (self.workers.len(), Instant::now() + PATIENCE);
        }
        for at in 0..self.workers.len() {
            let mut speaker = Speaker::new(Owner::Health(guest), NO_SESSION);
            speaker.waiting.push(NOTHING);
            let key = self.speakers.insert(speaker);
            self.workers[at].turns.await_turn(key, &mut self.speakers[key]);
        }
    }

    /// Counts a server's answer to a check.
    pub fn heard_health(&mut self, guest: usize) {
        let is_last = match self.guests.get_mut(&guest).map(|guest| &mut guest.errand) {
            Some(Errand::Health(check)) if check.awaited > 0 => {
                check.awaited -= 1;
                check.awaited == 0
            }
            _ => false,
        };
        if is_last {
            self.tell_health(guest, "alive");
        }
    }

    /// Answers `slow` to checks that have waited too long for a server, and closes those that sent no request in time; returns
    /// the time until the next is due.
    pub fn look_at_checks(&mut self) -> Option<Duration> {
        if self.checks + self.scrapes == 0 {
            return None;
        }
        let now = Instant::now();
        self.close_unread_checks(now);
        let awaited = self.guests.iter().filter(|(_, guest)| !guest.link.has_ended);
        let awaited = awaited.filter_map(|(key, guest)| match &guest.errand {
            Errand::Health(check) => Some((*key, check.until, check.is_asked)),
            _ => None,
        });
        let awaited: Vec<(usize, Instant, bool)> = awaited.collect();
        for (key, _, is_asked) in awaited.iter().filter(|(_, until, _)| *until <= now) {
            match is_asked {
                true => self.tell_health(*key, "slow"),
                false => self.answer_check(*key, "408 Request Timeout", "late"),
            }
        }
        let next = awaited.iter().filter(|(_, until, _)| *until > now).map(|(_, until, _)| *until).min();
        let unread = awaited.len() < self.checks + self.scrapes;
        let next = next.map(|until| until - now);
        if unread {
            Some(next.map_or(PATIENCE, |next| next.min(PATIENCE)))
        } else {
            next
        }
    }

    /// Closes checks that have not read their answers for a long time.
    fn close_unread_checks(&mut self, now: Instant) {
        let is_late = |guest: &Guest| match &guest.errand {
            Errand::Health(check) => guest.link.has_ended && !guest.link.is_deaf && check.until + TIME_TO_READ <= now,
            _ => false,
        };
        let late: Vec<usize> = self.guests.iter().filter(|(_, guest)| is_late(guest)).map(|(key, _)| *key).collect();
        for key in late {
            if let Some(guest) = self.guests.get_mut(&key) {
                guest.link.overflow();
            }
            self.touch_guest(key);
        }
    }

    /// Sends the front's health to a check.
    pub fn tell_health(&mut self, key: usize, state: &str) {
        let is_of_life = match self.guests.get(&key).map(|guest| &guest.errand) {
            Some(Errand::Health(check)) => check.is_of_life,
            _ => return,
        };
        let is_well = state == "alive" || is_of_life && state != "slow";
        self.answer_check(key, if is_well { "200 OK" } else { "503 Service Unavailable" }, state);
    }

    /// Answers a request for metrics.
    fn answer_scrape(&mut self, key: usize, is_there: bool) {
        if !is_there {
            return self.answer_check(key, "404 Not Found", "/metrics");
        }
        let page = self.page_of_metrics();
        self.answer_request(key, "200 OK", CONTENT, &page);
    }

    fn answer_check(&mut self, key: usize, status: &str, word: &str) {
        self.answer_request(key, status, "text/plain", &format!("{word}\n"));
    }

    fn answer_request(&mut self, key: usize, status: &str, content: &str, text: &str) {
        if let Some(guest) = self.guests.get_mut(&key).filter(|guest| guest.link.fault.is_empty()) {
            let is_head = match &mut guest.errand {
                Errand::Health(check) => {
                    check.awaited = 0;
                    check.request.starts_with(b"HEAD ")
                }
                _ => return,
            };
            guest.link.tell(&answer_of(status, content, text, is_head));
            guest.link.refuse("its question is answered");
            self.touch_guest(key);
        }
    }
}

#[cfg(test)]
mod tests {
    use super::*;

    #[test]
    fn a_request_is_whole_with_its_blank_line() {
        for (request, asked) in [
            ("GET / HTTP/1.0\r\n\r\n", Some(("GET", "/"))),
            ("GET /live\n\n", Some(("GET", "/live"))),
            ("HEAD / HTTP/1.1\r\nHost: a\r\n\r\nmore", Some(("HEAD", "/"))),
            ("GET / HTTP/1.0\r\nHost: a\r\n", None),
            ("", None),
            ("\r\n\r\n", Some(("", ""))),
        ] {
            let wanted = asked.map(|(method, path)| (method.as_bytes(), path.as_bytes()));
            assert_eq!(asked_in(request.as_bytes()), wanted, "{request:?}");
        }
    }
}

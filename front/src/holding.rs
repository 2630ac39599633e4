//! What clients make the front hold, and for how long: unfinished lines, unread bytes, memory and idle connections.

use std::cmp::Reverse;
use std::time::{Duration, Instant};

use crate::buckets::{Accounts, AHEAD};
use crate::front::Front;
use crate::lines::NOBODY;
use crate::people::{Client, ClientKey, Speech};
use crate::quotas::{
    scope_over, Account, Held, Refusal, State, Waiting, CLIENT, HALF_LINE, HALF_LINE_TIME, IDLE, LOOK, MEMORY,
    OF_CONNECTION, UNREAD, USER,
};

/// The most bytes that are counted in advance.
const BYTES_AHEAD: u64 = 4_096;

impl Front {
    /// Whether a client is not read now, because it has written too much.
    pub fn is_read_later(&self, key: ClientKey) -> bool {
        self.clients[key].quota.as_ref().map_or(false, |held| held.read_at.is_some())
    }

    /// Counts bytes that were read from a client.
    pub fn count_read(&mut self, key: ClientKey, count: usize) {
        let client = &mut self.clients[key];
        let (held, half_line) = match &mut client.quota {
            Some(held) => (held, client.link.cutter.half_line() as u64),
            None => return,
        };
        let is_granted = count as u64 <= held.granted && self.now < held.granted_until;
        if is_granted {
            held.granted -= count as u64;
        }
        let has_half_line = half_line > 0 || held.own.half_line > 0;
        if !is_granted {
            self.count_bytes(key, count as u64);
        }
        if has_half_line {
            self.count_half_line(key, half_line);
        }
    }

    /// Counts bytes that a client has written, and some in advance if there is much room. If they are too many, it is read later.
    fn count_bytes(&mut self, key: ClientKey, count: u64) {
        let (quotas, held) = match (&mut self.quotas, &mut self.clients[key].quota) {
            (Some(quotas), Some(held)) => (quotas, held),
            _ => return,
        };
        let rates = quotas.limits.quotas(held.who.uid).map(|quota| quota.input_bytes);
        let user = quotas.users.at(held.user, held.who.uid);
        let group = held.group.and_then(|group| self.groups.get_mut(group)).map(|group| &mut group.account);
        let mut accounts =
            Accounts { all: [Some(&mut held.own), Some(user), group], rates, bucket: |account| &mut account.bytes };
        let more = accounts.take(count, BYTES_AHEAD, self.now);
        let (wait, _) = accounts.wait(self.now);
        (held.granted, held.granted_until) = (more, self.now + AHEAD);
        if wait > Duration::ZERO {
            let at = self.now + wait;
            held.read_at = Some(at);
            quotas.waiting.push(Reverse((at, Waiting::Reader(key))));
        }
    }

    /// Counts the bytes of a client's unfinished line, and ends a client that has too many.
    fn count_half_line(&mut self, key: ClientKey, half_line: u64) {
        let (quotas, held) = match (&mut self.quotas, &mut self.clients[key].quota) {
            (Some(quotas), Some(held)) => (quotas, held),
            _ => return,
        };
        let before = std::mem::replace(&mut held.own.half_line, half_line);
        // while it is not read, it may have written the rest
        let since = held.half_line_since.or(Some(self.now)).map(|since| held.read_at.map_or(since, |at| since.max(at)));
        held.half_line_since = since.filter(|_| half_line > 0);
        let change = |account: &mut Account| {
            account.half_line = (account.half_line + half_line).saturating_sub(before);
            account.half_line
        };
        let of_user = change(quotas.users.at(held.user, held.who.uid));
        let group = held.group.and_then(|group| self.groups.get_mut(group));
        let has = [half_line, of_user, group.map_or(0, |group| change(&mut group.account))];
        let of = quotas.limits.quotas(held.who.uid).map(|quota| quota.half_line_bytes);
        if let Some(scope) = scope_over(of, has, 0).filter(|_| half_line > before) {
            self.end_client(key, HALF_LINE.refusal(scope));
        }
    }

    /// Has a client receive a last line after the answers that it waits for, and then be closed. Nothing more is read from it.
    fn end_client(&mut self, key: ClientKey, refusal: Refusal) {
        let client = &mut self.clients[key];
        client.link.has_ended = true;
        if let Some(held) = &mut client.quota {
            held.last = Some(refusal);
        }
        self.touch(key);
    }

    /// Sends a client its last line, if all that it waits for is answered.
    pub fn say_last(&mut self, key: ClientKey, awaits: bool) {
        let held = self.clients[key].quota.as_mut().filter(|held| held.last.is_some() && !awaits);
        if let Some(refusal) = held.and_then(|held| held.last.take()) {
            let line = refusal.line(&self.name_of(key));
            let link = &mut self.clients[key].link;
            link.tell(&line);
            link.refuse(&format!("it exceeds {}", refusal.limit));
            link.write(self.poll.registry());
            self.metrics.exceed(refusal, &line);
            self.close_in_time(key);
        }
    }

    /// The name of a client's session, as its last line has it.
    fn name_of(&self, key: ClientKey) -> String {
        match &self.clients[key].speech {
            Speech::One(speaker) => self.sessions[self.speakers[*speaker].session].name.clone(),
            Speech::Named(_) => NOBODY.to_string(),
        }
    }

    // ---- what is unread, and what the front holds ----

    /// Counts what a client makes the front hold, if that has changed, and closes clients if it is too much.
    pub fn bound_client(&mut self, key: ClientKey) {
        let client = &self.clients[key];
        let held = match &client.quota {
            Some(held) => held,
            None => return,
        };
        let unread = client.link.unread.len() as u64;
        let holds = self.bytes_of(client);
        if holds == held.holds && unread == held.own.unread {
            return; // as after most lines
        }
        let is_more = unread > held.own.unread;
        let has = self.count_held(key, holds, unread);
        if is_more {
            self.bound_unread(key, has);
        }
        self.bound_memory();
    }

    /// Counts what a client makes the front hold; returns how much it, its user and its group have unread.
    fn count_held(&mut self, key: ClientKey, holds: usize, unread: u64) -> [u64; 3] {
        let (quotas, held) = match (&mut self.quotas, &mut self.clients[key].quota) {
            (Some(quotas), Some(held)) => (quotas, held),
            _ => return [0; 3],
        };
        quotas.held = quotas.held + holds - std::mem::replace(&mut held.holds, holds);
        let before = std::mem::replace(&mut held.own.unread, unread);
        let change = |account: &mut Account| {
            account.unread = (account.unread + unread).saturating_sub(before);
            account.unread
        };
        let of_user = change(quotas.users.at(held.user, held.who.uid));
        let group = held.group.and_then(|group| self.groups.get_mut(group));
        [unread, of_user, group.map_or(0, |group| change(&mut group.account))]
    }

    /// Closes the client that has most unread of those that share a limit, if they have too much.
    fn bound_unread(&mut self, key: ClientKey, has: [u64; 3]) {
        let (quotas, held) = match (&self.quotas, &self.clients[key].quota) {
            (Some(quotas), Some(held)) => (quotas, held),
            _ => return,
        };
        let of = quotas.limits.quotas(held.who.uid).map(|quota| quota.unread_bytes);
        if let Some(scope) = scope_over(of, has, 0) {
            let most = self.most_unread(key, scope);
            most.into_iter().for_each(|most| self.cut_client(most, UNREAD.refusal(scope)));
        }
    }

    /// The client that has most unread, of those that one belongs to.
    fn most_unread(&self, key: ClientKey, scope: usize) -> Option<ClientKey> {
        let one = self.clients[key].quota.as_ref()?;
        let is_of = |other: ClientKey, held: &Held| match scope {
            CLIENT => other == key,
            USER => held.who.uid == one.who.uid,
            _ => held.group == one.group,
        };
        let all = self.clients.iter().filter(|(_, client)| !client.link.is_cut);
        let all = all.filter_map(|(other, client)| Some((client.quota.as_ref()?.own.unread, other, client.quota.as_ref()?)));
        all.filter(|(_, other, held)| is_of(*other, held))
            .map(|(unread, other, _)| (unread, other))
            .max()
            .map(|(_, other)| other)
    }

    /// The bytes that a client makes the front hold: those that it has not read, an unfinished line, and lines that wait.
    fn bytes_of(&self, client: &Client) -> usize {
        let waiting = match &client.speech {
            Speech::One(speaker) => self.speakers[*speaker].waiting.capacity(),
            Speech::Named(voices) => voices.busy.iter().map(|voice| self.speakers[*voice].waiting.capacity()).sum(),
        };
        client.link.unread.capacity() + client.link.cutter.capacity() + waiting + OF_CONNECTION
    }

    /// Closes those that make the front hold most, until the front holds no more than it may.
    pub fn bound_memory(&mut self) {
        let (held, most) = match self.quotas.as_ref().map(|quotas| (quotas.held, quotas.limits.front_memory)) {
            Some((held, Some(most))) => (held, most as usize),
            _ => return,
        };
        let guests: usize = self.guests.values().map(|guest| guest.link.unread.capacity()).sum();
        let servers: usize =
            self.workers.iter().filter_map(|worker| worker.server.as_ref()).map(|it| it.given.capacity()).sum();
        if held + guests + servers <= most {
            return;
        }
        let all = self.clients.iter().filter(|(_, it)| !it.link.is_given_up());
        let client = all.filter_map(|(key, it)| Some((it.quota.as_ref()?.holds, key, it.link.is_cut))).max();
        let guests = self.guests.iter().filter(|(_, it)| it.link.fault.is_empty());
        let guest = guests.map(|(key, it)| (it.link.unread.capacity(), *key)).max();
        match (client, guest) {
            (Some((holds, ..)), Some((more, guest))) if more > holds => self.cut_guest(guest, MEMORY),
            (Some((_, client, false)), _) => self.cut_client(client, MEMORY),
            (Some((_, client, true)), _) => {
                // even the rest of the line that has begun is too much
                let link = &mut self.clients[client].link;
                link.unread.clear();
                link.give_up();
                self.recount(client);
                self.touch(client);
            }
            (None, Some((_, guest))) => self.cut_guest(guest, MEMORY),
            (None, None) => {}
        }
    }

    fn cut_guest(&mut self, key: usize, refusal: Refusal) {
        if let Some(guest) = self.guests.get_mut(&key) {
            guest.link.cut(&refusal.line(NOBODY));
            self.metrics.errors.count(refusal.code.as_bytes());
            self.touch_guest(key);
        }
    }

    /// Leaves out what a client has not read, except the rest of a line that has begun, and closes it after a last line.
    fn cut_client(&mut self, key: ClientKey, refusal: Refusal) {
        let line = refusal.line(&self.name_of(key));
        let client = &mut self.clients[key];
        client.link.cut(&line);
        client.link.fault = format!("it exceeds {}", refusal.limit);
        self.metrics.exceed(refusal, &line);
        let voices = match &client.speech {
            Speech::One(speaker) => vec![*speaker],
            Speech::Named(voices) => voices.busy.clone(),
        };
        for voice in voices {
            let speaker = &mut self.speakers[voice];
            speaker.waiting.clear();
            speaker.owes_spin = false;
            if let Some(more) = &mut speaker.more {
                more.named.clear();
            }
        }
        self.recount(key);
        self.close_in_time(key);
    }

    /// Counts what is left of what a client made the front hold.
    fn recount(&mut self, key: ClientKey) {
        let client = &self.clients[key];
        self.count_held(key, self.bytes_of(client), client.link.unread.len() as u64);
    }

    // ---- time ----

    /// Continues with those that have waited long enough, and now and then closes clients that take too long; returns the time
    /// until others have waited long enough.
    pub fn look_at_quotas(&mut self) -> Option<Duration> {
        let quotas = self.quotas.as_ref()?;
        if quotas.waiting.is_empty() && self.now < quotas.look_at {
            return None; // as after most lines
        }
        let now = Instant::now();
        self.wake(now);
        let quotas = self.quotas.as_mut()?;
        let next = quotas.waiting.peek().map(|Reverse((at, _))| at.saturating_duration_since(now));
        if now >= quotas.look_at {
            quotas.look_at = now + LOOK;
            quotas.users.clear_void(now);
            quotas.gone.retain(|_, account| !account.is_void(now));
            let keys: Vec<ClientKey> = self.clients.iter().map(|(key, _)| key).collect();
            keys.into_iter().for_each(|key| self.look_at_client(key, now));
        }
        next
    }

    /// The time to wait, if there is one: not so long that clients are looked at too late.
    pub fn until_look(&self, due: Option<Duration>) -> Option<Duration> {
        match due {
            _ if self.quotas.is_none() || self.clients.is_empty() => due,
            Some(due) => Some(due.min(LOOK)),
            None => Some(LOOK),
        }
    }

    fn wake(&mut self, now: Instant) {
        while let Some(quotas) = &mut self.quotas {
            match quotas.waiting.peek() {
                Some(Reverse((at, _))) if *at <= now => {}
                _ => return,
            }
            match quotas.waiting.pop() {
                Some(Reverse((at, Waiting::Speaker(key)))) => {
                    let waits = self.speakers.get(key).map_or(false, |speaker| speaker.pace.state == State::Waits(at));
                    if waits {
                        self.speakers[key].pace.state = State::Paid;
                        let is_slow = self.speakers[key].is_slow;
                        self.await_turn(key, is_slow);
                        self.has_woken = true;
                    }
                }
                Some(Reverse((at, Waiting::Reader(key)))) => {
                    let held = self.clients.get_mut(key).and_then(|client| client.quota.as_mut());
                    if let Some(held) = held.filter(|held| held.read_at == Some(at)) {
                        held.read_at = None;
                        self.touch(key);
                    }
                }
                None => {}
            }
        }
    }

    /// Closes a client that takes too long.
    fn look_at_client(&mut self, key: ClientKey, now: Instant) {
        let (awaits, is_read) = (self.awaits(key), self.is_read(key));
        let client = &mut self.clients[key];
        let traffic = client.link.traffic;
        let (held, limits) = match (&mut client.quota, &self.quotas) {
            (Some(held), Some(quotas)) => (held, &quotas.limits),
            _ => return,
        };
        if held.traffic != traffic || awaits {
            (held.traffic, held.active) = (traffic, now);
        }
        if !is_read {
            held.half_line_since = held.half_line_since.map(|since| since.max(now));
            // the client may have written the rest
        }
        if held.until.map_or(false, |until| until <= now) {
            if held.is_in || client.link.has_ended {
                client.link.give_up();
                return self.touch(key);
            }
            return self.refuse_entry(key);
        }
        if client.link.has_ended {
            return;
        }
        let is_late = |since: Option<Instant>, most: Option<Duration>| {
            since.zip(most).map_or(false, |(since, most)| now.saturating_duration_since(since) >= most)
        };
        if is_late(held.half_line_since, limits.half_line_time) {
            self.end_client(key, HALF_LINE_TIME);
        } else if is_late(Some(held.active), limits.idle_time) {
            self.end_client(key, IDLE);
        }
    }
}

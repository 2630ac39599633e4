//! Clients that connect, write, read and leave, each with a session of its own or with a shared one.

use std::time::Duration;

use serde_json::json;

use crate::front::Front;
use crate::joining::may_join;
use crate::lines::RESET;
use crate::metrics::LEAVINGS;
use crate::network::Peer;
use crate::people::{
    Came, Client, ClientKey, Link, Owner, Session, SessionKey, Speaker, SpeakerKey, Speech, UNREAD_OF_ALL, UNREAD_SLOW,
};
use crate::quotas::State;
use crate::tokens::{token, Kind};
use crate::wire::Wire;

/// The longest time that answers wait for further ones. It grows with the speakers that wait for turns, up to the last value.
const HELD: Duration = Duration::from_millis(1);
const HELD_FOR_EACH: Duration = Duration::from_micros(20);
const HELD_LONGEST: Duration = Duration::from_millis(20);
/// No more clients are let in when this many disconnected clients still have commands to be done.
const LEFT_MOST: usize = 2_000;
/// The most bytes of answers that wait.
const HELD_MOST: usize = 4_096;

impl Front {
    /// Adds a new client.
    pub fn enter_client(&mut self, stream: impl Into<Wire>, peer: Option<Box<Peer>>) {
        self.count += 1;
        self.metrics.clients += 1;
        let number = self.count;
        let key = self.clients.vacant_entry().key();
        let mut link = Link::new(stream, token(Kind::Client, key));
        link.watch(self.poll.registry());
        link.is_readable = peer.is_some(); // what came with a handshake causes no event
        let speech =
            if self.named_by_clients { Speech::Named(Box::default()) } else { Speech::One(self.speaker_for(key, number)) };
        let (how, fields) = match &peer {
            Some(peer) => (peer.how(), peer.fields(number)),
            None => (String::new(), json!({"client": number})),
        };
        self.clients.insert(Client { number, link, peer, speech, is_touched: false, quota: None });
        self.touch(key);
        self.log.note("client_came", fields, &format!("c{number} has come{how}"));
        self.admit_client(key);
    }

    /// Makes the speaker of a new client, which has a session of its own.
    fn speaker_for(&mut self, client: ClientKey, number: u64) -> SpeakerKey {
        let name = format!("c{number}");
        let mut session = Session::new(&name, false);
        session.members.push(client);
        session.holds = 1;
        let session = self.sessions.insert(session);
        if let Some(inspector) = &mut self.inspector {
            inspector.sessions.insert(name, session);
        }
        let mut speaker = Speaker::new(Owner::Client(client), session);
        if self.pool.is_none() {
            self.workers[0].turns.enter(&mut speaker);
        }
        let speaker = self.speakers.insert(speaker);
        if self.live.are_all {
            self.let_live(speaker);
        }
        speaker
    }

    /// Puts a client on the list of those to be looked after.
    pub fn touch(&mut self, key: ClientKey) {
        if let Some(client) = self.clients.get_mut(key) {
            if !client.is_touched {
                client.is_touched = true;
                self.touched.push(key);
            }
        }
    }

    /// Reads more from a client whose last line was given to the server, so that it keeps its place among those that wait.
    pub fn read_on(&mut self, key: ClientKey) {
        if self.clients.get(key).map_or(false, |client| client.link.is_readable) {
            if self.is_read(key) {
                self.read_client(key);
            }
            self.touch(key);
        }
    }

    /// Sends lines to a client.
    pub fn deliver(&mut self, key: ClientKey, lines: &[u8]) {
        if let Some(client) = self.clients.get_mut(key) {
            client.link.tell(lines);
            self.metrics.send(lines);
            if !client.is_touched {
                client.is_touched = true;
                self.touched.push(key);
            }
        }
    }

    /// Sends an answer to a client, and puts the client on the list to be looked after unless its answers are held.
    pub fn tell_client(&mut self, key: ClientKey, line: &[u8]) {
        if let Some(client) = self.clients.get_mut(key) {
            client.link.tell(line);
            self.metrics.send(line);
        }
    }

    /// Puts an answered client on the list to be looked after, unless its answers wait for further ones. This answer may have
    /// been all that it waited for before it is closed.
    pub fn touch_unless_held(&mut self, key: ClientKey) {
        let is_held = self.clients.get(key).map_or(false, |client| {
            let link = &client.link;
            link.held_since.is_some() && !link.is_due && !link.has_ended && link.unread.len() <= HELD_MOST
        });
        if !is_held || !self.awaits(key) {
            self.touch(key);
        }
    }

    /// Records what a client's connection is ready for.
    pub fn stir_client(&mut self, key: ClientKey, is_readable: bool, is_hung_up: bool) {
        if let Some(client) = self.clients.get_mut(key) {
            client.link.stir(is_readable, is_hung_up);
        }
        self.touch(key);
    }

    /// Looks after the clients on the list.
    pub fn settle(&mut self) {
        let mut touched = std::mem::take(&mut self.touched);
        for key in touched.drain(..) {
            self.look_after(key);
        }
        touched.append(&mut self.touched);
        self.touched = touched;
    }

    /// Writes to a client what it has not read, reads from it if that is allowed now, and closes it when it is done.
    fn look_after(&mut self, key: ClientKey) {
        let client = match self.clients.get_mut(key) {
            Some(client) => client,
            None => return,
        };
        client.is_touched = false;
        if !self.is_held(key) {
            let link = &mut self.clients[key].link;
            link.held_since = None;
            link.is_due = false;
            link.write(self.poll.registry());
        }
        let client = &self.clients[key];
        if client.link.is_readable && self.is_read(key) {
            self.read_client(key);
        }
        let awaits = self.awaits(key);
        self.say_last(key, awaits);
        self.count_unread(key);
        self.bound_client(key);
        let client = &mut self.clients[key];
        let is_left = client.link.is_left() && matches!(client.speech, Speech::One(_));
        if is_left || client.link.is_done(awaits) {
            return self.close_client(key);
        }
        let is_slow = client.link.unread.len() > UNREAD_SLOW;
        match &client.speech {
            Speech::One(speaker) => {
                let speaker = *speaker;
                self.await_turn(speaker, is_slow);
            }
            Speech::Named(_) => self.await_turns(key, is_slow),
        }
        if self.clients[key].link.is_readable && self.is_read(key) {
            self.touch(key); // there is more of a long line
        }
    }

    /// Whether a client's answers wait for further ones, so that fewer writes send them. They wait for a short time, if more
    /// of the client's commands are under way.
    fn is_held(&mut self, key: ClientKey) -> bool {
        let link = &self.clients[key].link;
        let unread = link.unread.len();
        if unread == 0 || unread > HELD_MOST || link.is_due || link.has_ended || !self.awaits(key) {
            return false;
        }
        let link = &mut self.clients[key].link;
        if link.held_since.is_none() {
            link.held_since = Some(self.now);
            self.held.push_back((self.now, key));
        }
        true
    }

    /// How long answers wait at present.
    fn hold_time(&self) -> Duration {
        let waiting: usize = self.workers.iter().map(|worker| worker.turns.waiting()).sum();
        (HELD + HELD_FOR_EACH * waiting as u32).min(HELD_LONGEST)
    }

    /// Looks after the clients whose answers have waited long enough; returns the time until the next ones have.
    pub fn touch_held(&mut self) -> Option<Duration> {
        let hold_time = self.hold_time();
        while let Some(&(since, key)) = self.held.front() {
            let is_held = self.clients.get(key).map_or(false, |client| client.link.held_since == Some(since));
            if is_held && self.now < since + hold_time {
                return Some(since + hold_time - self.now);
            }
            self.held.pop_front();
            if is_held {
                self.clients[key].link.is_due = true;
                self.touch(key);
            }
        }
        None
    }

    /// Counts what a client has not read. If all clients together leave too much unread, the one with the most is closed.
    fn count_unread(&mut self, key: ClientKey) {
        let link = &mut self.clients[key].link;
        self.unread = self.unread + link.unread.len() - link.counted;
        link.counted = link.unread.len();
        while self.unread > UNREAD_OF_ALL {
            let most = self.clients.iter().max_by_key(|(_, client)| client.link.counted).map(|(most, _)| most);
            let link = &mut self.clients[most.unwrap_or(key)].link;
            self.unread -= std::mem::take(&mut link.counted);
            link.unread.clear();
            link.overflow();
            self.touch(most.unwrap_or(key));
        }
    }

    /// Queues a speaker for its turn.
    pub fn await_turn(&mut self, key: SpeakerKey, is_slow: bool) {
        let speaker = &mut self.speakers[key];
        speaker.is_slow = is_slow;
        let at = speaker.group.map_or(0, |group| self.groups[group].worker);
        self.workers[at].turns.await_turn(key, speaker);
    }

    /// Whether a client is read now: not while its lines wait, and not while it has much to read.
    pub fn is_read(&self, key: ClientKey) -> bool {
        let client = &self.clients[key];
        let waits = match &client.speech {
            Speech::One(speaker) => !self.speakers[*speaker].waiting.is_empty(),
            Speech::Named(voices) => voices.busy.iter().any(|voice| !self.speakers[*voice].waiting.is_empty()),
        };
        !(waits || client.link.has_ended || client.link.unread.len() > UNREAD_SLOW || self.is_read_later(key))
    }

    /// Whether a client still waits for an answer.
    pub fn awaits(&self, key: ClientKey) -> bool {
        match &self.clients[key].speech {
            Speech::One(speaker) => self.speakers[*speaker].awaits(),
            Speech::Named(voices) => voices.busy.iter().any(|voice| self.speakers[*voice].awaits()),
        }
    }

    /// Reads what a client has written, and queues its lines for their turns.
    fn read_client(&mut self, key: ClientKey) {
        let has_lines = match self.queue_lines(key) {
            Some(has_lines) => has_lines,
            None => return,
        };
        let client = &mut self.clients[key];
        if !has_lines {
            return;
        }
        let has_spoken = std::mem::replace(&mut client.link.has_spoken, true);
        match client.speech {
            Speech::One(speaker) => {
                self.speakers[speaker].came = self.metrics.now();
                if !has_spoken {
                    self.hear_first(key, speaker);
                }
            }
            Speech::Named(_) => self.sort(key, has_spoken),
        }
        if !has_spoken {
            self.clients[key].link.write(self.poll.registry());
        }
    }

    /// Reads a client and queues the lines; returns whether there are any, or none if nothing was read.
    fn queue_lines(&mut self, key: ClientKey) -> Option<bool> {
        let client = &mut self.clients[key];
        let came = client.link.read(&mut self.chunk);
        let (link, is_limited) = (&mut client.link, client.quota.is_some());
        let (queue, pace) = match &client.speech {
            Speech::One(speaker) => {
                let speaker = &mut self.speakers[*speaker];
                (&mut speaker.waiting, Some(&mut speaker.pace))
            }
            Speech::Named(_) => (&mut self.sorted, None),
        };
        let (before, count, mut has_join) = (queue.count(), came.count(), false);
        let mut hear = |line: &[u8]| {
            has_join |= is_limited && may_join(line);
            queue.push(line);
        };
        match came {
            Came::Nothing => return None,
            Came::Bytes(count) => link.cutter.feed(&self.chunk[..count], &mut hear),
            Came::End => link.cutter.finish(&mut hear),
        }
        let has_lines = !queue.is_empty();
        self.metrics.receive(count, queue.count() - before);
        if let Some(pace) = pace.filter(|_| has_lines) {
            pace.may_join = has_join;
        }
        if is_limited {
            self.count_read(key, count);
        }
        Some(has_lines)
    }

    /// Closes a client. Its commands under way are still done, and nobody receives their answers.
    fn close_client(&mut self, key: ClientKey) {
        let client = self.clients.remove(key);
        self.unread -= client.link.counted;
        self.metrics.leave(client.link.leaving());
        let (number, how) = (client.number, client.link.how_done());
        let reason = LEAVINGS[client.link.leaving() as usize];
        self.log.note("client_gone", json!({"client": number, "reason": reason, "how": how}), &format!("c{number} {how}"));
        let is_left = client.link.is_left();
        match client.peer {
            Some(_) => self.part(client.link.stream),
            None => drop(client.link),
        }
        self.leave_quotas(client.quota);
        match client.speech {
            Speech::One(speaker) => self.leave_session(key, speaker, is_left),
            Speech::Named(voices) => self.leave_all(key, *voices),
        }
        self.make_room();
    }

    /// Lets clients in again after a connection was closed, unless too many disconnected ones have commands to be done.
    pub fn make_room(&mut self) {
        if self.left < LEFT_MOST {
            self.doors.reopen();
        }
    }

    /// Ends a disconnected client's part in a session. What the client has written and left is still done.
    /// still done.
    fn leave_session(&mut self, client: ClientKey, key: SpeakerKey, is_left: bool) {
        let speaker = &mut self.speakers[key];
        speaker.owner = Owner::Gone;
        speaker.is_slow = false;
        if !is_left {
            speaker.waiting.clear();
            speaker.pace.state = State::Free;
        }
        let has_lines = !speaker.waiting.is_empty();
        speaker.owes_spin = false;
        let session = speaker.session;
        self.sessions[session].members.retain(|member| *member != client);
        if self.pool.is_none() {
            self.workers[0].turns.clients -= 1;
        }
        if !self.sessions[session].is_shared {
            self.end_live(session);
            self.forget_session(session);
            if self.sessions[session].is_begun || has_lines {
                self.speakers[key].waiting.push(RESET);
            }
        }
        self.await_turn(key, false);
        if self.pool.is_some() {
            self.leave_pool(session, key);
        }
        self.drop_if_over(key);
        self.count_left(key);
    }

    /// Counts a disconnected client's speaker whose commands are still to be done. If there are many, no more clients come in.
    fn count_left(&mut self, key: SpeakerKey) {
        if let Some(speaker) = self.speakers.get_mut(key).filter(|speaker| speaker.owner == Owner::Gone) {
            speaker.is_left = true;
            self.left += 1;
            if self.left >= LEFT_MOST {
                self.doors.shut();
            }
        }
    }

    /// Drops a speaker whose client has disconnected and that has nothing under way any more.
    pub fn drop_if_over(&mut self, key: SpeakerKey) {
        let is_over = |speaker: &Speaker| speaker.owner == Owner::Gone && !speaker.awaits();
        if !self.speakers.get(key).map_or(false, is_over) {
            return;
        }
        let speaker = self.speakers.remove(key);
        self.left -= usize::from(speaker.is_left);
        if self.left == LEFT_MOST / 2 && speaker.is_left {
            self.doors.reopen();
        }
        self.let_go_of(speaker.session);
    }

    /// Drops a session that nothing refers to any more.
    pub fn let_go_of(&mut self, key: SessionKey) {
        let session = &mut self.sessions[key];
        session.holds = session.holds.saturating_sub(1);
        if session.holds == 0 && !session.is_shared {
            self.sessions.remove(key);
        }
    }
}

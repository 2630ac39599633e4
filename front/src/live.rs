//! Live sessions, whose clients receive events as they come, without asking.
//!
//! The front gives a live session `spin` whenever events may have arrived for it: after a command that may have posted
//! some, of its own or of a session that it has joined, and after a `spin` that has left some. Many causes make one `spin`.
//! Clients receive its calls as those of any command. They receive the reply only if events were delivered, marked as
//! the front's own. For everybody else these are commands of the session like any other: they take turns and are recorded.

use std::collections::{HashMap, HashSet};

use memchr::memmem;
use serde_json::Value;

use crate::commands::POST_NOTHING;
use crate::front::Front;
use crate::lines::{is_answer, is_name, may_have, object_of};
use crate::people::{SessionKey, SpeakerKey, Speech};
use crate::turns::Command;

/// The command that delivers a session's events.
pub const SPIN: &[u8] = b"{\"do\":\"spin\"}";
/// The most commands of a client that go before a `spin` of the front.
const BEFORE_SPIN: usize = 64;
/// The live sessions, and which sessions they have joined.
#[derive(Default)]
pub struct Live {
    /// Whether the sessions of all clients are live.
    pub are_all: bool,
    /// The number of live sessions.
    count: usize,
    /// The live sessions that have joined a session, by its name.
    listeners: HashMap<String, HashSet<SessionKey>>,
    /// The names that each live session has joined.
    joined: HashMap<SessionKey, HashSet<String>>,
}

impl Live {
    /// The number of live sessions.
    pub fn count(&self) -> usize {
        self.count
    }

    /// Whether there is any live session.
    pub fn is_any(&self) -> bool {
        self.count > 0
    }

    fn join(&mut self, session: SessionKey, from: &str) {
        self.listeners.entry(from.to_string()).or_default().insert(session);
        self.joined.entry(session).or_default().insert(from.to_string());
    }

    fn forget(&mut self, session: SessionKey) {
        for from in self.joined.remove(&session).unwrap_or_default() {
            let is_last = self.listeners.get_mut(&from).map_or(false, |found| found.remove(&session) && found.is_empty());
            if is_last {
                self.listeners.remove(&from);
            }
        }
    }
}

/// Whether a command may post events. The answer is yes if the line is written in an unusual way.
fn may_post(line: &[u8]) -> bool {
    let mut found = memmem::find_iter(line, b"\"do\":\"");
    let word = match (found.next(), found.next(), memchr::memchr(b'\\', line)) {
        (Some(at), None, None) => &line[at + 6..],
        _ => return true,
    };
    let end = word.iter().position(|byte| *byte == b'"').unwrap_or(0);
    !POST_NOTHING.contains(&&word[..end])
}

/// The session that a command joins, if it is a join.
fn joined_by(line: &[u8]) -> Option<String> {
    let command = may_have(line, "join")
        .then(|| object_of(line))
        .flatten()
        .filter(|it| it.get("do").map_or(false, |word| word == "join"))?;
    command.get("from").and_then(Value::as_str).filter(|from| is_name(from)).map(String::from)
}

/// How many events a reply to `spin` says were delivered, and how many are left.
fn events_in(line: &[u8]) -> (u64, u64) {
    let reply = object_of(line).unwrap_or_default();
    let count = |key: &str| reply.get("reply").and_then(|it| it.get(key)).and_then(Value::as_u64).unwrap_or(0);
    (count("events"), count("left"))
}

/// An answer with the mark of the front's own `spin`. The order of its keys stays.
fn marked(line: &[u8]) -> Vec<u8> {
    match line
        .strip_prefix(b"{\"error\":".as_slice())
        .and_then(|rest| Some((rest, rest.iter().position(|byte| *byte == b',')?)))
    {
        Some((rest, comma)) => [b"{\"error\":", &rest[..comma], b",\"front\":\"spin\"", &rest[comma..]].concat(),
        None => [b"{\"front\":\"spin\",", &line[1..]].concat(),
    }
}

impl Front {
    /// Makes a session live.
    pub fn let_live(&mut self, speaker: SpeakerKey) {
        let session = &mut self.sessions[self.speakers[speaker].session];
        self.speakers[speaker].is_live = true;
        self.live.count += usize::from(!session.is_live);
        session.is_live = true;
    }

    /// Records what a line that is given to a server may cause for live sessions; returns whether it may post events.
    pub fn note_cause(&mut self, session: SessionKey, line: &[u8]) -> bool {
        if self.sessions[session].is_live {
            if let Some(from) = joined_by(line) {
                self.live.join(session, &from);
            }
        }
        may_post(line)
    }

    /// Whether a speaker gives the front's own `spin` next, and not a line of its client.
    pub fn spins_next(&mut self, key: SpeakerKey) -> bool {
        let speaker = &mut self.speakers[key];
        let spins = speaker.owes_spin && (speaker.waiting.is_empty() || speaker.before_spin >= BEFORE_SPIN);
        speaker.before_spin = if spins { 0 } else { speaker.before_spin + 1 };
        speaker.owes_spin &= !spins;
        spins
    }

    /// Continues after an answer to a command that may have posted events.
    pub fn heard_cause(&mut self, command: Command, line: &[u8]) {
        let session = command.session;
        if command.is_spin {
            let (events, left) = events_in(line);
            if left > 0 {
                self.owe_spin(session);
            }
            if events > 0 {
                self.owe_listeners(session);
            }
        } else if command.may_post && is_answer(line) && line.starts_with(b"{\"reply\":") {
            self.owe_spin(session);
            self.owe_listeners(session);
        }
    }

    /// Sends the answer to the front's own `spin` to the live clients of a session, if events were delivered or it failed.
    pub fn tell_spin(&mut self, session: SessionKey, line: &[u8]) {
        let is_error = line.starts_with(b"{\"error\":");
        if !is_error && events_in(line).0 == 0 {
            return;
        }
        if is_error {
            self.end_live(session);
        }
        let line = marked(line);
        for at in 0..self.sessions[session].members.len() {
            let member = self.sessions[session].members[at];
            if self.is_live(member) {
                self.deliver(member, &line);
            }
        }
    }

    fn is_live(&self, client: usize) -> bool {
        match self.clients.get(client).map(|client| &client.speech) {
            Some(Speech::One(speaker)) => self.speakers[*speaker].is_live,
            _ => false,
        }
    }

    /// Delivers the events that were posted in a shared session before this live client came.
    pub fn spin_first(&mut self, speaker: SpeakerKey) {
        let session = self.speakers[speaker].session;
        let found = &self.sessions[session];
        if self.speakers[speaker].is_live && found.is_shared && found.is_begun {
            self.owe_spin(session);
        }
    }

    /// Plans a `spin` for a session, one for all causes until then, if a live client speaks for it.
    fn owe_spin(&mut self, session: SessionKey) {
        let found = match self.sessions.get(session) {
            Some(found) if found.is_live => found,
            _ => return,
        };
        let live = found.members.iter().copied().find(|member| self.is_live(*member));
        if let Some(Speech::One(speaker)) = live.map(|member| &self.clients[member].speech) {
            let speaker = *speaker;
            let found = &mut self.speakers[speaker];
            if !std::mem::replace(&mut found.owes_spin, true) {
                found.before_spin = 0;
            }
            let is_slow = found.is_slow;
            self.await_turn(speaker, is_slow);
        }
    }

    fn owe_listeners(&mut self, session: SessionKey) {
        let listeners = self.sessions.get(session).and_then(|session| self.live.listeners.get(&session.name));
        let listeners: Vec<SessionKey> = listeners.map_or_else(Vec::new, |found| found.iter().copied().collect());
        for listener in listeners {
            self.owe_spin(listener);
        }
    }

    /// Ends the live mode of a session.
    pub fn end_live(&mut self, session: SessionKey) {
        let found = &mut self.sessions[session];
        if found.is_live {
            found.is_live = false;
            self.live.count -= 1;
            self.live.forget(session);
        }
    }
}

#[cfg(test)]
mod tests {
    use super::*;

    #[test]
    fn commands_that_only_read_post_nothing() {
        for line in ["{\"do\":\"get\",\"object\":1}", "{\"object\":1,\"do\":\"children\"}"] {
            assert!(!may_post(line.as_bytes()), "{line}");
        }
        for line in [
            "{\"do\":\"set\"}",
            "{\"do\":\"get\",\"do\":\"set\"}",
            "{\"do\":\"get\",\"d\\u006f\":\"set\"}",
            "{\"do\" : \"get\"}",
            "{\"do\":\"spin\"}",
            "nonsense",
        ] {
            assert!(may_post(line.as_bytes()), "{line}");
        }
    }

    #[test]
    fn a_join_is_read_as_the_server_reads_it() {
        assert_eq!(joined_by(b"{\"do\":\"join\",\"from\":\"a\",\"from\":\"b\"}").as_deref(), Some("b"));
        assert_eq!(joined_by(b"{\"do\":\"jo\\u0069n\",\"from\":\"a\"}").as_deref(), Some("a"));
        assert_eq!(joined_by(b"{\"do\":\"leave\",\"from\":\"join\"}"), None);
    }

    #[test]
    fn answers_are_marked_with_their_keys_in_order() {
        let reply = b"{\"reply\":{\"events\":1,\"left\":2},\"session\":\"a\"}\n";
        assert_eq!(events_in(reply), (1, 2));
        assert_eq!(marked(reply), b"{\"front\":\"spin\",\"reply\":{\"events\":1,\"left\":2},\"session\":\"a\"}\n");
        assert_eq!(
            marked(b"{\"error\":\"E21\",\"session\":\"a\"}\n"),
            b"{\"error\":\"E21\",\"front\":\"spin\",\"session\":\"a\"}\n"
        );
    }

    #[test]
    fn who_is_gone_listens_no_more() {
        let mut live = Live::default();
        live.join(1, "a");
        live.join(2, "a");
        live.join(1, "b");
        live.forget(1);
        assert_eq!((live.listeners.len(), live.listeners["a"].len(), live.joined.len()), (1, 1, 1));
    }
}

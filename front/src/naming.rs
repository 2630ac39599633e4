//! Clients that name sessions by themselves, as many as they like, on several servers.

use std::collections::HashSet;

use serde_json::Value;

use crate::first_lines::{ASKS_NOTHING, NOT_KNOWN};
use crate::front::{Front, NO_SESSION};
use crate::groups::group_of;
use crate::health::NOTHING;
use crate::joining::may_join;
use crate::lines::{asked_of_front, is_name, object_of, NOBODY};
use crate::people::{ClientKey, Owner, Session, SessionKey, Speaker, SpeakerKey, Speech, Voices, UNREAD_SLOW};
use crate::rights::Right;

/// The session that a line names, as the server reads it, or that of no session if it names none.
pub fn session_in(line: &[u8]) -> String {
    let command = object_of(line);
    let name = command.as_ref().and_then(|it| it.get("session")).and_then(Value::as_str).filter(|name| is_name(name));
    name.unwrap_or(NOBODY).to_string()
}

impl Front {
    /// Queues each line that was read from a client with the server of the line's session.
    pub fn sort(&mut self, key: ClientKey, has_spoken: bool) {
        let mut lines = std::mem::take(&mut self.sorted);
        if !has_spoken {
            let mut asked = lines.first().and_then(asked_of_front);
            let is_asked = asked.is_some();
            if !self.identify(key, &mut asked) {
                lines.clear();
            } else if asked.is_some() {
                self.refuse(key, NOT_KNOWN, ASKS_NOTHING);
                lines.clear();
            } else if is_asked {
                lines.pop();
            }
        }
        while let Some(line) = lines.first() {
            self.route(key, line);
            lines.pop();
        }
        self.sorted = lines;
    }

    /// Queues a line for its turn.
    fn route(&mut self, key: ClientKey, line: &[u8]) {
        let mut name = session_in(line);
        let is_barred = name != NOBODY && !self.may_use(key, Right::Hello, &name);
        let is_beyond = !is_barred && name != NOBODY && self.is_beyond(key, &name);
        let line = if is_barred { NOTHING } else { line };
        if is_barred || is_beyond {
            name = NOBODY.to_string();
        }
        let voice = match name.as_str() {
            NOBODY => self.voice(key, &format!("{NOBODY}c{}", self.clients[key].number)),
            _ => self.voice(key, group_of(&name)),
        };
        let session = match &self.quotas {
            Some(quotas) if is_beyond => quotas.beyond,
            _ => self.session_named(&name, voice),
        };
        let speaker = &mut self.speakers[voice];
        let is_busy = speaker.awaits();
        speaker.waiting.push(line);
        speaker.came = self.metrics.now();
        speaker.pace.may_join = (is_busy && speaker.pace.may_join) || may_join(line);
        let more = speaker.more.get_or_insert_with(Box::default);
        more.named.push_back(session);
        if !is_beyond && more.members.insert(session) {
            self.sessions[session].members.push(key);
            self.count_named(key, &name);
        }
        match &mut self.clients[key].speech {
            Speech::Named(voices) if !is_busy => voices.busy.push(voice),
            _ => {}
        }
    }

    /// The session of this name, in the group of a speaker.
    fn session_named(&mut self, name: &str, voice: SpeakerKey) -> SessionKey {
        let group = match self.speakers[voice].group {
            Some(group) => group,
            None => return NO_SESSION,
        };
        if let Some(session) = self.groups[group].sessions.get(name) {
            return *session;
        }
        let mut session = Session::new(name, true);
        session.group = Some(group);
        let session = self.sessions.insert(session);
        self.groups[group].sessions.insert(name.to_string(), session);
        if name != NOBODY {
            self.count_session(session, self.speakers[voice].pace.who.uid);
        }
        session
    }

    /// A client's speaker for a group.
    fn voice(&mut self, key: ClientKey, name: &str) -> SpeakerKey {
        let group = self.group(name);
        if let Speech::Named(voices) = &mut self.clients[key].speech {
            if let Some(voice) = voices.of_groups.get(&group) {
                return *voice;
            }
            let voice = self.speakers.insert(Speaker::new(Owner::Client(key), NO_SESSION));
            voices.of_groups.insert(group, voice);
            self.speakers[voice].pace.who =
                self.clients[key].quota.as_ref().map_or_else(Default::default, |held| held.who.clone());
            self.speakers[voice].is_slow = self.clients[key].link.unread.len() > UNREAD_SLOW;
            self.enter_speaker(group, voice);
            return voice;
        }
        unreachable!("only clients that name sessions have voices")
    }

    /// Queues the speakers of a client for their turns.
    pub fn await_turns(&mut self, key: ClientKey, is_slow: bool) {
        if let Speech::Named(voices) = &mut self.clients[key].speech {
            let speakers = &self.speakers;
            voices.busy.retain(|voice| speakers[*voice].awaits());
            for voice in voices.busy.clone() {
                self.await_turn(voice, is_slow);
            }
        }
    }

    /// The session of a speaker's next line.
    pub fn session_of_next(&mut self, key: SpeakerKey) -> SessionKey {
        let speaker = &mut self.speakers[key];
        let named = speaker.more.as_mut().and_then(|more| more.named.pop_front());
        named.unwrap_or(speaker.session)
    }

    /// Ends a disconnected client's part in its sessions. The sessions stay.
    pub fn leave_all(&mut self, client: ClientKey, voices: Voices) {
        for (group, voice) in voices.of_groups {
            let speaker = &mut self.speakers[voice];
            speaker.owner = Owner::Gone;
            speaker.is_slow = false;
            speaker.waiting.clear();
            speaker.pace.stop();
            for session in speaker.more.take().map_or_else(HashSet::new, |more| more.members) {
                self.sessions[session].members.retain(|member| *member != client);
            }
            self.leave_group(group, voice);
            if self.groups[group].under_way == 0 {
                self.idle(group);
            }
            self.drop_if_over(voice);
        }
    }
}

#[cfg(test)]
mod tests {
    use super::*;

    #[test]
    fn the_session_is_read_as_the_server_reads_it() {
        for (line, name) in [
            ("{\"do\":\"new\",\"session\":\"a\",\"session\":\"b\"}", "b"),
            ("{\"session\":\"a\",\"\\u0073ession\":\"\\u0062\"}", "b"),
            ("{\"session\":\"b\",\"session\":5}", "-"),
            ("{\"value\":{\"session\":\"b\"},\"session\":\"a\"}", "a"),
            ("{\"session\":\"a b\"}", "-"),
            ("{\"session\":\"a\",\"x\":NaN}", "-"),
            ("[{\"session\":\"a\"}]", "-"),
            ("{\"session\":\"a\"", "-"),
        ] {
            assert_eq!(session_in(line.as_bytes()), name, "{line}");
        }
    }
}

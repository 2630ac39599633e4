//! The first line of a client, which may ask the front for something: a group, a shared session, or events as they come.

use serde_json::{json, Map, Value};

use crate::front::Front;
use crate::groups::{group_of, is_group, BETWEEN};
use crate::lines::{asked_of_front, has_only, is_name, line_of, member_of, refusal};
use crate::people::{ClientKey, SessionKey, SpeakerKey, Speech};
use crate::rights::Right;

/// The first line asks for something that the front does not do.
pub const NOT_KNOWN: &str = "F01";
/// The first line asks for a session that is not shared.
const NOT_SHARED: &str = "F02";
/// The first line asks for a group by a name that no group can have.
const NO_GROUP: &str = "F03";
pub const ASKS_NOTHING: &str = "its first line asks for nothing that there is";

impl Front {
    /// Reads the first lines of a client.
    pub fn hear_first(&mut self, key: ClientKey, speaker: SpeakerKey) {
        let mut asked = self.speakers[speaker].waiting.first().and_then(asked_of_front);
        if asked.is_some() {
            self.speakers[speaker].waiting.pop();
        }
        if self.identify(key, &mut asked) {
            if let Some(asked) = asked {
                self.do_for(key, speaker, &asked);
            }
        }
        self.has_room(key, self.speakers[speaker].session);
        if !self.clients[key].link.fault.is_empty() {
            self.speakers[speaker].waiting.clear();
            return;
        }
        if self.pool.is_some() {
            let session = self.speakers[speaker].session;
            let name = group_of(&self.sessions[session].name).to_string();
            self.enter_group(session, &name, speaker);
            self.count_in_group(key, self.sessions[session].group);
        }
        self.spin_first(speaker);
    }

    /// Does what a client's first line asks the front for.
    fn do_for(&mut self, key: ClientKey, speaker: SpeakerKey, asked: &Map<String, Value>) {
        let is_live = asked.get("live").map_or(false, |live| *live == true);
        let mut asked = asked.clone();
        if is_live {
            asked.remove("live");
        }
        if asked["front"] == "hello" && is_live && has_only(&asked, &["front"]) {
            return self.answer_for(key, self.speakers[speaker].session, true);
        }
        if self.pool.is_some() && asked["front"] == "hello" {
            return self.greet(key, speaker, &asked, is_live);
        }
        if !has_only(&asked, &["front", "session"]) || asked["front"] != "share" {
            return self.refuse(key, NOT_KNOWN, ASKS_NOTHING);
        }
        let name = asked["session"].as_str().filter(|name| self.may_use(key, Right::Share, name));
        match name.and_then(|name| self.shared.get(name)) {
            Some(&session) => self.share(key, speaker, session, is_live),
            None => self.refuse(key, NOT_SHARED, "it has asked for a session that is not shared"),
        }
    }

    /// Puts a client's session into the group that the client asks for.
    fn greet(&mut self, key: ClientKey, speaker: SpeakerKey, asked: &Map<String, Value>, is_live: bool) {
        let session = self.speakers[speaker].session;
        let group = asked
            .get("group")
            .and_then(Value::as_str)
            .filter(|group| is_group(group) && self.may_use(key, Right::Hello, group));
        let name = group.map(|group| format!("{group}{BETWEEN}{}", self.sessions[session].name));
        match name.filter(|name| has_only(asked, &["front", "group"]) && is_name(name)) {
            None => self.refuse(key, NO_GROUP, "its first line names no group"),
            Some(name) => {
                if let Some(inspector) = &mut self.inspector {
                    inspector.sessions.remove(&self.sessions[session].name);
                    inspector.sessions.insert(name.clone(), session);
                }
                let found = &mut self.sessions[session];
                found.member = member_of(&name);
                found.name = name;
                self.answer_for(key, session, is_live);
            }
        }
    }

    /// Makes a client a member of a shared session.
    fn share(&mut self, key: ClientKey, speaker: SpeakerKey, session: SessionKey, is_live: bool) {
        let own = std::mem::replace(&mut self.speakers[speaker].session, session);
        if let Some(inspector) = &mut self.inspector {
            inspector.sessions.remove(&self.sessions[own].name);
        }
        let was_live = self.sessions[own].is_live;
        self.end_live(own);
        self.let_go_of(own);
        self.sessions[session].members.push(key);
        if was_live {
            self.let_live(speaker);
        }
        self.answer_for(key, session, is_live);
    }

    /// Tells a client the name of its session, and makes the session live if the client asks for that.
    pub fn answer_for(&mut self, key: ClientKey, session: SessionKey, is_live: bool) {
        if !self.has_room(key, session) {
            return;
        }
        if let (true, Speech::One(speaker)) = (is_live, &self.clients[key].speech) {
            self.let_live(*speaker);
        }
        let (client, session) = (&mut self.clients[key], &self.sessions[session]);
        let answer = json!({"reply": true, "session": session.name});
        let live = json!({"live": true, "reply": true, "session": session.name});
        let line = line_of(if is_live { &live } else { &answer });
        client.link.tell(&line);
        self.metrics.send(&line);
        let fields = json!({"client": client.number, "session": session.name, "live": is_live});
        self.log.note("client_named", fields, &format!("c{} speaks for {}", client.number, session.name));
    }

    /// Refuses a client's first line, and closes the client.
    pub fn refuse(&mut self, key: ClientKey, code: &str, fault: &str) {
        self.metrics.refuse(code);
        let link = &mut self.clients[key].link;
        link.tell(&refusal(code));
        self.metrics.send(&refusal(code));
        link.refuse(fault);
    }
}

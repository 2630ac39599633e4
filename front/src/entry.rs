//! Who comes in, and what they may ask for: the rights of clients, monitors and operators.

use serde_json::{Map, Value};

use crate::doors::Comers;
use crate::first_lines::{ASKS_NOTHING, NOT_KNOWN};
use crate::front::Front;
use crate::guests::Errand;
use crate::lines::{asked_of_front, error_line, has_only, is_name, line_of, refusal, NOBODY};
use crate::people::{ClientKey, Speech};
use crate::quotas::{who_is, NO_RIGHT};
use crate::rights::{hash_of, Right, Rights, Who};

const MAY_NOT: &str = "it has no right to come here";
/// The session of a monitor that receives nothing.
const NONE_AT_ALL: &str = "";

/// Takes the token out of a request, and adds it to who asks.
fn take_token(asked: &mut Map<String, Value>, who: &mut Who) -> bool {
    match asked.remove("token") {
        Some(token) => {
            who.token = token.as_str().and_then(hash_of);
            true
        }
        None => false,
    }
}

impl Front {
    fn rights(&self) -> Option<&Rights> {
        self.quotas.as_ref().and_then(|quotas| quotas.limits.rights.as_ref())
    }

    /// Reads the token in a client's first line, and answers a line that has nothing else; refuses a client that has no right to
    /// connect. Returns whether it may go on.
    pub fn identify(&mut self, key: ClientKey, asked: &mut Option<Map<String, Value>>) -> bool {
        let mut who = match &self.clients[key].quota {
            Some(held) => held.who.clone(),
            None => return true,
        };
        let rights = match self.rights() {
            Some(rights) => rights,
            None => return true,
        };
        let has_token = asked.as_mut().map_or(false, |asked| take_token(asked, &mut who));
        let is_in = rights.allow(&who, Right::Connect);
        if let Some(held) = &mut self.clients[key].quota {
            held.who = who.clone();
            held.is_in = is_in;
            held.let_in();
        }
        if let Speech::One(speaker) = &self.clients[key].speech {
            self.speakers[*speaker].pace.who = who;
        }
        if !is_in {
            self.refuse_entry(key);
            return false;
        }
        if has_token && asked.as_ref().map_or(false, |asked| asked["front"] == "hello" && has_only(asked, &["front"])) {
            *asked = None;
            match self.clients[key].speech {
                Speech::One(speaker) => {
                    let session = self.speakers[speaker].session;
                    self.answer_for(key, session, false);
                }
                Speech::Named(_) => self.clients[key].link.tell(b"{\"reply\":true,\"session\":\"-\"}\n"),
            }
        }
        true
    }

    /// Whether a client may use a name: of a group, of a shared session, or of a session that it names.
    pub fn may_use(&self, key: ClientKey, right: Right, name: &str) -> bool {
        match (self.rights(), &self.clients[key].quota) {
            (Some(rights), Some(held)) => rights.allow_name(&held.who, right, name, NONE_AT_ALL),
            _ => true,
        }
    }

    /// Begins with a guest: a monitor that may not receive everything receives nothing at first, and one that may receive
    /// nothing is refused.
    pub fn admit_guest(&mut self, key: usize, comers: Comers) {
        let who = match self.guests.get(&key) {
            Some(guest) if self.quotas.is_some() && comers == Comers::Monitors => who_is(&guest.link),
            Some(guest) if self.quotas.is_some() && comers == Comers::Operators => who_is(&guest.link),
            _ => return,
        };
        if let Some(quotas) = &mut self.quotas {
            quotas.guests.insert(key, who.clone());
        }
        let (has_all, may_have_any) = match (self.rights(), comers) {
            (Some(rights), Comers::Monitors) => {
                (rights.allow_all(&who, Right::Monitor), rights.may_allow_any(&who, Right::Monitor))
            }
            _ => return,
        };
        if let Some(guest) = self.guests.get_mut(&key).filter(|_| !has_all) {
            guest.errand = Errand::Monitor(Some(NONE_AT_ALL.to_string()));
            if !may_have_any {
                guest.link.tell(&error_line(NO_RIGHT, NOBODY));
                guest.link.refuse(MAY_NOT);
                self.metrics.refuse(NO_RIGHT);
            }
        }
    }

    /// Does what a monitor's first line asks for, as far as it has the right. A session that it may not receive is answered like
    /// one that is not there: the monitor receives nothing of it.
    pub fn choose_for(&mut self, key: usize, line: &[u8]) {
        let mut asked = asked_of_front(line).unwrap_or_default();
        let mut who = self.quotas.as_ref().and_then(|quotas| quotas.guests.get(&key)).cloned().unwrap_or_default();
        let has_token = self.rights().is_some() && take_token(&mut asked, &mut who);
        let is_monitor = asked.get("front").map_or(false, |front| front == "monitor");
        let name = asked.get("session").and_then(Value::as_str).filter(|name| *name == NOBODY || is_name(name));
        let chosen = match name {
            Some(name) if is_monitor && has_only(&asked, &["front", "session"]) => Some(Some(name.to_string())),
            None if is_monitor && has_token && has_only(&asked, &["front"]) => Some(None),
            _ => None,
        };
        let is_allowed = match (self.rights(), &chosen) {
            (Some(rights), Some(Some(name))) => rights.allow_name(&who, Right::Monitor, name, NONE_AT_ALL),
            (Some(rights), Some(None)) => rights.allow_all(&who, Right::Monitor),
            _ => true,
        };
        let guest = match self.guests.get_mut(&key) {
            Some(guest) => guest,
            None => return,
        };
        match chosen {
            Some(chosen) => {
                guest.link.tell(&line_of(&Value::Object(asked)));
                let chosen = if is_allowed { chosen } else { Some(NONE_AT_ALL.to_string()) };
                guest.errand = Errand::Monitor(chosen);
            }
            None => {
                guest.link.tell(&refusal(NOT_KNOWN));
                guest.link.refuse(ASKS_NOTHING);
                self.metrics.refuse(NOT_KNOWN);
            }
        }
    }

    /// Forgets who a guest was.
    pub fn forget_guest(&mut self, key: usize) {
        if let Some(quotas) = &mut self.quotas {
            quotas.guests.remove(&key);
        }
    }

    /// Takes the token out of an operator's request; returns whether the operator may ask.
    pub fn may_control(&self, key: usize, asked: &mut Map<String, Value>) -> bool {
        let mut who = self.quotas.as_ref().and_then(|quotas| quotas.guests.get(&key)).cloned().unwrap_or_default();
        match self.rights() {
            Some(rights) => {
                take_token(asked, &mut who);
                rights.allow(&who, Right::Control)
            }
            None => true,
        }
    }
}

//! Joins: how many clients have, and which sessions they may join.

use memchr::memmem::Finder;
use serde_json::{json, Map, Value};

use crate::front::Front;
use crate::groups::{group_of, is_reset};
use crate::lines::{is_name, may_have, object_of, put_with_member};
use crate::people::{Owner, SessionKey, SpeakerKey};
use crate::quotas::Account;
use crate::rights::Right;
use crate::ring::stranger;

/// The fewest bytes of a `join` or a `leave`: each has the keys `do`, `from`, `name`, `object` and `method`.
const LEAST: usize = 60;

thread_local! {
    /// Find the key `from`, and the beginning of an escape. They are made once, since making them takes longer than a search.
    static FINDERS: [Finder<'static>; 2] = [Finder::new("from"), Finder::new("\\u")];
}

/// Whether a line may be a `join` or a `leave`, which have the key `from`, however it is written.
pub fn may_join(line: &[u8]) -> bool {
    line.len() >= LEAST && FINDERS.with(|finders| finders.iter().any(|finder| finder.find(line).is_some()))
}

/// The word of a command, if it may be one of these.
fn command_of(line: &[u8], words: &[&str]) -> Option<Map<String, Value>> {
    let may_be = words.iter().any(|word| may_have(line, word));
    let command = may_be.then(|| object_of(line)).flatten()?;
    let word = command.get("do").and_then(Value::as_str)?;
    words.contains(&word).then_some(command)
}

/// The ends of a join: `leave` ends all joins with the same.
fn ends_of(command: &Map<String, Value>) -> Vec<u8> {
    let end = |key: &str| command.get(key).cloned().unwrap_or_default();
    json!([end("from"), end("name"), end("object"), end("method")]).to_string().into_bytes()
}

impl Front {
    /// The first of client, user and group that would have one join too many with the next line of a speaker.
    pub fn join_over(&self, key: SpeakerKey) -> Option<usize> {
        let quotas = self.quotas.as_ref()?;
        let speaker = &self.speakers[key];
        command_of(speaker.waiting.first()?, &["join"])?;
        let held = match speaker.owner {
            Owner::Client(client) => self.clients[client].quota.as_ref()?,
            _ => return None,
        };
        let has = |account: Option<&Account>| account.map_or(0, |account| account.joins);
        let group = speaker.group.map(|group| &self.groups[group].account);
        quotas.join_scope(held.who.uid, [held.own.joins, has(quotas.account(held.who.uid)), has(group)])
    }

    /// Counts a join that the server is given, or ends the count of those that a command ends.
    pub fn count_join(&mut self, at: usize, key: SpeakerKey, line: &[u8]) {
        let command = match command_of(line, &["join", "leave", "reset"]) {
            Some(command) => command,
            None => return,
        };
        let is_join = command["do"] == "join";
        if is_join {
            let ends = ends_of(&command);
            self.change_joins(key, &ends, true);
            let pace = &mut self.speakers[key].pace;
            pace.joining.push_back(ends);
            pace.has_joined = true;
            if let Some(command) = self.workers[at].turns.under_way.back_mut() {
                command.is_join = true;
            }
        } else if command["do"] == "leave" {
            let ends = ends_of(&command);
            while self.change_joins(key, &ends, false) {}
        } else if is_reset(line) {
            let ends = self.held_of(key).map_or_else(Vec::new, |held| held.joins.keys().cloned().collect());
            for ends in ends {
                while self.change_joins(key, &ends, false) {}
            }
        }
    }

    /// Ends the count of a join that the server has refused.
    pub fn hear_join(&mut self, key: SpeakerKey, line: &[u8]) {
        let ends = self.speakers.get_mut(key).and_then(|speaker| speaker.pace.joining.pop_front());
        if let Some(ends) = ends.filter(|_| line.starts_with(b"{\"error\":")) {
            self.change_joins(key, &ends, false);
        }
    }

    /// Whether a speaker's next line has to be looked at, since it may begin or end joins that are counted.
    pub fn counts_joins(&self, key: SpeakerKey) -> bool {
        let pace = &self.speakers[key].pace;
        (pace.may_join || pace.has_joined) && self.quotas.as_ref().map_or(false, |quotas| quotas.limits.has_joins)
    }

    fn held_of(&mut self, key: SpeakerKey) -> Option<&mut crate::quotas::Held> {
        match self.speakers[key].owner {
            Owner::Client(client) => self.clients.get_mut(client)?.quota.as_deref_mut(),
            _ => None,
        }
    }

    /// Counts a join of a client, or one less; returns whether there was one.
    fn change_joins(&mut self, key: SpeakerKey, ends: &[u8], is_more: bool) -> bool {
        let group = self.speakers[key].group;
        let held = match self.held_of(key) {
            Some(held) => held,
            None => return false,
        };
        let uid = held.who.uid;
        if is_more {
            *held.joins.entry(ends.to_vec()).or_default() += 1;
        } else {
            match held.joins.get_mut(ends) {
                Some(1) => drop(held.joins.remove(ends)),
                Some(count) => *count -= 1,
                None => return false,
            }
        }
        let change = |account: &mut Account| {
            account.joins = if is_more { account.joins + 1 } else { account.joins.saturating_sub(1) };
        };
        change(&mut held.own);
        if let Some(quotas) = &mut self.quotas {
            change(quotas.user(uid));
        }
        if let Some(group) = group {
            change(&mut self.groups[group].account);
        }
        true
    }

    /// The next line of a speaker, if it has to be changed: it joins or leaves a session that it may not hear, and is sent as if
    /// that were nobody's. So the answer does not show whether there is such a session.
    pub fn barred_join(&self, key: SpeakerKey, session: SessionKey) -> Option<Vec<u8>> {
        let speaker = &self.speakers[key];
        if !speaker.pace.may_join {
            return None;
        }
        let rights = self.quotas.as_ref()?.limits.rights.as_ref().filter(|rights| rights.limits_joins())?;
        if !matches!(speaker.owner, Owner::Client(_) | Owner::Gone) {
            return None;
        }
        let line = speaker.waiting.first().filter(|line| may_have(line, "from"))?;
        let command = command_of(line, &["join", "leave"])?;
        let from = command.get("from").and_then(Value::as_str).filter(|from| is_name(from))?;
        let own = &self.sessions[session].name;
        if from == own || rights.allow_name(&speaker.pace.who, Right::Join, from, group_of(own)) {
            return None;
        }
        let mut changed = Vec::with_capacity(line.len() + 64);
        put_with_member(&mut changed, line, &stranger(from));
        Some(changed)
    }
}

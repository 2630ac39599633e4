//! Groups of sessions that can join each other, each on one of several servers.
//!
//! The name of a session's group is the part of its name before the first `__`, or the whole name if it has none.

use std::collections::{HashMap, HashSet};

use serde_json::{json, Value};

use crate::front::Front;
use crate::lines::{has_only, is_name, is_own_name, may_have, object_of, put_with_member, NOBODY};
use crate::log::{Level, Log};
use crate::moving::Move;
use crate::people::{GroupKey, SessionKey, SpeakerKey};
use crate::quotas::Account;
use crate::records::GroupRecord;
use crate::ring::stranger;
use crate::turns::Command;

/// Separates the name of a group from the rest of a session's name.
pub const BETWEEN: &str = "__";
/// The most other groups that the log mentions for each group, in warnings that a join is in vain.
const PAIRS_MOST: usize = 256;
/// The most joins between groups that the log mentions in all.
const IN_VAIN_MOST: usize = 1_000;

/// The name of a session's group.
pub fn group_of(session: &str) -> &str {
    match session.find(BETWEEN) {
        Some(at) if at > 0 => &session[..at],
        _ => session,
    }
}

/// Whether a client may ask for a group of this name: the names of its sessions give this name back, and the front gives it to
/// no client's own group.
pub fn is_group(name: &str) -> bool {
    is_name(name) && !name.contains(BETWEEN) && !name.ends_with('_') && !is_own_name(name)
}

/// Whether a line resets its session.
pub fn is_reset(line: &[u8]) -> bool {
    let command = may_have(line, "reset").then(|| object_of(line)).flatten();
    command.map_or(false, |it| has_only(&it, &["do", "session"]) && it["do"] == "reset")
}

/// Sessions that can join each other, and are on one server.
pub struct Group {
    pub name: String,
    /// A number that no other group of this front has or had.
    pub number: u64,
    /// The index of its worker.
    pub worker: usize,
    pub record: Option<GroupRecord>,
    pub sessions: HashMap<String, SessionKey>,
    pub speakers: HashSet<SpeakerKey>,
    /// Sessions that may hold something.
    pub filled: HashSet<String>,
    /// Sessions that have held something since the record began.
    pub named: HashSet<String>,
    /// The number of lines that were given to the server.
    pub lines: u64,
    pub under_way: usize,
    /// Its commands wait until it has been brought back or has moved.
    pub is_held: bool,
    /// Commands that were given to a server that ended before it answered.
    pub lost: Vec<Command>,
    /// The group moves when nothing is under way.
    pub moves_when_idle: bool,
    pub moving: Option<Move>,
    /// Groups whose publications this one has joined in vain.
    others: HashSet<String>,
    /// What its clients have of its quota.
    pub account: Account,
}

impl Group {
    pub fn new(name: &str, number: u64, worker: usize, record: Option<GroupRecord>) -> Group {
        Group {
            name: name.to_string(),
            number,
            worker,
            record,
            sessions: HashMap::new(),
            speakers: HashSet::new(),
            filled: HashSet::new(),
            named: HashSet::new(),
            lines: 0,
            under_way: 0,
            is_held: false,
            lost: Vec::new(),
            moves_when_idle: false,
            moving: None,
            others: HashSet::new(),
            account: Account::default(),
        }
    }

    /// Counts and records a line that is given to the server.
    pub fn given(&mut self, key: GroupKey, session: &str, line: &[u8], changed: &mut HashSet<GroupKey>, log: &mut Log) {
        self.under_way += 1;
        self.fill(session, line);
        if let Some(record) = &mut self.record {
            record.given(line, log);
            changed.insert(key);
        }
    }

    /// Updates which sessions may hold something, after a line that is given to the server.
    pub fn fill(&mut self, session: &str, line: &[u8]) {
        self.lines += 1;
        if is_reset(line) {
            self.filled.remove(session);
        } else if session != NOBODY && !self.filled.contains(session) {
            self.filled.insert(session.to_string());
            self.named.insert(session.to_string());
        } else if session != NOBODY && !self.named.contains(session) {
            self.named.insert(session.to_string());
        }
    }

    /// Records lines that the server has written.
    pub fn told(&mut self, key: GroupKey, lines: &[u8], changed: &mut HashSet<GroupKey>, log: &mut Log) {
        if let Some(record) = &mut self.record {
            record.told(lines, log);
            changed.insert(key);
        }
    }

    /// Whether its record can bring the group back.
    pub fn is_recorded(&self) -> bool {
        self.record.as_ref().map_or(false, |record| record.is_whole)
    }

    /// Whether this is the first join of that other group, which the log mentions.
    fn is_new(&mut self, other: &str) -> bool {
        self.others.len() < PAIRS_MOST && self.others.insert(other.to_string())
    }
}

impl Front {
    /// The next line of a speaker, if it has to be changed: it joins or leaves a publication of another group, and is sent as
    /// if that were nobody's. So the answer is as usual, and does not depend on where the other group is.
    pub fn kept_apart(&mut self, key: SpeakerKey) -> Option<Vec<u8>> {
        let speaker = &self.speakers[key];
        let group = speaker.group?;
        let line = speaker.waiting.first().filter(|line| may_have(line, "from"))?;
        let command = object_of(line)?;
        let from = command.get("from").and_then(Value::as_str).filter(|from| is_name(from))?;
        let is_join = command.get("do").map_or(false, |word| word == "join");
        if !is_join && command.get("do").map_or(true, |word| word != "leave") {
            return None;
        }
        let other = group_of(from);
        let mine = &mut self.groups[group];
        if other == mine.name {
            return None;
        }
        let mut changed = Vec::with_capacity(line.len() + 64);
        put_with_member(&mut changed, line, &stranger(from));
        if is_join && self.in_vain < IN_VAIN_MOST && mine.is_new(other) {
            self.in_vain += 1;
            let name = &mine.name;
            let is_known = self.pool.as_ref().map_or(false, |pool| pool.groups.contains_key(other));
            let (other, group) = if is_known { (other, json!(other)) } else { ("a session", json!(null)) };
            let which = if is_known { "is another group" } else { "is of another group" };
            let words = format!("{name} has joined {other}, which {which}: nothing will come of it");
            self.log.say(Level::Warn, "join_in_vain", json!({"group": name, "other": group}), &words);
            if self.in_vain == IN_VAIN_MOST {
                let words = "further joins of other groups are not mentioned";
                self.log.say(Level::Warn, "joins_not_mentioned", json!({}), words);
            }
        }
        Some(changed)
    }

    /// Adds a speaker to a group.
    pub fn enter_speaker(&mut self, group: GroupKey, key: SpeakerKey) {
        let found = &mut self.groups[group];
        let speaker = &mut self.speakers[key];
        speaker.group = Some(group);
        speaker.is_held = found.is_held;
        if found.speakers.insert(key) {
            self.workers[found.worker].turns.enter(speaker);
        }
    }

    /// Removes a speaker from a group.
    pub fn leave_group(&mut self, group: GroupKey, key: SpeakerKey) {
        let found = &mut self.groups[group];
        if found.speakers.remove(&key) {
            self.workers[found.worker].turns.leave(&mut self.speakers[key]);
        }
    }
}

#[cfg(test)]
mod tests {
    use super::*;

    #[test]
    fn a_group_is_what_is_before_two_underscores() {
        for (name, group) in
            [("a__b", "a"), ("a__b__c", "a"), ("a", "a"), ("a_b", "a_b"), ("__a", "__a"), ("a___b", "a"), ("_", "_")]
        {
            assert_eq!(group_of(name), group, "{name}");
        }
    }

    #[test]
    fn groups_are_not_named_as_clients_are() {
        assert!(["desk", "_d_9", "c1a", "g"].iter().all(|name| is_group(name)));
        let others = ["", "1", "a-b", "ä", "a__b", "__", "_", "a_", "c1", "c99", "a\n"];
        assert!(!others.iter().any(|name| is_group(name)));
    }

    #[test]
    fn only_a_command_that_is_accepted_resets() {
        assert!(is_reset(b"{\"do\":\"reset\",\"session\":\"a\"}"));
        assert!(is_reset(b"{\"do\":\"status\",\"d\\u006f\":\"\\u0072eset\",\"session\":\"a\"}"));
        assert!(!is_reset(b"{\"do\":NaN,\"do\":\"reset\",\"session\":\"a\"}"));
        assert!(!is_reset(b"{\"do\":\"reset\",\"more\":1,\"session\":\"a\"}"));
    }
}

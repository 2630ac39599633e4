//! The control socket: operators list the groups of a running front, or move one, by lines of JSON in both directions.

use serde_json::{json, Map, Value};

use crate::first_lines::NOT_KNOWN;
use crate::front::Front;
use crate::guests::Errand;
use crate::lines::{asked_of_front, has_only, line_of, NOBODY};
use crate::log::Level;
use crate::people::{ClientKey, GroupKey, Owner};
use crate::quotas::NO_RIGHT;

/// The reason why a group does not move: a code and a text.
type Refusal = (&'static str, String);

impl Front {
    /// Does what an operator's line asks for.
    pub fn do_for_operator(&mut self, key: usize, line: &[u8]) {
        let mut asked = asked_of_front(line).unwrap_or_default();
        if !self.may_control(key, &mut asked) {
            return self
                .answer_operator(key, &json!({"error": NO_RIGHT, "why": "this client has no right to control the front"}));
        }
        if has_only(&asked, &["front"]) && asked["front"] == "groups" {
            let answer = json!({"reply": self.rows(), "workers": self.workers.len()});
            self.answer_operator(key, &answer);
        } else if has_only(&asked, &["front", "group", "worker"]) && asked["front"] == "move" {
            self.move_for(key, &asked);
        } else {
            self.answer_operator(key, &json!({"error": NOT_KNOWN, "why": "the line asks for nothing that there is"}));
        }
    }

    fn answer_operator(&mut self, key: usize, said: &Value) {
        if let Some(code) = said["error"].as_str() {
            self.metrics.refuse(code);
        }
        if let Some(guest) = self.guests.get_mut(&key) {
            guest.link.tell(&line_of(said));
            self.touch_guest(key);
        }
    }

    /// The groups and where they are.
    fn rows(&self) -> Vec<Value> {
        let shown = self.groups.iter().filter(|(_, group)| !group.name.starts_with(NOBODY));
        let mut keys: Vec<(&str, GroupKey)> = shown.map(|(key, group)| (group.name.as_str(), key)).collect();
        keys.sort_unstable();
        keys.iter().map(|(_, key)| self.row(*key)).collect()
    }

    fn row(&self, key: GroupKey) -> Value {
        let group = &self.groups[key];
        let owners = group.speakers.iter().map(|speaker| self.speakers[*speaker].owner);
        let clients = owners.filter_map(|owner| match owner {
            Owner::Client(client) => Some(client),
            _ => None,
        });
        let clients: std::collections::HashSet<ClientKey> = clients.collect();
        json!({
            "group": group.name,
            "worker": self.workers[group.worker].number,
            "sessions": group.sessions.len(),
            "clients": clients.len(),
            "lines": group.lines,
        })
    }

    /// Moves a group, and sends the answer when the group has arrived.
    fn move_for(&mut self, key: usize, asked: &Map<String, Value>) {
        match self.move_of(asked) {
            Err((code, why)) => self.answer_operator(key, &json!({"error": code, "why": why})),
            Ok((group, target)) if self.groups[group].worker == target => {
                let answer = json!({"reply": true, "group": self.groups[group].name, "worker": target + 1});
                self.answer_operator(key, &answer);
            }
            Ok((group, target)) => {
                if let Some(Errand::Operator(moves)) = self.guests.get_mut(&key).map(|guest| &mut guest.errand) {
                    *moves += 1;
                }
                let found = &self.groups[group];
                let (name, before) = (&found.name, self.workers[found.worker].number);
                let fields = json!({"group": name, "from": before, "worker": target + 1});
                self.log.note("move_begun", fields, &format!("{name} is moved from worker {before} to {}", target + 1));
                self.begin_move(group, target, key);
            }
        }
    }

    /// Finds the group to be moved, and the worker that is to have it.
    fn move_of(&self, asked: &Map<String, Value>) -> Result<(GroupKey, usize), Refusal> {
        let refused = |code, why: &str| Err((code, why.to_string()));
        let pool = match self.pool.as_ref().filter(|pool| pool.folder.is_some()) {
            Some(pool) => pool,
            None => return refused("F07", "a group moves by its record: the front has to be started with --record"),
        };
        let name = asked["group"].as_str().filter(|name| !name.starts_with(NOBODY));
        let key = match name.and_then(|name| pool.groups.get(name)) {
            Some(key) => *key,
            None => return refused("F05", "there is no such group"),
        };
        let count = self.workers.len();
        let number = asked["worker"].as_u64().filter(|number| (1..=count as u64).contains(number));
        let target = match number {
            Some(number) => number as usize - 1,
            None => return Err(("F06", format!("there is no such worker, but 1 to {count}"))),
        };
        let group = &self.groups[key];
        let may_move = !group.is_held && group.is_recorded() && self.workers[target].server.is_some();
        if group.worker != target && !may_move {
            return refused("F08", "it is on its way, brought back or not recorded, or that worker has ended");
        }
        Ok((key, target))
    }

    /// Sends the answer that a group has moved, or why it has not.
    pub fn answer_move(&mut self, guest: usize, key: GroupKey, fault: &str) {
        if let Some(Errand::Operator(moves)) = self.guests.get_mut(&guest).map(|guest| &mut guest.errand) {
            *moves = moves.saturating_sub(1);
        }
        let (name, worker) = (&self.groups[key].name, self.groups[key].worker + 1);
        let answer = if fault.is_empty() {
            let fields = json!({"group": name, "worker": worker});
            self.log.note("move_done", fields, &format!("{name} is with worker {worker}"));
            json!({"reply": true, "group": name, "worker": worker})
        } else {
            let fields = json!({"group": name, "worker": worker, "why": fault});
            self.log.say(Level::Warn, "move_failed", fields, &format!("{name} has not moved: {fault}"));
            json!({"error": "F09", "why": fault, "group": name, "worker": worker})
        };
        self.answer_operator(guest, &answer);
    }
}

//! Resumes the groups of a front that was killed: each group's record is given to its server again.
//!
//! The lines that the server writes are compared with the record as far as it goes, and what comes after it is recorded.
//! Meanwhile clients receive nothing, and the group's commands wait. Then the sessions of clients that were connected are
//! reset, as those clients have disconnected; shared sessions, and those that clients name, are as they were.

use std::fs;
use std::path::Path;

use serde_json::json;

use crate::front::Front;
use crate::groups::{group_of, BETWEEN};
use crate::lines::{is_name, is_own_name, NOBODY, RESET};
use crate::log::{reason, Ended, Level};
use crate::naming::session_in;
use crate::people::{GroupKey, Owner, Session, Speaker};
use crate::records::{lines_given, GroupRecord, ENDING};
use crate::replaying::Purpose;

impl Front {
    /// Resumes the groups whose records are in the folder of records.
    pub fn resume(&mut self) -> Result<(), Ended> {
        let folder = match self.pool.as_ref().and_then(|pool| pool.folder.clone()) {
            Some(folder) => folder,
            None => return Ok(()),
        };
        let unread = |error| Ended(format!("{} cannot be read: {}", folder.display(), reason(&error)));
        for entry in fs::read_dir(&folder).map_err(unread)? {
            let path = entry.map_err(unread)?.path();
            let name = path.file_name().and_then(|name| name.to_str()?.strip_suffix(ENDING)).map(String::from);
            if let Some(name) = name.filter(|name| is_name(name)) {
                self.resume_group(&name, &path)?;
            }
        }
        Ok(())
    }

    /// Resumes a group from its record.
    fn resume_group(&mut self, name: &str, path: &Path) -> Result<(), Ended> {
        let unread = |error| Ended(format!("{} cannot be read: {}", path.display(), reason(&error)));
        let record = GroupRecord::resume(path).map_err(unread)?;
        if record.count == 0 {
            return fs::remove_file(path).map_err(unread);
        }
        let key = self.group(name);
        let group = &mut self.groups[key];
        for line in lines_given(path).map_err(unread)? {
            let session = session_in(&line);
            if session != NOBODY && group_of(&session) == name {
                group.fill(&session, &line);
            }
        }
        group.record = Some(record);
        let (at, count) = (group.worker, group.filled.len());
        let numbers = group.named.iter().filter_map(|session| number_in(session));
        self.count = numbers.max().unwrap_or(0).max(self.count);
        let words = format!("{name} is brought back, with {count} sessions");
        self.log.say(Level::Info, "group_resumed", json!({"group": name, "sessions": count}), &words);
        for session in self.shared.iter().filter(|(session, _)| group_of(session) == name) {
            self.sessions[*session.1].group = Some(key);
            self.groups[key].sessions.insert(session.0.clone(), *session.1);
        }
        self.hold(key);
        self.add_replay(key, at, Purpose::Resume);
        Ok(())
    }

    /// Continues with a group that was resumed: resets the sessions of the earlier front's clients.
    pub fn resumed(&mut self, key: GroupKey) {
        let own = self.groups[key].filled.iter().filter(|session| number_in(session).is_some() && !self.named_by_clients);
        for name in own.cloned().collect::<Vec<String>>() {
            let mut session = Session::new(&name, false);
            (session.group, session.is_begun, session.holds) = (Some(key), true, 1);
            let session = self.sessions.insert(session);
            let mut speaker = Speaker::new(Owner::Gone, session);
            speaker.waiting.push(RESET);
            let speaker = self.speakers.insert(speaker);
            self.enter_speaker(key, speaker);
        }
    }
}

/// The number of the client to which a front gives a session of this name.
fn number_in(session: &str) -> Option<u64> {
    let own = session.rsplit(BETWEEN).next().filter(|own| is_own_name(own))?;
    own[1..].parse().ok()
}

#[cfg(test)]
mod tests {
    use super::*;

    #[test]
    fn clients_are_known_by_their_names() {
        assert_eq!(
            (number_in("c7"), number_in("desk__c12"), number_in("desk__team"), number_in("c")),
            (Some(7), Some(12), None, None)
        );
    }
}

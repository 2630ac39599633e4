//! Shortens the records of groups, so that the time to restore a group does not grow with its age.
//!
//! A record that has grown beyond a size is compacted by another program, `compact`, at a low priority: it writes a shorter
//! record next to it, and checks by servers of its own that both bring a server to the same state. What was recorded meanwhile is
//! appended, and then the new record replaces the old one by a rename. Up to that moment the old record is complete, and from
//! then on the new one is, so a front that is killed at any time leaves a record that can be replayed.

use std::fs;
use std::io::{self, ErrorKind, Read};
use std::os::unix::io::AsRawFd;
use std::path::{Path, PathBuf};
use std::process::{Child, ChildStdout};
use std::time::Instant;

use mio::unix::SourceFd;
use mio::Interest;
use nix::fcntl::{fcntl, FcntlArg, OFlag};
use serde_json::{json, Value};

use crate::front::Front;
use crate::log::{reason, Ended, Level};
use crate::people::GroupKey;
use crate::program::program_beside;
use crate::records::Mark;
use crate::spawn::started;
use crate::tokens::{token, Kind};

/// The ending of a record that is being written.
const ENDING: &str = ".compact";
const NAME: &str = "compact";
/// The most bytes of what the program prints.
const SAID_MOST: usize = 65_536;

/// The results of compactions that are counted.
pub const OUTCOMES: [&str; 3] = ["compacted", "kept", "failed"];

/// A compaction that is under way.
pub struct Compaction {
    pub child: Child,
    output: ChildStdout,
    said: Vec<u8>,
    group: GroupKey,
    /// The group's number, since another group may get its key.
    number: u64,
    mark: Mark,
    into: PathBuf,
    begun: Instant,
}

/// The state that only a front has that compacts records.
#[derive(Default)]
pub struct Compacting {
    /// Records that are longer than this many bytes are compacted.
    pub at: Option<u64>,
    /// Groups whose records have grown beyond, and which wait.
    waiting: Vec<GroupKey>,
    /// The group that is to have nothing under way, so that its compaction can begin.
    held: Option<GroupKey>,
    pub under_way: Option<Compaction>,
    /// How often each result occurred.
    pub outcomes: [u64; OUTCOMES.len()],
}

/// Removes what compactions of an earlier front have left in a folder.
pub fn sweep_folder(folder: &Path) {
    for entry in fs::read_dir(folder).into_iter().flatten().flatten() {
        if entry.file_name().to_string_lossy().ends_with(ENDING) {
            let _ = fs::remove_file(entry.path());
        }
    }
}

impl Front {
    /// Notes that a group's record was written.
    pub fn note_record(&mut self, key: GroupKey) {
        let at = match self.compacting.at {
            Some(at) => at,
            None => return,
        };
        let record = self.groups.get(key).and_then(|group| group.record.as_ref());
        let record = record.filter(|record| record.is_whole && record.is_in_file());
        let is_long = record.map_or(false, |record| record.size() > at.max(record.compact_from));
        if is_long && !self.compacting.waiting.contains(&key) {
            self.compacting.waiting.push(key);
        }
    }

    /// Begins the next compaction, if there is one to be done and none under way: first the group's commands under way are
    /// answered, so that its record is complete.
    pub fn compact_next(&mut self) {
        if self.compacting.under_way.is_some() || self.compacting.held.is_some() {
            return;
        }
        while let Some(key) = self.compacting.waiting.pop() {
            let group = match self.groups.get(key) {
                Some(group) if !group.is_held && group.lost.is_empty() && group.is_recorded() => group,
                _ => continue, // the next line that is recorded is another chance
            };
            if group.under_way == 0 {
                self.begin_compaction(key);
            } else {
                self.compacting.held = Some(key);
                self.hold(key);
            }
            return;
        }
    }

    /// Begins the compaction of a group that was held for it; returns whether it was.
    pub fn compact_when_idle(&mut self, key: GroupKey) -> bool {
        if self.compacting.held != Some(key) {
            return false;
        }
        self.compacting.held = None;
        if self.is_replayed(key) || !self.groups[key].lost.is_empty() {
            return false; // it is released when it is restored
        }
        if self.groups[key].is_recorded() {
            self.begin_compaction(key);
        }
        self.release(key);
        true
    }

    /// Forgets that a group was held for a compaction, because it is held for something else or was dropped.
    pub fn leave_compaction(&mut self, key: GroupKey) {
        if self.compacting.held == Some(key) {
            self.compacting.held = None;
        }
    }

    fn is_replayed(&self, key: GroupKey) -> bool {
        self.replays.values().any(|replay| replay.group == key)
    }

    /// Starts the program that compacts a group's record up to here.
    fn begin_compaction(&mut self, key: GroupKey) {
        let group = &mut self.groups[key];
        let (name, number) = (group.name.clone(), group.number);
        let found = group.record.as_mut().and_then(|record| record.mark(&mut self.log));
        let (path, mark) = match found {
            Some(found) => found,
            None => return,
        };
        let mut into = path.clone().into_os_string();
        into.push(format!(".{}{ENDING}", std::process::id()));
        let into = PathBuf::from(into);
        match self.start_compaction(&path, &into, mark.size) {
            Ok((child, output)) => {
                let words = format!("the record of {name} is compacted");
                self.log.say(Level::Debug, "compaction_begun", json!({"group": name, "bytes": mark.size}), &words);
                let (said, begun) = (Vec::new(), Instant::now());
                self.compacting.under_way = Some(Compaction { child, output, said, group: key, number, mark, into, begun });
            }
            Err(Ended(why)) => {
                self.compacting.at = None;
                self.compacting.outcomes[2] += 1;
                let words = format!("records cannot be compacted: {why}");
                self.log.say(Level::Error, "compaction_not_started", json!({"why": why}), &words);
            }
        }
    }

    fn start_compaction(&self, path: &Path, into: &Path, size: u64) -> Result<(Child, ChildStdout), Ended> {
        let (program, args) = &self.server_words;
        let mut words = vec![program_beside(NAME)?.into_os_string(), format!("--bytes={size}").into()];
        words.extend([path.as_os_str().to_owned(), into.as_os_str().to_owned(), program.clone()]);
        words.extend(args.iter().cloned());
        let mut child = started("python3".as_ref(), &words, true, None)?;
        drop(child.stdin.take());
        let output = child.stdout.take().ok_or_else(|| Ended("the program has no pipes".to_string()))?;
        let number = output.as_raw_fd();
        let _ = fcntl(number, FcntlArg::F_SETFL(OFlag::O_NONBLOCK));
        let watched = self.poll.registry().register(&mut SourceFd(&number), token(Kind::Compaction, 0), Interest::READABLE);
        watched.map_err(|error| Ended(reason(&error)))?;
        Ok((child, output))
    }

    /// Reads what the program that compacts has printed, and takes its record when it has ended.
    pub fn hear_compaction(&mut self) {
        let compaction = match &mut self.compacting.under_way {
            Some(compaction) => compaction,
            None => return,
        };
        let mut chunk = [0; 4_096];
        loop {
            match compaction.output.read(&mut chunk) {
                Ok(0) => break,
                Ok(count) if compaction.said.len() < SAID_MOST => compaction.said.extend_from_slice(&chunk[..count]),
                Ok(_) => {}
                Err(error) if error.kind() == ErrorKind::WouldBlock => return,
                Err(error) if error.kind() == ErrorKind::Interrupted => {}
                Err(_) => break,
            }
        }
        if let Some(compaction) = self.compacting.under_way.take() {
            self.end_compaction(compaction);
        }
    }

    /// Takes the new record, unless the group or its record is not what it was.
    fn end_compaction(&mut self, mut compaction: Compaction) {
        let is_done = compaction.child.wait().map_or(false, |status| status.success());
        let said: Value = serde_json::from_slice(&compaction.said).unwrap_or_default();
        let group = self.groups.get(compaction.group).filter(|group| group.number == compaction.number);
        let name = group.map(|group| group.name.clone());
        let outcome = match (&name, is_done) {
            (None, _) => Ok(None),
            (Some(_), false) => Err("the program has failed".to_string()),
            (Some(_), true) if said["outcome"] == "kept" => Ok(None),
            (Some(_), true) => self.take_record(&compaction, &said).map_err(|error| reason(&error)),
        };
        let _ = fs::remove_file(&compaction.into); // where it was taken there is none of this name any more
        let name = name.unwrap_or_default();
        let (before, seconds) = (compaction.mark.size, compaction.begun.elapsed().as_secs_f64());
        self.put_off(&compaction, outcome.as_ref().ok().copied().flatten(), said["soon"] == true);
        match outcome {
            Ok(Some(after)) => {
                self.compacting.outcomes[0] += 1;
                let words = format!("the record of {name} is compacted: {before} bytes are {after} now");
                let fields = json!({"group": name, "before": before, "after": after, "seconds": seconds});
                self.log.say(Level::Info, "record_compacted", fields, &words);
            }
            Ok(None) => {
                self.compacting.outcomes[1] += 1;
                let why = said["why"].as_str().unwrap_or("it has changed meanwhile");
                let words = format!("the record of {name} is not compacted: {why}");
                self.log.say(Level::Info, "record_kept", json!({"group": name, "bytes": before, "why": why}), &words);
            }
            Err(why) => {
                self.compacting.outcomes[2] += 1;
                let words = format!("the record of {name} cannot be compacted: {why}");
                self.log.say(Level::Warn, "compaction_failed", json!({"group": name, "why": why}), &words);
            }
        }
    }

    /// Compacts a record again only when it has twice the size that was needed, which is that of the new one if there is one.
    /// If it was only not the right moment, 5/4 of the size is enough.
    fn put_off(&mut self, compaction: &Compaction, needed: Option<u64>, is_soon: bool) {
        let group = self.groups.get_mut(compaction.group).filter(|group| group.number == compaction.number);
        if let Some(record) = group.and_then(|group| group.record.as_mut()) {
            let kept = if is_soon { record.size() / 4 * 5 } else { 2 * record.size() };
            record.compact_from = needed.map_or(kept, |needed| 2 * needed);
            self.note_record(compaction.group);
        }
    }

    /// Puts the new record in the place of the old one; returns the size that the compacted part has now, or none if the record
    /// may not be replaced at present.
    fn take_record(&mut self, compaction: &Compaction, said: &Value) -> io::Result<Option<u64>> {
        let number = |key: &str| said[key].as_u64().ok_or_else(|| io::Error::new(ErrorKind::InvalidData, "it says nothing"));
        let (lines, bytes, copied) = (number("lines")?, number("bytes")?, number("copied")?);
        let is_replayed = self.is_replayed(compaction.group);
        let group = &mut self.groups[compaction.group];
        if is_replayed || !group.lost.is_empty() || !group.is_recorded() {
            return Ok(None);
        }
        let record = match &mut group.record {
            Some(record) => record,
            None => return Ok(None),
        };
        let is_taken = record.replace(&compaction.mark, &compaction.into, (lines as usize, bytes, copied), &mut self.log)?;
        Ok(is_taken.then_some(bytes))
    }
}

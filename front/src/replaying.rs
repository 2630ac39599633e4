//! Brings a server to the state of another one: it is given a group's record, and has to write the recorded lines again.
//!
//! The lines that it writes are compared with the record, byte for byte, and sent to nobody. Commands that were under way when
//! the other server ended are given last: clients receive only the part of the answers that they have not received yet.

use memchr::memchr_iter;
use serde_json::json;

use crate::front::{Front, NO_SESSION};
use crate::log::{reason, Level};
use crate::people::{GroupKey, Owner, ReplayKey, Speaker, SpeakerKey};
use crate::records::{Given, Told};
use crate::turns::{Command, Hears};

/// The number of lines that are read before they are given.
const AHEAD: usize = 64;
/// The most lines of a record that a server was given and has not answered, and the most bytes of them that it has not taken.
const REPLAYED_MOST: usize = 4_096;
const REPLAYED_BYTES: usize = 262_144;
/// Stands for a line that the record no longer has. The server answers it otherwise than that line, so the replay fails.
const NO_LINE: &[u8] = b"{}";

/// The purpose of a replay.
#[derive(Clone, Copy, Debug, PartialEq, Eq)]
pub enum Purpose {
    BringBack,
    Move,
    /// To continue from an earlier front's record. What comes after the end of the record is recorded.
    Resume,
}

/// A replay: it gives a server the lines of a group's record, and compares what the server writes.
pub struct Replay {
    pub speaker: SpeakerKey,
    pub group: GroupKey,
    /// The index of the worker.
    pub worker: usize,
    pub purpose: Purpose,
    pub is_begun: bool,
    given: Option<Given>,
    told: Option<Told>,
    /// Recorded lines with known answers that are still to be read.
    to_read: usize,
    /// Recorded lines with known answers that the server has not answered yet.
    unanswered: usize,
    /// Commands that were under way and are given again.
    again: usize,
}

impl Replay {
    /// The first difference, in words: the line of the record, and the line that the server has written.
    fn difference(&mut self, wanted: &[u8], came: &[u8]) -> String {
        let mut same = 0;
        for line in came.split_inclusive(|byte| *byte == b'\n') {
            if !wanted[same..].starts_with(line) {
                break;
            }
            same += line.len();
        }
        let left = memchr_iter(b'\n', &wanted[same..]).count();
        let number = self.told.as_ref().map_or(0, |told| told.count) - left + 1;
        let was = self.told.as_mut().map_or_else(Vec::new, |told| told.line_at(first_line(&wanted[same..])));
        format!("answer {number} of its record is {}, and is now {}", shown(&was), shown(first_line(&came[same..])))
    }
}

/// What kind of line a server wrote, and how long it is; not what is in it, which may be a client's.
fn shown(line: &[u8]) -> String {
    let length = line.strip_suffix(b"\n").unwrap_or(line).len();
    let kind = match line {
        b"" => return "missing".to_string(),
        _ if line.starts_with(b"{\"reply\":") => "a reply",
        _ if line.starts_with(b"{\"error\":") => "an error",
        _ if line.ends_with(b"}\n") => "a call or a warning",
        _ => "no whole line",
    };
    format!("{kind} of {length} bytes")
}

/// The first of these lines, with its end if it has one.
fn first_line(lines: &[u8]) -> &[u8] {
    lines.split_inclusive(|byte| *byte == b'\n').next().unwrap_or_default()
}

impl Front {
    /// Plans a replay of a group on a worker, after those that wait there already.
    pub fn add_replay(&mut self, group: GroupKey, worker: usize, purpose: Purpose) -> ReplayKey {
        self.metrics.replay(purpose);
        let key = self.next_replay;
        self.next_replay += 1;
        let speaker = self.speakers.insert(Speaker::new(Owner::Replay(key), NO_SESSION));
        let (given, told) = (None, None);
        let (to_read, unanswered, again) = (0, 0, 0);
        self.replays.insert(
            key,
            Replay { speaker, group, worker, purpose, is_begun: false, given, told, to_read, unanswered, again },
        );
        self.workers[worker].replays.push_back(key);
        key
    }

    /// Begins the first of the replays that wait for a server.
    pub fn begin_replays(&mut self, at: usize) {
        while self.workers[at].server.is_some() {
            let first = self.workers[at].replays.front().copied();
            match first.filter(|key| self.replays.get(key).map_or(false, |replay| !replay.is_begun)) {
                Some(key) => self.begin_replay(key),
                None => return,
            }
        }
    }

    /// Begins to give the lines of a record to a server.
    fn begin_replay(&mut self, key: ReplayKey) {
        let replay = match self.replays.get_mut(&key) {
            Some(replay) => replay,
            None => return,
        };
        replay.is_begun = true;
        let group = &mut self.groups[replay.group];
        let lost = group.lost.len();
        let log = &mut self.log;
        let opened = group.record.as_mut().map(|record| (record.content(log), record.content(log), record.count));
        let (given, told, count) = match opened {
            Some((Ok(given), Ok(told), count)) => (given, told, count),
            Some((Err(error), ..) | (_, Err(error), _)) => {
                let fault = format!("its record cannot be read: {}", reason(&error));
                return self.end_replay(key, &fault);
            }
            None => return self.end_replay(key, "it has no record"),
        };
        replay.given = Some(Given(given));
        replay.told = Some(Told::new(told));
        replay.to_read = count.saturating_sub(lost);
        replay.unanswered = replay.to_read;
        let (worker, speaker, has_lines) = (replay.worker, replay.speaker, replay.unanswered > 0);
        let words = format!("{} is replayed on worker {}", group.name, worker + 1);
        self.log.say(
            Level::Debug,
            "replay_begun",
            json!({"group": group.name, "worker": worker + 1, "lines": count}),
            &words,
        );
        if has_lines {
            self.read_ahead(key);
            self.workers[worker].turns.await_turn(speaker, &mut self.speakers[speaker]);
        } else {
            self.give_again(key);
        }
    }

    /// Reads lines of a record, once those that were read have been given.
    pub fn read_ahead_if_empty(&mut self, key: ReplayKey) {
        let speaker = self.replays.get(&key).map(|replay| replay.speaker);
        if speaker.map_or(false, |speaker| self.speakers[speaker].waiting.is_empty()) {
            self.read_ahead(key);
        }
    }

    fn read_ahead(&mut self, key: ReplayKey) {
        if let Some(replay) = self.replays.get_mut(&key) {
            let queue = &mut self.speakers[replay.speaker].waiting;
            let count = AHEAD.min(replay.to_read);
            for _ in 0..count {
                let line = replay.given.as_mut().and_then(Given::next);
                queue.push(line.as_deref().unwrap_or(NO_LINE));
            }
            replay.to_read -= count;
        }
    }

    /// Gives more lines of a record to a server than the turns allow, as long as nobody else waits for it.
    pub fn give_replay(&mut self, at: usize) {
        let first = self.workers[at].replays.front().and_then(|key| self.replays.get(key));
        let speaker = match first.filter(|replay| replay.is_begun) {
            Some(replay) => replay.speaker,
            None => return,
        };
        while !self.speakers[speaker].waiting.is_empty() && self.workers[at].turns.has_room(REPLAYED_MOST) {
            match &self.workers[at].server {
                Some(server) if server.given.len() < REPLAYED_BYTES => self.give_line(at, speaker),
                _ => return,
            }
        }
    }

    /// The part of a server's lines that clients are to receive, if the command is a replay's or was given before.
    pub fn fresh<'a>(&mut self, hears: Hears, lines: &'a [u8]) -> &'a [u8] {
        let key = match hears.replay() {
            Some(key) => key,
            None => return &[],
        };
        let replay = match self.replays.get_mut(&key) {
            Some(replay) => replay,
            None => return &[],
        };
        let wanted = replay.told.as_mut().map_or_else(Vec::new, |told| told.take(lines.len()));
        let is_same = lines.starts_with(&wanted);
        if is_same && replay.purpose == Purpose::Resume {
            let (rest, group) = (&lines[wanted.len()..], replay.group);
            self.groups[group].told(group, rest, &mut self.changed, &mut self.log);
            return &[];
        }
        if is_same && (wanted.len() == lines.len() || !hears.is_silent()) {
            return &lines[wanted.len()..];
        }
        let fault = replay.difference(&wanted, lines);
        self.end_replay(key, &fault);
        &[]
    }

    /// Continues after a command of a replay was answered.
    pub fn heard_in_replay(&mut self, command: Command) {
        let found = command.hears.replay().and_then(|key| Some((key, self.replays.get_mut(&key)?)));
        let (key, replay) = match found {
            Some(found) => found,
            None => return,
        };
        if command.hears.is_silent() {
            replay.unanswered -= 1;
            if replay.unanswered == 0 {
                self.give_again(key);
            }
        } else {
            replay.again -= 1;
            let is_last = replay.again == 0;
            let group = &mut self.groups[replay.group];
            group.under_way = group.under_way.saturating_sub(1);
            if is_last {
                self.finish_replay(key);
            }
        }
    }

    /// Gives a server again the commands that were under way, now that it has the other one's state.
    fn give_again(&mut self, key: ReplayKey) {
        let replay = match self.replays.get_mut(&key) {
            Some(replay) => replay,
            None => return,
        };
        let lost = std::mem::take(&mut self.groups[replay.group].lost);
        replay.again = lost.len();
        let worker = replay.worker;
        let lines: Vec<Option<Vec<u8>>> = lost.iter().map(|_| replay.given.as_mut().and_then(Given::next)).collect();
        for (command, line) in lost.iter().zip(lines) {
            let command = Command { told: 0, hears: Hears::Rest(key), ..*command };
            self.put(worker, command, line.as_deref().unwrap_or(NO_LINE));
        }
        if lost.is_empty() {
            self.finish_replay(key);
        }
    }

    /// Ends a replay in which all was written again, unless the record has lines left.
    fn finish_replay(&mut self, key: ReplayKey) {
        let replay = match self.replays.get_mut(&key) {
            Some(replay) => replay,
            None => return,
        };
        let rest = replay.told.as_mut().map_or_else(Vec::new, |told| told.take(1));
        let fault = if rest.is_empty() { String::new() } else { replay.difference(&rest, b"") };
        self.end_replay(key, &fault);
    }

    /// Ends a replay, with a fault or with an empty text.
    fn end_replay(&mut self, key: ReplayKey, fault: &str) {
        if let Some(replay) = self.leave_replay(key) {
            self.metrics.replays_failed += u64::from(!fault.is_empty());
            let name = &self.groups[replay.group].name;
            let fields = json!({"group": name, "worker": replay.worker + 1, "why": fault});
            self.log.say(Level::Debug, "replay_ended", fields, &format!("the replay of {name} has ended"));
            match replay.purpose {
                Purpose::BringBack | Purpose::Resume => self.brought(&replay, fault),
                Purpose::Move => self.moved(replay.group, true, fault),
            }
        }
    }

    /// Removes a replay: nothing more is given or compared.
    pub fn leave_replay(&mut self, key: ReplayKey) -> Option<Replay> {
        let replay = self.replays.remove(&key)?;
        let worker = &mut self.workers[replay.worker];
        worker.replays.retain(|other| *other != key);
        let speaker = &mut self.speakers[replay.speaker];
        speaker.waiting.clear();
        speaker.owner = Owner::Gone;
        worker.turns.drop(speaker);
        self.drop_if_over(replay.speaker);
        Some(replay)
    }
}

//! The servers of a front with workers, the groups of sessions on each, and how a server that ends is replaced.

use std::collections::HashMap;
use std::path::PathBuf;
use std::time::{Duration, Instant};

use serde_json::json;

use crate::front::{Front, NO_SESSION};
use crate::groups::Group;
use crate::lines::{error_line, NOBODY};
use crate::log::{Ended, Level};
use crate::people::{GroupKey, Owner, ReplayKey, SessionKey, SpeakerKey, Speech};
use crate::records::{GroupRecord, ENDING};
use crate::replaying::{Purpose, Replay};
use crate::ring::Ring;
use crate::server::Server;
use crate::spawn::kill;
use crate::turns::{Command, Hears};

/// The error for a session whose server lost what the session held.
const LOST: &str = "F04";
/// Exit statuses of a server that starting again would not help.
const NOT_STARTED: [i32; 2] = [1, 2];
/// If a server ends this often within the time below, before its groups were brought back, groups are closed.
const EARLY_MOST: usize = 5;
const EARLY: Duration = Duration::from_secs(60);
/// The pause before a server that has written nothing is started again. It doubles each time, up to the last value.
const PAUSE: Duration = Duration::from_millis(50);
const PAUSE_MOST: Duration = Duration::from_secs(10);

/// The state that only a front with workers has.
pub struct Pool {
    pub ring: Ring,
    pub folder: Option<PathBuf>,
    pub groups: HashMap<String, GroupKey>,
    count: u64,
    /// Commands that had waited may be given.
    pub has_released: bool,
}

impl Pool {
    pub fn new(workers: usize, folder: Option<PathBuf>) -> Pool {
        Pool { ring: Ring::new(workers), folder, groups: HashMap::new(), count: 0, has_released: false }
    }

    /// The record of a group. A question of no session leaves nothing with a server, so its record is kept in memory, and only
    /// until it is answered.
    fn record_of(&self, name: &str) -> Option<GroupRecord> {
        if name.starts_with(NOBODY) {
            return Some(GroupRecord::new(None));
        }
        let folder = self.folder.as_ref()?;
        Some(GroupRecord::new(Some(folder.join(format!("{name}{ENDING}")))))
    }
}

impl Front {
    // ---- groups ----

    /// The group of this name. A new one is put on the server that it belongs to.
    pub fn group(&mut self, name: &str) -> GroupKey {
        let pool = match &mut self.pool {
            Some(pool) => pool,
            None => unreachable!("groups are only where there may be several servers"),
        };
        if let Some(key) = pool.groups.get(name) {
            return *key;
        }
        pool.count += 1;
        let group = Group::new(name, pool.count, pool.ring.number_of(name) - 1, pool.record_of(name));
        let key = self.groups.insert(group);
        pool.groups.insert(name.to_string(), key);
        self.groups[key].account = self.account_of_group(name);
        key
    }

    /// Puts a session and its speaker into a group.
    pub fn enter_group(&mut self, session: SessionKey, name: &str, speaker: SpeakerKey) {
        let group = self.group(name);
        let found = &mut self.sessions[session];
        found.group = Some(group);
        self.groups[group].sessions.insert(found.name.clone(), session);
        self.enter_speaker(group, speaker);
    }

    /// Removes a speaker from its session's group, unless a line of the speaker waits.
    pub fn leave_pool(&mut self, session: SessionKey, speaker: SpeakerKey) {
        let group = match self.sessions[session].group {
            Some(group) => group,
            None => return,
        };
        if !self.sessions[session].is_shared {
            let name = &self.sessions[session].name;
            self.groups[group].sessions.remove(name);
        }
        if self.speakers[speaker].waiting.is_empty() {
            self.leave_group(group, speaker);
            if self.groups[group].under_way == 0 {
                self.idle(group);
            }
        }
    }

    /// Looks after a group that has nothing under way.
    pub fn idle(&mut self, key: GroupKey) {
        if self.compact_when_idle(key) {
            return;
        }
        let group = &mut self.groups[key];
        if std::mem::take(&mut group.moves_when_idle) {
            self.start_move(key);
        } else if group.filled.is_empty() && !group.is_held {
            group.named.clear();
            if let Some(record) = group.record.as_mut().filter(|record| record.count > 0) {
                record.begin_anew();
                self.changed.remove(&key);
            }
            if group.speakers.is_empty() {
                self.forget_group(key);
            }
        }
    }

    /// Drops a group when nothing is left in it.
    fn forget_group(&mut self, key: GroupKey) {
        self.leave_compaction(key);
        let mut group = self.groups.remove(key);
        self.keep_account(&group.name, std::mem::take(&mut group.account));
        self.changed.remove(&key);
        if let Some(pool) = &mut self.pool {
            pool.groups.remove(&group.name);
        }
        if let Some(record) = &mut group.record {
            record.end();
        }
        for session in group.sessions.into_values() {
            let found = &mut self.sessions[session];
            found.group = None;
            found.is_begun = false;
            if self.named_by_clients {
                self.forget_namer(session);
                self.sessions.remove(session);
            }
        }
    }

    /// Has the commands of a group wait in the front.
    pub fn hold(&mut self, key: GroupKey) {
        let group = &mut self.groups[key];
        group.is_held = true;
        for speaker in &group.speakers {
            let speaker = &mut self.speakers[*speaker];
            speaker.is_held = true;
            self.workers[group.worker].turns.drop(speaker);
        }
    }

    /// Has the commands of a group take turns again.
    pub fn release(&mut self, key: GroupKey) {
        let group = &mut self.groups[key];
        group.is_held = false;
        if let Some(pool) = &mut self.pool {
            pool.has_released = true;
        }
        for found in &group.speakers {
            let speaker = &mut self.speakers[*found];
            speaker.is_held = false;
            self.workers[group.worker].turns.await_turn(*found, speaker);
        }
        if group.under_way == 0 {
            self.idle(key);
        }
    }

    /// Closes all clients that speak for a group, whose sessions are lost.
    pub fn close_group(&mut self, key: GroupKey) {
        let at = self.groups[key].worker;
        let sweeper = self.workers[at].sweeper;
        for command in &mut self.workers[at].turns.under_way {
            if self.sessions[command.session].group == Some(key) {
                (command.speaker, command.session, command.hears) = (sweeper, NO_SESSION, Hears::Nobody);
            }
        }
        for speaker in std::mem::take(&mut self.groups[key].speakers) {
            self.workers[at].turns.leave(&mut self.speakers[speaker]);
            self.lose(key, speaker);
        }
        let group = &mut self.groups[key];
        group.lost.clear();
        group.under_way = 0;
        group.moves_when_idle = false;
        self.forget_group(key);
    }

    /// Sends a speaker's client the error that its group is lost, and closes the client.
    fn lose(&mut self, key: GroupKey, speaker: SpeakerKey) {
        let fault = format!("what {} held is lost", self.groups[key].name);
        let found = &mut self.speakers[speaker];
        found.waiting.clear();
        found.under_way = 0;
        found.pace.stop();
        found.group = None;
        found.is_held = false;
        let (owner, session) = (found.owner, found.session);
        let more = found.more.take();
        if let (Some(inspector), Some(more)) = (&mut self.inspector, &more) {
            inspector.release(more.numbers.iter().map(|(_, size)| size).sum());
        }
        let sessions = more.map_or_else(|| vec![session], |voice| voice.members.into_iter().collect());
        let names = sessions.iter().map(|session| &self.sessions[*session]).filter(|session| session.group == Some(key));
        let mut names: Vec<String> = names.map(|session| session.name.clone()).collect();
        names.sort();
        if let Owner::Client(client) = owner {
            for session in sessions {
                self.sessions[session].members.retain(|member| *member != client);
            }
            let link = &mut self.clients[client].link;
            for name in &names {
                link.tell(&error_line(LOST, name));
                self.metrics.send(&error_line(LOST, name));
                self.metrics.errors.count(LOST.as_bytes());
            }
            link.refuse(&fault);
            if let Speech::Named(voices) = &mut self.clients[client].speech {
                voices.of_groups.remove(&key);
                voices.busy.retain(|voice| *voice != speaker);
                self.speakers.remove(speaker);
            }
            self.touch(client);
        }
        self.drop_if_over(speaker);
    }

    // ---- servers ----

    /// Starts processes that are due, and writes to records what servers were given and wrote.
    pub fn tend(&mut self) -> Result<(), Ended> {
        if self.pool.is_none() {
            return Ok(());
        }
        for at in 0..self.workers.len() {
            if self.workers[at].server.is_none() {
                self.restart(at);
                self.give(at);
            }
        }
        for key in std::mem::take(&mut self.changed) {
            if let Some(record) = self.groups.get_mut(key).and_then(|group| group.record.as_mut()) {
                record.write(&mut self.log);
            }
            self.note_record(key);
        }
        self.compact_next();
        Ok(())
    }

    /// Replaces a process that has ended by another one, and brings its groups back.
    pub fn fall(&mut self, at: usize, ended: Ended) -> Result<(), Ended> {
        let worker = &mut self.workers[at];
        let mut server = match worker.server.take().filter(|_| self.pool.is_some()) {
            Some(server) => server,
            None => return Err(ended),
        };
        let commands = worker.turns.lose();
        kill(&mut server.child);
        let status = server.status().and_then(|status| status.code());
        if worker.is_first && !worker.has_written && status.map_or(false, |status| NOT_STARTED.contains(&status)) {
            return Err(ended);
        }
        let number = worker.number;
        let fields = json!({"worker": number, "why": ended.0});
        self.log.say(Level::Error, "worker_ended", fields, &format!("worker {number}: {}", ended.0));
        worker.is_first = false;
        worker.starts_in_vain = if worker.has_written { 0 } else { (worker.starts_in_vain + 1).min(20) };
        worker.due = Instant::now() + PAUSE_MOST.min(PAUSE * (2_u32.pow(worker.starts_in_vain) - 1));
        let commands = self.without_expired(at, commands);
        let blamed_at = commands.first().and_then(|command| self.group_at(command));
        let replays: Vec<ReplayKey> = self.workers[at].replays.drain(..).collect();
        self.keep_lost(&commands);
        let is_resumed = |key: &ReplayKey| self.replays.get(key).filter(|replay| replay.purpose == Purpose::Resume);
        let resumed: Vec<GroupKey> = replays.iter().filter_map(is_resumed).map(|replay| replay.group).collect();
        let is_own = |key: &ReplayKey| self.replays.get(key).map_or(false, |replay| replay.purpose != Purpose::Move);
        let was_brought_back = !replays.iter().any(is_own);
        for key in &replays {
            self.give_up_replay(*key, &ended);
        }
        let groups: Vec<GroupKey> = self.groups.iter().filter(|(_, group)| group.worker == at).map(|(key, _)| key).collect();
        let blamed = if was_brought_back { Vec::new() } else { self.blame(at, blamed_at, &groups) };
        self.bring_back(at, groups, &blamed, &resumed);
        self.restart(at);
        Ok(())
    }

    /// The group of the command that a server is doing.
    fn group_at(&self, command: &Command) -> Option<GroupKey> {
        match command.hears.replay().and_then(|key| self.replays.get(&key)) {
            Some(replay) => Some(replay.group),
            None => self.sessions[command.session].group,
        }
    }

    /// Keeps clients' commands that a server has not answered, each with its group.
    fn keep_lost(&mut self, commands: &[Command]) {
        for command in commands {
            match self.sessions[command.session].group {
                Some(group) if !command.hears.is_silent() => self.groups[group].lost.push(*command),
                _ => {
                    if let Some(speaker) = self.speakers.get_mut(command.speaker) {
                        speaker.under_way = speaker.under_way.saturating_sub(1);
                        if let Owner::Health(guest) = speaker.owner {
                            speaker.owner = Owner::Gone;
                            self.tell_health(guest, "replaying");
                        }
                    }
                    self.drop_if_over(command.speaker);
                }
            }
        }
    }

    /// Ends a replay whose server has ended. A group that was to move there stays where it is.
    fn give_up_replay(&mut self, key: ReplayKey, ended: &Ended) {
        if let Some(replay) = self.leave_replay(key) {
            if replay.purpose == Purpose::Move {
                self.moved(replay.group, replay.is_begun, &ended.0);
            }
        }
    }

    /// Decides which groups to close of a server that ended before its groups were brought back: none if that is
    /// rare, the one at whose commands it has always ended, or all.
    fn blame(&mut self, at: usize, blamed: Option<GroupKey>, groups: &[GroupKey]) -> Vec<GroupKey> {
        let now = Instant::now();
        let number = blamed.map(|key| self.groups[key].number);
        let worker = &mut self.workers[at];
        worker.early.push_back((now, number));
        while worker.early.front().map_or(false, |(when, _)| now.duration_since(*when) > EARLY) {
            worker.early.pop_front();
        }
        if worker.early.len() < EARLY_MOST {
            return Vec::new();
        }
        let (begun, first) = worker.early[0];
        let is_one = first.is_some() && worker.early.iter().all(|(_, number)| *number == first);
        worker.early.clear();
        if is_one {
            return groups.iter().copied().filter(|key| Some(self.groups[*key].number) == first).collect();
        }
        worker.due = begun + EARLY;
        let seconds = worker.due.saturating_duration_since(now).as_secs_f64().round();
        let number = worker.number;
        let words = format!("worker {number} has ended too often, and restarts in {seconds} seconds");
        self.log.say(Level::Error, "worker_paused", json!({"worker": number, "seconds": seconds}), &words);
        groups.to_vec()
    }

    /// Brings the groups of a server back, or closes those for which that fails. A group that holds nothing loses nothing.
    /// The groups at whose commands the server ended come last.
    fn bring_back(&mut self, at: usize, mut groups: Vec<GroupKey>, blamed: &[GroupKey], resumed: &[GroupKey]) {
        let early = &self.workers[at].early;
        let suspects: Vec<u64> = early.iter().filter_map(|(_, number)| *number).collect();
        groups.sort_by_key(|key| suspects.contains(&self.groups[*key].number));
        for key in groups {
            self.leave_compaction(key);
            if self.groups[key].moving.is_some() {
                self.give_up_move(key, "its worker has ended meanwhile");
            }
            let group = &self.groups[key];
            let can_be = group.is_recorded() && !blamed.contains(&key);
            if group.filled.is_empty() && group.lost.is_empty() {
                self.release(key);
            } else if can_be {
                self.hold(key);
                let is_resumed = resumed.contains(&key);
                self.add_replay(key, at, if is_resumed { Purpose::Resume } else { Purpose::BringBack });
            } else {
                let words = format!("what {} held is lost", group.name);
                self.log.say(Level::Error, "group_lost", json!({"group": group.name}), &words);
                self.close_group(key);
            }
        }
    }

    /// Continues with a group that was brought back, or closes it.
    pub fn brought(&mut self, replay: &Replay, fault: &str) {
        let (key, at) = (replay.group, replay.worker);
        if fault.is_empty() {
            if replay.purpose == Purpose::Resume {
                self.resumed(key);
            }
            self.release(key);
        } else {
            let group = &mut self.groups[key];
            let words = format!("{} cannot be brought back: {fault}", group.name);
            self.log.say(Level::Error, "group_not_restored", json!({"group": group.name, "why": fault}), &words);
            let names = std::mem::take(&mut group.named);
            self.sweep(at, names);
            self.close_group(key);
        }
        self.say_if_whole(at);
    }

    fn say_if_whole(&mut self, at: usize) {
        let worker = &self.workers[at];
        if worker.replays.is_empty() {
            let words = format!("worker {} is where it was", worker.number);
            self.log.say(Level::Info, "worker_restored", json!({"worker": worker.number}), &words);
        }
    }

    /// Starts another process if it is due.
    fn restart(&mut self, at: usize) {
        let now = Instant::now();
        if now < self.workers[at].due {
            return;
        }
        let (program, args) = &self.server_words;
        let started = Server::start(program, args, None, self.server_memory);
        match started.and_then(|server| self.begin_server(at, server)) {
            Ok(()) => {
                self.metrics.restarts[at] += 1;
                self.say_if_whole(at);
            }
            Err(ended) => {
                let worker = &mut self.workers[at];
                worker.due = now + PAUSE_MOST;
                let words = format!("worker {}: {}", worker.number, ended.0);
                let fields = json!({"worker": worker.number, "why": ended.0});
                self.log.say(Level::Error, "worker_not_started", fields, &words);
            }
        }
    }
}

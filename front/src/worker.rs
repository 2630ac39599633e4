//! One of the servers: the commands under way with it, and the receivers of what it writes.

use std::collections::VecDeque;
use std::time::{Duration, Instant};

use memchr::memchr;
use serde_json::json;

use crate::front::Front;
use crate::health::NOTHING;
use crate::lines::{is_answer, put_with_member, session_of, shown, NOBODY, RESET};
use crate::live::SPIN;
use crate::log::{Ended, Level};
use crate::people::{GroupKey, Owner, ReplayKey, SpeakerKey};
use crate::server::{Brought, Server};
use crate::spawn::end_all;
use crate::tokens::{token, Kind};
use crate::turns::{Command, Hears, Turns};

/// How often a server is read before others have their turn.
const READS_MOST: usize = 16;

/// A server, the commands that it has not answered, and whose turn it is. Another process may replace it.
pub struct Worker {
    pub number: usize,
    pub turns: Turns,
    pub server: Option<Server>,
    /// Groups that are being brought to it. The first is under way.
    pub replays: VecDeque<ReplayKey>,
    /// Its first process has not been replaced.
    pub is_first: bool,
    /// Its process has written something.
    pub has_written: bool,
    /// Its process was given lines of clients.
    has_lines: bool,
    /// Some of what it has just written is not to be shown.
    is_sifted: bool,
    /// The number of its last processes, one after another, that ended without having written anything.
    pub starts_in_vain: u32,
    /// The ends before its groups were brought back: when, and the group whose command was under way.
    pub early: VecDeque<(Instant, Option<u64>)>,
    /// When another process is to be started.
    pub due: Instant,
    pub sweeper: SpeakerKey,
    /// Since when it has written nothing, though a command is under way.
    pub silent_since: Instant,
    /// Since when it does the first of the commands under way, if commands have a time.
    pub command_since: Instant,
    /// That command has taken too long, and the front looks for its answer once more.
    pub is_overdue: bool,
    /// The server was ended because that command has taken too long.
    pub is_expired: bool,
}

impl Worker {
    pub fn new(number: usize, sweeper: SpeakerKey) -> Worker {
        Worker {
            number,
            turns: Turns::new(number),
            server: None,
            replays: VecDeque::new(),
            is_first: true,
            has_written: false,
            has_lines: false,
            is_sifted: false,
            starts_in_vain: 0,
            early: VecDeque::new(),
            due: Instant::now(),
            sweeper,
            silent_since: Instant::now(),
            command_since: Instant::now(),
            is_overdue: false,
            is_expired: false,
        }
    }
}

impl Front {
    /// Begins with a process.
    pub fn begin_server(&mut self, at: usize, server: Server) -> Result<(), Ended> {
        server.watch(self.poll.registry(), token(Kind::ServerOutput, at))?;
        let worker = &mut self.workers[at];
        worker.server = Some(server);
        worker.has_written = false;
        worker.has_lines = false;
        Ok(())
    }

    /// Reads what a server has written, or that it ends. One that writes all the time is read again later, so that others
    /// have their turn.
    pub fn stir_server(&mut self, at: usize, is_hung_up: bool) -> Result<(), Ended> {
        for _ in 0..READS_MOST {
            let server = match &mut self.workers[at].server {
                Some(server) => server,
                None => return Ok(()),
            };
            let ended = match server.read() {
                Brought::Nothing => return Ok(()),
                Brought::End => {
                    let ended = Ended(server.how_ended());
                    let status = server.status().and_then(|status| status.code());
                    self.not_served =
                        status.and_then(|status| status.try_into().ok()).filter(|_| !self.workers[at].has_written);
                    Err(ended)
                }
                Brought::Lines(whole, is_full) => {
                    let heard = self.hear(at, whole);
                    if heard.is_ok() && !is_full && !is_hung_up {
                        return Ok(());
                    }
                    heard
                }
            };
            if let Err(ended) = ended {
                return self.fall(at, ended);
            }
        }
        match &self.workers[at].server {
            Some(server) => server.watch_again(self.poll.registry(), token(Kind::ServerOutput, at)),
            None => Ok(()),
        }
    }

    // ---- what the server writes ----

    /// Sends the clients the lines that a server has written. Long calls are not copied line by line.
    fn hear(&mut self, at: usize, whole: usize) -> Result<(), Ended> {
        let worker = &mut self.workers[at];
        let mut bytes = match &mut worker.server {
            Some(server) => std::mem::take(&mut server.written.bytes),
            None => return Ok(()),
        };
        worker.has_written |= whole > 0;
        if self.patience.is_some() {
            worker.silent_since = Instant::now();
        }
        let heard = self.hear_lines(at, &bytes[..whole]);
        if let Some(server) = &mut self.workers[at].server {
            std::mem::swap(&mut server.written.bytes, &mut bytes);
            server.written.told(whole);
        }
        heard
    }

    fn hear_lines(&mut self, at: usize, lines: &[u8]) -> Result<(), Ended> {
        if let Some(inspector) = &mut self.inspector {
            let turns = &self.workers[at].turns;
            let is_sifted = turns.under_way.iter().any(|command| command.hears != Hears::Clients);
            if !is_sifted {
                inspector.told(lines, turns, &self.sessions);
            }
            self.workers[at].is_sifted = is_sifted;
        }
        let (mut told, mut start) = (0, 0);
        while let Some(length) = memchr(b'\n', &lines[start..]) {
            let end = start + length + 1;
            let line = &lines[start..end];
            if is_answer(line) {
                if told < start {
                    self.tell(at, &lines[told..start])?;
                }
                self.answer(at, line)?;
                told = end;
            } else {
                self.check(at, line)?;
            }
            start = end;
        }
        if told < lines.len() {
            self.tell(at, &lines[told..])?;
        }
        Ok(())
    }

    /// Checks that a call or a warning is for the session whose command the server is doing.
    fn check(&self, at: usize, line: &[u8]) -> Result<(), Ended> {
        let command = self.command(at, line)?;
        let session = &self.sessions[command.session];
        if session.ends(line) || self.session_in(at, line)? == session.name || command.hears.is_silent() {
            return Ok(());
        }
        Err(Ended(format!("the server did not tell {} in its turn: {}", session.name, self.shown(at, line))))
    }

    /// The session that a line of a server names.
    fn session_in<'a>(&self, at: usize, line: &'a [u8]) -> Result<&'a str, Ended> {
        let fault = || Ended(format!("the server wrote no line of the protocol: {}", self.shown(at, line)));
        session_of(line).ok_or_else(fault)
    }

    /// The first of these lines of a server for a message. Once the server was given a line of a client, only how long its own
    /// line is, since it may have what the client has written.
    fn shown(&self, at: usize, lines: &[u8]) -> String {
        match self.workers[at].has_lines {
            false => shown(lines),
            true => format!("a line of {} bytes", memchr(b'\n', lines).unwrap_or(lines.len())),
        }
    }

    /// The command that a server is doing, to which these lines belong.
    fn command(&self, at: usize, lines: &[u8]) -> Result<Command, Ended> {
        match self.workers[at].turns.under_way.front() {
            Some(command) => Ok(*command),
            None => {
                let end = memchr(b'\n', lines).map_or(lines.len(), |end| end + 1);
                self.session_in(at, &lines[..end])?; // fails if this is no line of the protocol
                Err(Ended(format!("the server wrote a line that nobody has asked for: {}", self.shown(at, lines))))
            }
        }
    }

    /// Sends calls and warnings to all who speak for the session whose command a server is doing.
    fn tell(&mut self, at: usize, lines: &[u8]) -> Result<(), Ended> {
        let command = self.command(at, lines)?;
        self.workers[at].turns.tell(lines.len());
        let lines = match command.hears {
            Hears::Clients => lines,
            hears => self.fresh(hears, lines),
        };
        if lines.is_empty() {
            return Ok(());
        }
        self.show_sifted(at, lines);
        for member in 0..self.sessions[command.session].members.len() {
            self.deliver(self.sessions[command.session].members[member], lines);
        }
        let session = &self.sessions[command.session];
        if let Some(group) = session.group {
            self.groups[group].told(group, lines, &mut self.changed, &mut self.log);
        }
        if self.has_monitors() {
            let name = session.name.clone();
            self.tell_monitors(&name, lines);
        }
        Ok(())
    }

    /// Sends a reply or an error to the client whose command it ends.
    fn answer(&mut self, at: usize, line: &[u8]) -> Result<(), Ended> {
        let command = self.command(at, line)?;
        let session = &self.sessions[command.session];
        let is_own = session.ends(line);
        if !is_own {
            let name = self.session_in(at, line)?;
            if !command.hears.is_silent() && name != session.name && name != NOBODY {
                let (name, shown) = (&session.name, self.shown(at, line));
                return Err(Ended(format!("the server did not answer {name} in its turn: {shown}")));
            }
        }
        let group = session.group;
        self.workers[at].turns.tell(line.len());
        let fresh = match command.hears {
            Hears::Clients => line,
            hears => self.fresh(hears, line),
        };
        self.metrics.answer(at, &command, line, !fresh.is_empty());
        if !fresh.is_empty() {
            if let Some(group) = group {
                self.groups[group].told(group, fresh, &mut self.changed, &mut self.log);
            }
            if command.is_spin {
                self.tell_spin(command.session, fresh);
            } else if let Owner::Client(client) = self.speakers[command.speaker].owner {
                self.tell_client(client, fresh);
            }
        }
        self.workers[at].turns.answer(&mut self.speakers);
        if self.quotas.is_some() {
            self.heard_by_quotas(at, &command, line);
        }
        if !fresh.is_empty() {
            self.show_sifted(at, fresh);
            if self.has_monitors() {
                let name = if is_own {
                    self.sessions[command.session].name.clone()
                } else {
                    self.session_in(at, line)?.to_string()
                };
                self.tell_monitors(&name, fresh);
            }
        }
        if !fresh.is_empty() && (command.is_spin || command.may_post) {
            self.heard_cause(command, fresh);
        }
        match self.speakers.get(command.speaker).map(|speaker| speaker.owner) {
            Some(Owner::Client(client)) => self.touch_unless_held(client),
            Some(Owner::Health(guest)) => {
                self.speakers[command.speaker].owner = Owner::Gone;
                self.heard_health(guest);
            }
            _ => {}
        }
        self.answered(command, group);
        self.drop_if_over(command.speaker);
        Ok(())
    }

    /// Continues after a command was answered.
    fn answered(&mut self, command: Command, group: Option<GroupKey>) {
        match (command.hears, group) {
            (Hears::Replay(_) | Hears::Rest(_), _) => self.heard_in_replay(command),
            (Hears::Clients, Some(group)) => {
                self.groups[group].under_way = self.groups[group].under_way.saturating_sub(1);
                if self.groups[group].under_way == 0 {
                    self.idle(group);
                }
            }
            _ => {}
        }
    }

    /// Sends the page's process the lines that were sifted, if not all of them are to be shown.
    fn show_sifted(&mut self, at: usize, lines: &[u8]) {
        let worker = &self.workers[at];
        if let Some(inspector) = self.inspector.as_mut().filter(|_| worker.is_sifted) {
            inspector.told(lines, &worker.turns, &self.sessions);
        }
    }

    // ---- what the server is given ----

    /// Gives a server the clients' commands, in their turns, as many as it may be given.
    pub fn give(&mut self, at: usize) {
        self.begin_replays(at);
        while self.workers[at].server.is_some() {
            match self.workers[at].turns.next(&mut self.speakers) {
                Some(key) if self.quotas.is_some() && !self.admits(key) => {}
                Some(key) => self.give_line(at, key),
                None => break,
            }
        }
        self.give_replay(at);
        self.push(at);
    }

    /// Gives a server the next line of a speaker.
    pub fn give_line(&mut self, at: usize, key: SpeakerKey) {
        let is_replay = matches!(self.speakers[key].owner, Owner::Replay(_));
        let is_check = matches!(self.speakers[key].owner, Owner::Health(_));
        let is_spin = self.live.is_any() && self.spins_next(key);
        let session = if is_spin { self.speakers[key].session } else { self.session_of_next(key) };
        let apart = match is_spin {
            true => Some(SPIN.to_vec()),
            false => self.barred_join(key, session).or_else(|| self.kept_apart(key)),
        };
        let (worker, speaker) = (&mut self.workers[at], &mut self.speakers[key]);
        let server = match &mut worker.server {
            Some(server) => server,
            None => return,
        };
        let line = apart.as_deref().or_else(|| speaker.waiting.first()).unwrap_or_default();
        let is_named = self.named_by_clients || is_replay;
        let member = &self.sessions[session].member;
        let length = match (is_check, is_named) {
            (true, _) => server.give_unrecorded(line, &mut self.log),
            (_, true) => server.give(|out| out.extend_from_slice(line)),
            (_, false) => server.give(|out| put_with_member(out, line, member)),
        };
        worker.has_lines |= !is_check;
        if !is_spin {
            speaker.waiting.pop();
        }
        let hears = match speaker.owner {
            Owner::Replay(replay) => Hears::Replay(replay),
            Owner::Health(_) => Hears::Nobody,
            _ => Hears::Clients,
        };
        if self.patience.is_some() && worker.turns.under_way.is_empty() {
            worker.silent_since = Instant::now();
        }
        if worker.turns.under_way.is_empty() {
            worker.command_since = self.now;
        }
        worker.turns.give(key, speaker, length, session, hears);
        if hears == Hears::Clients {
            let came = speaker.came.filter(|_| matches!(speaker.owner, Owner::Client(_)) && !is_spin);
            self.metrics.give(&mut worker.turns, came);
        }
        self.metrics.spins += u64::from(is_spin);
        match speaker.owner {
            Owner::Replay(replay) => self.read_ahead_if_empty(replay),
            Owner::Health(_) => {}
            _ => self.note_given(at, key, session, length),
        }
        if self.live.is_any() {
            self.note_live(at, session, length, is_spin);
        }
        let (worker, speaker) = (&mut self.workers[at], &mut self.speakers[key]);
        worker.turns.await_turn(key, speaker);
    }

    /// Records what the last line that a server was given may cause for live sessions.
    fn note_live(&mut self, at: usize, session: usize, length: usize, is_spin: bool) {
        let line = self.workers[at].server.as_ref().map_or_else(Vec::new, |server| server.last(length).to_vec());
        let may_post = !is_spin && self.note_cause(session, &line);
        if let Some(command) = self.workers[at].turns.under_way.back_mut() {
            (command.is_spin, command.may_post) = (is_spin, may_post);
        }
    }

    /// Records that a server was given a client's line.
    fn note_given(&mut self, at: usize, key: SpeakerKey, session: usize, length: usize) {
        self.sessions[session].is_begun = true;
        let group = self.sessions[session].group;
        if self.counts_joins(key) {
            let line = self.workers[at].server.as_ref().map_or_else(Vec::new, |server| server.last(length).to_vec());
            self.count_join(at, key, &line);
        }
        let server = match &self.workers[at].server {
            Some(server) => server,
            None => return,
        };
        let line = server.last(length);
        if let Some(group) = group {
            let name = &self.sessions[session].name;
            self.groups[group].given(group, name, line, &mut self.changed, &mut self.log);
        }
        if let Some(inspector) = &mut self.inspector {
            let speaker = &mut self.speakers[key];
            inspector.given(speaker, &self.sessions[session], line);
        }
        let speaker = &self.speakers[key];
        match speaker.owner {
            Owner::Client(client) if speaker.waiting.is_empty() => self.read_on(client),
            Owner::Gone | Owner::Inspector if speaker.waiting.is_empty() => {
                if let Some(group) = group {
                    self.leave_group(group, key);
                }
            }
            _ => {}
        }
    }

    /// Gives a server a command that another process was given and has not answered.
    pub fn put(&mut self, at: usize, command: Command, line: &[u8]) {
        let worker = &mut self.workers[at];
        if worker.turns.under_way.is_empty() {
            worker.command_since = Instant::now();
        }
        worker.turns.put(command);
        worker.has_lines = true;
        if let Some(server) = &mut worker.server {
            server.give(|out| out.extend_from_slice(line));
        }
    }

    /// Resets sessions. Nobody receives the answers.
    pub fn sweep(&mut self, at: usize, names: impl IntoIterator<Item = String>) {
        let worker = &mut self.workers[at];
        if let Some(server) = &mut worker.server {
            let mut names: Vec<String> = names.into_iter().collect();
            names.sort();
            for name in names {
                let member = crate::lines::member_of(&name);
                let length = server.give(|out| put_with_member(out, RESET, &member));
                let sweeper = &mut self.speakers[worker.sweeper];
                worker.turns.give(worker.sweeper, sweeper, length, 0, Hears::Nobody);
            }
        }
    }

    /// Gives a server a line by the front; its answer shows the front that the server serves.
    pub fn greet_server(&mut self, at: usize) {
        let worker = &mut self.workers[at];
        if let Some(server) = &mut worker.server {
            let length = server.give_unrecorded(NOTHING, &mut self.log);
            let sweeper = &mut self.speakers[worker.sweeper];
            worker.silent_since = Instant::now();
            worker.turns.give(worker.sweeper, sweeper, length, 0, Hears::Nobody);
        }
        self.push(at);
    }

    /// Ends servers that have been silent for too long; returns the time until the next check.
    pub fn look_at_servers(&mut self) -> Option<Duration> {
        let patience = self.patience?;
        let mut next = None;
        for worker in self.workers.iter_mut().filter(|worker| !worker.turns.under_way.is_empty()) {
            let left = patience.saturating_sub(worker.silent_since.elapsed());
            match &mut worker.server {
                Some(server) if left.is_zero() => {
                    let seconds = patience.as_secs();
                    let number = worker.number;
                    let words = format!("worker {number}: the server has been silent for {seconds} seconds, and is ended");
                    self.log.say(Level::Error, "worker_silent", json!({"worker": number, "seconds": seconds}), &words);
                    end_all(&mut [&mut server.child], Duration::ZERO);
                    worker.silent_since = Instant::now();
                }
                _ => next = Some(next.map_or(left, |next: Duration| next.min(left))),
            }
        }
        next
    }

    /// Writes as much to a server as it takes.
    pub fn push(&mut self, at: usize) {
        if let Some(server) = &mut self.workers[at].server {
            server.push(self.poll.registry(), token(Kind::ServerInput, at), &mut self.log);
        }
    }
}

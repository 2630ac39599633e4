//! The process that shows the server as a page: it receives all lines given and written, and the front never waits for it.
//!
//! The process receives lines by a socket of its own. A line that the server was given begins with `>`, or with `?` and a
//! number if the process itself asked for it; a line that the server wrote is unchanged. `@` begins the time, in microseconds,
//! of the lines after it, and `!` an object by the front itself: how the front begins, the session of a client that has left,
//! what was refused, and how many lines were left out. The process writes requests: a number, a session and a
//! command. The front checks each of them, as `asked` says.

use std::collections::{BTreeSet, HashMap};
use std::time::Instant;

use serde_json::{json, Value};
use slab::Slab;

use crate::asked::{asked_in, Leave};
use crate::front::Front;
use crate::lines::{is_name, line_of};
use crate::log::{Level, Log};
use crate::people::{Came, Link, Owner, Session, SessionKey, Speaker, SpeakerKey};
use crate::queue::Queue;
use crate::spawn::kill_at_once;
use crate::turns::Turns;

/// If the process has more unread bytes than this, lines are left out.
const LEFT_MOST: usize = 4 * 1024 * 1024;
/// The process receives lines again when it has at most this many unread bytes.
const ROOM: usize = 1024 * 1024;
/// The most commands of it that may wait for one session.
const ASKS_MOST: usize = 1_024;
/// The most bytes of its commands that may wait, for all sessions together.
const WAITING_BYTES_MOST: usize = 1024 * 1024;
const DOES_NOT_READ: &str = "it does not read";
const NO_REQUEST: &str = "it sent a line that is no request";

/// Lines that were not sent to the process because it had too much unread.
#[derive(Default)]
struct LeftOut {
    lines: usize,
    sessions: BTreeSet<String>,
}

/// The front's side of the process that shows it.
pub struct Inspector {
    /// The socket to the process, while it is connected.
    link: Option<Link>,
    leave: Leave,
    left_out: Option<LeftOut>,
    /// Lines for the process from this round of the front.
    fresh: Vec<u8>,
    /// Whether those lines contain a time.
    is_timed: bool,
    begun: Instant,
    /// The sessions of connected clients.
    pub sessions: HashMap<String, SessionKey>,
    askers: HashMap<SessionKey, SpeakerKey>,
    /// Bytes of its commands that wait.
    held: usize,
    /// The log has said that it asks for something that is not allowed.
    has_warned: bool,
    /// Why it was dropped, if the front has ended it.
    fault: &'static str,
}

impl Inspector {
    /// Begins to write to the process, first how the front begins.
    pub fn new(link: Link, leave: Leave, begins: &Value) -> Inspector {
        let mut inspector = Inspector {
            link: Some(link),
            leave,
            left_out: None,
            fresh: Vec::new(),
            is_timed: false,
            begun: Instant::now(),
            sessions: HashMap::new(),
            askers: HashMap::new(),
            held: 0,
            has_warned: false,
            fault: "",
        };
        inspector.note(begins);
        inspector
    }

    // ---- lines for the process ----

    /// Sends it a line that is given to the server.
    pub fn given(&mut self, speaker: &mut Speaker, session: &Session, line: &[u8]) {
        let begun = match (speaker.owner, &mut speaker.more) {
            (Owner::Inspector, Some(more)) => more.numbers.pop_front(),
            _ => None,
        };
        self.release(begun.map_or(0, |(_, size)| size));
        if self.left_out.is_some() {
            self.leave_out(1, [session].into_iter());
        } else if self.link.is_some() {
            if !self.is_timed {
                self.tell_time();
            }
            let mark = begun.map_or_else(|| ">".to_string(), |(number, _)| format!("?{number} "));
            self.fresh.extend_from_slice(mark.as_bytes());
            self.fresh.extend_from_slice(line);
            self.fresh.push(b'\n');
        }
    }

    /// Counts bytes of its commands that no longer wait.
    pub fn release(&mut self, size: usize) {
        self.held = self.held.saturating_sub(size);
    }

    /// Sends it lines that the server has written.
    pub fn told(&mut self, lines: &[u8], turns: &Turns, sessions: &Slab<Session>) {
        if self.left_out.is_some() {
            let under_way = turns.under_way.iter().map(|command| &sessions[command.session]);
            self.leave_out(memchr::memchr_iter(b'\n', lines).count(), under_way);
        } else if self.link.is_some() {
            self.tell_time();
            self.fresh.extend_from_slice(lines);
        }
    }

    /// Counts lines that are left out, and keeps the names of their sessions, except those of disconnected clients.
    fn leave_out<'a>(&mut self, count: usize, sessions: impl Iterator<Item = &'a Session>) {
        let known = &self.sessions;
        let is_there = |it: &&Session| known.contains_key(&it.name) || it.is_shared && !it.name.is_empty();
        if let Some(left_out) = &mut self.left_out {
            left_out.lines += count;
            left_out.sessions.extend(sessions.filter(is_there).map(|it| it.name.clone()));
        }
    }

    /// Sends it the time of the lines that follow.
    fn tell_time(&mut self) {
        self.is_timed = true;
        let time = self.begun.elapsed().as_micros();
        self.fresh.extend_from_slice(format!("@{time}\n").as_bytes());
    }

    /// Sends it an object by the front itself. A process that reads nothing at all is dropped.
    fn note(&mut self, said: &Value) {
        if self.link.as_ref().map_or(0, |link| link.unread.len()) > 2 * LEFT_MOST {
            self.link = None;
            self.fault = DOES_NOT_READ;
        }
        if self.link.is_some() {
            self.fresh.push(b'!');
            self.fresh.extend_from_slice(&line_of(said));
        }
    }

    /// Writes to it. If too much is unread, lines are left out until it has read nearly all.
    fn settle(&mut self, turns: &Turns, speakers: &Slab<Speaker>, sessions: &Slab<Session>, registry: &mio::Registry) {
        self.is_timed = false;
        let left = self.push(registry);
        if self.left_out.is_none() && left > LEFT_MOST {
            self.left_out = Some(LeftOut::default());
        } else if left <= ROOM {
            if let Some(left_out) = self.left_out.take() {
                let under_way = turns.under_way.iter().map(|command| {
                    let is_asked = speakers.get(command.speaker).map_or(false, |it| it.owner == Owner::Inspector);
                    json!([sessions[command.session].name, is_asked])
                });
                let under_way: Vec<Value> = under_way.collect();
                self.note(&json!({"left": left_out.lines, "sessions": left_out.sessions, "under_way": under_way}));
                self.push(registry); // it has read all, and nothing else may come for long
            }
        }
    }

    /// Writes as much as it takes now; returns how much is unread.
    fn push(&mut self, registry: &mio::Registry) -> usize {
        match &mut self.link {
            Some(link) => {
                link.tell(&self.fresh);
                self.fresh.clear();
                link.write(registry);
                link.unread.len()
            }
            None => 0,
        }
    }
}

impl Front {
    /// Reads from the process and writes to it, or logs that it has ended.
    pub fn settle_inspector(&mut self) {
        self.hear_inspector();
        let inspector = match &mut self.inspector {
            Some(inspector) => inspector,
            None => return,
        };
        inspector.settle(&self.workers[0].turns, &self.speakers, &self.sessions, self.poll.registry());
        if inspector.link.as_ref().map_or(true, |link| link.is_deaf || link.has_ended) {
            let fault = inspector.fault;
            self.end_inspector(fault);
        }
    }

    /// Continues without the process: it has ended, or is dropped for a fault that the log names. Its commands that still wait
    /// are dropped.
    fn end_inspector(&mut self, fault: &str) {
        if let Some(mut inspector) = self.inspector.take() {
            for speaker in std::mem::take(&mut inspector.askers).into_values() {
                self.drop_asker(speaker);
            }
            if let Some(page) = &mut self.page {
                kill_at_once(page);
            }
            let how = if fault.is_empty() { "has ended".to_string() } else { format!("was dropped, since {fault}") };
            let words = format!("the inspector {how}, and nothing more is shown");
            self.log.say(Level::Warn, "inspector_ended", json!({"how": how}), &words);
        }
    }

    /// Drops its speaker for a session; returns the numbers of the commands that are now not given to the server.
    fn drop_asker(&mut self, key: SpeakerKey) -> Vec<u64> {
        let speaker = &mut self.speakers[key];
        speaker.owner = Owner::Gone;
        speaker.waiting.clear();
        let numbers = speaker.more.take().map(|more| more.numbers).unwrap_or_default();
        if let Some(inspector) = &mut self.inspector {
            inspector.release(numbers.iter().map(|(_, size)| size).sum());
        }
        if let Some(group) = self.speakers[key].group {
            self.leave_group(group, key);
        }
        self.drop_if_over(key);
        numbers.into_iter().map(|(number, _)| number).collect()
    }

    /// Records what its socket is ready for.
    pub fn stir_inspector(&mut self, is_readable: bool, is_hung_up: bool) {
        if let Some(link) = self.inspector.as_mut().and_then(|inspector| inspector.link.as_mut()) {
            link.stir(is_readable, is_hung_up);
        }
    }

    /// Whether more of what it has written may be read now.
    pub fn is_inspector_heard(&self) -> bool {
        let link = self.inspector.as_ref().and_then(|inspector| inspector.link.as_ref());
        link.map_or(false, |link| link.is_readable && !link.has_ended)
    }

    /// Reads from the process, at most as much at once as from a client.
    fn hear_inspector(&mut self) {
        if !self.is_inspector_heard() {
            return;
        }
        let mut lines = Queue::default();
        if let Some(link) = self.inspector.as_mut().and_then(|inspector| inspector.link.as_mut()) {
            if let Came::Bytes(count) = link.read(&mut self.chunk) {
                link.cutter.feed(&self.chunk[..count], |line| lines.push(line));
            }
        }
        if !lines.all(|line| self.ask(line)) {
            self.end_inspector(NO_REQUEST);
        }
    }

    /// Queues a command that the process asks for, like one of a member of that session. Refuses commands that are not allowed
    /// and those for a session that was given none yet, since they would begin it. Returns whether the line is a request.
    fn ask(&mut self, line: &[u8]) -> bool {
        let (number, name, text) = match asked_in(line) {
            Some(asked) => asked,
            None => return false,
        };
        let name = std::str::from_utf8(name).ok().filter(|name| is_name(name));
        let leave = self.inspector.as_ref().map_or(Leave::default(), |inspector| inspector.leave);
        let is_queued = match name.and_then(|name| Some((name, leave.command_in(text)?))) {
            Some((name, command)) => self.let_ask(name, number, &command),
            None => {
                self.warn_of_inspector();
                false
            }
        };
        if !is_queued {
            self.note_inspector(&json!({ "refused": [number] }));
        }
        true
    }

    /// Logs once that the process asks for something that is not allowed.
    fn warn_of_inspector(&mut self) {
        if let Some(inspector) = self.inspector.as_mut().filter(|inspector| !inspector.has_warned) {
            inspector.has_warned = true;
            let words = "the inspector asked for a command that is not allowed, which is refused";
            self.log.say(Level::Warn, "inspector_refused", json!({}), words);
        }
    }

    /// Queues a command for its turn, if there is such a session and room for the command; returns whether it is queued.
    fn let_ask(&mut self, name: &str, number: u64, command: &[u8]) -> bool {
        let named = self.inspector.as_ref().and_then(|inspector| inspector.sessions.get(name));
        let session = match named.or_else(|| self.shared.get(name)).copied() {
            Some(session) if self.sessions[session].is_begun => session,
            _ => return false,
        };
        let key = self.asker_of(session);
        let waiting = self.speakers[key].more.as_ref().map_or(0, |more| more.numbers.len());
        let inspector = match &mut self.inspector {
            Some(inspector) if waiting < ASKS_MOST && inspector.held + command.len() <= WAITING_BYTES_MOST => inspector,
            _ => return false,
        };
        inspector.held += command.len();
        let speaker = &mut self.speakers[key];
        speaker.waiting.push(command);
        speaker.more.get_or_insert_with(Box::default).numbers.push_back((number, command.len()));
        if let Some(group) = self.sessions[session].group {
            self.enter_speaker(group, key);
        }
        self.await_turn(key, false);
        true
    }

    fn note_inspector(&mut self, said: &Value) {
        if let Some(inspector) = &mut self.inspector {
            inspector.note(said);
        }
    }

    /// The process's speaker for this session.
    fn asker_of(&mut self, session: SessionKey) -> SpeakerKey {
        let known = self.inspector.as_ref().and_then(|inspector| inspector.askers.get(&session).copied());
        if let Some(key) = known {
            return key;
        }
        let key = self.speakers.insert(Speaker::new(Owner::Inspector, session));
        self.sessions[session].holds += 1;
        if let Some(inspector) = &mut self.inspector {
            inspector.askers.insert(session, key);
        }
        key
    }

    /// Drops what the process knows and asks of a session whose client has disconnected.
    pub fn forget_session(&mut self, session: SessionKey) {
        let name = self.sessions[session].name.clone();
        let asker = match &mut self.inspector {
            Some(inspector) => {
                inspector.sessions.remove(&name);
                if let Some(left_out) = &mut inspector.left_out {
                    left_out.sessions.remove(&name);
                }
                inspector.askers.remove(&session)
            }
            None => return,
        };
        if let Some(key) = asker {
            let numbers = self.drop_asker(key);
            self.note_inspector(&json!({ "refused": numbers }));
        }
        self.note_inspector(&json!({ "gone": name }));
    }
}

/// Logs where the front is shown.
pub fn say_where(log: &mut Log, port: u16, token: &str) {
    let words = format!("shown at http://127.0.0.1:{port}/{token}/");
    log.say(Level::Info, "inspector_shown", json!({"port": port, "token": token}), &words);
}

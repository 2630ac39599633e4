//! The state of connections, of sessions, and of the speakers for them.

use std::collections::{HashMap, HashSet, VecDeque};
use std::io::{ErrorKind, Read};
use std::time::Instant;

use mio::{Registry, Token};

use crate::lines::member_of;
use crate::metrics::Leaving;
use crate::network::Peer;
use crate::queue::{Cutter, Pending, Queue};
use crate::quotas::{Held, Pace};
use crate::wire::Wire;

pub type ClientKey = usize;
pub type SpeakerKey = usize;
pub type SessionKey = usize;
pub type GroupKey = usize;
pub type ReplayKey = usize;

/// The commands of a client with more unread bytes than this wait.
pub const UNREAD_SLOW: usize = 65_536;
/// A connection with more unread bytes than this is closed.
pub const UNREAD_MOST: usize = 16 * 1024 * 1024;
/// If all clients together have more unread bytes than this, the one with the most is closed.
pub const UNREAD_OF_ALL: usize = 256 * 1024 * 1024;
/// The expected length in bytes of the first answer to a client.
const EXPECTED_AT_FIRST: usize = 1_024;

/// The front's end of a connection. It sends lines to the other side, and the front never waits for it.
pub struct Link {
    pub stream: Wire,
    pub token: Token,
    pub unread: Pending,
    pub cutter: Cutter,
    /// Something may be there to be read.
    pub is_readable: bool,
    /// The other side has stopped writing, though some of what it wrote may still have to be read.
    pub is_hung_up: bool,
    watches_writing: bool,
    pub has_spoken: bool,
    /// The other side has stopped writing, or is not read any more.
    pub has_ended: bool,
    /// The other side has stopped reading, though what it has written is still to be done.
    pub is_deaf: bool,
    /// Its events cannot be waited for.
    is_broken: bool,
    /// The part of its unread bytes that is counted in the sum of all connections.
    pub counted: usize,
    /// Since when the unread bytes wait for more, so that one write sends all of them.
    pub held_since: Option<Instant>,
    /// Its answers have waited long enough.
    pub is_due: bool,
    /// It was closed because it had the most unread bytes when all together had too many.
    has_overflown: bool,
    /// Lines were left out for it, as its last line says.
    pub is_cut: bool,
    /// Bytes that were read from it and queued for it so far.
    pub traffic: u64,
    /// Why it is closed once it has read what is left for it.
    pub fault: String,
}

/// The result of reading a connection.
pub enum Came {
    Nothing,
    Bytes(usize),
    End,
}

impl Came {
    /// How many bytes came.
    pub fn count(&self) -> usize {
        match self {
            Came::Bytes(count) => *count,
            _ => 0,
        }
    }
}

impl Link {
    pub fn new(stream: impl Into<Wire>, token: Token) -> Link {
        Link {
            stream: stream.into(),
            token,
            unread: Pending::default(),
            cutter: Cutter::default(),
            is_readable: false,
            is_hung_up: false,
            watches_writing: false,
            has_spoken: false,
            has_ended: false,
            is_deaf: false,
            is_broken: false,
            counted: 0,
            held_since: None,
            is_due: false,
            has_overflown: false,
            is_cut: false,
            traffic: 0,
            fault: String::new(),
        }
    }

    /// Begins to wait for events of the connection.
    pub fn watch(&mut self, registry: &Registry) {
        self.is_broken |= self.stream.register(registry, self.token).is_err();
    }

    /// Records what the connection is ready for.
    pub fn stir(&mut self, is_readable: bool, is_hung_up: bool) {
        self.is_readable |= is_readable || is_hung_up;
        self.is_hung_up |= is_hung_up;
    }

    /// Reads as much as there is room for. If it reads less than that, nothing is left until the next event.
    pub fn read(&mut self, chunk: &mut [u8]) -> Came {
        match self.stream.read(chunk) {
            Ok(0) => {
                self.has_ended = true;
                self.is_readable = false;
                return Came::End;
            }
            Ok(count) => {
                self.traffic += count as u64;
                self.is_readable = count == chunk.len() || self.is_hung_up || !self.stream.is_clear();
                return Came::Bytes(count);
            }
            Err(error) if error.kind() == ErrorKind::WouldBlock => self.is_readable = false,
            Err(error) if error.kind() == ErrorKind::Interrupted => {}
            Err(_) => {
                // the other side has closed, and all that it wrote before was read
                self.fall_silent();
                self.has_ended = true;
                return Came::End;
            }
        }
        Came::Nothing
    }

    /// Queues lines for the other side.
    pub fn tell(&mut self, lines: &[u8]) {
        if !self.is_deaf && !self.is_cut {
            self.traffic += lines.len() as u64;
            self.unread.push(lines);
        }
    }

    /// Stops writing, because the other side does not read any more.
    fn fall_silent(&mut self) {
        self.is_deaf = true;
        self.is_readable = true;
        self.unread.clear();
    }

    /// Writes as much of the unread bytes as the other side takes, and waits for room if that was not all.
    pub fn write(&mut self, registry: &Registry) {
        if self.unread.is_empty() {
            let _ = self.stream.send(); // what is sealed already; an error comes again where more is written or read
            return;
        }
        match self.unread.give(&mut self.stream) {
            Ok(is_all) if is_all == self.watches_writing => {
                self.watches_writing = !is_all;
                self.is_broken |= self.stream.await_room(registry, self.token, !is_all).is_err();
            }
            Ok(_) => {}
            Err(_) => self.fall_silent(),
        }
    }

    /// Stops reading, and has the connection closed once the other side has read what is left for it.
    pub fn refuse(&mut self, fault: &str) {
        self.fault = fault.to_string();
        self.has_ended = true;
    }

    /// Whether the other side has more unread bytes than allowed.
    pub fn leaves_too_much(&self) -> bool {
        self.unread.len() > UNREAD_MOST
    }

    /// Leaves out what the other side has not read, except the rest of a line that has begun, and says so by a last line.
    pub fn cut(&mut self, last: &[u8]) {
        self.is_cut = true;
        self.unread.keep_line();
        self.unread.push(last);
        self.refuse("lines were left out");
    }

    /// Closes the connection at once, though the other side has not read all.
    pub fn give_up(&mut self) {
        self.is_broken = true;
    }

    /// Whether it is closed at once.
    pub fn is_given_up(&self) -> bool {
        self.is_broken
    }

    /// Closes the connection at once, because all together leave too much unread.
    pub fn overflow(&mut self) {
        self.fall_silent();
        self.has_ended = true;
        self.has_overflown = true;
    }

    /// Whether the other side has closed, after all that it wrote was read.
    pub fn is_left(&self) -> bool {
        self.is_deaf && self.has_ended && self.fault.is_empty() && !self.has_overflown
    }

    /// Why the connection has ended, for those who count.
    pub fn leaving(&self) -> Leaving {
        if self.has_overflown || self.leaves_too_much() {
            Leaving::Unread
        } else if self.fault.is_empty() {
            Leaving::Left
        } else {
            Leaving::Refused
        }
    }

    /// Whether the connection is to be closed; the argument says whether an answer is still awaited.
    pub fn is_done(&self, awaits: bool) -> bool {
        let has_read = self.is_deaf || self.unread.is_empty() && !self.stream.wants_to_write();
        let has_all = self.has_ended && has_read && (!awaits || self.is_cut);
        has_all || self.is_broken || self.has_overflown || self.unread.len() > UNREAD_MOST
    }

    /// How it ended, in words.
    pub fn how_done(&self) -> String {
        if self.has_overflown {
            format!("is closed: of all clients, which have left more than {UNREAD_OF_ALL} bytes unread, it has left most")
        } else if self.unread.len() > UNREAD_MOST {
            format!("is closed: it has left more than {UNREAD_MOST} bytes unread")
        } else if self.is_deaf {
            "has gone, without having read all".to_string()
        } else if self.fault.is_empty() {
            "has gone".to_string()
        } else {
            format!("is closed: {}", self.fault)
        }
    }
}

/// A session of the server.
pub struct Session {
    pub name: String,
    /// The member by which a line names it.
    pub member: Vec<u8>,
    pub is_shared: bool,
    /// Its clients receive its events as they come.
    pub is_live: bool,
    /// The clients that receive its calls and warnings.
    pub members: Vec<ClientKey>,
    /// The server was given a command of it.
    pub is_begun: bool,
    pub group: Option<GroupKey>,
    /// The number of speakers and groups that refer to it.
    pub holds: usize,
}

impl Session {
    pub fn new(name: &str, is_shared: bool) -> Session {
        let member = member_of(name);
        let name = name.to_string();
        Session { name, member, is_shared, is_live: false, members: Vec::new(), is_begun: false, group: None, holds: 0 }
    }

    /// Whether a line of the server ends with the name of this session.
    pub fn ends(&self, line: &[u8]) -> bool {
        line.strip_suffix(b"}\n".as_slice()).map_or(false, |line| line.ends_with(&self.member))
    }
}

/// The owner of commands that wait for turns.
#[derive(Clone, Copy, Debug, PartialEq, Eq)]
pub enum Owner {
    Client(ClientKey),
    /// A client that has disconnected: its last commands are still to be done.
    Gone,
    Inspector,
    Replay(ReplayKey),
    /// A check of the front's health.
    Health(usize),
    /// The front itself, when it resets sessions and nobody receives the answers.
    Sweeper,
}

/// A speaker, whose commands take turns.
pub struct Speaker {
    pub owner: Owner,
    pub session: SessionKey,
    pub group: Option<GroupKey>,
    /// Lines that were not given to the server yet.
    pub waiting: Queue,
    /// Its client has so much unread that its commands wait.
    pub is_slow: bool,
    /// Its group is being brought back or moved, so its commands wait.
    pub is_held: bool,
    /// Its client receives the events of its session as they come.
    pub is_live: bool,
    /// The front is to give its session `spin`.
    pub owes_spin: bool,
    /// The number of the client's commands since the front's last `spin`.
    pub before_spin: usize,
    /// The number of commands that were given to the server and are not answered.
    pub under_way: usize,
    /// When the lines that wait were read, if times are taken.
    pub came: Option<Instant>,
    /// Its share of the server's work so far, in bytes.
    pub served: u64,
    /// The expected length in bytes of its next answer, estimated from the last ones.
    pub expected: usize,
    /// It waits for its turn.
    pub has_turn: bool,
    /// The number of turns that it had had when it began to wait for this one.
    pub turn: Option<u64>,
    /// Its position among those that had had as many turns.
    pub place: u64,
    pub more: Option<Box<Voice>>,
    /// It is counted among disconnected clients' speakers whose commands are still to be done.
    pub is_left: bool,
    pub pace: Pace,
}

/// Further state of a speaker if its client itself names sessions, or if it belongs to the page's process.
#[derive(Default)]
pub struct Voice {
    /// The session of each line that waits.
    pub named: VecDeque<SessionKey>,
    /// The sessions that were named, and whose calls the client receives.
    pub members: HashSet<SessionKey>,
    /// The numbers of the page's commands that wait, each with its size in bytes.
    pub numbers: VecDeque<(u64, usize)>,
}

impl Speaker {
    pub fn new(owner: Owner, session: SessionKey) -> Speaker {
        Speaker {
            owner,
            session,
            group: None,
            waiting: Queue::default(),
            is_slow: false,
            is_held: false,
            is_live: false,
            owes_spin: false,
            before_spin: 0,
            under_way: 0,
            came: None,
            served: 0,
            expected: EXPECTED_AT_FIRST,
            has_turn: false,
            turn: None,
            place: 0,
            more: None,
            is_left: false,
            pace: Pace::default(),
        }
    }

    /// Whether its next line may be given to the server.
    pub fn may_give(&self) -> bool {
        (self.owes_spin || !self.waiting.is_empty()) && !(self.is_slow || self.is_held) && self.pace.is_open()
    }

    /// Whether an answer is still to come, or a line of it is still to be given.
    pub fn awaits(&self) -> bool {
        self.under_way > 0 || !self.waiting.is_empty()
    }
}

/// The sessions that a client speaks for.
pub enum Speech {
    /// One session.
    One(SpeakerKey),
    /// All sessions that it names, with a speaker for each of their groups.
    Named(Box<Voices>),
}

/// A client's speakers for the groups of the sessions that it names.
#[derive(Default)]
pub struct Voices {
    pub of_groups: HashMap<GroupKey, SpeakerKey>,
    /// Speakers that may still have answers to come.
    pub busy: Vec<SpeakerKey>,
}

/// A connection that gives commands.
pub struct Client {
    pub number: u64,
    pub link: Link,
    /// Who it is, if it has come over the network.
    pub peer: Option<Box<Peer>>,
    pub speech: Speech,
    /// It is on the list of those that are to be looked after.
    pub is_touched: bool,
    /// Its part in the quotas, if there are any.
    pub quota: Option<Box<Held>>,
}

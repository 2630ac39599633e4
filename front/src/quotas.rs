//! What clients, users and groups have of their quotas.
//!
//! `admission` counts clients that come and go, `pacing` how fast commands come, and `holding` what the front holds for clients.

use std::cmp::Reverse;
use std::collections::{BinaryHeap, HashMap, VecDeque};
use std::os::unix::io::AsRawFd;
use std::path::{Path, PathBuf};
use std::time::{Duration, Instant};

use nix::sys::socket::getsockopt;
use nix::sys::socket::sockopt::PeerCredentials;
use serde_json::json;
use slab::Slab;

use crate::buckets::Bucket;
use crate::front::{Front, Stop};
use crate::limits::{read_file, Limits};
use crate::log::{Ended, Level};
use crate::people::{ClientKey, GroupKey, Link, Session, SessionKey, SpeakerKey};
use crate::rights::Who;

/// The exit status after a fault in the file.
const WRONG_FILE: u8 = 2;
/// How often the clients are looked at, for limits in seconds.
pub const LOOK: Duration = Duration::from_millis(250);
/// The time that a client has to read its last line, and that one without the right to connect has to send its token.
pub const TIME_TO_TAKE: Duration = Duration::from_secs(10);
/// Bytes that are estimated for a connection that holds nothing.
pub const OF_CONNECTION: usize = 1_024;

/// Which limit was exceeded: the code of the error, and the key in the file.
#[derive(Clone, Copy, Debug, PartialEq, Eq)]
pub struct Refusal {
    pub code: &'static str,
    pub limit: &'static str,
}

impl Refusal {
    /// The line that says so to a session.
    pub fn line(&self, session: &str) -> Vec<u8> {
        format!("{{\"error\":\"{}\",\"limit\":\"{}\",\"session\":\"{session}\"}}\n", self.code, self.limit).into_bytes()
    }
}

/// The keys of one limit for a client, a user and a group, with the code of its error.
pub struct Keys(&'static str, [&'static str; 3]);

impl Keys {
    pub fn refusal(&self, scope: usize) -> Refusal {
        Refusal { code: self.0, limit: self.1[scope] }
    }
}

pub const CLIENT: usize = 0;
pub const USER: usize = 1;
pub const GROUP: usize = 2;
pub const CONNECTIONS: Keys = Keys("F11", ["client.connections", "uid.connections", "group.connections"]);
pub const COMMANDS: Keys = Keys("F12", ["client.commands", "uid.commands", "group.commands"]);
pub const UNREAD: Keys = Keys("F13", ["client.unread_bytes", "uid.unread_bytes", "group.unread_bytes"]);
pub const HALF_LINE: Keys = Keys("F14", ["client.half_line_bytes", "uid.half_line_bytes", "group.half_line_bytes"]);
pub const HALF_LINE_TIME: Refusal = Refusal { code: "F14", limit: "client.half_line_seconds" };
pub const IDLE: Refusal = Refusal { code: "F15", limit: "client.idle_seconds" };
pub const SESSIONS: Keys = Keys("F16", ["client.sessions", "uid.sessions", "group.sessions"]);
pub const JOINS: Keys = Keys("F17", ["client.joins", "uid.joins", "group.joins"]);
pub const COMMAND_TIME: Refusal = Refusal { code: "F18", limit: "command_seconds" };
pub const MEMORY: Refusal = Refusal { code: "F19", limit: "front_memory" };
/// The code of the error for whom no rule lets in.
pub const NO_RIGHT: &str = "F20";

/// What a client, a user or a group has of its quota.
#[derive(Clone, Debug, Default)]
pub struct Account {
    pub commands: Bucket,
    pub bytes: Bucket,
    pub connections: u64,
    pub unread: u64,
    pub half_line: u64,
    pub sessions: u64,
    pub joins: u64,
}

impl Account {
    /// Whether nothing has to be kept of it.
    pub fn is_void(&self, now: Instant) -> bool {
        let has = self.connections + self.sessions + self.joins + self.unread + self.half_line > 0;
        !has && self.commands.is_full(now) && self.bytes.is_full(now)
    }
}

/// The accounts of users. An account keeps its place until it is void.
#[derive(Default)]
pub struct Users {
    places: HashMap<Option<u32>, usize>,
    accounts: Slab<(Option<u32>, Account)>,
}

impl Users {
    /// The place of a user's account. The account is made if it is missing.
    pub fn place(&mut self, uid: Option<u32>) -> usize {
        let accounts = &mut self.accounts;
        *self.places.entry(uid).or_insert_with(|| accounts.insert((uid, Account::default())))
    }

    /// A user's account, which is expected at a place.
    pub fn at(&mut self, place: usize, uid: Option<u32>) -> &mut Account {
        let is_there = self.accounts.get(place).map_or(false, |(own, _)| *own == uid);
        let place = if is_there { place } else { self.place(uid) };
        &mut self.accounts[place].1
    }

    fn get(&self, uid: Option<u32>) -> Option<&Account> {
        self.places.get(&uid).map(|place| &self.accounts[*place].1)
    }

    /// Drops accounts that need not be kept.
    pub fn clear_void(&mut self, now: Instant) {
        let places = &mut self.places;
        self.accounts.retain(|_, (uid, account)| {
            let is_kept = !account.is_void(now);
            if !is_kept {
                places.remove(uid);
            }
            is_kept
        });
    }
}

/// Whether the next command of a speaker may be given.
#[derive(Clone, Copy, Debug, Default, PartialEq, Eq)]
pub enum State {
    #[default]
    Free,
    /// It has waited, and is counted already.
    Paid,
    /// It is counted, and waits until then.
    Waits(Instant),
    /// It is to be answered by an error, after the answers to the commands before it.
    Refused(Refusal),
}

/// A speaker's part in the quotas.
#[derive(Default)]
pub struct Pace {
    pub state: State,
    /// Who its commands come from, even if the client has disconnected.
    pub who: Who,
    /// The place of the user's account.
    pub user: usize,
    /// Commands that are counted in advance, and until when they may be given.
    pub granted: u32,
    pub granted_until: Option<Instant>,
    /// One of its lines may be a `join` or a `leave`.
    pub may_join: bool,
    /// It has given a `join` that was counted.
    pub has_joined: bool,
    /// Joins that were given to the server and are not answered.
    pub joining: VecDeque<Vec<u8>>,
}

impl Pace {
    /// Nothing waits any more.
    pub fn stop(&mut self) {
        self.state = State::Free;
        self.joining.clear();
    }

    /// Whether a turn may come.
    pub fn is_open(&self) -> bool {
        matches!(self.state, State::Free | State::Paid)
    }
}

/// A client's part in the quotas.
pub struct Held {
    pub who: Who,
    /// The place of the user's account.
    pub user: usize,
    /// Bytes that are counted in advance, and until when they may be read.
    pub granted: u64,
    pub granted_until: Instant,
    /// It has the right to connect, or there are no rights.
    pub is_in: bool,
    pub own: Account,
    pub group: Option<GroupKey>,
    /// Its first line was read, and it is counted where it belongs.
    pub is_counted: bool,
    /// It has a session of its own that is counted.
    pub has_session: bool,
    /// The joins that it has asked for, by their ends, and how often.
    pub joins: HashMap<Vec<u8>, u64>,
    pub half_line_since: Option<Instant>,
    /// How much was read and written when it was last looked at, and when that last changed.
    pub traffic: u64,
    pub active: Instant,
    /// It is not read before.
    pub read_at: Option<Instant>,
    /// The line that it receives after the answers that it still waits for.
    pub last: Option<Refusal>,
    /// When it is closed even if it has not read its last line, or has not given a token.
    pub until: Option<Instant>,
    /// The bytes that it makes the front hold.
    pub holds: usize,
}

impl Held {
    /// A client that holds nothing, with the place of its user's account. One without the right to connect has a short time to
    /// send a token.
    pub fn new(who: Who, user: usize, is_in: bool, now: Instant) -> Held {
        Held {
            who,
            user,
            granted: 0,
            granted_until: now,
            is_in,
            own: Account::default(),
            group: None,
            is_counted: false,
            has_session: false,
            joins: HashMap::new(),
            half_line_since: None,
            traffic: 0,
            active: now,
            read_at: None,
            last: None,
            until: (!is_in).then(|| now + TIME_TO_TAKE),
            holds: 0,
        }
    }

    /// It has the right to connect, and so needs no token any more.
    pub fn let_in(&mut self) {
        if self.is_in {
            self.until = None;
        }
    }
}

/// Those that wait for a time.
#[derive(Clone, Copy, Debug, PartialEq, Eq, PartialOrd, Ord)]
pub enum Waiting {
    Speaker(SpeakerKey),
    Reader(ClientKey),
}

/// The limits of a front, and the accounts that do not end with a client.
pub struct Quotas {
    pub path: PathBuf,
    pub limits: Limits,
    pub users: Users,
    /// The accounts of groups that are gone, so that a group that comes again does not begin with a new burst.
    pub gone: HashMap<String, Account>,
    pub waiting: BinaryHeap<Reverse<(Instant, Waiting)>>,
    /// The users who have named sessions first.
    pub namers: HashMap<SessionKey, Option<u32>>,
    /// Stands for the session of a line that names one too many.
    pub beyond: SessionKey,
    /// When the clients are looked at next.
    pub look_at: Instant,
    /// Bytes that all clients together make the front hold.
    pub held: usize,
    /// Who the monitors and operators are.
    pub guests: HashMap<usize, Who>,
}

impl Quotas {
    pub fn new(path: PathBuf, limits: Limits, beyond: SessionKey) -> Quotas {
        Quotas {
            path,
            limits,
            users: Users::default(),
            gone: HashMap::new(),
            waiting: BinaryHeap::new(),
            namers: HashMap::new(),
            beyond,
            look_at: Instant::now(),
            held: 0,
            guests: HashMap::new(),
        }
    }

    pub fn user(&mut self, uid: Option<u32>) -> &mut Account {
        let place = self.users.place(uid);
        self.users.at(place, uid)
    }

    pub fn account(&self, uid: Option<u32>) -> Option<&Account> {
        self.users.get(uid)
    }

    /// The first scope that has as many joins as it may have.
    pub fn join_scope(&self, uid: Option<u32>, has: [u64; 3]) -> Option<usize> {
        scope_over(self.limits.quotas(uid).map(|quota| quota.joins), has, 1)
    }
}

/// Who a connection comes from.
pub fn who_is(link: &Link) -> Who {
    match getsockopt(link.stream.as_raw_fd(), PeerCredentials) {
        // the system gives no credentials of connections over a network
        Ok(found) if found.pid() > 0 => Who { uid: Some(found.uid()), gid: Some(found.gid()), ..Who::default() },
        _ => Who::default(),
    }
}

/// The first of three scopes in which one more would be too many.
pub fn scope_over(quotas: [Option<u64>; 3], had: [u64; 3], more: u64) -> Option<usize> {
    (0..3).find(|scope| quotas[*scope].map_or(false, |most| had[*scope] + more > most))
}

impl Front {
    /// Reads the limits at the front's start.
    pub fn limit(&mut self, path: &Path, has_workers: bool) -> Result<(), Stop> {
        let limits = read_file(path).and_then(|limits| check(&limits, has_workers, path).map(|()| limits));
        let limits = limits.map_err(|ended| Stop::NotServed(ended, WRONG_FILE))?;
        let beyond = self.sessions.insert(Session::new("", true));
        self.quotas = Some(Box::new(Quotas::new(path.to_path_buf(), limits, beyond)));
        Ok(())
    }

    /// Reads the file again. If it has a fault, the limits stay.
    pub fn read_limits_again(&mut self) {
        let has_workers = self.pool.is_some();
        if let Some(quotas) = &mut self.quotas {
            let read = read_file(&quotas.path).and_then(|limits| check(&limits, has_workers, &quotas.path).map(|()| limits));
            match read {
                Ok(limits) => {
                    quotas.limits = limits;
                    let words = format!("hangup: {} is read again", quotas.path.display());
                    self.log.say(Level::Info, "limits_read", json!({}), &words);
                }
                Err(Ended(fault)) => {
                    let words = format!("hangup: {fault}; the limits stay as they were");
                    self.log.say(Level::Error, "limits_not_read", json!({}), &words);
                }
            }
        }
    }
}

/// Checks that the front can do what the file asks for.
pub fn check(limits: &Limits, has_workers: bool, path: &Path) -> Result<(), Ended> {
    if limits.command_time.is_some() && !has_workers {
        return Err(Ended(format!("{}: command_seconds needs --workers", path.display())));
    }
    Ok(())
}

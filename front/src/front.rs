//! The front's state, and its loop between the clients and the servers.

use std::collections::{HashMap, HashSet, VecDeque};
use std::ffi::OsString;
use std::io;
use std::process::Child;
use std::time::{Duration, Instant};

use mio::event::Event;
use mio::{Events, Poll};
use slab::Slab;

use crate::compacting::Compacting;
use crate::doors::Doors;
use crate::eagerness::{Eagerness, LOOK};
use crate::groups::Group;
use crate::guests::Guest;
use crate::inspector::Inspector;
use crate::live::Live;
use crate::log::{Ended, Log};
use crate::metrics::Metrics;
use crate::network::Network;
use crate::notifying::Notifier;
use crate::people::{Client, ClientKey, GroupKey, Owner, ReplayKey, Session, SessionKey, Speaker};
use crate::pool::Pool;
use crate::queue::Queue;
use crate::quotas::Quotas;
use crate::replaying::Replay;
use crate::tokens::{read, Kind};
use crate::worker::Worker;

/// Bytes that are read from a client at once: no more than a line may have.
pub const CHUNK: usize = 16_384;
/// How often the front repeats its own work before it looks for new events.
const ROUNDS: usize = 8;
/// The unit of the time to wait for events; fractions are dropped.
const MILLISECOND: Duration = Duration::from_millis(1);
/// The session of the front's own commands.
pub const NO_SESSION: SessionKey = 0;

/// The reasons why the front stops.
#[derive(Debug, PartialEq, Eq)]
pub enum Stop {
    /// It was asked to stop.
    Asked,
    /// It cannot continue.
    Ended(Ended),
    /// Its server ended with this status before it served anything.
    NotServed(Ended, u8),
}

impl From<Ended> for Stop {
    fn from(ended: Ended) -> Stop {
        Stop::Ended(ended)
    }
}

impl From<io::Error> for Stop {
    fn from(error: io::Error) -> Stop {
        Stop::Ended(Ended(error.to_string()))
    }
}

/// A front with its clients and one server, or several.
pub struct Front {
    pub poll: Poll,
    pub log: Log,
    pub doors: Doors,
    pub clients: Slab<Client>,
    pub speakers: Slab<Speaker>,
    pub sessions: Slab<Session>,
    pub guests: HashMap<usize, Guest>,
    pub network: Network,
    pub next_guest: usize,
    pub workers: Vec<Worker>,
    /// The command line of a server.
    pub server_words: (OsString, Vec<OsString>),
    /// The state that only a front with workers has.
    pub pool: Option<Pool>,
    pub groups: Slab<Group>,
    /// Groups whose records are to be written.
    pub changed: HashSet<GroupKey>,
    /// The number of joins of other groups that the log has mentioned.
    pub in_vain: usize,
    pub replays: HashMap<ReplayKey, Replay>,
    pub next_replay: ReplayKey,
    pub inspector: Option<Inspector>,
    /// The process of the page. It stays here after the front stops writing to it.
    pub page: Option<Child>,
    pub live: Live,
    pub notifier: Notifier,
    /// The exit status of a server that ended before it served anything.
    pub not_served: Option<u8>,
    /// The limits of clients, if there are any.
    pub quotas: Option<Box<Quotas>>,
    /// Commands that had waited for their quotas may be given.
    pub has_woken: bool,
    /// The most memory of each server, in bytes.
    pub server_memory: Option<u64>,
    /// Becomes readable when a hangup has come.
    pub hangups: Option<std::os::unix::net::UnixStream>,
    /// The longest time that a server with a command under way may be silent.
    pub patience: Option<Duration>,
    /// Clients name their sessions.
    pub named_by_clients: bool,
    /// Sessions that clients may share.
    pub shared: HashMap<String, SessionKey>,
    /// The number of clients so far.
    pub count: u64,
    /// The numbers of guests so far, by kind.
    pub guest_counts: [usize; 4],
    /// The number of connected monitors.
    pub monitors: usize,
    /// The number of connected checks of the front's health.
    pub checks: usize,
    /// The number of connected requests for metrics.
    pub scrapes: usize,
    pub metrics: Metrics,
    pub compacting: Compacting,
    /// The number of disconnected clients whose commands are still to be done.
    pub left: usize,
    /// Bytes that all clients together have not read.
    pub unread: usize,
    /// Clients that are to be looked after.
    pub touched: Vec<ClientKey>,
    /// Clients whose answers wait for further ones, and since when.
    pub held: VecDeque<(Instant, ClientKey)>,
    /// Whether the front polls before it sleeps.
    pub eagerness: Eagerness,
    /// When the front last began to wait for events.
    pub now: Instant,
    pub touched_guests: Vec<usize>,
    /// The buffer into which a client's bytes are read.
    pub chunk: Vec<u8>,
    /// Lines of a client that were read and are still to be sorted.
    pub sorted: Queue,
}

impl Front {
    /// Makes a front with this many workers. They have no servers yet.
    pub fn new(count: usize, server_words: (OsString, Vec<OsString>), log: Log) -> io::Result<Front> {
        let (mut speakers, mut sessions) = (Slab::new(), Slab::new());
        sessions.insert(Session::new("", true));
        let workers = (1..=count).map(|number| {
            let sweeper = speakers.insert(Speaker::new(Owner::Sweeper, NO_SESSION));
            Worker::new(number, sweeper)
        });
        Ok(Front {
            poll: Poll::new()?,
            log,
            doors: Doors::default(),
            clients: Slab::new(),
            workers: workers.collect(),
            speakers,
            sessions,
            guests: HashMap::new(),
            network: Network::default(),
            next_guest: 0,
            server_words,
            pool: None,
            groups: Slab::new(),
            changed: HashSet::new(),
            in_vain: 0,
            replays: HashMap::new(),
            next_replay: 0,
            inspector: None,
            page: None,
            live: Live::default(),
            notifier: Notifier::new(),
            not_served: None,
            quotas: None,
            has_woken: false,
            server_memory: None,
            hangups: None,
            patience: None,
            named_by_clients: false,
            shared: HashMap::new(),
            count: 0,
            guest_counts: [0; 4],
            checks: 0,
            scrapes: 0,
            metrics: Metrics::new(count),
            compacting: Compacting::default(),
            monitors: 0,
            left: 0,
            unread: 0,
            touched: Vec::new(),
            held: VecDeque::new(),
            eagerness: Eagerness::new(),
            now: Instant::now(),
            touched_guests: Vec::new(),
            chunk: vec![0; CHUNK],
            sorted: Queue::default(),
        })
    }

    /// Lets clients share a session of this name.
    pub fn let_share(&mut self, name: &str) {
        let key = self.sessions.insert(Session::new(name, true));
        self.shared.insert(name.to_string(), key);
    }

    /// Serves until a server ends and is not replaced, or until the front is asked to end.
    pub fn serve(&mut self) -> Result<(), Stop> {
        let mut events = Events::with_capacity(1_024);
        loop {
            self.open_doors()?;
            let due = self.due().map(|time| time + MILLISECOND); // so that less than a millisecond does not count as no time
            let timeout = if self.is_stirred() { Some(Duration::ZERO) } else { self.until_look(due) };
            match self.wait(&mut events, timeout) {
                Err(error) if error.kind() != io::ErrorKind::Interrupted => return Err(error.into()),
                Err(_) => continue,
                Ok(()) => {}
            }
            self.now = Instant::now();
            self.touch_held();
            for event in &events {
                self.stir(event)?;
            }
            self.let_in();
            if self.network.is_stirred() {
                self.shake_hands();
            }
            self.work()?;
            for _ in 0..ROUNDS {
                if !self.is_stirred() {
                    break;
                }
                self.work()?;
            }
        }
    }

    /// Does what is due now; returns the time until more is due.
    fn due(&mut self) -> Option<Duration> {
        let mut due = self.touch_held();
        let others = [
            self.notifier.tick(),
            self.doors.look_again(),
            self.next_due(),
            self.look_at_servers(),
            self.look_at_checks(),
            self.log.tick(),
            self.look_at_quotas(),
            self.look_at_commands(),
        ];
        for other in others.into_iter().flatten() {
            due = Some(due.map_or(other, |due| due.min(other)));
        }
        if self.network.is_awaited() {
            due = due.into_iter().chain(self.look_at_network()).min();
        }
        due
    }

    /// Waits for events. If one client and one server talk with each other, the next event often comes within microseconds, so
    /// the front may poll for a short time before it sleeps.
    fn wait(&mut self, events: &mut Events, timeout: Option<Duration>) -> io::Result<()> {
        let under_way: usize = self.workers.iter().map(|worker| worker.turns.under_way.len()).sum();
        if timeout == Some(Duration::ZERO) || under_way > 1 || events.is_empty() {
            return self.poll.poll(events, timeout);
        }
        let begun = Instant::now();
        let looks = self.eagerness.looks();
        let mut is_found = false;
        while looks && !is_found && begun.elapsed() < LOOK {
            self.poll.poll(events, Some(Duration::ZERO))?;
            is_found = !events.is_empty();
        }
        if !is_found {
            self.poll.poll(events, timeout)?;
        }
        self.eagerness.waited(begun.elapsed());
        Ok(())
    }

    /// Handles an event.
    fn stir(&mut self, event: &Event) -> Result<(), Stop> {
        let (kind, key) = read(event.token());
        let (is_readable, is_hung_up) = (event.is_readable(), event.is_read_closed() || event.is_error());
        match kind {
            Kind::Client => self.stir_client(key, is_readable, is_hung_up),
            Kind::Guest => self.stir_guest(key, is_readable, is_hung_up),
            Kind::ServerOutput => self.stir_server(key, is_hung_up)?,
            Kind::ServerInput => self.push(key),
            Kind::Door => self.doors.stir(key),
            Kind::Alarm => return Err(Stop::Asked),
            Kind::Input => self.look_at_input()?,
            Kind::Inspector => self.stir_inspector(is_readable, is_hung_up),
            Kind::Hangup => self.hear_hangup(),
            Kind::Arrival => self.stir_arrival(key),
            Kind::Parting => self.stir_parting(key),
            Kind::Compaction => self.hear_compaction(),
        }
        Ok(())
    }

    /// Does the work that the events have caused.
    fn work(&mut self) -> Result<(), Stop> {
        self.settle();
        self.settle_guests();
        self.settle_inspector();
        for at in 0..self.workers.len() {
            self.give(at);
        }
        self.tend()?;
        Ok(())
    }

    /// Whether that work has caused further work, as when a group was closed or has moved.
    fn is_stirred(&mut self) -> bool {
        let has_released = self.pool.as_mut().map_or(false, |pool| std::mem::take(&mut pool.has_released));
        let has_woken = std::mem::take(&mut self.has_woken);
        has_released
            || has_woken
            || self.is_inspector_heard()
            || !self.touched.is_empty()
            || !self.touched_guests.is_empty()
            || self.doors.is_stirred()
            || self.network.is_stirred()
    }

    /// The time until the next process is to be started, if one is.
    fn next_due(&self) -> Option<Duration> {
        self.pool.as_ref()?;
        let missing = self.workers.iter().filter(|worker| worker.server.is_none());
        let due = missing.map(|worker| worker.due).min()?;
        Some(due.saturating_duration_since(Instant::now()))
    }

    /// Ends the front when standard input ends; its contents are ignored.
    fn look_at_input(&mut self) -> Result<(), Stop> {
        use nix::poll::{poll, PollFd, PollFlags};
        let mut looked_at = [PollFd::new(0, PollFlags::POLLIN)];
        while let Ok(1..) = poll(&mut looked_at, 0) {
            match nix::unistd::read(0, &mut self.chunk) {
                Ok(1..) => {}
                _ => return Err(Stop::Asked),
            }
        }
        Ok(())
    }
}

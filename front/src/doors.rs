//! The sockets at which clients, guests and health checks connect.

use std::io::{self, ErrorKind};
use std::net::TcpListener;
use std::os::unix::io::{AsRawFd, OwnedFd, RawFd};
use std::os::unix::net::UnixListener;
use std::time::{Duration, Instant};

use mio::net::UnixStream;
use mio::unix::SourceFd;
use mio::{Interest, Registry};
use serde_json::json;

use crate::front::Front;
use crate::health::CHECKS_MOST;
use crate::log::Level;
use crate::scraping::SCRAPES_MOST;
use crate::tokens::{token, Kind};

/// Connections that are accepted at one door before the other doors have their turn.
const AT_ONCE: usize = 64;
/// After a failed accept nobody is let in for this time, unless somebody disconnects before.
const PAUSE: Duration = Duration::from_secs(1);

/// The kinds of connections that a door accepts.
#[derive(Clone, Copy, Debug, PartialEq, Eq)]
pub enum Comers {
    Clients,
    /// Clients over TCP in the clear, from this machine.
    Tcp,
    /// Clients over TLS.
    Tls,
    Monitors,
    Operators,
    /// Checks of the front's health.
    Checks,
    /// Requests for metrics.
    Scrapes,
}

impl Comers {
    /// Whether they ask by HTTP about the front itself, and so take no client's place.
    pub fn are_checks(self) -> bool {
        matches!(self, Comers::Checks | Comers::Scrapes)
    }
}

/// A socket that is listened at.
pub enum Listener {
    Unix(UnixListener),
    Tcp(TcpListener),
}

impl Listener {
    /// The socket's place, as messages show it.
    pub fn place(&self) -> String {
        match self {
            Listener::Unix(it) => {
                let own = it.local_addr().ok();
                own.as_ref().and_then(|own| own.as_pathname()).map_or_else(String::new, |path| path.display().to_string())
            }
            Listener::Tcp(it) => it.local_addr().map_or_else(|_| String::new(), |own| own.to_string()),
        }
    }

    /// Accepts the next connection.
    fn accept(&self) -> io::Result<UnixStream> {
        let stream = match self {
            Listener::Unix(it) => it.accept()?.0,
            Listener::Tcp(it) => OwnedFd::from(it.accept()?.0).into(), // both are read and written alike
        };
        stream.set_nonblocking(true)?;
        Ok(UnixStream::from_std(stream))
    }

    fn number(&self) -> RawFd {
        match self {
            Listener::Unix(it) => it.as_raw_fd(),
            Listener::Tcp(it) => it.as_raw_fd(),
        }
    }
}

struct Door {
    listener: Listener,
    comers: Comers,
    /// Somebody may be waiting there.
    is_stirred: bool,
}

/// All doors. If there is no room for another connection, nobody is let in until somebody disconnects, except for checks of
/// the front's health.
#[derive(Default)]
pub struct Doors {
    doors: Vec<Door>,
    /// Doors that are opened when the servers serve.
    later: Vec<(Listener, Comers)>,
    are_shut: bool,
    /// When to try again after a failed accept. There may be nobody whose leaving would make room.
    again: Option<Instant>,
    /// File numbers from here on are reserved for other uses than connections.
    pub files_most: Option<RawFd>,
}

impl Doors {
    /// Adds a socket whose door is opened when the servers serve.
    pub fn add_later(&mut self, listener: Listener, comers: Comers) {
        self.later.push((listener, comers));
    }

    /// Whether the doors are still to be opened.
    pub fn are_to_open(&self) -> bool {
        !self.later.is_empty()
    }

    /// Opens a door at a socket.
    fn add(&mut self, listener: Listener, comers: Comers, registry: &Registry) -> io::Result<()> {
        registry.register(&mut SourceFd(&listener.number()), token(Kind::Door, self.doors.len()), Interest::READABLE)?;
        self.doors.push(Door { listener, comers, is_stirred: true });
        Ok(())
    }

    /// Records that somebody waits at a door.
    pub fn stir(&mut self, at: usize) {
        if let Some(door) = self.doors.get_mut(at) {
            door.is_stirred = true;
        }
    }

    /// Whether nobody is let in at present.
    pub fn are_shut(&self) -> bool {
        self.are_shut
    }

    /// Whether somebody may be waiting whom the front can let in.
    pub fn is_stirred(&self) -> bool {
        self.doors.iter().any(|door| door.is_stirred && self.is_open(door))
    }

    /// Whether a door lets people in. Doors for checks of the front's health always do.
    fn is_open(&self, door: &Door) -> bool {
        !self.are_shut || door.comers.are_checks()
    }

    /// Lets nobody in until somebody disconnects.
    pub fn shut(&mut self) {
        self.again = None;
        self.are_shut = true;
    }

    /// Tries again to accept, if it is time for that; returns the time until the next try.
    pub fn look_again(&mut self) -> Option<Duration> {
        let again = self.again?;
        let left = again.saturating_duration_since(Instant::now());
        if left.is_zero() {
            self.reopen();
            return None;
        }
        Some(left)
    }

    /// Lets people in again, because somebody has disconnected.
    pub fn reopen(&mut self) {
        self.again = None;
        if self.are_shut {
            self.are_shut = false;
            self.doors.iter_mut().for_each(|door| door.is_stirred = true);
        }
    }

    /// Accepts the next connection at a door.
    fn next(&mut self, at: usize) -> Option<UnixStream> {
        let door = &self.doors[at];
        if !door.is_stirred || !self.is_open(door) {
            return None;
        }
        loop {
            match door.listener.accept() {
                Ok(stream) => {
                    let is_last = self.files_most.map_or(false, |most| stream.as_raw_fd() >= most);
                    self.are_shut |= is_last && !door.comers.are_checks();
                    return Some(stream);
                }
                Err(error) if matches!(error.kind(), ErrorKind::Interrupted | ErrorKind::ConnectionAborted) => {}
                Err(error) if error.kind() == ErrorKind::WouldBlock => {
                    self.doors[at].is_stirred = false;
                    return None;
                }
                Err(_) => {
                    // checks of the front's health wait too
                    self.doors[at].is_stirred = !door.comers.are_checks();
                    self.are_shut = true;
                    self.again = Some(Instant::now() + PAUSE);
                    return None;
                }
            }
        }
    }
}

impl Front {
    /// Opens the doors when all servers serve, and says where they are.
    pub fn open_doors(&mut self) -> io::Result<()> {
        if !self.doors.are_to_open() || !self.workers.iter().all(|worker| worker.has_written || !worker.is_first) {
            return Ok(());
        }
        let mut places = Vec::new();
        for (listener, comers) in std::mem::take(&mut self.doors.later) {
            let place = listener.place();
            self.doors.add(listener, comers, self.poll.registry())?;
            let word = match comers {
                Comers::Clients => "listening",
                Comers::Tcp => "TCP",
                Comers::Tls => "TLS",
                Comers::Monitors => "monitors",
                Comers::Operators => "control",
                Comers::Checks => "health",
                Comers::Scrapes => "metrics",
            };
            self.log.say(Level::Info, "listening", json!({"for": word, "at": place}), &format!("{word} at {place}"));
            if comers == Comers::Clients {
                places.push(place);
            }
        }
        self.notifier.ready(&format!("listening at {}", places.join(" and ")));
        Ok(())
    }

    /// Accepts the connections that wait.
    pub fn let_in(&mut self) {
        for at in 0..self.doors.doors.len() {
            let comers = self.doors.doors[at].comers;
            for _ in 0..AT_ONCE {
                match (self.doors.next(at), comers) {
                    (None, _) => break,
                    (Some(stream), Comers::Clients) => self.enter_client(stream, None),
                    (Some(stream), Comers::Tcp | Comers::Tls) => self.arrive(stream, comers),
                    (Some(_), Comers::Checks) if self.checks >= CHECKS_MOST => {} // too many at once: this one is closed
                    (Some(_), Comers::Scrapes) if self.scrapes >= SCRAPES_MOST => {}
                    (Some(stream), _) => self.enter_guest(stream, comers),
                }
            }
        }
    }
}

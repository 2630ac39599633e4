//! Clients over the network: their handshakes, which keep nobody waiting, and the end of their connections.
//!
//! A connection over TLS becomes a client when its handshake is done; one in the clear is a client at once. From then on it
//! is like any other. When the front closes it, it first says that nothing more comes, and waits a short time until the
//! other side has closed too: otherwise what it has sent last could be lost.

use std::collections::{BTreeMap, VecDeque};
use std::io::{ErrorKind, Read};
use std::rc::Rc;
use std::sync::Arc;
use std::time::{Duration, Instant};

use mio::net::UnixStream;
use mio::Interest;
use rustls::ServerConfig;
use serde_json::{json, Value};
use socket2::{SockRef, TcpKeepalive};

use crate::doors::Comers;
use crate::front::Front;
use crate::log::{reason, Ended, Level};
use crate::rights::Shown;
use crate::tls::{settings, Files, Sealed};
use crate::tokens::{token, Kind};
use crate::wire::Wire;

/// The longest time that a handshake may take.
const HANDSHAKE: Duration = Duration::from_secs(10);
/// The most handshakes at the same time. If there are more, the oldest one is closed.
const HANDSHAKES_MOST: usize = 1_024;
/// The most steps of handshakes that are done before others have their turn.
const SHAKEN_AT_ONCE: usize = 8;
/// The longest time that the front waits for the other side to close, and the most connections for which it does.
const PARTING: Duration = Duration::from_secs(2);
const PARTINGS_MOST: usize = 256;
/// The most bytes of one connection that are read over at once, so that others have their turn.
const READ_OVER: usize = 1_048_576;
/// After this time without a sign of life the system asks whether the other side is still there: so often, and so many times.
const SILENT: Duration = Duration::from_secs(60);
const ASKED_EVERY: Duration = Duration::from_secs(15);
const ASKED_TIMES: u32 = 4;

/// Who a client over the network is.
#[derive(Debug, PartialEq, Eq)]
pub struct Peer {
    pub address: String,
    /// Its certificate, if it was asked for one.
    pub certificate: Option<Rc<Shown>>,
    is_sealed: bool,
}

impl Peer {
    fn new(stream: &UnixStream, is_sealed: bool) -> Peer {
        let address = SockRef::from(stream).peer_addr().ok().and_then(|address| address.as_socket());
        Peer { address: address.map_or_else(|| "nowhere".to_string(), |it| it.to_string()), certificate: None, is_sealed }
    }

    /// How it has come, in words.
    pub fn how(&self) -> String {
        let name = self.certificate.as_ref().map_or_else(String::new, |shown| format!(" as {}", shown.subject));
        format!(" over {} from {}{name}", self.form(), self.address)
    }

    /// The same as parts of a line of the log, for the client of this number.
    pub fn fields(&self, client: u64) -> Value {
        let mut fields = json!({"client": client, "over": self.form(), "address": self.address});
        if let Some(shown) = &self.certificate {
            fields["subject"] = shown.subject.as_str().into();
        }
        fields
    }

    fn form(&self) -> &'static str {
        if self.is_sealed {
            "TLS"
        } else {
            "TCP"
        }
    }
}

/// A connection whose handshake is not done.
struct Arrival {
    sealed: Sealed,
    peer: Box<Peer>,
    until: Instant,
    /// It is on the list of those that can continue.
    is_ready: bool,
}

/// The state of connections over the network that are no clients.
#[derive(Default)]
pub struct Network {
    files: Option<Files>,
    settings: Option<Arc<ServerConfig>>,
    /// Handshakes by their numbers, the oldest first.
    arrivals: BTreeMap<usize, Arrival>,
    /// Handshakes that can continue.
    ready: VecDeque<usize>,
    partings: BTreeMap<usize, (UnixStream, Instant)>,
    count: usize,
}

impl Network {
    /// Reads the certificates in these files.
    pub fn new(files: Option<Files>) -> Result<Network, Ended> {
        let settings = files.as_ref().map(settings).transpose()?;
        Ok(Network { files, settings, ..Network::default() })
    }

    pub fn has_certificates(&self) -> bool {
        self.files.is_some()
    }

    /// Whether there are handshakes, or connections that are about to be closed.
    pub fn is_awaited(&self) -> bool {
        !(self.arrivals.is_empty() && self.partings.is_empty())
    }

    /// Whether a handshake can continue.
    pub fn is_stirred(&self) -> bool {
        !self.ready.is_empty()
    }

    fn number(&mut self) -> usize {
        self.count += 1;
        self.count
    }
}

impl Front {
    /// Adds a connection over the network.
    pub fn arrive(&mut self, mut stream: UnixStream, comers: Comers) {
        set_up(&stream);
        let peer = Box::new(Peer::new(&stream, comers == Comers::Tls));
        let settings = match &self.network.settings {
            Some(settings) if comers == Comers::Tls => settings.clone(),
            _ => return self.enter_client(stream, Some(peer)),
        };
        let number = self.network.number();
        let both = Interest::READABLE | Interest::WRITABLE;
        if self.poll.registry().register(&mut stream, token(Kind::Arrival, number), both).is_err() {
            return;
        }
        match Sealed::new(stream, &settings) {
            Ok(sealed) => {
                let until = Instant::now() + HANDSHAKE;
                self.network.arrivals.insert(number, Arrival { sealed, peer, until, is_ready: false });
            }
            Err(Ended(why)) => self.note_failed(&peer.address, &why),
        }
        if self.network.arrivals.len() > HANDSHAKES_MOST {
            self.refuse_oldest("there are too many");
        }
    }

    /// Records that a handshake can continue.
    pub fn stir_arrival(&mut self, number: usize) {
        if let Some(arrival) = self.network.arrivals.get_mut(&number).filter(|arrival| !arrival.is_ready) {
            arrival.is_ready = true;
            self.network.ready.push_back(number);
        }
    }

    /// Continues with the handshakes that can, a few of them at once: their signatures take the time of many lines.
    pub fn shake_hands(&mut self) {
        for _ in 0..SHAKEN_AT_ONCE {
            match self.network.ready.pop_front() {
                Some(number) => self.shake(number),
                None => return,
            }
        }
    }

    fn shake(&mut self, number: usize) {
        let mut arrival = match self.network.arrivals.remove(&number) {
            Some(arrival) => arrival,
            None => return,
        };
        arrival.is_ready = false;
        match arrival.sealed.shake() {
            Ok(()) => {
                arrival.peer.certificate = arrival.sealed.shown().map(Rc::new);
                if self.poll.registry().deregister(arrival.sealed.stream()).is_ok() {
                    self.enter_client(Wire::Tls(Box::new(arrival.sealed)), Some(arrival.peer));
                }
            }
            Err(error) if error.kind() == ErrorKind::WouldBlock => drop(self.network.arrivals.insert(number, arrival)),
            Err(error) => self.refuse_arrival(arrival, &reason(&error)),
        }
    }

    fn note_failed(&mut self, address: &str, why: &str) {
        let fields = json!({"address": address, "reason": why});
        self.log.note("handshake_failed", fields, &format!("a handshake from {address} has failed: {why}"));
    }

    /// Closes a connection whose handshake has failed. Alerts that say why are still read by the other side.
    fn refuse_arrival(&mut self, arrival: Arrival, why: &str) {
        self.note_failed(&arrival.peer.address, why);
        self.part(Wire::Tls(Box::new(arrival.sealed)));
    }

    fn refuse_oldest(&mut self, why: &str) {
        let oldest = self.network.arrivals.keys().next().copied();
        if let Some(arrival) = oldest.and_then(|number| self.network.arrivals.remove(&number)) {
            self.refuse_arrival(arrival, why);
        }
    }

    /// Ends a connection. It is closed when the other side has closed, at once if that is so already.
    pub fn part(&mut self, wire: Wire) {
        let mut stream = wire.end();
        if self.network.partings.len() < PARTINGS_MOST && !is_read_over(&mut stream, &mut self.chunk) {
            let number = self.network.number();
            let registry = self.poll.registry();
            if registry.reregister(&mut stream, token(Kind::Parting, number), Interest::READABLE).is_ok() {
                self.network.partings.insert(number, (stream, Instant::now() + PARTING));
            }
        }
        self.make_room();
    }

    /// Reads over what still comes from a connection that was ended.
    pub fn stir_parting(&mut self, number: usize) {
        let is_over = match self.network.partings.get_mut(&number) {
            Some((stream, _)) => is_read_over(stream, &mut self.chunk),
            None => false,
        };
        if is_over {
            self.network.partings.remove(&number);
            self.make_room();
        }
    }

    /// Closes connections whose handshake takes too long, or whose other side does not close; returns the time until the
    /// next is due.
    pub fn look_at_network(&mut self) -> Option<Duration> {
        let now = Instant::now();
        while self.network.arrivals.values().next().map_or(false, |arrival| arrival.until <= now) {
            self.refuse_oldest(&format!("it has taken more than {} seconds", HANDSHAKE.as_secs()));
        }
        let before = self.network.partings.len();
        self.network.partings.retain(|_, (_, until)| *until > now);
        if self.network.partings.len() < before {
            self.make_room();
        }
        let arrival = self.network.arrivals.values().next().map(|arrival| arrival.until);
        let parting = self.network.partings.values().next().map(|(_, until)| *until);
        arrival.into_iter().chain(parting).min().map(|until| until.saturating_duration_since(now))
    }

    /// Reads the certificates again, for connections from now on. If that fails, those that were read before stay.
    pub fn read_certificates_again(&mut self) {
        let files = match &self.network.files {
            Some(files) => files,
            None => return,
        };
        match settings(files) {
            Ok(settings) => {
                self.network.settings = Some(settings);
                let words = "hangup: the certificates were read again";
                self.log.say(Level::Info, "certificates_read", json!({}), words);
            }
            Err(Ended(why)) => {
                let words = format!("hangup: {why}; the certificates from before are used");
                self.log.say(Level::Warn, "certificates_not_read", json!({"reason": why}), &words);
            }
        }
    }
}

/// Has small answers sent at once, and a connection end whose other side has vanished.
fn set_up(stream: &UnixStream) {
    let socket = SockRef::from(stream);
    let _ = socket.set_nodelay(true);
    let asking = TcpKeepalive::new().with_time(SILENT).with_interval(ASKED_EVERY).with_retries(ASKED_TIMES);
    let _ = socket.set_tcp_keepalive(&asking);
}

/// Reads over what has come; returns whether nothing more will be read.
fn is_read_over(stream: &mut UnixStream, chunk: &mut [u8]) -> bool {
    for _ in 0..READ_OVER / chunk.len() {
        match stream.read(chunk) {
            Ok(1..) => {}
            Err(error) if error.kind() == ErrorKind::Interrupted => {}
            Err(error) if error.kind() == ErrorKind::WouldBlock => return false,
            _ => return true,
        }
    }
    true // it writes without end, and reads nothing any more
}

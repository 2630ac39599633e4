//! The beginning and the end of a run of the front.

use std::fs;
use std::io::{self, Read};
use std::os::unix::io::AsRawFd;
use std::os::unix::net::UnixStream;
use std::path::PathBuf;
use std::process::Child;
use std::time::Duration;

use mio::{Interest, Token};
use nix::sys::resource::{getrlimit, Resource, RLIM_INFINITY};
use nix::sys::socket::{setsockopt, sockopt::SndBuf};
use serde_json::json;
use signal_hook::consts::{SIGHUP, SIGINT, SIGTERM};

use crate::asked::Leave;
use crate::command_line::{Options, Place, PASSED};
use crate::compacting::sweep_folder;
use crate::doors::{Comers, Listener};
use crate::front::{Front, Stop};
use crate::health::CHECKS_MOST;
use crate::inspector::{say_where, Inspector};
use crate::log::{reason, Ended, Log};
use crate::network::Network;
use crate::people::Link;
use crate::pool::Pool;
use crate::records::folder;
use crate::scraping::SCRAPES_MOST;
use crate::server::{Record, Server};
use crate::sockets::{listening, listening_over_network, passed, Bound};
use crate::spawn::{end_all, keep_open, kill, started, SECONDS_TO_END};
use crate::tokens::{token, Kind};

const FOR_ITS_OWNER: u32 = 0o600;
/// Files that are reserved for servers that are started again, and for records; clients cannot use them.
const FILES_KEPT: u64 = 24;
/// The size in bytes of the send buffer of the socket to the page's process, if the system allows it.
const SEND_BYTES: usize = 1_048_576;
const TIME_TO_END: Duration = Duration::from_secs(2);
/// At the front's end, the time that monitors have to read anything of what is left for them, and the time for all of it.
const TIME_TO_TAKE: Duration = Duration::from_secs(2);
const TIME_TO_TAKE_ALL: Duration = Duration::from_secs(10);

/// The sockets that a run has to remove at its end.
#[derive(Default)]
struct Kept {
    bound: Vec<Bound>,
}

/// Serves until the front is asked to end, or cannot continue.
pub fn serve(options: Options) -> Result<(), Stop> {
    let mut alarm = signalled(&[SIGINT, SIGTERM])?;
    let hangups = signalled(&[SIGHUP])?;
    let mut kept = Kept::default();
    let mut front: Option<Front> = None;
    let served = run(&options, (&alarm, hangups), &mut kept, &mut front);
    let mut children: Vec<&mut Child> = Vec::new();
    if let Some(front) = &mut front {
        front.inspector = None;
        if let Some(page) = &mut front.page {
            end_all(&mut [page], TIME_TO_END);
        }
        if let Some(compaction) = &mut front.compacting.under_way {
            kill(&mut compaction.child);
        }
        children
            .extend(front.workers.iter_mut().filter_map(|worker| worker.server.as_mut()).map(|server| &mut server.child));
    }
    end_all(&mut children, SECONDS_TO_END);
    match served {
        // the server was asked to end too, and ended first
        Err(Stop::Ended(_)) if matches!(alarm.read(&mut [0]), Ok(1..)) => Err(Stop::Asked),
        Err(Stop::Ended(ended)) => match front.and_then(|front| front.not_served).filter(|status| *status > 0) {
            Some(status) => Err(Stop::NotServed(ended, status)),
            None => Err(Stop::Ended(ended)),
        },
        other => other,
    }
}

fn run(
    options: &Options,
    (alarm, hangups): (&UnixStream, UnixStream),
    kept: &mut Kept,
    place: &mut Option<Front>,
) -> Result<(), Stop> {
    let listeners = listeners(options, kept)?;
    let front = place.insert(front_of(options)?);
    listeners.into_iter().for_each(|(listener, comers)| front.doors.add_later(listener, comers));
    begin_servers(front, options)?;
    watch(front, options, alarm, &hangups)?;
    front.hangups = Some(hangups);
    if options.is_resumed {
        front.resume()?;
    }
    if let Some(port) = options.inspect {
        front.page = Some(show(front, options, port)?);
    }
    let served = front.serve();
    front.notifier.stopping();
    front.finish_monitors(TIME_TO_TAKE, TIME_TO_TAKE_ALL);
    served
}

/// The sockets at which others connect, each with the kind of connections. That of the clients is made last: whoever finds
/// it finds all others.
fn listeners(options: &Options, kept: &mut Kept) -> Result<Vec<(Listener, Comers)>, Ended> {
    let mut bind = |path: &PathBuf, mode| {
        let (listener, bound) = listening(path, mode)?;
        kept.bound.push(bound);
        Ok::<_, Ended>(Listener::Unix(listener))
    };
    let clients = match options.socket.as_os_str() == PASSED {
        true => Some(passed()?.into_iter().map(Listener::Unix).collect()),
        false => None,
    };
    let mut all = Vec::new();
    if let Some(path) = &options.monitor {
        all.push((bind(path, options.monitor_mode)?, Comers::Monitors));
    }
    if let Some(path) = &options.control {
        all.push((bind(path, Some(FOR_ITS_OWNER))?, Comers::Operators));
    }
    let places =
        [(&options.health, options.health_mode, Comers::Checks), (&options.metrics, options.metrics_mode, Comers::Scrapes)];
    for (place, mode, comers) in places {
        match place {
            Some(Place::Path(path)) => all.push((bind(path, mode.or(options.mode))?, comers)),
            Some(Place::Address(address)) => all.push((Listener::Tcp(listening_over_network(*address)?), comers)),
            None => {}
        }
    }
    for (address, comers) in options.network.doors() {
        all.push((Listener::Tcp(listening_over_network(address)?), comers));
    }
    let clients: Vec<Listener> = match clients {
        Some(listeners) => listeners,
        None => vec![bind(&options.socket, options.mode)?],
    };
    all.extend(clients.into_iter().map(|listener| (listener, Comers::Clients)));
    Ok(all)
}

/// Makes the front that the options ask for, without servers.
fn front_of(options: &Options) -> Result<Front, Stop> {
    let words = (options.program.clone(), options.args.clone());
    let mut front = Front::new(options.workers.unwrap_or(1), words, Log::new(options.style))?;
    options.share.iter().for_each(|name| front.let_share(name));
    front.live.are_all = options.is_live;
    front.network = Network::new(options.network.files())?;
    front.patience = options.watchdog.map(Duration::from_secs);
    front.server_memory = options.server_memory;
    if let Some(path) = &options.limits {
        front.limit(path, options.workers.is_some())?;
    }
    front.named_by_clients = options.by_name == Some(true);
    if let Some(workers) = options.workers {
        let folder = options.record.as_ref().map(|path| folder(path)).transpose()?;
        folder.iter().for_each(|folder| sweep_folder(folder));
        front.pool = Some(Pool::new(workers, folder));
        front.compacting.at = options.compact_at;
    }
    let kept_for_servers = if options.workers.is_some() { FILES_KEPT } else { 0 };
    front.metrics.is_on = options.metrics.is_some();
    let kept_for_checks = if options.health.is_some() { CHECKS_MOST as u64 + 1 } else { 0 };
    let kept_for_checks = kept_for_checks + if options.metrics.is_some() { SCRAPES_MOST as u64 + 2 } else { 0 };
    let files = getrlimit(Resource::RLIMIT_NOFILE).map_or(RLIM_INFINITY, |(soft, _)| soft);
    if files != RLIM_INFINITY && kept_for_servers + kept_for_checks > 0 {
        front.doors.files_most = Some(files.saturating_sub(kept_for_servers + kept_for_checks) as i32);
    }
    Ok(front)
}

fn begin_servers(front: &mut Front, options: &Options) -> Result<(), Stop> {
    for at in 0..front.workers.len() {
        let record = options.record.as_ref().filter(|_| options.workers.is_none());
        let record = record.map(|path| Record::new(path)).transpose()?;
        let (program, args) = &front.server_words;
        let server = Server::start(program, args, record, front.server_memory)?;
        front.begin_server(at, server)?;
        front.greet_server(at);
    }
    Ok(())
}

/// Waits for signals, and for the end of standard input if the front is tied to it.
fn watch(front: &mut Front, options: &Options, alarm: &UnixStream, hangups: &UnixStream) -> io::Result<()> {
    let registry = front.poll.registry();
    let watch = |number, token: Token| registry.register(&mut mio::unix::SourceFd(&number), token, Interest::READABLE);
    watch(alarm.as_raw_fd(), token(Kind::Alarm, 0))?;
    watch(hangups.as_raw_fd(), token(Kind::Hangup, 0))?;
    if options.is_tied {
        watch(0, token(Kind::Input, 0))?;
    }
    Ok(())
}

/// A socket that can be read once one of these signals has come. Signals that the front inherited as ignored stay ignored.
fn signalled(numbers: &[i32]) -> io::Result<UnixStream> {
    let (heard, bell) = UnixStream::pair()?;
    heard.set_nonblocking(true)?;
    let passed_over = signals_passed_over();
    for &number in numbers {
        if passed_over >> (number - 1) & 1 == 0 {
            signal_hook::low_level::pipe::register(number, bell.try_clone()?)?;
        }
    }
    Ok(heard)
}

/// The signals that are ignored, as a bit mask.
fn signals_passed_over() -> u64 {
    let status = fs::read_to_string("/proc/self/status").unwrap_or_default();
    let mask = status.lines().find_map(|line| line.strip_prefix("SigIgn:"));
    mask.and_then(|mask| u64::from_str_radix(mask.trim(), 16).ok()).unwrap_or(0)
}

/// Starts the process that shows the front, and logs where.
fn show(front: &mut Front, options: &Options, port: u16) -> Result<Child, Stop> {
    let door = std::net::TcpListener::bind(("127.0.0.1", port));
    let door = door.map_err(|error| Ended(format!("port {port} cannot be bound: {}", reason(&error))))?;
    let port = door.local_addr()?.port();
    let (near, far) = UnixStream::pair()?;
    near.set_nonblocking(true)?;
    keep_open(far.as_raw_fd())?;
    keep_open(door.as_raw_fd())?;
    let words = [
        program_beside("inspect")?.into_os_string(),
        format!("--feed={}", far.as_raw_fd()).into(),
        format!("--door={}", door.as_raw_fd()).into(),
    ];
    let child = started("python3".as_ref(), &words, false, None)?;
    let _ = setsockopt(near.as_raw_fd(), SndBuf, &SEND_BYTES);
    let mut link = Link::new(mio::net::UnixStream::from_std(near), token(Kind::Inspector, 0));
    link.watch(front.poll.registry());
    let leave = Leave { ask: options.inspect_ask || options.inspect_write, write: options.inspect_write };
    let token = random_token()?;
    let program = [&options.program].into_iter().chain(&options.args);
    let program: Vec<String> = program.map(|word| word.to_string_lossy().into_owned()).collect();
    let begins = json!({"token": token, "port": port, "ask": leave.ask, "write": leave.write, "words": program});
    front.inspector = Some(Inspector::new(link, leave, &begins));
    front.settle_inspector();
    say_where(&mut front.log, port, &token);
    Ok(child)
}

/// A program in Python: installed next to this one, or in the repository.
pub fn program_beside(name: &str) -> Result<PathBuf, Ended> {
    let own = fs::read_link("/proc/self/exe").unwrap_or_default();
    let folder = own.parent().map(PathBuf::from).unwrap_or_default();
    let places = ["", "../share/metad/", "../clients/"];
    let found = places.iter().map(|place| folder.join(format!("{place}{name}"))).find(|path| path.is_file());
    let shown = if name == "inspect" { "the inspector" } else { name };
    found.ok_or_else(|| Ended(format!("{shown} cannot be started: it is not installed")))
}

/// A random word that nobody can guess.
fn random_token() -> io::Result<String> {
    const SIGNS: &[u8; 64] = b"ABCDEFGHIJKLMNOPQRSTUVWXYZabcdefghijklmnopqrstuvwxyz0123456789-_";
    let mut bytes = [0; 32];
    fs::File::open("/dev/urandom")?.read_exact(&mut bytes)?;
    Ok(bytes.iter().map(|byte| SIGNS[usize::from(byte & 63)] as char).collect())
}

//! The sockets that others connect to: made by the front, or passed to it.

use std::env;
use std::fs::{self, File, Permissions};
use std::io::{self, ErrorKind};
use std::net::{SocketAddr, TcpListener};
use std::os::unix::fs::{FileTypeExt, MetadataExt, PermissionsExt};
use std::os::unix::io::{AsRawFd, RawFd};
use std::os::unix::net::UnixListener;
use std::path::{Path, PathBuf};
use std::time::Duration;

use listenfd::ListenFd;
use nix::errno::Errno;
use nix::fcntl::{flock, FlockArg};
use nix::sys::socket::sockopt::{AcceptConn, SockType};
use nix::sys::socket::{getsockname, getsockopt, AddressFamily, SockType as Kind, SockaddrLike, SockaddrStorage};
use socket2::{Domain, SockAddr, Socket, Type};

use crate::log::{reason, Ended};

/// The most connections that wait to be accepted.
const WAITING_MOST: i32 = 1_024;
/// The number of the first file that systemd passes.
const FIRST_PASSED: RawFd = 3;
const TRIES: usize = 10;
const PAUSE: Duration = Duration::from_millis(100);
/// The most sockets that may be passed.
const PASSED_MOST: RawFd = 1_024;
const NOT_PASSED: &str = "no socket was passed: LISTEN_PID has to be the front's, and LISTEN_FDS the number of sockets";

/// A socket of the front at a path. The file is removed with this value, unless it was replaced meanwhile.
pub struct Bound {
    path: PathBuf,
    place: (u64, u64),
}

impl Drop for Bound {
    fn drop(&mut self) {
        if place_of(&self.path).map_or(false, |place| place == self.place) {
            let _ = fs::remove_file(&self.path);
        }
    }
}

/// Makes a socket at this path where clients can connect, with these permissions.
pub fn listening(path: &Path, mode: Option<u32>) -> Result<(UnixListener, Bound), Ended> {
    bind(path, mode).map_err(|error| Ended(format!("{} cannot be bound: {}", path.display(), reason(&error))))
}

fn bind(path: &Path, mode: Option<u32>) -> io::Result<(UnixListener, Bound)> {
    let folder = path.parent().filter(|it| !it.as_os_str().is_empty()).unwrap_or_else(|| Path::new("."));
    let _lock = alone_in(folder)?;
    make_room(path)?;
    let socket = Socket::new(Domain::UNIX, Type::STREAM, None)?;
    socket.bind(&SockAddr::unix(path)?)?;
    let bound = Bound { path: path.to_path_buf(), place: place_of(path)? };
    if let Some(mode) = mode {
        fs::set_permissions(path, Permissions::from_mode(mode))?;
    }
    socket.listen(WAITING_MOST)?;
    let listener = UnixListener::from(socket);
    listener.set_nonblocking(true)?;
    Ok((listener, bound))
}

/// Makes a socket at this address, for clients or for checks of the front's health.
pub fn listening_over_network(address: SocketAddr) -> Result<TcpListener, Ended> {
    let bound = TcpListener::bind(address).and_then(|listener| listener.set_nonblocking(true).map(|()| listener));
    bound.map_err(|error| Ended(format!("{address} cannot be bound: {}", reason(&error))))
}

/// Keeps other fronts from binding in a folder meanwhile, if the folder can be read: of two that begin at once, one must
/// not remove what the other has just bound. A process that keeps the folder locked delays a start, and cannot prevent it.
fn alone_in(folder: &Path) -> io::Result<Option<File>> {
    let file = match File::open(folder) {
        Ok(file) => file,
        Err(error) if error.kind() == ErrorKind::PermissionDenied => return Ok(None),
        Err(error) => return Err(error),
    };
    for _ in 0..TRIES {
        match flock(file.as_raw_fd(), FlockArg::LockExclusiveNonblock) {
            Ok(()) => return Ok(Some(file)),
            Err(Errno::EWOULDBLOCK) => std::thread::sleep(PAUSE),
            Err(error) => return Err(error.into()),
        }
    }
    Ok(None) // a process that keeps it locked for so long is not a front that begins
}

/// Removes a socket at which nobody answers, such as a killed front leaves.
fn make_room(path: &Path) -> io::Result<()> {
    match fs::symlink_metadata(path) {
        Err(error) if error.kind() == ErrorKind::NotFound => Ok(()),
        Err(error) => Err(error),
        Ok(found) if found.file_type().is_socket() => take_away(path),
        Ok(_) => Ok(()),
    }
}

fn take_away(path: &Path) -> io::Result<()> {
    let link = Socket::new(Domain::UNIX, Type::STREAM, None)?;
    link.set_nonblocking(true)?;
    match link.connect(&SockAddr::unix(path)?) {
        Err(error) if error.kind() == ErrorKind::ConnectionRefused => fs::remove_file(path),
        // if it would block, so many wait there that there is no room for more
        Err(error) if error.kind() != ErrorKind::WouldBlock => Err(error),
        _ => Err(io::Error::new(ErrorKind::Other, "somebody answers there")),
    }
}

/// Identifies the file at a path.
fn place_of(path: &Path) -> io::Result<(u64, u64)> {
    let found = fs::symlink_metadata(path)?;
    Ok((found.dev(), found.ino()))
}

/// The sockets that systemd has passed, which stay where they are at the end.
pub fn passed() -> Result<Vec<UnixListener>, Ended> {
    let is_own = env::var("LISTEN_PID").map_or(false, |it| it == std::process::id().to_string());
    let count = env::var("LISTEN_FDS").ok().filter(|_| is_own).and_then(|it| it.parse::<RawFd>().ok()).unwrap_or(0);
    let count = count.min(PASSED_MOST);
    if count < 1 {
        return Err(Ended(NOT_PASSED.to_string()));
    }
    (FIRST_PASSED..FIRST_PASSED + count).try_for_each(check_passed)?;
    let mut listeners = ListenFd::from_env();
    (0..count as usize).map(|at| take_passed(&mut listeners, at)).collect()
}

/// Checks that the file of this number is a Unix-domain socket that listens.
fn check_passed(number: RawFd) -> Result<(), Ended> {
    let listens = getsockopt(number, AcceptConn)
        .map_err(|error| Ended(format!("file {number}, which was passed, is no socket: {}", reason(&error.into()))))?;
    let is_stream = getsockopt(number, SockType) == Ok(Kind::Stream);
    let family = getsockname::<SockaddrStorage>(number).ok().and_then(|it| it.family());
    match listens && is_stream && family == Some(AddressFamily::Unix) {
        true => Ok(()),
        false => Err(not_listening(number)),
    }
}

fn take_passed(listeners: &mut ListenFd, at: usize) -> Result<UnixListener, Ended> {
    let number = FIRST_PASSED + at as RawFd;
    let listener = listeners.take_unix_listener(at).ok().flatten().ok_or_else(|| not_listening(number))?;
    let not_set = |error: io::Error| Ended(format!("file {number}, which was passed, cannot be used: {}", reason(&error)));
    listener.set_nonblocking(true).map_err(not_set)?;
    Ok(listener)
}

fn not_listening(number: RawFd) -> Ended {
    Ended(format!("file {number}, which was passed, is no Unix-domain socket at which somebody listens"))
}

/// Whether a file has an end that can be waited for.
pub fn is_pipe(number: RawFd) -> bool {
    let kind = fs::metadata(format!("/proc/self/fd/{number}")).map(|found| found.file_type());
    let is_piped = kind.map_or(false, |kind| kind.is_fifo() || kind.is_socket());
    is_piped || nix::unistd::isatty(number) == Ok(true)
}

//! Starts other programs: in a session of their own, so that signals of a terminal reach the front alone, and
//! so that the front learns whether they could be started.
//!
//! The front starts itself once more, which leaves the front's session and then becomes the other program.

use std::ffi::{OsStr, OsString};
use std::io::{self, Read};
use std::os::unix::io::{AsRawFd, RawFd};
use std::os::unix::net::UnixStream;
use std::os::unix::process::CommandExt;
use std::process::{Child, Command, Stdio};
use std::time::{Duration, Instant};

use nix::fcntl::{fcntl, FcntlArg, FdFlag};
use nix::sys::resource::{setrlimit, Resource};
use nix::sys::signal::{killpg, Signal};
use nix::unistd::{setsid, write, Pid};

use crate::log::{reason, Ended};

/// The first word of a run that becomes another program.
pub const BECOME: &str = "--become-another-program";
/// Stands for a program whose memory is not limited.
const NO_LIMIT: &str = "-";
const THIS_PROGRAM: &str = "/proc/self/exe";
/// Environment variables that are for the front alone.
const OF_PASSING: [&str; 6] =
    ["LISTEN_PID", "LISTEN_FDS", "LISTEN_FDNAMES", "NOTIFY_SOCKET", "WATCHDOG_PID", "WATCHDOG_USEC"];
const LOOK: Duration = Duration::from_millis(2);
/// The time that a program has to end, before it is killed.
pub const SECONDS_TO_END: Duration = Duration::from_secs(5);

/// Starts a program, with or without pipes to it, and with a limit of its memory in bytes or without. Its standard error is that
/// of the front.
pub fn started(program: &OsStr, args: &[OsString], has_pipes: bool, memory: Option<u64>) -> Result<Child, Ended> {
    start(program, args, has_pipes, memory)
        .map_err(|error| Ended(format!("{} cannot be started: {}", program.to_string_lossy(), reason(&error))))
}

fn start(program: &OsStr, args: &[OsString], has_pipes: bool, memory: Option<u64>) -> io::Result<Child> {
    let (mut near, far) = UnixStream::pair()?;
    keep_open(far.as_raw_fd())?;
    let stdio = || if has_pipes { Stdio::piped() } else { Stdio::null() };
    let mut command = Command::new(THIS_PROGRAM);
    let memory = memory.map_or_else(|| NO_LIMIT.to_string(), |bytes| bytes.to_string());
    command.arg(BECOME).arg(far.as_raw_fd().to_string()).arg(memory).arg(program).args(args).stdin(stdio()).stdout(stdio());
    for name in OF_PASSING {
        command.env_remove(name);
    }
    let mut child = command.spawn()?;
    drop(far);
    let mut said = String::new();
    near.read_to_string(&mut said)?;
    if said.is_empty() {
        return Ok(child);
    }
    child.wait()?;
    Err(said.parse().map_or_else(|_| io::Error::new(io::ErrorKind::Other, said), io::Error::from_raw_os_error))
}

/// Becomes another program; returns if that fails, and reports the failure to the process that started this run.
pub fn become_another(words: &[OsString]) -> u8 {
    let number = words.first().and_then(|word| word.to_str()?.parse::<RawFd>().ok());
    let (number, memory, program) = match (number, words.get(1), words.get(2)) {
        (Some(number), Some(memory), Some(program)) => (number, memory, program),
        _ => return 2,
    };
    let _ = fcntl(number, FcntlArg::F_SETFD(FdFlag::FD_CLOEXEC));
    let _ = setsid();
    let error = match limit_memory(memory) {
        Ok(()) => Command::new(program).args(&words[3..]).exec(),
        Err(error) => error,
    };
    let said = error.raw_os_error().map_or_else(|| reason(&error), |it| it.to_string());
    let _ = write(number, said.as_bytes());
    1
}

/// Limits the memory of this process, and so of the program that it becomes.
fn limit_memory(bytes: &OsStr) -> io::Result<()> {
    match bytes.to_str().and_then(|bytes| bytes.parse().ok()) {
        Some(bytes) => Ok(setrlimit(Resource::RLIMIT_AS, bytes, bytes)?),
        None => Ok(()),
    }
}

/// Lets started programs inherit a file of the front.
pub fn keep_open(number: RawFd) -> io::Result<()> {
    fcntl(number, FcntlArg::F_SETFD(FdFlag::empty()))?;
    Ok(())
}

/// Ends programs and what they have started: asks all of them to end, and kills those that have not ended in time.
pub fn end_all(children: &mut [&mut Child], time: Duration) {
    children.iter_mut().for_each(|child| signal_all(child, Signal::SIGTERM));
    let until = Instant::now() + time;
    for child in children.iter_mut() {
        while child.try_wait().map_or(false, |status| status.is_none()) && Instant::now() < until {
            std::thread::sleep(LOOK);
        }
        kill(child);
    }
}

/// Kills a program and what it has started, and waits for its end.
pub fn kill(child: &mut Child) {
    signal_all(child, Signal::SIGKILL);
    let _ = child.wait();
}

/// Kills a program and what it has started, without waiting.
pub fn kill_at_once(child: &mut Child) {
    signal_all(child, Signal::SIGKILL);
}

/// Sends a signal to a program that has not ended, and to what it has started.
fn signal_all(child: &mut Child, signal: Signal) {
    if let Ok(None) = child.try_wait() {
        let _ = killpg(Pid::from_raw(child.id() as i32), signal);
    }
}

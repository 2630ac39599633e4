//! Puts load on a front, or on a program to compare it with, and prints the measurements. It is not installed.
//!
//! ```text
//! metad-load roundtrips SOCKET SECONDS            round trips a second of one client
//! metad-load pipe SECONDS PROGRAM [ARGS...]       those of a loop over a pipe to the program
//! metad-load bus SOCKET SECONDS                   those over a D-Bus daemon to a service that answers
//! metad-load flood SOCKET CLIENTS AHEAD SECONDS   lines a second of clients with some commands under way each, and what
//!                                                 half and 99 of 100 of them waited for, in microseconds
//! metad-load quiet SOCKET COUNT                   what half and 99 of 100 commands of a client that asks every 2 ms took
//! metad-load echo SOCKET                          a server that sends back what it is sent, to compare with
//! ```

#![forbid(unsafe_code)]

mod bus;

use std::collections::VecDeque;
use std::env;
use std::io::{self, BufRead, BufReader, Read, Write};
use std::os::unix::net::{UnixListener as StdListener, UnixStream as StdStream};
use std::process::{Command, ExitCode, Stdio};
use std::time::{Duration, Instant};

use mio::net::{UnixListener, UnixStream};
use mio::{Events, Interest, Poll, Token};

const STATUS: &[u8] = b"{\"do\":\"children\"}\n";
const CHUNK: usize = 65_536;
const PAUSE: Duration = Duration::from_millis(2);
const USAGE: &str = "usage: metad-load roundtrips|pipe|bus|flood|quiet|echo ...";

fn main() -> ExitCode {
    let words: Vec<String> = env::args().skip(1).collect();
    let words: Vec<&str> = words.iter().map(String::as_str).collect();
    let done = match words.as_slice() {
        ["roundtrips", path, seconds] => StdStream::connect(path).and_then(|link| round_trips(&link, &link, seconds)),
        ["pipe", seconds, program, args @ ..] => pipe(seconds, program, args),
        ["bus", path, seconds] => bus::round_trips(path, seconds),
        ["flood", path, clients, ahead, seconds] => flood(path, number(clients), number(ahead), seconds),
        ["quiet", path, count] => quiet(path, number(count)),
        ["echo", path] => echo(path),
        _ => {
            eprintln!("{USAGE}");
            return 2.into();
        }
    };
    match done {
        Ok(()) => 0.into(),
        Err(error) => {
            eprintln!("metad-load: {error}");
            1.into()
        }
    }
}

fn number(word: &str) -> usize {
    word.parse().unwrap_or(1)
}

fn seconds_in(word: &str) -> Duration {
    Duration::from_secs_f64(word.parse().unwrap_or(1.0))
}

/// Sends a command and waits for its answer, again and again.
fn round_trips(mut to: impl Write, from: impl Read, seconds: &str) -> io::Result<()> {
    let (mut reader, mut line, mut count) = (BufReader::new(from), Vec::new(), 0_u64);
    let (begun, time) = (Instant::now(), seconds_in(seconds));
    while begun.elapsed() < time {
        to.write_all(STATUS)?;
        line.clear();
        if reader.read_until(b'\n', &mut line)? == 0 {
            return Err(io::ErrorKind::UnexpectedEof.into());
        }
        count += 1;
    }
    println!("{:.0}", count as f64 / begun.elapsed().as_secs_f64());
    Ok(())
}

/// Measures round trips over a pipe to the program, where each line itself names its session.
fn pipe(seconds: &str, program: &str, args: &[&str]) -> io::Result<()> {
    let mut child = Command::new(program).args(args).stdin(Stdio::piped()).stdout(Stdio::piped()).spawn()?;
    let pipes = child.stdin.take().zip(child.stdout.take());
    let (to, from) = pipes.ok_or(io::ErrorKind::BrokenPipe)?;
    let done = round_trips(Naming(to), from, seconds);
    child.wait()?;
    done
}

/// Adds the name of a session to each line.
struct Naming<T>(T);

impl<T: Write> Write for Naming<T> {
    fn write(&mut self, _line: &[u8]) -> io::Result<usize> {
        self.0.write_all(b"{\"do\":\"children\",\"session\":\"c1\"}\n")?;
        Ok(STATUS.len())
    }

    fn flush(&mut self) -> io::Result<()> {
        self.0.flush()
    }
}

/// A client that always has some commands under way.
struct Flooder {
    link: UnixStream,
    sent: VecDeque<Instant>,
}

/// Measures clients that send commands without end.
fn flood(path: &str, clients: usize, ahead: usize, seconds: &str) -> io::Result<()> {
    let (mut poll, mut events) = (Poll::new()?, Events::with_capacity(1_024));
    let mut all = Vec::new();
    let lines = STATUS.repeat(ahead);
    for at in 0..clients {
        let link = StdStream::connect(path)?;
        link.set_nonblocking(true)?;
        let mut link = UnixStream::from_std(link);
        poll.registry().register(&mut link, Token(at), Interest::READABLE)?;
        all.push(Flooder { link, sent: VecDeque::new() });
    }
    for client in &mut all {
        write_all(&mut client.link, &lines)?;
        client.sent.extend(std::iter::repeat(Instant::now()).take(ahead));
    }
    let time = seconds_in(seconds);
    let (mut begun, mut waits, mut is_warm, mut chunk) = (Instant::now(), Vec::new(), false, vec![0; CHUNK]);
    while !is_warm || begun.elapsed() < time {
        if !is_warm && begun.elapsed() > time / 4 {
            (begun, is_warm) = (Instant::now(), true);
            waits.clear();
        }
        poll.poll(&mut events, Some(Duration::from_millis(100)))?;
        for event in &events {
            let client = &mut all[event.token().0];
            let count = match client.link.read(&mut chunk) {
                Ok(0) => return Err(io::ErrorKind::UnexpectedEof.into()),
                Ok(count) => memchr::memchr_iter(b'\n', &chunk[..count]).count(),
                Err(error) if error.kind() == io::ErrorKind::WouldBlock => continue,
                Err(error) => return Err(error),
            };
            let now = Instant::now();
            for sent in client.sent.drain(..count.min(client.sent.len())) {
                waits.push(now.duration_since(sent).as_micros() as u64);
            }
            write_all(&mut client.link, &lines[..count * STATUS.len()])?;
            client.sent.extend(std::iter::repeat(now).take(count));
        }
    }
    let rate = waits.len() as f64 / begun.elapsed().as_secs_f64();
    show(&format!("{rate:.0} "), &mut waits);
    Ok(())
}

/// Writes all, and waits if there is no room.
fn write_all(link: &mut UnixStream, mut bytes: &[u8]) -> io::Result<()> {
    while !bytes.is_empty() {
        match link.write(bytes) {
            Ok(count) => bytes = &bytes[count..],
            Err(error) if error.kind() == io::ErrorKind::WouldBlock => std::thread::sleep(Duration::from_micros(100)),
            Err(error) => return Err(error),
        }
    }
    Ok(())
}

/// Prints the median of the waits and the bound of 99 of 100 of them, in microseconds.
fn show(before: &str, waits: &mut [u64]) {
    waits.sort_unstable();
    let at = |share: usize| waits.get(waits.len() * share / 100).copied().unwrap_or(0);
    println!("{before}{} {}", at(50), at(99));
}

fn quiet(path: &str, count: usize) -> io::Result<()> {
    let mut link = StdStream::connect(path)?;
    let (mut reader, mut waits, mut line) = (BufReader::new(link.try_clone()?), Vec::new(), Vec::new());
    for _ in 0..count {
        std::thread::sleep(PAUSE);
        let begun = Instant::now();
        link.write_all(STATUS)?;
        line.clear();
        reader.read_until(b'\n', &mut line)?;
        waits.push(begun.elapsed().as_micros() as u64);
    }
    show("", &mut waits);
    Ok(())
}

/// Sends back all that it receives, until standard input ends.
fn echo(path: &str) -> io::Result<()> {
    let listener = StdListener::bind(path)?;
    listener.set_nonblocking(true)?;
    let (mut listener, mut poll, mut events) =
        (UnixListener::from_std(listener), Poll::new()?, Events::with_capacity(1_024));
    poll.registry().register(&mut listener, Token(usize::MAX - 1), Interest::READABLE)?;
    poll.registry().register(&mut mio::unix::SourceFd(&0), Token(usize::MAX - 2), Interest::READABLE)?;
    let (mut links, mut chunk) = (slab::Slab::new(), vec![0; CHUNK]);
    loop {
        poll.poll(&mut events, None)?;
        for event in &events {
            match event.token().0 {
                at if at == usize::MAX - 2 => return Ok(()),
                at if at == usize::MAX - 1 => {
                    while let Ok((link, _)) = listener.accept() {
                        let key = links.insert(link);
                        poll.registry().register(&mut links[key], Token(key), Interest::READABLE)?;
                    }
                }
                key => {
                    if let Ok(count @ 1..) = links[key].read(&mut chunk) {
                        write_all(&mut links[key], &chunk[..count])?;
                    }
                }
            }
        }
    }
}

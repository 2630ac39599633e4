//! A server: its process, the lines that it is given, and the lines that it writes.

use std::ffi::OsString;
use std::fs::{File, OpenOptions};
use std::io::{self, ErrorKind, Read, Write};
use std::os::unix::fs::OpenOptionsExt;
use std::os::unix::io::{AsRawFd, RawFd};
use std::os::unix::process::ExitStatusExt;
use std::path::{Path, PathBuf};
use std::process::{Child, ChildStdin, ChildStdout, ExitStatus};
use std::time::Instant;

use mio::unix::SourceFd;
use mio::{Interest, Registry, Token};
use nix::fcntl::{fcntl, FcntlArg, OFlag};
use serde_json::json;

use crate::log::{reason, Ended, Level, Log};
use crate::queue::Pending;
use crate::spawn::{started, SECONDS_TO_END};

/// Bytes that are read from a server at once.
const CHUNK: usize = 262_144;
/// The size in bytes of the pipes to and from a server, if the system allows it.
const PIPE: i32 = 1_048_576;

/// A record is not opened through a link, and a pipe that nobody reads is refused.
pub const RECORD_FLAGS: OFlag = OFlag::from_bits_truncate(OFlag::O_NOFOLLOW.bits() | OFlag::O_NONBLOCK.bits());

/// A file of all lines as the server is given them, in their order. A failed write ends the record, and not the
/// front.
pub struct Record {
    path: PathBuf,
    file: Option<File>,
}

impl Record {
    pub fn new(path: &Path) -> Result<Record, Ended> {
        let file = OpenOptions::new()
            .write(true)
            .create(true)
            .truncate(true)
            .mode(0o600)
            .custom_flags(RECORD_FLAGS.bits())
            .open(path);
        let file = file.map_err(|error| Ended(format!("{} cannot be written: {}", path.display(), reason(&error))))?;
        Ok(Record { path: path.to_path_buf(), file: Some(file) })
    }

    /// Closes the file, and continues at the end of the one that now has its name. A missing file is made. If it
    /// cannot be opened, the record continues in the old file.
    pub fn open_again(&mut self, log: &mut Log) {
        let mut options = OpenOptions::new();
        let opened = options.append(true).create(true).mode(0o600).custom_flags(RECORD_FLAGS.bits()).open(&self.path);
        let path = self.path.display();
        match opened {
            Ok(file) => {
                self.file = Some(file);
                let words = format!("hangup: {path} is opened again");
                log.say(Level::Info, "record_opened_again", json!({"path": path.to_string()}), &words);
            }
            Err(error) => {
                let goes_on =
                    if self.file.is_some() { "the file that was open is written on" } else { "nothing is recorded" };
                let words = format!("hangup: {path} cannot be opened again: {}; {goes_on}", reason(&error));
                let fields = json!({"path": path.to_string(), "why": reason(&error)});
                log.say(Level::Error, "record_not_opened_again", fields, &words);
            }
        }
    }

    /// Writes lines, before the server is given them.
    fn write(&mut self, lines: &[u8], log: &mut Log) {
        let written = self.file.as_mut().map_or(Ok(()), |file| file.write_all(lines));
        if let Err(error) = written {
            self.file = None;
            let path = self.path.display();
            let words = format!("{path} cannot be written: {}; nothing more is recorded", reason(&error));
            let fields = json!({"path": path.to_string(), "why": reason(&error)});
            log.say(Level::Error, "record_not_written", fields, &words);
        }
    }
}

/// The result of reading a server.
#[derive(Debug, PartialEq, Eq)]
pub enum Brought {
    Nothing,
    /// Complete lines of so many bytes, at the beginning of the buffer, and whether more may be there.
    Lines(usize, bool),
    /// The end of its output.
    End,
}

/// Bytes that a server has written and the front has not passed on yet.
pub struct Written {
    pub bytes: Vec<u8>,
    /// Bytes of a line that has not ended.
    begun: usize,
}

impl Written {
    fn new() -> Written {
        Written { bytes: vec![0; CHUNK], begun: 0 }
    }

    fn read(&mut self, from: &mut impl Read) -> io::Result<Brought> {
        if self.bytes.len() < self.begun + CHUNK / 2 {
            self.bytes.resize(self.begun + CHUNK, 0);
        }
        let count = from.read(&mut self.bytes[self.begun..])?;
        if count == 0 {
            return Ok(Brought::End);
        }
        let (before, end) = (self.begun, self.begun + count);
        let whole = memchr::memrchr(b'\n', &self.bytes[before..end]).map_or(0, |at| before + at + 1);
        self.begun = end;
        Ok(Brought::Lines(whole, end == self.bytes.len()))
    }

    /// Drops the lines at the beginning, which were passed on.
    pub fn told(&mut self, whole: usize) {
        self.bytes.copy_within(whole..self.begun, 0);
        self.begun -= whole;
    }
}

/// A program that answers each line that it is given.
pub struct Server {
    pub child: Child,
    input: ChildStdin,
    output: ChildStdout,
    /// Lines that it has not taken yet.
    pub given: Pending,
    pub written: Written,
    pub record: Option<Record>,
    /// Bytes at the end of these lines that are not recorded yet.
    unrecorded: usize,
    watches_writing: bool,
}

impl Server {
    /// Starts a server.
    pub fn start(
        program: &OsString,
        args: &[OsString],
        record: Option<Record>,
        memory: Option<u64>,
    ) -> Result<Server, Ended> {
        let mut child = started(program, args, true, memory)?;
        let pipes = child.stdin.take().zip(child.stdout.take());
        let (input, output) = pipes.ok_or_else(|| Ended("the server has no pipes".to_string()))?;
        for number in [input.as_raw_fd(), output.as_raw_fd()] {
            let _ = fcntl(number, FcntlArg::F_SETPIPE_SZ(PIPE));
            let _ = fcntl(number, FcntlArg::F_SETFL(OFlag::O_NONBLOCK));
        }
        let (given, written) = (Pending::default(), Written::new());
        Ok(Server { child, input, output, given, written, record, unrecorded: 0, watches_writing: false })
    }

    /// Begins to wait for its output.
    pub fn watch(&self, registry: &Registry, token: Token) -> Result<(), Ended> {
        watched(registry.register(&mut SourceFd(&self.output.as_raw_fd()), token, Interest::READABLE))
    }

    /// Waits for its output as if that were new, because not all of it was read.
    pub fn watch_again(&self, registry: &Registry, token: Token) -> Result<(), Ended> {
        watched(registry.reregister(&mut SourceFd(&self.output.as_raw_fd()), token, Interest::READABLE))
    }

    /// Appends a line to those that it is given; `push` writes them. Returns the bytes of the line, without its end.
    pub fn give(&mut self, put: impl FnOnce(&mut Vec<u8>)) -> usize {
        let bytes = self.given.end();
        let before = bytes.len();
        put(bytes);
        let length = bytes.len() - before;
        bytes.push(b'\n');
        if self.record.is_some() {
            self.unrecorded += length + 1;
        }
        length
    }

    /// Appends a line by the front, which is not recorded.
    pub fn give_unrecorded(&mut self, line: &[u8], log: &mut Log) -> usize {
        self.write_record(log);
        let bytes = self.given.end();
        bytes.extend_from_slice(line);
        bytes.push(b'\n');
        line.len()
    }

    /// Records the lines that are not recorded yet. They are the last ones that the server was given.
    fn write_record(&mut self, log: &mut Log) {
        if self.unrecorded > 0 {
            if let Some(record) = &mut self.record {
                record.write(self.given.last(self.unrecorded), log);
            }
            self.unrecorded = 0;
        }
    }

    /// The last line that it was given, which has this many bytes without its end.
    pub fn last(&self, length: usize) -> &[u8] {
        &self.given.last(length + 1)[..length]
    }

    /// Writes as much of the lines to it as it takes at once.
    pub fn push(&mut self, registry: &Registry, token: Token, log: &mut Log) {
        self.write_record(log);
        if self.given.is_empty() {
            return;
        }
        let is_all = match self.given.give(&mut self.input) {
            Ok(is_all) => is_all,
            Err(_) => {
                self.given.clear(); // it is ending, as the end of its output will show
                true
            }
        };
        if is_all == self.watches_writing {
            self.watches_writing = !is_all;
            let number: RawFd = self.input.as_raw_fd();
            let _ = match is_all {
                true => registry.deregister(&mut SourceFd(&number)),
                false => registry.register(&mut SourceFd(&number), token, Interest::WRITABLE),
            };
        }
    }

    /// Reads its output.
    pub fn read(&mut self) -> Brought {
        match self.written.read(&mut self.output) {
            Ok(brought) => brought,
            Err(error) if matches!(error.kind(), ErrorKind::WouldBlock | ErrorKind::Interrupted) => Brought::Nothing,
            Err(_) => Brought::End,
        }
    }

    /// Waits some seconds until it has ended; returns its status if it has.
    pub fn status(&mut self) -> Option<ExitStatus> {
        let until = Instant::now() + SECONDS_TO_END;
        loop {
            match self.child.try_wait() {
                Ok(Some(status)) => return Some(status),
                Ok(None) if Instant::now() < until => std::thread::sleep(std::time::Duration::from_millis(1)),
                _ => return None,
            }
        }
    }

    /// How it has ended, in words.
    pub fn how_ended(&mut self) -> String {
        let status = match self.status() {
            Some(status) => status,
            None => return "the server writes no more".to_string(),
        };
        match (status.signal(), status.code()) {
            (Some(signal), _) => format!("the server was ended by signal {signal}"),
            (None, code) => format!("the server has ended with status {}", code.unwrap_or(-1)),
        }
    }
}

fn watched(done: io::Result<()>) -> Result<(), Ended> {
    done.map_err(|error| Ended(format!("the server cannot be watched: {}", reason(&error))))
}

#[cfg(test)]
mod tests {
    use super::*;

    #[test]
    fn lines_of_any_length_come_whole() {
        let long = "x".repeat(CHUNK + CHUNK / 3) + "\n";
        let text = format!("one\ntwo\n{long}three\nhalf");
        let (mut from, mut written, mut came) = (text.as_bytes(), Written::new(), Vec::new());
        loop {
            match written.read(&mut from).unwrap() {
                Brought::Lines(whole, _) => {
                    assert!(whole == 0 || written.bytes[whole - 1] == b'\n');
                    came.extend_from_slice(&written.bytes[..whole]);
                    written.told(whole);
                }
                other => {
                    assert_eq!(other, Brought::End);
                    break;
                }
            }
        }
        assert_eq!(came, text.strip_suffix("half").unwrap().as_bytes());
    }
}

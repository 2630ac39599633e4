//! The record of a group: a file of the lines that its server was given and wrote. People can read it, and it can be replayed.
//!
//! A line that the server was given is written after `> `, one that it wrote is unchanged. Lines are in the order in which
//! they were given and written, so an answer may come after the command that was given next.

use std::fs::{self, File, OpenOptions};
use std::io::{self, BufRead, BufReader, BufWriter, Cursor, Read, Seek, SeekFrom, Write};
use std::os::unix::fs::{DirBuilderExt, OpenOptionsExt};
use std::path::{Path, PathBuf};

use nix::unistd::{access, AccessFlags};
use serde_json::json;

use crate::lines::is_answer;
use crate::log::{reason, Ended, Level, Log};
use crate::server::RECORD_FLAGS;

const GIVEN: &[u8] = b"> ";
pub const ENDING: &str = ".lines";
/// More bytes than this are written at once instead of being kept.
const FRESH_MOST: usize = 1_048_576;

/// The record of one group. A failed write ends the record, and then the group cannot be brought back.
pub struct GroupRecord {
    /// The path of the file, or none if the record is kept in memory.
    path: Option<PathBuf>,
    fresh: Vec<u8>,
    size: u64,
    /// The number of lines that were given.
    pub count: usize,
    pub is_whole: bool,
    is_there: bool,
    /// It is not compacted before it has more bytes than this.
    pub compact_from: u64,
    /// How often it was emptied or replaced.
    round: u64,
}

/// A place in a record at which all lines that were given are answered.
pub struct Mark {
    pub size: u64,
    count: usize,
    round: u64,
}

impl GroupRecord {
    pub fn new(path: Option<PathBuf>) -> GroupRecord {
        let fresh = Vec::new();
        GroupRecord { path, fresh, size: 0, count: 0, is_whole: true, is_there: false, compact_from: 0, round: 0 }
    }

    /// Opens the record of an earlier front, without a partial line at its end.
    pub fn resume(path: &Path) -> io::Result<GroupRecord> {
        let whole = whole_lines(path)?;
        OpenOptions::new().write(true).custom_flags(RECORD_FLAGS.bits()).open(path)?.set_len(whole)?;
        let count = lines_given(path)?.count();
        let (path, fresh) = (Some(path.to_path_buf()), Vec::new());
        Ok(GroupRecord { path, fresh, size: whole, count, is_whole: true, is_there: true, compact_from: 0, round: 0 })
    }

    /// Records a line that is given to the server.
    pub fn given(&mut self, line: &[u8], log: &mut Log) {
        self.count += 1;
        self.add(&[GIVEN, line, b"\n"], log);
    }

    /// Records lines that the server has written.
    pub fn told(&mut self, lines: &[u8], log: &mut Log) {
        self.add(&[lines], log);
    }

    fn add(&mut self, parts: &[&[u8]], log: &mut Log) {
        if !self.is_whole {
            return;
        }
        for part in parts {
            self.fresh.extend_from_slice(part);
            self.size += part.len() as u64;
        }
        if self.fresh.len() > FRESH_MOST {
            self.write(log);
        }
    }

    /// Writes what is new to a file that only its owner may read.
    pub fn write(&mut self, log: &mut Log) {
        let path = match &self.path {
            Some(path) if self.is_whole && !self.fresh.is_empty() => path,
            _ => return,
        };
        let mut options = OpenOptions::new();
        options
            .mode(0o600)
            .custom_flags(RECORD_FLAGS.bits())
            .create(!self.is_there) // otherwise a new file would lack the beginning
            .append(self.is_there)
            .write(true)
            .truncate(!self.is_there);
        let written = options.open(path).and_then(|mut file| {
            self.is_there = true;
            file.write_all(&self.fresh)
        });
        self.fresh.clear();
        self.fresh.shrink_to(4_096);
        if let Err(error) = written {
            self.is_whole = false;
            let path = path.display();
            let words = format!("{path} cannot be written: {}; its group cannot be brought back", reason(&error));
            let fields = json!({"path": path.to_string(), "why": reason(&error)});
            log.say(Level::Error, "record_not_written", fields, &words);
        }
    }

    /// Empties the record, because the server holds nothing of the group any more.
    pub fn begin_anew(&mut self) {
        self.fresh.clear();
        (self.size, self.count, self.is_whole) = (0, 0, true);
        (self.compact_from, self.round) = (0, self.round + 1);
        if let Some(path) = self.path.as_ref().filter(|_| self.is_there) {
            self.is_there = OpenOptions::new().write(true).open(path).and_then(|file| file.set_len(0)).is_ok();
        }
    }

    /// Its size in bytes.
    pub fn size(&self) -> u64 {
        self.size
    }

    /// Removes a line that the server was given and has not answered, and what it wrote for it; so many lines were given
    /// after it. All lines before it are answered.
    pub fn forget(&mut self, later: usize, log: &mut Log) {
        if let Err(error) = self.rewrite(later, log) {
            self.is_whole = false;
            let words = format!("a record cannot be rewritten: {}; its group cannot be brought back", reason(&error));
            log.say(Level::Error, "record_not_rewritten", json!({"reason": reason(&error)}), &words);
        }
    }

    fn rewrite(&mut self, later: usize, log: &mut Log) -> io::Result<()> {
        let skipped = self.count.saturating_sub(1 + later);
        let (mut line, mut told, mut answered) = (Vec::new(), 0, 0);
        let mut content = self.content(log)?;
        while content.next(false, &mut line) {
            told += 1;
            answered = if is_answer(&line) { told } else { answered };
        }
        let content = self.content(log)?;
        match self.path.as_ref().filter(|_| self.is_there) {
            Some(path) => {
                let place = path.with_extension("new");
                let mut options = OpenOptions::new();
                options.write(true).create(true).truncate(true).mode(0o600).custom_flags(RECORD_FLAGS.bits());
                let mut out = BufWriter::new(options.open(&place)?);
                self.size = content.copy(skipped, answered, &mut out)?;
                out.flush()?;
                fs::rename(&place, path)?;
            }
            None => {
                let mut out = Vec::new();
                self.size = content.copy(skipped, answered, &mut out)?;
                self.fresh = out;
            }
        }
        self.count -= 1;
        Ok(())
    }

    /// Whether it has a file.
    pub fn is_in_file(&self) -> bool {
        self.is_there
    }

    /// Whether the whole file is still there. If not, the record ends: a file that begins later could bring nothing back.
    pub fn is_still_there(&mut self, log: &mut Log) -> bool {
        self.write(log);
        let size = self.path.as_ref().and_then(|path| fs::symlink_metadata(path).ok()).map(|found| found.len());
        if self.is_whole && size != Some(self.size) {
            self.is_whole = false;
            let path = self.path.as_ref().map_or_else(String::new, |path| path.display().to_string());
            let words = format!("{path} is not what it was; its group cannot be brought back until its sessions are reset");
            log.say(Level::Error, "record_changed", json!({"path": path}), &words);
        }
        self.is_whole
    }

    /// Its path and its present end, if all of it is in a file.
    pub fn mark(&mut self, log: &mut Log) -> Option<(PathBuf, Mark)> {
        self.write(log);
        let path = self.path.as_ref().filter(|_| self.is_whole && self.is_there)?;
        Some((path.clone(), Mark { size: self.size, count: self.count, round: self.round }))
    }

    /// Replaces the file by another one that has, in place of what is before a mark, so many lines that were given and so many
    /// bytes, and has so many bytes after the mark already. Returns false if what is before the mark has changed meanwhile.
    pub fn replace(&mut self, mark: &Mark, by: &Path, made: (usize, u64, u64), log: &mut Log) -> io::Result<bool> {
        self.write(log);
        let path = match self.path.as_ref().filter(|_| self.is_whole && self.round == mark.round) {
            Some(path) => path,
            None => return Ok(false),
        };
        let (lines, bytes, copied) = made;
        let mut old = open(path)?;
        let mut new = OpenOptions::new().append(true).custom_flags(RECORD_FLAGS.bits()).open(by)?;
        let is_right = old.metadata()?.len() == self.size && new.metadata()?.len() == bytes + copied;
        let rest = self.size.checked_sub(mark.size + copied).filter(|_| is_right);
        let rest = rest.ok_or_else(|| io::Error::new(io::ErrorKind::InvalidData, "a file is not what it was"))?;
        old.seek(SeekFrom::Start(mark.size + copied))?;
        let added = io::copy(&mut old.take(rest), &mut new)?;
        if added < rest {
            return Err(io::ErrorKind::UnexpectedEof.into());
        }
        fs::rename(by, path)?;
        (self.size, self.count) = (bytes + copied + rest, lines + self.count - mark.count);
        self.round += 1;
        Ok(true)
    }

    /// Removes the file.
    pub fn end(&mut self) {
        if let Some(path) = self.path.as_ref().filter(|_| std::mem::take(&mut self.is_there)) {
            let _ = fs::remove_file(path);
        }
    }

    /// The present lines of the record.
    pub fn content(&mut self, log: &mut Log) -> io::Result<Content> {
        self.write(log);
        let reader: Box<dyn BufRead> = match self.path.as_ref().filter(|_| self.is_there) {
            Some(path) => Box::new(BufReader::with_capacity(65_536, File::open(path)?)),
            None => Box::new(Cursor::new(self.fresh.clone())),
        };
        Ok(Content { reader, left: self.size })
    }
}

/// The number of bytes in a file's complete lines.
fn whole_lines(path: &Path) -> io::Result<u64> {
    let mut reader = BufReader::new(open(path)?);
    let (mut line, mut whole) = (Vec::new(), 0);
    while reader.read_until(b'\n', &mut line)? > 0 && line.ends_with(b"\n") {
        whole += line.len() as u64;
        line.clear();
    }
    Ok(whole)
}

fn open(path: &Path) -> io::Result<File> {
    OpenOptions::new().read(true).custom_flags(RECORD_FLAGS.bits()).open(path)
}

/// The lines of a record file that a server was given, without their ends.
pub fn lines_given(path: &Path) -> io::Result<impl Iterator<Item = Vec<u8>>> {
    let left = fs::metadata(path)?.len();
    let mut given = Given(Content { reader: Box::new(BufReader::new(open(path)?)), left });
    Ok(std::iter::from_fn(move || given.next()))
}

/// The lines of a record, up to its end at the time of the call.
pub struct Content {
    reader: Box<dyn BufRead>,
    left: u64,
}

impl Content {
    /// Reads the next line that was given, or that was written, with its end.
    fn next(&mut self, is_given: bool, line: &mut Vec<u8>) -> bool {
        while self.left > 0 {
            line.clear();
            let count = self.reader.read_until(b'\n', line).unwrap_or(0);
            if count == 0 {
                return false;
            }
            self.left = self.left.saturating_sub(count as u64);
            if line.starts_with(GIVEN) == is_given {
                return true;
            }
        }
        false
    }
}

impl Content {
    /// Copies all lines, except one of those that were given, and those that were written after so many; returns how many bytes.
    fn copy(mut self, skipped: usize, told_most: usize, out: &mut impl Write) -> io::Result<u64> {
        let (mut line, mut given, mut told, mut size) = (Vec::new(), 0, 0, 0);
        while self.left > 0 {
            line.clear();
            let count = self.reader.read_until(b'\n', &mut line)?;
            if count == 0 {
                break;
            }
            self.left = self.left.saturating_sub(count as u64);
            let counted = if line.starts_with(GIVEN) { &mut given } else { &mut told };
            *counted += 1;
            let is_kept = if line.starts_with(GIVEN) { given != skipped + 1 } else { told <= told_most };
            if is_kept {
                out.write_all(&line)?;
                size += count as u64;
            }
        }
        Ok(size)
    }
}

/// The lines of a record that the server was given, one after the other.
pub struct Given(pub Content);

impl Given {
    /// The next line, without its end.
    pub fn next(&mut self) -> Option<Vec<u8>> {
        let mut line = Vec::new();
        self.0
            .next(true, &mut line)
            .then(|| line[GIVEN.len()..].strip_suffix(b"\n").unwrap_or(&line[GIVEN.len()..]).to_vec())
    }
}

/// The lines of a record that the server wrote, as bytes.
pub struct Told {
    content: Content,
    held: Vec<u8>,
    line: Vec<u8>,
    /// The number of lines that were taken to their ends.
    pub count: usize,
}

impl Told {
    pub fn new(content: Content) -> Told {
        Told { content, held: Vec::new(), line: Vec::new(), count: 0 }
    }

    /// The next bytes, as many as asked for, or as many as there are.
    pub fn take(&mut self, count: usize) -> Vec<u8> {
        while self.held.len() < count && self.content.next(false, &mut self.line) {
            self.held.extend_from_slice(&self.line);
        }
        let taken: Vec<u8> = self.held.drain(..count.min(self.held.len())).collect();
        self.count += memchr::memchr_iter(b'\n', &taken).count();
        taken
    }

    /// The line that begins with these bytes, as far as the record has it.
    pub fn line_at(&mut self, part: &[u8]) -> Vec<u8> {
        let mut line = part.to_vec();
        while !line.ends_with(b"\n") {
            match self.take(1).first() {
                Some(byte) => line.push(*byte),
                None => break,
            }
        }
        line
    }
}

/// Opens or makes a folder for records. Only its owner may look into one that is made.
pub fn folder(path: &Path) -> Result<PathBuf, Ended> {
    let made = fs::DirBuilder::new().recursive(true).mode(0o700).create(path);
    let shown = path.display();
    made.map_err(|error| Ended(format!("{shown} cannot be made: {}", reason(&error))))?;
    match access(path, AccessFlags::W_OK | AccessFlags::X_OK) {
        Ok(()) => Ok(path.to_path_buf()),
        Err(_) => Err(Ended(format!("{shown} cannot be written"))),
    }
}

#[cfg(test)]
mod tests {
    use super::*;

    #[test]
    fn what_was_given_and_told_is_read_apart() {
        let mut log = Log::new(crate::log::Style::default());
        let mut record = GroupRecord::new(None);
        record.given(b"one", &mut log);
        record.given(b"two", &mut log);
        record.told(b"1\n22\n", &mut log);
        record.given(b"three", &mut log);
        record.told(b"333\n", &mut log);
        let mut given = Given(record.content(&mut log).unwrap());
        let lines: Vec<Vec<u8>> = std::iter::from_fn(|| given.next()).collect();
        assert_eq!(lines, [b"one".to_vec(), b"two".to_vec(), b"three".to_vec()]);
        let mut told = Told::new(record.content(&mut log).unwrap());
        assert_eq!((told.take(3), told.line_at(b"2")), (b"1\n2".to_vec(), b"22\n".to_vec()));
        assert_eq!((told.take(100), told.take(1)), (b"333\n".to_vec(), Vec::new()));
        record.begin_anew();
        assert_eq!(Given(record.content(&mut log).unwrap()).next(), None);
    }

    /// A command that was not answered is removed with what it has called; those given after it stay.
    #[test]
    fn what_was_not_answered_is_removed() {
        let mut log = Log::new(crate::log::Style { is_quiet: true, ..Default::default() });
        let mut record = GroupRecord::new(None);
        record.given(b"one", &mut log);
        record.told(b"{\"call\":1}\n{\"reply\":1}\n", &mut log);
        record.given(b"long", &mut log);
        record.given(b"two", &mut log);
        record.told(b"{\"call\":2}\n", &mut log);
        record.forget(1, &mut log);
        assert_eq!(record.fresh, b"> one\n{\"call\":1}\n{\"reply\":1}\n> two\n");
        assert_eq!((record.count, record.size), (2, record.fresh.len() as u64));
    }
}

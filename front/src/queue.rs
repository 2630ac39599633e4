//! Bytes and lines that wait: parts of lines that were read, lines that wait for their turn, and bytes that are still unread.

use std::io::{self, ErrorKind, Write};

use memchr::{memchr, memchr_iter};

use crate::lines::{is_blank, LINE_MOST, TOO_LONG};

/// An empty buffer of at most this many bytes keeps its memory.
const KEPT: usize = 1_024;

/// Cuts bytes into lines. Of a line that is too long it keeps the longest allowed length and one further byte.
#[derive(Default)]
pub struct Cutter {
    begun: Vec<u8>,
}

impl Cutter {
    /// Calls `hear` with the lines that these bytes complete, except blank ones, which ask for nothing. The bytes are at most
    /// as many as a line may have.
    pub fn feed(&mut self, data: &[u8], mut hear: impl FnMut(&[u8])) {
        let mut start = 0;
        for end in memchr_iter(b'\n', data) {
            if self.begun.is_empty() {
                hear_line(&data[start..end], &mut hear);
            } else {
                self.grow(&data[start..end]);
                self.finish(&mut hear);
            }
            start = end + 1;
        }
        self.grow(&data[start..]);
    }

    /// Calls `hear` with the part of a line that was read, since no more comes.
    pub fn finish(&mut self, mut hear: impl FnMut(&[u8])) {
        let line = if self.begun.len() > LINE_MOST { TOO_LONG } else { &self.begun };
        hear_line(line, &mut hear);
        clear(&mut self.begun);
    }

    /// The bytes of a line that has begun and not ended.
    pub fn half_line(&self) -> usize {
        self.begun.len()
    }

    pub fn capacity(&self) -> usize {
        self.begun.capacity()
    }

    /// Adds to a line, up to one byte more than a line may have.
    fn grow(&mut self, part: &[u8]) {
        let room = LINE_MOST + 1 - self.begun.len();
        self.begun.extend_from_slice(&part[..part.len().min(room)]);
    }
}

fn hear_line(line: &[u8], hear: &mut impl FnMut(&[u8])) {
    if !is_blank(line) {
        hear(line);
    }
}

fn clear(bytes: &mut Vec<u8>) {
    bytes.clear();
    bytes.shrink_to(KEPT);
}

/// Lines that wait, in their order.
#[derive(Default)]
pub struct Queue {
    bytes: Vec<u8>,
    start: usize,
    count: usize,
}

impl Queue {
    pub fn is_empty(&self) -> bool {
        self.start == self.bytes.len()
    }

    pub fn push(&mut self, line: &[u8]) {
        self.bytes.extend_from_slice(line);
        self.bytes.push(b'\n');
        self.count += 1;
    }

    /// The first line, without its end.
    pub fn first(&self) -> Option<&[u8]> {
        let rest = &self.bytes[self.start..];
        memchr(b'\n', rest).map(|end| &rest[..end])
    }

    /// Drops the first line.
    pub fn pop(&mut self) {
        let length = self.first().map_or(0, |line| line.len() + 1);
        self.start += length;
        self.count = self.count.saturating_sub(1);
        if self.is_empty() {
            self.clear();
        }
    }

    pub fn capacity(&self) -> usize {
        self.bytes.capacity()
    }

    /// Calls `hear` with each of the lines.
    pub fn each(&self, mut hear: impl FnMut(&[u8])) {
        self.all(|line| {
            hear(line);
            true
        });
    }

    /// Calls `hear` with the lines until it returns false; returns whether it never did.
    pub fn all(&self, hear: impl FnMut(&[u8]) -> bool) -> bool {
        let lines = &self.bytes[self.start..];
        lines.strip_suffix(b"\n").map_or(true, |lines| lines.split(|byte| *byte == b'\n').all(hear))
    }

    /// The number of lines that wait.
    pub fn count(&self) -> usize {
        self.count
    }

    pub fn clear(&mut self) {
        clear(&mut self.bytes);
        self.start = 0;
        self.count = 0;
    }
}

/// Bytes that the other side of a pipe or a connection has not taken yet. Taking some of them moves the rest only if
/// more was taken than is left.
#[derive(Default)]
pub struct Pending {
    bytes: Vec<u8>,
    start: usize,
}

impl Pending {
    pub fn len(&self) -> usize {
        self.bytes.len() - self.start
    }

    pub fn is_empty(&self) -> bool {
        self.len() == 0
    }

    pub fn push(&mut self, bytes: &[u8]) {
        self.bytes.extend_from_slice(bytes);
    }

    pub fn capacity(&self) -> usize {
        self.bytes.capacity()
    }

    /// The buffer, to which more may be appended.
    pub fn end(&mut self) -> &mut Vec<u8> {
        &mut self.bytes
    }

    /// The last bytes of it.
    pub fn last(&self, count: usize) -> &[u8] {
        &self.bytes[self.bytes.len() - count..]
    }

    pub fn clear(&mut self) {
        clear(&mut self.bytes);
        self.start = 0;
    }

    /// Drops all but the rest of a line that was taken in part.
    pub fn keep_line(&mut self) {
        let is_begun = self.start > 0 && self.bytes[self.start - 1] != b'\n';
        let end = memchr(b'\n', &self.bytes[self.start..]).filter(|_| is_begun).map_or(0, |end| end + 1);
        let rest = self.bytes[self.start..self.start + end].to_vec();
        self.clear();
        self.push(&rest);
    }

    /// Writes as much as is taken at once; returns whether that was all.
    pub fn give(&mut self, to: &mut impl Write) -> io::Result<bool> {
        while self.start < self.bytes.len() {
            match to.write(&self.bytes[self.start..]) {
                Ok(0) => return Err(ErrorKind::WriteZero.into()),
                Ok(count) => self.start += count,
                Err(error) if error.kind() == ErrorKind::WouldBlock => {
                    self.compact();
                    return Ok(false);
                }
                Err(error) if error.kind() == ErrorKind::Interrupted => {}
                Err(error) => return Err(error),
            }
        }
        self.clear();
        Ok(true)
    }

    /// Drops the bytes that were taken, except the last one, which says whether a line was taken in part.
    fn compact(&mut self) {
        if self.start > self.len() {
            self.bytes.drain(..self.start - 1);
            self.start = 1;
        }
    }
}

#[cfg(test)]
mod tests {
    use super::*;

    fn cut(pieces: &[&[u8]]) -> Vec<Vec<u8>> {
        let (mut cutter, mut lines) = (Cutter::default(), Vec::new());
        for piece in pieces {
            cutter.feed(piece, |line| lines.push(line.to_vec()));
        }
        cutter.finish(|line| lines.push(line.to_vec()));
        lines
    }

    #[test]
    fn lines_are_the_same_however_they_come() {
        let whole = b"one\n \t\r\n\ntwo\nthree";
        for size in 1..=whole.len() {
            let pieces: Vec<&[u8]> = whole.chunks(size).collect();
            assert_eq!(cut(&pieces), [b"one".to_vec(), b"two".to_vec(), b"three".to_vec()], "pieces of {size}");
        }
    }

    #[test]
    fn a_line_that_is_too_long_is_not_kept() {
        let (longest, longer) = (vec![b'x'; LINE_MOST], vec![b'x'; 4 * LINE_MOST]);
        let pieces: Vec<&[u8]> = longest.chunks(1_000).chain([b"\n".as_slice()]).collect();
        assert_eq!(cut(&pieces), std::slice::from_ref(&longest));
        let pieces: Vec<&[u8]> = longer.chunks(1_000).chain([b"\nnext".as_slice()]).collect();
        assert_eq!(cut(&pieces), [TOO_LONG.to_vec(), b"next".to_vec()]);
        let blank = vec![b' '; LINE_MOST + 1];
        assert_eq!(cut(&[&blank[..LINE_MOST], &blank[LINE_MOST..]]), [TOO_LONG.to_vec()]);
    }

    #[test]
    fn a_queue_hands_on_its_lines_in_order() {
        let mut queue = Queue::default();
        for line in ["a", "", "bc"] {
            queue.push(line.as_bytes());
        }
        assert_eq!(queue.count(), 3);
        for line in ["a", "", "bc"] {
            assert_eq!(queue.first(), Some(line.as_bytes()));
            queue.pop();
        }
        assert!(queue.is_empty() && queue.first().is_none());
    }

    /// Takes a few bytes at a time, and sometimes none.
    struct Slow(Vec<u8>, usize);

    impl Write for Slow {
        fn write(&mut self, bytes: &[u8]) -> io::Result<usize> {
            self.1 += 1;
            let count = bytes.len().min(self.1 * 7 % 50);
            if count == 0 || self.1 % 3 == 0 {
                return Err(ErrorKind::WouldBlock.into());
            }
            self.0.extend_from_slice(&bytes[..count]);
            Ok(count)
        }

        fn flush(&mut self) -> io::Result<()> {
            Ok(())
        }
    }

    #[test]
    fn all_that_is_pending_comes_in_order() {
        let (mut pending, mut slow, mut wanted) = (Pending::default(), Slow(Vec::new(), 0), Vec::new());
        for round in 0..400_u32 {
            let bytes = round.to_string().repeat(round as usize % 40);
            wanted.extend_from_slice(bytes.as_bytes());
            pending.push(bytes.as_bytes());
            pending.give(&mut slow).unwrap();
        }
        while !pending.give(&mut slow).unwrap() {}
        assert_eq!((slow.0, pending.len()), (wanted, 0));
    }
}

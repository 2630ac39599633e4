//! The front's messages on standard error, and the reasons why it ends.

use std::collections::HashMap;
use std::io;
use std::time::{Duration, Instant, SystemTime};

use nix::poll::{poll, PollFd, PollFlags};
use serde_json::{json, Value};

pub const NAME: &str = "metad-front";
const STANDARD_ERROR: i32 = 2;
/// The most lines of one kind a second, if nothing else is asked for and lines are JSON.
const RATE: u64 = 100;
const SECOND: Duration = Duration::from_secs(1);

/// The reason why the front, or one of its servers, ends, as a text for people.
#[derive(Debug, Clone, PartialEq, Eq)]
pub struct Ended(pub String);

/// Writes a message to standard error, if that is open.
pub fn say(words: &str) {
    write_all(&format!("{NAME}: {words}\n"));
}

/// Writes a text to standard error, if that is open.
pub fn write_all(text: &str) {
    let mut rest = text.as_bytes();
    while let Ok(count @ 1..) = nix::unistd::write(STANDARD_ERROR, rest) {
        rest = &rest[count..];
    }
}

/// Whether standard error would take a line at once.
fn is_taken() -> bool {
    let mut looked_at = [PollFd::new(STANDARD_ERROR, PollFlags::POLLOUT)];
    matches!(poll(&mut looked_at, 0), Ok(count) if count > 0)
}

/// How serious an event is.
#[derive(Clone, Copy, Debug, Default, PartialEq, Eq, PartialOrd, Ord)]
pub enum Level {
    /// Something is lost.
    Error,
    /// Something failed, and the front has made up for it, or an operator should look at it.
    Warn,
    #[default]
    Info,
    Debug,
}

/// The words for levels, in their order.
pub const LEVELS: [&str; 4] = ["error", "warn", "info", "debug"];

impl Level {
    /// The level of this name.
    pub fn named(word: &str) -> Option<Level> {
        let levels = [Level::Error, Level::Warn, Level::Info, Level::Debug];
        LEVELS.iter().position(|level| *level == word).map(|at| levels[at])
    }
}

/// The settings of a log.
#[derive(Clone, Copy, Debug, Default, PartialEq, Eq)]
pub struct Style {
    /// Nothing is logged of clients that come and go.
    pub is_quiet: bool,
    /// Lines are JSON.
    pub is_json: bool,
    /// Events of this level, and more serious ones, are logged.
    pub level: Level,
    /// The most lines of one kind a second, if there is a limit.
    pub rate: Option<u64>,
}

impl Style {
    /// The most lines of one kind a second.
    fn most(&self) -> u64 {
        self.rate.unwrap_or(if self.is_json { RATE } else { u64::MAX })
    }

    /// A line of the log, with its end.
    fn line(&self, level: Level, event: &str, fields: &Value, words: &str, dropped: u64) -> String {
        if !self.is_json {
            let more = if dropped > 0 { format!(" (lines left out before this one: {dropped})") } else { String::new() };
            return format!("{NAME}: {words}{more}\n");
        }
        let time = time_as_text(SystemTime::now());
        let mut line =
            json!({"time": time, "level": LEVELS[level as usize], "event": event, "fields": fields, "message": words});
        if dropped > 0 {
            line["dropped"] = dropped.into();
        }
        format!("{line}\n")
    }
}

/// How many lines of one kind there were in the present second.
struct Kind {
    since: Instant,
    count: u64,
    left_out: u64,
}

/// The log of a front that serves. Logging never blocks the front: a line that would not be taken at once is dropped,
/// and the next one that is taken says how many were. No line has anything that a client has written, except the names of
/// sessions and groups.
pub struct Log {
    style: Style,
    dropped: u64,
    kinds: HashMap<&'static str, Kind>,
    /// The number of lines that were logged, by level.
    pub logged: [u64; LEVELS.len()],
    /// The number of lines that were dropped, or left out because there were too many of their kind.
    pub missing: u64,
}

impl Log {
    pub fn new(style: Style) -> Log {
        Log { style, dropped: 0, kinds: HashMap::new(), logged: [0; LEVELS.len()], missing: 0 }
    }

    /// Logs that a client or guest has come, gone or the like, unless the front is quiet.
    pub fn note(&mut self, event: &'static str, fields: Value, words: &str) {
        if !self.style.is_quiet {
            self.say(Level::Info, event, fields, words);
        }
    }

    /// Logs an event: a level, the kind, what is known of it, and the same in words.
    pub fn say(&mut self, level: Level, event: &'static str, fields: Value, words: &str) {
        if level <= self.style.level && self.has_room(event) {
            self.write(level, event, &fields, words);
        }
    }

    /// Whether another line of this kind may be logged now. If not, it is counted.
    fn has_room(&mut self, event: &'static str) -> bool {
        let most = self.style.most();
        if most == u64::MAX {
            return true;
        }
        let now = Instant::now();
        self.tell_left_out(now);
        let kind = self.kinds.entry(event).or_insert(Kind { since: now, count: 0, left_out: 0 });
        if now >= kind.since + SECOND {
            (kind.since, kind.count) = (now, 0);
        }
        kind.count += 1;
        let has_room = kind.count <= most;
        kind.left_out += u64::from(!has_room);
        self.missing += u64::from(!has_room);
        has_room
    }

    /// Logs how many lines of a kind were left out, once their second is over; returns the time until the next one is.
    pub fn tick(&mut self) -> Option<Duration> {
        let now = Instant::now();
        self.tell_left_out(now);
        let due = self.kinds.values().filter(|kind| kind.left_out > 0).map(|kind| kind.since + SECOND);
        due.min().map(|due| due.saturating_duration_since(now))
    }

    fn tell_left_out(&mut self, now: Instant) {
        let is_over = |kind: &Kind| kind.left_out > 0 && now >= kind.since + SECOND;
        let over: Vec<&'static str> = self.kinds.iter().filter(|(_, kind)| is_over(kind)).map(|(name, _)| *name).collect();
        for name in over {
            let count = self.kinds.remove(name).map_or(0, |kind| kind.left_out);
            let words = format!("too many lines of the kind {name} in a second: {count} were left out");
            self.write(Level::Warn, "left_out", &json!({"event": name, "lines": count}), &words);
        }
    }

    fn write(&mut self, level: Level, event: &str, fields: &Value, words: &str) {
        if !is_taken() {
            self.dropped += 1;
            self.missing += 1;
            return;
        }
        self.logged[level as usize] += 1;
        write_all(&self.style.line(level, event, fields, words, std::mem::take(&mut self.dropped)));
    }
}

/// Writes why a run ends, in the form of its log.
pub fn say_end(style: &Style, words: &str) {
    write_all(&style.line(Level::Error, "ended", &json!({}), words, 0));
}

/// A time as RFC 3339 has it, in UTC with milliseconds.
fn time_as_text(time: SystemTime) -> String {
    let since = time.duration_since(SystemTime::UNIX_EPOCH).unwrap_or_default();
    let (seconds, milliseconds) = (since.as_secs(), since.subsec_millis());
    let (year, month, day) = date_of(seconds / 86_400);
    let (hour, minute, second) = (seconds / 3_600 % 24, seconds / 60 % 60, seconds % 60);
    format!("{year:04}-{month:02}-{day:02}T{hour:02}:{minute:02}:{second:02}.{milliseconds:03}Z")
}

/// The year, month and day of a number of days since 1970. Years begin in March here, so that leap days are last, and 400
/// years have 146,097 days.
fn date_of(days: u64) -> (u64, u64, u64) {
    let days = days + 719_468;
    let (era, day) = (days / 146_097, days % 146_097);
    let year = (day - day / 1_460 + day / 36_524 - day / 146_096) / 365;
    let day = day - (365 * year + year / 4 - year / 100);
    let month = (5 * day + 2) / 153;
    let date = day - (153 * month + 2) / 5 + 1;
    let (month, later) = if month < 10 { (month + 3, 0) } else { (month - 9, 1) };
    (era * 400 + year + later, month, date)
}

/// Why something failed, without the number of the error.
pub fn reason(error: &io::Error) -> String {
    let text = error.to_string();
    match text.rfind(" (os error ") {
        Some(at) => text[..at].to_string(),
        None => text,
    }
}

/// Bytes as a text in quotes, in ASCII.
pub fn bytes_as_text(bytes: &[u8]) -> String {
    let quote = quote_for(bytes);
    let mut text = format!("b{quote}");
    for &byte in bytes {
        match byte {
            b'\n' => text.push_str("\\n"),
            b'\r' => text.push_str("\\r"),
            b'\t' => text.push_str("\\t"),
            b'\\' => text.push_str("\\\\"),
            b' '..=b'~' if byte as char == quote => text.extend(['\\', quote]),
            b' '..=b'~' => text.push(byte as char),
            _ => text.push_str(&format!("\\x{byte:02x}")),
        }
    }
    text.push(quote);
    text
}

/// A word in quotes, as a mistake in the command line shows it.
pub fn quoted(word: &str) -> String {
    let quote = quote_for(word.as_bytes());
    let mut text = String::from(quote);
    for sign in word.chars() {
        match sign {
            '\n' => text.push_str("\\n"),
            '\r' => text.push_str("\\r"),
            '\t' => text.push_str("\\t"),
            '\\' => text.push_str("\\\\"),
            _ if sign == quote => text.extend(['\\', quote]),
            _ if sign.is_control() => text.push_str(&format!("\\x{:02x}", sign as u32)),
            _ => text.push(sign),
        }
    }
    text.push(quote);
    text
}

fn quote_for(bytes: &[u8]) -> char {
    if bytes.contains(&b'\'') && !bytes.contains(&b'"') {
        '"'
    } else {
        '\''
    }
}

#[cfg(test)]
mod tests {
    use super::*;

    /// The expected dates were computed by `date -u -d @SECONDS`.
    #[test]
    fn times_are_written_as_rfc_3339_has_them() {
        for (milliseconds, wanted) in [
            (0, "1970-01-01T00:00:00.000Z"),
            (951_782_399_999, "2000-02-28T23:59:59.999Z"),
            (951_782_400_000, "2000-02-29T00:00:00.000Z"),
            (1_709_251_199_007, "2024-02-29T23:59:59.007Z"),
            (1_796_019_175_045, "2026-11-30T06:12:55.045Z"),
            (4_107_542_399_000, "2100-02-28T23:59:59.000Z"),
            (4_107_542_400_000, "2100-03-01T00:00:00.000Z"),
        ] {
            assert_eq!(time_as_text(SystemTime::UNIX_EPOCH + Duration::from_millis(milliseconds)), wanted);
        }
    }

    #[test]
    fn lines_of_one_kind_are_limited_and_others_are_not() {
        let mut log = Log::new(Style { rate: Some(3), ..Style::default() });
        let taken: Vec<bool> = (0..5).map(|_| log.has_room("one")).collect();
        assert_eq!(taken, [true, true, true, false, false]);
        assert!(log.has_room("other"));
        assert_eq!(log.missing, 2);
        assert!(log.tick().map_or(false, |time| time <= SECOND));
        let mut text = Log::new(Style::default());
        assert!((0..10_000).all(|_| text.has_room("one")));
    }

    #[test]
    fn levels_are_in_order() {
        assert!(Level::Error < Level::Warn && Level::Warn < Level::Info && Level::Info < Level::Debug);
        assert_eq!(LEVELS.map(Level::named).map(|level| level.map_or(9, |level| level as usize)), [0, 1, 2, 3]);
        assert_eq!(Level::named("loud"), None);
    }
}

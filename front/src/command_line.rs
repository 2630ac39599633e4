//! Reads the words of the command line.

use std::ffi::{OsStr, OsString};
use std::net::{Ipv4Addr, SocketAddr};
use std::path::PathBuf;

use crate::groups::BETWEEN;
use crate::lines::{is_name, is_own_name};
use crate::log::{quoted, say, write_all, Level, Style, LEVELS};
use crate::network_options::NetworkOptions;
use crate::sockets::is_pipe;

/// The text that is written if the words ask for help.
pub const HELP: &str = include_str!("help.txt");
pub const USAGE: &str = "usage: metad-front [options] SOCKET PROGRAM [ARGS...]";
const ASKING: &str = "usage: metad-front --control SOCKET (--groups | --move GROUP WORKER)";
/// Stands for sockets that were passed to the front.
pub const PASSED: &str = "-";
const WORKERS_MOST: usize = 64;
/// The least and the most memory that a server may be limited to.
const MEMORY_LEAST: u64 = 1 << 20;
const MEMORY_MOST: u64 = 1 << 40;

/// The request that the words make.
#[derive(Debug)]
pub enum Words {
    Help,
    Serve(Box<Options>),
    Groups(PathBuf),
    Move(PathBuf, String, usize),
    /// The words are wrong: a line of usage, and the mistake.
    Wrong(&'static str, String),
}

/// The place where a front is asked for its health.
#[derive(Debug, PartialEq, Eq)]
pub enum Place {
    Path(PathBuf),
    Address(SocketAddr),
}

/// The settings of a front that serves.
#[derive(Debug, Default, PartialEq, Eq)]
pub struct Options {
    pub mode: Option<u32>,
    pub style: Style,
    pub record: Option<PathBuf>,
    pub share: Vec<String>,
    pub monitor: Option<PathBuf>,
    pub monitor_mode: Option<u32>,
    pub inspect: Option<u16>,
    pub inspect_ask: bool,
    pub inspect_write: bool,
    pub is_tied: bool,
    pub is_live: bool,
    pub is_resumed: bool,
    pub watchdog: Option<u64>,
    pub compact_at: Option<u64>,
    pub limits: Option<PathBuf>,
    pub server_memory: Option<u64>,
    pub health: Option<Place>,
    pub health_mode: Option<u32>,
    pub metrics: Option<Place>,
    pub metrics_mode: Option<u32>,
    pub workers: Option<usize>,
    pub by_name: Option<bool>,
    pub control: Option<PathBuf>,
    pub network: NetworkOptions,
    pub socket: PathBuf,
    pub program: OsString,
    pub args: Vec<OsString>,
}

/// Prints what is wrong with the words; returns the exit status of the run.
pub fn say_wrong(usage: &str, fault: &str) -> u8 {
    write_all(&format!("{usage}\n"));
    say(&format!("error: {fault}"));
    2
}

/// Reads the words of a command line.
pub fn read(words: &[OsString]) -> Words {
    if asks(words) {
        return asked(words).unwrap_or_else(|fault| Words::Wrong(ASKING, fault));
    }
    match served(words) {
        Ok(Some(options)) => Words::Serve(Box::new(options)),
        Ok(None) => Words::Help,
        Err(fault) => Words::Wrong(USAGE, fault),
    }
}

/// Whether the words ask a running front for something: whether such an option comes before the first other word.
fn asks(words: &[OsString]) -> bool {
    let mut left = words.iter().map(|word| word.to_string_lossy());
    while let Some(word) = left.next() {
        match word.as_ref() {
            "--control" => drop(left.next()),
            "--move" | "--groups" => return true,
            _ if word.starts_with("--control=") => {}
            _ => return false,
        }
    }
    false
}

/// Reads the options at the beginning of the words, one after the other.
struct Reader<'a> {
    words: std::slice::Iter<'a, OsString>,
}

impl<'a> Reader<'a> {
    /// The value of an option: the text after its `=`, or the next word if that is no option.
    fn value(&mut self, name: &str, own: Option<String>) -> Result<String, String> {
        if let Some(own) = own {
            return Ok(own);
        }
        let next = self.words.clone().next().map(|word| word.to_string_lossy().into_owned());
        match next.filter(|word| !is_option(word)) {
            Some(word) => {
                self.words.next();
                Ok(word)
            }
            None => Err(format!("argument {name}: expected one argument")),
        }
    }
}

/// Whether a word is read as an option: it begins with `-`, is no negative number, and contains no space.
fn is_option(word: &str) -> bool {
    let is_number = word.len() > 1
        && word[1..].parse::<f64>().is_ok()
        && word[1..].starts_with(|it: char| it.is_ascii_digit() || it == '.');
    word.len() > 1 && word.starts_with('-') && !is_number && !word.contains(' ')
}

/// Reads the settings of a front; returns nothing if the words ask for help.
fn served(words: &[OsString]) -> Result<Option<Options>, String> {
    let mut options = Options::default();
    let (mut places, mut unknown) = (Vec::new(), Vec::new());
    let mut reader = Reader { words: words.iter() };
    while let Some(word) = reader.words.next() {
        let text = word.to_string_lossy();
        if !is_option(&text) {
            places.push(word.clone());
        } else if text == "-h" || text == "--help" {
            return Ok(None);
        } else if !read_option(&mut options, &mut reader, &text)? {
            unknown.push(text.into_owned());
        }
        if places.len() == 2 {
            options.args = reader.words.as_slice().to_vec();
            break;
        }
    }
    let mut places = places.into_iter();
    options.socket = PathBuf::from(places.next().ok_or("the following arguments are required: SOCKET, PROGRAM")?);
    options.program = places.next().ok_or("the following arguments are required: PROGRAM")?;
    path("SOCKET", options.socket.as_os_str())?;
    path("PROGRAM", &options.program)?;
    if !unknown.is_empty() {
        return Err(format!("unrecognized arguments: {}", unknown.join(" ")));
    }
    check(&options)?;
    Ok(Some(options))
}

/// Reads an option; returns whether there is one of this name.
fn read_option(options: &mut Options, reader: &mut Reader, text: &str) -> Result<bool, String> {
    let (name, own) = match text.split_once('=') {
        Some((name, value)) => (name, Some(value.to_string())),
        None => (text, None),
    };
    let flag = match name {
        "--quiet" => Some(&mut options.style.is_quiet),
        "--inspect-ask" => Some(&mut options.inspect_ask),
        "--inspect-write" => Some(&mut options.inspect_write),
        "--tied" => Some(&mut options.is_tied),
        "--live" => Some(&mut options.is_live),
        "--resume" => Some(&mut options.is_resumed),
        _ => None,
    };
    if let Some(flag) = flag {
        *flag = true;
        return own.map_or(Ok(true), |value| Err(format!("argument {name}: ignored explicit argument {}", quoted(&value))));
    }
    match name {
        "--mode" => options.mode = Some(mode(name, &reader.value(name, own)?)?),
        "--record" => options.record = Some(path(name, OsStr::new(&reader.value(name, own)?))?),
        "--share" => options.share.push(shared(name, reader.value(name, own)?)?),
        "--monitor" => options.monitor = Some(path(name, OsStr::new(&reader.value(name, own)?))?),
        "--monitor-mode" => options.monitor_mode = Some(mode(name, &reader.value(name, own)?)?),
        "--inspect" => options.inspect = Some(port(name, &reader.value(name, own)?)?),
        "--workers" => options.workers = Some(workers(name, &reader.value(name, own)?)?),
        "--group-from" => options.by_name = Some(by_name(name, &reader.value(name, own)?)?),
        "--health" => options.health = Some(place(name, &reader.value(name, own)?)?),
        "--health-mode" => options.health_mode = Some(mode(name, &reader.value(name, own)?)?),
        "--metrics" => options.metrics = Some(place(name, &reader.value(name, own)?)?),
        "--metrics-mode" => options.metrics_mode = Some(mode(name, &reader.value(name, own)?)?),
        "--log-format" => options.style.is_json = is_json(name, &reader.value(name, own)?)?,
        "--log-level" => options.style.level = level(name, &reader.value(name, own)?)?,
        "--log-rate" => options.style.rate = Some(rate(name, &reader.value(name, own)?)?),
        "--compact-at" => options.compact_at = Some(bytes(name, &reader.value(name, own)?)?),
        "--watchdog" => options.watchdog = Some(seconds(name, &reader.value(name, own)?)?),
        "--control" => options.control = Some(path(name, OsStr::new(&reader.value(name, own)?))?),
        "--limits" => options.limits = Some(path(name, OsStr::new(&reader.value(name, own)?))?),
        "--server-memory" => options.server_memory = Some(memory(name, &reader.value(name, own)?)?),
        _ if NetworkOptions::has(name) => options.network.read(name, &reader.value(name, own)?)?,
        _ => return Ok(false),
    }
    Ok(true)
}

/// Checks which options may be combined.
fn check(options: &Options) -> Result<(), String> {
    let wrong = |fault: &str| Err(fault.to_string());
    if options.socket == OsStr::new(PASSED) && options.mode.is_some() {
        return wrong("--mode is for a socket that the front binds");
    }
    if options.monitor_mode.is_some() && options.monitor.is_none() {
        return wrong("--monitor-mode needs --monitor");
    }
    if options.health_mode.is_some() && !matches!(options.health, Some(Place::Path(_))) {
        return wrong("--health-mode needs --health with a path");
    }
    if options.metrics_mode.is_some() && !matches!(options.metrics, Some(Place::Path(_))) {
        return wrong("--metrics-mode needs --metrics with a path");
    }
    if options.inspect.is_none() && (options.inspect_ask || options.inspect_write) {
        return wrong("--inspect-ask and --inspect-write need --inspect");
    }
    if options.is_resumed && (options.record.is_none() || options.workers.is_none()) {
        return wrong("--resume needs --record and --workers");
    }
    if options.compact_at.is_some() && (options.record.is_none() || options.workers.is_none()) {
        return wrong("--compact-at needs --record and --workers");
    }
    if options.is_tied && !is_pipe(0) {
        return wrong("--tied needs a pipe, a socket or a terminal as standard input");
    }
    options.network.check()?;
    check_workers(options)
}

/// Checks the options for several servers.
fn check_workers(options: &Options) -> Result<(), String> {
    let wrong = |fault: &str| Err(fault.to_string());
    let by_name = options.by_name == Some(true);
    let workers = match options.workers {
        Some(workers) => workers,
        None if options.by_name.is_some() || options.control.is_some() => {
            return wrong("--group-from and --control need --workers")
        }
        None => return Ok(()),
    };
    if options.inspect.is_some() && (workers > 1 || by_name) {
        return wrong(
            "--inspect shows the sessions of one server, which the front names: not with more workers, or by names",
        );
    }
    if options.is_live && by_name {
        return wrong("--live is for clients that do not name sessions");
    }
    if !options.share.is_empty() && by_name {
        return wrong("--share is for clients that do not name sessions: with --group-from name each session may be shared");
    }
    let is_taken = |name: &&String| is_own_name(name.rsplit(BETWEEN).next().unwrap_or_default());
    match options.share.iter().find(is_taken) {
        Some(name) => Err(format!("{} is one of the names that clients of a group are given", quoted(name))),
        None => Ok(()),
    }
}

// ---- values ----

pub fn wrong_value<T>(name: &str, word: &str, what: &str) -> Result<T, String> {
    Err(format!("argument {name}: {} is no {what}", quoted(word)))
}

/// Reads permissions in octal digits.
fn mode(name: &str, word: &str) -> Result<u32, String> {
    let digits = if word.len() == 4 { word.strip_prefix('0').unwrap_or(word) } else { word };
    let is_mode = (1..=3).contains(&digits.len()) && digits.bytes().all(|byte| (b'0'..=b'7').contains(&byte));
    match u32::from_str_radix(digits, 8) {
        Ok(mode) if is_mode => Ok(mode),
        _ => wrong_value(name, word, "mode in octal digits, as 660"),
    }
}

/// Reads a path, which must not be empty.
pub fn path(name: &str, word: &OsStr) -> Result<PathBuf, String> {
    if word.is_empty() {
        return Err(format!("argument {name}: a path is not empty"));
    }
    Ok(PathBuf::from(word))
}

/// Reads a port of this machine, the address of another one such as `0.0.0.0:8080`, or a path.
fn place(name: &str, word: &str) -> Result<Place, String> {
    if !word.is_empty() && word.bytes().all(|byte| byte.is_ascii_digit()) {
        return Ok(Place::Address((Ipv4Addr::LOCALHOST, port(name, word)?).into()));
    }
    match word.parse() {
        Ok(address) => Ok(Place::Address(address)),
        Err(_) => Ok(Place::Path(path(name, OsStr::new(word))?)),
    }
}

/// Reads the name of a session that clients may share, which must not be one that the front gives to a client.
fn shared(name: &str, word: String) -> Result<String, String> {
    if !is_name(&word) || is_own_name(&word) {
        return wrong_value(name, &word, "name for a session, or one of those that clients are given");
    }
    Ok(word)
}

fn port(name: &str, word: &str) -> Result<u16, String> {
    let is_number = (1..=5).contains(&word.len()) && word.bytes().all(|byte| byte.is_ascii_digit());
    match word.parse() {
        Ok(port) if is_number => Ok(port),
        _ => wrong_value(name, word, "number of a port, from 0 to 65535"),
    }
}

/// Reads the number of servers.
fn workers(name: &str, word: &str) -> Result<usize, String> {
    match count_in(word) {
        Some(count) if count <= WORKERS_MOST => Ok(count),
        _ => wrong_value(name, word, "number of servers, from 1 to 64"),
    }
}

/// Reads a size in bytes, of at least a few lines.
fn bytes(name: &str, word: &str) -> Result<u64, String> {
    match word.parse() {
        Ok(size @ 4_096..=1_000_000_000_000) if word.bytes().all(|byte| byte.is_ascii_digit()) => Ok(size),
        _ => wrong_value(name, word, "number of bytes, at least 4096"),
    }
}

/// Reads the number of seconds in which a server has to write something.
fn seconds(name: &str, word: &str) -> Result<u64, String> {
    match word.parse() {
        Ok(seconds @ 1..=86_400) if word.bytes().all(|byte| byte.is_ascii_digit()) => Ok(seconds),
        _ => wrong_value(name, word, "number of seconds, from 1 to 86400"),
    }
}

/// Reads a number of bytes.
fn memory(name: &str, word: &str) -> Result<u64, String> {
    match word.parse() {
        Ok(bytes @ MEMORY_LEAST..=MEMORY_MOST) if word.bytes().all(|byte| byte.is_ascii_digit()) => Ok(bytes),
        _ => wrong_value(name, word, "number of bytes, from 1048576 to 1099511627776"),
    }
}

fn is_json(name: &str, word: &str) -> Result<bool, String> {
    match word {
        "text" => Ok(false),
        "json" => Ok(true),
        _ => Err(format!("argument {name}: invalid choice: {} (choose from 'text', 'json')", quoted(word))),
    }
}

fn level(name: &str, word: &str) -> Result<Level, String> {
    let levels: Vec<String> = LEVELS.iter().map(|level| quoted(level)).collect();
    let fault = || format!("argument {name}: invalid choice: {} (choose from {})", quoted(word), levels.join(", "));
    Level::named(word).ok_or_else(fault)
}

/// Reads the number of lines of one kind that are logged in a second; 0 is no limit.
fn rate(name: &str, word: &str) -> Result<u64, String> {
    match word.parse() {
        Ok(0) if word == "0" => Ok(u64::MAX),
        Ok(lines @ 1..=1_000_000) if word.bytes().all(|byte| byte.is_ascii_digit()) => Ok(lines),
        _ => wrong_value(name, word, "number of lines a second, from 0 to 1000000"),
    }
}

/// Reads a number of one or two digits that does not begin with 0.
fn count_in(word: &str) -> Option<usize> {
    let is_number =
        (1..=2).contains(&word.len()) && word.bytes().all(|byte| byte.is_ascii_digit()) && !word.starts_with('0');
    is_number.then(|| word.parse().ok()).flatten()
}

fn by_name(name: &str, word: &str) -> Result<bool, String> {
    match word {
        "hello" => Ok(false),
        "name" => Ok(true),
        _ => Err(format!("argument {name}: invalid choice: {} (choose from 'hello', 'name')", quoted(word))),
    }
}

// ---- asking ----

/// Reads a request to a running front.
fn asked(words: &[OsString]) -> Result<Words, String> {
    let (mut control, mut moved, mut groups) = (None, None, false);
    let mut reader = Reader { words: words.iter() };
    while let Some(word) = reader.words.next() {
        let text = word.to_string_lossy();
        match text.split_once('=').unwrap_or((&text, "")) {
            ("--control", _) => {
                let own = text.split_once('=').map(|(_, value)| value.to_string());
                control = Some(path("--control", OsStr::new(&reader.value("--control", own)?))?);
            }
            ("--groups", "") => groups = true,
            ("--move", "") => {
                let two = |_: String| "argument --move: expected 2 arguments".to_string();
                moved = Some((reader.value("--move", None).map_err(two)?, reader.value("--move", None).map_err(two)?));
            }
            _ => return Err(format!("unrecognized arguments: {text}")),
        }
    }
    let control = control.ok_or("the following arguments are required: --control")?;
    match moved {
        Some((group, number)) if !groups => match count_in(&number) {
            Some(worker) => Ok(Words::Move(control, group, worker)),
            None => Err(format!("{} is no number of a worker", quoted(&number))),
        },
        None if groups => Ok(Words::Groups(control)),
        _ => Err("either --move or --groups".to_string()),
    }
}

/// Words that messages show unchanged.
#[cfg(test)]
mod tests {
    use super::*;

    fn read_all(words: &[&str]) -> Words {
        read(&words.iter().map(OsString::from).collect::<Vec<_>>())
    }

    fn fault(words: &[&str]) -> String {
        match read_all(words) {
            Words::Wrong(_, fault) => fault,
            other => panic!("{other:?}"),
        }
    }

    #[test]
    fn options_stand_before_the_program_and_all_else_is_for_it() {
        let words = ["--quiet", "--mode=0660", "--share", "team", "s", "--workers", "2", "p", "--quiet", "--", "-h", ""];
        match read_all(&words) {
            Words::Serve(options) => {
                assert!(options.style.is_quiet && options.mode == Some(0o660) && options.workers == Some(2));
                assert_eq!((options.socket.to_str(), options.program.to_str()), (Some("s"), Some("p")));
                assert_eq!(options.args, ["--quiet", "--", "-h", ""]);
            }
            other => panic!("{other:?}"),
        }
    }

    #[test]
    fn what_is_wrong_is_said() {
        assert_eq!(fault(&[]), "the following arguments are required: SOCKET, PROGRAM");
        assert_eq!(fault(&["s"]), "the following arguments are required: PROGRAM");
        assert_eq!(fault(&["--slow", "s", "p"]), "unrecognized arguments: --slow");
        assert_eq!(fault(&["--mode", "-1", "s", "p"]), "argument --mode: '-1' is no mode in octal digits, as 660");
        assert_eq!(fault(&["--monitor", "--quiet", "s", "p"]), "argument --monitor: expected one argument");
        assert_eq!(fault(&["--share", "c7", "s", "p"]).len(), 87);
        assert_eq!(fault(&["--groups"]), "the following arguments are required: --control");
    }

    #[test]
    fn help_is_asked_for_before_what_is_wrong_after_it() {
        assert!(matches!(read_all(&["--quiet", "-h", "--slow"]), Words::Help));
        assert!(matches!(read_all(&["--control", "c", "--move", "desk", "2"]), Words::Move(_, _, 2)));
        assert!(matches!(read_all(&["--groups", "--control=c"]), Words::Groups(_)));
    }
}

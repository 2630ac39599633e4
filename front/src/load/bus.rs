//! Round trips over a D-Bus daemon: a caller, the daemon, a service that answers, and back.
//!
//! It speaks as much of the [D-Bus protocol](https://dbus.freedesktop.org/doc/dbus-specification.html) as this takes:
//! messages of little-endian numbers whose bodies are empty or one text.

use std::convert::TryInto;
use std::fs;
use std::io::{self, BufReader, Read, Write};
use std::os::unix::fs::MetadataExt;
use std::os::unix::net::UnixStream;
use std::thread;
use std::time::Instant;

use crate::seconds_in;

const CALL: u8 = 1;
const ANSWER: u8 = 2;
const PATH: u8 = 1;
const INTERFACE: u8 = 2;
const MEMBER: u8 = 3;
const ANSWERED: u8 = 5;
const DESTINATION: u8 = 6;
const SENDER: u8 = 7;
/// The bytes before the fields of a header: the byte order, kind, flags, version, and three numbers.
const FIXED: usize = 16;

/// A connection to the daemon.
struct Bus {
    link: UnixStream,
    reader: BufReader<UnixStream>,
    serial: u32,
}

/// A message: its number, sender and body.
struct Message {
    kind: u8,
    serial: u32,
    sender: String,
    body: Vec<u8>,
}

impl Bus {
    /// Connects as the user of this process, and receives a name.
    fn connect(path: &str) -> io::Result<(Bus, String)> {
        let link = UnixStream::connect(path)?;
        let mut bus = Bus { reader: BufReader::new(link.try_clone()?), link, serial: 0 };
        let user = fs::metadata("/proc/self")?.uid().to_string();
        let user: String = user.bytes().map(|byte| format!("{byte:02x}")).collect();
        bus.link.write_all(format!("\0AUTH EXTERNAL {user}\r\n").as_bytes())?;
        let mut answer = Vec::new();
        io::BufRead::read_until(&mut bus.reader, b'\n', &mut answer)?;
        if !answer.starts_with(b"OK ") {
            return Err(io::Error::new(io::ErrorKind::PermissionDenied, "the daemon does not take the user"));
        }
        bus.link.write_all(b"BEGIN\r\n")?;
        let daemon = "org.freedesktop.DBus";
        bus.call(daemon, "/org/freedesktop/DBus", daemon, "Hello")?;
        let answer = bus.read_kind(ANSWER)?;
        let name = answer.body.get(4..answer.body.len().saturating_sub(1)).unwrap_or_default();
        Ok((bus, String::from_utf8_lossy(name).into_owned()))
    }

    fn send(&mut self, kind: u8, fields: &[u8]) -> io::Result<()> {
        self.serial += 1;
        let mut message = vec![b'l', kind, 0, 1, 0, 0, 0, 0];
        message.extend(self.serial.to_le_bytes());
        message.extend((fields.len() as u32).to_le_bytes());
        message.extend(fields);
        pad(&mut message);
        self.link.write_all(&message)
    }

    fn call(&mut self, to: &str, path: &str, interface: &str, member: &str) -> io::Result<()> {
        let mut fields = Vec::new();
        put_text(&mut fields, PATH, b'o', path);
        put_text(&mut fields, INTERFACE, b's', interface);
        put_text(&mut fields, MEMBER, b's', member);
        put_text(&mut fields, DESTINATION, b's', to);
        self.send(CALL, &fields)
    }

    fn answer(&mut self, asked: &Message) -> io::Result<()> {
        let mut fields = vec![ANSWERED, 1, b'u', 0];
        fields.extend(asked.serial.to_le_bytes());
        put_text(&mut fields, DESTINATION, b's', &asked.sender);
        self.send(ANSWER, &fields)
    }

    fn read(&mut self) -> io::Result<Message> {
        let mut head = [0; FIXED];
        self.reader.read_exact(&mut head)?;
        let number = |at: usize| u32::from_le_bytes(head[at..at + 4].try_into().unwrap_or_default());
        let size = number(12) as usize;
        let mut fields = vec![0; (size + 7) / 8 * 8];
        self.reader.read_exact(&mut fields)?;
        let mut body = vec![0; number(4) as usize];
        self.reader.read_exact(&mut body)?;
        let sender = text_of(&fields[..size], SENDER).unwrap_or_default();
        Ok(Message { kind: head[1], serial: number(8), sender, body })
    }

    /// The next message of a kind. Others are ignored, such as the signal that a name was given.
    fn read_kind(&mut self, kind: u8) -> io::Result<Message> {
        loop {
            let message = self.read()?;
            if message.kind == kind {
                return Ok(message);
            }
        }
    }
}

/// Pads to a multiple of eight bytes.
fn pad(bytes: &mut Vec<u8>) {
    bytes.resize((bytes.len() + 7) / 8 * 8, 0);
}

fn put_text(fields: &mut Vec<u8>, code: u8, kind: u8, text: &str) {
    pad(fields);
    fields.extend([code, 1, kind, 0]);
    fields.extend((text.len() as u32).to_le_bytes());
    fields.extend(text.bytes());
    fields.push(0);
}

/// The text of a field of a header. Fields hold a text, a number or a signature.
fn text_of(fields: &[u8], wanted: u8) -> Option<String> {
    let mut at = 0;
    while at < fields.len() {
        let (code, kind) = (fields[at], *fields.get(at + 2)?);
        if kind == b'g' {
            at += 6 + usize::from(*fields.get(at + 4)?);
        } else {
            let number = u32::from_le_bytes(fields.get(at + 4..at + 8)?.try_into().ok()?) as usize;
            if code == wanted {
                return String::from_utf8(fields.get(at + 8..at + 8 + number)?.to_vec()).ok();
            }
            at += 8 + if kind == b'u' { 0 } else { number + 1 };
        }
        at = (at + 7) / 8 * 8;
    }
    None
}

/// Measures the round trips a second of one caller to a service in a thread of its own.
pub fn round_trips(path: &str, seconds: &str) -> io::Result<()> {
    let ((mut service, name), (mut caller, _)) = (Bus::connect(path)?, Bus::connect(path)?);
    thread::spawn(move || loop {
        let done = service.read_kind(CALL).and_then(|asked| service.answer(&asked));
        if done.is_err() {
            return;
        }
    });
    let (mut count, begun, time) = (0_u64, Instant::now(), seconds_in(seconds));
    while begun.elapsed() < time {
        caller.call(&name, "/it", "metad.Load", "Ask")?;
        caller.read_kind(ANSWER)?;
        count += 1;
    }
    println!("{:.0}", count as f64 / begun.elapsed().as_secs_f64());
    Ok(())
}

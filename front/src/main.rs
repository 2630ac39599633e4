//! Gives many clients of a Unix-domain socket, or over the network, a session each of one `metad`, or of several.
//!
//! `lines` reads the lines of both sides, and `queue` keeps bytes and lines that wait. `people` has the state of
//! connections, sessions and speakers, and `turns` decides whose command a server is given next. `server` is a process, and
//! `worker` has the commands under way with it and who receives the answers. `front` is the loop, with `doors`, `clients` and
//! `guests`. Where there are several servers, `groups` says which sessions belong together, `ring` where each group is, `pool`
//! what is done if a server ends, `records` what it was given and wrote, `replaying` brings another one to its state, and
//! `moving` lets a group change its server. `naming` is for clients that name sessions by themselves, `control` is where
//! operators ask a running front for groups, `asking` is a run that asks, `inspector` is the process that shows the front as
//! a page, and `asked` checks what that process asks for. `live` sends clients their events as they come. `rotating`
//! opens records again by their names, and `eagerness` decides whether the loop polls before it sleeps. `network` lets
//! clients in over TCP and TLS, `tls` has the certificates, `subject` reads the name in one, and `wire` is a connection of
//! any form, in bytes.
//! `metrics` counts, `scraping` shows the counts, and `compacting` shortens records. `limits` reads the file of quotas and rights, `buckets` are rates,
//! `quotas` what clients have of theirs, `admission` counts clients, `pacing` commands and `holding` memory and time, `joining`
//! their joins, `rights` the rules and `entry` who comes in by them, and `deadlines` ends commands that take too long.

#![forbid(unsafe_code)]

mod admission;
mod asked;
mod asking;

mod buckets;
mod clients;
mod command_line;
mod commands;
mod compacting;
mod control;
mod deadlines;
mod doors;
mod eagerness;
mod entry;
mod first_lines;
mod front;
mod groups;
mod guests;
mod health;
mod holding;
mod inspector;
mod joining;
mod limits;
mod lines;
mod live;
mod log;
mod metrics;
mod moving;
mod naming;
mod network;
mod network_options;
mod notifying;
mod pacing;
mod people;
mod pool;
mod program;
mod queue;
mod quotas;
mod records;
mod replaying;
mod resuming;
mod rights;
mod ring;
mod rotating;
mod scraping;
mod server;
mod sockets;
mod spawn;
mod subject;
mod tls;
mod tokens;
mod turns;
mod user_keys;
mod wire;
mod worker;

use std::env;
use std::ffi::OsString;
use std::io::{self, ErrorKind, Write};
use std::process::ExitCode;

use command_line::{read, say_wrong, Options, Words, HELP};
use front::Stop;
use log::{reason, say, say_end, Ended};

fn main() -> ExitCode {
    let words: Vec<OsString> = env::args_os().skip(1).collect();
    if words.first().map_or(false, |word| word == spawn::BECOME) {
        return spawn::become_another(&words[1..]).into();
    }
    let status = match read(&words) {
        Words::Help => shown(Ok(HELP.to_string())),
        Words::Groups(path) => shown(asking::groups(&path)),
        Words::Move(path, group, worker) => shown(asking::move_group(&path, &group, worker)),
        Words::Wrong(usage, fault) => say_wrong(usage, &fault),
        Words::Serve(options) => served(*options),
    };
    status.into()
}

/// Serves; returns the exit status of the run.
fn served(options: Options) -> u8 {
    let style = options.style;
    let (why, status) = match program::serve(options) {
        Ok(()) | Err(Stop::Asked) => return 0,
        Err(Stop::Ended(Ended(why))) => (why, 1),
        Err(Stop::NotServed(Ended(why), status)) => (why, status),
    };
    say_end(&style, &why);
    status
}

/// Prints a text on standard output; returns the exit status of the run.
fn shown(text: Result<String, Ended>) -> u8 {
    let text = match text {
        Ok(text) => text,
        Err(Ended(why)) => {
            say(&why);
            return 1;
        }
    };
    let mut output = io::stdout();
    match output.write_all(text.as_bytes()).and_then(|()| output.flush()) {
        Err(error) if error.kind() != ErrorKind::BrokenPipe => {
            say(&format!("standard output cannot be written: {}", reason(&error)));
            1
        }
        _ => 0,
    }
}

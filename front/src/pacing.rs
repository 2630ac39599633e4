//! How fast commands come. A command is counted when its turn comes. One that is over the rate waits, and nothing more is read
//! from its client; or it is answered by an error.
//!
//! The time of those that wait is fixed when they begin to wait, so clients that share a rate take turns. An error is sent after
//! the answers to the client's earlier commands, as the server's would be.

use std::cmp::Reverse;
use std::time::Duration;

use crate::buckets::{Accounts, AHEAD};
use crate::front::Front;
use crate::limits::Over;
use crate::lines::RESET;
use crate::naming::session_in;
use crate::people::{Owner, SpeakerKey};
use crate::quotas::{Refusal, State, Waiting, CLIENT, COMMANDS, JOINS, SESSIONS};
use crate::turns::Command;

/// The most commands that are counted in advance.
const COMMANDS_AHEAD: u32 = 32;

/// What comes of counting a command.
enum Counted {
    Free,
    Waits,
    Refused(Refusal),
}

impl Front {
    /// Whether a speaker's next command may be given to the server. If not, it waits, or an error answers it.
    pub fn admits(&mut self, key: SpeakerKey) -> bool {
        let speaker = &mut self.speakers[key];
        let pace = &mut speaker.pace;
        if pace.granted > 0 && !pace.may_join && speaker.more.is_none() && pace.granted_until > Some(self.now) {
            pace.granted -= 1;
            return true;
        }
        match speaker.owner {
            Owner::Client(_) | Owner::Gone if speaker.waiting.is_empty() => return true, // the front's own `spin`
            // the front's own command, after the client's
            Owner::Gone if speaker.waiting.first() == Some(RESET) => return true,
            Owner::Client(_) | Owner::Gone => {}
            _ => return true,
        }
        let refusal = match self.count_command(key) {
            Counted::Waits => return false,
            Counted::Refused(refusal) => Some(refusal),
            Counted::Free => None,
        };
        match refusal.or_else(|| self.refusal_of_line(key)) {
            None => true,
            Some(refusal) => {
                self.speakers[key].pace.state = State::Refused(refusal);
                self.answer_refused(key);
                false
            }
        }
    }

    /// Counts a speaker's next command, and some in advance if there is much room.
    fn count_command(&mut self, key: SpeakerKey) -> Counted {
        let speaker = &mut self.speakers[key];
        let quotas = match &mut self.quotas {
            Some(quotas) => quotas,
            None => return Counted::Free,
        };
        let is_paid = std::mem::take(&mut speaker.pace.state) == State::Paid;
        if is_paid {
            return Counted::Free;
        }
        if !quotas.limits.has_rates {
            (speaker.pace.granted, speaker.pace.granted_until) = (COMMANDS_AHEAD, Some(self.now + AHEAD));
            return Counted::Free;
        }
        let client = match speaker.owner {
            Owner::Client(client) => self.clients[client].quota.as_mut().map(|held| &mut held.own),
            _ => None,
        };
        let group = speaker.group.map(|group| &mut self.groups[group].account);
        let pace = &mut speaker.pace;
        let rates = quotas.limits.quotas(pace.who.uid).map(|quota| quota.commands);
        let user = quotas.users.at(pace.user, pace.who.uid);
        let mut accounts = Accounts { all: [client, Some(user), group], rates, bucket: |account| &mut account.commands };
        let (wait, scope) = accounts.wait(self.now);
        if wait > Duration::ZERO && quotas.limits.over == Over::Refuse {
            return Counted::Refused(COMMANDS.refusal(scope));
        }
        let more = accounts.take(1, u64::from(COMMANDS_AHEAD), self.now);
        (pace.granted, pace.granted_until) = (more as u32, Some(self.now + AHEAD));
        if wait > Duration::ZERO {
            let until = self.now + wait;
            pace.state = State::Waits(until);
            quotas.waiting.push(Reverse((until, Waiting::Speaker(key))));
            return Counted::Waits;
        }
        Counted::Free
    }

    /// Why the next line of a speaker is refused, whatever its rate.
    fn refusal_of_line(&mut self, key: SpeakerKey) -> Option<Refusal> {
        let quotas = self.quotas.as_ref()?;
        let more = self.speakers[key].more.as_ref();
        if more.and_then(|more| more.named.front()) == Some(&quotas.beyond) {
            return Some(self.sessions_over(key).unwrap_or_else(|| SESSIONS.refusal(CLIENT)));
        }
        if quotas.limits.has_joins && self.speakers[key].pace.may_join {
            return self.join_over(key).map(|scope| JOINS.refusal(scope));
        }
        None
    }

    /// Answers a refused command by its error, once the commands before it are answered.
    pub fn answer_refused(&mut self, key: SpeakerKey) {
        let speaker = match self.speakers.get_mut(key) {
            Some(speaker) if speaker.under_way == 0 => speaker,
            _ => return,
        };
        let refusal = match std::mem::take(&mut speaker.pace.state) {
            State::Refused(refusal) => refusal,
            other => {
                speaker.pace.state = other;
                return;
            }
        };
        if let Some(line) = speaker.waiting.first().map(<[u8]>::to_vec) {
            speaker.waiting.pop();
            let session = self.session_of_next(key);
            let is_beyond = self.quotas.as_ref().map_or(false, |quotas| quotas.beyond == session);
            let name = match is_beyond {
                true => session_in(&line),
                false => self.sessions[session].name.clone(),
            };
            if let Owner::Client(client) = self.speakers[key].owner {
                self.metrics.errors.count(refusal.code.as_bytes());
                self.deliver(client, &refusal.line(&name));
            }
        }
        let speaker = &self.speakers[key];
        let (owner, is_slow, is_empty) = (speaker.owner, speaker.is_slow, speaker.waiting.is_empty());
        self.await_turn(key, is_slow);
        match owner {
            Owner::Client(client) if is_empty => self.read_on(client),
            Owner::Gone => self.drop_if_over(key),
            _ => {}
        }
    }

    /// Continues after the server has answered a command.
    pub fn heard_by_quotas(&mut self, at: usize, command: &Command, line: &[u8]) {
        let worker = &mut self.workers[at];
        worker.command_since = self.now;
        worker.is_overdue = false;
        worker.is_expired = false;
        if command.is_join {
            self.hear_join(command.speaker, line);
        }
        if self.speakers.get(command.speaker).map_or(false, |speaker| !speaker.pace.is_open()) {
            self.answer_refused(command.speaker);
        }
    }
}

//! The longest time that a command may take. A server that takes longer is ended, and its groups are brought back without the
//! command.

use std::time::Duration;

use serde_json::json;

use crate::front::Front;
use crate::log::Level;
use crate::people::Owner;
use crate::quotas::COMMAND_TIME;
use crate::spawn::kill_at_once;
use crate::turns::Command;

impl Front {
    /// Ends servers whose command has taken too long; returns the time until the next check. A server is ended only if its answer
    /// is still missing after the front has looked for it: the front itself may have been stopped for a time.
    pub fn look_at_commands(&mut self) -> Option<Duration> {
        let most = self.quotas.as_ref()?.limits.command_time?;
        let mut next: Option<Duration> = None;
        for worker in &mut self.workers {
            let command = worker.turns.under_way.front().filter(|command| command.hears.is_clients());
            let left = match (command, &worker.server) {
                (Some(_), Some(_)) if !worker.is_expired => most.saturating_sub(worker.command_since.elapsed()),
                _ => continue,
            };
            if !left.is_zero() {
                next = Some(next.map_or(left, |next| next.min(left)));
            } else if !std::mem::replace(&mut worker.is_overdue, true) {
                next = Some(Duration::ZERO);
            } else if let Some(server) = &mut worker.server {
                let seconds = most.as_secs();
                let number = worker.number;
                let words = format!("worker {number}: a command has taken {seconds} seconds, and the server is ended");
                self.log.say(Level::Warn, "command_too_long", json!({"worker": number, "seconds": seconds}), &words);
                worker.is_expired = true;
                kill_at_once(&mut server.child);
            }
        }
        next
    }

    /// Answers the command that has taken too long by an error, if the server was ended for it, and removes it from the record;
    /// returns the other commands under way.
    pub fn without_expired(&mut self, at: usize, mut commands: Vec<Command>) -> Vec<Command> {
        let is_expired = std::mem::take(&mut self.workers[at].is_expired);
        let command = match commands.first() {
            Some(command) if is_expired && command.hears.is_clients() => commands.remove(0),
            _ => return commands,
        };
        let group = self.sessions[command.session].group;
        if let Some(group) = group {
            let is_of_group =
                |command: &&Command| command.hears.is_clients() && self.sessions[command.session].group == Some(group);
            let later = commands.iter().filter(is_of_group).count();
            let found = &mut self.groups[group];
            found.under_way = found.under_way.saturating_sub(1);
            if let Some(record) = &mut found.record {
                record.forget(later, &mut self.log);
            }
        }
        let line = COMMAND_TIME.line(&self.sessions[command.session].name);
        self.metrics.errors.count(COMMAND_TIME.code.as_bytes());
        if command.is_spin {
            self.tell_spin(command.session, &line);
        } else if let Some(Owner::Client(client)) = self.speakers.get(command.speaker).map(|speaker| speaker.owner) {
            self.deliver(client, &line);
        }
        if let Some(speaker) = self.speakers.get_mut(command.speaker) {
            speaker.under_way = speaker.under_way.saturating_sub(1);
        }
        if command.is_join {
            self.hear_join(command.speaker, &line);
        }
        self.answer_refused(command.speaker);
        self.drop_if_over(command.speaker);
        commands
    }
}

//! Handles a hangup (SIGHUP): records are opened again by their names, as `logrotate` requires.

use std::io::Read;

use serde_json::json;

use crate::front::Front;
use crate::log::Level;

impl Front {
    /// Handles the hangups that have come; several count as one.
    pub fn hear_hangup(&mut self) {
        let hangups = match &mut self.hangups {
            Some(hangups) => hangups,
            None => return,
        };
        let mut has_come = false;
        while let Ok(1..) = hangups.read(&mut self.chunk) {
            has_come = true;
        }
        if has_come {
            self.read_certificates_again();
            self.read_limits_again();
            self.open_records_again();
        }
    }

    /// Opens the record of the only server again, or checks whether the records of groups are where they were.
    fn open_records_again(&mut self) {
        match self.pool.as_ref().map(|pool| pool.folder.clone()) {
            Some(Some(folder)) => {
                let records = self.groups.iter_mut().filter_map(|(_, group)| group.record.as_mut());
                let (mut count, mut gone) = (0, 0);
                for record in records.filter(|record| record.is_in_file()) {
                    count += 1;
                    gone += usize::from(!record.is_still_there(&mut self.log));
                }
                let folder = folder.display();
                let level = if gone > 0 { Level::Warn } else { Level::Info };
                let words = format!("hangup: {} of {count} records are where they were in {folder}", count - gone);
                self.log.say(level, "records_checked", json!({"records": count, "missing": gone}), &words);
            }
            Some(None) => self.say_nothing_is_recorded(),
            None => {
                let server = self.workers.first_mut().and_then(|worker| worker.server.as_mut());
                match server.and_then(|server| server.record.as_mut()) {
                    Some(record) => record.open_again(&mut self.log),
                    None => self.say_nothing_is_recorded(),
                }
            }
        }
    }

    fn say_nothing_is_recorded(&mut self) {
        if self.network.has_certificates() {
            return; // which were read again
        }
        let words = "hangup: there is no record that could be opened again";
        self.log.say(Level::Info, "nothing_recorded", json!({}), words);
    }
}

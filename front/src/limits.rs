//! The file of `--limits`: quotas of clients, users and groups, and rights.

use std::collections::BTreeMap;
use std::fs;
use std::path::Path;
use std::time::Duration;

use serde::de::{Error, Unexpected};
use serde::{Deserialize, Deserializer};

use crate::log::{reason, Ended};
use crate::rights::Rights;
use crate::user_keys::UserKeys;

/// The largest number that the file may have: more would mean no limit at all.
const MOST: i64 = 1_000_000_000_000;

/// What is done with a command that comes before the rate allows it.
#[derive(Clone, Copy, Debug, Default, Deserialize, PartialEq, Eq)]
#[serde(rename_all = "lowercase")]
pub enum Over {
    /// It waits, and the front stops reading from its client.
    #[default]
    Delay,
    /// It is answered by an error.
    Refuse,
}

/// How much may come per second, and how much at once after a pause.
#[derive(Clone, Copy, Debug, PartialEq, Eq, Deserialize)]
#[serde(from = "RateKeys")]
pub struct Rate {
    /// The time that one unit takes, in picoseconds.
    pub each: u64,
    /// How far ahead of its time a unit may come.
    pub ahead: Duration,
}

#[derive(Deserialize)]
#[serde(deny_unknown_fields, expecting = "a table such as { per_second = 100, burst = 200 }")]
struct RateKeys {
    #[serde(deserialize_with = "count")]
    per_second: u64,
    #[serde(default, deserialize_with = "some_count")]
    burst: Option<u64>,
}

/// The time of so many units.
pub fn time_of(each: u64, count: u64) -> Duration {
    Duration::from_nanos(each.saturating_mul(count) / 1_000)
}

impl From<RateKeys> for Rate {
    fn from(keys: RateKeys) -> Rate {
        let each = (1_000_000_000_000 / keys.per_second).max(1);
        let burst = keys.burst.unwrap_or(keys.per_second);
        Rate { each, ahead: time_of(each, burst - 1) }
    }
}

/// The most that a client, all clients of a user, or all clients of a group may have. What is missing is not limited.
#[derive(Clone, Debug, Default, PartialEq, Eq)]
pub struct Quota {
    pub connections: Option<u64>,
    pub commands: Option<Rate>,
    pub input_bytes: Option<Rate>,
    pub unread_bytes: Option<u64>,
    pub half_line_bytes: Option<u64>,
    pub sessions: Option<u64>,
    pub joins: Option<u64>,
}

/// The keys of `[client]`.
#[derive(Clone, Debug, Default, Deserialize, PartialEq, Eq)]
#[serde(deny_unknown_fields, default)]
struct ClientKeys {
    commands: Option<Rate>,
    input_bytes: Option<Rate>,
    #[serde(deserialize_with = "some_count")]
    unread_bytes: Option<u64>,
    #[serde(deserialize_with = "some_count")]
    half_line_bytes: Option<u64>,
    #[serde(deserialize_with = "some_count")]
    half_line_seconds: Option<u64>,
    #[serde(deserialize_with = "some_count")]
    idle_seconds: Option<u64>,
    #[serde(deserialize_with = "some_count")]
    sessions: Option<u64>,
    #[serde(deserialize_with = "some_count_or_zero")]
    joins: Option<u64>,
}

impl Quota {
    /// These limits, and for each that is missing the one of another quota.
    fn or(&self, other: &Quota) -> Quota {
        Quota {
            connections: self.connections.or(other.connections),
            commands: self.commands.or(other.commands),
            input_bytes: self.input_bytes.or(other.input_bytes),
            unread_bytes: self.unread_bytes.or(other.unread_bytes),
            half_line_bytes: self.half_line_bytes.or(other.half_line_bytes),
            sessions: self.sessions.or(other.sessions),
            joins: self.joins.or(other.joins),
        }
    }
}

/// The keys of `[uid]`, of each `[uid.N]` and of `[group]`.
#[derive(Clone, Debug, Default, Deserialize, PartialEq, Eq)]
#[serde(deny_unknown_fields, default)]
pub struct SharedKeys {
    #[serde(deserialize_with = "some_count")]
    connections: Option<u64>,
    commands: Option<Rate>,
    input_bytes: Option<Rate>,
    #[serde(deserialize_with = "some_count")]
    unread_bytes: Option<u64>,
    #[serde(deserialize_with = "some_count")]
    half_line_bytes: Option<u64>,
    #[serde(deserialize_with = "some_count")]
    sessions: Option<u64>,
    #[serde(deserialize_with = "some_count_or_zero")]
    joins: Option<u64>,
}

impl From<SharedKeys> for Quota {
    fn from(keys: SharedKeys) -> Quota {
        Quota {
            connections: keys.connections,
            commands: keys.commands,
            input_bytes: keys.input_bytes,
            unread_bytes: keys.unread_bytes,
            half_line_bytes: keys.half_line_bytes,
            sessions: keys.sessions,
            joins: keys.joins,
        }
    }
}

impl From<&ClientKeys> for Quota {
    fn from(keys: &ClientKeys) -> Quota {
        Quota {
            connections: None,
            commands: keys.commands,
            input_bytes: keys.input_bytes,
            unread_bytes: keys.unread_bytes,
            half_line_bytes: keys.half_line_bytes,
            sessions: keys.sessions,
            joins: keys.joins,
        }
    }
}

#[derive(Default, Deserialize)]
#[serde(deny_unknown_fields, default)]
struct Keys {
    over: Over,
    #[serde(deserialize_with = "some_count")]
    front_memory: Option<u64>,
    #[serde(deserialize_with = "some_count")]
    command_seconds: Option<u64>,
    client: ClientKeys,
    uid: UserKeys,
    group: SharedKeys,
    rights: Option<Rights>,
}

/// What the file says.
#[derive(Debug, Default, PartialEq, Eq)]
pub struct Limits {
    pub over: Over,
    /// The most bytes that all connections together may make the front hold.
    pub front_memory: Option<u64>,
    /// The longest time that a command may take.
    pub command_time: Option<Duration>,
    pub client: Quota,
    pub uid: Quota,
    /// The quotas of single users.
    pub users: BTreeMap<u32, Quota>,
    pub group: Quota,
    /// The longest time that an unfinished line may take.
    pub half_line_time: Option<Duration>,
    /// The longest time in which a client may neither write nor receive anything.
    pub idle_time: Option<Duration>,
    pub rights: Option<Rights>,
    /// Whether anything limits how fast commands come.
    pub has_rates: bool,
    /// Whether anything limits joins.
    pub has_joins: bool,
}

impl From<Keys> for Limits {
    fn from(keys: Keys) -> Limits {
        let (client, uid, group) = (Quota::from(&keys.client), Quota::from(keys.uid.all), Quota::from(keys.group));
        let users = keys.uid.users.into_iter().map(|(user, own)| (user, Quota::from(own).or(&uid)));
        let users: BTreeMap<u32, Quota> = users.collect();
        let all: Vec<&Quota> = [&client, &uid, &group].into_iter().chain(users.values()).collect();
        let has_rates = all.iter().any(|quota| quota.commands.is_some());
        let has_joins = all.iter().any(|quota| quota.joins.is_some());
        Limits {
            has_rates,
            has_joins,
            over: keys.over,
            front_memory: keys.front_memory,
            command_time: keys.command_seconds.map(Duration::from_secs),
            half_line_time: keys.client.half_line_seconds.map(Duration::from_secs),
            idle_time: keys.client.idle_seconds.map(Duration::from_secs),
            client,
            uid,
            users,
            group,
            rights: keys.rights,
        }
    }
}

impl Limits {
    /// The quotas of a client of this user: its own, that of the user, and that of its group.
    pub fn quotas(&self, uid: Option<u32>) -> [&Quota; 3] {
        [&self.client, self.of_user(uid), &self.group]
    }

    /// The quota of a user.
    pub fn of_user(&self, uid: Option<u32>) -> &Quota {
        if self.users.is_empty() {
            return &self.uid; // as for each line of most fronts
        }
        uid.and_then(|uid| self.users.get(&uid)).unwrap_or(&self.uid)
    }
}

/// Reads a whole number from 1.
pub fn count<'de, D: Deserializer<'de>>(from: D) -> Result<u64, D::Error> {
    number_from(1, from)
}

fn some_count<'de, D: Deserializer<'de>>(from: D) -> Result<Option<u64>, D::Error> {
    number_from(1, from).map(Some)
}

fn some_count_or_zero<'de, D: Deserializer<'de>>(from: D) -> Result<Option<u64>, D::Error> {
    number_from(0, from).map(Some)
}

fn number_from<'de, D: Deserializer<'de>>(least: i64, from: D) -> Result<u64, D::Error> {
    let number = i64::deserialize(from)?;
    if (least..=MOST).contains(&number) {
        return Ok(number as u64);
    }
    let wanted = format!("a whole number from {least} to {MOST}");
    Err(D::Error::invalid_value(Unexpected::Signed(number), &wanted.as_str()))
}

/// Reads the text of such a file. A fault is a text of one line, with the place.
pub fn read(text: &str) -> Result<Limits, String> {
    toml::from_str::<Keys>(text).map(Limits::from).map_err(|error| {
        let fault = error.to_string().replace('\n', " ");
        // the place of a key may be that of its table
        if fault.contains(" for key `") {
            fault.replace(" at line ", " at or below line ")
        } else {
            fault
        }
    })
}

/// Reads such a file.
pub fn read_file(path: &Path) -> Result<Limits, Ended> {
    let text = fs::read(path).map_err(|error| Ended(format!("{} cannot be read: {}", path.display(), reason(&error))))?;
    let text = String::from_utf8(text).map_err(|_| Ended(format!("{}: it is not UTF-8", path.display())))?;
    read(&text).map_err(|fault| Ended(format!("{}: {fault}", path.display())))
}

#[cfg(test)]
mod tests {
    use super::*;

    #[test]
    fn quotas_are_read() {
        let text =
            "over = 'refuse'\ncommand_seconds = 5\n[client]\ncommands = { per_second = 10, burst = 3 }\n[uid]\njoins = 0\n";
        let found = read(text).unwrap();
        assert_eq!(found.over, Over::Refuse);
        assert_eq!(found.command_time, Some(Duration::from_secs(5)));
        let rate = Rate { each: 100_000_000_000, ahead: Duration::from_millis(200) };
        assert_eq!((found.client.commands, found.uid.joins, found.group.joins), (Some(rate), Some(0), None));
        assert!(found.has_rates && found.has_joins && found.rights.is_none());
        assert_eq!(read("").unwrap(), Limits::default());
    }

    #[test]
    fn a_user_may_have_other_limits() {
        let text = "[uid]\nconnections = 3\njoins = 5\n[uid.1000]\nconnections = 9\n[uid.0]\nsessions = 1\n";
        let found = read(text).unwrap();
        let of = |uid| {
            let quota = found.of_user(uid);
            (quota.connections, quota.joins, quota.sessions)
        };
        assert_eq!(of(Some(1_000)), (Some(9), Some(5), None));
        assert_eq!(of(Some(0)), (Some(3), Some(5), Some(1)));
        assert_eq!((of(Some(7)), of(None)), ((Some(3), Some(5), None), (Some(3), Some(5), None)));
        let found = read("[uid.7]\ncommands = { per_second = 5 }\njoins = 1\n").unwrap();
        assert!(found.has_rates && found.has_joins && found.uid == Quota::default());
    }

    #[test]
    fn a_fault_says_where_it_is() {
        for (text, line) in [
            ("over = 'wait'\n", 1),
            ("\n[client]\ncommands = 5\n", 3),
            ("\n[client]\nconnections = 5\n", 2),
            ("[uid]\nidle_seconds = 5\n", 1),
            ("[uid]\n\nconnections = 0\n", 1),
            ("[uid]\nconnections = 1.5\n", 2),
            ("[uid]\nconnections = 1\nconnections = 2\n", 1),
            ("[uid\n", 1),
            ("[client]\ncommands = { per_second = 0 }\n", 2),
            ("[client]\ncommands = { burst = 5 }\n", 2),
            ("[users]\n", 1),
            ("[uid.anna]\njoins = 1\n", 1),
            ("\n[uid.01]\njoins = 1\n", 2),
            ("[uid.4294967296]\njoins = 1\n", 1),
            ("[uid]\n1000 = 5\n", 2),
            ("\n[uid.1000]\nidle_seconds = 5\n", 2),
            ("[uid.1000]\nconnections = 0\n", 1),
            ("[uid.1000]\n[uid.1000]\n", 2),
        ] {
            let fault = read(text).unwrap_err();
            assert!(fault.contains(&format!("line {line}")), "{text:?}: {fault}");
            assert!(!fault.contains('\n'), "{fault}");
        }
    }
}

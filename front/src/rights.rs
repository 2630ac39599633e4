//! Who may do what: rules by user, group of users, token and certificate.
//!
//! The rules are tried in order. The first one that is for this client and speaks of this right decides; without one, the
//! default of the file does.

use std::fmt;
use std::rc::Rc;

use blake2b_simd::Params;
use serde::de::{Error, SeqAccess, Visitor};
use serde::{Deserialize, Deserializer};

use crate::groups::group_of;
use crate::lines::is_name;

/// The bytes of a token's hash.
const HASH: usize = 32;
/// The fewest characters of a token that is accepted: a shorter one could be guessed.
const TOKEN_LEAST: usize = 20;
/// Stands for the sessions of the client's own group.
const OWN_GROUP: &str = "@group";

/// What a client may do.
#[derive(Clone, Copy, Debug, PartialEq, Eq)]
pub enum Right {
    Connect,
    Hello,
    Share,
    Monitor,
    Join,
    Control,
}

/// A certificate that a client over TLS has shown, and that an authority of the front has signed.
#[derive(Debug, PartialEq, Eq)]
pub struct Shown {
    /// Its subject, by RFC 4514.
    pub subject: String,
    /// The SHA-256 hash of the certificate.
    pub fingerprint: [u8; HASH],
}

/// Who a connection comes from.
#[derive(Clone, Debug, Default, PartialEq, Eq)]
pub struct Who {
    /// The user and the group of the process that has connected, if the system knows.
    pub uid: Option<u32>,
    pub gid: Option<u32>,
    /// The hash of the token that it has given.
    pub token: Option<[u8; HASH]>,
    pub certificate: Option<Rc<Shown>>,
}

/// What is done if no rule decides.
#[derive(Clone, Copy, Debug, PartialEq, Eq, Deserialize)]
#[serde(rename_all = "lowercase")]
enum Otherwise {
    Allow,
    Refuse,
}

/// The part of the file that is about rights.
#[derive(Clone, Debug, PartialEq, Eq, Deserialize)]
#[serde(deny_unknown_fields)]
pub struct Rights {
    default: Otherwise,
    #[serde(default, rename = "rule")]
    rules: Vec<Rule>,
}

#[derive(Clone, Debug, PartialEq, Eq, Deserialize)]
#[serde(deny_unknown_fields)]
struct Rule {
    uid: Option<Vec<u32>>,
    gid: Option<Vec<u32>>,
    token: Option<Token>,
    subject: Option<Vec<String>>,
    fingerprint: Option<Vec<Fingerprint>>,
    connect: Option<bool>,
    control: Option<bool>,
    hello: Option<Names>,
    share: Option<Names>,
    monitor: Option<Names>,
    join: Option<Names>,
}

/// All names, no names, or those that match one of these patterns.
#[derive(Clone, Debug, PartialEq, Eq)]
enum Names {
    All,
    These(Vec<String>),
}

/// The hash of a token.
#[derive(Clone, Copy, PartialEq, Eq)]
struct Token([u8; HASH]);

impl fmt::Debug for Token {
    fn fmt(&self, to: &mut fmt::Formatter) -> fmt::Result {
        to.write_str("a hash")
    }
}

impl<'de> Deserialize<'de> for Token {
    fn deserialize<D: Deserializer<'de>>(from: D) -> Result<Token, D::Error> {
        let fault = || D::Error::custom("a token's hash has 64 hexadecimal digits, as `b2sum -l 256` writes them");
        hash_in(&String::deserialize(from)?).map(Token).ok_or_else(fault)
    }
}

/// The SHA-256 hash of a certificate.
#[derive(Clone, Copy, Debug, PartialEq, Eq)]
struct Fingerprint([u8; HASH]);

impl<'de> Deserialize<'de> for Fingerprint {
    fn deserialize<D: Deserializer<'de>>(from: D) -> Result<Fingerprint, D::Error> {
        let fault = || {
            let words = "a fingerprint has 64 hexadecimal digits, as `openssl x509 -noout -fingerprint -sha256` writes them";
            D::Error::custom(words)
        };
        hash_in(&String::deserialize(from)?.replace(':', "")).map(Fingerprint).ok_or_else(fault)
    }
}

/// The hash that a text has as hexadecimal digits.
fn hash_in(text: &str) -> Option<[u8; HASH]> {
    let mut bytes = [0; HASH];
    if text.len() != 2 * HASH || !text.bytes().all(|sign| sign.is_ascii_hexdigit()) {
        return None;
    }
    for (at, byte) in bytes.iter_mut().enumerate() {
        *byte = u8::from_str_radix(&text[2 * at..2 * at + 2], 16).ok()?;
    }
    Some(bytes)
}

/// Whether a text can be a pattern: a name, the beginning of names followed by `*`, or `*` alone.
fn is_pattern(text: &str) -> bool {
    let name = text.strip_suffix('*').unwrap_or(text);
    text == "*" || text == OWN_GROUP || is_name(name)
}

struct NamesVisitor;

impl<'de> Visitor<'de> for NamesVisitor {
    type Value = Names;

    fn expecting(&self, to: &mut fmt::Formatter) -> fmt::Result {
        to.write_str("true, false or an array of names")
    }

    fn visit_bool<E: Error>(self, is_all: bool) -> Result<Names, E> {
        Ok(if is_all { Names::All } else { Names::These(Vec::new()) })
    }

    fn visit_seq<A: SeqAccess<'de>>(self, mut from: A) -> Result<Names, A::Error> {
        let mut names = Vec::new();
        while let Some(name) = from.next_element::<String>()? {
            if !is_pattern(&name) {
                return Err(A::Error::custom(format!("{name:?} is no name, and no beginning of one followed by *")));
            }
            names.push(name);
        }
        Ok(Names::These(names))
    }
}

impl<'de> Deserialize<'de> for Names {
    fn deserialize<D: Deserializer<'de>>(from: D) -> Result<Names, D::Error> {
        from.deserialize_any(NamesVisitor)
    }
}

impl Names {
    /// Whether a name is among them. A name in the file stands for the session of this name and for all sessions of the
    /// group of this name.
    fn have(&self, name: &str, own_group: &str) -> bool {
        let is_like = |pattern: &String| match pattern.strip_suffix('*') {
            Some(beginning) => name.starts_with(beginning),
            None if pattern == OWN_GROUP => group_of(name) == own_group,
            None => name == pattern || group_of(name) == pattern,
        };
        match self {
            Names::All => true,
            Names::These(patterns) => patterns.iter().any(is_like),
        }
    }

    fn are_all(&self) -> bool {
        match self {
            Names::All => true,
            Names::These(patterns) => patterns.iter().any(|pattern| pattern == "*"),
        }
    }

    fn are_none(&self) -> bool {
        matches!(self, Names::These(patterns) if patterns.is_empty())
    }
}

impl Rule {
    /// Whether the rule is for this client.
    fn is_for(&self, who: &Who) -> bool {
        let has = |wanted: &Option<Vec<u32>>, own: Option<u32>| {
            wanted.as_ref().map_or(true, |wanted| own.map_or(false, |own| wanted.contains(&own)))
        };
        let has_token = self.token.map_or(true, |token| who.token.map_or(false, |own| is_same(&token.0, &own)));
        has(&self.uid, who.uid)
            && has(&self.gid, who.gid)
            && has_token
            && self.is_for_certificate(who.certificate.as_deref())
    }

    /// Whether the rule is for whoever has shown this certificate.
    fn is_for_certificate(&self, shown: Option<&Shown>) -> bool {
        let has_subject = |wanted: &Vec<String>| shown.map_or(false, |own| wanted.contains(&own.subject));
        let has_fingerprint =
            |wanted: &Vec<Fingerprint>| shown.map_or(false, |own| wanted.contains(&Fingerprint(own.fingerprint)));
        self.subject.as_ref().map_or(true, has_subject) && self.fingerprint.as_ref().map_or(true, has_fingerprint)
    }

    /// Whether the rule is for this client if it has the right token.
    fn might_be_for(&self, who: &Who) -> bool {
        match self.token {
            Some(Token(token)) => self.is_for(&Who { token: Some(token), ..who.clone() }),
            None => self.is_for(who),
        }
    }

    fn names(&self, right: Right) -> Option<&Names> {
        match right {
            Right::Hello => self.hello.as_ref(),
            Right::Share => self.share.as_ref(),
            Right::Monitor => self.monitor.as_ref(),
            Right::Join => self.join.as_ref(),
            Right::Connect | Right::Control => None,
        }
    }

    fn flag(&self, right: Right) -> Option<bool> {
        match right {
            Right::Connect => self.connect,
            Right::Control => self.control,
            _ => None,
        }
    }
}

/// Compares in a time that does not depend on the bytes.
fn is_same(one: &[u8; HASH], other: &[u8; HASH]) -> bool {
    one.iter().zip(other).fold(0, |found, (one, other)| found | (one ^ other)) == 0
}

/// The hash of a token that a client has given, unless it is so short that it could be guessed.
pub fn hash_of(token: &str) -> Option<[u8; HASH]> {
    let digest = Params::new().hash_length(HASH).hash(token.as_bytes());
    let mut bytes = [0; HASH];
    bytes.copy_from_slice(digest.as_bytes());
    (token.len() >= TOKEN_LEAST).then_some(bytes)
}

impl Rights {
    /// Whether a client may connect, and whether it might with some token.
    pub fn may_come(&self, who: &Who) -> (bool, bool) {
        (self.allow(who, Right::Connect), self.may_allow(who, Right::Connect))
    }

    fn is_default(&self) -> bool {
        self.default == Otherwise::Allow
    }

    /// Whether a client may connect, or control the front.
    pub fn allow(&self, who: &Who, right: Right) -> bool {
        let found = self.rules.iter().filter(|rule| rule.is_for(who)).find_map(|rule| rule.flag(right));
        found.unwrap_or_else(|| self.is_default())
    }

    /// Whether a client with some token might connect, or control the front.
    pub fn may_allow(&self, who: &Who, right: Right) -> bool {
        let mut those = self.rules.iter().filter(|rule| rule.might_be_for(who));
        those.any(|rule| rule.flag(right) == Some(true)) || self.allow(who, right)
    }

    fn names(&self, who: &Who, right: Right) -> Option<&Names> {
        self.rules.iter().filter(|rule| rule.is_for(who)).find_map(|rule| rule.names(right))
    }

    /// Whether a client may use this name.
    pub fn allow_name(&self, who: &Who, right: Right, name: &str, own_group: &str) -> bool {
        self.names(who, right).map_or_else(|| self.is_default(), |names| names.have(name, own_group))
    }

    /// Whether a client may use all names.
    pub fn allow_all(&self, who: &Who, right: Right) -> bool {
        self.names(who, right).map_or_else(|| self.is_default(), Names::are_all)
    }

    /// Whether a client with some token might use any name.
    pub fn may_allow_any(&self, who: &Who, right: Right) -> bool {
        let mut those = self.rules.iter().filter(|rule| rule.might_be_for(who));
        those.any(|rule| rule.names(right).map_or(false, |names| !names.are_none())) || self.allow_all(who, right)
    }

    /// Whether a rule speaks of joins, or the default refuses them.
    pub fn limits_joins(&self) -> bool {
        !self.is_default() || self.rules.iter().any(|rule| rule.join.is_some())
    }
}

#[cfg(test)]
mod tests {
    use super::*;

    fn rights(text: &str) -> Rights {
        toml::from_str(text).unwrap()
    }

    fn user(uid: u32) -> Who {
        Who { uid: Some(uid), gid: Some(50), ..Who::default() }
    }

    #[test]
    fn the_first_rule_that_speaks_of_a_right_decides() {
        let rights = rights(
            "default = 'refuse'\n[[rule]]\nuid = [1]\nhello = ['desk', 'h*']\n[[rule]]\ngid = [50]\nconnect = true\nhello = true\n",
        );
        assert!(rights.allow(&user(1), Right::Connect) && !rights.allow(&user(1), Right::Control));
        assert!(!rights.allow(&Who::default(), Right::Connect));
        let may = |uid, name| rights.allow_name(&user(uid), Right::Hello, name, "");
        assert!(may(1, "desk") && may(1, "hall") && may(1, "h") && !may(1, "lamp") && may(2, "lamp"));
        assert!(!rights.allow_name(&user(1), Right::Share, "desk", "") && rights.limits_joins());
    }

    #[test]
    fn a_name_stands_for_its_group_too() {
        let rights = rights("default = 'allow'\n[[rule]]\njoin = ['desk', 'a__b', '@group']\n");
        let may = |name| rights.allow_name(&user(1), Right::Join, name, "own");
        assert!(["desk", "desk__c1", "a__b", "own__c2", "own"].iter().all(|name| may(name)));
        assert!(!["desks", "a", "a__c", "desk_", "c1"].iter().any(|name| may(name)));
    }

    #[test]
    fn a_certificate_is_known_by_its_subject_and_its_hash() {
        let (one, other) = ("ab".repeat(HASH), "AB:".repeat(HASH - 1) + "AC");
        let rights = rights(&format!(
            "default = 'refuse'\n[[rule]]\nsubject = ['CN=anna,O=Example']\nconnect = true\n\
             [[rule]]\nfingerprint = ['{one}', '{other}']\ncontrol = true\n\
             [[rule]]\nsubject = ['CN=ben']\nfingerprint = ['{other}']\nconnect = true\n",
        ));
        let shows = |subject: &str, last| {
            let mut fingerprint = [0xab; HASH];
            fingerprint[HASH - 1] = last;
            Who { certificate: Some(Rc::new(Shown { subject: subject.to_string(), fingerprint })), ..user(1) }
        };
        let may = |who: &Who| [rights.allow(who, Right::Connect), rights.allow(who, Right::Control)];
        assert_eq!(may(&shows("CN=anna,O=Example", 0)), [true, false]);
        assert_eq!(may(&shows("CN=anna", 0xab)), [false, true]);
        assert_eq!((may(&shows("CN=ben", 0xab)), may(&shows("CN=ben", 0xac))), ([false, true], [true, true]));
        assert_eq!(may(&user(1)), [false, false]);
    }

    /// The hash is that of `printf %s "an example of a token" | b2sum -l 256`.
    #[test]
    fn a_token_is_known_by_its_hash() {
        let hash = "80858b37194a535ba80c2223c22c4c75747a42d7179ba39857540991dd97aab2";
        let own = Who { token: hash_of("an example of a token"), ..user(1) };
        let rights = rights(&format!("default = 'refuse'\n[[rule]]\ntoken = '{hash}'\nconnect = true\n"));
        assert!(rights.allow(&own, Right::Connect) && !rights.allow(&user(1), Right::Connect));
        assert!(rights.may_allow(&user(1), Right::Connect));
        assert_eq!(hash_of("short"), None);
    }
}

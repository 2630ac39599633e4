//! Requests of the page's process: each line has a number, the name of a session, and a command.
//!
//! Browsers talk to that process, so the front does not trust it. Whatever the process writes, a server is given only commands
//! that are allowed here: the front reads each of them, writes it again, and puts the session in itself.

use std::collections::BTreeMap;

use serde_json::value::RawValue;

use crate::commands::READING;
use crate::lines::{object_of, LINE_MOST};

/// The most digits that the number of a command may have.
const DIGITS_MOST: usize = 15;
/// Bytes that a line may need in addition to its command, for the name of its session.
const BESIDE: usize = 128;
/// The commands that may change something and that the page may give, each with its keys.
const WRITING: [(&str, &[&str]); 2] =
    [("invoke", &["object", "method", "args", "type"]), ("set", &["object", "property", "value"])];

/// The rights of the page in addition to looking.
#[derive(Clone, Copy, Debug, Default)]
pub struct Leave {
    pub ask: bool,
    pub write: bool,
}

impl Leave {
    /// Reads a command and writes it again; returns nothing if it is not allowed, or if the server could not read it. A key
    /// that is there twice is written once, with its last value. Values are written unchanged.
    pub fn command_in(self, text: &[u8]) -> Option<Vec<u8>> {
        object_of(text)?;
        let members: BTreeMap<String, &RawValue> = serde_json::from_slice(text).ok()?;
        let word: String = serde_json::from_str(members.get("do")?.get()).ok()?;
        let is = |rows: &[(&str, &[&str])]| {
            let keys = rows.iter().find(|(name, _)| *name == word).map(|(_, keys)| *keys);
            keys.map_or(false, |keys| members.keys().all(|key| key == "do" || keys.contains(&key.as_str())))
        };
        if !(self.ask && is(&READING) || self.write && is(&WRITING)) {
            return None;
        }
        serde_json::to_vec(&members).ok().filter(|command| command.len() <= LINE_MOST - BESIDE)
    }
}

/// Splits a line of the process into a number, a session and a command; only the number is checked. A line without a
/// number is no request, and can only come from a broken process.
pub fn asked_in(line: &[u8]) -> Option<(u64, &[u8], &[u8])> {
    let mut parts = line.splitn(3, |byte| *byte == b' ');
    let digits = parts.next().filter(|it| it.len() <= DIGITS_MOST && it.iter().all(u8::is_ascii_digit))?;
    let number = std::str::from_utf8(digits).ok().filter(|it| !it.starts_with('0'))?.parse().ok()?;
    Some((number, parts.next().unwrap_or_default(), parts.next().unwrap_or_default()))
}

#[cfg(test)]
mod tests {
    use serde_json::Value;

    use super::*;

    const GET: &str = r#"{"do":"get","object":1,"property":"x"}"#;
    const SET: &str = r#"{"do":"set","object":1,"property":"x","value":1}"#;
    const NONE: Leave = Leave { ask: false, write: false };
    const ASK: Leave = Leave { ask: true, write: false };
    const BOTH: Leave = Leave { ask: true, write: true };

    fn text_in(leave: Leave, text: &str) -> Option<String> {
        leave.command_in(text.as_bytes()).map(|it| String::from_utf8(it).unwrap())
    }

    #[test]
    fn the_page_reads_only_where_it_may_not_write() {
        assert_eq!(text_in(ASK, GET).as_deref(), Some(GET));
        assert_eq!(text_in(BOTH, SET).as_deref(), Some(SET));
        assert_eq!((text_in(ASK, SET), text_in(NONE, GET), text_in(NONE, SET)), (None, None, None));
    }

    #[test]
    fn the_page_asks_what_is_there_with_the_keys_of_each_word() {
        let commands = [
            r#"{"do":"object","object":1}"#,
            r#"{"do":"properties","object":1}"#,
            r#"{"after":7,"do":"connections","object":1}"#,
            r#"{"after":{"object":1,"property":"x"},"do":"bindings"}"#,
            r#"{"do":"binding","object":1,"property":"x"}"#,
            r#"{"class":"Cell","do":"findAll","name":"x","object":1}"#,
            r#"{"class":"Cell","do":"describe"}"#,
            r#"{"do":"joins"}"#,
        ];
        for command in commands {
            assert_eq!(text_in(ASK, command).as_deref(), Some(command));
            assert_eq!(text_in(NONE, command), None, "{command}");
        }
        for command in [r#"{"do":"joins","object":1}"#, r#"{"do":"object","object":1,"value":1}"#, r#"{"do":"objects"}"#] {
            assert_eq!(text_in(BOTH, command), None, "{command}");
        }
    }

    #[test]
    fn what_the_server_would_not_read_is_not_allowed() {
        let deep = format!(r#"{{"do":"set","object":1,"property":"x","value":{}{}}}"#, "[".repeat(200), "]".repeat(200));
        let long = format!(r#"{{"do":"set","object":1,"property":"x","value":"{}"}}"#, "x".repeat(LINE_MOST - BESIDE - 40));
        let commands = [
            r#"{"do":"reset"}"#,
            r#"{"do":"get","do":"new","class":"Cell"}"#,
            r#"{"do":"status","session":"c2"}"#,
            r#"{"do":"status","\u0073ession":"c2"}"#,
            r#"{"do":"get"}{"do":"set"}"#,
            r#"{"do":["get"]}"#,
            r#"{"do":"set","value":NaN}"#,
            r#"{"do":"set","value":1e999}"#,
            r#"{"do":"get","property":"\ud800"}"#,
            "[]",
            "",
            &deep,
            &long,
        ];
        for command in commands {
            assert_eq!(text_in(BOTH, command), None, "{command}");
        }
        assert_eq!(BOTH.command_in(b"{\"do\":\"get\",\"property\":\"\xff\"}"), None);
    }

    #[test]
    fn commands_are_written_anew_with_their_values_as_they_are() {
        let text = r#" {"object" : 1, "d\u006f":"reset","do":"set","value":1180591620717411303424,"value": 0.12345678901234567890 }"#;
        assert_eq!(text_in(BOTH, text).as_deref(), Some(r#"{"do":"set","object":1,"value":0.12345678901234567890}"#));
    }

    #[test]
    fn lines_of_the_process_have_a_number_first() {
        assert_eq!(asked_in(b"7 c1 {\"do\":\"status\"}"), Some((7, b"c1".as_slice(), b"{\"do\":\"status\"}".as_slice())));
        assert_eq!(asked_in(b"7"), Some((7, b"".as_slice(), b"".as_slice())));
        assert_eq!(asked_in(b"999999999999999 \xff"), Some((999_999_999_999_999, b"\xff".as_slice(), b"".as_slice())));
        for line in ["boom", "", "0 c1 {}", "07 c1 {}", "-1 c1 {}", " 7 c1", "+7 c1", "1_0 c1", "1000000000000000 c1 {}"] {
            assert_eq!(asked_in(line.as_bytes()), None, "{line}");
        }
    }

    /// Random pieces of JSON: whatever is allowed is an allowed command, and says the same as the text.
    #[test]
    fn random_texts_give_only_what_is_allowed() {
        let pieces = [
            "{",
            "}",
            "[",
            "]",
            ",",
            ":",
            "\"",
            "\\",
            "1",
            " ",
            "\"do\":",
            "\"do\":\"get\"",
            "\"do\":\"set\"",
            "\"do\":\"reset\"",
            "\"object\":1",
            "\"value\":",
            "\"session\":\"c2\"",
            "\"property\":\"x\"",
            "\"d\\u006f\":\"set\"",
            "null",
            "\n",
            "\u{2028}",
        ];
        let (mut state, mut allowed) = (7_u64, 0);
        let mut random = |most: usize| {
            state = state.wrapping_mul(6_364_136_223_846_793_005).wrapping_add(1_442_695_040_888_963_407);
            (state >> 33) as usize % most
        };
        for _ in 0..60_000 {
            let inside: Vec<&str> = (0..random(6)).map(|_| pieces[random(pieces.len())]).collect();
            let text = format!("{{{}}}", inside.join([",", ""][random(2)]));
            let command = match text_in(ASK, &text) {
                Some(command) => command,
                None => continue,
            };
            allowed += 1;
            let (before, after): (Value, Value) =
                (serde_json::from_str(&text).unwrap(), serde_json::from_str(&command).unwrap());
            assert_eq!((&before, after["do"].as_str()), (&after, Some("get")), "{text}");
            let keys: Vec<&String> = after.as_object().unwrap().keys().collect();
            assert!(keys.iter().all(|key| ["do", "object", "property"].contains(&key.as_str())), "{text}");
            assert_eq!(command.matches("\"do\"").count(), 1, "{text}");
        }
        assert!(allowed > 50, "{allowed}");
    }
}

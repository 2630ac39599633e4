//! The lines that clients write, and those that the server writes.

use memchr::memmem;
use serde_json::{Map, Value};

use crate::log::bytes_as_text;

/// The most bytes that a line of input may have, without its end.
pub const LINE_MOST: usize = 65_536;
/// Replaces a line that is too long: the server answers it by the same code.
pub const TOO_LONG: &[u8] = b"too long";
/// The session of errors for lines that are no command of a session.
pub const NOBODY: &str = "-";
/// The command that resets a session.
pub const RESET: &[u8] = b"{\"do\":\"reset\"}";

const SESSION: &[u8] = b"\"session\":\"";
const NAME_MOST: usize = 64;

/// A line without the white space of JSON at both ends.
pub fn stripped(line: &[u8]) -> &[u8] {
    let is_white = |byte: &&u8| matches!(**byte, b' ' | b'\t' | b'\r');
    let start = line.iter().take_while(is_white).count();
    let end = line.len() - line[start..].iter().rev().take_while(is_white).count();
    &line[start..end]
}

/// Whether a line is only white space, and so needs no answer.
pub fn is_blank(line: &[u8]) -> bool {
    stripped(line).is_empty()
}

/// Appends a line with an additional member if the line is an object, and unchanged otherwise. If a key occurs twice the
/// last one counts, so this member wins over one that the line already has.
pub fn put_with_member(out: &mut Vec<u8>, line: &[u8], member: &[u8]) {
    let text = stripped(line);
    if text.len() < 2 || text[0] != b'{' || text[text.len() - 1] != b'}' {
        out.extend_from_slice(line);
        return;
    }
    let members = &text[..text.len() - 1];
    out.extend_from_slice(members);
    if !is_blank(&members[1..]) {
        out.push(b',');
    }
    out.extend_from_slice(member);
    out.push(b'}');
}

/// The member by which a line names a session.
pub fn member_of(session: &str) -> Vec<u8> {
    format!("\"session\":\"{session}\"").into_bytes()
}

/// Whether a line of the server ends a command.
pub fn is_answer(line: &[u8]) -> bool {
    line.starts_with(b"{\"reply\":") || line.starts_with(b"{\"error\":")
}

/// The session that a line of the server names. Keys come in byte order, so this one is the last, or the last before
/// `warning`. No text inside the line can look like it, since its quotes would be escaped.
pub fn session_of(line: &[u8]) -> Option<&str> {
    let at = memmem::rfind(line, SESSION).filter(|&at| at > 0 && line[0] == b'{')?;
    let rest = &line[at + SESSION.len()..];
    let length = rest.iter().position(|&byte| byte == b'"')?;
    let (name, tail) = (std::str::from_utf8(&rest[..length]).ok()?, &rest[length + 1..]);
    let is_named = name == NOBODY || !name.is_empty() && name.bytes().all(is_word);
    (is_named && is_end(tail)).then_some(name)
}

/// Whether the rest of a line is only its end, perhaps after a warning.
fn is_end(tail: &[u8]) -> bool {
    let warning = tail.strip_prefix(b",\"warning\":\"".as_slice());
    let tail = match warning.and_then(|it| it.iter().position(|&byte| byte == b'"').map(|end| (it, end))) {
        Some((it, end)) if end > 0 && it[..end].iter().copied().all(is_word) => &it[end + 1..],
        _ => tail,
    };
    tail == b"}\n"
}

fn is_word(byte: u8) -> bool {
    byte.is_ascii_alphanumeric() || byte == b'_'
}

/// The beginning of the first of these lines, for messages.
pub fn shown(lines: &[u8]) -> String {
    let first = &lines[..lines.len().min(200)];
    let end = first.iter().position(|&byte| byte == b'\n').unwrap_or(first.len());
    bytes_as_text(&first[..end])
}

/// The object that a line is, if it is one, read as the server reads it: JSON by the rules of `serde_json`, where the last of
/// equal keys counts.
pub fn object_of(line: &[u8]) -> Option<Map<String, Value>> {
    match serde_json::from_slice(line) {
        Ok(Value::Object(object)) => Some(object),
        _ => None,
    }
}

/// Whether a word of letters may occur in a text of this line, plain or with escapes.
pub fn may_have(line: &[u8], word: &str) -> bool {
    memmem::find(line, word.as_bytes()).is_some() || memmem::find(line, b"\\u").is_some()
}

/// A request to the front itself, if the line is one: an object with `front` and without the `do` of a command.
pub fn asked_of_front(line: &[u8]) -> Option<Map<String, Value>> {
    let asked = may_have(line, "front").then(|| object_of(line)).flatten()?;
    (asked.contains_key("front") && !asked.contains_key("do")).then_some(asked)
}

/// Whether an object has exactly these keys.
pub fn has_only(object: &Map<String, Value>, keys: &[&str]) -> bool {
    object.len() == keys.len() && keys.iter().all(|key| object.contains_key(*key))
}

/// Whether a text can be the name of a session.
pub fn is_name(text: &str) -> bool {
    let starts = text.bytes().next().map_or(false, |first| first.is_ascii_alphabetic() || first == b'_');
    starts && text.len() <= NAME_MOST && text.bytes().all(is_word)
}

/// Whether the front gives such a name to a client: `c` and digits.
pub fn is_own_name(text: &str) -> bool {
    text.len() > 1 && text.starts_with('c') && text[1..].bytes().all(|byte| byte.is_ascii_digit())
}

/// A line by the front, in the form of the server's lines.
pub fn line_of(value: &Value) -> Vec<u8> {
    let mut line = value.to_string().into_bytes();
    line.push(b'\n');
    line
}

/// The line that says why the front refused a line.
pub fn refusal(code: &str) -> Vec<u8> {
    error_line(code, NOBODY)
}

/// The line that gives a session an error of the front.
pub fn error_line(code: &str, session: &str) -> Vec<u8> {
    format!("{{\"error\":\"{code}\",\"session\":\"{session}\"}}\n").into_bytes()
}

#[cfg(test)]
mod tests {
    use super::*;

    fn with_name(line: &str) -> String {
        let mut out = Vec::new();
        put_with_member(&mut out, line.as_bytes(), &member_of("name"));
        String::from_utf8(out).unwrap()
    }

    #[test]
    fn a_plain_object_is_given_one_more_member() {
        assert_eq!(with_name("{\"do\":\"status\"}"), "{\"do\":\"status\",\"session\":\"name\"}");
        assert_eq!(with_name(" {} \r"), "{\"session\":\"name\"}");
        assert_eq!(with_name("{ \t}"), "{ \t\"session\":\"name\"}");
    }

    #[test]
    fn what_is_no_object_stays_as_it_is() {
        for line in ["nonsense", "[1]", "{", "}", "5", " \"{}\" "] {
            assert_eq!(with_name(line), line);
        }
    }

    /// Lines of random pieces: with a session put in, a line is JSON if it was JSON before, and names that session.
    #[test]
    fn random_lines_name_the_session_that_the_front_put_in() {
        let pieces = [
            "{",
            "}",
            "[",
            "]",
            ",",
            ":",
            "\"",
            "\\",
            "-",
            "e",
            "1",
            " ",
            "\"a\"",
            "\"session\"",
            "\"c1\"",
            "tru",
            "true",
            "\\u00",
            "{}",
            "\"session\":\"c1\"",
            "{\"a\":1}",
        ];
        let (mut state, mut objects) = (1_u64, 0);
        let mut random = |most: usize| {
            state = state.wrapping_mul(6_364_136_223_846_793_005).wrapping_add(1_442_695_040_888_963_407);
            (state >> 33) as usize % most
        };
        for _ in 0..60_000 {
            let mut line: String = (0..random(9)).map(|_| pieces[random(pieces.len())]).collect();
            if random(2) == 0 {
                line = format!("{{{line}}}");
            }
            let before: Result<Value, _> = serde_json::from_str(&line);
            let after: Result<Value, _> = serde_json::from_str(&with_name(&line));
            assert_eq!(before.is_ok(), after.is_ok(), "{line}");
            if let (Ok(Value::Object(mut wanted)), Ok(found)) = (before, after) {
                objects += 1;
                wanted.insert("session".into(), "name".into());
                assert_eq!(found, Value::Object(wanted), "{line}");
            }
        }
        assert!(objects > 300, "{objects}");
    }

    #[test]
    fn the_session_of_a_line_is_its_last_key() {
        let named = |line: &str| session_of(line.as_bytes()).map(str::to_string);
        assert_eq!(named("{\"reply\":1,\"session\":\"c1\"}\n").as_deref(), Some("c1"));
        assert_eq!(named("{\"error\":\"E01\",\"session\":\"-\"}\n").as_deref(), Some("-"));
        assert_eq!(named("{\"object\":1,\"session\":\"a\",\"warning\":\"E04\"}\n").as_deref(), Some("a"));
        for line in ["hello\n", "{\"reply\":1}\n", "{\"session\":\"a b\"}\n", "{\"x\":\"\\\"session\\\":\\\"b\\\"}\"}\n"] {
            assert_eq!(named(line), None, "{line}");
        }
    }

    #[test]
    fn names_are_those_of_the_protocol() {
        assert!(["a", "_", "c1", "A_9"].iter().all(|it| is_name(it)) && is_name(&"n".repeat(64)));
        assert!(!["", "1", "a b", "ä", "a\n"].iter().any(|it| is_name(it)) && !is_name(&"n".repeat(65)));
        assert!(is_own_name("c7") && !is_own_name("c") && !is_own_name("c1a") && !is_own_name("d1"));
    }

    #[test]
    fn an_escaped_key_asks_the_front_too() {
        assert!(asked_of_front(b"{\"\\u0066ront\":\"hello\"}").is_some());
        assert!(asked_of_front(b"{\"front\":1,\"do\":\"status\"}").is_none());
        assert!(asked_of_front(b"[\"front\"]").is_none());
    }
}

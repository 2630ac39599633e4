//! The tokens that distinguish the sources of events.

use mio::Token;

/// The kind of a source of events.
#[derive(Clone, Copy, Debug, PartialEq, Eq)]
pub enum Kind {
    Client,
    Guest,
    ServerOutput,
    ServerInput,
    Door,
    Alarm,
    Input,
    Inspector,
    Hangup,
    /// A connection over the network whose handshake is not done.
    Arrival,
    /// A connection over the network that is closed once the other side has closed too.
    Parting,
    Compaction,
}

const KINDS: [Kind; 12] = [
    Kind::Client,
    Kind::Guest,
    Kind::ServerOutput,
    Kind::ServerInput,
    Kind::Door,
    Kind::Alarm,
    Kind::Input,
    Kind::Inspector,
    Kind::Hangup,
    Kind::Arrival,
    Kind::Parting,
    Kind::Compaction,
];

/// The token of a source, by its kind and its number among those of the kind.
pub fn token(kind: Kind, key: usize) -> Token {
    Token(key * KINDS.len() + kind as usize)
}

/// Reads a token.
pub fn read(token: Token) -> (Kind, usize) {
    (KINDS[token.0 % KINDS.len()], token.0 / KINDS.len())
}

#[cfg(test)]
mod tests {
    use super::*;

    #[test]
    fn tokens_are_read_as_they_were_made() {
        for kind in KINDS {
            for key in [0, 1, 4_097] {
                assert_eq!(read(token(kind, key)), (kind, key));
            }
        }
    }
}

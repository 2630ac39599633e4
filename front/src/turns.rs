//! Decides whose command a server is given next, and how many commands it is given before it has answered.
//!
//! Of the clients that wait, the one goes first that has had the least of the server: the bytes of its commands and of all
//! answers to it, and at least a fixed number for each command. The shares are compared in quanta of one command, so
//! equal clients take turns command by command. A client that was quiet for a while counts as one that has had as much as
//! the others, except for a small credit: so one that asks for little goes before those that ask for much, and nobody saves
//! up turns. One that is new has no credit: however many come, each for a command or two, they do not go before all others.
//!
//! The length of an answer is not known in advance. So a client's next answer is expected to be as long as before, and the
//! server is given nothing more while the answers that are expected of it add up to more than a few pages, or while it has
//! not answered a number of commands. Where there are several clients, only some of these may be of one client. The server
//! does one command after another, and what it was given is not taken back: so whoever comes waits for what is under way.

use std::cmp::Reverse;
use std::collections::{BinaryHeap, VecDeque};
use std::time::Instant;

use slab::Slab;

use crate::people::{ReplayKey, SessionKey, Speaker, SpeakerKey};

/// The most commands that a server has not answered.
pub const UNDER_WAY_MOST: usize = 32;
/// The most commands of one client among these, if there are others.
pub const UNDER_WAY_OF_ONE: usize = 8;
/// A server is given no more when its expected answers have this many bytes.
const EXPECTED_MOST: usize = 65_536;
/// Each command counts for at least this many bytes; larger ones count for the bytes of command and answer. So clients with
/// small commands take turns command by command, whenever these are answered.
const COMMAND: usize = 512;
/// The bytes of a turn: no more than a command counts for, so that each turn is one command.
pub const TURN: u64 = COMMAND as u64;
/// A client that begins to wait is credited with at most this many bytes over the others. With those of one turn its first
/// command goes before all others, and then it takes turns with them.
pub const CREDIT: u64 = TURN;
/// The number of places that one server can give to speakers, before the range of the next server begins.
const PLACES: u64 = 1 << 48;

/// The receivers of what a server writes for a command.
#[derive(Clone, Copy, Debug, PartialEq, Eq)]
pub enum Hears {
    /// The clients.
    Clients,
    /// Nobody.
    Nobody,
    /// A replay, which compares it with the record.
    Replay(ReplayKey),
    /// A replay, and the clients receive what follows the part that they have already received.
    Rest(ReplayKey),
}

impl Hears {
    /// Whether no client receives anything.
    pub fn is_silent(self) -> bool {
        matches!(self, Hears::Nobody | Hears::Replay(_))
    }

    /// Whether clients receive something.
    pub fn is_clients(self) -> bool {
        matches!(self, Hears::Clients | Hears::Rest(_))
    }

    pub fn replay(self) -> Option<ReplayKey> {
        match self {
            Hears::Replay(key) | Hears::Rest(key) => Some(key),
            _ => None,
        }
    }
}

/// A command that a server was given and has not answered.
#[derive(Clone, Copy, Debug)]
pub struct Command {
    pub speaker: SpeakerKey,
    pub session: SessionKey,
    pub expected: usize,
    /// Bytes of its answer that do not count again, because the command counts for a minimum.
    pub counted: usize,
    /// Bytes of its answer so far.
    pub told: usize,
    pub hears: Hears,
    /// It is the front's own `spin` of a live session.
    pub is_spin: bool,
    /// It may post events, while there are live sessions.
    pub may_post: bool,
    /// When it came from its client, and when the server was given it, if times are taken.
    pub came: Option<Instant>,
    pub given: Option<Instant>,
    /// It is a join that is counted.
    pub is_join: bool,
}

/// The speakers that wait for their turns, and the commands under way in their order.
#[derive(Default)]
pub struct Turns {
    /// The speakers that wait, by the turns that they had and then in order of arrival. An entry is void if its speaker no
    /// longer waits in this place.
    waiting: BinaryHeap<Reverse<(u64, u64, SpeakerKey)>>,
    /// The last place that was given to a speaker. No two servers have a place in common: a speaker may move, and an entry
    /// that it has left with one server must not stand for its place with another.
    last_place: u64,
    /// The number of clients, whether or not they wait.
    pub clients: usize,
    /// The share that the speaker of the last turn had had.
    level: u64,
    pub under_way: VecDeque<Command>,
    expected: usize,
}

impl Turns {
    /// The turns of the server with this number.
    pub fn new(number: usize) -> Turns {
        Turns { last_place: number as u64 * PLACES, ..Turns::default() }
    }

    /// Queues a speaker for its turn, if it has a line that may be given.
    pub fn await_turn(&mut self, key: SpeakerKey, speaker: &mut Speaker) {
        if !speaker.has_turn && speaker.may_give() {
            speaker.has_turn = true;
            speaker.served = speaker.served.max(self.level.saturating_sub(CREDIT));
            self.line_up(key, speaker);
        }
    }

    /// Puts a speaker after those that have had fewer turns, or as many and came before.
    fn line_up(&mut self, key: SpeakerKey, speaker: &mut Speaker) {
        let turn = speaker.served / TURN;
        if speaker.turn != Some(turn) {
            self.last_place += 1;
            speaker.turn = Some(turn);
            speaker.place = self.last_place;
        }
        self.waiting.push(Reverse((turn, speaker.place, key)));
    }

    /// The speaker whose turn it is, if the server may be given something. If that one has as many commands under way as
    /// it may have, nobody goes before it.
    pub fn next(&mut self, speakers: &mut Slab<Speaker>) -> Option<SpeakerKey> {
        while self.under_way.len() < UNDER_WAY_MOST && self.expected < EXPECTED_MOST {
            let &Reverse((turn, place, key)) = self.waiting.peek()?;
            let speaker = match speakers.get_mut(key) {
                Some(speaker) if speaker.has_turn && speaker.place == place => speaker,
                _ => {
                    self.waiting.pop();
                    continue;
                }
            };
            let is_its_turn = speaker.may_give() && speaker.served / TURN == turn;
            if is_its_turn && speaker.under_way >= self.most_of_one() {
                return None;
            }
            self.waiting.pop();
            speaker.has_turn = false;
            if is_its_turn {
                self.level = self.level.max(speaker.served);
                return Some(key);
            }
            self.await_turn(key, speaker); // it was answered while it waited, and now comes after others
        }
        None
    }

    /// Whether so many commands of one speaker may be under way while no other speaker waits.
    pub fn has_room(&self, most: usize) -> bool {
        self.waiting.len() <= 1 && self.under_way.len() < most
    }

    /// About how many speakers wait.
    pub fn waiting(&self) -> usize {
        self.waiting.len()
    }

    /// The most commands of one client that may be under way.
    fn most_of_one(&self) -> usize {
        if self.clients > 1 {
            UNDER_WAY_OF_ONE
        } else {
            UNDER_WAY_MOST
        }
    }

    /// Counts a line of so many bytes that the server is given.
    pub fn give(&mut self, key: SpeakerKey, speaker: &mut Speaker, length: usize, session: SessionKey, hears: Hears) {
        speaker.under_way += 1;
        speaker.served += length.max(COMMAND) as u64;
        self.put(Command {
            speaker: key,
            session,
            expected: speaker.expected,
            counted: COMMAND.saturating_sub(length),
            told: 0,
            hears,
            is_spin: false,
            may_post: false,
            came: None,
            given: None,
            is_join: false,
        });
    }

    /// Adds a command to those under way.
    pub fn put(&mut self, command: Command) {
        self.expected += command.expected;
        self.under_way.push_back(command);
    }

    /// Takes out all commands under way, which the server will not answer any more.
    pub fn lose(&mut self) -> Vec<Command> {
        self.expected = 0;
        self.under_way.drain(..).collect()
    }

    /// Adds a client, which counts as one that has had as much as the others.
    pub fn enter(&mut self, speaker: &mut Speaker) {
        self.clients += 1;
        speaker.served = self.level;
        speaker.turn = None;
    }

    /// Removes a client from those that wait here.
    pub fn leave(&mut self, speaker: &mut Speaker) {
        self.clients = self.clients.saturating_sub(1);
        self.drop(speaker);
    }

    /// Removes a speaker from those that wait.
    pub fn drop(&mut self, speaker: &mut Speaker) {
        speaker.has_turn = false;
        speaker.turn = None;
    }

    /// Counts bytes that the server has written for the first command under way.
    pub fn tell(&mut self, length: usize) {
        if let Some(command) = self.under_way.front_mut() {
            command.told += length;
        }
    }

    /// Ends the first command under way.
    pub fn answer(&mut self, speakers: &mut Slab<Speaker>) {
        if let Some(command) = self.under_way.pop_front() {
            self.expected = self.expected.saturating_sub(command.expected);
            if let Some(speaker) = speakers.get_mut(command.speaker) {
                speaker.under_way = speaker.under_way.saturating_sub(1);
                speaker.served += command.told.saturating_sub(command.counted) as u64;
                speaker.expected = command.told.max(speaker.expected - speaker.expected / 8);
            }
        }
    }
}

#[cfg(test)]
mod tests {
    use super::*;
    use crate::people::Owner;

    const LINE: &[u8] = b"xxxxxxxxxxxxxxxxxxxx";

    /// Clients that wait, without a server: each command is answered by the number of bytes that is set for its client.
    #[derive(Default)]
    struct Shares {
        turns: Turns,
        speakers: Slab<Speaker>,
    }

    impl Shares {
        fn clients(count: usize, lines: usize) -> Shares {
            let mut shares = Shares::default();
            shares.turns.clients = count;
            for _ in 0..count {
                let key = shares.speakers.insert(Speaker::new(Owner::Gone, 0));
                shares.ask(key, lines);
            }
            shares
        }

        fn ask(&mut self, key: usize, lines: usize) {
            let speaker = &mut self.speakers[key];
            (0..lines).for_each(|_| speaker.waiting.push(LINE));
            self.turns.await_turn(key, speaker);
        }

        fn give_one(&mut self, key: usize) {
            let speaker = &mut self.speakers[key];
            self.turns.give(key, speaker, LINE.len(), 0, Hears::Clients);
            speaker.waiting.pop();
            self.turns.await_turn(key, speaker);
        }

        /// Gives the server all that it may be given.
        fn give(&mut self) {
            while let Some(key) = self.turns.next(&mut self.speakers) {
                self.give_one(key);
                assert!(self.turns.under_way.len() <= UNDER_WAY_MOST);
                assert!(self.speakers[key].under_way <= UNDER_WAY_OF_ONE || self.turns.clients == 1);
            }
        }

        /// Answers a command by so many bytes; returns whose it was.
        fn answer(&mut self, length: usize) -> usize {
            let key = self.turns.under_way[0].speaker;
            self.turns.tell(length);
            self.turns.answer(&mut self.speakers);
            self.turns.await_turn(key, &mut self.speakers[key]);
            key
        }

        fn go_on(&mut self, commands: usize) {
            for _ in 0..commands {
                self.give();
                self.answer(40);
            }
        }

        /// The number of commands of each client among the first commands that the server has done.
        fn served(lengths: &[usize], commands: usize) -> Vec<usize> {
            let mut shares = Shares::clients(lengths.len(), commands);
            let mut had = vec![0; lengths.len()];
            for _ in 0..commands {
                shares.give();
                let key = shares.turns.under_way[0].speaker;
                shares.answer(lengths[key]);
                had[key] += 1;
            }
            had
        }
    }

    #[test]
    fn equal_clients_have_equal_turns() {
        let had = Shares::served(&[40; 10], 5_000);
        let (most, least) = (had.iter().max().unwrap(), had.iter().min().unwrap());
        assert!(most - least <= 4, "{had:?}");
    }

    #[test]
    fn equal_clients_take_turns_command_by_command() {
        let mut shares = Shares::clients(20, 100);
        shares.go_on(200);
        let mut order = Vec::new();
        for _ in 0..400 {
            shares.give();
            order.push(shares.answer(40));
        }
        for round in order.chunks(20) {
            let had: std::collections::HashSet<usize> = round.iter().copied().collect();
            assert_eq!(had.len(), 20, "the clients of a round: {round:?}");
        }
    }

    /// A client that was quiet while others had many turns begins to ask for much: its first command goes first, and then it
    /// takes turns.
    #[test]
    fn who_comes_late_takes_turns_command_by_command() {
        let mut shares = Shares::clients(8, 400);
        let late = shares.speakers.insert(Speaker::new(Owner::Gone, 0));
        shares.turns.enter(&mut shares.speakers[late]);
        shares.go_on(800);
        shares.ask(late, 100);
        let mut order = Vec::new();
        for _ in 0..400 {
            shares.give();
            order.push(shares.answer(40));
        }
        let begun = order.iter().position(|key| *key == late).unwrap();
        for end in begun..order.len() {
            let had = |key: usize| order[begun..=end].iter().filter(|other| **other == key).count();
            let least = (0..8).map(had).min().unwrap();
            assert!(had(late) <= least + 2, "it has had {} and others {least}: {:?}", had(late), &order[begun..=end]);
        }
    }

    #[test]
    fn clients_have_equal_parts_in_bytes() {
        let had = Shares::served(&[100, 1_000_000, 100], 30_000);
        let (small, heavy, other) = (had[0], had[1], had[2]);
        assert!(small.abs_diff(other) <= UNDER_WAY_MOST, "{had:?}");
        assert!(heavy > 5, "{had:?}");
        assert!(heavy * 1_000_000 <= small * (100 + 512 + LINE.len()) + UNDER_WAY_OF_ONE * 1_000_000, "{had:?}");
    }

    #[test]
    fn one_client_alone_may_have_more_under_way() {
        let mut shares = Shares::clients(1, 100);
        while let Some(key) = shares.turns.next(&mut shares.speakers) {
            shares.give_one(key);
            if shares.speakers[0].expected > 40 {
                shares.answer(40);
            }
        }
        assert_eq!(shares.speakers[0].under_way, UNDER_WAY_MOST);
        while !shares.turns.under_way.is_empty() {
            shares.answer(40);
        }
        shares.turns.clients = 2;
        shares.give();
        assert_eq!(shares.speakers[0].under_way, UNDER_WAY_OF_ONE);
    }

    #[test]
    fn a_quiet_client_goes_first_and_saves_up_no_turns() {
        let mut shares = Shares::clients(50, 2_000);
        let quiet = shares.speakers.insert(Speaker::new(Owner::Gone, 0));
        shares.go_on(2_000);
        for round in 0..200 {
            shares.go_on(60 + round * 37 % 140);
            shares.ask(quiet, 1);
            assert_eq!(shares.turns.next(&mut shares.speakers), Some(quiet), "round {round}");
            shares.give_one(quiet);
            while shares.speakers[quiet].under_way > 0 {
                shares.answer(40);
            }
        }
        let waiting = |shares: &Shares| (0..50).map(|key| shares.speakers[key].waiting.count()).sum::<usize>();
        let before = waiting(&shares);
        shares.ask(quiet, 1_000);
        while shares.speakers[quiet].waiting.count() > 500 {
            shares.go_on(1);
        }
        let saved = (CREDIT + 2 * TURN) as usize / (512 + LINE.len() + 40) + UNDER_WAY_OF_ONE + 1;
        assert!(before - waiting(&shares) >= 50 * (500 - saved) - UNDER_WAY_MOST);
    }

    /// Speakers wait with one server, and then with another one where they are given as many places: the first one must not
    /// take them for its own.
    #[test]
    fn who_has_moved_waits_where_it_is() {
        let (mut shares, mut other) = (Shares::clients(20, 1), Turns::new(1));
        for (key, speaker) in &mut shares.speakers {
            shares.turns.leave(speaker);
            other.enter(speaker);
            other.await_turn(key, speaker);
        }
        assert_eq!(shares.turns.next(&mut shares.speakers), None);
        let found: Vec<usize> = std::iter::from_fn(|| other.next(&mut shares.speakers)).collect();
        assert_eq!(found, (0..20).collect::<Vec<usize>>());
    }

    /// Many new clients come at once, each for two commands: those that were there have their turns meanwhile.
    #[test]
    fn new_clients_do_not_keep_others_waiting() {
        let mut shares = Shares::clients(4, 200);
        shares.go_on(400);
        let before: Vec<usize> = (0..4).map(|key| shares.speakers[key].waiting.count()).collect();
        for _ in 0..50 {
            let mut speaker = Speaker::new(Owner::Gone, 0);
            shares.turns.enter(&mut speaker);
            let key = shares.speakers.insert(speaker);
            shares.ask(key, 2);
        }
        shares.go_on(80);
        for key in 0..4 {
            assert!(shares.speakers[key].waiting.count() < before[key], "client {key}");
        }
    }

    #[test]
    fn who_was_dropped_has_no_turn() {
        let mut shares = Shares::clients(2, 1);
        let speaker = &mut shares.speakers[0];
        shares.turns.drop(speaker);
        assert_eq!(shares.turns.next(&mut shares.speakers), Some(1));
        assert_eq!(shares.turns.next(&mut shares.speakers), None);
    }
}

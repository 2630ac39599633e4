//! Moves a group to another server, so that no line is lost, sent twice or changed.
//!
//! The group's commands wait until those under way are answered. Then the other server is brought to the group's state. If
//! that fails the group stays where it was.

use crate::front::Front;
use crate::people::{GroupKey, ReplayKey};
use crate::replaying::Purpose;

/// A move of a group that has begun or is to begin.
pub struct Move {
    /// The index of the worker to which the group moves.
    pub target: usize,
    pub replay: Option<ReplayKey>,
    /// The operator that has asked for the move.
    pub guest: usize,
}

impl Front {
    /// Begins a move when nothing of the group is under way.
    pub fn begin_move(&mut self, key: GroupKey, target: usize, guest: usize) {
        self.groups[key].moving = Some(Move { target, replay: None, guest });
        self.hold(key);
        if self.groups[key].under_way > 0 {
            self.groups[key].moves_when_idle = true;
        } else {
            self.start_move(key);
        }
    }

    /// Brings the other server to the group's state.
    pub fn start_move(&mut self, key: GroupKey) {
        if let Some(target) = self.groups[key].moving.as_ref().map(|moving| moving.target) {
            let replay = self.add_replay(key, target, Purpose::Move);
            if let Some(moving) = &mut self.groups[key].moving {
                moving.replay = Some(replay);
            }
        }
    }

    /// Ends a move: the other server has the group's state, or cannot be brought there.
    pub fn moved(&mut self, key: GroupKey, is_begun: bool, fault: &str) {
        if !fault.is_empty() {
            self.stay(key, is_begun, fault);
        } else if let Some(moving) = self.groups[key].moving.take() {
            let (before, after) = (self.groups[key].worker, moving.target);
            let names = self.groups[key].filled.clone();
            self.sweep(before, names);
            let group = &mut self.groups[key];
            for speaker in &group.speakers {
                self.workers[before].turns.leave(&mut self.speakers[*speaker]);
                self.workers[after].turns.enter(&mut self.speakers[*speaker]);
            }
            group.worker = after;
            self.answer_move(moving.guest, key, "");
        }
        self.release(key);
    }

    /// Cancels a move, because the group's server has ended.
    pub fn give_up_move(&mut self, key: GroupKey, fault: &str) {
        let replay = self.groups[key].moving.as_ref().and_then(|moving| moving.replay);
        let left = replay.and_then(|replay| self.leave_replay(replay));
        self.stay(key, left.map_or(false, |replay| replay.is_begun), fault);
    }

    fn stay(&mut self, key: GroupKey, is_begun: bool, fault: &str) {
        let group = &mut self.groups[key];
        group.moves_when_idle = false;
        if let Some(moving) = group.moving.take() {
            let names = group.named.clone();
            if is_begun {
                self.sweep(moving.target, names);
            }
            self.answer_move(moving.guest, key, fault);
        }
    }
}

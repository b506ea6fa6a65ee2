//! A journal's bytes as docs/JOURNAL.md says that the calls leave them. The length says which of the two sizes a
//! journal has.

use crate::record::{length_of, record_of, restored};
use reference::adapter::State;
use sca::{JOURNAL_BYTES, LARGE_JOURNAL_BYTES};

const HEADER: usize = 1_024;
pub const SLOT: usize = 256;
const MARK: [u8; 3] = [0x53, 0x43, 0x4A];
pub const VERSION: usize = 3;
pub const FIRST: usize = 5;
pub const KEPT: usize = 6;

/// The slots of a small journal and of a large one: the most events that each keeps.
pub const SMALL: usize = 64;
pub const LARGE: usize = 200;

/// The first thing for which bytes are no journal.
#[derive(Clone, Copy, PartialEq, Eq, PartialOrd, Ord, Debug)]
pub enum Wrong {
    Length,
    Mark,
    /// That of the other size.
    OthersVersion,
    Version,
    First,
    Kept,
}

/// Mark, version, first slot and kept number.
pub fn front(version: u8, first: u8, kept: u8) -> [u8; 7] {
    let [s, c, j] = MARK;
    [s, c, j, version, 0, first, kept]
}

#[derive(Clone, PartialEq, Eq)]
pub struct Ring(pub Vec<u8>);

impl Ring {
    /// Bytes that no call wrote yet, none of them like another.
    pub fn unwritten(length: usize) -> Ring {
        Ring((0..length).map(|at| (at * 29 + at / 256) as u8).collect())
    }

    /// The most events that a journal of this length keeps; 0 where it is none's.
    pub fn most(&self) -> usize {
        match self.0.len() {
            JOURNAL_BYTES => SMALL,
            LARGE_JOURNAL_BYTES => LARGE,
            _ => 0,
        }
    }

    fn version(&self) -> u8 {
        if self.most() == LARGE {
            2
        } else {
            1
        }
    }

    /// What every event and step back asks of a journal.
    pub fn well_formed(&self) -> bool {
        self.wrong().is_none()
    }

    /// Why these bytes are no journal; none where they are one.
    pub fn wrong(&self) -> Option<Wrong> {
        let version = |version: u8| [version, 0];
        if self.most() == 0 {
            Some(Wrong::Length)
        } else if self.0[..VERSION] != MARK {
            Some(Wrong::Mark)
        } else if self.0[VERSION..FIRST] == version(3 - self.version()) {
            Some(Wrong::OthersVersion)
        } else if self.0[VERSION..FIRST] != version(self.version()) {
            Some(Wrong::Version)
        } else if self.first() >= self.most() {
            Some(Wrong::First)
        } else if self.kept() > self.most() {
            Some(Wrong::Kept)
        } else {
            None
        }
    }

    pub fn first(&self) -> usize {
        usize::from(self.0[FIRST])
    }

    pub fn kept(&self) -> usize {
        usize::from(self.0[KEPT])
    }

    /// Where the slot starts that comes so many after the first.
    pub fn slot(&self, after_first: usize) -> usize {
        HEADER + SLOT * ((self.first() + after_first) % self.most())
    }

    pub fn empty(&mut self) {
        let front = front(self.version(), 0, 0);
        self.0[..front.len()].copy_from_slice(&front);
    }

    /// The record of an event with this tag, from the state before it.
    pub fn push(&mut self, tag: u8, before: &State) {
        let (at, kept) = (self.slot(self.kept()), self.kept());
        let record = record_of(before, tag);
        self.0[at..at + record.len()].copy_from_slice(&record);
        if kept == self.most() {
            self.0[FIRST] = ((self.first() + 1) % self.most()) as u8;
        } else {
            self.0[KEPT] += 1;
        }
    }

    /// The large journal that an enlarging makes of a second buffer, which held these bytes: the slots of the kept
    /// records whole, the oldest first.
    pub fn enlarged(&self, second: &[u8]) -> Ring {
        let mut large = Ring(second.to_vec());
        large.empty();
        for nth in 0..self.kept() {
            large.copy_slot(nth, self, nth);
        }
        large.0[KEPT] = self.0[KEPT];
        large
    }

    /// A slot that comes so many after the first becomes one of another ring.
    pub fn copy_slot(&mut self, to: usize, other: &Ring, from: usize) {
        let (to, from) = (self.slot(to), other.slot(from));
        self.0[to..to + SLOT].copy_from_slice(&other.0[from..from + SLOT]);
    }

    /// What a step back makes of the state handed in; none where the newest record is damaged.
    pub fn newest(&self, handed_in: &State) -> Option<State> {
        self.record(0, handed_in)
    }

    /// Where the newest record starts: where none is kept, the slot before the first.
    pub fn newest_at(&self) -> usize {
        self.record_at(0)
    }

    /// Where a record starts: the newest is 0, and older ones follow.
    pub fn record_at(&self, newest: usize) -> usize {
        self.slot(self.kept() + self.most() - 1 - newest)
    }

    /// The tag of the newest record; none where there is no record.
    pub fn newest_tag(&self) -> Option<u8> {
        (self.well_formed() && self.kept() > 0).then(|| self.0[self.newest_at()])
    }

    /// Where the newest record ends.
    pub fn newest_end(&self) -> usize {
        self.newest_at() + self.newest_tag().map_or(0, length_of)
    }

    pub fn lower(&mut self) {
        self.0[KEPT] -= 1;
    }

    /// What a record makes of the state handed in: the newest is 0, and older ones follow.
    pub fn record(&self, newest: usize, handed_in: &State) -> Option<State> {
        let at = self.record_at(newest);
        restored(&self.0[at..at + SLOT], handed_in)
    }
}

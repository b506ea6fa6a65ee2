//! A state and a journal on both sides.

use crate::batches::Taken;
use crate::calls::Call;
use crate::image::{bytes_of, state_in};
use crate::journals::{Copied, Found};
use crate::record::{tag_of_channel, CRB};
use crate::ring::{Ring, Wrong};
use crate::tally::Back;
use reference::adapter::{self, Condition, Journal, Size, State};
use reference::numbers::{BAD_JOURNAL, DONE};
use sca::{I2C_FIRST, JOURNAL_BYTES};

/// The chip that a run starts with.
const FIRST_ID: u32 = 0x00_000A;

/// A state and a journal: the library's bytes, and what they are expected to be.
#[derive(Clone)]
pub struct Pair {
    pub state: Vec<u8>,
    pub journal: Vec<u8>,
    /// None where the bytes spell no state; they are then to stay as they were handed in.
    pub expected: Option<State>,
    pub handed_in: Vec<u8>,
    pub earlier: Journal,
    pub ring: Ring,
    /// How many of the newest records are of events since the state was last put in from elsewhere. The journal did
    /// not go with it further back.
    pub together: usize,
    /// How many of the newest records are of batches' samples.
    pub sampled: usize,
    /// How many steps back were granted since the newest event.
    pub in_a_row: usize,
    /// What an enlarging put into the journal, where one made it.
    pub copied: Option<Copied>,
    /// The journal's bytes were altered, so that `earlier` does not stand for them.
    pub altered: bool,
}

impl Pair {
    /// A new adapter, with a small journal that is empty.
    pub fn new() -> Pair {
        let state = State::power_on(FIRST_ID);
        let mut ring = Ring::unwritten(JOURNAL_BYTES);
        ring.empty();
        Pair {
            state: bytes_of(&state),
            journal: ring.0.clone(),
            expected: Some(state),
            handed_in: Vec::new(),
            earlier: Journal::new(),
            ring,
            together: 0,
            sampled: 0,
            in_a_row: 0,
            copied: None,
            altered: false,
        }
    }

    /// A call as this state finds it.
    pub fn finds(&self, call: &Call) -> Call {
        call.found_by(&self.expected.unwrap_or_default())
    }

    pub fn set_state(&mut self, bytes: Vec<u8>) {
        self.expected = state_in(&bytes);
        self.handed_in = bytes.clone();
        self.state = bytes;
        self.together = 0;
        self.sampled = 0;
    }

    /// Bytes as somebody may have altered them.
    pub fn set_journal(&mut self, bytes: Vec<u8>) {
        self.ring = Ring(bytes.clone());
        self.journal = bytes;
        self.sampled = 0;
        self.in_a_row = 0;
        self.copied = None;
        self.altered = true;
        self.earlier = Journal::sized(Size::of(self.journal.len()).unwrap_or(Size::Small));
        self.earlier.condition = match self.ring.wrong() {
            None => Condition::Whole,
            Some(Wrong::Length) => Condition::WrongLength,
            Some(_) => Condition::WrongLayout,
        };
    }

    /// A journal's bytes that no call wrote yet.
    pub fn set_unwritten(&mut self, length: usize) {
        self.set_journal(Ring::unwritten(length).0);
    }

    /// The journal is empty, whatever it was, and the independent implementation's is too.
    pub fn empty_ring(&mut self) {
        self.ring.empty();
        self.altered = false;
        self.together = 0;
        self.sampled = 0;
        self.in_a_row = 0;
        self.copied = None;
    }

    /// A second buffer is the journal from now on.
    pub fn enlarge(&mut self, second: Vec<u8>, ring: Ring, earlier: Journal) {
        self.copied = Some(Copied::of(ring.kept()));
        self.journal = second;
        self.ring = ring;
        self.earlier = earlier;
    }

    pub fn push(&mut self, tag: u8, before: &State) {
        if let (true, Some(copied)) = (self.ring.kept() == self.ring.most(), &mut self.copied) {
            copied.give_up_oldest();
        }
        self.ring.push(tag, before);
        self.together = self.ring.kept().min(self.together + 1);
        self.sampled = 0;
        self.in_a_row = 0;
    }

    /// A record for each sample of a batch.
    pub fn push_samples(&mut self, taken: &[Taken]) {
        let sampled = self.sampled + taken.len();
        taken.iter().for_each(|taken| self.push(CRB, &taken.before));
        self.sampled = self.ring.kept().min(sampled);
    }

    pub fn lower(&mut self) {
        if let Some(copied) = &mut self.copied {
            copied.take_back(self.ring.kept());
        }
        self.ring.lower();
        self.together = self.together.saturating_sub(1);
        self.sampled = self.sampled.saturating_sub(1);
        self.in_a_row += 1;
    }

    /// A step back that found nothing to take back: what is counted up to it begins anew.
    pub fn reach_end(&mut self) {
        self.in_a_row = 0;
        self.copied = self.copied.map(|_| Copied::of(0));
    }

    /// The journal as a call finds it.
    pub fn found(&self) -> Found {
        let wrong = self.ring.wrong();
        let (first, kept) = match wrong {
            None => (self.ring.first(), self.ring.kept()),
            Some(_) => (0, 0),
        };
        Found {
            most: self.ring.most(),
            wrong,
            first,
            kept,
            in_a_row: self.in_a_row,
            copied: self.copied,
            altered: self.altered,
        }
    }

    /// What a step back is on.
    pub fn back(&self) -> Back {
        if self.altered {
            Back::Altered
        } else if self.together == 0 && self.ring.kept() > 0 {
            Back::Apart
        } else {
            Back::Together
        }
    }

    /// What the independent implementation makes of a step back. It keeps whole states: over a state that the journal
    /// did not go with, what the record lacks stays as handed in, and what then is no state is refused.
    pub fn by_reference_back(&mut self, state: State) -> (u8, State) {
        let (mut after, tag) = (state, self.ring.newest_tag());
        let earlier = (self.back() == Back::Apart).then(|| self.earlier.clone());
        let number = adapter::step_back(&mut after, &mut self.earlier);
        if let (DONE, Some(earlier)) = (number, earlier) {
            stay(&state, tag, &mut after);
            if !adapter::in_range(&after) {
                self.earlier = earlier;
                return (BAD_JOURNAL, state);
            }
        }
        (number, after)
    }
}

/// What a record of this tag lacks stays as it was handed in.
fn stay(handed_in: &State, tag: Option<u8>, after: &mut State) {
    if tag != Some(CRB) {
        after.spi = handed_in.spi;
        after.gpio = handed_in.gpio;
    }
    for (place, master) in after.masters.iter_mut().enumerate() {
        if tag != Some(tag_of_channel(u32::from(I2C_FIRST) + place as u32)) {
            *master = handed_in.masters[place];
        }
    }
}

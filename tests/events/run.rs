//! Runs the calls of a run on both sides, the library and the independent implementation, and compares all that each
//! call gives and leaves.

mod batch;
mod enlarge;
mod pair;

use crate::calls::Call;
use crate::fault::Fault;
use crate::harness::output::Output;
use crate::harness::same::{same, same_bytes, Checked};
use crate::image::{bytes_of, state_in};
use crate::journals::Kind;
use crate::record::{tag_of, CORE};
use crate::ring::{FIRST, KEPT, LARGE, SMALL, VERSION};
use crate::tally::{Back, Step, Tally};
use pair::Pair;
use reference::adapter::{self, Journal, State};
use reference::numbers::{BAD_ID, BAD_JOURNAL, DONE, FRAME, NOTHING_KEPT, OUT_OF_RANGE, UNREADABLE};
use sca::boundary::{self, RawAnswer};
use sca::STATE_BYTES;

pub fn refused(number: u8) -> bool {
    (1..=UNREADABLE).contains(&number)
}

/// A run's own state and journal, and what is done to them.
pub struct Run<'a> {
    own: Pair,
    both: Both<'a>,
}

impl<'a> Run<'a> {
    pub fn new(tally: &'a mut Tally, fault: Option<Fault>) -> Run<'a> {
        Run {
            own: Pair::new(),
            both: Both {
                tally,
                fault,
                faulted: false,
            },
        }
    }

    /// The calls one after the other; where they differ, which call and how.
    pub fn all(&mut self, calls: &[Call]) -> Checked {
        for (at, call) in calls.iter().enumerate() {
            self.call(call)
                .map_err(|how| format!("call {}, {:.1000}: {}", at + 1, self.found(call).to_string(), how))?;
        }
        self.records()
    }

    /// A call as the run's state finds it.
    pub fn found(&self, call: &Call) -> Call {
        self.own.finds(call)
    }

    pub fn call(&mut self, call: &Call) -> Checked {
        self.both.on(&mut self.own, call)
    }

    /// The fault was laid in.
    pub fn faulted(&self) -> bool {
        self.both.faulted
    }

    /// The records take the state back, one after the other, to those that the independent implementation can go back
    /// to. One of an event that happened to another state has that state's bytes: it leaves it as it was.
    fn records(&self) -> Checked {
        let earlier: Vec<&State> = self.own.earlier.earlier().collect();
        let mut state = self.own.expected.expect("a run's own state is one");
        for (newest, before) in earlier.into_iter().rev().enumerate() {
            let handed_in = if newest < self.own.together { &state } else { before };
            same("a record", self.own.ring.record(newest, handed_in), Some(*before))?;
            state = *before;
        }
        Ok(())
    }
}

/// Both sides, on whichever state and journal.
struct Both<'a> {
    tally: &'a mut Tally,
    fault: Option<Fault>,
    /// The fault was laid in; it is laid in once.
    faulted: bool,
}

impl Both<'_> {
    fn on(&mut self, pair: &mut Pair, call: &Call) -> Checked {
        match pair.finds(call) {
            Call::Adopt { state } => {
                if state_in(&state).as_ref().map_or(false, adapter::in_range) {
                    pair.set_state(state);
                }
                Ok(())
            }
            Call::FlippedState { bit, call } => {
                let mut bytes = pair.state.clone();
                bytes[bit / 8] ^= 1 << (bit % 8);
                let taken = state_in(&bytes).as_ref().map_or(false, adapter::in_range);
                if let (Some(state), false) = (pair.expected, *call == Call::Kept) {
                    self.tally.masters.flipped(bit, &state, taken);
                }
                self.on_state(pair, bytes, &call)
            }
            Call::StateOfLength { length, call } => self.on_state(pair, resized(&pair.state, length), &call),
            Call::OtherState { state, call } => self.on_state(pair, state, &call),
            Call::AlteredJournal { at, byte, call } => self.on_altered(pair, at, byte, &call),
            Call::AlteredRecord { at, byte, call } => self.on_altered(pair, pair.ring.newest_at() + at, byte, &call),
            Call::JournalOfLength { length, call } => self.on_journal(pair, resized(&pair.journal, length), &call),
            Call::JournalWithFront { length, front, call } => {
                let mut bytes = resized(&pair.journal, length);
                let front = &front[..front.len().min(length)];
                bytes[..front.len()].copy_from_slice(front);
                self.on_journal(pair, bytes, &call)
            }
            Call::Aside { calls } => self.aside(&mut pair.clone(), &calls),
            call => self.does(pair, &call),
        }
    }

    /// A call on a copy with another state.
    fn on_state(&mut self, pair: &Pair, bytes: Vec<u8>, call: &Call) -> Checked {
        let mut copy = pair.clone();
        copy.set_state(bytes);
        self.on(&mut copy, call)
    }

    /// A call on a copy with another journal.
    fn on_journal(&mut self, pair: &Pair, bytes: Vec<u8>, call: &Call) -> Checked {
        let mut copy = pair.clone();
        copy.set_journal(bytes);
        self.tally.journals.altered(&pair.found(), &copy.found());
        self.on(&mut copy, call)
    }

    /// A call on a copy of the journal with one byte altered; a place behind its end is one from its front on again.
    fn on_altered(&mut self, pair: &Pair, at: usize, byte: u8, call: &Call) -> Checked {
        let mut bytes = pair.journal.clone();
        let at = at % bytes.len();
        bytes[at] = byte;
        self.on_journal(pair, bytes, call)
    }

    fn aside(&mut self, pair: &mut Pair, calls: &[Call]) -> Checked {
        for (at, call) in calls.iter().enumerate() {
            let here = |how: String| format!("call {} of these, {}: {}", at + 1, call, how);
            self.on(pair, call).map_err(here)?;
        }
        Ok(())
    }

    /// A call of the library.
    fn does(&mut self, pair: &mut Pair, call: &Call) -> Checked {
        self.tally.calls += 1;
        match call {
            Call::Create { length, id } => return self.create(pair, *length, *id),
            Call::Empty { length } if *length == pair.journal.len() => self.empty(pair)?,
            Call::Empty { length } => self.empty_another(pair, *length)?,
            Call::StepBack => self.step_back(pair)?,
            Call::Kept => {}
            Call::Enlarge { length, held } => self.enlarge(pair, *length, *held)?,
            Call::Samples { list, room } => self.batch(pair, list, *room)?,
            _ => self.event(pair, call)?,
        }
        self.kept(pair)
    }

    /// Whether to change our side here.
    fn lay(&mut self, fault: Fault, applies: bool) -> bool {
        let now = applies && !self.faulted && self.fault == Some(fault);
        self.faulted |= now;
        now
    }

    fn create(&mut self, pair: &mut Pair, length: usize, id: u32) -> Checked {
        let (made, state) = adapter::create(id);
        let fill = |length: usize| (0..length).map(|at| (at * 31) as u8 ^ 0xC3).collect::<Vec<u8>>();
        let mut bytes = fill(length);
        let number = boundary::sca_create(&mut bytes, id);
        let (expected, after) = match state {
            _ if length != STATE_BYTES => (OUT_OF_RANGE, fill(length)),
            Some(state) => (made, bytes_of(&state)),
            None => (BAD_ID, fill(length)),
        };
        if self.lay(Fault::Created, expected == DONE) {
            bytes[25] ^= 1;
        }
        self.tally.create[usize::from(expected)] += 1;
        same("the number", number, u64::from(expected))?;
        same("the new state", &bytes, &after)?;
        if expected == DONE {
            pair.set_state(bytes);
        }
        Ok(())
    }

    /// Another journal than the one at hand, which takes its place where it is one.
    fn empty_another(&mut self, pair: &mut Pair, length: usize) -> Checked {
        let mut other = pair.clone();
        other.set_unwritten(length);
        self.empty(&mut other)?;
        if other.ring.well_formed() {
            *pair = other;
        }
        Ok(())
    }

    fn empty(&mut self, pair: &mut Pair) -> Checked {
        let found = pair.found();
        let number = boundary::sca_empty(&mut pair.journal);
        let expected = adapter::empty(&mut pair.earlier);
        if expected == DONE {
            pair.empty_ring();
        }
        if self.lay(Fault::EmptiedAsSmall, pair.ring.most() == LARGE) {
            pair.journal[VERSION] = 1;
        }
        self.tally.empty[usize::from(expected)] += 1;
        self.tally.journals.seen(Kind::Emptying, &found, expected);
        same("the number", number, u64::from(expected))?;
        same_bytes("the journal", &pair.journal, &pair.ring.0)
    }

    fn event(&mut self, pair: &mut Pair, call: &Call) -> Checked {
        let room = match call {
            Call::Frame { room, .. } => *room,
            Call::Completion { room, .. } => *room,
            Call::I2cCompletion { room, .. } => *room,
            Call::Sample { room, .. } => *room,
            Call::Upset { room } => *room,
            _ => unreachable!("no event: {}", call),
        };
        let found = pair.found();
        let (mut ours, mut expected_output) = (Output::new(room), Output::new(room));
        let mut answer = by_library(&mut pair.state, &mut pair.journal, call, ours.lent());
        let before = pair.expected;
        let expected = match &mut pair.expected {
            None => RawAnswer {
                number: OUT_OF_RANGE,
                length: 0,
                port: 0,
            },
            Some(state) => by_reference(state, &mut pair.earlier, call, expected_output.lent()),
        };
        let kept = !refused(expected.number);
        if kept && pair.sampled > 0 {
            self.tally.batches.followed_by(call);
        }
        if let (true, Some(before)) = (kept, before) {
            match adapter::kept(&pair.earlier) {
                (_, 0) => pair.empty_ring(),
                _ => {
                    pair.push(tag_of(call), &before);
                    self.tally.recorded(tag_of(call), expected.number);
                }
            }
        }
        self.break_event(pair, &mut answer, &mut ours, kept);
        self.tally
            .event(call, &before, &pair.expected, &expected, expected_output.lent());
        self.tally.journals.seen(Kind::of(call), &found, expected.number);
        same("the answer", answer, expected)?;
        same("the output", ours, expected_output)?;
        self.left(pair)
    }

    fn break_event(&mut self, pair: &mut Pair, answer: &mut RawAnswer, output: &mut Output, kept: bool) {
        let frame = answer.number == FRAME;
        let room = output.lent().len();
        if self.lay(Fault::Number, true) {
            answer.number += 1;
        }
        if self.lay(Fault::Port, frame) {
            answer.port ^= 1;
        }
        if self.lay(Fault::Length, frame) {
            answer.length += 1;
        }
        if self.lay(Fault::Body, frame) {
            output.lent()[answer.length - 1] ^= 1;
        }
        if self.lay(Fault::OutputAfterBody, frame && room > answer.length) {
            output.lent()[answer.length] ^= 1;
        }
        if self.lay(Fault::OutsideOutput, true) {
            *output.bytes.last_mut().unwrap() ^= 1;
        }
        if self.lay(Fault::State, kept) {
            pair.state[12] ^= 1;
        }
        if self.lay(Fault::Master, kept) {
            *pair.state.last_mut().unwrap() ^= 1;
        }
        if self.lay(Fault::RefusedState, !kept && !pair.state.is_empty()) {
            pair.state[0] ^= 1;
        }
        if let (true, Some(tag)) = (kept, pair.ring.newest_tag()) {
            self.break_record(pair, tag);
        }
        let over_64 = kept && (pair.ring.most(), pair.ring.kept()) == (LARGE, SMALL + 1);
        if self.lay(Fault::KeepsSixtyFour, over_64) {
            pair.journal[FIRST] = ((pair.ring.first() + 1) % LARGE) as u8;
            pair.journal[KEPT] = SMALL as u8;
        }
        if self.lay(Fault::UnusedJournal, kept) {
            pair.journal[1_000] ^= 1;
        }
        if self.lay(Fault::RefusedJournal, !kept && pair.journal.len() > 20) {
            pair.journal[20] ^= 1;
        }
        if self.lay(Fault::RefusedOutput, !kept && room > 0) {
            output.lent()[0] ^= 1;
        }
    }

    fn break_record(&mut self, pair: &mut Pair, tag: u8) {
        let (at, end) = (pair.ring.newest_at(), pair.ring.newest_end());
        if self.lay(Fault::Tag, true) {
            pair.journal[at] ^= 1;
        }
        if self.lay(Fault::Record, true) {
            pair.journal[at + 1] ^= 1;
        }
        if self.lay(Fault::Group(tag), tag != CORE) {
            pair.journal[end - 1] ^= 1;
        }
        if self.lay(Fault::BehindRecord, true) {
            pair.journal[end] ^= 1;
        }
    }

    /// What docs/JOURNAL.md says a step back does; where no byte was altered, the independent implementation says it
    /// too.
    fn step_back(&mut self, pair: &mut Pair) -> Checked {
        let (found, back) = (pair.found(), pair.back());
        let answer = boundary::sca_step_back(&mut pair.state, &mut pair.journal);
        let before = pair.expected;
        let (number, after) = match before.filter(adapter::in_range) {
            None => (OUT_OF_RANGE, before),
            Some(_) if !pair.ring.well_formed() => (BAD_JOURNAL, before),
            Some(_) if pair.ring.kept() == 0 => (NOTHING_KEPT, before),
            Some(state) => match pair.ring.newest(&state) {
                None => (BAD_JOURNAL, before),
                restored => (DONE, restored),
            },
        };
        if let (Some(state), false) = (before, pair.altered) {
            let (theirs, left) = pair.by_reference_back(state);
            same("docs/JOURNAL.md's number", number, theirs)?;
            same("docs/JOURNAL.md's state", after, Some(left))?;
        }
        self.tally.step_back(&Step {
            number,
            back,
            tag: pair.ring.newest_tag(),
            sampled: pair.sampled,
            journal: found,
        });
        if let (DONE, Back::Together, Some(before), Some(after)) = (number, back, &before, &after) {
            self.tally.masters.stepped_back(before, after);
        }
        match number {
            DONE => pair.lower(),
            NOTHING_KEPT => pair.reach_end(),
            _ => {}
        }
        pair.expected = after;
        if self.lay(Fault::RestoredState, number == DONE) {
            pair.state[8] ^= 1;
        }
        let expected = RawAnswer {
            number,
            length: 0,
            port: 0,
        };
        same("the answer", answer, expected)?;
        self.left(pair)
    }

    /// All bytes of state and journal, and the state field by field.
    fn left(&self, pair: &Pair) -> Checked {
        let bytes = pair.expected.as_ref().map(bytes_of);
        same_bytes("the state", &pair.state, bytes.as_ref().unwrap_or(&pair.handed_in))?;
        same_bytes("the journal", &pair.journal, &pair.ring.0)?;
        same("the state's fields", state_in(&pair.state), pair.expected)
    }

    fn kept(&mut self, pair: &Pair) -> Checked {
        let mut ours = boundary::sca_kept(&pair.journal);
        let expected = if pair.ring.well_formed() {
            (DONE, pair.ring.kept())
        } else {
            (BAD_JOURNAL, 0)
        };
        if !pair.altered {
            same("docs/JOURNAL.md's kept number", expected, adapter::kept(&pair.earlier))?;
        }
        if self.lay(Fault::KeptNumber, true) {
            ours.kept += 1;
        }
        self.tally.kept[usize::from(expected.0)] += 1;
        self.tally.journals.seen(Kind::Counting, &pair.found(), expected.0);
        same("the kept number", (ours.number, ours.kept), expected)
    }
}

/// An event by the library.
pub fn by_library(state: &mut [u8], journal: &mut [u8], call: &Call, output: &mut [u8]) -> RawAnswer {
    match call {
        Call::Frame { port, body, .. } => boundary::sca_frame(state, journal, *port, body, output),
        Call::Completion { received, .. } => boundary::sca_completion(state, journal, received, output),
        Call::I2cCompletion {
            channel,
            acknowledge,
            line_low,
            received,
            ..
        } => boundary::sca_i2c_completion(state, journal, *channel, *acknowledge, *line_low, received, output),
        Call::Sample { levels, kind, .. } => boundary::sca_sample(state, journal, *levels, *kind, output),
        _ => boundary::sca_upset(state, journal, output),
    }
}

/// Bytes cut, or lengthened with zeros.
fn resized(bytes: &[u8], length: usize) -> Vec<u8> {
    let mut bytes = bytes.to_vec();
    bytes.resize(length, 0);
    bytes
}

fn by_reference(state: &mut State, journal: &mut Journal, call: &Call, output: &mut [u8]) -> RawAnswer {
    let answer = match call {
        Call::Frame { port, body, .. } => adapter::frame(state, journal, *port, body, output),
        Call::Completion { received, .. } => adapter::completion(state, journal, received, output),
        Call::I2cCompletion {
            channel,
            acknowledge,
            line_low,
            received,
            ..
        } => adapter::i2c_completion(state, journal, *channel, *acknowledge, *line_low, received, output),
        Call::Sample { levels, kind, .. } => adapter::sample(state, journal, *levels, *kind, output),
        _ => adapter::upset(state, journal, output),
    };
    RawAnswer {
        number: answer.number,
        length: answer.length,
        port: answer.port,
    }
}

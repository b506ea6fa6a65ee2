//! A batch of pin samples on both sides. All that it comes to, and what it leaves in the journal, follows from its samples one by
//! one.

use super::{refused, same, same_bytes, Both, Checked, Pair};
use crate::batches::{Seen, Taken};
use crate::fault::{BatchFault, Fault};
use crate::harness::output::Output;
use crate::record::CRB;
use reference::adapter::{self, Journal, Sample, State};
use reference::numbers::{BAD_ARGUMENT, DONE, FRAME, GPIO_DISABLED, OUT_OF_RANGE};
use sca::boundary::{self, RawBatch, RawSample};
use sca::{REPLY_BYTES, SAMPLES_MOST};

/// What an empty batch is handed where it is to be kept: a fault.
const ONE: [RawSample; 1] = [RawSample { levels: 0, kind: 0 }];

/// A number with nothing beside it.
fn alone(number: u8) -> RawBatch {
    RawBatch {
        number,
        length: 0,
        port: 0,
        frames: 0,
        sum: 0,
    }
}

/// The samples in front of the first one for which a batch is refused.
fn sound_front(list: &[RawSample]) -> &[RawSample] {
    let most = &list[..list.len().min(SAMPLES_MOST)];
    let wrong = most.iter().position(|sample| sample.kind > 2);
    &most[..wrong.unwrap_or(most.len())]
}

/// Samples given one by one to the independent implementation.
struct Course {
    taken: Vec<Taken>,
    after: State,
    bodies: Vec<u8>,
    answer: RawBatch,
}

impl Course {
    fn of(state: State, list: &[RawSample]) -> Course {
        let mut course = Course {
            taken: Vec::with_capacity(list.len()),
            after: state,
            bodies: Vec::new(),
            answer: alone(DONE),
        };
        let mut journal = Journal::new();
        list.iter().for_each(|sample| course.take(*sample, &mut journal));
        course
    }

    fn take(&mut self, sample: RawSample, journal: &mut Journal) {
        let (before, mut output) = (self.after, [0; 16]);
        let answer = adapter::sample(&mut self.after, journal, sample.levels, sample.kind, &mut output);
        if answer.number == FRAME {
            let body = &output[..answer.length];
            let ones: u32 = body[6..].iter().map(|byte| byte.count_ones()).sum();
            self.bodies.extend(body);
            self.answer = RawBatch {
                number: FRAME,
                length: answer.length,
                port: answer.port,
                frames: self.answer.frames + 1,
                sum: self.answer.sum + ones,
            };
        }
        self.taken.push(Taken {
            sample,
            before,
            datain: self.after.gpio.datain,
            number: answer.number,
        });
    }

    /// That a batch of the same samples comes to the same.
    fn same_as(&self, batch: RawBatch, after: Option<State>, output: &[u8]) -> Checked {
        same("one by one, the answer", self.answer, batch)?;
        same("one by one, the state", Some(self.after), after)?;
        same_bytes("one by one, the bodies", &self.bodies, &output[..self.bodies.len()])
    }

    /// The places of the samples that send.
    fn sending(&self) -> impl DoubleEndedIterator<Item = usize> + '_ {
        let places = self.taken.iter().enumerate();
        places
            .filter(|(_, taken)| taken.number == FRAME)
            .map(|(place, _)| place)
    }

    /// Whether there are samples, and GPIO is disabled.
    fn disabled(&self) -> bool {
        self.taken.iter().any(|taken| taken.number == GPIO_DISABLED)
    }

    /// How many lines fired in samples that send nothing.
    fn unsent(&self) -> u32 {
        let silent = self.taken.iter().filter(|taken| taken.number != FRAME);
        silent.map(|taken| taken.fired().count_ones()).sum()
    }
}

fn by_reference(state: &mut State, journal: &mut Journal, list: &[RawSample], output: &mut [u8]) -> RawBatch {
    let sample = |RawSample { levels, kind }: RawSample| Sample { levels, kind };
    let samples: Vec<Sample> = list.iter().copied().map(sample).collect();
    let answer = adapter::sample_batch(state, journal, &samples, output);
    RawBatch {
        number: answer.number,
        length: answer.length,
        port: answer.port,
        frames: answer.frames,
        sum: answer.sum,
    }
}

impl Both<'_> {
    pub(super) fn batch(&mut self, pair: &mut Pair, list: &[RawSample], room: usize) -> Checked {
        let (before, found) = (pair.expected, pair.found());
        let (mut ours, mut expected_output) = (Output::new(room), Output::new(room));
        let expected = match &mut pair.expected {
            None => alone(OUT_OF_RANGE),
            Some(state) => by_reference(state, &mut pair.earlier, list, expected_output.lent()),
        };
        let course = match (expected.number, before) {
            (FRAME | DONE | BAD_ARGUMENT, Some(state)) => Course::of(state, sound_front(list)),
            _ => Course::of(State::default(), &[]),
        };
        self.tally.batch(&Seen {
            list,
            room,
            journal: found,
            sampled_before: pair.sampled,
            taken: &course.taken,
            answer: &expected,
            after: pair.expected.unwrap_or_default(),
        });
        let mut answer = self.batch_by_library(pair, list, &expected, &course, ours.lent());
        if refused(expected.number) {
            self.break_refused_batch(pair, &mut answer, &mut ours);
        } else {
            course.same_as(expected, pair.expected, expected_output.lent())?;
            pair.push_samples(&course.taken);
            self.break_batch(pair, &mut answer, &mut ours, &course);
        }
        same("the answer", answer, expected)?;
        same_bytes("the output", &ours.bytes, &expected_output.bytes)?;
        self.left(pair)
    }

    fn lay_batch(&mut self, fault: BatchFault, applies: bool) -> bool {
        self.lay(Fault::Batch(fault), applies)
    }

    /// Our side; or one that does its first samples before it refuses, is handed others, or keeps too few.
    fn batch_by_library(
        &mut self,
        pair: &mut Pair,
        list: &[RawSample],
        expected: &RawBatch,
        course: &Course,
        output: &mut [u8],
    ) -> RawBatch {
        if refused(expected.number) {
            let begins = self.lay_batch(BatchFault::FirstsDone, !course.taken.is_empty());
            let handed = if begins { sound_front(list) } else { list };
            let answer = boundary::sca_samples(&mut pair.state, &mut pair.journal, handed, output);
            return if begins { *expected } else { answer };
        }
        let handed = self.handed(list, course);
        let answer = boundary::sca_samples(&mut pair.state, &mut pair.journal, handed, output);
        if let Some(records) = self.records_left(course) {
            let mut ring = pair.ring.clone();
            records.iter().for_each(|taken| ring.push(CRB, &taken.before));
            pair.journal = ring.0;
        }
        answer
    }

    /// The samples that our side is handed: all, where no fault is laid in.
    fn handed<'a>(&mut self, list: &'a [RawSample], course: &Course) -> &'a [RawSample] {
        let count = list.len();
        let first = course.sending().next().unwrap_or(count);
        if self.lay_batch(BatchFault::StopsAtFrame, first + 1 < count) {
            &list[..=first]
        } else if self.lay_batch(BatchFault::LastLeftOut, count > 0) {
            &list[..count - 1]
        } else if self.lay_batch(BatchFault::EmptyKept, count == 0) {
            &ONE
        } else {
            list
        }
    }

    /// The samples that alone are to be in the journal, where a fault is laid in.
    fn records_left<'a>(&mut self, course: &'a Course) -> Option<&'a [Taken]> {
        if self.lay_batch(BatchFault::Unkept, course.disabled()) {
            Some(&[])
        } else if self.lay_batch(BatchFault::OneRecord, course.taken.len() > 1) {
            Some(&course.taken[..1])
        } else {
            None
        }
    }

    /// After a batch that was not refused.
    fn break_batch(&mut self, pair: &mut Pair, answer: &mut RawBatch, output: &mut Output, course: &Course) {
        self.break_result(answer, course);
        let (frames, written) = (course.answer.frames, course.bodies.len());
        let lent = output.lent();
        if self.lay_batch(BatchFault::Body, frames > 0) {
            lent[written - 1] ^= 1;
        }
        if self.lay_batch(BatchFault::Order, frames > 1) {
            let (first, others) = lent.split_at_mut(REPLY_BYTES);
            first.swap_with_slice(&mut others[..REPLY_BYTES]);
        }
        let last = course.sending().next_back().unwrap_or(0);
        if self.lay_batch(BatchFault::SamplePlace, last + 1 > frames && frames > 0) {
            lent.copy_within(written - REPLY_BYTES..written, REPLY_BYTES * last);
        }
        if self.lay_batch(BatchFault::OutputBehind, written < lent.len()) {
            lent[written] ^= 1;
        }
        if self.lay_batch(BatchFault::OutsideOutput, true) {
            *output.bytes.last_mut().unwrap() ^= 1;
        }
        if self.lay_batch(BatchFault::State, true) {
            pair.state[46] ^= 1;
        }
        let records = course.taken.len().min(pair.ring.most());
        if self.lay_batch(BatchFault::Record, records > 1) {
            pair.journal[pair.ring.record_at(records - 1) + 1] ^= 1;
        }
    }

    fn break_result(&mut self, answer: &mut RawBatch, course: &Course) {
        let sent = course.answer.frames > 0;
        if self.lay_batch(BatchFault::Number, true) {
            answer.number += 1;
        }
        if self.lay_batch(BatchFault::NumberAlone, course.disabled()) {
            answer.number = GPIO_DISABLED;
        }
        if self.lay_batch(BatchFault::Port, sent) {
            answer.port ^= 1;
        }
        if self.lay_batch(BatchFault::Length, sent) {
            answer.length += 1;
        }
        if self.lay_batch(BatchFault::Frames, sent) {
            answer.frames -= 1;
        }
        if self.lay_batch(BatchFault::Sum, sent) {
            answer.sum += 1;
        }
        if self.lay_batch(BatchFault::SumUnsent, course.unsent() > 0) {
            answer.sum += course.unsent();
        }
    }

    fn break_refused_batch(&mut self, pair: &mut Pair, answer: &mut RawBatch, output: &mut Output) {
        if self.lay_batch(BatchFault::Number, true) {
            answer.number += 1;
        }
        if self.lay_batch(BatchFault::RefusedState, !pair.state.is_empty()) {
            pair.state[0] ^= 1;
        }
        if self.lay_batch(BatchFault::RefusedJournal, pair.journal.len() > 20) {
            pair.journal[20] ^= 1;
        }
        if self.lay_batch(BatchFault::RefusedOutput, !output.lent().is_empty()) {
            output.lent()[0] ^= 1;
        }
    }
}

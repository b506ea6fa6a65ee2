//! The same calls beside each other on a small journal and on the large one that was made of it: the same answers and
//! the same states, until a step back asks for an event that the small one had given up.

use crate::calls::Call;
use crate::harness::chance::Chance;
use crate::harness::output::Output;
use crate::harness::report::say;
use crate::harness::same::{same, same_bytes, Checked};
use crate::image::state_in;
use crate::run::by_library;
use crate::streams::stream;
use reference::numbers::{DONE, NOTHING_KEPT};
use sca::boundary::{self, RawAnswer, RawBatch};
use sca::{JOURNAL_BYTES, LARGE_JOURNAL_BYTES, STATE_BYTES};

/// The runs, of a seed of their own: they are the same every time.
const RUNS: u64 = 400;
const SEED: u64 = 202_606;

#[derive(PartialEq, Eq, Debug)]
enum Answer {
    One(RawAnswer),
    Batch(RawBatch),
}

/// An answer, and the output that was left.
#[derive(PartialEq, Eq, Debug)]
struct Given {
    answer: Answer,
    output: Output,
}

impl Given {
    fn number(&self) -> u8 {
        match self.answer {
            Answer::One(answer) => answer.number,
            Answer::Batch(answer) => answer.number,
        }
    }
}

/// An adapter by the library.
struct Twin {
    state: Vec<u8>,
    journal: Vec<u8>,
}

impl Twin {
    /// A new one, with a small journal.
    fn new() -> Twin {
        let (mut state, mut journal) = (vec![0; STATE_BYTES], vec![0; JOURNAL_BYTES]);
        boundary::sca_create(&mut state, 1);
        boundary::sca_empty(&mut journal);
        Twin { state, journal }
    }

    /// The same state, with the journal enlarged.
    fn enlarged(&self) -> Twin {
        let mut journal = vec![0xA5; LARGE_JOURNAL_BYTES];
        boundary::sca_enlarge(&self.journal, &mut journal);
        Twin {
            state: self.state.clone(),
            journal,
        }
    }

    /// What an event, a batch or a step back gives.
    fn gives(&mut self, call: &Call) -> Given {
        let (state, journal) = (&mut self.state, &mut self.journal);
        let mut output = Output::new(room_of(call));
        let answer = match call {
            Call::Samples { list, .. } => Answer::Batch(boundary::sca_samples(state, journal, list, output.lent())),
            Call::StepBack => Answer::One(boundary::sca_step_back(state, journal)),
            event => Answer::One(by_library(state, journal, event, output.lent())),
        };
        Given { answer, output }
    }

    fn kept(&self) -> usize {
        boundary::sca_kept(&self.journal).kept
    }
}

fn room_of(call: &Call) -> usize {
    match call {
        Call::Frame { room, .. } => *room,
        Call::Completion { room, .. } => *room,
        Call::I2cCompletion { room, .. } => *room,
        Call::Sample { room, .. } => *room,
        Call::Samples { room, .. } => *room,
        Call::Upset { room } => *room,
        _ => 0,
    }
}

/// How often what was seen.
#[derive(Default)]
struct Seen {
    calls: u64,
    /// Calls that found more kept by the large one; runs that ended there, and at their own end.
    apart: u64,
    ended_apart: u64,
    ended_same: u64,
}

/// A call on both; whether they still go together.
fn beside(small: &mut Twin, large: &mut Twin, call: &Call, seen: &mut Seen) -> Result<bool, String> {
    seen.calls += 1;
    seen.apart += u64::from(large.kept() > small.kept());
    let (ours, theirs) = (large.gives(call), small.gives(call));
    if *call == Call::StepBack && (ours.number(), theirs.number()) == (DONE, NOTHING_KEPT) {
        return Ok(false);
    }
    same("what it gives", ours, theirs)?;
    same_bytes("the state", &large.state, &small.state)?;
    Ok(true)
}

/// A run, the first calls of it on the small journal alone.
fn run(chance: &mut Chance, seen: &mut Seen) -> Checked {
    let calls = stream(chance);
    let alone = chance.below(calls.len());
    let mut small = Twin::new();
    let mut large = None;
    for (at, call) in calls.iter().enumerate() {
        let call = call.found_by(&state_in(&small.state).expect("a state"));
        if !is_event_or_step_back(&call) {
            continue;
        }
        if at < alone {
            small.gives(&call);
            continue;
        }
        let large = large.get_or_insert_with(|| small.enlarged());
        if !beside(&mut small, large, &call, seen).map_err(|how| format!("call {}, {}: {}", at + 1, call, how))? {
            seen.ended_apart += 1;
            return Ok(());
        }
    }
    seen.ended_same += 1;
    Ok(())
}

fn is_event_or_step_back(call: &Call) -> bool {
    *call == Call::StepBack || room_of(call) > 0
}

/// Whether all go together, and the runs had in them what they are for.
pub fn agree() -> bool {
    let mut seen = Seen::default();
    for number in 0..RUNS {
        if let Err(difference) = run(&mut Chance::new(SEED, number), &mut seen) {
            return say(
                false,
                &format!(
                    "an enlarged journal beside the small one, run {}: {}",
                    number, difference
                ),
            );
        }
    }
    let what = format!(
        "an enlarged journal beside the small one, {} calls in {} runs, {} of them with more kept; {} runs to their \
         end, {} to a step back that the small one refuses",
        seen.calls, RUNS, seen.apart, seen.ended_same, seen.ended_apart
    );
    say(seen.apart > 0 && seen.ended_same > 0 && seen.ended_apart > 0, &what)
}

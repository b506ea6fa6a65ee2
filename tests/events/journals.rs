//! How often each thing was seen of journals of both sizes, and of enlarging, over all runs.

use crate::calls::Call;
use crate::harness::report::{all, list, say};
use crate::ring::{Wrong, LARGE, SMALL};
use crate::run::refused;
use crate::seen::{each, whole};
use crate::tally::is_reset;
use reference::numbers::{BAD_JOURNAL, DONE, NOTHING_KEPT, SHORT_OUTPUT};
use sca::{JOURNAL_BYTES, LARGE_JOURNAL_BYTES};
use std::collections::{BTreeMap, BTreeSet};

/// The lengths for which a second buffer must have been refused.
pub const WRONG_SECONDS: [usize; 4] = [0, JOURNAL_BYTES, LARGE_JOURNAL_BYTES - 1, LARGE_JOURNAL_BYTES + 1];
/// What a large journal kept before an event.
const ROOM: [&str; 4] = ["under 64", "64", "65 to 199", "200"];
/// What a small journal kept before an enlarging.
const ENLARGED: [&str; 4] = ["none", "some", "64 from slot 0 on", "64 from another slot on"];
/// What somebody made of a journal of the other size, and whether it was one then.
const FITTED: [&str; 4] = ["cut, none", "cut", "lengthened, none", "lengthened"];
/// What a step back over the records of an enlarged journal came to.
const BACK: [&str; 4] = ["one", "all", "all of 64", "all, with over 64 kept before"];

/// What is done with a journal.
#[derive(Clone, Copy, PartialEq, Eq, PartialOrd, Ord, Debug)]
pub enum Kind {
    Frame,
    Reset,
    Completion,
    I2cCompletion,
    Sample,
    Upset,
    Batch,
    StepBack,
    Counting,
    Enlarging,
    Emptying,
}

impl Kind {
    /// Those that a journal is handed to and that look at it first.
    pub const ALL: [Kind; 9] = [
        Kind::Frame,
        Kind::Completion,
        Kind::I2cCompletion,
        Kind::Sample,
        Kind::Upset,
        Kind::Batch,
        Kind::StepBack,
        Kind::Counting,
        Kind::Enlarging,
    ];

    /// Those that can be done, whatever size the journal has.
    const DONE: [Kind; 10] = [
        Kind::Frame,
        Kind::Reset,
        Kind::Completion,
        Kind::I2cCompletion,
        Kind::Sample,
        Kind::Upset,
        Kind::Batch,
        Kind::StepBack,
        Kind::Counting,
        Kind::Emptying,
    ];

    pub fn of(call: &Call) -> Kind {
        match call {
            Call::Frame { body, .. } if is_reset(body) => Kind::Reset,
            Call::Frame { .. } => Kind::Frame,
            Call::Completion { .. } => Kind::Completion,
            Call::I2cCompletion { .. } => Kind::I2cCompletion,
            Call::Sample { .. } => Kind::Sample,
            Call::Samples { .. } => Kind::Batch,
            Call::Upset { .. } => Kind::Upset,
            Call::StepBack => Kind::StepBack,
            Call::Kept => Kind::Counting,
            Call::Enlarge { .. } => Kind::Enlarging,
            _ => Kind::Emptying,
        }
    }

    /// An event that leaves a record.
    fn is_kept(self) -> bool {
        self <= Kind::Batch && self != Kind::Reset
    }
}

/// The records that an enlarging put into the journal.
#[derive(Clone, Copy)]
pub struct Copied {
    count: usize,
    /// How many of the oldest records they still are, how many were taken back, and the most that was kept with them.
    left: usize,
    back: usize,
    most_kept: usize,
}

impl Copied {
    pub fn of(count: usize) -> Copied {
        Copied {
            count,
            left: count,
            back: 0,
            most_kept: count,
        }
    }

    pub fn give_up_oldest(&mut self) {
        self.left = self.left.saturating_sub(1);
    }

    /// A step back, with so many kept before it.
    pub fn take_back(&mut self, kept: usize) {
        self.most_kept = self.most_kept.max(kept);
        if self.left == kept {
            self.left -= 1;
            self.back += 1;
        }
    }

    fn all_back(&self) -> bool {
        self.count > 0 && self.back == self.count
    }
}

/// A journal as a call finds it.
#[derive(Clone, Copy)]
pub struct Found {
    /// The most events that it keeps; 0 where its length is none's.
    pub most: usize,
    /// Why it is none; the first slot and the kept number are then 0.
    pub wrong: Option<Wrong>,
    pub first: usize,
    pub kept: usize,
    /// How many steps back were granted since the newest event.
    pub in_a_row: usize,
    /// What an enlarging put into it, where one made it.
    pub copied: Option<Copied>,
    /// Somebody altered its bytes.
    pub altered: bool,
}

#[derive(Default)]
pub struct Journals {
    /// Calls that were done, by the size of the journal; and those on one that an enlarging made.
    done: BTreeMap<(Kind, usize), u64>,
    done_enlarged: BTreeMap<Kind, u64>,
    /// Calls that were refused for their journal.
    pub refused: BTreeSet<(Kind, usize, Wrong)>,
    /// Journals cut or lengthened to the other size's length; those with the other size's version that were made empty.
    fitted: [u64; FITTED.len()],
    mended: [u64; 2],
    /// The numbers of events on a large journal, and of steps back.
    events: Vec<u64>,
    steps_back: Vec<u64>,
    /// Events that a large journal kept, by what it kept before.
    room: [u64; ROOM.len()],
    /// As many steps back in a row as a journal keeps, and one more: small and large.
    all_back: [u64; 2],
    /// The numbers of an enlarging; the first slot and the kept number of those that were done.
    pub enlargings: Vec<u64>,
    pub enlarged_at: BTreeSet<(usize, usize)>,
    enlarged: [u64; ENLARGED.len()],
    /// Refused: a large journal; with a second buffer that was wrong too; and for that alone, by its length.
    not_small: u64,
    both_wrong: u64,
    seconds: BTreeMap<usize, u64>,
    /// Steps back over what an enlarging copied.
    back: [u64; BACK.len()],
    /// Events by which a record that was copied was given up, and steps back refused for one that was damaged before.
    given_up: u64,
    damaged: u64,
}

impl Journals {
    pub fn new() -> Journals {
        Journals {
            events: vec![0; 256],
            steps_back: vec![0; 256],
            enlargings: vec![0; 256],
            ..Journals::default()
        }
    }

    /// A call, the journal that it found, and its number.
    pub fn seen(&mut self, kind: Kind, found: &Found, number: u8) {
        if let (Some(wrong), BAD_JOURNAL) = (found.wrong, number) {
            self.refused.insert((kind, found.most, wrong));
        }
        if !refused(number) {
            *self.done.entry((kind, found.most)).or_default() += 1;
            if found.copied.is_some() {
                *self.done_enlarged.entry(kind).or_default() += 1;
            }
        }
        if found.most == LARGE && kind <= Kind::Batch {
            self.events[usize::from(number)] += 1;
        }
        if kind.is_kept() && !refused(number) {
            self.was_kept(found);
        }
        if kind == Kind::StepBack {
            self.stepped_back(found, number);
        }
        if kind == Kind::Emptying && found.wrong == Some(Wrong::OthersVersion) {
            self.mended[usize::from(found.most == LARGE)] += 1;
        }
    }

    /// A journal, and what somebody made of it.
    pub fn altered(&mut self, before: &Found, after: &Found) {
        let whole = usize::from(after.wrong.is_none());
        match (before.most, after.most) {
            (LARGE, SMALL) => self.fitted[whole] += 1,
            (SMALL, LARGE) => self.fitted[2 + whole] += 1,
            _ => {}
        }
    }

    fn was_kept(&mut self, found: &Found) {
        if found.most == LARGE {
            let place = match found.kept {
                LARGE => 3,
                kept if kept > SMALL => 2,
                SMALL => 1,
                _ => 0,
            };
            self.room[place] += 1;
        }
        let oldest = found.copied.map_or(0, |copied| copied.left);
        self.given_up += u64::from(found.kept == found.most && oldest > 0);
    }

    fn stepped_back(&mut self, found: &Found, number: u8) {
        if found.most == LARGE {
            self.steps_back[usize::from(number)] += 1;
        }
        for (count, most) in self.all_back.iter_mut().zip([SMALL, LARGE]) {
            *count += u64::from(number == NOTHING_KEPT && (found.in_a_row, found.most) == (most, most));
        }
        let copied = match found.copied {
            Some(copied) => copied,
            None => return,
        };
        let all = number == NOTHING_KEPT && copied.all_back();
        let came_to = [
            number == DONE && copied.left == found.kept,
            all,
            all && copied.count == SMALL,
            all && copied.most_kept > SMALL,
        ];
        for (count, so) in self.back.iter_mut().zip(came_to) {
            *count += u64::from(so);
        }
        self.damaged += u64::from(number == BAD_JOURNAL && found.altered && copied.left == found.kept);
    }

    /// An enlarging, with a second buffer of this length.
    pub fn enlarging(&mut self, found: &Found, length: usize, number: u8) {
        self.seen(Kind::Enlarging, found, number);
        self.enlargings[usize::from(number)] += 1;
        match number {
            DONE => {
                self.enlarged_at.insert((found.first, found.kept));
                let place = match (found.kept, found.first) {
                    (0, _) => 0,
                    (SMALL, 0) => 2,
                    (SMALL, _) => 3,
                    _ => 1,
                };
                self.enlarged[place] += 1;
            }
            SHORT_OUTPUT => *self.seconds.entry(length).or_default() += 1,
            _ => {
                self.not_small += u64::from(found.wrong.is_none());
                self.both_wrong += u64::from(length != LARGE_JOURNAL_BYTES);
            }
        }
    }

    /// That the runs had in them what they are for.
    pub fn all_seen(&self) -> Vec<bool> {
        let some = |what: &str, count: u64| say(count > 0, &format!("{}: {}", what, count));
        let numbers = |what: &str, counts: &[u64], numbers: &[usize]| {
            say(
                all(counts, numbers),
                &format!("every number of {} ({})", what, list(counts)),
            )
        };
        let kinds = self.refused.iter().map(|(kind, _, _)| *kind).collect();
        let wrongs = self.refused.iter().map(|(_, most, wrong)| (*most, *wrong)).collect();
        let all_wrongs = refusals().into_iter().map(|(_, most, wrong)| (most, wrong));
        let done = |most: usize| Kind::DONE.map(|kind| self.done.get(&(kind, most)).copied().unwrap_or(0));
        let enlarged = Kind::DONE.map(|kind| self.done_enlarged.get(&kind).copied().unwrap_or(0));
        let names = Kind::DONE.map(|kind| format!("{:?}", kind));
        let seconds = WRONG_SECONDS.map(|length| self.seconds.get(&length).copied().unwrap_or(0));
        vec![
            each("calls on a small journal", &names, &done(SMALL)),
            each("calls on a large journal", &names, &done(LARGE)),
            each("calls on an enlarged journal", &names, &enlarged),
            numbers("an event on a large journal", &self.events, &EVENT_NUMBERS),
            numbers("a step back in a large journal", &self.steps_back, &[4, 5, 6, 17]),
            each(
                "events that a large journal kept, with so many before",
                &ROOM,
                &self.room,
            ),
            each(
                "as many steps back in a row as a journal keeps and one more",
                &[SMALL, LARGE],
                &self.all_back,
            ),
            whole("calls refused for their journal", &kinds, Kind::ALL),
            whole(
                "each thing for which journals of both sizes are refused",
                &wrongs,
                all_wrongs,
            ),
            each("journals fitted to the other length", &FITTED, &self.fitted),
            each(
                "journals of the other version made empty",
                &[SMALL, LARGE],
                &self.mended,
            ),
            numbers("an enlarging", &self.enlargings, &[1, 4, 17]),
            each(
                "journals that were enlarged, with so many kept",
                &ENLARGED,
                &self.enlarged,
            ),
            some("large journals refused for enlarging", self.not_small),
            some(
                "journals refused so with a second buffer that was wrong too",
                self.both_wrong,
            ),
            each("second buffers refused for their length", &WRONG_SECONDS, &seconds),
            each("steps back over what was copied", &BACK, &self.back),
            some("events by which a record that was copied was given up", self.given_up),
            some("steps back refused for a damaged record that was copied", self.damaged),
        ]
    }
}

/// The numbers that events have, whichever they are.
const EVENT_NUMBERS: [usize; 13] = [0, 1, 2, 3, 4, 6, 11, 12, 13, 14, 15, 16, 17];

/// Each call for each thing by which a journal can be none: its length, or in both sizes what stands in front.
pub fn refusals() -> Vec<(Kind, usize, Wrong)> {
    use Wrong::*;
    let in_front = [Mark, OthersVersion, Version, First, Kept];
    let of_size = |kind: Kind, most: usize| in_front.map(|wrong| (kind, most, wrong));
    let of_kind = |kind: Kind| [&[(kind, 0, Length)][..], &of_size(kind, SMALL), &of_size(kind, LARGE)].concat();
    Kind::ALL.into_iter().flat_map(of_kind).collect()
}

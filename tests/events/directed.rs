//! Runs that are the same every time, around the ends of both sizes of a journal and of enlarging. What must come of
//! them is counted here too, so that both sides cannot be wrong in the same way.

use crate::calls::{Call, Way};
use crate::journals::{refusals, Kind};
use crate::ring::{front, LARGE, SMALL};
use crate::streams::information;
use crate::tally::Tally;
use sca::boundary::RawSample;
use sca::{BATCH_LEAST, JOURNAL_BYTES, LARGE_JOURNAL_BYTES, OUTPUT_LEAST};

const CONTROLLER: u8 = 0x00;
const GPIO: u8 = 0x02;
const DAC: u8 = 0x15;
/// A master that CRC enables, and one of CRD's.
const MASTERS: [u8; 2] = [0x08, 0x10];
const RESET: u8 = 0x8F;

/// Runs about one thing, and whether it came to what it must.
pub struct Directed {
    pub name: &'static str,
    pub runs: Vec<Vec<Call>>,
    pub holds: fn(&Tally) -> bool,
}

pub fn directed() -> Vec<Directed> {
    vec![
        Directed {
            name: "enlarged at each kept number and first slot, and all of it taken back",
            runs: (0..SMALL).map(enlarged_at_each_kept_number).collect(),
            holds: |tally| {
                let at = &tally.journals.enlarged_at;
                let each = (0..SMALL).all(|first| (0..=SMALL).all(|kept| at.contains(&(first, kept))));
                each && back(tally, SMALL * (SMALL + (1..=SMALL).sum::<usize>()), SMALL * (SMALL + 2))
            },
        },
        Directed {
            name: "63, 64 and 65 events on a small journal, 199, 200 and 201 on a large one, and back to the refusal",
            runs: AROUND_THE_ENDS
                .map(|(length, events)| there_and_back(length, events))
                .to_vec(),
            holds: |tally| back(tally, 63 + 64 + 64 + 199 + 200 + 200 + 6, 2 * 6),
        },
        Directed {
            name: "a large journal from each first slot, and back to the refusal",
            runs: vec![large_from_each_slot()],
            holds: |tally| back(tally, LARGE * LARGE, LARGE),
        },
        Directed {
            name: "events after an enlarging, up to 200 kept and past what was copied, and back to the refusal",
            runs: MORE.map(enlarged_and_more).to_vec(),
            holds: |tally| {
                let kept = MORE.map(|more| LARGE.min(SMALL + more));
                back(tally, kept.iter().sum(), MORE.len())
            },
        },
        Directed {
            name: "RESET and emptying leave each size as it is, and the length says it",
            runs: vec![emptied_and_on()],
            holds: |tally| back(tally, 2 * LARGE + SMALL, 6),
        },
        Directed {
            name: "each call refused for each thing that is wrong in a journal",
            runs: vec![wrong_journals()],
            holds: |tally| {
                refusals()
                    .iter()
                    .all(|refusal| tally.journals.refused.contains(refusal))
            },
        },
        Directed {
            name: "an enlarging with each wrong second buffer, of a small journal and of a large one",
            runs: vec![wrong_seconds()],
            holds: |tally| {
                let numbers = |number: usize| tally.journals.enlargings[number];
                [numbers(1), numbers(4), numbers(17)] == [SECONDS.len() as u64, SECONDS.len() as u64 + 1, 1]
            },
        },
    ]
}

/// Whether so many steps back were granted, and so many had nothing to take back.
fn back(tally: &Tally, granted: usize, refused: usize) -> bool {
    (tally.step_back[17], tally.step_back[5]) == (granted as u64, refused as u64)
}

fn request(channel: u8, command: u8, data: u32) -> Call {
    Call::Request {
        way: Way::Active,
        skew: 0,
        high: 0,
        information: information(0x01, channel, 4, command, data),
        room: OUTPUT_LEAST,
    }
}

/// All channels enabled, and an empty journal of this length.
fn ready(length: usize) -> Vec<Call> {
    vec![
        request(CONTROLLER, 0x02, 0xFE00_0000),
        request(CONTROLLER, 0x04, 0xFF00_0000),
        request(CONTROLLER, 0x06, 0x1F00_0000),
        Call::Empty { length },
    ]
}

/// Events with records of all tags. The counter of upsets, the DAC and the link numbers make each record unlike the
/// others.
fn events(count: usize) -> Vec<Call> {
    let event = |nth: usize| match nth % 5 {
        0 => request(DAC, 0x10, nth as u32),
        1 => request(GPIO, 0x10, nth as u32),
        2 => request(MASTERS[0], 0x40, nth as u32),
        3 => request(MASTERS[1], 0x40, nth as u32),
        _ => Call::Upset { room: OUTPUT_LEAST },
    };
    (0..count).map(event).collect()
}

fn steps_back(count: usize) -> Vec<Call> {
    vec![Call::StepBack; count]
}

fn enlarge(held: usize) -> Call {
    Call::Enlarge {
        length: LARGE_JOURNAL_BYTES,
        held: held as u32,
    }
}

/// A small journal with this first slot: at each kept number, from 64 down, it is enlarged aside and taken back to the
/// refusal there.
fn enlarged_at_each_kept_number(first: usize) -> Vec<Call> {
    let mut calls = ready(JOURNAL_BYTES);
    calls.extend(events(SMALL + first));
    for kept in (0..=SMALL).rev() {
        let mut aside = vec![enlarge(first + kept)];
        aside.extend(steps_back(kept + 1));
        calls.push(Call::Aside { calls: aside });
        calls.push(Call::StepBack);
    }
    calls
}

const AROUND_THE_ENDS: [(usize, usize); 6] = [
    (JOURNAL_BYTES, SMALL - 1),
    (JOURNAL_BYTES, SMALL),
    (JOURNAL_BYTES, SMALL + 1),
    (LARGE_JOURNAL_BYTES, LARGE - 1),
    (LARGE_JOURNAL_BYTES, LARGE),
    (LARGE_JOURNAL_BYTES, LARGE + 1),
];

/// So many events, back to the refusal; an event more, and back to it again.
fn there_and_back(length: usize, count: usize) -> Vec<Call> {
    let most = if length == JOURNAL_BYTES { SMALL } else { LARGE };
    let mut calls = ready(length);
    calls.extend(events(count));
    calls.extend(steps_back(count.min(most) + 1));
    calls.extend(events(1));
    calls.extend(steps_back(2));
    calls
}

fn large_from_each_slot() -> Vec<Call> {
    let mut calls = ready(LARGE_JOURNAL_BYTES);
    calls.extend(events(LARGE));
    for event in events(LARGE) {
        calls.push(Call::Aside {
            calls: steps_back(LARGE + 1),
        });
        calls.push(event);
    }
    calls
}

/// Events after an enlarging of 64: to 65, to around 200, to where the last of the 64 is given up, and twice round the
/// slots.
const MORE: [usize; 10] = [1, 64, 135, 136, 137, 199, 200, 201, 264, 400];

fn enlarged_and_more(more: usize) -> Vec<Call> {
    let mut calls = ready(JOURNAL_BYTES);
    calls.extend(events(SMALL + 6));
    calls.push(enlarge(more));
    calls.extend(events(more));
    calls.extend(steps_back(LARGE.min(SMALL + more) + 1));
    calls
}

/// An enlarged journal is large through a RESET and an emptying, and small only as another buffer.
fn emptied_and_on() -> Vec<Call> {
    let reset = Call::Frame {
        port: 0,
        body: vec![0x00, RESET],
        room: OUTPUT_LEAST,
    };
    let mut calls = ready(JOURNAL_BYTES);
    calls.extend(events(10));
    calls.push(enlarge(3));
    calls.extend(events(10));
    let again = [
        (reset, LARGE),
        (
            Call::Empty {
                length: LARGE_JOURNAL_BYTES,
            },
            LARGE,
        ),
        (Call::Empty { length: JOURNAL_BYTES }, SMALL),
    ];
    for (emptying, most) in again {
        calls.push(emptying);
        calls.push(Call::StepBack);
        calls.extend(events(LARGE + 1));
        calls.extend(steps_back(most + 1));
    }
    calls
}

/// Lengths that no journal has: around both that one has, around the ends of the front, and what both have together.
const NO_LENGTHS: [usize; 10] = [0, 1, 6, 7, 1_023, 17_407, 17_409, 52_223, 52_225, 69_632];

/// Each call on journals that have just one thing wrong.
fn wrong_journals() -> Vec<Call> {
    let mut calls = ready(JOURNAL_BYTES);
    calls.extend(events(10));
    for kind in Kind::ALL {
        let call = || Box::new(call_of(kind));
        calls.extend(NO_LENGTHS.map(|length| Call::JournalOfLength { length, call: call() }));
        for length in [JOURNAL_BYTES, LARGE_JOURNAL_BYTES] {
            calls.extend(wrong_fronts(length).map(|front| Call::JournalWithFront {
                length,
                front: front.to_vec(),
                call: call(),
            }));
        }
    }
    calls
}

/// Fronts of a journal of this length, each with one byte wrong: of the mark, of the version, the first slot or the
/// kept number.
fn wrong_fronts(length: usize) -> [[u8; 7]; 11] {
    let (version, most) = match length {
        JOURNAL_BYTES => (1, SMALL as u8),
        _ => (2, LARGE as u8),
    };
    let wrong = [
        (0, 0x52),
        (1, 0x63),
        (2, 0x00),
        (3, 3 - version),
        (3, 0),
        (3, 3),
        (4, 1),
        (5, most),
        (5, 255),
        (6, most + 1),
        (6, 255),
    ];
    wrong.map(|(at, byte)| {
        let mut front = front(version, 3, 5);
        front[at] = byte;
        front
    })
}

/// A call that nothing but the journal hinders.
fn call_of(kind: Kind) -> Call {
    let room = OUTPUT_LEAST;
    match kind {
        Kind::Frame | Kind::Reset => Call::Frame {
            port: 0,
            body: vec![0x00, 0x2F],
            room,
        },
        Kind::Completion => Call::Completion {
            received: vec![0; 16],
            room,
        },
        Kind::I2cCompletion => Call::I2cCompletion {
            channel: u32::from(MASTERS[0]),
            acknowledge: 1,
            line_low: 0,
            received: Vec::new(),
            room,
        },
        Kind::Sample => Call::Sample {
            levels: 1,
            kind: 0,
            room,
        },
        Kind::Batch => Call::Samples {
            list: vec![RawSample { levels: 1, kind: 0 }],
            room: BATCH_LEAST,
        },
        Kind::Upset => Call::Upset { room },
        Kind::StepBack => Call::StepBack,
        Kind::Counting => Call::Kept,
        Kind::Enlarging => enlarge(3),
        Kind::Emptying => Call::Empty { length: JOURNAL_BYTES },
    }
}

/// Second buffers that are none.
const SECONDS: [usize; 10] = [0, 1, 7, 16, 17_407, 17_408, 17_409, 52_223, 52_225, 104_448];

/// A small journal and each of these, then a right one; the large one that it has become, and each of them and a right
/// one.
fn wrong_seconds() -> Vec<Call> {
    let with_each = |calls: &mut Vec<Call>| {
        calls.extend(SECONDS.map(|length| Call::Enlarge { length, held: 3 }));
        calls.push(enlarge(2));
    };
    let mut calls = ready(JOURNAL_BYTES);
    calls.extend(events(10));
    with_each(&mut calls);
    with_each(&mut calls);
    calls
}

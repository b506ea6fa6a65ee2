//! Random calls about journals of both sizes: enlarging, and journals whose length and front do not go together.

use crate::calls::Call;
use crate::harness::chance::Chance;
use crate::journals::WRONG_SECONDS;
use crate::ring::{front, FIRST, KEPT, LARGE, SMALL, VERSION};
use crate::streams::{event, event_or_step_back, many};
use sca::{JOURNAL_BYTES, LARGE_JOURNAL_BYTES};

/// The length of a small journal or of a large one.
fn length(chance: &mut Chance) -> usize {
    [JOURNAL_BYTES, LARGE_JOURNAL_BYTES][chance.below(2)]
}

/// As many events as a small journal keeps, or a large one.
pub fn most(chance: &mut Chance) -> usize {
    [SMALL, LARGE][chance.below(2)]
}

/// An empty journal of either size.
pub fn emptied(chance: &mut Chance) -> Call {
    Call::Empty { length: length(chance) }
}

/// A length that no journal has, most often close to one that has.
pub fn no_length(chance: &mut Chance) -> usize {
    match chance.below(4) {
        0 => length(chance) - 1,
        1 => length(chance) + 1,
        2 => chance.below(LARGE_JOURNAL_BYTES + 1_000),
        _ => 0,
    }
}

/// A journal of this length made empty, and what comes of it then, on a copy.
fn emptied_aside(chance: &mut Chance, length: usize) -> Call {
    let mut calls = vec![Call::Empty { length }];
    calls.extend(many(chance, 1, 3, event_or_step_back));
    Call::Aside { calls }
}

/// What a second buffer holds.
fn held(chance: &mut Chance) -> u32 {
    chance.below(1 << 20) as u32
}

/// An enlarging, most often with a second buffer of the right length.
pub fn enlarge(chance: &mut Chance) -> Call {
    let length = match chance.below(12) {
        0..=2 => WRONG_SECONDS[chance.below(WRONG_SECONDS.len())],
        3 => no_length(chance),
        _ => LARGE_JOURNAL_BYTES,
    };
    Call::Enlarge {
        length,
        held: held(chance),
    }
}

/// An enlarging, and what comes of the journal then, on a copy.
pub fn enlarged_aside(chance: &mut Chance) -> Call {
    let mut calls = vec![enlarge(chance)];
    calls.extend(many(chance, 1, 5, event_or_step_back));
    Call::Aside { calls }
}

/// An enlarging that is done where the journal is a small one that has no damage in front, and a step back of it.
pub fn enlarged_back(chance: &mut Chance) -> Call {
    let enlarge = Call::Enlarge {
        length: LARGE_JOURNAL_BYTES,
        held: held(chance),
    };
    Call::Aside {
        calls: vec![enlarge, Call::StepBack],
    }
}

/// A journal, most often a small one, is filled more or less and enlarged, perhaps not at the first time; then again,
/// which a large one is refused; then events and steps back, perhaps over all of it.
pub fn enlarging(chance: &mut Chance) -> Vec<Call> {
    let mut calls = Vec::new();
    if !chance.once_in(3) {
        let length = JOURNAL_BYTES;
        calls.push(Call::Empty { length });
    }
    let before = [0, chance.between(1, SMALL), chance.between(SMALL, 140)][chance.below(3)];
    calls.extend(many(chance, before, before, event));
    calls.extend(many(chance, 1, 3, enlarge));
    if chance.once_in(3) {
        calls.push(enlarged_aside(chance));
    }
    let after = [0, chance.between(1, SMALL), chance.between(LARGE - SMALL, 220)][chance.below(3)];
    calls.extend(many(chance, after, after, event));
    let back = [0, chance.between(1, 80), LARGE + 2][chance.below(3)];
    calls.extend(vec![Call::StepBack; back]);
    calls.extend(many(chance, 0, 10, event));
    calls
}

/// A place in the front of a journal, and a byte for it: most often one around the ends of what may stand there.
pub fn front_byte(chance: &mut Chance) -> (usize, u8) {
    const FIRSTS: [u8; 6] = [0, 63, 64, 199, 200, 255];
    const KEPTS: [u8; 7] = [0, 1, 64, 65, 200, 201, 255];
    let at = [chance.below(VERSION), VERSION, VERSION + 1, FIRST, KEPT][chance.below(5)];
    let byte = match at {
        VERSION => chance.below(4) as u8,
        FIRST => FIRSTS[chance.below(FIRSTS.len())],
        KEPT => KEPTS[chance.below(KEPTS.len())],
        _ => chance.byte(),
    };
    (at, byte)
}

/// The call on a journal cut or lengthened: to a length that none has, or to one that has, perhaps with a front that
/// goes with it or does not. Now and then it is made empty first.
pub fn of_other_length(chance: &mut Chance, call: Box<Call>) -> Call {
    match chance.below(4) {
        0 => Call::JournalOfLength {
            length: no_length(chance),
            call,
        },
        1 => {
            let length = length(chance);
            let call = if chance.once_in(3) {
                Box::new(emptied_aside(chance, length))
            } else {
                call
            };
            Call::JournalOfLength { length, call }
        }
        _ => {
            let (first, kept) = (chance.below(LARGE) as u8, chance.below(LARGE + 1) as u8);
            let few = chance.once_in(2);
            let mut front = front(
                chance.between(1, 2) as u8,
                if few { first % SMALL as u8 } else { first },
                if few { kept % SMALL as u8 } else { kept },
            );
            if chance.once_in(4) {
                let (at, byte) = front_byte(chance);
                front[at] = byte;
            }
            Call::JournalWithFront {
                length: length(chance),
                front: front.to_vec(),
                call,
            }
        }
    }
}

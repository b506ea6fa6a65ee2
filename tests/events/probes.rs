//! Random batches of pin samples, as a logic probe hands them over, and what comes between them.

use crate::batches::{SIZES, TOO_MANY};
use crate::calls::Call;
use crate::harness::chance::Chance;
use crate::lengths::most;
use crate::streams::{any_request, damaged_by, link_frame, many, request, sample, wide, word};
use sca::boundary::RawSample;
use sca::{BATCH_LEAST, SAMPLES_MOST};

const CONTROLLER: u8 = 0x00;
const GPIO: u8 = 0x02;
const WRITE_CRB: u8 = 0x02;
const DIRECTION: u8 = 0x20;
const INTSEL: u8 = 0x30;
const INTTRIG: u8 = 0x40;
const INTENABLE: u8 = 0x60;
const CLKSEL: u8 = 0x80;
const EDGESEL: u8 = 0x90;
/// DATAIN and INTS.
const READ: [u8; 2] = [0x01, 0x71];

const CONNECT: u8 = 0x2F;
const RESET: u8 = 0x8F;

/// The lines set up, then batches, and what may come after each.
pub fn probing(chance: &mut Chance) -> Vec<Call> {
    let mut calls = set_up(chance);
    for _ in 0..chance.between(1, 4) {
        calls.push(any_batch(chance));
        calls.extend(between(chance));
    }
    calls
}

/// A CONNECT, so that requests are heard; then the lines' registers, most often so that lines interrupt.
fn set_up(chance: &mut Chance) -> Vec<Call> {
    let mut calls = vec![link_frame(chance, CONNECT)];
    let crb = word(chance);
    if chance.once_in(8) {
        calls.push(request(chance, CONTROLLER, WRITE_CRB, 4, crb & !0x0400_0000));
        return calls;
    }
    calls.push(request(chance, CONTROLLER, WRITE_CRB, 4, crb | 0x0400_0000));
    let strobed = chance.once_in(2);
    for (command, data) in [
        (DIRECTION, [0, word(chance) & word(chance)][chance.below(2)]),
        (INTSEL, [u32::MAX, word(chance), 1 << chance.below(32)][chance.below(3)]),
        (INTTRIG, [0x5555_5555, word(chance)][chance.below(2)]),
        (CLKSEL, if strobed { word(chance) } else { 0 }),
        (EDGESEL, word(chance)),
        (INTENABLE, u32::from(!chance.once_in(6))),
    ] {
        calls.push(request(chance, GPIO, command, 4, data));
    }
    calls
}

/// Mostly one that is done.
pub fn any_batch(chance: &mut Chance) -> Call {
    if chance.once_in(5) {
        wrong_batch(chance)
    } else {
        batch(chance)
    }
}

/// A batch that is done.
fn batch(chance: &mut Chance) -> Call {
    let size = size(chance);
    Call::Samples {
        list: samples(chance, size),
        room: enough(chance),
    }
}

/// A size that every comparison must have, or any.
fn size(chance: &mut Chance) -> usize {
    if chance.once_in(4) {
        chance.below(SAMPLES_MOST + 1)
    } else {
        SIZES[chance.below(SIZES.len())]
    }
}

/// Enough room, most often just enough.
fn enough(chance: &mut Chance) -> usize {
    if chance.once_in(4) {
        BATCH_LEAST + chance.below(40)
    } else {
        BATCH_LEAST
    }
}

/// Samples that swing between two words, that hold for some time, or of any words; by one kind, or by any.
fn samples(chance: &mut Chance, count: usize) -> Vec<RawSample> {
    let (first, kind) = (word(chance), chance.below(6) as u32);
    let (manner, rarely) = (chance.below(3), chance.between(2, 9));
    let mut levels = first;
    (0..count)
        .map(|_| {
            levels = match manner {
                0 => !levels,
                1 if !chance.once_in(rarely) => levels,
                _ => word(chance),
            };
            let any = chance.below(3) as u32;
            RawSample {
                levels,
                kind: if kind > 2 { any } else { kind },
            }
        })
        .collect()
}

/// A batch with something wrong: a kind, too many samples, too short an output, or several of these.
pub fn wrong_batch(chance: &mut Chance) -> Call {
    let long = chance.once_in(3);
    let count = if long { too_many(chance) } else { size(chance) };
    let mut list = samples(chance, count);
    let rarely = chance.once_in(4);
    let wrong_kind = count > 0 && if long { rarely } else { !rarely };
    if wrong_kind {
        let place = [0, count / 2, count - 1, chance.below(count)][chance.below(4)];
        list[place].kind = [3, 3, 0xFF, u32::from(chance.byte()) | 0x80, wide(chance)][chance.below(5)];
    }
    let short = !(long || wrong_kind) || chance.once_in(3);
    Call::Samples {
        list,
        room: if short { too_short(chance) } else { enough(chance) },
    }
}

fn too_many(chance: &mut Chance) -> usize {
    if chance.once_in(3) {
        chance.between(TOO_MANY, 300)
    } else {
        TOO_MANY
    }
}

fn too_short(chance: &mut Chance) -> usize {
    [BATCH_LEAST - 1, BATCH_LEAST - 1, 16, 0, chance.below(BATCH_LEAST)][chance.below(5)]
}

/// What comes after a batch: nothing, steps back, single samples, a RESET, the lines read, requests, batches on damaged copies.
fn between(chance: &mut Chance) -> Vec<Call> {
    match chance.below(12) {
        0 => many(chance, 1, 12, |_| Call::StepBack),
        1 => {
            let most = most(chance);
            many(chance, most - 4, most + 6, |_| Call::StepBack)
        }
        2 => many(chance, 1, 6, sample),
        3 => vec![link_frame(chance, RESET)],
        4 => READ.map(|command| request(chance, GPIO, command, 1, 0)).to_vec(),
        5 => many(chance, 1, 4, any_request),
        6 => many(chance, 1, 4, |chance| {
            let batch = any_batch(chance);
            damaged_by(chance, batch)
        }),
        _ => Vec::new(),
    }
}

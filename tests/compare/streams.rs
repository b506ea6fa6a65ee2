//! Random streams: cables of all that document 01's wire knows and of much that it does not, cut into
//! buffers at any bits, with calls between them that must be refused.

use crate::bits::{bits_of, buffer_of, destuffed, stuffed, FLAG};
use crate::calls::{Call, Input};
use crate::harness::chance::Chance;
use crate::run::frame_bits;
use sca::RECEIVER_BYTES;

type Bits = Vec<bool>;

/// The calls of one stream.
pub fn stream(chance: &mut Chance) -> Vec<Call> {
    let mut calls = vec![Call::New { length: RECEIVER_BYTES }, sending(chance)];
    match chance.below(200) {
        0 => calls.extend(every_start(chance)),
        1 => calls.extend(every_split(chance)),
        _ => {
            let pieces = chance.between(1, 6);
            let cable = cable(chance, pieces);
            calls.extend(in_buffers(chance, &cable));
        }
    }
    if chance.once_in(2) {
        calls.push(spelled(chance));
    }
    calls
}

/// One cable read by a new receiver from each of its bits.
fn every_start(chance: &mut Chance) -> Vec<Call> {
    let cable = short_cable(chance);
    let (bytes, _) = buffer_of(&cable, true);
    let from = |start| {
        let input = Input::from(bytes.clone());
        [
            Call::New { length: RECEIVER_BYTES },
            Call::Read { input, start, room: 16 },
        ]
    };
    (0..=8 * bytes.len()).flat_map(from).collect()
}

/// One cable read by a new receiver in two buffers, cut at each of its bits.
fn every_split(chance: &mut Chance) -> Vec<Call> {
    let cable = short_cable(chance);
    let cut = |at: usize| {
        let read = |bits: &[bool]| {
            let (bytes, start) = buffer_of(bits, at % 2 == 0);
            Call::Read {
                input: Input::from(bytes),
                start,
                room: 16,
            }
        };
        [
            Call::New { length: RECEIVER_BYTES },
            read(&cable[..at]),
            read(&cable[at..]),
        ]
    };
    (0..=cable.len()).flat_map(cut).collect()
}

fn short_cable(chance: &mut Chance) -> Bits {
    let mut cable = cable(chance, 2);
    cable.truncate(400);
    cable
}

fn cable(chance: &mut Chance, pieces: usize) -> Bits {
    let mut cable = Vec::new();
    for _ in 0..pieces {
        let piece = piece(chance);
        cable.extend(piece);
    }
    cable
}

/// One thing that may come along a cable.
fn piece(chance: &mut Chance) -> Bits {
    match chance.below(18) {
        0 | 1 | 2 => frame(chance),
        3 => frames_with_shared_flags(chance),
        4 => frames_with_padding(chance),
        5 => shared_zeros(chance),
        6 => cut(chance),
        7 | 8 => with_bit_errors(chance),
        9 => aborted(chance),
        10 => idle_flags(chance),
        11 => idle_ones(chance),
        12 => any_content(chance),
        13 => content_near_a_limit(chance),
        14 => wrong_fcs(chance),
        15 => long_run(chance),
        16 => garbage(chance),
        _ => garbage_of_runs(chance),
    }
}

fn body(chance: &mut Chance) -> Vec<u8> {
    let length = chance.between(2, 16);
    chance.bytes(length)
}

fn frame(chance: &mut Chance) -> Bits {
    let body = body(chance);
    frame_bits(&body, chance.once_in(2))
}

fn between_flags(raw: &[bool]) -> Bits {
    [&FLAG, raw, &FLAG].concat()
}

/// Each flag closes a frame and opens the next.
fn frames_with_shared_flags(chance: &mut Chance) -> Bits {
    let mut bits = frame(chance);
    for _ in 0..chance.between(1, 3) {
        bits.extend(&frame(chance)[FLAG.len()..]);
    }
    bits
}

/// Frames as the transmitter leaves them: ones up to the next whole byte.
fn frames_with_padding(chance: &mut Chance) -> Bits {
    let mut bits = Vec::new();
    for _ in 0..chance.between(1, 3) {
        let mut frame = frame(chance);
        frame.resize((frame.len() + 7) / 8 * 8, true);
        bits.extend(frame);
    }
    bits
}

/// Flags that share a zero, before a frame whose flag shares one too.
fn shared_zeros(chance: &mut Chance) -> Bits {
    let mut bits = FLAG.to_vec();
    for _ in 0..chance.between(0, 4) {
        bits.extend(&FLAG[1..]);
    }
    bits.extend(&frame(chance)[1..]);
    for _ in 0..chance.between(0, 2) {
        bits.extend(&FLAG[1..]);
    }
    bits
}

fn cut(chance: &mut Chance) -> Bits {
    let mut bits = frame(chance);
    let at = chance.below(bits.len());
    if chance.once_in(2) {
        bits.truncate(at);
        bits
    } else {
        bits.split_off(at)
    }
}

fn with_bit_errors(chance: &mut Chance) -> Bits {
    let mut bits = frame(chance);
    for _ in 0..chance.between(1, 3) {
        let at = chance.below(bits.len());
        bits[at] = !bits[at];
    }
    bits
}

fn random_bits(chance: &mut Chance, length: usize) -> Bits {
    let mut bits = bits_of(&chance.bytes((length + 7) / 8));
    bits.truncate(length);
    bits
}

/// A frame broken off by seven or more ones, often just around 32 bits of content.
fn aborted(chance: &mut Chance) -> Bits {
    let length = if chance.once_in(2) {
        chance.between(24, 40)
    } else {
        chance.between(0, 170)
    };
    let content = random_bits(chance, length);
    let mut bits = FLAG.to_vec();
    bits.extend(stuffed(&content));
    bits.resize(bits.len() + chance.between(6, 20), true);
    if chance.once_in(2) {
        bits.push(false);
    }
    bits
}

fn idle_flags(chance: &mut Chance) -> Bits {
    FLAG.repeat(chance.between(1, 20))
}

/// Seven ones and a zero, as the chip idles.
fn idle_ones(chance: &mut Chance) -> Bits {
    [true, true, true, true, true, true, true, false].repeat(chance.between(1, 20))
}

/// Stuffed content of any length between flags.
fn any_content(chance: &mut Chance) -> Bits {
    let length = chance.between(0, 400);
    between_flags(&stuffed(&random_bits(chance, length)))
}

fn content_near_a_limit(chance: &mut Chance) -> Bits {
    const LIMITS: [usize; 4] = [32, 40, 144, 152];
    let length = LIMITS[chance.below(LIMITS.len())] + chance.below(5) - 2;
    let mut content = random_bits(chance, length);
    if chance.once_in(2) {
        let run = chance.below(8).min(length);
        content[length - run..].fill(true);
    }
    between_flags(&stuffed(&content))
}

/// Whole bytes whose last two are no FCS of the others, but for a rare chance.
fn wrong_fcs(chance: &mut Chance) -> Bits {
    let frame = frame(chance);
    let mut content = destuffed(&frame[FLAG.len()..frame.len() - FLAG.len()]);
    let at = chance.below(content.len());
    content[at] = !content[at];
    between_flags(&stuffed(&content))
}

/// A long run of ones, of zeros, or of either in turn, then perhaps a frame.
fn long_run(chance: &mut Chance) -> Bits {
    let length = chance.between(1, 3000);
    let mut bits: Bits = match chance.below(3) {
        0 => vec![false; length],
        1 => vec![true; length],
        _ => (0..length).map(|at| at % 2 == 0).collect(),
    };
    if chance.once_in(2) {
        bits.extend(frame(chance));
    }
    bits
}

fn garbage(chance: &mut Chance) -> Bits {
    let length = chance.between(0, 600);
    random_bits(chance, length)
}

/// Zeros that part runs of ones as long as those that decide something.
fn garbage_of_runs(chance: &mut Chance) -> Bits {
    let mut bits = Vec::new();
    for _ in 0..chance.between(1, 80) {
        bits.push(false);
        bits.resize(bits.len() + chance.below(9), true);
    }
    bits
}

/// A cable cut into buffers at random bits. Each buffer ends with its last bit, so that it may start at any.
fn in_buffers(chance: &mut Chance, cable: &[bool]) -> Vec<Call> {
    let mut calls = Vec::new();
    let mut rest = cable;
    while !rest.is_empty() {
        let taken = match chance.below(4) {
            0 => rest.len(),
            1 => chance.between(1, 20).min(rest.len()),
            _ => chance.between(1, rest.len()),
        };
        let (now, later) = rest.split_at(taken);
        rest = later;
        let (bytes, start) = buffer_of(now, chance.once_in(2));
        let ahead = if chance.once_in(4) { chance.between(1, 3) } else { 0 };
        let mut input = chance.bytes(ahead);
        input.extend(bytes);
        let room = chance.between(16, 32);
        calls.push(Call::Read {
            input: input.into(),
            start: 8 * ahead + start,
            room,
        });
        if chance.once_in(3) {
            calls.push(refused(chance));
        }
    }
    calls
}

/// A reading or a making that is refused, for one reason or for several at once.
fn refused(chance: &mut Chance) -> Call {
    let length = chance.below(20);
    let mut input = Input::from(chance.bytes(length));
    let (mut start, mut room) = (chance.between(0, 8 * length), chance.between(16, 24));
    if chance.once_in(4) {
        return Call::New {
            length: other_length(chance),
        };
    }
    let reason = chance.between(1, 3);
    if reason & 1 == 1 {
        let most = if chance.once_in(2) { 3 } else { usize::MAX / 2 };
        start = 8 * length + chance.between(1, most);
    }
    if reason & 2 == 2 {
        room = chance.below(16);
    }
    if chance.once_in(40) {
        input.zeros = 65_537 - length + chance.below(3);
    }
    Call::Read { input, start, room }
}

/// Any length but a receiver's.
fn other_length(chance: &mut Chance) -> usize {
    let length = chance.below(2 * RECEIVER_BYTES);
    if length == RECEIVER_BYTES {
        RECEIVER_BYTES + 1
    } else {
        length
    }
}

/// A reading with a receiver written out: in range and led to by some bits, in range, nearly so, or of another length.
fn spelled(chance: &mut Chance) -> Call {
    let mut receiver = if chance.once_in(3) {
        hunting(chance)
    } else {
        in_frame(chance)
    };
    match chance.below(6) {
        0 => {
            let at = chance.below(4);
            receiver[at] = chance.below(10) as u8;
        }
        1 => {
            let at = chance.below(8 * RECEIVER_BYTES);
            receiver[at / 8] ^= 1 << (at % 8);
        }
        2 if chance.once_in(2) => {
            let length = other_length(chance);
            receiver.resize(length, 0);
        }
        _ => {}
    }
    let length = chance.below(40);
    let mut input = Input::from(bits_and_bytes(chance, length));
    let mut start = chance.between(0, 8 * input.bytes.len());
    let mut room = chance.between(16, 24);
    match chance.below(30) {
        0 => input.zeros = 65_537,
        1 => start = 8 * input.bytes.len() + 1,
        2 => room = chance.below(16),
        _ => {}
    }
    Call::Spelled {
        receiver,
        input,
        start,
        room,
    }
}

/// Bytes that often close the frame at once.
fn bits_and_bytes(chance: &mut Chance, length: usize) -> Vec<u8> {
    let mut cable = random_bits(chance, length);
    cable.extend(piece(chance));
    buffer_of(&cable, false).0
}

fn hunting(chance: &mut Chance) -> Vec<u8> {
    let mut receiver = vec![0; RECEIVER_BYTES];
    receiver[1] = chance.below(8) as u8;
    receiver
}

fn in_frame(chance: &mut Chance) -> Vec<u8> {
    let count = if chance.once_in(3) {
        chance.between(140, 152)
    } else {
        chance.below(153)
    };
    let content = random_bits(chance, count);
    let run = content.iter().rev().take_while(|bit| **bit).count();
    let (ones, lead) = if run <= 4 {
        (run, usize::from(run < count))
    } else {
        let after_stuffing = run % 5;
        match chance.below(3) {
            0 => (after_stuffing, 0),
            more => (4 + more, usize::from(run == 5 && run < count)),
        }
    };
    let mut receiver = vec![1, ones as u8, lead as u8, count as u8];
    let mut kept = content;
    kept.resize(8 * (RECEIVER_BYTES - 4), false);
    receiver.extend(buffer_of(&kept, false).0);
    receiver
}

/// A body and an output to frame it in: mostly good ones.
fn sending(chance: &mut Chance) -> Call {
    let length = if chance.once_in(4) {
        chance.below(20)
    } else {
        chance.between(2, 16)
    };
    let room = if chance.once_in(8) {
        chance.below(24)
    } else {
        chance.between(24, 40)
    };
    Call::Send {
        body: chance.bytes(length),
        room,
    }
}

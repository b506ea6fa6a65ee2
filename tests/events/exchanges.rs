//! Random calls about the I2C masters: starts, their ends, and what comes between.

use crate::calls::Call;
use crate::harness::chance::Chance;
use crate::image::{DATA_AT, MASTERS_AT, MASTER_BYTES};
use crate::streams::{all_on, any_request, damaged, event_or_step_back, link_frame, many, request, room};
use crate::streams::{shuffle, switching, wide, word};
use reference::adapter::Master;
use sca::{I2C_FIRST, I2C_LAST, I2C_MOST};

/// Command and request LEN of a master's registers.
const REGISTERS: [(u8, u8); 13] = [
    (0x20, 1),
    (0x21, 0),
    (0x30, 1),
    (0x31, 0),
    (0x11, 0),
    (0x40, 4),
    (0x41, 0),
    (0x50, 4),
    (0x51, 0),
    (0x60, 4),
    (0x61, 0),
    (0x70, 4),
    (0x71, 0),
];
/// And of its starts, read-modify-write among them.
pub const STARTS: [(u8, u8); 11] = [
    (0x82, 4),
    (0x86, 4),
    (0x8A, 6),
    (0x8E, 4),
    (0xDA, 4),
    (0xDE, 4),
    (0xE2, 2),
    (0xE6, 2),
    (0xC2, 2),
    (0xC6, 2),
    (0xCA, 2),
];
/// The starts that look at NBYTE.
pub const MULTI_BYTE: [u8; 4] = [0xDA, 0xDE, 0xE2, 0xE6];

const WRITE_MASK: u8 = 0x20;
const WRITE_CONTROL: u8 = 0x30;
const READ_STATUS: u8 = 0x11;
const WRITE_DATA: [u8; 4] = [0x40, 0x50, 0x60, 0x70];
const READ_ALL: [u8; 7] = [0x11, 0x21, 0x31, 0x41, 0x51, 0x61, 0x71];

const CONNECT: u8 = 0x2F;
const RESET: u8 = 0x8F;

/// Command and request LEN of every command of a master.
pub fn i2c_commands() -> impl Iterator<Item = (u8, u8)> {
    REGISTERS.into_iter().chain(STARTS)
}

/// The request LEN of a command; none where it is unknown.
pub fn length_of(command: u8) -> Option<u8> {
    let found = i2c_commands().find(|(known, _)| *known == command);
    found.map(|(_, length)| length)
}

pub fn is_start(command: u8) -> bool {
    STARTS.iter().any(|(start, _)| *start == command)
}

/// The channel of a master.
pub fn master(chance: &mut Chance) -> u8 {
    chance.between(usize::from(I2C_FIRST), usize::from(I2C_LAST)) as u8
}

/// The channel of a master; or one beside them, any byte, or one that is a master's in its low byte alone.
pub fn any_channel(chance: &mut Chance) -> u32 {
    const BESIDE: [u32; 7] = [0x00, 0x01, 0x02, 0x13, 0x14, 0x15, 0xFF];
    match chance.below(4) {
        0 => BESIDE[chance.below(BESIDE.len())],
        1 => u32::from(chance.byte()),
        2 => wide(chance) & !0xFF | u32::from(master(chance)),
        _ => u32::from(master(chance)),
    }
}

/// A command of a master, with the LEN that it has.
fn i2c(chance: &mut Chance, channel: u8, command: u8, data: u32) -> Call {
    request(chance, channel, command, length_of(command).unwrap_or(0), data)
}

/// Any command of a master, with the LEN that it has.
pub fn i2c_request(chance: &mut Chance, channel: u8) -> Call {
    let known: Vec<(u8, u8)> = i2c_commands().collect();
    let (command, _) = known[chance.below(known.len())];
    let data = if command == WRITE_CONTROL {
        let count = byte_count(chance);
        control(chance, count)
    } else {
        word(chance)
    };
    i2c(chance, channel, command, data)
}

/// An NBYTE: one that will do, one around the ends of those, or any.
fn byte_count(chance: &mut Chance) -> u32 {
    const ENDS: [u32; 5] = [0, 1, 16, 17, 31];
    match chance.below(8) {
        0 | 1 => ENDS[chance.below(ENDS.len())],
        2..=4 => chance.below(32) as u32,
        _ => good_count(chance),
    }
}

/// An NBYTE that will do.
fn good_count(chance: &mut Chance) -> u32 {
    chance.between(1, I2C_MOST) as u32
}

/// A CTRL with this NBYTE, as D.
fn control(chance: &mut Chance, count: u32) -> u32 {
    word(chance) & !0x7C00_0000 | count << 26
}

/// A start, every other time one of several bytes.
fn start(chance: &mut Chance, channel: u8) -> Call {
    let command = if chance.once_in(2) {
        MULTI_BYTE[chance.below(MULTI_BYTE.len())]
    } else {
        STARTS[chance.below(STARTS.len())].0
    };
    let data = word(chance);
    i2c(chance, channel, command, data)
}

/// An acknowledge or a line low: 0, 1, or any other value, which means 1.
pub fn bit(chance: &mut Chance) -> u32 {
    match chance.below(8) {
        0..=2 => 0,
        3..=6 => 1,
        _ => [2, 255, 256, 0x8000_0000, u32::MAX][chance.below(5)],
    }
}

/// An acknowledge and a line low: every other time those of a success.
fn how_it_ended(chance: &mut Chance) -> (u32, u32) {
    if chance.once_in(2) {
        (1, 0)
    } else {
        (bit(chance), bit(chance))
    }
}

fn sixteen_bytes(chance: &mut Chance) -> [u8; I2C_MOST] {
    let mut bytes = [0; I2C_MOST];
    bytes.copy_from_slice(&chance.bytes(I2C_MOST));
    bytes
}

/// The end of a start that is open, whichever it is, with none, fewer, as many or more bytes than NBYTE.
pub fn ending(chance: &mut Chance) -> Call {
    let (acknowledge, line_low) = how_it_ended(chance);
    Call::Ending {
        nth: chance.below(16),
        acknowledge,
        line_low,
        more: [0, 0, -1, 1, -31, 16, -(chance.below(16) as isize)][chance.below(7)],
        bytes: sixteen_bytes(chance),
        room: room(chance),
    }
}

/// The end of this master's start, with none, fewer, as many or more bytes than NBYTE.
fn end_of(chance: &mut Chance, channel: u8, count: u32) -> Call {
    let (acknowledge, line_low) = how_it_ended(chance);
    let (count, any) = (count as usize, chance.below(I2C_MOST + 1));
    let length = [count, count, count.saturating_sub(1), count + 1, 0, I2C_MOST, any][chance.below(7)];
    Call::I2cCompletion {
        channel: u32::from(channel),
        acknowledge,
        line_low,
        received: sixteen_bytes(chance)[..length.min(I2C_MOST)].to_vec(),
        room: room(chance),
    }
}

/// A start that finds an NBYTE that will do, and its end.
pub fn whole_start(chance: &mut Chance, channel: u8, command: u8) -> Vec<Call> {
    let count = good_count(chance);
    let (control, data) = (control(chance, count), word(chance));
    vec![
        i2c(chance, channel, WRITE_CONTROL, control),
        i2c(chance, channel, command, data),
        end_of(chance, channel, count),
    ]
}

/// A master is written to; a start, and its end; then all is read. Before it perhaps an unknown code, between them what may come while a
/// master is busy, after it perhaps steps back.
pub fn exchange(chance: &mut Chance) -> Vec<Call> {
    let (channel, count) = (master(chance), byte_count(chance));
    let mut calls = Vec::new();
    if chance.once_in(3) {
        calls.extend(all_on(chance));
    }
    if chance.once_in(4) {
        calls.push(unknown_to(chance, channel));
        calls.push(i2c(chance, channel, READ_STATUS, 0));
    }
    calls.extend(written(chance, channel, count));
    calls.push(start(chance, channel));
    calls.extend(while_busy(chance, channel));
    calls.push(end_of(chance, channel, count));
    if chance.once_in(4) {
        calls.push(end_of(chance, channel, count));
    }
    for command in READ_ALL {
        calls.push(i2c(chance, channel, command, 0));
    }
    if chance.once_in(4) {
        calls.extend(many(chance, 1, 20, |_| Call::StepBack));
    }
    calls
}

/// CTRL with this NBYTE, and some of MASK and DATA.
fn written(chance: &mut Chance, channel: u8, count: u32) -> Vec<Call> {
    let data = control(chance, count);
    let mut calls = vec![i2c(chance, channel, WRITE_CONTROL, data)];
    for command in WRITE_DATA.into_iter().chain([WRITE_MASK]) {
        if chance.once_in(2) {
            let data = word(chance);
            calls.push(i2c(chance, channel, command, data));
        }
    }
    calls
}

/// What comes between a start and its end: nothing, requests to this master or to any, an unknown code, a CONNECT, a RESET, a disabling,
/// steps back, calls on damaged copies.
fn while_busy(chance: &mut Chance, channel: u8) -> Vec<Call> {
    match chance.below(12) {
        0 => many(chance, 1, 4, |chance| i2c_request(chance, channel)),
        1 => many(chance, 1, 6, any_request),
        2 => vec![unknown_to(chance, channel)],
        3 => vec![link_frame(chance, CONNECT)],
        4 => vec![link_frame(chance, RESET)],
        5 | 6 => vec![switching(chance)],
        7 => vec![Call::StepBack, Call::StepBack],
        8 => many(chance, 1, 3, damaged),
        _ => Vec::new(),
    }
}

/// Starts on several masters, mostly on all; then their ends in any order, and steps back, perhaps over all of it.
pub fn at_once(chance: &mut Chance) -> Vec<Call> {
    let mut channels: Vec<u8> = (I2C_FIRST..=I2C_LAST).collect();
    shuffle(chance, &mut channels);
    let several = [channels.len(), channels.len(), chance.between(2, 15)][chance.below(3)];
    let mut calls = all_on(chance);
    for channel in &channels[..several] {
        let count = good_count(chance);
        let data = control(chance, count);
        calls.push(i2c(chance, *channel, WRITE_CONTROL, data));
        calls.push(start(chance, *channel));
    }
    if chance.once_in(3) {
        calls.extend(many(chance, 1, 4, |chance| flipped_in_front(chance, channels[0])));
    }
    calls.extend(while_busy(chance, channels[0]));
    for _ in 0..chance.between(1, several) {
        calls.push(ending(chance));
        if chance.once_in(8) {
            calls.push(Call::StepBack);
        }
    }
    if chance.once_in(2) {
        calls.extend(many(chance, 1, 60, |_| Call::StepBack));
        calls.extend(many(chance, 1, several, ending));
    }
    calls
}

/// An event or a step back with a bit of a master flipped in front of its DATA.
fn flipped_in_front(chance: &mut Chance, channel: u8) -> Call {
    let master_at = MASTERS_AT + MASTER_BYTES * usize::from(channel - I2C_FIRST);
    Call::FlippedState {
        bit: 8 * (master_at + chance.below(DATA_AT)) + chance.below(8),
        call: Box::new(event_or_step_back(chance)),
    }
}

/// A code that no master has, most often close to a start's, with any LEN.
fn unknown_to(chance: &mut Chance, channel: u8) -> Call {
    let code = loop {
        let (start, _) = STARTS[chance.below(STARTS.len())];
        let code = [chance.byte(), start ^ 1 << chance.below(8)][chance.below(2)];
        if length_of(code).is_none() {
            break code;
        }
    };
    let (length, data) = (chance.below(7) as u8, word(chance));
    request(chance, channel, code, length, data)
}

/// An unknown code to any master, STATUS of any, or the end of a start.
pub fn unknown_code(chance: &mut Chance) -> Call {
    let channel = master(chance);
    match chance.below(3) {
        0 => i2c(chance, channel, READ_STATUS, 0),
        1 => ending(chance),
        _ => unknown_to(chance, channel),
    }
}

/// A master in range, with a start open or none.
pub fn some_master(chance: &mut Chance) -> Master {
    let mut master = Master {
        mask: chance.byte(),
        control: chance.byte(),
        status: chance.byte() & 0x6C,
        data: sixteen_bytes(chance),
        ..Master::default()
    };
    if chance.once_in(3) {
        master.transaction = chance.between(0x01, 0xFE) as u8;
        master.command = STARTS[chance.below(STARTS.len())].0;
    }
    if MULTI_BYTE.contains(&master.command) {
        master.control = master.control & 0x83 | (good_count(chance) as u8) << 2;
    }
    master
}

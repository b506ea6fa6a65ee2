//! Random runs that reach deep states: phases, each about one thing.

use crate::calls::{Call, Way};
use crate::exchanges::{any_channel, at_once, bit, ending, exchange, i2c_commands, i2c_request};
use crate::exchanges::{is_start, master, some_master, unknown_code, whole_start};
use crate::harness::chance::Chance;
use crate::image::{bytes_of, DATA_AT, MASTERS_AT, MASTER_BYTES};
use crate::lengths::{
    emptied, enlarge, enlarged_aside, enlarged_back, enlarging, front_byte, most, no_length, of_other_length,
};
use crate::masters::is_on;
use crate::probes::{any_batch, probing, wrong_batch};
use reference::adapter::{Gpio, Spi, State};
use sca::{I2C_FIRST, I2C_LAST, LARGE_JOURNAL_BYTES, STATE_BYTES};

const CONTROLLER: u8 = 0x00;
const SPI: u8 = 0x01;
const GPIO: u8 = 0x02;
const SEU: u8 = 0x13;
const ID: u8 = 0x14;
const DAC: u8 = 0x15;

/// Channel, command and request LEN of every command but the I2C masters', after document 01's table.
const COMMANDS: [(u8, u8, u8); 49] = [
    (CONTROLLER, 0x02, 4),
    (CONTROLLER, 0x03, 2),
    (CONTROLLER, 0x04, 4),
    (CONTROLLER, 0x05, 2),
    (CONTROLLER, 0x06, 4),
    (CONTROLLER, 0x07, 2),
    (SPI, 0x40, 6),
    (SPI, 0x41, 2),
    (SPI, 0x50, 6),
    (SPI, 0x51, 2),
    (SPI, 0x60, 6),
    (SPI, 0x61, 2),
    (SPI, 0x00, 6),
    (SPI, 0x01, 2),
    (SPI, 0x10, 6),
    (SPI, 0x11, 2),
    (SPI, 0x20, 6),
    (SPI, 0x21, 2),
    (SPI, 0x30, 6),
    (SPI, 0x31, 2),
    (SPI, 0x72, 2),
    (GPIO, 0x10, 4),
    (GPIO, 0x11, 1),
    (GPIO, 0x20, 4),
    (GPIO, 0x21, 1),
    (GPIO, 0x30, 4),
    (GPIO, 0x31, 1),
    (GPIO, 0x40, 4),
    (GPIO, 0x41, 1),
    (GPIO, 0x70, 4),
    (GPIO, 0x71, 1),
    (GPIO, 0x80, 4),
    (GPIO, 0x81, 1),
    (GPIO, 0x90, 4),
    (GPIO, 0x91, 1),
    (GPIO, 0x60, 4),
    (GPIO, 0x61, 1),
    (GPIO, 0x01, 1),
    (SEU, 0xF1, 4),
    (SEU, 0xF0, 4),
    (ID, 0xD1, 4),
    (DAC, 0x10, 4),
    (DAC, 0x11, 1),
    (DAC, 0x20, 4),
    (DAC, 0x21, 1),
    (DAC, 0x30, 4),
    (DAC, 0x31, 1),
    (DAC, 0x40, 4),
    (DAC, 0x41, 1),
];

const WRITE_CRB: u8 = 0x02;
const WRITE_CRC: u8 = 0x04;
const WRITE_CRD: u8 = 0x06;
/// The bytes of the longest record: a tag, the core, and the group of CRC.
const RECORD_MOST: usize = 1 + 16 + 168;

/// CONNECT, RESET and TEST, with bit 4 clear and set.
pub const LINK_COMMANDS: [u8; 6] = [0x2F, 0x3F, 0x8F, 0x9F, 0xE3, 0xF3];

/// Channel, command and request LEN of every command there is.
pub fn commands() -> Vec<(u8, u8, u8)> {
    let own = |channel: u8| i2c_commands().map(move |(command, length)| (channel, command, length));
    COMMANDS
        .into_iter()
        .chain((I2C_FIRST..=I2C_LAST).flat_map(own))
        .collect()
}

pub fn stream(chance: &mut Chance) -> Vec<Call> {
    let mut calls = vec![emptied(chance), create(chance)];
    if chance.once_in(4) {
        calls.push(adopt(chance));
    } else {
        calls.extend(enable(chance));
    }
    for _ in 0..chance.between(4, 20) {
        calls.extend(phase(chance));
    }
    calls
}

fn create(chance: &mut Chance) -> Call {
    Call::Create {
        length: STATE_BYTES,
        id: word(chance) & 0xFF_FFFF,
    }
}

fn phase(chance: &mut Chance) -> Vec<Call> {
    match chance.below(32) {
        0..=3 => many(chance, 1, 20, request_or_ending),
        4..=6 => transfer(chance),
        7..=9 => pins(chance),
        10 => many(chance, 1, 8, link_command),
        11 => many(chance, 1, 10, any_frame),
        12 => many(chance, 1, 10, |chance| Call::Upset { room: room(chance) }),
        13 => {
            let most = [12, 12, 80, 220][chance.below(4)];
            many(chance, 1, most, |_| Call::StepBack)
        }
        14 => filled_then_back(chance),
        15 => many(chance, 1, 8, refused),
        16 => many(chance, 1, 6, damaged),
        17 => enable(chance),
        18 => one_of_all(chance),
        19..=22 => exchange(chance),
        23 | 24 => at_once(chance),
        25 => many(chance, 1, 12, unknown_code),
        26..=28 => probing(chance),
        29 | 30 => enlarging(chance),
        _ => vec![match chance.below(4) {
            0 => emptied(chance),
            1 => create(chance),
            2 => enlarged_aside(chance),
            _ => adopt(chance),
        }],
    }
}

pub fn many(chance: &mut Chance, least: usize, most: usize, one: impl Fn(&mut Chance) -> Call) -> Vec<Call> {
    (0..chance.between(least, most)).map(|_| one(chance)).collect()
}

/// Enough room, most often just enough.
pub fn room(chance: &mut Chance) -> usize {
    if chance.once_in(3) {
        chance.between(16, 30)
    } else {
        16
    }
}

/// A word of one kind: any, few ones, many, one, none, all.
pub fn word(chance: &mut Chance) -> u32 {
    let any = |chance: &mut Chance| u32::from_le_bytes([chance.byte(), chance.byte(), chance.byte(), chance.byte()]);
    match chance.below(8) {
        0 => 0,
        1 => u32::MAX,
        2 => 1 << chance.below(32),
        3 => any(chance) & any(chance) & any(chance),
        4 => any(chance) | any(chance) | any(chance),
        _ => any(chance),
    }
}

pub fn information(transaction: u8, channel: u8, length: u8, command: u8, data: u32) -> Vec<u8> {
    let [d0, d1, d2, d3] = data.to_le_bytes();
    vec![transaction, channel, length, command, d2, d3, d0, d1]
}

/// A request in sequence on the active port, with a valid TRN.
pub fn request(chance: &mut Chance, channel: u8, command: u8, length: u8, data: u32) -> Call {
    let transaction = chance.between(0x01, 0xFE) as u8;
    Call::Request {
        way: Way::Active,
        skew: 0,
        high: chance.byte() & 0x0F,
        information: information(transaction, channel, length, command, data),
        room: room(chance),
    }
}

fn valid_request(chance: &mut Chance) -> Call {
    if chance.once_in(3) {
        let channel = master(chance);
        return i2c_request(chance, channel);
    }
    let (channel, command, length) = COMMANDS[chance.below(COMMANDS.len())];
    let mut data = word(chance);
    if channel == CONTROLLER && !chance.once_in(4) {
        data |= enabling(command);
    }
    request(chance, channel, command, length, data)
}

/// The bits of the controller's registers that a run mostly leaves on: all that enable a channel.
fn enabling(command: u8) -> u32 {
    match command {
        WRITE_CRB => 0xFE00_0000,
        WRITE_CRC => 0xFF00_0000,
        WRITE_CRD => 0x1F00_0000,
        _ => 0,
    }
}

/// Mostly valid; else one or more fields of the information, the number or the port are not.
pub fn any_request(chance: &mut Chance) -> Call {
    let mut call = valid_request(chance);
    if let Call::Request {
        way, skew, information, ..
    } = &mut call
    {
        while chance.once_in(5) {
            match chance.below(7) {
                0 => information[0] = if chance.once_in(2) { 0x00 } else { 0xFF },
                1 => information[1] = [chance.byte(), chance.between(0x03, 0x17) as u8][chance.below(2)],
                2 => information[2] = [chance.byte(), chance.below(8) as u8][chance.below(2)],
                3 => information[3] = chance.byte(),
                4 => information[3] = information[3].wrapping_add(1),
                5 => *skew = chance.between(1, 7) as u8,
                _ => *way = Way::Other,
            }
        }
        if chance.once_in(30) {
            let length = chance.below(15);
            information.resize(length, 0x55);
        }
    }
    call
}

/// One request for each command, those of one master among them, in any order.
fn one_of_all(chance: &mut Chance) -> Vec<Call> {
    let chosen = master(chance);
    let mut order = COMMANDS.to_vec();
    order.extend(i2c_commands().map(|(command, length)| (chosen, command, length)));
    shuffle(chance, &mut order);
    let mut calls = enable(chance);
    calls.extend(all_on(chance));
    for (channel, command, length) in order {
        if channel == chosen && is_start(command) {
            calls.extend(whole_start(chance, channel, command));
            continue;
        }
        let mut data = word(chance);
        if channel == CONTROLLER {
            data |= enabling(command);
        }
        calls.push(request(chance, channel, command, length, data));
        if (channel, command) == (SPI, 0x72) {
            calls.push(completion(chance));
        }
    }
    calls
}

pub fn shuffle<T>(chance: &mut Chance, order: &mut [T]) {
    for at in (1..order.len()).rev() {
        order.swap(at, chance.below(at + 1));
    }
}

/// SPI, GPIO, SEU and ID on, and the I2C masters, all or any of them.
fn enable(chance: &mut Chance) -> Vec<Call> {
    let mut calls = Vec::new();
    if chance.once_in(2) {
        calls.push(link_frame(chance, 0x2F));
    }
    if !chance.once_in(3) {
        calls.extend(all_on(chance));
        return calls;
    }
    for (command, least) in [(WRITE_CRB, 0x0600_0000), (WRITE_CRC, 0), (WRITE_CRD, 0x1800_0000)] {
        let data = word(chance) | least;
        calls.push(request(chance, CONTROLLER, command, 4, data));
    }
    calls
}

/// All that can be enabled is.
pub fn all_on(chance: &mut Chance) -> Vec<Call> {
    let on = |command: u8| request(chance, CONTROLLER, command, 4, enabling(command));
    [WRITE_CRB, WRITE_CRC, WRITE_CRD].map(on).to_vec()
}

/// A write of CRB, CRC or CRD that disables some channels.
pub fn switching(chance: &mut Chance) -> Call {
    let command = [WRITE_CRB, WRITE_CRC, WRITE_CRD][chance.below(3)];
    let data = word(chance);
    request(chance, CONTROLLER, command, 4, data)
}

fn completion(chance: &mut Chance) -> Call {
    Call::Completion {
        received: chance.bytes(16),
        room: room(chance),
    }
}

/// An SPI transfer of some length; between GO and completion perhaps requests, a CONNECT, a disabling or a RESET.
fn transfer(chance: &mut Chance) -> Vec<Call> {
    let mut calls = Vec::new();
    for command in [0x00, 0x10, 0x20, 0x30] {
        let data = word(chance);
        calls.push(request(chance, SPI, command, 6, data));
    }
    const LENGTHS: [u32; 8] = [0, 1, 127, 32, 31, 33, 64, 96];
    let length = if chance.once_in(3) {
        LENGTHS[chance.below(LENGTHS.len())]
    } else {
        chance.below(128) as u32
    };
    let control = word(chance) & !0x7F | length;
    calls.push(request(chance, SPI, 0x40, 6, control));
    calls.push(request(chance, SPI, 0x72, 2, 0));
    match chance.below(8) {
        0 => calls.extend(many(chance, 1, 6, any_request)),
        1 => calls.push(link_frame(chance, 0x2F)),
        2 => calls.push(link_frame(chance, 0x8F)),
        3 => {
            let crb = word(chance) & !0x0200_0000;
            calls.push(request(chance, CONTROLLER, 0x02, 4, crb));
        }
        4 => calls.extend([Call::StepBack, Call::StepBack]),
        _ => {}
    }
    calls.push(completion(chance));
    if chance.once_in(4) {
        calls.push(completion(chance));
    }
    for command in [0x01, 0x11, 0x21, 0x31] {
        calls.push(request(chance, SPI, command, 2, 0));
    }
    calls
}

fn request_or_ending(chance: &mut Chance) -> Call {
    if chance.once_in(6) {
        ending(chance)
    } else {
        any_request(chance)
    }
}

pub fn sample(chance: &mut Chance) -> Call {
    Call::Sample {
        levels: word(chance),
        kind: chance.below(3) as u32,
        room: room(chance),
    }
}

/// The lines' registers, then samples of all kinds.
fn pins(chance: &mut Chance) -> Vec<Call> {
    let mut calls = Vec::new();
    for command in [0x20, 0x30, 0x40, 0x80, 0x90, 0x60] {
        if !chance.once_in(3) {
            let data = match command {
                0x20 => word(chance) & word(chance),
                0x30 => word(chance) | word(chance),
                0x60 => word(chance) | u32::from(!chance.once_in(4)),
                _ => word(chance),
            };
            calls.push(request(chance, GPIO, command, 4, data));
        }
    }
    calls.extend(many(chance, 1, 12, sample));
    calls.push(request(chance, GPIO, 0x01, 1, 0));
    calls.push(request(chance, GPIO, 0x71, 1, 0));
    calls
}

pub fn link_frame(chance: &mut Chance, control: u8) -> Call {
    Call::Frame {
        port: chance.below(2) as u32,
        body: vec![0x00, control | if chance.once_in(2) { 0x10 } else { 0 }],
        room: room(chance),
    }
}

/// CONNECT, RESET or TEST, now and then with information, and frames on either port between them.
fn link_command(chance: &mut Chance) -> Call {
    if chance.once_in(2) {
        return any_request(chance);
    }
    // RESET empties the journal; it comes less often
    let at = if chance.once_in(4) {
        2
    } else {
        [0, 4, 4][chance.below(3)]
    };
    let control = LINK_COMMANDS[at];
    let mut call = link_frame(chance, control);
    if let (Call::Frame { body, .. }, true) = (&mut call, chance.once_in(8)) {
        let length = chance.between(1, 14);
        body.extend(chance.bytes(length));
    }
    call
}

/// A frame of any kind: mostly address 0, any control, any length; or a request behind any address and control, now and then a
/// byte too short or too long.
fn any_frame(chance: &mut Chance) -> Call {
    let length = chance.between(2, 16);
    let mut body = chance.bytes(length);
    if let (Call::Request { information, .. }, true) = (valid_request(chance), chance.once_in(2)) {
        let length = [10, 10, 9, 11][chance.below(4)];
        body.truncate(2);
        body.extend(information);
        body.resize(length, 0x55);
    }
    if !chance.once_in(8) {
        body[0] = 0;
    }
    if chance.once_in(3) {
        body[1] |= 1;
    }
    Call::Frame {
        port: chance.below(2) as u32,
        body,
        room: room(chance),
    }
}

pub fn event(chance: &mut Chance) -> Call {
    if chance.once_in(24) {
        return any_batch(chance);
    }
    match chance.below(7) {
        0 => sample(chance),
        1 => completion(chance),
        2 => Call::Upset { room: room(chance) },
        3 => ending(chance),
        _ => any_request(chance),
    }
}

/// More events than a journal keeps, some or all of them taken back, and on again.
fn filled_then_back(chance: &mut Chance) -> Vec<Call> {
    let most = most(chance);
    let mut calls = many(chance, most - 14, most + 76, event);
    let all = chance.once_in(2);
    let back = if all { most + 2 } else { chance.between(1, most + 6) };
    calls.extend(vec![Call::StepBack; back]);
    calls.extend(many(chance, 0, 20, event));
    calls
}

/// Over 255: a number of this many bits whose low byte, or low half, is most often a port or an edge kind.
pub fn wide(chance: &mut Chance) -> u32 {
    const WIDE: [u32; 8] = [256, 257, 258, 0xFF00, 0x1_0000, 0x1_0001, 0x8000_0002, u32::MAX];
    WIDE[chance.below(WIDE.len())]
}

/// An event with one wrong argument or several.
fn refused(chance: &mut Chance) -> Call {
    let short = |chance: &mut Chance| {
        if chance.once_in(2) {
            chance.below(16)
        } else {
            16
        }
    };
    match chance.below(10) {
        0 | 1 => {
            let length = match chance.below(3) {
                0 => chance.below(2),
                1 => chance.between(17, 20),
                _ => chance.between(2, 16),
            };
            Call::Frame {
                port: [0, 1, 2, u32::from(chance.byte()), 0xFF, wide(chance)][chance.below(6)],
                body: chance.bytes(length),
                room: short(chance),
            }
        }
        2 => {
            let length = [chance.below(33), 15, 17, 0][chance.below(4)];
            Call::Completion {
                received: chance.bytes(length),
                room: short(chance),
            }
        }
        3 => Call::Sample {
            levels: word(chance),
            kind: [2, 3, u32::from(chance.byte()), 0xFF, wide(chance)][chance.below(5)],
            room: short(chance),
        },
        4 => Call::Upset { room: chance.below(20) },
        5 | 6 => {
            let length = [chance.below(17), 16, 17, 17, chance.between(18, 40)][chance.below(5)];
            Call::I2cCompletion {
                channel: any_channel(chance),
                acknowledge: bit(chance),
                line_low: bit(chance),
                received: chance.bytes(length),
                room: short(chance),
            }
        }
        7 => Call::Create {
            // 75 bytes are a state of before the masters
            length: [STATE_BYTES, STATE_BYTES - 1, STATE_BYTES + 1, 75, chance.below(500)][chance.below(5)],
            id: [0x0100_0000, u32::MAX, 0x00FF_FFFF, word(chance)][chance.below(4)],
        },
        8 => wrong_batch(chance),
        _ => Call::Empty {
            length: no_length(chance),
        },
    }
}

/// Any length but this one, most often close to it.
fn other_length(chance: &mut Chance, length: usize) -> usize {
    match chance.below(4) {
        0 => length - 1,
        1 => length + 1,
        2 => chance.below(length),
        _ => 0,
    }
}

pub fn event_or_step_back(chance: &mut Chance) -> Call {
    match chance.below(6) {
        0 | 1 => Call::StepBack,
        2 => refused_event(chance),
        _ => event(chance),
    }
}

fn refused_event(chance: &mut Chance) -> Call {
    loop {
        match refused(chance) {
            Call::Create { .. } | Call::Empty { .. } => {}
            call => return call,
        }
    }
}

/// Any call that a journal is handed to.
fn any_on_journal(chance: &mut Chance) -> Call {
    match chance.below(8) {
        0 => Call::Kept,
        1 => enlarge(chance),
        2 => enlarged_aside(chance),
        _ => event_or_step_back(chance),
    }
}

/// A call on a damaged copy of the state or of the journal.
pub fn damaged(chance: &mut Chance) -> Call {
    let call = any_on_journal(chance);
    damaged_by(chance, call)
}

/// This call on such a copy, or a step back.
pub fn damaged_by(chance: &mut Chance, call: Call) -> Call {
    let call = Box::new(call);
    match chance.below(13) {
        0..=2 => Call::FlippedState {
            bit: some_bit(chance),
            call,
        },
        3 => Call::StateOfLength {
            length: other_length(chance, STATE_BYTES),
            call,
        },
        4 | 5 => of_other_length(chance, call),
        6 => {
            let (at, byte) = front_byte(chance);
            Call::AlteredJournal { at, byte, call }
        }
        7..=9 => {
            let most = most(chance);
            let at = match chance.below(3) {
                0 => chance.below(8),
                1 => 1_024 + 256 * chance.below(most) + chance.below(RECORD_MOST + 8),
                _ => chance.below(LARGE_JOURNAL_BYTES),
            };
            let byte = [chance.byte(), chance.below(most + 2) as u8][chance.below(2)];
            let call = if chance.once_in(2) {
                Box::new(Call::StepBack)
            } else {
                call
            };
            Call::AlteredJournal { at, byte, call }
        }
        10 | 11 => Call::AlteredRecord {
            at: [0, chance.below(17), chance.below(RECORD_MOST + 8)][chance.below(3)],
            byte: [chance.byte(), chance.below(8) as u8][chance.below(2)],
            call: Box::new(if chance.once_in(3) {
                enlarged_back(chance)
            } else {
                Call::StepBack
            }),
        },
        _ => Call::OtherState {
            state: other_state(chance),
            call: Box::new(Call::StepBack),
        },
    }
}

/// A bit of a state: any, one in front of the masters, of CRB, CRC or CRD, or of a master.
fn some_bit(chance: &mut Chance) -> usize {
    let byte = match chance.below(5) {
        0 => chance.below(STATE_BYTES),
        1 => chance.below(MASTERS_AT),
        2 => chance.between(5, 7),
        _ => {
            let own = [chance.below(DATA_AT), chance.below(MASTER_BYTES)][chance.below(2)];
            MASTERS_AT + MASTER_BYTES * chance.below(16) + own
        }
    };
    8 * byte + chance.below(8)
}

/// The run goes on with another state.
fn adopt(chance: &mut Chance) -> Call {
    Call::Adopt {
        state: other_state(chance),
    }
}

/// The bytes of a state in range, as any other run may have left it.
fn other_state(chance: &mut Chance) -> Vec<u8> {
    let mut state = State::power_on(word(chance) & 0xFF_FFFF);
    state.send = chance.below(8) as u8;
    state.receive = chance.below(8) as u8;
    state.active = chance.below(2) as u8;
    state.loopback = [chance.once_in(4), chance.once_in(4)];
    state.seu = word(chance);
    state.crb = chance.byte() & 0xFE;
    state.crc = chance.byte();
    state.crd = chance.byte() & 0x1F;
    state.dac = [chance.byte(), chance.byte(), chance.byte(), chance.byte()];
    if state.spi_enabled() {
        state.spi = Spi {
            control: word(chance) as u16,
            frequency: word(chance) as u16,
            slave_select: chance.byte(),
            data: [word(chance), word(chance), word(chance), word(chance)],
            open_go: Some(chance.byte()).filter(|transaction| *transaction != 0 && transaction % 2 == 0),
        };
    }
    if state.gpio_enabled() {
        state.gpio = Gpio {
            dataout: word(chance),
            datain: word(chance),
            direction: word(chance),
            intsel: word(chance),
            inttrig: word(chance),
            ints: word(chance),
            clksel: word(chance),
            edgesel: word(chance),
            intenable: chance.below(2) as u32,
        };
    }
    // none of the masters, a few or all that are enabled have something in them
    let rarely = [0, 8, 1][chance.below(3)];
    for place in 0..state.masters.len() {
        if rarely > 0 && chance.once_in(rarely) && is_on(&state, place) {
            state.masters[place] = some_master(chance);
        }
    }
    bytes_of(&state)
}

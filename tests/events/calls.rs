//! The calls of a run, and their text: a run that fails is printed so, and can be run again.

use crate::harness::hex::{bytes_in, Hex};
use reference::adapter::State;
use sca::boundary::RawSample;
use sca::{I2C_FIRST, I2C_MOST};
use std::fmt;

/// Where a frame arrives.
#[derive(Clone, Copy, PartialEq, Eq, Debug)]
pub enum Way {
    /// On the active port.
    Active,
    /// On the other one.
    Other,
}

#[derive(Clone, PartialEq, Eq, Debug)]
pub enum Call {
    /// Makes a state of this many bytes; where they are a state's, the run goes on with it.
    Create {
        length: usize,
        id: u32,
    },
    /// Makes a journal of this many bytes empty: the run's own, or one of the other size, with which the run then goes
    /// on.
    Empty {
        length: usize,
    },
    Kept,
    /// Makes a second buffer of this many bytes a large journal that keeps the same; where that is done, the run goes
    /// on with it. `held` says what the second held before.
    Enlarge {
        length: usize,
        held: u32,
    },
    Frame {
        port: u32,
        body: Vec<u8>,
        room: usize,
    },
    /// A numbered frame whose port and number depend on the state that it finds, so that it is still in sequence where
    /// calls before it are left out. `skew` is added to the number that is due, `high` are bits 7 to 4 of control.
    Request {
        way: Way,
        skew: u8,
        high: u8,
        information: Vec<u8>,
        room: usize,
    },
    Completion {
        received: Vec<u8>,
        room: usize,
    },
    I2cCompletion {
        channel: u32,
        acknowledge: u32,
        line_low: u32,
        received: Vec<u8>,
        room: usize,
    },
    /// The end of an I2C start that the state which it finds has open: of the `nth` one, from 0 and round again; where none is,
    /// of the `nth` master. `more` is added to NBYTE for the number of bytes received, as far as `bytes` has them.
    Ending {
        nth: usize,
        acknowledge: u32,
        line_low: u32,
        more: isize,
        bytes: [u8; I2C_MOST],
        room: usize,
    },
    Sample {
        levels: u32,
        kind: u32,
        room: usize,
    },
    /// Pin samples by the batch.
    Samples {
        list: Vec<RawSample>,
        room: usize,
    },
    Upset {
        room: usize,
    },
    StepBack,
    /// The run goes on with a state as another run may have left it; the journal stays.
    Adopt {
        state: Vec<u8>,
    },
    /// The call on a copy of the state with one bit flipped.
    FlippedState {
        bit: usize,
        call: Box<Call>,
    },
    /// The call on a copy of the state, cut or lengthened.
    StateOfLength {
        length: usize,
        call: Box<Call>,
    },
    /// The call on another state, which the journal did not go with.
    OtherState {
        state: Vec<u8>,
        call: Box<Call>,
    },
    /// The call on a copy of the journal with one byte altered.
    AlteredJournal {
        at: usize,
        byte: u8,
        call: Box<Call>,
    },
    /// The same, with a byte of the newest record's slot.
    AlteredRecord {
        at: usize,
        byte: u8,
        call: Box<Call>,
    },
    /// The call on a copy of the journal, cut or lengthened.
    JournalOfLength {
        length: usize,
        call: Box<Call>,
    },
    /// The same, with these bytes in front.
    JournalWithFront {
        length: usize,
        front: Vec<u8>,
        call: Box<Call>,
    },
    /// The calls one after the other on a copy of state and journal; the run then goes on as if they had not been.
    Aside {
        calls: Vec<Call>,
    },
}

impl Call {
    /// The call that this one does on a copy of state or journal; none where it is no such one.
    pub fn on_copy(&self) -> Option<&Call> {
        match self {
            Call::FlippedState { call, .. } => Some(call),
            Call::StateOfLength { call, .. } => Some(call),
            Call::OtherState { call, .. } => Some(call),
            Call::AlteredJournal { call, .. } => Some(call),
            Call::AlteredRecord { call, .. } => Some(call),
            Call::JournalOfLength { call, .. } => Some(call),
            Call::JournalWithFront { call, .. } => Some(call),
            _ => None,
        }
    }

    /// This call, with another one on its copy.
    pub fn with_on_copy(&self, other: Call) -> Call {
        let mut changed = self.clone();
        match &mut changed {
            Call::FlippedState { call, .. } => **call = other,
            Call::StateOfLength { call, .. } => **call = other,
            Call::OtherState { call, .. } => **call = other,
            Call::AlteredJournal { call, .. } => **call = other,
            Call::AlteredRecord { call, .. } => **call = other,
            Call::JournalOfLength { call, .. } => **call = other,
            Call::JournalWithFront { call, .. } => **call = other,
            _ => {}
        }
        changed
    }

    /// The call as it is for the state that it finds: a request is the frame that it makes, an ending the completion.
    /// Calls aside stay as they are: each of them finds what the one before it left.
    pub fn found_by(&self, state: &State) -> Call {
        match self {
            Call::Request {
                way,
                skew,
                high,
                information,
                room,
            } => {
                let number = state.receive.wrapping_add(*skew) % 8;
                let mut body = vec![0x00, high << 4 | number << 1];
                body.extend_from_slice(information);
                Call::Frame {
                    port: u32::from(state.active) ^ u32::from(*way == Way::Other),
                    body,
                    room: *room,
                }
            }
            Call::Ending {
                nth,
                acknowledge,
                line_low,
                more,
                bytes,
                room,
            } => {
                let place = ended(state, *nth);
                let count = isize::from(state.masters[place].control >> 2 & 0x1F) + more;
                Call::I2cCompletion {
                    channel: u32::from(I2C_FIRST) + place as u32,
                    acknowledge: *acknowledge,
                    line_low: *line_low,
                    received: bytes[..count.clamp(0, I2C_MOST as isize) as usize].to_vec(),
                    room: *room,
                }
            }
            _ => match self.on_copy() {
                Some(call) => self.with_on_copy(call.found_by(state)),
                None => self.clone(),
            },
        }
    }
}

/// The place of the nth master with a start open, round again; where none is open, of the nth master.
fn ended(state: &State, nth: usize) -> usize {
    let masters = state.masters.iter().enumerate();
    let open: Vec<usize> = masters
        .filter(|(_, master)| master.command != 0)
        .map(|(place, _)| place)
        .collect();
    match open.len() {
        0 => nth % state.masters.len(),
        count => open[nth % count],
    }
}

/// What ends each call of those that are aside. Inside them no call is aside.
const END: &str = ";";

/// As in a bench listing, with the output's room behind; the other calls by their names.
impl fmt::Display for Call {
    fn fmt(&self, out: &mut fmt::Formatter) -> fmt::Result {
        match self {
            Call::Create { length, id } => write!(out, "create {} {}", length, id),
            Call::Empty { length } => write!(out, "empty {}", length),
            Call::Kept => write!(out, "kept"),
            Call::Enlarge { length, held } => write!(out, "enlarge {} {}", length, held),
            Call::Frame { port, body, room } => write!(out, "F {} {} {}", port, Hex(body), room),
            Call::Request {
                way,
                skew,
                high,
                information,
                room,
            } => {
                let way = if *way == Way::Active { "active" } else { "other" };
                write!(out, "request {} {} {} {} {}", way, skew, high, Hex(information), room)
            }
            Call::Completion { received, room } => write!(out, "S {} {}", Hex(received), room),
            Call::I2cCompletion {
                channel,
                acknowledge,
                line_low,
                received,
                room,
            } => {
                let bytes = Hex(received);
                write!(out, "I {:02x} {} {} {} {}", channel, acknowledge, line_low, bytes, room)
            }
            Call::Ending {
                nth,
                acknowledge,
                line_low,
                more,
                bytes,
                room,
            } => {
                let bytes = Hex(bytes);
                write!(
                    out,
                    "ending {} {} {} {} {} {}",
                    nth, acknowledge, line_low, more, bytes, room
                )
            }
            Call::Sample { levels, kind, room } => write!(out, "P {:08x} {} {}", levels, kind, room),
            Call::Samples { list, room } => {
                write!(out, "samples {}", room)?;
                let mut each = list.iter();
                each.try_for_each(|sample| write!(out, " {:08x}:{}", sample.levels, sample.kind))
            }
            Call::Upset { room } => write!(out, "U {}", room),
            Call::StepBack => write!(out, "B"),
            Call::Adopt { state } => write!(out, "adopt {}", Hex(state)),
            Call::FlippedState { bit, call } => write!(out, "flip {} {}", bit, call),
            Call::StateOfLength { length, call } => write!(out, "state {} {}", length, call),
            Call::OtherState { state, call } => write!(out, "other {} {}", Hex(state), call),
            Call::AlteredJournal { at, byte, call } => write!(out, "alter {} {} {}", at, byte, call),
            Call::AlteredRecord { at, byte, call } => write!(out, "record {} {} {}", at, byte, call),
            Call::JournalOfLength { length, call } => write!(out, "journal {} {}", length, call),
            Call::JournalWithFront { length, front, call } => write!(out, "front {} {} {}", length, Hex(front), call),
            Call::Aside { calls } => {
                write!(out, "aside")?;
                calls.iter().try_for_each(|call| write!(out, " {} {}", call, END))
            }
        }
    }
}

/// The call that a line spells.
pub fn call_in(line: &str) -> Option<Call> {
    call_of(&line.split_whitespace().collect::<Vec<_>>())
}

fn call_of(words: &[&str]) -> Option<Call> {
    let number = |text: &str| text.parse::<usize>().ok();
    let word = |text: &str| text.parse::<u32>().ok();
    let inner = |words: &[&str]| Some(Box::new(call_of(words)?));
    match *words {
        ["create", length, id] => Some(Call::Create {
            length: number(length)?,
            id: word(id)?,
        }),
        ["empty", length] => Some(Call::Empty {
            length: number(length)?,
        }),
        ["kept"] => Some(Call::Kept),
        ["enlarge", length, held] => Some(Call::Enlarge {
            length: number(length)?,
            held: word(held)?,
        }),
        ["request", way, skew, high, information, room] => Some(Call::Request {
            way: way_in(way)?,
            skew: skew.parse().ok()?,
            high: high.parse().ok()?,
            information: bytes_in(information)?,
            room: number(room)?,
        }),
        ["ending", nth, acknowledge, line_low, more, bytes, room] => Some(Call::Ending {
            nth: number(nth)?,
            acknowledge: word(acknowledge)?,
            line_low: word(line_low)?,
            more: more.parse().ok()?,
            bytes: bytes_in(bytes)?.try_into().ok()?,
            room: number(room)?,
        }),
        ["F", port, body, room] => Some(Call::Frame {
            port: word(port)?,
            body: bytes_in(body)?,
            room: number(room)?,
        }),
        ["S", received, room] => Some(Call::Completion {
            received: bytes_in(received)?,
            room: number(room)?,
        }),
        ["I", channel, acknowledge, line_low, received, room] => Some(Call::I2cCompletion {
            channel: u32::from_str_radix(channel, 16).ok()?,
            acknowledge: word(acknowledge)?,
            line_low: word(line_low)?,
            received: bytes_in(received)?,
            room: number(room)?,
        }),
        ["P", levels, kind, room] => Some(Call::Sample {
            levels: u32::from_str_radix(levels, 16).ok()?,
            kind: word(kind)?,
            room: number(room)?,
        }),
        ["samples", room, ..] => Some(Call::Samples {
            list: words[2..].iter().map(|text| sample_in(text)).collect::<Option<_>>()?,
            room: number(room)?,
        }),
        ["U", room] => Some(Call::Upset { room: number(room)? }),
        ["B"] => Some(Call::StepBack),
        ["adopt", state] => Some(Call::Adopt {
            state: bytes_in(state)?,
        }),
        ["flip", bit, ..] => Some(Call::FlippedState {
            bit: number(bit)?,
            call: inner(&words[2..])?,
        }),
        ["state", length, ..] => Some(Call::StateOfLength {
            length: number(length)?,
            call: inner(&words[2..])?,
        }),
        ["other", state, ..] => Some(Call::OtherState {
            state: bytes_in(state)?,
            call: inner(&words[2..])?,
        }),
        ["alter", at, byte, ..] => Some(Call::AlteredJournal {
            at: number(at)?,
            byte: byte.parse().ok()?,
            call: inner(&words[3..])?,
        }),
        ["record", at, byte, ..] => Some(Call::AlteredRecord {
            at: number(at)?,
            byte: byte.parse().ok()?,
            call: inner(&words[3..])?,
        }),
        ["journal", length, ..] => Some(Call::JournalOfLength {
            length: number(length)?,
            call: inner(&words[2..])?,
        }),
        ["front", length, front, ..] => Some(Call::JournalWithFront {
            length: number(length)?,
            front: bytes_in(front)?,
            call: inner(&words[3..])?,
        }),
        ["aside", ref calls @ .., END] => Some(Call::Aside {
            calls: calls.split(|word| *word == END).map(call_of).collect::<Option<_>>()?,
        }),
        _ => None,
    }
}

fn way_in(text: &str) -> Option<Way> {
    match text {
        "active" => Some(Way::Active),
        "other" => Some(Way::Other),
        _ => None,
    }
}

/// The sample of a batch that a word spells: its levels in hex, and its kind.
fn sample_in(text: &str) -> Option<RawSample> {
    let (levels, kind) = text.split_once(':')?;
    Some(RawSample {
        levels: u32::from_str_radix(levels, 16).ok()?,
        kind: kind.parse().ok()?,
    })
}

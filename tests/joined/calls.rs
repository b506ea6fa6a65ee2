//! The calls of a run, and their text: a run that fails is printed so, and can be run again.

use crate::harness::chance::Chance;
use crate::harness::hex::{bytes_in, Hex};
use crate::harness::output::Output;
use std::fmt;

/// An output to lend: its bytes, and the seed of what they hold before.
#[derive(Clone, Copy, PartialEq, Eq, Debug)]
pub struct Lent {
    pub bytes: usize,
    pub seed: u32,
}

impl Lent {
    pub fn output(self) -> Output {
        let mut output = Output::new(self.bytes);
        let mut chance = Chance::new(u64::from(self.seed), 0);
        output.lent().iter_mut().for_each(|byte| *byte = chance.byte());
        output
    }
}

/// What becomes of a body that is on its way.
#[derive(Clone, Copy, PartialEq, Eq, Debug)]
pub enum Fate {
    /// It arrives.
    Once,
    /// It arrives, and is on its way still.
    Again,
    /// It is lost.
    Never,
}

/// The chip's port that a body arrives on.
#[derive(Clone, Copy, PartialEq, Eq, Debug)]
pub enum Way {
    /// The active one.
    Active,
    /// The other one.
    Other,
}

/// How a body goes over.
#[derive(Clone, Copy, PartialEq, Eq, Debug)]
pub enum Passage {
    /// As it is.
    Whole,
    /// With this byte at this place.
    Put { at: usize, byte: u8 },
    /// Cut or lengthened.
    Length(usize),
    /// By cable: framed, and read by a new receiver.
    Cable,
    /// The same, and a bit of the cable, counted from its end, turned round.
    BrokenCable { bit: usize },
}

/// The turn of a body that is on its way: the one at a place among them, from 0 on from the oldest, from -1 down from the newest, and
/// round again.
#[derive(Clone, Copy, PartialEq, Eq, Debug)]
pub struct Turn {
    pub nth: isize,
    pub fate: Fate,
    pub passage: Passage,
}

/// What was done to a record.
#[derive(Clone, PartialEq, Eq, Debug)]
pub enum Damage {
    /// These bytes were put at this place.
    Bytes { at: usize, bytes: Vec<u8> },
    /// It was cut or lengthened.
    Length(usize),
}

#[derive(Clone, PartialEq, Eq, Debug)]
pub enum Call {
    /// Makes a record of this many bytes; where they are a record's, the run goes on with it.
    NewRecord {
        length: usize,
    },
    /// The run goes on with a record as another run may have left it.
    Adopt {
        record: Vec<u8>,
    },
    /// The run goes on with a new chip.
    NewChip {
        id: u32,
    },
    /// The control room writes a request, which then is on its way.
    Request {
        channel: u32,
        command: u32,
        data: u32,
        lent: Lent,
    },
    /// The same with a command of the link.
    Command {
        control: u32,
        lent: Lent,
    },
    /// The control room reads these bytes, wherever they come from.
    Reply {
        body: Vec<u8>,
        lent: Lent,
    },
    /// Of the bodies on their way to the chip.
    ToChip {
        turn: Turn,
        way: Way,
        lent: Lent,
    },
    /// Of those on their way to the control room.
    ToRoom {
        turn: Turn,
        lent: Lent,
    },
    /// All that is on its way is lost.
    Silence,
    Completion {
        received: Vec<u8>,
        lent: Lent,
    },
    I2cCompletion {
        channel: u32,
        acknowledge: u32,
        line_low: u32,
        received: Vec<u8>,
        lent: Lent,
    },
    Sample {
        levels: u32,
        kind: u32,
        lent: Lent,
    },
    Upset {
        lent: Lent,
    },
    StepBack,
    /// A call of the control room on a damaged copy of the record. What is on its way stays so.
    Damaged {
        damage: Damage,
        call: Box<Call>,
    },
}

impl fmt::Display for Lent {
    fn fmt(&self, out: &mut fmt::Formatter) -> fmt::Result {
        write!(out, "{}:{:08x}", self.bytes, self.seed)
    }
}

impl fmt::Display for Fate {
    fn fmt(&self, out: &mut fmt::Formatter) -> fmt::Result {
        out.write_str(match self {
            Fate::Once => "once",
            Fate::Again => "again",
            Fate::Never => "never",
        })
    }
}

impl fmt::Display for Way {
    fn fmt(&self, out: &mut fmt::Formatter) -> fmt::Result {
        out.write_str(match self {
            Way::Active => "active",
            Way::Other => "other",
        })
    }
}

impl fmt::Display for Passage {
    fn fmt(&self, out: &mut fmt::Formatter) -> fmt::Result {
        match self {
            Passage::Whole => write!(out, "whole"),
            Passage::Put { at, byte } => write!(out, "put:{}:{}", at, byte),
            Passage::Length(length) => write!(out, "length:{}", length),
            Passage::Cable => write!(out, "cable"),
            Passage::BrokenCable { bit } => write!(out, "cable:{}", bit),
        }
    }
}

impl fmt::Display for Turn {
    fn fmt(&self, out: &mut fmt::Formatter) -> fmt::Result {
        write!(out, "{} {} {}", self.nth, self.fate, self.passage)
    }
}

impl fmt::Display for Call {
    fn fmt(&self, out: &mut fmt::Formatter) -> fmt::Result {
        match self {
            Call::NewRecord { length } => write!(out, "record {}", length),
            Call::Adopt { record } => write!(out, "adopt {}", Hex(record)),
            Call::NewChip { id } => write!(out, "chip {}", id),
            Call::Request {
                channel,
                command,
                data,
                lent,
            } => write!(out, "request {:02x} {:02x} {:08x} {}", channel, command, data, lent),
            Call::Command { control, lent } => write!(out, "command {:02x} {}", control, lent),
            Call::Reply { body, lent } => write!(out, "reply {} {}", Hex(body), lent),
            Call::ToChip { turn, way, lent } => write!(out, "to-chip {} {} {}", turn, way, lent),
            Call::ToRoom { turn, lent } => write!(out, "to-room {} {}", turn, lent),
            Call::Silence => write!(out, "silence"),
            Call::Completion { received, lent } => write!(out, "S {} {}", Hex(received), lent),
            Call::I2cCompletion {
                channel,
                acknowledge,
                line_low,
                received,
                lent,
            } => {
                let bytes = Hex(received);
                write!(out, "I {:02x} {} {} {} {}", channel, acknowledge, line_low, bytes, lent)
            }
            Call::Sample { levels, kind, lent } => write!(out, "P {:08x} {} {}", levels, kind, lent),
            Call::Upset { lent } => write!(out, "U {}", lent),
            Call::StepBack => write!(out, "B"),
            Call::Damaged { damage, call } => match damage {
                Damage::Bytes { at, bytes } => write!(out, "damaged {} {} {}", at, Hex(bytes), call),
                Damage::Length(length) => write!(out, "length {} {}", length, call),
            },
        }
    }
}

/// The call that a line spells.
pub fn call_in(line: &str) -> Option<Call> {
    call_of(&line.split_whitespace().collect::<Vec<_>>())
}

fn call_of(words: &[&str]) -> Option<Call> {
    let number = |text: &str| text.parse::<usize>().ok();
    let word = |text: &str| text.parse::<u32>().ok();
    let hex = |text: &str| u32::from_str_radix(text, 16).ok();
    let inner = |words: &[&str]| Some(Box::new(call_of(words)?));
    match *words {
        ["record", length] => Some(Call::NewRecord {
            length: number(length)?,
        }),
        ["adopt", record] => Some(Call::Adopt {
            record: bytes_in(record)?,
        }),
        ["chip", id] => Some(Call::NewChip { id: word(id)? }),
        ["request", channel, command, data, lent] => Some(Call::Request {
            channel: hex(channel)?,
            command: hex(command)?,
            data: hex(data)?,
            lent: lent_in(lent)?,
        }),
        ["command", control, lent] => Some(Call::Command {
            control: hex(control)?,
            lent: lent_in(lent)?,
        }),
        ["reply", body, lent] => Some(Call::Reply {
            body: bytes_in(body)?,
            lent: lent_in(lent)?,
        }),
        ["to-chip", nth, fate, passage, way, lent] => Some(Call::ToChip {
            turn: turn_in(nth, fate, passage)?,
            way: way_in(way)?,
            lent: lent_in(lent)?,
        }),
        ["to-room", nth, fate, passage, lent] => Some(Call::ToRoom {
            turn: turn_in(nth, fate, passage)?,
            lent: lent_in(lent)?,
        }),
        ["silence"] => Some(Call::Silence),
        ["S", received, lent] => Some(Call::Completion {
            received: bytes_in(received)?,
            lent: lent_in(lent)?,
        }),
        ["I", channel, acknowledge, line_low, received, lent] => Some(Call::I2cCompletion {
            channel: hex(channel)?,
            acknowledge: word(acknowledge)?,
            line_low: word(line_low)?,
            received: bytes_in(received)?,
            lent: lent_in(lent)?,
        }),
        ["P", levels, kind, lent] => Some(Call::Sample {
            levels: hex(levels)?,
            kind: word(kind)?,
            lent: lent_in(lent)?,
        }),
        ["U", lent] => Some(Call::Upset { lent: lent_in(lent)? }),
        ["B"] => Some(Call::StepBack),
        ["damaged", at, bytes, ..] => Some(Call::Damaged {
            damage: Damage::Bytes {
                at: number(at)?,
                bytes: bytes_in(bytes)?,
            },
            call: inner(&words[3..])?,
        }),
        ["length", length, ..] => Some(Call::Damaged {
            damage: Damage::Length(number(length)?),
            call: inner(&words[2..])?,
        }),
        _ => None,
    }
}

fn lent_in(text: &str) -> Option<Lent> {
    let (bytes, seed) = text.split_once(':')?;
    Some(Lent {
        bytes: bytes.parse().ok()?,
        seed: u32::from_str_radix(seed, 16).ok()?,
    })
}

fn turn_in(nth: &str, fate: &str, passage: &str) -> Option<Turn> {
    Some(Turn {
        nth: nth.parse().ok()?,
        fate: fate_in(fate)?,
        passage: passage_in(passage)?,
    })
}

fn fate_in(text: &str) -> Option<Fate> {
    [Fate::Once, Fate::Again, Fate::Never]
        .into_iter()
        .find(|fate| fate.to_string() == text)
}

fn way_in(text: &str) -> Option<Way> {
    [Way::Active, Way::Other]
        .into_iter()
        .find(|way| way.to_string() == text)
}

fn passage_in(text: &str) -> Option<Passage> {
    match text.split(':').collect::<Vec<_>>()[..] {
        ["whole"] => Some(Passage::Whole),
        ["put", at, byte] => Some(Passage::Put {
            at: at.parse().ok()?,
            byte: byte.parse().ok()?,
        }),
        ["length", length] => Some(Passage::Length(length.parse().ok()?)),
        ["cable"] => Some(Passage::Cable),
        ["cable", bit] => Some(Passage::BrokenCable { bit: bit.parse().ok()? }),
        _ => None,
    }
}

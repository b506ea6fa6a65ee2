//! The calls of a stream, and their text: a stream that fails is printed so, and can be run again.

use crate::harness::hex::{bytes_in, Hex};
use std::fmt;

/// Cable bytes: those written out, then zeros.
#[derive(Clone, PartialEq, Eq, Debug)]
pub struct Input {
    pub bytes: Vec<u8>,
    pub zeros: usize,
}

impl Input {
    pub fn whole(&self) -> Vec<u8> {
        let mut bytes = self.bytes.clone();
        bytes.resize(self.bytes.len() + self.zeros, 0);
        bytes
    }
}

impl From<Vec<u8>> for Input {
    fn from(bytes: Vec<u8>) -> Input {
        Input { bytes, zeros: 0 }
    }
}

#[derive(Clone, PartialEq, Eq, Debug)]
pub enum Call {
    /// Makes a receiver of this many bytes; where they are a receiver's, the stream goes on with it.
    New { length: usize },
    /// Reads a buffer from a start bit to its end, answer by answer; once, where that is refused.
    Read { input: Input, start: usize, room: usize },
    /// Reads once with a receiver of these bytes; the stream's own is not touched.
    Spelled {
        receiver: Vec<u8>,
        input: Input,
        start: usize,
        room: usize,
    },
    /// Frames a body.
    Send { body: Vec<u8>, room: usize },
}

impl fmt::Display for Input {
    fn fmt(&self, out: &mut fmt::Formatter) -> fmt::Result {
        write!(out, "{} zeros {}", Hex(&self.bytes), self.zeros)
    }
}

impl fmt::Display for Call {
    fn fmt(&self, out: &mut fmt::Formatter) -> fmt::Result {
        match self {
            Call::New { length } => write!(out, "new {}", length),
            Call::Read { input, start, room } => {
                write!(out, "read from {} room {} cable {}", start, room, input)
            }
            Call::Spelled {
                receiver,
                input,
                start,
                room,
            } => {
                write!(
                    out,
                    "spelled {} from {} room {} cable {}",
                    Hex(receiver),
                    start,
                    room,
                    input
                )
            }
            Call::Send { body, room } => write!(out, "send {} room {}", Hex(body), room),
        }
    }
}

/// The call that a line spells.
pub fn call_in(line: &str) -> Option<Call> {
    let number = |text: &str| text.parse::<usize>().ok();
    let input = |bytes: &str, zeros: &str| {
        Some(Input {
            bytes: bytes_in(bytes)?,
            zeros: number(zeros)?,
        })
    };
    match line.split_whitespace().collect::<Vec<_>>()[..] {
        ["new", length] => Some(Call::New {
            length: number(length)?,
        }),
        ["read", "from", start, "room", room, "cable", bytes, "zeros", zeros] => Some(Call::Read {
            input: input(bytes, zeros)?,
            start: number(start)?,
            room: number(room)?,
        }),
        ["spelled", receiver, "from", start, "room", room, "cable", bytes, "zeros", zeros] => Some(Call::Spelled {
            receiver: bytes_in(receiver)?,
            input: input(bytes, zeros)?,
            start: number(start)?,
            room: number(room)?,
        }),
        ["send", body, "room", room] => Some(Call::Send {
            body: bytes_in(body)?,
            room: number(room)?,
        }),
        _ => None,
    }
}

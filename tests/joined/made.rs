//! A call of the control room, what it was lent, and what it gave and left on our side.

use crate::calls::Lent;
use crate::harness::output::Output;
use reference::control::{self, Record};
use reference::numbers::{OUT_OF_RANGE, UNREADABLE};
use sca::boundary::{self, RawGiven};

/// What the control room is asked to do.
#[derive(Clone, Copy, Debug)]
pub enum Ask<'a> {
    Request { channel: u32, command: u32, data: u32 },
    Reply { body: &'a [u8] },
    Command { control: u32 },
}

/// A call of the library's. Faults are laid in here.
pub struct Made<'a> {
    pub ask: Ask<'a>,
    /// The record and the output as they were handed in.
    pub record_before: Vec<u8>,
    pub output_before: Output,
    pub record: Vec<u8>,
    pub output: Output,
    pub given: RawGiven,
}

pub fn refused(number: u8) -> bool {
    (1..=UNREADABLE).contains(&number) || (31..=35).contains(&number)
}

pub fn refusal(number: u8) -> RawGiven {
    RawGiven {
        number,
        length: 0,
        interrupt: false,
    }
}

impl<'a> Made<'a> {
    pub fn by_library(ask: Ask<'a>, record: &[u8], lent: Lent) -> Made<'a> {
        let output = lent.output();
        let mut made = Made {
            ask,
            record_before: record.to_vec(),
            output_before: output.clone(),
            record: record.to_vec(),
            output,
            given: refusal(0),
        };
        made.call(ask);
        made
    }

    /// Makes the call over what there is now.
    pub fn call(&mut self, ask: Ask) {
        let (record, output) = (&mut self.record, self.output.lent());
        self.given = match ask {
            Ask::Request { channel, command, data } => boundary::sca_request(record, channel, command, data, output),
            Ask::Reply { body } => boundary::sca_reply(record, body, output),
            Ask::Command { control } => boundary::sca_command(record, control, output),
        };
    }

    /// Record and output are as they were handed in.
    pub fn undo(&mut self) {
        self.record = self.record_before.clone();
        self.output = self.output_before.clone();
    }

    /// The bytes that were written.
    pub fn written(&self) -> Vec<u8> {
        let mut output = self.output.clone();
        output.lent()[..self.given.length].to_vec()
    }

    /// The bytes of the output.
    pub fn room(&self) -> usize {
        self.output_before.clone().lent().len()
    }
}

/// What the independent implementation makes of it; none where the bytes spell no record.
pub fn by_reference(record: &mut Option<Record>, ask: &Ask, output: &mut [u8]) -> RawGiven {
    let record = match record {
        Some(record) => record,
        None => return refusal(OUT_OF_RANGE),
    };
    let outcome = match *ask {
        Ask::Request { channel, command, data } => control::request(record, channel, command, data, output),
        Ask::Reply { body } => control::reply(record, body, output),
        Ask::Command { control } => control::command(record, control, output),
    };
    RawGiven {
        number: outcome.number,
        length: outcome.length,
        interrupt: outcome.interrupt,
    }
}

//! The control room's end of the link: requests and link commands are
//! written, replies and interrupts are read, and a record keeps the
//! transactions that are open.
//! An independent implementation, written from document 01 and change
//! requests 2026-01 to 2026-03, 2026-05 and 2026-06.

use crate::adapter::is_command;
use crate::numbers::*;
use crate::request::{lengths, GPIO, INTERRUPT_TRANSACTION};

/// The bytes that the output of every call must have.
const LEAST_OUTPUT: usize = 16;
/// The least TRN of a request.
const FIRST_TRANSACTION: u8 = 0x01;
/// The greatest TRN of a request.
const LAST_TRANSACTION: u8 = 0xFE;
/// The frame numbers are 0 to 7.
const FRAME_NUMBERS: u8 = 8;

/// A request that has had no reply yet.
#[derive(Clone, Copy, PartialEq, Eq, Debug)]
pub struct Pending {
    pub channel: u8,
    pub command: u8,
}

/// What the control room keeps between calls.
#[derive(Clone, PartialEq, Eq, Debug)]
pub struct Record {
    /// The number of the next request's frame, 0 to 7.
    pub frame_number: u8,
    /// The open request of each TRN. Nothing is ever open at 0x00 and 0xFF:
    /// they have a place so that every TRN read off the wire is one.
    pub open: [Option<Pending>; 256],
}

impl Record {
    /// Nothing open, frame number 0. A call that makes one gives 17.
    pub fn new() -> Record {
        Record {
            frame_number: 0,
            open: [None; 256],
        }
    }
}

impl Default for Record {
    fn default() -> Self {
        Record::new()
    }
}

/// A call's number; for 0 also the bytes written, and whether they tell of an
/// interrupt.
#[derive(Clone, Copy, PartialEq, Eq, Debug)]
pub struct Outcome {
    pub number: u8,
    pub length: usize,
    pub interrupt: bool,
}

impl Outcome {
    fn refused(number: u8) -> Outcome {
        Outcome {
            number,
            length: 0,
            interrupt: false,
        }
    }
}

/// Whether no field is out of range; otherwise a call gives 6.
pub fn in_range(record: &Record) -> bool {
    let [below, .., above] = &record.open;
    record.frame_number < FRAME_NUMBERS
        && below.is_none()
        && above.is_none()
        && record.open.iter().flatten().all(is_known)
}

/// Whether the tables have an open request's command.
fn is_known(pending: &Pending) -> bool {
    lengths(pending.channel, pending.command).is_some()
}

/// Writes a request with the lowest free TRN, which is then open: 0 and ten
/// bytes, or 6, 1, 35, 31. All 32 bits of data go out, whatever the command
/// uses.
pub fn request(
    record: &mut Record,
    channel: u32,
    command: u32,
    data: u32,
    output: &mut [u8],
) -> Outcome {
    if let Some(number) = refusal(record, output) {
        return Outcome::refused(number);
    }
    let (pending, length) = match in_tables(channel, command) {
        Some(found) => found,
        None => return Outcome::refused(UNKNOWN_COMMAND),
    };
    let transaction = match lowest_free(record) {
        Some(transaction) => transaction,
        None => return Outcome::refused(NO_FREE_TRANSACTION),
    };
    let Pending { channel, command } = pending;
    let control = 2 * record.frame_number;
    let [d0, d1, d2, d3] = data.to_le_bytes();
    record.open[usize::from(transaction)] = Some(pending);
    record.frame_number = (record.frame_number + 1) % FRAME_NUMBERS;
    let head = [0x00, control, transaction, channel, length, command];
    output[..6].copy_from_slice(&head);
    output[6..10].copy_from_slice(&[d2, d3, d0, d1]);
    Outcome {
        number: FRAME,
        length: 10,
        interrupt: false,
    }
}

/// Reads a reply, which closes its request and frees the TRN, or an
/// interrupt, which closes nothing: 0 and nine bytes, or 6, 1, 33, 32.
/// Address and control are the link's affair and are not looked at.
pub fn reply(record: &mut Record, body: &[u8], output: &mut [u8]) -> Outcome {
    if let Some(number) = refusal(record, output) {
        return Outcome::refused(number);
    }
    let body = match <[u8; 10]>::try_from(body) {
        Ok(body) => body,
        Err(_) => return Outcome::refused(REPLY_LENGTH),
    };
    let [_, _, transaction, channel, error, length, d2, d3, d0, d1] = body;
    let interrupt = (transaction, channel) == (INTERRUPT_TRANSACTION, GPIO);
    let command = if interrupt {
        0
    } else {
        match close(record, transaction, channel) {
            Some(command) => command,
            None => return Outcome::refused(UNMATCHED_REPLY),
        }
    };
    output[..5].copy_from_slice(&[transaction, channel, command, error, length]);
    output[5..9].copy_from_slice(&[d0, d1, d2, d3]);
    Outcome {
        number: FRAME,
        length: 9,
        interrupt,
    }
}

/// Writes a link command: 0 and two bytes, or 6, 1, 35. The chip counts from
/// 0 again after CONNECT and RESET, but not after TEST. What is open stays.
pub fn command(record: &mut Record, control: u32, output: &mut [u8]) -> Outcome {
    if let Some(number) = refusal(record, output) {
        return Outcome::refused(number);
    }
    let control = match u8::try_from(control) {
        Ok(control) if is_command(control) => control,
        _ => return Outcome::refused(UNKNOWN_COMMAND),
    };
    if let 0x2F | 0x3F | 0x8F | 0x9F = control {
        record.frame_number = 0;
    }
    output[..2].copy_from_slice(&[0x00, control]);
    Outcome {
        number: FRAME,
        length: 2,
        interrupt: false,
    }
}

/// The refusals that come first in every call.
fn refusal(record: &Record, output: &[u8]) -> Option<u8> {
    if !in_range(record) {
        Some(OUT_OF_RANGE)
    } else if output.len() < LEAST_OUTPUT {
        Some(SHORT_OUTPUT)
    } else {
        None
    }
}

/// A command with the LEN that its request asks for; none if the tables don't
/// have it.
fn in_tables(channel: u32, command: u32) -> Option<(Pending, u8)> {
    let channel = u8::try_from(channel).ok()?;
    let command = u8::try_from(command).ok()?;
    let (asked, _) = lengths(channel, command)?;
    Some((Pending { channel, command }, asked))
}

fn lowest_free(record: &Record) -> Option<u8> {
    (FIRST_TRANSACTION..=LAST_TRANSACTION)
        .find(|transaction| record.open[usize::from(*transaction)].is_none())
}

/// Closes the request that a reply belongs to and gives its command.
fn close(record: &mut Record, transaction: u8, channel: u8) -> Option<u8> {
    let place = &mut record.open[usize::from(transaction)];
    let pending = place.filter(|pending| pending.channel == channel)?;
    *place = None;
    Some(pending.command)
}

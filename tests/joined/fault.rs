//! Changes to our side, by which the comparison shows that it can fail.

use crate::made::{refusal, Ask, Made};
use crate::spelled::{place, FIRST, LAST};
use crate::tables::{known, CONNECT, GPIO, POLL, RESET, TEST};
use reference::numbers::{
    FRAME, NO_FREE_TRANSACTION, OUT_OF_RANGE, REPLY_LENGTH, SHORT_OUTPUT, UNKNOWN_COMMAND, UNMATCHED_REPLY,
};
use sca::boundary::RawGiven;
use sca::{I2C_LAST, OUTPUT_LEAST, RECORD_BYTES};
use std::fmt;

/// Who is to find a difference.
#[derive(Clone, Copy, PartialEq, Eq, Debug)]
pub enum Judge {
    /// The independent implementation, and all below.
    Reference,
    /// What is promised of each call, and all below.
    Promises,
    /// What is promised of both ends joined.
    Ends,
}

#[derive(Clone, Copy, PartialEq, Eq, Debug)]
pub enum Fault {
    Number,
    Length,
    Interrupt,
    LastByte,
    OutputBehind,
    OutsideOutput,
    RecordByte,
    RefusedRecord,
    RefusedOutput,
    OtherRow,
    RowMissing,
    LowBytes,
    FullAt253,
    NotFullAt254,
    FullBeforeUnknown,
    UsedTwice,
    NotLowest,
    Modulo16,
    NumberStays,
    ControlUndoubled,
    DataUnturned,
    TransactionAlone,
    ChannelAlone,
    Unclosed,
    NeighbourClosed,
    AnswerCommand,
    AnswerData,
    ErrAndLen,
    AddressRead,
    LongReply,
    InterruptCloses,
    InterruptUnmatched,
    InterruptOfAny,
    InterruptCommand,
    InterruptError,
    ConnectKeeps,
    ResetKeeps,
    TestZeroes,
    ConnectCloses,
    OtherControl,
    PollLost,
    NewRecord,
    ShortBeforeRange,
    FrameNumber8,
    Byte1,
    UnknownEntry,
    LongRecord,
    GoodRecord,
    ChipNumber,
    ChipTransaction,
    ChipState,
    ChipKept,
    Cable,
    Received,
}

/// Those that must find a fault, each by itself.
const ALONE: &[Judge] = &[Judge::Reference];
const CALLS: &[Judge] = &[Judge::Reference, Judge::Promises];
const ENDS: &[Judge] = &[Judge::Reference, Judge::Ends];
const ALL: &[Judge] = &[Judge::Reference, Judge::Promises, Judge::Ends];

/// Every fault, with its name and those that must find it.
pub const FAULTS: [(Fault, &str, &[Judge]); 54] = [
    (Fault::Number, "a number changed", CALLS),
    (Fault::Length, "a length changed", CALLS),
    (Fault::Interrupt, "an interrupt that is none", CALLS),
    (Fault::LastByte, "the last byte written changed", CALLS),
    (Fault::OutputBehind, "a byte of output behind them changed", CALLS),
    (Fault::OutsideOutput, "a byte behind the output changed", CALLS),
    (Fault::RecordByte, "a byte of the record changed", CALLS),
    (
        Fault::RefusedRecord,
        "a bit of the record at a refused call changed",
        CALLS,
    ),
    (
        Fault::RefusedOutput,
        "a byte of output at a refused call changed",
        CALLS,
    ),
    (Fault::OtherRow, "LEN of another row", ENDS),
    (Fault::RowMissing, "35 for a command of the last master", ALONE),
    (Fault::LowBytes, "channel and command by their low bytes", CALLS),
    (Fault::FullAt253, "31 where 253 are open", CALLS),
    (Fault::NotFullAt254, "a request where 254 are open", CALLS),
    (Fault::FullBeforeUnknown, "31 before 35", ALONE),
    (Fault::UsedTwice, "a TRN used twice", CALLS),
    (Fault::NotLowest, "the highest free TRN", CALLS),
    (Fault::Modulo16, "the frame number modulo 16", CALLS),
    (Fault::NumberStays, "the frame number not counted up", ALL),
    (Fault::ControlUndoubled, "the frame number as control", ALL),
    (Fault::DataUnturned, "a request's data low byte first", CALLS),
    (Fault::TransactionAlone, "a reply matched by TRN alone", CALLS),
    (Fault::ChannelAlone, "a reply matched by channel alone", CALLS),
    (Fault::Unclosed, "a reply that closes nothing", CALLS),
    (Fault::NeighbourClosed, "a reply that closes the next TRN too", CALLS),
    (Fault::AnswerCommand, "CMD of an answer wrong", ALL),
    (Fault::AnswerData, "an answer's data as the body has it", ALL),
    (Fault::ErrAndLen, "ERR and LEN in each other's place", ALL),
    (Fault::AddressRead, "a reply refused for its address", CALLS),
    (Fault::LongReply, "eleven bytes read as ten", CALLS),
    (Fault::InterruptCloses, "an interrupt that closes a TRN", CALLS),
    (Fault::InterruptUnmatched, "32 for an interrupt", CALLS),
    (Fault::InterruptOfAny, "an interrupt of another channel", CALLS),
    (Fault::InterruptCommand, "CMD of an interrupt not 0", CALLS),
    (Fault::InterruptError, "32 for an interrupt with ERR", CALLS),
    (Fault::ConnectKeeps, "a CONNECT that does not zero", ALL),
    (Fault::ResetKeeps, "a RESET that does not zero", CALLS),
    (Fault::TestZeroes, "a TEST that zeroes", CALLS),
    (Fault::ConnectCloses, "a CONNECT that closes all", CALLS),
    (Fault::OtherControl, "a control that is none of the six", CALLS),
    (Fault::PollLost, "bit 4 of a control lost", CALLS),
    (Fault::NewRecord, "a byte of a new record not 0", CALLS),
    (Fault::ShortBeforeRange, "1 before 6", ALONE),
    (Fault::FrameNumber8, "a frame number over 7 taken", CALLS),
    (Fault::Byte1, "byte 1 taken with a bit set", CALLS),
    (Fault::UnknownEntry, "an entry taken that the tables lack", ALONE),
    (Fault::LongRecord, "a record taken that is too long", CALLS),
    (Fault::GoodRecord, "6 for a record in range", CALLS),
    (Fault::ChipNumber, "a number of the chip changed", ALONE),
    (Fault::ChipTransaction, "TRN of a reply of the chip changed", ENDS),
    (Fault::ChipState, "a bit of the chip's state changed", ALONE),
    (Fault::ChipKept, "the kept number changed", ALONE),
    (Fault::Cable, "a bit of a framed body changed", ALL),
    (Fault::Received, "a byte of a body read from the cable changed", ALL),
];

impl fmt::Display for Judge {
    fn fmt(&self, out: &mut fmt::Formatter) -> fmt::Result {
        out.write_str(match self {
            Judge::Reference => "the reference",
            Judge::Promises => "the promises",
            Judge::Ends => "both ends",
        })
    }
}

impl Judge {
    /// In how many runs that have a fault in them it may stay unfound: what was written wrong may be lost on its way.
    pub fn patience(self) -> usize {
        match self {
            Judge::Ends => 20,
            _ => 0,
        }
    }
}

/// A fault to be laid in, once.
pub struct Laying {
    fault: Option<Fault>,
    pub laid: bool,
}

impl Laying {
    pub fn new(fault: Option<Fault>) -> Laying {
        Laying { fault, laid: false }
    }

    /// Whether to change our side here.
    pub fn lay(&mut self, fault: Fault, applies: bool) -> bool {
        let now = applies && !self.laid && self.fault == Some(fault);
        self.laid |= now;
        now
    }

    /// Into a call of the control room.
    pub fn into_made(&mut self, made: &mut Made, own: bool) {
        if self.fault.is_none() || self.laid {
            return;
        }
        match made.given.number {
            FRAME => self.into_done(made, own),
            OUT_OF_RANGE => self.into_out_of_range(made),
            _ => self.into_refused(made),
        }
        let refused = made.given.number != FRAME;
        if self.lay(Fault::Number, true) {
            made.given.number += 1;
        }
        if self.lay(Fault::RefusedRecord, refused && !made.record.is_empty()) {
            made.record[0] ^= 1;
        }
        if self.lay(Fault::RefusedOutput, refused && made.room() > 0) {
            made.output.lent()[0] ^= 1;
        }
        if self.lay(Fault::OutsideOutput, true) {
            *made.output.bytes.last_mut().unwrap() ^= 1;
        }
    }

    fn into_done(&mut self, made: &mut Made, own: bool) {
        let length = made.given.length;
        match made.ask {
            Ask::Request { channel, .. } => self.into_request(made, channel),
            Ask::Reply { body } => self.into_reply(made, body),
            Ask::Command { control } => self.into_command(made, control as u8),
        }
        if self.lay(Fault::GoodRecord, own) {
            refuse(made, OUT_OF_RANGE);
        }
        if self.lay(Fault::Length, true) {
            made.given.length += 1;
        }
        if self.lay(Fault::Interrupt, !made.given.interrupt) {
            made.given.interrupt = true;
        }
        if self.lay(Fault::LastByte, true) {
            made.output.lent()[length - 1] ^= 1;
        }
        if self.lay(Fault::OutputBehind, true) {
            made.output.lent()[length] ^= 1;
        }
        if self.lay(Fault::RecordByte, true) {
            made.record[RECORD_BYTES - 1] ^= 1;
        }
    }

    fn into_request(&mut self, made: &mut Made, channel: u32) {
        let free = free_in(&made.record_before);
        let taken = usize::from(made.output.lent()[2]);
        let open = (FIRST..=LAST).find(|transaction| !free.contains(transaction));
        let highest = free[free.len() - 1];
        if self.lay(Fault::OtherRow, true) {
            let length = &mut made.output.lent()[4];
            *length = if *length == 4 { 2 } else { 4 };
        }
        if self.lay(Fault::RowMissing, channel == u32::from(I2C_LAST)) {
            refuse(made, UNKNOWN_COMMAND);
        }
        if self.lay(Fault::FullAt253, free.len() == 1) {
            refuse(made, NO_FREE_TRANSACTION);
        }
        if let (true, Some(open)) = (self.lay(Fault::UsedTwice, open.is_some()), open) {
            move_to(made, taken, open);
        }
        if self.lay(Fault::NotLowest, highest != taken) {
            move_to(made, taken, highest);
        }
        if self.lay(Fault::Modulo16, made.record_before[0] == 7) {
            made.record[0] = 8;
        }
        if self.lay(Fault::NumberStays, true) {
            made.record[0] = made.record_before[0];
        }
        if self.lay(Fault::ControlUndoubled, made.record_before[0] > 0) {
            made.output.lent()[1] /= 2;
        }
        if self.lay(Fault::DataUnturned, unlike_turned(&made.output.lent()[6..])) {
            made.output.lent()[6..10].rotate_left(2);
        }
    }

    fn into_reply(&mut self, made: &mut Made, body: &[u8]) {
        let own = place(usize::from(body[2]));
        let interrupt = made.given.interrupt;
        if interrupt {
            return self.into_interrupt(made, body);
        }
        if self.lay(Fault::Unclosed, true) {
            made.record = made.record_before.clone();
        }
        let next = own + 2;
        if self.lay(
            Fault::NeighbourClosed,
            next < RECORD_BYTES && made.record[next..next + 2] != [0, 0],
        ) {
            made.record[next..next + 2].fill(0);
        }
        if self.lay(Fault::AnswerCommand, true) {
            made.output.lent()[2] ^= 1;
        }
        if self.lay(Fault::AnswerData, unlike_turned(&body[6..])) {
            made.output.lent()[5..9].rotate_left(2);
        }
        if self.lay(Fault::ErrAndLen, body[4] != body[5]) {
            made.output.lent()[3..5].reverse();
        }
        if self.lay(Fault::AddressRead, body[0] != 0) {
            refuse(made, UNMATCHED_REPLY);
        }
    }

    fn into_interrupt(&mut self, made: &mut Made, body: &[u8]) {
        let free = free_in(&made.record_before);
        let open = (FIRST..=LAST).find(|transaction| !free.contains(transaction));
        if let (true, Some(open)) = (self.lay(Fault::InterruptCloses, open.is_some()), open) {
            made.record[place(open)..][..2].fill(0);
        }
        if self.lay(Fault::InterruptUnmatched, true) {
            refuse(made, UNMATCHED_REPLY);
        }
        if self.lay(Fault::InterruptCommand, true) {
            made.output.lent()[2] = 0x71;
        }
        if self.lay(Fault::InterruptError, body[4] != 0) {
            refuse(made, UNMATCHED_REPLY);
        }
    }

    fn into_command(&mut self, made: &mut Made, control: u8) {
        let (before, which) = (made.record_before[0], control & !POLL);
        let (connect, reset) = (which == CONNECT, which == RESET);
        if self.lay(Fault::ConnectKeeps, connect && before > 0) {
            made.record[0] = before;
        }
        if self.lay(Fault::ResetKeeps, reset && before > 0) {
            made.record[0] = before;
        }
        if self.lay(Fault::TestZeroes, which == TEST && before > 0) {
            made.record[0] = 0;
        }
        let open = free_in(&made.record).len() < LAST;
        if self.lay(Fault::ConnectCloses, connect && open) {
            made.record.fill(0);
        }
        if self.lay(Fault::PollLost, control & POLL != 0) {
            made.output.lent()[1] &= !POLL;
        }
    }

    /// Into a call that was refused, but not for its record.
    fn into_refused(&mut self, made: &mut Made) {
        let number = made.given.number;
        match made.ask {
            Ask::Request { channel, command, data } => {
                let full = free_in(&made.record_before).is_empty();
                if self.lay(Fault::FullBeforeUnknown, number == UNKNOWN_COMMAND && full) {
                    made.given.number = NO_FREE_TRANSACTION;
                }
                let known = known(channel as u8, command as u8);
                if self.lay(Fault::LowBytes, number == UNKNOWN_COMMAND && known && !full) {
                    made.call(Ask::Request {
                        channel: channel & 0xFF,
                        command: command & 0xFF,
                        data,
                    });
                }
                if self.lay(Fault::NotFullAt254, number == NO_FREE_TRANSACTION) {
                    made.record[place(LAST)..].fill(0);
                    made.call(made.ask);
                }
            }
            Ask::Reply { body } => self.into_refused_reply(made, body),
            Ask::Command { control } => {
                if self.lay(Fault::OtherControl, number == UNKNOWN_COMMAND) {
                    made.output.lent()[..2].copy_from_slice(&[0, control as u8]);
                    made.given = done(2);
                }
            }
        }
    }

    fn into_refused_reply(&mut self, made: &mut Made, body: &[u8]) {
        if self.lay(Fault::LongReply, made.given.number == REPLY_LENGTH && body.len() == 11) {
            made.call(Ask::Reply { body: &body[..10] });
        }
        if made.given.number != UNMATCHED_REPLY {
            return;
        }
        let transaction = usize::from(body[2]);
        let free = free_in(&made.record_before);
        let open = (FIRST..=LAST).contains(&transaction) && !free.contains(&transaction);
        let (record, mut other) = (&made.record_before, body.to_vec());
        let of_channel = (FIRST..=LAST).find(|at| !free.contains(at) && record[place(*at)] == body[3]);
        if self.lay(Fault::TransactionAlone, open) {
            other[3] = record[place(transaction)];
            made.call(Ask::Reply { body: &other });
        } else if self.lay(Fault::ChannelAlone, of_channel.is_some()) {
            other[2] = of_channel.unwrap_or(0) as u8;
            made.call(Ask::Reply { body: &other });
        } else if self.lay(Fault::InterruptOfAny, transaction == 0xFF) {
            other[3] = GPIO;
            made.call(Ask::Reply { body: &other });
        }
    }

    /// Into a call that was refused for its record: it is mended, and the call made.
    fn into_out_of_range(&mut self, made: &mut Made) {
        let short = made.room() < OUTPUT_LEAST;
        if self.lay(Fault::ShortBeforeRange, short) {
            made.given.number = SHORT_OUTPUT;
        }
        let record = &made.record_before;
        if short || record.len() < RECORD_BYTES {
            return;
        }
        let mut mended = record[..RECORD_BYTES].to_vec();
        let (long, byte_1, number) = (record.len() > RECORD_BYTES, record[1] != 0, record[0] > 7);
        mended[0] &= 7;
        mended[1] = 0;
        let unknown = !(long || byte_1 || number);
        if unknown {
            for pair in mended[2..].chunks_mut(2).filter(|pair| !known(pair[0], pair[1])) {
                pair.fill(0);
            }
        }
        let lay = self.lay(Fault::LongRecord, long)
            || self.lay(Fault::Byte1, byte_1 && !long)
            || self.lay(Fault::FrameNumber8, number && !long && !byte_1)
            || self.lay(Fault::UnknownEntry, unknown);
        if lay {
            made.record = mended;
            made.call(made.ask);
        }
    }
}

fn done(length: usize) -> RawGiven {
    RawGiven {
        number: FRAME,
        length,
        interrupt: false,
    }
}

fn refuse(made: &mut Made, number: u8) {
    made.undo();
    made.given = refusal(number);
}

/// The TRNs that are free.
fn free_in(record: &[u8]) -> Vec<usize> {
    (FIRST..=LAST)
        .filter(|transaction| record[place(*transaction)..][..2] == [0, 0])
        .collect()
}

/// A request is written to another TRN.
fn move_to(made: &mut Made, taken: usize, other: usize) {
    let entry = [made.record[place(taken)], made.record[place(taken) + 1]];
    made.record[place(taken)..][..2].fill(0);
    made.record[place(other)..][..2].copy_from_slice(&entry);
    made.output.lent()[2] = other as u8;
}

/// Whether four bytes show that their halves are turned round.
fn unlike_turned(data: &[u8]) -> bool {
    data[..2] != data[2..4]
}

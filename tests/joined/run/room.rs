//! The control room's end: a record, and its calls.

use super::{same, same_bytes, Checked, Run};
use crate::calls::{Call, Damage, Lent};
use crate::facts::{self, promised};
use crate::fault::{Fault, Judge};
use crate::made::{by_reference, Ask, Made};
use crate::queue::{Kind, Sent};
use crate::spelled::{bytes_of, record_in};
use crate::tally::{Answered, Asked};
use reference::control::{self, Record};
use reference::numbers::{DONE, FRAME, OUT_OF_RANGE, SHORT_OUTPUT};
use sca::{boundary, RECORD_BYTES};

/// A record: the library's bytes, and what they are expected to be.
#[derive(Clone, Default)]
pub struct Room {
    record: Vec<u8>,
    /// None where the bytes spell no record; they are then to stay as they were handed in.
    expected: Option<Record>,
    handed_in: Vec<u8>,
}

impl Room {
    pub fn new() -> Room {
        Room::of(bytes_of(&Record::new()))
    }

    fn of(record: Vec<u8>) -> Room {
        Room {
            expected: record_in(&record),
            handed_in: record.clone(),
            record,
        }
    }

    /// All bytes of the record.
    fn left(&self) -> Checked {
        let bytes = self.expected.as_ref().map(bytes_of);
        same_bytes("the record", &self.record, bytes.as_ref().unwrap_or(&self.handed_in))
    }
}

impl Run<'_> {
    pub(super) fn new_record(&mut self, length: usize) -> Checked {
        let unwritten: Vec<u8> = (0..length).map(|at| (at * 31) as u8 ^ 0xC3).collect();
        let mut bytes = unwritten.clone();
        let number = boundary::sca_record_new(&mut bytes);
        let (expected, after) = if length == RECORD_BYTES {
            (DONE, vec![0; RECORD_BYTES])
        } else {
            (OUT_OF_RANGE, unwritten)
        };
        if self.laying.lay(Fault::NewRecord, expected == DONE) {
            bytes[RECORD_BYTES - 1] = 1;
        }
        self.tally.new_records[usize::from(expected)] += 1;
        same("the number", number, u64::from(expected))?;
        same_bytes("the new record", &bytes, &after)?;
        if expected == DONE {
            self.go_on_with(bytes);
        }
        Ok(())
    }

    /// A record with the number that the chip expects goes with it.
    fn go_on_with(&mut self, record: Vec<u8>) {
        self.to_chip.begin_anew(self.chip.expects_number(record[0]));
        self.room = Room::of(record);
        self.ledger.forget_open();
    }

    pub(super) fn adopt(&mut self, record: &[u8]) -> Checked {
        if record_in(record).as_ref().map_or(false, control::in_range) {
            self.go_on_with(record.to_vec());
        }
        Ok(())
    }

    /// A call on a record, on both sides; `own` is one that is not to be refused with 6.
    fn ask<'b>(&mut self, room: &mut Room, ask: Ask<'b>, lent: Lent, own: bool) -> Result<Made<'b>, String> {
        let mut made = Made::by_library(ask, &room.record, lent);
        let mut output = made.output_before.clone();
        let before = room.expected.clone();
        let expected = by_reference(&mut room.expected, &ask, output.lent());
        self.tally.asked(&Asked {
            ask: &ask,
            record: &made.record_before,
            before: before.as_ref(),
            room: lent.bytes,
            given: &expected,
            own,
        });
        self.laying.into_made(&mut made, own);
        room.record = made.record.clone();
        self.compared(|| {
            same("the result", made.given, expected)?;
            same("the output", &made.output, &output)?;
            room.left()
        })?;
        if self.judge != Judge::Ends {
            facts::hold(&made, own)?;
        }
        Ok(made)
    }

    /// A call on the run's own record.
    fn ask_own<'b>(&mut self, ask: Ask<'b>, lent: Lent) -> Result<Made<'b>, String> {
        let mut room = std::mem::take(&mut self.room);
        let made = self.ask(&mut room, ask, lent, true);
        self.room = room;
        made
    }

    /// What the control room does by itself.
    pub(super) fn room_call(&mut self, call: &Call) -> Checked {
        let (ask, lent) = asked_by(call);
        let made = self.ask_own(ask, lent)?;
        if made.given.number != FRAME {
            return Ok(());
        }
        let written = made.written();
        match ask {
            Ask::Request { channel, command, .. } => {
                let request = self.ledger.asks(channel as u8, command as u8, written[2]);
                self.to_chip.send(written, Kind::Request, Some(request));
            }
            Ask::Command { .. } => self.to_chip.send(written, Kind::LinkCommand, None),
            Ask::Reply { body } => self.closes(&made, body),
        }
        Ok(())
    }

    fn closes(&mut self, made: &Made, body: &[u8]) {
        if made.given.number == FRAME && !made.given.interrupt {
            self.ledger.closes(body[2]);
        }
    }

    /// The control room reads a body that arrives; whether it took it, or found that it is nothing for it.
    pub(super) fn read(&mut self, sent: &Sent, body: &[u8], lent: Lent) -> Result<bool, String> {
        let whole = body == &sent.body[..];
        let made = self.ask_own(Ask::Reply { body }, lent)?;
        let number = made.given.number;
        if number == SHORT_OUTPUT {
            return Ok(false);
        }
        if whole {
            self.read_whole(sent, &made)?;
        }
        self.closes(&made, body);
        Ok(true)
    }

    /// A body as the chip sent it: an answer to a request that is open is read back as that request's.
    fn read_whole(&mut self, sent: &Sent, made: &Made) -> Checked {
        let body = &sent.body;
        let (number, interrupt) = (made.given.number, made.given.interrupt);
        let later = sent.request.is_some() && number == FRAME && self.ledger.answered_by(sent).is_none();
        self.tally.read(sent, number, later);
        if sent.kind == Kind::Interrupt {
            return promised("an interrupt is told apart", number == FRAME && interrupt);
        }
        let request = match self.ledger.answered_by(sent) {
            Some(request) => request,
            None => return Ok(()),
        };
        let (channel, command) = self.ledger.asked(request);
        let due = facts::answer(body, command);
        promised(
            "an answer is read back as its request's",
            number == FRAME && !interrupt && made.written() == due && due[1] == channel,
        )?;
        self.tally.answered(&Answered {
            transaction: due[0],
            channel,
            command,
            error: due[3],
            completed: sent.kind == Kind::Completed,
        });
        Ok(())
    }

    /// A call of the control room on a damaged copy of its record.
    pub(super) fn damaged(&mut self, damage: &Damage, call: &Call) -> Checked {
        let mut record = self.room.record.clone();
        match damage {
            Damage::Length(length) => record.resize(*length, 0),
            Damage::Bytes { at, bytes } => {
                for (place, byte) in bytes.iter().enumerate() {
                    let at = (at + place) % record.len();
                    record[at] = *byte;
                }
            }
        }
        let mut room = Room::of(record);
        let own = room.expected.as_ref().map_or(false, control::in_range);
        if let Damage::Bytes { bytes, .. } = damage {
            if let [channel, command] = bytes[..] {
                self.tally.entry(channel, command, own);
            }
        }
        if let Call::ToRoom { turn, lent } = call {
            if let Some(sent) = self.to_room.nth(turn.nth).cloned() {
                self.ask(&mut room, Ask::Reply { body: &sent.body }, *lent, own)?;
            }
            return Ok(());
        }
        let (ask, lent) = asked_by(call);
        self.ask(&mut room, ask, lent, own)?;
        Ok(())
    }
}

/// What a call asks of the control room.
fn asked_by(call: &Call) -> (Ask<'_>, Lent) {
    match call {
        Call::Request {
            channel,
            command,
            data,
            lent,
        } => {
            let (channel, command, data) = (*channel, *command, *data);
            (Ask::Request { channel, command, data }, *lent)
        }
        Call::Command { control, lent } => (Ask::Command { control: *control }, *lent),
        Call::Reply { body, lent } => (Ask::Reply { body }, *lent),
        _ => unreachable!("no call of the control room's: {}", call),
    }
}

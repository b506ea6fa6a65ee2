//! What include/sca.h and docs/RECORD.md promise of the control room's calls, asked of their bytes alone: nothing here goes by what the
//! independent implementation does.

use crate::harness::same::Checked;
use crate::made::{refused, Ask, Made};
use crate::spelled::{place, FIRST, LAST};
use crate::tables::{CONNECT, GPIO, LINK_COMMANDS, POLL, RESET};
use reference::numbers::{
    FRAME, NO_FREE_TRANSACTION, OUT_OF_RANGE, REPLY_LENGTH, SHORT_OUTPUT, UNKNOWN_COMMAND, UNMATCHED_REPLY,
};
use sca::{ANSWER_BYTES, OUTPUT_LEAST, RECORD_BYTES, REPLY_BYTES};

pub fn promised(what: &str, holds: bool) -> Checked {
    if holds {
        Ok(())
    } else {
        Err(format!("not as promised: {}", what))
    }
}

/// The promises of one call; `own` is a record that calls alone have written, or one in range.
pub fn hold(made: &Made, own: bool) -> Checked {
    let number = made.given.number;
    let out_of_range = number == OUT_OF_RANGE;
    promised("a run's own record is never refused", !(own && out_of_range))?;
    promised(
        "6 for another length, a frame number over 7 and byte 1",
        out_of_range || fronted(made),
    )?;
    if out_of_range {
        return unchanged(made);
    }
    promised(
        "1 where the output is under 16 bytes",
        (number == SHORT_OUTPUT) == (made.room() < OUTPUT_LEAST),
    )?;
    if number == SHORT_OUTPUT {
        return unchanged(made);
    }
    match made.ask {
        Ask::Request { channel, command, data } => request(made, channel, command, data),
        Ask::Reply { body } => reply(made, body),
        Ask::Command { control } => link_command(made, control),
    }?;
    if refused(number) {
        unchanged(made)
    } else {
        promised("0 where nothing is refused", number == FRAME)
    }
}

/// Whether the record has its length, a frame number, and nothing in byte 1.
fn fronted(made: &Made) -> bool {
    let record = &made.record_before;
    record.len() == RECORD_BYTES && record[0] <= 7 && record[1] == 0
}

fn unchanged(made: &Made) -> Checked {
    promised(
        "a refused call changes no byte of the record",
        made.record == made.record_before,
    )?;
    promised(
        "a refused call changes no byte of output",
        made.output == made.output_before,
    )?;
    promised(
        "a refused call gives no length",
        made.given.length == 0 && !made.given.interrupt,
    )
}

/// The lowest TRN that is free in a record's bytes.
fn lowest_free(record: &[u8]) -> Option<usize> {
    (FIRST..=LAST).find(|transaction| record[place(*transaction)..][..2] == [0, 0])
}

fn request(made: &Made, channel: u32, command: u32, data: u32) -> Checked {
    let number = made.given.number;
    let free = lowest_free(&made.record_before);
    promised(
        "31 exactly where all 254 are open, and 35 before it",
        number == UNKNOWN_COMMAND || (number == NO_FREE_TRANSACTION) == free.is_none(),
    )?;
    match (number, free) {
        (FRAME, Some(free)) => written(made, free, [channel, command, data]),
        _ => promised("a request is refused with 35 or 31", refused(number)),
    }
}

/// A request that was written to the lowest free TRN.
fn written(made: &Made, free: usize, [channel, command, data]: [u32; 3]) -> Checked {
    promised("channel and command are bytes", channel <= 0xFF && command <= 0xFF)?;
    let (channel, command) = (channel as u8, command as u8);
    let mut record = made.record_before.clone();
    record[0] = (record[0] + 1) % 8;
    record[place(free)] = channel;
    record[place(free) + 1] = command;
    let mut front = made.output.clone();
    // LEN is held to the chip's tables where the request arrives there
    let length = front.lent()[4];
    let [d0, d1, d2, d3] = data.to_le_bytes();
    let body = [
        0x00,
        2 * made.record_before[0],
        free as u8,
        channel,
        length,
        command,
        d2,
        d3,
        d0,
        d1,
    ];
    wrote(made, &body, REPLY_BYTES, false)?;
    promised(
        "a request takes the lowest free TRN, and the next number modulo 8",
        made.record == record,
    )
}

/// These bytes stand at the front of the output, and no other byte has changed.
fn wrote(made: &Made, front: &[u8], length: usize, interrupt: bool) -> Checked {
    let mut output = made.output_before.clone();
    output.lent()[..front.len()].copy_from_slice(front);
    promised(
        "the length and what it is",
        made.given.length == length && made.given.interrupt == interrupt,
    )?;
    promised("the bytes written, and no others", made.output == output)
}

fn reply(made: &Made, body: &[u8]) -> Checked {
    let number = made.given.number;
    promised(
        "33 exactly where the body is not 10 bytes",
        (number == REPLY_LENGTH) == (body.len() != REPLY_BYTES),
    )?;
    if number == REPLY_LENGTH {
        return Ok(());
    }
    let interrupt = body[2..4] == [0xFF, GPIO];
    let command = if interrupt {
        Some(0)
    } else {
        open_to(&made.record_before, body[2], body[3])
    };
    promised(
        "32 exactly where nothing is open to it",
        (number == UNMATCHED_REPLY) == command.is_none(),
    )?;
    match command {
        Some(command) => read(made, body, command, interrupt),
        None => Ok(()),
    }
}

/// The command that a TRN is open to a channel with.
fn open_to(record: &[u8], transaction: u8, channel: u8) -> Option<u8> {
    let transaction = usize::from(transaction);
    if !(FIRST..=LAST).contains(&transaction) {
        return None;
    }
    let pair = &record[place(transaction)..][..2];
    (pair != [0, 0] && pair[0] == channel).then(|| pair[1])
}

fn read(made: &Made, body: &[u8], command: u8, interrupt: bool) -> Checked {
    let mut record = made.record_before.clone();
    if !interrupt {
        record[place(usize::from(body[2]))..][..2].fill(0);
    }
    wrote(made, &answer(body, command), ANSWER_BYTES, interrupt)?;
    promised(
        "a reply closes its TRN alone, an interrupt nothing",
        made.record == record,
    )
}

/// What is to be read of a reply's body to this command: TRN, CH, CMD, ERR, LEN, and the data, low byte first.
pub fn answer(body: &[u8], command: u8) -> [u8; ANSWER_BYTES] {
    [
        body[2], body[3], command, body[4], body[5], body[8], body[9], body[6], body[7],
    ]
}

fn link_command(made: &Made, control: u32) -> Checked {
    let number = made.given.number;
    let known = LINK_COMMANDS.iter().any(|command| u32::from(*command) == control);
    promised("35 exactly for another control", (number == UNKNOWN_COMMAND) != known)?;
    if number == UNKNOWN_COMMAND {
        return Ok(());
    }
    let mut record = made.record_before.clone();
    if [CONNECT, RESET].contains(&(control as u8 & !POLL)) {
        record[0] = 0;
    }
    wrote(made, &[0x00, control as u8], 2, false)?;
    promised(
        "CONNECT and RESET set the frame number to 0, and no more",
        made.record == record,
    )
}

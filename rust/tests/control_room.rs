//! The control room: its bodies byte by byte as documents 01 and 02 have them, what it makes of the chip's, and that nothing
//! changes where a call is refused.

use sca::boundary::{self, RawGiven};
use sca::{Adapter, Answer, ControlRoom, Dropped, Edge, LinkCommand, Port, Refusal, Reply, Transaction};
use sca::{ANSWER_BYTES, I2C_FIRST, I2C_LAST, OUTPUT_LEAST, RECORD_BYTES, REPLY_BYTES, TRANSACTIONS_MOST};
use std::collections::HashSet;

/// The LEN that a command asks, where the tables have it: document 01, for the I2C masters request 2026-01.
fn asked(channel: u8, command: u8) -> Option<u8> {
    match (channel, command) {
        (0x00, 0x02 | 0x04 | 0x06) => Some(4),
        (0x00, 0x03 | 0x05 | 0x07) => Some(2),
        (0x01, 0x40 | 0x50 | 0x60 | 0x00 | 0x10 | 0x20 | 0x30) => Some(6),
        (0x01, 0x41 | 0x51 | 0x61 | 0x01 | 0x11 | 0x21 | 0x31 | 0x72) => Some(2),
        (0x02, 0x10 | 0x20 | 0x30 | 0x40 | 0x60 | 0x70 | 0x80 | 0x90) => Some(4),
        (0x02, 0x11 | 0x21 | 0x31 | 0x41 | 0x61 | 0x71 | 0x81 | 0x91 | 0x01) => Some(1),
        (0x03..=0x12, 0x20 | 0x30) => Some(1),
        (0x03..=0x12, 0x11 | 0x21 | 0x31 | 0x41 | 0x51 | 0x61 | 0x71) => Some(0),
        (0x03..=0x12, 0x40 | 0x50 | 0x60 | 0x70) => Some(4),
        (0x03..=0x12, 0x82 | 0x86 | 0x8E | 0xDA | 0xDE) => Some(4),
        (0x03..=0x12, 0x8A) => Some(6),
        (0x03..=0x12, 0xC2 | 0xC6 | 0xCA | 0xE2 | 0xE6) => Some(2),
        (0x13, 0xF0 | 0xF1) => Some(4),
        (0x14, 0xD1) => Some(4),
        (0x15, 0x10 | 0x20 | 0x30 | 0x40) => Some(4),
        (0x15, 0x11 | 0x21 | 0x31 | 0x41) => Some(1),
        _ => None,
    }
}

/// All channels with all commands, those that the tables don't have too.
fn pairs() -> impl Iterator<Item = (u8, u8)> {
    (0..=0xFFFF).map(|pair: u16| {
        let [channel, command] = pair.to_be_bytes();
        (channel, command)
    })
}

fn transaction(trn: u8, channel: u8, command: u8) -> Transaction {
    Transaction { trn, channel, command }
}

fn answered(transaction: Transaction, error: u8, length: u8, data: u32) -> Result<Reply, Refusal> {
    Ok(Reply::Answered {
        transaction,
        error,
        length,
        data,
    })
}

/// A body from the chip, without error, of LEN 2 and zero data. Its control is one that no chip would send.
fn reply_to(trn: u8, channel: u8) -> [u8; REPLY_BYTES] {
    [0x00, 0xFF, trn, channel, 0x00, 0x02, 0x00, 0x00, 0x00, 0x00]
}

/// Reading DATAIN so many times, all open: TRN 0x01 to this.
fn open_room(count: usize) -> ControlRoom {
    let mut room = ControlRoom::new();
    for trn in 1..=count {
        let request = room.request(0x02, 0x01, 0).unwrap();
        assert_eq!(usize::from(request.transaction.trn), trn);
    }
    room
}

/// That a call is refused so and leaves the control room as it was.
fn assert_refused<T: std::fmt::Debug + PartialEq>(
    room: &mut ControlRoom,
    call: impl FnOnce(&mut ControlRoom) -> Result<T, Refusal>,
    refusal: Refusal,
) {
    let before = room.clone();
    assert_eq!(call(room), Err(refusal));
    assert_eq!(*room, before);
}

/// Address, control, TRN, CH, LEN, CMD, D[23:16], D[31:24], D[7:0], D[15:8]: commands of each channel. Each is answered before
/// the next, so that all have TRN 0x01; their numbers go from 0 to 7, twice, and begin again.
#[test]
fn bodies() {
    let mut room = ControlRoom::new();
    for (channel, command, data, body) in [
        // CRB, write and read
        (0x00, 0x02, 0x0400_0000, "00 00 01 00 04 02 00 04 00 00"),
        (0x00, 0x03, 0x0000_0000, "00 02 01 00 02 03 00 00 00 00"),
        // SPI: CONTROL, DATA word 0 (whose code is 0x00), GO
        (0x01, 0x40, 0x0000_0120, "00 04 01 01 06 40 00 00 20 01"),
        (0x01, 0x00, 0x89AB_CDEF, "00 06 01 01 06 00 ab 89 ef cd"),
        (0x01, 0x72, 0x0000_0000, "00 08 01 01 02 72 00 00 00 00"),
        // GPIO: DIRECTION, DATAIN with data that it does not use
        (0x02, 0x20, 0xFF00_0F01, "00 0a 01 02 04 20 00 ff 01 0f"),
        (0x02, 0x01, 0x1234_5678, "00 0c 01 02 01 01 34 12 78 56"),
        // I2C, the first and the last master: CTRL, STATUS, DATA bytes 0 to 3, starts of LEN 4, 6 and 2
        (0x03, 0x30, 0x0C00_0000, "00 0e 01 03 01 30 00 0c 00 00"),
        (0x12, 0x11, 0x0000_0000, "00 00 01 12 00 11 00 00 00 00"),
        (0x03, 0x40, 0x1122_3344, "00 02 01 03 04 40 22 11 44 33"),
        (0x12, 0x86, 0x5000_0000, "00 04 01 12 04 86 00 50 00 00"),
        (0x0A, 0x8A, 0x7855_AA00, "00 06 01 0a 06 8a 55 78 00 aa"),
        (0x0A, 0xC2, 0x5001_0000, "00 08 01 0a 02 c2 01 50 00 00"),
        // SEU counter, chip ID, DAC A and D
        (0x13, 0xF1, 0x0000_0000, "00 0a 01 13 04 f1 00 00 00 00"),
        (0x14, 0xD1, 0x0000_0001, "00 0c 01 14 04 d1 00 00 01 00"),
        (0x15, 0x10, 0x0000_005B, "00 0e 01 15 04 10 00 00 5b 00"),
        (0x15, 0x41, 0x0000_0000, "00 00 01 15 01 41 00 00 00 00"),
    ] {
        let request = room.request(channel, command, data).unwrap();
        let digits: Vec<String> = request.body.iter().map(|byte| format!("{:02x}", byte)).collect();
        assert_eq!(digits.join(" "), body);
        assert_eq!(request.transaction, transaction(0x01, channel, command));
        assert_eq!(
            room.reply(&reply_to(0x01, channel)),
            answered(request.transaction, 0, 2, 0)
        );
    }
}

/// Every command of the tables with its LEN, and no other.
#[test]
fn every_command() {
    let mut known = 0;
    for (channel, command) in pairs() {
        let mut room = ControlRoom::new();
        if let Some(len) = asked(channel, command) {
            let request = room.request(channel, command, 0x1234_5678).unwrap();
            let body = [0x00, 0x00, 0x01, channel, len, command, 0x34, 0x12, 0x78, 0x56];
            assert_eq!(request.body[..], body);
            assert_eq!(room.open().collect::<Vec<_>>(), [transaction(0x01, channel, command)]);
            known += 1;
        } else {
            assert_eq!(room.request(channel, command, 0x1234_5678), Err(Refusal::NoCommand));
            assert_eq!(room, ControlRoom::new());
        }
    }
    assert_eq!(known, 6 + 15 + 17 + 16 * 24 + 2 + 1 + 8);
}

/// Twice the number, modulo 8. What is refused and what comes in does not count.
#[test]
fn numbers() {
    let mut room = ControlRoom::new();
    for control in [0, 2, 4, 6, 8, 10, 12, 14, 0, 2, 4] {
        assert_eq!(room.request(0x16, 0x01, 0), Err(Refusal::NoCommand));
        assert_eq!(room.reply(&[0x00, 0x63]), Err(Refusal::BadReply));
        assert_eq!(room.reply(&reply_to(0xFE, 0x02)), Err(Refusal::NoMatch));
        assert!(matches!(room.reply(&reply_to(0xFF, 0x02)), Ok(Reply::Interrupt { .. })));
        let request = room.request(0x02, 0x01, 0).unwrap();
        assert_eq!(request.body[1], control);
    }
    assert!(matches!(room.reply(&reply_to(0x03, 0x02)), Ok(Reply::Answered { .. })));
    assert_eq!(room.request(0x02, 0x01, 0).unwrap().body[1], 6);
}

/// The lowest that is free, however the others lie.
#[test]
fn lowest_free() {
    let mut room = open_room(6);
    for trn in [0x04, 0x02, 0x05] {
        assert!(room.reply(&reply_to(trn, 0x02)).is_ok());
    }
    let trns: Vec<u8> = room.open().map(|open| open.trn).collect();
    assert_eq!(trns, [0x01, 0x03, 0x06]);
    for trn in [0x02, 0x04, 0x05, 0x07] {
        let request = room.request(0x15, 0x11, 0).unwrap();
        assert_eq!(request.transaction, transaction(trn, 0x15, 0x11));
        assert_eq!(request.body[2], trn);
    }
}

/// 254 are open, TRN 0x01 to 0xFE, and there is no other; any one that is answered is the next.
#[test]
fn all_open() {
    let mut room = open_room(TRANSACTIONS_MOST);
    assert!(room.open().map(|open| open.trn).eq(0x01..=0xFE));
    assert_refused(&mut room, |room| room.request(0x02, 0x01, 0), Refusal::AllOpen);
    assert_refused(&mut room, |room| room.request(0x02, 0x02, 0), Refusal::NoCommand);
    for trn in 0x01..=0xFE {
        assert_eq!(
            room.reply(&reply_to(trn, 0x02)),
            answered(transaction(trn, 0x02, 0x01), 0, 2, 0)
        );
        assert_eq!(room.open().count(), TRANSACTIONS_MOST - 1);
        assert_eq!(room.request(0x02, 0x01, 0).unwrap().transaction.trn, trn);
        assert_refused(&mut room, |room| room.request(0x02, 0x01, 0), Refusal::AllOpen);
    }
    let polled = room.command_with_poll(LinkCommand::Connect);
    assert_eq!(polled[..], [0x00, 0x3F]);
    assert_refused(&mut room, |room| room.request(0x02, 0x01, 0), Refusal::AllOpen);
}

/// By TRN and channel, whatever else there is; once.
#[test]
fn matched() {
    let mut room = ControlRoom::new();
    let seu = room.request(0x13, 0xF1, 0).unwrap().transaction;
    let id = room.request(0x14, 0xD1, 0).unwrap().transaction;
    assert_eq!((seu.trn, id.trn), (0x01, 0x02));
    assert!(room.is_open(seu) && room.is_open(id));
    for (trn, channel) in [
        (0x01, 0x14),
        (0x02, 0x13),
        (0x03, 0x13),
        (0x00, 0x13),
        (0xFF, 0x13),
        (0xFE, 0x14),
    ] {
        assert_refused(&mut room, |room| room.reply(&reply_to(trn, channel)), Refusal::NoMatch);
    }
    // An address and a control that no chip sends; ERR and LEN that no table has.
    let body = [0xA5, 0xFF, 0x02, 0x14, 0x81, 0x77, 0x34, 0x12, 0x78, 0x56];
    assert_eq!(room.reply(&body), answered(id, 0x81, 0x77, 0x1234_5678));
    assert!(room.is_open(seu) && !room.is_open(id));
    assert_refused(&mut room, |room| room.reply(&body), Refusal::NoMatch);
    let body = [0x00, 0x20, 0x01, 0x13, 0x00, 0x04, 0xFE, 0xFF, 0xFC, 0xFD];
    assert_eq!(room.reply(&body), answered(seu, 0x00, 0x04, 0xFFFE_FDFC));
    assert_refused(&mut room, |room| room.reply(&body), Refusal::NoMatch);
    assert_eq!(room.open().count(), 0);
}

/// A new control room has nothing open: no reply matches. Only channel 0x02 has interrupts.
#[test]
fn nothing_open() {
    let mut room = ControlRoom::new();
    for (trn, channel) in pairs() {
        if (trn, channel) != (0xFF, 0x02) {
            assert_eq!(room.reply(&reply_to(trn, channel)), Err(Refusal::NoMatch));
        }
    }
    assert_eq!(room, ControlRoom::new());
    assert_eq!(room, ControlRoom::default());
}

/// Told apart whatever ERR and LEN are, with nothing open and with all; nothing is closed.
#[test]
fn interrupts() {
    for count in [0, 1, TRANSACTIONS_MOST] {
        let mut room = open_room(count);
        let before = room.clone();
        for (error, length) in [(0x00, 0x04), (0x20, 0x02), (0xFF, 0x00), (0x00, 0xFF)] {
            let body = [0x00, 0x88, 0xFF, 0x02, error, length, 0x00, 0x80, 0x01, 0x00];
            let lines = 0x8000_0001;
            let interrupt = Reply::Interrupt { error, length, lines };
            assert_eq!(room.reply(&body), Ok(interrupt));
            assert_eq!(
                interrupt.data_or_error(),
                if error == 0 { Ok(lines) } else { Err(error) }
            );
        }
        assert_eq!(room, before);
    }
}

#[test]
fn data_or_error() {
    for (error, given) in [(0x00, Ok(0x0000_0A00)), (0x20, Err(0x20)), (0x01, Err(0x01))] {
        let mut room = open_room(1);
        let body = [0x00, 0x20, 0x01, 0x02, error, 0x04, 0x00, 0x00, 0x00, 0x0A];
        assert_eq!(room.reply(&body).unwrap().data_or_error(), given);
    }
}

/// SREJ, an acknowledgement, and any other length but 10, even of what else would match.
#[test]
fn replies_of_other_lengths() {
    let mut room = open_room(3);
    for number in 0..8 {
        let srej = [0x00, 0x0D + 32 * number];
        assert_refused(&mut room, |room| room.reply(&srej), Refusal::BadReply);
    }
    for acknowledgement in [[0x00, 0x63], [0x00, 0x73]] {
        assert_refused(&mut room, |room| room.reply(&acknowledgement), Refusal::BadReply);
    }
    for trn in [0x02, 0xFF] {
        let mut body = [0; 40];
        body[..REPLY_BYTES].copy_from_slice(&reply_to(trn, 0x02));
        for length in (0..40).filter(|length| *length != REPLY_BYTES) {
            assert_refused(&mut room, |room| room.reply(&body[..length]), Refusal::BadReply);
        }
        assert!(room.reply(&body[..REPLY_BYTES]).is_ok());
    }
}

/// Address and control. CONNECT and RESET begin at number 0 again, TEST goes on; what is open stays open.
#[test]
fn link_commands() {
    for (command, plain, polled, next) in [
        (LinkCommand::Connect, 0x2F, 0x3F, 0),
        (LinkCommand::Reset, 0x8F, 0x9F, 0),
        (LinkCommand::Test, 0xE3, 0xF3, 6),
    ] {
        let before = open_room(3);
        let (mut room, mut other) = (before.clone(), before.clone());
        assert_eq!(room.command(command)[..], [0x00, plain]);
        assert_eq!(other.command_with_poll(command)[..], [0x00, polled]);
        assert_eq!(room, other);
        assert!(room.open().eq(before.open()));
        let request = room.request(0x02, 0x01, 0).unwrap();
        assert_eq!((request.transaction.trn, request.body[1]), (0x04, next));
    }
}

/// The bytes of docs/RECORD.md, and all others 0.
#[test]
fn records() {
    let assert_record = |room: &ControlRoom, front: [u8; 6]| {
        assert_eq!(room.record()[..6], front);
        assert_eq!(room.record()[6..], [0; RECORD_BYTES - 6]);
        assert_eq!(ControlRoom::from_bytes(*room.record()).as_ref(), Ok(room));
    };
    let mut room = ControlRoom::new();
    assert_record(&room, [0x00, 0x00, 0x00, 0x00, 0x00, 0x00]);
    room.request(0x02, 0x01, 0).unwrap();
    assert_record(&room, [0x01, 0x00, 0x02, 0x01, 0x00, 0x00]);
    room.request(0x00, 0x03, 0).unwrap();
    assert_record(&room, [0x02, 0x00, 0x02, 0x01, 0x00, 0x03]);
    room.reply(&reply_to(0x01, 0x02)).unwrap();
    assert_record(&room, [0x02, 0x00, 0x00, 0x00, 0x00, 0x03]);
    room.command(LinkCommand::Reset);
    assert_record(&room, [0x00, 0x00, 0x00, 0x00, 0x00, 0x03]);
    // DATA word 0 of SPI has CMD 0x00: its second byte is 0, and yet it is open.
    let write = room.request(0x01, 0x00, 0).unwrap().transaction;
    assert_record(&room, [0x01, 0x00, 0x01, 0x00, 0x00, 0x03]);
    assert!(room.is_open(write));
    let open: HashSet<Transaction> = room.open().collect();
    assert_eq!(
        open,
        HashSet::from([transaction(0x01, 0x01, 0x00), transaction(0x02, 0x00, 0x03)])
    );
    assert!(!room.is_open(transaction(0x01, 0x01, 0x01)));
    assert!(!room.is_open(transaction(0x02, 0x01, 0x00)));
}

/// Also records that no run of calls leads to; not a byte differs.
#[test]
fn kept_as_bytes() {
    let room = open_room(TRANSACTIONS_MOST);
    assert_eq!(ControlRoom::from_bytes(*room.record()), Ok(room));
    let mut record = [0; RECORD_BYTES];
    record[0] = 7;
    record[508..].copy_from_slice(&[0x15, 0x41]);
    let mut room = ControlRoom::from_bytes(record).unwrap();
    assert_eq!(*room.record(), record);
    assert!(room.open().eq([transaction(0xFE, 0x15, 0x41)]));
    let request = room.request(0x02, 0x01, 0).unwrap();
    assert_eq!((request.transaction.trn, request.body[1]), (0x01, 14));
    assert_eq!(
        room.reply(&reply_to(0xFE, 0x15)),
        answered(transaction(0xFE, 0x15, 0x41), 0, 2, 0)
    );
}

/// A number over 7, byte 1 not 0, a channel and a command that the tables don't have.
#[test]
fn bytes_out_of_range() {
    for byte in 0..=0xFF {
        let mut record = *open_room(2).record();
        record[0] = byte;
        assert_eq!(ControlRoom::from_bytes(record).is_ok(), byte <= 7);
        record[0] = 0;
        record[1] = byte;
        assert_eq!(ControlRoom::from_bytes(record).is_ok(), byte == 0);
    }
    let mut record = [0; RECORD_BYTES];
    record[1] = 1;
    assert_eq!(ControlRoom::from_bytes(record), Err(Refusal::BadState));
    for trn in [0x01, 0x02, 0x80, 0xFE] {
        for (channel, command) in pairs() {
            let mut record = [0; RECORD_BYTES];
            record[2 * trn] = channel;
            record[2 * trn + 1] = command;
            let free = (channel, command) == (0, 0);
            let refused = if free || asked(channel, command).is_some() {
                None
            } else {
                Some(Refusal::BadState)
            };
            assert_eq!(ControlRoom::from_bytes(record).err(), refused);
        }
    }
}

/// The calls on slices: what they write, the whole result, and no other byte of the output.
#[test]
fn bare_calls() {
    let given = |length, interrupt| RawGiven {
        number: 0,
        length,
        interrupt,
    };
    let mut record = [0xAA; RECORD_BYTES];
    assert_eq!(boundary::sca_record_new(&mut record), 17);
    assert_eq!(record, [0; RECORD_BYTES]);

    let mut output = [0xEE; 20];
    let result = boundary::sca_request(&mut record, 0x15, 0x20, 0x1234_5678, &mut output);
    assert_eq!(result, given(10, false));
    let body = [0x00, 0x00, 0x01, 0x15, 0x04, 0x20, 0x34, 0x12, 0x78, 0x56];
    assert_eq!(output[..10], body);
    assert_eq!(output[10..], [0xEE; 10]);

    let mut output = [0xEE; 20];
    assert_eq!(boundary::sca_command(&mut record, 0xE3, &mut output), given(2, false));
    assert_eq!(output[..2], [0x00, 0xE3]);
    assert_eq!(output[2..], [0xEE; 18]);

    // TRN, CH, CMD, ERR, LEN, then the data, low byte first.
    let mut output = [0xEE; 20];
    let interrupt = [0x00, 0x20, 0xFF, 0x02, 0x00, 0x04, 0x34, 0x12, 0x78, 0x56];
    let result = boundary::sca_reply(&mut record, &interrupt, &mut output);
    assert_eq!(result, given(ANSWER_BYTES, true));
    assert_eq!(output[..9], [0xFF, 0x02, 0x00, 0x00, 0x04, 0x78, 0x56, 0x34, 0x12]);
    assert_eq!(output[9..], [0xEE; 11]);

    let mut output = [0xEE; 20];
    let reply = [0x00, 0x20, 0x01, 0x15, 0x40, 0x02, 0x22, 0x11, 0x44, 0x33];
    let result = boundary::sca_reply(&mut record, &reply, &mut output);
    assert_eq!(result, given(ANSWER_BYTES, false));
    assert_eq!(output[..9], [0x01, 0x15, 0x20, 0x40, 0x02, 0x44, 0x33, 0x22, 0x11]);
    assert_eq!(output[9..], [0xEE; 11]);
}

/// That each call of the control room is refused with its number, for the record, this length of output, and arguments that it
/// would be refused for after that; no byte changes.
fn assert_bare_refusals(record: &[u8], output_length: usize, arguments: [u32; 2], body: &[u8], numbers: [u8; 3]) {
    let [channel, control] = arguments;
    type Call<'a> = &'a dyn Fn(&mut [u8], &mut [u8]) -> RawGiven;
    let request: Call = &|record, output| boundary::sca_request(record, channel, 0x01, 0, output);
    let reply: Call = &|record, output| boundary::sca_reply(record, body, output);
    let command: Call = &|record, output| boundary::sca_command(record, control, output);
    for (call, number) in [request, reply, command].into_iter().zip(numbers) {
        let (mut after, mut output) = (record.to_vec(), vec![0xEE; output_length]);
        let refused = RawGiven {
            number,
            length: 0,
            interrupt: false,
        };
        assert_eq!(call(&mut after, &mut output), refused);
        assert_eq!(after, record);
        assert_eq!(output, vec![0xEE; output_length]);
    }
}

/// 6, then 1, then 35 and 31, or 33 and 32, or 35.
#[test]
fn the_order_of_refusals() {
    let full = *open_room(TRANSACTIONS_MOST).record();
    let mut wrong = full;
    wrong[0] = 8;
    let (long, none) = ([0; RECORD_BYTES + 1], [0x16, 0x2E]);
    for record in [&wrong[..], &full[..RECORD_BYTES - 1], &long, &[]] {
        for length in [0, OUTPUT_LEAST - 1, OUTPUT_LEAST] {
            assert_bare_refusals(record, length, none, &[0x00, 0x2D], [6, 6, 6]);
        }
    }
    for length in 0..OUTPUT_LEAST {
        assert_bare_refusals(&full, length, none, &[0x00, 0x2D], [1, 1, 1]);
        assert_bare_refusals(&full, length, [0x02, 0x2F], &reply_to(0x01, 0x02), [1, 1, 1]);
    }
    for length in [OUTPUT_LEAST, 40] {
        assert_bare_refusals(&full, length, none, &[0x00, 0x2D], [35, 33, 35]);
        assert_bare_refusals(&full, length, [0x02, 0x2E], &reply_to(0x01, 0x03), [31, 32, 35]);
    }
    // Channels and controls of over 8 bits are none, even where their low bits are one.
    for high in [0x100, 0x1_0000, 0x8000_0000, 0xFFFF_FF00] {
        assert_bare_refusals(&full, OUTPUT_LEAST, [high | 0x02, high | 0x2F], &[], [35, 33, 35]);
        let wide = boundary::sca_request(&mut full.clone(), 0x02, high | 0x01, 0, &mut [0; OUTPUT_LEAST]);
        assert_eq!(wide.number, 35);
    }
    for length in [0, 1, RECORD_BYTES - 1, RECORD_BYTES + 1] {
        let mut record = vec![0xAA; length];
        assert_eq!(boundary::sca_record_new(&mut record), 6);
        assert_eq!(record, vec![0xAA; length]);
    }
}

/// Of all controls the six.
#[test]
fn every_control() {
    for control in 0..0x400 {
        let mut record = *open_room(3).record();
        let given = boundary::sca_command(&mut record, control, &mut [0; OUTPUT_LEAST]);
        let (number, length, next) = match control {
            0x2F | 0x3F | 0x8F | 0x9F => (0, 2, 0),
            0xE3 | 0xF3 => (0, 2, 3),
            _ => (35, 0, 3),
        };
        assert_eq!((given.number, given.length, given.interrupt), (number, length, false));
        let mut expected = *open_room(3).record();
        expected[0] = next;
        assert_eq!(record, expected);
    }
}

/// Both ends of a link.
struct Ends {
    room: ControlRoom,
    chip: Adapter,
}

impl Ends {
    fn new() -> Ends {
        Ends {
            room: ControlRoom::new(),
            chip: Adapter::new(0x00_000A).unwrap(),
        }
    }

    /// A request goes to the chip; gives what the chip makes of it.
    fn send(&mut self, channel: u8, command: u8, data: u32, body: [u8; 10]) -> (Transaction, Answer) {
        let request = self.room.request(channel, command, data).unwrap();
        assert_eq!(request.body[..], body);
        assert!(self.room.is_open(request.transaction));
        (
            request.transaction,
            self.chip.frame(Port::Primary, &request.body).unwrap(),
        )
    }

    /// What the chip sends comes to the control room.
    fn receive(&mut self, answer: Answer, body: &[u8]) -> Result<Reply, Refusal> {
        match answer {
            Answer::HasFrame { port, body: sent } => assert_eq!((port, &sent[..]), (Port::Primary, body)),
            other => panic!("{:?}", other),
        }
        self.room.reply(body)
    }

    /// A request that is answered at once, both bodies as they are on the way.
    fn ask(&mut self, (channel, command, data): (u8, u8, u32), request: [u8; 10], reply: [u8; 10]) -> Reply {
        let (asked, answer) = self.send(channel, command, data, request);
        let reply = self.receive(answer, &reply).unwrap();
        assert!(matches!(reply, Reply::Answered { transaction, .. } if transaction == asked));
        assert!(!self.room.is_open(asked));
        reply
    }
}

/// The parallel lines and SPI, up to a GO that stays open while other things happen. A reply's control is twice the chip's send
/// number, plus 32 times its receive number.
#[test]
fn a_conversation() {
    let mut ends = Ends::new();
    let connect = ends.room.command(LinkCommand::Connect);
    let answer = ends.chip.frame(Port::Primary, &connect).unwrap();
    assert_eq!(ends.receive(answer, &[0x00, 0x63]), Err(Refusal::BadReply));

    // CRB: SPI and GPIO. DIRECTION: lines 31 to 16 are outputs, which the sample does not reach.
    let reply = ends.ask(
        (0x00, 0x02, 0x0600_0000),
        [0x00, 0x00, 0x01, 0x00, 0x04, 0x02, 0x00, 0x06, 0x00, 0x00],
        [0x00, 0x20, 0x01, 0x00, 0x00, 0x02, 0x00, 0x00, 0x00, 0x00],
    );
    assert_eq!(Ok(reply), answered(transaction(0x01, 0x00, 0x02), 0, 2, 0));
    ends.ask(
        (0x02, 0x20, 0xFFFF_0000),
        [0x00, 0x02, 0x01, 0x02, 0x04, 0x20, 0xFF, 0xFF, 0x00, 0x00],
        [0x00, 0x42, 0x01, 0x02, 0x00, 0x02, 0x00, 0x00, 0x00, 0x00],
    );
    assert_eq!(ends.chip.sample(0x1234_5678, Edge::SystemClock), Ok(Answer::NoFrame));
    let reply = ends.ask(
        (0x02, 0x01, 0),
        [0x00, 0x04, 0x01, 0x02, 0x01, 0x01, 0x00, 0x00, 0x00, 0x00],
        [0x00, 0x64, 0x01, 0x02, 0x00, 0x04, 0x00, 0x00, 0x78, 0x56],
    );
    assert_eq!(Ok(reply), answered(transaction(0x01, 0x02, 0x01), 0, 4, 0x0000_5678));

    // The SEU counter is not enabled.
    let reply = ends.ask(
        (0x13, 0xF1, 0),
        [0x00, 0x06, 0x01, 0x13, 0x04, 0xF1, 0x00, 0x00, 0x00, 0x00],
        [0x00, 0x86, 0x01, 0x13, 0x20, 0x02, 0x00, 0x00, 0x00, 0x00],
    );
    assert_eq!(Ok(reply), answered(transaction(0x01, 0x13, 0xF1), 0x20, 2, 0));
    assert_eq!(reply.data_or_error(), Err(0x20));

    // Interrupts of all lines, on falling.
    ends.ask(
        (0x02, 0x30, 0xFFFF_FFFF),
        [0x00, 0x08, 0x01, 0x02, 0x04, 0x30, 0xFF, 0xFF, 0xFF, 0xFF],
        [0x00, 0xA8, 0x01, 0x02, 0x00, 0x02, 0x00, 0x00, 0x00, 0x00],
    );
    ends.ask(
        (0x02, 0x60, 0x0000_0001),
        [0x00, 0x0A, 0x01, 0x02, 0x04, 0x60, 0x00, 0x00, 0x01, 0x00],
        [0x00, 0xCA, 0x01, 0x02, 0x00, 0x02, 0x00, 0x00, 0x00, 0x00],
    );

    // While GO is open, GPIO answers, SPI is busy, and line 3 falls.
    let body = [0x00, 0x0C, 0x01, 0x01, 0x02, 0x72, 0x00, 0x00, 0x00, 0x00];
    let (go, answer) = ends.send(0x01, 0x72, 0, body);
    assert_eq!(answer, Answer::NoFrame);
    let reply = ends.ask(
        (0x02, 0x21, 0),
        [0x00, 0x0E, 0x02, 0x02, 0x01, 0x21, 0x00, 0x00, 0x00, 0x00],
        [0x00, 0x0C, 0x02, 0x02, 0x00, 0x04, 0xFF, 0xFF, 0x00, 0x00],
    );
    assert_eq!(reply.data_or_error(), Ok(0xFFFF_0000));
    let reply = ends.ask(
        (0x01, 0x41, 0),
        [0x00, 0x00, 0x02, 0x01, 0x02, 0x41, 0x00, 0x00, 0x00, 0x00],
        [0x00, 0x2E, 0x02, 0x01, 0x40, 0x02, 0x00, 0x00, 0x00, 0x00],
    );
    assert_eq!(reply.data_or_error(), Err(0x40));
    let answer = ends.chip.sample(0x1234_5670, Edge::SystemClock).unwrap();
    let interrupt = [0x00, 0x20, 0xFF, 0x02, 0x00, 0x04, 0x00, 0x00, 0x08, 0x00];
    assert_eq!(
        ends.receive(answer, &interrupt),
        Ok(Reply::Interrupt {
            error: 0,
            length: 4,
            lines: 0x0000_0008
        })
    );
    assert!(ends.room.open().eq([go]));

    let mut received = [0; 16];
    received[..4].copy_from_slice(&[0x78, 0x56, 0x34, 0x12]);
    let answer = ends.chip.completion(&received).unwrap();
    let body = [0x00, 0x22, 0x01, 0x01, 0x00, 0x06, 0x34, 0x12, 0x78, 0x56];
    assert_eq!(ends.receive(answer, &body), answered(go, 0, 6, 0x1234_5678));
    assert_eq!(ends.room.open().count(), 0);
}

/// Each master reads a byte, all at once; they end the last one first, and are told apart by TRN and channel.
#[test]
fn sixteen_masters() {
    let mut ends = Ends::new();
    ends.ask(
        (0x00, 0x02, 0xF800_0000),
        [0x00, 0x00, 0x01, 0x00, 0x04, 0x02, 0x00, 0xF8, 0x00, 0x00],
        [0x00, 0x20, 0x01, 0x00, 0x00, 0x02, 0x00, 0x00, 0x00, 0x00],
    );
    ends.ask(
        (0x00, 0x04, 0xFF00_0000),
        [0x00, 0x02, 0x01, 0x00, 0x04, 0x04, 0x00, 0xFF, 0x00, 0x00],
        [0x00, 0x42, 0x01, 0x00, 0x00, 0x02, 0x00, 0x00, 0x00, 0x00],
    );
    ends.ask(
        (0x00, 0x06, 0x0700_0000),
        [0x00, 0x04, 0x01, 0x00, 0x04, 0x06, 0x00, 0x07, 0x00, 0x00],
        [0x00, 0x64, 0x01, 0x00, 0x00, 0x02, 0x00, 0x00, 0x00, 0x00],
    );
    // Numbers 3 to 7, then 0 to 7, then 0 to 2; the chip then expects 3.
    let controls = [6, 8, 10, 12, 14, 0, 2, 4, 6, 8, 10, 12, 14, 0, 2, 4];
    for (channel, control) in (I2C_FIRST..=I2C_LAST).zip(controls) {
        let body = [0x00, control, channel - 2, channel, 0x04, 0x86, 0x00, 0x50, 0x00, 0x00];
        let (_, answer) = ends.send(channel, 0x86, 0x5000_0000, body);
        assert_eq!(answer, Answer::NoFrame);
    }
    assert_eq!(ends.room.open().count(), 16);
    // STATUS with SUCC in D[31:24], the byte in D[23:16].
    for (channel, control) in (I2C_FIRST..=I2C_LAST).rev().zip(controls) {
        let byte = 0xA0 + channel;
        let answer = ends.chip.i2c_completion(channel, true, false, &[byte]).unwrap();
        let body = [
            0x00,
            control + 0x60,
            channel - 2,
            channel,
            0x00,
            0x04,
            byte,
            0x04,
            0x00,
            0x00,
        ];
        assert_eq!(
            ends.receive(answer, &body),
            answered(
                transaction(channel - 2, channel, 0x86),
                0,
                4,
                0x0400_0000 + (u32::from(byte) << 16)
            )
        );
    }
    assert_eq!(ends.room.open().count(), 0);
}

/// The first request never comes to the chip, which expects number 0 and gets 1: SREJ. After CONNECT both begin at 0 again, and
/// what was lost is still open.
#[test]
fn a_lost_request() {
    let mut ends = Ends::new();
    let lost = ends.room.request(0x15, 0x11, 0).unwrap().transaction;
    let body = [0x00, 0x02, 0x02, 0x15, 0x01, 0x21, 0x00, 0x00, 0x00, 0x00];
    let (refused, answer) = ends.send(0x15, 0x21, 0, body);
    assert_eq!(ends.receive(answer, &[0x00, 0x0D]), Err(Refusal::BadReply));
    let connect = ends.room.command_with_poll(LinkCommand::Connect);
    let answer = ends.chip.frame(Port::Primary, &connect).unwrap();
    assert_eq!(ends.receive(answer, &[0x00, 0x73]), Err(Refusal::BadReply));
    ends.ask(
        (0x15, 0x11, 0),
        [0x00, 0x00, 0x03, 0x15, 0x01, 0x11, 0x00, 0x00, 0x00, 0x00],
        [0x00, 0x20, 0x03, 0x15, 0x00, 0x04, 0x00, 0x00, 0x00, 0x00],
    );
    assert!(ends.room.open().eq([lost, refused]));
}

/// A RESET drops the chip's open GO, whose reply never comes: it stays open until a new control room takes over.
#[test]
fn a_reset() {
    let mut ends = Ends::new();
    ends.ask(
        (0x00, 0x02, 0x0200_0000),
        [0x00, 0x00, 0x01, 0x00, 0x04, 0x02, 0x00, 0x02, 0x00, 0x00],
        [0x00, 0x20, 0x01, 0x00, 0x00, 0x02, 0x00, 0x00, 0x00, 0x00],
    );
    let body = [0x00, 0x02, 0x01, 0x01, 0x02, 0x72, 0x00, 0x00, 0x00, 0x00];
    let (go, answer) = ends.send(0x01, 0x72, 0, body);
    assert_eq!(answer, Answer::NoFrame);
    let reset = ends.room.command(LinkCommand::Reset);
    let answer = ends.chip.frame(Port::Primary, &reset).unwrap();
    assert_eq!(ends.receive(answer, &[0x00, 0x63]), Err(Refusal::BadReply));
    assert_eq!(ends.chip.completion(&[0; 16]), Ok(Answer::Dropped(Dropped::NotBusy)));
    assert!(ends.room.open().eq([go]));
    ends.room = ControlRoom::new();
    let reply = ends.ask(
        (0x00, 0x03, 0),
        [0x00, 0x00, 0x01, 0x00, 0x02, 0x03, 0x00, 0x00, 0x00, 0x00],
        [0x00, 0x20, 0x01, 0x00, 0x00, 0x04, 0x00, 0x00, 0x00, 0x00],
    );
    assert_eq!(reply.data_or_error(), Ok(0));
}

//! Tests of the control room's end, alone and joined with the adapter.
//! An independent implementation, written from document 01 and change
//! requests 2026-01 to 2026-03, 2026-05 and 2026-06.

use reference::adapter::{self, Answer, Journal, State};
use reference::control::{command, in_range, reply, request};
use reference::control::{Outcome, Pending, Record};
use reference::numbers;
use std::collections::BTreeMap;

/// Every command but the masters': channel, command, LEN of its request.
const COMMANDS: [(u8, u8, u8); 49] = [
    // The controller: CRB, CRC and CRD.
    (0x00, 0x02, 4),
    (0x00, 0x03, 2),
    (0x00, 0x04, 4),
    (0x00, 0x05, 2),
    (0x00, 0x06, 4),
    (0x00, 0x07, 2),
    // SPI: four words of DATA, CONTROL, FREQ, SS and GO.
    (0x01, 0x00, 6),
    (0x01, 0x01, 2),
    (0x01, 0x10, 6),
    (0x01, 0x11, 2),
    (0x01, 0x20, 6),
    (0x01, 0x21, 2),
    (0x01, 0x30, 6),
    (0x01, 0x31, 2),
    (0x01, 0x40, 6),
    (0x01, 0x41, 2),
    (0x01, 0x50, 6),
    (0x01, 0x51, 2),
    (0x01, 0x60, 6),
    (0x01, 0x61, 2),
    (0x01, 0x72, 2),
    // GPIO: DATAIN, then DATAOUT, DIRECTION, INTSEL, INTTRIG, INTENABLE,
    // INTS, CLKSEL and EDGESEL.
    (0x02, 0x01, 1),
    (0x02, 0x10, 4),
    (0x02, 0x11, 1),
    (0x02, 0x20, 4),
    (0x02, 0x21, 1),
    (0x02, 0x30, 4),
    (0x02, 0x31, 1),
    (0x02, 0x40, 4),
    (0x02, 0x41, 1),
    (0x02, 0x60, 4),
    (0x02, 0x61, 1),
    (0x02, 0x70, 4),
    (0x02, 0x71, 1),
    (0x02, 0x80, 4),
    (0x02, 0x81, 1),
    (0x02, 0x90, 4),
    (0x02, 0x91, 1),
    // The SEU counter.
    (0x13, 0xF0, 4),
    (0x13, 0xF1, 4),
    // The chip ID.
    (0x14, 0xD1, 4),
    // DAC A to D.
    (0x15, 0x10, 4),
    (0x15, 0x11, 1),
    (0x15, 0x20, 4),
    (0x15, 0x21, 1),
    (0x15, 0x30, 4),
    (0x15, 0x31, 1),
    (0x15, 0x40, 4),
    (0x15, 0x41, 1),
];

/// Every command of a master: command, LEN of its request.
const MASTER_COMMANDS: [(u8, u8); 24] = [
    // STATUS, MASK and CTRL.
    (0x11, 0),
    (0x20, 1),
    (0x21, 0),
    (0x30, 1),
    (0x31, 0),
    // DATA.
    (0x40, 4),
    (0x41, 0),
    (0x50, 4),
    (0x51, 0),
    (0x60, 4),
    (0x61, 0),
    (0x70, 4),
    (0x71, 0),
    // Single-byte starts.
    (0x82, 4),
    (0x86, 4),
    (0x8A, 6),
    (0x8E, 4),
    // Read-modify-write.
    (0xC2, 2),
    (0xC6, 2),
    (0xCA, 2),
    // Multi-byte starts.
    (0xDA, 4),
    (0xDE, 4),
    (0xE2, 2),
    (0xE6, 2),
];

/// The starts of a master: command, LEN of its reply.
const STARTS: [(u8, u8); 11] = [
    (0x82, 4),
    (0x86, 4),
    (0x8A, 4),
    (0x8E, 4),
    (0xC2, 2),
    (0xC6, 2),
    (0xCA, 2),
    (0xDA, 6),
    (0xDE, 4),
    (0xE2, 2),
    (0xE6, 2),
];

/// The starts that look at NBYTE.
const MULTI: [u8; 4] = [0xDA, 0xDE, 0xE2, 0xE6];

const CONTROLS: [u8; 6] = [0x2F, 0x3F, 0x8F, 0x9F, 0xE3, 0xF3];

/// Every command: channel, command, LEN of its request.
fn command_table() -> Vec<(u8, u8, u8)> {
    let mut table = COMMANDS.to_vec();
    for channel in 0x03..=0x12 {
        table.extend(MASTER_COMMANDS.map(|(command, length)| (channel, command, length)));
    }
    table
}

/// Whether a command's reply comes only with a completion.
fn waits(channel: u8, command: u8) -> bool {
    let start = STARTS.iter().any(|row| row.0 == command);
    (channel, command) == (0x01, 0x72) || (0x03..=0x12).contains(&channel) && start
}

/// What an output holds before a call.
fn pattern(length: usize) -> Vec<u8> {
    (0..length)
        .map(|place| 0xA5 ^ (place % 251) as u8)
        .collect()
}

/// Number, whether an interrupt, and the bytes written.
type Given = (u8, bool, Vec<u8>);

/// A control room's end with its record, handed from call to call.
#[derive(Clone, PartialEq, Eq, Debug)]
struct Room {
    record: Record,
}

impl Room {
    fn new() -> Room {
        Room {
            record: Record::new(),
        }
    }

    /// A room with some TRNs open, all for reading DATAIN.
    fn with_open(transactions: impl IntoIterator<Item = u8>) -> Room {
        let mut room = Room::new();
        for transaction in transactions {
            room.open(transaction, 0x02, 0x01);
        }
        room
    }

    fn open(&mut self, transaction: u8, channel: u8, command: u8) {
        self.record.open[usize::from(transaction)] = Some(Pending { channel, command });
    }

    /// Makes a call into an output of some length. Nothing but the bytes
    /// written may change there, and nothing at all where it is refused.
    fn call(
        &mut self,
        length: usize,
        made: impl FnOnce(&mut Record, &mut [u8]) -> Outcome,
    ) -> Given {
        let before = self.clone();
        let mut output = pattern(length);
        let outcome = made(&mut self.record, &mut output);
        assert_eq!(output[outcome.length..], pattern(length)[outcome.length..]);
        if outcome.number != 0 {
            assert_eq!((outcome.length, outcome.interrupt), (0, false));
            assert_eq!(*self, before);
        }
        output.truncate(outcome.length);
        (outcome.number, outcome.interrupt, output)
    }

    fn request_wide(&mut self, channel: u32, command: u32, data: u32) -> Given {
        self.call(16, |record, output| {
            request(record, channel, command, data, output)
        })
    }

    fn request(&mut self, channel: u8, command: u8, data: u32) -> Given {
        self.request_wide(u32::from(channel), u32::from(command), data)
    }

    fn reply(&mut self, body: &[u8]) -> Given {
        self.call(16, |record, output| reply(record, body, output))
    }

    fn command(&mut self, control: u32) -> Given {
        self.call(16, |record, output| command(record, control, output))
    }

    /// The TRNs that are open.
    fn open_transactions(&self) -> Vec<usize> {
        let places = 0..self.record.open.len();
        places
            .filter(|place| self.record.open[*place].is_some())
            .collect()
    }
}

fn refused(number: u8) -> Given {
    (number, false, vec![])
}

fn done(bytes: &[u8]) -> Given {
    (0, false, bytes.to_vec())
}

fn interrupt(bytes: &[u8]) -> Given {
    (0, true, bytes.to_vec())
}

/// A reply's body, without any error or data.
fn plain_reply(transaction: u8, channel: u8) -> [u8; 10] {
    [0, 0x20, transaction, channel, 0, 2, 0, 0, 0, 0]
}

#[test]
fn the_numbers() {
    assert_eq!(numbers::NO_FREE_TRANSACTION, 31);
    assert_eq!(numbers::UNMATCHED_REPLY, 32);
    assert_eq!(numbers::REPLY_LENGTH, 33);
    assert_eq!(numbers::UNKNOWN_COMMAND, 35);
}

#[test]
fn a_new_record() {
    let record = Record::new();
    assert_eq!(record.frame_number, 0);
    assert!(record.open.iter().all(|place| place.is_none()));
    assert!(in_range(&record));
    assert_eq!(record, Record::default());
}

#[test]
fn every_command_with_its_length() {
    for (channel, command, length) in command_table() {
        let mut room = Room::new();
        assert_eq!(
            room.request(channel, command, 0x1234_5678),
            done(&[0, 0, 1, channel, length, command, 0x34, 0x12, 0x78, 0x56])
        );
        assert_eq!(room.record.frame_number, 1);
        assert_eq!(room.record.open[1], Some(Pending { channel, command }));
        assert_eq!(room.open_transactions(), [1]);
        assert!(in_range(&room.record));
    }
}

#[test]
fn exactly_433_of_all_pairs_are_known() {
    let table = command_table();
    assert_eq!(table.len(), 433);
    let mut known = [0; 256];
    for channel in 0..=255 {
        for command in 0..=255 {
            let row = table
                .iter()
                .find(|row| (row.0, row.1) == (channel, command));
            let wanted = match row {
                None => refused(35),
                Some(row) => done(&[0, 0, 1, channel, row.2, command, 0, 0, 0, 0]),
            };
            let mut room = Room::new();
            assert_eq!(room.request(channel, command, 0), wanted);
            // The same pairs may be open.
            let mut room = Room::new();
            room.open(0xFE, channel, command);
            assert_eq!(in_range(&room.record), row.is_some());
            known[usize::from(channel)] += u32::from(row.is_some());
        }
    }
    assert_eq!(known[..3], [6, 15, 17]);
    assert_eq!(known[3..0x13], [24; 16]);
    assert_eq!(known[0x13..0x16], [2, 1, 8]);
    assert_eq!(known[0x16..], [0; 234]);
    // 6 + 15 + 17 + 16 * 24 + 2 + 1 + 8.
    assert_eq!(known.iter().sum::<u32>(), 433);
}

#[test]
fn commands_that_the_tables_do_not_have() {
    for (channel, command) in [
        // There is no CRA, and nothing after CRD.
        (0x00, 0x00),
        (0x00, 0x01),
        (0x00, 0x08),
        (0x00, 0xD1),
        (0x00, 0xF1),
        (0x00, 0xFF),
        // GO stands alone, without its neighbours.
        (0x01, 0x02),
        (0x01, 0x70),
        (0x01, 0x71),
        (0x01, 0x73),
        (0x01, 0x80),
        // DATAIN is not written; nothing stands at 50.
        (0x02, 0x00),
        (0x02, 0x50),
        (0x02, 0x51),
        (0x02, 0xA0),
        (0x02, 0xA1),
        // STATUS is not written; the gaps between the starts.
        (0x03, 0x10),
        (0x03, 0x00),
        (0x03, 0x01),
        (0x03, 0x80),
        (0x03, 0x83),
        (0x03, 0x92),
        (0x12, 0xC0),
        (0x12, 0xCE),
        (0x12, 0xD6),
        (0x12, 0xEA),
        // JTAG and ADC are not built yet, nor is SCA-V1.
        (0x13, 0xA2),
        (0x13, 0x80),
        (0x13, 0xF2),
        (0x13, 0xEF),
        (0x14, 0x02),
        (0x14, 0x91),
        (0x14, 0xD0),
        (0x15, 0x00),
        (0x15, 0x01),
        (0x15, 0x12),
        (0x15, 0x50),
        (0x15, 0x51),
        (0x16, 0x10),
        (0xFF, 0x02),
    ] {
        assert_eq!(Room::new().request(channel, command, 1), refused(35));
    }
}

#[test]
fn channel_and_command_are_not_cut_to_a_byte() {
    // Each would be known if only its low byte were looked at.
    for (channel, command) in [
        (0x103, 0x30),
        (0x100, 0x02),
        (0x00, 0x102),
        (0x02, 0x110),
        (0x1_0002, 0x10),
        (0x02, 0x1_0010),
        (0x8000_0002, 0x10),
        (0x02, 0x8000_0010),
        (0xFFFF_FF02, 0xFFFF_FF10),
        (0x0200, 0x10),
        (0x02, 0x1000),
    ] {
        assert_eq!(Room::new().request_wide(channel, command, 7), refused(35));
    }
    assert_eq!(Room::new().request_wide(u32::MAX, u32::MAX, 7), refused(35));
    let wanted = done(&[0, 0, 1, 2, 4, 0x10, 0, 0, 7, 0]);
    assert_eq!(Room::new().request_wide(0x02, 0x10, 7), wanted);
}

#[test]
fn all_32_bits_of_data_go_out() {
    // Reads and GO use none, DATA writes all: all the same here.
    for (channel, command, length) in [(0x01, 0x72, 2), (0x02, 0x01, 1), (0x01, 0x00, 6)] {
        for (data, bytes) in [
            (0x0000_0000, [0, 0, 0, 0]),
            (0xFFFF_FFFF, [0xFF, 0xFF, 0xFF, 0xFF]),
            (0x0000_00A1, [0, 0, 0xA1, 0]),
            (0x0000_B200, [0, 0, 0, 0xB2]),
            (0x00C3_0000, [0xC3, 0, 0, 0]),
            (0xD400_0000, [0, 0xD4, 0, 0]),
            (0xD4C3_B2A1, [0xC3, 0xD4, 0xA1, 0xB2]),
        ] {
            let mut wanted = vec![0, 0, 1, channel, length, command];
            wanted.extend(bytes);
            assert_eq!(Room::new().request(channel, command, data), done(&wanted));
        }
    }
}

#[test]
fn the_frame_number_goes_round_by_eight() {
    let mut room = Room::new();
    let controls = [0, 2, 4, 6, 8, 10, 12, 14, 0, 2, 4, 6, 8, 10, 12, 14, 0, 2];
    for (place, control) in controls.iter().enumerate() {
        let transaction = place as u8 + 1;
        let wanted = done(&[0, *control, transaction, 2, 1, 1, 0, 0, 0, 0]);
        assert_eq!(room.request(0x02, 0x01, 0), wanted);
    }
    assert_eq!(room.record.frame_number, 2);
}

#[test]
fn only_written_requests_move_the_frame_number() {
    for number in 0..=7 {
        let mut room = Room::with_open([1, 2]);
        room.record.frame_number = number;
        assert_eq!(room.reply(&plain_reply(1, 2)).0, 0);
        assert_eq!(room.reply(&plain_reply(1, 2)), refused(32));
        assert_eq!(room.reply(&plain_reply(0xFF, 2)).0, 0);
        assert_eq!(room.reply(&[0, 0x0D]), refused(33));
        assert_eq!(room.request(0x16, 0x00, 0), refused(35));
        assert_eq!(room.command(0x63), refused(35));
        assert_eq!(room.command(0xE3).0, 0);
        assert_eq!(room.command(0xF3).0, 0);
        assert_eq!(room.record.frame_number, number);
        let (_, _, body) = room.request(0x15, 0x11, 0);
        assert_eq!(body[1], 2 * number);
        let next = [1, 2, 3, 4, 5, 6, 7, 0][usize::from(number)];
        assert_eq!(room.record.frame_number, next);
    }
}

#[test]
fn the_lowest_free_transaction() {
    for (open, wanted) in [
        (vec![], 1),
        (vec![1], 2),
        (vec![2], 1),
        (vec![1, 2, 4], 3),
        (vec![1, 3, 5, 0xFE], 2),
        ((2..=0xFE).collect(), 1),
        ((1..=0xFD).collect(), 0xFE),
        ((1..=0x7F).chain(0x81..=0xFE).collect(), 0x80),
        ((1..=0x7F).collect(), 0x80),
    ] {
        let mut room = Room::with_open(open);
        let (number, _, body) = room.request(0x14, 0xD1, 0);
        assert_eq!((number, body[2]), (0, wanted));
        let written = Pending {
            channel: 0x14,
            command: 0xD1,
        };
        assert_eq!(room.record.open[usize::from(wanted)], Some(written));
    }
}

#[test]
fn a_freed_transaction_is_used_again() {
    let mut room = Room::new();
    for transaction in 1..=5 {
        assert_eq!(room.request(0x15, 0x11, 0).2[2], transaction);
    }
    assert_eq!(room.reply(&plain_reply(4, 0x15)).0, 0);
    assert_eq!(room.reply(&plain_reply(2, 0x15)).0, 0);
    assert_eq!(room.open_transactions(), [1, 3, 5]);
    // The new ones have other channels, which decide from then on.
    assert_eq!(room.request(0x00, 0x03, 0).2[2], 2);
    assert_eq!(room.request(0x02, 0x21, 0).2[2], 4);
    assert_eq!(room.request(0x15, 0x41, 0).2[2], 6);
    assert_eq!(room.reply(&plain_reply(2, 0x15)), refused(32));
    assert_eq!(
        room.reply(&plain_reply(2, 0x00)),
        done(&[2, 0, 0x03, 0, 2, 0, 0, 0, 0])
    );
    assert_eq!(
        room.reply(&plain_reply(4, 0x02)),
        done(&[4, 2, 0x21, 0, 2, 0, 0, 0, 0])
    );
    assert_eq!(room.open_transactions(), [1, 3, 5, 6]);
}

#[test]
fn none_is_free_exactly_when_all_254_are_open() {
    let mut room = Room::new();
    for transaction in 1..=254 {
        assert_eq!(room.open_transactions().len(), transaction - 1);
        let (number, _, body) = room.request(0x02, 0x01, 0);
        assert_eq!((number, usize::from(body[2])), (0, transaction));
    }
    assert_eq!(room.open_transactions(), (1..=254).collect::<Vec<_>>());
    // 254 is 31 times 8 and 6.
    assert_eq!(room.record.frame_number, 6);
    let full = room.clone();
    for (channel, command, _) in command_table() {
        assert_eq!(room.request(channel, command, 0), refused(31));
    }
    // An interrupt, a link command and a reply that matches nothing free none.
    assert_eq!(room.reply(&plain_reply(0xFF, 2)).0, 0);
    assert_eq!(room.reply(&plain_reply(0xFE, 1)), refused(32));
    assert_eq!(room.command(0xE3).0, 0);
    assert_eq!(room, full);
    for transaction in 1..=254 {
        let mut room = full.clone();
        assert_eq!(room.reply(&plain_reply(transaction, 2)).0, 0);
        let (number, _, body) = room.request(0x15, 0x11, 0);
        assert_eq!((number, body[2]), (0, transaction));
        assert_eq!(room.request(0x15, 0x11, 0), refused(31));
    }
}

#[test]
fn a_reply_is_read() {
    let mut room = Room::new();
    room.open(0x05, 0x01, 0x41);
    room.open(0x06, 0x01, 0x51);
    // Address and control are not looked at.
    assert_eq!(
        room.reply(&[0x77, 0xFF, 0x05, 0x01, 0x00, 6, 0x34, 0x12, 0x78, 0x56]),
        done(&[0x05, 0x01, 0x41, 0x00, 6, 0x78, 0x56, 0x34, 0x12])
    );
    assert_eq!(room.open_transactions(), [6]);
    assert_eq!(
        room.reply(&[0x00, 0x00, 0x06, 0x01, 0x40, 2, 0, 0, 0, 0]),
        done(&[0x06, 0x01, 0x51, 0x40, 2, 0, 0, 0, 0])
    );
    assert_eq!(room, Room::new());
}

#[test]
fn every_byte_of_a_reply_but_transaction_and_channel_may_be_anything() {
    for value in 0..=255 {
        for place in [0, 1, 4, 5, 6, 7, 8, 9] {
            let mut body = [0, 0x20, 0xFE, 0x12, 0, 4, 0x11, 0x22, 0x33, 0x44];
            body[place] = value;
            let mut room = Room::new();
            room.open(0xFE, 0x12, 0x86);
            let wanted = [
                0xFE, 0x12, 0x86, body[4], body[5], body[8], body[9], body[6], body[7],
            ];
            assert_eq!(room.reply(&body), done(&wanted));
            assert_eq!(room, Room::new());
        }
    }
}

#[test]
fn every_command_is_handed_back_with_its_reply() {
    for (channel, command, _) in command_table() {
        for transaction in [0x01, 0x80, 0xFE] {
            let mut room = Room::new();
            room.open(transaction, channel, command);
            assert_eq!(
                room.reply(&plain_reply(transaction, channel)),
                done(&[transaction, channel, command, 0, 2, 0, 0, 0, 0])
            );
            assert_eq!(room, Room::new());
        }
    }
}

#[test]
fn a_reply_from_another_channel_matches_nothing() {
    for (channel, command) in [(0x00, 0x02), (0x02, 0x01), (0x03, 0x82), (0x15, 0x10)] {
        let mut room = Room::new();
        room.open(0x09, channel, command);
        for other in (0..=255).filter(|other| *other != channel) {
            assert_eq!(room.reply(&plain_reply(0x09, other)), refused(32));
        }
        assert_eq!(room.reply(&plain_reply(0x09, channel)).0, 0);
    }
}

#[test]
fn a_reply_with_another_transaction_matches_nothing() {
    let mut room = Room::with_open([0x09]);
    for other in (0..=254).filter(|other| *other != 0x09) {
        assert_eq!(room.reply(&plain_reply(other, 0x02)), refused(32));
    }
    // Nothing open at all.
    for transaction in 0..=254 {
        let reply = Room::new().reply(&plain_reply(transaction, 0x02));
        assert_eq!(reply, refused(32));
    }
    assert_eq!(room.open_transactions(), [0x09]);
}

#[test]
fn a_reply_read_twice_matches_nothing() {
    let mut room = Room::new();
    let (_, _, body) = room.request(0x02, 0x21, 0);
    assert_eq!(body[2], 1);
    assert_eq!(room.reply(&plain_reply(1, 2)).0, 0);
    assert_eq!(room.reply(&plain_reply(1, 2)), refused(32));
    assert_eq!(room.request(0x02, 0x21, 0).2[2], 1);
    assert_eq!(room.reply(&plain_reply(1, 2)).0, 0);
    assert_eq!(room.reply(&plain_reply(1, 2)), refused(32));
}

#[test]
fn replies_not_of_ten_bytes() {
    let long = [0, 0, 1, 2, 0, 2, 0, 0, 0, 0, 0, 0, 0, 0, 0, 0, 0];
    for length in (0..=17).filter(|length| *length != 10) {
        let mut room = Room::with_open([1]);
        assert_eq!(room.reply(&long[..length]), refused(33));
    }
    let mut room = Room::with_open([1]);
    assert_eq!(room.reply(&[1; 70_000]), refused(33));
    // SREJ and the acknowledgements.
    for control in [0x0D, 0x2D, 0x8D, 0xED, 0x63, 0x73] {
        assert_eq!(room.reply(&[0, control]), refused(33));
    }
    // An interrupt has ten bytes too.
    assert_eq!(room.reply(&[0, 0, 0xFF, 2, 0, 4, 0, 0, 1]), refused(33));
    assert_eq!(
        room.reply(&[0, 0, 0xFF, 2, 0, 4, 0, 0, 1, 0, 0]),
        refused(33)
    );
    assert_eq!(room.reply(&long[..10]).0, 0);
}

#[test]
fn interrupts_are_told_apart() {
    let body = [0x00, 0xA8, 0xFF, 0x02, 0x00, 4, 0x34, 0x12, 0x78, 0x56];
    let read = [0xFF, 0x02, 0x00, 0x00, 4, 0x78, 0x56, 0x34, 0x12];
    for mut room in [
        Room::new(),
        Room::with_open([1, 2, 0xFE]),
        Room::with_open(1..=0xFE),
    ] {
        let before = room.clone();
        assert_eq!(room.reply(&body), interrupt(&read));
        assert_eq!(room.reply(&body), interrupt(&read));
        assert_eq!(room, before);
    }
    // Whatever ERR and LEN, and the rest.
    for value in 0..=255 {
        for place in [0, 1, 4, 5, 6, 7, 8, 9] {
            let mut body = body;
            body[place] = value;
            let wanted = [
                0xFF, 0x02, 0, body[4], body[5], body[8], body[9], body[6], body[7],
            ];
            let mut room = Room::with_open([1]);
            assert_eq!(room.reply(&body), interrupt(&wanted));
            assert_eq!(room, Room::with_open([1]));
        }
    }
}

#[test]
fn transactions_that_no_request_has() {
    for mut room in [Room::new(), Room::with_open(1..=0xFE)] {
        for channel in 0..=255 {
            assert_eq!(room.reply(&plain_reply(0x00, channel)), refused(32));
            if channel != 0x02 {
                assert_eq!(room.reply(&plain_reply(0xFF, channel)), refused(32));
            }
        }
    }
}

#[test]
fn link_commands() {
    for control in 0..=255 {
        let mut room = Room::with_open([1, 7, 0xFE]);
        room.record.frame_number = 5;
        let given = room.command(u32::from(control));
        if CONTROLS.contains(&control) {
            assert_eq!(given, done(&[0, control]));
        } else {
            assert_eq!(given, refused(35));
        }
        // CONNECT and RESET count from 0 again.
        let zeroed = matches!(control, 0x2F | 0x3F | 0x8F | 0x9F);
        assert_eq!(room.record.frame_number, if zeroed { 0 } else { 5 });
        assert_eq!(room.open_transactions(), [1, 7, 0xFE]);
    }
    for control in [0x12F, 0x83F, 0x1_008F, 0x8000_009F, 0xFFFF_FFE3, 0xF300] {
        assert_eq!(Room::new().command(control), refused(35));
    }
}

#[test]
fn after_a_link_command() {
    for (control, wanted) in [
        (0x2F, 0),
        (0x3F, 0),
        (0x8F, 0),
        (0x9F, 0),
        (0xE3, 6),
        (0xF3, 6),
    ] {
        let mut room = Room::new();
        for _ in 0..3 {
            room.request(0x15, 0x11, 0);
        }
        assert_eq!(room.command(control).0, 0);
        // Three are open still, and their replies are read.
        assert_eq!(
            room.request(0x15, 0x21, 0),
            done(&[0, wanted, 4, 0x15, 1, 0x21, 0, 0, 0, 0])
        );
        for transaction in 1..=3 {
            assert_eq!(
                room.reply(&plain_reply(transaction, 0x15)),
                done(&[transaction, 0x15, 0x11, 0, 2, 0, 0, 0, 0])
            );
        }
    }
}

/// Records that are out of range, each for one reason.
fn damaged() -> Vec<Room> {
    let mut rooms = Vec::new();
    for number in [8, 9, 16, 0x80, 0xFF] {
        let mut room = Room::with_open([3]);
        room.record.frame_number = number;
        rooms.push(room);
    }
    // Even a command of the tables may not be open here.
    for transaction in [0x00, 0xFF] {
        for (channel, command) in [(0x02, 0x01), (0x00, 0x02), (0x00, 0x00), (0xFF, 0xFF)] {
            let mut room = Room::with_open([3]);
            room.open(transaction, channel, command);
            rooms.push(room);
        }
    }
    for transaction in [0x01, 0x02, 0x80, 0xFE] {
        for (channel, command) in [
            (0x00, 0x00),
            (0x00, 0x08),
            (0x01, 0x73),
            (0x02, 0x00),
            (0x03, 0x10),
            (0x12, 0xCE),
            (0x13, 0xA2),
            (0x14, 0x91),
            (0x15, 0x50),
            (0x16, 0x02),
            (0xFF, 0xFF),
        ] {
            let mut room = Room::with_open([3]);
            room.open(transaction, channel, command);
            rooms.push(room);
        }
    }
    rooms
}

#[test]
fn records_out_of_range() {
    for mut room in damaged() {
        assert!(!in_range(&room.record));
        assert_eq!(room.request(0x02, 0x01, 0), refused(6));
        assert_eq!(room.reply(&plain_reply(3, 2)), refused(6));
        assert_eq!(room.reply(&plain_reply(0xFF, 2)), refused(6));
        for control in CONTROLS {
            assert_eq!(room.command(u32::from(control)), refused(6));
        }
    }
    assert_eq!(damaged().len(), 57);
}

#[test]
fn records_in_range() {
    for number in 0..=7 {
        for mut room in [Room::new(), Room::with_open(1..=0xFE)] {
            room.record.frame_number = number;
            assert!(in_range(&room.record));
        }
    }
    for transaction in 1..=0xFE {
        for (channel, command, _) in COMMANDS {
            let mut room = Room::new();
            room.open(transaction, channel, command);
            assert!(in_range(&room.record));
        }
    }
}

/// Every set of four reasons; the first in order decides.
fn reasons() -> impl Iterator<Item = [bool; 4]> {
    (0..16).map(|set| [set & 1 != 0, set & 2 != 0, set & 4 != 0, set & 8 != 0])
}

fn first(reasons: [bool; 4], numbers: [u8; 4]) -> u8 {
    let found = reasons.iter().position(|reason| *reason);
    found.map_or(0, |place| numbers[place])
}

fn length_of(short: bool) -> usize {
    if short {
        15
    } else {
        16
    }
}

#[test]
fn request_refusals_in_order() {
    for [damaged, short, unknown, full] in reasons() {
        let wanted = first([damaged, short, unknown, full], [6, 1, 35, 31]);
        let mut room = Room::with_open(if full { 1..=0xFE } else { 1..=0xFD });
        if damaged {
            room.record.frame_number = 8;
        }
        let command = if unknown { 0x102 } else { 0x02 };
        let (number, _, body) = room.call(length_of(short), |record, output| {
            request(record, 0x00, command, 0, output)
        });
        assert_eq!(number, wanted);
        assert_eq!(body.len(), if wanted == 0 { 10 } else { 0 });
    }
}

#[test]
fn reply_refusals_in_order() {
    for [damaged, short, misshapen, unmatched] in reasons() {
        let wanted = first([damaged, short, misshapen, unmatched], [6, 1, 33, 32]);
        for cut in [9, 11] {
            let mut room = Room::with_open([7]);
            if damaged {
                room.record.frame_number = 0xFF;
            }
            let transaction = if unmatched { 8 } else { 7 };
            let channel = if unmatched { 0x16 } else { 0x02 };
            let body = [0, 0, transaction, channel, 0, 2, 0, 0, 0, 0, 0];
            let body = &body[..if misshapen { cut } else { 10 }];
            let (number, _, read) = room.call(length_of(short), |record, output| {
                reply(record, body, output)
            });
            assert_eq!(number, wanted);
            assert_eq!(read.len(), if wanted == 0 { 9 } else { 0 });
        }
    }
}

#[test]
fn link_command_refusals_in_order() {
    for [damaged, short, unknown, _] in reasons() {
        let wanted = first([damaged, short, unknown, false], [6, 1, 35, 0]);
        let mut room = Room::with_open([7]);
        if damaged {
            room.open(0xFF, 0x02, 0x01);
        }
        let control = if unknown { 0x12F } else { 0x2F };
        let (number, _, body) = room.call(length_of(short), |record, output| {
            command(record, control, output)
        });
        assert_eq!(number, wanted);
        assert_eq!(body.len(), if wanted == 0 { 2 } else { 0 });
    }
}

#[test]
fn outputs_of_every_length() {
    for length in (0..=40).chain([255, 256, 4_096, 70_000]) {
        let wanted = |bytes: &[u8]| {
            if length < 16 {
                refused(1)
            } else {
                done(bytes)
            }
        };
        let mut room = Room::with_open([1]);
        room.record.frame_number = 3;
        let given = room.call(length, |record, output| {
            request(record, 0x02, 0x10, 0x89AB_CDEF, output)
        });
        let body = [0, 6, 2, 2, 4, 0x10, 0xAB, 0x89, 0xEF, 0xCD];
        assert_eq!(given, wanted(&body));
        let given = room.call(length, |record, output| {
            reply(record, &plain_reply(1, 2), output)
        });
        assert_eq!(given, wanted(&[1, 2, 1, 0, 2, 0, 0, 0, 0]));
        let given = room.call(length, |record, output| {
            reply(record, &plain_reply(0xFF, 2), output)
        });
        let (number, _, bytes) = wanted(&[0xFF, 2, 0, 0, 2, 0, 0, 0, 0]);
        assert_eq!(given, (number, length >= 16, bytes));
        let given = room.call(length, |record, output| command(record, 0xF3, output));
        assert_eq!(given, wanted(&[0, 0xF3]));
    }
}

/// A small generator of numbers, so that a run can be had again.
struct Chance(u64);

impl Chance {
    fn next(&mut self) -> u64 {
        self.0 ^= self.0 << 13;
        self.0 ^= self.0 >> 7;
        self.0 ^= self.0 << 17;
        self.0
    }

    fn below(&mut self, bound: u64) -> u64 {
        self.next() % bound
    }
}

#[test]
fn long_runs_keep_to_the_rules() {
    let table = command_table();
    let (mut full, mut unmatched) = (0, 0);
    for seed in 1..=8 {
        let mut chance = Chance(seed);
        let mut room = Room::new();
        let mut open: BTreeMap<u8, (u8, u8)> = BTreeMap::new();
        let mut written = 0;
        for step in 0..6_000 {
            // Long stretches of mostly asking fill the record; others drain it.
            let asks = if step / 1_000 % 2 == 0 { 7 } else { 2 };
            match chance.below(10) {
                choice if choice < asks => {
                    let (channel, command, length) = table[chance.below(433) as usize];
                    let given = room.request(channel, command, 0xD4C3_B2A1);
                    match (1..=0xFE).find(|transaction| !open.contains_key(transaction)) {
                        None => {
                            assert_eq!(given, refused(31));
                            full += 1;
                        }
                        Some(transaction) => {
                            let control = 2 * (written % 8);
                            let head = [0, control, transaction, channel, length, command];
                            let wanted = [&head[..], &[0xC3, 0xD4, 0xA1, 0xB2]].concat();
                            assert_eq!(given, done(&wanted));
                            open.insert(transaction, (channel, command));
                            written = (written + 1) % 8;
                        }
                    }
                }
                9 => match chance.below(20) {
                    0 => {
                        assert_eq!(room.command(0x8F), done(&[0, 0x8F]));
                        written = 0;
                    }
                    1 => assert_eq!(room.command(0xE3), done(&[0, 0xE3])),
                    2 => assert_eq!(room.request(0x16, 0, 0), refused(35)),
                    3 => assert_eq!(room.reply(&[0, 0x0D]), refused(33)),
                    _ => {
                        let read = room.reply(&[0, 0, 0xFF, 2, 0, 4, 3, 4, 1, 2]);
                        assert_eq!(read, interrupt(&[0xFF, 2, 0, 0, 4, 1, 2, 3, 4]));
                    }
                },
                _ => {
                    let transaction = chance.below(0xFF) as u8;
                    let wanted = open.get(&transaction).copied();
                    let wrong = chance.below(8) == 0;
                    let channel = wanted.map_or(0x02, |pending| pending.0) + u8::from(wrong);
                    let body = [0, 0, transaction, channel, 0x40, 2, 7, 8, 5, 6];
                    let given = room.reply(&body);
                    match wanted {
                        Some((_, command)) if !wrong => {
                            let read = [transaction, channel, command, 0x40, 2, 5, 6, 7, 8];
                            assert_eq!(given, done(&read));
                            open.remove(&transaction);
                        }
                        _ => {
                            assert_eq!(given, refused(32));
                            unmatched += 1;
                        }
                    }
                }
            }
            assert!(in_range(&room.record));
            assert_eq!(room.record.frame_number, written);
        }
        let left: Vec<usize> = open.keys().map(|place| usize::from(*place)).collect();
        assert_eq!(room.open_transactions(), left);
    }
    assert!(full > 100, "only {} requests found none free", full);
    assert!(unmatched > 1_000, "only {} replies unmatched", unmatched);
}

/// The control room's end joined with an adapter.
#[derive(Clone)]
struct Joined {
    room: Room,
    state: State,
    journal: Journal,
    port: u32,
}

/// What an adapter's event sends: number and body.
type Sent = (u8, Vec<u8>);

impl Joined {
    fn new() -> Joined {
        Joined {
            room: Room::new(),
            state: adapter::create(0x12_3456).1.unwrap(),
            journal: Journal::new(),
            port: 0,
        }
    }

    /// Every channel enabled, and every NBYTE as given.
    fn ready(byte_count: u8) -> Joined {
        let mut joined = Joined::new();
        for command in [0x02, 0x04, 0x06] {
            assert_eq!(joined.ask(0x00, command, 0xFF00_0000), (0, 2, 0));
        }
        let control = u32::from(byte_count) << 26;
        for channel in 0x03..=0x12 {
            assert_eq!(joined.ask(channel, 0x30, control), (0, 0, 0));
        }
        joined
    }

    fn sent(answer: Answer, output: [u8; 16]) -> Sent {
        (answer.number, output[..answer.length].to_vec())
    }

    /// Writes a request and hands it to the adapter.
    fn send(&mut self, channel: u8, command: u8, data: u32) -> (Vec<u8>, Sent) {
        let (number, _, body) = self.room.request(channel, command, data);
        assert_eq!(number, 0);
        let sent = self.hand_over(&body);
        (body, sent)
    }

    fn hand_over(&mut self, body: &[u8]) -> Sent {
        let mut output = [0; 16];
        let (state, journal) = (&mut self.state, &mut self.journal);
        let answer = adapter::frame(state, journal, self.port, body, &mut output);
        Joined::sent(answer, output)
    }

    /// Asks and reads the answer at once, with the TRN and command of the
    /// request: ERR, LEN and data.
    fn ask(&mut self, channel: u8, command: u8, data: u32) -> (u8, u8, u32) {
        let (body, (number, sent)) = self.send(channel, command, data);
        assert_eq!(number, 0);
        let (number, interrupt, read) = self.room.reply(&sent);
        assert_eq!((number, interrupt), (0, false));
        assert_eq!(read[..3], [body[2], channel, command]);
        let data = u32::from_le_bytes([read[5], read[6], read[7], read[8]]);
        (read[3], read[4], data)
    }

    /// Starts what is answered later; gives its TRN.
    fn start(&mut self, channel: u8, command: u8, data: u32) -> u8 {
        let (body, sent) = self.send(channel, command, data);
        assert_eq!(sent, (17, vec![]));
        body[2]
    }

    fn completion(&mut self, received: &[u8]) -> Sent {
        let mut output = [0; 16];
        let (state, journal) = (&mut self.state, &mut self.journal);
        let answer = adapter::completion(state, journal, received, &mut output);
        Joined::sent(answer, output)
    }

    fn i2c(&mut self, channel: u8, acknowledge: u32, low: u32, received: &[u8]) -> Sent {
        let mut output = [0; 16];
        let answer = adapter::i2c_completion(
            &mut self.state,
            &mut self.journal,
            u32::from(channel),
            acknowledge,
            low,
            received,
            &mut output,
        );
        Joined::sent(answer, output)
    }

    fn sample(&mut self, levels: u32) -> Sent {
        let mut output = [0; 16];
        let (state, journal) = (&mut self.state, &mut self.journal);
        let answer = adapter::sample(state, journal, levels, 0, &mut output);
        Joined::sent(answer, output)
    }

    /// Writes a link command, hands it to the adapter on a port and looks at
    /// the acknowledgement.
    fn link(&mut self, port: u32, control: u8) {
        self.port = port;
        let (number, _, body) = self.room.command(u32::from(control));
        assert_eq!(number, 0);
        let sent = self.hand_over(&body);
        assert_eq!(sent, (0, vec![0, 0x63 | control & 0x10]));
    }
}

#[test]
fn the_first_lines_of_the_bench_listing() {
    // Four requests are written before the first reply is read.
    let mut room = Room::new();
    for (channel, command, data, body) in [
        (0x00, 0x02, 0x0400_0000, [0, 0, 1, 0, 4, 2, 0, 4, 0, 0]),
        (
            0x02,
            0x10,
            0x1234_5678,
            [0, 2, 2, 2, 4, 0x10, 0x34, 0x12, 0x78, 0x56],
        ),
        (0x02, 0x11, 0, [0, 4, 3, 2, 1, 0x11, 0, 0, 0, 0]),
        (0x01, 0x41, 0, [0, 6, 4, 1, 2, 0x41, 0, 0, 0, 0]),
    ] {
        assert_eq!(room.request(channel, command, data), done(&body));
    }
    for (body, read) in [
        (
            [0, 0x20, 1, 0, 0, 2, 0, 0, 0, 0],
            [1, 0, 0x02, 0, 2, 0, 0, 0, 0],
        ),
        (
            [0, 0x42, 2, 2, 0, 2, 0, 0, 0, 0],
            [2, 2, 0x10, 0, 2, 0, 0, 0, 0],
        ),
        (
            [0, 0x64, 3, 2, 0, 4, 0x34, 0x12, 0x78, 0x56],
            [3, 2, 0x11, 0, 4, 0x78, 0x56, 0x34, 0x12],
        ),
        (
            [0, 0x86, 4, 1, 0x20, 2, 0, 0, 0, 0],
            [4, 1, 0x41, 0x20, 2, 0, 0, 0, 0],
        ),
    ] {
        assert_eq!(room.reply(&body), done(&read));
    }
    assert_eq!(room.open_transactions(), [0; 0]);
    assert_eq!(room.reply(&[0, 0x8D]), refused(33));
}

#[test]
fn lines_are_switched_on_written_and_read_back() {
    let mut joined = Joined::new();
    // Channel, command and data; request; reply; what is read.
    for ((channel, command, data), body, sent, read) in [
        (
            (0x02, 0x20, 0x1234_5678),
            [0, 0x00, 1, 2, 4, 0x20, 0x34, 0x12, 0x78, 0x56],
            [0, 0x20, 1, 2, 0x20, 2, 0, 0, 0, 0],
            [1, 2, 0x20, 0x20, 2, 0, 0, 0, 0],
        ),
        (
            (0x00, 0x02, 0x0400_0000),
            [0, 0x02, 1, 0, 4, 0x02, 0x00, 0x04, 0x00, 0x00],
            [0, 0x42, 1, 0, 0, 2, 0, 0, 0, 0],
            [1, 0, 0x02, 0, 2, 0, 0, 0, 0],
        ),
        (
            (0x02, 0x20, 0x1234_5678),
            [0, 0x04, 1, 2, 4, 0x20, 0x34, 0x12, 0x78, 0x56],
            [0, 0x64, 1, 2, 0, 2, 0, 0, 0, 0],
            [1, 2, 0x20, 0, 2, 0, 0, 0, 0],
        ),
        (
            (0x02, 0x21, 0),
            [0, 0x06, 1, 2, 1, 0x21, 0, 0, 0, 0],
            [0, 0x86, 1, 2, 0, 4, 0x34, 0x12, 0x78, 0x56],
            [1, 2, 0x21, 0, 4, 0x78, 0x56, 0x34, 0x12],
        ),
        (
            (0x01, 0x41, 0),
            [0, 0x08, 1, 1, 2, 0x41, 0, 0, 0, 0],
            [0, 0xA8, 1, 1, 0x20, 2, 0, 0, 0, 0],
            [1, 1, 0x41, 0x20, 2, 0, 0, 0, 0],
        ),
        (
            (0x00, 0x03, 0),
            [0, 0x0A, 1, 0, 2, 0x03, 0, 0, 0, 0],
            [0, 0xCA, 1, 0, 0, 4, 0x00, 0x04, 0x00, 0x00],
            [1, 0, 0x03, 0, 4, 0x00, 0x00, 0x00, 0x04],
        ),
    ] {
        let given = joined.send(channel, command, data);
        assert_eq!(given, (body.to_vec(), (0, sent.to_vec())));
        assert_eq!(joined.room.reply(&sent), done(&read));
    }
    assert_eq!(joined.room.open_transactions(), [0; 0]);
}

#[test]
fn a_go_is_answered_with_its_completion() {
    let mut joined = Joined::new();
    assert_eq!(joined.ask(0x00, 0x02, 0x0200_0000), (0, 2, 0));
    let (body, sent) = joined.send(0x01, 0x72, 0);
    assert_eq!(body, [0, 2, 1, 1, 2, 0x72, 0, 0, 0, 0]);
    assert_eq!(sent, (17, vec![]));
    assert_eq!(joined.room.open_transactions(), [1]);
    // Others are asked meanwhile, with the next TRN.
    let (body, sent) = joined.send(0x15, 0x11, 0);
    assert_eq!(body, [0, 4, 2, 0x15, 1, 0x11, 0, 0, 0, 0]);
    assert_eq!(sent, (0, vec![0, 0x62, 2, 0x15, 0, 4, 0, 0, 0, 0]));
    let read = joined.room.reply(&sent.1);
    assert_eq!(read, done(&[2, 0x15, 0x11, 0, 4, 0, 0, 0, 0]));
    // SPI is busy, and says so for the one that asks.
    let (body, sent) = joined.send(0x01, 0x01, 0);
    assert_eq!(body, [0, 6, 2, 1, 2, 0x01, 0, 0, 0, 0]);
    assert_eq!(sent, (0, vec![0, 0x84, 2, 1, 0x40, 2, 0, 0, 0, 0]));
    let read = joined.room.reply(&sent.1);
    assert_eq!(read, done(&[2, 1, 0x01, 0x40, 2, 0, 0, 0, 0]));
    assert_eq!(joined.room.open_transactions(), [1]);
    let mut received = [0; 16];
    received[..4].copy_from_slice(&[0x11, 0x22, 0x33, 0x44]);
    let sent = joined.completion(&received);
    let wanted = vec![0, 0x86, 1, 1, 0, 6, 0x33, 0x44, 0x11, 0x22];
    assert_eq!(sent, (0, wanted));
    assert_eq!(
        joined.room.reply(&sent.1),
        done(&[1, 1, 0x72, 0, 6, 0x11, 0x22, 0x33, 0x44])
    );
    assert_eq!(joined.room.open_transactions(), [0; 0]);
    assert_eq!(joined.ask(0x01, 0x01, 0), (0, 6, 0x4433_2211));
}

#[test]
fn an_interrupt_comes_between_a_start_and_its_reply() {
    let mut joined = Joined::new();
    assert_eq!(joined.ask(0x00, 0x02, 0x0C00_0000), (0, 2, 0));
    assert_eq!(joined.ask(0x02, 0x30, 0x0001_0000), (0, 2, 0));
    assert_eq!(joined.ask(0x02, 0x40, 0x0001_0000), (0, 2, 0));
    assert_eq!(joined.ask(0x02, 0x60, 1), (0, 2, 0));
    // A single read from address 0x50.
    let (body, sent) = joined.send(0x03, 0x86, 0x5000_0000);
    assert_eq!(body, [0, 8, 1, 3, 4, 0x86, 0x00, 0x50, 0x00, 0x00]);
    assert_eq!(sent, (17, vec![]));
    let sent = joined.sample(0x0001_0001);
    let wanted = vec![0, 0xA8, 0xFF, 2, 0, 4, 0x01, 0x00, 0x00, 0x00];
    assert_eq!(sent, (0, wanted));
    assert_eq!(
        joined.room.reply(&sent.1),
        interrupt(&[0xFF, 2, 0, 0, 4, 0x00, 0x00, 0x01, 0x00])
    );
    assert_eq!(joined.room.open_transactions(), [1]);
    let sent = joined.i2c(0x03, 1, 0, &[0x5A]);
    let wanted = vec![0, 0xAA, 1, 3, 0, 4, 0x5A, 0x04, 0x00, 0x00];
    assert_eq!(sent, (0, wanted));
    assert_eq!(
        joined.room.reply(&sent.1),
        done(&[1, 3, 0x86, 0, 4, 0x00, 0x00, 0x5A, 0x04])
    );
    assert_eq!(joined.room.open_transactions(), [0; 0]);
    assert_eq!(joined.ask(0x03, 0x11, 0), (0, 1, 0x0400_0000));
}

#[test]
fn all_starts_are_open_at_once_and_end_in_any_order() {
    let mut joined = Joined::ready(4);
    assert_eq!(joined.start(0x01, 0x72, 0), 1);
    for channel in 0x03..=0x12 {
        let (command, _) = STARTS[usize::from(channel) % 11];
        assert_eq!(joined.start(channel, command, 0), channel - 1);
    }
    assert_eq!(
        joined.room.open_transactions(),
        (1..=17).collect::<Vec<_>>()
    );
    // The last first; none is acknowledged, so that none takes a byte.
    for channel in (0x03..=0x12).rev() {
        let (command, length) = STARTS[usize::from(channel) % 11];
        let (number, body) = joined.i2c(channel, 0, 0, &[9; 16]);
        assert_eq!(number, 0);
        assert_eq!(
            joined.room.reply(&body),
            done(&[channel - 1, channel, command, 0, length, 0, 0, 0, 0x40])
        );
    }
    let (_, body) = joined.completion(&[0x5A; 16]);
    assert_eq!(
        joined.room.reply(&body),
        done(&[1, 1, 0x72, 0, 6, 0x5A, 0x5A, 0x5A, 0x5A])
    );
    assert_eq!(joined.room.open_transactions(), [0; 0]);
}

#[test]
fn every_command_is_answered_as_its_own_request() {
    let ready = Joined::ready(1);
    for (channel, command, _) in command_table() {
        let mut joined = ready.clone();
        if !waits(channel, command) {
            let (error, _, _) = joined.ask(channel, command, 0xFFFF_FFFF);
            assert_eq!(error, 0);
            assert_eq!(joined.room.open_transactions(), [0; 0]);
            continue;
        }
        let transaction = joined.start(channel, command, 0xFFFF_FFFF);
        assert_eq!((transaction, joined.room.open_transactions()), (1, vec![1]));
        let (number, body) = if channel == 0x01 {
            joined.completion(&[0; 16])
        } else {
            joined.i2c(channel, 1, 0, &[])
        };
        assert_eq!(number, 0);
        let (number, interrupt, read) = joined.room.reply(&body);
        assert_eq!((number, interrupt), (0, false));
        assert_eq!(read[..4], [1, channel, command, 0]);
        assert_eq!(joined.room.open_transactions(), [0; 0]);
    }
}

#[test]
fn not_enabled_is_read_back() {
    for (channel, command, _) in command_table() {
        let mut joined = Joined::new();
        let wanted = match channel {
            0x00 | 0x15 => 0,
            _ => 0x20,
        };
        let (error, length, data) = joined.ask(channel, command, 0);
        assert_eq!((error, data), (wanted, 0));
        if wanted != 0 {
            assert_eq!(length, 2);
        }
        assert_eq!(joined.room.open_transactions(), [0; 0]);
    }
}

#[test]
fn busy_is_read_back() {
    let mut ready = Joined::ready(4);
    ready.start(0x01, 0x72, 0);
    for channel in 0x03..=0x12 {
        ready.start(channel, 0xDA, 0);
    }
    let open: Vec<usize> = (1..=17).collect();
    for (channel, command, _) in command_table() {
        let mut joined = ready.clone();
        let (error, length, data) = joined.ask(channel, command, 0x1C00_0000);
        if let 0x01 | 0x03..=0x12 = channel {
            assert_eq!((error, length, data), (0x40, 2, 0));
        } else {
            assert_eq!(error, 0);
        }
        // The answer closed the one that asked, not the start.
        assert_eq!(joined.room.open_transactions(), open);
    }
}

#[test]
fn a_byte_count_that_no_start_can_use_is_read_back() {
    for byte_count in 0..=31 {
        let ready = Joined::ready(byte_count);
        for channel in 0x03..=0x12 {
            for (command, _) in STARTS {
                let mut joined = ready.clone();
                let usable = matches!(byte_count, 1..=16);
                if usable || !MULTI.contains(&command) {
                    assert_eq!(joined.start(channel, command, 0), 1);
                    assert_eq!(joined.room.open_transactions(), [1]);
                } else {
                    assert_eq!(joined.ask(channel, command, 0), (0x10, 2, 0));
                    assert_eq!(joined.room.open_transactions(), [0; 0]);
                }
            }
        }
    }
}

#[test]
fn a_request_out_of_sequence_stays_open() {
    let mut joined = Joined::new();
    assert_eq!(joined.ask(0x00, 0x03, 0), (0, 4, 0));
    // A new record counts from 0, the adapter expects 1.
    joined.room = Room::new();
    let (body, sent) = joined.send(0x15, 0x11, 0);
    assert_eq!(body, [0, 0, 1, 0x15, 1, 0x11, 0, 0, 0, 0]);
    assert_eq!(sent, (0, vec![0, 0x2D]));
    assert_eq!(joined.room.reply(&sent.1), refused(33));
    assert_eq!(joined.room.open_transactions(), [1]);
    // CONNECT brings both to 0; the lost request keeps its TRN.
    joined.link(0, 0x2F);
    let (body, sent) = joined.send(0x15, 0x21, 0);
    assert_eq!(body, [0, 0, 2, 0x15, 1, 0x21, 0, 0, 0, 0]);
    assert_eq!(sent, (0, vec![0, 0x20, 2, 0x15, 0, 4, 0, 0, 0, 0]));
    let read = joined.room.reply(&sent.1);
    assert_eq!(read, done(&[2, 0x15, 0x21, 0, 4, 0, 0, 0, 0]));
    assert_eq!(joined.room.open_transactions(), [1]);
}

#[test]
fn connect_goes_over_to_the_other_port_with_a_go_open() {
    for control in [0x2F, 0x3F] {
        let mut joined = Joined::new();
        assert_eq!(joined.ask(0x00, 0x02, 0x0200_0000), (0, 2, 0));
        assert_eq!(joined.start(0x01, 0x72, 0), 1);
        joined.link(1, control);
        let (body, sent) = joined.send(0x01, 0x41, 0);
        assert_eq!(body, [0, 0, 2, 1, 2, 0x41, 0, 0, 0, 0]);
        assert_eq!(sent, (0, vec![0, 0x20, 2, 1, 0x40, 2, 0, 0, 0, 0]));
        let read = joined.room.reply(&sent.1);
        assert_eq!(read, done(&[2, 1, 0x41, 0x40, 2, 0, 0, 0, 0]));
        let sent = joined.completion(&[0; 16]);
        assert_eq!(sent, (0, vec![0, 0x22, 1, 1, 0, 6, 0, 0, 0, 0]));
        let read = joined.room.reply(&sent.1);
        assert_eq!(read, done(&[1, 1, 0x72, 0, 6, 0, 0, 0, 0]));
        assert_eq!(joined.room.open_transactions(), [0; 0]);
    }
}

#[test]
fn reset_drops_the_go_but_not_its_transaction() {
    for control in [0x8F, 0x9F] {
        let mut joined = Joined::new();
        assert_eq!(joined.ask(0x00, 0x02, 0x0200_0000), (0, 2, 0));
        assert_eq!(joined.start(0x01, 0x72, 0), 1);
        joined.link(0, control);
        assert_eq!(joined.completion(&[0; 16]), (15, vec![]));
        assert_eq!(joined.room.open_transactions(), [1]);
        // SPI is disabled again, and the answer is not the GO's.
        let (body, sent) = joined.send(0x01, 0x41, 0);
        assert_eq!(body, [0, 0, 2, 1, 2, 0x41, 0, 0, 0, 0]);
        let read = joined.room.reply(&sent.1);
        assert_eq!(read, done(&[2, 1, 0x41, 0x20, 2, 0, 0, 0, 0]));
        // Whoever resets the chip makes a new record.
        joined.room = Room::new();
        joined.link(0, control);
        assert_eq!(joined.ask(0x00, 0x03, 0), (0, 4, 0));
    }
}

#[test]
fn test_leaves_the_numbers_and_a_looped_request_reads_as_a_reply() {
    let mut joined = Joined::new();
    assert_eq!(joined.ask(0x15, 0x10, 0x33), (0, 1, 0));
    joined.link(0, 0xE3);
    // TRN and channel alone are looked at: LEN stands for ERR, CMD for LEN.
    let (body, sent) = joined.send(0x15, 0x11, 0);
    assert_eq!(body, [0, 2, 1, 0x15, 1, 0x11, 0, 0, 0, 0]);
    assert_eq!(sent, (0, body));
    let read = joined.room.reply(&sent.1);
    assert_eq!(read, done(&[1, 0x15, 0x11, 1, 0x11, 0, 0, 0, 0]));
    joined.link(0, 0x2F);
    assert_eq!(joined.ask(0x15, 0x11, 0), (0, 4, 0x33));
}

#[test]
fn both_ends_count_alike() {
    let mut table = command_table();
    // Nothing that waits, disables a channel or selects lines.
    table.retain(|row| !waits(row.0, row.1) && row.0 != 0x00 && (row.0, row.1) != (0x02, 0x30));
    let mut chance = Chance(0x5CA);
    let mut joined = Joined::ready(2);
    for turn in 0..300 {
        let (channel, command, _) = table[chance.below(table.len() as u64) as usize];
        let (error, _, _) = joined.ask(channel, command, turn);
        assert_eq!(error, 0);
        assert_eq!(joined.room.record.frame_number, joined.state.receive);
    }
    // Interrupts move the adapter's send number alone.
    for (command, data) in [(0x20, 0), (0x80, 0), (0x60, 1), (0x40, 1)] {
        assert_eq!(joined.ask(0x02, command, data), (0, 2, 0));
    }
    assert_eq!(joined.sample(0), (17, vec![]));
    assert_eq!(joined.ask(0x02, 0x30, 1), (0, 2, 0));
    for _ in 0..20 {
        let (number, body) = joined.sample(1);
        assert_eq!(number, 0);
        let (_, sent) = joined.send(0x02, 0x01, 0);
        let read = joined.room.reply(&sent.1);
        assert_eq!(read, done(&[1, 2, 0x01, 0, 4, 1, 0, 0, 0]));
        // Read late, after a reply that left after it.
        let read = joined.room.reply(&body);
        assert_eq!(read, interrupt(&[0xFF, 2, 0, 0, 4, 1, 0, 0, 0]));
        assert_eq!(joined.sample(0), (17, vec![]));
        assert_eq!(joined.room.record.frame_number, joined.state.receive);
    }
}

//! A record's 510 bytes, as docs/RECORD.md lists them, and what the independent implementation has for them.

use reference::control::{Pending, Record};
use sca::RECORD_BYTES;

/// The TRNs that a record has room for.
pub const FIRST: usize = 0x01;
pub const LAST: usize = 0xFE;

/// Where the two bytes of a TRN stand.
pub fn place(transaction: usize) -> usize {
    2 * transaction
}

/// The record that bytes spell, in range or not; none where they are not 510, or byte 1 has a bit set.
pub fn record_in(bytes: &[u8]) -> Option<Record> {
    if bytes.len() != RECORD_BYTES || bytes[1] != 0 {
        return None;
    }
    let mut record = Record::new();
    record.frame_number = bytes[0];
    for transaction in FIRST..=LAST {
        let (channel, command) = (bytes[place(transaction)], bytes[place(transaction) + 1]);
        if (channel, command) != (0, 0) {
            record.open[transaction] = Some(Pending { channel, command });
        }
    }
    Some(record)
}

pub fn bytes_of(record: &Record) -> Vec<u8> {
    let mut bytes = vec![0; RECORD_BYTES];
    bytes[0] = record.frame_number;
    for transaction in FIRST..=LAST {
        if let Some(Pending { channel, command }) = record.open[transaction] {
            bytes[place(transaction)] = channel;
            bytes[place(transaction) + 1] = command;
        }
    }
    bytes
}

//! The commands that there are, as the independent implementation has them.

use reference::control::{self, Pending, Record};
use sca::{I2C_FIRST, I2C_LAST};

/// How many there are: 49 of document 01, and 24 of each of the sixteen I2C masters.
pub const COUNT: usize = 433;

pub const CONTROLLER: u8 = 0x00;
pub const SPI: u8 = 0x01;
pub const GPIO: u8 = 0x02;
pub const LAST_CHANNEL: u8 = 0x15;

pub const GO: u8 = 0x72;
/// The starts of a master; the last four look at NBYTE.
pub const STARTS: [u8; 11] = [0x82, 0x86, 0x8A, 0x8E, 0xC2, 0xC6, 0xCA, 0xDA, 0xDE, 0xE2, 0xE6];
const MULTI_BYTE: [u8; 4] = [0xDA, 0xDE, 0xE2, 0xE6];

/// CONNECT, RESET and TEST, with bit 4 clear and set.
pub const LINK_COMMANDS: [u8; 6] = [0x2F, 0x3F, 0x8F, 0x9F, 0xE3, 0xF3];
pub const CONNECT: u8 = 0x2F;
pub const RESET: u8 = 0x8F;
pub const TEST: u8 = 0xE3;
/// Bit 4, which all three have in two ways.
pub const POLL: u8 = 0x10;

/// Every channel with every command that it has.
pub fn commands() -> Vec<(u8, u8)> {
    let of = |channel: u8| (0..=0xFF).map(move |command| (channel, command));
    let every = (0..=0xFF).flat_map(of);
    every.filter(|(channel, command)| known(*channel, *command)).collect()
}

/// Whether a request of this command may be open.
pub fn known(channel: u8, command: u8) -> bool {
    let mut record = Record::new();
    record.open[1] = Some(Pending { channel, command });
    control::in_range(&record)
}

pub fn is_master(channel: u8) -> bool {
    (I2C_FIRST..=I2C_LAST).contains(&channel)
}

/// Whether the reply comes with a completion.
pub fn is_start(channel: u8, command: u8) -> bool {
    (channel, command) == (SPI, GO) || is_master(channel) && STARTS.contains(&command)
}

/// Whether a request with the LEN of its table can still be answered with 0x10: a start that looks at NBYTE.
pub fn counts(channel: u8, command: u8) -> bool {
    is_master(channel) && MULTI_BYTE.contains(&command)
}

//! The numbers that calls give back, as document 01's table and the change
//! requests list them.
//! An independent implementation, written from document 01 and change
//! requests 2026-01 to 2026-03, 2026-05 and 2026-06.

/// A frame was read or sent.
pub const FRAME: u8 = 0;
/// The output is too short, or the buffer for a large journal is not of its
/// length.
pub const SHORT_OUTPUT: u8 = 1;
/// The body has not 2 to 16 bytes.
pub const BODY_LENGTH: u8 = 2;
/// Port, edge kind, I2C channel, completion length or sample count is wrong.
pub const BAD_ARGUMENT: u8 = 3;
/// The journal is wrong in length, mark, version or layout; for enlarging, no
/// small one.
pub const BAD_JOURNAL: u8 = 4;
/// No step can be taken back.
pub const NOTHING_KEPT: u8 = 5;
/// A state field is out of range.
pub const OUT_OF_RANGE: u8 = 6;
/// The chip ID has more than 24 bits.
pub const BAD_ID: u8 = 7;
/// The receiver's input is over 65,536 bytes.
pub const LONG_INPUT: u8 = 8;
/// The start bit lies past the end of the input.
pub const BAD_START: u8 = 9;
/// A line of the listing is not readable.
pub const UNREADABLE: u8 = 10;
/// Dropped: the address is not 0x00.
pub const OTHER_ADDRESS: u8 = 11;
/// Dropped: the port is not active.
pub const INACTIVE_PORT: u8 = 12;
/// Dropped: a control with bit 0 set that is no known command.
pub const UNKNOWN_CONTROL: u8 = 13;
/// Dropped: the information has the wrong length.
pub const WRONG_INFORMATION: u8 = 14;
/// Dropped: a completion while no transfer is open.
pub const NOT_BUSY: u8 = 15;
/// Dropped: a pin sample while GPIO is disabled.
pub const GPIO_DISABLED: u8 = 16;
/// Done, and no frame goes out.
pub const DONE: u8 = 17;
/// The receiver dropped a frame of more than 144 content bits.
pub const TOO_LONG: u8 = 21;
/// The receiver dropped a frame that is not a whole number of bytes.
pub const NOT_WHOLE_BYTES: u8 = 22;
/// The receiver dropped a frame whose FCS is wrong.
pub const WRONG_FCS: u8 = 23;
/// The receiver dropped a frame that was aborted.
pub const ABORTED: u8 = 24;
/// All 254 transactions of the control room are open.
pub const NO_FREE_TRANSACTION: u8 = 31;
/// The reply matches no open transaction.
pub const UNMATCHED_REPLY: u8 = 32;
/// The reply's body has not ten bytes.
pub const REPLY_LENGTH: u8 = 33;
/// The tables don't have the command.
pub const UNKNOWN_COMMAND: u8 = 35;

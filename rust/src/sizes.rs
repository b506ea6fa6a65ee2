//! The version, the sizes of what calls take and the channels of the I2C masters, under the names of `include/sca.h`, there
//! with `SCA_` in front.

/// The version that this crate is made for, 1.5.0: major << 16 | minor << 8 | patch. [`crate::version`] gives the archive's.
pub const VERSION: u64 = 0x01_0500;

/// The bytes of the shortest body.
pub const BODY_LEAST: usize = 2;
/// The bytes of the longest body.
pub const BODY_MOST: usize = 16;
/// The bytes of the longest frame on the cable.
pub const CABLE_MOST: usize = 24;
/// The most bytes of cable in one reading.
pub const INPUT_MOST: usize = 65_536;
/// The least output of a receiver, of an event and of the control room's calls.
pub const OUTPUT_LEAST: usize = 16;
/// The bytes of a request, a reply and an interrupt, so of each body that a batch sends.
pub const REPLY_BYTES: usize = 10;
/// The most samples of a batch.
pub const SAMPLES_MOST: usize = 256;
/// The least output of a batch, however few its samples.
pub const BATCH_LEAST: usize = 2_560;
/// The bytes received in an SPI transfer, whatever its length.
pub const TRANSFER_BYTES: usize = 16;
/// The most bytes received in an I2C transaction.
pub const I2C_MOST: usize = 16;
/// The channel of the first of the sixteen I2C masters.
pub const I2C_FIRST: u8 = 0x03;
/// The channel of the last one.
pub const I2C_LAST: u8 = 0x12;
/// The greatest chip ID.
pub const ID_MOST: u32 = 0xFF_FFFF;
/// The bytes of a receiver.
pub const RECEIVER_BYTES: usize = 24;
/// The bytes of an adapter's state.
pub const STATE_BYTES: usize = 411;
/// The bytes of a small journal.
pub const JOURNAL_BYTES: usize = 17_408;
/// The most events that it can take back.
pub const KEPT_MOST: usize = 64;
/// The bytes of a large journal.
pub const LARGE_JOURNAL_BYTES: usize = 52_224;
/// The most events that it can take back.
pub const LARGE_KEPT_MOST: usize = 200;
/// The bytes of a record of open transactions.
pub const RECORD_BYTES: usize = 510;
/// The most transactions that can be open at once.
pub const TRANSACTIONS_MOST: usize = 254;
/// What is written of a reply or an interrupt.
pub const ANSWER_BYTES: usize = 9;

/// The two sizes of a journal, which differ in how many events can be taken back.
#[derive(Clone, Copy, PartialEq, Eq, Debug)]
pub enum JournalSize {
    /// [`JOURNAL_BYTES`], for [`KEPT_MOST`] events.
    Small,
    /// [`LARGE_JOURNAL_BYTES`], for [`LARGE_KEPT_MOST`] events.
    Large,
}

impl JournalSize {
    /// The bytes of such a journal.
    pub fn bytes(self) -> usize {
        match self {
            JournalSize::Small => JOURNAL_BYTES,
            JournalSize::Large => LARGE_JOURNAL_BYTES,
        }
    }

    /// The most events that it can take back.
    pub fn kept_most(self) -> usize {
        match self {
            JournalSize::Small => KEPT_MOST,
            JournalSize::Large => LARGE_KEPT_MOST,
        }
    }
}

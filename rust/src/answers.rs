//! What calls take and give. Each number has the name that `include/sca.h` gives it.

use crate::bytes::{Bodies, Body};
use std::error::Error;
use std::fmt;

/// A port of the adapter.
#[derive(Clone, Copy, PartialEq, Eq, Debug)]
pub enum Port {
    /// Port 0.
    Primary = 0,
    /// Port 1.
    Auxiliary = 1,
}

/// What samples the pins.
#[derive(Clone, Copy, PartialEq, Eq, Debug)]
pub enum Edge {
    /// The system clock.
    SystemClock = 0,
    /// The strobe, rising.
    StrobeRising = 1,
    /// The strobe, falling.
    StrobeFalling = 2,
}

/// A command of the link: [`crate::ControlRoom::command`] writes its body. Its number is the control's.
#[derive(Clone, Copy, PartialEq, Eq, Debug)]
pub enum LinkCommand {
    /// Makes its port active, zeroes the numbers of the link and ends loopback on both ports.
    Connect = 0x2F,
    /// The same, and sets all registers and the SEU counter to power-on.
    Reset = 0x8F,
    /// Puts its port in loopback.
    Test = 0xE3,
}

/// The pins at one moment, as a logic probe hands it over: [`crate::Adapter::samples`] takes many.
#[derive(Clone, Copy, PartialEq, Eq, Debug)]
pub struct Sample {
    /// Bit n is the level of line n.
    pub levels: u32,
    /// What samples.
    pub edge: Edge,
}

/// Why a call was refused. Nothing has changed.
#[derive(Clone, Copy, PartialEq, Eq, Debug)]
#[non_exhaustive]
pub enum Refusal {
    /// The output is too short, or the buffer to enlarge a journal into is not [`crate::LARGE_JOURNAL_BYTES`]. This
    /// crate's own never are; [`crate::boundary`] takes any.
    ShortOutput = 1,
    /// The body is not 2 to 16 bytes.
    BadBody = 2,
    /// The channel of an I2C completion is not I2C, or its bytes are over [`crate::I2C_MOST`]; or a batch has over
    /// [`crate::SAMPLES_MOST`] samples. Or a port, edge kind or SPI completion of no meaning: this crate's types have none;
    /// [`crate::boundary`] takes any.
    BadArgument = 3,
    /// The journal's length, mark, version or layout is wrong, or its newest record is damaged; or a journal that is to
    /// be enlarged is large already.
    BadJournal = 4,
    /// The kept number is 0: there is no event to take back.
    NoneKept = 5,
    /// The state, the receiver or the record of open transactions has another length, or a field out of range.
    BadState = 6,
    /// The chip ID is over [`crate::ID_MOST`].
    BadId = 7,
    /// The receiver's input is over [`crate::INPUT_MOST`] bytes.
    LongInput = 8,
    /// The start bit is over 8 times the bytes of the input.
    BadStart = 9,
    /// No TRN is free: all [`crate::TRANSACTIONS_MOST`] transactions are open.
    AllOpen = 31,
    /// The reply matches no open transaction.
    NoMatch = 32,
    /// The reply's body is not [`crate::REPLY_BYTES`] bytes, as that of an SREJ or an acknowledgement.
    BadReply = 33,
    /// The tables have no such command.
    NoCommand = 35,
}

/// Why an event was dropped. It is kept; no register has changed.
#[derive(Clone, Copy, PartialEq, Eq, Debug)]
#[non_exhaustive]
pub enum Dropped {
    /// The address is not 0x00.
    OtherAddress = 11,
    /// The port is not the active one.
    OtherPort = 12,
    /// A control with bit 0 set that is no CONNECT, RESET or TEST.
    OtherControl = 13,
    /// The information is not as long as the control asks.
    BadInformation = 14,
    /// A completion while its channel, SPI or an I2C master, is not busy.
    NotBusy = 15,
    /// A pin sample while GPIO is disabled.
    LinesDisabled = 16,
}

/// Why a receiver dropped a frame.
#[derive(Clone, Copy, PartialEq, Eq, Debug)]
#[non_exhaustive]
pub enum Broken {
    /// Content of over 144 bits.
    LongContent = 21,
    /// Content of a number of bits that is no multiple of 8.
    BrokenContent = 22,
    /// Content whose FCS is wrong.
    WrongFcs = 23,
    /// Seven ones after at least 32 bits of content.
    Aborted = 24,
}

/// What came of an event. It is kept and can be taken back, but for an accepted RESET, which empties the journal.
#[derive(Clone, Copy, PartialEq, Eq, Debug)]
#[non_exhaustive]
pub enum Answer {
    /// A body is to leave on this port.
    HasFrame {
        /// The port.
        port: Port,
        /// The body.
        body: Body,
    },
    /// The event was dropped.
    Dropped(Dropped),
    /// Done, and nothing is to be sent.
    NoFrame,
}

/// What came of a batch of pin samples. Each sample is an event of its own: it is kept and can be taken back.
#[derive(Clone, PartialEq, Eq, Debug)]
pub struct Batch {
    /// The port that all bodies leave on; [`Port::Primary`] where there is none.
    pub port: Port,
    /// The interrupts, in the order in which they are to leave.
    pub bodies: Bodies,
    /// The lines that fired, added up over the interrupts: the ones in the data of all bodies. Lines that fired with
    /// INTENABLE 0 are not counted.
    pub sum: u32,
}

/// What a receiver heard.
#[derive(Clone, Copy, PartialEq, Eq, Debug)]
#[non_exhaustive]
pub enum Heard {
    /// A frame with this body.
    HasFrame(Body),
    /// A frame that was dropped.
    Broken(Broken),
    /// The bits ran out.
    NoFrame,
}

/// What one reading gives.
#[derive(Clone, Copy, PartialEq, Eq, Debug)]
pub struct Received {
    /// The bits read, from the start bit through the deciding one.
    pub consumed: usize,
    /// What they were.
    pub heard: Heard,
}

/// What a request opens and its reply closes.
#[derive(Clone, Copy, PartialEq, Eq, Hash, Debug)]
pub struct Transaction {
    /// The TRN, 0x01 to 0xFE.
    pub trn: u8,
    /// The channel of the request.
    pub channel: u8,
    /// The CMD of the request.
    pub command: u8,
}

/// A request that was written.
#[derive(Clone, Copy, PartialEq, Eq, Debug)]
pub struct Request {
    /// The body, to be sent.
    pub body: Body,
    /// What is open until the reply comes.
    pub transaction: Transaction,
}

/// What the control room read.
#[derive(Clone, Copy, PartialEq, Eq, Debug)]
#[non_exhaustive]
pub enum Reply {
    /// The answer to a request that was open. It is closed.
    Answered {
        /// The request.
        transaction: Transaction,
        /// ERR: 0, or the bit that says why the chip did not do it, as `include/sca.h` lists them.
        error: u8,
        /// LEN.
        length: u8,
        /// The data, `D[31:0]`.
        data: u32,
    },
    /// An interrupt of the parallel lines. It closes nothing.
    Interrupt {
        /// ERR; an [`crate::Adapter`] gives 0.
        error: u8,
        /// LEN; an [`crate::Adapter`] gives 4.
        length: u8,
        /// The data, INTS: bit n is set where line n fired.
        lines: u32,
    },
}

impl Reply {
    /// The data where ERR is 0, else ERR.
    pub fn data_or_error(&self) -> Result<u32, u8> {
        let (Reply::Answered { error, data, .. } | Reply::Interrupt { error, lines: data, .. }) = *self;
        match error {
            0 => Ok(data),
            _ => Err(error),
        }
    }
}

/// A number in words, as `sca_text` of `include/sca.h` has it.
pub fn text(number: u8) -> &'static str {
    match number {
        0 => "a frame was read or sent, or a body written or read",
        1 => {
            "the output is under 16 bytes (transmitter: under 24, batch: under 2,560), or the second buffer of an enlarging \
             is not 52,224"
        }
        2 => "the body is not 2 to 16 bytes",
        3 => {
            "the port is not 0 or 1, the edge kind is over 2, the channel is not I2C, the completion is not 16 bytes (I2C: \
             over 16), or the batch is over 256 samples"
        }
        4 => "the journal's length, mark, version or layout is wrong (enlarging: it is not a small one)",
        5 => "the kept number is 0",
        6 => "the state, the receiver or the record of open transactions has another length, or a field out of range",
        7 => "the chip ID is over 0xFFFFFF",
        8 => "the receiver's input is over 65,536 bytes",
        9 => "the start bit is over 8 times the bytes",
        10 => "the line is not readable",
        11 => "dropped: the address is not 0x00",
        12 => "dropped: the port is not active",
        13 => "dropped: the control has bit 0 set and is not CONNECT, RESET or TEST",
        14 => "dropped: the information is not as long as the control asks",
        15 => "dropped: a completion came when its channel was not busy",
        16 => "dropped: a pin sample came with GPIO disabled",
        17 => "done, and there is no frame",
        21 => "the receiver dropped a frame: its content is over 144 bits",
        22 => "the receiver dropped a frame: its content is not a multiple of 8 bits",
        23 => "the receiver dropped a frame: its FCS is wrong",
        24 => "the receiver dropped a frame: seven ones broke it off",
        31 => "no TRN is free: all 254 transactions are open",
        32 => "the reply matches no open transaction",
        33 => "the reply's body is not 10 bytes",
        35 => "the tables have no such command",
        _ => "unknown number",
    }
}

/// The number and its text.
fn show(number: u8, out: &mut fmt::Formatter) -> fmt::Result {
    write!(out, "{}: {}", number, text(number))
}

impl fmt::Display for Refusal {
    fn fmt(&self, out: &mut fmt::Formatter) -> fmt::Result {
        show(*self as u8, out)
    }
}

impl fmt::Display for Dropped {
    fn fmt(&self, out: &mut fmt::Formatter) -> fmt::Result {
        show(*self as u8, out)
    }
}

impl fmt::Display for Broken {
    fn fmt(&self, out: &mut fmt::Formatter) -> fmt::Result {
        show(*self as u8, out)
    }
}

impl Error for Refusal {}

/// The refusal of this number, if it is one.
pub(crate) fn refusal(number: u8) -> Option<Refusal> {
    use Refusal::*;
    match number {
        1 => Some(ShortOutput),
        2 => Some(BadBody),
        3 => Some(BadArgument),
        4 => Some(BadJournal),
        5 => Some(NoneKept),
        6 => Some(BadState),
        7 => Some(BadId),
        8 => Some(LongInput),
        9 => Some(BadStart),
        31 => Some(AllOpen),
        32 => Some(NoMatch),
        33 => Some(BadReply),
        35 => Some(NoCommand),
        _ => None,
    }
}

/// A number as the end of a call: refused or done.
pub(crate) fn done(number: u8) -> Result<(), Refusal> {
    refusal(number).map_or(Ok(()), Err)
}

/// The number of a call without output. It is refused whatever else it is handed, so that it changes nothing: with 1, for the
/// output, where the bytes that it looks at before are right.
pub(crate) fn looked_at(number: u8) -> Result<(), Refusal> {
    match done(number) {
        Err(Refusal::ShortOutput) => Ok(()),
        other => other,
    }
}

/// The reason of this number to drop an event, if it is one.
pub(crate) fn dropped(number: u8) -> Option<Dropped> {
    use Dropped::*;
    match number {
        11 => Some(OtherAddress),
        12 => Some(OtherPort),
        13 => Some(OtherControl),
        14 => Some(BadInformation),
        15 => Some(NotBusy),
        16 => Some(LinesDisabled),
        _ => None,
    }
}

/// The reason of this number to drop a frame, if it is one.
pub(crate) fn broken(number: u8) -> Option<Broken> {
    use Broken::*;
    match number {
        21 => Some(LongContent),
        22 => Some(BrokenContent),
        23 => Some(WrongFcs),
        24 => Some(Aborted),
        _ => None,
    }
}

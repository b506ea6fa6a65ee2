//! Requests and replies: their fields, the error bits and the commands of
//! every channel.
//! An independent implementation, written from document 01 and change
//! requests 2026-01 to 2026-03, 2026-05 and 2026-06.

use crate::state::{is_start, master_place, Gpio, Master, Spi, State};
use crate::state::{CRB_BITS, CRD_BITS, FIRST_MASTER, INVCOM, LAST_MASTER};

const CONTROLLER: u8 = 0x00;
const SPI: u8 = 0x01;
/// The channel of the parallel lines, the only one that interrupts.
pub const GPIO: u8 = 0x02;
const SEU: u8 = 0x13;
const ID: u8 = 0x14;
const DAC: u8 = 0x15;

const INVALID_CHANNEL: u8 = 0x02;
const INVALID_COMMAND: u8 = 0x04;
const INVALID_TRANSACTION: u8 = 0x08;
const INVALID_LENGTH: u8 = 0x10;
const NOT_ENABLED: u8 = 0x20;
const BUSY: u8 = 0x40;

const SPI_GO: u8 = 0x72;
const GO_REPLY_LENGTH: u8 = 6;
/// The TRN of an interrupt, which no request may have.
pub const INTERRUPT_TRANSACTION: u8 = 0xFF;
const INTERRUPT_LENGTH: u8 = 4;

/// The information of a request.
struct Request {
    transaction: u8,
    channel: u8,
    length: u8,
    command: u8,
    data: u32,
}

/// The information of a reply or an interrupt.
pub struct Reply {
    transaction: u8,
    channel: u8,
    error: u8,
    length: u8,
    data: u32,
}

impl Request {
    /// Data comes as D[23:16], D[31:24], D[7:0], D[15:8].
    fn of(information: &[u8; 8]) -> Request {
        let [transaction, channel, length, command, d2, d3, d0, d1] = *information;
        Request {
            transaction,
            channel,
            length,
            command,
            data: u32::from_le_bytes([d0, d1, d2, d3]),
        }
    }
}

impl Reply {
    /// The eight bytes of information.
    pub fn information(&self) -> [u8; 8] {
        let [d0, d1, d2, d3] = self.data.to_le_bytes();
        [
            self.transaction,
            self.channel,
            self.error,
            self.length,
            d2,
            d3,
            d0,
            d1,
        ]
    }

    /// The reply that ends a GO.
    pub fn to_go(transaction: u8, data: u32) -> Reply {
        Reply {
            transaction,
            channel: SPI,
            error: 0,
            length: GO_REPLY_LENGTH,
            data,
        }
    }

    /// The reply that ends an I2C start. What went wrong on the bus stands in
    /// STATUS, so ERR is 0 whatever it says.
    pub fn to_start(transaction: u8, channel: u8, command: u8, status: u8, byte: u8) -> Reply {
        // A start is in the table, so the other length is never taken.
        let length = i2c_lengths(command).map_or(0, |(_, given)| given);
        Reply {
            transaction,
            channel,
            error: 0,
            length,
            data: u32::from_be_bytes([status, byte, 0, 0]),
        }
    }

    /// The interrupt that tells the firing lines.
    pub fn interrupt(lines: u32) -> Reply {
        Reply {
            transaction: INTERRUPT_TRANSACTION,
            channel: GPIO,
            error: 0,
            length: INTERRUPT_LENGTH,
            data: lines,
        }
    }
}

/// Carries a request out. An accepted GO or I2C start has no reply yet.
pub fn answer(state: &mut State, information: &[u8; 8]) -> Option<Reply> {
    let request = Request::of(information);
    let (error, length, data) = match check(state, &request) {
        Ok(_) if opens(&request) => {
            open(state, &request);
            return None;
        }
        Ok(reply_length) => (0, reply_length, execute(state, &request)),
        Err(error) => {
            note_error(state, request.channel, error);
            (error, 2, 0)
        }
    };
    Some(Reply {
        transaction: request.transaction,
        channel: request.channel,
        error,
        length,
        data,
    })
}

/// Whether the reply to a request waits for a completion.
fn opens(request: &Request) -> bool {
    match request.channel {
        SPI => request.command == SPI_GO,
        FIRST_MASTER..=LAST_MASTER => is_start(request.command),
        _ => false,
    }
}

/// Keeps what the reply will need: a GO's TRN, or a start's TRN and code.
fn open(state: &mut State, request: &Request) {
    if request.channel == SPI {
        state.spi.open_go = Some(request.transaction);
        return;
    }
    let master = &mut state.masters[master_place(request.channel)];
    master.transaction = request.transaction;
    master.command = request.command;
}

/// The one change that an error makes: a master tells in STATUS that an
/// unknown command came.
fn note_error(state: &mut State, channel: u8, error: u8) {
    if let (FIRST_MASTER..=LAST_MASTER, INVALID_COMMAND) = (channel, error) {
        state.masters[master_place(channel)].status |= INVCOM;
    }
}

/// The reply's LEN, or the first error bit that applies.
fn check(state: &State, request: &Request) -> Result<u8, u8> {
    if request.transaction == 0x00 || request.transaction == 0xFF {
        return Err(INVALID_TRANSACTION);
    }
    let enabled = enabled(state, request.channel).ok_or(INVALID_CHANNEL)?;
    if !enabled {
        return Err(NOT_ENABLED);
    }
    if busy(state, request.channel) {
        return Err(BUSY);
    }
    let (wanted, given) = lengths(request.channel, request.command).ok_or(INVALID_COMMAND)?;
    if request.length != wanted || !countable(state, request) {
        return Err(INVALID_LENGTH);
    }
    Ok(given)
}

/// Whether a channel is enabled; none if it is unknown.
fn enabled(state: &State, channel: u8) -> Option<bool> {
    match channel {
        CONTROLLER | DAC => Some(true),
        SPI => Some(state.spi_enabled()),
        GPIO => Some(state.gpio_enabled()),
        FIRST_MASTER..=LAST_MASTER => Some(state.master_enabled(channel)),
        SEU => Some(state.seu_enabled()),
        ID => Some(state.id_enabled()),
        _ => None,
    }
}

/// Whether a channel has a transfer open, so that it takes no command.
fn busy(state: &State, channel: u8) -> bool {
    match channel {
        SPI => state.spi.open_go.is_some(),
        FIRST_MASTER..=LAST_MASTER => state.masters[master_place(channel)].busy(),
        _ => false,
    }
}

/// A multi-byte start must find an NBYTE of 1 to 16.
fn countable(state: &State, request: &Request) -> bool {
    match request.channel {
        channel @ FIRST_MASTER..=LAST_MASTER => {
            state.masters[master_place(channel)].can_count(request.command)
        }
        _ => true,
    }
}

/// The LEN of request and reply; none if the command is unknown. The control
/// room asks with the one that the adapter wants.
pub fn lengths(channel: u8, command: u8) -> Option<(u8, u8)> {
    match (channel, command) {
        (CONTROLLER, 0x02 | 0x04 | 0x06) => Some((4, 2)),
        (CONTROLLER, 0x03 | 0x05 | 0x07) => Some((2, 4)),
        (SPI, 0x00 | 0x10 | 0x20 | 0x30 | 0x40 | 0x50 | 0x60) => Some((6, 2)),
        (SPI, 0x01 | 0x11 | 0x21 | 0x31 | 0x41 | 0x51 | 0x61) => Some((2, 6)),
        (SPI, SPI_GO) => Some((2, GO_REPLY_LENGTH)),
        (GPIO, 0x10 | 0x20 | 0x30 | 0x40 | 0x60 | 0x70 | 0x80 | 0x90) => Some((4, 2)),
        (GPIO, 0x01 | 0x11 | 0x21 | 0x31 | 0x41 | 0x61 | 0x71 | 0x81 | 0x91) => Some((1, 4)),
        (FIRST_MASTER..=LAST_MASTER, command) => i2c_lengths(command),
        (SEU, 0xF1) => Some((4, 4)),
        (SEU, 0xF0) => Some((4, 2)),
        (ID, 0xD1) => Some((4, 4)),
        (DAC, 0x10 | 0x20 | 0x30 | 0x40) => Some((4, 1)),
        (DAC, 0x11 | 0x21 | 0x31 | 0x41) => Some((1, 4)),
        _ => None,
    }
}

/// The LEN of an I2C request and its reply: as printed for the starts, the
/// data bytes shown for the register commands.
fn i2c_lengths(command: u8) -> Option<(u8, u8)> {
    match command {
        0x20 | 0x30 => Some((1, 0)),
        0x11 | 0x21 | 0x31 => Some((0, 1)),
        0x40 | 0x50 | 0x60 | 0x70 => Some((4, 0)),
        0x41 | 0x51 | 0x61 | 0x71 => Some((0, 4)),
        0x82 | 0x86 | 0x8E | 0xDE => Some((4, 4)),
        0x8A => Some((6, 4)),
        0xDA => Some((4, 6)),
        0xE2 | 0xE6 | 0xC2 | 0xC6 | 0xCA => Some((2, 2)),
        _ => None,
    }
}

/// Carries out a checked request and gives the reply's data.
fn execute(state: &mut State, request: &Request) -> u32 {
    let (command, data) = (request.command, request.data);
    match request.channel {
        CONTROLLER => on_controller(state, command, data),
        SPI => on_spi(&mut state.spi, command, data),
        GPIO => on_gpio(&mut state.gpio, command, data),
        channel @ FIRST_MASTER..=LAST_MASTER => {
            on_master(&mut state.masters[master_place(channel)], command, data)
        }
        SEU => on_seu(&mut state.seu, command),
        ID => state.id,
        _ => on_dac(&mut state.dac, command, data),
    }
}

fn on_controller(state: &mut State, command: u8, data: u32) -> u32 {
    let value = (data >> 24) as u8;
    match command {
        0x02 => state.crb = value & CRB_BITS,
        0x04 => state.crc = value,
        0x06 => state.crd = value & CRD_BITS,
        0x03 => return u32::from(state.crb) << 24,
        0x05 => return u32::from(state.crc) << 24,
        _ => return u32::from(state.crd) << 24,
    }
    state.clear_disabled();
    0
}

fn on_spi(spi: &mut Spi, command: u8, data: u32) -> u32 {
    let word = usize::from(command >> 4 & 0x03);
    match command {
        0x00 | 0x10 | 0x20 | 0x30 => spi.data[word] = data,
        0x40 => spi.control = data as u16,
        0x50 => spi.frequency = data as u16,
        0x60 => spi.slave_select = data as u8,
        0x41 => return u32::from(spi.control),
        0x51 => return u32::from(spi.frequency),
        0x61 => return u32::from(spi.slave_select),
        _ => return spi.data[word],
    }
    0
}

fn on_gpio(gpio: &mut Gpio, command: u8, data: u32) -> u32 {
    match command {
        0x10 => gpio.dataout = data,
        0x20 => gpio.direction = data,
        0x30 => gpio.intsel = data,
        0x40 => gpio.inttrig = data,
        0x60 => gpio.intenable = data & 1,
        0x70 => gpio.ints = data,
        0x80 => gpio.clksel = data,
        0x90 => gpio.edgesel = data,
        _ => return read_gpio(gpio, command),
    }
    0
}

fn read_gpio(gpio: &Gpio, command: u8) -> u32 {
    match command {
        0x01 => gpio.datain,
        0x11 => gpio.dataout,
        0x21 => gpio.direction,
        0x31 => gpio.intsel,
        0x41 => gpio.inttrig,
        0x61 => gpio.intenable,
        0x71 => gpio.ints,
        0x81 => gpio.clksel,
        _ => gpio.edgesel,
    }
}

/// A register's value stands in D[31:24]; of four DATA bytes the lowest does.
fn on_master(master: &mut Master, command: u8, data: u32) -> u32 {
    let value = (data >> 24) as u8;
    let word = 4 * usize::from(command >> 4 & 0x03);
    match command {
        0x20 => master.mask = value,
        0x30 => master.control = value,
        0x40 | 0x50 | 0x60 | 0x70 => {
            master.data[word..word + 4].copy_from_slice(&data.to_be_bytes())
        }
        0x11 => return u32::from(master.status) << 24,
        0x21 => return u32::from(master.mask) << 24,
        0x31 => return u32::from(master.control) << 24,
        _ => return joined(&master.data[word..word + 4]),
    }
    0
}

/// Four bytes as one word, the first on top.
fn joined(bytes: &[u8]) -> u32 {
    bytes
        .iter()
        .fold(0, |word, byte| word << 8 | u32::from(*byte))
}

fn on_seu(counter: &mut u32, command: u8) -> u32 {
    if command == 0xF1 {
        return *counter;
    }
    *counter = 0;
    0
}

fn on_dac(dac: &mut [u8; 4], command: u8, data: u32) -> u32 {
    let output = usize::from(command >> 4) - 1;
    if command & 0x0F == 1 {
        return u32::from(dac[output]);
    }
    dac[output] = data as u8;
    0
}

//! The adapter's state: its link numbers, ports and registers, and the exact
//! list of what is out of range.
//! An independent implementation, written from document 01 and change
//! requests 2026-01 to 2026-03, 2026-05 and 2026-06.

/// The SPI channel.
#[derive(Clone, Copy, PartialEq, Eq, Debug, Default)]
pub struct Spi {
    pub control: u16,
    pub frequency: u16,
    pub slave_select: u8,
    /// DATA in words: word 0 holds bits 31 to 0.
    pub data: [u32; 4],
    /// The TRN of the GO that has had no reply yet; SPI is then busy.
    pub open_go: Option<u8>,
}

/// The GPIO channel.
#[derive(Clone, Copy, PartialEq, Eq, Debug, Default)]
pub struct Gpio {
    pub dataout: u32,
    pub datain: u32,
    pub direction: u32,
    pub intsel: u32,
    pub inttrig: u32,
    pub ints: u32,
    pub clksel: u32,
    pub edgesel: u32,
    /// One bit: 0 or 1.
    pub intenable: u32,
}

/// One of the sixteen I2C masters.
#[derive(Clone, Copy, PartialEq, Eq, Debug, Default)]
pub struct Master {
    pub mask: u8,
    /// CTRL: all eight bits are kept, an NBYTE that no start could use too.
    pub control: u8,
    pub status: u8,
    /// The TRN of the start that has had no reply yet; 0 where none is open.
    pub transaction: u8,
    /// The code of that start; 0 where none is open.
    pub command: u8,
    /// DATA, BYTE0 first.
    pub data: [u8; 16],
}

/// Everything that an event may change, and the chip ID.
#[derive(Clone, Copy, PartialEq, Eq, Debug, Default)]
pub struct State {
    /// The chip ID, 24 bits.
    pub id: u32,
    /// The send number, 0 to 7.
    pub send: u8,
    /// The receive number, 0 to 7.
    pub receive: u8,
    /// The active port: 0 primary, 1 auxiliary.
    pub active: u8,
    /// Which port is in loopback.
    pub loopback: [bool; 2],
    /// The SEU counter.
    pub seu: u32,
    pub crb: u8,
    pub crc: u8,
    pub crd: u8,
    pub spi: Spi,
    pub gpio: Gpio,
    /// DAC A to D.
    pub dac: [u8; 4],
    /// The I2C masters, channel 0x03 first.
    pub masters: [Master; 16],
}

/// The bits of CRB that can be set.
pub const CRB_BITS: u8 = 0xFE;
/// The bits of CRD that can be set.
pub const CRD_BITS: u8 = 0x1F;
/// The greatest chip ID.
pub const MOST_ID: u32 = 0x00FF_FFFF;
/// The channel of the first I2C master.
pub const FIRST_MASTER: u8 = 0x03;
/// The channel of the last I2C master.
pub const LAST_MASTER: u8 = 0x12;
/// STATUS: the last transaction was done.
pub const SUCC: u8 = 0x04;
/// STATUS: the line was low before the last transaction.
pub const LEVERR: u8 = 0x08;
/// STATUS: an unknown command came; stands until disable or RESET.
pub const INVCOM: u8 = 0x20;
/// STATUS: the last transaction was not acknowledged.
pub const NOACK: u8 = 0x40;

impl State {
    /// The state at power-on.
    pub fn power_on(id: u32) -> State {
        State {
            id,
            ..State::default()
        }
    }

    pub fn spi_enabled(&self) -> bool {
        self.crb & 0x02 != 0
    }

    pub fn gpio_enabled(&self) -> bool {
        self.crb & 0x04 != 0
    }

    pub fn seu_enabled(&self) -> bool {
        self.crd & 0x08 != 0
    }

    pub fn id_enabled(&self) -> bool {
        self.crd & 0x10 != 0
    }

    /// The enable bits of the masters, channel 0x03 in bit 0: CRB has five of
    /// them from its bit 3 on, CRC the next eight, CRD the last three.
    pub fn enabled_masters(&self) -> u16 {
        u16::from(self.crb >> 3) | u16::from(self.crc) << 5 | u16::from(self.crd & 0x07) << 13
    }

    pub fn master_enabled(&self, channel: u8) -> bool {
        self.enabled_masters() >> master_place(channel) & 1 == 1
    }

    /// A disabled SPI, GPIO or master holds zeros and has nothing open.
    pub fn clear_disabled(&mut self) {
        if !self.spi_enabled() {
            self.spi = Spi::default();
        }
        if !self.gpio_enabled() {
            self.gpio = Gpio::default();
        }
        let enabled = self.enabled_masters();
        for (place, master) in self.masters.iter_mut().enumerate() {
            if enabled >> place & 1 == 0 {
                *master = Master::default();
            }
        }
    }
}

/// The place of an I2C channel, 0x03 to 0x12, among the masters.
pub fn master_place(channel: u8) -> usize {
    usize::from(channel - FIRST_MASTER)
}

/// Whether an I2C command starts a transaction on the bus.
pub fn is_start(command: u8) -> bool {
    let single = matches!(command, 0x82 | 0x86 | 0x8A | 0x8E);
    let read_modify_write = matches!(command, 0xC2 | 0xC6 | 0xCA);
    single || read_modify_write || is_multi_byte(command)
}

/// Whether an I2C command is a start that moves NBYTE bytes.
pub fn is_multi_byte(command: u8) -> bool {
    matches!(command, 0xDA | 0xDE | 0xE2 | 0xE6)
}

impl Master {
    /// A start has had no reply yet. Its code alone tells: in range, TRN and
    /// code are both 0 or both not.
    pub fn busy(&self) -> bool {
        self.command != 0
    }

    /// NBYTE, the bytes of a multi-byte transaction.
    pub fn byte_count(&self) -> usize {
        usize::from(self.control >> 2 & 0x1F)
    }

    /// Whether NBYTE lets a start be made with this command; only multi-byte
    /// ones look at it.
    pub fn can_count(&self, command: u8) -> bool {
        !is_multi_byte(command) || (1..=16).contains(&self.byte_count())
    }
}

/// Whether no field is out of range; otherwise a call gives 6.
pub fn in_range(state: &State) -> bool {
    numbers_in_range(state)
        && no_dead_bit_set(state)
        && disabled_channels_at_zero(state)
        && masters_in_range(state)
}

fn numbers_in_range(state: &State) -> bool {
    state.send <= 7 && state.receive <= 7 && state.active <= 1 && state.id <= MOST_ID
}

fn no_dead_bit_set(state: &State) -> bool {
    state.crb & !CRB_BITS == 0 && state.crd & !CRD_BITS == 0 && state.gpio.intenable <= 1
}

/// Covers the open GO too: it belongs to the SPI channel.
fn disabled_channels_at_zero(state: &State) -> bool {
    (state.spi_enabled() || state.spi == Spi::default())
        && (state.gpio_enabled() || state.gpio == Gpio::default())
}

/// Covers the open start too: it belongs to its master.
fn masters_in_range(state: &State) -> bool {
    let enabled = state.enabled_masters();
    let mut masters = state.masters.iter().enumerate();
    masters.all(|(place, master)| {
        if enabled >> place & 1 == 1 {
            status_in_range(master) && start_in_range(master)
        } else {
            *master == Master::default()
        }
    })
}

fn status_in_range(master: &Master) -> bool {
    master.status & !(SUCC | LEVERR | INVCOM | NOACK) == 0
}

/// Nothing is open, or a start that could have been accepted: a busy master
/// takes no new CTRL, so NBYTE is still the one that its start looked at.
fn start_in_range(master: &Master) -> bool {
    if master.command == 0 {
        return master.transaction == 0;
    }
    master.transaction != 0 && is_start(master.command) && master.can_count(master.command)
}

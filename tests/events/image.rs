//! A state's 411 bytes, field by field, as docs/JOURNAL.md lists them.

use reference::adapter::{Gpio, Master, Spi, State};
use sca::STATE_BYTES;

/// Where the I2C masters stand, and the bytes of each.
pub const MASTERS_AT: usize = 75;
pub const MASTER_BYTES: usize = 21;
/// Where a master's DATA stands in its own bytes.
pub const DATA_AT: usize = 5;

fn word(bytes: &[u8], at: usize) -> u32 {
    u32::from_le_bytes([bytes[at], bytes[at + 1], bytes[at + 2], bytes[at + 3]])
}

fn half(bytes: &[u8], at: usize) -> u16 {
    u16::from_le_bytes([bytes[at], bytes[at + 1]])
}

/// Whether no bit is set that no field has.
fn spelled(bytes: &[u8]) -> bool {
    [3, 4, 74].iter().all(|at| bytes[*at] < 2)
}

/// Where byte k of a master's DATA stands in its own bytes: a word's first byte is its highest, and stands last.
fn data_at(k: usize) -> usize {
    DATA_AT + 4 * (k / 4) + 3 - k % 4
}

fn master_in(bytes: &[u8]) -> Master {
    let mut data = [0; 16];
    for (k, byte) in data.iter_mut().enumerate() {
        *byte = bytes[data_at(k)];
    }
    Master {
        mask: bytes[0],
        control: bytes[1],
        status: bytes[2],
        transaction: bytes[3],
        command: bytes[4],
        data,
    }
}

fn masters_in(bytes: &[u8]) -> [Master; 16] {
    let mut masters = [Master::default(); 16];
    for (master, own) in masters.iter_mut().zip(bytes.chunks(MASTER_BYTES)) {
        *master = master_in(own);
    }
    masters
}

fn bytes_of_master(master: &Master) -> [u8; MASTER_BYTES] {
    let mut bytes = [0; MASTER_BYTES];
    let front = [
        master.mask,
        master.control,
        master.status,
        master.transaction,
        master.command,
    ];
    bytes[..DATA_AT].copy_from_slice(&front);
    for (k, byte) in master.data.iter().enumerate() {
        bytes[data_at(k)] = *byte;
    }
    bytes
}

/// The state that bytes spell; none where they are not 411, or a bit is set that no field has.
pub fn state_in(bytes: &[u8]) -> Option<State> {
    if bytes.len() != STATE_BYTES || !spelled(bytes) {
        return None;
    }
    let words = |at: usize| word(bytes, at);
    Some(State {
        send: bytes[0],
        receive: bytes[1],
        active: bytes[2],
        loopback: [bytes[3] != 0, bytes[4] != 0],
        crb: bytes[5],
        crc: bytes[6],
        crd: bytes[7],
        seu: words(8),
        dac: [bytes[12], bytes[13], bytes[14], bytes[15]],
        id: words(16),
        spi: Spi {
            control: half(bytes, 20),
            frequency: half(bytes, 22),
            slave_select: bytes[24],
            data: [words(25), words(29), words(33), words(37)],
            open_go: Some(bytes[41]).filter(|transaction| *transaction != 0),
        },
        gpio: Gpio {
            dataout: words(42),
            datain: words(46),
            direction: words(50),
            intsel: words(54),
            inttrig: words(58),
            ints: words(62),
            clksel: words(66),
            edgesel: words(70),
            intenable: u32::from(bytes[74]),
        },
        masters: masters_in(&bytes[MASTERS_AT..]),
    })
}

pub fn bytes_of(state: &State) -> Vec<u8> {
    let (spi, gpio) = (&state.spi, &state.gpio);
    let mut bytes = Vec::with_capacity(STATE_BYTES);
    bytes.extend([state.send, state.receive, state.active]);
    bytes.extend(state.loopback.map(u8::from));
    bytes.extend([state.crb, state.crc, state.crd]);
    bytes.extend(state.seu.to_le_bytes());
    bytes.extend(state.dac);
    bytes.extend(state.id.to_le_bytes());
    bytes.extend(spi.control.to_le_bytes());
    bytes.extend(spi.frequency.to_le_bytes());
    bytes.push(spi.slave_select);
    bytes.extend(spi.data.iter().flat_map(|word| word.to_le_bytes()));
    bytes.push(spi.open_go.unwrap_or(0));
    let gpios = [
        gpio.dataout,
        gpio.datain,
        gpio.direction,
        gpio.intsel,
        gpio.inttrig,
        gpio.ints,
        gpio.clksel,
        gpio.edgesel,
    ];
    bytes.extend(gpios.iter().flat_map(|word| word.to_le_bytes()));
    bytes.push(gpio.intenable as u8);
    bytes.extend(state.masters.iter().flat_map(bytes_of_master));
    bytes
}

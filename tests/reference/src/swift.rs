//! The wire once more, still bit by bit but made for speed: content is
//! gathered as it comes, bytes are loaded once, and the checksum uses a table.
//! An independent implementation, written from document 01.

use crate::numbers::*;

/// The most content bits of a frame: a body of 16 bytes and the FCS.
const MOST_CONTENT: usize = 144;
/// The fewest content bits that are not passed over silently.
const LEAST_CONTENT: usize = 32;
/// A flag's first zero and five of its ones are gathered before it is known.
const GATHERED_BYTES: usize = 19;
const MOST_GATHERED: usize = 8 * GATHERED_BYTES;
/// What RFC 1662 leaves in the register after a good frame.
const GOOD_REGISTER: u16 = 0xF0B8;

const TABLE: [u16; 256] = table();

const fn table() -> [u16; 256] {
    let mut table = [0; 256];
    let mut index = 0;
    while index < 256 {
        let mut register = index as u16;
        let mut place = 0;
        while place < 8 {
            let polynomial = if register & 1 == 1 { 0x8408 } else { 0 };
            register = register >> 1 ^ polynomial;
            place += 1;
        }
        table[index] = register;
        index += 1;
    }
    table
}

fn register_after(bytes: &[u8]) -> u16 {
    bytes.iter().fold(0xFFFF, |register: u16, byte| {
        register >> 8 ^ TABLE[usize::from(register as u8 ^ byte)]
    })
}

/// The FCS of a body; its low byte is sent first.
pub fn fcs(body: &[u8]) -> u16 {
    !register_after(body)
}

/// Gathers bits in a word and writes each byte once it is full.
struct Pen<'a> {
    output: &'a mut [u8],
    count: usize,
    word: u32,
    held: u32,
    ones: u32,
}

impl Pen<'_> {
    fn bits(&mut self, bits: u32, width: u32) {
        self.word |= bits << self.held;
        self.held += width;
        while self.held >= 8 {
            self.output[self.count] = self.word as u8;
            self.count += 1;
            self.word >>= 8;
            self.held -= 8;
        }
    }

    fn content(&mut self, byte: u8) {
        let (mut bits, mut width) = (0, 0);
        for place in 0..8 {
            let bit = u32::from(byte) >> place & 1;
            bits |= bit << width;
            width += 1;
            self.ones = (self.ones + 1) * bit;
            if self.ones == 5 {
                width += 1;
                self.ones = 0;
            }
        }
        self.bits(bits, width);
    }

    fn fill_last_byte(&mut self) {
        if self.held > 0 {
            self.bits(0xFF >> self.held, 8 - self.held);
        }
    }
}

/// Frames a body: gives the number and the count of bytes written.
pub fn transmit(body: &[u8], output: &mut [u8]) -> (u8, usize) {
    if body.len() < 2 || body.len() > 16 {
        return (BODY_LENGTH, 0);
    }
    if output.len() < 24 {
        return (SHORT_OUTPUT, 0);
    }
    let mut pen = Pen {
        output,
        count: 0,
        word: 0,
        held: 0,
        ones: 0,
    };
    pen.bits(0x7E, 8);
    body.iter().for_each(|byte| pen.content(*byte));
    fcs(body)
        .to_le_bytes()
        .iter()
        .for_each(|byte| pen.content(*byte));
    pen.bits(0x7E, 8);
    pen.fill_last_byte();
    (FRAME, pen.count)
}

/// The receiver's memory between bits.
#[derive(Clone, Copy, PartialEq, Eq, Debug)]
pub struct Receiver {
    in_frame: bool,
    /// The ones of the present run, up to 7; a run that no zero opened is
    /// taken for one of 7.
    ones: u8,
    /// The bits gathered since the flag, stuffed zeros left out.
    gathered: usize,
    /// The bits gathered before the zero in front of the present run.
    before_zero: usize,
    /// The newest eight bits gathered, the newest on top.
    newest: u8,
    bytes: [u8; GATHERED_BYTES],
}

impl Default for Receiver {
    fn default() -> Self {
        Receiver::new()
    }
}

impl Receiver {
    /// A receiver that has read nothing and hunts for a flag.
    pub fn new() -> Receiver {
        Receiver {
            in_frame: false,
            ones: 7,
            gathered: 0,
            before_zero: 0,
            newest: 0,
            bytes: [0; GATHERED_BYTES],
        }
    }

    /// Reads `input` from bit `start` up to the first answer. Gives the
    /// number, the bits consumed and the length of the body written.
    pub fn receive(&mut self, input: &[u8], start: usize, output: &mut [u8]) -> (u8, usize, usize) {
        if input.len() > 65_536 {
            return (LONG_INPUT, 0, 0);
        }
        if start > 8 * input.len() {
            return (BAD_START, 0, 0);
        }
        if output.len() < 16 {
            return (SHORT_OUTPUT, 0, 0);
        }
        self.read(input, start, output)
    }

    fn read(&mut self, input: &[u8], start: usize, output: &mut [u8]) -> (u8, usize, usize) {
        let mut own = *self;
        let mut consumed = 0;
        let mut skipped = start % 8;
        for byte in &input[start / 8..] {
            let mut bits = byte >> skipped;
            for _ in skipped..8 {
                consumed += 1;
                if let Some((number, length)) = own.take(bits & 1, output) {
                    *self = own;
                    return (number, consumed, length);
                }
                bits >>= 1;
            }
            skipped = 0;
        }
        *self = own;
        (DONE, consumed, 0)
    }

    #[inline(always)]
    fn take(&mut self, bit: u8, output: &mut [u8]) -> Option<(u8, usize)> {
        if bit == 1 {
            self.take_one()
        } else {
            self.take_zero(output)
        }
    }

    #[inline(always)]
    fn take_one(&mut self) -> Option<(u8, usize)> {
        match self.ones {
            0..=4 => {
                self.ones += 1;
                self.gather(0x80);
                None
            }
            5 => {
                self.ones = 6;
                None
            }
            _ => {
                self.ones = 7;
                self.abort()
            }
        }
    }

    #[inline(always)]
    fn take_zero(&mut self, output: &mut [u8]) -> Option<(u8, usize)> {
        let ones = self.ones;
        self.ones = 0;
        if ones == 6 {
            return self.take_flag(output);
        }
        self.before_zero = self.gathered;
        if ones < 5 {
            self.gather(0);
        }
        None
    }

    #[inline(always)]
    fn gather(&mut self, top: u8) {
        if !self.in_frame || self.gathered == MOST_GATHERED {
            return;
        }
        self.newest = self.newest >> 1 | top;
        self.gathered += 1;
        if self.gathered % 8 == 0 {
            self.bytes[self.gathered / 8 - 1] = self.newest;
        }
    }

    /// Five ones of the run were gathered, and the zero if it is content.
    fn abort(&mut self) -> Option<(u8, usize)> {
        let aborted = self.in_frame && self.gathered >= LEAST_CONTENT + 5;
        self.open(false);
        if aborted {
            Some((ABORTED, 0))
        } else {
            None
        }
    }

    fn take_flag(&mut self, output: &mut [u8]) -> Option<(u8, usize)> {
        let decision = if self.in_frame {
            self.judge(output)
        } else {
            None
        };
        self.open(true);
        decision
    }

    fn open(&mut self, in_frame: bool) {
        *self = Receiver {
            in_frame,
            ones: self.ones,
            ..Receiver::new()
        };
    }

    fn judge(&self, output: &mut [u8]) -> Option<(u8, usize)> {
        let count = self.before_zero;
        if count < LEAST_CONTENT {
            return None;
        }
        if count > MOST_CONTENT {
            return Some((TOO_LONG, 0));
        }
        if count % 8 != 0 {
            return Some((NOT_WHOLE_BYTES, 0));
        }
        let bytes = &self.bytes[..count / 8];
        if register_after(bytes) != GOOD_REGISTER {
            return Some((WRONG_FCS, 0));
        }
        let length = bytes.len() - 2;
        output[..length].copy_from_slice(&bytes[..length]);
        Some((FRAME, length))
    }
}

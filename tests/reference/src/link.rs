//! The wire: frames of ISO/IEC 13239 read and written bit by bit.
//! An independent implementation, written from document 01.

use crate::numbers::*;

/// The most content bits of a frame: a body of 16 bytes and the FCS.
const MOST_CONTENT: usize = 144;
/// The fewest content bits that are not passed over silently.
const LEAST_CONTENT: usize = 32;
/// The bytes that hold the most content.
const CONTENT_BYTES: usize = MOST_CONTENT / 8;
/// The longest input that a receiver takes, in bytes.
const MOST_INPUT: usize = 65_536;
/// The bytes that a receiver's output must have.
const RECEIVER_OUTPUT: usize = 16;
/// The bytes that a transmitter's output must have.
const TRANSMITTER_OUTPUT: usize = 24;
/// What RFC 1662 leaves in the register after a good frame.
const GOOD_REGISTER: u16 = 0xF0B8;
/// x^16 + x^12 + x^5 + 1 with the bits turned round.
const POLYNOMIAL: u16 = 0x8408;

/// The checksum register after one more bit.
fn register_after_bit(register: u16, bit: bool) -> u16 {
    let feedback = (register & 1 == 1) != bit;
    let shifted = register >> 1;
    if feedback {
        shifted ^ POLYNOMIAL
    } else {
        shifted
    }
}

/// The checksum register, preset to ones, after all bits of `bytes`.
fn register_after(bytes: &[u8]) -> u16 {
    let mut register = 0xFFFF;
    for byte in bytes {
        for place in 0..8 {
            register = register_after_bit(register, byte >> place & 1 == 1);
        }
    }
    register
}

/// The FCS of a body; its low byte is sent first.
pub fn fcs(body: &[u8]) -> u16 {
    !register_after(body)
}

/// Writes bits, least significant first, at the front of a lent output.
struct Pen<'a> {
    output: &'a mut [u8],
    written: usize,
    ones: u8,
}

impl<'a> Pen<'a> {
    fn new(output: &'a mut [u8]) -> Pen<'a> {
        Pen {
            output,
            written: 0,
            ones: 0,
        }
    }

    fn bit(&mut self, bit: bool) {
        let place = self.written % 8;
        let byte = &mut self.output[self.written / 8];
        if place == 0 {
            *byte = 0;
        }
        *byte |= u8::from(bit) << place;
        self.written += 1;
    }

    fn flag(&mut self) {
        for place in 0..8 {
            self.bit(0x7E >> place & 1 == 1);
        }
        self.ones = 0;
    }

    fn stuffed_bit(&mut self, bit: bool) {
        self.bit(bit);
        self.ones = if bit { self.ones + 1 } else { 0 };
        if self.ones == 5 {
            self.bit(false);
            self.ones = 0;
        }
    }

    fn stuffed_bytes(&mut self, bytes: &[u8]) {
        for byte in bytes {
            for place in 0..8 {
                self.stuffed_bit(byte >> place & 1 == 1);
            }
        }
    }

    fn fill_last_byte(&mut self) {
        while self.written % 8 != 0 {
            self.bit(true);
        }
    }
}

/// Frames a body: gives the number and the count of bytes written.
pub fn transmit(body: &[u8], output: &mut [u8]) -> (u8, usize) {
    if body.len() < 2 || body.len() > 16 {
        return (BODY_LENGTH, 0);
    }
    if output.len() < TRANSMITTER_OUTPUT {
        return (SHORT_OUTPUT, 0);
    }
    let mut pen = Pen::new(output);
    pen.flag();
    pen.stuffed_bytes(body);
    pen.stuffed_bytes(&fcs(body).to_le_bytes());
    pen.flag();
    pen.fill_last_byte();
    (FRAME, pen.written / 8)
}

/// What the zero in front of the present run of ones is.
#[derive(Clone, Copy, PartialEq, Eq, Debug)]
enum Zero {
    /// No zero opens a run that can become a flag: nothing was read before
    /// the run, or it has aborted a frame.
    Missing,
    /// The last zero of a flag.
    OfFlag,
    /// A zero after five ones in a frame.
    Stuffed,
    /// Any other zero: content, if no flag follows.
    Plain,
}

/// The receiver's memory between bits.
#[derive(Clone, PartialEq, Eq, Debug)]
pub struct Receiver {
    /// A flag has opened a frame; otherwise the receiver hunts for one.
    in_frame: bool,
    /// The zero in front of the present run of ones.
    zero: Zero,
    /// The ones of the present run, counted up to 7.
    ones: u8,
    /// The content before `zero`, least significant bit first.
    content: [u8; CONTENT_BYTES],
    /// The content bits before `zero`, counted up to 145.
    count: usize,
}

/// The number and the body's length when a bit decides something.
type Decision = Option<(u8, usize)>;

impl Default for Receiver {
    fn default() -> Self {
        Receiver::new()
    }
}

impl Receiver {
    /// A receiver that has read nothing and hunts for a flag.
    pub fn new() -> Receiver {
        Receiver {
            in_frame: false,
            zero: Zero::Missing,
            ones: 0,
            content: [0; CONTENT_BYTES],
            count: 0,
        }
    }

    /// Reads `input` from bit `start` up to the first answer. Gives the
    /// number, the bits consumed and the length of the body written.
    pub fn receive(&mut self, input: &[u8], start: usize, output: &mut [u8]) -> (u8, usize, usize) {
        if let Some(number) = refusal(input, start, output) {
            return (number, 0, 0);
        }
        let end = 8 * input.len();
        for position in start..end {
            let bit = input[position / 8] >> (position % 8) & 1 == 1;
            if let Some((number, length)) = self.take(bit, output) {
                return (number, position + 1 - start, length);
            }
        }
        (DONE, end - start, 0)
    }

    fn take(&mut self, bit: bool, output: &mut [u8]) -> Decision {
        if bit {
            self.take_one()
        } else {
            self.take_zero(output)
        }
    }

    fn take_one(&mut self) -> Decision {
        if self.ones < 7 {
            self.ones += 1;
        }
        if self.ones < 7 || !self.in_frame {
            return None;
        }
        self.commit_zero();
        let aborted = self.count >= LEAST_CONTENT;
        self.in_frame = false;
        self.zero = Zero::Missing;
        self.clear();
        if aborted {
            Some((ABORTED, 0))
        } else {
            None
        }
    }

    fn take_zero(&mut self, output: &mut [u8]) -> Decision {
        let ones = self.ones;
        self.ones = 0;
        if ones == 6 && self.zero != Zero::Missing {
            return self.take_flag(output);
        }
        if self.in_frame {
            self.commit_zero();
            for _ in 0..ones {
                self.push(true);
            }
        }
        self.zero = if self.in_frame && ones == 5 {
            Zero::Stuffed
        } else {
            Zero::Plain
        };
        None
    }

    /// Closes the frame, if there is one, and opens the next.
    fn take_flag(&mut self, output: &mut [u8]) -> Decision {
        let decision = if self.in_frame {
            self.judge(output)
        } else {
            None
        };
        self.in_frame = true;
        self.zero = Zero::OfFlag;
        self.clear();
        decision
    }

    fn judge(&self, output: &mut [u8]) -> Decision {
        if self.count < LEAST_CONTENT {
            return None;
        }
        if self.count > MOST_CONTENT {
            return Some((TOO_LONG, 0));
        }
        if self.count % 8 != 0 {
            return Some((NOT_WHOLE_BYTES, 0));
        }
        let bytes = &self.content[..self.count / 8];
        if register_after(bytes) != GOOD_REGISTER {
            return Some((WRONG_FCS, 0));
        }
        let length = bytes.len() - 2;
        output[..length].copy_from_slice(&bytes[..length]);
        Some((FRAME, length))
    }

    /// Makes the zero in front of the run content, if it can be that.
    fn commit_zero(&mut self) {
        if self.zero == Zero::Plain {
            self.push(false);
        }
    }

    fn push(&mut self, bit: bool) {
        if self.count < MOST_CONTENT {
            self.content[self.count / 8] |= u8::from(bit) << (self.count % 8);
        }
        if self.count <= MOST_CONTENT {
            self.count += 1;
        }
    }

    fn clear(&mut self) {
        self.content = [0; CONTENT_BYTES];
        self.count = 0;
    }
}

/// The number of a refused receiver call.
fn refusal(input: &[u8], start: usize, output: &[u8]) -> Option<u8> {
    if input.len() > MOST_INPUT {
        Some(LONG_INPUT)
    } else if start > 8 * input.len() {
        Some(BAD_START)
    } else if output.len() < RECEIVER_OUTPUT {
        Some(SHORT_OUTPUT)
    } else {
        None
    }
}

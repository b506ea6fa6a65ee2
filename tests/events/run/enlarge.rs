//! An enlarging on both sides. The independent implementation says its number and what it keeps, docs/JOURNAL.md the
//! bytes.

use super::{same, same_bytes, Both, Checked, Pair};
use crate::fault::{EnlargeFault, Fault};
use crate::harness::output::Output;
use crate::ring::{front, Ring, FIRST, KEPT, LARGE, SLOT, SMALL, VERSION};
use reference::adapter;
use reference::numbers::{BAD_JOURNAL, DONE, SHORT_OUTPUT};
use sca::{boundary, LARGE_JOURNAL_BYTES};

/// What a second buffer holds before, as a number says: zeros, ones, or bytes of any kind, every other time with the
/// front of a large journal that is full.
fn second(length: usize, held: u32) -> Vec<u8> {
    let any = |at: usize| ((at as u32 ^ held).wrapping_mul(0x9E37_79B1) >> 24) as u8;
    let mut bytes: Vec<u8> = match held % 4 {
        0 => vec![0x00; length],
        1 => vec![0xFF; length],
        _ => (0..length).map(any).collect(),
    };
    let front = front(2, held as u8 % LARGE as u8, LARGE as u8);
    if held % 4 == 2 && length > front.len() {
        bytes[..front.len()].copy_from_slice(&front);
    }
    bytes
}

/// The second buffer, lent between bytes that nobody may touch.
fn lent(bytes: &[u8]) -> Output {
    let mut output = Output::new(bytes.len());
    output.lent().copy_from_slice(bytes);
    output
}

/// The second buffer of our side, what it held before, and the number of our side.
struct Ours {
    second: Output,
    before: Vec<u8>,
    number: u64,
}

impl Both<'_> {
    pub(super) fn enlarge(&mut self, pair: &mut Pair, length: usize, held: u32) -> Checked {
        let found = pair.found();
        let (number, larger) = adapter::enlarge(&pair.earlier, length);
        let before = second(length, held);
        let mut ours = Ours {
            second: lent(&before),
            before,
            number: 0,
        };
        ours.number = boundary::sca_enlarge(&pair.journal, ours.second.lent());
        let expected = match number {
            DONE => pair.ring.enlarged(&ours.before),
            _ => Ring(ours.before.clone()),
        };
        self.tally.journals.enlarging(&found, length, number);
        match number {
            DONE => self.break_enlarging(pair, &mut ours),
            _ => self.break_refused(pair, &mut ours, number),
        }
        same("the number", ours.number, u64::from(number))?;
        same_bytes("the first journal", &pair.journal, &pair.ring.0)?;
        same_bytes("the second journal", ours.second.lent(), &expected.0)?;
        same_bytes(
            "around the second journal",
            &ours.second.bytes,
            &lent(&expected.0).bytes,
        )?;
        if let Some(larger) = larger {
            pair.enlarge(ours.second.lent().to_vec(), expected, larger);
        }
        Ok(())
    }

    fn lay_in(&mut self, fault: EnlargeFault, applies: bool) -> bool {
        self.lay(Fault::Enlarge(fault), applies)
    }

    /// After an enlarging that was done.
    fn break_enlarging(&mut self, pair: &mut Pair, ours: &mut Ours) {
        let (first, kept) = (pair.ring.first(), pair.ring.kept());
        let second = ours.second.lent();
        if self.lay_in(EnlargeFault::Number, true) {
            ours.number += 1;
        }
        if self.lay_in(EnlargeFault::FirstChanged, true) {
            pair.journal[KEPT] ^= 1;
        }
        if self.lay_in(EnlargeFault::SlotOfFirstChanged, kept > 0) {
            pair.journal[pair.ring.slot(0) + SLOT - 1] ^= 1;
        }
        if self.lay_in(EnlargeFault::KeptTooHigh, true) {
            second[KEPT] += 1;
        }
        if self.lay_in(EnlargeFault::KeptTooLow, kept > 0) {
            second[KEPT] -= 1;
        }
        if self.lay_in(EnlargeFault::Version, true) {
            second[VERSION] = 1;
        }
        if self.lay_in(EnlargeFault::FirstKept, first > 0) {
            second[FIRST] = first as u8;
        }
        if self.lay_in(EnlargeFault::OldestForgotten, kept > 1) {
            copy(second, &ours.before, &pair.ring, 1..kept);
        }
        if self.lay_in(EnlargeFault::NewestForgotten, kept > 1) {
            copy(second, &ours.before, &pair.ring, 0..kept - 1);
        }
        if self.lay_in(EnlargeFault::RingOrder, first > 0 && kept > 1) {
            copy(second, &ours.before, &pair.ring, SMALL - first..SMALL - first + kept);
        }
        if self.lay_in(EnlargeFault::BehindRecord, kept > 0) {
            let last = pair.ring.enlarged(&ours.before).newest_at() + SLOT - 1;
            second[last] = !second[last];
        }
        if self.lay_in(EnlargeFault::BehindKept, true) {
            second[pair.ring.enlarged(&ours.before).slot(kept)] ^= 1;
        }
        if self.lay_in(EnlargeFault::Unused, true) {
            second[7] ^= 1;
        }
        if self.lay_in(EnlargeFault::OutsideSecond, true) {
            *ours.second.bytes.last_mut().unwrap() ^= 1;
        }
    }

    fn break_refused(&mut self, pair: &mut Pair, ours: &mut Ours, number: u8) {
        let length = ours.before.len();
        let second = ours.second.lent();
        let refused_large = number == BAD_JOURNAL && pair.ring.well_formed() && length == LARGE_JOURNAL_BYTES;
        if self.lay_in(EnlargeFault::LargeTaken, refused_large) {
            second.copy_from_slice(&pair.ring.0);
            ours.number = u64::from(DONE);
        }
        if self.lay_in(
            EnlargeFault::LongerTaken,
            number == SHORT_OUTPUT && length > LARGE_JOURNAL_BYTES,
        ) {
            ours.number = boundary::sca_enlarge(&pair.journal, &mut second[..LARGE_JOURNAL_BYTES]);
        }
        if self.lay_in(
            EnlargeFault::SecondFirst,
            number == BAD_JOURNAL && length != LARGE_JOURNAL_BYTES,
        ) {
            ours.number = u64::from(SHORT_OUTPUT);
        }
        if self.lay_in(EnlargeFault::RefusedSecond, length > 0) {
            second[length - 1] ^= 1;
        }
        if self.lay_in(EnlargeFault::RefusedFirst, pair.journal.len() > KEPT) {
            pair.journal[KEPT] ^= 1;
        }
    }
}

/// A second buffer with some of the first one's slots, from the front on: those that come so many after its first.
fn copy(second: &mut [u8], before: &[u8], first: &Ring, slots: std::ops::Range<usize>) {
    let mut large = Ring(before.to_vec());
    large.empty();
    large.0[KEPT] = slots.len() as u8;
    for (to, from) in slots.enumerate() {
        large.copy_slot(to, first, from);
    }
    second.copy_from_slice(&large.0);
}

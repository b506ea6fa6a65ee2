//! A lent output between bytes that nobody may touch.

use super::hex::Hex;
use std::fmt;

#[derive(Clone, PartialEq, Eq)]
pub struct Output {
    pub bytes: Vec<u8>,
}

const GUARD: usize = 8;

impl Output {
    pub fn new(room: usize) -> Output {
        let pattern = |at: usize| (at * 37) as u8 ^ 0x5A;
        Output {
            bytes: (0..GUARD + room + GUARD).map(pattern).collect(),
        }
    }

    pub fn lent(&mut self) -> &mut [u8] {
        let end = self.bytes.len() - GUARD;
        &mut self.bytes[GUARD..end]
    }
}

impl fmt::Debug for Output {
    fn fmt(&self, out: &mut fmt::Formatter) -> fmt::Result {
        let (before, rest) = self.bytes.split_at(GUARD);
        let (lent, behind) = rest.split_at(rest.len() - GUARD);
        write!(out, "{}[{}]{}", Hex(before), Hex(lent), Hex(behind))
    }
}

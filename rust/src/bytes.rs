//! A few bytes, as a call writes them.

use crate::sizes::{BATCH_LEAST, BODY_MOST, CABLE_MOST, REPLY_BYTES};
use std::fmt;
use std::iter::FusedIterator;
use std::ops::Deref;

/// The body of a frame: address, control and information.
pub type Body = Bytes<BODY_MOST>;
/// A frame on the cable: flags, stuffed content, and ones to fill the last byte.
pub type Frame = Bytes<CABLE_MOST>;

/// At most so many bytes, read as a slice.
#[derive(Clone, Copy)]
pub struct Bytes<const MOST: usize> {
    bytes: [u8; MOST],
    length: usize,
}

impl<const MOST: usize> Bytes<MOST> {
    /// The first bytes of what a call wrote.
    pub(crate) fn front(bytes: [u8; MOST], length: usize) -> Bytes<MOST> {
        Bytes { bytes, length }
    }
}

impl<const MOST: usize> Deref for Bytes<MOST> {
    type Target = [u8];

    fn deref(&self) -> &[u8] {
        &self.bytes[..self.length]
    }
}

impl<const MOST: usize> PartialEq for Bytes<MOST> {
    fn eq(&self, other: &Bytes<MOST>) -> bool {
        self[..] == other[..]
    }
}

impl<const MOST: usize> Eq for Bytes<MOST> {}

impl<const MOST: usize> fmt::Debug for Bytes<MOST> {
    fn fmt(&self, out: &mut fmt::Formatter) -> fmt::Result {
        write!(out, "{:02x?}", &self[..])
    }
}

/// The bodies that a batch sends, the first one first: an iterator over those that are left.
#[derive(Clone)]
pub struct Bodies {
    bytes: [u8; BATCH_LEAST],
    /// How many were taken, and how many there were.
    taken: usize,
    count: usize,
}

impl Bodies {
    /// The first bodies of what a batch wrote.
    pub(crate) fn front(bytes: [u8; BATCH_LEAST], count: usize) -> Bodies {
        Bodies { bytes, taken: 0, count }
    }

    /// The bytes of those that are left.
    fn left(&self) -> &[u8] {
        &self.bytes[REPLY_BYTES * self.taken..REPLY_BYTES * self.count]
    }
}

impl Iterator for Bodies {
    type Item = Body;

    fn next(&mut self) -> Option<Body> {
        let first = self.left().get(..REPLY_BYTES)?;
        let mut bytes = [0; BODY_MOST];
        bytes[..REPLY_BYTES].copy_from_slice(first);
        self.taken += 1;
        Some(Body::front(bytes, REPLY_BYTES))
    }

    fn size_hint(&self) -> (usize, Option<usize>) {
        let left = self.count - self.taken;
        (left, Some(left))
    }
}

impl ExactSizeIterator for Bodies {}
impl FusedIterator for Bodies {}

impl PartialEq for Bodies {
    fn eq(&self, other: &Bodies) -> bool {
        self.left() == other.left()
    }
}

impl Eq for Bodies {}

impl fmt::Debug for Bodies {
    fn fmt(&self, out: &mut fmt::Formatter) -> fmt::Result {
        out.debug_list().entries(self.clone()).finish()
    }
}

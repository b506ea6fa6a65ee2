//! Bytes as text.

use std::fmt;

/// Bytes as pairs of hex digits; none as a dash.
pub struct Hex<'a>(pub &'a [u8]);

impl fmt::Display for Hex<'_> {
    fn fmt(&self, out: &mut fmt::Formatter) -> fmt::Result {
        if self.0.is_empty() {
            return write!(out, "-");
        }
        self.0.iter().try_for_each(|byte| write!(out, "{:02x}", byte))
    }
}

/// The bytes that such text spells.
pub fn bytes_in(text: &str) -> Option<Vec<u8>> {
    if text == "-" {
        return Some(Vec::new());
    }
    if text.len() % 2 != 0 || !text.is_ascii() {
        return None;
    }
    (0..text.len() / 2)
        .map(|at| u8::from_str_radix(&text[2 * at..2 * at + 2], 16).ok())
        .collect()
}

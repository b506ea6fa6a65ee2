//! What the library has, held to what it should have.

use super::hex::Hex;

pub type Checked = Result<(), String>;

pub fn same<T: PartialEq + std::fmt::Debug>(what: &str, ours: T, expected: T) -> Checked {
    if ours == expected {
        Ok(())
    } else {
        Err(format!("{}: the library has {:?}, expected {:?}", what, ours, expected))
    }
}

/// The same for many bytes, of which the first that differ are shown.
#[allow(dead_code)] // not every comparison has so many
pub fn same_bytes(what: &str, ours: &[u8], expected: &[u8]) -> Checked {
    if ours == expected {
        return Ok(());
    }
    let at = ours.iter().zip(expected).take_while(|(ours, due)| ours == due).count();
    let some = |bytes: &[u8]| Hex(&bytes[at..bytes.len().min(at + 8)]).to_string();
    let place = format!("{} differs from byte {} on", what, at);
    same(&place, some(ours), some(expected))
}

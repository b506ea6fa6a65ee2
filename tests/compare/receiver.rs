//! A receiver's bytes as docs/RECEIVER.md spells them.

use crate::bits::{bits_of, stuffed, FLAG};
use sca::RECEIVER_BYTES;

const MODE: usize = 0;
const ONES: usize = 1;
const LEAD: usize = 2;
const COUNT: usize = 3;
const CONTENT: usize = 4;

/// Whether the document's ranges hold; any other receiver is refused with 6.
pub fn in_range(receiver: &[u8]) -> bool {
    receiver.len() == RECEIVER_BYTES && fields_in_range(receiver) && clear_after_content(receiver)
}

fn fields_in_range(receiver: &[u8]) -> bool {
    let (mode, ones, lead, count) = (receiver[MODE], receiver[ONES], receiver[LEAD], receiver[COUNT]);
    match mode {
        0 => ones <= 7 && lead == 0 && count == 0,
        1 => ones <= 6 && lead <= 1 && count <= 152 && lead + ones.min(5) <= count,
        _ => false,
    }
}

fn clear_after_content(receiver: &[u8]) -> bool {
    let content = bits_of(&receiver[CONTENT..]);
    content[usize::from(receiver[COUNT])..].iter().all(|bit| !bit)
}

/// Cable bits that bring a new receiver, in range as it is, to these bytes, if any bits do: the caller
/// sees whether they did. The content was stuffed by its sender; of the run at its end five ones are
/// content, the zero after the fifth has not come yet, and a sixth is not kept.
pub fn way_to(receiver: &[u8]) -> Vec<bool> {
    let ones = receiver[ONES];
    let mut way = Vec::new();
    if receiver[MODE] == 0 {
        if ones < 7 {
            way.push(false);
            way.resize(1 + usize::from(ones), true);
        }
        return way;
    }
    let content = bits_of(&receiver[CONTENT..]);
    way.extend(FLAG);
    way.extend(stuffed(&content[..usize::from(receiver[COUNT])]));
    if ones >= 5 {
        way.pop();
    }
    if ones == 6 {
        way.push(true);
    }
    way
}

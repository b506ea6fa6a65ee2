//! Bits as they go over the cable: least significant first.

pub const FLAG: [bool; 8] = [false, true, true, true, true, true, true, false];

pub fn bits_of(bytes: &[u8]) -> Vec<bool> {
    bytes
        .iter()
        .flat_map(|byte| (0..8).map(move |place| byte >> place & 1 == 1))
        .collect()
}

/// The bits at the end of whole bytes, and the bit that they start at. Each bit before that one is `before`.
pub fn buffer_of(bits: &[bool], before: bool) -> (Vec<u8>, usize) {
    let length = (bits.len() + 7) / 8;
    let start = 8 * length - bits.len();
    let mut bytes = vec![0; length];
    for place in 0..8 * length {
        let bit = if place < start { before } else { bits[place - start] };
        bytes[place / 8] |= u8::from(bit) << (place % 8);
    }
    (bytes, start)
}

/// Content with a zero after each five ones, as a sender stuffs it.
pub fn stuffed(content: &[bool]) -> Vec<bool> {
    let mut bits = Vec::new();
    let mut ones = 0;
    for bit in content {
        bits.push(*bit);
        ones = if *bit { ones + 1 } else { 0 };
        if ones == 5 {
            bits.push(false);
            ones = 0;
        }
    }
    bits
}

/// Content without the zeros that a sender inserted.
pub fn destuffed(bits: &[bool]) -> Vec<bool> {
    let mut content = Vec::new();
    let mut ones = 0;
    for bit in bits {
        if ones < 5 {
            content.push(*bit);
        }
        ones = if *bit { ones + 1 } else { 0 };
    }
    content
}

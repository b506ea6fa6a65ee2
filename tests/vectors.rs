//! Published vectors, read off the bytes that sca_transmit writes.

#![forbid(unsafe_code)]

#[path = "compare/bits.rs"]
#[allow(dead_code)]
mod bits;

use bits::{bits_of, destuffed, FLAG};
use std::process::ExitCode;

/// The stuffed bits between the flags of a body's frame, as text.
fn between_flags(body: &[u8]) -> String {
    let mut output = [0; 24];
    let sent = sca::boundary::sca_transmit(body, &mut output);
    let mut frame = bits_of(&output[..sent.count]);
    while frame.last() == Some(&true) {
        frame.pop();
    }
    assert_eq!(sent.number, 0, "the body is sent");
    assert_eq!(frame[..8], FLAG, "the opening flag");
    assert_eq!(frame[frame.len() - 8..], FLAG, "the closing flag");
    let text = |bit: &bool| if *bit { '1' } else { '0' };
    frame[8..frame.len() - 8].iter().map(text).collect()
}

/// The FCS of a body's frame: the last two bytes between the flags, the low one first.
fn fcs(body: &[u8]) -> u16 {
    let raw: Vec<bool> = between_flags(body).chars().map(|bit| bit == '1').collect();
    let content = destuffed(&raw);
    assert_eq!(content[..8 * body.len()], bits_of(body)[..], "the body comes first");
    assert_eq!(content.len(), 8 * body.len() + 16, "and the FCS after it");
    let bits = &content[8 * body.len()..];
    bits.iter().rev().fold(0, |value, bit| 2 * value + u16::from(*bit))
}

fn main() -> ExitCode {
    let checks = [
        (
            "CRC-16/X-25 of \"123456789\" is 0x906E",
            format!("{:#06X}", fcs(b"123456789")) == "0x906E",
        ),
        (
            "FF stuffs to 111110111",
            between_flags(&[0xFF, 0x00]).starts_with("11111011100000000"),
        ),
        (
            "7E stuffs to 011111010",
            between_flags(&[0x7E, 0x00]).starts_with("01111101000000000"),
        ),
        (
            "a run goes on from byte to byte",
            between_flags(&[0xE0, 0x03]).starts_with("00000111110000000"),
        ),
    ];
    for (what, holds) in &checks {
        println!("{} {}", if *holds { "ok  " } else { "FAIL" }, what);
    }
    ExitCode::from(u8::from(!checks.iter().all(|(_, holds)| *holds)))
}

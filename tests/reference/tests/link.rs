//! Tests of the link: published vectors, edges, round trips, and a comparison
//! with a reading of the whole bit stream by the definition of a flag.
//! An independent implementation, written from document 01.

use reference::link::{fcs, transmit, Receiver};
use reference::swift;

/// A small generator of repeatable numbers (xorshift).
struct Chance(u64);

impl Chance {
    fn next(&mut self) -> u64 {
        self.0 ^= self.0 << 13;
        self.0 ^= self.0 >> 7;
        self.0 ^= self.0 << 17;
        self.0 >> 16
    }

    fn below(&mut self, bound: usize) -> usize {
        (self.next() % bound as u64) as usize
    }

    fn bytes(&mut self, length: usize) -> Vec<u8> {
        (0..length).map(|_| self.next() as u8).collect()
    }
}

fn bits_of(text: &str) -> Vec<bool> {
    text.chars()
        .filter(|sign| *sign != ' ')
        .map(|sign| sign == '1')
        .collect()
}

fn bits_of_bytes(bytes: &[u8]) -> Vec<bool> {
    let mut bits = Vec::new();
    for byte in bytes {
        for place in 0..8 {
            bits.push(byte >> place & 1 == 1);
        }
    }
    bits
}

fn text_of(bits: &[bool]) -> String {
    bits.iter()
        .map(|bit| if *bit { '1' } else { '0' })
        .collect()
}

/// Whole bytes; the last is filled with zeros.
fn bytes_of(bits: &[bool]) -> Vec<u8> {
    let mut bytes = vec![0; (bits.len() + 7) / 8];
    for (place, bit) in bits.iter().enumerate() {
        bytes[place / 8] |= u8::from(*bit) << (place % 8);
    }
    bytes
}

fn stuffed(content: &[bool]) -> Vec<bool> {
    let mut bits = Vec::new();
    let mut ones = 0;
    for bit in content {
        bits.push(*bit);
        ones = if *bit { ones + 1 } else { 0 };
        if ones == 5 {
            bits.push(false);
            ones = 0;
        }
    }
    bits
}

fn with_fcs(body: &[u8]) -> Vec<u8> {
    let mut bytes = body.to_vec();
    bytes.extend_from_slice(&fcs(body).to_le_bytes());
    bytes
}

/// An answer: the bits of the stream up to it, its number, its body.
type Answer = (usize, u8, Vec<u8>);

/// Every answer of a receiver to a stream, each call reading on.
fn answers(receiver: &mut Receiver, bits: &[bool]) -> Vec<Answer> {
    let bytes = bytes_of(bits);
    let mut found = Vec::new();
    let mut start = 0;
    loop {
        let mut output = [0xA5; 16];
        let (number, consumed, length) = receiver.receive(&bytes, start, &mut output);
        start += consumed;
        assert!(output[length..].iter().all(|byte| *byte == 0xA5));
        if number == 17 {
            assert_eq!((start, length), (8 * bytes.len(), 0));
            return found;
        }
        found.push((start, number, output[..length].to_vec()));
    }
}

fn numbers(text: &str) -> Vec<u8> {
    let found = answers(&mut Receiver::new(), &bits_of(text));
    found.iter().map(|answer| answer.1).collect()
}

fn unstuffed(raw: &[bool]) -> Vec<bool> {
    let mut content = Vec::new();
    let mut ones = 0;
    for bit in raw {
        if ones != 5 {
            content.push(*bit);
        }
        ones = if *bit { ones + 1 } else { 0 };
    }
    content
}

/// The answer at a flag, by the content before it.
fn judged(content: &[bool]) -> Option<(u8, Vec<u8>)> {
    if content.len() < 32 {
        return None;
    }
    if content.len() > 144 {
        return Some((21, vec![]));
    }
    if content.len() % 8 != 0 {
        return Some((22, vec![]));
    }
    let bytes = bytes_of(content);
    let body = &bytes[..bytes.len() - 2];
    if with_fcs(body) != bytes {
        return Some((23, vec![]));
    }
    Some((0, body.to_vec()))
}

/// The answers to a whole stream, by the places of flags and seventh ones.
fn answers_by_definition(bits: &[bool]) -> Vec<Answer> {
    let flag = bits_of("01111110");
    let mut found = Vec::new();
    let mut open: Option<usize> = None;
    for end in 1..=bits.len() {
        let read = &bits[..end];
        if read.ends_with(&flag) {
            if let Some(from) = open {
                let raw = if end - 8 > from {
                    &bits[from..end - 8]
                } else {
                    &[]
                };
                if let Some((number, body)) = judged(&unstuffed(raw)) {
                    found.push((end, number, body));
                }
            }
            open = Some(end);
        }
        if read.ends_with(&[true; 7]) {
            if let Some(from) = open {
                if unstuffed(&bits[from..end - 7]).len() >= 32 {
                    found.push((end, 24, vec![]));
                }
            }
            open = None;
        }
    }
    found
}

const FLAG: &str = "01111110";

#[test]
fn published_checksums() {
    assert_eq!(fcs(b"123456789"), 0x906E);
    assert_eq!(fcs(b""), 0x0000);
    assert_eq!(fcs(&[0x00]), 0xF078);
    assert_eq!(fcs(b"A"), 0xA3F5);
}

#[test]
fn published_stuffing() {
    assert_eq!(text_of(&stuffed(&bits_of_bytes(&[0xFF]))), "111110111");
    assert_eq!(text_of(&stuffed(&bits_of_bytes(&[0x7E]))), "011111010");
}

#[test]
fn transmitted_bits() {
    for body in [&[0xFF, 0x00, 0x7E][..], &[0, 0], &[0xFF; 16], &[0x7E; 16]] {
        let mut output = [0x5A; 30];
        let (number, count) = transmit(body, &mut output);
        let content = text_of(&stuffed(&bits_of_bytes(&with_fcs(body))));
        let mut wanted = format!("{}{}{}", FLAG, content, FLAG);
        while wanted.len() % 8 != 0 {
            wanted.push('1');
        }
        assert_eq!((number, count), (0, wanted.len() / 8));
        assert_eq!(text_of(&bits_of_bytes(&output[..count])), wanted);
        assert!(output[count..].iter().all(|byte| *byte == 0x5A));
    }
}

#[test]
fn stuffed_vectors_on_the_cable() {
    let mut output = [0; 24];
    transmit(&[0xFF, 0x00], &mut output);
    assert_eq!(
        &text_of(&bits_of_bytes(&output))[..25],
        "0111111011111011100000000"
    );
    transmit(&[0x7E, 0x00], &mut output);
    assert_eq!(
        &text_of(&bits_of_bytes(&output))[..25],
        "0111111001111101000000000"
    );
}

#[test]
fn transmitter_refusals_in_order() {
    for length in [0, 1, 17, 40] {
        let mut output = [7; 23];
        assert_eq!(transmit(&vec![0; length], &mut output), (2, 0));
        assert_eq!(output, [7; 23]);
    }
    let mut output = [7; 23];
    assert_eq!(transmit(&[0, 0], &mut output), (1, 0));
    assert_eq!(output, [7; 23]);
    assert_eq!(transmit(&[0; 16], &mut [0; 24]).0, 0);
}

#[test]
fn receiver_refusals_in_order() {
    let long = vec![0; 65_537];
    let mut receiver = Receiver::new();
    let mut output = [7; 15];
    assert_eq!(receiver.receive(&long, usize::MAX, &mut output), (8, 0, 0));
    assert_eq!(receiver.receive(&long[..2], 17, &mut output), (9, 0, 0));
    assert_eq!(receiver.receive(&[], 1, &mut output), (9, 0, 0));
    assert_eq!(receiver.receive(&long[..2], 16, &mut output), (1, 0, 0));
    assert_eq!(receiver.receive(&[], 0, &mut output), (1, 0, 0));
    assert_eq!((receiver, output), (Receiver::new(), [7; 15]));
    let mut output = [7; 16];
    let mut receiver = Receiver::new();
    assert_eq!(receiver.receive(&long[..2], 16, &mut output), (17, 0, 0));
    assert_eq!(receiver, Receiver::new());
    assert_eq!(
        receiver.receive(&long[..65_536], 0, &mut output),
        (17, 524_288, 0)
    );
}

#[test]
fn every_length_comes_back() {
    let mut chance = Chance(11);
    for length in 2..=16 {
        for turn in 0..300 {
            let body = match turn {
                0 => vec![0xFF; length],
                1 => vec![0x00; length],
                2 => vec![0x7E; length],
                _ => chance.bytes(length),
            };
            let mut cable = [0; 24];
            let (number, count) = transmit(&body, &mut cable);
            assert_eq!(number, 0);
            let mut output = [0; 16];
            let got = Receiver::new().receive(&cable[..count], 0, &mut output);
            assert_eq!((got.0, got.2), (0, length));
            assert_eq!(output[..length], body[..]);
            assert!(8 * count - got.1 < 8);
        }
    }
}

#[test]
fn frames_on_one_cable_and_silent_padding() {
    let mut chance = Chance(12);
    let mut cable = Vec::new();
    let mut bodies = Vec::new();
    for _ in 0..200 {
        let length = 2 + chance.below(15);
        let body = chance.bytes(length);
        let mut part = [0; 24];
        let (_, count) = transmit(&body, &mut part);
        cable.extend_from_slice(&part[..count]);
        bodies.push(body);
    }
    let found = answers(&mut Receiver::new(), &bits_of_bytes(&cable));
    let got: Vec<Vec<u8>> = found.iter().map(|answer| answer.2.clone()).collect();
    assert!(found.iter().all(|answer| answer.1 == 0));
    assert_eq!(got, bodies);
}

#[test]
fn one_flag_closes_and_opens() {
    let first = text_of(&stuffed(&bits_of_bytes(&with_fcs(&[1, 2, 3]))));
    let second = text_of(&stuffed(&bits_of_bytes(&with_fcs(&[4, 5]))));
    let line = [FLAG, &first, FLAG, &second, FLAG].concat();
    let found = answers(&mut Receiver::new(), &bits_of(&line));
    assert_eq!(found[0], (16 + first.len(), 0, vec![1, 2, 3]));
    assert_eq!(found[1], (24 + first.len() + second.len(), 0, vec![4, 5]));
}

#[test]
fn flags_that_share_a_zero_enclose_nothing() {
    let content = text_of(&stuffed(&bits_of_bytes(&with_fcs(&[9, 9]))));
    let line = [
        "0111111", "0111111", "01111110", &content, "0111111", "01111110",
    ]
    .concat();
    let found = answers(&mut Receiver::new(), &bits_of(&line));
    assert_eq!(found, vec![(22 + content.len() + 8, 0, vec![9, 9])]);
}

#[test]
fn six_ones_without_a_zero_in_front_are_no_flag() {
    let content = text_of(&stuffed(&bits_of_bytes(&with_fcs(&[9, 9]))));
    let line = ["1111110", &content, FLAG].concat();
    assert_eq!(numbers(&line), vec![]);
    let line = ["01111110", "1111111", "1111110", &content, FLAG].concat();
    assert_eq!(numbers(&line), vec![]);
    let line = ["0", "1111110", &content, FLAG].concat();
    assert_eq!(numbers(&line), vec![0]);
}

#[test]
fn judged_in_order() {
    for (length, wanted) in [
        (24, vec![]),
        (31, vec![]),
        (32, vec![23]),
        (33, vec![22]),
        (39, vec![22]),
        (143, vec![22]),
        (144, vec![23]),
        (145, vec![21]),
        (152, vec![21]),
        (5000, vec![21]),
    ] {
        let line = [FLAG, &"0".repeat(length), FLAG].concat();
        assert_eq!(numbers(&line), wanted, "{} bits", length);
    }
}

#[test]
fn aborts_need_32_content_bits_before_the_run() {
    let seven = "1111111";
    for (content, wanted) in [
        ("0".repeat(31), vec![]),
        ("0".repeat(32), vec![24]),
        ("1".to_string() + &"0".repeat(31), vec![24]),
        ("1".to_string() + &"0".repeat(30), vec![]),
        // The zero in front of the run is a stuffed one.
        ("0".repeat(26) + "111110", vec![]),
        ("0".repeat(27) + "111110", vec![24]),
        ("0".repeat(5000), vec![24]),
        (String::new(), vec![]),
    ] {
        let line = [FLAG, &content, seven, "11111", "0"].concat();
        assert_eq!(numbers(&line), wanted, "{}", content);
    }
    assert_eq!(numbers(&["0".repeat(40).as_str(), seven].concat()), vec![]);
}

#[test]
fn an_abort_is_decided_at_the_seventh_one() {
    let line = [FLAG, &"0".repeat(40), "1111111", "111"].concat();
    let found = answers(&mut Receiver::new(), &bits_of(&line));
    assert_eq!(found, vec![(8 + 40 + 7, 24, vec![])]);
}

#[test]
fn a_stuffed_zero_may_open_a_flag() {
    // 27 zeros and five ones are 32 bits; the zero after them is the flag's.
    let line = [FLAG, &"0".repeat(27), "11111", FLAG].concat();
    assert_eq!(numbers(&line), vec![23]);
    // With a stuffed zero before the flag the content is the same.
    let line = [FLAG, &"0".repeat(27), "11111", "0", FLAG].concat();
    assert_eq!(numbers(&line), vec![23]);
    let line = [FLAG, &"0".repeat(26), "11111", FLAG].concat();
    assert_eq!(numbers(&line), vec![]);
}

#[test]
fn a_dropped_frame_s_flag_opens_the_next() {
    let good = text_of(&stuffed(&bits_of_bytes(&with_fcs(&[1, 2]))));
    for bad in [40, 41, 145] {
        let line = [FLAG, &"0".repeat(bad), FLAG, &good, FLAG].concat();
        assert_eq!(numbers(&line)[1], 0);
    }
    let line = [FLAG, &"0".repeat(40), "1111111", "0", &good, FLAG].concat();
    assert_eq!(numbers(&line), vec![24]);
}

#[test]
fn a_wrong_bit_is_never_read_as_good() {
    let body = [0x00, 0x20, 1, 0, 4, 2, 0, 4, 0, 0];
    let content = bits_of_bytes(&with_fcs(&body));
    for place in 0..content.len() {
        let mut wrong = content.clone();
        wrong[place] = !wrong[place];
        let line = [FLAG, &text_of(&stuffed(&wrong)), FLAG].concat();
        assert_eq!(numbers(&line), vec![23]);
    }
}

/// A stream with frames, broken frames, flags, long runs and noise.
fn lively_stream(chance: &mut Chance) -> Vec<bool> {
    let mut bits = Vec::new();
    for _ in 0..1 + chance.below(12) {
        match chance.below(7) {
            0 | 1 => {
                let length = 2 + chance.below(16);
                let body = chance.bytes(length);
                bits.extend(stuffed(&bits_of_bytes(&with_fcs(&body))));
            }
            2 | 3 => bits.extend(bits_of(FLAG)),
            4 => bits.extend(bits_of("1111110")),
            5 => bits.extend(vec![true; chance.below(15)]),
            _ => {
                let length = chance.below(60);
                bits.extend((0..length).map(|_| chance.next() & 3 != 0));
            }
        }
    }
    while bits.len() % 8 != 0 {
        bits.push(chance.next() & 1 == 1);
    }
    bits
}

#[test]
fn agrees_with_the_definition() {
    let mut chance = Chance(13);
    let mut seen = [0; 25];
    for _ in 0..20_000 {
        let bits = lively_stream(&mut chance);
        let wanted = answers_by_definition(&bits);
        let found = answers(&mut Receiver::new(), &bits);
        assert_eq!(found, wanted, "{}", text_of(&bits));
        found.iter().for_each(|answer| seen[answer.1 as usize] += 1);
    }
    for number in [0, 21, 22, 23, 24] {
        assert!(
            seen[number] > 50,
            "{} was seen {} times",
            number,
            seen[number]
        );
    }
}

#[test]
fn every_short_stream_after_a_frame_s_content_agrees() {
    for tail in 0..1u32 << 16 {
        let mut bits = bits_of("01111110 0000000000000000000000000000");
        bits.extend((0..20).map(|place| tail >> (place % 16) & 1 == 1));
        assert_eq!(
            answers(&mut Receiver::new(), &bits),
            answers_by_definition(&bits)
        );
    }
}

#[test]
fn cuts_between_calls_change_nothing() {
    let mut chance = Chance(14);
    for _ in 0..3_000 {
        let bits = lively_stream(&mut chance);
        let bytes = bytes_of(&bits);
        let mut whole = Receiver::new();
        let wanted = answers(&mut whole, &bits);
        let mut parts = Receiver::new();
        let mut found = Vec::new();
        let mut from = 0;
        while from < bytes.len() {
            let to = from + 1 + chance.below(bytes.len() - from);
            for answer in answers(&mut parts, &bits[8 * from..8 * to]) {
                found.push((8 * from + answer.0, answer.1, answer.2));
            }
            from = to;
        }
        assert_eq!(found, wanted);
        assert_eq!(parts, whole);
    }
}

#[test]
fn the_swift_transmitter_writes_the_same() {
    let mut chance = Chance(15);
    for turn in 0..20_000 {
        let length = chance.below(18);
        let mut body = chance.bytes(length);
        if turn % 2 == 0 {
            body.iter_mut()
                .for_each(|byte| *byte |= chance.next() as u8);
        }
        let room = 23 + chance.below(3);
        let (mut plain, mut fast) = (vec![9; room], vec![9; room]);
        assert_eq!(
            transmit(&body, &mut plain),
            swift::transmit(&body, &mut fast)
        );
        assert_eq!((plain, fcs(&body)), (fast, swift::fcs(&body)));
    }
}

#[test]
fn the_swift_receiver_reads_the_same() {
    let mut chance = Chance(16);
    let (mut plain, mut fast) = (Receiver::new(), swift::Receiver::new());
    for turn in 0..40_000 {
        if turn % 7 == 0 {
            plain = Receiver::new();
            fast = swift::Receiver::new();
        }
        let bytes = bytes_of(&lively_stream(&mut chance));
        let mut start = chance.below(10);
        loop {
            let room = if chance.below(50) == 0 { 15 } else { 16 };
            let (mut one, mut other) = (vec![3; room], vec![3; room]);
            let given = plain.receive(&bytes, start, &mut one);
            assert_eq!(given, fast.receive(&bytes, start, &mut other));
            assert_eq!(one, other);
            start += given.1;
            if given.0 == 17 || given.0 == 9 {
                break;
            }
        }
    }
}

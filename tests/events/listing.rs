//! Random bench listings: the events of runs, with lines among them that cannot be read.

use crate::calls::Call;
use crate::harness::chance::Chance;
use crate::streams::stream;
use reference::adapter::{self, Journal, Size, State};

/// The chip of the bench program. Its journal is a large one.
const ID: u32 = 0x00_000A;
/// The runs that one listing is made of.
const RUNS: usize = 6;

/// A listing; its last line may lack the LF.
pub fn listing(chance: &mut Chance) -> Vec<u8> {
    let mut player = Player {
        state: State::power_on(ID),
        journal: Journal::sized(Size::Large),
    };
    let mut text = Vec::new();
    for _ in 0..RUNS {
        for call in stream(chance) {
            if let Some(line) = player.line(&call) {
                text.extend(in_either_case(chance, line));
                text.push(b'\n');
            }
            if chance.once_in(12) {
                text.extend(unreadable(chance));
                text.push(b'\n');
            }
        }
    }
    if chance.once_in(2) {
        text.pop();
    }
    text
}

/// Plays the lines as it writes them, so that requests are in sequence.
struct Player {
    state: State,
    journal: Journal,
}

impl Player {
    /// The line of a call; none where a listing has no such line.
    fn line(&mut self, call: &Call) -> Option<String> {
        let (state, journal, mut output) = (&mut self.state, &mut self.journal, [0; 16]);
        match call.found_by(state) {
            Call::Frame { port, body, .. } if port <= 9 && !body.is_empty() => {
                adapter::frame(state, journal, port, &body, &mut output);
                Some(format!("F {} {}", port, hex(&body)))
            }
            Call::Completion { received, .. } if received.len() == 16 => {
                adapter::completion(state, journal, &received, &mut output);
                Some(format!("S {}", hex(&received)))
            }
            Call::I2cCompletion {
                channel,
                acknowledge,
                line_low,
                received,
                ..
            } if channel <= 0xFF && acknowledge <= 1 && line_low <= 1 => {
                adapter::i2c_completion(state, journal, channel, acknowledge, line_low, &received, &mut output);
                let line = format!("I {:02x} {} {}", channel, acknowledge, line_low);
                Some(if received.is_empty() {
                    line
                } else {
                    format!("{} {}", line, hex(&received))
                })
            }
            Call::Sample { levels, kind, .. } if kind <= 9 => {
                adapter::sample(state, journal, levels, kind, &mut output);
                Some(format!("P {:08x} {}", levels, kind))
            }
            Call::Upset { .. } => {
                adapter::upset(state, journal, &mut output);
                Some("U".to_string())
            }
            Call::StepBack => {
                adapter::step_back(state, journal);
                Some("B".to_string())
            }
            _ => None,
        }
    }
}

fn hex(bytes: &[u8]) -> String {
    bytes.iter().map(|byte| format!("{:02x}", byte)).collect()
}

/// Hex digits may be of either case; the event's own letter is as it is.
fn in_either_case(chance: &mut Chance, line: String) -> Vec<u8> {
    let mut text = line.into_bytes();
    if chance.once_in(4) {
        text.iter_mut().for_each(|sign| {
            if chance.once_in(2) {
                sign.make_ascii_uppercase();
            }
        });
    }
    text
}

/// A line that is none: nearly one, or of any bytes.
fn unreadable(chance: &mut Chance) -> Vec<u8> {
    const LINES: [&str; 55] = [
        "",
        " ",
        "F",
        "F 0",
        "F 0 ",
        "F  0 002f",
        "F 0  002f",
        "F 0 002f ",
        " F 0 002f",
        "F 0 002",
        "F 0 00 2f",
        "F 00 002f",
        "F -1 002f",
        "F a 002f",
        "f 0 002f",
        "F\t0 002f",
        "F 0 002f\r",
        "F 0 0x2f",
        "F 0 00g0",
        "S",
        "S 00",
        "S 0000000000000000000000000000000",
        "S 000000000000000000000000000000000",
        "I",
        "I 03",
        "I 03 1",
        "I 03 1 ",
        "I 03 1 0 ",
        "I 3 1 0",
        "I 003 1 0",
        "I 0x03 1 0",
        "I 0g 1 0",
        "I 03 2 0",
        "I 03 1 2",
        "I 03 a 0",
        "I 03 -1 0",
        "I 03 01 0",
        "I 03 1 00",
        "I  03 1 0",
        "I 03  1 0",
        "I 03 1  0",
        "I 03 1 0  11",
        "I 03 1 0 1",
        "I 03 1 0 111",
        "I 03 1 0 11 22",
        "I 03 1 0 1g",
        "I03 1 0",
        "i 03 1 0",
        "P 0000000 0",
        "P 000000000 0",
        "P 00000000",
        "P 00000000 00",
        "U ",
        "u",
        "BB",
    ];
    match chance.below(8) {
        0 => {
            let length = chance.between(81, 300);
            let mut line = b"F 0 ".to_vec();
            line.resize(length, b'0');
            line
        }
        1 => {
            let length = chance.below(100);
            let mut line = chance.bytes(length);
            line.retain(|byte| *byte != b'\n');
            line.insert(0, b'#');
            line
        }
        _ => LINES[chance.below(LINES.len())].as_bytes().to_vec(),
    }
}

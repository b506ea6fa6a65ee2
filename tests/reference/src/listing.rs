//! The bench listing: a text of events is played, one line of answer each.
//! An independent implementation, written from document 01 and change
//! requests 2026-01 to 2026-03, 2026-05 and 2026-06.

use crate::adapter::{self, Answer, Journal, Size, State};
use crate::numbers::{FRAME, UNREADABLE};

/// The chip ID of the program's adapter.
const ID: u32 = 0x00_000A;
/// The most characters of a line.
const MOST_CHARACTERS: usize = 80;

/// What a readable line says.
#[derive(Clone, PartialEq, Eq, Debug)]
enum Line {
    Frame { port: u32, body: Vec<u8> },
    Completion { received: Vec<u8> },
    I2cCompletion(Transaction),
    Sample { levels: u32, kind: u32 },
    Upset,
    StepBack,
}

/// What a line says of an I2C transaction that is complete.
#[derive(Clone, PartialEq, Eq, Debug)]
struct Transaction {
    channel: u32,
    acknowledge: u32,
    line_low: u32,
    received: Vec<u8>,
}

/// The output of the program for an input; its journal is a large one.
pub fn played(input: &[u8]) -> Vec<u8> {
    let mut state = State::power_on(ID);
    let mut journal = Journal::sized(Size::Large);
    let mut printed = Vec::new();
    for line in lines(input) {
        play_line(&mut state, &mut journal, line, &mut printed);
    }
    printed
}

/// The lines without their LF; the last may lack it.
fn lines(input: &[u8]) -> impl Iterator<Item = &[u8]> {
    input
        .split_inclusive(|byte| *byte == b'\n')
        .map(|line| line.strip_suffix(b"\n").unwrap_or(line))
}

fn play_line(state: &mut State, journal: &mut Journal, line: &[u8], printed: &mut Vec<u8>) {
    let mut output = [0; 16];
    let answer = match read_line(line) {
        Some(line) => call(state, journal, &line, &mut output),
        None => plain(UNREADABLE),
    };
    let (_, kept) = adapter::kept(journal);
    let mut text = format!("{} {}", answer.number, kept);
    if answer.number == FRAME {
        text += &format!(" {} {}", answer.port, hex(&output[..answer.length]));
    }
    printed.extend_from_slice(text.as_bytes());
    printed.push(b'\n');
}

fn plain(number: u8) -> Answer {
    Answer {
        number,
        port: 0,
        length: 0,
    }
}

fn call(state: &mut State, journal: &mut Journal, line: &Line, output: &mut [u8]) -> Answer {
    match line {
        Line::Frame { port, body } => adapter::frame(state, journal, *port, body, output),
        Line::Completion { received } => adapter::completion(state, journal, received, output),
        Line::I2cCompletion(transaction) => call_i2c(state, journal, transaction, output),
        Line::Sample { levels, kind } => adapter::sample(state, journal, *levels, *kind, output),
        Line::Upset => adapter::upset(state, journal, output),
        Line::StepBack => plain(adapter::step_back(state, journal)),
    }
}

fn call_i2c(
    state: &mut State,
    journal: &mut Journal,
    transaction: &Transaction,
    output: &mut [u8],
) -> Answer {
    adapter::i2c_completion(
        state,
        journal,
        transaction.channel,
        transaction.acknowledge,
        transaction.line_low,
        &transaction.received,
        output,
    )
}

/// What a line says; none if it is not readable.
fn read_line(line: &[u8]) -> Option<Line> {
    if line.len() > MOST_CHARACTERS {
        return None;
    }
    let fields: Vec<&[u8]> = line.split(|byte| *byte == b' ').collect();
    match fields[..] {
        [b"F", port, body] => read_frame(port, body),
        [b"S", received] => read_completion(received),
        [b"I", channel, acknowledge, line_low] => {
            read_i2c(channel, acknowledge, line_low, Vec::new())
        }
        [b"I", channel, acknowledge, line_low, received] => {
            read_i2c(channel, acknowledge, line_low, some_bytes(received)?)
        }
        [b"P", levels, kind] => read_sample(levels, kind),
        [b"U"] => Some(Line::Upset),
        [b"B"] => Some(Line::StepBack),
        _ => None,
    }
}

fn read_frame(port: &[u8], body: &[u8]) -> Option<Line> {
    let port = digit(port)?;
    let body = some_bytes(body)?;
    Some(Line::Frame { port, body })
}

fn read_completion(received: &[u8]) -> Option<Line> {
    let received = bytes(received)?;
    if received.len() != 16 {
        return None;
    }
    Some(Line::Completion { received })
}

/// A channel that is not I2C, or too many bytes, is for the call to refuse.
fn read_i2c(channel: &[u8], acknowledge: &[u8], low: &[u8], received: Vec<u8>) -> Option<Line> {
    Some(Line::I2cCompletion(Transaction {
        channel: u32::from(pair(channel)?),
        acknowledge: bit(acknowledge)?,
        line_low: bit(low)?,
        received,
    }))
}

/// The top digit of the levels comes first.
fn read_sample(levels: &[u8], kind: &[u8]) -> Option<Line> {
    let levels = <[u8; 4]>::try_from(bytes(levels)?).ok()?;
    Some(Line::Sample {
        levels: u32::from_be_bytes(levels),
        kind: digit(kind)?,
    })
}

/// A field of one decimal digit.
fn digit(field: &[u8]) -> Option<u32> {
    match field {
        [sign @ b'0'..=b'9'] => Some(u32::from(sign - b'0')),
        _ => None,
    }
}

/// A field of one bit.
fn bit(field: &[u8]) -> Option<u32> {
    digit(field).filter(|digit| *digit <= 1)
}

/// A field of hex digits, at least one pair.
fn some_bytes(field: &[u8]) -> Option<Vec<u8>> {
    bytes(field).filter(|bytes| !bytes.is_empty())
}

/// A field of hex digits in pairs.
fn bytes(field: &[u8]) -> Option<Vec<u8>> {
    field.chunks(2).map(pair).collect()
}

fn pair(signs: &[u8]) -> Option<u8> {
    match signs {
        [high, low] => Some(16 * hex_digit(*high)? + hex_digit(*low)?),
        _ => None,
    }
}

fn hex_digit(sign: u8) -> Option<u8> {
    match sign {
        b'0'..=b'9' => Some(sign - b'0'),
        b'a'..=b'f' => Some(sign - b'a' + 10),
        b'A'..=b'F' => Some(sign - b'A' + 10),
        _ => None,
    }
}

fn hex(bytes: &[u8]) -> String {
    bytes.iter().map(|byte| format!("{:02x}", byte)).collect()
}

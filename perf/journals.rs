//! The library with a large journal beside the library with a small one, both full: 200 kept and 64.
//!
//! What is compared is what the calls do, not what the memory behind them costs. Events go round the slots, and those
//! of a large journal may be too many for the nearest cache where those of a small one are not. So each row but those
//! that say it keeps to one slot, the same in both journals: after each call the bytes of the header that it moved are
//! put back, so that the journal is full at each. Both journals begin with a page of memory, and the same code runs on
//! both.

use crate::rows::{compare, title};
use crate::{requests, sum, Requests, EVENTS};
use sca::boundary::{sca_create, sca_empty, sca_frame, sca_kept, sca_samples, sca_step_back, RawSample};
use sca::{
    BATCH_LEAST, JOURNAL_BYTES, KEPT_MOST, LARGE_JOURNAL_BYTES, LARGE_KEPT_MOST, OUTPUT_LEAST, SAMPLES_MOST,
    STATE_BYTES,
};
use std::time::Instant;

const PAGE: usize = 4_096;
/// Where a journal has its first slot, and its kept number.
const FIRST: usize = 5;
const KEPT: usize = 6;

/// The events: what is written, and its channel, LEN and command. Their records are of each length that there is.
const WRITES: [(&str, u8, u8, u8); 4] = [
    ("a DAC written, record of 17 bytes", 0x15, 4, 0x10),
    ("an I2C register, record of 80 bytes", 0x10, 4, 0x40),
    ("a GPIO register, record of 177 bytes", 0x02, 4, 0x10),
    ("an I2C register, record of 185 bytes", 0x08, 4, 0x40),
];

/// A journal that is full, and the state that went with it, in which frame 0 is due.
struct Full {
    state: [u8; STATE_BYTES],
    memory: Vec<u8>,
    from: usize,
    length: usize,
    most: usize,
}

impl Full {
    /// Filled with these events, and one more: the newest is in slot 0, the oldest in slot 1.
    fn new(length: usize, most: usize, writes: &Requests) -> Full {
        let memory = vec![0; length + PAGE];
        let from = memory.as_ptr().align_offset(PAGE);
        let mut full = Full {
            state: all_on(),
            memory,
            from,
            length,
            most,
        };
        let (mut state, journal) = (full.state, full.journal());
        sca_empty(journal);
        for event in 0..most + 1 {
            write(&mut state, journal, &writes[event % 8]);
        }
        assert_eq!(
            (sca_kept(journal).kept, journal[FIRST]),
            (most, 1),
            "the journal is full"
        );
        full.state = connected(state);
        full
    }

    fn journal(&mut self) -> &mut [u8] {
        &mut self.memory[self.from..self.from + self.length]
    }
}

/// A large journal and a small one.
fn both(writes: &Requests) -> [Full; 2] {
    [
        Full::new(LARGE_JOURNAL_BYTES, LARGE_KEPT_MOST, writes),
        Full::new(JOURNAL_BYTES, KEPT_MOST, writes),
    ]
}

/// A state with all channels enabled and frame 0 due.
fn all_on() -> [u8; STATE_BYTES] {
    let (mut state, mut journal) = ([0; STATE_BYTES], vec![0; JOURNAL_BYTES]);
    sca_create(&mut state, 10);
    sca_empty(&mut journal);
    for (number, command) in [0x02, 0x04, 0x06].into_iter().enumerate() {
        let body = [
            0x00,
            2 * number as u8,
            0x01,
            0x00,
            0x04,
            command,
            0x00,
            0xFF,
            0x00,
            0x00,
        ];
        write(&mut state, &mut journal, &body);
    }
    connected(state)
}

/// After a CONNECT that no journal keeps.
fn connected(mut state: [u8; STATE_BYTES]) -> [u8; STATE_BYTES] {
    let mut journal = vec![0; JOURNAL_BYTES];
    sca_empty(&mut journal);
    write(&mut state, &mut journal, &[0x00, 0x2F]);
    state
}

fn write(state: &mut [u8], journal: &mut [u8], body: &[u8]) -> usize {
    let mut output = [0; OUTPUT_LEAST];
    let answer = sca_frame(state, journal, 0, body, &mut output);
    sum(answer.number, &output)
}

/// Nanoseconds of each of so many, and the sum. Not inlined, so that state and output stand in the same place for both.
#[inline(never)]
fn timed(full: &mut Full, count: usize, mut one: impl FnMut(&mut [u8], &mut [u8], usize) -> usize) -> (f64, usize) {
    let mut state = full.state;
    let journal = full.journal();
    let begin = Instant::now();
    let sum = (0..count).map(|nth| one(&mut state, journal, nth)).sum();
    (begin.elapsed().as_nanos() as f64 / count as f64, sum)
}

/// Events at a full journal, into one slot.
fn events(full: &mut Full, writes: &Requests) -> (f64, usize) {
    timed(full, EVENTS, |state, journal, nth| {
        let sum = write(state, journal, &writes[nth % 8]);
        journal[FIRST] = 1;
        sum
    })
}

/// Events at a full journal, round its slots.
fn events_round(full: &mut Full, writes: &Requests) -> (f64, usize) {
    let timed = timed(full, EVENTS, |state, journal, nth| {
        write(state, journal, &writes[nth % 8])
    });
    full.journal()[FIRST] = 1;
    timed
}

/// Steps back at a full journal, each over the record of slot 0.
fn steps_back(full: &mut Full) -> (f64, usize) {
    let most = full.most as u8;
    timed(full, EVENTS, |state, journal, _| {
        let number = sca_step_back(state, journal).number;
        journal[KEPT] = most;
        usize::from(number)
    })
}

/// An event and its step back, each at a full journal.
fn there_and_back(full: &mut Full, writes: &Requests) -> (f64, usize) {
    let most = full.most as u8;
    timed(full, EVENTS, |state, journal, _| {
        let sum = write(state, journal, &writes[0]);
        let number = sca_step_back(state, journal).number;
        journal[FIRST] = 1;
        journal[KEPT] = most;
        sum + usize::from(number)
    })
}

/// Samples in batches, round the slots.
fn batches(full: &mut Full, list: &[RawSample]) -> (f64, usize) {
    let (time, sum) = timed(full, EVENTS / SAMPLES_MOST, |state, journal, _| {
        let mut output = [0; BATCH_LEAST];
        usize::from(sca_samples(state, journal, list, &mut output).number)
    });
    full.journal()[FIRST] = 1;
    (time / SAMPLES_MOST as f64, sum)
}

/// What both sides do is the same, so a ratio far from 1 is a cost that goes with the size.
pub fn compare_sizes() {
    println!(
        "The library alone, with a full large journal, {} kept, and a full small one, {} kept.",
        LARGE_KEPT_MOST, KEPT_MOST
    );
    println!("A ratio of 0.9 to 1.1: it costs the same. Rows round the slots have the cache's part in them.");
    title("large", "small", "small/large");
    for (what, channel, length, command) in WRITES {
        let writes = requests([0x05, channel, length, command, 0x12, 0x34, 0x56, 0x78]);
        let [mut large, mut small] = both(&writes);
        compare(what, || events(&mut large, &writes), || events(&mut small, &writes));
        compare(
            "  and its step back",
            || there_and_back(&mut large, &writes),
            || there_and_back(&mut small, &writes),
        );
        compare(
            "  the step back alone",
            || steps_back(&mut large),
            || steps_back(&mut small),
        );
        compare(
            "  the event, round the slots",
            || events_round(&mut large, &writes),
            || events_round(&mut small, &writes),
        );
    }
    let list: Vec<RawSample> = (0..SAMPLES_MOST as u32)
        .map(|levels| RawSample { levels, kind: 0 })
        .collect();
    let [mut large, mut small] = both(&requests([0x05, 0x02, 4, 0x10, 0x12, 0x34, 0x56, 0x78]));
    compare(
        "samples in batches, round the slots",
        || batches(&mut large, &list),
        || batches(&mut small, &list),
    );
}

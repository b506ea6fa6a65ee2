//! Measures, in one run on the same events, the library's adapter beside the independent one with its own undo; the
//! library's batches of pin samples beside its own single calls; and the library with a large journal beside itself
//! with a small one.

#![forbid(unsafe_code)]

mod journals;
mod rows;

use reference::adapter::{self, Journal, State};
use rows::{compare, title, ROUNDS};
use sca::boundary::{self, RawSample};
use sca::{BATCH_LEAST, JOURNAL_BYTES, LARGE_JOURNAL_BYTES, REPLY_BYTES, SAMPLES_MOST, STATE_BYTES};
use std::time::Instant;

/// Events in a round.
const EVENTS: usize = 4_096;
/// Adapters that a round of steps back takes one step of.
const ADAPTERS: usize = 32;
/// The most events that a journal keeps.
const FULL: usize = 64;
/// Enlargings in a round.
const ENLARGINGS: usize = 128;
/// The I2C master of the measurements, one of those with the longest record.
const MASTER: u8 = 0x08;

/// A request for each receive number, so that they are in sequence round after round.
type Requests = Vec<[u8; 10]>;

fn requests(information: [u8; 8]) -> Requests {
    let request = |number: u8| {
        let mut body = [0; 10];
        body[1] = number << 1;
        body[2..].copy_from_slice(&information);
        body
    };
    (0..8).map(request).collect()
}

#[derive(Clone)]
struct Ours {
    state: [u8; STATE_BYTES],
    journal: Vec<u8>,
}

#[derive(Clone)]
struct Theirs {
    state: State,
    journal: Journal,
}

/// A batch of 256 samples by the system clock, as each side takes it.
struct Probe {
    ours: Vec<RawSample>,
    theirs: Vec<adapter::Sample>,
}

impl Probe {
    /// The levels count up from 1, each held for so many samples. All lines interrupt on rising: so does every first sample of a
    /// level, also where the batch begins again.
    fn held(samples: usize) -> Probe {
        let levels = || (0..SAMPLES_MOST).map(move |at| (at / samples + 1) as u32);
        Probe {
            ours: levels().map(|levels| RawSample { levels, kind: 0 }).collect(),
            theirs: levels().map(|levels| adapter::Sample { levels, kind: 0 }).collect(),
        }
    }
}

/// What both can do; each call gives a sum over what it wrote, so that both are seen to do the same.
trait Side: Clone {
    fn new() -> Self;
    fn frame(&mut self, body: &[u8]) -> usize;
    fn sample(&mut self, levels: u32) -> usize;
    /// The interrupts of a batch, and a sum over them.
    fn batch(&mut self, probe: &Probe) -> (usize, usize);
    /// The end of a read on the master, which gets 16 bytes.
    fn i2c_completion(&mut self) -> usize;
    fn step_back(&mut self) -> usize;
}

impl Side for Ours {
    fn new() -> Ours {
        let (mut state, mut journal) = ([0; STATE_BYTES], vec![0; JOURNAL_BYTES]);
        boundary::sca_create(&mut state, 10);
        boundary::sca_empty(&mut journal);
        Ours { state, journal }
    }

    fn frame(&mut self, body: &[u8]) -> usize {
        let mut output = [0; 16];
        let answer = boundary::sca_frame(&mut self.state, &mut self.journal, 0, body, &mut output);
        sum(answer.number, &output)
    }

    fn sample(&mut self, levels: u32) -> usize {
        let mut output = [0; 16];
        let answer = boundary::sca_sample(&mut self.state, &mut self.journal, levels, 0, &mut output);
        sum(answer.number, &output)
    }

    fn batch(&mut self, probe: &Probe) -> (usize, usize) {
        let mut output = [0; BATCH_LEAST];
        let answer = boundary::sca_samples(&mut self.state, &mut self.journal, &probe.ours, &mut output);
        (answer.frames, sum_of_bodies(&output, answer.frames))
    }

    fn i2c_completion(&mut self) -> usize {
        let (mut output, channel) = ([0; 16], u32::from(MASTER));
        let (state, journal) = (&mut self.state, &mut self.journal);
        let answer = boundary::sca_i2c_completion(state, journal, channel, 1, 0, &RECEIVED, &mut output);
        sum(answer.number, &output)
    }

    fn step_back(&mut self) -> usize {
        usize::from(boundary::sca_step_back(&mut self.state, &mut self.journal).number)
    }
}

impl Side for Theirs {
    fn new() -> Theirs {
        Theirs {
            state: State::power_on(10),
            journal: Journal::new(),
        }
    }

    fn frame(&mut self, body: &[u8]) -> usize {
        let mut output = [0; 16];
        let answer = adapter::frame(&mut self.state, &mut self.journal, 0, body, &mut output);
        sum(answer.number, &output)
    }

    fn sample(&mut self, levels: u32) -> usize {
        let mut output = [0; 16];
        let answer = adapter::sample(&mut self.state, &mut self.journal, levels, 0, &mut output);
        sum(answer.number, &output)
    }

    fn batch(&mut self, probe: &Probe) -> (usize, usize) {
        let mut output = [0; BATCH_LEAST];
        let answer = adapter::sample_batch(&mut self.state, &mut self.journal, &probe.theirs, &mut output);
        (answer.frames, sum_of_bodies(&output, answer.frames))
    }

    fn i2c_completion(&mut self) -> usize {
        let (mut output, channel) = ([0; 16], u32::from(MASTER));
        let (state, journal) = (&mut self.state, &mut self.journal);
        let answer = adapter::i2c_completion(state, journal, channel, 1, 0, &RECEIVED, &mut output);
        sum(answer.number, &output)
    }

    fn step_back(&mut self) -> usize {
        usize::from(adapter::step_back(&mut self.state, &mut self.journal))
    }
}

const RECEIVED: [u8; 16] = *b"sixteen I2C data";

fn sum(number: u8, output: &[u8]) -> usize {
    usize::from(number) + usize::from(output[1]) + usize::from(output[4]) + usize::from(output[8])
}

fn sum_of_body(body: &[u8]) -> usize {
    usize::from(body[1]) + usize::from(body[8])
}

fn sum_of_bodies(output: &[u8], frames: usize) -> usize {
    output.chunks(REPLY_BYTES).take(frames).map(sum_of_body).sum()
}

/// An adapter with SPI and GPIO on, all lines with interrupts on rising, and a full journal.
fn ready<S: Side>() -> S {
    let mut side = S::new();
    side.frame(&[0x00, 0x00, 0x01, 0x00, 0x04, 0x02, 0x00, 0x06, 0x00, 0x00]);
    side.frame(&[0x00, 0x02, 0x02, 0x02, 0x04, 0x30, 0xFF, 0xFF, 0xFF, 0xFF]);
    side.frame(&[0x00, 0x04, 0x03, 0x02, 0x04, 0x40, 0xFF, 0xFF, 0xFF, 0xFF]);
    side.frame(&[0x00, 0x06, 0x04, 0x02, 0x04, 0x60, 0x00, 0x00, 0x01, 0x00]);
    filled(side, 4)
}

/// The same with the eight masters that CRC enables, one of them set for 16 bytes.
fn ready_masters<S: Side>() -> S {
    let mut side = in_sequence(ready::<S>());
    side.frame(&[0x00, 0x00, 0x04, 0x00, 0x04, 0x04, 0x00, 0xFF, 0x00, 0x00]);
    side.frame(&[0x00, 0x02, 0x05, MASTER, 0x01, 0x30, 0x00, 0x40, 0x00, 0x00]);
    filled(side, 2)
}

/// Reads until the journal is full, the frame of this number next.
fn filled<S: Side>(mut side: S, next: usize) -> S {
    let requests = requests([0x04, 0x02, 0x01, 0x11, 0x00, 0x00, 0x00, 0x00]);
    for event in next..next + FULL + 5 {
        side.frame(&requests[event % 8]);
    }
    side
}

/// Nanoseconds an event, and the sum.
fn frames<S: Side>(side: &mut S, requests: &Requests) -> (f64, usize) {
    let begin = Instant::now();
    let sum = (0..EVENTS).map(|event| side.frame(&requests[event % 8])).sum();
    (begin.elapsed().as_nanos() as f64 / EVENTS as f64, sum)
}

fn samples<S: Side>(side: &mut S) -> (f64, usize) {
    let begin = Instant::now();
    let sum = (0..EVENTS).map(|event| side.sample(event as u32)).sum();
    (begin.elapsed().as_nanos() as f64 / EVENTS as f64, sum)
}

/// A batch over and over, of as many samples in all.
fn batches<S: Side>(side: &mut S, probe: &Probe) -> (f64, usize) {
    let begin = Instant::now();
    let sum = (0..EVENTS / SAMPLES_MOST).map(|_| side.batch(probe).1).sum();
    (begin.elapsed().as_nanos() as f64 / EVENTS as f64, sum)
}

/// The same samples, each by a call of its own.
fn one_by_one(side: &mut Ours, probe: &Probe) -> (f64, usize) {
    let begin = Instant::now();
    let mut sum = 0;
    for _ in 0..EVENTS / SAMPLES_MOST {
        for RawSample { levels, kind } in &probe.ours {
            let mut output = [0; 16];
            let answer = boundary::sca_sample(&mut side.state, &mut side.journal, *levels, *kind, &mut output);
            if answer.number == 0 {
                sum += sum_of_body(&output);
            }
        }
    }
    (begin.elapsed().as_nanos() as f64 / EVENTS as f64, sum)
}

/// An I2C start and its completion, over and over.
fn transactions<S: Side>(side: &mut S, starts: &Requests) -> (f64, usize) {
    let begin = Instant::now();
    let both = |event: usize| side.frame(&starts[event % 8]) + side.i2c_completion();
    let sum = (0..EVENTS).map(both).sum();
    (begin.elapsed().as_nanos() as f64 / EVENTS as f64, sum)
}

/// The same, and a step back over each of the two.
fn transactions_and_back<S: Side>(side: &mut S, start: &[u8]) -> (f64, usize) {
    let begin = Instant::now();
    let all = |_| side.frame(start) + side.i2c_completion() + side.step_back() + side.step_back();
    let sum = (0..EVENTS).map(all).sum();
    (begin.elapsed().as_nanos() as f64 / EVENTS as f64, sum)
}

/// An event and its step back, over and over; each step back is at a full journal.
fn there_and_back<S: Side>(side: &mut S, request: &[u8]) -> (f64, usize) {
    let begin = Instant::now();
    let sum = (0..EVENTS).map(|_| side.frame(request) + side.step_back()).sum();
    (begin.elapsed().as_nanos() as f64 / EVENTS as f64, sum)
}

/// One step back of each adapter, all of them with full journals.
fn steps_back<S: Side>(side: &S) -> (f64, usize) {
    let mut sides = vec![side.clone(); ADAPTERS];
    let begin = Instant::now();
    let sum = sides.iter_mut().map(|side| side.step_back()).sum();
    (begin.elapsed().as_nanos() as f64 / ADAPTERS as f64, sum)
}

/// Frames of one request over and over, both journals full.
fn compare_frames(what: &str, channel: u8, length: u8, command: u8) {
    compare_frames_on(
        what,
        (ready(), ready()),
        [0x05, channel, length, command, 0x12, 0x34, 0x56, 0x78],
    );
}

fn compare_frames_on(what: &str, (ours, theirs): (Ours, Theirs), request: [u8; 8]) {
    let requests = requests(request);
    let (mut ours, mut theirs) = (in_sequence(ours), in_sequence(theirs));
    compare(what, || frames(&mut ours, &requests), || frames(&mut theirs, &requests));
}

/// A frame and its step back over and over, both journals full.
fn compare_back(what: &str, (ours, theirs): (Ours, Theirs), channel: u8, length: u8, command: u8) {
    let request = requests([0x05, channel, length, command, 0x12, 0x34, 0x56, 0x78])[0];
    let (mut ours, mut theirs) = (in_sequence(ours), in_sequence(theirs));
    compare(
        what,
        || there_and_back(&mut ours, &request),
        || there_and_back(&mut theirs, &request),
    );
}

/// I2C reads of 16 bytes, to their ends, and back again.
fn compare_transactions() {
    let starts = requests([0x05, MASTER, 0x04, 0xDE, 0x00, 0x50, 0x00, 0x00]);
    let (mut ours, mut theirs) = (
        in_sequence(ready_masters::<Ours>()),
        in_sequence(ready_masters::<Theirs>()),
    );
    compare(
        "I2C start and its completion",
        || transactions(&mut ours, &starts),
        || transactions(&mut theirs, &starts),
    );
    let (mut ours, mut theirs) = (
        in_sequence(ready_masters::<Ours>()),
        in_sequence(ready_masters::<Theirs>()),
    );
    compare(
        "I2C start and its completion, and back twice",
        || transactions_and_back(&mut ours, &starts[0]),
        || transactions_and_back(&mut theirs, &starts[0]),
    );
}

/// A full journal made large, into the same second buffer over and over; the independent one makes a new one each time.
fn compare_enlarging() {
    let (ours, theirs) = (ready::<Ours>(), ready::<Theirs>());
    let mut second = vec![0; LARGE_JOURNAL_BYTES];
    let by_library = || {
        let begin = Instant::now();
        let sum = (0..ENLARGINGS)
            .map(|_| boundary::sca_enlarge(&ours.journal, &mut second) as usize + boundary::sca_kept(&second).kept)
            .sum();
        (begin.elapsed().as_nanos() as f64 / ENLARGINGS as f64, sum)
    };
    let by_reference = || {
        let begin = Instant::now();
        let sum = (0..ENLARGINGS)
            .map(|_| {
                let (number, large) = adapter::enlarge(&theirs.journal, LARGE_JOURNAL_BYTES);
                usize::from(number) + large.map_or(0, |large| adapter::kept(&large).1)
            })
            .sum();
        (begin.elapsed().as_nanos() as f64 / ENLARGINGS as f64, sum)
    };
    compare("enlarging, 64 kept", by_library, by_reference);
}

/// How many samples of a batch interrupt: on both sides the same, the first time and again.
fn interrupts(probe: &Probe) -> usize {
    let (mut ours, mut theirs) = (ready::<Ours>(), ready::<Theirs>());
    let (frames, _) = ours.batch(probe);
    assert!(frames > 0, "a batch that is measured interrupts");
    for (again, _) in [ours.batch(probe), theirs.batch(probe), theirs.batch(probe)] {
        assert_eq!(again, frames, "a batch interrupts as often again");
    }
    frames
}

/// Batches of which every sample interrupts, and every 16th, each with its name.
fn probes() -> [(String, Probe); 2] {
    [1, 16].map(|samples| {
        let probe = Probe::held(samples);
        let name = format!("batch of {} samples, {} interrupt", SAMPLES_MOST, interrupts(&probe));
        (name, probe)
    })
}

fn compare_batches() {
    for (what, probe) in &probes() {
        let (mut ours, mut theirs) = (ready::<Ours>(), ready::<Theirs>());
        compare(what, || batches(&mut ours, probe), || batches(&mut theirs, probe));
    }
}

/// The library's batches beside its own single calls.
fn compare_with_single_calls() {
    for (what, probe) in &probes() {
        let (mut batched, mut single) = (ready::<Ours>(), ready::<Ours>());
        compare(what, || batches(&mut batched, probe), || one_by_one(&mut single, probe));
    }
}

/// After a CONNECT, by which number 0 is due.
fn in_sequence<S: Side>(mut side: S) -> S {
    side.frame(&[0x00, 0x2F]);
    side
}

fn main() {
    println!(
        "A round: {} events with a full journal, or a step back of each of {} adapters at {} kept. Best of {} rounds,",
        EVENTS, ADAPTERS, FULL, ROUNDS
    );
    println!("in nanoseconds an event, in a batch a sample. A ratio over 1: the library is faster.");
    title("library", "independent", "independent/library");
    compare_frames("frame, a register written", 0x02, 4, 0x10);
    compare_frames("frame, a register read", 0x02, 1, 0x11);
    compare_frames("frame, an unknown channel", 0x16, 1, 0x11);
    let register = [0x05, MASTER, 4, 0x40, 0x12, 0x34, 0x56, 0x78];
    let line = [0x05, 0x02, 4, 0x10, 0x12, 0x34, 0x56, 0x78];
    compare_frames_on(
        "frame, a register written, 8 masters on",
        (ready_masters(), ready_masters()),
        line,
    );
    compare_frames_on(
        "frame, an I2C register written",
        (ready_masters(), ready_masters()),
        register,
    );
    let (mut ours, mut theirs) = (ready::<Ours>(), ready::<Theirs>());
    assert_ne!(
        ours.clone().sample(1),
        17,
        "the sum is more than 17 where an interrupt goes out"
    );
    compare(
        "pin sample, an interrupt",
        || samples(&mut ours),
        || samples(&mut theirs),
    );
    compare_batches();
    compare_back(
        "frame, a register written, and its step back",
        (ready(), ready()),
        0x02,
        4,
        0x10,
    );
    let masters = (ready_masters(), ready_masters());
    compare_back("frame, an I2C register, and its step back", masters, MASTER, 4, 0x40);
    compare_transactions();
    let (ours, theirs) = (ready::<Ours>(), ready::<Theirs>());
    compare("step back", || steps_back(&ours), || steps_back(&theirs));
    compare_enlarging();
    println!();
    println!("The library alone, as many samples by the batch and one by one. A ratio over 1: the batch is faster.");
    title("batch", "one by one", "one by one/batch");
    compare_with_single_calls();
    println!();
    journals::compare_sizes();
}

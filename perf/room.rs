//! Measures, in one run on the same transactions, the library's control room beside the independent one.

#![forbid(unsafe_code)]

mod rows;

use reference::control::{self, Record};
use rows::{compare, title, ROUNDS};
use sca::boundary;
use sca::{OUTPUT_LEAST, RECORD_BYTES, REPLY_BYTES, TRANSACTIONS_MOST};
use std::time::Instant;

/// Calls in a round, or requests with their replies.
const CALLS: u32 = 2_048;
/// The command of each request that is measured: GPIO's DATAOUT is written.
const COMMAND: Command = (0x02, 0x10);

/// The numbers of a call that wrote its bytes, and of a request that finds all transactions open.
const DONE: u8 = 0;
const ALL_OPEN: u8 = 31;

/// A channel and its CMD.
type Command = (u32, u32);
type Body = [u8; REPLY_BYTES];

const INTERRUPT: Body = [0x00, 0x00, 0xFF, 0x02, 0x00, 0x04, 0x34, 0x12, 0x78, 0x56];

struct Ours {
    record: [u8; RECORD_BYTES],
}

struct Theirs {
    record: Record,
}

/// What both can do; each call gives its number, and a sum over what it wrote, so that both are seen to do the same.
trait Side {
    fn new() -> Self;
    fn request(&mut self, command: Command, data: u32) -> (u8, usize);
    fn reply(&mut self, body: &Body) -> (u8, usize);
}

impl Side for Ours {
    fn new() -> Ours {
        let mut record = [0; RECORD_BYTES];
        boundary::sca_record_new(&mut record);
        Ours { record }
    }

    fn request(&mut self, (channel, command): Command, data: u32) -> (u8, usize) {
        let mut output = [0; OUTPUT_LEAST];
        let given = boundary::sca_request(&mut self.record, channel, command, data, &mut output);
        (given.number, sum(given.length, given.interrupt, &output))
    }

    fn reply(&mut self, body: &Body) -> (u8, usize) {
        let mut output = [0; OUTPUT_LEAST];
        let given = boundary::sca_reply(&mut self.record, body, &mut output);
        (given.number, sum(given.length, given.interrupt, &output))
    }
}

impl Side for Theirs {
    fn new() -> Theirs {
        Theirs { record: Record::new() }
    }

    fn request(&mut self, (channel, command): Command, data: u32) -> (u8, usize) {
        let mut output = [0; OUTPUT_LEAST];
        let outcome = control::request(&mut self.record, channel, command, data, &mut output);
        (outcome.number, sum(outcome.length, outcome.interrupt, &output))
    }

    fn reply(&mut self, body: &Body) -> (u8, usize) {
        let mut output = [0; OUTPUT_LEAST];
        let outcome = control::reply(&mut self.record, body, &mut output);
        (outcome.number, sum(outcome.length, outcome.interrupt, &output))
    }
}

/// Of a request control, TRN, CMD and D[7:0]; of a reply CH, CMD, D[7:0] and D[31:24].
fn sum(length: usize, interrupt: bool, output: &[u8; OUTPUT_LEAST]) -> usize {
    let bytes = [1, 2, 5, 8].map(|at| usize::from(output[at]));
    length + usize::from(interrupt) + bytes.iter().sum::<usize>()
}

/// The sum of a call that goes the way of its row.
fn with_number(due: u8, (number, sum): (u8, usize)) -> usize {
    assert_eq!(number, due, "the call goes the way that is measured");
    sum
}

/// All commands that the tables have.
fn commands<S: Side>() -> Vec<Command> {
    let all = (0..=0xFF).flat_map(|channel| (0..=0xFF).map(move |command| (channel, command)));
    all.filter(|command| S::new().request(*command, 0).0 == DONE).collect()
}

/// So many open, with the lowest TRNs: repeatable random commands (a linear congruence), on both sides the same.
fn with_open<S: Side>(many: usize) -> S {
    let commands = commands::<S>();
    let (mut side, mut chance) = (S::new(), 1_u64);
    for _ in 0..many {
        chance = chance
            .wrapping_mul(6_364_136_223_846_793_005)
            .wrapping_add(1_442_695_040_888_963_407);
        let command = commands[(chance >> 33) as usize % commands.len()];
        with_number(DONE, side.request(command, 0));
    }
    side
}

/// Nanoseconds of what is called over and over, and the sum.
fn round(call: impl FnMut(u32) -> usize) -> (f64, usize) {
    let begin = Instant::now();
    let sum = (0..CALLS).map(call).sum();
    (begin.elapsed().as_nanos() as f64 / f64::from(CALLS), sum)
}

/// A request and the reply that closes it.
fn transactions<S: Side>(side: &mut S, reply: &Body) -> (f64, usize) {
    round(|data| with_number(DONE, side.request(COMMAND, data)) + with_number(DONE, side.reply(reply)))
}

fn refusals<S: Side>(side: &mut S) -> (f64, usize) {
    round(|data| with_number(ALL_OPEN, side.request(COMMAND, data)))
}

fn interrupts<S: Side>(side: &mut S) -> (f64, usize) {
    round(|_| with_number(DONE, side.reply(&INTERRUPT)))
}

/// Requests that get the first TRN behind those of so many others. The reply stands ready: to make it of the request's
/// body would have a side wait for bytes only just written.
fn compare_transactions(what: &str, others: usize) {
    let (trn, channel) = (others as u8 + 1, COMMAND.0 as u8);
    let reply = [0x00, 0x00, trn, channel, 0x00, 0x02, 0x34, 0x12, 0x78, 0x56];
    let (mut ours, mut theirs) = (with_open::<Ours>(others), with_open::<Theirs>(others));
    compare(
        what,
        || transactions(&mut ours, &reply),
        || transactions(&mut theirs, &reply),
    );
}

fn main() {
    println!(
        "A round: {} calls of the control room, or requests each with its reply. Best of {} rounds, in nanoseconds a call,",
        CALLS, ROUNDS
    );
    println!(
        "of a request and its reply both together. The others open have random commands. A ratio over 1: the library is faster."
    );
    title("library", "independent", "independent/library");
    compare_transactions("request and its reply, nothing else open", 0);
    compare_transactions("request and its reply, 127 others open", 127);
    compare_transactions("request and its reply, 253 others open", TRANSACTIONS_MOST - 1);
    let (mut ours, mut theirs) = (
        with_open::<Ours>(TRANSACTIONS_MOST),
        with_open::<Theirs>(TRANSACTIONS_MOST),
    );
    compare(
        "request refused with 31, all 254 open",
        || refusals(&mut ours),
        || refusals(&mut theirs),
    );
    let (mut ours, mut theirs) = (with_open::<Ours>(0), with_open::<Theirs>(0));
    compare(
        "interrupt read, nothing open",
        || interrupts(&mut ours),
        || interrupts(&mut theirs),
    );
}

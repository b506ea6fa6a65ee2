//! How often each thing was seen, over all runs.

use crate::calls::{Passage, Way};
use crate::harness::report::{all, list, say};
use crate::made::Ask;
use crate::queue::{End, Kind, Sent};
use crate::spelled::LAST;
use crate::tables::{self, is_master, known, LINK_COMMANDS, SPI};
use reference::control::Record;
use reference::numbers::{
    FRAME, NO_FREE_TRANSACTION, OUT_OF_RANGE, REPLY_LENGTH, SHORT_OUTPUT, UNKNOWN_COMMAND, UNMATCHED_REPLY,
};
use sca::boundary::RawGiven;
use sca::{OUTPUT_LEAST, RECORD_BYTES, REPLY_BYTES};
use std::collections::{BTreeMap, BTreeSet};

/// The calls of the control room that a comparison of all runs has at least.
const ROOM_CALLS: u64 = 500_000;
/// And the bodies by cable.
const FRAMED: u64 = 10_000;

/// A call of the control room: what it found, and what it is to give.
pub struct Asked<'a> {
    pub ask: &'a Ask<'a>,
    /// The record's bytes, and what they spell.
    pub record: &'a [u8],
    pub before: Option<&'a Record>,
    /// The bytes of its output.
    pub room: usize,
    pub given: &'a RawGiven,
    /// The record is one in range.
    pub own: bool,
}

/// An answer that was read back as its request's.
pub struct Answered {
    pub transaction: u8,
    pub channel: u8,
    pub command: u8,
    pub error: u8,
    /// It came with a completion.
    pub completed: bool,
}

/// What a record was refused for.
#[derive(Clone, Copy, PartialEq, Eq, PartialOrd, Ord, Debug)]
enum Flaw {
    Length,
    FrameNumber,
    Byte1,
    FirstEntry,
    LastEntry,
    Entry,
}

const FLAWS: [Flaw; 6] = [
    Flaw::Length,
    Flaw::FrameNumber,
    Flaw::Byte1,
    Flaw::FirstEntry,
    Flaw::LastEntry,
    Flaw::Entry,
];

/// What came before what.
const ORDERS: [&str; 8] = [
    "6 before 1",
    "6 before 35",
    "1 before 35",
    "1 before 31",
    "1 before 33",
    "1 before 32",
    "35 before 31",
    "33 before 32",
];

/// The bodies that went one way.
#[derive(Default)]
pub struct Flights {
    arrived: u64,
    pub lost: u64,
    /// A second time or more.
    again: u64,
    /// After one that was sent later.
    overtaken: u64,
    altered: u64,
    /// Of another length.
    cut: u64,
    cable: u64,
    broken_cable: u64,
    other_port: u64,
}

impl Flights {
    pub fn arrived(&mut self, sent: &Sent, overtaken: bool, passage: Passage, way: Way) {
        self.arrived += 1;
        self.again += u64::from(sent.arrived > 0);
        self.overtaken += u64::from(overtaken && sent.arrived == 0);
        self.other_port += u64::from(way == Way::Other);
        match passage {
            Passage::Whole => {}
            Passage::Put { .. } => self.altered += 1,
            Passage::Length(_) => self.cut += 1,
            Passage::Cable => self.cable += 1,
            Passage::BrokenCable { .. } => self.broken_cable += 1,
        }
    }

    fn all_seen(&self, what: &str) -> Vec<bool> {
        let some = |how: &str, count: u64| say(count > 0, &format!("{} {}: {}", what, how, count));
        vec![
            some("that arrived", self.arrived),
            some("lost", self.lost),
            some("doubled", self.again),
            some("overtaken", self.overtaken),
            some("with a byte changed", self.altered),
            some("of another length", self.cut),
            some("by cable", self.cable),
            some("that arrived by a cable with a bit turned round", self.broken_cable),
        ]
    }
}

pub struct Tally {
    pub calls: u64,
    /// By their numbers.
    pub new_records: Vec<u64>,
    requests: Vec<u64>,
    replies: Vec<u64>,
    commands: Vec<u64>,
    pub events: Vec<u64>,
    pub steps_back: Vec<u64>,
    /// Readings of cable.
    pub heard: Vec<u64>,
    pub framed: u64,
    pub to_chip: Flights,
    pub to_room: Flights,
    /// Channels and commands, both of one byte, that were asked for on a run's own record.
    pairs: BTreeSet<(u8, u8)>,
    /// Those written, those answered with ERR 0.
    written: BTreeSet<(u8, u8)>,
    answered: BTreeSet<(u8, u8)>,
    answers: u64,
    /// The ERR of answers to requests as they were written, and of all that the chip replied at once.
    errors: Vec<u64>,
    any_errors: Vec<u64>,
    /// The TRNs of answers.
    transactions: Vec<u64>,
    /// The frame numbers of requests written.
    numbers: Vec<u64>,
    /// Starts answered with their completion, by channel.
    completed: Vec<u64>,
    /// Requests in their order.
    pub in_step: u64,
    /// Bodies as the chip sent them, with the number that they gave.
    read: BTreeMap<(Kind, u8), u64>,
    /// Replies that closed a later request of their TRN and channel.
    later: u64,
    /// Interrupts with an ERR, or another LEN than 4.
    odd_interrupts: u64,
    /// Refused with 32: TRN 0x00 and 0xFF, a free one, and one open to another channel.
    unmatched: [u64; 4],
    /// Link commands acknowledged.
    acknowledged: Vec<u64>,
    /// Refused for what stands above the low byte: channel, command, control.
    wide: [u64; 3],
    /// Requests that took the last free TRN, and another than 0xFE.
    last_free: u64,
    flaws: BTreeMap<(Flaw, u8), u64>,
    /// Channels and commands that were put in for a TRN, and how many of these records were in range.
    entries: BTreeSet<(u8, u8)>,
    taken: u64,
    orders: [u64; ORDERS.len()],
}

fn counts() -> Vec<u64> {
    vec![0; 256]
}

impl Tally {
    pub fn new() -> Tally {
        Tally {
            calls: 0,
            new_records: counts(),
            requests: counts(),
            replies: counts(),
            commands: counts(),
            events: counts(),
            steps_back: counts(),
            heard: counts(),
            framed: 0,
            to_chip: Flights::default(),
            to_room: Flights::default(),
            pairs: BTreeSet::new(),
            written: BTreeSet::new(),
            answered: BTreeSet::new(),
            answers: 0,
            errors: counts(),
            any_errors: counts(),
            transactions: counts(),
            numbers: counts(),
            completed: counts(),
            in_step: 0,
            read: BTreeMap::new(),
            later: 0,
            odd_interrupts: 0,
            unmatched: [0; 4],
            acknowledged: counts(),
            wide: [0; 3],
            last_free: 0,
            flaws: BTreeMap::new(),
            entries: BTreeSet::new(),
            taken: 0,
            orders: [0; ORDERS.len()],
        }
    }

    pub fn flights(&mut self, to: End) -> &mut Flights {
        match to {
            End::Chip => &mut self.to_chip,
            End::Room => &mut self.to_room,
        }
    }

    /// The requests, replies and link commands of the control room.
    pub fn room_calls(&self) -> [u64; 3] {
        [&self.requests, &self.replies, &self.commands].map(|counts| counts.iter().sum())
    }

    pub fn asked(&mut self, asked: &Asked) {
        let number = asked.given.number;
        let place = usize::from(number);
        match *asked.ask {
            Ask::Request { channel, command, .. } => {
                self.requests[place] += 1;
                self.requested(asked, channel, command);
            }
            Ask::Reply { body } => {
                self.replies[place] += 1;
                self.replied(asked, body);
            }
            Ask::Command { control } => {
                self.commands[place] += 1;
                let low = LINK_COMMANDS.contains(&(control as u8));
                self.wide[2] += u64::from(number == UNKNOWN_COMMAND && low);
            }
        }
        if number == OUT_OF_RANGE {
            self.out_of_range(asked);
        }
    }

    fn requested(&mut self, asked: &Asked, channel: u32, command: u32) {
        let number = asked.given.number;
        let open = asked.before.map_or(0, |record| record.open.iter().flatten().count());
        let pair = (channel as u8, command as u8);
        let bytes = (u32::from(pair.0), u32::from(pair.1)) == (channel, command);
        let known = known(pair.0, pair.1);
        match number {
            FRAME => {
                self.written.insert(pair);
                self.numbers[usize::from(asked.record[0])] += 1;
                let lowest = asked.record[2 * LAST..] != [0, 0];
                self.last_free += u64::from(open == LAST - 1 && lowest);
            }
            UNKNOWN_COMMAND => {
                self.wide[0] += u64::from(known && channel > 0xFF && command <= 0xFF);
                self.wide[1] += u64::from(known && channel <= 0xFF && command > 0xFF);
                self.orders[6] += u64::from(open == LAST);
            }
            SHORT_OUTPUT => {
                self.orders[2] += u64::from(!(known && bytes));
                self.orders[3] += u64::from(open == LAST);
            }
            OUT_OF_RANGE => self.orders[1] += u64::from(!(known && bytes)),
            _ => {}
        }
        if asked.own && bytes && asked.room >= OUTPUT_LEAST && number != NO_FREE_TRANSACTION {
            self.pairs.insert(pair);
        }
    }

    fn replied(&mut self, asked: &Asked, body: &[u8]) {
        let matches = match (asked.before, body) {
            (Some(record), [_, _, transaction, channel, ..]) => {
                let open = record.open[usize::from(*transaction)];
                open.map_or(false, |pending| pending.channel == *channel)
            }
            _ => false,
        };
        match asked.given.number {
            FRAME if asked.given.interrupt => self.odd_interrupts += u64::from(body[4..6] != [0, 4]),
            UNMATCHED_REPLY => {
                let why = match body[2] {
                    0x00 => 0,
                    0xFF => 1,
                    open if asked.record[2 * usize::from(open)..][..2] == [0, 0] => 2,
                    _ => 3,
                };
                self.unmatched[why] += 1;
            }
            SHORT_OUTPUT => {
                self.orders[4] += u64::from(body.len() != REPLY_BYTES);
                self.orders[5] += u64::from(body.len() == REPLY_BYTES && !matches);
            }
            REPLY_LENGTH => self.orders[7] += u64::from(body.len() > REPLY_BYTES && !matches),
            _ => {}
        }
    }

    fn out_of_range(&mut self, asked: &Asked) {
        let record = asked.record;
        let unknown = |transaction: usize| {
            let pair = (record[2 * transaction], record[2 * transaction + 1]);
            pair != (0, 0) && !known(pair.0, pair.1)
        };
        let flaw = if record.len() != RECORD_BYTES {
            Flaw::Length
        } else if record[1] != 0 {
            Flaw::Byte1
        } else if record[0] > 7 {
            Flaw::FrameNumber
        } else if unknown(1) {
            Flaw::FirstEntry
        } else if unknown(LAST) {
            Flaw::LastEntry
        } else {
            Flaw::Entry
        };
        let call = match asked.ask {
            Ask::Request { .. } => 0,
            Ask::Reply { .. } => 1,
            Ask::Command { .. } => 2,
        };
        *self.flaws.entry((flaw, call)).or_default() += 1;
        self.orders[0] += u64::from(asked.room < OUTPUT_LEAST);
    }

    /// A record with these two bytes for a TRN; it is in range, or not.
    pub fn entry(&mut self, channel: u8, command: u8, taken: bool) {
        self.entries.insert((channel, command));
        self.taken += u64::from(taken);
    }

    /// A frame of the chip's, and the body that it came for.
    pub fn sent(&mut self, kind: Kind, body: &[u8]) {
        self.acknowledged[usize::from(body[1])] += u64::from(kind == Kind::Acknowledgement);
    }

    /// A body as the chip sent it was read with this number; it closed a later request of its TRN, or not.
    pub fn read(&mut self, sent: &Sent, number: u8, later: bool) {
        *self.read.entry((sent.kind, number)).or_default() += 1;
        self.later += u64::from(later);
        if (sent.kind, number) == (Kind::Reply, FRAME) {
            self.any_errors[usize::from(sent.body[4])] += 1;
        }
    }

    pub fn answered(&mut self, answer: &Answered) {
        self.answers += 1;
        self.errors[usize::from(answer.error)] += 1;
        self.transactions[usize::from(answer.transaction)] += 1;
        if answer.error == 0 {
            self.answered.insert((answer.channel, answer.command));
        }
        self.completed[usize::from(answer.channel)] += u64::from(answer.completed);
    }

    /// That the runs had in them what they are for.
    pub fn all_seen(&self) -> bool {
        let every = |what: &str, counts: &[u64], numbers: &[usize]| {
            say(all(counts, numbers), &format!("every {} ({})", what, list(counts)))
        };
        let numbers =
            |what: &str, counts: &[u64], numbers: &[usize]| every(&format!("number of {}", what), counts, numbers);
        let some = |what: &str, count: u64| say(count > 0, &format!("{}: {}", what, count));
        let read = |kind: Kind, number: u8| self.read.get(&(kind, number)).copied().unwrap_or(0);
        let transactions: Vec<usize> = (1..=LAST).collect();
        let first_eight: Vec<usize> = (0..8).collect();
        let starting: Vec<usize> = (0..=0xFF)
            .filter(|channel| *channel == SPI || is_master(*channel))
            .map(usize::from)
            .collect();
        let [requests, replies, commands] = self.room_calls();
        let mut results = vec![
            say(
                requests + replies + commands >= ROOM_CALLS,
                &format!("at least {} calls of the control room", ROOM_CALLS),
            ),
            numbers("a new record", &self.new_records, &[17, 6]),
            numbers("a request", &self.requests, &[0, 1, 6, 31, 35]),
            numbers("a reply", &self.replies, &[0, 1, 6, 32, 33]),
            numbers("a link command", &self.commands, &[0, 1, 6, 35]),
            numbers("a chip's event", &self.events, &[0, 1, 2, 11, 12, 13, 14, 15, 16, 17]),
            numbers("a step back", &self.steps_back, &[5, 17]),
            self.pairs_seen("written", &self.written),
            self.pairs_seen("answered with ERR 0 and read back", &self.answered),
            say(
                self.pairs.len() == 0x1_0000,
                &format!("every channel and command of a byte asked for ({})", self.pairs.len()),
            ),
            some("answers read back as their requests'", self.answers),
            every("ERR of theirs", &self.errors, &[0, 0x10, 0x20, 0x40]),
            every(
                "ERR with requests altered",
                &self.any_errors,
                &[0, 0x04, 0x10, 0x20, 0x40],
            ),
            say(
                all(&self.transactions, &transactions),
                "answers of every TRN from 0x01 to 0xFE",
            ),
            every("frame number", &self.numbers, &first_eight),
            every("channel's start answered at its completion", &self.completed, &starting),
            some("requests in their order, with the number due", self.in_step),
            some("interrupts", read(Kind::Interrupt, FRAME)),
            some("interrupts with an ERR or another LEN", self.odd_interrupts),
            some("SREJs handed to the reader", read(Kind::Reject, REPLY_LENGTH)),
            some(
                "acknowledgements handed to it",
                read(Kind::Acknowledgement, REPLY_LENGTH),
            ),
            some("looped requests read as replies", read(Kind::Echo, FRAME)),
            some("replies that nothing was open to", read(Kind::Reply, UNMATCHED_REPLY)),
            some(
                "ends of starts that nothing was open to",
                read(Kind::Completed, UNMATCHED_REPLY),
            ),
            some("replies that closed a later request", self.later),
            say(
                self.unmatched.iter().all(|count| *count > 0),
                &format!(
                    "32 for TRN 0x00, 0xFF, a free one, another channel ({})",
                    list(&self.unmatched)
                ),
            ),
            say(
                all(&self.acknowledged, &LINK_COMMANDS.map(usize::from)),
                "CONNECT, RESET and TEST, both forms, acknowledged",
            ),
            say(
                self.wide.iter().all(|count| *count > 0),
                &format!("35 for what stands above a low byte ({})", list(&self.wide)),
            ),
            some("requests that took the last TRN, in the middle", self.last_free),
            self.flaws_seen(),
            say(
                self.entries.len() == 0x1_0000,
                &format!(
                    "every channel and command of a byte put in for a TRN ({})",
                    self.entries.len()
                ),
            ),
            some("and of these records in range", self.taken),
            self.orders_seen(),
            some("bodies to the chip on its other port", self.to_chip.other_port),
            say(self.framed >= FRAMED, &format!("bodies framed: {}", self.framed)),
            numbers("a reading of cable", &self.heard, &[0, 17, 22, 23]),
        ];
        results.extend(self.to_chip.all_seen("bodies to the chip"));
        results.extend(self.to_room.all_seen("bodies to the control room"));
        results.iter().all(|holds| *holds)
    }

    fn pairs_seen(&self, what: &str, seen: &BTreeSet<(u8, u8)>) -> bool {
        let commands = tables::commands();
        let missing: Vec<&(u8, u8)> = commands.iter().filter(|pair| !seen.contains(pair)).collect();
        let names = if missing.is_empty() {
            format!("{}", seen.len())
        } else {
            format!("missing: {:.300}", format!("{:x?}", missing))
        };
        say(
            missing.is_empty() && seen.len() == tables::COUNT,
            &format!("each command {} ({})", what, names),
        )
    }

    fn flaws_seen(&self) -> bool {
        let wanted = FLAWS.iter().flat_map(|flaw| [0, 1, 2].map(|call| (*flaw, call)));
        let missing: Vec<(Flaw, u8)> = wanted.filter(|flaw| !self.flaws.contains_key(flaw)).collect();
        let count: u64 = self.flaws.values().sum();
        say(
            missing.is_empty(),
            &format!("6 for every reason, by each call ({}, missing {:?})", count, missing),
        )
    }

    fn orders_seen(&self) -> bool {
        let seen = ORDERS.iter().zip(&self.orders);
        let names: Vec<String> = seen.map(|(what, count)| format!("{}: {}", what, count)).collect();
        say(self.orders.iter().all(|count| *count > 0), &names.join(", "))
    }
}

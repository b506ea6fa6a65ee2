//! How often each thing was seen of the I2C masters, over all runs.

use crate::exchanges::{length_of, MULTI_BYTE, STARTS};
use crate::harness::report::{all, list, say};
use crate::image::{MASTERS_AT, MASTER_BYTES};
use crate::seen::whole;
use reference::adapter::{Master, State};
use reference::numbers::{BAD_ARGUMENT, FRAME, NOT_BUSY};
use sca::{I2C_FIRST, I2C_MOST};
use std::cmp::Ordering;
use std::collections::BTreeSet;

const COUNT: usize = 16;
/// A count for each master.
type Each = [u64; COUNT];

/// The bits of STATUS.
const SUCC: u8 = 0x04;
const INVCOM: u8 = 0x20;
/// What a completion can leave in STATUS, and with INVCOM; STATUS can also be read before the first one.
const STATUSES: [usize; 8] = [0x04, 0x08, 0x40, 0x48, 0x24, 0x28, 0x60, 0x68];
const BEFORE_ANY: [usize; 2] = [0x00, 0x20];

const SINGLE_READS: [u8; 2] = [0x86, 0x8E];
const MULTI_READS: [u8; 2] = [0xDE, 0xE6];
const READ_STATUS: u8 = 0x11;

/// Channels on both sides of the masters.
const OTHER_CHANNELS: [u32; 7] = [0x00, 0x01, 0x02, 0x13, 0x14, 0x15, 0xFF];

/// What a step back can undo on a master.
const UNDONE: [&str; 6] = ["a start", "a completion", "a drop", "INVCOM", "DATA", "MASK or CTRL"];

/// A master's fields, and the bit that enables it: which of them a flipped bit is in.
#[derive(Clone, Copy, PartialEq, Eq, PartialOrd, Ord, Debug)]
enum Field {
    Mask,
    Control,
    Status,
    Transaction,
    Command,
    Data,
    Switch,
}

/// The bytes that came in, against those that a read asks for.
#[derive(Clone, Copy, PartialEq, Eq, PartialOrd, Ord, Debug)]
enum Came {
    None,
    Fewer,
    AsMany,
    More,
}

/// How a start ended.
pub struct End<'a> {
    pub channel: u32,
    pub acknowledge: bool,
    pub line_low: bool,
    pub received: &'a [u8],
}

/// A request to a master, and the master as it was before.
struct Asked<'a> {
    place: usize,
    length: u8,
    command: u8,
    before: &'a Master,
}

#[derive(Default)]
pub struct Masters {
    /// Completions of channels that are not I2C, and of ones whose low byte alone is.
    other_channels: BTreeSet<u32>,
    wide_channels: u64,
    /// Completions refused for one byte too many.
    long: u64,
    /// Dropped ones: the master was idle, or disabled.
    idle: Each,
    disabled: Each,
    /// Events that left so many starts open.
    open: [u64; COUNT + 1],
    /// Place, code, acknowledge and line low of completions that were answered, and the bytes that they brought.
    ends: BTreeSet<(usize, u8, bool, bool)>,
    brought: [u64; I2C_MOST + 1],
    /// What came for a read that succeeded.
    reads: BTreeSet<(u8, Came)>,
    /// Reads of several bytes that left something in DATA past NBYTE, and reads that took nothing of what came.
    past_count: u64,
    untaken: u64,
    statuses: Vec<u64>,
    statuses_read: Vec<u64>,
    errors: Vec<u64>,
    /// Unknown codes that set INVCOM, and STATUS read with it; those of a busy and of a disabled master, which set nothing.
    unknown: Each,
    invcom_read: Each,
    unknown_busy: u64,
    unknown_disabled: u64,
    /// Code and NBYTE of starts of several bytes, carried out or refused for NBYTE alone.
    counts: BTreeSet<(u8, u8)>,
    /// Starts dropped by a write of CRB, CRC or CRD, and by RESET; starts open through a CONNECT.
    switched_off: Each,
    reset: Each,
    connected: Each,
    undone: [Each; UNDONE.len()],
    /// The field of a flipped bit, whether its master was enabled, and whether the state was still taken.
    flips: BTreeSet<(Field, bool, bool)>,
}

/// The place of an I2C channel among the masters.
fn place_of(channel: u32) -> Option<usize> {
    let place = channel.checked_sub(u32::from(I2C_FIRST))?;
    (place < COUNT as u32).then(|| place as usize)
}

fn busy(master: &Master) -> bool {
    master.command != 0
}

fn count_of(master: &Master) -> u8 {
    master.control >> 2 & 0x1F
}

/// Whether a master is enabled: CRB has the bits of five, CRC of eight, CRD of three.
pub fn is_on(state: &State, place: usize) -> bool {
    match place {
        0..=4 => state.crb >> (place + 3) & 1 == 1,
        5..=12 => state.crc >> (place - 5) & 1 == 1,
        _ => state.crd >> (place - 13) & 1 == 1,
    }
}

/// How many bytes of so many that were asked for.
fn came(bytes: usize, asked: usize) -> Came {
    match (bytes, bytes.cmp(&asked)) {
        (0, _) => Came::None,
        (_, Ordering::Less) => Came::Fewer,
        (_, Ordering::Equal) => Came::AsMany,
        (_, Ordering::Greater) => Came::More,
    }
}

impl Masters {
    pub fn new() -> Masters {
        Masters {
            statuses: vec![0; 256],
            statuses_read: vec![0; 256],
            errors: vec![0; 256],
            ..Masters::default()
        }
    }

    /// Any event that was not refused.
    pub fn left(&mut self, after: &State) {
        self.open[after.masters.iter().filter(|master| busy(master)).count()] += 1;
    }

    /// A completion, the state before and after it, its number and the reply.
    pub fn completed(&mut self, end: &End, before: &State, after: &State, number: u8, sent: &[u8]) {
        let low = u32::from(end.channel as u8);
        match (place_of(end.channel), number) {
            (None, BAD_ARGUMENT) => {
                self.other_channels.insert(end.channel);
                self.wide_channels += u64::from(place_of(low).is_some());
            }
            (Some(_), BAD_ARGUMENT) => self.long += u64::from(end.received.len() == I2C_MOST + 1),
            (Some(place), NOT_BUSY) if is_on(before, place) => self.idle[place] += 1,
            (Some(place), NOT_BUSY) => self.disabled[place] += 1,
            (Some(place), FRAME) => {
                self.statuses[usize::from(sent[7])] += 1;
                self.ended(end, place, &before.masters[place], &after.masters[place]);
            }
            _ => {}
        }
    }

    fn ended(&mut self, end: &End, place: usize, before: &Master, after: &Master) {
        let (command, bytes) = (before.command, end.received.len());
        let count = usize::from(count_of(before));
        self.ends.insert((place, command, end.acknowledge, end.line_low));
        self.brought[bytes] += 1;
        let asked = match command {
            _ if SINGLE_READS.contains(&command) => 1,
            _ if MULTI_READS.contains(&command) => count,
            _ => return,
        };
        if after.status & SUCC == 0 {
            self.untaken += u64::from(bytes > 0);
            return;
        }
        self.reads.insert((command, came(bytes, asked)));
        if MULTI_READS.contains(&command) {
            self.past_count += u64::from(after.data[count..].iter().any(|byte| *byte != 0));
        }
    }

    /// A request that was answered, or carried out without an answer yet; the states before and after it.
    pub fn requested(&mut self, body: &[u8], sent: &[u8], before: &State, after: &State) {
        let (channel, length, command) = (body[3], body[4], body[5]);
        let error = sent.get(4).copied();
        if let Some(place) = place_of(u32::from(channel)) {
            let before = &before.masters[place];
            let asked = Asked {
                place,
                length,
                command,
                before,
            };
            self.asked(&asked, error, sent);
        }
        if channel == 0x00 && error == Some(0) {
            add_dropped(&mut self.switched_off, before, after);
        }
    }

    fn asked(&mut self, asked: &Asked, error: Option<u8>, sent: &[u8]) {
        let (place, command) = (asked.place, asked.command);
        let known = length_of(command);
        if let Some(error) = error {
            self.errors[usize::from(error)] += 1;
        }
        match error {
            None | Some(0x10) if MULTI_BYTE.contains(&command) && known == Some(asked.length) => {
                self.counts.insert((command, count_of(asked.before)));
            }
            Some(0x04) => self.unknown[place] += u64::from(asked.before.status & INVCOM == 0),
            Some(0x40) if known.is_none() => self.unknown_busy += 1,
            Some(0x20) if known.is_none() => self.unknown_disabled += 1,
            Some(0x00) if command == READ_STATUS => {
                self.statuses_read[usize::from(sent[7])] += 1;
                self.invcom_read[place] += u64::from(sent[7] & INVCOM != 0);
            }
            _ => {}
        }
    }

    /// A RESET that was accepted.
    pub fn was_reset(&mut self, before: &State, after: &State) {
        add_dropped(&mut self.reset, before, after);
    }

    /// A CONNECT that was accepted.
    pub fn was_connected(&mut self, after: &State) {
        for (count, master) in self.connected.iter_mut().zip(&after.masters) {
            *count += u64::from(busy(master));
        }
    }

    /// A step back that was granted, on a state and the journal that went with it.
    pub fn stepped_back(&mut self, before: &State, after: &State) {
        let switches = |state: &State| (state.crb, state.crc, state.crd);
        let switched = switches(before) != switches(after);
        for (place, (was, is)) in before.masters.iter().zip(&after.masters).enumerate() {
            let undone = [
                !switched && busy(was) && !busy(is),
                !switched && !busy(was) && busy(is),
                switched && !busy(was) && busy(is),
                !switched && was.status & INVCOM > is.status & INVCOM,
                !switched && was.data != is.data,
                !switched && (was.mask, was.control) != (is.mask, is.control),
            ];
            for (each, undone) in self.undone.iter_mut().zip(undone) {
                each[place] += u64::from(undone);
            }
        }
    }

    /// A state with this bit flipped, and whether it was still taken.
    pub fn flipped(&mut self, bit: usize, state: &State, taken: bool) {
        let seen = match bit / 8 {
            5 if bit % 8 >= 3 => (Field::Switch, state.crb >> (bit % 8) & 1 == 1),
            6 => (Field::Switch, state.crc >> (bit % 8) & 1 == 1),
            7 if bit % 8 <= 2 => (Field::Switch, state.crd >> (bit % 8) & 1 == 1),
            byte if byte >= MASTERS_AT => {
                let (place, own) = ((byte - MASTERS_AT) / MASTER_BYTES, (byte - MASTERS_AT) % MASTER_BYTES);
                (field_at(own), is_on(state, place))
            }
            _ => return,
        };
        self.flips.insert((seen.0, seen.1, taken));
    }

    /// That the runs had in them what they are for.
    pub fn all_seen(&self) -> Vec<bool> {
        let some = |what: &str, count: u64| say(count > 0, &format!("{}: {}", what, count));
        let each = |what: &str, counts: &Each| {
            say(
                counts.iter().all(|count| *count > 0),
                &format!("{}, on each master ({})", what, list(counts)),
            )
        };
        let numbers = |what: &str, counts: &[u64], numbers: &[usize]| {
            say(all(counts, numbers), &format!("{} ({})", what, list(counts)))
        };
        let mut results = vec![
            whole("completions of other channels", &self.other_channels, OTHER_CHANNELS),
            some(
                "I2C channels refused for what stands above their low byte",
                self.wide_channels,
            ),
            some("completions refused for a 17th byte", self.long),
            each("completions dropped while idle", &self.idle),
            each("completions dropped while disabled", &self.disabled),
            numbers("0 to 16 starts open at once", &self.open, &up_to(COUNT)),
            whole("each start of each master ended in each way", &self.ends, ends()),
            numbers("completions with 0 to 16 bytes", &self.brought, &up_to(I2C_MOST)),
            whole("reads of none, fewer, as many and more bytes", &self.reads, reads()),
            some("reads that left DATA past NBYTE", self.past_count),
            some("reads that took nothing of what came", self.untaken),
            numbers("every STATUS in a completion's reply", &self.statuses, &STATUSES),
            numbers(
                "every STATUS read",
                &self.statuses_read,
                &[STATUSES.as_slice(), &BEFORE_ANY].concat(),
            ),
            numbers(
                "every ERR of a master's reply",
                &self.errors,
                &[0, 0x04, 0x08, 0x10, 0x20, 0x40],
            ),
            each("unknown codes that set INVCOM", &self.unknown),
            each("STATUS read with INVCOM", &self.invcom_read),
            some("unknown codes while busy", self.unknown_busy),
            some("unknown codes while disabled", self.unknown_disabled),
            whole("starts of several bytes at each NBYTE", &self.counts, counts()),
            each("starts dropped by CRB, CRC or CRD", &self.switched_off),
            each("starts dropped by RESET", &self.reset),
            each("starts open through a CONNECT", &self.connected),
            whole("flipped bits of masters", &self.flips, flips()),
        ];
        let undone = UNDONE.iter().zip(&self.undone);
        results.extend(undone.map(|(what, counts)| each(&format!("steps back over {}", what), counts)));
        results
    }
}

fn add_dropped(counts: &mut Each, before: &State, after: &State) {
    for (count, (was, is)) in counts.iter_mut().zip(before.masters.iter().zip(&after.masters)) {
        *count += u64::from(busy(was) && !busy(is));
    }
}

/// The field at a place in a master's own bytes.
fn field_at(own: usize) -> Field {
    match own {
        0 => Field::Mask,
        1 => Field::Control,
        2 => Field::Status,
        3 => Field::Transaction,
        4 => Field::Command,
        _ => Field::Data,
    }
}

fn up_to(most: usize) -> Vec<usize> {
    (0..=most).collect()
}

/// Each master, each start, acknowledge and line low.
fn ends() -> Vec<(usize, u8, bool, bool)> {
    let bits = [false, true];
    let each = |place: usize| STARTS.into_iter().map(move |(command, _)| (place, command));
    let starts = (0..COUNT).flat_map(each);
    starts
        .flat_map(|(place, command)| {
            bits.into_iter()
                .flat_map(move |yes| bits.map(|low| (place, command, yes, low)))
        })
        .collect()
}

/// Fewer than one byte is none.
fn reads() -> Vec<(u8, Came)> {
    let single = [Came::None, Came::AsMany, Came::More];
    let multi = [Came::None, Came::Fewer, Came::AsMany, Came::More];
    let of_one = SINGLE_READS
        .into_iter()
        .flat_map(|command| single.map(|came| (command, came)));
    let of_several = MULTI_READS
        .into_iter()
        .flat_map(|command| multi.map(|came| (command, came)));
    of_one.chain(of_several).collect()
}

/// Every NBYTE, 0, 17 and 31 among them.
fn counts() -> Vec<(u8, u8)> {
    let every = |command: u8| (0..32).map(move |count| (command, count));
    MULTI_BYTE.into_iter().flat_map(every).collect()
}

/// An enabled master takes a flipped bit of any field, but for those of STATUS that no flag has, of TRN and code where one would be 0
/// or no start's, of NBYTE where a start of several bytes is open. A disabled one takes none. An enable bit can go where its master holds
/// zeros, and can always come.
fn flips() -> Vec<(Field, bool, bool)> {
    use Field::*;
    let fields = [Mask, Control, Status, Transaction, Command, Data];
    let taken = fields.map(|field| (field, true, true));
    let refused = [Control, Status, Transaction, Command].map(|field| (field, true, false));
    let disabled = fields.map(|field| (field, false, false));
    let switched = [(Switch, true, true), (Switch, true, false), (Switch, false, true)];
    [&taken[..], &refused, &disabled, &switched].concat()
}

//! The adapter's calls: creation, the five events, pin samples by the batch,
//! and stepping back through a journal of earlier states, small or large.
//! An independent implementation, written from document 01 and change
//! requests 2026-01 to 2026-03, 2026-05 and 2026-06.

use std::collections::VecDeque;

use crate::numbers::*;
use crate::request::{self, Reply};
pub use crate::state::{in_range, Gpio, Master, Spi, State};
use crate::state::{master_place, FIRST_MASTER, INVCOM, LAST_MASTER, LEVERR, NOACK, SUCC};

/// The bytes that an event's output must have.
const EVENT_OUTPUT: usize = 16;
/// The most bytes that an I2C transaction receives.
const MOST_RECEIVED: usize = 16;
/// The greatest edge kind of a pin sample.
const MOST_KIND: u32 = 2;
/// The most pin samples of a batch.
const MOST_SAMPLES: usize = 256;
/// The bytes that a batch's output must have, however few its samples: room
/// for as many bodies of ten bytes as a batch can send.
const BATCH_OUTPUT: usize = 2_560;

/// The sizes that a journal has; its length says which.
#[derive(Clone, Copy, PartialEq, Eq, Debug)]
pub enum Size {
    /// Version 1.
    Small,
    /// Version 2.
    Large,
}

impl Size {
    /// The size of a journal of this length; none if no journal has it.
    pub fn of(bytes: usize) -> Option<Size> {
        let mut sizes = [Size::Small, Size::Large].into_iter();
        sizes.find(|size| size.bytes() == bytes)
    }

    /// The length of a journal.
    pub fn bytes(self) -> usize {
        match self {
            Size::Small => 17_408,
            Size::Large => 52_224,
        }
    }

    /// The most steps that can be taken back.
    pub fn kept_most(self) -> usize {
        match self {
            Size::Small => 64,
            Size::Large => 200,
        }
    }
}

/// What an outsider may have done to a journal.
#[derive(Clone, Copy, PartialEq, Eq, Debug)]
pub enum Condition {
    /// As the calls left it.
    Whole,
    /// Of neither size's length: even emptying is refused.
    WrongLength,
    /// Mark or layout is wrong, or the version is not that of the length: only
    /// emptying mends it.
    WrongLayout,
}

/// The states before each event that can be taken back, oldest first.
#[derive(Clone, PartialEq, Eq, Debug)]
pub struct Journal {
    /// For a caller to set; no call sets anything but `Whole`.
    pub condition: Condition,
    size: Size,
    earlier: VecDeque<State>,
}

impl Journal {
    /// An empty small journal.
    pub fn new() -> Journal {
        Journal::sized(Size::Small)
    }

    /// An empty journal of a size.
    pub fn sized(size: Size) -> Journal {
        Journal {
            condition: Condition::Whole,
            size,
            earlier: VecDeque::with_capacity(size.kept_most()),
        }
    }

    /// The size by the length; without meaning where the length is wrong.
    pub fn size(&self) -> Size {
        self.size
    }

    /// The states before each event that can be taken back, oldest first.
    pub fn earlier(&self) -> impl Iterator<Item = &State> {
        self.earlier.iter()
    }

    fn keep(&mut self, before: State) {
        if self.earlier.len() == self.size.kept_most() {
            self.earlier.pop_front();
        }
        self.earlier.push_back(before);
    }
}

impl Default for Journal {
    fn default() -> Self {
        Journal::new()
    }
}

/// An event's number; for 0 also the port and the length of the body sent.
#[derive(Clone, Copy, PartialEq, Eq, Debug)]
pub struct Answer {
    pub number: u8,
    pub port: u32,
    pub length: usize,
}

impl Answer {
    fn without_frame(number: u8) -> Answer {
        Answer {
            number,
            port: 0,
            length: 0,
        }
    }
}

/// One pin sample of a batch.
#[derive(Clone, Copy, PartialEq, Eq, Debug)]
pub struct Sample {
    /// The levels of the 32 lines.
    pub levels: u32,
    /// 0 by the system clock, 1 by a rising strobe, 2 by a falling strobe.
    pub kind: u32,
}

/// A batch's number; for 0 also the port, the length of each body sent, how
/// many were sent, and the ones over their INTS values.
#[derive(Clone, Copy, PartialEq, Eq, Debug)]
pub struct BatchAnswer {
    pub number: u8,
    pub port: u32,
    pub length: usize,
    pub frames: usize,
    pub sum: u32,
}

impl BatchAnswer {
    fn without_frame(number: u8) -> BatchAnswer {
        BatchAnswer {
            number,
            port: 0,
            length: 0,
            frames: 0,
            sum: 0,
        }
    }
}

/// What an event brings about, apart from the new state.
enum Outcome {
    Nothing(u8),
    Sent { port: u8, body: Vec<u8> },
    Reset { port: u8, body: Vec<u8> },
}

/// A new adapter with its chip ID: 17, or 7 and none.
pub fn create(id: u32) -> (u8, Option<State>) {
    if id > crate::state::MOST_ID {
        (BAD_ID, None)
    } else {
        (DONE, Some(State::power_on(id)))
    }
}

/// Makes a journal empty, of the size that its length says: 17, or 4 for a
/// wrong length.
pub fn empty(journal: &mut Journal) -> u8 {
    if journal.condition == Condition::WrongLength {
        return BAD_JOURNAL;
    }
    *journal = Journal::sized(journal.size);
    DONE
}

/// Makes a large journal with the same steps kept out of a small one, in a
/// second buffer of which only the length matters: 17 and the large journal,
/// or 4, 1 and none. The small one is left as it was.
pub fn enlarge(journal: &Journal, second_length: usize) -> (u8, Option<Journal>) {
    if journal.condition != Condition::Whole || journal.size != Size::Small {
        return (BAD_JOURNAL, None);
    }
    if Size::of(second_length) != Some(Size::Large) {
        return (SHORT_OUTPUT, None);
    }
    let mut enlarged = Journal::sized(Size::Large);
    enlarged.earlier.extend(&journal.earlier);
    (DONE, Some(enlarged))
}

/// The steps that can be taken back: 17 and their number, or 4 and 0.
pub fn kept(journal: &Journal) -> (u8, usize) {
    if journal.condition == Condition::Whole {
        (DONE, journal.earlier.len())
    } else {
        (BAD_JOURNAL, 0)
    }
}

/// Takes back the newest standing event: 17, or 6, 4, 5. The chip ID is the
/// adapter's own and stays.
pub fn step_back(state: &mut State, journal: &mut Journal) -> u8 {
    if let Some(number) = pair_refusal(state, journal) {
        return number;
    }
    match journal.earlier.pop_back() {
        None => NOTHING_KEPT,
        Some(before) => {
            *state = State {
                id: state.id,
                ..before
            };
            DONE
        }
    }
}

/// A frame body arrives on a port.
pub fn frame(
    state: &mut State,
    journal: &mut Journal,
    port: u32,
    body: &[u8],
    output: &mut [u8],
) -> Answer {
    if let Some(number) = event_refusal(state, journal, output) {
        return Answer::without_frame(number);
    }
    let port = match port {
        0 => 0,
        1 => 1,
        _ => return Answer::without_frame(BAD_ARGUMENT),
    };
    if body.len() < 2 || body.len() > 16 {
        return Answer::without_frame(BODY_LENGTH);
    }
    let before = *state;
    let outcome = frame_outcome(state, port, body);
    conclude(before, journal, outcome, output)
}

/// An SPI transfer is complete; byte 0 of `received` holds bits 7 to 0.
pub fn completion(
    state: &mut State,
    journal: &mut Journal,
    received: &[u8],
    output: &mut [u8],
) -> Answer {
    if let Some(number) = event_refusal(state, journal, output) {
        return Answer::without_frame(number);
    }
    if received.len() != 16 {
        return Answer::without_frame(BAD_ARGUMENT);
    }
    let before = *state;
    let outcome = completion_outcome(state, received);
    conclude(before, journal, outcome, output)
}

/// The transaction of the I2C master on a channel is complete: whether it was
/// acknowledged, whether the line was low before it (anything but 0 is yes),
/// and the bytes received.
pub fn i2c_completion(
    state: &mut State,
    journal: &mut Journal,
    channel: u32,
    acknowledge: u32,
    line_low: u32,
    received: &[u8],
    output: &mut [u8],
) -> Answer {
    if let Some(number) = event_refusal(state, journal, output) {
        return Answer::without_frame(number);
    }
    let channel = match u8::try_from(channel) {
        Ok(channel @ FIRST_MASTER..=LAST_MASTER) => channel,
        _ => return Answer::without_frame(BAD_ARGUMENT),
    };
    if received.len() > MOST_RECEIVED {
        return Answer::without_frame(BAD_ARGUMENT);
    }
    let before = *state;
    let found = bus_flags(acknowledge != 0, line_low != 0);
    let outcome = i2c_outcome(state, channel, found, received);
    conclude(before, journal, outcome, output)
}

/// The pins are sampled: kind 0 by the system clock, 1 by a rising strobe, 2
/// by a falling strobe.
pub fn sample(
    state: &mut State,
    journal: &mut Journal,
    levels: u32,
    kind: u32,
    output: &mut [u8],
) -> Answer {
    if let Some(number) = event_refusal(state, journal, output) {
        return Answer::without_frame(number);
    }
    if kind > MOST_KIND {
        return Answer::without_frame(BAD_ARGUMENT);
    }
    sample_event(state, journal, levels, kind, output)
}

/// The pins are sampled again and again, each sample an event of its own. The
/// bodies sent stand one after the other at the front of the output. Where
/// none is sent, with GPIO disabled too, the number is 17.
pub fn sample_batch(
    state: &mut State,
    journal: &mut Journal,
    samples: &[Sample],
    output: &mut [u8],
) -> BatchAnswer {
    if let Some(number) = batch_refusal(state, journal, samples, output) {
        return BatchAnswer::without_frame(number);
    }
    let mut given = BatchAnswer::without_frame(DONE);
    let mut room = output;
    for Sample { levels, kind } in samples {
        let answer = sample_event(state, journal, *levels, *kind, room);
        if answer.number == FRAME {
            given = BatchAnswer {
                number: FRAME,
                port: answer.port,
                length: answer.length,
                frames: given.frames + 1,
                sum: given.sum + state.gpio.ints.count_ones(),
            };
            room = &mut room[answer.length..];
        }
    }
    given
}

/// A single event upset.
pub fn upset(state: &mut State, journal: &mut Journal, output: &mut [u8]) -> Answer {
    if let Some(number) = event_refusal(state, journal, output) {
        return Answer::without_frame(number);
    }
    let before = *state;
    state.seu = state.seu.wrapping_add(1);
    conclude(before, journal, Outcome::Nothing(DONE), output)
}

fn pair_refusal(state: &State, journal: &Journal) -> Option<u8> {
    if !in_range(state) {
        Some(OUT_OF_RANGE)
    } else if journal.condition != Condition::Whole {
        Some(BAD_JOURNAL)
    } else {
        None
    }
}

fn event_refusal(state: &State, journal: &Journal, output: &[u8]) -> Option<u8> {
    let too_short = if output.len() < EVENT_OUTPUT {
        Some(SHORT_OUTPUT)
    } else {
        None
    };
    pair_refusal(state, journal).or(too_short)
}

/// Looks through all of a batch before any of its samples is taken.
fn batch_refusal(
    state: &State,
    journal: &Journal,
    samples: &[Sample],
    output: &[u8],
) -> Option<u8> {
    let refusal = pair_refusal(state, journal);
    if refusal.is_some() {
        refusal
    } else if output.len() < BATCH_OUTPUT {
        Some(SHORT_OUTPUT)
    } else if samples.len() > MOST_SAMPLES || samples.iter().any(|one| one.kind > MOST_KIND) {
        Some(BAD_ARGUMENT)
    } else {
        None
    }
}

/// Keeps the event, writes what is sent and gives the answer.
fn conclude(before: State, journal: &mut Journal, outcome: Outcome, output: &mut [u8]) -> Answer {
    match outcome {
        Outcome::Nothing(number) => {
            journal.keep(before);
            Answer::without_frame(number)
        }
        Outcome::Sent { port, body } => {
            journal.keep(before);
            sent(port, &body, output)
        }
        Outcome::Reset { port, body } => {
            journal.earlier.clear();
            sent(port, &body, output)
        }
    }
}

fn sent(port: u8, body: &[u8], output: &mut [u8]) -> Answer {
    output[..body.len()].copy_from_slice(body);
    Answer {
        number: FRAME,
        port: u32::from(port),
        length: body.len(),
    }
}

/// The frame checks 1 to 8, in order.
fn frame_outcome(state: &mut State, port: u8, body: &[u8]) -> Outcome {
    let (address, control, information) = (body[0], body[1], &body[2..]);
    if address != 0x00 {
        return Outcome::Nothing(OTHER_ADDRESS);
    }
    if is_command(control) {
        return command_outcome(state, port, control, information);
    }
    if control & 1 == 1 {
        return Outcome::Nothing(UNKNOWN_CONTROL);
    }
    if state.loopback[usize::from(port)] {
        return Outcome::Sent {
            port,
            body: body.to_vec(),
        };
    }
    if port != state.active {
        return Outcome::Nothing(INACTIVE_PORT);
    }
    match <&[u8; 8]>::try_from(information) {
        Ok(information) => numbered_outcome(state, control, information),
        Err(_) => Outcome::Nothing(WRONG_INFORMATION),
    }
}

/// Whether a control is that of CONNECT, RESET or TEST.
pub(crate) fn is_command(control: u8) -> bool {
    matches!(control, 0x2F | 0x3F | 0x8F | 0x9F | 0xE3 | 0xF3)
}

/// CONNECT, RESET or TEST.
fn command_outcome(state: &mut State, port: u8, control: u8, information: &[u8]) -> Outcome {
    if !information.is_empty() {
        return Outcome::Nothing(WRONG_INFORMATION);
    }
    let body = vec![0x00, 0x63 | control & 0x10];
    match control {
        0x2F | 0x3F => {
            connect(state, port);
            Outcome::Sent { port, body }
        }
        0x8F | 0x9F => {
            *state = State::power_on(state.id);
            connect(state, port);
            Outcome::Reset { port, body }
        }
        _ => {
            state.loopback[usize::from(port)] = true;
            Outcome::Sent { port, body }
        }
    }
}

fn connect(state: &mut State, port: u8) {
    state.active = port;
    state.send = 0;
    state.receive = 0;
    state.loopback = [false, false];
}

/// Checks 7 and 8: a numbered frame with a request.
fn numbered_outcome(state: &mut State, control: u8, information: &[u8; 8]) -> Outcome {
    if control >> 1 & 0x07 != state.receive {
        return Outcome::Sent {
            port: state.active,
            body: vec![0x00, 0x0D + 32 * state.receive],
        };
    }
    state.receive = (state.receive + 1) % 8;
    match request::answer(state, information) {
        Some(reply) => send_reply(state, &reply),
        None => Outcome::Nothing(DONE),
    }
}

/// A reply or an interrupt leaves on the active port.
fn send_reply(state: &mut State, reply: &Reply) -> Outcome {
    let control = 2 * state.send + 32 * state.receive;
    state.send = (state.send + 1) % 8;
    let mut body = vec![0x00, control];
    body.extend_from_slice(&reply.information());
    Outcome::Sent {
        port: state.active,
        body,
    }
}

fn completion_outcome(state: &mut State, received: &[u8]) -> Outcome {
    match state.spi.open_go.take() {
        None => Outcome::Nothing(NOT_BUSY),
        Some(transaction) => {
            shift_in(&mut state.spi, received);
            let reply = Reply::to_go(transaction, state.spi.data[0]);
            send_reply(state, &reply)
        }
    }
}

/// The low L bits of DATA become the received ones.
fn shift_in(spi: &mut Spi, received: &[u8]) {
    let length = match spi.control & 0x7F {
        0 => 128,
        some => usize::from(some),
    };
    for place in 0..length {
        let bit = u32::from(received[place / 8] >> (place % 8) & 1);
        let word = &mut spi.data[place / 32];
        *word = *word & !(1 << (place % 32)) | bit << (place % 32);
    }
}

/// The bits of STATUS that a transaction decides.
fn bus_flags(acknowledged: bool, line_low: bool) -> u8 {
    match (acknowledged, line_low) {
        (true, false) => SUCC,
        (true, true) => LEVERR,
        (false, false) => NOACK,
        (false, true) => NOACK | LEVERR,
    }
}

/// Ends the open start with the bits found on the bus; a disabled master has
/// none open.
fn i2c_outcome(state: &mut State, channel: u8, found: u8, received: &[u8]) -> Outcome {
    let master = &mut state.masters[master_place(channel)];
    if !master.busy() {
        return Outcome::Nothing(NOT_BUSY);
    }
    let (transaction, command) = (master.transaction, master.command);
    master.transaction = 0;
    master.command = 0;
    master.status = master.status & INVCOM | found;
    let byte = if found == SUCC {
        take_received(master, command, received)
    } else {
        0
    };
    let reply = Reply::to_start(transaction, channel, command, master.status, byte);
    send_reply(state, &reply)
}

/// A multi-byte read fills DATA up to NBYTE; a single read's byte is given
/// for the reply and kept nowhere. Lacking bytes are 0.
fn take_received(master: &mut Master, command: u8, received: &[u8]) -> u8 {
    let mut bytes = [0; MOST_RECEIVED];
    bytes[..received.len()].copy_from_slice(received);
    match command {
        0x86 | 0x8E => bytes[0],
        0xDE | 0xE6 => {
            let count = master.byte_count();
            master.data[..count].copy_from_slice(&bytes[..count]);
            0
        }
        _ => 0,
    }
}

/// One pin sample that is not refused; room for its body is at the front of
/// the output.
fn sample_event(
    state: &mut State,
    journal: &mut Journal,
    levels: u32,
    kind: u32,
    output: &mut [u8],
) -> Answer {
    let before = *state;
    let outcome = sample_outcome(state, levels, kind);
    conclude(before, journal, outcome, output)
}

fn sample_outcome(state: &mut State, levels: u32, kind: u32) -> Outcome {
    if !state.gpio_enabled() {
        return Outcome::Nothing(GPIO_DISABLED);
    }
    let before = state.gpio.datain;
    let taken = sampled_lines(&state.gpio, kind);
    state.gpio.datain = before & !taken | levels & taken;
    let firing = firing_lines(&state.gpio, before);
    if state.gpio.intenable == 0 || firing == 0 {
        return Outcome::Nothing(DONE);
    }
    state.gpio.ints = firing;
    send_reply(state, &Reply::interrupt(firing))
}

/// The input lines that an edge of this kind samples.
fn sampled_lines(gpio: &Gpio, kind: u32) -> u32 {
    let clocked = match kind {
        0 => !gpio.clksel,
        1 => gpio.clksel & !gpio.edgesel,
        _ => gpio.clksel & gpio.edgesel,
    };
    clocked & !gpio.direction
}

/// The selected lines that rose where INTTRIG is 1, or fell where it is 0:
/// Table 9.7 decides, section 9.2 of the manual says the reverse.
fn firing_lines(gpio: &Gpio, before: u32) -> u32 {
    let rose = gpio.datain & !before;
    let fell = before & !gpio.datain;
    (rose & gpio.inttrig | fell & !gpio.inttrig) & gpio.intsel
}

//! Runs the calls of a stream on both sides, the library and the independent implementation, and
//! compares all that each call gives and leaves.

use crate::bits::{bits_of, buffer_of};
use crate::calls::Call;
use crate::fault::Fault;
use crate::harness::output::Output;
use crate::harness::same::{same, Checked};
use crate::receiver::{in_range, way_to};
use reference::link;
use reference::numbers::{ABORTED, DONE, FRAME, OUT_OF_RANGE, TOO_LONG, UNREADABLE};
use sca::boundary::{self, RawReceived, RawSent};
use sca::RECEIVER_BYTES;

/// How often each thing was seen, over all streams.
pub struct Tally {
    pub calls: u64,
    pub bits: u64,
    pub read: [u64; 256],
    pub spelled: [u64; 256],
    pub reached: u64,
    pub sent: [u64; 256],
    pub made: [u64; 256],
    pub bodies_read: [u64; 17],
    pub bodies_sent: [u64; 17],
    pub start_places: [u64; 8],
}

impl Tally {
    pub fn new() -> Tally {
        Tally {
            calls: 0,
            bits: 0,
            read: [0; 256],
            spelled: [0; 256],
            reached: 0,
            sent: [0; 256],
            made: [0; 256],
            bodies_read: [0; 17],
            bodies_sent: [0; 17],
            start_places: [0; 8],
        }
    }
}

fn refused(number: u8) -> bool {
    (1..=UNREADABLE).contains(&number)
}

fn new_receiver() -> Vec<u8> {
    let mut receiver = vec![0; RECEIVER_BYTES];
    boundary::sca_receiver_new(&mut receiver);
    receiver
}

/// Both sides of a stream.
pub struct Run<'a> {
    ours: Vec<u8>,
    theirs: link::Receiver,
    /// All bits read since the receiver was new.
    heard: Vec<bool>,
    tally: &'a mut Tally,
    fault: Option<Fault>,
    /// The fault was laid in; it is laid in once.
    pub faulted: bool,
}

impl<'a> Run<'a> {
    pub fn new(tally: &'a mut Tally, fault: Option<Fault>) -> Run<'a> {
        Run {
            ours: new_receiver(),
            theirs: link::Receiver::new(),
            heard: Vec::new(),
            tally,
            fault,
            faulted: false,
        }
    }

    /// The calls one after the other; where they differ, which call and how.
    pub fn all(&mut self, calls: &[Call]) -> Checked {
        for (at, call) in calls.iter().enumerate() {
            self.call(call).map_err(|how| format!("call {}, {}", at + 1, how))?;
        }
        self.heard_at_once()
    }

    fn call(&mut self, call: &Call) -> Checked {
        match call {
            Call::New { length } => self.make(*length),
            Call::Read { input, start, room } => self.read_buffer(&input.whole(), *start, *room),
            Call::Spelled {
                receiver,
                input,
                start,
                room,
            } => self.read_spelled(receiver, &input.whole(), *start, *room),
            Call::Send { body, room } => self.send(body, *room),
        }
    }

    /// Whether to change our side here.
    fn lay(&mut self, fault: Fault, applies: bool) -> bool {
        let now = applies && self.fault == Some(fault) && !self.faulted;
        self.faulted |= now;
        now
    }

    fn make(&mut self, length: usize) -> Checked {
        let before: Vec<u8> = (0..length).map(|at| at as u8 ^ 0xC3).collect();
        let mut receiver = before.clone();
        let number = boundary::sca_receiver_new(&mut receiver) as u8;
        self.tally.calls += 1;
        self.tally.made[usize::from(number)] += 1;
        if length != RECEIVER_BYTES {
            same("number", number, OUT_OF_RANGE)?;
            return same("receiver", receiver, before);
        }
        if self.lay(Fault::NewReceiver, true) {
            receiver[1] = 0;
        }
        let mut hunting = vec![0; RECEIVER_BYTES];
        hunting[1] = 7;
        same("number", number, DONE)?;
        same("receiver", &receiver, &hunting)?;
        self.heard_at_once()?;
        self.ours = receiver;
        self.theirs = link::Receiver::new();
        self.heard.clear();
        Ok(())
    }

    fn read_buffer(&mut self, input: &[u8], start: usize, room: usize) -> Checked {
        let mut start = start;
        loop {
            let mut ours = self.ours.clone();
            let mut theirs = self.theirs.clone();
            let received = self.read(&mut ours, &mut theirs, input, start, room)?;
            self.ours = ours;
            self.theirs = theirs;
            self.tally.read[usize::from(received.number)] += 1;
            self.tally.start_places[start % 8] += 1;
            if refused(received.number) {
                return Ok(());
            }
            self.hear(input, start, received.consumed);
            if received.number == DONE {
                return same("bits consumed in all", start + received.consumed, 8 * input.len());
            }
            start += received.consumed;
        }
    }

    fn hear(&mut self, input: &[u8], start: usize, consumed: usize) {
        let read = (start..start + consumed).map(|at| input[at / 8] >> (at % 8) & 1 == 1);
        self.heard.extend(read);
        self.tally.bits += consumed as u64;
    }

    /// One call on both sides, compared.
    fn read(
        &mut self,
        ours: &mut [u8],
        theirs: &mut link::Receiver,
        input: &[u8],
        start: usize,
        room: usize,
    ) -> Result<RawReceived, String> {
        let mut expected = Output::new(room);
        let (number, consumed, length) = theirs.receive(input, start, expected.lent());
        let theirs = RawReceived {
            number,
            consumed,
            length,
        };

        let before = ours.to_vec();
        let mut cable = input.to_vec();
        if self.lay(Fault::Cable, number == FRAME && consumed > 24) {
            let at = start + consumed - 20;
            cable[at / 8] ^= 1 << (at % 8);
        }
        let lent_cable = cable.clone();
        let mut output = Output::new(room);
        let mut received = boundary::sca_receive(ours, &cable, start, output.lent());
        self.tally.calls += 1;
        self.change_reading(&mut received, &mut output, ours);

        same("number", received.number, theirs.number)?;
        same("bits consumed", received.consumed, theirs.consumed)?;
        same("length", received.length, theirs.length)?;
        same("output", output, expected)?;
        same("cable", cable, lent_cable)?;
        if received.number == FRAME {
            self.tally.bodies_read[received.length] += 1;
        }
        self.left_right(received.number, ours, &before)?;
        Ok(received)
    }

    /// A refused receiver is as it was, and any other is in range.
    fn left_right(&self, number: u8, receiver: &[u8], before: &[u8]) -> Checked {
        if refused(number) {
            same("refused receiver", receiver, before)
        } else {
            same("returned receiver in range", in_range(receiver), true)
        }
    }

    fn change_reading(&mut self, received: &mut RawReceived, output: &mut Output, receiver: &mut [u8]) {
        let body = received.number == FRAME;
        if self.lay(Fault::Number, true) {
            received.number ^= 1;
        }
        if self.lay(Fault::Consumed, received.consumed > 0) {
            received.consumed -= 1;
        }
        if self.lay(Fault::Length, body) {
            received.length -= 1;
        }
        if self.lay(Fault::Body, body) {
            output.lent()[received.length - 1] ^= 0x10;
        }
        if self.lay(Fault::OutputAfterBody, body && output.lent().len() > received.length) {
            output.lent()[received.length] ^= 0x80;
        }
        if self.lay(Fault::OutsideOutput, true) {
            *output.bytes.last_mut().unwrap() ^= 1;
        }
        if self.lay(Fault::RefusedReceiver, refused(received.number) && !receiver.is_empty()) {
            receiver[0] ^= 1;
        }
        if self.lay(Fault::ReturnedReceiver, !refused(received.number)) {
            receiver[RECEIVER_BYTES - 1] ^= 0x80;
        }
    }

    /// A receiver of any bytes: refused out of range; compared with theirs where some bits lead to it;
    /// and where none do, held to what every answer must be.
    fn read_spelled(&mut self, receiver: &[u8], input: &[u8], start: usize, room: usize) -> Checked {
        let mut ours = receiver.to_vec();
        if in_range(receiver) {
            if let Some(mut theirs) = self.led_to(receiver) {
                self.tally.reached += 1;
                let received = self.read(&mut ours, &mut theirs, input, start, room)?;
                self.tally.spelled[usize::from(received.number)] += 1;
                return Ok(());
            }
        }
        let mut output = Output::new(room);
        let mut received = boundary::sca_receive(&mut ours, input, start, output.lent());
        self.tally.calls += 1;
        self.tally.spelled[usize::from(received.number)] += 1;
        self.change_reading(&mut received, &mut output, &mut ours);
        if !in_range(receiver) {
            same("number", received.number, OUT_OF_RANGE)?;
        } else if let Some(number) = refusal_of_arguments(input, start, room) {
            same("number", received.number, number)?;
        } else {
            let known = matches!(received.number, FRAME | DONE | TOO_LONG..=ABORTED);
            same("an answer", known, true)?;
        }
        let is_body = received.number == FRAME;
        same("a body's length", (2..=16).contains(&received.length), is_body)?;
        same("length", received.length == 0, !is_body)?;
        if refused(received.number) {
            same("bits consumed", received.consumed, 0)?;
        } else if received.number == DONE {
            same("bits consumed", start + received.consumed, 8 * input.len())?;
        } else {
            same(
                "bits there to consume",
                start + received.consumed <= 8 * input.len(),
                true,
            )?;
        }
        let mut expected = Output::new(room);
        expected.lent()[..received.length].copy_from_slice(&output.lent()[..received.length]);
        same("output", output, expected)?;
        self.left_right(received.number, &ours, receiver)
    }

    /// Their receiver after the bits that lead ours to these bytes, if those do.
    fn led_to(&mut self, receiver: &[u8]) -> Option<link::Receiver> {
        let (input, start) = buffer_of(&way_to(receiver), true);
        let (mut ours, mut theirs) = (new_receiver(), link::Receiver::new());
        let mut output = [0; 16];
        boundary::sca_receive(&mut ours, &input, start, &mut output);
        theirs.receive(&input, start, &mut output);
        if ours == receiver {
            Some(theirs)
        } else {
            None
        }
    }

    fn send(&mut self, body: &[u8], room: usize) -> Checked {
        let mut expected = Output::new(room);
        let (number, count) = link::transmit(body, expected.lent());
        let mut output = Output::new(room);
        let mut sent = boundary::sca_transmit(body, output.lent());
        self.tally.calls += 1;
        self.tally.sent[usize::from(sent.number)] += 1;
        self.change_sending(&mut sent, &mut output);
        same("number", sent.number, number)?;
        same("count", sent.count, count)?;
        same("output", &output, &expected)?;
        if number == FRAME {
            self.tally.bodies_sent[body.len()] += 1;
            self.across(body, &output.lent()[..count], &expected.lent()[..count])?;
        }
        Ok(())
    }

    fn change_sending(&mut self, sent: &mut RawSent, output: &mut Output) {
        let frame = sent.number == FRAME;
        if self.lay(Fault::FrameByte, frame) {
            output.lent()[sent.count / 2] ^= 1;
        }
        if self.lay(Fault::OutputAfterFrame, frame && output.lent().len() > sent.count) {
            output.lent()[sent.count] ^= 1;
        }
        if self.lay(Fault::FrameCount, frame) {
            sent.count += 1;
        }
    }

    /// Our frame read by them, and theirs by us: the body comes back.
    fn across(&mut self, body: &[u8], our_frame: &[u8], their_frame: &[u8]) -> Checked {
        let mut output = [0; 16];
        let (number, _, length) = link::Receiver::new().receive(our_frame, 0, &mut output);
        same("our frame read by them", (number, &output[..length]), (FRAME, body))?;
        let mut output = [0; 16];
        let read = boundary::sca_receive(&mut new_receiver(), their_frame, 0, &mut output);
        same(
            "their frame read by us",
            (read.number, &output[..read.length]),
            (FRAME, body),
        )
    }

    /// The receiver depends on the bits that it has heard, and not on how they were cut into buffers:
    /// heard from one buffer, they leave the same bytes.
    fn heard_at_once(&mut self) -> Checked {
        let (input, mut start) = buffer_of(&self.heard, false);
        let mut receiver = new_receiver();
        let mut output = [0; 16];
        while start < 8 * input.len() {
            let received = boundary::sca_receive(&mut receiver, &input, start, &mut output);
            self.tally.calls += 1;
            if refused(received.number) {
                return Ok(()); // more bits than one call takes
            }
            start += received.consumed;
        }
        same("receiver, the bits heard at once", &receiver, &self.ours)
    }
}

/// 8, 9 and 1, in this order.
fn refusal_of_arguments(input: &[u8], start: usize, room: usize) -> Option<u8> {
    let mut output = vec![0; room];
    let (number, _, _) = link::Receiver::new().receive(input, start, &mut output);
    Some(number).filter(|number| refused(*number))
}

/// The bits of a frame that the library or the other side makes, without those that fill its last byte.
pub fn frame_bits(body: &[u8], by_library: bool) -> Vec<bool> {
    let mut output = [0; 24];
    let count = if by_library {
        boundary::sca_transmit(body, &mut output).count
    } else {
        link::transmit(body, &mut output).1
    };
    let mut bits = bits_of(&output[..count]);
    while bits.last() == Some(&true) {
        bits.pop();
    }
    bits
}

//! The chip's end: a state and its journal, and their events.

use super::{same, same_bytes, Checked, Run};
use crate::calls::{Call, Lent, Way};
use crate::fault::Fault;
use crate::image::{bytes_of, state_in};
use crate::made::refused;
use crate::queue::Kind;
use crate::tables::SPI;
use reference::adapter::{self, Journal, State};
use reference::numbers::{DONE, FRAME};
use sca::boundary::{self, RawAnswer};
use sca::{JOURNAL_BYTES, STATE_BYTES};

/// Where a state has its receive number, its active port, and its ports' loopback.
const RECEIVE_AT: usize = 1;
const ACTIVE_AT: usize = 2;
const LOOPBACK_AT: usize = 3;

pub enum Event<'a> {
    Frame {
        port: u32,
        body: &'a [u8],
    },
    Completion {
        received: &'a [u8],
    },
    I2cCompletion {
        channel: u32,
        acknowledge: u32,
        line_low: u32,
        received: &'a [u8],
    },
    Sample {
        levels: u32,
        kind: u32,
    },
    Upset,
}

/// A state and a journal: the library's bytes, and what they are expected to be.
pub struct Chip {
    state: Vec<u8>,
    journal: Vec<u8>,
    expected: State,
    earlier: Journal,
}

impl Chip {
    pub fn new(id: u32) -> Chip {
        let mut chip = Chip {
            state: vec![0; STATE_BYTES],
            journal: vec![0; JOURNAL_BYTES],
            expected: State::power_on(id),
            earlier: Journal::new(),
        };
        boundary::sca_create(&mut chip.state, id);
        boundary::sca_empty(&mut chip.journal);
        chip
    }

    /// The port that a body arrives on.
    pub fn port(&self, way: Way) -> u32 {
        u32::from(self.state[ACTIVE_AT]) ^ u32::from(way == Way::Other)
    }

    pub fn looped(&self, port: u32) -> bool {
        self.state[LOOPBACK_AT + port as usize] != 0
    }

    /// Whether a body has the number that is due.
    pub fn expects(&self, body: &[u8]) -> bool {
        self.expects_number(body[1] >> 1 & 0x07)
    }

    pub fn expects_number(&self, number: u8) -> bool {
        number == self.state[RECEIVE_AT]
    }

    fn by_library(&mut self, event: &Event, output: &mut [u8]) -> RawAnswer {
        let (state, journal) = (&mut self.state, &mut self.journal);
        match *event {
            Event::Frame { port, body } => boundary::sca_frame(state, journal, port, body, output),
            Event::Completion { received } => boundary::sca_completion(state, journal, received, output),
            Event::I2cCompletion {
                channel,
                acknowledge,
                line_low,
                received,
            } => boundary::sca_i2c_completion(state, journal, channel, acknowledge, line_low, received, output),
            Event::Sample { levels, kind } => boundary::sca_sample(state, journal, levels, kind, output),
            Event::Upset => boundary::sca_upset(state, journal, output),
        }
    }

    fn by_reference(&mut self, event: &Event, output: &mut [u8]) -> RawAnswer {
        let (state, journal) = (&mut self.expected, &mut self.earlier);
        let answer = match *event {
            Event::Frame { port, body } => adapter::frame(state, journal, port, body, output),
            Event::Completion { received } => adapter::completion(state, journal, received, output),
            Event::I2cCompletion {
                channel,
                acknowledge,
                line_low,
                received,
            } => adapter::i2c_completion(state, journal, channel, acknowledge, line_low, received, output),
            Event::Sample { levels, kind } => adapter::sample(state, journal, levels, kind, output),
            Event::Upset => adapter::upset(state, journal, output),
        };
        RawAnswer {
            number: answer.number,
            length: answer.length,
            port: answer.port,
        }
    }

    /// The state's bytes, the state field by field, and the kept number.
    fn left(&self) -> Checked {
        let kept = boundary::sca_kept(&self.journal);
        same_bytes("the state", &self.state, &bytes_of(&self.expected))?;
        same("the state's fields", state_in(&self.state), Some(self.expected))?;
        same(
            "the kept number",
            (kept.number, kept.kept),
            adapter::kept(&self.earlier),
        )
    }
}

/// What a frame that the chip sends is.
pub fn kind_of(body: &[u8], looped: bool) -> Kind {
    match body {
        _ if looped => Kind::Echo,
        [_, control] if control & 0x1F == 0x0D => Kind::Reject,
        [_, _] => Kind::Acknowledgement,
        _ => Kind::Reply,
    }
}

impl Run<'_> {
    pub(super) fn new_chip(&mut self, id: u32) -> Checked {
        self.chip = Chip::new(id);
        self.ledger.forget_started();
        self.to_chip.lose_step();
        self.compared(|| self.chip.left())
    }

    /// An event on both sides: its number and the body that it sends; nothing where it was refused.
    pub(super) fn event(&mut self, event: &Event, lent: Lent) -> Result<Option<(u8, Vec<u8>)>, String> {
        let (mut ours, mut expected_output) = (lent.output(), lent.output());
        let mut answer = self.chip.by_library(event, ours.lent());
        let expected = self.chip.by_reference(event, expected_output.lent());
        self.tally.events[usize::from(expected.number)] += 1;
        let mut body = ours.lent()[..answer.length].to_vec();
        if self.laying.lay(Fault::ChipNumber, true) {
            answer.number += 1;
        }
        if self.laying.lay(Fault::ChipTransaction, body.len() == 10) {
            ours.lent()[2] ^= 1;
            body[2] ^= 1;
        }
        if self.laying.lay(Fault::ChipState, true) {
            self.chip.state[12] ^= 1;
        }
        if self.laying.lay(Fault::ChipKept, true) {
            self.chip.journal[6] ^= 1;
        }
        self.compared(|| {
            same("the answer", answer, expected)?;
            same("the output", &ours, &expected_output)?;
            self.chip.left()
        })?;
        Ok(Some((answer.number, body)).filter(|_| !refused(answer.number)))
    }

    /// What happens to the chip besides frames.
    pub(super) fn chip_event(&mut self, call: &Call) -> Checked {
        let (event, lent, ends) = match call {
            Call::Completion { received, lent } => (Event::Completion { received }, lent, Some(SPI)),
            Call::I2cCompletion {
                channel,
                acknowledge,
                line_low,
                received,
                lent,
            } => {
                let event = Event::I2cCompletion {
                    channel: *channel,
                    acknowledge: *acknowledge,
                    line_low: *line_low,
                    received,
                };
                (event, lent, Some(*channel as u8))
            }
            Call::Sample { levels, kind, lent } => {
                let (levels, kind) = (*levels, *kind);
                (Event::Sample { levels, kind }, lent, None)
            }
            Call::Upset { lent } => (Event::Upset, lent, None),
            _ => unreachable!("no event: {}", call),
        };
        if let Some((FRAME, body)) = self.event(&event, *lent)? {
            match ends {
                Some(channel) => self.to_room.send(body, Kind::Completed, self.ledger.ends(channel)),
                None => self.to_room.send(body, Kind::Interrupt, None),
            }
        }
        Ok(())
    }

    pub(super) fn step_back(&mut self) -> Checked {
        let answer = boundary::sca_step_back(&mut self.chip.state, &mut self.chip.journal);
        let number = adapter::step_back(&mut self.chip.expected, &mut self.chip.earlier);
        self.tally.steps_back[usize::from(number)] += 1;
        if number == DONE {
            self.ledger.forget_started();
            self.to_chip.lose_step();
        }
        let expected = RawAnswer {
            number,
            length: 0,
            port: 0,
        };
        self.compared(|| {
            same("the answer", answer, expected)?;
            self.chip.left()
        })
    }
}

//! How often each thing was seen, over all runs.

use crate::batches::{Batches, Seen};
use crate::calls::Call;
use crate::journals::{Found, Journals, Kind};
use crate::masters::{End, Masters};
use crate::record::{CRB, CRD};
use crate::run::refused;
use reference::adapter::{Gpio, State};
use reference::numbers::{BAD_ARGUMENT, BAD_JOURNAL, DONE, FRAME, OTHER_ADDRESS, WRONG_INFORMATION};
use sca::boundary::RawAnswer;
use std::collections::BTreeSet;

/// What a step back is on.
#[derive(Clone, Copy, PartialEq, Eq, Debug)]
pub enum Back {
    /// A state and the journal that went with it.
    Together,
    /// Another state than the one that the newest event happened to.
    Apart,
    /// A journal with a byte altered, or of another length.
    Altered,
}

/// A step back, and what it found.
pub struct Step {
    pub number: u8,
    pub back: Back,
    /// The tag of the newest record, if there is one.
    pub tag: Option<u8>,
    /// How many of the newest records are of batches' samples.
    pub sampled: usize,
    pub journal: Found,
}

/// With bit 4 clear.
const CONNECT: u8 = 0x2F;
const RESET: u8 = 0x8F;

/// Whether a body is a RESET that is accepted.
pub fn is_reset(body: &[u8]) -> bool {
    matches!(body, [0x00, control] if control & 0xEF == RESET)
}

pub struct Tally {
    pub calls: u64,
    pub events: u64,
    pub create: [u64; 256],
    pub empty: [u64; 256],
    pub kept: [u64; 256],
    pub frame: [u64; 256],
    pub completion: [u64; 256],
    pub i2c_completion: [u64; 256],
    pub sample: [u64; 256],
    pub upset: [u64; 256],
    pub step_back: [u64; 256],
    /// Steps back of a state that the journal did not go with.
    pub apart_back: [u64; 256],
    /// Steps back in journals with a byte altered or of another length.
    pub altered_back: [u64; 256],
    /// Records by their tag: all, and those of frames that were dropped.
    pub tags: [u64; 256],
    pub dropped_tags: [u64; 256],
    /// Those that took the state which they went with back, and another.
    pub tags_back: [u64; 256],
    pub tags_back_apart: [u64; 256],
    /// Steps back that were refused for a tag that there is not.
    pub unknown_tags: u64,
    /// The ERR bytes of replies.
    pub errors: [u64; 256],
    /// Ports that are 0 or 1 in their low byte alone, where they were the reason to refuse; edge kinds 0 to 2 likewise.
    pub wide_ports: u64,
    pub wide_kinds: u64,
    /// CH and CMD of requests that were carried out.
    pub commands: BTreeSet<(u8, u8)>,
    /// Bits 6 to 0 of CONTROL at completions that were answered.
    pub transfers: [u64; 128],
    /// Interrupts, by edge kind.
    pub interrupts: [u64; 3],
    /// Samples with INTENABLE 1 in which a line rose (4 of the place) or fell, with INTTRIG (2) and INTSEL (1) of that line.
    pub edges: [u64; 8],
    pub rejects: u64,
    pub loops: u64,
    pub acknowledged: [u64; 256],
    pub go_dropped: u64,
    pub go_connected: u64,
    pub counter_wrapped: u64,
    pub masters: Masters,
    pub batches: Batches,
    pub journals: Journals,
}

impl Tally {
    pub fn new() -> Tally {
        Tally {
            calls: 0,
            events: 0,
            create: [0; 256],
            empty: [0; 256],
            kept: [0; 256],
            frame: [0; 256],
            completion: [0; 256],
            i2c_completion: [0; 256],
            sample: [0; 256],
            upset: [0; 256],
            step_back: [0; 256],
            apart_back: [0; 256],
            altered_back: [0; 256],
            tags: [0; 256],
            dropped_tags: [0; 256],
            tags_back: [0; 256],
            tags_back_apart: [0; 256],
            unknown_tags: 0,
            errors: [0; 256],
            wide_ports: 0,
            wide_kinds: 0,
            commands: BTreeSet::new(),
            transfers: [0; 128],
            interrupts: [0; 3],
            edges: [0; 8],
            rejects: 0,
            loops: 0,
            acknowledged: [0; 256],
            go_dropped: 0,
            go_connected: 0,
            counter_wrapped: 0,
            masters: Masters::new(),
            batches: Batches::new(),
            journals: Journals::new(),
        }
    }

    /// An event's call, the state before and after it, and what it gave.
    pub fn event(
        &mut self,
        call: &Call,
        before: &Option<State>,
        after: &Option<State>,
        answer: &RawAnswer,
        output: &[u8],
    ) {
        self.events += 1;
        let number = usize::from(answer.number);
        let (state, after) = (before.unwrap_or_default(), after.unwrap_or_default());
        let frame = answer.number == FRAME;
        let sent = &output[..answer.length];
        if !refused(answer.number) {
            self.masters.left(&after);
        }
        match call {
            Call::Frame { port, body, .. } => {
                self.frame[number] += 1;
                self.wide_ports += u64::from(answer.number == BAD_ARGUMENT && port & 0xFF <= 1);
                if !refused(answer.number) {
                    self.exchanged(&state, &after, body, answer.number, sent);
                }
            }
            Call::Completion { .. } => {
                self.completion[number] += 1;
                self.transfers[usize::from(state.spi.control & 0x7F)] += u64::from(frame);
            }
            Call::I2cCompletion {
                channel,
                acknowledge,
                line_low,
                received,
                ..
            } => {
                self.i2c_completion[number] += 1;
                let end = End {
                    channel: *channel,
                    acknowledge: *acknowledge != 0,
                    line_low: *line_low != 0,
                    received,
                };
                self.masters.completed(&end, &state, &after, answer.number, sent);
            }
            Call::Sample { kind, .. } => {
                self.sample[number] += 1;
                self.wide_kinds += u64::from(answer.number == BAD_ARGUMENT && kind & 0xFF <= 2);
                if frame {
                    self.interrupts[*kind as usize] += 1;
                }
                if !refused(answer.number) && state.gpio.intenable == 1 {
                    self.moved(&state.gpio, after.gpio.datain);
                }
            }
            _ => {
                self.upset[number] += 1;
                self.counter_wrapped += u64::from(answer.number == DONE && state.seu == u32::MAX);
            }
        }
    }

    /// A batch of pin samples.
    pub fn batch(&mut self, seen: &Seen) {
        self.events += 1;
        if !refused(seen.answer.number) {
            self.masters.left(&seen.after);
            for taken in seen.taken {
                self.recorded(CRB, taken.number);
            }
        }
        self.batches.seen(seen);
        self.journals.seen(Kind::Batch, &seen.journal, seen.answer.number);
    }

    /// Lines that a sample moved to these levels.
    fn moved(&mut self, gpio: &Gpio, levels: u32) {
        for place in 0..self.edges.len() {
            let lines = |bit: usize, set: u32| if place & bit == 0 { !set } else { set };
            let seen = (gpio.datain ^ levels) & lines(4, levels) & lines(2, gpio.inttrig) & lines(1, gpio.intsel);
            self.edges[place] += u64::from(seen != 0);
        }
    }

    /// A frame that was not refused, and what went out.
    fn exchanged(&mut self, state: &State, after: &State, body: &[u8], number: u8, sent: &[u8]) {
        let go = state.spi.open_go.is_some();
        match (body, sent) {
            ([_, _, _, channel, _, command, ..], [_, _, _, _, error, ..]) if sent != body => {
                self.masters.requested(body, sent, state, after);
                self.errors[usize::from(*error)] += 1;
                if *error == 0 {
                    self.commands.insert((*channel, *command));
                    let disabled = (*channel, *command) == (0x00, 0x02) && body[7] & 0x02 == 0;
                    self.go_dropped += u64::from(go && disabled);
                }
            }
            // GO, or an I2C start
            ([_, _, _, channel, _, command, ..], []) if number == DONE => {
                self.masters.requested(body, sent, state, after);
                self.commands.insert((*channel, *command));
            }
            ([_, control], [_, acknowledgement]) if sent != body => {
                self.acknowledged[usize::from(*control)] += u64::from(acknowledgement & 0x63 == 0x63);
                match control & 0xEF {
                    CONNECT => {
                        self.go_connected += u64::from(go);
                        self.masters.was_connected(after);
                    }
                    RESET => self.masters.was_reset(state, after),
                    _ => {}
                }
            }
            (_, [_, control]) if control & 0x1F == 0x0D && sent != body => self.rejects += 1,
            _ => self.loops += u64::from(sent == body),
        }
    }

    /// An event's record, and what it gave.
    pub fn recorded(&mut self, tag: u8, number: u8) {
        self.tags[usize::from(tag)] += 1;
        self.dropped_tags[usize::from(tag)] += u64::from((OTHER_ADDRESS..=WRONG_INFORMATION).contains(&number));
    }

    pub fn step_back(&mut self, step: &Step) {
        self.events += 1;
        self.journals.seen(Kind::StepBack, &step.journal, step.number);
        if step.number == DONE && step.sampled > 0 {
            self.batches.stepped_back(&step.journal, step.sampled);
        }
        let (counts, tags) = match step.back {
            Back::Together => (&mut self.step_back, Some(&mut self.tags_back)),
            Back::Apart => (&mut self.apart_back, Some(&mut self.tags_back_apart)),
            Back::Altered => (&mut self.altered_back, None),
        };
        counts[usize::from(step.number)] += 1;
        if let (DONE, Some(tags), Some(tag)) = (step.number, tags, step.tag) {
            tags[usize::from(tag)] += 1;
        }
        if step.back == Back::Altered {
            self.unknown_tags += u64::from(step.number == BAD_JOURNAL && step.tag.map_or(false, |tag| tag > CRD));
        }
    }
}

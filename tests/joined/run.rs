//! Runs the calls of a run on both sides, the library and the independent implementation, with the control room's end and the chip's
//! joined, and compares all that each call gives and leaves.

mod cable;
mod chip;
mod room;
mod ways;

use crate::calls::Call;
use crate::fault::{Fault, Judge, Laying};
use crate::harness::same::{same, same_bytes, Checked};
use crate::ledger::Ledger;
use crate::queue::Queue;
use crate::tally::Tally;
use chip::Chip;
use room::Room;

/// The chip that a run starts with.
const FIRST_ID: u32 = 0x00_000A;

/// Both ends, on both sides, and what is on its way between them.
pub struct Run<'a> {
    room: Room,
    chip: Chip,
    to_chip: Queue,
    to_room: Queue,
    ledger: Ledger,
    tally: &'a mut Tally,
    judge: Judge,
    laying: Laying,
}

impl<'a> Run<'a> {
    pub fn new(tally: &'a mut Tally, fault: Option<Fault>, judge: Judge) -> Run<'a> {
        Run {
            room: Room::new(),
            chip: Chip::new(FIRST_ID),
            to_chip: Queue::default(),
            to_room: Queue::default(),
            ledger: Ledger::new(),
            tally,
            judge,
            laying: Laying::new(fault),
        }
    }

    /// Whether the fault was laid in.
    pub fn faulted(&self) -> bool {
        self.laying.laid
    }

    /// The calls one after the other; where they differ, which call and how.
    pub fn all(&mut self, calls: &[Call]) -> Checked {
        for (at, call) in calls.iter().enumerate() {
            self.call(call)
                .map_err(|how| format!("call {}, {}: {}", at + 1, call, how))?;
        }
        Ok(())
    }

    /// A comparison with the independent implementation, where it is to judge.
    fn compared(&self, compare: impl FnOnce() -> Checked) -> Checked {
        match self.judge {
            Judge::Reference => compare(),
            _ => Ok(()),
        }
    }

    fn call(&mut self, call: &Call) -> Checked {
        self.tally.calls += 1;
        match call {
            Call::NewRecord { length } => self.new_record(*length),
            Call::Adopt { record } => self.adopt(record),
            Call::NewChip { id } => self.new_chip(*id),
            Call::Request { .. } | Call::Command { .. } | Call::Reply { .. } => self.room_call(call),
            Call::ToChip { turn, way, lent } => self.turn_to_chip(*turn, *way, *lent),
            Call::ToRoom { turn, lent } => self.turn_to_room(*turn, *lent),
            Call::Silence => self.silence(),
            Call::StepBack => self.step_back(),
            Call::Damaged { damage, call } => self.damaged(damage, call),
            _ => self.chip_event(call),
        }
    }
}

//! The way over: as it is, altered, or by cable.

use super::{same, same_bytes, Checked, Run};
use crate::calls::Passage;
use crate::facts::promised;
use crate::fault::Fault;
use crate::harness::output::Output;
use reference::link;
use reference::numbers::{DONE, FRAME};
use sca::boundary;
use sca::{CABLE_MOST, OUTPUT_LEAST, RECEIVER_BYTES};

/// What a byte is that a body is lengthened by.
const FILL: u8 = 0x55;

impl Run<'_> {
    /// What arrives of a body; none where it is lost on the cable.
    pub(super) fn pass(&mut self, body: &[u8], passage: Passage) -> Result<Option<Vec<u8>>, String> {
        let mut passed = body.to_vec();
        match passage {
            Passage::Whole => {}
            Passage::Put { at, byte } => {
                let at = at % body.len();
                passed[at] = byte;
            }
            Passage::Length(length) => passed.resize(length, FILL),
            Passage::Cable => {
                let cable = self.framed(body)?;
                let heard = self.heard(&cable)?;
                let back = heard.as_deref() == Some(body);
                promised("a framed body comes back from a new receiver", back)?;
            }
            Passage::BrokenCable { bit } => {
                let mut cable = self.framed(body)?;
                let at = 8 * cable.len() - 1 - bit % (8 * cable.len());
                cable[at / 8] ^= 1 << (at % 8);
                return self.heard(&cable);
            }
        }
        Ok(Some(passed))
    }

    /// The cable that a body is framed to, on both sides.
    fn framed(&mut self, body: &[u8]) -> Result<Vec<u8>, String> {
        let (mut ours, mut expected) = (Output::new(CABLE_MOST), Output::new(CABLE_MOST));
        let sent = boundary::sca_transmit(body, ours.lent());
        let due = link::transmit(body, expected.lent());
        if self.laying.lay(Fault::Cable, sent.number == FRAME) {
            ours.lent()[2] ^= 0x10;
        }
        self.tally.framed += 1;
        self.compared(|| {
            same("a framing", (sent.number, sent.count), due)?;
            same_bytes("the cable", &ours.bytes, &expected.bytes)
        })?;
        Ok(ours.lent()[..sent.count].to_vec())
    }

    /// The first body that a new receiver reads from a cable, on both sides.
    fn heard(&mut self, cable: &[u8]) -> Result<Option<Vec<u8>>, String> {
        let mut receiver = vec![0; RECEIVER_BYTES];
        let made = boundary::sca_receiver_new(&mut receiver);
        promised("a new receiver", made == u64::from(DONE))?;
        let mut theirs = link::Receiver::new();
        let (mut start, mut first) = (0, None);
        loop {
            let (mut ours, mut expected) = (Output::new(OUTPUT_LEAST), Output::new(OUTPUT_LEAST));
            let read = boundary::sca_receive(&mut receiver, cable, start, ours.lent());
            let due = theirs.receive(cable, start, expected.lent());
            let body = read.number == FRAME;
            if self.laying.lay(Fault::Received, body) {
                ours.lent()[read.length - 1] ^= 1;
            }
            self.tally.heard[usize::from(read.number)] += 1;
            self.compared(|| -> Checked {
                same("a reading", (read.number, read.consumed, read.length), due)?;
                same_bytes("the body read", &ours.bytes, &expected.bytes)
            })?;
            if body && first.is_none() {
                first = Some(ours.lent()[..read.length].to_vec());
            }
            start += read.consumed;
            // 17 where the bits have run out
            if read.number == DONE || read.consumed == 0 {
                return Ok(first);
            }
        }
    }
}

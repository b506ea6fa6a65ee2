//! The adapter: a state and the journal that goes with it.

use crate::answers::{done, dropped, looked_at, Answer, Batch, Edge, Port, Refusal, Sample};
use crate::boundary::{self, RawAnswer, RawSample};
use crate::bytes::{Bodies, Body};
use crate::sizes::{
    JournalSize, BATCH_LEAST, LARGE_JOURNAL_BYTES, OUTPUT_LEAST, SAMPLES_MOST, STATE_BYTES, TRANSFER_BYTES,
};
use std::borrow::Borrow;

/// A slow control adapter with its journal.
///
/// Every event that is not refused is kept, dropped ones too, and can be taken back by [`Adapter::step_back`]; of more
/// events than the journal keeps, [`crate::KEPT_MOST`] or, with a large one, [`crate::LARGE_KEPT_MOST`], the oldest is
/// given up. An accepted RESET empties the journal.
#[derive(Clone, PartialEq, Eq, Debug)]
pub struct Adapter {
    state: [u8; STATE_BYTES],
    journal: Vec<u8>,
}

/// The port that a call gives.
fn port(number: u32) -> Port {
    match number {
        0 => Port::Primary,
        _ => Port::Auxiliary,
    }
}

/// A sample as the call takes it.
fn raw(sample: &Sample) -> RawSample {
    RawSample {
        levels: sample.levels,
        kind: sample.edge as u32,
    }
}

impl Adapter {
    /// An adapter at power-on, with an empty small journal. The ID is at most [`crate::ID_MOST`].
    pub fn new(id: u32) -> Result<Adapter, Refusal> {
        Adapter::with_journal(id, JournalSize::Small)
    }

    /// The same, with an empty journal of this size.
    pub fn with_journal(id: u32, size: JournalSize) -> Result<Adapter, Refusal> {
        let mut state = [0; STATE_BYTES];
        let mut journal = vec![0; size.bytes()];
        done(boundary::sca_create(&mut state, id) as u8)?;
        done(boundary::sca_empty(&mut journal) as u8)?;
        Ok(Adapter { state, journal })
    }

    /// A frame body arrives on a port. Refused where it is not 2 to 16 bytes.
    pub fn frame(&mut self, port: Port, body: &[u8]) -> Result<Answer, Refusal> {
        self.event(|state, journal, output| boundary::sca_frame(state, journal, port as u32, body, output))
    }

    /// An SPI transfer is complete; byte 0 of `received` holds bits 7 to 0.
    pub fn completion(&mut self, received: &[u8; TRANSFER_BYTES]) -> Result<Answer, Refusal> {
        self.event(|state, journal, output| boundary::sca_completion(state, journal, received, output))
    }

    /// An I2C transaction is complete: whether the slave acknowledged, whether the line was found low, and the bytes that
    /// came in. Refused where the channel is not [`crate::I2C_FIRST`] to [`crate::I2C_LAST`], or the bytes are over
    /// [`crate::I2C_MOST`].
    pub fn i2c_completion(
        &mut self,
        channel: u8,
        acknowledge: bool,
        line_low: bool,
        received: &[u8],
    ) -> Result<Answer, Refusal> {
        let (channel, acknowledge, line_low) = (channel.into(), acknowledge.into(), line_low.into());
        self.event(|state, journal, output| {
            boundary::sca_i2c_completion(state, journal, channel, acknowledge, line_low, received, output)
        })
    }

    /// The pins are sampled; bit n of `levels` is the level of line n. A line that so changed, with INTSEL 1, fires on rising
    /// where INTTRIG is 1 and on falling where it is 0.
    pub fn sample(&mut self, levels: u32, edge: Edge) -> Result<Answer, Refusal> {
        self.event(|state, journal, output| boundary::sca_sample(state, journal, levels, edge as u32, output))
    }

    /// The pins are sampled, many times in a row: state, journal and bodies are those of as many calls of
    /// [`Adapter::sample`]. Each sample is an event of its own, kept and taken back by itself, with GPIO disabled too;
    /// of more than the journal keeps, only that many can be, the newest. They come by value, or by reference as from a
    /// slice. Refused where they are over [`crate::SAMPLES_MOST`]; of an iterator that has more, or never ends, no
    /// sample is asked for past the first one too many.
    pub fn samples(&mut self, samples: impl IntoIterator<Item = impl Borrow<Sample>>) -> Result<Batch, Refusal> {
        // Room for one too many, which the call then refuses.
        let mut list = [RawSample::default(); SAMPLES_MOST + 1];
        let mut count = 0;
        for (place, sample) in list.iter_mut().zip(samples) {
            *place = raw(sample.borrow());
            count += 1;
        }
        let mut output = [0; BATCH_LEAST];
        let batch = boundary::sca_samples(&mut self.state, &mut self.journal, &list[..count], &mut output);
        done(batch.number)?;
        Ok(Batch {
            port: port(batch.port),
            bodies: Bodies::front(output, batch.frames),
            sum: batch.sum,
        })
    }

    /// A single event upset.
    pub fn upset(&mut self) -> Result<Answer, Refusal> {
        self.event(boundary::sca_upset)
    }

    /// Takes the newest standing event back.
    pub fn step_back(&mut self) -> Result<(), Refusal> {
        done(boundary::sca_step_back(&mut self.state, &mut self.journal).number)
    }

    /// The number of events that can be taken back, at most [`JournalSize::kept_most`] of [`Adapter::journal_size`].
    pub fn kept(&self) -> usize {
        boundary::sca_kept(&self.journal).kept
    }

    /// The size of the journal.
    pub fn journal_size(&self) -> JournalSize {
        match self.journal.len() {
            LARGE_JOURNAL_BYTES => JournalSize::Large,
            _ => JournalSize::Small,
        }
    }

    /// Makes a small journal large. What could be taken back still can be, and from then on more is kept; what the
    /// small one gave up does not come back. Refused with [`Refusal::BadJournal`] where the journal is large already.
    pub fn enlarge(&mut self) -> Result<(), Refusal> {
        let mut second = vec![0; LARGE_JOURNAL_BYTES];
        done(boundary::sca_enlarge(&self.journal, &mut second) as u8)?;
        self.journal = second;
        Ok(())
    }

    /// Gives up all events that could be taken back. The journal's size stays.
    pub fn forget(&mut self) {
        boundary::sca_empty(&mut self.journal);
    }

    /// The state's bytes, as `include/sca.h` lists them.
    pub fn state(&self) -> &[u8; STATE_BYTES] {
        &self.state
    }

    /// The journal's bytes. They belong to this state: [`Adapter::from_bytes`] wants both from one moment.
    pub fn journal(&self) -> &[u8] {
        &self.journal
    }

    /// An adapter that was kept as bytes, with a journal of either size; refused where the state is out of range or the
    /// journal is wrong, as one whose version is not that of its length. No event is played.
    pub fn from_bytes(mut state: [u8; STATE_BYTES], journal: &[u8]) -> Result<Adapter, Refusal> {
        let mut journal = journal.to_vec();
        // Without output an event is refused, with 1 where it finds neither 6 nor 4.
        looked_at(boundary::sca_upset(&mut state, &mut journal, &mut []).number)?;
        Ok(Adapter { state, journal })
    }

    fn event(&mut self, call: impl FnOnce(&mut [u8], &mut [u8], &mut [u8]) -> RawAnswer) -> Result<Answer, Refusal> {
        let mut output = [0; OUTPUT_LEAST];
        let answer = call(&mut self.state, &mut self.journal, &mut output);
        done(answer.number)?;
        Ok(match (answer.number, dropped(answer.number)) {
            (_, Some(dropped)) => Answer::Dropped(dropped),
            (0, None) => Answer::HasFrame {
                port: port(answer.port),
                body: Body::front(output, answer.length),
            },
            _ => Answer::NoFrame,
        })
    }
}

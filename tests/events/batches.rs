//! How often each thing was seen of batches of pin samples, over all runs.

use crate::calls::Call;
use crate::harness::report::{all, list, say};
use crate::journals::Found;
use crate::ring::{LARGE, SMALL};
use crate::seen::each;
use crate::tally::is_reset;
use reference::adapter::State;
use reference::numbers::{BAD_ARGUMENT, DONE, FRAME, GPIO_DISABLED, SHORT_OUTPUT};
use sca::boundary::{RawBatch, RawSample};
use sca::{BATCH_LEAST, SAMPLES_MOST};

/// The sizes that batches must have had: those around the ends of a journal, small or large, and of a batch.
pub const SIZES: [usize; 11] = [0, 1, 2, 63, SMALL, 65, 199, LARGE, 201, 255, SAMPLES_MOST];
/// And the one that must have been refused.
pub const TOO_MANY: usize = SAMPLES_MOST + 1;

/// Where the one wrong kind of a batch of several stood.
const PLACES: [&str; 3] = ["first", "in the middle", "last"];
/// What came right after a batch.
const NEXT: [&str; 4] = ["a single sample", "a RESET", "a request", "another batch"];
/// The journal that a batch found.
const FOUND: [&str; 4] = ["empty", "with room", "small and full", "large and full"];

/// A sample of a batch as it is taken by itself: the state before it, DATAIN after it, and the number of it alone.
pub struct Taken {
    pub sample: RawSample,
    pub before: State,
    pub datain: u32,
    pub number: u8,
}

impl Taken {
    /// The lines that fired, whatever INTENABLE is.
    pub fn fired(&self) -> u32 {
        let gpio = &self.before.gpio;
        let moved = gpio.datain ^ self.datain;
        moved & gpio.intsel & !(self.datain ^ gpio.inttrig)
    }
}

/// A batch, what it found, and what came of it. Where it is refused with 3, the samples taken are those in front of the wrong one.
pub struct Seen<'a> {
    pub list: &'a [RawSample],
    pub room: usize,
    pub journal: Found,
    /// How many of the newest records were of batches' samples.
    pub sampled_before: usize,
    pub taken: &'a [Taken],
    pub answer: &'a RawBatch,
    pub after: State,
}

impl Seen<'_> {
    /// The places of wrong kinds.
    fn wrong(&self) -> Vec<usize> {
        let places = self.list.iter().enumerate();
        places.filter(|(_, one)| one.kind > 2).map(|(place, _)| place).collect()
    }

    fn sends(&self) -> impl Iterator<Item = &Taken> {
        self.taken.iter().filter(|taken| taken.number == FRAME)
    }

    /// Whether a sample is so.
    fn any(&self, so: impl Fn(&Taken) -> bool) -> bool {
        self.taken.iter().any(so)
    }
}

#[derive(Default)]
pub struct Batches {
    numbers: Vec<u64>,
    samples: u64,
    /// Those that were done, by their size; those of them that sent something, and nothing.
    done: Vec<u64>,
    sending: Vec<u64>,
    silent: Vec<u64>,
    /// Refused for their size alone, with one sample too many and with more.
    one_too_many: u64,
    longer: u64,
    /// Refused for one kind alone, by its place; of these, in a batch of one, and for what stands above the low byte.
    wrong: [u64; PLACES.len()],
    wrong_alone: u64,
    wide: u64,
    /// Refused with 3, and the samples in front would have sent something.
    would_have_sent: u64,
    /// Refused for an output that is one byte short; of these, with a list that is wrong too.
    one_short: u64,
    short_and_wrong: u64,
    /// Done with just the least output, and with more.
    least_room: u64,
    more_room: u64,
    /// With GPIO disabled.
    disabled: u64,
    /// Lines fired with INTENABLE 0.
    unsent: u64,
    ports: [u64; 2],
    /// Interrupts by their edge kind, and batches that had them of all three.
    kinds: [u64; 3],
    all_kinds: u64,
    /// Frames from some of the samples only, from all of at least 64, and from 256.
    from_some: u64,
    from_all: u64,
    from_256: u64,
    /// Sums over 255.
    wide_sums: u64,
    found: [u64; FOUND.len()],
    next: [u64; NEXT.len()],
    /// Steps back over a sample of a batch; and in a row over as many as a journal keeps, small and large.
    back: u64,
    all_back: [u64; 2],
}

impl Batches {
    pub fn new() -> Batches {
        Batches {
            numbers: vec![0; 256],
            done: vec![0; SAMPLES_MOST + 1],
            sending: vec![0; SAMPLES_MOST + 1],
            silent: vec![0; SAMPLES_MOST + 1],
            ..Batches::default()
        }
    }

    pub fn seen(&mut self, seen: &Seen) {
        self.numbers[usize::from(seen.answer.number)] += 1;
        match seen.answer.number {
            BAD_ARGUMENT => self.had_wrong_list(seen),
            SHORT_OUTPUT if seen.room == BATCH_LEAST - 1 => {
                let wrong = seen.list.len() > SAMPLES_MOST || !seen.wrong().is_empty();
                self.one_short += 1;
                self.short_and_wrong += u64::from(wrong);
            }
            FRAME | DONE => self.was_done(seen),
            _ => {}
        }
    }

    fn had_wrong_list(&mut self, seen: &Seen) {
        let (count, wrong) = (seen.list.len(), seen.wrong());
        self.would_have_sent += u64::from(seen.sends().next().is_some());
        if count > SAMPLES_MOST {
            self.one_too_many += u64::from(count == TOO_MANY && wrong.is_empty());
            self.longer += u64::from(count > TOO_MANY && wrong.is_empty());
        } else if let [place] = wrong[..] {
            self.wide += u64::from(seen.list[place].kind & 0xFF <= 2);
            match place {
                _ if count == 1 => self.wrong_alone += 1,
                0 => self.wrong[0] += 1,
                _ if place + 1 == count => self.wrong[2] += 1,
                _ => self.wrong[1] += 1,
            }
        }
    }

    fn was_done(&mut self, seen: &Seen) {
        let (count, frames) = (seen.list.len(), seen.answer.frames);
        self.samples += count as u64;
        self.done[count] += 1;
        self.least_room += u64::from(seen.room == BATCH_LEAST);
        self.more_room += u64::from(seen.room > BATCH_LEAST);
        self.disabled += u64::from(seen.any(|taken| taken.number == GPIO_DISABLED));
        self.unsent += u64::from(seen.any(|taken| taken.number == DONE && taken.fired() != 0));
        self.next[3] += u64::from(seen.sampled_before > 0);
        match (seen.journal.kept, seen.journal.most) {
            (0, _) => self.found[0] += 1,
            (SMALL, SMALL) => self.found[2] += 1,
            (LARGE, LARGE) => self.found[3] += 1,
            _ => self.found[1] += 1,
        }
        if frames == 0 {
            self.silent[count] += 1;
            return;
        }
        self.sending[count] += 1;
        self.ports[seen.answer.port as usize] += 1;
        self.from_some += u64::from(frames < count);
        self.from_all += u64::from(frames == count && count >= 64);
        self.from_256 += u64::from(frames == SAMPLES_MOST);
        self.wide_sums += u64::from(seen.answer.sum > 0xFF);
        self.by_kind(seen);
    }

    fn by_kind(&mut self, seen: &Seen) {
        let mut kinds = [0; 3];
        seen.sends().for_each(|taken| kinds[taken.sample.kind as usize] += 1);
        self.all_kinds += u64::from(kinds.iter().all(|count| *count > 0));
        for (sum, count) in self.kinds.iter_mut().zip(kinds) {
            *sum += count;
        }
    }

    /// An event that was not refused, right after a batch; a batch after a batch counts itself.
    pub fn followed_by(&mut self, event: &Call) {
        match event {
            Call::Sample { .. } => self.next[0] += 1,
            Call::Frame { body, .. } if is_reset(body) => self.next[1] += 1,
            Call::Frame { body, .. } if body.len() == 10 => self.next[2] += 1,
            _ => {}
        }
    }

    /// A step back over a sample of a batch, and how many of the newest records were of such samples.
    pub fn stepped_back(&mut self, journal: &Found, sampled: usize) {
        self.back += 1;
        for (count, most) in self.all_back.iter_mut().zip([SMALL, LARGE]) {
            let last = sampled == 1 && journal.in_a_row + 1 == most;
            *count += u64::from(last && journal.most == most);
        }
    }

    /// That the runs had in them what they are for.
    pub fn all_seen(&self) -> Vec<bool> {
        let some = |what: &str, count: u64| say(count > 0, &format!("{}: {}", what, count));
        let numbers = |what: &str, counts: &[u64], numbers: &[usize]| {
            say(all(counts, numbers), &format!("{} ({})", what, list(counts)))
        };
        vec![
            numbers("every number of a batch", &self.numbers, &[0, 1, 3, 4, 6, 17]),
            some("samples in batches that were done", self.samples),
            sizes("batches of each size", &self.done, &SIZES),
            sizes("batches of each size that sent something", &self.sending, &SIZES[1..]),
            sizes("batches of each size that sent nothing", &self.silent, &SIZES),
            some("batches refused for a 257th sample", self.one_too_many),
            some("batches refused for more samples", self.longer),
            each("batches refused for one wrong kind", &PLACES, &self.wrong),
            some("batches of one sample refused for its kind", self.wrong_alone),
            some("batches refused for what stands above a kind's low byte", self.wide),
            some("batches refused after samples that would send", self.would_have_sent),
            some("batches refused for an output of 2,559 bytes", self.one_short),
            some("batches refused so with a wrong list", self.short_and_wrong),
            some("batches with an output of 2,560 bytes", self.least_room),
            some("batches with a longer output", self.more_room),
            some("batches with GPIO disabled", self.disabled),
            some("batches with lines that fired with INTENABLE 0", self.unsent),
            numbers("batches that sent, by port", &self.ports, &[0, 1]),
            numbers("interrupts of batches, by edge kind", &self.kinds, &[0, 1, 2]),
            some("batches with interrupts by every edge kind", self.all_kinds),
            some("batches with frames from some of the samples", self.from_some),
            some("batches of at least 64 samples with frames from all", self.from_all),
            some("batches with 256 frames", self.from_256),
            some("batches with a sum over 255", self.wide_sums),
            each("journals that batches found", &FOUND, &self.found),
            each("what came right after a batch", &NEXT, &self.next),
            some("steps back over a sample of a batch", self.back),
            each(
                "as many such steps in a row as a journal keeps",
                &[SMALL, LARGE],
                &self.all_back,
            ),
        ]
    }
}

/// A line for batches of these sizes: each must have been seen.
fn sizes(what: &str, counts: &[u64], sizes: &[usize]) -> bool {
    let of_each: Vec<u64> = sizes.iter().map(|size| counts[*size]).collect();
    each(what, sizes, &of_each)
}

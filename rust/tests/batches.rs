//! Pin samples by the batch: what comes of them is what comes of the samples one by one, and nothing changes where it must not.

use sca::boundary::{self, RawBatch, RawSample};
use sca::{Adapter, Answer, Batch, Dropped, Edge, JournalSize, Port, Refusal, Sample, BATCH_LEAST, SAMPLES_MOST};
use std::cell::Cell;

fn adapter() -> Adapter {
    Adapter::new(0x00_000A).unwrap()
}

/// The lines on and selected, some to interrupt on rising, the others on falling. Four requests were answered, so that the
/// first interrupt's control is 2 * 4 + 32 * 4.
fn armed(rising: u32) -> Adapter {
    armed_with(JournalSize::Small, rising)
}

/// The same, with a journal of this size.
fn armed_with(size: JournalSize, rising: u32) -> Adapter {
    let [d0, d1, d2, d3] = rising.to_le_bytes();
    let mut adapter = Adapter::with_journal(0x00_000A, size).unwrap();
    for request in [
        [0x00, 0x00, 0x01, 0x00, 0x04, 0x02, 0x00, 0x04, 0x00, 0x00],
        [0x00, 0x02, 0x02, 0x02, 0x04, 0x30, 0xFF, 0xFF, 0xFF, 0xFF],
        [0x00, 0x04, 0x03, 0x02, 0x04, 0x40, d2, d3, d0, d1],
        [0x00, 0x06, 0x04, 0x02, 0x04, 0x60, 0x00, 0x00, 0x01, 0x00],
    ] {
        assert!(matches!(
            adapter.frame(Port::Primary, &request),
            Ok(Answer::HasFrame { .. })
        ));
    }
    adapter
}

fn clocked(levels: u32) -> Sample {
    Sample {
        levels,
        edge: Edge::SystemClock,
    }
}

/// Samples of all edges, hardly two of the same levels; the first by the system clock, and not of all zeros.
fn probed(count: usize) -> Vec<Sample> {
    let edges = [Edge::SystemClock, Edge::StrobeRising, Edge::StrobeFalling];
    let sample = |at: usize| Sample {
        levels: (at as u32 + 1).wrapping_mul(0x9E37_79B9),
        edge: edges[at % 5 % 3],
    };
    (0..count).map(sample).collect()
}

/// That nothing is to be sent.
fn assert_silent(seen: Batch) {
    assert_eq!((seen.port, seen.bodies.len(), seen.sum), (Port::Primary, 0, 0));
}

/// Lines 8 and 0 rise, line 0 as it must to interrupt; both fall, one after the other, line 8 as it must. The strobe samples
/// none.
#[test]
fn a_batch() {
    let mut adapter = armed(0x0000_0001);
    let strobed = Sample {
        levels: 0,
        edge: Edge::StrobeRising,
    };
    let given = adapter.samples([clocked(0x101), strobed, clocked(0x001), clocked(0x000)]);
    let seen = given.unwrap();
    assert_eq!((seen.port, seen.sum, seen.bodies.len()), (Port::Primary, 2, 2));
    let bodies: Vec<Vec<u8>> = seen.bodies.map(|body| body.to_vec()).collect();
    assert_eq!(bodies[0], [0x00, 0x88, 0xFF, 0x02, 0x00, 0x04, 0x00, 0x00, 0x01, 0x00]);
    assert_eq!(bodies[1], [0x00, 0x8A, 0xFF, 0x02, 0x00, 0x04, 0x00, 0x00, 0x00, 0x01]);
    assert_eq!(adapter.kept(), 4 + 4);
}

/// State, journal and bodies are those of the samples one by one, and so are the states that steps back go through.
fn is_its_samples(size: JournalSize, counts: &[usize]) {
    for &count in counts {
        let armed = || armed_with(size, 0xFFFF_0000);
        let (mut batched, mut single) = (armed(), armed());
        let (mut states, mut bodies, mut ones) = (Vec::new(), Vec::new(), 0);
        let seen = batched.samples(probed(count)).unwrap();
        for Sample { levels, edge } in probed(count) {
            states.push(*single.state());
            if let Answer::HasFrame { port, body } = single.sample(levels, edge).unwrap() {
                ones += body[6..].iter().map(|byte| byte.count_ones()).sum::<u32>();
                assert_eq!(port, seen.port);
                bodies.push(body);
            }
        }
        assert_eq!(batched, single);
        assert!(bodies.len() > count / 4 || count == 0);
        assert_eq!((seen.bodies.collect::<Vec<_>>(), seen.sum), (bodies, ones));
        assert_eq!(batched.kept(), size.kept_most().min(4 + count));
        for state in states.iter().rev().take(size.kept_most()) {
            assert_eq!(batched.step_back(), Ok(()));
            assert_eq!(batched.state(), state);
        }
    }
}

/// A batch that leaves room for an event more, fills the journal, or makes it give one up: four events came before.
#[test]
fn batches_are_their_samples() {
    is_its_samples(
        JournalSize::Small,
        &[0, 1, 2, 59, 60, 61, 63, 64, 65, 255, SAMPLES_MOST],
    );
    is_its_samples(
        JournalSize::Large,
        &[0, 1, 64, 65, 195, 196, 197, 199, 200, 201, 255, SAMPLES_MOST],
    );
}

/// All lines rise and fall: at each rising the 16 interrupt that are to, at each falling the other 16. The journal has but the
/// newest samples, 64 or 200; each of them is taken back alone.
fn greatest_batch(size: JournalSize, most: usize) {
    let mut adapter = armed_with(size, 0x0000_FFFF);
    let swinging = (0..SAMPLES_MOST).map(|at| clocked(if at % 2 == 0 { u32::MAX } else { 0 }));
    let seen = adapter.samples(swinging).unwrap();
    assert_eq!((seen.bodies.len(), seen.sum), (256, 256 * 16));
    for (at, body) in seen.bodies.enumerate() {
        // Bits 3 to 1 of control are the send number, which four replies made 4 and each interrupt one more, modulo 8.
        let control = 0x80 | ((4 + at) % 8 * 2) as u8;
        let lines = if at % 2 == 0 {
            [0, 0, 0xFF, 0xFF]
        } else {
            [0xFF, 0xFF, 0, 0]
        };
        assert_eq!(body[..6], [0x00, control, 0xFF, 0x02, 0x00, 0x04]);
        assert_eq!(body[6..], lines);
    }
    for kept in (0..most).rev() {
        assert_eq!(adapter.step_back(), Ok(()));
        assert_eq!(adapter.kept(), kept);
    }
    assert_eq!(adapter.step_back(), Err(Refusal::NoneKept));
}

#[test]
fn the_greatest_batch() {
    greatest_batch(JournalSize::Small, 64);
    greatest_batch(JournalSize::Large, 200);
}

/// By reference and by value, from whatever can be gone through.
#[test]
fn samples_of_any_kind() {
    let list = probed(20);
    let mut expected = armed(0);
    let seen = expected.samples(&list);
    let mut given: Vec<Adapter> = vec![armed(0); 6];
    assert_eq!(given[0].samples(&list[..]), seen);
    assert_eq!(given[1].samples(list.iter()), seen);
    assert_eq!(given[2].samples(list.iter().copied()), seen);
    assert_eq!(given[3].samples(list[..10].iter().chain(&list[10..])), seen);
    assert_eq!(given[4].samples(list.clone()), seen);
    assert_eq!(given[5].samples((0..20).map(|at| list[at])), seen);
    assert!(given.iter().all(|adapter| *adapter == expected));
}

#[test]
fn an_empty_batch_changes_nothing() {
    let mut adapter = armed(0);
    let before = adapter.clone();
    assert_silent(adapter.samples([] as [Sample; 0]).unwrap());
    assert_eq!(adapter, before);
}

/// Nothing changes, and an iterator is asked no further than it must be: it may have no end.
#[test]
fn long_batches_are_refused() {
    let mut adapter = armed(0);
    let before = adapter.clone();
    assert_eq!(adapter.samples(probed(257)), Err(Refusal::BadArgument));
    assert_eq!(adapter.samples(probed(1_000)), Err(Refusal::BadArgument));
    let asked = Cell::new(0);
    let endless = std::iter::repeat_with(|| {
        asked.set(asked.get() + 1);
        clocked(asked.get())
    });
    assert_eq!(adapter.samples(endless), Err(Refusal::BadArgument));
    assert_eq!(asked.get(), 257);
    assert_eq!(adapter, before);
}

/// Each sample is kept, as it is alone, where it gives `LinesDisabled`.
#[test]
fn a_batch_of_disabled_lines() {
    let (mut batched, mut single) = (adapter(), adapter());
    assert_silent(batched.samples(probed(5)).unwrap());
    for Sample { levels, edge } in probed(5) {
        let dropped = Ok(Answer::Dropped(Dropped::LinesDisabled));
        assert_eq!(single.sample(levels, edge), dropped);
    }
    assert_eq!(batched, single);
    for _ in 0..5 {
        assert_eq!(batched.step_back(), Ok(()));
    }
    assert_eq!(batched.step_back(), Err(Refusal::NoneKept));
}

/// After a CONNECT there, by which both link numbers are 0.
#[test]
fn a_batch_on_the_auxiliary_port() {
    let mut adapter = armed(0);
    adapter.frame(Port::Auxiliary, &[0x00, 0x2F]).unwrap();
    let mut seen = adapter.samples([clocked(0x8000_0000), clocked(0)]).unwrap();
    assert_eq!((seen.port, seen.sum, seen.bodies.len()), (Port::Auxiliary, 1, 1));
    let body = seen.bodies.next().unwrap();
    assert_eq!(body[..], [0x00, 0x00, 0xFF, 0x02, 0x00, 0x04, 0x00, 0x80, 0x00, 0x00]);
}

#[test]
fn bodies_are_taken_one_by_one() {
    let three = || [clocked(3), clocked(1), clocked(0)];
    let mut bodies = armed(0).samples(three()).unwrap().bodies;
    let text = "[[00, 88, ff, 02, 00, 04, 00, 00, 02, 00], [00, 8a, ff, 02, 00, 04, 00, 00, 01, 00]]";
    assert_eq!(format!("{:?}", bodies), text);
    assert_eq!((bodies.len(), bodies.size_hint()), (2, (2, Some(2))));
    let all = bodies.clone();
    assert_eq!(bodies.next().unwrap()[8], 0x02);
    assert_eq!(bodies.len(), 1);
    assert_ne!(bodies, all);
    assert_eq!(bodies.next().unwrap()[8], 0x01);
    assert_eq!((bodies.next(), bodies.next(), bodies.len()), (None, None, 0));
    // What was taken does not tell two of them apart.
    assert_eq!(bodies, adapter().samples(three()).unwrap().bodies);
}

/// A batch over the boundary: what it gives, and whether state, journal and output are as they were.
fn batch_on(state: &[u8], journal: &[u8], list: &[RawSample], room: usize) -> (RawBatch, bool) {
    let (mut lent_state, mut lent_journal, mut output) = (state.to_vec(), journal.to_vec(), vec![0xA5; room]);
    let batch = boundary::sca_samples(&mut lent_state, &mut lent_journal, list, &mut output);
    let same = lent_state == state && lent_journal == journal && output == vec![0xA5; room];
    (batch, same)
}

/// A number alone, and nothing changed.
fn nothing(number: u8) -> (RawBatch, bool) {
    let batch = RawBatch {
        number,
        length: 0,
        port: 0,
        frames: 0,
        sum: 0,
    };
    (batch, true)
}

/// 6, 4, 1, 3: each is asked for with all that come after it. An empty list is refused like any other.
#[test]
fn refused_batches_change_nothing() {
    let adapter = armed(0);
    let (state, journal) = (adapter.state(), adapter.journal());
    let wrong = [RawSample { levels: 1, kind: 3 }];
    for list in [&wrong[..], &[]] {
        assert_eq!(batch_on(&state[1..], &journal[1..], list, BATCH_LEAST - 1), nothing(6));
        assert_eq!(batch_on(state, &journal[1..], list, BATCH_LEAST - 1), nothing(4));
        assert_eq!(batch_on(state, journal, list, BATCH_LEAST - 1), nothing(1));
    }
    assert_eq!(batch_on(state, journal, &wrong, BATCH_LEAST), nothing(3));
    assert_eq!(batch_on(state, journal, &[], BATCH_LEAST), nothing(17));
    assert_eq!(batch_on(&[], &[], &[], 0), nothing(6));
}

/// The place of a wrong kind does not matter, nor how wide it is.
#[test]
fn wrong_kinds_and_long_lists() {
    let adapter = armed(0);
    let batch = |list: &[RawSample]| batch_on(adapter.state(), adapter.journal(), list, BATCH_LEAST);
    let sound: Vec<RawSample> = (0..256).map(|levels| RawSample { levels, kind: 0 }).collect();
    assert_eq!(batch(&sound).0.number, 0);
    for kind in [3, 255, 256, 257, 258, 0x1_0000, 0x8000_0000, u32::MAX] {
        for place in 0..sound.len() {
            let mut list = sound.clone();
            list[place].kind = kind;
            assert_eq!(batch(&list), nothing(3));
        }
    }
    assert_eq!(batch(&[&sound[..], &sound[..1]].concat()), nothing(3));
}

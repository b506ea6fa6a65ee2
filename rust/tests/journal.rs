//! The journal as bytes, and what is taken back with it.
//!
//! First an adapter that version 1.2.0 left, its state and its journal as bytes. Its events are taken back as they were
//! then, though the interrupt's edge is the other one from 1.2.1 on (request 2026-02). Then the two sizes and the way
//! from one to the other (request 2026-06).

use sca::boundary::{self, RawKept, RawSample};
use sca::{Adapter, Answer, Edge, JournalSize, Port, Refusal};
use sca::{BATCH_LEAST, JOURNAL_BYTES, LARGE_JOURNAL_BYTES, OUTPUT_LEAST, STATE_BYTES};

/// Bytes from a place on; those between are 0.
type Places = &'static [(usize, &'static str)];

/// After the events of [`CHANGES`].
const STATE: Places = &[
    (2, "01000000040501"),
    (13, "5b00000a"),
    (224, "04"),
    (350, "20"),
    (391, "1f"),
];

/// 19 kept from slot 0 on. A slot has 256 bytes; its record is the tag, the state's bytes 0 to 15 before the event, and the
/// group of its tag.
const JOURNAL: Places = &[
    (0, "53434a01000013"),
    (1024, "01"),
    (1280, "01010100000006"),
    (1536, "01020200000006"),
    (1587, "21"),
    (1792, "01030300000006"),
    (1843, "21"),
    (1863, "01"),
    (2048, "01040300000006"),
    (2091, "21"),
    (2099, "21"),
    (2107, "21"),
    (2119, "01"),
    (2304, "01040300000006"),
    (2355, "21"),
    (2363, "21"),
    (2375, "01"),
    (2560, "01050400000006"),
    (2611, "210000000100000021"),
    (2631, "01"),
    (2816, "01060400000006"),
    (2859, "21"),
    (2867, "210000000100000020"),
    (2887, "01"),
    (3072, "00070400000006"),
    (3328, "02070400000006000001"),
    (3584, "02000500000006040001"),
    (3840, "02000600000006040001"),
    (3902, "0686"),
    (4096, "01010600000006040001"),
    (4147, "210000000100000001"),
    (4167, "01"),
    (4352, "03020700000000040001"),
    (4608, "03030000000000040501"),
    (4864, "03040100000000040501"),
    (4924, "1f"),
    (5120, "00050200000000040501"),
    (5376, "00060300000000040501000000005b"),
    (5632, "00060300000100040501000000005b"),
];

const DATAIN: usize = 46;
const INTSEL: usize = 54;
const INTTRIG: usize = 58;
const INTS: usize = 62;
const INTENABLE: usize = 74;
/// MASK and STATUS of channel 0x0A, and TRN and code of its open start.
const MASK_0A: usize = 222;
const STATUS_0A: usize = 224;
const TRN_0A: usize = 225;
const CODE_0A: usize = 226;
const STATUS_10: usize = 350;
const CTRL_12: usize = 391;

/// What each event changed in the state of a new adapter with the ID 0x00000A, place and byte: by hand, from document 01 and
/// request 2026-01. Bytes 0 and 1 are the send and the receive number, 2 the active port, 4 the loopback of port 1, 5 to 7 CRB,
/// CRC and CRD, 8 the SEU counter, 13 output B of the DAC.
const CHANGES: [&[(usize, u8)]; 19] = [
    // F 0 00000100040200060000: CRB 0x06
    &[(0, 1), (1, 1), (5, 0x06)],
    // F 0 00020202043000002100: INTSEL 0x21
    &[(0, 2), (1, 2), (INTSEL, 0x21)],
    // F 0 00040302046000000100: INTENABLE 1
    &[(0, 3), (1, 3), (INTENABLE, 1)],
    // P 00000021 0: with INTTRIG 0 both lines fire on rising, as they did then
    &[(0, 4), (DATAIN, 0x21), (INTS, 0x21)],
    // P 00000000 0: and not on falling
    &[(DATAIN, 0)],
    // F 0 00060402044000000100: INTTRIG 0x01
    &[(0, 5), (1, 4), (INTTRIG, 0x01)],
    // P 00000021 0: line 5 alone fires
    &[(0, 6), (DATAIN, 0x21), (INTS, 0x20)],
    // P 00000000 0: line 0 alone
    &[(0, 7), (DATAIN, 0), (INTS, 0x01)],
    // U
    &[(8, 1)],
    // F 0 00080500040400040000: CRC 0x04, which enables channel 0x0A
    &[(0, 0), (1, 5), (6, 0x04)],
    // F 0 000a060a048600500000: a read of one byte is started, without a reply
    &[(1, 6), (TRN_0A, 0x06), (CODE_0A, 0x86)],
    // I 0a 1 0 5a: its completion
    &[(0, 1), (STATUS_0A, 0x04), (TRN_0A, 0), (CODE_0A, 0)],
    // F 0 000c0700040200000000: CRB 0, which disables the lines
    &[
        (0, 2),
        (1, 7),
        (5, 0),
        (INTSEL, 0),
        (INTTRIG, 0),
        (INTS, 0),
        (INTENABLE, 0),
    ],
    // F 0 000e0800040600050000: CRD 0x05, which enables channels 0x10 and 0x12
    &[(0, 3), (1, 0), (7, 0x05)],
    // F 0 000009120130001f0000: CTRL of 0x12
    &[(0, 4), (1, 1), (CTRL_12, 0x1F)],
    // F 0 00020a1000ff00000000: a command that 0x10 does not have, which sets INVCOM
    &[(0, 5), (1, 2), (STATUS_10, 0x20)],
    // F 0 00040b15042000005b00: the DAC's output B
    &[(0, 6), (1, 3), (13, 0x5B)],
    // F 1 00e3: TEST
    &[(4, 1)],
    // F 1 002f: CONNECT, which makes port 1 active, zeroes both numbers and ends the loopback
    &[(0, 0), (1, 0), (2, 1), (4, 0)],
];

fn filled(bytes: &mut [u8], places: Places) {
    for (at, digits) in places {
        for pair in 0..digits.len() / 2 {
            bytes[at + pair] = u8::from_str_radix(&digits[2 * pair..2 * pair + 2], 16).unwrap();
        }
    }
}

fn kept_journal() -> Vec<u8> {
    let mut journal = vec![0; JOURNAL_BYTES];
    filled(&mut journal, JOURNAL);
    journal
}

fn kept_adapter() -> Adapter {
    let mut state = [0; STATE_BYTES];
    filled(&mut state, STATE);
    Adapter::from_bytes(state, &kept_journal()).unwrap()
}

/// The states that the events left, the new adapter's first.
fn states() -> Vec<[u8; STATE_BYTES]> {
    let mut states = vec![*Adapter::new(0x00_000A).unwrap().state()];
    for changes in CHANGES {
        let mut state = *states.last().unwrap();
        for (at, byte) in changes {
            state[*at] = *byte;
        }
        states.push(state);
    }
    states
}

/// Steps back to the oldest of these states: every state on the way, and one step more that is refused.
fn goes_back(mut adapter: Adapter, states: &[[u8; STATE_BYTES]]) {
    for (kept, state) in states.iter().enumerate().rev() {
        assert_eq!(adapter.kept(), kept);
        assert_eq!(adapter.state(), state, "{} kept", kept);
        let step = adapter.step_back();
        assert_eq!(step, if kept > 0 { Ok(()) } else { Err(Refusal::NoneKept) });
    }
    assert_eq!((adapter.kept(), adapter.state()), (0, &states[0]));
}

#[test]
fn every_event_is_taken_back() {
    goes_back(kept_adapter(), &states());
}

#[test]
fn a_step_back_changes_the_kept_number_alone() {
    let (mut adapter, mut journal) = (kept_adapter(), kept_journal());
    for kept in (0..CHANGES.len()).rev() {
        adapter.step_back().unwrap();
        journal[6] = kept as u8;
        assert_eq!(adapter.journal(), journal, "{} kept", kept);
    }
}

/// A sample from the state that `kept` events left, which the new edge decides: what it sends and changes by hand. Then back
/// over it, and over the events of before.
fn sampled(kept: usize, levels: u32, interrupt: Option<[u8; 10]>, changes: &[(usize, u8)]) {
    let mut adapter = kept_adapter();
    while adapter.kept() > kept {
        adapter.step_back().unwrap();
    }
    match (adapter.sample(levels, Edge::SystemClock), interrupt) {
        (Ok(Answer::HasFrame { body, .. }), Some(interrupt)) => assert_eq!(body[..], interrupt),
        (answer, interrupt) => assert_eq!((answer, interrupt), (Ok(Answer::NoFrame), None)),
    }
    let mut states = states();
    states.truncate(kept + 1);
    let mut after = states[kept];
    for (at, byte) in changes {
        after[*at] = *byte;
    }
    states.push(after);
    goes_back(adapter, &states);
}

/// The fourth event again: both lines have INTTRIG 0, and neither fires on rising any more.
#[test]
fn what_fired_on_rising_does_not() {
    sampled(3, 0x21, None, &[(DATAIN, 0x21)]);
}

/// The seventh event again: line 0, whose INTTRIG is 1, fires on rising.
#[test]
fn inttrig_1_fires_on_rising() {
    let interrupt = [0x00, 0x8A, 0xFF, 0x02, 0x00, 0x04, 0x00, 0x00, 0x01, 0x00];
    sampled(6, 0x21, Some(interrupt), &[(0, 6), (DATAIN, 0x21), (INTS, 0x01)]);
}

/// The eighth event again: line 5, whose INTTRIG is 0, fires on falling.
#[test]
fn inttrig_0_fires_on_falling() {
    let interrupt = [0x00, 0x8C, 0xFF, 0x02, 0x00, 0x04, 0x00, 0x00, 0x20, 0x00];
    sampled(7, 0x00, Some(interrupt), &[(0, 7), (DATAIN, 0), (INTS, 0x20)]);
}

/// The first seven bytes: mark, version, first slot and kept number.
fn header(version: u8, first: u8, kept: u8) -> [u8; 7] {
    [0x53, 0x43, 0x4A, version, 0x00, first, kept]
}

/// The state of a new adapter with the ID 0x00000A after so many upsets, by hand: the SEU counter from byte 8 on, low
/// byte first, and the ID from byte 16 on.
fn upset_state(upsets: u16) -> [u8; STATE_BYTES] {
    let mut state = [0; STATE_BYTES];
    state[8..10].copy_from_slice(&upsets.to_le_bytes());
    state[16] = 0x0A;
    state
}

fn upset_adapter(size: JournalSize, upsets: u16) -> Adapter {
    let mut adapter = Adapter::with_journal(0x00_000A, size).unwrap();
    for _ in 0..upsets {
        adapter.upset().unwrap();
    }
    adapter
}

/// So many upsets leave this header, and can be taken back as far as it says.
fn keeps(size: JournalSize, upsets: u16, header: [u8; 7]) {
    let adapter = upset_adapter(size, upsets);
    assert_eq!(adapter.journal()[..7], header, "{} upsets", upsets);
    let kept = u16::from(header[6]);
    let states: Vec<_> = (upsets - kept..=upsets).map(upset_state).collect();
    goes_back(adapter, &states);
}

/// Each upset too many moves the first slot on; after 64 of them it is 0 again.
#[test]
fn a_small_journal_keeps_64() {
    for (upsets, first, kept) in [
        (0, 0, 0),
        (1, 0, 1),
        (63, 0, 63),
        (64, 0, 64),
        (65, 1, 64),
        (127, 63, 64),
        (128, 0, 64),
        (201, 9, 64),
    ] {
        keeps(JournalSize::Small, upsets, header(1, first, kept));
    }
}

/// The same after 200.
#[test]
fn a_large_journal_keeps_200() {
    for (upsets, first, kept) in [
        (0, 0, 0),
        (1, 0, 1),
        (64, 0, 64),
        (65, 0, 65),
        (199, 0, 199),
        (200, 0, 200),
        (201, 1, 200),
        (399, 199, 200),
        (400, 0, 200),
    ] {
        keeps(JournalSize::Large, upsets, header(2, first, kept));
    }
}

/// RESET, and forgetting: the header is that of the size, and no other byte changes.
#[test]
fn emptying_goes_by_the_length() {
    for (size, version) in [(JournalSize::Small, 1), (JournalSize::Large, 2)] {
        let mut reset = upset_adapter(size, 66);
        let mut forgotten = reset.clone();
        let mut journal = reset.journal().to_vec();
        journal[..7].copy_from_slice(&header(version, 0, 0));
        assert!(matches!(
            reset.frame(Port::Primary, &[0x00, 0x8F]),
            Ok(Answer::HasFrame { .. })
        ));
        forgotten.forget();
        assert!(reset.journal() == journal && forgotten.journal() == journal);
        goes_back(reset, &[upset_state(0)]);
        goes_back(forgotten, &[upset_state(66)]);
    }
}

/// A journal of this length with this header; all else is 0.
fn headed(length: usize, header: [u8; 7]) -> Vec<u8> {
    let mut journal = vec![0; length];
    journal[..7].copy_from_slice(&header);
    journal
}

/// What is made of a journal with a new adapter's state: its size and the kept number.
fn taken(journal: &[u8]) -> Result<(JournalSize, usize), Refusal> {
    let adapter = Adapter::from_bytes(upset_state(0), journal)?;
    Ok((adapter.journal_size(), adapter.kept()))
}

/// Length, size, version and slots.
const FORMATS: [(usize, JournalSize, u8, u8); 2] = [
    (17_408, JournalSize::Small, 1, 64),
    (52_224, JournalSize::Large, 2, 200),
];

/// What is due of a right journal and of a wrong one.
fn taken_if<T>(right: bool, journal: T) -> Result<T, Refusal> {
    if right {
        Ok(journal)
    } else {
        Err(Refusal::BadJournal)
    }
}

#[test]
fn the_version_is_that_of_the_length() {
    for (length, size, own, _) in FORMATS {
        for version in 0..=u8::MAX {
            let low = taken(&headed(length, header(version, 0, 0)));
            assert_eq!(low, taken_if(version == own, (size, 0)), "version {}", version);
            let mut wide = header(version, 0, 0);
            wide[4] = 1;
            assert_eq!(taken(&headed(length, wide)), Err(Refusal::BadJournal));
        }
    }
}

#[test]
fn the_layout_is_that_of_the_length() {
    for (length, size, version, slots) in FORMATS {
        for byte in 0..=u8::MAX {
            let first = taken(&headed(length, header(version, byte, 0)));
            assert_eq!(first, taken_if(byte < slots, (size, 0)), "first slot {}", byte);
            let kept = taken(&headed(length, header(version, 0, byte)));
            assert_eq!(
                kept,
                taken_if(byte <= slots, (size, byte.into())),
                "kept number {}",
                byte
            );
        }
    }
}

/// Whether every call that takes a journal refuses this one with 4, and changes nothing.
fn refused_by_every_call(journal: &[u8]) -> bool {
    let (mut state, mut lent) = (upset_state(0), journal.to_vec());
    let (mut output, mut bodies) = ([0xA5; OUTPUT_LEAST], [0xA5; BATCH_LEAST]);
    let mut second = vec![0xA5; LARGE_JOURNAL_BYTES];
    let list = [RawSample::default()];
    let numbers = [
        boundary::sca_frame(&mut state, &mut lent, 0, &[0x00, 0x8F], &mut output).number,
        boundary::sca_completion(&mut state, &mut lent, &[0; 16], &mut output).number,
        boundary::sca_i2c_completion(&mut state, &mut lent, 0x03, 1, 0, &[], &mut output).number,
        boundary::sca_sample(&mut state, &mut lent, 1, 0, &mut output).number,
        boundary::sca_samples(&mut state, &mut lent, &list, &mut bodies).number,
        boundary::sca_upset(&mut state, &mut lent, &mut output).number,
        boundary::sca_step_back(&mut state, &mut lent).number,
        boundary::sca_enlarge(&lent, &mut second) as u8,
    ];
    let unchanged = state == upset_state(0)
        && lent == journal
        && output == [0xA5; OUTPUT_LEAST]
        && bodies == [0xA5; BATCH_LEAST]
        && second == vec![0xA5; LARGE_JOURNAL_BYTES];
    numbers == [4; 8] && boundary::sca_kept(journal) == RawKept { number: 4, kept: 0 } && unchanged
}

/// Journals of both sizes that calls left: cut and lengthened to other lengths, the other size's too, and each with the
/// other's header.
#[test]
fn cut_and_mixed_journals_are_refused() {
    let small = upset_adapter(JournalSize::Small, 10);
    let large = upset_adapter(JournalSize::Large, 10);
    for journal in [small.journal(), large.journal()] {
        for length in [
            0, 6, 7, 1_023, 1_024, 17_407, 17_408, 17_409, 34_816, 52_223, 52_224, 52_225, 104_448,
        ] {
            if length != journal.len() {
                let mut other = journal.to_vec();
                other.resize(length, 0);
                assert!(refused_by_every_call(&other), "{} as {} bytes", journal.len(), length);
                assert_eq!(taken(&other), Err(Refusal::BadJournal));
            }
        }
    }
    for (header, slots) in [(&large, &small), (&small, &large)] {
        let mixed = [&header.journal()[..7], &slots.journal()[7..]].concat();
        assert!(refused_by_every_call(&mixed));
        assert_eq!(taken(&mixed), Err(Refusal::BadJournal));
    }
}

/// Bytes that make no two slots alike, nor a slot like one of another period: each slot has a period's end in it.
fn pattern(length: usize, period: usize) -> Vec<u8> {
    (0..length).map(|at| (at % period) as u8).collect()
}

/// An enlarged journal, as docs/JOURNAL.md has it: the header, and the slots kept, the oldest first, from slot 0 on.
fn enlarged(journal: &[u8], mut second: Vec<u8>) -> Vec<u8> {
    let (first, kept) = (usize::from(journal[5]), usize::from(journal[6]));
    second[..7].copy_from_slice(&header(2, 0, journal[6]));
    for k in 0..kept {
        let (from, to) = (1_024 + 256 * ((first + k) % 64), 1_024 + 256 * k);
        second[to..to + 256].copy_from_slice(&journal[from..from + 256]);
    }
    second
}

/// With every first slot and every kept number. The slots hold no record, which is not looked at.
#[test]
fn enlarging_writes_the_header_and_the_slots_kept() {
    let (mut journal, unwritten) = (pattern(17_408, 251), pattern(52_224, 241));
    for first in 0..64 {
        for kept in 0..=64 {
            journal[..7].copy_from_slice(&header(1, first, kept));
            let (before, mut second) = (journal.clone(), unwritten.clone());
            assert_eq!(boundary::sca_enlarge(&journal, &mut second), 17);
            let right = second == enlarged(&before, unwritten.clone());
            assert!(right && journal == before, "first slot {}, kept number {}", first, kept);
        }
    }
}

/// 66 upsets, of which the small journal has the third and all later ones, the third in slot 2. An upset's record has
/// tag 0 and the state's bytes 0 to 15 before the upset: of these the SEU counter alone is not 0, byte 9 of a record.
#[test]
fn a_turned_ring_is_enlarged_in_order() {
    let mut adapter = upset_adapter(JournalSize::Small, 66);
    assert_eq!(adapter.journal()[..7], header(1, 2, 64));
    let mut journal = headed(52_224, header(2, 0, 64));
    for k in 0..64 {
        journal[1_024 + 256 * usize::from(k) + 9] = 2 + k;
    }
    assert_eq!(adapter.enlarge(), Ok(()));
    assert!(adapter.journal() == journal);
    assert_eq!(adapter.journal_size(), JournalSize::Large);
    goes_back(adapter, &(2..=66).map(upset_state).collect::<Vec<_>>());
}

/// The number of an enlarging into so many bytes, which changes nothing.
fn not_enlarged(journal: &[u8], length: usize) -> u64 {
    let (lent, mut second) = (journal.to_vec(), pattern(length, 241));
    let number = boundary::sca_enlarge(&lent, &mut second);
    assert!(lent == journal && second == pattern(length, 241));
    number
}

/// A large journal too, and whatever the second buffer is: 4 comes before 1.
#[test]
fn what_is_no_small_journal_is_not_enlarged() {
    let sound = header(1, 63, 64);
    let wrong = [
        (0, 0x52),
        (1, 0x42),
        (2, 0x4B),
        (3, 0),
        (3, 2),
        (4, 1),
        (5, 64),
        (5, 199),
        (6, 65),
        (6, 200),
    ];
    for second in [0, 17_408, 52_223, 52_224, 52_225] {
        for (at, byte) in wrong {
            let mut header = sound;
            header[at] = byte;
            assert_eq!(not_enlarged(&headed(17_408, header), second), 4, "byte {}", at);
        }
        for length in [7, 17_407, 17_409, 52_224] {
            assert_eq!(not_enlarged(&headed(length, sound), second), 4, "{} bytes", length);
        }
        assert_eq!(not_enlarged(&[], second), 4);
        assert_eq!(not_enlarged(&headed(52_224, header(2, 0, 3)), second), 4);
    }
}

#[test]
fn a_second_buffer_of_another_length_is_refused() {
    let small = headed(17_408, header(1, 63, 64));
    for length in [0, 1, 7, 17_407, 17_408, 17_409, 52_223, 52_225, 104_448] {
        assert_eq!(not_enlarged(&small, length), 1, "{} bytes", length);
    }
}

#[test]
fn a_large_journal_is_not_enlarged() {
    let mut twice = kept_adapter();
    assert_eq!(twice.enlarge(), Ok(()));
    for mut adapter in [twice, upset_adapter(JournalSize::Large, 3)] {
        let before = adapter.clone();
        assert_eq!(adapter.enlarge().map_err(|refusal| refusal as u8), Err(4));
        assert!(adapter == before);
    }
}

/// Its records stand in the same slots, since the first one is slot 0.
#[test]
fn a_journal_of_1_2_0_is_enlarged() {
    let mut adapter = kept_adapter();
    assert_eq!(adapter.enlarge(), Ok(()));
    let mut journal = vec![0; LARGE_JOURNAL_BYTES];
    filled(&mut journal, JOURNAL);
    journal[3] = 0x02;
    assert!(adapter.journal() == journal);
    goes_back(adapter, &states());
}

/// No record has tag 4. The oldest one is copied with it, and the step back that comes to it is refused.
#[test]
fn a_damaged_record_stays_damaged() {
    let mut journal = kept_journal();
    journal[1_024] = 4;
    let mut adapter = Adapter::from_bytes(*kept_adapter().state(), &journal).unwrap();
    assert_eq!(adapter.enlarge(), Ok(()));
    for _ in 1..CHANGES.len() {
        assert_eq!(adapter.step_back(), Ok(()));
    }
    let before = adapter.clone();
    assert_eq!(adapter.step_back(), Err(Refusal::BadJournal));
    assert!(adapter == before);
}

/// A request in the number that is due, its byte of data in D[31:24] and in D[7:0].
fn request(adapter: &mut Adapter, channel: u8, length: u8, command: u8, data: u8) -> Result<Answer, Refusal> {
    let control = 2 * adapter.state()[1];
    let body = [0x00, control, 0x01, channel, length, command, 0x00, data, data, 0x00];
    adapter.frame(Port::Primary, &body)
}

/// The n-th event of a run that leaves records of every tag. CRB, CRC and CRD go on and off; what they switch is
/// written. Seven kinds come in turn, so that a slot has another one each time that the ring comes round.
fn event(adapter: &mut Adapter, n: usize) -> Result<Answer, Refusal> {
    let (byte, on) = (n as u8, n / 7 % 2 == 0);
    match n % 7 {
        // CRB: GPIO; CRC: the master of channel 0x0A; CRD: that of 0x12.
        0 => request(adapter, 0x00, 4, 0x02, if on { 0x04 } else { 0x00 }),
        1 => request(adapter, 0x00, 4, 0x04, if on { 0x04 } else { 0x00 }),
        2 => request(adapter, 0x00, 4, 0x06, if on { 0x04 } else { 0x00 }),
        3 => adapter.upset(),
        4 => adapter.sample(n as u32, Edge::SystemClock),
        // MASK of channel 0x0A, CTRL of 0x12.
        5 => request(adapter, 0x0A, 1, 0x20, byte),
        _ => request(adapter, 0x12, 1, 0x30, byte),
    }
}

/// An adapter with the states that it went through, from the new one to the one that stands. The events are counted, so
/// that a branch has others than the one that was left.
#[derive(Clone)]
struct Branch {
    adapter: Adapter,
    states: Vec<[u8; STATE_BYTES]>,
    events: usize,
}

impl Branch {
    fn new() -> Branch {
        let adapter = Adapter::new(0x00_000A).unwrap();
        let states = vec![*adapter.state()];
        Branch {
            adapter,
            states,
            events: 0,
        }
    }

    fn goes_on(&mut self, events: usize) {
        for _ in 0..events {
            self.does_next().unwrap();
        }
    }

    fn does_next(&mut self) -> Result<Answer, Refusal> {
        let answer = event(&mut self.adapter, self.events);
        self.events += 1;
        self.states.push(*self.adapter.state());
        answer
    }

    fn goes_back(&mut self, steps: usize) {
        for _ in 0..steps {
            assert_eq!(self.adapter.step_back(), Ok(()));
            self.states.pop();
            assert_eq!(Some(self.adapter.state()), self.states.last());
        }
    }

    /// Enlarging keeps the state and the kept number.
    fn enlarges(&mut self, kept: usize) {
        let state = *self.adapter.state();
        assert_eq!(self.adapter.kept(), kept);
        assert_eq!(self.adapter.enlarge(), Ok(()));
        assert_eq!((self.adapter.kept(), self.adapter.state()), (kept, &state));
    }

    /// All that is kept can be taken back: up to the events that were given up, so many.
    fn ends_at(&self, given_up: usize) {
        goes_back(self.adapter.clone(), &self.states[given_up..]);
    }
}

/// The first seven events of a run, by hand: five of them are requests, and all are answered and do what they ask.
#[test]
fn the_events_of_a_branch() {
    let mut branch = Branch::new();
    branch.goes_on(7);
    let mut state = upset_state(1);
    state[..8].copy_from_slice(&[5, 5, 0, 0, 0, 0x04, 0x04, 0x04]);
    state[DATAIN] = 4;
    state[MASK_0A] = 5;
    state[CTRL_12] = 6;
    assert_eq!(branch.adapter.state(), &state);
    let tags: Vec<u8> = (0..7)
        .map(|slot| branch.adapter.journal()[1_024 + 256 * slot])
        .collect();
    assert_eq!(tags, [1, 2, 3, 0, 1, 2, 3]);
}

/// 70 events, of which the small journal gives up 6, and 20 steps back: 44 of the 50 that stand are kept. What was
/// given up does not come back with the large journal, which has room for 156 more and then gives up its own.
#[test]
fn enlarging_in_the_middle_of_a_branch() {
    let mut branch = Branch::new();
    branch.goes_on(70);
    branch.goes_back(20);
    branch.enlarges(44);
    branch.ends_at(6);
    branch.goes_on(155);
    branch.ends_at(6);
    branch.goes_on(1);
    branch.ends_at(6);
    branch.goes_on(1);
    branch.ends_at(7);
    // Another branch, from 150 events before: 57 stand, and 50 of them are kept.
    branch.goes_back(150);
    branch.ends_at(7);
    branch.goes_on(300);
    branch.ends_at(157);
}

/// A small journal that has nothing to take back, some, all that it can, and more than that. 100 events later the small
/// one gives 5 after 64 steps; the large one goes on to what was kept when it was made.
#[test]
fn an_enlarged_journal_gives_what_the_small_one_gives() {
    for (before, kept, given_up) in [
        (0, 0, 0),
        (1, 1, 0),
        (63, 63, 0),
        (64, 64, 0),
        (65, 64, 1),
        (130, 64, 66),
    ] {
        let mut small = Branch::new();
        small.goes_on(before);
        let mut large = small.clone();
        large.enlarges(kept);
        for _ in 0..100 {
            assert_eq!(large.does_next(), small.does_next());
            assert_eq!(large.adapter.state(), small.adapter.state());
        }
        for _ in 0..64 {
            assert_eq!(small.adapter.step_back(), Ok(()));
            large.goes_back(1);
            assert_eq!(large.adapter.state(), small.adapter.state());
        }
        assert_eq!(small.adapter.step_back(), Err(Refusal::NoneKept));
        assert_eq!(large.adapter.kept(), kept + 36);
        large.ends_at(given_up);
    }
}

/// On and back by uneven steps, never past what the small one keeps: each call gives the same with both. In the end 396
/// events stand; the small journal has none of them left, the large one gave up 460 - 200 where it had gone furthest.
#[test]
fn both_journals_go_on_and_back_alike() {
    let mut small = Branch::new();
    small.goes_on(30);
    let mut large = small.clone();
    large.enlarges(30);
    for (events, steps) in [
        (5, 9),
        (60, 64),
        (1, 1),
        (200, 10),
        (10, 64),
        (3, 3),
        (64, 63),
        (2, 1),
        (300, 64),
    ] {
        for _ in 0..events {
            assert_eq!(large.does_next(), small.does_next());
        }
        large.goes_back(steps);
        small.goes_back(steps);
        assert_eq!(large.adapter.state(), small.adapter.state());
    }
    small.ends_at(396);
    large.ends_at(260);
}

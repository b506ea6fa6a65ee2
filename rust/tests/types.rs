//! The crate's types over the archive: every number comes back as its name, and nothing changes where it must not.

// A match on an enum that will grow must have an arm for what is to come: where the enum could not grow, that arm would be
// unreachable, and this file would not compile.
#![deny(unreachable_patterns)]

use sca::boundary::{self, RawSample};
use sca::{text, transmit, Adapter, Answer, Broken, ControlRoom, Dropped, Edge, Heard, LinkCommand, Port, Receiver};
use sca::{JournalSize, Refusal, Reply};
use sca::{ANSWER_BYTES, BATCH_LEAST, BODY_LEAST, BODY_MOST, CABLE_MOST, I2C_FIRST, I2C_LAST, I2C_MOST, ID_MOST};
use sca::{INPUT_MOST, JOURNAL_BYTES, KEPT_MOST, LARGE_JOURNAL_BYTES, LARGE_KEPT_MOST, OUTPUT_LEAST, RECEIVER_BYTES};
use sca::{RECORD_BYTES, REPLY_BYTES, SAMPLES_MOST, STATE_BYTES, TRANSACTIONS_MOST, TRANSFER_BYTES};
use std::mem::{align_of, size_of};

fn adapter() -> Adapter {
    Adapter::new(0x00_000A).unwrap()
}

fn sent(port: Port, bytes: &[u8]) -> impl Fn(Answer) -> bool + '_ {
    move |answer| matches!(answer, Answer::HasFrame { port: on, body } if on == port && body[..] == *bytes)
}

/// After requests that are each replied to.
fn asked(requests: [[u8; 10]; 3]) -> Adapter {
    let mut adapter = adapter();
    for request in requests {
        assert!(matches!(
            adapter.frame(Port::Primary, &request),
            Ok(Answer::HasFrame { .. })
        ));
    }
    adapter
}

/// GPIO and SPI on, all lines with interrupts, on falling.
fn enabled() -> Adapter {
    asked([
        [0x00, 0x00, 0x01, 0x00, 0x04, 0x02, 0x00, 0x06, 0x00, 0x00],
        [0x00, 0x02, 0x02, 0x02, 0x04, 0x30, 0xFF, 0xFF, 0xFF, 0xFF],
        [0x00, 0x04, 0x03, 0x02, 0x04, 0x60, 0x00, 0x00, 0x01, 0x00],
    ])
}

/// All I2C masters on.
fn masters() -> Adapter {
    asked([
        [0x00, 0x00, 0x01, 0x00, 0x04, 0x02, 0x00, 0xF8, 0x00, 0x00],
        [0x00, 0x02, 0x02, 0x00, 0x04, 0x04, 0x00, 0xFF, 0x00, 0x00],
        [0x00, 0x04, 0x03, 0x00, 0x04, 0x06, 0x00, 0x07, 0x00, 0x00],
    ])
}

#[test]
fn ids() {
    assert!(Adapter::new(ID_MOST).is_ok());
    assert_eq!(Adapter::new(ID_MOST + 1), Err(Refusal::BadId));
    for size in [JournalSize::Small, JournalSize::Large] {
        assert!(Adapter::with_journal(ID_MOST, size).is_ok());
        assert_eq!(Adapter::with_journal(ID_MOST + 1, size), Err(Refusal::BadId));
    }
}

#[test]
fn refused_frames_change_nothing() {
    let mut adapter = enabled();
    let before = adapter.clone();
    for length in [0, 1, 17, 40] {
        assert_eq!(adapter.frame(Port::Primary, &vec![0; length]), Err(Refusal::BadBody));
    }
    assert_eq!(adapter, before);
    assert_eq!(transmit(&[0]), Err(Refusal::BadBody));
}

#[test]
fn dropped_events() {
    let mut adapter = adapter();
    let dropped = |answer| Ok(Answer::Dropped(answer));
    assert_eq!(adapter.frame(Port::Primary, &[1, 0]), dropped(Dropped::OtherAddress));
    assert_eq!(adapter.frame(Port::Auxiliary, &[0, 0]), dropped(Dropped::OtherPort));
    assert_eq!(adapter.frame(Port::Primary, &[0, 1]), dropped(Dropped::OtherControl));
    assert_eq!(adapter.frame(Port::Primary, &[0, 0]), dropped(Dropped::BadInformation));
    assert_eq!(adapter.completion(&[0; 16]), dropped(Dropped::NotBusy));
    assert_eq!(
        adapter.i2c_completion(I2C_FIRST, true, false, &[]),
        dropped(Dropped::NotBusy)
    );
    assert_eq!(adapter.sample(1, Edge::SystemClock), dropped(Dropped::LinesDisabled));
    assert_eq!(adapter.kept(), 7);
}

#[test]
fn ports() {
    let mut adapter = adapter();
    let answer = adapter.frame(Port::Auxiliary, &[0x00, 0x3F]).unwrap();
    assert!(sent(Port::Auxiliary, &[0x00, 0x73])(answer));
}

#[test]
fn later_answers() {
    let mut adapter = enabled();
    let go = [0x00, 0x06, 0x04, 0x01, 0x02, 0x72, 0x00, 0x00, 0x00, 0x00];
    assert_eq!(adapter.frame(Port::Primary, &go), Ok(Answer::NoFrame));
    let mut received = [0; 16];
    received[..4].copy_from_slice(&[0x78, 0x56, 0x34, 0x12]);
    let reply = [0x00, 0x86, 0x04, 0x01, 0x00, 0x06, 0x34, 0x12, 0x78, 0x56];
    assert!(sent(Port::Primary, &reply)(adapter.completion(&received).unwrap()));
    assert_eq!(adapter.sample(1, Edge::StrobeRising), Ok(Answer::NoFrame));
    assert_eq!(adapter.sample(1, Edge::StrobeFalling), Ok(Answer::NoFrame));
    let interrupt = [0x00, 0x88, 0xFF, 0x02, 0x00, 0x04, 0x00, 0x00, 0x01, 0x00];
    assert_eq!(adapter.sample(1, Edge::SystemClock), Ok(Answer::NoFrame));
    assert!(sent(Port::Primary, &interrupt)(
        adapter.sample(0, Edge::SystemClock).unwrap()
    ));
}

/// On each channel, a multi-byte read of three bytes, of which two come: DATA has both and a zero. Taken back, it ends again, in
/// another way.
#[test]
fn i2c_exchanges() {
    for channel in I2C_FIRST..=I2C_LAST {
        let mut adapter = masters();
        let control = [0x00, 0x06, 0x04, channel, 0x01, 0x30, 0x00, 0x0C, 0x00, 0x00];
        let written = [0x00, 0x86, 0x04, channel, 0x00, 0x00, 0x00, 0x00, 0x00, 0x00];
        assert!(sent(Port::Primary, &written)(
            adapter.frame(Port::Primary, &control).unwrap()
        ));
        let start = [0x00, 0x08, 0x05, channel, 0x04, 0xDE, 0x00, 0x50, 0x00, 0x00];
        assert_eq!(adapter.frame(Port::Primary, &start), Ok(Answer::NoFrame));
        let busy = *adapter.state();

        let reply = [0x00, 0xA8, 0x05, channel, 0x00, 0x04, 0x00, 0x04, 0x00, 0x00];
        let answer = adapter.i2c_completion(channel, true, false, &[0x11, 0x22]);
        assert!(sent(Port::Primary, &reply)(answer.unwrap()));
        let read = [0x00, 0x0A, 0x06, channel, 0x00, 0x41, 0x00, 0x00, 0x00, 0x00];
        let bytes = [0x00, 0xCA, 0x06, channel, 0x00, 0x04, 0x22, 0x11, 0x00, 0x00];
        assert!(sent(Port::Primary, &bytes)(
            adapter.frame(Port::Primary, &read).unwrap()
        ));
        assert_eq!(
            adapter.i2c_completion(channel, true, false, &[]),
            Ok(Answer::Dropped(Dropped::NotBusy))
        );

        for _ in 0..3 {
            assert_eq!(adapter.step_back(), Ok(()));
        }
        assert_eq!(*adapter.state(), busy);
        for (acknowledge, line_low, status) in [(true, true, 0x08), (false, false, 0x40), (false, true, 0x48)] {
            let reply = [0x00, 0xA8, 0x05, channel, 0x00, 0x04, 0x00, status, 0x00, 0x00];
            let answer = adapter.i2c_completion(channel, acknowledge, line_low, &[0x11, 0x22]);
            assert!(sent(Port::Primary, &reply)(answer.unwrap()));
            assert_eq!(adapter.step_back(), Ok(()));
        }
        assert_eq!(*adapter.state(), busy);
    }
}

/// A channel that is not I2C, and more bytes than a transaction has.
#[test]
fn refused_i2c_completions_change_nothing() {
    let mut adapter = masters();
    let before = adapter.clone();
    for channel in 0..=u8::MAX {
        if !(I2C_FIRST..=I2C_LAST).contains(&channel) {
            let refused = adapter.i2c_completion(channel, true, false, &[]);
            assert_eq!(refused, Err(Refusal::BadArgument));
        }
        let refused = adapter.i2c_completion(channel, true, false, &[0; I2C_MOST + 1]);
        assert_eq!(refused, Err(Refusal::BadArgument));
    }
    assert_eq!(adapter, before);
}

/// As C lays `struct sca_pin_sample` out.
#[test]
fn the_layout_of_a_sample() {
    let sample = RawSample::default();
    let at = |field: &u32| field as *const u32 as usize - &sample as *const RawSample as usize;
    assert_eq!((size_of::<RawSample>(), align_of::<RawSample>()), (8, 4));
    assert_eq!((at(&sample.levels), at(&sample.kind)), (0, 4));
}

#[test]
fn steps_back() {
    for size in [JournalSize::Small, JournalSize::Large] {
        let mut adapter = Adapter::with_journal(0x00_000A, size).unwrap();
        let mut states = Vec::new();
        for _ in 0..size.kept_most() + 6 {
            states.push(*adapter.state());
            assert_eq!(adapter.upset(), Ok(Answer::NoFrame));
        }
        assert_eq!(adapter.kept(), size.kept_most());
        for state in states.iter().rev().take(size.kept_most()) {
            assert_eq!(adapter.step_back(), Ok(()));
            assert_eq!(adapter.state(), state);
        }
        assert_eq!(adapter.step_back(), Err(Refusal::NoneKept));
        adapter.upset().unwrap();
        adapter.forget();
        assert_eq!((adapter.kept(), adapter.journal_size()), (0, size));
    }
}

#[test]
fn kept_as_bytes() {
    let small = enabled();
    let mut large = small.clone();
    large.enlarge().unwrap();
    for adapter in [small, large] {
        let (state, journal) = (*adapter.state(), adapter.journal().to_vec());
        assert_eq!(Adapter::from_bytes(state, &journal), Ok(adapter));
        assert_eq!(Adapter::from_bytes(state, &journal[1..]), Err(Refusal::BadJournal));
        let mut wrong = state;
        wrong[0] = 8;
        assert_eq!(Adapter::from_bytes(wrong, &journal), Err(Refusal::BadState));
        assert_eq!(Adapter::from_bytes(wrong, &journal[1..]), Err(Refusal::BadState));
    }
}

/// A journal is for the state that it went with. The upset's record has CRB as it was, off, and nothing of SPI and GPIO: over a
/// state that has something in them, it would leave none.
#[test]
fn a_journal_of_another_state() {
    let mut other = adapter();
    other.upset().unwrap();
    let mut mixed = Adapter::from_bytes(*enabled().state(), other.journal()).unwrap();
    let before = mixed.clone();
    assert_eq!(mixed.step_back(), Err(Refusal::BadJournal));
    assert_eq!(mixed, before);
}

/// No event is played: not a byte differs, at none kept, at some, and at the most, where an event would push one out.
#[test]
fn bytes_are_only_looked_at() {
    for size in [JournalSize::Small, JournalSize::Large] {
        let mut adapter = Adapter::with_journal(0x00_000A, size).unwrap();
        for event in 0..=size.kept_most() {
            let (state, journal) = (*adapter.state(), adapter.journal().to_vec());
            let mut again = Adapter::from_bytes(state, &journal).unwrap();
            assert_eq!((again.state(), again.journal()), (&state, &journal[..]));
            assert_eq!(again.kept(), event);
            for _ in 0..event {
                assert_eq!(again.step_back(), Ok(()));
            }
            assert_eq!(again.step_back(), Err(Refusal::NoneKept));
            adapter.upset().unwrap();
        }
        assert_eq!(adapter.kept(), size.kept_most());
        let again = Adapter::from_bytes(*adapter.state(), adapter.journal());
        assert_eq!(again, Ok(adapter));
    }
}

#[test]
fn receivers_are_only_looked_at() {
    let cable = transmit(&[0x00, 0xFF, 0x7E, 0x12]).unwrap();
    for length in 0..cable.len() {
        let mut receiver = Receiver::new();
        receiver.listen(&cable[..length]).for_each(drop);
        assert_eq!(Receiver::from_bytes(receiver.to_bytes()), Ok(receiver));
    }
    // A new receiver is 0, 7 and zeros, and none of its bytes may have bit 7 set.
    for byte in 0..RECEIVER_BYTES {
        let mut bytes = Receiver::new().to_bytes();
        bytes[byte] ^= 0x80;
        assert_eq!(Receiver::from_bytes(bytes), Err(Refusal::BadState));
    }
}

#[test]
fn wide_ports_kinds_and_channels() {
    let adapter = enabled();
    let (mut state, mut journal) = (*adapter.state(), adapter.journal().to_vec());
    for wide in [256, 257, 258, 0x1_0000, 0x1_0001, 0x8000_0000, u32::MAX] {
        let answer = boundary::sca_frame(&mut state, &mut journal, wide, &[0x00, 0x2F], &mut [0; 16]);
        assert_eq!((answer.number, answer.length, answer.port), (3, 0, 0));
        let answer = boundary::sca_sample(&mut state, &mut journal, 1, wide, &mut [0; 16]);
        assert_eq!((answer.number, answer.length, answer.port), (3, 0, 0));
        let channel = wide | u32::from(I2C_FIRST);
        let answer = boundary::sca_i2c_completion(&mut state, &mut journal, channel, 1, 0, &[], &mut [0; 16]);
        assert_eq!((answer.number, answer.length, answer.port), (3, 0, 0));
    }
    assert_eq!((&state, &journal[..]), (adapter.state(), adapter.journal()));
}

/// Any acknowledge and any line low but 0 mean 1.
#[test]
fn wide_bits() {
    let mut adapter = masters();
    let start = [0x00, 0x06, 0x04, I2C_FIRST, 0x04, 0x86, 0x00, 0x50, 0x00, 0x00];
    assert_eq!(adapter.frame(Port::Primary, &start), Ok(Answer::NoFrame));
    for wide in [1, 2, 255, 256, 0x1_0000, 0x8000_0000, u32::MAX] {
        for (acknowledge, line_low, status, byte) in [(wide, 0, 0x04, 0x99), (wide, wide, 0x08, 0), (0, wide, 0x48, 0)]
        {
            let (mut state, mut journal, mut output) = (*adapter.state(), adapter.journal().to_vec(), [0; 16]);
            let channel = u32::from(I2C_FIRST);
            boundary::sca_i2c_completion(
                &mut state,
                &mut journal,
                channel,
                acknowledge,
                line_low,
                &[0x99],
                &mut output,
            );
            assert_eq!(output[6..8], [byte, status]);
        }
    }
}

#[test]
fn the_version() {
    assert_eq!(sca::VERSION, 0x01_0500);
    assert_eq!(sca::version(), sca::VERSION);
    for manifest in [include_str!("../Cargo.toml"), include_str!("../Cargo.lock")] {
        assert!(manifest.lines().any(|line| line == "version = \"1.5.0\""));
    }
}

#[test]
fn texts() {
    assert_eq!(Refusal::BadBody.to_string(), "2: the body is not 2 to 16 bytes");
    assert_eq!(
        Dropped::OtherAddress.to_string(),
        "11: dropped: the address is not 0x00"
    );
    assert_eq!(
        Broken::WrongFcs.to_string(),
        "23: the receiver dropped a frame: its FCS is wrong"
    );
    assert_eq!(
        Refusal::AllOpen.to_string(),
        "31: no TRN is free: all 254 transactions are open"
    );
    for number in 0..=255 {
        let known = matches!(number, 0..=17 | 21..=24 | 31..=33 | 35);
        assert_eq!(text(number) != "unknown number", known);
    }
}

/// The names that C has for the numbers, each with its value, and the text of each.
fn numbers_of_the_header() -> Vec<(&'static str, u8, String)> {
    let header = include_str!("../../include/sca.h");
    let texts = header.split("case SCA_").skip(1).map(|case| {
        let (name, rest) = case.split_once(':').unwrap();
        // A text may have a semicolon of its own.
        let (returned, _) = rest.split_once("\";").unwrap();
        // What stands between quotes is one text in C, however many parts it has.
        (name, returned.split('"').skip(1).step_by(2).collect())
    });
    let value = |name: &str| {
        let defined = format!("SCA_{} = ", name);
        let at = header.find(&defined).expect(name) + defined.len();
        let digits = header[at..].split(|sign: char| !sign.is_ascii_digit()).next();
        digits.unwrap().parse().unwrap()
    };
    texts.map(|(name, text)| (name, value(name), text)).collect()
}

/// A name in the manner of constants, from one in the manner of variants.
fn constant(variant: &str) -> String {
    let mut name = String::new();
    for sign in variant.chars() {
        if sign.is_ascii_uppercase() && !name.is_empty() {
            name.push('_');
        }
        name.push(sign.to_ascii_uppercase());
    }
    name
}

/// One name and one value for each size of document 01: in the proved source, in the header and here.
#[test]
fn sizes_have_one_name() {
    let header = include_str!("../../include/sca.h");
    let source = include_str!("../../crates/numbers/src/lib.rt");
    let sizes = [
        ("BODY_LEAST", BODY_LEAST),
        ("BODY_MOST", BODY_MOST),
        ("CABLE_MOST", CABLE_MOST),
        ("I2C_MOST", I2C_MOST),
        ("INPUT_MOST", INPUT_MOST),
        ("OUTPUT_LEAST", OUTPUT_LEAST),
        ("REPLY_BYTES", REPLY_BYTES),
        ("SAMPLES_MOST", SAMPLES_MOST),
        ("BATCH_LEAST", BATCH_LEAST),
        ("TRANSFER_BYTES", TRANSFER_BYTES),
    ];
    assert_eq!(source.matches(": usize = ").count(), sizes.len());
    for (name, size) in sizes {
        assert!(
            source.contains(&format!("pub const {}: usize = {};", name, size)),
            "{}",
            name
        );
        assert!(header.contains(&format!("#define SCA_{} {} ", name, size)), "{}", name);
    }
    assert!(source.contains(&format!("pub const ID_MOST: u32 = 0x{:X};", ID_MOST)));
    assert!(header.contains(&format!("#define SCA_ID_MOST 0x{:X} ", ID_MOST)));
}

/// One name and one text for each number: in the proved source, in the header and here.
#[test]
fn one_vocabulary() {
    let numbers = numbers_of_the_header();
    assert_eq!(numbers.len(), 26);
    let source = include_str!("../../crates/numbers/src/lib.rt");
    // A variant has its number in its arm; that of a frame is a constant.
    let mut said: Vec<(String, u8)> = source
        .lines()
        .filter_map(|line| {
            let (variant, number) = line.trim().strip_suffix(',')?.split_once(" => ")?;
            Some((constant(variant.split_once("::")?.1), number.parse().ok()?))
        })
        .collect();
    assert_eq!(source.matches(": u8 = ").count(), 1);
    assert!(source.contains("pub const HAS_FRAME: u8 = 0;"));
    said.push(("HAS_FRAME".to_string(), 0));
    assert_eq!(said.len(), numbers.len());
    for (name, number, words) in &numbers {
        assert!(said.contains(&(name.to_string(), *number)), "{}", name);
        assert_eq!(text(*number), *words);
    }
    let named = |name: String, number: u8| {
        assert!(
            numbers
                .iter()
                .any(|known| (known.0, known.1) == (&constant(&name)[..], number)),
            "{}",
            name
        );
    };
    use {Broken::*, Dropped::*, Refusal::*};
    for refusal in [
        ShortOutput,
        BadBody,
        BadArgument,
        BadJournal,
        NoneKept,
        BadState,
        BadId,
        LongInput,
        BadStart,
        AllOpen,
        NoMatch,
        BadReply,
        NoCommand,
    ] {
        named(format!("{:?}", refusal), refusal as u8);
    }
    for dropped in [
        OtherAddress,
        OtherPort,
        OtherControl,
        BadInformation,
        NotBusy,
        LinesDisabled,
    ] {
        named(format!("{:?}", dropped), dropped as u8);
    }
    for broken in [LongContent, BrokenContent, WrongFcs, Aborted] {
        named(format!("{:?}", broken), broken as u8);
    }
    named("HasFrame".to_string(), 0);
    named("NoFrame".to_string(), 17);
}

/// One size, in the header and here.
#[test]
fn sizes() {
    let header = include_str!("../../include/sca.h");
    for (name, size) in [
        ("BODY_LEAST", sca::BODY_LEAST),
        ("BODY_MOST", sca::BODY_MOST),
        ("CABLE_MOST", sca::CABLE_MOST),
        ("INPUT_MOST", INPUT_MOST),
        ("OUTPUT_LEAST", sca::OUTPUT_LEAST),
        ("SAMPLES_MOST", SAMPLES_MOST),
        ("REPLY_BYTES", REPLY_BYTES),
        ("BATCH_LEAST", BATCH_LEAST),
        ("TRANSFER_BYTES", sca::TRANSFER_BYTES),
        ("I2C_MOST", I2C_MOST),
        ("RECEIVER_BYTES", RECEIVER_BYTES),
        ("STATE_BYTES", STATE_BYTES),
        ("JOURNAL_BYTES", JOURNAL_BYTES),
        ("KEPT_MOST", KEPT_MOST),
        ("LARGE_JOURNAL_BYTES", LARGE_JOURNAL_BYTES),
        ("LARGE_KEPT_MOST", LARGE_KEPT_MOST),
        ("RECORD_BYTES", RECORD_BYTES),
        ("TRANSACTIONS_MOST", TRANSACTIONS_MOST),
        ("ANSWER_BYTES", ANSWER_BYTES),
    ] {
        assert!(header.contains(&format!("#define SCA_{} {} ", name, size)), "{}", name);
    }
    assert!(header.contains(&format!("#define SCA_ID_MOST 0x{:X} ", ID_MOST)));
    assert!(header.contains(&format!("#define SCA_VERSION 0x{:06X}\n", sca::VERSION)));
    assert!(header.contains(&format!("    SCA_I2C_FIRST = 0x{:02X}, ", I2C_FIRST)));
    assert!(header.contains(&format!("    SCA_I2C_LAST = 0x{:02X}, ", I2C_LAST)));
    assert_eq!(header.matches("#define SCA_").count(), 22); // with SCA_H
}

/// As request 2026-06 has them; each journal is 1,024 bytes and 256 for an event.
#[test]
fn sizes_of_a_journal() {
    assert_eq!((JOURNAL_BYTES, KEPT_MOST), (17_408, 64));
    assert_eq!((LARGE_JOURNAL_BYTES, LARGE_KEPT_MOST), (52_224, 200));
    for (size, bytes, most) in [(JournalSize::Small, 17_408, 64), (JournalSize::Large, 52_224, 200)] {
        assert_eq!((size.bytes(), size.kept_most()), (bytes, most));
        assert_eq!(bytes, 1_024 + 256 * most);
        let adapter = Adapter::with_journal(0x00_000A, size).unwrap();
        assert_eq!((adapter.journal_size(), adapter.journal().len()), (size, bytes));
    }
    assert_eq!(
        Adapter::new(0x00_000A),
        Adapter::with_journal(0x00_000A, JournalSize::Small)
    );
}

/// The arguments of the header that have a type of their own here, each by its number.
#[test]
fn arguments() {
    let header = include_str!("../../include/sca.h");
    for (name, number) in [
        ("PRIMARY", Port::Primary as u32),
        ("AUXILIARY", Port::Auxiliary as u32),
        ("SYSTEM_CLOCK", Edge::SystemClock as u32),
        ("STROBE_RISING", Edge::StrobeRising as u32),
        ("STROBE_FALLING", Edge::StrobeFalling as u32),
    ] {
        assert!(header.contains(&format!("    SCA_{} = {},", name, number)), "{}", name);
    }
    for (name, command) in [
        ("CONNECT", LinkCommand::Connect),
        ("RESET", LinkCommand::Reset),
        ("TEST", LinkCommand::Test),
    ] {
        let control = command as u8;
        assert!(
            header.contains(&format!("    SCA_{} = 0x{:02X},", name, control)),
            "{}",
            name
        );
        let polled = ControlRoom::new().command_with_poll(command)[1];
        assert!(
            header.contains(&format!("    SCA_POLL = 0x{:02X} ", polled - control)),
            "{}",
            name
        );
    }
}

/// The enums that will grow; see the head of this file.
#[test]
fn matches_with_an_arm_for_what_is_to_come() {
    let of_answer = |answer| match answer {
        Answer::HasFrame { .. } => 1,
        Answer::Dropped(_) => 2,
        Answer::NoFrame => 3,
        _ => 4,
    };
    let of_heard = |heard| match heard {
        Heard::HasFrame(_) => 1,
        Heard::Broken(_) => 2,
        Heard::NoFrame => 3,
        _ => 4,
    };
    let of_reply = |reply| match reply {
        Reply::Answered { .. } => 1,
        Reply::Interrupt { .. } => 2,
        _ => 3,
    };
    use {Broken::*, Dropped::*, Refusal::*};
    let of_refusal = |refusal| match refusal {
        ShortOutput | BadBody | BadArgument | BadJournal | NoneKept | BadState | BadId | LongInput | BadStart => 1,
        AllOpen | NoMatch | BadReply | NoCommand => 2,
        _ => 3,
    };
    let of_dropped = |dropped| match dropped {
        OtherAddress | OtherPort | OtherControl | BadInformation | NotBusy | LinesDisabled => 1,
        _ => 2,
    };
    let of_broken = |broken| match broken {
        LongContent | BrokenContent | WrongFcs | Aborted => 1,
        _ => 2,
    };
    assert_eq!(of_answer(adapter().upset().unwrap()), 3);
    assert_eq!(of_heard(Receiver::new().receive(&[], 0).unwrap().heard), 3);
    let interrupt = [0x00, 0x20, 0xFF, 0x02, 0x00, 0x04, 0x00, 0x00, 0x01, 0x00];
    assert_eq!(of_reply(ControlRoom::new().reply(&interrupt).unwrap()), 2);
    assert_eq!((of_refusal(BadId), of_refusal(NoCommand)), (1, 2));
    assert_eq!((of_dropped(NotBusy), of_broken(Aborted)), (1, 1));
}

#[test]
fn a_frame_in_two_parts() {
    let body = [0x00, 0xFF, 0x7E, 0x12];
    let cable = transmit(&body).unwrap();
    let mut receiver = Receiver::new();
    assert_eq!(receiver.listen(&cable[..3]).next(), None);
    let mut kept = Receiver::from_bytes(receiver.to_bytes()).unwrap();
    match kept.listen(&cable[3..]).next() {
        Some(Heard::HasFrame(heard)) => assert_eq!(heard[..], body),
        other => panic!("{:?}", other),
    }
    assert_eq!(Receiver::from_bytes([0xFF; 24]), Err(Refusal::BadState));
}

#[test]
fn readings() {
    let mut receiver = Receiver::new();
    assert_eq!(receiver.receive(&[0; 2], 17), Err(Refusal::BadStart));
    assert_eq!(receiver.receive(&[0; 65_537], 0), Err(Refusal::LongInput));
    let read = receiver.receive(&[0; 65_536], 4).unwrap();
    assert_eq!((read.consumed, read.heard), (8 * 65_536 - 4, Heard::NoFrame));
}

#[test]
fn broken_frames() {
    let heard = |cable: &[u8]| Receiver::new().listen(cable).next();
    let broken = |broken| Some(Heard::Broken(broken));
    let mut long = [0; 21];
    long[0] = 0x7E;
    long[20] = 0x7E;
    assert_eq!(heard(&long), broken(Broken::LongContent));
    assert_eq!(heard(&[0x7E, 0, 0, 0, 0, 0xF8, 0x01]), broken(Broken::BrokenContent));
    assert_eq!(heard(&[0x7E, 0, 0, 0, 0, 0x7E]), broken(Broken::WrongFcs));
    assert_eq!(heard(&[0x7E, 0, 0, 0, 0, 0xFF]), broken(Broken::Aborted));
}

#[test]
fn a_long_cable() {
    let frame = transmit(&[0x00, 0x2F]).unwrap();
    let cable: Vec<u8> = frame.iter().copied().cycle().take(20_000 * frame.len()).collect();
    assert!(cable.len() > 65_536);
    assert_eq!(Receiver::new().listen(&cable).count(), 20_000);
}

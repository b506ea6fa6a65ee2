//! Measures, in one run on the same cables, the library's link beside the independent one's two forms.

#![forbid(unsafe_code)]

use reference::{link, swift};
use sca::{boundary, RECEIVER_BYTES};
use std::time::Instant;

/// Rounds of each measurement: a cable is read, or all bodies are sent. The best of them counts.
const ROUNDS: usize = 101;
/// Bytes of each cable: the most that one call takes.
const CABLE_BYTES: usize = 65_536;
/// Bodies sent in a round.
const BODIES: usize = 4_096;

/// Repeatable random bytes (a linear congruence).
struct Chance(u64);

impl Chance {
    fn byte(&mut self) -> u8 {
        self.0 = self
            .0
            .wrapping_mul(6_364_136_223_846_793_005)
            .wrapping_add(1_442_695_040_888_963_407);
        (self.0 >> 56) as u8
    }

    /// A body of 2 to 16 bytes.
    fn body(&mut self) -> Vec<u8> {
        let length = 2 + usize::from(self.byte()) % 15;
        (0..length).map(|_| self.byte()).collect()
    }
}

/// Frames with bodies of every length, as the transmitter writes them one after the other.
fn frames() -> Vec<u8> {
    let mut chance = Chance(1);
    let mut cable = Vec::new();
    let mut output = [0; 24];
    loop {
        let (_, count) = link::transmit(&chance.body(), &mut output);
        if cable.len() + count > CABLE_BYTES {
            cable.resize(CABLE_BYTES, 0xFF);
            return cable;
        }
        cable.extend_from_slice(&output[..count]);
    }
}

/// What was done: frames, bits, and a sum over bytes that were written. It is the same for all, or they
/// did not do the same work.
#[derive(Clone, Copy, PartialEq, Eq, Debug)]
struct Work {
    frames: usize,
    bits: usize,
    sum: usize,
}

fn by_library(cable: &[u8]) -> Work {
    let mut receiver = [0; RECEIVER_BYTES];
    boundary::sca_receiver_new(&mut receiver);
    read(|start, output| {
        let received = boundary::sca_receive(&mut receiver, cable, start, output);
        (received.number, received.consumed)
    })
}

fn by_link(cable: &[u8]) -> Work {
    let mut receiver = link::Receiver::new();
    read(|start, output| {
        let (number, consumed, _) = receiver.receive(cable, start, output);
        (number, consumed)
    })
}

fn by_swift(cable: &[u8]) -> Work {
    let mut receiver = swift::Receiver::new();
    read(|start, output| {
        let (number, consumed, _) = receiver.receive(cable, start, output);
        (number, consumed)
    })
}

fn read(mut call: impl FnMut(usize, &mut [u8]) -> (u8, usize)) -> Work {
    let (mut frames, mut bits, mut sum) = (0, 0, 0);
    let mut output = [0; 16];
    loop {
        let (number, consumed) = call(bits, &mut output);
        bits += consumed;
        frames += usize::from(number == 0);
        sum += usize::from(output[0]);
        if number == 17 {
            return Work { frames, bits, sum };
        }
    }
}

fn send(bodies: &[Vec<u8>], call: impl Fn(&[u8], &mut [u8]) -> usize) -> Work {
    let (mut bytes, mut sum) = (0, 0);
    let mut output = [0; 24];
    for body in bodies {
        let count = call(body, &mut output);
        bytes += count;
        sum += usize::from(output[count / 2]);
    }
    Work {
        frames: bodies.len(),
        bits: 8 * bytes,
        sum,
    }
}

/// The three sides in turn, round after round; nanoseconds a bit, each side's best.
fn best(sides: [&dyn Fn() -> Work; 3]) -> ([f64; 3], Work) {
    let mut least = [f64::INFINITY; 3];
    let done = sides[0]();
    for _ in 0..ROUNDS {
        for (least, side) in least.iter_mut().zip(&sides) {
            let begin = Instant::now();
            let work = side();
            let nanoseconds = begin.elapsed().as_nanos() as f64;
            assert_eq!(work, done, "all sides do the same work");
            *least = least.min(nanoseconds / work.bits as f64);
        }
    }
    (least, done)
}

fn show(what: &str, [ours, link, swift]: [f64; 3]) {
    println!(
        "{:<43} {:>9.2} {:>9.2} {:>9.2} {:>12.2} {:>12.2}",
        what,
        ours,
        link,
        swift,
        link / ours,
        swift / ours
    );
}

fn main() {
    println!(
        "A round: a cable of {} bytes read by one receiver, or {} bodies of 2 to 16 bytes sent. Best of {} rounds,",
        CABLE_BYTES, BODIES, ROUNDS
    );
    println!("in nanoseconds a bit of cable. A ratio over 1: the library is faster.");
    println!(
        "{:<43} {:>9} {:>9} {:>9} {:>12} {:>12}",
        "", "library", "link", "swift", "link/library", "swift/library"
    );
    let cables: [(&str, Vec<u8>); 4] = [
        ("receive, random frames", frames()),
        ("receive, idle flags", vec![0x7E; CABLE_BYTES]),
        ("receive, idle flags across bytes", vec![0xF3; CABLE_BYTES]),
        ("receive, idle ones and a zero", vec![0x7F; CABLE_BYTES]),
    ];
    for (what, cable) in &cables {
        let sides: [&dyn Fn() -> Work; 3] = [&|| by_library(cable), &|| by_link(cable), &|| by_swift(cable)];
        let (times, work) = best(sides);
        show(&format!("{}, {} frames", what, work.frames), times);
    }
    let mut chance = Chance(2);
    let bodies: Vec<Vec<u8>> = (0..BODIES).map(|_| chance.body()).collect();
    let sides: [&dyn Fn() -> Work; 3] = [
        &|| send(&bodies, |body, output| boundary::sca_transmit(body, output).count),
        &|| send(&bodies, |body, output| link::transmit(body, output).1),
        &|| send(&bodies, |body, output| swift::transmit(body, output).1),
    ];
    let (times, work) = best(sides);
    show(&format!("transmit, {} frames", work.frames), times);
}

//! Compares the library's link with the independent implementation on random streams.
//!
//!     compare [--seed N] [--streams N]     streams 0 to N - 1 of a seed
//!     compare --seed N --only STREAM       one of them
//!     compare --replay FILE                a stream as a failing run prints it
//!     compare --break                      lays faults into our side; each must be found
//!
//! Each test gives a line 'ok' or 'FAIL'; the status is 0 only where all are ok.

#![forbid(unsafe_code)]

mod bits;
mod calls;
mod fault;
#[path = "../harness/mod.rs"]
mod harness;
mod receiver;
mod run;
mod shrink;
mod streams;

use calls::Call;
use fault::{Fault, FAULTS};
use harness::chance::Chance;
use harness::options::Options;
use harness::report::{all, list, say};
use run::{Run, Tally};
use std::process::ExitCode;

/// A stream's first difference, and whether the fault was laid in.
fn run(calls: &[Call], fault: Option<Fault>, tally: &mut Tally) -> (Option<String>, bool) {
    let mut run = Run::new(tally, fault);
    let difference = run.all(calls).err();
    (difference, run.faulted)
}

/// Prints a failing stream, made short.
fn show(calls: &[Call]) {
    let difference = |calls: &[Call]| run(calls, None, &mut Tally::new()).0;
    let short = shrink::shrunk(calls, |calls| difference(calls).is_some());
    println!(
        "made short ({}); replay these lines:",
        difference(&short).unwrap_or_default()
    );
    short.iter().for_each(|call| println!("{}", call));
}

fn compare(options: &Options) -> bool {
    let mut tally = Tally::new();
    let numbers = options.numbers();
    println!(
        "seed {}, streams {} to {}",
        options.seed,
        numbers.start,
        numbers.end - 1
    );
    for number in numbers {
        let calls = streams::stream(&mut Chance::new(options.seed, number));
        if let (Some(difference), _) = run(&calls, None, &mut tally) {
            say(
                false,
                &format!("seed {}, stream {}: {}", options.seed, number, difference),
            );
            show(&calls);
            return false;
        }
    }
    let what = format!("{} calls on {} bits of cable agree", tally.calls, tally.bits);
    say(true, &what) && (options.only.is_some() || all_seen(&tally))
}

/// That the streams had in them what they are for.
fn all_seen(tally: &Tally) -> bool {
    let lengths: Vec<usize> = (2..=16).collect();
    let seen = |holds, what: &str, counts: &[u64]| say(holds, &format!("{} ({})", what, list(counts)));
    let results = [
        seen(
            all(&tally.read, &[0, 17, 21, 22, 23, 24, 1, 8, 9]),
            "every number of a reading",
            &tally.read,
        ),
        seen(
            all(&tally.spelled, &[0, 17, 21, 22, 23, 24, 1, 6, 8, 9]),
            "and with receivers spelled out",
            &tally.spelled,
        ),
        seen(all(&tally.sent, &[0, 1, 2]), "every number of a sending", &tally.sent),
        seen(
            all(&tally.made, &[17, 6]),
            "every number of a new receiver",
            &tally.made,
        ),
        seen(
            all(&tally.bodies_read, &lengths),
            "bodies of every length read",
            &tally.bodies_read,
        ),
        seen(
            all(&tally.bodies_sent, &lengths),
            "bodies of every length sent",
            &tally.bodies_sent,
        ),
        seen(
            tally.start_places.iter().all(|count| *count > 0),
            "readings from every bit of a byte",
            &tally.start_places,
        ),
        say(
            tally.reached > 0,
            &format!("receivers spelled out that bits lead to: {}", tally.reached),
        ),
    ];
    results.iter().all(|holds| *holds)
}

/// Each fault is laid once, into the first stream from the thousandth on where it applies, and that stream must fail.
fn find_faults(seed: u64) -> bool {
    let mut found = true;
    for (fault, name) in FAULTS {
        let mut tally = Tally::new();
        let tried = (1_000..2_000).map(|number| {
            let calls = streams::stream(&mut Chance::new(seed, number));
            run(&calls, Some(fault), &mut tally)
        });
        let difference = match tried.into_iter().find(|(_, faulted)| *faulted) {
            Some((Some(difference), _)) => difference.chars().take(100).collect(),
            Some((None, _)) => "NOT FOUND".to_string(),
            None => "NEVER LAID".to_string(),
        };
        found &= say(
            difference.starts_with("call "),
            &format!("{} changed: {}", name, difference),
        );
    }
    found
}

fn replay(file: &str) -> bool {
    let text = std::fs::read_to_string(file).expect("the file to replay");
    let call = |line: &str| calls::call_in(line).unwrap_or_else(|| panic!("no call: {}", line));
    let calls: Vec<Call> = text.lines().map(call).collect();
    match run(&calls, None, &mut Tally::new()).0 {
        Some(difference) => say(false, &difference),
        None => say(true, &format!("{} calls agree", calls.len())),
    }
}

fn main() -> ExitCode {
    let options = match Options::given("--streams", 120_000, None) {
        Some(options) => options,
        None => {
            eprintln!("usage: compare [--seed N] [--streams N] [--only STREAM] [--replay FILE] [--break]");
            return ExitCode::from(2);
        }
    };
    let good = match &options.replay {
        Some(file) => replay(file),
        None if options.faults => find_faults(options.seed),
        None => compare(&options),
    };
    ExitCode::from(u8::from(!good))
}

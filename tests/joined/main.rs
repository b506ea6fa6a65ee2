//! Compares both ends joined, the library's control room and its chip, with the independent implementation on random runs.
//!
//!     joined [--seed N] [--runs N]     runs 0 to N - 1 of a seed
//!     joined --seed N --only RUN       one of them
//!     joined --replay FILE             a run as a failing one is printed
//!     joined --break                   lays faults into our side; each must be found
//!
//! Each test gives a line 'ok' or 'FAIL'; the status is 0 only where all are ok.

#![forbid(unsafe_code)]

mod calls;
mod facts;
mod fault;
#[path = "../harness/mod.rs"]
mod harness;
#[path = "../events/image.rs"]
mod image;
mod ledger;
mod made;
mod queue;
mod run;
mod spelled;
mod streams;
mod tables;
mod tally;

use calls::Call;
use fault::{Fault, Judge, FAULTS};
use harness::chance::Chance;
use harness::fewest::fewest;
use harness::options::Options;
use harness::report::say;
use run::Run;
use std::process::ExitCode;
use tally::Tally;

/// A run's first difference, and whether the fault was laid in.
fn run(calls: &[Call], fault: Option<Fault>, judge: Judge, tally: &mut Tally) -> (Option<String>, bool) {
    let mut run = Run::new(tally, fault, judge);
    let difference = run.all(calls).err();
    (difference, run.faulted())
}

/// A failing run, made short: the difference, and its calls.
fn shortest(calls: &[Call], fault: Option<Fault>, judge: Judge) -> (String, Vec<Call>) {
    let difference = |calls: &[Call]| run(calls, fault, judge, &mut Tally::new()).0;
    let short = fewest(calls, |calls| difference(calls).is_some());
    (difference(&short).unwrap_or_default(), short)
}

fn compare(options: &Options) -> bool {
    let (mut tally, mut spelled) = (Tally::new(), true);
    let (numbers, commands) = (options.numbers(), tables::commands());
    println!("seed {}, runs {} to {}", options.seed, numbers.start, numbers.end - 1);
    for number in numbers {
        let calls = streams::stream(&mut Chance::new(options.seed, number), &commands, number);
        spelled &= calls
            .iter()
            .all(|call| calls::call_in(&call.to_string()).as_ref() == Some(call));
        if let (Some(difference), _) = run(&calls, None, Judge::Reference, &mut tally) {
            say(false, &format!("seed {}, run {}: {}", options.seed, number, difference));
            let (difference, short) = shortest(&calls, None, Judge::Reference);
            println!("made short ({}); replay these lines:", difference);
            short.iter().for_each(|call| println!("{}", call));
            return false;
        }
    }
    let [requests, replies, link_commands] = tally.room_calls();
    let what = format!(
        "{} steps agree, in them {} calls of the control room ({} requests, {} replies, {} link commands)",
        tally.calls,
        requests + replies + link_commands,
        requests,
        replies,
        link_commands
    );
    let said = [say(true, &what), say(spelled, "a run's text spells its calls")];
    said == [true; 2] && (options.only.is_some() || tally.all_seen())
}

/// Each fault is laid once, into the first run from the thousandth on where it applies, and that run must fail, by each judge that is to
/// tell; made short, it must still.
fn find_faults(seed: u64) -> bool {
    let commands = tables::commands();
    let mut found = true;
    for (fault, name, judges) in FAULTS {
        for judge in judges {
            let (holds, difference) = match failing(seed, &commands, fault, *judge) {
                Some(calls) => {
                    let (difference, short) = shortest(&calls, Some(fault), *judge);
                    (true, format!("{} calls, {:.100}", short.len(), difference))
                }
                None => (false, "NEVER LAID OR NOT FOUND".to_string()),
            };
            found &= say(holds, &format!("{}, by {}: {}", name, judge, difference));
        }
    }
    found
}

/// The run that a fault is found in.
fn failing(seed: u64, commands: &[(u8, u8)], fault: Fault, judge: Judge) -> Option<Vec<Call>> {
    let mut unfound = 0;
    for number in 1_000..2_000 {
        let calls = streams::stream(&mut Chance::new(seed, number), commands, number);
        match run(&calls, Some(fault), judge, &mut Tally::new()) {
            (Some(_), true) => return Some(calls),
            (None, true) if unfound == judge.patience() => return None,
            (None, true) => unfound += 1,
            _ => {}
        }
    }
    None
}

fn replay(file: &str) -> bool {
    let text = std::fs::read_to_string(file).expect("the file to replay");
    let call = |line: &str| calls::call_in(line).unwrap_or_else(|| panic!("no call: {}", line));
    let calls: Vec<Call> = text.lines().map(call).collect();
    match run(&calls, None, Judge::Reference, &mut Tally::new()).0 {
        Some(difference) => say(false, &difference),
        None => say(true, &format!("{} calls agree", calls.len())),
    }
}

fn main() -> ExitCode {
    let options = match Options::given("--runs", 6_000, None) {
        Some(options) => options,
        None => {
            eprintln!("usage: joined [--seed N] [--runs N] [--only RUN] [--replay FILE] [--break]");
            return ExitCode::from(2);
        }
    };
    let good = match &options.replay {
        Some(file) => replay(file),
        None if options.faults => find_faults(options.seed),
        None => compare(&options),
    };
    ExitCode::from(u8::from(!good))
}

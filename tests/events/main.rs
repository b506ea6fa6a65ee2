//! Compares the library's adapter with the independent implementation on random runs, and on some that are the same
//! every time.
//!
//!     events [--seed N] [--runs N]     runs 0 to N - 1 of a seed
//!     events --seed N --only RUN       one of them
//!     events --replay FILE             a run as a failing one is printed
//!     events --break                   lays faults into our side; each must be found
//!     events --listings FOLDER         writes bench listings N.in with the output N.out that each must have
//!
//! Each test gives a line 'ok' or 'FAIL'; the status is 0 only where all are ok.

#![forbid(unsafe_code)]

mod batches;
mod calls;
mod directed;
mod exchanges;
mod fault;
#[path = "../harness/mod.rs"]
mod harness;
mod image;
mod journals;
mod lengths;
mod listing;
mod masters;
mod probes;
mod record;
mod ring;
mod run;
mod seen;
mod shrink;
mod streams;
mod tally;
mod twins;

use calls::Call;
use fault::Fault;
use harness::chance::Chance;
use harness::options::Options;
use harness::report::{all, list, say};
use run::Run;
use std::process::ExitCode;
use tally::Tally;

/// The events that a comparison of all runs has at least.
const EVENTS: u64 = 1_000_000;
/// The runs whose calls are printed and read.
const READ: u64 = 300;
/// The listings written.
const LISTINGS: u64 = 60;

/// A run's first difference, and whether the fault was laid in.
fn run(calls: &[Call], fault: Option<Fault>, tally: &mut Tally) -> (Option<String>, bool) {
    let mut run = Run::new(tally, fault);
    let difference = run.all(calls).err();
    (difference, run.faulted())
}

/// A failing run, made short: the difference, and its calls as the states found them.
fn shortest(calls: &[Call], fault: Option<Fault>) -> (String, Vec<Call>) {
    let difference = |calls: &[Call]| run(calls, fault, &mut Tally::new()).0;
    let short = shrink::shrunk(calls, |calls| difference(calls).is_some());
    let mut tally = Tally::new();
    let mut run = Run::new(&mut tally, None);
    let mut found = Vec::new();
    for call in &short {
        found.push(run.found(call));
        if run.call(call).is_err() {
            break;
        }
    }
    (difference(&short).unwrap_or_default(), found)
}

/// Whether both sides agree on a run; where they do not, how, and the run made short.
fn agree(name: &str, calls: &[Call], tally: &mut Tally) -> bool {
    if let (Some(difference), _) = run(calls, None, tally) {
        say(false, &format!("{}: {}", name, difference));
        let (difference, short) = shortest(calls, None);
        println!("made short ({}); replay these lines:", difference);
        short.iter().for_each(|call| println!("{}", call));
        return false;
    }
    true
}

fn compare(options: &Options) -> bool {
    let mut tally = Tally::new();
    let numbers = options.numbers();
    println!("seed {}, runs {} to {}", options.seed, numbers.start, numbers.end - 1);
    for number in numbers {
        let calls = streams::stream(&mut Chance::new(options.seed, number));
        let name = format!("seed {}, run {}", options.seed, number);
        if !agree(&name, &calls, &mut tally) {
            return false;
        }
    }
    let what = format!(
        "{} calls, {} of them events and steps back, agree",
        tally.calls, tally.events
    );
    let more = || {
        all_of(&[
            all_seen(&tally),
            all_directed(),
            twins::agree(),
            read_as_printed(options.seed),
        ])
    };
    say(true, &what) && (options.only.is_some() || more())
}

fn all_of(results: &[bool]) -> bool {
    results.iter().all(|holds| *holds)
}

/// The runs that are the same every time: both sides agree on each, and what must come of them came.
fn all_directed() -> bool {
    let mut results = Vec::new();
    for directed in directed::directed() {
        let mut tally = Tally::new();
        let mut runs = directed.runs.iter();
        results.push(runs.all(|calls| agree(directed.name, calls, &mut tally)));
        results.push(say(
            (directed.holds)(&tally),
            &format!("{} ({} calls)", directed.name, tally.calls),
        ));
    }
    all_of(&results)
}

/// That a run which fails can be run again: each call is printed so that it is read as itself.
fn read_as_printed(seed: u64) -> bool {
    let random = (0..READ).flat_map(|number| streams::stream(&mut Chance::new(seed, number)));
    let directed = directed::directed()
        .into_iter()
        .flat_map(|directed| directed.runs.concat());
    let calls: Vec<Call> = random.chain(directed).collect();
    let other = calls
        .iter()
        .find(|call| calls::call_in(&call.to_string()).as_ref() != Some(call));
    match other {
        Some(call) => say(false, &format!("read otherwise than printed: {:?}", call)),
        None => say(true, &format!("{} calls read as they are printed", calls.len())),
    }
}

/// That the runs had in them what they are for.
fn all_seen(tally: &Tally) -> bool {
    let numbers = |what: &str, counts: &[u64], numbers: &[usize]| {
        say(
            all(counts, numbers),
            &format!("every number of {} ({})", what, list(counts)),
        )
    };
    let tags = |what: &str, counts: &[u64]| {
        say(
            all(counts, &record::TAGS.map(usize::from)),
            &format!("records of every tag {} ({})", what, list(counts)),
        )
    };
    let some = |what: &str, count: u64| say(count > 0, &format!("{}: {}", what, count));
    let commands = streams::commands()
        .iter()
        .all(|(channel, command, _)| tally.commands.contains(&(*channel, *command)));
    let mut results = vec![
        say(tally.events >= EVENTS, &format!("at least {} events", EVENTS)),
        numbers("a creation", &tally.create, &[17, 6, 7]),
        numbers("an emptying", &tally.empty, &[17, 4]),
        numbers("a counting", &tally.kept, &[17, 4]),
        numbers("a frame", &tally.frame, &[0, 1, 2, 3, 4, 6, 11, 12, 13, 14, 17]),
        numbers("a completion", &tally.completion, &[0, 1, 3, 4, 6, 15]),
        numbers("an I2C completion", &tally.i2c_completion, &[0, 1, 3, 4, 6, 15]),
        numbers("a pin sample", &tally.sample, &[0, 1, 3, 4, 6, 16, 17]),
        some("ports refused for what stands above their low byte", tally.wide_ports),
        some("edge kinds refused so", tally.wide_kinds),
        numbers("an upset", &tally.upset, &[1, 4, 6, 17]),
        numbers("a step back", &tally.step_back, &[5, 6, 17]),
        numbers("a step back in a journal altered", &tally.altered_back, &[4, 5, 17]),
        numbers(
            "a step back of a state that the journal did not go with",
            &tally.apart_back,
            &[4, 6, 17],
        ),
        tags("left", &tally.tags),
        tags("left by a dropped frame", &tally.dropped_tags),
        tags("taken back", &tally.tags_back),
        tags("taken back over another state", &tally.tags_back_apart),
        some("steps back refused for an unknown tag", tally.unknown_tags),
        numbers("a reply's ERR", &tally.errors, &[0, 0x02, 0x04, 0x08, 0x10, 0x20, 0x40]),
        say(
            commands,
            &format!("every command carried out ({})", tally.commands.len()),
        ),
        say(
            tally.transfers.iter().all(|count| *count > 0),
            "transfers of every length",
        ),
        say(
            tally.interrupts.iter().all(|count| *count > 0),
            &format!("interrupts by every edge kind ({})", list(&tally.interrupts)),
        ),
        say(
            tally.edges.iter().all(|count| *count > 0),
            &format!(
                "lines falling and rising with INTTRIG and INTSEL 0 and 1 ({})",
                list(&tally.edges)
            ),
        ),
        say(
            all(&tally.acknowledged, &streams::LINK_COMMANDS.map(usize::from)),
            "CONNECT, RESET and TEST, both forms",
        ),
        some("frames out of sequence", tally.rejects),
        some("frames looped back", tally.loops),
        some("GO dropped by a disabling", tally.go_dropped),
        some("GO open through a CONNECT", tally.go_connected),
        some("the SEU counter from its end to 0", tally.counter_wrapped),
    ];
    results.extend(tally.masters.all_seen());
    results.extend(tally.batches.all_seen());
    results.extend(tally.journals.all_seen());
    all_of(&results)
}

/// Each fault is laid once, into the first run from the thousandth on where it applies, and that run must fail; made
/// short, it must still.
fn find_faults(seed: u64) -> bool {
    let mut found = true;
    for (fault, name) in fault::faults() {
        let runs = (1_000..2_000).map(|number| streams::stream(&mut Chance::new(seed, number)));
        let mut tried = runs.map(|calls| (run(&calls, Some(fault), &mut Tally::new()), calls));
        let difference = match tried.find(|((_, faulted), _)| *faulted) {
            Some(((Some(_), _), calls)) => {
                let (difference, short) = shortest(&calls, Some(fault));
                format!("{} calls, {}", short.len(), difference)
            }
            Some(((None, _), _)) => "NOT FOUND".to_string(),
            None => "NEVER LAID".to_string(),
        };
        found &= say(
            difference.contains("the library has") || difference.contains("differs"),
            &format!("{}: {:.110}", name, difference),
        );
    }
    found
}

fn replay(file: &str) -> bool {
    let text = std::fs::read_to_string(file).expect("the file to replay");
    let call = |line: &str| calls::call_in(line).unwrap_or_else(|| panic!("no call: {}", line));
    let calls: Vec<Call> = text.lines().map(call).collect();
    match run(&calls, None, &mut Tally::new()).0 {
        Some(difference) => say(false, &difference),
        None => say(true, &format!("{} calls agree", calls.len())),
    }
}

/// Listings, and what the bench program must answer, by the independent implementation.
fn write_listings(seed: u64, folder: &str) -> std::io::Result<()> {
    for number in 0..LISTINGS {
        let text = listing::listing(&mut Chance::new(seed, number));
        std::fs::write(format!("{}/{}.in", folder, number), &text)?;
        std::fs::write(format!("{}/{}.out", folder, number), reference::listing::played(&text))?;
    }
    Ok(())
}

fn main() -> ExitCode {
    let options = match Options::given("--runs", 5_500, Some("--listings")) {
        Some(options) => options,
        None => {
            eprintln!("usage: events [--seed N] [--runs N] [--only RUN] [--replay FILE] [--break] [--listings FOLDER]");
            return ExitCode::from(2);
        }
    };
    let good = match (&options.replay, &options.own) {
        (Some(file), _) => replay(file),
        (_, Some(folder)) => write_listings(options.seed, folder).is_ok(),
        _ if options.faults => find_faults(options.seed),
        _ => compare(&options),
    };
    ExitCode::from(u8::from(!good))
}

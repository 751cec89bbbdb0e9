//! Random trials, each by a seed. CHECKER_SEED repeats one seed, CHECKER_FIRST takes other seeds,
//! CHECKER_STREAMS, CHECKER_STORES, CHECKER_LISTS and CHECKER_DAYS other numbers of them.

use std::path::Path;
use std::time::Instant;
use std::{env, fs};

use checker::proved::Proved;
use checker::trial::coverage::Coverage;
use checker::trial::differential;
use checker::trial::implementation::{Implementation, Model, Program};
use checker::trial::streams;

type Trial<Subject> = fn(u64, &mut Subject, &mut Coverage) -> Result<(), String>;

fn setting(name: &str) -> Option<u64> {
    env::var(name).ok().map(|text| text.parse().unwrap_or_else(|_| panic!("{name} is a number")))
}

/// Runs a trial over its seeds, and then holds what was reached against what can occur.
fn run<Subject: Implementation>(
    name: &str,
    subject: &mut Subject,
    trial: Trial<Subject>,
    count: u64,
    lacks: fn(&Coverage) -> Vec<String>,
) {
    let mut coverage = Coverage::default();
    let repeated = setting("CHECKER_SEED");
    let first = repeated.or(setting("CHECKER_FIRST")).unwrap_or(1);
    let count = if repeated.is_some() { 1 } else { count };
    let start = Instant::now();
    for seed in first..first + count {
        if let Err(text) = trial(seed, subject, &mut coverage) {
            panic!("{name}, seed {seed}: {text}\nRepeat it: CHECKER_SEED={seed} cargo test --offline --release {name}");
        }
    }
    println!("{name}: seeds {first} to {}, {} calls, {:?}", first + count - 1, coverage.answers(), start.elapsed());
    println!("{coverage}");
    if repeated.is_none() {
        let wrong = lacks(&coverage);
        assert!(wrong.is_empty(), "{name}: {wrong:#?}");
    }
}

/// A stream; where it fails, it is shortened and kept as a file.
fn one_stream<Subject: Implementation + Program>(
    seed: u64,
    subject: &mut Subject,
    coverage: &mut Coverage,
) -> Result<(), String> {
    differential::stream(seed, subject, coverage).map_err(|text| {
        let mut fails = |bytes: &[u8]| differential::stream_of(bytes, seed, subject, &mut Coverage::default()).is_err();
        let short = differential::shortened(&streams::stream(seed), &mut fails);
        let path = Path::new(env!("CARGO_MANIFEST_DIR")).join(format!("target/seed-{seed}.in"));
        let kept = fs::write(&path, &short).map_or(String::new(), |()| format!("\nShortened: {}", path.display()));
        text + &kept
    })
}

#[test]
fn model_streams() {
    let count = setting("CHECKER_STREAMS").unwrap_or(20_000);
    run("model_streams", &mut Model, one_stream, count, Coverage::of_streams);
}

#[test]
fn model_single_calls() {
    let count = setting("CHECKER_STORES").unwrap_or(12_000);
    run("model_single_calls", &mut Model, differential::calls, count, Coverage::of_calls);
}

/// The links of other days are struck out, by the model.
#[test]
fn model_days() {
    let count = setting("CHECKER_DAYS").unwrap_or(8_000);
    run("model_days", &mut Model, differential::days, count, |_| Vec::new());
}

/// The same by the proved library.
#[test]
fn proved_days() {
    let count = setting("CHECKER_DAYS").unwrap_or(4_000);
    run("proved_days", &mut Proved::default(), differential::days, count, |_| Vec::new());
}

/// The proved library, held against the model.
#[test]
fn proved_single_calls() {
    let count = setting("CHECKER_STORES").unwrap_or(12_000);
    run("proved_single_calls", &mut Proved::default(), differential::calls, count, Coverage::of_calls);
}

/// Streams as bytes, through the proved `run`. Coverage is that of the model on the same seeds (`model_streams`).
#[test]
fn proved_streams() {
    let repeated = setting("CHECKER_SEED");
    let first = repeated.or(setting("CHECKER_FIRST")).unwrap_or(1);
    let count = if repeated.is_some() { 1 } else { setting("CHECKER_STREAMS").unwrap_or(20_000) };
    let start = Instant::now();
    let mut proved = Proved::default();
    let mut bytes = 0;
    for seed in first..first + count {
        let stream = streams::stream(seed);
        bytes += stream.len();
        if let Err(text) = differential::text_of(&stream, &mut proved) {
            panic!("seed {seed}: {text}\nRepeat it: CHECKER_SEED={seed} cargo test --offline --release proved_streams");
        }
    }
    println!("proved_streams: seeds {first} to {}, {bytes} bytes, {:?}", first + count - 1, start.elapsed());
}

/// The commands of streams as lists of calls of the proved library.
#[test]
fn proved_lists() {
    let list = |seed, subject: &mut Proved, coverage: &mut Coverage| {
        differential::list_of(&streams::stream(seed), seed, subject, coverage)
    };
    let count = setting("CHECKER_LISTS").unwrap_or(4_000);
    run("proved_lists", &mut Proved::default(), list, count, Coverage::of_streams);
}

//! Time per command on full streams of settlements, by chain length and by how much else stands in the directory, and of
//! other commands, through the model and through the proved library, turn by turn: best and median of many runs. Then
//! the time of single calls of the desk's functions, which are handed the whole directory each time.

use std::hint::black_box;
use std::time::{Duration, Instant};

use checker::booking::{Cents, Units};
use checker::command::{Command, Reader};
use checker::directory::{Account, Directory, PARTICIPANT};
use checker::proved::{Proved, STEP_BYTES};
use checker::trial::busy::{self, Market};
use checker::trial::implementation::{Call, Model, Program, Store};
use checker::trial::scenario::halves;

const RUNS: usize = 100;
/// Calls of the desk's functions that are timed together.
const CALLS: u32 = 100;

fn main() {
    println!("{:34} {:>8} {:>18} {:>18} {:>14}", "65,536 bytes of commands", "commands", "model", "proved", "ratio");
    println!("{:34} {:>8} {:>18} {:>18} {:>14}", "", "", "best, median (ns)", "best, median (ns)", "best, median");
    report("all chain lengths, full tables", &busy::mixed());
    report("the same with sided halves", &busy::sided());
    for full in [false, true] {
        for steps in [1, 2, 4, 8, 16] {
            let tables = if full { "full tables" } else { "small tables" };
            report(&format!("chains of {steps}, {tables}"), &busy::settlements(steps, full));
        }
    }
    report("derivations of 16, full tables", &busy::derivations(16));
    report("pay in, pay out, full tables", &busy::payments());
    report("entries, right and nearly right", &busy::entries());
    report("all commands, right and wrong", &busy::all_commands());
    println!();
    println!("{:34} {:>18}", "a call of the desk's functions", "best, median (ns)");
    for full in [false, true] {
        desk(full);
    }
}

/// Single calls on the market's directory, its bytes made once.
fn desk(full: bool) {
    let tables = if full { "full tables" } else { "small tables" };
    let market = Market::new(full);
    let directory = market.scenario.directory();
    let (from, to) = market.trade(16);
    let security = market.security;
    let (delivering, receiving) = halves(directory, from, to, security, 1, 0);
    let commands = [
        ("enter an account", Command::EnterAccount(Account { csd: 0, kind: PARTICIPANT })),
        ("pay in", Command::PayIn { account: from, amount: Cents(1) }),
        ("derive 16 steps", Command::Derive { delivering, receiving, day: 0 }),
        ("settle 16 steps", Command::Settle { delivering, receiving, day: 0 }),
    ];
    for (name, command) in commands {
        call(&format!("{name}, {tables}"), directory, &Call::Command(command));
    }
}

fn call(name: &str, directory: &Directory, call: &Call) {
    let mut proved = Proved::default();
    let mut store = Store::empty();
    store.positions.fill(Units(1_000_000_000));
    let mut times = Vec::new();
    for _ in 0..RUNS {
        proved.hand(directory);
        let start = Instant::now();
        for _ in 0..CALLS {
            black_box(proved.make(black_box(&mut store), call, &mut [0], &mut [0; STEP_BYTES]));
        }
        times.push(start.elapsed().as_nanos() / u128::from(CALLS));
    }
    times.sort();
    println!("{name:34} {:>18}", format!("{}, {}", times[0], times[RUNS / 2]));
}

fn report(name: &str, input: &[u8]) {
    assert_eq!(Model.transcript(input), Proved::default().transcript(input), "{name}: another text");
    let mut times = [Vec::new(), Vec::new()];
    for _ in 0..RUNS {
        times[0].push(time(&mut Model, input));
        times[1].push(time(&mut Proved::default(), input));
    }
    let commands = commands(input);
    let [model, proved] = times.map(|mut times| {
        times.sort();
        [times[0], times[RUNS / 2]].map(|time| time.as_nanos() / commands)
    });
    let pair = |[best, median]: [u128; 2]| format!("{best}, {median}");
    let ratio = |place: usize| format!("{:.2}", proved[place] as f64 / model[place] as f64);
    let ratios = format!("{}, {}", ratio(0), ratio(1));
    println!("{name:34} {commands:8} {:>18} {:>18} {ratios:>14}", pair(model), pair(proved));
}

/// State and output are set up and freed within the time, on both sides: neither keeps a buffer from turn to turn.
fn time(subject: &mut impl Program, input: &[u8]) -> Duration {
    let start = Instant::now();
    let text = subject.transcript(black_box(input));
    drop(black_box(text));
    start.elapsed()
}

fn commands(input: &[u8]) -> u128 {
    let mut reader = Reader::new(input);
    std::iter::from_fn(|| reader.command().ok()).count() as u128
}

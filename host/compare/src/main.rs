//! Compares the library with the model over random cases, until a number of cases or of seconds is
//! reached. At a difference it makes the case small, prints it and ends with status 1.
//!
//!     cargo run --release --offline -p compare -- --seconds 600 --seed 1

use std::env;
use std::process::ExitCode;
use std::time::{Duration, Instant};

use compare::{run, Answers, Case};

/// What the program is called with.
const USAGE: &str = "usage: compare [--seed N] (--cases N | --seconds N)..";

/// The time between two lines of progress.
const PAUSE: Duration = Duration::from_secs(10);

/// After how many cases the clock is looked at.
const CASES_BETWEEN_LOOKS: u64 = 256;

/// When a run ends, whichever comes first, and its seed.
struct Limits {
    seed: u64,
    cases: Option<u64>,
    seconds: Option<u64>,
}

/// The limits that the arguments say, if they say any.
fn limits(mut arguments: impl Iterator<Item = String>) -> Option<Limits> {
    let (seed, cases, seconds) = (1, None, None);
    let mut limits = Limits {
        seed,
        cases,
        seconds,
    };
    while let Some(name) = arguments.next() {
        let number = arguments.next()?.parse().ok()?;
        match name.as_str() {
            "--seed" => limits.seed = number,
            "--cases" => limits.cases = Some(number),
            "--seconds" => limits.seconds = Some(number),
            _ => return None,
        }
    }
    (limits.cases.is_some() || limits.seconds.is_some()).then_some(limits)
}

/// Whether a run goes on; prints a line now and then.
fn goes_on(limits: &Limits, began: Instant) -> impl FnMut() -> bool + '_ {
    let (mut cases, mut next_line) = (0, PAUSE);
    move || {
        cases += 1;
        if limits.cases.is_some_and(|most| cases > most) {
            return false;
        }
        if cases % CASES_BETWEEN_LOOKS == 0 {
            let elapsed = began.elapsed();
            if elapsed >= next_line {
                println!("{cases} cases, {} s", elapsed.as_secs());
                next_line += PAUSE;
            }
            return limits.seconds.is_none_or(|most| elapsed.as_secs() < most);
        }
        true
    }
}

fn main() -> ExitCode {
    let Some(limits) = limits(env::args().skip(1)) else {
        eprintln!("{USAGE}");
        return ExitCode::FAILURE;
    };
    let (seed, mut answers) = (limits.seed, Answers::default());
    let began = Instant::now();
    let goes_on = goes_on(&limits, began);
    match run(seed, Case::of_library, goes_on, &mut answers) {
        Ok(()) => {
            let seconds = began.elapsed().as_secs();
            println!("{answers}, seed {seed}, {seconds} s, no difference");
            ExitCode::SUCCESS
        }
        Err(difference) => {
            let cases = answers.total();
            println!("the model and the library differ, seed {seed}, after {cases} cases:");
            println!("{difference}");
            ExitCode::FAILURE
        }
    }
}

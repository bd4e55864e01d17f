//! Breaks the model in many ways and says how many of them the committed vectors catch.

use std::process::ExitCode;
use std::thread::available_parallelism;
use std::{env, fmt};

use vectors::variants::exceptions::LONG;
use vectors::variants::{self, Variant};

/// How many variants are caught, cannot change an answer, only change that of a call with a slice
/// longer than any vector's, or are not what the list says.
#[derive(Clone, Copy, Default)]
struct Counts {
    caught: usize,
    excepted: usize,
    long: usize,
    wrong: usize,
}

impl Counts {
    /// Counts a variant, and prints one that is not what the list says.
    fn add(&mut self, variant: &Variant) {
        match (&variant.caught_by, variant.excepted) {
            (Some(_), None) => self.caught += 1,
            (None, Some(LONG)) => self.long += 1,
            (None, Some(_)) => self.excepted += 1,
            (None, None) => {
                println!("not caught: {variant}");
                self.wrong += 1;
            }
            (Some(by), Some(why)) => {
                println!("caught by `{by}`, though {why}: {variant}");
                self.wrong += 1;
            }
        }
    }

    fn join(&mut self, other: Counts) {
        self.caught += other.caught;
        self.excepted += other.excepted;
        self.long += other.long;
        self.wrong += other.wrong;
    }
}

impl fmt::Display for Counts {
    fn fmt(&self, f: &mut fmt::Formatter) -> fmt::Result {
        let Counts {
            caught,
            excepted,
            long,
            wrong,
        } = self;
        let all = caught + excepted + long + wrong;
        write!(
            f,
            "{all} variants: {caught} caught, {excepted} cannot change an answer, "
        )?;
        write!(f, "{long} only with 2^31 elements or more, {wrong} wrong")
    }
}

fn main() -> ExitCode {
    let jobs = env::args().nth(1).map(|jobs| jobs.parse());
    let jobs = match jobs {
        None => available_parallelism().map_or(1, usize::from),
        Some(Ok(jobs)) if jobs > 0 => jobs,
        Some(_) => {
            eprintln!("usage: variants [JOBS]");
            return ExitCode::FAILURE;
        }
    };
    let mut all = Counts::default();
    let result = variants::run(jobs, |(name, variants)| {
        let mut counts = Counts::default();
        variants.iter().for_each(|variant| counts.add(variant));
        println!("{name}: {counts}");
        all.join(counts);
    });
    if let Err(error) = result {
        eprintln!("{error}");
        return ExitCode::FAILURE;
    }
    println!("{all}");
    match all.wrong {
        0 => ExitCode::SUCCESS,
        _ => ExitCode::FAILURE,
    }
}

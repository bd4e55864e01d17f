//! What the program `bench` is made of: the programs that are measured, among them the same algorithm
//! in safe Rust, the records that they read and write, the comparison of the answers, the measuring
//! and the tables.

#![forbid(unsafe_code)]
#![deny(missing_docs)]

pub mod answers;
pub mod measure;
pub mod peer;
pub mod picture;
pub mod program;
pub mod records;
pub mod report;
mod table;

use std::process::ExitCode;
use std::{env, fs};

use program::{Check, Copy, Library, Model, Program, Rust};
use report::Report;

/// Measures the library beside safe Rust, the model, the copying of the record, its own check and one
/// more program, if there is one, and prints the tables. Answers that differ end it with an error;
/// with `--strict` a figure above its limit does so too. `--svg FILE` writes the picture of time
/// against rows.
pub fn run(more: Option<&dyn Program>) -> ExitCode {
    let (mut strict, mut picture) = (false, None);
    let mut arguments = env::args().skip(1);
    while let Some(argument) = arguments.next() {
        match (argument.as_str(), strict, &picture) {
            ("--strict", false, _) => strict = true,
            ("--svg", _, None) if arguments.len() > 0 => picture = arguments.next(),
            _ => {
                eprintln!("usage: bench [--strict] [--svg FILE]");
                return ExitCode::from(2);
            }
        }
    }
    let programs: [&dyn Program; 5] = [&Library, &Rust, &Model, &Copy, &Check];
    let programs: Vec<_> = programs.into_iter().chain(more).collect();
    let mut report = Report::new(programs.iter().map(|program| program.name()).collect());
    table::calls(&mut report, &programs);
    let curves = table::rows(&mut report, &programs);
    if let Some(file) = picture {
        if let Err(error) = fs::write(&file, picture::picture(&curves)) {
            eprintln!("{file}: {error}");
            return ExitCode::from(2);
        }
    }
    if strict && report.above() > 0 {
        return ExitCode::FAILURE;
    }
    ExitCode::SUCCESS
}

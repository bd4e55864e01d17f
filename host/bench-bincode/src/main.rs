//! Prints how long the library takes, as the program `bench` does, also beside bincode.

#![forbid(unsafe_code)]

mod program;
mod record;

use std::process::ExitCode;

fn main() -> ExitCode {
    bench::run(Some(&program::Bincode))
}

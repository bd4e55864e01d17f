//! Prints how long the library takes beside the same algorithm in safe Rust and beside the model.

#![forbid(unsafe_code)]

use std::process::ExitCode;

fn main() -> ExitCode {
    bench::run(None)
}

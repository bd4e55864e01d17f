//! The command line tool, by running it.

mod bench_examples;
mod commands;
mod help;
mod random;
mod refused;
mod run;
mod usage;

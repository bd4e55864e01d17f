//! The command line tool: checks, shows and compares route records, chooses their grammars, previews
//! writing them and turns them into XDR and back.

#![forbid(unsafe_code)]

mod answer;
mod arguments;
mod commands;
mod help;
mod hex;
mod source;
mod tree;

use std::env;
use std::ffi::OsString;
use std::io::{self, ErrorKind, Write};
use std::process::ExitCode;

use answer::{Stop, DONE, FAILED, NO, REFUSED};
use arguments::Request;

const VERSION: &str = concat!("route ", env!("CARGO_PKG_VERSION"), "\n");

fn main() -> ExitCode {
    let arguments: Vec<OsString> = env::args_os().skip(1).collect();
    match answer_to(&arguments) {
        Ok(text) => print(&text, DONE),
        Err(Stop::Refused(text)) => print(&text, REFUSED),
        Err(Stop::No(text)) => print(&text, NO),
        Err(Stop::Failed(text)) => fail(&text),
    }
}

fn answer_to(arguments: &[OsString]) -> Result<String, Stop> {
    match Request::parse(arguments)? {
        Request::Help(command) => Ok(help::text(command)),
        Request::Version => Ok(VERSION.to_string()),
        Request::Run(command, arguments) => (command.run)(&arguments),
    }
}

/// Prints an answer and gives its status. A reader that closes the pipe early has what it wants.
fn print(text: &str, status: u8) -> ExitCode {
    let mut out = io::stdout().lock();
    match out.write_all(text.as_bytes()).and_then(|()| out.flush()) {
        Err(error) if error.kind() != ErrorKind::BrokenPipe => {
            fail(&format!("route: cannot write the answer: {error}\n"))
        }
        _ => ExitCode::from(status),
    }
}

/// Says why there is no answer. If standard error is gone too, the status alone says it.
fn fail(text: &str) -> ExitCode {
    let _ = io::stderr().write_all(text.as_bytes());
    ExitCode::from(FAILED)
}

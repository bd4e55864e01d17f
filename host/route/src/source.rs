//! Where a grammar, a record or an output comes from, and how it is read.

use std::ffi::OsStr;
use std::fmt;
use std::fs::File;
use std::io::{self, Read};
use std::path::PathBuf;

use route_record::{Grammar, GrammarError, TextError, MAX_BYTES};

use crate::answer::Stop;
use crate::hex::{decode, parse_hex};

/// Where a grammar, a record or an output comes from.
#[derive(PartialEq)]
pub enum Source {
    File(PathBuf),
    StandardInput,
    /// The text given by `--grammar`.
    Text(String),
}

impl fmt::Display for Source {
    fn fmt(&self, f: &mut fmt::Formatter) -> fmt::Result {
        match self {
            Source::File(path) => write!(f, "{}", path.display()),
            Source::StandardInput => write!(f, "standard input"),
            Source::Text(_) => write!(f, "--grammar"),
        }
    }
}

impl Source {
    /// The source that an argument names.
    pub fn of(argument: &OsStr) -> Source {
        match argument.to_str() {
            Some("-") => Source::StandardInput,
            _ => Source::File(argument.into()),
        }
    }

    /// The grammar that the source holds.
    pub fn grammar(&self) -> Result<Grammar, Stop> {
        let bytes = self.bytes(u64::MAX)?;
        let text = decode(&bytes).map_err(|error| self.wrong(error))?;
        text.parse().map_err(|error| match error {
            GrammarError::Refused { refusal, word } => {
                Stop::Refused(format!("{refusal}\n{word}\n"))
            }
            GrammarError::Text(error) => self.wrong(error),
        })
    }

    /// The record that the source holds, as its bytes or in hexadecimal digits.
    pub fn record(&self, hex: bool) -> Result<Vec<u8>, Stop> {
        // One more than the library accepts, so that it does not accept them.
        self.content(hex, MAX_BYTES as u64 + 1)
    }

    /// The output that the source holds, as its bytes or in hexadecimal digits, for a record to be
    /// written at byte `index`.
    pub fn output(&self, hex: bool, index: usize) -> Result<Vec<u8>, Stop> {
        // No record reaches further: bytes behind these change neither an answer nor a refusal.
        self.content(hex, (index as u64).saturating_add(MAX_BYTES as u64))
    }

    /// The first bytes that the source holds, at most so many, or all that its hexadecimal digits
    /// give.
    fn content(&self, hex: bool, most: u64) -> Result<Vec<u8>, Stop> {
        match hex {
            true => {
                let bytes = self.bytes(u64::MAX)?;
                let content = decode(&bytes).and_then(parse_hex);
                content.map_err(|error| self.wrong(error))
            }
            false => self.bytes(most),
        }
    }

    /// The first bytes of the source, at most so many.
    fn bytes(&self, most: u64) -> Result<Vec<u8>, Stop> {
        let mut bytes = Vec::new();
        let read = match self {
            Source::File(path) => {
                File::open(path).and_then(|file| file.take(most).read_to_end(&mut bytes))
            }
            Source::StandardInput => io::stdin().take(most).read_to_end(&mut bytes),
            Source::Text(text) => text.as_bytes().read_to_end(&mut bytes),
        };
        let fault = |error| Stop::Failed(format!("route: cannot read {self}: {error}\n"));
        read.map_err(fault).map(|_| bytes)
    }

    /// The source's text is wrong.
    fn wrong(&self, error: TextError) -> Stop {
        Stop::Failed(format!("{self}:{error}\n"))
    }
}

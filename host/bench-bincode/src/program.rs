//! bincode as a program of the tables. Its bytes are compared with the record before a call is
//! measured.

use std::hint::black_box;

use bench::measure::Contender;
use bench::program::{Call, Program};
use bench::records::{self, Input};
use bincode::{DefaultOptions, Options};
use serde::{Deserialize, Serialize};

use crate::record::{Bytes, Case};

/// bincode in the configuration whose bytes are the library's: numbers of a fixed width, and no
/// bytes left over.
fn fixed_int() -> impl Options {
    DefaultOptions::new().with_fixint_encoding()
}

/// bincode with the types of the mixed records and of the long array.
pub struct Bincode;

impl Program for Bincode {
    fn name(&self) -> &'static str {
        "bincode"
    }

    fn contender<'a>(&self, call: Call, input: &'a Input) -> Option<Contender<'a>> {
        let grammar = &input.grammar;
        if *grammar == records::mixed(1).grammar {
            contender::<Vec<Case>>(call, &input.record)
        } else if *grammar == records::long_array().grammar {
            contender::<Bytes>(call, &input.record)
        } else {
            None
        }
    }
}

/// The call of bincode on a record of a type. It has no check, no preview, no same route, no yes or no
/// to a record, no choice of a grammar and no XDR.
fn contender<'a, T>(call: Call, record: &'a [u8]) -> Option<Contender<'a>>
where
    T: Deserialize<'a> + Serialize + 'a,
{
    // The record of any other call need not be one of the type.
    if !matches!(call, Call::Read | Call::Write | Call::Size) {
        return None;
    }
    let value: T = fixed_int()
        .deserialize(record)
        .expect("a record of the type");
    let bytes = fixed_int().serialize(&value).expect("no limit is set");
    assert!(bytes == record, "bincode writes other bytes");
    match call {
        Call::Read => Some(Contender::new(move || {
            fixed_int().deserialize::<T>(black_box(record))
        })),
        Call::Write => {
            let mut out = vec![0; record.len()];
            Some(Contender::new(move || {
                let out = black_box(out.as_mut_slice());
                fixed_int().serialize_into(out, black_box(&value))
            }))
        }
        Call::Size => Some(Contender::new(move || {
            fixed_int().serialized_size(black_box(&value))
        })),
        _ => None,
    }
}

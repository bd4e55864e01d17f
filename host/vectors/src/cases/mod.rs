//! The listed cases, in the notation of docs/FORMAT.md: grammars and rows as numbers with blanks
//! and commas between them, bytes in hexadecimal.

mod accepts;
pub mod borders;
mod capacities;
mod choosing;
mod grammar;
mod long;
mod magnitudes;
mod packed;
mod preview;
mod reading;
mod row_sizes;
mod rows;
mod same_route;
mod show;
mod signed;
mod sized;
mod writing;
mod xdr;

pub use accepts::accepts;
pub use choosing::choosing;
pub use grammar::grammar;
pub use packed::packed;
pub use preview::preview;
pub use reading::reading;
pub use rows::rows;
pub use same_route::same_route;
pub use show::show;
pub use signed::signed;
pub use writing::writing;
pub use xdr::xdr_calls;

use std::str::FromStr;

use compare::Case;
use route_record::{MAX_BYTES, ROW_WORDS};

/// Cases with their names.
pub type Cases = Vec<(String, Case)>;

/// A list of cases in the making.
#[derive(Default)]
struct List(Cases);

impl List {
    /// Adds a case. Its name begins with that of the call.
    fn add(&mut self, name: &str, case: Case) {
        self.0.push((format!("{}: {name}", case.call()), case));
    }
}

/// Example A: a tuple of a uint32 and a byte array, and its record.
const A: &str = "3, 4 0 2, 1 0 0, 5 0 0, 2, 1 2";
const A_RECORD: &str = "07000000 0200000000000000 4142";
/// Example B: a constant.
const B: &str = "1, 0 0 0, 0";
/// Example C: an array of constants.
const C: &str = "2, 3 0 1, 0 0 0, 1, 1";
/// Example D: a union without cases.
const D: &str = "1, 8 0 0, 0";
/// Example E: an array of uint32.
const E: &str = "1, 6 0 0, 0";
/// A uint32.
const U32: &str = "1, 1 0 0, 0";
/// A uint64.
const U64: &str = "1, 2 0 0, 0";
/// An int32.
const I32: &str = "1, 9 0 0, 0";
/// An int64.
const I64: &str = "1, 10 0 0, 0";
/// A byte array.
const BYT: &str = "1, 5 0 0, 0";
/// An array of uint64.
const A64: &str = "1, 7 0 0, 0";
/// An array of values that are each a uint32.
const ARR: &str = "2, 3 0 1, 1 0 0, 1, 1";
/// The tuple of no fields.
const TUP0: &str = "1, 4 0 0, 0";
/// A tuple of two uint32, one node used twice.
const PAIR: &str = "2, 4 0 2, 1 0 0, 2, 1 1";
/// A tuple of a uint32, a uint64, an int32 and an int64.
const NUMBERS: &str = "5, 4 0 4, 1 0 0, 2 0 0, 9 0 0, 10 0 0, 4, 1 2 3 4";
/// A union of a constant and a uint32.
const UNI: &str = "3, 8 0 2, 0 0 0, 1 0 0, 2, 1 2";
/// A tuple of an array of unions of a constant and a uint64, and a byte array; and a record.
const MIX: &str = "6, 4 0 2, 3 2 1, 5 0 0, 8 3 2, 0 0 0, 2 0 0, 5, 1 2 3 4 5";
const MIX_RECORD: &str = "0200000000000000 0000000000000000 0100000000000000 0201000000000000
    0100000000000000 5A";
const MIX_ROWS: &str =
    "4 7 2 0 41, 3 5 2 0 32, 8 2 0 0 8, 0 1 0 0 0, 8 2 1 0 16, 2 1 258 0 8, 5 1 1 40 9";
/// A grammar that is refused with 3 at word 1.
const KIND_11: &str = "1, 11 0 0, 0";
/// For each refusal of a grammar its number and a grammar that is refused with it; that of 5 is
/// example F.
const REFUSED_GRAMMARS: [(u32, &str); 5] = [
    (1, ""),
    (2, "1"),
    (3, KIND_11),
    (4, "1, 1 1 0, 1, 0"),
    (5, "1, 4 0 1, 1, 0"),
];

/// Numbers with blanks and commas between them.
fn numbers<N: FromStr>(text: &str) -> Vec<N> {
    let numbers = text.split([' ', ',']).filter(|number| !number.is_empty());
    let parse = |number: &str| number.parse().ok().expect("a number");
    numbers.map(parse).collect()
}

/// Bytes in hexadecimal, with blanks between them.
fn hex(text: &str) -> Vec<u8> {
    let digits: String = text.split_whitespace().collect();
    compare::list::bytes_of(&digits).expect("hexadecimal digits")
}

/// A number below 1,000,000 in digits, grouped by a comma.
fn grouped(number: u64) -> String {
    match (number / 1_000, number % 1_000) {
        (0, low) => low.to_string(),
        (high, low) => format!("{high},{low:03}"),
    }
}

/// The 8 bytes of a count or a tag, and others behind them.
fn counted(count: u64, behind: &[u8]) -> Vec<u8> {
    [&count.to_le_bytes(), behind].concat()
}

/// A table of these nodes and child words.
fn table(nodes: &[[u32; 3]], children: &[u32]) -> Vec<u32> {
    compare::table(nodes, children)
}

//! The signed number of a row.

use crate::packed::{digits, sum};
use crate::refusal::{at_row, Refusal};
use crate::rows::checked_row;

/// The number that bytes are in two's complement, least byte first: their sum p where 2p is below
/// 256 to the power of their number, else p less that power.
fn twos_complement(bytes: &[u8]) -> i64 {
    let width = bytes.len() as u32;
    let (p, power) = (i128::from(sum(bytes)), 256i128.pow(width));
    let number = if 2 * p < power { p } else { p - power };
    i64::try_from(number).expect("a width of at most 8 bytes")
}

/// The signed number of a row of kind 9 or 10, whose word 2 is the number's pattern.
pub fn signed_number(rows: &[u64], n: usize, store: &[u8], row: usize) -> Result<i64, Refusal> {
    match checked_row(rows, n, store, row)? {
        Some([9, _, pattern, ..]) => Ok(twos_complement(&digits(pattern, 4))),
        Some([10, _, pattern, ..]) => Ok(twos_complement(&digits(pattern, 8))),
        _ => Err(at_row(20, row)),
    }
}

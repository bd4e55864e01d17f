//! Whether a record is accepted whole. A record shorter than every value of the grammar is not read.
//! The lengths of at most 1,024 children, of at most 1,048,577 bytes each, are added in u64, where the
//! sum never wraps.

use crate::grammar::{check_grammar, node};
use crate::reading::try_whole;
use crate::refusal::Refusal;
use crate::rows::check_length;

/// Whether a record is accepted, yes or no.
#[derive(Clone, Copy, Debug, PartialEq, Eq)]
pub struct Verdict {
    /// Whether the answer is yes.
    pub accepted: bool,
    /// The values begun, which are 0 exactly where the record was not read.
    pub begun: usize,
}

/// The length of the shortest value of a node, or none where it has no value; `behind` has those of
/// the nodes behind it, the next one first. Lengths stop growing at one byte more than a record has.
fn node_length(grammar: &[u32], number: u32, behind: &[Option<u64>]) -> Option<u64> {
    let (kind, children) = node(grammar, number);
    let place = |child: u32| (child - number - 1) as usize;
    let lengths = children.iter().map(|&child| behind[place(child)]);
    // The others are a number of 8 bytes, or the count of an array without elements.
    let length: Option<u64> = match kind {
        0 => Some(0),
        1 | 9 => Some(4),
        4 => lengths.sum(),
        8 => lengths.flatten().min().map(|least| 8 + least),
        _ => Some(8),
    };
    length.map(|length| length.min(1_048_577))
}

/// The least lengths of the nodes of a checked table from this one on.
fn lengths_from(grammar: &[u32], number: u32) -> Vec<Option<u64>> {
    if number == grammar[0] {
        return vec![];
    }
    let behind = lengths_from(grammar, number + 1);
    let own = node_length(grammar, number, &behind);
    [vec![own], behind].concat()
}

/// The length of the shortest value of the grammar's root, 1,048,577 where that is longer, or none
/// where the root has no value.
pub fn least_length(grammar: &[u32]) -> Result<Option<u64>, Refusal> {
    check_grammar(grammar)?;
    Ok(lengths_from(grammar, 0)[0])
}

/// Whether a record is a value of the grammar's root, of at most 4,096 rows, and the number of values
/// begun until this is known. One that is too long, or shorter than every value, is not read. What is
/// refused is the grammar.
pub fn accepts(grammar: &[u32], record: &[u8]) -> Result<Verdict, Refusal> {
    let least = least_length(grammar)?;
    let is_long_enough = least.is_some_and(|least| record.len() as u64 >= least);
    let is_read = check_length(record).is_ok() && is_long_enough;
    let (accepted, begun) = match is_read {
        true => try_whole(grammar, record),
        false => (false, 0),
    };
    Ok(Verdict { accepted, begun })
}

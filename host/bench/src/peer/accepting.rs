//! Whether a record is accepted whole: by the least lengths of the nodes, and by a reading where the
//! record is long enough.

use route_record::MAX_BYTES;

use super::grammar::{Grammar, MOST_NODES};
use super::reading::try_whole;
use super::Refusal;

/// Whether a record is accepted.
#[derive(Clone, Copy, Debug, PartialEq, Eq)]
pub struct Verdict {
    /// Whether the answer is yes.
    pub accepted: bool,
    /// The values begun, 0 where the record was not read.
    pub begun: usize,
}

/// Where a sum stops growing: one more than the bytes of the longest record.
const MOST: u32 = MAX_BYTES as u32 + 1;

/// The mark of a node without values, above every length.
const NONE: u32 = u32::MAX;

/// Whether a record is accepted whole, as a value of at most 4,096 rows.
pub fn accepts(words: &[u32], record: &[u8]) -> Result<Verdict, Refusal> {
    let grammar = Grammar::of(words)?;
    let too_long = record.len() > MAX_BYTES;
    if too_long || record.len() < least_length(grammar) as usize {
        return Ok(Verdict {
            accepted: false,
            begun: 0,
        });
    }
    let (accepted, begun) = try_whole(grammar, record);
    Ok(Verdict { accepted, begun })
}

/// The least length of the root, or the mark: those of all nodes, from the last one to the root.
fn least_length(grammar: Grammar) -> u32 {
    let mut least = [0; MOST_NODES];
    for k in (0..grammar.node_count()).rev() {
        let node = grammar.node(k);
        let children = grammar.children(node).iter();
        let children = children.map(|&child| least[child as usize]);
        least[k] = match node[0] {
            0 => 0,
            1 | 9 => 4,
            2 | 3 | 5..=7 | 10 => 8,
            4 => children.fold(0, sum),
            8 => sum(8, children.min().unwrap_or(NONE)),
            _ => unreachable!("the grammar was checked"),
        };
    }
    least[0]
}

/// The sum of two lengths, or the mark where one of them is.
fn sum(a: u32, b: u32) -> u32 {
    match (a, b) {
        (NONE, _) | (_, NONE) => NONE,
        _ => MOST.min(a + b),
    }
}

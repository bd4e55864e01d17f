//! The check of a grammar table: its two counts and its length, then its nodes in order, each
//! with its children. A sum of two words is computed in u64, where it never wraps.

use crate::refusal::{at_word, Refusal};

/// The most nodes a table has.
const MOST_NODES: u32 = 256;
/// The most child words a table has.
const MOST_CHILD_WORDS: u32 = 1024;

/// Whether a node of this kind, 0 to 10, may have this first and this count.
fn fits_kind(kind: u32, first: u32, count: u32) -> bool {
    match kind {
        3 => count == 1,
        4 | 8 => true,
        _ => first == 0 && count == 0,
    }
}

/// N, the number in word 0.
fn node_count(words: &[u32]) -> Result<usize, Refusal> {
    match words.first() {
        Some(&n) if (1..=MOST_NODES).contains(&n) => Ok(n as usize),
        _ => Err(at_word(1, 0)),
    }
}

/// The words of the `n` nodes, and the child words behind them and their count M.
fn sections(words: &[u32], n: usize) -> Result<(&[u32], &[u32]), Refusal> {
    let place = 1 + 3 * n;
    match words.get(place) {
        Some(&m) if m <= MOST_CHILD_WORDS && words.len() == 2 + 3 * n + m as usize => {
            Ok((&words[1..place], &words[place + 1..]))
        }
        _ => Err(at_word(2, place)),
    }
}

/// Checks a grammar table; what is refused is its first fault in the order of the checks.
pub fn check_grammar(words: &[u32]) -> Result<(), Refusal> {
    let n = node_count(words)?;
    let (nodes, child_words) = sections(words, n)?;
    for (k, node) in nodes.chunks(3).enumerate() {
        let (kind, first, count) = (node[0], node[1], node[2]);
        if kind > 10 {
            return Err(at_word(3, 1 + 3 * k));
        }
        let end = u64::from(first) + u64::from(count);
        if !fits_kind(kind, first, count) || end > child_words.len() as u64 {
            return Err(at_word(4, 2 + 3 * k));
        }
        let (first, end) = (first as usize, end as usize);
        let is_bad = |&child: &u32| child as usize <= k || child as usize >= n;
        if let Some(i) = child_words[first..end].iter().position(is_bad) {
            return Err(at_word(5, 2 + 3 * n + first + i));
        }
    }
    Ok(())
}

/// The kind of a node of a checked table, and the numbers of its children.
pub(crate) fn node(words: &[u32], number: u32) -> (u32, &[u32]) {
    let (nodes, node) = (words[0] as usize, 1 + 3 * number as usize);
    let (first, count) = (words[node + 1], words[node + 2]);
    let child_words = &words[2 + 3 * nodes..];
    let children = &child_words[first as usize..][..count as usize];
    (words[node], children)
}

//! Whether two records are of the same route: both are read as trees, and what counts of the trees
//! is compared.

use std::slice;

use crate::grammar::check_grammar;
use crate::packed::sum;
use crate::reading::read_whole;
use crate::refusal::Refusal;
use crate::rows::{Elements, MOST_ROWS, V};

/// A refusal of [`same_route`], which names the record that is refused.
#[derive(Clone, Copy, Debug, PartialEq, Eq)]
pub enum SameRouteRefusal {
    /// The grammar is refused; neither record is named.
    Grammar(Refusal),
    /// The first record is refused.
    First(Refusal),
    /// The second record is refused; the first is accepted.
    Second(Refusal),
}

/// Whether two lists of values are as long as each other and equal at each place.
fn are_all_equal(left: &[V], right: &[V]) -> bool {
    left.len() == right.len() && left.iter().zip(right).all(|(l, r)| are_equal(l, r))
}

/// Whether two arrays of numbers of `width` bytes have the same numbers, wherever they lie.
fn have_equal_numbers(width: usize, left: &Elements, right: &Elements) -> bool {
    let left = left.packed.chunks(width).map(sum);
    let right = right.packed.chunks(width).map(sum);
    left.eq(right)
}

/// Whether two values are equal.
fn are_equal(left: &V, right: &V) -> bool {
    match (left, right) {
        (V::Constant, V::Constant) => true,
        (V::Uint32(left), V::Uint32(right)) => left == right,
        (V::Uint64(left), V::Uint64(right)) => left == right,
        (V::Array(left), V::Array(right)) => are_all_equal(left, right),
        (V::Tuple(left), V::Tuple(right)) => are_all_equal(left, right),
        (V::ByteArray(left), V::ByteArray(right)) => have_equal_numbers(1, left, right),
        (V::Uint32Array(left), V::Uint32Array(right)) => have_equal_numbers(4, left, right),
        (V::Uint64Array(left), V::Uint64Array(right)) => have_equal_numbers(8, left, right),
        (V::Case(tag, left), V::Case(other, right)) => tag == other && are_equal(left, right),
        (V::Int32(left), V::Int32(right)) => left == right,
        (V::Int64(left), V::Int64(right)) => left == right,
        _ => false,
    }
}

/// What counts of a value of the root: the fields behind the first of a tuple with at least one
/// field, else the value.
fn what_counts<'v, 'a>(value: &'v V<'a>) -> &'v [V<'a>] {
    match value {
        V::Tuple(fields) if !fields.is_empty() => &fields[1..],
        _ => slice::from_ref(value),
    }
}

/// Whether two whole records of the grammar's root, of at most 4,096 rows each, are equal in what
/// counts of their values.
pub fn same_route(grammar: &[u32], first: &[u8], second: &[u8]) -> Result<bool, SameRouteRefusal> {
    check_grammar(grammar).map_err(SameRouteRefusal::Grammar)?;
    let first = read_whole(grammar, first, MOST_ROWS).map_err(SameRouteRefusal::First)?;
    let second = read_whole(grammar, second, MOST_ROWS).map_err(SameRouteRefusal::Second)?;
    Ok(are_all_equal(what_counts(&first), what_counts(&second)))
}

//! Writing a record after GM, which is GenericMarshalling.i.dfy: the rows are made a value, the
//! value is checked against the grammar, and its bytes are those of document 01's byte rule.

use crate::grammar::{check_grammar, node};
use crate::packed::{digits, write};
use crate::refusal::{at_row, Refusal};
use crate::rows::{size_of_v, whole_value, Elements, MOST_BYTES, V};

/// An accepted writing.
#[derive(Clone, Debug, PartialEq, Eq)]
pub struct Writing {
    /// What the output holds after the call.
    pub out: Vec<u8>,
    /// The number of bytes written.
    pub size: usize,
}

/// `ValInGrammar`, for a value whose row has this number and for a node of a checked table. What
/// is refused is the first row, in preorder, whose kind, tuple count or tag is not the node's;
/// given is the number of the first row behind the value.
pub(crate) fn check_in_grammar(
    value: &V,
    row: usize,
    grammar: &[u32],
    number: u32,
) -> Result<usize, Refusal> {
    let (kind, children) = node(grammar, number);
    let check = |row, value, number| check_in_grammar(value, row, grammar, number);
    match (value, kind) {
        (V::Constant, 0) | (V::Uint32(_), 1) | (V::Uint64(_), 2) => Ok(row + 1),
        (V::Int32(_), 9) | (V::Int64(_), 10) => Ok(row + 1),
        (V::ByteArray(_), 5) | (V::Uint32Array(_), 6) | (V::Uint64Array(_), 7) => Ok(row + 1),
        (V::Array(values), 3) => {
            let mut values = values.iter();
            values.try_fold(row + 1, |row, value| check(row, value, children[0]))
        }
        (V::Tuple(values), 4) if values.len() == children.len() => {
            let mut fields = values.iter().zip(children);
            fields.try_fold(row + 1, |row, (value, &field)| check(row, value, field))
        }
        (V::Case(tag, value), 8) if *tag < children.len() as u64 => {
            check(row + 1, value, children[*tag as usize])
        }
        _ => Err(at_row(15, row)),
    }
}

/// The bytes of values, one behind the other.
fn all_bytes(values: &[V]) -> Vec<u8> {
    values.iter().flat_map(bytes).collect()
}

/// The bytes of an array of numbers of `width` bytes: their count, and the numbers, which lie in
/// the store as they are written.
fn array_bytes(elements: &Elements, width: usize) -> Vec<u8> {
    let count = elements.packed.len() / width;
    [&digits(count as u64, 8), elements.packed].concat()
}

/// The bytes of a value.
fn bytes(value: &V) -> Vec<u8> {
    match value {
        V::Constant => vec![],
        V::Uint32(number) | V::Int32(number) => digits(u64::from(*number), 4),
        V::Uint64(number) | V::Int64(number) => digits(*number, 8),
        V::Array(values) => [digits(values.len() as u64, 8), all_bytes(values)].concat(),
        V::Tuple(values) => all_bytes(values),
        V::ByteArray(elements) => array_bytes(elements, 1),
        V::Uint32Array(elements) => array_bytes(elements, 4),
        V::Uint64Array(elements) => array_bytes(elements, 8),
        V::Case(tag, value) => [digits(*tag, 8), bytes(value)].concat(),
    }
}

/// Writes the value that `n` rows stand for, which is one of the grammar's root, at `index`.
pub fn marshall_val(
    grammar: &[u32],
    rows: &[u64],
    n: usize,
    store: &[u8],
    out: &[u8],
    index: usize,
) -> Result<Writing, Refusal> {
    check_grammar(grammar)?;
    let value = whole_value(rows, n, store)?;
    check_in_grammar(&value, 0, grammar, 0)?;
    if size_of_v(&value) > MOST_BYTES as u64 {
        return Err(at_row(16, 0));
    }
    let bytes = bytes(&value);
    Ok(Writing {
        out: write(&bytes, out, index)?,
        size: bytes.len(),
    })
}

/// Writes the value that `n` rows stand for, which is one of the grammar's root, at byte 0.
pub fn marshall(
    grammar: &[u32],
    rows: &[u64],
    n: usize,
    store: &[u8],
    out: &[u8],
) -> Result<Writing, Refusal> {
    marshall_val(grammar, rows, n, store, out, 0)
}

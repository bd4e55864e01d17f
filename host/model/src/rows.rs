//! Value rows: the value they stand for, its size and the place of an array in the store. GM is
//! GenericMarshalling.i.dfy. A size in bytes that an unchecked row gives is computed in u128,
//! where it never wraps.

use crate::refusal::{at_byte, at_row, Refusal};

/// The most rows of a value.
pub(crate) const MOST_ROWS: usize = 4096;
/// The most bytes of a record or a store.
pub(crate) const MOST_BYTES: usize = 1_048_576;
/// The largest number of kind 1, and the largest pattern of kind 9.
const MOST_UINT32: u64 = 4_294_967_295;

/// The number of words of a row.
pub(crate) const ROW_WORDS: usize = 5;

/// The words of a row: kind, span, word 2, word 3 and the size.
pub(crate) type Row = [u64; ROW_WORDS];

/// The elements of a value of kind 5 to 7: where they start in the store, and their bytes there.
pub(crate) struct Elements<'a> {
    pub(crate) place: usize,
    pub(crate) packed: &'a [u8],
}

/// GM's datatype `V`, and the signed numbers as their patterns. Number arrays stay packed, since
/// arrays that overlap in the store may have far more elements than the store has bytes.
pub(crate) enum V<'a> {
    Constant,
    Uint32(u32),
    Uint64(u64),
    Array(Vec<V<'a>>),
    Tuple(Vec<V<'a>>),
    ByteArray(Elements<'a>),
    Uint32Array(Elements<'a>),
    Uint64Array(Elements<'a>),
    Case(u64, Box<V<'a>>),
    Int32(u32),
    Int64(u64),
}

/// Refuses a record or a store that is too long.
pub(crate) fn check_length(bytes: &[u8]) -> Result<(), Refusal> {
    match bytes.len() {
        0..=MOST_BYTES => Ok(()),
        _ => Err(at_byte(6, 0)),
    }
}

/// The first `n` rows.
fn table(rows: &[u64], n: usize) -> Result<Vec<Row>, Refusal> {
    if n == 0 || n > MOST_ROWS || ROW_WORDS * n > rows.len() {
        return Err(at_row(12, 0));
    }
    let words = rows[..ROW_WORDS * n].chunks(ROW_WORDS);
    let row = |words: &[u64]| words.try_into().expect("the words of a row");
    Ok(words.map(row).collect())
}

/// Whether a row keeps the rules for its own words, the size aside. From it to its parent's end there
/// are `most` rows, at least 1.
fn is_valid([kind, span, word2, word3, _]: Row, most: usize) -> bool {
    let is_span_valid = match kind {
        3 | 4 | 8 => (1..=most as u64).contains(&span),
        _ => span == 1,
    };
    let is_word2_valid = match kind {
        0 => word2 == 0,
        1 | 9 => word2 <= MOST_UINT32,
        _ => true,
    };
    let is_word3_valid = matches!(kind, 5..=7) || word3 == 0;
    kind <= 10 && is_span_valid && is_word2_valid && is_word3_valid
}

/// The elements of an array row, `width` bytes each.
fn elements<'a>(
    rows: &[Row],
    row: usize,
    width: usize,
    store: &'a [u8],
) -> Result<Elements<'a>, Refusal> {
    let [_, _, count, place, _] = rows[row];
    let end = u128::from(place) + u128::from(count) * width as u128;
    if end > store.len() as u128 {
        return Err(at_row(14, row));
    }
    let (place, end) = (place as usize, end as usize);
    let packed = &store[place..end];
    Ok(Elements { place, packed })
}

/// The values of the `count` children of a row, which fill its span.
fn children<'a>(
    rows: &[Row],
    row: usize,
    count: u64,
    store: &'a [u8],
) -> Result<Vec<V<'a>>, Refusal> {
    let end = row + rows[row][1] as usize;
    let mut child = row + 1;
    let mut values = Vec::new();
    while (values.len() as u64) < count && child < end {
        values.push(value(rows, child, end, store)?);
        child += rows[child][1] as usize;
    }
    if values.len() as u64 == count && child == end {
        Ok(values)
    } else {
        Err(at_row(13, row))
    }
}

/// The value of a row whose parent ends before row `end`. Its size is looked at last.
fn value<'a>(rows: &[Row], row: usize, end: usize, store: &'a [u8]) -> Result<V<'a>, Refusal> {
    if !is_valid(rows[row], end - row) {
        return Err(at_row(13, row));
    }
    let [kind, _, word2, _, size] = rows[row];
    let value = match kind {
        0 => V::Constant,
        1 => V::Uint32(word2 as u32),
        2 => V::Uint64(word2),
        3 => V::Array(children(rows, row, word2, store)?),
        4 => V::Tuple(children(rows, row, word2, store)?),
        5 => V::ByteArray(elements(rows, row, 1, store)?),
        6 => V::Uint32Array(elements(rows, row, 4, store)?),
        7 => V::Uint64Array(elements(rows, row, 8, store)?),
        8 => {
            let child = children(rows, row, 1, store)?.remove(0);
            V::Case(word2, Box::new(child))
        }
        9 => V::Int32(word2 as u32),
        _ => V::Int64(word2),
    };
    if size != size_of_v(&value) {
        return Err(at_row(13, row));
    }
    Ok(value)
}

/// The value that `n` rows stand for.
pub(crate) fn whole_value<'a>(rows: &[u64], n: usize, store: &'a [u8]) -> Result<V<'a>, Refusal> {
    check_length(store)?;
    let rows = table(rows, n)?;
    // The root's span is n exactly; another row may stop before its parent's end.
    if rows[0][1] != n as u64 {
        return Err(at_row(13, 0));
    }
    value(&rows, 0, n, store)
}

/// `SeqSum`.
fn seq_sum(values: &[V]) -> u64 {
    values.iter().map(size_of_v).sum()
}

/// `SizeOfV`. The packed bytes of an array are as many as its elements times their width.
pub(crate) fn size_of_v(value: &V) -> u64 {
    match value {
        V::Constant => 0,
        V::Uint32(_) | V::Int32(_) => 4,
        V::Uint64(_) | V::Int64(_) => 8,
        V::Array(values) => 8 + seq_sum(values),
        V::Tuple(values) => seq_sum(values),
        V::ByteArray(array) | V::Uint32Array(array) | V::Uint64Array(array) => {
            8 + array.packed.len() as u64
        }
        V::Case(_, value) => 8 + size_of_v(value),
    }
}

/// The length in bytes of the record of the value that `n` rows stand for.
pub fn compute_size_of(rows: &[u64], n: usize, store: &[u8]) -> Result<u64, Refusal> {
    whole_value(rows, n, store).map(|value| size_of_v(&value))
}

/// The row of this number, if it is below `n`; the `n` rows stand for a value.
pub(crate) fn checked_row(
    rows: &[u64],
    n: usize,
    store: &[u8],
    row: usize,
) -> Result<Option<Row>, Refusal> {
    whole_value(rows, n, store)?;
    Ok(table(rows, n)?.get(row).copied())
}

/// Where the elements of an array row start in the store, and their length in bytes.
pub fn locate_array(
    rows: &[u64],
    n: usize,
    store: &[u8],
    row: usize,
) -> Result<(usize, usize), Refusal> {
    let (place, length) = match checked_row(rows, n, store, row)? {
        Some([5, _, count, place, _]) => (place, count),
        Some([6, _, count, place, _]) => (place, 4 * count),
        Some([7, _, count, place, _]) => (place, 8 * count),
        _ => return Err(at_row(18, row)),
    };
    Ok((place as usize, length as usize))
}

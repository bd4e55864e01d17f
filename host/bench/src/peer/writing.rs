//! Writing a value from its rows, and its preview: refusals 15 to 17, behind those of the grammar
//! and of the rows.

use super::grammar::Grammar;
use super::rows::{check_rows, Row};
use route_record::MAX_BYTES;

use super::Refusal;

/// Writes the bytes of the value that `n` rows stand for from byte 0 on, and gives how many.
pub fn marshall(
    words: &[u32],
    rows: &[u64],
    n: usize,
    store: &[u8],
    out: &mut [u8],
) -> Result<usize, Refusal> {
    marshall_val(words, rows, n, store, out, 0)
}

/// Writes the bytes of the value that `n` rows stand for from `index` on, and gives how many.
pub fn marshall_val(
    words: &[u32],
    rows: &[u64],
    n: usize,
    store: &[u8],
    out: &mut [u8],
    index: usize,
) -> Result<usize, Refusal> {
    let (rows, size) = admit(words, rows, n, store, out.len(), index)?;
    let mut at = index;
    for row in rows {
        at += put_row(row, store, &mut out[at..]);
    }
    Ok(size)
}

/// What an accepted preview gives.
#[derive(Clone, Copy, Debug, PartialEq, Eq)]
pub struct Preview {
    /// The number of bytes that would be written.
    pub size: usize,
    /// How many of them would differ from what the output holds there.
    pub changed: usize,
}

/// What [`marshall_val`] would give and change.
pub fn preview(
    words: &[u32],
    rows: &[u64],
    n: usize,
    store: &[u8],
    out: &[u8],
    index: usize,
) -> Result<Preview, Refusal> {
    let (rows, size) = admit(words, rows, n, store, out.len(), index)?;
    let (mut at, mut changed) = (index, 0);
    for row in rows {
        changed += differing_in_row(row, store, &out[at..]);
        at += own_size(row) as usize;
    }
    Ok(Preview { size, changed })
}

/// The rows and the size of a value that may be written at `index` of an output of this length.
fn admit<'a>(
    words: &[u32],
    rows: &'a [u64],
    n: usize,
    store: &[u8],
    length: usize,
    index: usize,
) -> Result<(&'a [Row], usize), Refusal> {
    let rows = value_in_grammar(words, rows, n, store)?;
    let size = check_room(size_of(rows), length, index)?;
    Ok((rows, size))
}

/// The rows of a value of the grammar: all refusals before 16.
pub(super) fn value_in_grammar<'a>(
    words: &[u32],
    rows: &'a [u64],
    n: usize,
    store: &[u8],
) -> Result<&'a [Row], Refusal> {
    let grammar = Grammar::of(words)?;
    let rows = check_rows(rows, n, store)?;
    check_value(grammar, rows, 0, 0)?;
    Ok(rows)
}

/// The size, where it is not too large and has room at `index` of an output of this length.
pub(super) fn check_room(size: u64, length: usize, index: usize) -> Result<usize, Refusal> {
    if size > MAX_BYTES as u64 {
        return Err(Refusal::at_row(16, 0));
    }
    let size = size as usize;
    let fits = index.checked_add(size).is_some_and(|end| end <= length);
    if !fits {
        return Err(Refusal::at_byte(17, length));
    }
    Ok(size)
}

/// The size in bytes of the value that `n` rows stand for.
pub fn compute_size_of(rows: &[u64], n: usize, store: &[u8]) -> Result<u64, Refusal> {
    check_rows(rows, n, store).map(size_of)
}

/// The size of the value of rows that were checked.
fn size_of(rows: &[Row]) -> u64 {
    let [.., size] = rows[0];
    size
}

/// Checks that the value of a row is one of a node, its rows in order.
fn check_value(grammar: Grammar, rows: &[Row], row: usize, k: usize) -> Result<(), Refusal> {
    let [kind, span, word2, ..] = rows[row];
    let node = grammar.node(k);
    let nodes = grammar.children(node);
    let fits = match kind {
        4 => word2 == nodes.len() as u64,
        8 => word2 < nodes.len() as u64,
        _ => true,
    };
    if kind != u64::from(node[0]) || !fits {
        return Err(Refusal::at_row(15, row));
    }
    let mut child = row + 1;
    match kind {
        3 => {
            let end = row + span as usize;
            while child < end {
                check_value(grammar, rows, child, nodes[0] as usize)?;
                child += rows[child][1] as usize;
            }
        }
        4 => {
            for &field in nodes {
                check_value(grammar, rows, child, field as usize)?;
                child += rows[child][1] as usize;
            }
        }
        8 => check_value(grammar, rows, child, nodes[word2 as usize] as usize)?,
        _ => (),
    }
    Ok(())
}

/// The bytes of an element of the arrays of a kind, 0 for a kind without elements.
pub(super) fn element_width(kind: u64) -> u64 {
    match kind {
        5 => 1,
        6 => 4,
        7 => 8,
        _ => 0,
    }
}

/// How many bytes a row has itself, without its children's.
fn own_size(&[kind, _, count, ..]: &Row) -> u64 {
    match kind {
        0 | 4 => 0,
        1 | 9 => 4,
        _ => 8 + element_width(kind) * count,
    }
}

/// Writes a row's own bytes, and gives how many.
fn put_row(&[kind, _, word2, place, _]: &Row, store: &[u8], out: &mut [u8]) -> usize {
    match kind {
        0 | 4 => 0,
        1 | 9 => {
            out[..4].copy_from_slice(&(word2 as u32).to_le_bytes());
            4
        }
        2 | 3 | 8 | 10 => {
            out[..8].copy_from_slice(&word2.to_le_bytes());
            8
        }
        _ => {
            let length = (element_width(kind) * word2) as usize;
            out[..8].copy_from_slice(&word2.to_le_bytes());
            out[8..][..length].copy_from_slice(&store[place as usize..][..length]);
            8 + length
        }
    }
}

/// How many of a row's own bytes differ from those that the output begins with.
fn differing_in_row(&[kind, _, word2, place, _]: &Row, store: &[u8], out: &[u8]) -> usize {
    match kind {
        0 | 4 => 0,
        1 | 9 => differing(&(word2 as u32).to_le_bytes(), out),
        2 | 3 | 8 | 10 => differing(&word2.to_le_bytes(), out),
        _ => {
            let length = (element_width(kind) * word2) as usize;
            let elements = &store[place as usize..][..length];
            differing(&word2.to_le_bytes(), out) + differing_elements(elements, &out[8..])
        }
    }
}

/// How many of these bytes differ from those that the output begins with.
fn differing(bytes: &[u8], out: &[u8]) -> usize {
    let pairs = bytes.iter().zip(out);
    pairs.filter(|(byte, held)| byte != held).count()
}

/// The same of many bytes. A byte counts those of 255, so that the compiler compares many at once.
fn differing_elements(bytes: &[u8], out: &[u8]) -> usize {
    let in_block = |(bytes, out): (&[u8], &[u8])| {
        let pairs = bytes.iter().zip(out);
        usize::from(pairs.map(|(byte, held)| u8::from(byte != held)).sum::<u8>())
    };
    let blocks = bytes.chunks(255).zip(out.chunks(255));
    blocks.map(in_block).sum()
}

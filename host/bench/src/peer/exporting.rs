//! Exporting a value from its rows as XDR (RFC 4506): refusals 15 to 17, behind those of the grammar
//! and of the rows. 16 speaks of the XDR size.

use super::rows::Row;
use super::writing::{check_room, element_width, value_in_grammar};
use super::xdr::{put_elements, Padded};
use super::Refusal;

/// Writes the XDR of the value that `n` rows stand for from `index` on, and gives how many bytes.
pub fn export_xdr(
    words: &[u32],
    rows: &[u64],
    n: usize,
    store: &[u8],
    out: &mut [u8],
    index: usize,
) -> Result<usize, Refusal> {
    let rows = value_in_grammar(words, rows, n, store)?;
    let size = rows.iter().map(own_size).sum();
    let size = check_room(size, out.len(), index)?;
    let mut at = index;
    for row in rows {
        at += put_row(row, store, &mut out[at..]);
    }
    Ok(size)
}

/// How many bytes of XDR a row has itself, without its children's.
fn own_size(&[kind, _, count, ..]: &Row) -> u64 {
    match kind {
        0 | 4 => 0,
        1 | 3 | 8 | 9 => 4,
        2 | 10 => 8,
        _ => 4 + (element_width(kind) * count).next_multiple_of(4),
    }
}

/// Writes a row's own bytes, and gives how many.
fn put_row(&[kind, _, word2, place, _]: &Row, store: &[u8], out: &mut [u8]) -> usize {
    match kind {
        0 | 4 => 0,
        1 | 3 | 8 | 9 => put_u32(word2, out),
        2 | 10 => {
            out[..8].copy_from_slice(&word2.to_be_bytes());
            8
        }
        _ => {
            let width = element_width(kind) as usize;
            let Padded { size, padding } = Padded::of(width * word2 as usize);
            let (count, out) = out.split_at_mut(4);
            put_u32(word2, count);
            let (elements, behind) = out.split_at_mut(size);
            put_elements(width, &store[place as usize..][..size], elements);
            behind[..padding].fill(0);
            4 + size + padding
        }
    }
}

/// Writes a number, count or discriminant of 4 bytes.
fn put_u32(number: u64, out: &mut [u8]) -> usize {
    out[..4].copy_from_slice(&(number as u32).to_be_bytes());
    4
}

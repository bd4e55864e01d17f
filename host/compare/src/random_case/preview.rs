//! Random cases of preview.

use route_record::{MAX_BYTES, ROW_WORDS};

use crate::row_table::element_width;
use crate::{Case, Random, Value};

use super::lent;
use super::writing::{length, writing, Writing};

/// The bytes that a row adds to a record; of a faulty one, any.
fn row_bytes(row: &[u64], store: &[u8]) -> Vec<u8> {
    let (kind, word2) = (row[0], row[2]);
    let own_bytes = match kind {
        1 | 9 => 4,
        2 | 3 | 5..=8 | 10 => 8,
        _ => 0,
    };
    let (offset, width) = (row[3] as usize, element_width(kind).unwrap_or(0));
    let end = offset.saturating_add(width.saturating_mul(word2 as usize));
    let elements = store.get(offset..end).unwrap_or_default();
    [&word2.to_le_bytes()[..own_bytes], elements].concat()
}

/// The bytes of a value, up to the row with which they are longer than a record may be.
fn record(value: &Value) -> Vec<u8> {
    let mut record = Vec::new();
    for row in value.rows.chunks_exact(ROW_WORDS).take(value.n) {
        record.extend(row_bytes(row, &value.store));
        if record.len() > MAX_BYTES {
            break;
        }
    }
    record
}

/// An output of so many bytes, one byte again and again or any bytes. Most often it holds the
/// record at the index already, or a byte before it or behind it, as far as there is room.
fn output(random: &mut Random, record: &[u8], index: usize, length: usize) -> Vec<u8> {
    let mut out = match random.below(2) {
        0 => lent(random, length),
        _ => random.bytes(length),
    };
    let start = match random.below(8) {
        0 | 1 => return out,
        2 => index.wrapping_sub(1),
        3 => index.wrapping_add(1),
        _ => index,
    };
    if let Some(held) = out.get_mut(start..) {
        let count = record.len().min(held.len());
        held[..count].copy_from_slice(&record[..count]);
    }
    out
}

/// Changes a bit of a byte of the output, most often of one where the record would be.
fn spoil(random: &mut Random, out: &mut [u8], record: &[u8], index: usize) {
    let Some(last) = out.len().checked_sub(1) else {
        return;
    };
    let place = match random.below(4) {
        0 => random.within(0..=last),
        _ => {
            let end = index.saturating_add(record.len());
            random.within(index.min(last)..=end.min(last))
        }
    };
    out[place] ^= 1 << random.below(8);
}

/// A case of preview.
pub(super) fn case(random: &mut Random) -> Case {
    let Writing { value, index, size } = writing(random);
    let length = length(random, size, index);
    let record = record(&value);
    let mut out = output(random, &record, index, length);
    for _ in 0..random.pick(&[0, 0, 1, 1, 2, 9]) {
        spoil(random, &mut out, &record, index);
    }
    value.preview_case(out, index)
}

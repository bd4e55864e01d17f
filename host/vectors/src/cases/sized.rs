//! The sizes of rows.

use super::ROW_WORDS;

/// Which word of a row is its size.
pub(super) const SIZE: usize = ROW_WORDS - 1;

/// A row without its size: kind, span, word 2 and word 3.
pub(super) type Bare = [u64; SIZE];

/// The bytes that a row adds to its record. Those of a kind that is none are as many as most kinds
/// add.
fn own_size([kind, _, word2, _]: Bare) -> u64 {
    let array = |width: u64| word2.wrapping_mul(width).wrapping_add(8);
    match kind {
        0 | 4 => 0,
        1 | 9 => 4,
        5 => array(1),
        6 => array(4),
        7 => array(8),
        _ => 8,
    }
}

/// The sizes of rows, sound or not: of the children that a row wants, those in its span count.
fn sizes(rows: &[Bare]) -> Vec<u64> {
    let mut sizes = vec![0; rows.len()];
    for row in (0..rows.len()).rev() {
        let [kind, span, word2, _] = rows[row];
        let end = rows.len().min(row.saturating_add(span as usize));
        let mut missing = match kind {
            3 | 4 => word2,
            8 => 1,
            _ => 0,
        };
        let (mut child, mut size) = (row + 1, own_size(rows[row]));
        while missing > 0 && child < end {
            size = size.wrapping_add(sizes[child]);
            child = child.saturating_add(rows[child][1].max(1) as usize);
            missing -= 1;
        }
        sizes[row] = size;
    }
    sizes
}

/// The words of rows, each with its size.
pub(super) fn sized(rows: &[Bare]) -> Vec<u64> {
    let with_size = |(row, size): (&Bare, u64)| [&row[..], &[size]].concat();
    rows.iter().zip(sizes(rows)).flat_map(with_size).collect()
}

//! The bytes of a record that each row adds to it.

use route_record::ROW_WORDS;

use crate::row_table::{element_width, head_width};

/// The bytes of a record that a row adds to it, without those of its children.
pub struct OwnBytes {
    /// The row's kind.
    pub kind: u64,
    /// Where they start.
    pub start: usize,
    /// Where the number, the count or the tag ends.
    pub head_end: usize,
    /// Where they end: for kinds 5 to 7 behind the elements.
    pub end: usize,
}

/// What each row of a value adds to its record, row 0 first: one behind the other they are the
/// record.
pub fn own_bytes(rows: &[u64]) -> Vec<OwnBytes> {
    let mut start = 0;
    let of_row = |row: &[u64]| {
        let kind = row[0];
        let head_end = start + head_width(kind);
        let end = head_end + element_width(kind).map_or(0, |width| width * row[2] as usize);
        let own = OwnBytes {
            kind,
            start,
            head_end,
            end,
        };
        start = end;
        own
    };
    rows.chunks(ROW_WORDS).map(of_row).collect()
}

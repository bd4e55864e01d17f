//! The walk over value rows: refusals 6, 12, 13 and 14.

use route_record::{MAX_BYTES, MAX_ROWS, ROW_WORDS};

use super::Refusal;

/// Kind, span, word 2, word 3 and size.
pub type Row = [u64; ROW_WORDS];

/// The rows of a value, if `n` rows stand for one.
pub fn check_rows<'a>(words: &'a [u64], n: usize, store: &[u8]) -> Result<&'a [Row], Refusal> {
    if store.len() > MAX_BYTES {
        return Err(Refusal::at_byte(6, 0));
    }
    let (rows, _): (&[Row], _) = words.as_chunks();
    if n == 0 || n > MAX_ROWS || n > rows.len() {
        return Err(Refusal::at_row(12, 0));
    }
    let rows = &rows[..n];
    let [_, span, ..] = rows[0];
    if span != n as u64 {
        return Err(Refusal::at_row(13, 0));
    }
    Walk { rows, store }.value(0, n)?;
    Ok(rows)
}

/// Rows that are walked, and the store of their arrays.
struct Walk<'a> {
    rows: &'a [Row],
    store: &'a [u8],
}

/// What a row says of itself: its bytes without its children's, and how many children it wants.
struct Own {
    size: u64,
    children: u64,
}

impl Walk<'_> {
    /// The value that starts with a row, which may reach to `end`: its size.
    fn value(&self, row: usize, end: usize) -> Result<u64, Refusal> {
        let own = self.row(row, end)?;
        let [_, span, _, _, size] = self.rows[row];
        let end = row + span as usize;
        if own.size + self.children(row, own.children, end)? != size {
            return Err(Refusal::at_row(13, row));
        }
        Ok(size)
    }

    /// A row by itself, which may reach to `end`.
    fn row(&self, row: usize, end: usize) -> Result<Own, Refusal> {
        let [kind, span, word2, word3, _] = self.rows[row];
        let leaf = span == 1;
        let unused = word3 == 0;
        let (kept, size, width, children) = match kind {
            0 => (leaf && word2 == 0 && unused, 0, None, 0),
            1 | 9 => (leaf && word2 <= u64::from(u32::MAX) && unused, 4, None, 0),
            2 | 10 => (leaf && unused, 8, None, 0),
            3 => (unused, 8, None, word2),
            4 => (unused, 0, None, word2),
            5 => (leaf, 8, Some(1), 0),
            6 => (leaf, 8, Some(4), 0),
            7 => (leaf, 8, Some(8), 0),
            8 => (unused, 8, None, 1),
            _ => return Err(Refusal::at_row(13, row)),
        };
        if !kept || span == 0 || span > (end - row) as u64 {
            return Err(Refusal::at_row(13, row));
        }
        match width {
            Some(width) if !self.holds(word3, word2, width) => Err(Refusal::at_row(14, row)),
            Some(width) => Ok(Own {
                size: size + word2 * width,
                children,
            }),
            None => Ok(Own { size, children }),
        }
    }

    /// Whether the store holds so many elements of a width from a place on.
    fn holds(&self, place: u64, count: u64, width: u64) -> bool {
        let length = self.store.len() as u64;
        place <= length && count <= (length - place) / width
    }

    /// The children of a row, which are to fill its span: their sizes together.
    fn children(&self, parent: usize, count: u64, end: usize) -> Result<u64, Refusal> {
        let (mut row, mut size) = (parent + 1, 0);
        for _ in 0..count {
            if row == end {
                return Err(Refusal::at_row(13, parent));
            }
            size += self.value(row, end)?;
            row += self.rows[row][1] as usize;
        }
        if row != end {
            return Err(Refusal::at_row(13, parent));
        }
        Ok(size)
    }
}

//! What a writing would do, seen on a copy of the output.

use crate::refusal::Refusal;
use crate::writing::marshall_val;

/// An accepted preview.
#[derive(Clone, Copy, Debug, PartialEq, Eq)]
pub struct Preview {
    /// The number of bytes that would be written.
    pub size: usize,
    /// The number of output bytes that would differ after the writing.
    pub changed: usize,
}

/// What [`marshall_val`] answers to the same arguments, and the number of places at which the copy
/// of the output that it writes to differs from the output.
pub fn preview(
    grammar: &[u32],
    rows: &[u64],
    n: usize,
    store: &[u8],
    out: &[u8],
    index: usize,
) -> Result<Preview, Refusal> {
    let writing = marshall_val(grammar, rows, n, store, out, index)?;
    let bytes = out.iter().zip(&writing.out);
    let changed = bytes.filter(|&(before, after)| before != after).count();
    Ok(Preview {
        size: writing.size,
        changed,
    })
}

//! Writing the record of the value that rows stand for, by its grammar, and what that would change.
//!
//! The bytes of a constant are none, of a uint32 or int32 4, of a uint64 or int64 8, of a tuple its
//! fields in order, of an array an 8-byte element count and the elements, of a case an 8-byte tag
//! and its value; each number is least byte first, a signed one in two's complement. The elements
//! of kinds 5 to 7 are the store's bytes from their offset on. The store is any slice: that the
//! rows were read from it is not asked.
//!
//! A call uses less than 1 MiB of stack, on values as deep as 4,096 rows can be.

use crate::ffi::{self, Answer};
use crate::{Preview, Refusal};

/// A number of bytes that are written, or would be.
fn within_output(word: u64) -> usize {
    usize::try_from(word).expect("the library writes within the output")
}

/// The number of bytes written.
pub(super) fn size(answer: Answer) -> Result<usize, Refusal> {
    Ok(within_output(answer.into_result()?.first))
}

/// Writes the record of the value that rows 0 to `n - 1` stand for, a value of the grammar's root,
/// at byte `index` of the output, and gives its size in bytes. Changes the bytes `index` to
/// `index + size - 1` of the output and no other. The output may be longer.
///
/// Refused by 1 to 5 as [`check_grammar`](crate::calls::check_grammar) refuses; then by 6 and 12 to 14 as
/// [`compute_size_of`](crate::calls::compute_size_of) refuses; then, for each row from row 0 on, by 15 at
/// the row when its value is not one of its node of the grammar:
/// - its kind is not the node's;
/// - its kind is 4 and its count not the node's;
/// - its kind is 8 and its tag not below the node's count;
///
/// then by 16 at row 0 when the size is above 1,048,576; then by 17 at the byte that is the
/// output's length when `index` plus the size is above it, size 0 too. The output is then as it
/// was.
///
/// What was read is written back:
///
/// ```
/// use route_record::calls::{demarshall, marshall_val};
/// use route_record::{Place, Refusal};
///
/// let tuple_of_u32_and_bytes = [3, 4, 0, 2, 1, 0, 0, 5, 0, 0, 2, 1, 2];
/// let record = [7, 0, 0, 0, 2, 0, 0, 0, 0, 0, 0, 0, 0x41, 0x42];
/// let mut rows = [0; 15];
/// let n = demarshall(&tuple_of_u32_and_bytes, &record, &mut rows).unwrap().rows;
///
/// let mut out = [0xff; 17];
/// let size = marshall_val(&tuple_of_u32_and_bytes, &rows, n, &record, &mut out, 1);
/// assert_eq!(size, Ok(14));
/// assert_eq!(out, [0xff, 7, 0, 0, 0, 2, 0, 0, 0, 0, 0, 0, 0, 0x41, 0x42, 0xff, 0xff]);
///
/// let refusal = Refusal { number: 17, place: Place::Byte(17) };
/// let size = marshall_val(&tuple_of_u32_and_bytes, &rows, n, &record, &mut out, 4);
/// assert_eq!(size, Err(refusal));
/// ```
pub fn marshall_val(
    grammar: &[u32],
    rows: &[u64],
    n: usize,
    store: &[u8],
    out: &mut [u8],
    index: usize,
) -> Result<usize, Refusal> {
    size(ffi::marshall_val(grammar, rows, n, store, out, index))
}

/// Writes as [`marshall_val`] does at byte 0.
///
/// ```
/// use route_record::calls::marshall;
/// use route_record::{Place, Refusal};
///
/// let uint32 = [1, 1, 0, 0, 0];
/// let mut out = [0xff; 5];
/// assert_eq!(marshall(&uint32, &[1, 1, 7, 0, 4], 1, &[], &mut out), Ok(4));
/// assert_eq!(out, [7, 0, 0, 0, 0xff]);
///
/// let refusal = Refusal { number: 15, place: Place::Row(0) };
/// assert_eq!(marshall(&uint32, &[2, 1, 8, 0, 8], 1, &[], &mut out), Err(refusal));
/// assert_eq!(out, [7, 0, 0, 0, 0xff]);
/// ```
pub fn marshall(
    grammar: &[u32],
    rows: &[u64],
    n: usize,
    store: &[u8],
    out: &mut [u8],
) -> Result<usize, Refusal> {
    size(ffi::marshall(grammar, rows, n, store, out))
}

/// What [`marshall_val`] with the same arguments would do, the output lent for reading: the size
/// that it would give, and how many bytes of the output it would change. A byte that it would write
/// over with what is there already does not count. Changes nothing.
///
/// Refused as [`marshall_val`] refuses.
///
/// ```
/// use route_record::calls::preview;
/// use route_record::{Place, Preview, Refusal};
///
/// let tuple_of_u32_and_bytes = [3, 4, 0, 2, 1, 0, 0, 5, 0, 0, 2, 1, 2];
/// let rows = [4, 3, 2, 0, 14, 1, 1, 7, 0, 4, 5, 1, 2, 12, 10];
/// let record = [7, 0, 0, 0, 2, 0, 0, 0, 0, 0, 0, 0, 0x41, 0x42];
/// let over = |out: &[u8], index| {
///     preview(&tuple_of_u32_and_bytes, &rows, 3, &record, out, index)
/// };
/// assert_eq!(over(&record, 0), Ok(Preview { size: 14, changed: 0 }));
/// assert_eq!(over(&[0; 20], 3), Ok(Preview { size: 14, changed: 4 }));
/// assert_eq!(over(&[0xff; 20], 3), Ok(Preview { size: 14, changed: 14 }));
///
/// let refusal = Refusal { number: 17, place: Place::Byte(14) };
/// assert_eq!(over(&record, 1), Err(refusal));
/// ```
pub fn preview(
    grammar: &[u32],
    rows: &[u64],
    n: usize,
    store: &[u8],
    out: &[u8],
    index: usize,
) -> Result<Preview, Refusal> {
    let answer = ffi::preview(grammar, rows, n, store, out, index).into_result()?;
    Ok(Preview {
        size: within_output(answer.first),
        changed: within_output(answer.second),
    })
}

//! Value rows: the size of the value that they stand for, where an array lies in the store, and the
//! signed number of a row.
//!
//! A row is five words ([`ROW_WORDS`](crate::ROW_WORDS)): kind, span, word 2, word 3 and size. The
//! span is the number of rows of the value, its own included; the rows of its children follow its
//! own, child after child. Word 2 is 0 for a constant, the number for kinds 1 and 2, the element
//! count for kinds 3 to 7, the tag for kind 8; for kinds 9 and 10 it is the number's two's complement
//! pattern, of 32 and 64 bits, as an unsigned number. Word 3 is the offset of the first element in
//! the store for kinds 5 to 7, else 0. The size is that of the value in bytes, its children's
//! included: the length of its record.
//!
//! A call uses less than 1 MiB of stack, on values as deep as 4,096 rows can be.

use crate::ffi;
use crate::Refusal;

/// The size in bytes of the value that rows 0 to `n - 1` stand for, the length of its record: row
/// 0's size, once all rows are checked.
///
/// Refused by 6 at byte 0 when the store has more than 1,048,576 bytes; then by 12 at row 0 when
/// `n` is 0 or above 4,096, or there are fewer than 5 times `n` words; then by 13 at row 0 when its
/// span is not `n`; then, for each row from row 0 on, by
/// - 13 at the row when its kind is above 10; its span is 0, reaches past its parent's end, or is
///   not 1 for a kind without children; a word that its kind does not use is not 0; or its kind is
///   1 or 9 and word 2 above 4,294,967,295;
/// - 14 at the row when its kind is 5 to 7 and its offset plus its count times 1, 4 or 8 is above
///   the store's length, count 0 too;
/// - what its children are refused by, in order: as many as word 2 says for kinds 3 and 4, one for
///   kind 8;
/// - 13 at the row when a child is missing or rows of its span are left over, which are not looked
///   at;
/// - 13 at the row when its size is not that of its value.
///
/// ```
/// use route_record::calls::compute_size_of;
/// use route_record::{Place, Refusal};
///
/// let tuple_of_u32_and_bytes = [4, 3, 2, 0, 14, 1, 1, 7, 0, 4, 5, 1, 2, 12, 10];
/// assert_eq!(compute_size_of(&tuple_of_u32_and_bytes, 3, &[0; 14]), Ok(14));
///
/// let refusal = Refusal { number: 14, place: Place::Row(2) };
/// assert_eq!(compute_size_of(&tuple_of_u32_and_bytes, 3, &[0; 13]), Err(refusal));
///
/// let refusal = Refusal { number: 13, place: Place::Row(1) };
/// let u32_of_5_bytes = [4, 3, 2, 0, 15, 1, 1, 7, 0, 5, 5, 1, 2, 12, 10];
/// assert_eq!(compute_size_of(&u32_of_5_bytes, 3, &[0; 14]), Err(refusal));
/// ```
pub fn compute_size_of(rows: &[u64], n: usize, store: &[u8]) -> Result<u64, Refusal> {
    let answer = ffi::compute_size_of(rows, n, store).into_result()?;
    Ok(answer.first)
}

/// Where the elements of row `row` lie in the store: their first byte, and how many bytes.
///
/// Refused as [`compute_size_of`] is, then by 18 at row `row` when `row` is not below `n` or its
/// kind is not 5 to 7.
///
/// ```
/// use route_record::calls::locate_array;
/// use route_record::{Place, Refusal};
///
/// let tuple_of_u32_and_bytes = [4, 3, 2, 0, 14, 1, 1, 7, 0, 4, 5, 1, 2, 12, 10];
/// assert_eq!(locate_array(&tuple_of_u32_and_bytes, 3, &[0; 14], 2), Ok((12, 2)));
///
/// let refusal = Refusal { number: 18, place: Place::Row(1) };
/// assert_eq!(locate_array(&tuple_of_u32_and_bytes, 3, &[0; 14], 1), Err(refusal));
/// ```
pub fn locate_array(
    rows: &[u64],
    n: usize,
    store: &[u8],
    row: usize,
) -> Result<(usize, usize), Refusal> {
    let answer = ffi::locate_array(rows, n, store, row).into_result()?;
    let within_store = |word| usize::try_from(word).expect("the library gives a part of the store");
    Ok((within_store(answer.first), within_store(answer.second)))
}

/// The signed number of row `row`, of kind 9 or 10: the one whose pattern is the row's word 2.
///
/// Refused as [`compute_size_of`] is, then by 20 at row `row` when `row` is not below `n` or its
/// kind is not 9 or 10.
///
/// ```
/// use route_record::calls::signed_number;
/// use route_record::{Place, Refusal};
///
/// let tuple_of_i32_and_bytes = [4, 3, 2, 0, 14, 9, 1, 4_294_967_293, 0, 4, 5, 1, 2, 12, 10];
/// assert_eq!(signed_number(&tuple_of_i32_and_bytes, 3, &[0; 14], 1), Ok(-3));
///
/// let refusal = Refusal { number: 20, place: Place::Row(2) };
/// assert_eq!(signed_number(&tuple_of_i32_and_bytes, 3, &[0; 14], 2), Err(refusal));
/// ```
pub fn signed_number(rows: &[u64], n: usize, store: &[u8], row: usize) -> Result<i64, Refusal> {
    let answer = ffi::signed_number(rows, n, store, row).into_result()?;
    // The word is the number's 64-bit two's complement pattern, which the cast keeps.
    Ok(answer.first as i64)
}

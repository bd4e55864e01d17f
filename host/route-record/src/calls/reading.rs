//! Reading a record by its grammar, into value rows or as a check.
//!
//! The bytes of a constant are none, of a uint32 or int32 4, of a uint64 or int64 8, of a tuple its
//! fields in order, of an array an 8-byte element count and the elements, of a case an 8-byte tag
//! and its value; each number is least byte first, a signed one in two's complement. The record is
//! the store of the rows. Rows are five words each; a slice has as many rows as its words divided
//! by 5, rounded down, at most 4,096.
//!
//! A call uses less than 64 KiB of stack, on grammars as deep as 256 nodes can be.

use crate::ffi::{self, Answer};
use crate::{Parsed, Refusal};

/// The counts of an answer.
fn parsed(answer: Answer) -> Result<Parsed, Refusal> {
    let answer = answer.into_result()?;
    let within_usize = |word| usize::try_from(word).expect("the library counts rows and bytes");
    Ok(Parsed {
        rows: within_usize(answer.first),
        rest_index: within_usize(answer.second),
    })
}

/// Reads a value of the grammar's root from byte `index` on and lays it out in rows 0 to `n - 1`,
/// `n` being its row count. The words behind them stay as they were.
///
/// Refused by 1 to 5 as [`check_grammar`](crate::calls::check_grammar) refuses; then by 6 at byte 0 when
/// the record has more than 1,048,576 bytes; then by 7 at byte `index` when it is above the
/// record's length; then, for each value from the root on, at the byte where the value starts, by
/// - 8 when no row is left;
/// - 9 when fewer bytes are left than a number, count or tag has, or when the count of a kind 5 to
///   7 is above the bytes left behind it, divided by 1, 4 or 8 and rounded down;
/// - 8 when the count of a kind 3 is above the rows left after its own;
/// - 10 when a tag is not below the number of cases;
/// - what its children are refused by, in order.
///
/// ```
/// use route_record::calls::parse_val;
/// use route_record::{Parsed, Place, Refusal};
///
/// let tuple_of_u32_and_bytes = [3, 4, 0, 2, 1, 0, 0, 5, 0, 0, 2, 1, 2];
/// let record = [0xff, 7, 0, 0, 0, 2, 0, 0, 0, 0, 0, 0, 0, 0x41, 0x42, 0xff];
/// let mut rows = [99; 16];
/// let parsed = parse_val(&tuple_of_u32_and_bytes, &record, 1, &mut rows);
/// assert_eq!(parsed, Ok(Parsed { rows: 3, rest_index: 15 }));
/// assert_eq!(rows, [4, 3, 2, 0, 14, 1, 1, 7, 0, 4, 5, 1, 2, 13, 10, 99]);
///
/// let refusal = Refusal { number: 9, place: Place::Byte(5) };
/// let parsed = parse_val(&tuple_of_u32_and_bytes, &record[..14], 1, &mut rows);
/// assert_eq!(parsed, Err(refusal));
/// ```
pub fn parse_val(
    grammar: &[u32],
    record: &[u8],
    index: usize,
    rows: &mut [u64],
) -> Result<Parsed, Refusal> {
    parsed(ffi::parse_val(grammar, record, index, rows))
}

/// Reads a record that is a value of the grammar's root, and lays it out in rows 0 to `n - 1`, `n`
/// being its row count. The words behind them stay as they were.
///
/// Refused as [`parse_val`] from byte 0 on is, then by 11 at the first byte behind the value when
/// it is not the record's end.
///
/// ```
/// use route_record::calls::demarshall;
/// use route_record::{Parsed, Place, Refusal};
///
/// let uint32 = [1, 1, 0, 0, 0];
/// let mut rows = [99; 6];
/// let parsed = demarshall(&uint32, &[7, 0, 0, 0], &mut rows);
/// assert_eq!(parsed, Ok(Parsed { rows: 1, rest_index: 4 }));
/// assert_eq!(rows, [1, 1, 7, 0, 4, 99]);
///
/// let refusal = Refusal { number: 11, place: Place::Byte(4) };
/// assert_eq!(demarshall(&uint32, &[8, 0, 0, 0, 0], &mut rows), Err(refusal));
/// assert_eq!(rows, [1, 1, 7, 0, 4, 99]);
/// ```
///
/// Every proper front part of a record that is accepted is refused with 9, with the same grammar
/// and as many rows ([cut records](crate#cut-records)):
///
/// ```
/// use route_record::calls::demarshall;
/// use route_record::{Parsed, Refusal};
///
/// let tuple_of_u32_and_bytes = [3, 4, 0, 2, 1, 0, 0, 5, 0, 0, 2, 1, 2];
/// let record = [7, 0, 0, 0, 2, 0, 0, 0, 0, 0, 0, 0, 0x41, 0x42];
/// let mut rows = [99; 15];
/// for k in 0..record.len() {
///     let refusal = demarshall(&tuple_of_u32_and_bytes, &record[..k], &mut rows).unwrap_err();
///     assert_eq!(refusal.number, Refusal::BYTES_MISSING);
///     assert_eq!(rows, [99; 15]);
/// }
/// let parsed = demarshall(&tuple_of_u32_and_bytes, &record, &mut rows);
/// assert_eq!(parsed, Ok(Parsed { rows: 3, rest_index: 14 }));
/// ```
pub fn demarshall(grammar: &[u32], record: &[u8], rows: &mut [u64]) -> Result<Parsed, Refusal> {
    parsed(ffi::demarshall(grammar, record, rows))
}

/// Reads as [`parse_val`] does with 1,024 rows ([`CHECK_ROWS`](crate::CHECK_ROWS)), and keeps none.
/// [`check_val_with`] names another number of rows.
///
/// ```
/// use route_record::calls::check_val;
/// use route_record::{Parsed, Place, Refusal};
///
/// let uint64 = [1, 2, 0, 0, 0];
/// assert_eq!(check_val(&uint64, &[0; 9], 1), Ok(Parsed { rows: 1, rest_index: 9 }));
///
/// let refusal = Refusal { number: 9, place: Place::Byte(2) };
/// assert_eq!(check_val(&uint64, &[0; 9], 2), Err(refusal));
///
/// let array_of_constants = [2, 3, 0, 1, 0, 0, 0, 1, 1];
/// let parsed = check_val(&array_of_constants, &1_023_u64.to_le_bytes(), 0);
/// assert_eq!(parsed, Ok(Parsed { rows: 1_024, rest_index: 8 }));
///
/// let refusal = Refusal { number: 8, place: Place::Byte(0) };
/// assert_eq!(check_val(&array_of_constants, &1_024_u64.to_le_bytes(), 0), Err(refusal));
/// ```
pub fn check_val(grammar: &[u32], record: &[u8], index: usize) -> Result<Parsed, Refusal> {
    parsed(ffi::check_val(grammar, record, index))
}

/// Reads as [`demarshall`] does with 1,024 rows ([`CHECK_ROWS`](crate::CHECK_ROWS)), and keeps
/// none. [`check_whole_with`] names another number of rows.
///
/// ```
/// use route_record::calls::check_whole;
/// use route_record::{Parsed, Place, Refusal};
///
/// let uint64 = [1, 2, 0, 0, 0];
/// assert_eq!(check_whole(&uint64, &[0; 8]), Ok(Parsed { rows: 1, rest_index: 8 }));
///
/// let refusal = Refusal { number: 11, place: Place::Byte(8) };
/// assert_eq!(check_whole(&uint64, &[0; 9]), Err(refusal));
///
/// let array_of_constants = [2, 3, 0, 1, 0, 0, 0, 1, 1];
/// let parsed = check_whole(&array_of_constants, &1_023_u64.to_le_bytes());
/// assert_eq!(parsed, Ok(Parsed { rows: 1_024, rest_index: 8 }));
///
/// let refusal = Refusal { number: 8, place: Place::Byte(0) };
/// assert_eq!(check_whole(&array_of_constants, &1_024_u64.to_le_bytes()), Err(refusal));
/// ```
///
/// Every proper front part of a record that is accepted is refused with 9, with the same grammar;
/// the capacity of both is 1,024 ([cut records](crate#cut-records)):
///
/// ```
/// use route_record::calls::check_whole;
/// use route_record::{Parsed, Refusal};
///
/// let tuple_of_u32_and_bytes = [3, 4, 0, 2, 1, 0, 0, 5, 0, 0, 2, 1, 2];
/// let record = [7, 0, 0, 0, 2, 0, 0, 0, 0, 0, 0, 0, 0x41, 0x42];
/// for k in 0..record.len() {
///     let refusal = check_whole(&tuple_of_u32_and_bytes, &record[..k]).unwrap_err();
///     assert_eq!(refusal.number, Refusal::BYTES_MISSING);
/// }
/// let parsed = check_whole(&tuple_of_u32_and_bytes, &record);
/// assert_eq!(parsed, Ok(Parsed { rows: 3, rest_index: 14 }));
/// ```
pub fn check_whole(grammar: &[u32], record: &[u8]) -> Result<Parsed, Refusal> {
    parsed(ffi::check_whole(grammar, record))
}

/// Reads as [`parse_val`] does with `capacity` rows, and keeps none. A capacity above 4,096
/// ([`MAX_ROWS`](crate::MAX_ROWS)) counts as 4,096. At capacity 0, a reading that none of 1 to 7
/// refuses is refused by 8 at byte `index`.
///
/// ```
/// use route_record::calls::check_val_with;
/// use route_record::{Parsed, Place, Refusal};
///
/// let uint32 = [1, 1, 0, 0, 0];
/// let record = [0xff, 7, 0, 0, 0];
/// let parsed = Parsed { rows: 1, rest_index: 5 };
/// assert_eq!(check_val_with(&uint32, &record, 1, 1), Ok(parsed));
///
/// // With no row left, 8 comes before 9, and behind 7.
/// let refused_by = |number, index| Err(Refusal { number, place: Place::Byte(index) });
/// assert_eq!(check_val_with(&uint32, &record, 1, 0), refused_by(8, 1));
/// assert_eq!(check_val_with(&uint32, &record, 5, 0), refused_by(8, 5));
/// assert_eq!(check_val_with(&uint32, &record, 5, 1), refused_by(9, 5));
/// assert_eq!(check_val_with(&uint32, &record, 6, 0), refused_by(7, 6));
///
/// let array_of_constants = [2, 3, 0, 1, 0, 0, 0, 1, 1];
/// let parsed = Parsed { rows: 4_096, rest_index: 8 };
/// for capacity in [4_096, 4_097, usize::MAX] {
///     let check = |count: u64| {
///         check_val_with(&array_of_constants, &count.to_le_bytes(), 0, capacity)
///     };
///     assert_eq!(check(4_095), Ok(parsed));
///     assert_eq!(check(4_096), refused_by(8, 0));
/// }
/// ```
pub fn check_val_with(
    grammar: &[u32],
    record: &[u8],
    index: usize,
    capacity: usize,
) -> Result<Parsed, Refusal> {
    parsed(ffi::check_val_with(grammar, record, index, capacity))
}

/// Reads as [`demarshall`] does with `capacity` rows, and keeps none. A capacity above 4,096
/// ([`MAX_ROWS`](crate::MAX_ROWS)) counts as 4,096. At capacity 0, a reading that none of 1 to 6
/// refuses is refused by 8 at byte 0.
///
/// ```
/// use route_record::calls::check_whole_with;
/// use route_record::{Parsed, Place, Refusal};
///
/// let array_of_constants = [2, 3, 0, 1, 0, 0, 0, 1, 1];
/// let check = |count: u64, capacity| {
///     check_whole_with(&array_of_constants, &count.to_le_bytes(), capacity)
/// };
/// let rows = |rows| Ok(Parsed { rows, rest_index: 8 });
/// let refusal = Refusal { number: 8, place: Place::Byte(0) };
/// assert_eq!(check(1_024, 1_025), rows(1_025));
/// assert_eq!(check(1_025, 1_025), Err(refusal));
/// for capacity in [4_096, 4_097, usize::MAX] {
///     assert_eq!(check(4_095, capacity), rows(4_096));
///     assert_eq!(check(4_096, capacity), Err(refusal));
/// }
///
/// // 0 is a capacity too: with no row left, 8 comes before 9.
/// assert_eq!(check(0, 1), rows(1));
/// assert_eq!(check(0, 0), Err(refusal));
/// assert_eq!(check_whole_with(&array_of_constants, &[0; 7], 0), Err(refusal));
/// let refusal = Refusal { number: 9, place: Place::Byte(0) };
/// assert_eq!(check_whole_with(&array_of_constants, &[0; 7], 1), Err(refusal));
/// ```
///
/// Every proper front part of a record that is accepted is refused with 9, with the same grammar
/// and capacity ([cut records](crate#cut-records)); with a smaller capacity it may be refused with
/// 8:
///
/// ```
/// use route_record::calls::check_whole_with;
/// use route_record::{Parsed, Refusal};
///
/// let tuple_of_u32_and_bytes = [3, 4, 0, 2, 1, 0, 0, 5, 0, 0, 2, 1, 2];
/// let record = [7, 0, 0, 0, 2, 0, 0, 0, 0, 0, 0, 0, 0x41, 0x42];
/// let parsed = check_whole_with(&tuple_of_u32_and_bytes, &record, 3);
/// assert_eq!(parsed, Ok(Parsed { rows: 3, rest_index: 14 }));
/// let refused_by = |k, capacity| {
///     check_whole_with(&tuple_of_u32_and_bytes, &record[..k], capacity).unwrap_err().number
/// };
/// for k in 0..record.len() {
///     assert_eq!(refused_by(k, 3), Refusal::BYTES_MISSING);
/// }
/// assert_eq!(refused_by(13, 2), 8);
/// ```
pub fn check_whole_with(
    grammar: &[u32],
    record: &[u8],
    capacity: usize,
) -> Result<Parsed, Refusal> {
    parsed(ffi::check_whole_with(grammar, record, capacity))
}

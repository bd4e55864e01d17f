//! A value as XDR, the bytes of RFC 4506: written from rows, and read into rows and a store.
//!
//! The bytes of a constant (void) are none, of a uint32 or int32 (unsigned int, int) 4, of a uint64
//! or int64 (unsigned hyper, hyper) 8, of a tuple (structure) its fields in order, of an array
//! (variable-length array) a 4-byte element count and the elements, of a case (discriminated union)
//! a 4-byte tag and its value; behind the elements of a byte array (variable-length opaque data)
//! stands its padding, 0 to 3 zero bytes up to a multiple of four. Each number is most byte first, a
//! signed one in two's complement. In the store elements are least byte first, as for every call.
//!
//! It is proved (docs/PROMISES.md, request 08), under one grammar: XDR that was exported is imported
//! as an equal value, where the rows lent are enough and so is the store, of at most 1,048,576
//! bytes; and what was imported is exported as the same bytes, where the output is long enough.
//! 4,096 rows and a store as long as the XDR are enough wherever any import is accepted. XDR is never
//! longer than the value's record. So a value that was exported or imported may be too long to be
//! written as a record, and never the other way.
//!
//! An export uses less than 1 MiB of stack, on values as deep as 4,096 rows can be, an import less
//! than 128 KiB, on grammars as deep as 256 nodes can be.

use super::writing::size;
use crate::ffi;
use crate::{Imported, Refusal};

/// Writes the XDR of the value that rows 0 to `n - 1` stand for, a value of the grammar's root, at
/// byte `index` of the output, and gives its size in bytes. Changes the bytes `index` to
/// `index + size - 1` of the output and no other. The output may be longer.
///
/// Refused by 1 to 6 and 12 to 15 as [`marshall_val`](crate::calls::marshall_val) refuses; then by 16
/// at row 0 when the size, that of the XDR, is above 1,048,576; then by 17 at the byte that is the
/// output's length when `index` plus the size is above it, size 0 too. The output is then as it was.
///
/// ```
/// use route_record::calls::export_xdr;
/// use route_record::{Place, Refusal};
///
/// let tuple_of_i32_and_bytes = [3, 4, 0, 2, 9, 0, 0, 5, 0, 0, 2, 1, 2];
/// let rows = [4, 3, 2, 0, 14, 9, 1, 4_294_967_295, 0, 4, 5, 1, 2, 1, 10];
/// let mut out = [0xee; 14];
/// assert_eq!(export_xdr(&tuple_of_i32_and_bytes, &rows, 3, b"ABC", &mut out, 1), Ok(12));
/// let xdr = [0xff, 0xff, 0xff, 0xff, 0, 0, 0, 2, 0x42, 0x43, 0, 0];
/// assert_eq!(out, [&[0xee][..], &xdr, &[0xee]].concat()[..]);
///
/// let refusal = Refusal { number: 17, place: Place::Byte(14) };
/// let size = export_xdr(&tuple_of_i32_and_bytes, &rows, 3, b"ABC", &mut out, 3);
/// assert_eq!(size, Err(refusal));
/// ```
pub fn export_xdr(
    grammar: &[u32],
    rows: &[u64],
    n: usize,
    store: &[u8],
    out: &mut [u8],
    index: usize,
) -> Result<usize, Refusal> {
    size(ffi::export_xdr(grammar, rows, n, store, out, index))
}

/// Reads a whole record of XDR, a value of the grammar's root, lays it out in rows 0 to `n - 1`, `n`
/// being its row count, and puts the elements of its byte arrays and arrays of numbers into the
/// store from byte 0 on, one array behind the other, without padding. The offset of an array is
/// where those before it end, count 0 too. The words behind row `n - 1` and the bytes behind the
/// elements stay as they were. Rows are lent as for [`parse_val`](crate::calls::parse_val). A row's
/// size is that of the record, not of the XDR, so it may be above 1,048,576, at most 1,064,960.
///
/// Refused by 1 to 5 as [`check_grammar`](crate::calls::check_grammar) refuses; then by 6 at byte 0
/// when the record or the store has more than 1,048,576 bytes; then, for each value from the root
/// on, at the byte where the value starts, but for 17, by
/// - 8 when no row is left;
/// - 9 when fewer bytes are left than a number, count or tag has, or when the elements of a kind 5
///   to 7 with their padding are more than the bytes left behind the count;
/// - 8 when the count of a kind 3 is above the rows left after its own;
/// - 10 when a tag is not below the number of cases;
/// - 17 at the byte that is the store's length when the elements of a kind 5 to 7, behind those of
///   the arrays before it, reach past it;
/// - 23 when a byte of the padding of a kind 5 is not zero;
/// - what its children are refused by, in order;
///
/// last by 11 at the byte behind the value when that is not the record's length. Rows and store are
/// then as they were.
///
/// ```
/// use route_record::calls::import_xdr;
/// use route_record::{Imported, Place, Refusal};
///
/// // A tuple of an int32, bytes and an array of uint32.
/// let grammar = [4, 4, 0, 3, 9, 0, 0, 5, 0, 0, 6, 0, 0, 3, 1, 2, 3];
/// let mut xdr = [
///     0xff, 0xff, 0xff, 0xff, 0, 0, 0, 2, 0x41, 0x42, 0, 0, 0, 0, 0, 1, 0x12, 0x34, 0x56, 0x78,
/// ];
/// let (mut rows, mut store) = ([99; 21], [0xee; 8]);
/// let imported = import_xdr(&grammar, &xdr, &mut rows, &mut store);
/// assert_eq!(imported, Ok(Imported { rows: 4, used: 6 }));
/// let of_record = [
///     [4, 4, 3, 0, 26], [9, 1, 4_294_967_295, 0, 4], [5, 1, 2, 0, 10], [6, 1, 1, 2, 12],
/// ];
/// assert_eq!((&rows[..20], rows[20]), (&of_record.concat()[..], 99));
/// assert_eq!(store, [0x41, 0x42, 0x78, 0x56, 0x34, 0x12, 0xee, 0xee]);
///
/// let refusal = Refusal { number: 17, place: Place::Byte(5) };
/// assert_eq!(import_xdr(&grammar, &xdr, &mut rows, &mut store[..5]), Err(refusal));
///
/// xdr[11] = 1;
/// let refusal = Refusal { number: 23, place: Place::Byte(4) };
/// assert_eq!(import_xdr(&grammar, &xdr, &mut rows, &mut store), Err(refusal));
/// ```
pub fn import_xdr(
    grammar: &[u32],
    record: &[u8],
    rows: &mut [u64],
    store: &mut [u8],
) -> Result<Imported, Refusal> {
    let answer = ffi::import_xdr(grammar, record, rows, store).into_result()?;
    let within_usize = |word| usize::try_from(word).expect("the library counts rows and bytes");
    Ok(Imported {
        rows: within_usize(answer.first),
        used: within_usize(answer.second),
    })
}

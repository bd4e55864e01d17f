//! Packed integers: numbers as bytes, least byte first, one by one and in sequence.

use crate::ffi;
use crate::Refusal;

/// The number in the 4 bytes at `index`: the sum of byte i times 256 to the power i.
///
/// Refused by 7 at byte `index` when `index` is above the length, then by 9 at byte `index` when
/// fewer than 4 bytes are left.
///
/// ```
/// use route_record::calls::unpack_u32;
///
/// assert_eq!(unpack_u32(&[0xff, 0x78, 0x56, 0x34, 0x12], 1), Ok(305_419_896));
/// ```
pub fn unpack_u32(packed: &[u8], index: usize) -> Result<u32, Refusal> {
    let answer = ffi::unpack_u32(packed, index).into_result()?;
    Ok(u32::try_from(answer.first).expect("the library unpacks 4 bytes to a number below 2^32"))
}

/// The number in the 8 bytes at `index`: the sum of byte i times 256 to the power i.
///
/// Refused by 7 at byte `index` when `index` is above the length, then by 9 at byte `index` when
/// fewer than 8 bytes are left.
///
/// ```
/// use route_record::calls::unpack_u64;
///
/// assert_eq!(unpack_u64(&[0, 0, 0, 0, 0, 0, 0, 0x80], 0), Ok(1 << 63));
/// ```
pub fn unpack_u64(packed: &[u8], index: usize) -> Result<u64, Refusal> {
    let answer = ffi::unpack_u64(packed, index).into_result()?;
    Ok(answer.first)
}

/// Writes the 4 bytes of `n` at `index`, least byte first, and changes no other byte.
///
/// Refused by 17 at the byte that is `out`'s length when `index` plus 4 is above it; `out` is then
/// as it was.
///
/// ```
/// use route_record::calls::pack_u32;
///
/// let mut out = [0xff; 5];
/// assert_eq!(pack_u32(305_419_896, &mut out, 1), Ok(()));
/// assert_eq!(out, [0xff, 0x78, 0x56, 0x34, 0x12]);
/// ```
pub fn pack_u32(n: u32, out: &mut [u8], index: usize) -> Result<(), Refusal> {
    ffi::pack_u32(n, out, index).into_result().map(drop)
}

/// Writes the 8 bytes of `n` at `index`, least byte first, and changes no other byte.
///
/// Refused by 17 at the byte that is `out`'s length when `index` plus 8 is above it; `out` is then
/// as it was.
///
/// ```
/// use route_record::calls::pack_u64;
///
/// let mut out = [0xff; 8];
/// assert_eq!(pack_u64(7, &mut out, 0), Ok(()));
/// assert_eq!(out, [7, 0, 0, 0, 0, 0, 0, 0]);
/// ```
pub fn pack_u64(n: u64, out: &mut [u8], index: usize) -> Result<(), Refusal> {
    ffi::pack_u64(n, out, index).into_result().map(drop)
}

/// Fills `numbers` from the bytes at `index`, 4 bytes a number, one behind the other.
///
/// Refused by 7 at byte `index` when `index` is above the length, then by 9 at byte `index` when
/// fewer bytes than 4 times the count are left; `numbers` is then as it was.
///
/// ```
/// use route_record::calls::unpack_u32_seq;
///
/// let mut numbers = [0; 2];
/// assert_eq!(unpack_u32_seq(&[7, 0, 0, 0, 8, 0, 0, 0, 9], 0, &mut numbers), Ok(()));
/// assert_eq!(numbers, [7, 8]);
/// ```
pub fn unpack_u32_seq(packed: &[u8], index: usize, numbers: &mut [u32]) -> Result<(), Refusal> {
    ffi::unpack_u32_seq(packed, index, numbers)
        .into_result()
        .map(drop)
}

/// Fills `numbers` from the bytes at `index`, 8 bytes a number, one behind the other.
///
/// Refused by 7 at byte `index` when `index` is above the length, then by 9 at byte `index` when
/// fewer bytes than 8 times the count are left; `numbers` is then as it was.
///
/// ```
/// use route_record::calls::unpack_u64_seq;
///
/// let mut numbers = [0; 1];
/// assert_eq!(unpack_u64_seq(&[7, 0, 0, 0, 0, 0, 0, 1], 0, &mut numbers), Ok(()));
/// assert_eq!(numbers, [(1 << 56) + 7]);
/// ```
pub fn unpack_u64_seq(packed: &[u8], index: usize, numbers: &mut [u64]) -> Result<(), Refusal> {
    ffi::unpack_u64_seq(packed, index, numbers)
        .into_result()
        .map(drop)
}

/// Writes the numbers at `index`, 4 bytes each, one behind the other, and changes no other byte.
///
/// Refused by 17 at the byte that is `out`'s length when `index` plus 4 times the count is above
/// it; `out` is then as it was.
///
/// ```
/// use route_record::calls::pack_u32_seq;
///
/// let mut out = [0xff; 9];
/// assert_eq!(pack_u32_seq(&[7, 8], &mut out, 0), Ok(()));
/// assert_eq!(out, [7, 0, 0, 0, 8, 0, 0, 0, 0xff]);
/// ```
pub fn pack_u32_seq(numbers: &[u32], out: &mut [u8], index: usize) -> Result<(), Refusal> {
    ffi::pack_u32_seq(numbers, out, index)
        .into_result()
        .map(drop)
}

/// Writes the numbers at `index`, 8 bytes each, one behind the other, and changes no other byte.
///
/// Refused by 17 at the byte that is `out`'s length when `index` plus 8 times the count is above
/// it; `out` is then as it was.
///
/// ```
/// use route_record::calls::pack_u64_seq;
///
/// let mut out = [0xff; 8];
/// assert_eq!(pack_u64_seq(&[7], &mut out, 0), Ok(()));
/// assert_eq!(out, [7, 0, 0, 0, 0, 0, 0, 0]);
/// ```
pub fn pack_u64_seq(numbers: &[u64], out: &mut [u8], index: usize) -> Result<(), Refusal> {
    ffi::pack_u64_seq(numbers, out, index)
        .into_result()
        .map(drop)
}

//! Packed integers after PackedInts.s.dfy, for any width of 1 to 8 bytes. Sizes are computed in
//! u128, where no sum and no product of lengths wraps.

use crate::refusal::{at_byte, Refusal};

/// `unpack_LittleEndian_Uint32` over 4 bytes, `unpack_LittleEndian_Uint64` over 8.
pub(crate) fn sum(bytes: &[u8]) -> u64 {
    let terms = bytes
        .iter()
        .zip(0..)
        .map(|(&byte, i)| u128::from(byte) * 256u128.pow(i));
    u64::try_from(terms.sum::<u128>()).expect("a width of at most 8 bytes")
}

/// The only `width` bytes with this sum: the digits of `number` to the base 256.
pub(crate) fn digits(number: u64, width: usize) -> Vec<u8> {
    let mut rest = number;
    let mut digits = Vec::new();
    for _ in 0..width {
        digits.push((rest % 256) as u8);
        rest /= 256;
    }
    assert_eq!(rest, 0, "{number} has more than {width} bytes");
    digits
}

/// The place behind `count` numbers of `width` bytes that start at `index`.
fn end(index: usize, count: usize, width: usize) -> u128 {
    index as u128 + count as u128 * width as u128
}

/// The numbers in `count` times `width` bytes at `index`, one behind the other.
pub fn unpack_seq(
    width: usize,
    packed: &[u8],
    index: usize,
    count: usize,
) -> Result<Vec<u64>, Refusal> {
    if index > packed.len() {
        return Err(at_byte(7, index));
    }
    if end(index, count, width) > packed.len() as u128 {
        return Err(at_byte(9, index));
    }
    let run = &packed[index..index + count * width];
    Ok(run.chunks(width).map(sum).collect())
}

/// The number in the `width` bytes at `index`.
pub fn unpack(width: usize, packed: &[u8], index: usize) -> Result<u64, Refusal> {
    unpack_seq(width, packed, index, 1).map(|numbers| numbers[0])
}

/// What `out` holds once the bytes are written at `index`.
pub(crate) fn write(bytes: &[u8], out: &[u8], index: usize) -> Result<Vec<u8>, Refusal> {
    if end(index, bytes.len(), 1) > out.len() as u128 {
        return Err(at_byte(17, out.len()));
    }
    let (before, after) = (&out[..index], &out[index + bytes.len()..]);
    Ok([before, bytes, after].concat())
}

/// What `out` holds once the numbers are written at `index`, `width` bytes each.
pub fn pack_seq(
    width: usize,
    numbers: &[u64],
    out: &[u8],
    index: usize,
) -> Result<Vec<u8>, Refusal> {
    let run: Vec<u8> = numbers.iter().flat_map(|&n| digits(n, width)).collect();
    write(&run, out, index)
}

/// What `out` holds once the number is written at `index` in `width` bytes.
pub fn pack(width: usize, number: u64, out: &[u8], index: usize) -> Result<Vec<u8>, Refusal> {
    pack_seq(width, &[number], out, index)
}

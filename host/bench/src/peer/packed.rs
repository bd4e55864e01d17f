//! Packed integers in sequence, least byte first: refusals 7, 9 and 17.

use super::Refusal;

/// Unpacks the numbers that lie one behind the other from `index` on, as many as are lent.
pub fn unpack_u32_seq(packed: &[u8], index: usize, numbers: &mut [u32]) -> Result<(), Refusal> {
    let left = packed.get(index..).ok_or(Refusal::at_byte(7, index))?;
    let (left, _) = left.as_chunks();
    let missing = Refusal::at_byte(9, index);
    let run = left.get(..numbers.len()).ok_or(missing)?;
    for (number, &bytes) in numbers.iter_mut().zip(run) {
        *number = u32::from_le_bytes(bytes);
    }
    Ok(())
}

/// Packs the numbers one behind the other from `index` on.
pub fn pack_u32_seq(numbers: &[u32], out: &mut [u8], index: usize) -> Result<(), Refusal> {
    let no_room = Refusal::at_byte(17, out.len());
    let left = out.get_mut(index..).ok_or(no_room)?;
    let (left, _) = left.as_chunks_mut();
    let run = left.get_mut(..numbers.len()).ok_or(no_room)?;
    for (bytes, number) in run.iter_mut().zip(numbers) {
        *bytes = number.to_le_bytes();
    }
    Ok(())
}

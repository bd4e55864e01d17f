//! What export and import of XDR share: the padding, and elements in the other byte order.

/// The bytes of an array's elements, and how many bytes of padding follow them.
pub struct Padded {
    pub size: usize,
    pub padding: usize,
}

impl Padded {
    /// Elements of so many bytes.
    pub fn of(size: usize) -> Padded {
        Padded {
            size,
            padding: size.wrapping_neg() % 4,
        }
    }
}

/// Copies elements of this many bytes, the bytes of each turned round.
pub fn put_elements(width: usize, elements: &[u8], out: &mut [u8]) {
    match width {
        4 => put_reversed::<4>(elements, out),
        8 => put_reversed::<8>(elements, out),
        _ => out.copy_from_slice(elements),
    }
}

fn put_reversed<const WIDTH: usize>(elements: &[u8], out: &mut [u8]) {
    let (elements, _) = elements.as_chunks::<WIDTH>();
    let (out, _) = out.as_chunks_mut::<WIDTH>();
    for (number, &bytes) in out.iter_mut().zip(elements) {
        *number = bytes;
        number.reverse();
    }
}

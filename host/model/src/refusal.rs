//! What a refusal says.

/// A place: a word of the grammar or of the grammar list, a byte or a row.
#[derive(Clone, Copy, Debug, PartialEq, Eq)]
#[allow(missing_docs)]
pub enum Place {
    Word(u64),
    Byte(u64),
    Row(u64),
}

/// A refusal: its number in the table of refusals, and its place.
#[derive(Clone, Copy, Debug, PartialEq, Eq)]
#[allow(missing_docs)]
pub struct Refusal {
    pub number: u64,
    pub place: Place,
}

/// The refusal of this number at a word of the grammar or of the grammar list.
pub(crate) fn at_word(number: u64, word: usize) -> Refusal {
    Refusal {
        number,
        place: Place::Word(word as u64),
    }
}

/// The refusal of this number at a byte.
pub(crate) fn at_byte(number: u64, byte: usize) -> Refusal {
    Refusal {
        number,
        place: Place::Byte(byte as u64),
    }
}

/// The refusal of this number at a row.
pub(crate) fn at_row(number: u64, row: usize) -> Refusal {
    Refusal {
        number,
        place: Place::Row(row as u64),
    }
}

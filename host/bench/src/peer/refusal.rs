//! Refusals: document 01's numbers, each with its place.

/// A word of the grammar or of the list, a byte or a row.
#[derive(Clone, Copy, Debug, PartialEq, Eq)]
pub enum Place {
    /// A word of the grammar table; where a grammar is chosen, of the grammar list.
    Word(usize),
    /// A byte of the record, of the store or of the output.
    Byte(usize),
    /// A row of the value.
    Row(usize),
}

/// Why a call was refused.
#[derive(Clone, Copy, Debug, PartialEq, Eq)]
pub struct Refusal {
    /// The number in document 01's table.
    pub number: u8,
    /// Where it was found.
    pub place: Place,
}

impl Refusal {
    /// A refusal at a word of the grammar or of the list.
    pub(super) fn at_word(number: u8, word: usize) -> Refusal {
        Refusal {
            number,
            place: Place::Word(word),
        }
    }

    /// The refusal of a grammar that starts at word `start` of a list, with its place in the list.
    pub(super) fn words_on(mut self, start: usize) -> Refusal {
        if let Place::Word(word) = &mut self.place {
            *word += start;
        }
        self
    }

    /// A refusal at a byte.
    pub(super) fn at_byte(number: u8, byte: usize) -> Refusal {
        Refusal {
            number,
            place: Place::Byte(byte),
        }
    }

    /// A refusal at a row.
    pub(super) fn at_row(number: u8, row: usize) -> Refusal {
        Refusal {
            number,
            place: Place::Row(row),
        }
    }
}

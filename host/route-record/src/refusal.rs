//! Refusals, their meanings, and how they are read off an answer of the library.

use std::error::Error;
use std::fmt;

use crate::ffi::Answer;

/// Where a refusal was found: a word of the grammar or of the list, a byte or a row.
#[derive(Clone, Copy, Debug, PartialEq, Eq, Hash)]
pub enum Place {
    /// A word of the grammar table; where a grammar is chosen, of the grammar list.
    Word(u64),
    /// A byte of the record, of the store, of packed numbers or of the output.
    Byte(u64),
    /// A row of the value.
    Row(u64),
}

/// Why a call was refused: the refusal's number and its place.
#[derive(Clone, Copy, Debug, PartialEq, Eq, Hash)]
pub struct Refusal {
    /// The number of the refusal, one of the constants below.
    pub number: u64,
    /// Where it was found.
    pub place: Place,
}

/// Why the question whether two records are of the same route was refused, with the record of the refusal.
#[derive(Clone, Copy, Debug, PartialEq, Eq, Hash)]
pub enum SameRouteRefusal {
    /// The grammar's refusal, which is of neither record.
    Grammar(Refusal),
    /// The first record's refusal.
    First(Refusal),
    /// The second record's refusal. The first record is accepted.
    Second(Refusal),
}

/// Makes the named numbers and the table of the refusals, a line to each: number, name in the
/// library's source, meaning. "There" is the refusal's place.
macro_rules! refusals {
    ($($number:literal $name:ident $meaning:literal)*) => {
        /// The numbers of the refusals.
        impl Refusal {
            $(#[doc = concat!("Number ", $number, ": ", $meaning, ".")]
            pub const $name: u64 = $number;)*
        }

        /// The refusals: the number, the constant's name and the meaning of each, number 1 first.
        pub static REFUSALS: &[(u64, &str, &str)] = &[
            $(($number, stringify!($name), $meaning)),*
        ];
    };
}

refusals! {
    1 NODE_COUNT "the table is empty, or its node count is not 1 to 256"
    2 GRAMMAR_LENGTH "the count of child words is missing or above 1,024, or the table's length does not fit it"
    3 NODE_KIND "the node's kind is above 10"
    4 NODE_CHILDREN "the node's first or count breaks the rule of its kind, or reaches past the child words"
    5 CHILD_NUMBER "the child's number is not above its node's, or there is no such node"
    6 BYTES_TOO_LONG "the record or store is longer than 1,048,576 bytes"
    7 INDEX_PAST_END "the index is above the length"
    8 ROWS_EXHAUSTED "no row is left for the value that starts there, or too few for the elements that it counts"
    9 BYTES_MISSING "the value that starts there is cut short"
    10 TAG_UNKNOWN "no case has the tag of the value that starts there"
    11 BYTES_LEFT_OVER "the value ends there, and bytes follow it"
    12 ROW_COUNT "the row count is 0, above 4,096 or above the rows given"
    13 ROW_MALFORMED "the row breaks the layout of a value"
    14 ARRAY_OUTSIDE_STORE "the row's array lies or reaches past the end of the store"
    15 NOT_IN_GRAMMAR "the row's kind, field count or tag does not fit its node of the grammar"
    16 SIZE_TOO_LARGE "the value's record or XDR is longer than 1,048,576 bytes"
    17 OUTPUT_TOO_SHORT "the output or store ends there, before what is to be written does"
    18 NOT_AN_ARRAY "there is no such row, or its kind is not 5, 6 or 7"
    19 INPUT_LAYOUT "the input is not a grammar and a record as the program wants them"
    20 NOT_SIGNED "there is no such row, or its kind is not 9 or 10"
    21 LIST_LAYOUT "the list is empty, its count of grammars is not 1 to 16, or its length does not fit its word counts"
    22 NO_GRAMMAR_ACCEPTS "no grammar of the list accepts the record whole"
    23 PADDING_NOT_ZERO "the padding of the byte array that starts there is not zero"
}

impl fmt::Display for Place {
    fn fmt(&self, f: &mut fmt::Formatter) -> fmt::Result {
        match self {
            Place::Word(word) => write!(f, "word {word}"),
            Place::Byte(byte) => write!(f, "byte {byte}"),
            Place::Row(row) => write!(f, "row {row}"),
        }
    }
}

impl Refusal {
    /// What the refusal means, without its number and place.
    ///
    /// ```
    /// use route_record::{Place, Refusal};
    ///
    /// let refusal = Refusal { number: Refusal::BYTES_MISSING, place: Place::Byte(4) };
    /// assert_eq!(refusal.meaning(), "the value that starts there is cut short");
    /// ```
    pub fn meaning(&self) -> &'static str {
        let of_number = REFUSALS.iter().find(|(number, ..)| *number == self.number);
        of_number.map_or("no refusal has this number", |(_, _, meaning)| meaning)
    }
}

/// Number, place and meaning.
///
/// ```
/// use route_record::{Place, Refusal};
///
/// let refusal = Refusal { number: 9, place: Place::Byte(4) };
/// let words = "refused 9 at byte 4: the value that starts there is cut short";
/// assert_eq!(refusal.to_string(), words);
/// ```
impl fmt::Display for Refusal {
    fn fmt(&self, f: &mut fmt::Formatter) -> fmt::Result {
        let (number, place, meaning) = (self.number, self.place, self.meaning());
        write!(f, "refused {number} at {place}: {meaning}")
    }
}

impl Error for Refusal {}

impl SameRouteRefusal {
    /// The refusal, without whose it is.
    pub fn refusal(&self) -> Refusal {
        *self.inner()
    }

    fn inner(&self) -> &Refusal {
        let (SameRouteRefusal::Grammar(refusal)
        | SameRouteRefusal::First(refusal)
        | SameRouteRefusal::Second(refusal)) = self;
        refusal
    }
}

impl fmt::Display for SameRouteRefusal {
    fn fmt(&self, f: &mut fmt::Formatter) -> fmt::Result {
        match self {
            SameRouteRefusal::Grammar(refusal) => write!(f, "the grammar: {refusal}"),
            SameRouteRefusal::First(refusal) => write!(f, "the first record: {refusal}"),
            SameRouteRefusal::Second(refusal) => write!(f, "the second record: {refusal}"),
        }
    }
}

impl Error for SameRouteRefusal {
    fn source(&self) -> Option<&(dyn Error + 'static)> {
        Some(self.inner())
    }
}

impl Answer {
    /// The answer itself if the call was accepted, else its refusal.
    pub(crate) fn into_result(self) -> Result<Answer, Refusal> {
        let place = match (self.number, self.place_kind) {
            (0, _) => return Ok(self),
            (_, 1) => Place::Word(self.place),
            (_, 2) => Place::Byte(self.place),
            (_, 3) => Place::Row(self.place),
            (number, kind) => panic!("the library gave refusal {number} a place of kind {kind}"),
        };
        Err(Refusal {
            number: self.number,
            place,
        })
    }
}

#[cfg(test)]
mod tests {
    use std::panic::catch_unwind;

    use super::*;

    fn answer(number: u64, place_kind: u64) -> Answer {
        Answer {
            number,
            place_kind,
            place: 5,
            first: 6,
            second: 7,
        }
    }

    #[test]
    fn number_0_is_accepted_and_each_place_kind_has_its_place() {
        let accepted = answer(0, 0).into_result().unwrap();
        assert_eq!((accepted.first, accepted.second), (6, 7));
        for (kind, place) in [(1, Place::Word(5)), (2, Place::Byte(5)), (3, Place::Row(5))] {
            let refusal = answer(9, kind).into_result().unwrap_err();
            assert_eq!(refusal, Refusal { number: 9, place });
        }
    }

    #[test]
    fn a_refusal_without_a_place_of_known_kind_is_a_fault() {
        for kind in [0, 4, u64::MAX] {
            assert!(catch_unwind(|| answer(9, kind).into_result()).is_err());
        }
    }
}

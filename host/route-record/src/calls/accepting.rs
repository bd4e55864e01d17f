//! Whether a record is accepted whole.
//!
//! A call uses less than 64 KiB of stack, on grammars as deep as 256 nodes can be.

use crate::ffi::{self, Answer};
use crate::{Refusal, Verdict};

/// Yes or no, and the values begun.
fn verdict(answer: Answer) -> Result<Verdict, Refusal> {
    let answer = answer.into_result()?;
    Ok(Verdict {
        accepted: match answer.first {
            0 => false,
            1 => true,
            first => panic!("the library gave {first} for yes or no"),
        },
        begun: usize::try_from(answer.second).expect("the library counts values"),
    })
}

/// Whether the record is accepted whole, as [`check_whole_with`](crate::calls::check_whole_with)
/// does with 4,096 rows. A record that is too short for every value of the grammar is not read.
///
/// The least length of a node is that of its shortest values: of a constant 0, of a uint32 or int32
/// 4, of a uint64 or int64 8, of an array of any kind 8, a count and no element, of a tuple the sum
/// over its fields, of a union 8 plus the least over its cases. A union has none where no case has
/// one, and a tuple where a field has none: there is no value then. A sum above 1,048,577 counts as
/// 1,048,577.
///
/// The answer is no, without a reading and with 0 values begun, when the record has more than
/// 1,048,576 bytes, when the grammar's root has no least length, or when the record is shorter than
/// that. Else the record is read with 4,096 rows; it is yes where the reading accepts and no where it
/// refuses by 8, 9, 10 or 11, with the values begun where it ended, 1 to 4,097. A value is begun each
/// time a row is asked for, also where none is left. It is proved (docs/PROMISES.md, request 09) that
/// under a sound grammar yes comes exactly when `check_whole_with` with 4,096 rows accepts, and 0
/// values begun exactly when there was no reading.
///
/// Refused only by 1 to 5 as [`check_grammar`](crate::calls::check_grammar) refuses, whatever the
/// record is.
///
/// ```
/// use route_record::calls::accepts;
/// use route_record::{Place, Refusal, Verdict};
///
/// let tuple_of_u32_and_bytes = [3, 4, 0, 2, 1, 0, 0, 5, 0, 0, 2, 1, 2];
/// let record = [7, 0, 0, 0, 2, 0, 0, 0, 0, 0, 0, 0, 0x41, 0x42];
/// let yes = Verdict { accepted: true, begun: 3 };
/// assert_eq!(accepts(&tuple_of_u32_and_bytes, &record), Ok(yes));
///
/// // The least length is 12: a uint32 and a count.
/// let no = |begun| Verdict { accepted: false, begun };
/// assert_eq!(accepts(&tuple_of_u32_and_bytes, &record[..12]), Ok(no(3)));
/// assert_eq!(accepts(&tuple_of_u32_and_bytes, &record[..11]), Ok(no(0)));
///
/// // A union without cases has no value.
/// assert_eq!(accepts(&[1, 8, 0, 0, 0], &[0; 8]), Ok(no(0)));
///
/// let refusal = Refusal { number: 1, place: Place::Word(0) };
/// assert_eq!(accepts(&[], &record), Err(refusal));
/// ```
pub fn accepts(grammar: &[u32], record: &[u8]) -> Result<Verdict, Refusal> {
    verdict(ffi::accepts(grammar, record))
}

#[cfg(test)]
mod tests {
    use std::panic::catch_unwind;

    use super::*;
    use crate::Place;

    fn answer(number: u64, first: u64, second: u64) -> Answer {
        Answer {
            number,
            place_kind: u64::from(number != 0),
            place: 4 * number,
            first,
            second,
        }
    }

    #[test]
    fn yes_and_no_have_their_number() {
        let accepted = |accepted, begun| Ok(Verdict { accepted, begun });
        assert_eq!(verdict(answer(0, 0, 0)), accepted(false, 0));
        assert_eq!(verdict(answer(0, 0, 1)), accepted(false, 1));
        assert_eq!(verdict(answer(0, 1, 1)), accepted(true, 1));
        let refusal = Refusal {
            number: 2,
            place: Place::Word(8),
        };
        assert_eq!(verdict(answer(2, 0, 0)), Err(refusal));
    }

    #[test]
    fn another_number_for_yes_or_no_is_a_fault() {
        assert!(catch_unwind(|| verdict(answer(0, 2, 1))).is_err());
    }
}

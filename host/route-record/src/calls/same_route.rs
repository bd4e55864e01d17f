//! Whether two records are of the same route.
//!
//! A call uses less than 64 KiB of stack, on grammars as deep as 256 nodes can be.

use crate::ffi::{self, Answer};
use crate::SameRouteRefusal;

/// Yes or no, or the refusal with its record, whose number is 1, 2 or, for neither, 0.
fn is_same(answer: Answer) -> Result<bool, SameRouteRefusal> {
    let record = answer.second;
    match (answer.into_result(), record) {
        (Ok(Answer { first: 0, .. }), _) => Ok(false),
        (Ok(Answer { first: 1, .. }), _) => Ok(true),
        (Ok(Answer { first, .. }), _) => panic!("the library gave {first} for yes or no"),
        (Err(refusal), 0) => Err(SameRouteRefusal::Grammar(refusal)),
        (Err(refusal), 1) => Err(SameRouteRefusal::First(refusal)),
        (Err(refusal), 2) => Err(SameRouteRefusal::Second(refusal)),
        (Err(_), _) => panic!("the library named record {record}"),
    }
}

/// Whether two records, each read whole as a value of the grammar's root, are of the same route:
/// whether they are equal in what counts.
///
/// If the root is a tuple with at least one field, all fields but the first count. The first, on
/// the bench the serial number of the box, is left out whatever its kind and size. Of any other root
/// the whole value counts. Yes does not say that the records have equal bytes or equal lengths.
///
/// Refused by 1 to 5 as [`check_grammar`](crate::calls::check_grammar) refuses, and then neither record is
/// named; then by 6 and 8 to 11 as [`check_whole_with`](crate::calls::check_whole_with) with 4,096
/// rows refuses the first record; then by 6 and 8 to 11 as it refuses the second.
///
/// ```
/// use route_record::calls::same_route;
/// use route_record::{Place, Refusal, SameRouteRefusal};
///
/// // A tuple of a uint32, the serial number, and a uint32.
/// let route = [2, 4, 0, 2, 1, 0, 0, 2, 1, 1];
/// let record = [7, 0, 0, 0, 5, 0, 0, 0];
/// assert_eq!(same_route(&route, &record, &[8, 0, 0, 0, 5, 0, 0, 0]), Ok(true));
/// assert_eq!(same_route(&route, &record, &[7, 0, 0, 0, 6, 0, 0, 0]), Ok(false));
///
/// let bytes = [1, 5, 0, 0, 0];
/// let one = [1, 0, 0, 0, 0, 0, 0, 0, 0x41];
/// let two = [2, 0, 0, 0, 0, 0, 0, 0, 0x41, 0x42];
/// assert_eq!(same_route(&bytes, &one, &one), Ok(true));
/// assert_eq!(same_route(&bytes, &one, &two), Ok(false));
///
/// let refusal = Refusal { number: 9, place: Place::Byte(0) };
/// let answer = same_route(&bytes, &one, &two[..9]);
/// assert_eq!(answer, Err(SameRouteRefusal::Second(refusal)));
/// let answer = same_route(&bytes, &two[..9], &two[..9]);
/// assert_eq!(answer, Err(SameRouteRefusal::First(refusal)));
///
/// let refusal = Refusal { number: 2, place: Place::Word(4) };
/// let answer = same_route(&bytes[..4], &one, &one);
/// assert_eq!(answer, Err(SameRouteRefusal::Grammar(refusal)));
/// ```
pub fn same_route(grammar: &[u32], first: &[u8], second: &[u8]) -> Result<bool, SameRouteRefusal> {
    is_same(ffi::same_route(grammar, first, second))
}

#[cfg(test)]
mod tests {
    use std::panic::catch_unwind;

    use super::*;
    use crate::{Place, Refusal};

    fn answer(number: u64, first: u64, second: u64) -> Answer {
        Answer {
            number,
            place_kind: 2,
            place: 4,
            first,
            second,
        }
    }

    #[test]
    fn yes_and_no_and_each_record_have_their_number() {
        assert_eq!(is_same(answer(0, 0, 0)), Ok(false));
        assert_eq!(is_same(answer(0, 1, 0)), Ok(true));
        let refusal = Refusal {
            number: 9,
            place: Place::Byte(4),
        };
        let of_record = |record| is_same(answer(9, 0, record)).unwrap_err();
        assert_eq!(of_record(0), SameRouteRefusal::Grammar(refusal));
        assert_eq!(of_record(1), SameRouteRefusal::First(refusal));
        assert_eq!(of_record(2), SameRouteRefusal::Second(refusal));
    }

    #[test]
    fn another_number_for_yes_or_no_or_a_record_is_a_fault() {
        assert!(catch_unwind(|| is_same(answer(0, 2, 0))).is_err());
        assert!(catch_unwind(|| is_same(answer(9, 0, 3))).is_err());
    }
}

//! Which grammar of a list accepts a record.
//!
//! Word 0 of a list is its count of grammars; then each grammar follows its word count, and the list
//! ends. Sums of counts are exact: none wraps.
//!
//! A call uses less than 64 KiB of stack, on grammars as deep as 256 nodes can be.

use crate::ffi;
use crate::{Chosen, Refusal};

/// The first grammar of the list that accepts the record whole, as
/// [`check_whole_with`](crate::calls::check_whole_with) does with 4,096 rows, and the values begun
/// by the tries.
///
/// The grammars are tried in order, with 4,096 rows each, up to the first that accepts. A value is
/// begun each time a row is asked for, also where none is left. The count is that of all tries, the
/// refused ones too, and at most 65,552. A refusal has no count.
///
/// Refused by 21 at word 0 when there is no word, the count of grammars is 0 or above 16, a word
/// count or a word of a grammar is missing, or words are left over; then, for each grammar in order,
/// by 1 to 5 as [`check_grammar`](crate::calls::check_grammar) refuses it, also behind one that would
/// accept, at a word of the list: the word in the grammar plus the number of words before the
/// grammar, which for a grammar without words may be the list's length; then by 6 at byte 0 when the
/// record has more than 1,048,576 bytes; then by 22 at byte 0 when no grammar accepts it.
///
/// ```
/// use route_record::calls::choose_grammar;
/// use route_record::{Chosen, Place, Refusal};
///
/// // A uint64, a uint32 and a constant: three grammars of five words each.
/// let list = [3, 5, 1, 2, 0, 0, 0, 5, 1, 1, 0, 0, 0, 5, 1, 0, 0, 0, 0];
/// assert_eq!(choose_grammar(&list, &[0; 8]), Ok(Chosen { number: 0, begun: 1 }));
/// assert_eq!(choose_grammar(&list, &[0; 4]), Ok(Chosen { number: 1, begun: 2 }));
/// assert_eq!(choose_grammar(&list, &[]), Ok(Chosen { number: 2, begun: 3 }));
///
/// let refusal = Refusal { number: 22, place: Place::Byte(0) };
/// assert_eq!(choose_grammar(&list, &[0]), Err(refusal));
///
/// let refusal = Refusal { number: 21, place: Place::Word(0) };
/// assert_eq!(choose_grammar(&list[..18], &[]), Err(refusal));
///
/// // A constant, and a tuple that is its own child: word 5 of the second grammar, which starts at
/// // word 8.
/// let its_own_child = [2, 5, 1, 0, 0, 0, 0, 6, 1, 4, 0, 1, 1, 0];
/// let refusal = Refusal { number: 5, place: Place::Word(13) };
/// assert_eq!(choose_grammar(&its_own_child, &[]), Err(refusal));
/// ```
pub fn choose_grammar(list: &[u32], record: &[u8]) -> Result<Chosen, Refusal> {
    let answer = ffi::choose_grammar(list, record).into_result()?;
    let within_usize =
        |word| usize::try_from(word).expect("the library counts grammars and values");
    Ok(Chosen {
        number: within_usize(answer.first),
        begun: within_usize(answer.second),
    })
}

//! Grammar tables: their check.

use crate::ffi;
use crate::Refusal;

/// Accepts the words that are a sound grammar table.
///
/// Word 0 is N, the node count; node k is the words kind, first and count from word 1 + 3k; word
/// 1 + 3N is M, and M child words follow. The children of a node are the child words `first` to
/// `first + count - 1`, each a node's number. Child words of no node are not looked at.
///
/// Refused by 1 at word 0 when there is no word, or N is 0 or above 256; then by 2 at word 1 + 3N
/// when M's word is missing, M is above 1,024 or the length is not 2 + 3N + M; then, for each node
/// k in order, by
/// - 3 at word 1 + 3k when its kind is above 10;
/// - 4 at word 2 + 3k when its kind is 3 and its count not 1, or its kind is 0 to 2, 5 to 7, 9 or
///   10 and its first or count not 0, or first plus count is above M;
/// - 5 at the word of its first child whose number is not above k or not below N.
///
/// ```
/// use route_record::calls::check_grammar;
/// use route_record::{Place, Refusal};
///
/// let tuple_of_u32_and_bytes = [3, 4, 0, 2, 1, 0, 0, 5, 0, 0, 2, 1, 2];
/// assert_eq!(check_grammar(&tuple_of_u32_and_bytes), Ok(()));
///
/// let its_own_child = [1, 4, 0, 1, 1, 0];
/// let refusal = Refusal { number: 5, place: Place::Word(5) };
/// assert_eq!(check_grammar(&its_own_child), Err(refusal));
/// ```
pub fn check_grammar(words: &[u32]) -> Result<(), Refusal> {
    ffi::check_grammar(words).into_result().map(drop)
}

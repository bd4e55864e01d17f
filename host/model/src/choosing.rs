//! Which grammar of a list is the first that accepts a record. The number of a word and a word
//! count are added in usize, of 64 bits, where the sum never wraps.

use crate::grammar::check_grammar;
use crate::reading::try_whole;
use crate::refusal::{at_byte, at_word, Place, Refusal};
use crate::rows::check_length;

/// The most grammars a list has.
const MOST_GRAMMARS: u32 = 16;

/// An accepted choice.
#[derive(Clone, Copy, Debug, PartialEq, Eq)]
pub struct Chosen {
    /// The number of the grammar, counted from 0.
    pub number: usize,
    /// The values begun over all tries, up to that of this grammar.
    pub begun: usize,
}

/// The grammars of a list, each with the number of its first word in the list. There are none where
/// the list's count is not 1 to 16, a word is missing or words are left over.
fn grammars(list: &[u32]) -> Option<Vec<(usize, &[u32])>> {
    let count = *list.first()?;
    if count == 0 || count > MOST_GRAMMARS {
        return None;
    }
    let mut grammars = Vec::new();
    let mut end = 1;
    for _ in 0..count {
        let length = *list.get(end)? as usize;
        let first = end + 1;
        end = first + length;
        grammars.push((first, list.get(first..end)?));
    }
    (end == list.len()).then_some(grammars)
}

/// The refusal of a grammar with its place counted in the list, where the grammar starts at word
/// `first`.
fn in_list(refusal: Refusal, first: usize) -> Refusal {
    let Place::Word(word) = refusal.place else {
        unreachable!("a grammar is refused at a word");
    };
    at_word(refusal.number, first + word as usize)
}

/// The number of the first grammar of the list that accepts the record whole, in at most 4,096
/// rows, and the values begun up to there.
pub fn choose_grammar(list: &[u32], record: &[u8]) -> Result<Chosen, Refusal> {
    let grammars = grammars(list).ok_or(at_word(21, 0))?;
    for &(first, grammar) in &grammars {
        check_grammar(grammar).map_err(|refusal| in_list(refusal, first))?;
    }
    check_length(record)?;
    let mut begun = 0;
    for (number, (_, grammar)) in grammars.into_iter().enumerate() {
        let (is_accepted, in_try) = try_whole(grammar, record);
        begun += in_try;
        if is_accepted {
            return Ok(Chosen { number, begun });
        }
    }
    Err(at_byte(22, 0))
}

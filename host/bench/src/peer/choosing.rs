//! Choosing a grammar of a list: refusals 21 and 22.

use route_record::{MAX_BYTES, MAX_GRAMMARS};

use super::grammar::{check_grammar, Grammar};
use super::reading::try_whole;
use super::Refusal;

/// What an accepted choice gives.
#[derive(Clone, Copy, Debug, PartialEq, Eq)]
pub struct Chosen {
    /// The number of the grammar.
    pub number: usize,
    /// The values begun by all tries.
    pub begun: usize,
}

/// The words of the grammars of a list, and how many grammars, if it is laid out as one.
fn split(list: &[u32]) -> Option<([&[u32]; MAX_GRAMMARS], usize)> {
    let (&count, mut rest) = list.split_first()?;
    let count = count as usize;
    if count == 0 || count > MAX_GRAMMARS {
        return None;
    }
    let mut grammars = [&[][..]; MAX_GRAMMARS];
    for grammar in &mut grammars[..count] {
        let (&length, behind) = rest.split_first()?;
        (*grammar, rest) = behind.split_at_checked(length as usize)?;
    }
    rest.is_empty().then_some((grammars, count))
}

/// The first grammar of a list that accepts a record whole, once all of them passed their check.
pub fn choose_grammar(list: &[u32], record: &[u8]) -> Result<Chosen, Refusal> {
    let (grammars, count) = split(list).ok_or(Refusal::at_word(21, 0))?;
    let grammars = &grammars[..count];
    let mut start = 2;
    for words in grammars {
        check_grammar(words).map_err(|refusal| refusal.words_on(start))?;
        start += words.len() + 1;
    }
    if record.len() > MAX_BYTES {
        return Err(Refusal::at_byte(6, 0));
    }
    let mut begun = 0;
    for (number, words) in grammars.iter().enumerate() {
        let (accepted, values) = try_whole(Grammar::split(words)?, record);
        begun += values;
        if accepted {
            return Ok(Chosen { number, begun });
        }
    }
    Err(Refusal::at_byte(22, 0))
}

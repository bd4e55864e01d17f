//! Grammars as text: types, or the words of the table.

mod error;
mod table;
mod token;
mod types;

use std::str::FromStr;

use crate::Grammar;

pub use error::{GrammarError, Position, TextError};
use token::{Token, Tokens};

/// A text that starts with a number is the words of the table, decimal or `0x..`, which white space
/// or a comma separates. Any other text is definitions `name = type`, each before its uses, none
/// unused, and then the root's type; a `;` may end a definition. A type is such a name or what
/// [`Kind::form`](crate::Kind::form) shows. In both, a comment goes from `#` to the line's end.
///
/// A name is one node wherever it is used, a type that is written out one at each place. A node has
/// a number below its children's; nodes used once are numbered in the order of the text. A text that
/// makes more nodes or child words than a table takes is not wrong: the library refuses its table.
///
/// ```
/// use route_record::Grammar;
///
/// let text = "point = tuple(u32, u32)  # shared by all that name it
///             array(point)";
/// let grammar = text.parse::<Grammar>()?;
/// assert_eq!(grammar, "4, 3 0 1, 4 1 2, 1 0 0, 1 0 0, 3, 1 2 3".parse()?);
///
/// let error = "tuple(u32,\n  byte)".parse::<Grammar>().unwrap_err();
/// let words = "2:3: expected a kind or a name defined before, found 'byte'";
/// assert_eq!(error.to_string(), words);
/// # Ok::<(), route_record::GrammarError>(())
/// ```
impl FromStr for Grammar {
    type Err = GrammarError;

    fn from_str(text: &str) -> Result<Grammar, GrammarError> {
        let tokens = Tokens::of(text);
        let words = match tokens.peek().is_number() {
            true => parse_words(tokens),
            false => types::parse(tokens).map(|nodes| nodes.words()),
        };
        let words = words.map_err(GrammarError::Text)?;
        Grammar::check(&words).map_err(|refusal| GrammarError::Refused {
            refusal,
            word: table::describe(&words, refusal.place),
        })
    }
}

/// The words, behind each of which a comma may stand.
fn parse_words(mut tokens: Tokens) -> Result<Vec<u32>, TextError> {
    let mut words = Vec::new();
    while !tokens.peek().is_end() {
        words.push(parse_word(tokens.take())?);
        tokens.take_if(",");
    }
    Ok(words)
}

fn parse_word(token: Token) -> Result<u32, TextError> {
    let number = match token.text.strip_prefix("0x") {
        Some(digits) => u32::from_str_radix(digits, 16),
        None => token.text.parse(),
    };
    number.map_err(|_| token.unexpected("a number below 4294967296, decimal or 0x.."))
}

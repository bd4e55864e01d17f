//! Positions in texts, and why a text is no grammar.

use std::error::Error;
use std::fmt;

use crate::Refusal;

/// A position in a text.
#[derive(Clone, Copy, Debug, PartialEq, Eq, PartialOrd, Ord, Hash)]
pub struct Position {
    /// The line, from 1.
    pub line: usize,
    /// The column, from 1, in characters.
    pub column: usize,
}

impl Position {
    /// The position of a text's first character.
    pub const START: Position = Position { line: 1, column: 1 };

    /// The position behind a text that starts here.
    pub fn behind(self, text: &str) -> Position {
        text.chars().fold(self, |at, c| match c {
            '\n' => Position {
                line: at.line + 1,
                column: 1,
            },
            _ => Position {
                column: at.column + 1,
                ..at
            },
        })
    }
}

impl fmt::Display for Position {
    fn fmt(&self, f: &mut fmt::Formatter) -> fmt::Result {
        write!(f, "{}:{}", self.line, self.column)
    }
}

/// What is wrong with a text, and where.
#[derive(Clone, Debug, PartialEq, Eq, Hash)]
pub struct TextError {
    /// Where the text is wrong.
    pub position: Position,
    /// What could stand there.
    pub expected: String,
    /// What stands there.
    pub found: String,
}

impl fmt::Display for TextError {
    fn fmt(&self, f: &mut fmt::Formatter) -> fmt::Result {
        let (expected, found) = (&self.expected, &self.found);
        write!(f, "{}: expected {expected}, found {found}", self.position)
    }
}

impl Error for TextError {}

/// Why a text is no grammar.
#[derive(Clone, Debug, PartialEq, Eq, Hash)]
pub enum GrammarError {
    /// The text is wrong.
    Text(TextError),
    /// The library refuses the table that the text gives.
    Refused {
        /// Its refusal.
        refusal: Refusal,
        /// What the word at the refusal's place is: who wrote types never saw the words.
        word: String,
    },
}

impl fmt::Display for GrammarError {
    fn fmt(&self, f: &mut fmt::Formatter) -> fmt::Result {
        match self {
            GrammarError::Text(error) => write!(f, "{error}"),
            GrammarError::Refused { refusal, word } => write!(f, "{refusal}; {word}"),
        }
    }
}

impl Error for GrammarError {
    fn source(&self) -> Option<&(dyn Error + 'static)> {
        match self {
            GrammarError::Text(error) => Some(error),
            GrammarError::Refused { refusal, .. } => Some(refusal),
        }
    }
}

/// The most characters of a text that an error shows.
const SHOWN: usize = 40;

/// How an error shows a part of a text, which is empty at the text's end.
pub(super) fn quote(part: &str) -> String {
    match part.char_indices().nth(SHOWN) {
        None if part.is_empty() => "the end of the text".to_string(),
        None => format!("'{}'", part.escape_debug()),
        Some((end, _)) => format!("'{}..'", part[..end].escape_debug()),
    }
}

//! The tokens of a grammar's text.

use super::error::{quote, Position, TextError};

/// A name, a number or a single other character. At the text's end it is empty.
#[derive(Clone, Copy)]
pub struct Token<'a> {
    pub text: &'a str,
    /// Where it starts.
    pub position: Position,
}

impl Token<'_> {
    /// Whether the text ends here.
    pub fn is_end(&self) -> bool {
        self.text.is_empty()
    }

    /// Whether it starts like a name.
    pub fn is_name(&self) -> bool {
        self.text
            .starts_with(|c: char| c.is_alphabetic() || c == '_')
    }

    /// Whether it starts like a number.
    pub fn is_number(&self) -> bool {
        self.text.starts_with(|c: char| c.is_ascii_digit())
    }

    /// The error that something else was expected here.
    pub fn unexpected(&self, expected: &str) -> TextError {
        TextError {
            position: self.position,
            expected: expected.to_string(),
            found: quote(self.text),
        }
    }
}

/// The tokens of a text that are not taken yet. The end can be taken again and again.
pub struct Tokens<'a> {
    list: Vec<Token<'a>>,
    next: usize,
}

impl<'a> Tokens<'a> {
    /// The tokens of a text. White space and comments, from `#` to the line's end, are none.
    pub fn of(text: &'a str) -> Tokens<'a> {
        let (mut list, mut rest, mut position) = (Vec::new(), text, Position::START);
        while let Some(first) = rest.chars().next() {
            let until = |is_end: fn(char) -> bool| rest.find(is_end).unwrap_or(rest.len());
            let (length, is_token) = match first {
                '#' => (until(|c| c == '\n'), false),
                _ if first.is_whitespace() => (until(|c| !c.is_whitespace()), false),
                _ => (until(|c| !c.is_alphanumeric() && c != '_'), true),
            };
            let (text, behind) = rest.split_at(length.max(first.len_utf8()));
            if is_token {
                list.push(Token { text, position });
            }
            position = position.behind(text);
            rest = behind;
        }
        let text = rest;
        list.push(Token { text, position });
        Tokens { list, next: 0 }
    }

    /// The tokens to come, one of them at least.
    pub fn ahead(&self) -> &[Token<'a>] {
        &self.list[self.next..]
    }

    /// The next token, which stays the next one.
    pub fn peek(&self) -> Token<'a> {
        self.list[self.next]
    }

    /// Takes the next token.
    pub fn take(&mut self) -> Token<'a> {
        let token = self.peek();
        self.next += usize::from(!token.is_end());
        token
    }

    /// Takes the next token if it is this one.
    pub fn take_if(&mut self, text: &str) -> bool {
        let found = self.peek().text == text;
        self.next += usize::from(found);
        found
    }

    /// Takes the next token, which is to be this one.
    pub fn expect(&mut self, text: &str) -> Result<(), TextError> {
        match self.take_if(text) {
            true => Ok(()),
            false => Err(self.peek().unexpected(&quote(text))),
        }
    }
}

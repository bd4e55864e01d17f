//! The tokens of a Rust source, as far as the model's formatted text needs them.

/// What a token is.
#[derive(Clone, Copy, Debug, PartialEq, Eq)]
#[allow(missing_docs)]
pub enum Kind {
    Word,
    Number,
    Text,
    Lifetime,
    Mark,
}

/// A token, and where it stands in the source.
#[derive(Clone, Copy, Debug)]
pub struct Token<'a> {
    /// What it is.
    pub kind: Kind,
    /// Its text.
    pub text: &'a str,
    /// Its first byte in the source.
    pub start: usize,
    /// Whether a blank stands on both sides, as formatted text has it around an operator of two
    /// operands and around no other mark that looks like one.
    pub is_spaced: bool,
}

impl Token<'_> {
    /// The byte behind it in the source.
    pub fn end(&self) -> usize {
        self.start + self.text.len()
    }

    /// Whether it is this word or mark.
    pub fn is(&self, text: &str) -> bool {
        matches!(self.kind, Kind::Word | Kind::Mark) && self.text == text
    }
}

/// The marks of more than one character, the longest first. `>>` is two marks: it closes types.
const LONG_MARKS: [&str; 16] = [
    "..=", "..", "=>", "->", "==", "!=", "<=", ">=", "&&", "||", "::", "+=", "-=", "*=", "/=", "%=",
];

/// The length of the part of a text, from its start, that `is_in` holds for.
fn length(text: &str, is_in: impl Fn(char) -> bool) -> usize {
    text.find(|c| !is_in(c)).unwrap_or(text.len())
}

/// The kind and the length of the token that a text starts with.
fn first(text: &str) -> (Kind, usize) {
    let is_word = |c: char| c.is_ascii_alphanumeric() || c == '_';
    let start = text.chars().next().expect("a token");
    match start {
        '0'..='9' => (Kind::Number, length(text, is_word)),
        '"' => {
            let mut is_escaped = false;
            let end = text[1..].find(|c| {
                let ends = c == '"' && !is_escaped;
                is_escaped = c == '\\' && !is_escaped;
                ends
            });
            (Kind::Text, end.expect("the end of a text") + 2)
        }
        '\'' => (Kind::Lifetime, 1 + length(&text[1..], is_word)),
        _ if is_word(start) => (Kind::Word, length(text, is_word)),
        _ => {
            let long = LONG_MARKS.iter().find(|mark| text.starts_with(*mark));
            (Kind::Mark, long.map_or(start.len_utf8(), |mark| mark.len()))
        }
    }
}

/// The tokens of a source, without its comments.
pub fn tokens(source: &str) -> Vec<Token<'_>> {
    let is_blank = |byte: Option<&u8>| byte.is_some_and(u8::is_ascii_whitespace);
    let (mut tokens, mut at) = (Vec::new(), 0);
    while at < source.len() {
        let rest = &source[at..];
        if rest.starts_with("//") {
            at += length(rest, |c| c != '\n');
        } else if rest.starts_with(char::is_whitespace) {
            at += length(rest, char::is_whitespace);
        } else {
            let (kind, length) = first(rest);
            let behind = at + length;
            let before = at.checked_sub(1).and_then(|i| source.as_bytes().get(i));
            tokens.push(Token {
                kind,
                text: &source[at..behind],
                start: at,
                is_spaced: is_blank(before) && is_blank(source.as_bytes().get(behind)),
            });
            at = behind;
        }
    }
    tokens
}

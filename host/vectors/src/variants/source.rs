//! A file of the model: its tokens, the bodies of its functions, and where in them patterns stand.

use std::ops::Range;

use super::token::{tokens, Kind, Token};

/// What a token belongs to.
#[derive(Clone, Copy, Debug, PartialEq, Eq)]
pub(super) enum Zone {
    /// Not in the body of a function.
    Outside,
    /// A pattern, or a type.
    Pattern,
    /// An expression.
    Expression,
}

/// A function: its name and the tokens of its body, without the braces.
pub(super) struct Function<'a> {
    pub(super) name: &'a str,
    pub(super) parameters: Range<usize>,
    pub(super) body: Range<usize>,
}

/// A file of the model without its tests.
pub(super) struct Source<'a> {
    pub(super) file: &'a str,
    pub(super) text: &'a str,
    pub(super) tokens: Vec<Token<'a>>,
    pub(super) zones: Vec<Zone>,
    /// For each bracket the one that belongs to it.
    pub(super) partner: Vec<usize>,
    pub(super) functions: Vec<Function<'a>>,
    /// The patterns of match arms and of `matches!`.
    pub(super) arms: Vec<Range<usize>>,
}

/// For each bracket the one that belongs to it, and for each other token its own number.
fn partners(tokens: &[Token]) -> Vec<usize> {
    let mut partner: Vec<usize> = (0..tokens.len()).collect();
    let mut open = Vec::new();
    for (i, token) in tokens.iter().enumerate() {
        if token.kind != Kind::Mark {
            continue;
        }
        match token.text {
            "(" | "[" | "{" => open.push(i),
            ")" | "]" | "}" => {
                let start = open.pop().expect("a bracket that opens");
                (partner[start], partner[i]) = (i, start);
            }
            _ => (),
        }
    }
    partner
}

impl<'a> Source<'a> {
    /// The file of this name and text.
    pub(super) fn new(file: &'a str, text: &'a str) -> Source<'a> {
        let text = text.split("#[cfg(test)]").next().expect("a first part");
        let tokens = tokens(text);
        let (zones, partner) = (vec![Zone::Outside; tokens.len()], partners(&tokens));
        let mut source = Source {
            file,
            text,
            tokens,
            zones,
            partner,
            functions: Vec::new(),
            arms: Vec::new(),
        };
        source.find_functions();
        source.mark_patterns();
        source
    }

    /// Whether token `i` is this word or mark.
    pub(super) fn is(&self, i: usize, text: &str) -> bool {
        self.tokens.get(i).is_some_and(|token| token.is(text))
    }

    /// Whether token `i` is one of these words or marks.
    pub(super) fn is_any(&self, i: usize, texts: &[&str]) -> bool {
        texts.iter().any(|text| self.is(i, text))
    }

    /// The text from a token to one behind it.
    pub(super) fn text_of(&self, range: Range<usize>) -> &'a str {
        &self.text[self.tokens[range.start].start..self.tokens[range.end - 1].end()]
    }

    /// The number of the line, from 1 on, of a token.
    pub(super) fn line(&self, i: usize) -> usize {
        1 + self.text[..self.tokens[i].start].matches('\n').count()
    }

    /// The first token from `i` on that is one of these, outside of brackets that open behind `i`.
    pub(super) fn find(&self, i: usize, texts: &[&str]) -> usize {
        let mut at = i;
        while !self.is_any(at, texts) {
            at = self.partner[at].max(at) + 1;
        }
        at
    }

    /// Finds the functions.
    fn find_functions(&mut self) {
        for i in 0..self.tokens.len() {
            if self.is(i, "fn") {
                let open = self.find(i, &["("]);
                let brace = self.find(i, &["{"]);
                let body = brace + 1..self.partner[brace];
                self.zones[body.clone()].fill(Zone::Expression);
                self.functions.push(Function {
                    name: self.tokens[i + 1].text,
                    parameters: open + 1..self.partner[open],
                    body,
                });
            }
        }
    }

    /// Marks what is a pattern or a type in the bodies.
    fn mark_patterns(&mut self) {
        for i in 0..self.tokens.len() {
            if self.zones[i] == Zone::Outside {
                continue;
            }
            if self.is(i, "let") {
                let end = self.find(i, &["="]);
                self.zones[i..end].fill(Zone::Pattern);
            } else if self.is(i, "for") {
                let end = self.find(i, &["in"]);
                self.zones[i..end].fill(Zone::Pattern);
            } else if self.is(i, "|") && !self.tokens[i].is_spaced && self.starts_closure(i) {
                let end = self.find(i + 1, &["|"]);
                self.zones[i..=end].fill(Zone::Pattern);
            } else if self.is(i, "as") {
                self.zones[i + 1] = Zone::Pattern;
            } else if self.is(i, "::") && self.is(i + 1, "<") {
                let end = self.find(i, &[">"]);
                self.zones[i..=end].fill(Zone::Pattern);
            } else if self.is(i, "matches") && self.is(i + 1, "!") {
                let start = self.find(i + 3, &[","]) + 1;
                self.add_arm(start..self.partner[i + 2]);
            } else if self.is(i, "=>") {
                let start = self.arm_start(i);
                let guard = (start..i).find(|&at| self.is(at, "if"));
                self.add_arm(start..guard.unwrap_or(i));
            }
        }
    }

    fn add_arm(&mut self, pattern: Range<usize>) {
        self.zones[pattern.clone()].fill(Zone::Pattern);
        self.arms.push(pattern);
    }

    /// Whether the mark `|` begins the parameters of a closure.
    fn starts_closure(&self, i: usize) -> bool {
        self.is_any(i - 1, &["(", ",", "="])
    }

    /// The first token of the arm whose `=>` is token `i`.
    fn arm_start(&self, i: usize) -> usize {
        let mut at = i;
        while !self.is_any(at - 1, &["{", ",", "}"]) {
            at = self.partner[at - 1].min(at - 1);
        }
        at
    }

    /// The operand that ends before token `i`, where an operator or a block stands.
    pub(super) fn operand_before(&self, i: usize) -> Range<usize> {
        const STOPS: [&str; 15] = [
            "(", "[", "{", "}", ",", ";", "=", "&&", "||", "=>", "if", "while", "return", "|", "in",
        ];
        let mut at = i;
        while !self.is_any(at - 1, &STOPS) || self.partner[at - 1] < at - 1 {
            at = self.partner[at - 1].min(at - 1);
        }
        at..i
    }

    /// The operand that starts at token `i`, behind an operator.
    pub(super) fn operand_at(&self, i: usize) -> Range<usize> {
        const STOPS: [&str; 9] = [")", "]", "}", "{", ",", ";", "&&", "||", "=>"];
        i..self.find(i, &STOPS)
    }
}

//! The rules by which a model is broken, each at every place of its text that it fits.

use std::ops::Range;

use super::source::{Function, Source, Zone};
use super::switch::{Mode, Op, OPS};
use super::token::Kind;

/// What stands at a place.
#[derive(Clone, Copy, Debug, PartialEq, Eq)]
pub enum Thing {
    /// A number that is written down.
    Constant,
    /// Another number.
    Number,
    /// A comparison.
    Comparison,
    /// A test that is no comparison.
    Test,
}

/// A place of the model that is switched while it runs: what stands there, and the pieces of text
/// that make it a call of `variant`.
#[derive(Clone, Debug)]
pub struct Place {
    /// What stands there.
    pub thing: Thing,
    /// Where it stands.
    pub site: Site,
    /// The modes in which it is broken, those aside that its type shows to change nothing.
    pub modes: Vec<Mode>,
    /// The two sides of a comparison.
    pub sides: Option<[String; 2]>,
    /// Whether a kind or a width is at hand by which it is broken alone.
    pub guard: Option<&'static str>,
    /// Pieces of the source and what stands for each, `{}` being the number of the place.
    pub(super) edits: Vec<Edit>,
}

/// Where a place stands.
#[derive(Clone, Debug, PartialEq, Eq)]
#[allow(missing_docs)]
pub struct Site {
    pub file: String,
    pub function: String,
    pub line: usize,
    pub text: String,
    /// How many places of this thing and text stand before it in the function.
    pub nth: usize,
}

/// A piece of a source, as a range of bytes, and what stands for it.
#[derive(Clone, Debug, PartialEq, Eq)]
pub struct Edit {
    pub(super) range: Range<usize>,
    pub(super) text: String,
}

/// A change of the text that is compiled on its own.
#[derive(Clone, Debug)]
pub struct Change {
    /// What is done.
    pub rule: &'static str,
    /// Where.
    pub site: Site,
    /// The whole file then.
    pub text: String,
}

const BITS: [u32; 3] = [8, 16, 32];

/// Words that are no numbers.
const KEYWORDS: [&str; 17] = [
    "as", "break", "else", "false", "fn", "for", "if", "in", "let", "match", "mut", "return",
    "self", "true", "while", "u64", "u128",
];

/// Whether a word is the name of a type or of a case of one, as such names are written.
fn is_type(word: &str) -> bool {
    word.starts_with(|c: char| c.is_ascii_uppercase())
        && word.contains(|c: char| c.is_ascii_lowercase())
}

impl Source<'_> {
    fn site(&self, function: &str, tokens: Range<usize>) -> Site {
        Site {
            file: self.file.to_string(),
            function: function.to_string(),
            line: self.line(tokens.start),
            text: self.text_of(tokens).to_string(),
            nth: 0,
        }
    }

    /// The kind or the width that is at hand at token `i` of a function: a parameter, or bound by a
    /// `let` of a block around the token.
    fn guard(&self, function: &Function, i: usize) -> Option<&'static str> {
        ["kind", "width"].into_iter().find(|name| {
            let mut bound = (function.body.start..i).filter(|&at| {
                let is_bound = self.is(at, "let") && {
                    let end = self.find(at, &["="]);
                    (at..end).any(|word| self.is(word, name)) && self.find(end, &[";"]) < i
                };
                is_bound && self.block_around(at).contains(&i)
            });
            let mut parameters = function.parameters.clone();
            parameters.any(|at| self.is(at, name)) || bound.next().is_some()
        })
    }

    /// The block that token `i` stands in.
    fn block_around(&self, i: usize) -> Range<usize> {
        let mut opening = (0..i).rev();
        let open = opening.find(|&at| self.is(at, "{") && self.partner[at] > i);
        open.map_or(0..self.tokens.len(), |open| open..self.partner[open])
    }

    /// The place of some tokens that a call of `variant` surrounds.
    fn place(
        &self,
        function: &Function,
        thing: Thing,
        tokens: Range<usize>,
        before: &str,
        modes: Vec<Mode>,
    ) -> Place {
        let guard = self.guard(function, tokens.start);
        let name = match thing {
            Thing::Constant | Thing::Number => "number",
            Thing::Comparison => "compare",
            Thing::Test => "test",
        };
        let of_guard = guard.map_or("crate::variant::NO_GUARD".to_string(), |name| {
            format!("{name} as u64")
        });
        let (start, end) = (
            self.tokens[tokens.start].start,
            self.tokens[tokens.end - 1].end(),
        );
        let call = format!("{before}crate::variant::{name}({{}}, {of_guard}, ");
        Place {
            thing,
            site: self.site(function.name, tokens),
            modes,
            sides: None,
            guard,
            edits: vec![
                Edit {
                    range: start..start,
                    text: call,
                },
                Edit {
                    range: end..end,
                    text: ")".to_string(),
                },
            ],
        }
    }

    /// The comparisons.
    fn comparisons(&self, function: &Function) -> Vec<Place> {
        let mut places = Vec::new();
        for i in function.body.clone() {
            let token = self.tokens[i];
            let op = OPS.iter().find(|op| token.is(op.0) && token.is_spaced);
            let Some(&(_, op)) = op.filter(|_| self.zones[i] == Zone::Expression) else {
                continue;
            };
            let (left, right) = (self.operand_before(i), self.operand_at(i + 1));
            let others = OPS.iter().filter(|other| other.1 != op);
            let mut modes: Vec<Mode> = others.map(|other| Mode::Op(other.1)).collect();
            modes.extend([true, false].map(Mode::Answer));
            modes.extend(BITS.map(Mode::CutLeft));
            modes.extend(BITS.map(Mode::CutRight));
            if !matches!(op, Op::Eq | Op::Ne) {
                modes.extend([32, 64].map(Mode::Signed));
            }
            let sides = [left.clone(), right.clone()];
            let sides = sides.map(|side| self.text_of(side).to_string());
            let tokens = left.start..right.end;
            let mut place = self.place(function, Thing::Comparison, tokens, "", modes);
            place.sides = Some(sides);
            place.edits.insert(
                1,
                Edit {
                    range: token.start..token.end(),
                    text: format!(", crate::variant::Op::{op:?},"),
                },
            );
            places.push(place);
        }
        places
    }

    /// The tests that are no comparison: operands of `&&` and `||`, and conditions.
    fn tests(&self, function: &Function) -> Vec<Place> {
        let mut operands: Vec<Range<usize>> = Vec::new();
        for i in function.body.clone() {
            if self.is_any(i, &["&&", "||"]) && self.tokens[i].is_spaced {
                operands.extend([self.operand_before(i), self.operand_at(i + 1)]);
            } else if self.is_any(i, &["if", "while"]) && !self.is(i + 1, "let") {
                operands.push(self.operand_at(i + 1));
            }
        }
        operands.sort_by_key(|operand| operand.start);
        operands.dedup();
        let is_test = |operand: &Range<usize>| {
            let mut at = operand.start;
            while at < operand.end {
                if self.tokens[at].is_spaced && OPS.iter().any(|op| self.is(at, op.0)) {
                    return false;
                }
                at = self.partner[at].max(at) + 1;
            }
            true
        };
        operands.retain(is_test);
        let modes = [true, false].map(Mode::Answer).to_vec();
        let place = |tokens| self.place(function, Thing::Test, tokens, "", modes.clone());
        operands.into_iter().map(place).collect()
    }

    /// The tokens of a number that starts at token `i`: a variable, a field, an element, a length.
    fn number_at(&self, i: usize) -> Option<Range<usize>> {
        let token = self.tokens[i];
        let is_name = !KEYWORDS.contains(&token.text) || token.is("self") && self.is(i + 1, ".");
        if token.kind != Kind::Word || !is_name || is_type(token.text) {
            return None;
        }
        if self.is_any(i - 1, &[".", "::", "mut"]) {
            return None;
        }
        let mut end = i + 1;
        loop {
            if self.is(end, ".") && self.is(end + 1, "len") {
                end += 4;
            } else if self.is(end, ".") && !self.is(end + 2, "(") {
                end += 2;
            } else if self.is(end, "[") {
                end = self.partner[end] + 1;
            } else {
                break;
            }
        }
        let is_deref = self.is(i - 1, "*") && !self.tokens[i - 1].is_spaced;
        let start = if is_deref { i - 1 } else { i };
        let is_lent = self.is(start - 1, "&") && !self.tokens[start - 1].is_spaced;
        const BEHIND: [&str; 11] = [".", "(", "::", "!", "=", "+=", "-=", "*=", "/=", ":", "?"];
        (!is_lent && !self.is_any(end, &BEHIND)).then_some(start..end)
    }

    /// Whether token `i` is a field of a struct whose value is the variable of its name.
    fn is_shorthand(&self, i: usize) -> bool {
        let block = self.block_around(i);
        let is_struct = is_type(self.tokens[block.start.saturating_sub(1)].text);
        let is_in_brackets =
            (block.start + 1..i).any(|at| self.is_any(at, &["(", "["]) && self.partner[at] > i);
        is_struct
            && !is_in_brackets
            && self.is_any(i - 1, &["{", ","])
            && self.is_any(i + 1, &["}", ","])
    }

    /// The numbers.
    fn numbers(&self, function: &Function) -> Vec<Place> {
        let mut places = Vec::new();
        for i in function.body.clone() {
            if self.zones[i] != Zone::Expression {
                continue;
            }
            let token = self.tokens[i];
            if token.kind == Kind::Number && !self.is(i - 1, ".") {
                let widths = ["1", "4", "8"];
                let others = widths
                    .iter()
                    .filter(|width| widths.contains(&token.text) && **width != token.text);
                let mut modes = vec![Mode::More, Mode::Less];
                modes.extend(others.map(|width| Mode::Be(width.parse().expect("a number"))));
                places.push(self.place(function, Thing::Constant, i..i + 1, "", modes));
            } else if let Some(tokens) = self.number_at(i) {
                let is_constant = !token.text.contains(|c: char| c.is_ascii_lowercase());
                let mut modes = vec![Mode::More, Mode::Less];
                if !is_constant {
                    modes.extend(BITS.map(Mode::Cut));
                    modes.extend(BITS.map(Mode::Extend));
                }
                let thing = if is_constant {
                    Thing::Constant
                } else {
                    Thing::Number
                };
                let field = match self.is_shorthand(i) {
                    true => format!("{}: ", token.text),
                    false => String::new(),
                };
                places.push(self.place(function, thing, tokens, &field, modes));
            }
        }
        places
    }

    /// All places that are switched while the model runs.
    pub(super) fn places(&self) -> Vec<Place> {
        let of_function = |function| {
            let mut places = [
                self.comparisons(function),
                self.tests(function),
                self.numbers(function),
            ]
            .concat();
            for at in 0..places.len() {
                let (place, before) = places[..=at].split_last_mut().expect("a place");
                let same = before.iter().filter(|other| {
                    other.thing == place.thing && other.site.text == place.site.text
                });
                place.site.nth = same.count();
            }
            places
        };
        self.functions.iter().flat_map(of_function).collect()
    }

    /// The file with one text in place of another.
    fn changed(&self, edits: &[Edit]) -> String {
        apply(self.text, edits)
    }

    fn change(&self, rule: &'static str, tokens: Range<usize>, edits: &[Edit]) -> Change {
        let mut functions = self.functions.iter();
        let function = functions.find(|function| function.body.contains(&tokens.start));
        Change {
            rule,
            site: self.site(function.map_or("", |function| function.name), tokens),
            text: self.changed(edits),
        }
    }

    /// One token replaced by another text.
    fn replaced(&self, rule: &'static str, i: usize, text: &str) -> Change {
        let token = self.tokens[i];
        let range = token.start..token.end();
        let text = text.to_string();
        self.change(rule, i..i + 1, &[Edit { range, text }])
    }

    /// Numbers of patterns and of constants, one more and one less.
    fn fixed_numbers(&self) -> Vec<Change> {
        let mut changes = Vec::new();
        for (i, token) in self.tokens.iter().enumerate() {
            let is_item = self.zones[i] == Zone::Outside && self.is(i - (i > 0) as usize, "=");
            if token.kind != Kind::Number || !(is_item || self.zones[i] == Zone::Pattern) {
                continue;
            }
            let number: u64 = token.text.replace('_', "").parse().expect("a number");
            for other in [Some(number + 1), number.checked_sub(1)]
                .into_iter()
                .flatten()
            {
                changes.push(self.replaced(
                    "another number in a pattern or constant",
                    i,
                    &other.to_string(),
                ));
            }
        }
        changes
    }

    /// Operators, ranges and methods exchanged.
    fn exchanged(&self) -> Vec<Change> {
        const PAIRS: [(&str, &[&str]); 14] = [
            ("+", &["-", "*"]),
            ("-", &["+"]),
            ("*", &["+", "/"]),
            ("/", &["*", "%"]),
            ("%", &["/"]),
            ("+=", &["-=", "="]),
            ("-=", &["+=", "="]),
            ("..=", &[".."]),
            ("..", &["..="]),
            ("min", &["max"]),
            ("all", &["any"]),
            ("&&", &["||"]),
            ("||", &["&&"]),
            ("first", &["last"]),
        ];
        let mut changes = Vec::new();
        for i in 0..self.tokens.len() {
            let pair = PAIRS.iter().find(|pair| self.is(i, pair.0));
            let is_call = self.is(i + 1, "(") || self.tokens[i].kind == Kind::Mark;
            if self.zones[i] != Zone::Outside && is_call {
                for other in pair.map_or(&[][..], |pair| pair.1) {
                    changes.push(self.replaced("another operator", i, other));
                }
            }
        }
        changes
    }

    /// Patterns without one of their alternatives.
    fn fewer_alternatives(&self) -> Vec<Change> {
        let mut changes = Vec::new();
        for arm in &self.arms {
            let mut parts = vec![arm.start..arm.end];
            let mut at = arm.start;
            while at < arm.end {
                if self.is(at, "|") {
                    let last = parts.last_mut().expect("a part");
                    let end = std::mem::replace(&mut last.end, at);
                    parts.push(at + 1..end);
                }
                at = self.partner[at].max(at) + 1;
            }
            for (k, part) in parts.iter().enumerate().filter(|_| parts.len() > 1) {
                // with the mark before it, or behind it
                let tokens = if k > 0 {
                    part.start - 1..part.end
                } else {
                    part.start..part.end + 1
                };
                let range = self.tokens[tokens.start].start..self.tokens[tokens.end - 1].end();
                let edit = Edit {
                    range,
                    text: String::new(),
                };
                changes.push(self.change("an alternative left out", part.clone(), &[edit]));
            }
        }
        changes
    }

    /// The statements of each block, and of those the last one, if the block gives a value.
    fn blocks(&self) -> Vec<(Vec<Range<usize>>, Option<Range<usize>>)> {
        let mut bodies: Vec<usize> = Vec::new();
        for i in 0..self.tokens.len() {
            if self.is(i, "match") {
                bodies.push(self.find(i, &["{"]));
            }
        }
        let is_block = |i: &usize| {
            let is_struct =
                is_type(self.tokens[i - 1].text) && self.zones[i - 1] == Zone::Expression;
            self.is(*i, "{")
                && !is_struct
                && !bodies.contains(i)
                && self.zones[i + 1] != Zone::Outside
        };
        let open = (1..self.tokens.len()).filter(is_block);
        open.map(|open| self.statements(open + 1..self.partner[open]))
            .collect()
    }

    fn statements(&self, block: Range<usize>) -> (Vec<Range<usize>>, Option<Range<usize>>) {
        let (mut statements, mut start, mut at) = (Vec::new(), block.start, block.start);
        while at < block.end {
            let is_brace = self.is(at, "{");
            at = self.partner[at].max(at) + 1;
            let is_control = self.is_any(start, &["if", "while", "for", "match"]);
            let ends = is_brace
                && is_control
                && !self.is(at, "else")
                && at < block.end
                && !self.is_any(at, &[".", "?"]);
            if ends || self.is(at - 1, ";") {
                statements.push(start..at);
                start = at;
            }
        }
        let tail = (start < block.end).then_some(start..block.end);
        (statements, tail)
    }

    /// Statements left out, exchanged with the next, and tests moved behind what follows them.
    fn reordered(&self) -> Vec<Change> {
        let mut changes = Vec::new();
        let text = |tokens: &Range<usize>| self.text_of(tokens.clone());
        for (statements, tail) in self.blocks() {
            for (k, one) in statements.iter().enumerate() {
                let refuses = |tokens: &Range<usize>| {
                    tokens.clone().any(|i| self.is_any(i, &["return", "?"]))
                };
                let range = |from: &Range<usize>, to: &Range<usize>| {
                    self.tokens[from.start].start..self.tokens[to.end - 1].end()
                };
                let is_let = self.is(one.start, "let");
                if !is_let && !self.is(one.start, "return") {
                    let edit = Edit {
                        range: range(one, one),
                        text: String::new(),
                    };
                    changes.push(self.change("a statement left out", one.clone(), &[edit]));
                }
                if let Some(next) = statements
                    .get(k + 1)
                    .filter(|next| refuses(one) || refuses(next))
                {
                    let exchanged = format!("{} {}", text(next), text(one));
                    let edit = Edit {
                        range: range(one, next),
                        text: exchanged,
                    };
                    changes.push(self.change("two statements exchanged", one.clone(), &[edit]));
                }
                let last = statements.last().expect("a statement");
                let behind = one.end..last.end;
                if is_let || !refuses(one) || behind.is_empty() && tail.is_none() {
                    continue;
                }
                let between = if behind.is_empty() { "" } else { text(&behind) };
                let (end, moved) = match &tail {
                    Some(tail) => {
                        let answer = text(tail);
                        let moved = format!("{between} let answer = {answer}; if answer.is_err() {{ return answer; }} {} answer", text(one));
                        (tail, moved)
                    }
                    None => (last, format!("{between} {}", text(one))),
                };
                let edit = Edit {
                    range: range(one, end),
                    text: moved,
                };
                changes.push(self.change("a refusal after what follows it", one.clone(), &[edit]));
            }
        }
        changes
    }

    /// All changes that are compiled one by one.
    pub(super) fn changes(&self) -> Vec<Change> {
        [
            self.fixed_numbers(),
            self.exchanged(),
            self.fewer_alternatives(),
            self.reordered(),
        ]
        .concat()
    }
}

/// A text with pieces of it replaced. Of two pieces at one place the earlier comes first.
pub(super) fn apply(text: &str, edits: &[Edit]) -> String {
    let mut edits: Vec<&Edit> = edits.iter().collect();
    edits.sort_by_key(|edit| edit.range.start);
    let (mut changed, mut at) = (String::new(), 0);
    for edit in edits {
        changed += &text[at..edit.range.start];
        changed += &edit.text;
        at = edit.range.end;
    }
    changed + &text[at..]
}

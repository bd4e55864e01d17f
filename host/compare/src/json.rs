//! The part of JSON that the test vectors use: objects, lists, texts without escapes and whole
//! numbers from 0 on.

use std::fmt;
use std::str::FromStr;

/// A value.
#[derive(Clone, Debug, PartialEq, Eq)]
#[allow(missing_docs)]
pub enum Json {
    Number(u64),
    Text(String),
    List(Vec<Json>),
    Object(Vec<(String, Json)>),
}

impl Json {
    /// The value that a text is, with nothing but blanks around it.
    pub fn parse(text: &str) -> Result<Json, String> {
        let mut parser = Parser { rest: text };
        let value = parser.value()?;
        parser.skip_blanks();
        match parser.rest {
            "" => Ok(value),
            rest => Err(format!("`{}` behind the value", start_of(rest))),
        }
    }

    /// A text.
    pub fn text(text: impl Into<String>) -> Json {
        Json::Text(text.into())
    }
}

impl fmt::Display for Json {
    fn fmt(&self, f: &mut fmt::Formatter) -> fmt::Result {
        match self {
            Json::Number(number) => write!(f, "{number}"),
            Json::Text(text) => write!(f, "\"{text}\""),
            Json::List(values) => {
                let values: Vec<String> = values.iter().map(Json::to_string).collect();
                write!(f, "[{}]", values.join(", "))
            }
            Json::Object(fields) => {
                let field = |(name, value): &(String, Json)| format!("\"{name}\": {value}");
                let fields: Vec<String> = fields.iter().map(field).collect();
                write!(f, "{{{}}}", fields.join(", "))
            }
        }
    }
}

/// The fields of an object that are not taken yet. A reader takes each field that it knows; one
/// that is missing, and one that is left over, is an error.
pub struct Fields(Vec<(String, Json)>);

impl Fields {
    /// The fields of an object.
    pub fn of(json: Json) -> Result<Fields, String> {
        match json {
            Json::Object(fields) => Ok(Fields(fields)),
            other => Err(format!("{other} is no object")),
        }
    }

    /// Takes a field, if there is one of this name.
    pub fn take_any(&mut self, name: &str) -> Option<Json> {
        let at = self.0.iter().position(|field| field.0 == name)?;
        Some(self.0.remove(at).1)
    }

    /// Takes a field.
    pub fn take(&mut self, name: &str) -> Result<Json, String> {
        self.take_any(name)
            .ok_or_else(|| format!("`{name}` is missing"))
    }

    /// Takes a field that is a text.
    pub fn take_text(&mut self, name: &str) -> Result<String, String> {
        match self.take(name)? {
            Json::Text(text) => Ok(text),
            other => Err(format!("`{name}` is {other}, no text")),
        }
    }

    /// Takes a field that is a number.
    pub fn take_number(&mut self, name: &str) -> Result<u64, String> {
        match self.take(name)? {
            Json::Number(number) => Ok(number),
            other => Err(format!("`{name}` is {other}, no number")),
        }
    }

    /// No field is left.
    pub fn finish(self) -> Result<(), String> {
        match self.0.first() {
            None => Ok(()),
            Some((name, _)) => Err(format!("`{name}` is unknown here")),
        }
    }
}

/// The first characters of a text.
fn start_of(text: &str) -> String {
    text.chars().take(20).collect()
}

/// A reader of the rest of a text.
struct Parser<'a> {
    rest: &'a str,
}

impl<'a> Parser<'a> {
    fn skip_blanks(&mut self) {
        self.rest = self.rest.trim_start_matches([' ', '\t', '\n', '\r']);
    }

    /// Takes a mark, if it is the next one.
    fn is_next(&mut self, mark: char) -> bool {
        self.skip_blanks();
        let rest = self.rest.strip_prefix(mark);
        self.rest = rest.unwrap_or(self.rest);
        rest.is_some()
    }

    fn expect(&mut self, mark: char) -> Result<(), String> {
        match self.is_next(mark) {
            true => Ok(()),
            false => Err(format!("`{mark}` wanted at `{}`", start_of(self.rest))),
        }
    }

    /// Takes what stands before the first character that `ends` says.
    fn until(&mut self, ends: impl Fn(char) -> bool) -> &'a str {
        let end = self.rest.find(ends).unwrap_or(self.rest.len());
        let (part, rest) = self.rest.split_at(end);
        self.rest = rest;
        part
    }

    fn value(&mut self) -> Result<Json, String> {
        if self.is_next('{') {
            return self.object();
        }
        if self.is_next('[') {
            return Ok(Json::List(self.several(']', Parser::value)?));
        }
        match self.rest.starts_with('"') {
            true => self.text().map(Json::Text),
            false => self.number(),
        }
    }

    fn object(&mut self) -> Result<Json, String> {
        let fields = self.several('}', |parser| {
            parser.skip_blanks();
            let name = parser.text()?;
            parser.expect(':')?;
            Ok((name, parser.value()?))
        })?;
        let mut names: Vec<&String> = fields.iter().map(|field| &field.0).collect();
        names.sort();
        match names.windows(2).find(|pair| pair[0] == pair[1]) {
            Some(pair) => Err(format!("`{}` stands twice", pair[0])),
            None => Ok(Json::Object(fields)),
        }
    }

    /// Reads parts with commas between them, up to the closing mark.
    fn several<T>(
        &mut self,
        close: char,
        part: impl Fn(&mut Self) -> Result<T, String>,
    ) -> Result<Vec<T>, String> {
        let mut parts = Vec::new();
        while !self.is_next(close) {
            if !parts.is_empty() {
                self.expect(',')?;
            }
            parts.push(part(self)?);
        }
        Ok(parts)
    }

    fn text(&mut self) -> Result<String, String> {
        self.expect('"')?;
        let text = self.until(|c| c == '"' || c == '\\' || c.is_control());
        let behind = self.rest.strip_prefix('"');
        self.rest = behind.ok_or("a text with an escape, a control character or no end")?;
        Ok(text.to_string())
    }

    fn number(&mut self) -> Result<Json, String> {
        let rest = self.rest;
        decimal(self.until(|c| !c.is_ascii_digit()))
            .map(Json::Number)
            .map_err(|_| format!("no value at `{}`", start_of(rest)))
    }
}

/// A number in decimal digits, without leading zeros, and with `-` before them where the type has
/// numbers below zero and it is one.
pub fn decimal<N: FromStr + ToString>(text: &str) -> Result<N, String> {
    match text.parse::<N>() {
        Ok(number) if number.to_string() == text => Ok(number),
        _ => Err(format!("`{}` is no number", start_of(text))),
    }
}

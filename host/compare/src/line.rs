//! A case and what comes of it as a line of JSON.

use route_record::{Place, Refusal, MAX_GRAMMARS, ROW_WORDS};

use crate::json::{decimal, Fields, Json};
use crate::list::{self, Layout};
use crate::{Answer, Case, Field, Outcome};

/// Bytes: 32 to a text, and repeated from 17 on, so that counts and tags stay as they are.
pub const BYTES: Layout<u8> = Layout {
    unit: 1,
    units_in_text: 32,
    least_times: 17,
    show: list::show_bytes,
};

/// Rows: one to a text.
const ROWS: Layout<u64> = Layout {
    unit: ROW_WORDS,
    units_in_text: 1,
    least_times: 5,
    show: list::show_numbers,
};

/// The nodes of a grammar: one to a text.
const NODES: Layout<u32> = Layout {
    unit: 3,
    units_in_text: 1,
    least_times: 5,
    show: list::show_numbers,
};

/// Numbers of other slices.
const fn numbers<N: PartialEq + ToString>() -> Layout<N> {
    Layout {
        unit: 1,
        units_in_text: 16,
        least_times: 17,
        show: list::show_numbers,
    }
}

/// Takes so many of the words that are left, or all where there are fewer.
fn take_words<'a>(rest: &mut &'a [u32], count: usize) -> &'a [u32] {
    let (taken, behind) = rest.split_at(count.min(rest.len()));
    *rest = behind;
    taken
}

/// The parts of a grammar: N, the nodes, M, the child words. A part that is not there is left out.
fn grammar_parts(words: &[u32]) -> Vec<Json> {
    let nodes = words.first().map_or(0, |&n| n as usize);
    let sections = [1, nodes.saturating_mul(3), 1];
    let mut rest = words;
    let [n, nodes, m] = sections.map(|length| take_words(&mut rest, length));
    [
        numbers().list(n),
        NODES.list(nodes),
        numbers().list(m),
        numbers().list(rest),
    ]
    .concat()
}

/// The parts of a grammar list: its count, and for each grammar, up to one more than a list may have,
/// its word count and its parts. The words behind these come last.
fn grammar_list_parts(words: &[u32]) -> Vec<Json> {
    let mut rest = words;
    let count = take_words(&mut rest, 1);
    let mut parts = numbers().list(count);
    let count = count.first().map_or(0, |&count| count as usize);
    for _ in 0..count.min(MAX_GRAMMARS + 1) {
        let [length, ..] = *rest else { break };
        parts.extend(numbers().list(take_words(&mut rest, 1)));
        parts.extend(grammar_parts(take_words(&mut rest, length as usize)));
    }
    parts.extend(numbers().list(rest));
    parts
}

impl Field<'_> {
    /// The field in JSON. Its name says which slices are grammars, lists of them and rows.
    fn to_json(&self, name: &str) -> Json {
        match self {
            Field::Uint32(number) => Json::Text(number.to_string()),
            Field::Uint64(number) => Json::Text(number.to_string()),
            Field::Size(number) => Json::Text(number.to_string()),
            Field::Bytes(bytes) => Json::List(BYTES.list(bytes)),
            Field::Uint32s(words) if name == "grammar" => Json::List(grammar_parts(words)),
            Field::Uint32s(words) if name == "list" => Json::List(grammar_list_parts(words)),
            Field::Uint32s(words) => Json::List(numbers().list(words)),
            Field::Uint64s(words) if name == "rows" => Json::List(ROWS.list(words)),
            Field::Uint64s(words) => Json::List(numbers().list(words)),
        }
    }

    /// Reads the field.
    fn read(self, json: Json) -> Result<(), String> {
        match (self, json) {
            (Field::Uint32(number), Json::Text(text)) => *number = list::number_of(&text)?,
            (Field::Uint64(number), Json::Text(text)) => *number = list::number_of(&text)?,
            (Field::Size(number), Json::Text(text)) => *number = list::number_of(&text)?,
            (Field::Bytes(bytes), json) => *bytes = list::read_list(json, list::bytes_of)?,
            (Field::Uint32s(words), json) => *words = list::read_list(json, list::numbers_of)?,
            (Field::Uint64s(words), json) => *words = list::read_list(json, list::numbers_of)?,
            (_, json) => return Err(format!("{json} is no text of a number")),
        }
        Ok(())
    }
}

/// A number and its name.
fn named(name: &str, number: impl ToString) -> (String, Json) {
    (name.to_string(), Json::Text(number.to_string()))
}

/// The text of a number that an accepted case gives.
fn given_text(case: &Case, number: u64) -> String {
    match case {
        Case::SignedNumber { .. } => (number as i64).to_string(),
        _ => number.to_string(),
    }
}

/// The number that an accepted case gives, of its text.
fn given_of(case: &Case, text: &str) -> Result<u64, String> {
    match case {
        Case::SignedNumber { .. } => decimal::<i64>(text).map(|number| number as u64),
        _ => decimal(text),
    }
}

/// The fields of a line that say what comes of the case: `accepted` with the numbers given and the
/// lent buffers after the call, or `refused`.
fn outcome_fields(outcome: &Outcome) -> Vec<(String, Json)> {
    let mut after = outcome.after();
    match &outcome.answer {
        Answer::Accepted(numbers) => {
            let given = after.given_names().iter().zip(numbers);
            let given = given.map(|(name, &number)| named(name, given_text(&after, number)));
            let mut fields = vec![("accepted".to_string(), Json::Object(given.collect()))];
            for (name, lent) in after.lent() {
                fields.push((format!("{name}_after"), lent.to_json(name)));
            }
            fields
        }
        Answer::Refused { refusal, record } => {
            let (kind, place) = match refusal.place {
                Place::Word(word) => ("word", word),
                Place::Byte(byte) => ("byte", byte),
                Place::Row(row) => ("row", row),
            };
            let mut fields = vec![
                ("number".to_string(), Json::Number(refusal.number)),
                ("place".to_string(), Json::text(kind)),
                named("at", place),
            ];
            if let Case::SameRoute { .. } = after {
                fields.push(("record".to_string(), Json::Number(*record)));
            }
            vec![("refused".to_string(), Json::Object(fields))]
        }
    }
}

/// Reads the numbers that an accepted case gives.
fn read_accepted(case: &Case, json: Json) -> Result<Answer, String> {
    let mut fields = Fields::of(json)?;
    let names = case.given_names().iter();
    let given = names.map(|name| given_of(case, &fields.take_text(name)?));
    let answer = Answer::Accepted(given.collect::<Result<_, String>>()?);
    fields.finish()?;
    Ok(answer)
}

/// Reads the refusal of a case.
fn read_refused(case: &Case, json: Json) -> Result<Answer, String> {
    let mut fields = Fields::of(json)?;
    let number = fields.take_number("number")?;
    let at = list::number_of(&fields.take_text("at")?)?;
    let place = match fields.take_text("place")?.as_str() {
        "word" => Place::Word(at),
        "byte" => Place::Byte(at),
        "row" => Place::Row(at),
        other => return Err(format!("`{other}` is no place")),
    };
    let record = match case {
        Case::SameRoute { .. } => fields.take_number("record")?,
        _ => 0,
    };
    fields.finish()?;
    let refusal = Refusal { number, place };
    Ok(Answer::Refused { refusal, record })
}

/// A case with its name and what comes of it.
#[derive(Debug, PartialEq)]
pub struct Line {
    /// What the case shows.
    pub name: String,
    /// The case.
    pub case: Case,
    /// What comes of it.
    pub outcome: Outcome,
}

impl Line {
    /// The line in JSON.
    pub fn to_json(&self) -> Json {
        let mut case = self.case.clone();
        let call = Json::text(case.call());
        let mut line = vec![
            ("name".to_string(), Json::text(self.name.clone())),
            ("call".to_string(), call),
        ];
        for (name, field) in case.fields() {
            line.push((name.to_string(), field.to_json(name)));
        }
        line.extend(outcome_fields(&self.outcome));
        Json::Object(line)
    }

    /// The line that stands in JSON.
    pub fn from_json(json: Json) -> Result<Line, String> {
        let mut fields = Fields::of(json)?;
        let name = fields.take_text("name")?;
        let call = fields.take_text("call")?;
        let mut blanks = Case::blanks().into_iter();
        let case = blanks.find(|case| case.call() == call);
        let mut case = case.ok_or_else(|| format!("there is no call `{call}`"))?;
        for (name, field) in case.fields() {
            field.read(fields.take(name)?)?;
        }
        let mut after = case.clone();
        let answer = match fields.take_any("accepted") {
            Some(accepted) => {
                for (name, lent) in after.lent() {
                    lent.read(fields.take(&format!("{name}_after"))?)?;
                }
                read_accepted(&case, accepted)?
            }
            None => read_refused(&case, fields.take("refused")?)?,
        };
        fields.finish()?;
        let outcome = Outcome::with(answer, &after);
        Ok(Line {
            name,
            case,
            outcome,
        })
    }
}

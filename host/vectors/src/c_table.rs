//! The library calls of the files as a table of C, which `host/c/test.c` runs: a line to a call, with
//! everything as text. The parts of a slice have commas between them; a part that comes again has
//! `*` and how often behind it.

use std::fmt::Write;

use compare::json::Json;
use compare::Line;

/// What a call is given, as text.
fn text_of(json: &Json) -> String {
    match json {
        Json::Number(number) => number.to_string(),
        Json::Text(text) => text.clone(),
        Json::List(parts) => parts.iter().map(text_of).collect::<Vec<_>>().join(","),
        Json::Object(repeat) => {
            let part: Vec<String> = repeat.iter().map(|(_, value)| text_of(value)).collect();
            part.join("*")
        }
    }
}

/// Adds the line of a call: name, call, what it is given, the lent buffers after an accepted call,
/// and the answer.
fn add_line(table: &mut String, line: &Line) -> std::fmt::Result {
    let (name, call) = (&line.name, line.case.call());
    write!(table, "{{\"{name}\", \"{call}\", {{")?;
    let Json::Object(fields) = line.to_json() else {
        unreachable!("a line is an object");
    };
    for (name, _) in line.case.clone().fields() {
        let field = fields.iter().find(|field| field.0 == name);
        write!(table, "\"{}\", ", text_of(&field.expect(name).1))?;
    }
    write!(table, "}}, {{")?;
    for (_, after) in fields.iter().filter(|field| field.0.ends_with("_after")) {
        write!(table, "\"{}\", ", text_of(after))?;
    }
    let answer = line.outcome.answer.c_words().map(|word| format!("{word}u"));
    writeln!(table, "NULL}}, {{{}}}}},", answer.join(", "))
}

/// The table of these calls.
pub fn c_table<'a>(lines: impl Iterator<Item = &'a Line>) -> String {
    let mut table = "static const vector vectors[] = {\n".to_string();
    for line in lines {
        add_line(&mut table, line).expect("a text grows");
    }
    table + "};\n"
}

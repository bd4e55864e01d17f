//! The C header says what the bindings say: names, meanings and prototypes. And the README's lines
//! of C are those of a program that the gate compiles and runs.

use route_record::{Place, Refusal, KINDS, REFUSALS};
use route_record::{
    CHECK_ROWS, MAX_BYTES, MAX_GRAMMARS, MAX_GRAMMAR_WORDS, MAX_LIST_WORDS, MAX_ROWS, ROW_WORDS,
};

const HEADER: &str = include_str!("../../c/route_record.h");

/// The part of a text between two marks.
fn between<'a>(text: &'a str, start: &str, end: &str) -> &'a str {
    let behind = text.split_once(start).expect(start).1;
    behind.split_once(end).expect(end).0
}

/// A text on one line, with one blank where there were several or a line's end.
fn on_one_line(text: &str) -> String {
    text.split_whitespace().collect::<Vec<_>>().join(" ")
}

/// The constants of the header's enumerations, in order.
fn constants() -> Vec<(String, u64)> {
    let enums = HEADER.split("\nenum {").skip(1);
    let bodies = enums.map(|rest| rest.split('}').next().expect("the end"));
    let words = bodies.flat_map(|body| body.split([',', '\n']));
    let pairs = words.filter_map(|word| word.split_once(" = "));
    let number = |text: &str| text.split_whitespace().next()?.parse().ok();
    let pair = |(name, text): (&str, &str)| (name.trim().to_string(), number(text).expect(text));
    pairs.map(pair).collect()
}

/// `GByteArray` as `ROUTE_KIND_BYTE_ARRAY`.
fn kind_name(of_source: &str) -> String {
    let name = of_source.strip_prefix('G').expect("a name of the source");
    let mut constant = "ROUTE_KIND".to_string();
    for letter in name.chars() {
        if letter.is_ascii_uppercase() {
            constant.push('_');
        }
        constant.push(letter.to_ascii_uppercase());
    }
    constant
}

#[test]
fn the_names_are_those_of_the_bindings() {
    let limits = [
        ("MAX_GRAMMAR_WORDS", MAX_GRAMMAR_WORDS),
        ("MAX_GRAMMARS", MAX_GRAMMARS),
        ("MAX_LIST_WORDS", MAX_LIST_WORDS),
        ("MAX_BYTES", MAX_BYTES),
        ("MAX_ROWS", MAX_ROWS),
        ("CHECK_ROWS", CHECK_ROWS),
        ("ROW_WORDS", ROW_WORDS),
    ];
    let limits = limits.map(|(name, number)| (format!("ROUTE_{name}"), number as u64));
    let kinds = KINDS.iter();
    let kinds = kinds.map(|kind| (kind_name(kind.name), u64::from(kind.number)));
    let places = ["NONE", "WORD", "BYTE", "ROW"].into_iter().zip(0..);
    let places = places.map(|(name, number)| (format!("ROUTE_PLACE_{name}"), number));
    let refusals = REFUSALS.iter();
    let refusals = refusals.map(|(number, name, _)| (format!("ROUTE_REFUSED_{name}"), *number));
    let all = limits.into_iter().chain(kinds).chain(places);
    assert_eq!(constants(), all.chain(refusals).collect::<Vec<_>>());
}

/// The text of a C string, whose parts may stand on several lines.
fn c_string(text: &str) -> String {
    text.split('"').skip(1).step_by(2).collect()
}

#[test]
fn the_meanings_are_those_of_the_bindings() {
    let body = between(HEADER, "switch (number) {", "\n}\n");
    let (cases, default) = body.split_once("default:").expect("a default");
    let cases = cases.split("case ROUTE_REFUSED_").skip(1).map(|case| {
        let (name, text) = case.split_once(':').expect("a name");
        (name.to_string(), c_string(text))
    });
    let expected = REFUSALS.iter();
    let expected = expected.map(|(_, name, meaning)| (name.to_string(), meaning.to_string()));
    assert!(cases.eq(expected));
    let (number, place) = (0, Place::Byte(0));
    let none = Refusal { number, place }.meaning();
    assert_eq!(c_string(default), none);
}

/// The C parameters of a parameter of the bindings: a slice is a pointer and a length.
fn c_parameters(parameter: &str) -> String {
    let (name, kind) = parameter.split_once(": ").expect("a name and a type");
    let element = |slice: &str| format!("uint{}_t", &slice[1..slice.len() - 1]);
    match (kind.strip_prefix("&mut [u"), kind.strip_prefix("&[u")) {
        (Some(_), _) => format!("{} *{name}, size_t {name}_len", element(&kind[6..])),
        (_, Some(_)) => format!("const {} *{name}, size_t {name}_len", element(&kind[2..])),
        _ if kind == "usize" => format!("size_t {name}"),
        _ => format!("uint{}_t {name}", kind.strip_prefix('u').expect("a number")),
    }
}

/// The prototypes that the bindings' declarations stand for.
fn prototypes_of_the_bindings() -> Vec<String> {
    let calls = include_str!("../src/ffi.rs").split("\ncall!(").skip(1);
    let prototype = |call: &str| {
        let (name, rest) = call.split_once(" = ").expect("a call");
        let parameters = on_one_line(between(rest, "(", "));"));
        let parameters: Vec<String> = parameters.split(", ").map(c_parameters).collect();
        format!("route_answer {name}({})", parameters.join(", "))
    };
    calls.map(prototype).collect()
}

#[test]
fn the_prototypes_are_those_of_the_bindings() {
    let of_header = HEADER.split("\nROUTE_NODISCARD\n").skip(1);
    let of_header = of_header.map(|rest| on_one_line(rest.split(';').next().expect("the end")));
    let of_header: Vec<String> = of_header.collect();
    assert_eq!(of_header, prototypes_of_the_bindings());
    assert_eq!(of_header.len(), HEADER.matches("\nroute_answer ").count());
}

#[test]
fn the_version_is_that_of_the_bindings() {
    let numbers = env!("CARGO_PKG_VERSION").split('.');
    let numbers = numbers.map(|number| number.parse::<u64>().expect("a number"));
    let version = numbers.fold(0, |version, number| 100 * version + number);
    let line = format!("\n#define ROUTE_RECORD_VERSION {version}\n");
    assert!(HEADER.contains(&line));
}

#[test]
fn the_readme_shows_the_program_and_what_it_prints() {
    let readme = include_str!("../../../README.md");
    let program = include_str!("../../c/first_use.c");
    assert!(readme.contains(&format!("```c\n{program}```\n")));
    let printed = include_str!("../../c/first_use.expected").lines();
    let printed: String = printed.map(|line| format!("    {line}\n")).collect();
    assert!(readme.contains(&format!("\n\n{printed}\n")));
}

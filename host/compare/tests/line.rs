//! Cases as lines of JSON: what is written is read back, and what is not such a line is refused.

use compare::json::Json;
use compare::{grammar_list, leaf, Case, Line, Value};
use route_record::ROW_WORDS;

/// The line of a case.
fn line(case: Case) -> Line {
    let outcome = case.of_model();
    let name = "a name".to_string();
    Line {
        name,
        case,
        outcome,
    }
}

/// The text of a line.
fn text(case: Case) -> String {
    line(case).to_json().to_string()
}

/// The line of a text.
fn read(text: &str) -> Result<Line, String> {
    Line::from_json(Json::parse(text)?)
}

fn packing() -> Case {
    Case::PackU32 {
        number: 7,
        out: vec![0xee; 5],
        index: 1,
    }
}

/// The signed number of a row of kind 9 alone.
fn signed_number(pattern: u64) -> Case {
    Case::SignedNumber {
        rows: vec![9, 1, pattern, 0, 4],
        n: 1,
        store: vec![],
        row: 0,
    }
}

/// The preview of writing the uint32 7 at byte 1 of these bytes.
fn preview(out: &[u8]) -> Case {
    let value = Value {
        grammar: leaf(1),
        rows: vec![1, 1, 7, 0, 4],
        n: 1,
        store: vec![],
    };
    value.preview_case(out.to_vec(), 1)
}

#[test]
fn texts() {
    assert_eq!(
        text(packing()),
        r#"{"name": "a name", "call": "pack_u32", "number": "7", "out": ["EEEEEEEEEE"], "index": "1", "accepted": {}, "out_after": ["EE07000000"]}"#
    );
    let reading = Case::Demarshall {
        grammar: vec![2, 3, 0, 1, 0, 0, 0, 1, 1],
        record: vec![6, 0, 0, 0, 0, 0, 0, 0],
        rows: vec![99; 7 * ROW_WORDS + 1],
    };
    assert_eq!(
        text(reading),
        r#"{"name": "a name", "call": "demarshall", "grammar": ["2", "3 0 1", "0 0 0", "1", "1"], "record": ["0600000000000000"], "rows": [{"repeat": "99 99 99 99 99", "times": 7}, "99"], "accepted": {"row_count": "7", "rest_index": "8"}, "rows_after": ["3 7 6 0 8", {"repeat": "0 1 0 0 0", "times": 6}, "99"]}"#
    );
    let check = Case::CheckValWith {
        grammar: leaf(0),
        record: vec![0],
        index: 1,
        capacity: 0,
    };
    assert_eq!(
        text(check),
        r#"{"name": "a name", "call": "check_val_with", "grammar": ["1", "0 0 0", "0"], "record": ["00"], "index": "1", "capacity": "0", "refused": {"number": 8, "place": "byte", "at": "1"}}"#
    );
    let check = Case::CheckWholeWith {
        grammar: leaf(0),
        record: vec![],
        capacity: usize::MAX,
    };
    assert_eq!(
        text(check),
        r#"{"name": "a name", "call": "check_whole_with", "grammar": ["1", "0 0 0", "0"], "record": [], "capacity": "18446744073709551615", "accepted": {"row_count": "1", "rest_index": "0"}}"#
    );
    assert_eq!(
        text(signed_number(4_294_967_293)),
        r#"{"name": "a name", "call": "signed_number", "rows": ["9 1 4294967293 0 4"], "n": "1", "store": [], "row": "0", "accepted": {"number": "-3"}}"#
    );
    assert_eq!(
        text(preview(&[0; 6])),
        r#"{"name": "a name", "call": "preview", "grammar": ["1", "1 0 0", "0"], "rows": ["1 1 7 0 4"], "n": "1", "store": [], "out": ["000000000000"], "index": "1", "accepted": {"size": "4", "changed": "1"}}"#
    );
    let refused = Case::SameRoute {
        grammar: vec![1, 2, 0, 0, 0],
        first: vec![0; 8],
        second: vec![0; 17],
    };
    assert_eq!(
        text(refused),
        r#"{"name": "a name", "call": "same_route", "grammar": ["1", "2 0 0", "0"], "first": ["0000000000000000"], "second": [{"repeat": "00", "times": 17}], "refused": {"number": 11, "place": "byte", "at": "8", "record": 2}}"#
    );
    let choosing = |grammars: &[Vec<u32>]| Case::ChooseGrammar {
        list: grammar_list(grammars),
        record: vec![7, 0, 0, 0],
    };
    let array = vec![2, 3, 0, 1, 0, 0, 0, 1, 1];
    assert_eq!(
        text(choosing(&[array.clone(), leaf(1)])),
        r#"{"name": "a name", "call": "choose_grammar", "list": ["2", "9", "2", "3 0 1", "0 0 0", "1", "1", "5", "1", "1 0 0", "0"], "record": ["07000000"], "accepted": {"number": "1", "begun": "2"}}"#
    );
    assert_eq!(
        text(choosing(&[array, vec![]])),
        r#"{"name": "a name", "call": "choose_grammar", "list": ["2", "9", "2", "3 0 1", "0 0 0", "1", "1", "0"], "record": ["07000000"], "refused": {"number": 1, "place": "word", "at": "12"}}"#
    );
    let accepts = |grammar: Vec<u32>| Case::Accepts {
        grammar,
        record: vec![7, 0, 0, 0],
    };
    assert_eq!(
        text(accepts(leaf(1))),
        r#"{"name": "a name", "call": "accepts", "grammar": ["1", "1 0 0", "0"], "record": ["07000000"], "accepted": {"yes": "1", "begun": "1"}}"#
    );
    assert_eq!(
        text(accepts(leaf(2))),
        r#"{"name": "a name", "call": "accepts", "grammar": ["1", "2 0 0", "0"], "record": ["07000000"], "accepted": {"yes": "0", "begun": "0"}}"#
    );
    assert_eq!(
        text(accepts(leaf(11))),
        r#"{"name": "a name", "call": "accepts", "grammar": ["1", "11 0 0", "0"], "record": ["07000000"], "refused": {"number": 3, "place": "word", "at": "1"}}"#
    );
}

#[test]
fn read_back() {
    let signed = [0, 1, (1 << 31) - 1, 1 << 31, (1 << 32) - 1].map(signed_number);
    let previews = [preview(&[0; 6]), preview(&[0; 4])];
    let others = [packing()].into_iter().chain(signed).chain(previews);
    for case in Case::blanks().into_iter().chain(others) {
        let line = line(case);
        assert_eq!(read(&line.to_json().to_string()), Ok(line));
    }
}

/// Runs of every length around the one from which content is repeated, and of two contents.
#[test]
fn runs_read_back() {
    for length in 0..40 {
        for other in 0..3 {
            let mut packed = vec![5; length];
            packed.extend(vec![6; other]);
            packed.extend(vec![5; 20]);
            let line = line(Case::UnpackU64 { packed, index: 3 });
            assert_eq!(read(&line.to_json().to_string()), Ok(line));
        }
    }
}

#[test]
fn grammars_of_any_words_read_back() {
    let tables: [&[u32]; 6] = [
        &[],
        &[2],
        &[2, 3, 0],
        &[u32::MAX, 1],
        &[0, 1, 2, 3],
        &[1; 9],
    ];
    for table in tables {
        let grammar = table.to_vec();
        let line = line(Case::CheckGrammar { grammar });
        assert_eq!(read(&line.to_json().to_string()), Ok(line));
    }
}

#[test]
fn grammar_lists_of_any_words_read_back() {
    let lists: [&[u32]; 8] = [
        &[],
        &[0],
        &[2],
        &[1, 5, 1, 0],
        &[1, u32::MAX, 1, 0, 0, 0, 0],
        &[u32::MAX, 0, 0],
        &[1, 5, 1, 0, 0, 0, 0, 9],
        &[3, 1, u32::MAX, 2, 1, 1, 0],
    ];
    for list in lists {
        let (list, record) = (list.to_vec(), vec![]);
        let line = line(Case::ChooseGrammar { list, record });
        assert_eq!(read(&line.to_json().to_string()), Ok(line));
    }
}

/// The error of a case's line with a part replaced.
fn error_in(case: Case, old: &str, new: &str) -> String {
    let sound = text(case);
    assert!(sound.contains(old), "{old}");
    read(&sound.replace(old, new)).expect_err(new)
}

/// The error of the packing's line with a part replaced.
fn error(old: &str, new: &str) -> String {
    error_in(packing(), old, new)
}

#[test]
fn fields_are_exactly_those_of_the_call() {
    assert_eq!(error(r#""index": "1", "#, ""), "`index` is missing");
    assert_eq!(error(r#""name": "a name", "#, ""), "`name` is missing");
    assert_eq!(
        error(r#""index": "1""#, r#""index": "1", "row": "0""#),
        "`row` is unknown here"
    );
    assert_eq!(
        error(r#""index": "1""#, r#""index": "1", "index": "1""#),
        "`index` stands twice"
    );
    assert_eq!(error("pack_u32", "pack_u16"), "there is no call `pack_u16`");
    assert_eq!(
        error(r#", "out_after": ["EE07000000"]"#, ""),
        "`out_after` is missing"
    );
    assert_eq!(
        error(r#""accepted": {}"#, r#""accepted": {"size": "4"}"#),
        "`size` is unknown here"
    );
    let refused = r#""refused": {"number": 17, "place": "byte", "at": "5"}"#;
    assert_eq!(
        error(r#""accepted": {}"#, refused),
        "`out_after` is unknown here"
    );
    assert_eq!(
        error(r#", "accepted": {}, "out_after": ["EE07000000"]"#, ""),
        "`refused` is missing"
    );
    let (given, after) = (r#""changed": "1"}"#, r#", "out_after": ["000700000000"]"#);
    assert_eq!(
        error_in(preview(&[0; 6]), given, &format!("{given}{after}")),
        "`out_after` is unknown here"
    );
}

#[test]
fn numbers_and_bytes_have_one_spelling() {
    let out = r#"["EE07000000"]"#;
    for (old, new, expected) in [
        (r#""1""#, r#""01""#, "`01` is no number"),
        (r#""1""#, r#""+1""#, "`+1` is no number"),
        (r#""1""#, r#""-1""#, "`-1` is no number"),
        (r#""1""#, r#""""#, "`` is no number"),
        (r#""1""#, "1", "1 is no text of a number"),
        (
            r#""1""#,
            r#""18446744073709551616""#,
            "`18446744073709551616` is no number",
        ),
        (r#""7""#, r#""4294967296""#, "`4294967296` is too large"),
        ("EE07000000", "ee07000000", "`ee07000000` are no bytes"),
        ("EE07000000", "EE0700000", "`EE0700000` are no bytes"),
        ("EE07000000", "EE 07000000", "`EE 07000000` are no bytes"),
        ("EE07000000", "", "`` 1 times: no element, or too many"),
        (out, r#""EE07000000""#, "\"EE07000000\" is no list"),
        (out, r#"[{"repeat": "EE", "times": 0}]"#, "repeated 0 times"),
        (
            out,
            r#"[{"repeat": "EE", "times": 99999999}]"#,
            "`EE` 99999999 times: no element, or too many",
        ),
        (out, r#"[{"repeat": "EE"}]"#, "`times` is missing"),
    ] {
        assert_eq!(error(old, new), expected);
    }
}

/// A number below zero stands where a signed one is given, and nowhere else.
#[test]
fn signed_numbers_have_one_spelling() {
    let sound = signed_number(4_294_967_293);
    for other in [
        "-03",
        "--3",
        "+3",
        "- 3",
        "-",
        "-0",
        "9223372036854775808",
        "-9223372036854775809",
        "18446744073709551613",
    ] {
        let (old, new) = (r#""-3""#, format!("\"{other}\""));
        let expected = format!("`{other}` is no number");
        assert_eq!(error_in(sound.clone(), old, &new), expected);
    }
    let size = Case::ComputeSizeOf {
        rows: vec![9, 1, 0, 0, 4],
        n: 1,
        store: vec![],
    };
    let error = error_in(size, r#""size": "4""#, r#""size": "-4""#);
    assert_eq!(error, "`-4` is no number");
}

#[test]
fn what_is_no_json() {
    for text in [
        "",
        "{",
        "[1, ]",
        "[1 2]",
        "[,1]",
        r#"{"a" 1}"#,
        r#"{a: 1}"#,
        r#"{"a": 1,}"#,
        r#""a"#,
        r#""\n""#,
        "\"\n\"",
        "01",
        "-1",
        "1.5",
        "1e3",
        "18446744073709551616",
        "true",
        "null",
        "1 1",
        "[1]]",
    ] {
        assert!(Json::parse(text).is_err(), "{text}");
    }
    let sound = r#" { "a" : [ 1 , "b" , { } , [ ] ] , "c" : 0 } "#;
    let written = Json::parse(sound).expect("JSON").to_string();
    assert_eq!(written, r#"{"a": [1, "b", {}, []], "c": 0}"#);
}

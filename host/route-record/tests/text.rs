//! Grammars as text: types, words and their errors.

use std::error::Error;

use route_record::{Grammar, GrammarError, Place, KINDS};

fn words(text: &str) -> Vec<u32> {
    let grammar = text.parse::<Grammar>();
    let grammar = grammar.unwrap_or_else(|error| panic!("{text:?}: {error}"));
    grammar.words().to_vec()
}

/// The message of the wrong text, which its source has too.
fn error(text: &str) -> String {
    let error = text.parse::<Grammar>().expect_err(text);
    let source = error.source().expect("what the error holds").to_string();
    assert!(matches!(error, GrammarError::Text(_)), "{text:?}: {error}");
    assert_eq!(error.to_string(), source);
    source
}

/// The number, the word and its description where the table of a text is refused.
fn refused(text: &str) -> (u64, Place, String) {
    match text.parse::<Grammar>() {
        Err(GrammarError::Refused { refusal, word }) => (refusal.number, refusal.place, word),
        other => panic!("{other:?}"),
    }
}

#[test]
fn the_grammars_of_the_bench_examples() {
    let case_a = [3, 4, 0, 2, 1, 0, 0, 5, 0, 0, 2, 1, 2];
    assert_eq!(words("tuple(u32, bytes)"), case_a);
    assert_eq!(words("constant"), [1, 0, 0, 0, 0]);
    assert_eq!(words("array(constant)"), [2, 3, 0, 1, 0, 0, 0, 1, 1]);
    assert_eq!(words("union()"), [1, 8, 0, 0, 0]);
    assert_eq!(words("u32s"), [1, 6, 0, 0, 0]);
    for text in [
        "3, 4 0 2, 1 0 0, 5 0 0, 2, 1 2",
        "3 4 0 2 1 0 0 5 0 0 2 1 2\n",
        "# case A\n3,\n4,0,2,\n1,0,0,\n0x5,0x0,0x00,\n2,\n1,2,\n",
    ] {
        assert_eq!(words(text), case_a, "{text:?}");
    }
}

#[test]
fn every_kind_is_written_by_its_form() {
    for kind in KINDS {
        let text = kind.form().replace("..", "T").replace('T', "u32");
        assert_eq!(words(&text)[1], kind.number, "{text}");
    }
}

#[test]
fn signed_numbers_are_types_of_their_own() {
    let words_of = |kind| [3, 4, 0, 2, kind, 0, 0, 1, 0, 0, 2, 1, 2];
    assert_eq!(words("tuple(i32, u32)"), words_of(9));
    assert_eq!(words("tuple(i64, u32)"), words_of(10));
}

#[test]
fn a_name_is_one_node_and_a_kind_one_at_each_use() {
    let pair = [2, 4, 0, 2, 1, 0, 0, 2, 1, 1];
    assert_eq!(words("n = u32; tuple(n, n)"), pair);
    let two = [3, 4, 0, 2, 1, 0, 0, 1, 0, 0, 2, 1, 2];
    assert_eq!(words("tuple(u32, u32)"), two);
    assert_eq!(words("n = u32; m = n; tuple(n, m)"), pair);
    assert_eq!(words("n = u32; n"), [1, 1, 0, 0, 0]);
    assert_eq!(words("_1 = u32; _1"), [1, 1, 0, 0, 0]);
}

#[test]
fn a_node_stands_behind_all_its_parents_and_else_in_the_order_of_the_text() {
    let expected = [
        6, 4, 0, 2, 3, 2, 1, 1, 0, 0, 8, 3, 2, 5, 0, 0, 4, 0, 0, 5, 1, 3, 2, 4, 5,
    ];
    assert_eq!(words("tuple(array(u32), union(bytes, tuple()))"), expected);
    let shared = [3, 4, 0, 3, 3, 3, 1, 1, 0, 0, 4, 2, 1, 2, 2];
    for text in [
        "a = u32; b = array(a); tuple(a, b, a)",
        "a = u32\nb = array(a)\ntuple(a, b, a)\n",
        "a=u32;b=array(a);tuple(a,b,a)",
        "a = u32 b = array(a) tuple(a, b, a)",
        "a # the first\n=\nu32\r\n;b = array\n(a)\ntuple(\n  a, # a\n  b, a\n)",
    ] {
        assert_eq!(words(text), shared, "{text:?}");
    }
}

#[test]
fn wrong_texts() {
    let a_type = "a kind or a name defined before";
    let a_word = "a number below 4294967296, decimal or 0x..";
    let end = "the end of the text";
    let (long, cut) = ("ä".repeat(41), format!("'{}..'", "ä".repeat(40)));
    for (text, position, expected, found) in [
        ("tuple(u32,\n      bytes x)", "2:13", "')' or ','", "'x'"),
        ("array(u32, u32)", "1:10", "')'", "','"),
        ("array()", "1:7", a_type, "')'"),
        ("tuple(u32,)", "1:11", a_type, "')'"),
        ("tuple(,)", "1:7", a_type, "','"),
        ("tuple u32", "1:7", "'('", "'u32'"),
        ("union", "1:6", "'('", end),
        ("union(u32", "1:10", "')' or ','", end),
        ("u32()", "1:4", end, "'('"),
        ("tuple(u32())", "1:10", "')' or ','", "'('"),
        ("u32 u32", "1:5", end, "'u32'"),
        ("u32;", "1:4", end, "';'"),
        ("u32\r\n\n %=", "3:2", end, "'%'"),
        ("U32", "1:1", a_type, "'U32'"),
        ("i32s", "1:1", a_type, "'i32s'"),
        ("tuple(größe, 3)", "1:7", a_type, "'größe'"),
        ("tuple(u32, 3)", "1:12", a_type, "'3'"),
        ("\u{feff}u32", "1:1", a_type, "'\\u{feff}'"),
        (&long, "1:1", a_type, &cut),
        (&long[2..], "1:1", a_type, &cut.replace("..", "")),
        ("", "1:1", a_type, end),
        ("# only this\n", "2:1", a_type, end),
        ("a = u32", "1:8", a_type, end),
        ("a = a; a", "1:5", a_type, "'a'"),
        ("a = b; b = u32; tuple(a, b)", "1:5", a_type, "'b'"),
        ("a = ; a", "1:5", a_type, "';'"),
        ("a = u32;; a", "1:9", a_type, "';'"),
        ("a; a = u32", "1:1", a_type, "'a'"),
        ("u32 a = u32", "1:5", end, "'a'"),
        ("\n u32 = u64 u32", "2:2", "a name that is no kind", "'u32'"),
        ("i64 = u64 i64", "1:1", "a name that is no kind", "'i64'"),
        (
            "ä = u32; ä = u64; ä",
            "1:10",
            "a name other than that of 1:1",
            "'ä'",
        ),
        (
            "a = u32\nu64",
            "1:1",
            "a use of 'a' behind its definition",
            "none",
        ),
        (
            "a = u32\nc = a\nb = a\nu64",
            "2:1",
            "a use of 'c' behind its definition",
            "none",
        ),
        ("1 2,\n 4294967296", "2:2", a_word, "'4294967296'"),
        ("0x100000000", "1:1", a_word, "'0x100000000'"),
        ("1 0x", "1:3", a_word, "'0x'"),
        ("1 0b1", "1:3", a_word, "'0b1'"),
        ("1 1_000", "1:3", a_word, "'1_000'"),
        ("1,,2", "1:3", a_word, "','"),
        ("1 -2", "1:3", a_word, "'-'"),
        ("1 u32", "1:3", a_word, "'u32'"),
    ] {
        let expected = format!("{position}: expected {expected}, found {found}");
        assert_eq!(error(text), expected, "{text:?}");
    }
}

/// A refused table is said with what stands at the refusal's word.
#[test]
fn refused_tables() {
    let node = "word 1 is the kind of node 0: kind 11, first 0, count 0; child words 0";
    let first = "word 5 is the first of node 1: kind 3, first 0, count 4294967295; child words 1";
    let tuple = |field: &str, count: usize| {
        format!(
            "n = u32; tuple(n{})",
            format!(", {field}").repeat(count - 1)
        )
    };
    for (text, number, place, word, length) in [
        ("257", 1, 0, "word 0 is the node count: 257", 1),
        ("1", 2, 4, "word 4 is the count of child words: missing", 1),
        ("1 11 0 0 0", 3, 1, node, 5),
        ("2 0 0 0 3 0 0xFFFFFFFF 1 1", 4, 5, first, 9),
        ("1 4 0 1 1 0", 5, 5, "word 5 is child word 0: 0", 6),
        (
            &tuple("u32", 256),
            1,
            0,
            "word 0 is the node count: 257",
            1_029,
        ),
        (
            &tuple("n", 1_025),
            2,
            7,
            "word 7 is the count of child words: 1025",
            1_033,
        ),
    ] {
        let expected = format!("{word} (table length {length})");
        assert_eq!(refused(text), (number, Place::Word(place), expected));
    }
    assert_eq!(words(&tuple("u32", 255))[0], 256);
    assert_eq!(words(&tuple("n", 1_024))[7], 1_024);
    let error = "257".parse::<Grammar>().unwrap_err();
    let source = error.source().expect("the refusal");
    let word = "word 0 is the node count: 257 (table length 1)";
    assert_eq!(error.to_string(), format!("{source}; {word}"));
}

#[test]
fn a_text_may_be_nested_deeper_than_calls_can() {
    let depth = 100_000;
    let text = format!("{}u32{}", "array(".repeat(depth), ")".repeat(depth));
    let word = "word 0 is the node count: 100001 (table length 400005)";
    assert_eq!(refused(&text), (1, Place::Word(0), word.to_string()));
    let position = text.len();
    let expected = format!("1:{position}: expected ')', found the end of the text");
    assert_eq!(error(&text[..position - 1]), expected);
}

//! Yes or no: whether a record is accepted, the values begun, and the least lengths, below which a
//! record is not read. Random cases are in `host/compare`.

use std::slice;

use route_record::calls::{accepts, check_whole_with};
use route_record::{Grammar, GrammarList, Place, Refusal, Verdict, MAX_BYTES, MAX_ROWS};

/// Document 01's examples A to D.
const TUPLE: &[u32] = &[3, 4, 0, 2, 1, 0, 0, 5, 0, 0, 2, 1, 2];
const CONSTANT: &[u32] = &[1, 0, 0, 0, 0];
const CONSTANTS: &[u32] = &[2, 3, 0, 1, 0, 0, 0, 1, 1];
const NO_CASE: &[u32] = &[1, 8, 0, 0, 0];

const BYTES: &[u32] = &[1, 5, 0, 0, 0];
/// An array of unions without cases.
const ARRAY_OF_NO_CASE: &[u32] = &[2, 3, 0, 1, 8, 0, 0, 1, 1];
/// A tuple of a uint32 and a union without cases.
const TUPLE_WITH_NO_CASE: &[u32] = &[3, 4, 0, 2, 1, 0, 0, 8, 0, 0, 2, 1, 2];
/// A union of a union without cases, a uint32 and a uint64.
const UNION: &[u32] = &[4, 8, 0, 3, 8, 0, 0, 1, 0, 0, 2, 0, 0, 3, 1, 2, 3];

/// The record of example A.
const RECORD: [u8; 14] = [7, 0, 0, 0, 2, 0, 0, 0, 0, 0, 0, 0, 0x41, 0x42];

/// So many nodes: tuples of the next node twice, and a leaf of this kind.
fn doubling(nodes: u32, leaf: u32) -> Vec<u32> {
    let tuples = (0..nodes - 1).flat_map(|node| [4, 2 * node, 2]);
    let children = (1..nodes).flat_map(|child| [child, child]);
    let words = [nodes].into_iter().chain(tuples).chain([leaf, 0, 0]);
    words.chain([2 * (nodes - 1)]).chain(children).collect()
}

/// A count of elements or a tag.
fn count(n: usize) -> [u8; 8] {
    (n as u64).to_le_bytes()
}

fn yes(begun: usize) -> Verdict {
    let accepted = true;
    Verdict { accepted, begun }
}

fn no(begun: usize) -> Verdict {
    let accepted = false;
    Verdict { accepted, begun }
}

/// The verdict under a sound grammar. It is yes exactly when the check with 4,096 rows accepts, and
/// a yes has begun what the choice from a list of this one grammar has.
fn ask(words: &[u32], record: &[u8]) -> Verdict {
    let grammar = Grammar::check(words).unwrap();
    let verdict = grammar.accepts(record);
    assert_eq!(accepts(words, record), Ok(verdict));
    let checked = check_whole_with(words, record, MAX_ROWS);
    assert_eq!(verdict.accepted, checked.is_ok(), "{words:?}, {checked:?}");
    if verdict.accepted {
        let list = GrammarList::new(slice::from_ref(&grammar)).unwrap();
        assert_eq!(list.choose(record).unwrap().begun, verdict.begun);
    }
    verdict
}

#[test]
fn a_tuple() {
    let longer = [&RECORD[..], &[0]].concat();
    assert_eq!(ask(TUPLE, &RECORD), yes(3));
    assert_eq!(ask(TUPLE, &RECORD[..13]), no(3));
    assert_eq!(ask(TUPLE, &RECORD[..12]), no(3));
    assert_eq!(ask(TUPLE, &RECORD[..11]), no(0));
    assert_eq!(ask(TUPLE, &[]), no(0));
    assert_eq!(ask(TUPLE, &longer), no(3));
}

#[test]
fn constants() {
    assert_eq!(ask(CONSTANT, &[]), yes(1));
    assert_eq!(ask(CONSTANT, &[0]), no(1));
    assert_eq!(ask(CONSTANTS, &count(3)), yes(4));
    assert_eq!(ask(CONSTANTS, &count(4_095)), yes(4_096));
    assert_eq!(ask(CONSTANTS, &count(4_096)), no(1));
    assert_eq!(ask(CONSTANTS, &[0; 7]), no(0));
}

#[test]
fn unions_without_cases() {
    for record in [&[][..], &[0; 8], &vec![0; MAX_BYTES]] {
        assert_eq!(ask(NO_CASE, record), no(0));
        assert_eq!(ask(TUPLE_WITH_NO_CASE, record), no(0));
    }
    assert_eq!(ask(TUPLE_WITH_NO_CASE, &[0; 12]), no(0));
    assert_eq!(ask(ARRAY_OF_NO_CASE, &count(0)), yes(1));
    assert_eq!(ask(ARRAY_OF_NO_CASE, &count(1)), no(2));
    assert_eq!(ask(UNION, &[0; 11]), no(0));
    assert_eq!(ask(UNION, &[0; 12]), no(2));
    assert_eq!(ask(UNION, &[&count(1)[..], &[0; 4]].concat()), yes(2));
    assert_eq!(ask(UNION, &[&count(2)[..], &[0; 8]].concat()), yes(2));
    assert_eq!(ask(UNION, &[&count(3)[..], &[0; 8]].concat()), no(1));
}

/// A value would have 4 MiB; 2^258 bytes; 1 MiB, the length of the record, and 2^19 - 1 rows; no byte
/// and 8,191 rows; no byte and 4,095 rows.
#[test]
fn sums_and_rows() {
    let longest = vec![0; MAX_BYTES];
    assert_eq!(ask(&doubling(20, 2), &longest), no(0));
    assert_eq!(ask(&doubling(256, 2), &longest), no(0));
    assert_eq!(ask(&doubling(18, 2), &longest[1..]), no(0));
    assert_eq!(ask(&doubling(18, 2), &longest), no(4_097));
    assert_eq!(ask(&doubling(13, 0), &[]), no(4_097));
    assert_eq!(ask(&doubling(12, 0), &[]), yes(4_095));
}

#[test]
fn a_record_that_is_too_long() {
    let mut record = vec![0; MAX_BYTES + 1];
    record[..8].copy_from_slice(&count(MAX_BYTES - 8));
    assert_eq!(ask(BYTES, &record[..MAX_BYTES]), yes(1));
    assert_eq!(ask(BYTES, &record), no(0));
    record[..8].copy_from_slice(&count(MAX_BYTES - 7));
    assert_eq!(ask(BYTES, &record), no(0));
    assert_eq!(ask(CONSTANT, &record), no(0));
}

/// 1 to 5 come first, also for a record that is too short or too long.
#[test]
fn a_grammar_is_refused_whatever_the_record_is() {
    let cases: [(&[u32], u64, u64); 6] = [
        (&[], 1, 0),
        (&[257], 1, 0),
        (&CONSTANT[..4], 2, 4),
        (&[1, 11, 0, 0, 0], 3, 1),
        (&[1, 2, 0, 1, 0], 4, 2),
        (&[1, 4, 0, 1, 1, 0], 5, 5),
    ];
    for (words, number, word) in cases {
        let place = Place::Word(word);
        for record in [&[][..], &[0; 8], &vec![0; MAX_BYTES + 1]] {
            let refusal = Refusal { number, place };
            assert_eq!(accepts(words, record), Err(refusal), "{words:?}");
        }
    }
}

/// The table from node k on, whose root is that node.
fn from_node(words: &[u32], k: usize) -> Vec<u32> {
    let grammar = Grammar::check(words).unwrap();
    let [node_count, nodes, child_word_count, child_words] = grammar.sections();
    // Child words of nodes before it are not looked at.
    let children = child_words.iter().map(|child| child.wrapping_sub(k as u32));
    let words = [node_count[0] - k as u32].into_iter();
    let words = words.chain(nodes[3 * k..].iter().copied());
    words.chain([child_word_count[0]]).chain(children).collect()
}

/// A node's least length: below it a record is not read, and from it on it is, whatever its bytes
/// are. None: no record is read.
fn assert_least(words: &[u32], least: Option<usize>) {
    let around = match least {
        Some(least) => least.saturating_sub(20)..=(least + 20).min(MAX_BYTES),
        None => 0..=40,
    };
    let ends = [0, MAX_BYTES - 1, MAX_BYTES];
    for length in around.chain(ends) {
        let is_read = least.is_some_and(|least| length >= least);
        for byte in [0, 1, 255] {
            let verdict = ask(words, &vec![byte; length]);
            assert_eq!(verdict.begun > 0, is_read, "{words:?}, {length}");
        }
    }
}

#[test]
fn the_least_length_of_each_node() {
    let doubled = doubling(20, 2);
    let lengths = (0..20).map(|k| 8_usize << (19 - k));
    // Above the longest record.
    let doubled_least: Vec<_> = lengths.map(|length| Some(length.min(1_048_577))).collect();
    assert_eq!(
        doubled_least[1..4],
        [1_048_577, 1_048_576, 524_288].map(Some)
    );
    let cases: [(&[u32], &[Option<usize>]); 11] = [
        (TUPLE, &[Some(12), Some(4), Some(8)]),
        (CONSTANT, &[Some(0)]),
        (CONSTANTS, &[Some(8), Some(0)]),
        (NO_CASE, &[None]),
        (ARRAY_OF_NO_CASE, &[Some(8), None]),
        (TUPLE_WITH_NO_CASE, &[None, Some(4), None]),
        (UNION, &[Some(12), None, Some(4), Some(8)]),
        (&doubling(13, 0), &[Some(0); 13]),
        (&doubling(13, 8), &[None; 13]),
        (&doubled, &doubled_least),
        (BYTES, &[Some(8)]),
    ];
    for (words, lengths) in cases {
        assert_eq!(words[0] as usize, lengths.len());
        for (k, &least) in lengths.iter().enumerate() {
            assert_least(&from_node(words, k), least);
        }
    }
}

#[test]
fn the_least_length_of_each_type() {
    for (text, least) in [
        ("constant", Some(0)),
        ("u32", Some(4)),
        ("i32", Some(4)),
        ("u64", Some(8)),
        ("i64", Some(8)),
        ("bytes", Some(8)),
        ("u32s", Some(8)),
        ("u64s", Some(8)),
        ("array(u64)", Some(8)),
        ("array(union())", Some(8)),
        ("tuple()", Some(0)),
        ("tuple(i32, i64, u32s)", Some(20)),
        ("tuple(u32, tuple(constant, tuple(u64)))", Some(12)),
        ("tuple(u32, tuple(union()))", None),
        ("union(tuple(u64, u64), u32, u64)", Some(12)),
        ("union(u64, tuple(union(), u32))", Some(16)),
        ("union(union(union()), tuple(u32, union()))", None),
        ("union(union(union(u32)))", Some(28)),
        ("n = tuple(u32, u32) tuple(n, n, union(n, u64s))", Some(32)),
        ("n = union() union(n, array(n), tuple(n))", Some(16)),
    ] {
        let grammar = text.parse::<Grammar>().unwrap();
        assert_least(grammar.words(), least);
    }
}

/// 256 nodes, each below the next: tuples of one field, and cases of unions that have no other.
#[test]
fn the_least_length_of_256_nodes() {
    let chain = |kind, leaf| {
        let nodes = (0..255).flat_map(|node| [kind, node, 1]);
        let words = [256].into_iter().chain(nodes).chain([leaf, 0, 0, 255]);
        words.chain(1..256).collect::<Vec<u32>>()
    };
    assert_least(&chain(4, 1), Some(4));
    assert_least(&chain(8, 1), Some(255 * 8 + 4));
    assert_least(&chain(4, 8), None);
    assert_least(&chain(8, 8), None);
    assert_eq!(ask(&chain(4, 1), &[7; 4]), yes(256));
    assert_eq!(ask(&chain(8, 1), &[0; 255 * 8 + 4]), yes(256));
}

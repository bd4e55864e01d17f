//! Choosing a grammar: the first of a list that accepts, the values begun, and the refusals in their
//! order. Random cases are in `host/compare`.

use route_record::calls::choose_grammar;
use route_record::{Chosen, Grammar, GrammarList, Place, Refusal};
use route_record::{MAX_BYTES, MAX_GRAMMARS, MAX_GRAMMAR_WORDS, MAX_LIST_WORDS, MAX_ROWS};

/// Grammars of document 01 and of its examples A, B, C, D and F.
const UINT32: &[u32] = &[1, 1, 0, 0, 0];
const UINT64: &[u32] = &[1, 2, 0, 0, 0];
const TUPLE: &[u32] = &[3, 4, 0, 2, 1, 0, 0, 5, 0, 0, 2, 1, 2];
const CONSTANT: &[u32] = &[1, 0, 0, 0, 0];
const CONSTANTS: &[u32] = &[2, 3, 0, 1, 0, 0, 0, 1, 1];
const NO_CASE: &[u32] = &[1, 8, 0, 0, 0];
const ITS_OWN_CHILD: &[u32] = &[1, 4, 0, 1, 1, 0];

/// The record of example A.
const RECORD: [u8; 14] = [7, 0, 0, 0, 2, 0, 0, 0, 0, 0, 0, 0, 0x41, 0x42];

/// The list of these grammars, sound or not.
fn list(grammars: &[&[u32]]) -> Vec<u32> {
    let mut words = vec![grammars.len() as u32];
    for grammar in grammars {
        words.push(grammar.len() as u32);
        words.extend(*grammar);
    }
    words
}

/// A grammar whose value would have 8,191 rows: twelve tuples of the next node twice, and a
/// constant.
fn wide() -> Vec<u32> {
    let tuples = (0..12).flat_map(|node| [4, 2 * node, 2]);
    let children = (1..=12).flat_map(|child| [child, child]);
    let words = [13].into_iter().chain(tuples).chain([0, 0, 0, 24]);
    words.chain(children).collect()
}

fn accepted(number: usize, begun: usize) -> Result<Chosen, Refusal> {
    Ok(Chosen { number, begun })
}

fn refused(number: u64, place: Place) -> Result<Chosen, Refusal> {
    Err(Refusal { number, place })
}

fn none_accepts() -> Result<Chosen, Refusal> {
    refused(Refusal::NO_GRAMMAR_ACCEPTS, Place::Byte(0))
}

#[test]
fn the_first_that_accepts() {
    let three = list(&[UINT64, UINT32, CONSTANT]);
    assert_eq!(choose_grammar(&three, &[0; 8]), accepted(0, 1));
    assert_eq!(choose_grammar(&three, &[0; 4]), accepted(1, 2));
    assert_eq!(choose_grammar(&three, &[]), accepted(2, 3));
    assert_eq!(choose_grammar(&three, &[0]), none_accepts());

    let twice = list(&[UINT32, UINT64, UINT64]);
    assert_eq!(choose_grammar(&twice, &[0; 8]), accepted(1, 2));
}

#[test]
fn the_values_begun_by_all_tries() {
    // Bytes left over behind one value, a count above the rows left, then three rows.
    let words = list(&[UINT32, CONSTANTS, TUPLE]);
    assert_eq!(choose_grammar(&words, &RECORD), accepted(2, 1 + 1 + 3));
    // The tuple and its first field.
    let words = list(&[TUPLE, CONSTANT]);
    assert_eq!(choose_grammar(&words, &[]), accepted(1, 2 + 1));
    let words = list(&[&[NO_CASE; 15][..], &[CONSTANT]].concat());
    assert_eq!(choose_grammar(&words, &[]), accepted(15, 16));
}

#[test]
fn the_most_values_begun() {
    let wide = wide();
    let record = (MAX_ROWS as u64 - 1).to_le_bytes();
    let words = list(&[&[&wide[..]; 15][..], &[CONSTANTS]].concat());
    assert_eq!(words.len(), 1_001);
    let begun = 15 * (MAX_ROWS + 1) + MAX_ROWS;
    assert_eq!(begun, 65_551);
    assert_eq!(choose_grammar(&words, &record), accepted(15, begun));
    assert_eq!(
        choose_grammar(&list(&[&wide[..]; 16]), &record),
        none_accepts()
    );
    let one_more = (MAX_ROWS as u64).to_le_bytes();
    assert_eq!(choose_grammar(&words, &one_more), none_accepts());
}

#[test]
fn a_list_that_is_not_laid_out() {
    let of_constant = list(&[CONSTANT]);
    let longer = [&of_constant[..], &[0]].concat();
    for words in [
        &[][..],
        &[0],
        &[1],
        &[1, u32::MAX],
        &[16, u32::MAX],
        &[u32::MAX],
        &list(&[CONSTANT; 17]),
        &[2, 5, 1, 0, 0, 0, 0],
        &[2, 5, 1, 0, 0, 0, 0, 1],
        &of_constant[..6],
        &longer,
    ] {
        for record in [&[][..], &vec![0; MAX_BYTES + 1]] {
            let answer = choose_grammar(words, record);
            assert_eq!(answer, refused(21, Place::Word(0)), "{words:?}");
        }
    }
    assert_eq!(choose_grammar(&of_constant, &[]), accepted(0, 1));
    assert_eq!(choose_grammar(&list(&[CONSTANT; 16]), &[]), accepted(0, 1));
}

/// Behind a grammar that accepts the record, and with a record that is too long: 1 to 5 come before
/// 6 and before the first try.
#[test]
fn a_grammar_is_refused_at_a_word_of_the_list() {
    let kind = &[1, 11, 0, 0, 0][..];
    let count = &[1, 2, 0, 1, 0][..];
    for (words, number, word) in [
        (vec![1, 0], 1, 2),
        (list(&[CONSTANT, &[]]), 1, 8),
        (list(&[&[], CONSTANT]), 1, 2),
        (list(&[CONSTANT, &[257]]), 1, 8),
        (list(&[CONSTANT, &CONSTANT[..4]]), 2, 8 + 4),
        (list(&[CONSTANT, kind]), 3, 8 + 1),
        (list(&[CONSTANT, count]), 4, 8 + 2),
        (list(&[CONSTANT, ITS_OWN_CHILD]), 5, 8 + 5),
        (list(&[CONSTANT, TUPLE, ITS_OWN_CHILD]), 5, 22 + 5),
        (list(&[ITS_OWN_CHILD, kind]), 5, 2 + 5),
    ] {
        for record in [&[][..], &vec![0; MAX_BYTES + 1]] {
            let answer = choose_grammar(&words, record);
            assert_eq!(answer, refused(number, Place::Word(word)), "{words:?}");
        }
    }
}

#[test]
fn a_record_that_is_too_long() {
    let words = list(&[UINT32, &[1, 5, 0, 0, 0]]);
    let mut record = vec![0; MAX_BYTES + 1];
    record[..8].copy_from_slice(&(MAX_BYTES as u64 - 8).to_le_bytes());
    assert_eq!(choose_grammar(&words, &record[..MAX_BYTES]), accepted(1, 2));
    let answer = choose_grammar(&words, &record);
    assert_eq!(answer, refused(6, Place::Byte(0)));
}

#[test]
fn a_list_chooses_as_one_grammar_after_the_other() {
    let texts = [
        "union()",
        "tuple(u32, bytes)",
        "array(u32)",
        "tuple(i32, i64)",
        "u64s",
        "tuple(u32s, union(constant, u32))",
    ];
    let grammars = texts.map(|text| text.parse::<Grammar>().unwrap());
    let list = GrammarList::new(&grammars).unwrap();
    let mut records = Vec::new();
    for length in 0..40 {
        for byte in [0, 1, 2] {
            let mut record = vec![0; length];
            record.iter_mut().step_by(8).for_each(|each| *each = byte);
            records.push(record);
        }
    }
    // Arrays of uint32 of 1,025, 4,096 and 4,097 rows.
    for count in [1_024, MAX_ROWS - 1, MAX_ROWS] {
        records.push([&(count as u64).to_le_bytes()[..], &vec![0; 4 * count]].concat());
    }
    let mut chosen = Vec::new();
    for record in records {
        let accepts = |grammar: &Grammar| grammar.check_whole_with(&record, MAX_ROWS).is_ok();
        let first = grammars.iter().position(accepts);
        let answer = list.choose(&record);
        assert_eq!(answer, choose_grammar(list.words(), &record));
        match (first, answer) {
            (Some(first), Ok(answer)) => assert_eq!(answer.number, first),
            (None, answer) => assert_eq!(answer, none_accepts()),
            (first, answer) => panic!("{first:?} accepts, and {answer:?} was chosen"),
        }
        chosen.extend(first);
    }
    // The first has no record.
    for (number, text) in texts.iter().enumerate() {
        assert_eq!(chosen.contains(&number), number > 0, "{text}");
    }
}

#[test]
fn a_list_has_from_one_to_16_grammars() {
    let largest = [&[256][..], &[0; 3 * 256], &[1_024], &[0; 1_024]].concat();
    let largest = Grammar::check(&largest).unwrap();
    assert_eq!(largest.words().len(), MAX_GRAMMAR_WORDS);
    let grammars = vec![largest; MAX_GRAMMARS + 1];
    for count in 1..=MAX_GRAMMARS {
        let made = GrammarList::new(&grammars[..count]).unwrap();
        let words = vec![grammars[0].words(); count];
        assert_eq!(made.words(), list(&words));
        assert_eq!(made.choose(&[]), accepted(0, 1));
    }
    let longest = GrammarList::new(&grammars[1..]).unwrap();
    assert_eq!(longest.words().len(), MAX_LIST_WORDS);
    for grammars in [&[], &grammars[..]] {
        let refusal = GrammarList::new(grammars).unwrap_err();
        assert_eq!(Err(refusal), refused(21, Place::Word(0)));
    }
}

/// A list is made whether its grammars accept the record without bytes or not.
#[test]
fn a_list_whose_grammars_accept_no_empty_record() {
    let uint32 = Grammar::check(UINT32).unwrap();
    let list = GrammarList::new(&[uint32]).unwrap();
    assert_eq!(list.choose(&[]), none_accepts());
    assert_eq!(list.choose(&[7, 0, 0, 0]), accepted(0, 1));
    let refusal = list.choose(&vec![0; MAX_BYTES + 1]);
    assert_eq!(refusal, refused(6, Place::Byte(0)));
}

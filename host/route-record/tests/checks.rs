//! The checks: with 1,024 rows, and with as many as the caller names.

use std::slice;

use route_record::calls::{
    check_val, check_val_with, check_whole, check_whole_with, demarshall, parse_val,
};
use route_record::{
    Grammar, GrammarList, Parsed, Place, Refusal, SameRouteRefusal, CHECK_ROWS, MAX_BYTES,
    MAX_ROWS, ROW_WORDS,
};

const CONSTANT: &[u32] = &[1, 0, 0, 0, 0];
const CONSTANTS: &[u32] = &[2, 3, 0, 1, 0, 0, 0, 1, 1];
/// A tuple of a uint32 and bytes.
const TUPLE: &[u32] = &[3, 4, 0, 2, 1, 0, 0, 5, 0, 0, 2, 1, 2];
const RECORD: [u8; 14] = [7, 0, 0, 0, 2, 0, 0, 0, 0, 0, 0, 0, 0x41, 0x42];

fn accepted(rows: usize, rest_index: usize) -> Result<Parsed, Refusal> {
    Ok(Parsed { rows, rest_index })
}

fn refused(number: u64, place: Place) -> Result<Parsed, Refusal> {
    Err(Refusal { number, place })
}

/// The record of so many constants, whose value has one row more.
fn constants(count: usize) -> [u8; 8] {
    (count as u64).to_le_bytes()
}

#[test]
fn a_check_that_names_no_capacity_has_1024_rows() {
    assert_eq!(CHECK_ROWS, 1_024);
    let grammar = Grammar::check(CONSTANTS).unwrap();
    for (count, answer) in [
        (0, accepted(1, 8)),
        (1_023, accepted(1_024, 8)),
        (1_024, refused(8, Place::Byte(0))),
        (4_095, refused(8, Place::Byte(0))),
    ] {
        let record = constants(count);
        assert_eq!(check_val(CONSTANTS, &record, 0), answer, "{count}");
        assert_eq!(check_whole(CONSTANTS, &record), answer, "{count}");
        assert_eq!(grammar.check_val(&record, 0), answer, "{count}");
        assert_eq!(grammar.check_whole(&record), answer, "{count}");
    }
}

#[test]
fn a_capacity_is_in_force_up_to_4096() {
    let grammar = Grammar::check(CONSTANTS).unwrap();
    for (capacity, in_force) in [
        (1, 1),
        (2, 2),
        (1_023, 1_023),
        (1_024, 1_024),
        (1_025, 1_025),
        (4_095, 4_095),
        (4_096, 4_096),
        (4_097, 4_096),
        (1 << 32, 4_096),
        ((1 << 32) + 1, 4_096),
        (usize::MAX, 4_096),
    ] {
        let no_row_left = refused(8, Place::Byte(0));
        for (count, answer) in [
            (in_force - 1, accepted(in_force, 8)),
            (in_force, no_row_left),
        ] {
            let record = constants(count);
            let subject = format!("capacity {capacity}, count {count}");
            let answer_of_val = check_val_with(CONSTANTS, &record, 0, capacity);
            assert_eq!(answer_of_val, answer, "{subject}");
            let answer_of_whole = check_whole_with(CONSTANTS, &record, capacity);
            assert_eq!(answer_of_whole, answer, "{subject}");
            let answer_of_val = grammar.check_val_with(&record, 0, capacity);
            assert_eq!(answer_of_val, answer, "{subject}");
            let answer_of_whole = grammar.check_whole_with(&record, capacity);
            assert_eq!(answer_of_whole, answer, "{subject}");
        }
    }
}

/// 8 at the index comes behind 1 to 7 and before 9, 10 and 11. That 0 does not stand for the 1,024
/// of a check that names none is seen where that one accepts.
#[test]
fn capacity_0_leaves_no_row() {
    let at_byte = |number, byte| refused(number, Place::Byte(byte));
    for (grammar, record, index, with_0, with_1024) in [
        (CONSTANT, &[][..], 0, at_byte(8, 0), accepted(1, 0)),
        (CONSTANT, &[0; 3], 2, at_byte(8, 2), accepted(1, 2)),
        (CONSTANT, &[0; 3], 3, at_byte(8, 3), accepted(1, 3)),
        (CONSTANT, &[0; 3], 4, at_byte(7, 4), at_byte(7, 4)),
        (CONSTANTS, &[0; 7], 0, at_byte(8, 0), at_byte(9, 0)),
        (CONSTANTS, &[0; 7], 7, at_byte(8, 7), at_byte(9, 7)),
        (&[1, 8, 0, 0, 0], &[0; 8], 0, at_byte(8, 0), at_byte(10, 0)),
    ] {
        let subject = format!("{grammar:?}, {record:?}, {index}");
        let answer = check_val_with(grammar, record, index, 0);
        assert_eq!(answer, with_0, "{subject}");
        assert_eq!(check_val(grammar, record, index), with_1024, "{subject}");
        let grammar = Grammar::check(grammar).unwrap();
        let answer = grammar.check_val_with(record, index, 0);
        assert_eq!(answer, with_0, "{subject}");
    }

    let too_long = vec![0; MAX_BYTES + 1];
    for (grammar, record, with_0, with_1024) in [
        (CONSTANT, &[][..], at_byte(8, 0), accepted(1, 0)),
        (CONSTANT, &[0], at_byte(8, 0), at_byte(11, 0)),
        (CONSTANT, &too_long, at_byte(6, 0), at_byte(6, 0)),
        (TUPLE, &RECORD, at_byte(8, 0), accepted(3, 14)),
    ] {
        let subject = format!("{grammar:?}, {} bytes", record.len());
        let answer = check_whole_with(grammar, record, 0);
        assert_eq!(answer, with_0, "{subject}");
        assert_eq!(check_whole(grammar, record), with_1024, "{subject}");
        let grammar = Grammar::check(grammar).unwrap();
        let answer = grammar.check_whole_with(record, 0);
        assert_eq!(answer, with_0, "{subject}");
    }

    let empty_grammar = refused(1, Place::Word(0));
    assert_eq!(check_val_with(&[], &too_long, 2, 0), empty_grammar);
    assert_eq!(check_whole_with(&[], &too_long, 0), empty_grammar);
}

#[test]
fn a_check_answers_as_the_reading_with_as_many_rows() {
    let numbers = [&1_100_u64.to_le_bytes()[..], &[7; 4_400]].concat();
    let array_of_uint32 = "array(u32)".parse::<Grammar>().unwrap();
    let records = [
        (TUPLE, &RECORD[..]),
        (TUPLE, &RECORD[..13]),
        (TUPLE, &[0; 15]),
        (CONSTANTS, &constants(3)),
        (CONSTANTS, &constants(4_096)),
        (array_of_uint32.words(), &numbers),
        (array_of_uint32.words(), &numbers[..4_407]),
    ];
    let capacities = (0..6).chain(1_023..1_026).chain(1_100..1_103);
    for capacity in capacities.chain(4_095..4_099) {
        let mut rows = vec![0; ROW_WORDS * capacity];
        for (grammar, record) in records {
            for index in [0, 1, record.len(), record.len() + 1] {
                let checked = check_val_with(grammar, record, index, capacity);
                let read = parse_val(grammar, record, index, &mut rows);
                assert_eq!(checked, read, "{grammar:?}, {index}, {capacity}");
                if capacity == CHECK_ROWS {
                    assert_eq!(check_val(grammar, record, index), read, "{grammar:?}");
                }
            }
            let checked = check_whole_with(grammar, record, capacity);
            let read = demarshall(grammar, record, &mut rows);
            assert_eq!(checked, read, "{grammar:?}, {capacity}");
            if capacity == CHECK_ROWS {
                assert_eq!(check_whole(grammar, record), read, "{grammar:?}");
            }
        }
    }
}

/// The readings into a vector, same route and the choice of a grammar have 4,096 rows.
#[test]
fn what_is_no_check_takes_values_of_up_to_4096_rows() {
    let grammar = Grammar::check(CONSTANTS).unwrap();
    let list = GrammarList::new(slice::from_ref(&grammar)).unwrap();
    for count in [1_023, 1_024, 2_000, 4_095] {
        let record = constants(count);
        let value = grammar.demarshall_vec(&record).unwrap();
        assert_eq!(value.row_count(), count + 1);
        let (value, rest_index) = grammar.parse_val_vec(&record, 0).unwrap();
        assert_eq!((value.row_count(), rest_index), (count + 1, 8));
        assert_eq!(grammar.same_route(&record, &record), Ok(true));
        assert_eq!(grammar.same_route(&record, &constants(0)), Ok(false));
        let chosen = list.choose(&record).unwrap();
        assert_eq!((chosen.number, chosen.begun), (0, count + 1));
    }

    let record = constants(MAX_ROWS);
    let refusal = Refusal {
        number: Refusal::ROWS_EXHAUSTED,
        place: Place::Byte(0),
    };
    assert_eq!(grammar.demarshall_vec(&record).unwrap_err(), refusal);
    assert_eq!(grammar.parse_val_vec(&record, 0).unwrap_err(), refusal);
    let answer = grammar.same_route(&record, &constants(0));
    assert_eq!(answer, Err(SameRouteRefusal::First(refusal)));
    let refusal = list.choose(&record).unwrap_err();
    assert_eq!(refusal.number, Refusal::NO_GRAMMAR_ACCEPTS);
}

//! The cases themselves: every call has one, and what a comparison sees.

use std::collections::BTreeSet;

use compare::{leaf, Answer, Case, Difference, Field, Outcome, Value};
use route_record::{Place, Refusal, ROW_WORDS};

/// The packing of 7 in 4 bytes at index 1 of 6.
fn packing() -> Case {
    Case::PackU32 {
        number: 7,
        out: vec![0xee; 6],
        index: 1,
    }
}

/// The bytes of the output, with the margins if it has them.
fn output(case: &mut Case) -> &mut Vec<u8> {
    match case.lent().pop() {
        Some(("out", Field::Bytes(out))) => out,
        _ => panic!("an output is lent"),
    }
}

#[test]
fn each_call_has_one() {
    let calls: BTreeSet<&str> = Case::blanks().iter().map(Case::call).collect();
    assert_eq!(calls.len(), 26);
    for mut blank in Case::blanks() {
        let answer = blank.compare().answer;
        if let Answer::Accepted(given) = answer {
            assert_eq!(given.len(), blank.given_names().len());
        }
        let names = blank.lent_names();
        let lent: Vec<&str> = blank.lent().iter().map(|lent| lent.0).collect();
        assert_eq!(lent, names);
    }
}

#[test]
fn a_lent_buffer_is_compared() {
    let outcome = packing().compare();
    assert_eq!(outcome.answer, Answer::Accepted(vec![]));
    let mut after = packing();
    *output(&mut after) = vec![0xee, 7, 0, 0, 0, 0xee];
    assert_eq!(outcome.after(), after);
    assert_eq!(Outcome::with(outcome.answer.clone(), &after), outcome);
    output(&mut after)[5] = 0xef;
    assert_ne!(Outcome::with(outcome.answer.clone(), &after), outcome);
}

#[test]
fn bytes_outside_the_lent_part_are_compared() {
    let sound = packing().of_model();
    for end in [true, false] {
        let touched = Outcome::of(&sound.after(), |after| {
            let out = output(after);
            let at = if end { out.len() - 1 } else { 0 };
            out[at] ^= 1;
            sound.answer.clone()
        });
        assert_ne!(touched, sound);
        assert_eq!(touched.after(), sound.after());
    }
}

/// The import of a byte array of one element, with a row and three bytes of store lent.
fn importing() -> Case {
    Case::ImportXdr {
        grammar: leaf(5),
        record: vec![0, 0, 0, 1, 7, 0, 0, 0],
        rows: vec![99; ROW_WORDS],
        store: vec![0xee; 3],
    }
}

/// Both lent buffers are compared, and what is around each of them, after an import that is accepted
/// and after one that is refused.
#[test]
fn both_lent_buffers_are_compared() {
    let sound = importing().compare();
    assert_eq!(sound.answer, Answer::Accepted(vec![1, 1]));
    let mut after = importing();
    if let Case::ImportXdr { rows, store, .. } = &mut after {
        *rows = vec![5, 1, 1, 0, 9];
        *store = vec![7, 0xee, 0xee];
    }
    assert_eq!(sound.after(), after);
    let mut refused = importing();
    if let Case::ImportXdr { record, .. } = &mut refused {
        record[7] = 1;
    }
    for sound in [sound, refused.compare()] {
        for buffer in [0, 1] {
            // 9 elements of margin stand on each side.
            for place in [0, 8, 9, 11, 12, 20] {
                let touched = Outcome::of(&sound.after(), |after| {
                    match after.lent().swap_remove(buffer) {
                        (_, Field::Uint64s(rows)) => rows[place] ^= 1,
                        (_, Field::Bytes(store)) => store[place] ^= 1,
                        (name, _) => panic!("{name} is lent"),
                    }
                    sound.answer.clone()
                });
                assert_ne!(touched, sound, "{buffer} {place}");
                let is_margin = place < 9 || place >= 9 + [ROW_WORDS, 3][buffer];
                assert_eq!(touched.after() == sound.after(), is_margin);
            }
        }
    }
}

/// The preview of writing the uint32 7 at index 1 of 6 bytes 00.
fn previewing() -> Case {
    let value = Value {
        grammar: leaf(1),
        rows: vec![1, 1, 7, 0, 4],
        n: 1,
        store: vec![],
    };
    value.preview_case(vec![0; 6], 1)
}

/// A preview beside a writing that gives another size, changes a byte more or less, or is refused,
/// is not the sound one, though it gives the sound answer.
#[test]
fn a_preview_is_compared_with_the_writing() {
    let sound = previewing().compare();
    assert_eq!(sound.answer, Answer::Accepted(vec![4, 1]));
    let writing = previewing().previewed().expect("the writing").of_model();
    assert_eq!(sound.clone().beside(&writing), sound);
    let refused = refused(17, Place::Byte(6));
    let mut more = writing.after();
    output(&mut more)[5] = 1;
    let mut less = writing.after();
    output(&mut less)[1] = 0;
    let size = Answer::Accepted(vec![4]);
    for (answer, after) in [
        (Answer::Accepted(vec![5]), writing.after()),
        (size.clone(), more),
        (size, less),
        (refused, writing.after()),
    ] {
        let other = sound.clone().beside(&Outcome::with(answer, &after));
        assert_eq!(other.answer, sound.answer);
        assert_ne!(other, sound);
        assert!(other.contradiction().is_some());
    }
    assert_eq!(sound.contradiction(), None);
}

/// The whole reading of the uint32 7 with one row lent.
fn whole_reading() -> Case {
    Case::Demarshall {
        grammar: leaf(1),
        record: vec![7, 0, 0, 0],
        rows: vec![99; ROW_WORDS],
    }
}

/// The refusal with this number at this place.
fn refused(number: u64, place: Place) -> Answer {
    let refusal = Refusal { number, place };
    Answer::Refused { refusal, record: 0 }
}

/// A whole reading has a front part that is shorter, with the same grammar and rows or capacity.
#[test]
fn front_parts_of_whole_readings() {
    let Some(Case::Demarshall {
        grammar,
        record,
        rows,
    }) = whole_reading().front_part()
    else {
        panic!("a whole reading");
    };
    assert_eq!((&grammar, rows), (&leaf(1), vec![99; ROW_WORDS]));
    assert!(record.len() < 4 && [7, 0, 0, 0].starts_with(&record));
    let check = Case::CheckWholeWith {
        grammar: leaf(1),
        record: vec![7, 0, 0, 0],
        capacity: 5,
    };
    let front = Case::CheckWholeWith {
        grammar,
        record,
        capacity: 5,
    };
    assert_eq!(check.front_part(), Some(front));
    // Neither an empty record nor a reading from an index has one.
    let (grammar, record, index) = (leaf(0), vec![], 0);
    let empty = Case::CheckWhole { grammar, record };
    assert_eq!(empty.front_part(), None);
    let (grammar, record) = (leaf(1), vec![7, 0, 0, 0]);
    let from_index = Case::CheckVal {
        grammar,
        record,
        index,
    };
    assert_eq!(from_index.front_part(), None);
    let from_index = Case::CheckValWith {
        grammar: leaf(1),
        record: vec![7, 0, 0, 0],
        index,
        capacity: 5,
    };
    assert_eq!(from_index.front_part(), None);
}

/// A whole reading beside a front part whose rows are changed, that is refused with 9 at another byte
/// than by the model, or that is accepted or refused otherwise, by the model too, is not the sound
/// one, though it gives the sound answer.
#[test]
fn a_whole_reading_is_compared_with_a_front_part() {
    let sound = whole_reading().compare();
    assert_eq!(sound.answer, Answer::Accepted(vec![1, 4]));
    let case = whole_reading().front_part().expect("a front part");
    let beside = |model: &Answer, library: &Answer, after: &Case| {
        sound.clone().beside_front(Difference {
            model: Outcome::with(model.clone(), &case),
            library: Outcome::with(library.clone(), after),
            case: case.clone(),
        })
    };
    let nine = refused(9, Place::Byte(0));
    assert_eq!(beside(&nine, &nine, &case), sound);
    assert_eq!(sound.unsound_front(), None);
    let mut changed = case.clone();
    if let Some((_, Field::Uint64s(rows))) = changed.lent().pop() {
        rows[3] = 0;
    }
    let elsewhere = refused(9, Place::Byte(1));
    let mut wrong = vec![
        beside(&nine, &nine, &changed),
        beside(&nine, &elsewhere, &case),
    ];
    let numbers = [8, 10, 11].map(|number| refused(number, Place::Byte(0)));
    let others = [Answer::Accepted(vec![1, 0]), refused(9, Place::Word(0))];
    for other in numbers.iter().chain(&others) {
        wrong.push(beside(&nine, other, &case));
        wrong.push(beside(other, other, &case));
    }
    for outcome in wrong {
        assert_eq!(outcome.answer, sound.answer);
        assert_ne!(outcome, sound);
        assert!(outcome.unsound_front().is_some());
    }
}

#[test]
fn what_is_only_read_is_compared() {
    let case = Case::CheckWhole {
        grammar: vec![1, 0, 0, 0, 0],
        record: vec![],
    };
    let changed = Outcome::of(&case, |after| {
        if let Case::CheckWhole { record, .. } = after {
            record.push(0);
        }
        case.of_library().answer
    });
    assert_eq!(changed.answer, case.of_model().answer);
    assert_ne!(changed, case.of_model());
}

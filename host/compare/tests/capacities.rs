//! The capacity of a check: it answers as the reading that is lent as many rows as are named, 4,096 at
//! most, or 1,024 where none are named. Same route, the chooser and yes or no have 4,096.

use std::collections::BTreeSet;

use compare::{grammar_list, leaf, on_large_stack, table, Answer, Case, Random};
use route_record::{calls, Parsed, Place, Refusal, CHECK_ROWS, MAX_BYTES, MAX_ROWS, ROW_WORDS};

/// Capacities around the borders, and far above: some whose lowest 16 or 32 bits, or whose number in
/// a signed type, would be a small capacity, and some whose words or bytes would be few.
const CAPACITIES: [usize; 28] = [
    0,
    1,
    2,
    3,
    4,
    5,
    CHECK_ROWS - 1,
    CHECK_ROWS,
    CHECK_ROWS + 1,
    2_000,
    MAX_ROWS - 1,
    MAX_ROWS,
    MAX_ROWS + 1,
    2 * MAX_ROWS,
    1 << 16,
    (1 << 16) + 1,
    1 << 27,
    1 << 30,
    1 << 31,
    (1 << 32) - 1,
    1 << 32,
    (1 << 32) + 1,
    1 << 59,
    1 << 62,
    1 << 63,
    (1 << 63) + 1,
    usize::MAX - 1,
    usize::MAX,
];

/// A grammar and a record, and the index from which a reading starts that is not whole.
#[derive(Clone)]
struct Input {
    grammar: Vec<u32>,
    record: Vec<u8>,
    index: usize,
}

impl Input {
    fn new(grammar: &[u32], record: &[u8], index: usize) -> Input {
        Input {
            grammar: grammar.to_vec(),
            record: record.to_vec(),
            index,
        }
    }

    /// The checks with this capacity, from the index and of the whole record.
    fn named(&self, capacity: usize) -> [Case; 2] {
        let Input {
            grammar,
            record,
            index,
        } = self.clone();
        [
            Case::CheckValWith {
                grammar: grammar.clone(),
                record: record.clone(),
                index,
                capacity,
            },
            Case::CheckWholeWith {
                grammar,
                record,
                capacity,
            },
        ]
    }

    /// The checks for which no capacity is named.
    fn not_named(&self) -> [Case; 2] {
        let Input {
            grammar,
            record,
            index,
        } = self.clone();
        [
            Case::CheckVal {
                grammar: grammar.clone(),
                record: record.clone(),
                index,
            },
            Case::CheckWhole { grammar, record },
        ]
    }

    /// The readings with words for so many rows lent.
    fn lent(&self, rows: usize) -> [Case; 2] {
        let Input {
            grammar,
            record,
            index,
        } = self.clone();
        let rows = vec![99; ROW_WORDS * rows];
        [
            Case::ParseVal {
                grammar: grammar.clone(),
                record: record.clone(),
                index,
                rows: rows.clone(),
            },
            Case::Demarshall {
                grammar,
                record,
                rows,
            },
        ]
    }

    /// What a random case of a reader is given; of a whole one, index 0.
    fn of(case: Case) -> Option<Input> {
        let (grammar, record, index) = match case {
            Case::ParseVal {
                grammar,
                record,
                index,
                ..
            }
            | Case::CheckVal {
                grammar,
                record,
                index,
            }
            | Case::CheckValWith {
                grammar,
                record,
                index,
                ..
            } => (grammar, record, index),
            Case::Demarshall {
                grammar, record, ..
            }
            | Case::CheckWhole { grammar, record }
            | Case::CheckWholeWith {
                grammar, record, ..
            } => (grammar, record, 0),
            _ => return None,
        };
        Some(Input {
            grammar,
            record,
            index,
        })
    }
}

/// The answers to two cases, by both.
fn answers(cases: [Case; 2]) -> [Answer; 2] {
    cases.map(|case| case.compare().answer)
}

/// The 8 bytes of a count or a tag, and others behind them.
fn counted(count: u64, behind: &[u8]) -> Vec<u8> {
    [&count.to_le_bytes(), behind].concat()
}

/// An array of constants.
fn constants() -> Vec<u32> {
    table(&[[3, 0, 1], [0, 0, 0]], &[1])
}

/// A tuple of a uint32 and a byte array, and its record, of 3 rows.
fn example_a() -> (Vec<u32>, [u8; 14]) {
    let grammar = table(&[[4, 0, 2], [1, 0, 0], [5, 0, 0]], &[1, 2]);
    (grammar, *b"\x07\0\0\0\x02\0\0\0\0\0\0\0AB")
}

/// A tuple of an array of constants, a number and a union of a constant and such an array, and a
/// record with so many elements in each array.
fn mixed(counts: [u64; 2]) -> (Vec<u32>, Vec<u8>) {
    let nodes = [
        [4, 0, 3],
        [3, 3, 1],
        [1, 0, 0],
        [8, 4, 2],
        [3, 3, 1],
        [0, 0, 0],
    ];
    let grammar = table(&nodes, &[1, 2, 3, 5, 5, 4]);
    let [first, second] = counts;
    let behind = [vec![7, 0, 0, 0], counted(1, &counted(second, &[]))].concat();
    (grammar, counted(first, &behind))
}

/// Records of as many rows as the borders, one fewer and one more, and faulty ones.
fn inputs() -> Vec<Input> {
    let mut inputs = Vec::new();
    for rows in [1, 2, 3, CHECK_ROWS, CHECK_ROWS + 1, MAX_ROWS, MAX_ROWS + 1] {
        let record = counted(rows as u64 - 1, &[]);
        inputs.push(Input::new(&constants(), &record, 0));
        inputs.push(Input::new(&constants(), &record[..7], 0));
        inputs.push(Input::new(&constants(), &[&record[..], &[0]].concat(), 0));
        inputs.push(Input::new(&constants(), &[&[9], &record[..]].concat(), 1));
    }
    // With the tuple, both arrays, the number and the case, 5 rows more than there are elements.
    for elements in [
        0,
        CHECK_ROWS - 6,
        CHECK_ROWS - 5,
        CHECK_ROWS - 4,
        MAX_ROWS - 5,
    ] {
        for first in [0, elements / 2, elements] {
            let (grammar, record) = mixed([first as u64, (elements - first) as u64]);
            inputs.push(Input::new(&grammar, &record, 0));
            inputs.push(Input::new(&grammar, &record[..record.len() - 1], 0));
        }
    }
    let (grammar, record) = example_a();
    inputs.extend([0, 4, 14, 15].map(|index| Input::new(&grammar, &record, index)));
    for kind in 0..=11 {
        inputs.push(Input::new(&leaf(kind), &[], 0));
        inputs.push(Input::new(&leaf(kind), &[0; 9], 1));
    }
    inputs.push(Input::new(&[], &[], 1));
    inputs.push(Input::new(&leaf(0), &vec![0; MAX_BYTES + 1], 0));
    inputs
}

/// A check answers as the reading with as many rows lent as are named, 4,096 at most, and as that with
/// 1,024 where none are named.
#[test]
fn checks_answer_as_readings_with_rows() {
    for input in inputs() {
        for capacity in CAPACITIES {
            let expected = answers(input.lent(capacity.min(MAX_ROWS)));
            assert_eq!(answers(input.named(capacity)), expected, "{capacity}");
        }
        let expected = answers(input.lent(CHECK_ROWS));
        assert_eq!(answers(input.not_named()), expected);
    }
}

/// A check of so many constants with every capacity from 0 to one above the greatest: it is accepted
/// from as many rows on as there are constants and the array, and none is enough for one more than
/// the greatest.
#[test]
fn constants_with_every_capacity() {
    let grammar = constants();
    let refused = Err(Refusal {
        number: 8,
        place: Place::Byte(0),
    });
    let check = |count: usize, capacity| {
        let record = (count as u64).to_le_bytes();
        let whole = calls::check_whole_with(&grammar, &record, capacity);
        assert_eq!(calls::check_val_with(&grammar, &record, 0, capacity), whole);
        whole
    };
    for capacity in 0..=MAX_ROWS + 1 {
        let in_force = capacity.min(MAX_ROWS);
        if let Some(count) = in_force.checked_sub(1) {
            let parsed = Parsed {
                rows: in_force,
                rest_index: 8,
            };
            assert_eq!(check(count, capacity), Ok(parsed));
        }
        for count in [in_force, in_force + 1, MAX_ROWS] {
            assert_eq!(check(count, capacity), refused, "{count}, {capacity}");
        }
    }
    // The same counts with all capacities.
    for count in [
        0,
        1,
        299,
        CHECK_ROWS - 1,
        CHECK_ROWS,
        MAX_ROWS - 1,
        MAX_ROWS,
    ] {
        let accepted = (0..=MAX_ROWS + 1).filter(|&capacity| check(count, capacity).is_ok());
        let expected = count + 1..=MAX_ROWS + 1;
        let expected = expected.filter(|_| count < MAX_ROWS);
        assert!(accepted.eq(expected), "{count}");
    }
}

/// A record of 9 rows with every capacity up to two more: where it is refused for a missing row, and
/// at which byte, is known beforehand.
#[test]
fn a_mixed_record_with_every_capacity() {
    // The tuple, the array and its 2 constants, the number, the case, its array and 2 constants.
    let (grammar, record) = mixed([2, 2]);
    // The byte of the value that finds no row or whose elements find too few.
    let places = [0, 0, 0, 0, 8, 12, 20, 20, 20];
    for capacity in 0..=11 {
        let expected = match places.get(capacity) {
            Some(&byte) => [8, 2, byte, 0, 0],
            None => [0, 0, 0, 9, record.len() as u64],
        };
        let input = Input::new(&grammar, &record, 0);
        for answer in answers(input.named(capacity)) {
            assert_eq!(answer.c_words(), expected, "{capacity}");
        }
    }
}

/// The refusal of a reading before its first value: 1 to 7.
fn refused_before(input: &Input, index: usize) -> Option<(u64, Place)> {
    let at_byte = |number, byte: usize| Some((number, Place::Byte(byte as u64)));
    if let Err(refusal) = calls::check_grammar(&input.grammar) {
        return Some((refusal.number, refusal.place));
    }
    match input.record.len() {
        length if length > MAX_BYTES => at_byte(6, 0),
        length if index > length => at_byte(7, index),
        _ => None,
    }
}

/// The inputs of random cases of the readers.
fn random_inputs(seed: u64, cases: usize) -> impl Iterator<Item = Input> {
    let mut random = Random::new(seed);
    (0..cases).filter_map(move |_| Input::of(Case::random(&mut random)))
}

/// With capacity 0 each reading is refused with 8 at its index, unless one of 1 to 7 is given.
#[test]
fn no_row_at_all() {
    let mut numbers = BTreeSet::new();
    for input in random_inputs(61, 8_000) {
        for (case, index) in input.named(0).into_iter().zip([input.index, 0]) {
            let none = (8, Place::Byte(index as u64));
            let (number, place) = refused_before(&input, index).unwrap_or(none);
            let refusal = Refusal { number, place };
            let expected = Answer::Refused { refusal, record: 0 };
            assert_eq!(case.compare().answer, expected);
            numbers.insert(number);
        }
    }
    assert_eq!(numbers, (1..=8).collect());
}

/// Every capacity above 4,096 is one of 4,096, and a check for which none is named has 1,024. Records
/// with more rows than each of them are met, and with exactly as many.
#[test]
fn random_records() {
    let mut met = BTreeSet::new();
    let mut random = Random::new(62);
    on_large_stack(|| {
        for input in random_inputs(63, 12_000) {
            let most = answers(input.named(MAX_ROWS));
            let any = random.number() as usize | (2 * MAX_ROWS);
            let far = [MAX_ROWS + 1, 1 << 16, 1 << 32, 1 << 63, usize::MAX, any];
            let capacity = random.pick(&far);
            assert_eq!(answers(input.named(capacity)), most, "{capacity}");
            let not_named = answers(input.not_named());
            assert_eq!(not_named, answers(input.named(CHECK_ROWS)));
            for (most, not_named) in most.iter().zip(&not_named) {
                match (most, not_named) {
                    (Answer::Accepted(given), _) if given[0] > CHECK_ROWS as u64 => {
                        assert_eq!(not_named.number(), 8);
                        met.insert("more than a check has");
                        met.extend((given[0] == CHECK_ROWS as u64 + 1).then_some("one more"));
                        met.extend((given[0] == MAX_ROWS as u64).then_some("the most"));
                    }
                    (Answer::Accepted(given), _) => {
                        assert_eq!(not_named, most);
                        let is_full = given[0] == CHECK_ROWS as u64;
                        met.extend(is_full.then_some("as many as a check has"));
                    }
                    (refused, _) if refused.number() == 8 => {
                        assert_eq!(not_named.number(), 8);
                        met.insert("more than the most");
                    }
                    _ => (),
                }
            }
        }
    });
    let expected = [
        "as many as a check has",
        "one more",
        "more than a check has",
        "the most",
        "more than the most",
    ];
    assert_eq!(met, BTreeSet::from(expected));
}

/// With a smaller capacity a check gives the same answer, or it is refused with 8.
#[test]
fn smaller_capacities() {
    let mut random = Random::new(64);
    let mut numbers = BTreeSet::new();
    on_large_stack(|| {
        for input in random_inputs(66, 4_000) {
            let larger = random.pick(&CAPACITIES);
            let smaller = random.pick(&CAPACITIES).min(larger);
            let larger = answers(input.named(larger));
            let smaller = answers(input.named(smaller));
            for (larger, smaller) in larger.into_iter().zip(smaller) {
                if smaller.number() == 8 {
                    numbers.insert(larger.number());
                } else {
                    assert_eq!(smaller, larger);
                }
            }
        }
    });
    assert_eq!(numbers, BTreeSet::from([0, 8, 9, 10, 11]));
}

/// Same route, the chooser and yes or no have 4,096 rows, whatever a check has.
#[test]
fn same_route_the_chooser_and_yes_or_no() {
    let grammar = constants();
    for count in [CHECK_ROWS - 1, CHECK_ROWS, MAX_ROWS - 1, MAX_ROWS] {
        let record = (count as u64).to_le_bytes().to_vec();
        let input = Input::new(&grammar, &record, 0);
        let checks = answers(input.not_named()).map(|answer| answer.number());
        assert_eq!(checks, [if count < CHECK_ROWS { 0 } else { 8 }; 2]);
        let same_route = |first: &[u8], second: &[u8]| {
            let case = Case::SameRoute {
                grammar: grammar.clone(),
                first: first.to_vec(),
                second: second.to_vec(),
            };
            case.compare().answer.c_words()
        };
        let chosen = Case::ChooseGrammar {
            list: grammar_list(&[&grammar]),
            record: record.clone(),
        };
        let chosen = chosen.compare().answer.c_words();
        let accepts = Case::Accepts {
            grammar: grammar.clone(),
            record: record.clone(),
        };
        let accepts = accepts.compare().answer.c_words();
        if count < MAX_ROWS {
            assert_eq!(same_route(&record, &record), [0, 0, 0, 1, 0]);
            assert_eq!(same_route(&record, &[0; 8]), [0, 0, 0, 0, 0]);
            assert_eq!(chosen, [0, 0, 0, 0, count as u64 + 1]);
            assert_eq!(accepts, [0, 0, 0, 1, count as u64 + 1]);
        } else {
            assert_eq!(same_route(&record, &[0; 8]), [8, 2, 0, 0, 1]);
            assert_eq!(same_route(&[0; 8], &record), [8, 2, 0, 0, 2]);
            assert_eq!(chosen, [22, 2, 0, 0, 0]);
            assert_eq!(accepts, [0, 0, 0, 0, 1]);
        }
    }
}

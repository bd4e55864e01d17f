//! Large cases on which a false library errs become small ones.

use std::hash::{DefaultHasher, Hash, Hasher};

use route_record::{Place, Refusal, CHECK_ROWS, MAX_BYTES, MAX_GRAMMARS, MAX_ROWS, ROW_WORDS};

use compare::{grammar_list, leaf, shrink, Answer, Case, Field, Outcome, Random, Record, RowTable};
use compare::{set_sizes, table, Table, Value};

/// A library that answers as the model does, but for an error.
type Library = fn(&Case) -> Outcome;

/// The smallest case on which the library errs that is found from a case on which it does.
fn smallest(library: Library, case: &Case) -> Case {
    let errs = |case: &Case| library(case) != case.of_model();
    assert!(errs(case), "the library errs on the large case");
    let smallest = shrink(case, errs);
    assert!(errs(&smallest));
    smallest
}

/// A random table of 50 nodes and a record of at least 200 rows.
fn large_record(random: &mut Random) -> (Vec<u32>, Vec<u8>) {
    loop {
        let table = Table::sound(random, 50, 80);
        match Record::of(&table, random, 400) {
            Some(record) if record.rows >= 200 => return (table.words(), record.bytes),
            _ => (),
        }
    }
}

/// The error of accepting bytes behind the value.
fn accepts_bytes_left_over(case: &Case) -> Outcome {
    match case.of_model() {
        outcome if outcome.answer.number() == 11 => {
            Outcome::with(Answer::Accepted(vec![1, 0]), case)
        }
        outcome => outcome,
    }
}

#[test]
fn records_and_grammars() {
    for seed in 0..5 {
        let (grammar, mut record) = large_record(&mut Random::new(seed));
        record.extend([7; 100]);
        let rows = vec![99; ROW_WORDS * MAX_ROWS];
        let large = Case::Demarshall {
            grammar,
            record,
            rows,
        };
        let expected = Case::Demarshall {
            grammar: vec![1, 0, 0, 0, 0],
            record: vec![0],
            rows: vec![0; ROW_WORDS],
        };
        assert_eq!(smallest(accepts_bytes_left_over, &large), expected);
    }
}

/// The error of taking 0 for no capacity named.
fn takes_0_for_none_named(case: &Case) -> Outcome {
    match case.clone() {
        Case::CheckWholeWith {
            grammar,
            record,
            capacity: 0,
        } => {
            let none_named = Case::CheckWhole { grammar, record };
            Outcome::with(none_named.of_model().answer, case)
        }
        _ => case.of_model(),
    }
}

/// The error of reading with 1,024 rows at most.
fn reads_1_024_rows_at_most(case: &Case) -> Outcome {
    let mut lower = case.clone();
    if let Case::CheckWholeWith { capacity, .. } = &mut lower {
        *capacity = (*capacity).min(CHECK_ROWS);
    }
    Outcome::with(lower.of_model().answer, case)
}

/// A capacity becomes as low as it can be, together with the rest.
#[test]
fn capacities() {
    for seed in 0..3 {
        let (grammar, record) = large_record(&mut Random::new(seed));
        let large = Case::CheckWholeWith {
            grammar,
            record,
            capacity: 0,
        };
        let Case::CheckWholeWith {
            grammar,
            record,
            capacity: 0,
        } = smallest(takes_0_for_none_named, &large)
        else {
            panic!("a check with capacity 0");
        };
        assert_eq!((grammar, record), (leaf(0), vec![]));
    }
    let constants = table(&[[3, 0, 1], [0, 0, 0]], &[1]);
    for (count, capacity) in [(2_000, MAX_ROWS), (4_095, usize::MAX), (1_500, 1 << 40)] {
        let check = |count: u64, capacity| Case::CheckWholeWith {
            grammar: constants.clone(),
            record: count.to_le_bytes().to_vec(),
            capacity,
        };
        let expected = check(CHECK_ROWS as u64, CHECK_ROWS + 1);
        let large = check(count, capacity);
        assert_eq!(smallest(reads_1_024_rows_at_most, &large), expected);
    }
}

/// The error of not looking at the place of an array without elements.
fn skips_empty_arrays(case: &Case) -> Outcome {
    let outcome = case.of_model();
    match (case, outcome.answer.number()) {
        (Case::ComputeSizeOf { rows, n, store }, 14) => {
            let mut rows = rows.clone();
            for row in rows.chunks_mut(ROW_WORDS).filter(|row| row[2] == 0) {
                row[3] = 0;
            }
            let (n, store) = (*n, store.clone());
            let answer = Case::ComputeSizeOf { rows, n, store }.of_model().answer;
            Outcome::with(answer, case)
        }
        _ => outcome,
    }
}

#[test]
fn rows_and_stores() {
    for seed in 0..5 {
        let random = &mut Random::new(seed);
        let mut table = RowTable::sound(random, 300);
        let place = table.record.len() as u64 + 1_000;
        let row = *table.arrays().last().expect("an array");
        table.rows[row][2..4].copy_from_slice(&[0, place]);
        set_sizes(&mut table.rows);
        let large = Case::ComputeSizeOf {
            rows: table.words(),
            n: 300,
            store: table.record,
        };
        // Of this row alone the size is not looked at.
        let expected = Case::ComputeSizeOf {
            rows: vec![5, 1, 0, 1, 0],
            n: 1,
            store: vec![],
        };
        assert_eq!(smallest(skips_empty_arrays, &large), expected);
    }
}

/// The error of not comparing the sizes of rows.
fn skips_sizes(case: &Case) -> Outcome {
    let mut sized = case.clone();
    if let Case::ComputeSizeOf { rows, .. } = &mut sized {
        set_sizes(rows.as_chunks_mut().0);
    }
    Outcome::with(sized.of_model().answer, case)
}

/// A wrong size anywhere in a table becomes that of a row alone, with the lowest number that is wrong.
#[test]
fn sizes() {
    for seed in 0..5 {
        let random = &mut Random::new(seed);
        let mut table = RowTable::sound(random, 300);
        let row = random.below(300);
        table.rows[row][4] += 1_000;
        let large = Case::ComputeSizeOf {
            rows: table.words(),
            n: 300,
            store: table.record,
        };
        let expected = Case::ComputeSizeOf {
            rows: vec![0, 1, 0, 0, 1],
            n: 1,
            store: vec![],
        };
        assert_eq!(smallest(skips_sizes, &large), expected);
    }
}

/// The error of giving the pattern of a signed 32-bit number in place of the number.
fn gives_the_pattern(case: &Case) -> Outcome {
    let outcome = case.of_model();
    match (case, outcome.answer.number()) {
        (Case::SignedNumber { rows, row, .. }, 0) if rows[ROW_WORDS * row] == 9 => {
            let pattern = rows[ROW_WORDS * row + 2];
            Outcome::with(Answer::Accepted(vec![pattern]), case)
        }
        _ => outcome,
    }
}

/// The row asked for stays the same one while others are left out.
#[test]
fn row_numbers() {
    for seed in 0..5 {
        let mut table = RowTable::sound(&mut Random::new(seed), 300);
        let row = *table.signed().last().expect("a signed number");
        table.rows[row] = [9, 1, (1 << 31) + 9, 0, 4];
        set_sizes(&mut table.rows);
        let large = Case::SignedNumber {
            rows: table.words(),
            n: 300,
            store: table.record,
            row,
        };
        let expected = Case::SignedNumber {
            rows: vec![9, 1, 1 << 31, 0, 4],
            n: 1,
            store: vec![],
            row: 0,
        };
        assert_eq!(smallest(gives_the_pattern, &large), expected);
    }
}

/// The error of leaving the last byte of a value out.
fn leaves_out_the_last_byte(case: &Case) -> Outcome {
    let outcome = case.of_model();
    let (index, size) = match (case, &outcome.answer) {
        (Case::MarshallVal { index, .. }, Answer::Accepted(given)) => (*index, given[0] as usize),
        _ => return outcome,
    };
    let mut after = outcome.after();
    if let (Some((_, Field::Bytes(out))), true) = (after.lent().pop(), size > 0) {
        out[index + size - 1] ^= 1;
    }
    Outcome::with(outcome.answer, &after)
}

#[test]
fn values_and_outputs() {
    for seed in 0..3 {
        let (grammar, record) = large_record(&mut Random::new(seed));
        let length = record.len() + 100;
        let value = Value::read(&grammar, &record);
        let large = value.marshall_val_case(vec![0xee; length], 50);
        let Case::MarshallVal {
            grammar,
            rows,
            n,
            store,
            out,
            index,
        } = smallest(leaves_out_the_last_byte, &large)
        else {
            panic!("a writing");
        };
        // A value of one row that has bytes, or a case of a constant.
        assert!(n <= 2 && rows.len() == ROW_WORDS * n && index == 0);
        assert!(grammar.len() <= 9 && out.len() <= 8 && store.is_empty());
    }
}

/// The error of not looking at the padding of XDR.
fn skips_the_padding(case: &Case) -> Outcome {
    match case.of_model() {
        outcome if outcome.answer.number() == 23 => {
            Outcome::with(Answer::Accepted(vec![1, 0]), case)
        }
        outcome => outcome,
    }
}

#[test]
fn imports() {
    let array = [0, 0, 0, 5, 1, 2, 3, 4, 5, 0, 0, 0];
    let mut record = [&[0, 0, 0, 200][..], &array.repeat(200)].concat();
    *record.last_mut().expect("padding") = 9;
    let large = Case::ImportXdr {
        grammar: table(&[[3, 0, 1], [5, 0, 0]], &[1]),
        record,
        rows: vec![99; ROW_WORDS * MAX_ROWS],
        store: vec![0xee; 1_100],
    };
    let Case::ImportXdr {
        record,
        rows,
        store,
        ..
    } = smallest(skips_the_padding, &large)
    else {
        panic!("an import");
    };
    // A few arrays, the last of a byte, into a store of a byte.
    assert!(record.len() <= 24 && record.ends_with(&[0, 0, 0, 1, 0, 0, 0, 1]));
    assert!(rows.len() <= 5 * ROW_WORDS && rows.iter().all(|&word| word == 0));
    assert_eq!(store, [0]);
}

/// The error of counting each byte that would be written.
fn counts_equal_bytes(case: &Case) -> Outcome {
    let outcome = case.of_model();
    match (case, &outcome.answer) {
        (Case::Preview { .. }, Answer::Accepted(given)) => {
            Outcome::with(Answer::Accepted(vec![given[0]; 2]), case)
        }
        _ => outcome,
    }
}

#[test]
fn previews() {
    for seed in 0..3 {
        let (grammar, record) = large_record(&mut Random::new(seed));
        let value = Value::read(&grammar, &record);
        let out = [vec![0xee; 50], record, vec![0xee; 50]].concat();
        let large = value.preview_case(out, 50);
        let smallest = smallest(counts_equal_bytes, &large);
        let Some((value, out, 0)) = Value::of(&smallest) else {
            panic!("a preview at index 0");
        };
        // A value of one row that has bytes, or a case of a constant, over zeros.
        assert!(value.n <= 2 && value.rows.len() == ROW_WORDS * value.n);
        assert!(value.grammar.len() <= 9 && value.store.is_empty());
        assert!(out.len() <= 8 && out.iter().all(|&byte| byte == 0));
    }
}

/// The error of a chooser that places a refused grammar as if the first one began at word 0 of the
/// list.
fn leaves_out_the_first_counts(case: &Case) -> Outcome {
    let outcome = case.of_model();
    match outcome.answer {
        Answer::Refused { refusal, record } if refusal.number <= 5 => {
            let place = match refusal.place {
                Place::Word(word) => Place::Word(word - 2),
                place => place,
            };
            let refusal = Refusal { place, ..refusal };
            Outcome::with(Answer::Refused { refusal, record }, case)
        }
        _ => outcome,
    }
}

/// The error of choosing grammar 0 where no grammar accepts.
fn chooses_without_need(case: &Case) -> Outcome {
    match case.of_model() {
        outcome if outcome.answer.number() == 22 => {
            Outcome::with(Answer::Accepted(vec![0, 1]), case)
        }
        outcome => outcome,
    }
}

#[test]
fn lists_of_grammars() {
    for seed in 0..3 {
        let (grammar, mut record) = large_record(&mut Random::new(seed));
        record.push(7);
        let mut grammars = vec![grammar; MAX_GRAMMARS];
        let large = Case::ChooseGrammar {
            list: grammar_list(&grammars),
            record: record.clone(),
        };
        let expected = Case::ChooseGrammar {
            list: grammar_list(&[leaf(0)]),
            record: vec![0],
        };
        assert_eq!(smallest(chooses_without_need, &large), expected);
        // A kind that is none, in node 20 of the last grammar.
        grammars[MAX_GRAMMARS - 1][1 + 3 * 20] = 11;
        let list = grammar_list(&grammars);
        let large = Case::ChooseGrammar { list, record };
        let expected = Case::ChooseGrammar {
            list: vec![1, 0],
            record: vec![],
        };
        assert_eq!(smallest(leaves_out_the_first_counts, &large), expected);
    }
}

/// The error of reading a record that is too short.
fn reads_short_records(case: &Case) -> Outcome {
    let outcome = case.of_model();
    match (case, &outcome.answer) {
        (Case::Accepts { record, .. }, Answer::Accepted(given))
            if given[1] == 0 && record.len() <= MAX_BYTES =>
        {
            Outcome::with(Answer::Accepted(vec![0, 1]), case)
        }
        _ => outcome,
    }
}

/// The error of giving 1 value begun to a record that is too long.
fn reads_long_records(case: &Case) -> Outcome {
    let outcome = case.of_model();
    match (case, &outcome.answer) {
        (Case::Accepts { record, .. }, Answer::Accepted(_)) if record.len() > MAX_BYTES => {
            Outcome::with(Answer::Accepted(vec![0, 1]), case)
        }
        _ => outcome,
    }
}

#[test]
fn records_not_read() {
    for seed in 0..3 {
        let (grammar, record) = large_record(&mut Random::new(seed));
        let large = Case::Accepts {
            grammar: grammar.clone(),
            record: record[..3].to_vec(),
        };
        let Case::Accepts { grammar, record } = smallest(reads_short_records, &large) else {
            panic!("yes or no");
        };
        // Of an array of constants no single edit makes a uint32.
        let smallest_grammars = [leaf(1), table(&[[3, 0, 1], [0; 3]], &[1])];
        assert!(smallest_grammars.contains(&grammar), "{grammar:?}");
        assert!(record.is_empty());
        let large = Case::Accepts {
            grammar,
            record: vec![7; MAX_BYTES + 1],
        };
        let Case::Accepts { grammar, record } = smallest(reads_long_records, &large) else {
            panic!("yes or no");
        };
        let smallest_grammars = [leaf(0), table(&[[3, 0, 1], [0; 3]], &[1])];
        assert!(smallest_grammars.contains(&grammar), "{grammar:?}");
        assert_eq!(record, [0; MAX_BYTES + 1]);
    }
}

/// An error at an index of 5 or more when 3 numbers or more are packed.
fn errs_behind_index_5(case: &Case) -> Outcome {
    match case {
        Case::PackU32Seq { numbers, index, .. } if *index >= 5 && numbers.len() >= 3 => {
            Outcome::with(Answer::Accepted(vec![]), case)
        }
        _ => case.of_model(),
    }
}

#[test]
fn numbers() {
    let large = Case::PackU32Seq {
        numbers: (1_000..1_100).collect(),
        out: vec![0xee; 1_000],
        index: 300,
    };
    let expected = Case::PackU32Seq {
        numbers: vec![0; 3],
        out: vec![],
        index: 5,
    };
    assert_eq!(smallest(errs_behind_index_5, &large), expected);
}

/// An error on records of 1,000,000 bytes and more.
fn refuses_long_records(case: &Case) -> Outcome {
    match case {
        Case::CheckWhole { record, .. } if record.len() >= 1_000_000 => {
            Outcome::with(Answer::Accepted(vec![]), case)
        }
        _ => case.of_model(),
    }
}

/// What must stay long stays, and the rest becomes small.
#[test]
fn long_records() {
    let large = Case::CheckWhole {
        grammar: Table::sound(&mut Random::new(1), 100, 100).words(),
        record: vec![9; MAX_BYTES],
    };
    let Case::CheckWhole { grammar, record } = smallest(refuses_long_records, &large) else {
        panic!("a check");
    };
    assert!(grammar.is_empty());
    assert!((1_000_000..1_010_000).contains(&record.len()));
    assert!(record.iter().all(|&byte| byte == 0));
}

/// What always holds holds of the blank case too.
#[test]
fn nothing_is_left_without_need() {
    let mut random = Random::new(8);
    for _ in 0..200 {
        let case = Case::random(&mut random);
        let smallest = shrink(&case, |_| true);
        assert!(Case::blanks().contains(&smallest), "{smallest:?}");
    }
}

/// Cases of any content on the way are edited without a panic, and the result holds.
#[test]
fn any_cases_on_the_way() {
    let holds = |case: &Case| {
        let mut hasher = DefaultHasher::new();
        case.hash(&mut hasher);
        hasher.finish() & 3 > 0
    };
    let mut random = Random::new(9);
    let mut shrunk = 0;
    while shrunk < 200 {
        let mut case = Case::random(&mut random);
        let is_short = |field: &(&str, Field)| match &field.1 {
            Field::Bytes(bytes) => bytes.len() < 500,
            Field::Uint32s(words) => words.len() < 500,
            Field::Uint64s(words) => words.len() < 500,
            _ => true,
        };
        if case.fields().iter().all(is_short) && holds(&case) {
            assert!(holds(&shrink(&case, holds)));
            shrunk += 1;
        }
    }
}

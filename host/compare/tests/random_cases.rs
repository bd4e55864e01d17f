//! A short run over random cases of all calls. The long one is the program of this crate.

use std::process::{Command, Output};

use compare::{grammar_list, grammars_of, run, set_sizes};
use compare::{Answer, Answers, Case, Difference, Field, Outcome, Random, Row, Value};
use route_record::{Place, Refusal, CHECK_ROWS, MAX_BYTES, MAX_ROWS, ROW_WORDS};

/// The answers of a run of so many cases.
fn run_cases(seed: u64, cases: u64) -> Answers {
    let (mut answers, mut left) = (Answers::default(), cases);
    let goes_on = || {
        left = left.saturating_sub(1);
        left > 0
    };
    let result = run(seed, Case::of_library, goes_on, &mut answers);
    if let Err(difference) = result {
        panic!("{difference}");
    }
    answers
}

/// Every call gives every answer that it can give, and no other.
#[test]
fn each_call_gives_each_of_its_answers() {
    let answers = run_cases(3, 24_000);
    let mut total = 0;
    for blank in Case::blanks() {
        for &number in blank.answer_numbers() {
            let count = answers.count(blank.call(), number);
            assert!(count > 0, "{} never gave {number}", blank.call());
            total += count;
        }
    }
    assert_eq!(total, answers.total());
}

#[test]
fn a_seed_gives_the_same_cases_again() {
    let answers = run_cases(4, 1_000);
    assert_eq!(answers.total(), 999);
    assert_eq!(answers, run_cases(4, 1_000));
    assert_ne!(answers, run_cases(5, 1_000));
}

/// The difference between the model and a false library that a seed shows within so many cases.
fn difference(seed: u64, library: impl Fn(&Case) -> Outcome + Send, cases: u64) -> Box<Difference> {
    let mut answers = Answers::default();
    let difference = run(seed, library, || true, &mut answers).expect_err("a difference");
    assert!(answers.total() < cases);
    difference
}

/// A library that accepts every grammar is found out, by the smallest table that is refused.
#[test]
fn a_false_library_is_found_out() {
    let library = |case: &Case| match case {
        Case::CheckGrammar { .. } => Outcome::with(Answer::Accepted(vec![]), case),
        _ => case.of_library(),
    };
    let difference = difference(6, library, 1_000);
    let grammar = vec![];
    assert_eq!(difference.case, Case::CheckGrammar { grammar });
    assert_eq!(
        difference.to_string(),
        r#"{"name": "by the model", "call": "check_grammar", "grammar": [], "refused": {"number": 1, "place": "word", "at": "0"}}
{"name": "by the library", "call": "check_grammar", "grammar": [], "accepted": {}}"#
    );
}

type Comparison = fn(&[u8], &[u8]) -> bool;

/// Comparisons of two accepted records that are not same route: of all bytes, of those from byte 4
/// on, of those at the end that both have, and of how many there are.
const FALSE_COMPARISONS: [Comparison; 4] = [
    |first, second| first == second,
    |first, second| first.get(4..) == second.get(4..),
    |first, second| first.ends_with(second) || second.ends_with(first),
    |first, second| first.len() == second.len(),
];

#[test]
fn a_false_comparison_of_routes_is_found_out() {
    for is_same in FALSE_COMPARISONS {
        let library = |case: &Case| {
            let outcome = case.of_library();
            match (case, &outcome.answer) {
                (Case::SameRoute { first, second, .. }, Answer::Accepted(_)) => {
                    let same = is_same(first, second);
                    Outcome::with(Answer::Accepted(vec![same.into()]), case)
                }
                _ => outcome,
            }
        };
        let difference = difference(7, library, 1_000);
        assert_eq!(difference.case.call(), "same_route");
    }
}

/// A preview's `changed` by the output before and after the writing, the index and the size.
type Count = fn(&[u8], &[u8], usize, usize) -> usize;

/// How many bytes are not the same.
fn others(before: &[u8], after: &[u8]) -> usize {
    let bytes = before.iter().zip(after);
    bytes.filter(|(before, after)| before != after).count()
}

/// Counts that are not what a writing changes: of all bytes written, of those that are not 0, of
/// one for any, of those that differ from the output's first bytes, and of all but the last.
const FALSE_COUNTS: [Count; 5] = [
    |_, _, _, size| size,
    |_, after, index, size| others(&vec![0; size], &after[index..]),
    |before, after, _, _| others(before, after).min(1),
    |before, after, index, size| others(before, &after[index..index + size]),
    |before, after, index, size| others(before, &after[..(index + size).saturating_sub(1)]),
];

/// What the output of a preview holds after the writing.
fn written(preview: &Case) -> Vec<u8> {
    let writing = preview.previewed().expect("a preview").of_model();
    Value::of(&writing.after()).expect("a writing").1
}

#[test]
fn a_false_count_of_changed_bytes_is_found_out() {
    for count in FALSE_COUNTS {
        let library = |case: &Case| {
            let outcome = case.of_library();
            match (case, &outcome.answer) {
                (Case::Preview { out, index, .. }, Answer::Accepted(given)) => {
                    let size = given[0] as usize;
                    let changed = count(out, &written(case), *index, size);
                    Outcome::with(Answer::Accepted(vec![given[0], changed as u64]), case)
                }
                _ => outcome,
            }
        };
        let difference = difference(8, library, 2_000);
        assert_eq!(difference.case.call(), "preview");
    }
}

/// A library whose preview is the model's, but whose writing gives the size and writes nothing, is
/// found out.
#[test]
fn a_preview_unlike_the_writing_is_found_out() {
    let library = |case: &Case| match case {
        Case::Preview { .. } => {
            let sound = case.of_model().answer;
            Outcome::by(case, |called| match (called, &sound) {
                (Case::MarshallVal { .. }, Answer::Accepted(given)) => {
                    Answer::Accepted(given[..1].to_vec())
                }
                _ => sound.clone(),
            })
        }
        _ => case.of_library(),
    };
    let difference = difference(9, library, 2_000);
    assert_eq!(difference.case.call(), "preview");
    assert_eq!(difference.model.answer, difference.library.answer);
    assert!(difference.library.contradiction().is_some());
    let text = difference.to_string();
    assert_eq!(text.lines().count(), 3, "{text}");
    let last = text.lines().last().expect("a line");
    assert!(
        last.starts_with(r#"{"name": "by the library's writing""#),
        "{last}"
    );
}

/// A chooser's answer by the grammars of the list and the record, where the sound one accepts and
/// gives these numbers.
type Choice = fn(&[Vec<u32>], &[u8], [u64; 2]) -> [u64; 2];

/// Choices that are not the first grammar that accepts and the values begun by all tries: the last
/// that accepts, and how many do not; as the values begun those of the last try, the number of tries,
/// and those of all tries but the first.
const FALSE_CHOICES: [Choice; 5] = [
    |grammars, record, [_, begun]| {
        let accepts = |grammar: &Vec<u32>| model::demarshall(grammar, record, MAX_ROWS).is_ok();
        let last = grammars.iter().rposition(accepts).expect("one accepts");
        [last as u64, begun]
    },
    |grammars, record, [_, begun]| {
        let refuses = |grammar: &&Vec<u32>| model::demarshall(grammar, record, MAX_ROWS).is_err();
        [grammars.iter().filter(refuses).count() as u64, begun]
    },
    |grammars, record, [number, _]| {
        let grammar = &grammars[number as usize];
        let reading = model::demarshall(grammar, record, MAX_ROWS).expect("it accepts");
        [number, (reading.rows.len() / ROW_WORDS) as u64]
    },
    |_, _, [number, _]| [number, number + 1],
    |grammars, record, [number, begun]| match number {
        0 => [number, begun],
        _ => {
            let others = grammar_list(&grammars[1..]);
            let chosen = model::choose_grammar(&others, record).expect("one accepts");
            [number, chosen.begun as u64]
        }
    },
];

#[test]
fn a_false_choice_is_found_out() {
    for choice in FALSE_CHOICES {
        let library = |case: &Case| {
            let outcome = case.of_library();
            match (case, &outcome.answer) {
                (Case::ChooseGrammar { list, record }, Answer::Accepted(given)) => {
                    let grammars = grammars_of(list).expect("a list that is laid out");
                    let given = choice(&grammars, record, [given[0], given[1]]);
                    Outcome::with(Answer::Accepted(given.to_vec()), case)
                }
                _ => outcome,
            }
        };
        let difference = difference(11, library, 1_000);
        assert_eq!(difference.case.call(), "choose_grammar");
    }
}

/// A library that checks a grammar only when it comes to try it, so not behind one that accepts, is
/// found out.
#[test]
fn a_late_check_of_a_grammar_is_found_out() {
    let library = |case: &Case| {
        let outcome = case.of_library();
        let (Case::ChooseGrammar { list, record }, 1..=5) = (case, outcome.answer.number()) else {
            return outcome;
        };
        let grammars = grammars_of(list).expect("a list that is laid out");
        let is_sound = |grammar: &&Vec<u32>| model::check_grammar(grammar).is_ok();
        let before = grammars.iter().take_while(is_sound).count();
        let list = grammar_list(&grammars[..before]);
        match model::choose_grammar(&list, record) {
            Ok(chosen) => {
                let given = [chosen.number, chosen.begun].map(|number| number as u64);
                Outcome::with(Answer::Accepted(given.to_vec()), case)
            }
            Err(_) => outcome,
        }
    };
    let difference = difference(15, library, 5_000);
    assert_eq!(difference.case.call(), "choose_grammar");
}

/// Yes or no and the values begun by the grammar and the record, where these are the sound ones.
type YesOrNo = fn(&[u32], &[u8], [u64; 2]) -> [u64; 2];

/// Answers that are not yes or no as asked: no values begun with no, one with every answer, the rows of
/// a check without a capacity, yes to every record that is read, no reading of a record of the least
/// length, and yes and no exchanged where the record is read.
const FALSE_VERDICTS: [YesOrNo; 6] = [
    |_, _, [yes, begun]| [yes, yes * begun],
    |_, _, [yes, begun]| [yes, begun.max(1)],
    |grammar, record, [_, begun]| {
        let is_accepted = model::check_whole(grammar, record).is_ok();
        [is_accepted.into(), begun]
    },
    |_, _, [_, begun]| [begun.min(1), begun],
    |grammar, record, sound| match model::least_length(grammar) {
        Ok(Some(least)) if least == record.len() as u64 => [0, 0],
        _ => sound,
    },
    |_, _, [yes, begun]| [begun.min(1) - yes, begun],
];

#[test]
fn a_false_yes_or_no_is_found_out() {
    for verdict in FALSE_VERDICTS {
        let library = |case: &Case| {
            let outcome = case.of_library();
            match (case, &outcome.answer) {
                (Case::Accepts { grammar, record }, Answer::Accepted(given)) => {
                    let given = verdict(grammar, record, [given[0], given[1]]);
                    Outcome::with(Answer::Accepted(given.to_vec()), case)
                }
                _ => outcome,
            }
        };
        let difference = difference(14, library, 3_000);
        assert_eq!(difference.case.call(), "accepts");
    }
}

/// A check's capacity by the one that is named, if there is one.
type Capacity = fn(Option<usize>) -> usize;

/// Capacities that are not 1,024 where none is named, else the one named, or 4,096 where that is
/// larger. The first three err where none is named. Of a capacity named, 0 is taken for 1, for none
/// named or for the most, 1 for 0; it is 1,024 or 4,095 at most, or 0 where it is above 4,096; and it
/// is held in 16 or 32 bits, or in a signed number of 32 or 64.
const FALSE_CAPACITIES: [Capacity; 14] = [
    |named| named.unwrap_or(MAX_ROWS),
    |named| named.unwrap_or(CHECK_ROWS + 1),
    |named| named.unwrap_or(CHECK_ROWS - 1),
    |named| named.map_or(CHECK_ROWS, |named| named.max(1)),
    |named| named.filter(|&named| named > 0).unwrap_or(CHECK_ROWS),
    |named| {
        named.map_or(
            CHECK_ROWS,
            |named| if named == 0 { MAX_ROWS } else { named },
        )
    },
    |named| named.map_or(CHECK_ROWS, |named| if named == 1 { 0 } else { named }),
    |named| named.map_or(CHECK_ROWS, |named| named.min(CHECK_ROWS)),
    |named| named.map_or(CHECK_ROWS, |named| named.min(MAX_ROWS - 1)),
    |named| named.map_or(CHECK_ROWS, |named| if named > MAX_ROWS { 0 } else { named }),
    |named| named.map_or(CHECK_ROWS, |named| named % (1 << 16)),
    |named| named.map_or(CHECK_ROWS, |named| named % (1 << 32)),
    |named| named.map_or(CHECK_ROWS, |named| (named as i32).max(0) as usize),
    |named| named.map_or(CHECK_ROWS, |named| (named as i64).max(0) as usize),
];

/// The check of this case with another capacity, if it is a check.
fn with_capacity(case: &Case, capacity: Capacity) -> Option<Case> {
    let (grammar, record, index, named) = match case.clone() {
        Case::CheckVal {
            grammar,
            record,
            index,
        } => (grammar, record, Some(index), None),
        Case::CheckValWith {
            grammar,
            record,
            index,
            capacity,
        } => (grammar, record, Some(index), Some(capacity)),
        Case::CheckWhole { grammar, record } => (grammar, record, None, None),
        Case::CheckWholeWith {
            grammar,
            record,
            capacity,
        } => (grammar, record, None, Some(capacity)),
        _ => return None,
    };
    let capacity = capacity(named);
    Some(match index {
        Some(index) => Case::CheckValWith {
            grammar,
            record,
            index,
            capacity,
        },
        None => Case::CheckWholeWith {
            grammar,
            record,
            capacity,
        },
    })
}

/// Among random cases of the checks, from an index and of whole records, there are some that a check
/// with each false capacity answers otherwise.
#[test]
fn a_false_capacity_is_found_out() {
    let mut random = Random::new(13);
    let cases: Vec<Case> = (0..20_000).map(|_| Case::random(&mut random)).collect();
    for (number, capacity) in FALSE_CAPACITIES.into_iter().enumerate() {
        for call in ["check_val", "check_whole"] {
            let of_call = cases.iter().filter(|case| case.call().starts_with(call));
            let mut others =
                of_call.filter_map(|case| Some((case, with_capacity(case, capacity)?)));
            let is_found_out =
                others.any(|(case, other)| other.of_library().answer != case.of_model().answer);
            assert!(is_found_out, "{call} with capacity {number} of the list");
        }
    }
}

/// An import's answer, given the sound one, its record and the length of its store.
type Import = fn(Answer, &Case) -> Answer;

/// The model's answer to an import with another record or another store.
fn import_with(case: &Case, edit: impl FnOnce(&mut Vec<u8>, &mut Vec<u8>)) -> Answer {
    let mut other = case.clone();
    if let Case::ImportXdr { record, store, .. } = &mut other {
        edit(record, store);
    }
    other.of_model().answer
}

/// The number and the byte of a refusal.
fn refused_at(answer: &Answer) -> Option<(u64, u64)> {
    match answer {
        Answer::Refused { refusal, .. } => match refusal.place {
            Place::Byte(byte) => Some((refusal.number, byte)),
            _ => None,
        },
        Answer::Accepted(_) => None,
    }
}

/// The refusal of a number at a byte.
fn refused(number: u64, byte: u64) -> Answer {
    let place = Place::Byte(byte);
    let refusal = Refusal { number, place };
    Answer::Refused { refusal, record: 0 }
}

/// Imports that are not sound: 23 before 17, 17 at byte 0 or behind the store's length, and padding that
/// is not looked at or may lack its last byte at the end.
const FALSE_IMPORTS: [Import; 5] = [
    |sound, case| match refused_at(&sound) {
        Some((17, _)) => match import_with(case, |_, store| store.resize(MAX_BYTES, 0)) {
            other if other.number() == 23 => other,
            _ => sound,
        },
        _ => sound,
    },
    |sound, _| match refused_at(&sound) {
        Some((17, _)) => refused(17, 0),
        _ => sound,
    },
    |sound, _| match refused_at(&sound) {
        Some((17, byte)) => refused(17, byte + 1),
        _ => sound,
    },
    |sound, _| match refused_at(&sound) {
        Some((23, _)) => Answer::Accepted(vec![1, 1]),
        _ => sound,
    },
    |sound, case| match refused_at(&sound) {
        Some((9, _)) => match import_with(case, |record, _| record.push(0)) {
            accepted @ Answer::Accepted(_) => accepted,
            _ => sound,
        },
        _ => sound,
    },
];

#[test]
fn a_false_import_is_found_out() {
    for import in FALSE_IMPORTS {
        let library = |case: &Case| {
            let outcome = case.of_library();
            match case {
                Case::ImportXdr { .. } => {
                    let answer = import(outcome.answer.clone(), case);
                    match answer == outcome.answer {
                        true => outcome,
                        false => Outcome::with(answer, case),
                    }
                }
                _ => outcome,
            }
        };
        let difference = difference(14, library, 20_000);
        assert_eq!(difference.case.call(), "import_xdr");
    }
}

/// A library that changes a byte of the store or a row where it refuses an import is found out.
#[test]
fn a_refused_import_that_changes_something_is_found_out() {
    for name in ["rows", "store"] {
        let library = |case: &Case| {
            let outcome = case.of_library();
            let mut after = outcome.after();
            let is_refused = outcome.answer.number() > 0;
            if !is_refused || !matches!(case, Case::ImportXdr { .. }) {
                return outcome;
            }
            for (lent, field) in after.lent() {
                match field {
                    Field::Bytes(bytes) if lent == name => bytes.iter_mut().for_each(|b| *b ^= 1),
                    Field::Uint64s(rows) if lent == name => rows.iter_mut().for_each(|w| *w ^= 1),
                    _ => (),
                }
            }
            Outcome::with(outcome.answer, &after)
        };
        let difference = difference(15, library, 2_000);
        assert_eq!(difference.case.call(), "import_xdr");
    }
}

/// Whether a size is compared, by the row's number, the row and its right size.
type IsCompared = fn(usize, &Row, u64) -> bool;

/// Comparisons of sizes that leave some out: all, all but the root's, the root's, those of values of
/// one row, those of the others, and those that differ in their upper half alone.
const FALSE_SIZES: [IsCompared; 6] = [
    |_, _, _| false,
    |row, _, _| row == 0,
    |row, _, _| row > 0,
    |_, [_, span, ..], _| *span > 1,
    |_, [_, span, ..], _| *span == 1,
    |_, [.., size], right| *size as u32 != right as u32,
];

/// The case with those sizes of the rows that it reads made right that are not compared.
fn with_right_sizes(case: &Case, is_compared: IsCompared) -> Case {
    let mut other = case.clone();
    for field in other.fields() {
        let ("rows", Field::Uint64s(words)) = field else {
            continue;
        };
        let rows: &mut [Row] = words.as_chunks_mut().0;
        let mut right = rows.to_vec();
        set_sizes(&mut right);
        for (number, (row, [.., right])) in rows.iter_mut().zip(right).enumerate() {
            if !is_compared(number, row, right) {
                row[4] = right;
            }
        }
    }
    other
}

/// A library that does not compare all sizes is found out, and one that compares them when all else
/// of the rows is in order.
#[test]
fn a_false_comparison_of_sizes_is_found_out() {
    let of_case = |case: &Case, is_compared| {
        let outcome = case.of_library();
        match outcome.answer.number() {
            13 => Outcome::with(with_right_sizes(case, is_compared).of_model().answer, case),
            _ => outcome,
        }
    };
    for is_compared in FALSE_SIZES {
        difference(17, |case| of_case(case, is_compared), 3_000);
    }
    let late = |case: &Case| {
        let others = of_case(case, |_, _, _| false);
        match others.answer.number() {
            12..=14 => others,
            _ => case.of_library(),
        }
    };
    difference(18, late, 3_000);
}

/// Answers that are wrong of every proper front part of an accepted record: accepted, refused with
/// another number, and with 9 at a byte that no record has.
fn false_answers() -> [Answer; 5] {
    [
        Answer::Accepted(vec![1, 0]),
        refused(8, 0),
        refused(10, 0),
        refused(11, 0),
        refused(9, u64::MAX),
    ]
}

/// The record of a check of a whole one, of this call.
fn checked_record<'a>(case: &'a Case, call: &str) -> Option<&'a [u8]> {
    match case {
        Case::CheckWhole { record, .. } | Case::CheckWholeWith { record, .. } => {
            (case.call() == call).then_some(record)
        }
        _ => None,
    }
}

/// A library that answers every check of a whole record as the model does, but that of the front
/// part beside an accepted one falsely, is found out.
fn assert_false_front_part_is_found_out(call: &str, answer: &Answer) {
    let library = |case: &Case| match checked_record(case, call) {
        Some(record) => Outcome::by(case, |called| match checked_record(called, call) {
            Some(part) if part.len() < record.len() => answer.clone(),
            _ => called.of_model().answer,
        }),
        None => case.of_library(),
    };
    let difference = difference(20, library, 1_000);
    let record = checked_record(&difference.case, call).expect("a check of a whole record");
    assert!((1..=8).contains(&record.len()), "{record:?}");
    assert_eq!(difference.model.answer, difference.library.answer);
    let front = difference.library.unsound_front().expect("a front part");
    assert_eq!(front.library.answer, *answer);
    assert!(front.model.is_refused_with_9(&front.case));
    let text = difference.to_string();
    let lines: Vec<&str> = text.lines().collect();
    assert_eq!(lines.len(), 5, "{text}");
    assert_eq!(
        lines[2],
        "a front part of the record, to be refused with 9:"
    );
}

#[test]
fn a_false_answer_to_a_front_part_is_found_out() {
    for call in ["check_whole", "check_whole_with"] {
        for answer in false_answers() {
            assert_false_front_part_is_found_out(call, &answer);
        }
    }
}

/// What the program does with these arguments.
fn program(arguments: &[&str]) -> Output {
    let mut command = Command::new(env!("CARGO_BIN_EXE_compare"));
    command.args(arguments).output().expect("the program runs")
}

#[test]
fn the_program_runs_so_many_cases() {
    let output = program(&["--cases", "300", "--seed", "2"]);
    assert!(output.status.success());
    let text = String::from_utf8(output.stdout).expect("text");
    let last = text.lines().last().expect("a line");
    assert!(last.starts_with("300 cases, seed 2, "), "{last}");
    assert!(last.ends_with(" s, no difference"), "{last}");
    assert_eq!(text.lines().count(), 1 + Case::blanks().len());
    for arguments in [&[][..], &["--seed", "2"], &["--cases"], &["--case", "3"]] {
        assert!(!program(arguments).status.success(), "{arguments:?}");
    }
}

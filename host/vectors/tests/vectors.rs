//! The committed files of vectors: each line is a case that the model and the library answer as it
//! says, the files are those that the program writes, and they leave out no refusal.

use std::collections::{BTreeMap, BTreeSet, HashSet};
use std::fs;
use std::process::Command;

use compare::{grammar_list, grammars_of, on_large_stack, own_bytes, root_kinds};
use compare::{Answer, Case, Line, Value};
use route_record::{Place, CHECK_ROWS, MAX_BYTES, MAX_ROWS, ROW_WORDS};
use vectors::{check, Counts, Show, Vector, FILES};

/// The lines of a committed file.
fn committed(file: &vectors::File) -> String {
    fs::read_to_string(file.path()).expect("a committed file")
}

/// The vectors of all committed files.
fn all() -> Vec<Vector> {
    let texts: Vec<String> = FILES.iter().map(committed).collect();
    let lines = texts.iter().flat_map(|text| text.lines());
    lines.map(|line| Vector::parse(line).expect(line)).collect()
}

/// The library calls of all committed files.
fn calls() -> Vec<Line> {
    let call = |vector| match vector {
        Vector::Call(line) => Some(*line),
        Vector::Show(_) => None,
    };
    all().into_iter().filter_map(call).collect()
}

/// The runs of the show program of all committed files.
fn shows() -> Vec<Show> {
    let show = |vector| match vector {
        Vector::Call(_) => None,
        Vector::Show(show) => Some(show),
    };
    all().into_iter().filter_map(show).collect()
}

#[test]
fn the_files_are_those_that_are_written() {
    for file in &FILES {
        let (text, expected) = (committed(file), file.text());
        let lines = text.lines().zip(expected.lines());
        for (line, expected) in lines {
            assert_eq!(line, expected, "{}", file.name);
        }
        assert_eq!(text.len(), expected.len(), "{}", file.name);
    }
    let listed = FILES.iter().map(|file| file.name.to_string());
    let mut listed: BTreeSet<String> = listed.collect();
    listed.insert("README.md".to_string());
    let names = fs::read_dir(vectors::folder()).expect("the folder of the files");
    let names = names.map(|entry| entry.expect("an entry").file_name());
    let found: BTreeSet<String> = names.map(|name| name.into_string().unwrap()).collect();
    assert_eq!(found, listed);
}

#[test]
fn the_model_and_the_library_answer_so() {
    on_large_stack(|| {
        for line in calls() {
            assert!(line.case.of_model() == line.outcome, "{}", line.name);
            assert!(line.case.of_library() == line.outcome, "{}", line.name);
        }
    });
    for show in shows() {
        assert_eq!(compare::show(&show.input), show.printed, "{}", show.name);
    }
}

#[test]
fn no_two_are_the_same() {
    let vectors = all();
    let names: BTreeSet<&str> = vectors.iter().map(Vector::name).collect();
    assert_eq!(names.len(), vectors.len());
    let (calls, shows) = (calls(), shows());
    let mut cases: HashSet<&Case> = HashSet::new();
    for line in &calls {
        assert!(cases.insert(&line.case), "{}", line.name);
    }
    let inputs: BTreeSet<&Vec<u8>> = shows.iter().map(|show| &show.input).collect();
    assert_eq!(inputs.len(), shows.len());
}

/// Lines are short enough to be read, except two of the greatest depth, where each row is another.
#[test]
fn no_line_is_long() {
    let (vectors, mut long) = (all(), BTreeSet::new());
    for vector in &vectors {
        if vector.to_string().len() >= 15_000 {
            long.insert(vector.name());
        }
    }
    let expected = [
        "compute_size_of: 1,024 levels of cases",
        "compute_size_of: 4,096 levels of cases",
        "compute_size_of: 4,096 levels of cases, the size of row 4095",
        "locate_array: 14 in the last of 4,096 levels of cases",
    ];
    assert_eq!(long, BTreeSet::from(expected));
}

#[test]
fn each_call_gives_each_of_its_answers() {
    let mut given: BTreeMap<&str, BTreeSet<u64>> = BTreeMap::new();
    for line in calls() {
        let numbers = given.entry(line.case.call()).or_default();
        numbers.insert(line.outcome.answer.number());
    }
    for blank in Case::blanks() {
        let expected = blank.answer_numbers().iter().copied().collect();
        assert_eq!(given[blank.call()], expected, "{}", blank.call());
    }
}

/// Same route says yes and no of roots of each kind and behind first fields of each kind, and yes
/// of first fields that differ and of those that are not as long as each other, where the kind has
/// such values. Of two fields the last, of each kind but the constant, decides it: no, and yes where
/// the records are not as long as each other.
#[test]
fn same_route_of_each_kind() {
    let (mut roots, mut fields) = (BTreeSet::new(), BTreeSet::new());
    let (mut other_bytes, mut other_lengths) = (BTreeSet::new(), BTreeSet::new());
    let mut lasts = BTreeSet::new();
    for line in calls() {
        let (
            Case::SameRoute {
                grammar,
                first,
                second,
            },
            Answer::Accepted(same),
        ) = (&line.case, &line.outcome.answer)
        else {
            continue;
        };
        let (root, field) = root_kinds(grammar);
        roots.insert((root, same[0]));
        fields.extend(field.map(|field| (field, same[0])));
        if same[0] == 1 && first != second {
            other_bytes.insert(field);
            other_lengths.extend((first.len() != second.len()).then_some(field));
        }
        if let [n, 4, field, 2, ..] = grammar[..] {
            if same[0] == 0 || first.len() != second.len() {
                let node = grammar[(3 + 3 * n + field) as usize];
                lasts.insert((grammar[(1 + 3 * node) as usize], same[0]));
            }
        }
    }
    let both: BTreeSet<(u32, u64)> = (0..=10).flat_map(|k| [(k, 0), (k, 1)]).collect();
    assert_eq!(fields, both);
    // Two constants never differ.
    let both: BTreeSet<_> = both.into_iter().filter(|&kind| kind != (0, 0)).collect();
    assert_eq!(roots, both);
    assert_eq!(other_bytes, (1..=10).map(Some).collect());
    assert_eq!(other_lengths, (3..=8).map(Some).collect());
    let both = (1..=10).flat_map(|k| [(k, 0), (k, 1)]);
    assert_eq!(lasts, both.collect());
}

/// Same route with a record that is refused: each refusal of the first record with each of the second,
/// 0 for an accepted one; 8 to 11 at a byte that is not 0; and roots of each kind with two records of
/// equal bytes, and with two that are not as long as each other.
#[test]
fn same_route_of_refused_records() {
    let (mut pairs, mut behind_0) = (BTreeSet::new(), BTreeSet::new());
    let (mut equal_bytes, mut other_lengths) = (BTreeSet::new(), BTreeSet::new());
    for line in calls() {
        let number = line.outcome.answer.number();
        let (
            Case::SameRoute {
                grammar,
                first,
                second,
            },
            Answer::Refused {
                refusal,
                record: named @ 1..=2,
            },
        ) = (line.case, line.outcome.answer)
        else {
            continue;
        };
        behind_0.extend((refusal.place != Place::Byte(0)).then_some((number, named)));
        let (root, _) = root_kinds(&grammar);
        equal_bytes.extend((first == second).then_some(root));
        other_lengths.extend((first.len() != second.len()).then_some(root));
        let number_of = |record: &[u8]| match model::demarshall(&grammar, record, MAX_ROWS) {
            Ok(_) => 0,
            Err(refusal) => refusal.number,
        };
        pairs.insert((number_of(&first), number_of(&second)));
    }
    let numbers = [0, 6, 8, 9, 10, 11];
    let each_two = numbers.map(|one| numbers.map(|other| (one, other)));
    let expected = each_two.concat().into_iter().filter(|&two| two != (0, 0));
    assert_eq!(pairs, expected.collect());
    let expected = (8..=11).flat_map(|number| [(number, 1), (number, 2)]);
    assert_eq!(behind_0, expected.collect());
    assert_eq!(equal_bytes, (0..=10).collect());
    assert_eq!(other_lengths, (0..=10).collect());
}

/// Of lists of each length, 1 to 16, the first grammar accepts, the last does, and none does. Of 16
/// grammars each is refused, and of three each with each refusal.
#[test]
fn choosing_at_each_place() {
    let (mut firsts, mut lasts, mut nones) = (BTreeSet::new(), BTreeSet::new(), BTreeSet::new());
    let (mut of_three, mut of_16) = (BTreeSet::new(), BTreeSet::new());
    for line in calls() {
        let Case::ChooseGrammar { list, .. } = line.case else {
            continue;
        };
        let grammars = grammars_of(&list).unwrap_or_default();
        let count = grammars.len();
        match (line.outcome.answer.number(), line.outcome.answer) {
            (0, Answer::Accepted(given)) => {
                firsts.extend((given[0] == 0).then_some(count));
                lasts.extend((given[0] as usize == count - 1).then_some(count));
            }
            (22, _) => {
                nones.insert(count);
            }
            (number @ 1..=5, _) => {
                let is_refused = |grammar: &Vec<u32>| model::check_grammar(grammar).is_err();
                let place = grammars.iter().position(is_refused);
                of_three.extend((count == 3).then_some((number, place)));
                of_16.extend((count == 16).then_some(place));
            }
            _ => (),
        }
    }
    for lengths in [firsts, lasts, nones] {
        assert_eq!(lengths, (1..=16).collect());
    }
    let each = (1..=5).flat_map(|number| [0, 1, 2].map(|place| (number, Some(place))));
    assert_eq!(of_three, each.collect());
    assert_eq!(of_16, (0..16).map(Some).collect());
}

/// Roots of each kind accept, and refuse before one that accepts. Tries are refused with each number
/// at their first value and behind others, 8 also where no row is left.
#[test]
fn choosing_behind_each_refusal() {
    let (mut accepting, mut refusing) = (BTreeSet::new(), BTreeSet::new());
    let mut tries = BTreeSet::new();
    for line in calls() {
        let (Case::ChooseGrammar { list, record }, Answer::Accepted(given)) =
            (line.case, line.outcome.answer)
        else {
            continue;
        };
        let mut grammars = grammars_of(&list).expect("a list that is laid out");
        grammars.truncate(given[0] as usize + 1);
        let last = grammars.pop().expect("the one that accepts");
        accepting.insert(root_kinds(&last).0);
        let begun = |list: &[&Vec<u32>]| {
            let chosen = model::choose_grammar(&grammar_list(list), &record);
            chosen.expect("the last accepts").begun
        };
        for grammar in &grammars {
            refusing.insert(root_kinds(grammar).0);
            let reading = model::demarshall(grammar, &record, MAX_ROWS);
            let refusal = reading.expect_err("a refused try");
            let how = match begun(&[grammar, &last]) - begun(&[&last]) {
                1 => "first value",
                2..=MAX_ROWS => "behind others",
                _ => "no row",
            };
            tries.insert((refusal.number, how));
        }
    }
    assert_eq!(accepting, (0..=10).collect());
    assert_eq!(refusing, (0..=10).collect());
    let ways = ["first value", "behind others"];
    let each = (8..=11).flat_map(|number| ways.map(|how| (number, how)));
    assert_eq!(tries, each.chain([(8, "no row")]).collect());
}

/// Each line of yes or no says yes exactly where the model's check with 4,096 rows accepts, with as many
/// values begun as there are rows, and no values begun exactly where the record is too long, the root has
/// no value or the record is shorter than each. Of roots of each kind there are records of the least
/// length, of one byte less and of one more, and a yes and a no that were read.
#[test]
fn yes_or_no_of_each_length() {
    let (mut roots, mut lengths) = (BTreeSet::new(), BTreeSet::new());
    let (mut readings, mut not_read) = (BTreeSet::new(), BTreeSet::new());
    for line in calls() {
        let (Case::Accepts { grammar, record }, Answer::Accepted(given)) =
            (&line.case, &line.outcome.answer)
        else {
            continue;
        };
        let (yes, begun) = (given[0] == 1, given[1] as usize);
        let (root, length) = (root_kinds(grammar).0, record.len() as i64);
        let least = model::least_length(grammar).expect("a sound grammar");
        lengths.extend(least.map(|least| (root, (length - least as i64).clamp(-2, 2))));
        let why = match least {
            _ if record.len() > MAX_BYTES => "too long",
            None => "no value",
            Some(1_048_577) => "more than a record has",
            Some(least) if length < least as i64 => "too short",
            Some(_) => "read",
        };
        assert_eq!(begun > 0, why == "read", "{}", line.name);
        if begun == 0 {
            assert!(!yes, "{}", line.name);
            not_read.insert(why);
            continue;
        }
        roots.insert((root, yes));
        let reading = model::check_whole_with(grammar, record, MAX_ROWS);
        assert_eq!(reading.is_ok(), yes, "{}", line.name);
        match reading {
            Ok(reading) => assert_eq!(reading.rows.len(), ROW_WORDS * begun, "{}", line.name),
            Err(refusal) => {
                let how = match begun {
                    1 => "first value",
                    2..=MAX_ROWS => "behind others",
                    _ => "no row",
                };
                readings.insert((refusal.number, how));
            }
        }
    }
    let both = |kind| [(kind, false), (kind, true)];
    assert_eq!(roots, (0..=10).flat_map(both).collect());
    let ways = ["first value", "behind others"];
    let each = (8..=11).flat_map(|number| ways.map(|how| (number, how)));
    assert_eq!(readings, each.chain([(8, "no row")]).collect());
    let whys = [
        "too long",
        "no value",
        "more than a record has",
        "too short",
    ];
    assert_eq!(not_read, BTreeSet::from(whys));
    for kind in 0..=10 {
        // A constant has no bytes, so no record is shorter.
        for more in if kind == 0 { 0..=2 } else { -2..=2 } {
            assert!(lengths.contains(&(kind, more)), "kind {kind}, {more}");
        }
    }
}

/// The grammar, the capacity and the record of a whole reading.
fn whole_reading(case: &Case) -> Option<(&[u32], usize, &[u8])> {
    match case {
        Case::Demarshall {
            grammar,
            record,
            rows,
        } => Some((grammar, MAX_ROWS.min(rows.len() / ROW_WORDS), record)),
        Case::CheckWhole { grammar, record } => Some((grammar, CHECK_ROWS, record)),
        Case::CheckWholeWith {
            grammar,
            record,
            capacity,
        } => Some((grammar, MAX_ROWS.min(*capacity), record)),
        _ => None,
    }
}

/// The lengths of the proper front parts of this line's record that lines of the same call read,
/// under the same grammar and capacity. Each of these lines is refused with 9, and so is each of
/// another call.
fn front_parts(whole: &Line, calls: &[Line]) -> BTreeSet<usize> {
    let (grammar, capacity, record) = whole_reading(&whole.case).expect("a whole reading");
    let mut lengths = BTreeSet::new();
    for line in calls {
        let Some((of_line, rows, part)) = whole_reading(&line.case) else {
            continue;
        };
        let is_front_part = part.len() < record.len() && record.starts_with(part);
        if is_front_part && (of_line, rows) == (grammar, capacity) {
            assert!(line.outcome.is_refused_with_9(&line.case), "{}", line.name);
            lengths.extend((line.case.call() == whole.case.call()).then_some(part.len()));
        }
    }
    lengths
}

/// No line says of a proper front part of an accepted record anything but refusal 9. There are lines
/// of each front part of example A, and, of a record with values of each kind, of those that end
/// before, within and a byte before the end of each number, count, tag and run of elements.
#[test]
fn front_parts_of_accepted_records() {
    let calls = calls();
    let mut by_name = BTreeMap::new();
    for line in &calls {
        let is_accepted = matches!(line.outcome.answer, Answer::Accepted(_));
        if is_accepted && whole_reading(&line.case).is_some() {
            by_name.insert(line.name.as_str(), front_parts(line, &calls));
        }
    }
    assert_eq!(by_name["demarshall: example A, 3 rows"], (0..14).collect());
    let of_c = &by_name["demarshall: example C, capacity 4"];
    assert_eq!(*of_c, BTreeSet::from([0, 7]));
    let of_a = &by_name["check_whole: example A"];
    assert_eq!(*of_a, BTreeSet::from([0, 3, 4, 13]));
    let of_a = &by_name["check_whole_with: capacity 3, example A"];
    assert_eq!(*of_a, BTreeSet::from([0, 3, 4, 13]));
    let name = "demarshall: fields of each kind";
    let line = calls.iter().find(|line| line.name == name);
    let after = line.expect(name).outcome.after();
    let Case::Demarshall { rows, .. } = &after else {
        panic!("{name}");
    };
    let (lengths, mut kinds) = (&by_name[name], BTreeSet::new());
    for own in own_bytes(rows) {
        kinds.insert(own.kind);
        for run in [own.start..own.head_end, own.head_end..own.end] {
            if let Some(last) = run.clone().last() {
                assert!(lengths.contains(&run.start) && lengths.contains(&last));
                assert!(lengths.range(run).count() >= 3);
            }
        }
    }
    assert_eq!(kinds, (0..=10).collect());
}

/// What a check is given.
struct Check<'a> {
    grammar: &'a [u32],
    record: &'a [u8],
    /// The index, if it is not a check of a whole record.
    index: Option<usize>,
    /// The capacity, if one is named.
    named: Option<usize>,
}

/// What a case of a check is given.
fn check_of(case: &Case) -> Option<Check<'_>> {
    let (grammar, record, index, named) = match case {
        Case::CheckVal {
            grammar,
            record,
            index,
        } => (grammar, record, Some(*index), None),
        Case::CheckWhole { grammar, record } => (grammar, record, None, None),
        Case::CheckValWith {
            grammar,
            record,
            index,
            capacity,
        } => (grammar, record, Some(*index), Some(*capacity)),
        Case::CheckWholeWith {
            grammar,
            record,
            capacity,
        } => (grammar, record, None, Some(*capacity)),
        _ => return None,
    };
    Some(Check {
        grammar,
        record,
        index,
        named,
    })
}

/// Each line of a check says what the model's reading gives with as many rows lent as are named,
/// 4,096 at most, and with 1,024 where none are named.
#[test]
fn checks_are_readings_with_rows() {
    let mut checks: BTreeMap<&str, usize> = BTreeMap::new();
    let calls = calls();
    for line in &calls {
        let Some(check) = check_of(&line.case) else {
            continue;
        };
        let rows = check.named.unwrap_or(CHECK_ROWS).min(MAX_ROWS);
        let rows = vec![99; ROW_WORDS * rows];
        let (grammar, record) = (check.grammar.to_vec(), check.record.to_vec());
        let lent = match check.index {
            Some(index) => Case::ParseVal {
                grammar,
                record,
                index,
                rows,
            },
            None => Case::Demarshall {
                grammar,
                record,
                rows,
            },
        };
        assert_eq!(lent.of_model().answer, line.outcome.answer, "{}", line.name);
        *checks.entry(line.case.call()).or_default() += 1;
    }
    assert_eq!(checks.len(), 4);
    assert!(checks.values().all(|&lines| lines >= 90), "{checks:?}");
}

/// Of both checks with a capacity named, there are lines with each capacity near a border and far
/// above that are accepted and that are refused with 8. With capacity 0 every refusal before 8 and
/// 8 itself is given, and 8 where capacity 1 gives 9, 10 or 11 or accepts.
#[test]
fn checks_with_each_capacity() {
    let calls = calls();
    let mut answers: BTreeMap<(&str, usize), BTreeSet<u64>> = BTreeMap::new();
    let mut instead: BTreeMap<&str, BTreeSet<u64>> = BTreeMap::new();
    for line in &calls {
        let Some(capacity) = check_of(&line.case).and_then(|check| check.named) else {
            continue;
        };
        let (call, number) = (line.case.call(), line.outcome.answer.number());
        answers.entry((call, capacity)).or_default().insert(number);
        if (capacity, number) != (0, 8) {
            continue;
        }
        let mut with_a_row = line.case.clone();
        if let Case::CheckValWith { capacity, .. } | Case::CheckWholeWith { capacity, .. } =
            &mut with_a_row
        {
            *capacity = 1;
        }
        if let Some(line) = calls.iter().find(|line| line.case == with_a_row) {
            let number = line.outcome.answer.number();
            instead.entry(call).or_default().insert(number);
        }
    }
    let near = [1, 2, 3, 1_023, 1_024, 1_025, 4_095, 4_096, 4_097];
    let far = [1 << 32, (1 << 32) + 1, 1 << 63, usize::MAX];
    for (call, before, behind) in [
        ("check_val_with", 1..=7, vec![0, 8, 9, 10]),
        ("check_whole_with", 1..=6, vec![0, 8, 9, 10, 11]),
    ] {
        for capacity in near.into_iter().chain(far) {
            let numbers = answers.get(&(call, capacity));
            let is_both = numbers.is_some_and(|numbers| numbers.is_superset(&[0, 8].into()));
            assert!(is_both, "{call}, {capacity}: {numbers:?}");
        }
        let with_none: BTreeSet<u64> = before.chain([8]).collect();
        assert_eq!(answers[&(call, 0)], with_none, "{call}");
        assert_eq!(instead[call], behind.into_iter().collect(), "{call}");
    }
}

/// Both checks with a capacity named have lines of a field of each kind that finds no row, without
/// bytes.
#[test]
fn a_field_of_each_kind_finds_no_row() {
    let mut kinds: BTreeMap<&str, BTreeSet<u32>> = BTreeMap::new();
    for line in &calls() {
        let Some(check) = check_of(&line.case) else {
            continue;
        };
        let [_, 4, _, 1, kind, ..] = *check.grammar else {
            continue;
        };
        let is_empty = check.record.len() == check.index.unwrap_or(0);
        if is_empty && check.named == Some(1) && line.outcome.answer.number() == 8 {
            kinds.entry(line.case.call()).or_default().insert(kind);
        }
    }
    for call in ["check_val_with", "check_whole_with"] {
        assert_eq!(kinds[call], (0..=10).collect(), "{call}");
    }
}

/// Each line of preview says what the model's writing to a copy of the output gives and changes.
#[test]
fn preview_is_a_writing_to_a_copy() {
    let mut previews = 0;
    on_large_stack(|| {
        for line in calls() {
            if let Some(writing) = line.case.previewed() {
                let beside = line.outcome.beside(&writing.of_model());
                assert_eq!(beside.contradiction(), None, "{}", line.name);
                previews += 1;
            }
        }
    });
    let file = FILES.iter().find(|file| file.name == "preview.jsonl");
    let lines = committed(file.expect("the file")).lines().count();
    assert_eq!(previews, lines);
}

/// Preview counts no byte, one and all bytes of roots of each kind; a constant has none.
#[test]
fn preview_of_each_kind() {
    let (mut none, mut one, mut all) = (BTreeSet::new(), BTreeSet::new(), BTreeSet::new());
    for line in calls() {
        let (Case::Preview { grammar, .. }, Answer::Accepted(given)) =
            (&line.case, &line.outcome.answer)
        else {
            continue;
        };
        let (root, _) = root_kinds(grammar);
        let (size, changed) = (given[0], given[1]);
        none.extend((changed == 0).then_some(root));
        one.extend((changed == 1).then_some(root));
        all.extend((changed == size && size > 1).then_some(root));
    }
    assert_eq!(none, (0..=10).collect());
    assert_eq!(one, (1..=10).collect());
    assert_eq!(all, (1..=10).collect());
}

/// Previews that count every byte have more than 32, with each remainder by 32, at indices with each
/// remainder by 8.
#[test]
fn preview_of_each_length() {
    let (mut sizes, mut indices) = (BTreeSet::new(), BTreeSet::new());
    for line in calls() {
        let (Case::Preview { index, .. }, Answer::Accepted(given)) =
            (&line.case, &line.outcome.answer)
        else {
            continue;
        };
        let (size, changed) = (given[0], given[1]);
        if size > 32 && changed == size {
            sizes.insert(size % 32);
            indices.insert(index % 8);
        }
    }
    assert_eq!(sizes, (0..32).collect());
    assert_eq!(indices, (0..8).collect());
}

/// What an accepted import gives.
struct Imported {
    grammar: Vec<u32>,
    record: Vec<u8>,
    rows: Vec<u64>,
    n: usize,
    store: Vec<u8>,
    used: usize,
}

/// What comes of a line that is an accepted import.
fn imported(line: &Line) -> Option<Imported> {
    let Answer::Accepted(given) = &line.outcome.answer else {
        return None;
    };
    match line.outcome.after() {
        Case::ImportXdr {
            grammar,
            record,
            rows,
            store,
        } => Some(Imported {
            grammar,
            record,
            n: given[0] as usize,
            rows,
            store,
            used: given[1] as usize,
        }),
        _ => None,
    }
}

/// The bytes of the elements of an array's row, and none of another row.
fn bytes_of_elements(row: &[u64]) -> u64 {
    match row[0] {
        5 => row[2],
        6 => 4 * row[2],
        7 => 8 * row[2],
        _ => 0,
    }
}

/// Each accepted import exports to its record, its arrays lie one behind the other from byte 0 on, and
/// what is behind them and behind the rows is as it was. There are imports with roots of each kind, with
/// fields of each kind, and with each number of padding bytes, and with rows and stores that are just
/// enough.
#[test]
fn imports_export_to_their_record() {
    let (mut roots, mut kinds, mut padding) = (BTreeSet::new(), BTreeSet::new(), BTreeSet::new());
    let mut just_enough = 0;
    for line in calls() {
        let Some(imported) = imported(&line) else {
            continue;
        };
        let Imported {
            grammar, record, ..
        } = &imported;
        let (rows, n, store) = (&imported.rows, imported.n, &imported.store);
        let out = vec![0xee; record.len()];
        let exported = model::export_xdr(grammar, rows, n, store, &out, 0);
        assert_eq!(&exported.expect("a value").out, record, "{}", line.name);
        let mut end = 0;
        roots.insert(rows[0]);
        for row in rows[..ROW_WORDS * n].chunks(ROW_WORDS) {
            kinds.insert(row[0]);
            padding.extend((row[0] == 5).then_some(row[2] % 4));
            assert!(!matches!(row[0], 5..=7) || row[3] == end, "{}", line.name);
            end += bytes_of_elements(row);
        }
        assert_eq!(end, imported.used as u64);
        assert!(rows[ROW_WORDS * n..].iter().all(|&word| word == 99));
        assert!(store[imported.used..].iter().all(|&byte| byte == 0xee));
        let is_exact = rows.len() == ROW_WORDS * n && store.len() == imported.used;
        just_enough += usize::from(is_exact && imported.used > 0);
    }
    assert_eq!(roots, (0..=10).collect());
    assert_eq!(kinds, (0..=10).collect());
    assert_eq!(padding, (0..=3).collect());
    assert!(just_enough >= 10, "{just_enough}");
}

/// Which word of a row is its size.
const SIZE: usize = ROW_WORDS - 1;

/// The number of bytes that a row adds to its record.
fn own_size(row: &[u64]) -> u64 {
    match row[0] {
        0 | 4 => 0,
        1 | 9 => 4,
        _ => 8 + bytes_of_elements(row),
    }
}

/// The size of the value that starts with a row: what the rows of its span add.
fn size_of(rows: &[u64], row: usize) -> u64 {
    let span = rows[ROW_WORDS * row + 1] as usize;
    let rows = rows[ROW_WORDS * row..].chunks_exact(ROW_WORDS);
    rows.take(span).map(own_size).sum()
}

/// The rows that an accepted reading or import gives.
fn rows_given(line: &Line) -> Option<Vec<u64>> {
    let Answer::Accepted(given) = &line.outcome.answer else {
        return None;
    };
    match line.outcome.after() {
        Case::ParseVal { mut rows, .. }
        | Case::Demarshall { mut rows, .. }
        | Case::ImportXdr { mut rows, .. } => {
            rows.truncate(ROW_WORDS * given[0] as usize);
            Some(rows)
        }
        _ => None,
    }
}

/// Each row of a reading and of an import has the size of its value. There are such rows of each kind,
/// and imports of more bytes than a record may have, up to the most.
#[test]
fn rows_have_their_sizes() {
    let (mut kinds, mut greatest) = (BTreeMap::new(), 0);
    for line in calls() {
        let Some(rows) = rows_given(&line) else {
            continue;
        };
        for (row, words) in rows.chunks(ROW_WORDS).enumerate() {
            assert_eq!(words[SIZE], size_of(&rows, row), "{}, row {row}", line.name);
            let call: &mut BTreeSet<u64> = kinds.entry(line.case.call()).or_default();
            call.insert(words[0]);
            greatest = greatest.max(words[SIZE]);
        }
    }
    assert_eq!(kinds.len(), 3);
    for kinds in kinds.into_values() {
        assert_eq!(kinds, (0..=10).collect());
    }
    assert_eq!(greatest, 1_064_960);
}

/// The rows that a call takes, and n.
fn rows_taken(case: &Case) -> Option<(&[u64], usize)> {
    match case {
        Case::ComputeSizeOf { rows, n, .. }
        | Case::LocateArray { rows, n, .. }
        | Case::SignedNumber { rows, n, .. }
        | Case::MarshallVal { rows, n, .. }
        | Case::Marshall { rows, n, .. }
        | Case::Preview { rows, n, .. }
        | Case::ExportXdr { rows, n, .. } => Some((rows, *n)),
        _ => None,
    }
}

/// Each call that takes rows is refused for a size alone, at the first row and behind others: with the
/// right size in its place the table passes. The size call is so of each kind, and with a size that is
/// one more, one less, 0 and 2^64-1.
#[test]
fn a_wrong_size_alone() {
    on_large_stack(wrong_sizes);
}

fn wrong_sizes() {
    let (mut places, mut sizes) = (BTreeSet::new(), BTreeMap::new());
    let store = vec![0; MAX_BYTES];
    for line in calls() {
        let Answer::Refused { refusal, .. } = &line.outcome.answer else {
            continue;
        };
        let (13, Place::Row(row)) = (refusal.number, refusal.place) else {
            continue;
        };
        let (rows, n) = rows_taken(&line.case).expect("a call that takes rows");
        let (mut rows, row) = (rows[..ROW_WORDS * n].to_vec(), row as usize);
        let (kind, given) = (rows[ROW_WORDS * row], rows[ROW_WORDS * row + SIZE]);
        if kind > 10 || rows[ROW_WORDS * row + 2] > MAX_BYTES as u64 && matches!(kind, 5..=7) {
            continue;
        }
        let right = size_of(&rows, row);
        rows[ROW_WORDS * row + SIZE] = right;
        let passes = model::compute_size_of(&rows, n, &store).is_ok();
        if given == right || !passes {
            continue;
        }
        places.insert((line.case.call(), row > 0));
        if line.case.call() == "compute_size_of" {
            let sizes: &mut BTreeSet<u64> = sizes.entry(kind).or_default();
            sizes.insert(given.wrapping_sub(right));
            sizes.extend((given == 0).then_some(0));
            sizes.extend((given == u64::MAX).then_some(2));
        }
    }
    assert_eq!(places.len(), 2 * 7, "{places:?}");
    assert_eq!(sizes.len(), 11);
    for (kind, sizes) in sizes {
        assert!(sizes.is_superset(&BTreeSet::from([1, 2])), "kind {kind}");
        let below = BTreeSet::from([u64::MAX, 0]);
        assert!(kind == 0 || sizes.is_superset(&below), "kind {kind}");
    }
}

/// What each accepted export writes is imported with rows and a store that are just enough, and is an
/// equal value then: it exports to the same bytes and, where it may be written, its record is the same.
/// There are exports of roots of each kind, and of values that are too long to be written.
#[test]
fn exports_are_imported() {
    let (mut roots, mut too_long) = (BTreeSet::new(), 0);
    on_large_stack(|| {
        for line in calls() {
            let (Case::ExportXdr { .. }, Answer::Accepted(given)) =
                (&line.case, &line.outcome.answer)
            else {
                continue;
            };
            let (value, out, index) = Value::of(&line.outcome.after()).expect("an export");
            let (xdr, n) = (&out[index..index + given[0] as usize], value.n);
            let rows = &value.rows[..ROW_WORDS * n];
            let used: u64 = rows.chunks(ROW_WORDS).map(bytes_of_elements).sum();
            let store = vec![0xee; used as usize];
            let imported = model::import_xdr(&value.grammar, xdr, n, &store);
            let imported = imported.expect("enough rows and store");
            let written = |rows: &[u64], store: &[u8]| {
                let out = vec![0; MAX_BYTES];
                model::marshall(&value.grammar, rows, n, store, &out)
            };
            let record = written(rows, &value.store);
            assert_eq!(written(&imported.rows, &imported.store), record);
            roots.insert(rows[0]);
            too_long += usize::from(record.is_err());
        }
    });
    assert_eq!(roots, (0..=10).collect());
    assert!(too_long > 0);
}

/// Every proper front part of the XDR of a value with fields of each kind, and of example T, is refused
/// with 9.
#[test]
fn front_parts_of_imports() {
    let calls = calls();
    for name in ["import_xdr: fields of each kind", "import_xdr: example T"] {
        let whole = calls.iter().find(|line| line.name == name).expect(name);
        let whole = imported(whole).expect("accepted");
        let mut lengths = BTreeSet::new();
        for line in &calls {
            let Case::ImportXdr {
                grammar, record, ..
            } = &line.case
            else {
                continue;
            };
            let is_part = whole.record.starts_with(record) && *grammar == whole.grammar;
            if is_part && line.outcome.answer.number() == 9 {
                lengths.insert(record.len());
            }
        }
        assert_eq!(lengths, (0..whole.record.len()).collect(), "{name}");
    }
}

/// Refusals with their borders: the number, the call, what the line shows that just passes its test,
/// and what the one that just does not.
#[rustfmt::skip]
const BORDERS: [(u64, &str, &str, &str); 192] = [
    (1, "check_grammar", "example F, N 256", "example F, N 257"),
    (1, "check_grammar", "example B, constant", "N 0"),
    (1, "preview", "N 256", "N 257"),
    (1, "choose_grammar", "N 256", "N 257"),
    (1, "choose_grammar", "one constant", "1 of the only grammar"),
    (1, "accepts", "N 256, grammar 0", "N 257, grammar 0"),
    (1, "accepts", "example B", "1 of the grammar, no bytes"),
    (2, "check_grammar", "M 1,024", "M 1,025"),
    (2, "check_grammar", "1,794 words", "1,793 words, one missing"),
    (2, "check_grammar", "1,794 words", "1,795 words, one too many"),
    (2, "preview", "M 1,024", "M 1,025"),
    (2, "choose_grammar", "M 1,024", "M 1,025"),
    (2, "choose_grammar", "1,794 words", "1,793 words, one missing"),
    (2, "choose_grammar", "1,794 words", "1,795 words, one too many"),
    (2, "accepts", "M 1,024, grammar 0", "M 1,025, grammar 0"),
    (2, "accepts", "1,794 words, grammar 0", "1,793 words, one missing, grammar 0"),
    (2, "accepts", "1,794 words, grammar 0", "1,795 words, one too many, grammar 0"),
    (3, "check_grammar", "int64", "kind 11"),
    (3, "preview", "int64 -3 over its record", "kind 11 in the grammar"),
    (3, "choose_grammar", "root int64, accepted", "3 of the only grammar"),
    (3, "accepts", "int64, 8 bytes", "3 of the grammar, no bytes"),
    (4, "check_grammar", "example C, array of constants", "array with count 0"),
    (4, "check_grammar", "example C, array of constants", "array with count 2"),
    (4, "check_grammar", "array with the last child word", "array with its child at M"),
    (4, "check_grammar", "tuple with first+count at M", "tuple with first+count above M"),
    (4, "check_grammar", "count 0 and first at M", "tuple with count 0 and first above M"),
    (4, "check_grammar", "union with first+count at M", "union with first+count above M"),
    (4, "check_grammar", "a tuple of 1,024 fields", "first+count 1,025"),
    (4, "check_grammar", "int32", "int32 with first 1"),
    (4, "check_grammar", "int64", "int64 with count 1"),
    (4, "preview", "first at M", "first above M"),
    (4, "choose_grammar", "root array, accepted", "kind 3, first 0, count 0, M 3"),
    (4, "choose_grammar", "root array, accepted", "array with count 2"),
    (4, "choose_grammar", "root uint32, accepted", "uint32 with first 1"),
    (4, "choose_grammar", "kind 4, first 2, count 1, M 3", "kind 4, first 3, count 1, M 3"),
    (4, "choose_grammar", "kind 4, first 3, count 0, M 3", "kind 4, first 4, count 0, M 3"),
    (4, "accepts", "array of example D, count 0", "array with count 2, grammar 0"),
    (4, "accepts", "kind 4, first 2, count 1, M 3, grammar 0", "kind 4, first 3, count 1, M 3, grammar 0"),
    (4, "accepts", "kind 4, first 3, count 0, M 3, grammar 0", "kind 4, first 4, count 0, M 3, grammar 0"),
    (5, "check_grammar", "child that is the next node", "child that is its node"),
    (5, "check_grammar", "child that is the next node", "child number N"),
    (5, "check_grammar", "node 255 as the last child word", "child number 256 of N 256"),
    (5, "preview", "child that is the next node", "child that is its node"),
    (5, "choose_grammar", "child 2 of node 1 of 3, kind 4", "child 1 of node 1 of 3, kind 4"),
    (5, "choose_grammar", "child 2 of node 1 of 3, kind 4", "child 3 of node 1 of 3, kind 4"),
    (5, "accepts", "child 2 of node 1 of 3, kind 4, grammar 0", "child 1 of node 1 of 3, kind 4, grammar 0"),
    (5, "accepts", "child 2 of node 1 of 3, kind 4, grammar 0", "child 3 of node 1 of 3, kind 4, grammar 0"),
    (6, "demarshall", "a record of 1,048,576 bytes", "a record of 1,048,577 bytes"),
    (6, "check_whole", "a record of 1,048,576 bytes", "a record of 1,048,577 bytes"),
    (6, "parse_val", "the end of 1,048,576 bytes", "the end of 1,048,577 bytes"),
    (6, "check_val", "the end of 1,048,576 bytes", "the end of 1,048,577 bytes"),
    (6, "check_whole_with", "capacity 1, a record of 1,048,576 bytes", "capacity 1, 1,048,577 bytes"),
    (6, "check_val_with", "capacity 1, the end of 1,048,576 bytes", "capacity 1, 1,048,577 bytes"),
    (6, "compute_size_of", "a store of 1,048,576 bytes", "a store of 1,048,577 bytes"),
    (6, "locate_array", "a store of 1,048,576 bytes", "a store of 1,048,577 bytes"),
    (6, "signed_number", "a store of 1,048,576 bytes", "a store of 1,048,577 bytes"),
    (6, "marshall", "a store of 1,048,576 bytes", "a store of 1,048,577 bytes"),
    (6, "preview", "a store of 1,048,576 bytes", "a store of 1,048,577 bytes"),
    (6, "same_route", "records of 1,048,576 bytes", "6 of both records"),
    (6, "choose_grammar", "a record of 1,048,576 bytes", "a record of 1,048,577 bytes"),
    (6, "export_xdr", "a store of 1,048,576 bytes", "a store of 1,048,577 bytes"),
    (6, "import_xdr", "a store of 1,048,576 bytes", "a store of 1,048,577 bytes"),
    (6, "import_xdr", "1048572 bytes into a store of 1048572", "a record of 1,048,577 bytes"),
    (7, "unpack_u32", "index at the length", "index above the length, 7 before 9"),
    (7, "unpack_u64_seq", "no numbers at the length", "no numbers above the length"),
    (7, "parse_val", "index at the length of a constant", "index above the length"),
    (7, "check_val", "index at the length of a constant", "index above the length"),
    (7, "check_val_with", "capacity 1, three bytes, index 3, the length",
        "capacity 1, three bytes, index 4, above the length"),
    (8, "demarshall", "example C, capacity 4", "example C, capacity 3"),
    (8, "demarshall", "21 words for 4 rows", "19 words for 4 rows"),
    (8, "demarshall", "5 words for 1 row", "4 words for 1 row"),
    (8, "demarshall", "example A, 3 rows", "example A, 14 words"),
    (8, "demarshall", "4,096 rows", "20,479 words for 4,096 rows"),
    (8, "demarshall", "count at the rows left", "count above the rows left"),
    (8, "demarshall", "as many rows as needed", "no row left at the last field"),
    (8, "demarshall", "tuple of numbers of four kinds", "no row for an int64 behind three numbers"),
    (8, "demarshall", "4,096 rows", "more rows than 4,096 lent are none"),
    (8, "check_whole", "no capacity named, 1,024 rows", "no capacity named, 1,025 rows"),
    (8, "check_val", "no capacity named, 1,024 rows", "no capacity named, 1,025 rows"),
    (8, "check_whole_with", "capacity 1, 1 row", "capacity 0, an array without elements"),
    (8, "check_val_with", "capacity 1, 1 row", "capacity 0, an array without elements"),
    (8, "check_whole_with", "capacity 1,024, 1,024 rows", "capacity 1,024, 1,025 rows"),
    (8, "check_val_with", "capacity 1,024, 1,024 rows", "capacity 1,024, 1,025 rows"),
    (8, "check_whole_with", "capacity 1,025, 1,025 rows", "capacity 1,025, 1,026 rows"),
    (8, "check_val_with", "capacity 1,025, 1,025 rows", "capacity 1,025, 1,026 rows"),
    (8, "check_whole_with", "capacity 4,096, 4,096 rows", "capacity 4,096, 4,097 rows"),
    (8, "check_val_with", "capacity 4,096, 4,096 rows", "capacity 4,096, 4,097 rows"),
    (8, "check_whole_with", "capacity 4,097, 4,096 rows", "capacity 4,097, 4,097 rows"),
    (8, "check_val_with", "capacity 4,097, 4,096 rows", "capacity 4,097, 4,097 rows"),
    (8, "check_whole_with", "capacity 2^64-1, 4,096 rows", "capacity 2^64-1, 4,097 rows"),
    (8, "check_val_with", "capacity 2^64-1, 4,096 rows", "capacity 2^64-1, 4,097 rows"),
    (8, "check_whole_with", "capacity 3, example A", "capacity 2, example A"),
    (8, "check_val_with", "capacity 3, example A", "capacity 2, example A"),
    (8, "same_route", "4,096 rows, equal", "the first record's 8"),
    (8, "same_route", "4,096 rows, most in the first field", "4,097 rows, most in the first field"),
    (8, "import_xdr", "constant", "constant, a word less"),
    (8, "import_xdr", "array of constants", "array of constants, a row less"),
    (8, "import_xdr", "example T", "example T, a row less"),
    (8, "import_xdr", "4095 constants, 20480 words", "4096 constants, 20480 words"),
    (8, "import_xdr", "4095 constants, 20480 words", "4095 constants, 20479 words"),
    (9, "demarshall", "uint32", "uint32, 3 bytes"),
    (9, "demarshall", "uint64", "uint64, 7 bytes"),
    (9, "demarshall", "example I, int32 -1", "example I, int32, 3 bytes"),
    (9, "demarshall", "example I, int64 -1", "example I, int64, 7 bytes"),
    (9, "demarshall", "byte array", "an element of a byte array is missing"),
    (9, "demarshall", "uint32 array of two", "a byte of the last uint32 is missing"),
    (9, "demarshall", "uint64 array", "a byte of the last uint64 is missing"),
    (9, "unpack_u32", "the last 4 bytes", "3 bytes left"),
    (9, "unpack_u64", "the last 8 bytes", "7 bytes left"),
    (9, "unpack_u32_seq", "two numbers up to the end", "a byte of the second is missing"),
    (9, "import_xdr", "uint32", "uint32, cut by a byte"),
    (9, "import_xdr", "uint64", "uint64, cut by a byte"),
    (9, "import_xdr", "int32 -3", "int32 -3, cut by a byte"),
    (9, "import_xdr", "int64 -3", "int64 -3, cut by a byte"),
    (9, "import_xdr", "array without elements", "array without elements, cut by a byte"),
    (9, "import_xdr", "3 bytes", "3 bytes, cut by a byte"),
    (9, "import_xdr", "4 bytes", "4 bytes, cut by a byte"),
    (9, "import_xdr", "uint32 elements", "uint32 elements, cut by a byte"),
    (9, "import_xdr", "uint64 elements", "uint64 elements, cut by a byte"),
    (10, "demarshall", "tag below the case count", "tag at the case count"),
    (10, "import_xdr", "tag 1023 of 1,024", "tag 1024 of 1,024"),
    (11, "demarshall", "uint32", "uint32, a byte left over"),
    (11, "demarshall", "int32", "int32, a byte left over"),
    (11, "demarshall", "int64", "int64, a byte left over"),
    (11, "demarshall", "example B, constant", "example B, one byte"),
    (11, "import_xdr", "example T", "example T, a byte behind"),
    (12, "compute_size_of", "n 4,096", "n 4,097"),
    (12, "export_xdr", "n 4,096", "n 4,097"),
    (12, "compute_size_of", "constant", "n 0"),
    (12, "compute_size_of", "constant", "a word missing for n"),
    (12, "compute_size_of", "example A", "14 words for 3 rows"),
    (12, "locate_array", "example A, the byte array", "14 words for 3 rows"),
    (12, "signed_number", "the int32 -3 in a tuple", "14 words for 3 rows"),
    (12, "marshall", "example G, 14 bytes", "14 words for 3 rows"),
    (12, "marshall_val", "example G, 14 bytes", "14 words for 3 rows"),
    (12, "preview", "example A over bytes EE", "14 words for 3 rows"),
    (12, "export_xdr", "example A", "14 words for 3 rows"),
    (12, "signed_number", "row 4,095 of 4,096", "n 4,097"),
    (12, "preview", "n 4,096", "n 4,097"),
    (13, "compute_size_of", "int64 pattern 2^64-1", "kind 11"),
    (13, "compute_size_of", "example H, number 4,294,967,295", "example H, number 4,294,967,296"),
    (13, "compute_size_of", "int32 pattern 4,294,967,295", "example I, int32 pattern 4,294,967,296"),
    (13, "signed_number", "example I, -1 of an int32", "example I, 2^32 is no pattern of an int32"),
    (13, "preview", "example H, number 4,294,967,295", "example H, number 4,294,967,296"),
    (13, "export_xdr", "example H, number 4,294,967,295", "example H, number 4,294,967,296"),
    (13, "compute_size_of", "example A", "the size of row 0 is too great"),
    (13, "compute_size_of", "example A", "the size of row 0 is too small"),
    (13, "compute_size_of", "constant", "kind 0 of size 0, given as 1"),
    (13, "locate_array", "example A, the byte array", "the size of row 0 is too great"),
    (13, "signed_number", "the int32 -3 in a tuple", "the size of row 0 is too great"),
    (13, "marshall", "example G, 14 bytes", "the size of row 0 is too great"),
    (13, "marshall_val", "example G, 14 bytes", "the size of row 0 is too great"),
    (13, "preview", "example A over bytes EE", "the size of row 0 is too great"),
    (13, "export_xdr", "example A", "the size of row 0 is too great"),
    (14, "compute_size_of", "byte array up to the store's end", "byte array a byte beyond the store"),
    (14, "compute_size_of", "uint32 array up to the store's end", "uint32 array a byte beyond the store"),
    (14, "compute_size_of", "uint64 array up to the store's end", "uint64 array a byte beyond the store"),
    (14, "signed_number", "the int32 -3 in a tuple", "14 of another row"),
    (14, "preview", "example A over its record", "the store of example A without its last byte"),
    (14, "export_xdr", "example A", "the store of example A without its last byte"),
    (15, "marshall", "case 1, a uint32", "tag at the case count"),
    (15, "export_xdr", "case 1, a uint32", "tag at the case count"),
    (15, "marshall", "int32", "a uint32 where an int32 is wanted"),
    (15, "marshall", "int64", "a uint64 where an int64 is wanted"),
    (15, "preview", "case of a uint32 over its record", "tag at the case count"),
    (16, "marshall", "size 1,048,576", "size 1,048,577"),
    (16, "preview", "1,048,568 bytes over bytes 00", "1,048,569 bytes"),
    (16, "export_xdr", "1,048,571 bytes", "1048573 bytes, no output"),
    (17, "marshall", "example G, 14 bytes", "example G, 13 bytes"),
    (17, "export_xdr", "example T at 4 of 24", "example T at 4 of 23"),
    (17, "export_xdr", "no bytes at the length", "no bytes above the length"),
    (17, "import_xdr", "3 bytes", "3 bytes, a byte of store less"),
    (17, "import_xdr", "uint32 elements", "uint32 elements, a byte of store less"),
    (17, "import_xdr", "uint64 elements", "uint64 elements, a byte of store less"),
    (17, "preview", "room up to the end", "a byte of room is missing"),
    (17, "preview", "no bytes at the end of 2", "no bytes behind the end of 2"),
    (17, "pack_u32", "the last 4 bytes", "3 bytes of room"),
    (18, "locate_array", "example A, the byte array", "row number n"),
    (18, "locate_array", "example A, the byte array", "example A, the uint32"),
    (20, "signed_number", "the int32 -3 in a tuple", "row number n"),
    (20, "signed_number", "the int32 -3 in a tuple", "the byte array in a tuple"),
    (20, "signed_number", "row 4,095 of 4,096", "row 4,096 of 4,096"),
    (21, "choose_grammar", "one constant", "count 0"),
    (21, "choose_grammar", "16 constants", "17 constants"),
    (21, "choose_grammar", "one constant", "the last word of the only grammar is missing"),
    (21, "choose_grammar", "one constant", "a word left over"),
    (21, "choose_grammar", "an int32 as the last of 16", "count 16 and 15 of int32"),
    (22, "choose_grammar", "an int32 as the last of 16", "16 of int64, an int32"),
    (22, "choose_grammar", "the only grammar, 4096 rows", "the only grammar, 4097 rows"),
    (22, "choose_grammar", "uint64, uint32 and constant, no bytes", "uint64, uint32 and constant, 1 byte"),
    (23, "import_xdr", "two byte arrays with padding", "two arrays of 1 bytes, byte 7 set to 1"),
    (23, "import_xdr", "the file of RFC 4506", "the file of RFC 4506, byte 46 of padding set"),
];

/// The line that passes a border and is refused by what is behind it: no byte is left at the length.
const PASSES_ONE: (&str, u64) = ("unpack_u32: index at the length", 9);

#[test]
fn both_sides_of_each_border() {
    let calls = calls();
    let number_of = |name: &str| {
        let line = calls.iter().find(|line| line.name == name);
        line.expect(name).outcome.answer.number()
    };
    for (number, call, passes, is_refused) in BORDERS {
        let passes = format!("{call}: {passes}");
        let expected = if passes == PASSES_ONE.0 {
            PASSES_ONE.1
        } else {
            0
        };
        assert_eq!(number_of(&passes), expected, "{passes}");
        let is_refused = format!("{call}: {is_refused}");
        assert_eq!(number_of(&is_refused), number, "{is_refused}");
    }
    let numbers: BTreeSet<u64> = BORDERS.iter().map(|border| border.0).collect();
    assert!(numbers.into_iter().eq((1..=18).chain(20..=23)));
}

/// The borders of refusal 19, which the show program alone gives.
#[test]
fn both_sides_of_refusal_19() {
    let shows = shows();
    let starts_with = |name: &str, start: &str| {
        let show = shows.iter().find(|show| show.name == name);
        show.expect(name).printed.starts_with(start)
    };
    for name in ["show: example A", "show: 65,536 bytes", "show: 1,794 words"] {
        assert!(starts_with(name, "rows "), "{name}");
    }
    for name in [
        "show: example A and a byte more",
        "show: example A, the input cut by a byte",
        "show: 65,537 bytes",
        "show: 1,795 words",
    ] {
        assert!(starts_with(name, "refused 19 byte "), "{name}");
    }
}

/// What a check of this text counts, and the numbers of the lines that fail.
fn checked(text: &str) -> (Counts, Vec<usize>) {
    let (mut counts, mut failed) = (Counts::default(), Vec::new());
    check(text, &mut counts, |at, _| failed.push(at));
    (counts, failed)
}

#[test]
fn a_check_sees_a_wrong_line() {
    let text = FILES[0].text();
    let lines: Vec<&str> = text.lines().take(3).collect();
    let sound = lines.join("\n");
    let (passed, failed) = (3, 0);
    assert_eq!(checked(&sound), (Counts { passed, failed }, vec![]));
    // another number, by a digit before the others
    let given = "\"accepted\": {\"number\": \"";
    let wrong = lines[1].replace(given, &format!("{given}1"));
    assert_ne!(wrong, lines[1]);
    let text = [lines[0], &wrong, lines[2], "{}"].join("\n");
    let (passed, failed) = (2, 2);
    assert_eq!(checked(&text), (Counts { passed, failed }, vec![2, 4]));
}

/// An accepted line says what the whole lent buffer holds, and a changed byte of it is seen.
#[test]
fn a_check_sees_a_wrong_buffer() {
    let calls = calls();
    let lends = |line: &&Line| {
        let is_accepted = matches!(line.outcome.answer, Answer::Accepted(_));
        is_accepted && line.name == "pack_u32: least byte first, between other bytes"
    };
    let line = calls.iter().find(lends).expect("the line");
    let text = line.to_json().to_string();
    assert_eq!(checked(&text).0.failed, 0);
    let wrong = text.replace("[\"EE02010000EE\"]", "[\"EE02010000EF\"]");
    assert_ne!(wrong, text);
    assert_eq!(checked(&wrong).0.failed, 1);
}

/// Whether the program's check of these paths succeeds, and its last line.
fn program_checks(paths: &[&str]) -> (bool, String) {
    let mut command = Command::new(env!("CARGO_BIN_EXE_vectors"));
    let output = command.arg("check").args(paths).output();
    let output = output.expect("the program runs");
    let text = String::from_utf8(output.stdout).expect("text");
    let last = text.lines().last().expect("a line").to_string();
    (output.status.success(), last)
}

#[test]
fn the_program_checks_files() {
    let path = FILES[0].path();
    let path = path.to_str().expect("text");
    let lines = committed(&FILES[0]).lines().count();
    let passed = format!("{lines} passed, 0 failed");
    assert_eq!(program_checks(&[path]), (true, passed));
    let failed = format!("{lines} passed, 1 failed");
    assert_eq!(program_checks(&[path, "no such file"]), (false, failed));
}

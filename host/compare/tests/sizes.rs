//! Wrong sizes in rows: alone in each row, two of them, and beside another fault, by every call that
//! takes rows.

use std::cmp::Reverse;
use std::collections::BTreeSet;

use compare::{leaf, on_large_stack, set_sizes, Case, Random, Row, RowTable, Value};

/// Each call that takes rows, on the rows of a table.
fn cases(table: &RowTable) -> Vec<Case> {
    let (rows, n, store) = (table.words(), table.rows.len(), table.record.clone());
    let value = Value {
        grammar: leaf(0),
        rows: rows.clone(),
        n,
        store: store.clone(),
    };
    let out = vec![0xee; 3];
    vec![
        value.clone().marshall_case(out.clone()),
        value.clone().marshall_val_case(out.clone(), 1),
        value.clone().preview_case(out.clone(), 1),
        value.export_case(out, 1),
        Case::LocateArray {
            rows: rows.clone(),
            n,
            store: store.clone(),
            row: 0,
        },
        Case::SignedNumber {
            rows: rows.clone(),
            n,
            store: store.clone(),
            row: 0,
        },
        Case::ComputeSizeOf { rows, n, store },
    ]
}

/// Compares each call that takes rows: all refuse with this number at this row.
fn assert_refused(table: &RowTable, number: u64, row: usize) {
    for case in cases(table) {
        let answer = case.compare().answer.c_words();
        assert_eq!(answer, [number, 3, row as u64, 0, 0], "{case:?}");
    }
}

/// The first row behind a row's value.
fn end(table: &RowTable, row: usize) -> usize {
    row + table.rows[row][1] as usize
}

/// How many values a row's value stands in.
fn depth(table: &RowTable, row: usize) -> usize {
    (0..row).filter(|&other| end(table, other) > row).count()
}

/// Rows each of which but the last has the next one as its child.
fn chain(random: &mut Random, n: u64) -> RowTable {
    let parents = (2..=n)
        .rev()
        .map(|span| [random.pick(&[3, 4, 8]), span, 1, 0, 0]);
    let mut rows: Vec<Row> = parents.collect();
    rows.push([random.pick(&[0, 2, 9]), 1, 0, 0, 0]);
    set_sizes(&mut rows);
    let record = vec![];
    RowTable { rows, record }
}

/// Random tables of up to 40 rows, and some in which each row stands in the one before it.
fn tables(random: &mut Random) -> Vec<RowTable> {
    let mut tables = Vec::new();
    for _ in 0..60 {
        let n = random.within(1..=40);
        let mut table = RowTable::sound(random, n);
        if random.below(2) == 0 {
            table.scatter(random);
        }
        tables.push(table);
    }
    tables.extend([2, 9, 100].map(|n| chain(random, n)));
    tables
}

/// The table with the sizes of these rows made wrong.
fn with_wrong_sizes(random: &mut Random, table: &RowTable, rows: &[usize]) -> RowTable {
    let mut other = RowTable::of(&table.words(), table.record.clone());
    for &row in rows {
        other.damage_size(random, row);
    }
    other
}

/// Each row of each kind, at each depth, alone with a wrong size.
#[test]
fn one_wrong_size() {
    let random = &mut Random::new(21);
    let (mut kinds, mut depths) = (BTreeSet::new(), BTreeSet::new());
    on_large_stack(|| {
        for table in tables(random) {
            for row in 0..table.rows.len() {
                let wrong = with_wrong_sizes(random, &table, &[row]);
                assert_refused(&wrong, 13, row);
                kinds.insert(table.rows[row][0]);
                depths.insert(depth(&table, row));
            }
        }
    });
    assert_eq!(kinds, (0..=10).collect());
    assert_eq!(depths, (0..100).collect());
}

/// Of two wrong sizes that is refused whose value ends first, and where both end together the inner
/// one.
#[test]
fn two_wrong_sizes() {
    let random = &mut Random::new(22);
    on_large_stack(|| {
        for table in tables(random) {
            for first in 0..table.rows.len() {
                let second = random.below(table.rows.len());
                if second == first {
                    continue;
                }
                let wrong = with_wrong_sizes(random, &table, &[first, second]);
                let found = [first, second]
                    .into_iter()
                    .min_by_key(|&row| (end(&table, row), Reverse(row)));
                assert_refused(&wrong, 13, found.expect("two rows"));
            }
        }
    });
}

/// A row of no kind, with an offset that its kind does not use, or with one behind the store is
/// refused before a wrong size, unless the value of that ends before the row.
#[test]
fn a_wrong_size_beside_another_fault() {
    let random = &mut Random::new(23);
    let mut met = BTreeSet::new();
    on_large_stack(|| {
        for table in tables(random) {
            for faulty in 0..table.rows.len() {
                let row = random.below(table.rows.len());
                let mut wrong = with_wrong_sizes(random, &table, &[row]);
                let length = wrong.record.len() as u64;
                let [kind, _, _, place, _] = &mut wrong.rows[faulty];
                let number = match (random.below(2), *kind) {
                    (0, _) => {
                        *kind = random.pick(&[11, 12, u64::MAX]);
                        13
                    }
                    (_, 5..=7) => {
                        *place = random.pick(&[length + 1, u64::MAX]);
                        14
                    }
                    _ => {
                        *place = 1;
                        13
                    }
                };
                let is_first = end(&table, row) <= faulty;
                let (number, found) = if is_first {
                    (13, row)
                } else {
                    (number, faulty)
                };
                assert_refused(&wrong, number, found);
                met.insert((number, is_first, row == faulty));
            }
        }
    });
    let expected = [
        (13, false, false),
        (13, false, true),
        (13, true, false),
        (14, false, false),
        (14, false, true),
    ];
    assert_eq!(met, BTreeSet::from(expected));
}

/// A wrong span is refused where it stands, or where its children do not fill it, before the size
/// of that row and of those around it, and behind the sizes of the values before it.
#[test]
fn a_wrong_size_beside_a_wrong_span() {
    let random = &mut Random::new(24);
    on_large_stack(|| {
        for table in tables(random) {
            for faulty in 0..table.rows.len() {
                let row = random.below(table.rows.len());
                let mut wrong = with_wrong_sizes(random, &table, &[row]);
                let span = &mut wrong.rows[faulty][1];
                *span = random.pick(&[0, *span + 1, *span - 1, u64::MAX]);
                let answers = cases(&wrong)
                    .into_iter()
                    .map(|case| case.compare().answer.c_words());
                let answers: BTreeSet<_> = answers.collect();
                assert_eq!(answers.len(), 1);
                let [number, place_kind, found, ..] = *answers.first().expect("an answer");
                assert!((number, place_kind) == (13, 3) || number == 14);
                if end(&table, row) <= faulty {
                    assert_eq!((number, found), (13, row as u64));
                }
            }
        }
    });
}

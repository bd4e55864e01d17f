//! Same route on random records: what counts is what is behind the root's first field, and all kinds
//! of roots and of first fields are met.

use std::collections::BTreeSet;

use compare::{on_large_stack, root_kinds, Answer, Case, Random, Record, Table};
use route_record::{MAX_ROWS, ROW_WORDS};

/// What yes and no were met of: kinds of roots, kinds of first fields, and the kinds of those that
/// differ, or differ in length, in two records of the same route.
#[derive(Default)]
struct Met {
    roots: BTreeSet<(u32, bool)>,
    fields: BTreeSet<(u32, bool)>,
    other_bytes: BTreeSet<u32>,
    other_lengths: BTreeSet<u32>,
}

impl Met {
    /// Adds two records that are compared.
    fn add(&mut self, grammar: &[u32], first: &[u8], second: &[u8], same: bool) {
        let (root, field) = root_kinds(grammar);
        self.roots.insert((root, same));
        self.fields.extend(field.map(|field| (field, same)));
        if same && first != second {
            self.other_bytes.insert(field.expect("a first field"));
        }
        if same && first.len() != second.len() {
            self.other_lengths.insert(field.expect("a first field"));
        }
    }

    /// Yes and no were met of each kind that has values for them.
    fn assert_all(self) {
        let both = |kind| [(kind, false), (kind, true)];
        let fields: BTreeSet<(u32, bool)> = (0..=10).flat_map(both).collect();
        let mut roots = fields.clone();
        roots.remove(&(0, false)); // two constants are equal
        assert_eq!(self.roots, roots);
        assert_eq!(self.fields, fields);
        assert_eq!(self.other_bytes, (1..=10).collect());
        assert_eq!(self.other_lengths, (3..=8).collect());
    }
}

/// Records put together of two values' first fields and of what is behind them: they are the same
/// route exactly when they are equal behind the first field, and that is the whole record where
/// there is none.
#[test]
fn what_is_behind_the_first_field_counts() {
    let mut random = Random::new(71);
    let mut met = Met::default();
    for _ in 0..1_500 {
        let mut table = Table::any(&mut random);
        if random.below(2) == 0 && table.nodes.len() < 256 && table.children.len() <= 1_020 {
            table = table.in_a_tuple(&mut random);
        }
        let spare = random.pick(&[0, 5, 30]);
        let mut record = || Record::of(&table, &mut random, spare);
        let (Some(one), Some(other)) = (record(), record()) else {
            continue;
        };
        if one.rows + other.rows > MAX_ROWS {
            continue;
        }
        let grammar = table.words();
        let ((field, behind), (other_field, other_behind)) = (one.parts(), other.parts());
        let firsts = [[field, behind], [field, other_behind]];
        let seconds = [
            [field, behind],
            [other_field, behind],
            [other_field, other_behind],
        ];
        for first in firsts {
            for second in seconds {
                let same = first[1] == second[1];
                let (first, second) = (first.concat(), second.concat());
                met.add(&grammar, &first, &second, same);
                let case = Case::SameRoute {
                    grammar: grammar.clone(),
                    first,
                    second,
                };
                let answer = case.compare().answer;
                assert_eq!(answer, Answer::Accepted(vec![same.into()]));
            }
        }
    }
    met.assert_all();
}

/// The random cases of same route, among those of all calls. Some have a first field and as many
/// rows as a record may have, in some the first or the second record has too many.
#[test]
fn random_cases() {
    let mut random = Random::new(74);
    let mut met = Met::default();
    let (mut with_most_rows, mut too_many_rows) = (0, [0; 3]);
    on_large_stack(|| {
        for _ in 0..26_000 {
            let case = Case::random(&mut random);
            let Case::SameRoute {
                grammar,
                first,
                second,
            } = &case
            else {
                continue;
            };
            match case.compare().answer {
                Answer::Accepted(same) => {
                    met.add(grammar, first, second, same[0] == 1);
                    let reading = model::demarshall(grammar, first, MAX_ROWS);
                    let rows = reading.expect("a sound record").rows;
                    let is_full = rows.len() == ROW_WORDS * MAX_ROWS;
                    let has_field = root_kinds(grammar).1.is_some();
                    with_most_rows += usize::from(is_full && has_field);
                }
                Answer::Refused { refusal, record } if refusal.number == 8 => {
                    let has_field = root_kinds(grammar).1.is_some();
                    too_many_rows[record as usize] += usize::from(has_field);
                }
                Answer::Refused { .. } => (),
            }
        }
    });
    met.assert_all();
    assert!(with_most_rows > 0);
    assert!(too_many_rows[1..].iter().all(|&cases| cases > 0));
}

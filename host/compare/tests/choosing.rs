//! Choosing a grammar on random records: the values begun by the tries add up, and the random cases
//! meet lists of every length and tries that are refused in every way.

use std::collections::BTreeSet;

use compare::{grammar_list, grammars_of, on_large_stack, root_kinds};
use compare::{Answer, Case, Random, Record, Table};
use route_record::{MAX_GRAMMARS, MAX_ROWS, ROW_WORDS};

/// The number and the values begun, compared with the model's, of a choice that one accepts.
fn chosen(grammars: &[&Vec<u32>], record: &[u8]) -> [usize; 2] {
    let case = Case::ChooseGrammar {
        list: grammar_list(grammars),
        record: record.to_vec(),
    };
    match case.compare().answer {
        Answer::Accepted(given) => [given[0] as usize, given[1] as usize],
        refused => panic!("{refused:?}"),
    }
}

/// Grammars that refuse a record: random ones, and tuples of which many have the record's own grammar
/// as the first field, so that they begin all its values.
fn refusing(random: &mut Random, own: &Table, record: &[u8]) -> Vec<Vec<u32>> {
    let mut grammars = Vec::new();
    for _ in 0..random.within(0..=MAX_GRAMMARS - 1) {
        let table = match random.below(2) {
            0 if own.nodes.len() < 256 && own.children.len() <= 1_020 => {
                own.clone().in_a_tuple(random)
            }
            _ => Table::any(random),
        };
        let words = table.words();
        if model::demarshall(&words, record, MAX_ROWS).is_err() {
            grammars.push(words);
        }
    }
    grammars
}

/// What a refused try begins is the same at every place of a list. It is the rows of the value read
/// where bytes are left over, and else from one value to one more than the rows there are.
#[test]
fn the_tries_add_up() {
    let mut random = Random::new(81);
    let mut numbers = BTreeSet::new();
    for _ in 0..300 {
        let table = Table::any(&mut random);
        let spare = random.pick(&[0, 5, 30, MAX_ROWS]);
        let Some(Record { bytes, rows, .. }) = Record::of(&table, &mut random, spare) else {
            continue;
        };
        let own = table.words();
        assert_eq!(chosen(&[&own], &bytes), [0, rows]);
        let others = refusing(&mut random, &table, &bytes);
        let mut sum = 0;
        for grammar in &others {
            let [1, begun] = chosen(&[grammar, &own], &bytes) else {
                panic!("the second accepts");
            };
            let begun = begun - rows;
            let refusal = model::demarshall(grammar, &bytes, MAX_ROWS).unwrap_err();
            if refusal.number == 11 {
                let reading = model::parse_val(grammar, &bytes, 0, MAX_ROWS);
                let rows = reading.expect("a value").rows;
                assert_eq!(begun, rows.len() / ROW_WORDS);
            }
            assert!((1..=MAX_ROWS + 1).contains(&begun));
            numbers.insert(refusal.number);
            sum += begun;
        }
        let mut list: Vec<&Vec<u32>> = others.iter().collect();
        list.push(&own);
        assert_eq!(chosen(&list, &bytes), [others.len(), sum + rows]);
    }
    assert_eq!(numbers, BTreeSet::from([8, 9, 10, 11]));
}

/// What the choices met of: the numbers of grammars of lists that are laid out, of those whose first
/// grammar accepts, whose last alone does and of which none does; the places of refused grammars; the
/// kinds of roots that accept, and the refusals of the tries before them; the most values begun.
#[derive(Default)]
struct Met {
    lengths: BTreeSet<usize>,
    firsts: BTreeSet<usize>,
    lasts: BTreeSet<usize>,
    nones: BTreeSet<usize>,
    refused: BTreeSet<usize>,
    roots: BTreeSet<u32>,
    tries: BTreeSet<u64>,
    most_begun: u64,
}

impl Met {
    /// Adds a choice from these grammars.
    fn add(&mut self, grammars: &[Vec<u32>], record: &[u8], answer: &Answer) {
        let count = grammars.len();
        self.lengths.insert(count);
        match answer {
            Answer::Accepted(given) => {
                let number = given[0] as usize;
                self.firsts.extend((number == 0).then_some(count));
                self.lasts.extend((number == count - 1).then_some(count));
                self.roots.insert(root_kinds(&grammars[number]).0);
                for grammar in &grammars[..number] {
                    let refusal = model::demarshall(grammar, record, MAX_ROWS).unwrap_err();
                    self.tries.insert(refusal.number);
                }
                self.most_begun = self.most_begun.max(given[1]);
            }
            refused if refused.number() == 22 => {
                self.nones.insert(count);
            }
            _ => {
                let is_refused = |grammar: &Vec<u32>| model::check_grammar(grammar).is_err();
                self.refused.extend(grammars.iter().position(is_refused));
            }
        }
    }

    /// All lengths, kinds and refusals of tries were met, the ends of the lengths in each way, and
    /// refused grammars at the first places and far behind them.
    fn assert_all(self) {
        assert_eq!(self.lengths, (1..=MAX_GRAMMARS).collect());
        let ends = BTreeSet::from([1, 2, 3, MAX_GRAMMARS]);
        for lengths in [self.firsts, self.lasts, self.nones] {
            assert!(lengths.is_superset(&ends), "{lengths:?}");
        }
        let places = BTreeSet::from([0, 1, 2, 3]);
        assert!(self.refused.is_superset(&places), "{:?}", self.refused);
        assert!(self.refused.last() >= Some(&8));
        assert_eq!(self.roots, (0..=10).collect());
        assert_eq!(self.tries, (8..=11).collect());
        assert!(self.most_begun > 8 * (MAX_ROWS as u64 + 1));
    }
}

/// The random cases of the chooser, among those of all calls.
#[test]
fn random_cases() {
    let mut random = Random::new(83);
    let mut met = Met::default();
    on_large_stack(|| {
        for _ in 0..18_000 {
            let case = Case::random(&mut random);
            let Case::ChooseGrammar { list, record } = &case else {
                continue;
            };
            let answer = case.compare().answer;
            match grammars_of(list) {
                Some(grammars) if answer.number() != 21 => met.add(&grammars, record, &answer),
                _ => assert_eq!(answer.number(), 21),
            }
        }
    });
    met.assert_all();
}

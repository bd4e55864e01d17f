//! Yes or no: beside the whole check with 4,096 rows, beside the chooser, and beside the shortest
//! records of a grammar, at every length up to a little above the least.

use std::collections::BTreeSet;

use compare::{doubling, grammar_list, leaf, of_length, on_large_stack, root_kinds};
use compare::{shortest_record, table, Answer, Case, Random, Record, Table};
use route_record::{MAX_BYTES, MAX_ROWS, ROW_WORDS};

/// Yes and the values begun of a call that is accepted, compared with the model's, beside the whole
/// check with 4,096 rows and the chooser.
fn verdict(grammar: &[u32], record: &[u8]) -> (bool, usize) {
    let (grammar, record) = (grammar.to_vec(), record.to_vec());
    let case = Case::Accepts {
        grammar: grammar.clone(),
        record: record.clone(),
    };
    let Answer::Accepted(given) = case.compare().answer else {
        panic!("refused: {grammar:?}");
    };
    let (yes, begun) = (given[0] == 1, given[1] as usize);
    assert_eq!(given, [u64::from(yes), begun as u64]); // 1 or 0, and no third number
    let is_read = is_read(&grammar, &record);
    assert_eq!(begun > 0, is_read);
    assert!(begun <= MAX_ROWS + usize::from(!yes));
    let check = Case::CheckWholeWith {
        grammar: grammar.clone(),
        record: record.clone(),
        capacity: MAX_ROWS,
    };
    let list = grammar_list(&[&grammar]);
    let chosen = Case::ChooseGrammar {
        list,
        record: record.clone(),
    };
    match check.compare().answer {
        Answer::Accepted(counts) => {
            assert_eq!(counts[0], begun as u64);
            let chosen = chosen.compare().answer;
            assert_eq!(chosen, Answer::Accepted(vec![0, begun as u64]));
            assert!(yes);
        }
        Answer::Refused { .. } => assert!(!yes),
    }
    if let Some(in_try) = begun_by_chooser(&grammar, &record) {
        assert_eq!(if is_read { in_try } else { 0 }, begun);
        assert!(in_try > 0);
    }
    (yes, begun)
}

/// Whether the record is neither too long nor shorter than every value of the root.
fn is_read(grammar: &[u32], record: &[u8]) -> bool {
    let least = model::least_length(grammar).expect("a sound grammar");
    record.len() <= MAX_BYTES && least.is_some_and(|least| record.len() as u64 >= least)
}

/// The values that a try of the grammar begins, by the chooser, where a tuple of uint32 behind it
/// accepts the record.
fn begun_by_chooser(grammar: &[u32], record: &[u8]) -> Option<usize> {
    let numbers = record.len() / 4;
    let acceptor = table(&[[4, 0, numbers as u32], [1, 0, 0]], &vec![1; numbers]);
    if record.len() % 4 != 0 || numbers > 1_024 {
        return None;
    }
    let list = grammar_list(&[grammar, &acceptor]);
    let record = record.to_vec();
    match (Case::ChooseGrammar { list, record }).compare().answer {
        Answer::Accepted(given) if given[0] == 1 => Some(given[1] as usize - (1 + numbers)),
        Answer::Accepted(given) => Some(given[1] as usize),
        refused => panic!("{refused:?}"),
    }
}

const YES: bool = true;
const NO: bool = false;

/// A grammar, records of it and their answers.
type Worked<'a> = (&'a [u32], Vec<(Vec<u8>, (bool, usize))>);

/// The 8 bytes of a count or a tag.
fn count(count: u64) -> Vec<u8> {
    count.to_le_bytes().to_vec()
}

/// The cases of the plan.
#[test]
fn worked_cases() {
    let a = [3, 4, 0, 2, 1, 0, 0, 5, 0, 0, 2, 1, 2];
    let record = [7, 0, 0, 0, 2, 0, 0, 0, 0, 0, 0, 0, 0x41, 0x42, 0];
    let front = |length: usize| record[..length].to_vec();
    let constants = table(&[[3, 0, 1], [0; 3]], &[1]);
    let without_elements = table(&[[3, 0, 1], [8, 0, 0]], &[1]);
    let with_no_value = table(&[[4, 0, 2], [1, 0, 0], [8, 0, 0]], &[1, 2]);
    let union = table(&[[8, 0, 3], [8, 0, 0], [1, 0, 0], [2, 0, 0]], &[1, 2, 3]);
    let long = [count(1_048_568), vec![0; 1_048_568]].concat();
    let worked: [Worked; 11] = [
        (
            &a,
            vec![
                (front(14), (YES, 3)),
                (front(13), (NO, 3)),
                (front(12), (NO, 3)),
                (front(11), (NO, 0)),
                (vec![], (NO, 0)),
                (front(15), (NO, 3)),
            ],
        ),
        (&leaf(0), vec![(vec![], (YES, 1)), (vec![0], (NO, 1))]),
        (
            &constants,
            vec![
                (count(3), (YES, 4)),
                (count(4_095), (YES, 4_096)),
                (count(4_096), (NO, 1)),
                (vec![0; 7], (NO, 0)),
            ],
        ),
        (&leaf(8), vec![(vec![0; 8], (NO, 0)), (vec![], (NO, 0))]),
        (
            &without_elements,
            vec![(count(0), (YES, 1)), (count(1), (NO, 2))],
        ),
        (&with_no_value, vec![(vec![0; 12], (NO, 0))]),
        (
            &union,
            vec![
                (vec![0; 11], (NO, 0)),
                (vec![0; 12], (NO, 2)),
                ([count(1), vec![0; 4]].concat(), (YES, 2)),
            ],
        ),
        (&doubling(20, 2), vec![(vec![0; MAX_BYTES], (NO, 0))]),
        (&doubling(18, 2), vec![(vec![0; MAX_BYTES], (NO, 4_097))]),
        (&doubling(13, 0), vec![(vec![], (NO, 4_097))]),
        (
            &leaf(5),
            vec![(long, (YES, 1)), (vec![0; MAX_BYTES + 1], (NO, 0))],
        ),
    ];
    for (grammar, records) in worked {
        for (record, expected) in records {
            assert_eq!(verdict(grammar, &record), expected, "{grammar:?}");
        }
    }
}

/// The grammar's refusal comes first, to a record of any length.
#[test]
fn grammars_refused() {
    let refused: [(&[u32], [u64; 3]); 5] = [
        (&[], [1, 1, 0]),
        (&[1], [2, 1, 4]),
        (&[1, 11, 0, 0, 0], [3, 1, 1]),
        (&[2, 8, 0, 0, 1, 1, 0, 1, 0], [4, 1, 5]),
        (&[1, 4, 0, 1, 1, 0], [5, 1, 5]),
    ];
    for (grammar, expected) in refused {
        for length in [0, 1, MAX_BYTES, MAX_BYTES + 1] {
            let case = Case::Accepts {
                grammar: grammar.to_vec(),
                record: vec![0; length],
            };
            assert_eq!(case.compare().answer.c_words()[..3], expected);
        }
    }
}

/// A table of any shape, of which some nodes are unions without cases.
fn any_table(random: &mut Random) -> Table {
    let mut table = Table::any(random);
    for _ in 0..random.pick(&[0, 0, 1, 2, 10]) {
        let k = random.below(table.nodes.len());
        table.nodes[k] = [8, 0, 0];
    }
    table
}

/// The record cut, or with zeros behind it, to each length up to a little above its own: as it is, with
/// a changed bit, all zeros and any bytes.
fn at_each_length(random: &mut Random, record: &[u8]) -> Vec<Vec<u8>> {
    let mut records = Vec::new();
    for length in 0..=record.len() + 9 {
        let mut sound = record.to_vec();
        sound.resize(length, 0);
        let mut flipped = sound.clone();
        if length > 0 {
            flipped[random.below(length)] ^= 1 << random.below(8);
        }
        records.extend([sound, flipped, vec![0; length], random.bytes(length)]);
    }
    records
}

/// A shortest record has as many bytes as the least length, and is accepted. Every shorter one, whatever
/// its bytes are, is a no that was not read.
#[test]
fn each_length_up_to_the_least() {
    let mut random = Random::new(91);
    let (mut grammars, mut roots) = (0, BTreeSet::new());
    let mut answers = BTreeSet::new();
    while grammars < 250 {
        let table = any_table(&mut random);
        let grammar = table.words();
        let shortest = shortest_record(&table, &mut random);
        let record = shortest.clone().unwrap_or_default();
        if record.len() > 60 {
            continue;
        }
        grammars += 1;
        if shortest.is_some() {
            let least = model::least_length(&grammar);
            assert_eq!(least, Ok(Some(record.len() as u64)));
            let reading = model::demarshall(&grammar, &record, MAX_ROWS);
            let rows = reading.expect("a sound record").rows.len() / ROW_WORDS;
            assert_eq!(verdict(&grammar, &record), (YES, rows));
        }
        for bytes in at_each_length(&mut random, &record) {
            let (yes, values) = verdict(&grammar, &bytes);
            if shortest.is_some() {
                assert_eq!(values > 0, bytes.len() >= record.len());
                roots.insert((root_kinds(&grammar).0, yes));
            }
            answers.insert((yes, if values > 0 { "read" } else { "not read" }));
        }
    }
    let all_roots = (0..=10).flat_map(|kind| [(kind, NO), (kind, YES)]);
    assert_eq!(roots, all_roots.collect());
    let all_answers = [(NO, "not read"), (NO, "read"), (YES, "read")];
    assert_eq!(answers, BTreeSet::from(all_answers));
}

/// A sound record of any length is a yes, and no shorter than the least length.
#[test]
fn sound_records() {
    let mut random = Random::new(92);
    let mut longer = 0;
    for _ in 0..2_000 {
        let table = any_table(&mut random);
        let spare = random.pick(&[0, 5, 30, MAX_ROWS]);
        let Some(Record { bytes, rows, .. }) = Record::of(&table, &mut random, spare) else {
            continue;
        };
        let grammar = table.words();
        assert_eq!(verdict(&grammar, &bytes), (YES, rows));
        let least = model::least_length(&grammar).expect("a sound grammar");
        longer += u64::from(least.expect("a value") < bytes.len() as u64);
    }
    assert!(longer > 100, "{longer}");
}

/// The table of these words.
fn table_of(words: &[u32]) -> Table {
    let (nodes, children) = words[1..].split_at(3 * words[0] as usize);
    let nodes = nodes.chunks(3).map(|node| [node[0], node[1], node[2]]);
    Table {
        nodes: nodes.collect(),
        children: children[1..].to_vec(),
    }
}

/// A root has no least length exactly where it has no value; where its shortest values have too many
/// rows or bytes, no record of that length is accepted.
#[test]
fn roots_without_records() {
    let mut random = Random::new(93);
    let mut met = [0; 3];
    let doubled = (1..=40).map(|nodes| [0, 1, 2, 8].map(|kind| doubling(nodes, kind)));
    let doubled = doubled.flatten().map(|words| table_of(&words));
    let tables: Vec<Table> = (0..1_000).map(|_| any_table(&mut random)).collect();
    for table in doubled.chain(tables) {
        let grammar = table.words();
        let least = model::least_length(&grammar).expect("a sound grammar");
        match (least, shortest_record(&table, &mut random)) {
            (None, shortest) => {
                assert_eq!(shortest, None);
                assert!(Record::of(&table, &mut random, 0).is_none());
                met[0] += 1;
            }
            (Some(least), Some(shortest)) => {
                assert_eq!(least, shortest.len() as u64);
                met[1] += 1;
            }
            (Some(least), None) => {
                let length = MAX_BYTES.min(least as usize);
                let (yes, begun) = verdict(&grammar, &vec![0; length]);
                assert_eq!((yes, begun > 0), (NO, least <= MAX_BYTES as u64));
                met[2] += 1;
            }
        }
    }
    assert!(met.iter().all(|&count| count > 10), "{met:?}");
}

/// Sums near powers of two, of tuples and of unions, up to where they stop growing.
#[test]
fn sums() {
    for power in [1 << 5, 1 << 8, 1 << 16, MAX_BYTES] {
        for bytes in (power - 16..=power + 16).step_by(4) {
            for unions in [0, 1, 2] {
                let mut table = of_length(bytes as u32);
                for _ in 0..unions {
                    table = table.below(8, &[0]);
                }
                let (grammar, sum) = (table.words(), bytes + 8 * unions);
                let least = sum.min(MAX_BYTES + 1);
                assert_eq!(model::least_length(&grammar), Ok(Some(least as u64)));
                for length in [least - 1, least, least + 1] {
                    let (_, begun) = verdict(&grammar, &vec![0; length]);
                    assert_eq!(begun > 0, least <= length && length <= MAX_BYTES);
                }
            }
        }
    }
}

/// Sums of shared nodes that fit into no number: with 256 nodes they are 2^257 or more.
#[test]
fn sums_of_256_nodes() {
    for nodes in 1..=256 {
        for kind in [1, 2, 5, 6, 7, 9, 10] {
            let grammar = doubling(nodes, kind);
            let least = model::least_length(&grammar).expect("a sound grammar");
            // 4 or 8 bytes, doubled for each node before the last, are above 2^20.
            let most = if matches!(kind, 1 | 9) { 19 } else { 18 };
            assert_eq!(least == Some(1_048_577), nodes > most);
            for length in [0, 1, 3] {
                assert_eq!(verdict(&grammar, &vec![0; length]), (NO, 0));
            }
        }
        assert_eq!(verdict(&doubling(nodes, 8), &[]), (NO, 0));
        let (yes, begun) = verdict(&doubling(nodes, 0), &[]);
        assert_eq!(yes, nodes <= 12);
        assert_eq!(begun, (MAX_ROWS + 1).min((1 << nodes.min(30)) - 1));
    }
}

/// What the random cases met: the kinds of roots with yes and no, the refusals of the readings, and why
/// others were not read.
#[derive(Default)]
struct Met {
    roots: BTreeSet<(u32, bool)>,
    refusals: BTreeSet<u64>,
    too_long: usize,
    without_value: usize,
    too_short: usize,
    far_too_short: usize,
    of_least_length: [usize; 2],
    most_begun: usize,
}

impl Met {
    /// Adds a case whose grammar is sound.
    fn add(&mut self, grammar: &[u32], record: &[u8], yes: bool, begun: usize) {
        self.roots.insert((root_kinds(grammar).0, yes));
        self.most_begun = self.most_begun.max(begun);
        let least = model::least_length(grammar).expect("a sound grammar");
        let length = record.len() as u64;
        match least {
            _ if record.len() > MAX_BYTES => self.too_long += 1,
            None => self.without_value += 1,
            Some(least) if length < least => {
                self.too_short += usize::from(length + 1 == least);
                self.far_too_short += usize::from(least == 1_048_577);
            }
            Some(least) => {
                self.of_least_length[usize::from(yes)] += usize::from(length == least);
                let reading = model::check_whole_with(grammar, record, MAX_ROWS);
                self.refusals
                    .extend(reading.err().map(|refusal| refusal.number));
            }
        }
    }

    /// All of it was met.
    fn assert_all(self) {
        let both = |kind| [(kind, NO), (kind, YES)];
        assert_eq!(self.roots, (0..=10).flat_map(both).collect());
        assert_eq!(self.refusals, (8..=11).collect());
        assert_eq!(self.most_begun, MAX_ROWS + 1);
        let [read_no, read_yes] = self.of_least_length;
        let counts = [
            self.too_long,
            self.without_value,
            self.too_short,
            self.far_too_short,
            read_no,
            read_yes,
        ];
        assert!(counts.iter().all(|&count| count > 0), "{counts:?}");
    }
}

/// The grammars and the records of the random cases of yes or no, among those of all calls.
fn random_inputs(seed: u64, cases: usize) -> Vec<(Vec<u32>, Vec<u8>)> {
    let mut random = Random::new(seed);
    let cases = (0..cases).map(|_| Case::random(&mut random));
    let inputs = cases.filter_map(|case| match case {
        Case::Accepts { grammar, record } => Some((grammar, record)),
        _ => None,
    });
    inputs.collect()
}

#[test]
fn random_cases() {
    let mut met = Met::default();
    on_large_stack(|| {
        for (grammar, record) in random_inputs(94, 20_000) {
            if model::check_grammar(&grammar).is_ok() {
                let (yes, begun) = verdict(&grammar, &record);
                met.add(&grammar, &record, yes, begun);
            }
        }
    });
    met.assert_all();
}

/// The least length of a node by its kind and those of its children.
type Rule = fn(u32, &[Option<u64>]) -> Option<u64>;

/// The rule, without the limit of sums.
fn sound(kind: u32, children: &[Option<u64>]) -> Option<u64> {
    match kind {
        0 => Some(0),
        1 | 9 => Some(4),
        4 => children.iter().copied().sum(),
        8 => Some(8 + children.iter().flatten().min()?),
        _ => Some(8),
    }
}

/// The rule with a number in the place of the least length of a kind.
fn with(kind: u32, of_kind: u32, length: u64, children: &[Option<u64>]) -> Option<u64> {
    match kind == of_kind {
        true => Some(length),
        false => sound(kind, children),
    }
}

/// Rules that are not the least length: numbers of another width, arrays with a byte too few or with
/// their element, tuples of one field or without those that have no value, unions without the tag, with
/// another case, with none for one without a value, or with a number for none; and sums that stop too
/// early or wrap.
const FALSE_RULES: [Rule; 23] = [
    |kind, children| with(kind, 0, 1, children),
    |kind, children| with(kind, 1, 8, children),
    |kind, children| with(kind, 9, 8, children),
    |kind, children| with(kind, 2, 4, children),
    |kind, children| with(kind, 10, 4, children),
    |kind, children| with(kind, 5, 0, children),
    |kind, children| with(kind, 6, 12, children),
    |kind, children| with(kind, 7, 16, children),
    |kind, children| with(kind, 3, 4, children),
    |kind, children| match kind {
        3 => Some(8 + children[0]?),
        _ => sound(kind, children),
    },
    |kind, children| match kind {
        3 => children[0].and(Some(8)),
        _ => sound(kind, children),
    },
    |kind, children| match kind {
        4 if !children.is_empty() => children.iter().copied().min()?,
        _ => sound(kind, children),
    },
    |kind, children| match kind {
        4 => Some(children.iter().flatten().sum()),
        _ => sound(kind, children),
    },
    |kind, children| match kind {
        4 if children.is_empty() => None,
        _ => sound(kind, children),
    },
    |kind, children| match kind {
        8 => children.iter().copied().flatten().min(),
        _ => sound(kind, children),
    },
    |kind, children| match kind {
        8 => Some(8 + children.iter().flatten().max()?),
        _ => sound(kind, children),
    },
    |kind, children| match kind {
        8 => Some(8 + (*children.first()?)?),
        _ => sound(kind, children),
    },
    |kind, children| match kind {
        8 => Some(8 + children.iter().copied().min()??),
        _ => sound(kind, children),
    },
    |kind, children| match kind {
        8 => Some(8 + children.iter().flatten().min().unwrap_or(&0)),
        _ => sound(kind, children),
    },
    |kind, children| sound(kind, children).map(|length| length.min(1_048_576)),
    |kind, children| sound(kind, children).map(|length| length % (1 << 32)),
    |kind, children| sound(kind, children).map(|length| length % (1 << 16)),
    |kind, children| sound(kind, children).map(|length| length % (1 << 8)),
];

/// The least length of a sound grammar's root by a rule. Sums stay within u64 as they stop growing
/// above 2^40, unless the rule lets them stop before.
fn root_length(grammar: &[u32], rule: Rule) -> Option<u64> {
    let table = table_of(grammar);
    let mut lengths = vec![None; table.nodes.len()];
    for (k, &[kind, first, count]) in table.nodes.iter().enumerate().rev() {
        let children = &table.children[first as usize..][..count as usize];
        let children: Vec<_> = children.iter().map(|&c| lengths[c as usize]).collect();
        lengths[k] = rule(kind, &children).map(|length: u64| length.min(1 << 40));
    }
    lengths[0]
}

/// Among the random cases there are some that tell each false rule from the sound one, which they do not
/// tell from the model's.
#[test]
fn a_false_least_length_is_found_out() {
    let inputs = random_inputs(95, 40_000);
    let is_sound = |input: &&(Vec<u32>, Vec<u8>)| model::check_grammar(&input.0).is_ok();
    let inputs: Vec<_> = inputs.iter().filter(is_sound).collect();
    let is_told = |rule: Rule| {
        inputs.iter().any(|(grammar, record)| {
            let least = root_length(grammar, rule);
            let length = record.len();
            let by_rule = length <= MAX_BYTES && least.is_some_and(|least| least <= length as u64);
            by_rule
                != (model::accepts(grammar, record)
                    .expect("a sound grammar")
                    .begun
                    > 0)
        })
    };
    on_large_stack(|| {
        assert!(!is_told(sound));
        for (number, rule) in FALSE_RULES.into_iter().enumerate() {
            assert!(is_told(rule), "rule {number} of the list");
        }
    });
}

//! Cut records: under the same grammar and capacity, every proper front part of a record that is
//! accepted whole is refused with 9. Random records at every length, the limits, and what does not
//! follow: that a refusal 9 means a cut record.

use std::collections::{BTreeMap, BTreeSet};

use compare::{chain, leaf, own_bytes, table};
use compare::{Answer, Case, Outcome, OwnBytes, Random, Record, Table, Value};
use route_record::{Place, Refusal, CHECK_ROWS, MAX_BYTES, MAX_ROWS, ROW_WORDS};

/// What the capacity of a whole reading comes from.
#[derive(Clone, Copy, Debug)]
enum Rows {
    /// Words for so many rows are lent, of which at most 4,096 count, and up to three words more.
    Lent(usize),
    /// It is a check with this capacity.
    Named(usize),
    /// It is a check for which no capacity is named.
    NotNamed,
}

impl Rows {
    /// The capacity with so many rows more, unless it is that of a check for which none is named.
    fn and(self, more: usize) -> Rows {
        match self {
            Rows::Lent(rows) => Rows::Lent(rows + more),
            Rows::Named(rows) => Rows::Named(rows + more),
            Rows::NotNamed => Rows::NotNamed,
        }
    }
}

/// A whole reading.
fn reading(grammar: &[u32], record: &[u8], rows: Rows) -> Case {
    let (grammar, record) = (grammar.to_vec(), record.to_vec());
    match rows {
        Rows::Lent(rows) => {
            let more = record.len() % ROW_WORDS;
            Case::Demarshall {
                rows: vec![record.len() as u64; ROW_WORDS * rows + more],
                grammar,
                record,
            }
        }
        Rows::Named(capacity) => Case::CheckWholeWith {
            grammar,
            record,
            capacity,
        },
        Rows::NotNamed => Case::CheckWhole { grammar, record },
    }
}

/// Where a record is cut.
#[derive(Clone, Copy, Debug, PartialEq, Eq, PartialOrd, Ord)]
enum Cut {
    BeforeAll,
    BetweenValues,
    InNumber,
    InCount,
    InTag,
    InElements,
}

/// Where the cut to a length is, and the bytes of the first value that lacks some.
fn cut_to(length: usize, own: &[OwnBytes]) -> (Cut, &OwnBytes) {
    let lacking = own.iter().find(|own| own.end > length);
    let lacking = lacking.expect("a value that lacks bytes");
    let cut = match lacking.kind {
        _ if length == 0 => Cut::BeforeAll,
        _ if length == lacking.start => Cut::BetweenValues,
        _ if length >= lacking.head_end => Cut::InElements,
        1 | 2 | 9 | 10 => Cut::InNumber,
        8 => Cut::InTag,
        _ => Cut::InCount,
    };
    (cut, lacking)
}

/// What the readings met.
#[derive(Default)]
struct Met {
    /// How many cuts are where.
    cuts: BTreeMap<Cut, usize>,
    /// The kinds of the records' rows, and those of the values that lacked bytes.
    kinds: BTreeSet<u64>,
    lacking: BTreeSet<u64>,
    /// How many readings of front parts there were.
    readings: usize,
}

/// The library and the model each refuse the case with 9 at this byte, and leave the lent rows and
/// everything else as it was.
fn assert_refused_with_9(case: &Case, byte: usize) {
    let place = Place::Byte(byte as u64);
    let refusal = Refusal { number: 9, place };
    let answer = Answer::Refused { refusal, record: 0 };
    let expected = Outcome::with(answer, case);
    for (name, outcome) in [("library", case.of_library()), ("model", case.of_model())] {
        assert_eq!(outcome.answer, expected.answer, "by the {name}");
        assert!(outcome == expected, "the {name} changes what it is given");
    }
}

/// A record that is accepted whole, with words for as many rows as its value has and for up to two
/// more, and as a check with as many, two more and the most there can be named, and with none named
/// where 1,024 are enough; and its front parts of these lengths, each refused with 9 at the byte where
/// the value starts that lacks bytes.
fn assert_cuts(
    grammar: &[u32],
    record: &[u8],
    lengths: impl IntoIterator<Item = usize>,
    met: &mut Met,
) {
    let Value { rows, n, .. } = Value::read(grammar, record);
    let lent = [n, n + 1, n + 2].map(Rows::Lent);
    let named = [n, n + 2, usize::MAX].map(Rows::Named);
    let not_named = (n <= CHECK_ROWS).then_some(Rows::NotNamed);
    let capacities: Vec<Rows> = lent.into_iter().chain(named).chain(not_named).collect();
    for &capacity in &capacities {
        let answer = reading(grammar, record, capacity).compare().answer;
        let expected = vec![n as u64, record.len() as u64];
        assert_eq!(answer, Answer::Accepted(expected));
    }
    let own = own_bytes(&rows);
    assert_eq!(own.last().map(|own| own.end), Some(record.len()));
    for length in lengths {
        let (cut, lacking) = cut_to(length, &own);
        for &capacity in &capacities {
            let case = reading(grammar, &record[..length], capacity);
            assert_refused_with_9(&case, lacking.start);
            met.readings += 1;
        }
        *met.cuts.entry(cut).or_default() += 1;
        met.lacking.insert(lacking.kind);
    }
    met.kinds.extend(own.iter().map(|own| own.kind));
}

/// A random grammar and a record of it of 1 to 300 bytes.
fn random_record(random: &mut Random) -> (Vec<u32>, Vec<u8>) {
    loop {
        let table = match random.below(4) {
            0 => Table::any(random),
            _ => {
                let (n, m) = (1 + random.below(40), random.below(60));
                Table::sound(random, n, m).in_a_tuple(random)
            }
        };
        let spare = match random.below(50) {
            0 => MAX_ROWS,
            _ => random.pick(&[5, 30, 100]),
        };
        if let Some(Record { bytes, .. }) = Record::of(&table, random, spare) {
            if (1..=300).contains(&bytes.len()) {
                return (table.words(), bytes);
            }
        }
    }
}

/// Random records, each at every length.
#[test]
fn every_front_part_of_random_records() {
    let mut random = Random::new(91);
    let mut met = Met::default();
    for _ in 0..1_000 {
        let (grammar, record) = random_record(&mut random);
        assert_cuts(&grammar, &record, 0..record.len(), &mut met);
    }
    assert_eq!(met.kinds, (0..=10).collect());
    // Constants and tuples add no bytes that could be missing.
    let lacking = (1..=10).filter(|&kind| kind != 4);
    assert_eq!(met.lacking, lacking.collect());
    let cuts = [
        Cut::BetweenValues,
        Cut::InNumber,
        Cut::InCount,
        Cut::InTag,
        Cut::InElements,
    ];
    for cut in cuts {
        let count = met.cuts.get(&cut).copied().unwrap_or(0);
        assert!(count >= 1_000, "{cut:?}: {count}");
    }
    assert!(met.readings >= 100_000, "{}", met.readings);
}

/// Example A, a tuple of a uint32 and a byte array, and its record.
fn example_a() -> (Vec<u32>, [u8; 14]) {
    let grammar = table(&[[4, 0, 2], [1, 0, 0], [5, 0, 0]], &[1, 2]);
    (grammar, *b"\x07\0\0\0\x02\0\0\0\0\0\0\0AB")
}

/// Example C, an array of constants.
fn example_c() -> Vec<u32> {
    table(&[[3, 0, 1], [0, 0, 0]], &[1])
}

/// The 8 bytes of a count or a tag, and others behind them.
fn counted(count: u64, behind: &[u8]) -> Vec<u8> {
    [&count.to_le_bytes(), behind].concat()
}

/// The answer to a whole reading, by both: the five words of the C answer.
fn answer(grammar: &[u32], record: &[u8], rows: Rows) -> [u64; 5] {
    reading(grammar, record, rows).compare().answer.c_words()
}

#[test]
fn example_a_at_each_length() {
    let (grammar, record) = example_a();
    let lent = [3, 4, 100, MAX_ROWS].map(Rows::Lent);
    let named = [3, 4, CHECK_ROWS, usize::MAX].map(Rows::Named);
    for rows in lent.into_iter().chain(named).chain([Rows::NotNamed]) {
        for length in 0..14 {
            let byte = if length < 4 { 0 } else { 4 };
            let expected = [9, 2, byte, 0, 0];
            assert_eq!(answer(&grammar, &record[..length], rows), expected);
        }
        assert_eq!(answer(&grammar, &record, rows), [0, 0, 0, 3, 14]);
    }
}

/// The record of the grammar MIX of `docs/FORMAT.md`, an array of two unions and a byte array.
#[test]
fn mix_at_each_length() {
    let nodes = [
        [4, 0, 2],
        [3, 2, 1],
        [5, 0, 0],
        [8, 3, 2],
        [0, 0, 0],
        [2, 0, 0],
    ];
    let grammar = table(&nodes, &[1, 2, 3, 4, 5]);
    let unions = [counted(0, &[]), counted(1, &counted(258, &[]))].concat();
    let record = [counted(2, &unions), counted(1, &[0x5a])].concat();
    for rows in [
        Rows::Lent(7),
        Rows::Lent(MAX_ROWS),
        Rows::Named(7),
        Rows::NotNamed,
    ] {
        for length in 0..41 {
            let byte = [0, 8, 16, 24, 32][(length / 8).min(4)];
            let expected = [9, 2, byte, 0, 0];
            assert_eq!(answer(&grammar, &record[..length], rows), expected);
        }
        assert_eq!(answer(&grammar, &record, rows), [0, 0, 0, 7, 41]);
    }
}

/// The count of three constants at each length, and the empty record of a constant, which has no
/// proper front part.
#[test]
fn constants() {
    let (array, three) = (example_c(), counted(3, &[]));
    for rows in [Rows::Lent(4), Rows::Lent(5), Rows::Named(4), Rows::NotNamed] {
        for length in 0..8 {
            assert_eq!(answer(&array, &three[..length], rows), [9, 2, 0, 0, 0]);
        }
        assert_eq!(answer(&array, &three, rows), [0, 0, 0, 4, 8]);
    }
    for rows in [Rows::Lent(1), Rows::Named(1), Rows::NotNamed] {
        assert_eq!(answer(&leaf(0), &[], rows), [0, 0, 0, 1, 0]);
    }
}

/// With a row too few the record is not accepted, and a front part may be refused with 8.
#[test]
fn a_record_that_is_not_accepted() {
    let (grammar, record) = example_a();
    for (length, expected) in [(14, [8, 4]), (4, [8, 4]), (3, [9, 0])] {
        let [number, byte] = expected;
        for rows in [Rows::Lent(2), Rows::Named(2)] {
            let answer = answer(&grammar, &record[..length], rows);
            assert_eq!(answer, [number, 2, byte, 0, 0]);
        }
    }
}

/// A record of 1,025 rows and its front part without the last number: a check for which no capacity
/// is named refuses both with 8, where that number finds no row, and one of 1,025 refuses the front
/// part with 9.
#[test]
fn a_record_of_more_rows_than_a_check_has() {
    let nodes = [[4, 0, 2], [3, 2, 1], [1, 0, 0], [0, 0, 0]];
    let grammar = table(&nodes, &[1, 2, 3]);
    let record = counted(CHECK_ROWS as u64 - 2, &[7, 0, 0, 0]);
    let rows = CHECK_ROWS as u64 + 1;
    for (rows, expected) in [
        (Rows::NotNamed, [[8, 2, 8, 0, 0]; 2]),
        (Rows::Named(CHECK_ROWS), [[8, 2, 8, 0, 0]; 2]),
        (
            Rows::Named(CHECK_ROWS + 1),
            [[0, 0, 0, rows, 12], [9, 2, 8, 0, 0]],
        ),
    ] {
        let answers = [12, 8].map(|length| answer(&grammar, &record[..length], rows));
        assert_eq!(answers, expected, "{rows:?}");
    }
}

/// A refusal 9 of bytes that are no front part of a record: the union without cases has none, nor has
/// a tuple with a field of that union, and no record is long enough for 2^62 elements.
#[test]
fn a_9_of_another_cause() {
    let union = leaf(8);
    for rows in [Rows::Lent(1), Rows::Lent(2), Rows::Named(1), Rows::NotNamed] {
        assert_eq!(answer(&union, &[], rows), [9, 2, 0, 0, 0]);
        for length in 1..=20 {
            let number = if length < 8 { 9 } else { 10 };
            assert_eq!(answer(&union, &vec![0; length], rows), [number, 2, 0, 0, 0]);
        }
        let field = table(&[[4, 0, 2], [1, 0, 0], [8, 0, 0]], &[1, 2]);
        for (length, expected) in [(0, [9, 0]), (4, [9, 4]), (12, [10, 4])] {
            let [number, byte] = expected;
            let answer = answer(&field, &vec![0; length], rows.and(2));
            assert_eq!(answer, [number, 2, byte, 0, 0]);
        }
        for length in [8, 12, MAX_BYTES] {
            let record = counted(1 << 62, &vec![0; length - 8]);
            assert_eq!(answer(&leaf(6), &record, rows), [9, 2, 0, 0, 0]);
        }
    }
}

/// A reading from an index leaves bytes behind the value alone, so it accepts both 9 bytes and the
/// first 5 of them. The whole reading accepts neither.
#[test]
fn readings_from_an_index() {
    let bytes = [7, 0, 0, 0, 1, 2, 3, 4, 5];
    for length in [9, 5] {
        let (grammar, record, index) = (leaf(1), bytes[..length].to_vec(), 0);
        assert_eq!(answer(&grammar, &record, Rows::Lent(1)), [11, 2, 4, 0, 0]);
        let check = Case::CheckVal {
            grammar: grammar.clone(),
            record: record.clone(),
            index,
        };
        let named = Case::CheckValWith {
            grammar: grammar.clone(),
            record: record.clone(),
            index,
            capacity: 1,
        };
        let lent = Case::ParseVal {
            grammar,
            record,
            index,
            rows: vec![99; ROW_WORDS],
        };
        for case in [check, named, lent] {
            assert_eq!(case.compare().answer, Answer::Accepted(vec![1, 4]));
        }
    }
}

/// The lengths around these that are below the record's, and the ends and the middle.
fn lengths_around(record: &[u8], borders: &[usize]) -> BTreeSet<usize> {
    let last = record.len() - 1;
    let near = borders.iter().flat_map(|&at| at.saturating_sub(1)..=at + 1);
    let lengths = near.chain([0, 1, last / 2, last]);
    lengths.filter(|&length| length <= last).collect()
}

/// Arrays as long as a record can be, and one between two numbers.
#[test]
fn the_longest_records() {
    let mut met = Met::default();
    for (kind, width) in [(5, 1), (6, 4), (7, 8)] {
        let elements = vec![0x5a; MAX_BYTES - 8];
        let record = counted((elements.len() / width) as u64, &elements);
        let lengths = lengths_around(&record, &[8, 8 + width]);
        assert_cuts(&leaf(kind), &record, lengths, &mut met);
    }
    let nodes = [[4, 0, 3], [1, 0, 0], [5, 0, 0], [2, 0, 0]];
    let elements = vec![0x5a; MAX_BYTES - 20];
    let array = counted(elements.len() as u64, &elements);
    let record = [&[7; 4], &array[..], &[7; 8]].concat();
    assert_eq!(record.len(), MAX_BYTES);
    let lengths = lengths_around(&record, &[4, 12, MAX_BYTES - 8]);
    assert_cuts(&table(&nodes, &[1, 2, 3]), &record, lengths, &mut met);
    let cuts = [
        Cut::BeforeAll,
        Cut::BetweenValues,
        Cut::InNumber,
        Cut::InCount,
        Cut::InElements,
    ];
    assert_eq!(met.cuts.into_keys().collect::<Vec<_>>(), cuts);
}

/// Arrays of as many rows as a value can have: of 4,095 numbers, of 4,095 constants, and of 1,365
/// pairs of a number and a byte array.
#[test]
fn the_most_rows() {
    let mut met = Met::default();
    let numbers = table(&[[3, 0, 1], [1, 0, 0]], &[1]);
    let pairs = table(&[[3, 0, 1], [4, 1, 2], [9, 0, 0], [5, 0, 0]], &[1, 2, 3]);
    let pair = [&[7; 4], &counted(2, b"AB")[..]].concat();
    for (grammar, record, size) in [
        (numbers, counted(4_095, &[7; 4 * 4_095]), 4),
        (example_c(), counted(4_095, &[]), 0),
        (pairs, counted(1_365, &pair.repeat(1_365)), 14),
    ] {
        assert_eq!(Value::read(&grammar, &record).n, MAX_ROWS);
        let behind = record.len() - size;
        let lengths = lengths_around(&record, &[8, 8 + size, behind, behind + 4]);
        assert_cuts(&grammar, &record, lengths, &mut met);
    }
    assert_eq!(met.lacking, BTreeSet::from([1, 3, 5, 9]));
}

/// Values 256 levels deep.
#[test]
fn the_deepest_values() {
    let mut met = Met::default();
    for (kind, own) in [(3, counted(1, &[])), (4, vec![]), (8, counted(0, &[]))] {
        let record = [own.repeat(255), vec![7, 0, 0, 0]].concat();
        let inner = record.len() - 4;
        let lengths = lengths_around(&record, &[8, 16, inner / 16 * 8, inner]);
        assert_cuts(&chain(kind), &record, lengths, &mut met);
    }
    assert_eq!(met.lacking, BTreeSet::from([1, 3, 8]));
}

//! Preview of small values over every output, and random cases: what counts is what differs.

use std::collections::BTreeSet;

use compare::{leaf, on_large_stack, root_kinds, table, Answer, Case, Random, Row, Value};
use route_record::MAX_BYTES;

/// A value of these rows, with the store 01 02 03 04.
fn value(grammar: Vec<u32>, rows: &[Row]) -> Value {
    Value {
        grammar,
        rows: rows.concat(),
        n: rows.len(),
        store: vec![1, 2, 3, 4],
    }
}

/// A value of each kind, of at most 12 bytes.
fn small_values() -> Vec<Value> {
    let constant = [0, 1, 0, 0, 0];
    let numbers = [(0, 0), (1, 4), (2, 8), (9, 4), (10, 8)].map(|(kind, size)| {
        let number = if kind == 0 { 0 } else { 0xfe00_0100 };
        value(leaf(kind), &[[kind.into(), 1, number, 0, size]])
    });
    let arrays = [(5, 2, 10), (6, 1, 12), (7, 0, 8)].map(|(kind, count, size)| {
        let row = [kind.into(), 1, count, 0, size];
        value(leaf(kind), &[row])
    });
    let parents = [(3, 1, 12), (4, 1, 4), (8, 0, 12)].map(|(kind, word2, size)| {
        let grammar = table(&[[kind, 0, 1], [9, 0, 0]], &[1]);
        value(
            grammar,
            &[[kind.into(), 2, word2, 0, size], [9, 1, 5, 0, 4]],
        )
    });
    let empty = value(table(&[[3, 0, 1], [0; 3]], &[1]), &[[3, 1, 0, 0, 8]]);
    let in_case = table(&[[8, 0, 1], [0; 3]], &[1]);
    let case = value(in_case, &[[8, 2, 0, 0, 8], constant]);
    [&numbers[..], &arrays, &parents, &[empty, case]].concat()
}

/// The answer to the preview of a value.
fn preview(value: &Value, out: Vec<u8>, index: usize) -> Answer {
    let case = value.clone().preview_case(out, index);
    case.compare().answer
}

/// Outputs each byte of which is the record's or another one, in every combination, with a byte
/// before the record and one behind it. Those of the record that are others count.
#[test]
fn every_combination_of_bytes() {
    let mut kinds = BTreeSet::new();
    for value in small_values() {
        kinds.insert(value.rows[0]);
        let record = value.marshall(20).expect("a value of the grammar");
        let size = record.len();
        let held = [&[0x77], &record[..], &[0x77]].concat();
        for others in 0..1u32 << held.len() {
            let is_other = |place: usize| others >> place & 1 == 1;
            let mut out = held.clone();
            for place in (0..out.len()).filter(|&place| is_other(place)) {
                out[place] ^= 1 << (place % 8);
            }
            let changed = (1..=size).filter(|&place| is_other(place)).count();
            let expected = Answer::Accepted(vec![size as u64, changed as u64]);
            assert_eq!(preview(&value, out, 1), expected);
        }
    }
    assert_eq!(kinds, (0..=10).collect());
}

/// Example A.
fn example() -> (Value, [u8; 14]) {
    let record = *b"\x07\0\0\0\x02\0\0\0\0\0\0\0AB";
    let value = Value {
        grammar: vec![3, 4, 0, 2, 1, 0, 0, 5, 0, 0, 2, 1, 2],
        rows: vec![4, 3, 2, 0, 14, 1, 1, 7, 0, 4, 5, 1, 2, 12, 10],
        n: 3,
        store: record.to_vec(),
    };
    (value, record)
}

/// The record with each of its bytes, and each byte next to it, made each other one.
#[test]
fn each_byte_made_each_other_one() {
    let (value, record) = example();
    let held = [&[0x77], &record[..], &[0x77]].concat();
    for place in 0..held.len() {
        for flip in 1..=255 {
            let mut out = held.clone();
            out[place] ^= flip;
            let changed = u64::from((1..=14).contains(&place));
            let expected = Answer::Accepted(vec![14, changed]);
            assert_eq!(preview(&value, out, 1), expected);
        }
    }
}

/// Every index of outputs of every length that hold the record, or its beginning, at every place.
#[test]
fn every_index_and_length() {
    let (value, record) = example();
    let far = [1 << 20, 1 << 32, 1 << 63, usize::MAX - 14, usize::MAX - 13];
    for length in 0..=30 {
        for start in 0..=length {
            let mut out = vec![0xee; length];
            let count = record.len().min(length - start);
            out[start..start + count].copy_from_slice(&record[..count]);
            let indices = (0..=length + 1).chain(far).chain([usize::MAX]);
            for index in indices {
                let answer = preview(&value, out.clone(), index);
                let Some(held) = index.checked_add(14).and_then(|end| out.get(index..end)) else {
                    assert_eq!(answer.c_words(), [17, 2, length as u64, 0, 0]);
                    continue;
                };
                let bytes = held.iter().zip(&record);
                let changed = bytes.filter(|(held, own)| held != own).count() as u64;
                assert_eq!(answer, Answer::Accepted(vec![14, changed]));
                assert_eq!(changed == 0, start == index);
            }
        }
    }
}

/// Which random cases were met.
#[derive(Default)]
struct Met {
    /// Kinds of roots of which no byte would change, one, some and all.
    none: BTreeSet<u32>,
    one: BTreeSet<u32>,
    some: BTreeSet<u32>,
    all: BTreeSet<u32>,
    /// The greatest size, and accepted outputs that are longer than it.
    greatest: u64,
    long_outputs: usize,
    /// Refusals 17 of an index that a sum with the size could wrap.
    far_indices: usize,
}

impl Met {
    fn add(&mut self, grammar: &[u32], out: &[u8], index: usize, answer: &Answer) {
        let Answer::Accepted(given) = answer else {
            let is_far = answer.number() == 17 && index > usize::MAX - MAX_BYTES;
            self.far_indices += usize::from(is_far);
            return;
        };
        let (root, _) = root_kinds(grammar);
        let (size, changed) = (given[0], given[1]);
        assert!(changed <= size && size <= MAX_BYTES as u64);
        self.none.extend((changed == 0).then_some(root));
        self.one.extend((changed == 1).then_some(root));
        self.some
            .extend((1 < changed && changed < size).then_some(root));
        self.all
            .extend((changed == size && size > 1).then_some(root));
        self.greatest = self.greatest.max(size);
        self.long_outputs += usize::from(out.len() > MAX_BYTES);
    }
}

/// The random cases of preview, among those of all calls. Once a writing is done, the same one
/// would change nothing more.
#[test]
fn random_cases() {
    let mut random = Random::new(73);
    let mut met = Met::default();
    on_large_stack(|| {
        for _ in 0..33_000 {
            let case = Case::random(&mut random);
            let Case::Preview {
                grammar,
                out,
                index,
                ..
            } = &case
            else {
                continue;
            };
            let answer = case.compare().answer;
            met.add(grammar, out, *index, &answer);
            if let Answer::Accepted(given) = answer {
                let writing = case.previewed().expect("a writing").compare();
                let (value, written, index) = Value::of(&writing.after()).expect("a writing");
                let expected = Answer::Accepted(vec![given[0], 0]);
                assert_eq!(preview(&value, written, index), expected);
            }
        }
    });
    assert_eq!(met.none, (0..=10).collect());
    for kinds in [met.one, met.some, met.all] {
        assert_eq!(kinds, (1..=10).collect());
    }
    assert_eq!(met.greatest, MAX_BYTES as u64);
    assert!(met.long_outputs > 0 && met.far_indices > 0);
}

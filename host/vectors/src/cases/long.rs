//! Values of many elements, rows and kinds that differ, for implementations that write or compare in
//! blocks, hold a place in too few bits, or look at some of the parts alone.

use compare::{leaf, Value};

use super::borders::value;
use super::sized::Bare;
use super::{hex, table, Cases, List, MAX_BYTES, ROW_WORDS};

/// Bytes in runs of equal ones, so that a line that holds them is short. Each run is a fourth of what
/// is before it and of another byte than all others, and none is of 00, 11 or EE.
fn runs(length: usize) -> Vec<u8> {
    let (mut bytes, mut byte) = (Vec::new(), 0u8);
    while bytes.len() < length {
        byte = byte.wrapping_add(37);
        bytes.resize(length.min(bytes.len() * 5 / 4 + 1), byte);
    }
    bytes
}

/// A tuple of these rows, each a field without children.
pub(super) fn tuple(fields: &[Bare], store: &[u8]) -> Value {
    let count = fields.len() as u64;
    let node = |row: &Bare| [row[0] as u32, 0, 0];
    let nodes: Vec<[u32; 3]> = fields.iter().map(node).collect();
    let nodes = [&[[4, 0, count as u32]], &nodes[..]].concat();
    let children: Vec<u32> = (1..=count as u32).collect();
    let rows = [&[[4, count + 1, count, 0]], fields].concat();
    value(table(&nodes, &children), &rows, store)
}

/// The longest array of each kind, with its name.
fn longest() -> [(&'static str, Value); 3] {
    let kinds = [
        ("the most bytes", 5, 1),
        ("the most uint32", 6, 4),
        ("the most uint64", 7, 8),
    ];
    kinds.map(|(name, kind, width)| {
        let store = runs(MAX_BYTES - 8);
        let row = [kind, 1, (store.len() / width) as u64, 0];
        (name, value(leaf(kind as u32), &[row], &store))
    })
}

/// Numbers of each kind: in 8, 16, 24, 32, 48 or 64 bits each is below zero.
fn numbers_of_each_kind() -> Value {
    let tops = [1u64 << 7, 1 << 15, 1 << 23, 1 << 31, 1 << 47, 1 << 63];
    let rows = |(kind, count): (u64, usize)| {
        let row = |top: &u64| [kind, 1, top + 5, 0];
        tops[..count].iter().map(row).collect::<Vec<_>>()
    };
    tuple(&[(2, 6), (9, 4), (10, 6), (1, 4)].map(rows).concat(), &[])
}

/// 32 tuples of a byte array, a uint32 array and a uint64 array. The elements of each have more than
/// 32 bytes, with each remainder by 32 that the kind can have.
fn each_remainder() -> Value {
    let nodes = [[3, 0, 1], [4, 1, 3], [5, 0, 0], [6, 0, 0], [7, 0, 0]];
    let mut rows = vec![[3, 129, 32, 0]];
    for at in 0..32 {
        rows.push([4, 4, 3, 0]);
        let counts = [(5, 33 + at), (6, 9 + at % 8), (7, 5 + at % 4)];
        rows.extend(counts.map(|(kind, count)| [kind, 1, count, 0]));
    }
    value(table(&nodes, &[1, 2, 3, 4]), &rows, &[0x5a; 64])
}

/// An array of 4,095 int64, which has the most rows.
fn most_rows() -> Value {
    let number = |byte: u8| [10, 1, u64::from_le_bytes([byte; 8]), 0];
    let elements: Vec<Bare> = runs(4_095).into_iter().map(number).collect();
    let rows = [&[[3, 4_096, 4_095, 0]], &elements[..]].concat();
    value(table(&[[3, 0, 1], [10, 0, 0]], &[1]), &rows, &[])
}

/// A tuple with a field of each kind, the last a uint32.
const EACH_KIND: &str = "12, 4 0 11, 6 0 0, 7 0 0, 5 0 0, 3 11 1, 8 12 2, 10 0 0, 9 0 0, 4 14 2, \
    2 0 0, 1 0 0, 0 0 0, 16, 1 2 3 4 5 6 7 8 11 9 10, 10, 9 10, 10 10";
const STORE: &str = "A1A2A3A4A5A6A7A8A9AAABACADAEAFB0B1B2B3B4B5B6B7B8B9BABBBCBDBEBF";

/// Rows of it; and rows of it with the number 0 and without elements, but for the last.
const FIELDS: &str = "4 17 11 0 131, 6 1 3 2 20, 7 1 3 5 32, 5 1 11 1 19, 3 3 2 0 16, 1 1 67305985 0 4, \
    1 1 134678021 0 4, 8 2 1 0 12, 1 1 67305985 0 4, 10 1 578437695752307201 0 8, 9 1 67305985 0 4, 4 3 2 0 8, \
    1 1 134678021 0 4, 1 1 67305985 0 4, 0 1 0 0 0, 2 1 578437695752307201 0 8, 1 1 134678021 0 4";
const EMPTY: &str =
    "4 15 11 0 80, 6 1 0 0 8, 7 1 0 2 8, 5 1 0 5 8, 3 1 0 0 8, 8 2 0 0 16, 2 1 0 0 8, 10 1 0 0 8, \
    9 1 0 0 4, 4 3 2 0 8, 1 1 0 0 4, 1 1 0 0 4, 0 1 0 0 0, 2 1 0 0 8, 1 1 7 0 4";

/// A tuple with a field of each kind.
pub(super) fn fields_of_each_kind() -> Value {
    super::writing::value(EACH_KIND, FIELDS, &hex(STORE))
}

/// What a value is, the value, and the index at which it is written.
type Written = (&'static str, Value, usize);

/// Arrays whose elements, rows and record end with a block of 65,536 bytes, and arrays that end at
/// each place of a block of 32.
fn ends_of_blocks() -> [Written; 2] {
    let counts = [
        (5, 65_536),
        (6, 16_384),
        (7, 8_192),
        (5, 65_528),
        (5, 65_504),
    ];
    let arrays = counts.map(|(kind, count)| [kind, 1, count, 0]);
    let blocks = tuple(&arrays, &runs(65_536));
    [
        ("arrays up to multiples of 65,536", blocks, 5),
        ("arrays of each remainder by 32", each_remainder(), 6),
    ]
}

/// Values whose parts differ from each other.
fn values() -> Vec<Written> {
    let arrays = [[5, 1, 600_000, 0], [7, 1, 2, 590_000], [6, 1, 3, 530_000]];
    let behind = [[1, 1, 67_305_985, 0], [5, 1, 5, 550_000]];
    let far = tuple(&[&arrays[..], &behind].concat(), &runs(600_000));
    let number = value(leaf(2), &[[2, 1, 578_437_695_752_307_201, 0]], &[]);
    let empty = super::writing::value(EACH_KIND, EMPTY, &hex(STORE));
    let list = [
        ("fields behind 600,000 bytes", far, 4),
        ("4,095 int64", most_rows(), 7),
        ("numbers of each kind", numbers_of_each_kind(), 3),
        ("a uint64", number.clone(), MAX_BYTES + 1),
        ("a uint64", number, 3_000_000),
        ("fields of each kind", fields_of_each_kind(), 1),
        ("fields of each kind, empty or 0", empty, 1),
    ];
    let longest = longest().map(|(name, array)| (name, array, 2));
    list.into_iter().chain(longest).collect()
}

/// The record of a value, by the model.
pub(super) fn record(value: &Value) -> Vec<u8> {
    let outcome = value.clone().marshall_case(vec![0; MAX_BYTES]).of_model();
    let (_, mut out, _) = Value::of(&outcome.after()).expect("a writing");
    let [size] = outcome.answer.result().expect("a value of its grammar");
    out.truncate(size as usize);
    out
}

/// 4,094 int64 and a uint64 where an int64 is wanted, and room for them.
fn other_last() -> (Value, Vec<u8>) {
    let mut value = most_rows();
    value.rows[ROW_WORDS * 4_095] = 2;
    (value, vec![0xee; 40_000])
}

const OTHER_LAST: &str = "4,095 elements, the last is another kind";

/// The cases of the writers.
pub fn writing() -> Cases {
    let mut list = List::default();
    for (name, value, index) in values().into_iter().chain(ends_of_blocks()) {
        let out = vec![0xee; index + record(&value).len() + 2];
        let name = format!("{name} at {index}");
        list.add(&name, value.marshall_val_case(out, index));
    }
    let (value, out) = other_last();
    list.add(OTHER_LAST, value.marshall_case(out));
    list.0
}

/// Adds the preview over the value's record, the lowest bits of some of its bytes changed.
fn add_over_record(list: &mut List, (name, value, index): Written, places: &[usize]) {
    let mut out = [&vec![0x11; index], &record(&value)[..], &[0x11; 2]].concat();
    for place in places {
        out[index + place] ^= 1;
    }
    let places: Vec<String> = places.iter().map(usize::to_string).collect();
    let changed = places.join(" and ");
    let name = format!("{name} at {index} over its record, byte {changed} changed");
    list.add(&name, value.preview_case(out, index));
}

/// The cases of preview.
pub fn preview() -> Cases {
    let mut list = List::default();
    for (name, value, index) in values().into_iter().chain(ends_of_blocks()) {
        let out = vec![0xee; index + record(&value).len() + 2];
        let name = format!("{name} at {index} over bytes EE");
        list.add(&name, value.preview_case(out, index));
    }
    for written in values() {
        // Neither the first nor the last byte of a block of 4 bytes or more.
        let middle = record(&written.1).len() / 16 * 8 + 2;
        add_over_record(&mut list, written, &[middle]);
    }
    for (name, array) in longest() {
        add_over_record(&mut list, (name, array, 0), &[28, MAX_BYTES - 5]);
    }
    let (value, out) = other_last();
    list.add(OTHER_LAST, value.preview_case(out, 0));
    list.0
}

//! Sizes of rows that are wrong, alone and beside other faults, for every call that takes rows.

use std::collections::BTreeSet;

use compare::Value;

use super::borders;
use super::long::fields_of_each_kind;
use super::rows::{locate, size};
use super::signed::signed_number;
use super::sized::{sized, Bare, SIZE};
use super::writing::{marshall, marshall_val, value};
use super::xdr::BYTE_ARRAYS;
use super::{hex, numbers, Cases, List, MAX_BYTES, ROW_WORDS};
use super::{A, A_RECORD, B, BYT, MIX_ROWS, U32};

/// Other rows for the grammar and the record of example A, and n.
#[rustfmt::skip]
const OF_A: [(&str, &str, usize); 29] = [
    ("the size of row 0 is too great", "4 3 2 0 15, 1 1 7 0 4, 5 1 2 12 10", 3),
    ("the size of row 0 is too small", "4 3 2 0 13, 1 1 7 0 4, 5 1 2 12 10", 3),
    ("the size of row 0 is 0", "4 3 2 0 0, 1 1 7 0 4, 5 1 2 12 10", 3),
    ("the size of row 0 is that of the XDR", "4 3 2 0 12, 1 1 7 0 4, 5 1 2 12 10", 3),
    ("the size of row 0 is that of row 1", "4 3 2 0 4, 1 1 7 0 4, 5 1 2 12 10", 3),
    ("the size of row 0 is that of row 2", "4 3 2 0 10, 1 1 7 0 4, 5 1 2 12 10", 3),
    ("the size of row 1 is wrong", "4 3 2 0 14, 1 1 7 0 5, 5 1 2 12 10", 3),
    ("the size of row 1 is wrong, and row 0 agrees", "4 3 2 0 15, 1 1 7 0 5, 5 1 2 12 10", 3),
    ("the size of row 2 is wrong", "4 3 2 0 14, 1 1 7 0 4, 5 1 2 12 11", 3),
    ("the size of row 2 is wrong, and row 0 agrees", "4 3 2 0 15, 1 1 7 0 4, 5 1 2 12 11", 3),
    ("the size of row 2 is without the count", "4 3 2 0 6, 1 1 7 0 4, 5 1 2 12 2", 3),
    ("all sizes are those of the XDR", "4 3 2 0 12, 1 1 7 0 4, 5 1 2 12 8", 3),
    ("the sizes of rows 0 and 1 are wrong", "4 3 2 0 13, 1 1 7 0 5, 5 1 2 12 10", 3),
    ("the sizes of rows 0 and 2 are wrong", "4 3 2 0 13, 1 1 7 0 4, 5 1 2 12 11", 3),
    ("the sizes of rows 1 and 2 are wrong", "4 3 2 0 14, 1 1 7 0 5, 5 1 2 12 9", 3),
    ("the sizes of rows 1 and 2 are exchanged", "4 3 2 0 14, 1 1 7 0 10, 5 1 2 12 4", 3),
    ("all sizes are 0", "4 3 2 0 0, 1 1 7 0 0, 5 1 2 12 0", 3),
    ("13 of row 1's size before 13 of row 2", "4 3 2 0 14, 1 1 7 0 5, 11 1 2 12 10", 3),
    ("13 of row 1's size before 14 of row 2", "4 3 2 0 14, 1 1 7 0 5, 5 1 2 13 10", 3),
    ("14 of row 2 before 13 of its size", "4 3 2 0 14, 1 1 7 0 4, 5 1 2 13 11", 3),
    ("14 of row 2 before 13 of row 0's size", "4 3 2 0 15, 1 1 7 0 4, 5 1 2 13 10", 3),
    ("13 of row 2 before 13 of row 0's size", "4 3 2 0 15, 1 1 7 0 4, 11 1 2 12 10", 3),
    ("13 of row 1's size before a row left over", "4 3 1 0 4, 1 1 7 0 5, 5 1 2 12 10", 3),
    ("a row left over whose size is wrong", "4 3 1 0 4, 1 1 7 0 4, 5 1 2 12 11", 3),
    ("13 of row 2's size before a missing field", "4 3 3 0 14, 1 1 7 0 4, 5 1 2 12 11", 3),
    ("12 before 13 of a size", "4 3 2 0 14, 1 1 7 0 5, 5 1 2 12 10", 4),
    ("14 words for 3 rows", "4 3 2 0 14, 1 1 7 0 4, 5 1 2 12", 3),
    ("rows without sizes", "4 3 2 0, 1 1 7 0, 5 1 2 12", 3),
    ("rows without sizes, and words behind them", "4 3 2 0, 1 1 7 0, 5 1 2 12, 0 0 0 0, 0 0 0", 3),
];

/// Rows, with a store of 16 bytes 5A: values in values.
#[rustfmt::skip]
const NESTED: [(&str, &str); 19] = [
    ("a uint32 in a tuple before a uint64", "4 4 2 0 12, 4 2 1 0 4, 1 1 7 0 4, 2 1 7 0 8"),
    ("13 of a tuple's size before 13 of the next field",
        "4 4 2 0 12, 4 2 1 0 5, 1 1 7 0 4, 11 1 7 0 8"),
    ("13 of a tuple's size before 14 of the next field",
        "4 4 2 0 29, 4 2 1 0 5, 1 1 7 0 4, 5 1 17 0 25"),
    ("13 of an array's size before 14 of the next field",
        "4 4 2 0 37, 3 2 1 0 11, 1 1 7 0 4, 5 1 17 0 25"),
    ("13 of a case's size before 14 of the next field",
        "4 4 2 0 37, 8 2 1 0 13, 1 1 7 0 4, 5 1 17 0 25"),
    ("13 of a field's size before 13 of its tuple's", "4 4 2 0 12, 4 2 1 0 5, 1 1 7 0 3, 2 1 7 0 8"),
    ("13 of a tuple's size before 13 of the next field's",
        "4 4 2 0 12, 4 2 1 0 5, 1 1 7 0 4, 2 1 7 0 9"),
    ("13 of the last field's size before 13 of the root's",
        "4 4 2 0 13, 4 2 1 0 4, 1 1 7 0 4, 2 1 7 0 9"),
    ("a missing field before 13 of the root's size", "4 4 2 0 13, 4 2 2 0 4, 1 1 7 0 4, 2 1 7 0 8"),
    ("13 of a field's size before a field missing behind it",
        "4 4 2 0 12, 4 2 2 0 4, 1 1 7 0 5, 2 1 7 0 8"),
    ("a row left over before 13 of the root's size", "4 4 2 0 13, 4 2 0 0 0, 1 1 7 0 4, 2 1 7 0 8"),
    ("13 of a size before a row left over behind it",
        "4 4 1 0 4, 4 2 1 0 5, 1 1 7 0 4, 2 1 7 0 8"),
    ("14 of a field before 13 of the sizes around it", "4 3 1 0 9, 8 2 0 0 9, 5 1 17 0 25"),
    ("14 before 13 of the size of a byte array", "5 1 17 0 24"),
    ("14 before 13 of the size of a uint32 array", "6 1 5 0 27"),
    ("14 before 13 of the size of a uint64 array", "7 1 3 0 31"),
    ("14 before 13 of the size of an array without elements", "7 1 0 17 0"),
    ("an array of values without the sizes of its elements", "3 3 2 0 8, 1 1 7 0 4, 1 1 7 0 4"),
    ("a tuple without the size of its last field", "4 3 2 0 4, 1 1 7 0 4, 2 1 7 0 8"),
];

/// Rows, with a store of 16 bytes 5A: the sizes of the XDR, sizes with padding, and wrong sizes of
/// cases with great tags.
#[rustfmt::skip]
const OTHER_RULES: [(&str, &str); 31] = [
    ("the size of the XDR of a byte", "5 1 1 0 8"),
    ("the size of the XDR of a uint32 element", "6 1 1 0 8"),
    ("the size of the XDR of a uint64 element", "7 1 1 0 12"),
    ("the size of the XDR of a uint32 element, and that of its tuple", "4 2 1 0 8, 6 1 1 0 8"),
    ("the size of the XDR of a uint64 element, and that of its tuple", "4 2 1 0 12, 7 1 1 0 12"),
    ("the size of the XDR of a uint32 element, and that of its case", "8 2 0 0 12, 6 1 1 0 8"),
    ("the size of the XDR of a uint64 element, and that of its array", "3 2 1 0 16, 7 1 1 0 12"),
    ("the size of the XDR of a tuple of a uint32 element", "4 2 1 0 8, 6 1 1 0 12"),
    ("the size of the XDR of a tuple of a uint64 element", "4 2 1 0 12, 7 1 1 0 16"),
    ("the size of the XDR of a case of a uint32 element", "8 2 0 0 12, 6 1 1 0 12"),
    ("the size of the XDR of an array of a uint64 element", "3 2 1 0 16, 7 1 1 0 16"),
    ("1 byte and its padding", "5 1 1 0 12"),
    ("2 bytes and their padding", "5 1 2 0 12"),
    ("3 bytes and their padding", "5 1 3 0 12"),
    ("5 bytes and their padding", "5 1 5 0 16"),
    ("1 byte up to a multiple of 8", "5 1 1 0 16"),
    ("an array of 1 byte and its padding", "3 2 1 0 20, 5 1 1 0 9"),
    ("a tuple of 1 byte and its padding", "4 2 1 0 12, 5 1 1 0 9"),
    ("a case of 1 byte and its padding", "8 2 0 0 20, 5 1 1 0 9"),
    ("an array of 1 byte and its padding, counted in both", "3 2 1 0 20, 5 1 1 0 12"),
    ("a tuple of 1 byte and its padding, counted in both", "4 2 1 0 12, 5 1 1 0 12"),
    ("a case of 1 byte and its padding, counted in both", "8 2 0 0 20, 5 1 1 0 12"),
    ("two byte arrays and the padding of each", "4 3 2 0 24, 5 1 1 0 9, 5 1 2 0 10"),
    ("two byte arrays up to a multiple of 4", "4 3 2 0 20, 5 1 1 0 9, 5 1 2 0 10"),
    ("two byte arrays up to a multiple of 4 in an array", "3 3 2 0 28, 5 1 1 0 9, 5 1 2 0 10"),
    ("tag 1,024, the size one more", "8 2 1024 0 9, 0 1 0 0 0"),
    ("tag 1,024, the size one less", "8 2 1024 0 7, 0 1 0 0 0"),
    ("tag 1,024 in a tuple, the size one more", "4 3 1 0 13, 8 2 1024 0 13, 1 1 7 0 4"),
    ("tag 65,536, the size one more", "8 2 65536 0 13, 1 1 7 0 4"),
    ("tag 2^32, the size one more", "8 2 4294967296 0 13, 1 1 7 0 4"),
    ("tag 2^64-1, the size one more", "8 2 18446744073709551615 0 9, 0 1 0 0 0"),
];

/// Rows for the grammar and the record of example A.
fn of_a(rows: &str, n: usize) -> Value {
    Value {
        n,
        ..value(A, rows, &hex(A_RECORD))
    }
}

/// Adds the size of rows, with a store of 16 bytes.
fn add_size(list: &mut List, name: &str, rows: &[u64], n: usize) {
    list.add(name, size(rows, n, &[0x5a; 16]));
}

/// The rows of a value of each kind: arrays of two elements, a tuple of two fields.
fn of_kind(kind: u64) -> Vec<Bare> {
    match kind {
        0 => vec![[0, 1, 0, 0]],
        3 | 4 => vec![[kind, 3, 2, 0], [1, 1, 7, 0], [10, 1, 7, 0]],
        5..=7 => vec![[kind, 1, 2, 0]],
        8 => vec![[8, 2, 7, 0], [9, 1, 7, 0]],
        _ => vec![[kind, 1, 7, 0]],
    }
}

/// Wrong sizes of each kind, of the root and of a field; the tuple around it agrees with it.
fn each_kind(list: &mut List) {
    for kind in 0..=10 {
        let own = of_kind(kind);
        let n = own.len();
        let sound = sized(&own);
        let right = sound[SIZE];
        let near = [right.wrapping_sub(1), right + 1, 0, 2, 4, 8, 16, u64::MAX];
        for wrong in BTreeSet::from(near)
            .into_iter()
            .filter(|&size| size != right)
        {
            let mut rows = sound.clone();
            rows[SIZE] = wrong;
            let name = format!("kind {kind} of size {right}, given as {wrong}");
            add_size(list, &name, &rows, n);
            let root = [[4, n as u64 + 2, 2, 0], [2, 1, 7, 0]];
            let mut rows = sized(&[&root[..], &own].concat());
            rows[2 * ROW_WORDS + SIZE] = wrong;
            rows[SIZE] = wrong.wrapping_add(8);
            add_size(list, &format!("{name}, in a tuple"), &rows, n + 2);
        }
    }
}

/// Wrong sizes of arrays without elements and of the tuple without fields, of the root and of a field;
/// the tuple around it agrees with it.
fn empty(list: &mut List) {
    for kind in 3..=7 {
        let right = sized(&[[kind, 1, 0, 0]])[SIZE];
        for wrong in BTreeSet::from([right.wrapping_sub(1), right + 1, 0, 4])
            .into_iter()
            .filter(|&size| size != right)
        {
            let name = format!("kind {kind} with count 0, of size {right}, given as {wrong}");
            let row = [kind, 1, 0, 0, wrong];
            add_size(list, &name, &row, 1);
            let rows = [&[4, 2, 1, 0, wrong], &row[..]].concat();
            add_size(list, &format!("{name}, in a tuple"), &rows, 2);
        }
    }
}

/// Wrong sizes near right ones that are above 1,048,576.
fn great(list: &mut List) {
    let store = vec![0x5a; MAX_BYTES];
    let mut add = |name: &str, mut rows: Vec<u64>| {
        let (right, n) = (rows[SIZE], rows.len() / ROW_WORDS);
        for wrong in [right - 1, right + 1] {
            rows[SIZE] = wrong;
            let name = format!("{name} of size {right}, given as {wrong}");
            list.add(&name, size(&rows, n, &store));
        }
    };
    let most = MAX_BYTES as u64;
    for (kind, width) in [(5, 1), (6, 4), (7, 8)] {
        let row = [kind, 1, most / width, 0];
        add(&format!("kind {kind}"), sized(&[row]));
    }
    for kind in [3, 4, 8] {
        let rows = [[kind, 2, 1, 0], [5, 1, most, 0]];
        add(&format!("kind {kind}"), sized(&rows));
    }
    let mut arrays = vec![[3, 4_096, 4_095, 0]];
    arrays.resize(4_096, [5, 1, most, 0]);
    add("4,095 byte arrays", sized(&arrays));
}

/// A tuple with a field of each kind: of one row of each kind the size is one more.
fn of_each_kind() -> Vec<(String, Value)> {
    let sound = fields_of_each_kind();
    let one_more = |row: usize| {
        let mut value = sound.clone();
        value.rows[ROW_WORDS * row + SIZE] += 1;
        let kind = value.rows[ROW_WORDS * row];
        let name = format!("fields of each kind, the size of kind {kind} in row {row}");
        (name, value)
    };
    let rows = [1, 2, 3, 4, 7, 9, 10, 11, 14, 15, 16];
    rows.map(one_more).to_vec()
}

/// The same tuple: of one row of each kind whose XDR is shorter the size is that of the XDR.
fn of_each_xdr() -> Vec<(String, Value)> {
    let sound = fields_of_each_kind();
    let listed = [(1, 16), (2, 28), (3, 16), (4, 12), (7, 8)];
    let of_xdr = |(row, size): (usize, u64)| {
        let mut value = sound.clone();
        value.rows[ROW_WORDS * row + SIZE] = size;
        let kind = value.rows[ROW_WORDS * row];
        let name = format!("fields of each kind, the XDR's size of kind {kind} in row {row}");
        (name, value)
    };
    listed.map(of_xdr).to_vec()
}

/// Each size of a nested value, and each two.
fn each_row(list: &mut List) {
    let sound: Vec<u64> = numbers(MIX_ROWS);
    let with = |wrong: &[usize]| {
        let mut rows = sound.clone();
        for row in wrong {
            rows[ROW_WORDS * row + SIZE] += 1;
        }
        rows
    };
    let mut add = |what: String, rows: Vec<u64>| {
        let name = format!("nested, the size of {what}");
        list.add(&name, size(&rows, 7, &[0x5a; 41]));
    };
    for first in 0..7 {
        add(format!("row {first}"), with(&[first]));
        for second in first + 1..7 {
            add(format!("rows {first} and {second}"), with(&[first, second]));
        }
    }
}

/// Cases in one another, of `n` rows, the last a uint32.
fn levels(n: u64) -> Vec<Bare> {
    let cases = (2..=n).rev().map(|span| [8, span, 0, 0]);
    cases.chain([[1, 1, 7, 0]]).collect()
}

/// Sizes that are wrong in the most rows and at great depths.
fn far_rows(list: &mut List) {
    let mut constants = vec![[4, 4_096, 4_095, 0]];
    constants.resize(4_096, [0, 1, 0, 0]);
    let listed: [(&str, Vec<Bare>, &[usize]); 3] = [
        ("4,096 rows", constants, &[0, 1, 255, 256, 2_048, 4_095]),
        ("300 levels of cases", levels(300), &[0, 1, 255, 256, 299]),
        ("4,096 levels of cases", levels(4_096), &[4_095]),
    ];
    for (what, rows, wrong) in listed {
        for row in wrong {
            let mut words = sized(&rows);
            words[ROW_WORDS * row + SIZE] += 1;
            let name = format!("{what}, the size of row {row}");
            add_size(list, &name, &words, rows.len());
        }
    }
}

/// An array of 4,095 byte arrays, of which the last alone has elements: its XDR has at most 1,048,576
/// bytes, its record up to 16,384 more.
pub(super) fn great_arrays() -> [(&'static str, Value); 3] {
    let listed = [
        ("byte arrays of 1,064,960 bytes in all", 1_032_192),
        ("byte arrays of 1,048,577 bytes in all", 1_015_809),
        ("byte arrays of 1,048,576 bytes in all", 1_015_808),
    ];
    listed.map(|(name, count)| {
        let mut rows = vec![[3, 4_096, 4_095, 0]];
        rows.resize(4_095, [5, 1, 0, 0]);
        rows.push([5, 1, count, 0]);
        let store = vec![0x5a; count as usize];
        (name, borders::value(numbers(BYTE_ARRAYS), &rows, &store))
    })
}

/// The sizes of other rows than example A's: nested values, rows without sizes, and great values.
fn sizes(list: &mut List) {
    for (name, rows) in NESTED.into_iter().chain(OTHER_RULES) {
        let rows: Vec<u64> = numbers(rows);
        add_size(list, name, &rows, rows.len() / ROW_WORDS);
    }
    add_size(list, "12 of rows without sizes", &[0, 1, 0, 0], 1);
    let without = numbers::<u64>("3 4 3 0, 0 1 0 0, 0 1 0 0, 0 1 0 0, 0 0 0 0");
    add_size(list, "13 of rows without sizes", &without, 4);
    let (wrong, long) = (numbers::<u64>("1 1 7 0 5"), vec![0x5a; MAX_BYTES + 1]);
    list.add("6 before 13 of a size", size(&wrong, 1, &long));
    for (name, arrays) in great_arrays() {
        list.add(name, size(&arrays.rows, arrays.n, &arrays.store));
    }
    let store = vec![0x5a; 70_000];
    for kind in [3, 4, 8] {
        let rows = sized(&[[kind, 2, 1, 0], [5, 1, 70_000, 0]]);
        let name = format!("kind {kind} of a value of 70,008 bytes");
        list.add(&name, size(&rows, 2, &store));
    }
}

/// The locator, of a row whose size is wrong and of others; and, with the size call, fields of each
/// kind.
fn located(list: &mut List) {
    let sound = sized(&[[4, 3, 2, 0], [5, 1, 2, 0], [1, 1, 7, 0]]);
    for (name, wrong, row) in [
        ("13 of another row's size", 2, 1),
        ("13 of the row's own size", 1, 1),
        ("13 of a size before 18", 0, 2),
        ("13 of a size before 18 of no row", 1, 3),
    ] {
        let mut rows = sound.clone();
        rows[ROW_WORDS * wrong + SIZE] += 1;
        list.add(name, locate(&rows, 3, &[0x5a; 2], row));
    }
    for (name, Value { rows, n, store, .. }) in of_each_kind() {
        list.add(&name, size(&rows, n, &store));
        list.add(&name, locate(&rows, n, &store, 1));
    }
}

/// The cases of the size call and of the locator.
pub fn rows() -> Cases {
    let mut list = List::default();
    for (name, rows, n) in OF_A {
        let Value { rows, n, store, .. } = of_a(rows, n);
        list.add(name, size(&rows, n, &store));
        list.add(name, locate(&rows, n, &store, 2));
    }
    sizes(&mut list);
    located(&mut list);
    each_kind(&mut list);
    empty(&mut list);
    great(&mut list);
    each_row(&mut list);
    far_rows(&mut list);
    list.0
}

/// The cases of the signed number: an int32 in the place of example A's uint32.
pub fn signed() -> Cases {
    let mut list = List::default();
    for (name, rows, n) in OF_A {
        let rows = numbers::<u64>(&rows.replace(" 1 1 7 0", " 9 1 7 0"));
        list.add(name, signed_number(&rows, n, 14, 1));
    }
    for (name, rows, row) in [
        (
            "13 of another row's size",
            "4 3 2 0 16, 9 1 7 0 4, 2 1 7 0 9",
            1,
        ),
        (
            "13 of the row's own size",
            "4 3 2 0 12, 9 1 7 0 5, 2 1 7 0 8",
            1,
        ),
        (
            "13 of a size before 20",
            "4 3 2 0 11, 9 1 7 0 4, 2 1 7 0 8",
            2,
        ),
        ("13 of a size before 20 of no row", "9 1 7 0 8", 3),
        ("an int64 whose size is 4", "10 1 7 0 4", 0),
        ("an int32 whose size is 8", "9 1 7 0 8", 0),
    ] {
        let rows: Vec<u64> = numbers(rows);
        let n = rows.len() / ROW_WORDS;
        list.add(name, signed_number(&rows, n, 0, row));
    }
    for (name, Value { rows, n, store, .. }) in of_each_kind() {
        list.add(&name, signed_number(&rows, n, store.len(), 10));
    }
    list.0
}

/// The cases of the writers, which are those of preview and of export, too.
pub fn writing() -> Cases {
    let mut list = List::default();
    for (name, rows, n) in OF_A {
        let value = of_a(rows, n);
        list.add(name, marshall(&value, 14));
        list.add(name, marshall_val(&value, 20, 3));
    }
    let few = value(U32, "1 1 7 0 5", &[]);
    list.add("13 of a size before 17", marshall(&few, 0));
    list.add("13 of a size before 17", marshall_val(&few, 9, 10));
    let other = value(B, "1 1 7 0 5", &[]);
    list.add("13 of a size before 15", marshall(&other, 9));
    for (name, rows, length) in [
        ("13 of a size before 16", "5 1 1048569 0 1048576", 1_048_569),
        ("13 of a size that says 16", "5 1 2 0 1048577", 2),
        (
            "13 of a size that says 16, of a value that is so long",
            "5 1 1048576 0 1048585",
            1_048_576,
        ),
        (
            "16 of a size that is right",
            "5 1 1048573 0 1048581",
            1_048_573,
        ),
    ] {
        let bytes = value(BYT, rows, &vec![0; length]);
        list.add(name, marshall(&bytes, MAX_BYTES + 8));
    }
    for (name, arrays) in great_arrays() {
        list.add(name, marshall(&arrays, MAX_BYTES + 20_000));
    }
    for (name, fields) in of_each_kind() {
        list.add(&name, marshall(&fields, 131));
        list.add(&name, marshall_val(&fields, 140, 3));
    }
    for (name, fields) in of_each_xdr() {
        list.add(&name, marshall_val(&fields, 140, 3));
    }
    list.0
}

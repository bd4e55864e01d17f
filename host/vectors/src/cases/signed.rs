//! The signed number of a row.

use compare::Case;

use super::magnitudes::{self, sound_row};
use super::row_sizes;
use super::sized::sized;
use super::{numbers, Cases, List, MAX_BYTES};

/// The signed number of a row, with a store of so many bytes 5A.
pub(super) fn signed_number(rows: &[u64], n: usize, store: usize, row: usize) -> Case {
    Case::SignedNumber {
        rows: rows.to_vec(),
        n,
        store: vec![0x5a; store],
        row,
    }
}

/// Name, rows, n, the length of the store and the row number.
type Listed = (&'static str, &'static str, usize, usize, usize);

/// The tuple of an int32, which is -3, and a byte array.
const TUPLE: &str = "4 3 2 0 14, 9 1 4294967293 0 4, 5 1 2 12 10";

const LISTED: [Listed; 19] = [
    ("the int32 -3 in a tuple", TUPLE, 3, 14, 1),
    ("the byte array in a tuple", TUPLE, 3, 14, 2),
    ("the tuple", TUPLE, 3, 14, 0),
    ("row number n", TUPLE, 3, 14, 3),
    ("row number n + 1", TUPLE, 3, 14, 4),
    ("row number 2^64-1", TUPLE, 3, 14, usize::MAX),
    ("14 of another row", TUPLE, 3, 13, 1),
    ("n above the rows", TUPLE, 4, 14, 1),
    (
        "row number (2^64+4)/5, of which 5 times wraps to 4",
        "9 1 7 0 4",
        1,
        0,
        3_689_348_814_741_910_324,
    ),
    ("example I, -1 of an int32", "9 1 4294967295 0 4", 1, 0, 0),
    ("example I, the least int32", "9 1 2147483648 0 4", 1, 0, 0),
    (
        "example I, -1 of an int64",
        "10 1 18446744073709551615 0 8",
        1,
        0,
        0,
    ),
    (
        "example I, 2^32 is no pattern of an int32",
        "9 1 4294967296 0 4",
        1,
        0,
        0,
    ),
    (
        "example I, 2^32 of an int64",
        "10 1 4294967296 0 8",
        1,
        0,
        0,
    ),
    (
        "an int64 in a case in an array",
        "3 3 1 0 24, 8 2 5 0 16, 10 1 9223372036854775808 0 8",
        3,
        0,
        2,
    ),
    (
        "words behind 5n are not looked at",
        "9 1 7 0 4, 9 9 9 9 9, 9",
        1,
        0,
        0,
    ),
    ("an int32 behind n", "0 1 0 0 0, 9 1 7 0 4", 1, 0, 1),
    ("an int64 behind n", "0 1 0 0 0, 10 1 7 0 8", 1, 0, 1),
    ("no words", "", 1, 0, 0),
];

/// Two faults in one call, and faults of rows that are not asked for.
const ORDER: [Listed; 24] = [
    ("12 before 13", "11 1 0 0 8", 2, 0, 0),
    ("12 before 14", "5 1 1 0 9", 0, 0, 0),
    ("12 before 20", "0 1 0 0 0", 0, 0, 0),
    ("12 of an int32", "9 1 7 0 4", 0, 0, 0),
    ("12 before 20 of no row", "9 1 7 0 4", 2, 0, 9),
    ("13 before 14 of one row", "5 2 9 0 17, 0 1 0 0 0", 2, 0, 1),
    (
        "the first row's 13 before a later row's 14",
        "4 4 3 0 21, 9 1 7 0 4, 11 1 0 0 8, 5 1 1 0 9",
        4,
        0,
        1,
    ),
    (
        "the first row's 14 before a later row's 13",
        "4 4 3 0 21, 9 1 7 0 4, 5 1 1 0 9, 11 1 0 0 8",
        4,
        0,
        1,
    ),
    ("13 before 20, kind 11", "11 1 0 0 8", 1, 0, 0),
    ("13 before 20, a constant", "0 1 5 0 0", 1, 0, 0),
    ("13 before 20 of no row", "11 1 0 0 8", 1, 0, 9),
    (
        "13 before 20, row number 2^64-1",
        "9 1 4294967296 0 4",
        1,
        0,
        usize::MAX,
    ),
    (
        "13 of a later row",
        "4 3 2 0 12, 9 1 7 0 4, 11 1 0 0 8",
        3,
        0,
        1,
    ),
    (
        "13 of an earlier row",
        "4 3 2 0 8, 0 1 1 0 0, 10 1 7 0 8",
        3,
        0,
        2,
    ),
    (
        "13 of the root, an int32 left over",
        "4 3 1 0 0, 0 1 0 0 0, 9 1 7 0 4",
        3,
        0,
        2,
    ),
    (
        "13 of the root, a child is missing",
        "4 2 2 0 4, 9 1 7 0 4",
        2,
        0,
        1,
    ),
    ("word 3 of an int32", "9 1 7 1 4", 1, 0, 0),
    ("word 3 of an int64", "10 1 7 1 8", 1, 0, 0),
    ("an int32 of span 2", "9 2 7 0 4, 0 1 0 0 0", 2, 0, 0),
    ("an int64 of span 2", "10 2 7 0 8, 0 1 0 0 0", 2, 0, 0),
    ("14 before 20", "5 1 1 0 9", 1, 0, 0),
    ("14 before 20 of no row", "5 1 1 0 9", 1, 0, 9),
    (
        "14 before 20, row number 2^64-1",
        "7 1 2 2 24",
        1,
        17,
        usize::MAX,
    ),
    (
        "14 of an empty array",
        "4 3 2 0 16, 10 1 7 0 8, 6 1 0 1 8",
        3,
        0,
        1,
    ),
];

/// Each kind that is no signed number.
fn other_kinds(list: &mut List) {
    for kind in 0..=8 {
        let rows = sound_row(kind);
        let case = signed_number(&sized(&rows), rows.len(), 0, 0);
        list.add(&format!("kind {kind}"), case);
    }
}

/// The longest stores and the most rows.
fn limits(list: &mut List) {
    for (name, rows, n, row) in [
        ("a store of 1,048,577 bytes", "9 1 7 0 4", 1, 0),
        ("6 before 12", "9 1 7 0 4", 0, 0),
        ("6 before 13", "11 1 0 0 8", 1, 0),
        ("6 before 14", "5 1 0 2000000 8", 1, 0),
        ("6 before 20", "0 1 0 0 0", 1, 0),
        ("6 before 20 of no row", "9 1 7 0 4", 1, usize::MAX),
        ("6 before 12 and 20", "0 1 0 0 0", 0, 7),
    ] {
        let rows = numbers::<u64>(rows);
        list.add(name, signed_number(&rows, n, MAX_BYTES + 1, row));
    }
    let name = "a store of 1,048,576 bytes";
    list.add(
        name,
        signed_number(&sized(&[[9, 1, 7, 0]]), 1, MAX_BYTES, 0),
    );
    let tuple = |n: u64| {
        let mut rows = vec![[4, n, n - 1, 0]];
        rows.resize(n as usize, [9, 1, 4_294_967_295, 0]);
        sized(&rows)
    };
    let most = tuple(4_096);
    list.add("row 4,095 of 4,096", signed_number(&most, 4_096, 0, 4_095));
    list.add("row 4,096 of 4,096", signed_number(&most, 4_096, 0, 4_096));
    let more = tuple(4_097);
    list.add("n 4,097", signed_number(&more, 4_097, 0, 4_096));
}

/// The cases of the signed number.
pub fn signed() -> Cases {
    let mut list = List::default();
    for (name, rows, n, store, row) in LISTED.into_iter().chain(ORDER) {
        list.add(name, signed_number(&numbers::<u64>(rows), n, store, row));
    }
    other_kinds(&mut list);
    limits(&mut list);
    list.0.extend(row_sizes::signed());
    list.0.extend(magnitudes::signed());
    list.0
}

//! Sizes and the array locator.

use compare::Case;

use super::sized::{sized, Bare};
use super::{hex, numbers, Cases, List, A_RECORD, MAX_BYTES, MIX_ROWS};
use super::{magnitudes, row_sizes};

const CONSTANT: Bare = [0, 1, 0, 0];

/// The size of these rows, of which `n` are the value's.
pub(super) fn size(rows: &[u64], n: usize, store: &[u8]) -> Case {
    Case::ComputeSizeOf {
        rows: rows.to_vec(),
        n,
        store: store.to_vec(),
    }
}

/// Where the array of a row lies.
pub(super) fn locate(rows: &[u64], n: usize, store: &[u8], row: usize) -> Case {
    Case::LocateArray {
        rows: rows.to_vec(),
        n,
        store: store.to_vec(),
        row,
    }
}

/// Name, rows, n and the length of a store of bytes 5A.
type Listed = (&'static str, &'static str, usize, usize);

const ACCEPTED: [Listed; 22] = [
    ("example A", "4 3 2 0 14, 1 1 7 0 4, 5 1 2 12 10", 3, 14),
    (
        "example H, number 4,294,967,295",
        "1 1 4294967295 0 4",
        1,
        0,
    ),
    ("constant", "0 1 0 0 0", 1, 0),
    ("uint64 2^64-1", "2 1 18446744073709551615 0 8", 1, 0),
    ("array without elements", "3 1 0 0 8", 1, 0),
    ("tuple without fields", "4 1 0 0 0", 1, 0),
    ("byte array up to the store's end", "5 1 16 0 24", 1, 16),
    ("uint32 array up to the store's end", "6 1 3 4 20", 1, 16),
    ("uint64 array up to the store's end", "7 1 1 8 16", 1, 16),
    (
        "byte array without elements at the store's end",
        "5 1 0 16 8",
        1,
        16,
    ),
    (
        "uint64 array without elements at the store's end",
        "7 1 0 16 8",
        1,
        16,
    ),
    (
        "a tag has no limit",
        "8 2 18446744073709551615 0 16, 2 1 1 0 8",
        2,
        0,
    ),
    ("nested", MIX_ROWS, 7, 41),
    (
        "two arrays share a byte of the store",
        "3 3 2 0 26, 5 1 1 0 9, 5 1 1 0 9",
        3,
        1,
    ),
    (
        "an array of values of different kinds",
        "3 3 2 0 20, 1 1 5 0 4, 2 1 6 0 8",
        3,
        0,
    ),
    (
        "words behind 5n are not looked at",
        "0 1 0 0 0, 9 9 9 9 9, 9",
        1,
        0,
    ),
    ("a case in a case", "8 3 7 0 16, 8 2 0 0 8, 0 1 0 0 0", 3, 0),
    ("int32 pattern 4,294,967,295", "9 1 4294967295 0 4", 1, 0),
    (
        "int64 pattern 2^64-1",
        "10 1 18446744073709551615 0 8",
        1,
        0,
    ),
    (
        "example I, int64 pattern 4,294,967,296",
        "10 1 4294967296 0 8",
        1,
        0,
    ),
    (
        "tuple of numbers of four kinds",
        "4 5 4 0 24, 1 1 7 0 4, 2 1 7 0 8, 9 1 7 0 4, 10 1 7 0 8",
        5,
        0,
    ),
    ("a case of an int64", "8 2 1 0 16, 10 1 7 0 8", 2, 0),
];

const REFUSED: [Listed; 52] = [
    ("n 0", "0 1 0 0 0", 0, 0),
    ("n above the rows", "0 1 0 0 0", 2, 0),
    ("a word missing for n", "0 1 0 0", 1, 0),
    ("no words", "", 1, 0),
    ("n 2^64-1", "0 1 0 0 0", usize::MAX, 0),
    (
        "n (2^64+4)/5, of which 5n wraps to 4",
        "0 1 0 0 0",
        3_689_348_814_741_910_324,
        0,
    ),
    ("kind 11", "11 1 0 0 8", 1, 0),
    ("kind 2^64-1", "18446744073709551615 1 0 0 8", 1, 0),
    ("kind 2^32, whose low half is 0", "4294967296 1 0 0 0", 1, 0),
    (
        "example H, number 4,294,967,296",
        "1 1 4294967296 0 4",
        1,
        0,
    ),
    ("the root's span is below n", "0 1 0 0 0, 0 1 0 0 0", 2, 0),
    ("the root's span is above n", "4 3 2 0 0, 0 1 0 0 0", 2, 0),
    ("the root's span is 0", "0 0 0 0 0", 1, 0),
    ("span 0 of a child", "4 2 1 0 0, 0 0 0 0 0", 2, 0),
    (
        "span of a child beyond the parent's end",
        "4 2 1 0 8, 8 2 0 0 8",
        2,
        0,
    ),
    (
        "span 2^64-1 of a child",
        "4 2 1 0 0, 4 18446744073709551615 0 0 0",
        2,
        0,
    ),
    (
        "a child reaches into its parent's sibling",
        "4 4 2 0 8, 4 2 1 0 8, 3 2 1 0 8, 0 1 0 0 0",
        4,
        0,
    ),
    (
        "a constant of span 2",
        "4 3 1 0 0, 0 2 0 0 0, 0 1 0 0 0",
        3,
        0,
    ),
    ("a uint32 of span 2", "1 2 7 0 4, 0 1 0 0 0", 2, 0),
    ("a uint64 of span 2", "2 2 7 0 8, 0 1 0 0 0", 2, 0),
    ("a byte array of span 2", "5 2 0 0 8, 0 1 0 0 0", 2, 0),
    ("word 2 of a constant", "0 1 5 0 0", 1, 0),
    ("word 3 of a constant", "0 1 0 1 0", 1, 0),
    ("word 3 of a uint32", "1 1 7 1 4", 1, 0),
    ("word 3 of a uint64", "2 1 7 1 8", 1, 0),
    ("word 3 of an array", "3 1 0 1 8", 1, 0),
    ("word 3 of a tuple", "4 1 0 1 0", 1, 0),
    ("word 3 of a case", "8 2 0 1 8, 0 1 0 0 0", 2, 0),
    ("the value of a case is missing", "8 1 0 0 8", 1, 0),
    (
        "a case of two values",
        "8 3 0 0 8, 0 1 0 0 0, 0 1 0 0 0",
        3,
        0,
    ),
    ("a field is missing", "4 2 2 0 0, 0 1 0 0 0", 2, 0),
    (
        "an array of 2^64-1 elements and one row",
        "3 2 18446744073709551615 0 8, 0 1 0 0 0",
        2,
        0,
    ),
    ("a row left over, not walked", "4 2 0 0 0, 9 9 9 9 9", 2, 0),
    (
        "a row left over behind a child",
        "4 3 1 0 0, 0 1 0 0 0, 9 9 9 9 9",
        3,
        0,
    ),
    ("byte array a byte beyond the store", "5 1 17 0 25", 1, 16),
    ("uint32 array a byte beyond the store", "6 1 3 5 20", 1, 16),
    ("uint64 array a byte beyond the store", "7 1 1 9 16", 1, 16),
    ("offset 1 in an empty store, count 0", "5 1 0 1 8", 1, 0),
    (
        "count 2^62 of 4 bytes, which wraps to 0",
        "6 1 4611686018427387904 0 8",
        1,
        0,
    ),
    (
        "count 2^61 of 8 bytes, which wraps to 0",
        "7 1 2305843009213693952 0 8",
        1,
        16,
    ),
    (
        "offset 2^64-1 and count 1, which wraps to 0",
        "5 1 1 18446744073709551615 9",
        1,
        16,
    ),
    (
        "offset 2^64-1 and count 0",
        "7 1 0 18446744073709551615 8",
        1,
        16,
    ),
    ("count 2^64-1", "5 1 18446744073709551615 0 7", 1, 16),
    ("kind 12", "12 1 0 0 8", 1, 0),
    (
        "example I, int32 pattern 4,294,967,296",
        "9 1 4294967296 0 4",
        1,
        0,
    ),
    ("int32 pattern 2^64-1", "9 1 18446744073709551615 0 4", 1, 0),
    ("an int32 of span 2", "9 2 7 0 4, 0 1 0 0 0", 2, 0),
    ("an int64 of span 2", "10 2 7 0 8, 0 1 0 0 0", 2, 0),
    ("an int32 of span 0", "4 2 1 0 4, 9 0 7 0 4", 2, 0),
    ("an int64 of span 0", "4 2 1 0 8, 10 0 7 0 8", 2, 0),
    ("word 3 of an int32", "9 1 7 1 4", 1, 0),
    ("word 3 of an int64", "10 1 7 1 8", 1, 0),
];

const ORDER: [Listed; 14] = [
    ("12 before 13", "11 1 0 0 8", 2, 0),
    ("12 before 14", "5 1 1 0 9", 0, 0),
    ("13 before 14 of one row", "5 2 9 0 17, 0 1 0 0 0", 2, 0),
    (
        "the first row's 14 before a later row's 13",
        "4 3 2 0 17, 5 1 1 0 9, 11 1 0 0 8",
        3,
        0,
    ),
    (
        "the first row's 13 before a later row's 14",
        "4 3 2 0 17, 11 1 0 0 8, 5 1 1 0 9",
        3,
        0,
    ),
    (
        "the root's 13 before a child's",
        "4 3 1 0 8, 11 1 0 0 8",
        2,
        0,
    ),
    (
        "the root's 13 before a child's 14",
        "0 2 0 0 0, 5 1 1 0 9",
        2,
        0,
    ),
    (
        "a child's 14 before the missing child",
        "3 2 2 0 25, 5 1 9 0 17",
        2,
        0,
    ),
    (
        "a child's 13 before the missing child",
        "4 2 2 0 8, 11 1 0 0 8",
        2,
        0,
    ),
    (
        "a child's 14 before the row left over",
        "8 3 0 0 25, 5 1 9 0 17, 0 1 0 0 0",
        3,
        0,
    ),
    (
        "a child's 13 before the row left over",
        "4 3 1 0 8, 11 1 0 0 8, 0 1 0 0 0",
        3,
        0,
    ),
    (
        "a child's missing child before the next child",
        "4 4 2 0 8, 4 2 2 0 0, 0 1 0 0 0, 11 1 0 0 8",
        4,
        0,
    ),
    (
        "the inner missing child before the outer",
        "4 3 2 0 16, 8 2 0 0 16, 11 1 0 0 8",
        3,
        0,
    ),
    (
        "two missing children, the inner first",
        "4 2 2 0 8, 8 1 0 0 8",
        2,
        0,
    ),
];

/// Adds listed tables to the size call. The locator and the signed number give the same refusals.
fn sizes(list: &mut List, listed: &[Listed]) {
    for &(name, rows, n, length) in listed {
        list.add(name, size(&numbers::<u64>(rows), n, &vec![0x5a; length]));
    }
}

/// The locator: an array of each kind, and the rows that are none.
fn located(list: &mut List) {
    let a = numbers::<u64>("4 3 2 0 14, 1 1 7 0 4, 5 1 2 12 10");
    let record = hex(A_RECORD);
    for (name, row) in [
        ("example A, the byte array", 2),
        ("example A, the tuple", 0),
        ("example A, the uint32", 1),
        ("row number n", 3),
        ("row number 2^64-1", usize::MAX),
        (
            "row number (2^64+4)/5, of which 5 times wraps to 4",
            3_689_348_814_741_910_324,
        ),
    ] {
        list.add(name, locate(&a, 3, &record, row));
    }
    let e = numbers::<u64>("6 1 1 8 12");
    let record = hex("0100000000000000 78563412");
    list.add("example E", locate(&e, 1, &record, 0));
    let kinds = numbers::<u64>(
        "4 7 5 0 68, 6 1 3 1 20, 7 1 2 1 24, 5 1 0 17 8, 3 1 0 0 8, 8 2 1 0 8, 0 1 0 0 0",
    );
    for (name, row) in [
        ("uint32 array", 1),
        ("uint64 array", 2),
        ("byte array without elements", 3),
        ("array of values", 4),
        ("case", 5),
        ("constant", 6),
    ] {
        list.add(name, locate(&kinds, 7, &[0x5a; 17], row));
    }
}

/// The locator's own refusal behind the others.
fn refused_located(list: &mut List) {
    let behind = numbers::<u64>("0 1 0 0 0, 5 1 0 0 8");
    list.add("an array row behind n", locate(&behind, 1, &[], 1));
    list.add(
        "13 before 18",
        locate(&numbers::<u64>("11 1 0 0 8"), 1, &[], 0),
    );
    list.add(
        "14 before 18",
        locate(&numbers::<u64>("7 1 2 2 24"), 1, &[0x5a; 17], 9),
    );
    list.add(
        "14 of another row",
        locate(
            &numbers::<u64>("4 3 2 0 17, 5 1 0 0 8, 5 1 1 0 9"),
            3,
            &[],
            1,
        ),
    );
    list.add("12 before 18", locate(&behind, 0, &[], 0));
    let more = vec![0; MAX_BYTES + 1];
    for (number, rows) in [(13, "5 2 0 0 8"), (14, "5 1 0 2000000 8")] {
        let rows = numbers::<u64>(rows);
        list.add(&format!("6 before {number}"), locate(&rows, 1, &more, 0));
        list.add(&format!("12 before {number}"), locate(&rows, 2, &[], 0));
    }
    list.add("6 before 12 and 18", locate(&behind, 0, &more, 9));
}

/// A tuple of constants, of `n` rows.
fn constants(n: u64) -> Vec<u64> {
    let mut rows = vec![[4, n, n - 1, 0]];
    rows.resize(n as usize, CONSTANT);
    sized(&rows)
}

/// Cases in one another, of `n` rows, and the last row.
fn levels(n: u64, last: Bare) -> Vec<u64> {
    let cases = (2..=n).rev().map(|span| [8, span, 0, 0]);
    sized(&cases.chain([last]).collect::<Vec<_>>())
}

/// The largest stores, row counts, depths and sizes.
fn limits(list: &mut List) {
    let (most, more) = (vec![0; MAX_BYTES], vec![0; MAX_BYTES + 1]);
    let one = sized(&[CONSTANT]);
    list.add("a store of 1,048,576 bytes", size(&one, 1, &most));
    list.add("a store of 1,048,577 bytes", size(&one, 1, &more));
    let array = [5, 1, MAX_BYTES as u64, 0];
    let bytes = sized(&[array]);
    list.add("a store of 1,048,576 bytes", locate(&bytes, 1, &most, 0));
    list.add("a store of 1,048,577 bytes", locate(&bytes, 1, &more, 0));
    list.add(
        "sizes above 1,048,576 are no refusal",
        size(&bytes, 1, &most),
    );
    list.add("6 before 12", size(&one, 0, &more));
    list.add("6 before 13", size(&sized(&[[11, 1, 0, 0]]), 1, &more));
    list.add("6 before 14", size(&sized(&[[5, 1, 1 << 21, 0]]), 1, &more));
    list.add("n 4,096", size(&constants(4_096), 4_096, &[]));
    list.add("n 4,097", size(&constants(4_097), 4_097, &[]));
    list.add("n 4,097 of 4,096 rows", size(&constants(4_096), 4_097, &[]));
    let mut arrays = vec![[3, 4_096, 4_095, 0]];
    arrays.resize(4_096, array);
    list.add(
        "the greatest size, 4,293,951,488",
        size(&sized(&arrays), 4_096, &most),
    );
    list.add(
        "1,024 levels of cases",
        size(&levels(1_024, CONSTANT), 1_024, &[]),
    );
    list.add(
        "4,096 levels of cases",
        size(&levels(4_096, CONSTANT), 4_096, &[]),
    );
    list.add(
        "14 in the last of 4,096 levels of cases",
        locate(&levels(4_096, [5, 1, 0, 1]), 4_096, &[], 4_095),
    );
}

/// The cases of the size call and of the locator.
pub fn rows() -> Cases {
    let mut list = List::default();
    sizes(&mut list, &ACCEPTED);
    sizes(&mut list, &REFUSED);
    sizes(&mut list, &ORDER);
    located(&mut list);
    refused_located(&mut list);
    limits(&mut list);
    list.0.extend(row_sizes::rows());
    list.0.extend(magnitudes::rows());
    list.0
}

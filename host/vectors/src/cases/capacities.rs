//! The capacity of the checks: that named, and 1,024 where none is named.

use std::collections::HashSet;

use compare::{chain, doubling, Case};

use super::reading::{check_val, check_val_with, check_whole, check_whole_with};
use super::reading::{ACCEPTED, ORDER, WHOLE};
use super::{counted, grouped, hex, numbers, table, Cases, List, MAX_BYTES};
use super::{A, A64, ARR, A_RECORD, B, BYT, C, D, E, I32, I64, KIND_11, MIX, MIX_RECORD};
use super::{REFUSED_GRAMMARS, TUP0, U32, U64, UNI};

/// A tuple of an array of constants and a uint32.
const ARRAY_FIRST: &str = "4, 4 0 2, 3 2 1, 1 0 0, 0 0 0, 3, 1 2 3";
/// A tuple of a uint32 and an array of constants.
const ARRAY_LAST: &str = "4, 4 0 2, 1 0 0, 3 2 1, 0 0 0, 3, 1 2 3";
/// A union of an array of constants.
const ARRAY_IN_CASE: &str = "3, 8 0 1, 3 1 1, 0 0 0, 2, 1 2";
/// A tuple of an array of constants and a union of one constant.
const ARRAY_AND_CASE: &str = "4, 4 0 2, 3 2 1, 8 3 1, 0 0 0, 4, 1 2 3 3";
/// A tuple of an array of constants and a tuple without fields.
const ARRAY_AND_TUPLE: &str = "4, 4 0 2, 3 2 1, 4 3 0, 0 0 0, 3, 1 2 3";
/// An array of arrays of constants.
const ARRAYS: &str = "3, 3 0 1, 3 1 1, 0 0 0, 2, 1 2";

/// Adds a check of the whole record, and one of the record from byte 2 on, behind two others, with
/// this capacity, or with none named.
fn both(list: &mut List, name: &str, grammar: &[u32], record: &[u8], capacity: Option<usize>) {
    let behind = [&[0xff, 0xff], record].concat();
    let checks = match capacity {
        Some(capacity) => [
            check_whole_with(grammar, record, capacity),
            check_val_with(grammar, &behind, 2, capacity),
        ],
        None => [check_whole(grammar, record), check_val(grammar, &behind, 2)],
    };
    for check in checks {
        list.add(name, check);
    }
}

/// Arrays of constants with as many rows as the capacity and with one more.
fn rows_of_constants(list: &mut List) {
    let c = numbers::<u32>(C);
    let mut add = |name: &str, rows: u64, capacity| {
        let what = if rows == 1 { "row" } else { "rows" };
        let name = format!("{name}{} {what}", grouped(rows));
        both(list, &name, &c, &counted(rows - 1, &[]), capacity);
    };
    for rows in [
        1, 300, 1_023, 1_024, 1_025, 1_026, 2_048, 4_095, 4_096, 4_097,
    ] {
        add("no capacity named, ", rows, None);
    }
    for capacity in [
        1, 2, 3, 4, 255, 256, 1_023, 1_024, 1_025, 2_048, 4_095, 4_096,
    ] {
        let name = format!("capacity {}, ", grouped(capacity));
        add(&name, capacity, Some(capacity as usize));
        add(&name, capacity + 1, Some(capacity as usize));
    }
    // Some of them wrap to 0 or 4 in 32 or 64 bits as a number of words, 5 to a row, or of their bytes.
    let powers = [
        ("2^16-1", (1 << 16) - 1),
        ("2^16", 1 << 16),
        ("2^16+1", (1 << 16) + 1),
        ("2^27", 1 << 27),
        ("(2^32+4)/5", 858_993_460),
        ("2^30", 1 << 30),
        ("2^31-1", (1 << 31) - 1),
        ("2^31", 1 << 31),
        ("2^32-1", (1 << 32) - 1),
        ("2^32", 1 << 32),
        ("2^32+1", (1 << 32) + 1),
        ("2^59", 1 << 59),
        ("2^61", 1 << 61),
        ("(2^64+4)/5", 3_689_348_814_741_910_324),
        ("2^62", 1 << 62),
        ("2^63-1", (1 << 63) - 1),
        ("2^63", 1 << 63),
        ("2^64-4,096", usize::MAX - 4_095),
        ("2^64-1", usize::MAX),
    ];
    let above = [("4,097", 4_097), ("4,098", 4_098), ("8,192", 8_192)];
    for (capacity, number) in above.into_iter().chain(powers) {
        let name = format!("capacity {capacity}, ");
        for rows in [4_096, 4_097] {
            add(&name, rows, Some(number));
        }
    }
    // Capacities with the lowest bits of 2 rows, which are too few for 3.
    for (step, add_to) in [
        ("2^8", 1 << 8),
        ("2^16", 1 << 16),
        ("2^31", 1 << 31),
        ("2^32", 1 << 32),
        ("2^63", 1 << 63),
    ] {
        add(&format!("capacity {step}+2, "), 3, Some(add_to + 2));
    }
    // A count whose lowest 32 bits are 0.
    for (of, capacity) in [("no capacity named", None), ("capacity 4,096", Some(4_096))] {
        let name = format!("{of}, count 2^32");
        both(list, &name, &c, &counted(1 << 32, &[]), capacity);
    }
}

/// Name, grammar and record of readings that capacity 0 refuses with 8 at the index, whatever comes
/// of them with capacity 1.
const WITHOUT_ROWS: [(&str, &str, &str); 20] = [
    ("a constant", B, ""),
    ("a constant and a byte more", B, "00"),
    ("a uint32", U32, "07000000"),
    ("a uint32, no bytes", U32, ""),
    ("a uint32 and a byte more", U32, "07000000 00"),
    ("a uint64, no bytes", U64, ""),
    ("an array, seven bytes", C, "00000000000000"),
    ("an array, no bytes", ARR, ""),
    ("an array without elements", ARR, "0000000000000000"),
    ("an array, count 2^64-1", C, "FFFFFFFFFFFFFFFF"),
    ("a tuple without fields", TUP0, ""),
    ("a byte array, no bytes", BYT, ""),
    ("a uint32 array, no bytes", E, ""),
    ("a uint32 array, count 2^62", E, "0000000000000040 78563412"),
    ("a uint64 array, no bytes", A64, ""),
    ("a union without cases, no bytes", D, ""),
    ("a union without cases, tag 0", D, "0000000000000000"),
    ("a union, tag 2, which is none", UNI, "0200000000000000"),
    ("an int32, no bytes", I32, ""),
    ("an int64, no bytes", I64, ""),
];

/// Capacity 0: refusal 8 at the index, before 9, 10 and 11 and behind 1 to 7.
fn no_rows(list: &mut List) {
    for (name, grammar, record) in WITHOUT_ROWS {
        let (grammar, record) = (numbers::<u32>(grammar), hex(record));
        for capacity in [0, 1] {
            let name = format!("capacity {capacity}, {name}");
            both(list, &name, &grammar, &record, Some(capacity));
        }
    }
    let b = numbers::<u32>(B);
    for capacity in [0, 1] {
        let name = format!("capacity {capacity}, no bytes, index 0");
        list.add(&name, check_val_with(&b, &[], 0, capacity));
    }
    for (name, index) in [
        ("0", 0),
        ("2", 2),
        ("3, the length", 3),
        ("4, above the length", 4),
        ("2^32", 1 << 32),
        ("2^63", 1 << 63),
        ("2^64-1", usize::MAX),
    ] {
        for capacity in [0, 1] {
            let name = format!("capacity {capacity}, three bytes, index {name}");
            list.add(&name, check_val_with(&b, &[0; 3], index, capacity));
        }
    }
    for index in [200, 300, 40_000, 70_000] {
        let name = format!("capacity 0, index {} of 70,000", grouped(index as u64));
        list.add(&name, check_val_with(&b, &[0; 70_000], index, 0));
    }
    let most = vec![0; MAX_BYTES];
    for capacity in [0, 1] {
        let name = format!("capacity {capacity}, the end of 1,048,576 bytes");
        list.add(&name, check_val_with(&b, &most, MAX_BYTES, capacity));
    }
    for (number, grammar) in REFUSED_GRAMMARS {
        let grammar = numbers::<u32>(grammar);
        let name = format!("capacity 0, {number} before 8");
        both(list, &name, &grammar, &[], Some(0));
        let name = format!("capacity 4,096, {number}");
        both(list, &name, &grammar, &[], Some(4_096));
        let name = format!("capacity 0, {number} before 7 and 8");
        list.add(&name, check_val_with(&grammar, &[], 1, 0));
    }
    let (bad, long) = (numbers::<u32>(KIND_11), vec![0; MAX_BYTES + 1]);
    let name = "capacity 0, the grammar before 6 and 8";
    list.add(name, check_whole_with(&bad, &long, 0));
    list.add(name, check_val_with(&bad, &long, 0, 0));
    for capacity in [0, 1, 4_097] {
        let name = format!("capacity {capacity}, 1,048,577 bytes");
        list.add(&name, check_whole_with(&b, &long, capacity));
        list.add(&name, check_val_with(&b, &long, 0, capacity));
        let name = format!("capacity {capacity}, 6 before 7");
        list.add(&name, check_val_with(&b, &long, MAX_BYTES + 2, capacity));
    }
    let longest = counted(MAX_BYTES as u64 - 8, &vec![0x5a; MAX_BYTES - 8]);
    for capacity in [0, 1] {
        let name = format!("capacity {capacity}, a record of 1,048,576 bytes");
        let case = check_whole_with(&numbers::<u32>(BYT), &longest, capacity);
        list.add(&name, case);
    }
}

/// A field that finds no row, of each kind and without bytes, or with a tag that is none: 8 before 9
/// and 10.
fn no_row_for_a_field(list: &mut List) {
    for kind in 0..=10 {
        let grammar = match kind {
            3 => table(&[[4, 0, 1], [3, 1, 1], [0, 0, 0]], &[1, 2]),
            _ => table(&[[4, 0, 1], [kind, 0, 0]], &[1]),
        };
        let name = format!("capacity 1, a field of kind {kind}, no bytes");
        both(list, &name, &grammar, &[], Some(1));
    }
    let union = table(&[[4, 0, 1], [8, 0, 0]], &[1]);
    for capacity in [1, 2] {
        let name = format!("capacity {capacity}, a field with a tag that is none");
        both(list, &name, &union, &[0; 8], Some(capacity));
    }
}

/// Each capacity up to one more than the rows of a record.
fn each_capacity(list: &mut List) {
    for (name, grammar, record, rows) in [
        ("example A", A, A_RECORD, 3),
        ("example A, 3 of 14 bytes", A, "070000", 3),
        ("example A, 4 of 14 bytes", A, "07000000", 3),
        (
            "example A, 13 of 14 bytes",
            A,
            "07000000 0200000000000000 41",
            3,
        ),
        ("an array of cases", MIX, MIX_RECORD, 7),
        (
            "an array of arrays",
            ARRAYS,
            "0200000000000000 0200000000000000 0100000000000000",
            6,
        ),
        (
            "a case of an array",
            ARRAY_IN_CASE,
            "0000000000000000 0200000000000000",
            4,
        ),
    ] {
        let (grammar, record) = (numbers::<u32>(grammar), hex(record));
        for capacity in 0..=rows + 1 {
            let name = format!("capacity {capacity}, {name}");
            both(list, &name, &grammar, &record, Some(capacity));
        }
    }
    let name = "capacity 3, example A, no bytes";
    list.add(name, check_whole_with(&numbers::<u32>(A), &[], 3));
}

/// Name, grammar and record of readings with so many rows: these run out at a field, at the value
/// of a case, at a count and in a nested array, or there are just enough.
fn running_out(rows: u64) -> [(&'static str, &'static str, Vec<u8>); 20] {
    let number = [7, 0, 0, 0];
    let behind_number = |count| [&number, &counted(count, &[])[..]].concat();
    let in_case = |count| counted(0, &counted(count, &[]));
    // The array, its two arrays and the 2 elements of the first have 5 rows.
    let last_array = |count| counted(2, &[counted(2, &[]), counted(count, &[])].concat());
    [
        (
            "a row for the number behind an array",
            ARRAY_FIRST,
            counted(rows - 3, &number),
        ),
        (
            "no row for the number behind an array",
            ARRAY_FIRST,
            counted(rows - 2, &number),
        ),
        (
            "too few rows for an array before a number",
            ARRAY_FIRST,
            counted(rows - 1, &number),
        ),
        (
            "a row for the number behind an array, which lacks a byte",
            ARRAY_FIRST,
            counted(rows - 3, &number[..3]),
        ),
        (
            "no row for the number behind an array, which lacks a byte",
            ARRAY_FIRST,
            counted(rows - 2, &number[..3]),
        ),
        (
            "the rows for an array behind a number",
            ARRAY_LAST,
            behind_number(rows - 3),
        ),
        (
            "too few rows for an array behind a number",
            ARRAY_LAST,
            behind_number(rows - 2),
        ),
        (
            "the rows for an array in a case",
            ARRAY_IN_CASE,
            in_case(rows - 2),
        ),
        (
            "too few rows for an array in a case",
            ARRAY_IN_CASE,
            in_case(rows - 1),
        ),
        (
            "the rows for the last of two arrays",
            ARRAYS,
            last_array(rows - 5),
        ),
        (
            "too few rows for the last of two arrays",
            ARRAYS,
            last_array(rows - 4),
        ),
        (
            "the rows for an array whose elements are missing",
            ARR,
            counted(rows - 1, &[]),
        ),
        (
            "too few rows for an array whose elements are missing",
            ARR,
            counted(rows, &[]),
        ),
        (
            "the rows for an array and a byte more",
            C,
            counted(rows - 1, &[0]),
        ),
        (
            "too few rows for an array and a byte more",
            C,
            counted(rows, &[0]),
        ),
        (
            "a count above the rows that is cut",
            C,
            counted(rows, &[])[..7].to_vec(),
        ),
        (
            "no row for the value of a case behind an array",
            ARRAY_AND_CASE,
            counted(rows - 3, &counted(0, &[])),
        ),
        (
            "a tag that is none, whose value would find no row",
            ARRAY_AND_CASE,
            counted(rows - 3, &counted(1, &[])),
        ),
        (
            "a tag that is none at a union that finds no row",
            ARRAY_AND_CASE,
            counted(rows - 2, &counted(1, &[])),
        ),
        (
            "no row for a tuple without fields behind an array",
            ARRAY_AND_TUPLE,
            counted(rows - 2, &[]),
        ),
    ]
}

/// Rows that run out: at 1,024 with none named, and at those and others that are named.
fn rows_run_out(list: &mut List) {
    for (name, rows, capacity) in [
        ("no capacity named", 1_024, None),
        ("capacity 1,024", 1_024, Some(1_024)),
        ("capacity 1,025", 1_025, Some(1_025)),
        ("capacity 4,095", 4_095, Some(4_095)),
        ("capacity 4,096", 4_096, Some(4_096)),
        ("capacity 2^64-1", 4_096, Some(usize::MAX)),
    ] {
        for (what, grammar, record) in running_out(rows) {
            let (name, grammar) = (format!("{name}, {what}"), numbers::<u32>(grammar));
            both(list, &name, &grammar, &record, capacity);
        }
    }
}

/// Tuples whose fields take all rows, the deepest grammars and those of most values.
fn large_grammars(list: &mut List) {
    for fields in [1_022, 1_023, 1_024] {
        let grammar = table(&[[4, 0, fields], [1, 0, 0]], &vec![1; fields as usize]);
        let record = vec![9; 4 * fields as usize];
        for capacity in [None, Some(1_023), Some(1_024), Some(1_025)] {
            let of = capacity.map_or("no capacity named".to_string(), |capacity| {
                format!("capacity {}", grouped(capacity as u64))
            });
            let name = format!("{of}, a tuple of {} uint32", grouped(fields.into()));
            both(list, &name, &grammar, &record, capacity);
        }
    }
    let wide = table(&[[4, 0, 1_024], [1, 0, 0]], &[1; 1_024]);
    for (of, capacity) in [
        ("no capacity named", None),
        ("capacity 1,025", Some(1_025)),
        ("capacity 4,096", Some(4_096)),
    ] {
        let name = format!("{of}, the last of 1,024 fields lacks a byte");
        both(list, &name, &wide, &[9; 4_095], capacity);
    }
    for (what, kind, own) in [
        ("256 levels of arrays", 3, counted(1, &[])),
        ("256 levels of tuples", 4, vec![]),
        ("256 levels of unions", 8, counted(0, &[])),
    ] {
        let record = [own.repeat(255), vec![7, 0, 0, 0]].concat();
        for capacity in [128, 255, 256] {
            let name = format!("capacity {capacity}, {what}");
            list.add(&name, check_whole_with(&chain(kind), &record, capacity));
        }
        list.add(what, check_whole(&chain(kind), &record));
    }
    for capacity in [256, 1_024, 4_096, usize::MAX] {
        let name = format!("capacity {capacity}, 2^255 leaves, all uint32, no bytes");
        list.add(&name, check_whole_with(&doubling(256, 1), &[], capacity));
        let name = format!("capacity {capacity}, 2^255 leaves, all constants");
        list.add(&name, check_whole_with(&doubling(256, 0), &[], capacity));
    }
    // 2^9 leaves have 1,023 rows, 2^10 have 2,047, 2^11 have 4,095.
    for (nodes, rows) in [(10, 1_023), (11, 2_047), (12, 4_095)] {
        let grammar = doubling(nodes, 1);
        let record = vec![9; 4 * (rows + 1) / 2];
        let name = format!("a tree of {} rows", grouped(rows as u64));
        both(list, &name, &grammar, &record, None);
        for (what, capacity) in [("as many", rows), ("one fewer", rows - 1)] {
            let name = format!("{name}, {what} named");
            both(list, &name, &grammar, &record, Some(capacity));
        }
    }
}

/// The listed readings as checks with the capacity that they have.
fn listed(list: &mut List) {
    for (name, grammar, record, rows) in ACCEPTED {
        let (grammar, record) = (numbers::<u32>(grammar), hex(record));
        let between = [&[0xff, 0xff], &record[..], &[0xee]].concat();
        for (what, capacity) in [("", rows), (", a row missing", rows - 1)] {
            let name = format!("{name}{what}");
            list.add(&name, check_whole_with(&grammar, &record, capacity));
            list.add(&name, check_val_with(&grammar, &between, 2, capacity));
        }
    }
    for &(name, grammar, record, capacity) in WHOLE.iter().chain(&ORDER) {
        let (grammar, record) = (numbers::<u32>(grammar), hex(record));
        both(list, name, &grammar, &record, Some(capacity));
    }
}

/// The cases of the checks' capacities, each once.
pub fn capacities() -> Cases {
    let mut list = List::default();
    rows_of_constants(&mut list);
    no_rows(&mut list);
    no_row_for_a_field(&mut list);
    each_capacity(&mut list);
    rows_run_out(&mut list);
    large_grammars(&mut list);
    listed(&mut list);
    let mut seen: HashSet<Case> = HashSet::new();
    list.0.retain(|(_, case)| seen.insert(case.clone()));
    list.0
}

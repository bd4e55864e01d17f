//! Preview: what a writing would give, and how many bytes of the output it would change.

use std::collections::BTreeSet;

use compare::{chain, Value};

use super::sized::{sized, Bare};
use super::writing::{refusals, value, A_ROWS};
use super::{counted, hex, long, magnitudes, numbers, table, Cases, List, MAX_BYTES};
use super::{A, A64, ARR, A_RECORD, B, BYT, C, E, I32, I64, KIND_11};
use super::{MIX, MIX_RECORD, MIX_ROWS, NUMBERS, TUP0, U32, U64, UNI};

/// The value of example A.
fn example_a() -> Value {
    value(A, A_ROWS, &hex(A_RECORD))
}

/// Adds a preview.
fn add(list: &mut List, name: &str, value: &Value, out: Vec<u8>, index: usize) {
    list.add(name, value.clone().preview_case(out, index));
}

/// The bytes with some of them changed, each in another bit than the next.
fn with_others(bytes: &[u8], places: impl IntoIterator<Item = usize>) -> Vec<u8> {
    let mut bytes = bytes.to_vec();
    for place in places {
        bytes[place] ^= 1 << (place % 8);
    }
    bytes
}

/// Outputs for example A: other bytes, its record at the index and elsewhere, and no room.
fn outputs(list: &mut List) {
    let (a, record) = (example_a(), hex(A_RECORD));
    let before = |behind: &[u8]| [&record[..], behind].concat();
    let behind = |before: &[u8]| [before, &record[..]].concat();
    for (name, out, index) in [
        ("over bytes 00", vec![0; 14], 0),
        ("over bytes 00, index 3", vec![0; 20], 3),
        ("over bytes EE", vec![0xee; 14], 0),
        ("over bytes EE, index 1", vec![0xee; 17], 1),
        ("over its record", record.clone(), 0),
        ("with its record at byte 0, index 1", before(&[0]), 1),
        ("with its record at byte 1, index 0", behind(&[0]), 0),
        ("with its record at byte 0, index 14", before(&[0; 14]), 14),
        ("with its record at byte 14, index 0", behind(&[0; 14]), 0),
        ("over 13 bytes of its record", record[..13].to_vec(), 0),
        ("over its record, index 1", record.clone(), 1),
        ("over its record, index 2^64-1", record.clone(), usize::MAX),
        (
            "over its record, index 2^64-14",
            record.clone(),
            usize::MAX - 13,
        ),
    ] {
        add(list, &format!("example A {name}"), &a, out, index);
    }
    let last = [&record[..13], &[0x43]].concat();
    for (what, out) in [
        ("the last byte", last),
        ("the first byte", with_others(&record, [0])),
        ("the first and the last byte", with_others(&record, [0, 13])),
        ("all bytes but the last", with_others(&record, 0..13)),
        ("all bytes but the first", with_others(&record, 1..14)),
        ("each even byte", with_others(&record, (0..14).step_by(2))),
        ("each odd byte", with_others(&record, (1..14).step_by(2))),
    ] {
        let name = format!("example A over its record, {what} changed");
        add(list, &name, &a, out, 0);
    }
}

/// Values over outputs: name, grammar, rows, store, output, index.
#[rustfmt::skip]
const LISTED: [(&str, &str, &str, &str, &str, usize); 14] = [
    ("no bytes at the end of 2", B, "0 1 0 0 0", "", "0000", 2),
    ("no bytes behind the end of 2", B, "0 1 0 0 0", "", "0000", 3),
    ("no bytes and no output", TUP0, "4 1 0 0 0", "", "", 0),
    ("example H, number 4,294,967,295", U32, "1 1 4294967295 0 4", "", "FFFFFFFF", 0),
    ("a uint32 array, two bytes 00 in its element", E, "6 1 1 0 12", "78563412",
        "01000000 00000000 78003400", 0),
    ("array without elements over a count of 1", ARR, "3 1 0 0 8", "", "0100000000000000", 0),
    ("array of constants over one element more", C, "3 4 3 0 8, 0 1 0 0 0, 0 1 0 0 0, 0 1 0 0 0", "",
        "0400000000000000", 0),
    ("another number than the store's", A, "4 3 2 0 14, 1 1 8 0 4, 5 1 2 12 10", A_RECORD, A_RECORD, 0),
    ("the store in place of the value", BYT, "5 1 2 2 10", "0200 41420000 0000 4142",
        "0200 41420000 0000 4142", 0),
    ("two arrays share bytes of the store", "2, 4 0 2, 5 0 0, 2, 1 1", "4 3 2 0 21, 5 1 3 0 11, 5 1 2 1 10",
        "414243", "0300000000000000 414243 0200000000000000 4143", 0),
    ("words behind 5n are not looked at", U32, "1 1 7 0 4, 9 9 9 9", "", "07000000", 0),
    ("A's rows under the grammar of B", B, A_ROWS, A_RECORD, A_RECORD, 0),
    ("tag at the case count", UNI, "8 2 2 0 12, 1 1 7 0 4", "", "0200000000000000 07000000", 0),
    ("an int32 where a uint32 is wanted", U32, "9 1 7 0 4", "", "07000000", 0),
];

fn listed(list: &mut List) {
    for (name, grammar, rows, store, out, index) in LISTED {
        let value = value(grammar, rows, &hex(store));
        add(list, name, &value, hex(out), index);
    }
    let mut short = example_a();
    short.rows[1] = 2;
    add(list, "13 before 17 of one byte", &short, vec![0], 0);
    let none = Value {
        n: 0,
        ..example_a()
    };
    add(list, "n 0", &none, hex(A_RECORD), 0);
}

/// What a value is, grammar, rows, store, record, and the places of bytes of the record.
type Recorded = (
    &'static str,
    &'static str,
    &'static str,
    &'static str,
    &'static str,
    &'static [usize],
);

/// A value of each kind, and a nested one. The places are the first, the last and one between them
/// of numbers, counts, tags and elements.
#[rustfmt::skip]
const VALUES: [Recorded; 12] = [
    ("constant", B, "0 1 0 0 0", "", "", &[]),
    ("uint32", U32, "1 1 67305985 0 4", "", "01020304", &[0, 1, 3]),
    ("uint64", U64, "2 1 578437695752307201 0 8", "", "0102030405060708", &[0, 4, 7]),
    ("array of uint32 values", ARR, "3 3 2 0 16, 1 1 67305985 0 4, 1 1 134678021 0 4", "",
        "0200000000000000 01020304 05060708", &[0, 4, 7, 8, 12, 15]),
    ("tuple of numbers", NUMBERS, "4 5 4 0 24, 1 1 7 0 4, 2 1 8 0 8, 9 1 9 0 4, 10 1 10 0 8", "",
        "07000000 0800000000000000 09000000 0A00000000000000", &[0, 3, 4, 12, 23]),
    ("byte array", BYT, "5 1 3 1 11", "00414243", "0300000000000000 414243", &[0, 4, 7, 8, 9, 10]),
    ("uint32 array", E, "6 1 2 1 16", "00 01020304 05060708 00",
        "0200000000000000 01020304 05060708", &[0, 4, 7, 8, 12, 15]),
    ("uint64 array", A64, "7 1 1 3 16", "000000 0102030405060708",
        "0100000000000000 0102030405060708", &[0, 4, 7, 8, 12, 15]),
    ("case of a uint32", UNI, "8 2 1 0 12, 1 1 67305985 0 4", "", "0100000000000000 01020304",
        &[0, 4, 7, 8, 11]),
    ("int32 -3", I32, "9 1 4294967293 0 4", "", "FDFFFFFF", &[0, 1, 3]),
    ("int64 -3", I64, "10 1 18446744073709551613 0 8", "", "FDFFFFFFFFFFFFFF", &[0, 4, 7]),
    ("nested", MIX, MIX_ROWS, MIX_RECORD, MIX_RECORD, &[0, 15, 16, 25, 32, 40]),
];

/// Each value over its record, over its record with another byte and over other bytes, between
/// bytes that are not written.
fn each_kind(list: &mut List) {
    for (what, grammar, rows, store, record, places) in VALUES {
        let (value, record) = (value(grammar, rows, &hex(store)), hex(record));
        let mut add_over = |over: &str, held: &[u8]| {
            let out = [&[0x5a; 2], held, &[0x5a]].concat();
            add(list, &format!("{what} over {over}"), &value, out, 2);
        };
        add_over("its record", &record);
        for &place in places {
            let other = with_others(&record, [place]);
            add_over(&format!("its record, byte {place} changed"), &other);
        }
        if !record.is_empty() {
            let others: Vec<u8> = record.iter().map(|&byte| !byte).collect();
            add_over("other bytes", &others);
        }
    }
}

/// A byte array of so many elements 01.
fn ones(count: usize) -> Value {
    value(
        BYT,
        &format!("5 1 {count} 0 {}", 8 + count),
        &vec![1; count],
    )
}

/// Lengths near multiples of 255.
const NEAR_255: [usize; 5] = [254, 255, 256, 510, 511];

/// Records with each remainder by 32, and of lengths near multiples of 255.
fn lengths(list: &mut List) {
    for size in (33..62).chain(NEAR_255) {
        let name = format!("a record of {size} bytes over bytes EE");
        let index = size % 8;
        let out = vec![0xee; index + size];
        add(list, &name, &ones(size - 8), out, index);
    }
    for size in NEAR_255 {
        let name = format!("a record of {size} bytes over itself, the last byte changed");
        let array = ones(size - 8);
        let out = with_others(&long::record(&array), [size - 1]);
        add(list, &name, &array, out, 0);
    }
}

/// Arrays of lengths near multiples of 255.
fn array_lengths(list: &mut List) {
    let arrays = NEAR_255.map(|count| [5, 1, count as u64, 0]);
    let arrays = long::tuple(&arrays, &[1; 511]);
    let mut record = long::record(&arrays);
    let name = |over: &str| format!("arrays of 254, 255, 256, 510 and 511 bytes over {over}");
    let others = vec![0xee; record.len()];
    add(list, &name("bytes EE"), &arrays, others, 0);
    let mut end = 0;
    for count in NEAR_255 {
        end += 8 + count;
        record[end - 1] ^= 1;
    }
    let name = name("their record, the last byte of each changed");
    add(list, &name, &arrays, record, 0);
}

/// Arrays of each kind whose elements hold each byte from 00 to FF.
fn all_bytes(list: &mut List) {
    let store: Vec<u8> = (0..=255).collect();
    let arrays = [[5, 1, 256, 0], [6, 1, 64, 0], [7, 1, 32, 0]];
    let arrays = long::tuple(&arrays, &store);
    let mut record = long::record(&arrays);
    let name = |what: &str| format!("all bytes in arrays of each kind over their record, {what}");
    let out = with_others(&record, 0..record.len());
    add(list, &name("a bit of each changed"), &arrays, out, 0);
    for array in record.chunks_mut(264) {
        array.swap(28, 29);
    }
    let name = name("two neighbours of each array exchanged");
    add(list, &name, &arrays, record, 0);
}

/// The greatest sizes, the longest outputs and the deepest value.
fn limits(list: &mut List) {
    let most = MAX_BYTES - 8;
    let (largest, record) = (ones(most), counted(most as u64, &vec![1; most]));
    let name = |over: &str| format!("1,048,568 bytes over {over}");
    add(list, &name("bytes 00"), &largest, vec![0; MAX_BYTES], 0);
    add(list, &name("their record"), &largest, record.clone(), 0);
    let other = with_others(&record, [MAX_BYTES - 1]);
    add(
        list,
        &name("their record, the last byte changed"),
        &largest,
        other,
        0,
    );
    let out = vec![1; MAX_BYTES + 1_000_000];
    add(
        list,
        &name("bytes 01, index 1,000,000"),
        &largest,
        out,
        1_000_000,
    );
    add(
        list,
        "1,048,569 bytes",
        &ones(most + 1),
        vec![0; MAX_BYTES],
        0,
    );
    let (a, end) = (example_a(), MAX_BYTES + 14);
    add(
        list,
        "example A at byte 1,048,576",
        &a,
        vec![0; end],
        MAX_BYTES,
    );
    add(
        list,
        "example A at byte 1,048,576, a byte of room is missing",
        &a,
        vec![0; end - 1],
        MAX_BYTES,
    );
    let levels = (2..=256).rev().map(|span| [8, span, 0, 0]);
    let rows: Vec<Bare> = levels.chain([[1, 1, 0x0702, 0]]).collect();
    let deepest = Value {
        grammar: chain(8),
        rows: sized(&rows),
        n: 256,
        store: vec![],
    };
    add(list, "255 levels of cases", &deepest, vec![0; 2_044], 0);
}

/// Both sides of the borders of the grammar's refusals.
fn grammars(list: &mut List) {
    let constant = value(B, "0 1 0 0 0", &[]);
    let empty = value(TUP0, "4 1 0 0 0", &[]);
    let single = value(TUP0, "4 2 1 0 0, 0 1 0 0 0", &[]);
    let child = |child| table(&[[4, 0, 1], [0; 3]], &[child]);
    for (name, value, grammar) in [
        ("N 256", &constant, table(&[[0; 3]; 256], &[])),
        ("N 257", &constant, table(&[[0; 3]; 257], &[])),
        ("M 1,024", &constant, table(&[[0; 3]], &[0; 1_024])),
        ("M 1,025", &constant, table(&[[0; 3]], &[0; 1_025])),
        ("kind 11 in the grammar", &constant, numbers(KIND_11)),
        ("first at M", &empty, table(&[[4, 1, 0]], &[0])),
        ("first above M", &empty, table(&[[4, 2, 0]], &[0])),
        ("child that is the next node", &single, child(1)),
        ("child that is its node", &single, child(0)),
    ] {
        let value = Value {
            grammar,
            ..value.clone()
        };
        add(list, name, &value, vec![0xee; 4], 1);
    }
}

/// The previews of writings, one for each name.
fn of_writings(list: &mut List, writings: Cases) {
    let mut names = BTreeSet::new();
    for (name, case) in &writings {
        let (_, name) = name.split_once(": ").expect("a call and a name");
        let (value, out, index) = Value::of(case).expect("a writing");
        if names.insert(name) {
            add(list, name, &value, out, index);
        }
    }
}

/// The cases of preview.
pub fn preview() -> Cases {
    let mut list = List::default();
    outputs(&mut list);
    listed(&mut list);
    each_kind(&mut list);
    limits(&mut list);
    lengths(&mut list);
    array_lengths(&mut list);
    all_bytes(&mut list);
    grammars(&mut list);
    of_writings(&mut list, refusals());
    list.0.extend(magnitudes::preview());
    list.0.extend(long::preview());
    list.0
}

//! The writers. Each byte of an output is EE before the call.

use compare::{Case, Value};

use super::sized::{sized, Bare};
use super::{hex, numbers, table, Cases, List, MAX_BYTES, ROW_WORDS};
use super::{long, magnitudes, row_sizes};
use super::{A, A64, ARR, A_RECORD, B, BYT, C, D, E, MIX, MIX_RECORD, MIX_ROWS, PAIR};
use super::{I32, I64, NUMBERS, REFUSED_GRAMMARS, TUP0, U32, U64, UNI};

/// A value of as many rows as are given.
pub(super) fn value(grammar: &str, rows: &str, store: &[u8]) -> Value {
    let rows: Vec<u64> = numbers(rows);
    Value {
        grammar: numbers(grammar),
        n: rows.len() / ROW_WORDS,
        rows,
        store: store.to_vec(),
    }
}

/// The writing of a value at byte 0 to an output of so many bytes.
pub(super) fn marshall(value: &Value, length: usize) -> Case {
    value.clone().marshall_case(vec![0xee; length])
}

/// The writing of a value at an index of an output of so many bytes.
pub(super) fn marshall_val(value: &Value, length: usize, index: usize) -> Case {
    let out = vec![0xee; length];
    value.clone().marshall_val_case(out, index)
}

/// Name, grammar, rows, store in hexadecimal, size.
const ACCEPTED: [(&str, &str, &str, &str, usize); 26] = [
    ("example G, 14 bytes", A, A_ROWS, A_RECORD, 14),
    (
        "example H, number 4,294,967,295",
        U32,
        "1 1 4294967295 0 4",
        "",
        4,
    ),
    ("constant", B, "0 1 0 0 0", "", 0),
    ("uint64", U64, "2 1 578437695752307201 0 8", "", 8),
    ("uint64 2^64-1", U64, "2 1 18446744073709551615 0 8", "", 8),
    (
        "array of constants",
        C,
        "3 4 3 0 8, 0 1 0 0 0, 0 1 0 0 0, 0 1 0 0 0",
        "",
        8,
    ),
    (
        "array of uint32 values",
        ARR,
        "3 3 2 0 16, 1 1 5 0 4, 1 1 6 0 4",
        "",
        16,
    ),
    ("array without elements", ARR, "3 1 0 0 8", "", 8),
    ("tuple without fields", TUP0, "4 1 0 0 0", "", 0),
    (
        "tuple of one node twice",
        PAIR,
        "4 3 2 0 8, 1 1 1 0 4, 1 1 2 0 4",
        "",
        8,
    ),
    (
        "byte array from the middle of the store",
        BYT,
        "5 1 2 1 10",
        "01020304",
        10,
    ),
    (
        "byte array without elements at the store's end",
        BYT,
        "5 1 0 4 8",
        "01020304",
        8,
    ),
    (
        "uint32 array without alignment",
        E,
        "6 1 1 1 12",
        "0102030405",
        12,
    ),
    ("uint64 array", A64, "7 1 1 0 16", "0102030405060708", 16),
    ("case 0, a constant", UNI, "8 2 0 0 8, 0 1 0 0 0", "", 8),
    ("case 1, a uint32", UNI, "8 2 1 0 12, 1 1 9 0 4", "", 12),
    ("nested", MIX, MIX_ROWS, MIX_RECORD, 41),
    (
        "words behind 5n are not looked at",
        U32,
        "1 1 7 0 4, 9 9 9 9",
        "",
        4,
    ),
    (
        "two arrays share bytes of the store",
        "2, 4 0 2, 5 0 0, 2, 1 1",
        "4 3 2 0 21, 5 1 3 0 11, 5 1 2 1 10",
        "414243",
        21,
    ),
    (
        "array of arrays of constants",
        "3, 3 0 1, 3 1 1, 0 0 0, 2, 1 2",
        "3 5 2 0 24, 3 3 2 0 8, 0 1 0 0 0, 0 1 0 0 0, 3 1 0 0 8",
        "",
        24,
    ),
    ("int32", I32, "9 1 67305985 0 4", "", 4),
    ("int32 -1", I32, "9 1 4294967295 0 4", "", 4),
    ("int64", I64, "10 1 578437695752307201 0 8", "", 8),
    ("int64 -1", I64, "10 1 18446744073709551615 0 8", "", 8),
    (
        "array of int32 values",
        "2, 3 0 1, 9 0 0, 1, 1",
        "3 3 2 0 16, 9 1 4294967294 0 4, 9 1 6 0 4",
        "",
        16,
    ),
    (
        "tuple of numbers of four kinds",
        NUMBERS,
        "4 5 4 0 24, 1 1 7 0 4, 2 1 8 0 8, 9 1 9 0 4, 10 1 10 0 8",
        "",
        24,
    ),
];

/// The rows of example A.
pub(super) const A_ROWS: &str = "4 3 2 0 14, 1 1 7 0 4, 5 1 2 12 10";

/// Adds each accepted value to both calls: at byte 0 of an output of its size, and between other
/// bytes.
fn accepted(list: &mut List) {
    for (name, grammar, rows, store, size) in ACCEPTED {
        let value = value(grammar, rows, &hex(store));
        list.add(name, marshall(&value, size));
        list.add(name, marshall_val(&value, size + 3, 1));
    }
}

/// Refused with 15, with room enough: name, grammar, rows.
const NOT_IN_GRAMMAR: [(&str, &str, &str); 21] = [
    ("a uint32 where a constant is wanted", B, "1 1 0 0 4"),
    ("a uint64 where a uint32 is wanted", U32, "2 1 7 0 8"),
    (
        "a byte array where a uint32 array is wanted",
        E,
        "5 1 0 0 8",
    ),
    ("a tuple where an array is wanted", ARR, "4 1 0 0 0"),
    ("an array where a tuple is wanted", TUP0, "3 1 0 0 8"),
    ("one field, two wanted", PAIR, "4 2 1 0 4, 1 1 7 0 4"),
    (
        "three fields, two wanted",
        PAIR,
        "4 4 3 0 12, 1 1 7 0 4, 1 1 7 0 4, 1 1 7 0 4",
    ),
    ("tag at the case count", UNI, "8 2 2 0 8, 0 1 0 0 0"),
    ("tag 2^64-1", UNI, "8 2 18446744073709551615 0 8, 0 1 0 0 0"),
    ("a tag of a union without cases", D, "8 2 0 0 8, 0 1 0 0 0"),
    ("a constant under tag 1", UNI, "8 2 1 0 8, 0 1 0 0 0"),
    (
        "the second element is another kind",
        ARR,
        "3 3 2 0 20, 1 1 5 0 4, 2 1 6 0 8",
    ),
    (
        "the first of two in preorder",
        PAIR,
        "4 3 2 0 16, 2 1 5 0 8, 2 1 6 0 8",
    ),
    (
        "the parent before its child",
        PAIR,
        "3 3 2 0 20, 1 1 5 0 4, 2 1 6 0 8",
    ),
    ("an int32 where a uint32 is wanted", U32, "9 1 5 0 4"),
    ("a uint32 where an int32 is wanted", I32, "1 1 5 0 4"),
    ("an int64 where a uint64 is wanted", U64, "10 1 5 0 8"),
    ("a uint64 where an int64 is wanted", I64, "2 1 5 0 8"),
    ("an int64 where an int32 is wanted", I32, "10 1 5 0 8"),
    ("an int32 where an int64 is wanted", I64, "9 1 5 0 4"),
    (
        "an int32 as the second of two uint32",
        PAIR,
        "4 3 2 0 8, 1 1 5 0 4, 9 1 5 0 4",
    ),
];

/// Two faults in one writing, to an output without room: name, grammar, rows, n.
const ORDER: [(&str, &str, &str, usize); 18] = [
    ("1 before 15", "0, 0 0 0, 0", "1 1 7 0 4", 1),
    ("2 before 15", "1, 0 0 0, 1", "1 1 7 0 4", 1),
    ("5 before 15, example F", "1, 4 0 1, 1, 0", "1 1 7 0 4", 1),
    ("12 before 13", U32, "11 1 0 0 8", 2),
    ("12 before 15 and 17", U32, "2 1 7 0 8", 0),
    ("13 before 14 of one row", U32, "5 2 9 0 17, 0 1 0 0 0", 2),
    (
        "the first row's 14 before a later row's 13",
        U32,
        "4 3 2 0 17, 5 1 1 0 9, 11 1 0 0 8",
        3,
    ),
    ("13 before 15 of one row", B, "1 1 4294967296 0 4", 1),
    (
        "a later row's 13 before row 0's 15",
        B,
        "4 2 1 0 8, 11 1 0 0 8",
        2,
    ),
    (
        "a later row's 14 before row 0's 15",
        B,
        "4 2 1 0 9, 5 1 1 0 9",
        2,
    ),
    (
        "13 of a missing child before 15",
        B,
        "4 2 2 0 0, 0 1 0 0 0",
        2,
    ),
    (
        "13 of all rows before 15",
        PAIR,
        "4 3 2 0 12, 2 1 7 0 8, 1 1 4294967296 0 4",
        3,
    ),
    ("13 before 17", U32, "1 1 4294967296 0 4", 1),
    ("14 before 17", BYT, "5 1 1 0 9", 1),
    ("15 before 17", ARR, "3 3 2 0 20, 1 1 5 0 4, 2 1 6 0 8", 3),
    ("15 before 17, tag", UNI, "8 2 2 0 8, 0 1 0 0 0", 2),
    ("13 before 15 of an int32", U32, "9 1 4294967296 0 4", 1),
    ("15 before 17, an int32", U32, "9 1 5 0 4", 1),
];

fn not_in_grammar(list: &mut List) {
    for (name, grammar, rows) in NOT_IN_GRAMMAR {
        list.add(name, marshall(&value(grammar, rows, &[]), 40));
    }
}

fn refused(list: &mut List) {
    for (name, grammar, rows, n) in ORDER {
        let mut value = value(grammar, rows, &[]);
        value.n = n;
        list.add(name, marshall(&value, 0));
        list.add(name, marshall_val(&value, 5, 6));
    }
    let mut cut = value(A, A_ROWS, &hex(A_RECORD));
    cut.store.pop();
    list.add(
        "the store of example A without its last byte",
        marshall(&cut, 14),
    );
    let largest = value(U32, "1 1 4294967296 0 4", &[]);
    list.add("example H, number 4,294,967,296", marshall(&largest, 4));
}

/// Refusal 17: the output's length and the index.
fn room(list: &mut List) {
    let a = value(A, A_ROWS, &hex(A_RECORD));
    list.add("example G, 13 bytes", marshall(&a, 13));
    list.add("no output", marshall(&a, 0));
    list.add("room up to the end", marshall_val(&a, 16, 2));
    list.add("a byte of room is missing", marshall_val(&a, 15, 2));
    list.add("index above the length", marshall_val(&a, 14, 15));
    let one = value(U32, "1 1 7 0 4", &[]);
    list.add("index 2^64-1", marshall_val(&one, 5, usize::MAX));
    list.add(
        "index 2^64-4, which wraps to 0",
        marshall_val(&one, 5, usize::MAX - 3),
    );
    list.add("index 2^63", marshall_val(&one, 5, 1 << 63));
    let constant = value(B, "0 1 0 0 0", &[]);
    list.add("no bytes at the length", marshall_val(&constant, 5, 5));
    list.add("no bytes above the length", marshall_val(&constant, 5, 6));
}

/// Byte arrays of this value's record size, in a store of zeros.
fn bytes_of_size(size: usize) -> Value {
    let length = size - 8;
    value(BYT, &format!("5 1 {length} 0 {size}"), &vec![0; length])
}

/// The greatest sizes.
fn sizes(list: &mut List) {
    let (most, more) = (bytes_of_size(MAX_BYTES), bytes_of_size(MAX_BYTES + 1));
    list.add("size 1,048,576", marshall(&most, MAX_BYTES));
    let case = marshall_val(&most, MAX_BYTES + 2, 1);
    list.add("size 1,048,576, index 1", case);
    let case = marshall(&most, MAX_BYTES - 1);
    list.add("size 1,048,576, a byte of room is missing", case);
    list.add("size 1,048,577", marshall(&more, MAX_BYTES + 1));
    list.add("16 before 17", marshall(&more, 0));
    list.add("16 before 17", marshall_val(&more, 9, usize::MAX));
    let mut other = more;
    other.grammar = numbers(U32);
    list.add("15 before 16", marshall(&other, 0));
    let two_arrays = "2, 4 0 2, 5 0 0, 2, 1 1";
    for (name, rows, store) in [
        (
            "13 before 16",
            "4 3 2 0 1048592, 5 1 1048576 0 1048584, 11 1 0 0 8",
            MAX_BYTES,
        ),
        (
            "14 before 16",
            "4 3 2 0 1048592, 5 1 1048576 0 1048584, 6 1 0 1048577 8",
            MAX_BYTES,
        ),
        (
            "1,048,584 bytes from a store of 524,288",
            "4 3 2 0 1048584, 5 1 524288 0 524296, 5 1 524280 8 524288",
            524_288,
        ),
    ] {
        let value = value(two_arrays, rows, &vec![0; store]);
        list.add(name, marshall(&value, 0));
    }
}

/// The longest stores.
fn stores(list: &mut List) {
    let mut long = value(B, "0 1 0 0 0", &vec![0; MAX_BYTES]);
    list.add("a store of 1,048,576 bytes", marshall(&long, 0));
    long.store.push(0);
    list.add("a store of 1,048,577 bytes", marshall(&long, 0));
    list.add("6 before 17", marshall_val(&long, 0, 1));
    for (name, rows) in [
        ("6 before 13", "11 1 0 0 8"),
        ("6 before 14", "5 1 0 1048578 8"),
        ("6 before 15", "2 1 7 0 8"),
    ] {
        long.rows = numbers(rows);
        list.add(name, marshall(&long, 0));
    }
    let mut large = bytes_of_size(MAX_BYTES + 1);
    large.store = long.store.clone();
    list.add("6 before 16", marshall(&large, 0));
    long.n = 0;
    list.add("6 before 12", marshall(&long, 0));
}

/// Each refusal of the grammar meets each of those behind it but 15, which speaks of a grammar.
fn grammars(list: &mut List) {
    let (constant, most) = ("0 1 0 0 0", vec![0; MAX_BYTES]);
    let long = [&most[..], &[0]].concat();
    let faults: [(u32, &str, usize, &[u8]); 6] = [
        (6, constant, 1, &long),
        (12, constant, 0, &[]),
        (13, "11 1 0 0 8", 1, &[]),
        (14, "5 1 1 0 9", 1, &[]),
        (16, "5 1 1048576 0 1048584", 1, &most),
        (17, constant, 1, &[]),
    ];
    for (number, grammar) in REFUSED_GRAMMARS {
        for (behind, rows, n, store) in faults {
            let name = format!("{number} before {behind}");
            let value = Value {
                n,
                ..value(grammar, rows, store)
            };
            list.add(&name, marshall_val(&value, 5, 6));
            if store.is_empty() && behind < 17 {
                list.add(&name, marshall(&value, 5));
            }
        }
    }
}

/// The most rows.
fn many_rows(list: &mut List) {
    let value = |grammar, root: Bare, child: Bare| {
        let n = root[1] as usize;
        let mut rows = vec![root];
        rows.resize(n, child);
        Value {
            grammar,
            rows: sized(&rows),
            n,
            store: vec![],
        }
    };
    let tuple = table(&[[4, 0, 1_024], [1, 0, 0]], &[1; 1_024]);
    let wide = value(tuple, [4, 1_025, 1_024, 0], [1, 1, 0x0707_0707, 0]);
    list.add("a tuple of 1,024 uint32", marshall(&wide, 4_096));
    let constants = |rows| value(numbers(C), [3, rows, rows - 1, 0], [0, 1, 0, 0]);
    list.add("n 4,096", marshall(&constants(4_096), 8));
    list.add("n 4,097", marshall(&constants(4_097), 8));
    let arrays = table(&[[3, 0, 1], [5, 0, 0]], &[1]);
    let large = Value {
        store: vec![0; MAX_BYTES],
        ..value(arrays, [3, 4_097, 4_096, 0], [5, 1, MAX_BYTES as u64, 0])
    };
    list.add("12 before 16", marshall(&large, 0));
}

/// Refused writings, those with 15 alone left out, and those that just pass.
pub(super) fn refusals() -> Cases {
    let mut list = List::default();
    refused(&mut list);
    room(&mut list);
    sizes(&mut list);
    stores(&mut list);
    grammars(&mut list);
    many_rows(&mut list);
    list.0.extend(row_sizes::writing());
    list.0
}

/// The cases of the writers.
pub fn writing() -> Cases {
    let mut list = List::default();
    accepted(&mut list);
    not_in_grammar(&mut list);
    list.0.extend(refusals());
    list.0.extend(magnitudes::writing());
    list.0.extend(long::writing());
    list.0
}

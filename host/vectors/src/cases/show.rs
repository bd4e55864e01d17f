//! Inputs of the show program.

use compare::show_input;

use super::magnitudes;
use super::{counted, hex, numbers};
use super::{A, ARR, A_RECORD, B, BYT, C, D, E, I32, I64, KIND_11, MIX, MIX_RECORD, TUP0, U64};

/// Name, grammar and record of inputs that are laid out as wanted.
const LAID_OUT: [(&str, &str, &str); 29] = [
    ("example A", A, A_RECORD),
    (
        "example A without its last byte",
        A,
        "07000000 0200000000000000 41",
    ),
    ("example B", B, ""),
    ("example B, one byte", B, "00"),
    ("example C", C, "0300000000000000"),
    ("example C, count 2^64-1", C, "FFFFFFFFFFFFFFFF"),
    ("example C, seven bytes", C, "03000000000000"),
    ("example C, 1,024 rows", C, "FF03000000000000"),
    ("example C, 1,025 rows", C, "0004000000000000"),
    ("example D, tag 0", D, "0000000000000000"),
    ("example D, no bytes", D, ""),
    ("example E", E, "0100000000000000 78563412"),
    ("example E, count 2^62", E, "0000000000000040 78563412"),
    ("example F", "1, 4 0 1, 1, 0", ""),
    ("a uint64 of 20 digits", U64, "FFFFFFFFFFFFFFFF"),
    ("nested", MIX, MIX_RECORD),
    ("no words", "", ""),
    ("the word of M is missing", "1", ""),
    ("kind 11", KIND_11, ""),
    ("first of a uint32", "1, 1 1 0, 1, 0", ""),
    ("example I, int32 -1", I32, "FFFFFFFF"),
    ("example I, the least int32", I32, "00000080"),
    ("example I, int32, 3 bytes", I32, "FFFFFF"),
    ("example I, int64 -1", I64, "FFFFFFFFFFFFFFFF"),
    ("first of an int32", "1, 9 1 0, 1, 5", ""),
    ("array without elements", ARR, "0000000000000000"),
    ("byte array without elements", BYT, "0000000000000000"),
    ("tuple without fields", TUP0, ""),
    (
        "fields without elements and fields",
        "4, 4 0 3, 3 3 1, 5 0 0, 4 0 0, 4, 1 2 3 3",
        "0000000000000000 0000000000000000",
    ),
];

/// Inputs in hexadecimal.
const BYTES: [(&str, &str); 8] = [
    ("no bytes", ""),
    ("W is cut", "0D0000"),
    ("W 1,795", "03070000"),
    ("W 2^32-1", "FFFFFFFF 00000000"),
    ("R is cut", "00000000 000000"),
    ("the record is a byte short", "00000000 02000000 00"),
    ("19 before 1", "00000000 00000000 00"),
    ("R 2^32-1", "00000000 FFFFFFFF 00"),
];

/// Inputs with their names.
pub fn show() -> Vec<(String, Vec<u8>)> {
    let input = |grammar, record: &[u8]| show_input(&numbers::<u32>(grammar), record);
    let mut list = Vec::new();
    let mut add = |name: &str, input| list.push((format!("show: {name}"), input));
    for (name, grammar, record) in LAID_OUT {
        add(name, input(grammar, &hex(record)));
    }
    for (name, bytes) in BYTES {
        add(name, hex(bytes));
    }
    let a = input(A, &hex(A_RECORD));
    add("example A and a byte more", [&a[..], &[0]].concat());
    add("example A, the input cut by a byte", a[..73].to_vec());
    let more = |grammar, record| [input(grammar, record), vec![0]].concat();
    add("19 before 3", more(KIND_11, &[]));
    add("19 before 5", more("1, 4 0 1, 1, 0", &[]));
    add("19 before 10", more(D, &[0; 8]));
    add("19 before 11", more(B, &[0]));
    add(
        "65,536 bytes",
        input(BYT, &counted(65_500, &[0x5a; 65_500])),
    );
    add(
        "65,537 bytes",
        input(BYT, &counted(65_501, &[0x5a; 65_501])),
    );
    let mut words = vec![0; 1_794];
    (words[0], words[769]) = (256, 1_024);
    add("1,794 words", show_input(&words, &[]));
    words.push(0);
    add("1,795 words", show_input(&words, &[]));
    list.extend(magnitudes::show());
    list
}

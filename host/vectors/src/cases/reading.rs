//! The readers. Each word of lent rows is 99 before the call.

use std::collections::BTreeSet;

use compare::{doubling, own_bytes, Case};

use super::capacities::capacities;
use super::long::{fields_of_each_kind, record};
use super::magnitudes;
use super::{counted, grouped, hex, numbers, table, Cases, List, MAX_BYTES, ROW_WORDS};
use super::{A, A64, ARR, A_RECORD, B, BYT, C, D, E, I32, I64, KIND_11, MIX, MIX_RECORD, NUMBERS};
use super::{PAIR, REFUSED_GRAMMARS, TUP0, U32, U64, UNI};

/// A whole reading with so many words lent.
fn demarshall(grammar: &[u32], record: &[u8], words: usize) -> Case {
    Case::Demarshall {
        grammar: grammar.to_vec(),
        record: record.to_vec(),
        rows: vec![99; words],
    }
}

/// A reading from an index on with so many words lent.
fn parse_val(grammar: &[u32], record: &[u8], index: usize, words: usize) -> Case {
    Case::ParseVal {
        grammar: grammar.to_vec(),
        record: record.to_vec(),
        index,
        rows: vec![99; words],
    }
}

pub(super) fn check_whole(grammar: &[u32], record: &[u8]) -> Case {
    Case::CheckWhole {
        grammar: grammar.to_vec(),
        record: record.to_vec(),
    }
}

pub(super) fn check_val(grammar: &[u32], record: &[u8], index: usize) -> Case {
    Case::CheckVal {
        grammar: grammar.to_vec(),
        record: record.to_vec(),
        index,
    }
}

pub(super) fn check_whole_with(grammar: &[u32], record: &[u8], capacity: usize) -> Case {
    Case::CheckWholeWith {
        grammar: grammar.to_vec(),
        record: record.to_vec(),
        capacity,
    }
}

pub(super) fn check_val_with(
    grammar: &[u32],
    record: &[u8],
    index: usize,
    capacity: usize,
) -> Case {
    Case::CheckValWith {
        grammar: grammar.to_vec(),
        record: record.to_vec(),
        index,
        capacity,
    }
}

/// Name, grammar, record and its number of rows.
pub(super) const ACCEPTED: [(&str, &str, &str, usize); 31] = [
    ("example A", A, A_RECORD, 3),
    ("example B, constant", B, "", 1),
    ("example C, array of 3 constants", C, "0300000000000000", 4),
    ("example E, uint32 array", E, "0100000000000000 78563412", 1),
    ("uint32", U32, "01020304", 1),
    ("uint32 2^32-1", U32, "FFFFFFFF", 1),
    ("uint64", U64, "0102030405060708", 1),
    ("uint64 2^64-1", U64, "FFFFFFFFFFFFFFFF", 1),
    (
        "array of two uint32",
        ARR,
        "0200000000000000 05000000 06000000",
        3,
    ),
    ("array without elements", ARR, "0000000000000000", 1),
    ("tuple without fields", TUP0, "", 1),
    ("tuple of one node twice", PAIR, "01000000 02000000", 3),
    ("byte array without elements", BYT, "0000000000000000", 1),
    ("byte array", BYT, "0300000000000000 010203", 1),
    (
        "uint32 array of two",
        E,
        "0200000000000000 01000000 FFFFFFFF",
        1,
    ),
    ("uint32 array without elements", E, "0000000000000000", 1),
    ("uint64 array", A64, "0100000000000000 0001000000000000", 1),
    ("uint64 array without elements", A64, "0000000000000000", 1),
    ("case 0, a constant", UNI, "0000000000000000", 2),
    ("case 1, a uint32", UNI, "0100000000000000 09000000", 2),
    (
        "tuple of an array of cases and a byte array",
        MIX,
        MIX_RECORD,
        7,
    ),
    (
        "array of arrays of constants",
        "3, 3 0 1, 3 1 1, 0 0 0, 2, 1 2",
        "0200000000000000 0200000000000000 0000000000000000",
        5,
    ),
    ("example I, int32 -1", I32, "FFFFFFFF", 1),
    ("example I, the least int32", I32, "00000080", 1),
    ("example I, int64 -1", I64, "FFFFFFFFFFFFFFFF", 1),
    ("int32", I32, "01020304", 1),
    ("int64", I64, "0102030405060708", 1),
    (
        "array of two int32",
        "2, 3 0 1, 9 0 0, 1, 1",
        "0200000000000000 FEFFFFFF 06000000",
        3,
    ),
    (
        "tuple of numbers of four kinds",
        NUMBERS,
        "07000000 0800000000000000 09000000 0A00000000000000",
        5,
    ),
    (
        "case 1, an int64",
        "3, 8 0 2, 9 0 0, 10 0 0, 2, 1 2",
        "0100000000000000 0000000000000080",
        2,
    ),
    (
        "case 0, an array of two uint64",
        "2, 8 0 1, 7 0 0, 1, 1",
        "0000000000000000 0200000000000000 0100000000000000 0200000000000000",
        2,
    ),
];

/// Adds each accepted record to the four calls that name no capacity: whole with more words lent than
/// needed, and between other bytes from an index on.
fn accepted(list: &mut List) {
    for (name, grammar, record, rows) in ACCEPTED {
        let (grammar, record) = (numbers::<u32>(grammar), hex(record));
        let between = [&[0xff, 0xff], &record[..], &[0xee]].concat();
        list.add(name, demarshall(&grammar, &record, ROW_WORDS * rows + 6));
        list.add(name, parse_val(&grammar, &between, 2, ROW_WORDS * rows));
        list.add(name, check_whole(&grammar, &record));
        list.add(name, check_val(&grammar, &between, 2));
    }
}

/// Name, grammar, record and capacity of whole readings.
pub(super) const WHOLE: [(&str, &str, &str, usize); 58] = [
    (
        "example A without its last byte",
        A,
        "07000000 0200000000000000 41",
        3,
    ),
    (
        "example A and a byte more",
        A,
        "07000000 0200000000000000 4142 00",
        3,
    ),
    ("example B, one byte", B, "00", 1),
    ("example C, capacity 3", C, "0300000000000000", 3),
    ("example C, capacity 4", C, "0300000000000000", 4),
    ("example C, count 2^64-1", C, "FFFFFFFFFFFFFFFF", 4),
    ("example C, count 2^63", C, "0000000000000080", 4),
    ("example C, seven bytes", C, "03000000000000", 4),
    ("example D, tag 0", D, "0000000000000000", 4),
    ("example D, tag 2^64-1", D, "FFFFFFFFFFFFFFFF", 4),
    ("example D, no bytes", D, "", 4),
    ("example E, count 2^62", E, "0000000000000040 78563412", 1),
    ("uint32, 3 bytes", U32, "010203", 1),
    ("uint64, 7 bytes", U64, "01020304050607", 1),
    ("uint32, a byte left over", U32, "01000000 FF", 1),
    ("tuple without fields, a byte left over", TUP0, "00", 1),
    ("the count of a byte array is cut", BYT, "01000000000000", 1),
    (
        "an element of a byte array is missing",
        BYT,
        "0400000000000000 010203",
        1,
    ),
    ("byte array, count 2^64-1", BYT, "FFFFFFFFFFFFFFFF", 1),
    ("byte array, count 2^64-8", BYT, "F8FFFFFFFFFFFFFF 00", 1),
    (
        "a byte of the last uint32 is missing",
        E,
        "0200000000000000 01000000 FFFFFF",
        1,
    ),
    (
        "uint32 array, count 2^62+1",
        E,
        "0100000000000040 78563412",
        1,
    ),
    (
        "uint32 array, count 2^64-1",
        E,
        "FFFFFFFFFFFFFFFF 78563412",
        1,
    ),
    (
        "a byte of the last uint64 is missing",
        A64,
        "0100000000000000 00010000000000",
        1,
    ),
    (
        "uint64 array, count one too many",
        A64,
        "0200000000000000 0100000000000000",
        1,
    ),
    (
        "uint64 array, count 2^61",
        A64,
        "0000000000000020 0100000000000000",
        1,
    ),
    (
        "array elements end before the last byte",
        E,
        "0100000000000000 78563412 00",
        1,
    ),
    ("tag at the case count", UNI, "0200000000000000", 2),
    (
        "tag below the case count",
        UNI,
        "0100000000000000 00000000",
        2,
    ),
    ("tag 2^64-1", UNI, "FFFFFFFFFFFFFFFF", 2),
    ("tag 2^32, whose low half is 0", UNI, "0000000001000000", 2),
    ("the tag is cut", UNI, "00000000000000", 2),
    ("the value of a case is missing", UNI, "0100000000000000", 2),
    ("capacity 0", B, "", 0),
    ("no row for the second field", PAIR, "01000000 02000000", 2),
    ("no row for the value of a case", UNI, "0000000000000000", 1),
    ("no row left in a nested array", MIX, MIX_RECORD, 5),
    ("no row left at the last field", MIX, MIX_RECORD, 6),
    ("as many rows as needed", MIX, MIX_RECORD, 7),
    (
        "count at the rows left",
        ARR,
        "0200000000000000 05000000 06000000",
        3,
    ),
    (
        "count above the rows left",
        ARR,
        "0200000000000000 05000000 06000000",
        2,
    ),
    (
        "count 4,095: no row is missing, element 0 has no bytes",
        ARR,
        "FF0F000000000000",
        4_096,
    ),
    (
        "count 4,096: no row for the last",
        ARR,
        "0010000000000000",
        4_096,
    ),
    (
        "more rows than 4,096 lent are none",
        C,
        "0010000000000000",
        4_097,
    ),
    ("4,096 rows", C, "FF0F000000000000", 4_096),
    ("4,095 rows for 4,096", C, "FF0F000000000000", 4_095),
    ("4,097 rows for 4,096", C, "FF0F000000000000", 4_097),
    ("no row for a tuple without fields", TUP0, "", 0),
    (
        "a count above the rows left in a case",
        "3, 8 0 1, 3 1 1, 0 0 0, 2, 1 2",
        "0000000000000000 FF0F000000000000",
        4_096,
    ),
    (
        "no row for a uint32 behind 3 constants",
        "4, 4 0 2, 3 2 1, 1 0 0, 0 0 0, 3, 1 2 3",
        "0300000000000000 07000000",
        5,
    ),
    ("example I, int32, 3 bytes", I32, "FFFFFF", 1),
    ("example I, int64, 7 bytes", I64, "FFFFFFFFFFFFFF", 1),
    ("int32, no bytes", I32, "", 1),
    ("int64, no bytes", I64, "", 1),
    ("int32, a byte left over", I32, "01000000 FF", 1),
    ("int64, a byte left over", I64, "0100000000000000 FF", 1),
    (
        "a byte of an int32 is missing behind two numbers",
        NUMBERS,
        "07000000 0800000000000000 090000",
        5,
    ),
    (
        "no row for an int64 behind three numbers",
        NUMBERS,
        "07000000 0800000000000000 09000000 0A00000000000000",
        4,
    ),
];

/// Two faults in one whole reading: name, grammar, record and capacity.
pub(super) const ORDER: [(&str, &str, &str, usize); 24] = [
    ("no row before 9", U32, "", 0),
    ("no row before 9 of an int32", I32, "", 0),
    ("no row before 9 of an int64", I64, "", 0),
    ("no row before 9, inside a tuple", PAIR, "01000000", 2),
    (
        "no row before 9, at the value of a case",
        UNI,
        "0100000000000000 FF",
        1,
    ),
    (
        "the first field's 9 before the second's 8",
        PAIR,
        "010000",
        2,
    ),
    (
        "a count above the rows before the elements' 10",
        "2, 3 0 1, 8 0 0, 1, 1",
        "0500000000000000 0000000000000000",
        2,
    ),
    ("no row before 11", B, "00", 0),
    ("no row before 10", D, "0000000000000000", 0),
    ("9 before a count above the rows", ARR, "FFFF", 1),
    ("9 before 10, a cut tag", D, "FFFFFFFFFFFFFF", 1),
    (
        "a count above the rows before the elements' 9",
        ARR,
        "8813000000000000",
        4_096,
    ),
    (
        "a count above the rows before 11",
        C,
        "0200000000000000 00",
        2,
    ),
    (
        "a count above the bytes is no 8",
        BYT,
        "8813000000000000",
        1,
    ),
    (
        "10 before the case value finds no row",
        UNI,
        "0200000000000000",
        1,
    ),
    ("10 before 11", UNI, "0200000000000000 FF", 2),
    ("9 before 11", E, "0000000000000040 78563412 00", 1),
    (
        "the first field's 9 before the second's 10",
        "3, 4 0 2, 5 0 0, 8 0 0, 2, 1 2",
        "0900000000000000 0100000000000000",
        3,
    ),
    (
        "the first field's 10 before the second's 9",
        "3, 4 0 2, 8 2 0, 5 0 0, 2, 1 2",
        "0000000000000000 0900000000000000",
        3,
    ),
    (
        "the first field's 10 before the second's 8",
        "4, 4 0 2, 8 0 0, 3 2 1, 0 0 0, 3, 1 2 3",
        "0000000000000000 0900000000000000",
        3,
    ),
    (
        "the first field's 8 before the second's 10",
        "4, 4 0 2, 3 2 1, 8 0 0, 0 0 0, 3, 1 2 3",
        "0900000000000000 0000000000000000",
        3,
    ),
    (
        "the first field's 8 before the second's 9",
        "4, 4 0 2, 3 2 1, 1 0 0, 0 0 0, 3, 1 2 3",
        "0900000000000000",
        3,
    ),
    (
        "the second field's 10, the first is sound",
        "3, 4 0 2, 5 0 0, 8 0 0, 2, 1 2",
        "0000000000000000 0100000000000000",
        3,
    ),
    (
        "the element's 10 before the next element's 9",
        "3, 3 0 1, 8 1 1, 0 0 0, 2, 1 2",
        "0200000000000000 0100000000000000",
        3,
    ),
];

/// Adds listed whole readings with as many words as the capacity needs.
fn whole(list: &mut List, listed: &[(&str, &str, &str, usize)]) {
    for &(name, grammar, record, capacity) in listed {
        let (grammar, record) = (numbers::<u32>(grammar), hex(record));
        list.add(name, demarshall(&grammar, &record, ROW_WORDS * capacity));
    }
}

/// Adds the listed whole readings from byte 3 on, behind three others.
fn from_an_index(list: &mut List) {
    for &(name, grammar, record, capacity) in WHOLE.iter().chain(&ORDER) {
        let (grammar, record) = (numbers::<u32>(grammar), hex(record));
        let behind = [&[0xff; 3], &record[..]].concat();
        let name = format!("{name}, from an index");
        list.add(&name, parse_val(&grammar, &behind, 3, ROW_WORDS * capacity));
    }
}

/// Values in one another whose sizes need more than 8 and more than 16 bits, from an index on.
fn great_sizes(list: &mut List) {
    for (kind, width) in [(5, 1), (6, 4), (7, 8)] {
        let nodes = [[4, 0, 1], [3, 1, 1], [8, 2, 1], [kind, 0, 0]];
        let grammar = table(&nodes, &[1, 2, 3]);
        for bytes in [304, 70_000] {
            let array = counted(bytes / width, &vec![0x5a; bytes as usize]);
            let value = counted(1, &counted(0, &array));
            let record = [&[0xff; 3], &value[..], &[0xff; 2]].concat();
            let name = format!("{bytes} bytes of kind {kind} in a case in an array in a tuple");
            list.add(&name, parse_val(&grammar, &record, 3, 4 * ROW_WORDS + 1));
        }
    }
}

/// Words that are no multiple of 5, and words behind the rows.
fn words_lent(list: &mut List) {
    let (a, record) = (numbers::<u32>(A), hex(A_RECORD));
    // With 10 and with 15 words it is among the front parts.
    for words in (0..=20).filter(|words| ![10, 15].contains(words)) {
        let name = format!("example A, {words} words");
        list.add(&name, demarshall(&a, &record, words));
    }
    let (c, three) = (numbers::<u32>(C), counted(3, &[]));
    for words in [0, 4, 16, 19] {
        let name = format!("{words} words for 4 rows");
        list.add(&name, demarshall(&c, &three, words));
        list.add(&name, parse_val(&c, &three, 0, words));
    }
    for words in [21, 24, 25, 100] {
        let name = format!("{words} words for 4 rows");
        list.add(&name, demarshall(&c, &three, words));
    }
    let most = counted(4_095, &[]);
    for words in [16_384, 20_479] {
        let name = format!("{} words for 4,096 rows", grouped(words as u64));
        list.add(&name, demarshall(&c, &most, words));
    }
    let constant = numbers::<u32>(B);
    list.add(
        "65,536 words for 1 row",
        parse_val(&constant, &[], 0, 65_536),
    );
    for words in [4, 5, 9] {
        let name = format!("{words} words for 1 row");
        list.add(&name, demarshall(&constant, &[], words));
    }
}

/// The index of a reading that does not start at byte 0.
fn indices(list: &mut List) {
    let (a, b, u32s) = (numbers::<u32>(A), numbers::<u32>(B), numbers::<u32>(U32));
    let record = [&[0xff, 0xff], &hex(A_RECORD)[..]].concat();
    list.add("offsets count from byte 0", parse_val(&a, &record, 2, 17));
    list.add(
        "9 at the value's start",
        parse_val(&a, &record[..15], 2, 3 * ROW_WORDS),
    );
    list.add("9 at the value's start", check_val(&a, &record[..15], 2));
    for (name, index) in [
        ("index at the length of a constant", 1),
        ("index above the length", 2),
        ("index 2^64-1", usize::MAX),
        ("index 2^63", 1 << 63),
        ("index 2^32", 1 << 32),
    ] {
        list.add(name, parse_val(&b, &[0], index, ROW_WORDS));
        list.add(name, check_val(&b, &[0], index));
    }
    let union = numbers::<u32>(UNI);
    let tag = [&[0xff], &counted(2, &[])[..]].concat();
    list.add(
        "10 at the value's start",
        parse_val(&union, &tag, 1, 2 * ROW_WORDS),
    );
    list.add("10 at the value's start", check_val(&union, &tag, 1));
    list.add(
        "bytes behind the value are ignored",
        parse_val(&b, &[0], 0, ROW_WORDS),
    );
    list.add("bytes behind the value are ignored", check_val(&b, &[0], 0));
    for (name, index) in [
        ("a uint32 at the last index", 1),
        ("a uint32 one byte further", 2),
        ("a uint32 at the length", 5),
        ("a uint32 above the length", 6),
        ("a uint32 at 2^64-4, which wraps to 0", usize::MAX - 3),
    ] {
        list.add(name, parse_val(&u32s, &[1, 2, 3, 4, 5], index, ROW_WORDS));
        list.add(name, check_val(&u32s, &[1, 2, 3, 4, 5], index));
    }
}

/// The refusals of the grammar, of the record's length and of the index meet each other and those
/// of the values.
fn before_the_values(list: &mut List) {
    let (b, bad) = (numbers::<u32>(B), numbers::<u32>(KIND_11));
    let long = vec![0; MAX_BYTES + 1];
    for (number, grammar) in REFUSED_GRAMMARS {
        let grammar = numbers::<u32>(grammar);
        let name = format!("{number} before 8 and 11");
        list.add(&name, demarshall(&grammar, &[0], 0));
        let name = format!("{number} before 7 and 8");
        list.add(&name, parse_val(&grammar, &[], 1, 0));
        let name = format!("{number} before 7");
        list.add(&name, check_val(&grammar, &[], 1));
        let name = format!("{number} before 6");
        list.add(&name, check_whole(&grammar, &long));
    }
    list.add(
        "the grammar before 6, 7 and 8",
        parse_val(&bad, &long, MAX_BYTES + 2, 0),
    );
    list.add("6 before 7 and 8", parse_val(&b, &long, MAX_BYTES + 2, 0));
    list.add("6 before 7", check_val(&b, &long, usize::MAX));
    list.add("6 before 8", demarshall(&b, &long, 0));
    list.add("6 before 11", check_whole(&b, &long));
    list.add("11 at rest_index", check_whole(&b, &[0]));
    let (union, array) = (numbers::<u32>(D), numbers::<u32>(BYT));
    list.add(
        "6 before 9",
        demarshall(&array, &vec![0xff; MAX_BYTES + 1], ROW_WORDS),
    );
    list.add("6 before 10", demarshall(&union, &long, ROW_WORDS));
    list.add("6 before 9", check_val(&array, &long, MAX_BYTES));
    list.add("6 before 10", check_val(&union, &long, 1));
    let counted = counted(u64::MAX, &long);
    list.add("6 before 8", check_whole(&numbers::<u32>(C), &counted));
    list.add("6 before 9", check_whole(&array, &counted));
    list.add("6 before 10", check_whole(&union, &counted));
    list.add("7 before 8", parse_val(&b, &[], 1, 0));
    list.add(
        "7 before 9",
        parse_val(&numbers::<u32>(U32), &[], 1, ROW_WORDS),
    );
}

/// The longest records, and those a byte longer.
fn longest(list: &mut List) {
    let most = counted(MAX_BYTES as u64 - 8, &vec![0x5a; MAX_BYTES - 8]);
    let more = counted(MAX_BYTES as u64 - 7, &vec![0x5a; MAX_BYTES - 7]);
    let bytes = numbers::<u32>(BYT);
    list.add(
        "a record of 1,048,576 bytes",
        demarshall(&bytes, &most, ROW_WORDS),
    );
    list.add(
        "a record of 1,048,577 bytes",
        demarshall(&bytes, &more, ROW_WORDS),
    );
    list.add("a record of 1,048,576 bytes", check_whole(&bytes, &most));
    list.add("a record of 1,048,577 bytes", check_whole(&bytes, &more));
    let constant = numbers::<u32>(B);
    let (most, more) = (vec![0; MAX_BYTES], vec![0; MAX_BYTES + 1]);
    list.add(
        "the end of 1,048,576 bytes",
        parse_val(&constant, &most, MAX_BYTES, ROW_WORDS),
    );
    list.add(
        "the end of 1,048,577 bytes",
        parse_val(&constant, &more, MAX_BYTES + 1, ROW_WORDS),
    );
    list.add(
        "the end of 1,048,576 bytes",
        check_val(&constant, &most, MAX_BYTES),
    );
    list.add(
        "the end of 1,048,577 bytes",
        check_val(&constant, &more, MAX_BYTES + 1),
    );
}

/// Wide and shared grammars.
fn large_grammars(list: &mut List) {
    let wide = table(&[[4, 0, 1_024], [1, 0, 0]], &[1; 1_024]);
    let record = vec![9; 4_096];
    list.add(
        "a tuple of 1,024 uint32",
        demarshall(&wide, &record, ROW_WORDS * 1_025),
    );
    list.add(
        "a tuple of 1,024 uint32 and 1,024 rows",
        demarshall(&wide, &record, ROW_WORDS * 1_024),
    );
    list.add(
        "2^255 leaves, all constants",
        check_whole(&doubling(256, 0), &[]),
    );
    list.add(
        "2^255 leaves, all uint32",
        check_whole(&doubling(256, 1), &[0; 7]),
    );
    list.add(
        "2^255 leaves, all empty unions",
        check_whole(&doubling(256, 8), &[0; 8]),
    );
    let most = table(&[[0, 0, 0]; 256], &[]);
    list.add("example F, N 256", demarshall(&most, &[], ROW_WORDS));
}

/// The deepest grammars.
fn deep_grammars(list: &mut List) {
    for (name, kind, own) in [
        ("256 levels of arrays", 3, counted(1, &[])),
        ("256 levels of tuples", 4, vec![]),
        ("256 levels of unions", 8, counted(0, &[])),
    ] {
        let record = [own.repeat(255), vec![7, 0, 0, 0]].concat();
        let chain = compare::chain(kind);
        list.add(name, demarshall(&chain, &record, ROW_WORDS * 256));
        let cut = &record[..record.len() - 1];
        list.add(&format!("{name}, cut"), check_whole(&chain, cut));
    }
}

/// A tuple of a uint32 and a union without cases, which no value belongs to.
const NO_VALUE: &str = "3, 4 0 2, 1 0 0, 8 0 0, 2, 1 2";

/// Name, grammar, record and capacity: example A with as many rows as it needs; it and two front
/// parts with one row fewer; no bytes of example C; and bytes of a grammar that has no record.
const FRONT_PARTS: [(&str, &str, &str, usize); 8] = [
    ("example A, 3 rows", A, A_RECORD, 3),
    ("example A, capacity 2", A, A_RECORD, 2),
    (
        "example A, the first 4 of 14 bytes, capacity 2",
        A,
        "07000000",
        2,
    ),
    (
        "example A, the first 3 of 14 bytes, capacity 2",
        A,
        "070000",
        2,
    ),
    ("example C, no bytes", C, "", 4),
    (
        "a uint32 and a union without cases, no bytes",
        NO_VALUE,
        "",
        3,
    ),
    (
        "a uint32 and a union without cases, 4 bytes",
        NO_VALUE,
        "07000000",
        3,
    ),
    (
        "a uint32 and a union without cases, 12 bytes",
        NO_VALUE,
        "07000000 0000000000000000",
        3,
    ),
];

/// Front parts of a record with values of each kind: one that ends before each value that has bytes,
/// and some that end within it.
fn fields_cut(list: &mut List) {
    let value = fields_of_each_kind();
    let (grammar, record) = (&value.grammar, record(&value));
    let (name, words) = ("fields of each kind", ROW_WORDS * value.n);
    list.add(name, demarshall(grammar, &record, words));
    list.add(name, check_whole(grammar, &record));
    let mut lengths = BTreeSet::new();
    for own in own_bytes(&value.rows) {
        if own.start < own.head_end {
            let middle = (own.start + own.head_end) / 2;
            lengths.extend([own.start, middle, own.head_end - 1]);
        }
        if own.head_end < own.end {
            let middle = (own.head_end + own.end) / 2;
            lengths.extend([own.head_end, middle, own.end - 1]);
        }
    }
    let of_first = |length| format!("{name}, the first {length} of {} bytes", record.len());
    for length in lengths {
        let case = demarshall(grammar, &record[..length], words);
        list.add(&of_first(length), case);
    }
    for length in [0, 20, 70, 99, 130] {
        let case = check_whole(grammar, &record[..length]);
        list.add(&of_first(length), case);
    }
}

/// Front parts of records.
fn front_parts(list: &mut List) {
    let (a, record) = (numbers::<u32>(A), hex(A_RECORD));
    // Without its last byte it is among the whole readings.
    for length in 0..13 {
        let name = format!("example A, the first {length} of 14 bytes");
        list.add(&name, demarshall(&a, &record[..length], ROW_WORDS * 3));
    }
    for length in [0, 3, 4, 13] {
        let name = format!("example A, the first {length} of 14 bytes");
        list.add(&name, check_whole(&a, &record[..length]));
    }
    whole(list, &FRONT_PARTS);
    list.add("example D, no bytes", check_whole(&numbers::<u32>(D), &[]));
    fields_cut(list);
}

/// The cases of the readers.
pub fn reading() -> Cases {
    let mut list = List::default();
    accepted(&mut list);
    whole(&mut list, &WHOLE);
    whole(&mut list, &ORDER);
    from_an_index(&mut list);
    great_sizes(&mut list);
    words_lent(&mut list);
    indices(&mut list);
    before_the_values(&mut list);
    longest(&mut list);
    large_grammars(&mut list);
    deep_grammars(&mut list);
    front_parts(&mut list);
    list.0.extend(magnitudes::reading());
    list.0.extend(capacities());
    list.0
}

//! Same route.

use compare::{chain_and_number, Case};

use super::magnitudes;
use super::{counted, hex, numbers, table, Cases, List, MAX_BYTES, REFUSED_GRAMMARS};
use super::{A, A64, ARR, A_RECORD, B, BYT, C, D, E, I32, I64, KIND_11, MIX, MIX_RECORD, NUMBERS};
use super::{PAIR, TUP0, U32, U64, UNI};

/// Adds the comparison of two records under a table.
fn add_under(list: &mut List, name: &str, grammar: Vec<u32>, first: &[u8], second: &[u8]) {
    list.add(
        name,
        Case::SameRoute {
            grammar,
            first: first.to_vec(),
            second: second.to_vec(),
        },
    );
}

/// Adds the comparison of two records.
fn add(list: &mut List, name: &str, grammar: &str, first: &[u8], second: &[u8]) {
    add_under(list, name, numbers(grammar), first, second);
}

/// Example A with another number, another element, both, without its last byte and with one more.
const A_NUMBER: &str = "08000000 0200000000000000 4142";
const A_ELEMENT: &str = "07000000 0200000000000000 4143";
const A_BOTH: &str = "08000000 0200000000000000 4143";
const A_CUT: &str = "07000000 0200000000000000 41";
const A_MORE: &str = "07000000 0200000000000000 4142 00";

/// A tuple of one uint32.
const ONE: &str = "2, 4 0 1, 1 0 0, 1, 1";
/// A tuple of three uint32, one node used three times.
const THREE: &str = "2, 4 0 3, 1 0 0, 3, 1 1 1";
/// A tuple of two byte arrays, one node used twice.
const BYTES_TWICE: &str = "2, 4 0 2, 5 0 0, 2, 1 1";
/// A tuple of a byte array and a uint32.
const BYTES_FIRST: &str = "3, 4 0 2, 5 0 0, 1 0 0, 2, 1 2";
/// A tuple of a tuple of two uint32 and a uint32, and the same fields exchanged.
const PAIR_FIRST: &str = "3, 4 0 2, 4 2 2, 1 0 0, 4, 1 2 2 2";
const PAIR_LAST: &str = "3, 4 0 2, 4 2 2, 1 0 0, 4, 2 1 2 2";
/// A tuple of a byte array and a union of two byte arrays, one node used three times.
const UNION_LAST: &str = "3, 4 0 2, 8 2 2, 5 0 0, 4, 2 1 2 2";
/// A tuple of a union of a constant and a uint32, and a uint32.
const UNION_FIRST: &str = "4, 4 0 2, 8 2 2, 1 0 0, 0 0 0, 4, 1 2 3 2";
/// A tuple of an array of constants and a uint32.
const CONSTANTS_FIRST: &str = "4, 4 0 2, 3 2 1, 1 0 0, 0 0 0, 3, 1 2 3";
/// A tuple of two arrays of constants, one node used twice.
const CONSTANTS_TWICE: &str = "3, 4 0 2, 3 2 1, 0 0 0, 3, 1 1 2";

/// Name, grammar, first and second record.
const LISTED: [(&str, &str, &str, &str); 43] = [
    ("example A twice", A, A_RECORD, A_RECORD),
    ("the first field differs", A, A_RECORD, A_NUMBER),
    ("the last element differs", A, A_RECORD, A_ELEMENT),
    ("constants", B, "", ""),
    ("tuples without fields", TUP0, "", ""),
    (
        "equal arrays of constants",
        C,
        "0300000000000000",
        "0300000000000000",
    ),
    (
        "arrays of constants of different length",
        C,
        "0300000000000000",
        "0400000000000000",
    ),
    (
        "uint64 that differ in the greatest byte",
        U64,
        "0000000000000001",
        "0000000000000002",
    ),
    (
        "two fields behind the first exchanged",
        THREE,
        "07000000 01000000 02000000",
        "07000000 02000000 01000000",
    ),
    (
        "one element more, 0",
        E,
        "0100000000000000 05000000",
        "0200000000000000 05000000 00000000",
    ),
    (
        "no element and one",
        BYT,
        "0000000000000000",
        "0100000000000000 00",
    ),
    (
        "the tags differ",
        UNI,
        "0000000000000000",
        "0100000000000000 00000000",
    ),
    (
        "two tags of one node",
        "2, 8 0 2, 1 0 0, 2, 1 1",
        "0000000000000000 07000000",
        "0100000000000000 07000000",
    ),
    ("nested, equal", MIX, MIX_RECORD, MIX_RECORD),
    ("the second record is cut", A, A_RECORD, A_CUT),
    ("the first record is cut", A, A_CUT, A_RECORD),
    ("equal bytes that are refused", A, A_CUT, A_CUT),
    (
        "the first record's 9 before the second's 11",
        A,
        A_CUT,
        A_MORE,
    ),
    (
        "the first record's 11 before the second's 9",
        A,
        A_MORE,
        A_CUT,
    ),
    ("the second record's 11", A, A_RECORD, A_MORE),
    (
        "the first record's 10",
        UNI,
        "0200000000000000",
        "0000000000000000",
    ),
    (
        "the second record's 10",
        UNI,
        "0000000000000000",
        "0200000000000000",
    ),
    (
        "the first record's 10 before the second's 8",
        D,
        "0000000000000000",
        "",
    ),
    (
        "the first record's 8",
        C,
        "0010000000000000",
        "0000000000000000",
    ),
    (
        "the second record's 8",
        C,
        "FF0F000000000000",
        "0010000000000000",
    ),
    (
        "the first record's 8 before the second's 9",
        C,
        "0010000000000000",
        "",
    ),
    ("1 before both records", "0, 0", A_CUT, A_MORE),
    ("2 before both records", "1, 1 0 0", A_CUT, A_MORE),
    ("3 before both records", KIND_11, A_CUT, A_MORE),
    ("4 before both records", "1, 1 1 0, 1, 0", A_CUT, A_MORE),
    ("5 before both records", "1, 4 0 1, 1, 0", A_CUT, A_MORE),
    ("equal uint32", U32, "FFFFFFFF", "FFFFFFFF"),
    ("equal uint64", U64, "FFFFFFFFFFFFFFFF", "FFFFFFFFFFFFFFFF"),
    ("equal int32", I32, "FFFFFFFF", "FFFFFFFF"),
    ("int32 1 and -1", I32, "01000000", "FFFFFFFF"),
    (
        "int32 that differ in the sign alone",
        I32,
        "05000000",
        "05000080",
    ),
    ("equal int64", I64, "FFFFFFFFFFFFFFFF", "FFFFFFFFFFFFFFFF"),
    (
        "int64 1 and -1",
        I64,
        "0100000000000000",
        "FFFFFFFFFFFFFFFF",
    ),
    (
        "int64 that differ in the sign alone",
        I64,
        "0500000000000000",
        "0500000000000080",
    ),
    (
        "5 as a uint32 and as an int32",
        "3, 8 0 2, 1 0 0, 9 0 0, 2, 1 2",
        "0000000000000000 05000000",
        "0100000000000000 05000000",
    ),
    (
        "numbers of four kinds, the last differs",
        NUMBERS,
        "07000000 0800000000000000 09000000 0A00000000000000",
        "07000000 0800000000000000 09000000 0B00000000000000",
    ),
    (
        "the second record's int32 is cut",
        I32,
        "05000000",
        "050000",
    ),
    (
        "a union without cases, equal bytes that are refused",
        D,
        "0000000000000000",
        "0000000000000000",
    ),
];

/// Each kind of root that is no tuple with fields: a grammar, an accepted and a refused record.
pub(super) const ROOTS: [(&str, &str, &str, &str); 11] = [
    ("constant", B, "", "00"),
    ("uint32", U32, "05000000", ""),
    ("uint64", U64, "0500000000000000", "05000000000000"),
    (
        "array",
        ARR,
        "0100000000000000 05000000",
        "0100000000000000 050000",
    ),
    ("tuple without fields", TUP0, "", "00"),
    ("byte array", BYT, "0100000000000000 5A", "0100000000000000"),
    (
        "uint32 array",
        E,
        "0100000000000000 05000000",
        "0100000000000000 050000",
    ),
    (
        "uint64 array",
        A64,
        "0100000000000000 0500000000000000",
        "0100000000000000 05000000000000",
    ),
    (
        "union",
        UNI,
        "0100000000000000 05000000",
        "0100000000000000",
    ),
    ("int32", I32, "FFFFFFFF", "FFFFFF"),
    ("int64", I64, "FFFFFFFFFFFFFFFF", "FFFFFFFFFFFFFF"),
];

/// The root's first field, and what may be taken for it. Name, grammar, first and second record.
const FIRST_FIELDS: [(&str, &str, &str, &str); 52] = [
    (
        "the first field and the last element differ",
        A,
        A_RECORD,
        A_BOTH,
    ),
    (
        "the first of two fields of one node differs",
        PAIR,
        "01000000 02000000",
        "03000000 02000000",
    ),
    (
        "the last of two fields of one node differs",
        PAIR,
        "01000000 02000000",
        "01000000 03000000",
    ),
    (
        "the third of four fields of one node differs",
        "2, 4 0 4, 1 0 0, 4, 1 1 1 1",
        "01000000 02000000 03000000 04000000",
        "01000000 02000000 09000000 04000000",
    ),
    (
        "first fields of 11 and 10 bytes, equal behind them",
        BYTES_FIRST,
        "0300000000000000 58595A 07000000",
        "0200000000000000 4142 07000000",
    ),
    (
        "first fields of 10 and 11 bytes, the number behind them differs",
        BYTES_FIRST,
        "0200000000000000 4142 07000000",
        "0300000000000000 58595A 08000000",
    ),
    (
        "first fields of 8 and 16 bytes, equal behind byte 8",
        BYTES_TWICE,
        "0000000000000000 0800000000000000 0000000000000000",
        "0800000000000000 0800000000000000 0000000000000000",
    ),
    (
        "first fields of 16 and 8 bytes, equal behind byte 8",
        BYTES_TWICE,
        "0800000000000000 0800000000000000 0000000000000000",
        "0000000000000000 0800000000000000 0000000000000000",
    ),
    (
        "a tuple as the first field, both fields in it differ",
        PAIR_FIRST,
        "01000000 02000000 03000000",
        "08000000 09000000 03000000",
    ),
    (
        "a tuple as the first field, the first field in it differs",
        PAIR_FIRST,
        "01000000 02000000 03000000",
        "09000000 02000000 03000000",
    ),
    (
        "a tuple as the first field, the last field in it differs",
        PAIR_FIRST,
        "01000000 02000000 03000000",
        "01000000 09000000 03000000",
    ),
    (
        "a tuple as the first field, the number behind it differs",
        PAIR_FIRST,
        "01000000 02000000 03000000",
        "01000000 02000000 04000000",
    ),
    (
        "tuples of 8 and 9 bytes as the first fields",
        "4, 4 0 2, 4 2 1, 1 0 0, 5 0 0, 3, 1 2 3",
        "0000000000000000 07000000",
        "0100000000000000 5A 07000000",
    ),
    (
        "a tuple as the last field, the first field differs",
        PAIR_LAST,
        "01000000 02000000 03000000",
        "09000000 02000000 03000000",
    ),
    (
        "a tuple as the last field, the first field in it differs",
        PAIR_LAST,
        "01000000 02000000 03000000",
        "01000000 09000000 03000000",
    ),
    (
        "two tags of one node in the first field",
        "3, 4 0 2, 8 2 2, 1 0 0, 4, 1 2 2 2",
        "0000000000000000 05000000 07000000",
        "0100000000000000 05000000 07000000",
    ),
    (
        "tuples of one field that differs",
        ONE,
        "07000000",
        "08000000",
    ),
    (
        "tuples of one field, of 8 and 9 bytes",
        "2, 4 0 1, 5 0 0, 1, 1",
        "0000000000000000",
        "0100000000000000 5A",
    ),
    (
        "tuples of one tuple that differs",
        "3, 4 0 1, 4 1 2, 1 0 0, 3, 1 2 2",
        "01000000 02000000",
        "03000000 04000000",
    ),
    (
        "tuples of one tuple without fields",
        "2, 4 0 1, 4 1 0, 1, 1",
        "",
        "",
    ),
    (
        "a tuple without fields as the first field, the number behind it differs",
        "3, 4 0 2, 4 2 0, 1 0 0, 2, 1 2",
        "07000000",
        "08000000",
    ),
    (
        "the first field of an element differs",
        "3, 3 0 1, 4 1 2, 1 0 0, 3, 1 2 2",
        "0100000000000000 01000000 02000000",
        "0100000000000000 09000000 02000000",
    ),
    (
        "the first field of a case differs",
        "3, 8 0 1, 4 1 2, 1 0 0, 3, 1 2 2",
        "0000000000000000 01000000 02000000",
        "0000000000000000 09000000 02000000",
    ),
    (
        "an element of two uint64, the first differs",
        "3, 3 0 1, 4 1 2, 2 0 0, 3, 1 2 2",
        "0100000000000000 0100000000000000 0200000000000000",
        "0100000000000000 0900000000000000 0200000000000000",
    ),
    (
        "a case of two uint64, the first differs",
        "3, 8 0 1, 4 1 2, 2 0 0, 3, 1 2 2",
        "0000000000000000 0100000000000000 0200000000000000",
        "0000000000000000 0900000000000000 0200000000000000",
    ),
    (
        "the only field of an element differs",
        "3, 3 0 1, 4 1 1, 1 0 0, 2, 1 2",
        "0100000000000000 01000000",
        "0100000000000000 09000000",
    ),
    (
        "the only field of a case differs",
        "3, 8 0 1, 4 1 1, 1 0 0, 2, 1 2",
        "0000000000000000 01000000",
        "0000000000000000 09000000",
    ),
    (
        "the first field of an element behind the first field differs",
        "4, 4 0 2, 3 2 1, 4 3 2, 1 0 0, 5, 3 1 2 3 3",
        "07000000 0100000000000000 01000000 02000000",
        "07000000 0100000000000000 09000000 02000000",
    ),
    (
        "the first field of a case behind the first field differs",
        "4, 4 0 2, 8 2 1, 4 3 2, 1 0 0, 5, 3 1 2 3 3",
        "07000000 0000000000000000 01000000 02000000",
        "07000000 0000000000000000 09000000 02000000",
    ),
    (
        "the first of two bytes differs",
        BYT,
        "0200000000000000 4142",
        "0200000000000000 5842",
    ),
    (
        "the first of two uint64 in an array differs",
        A64,
        "0200000000000000 0100000000000000 0200000000000000",
        "0200000000000000 0900000000000000 0200000000000000",
    ),
    (
        "a first field of the last node",
        "3, 4 0 2, 5 0 0, 1 0 0, 2, 2 1",
        A_RECORD,
        A_NUMBER,
    ),
    (
        "a first field that is not child word 0",
        "3, 4 1 2, 1 0 0, 5 0 0, 3, 2 1 2",
        A_RECORD,
        A_NUMBER,
    ),
    (
        "9 in the first record's first field",
        BYTES_FIRST,
        "0300000000000000 4142",
        "0200000000000000 4142 07000000",
    ),
    (
        "9 in the second record's first field",
        BYTES_FIRST,
        "0200000000000000 4142 07000000",
        "0300000000000000 4142",
    ),
    (
        "9 in the second record's only field",
        ONE,
        "07000000",
        "070000",
    ),
    (
        "9 behind the second record's first field, which differs",
        A,
        A_RECORD,
        "08000000 0200000000000000 41",
    ),
    (
        "10 in the first record's first field",
        UNION_FIRST,
        "0200000000000000 07000000",
        "0000000000000000 07000000",
    ),
    (
        "10 in the second record's first field",
        UNION_FIRST,
        "0000000000000000 07000000",
        "0200000000000000 07000000",
    ),
    (
        "10 in the first record's first field before 9 in the second's",
        UNION_FIRST,
        "0200000000000000 07000000",
        "00000000000000",
    ),
    (
        "10 behind the first record's first field",
        UNION_LAST,
        "0100000000000000 41 0200000000000000",
        "0000000000000000 0000000000000000 0000000000000000",
    ),
    (
        "10 behind the second record's first field",
        UNION_LAST,
        "0100000000000000 41 0000000000000000 0000000000000000",
        "0000000000000000 0200000000000000",
    ),
    (
        "11 behind the first record's only field",
        ONE,
        "07000000 00",
        "07000000",
    ),
    (
        "11 behind the second record's only field",
        ONE,
        "07000000",
        "07000000 00",
    ),
    (
        "11 behind the first record's only field before 9 in the second's",
        ONE,
        "07000000 00",
        "070000",
    ),
    (
        "8 in the first record's first field",
        CONSTANTS_FIRST,
        "FF0F000000000000 07000000",
        "0000000000000000 07000000",
    ),
    (
        "8 in the second record's first field",
        CONSTANTS_FIRST,
        "0000000000000000 07000000",
        "FF0F000000000000 07000000",
    ),
    (
        "4,096 rows, most in the first field",
        CONSTANTS_FIRST,
        "FD0F000000000000 07000000",
        "0000000000000000 07000000",
    ),
    (
        "4,097 rows, most in the first field",
        CONSTANTS_FIRST,
        "FE0F000000000000 07000000",
        "0000000000000000 07000000",
    ),
    (
        "4,097 rows of the second record, most in the first field",
        CONSTANTS_FIRST,
        "FD0F000000000000 07000000",
        "FE0F000000000000 07000000",
    ),
    (
        "4,096 rows, half of them in the first field",
        CONSTANTS_TWICE,
        "FF07000000000000 FE07000000000000",
        "0000000000000000 FE07000000000000",
    ),
    (
        "4,097 rows of the second record, half of them in the first field",
        CONSTANTS_TWICE,
        "0000000000000000 FF07000000000000",
        "FF07000000000000 FF07000000000000",
    ),
];

/// Each kind as that of a first field before a uint32: a grammar, and the bytes of two such fields,
/// which differ where the kind has more than one value.
const KINDS: [(&str, &str, &str, &str); 11] = [
    ("constant", "3, 4 0 2, 0 0 0, 1 0 0, 2, 1 2", "", ""),
    (
        "uint32",
        "3, 4 0 2, 1 0 0, 1 0 0, 2, 1 2",
        "01000000",
        "02000000",
    ),
    (
        "uint64",
        "3, 4 0 2, 2 0 0, 1 0 0, 2, 1 2",
        "0000000000000001",
        "0000000000000002",
    ),
    (
        "array",
        "3, 4 0 2, 3 2 1, 1 0 0, 3, 1 2 2",
        "0100000000000000 05000000",
        "0200000000000000 05000000 06000000",
    ),
    (
        "tuple",
        PAIR_FIRST,
        "01000000 02000000",
        "02000000 01000000",
    ),
    (
        "byte array",
        BYTES_FIRST,
        "0200000000000000 4142",
        "0300000000000000 58595A",
    ),
    (
        "uint32 array",
        "3, 4 0 2, 6 0 0, 1 0 0, 2, 1 2",
        "0200000000000000 05000000 06000000",
        "0100000000000000 05000000",
    ),
    (
        "uint64 array",
        "3, 4 0 2, 7 0 0, 1 0 0, 2, 1 2",
        "0000000000000000",
        "0100000000000000 0500000000000000",
    ),
    (
        "union",
        UNION_FIRST,
        "0000000000000000",
        "0100000000000000 05000000",
    ),
    (
        "int32",
        "3, 4 0 2, 9 0 0, 1 0 0, 2, 1 2",
        "FFFFFFFF",
        "05000080",
    ),
    (
        "int64",
        "3, 4 0 2, 10 0 0, 1 0 0, 2, 1 2",
        "FFFFFFFFFFFFFFFF",
        "0500000000000080",
    ),
];

/// Each kind but the constant and the uint32 as that of a field behind a byte array: a grammar, and
/// the bytes of two such fields, which differ.
const BEHIND: [(&str, &str, &str, &str); 9] = [
    (
        "uint64",
        "3, 4 0 2, 5 0 0, 2 0 0, 2, 1 2",
        "0000000000000001",
        "0000000000000002",
    ),
    (
        "array",
        "3, 4 0 2, 3 2 1, 5 0 0, 3, 2 1 2",
        "0100000000000000 0100000000000000 42",
        "0200000000000000 0100000000000000 42 0000000000000000",
    ),
    (
        "tuple",
        "3, 4 0 2, 4 2 1, 5 0 0, 3, 2 1 2",
        "0100000000000000 42",
        "0100000000000000 43",
    ),
    (
        "byte array",
        BYTES_TWICE,
        "0100000000000000 42",
        "0100000000000000 43",
    ),
    (
        "uint32 array",
        "3, 4 0 2, 5 0 0, 6 0 0, 2, 1 2",
        "0100000000000000 07000000",
        "0100000000000000 07000080",
    ),
    (
        "uint64 array",
        "3, 4 0 2, 5 0 0, 7 0 0, 2, 1 2",
        "0100000000000000 0700000000000000",
        "0100000000000000 0700000000000080",
    ),
    (
        "union",
        UNION_LAST,
        "0000000000000000 0100000000000000 42",
        "0100000000000000 0100000000000000 42",
    ),
    (
        "int32",
        "3, 4 0 2, 5 0 0, 9 0 0, 2, 1 2",
        "FFFFFFFF",
        "FFFFFF7F",
    ),
    (
        "int64",
        "3, 4 0 2, 5 0 0, 10 0 0, 2, 1 2",
        "FFFFFFFFFFFFFFFF",
        "FFFFFFFFFFFFFF7F",
    ),
];

/// Tuples of many uint32, one of which differs.
fn many_fields(list: &mut List) {
    for (count, many) in [(256, "256"), (1_024, "1,024")] {
        let grammar = table(&[[4, 0, count as u32], [1, 0, 0]], &vec![1; count]);
        let first = vec![5; 4 * count];
        for (which, field) in [("first", 0), ("second", 1), ("last", count - 1)] {
            let mut second = first.clone();
            second[4 * field] = 6;
            let name = format!("the {which} of {many} fields differs");
            add_under(list, &name, grammar.clone(), &first, &second);
        }
    }
}

/// Records of 1,048,576 bytes and of one more, most of them behind the first field or in it.
fn long_fields(list: &mut List) {
    let bytes = |count: usize| counted(count as u64, &vec![0x5a; count]);
    let [seven, eight] = [7u32, 8].map(u32::to_le_bytes);
    let behind = |number: &[u8]| [number, &bytes(MAX_BYTES - 12)].concat();
    let before = |number: &[u8], count: usize| [&bytes(count), number].concat();
    let mut last_byte = behind(&eight);
    last_byte[MAX_BYTES - 1] = 0x5b;
    let (most, none) = (before(&seven, MAX_BYTES - 12), before(&seven, 0));
    let long = before(&seven, MAX_BYTES - 11);
    let listed: [(&str, &str, &[u8], &[u8]); 6] = [
        (
            "1,048,576 bytes, the first field differs",
            A,
            &behind(&seven),
            &behind(&eight),
        ),
        (
            "1,048,576 bytes, the first field and the last byte differ",
            A,
            &behind(&seven),
            &last_byte,
        ),
        (
            "first fields of 1,048,572 and 8 bytes",
            BYTES_FIRST,
            &most,
            &none,
        ),
        (
            "first fields of 1,048,572 and 8 bytes, the number behind them differs",
            BYTES_FIRST,
            &most,
            &before(&eight, 0),
        ),
        (
            "6 by the first record's first field",
            BYTES_FIRST,
            &long,
            &none,
        ),
        (
            "6 by the second record's first field",
            BYTES_FIRST,
            &none,
            &long,
        ),
    ];
    for (name, grammar, first, second) in listed {
        add(list, name, grammar, first, second);
    }
}

/// First fields of 255 levels before a uint32.
fn deep_fields(list: &mut List) {
    let (one, tag) = (1u64.to_le_bytes(), 0u64.to_le_bytes());
    let kinds: [(u32, &str, &[u8]); 3] =
        [(3, "arrays", &one), (4, "tuples", &[]), (8, "cases", &tag)];
    for (kind, levels, own) in kinds {
        let record = |field: u8, behind: u8| {
            [&own.repeat(254), &[field, 0, 0, 0][..], &[behind, 0, 0, 0]].concat()
        };
        let name = format!("a first field of 255 levels of {levels} differs");
        let grammar = chain_and_number(kind);
        add_under(list, &name, grammar.clone(), &record(1, 7), &record(2, 7));
        let name = format!("the number behind 255 levels of {levels} differs");
        add_under(list, &name, grammar, &record(1, 7), &record(1, 8));
    }
}

/// The root's first field: the listed pairs, each kind of it and of a field behind it, many fields,
/// long ones and deep ones.
fn first_fields(list: &mut List) {
    for (name, grammar, first, second) in FIRST_FIELDS {
        add(list, name, grammar, &hex(first), &hex(second));
    }
    for (kind, grammar, one, other) in KINDS {
        let behind = |field: &str, number: &str| hex(&format!("{field} {number}"));
        let (first, second) = (behind(one, "07000000"), behind(other, "07000000"));
        let name = format!("first field {kind}, equal behind it");
        add(list, &name, grammar, &first, &second);
        let second = behind(one, "08000000");
        let name = format!("first field {kind}, the number behind it differs");
        add(list, &name, grammar, &first, &second);
    }
    for (kind, grammar, one, other) in BEHIND {
        let long = |field: &str| hex(&format!("0100000000000000 41 {field}"));
        let short = hex(&format!("0000000000000000 {one}"));
        let name = format!("{kind} behind first fields of 9 and 8 bytes");
        add(list, &name, grammar, &long(one), &short);
        let name = format!("{kind} behind a byte array differs");
        add(list, &name, grammar, &long(one), &long(other));
    }
    many_fields(list);
    long_fields(list);
    deep_fields(list);
}

/// The longest records, and those a byte longer.
fn long_records(list: &mut List) {
    let (long, cut) = (vec![0; MAX_BYTES + 1], hex(A_CUT));
    let most = counted(MAX_BYTES as u64 - 8, &vec![0x5a; MAX_BYTES - 8]);
    let mut other = most.clone();
    other[MAX_BYTES - 1] = 0x5b;
    for (number, grammar) in REFUSED_GRAMMARS {
        let name = format!("{number} before 6 of both records");
        add(list, &name, grammar, &long, &long);
    }
    let listed: [(&str, &str, &[u8], &[u8]); 7] = [
        ("6 of both records", B, &long, &long),
        ("6 of the second record", B, &[], &long),
        (
            "the first record's 11 before the second's 6",
            B,
            &[0],
            &long,
        ),
        ("the first record's 9 before the second's 6", A, &cut, &long),
        (
            "the first record's 6 before the second's 9",
            U32,
            &long,
            &[],
        ),
        ("records of 1,048,576 bytes", BYT, &most, &most),
        ("the last of 1,048,576 bytes differs", BYT, &most, &other),
    ];
    for (name, grammar, first, second) in listed {
        add(list, name, grammar, first, second);
    }
}

/// One record refused, or both by the same bytes, under each kind of root.
fn refused_roots(list: &mut List) {
    for (kind, grammar, accepted, refused) in ROOTS {
        let (accepted, refused) = (hex(accepted), hex(refused));
        for (which, first, second) in [
            ("equal bytes that are refused", &refused, &refused),
            ("the first record refused", &refused, &accepted),
            ("the second record refused", &accepted, &refused),
        ] {
            let name = format!("root {kind}, {which}");
            add(list, &name, grammar, first, second);
        }
    }
}

/// Both records refused, by each two numbers; and a grammar refused before them for what the root
/// does not reach.
fn both_refused(list: &mut List) {
    // a tuple of a union of one constant and an array of constants, and more nodes, not reached by it
    let nodes = [[4, 0, 2], [8, 2, 1], [3, 3, 1], [0; 3], [0; 3]];
    let grammar = |more: &[[u32; 3]]| table(&[&nodes, more].concat(), &[1, 2, 3, 4]);
    let record = |tag, count, behind: &[u8]| counted(tag, &counted(count, behind));
    let records = [
        (6, vec![0; MAX_BYTES + 1]),
        (8, record(0, 5_000, &[])),
        (9, counted(0, &[])),
        (10, record(7, 0, &[])),
        (11, record(0, 0, &[0])),
    ];
    for (one, first) in &records {
        for (other, second) in &records {
            let name = format!("the first record's {one} and the second's {other}");
            add_under(list, &name, grammar(&[]), first, second);
        }
    }
    let refused = [
        (1, grammar(&[[0; 3]; 252])),
        (2, [grammar(&[]), vec![0]].concat()),
        (3, grammar(&[[11, 0, 0]])),
        (4, grammar(&[[0, 1, 0]])),
        (5, grammar(&[[4, 0, 1]])),
    ];
    for (number, grammar) in refused {
        for (other, record) in &records[1..] {
            let name = format!("{number} before {other} of both records");
            add_under(list, &name, grammar.clone(), record, record);
        }
    }
}

/// The cases of same route.
pub fn same_route() -> Cases {
    let mut list = List::default();
    for (name, grammar, first, second) in LISTED {
        add(&mut list, name, grammar, &hex(first), &hex(second));
    }
    refused_roots(&mut list);
    both_refused(&mut list);
    long_records(&mut list);
    first_fields(&mut list);
    list.0.extend(magnitudes::same_route());
    list.0
}

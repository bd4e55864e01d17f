//! Export to XDR and import from it. Each byte of an output and of a lent store is EE before the call,
//! each lent word 99.

use std::collections::BTreeSet;

use compare::{chain, leaf, Case, Value};

use super::long::{fields_of_each_kind, tuple};
use super::sized::{sized, Bare};
use super::writing::{self, value, A_ROWS};
use super::{borders, row_sizes};
use super::{hex, numbers, table, Cases, List, MAX_BYTES, ROW_WORDS};
use super::{A, A64, ARR, A_RECORD, B, BYT, C, D, E, PAIR, TUP0, UNI};
use super::{I32, I64, REFUSED_GRAMMARS, U32, U64};

/// A tuple of an int32, a byte array and a uint32 array, its record, its rows and its XDR.
const T: &str = "4, 4 0 3, 9 0 0, 5 0 0, 6 0 0, 3, 1 2 3";
const T_RECORD: &str = "FFFFFFFF 0200000000000000 4142 0100000000000000 78563412";
const T_ROWS: &str = "4 4 3 0 26, 9 1 4294967295 0 4, 5 1 2 12 10, 6 1 1 22 12";
const T_XDR: &str = "FFFFFFFF 00000002 41420000 00000001 12345678";
/// The file of RFC 4506, section 7: its grammar, its rows, its store and its XDR.
const FILE: &str = "4, 4 0 4, 8 4 3, 0 0 0, 5 0 0, 7, 3 1 3 3 2 3 3";
const FILE_ROWS: &str = "4 6 4 0 63, 5 1 9 0 17, 8 2 2 0 20, 5 1 4 9 12, 5 1 4 13 12, 5 1 6 17 14";
const FILE_STORE: &[u8] = b"sillyproglispjohn(quit)";
const FILE_XDR: &str = "00000009 73696C6C 7970726F 67000000 00000002 00000004 6C697370 00000004
    6A6F686E 00000006 28717569 74290000";
/// An array of byte arrays.
pub(super) const BYTE_ARRAYS: &str = "2, 3 0 1, 5 0 0, 1, 1";
/// A tuple of two byte arrays, and of three.
const BYT2: &str = "2, 4 0 2, 5 0 0, 2, 1 1";
const BYT3: &str = "2, 4 0 3, 5 0 0, 3, 1 1 1";
/// A union of one case, a byte array.
const BYTE_CASE: &str = "2, 8 0 1, 5 0 0, 1, 1";
/// A union of one case, a constant.
const UNI1: &str = "2, 8 0 1, 0 0 0, 1, 1";

/// The XDR of a value, by the model.
fn xdr(value: &Value) -> Vec<u8> {
    let outcome = value.clone().export_case(vec![0; MAX_BYTES], 0).of_model();
    let (_, mut out, _) = Value::of(&outcome.after()).expect("an export");
    let [size] = outcome.answer.result().expect("a value of its grammar");
    out.truncate(size as usize);
    out
}

/// Adds the export of a value at an index of an output of so many bytes.
fn export(list: &mut List, name: &str, value: &Value, length: usize, index: usize) {
    let out = vec![0xee; length];
    list.add(name, value.clone().export_case(out, index));
}

/// Adds the import with so many words and so many bytes of a store lent.
fn import_words(
    list: &mut List,
    name: &str,
    grammar: &[u32],
    record: &[u8],
    words: usize,
    store: usize,
) {
    let case = Case::ImportXdr {
        grammar: grammar.to_vec(),
        record: record.to_vec(),
        rows: vec![99; words],
        store: vec![0xee; store],
    };
    list.add(name, case);
}

/// Adds the import with so many rows and so many bytes of a store lent.
fn import(list: &mut List, name: &str, grammar: &[u32], record: &[u8], rows: usize, store: usize) {
    import_words(list, name, grammar, record, ROW_WORDS * rows, store);
}

/// Adds the import of XDR in hexadecimal under a grammar in words.
fn import_text(
    list: &mut List,
    name: &str,
    grammar: &str,
    record: &str,
    rows: usize,
    store: usize,
) {
    import(list, name, &numbers(grammar), &hex(record), rows, store);
}

/// Parts of names of writings that are about the record's size or about room, which have cases of their
/// own here.
const OF_SIZES: [&str; 8] = [
    "size 1,048",
    "room",
    "example G",
    "index",
    "bytes at",
    "bytes above",
    "most ",
    "a long output",
];

/// The exports of the values that are written, each with its name, to an output of their XDR size
/// between other bytes; those that are refused, to the output of the writing.
fn of_writings(list: &mut List) {
    let writings = [writing::writing(), borders::writing()].concat();
    let mut names = BTreeSet::new();
    for (name, case) in &writings {
        let (_, name) = name.split_once(": ").expect("a call and a name");
        if OF_SIZES.iter().any(|part| name.contains(part)) {
            continue;
        }
        let (value, out, index) = Value::of(case).expect("a writing");
        if !names.insert(name) {
            continue;
        }
        let outcome = value.clone().export_case(vec![0; MAX_BYTES], 0).of_model();
        match outcome.answer.result() {
            Ok([size]) if index < 10 => export(list, name, &value, size as usize + 3, 1),
            _ => list.add(name, value.export_case(out, index)),
        }
    }
}

/// The worked examples, and room for them.
fn examples_exported(list: &mut List) {
    let t = value(T, T_ROWS, &hex(T_RECORD));
    export(list, "example T", &t, 20, 0);
    export(list, "example T at 4 of 24", &t, 24, 4);
    export(list, "example T at 4 of 23", &t, 23, 4);
    export(list, "example T, 19 bytes", &t, 19, 0);
    export(list, "example T, no output", &t, 0, 0);
    for index in [19, 20, 21, 1 << 32, 1 << 63, usize::MAX - 19, usize::MAX] {
        let name = format!("example T at {index} of 20");
        export(list, &name, &t, 20, index);
    }
    let file = value(FILE, FILE_ROWS, FILE_STORE);
    export(list, "the file of RFC 4506", &file, 48, 0);
    export(list, "the file of RFC 4506, 47 bytes", &file, 47, 0);
    let constant = value(B, "0 1 0 0 0", &[]);
    export(list, "no bytes at the length", &constant, 5, 5);
    export(list, "no bytes above the length", &constant, 5, 6);
    export(
        list,
        "into a long output",
        &t,
        MAX_BYTES + 100,
        MAX_BYTES + 5,
    );
}

/// Byte arrays of each number of elements, and between others.
fn padding_exported(list: &mut List) {
    let store: Vec<u8> = (0x41..0x61).collect();
    for count in 0..=9 {
        let bytes = value(BYT, &format!("5 1 {count} 1 {}", 8 + count), &store);
        let size = 4 + (count + 3) / 4 * 4;
        export(list, &format!("{count} bytes"), &bytes, size, 0);
        export(
            list,
            &format!("{count} bytes between others"),
            &bytes,
            size + 9,
            5,
        );
        let name = format!("{count} bytes, a byte of room is missing");
        export(list, &name, &bytes, size - 1, 0);
        let pair = tuple(&[[5, 1, count as u64, 3], [5, 1, 2, 20]], &store);
        let name = format!("{count} bytes and 2 behind them");
        export(list, &name, &pair, size + 8, 0);
        for (kind, what, width) in [(6, "uint32", 4), (7, "uint64", 8)] {
            if count <= 3 {
                let array =
                    borders::value(leaf(kind), &[[kind.into(), 1, count as u64, 1]], &store);
                let name = format!("{count} {what} elements");
                export(list, &name, &array, 4 + width * count + 2, 1);
            }
        }
    }
}

/// A tuple of a byte array of so many bytes and of 40 values of a kind, whose child is a uint32 or, of
/// an array, none.
fn behind_bytes(kind: u32, length: u64) -> Value {
    let (count, children): (u32, &[Bare]) = match kind {
        3 => (1, &[]),
        4 | 8 => (1, &[[1, 1, 7, 0]]),
        _ => (0, &[]),
    };
    let first = 3 * count;
    let nodes = [
        [4, 0, 2],
        [5, 0, 0],
        [3, 2, 1],
        [kind, first, count],
        [1, 0, 0],
    ];
    let span = 1 + children.len() as u64;
    let word2 = match kind {
        1 | 2 | 9 | 10 => 7,
        4 => span - 1,
        5..=7 => 1,
        _ => 0,
    };
    let element = [&[[kind.into(), span, word2, 0]], children].concat();
    let rows = 3 + 40 * span;
    let root = [[4, rows, 2, 0], [5, 1, length, 0], [3, rows - 2, 40, 0]];
    let rows = [&root[..], &element.repeat(40)].concat();
    borders::value(table(&nodes, &[1, 2, 3, 4]), &rows, &vec![0; MAX_BYTES])
}

/// An array of 4,095 byte arrays of so many bytes, which share a store.
fn byte_arrays(length: u64, store: &[u8]) -> Value {
    let mut rows = vec![[3, 4_096, 4_095, 0]];
    rows.resize(4_096, [5, 1, length, 0]);
    borders::value(numbers(BYTE_ARRAYS), &rows, store)
}

/// The greatest sizes, 1,048,576 bytes and 4 more, of arrays of each kind and behind values of each
/// kind. Without an output 17 says that there is no 16.
fn sizes_exported(list: &mut List) {
    let most = MAX_BYTES as u64;
    for length in [most - 8, most - 7, most - 4, most - 3, most] {
        let bytes = value(
            BYT,
            &format!("5 1 {length} 0 {}", 8 + length),
            &vec![0x5a; length as usize],
        );
        export(list, &format!("{length} bytes, no output"), &bytes, 0, 0);
    }
    let bytes = value(
        BYT,
        &format!("5 1 {} 0 {}", most - 5, most + 3),
        &vec![0x5a; MAX_BYTES - 5],
    );
    export(list, "1,048,571 bytes", &bytes, MAX_BYTES, 0);
    export(
        list,
        "1,048,571 bytes, a byte of room is missing",
        &bytes,
        MAX_BYTES - 1,
        0,
    );
    export(list, "1,048,571 bytes at 1", &bytes, MAX_BYTES + 3, 1);
    for (kind, what, count) in [(6, "uint32", most / 4), (7, "uint64", most / 8)] {
        for count in [count - 1, count] {
            let row = [kind, 1, count, 0];
            let array = borders::value(leaf(kind as u32), &[row], &vec![0x5a; MAX_BYTES]);
            let name = format!("{count} {what} elements, no output");
            export(list, &name, &array, 0, 0);
        }
    }
    for kind in 0..=10 {
        let empty = xdr(&behind_bytes(kind, 0)).len() as u64;
        for more in [0, 4] {
            let name = format!(
                "1,048,5{} bytes of XDR with 40 values of kind {kind}",
                76 + more
            );
            let length = most - empty + more;
            export(list, &name, &behind_bytes(kind, length), 0, 0);
        }
    }
    for (length, what) in [
        (252, "1,048,324 bytes of XDR"),
        (253, "1,064,704 bytes of XDR"),
    ] {
        let arrays = byte_arrays(length as u64, &vec![0x5a; length]);
        let name = format!("4,095 arrays of {length} bytes that share a store, {what}");
        export(list, &name, &arrays, 1_048_323, 0);
    }
    let greatest = byte_arrays(most, &vec![0; MAX_BYTES]);
    export(list, "the greatest size", &greatest, 0, 0);
    let mut other = value(U32, "5 1 1048573 0 1048581", &vec![0; MAX_BYTES - 3]);
    export(list, "15 before 16 of XDR", &other, 0, 0);
    other.grammar = numbers(BYT);
    export(list, "16 of XDR before 17", &other, 9, usize::MAX);
    let tagged = Value {
        grammar: many_cases(),
        rows: sized(&[[8, 2, 700, 0], [1, 1, 7, 0]]),
        n: 2,
        store: vec![],
    };
    export(list, "tag 700 of 1,024", &tagged, 8, 0);
}

/// A union of 1,024 cases, constants and, as every hundredth, a uint32.
fn many_cases() -> Vec<u32> {
    let children: Vec<u32> = (0..1_024)
        .map(|tag| 1 + u32::from(tag % 100 == 0))
        .collect();
    table(&[[8, 0, 1_024], [0; 3], [1, 0, 0]], &children)
}

/// Accepted imports: name, grammar, XDR, rows needed, bytes of a store needed.
const IMPORTED: [(&str, &str, &str, usize, usize); 29] = [
    ("example T", T, T_XDR, 4, 6),
    ("the file of RFC 4506", FILE, FILE_XDR, 6, 23),
    ("constant", B, "", 1, 0),
    ("uint32", U32, "04030201", 1, 0),
    ("uint32 2^32-1", U32, "FFFFFFFF", 1, 0),
    ("uint64", U64, "0807060504030201", 1, 0),
    ("int32 -3", I32, "FFFFFFFD", 1, 0),
    ("least int32", I32, "80000000", 1, 0),
    ("int64 -3", I64, "FFFFFFFFFFFFFFFD", 1, 0),
    ("least int64", I64, "8000000000000000", 1, 0),
    ("array of constants", C, "00000003", 4, 0),
    (
        "array of uint32 values",
        ARR,
        "00000002 00000005 00000006",
        3,
        0,
    ),
    ("array without elements", ARR, "00000000", 1, 0),
    ("tuple without fields", TUP0, "", 1, 0),
    ("tuple of one node twice", PAIR, "00000001 00000002", 3, 0),
    ("case 0, a constant", UNI, "00000000", 2, 0),
    ("case 1, a uint32", UNI, "00000001 00000009", 2, 0),
    ("no bytes", BYT, "00000000", 1, 0),
    ("1 byte", BYT, "00000001 41000000", 1, 1),
    ("2 bytes", BYT, "00000002 41420000", 1, 2),
    ("3 bytes", BYT, "00000003 41424300", 1, 3),
    ("4 bytes", BYT, "00000004 41424344", 1, 4),
    ("5 bytes", BYT, "00000005 41424344 45000000", 1, 5),
    ("no uint32 elements", E, "00000000", 1, 0),
    ("uint32 elements", E, "00000002 01020304 05060708", 1, 8),
    ("no uint64 elements", A64, "00000000", 1, 0),
    (
        "uint64 elements",
        A64,
        "00000002 0102030405060708 090A0B0C0D0E0F10",
        1,
        16,
    ),
    (
        "three byte arrays, the second with elements",
        BYT3,
        "00000000 00000003 61626300 00000000",
        4,
        3,
    ),
    (
        "two byte arrays with padding",
        BYT2,
        "00000001 61000000 00000002 62630000",
        3,
        3,
    ),
];

/// Accepted imports of byte arrays with padding in cases: name, grammar, XDR, rows and bytes of a store
/// needed.
#[rustfmt::skip]
const PADDED_CASES: [(&str, &str, &str, usize, usize); 8] = [
    ("case of 1 byte", BYTE_CASE, "00000000 00000001 41000000", 2, 1),
    ("case of 2 bytes", BYTE_CASE, "00000000 00000002 41420000", 2, 2),
    ("case of 3 bytes", BYTE_CASE, "00000000 00000003 41424300", 2, 3),
    ("array of a case of 1 byte", "3, 3 0 1, 8 1 1, 5 0 0, 2, 1 2",
        "00000001 00000000 00000001 41000000", 3, 1),
    ("array of cases of 1 and of 2 bytes", "3, 3 0 1, 8 1 1, 5 0 0, 2, 1 2",
        "00000002 00000000 00000001 41000000 00000000 00000002 42430000", 5, 3),
    ("tuple of a case of 1 byte and a uint32", "4, 4 0 2, 8 2 1, 5 0 0, 1 0 0, 3, 1 3 2",
        "00000000 00000001 41000000 00000007", 4, 1),
    ("case of an array of 1 byte", "3, 8 0 1, 3 1 1, 5 0 0, 2, 1 2",
        "00000000 00000001 00000001 41000000", 3, 1),
    ("case of a tuple of 1 byte", "3, 8 0 1, 4 1 1, 5 0 0, 2, 1 2",
        "00000000 00000001 41000000", 3, 1),
];

fn padded_cases(list: &mut List) {
    for (name, grammar, record, rows, store) in PADDED_CASES {
        import_text(list, name, grammar, record, rows, store);
    }
}

/// Adds each of `IMPORTED` with just enough rows and store; with a row and a byte more; with a row, a
/// word and a byte less, and without its last byte, and with one more.
fn imported(list: &mut List) {
    for (name, grammar, record, rows, store) in IMPORTED {
        import_text(list, name, grammar, record, rows, store);
        let with = |what: &str| format!("{name}, {what}");
        let more = with("a row and three bytes of store more");
        import_text(list, &more, grammar, record, rows + 1, store + 3);
        let bytes = hex(record);
        let table = numbers::<u32>(grammar);
        import_words(
            list,
            &with("a word less"),
            &table,
            &bytes,
            ROW_WORDS * rows - 1,
            store,
        );
        if rows > 1 {
            import_text(list, &with("a row less"), grammar, record, rows - 1, store);
        }
        if store > 0 {
            let less = with("a byte of store less");
            import_text(list, &less, grammar, record, rows, store - 1);
            if store > 1 {
                import_text(list, &with("no store"), grammar, record, rows, 0);
            }
        }
        if let Some((_, cut)) = bytes.split_last() {
            import(list, &with("cut by a byte"), &table, cut, rows, store);
        }
        for (what, behind) in [("a byte behind", 1), ("4 bytes behind", 4)] {
            let longer = [&bytes[..], &vec![0; behind]].concat();
            let name = with(what);
            import(list, &name, &table, &longer, rows, store);
        }
    }
}

/// Every byte of the padding of arrays of 1 to 3 and 5 elements, in two arrays behind each other: set
/// to another byte, with a store that is enough, one that is too short, and with bytes missing.
fn padding_imported(list: &mut List) {
    for count in [1, 2, 3, 5] {
        let array = [
            &[0, 0, 0, count as u8][..],
            &vec![0x61; count],
            &vec![0; (4 - count % 4) % 4],
        ];
        let array = array.concat();
        let both = [&array[..], &array].concat();
        let grammar = numbers::<u32>(BYT2);
        for second in [0, 1] {
            let end = second * array.len() + array.len();
            for at in end - (4 - count % 4) % 4..end {
                for other in [1, 0x80, 0xff] {
                    let mut record = both.clone();
                    record[at] = other;
                    let name = format!("two arrays of {count} bytes, byte {at} set to {other}");
                    import(list, &name, &grammar, &record, 3, 2 * count);
                    if other == 1 {
                        let short = count * (second + 1) - 1;
                        let what = format!("{name}, a store of {short} bytes");
                        import(list, &what, &grammar, &record, 3, short);
                        let what = format!("{name}, cut before the array's end");
                        import(list, &what, &grammar, &record[..end - 1], 3, 0);
                    }
                }
            }
        }
    }
    // What looks like padding behind a multiple of four, or behind numbers, is another value.
    for (name, grammar, record, rows, store) in [
        (
            "a byte array behind 4 bytes",
            BYT2,
            "00000004 61626364 00000001 65000000",
            3,
            5,
        ),
        (
            "4 bytes left over behind 4 bytes",
            BYT,
            "00000004 61626364 00000000",
            1,
            9,
        ),
        (
            "4 bytes left over behind uint32 elements",
            E,
            "00000001 01020304 00000000",
            1,
            9,
        ),
        (
            "4 bytes left over behind no bytes",
            BYT,
            "00000000 00000000",
            1,
            9,
        ),
        (
            "elements that are zero",
            BYT2,
            "00000003 00000000 00000001 00000000",
            3,
            4,
        ),
        ("padding at the end of a number", U32, "00000001 00", 1, 0),
    ] {
        import_text(list, name, grammar, record, rows, store);
    }
}

/// Refused imports: name, grammar, XDR, rows, bytes of a store.
const REFUSED: [(&str, &str, &str, usize, usize); 51] = [
    (
        "example T, byte 10 set",
        T,
        "FFFFFFFF 00000002 41420100 00000001 12345678",
        4,
        8,
    ),
    (
        "example T, byte 11 set",
        T,
        "FFFFFFFF 00000002 41420001 00000001 12345678",
        4,
        8,
    ),
    (
        "17 before 23",
        T,
        "FFFFFFFF 00000002 41420001 00000001 12345678",
        4,
        1,
    ),
    ("9 before 17", T, "FFFFFFFF 00000002 414200", 4, 1),
    ("9 before 23", T, "FFFFFFFF 00000002 414201", 4, 8),
    ("9 before 17 and 23", T, "FFFFFFFF 00000002 414201", 4, 0),
    (
        "23 before 8 of the next value",
        T,
        "FFFFFFFF 00000002 41420001 00000001 12345678",
        3,
        8,
    ),
    (
        "23 before 9 of the next value",
        T,
        "FFFFFFFF 00000002 41420001",
        4,
        8,
    ),
    (
        "17 before 8 of the next value",
        T,
        "FFFFFFFF 00000002 41420000 00000001 12345678",
        3,
        1,
    ),
    (
        "17 before 9 of the next value",
        T,
        "FFFFFFFF 00000002 41420000",
        4,
        1,
    ),
    (
        "8 before 9, 17 and 23",
        T,
        "FFFFFFFF 00000002 41420001",
        2,
        0,
    ),
    ("17 before 11", BYT, "00000001 61000000 00", 1, 0),
    ("23 before 11", BYT, "00000001 61000001 00", 1, 1),
    ("8 before 11", UNI1, "00000000 00", 1, 0),
    ("10 before 11", UNI1, "00000001 00", 2, 0),
    ("10 before 8 of the case value", UNI1, "00000001", 1, 0),
    (
        "10 before 17",
        BYTE_CASE,
        "00000001 00000001 61000000",
        2,
        0,
    ),
    (
        "17 of the first array before 23 of the second",
        BYT2,
        "00000002 61620000 00000001 63000001",
        3,
        1,
    ),
    (
        "23 of the first array before 17 of the second",
        BYT2,
        "00000002 61620100 00000001 63000000",
        3,
        2,
    ),
    (
        "17 of the second array",
        BYT2,
        "00000002 61620000 00000001 63000000",
        3,
        2,
    ),
    (
        "9 of the second array before its 17",
        BYT2,
        "00000002 61620000 00000001 6300",
        3,
        2,
    ),
    (
        "17 of the first array before 9 of the second",
        BYT2,
        "00000002 61620000 00000001 6300",
        3,
        1,
    ),
    (
        "17 of the second array before its 23",
        BYT2,
        "00000002 61620000 00000001 63010000",
        3,
        2,
    ),
    (
        "17 before 10 of the next value",
        "3, 4 0 2, 5 0 0, 8 0 0, 2, 1 2",
        "00000001 61000000 00000000",
        3,
        0,
    ),
    (
        "23 before 10 of the next value",
        "3, 4 0 2, 5 0 0, 8 0 0, 2, 1 2",
        "00000001 61000001 00000000",
        3,
        1,
    ),
    (
        "8 of a count before 17",
        "3, 4 0 2, 3 2 1, 5 0 0, 3, 1 2 2",
        "00000009 00000001",
        3,
        0,
    ),
    (
        "8 of the count before an element's 9",
        ARR,
        "00000002",
        2,
        0,
    ),
    ("9 of element 0", ARR, "00000002", 3, 0),
    ("9 of the count before its 8", ARR, "FFFFFF", 1, 0),
    ("9 of the tag before its 10", D, "FFFFFF", 1, 0),
    ("a union without cases", D, "00000000", 1, 0),
    ("no row, no bytes", U32, "", 0, 0),
    ("tag at the case count", UNI, "00000002 00000000", 2, 0),
    ("tag least byte first", UNI, "01000000 00000009", 2, 0),
    ("count least byte first", BYT, "01000000 61000000", 1, 8),
    ("a tag of 8 bytes", UNI, "00000000 00000001 00000009", 2, 0),
    (
        "a count of 8 bytes",
        BYT,
        "00000000 00000001 61000000",
        1,
        8,
    ),
    ("2^29 uint64 elements", A64, "20000000", 1, 0),
    ("2^30 uint32 elements", E, "40000000", 1, 0),
    ("8 before 10", D, "00000000", 0, 0),
    ("8 before 17", BYT, "00000001 61000000", 0, 0),
    ("8 before 23", BYT, "00000001 61000001", 0, 1),
    ("8 of a count before 11", C, "00000009 00", 1, 0),
    ("10 before 9 of the case value", UNI, "00000002", 2, 0),
    (
        "10 before 23 of the case value",
        BYTE_CASE,
        "00000001 00000001 61000001",
        2,
        1,
    ),
    ("9 before 8 of the next value", T, "FFFFFF", 2, 0),
    ("2^32-1 bytes", BYT, "FFFFFFFF", 1, 0),
    (
        "2^32-1 bytes of which 4 are there",
        BYT,
        "FFFFFFFF 61626364",
        1,
        9,
    ),
    (
        "2^32-4 bytes of which 4 are there",
        BYT,
        "FFFFFFFC 61626364",
        1,
        9,
    ),
    ("2^32-1 uint32 elements", E, "FFFFFFFF 61626364", 1, 9),
    (
        "2^32-1 uint64 elements",
        A64,
        "FFFFFFFF 6162636465666768",
        1,
        9,
    ),
];

fn refused(list: &mut List) {
    for (name, grammar, record, rows, store) in REFUSED {
        import_text(list, name, grammar, record, rows, store);
    }
    let (t, xdr) = (numbers::<u32>(T), hex(T_XDR));
    for length in 0..xdr.len() {
        let name = format!("the first {length} bytes of example T");
        import(list, &name, &t, &xdr[..length], 4, 8);
    }
    for words in (0..20).step_by(3).chain([4, 14, 16, 19]) {
        let name = format!("example T, {words} words");
        import_words(list, &name, &t, &xdr, words, 8);
    }
    for store in 1..5 {
        let name = format!("example T, a store of {store} bytes");
        import(list, &name, &t, &xdr, 4, store);
    }
    let (file, xdr) = (numbers::<u32>(FILE), hex(FILE_XDR));
    for at in [13, 14, 15, 46, 47] {
        let mut other = xdr.clone();
        other[at] = 1;
        let name = format!("the file of RFC 4506, byte {at} of padding set");
        import(list, &name, &file, &other, 6, 23);
    }
    for store in [8, 12, 16] {
        let name = format!("the file of RFC 4506, a store of {store} bytes");
        import(list, &name, &file, &xdr, 6, store);
    }
}

/// Each refusal of the grammar before each of those behind it, and 6 of both slices before them.
fn long_slices(list: &mut List) {
    let most = vec![0; MAX_BYTES];
    let long = vec![0; MAX_BYTES + 1];
    for (number, grammar) in REFUSED_GRAMMARS {
        let grammar = numbers::<u32>(grammar);
        import(
            list,
            &format!("{number} before 6 of the record"),
            &grammar,
            &long,
            1,
            0,
        );
        import(
            list,
            &format!("{number} before 6 of the store"),
            &grammar,
            &[],
            1,
            MAX_BYTES + 1,
        );
        import(list, &format!("{number} before 8"), &grammar, &[], 0, 0);
        import(
            list,
            &format!("{number}, nothing else"),
            &grammar,
            &[],
            1,
            0,
        );
    }
    let (b, byt) = (numbers::<u32>(B), numbers::<u32>(BYT));
    import(list, "a record of 1,048,576 bytes, 11", &b, &most, 1, 0);
    import(list, "a record of 1,048,577 bytes", &b, &long, 1, 0);
    import(list, "a store of 1,048,576 bytes", &b, &[], 1, MAX_BYTES);
    import(
        list,
        "a store of 1,048,577 bytes",
        &b,
        &[],
        1,
        MAX_BYTES + 1,
    );
    import(list, "both of 1,048,577 bytes", &b, &long, 1, MAX_BYTES + 1);
    import(list, "6 of the record before 8", &b, &long, 0, 0);
    for (name, grammar, start) in [
        ("6 of the record before 9", BYT, "FFFFFFFF"),
        ("6 of the record before 10", D, "00000000"),
        ("6 of the record before 17", BYT, "00000001 61000000"),
        ("6 of the record before 23", BYT, "00000001 61000001"),
    ] {
        let mut record = hex(start);
        record.resize(MAX_BYTES + 1, 0);
        let store = usize::from(name.ends_with("23"));
        import(list, name, &numbers::<u32>(grammar), &record, 1, store);
    }
    import(list, "6 of the store before 8", &b, &[], 0, MAX_BYTES + 1);
    import(list, "6 of the store before 9", &byt, &[], 1, MAX_BYTES + 1);
    import(
        list,
        "6 of the store before 10",
        &numbers::<u32>(D),
        &[0; 4],
        1,
        MAX_BYTES + 1,
    );
    import(list, "6 of the store before 11", &b, &[0], 1, MAX_BYTES + 1);
    let array = |count: usize, padding: u8| {
        let mut bytes = (count as u32).to_be_bytes().to_vec();
        bytes.resize(4 + count, 0x61);
        bytes.resize(4 + count.next_multiple_of(4), padding);
        bytes
    };
    let bad = array(1, 1);
    import(
        list,
        "6 of the store before 23",
        &byt,
        &bad,
        1,
        MAX_BYTES + 1,
    );
    for (count, store) in [
        (MAX_BYTES - 4, MAX_BYTES - 4),
        (MAX_BYTES - 4, MAX_BYTES),
        (MAX_BYTES - 4, MAX_BYTES - 5),
        (MAX_BYTES - 5, MAX_BYTES - 5),
        (MAX_BYTES - 7, MAX_BYTES - 7),
        (MAX_BYTES - 7, MAX_BYTES - 8),
    ] {
        let name = format!("{count} bytes into a store of {store}");
        import(list, &name, &byt, &array(count, 0), 1, store);
    }
    let name = "1,048,571 bytes, the padding is not zero";
    import(list, name, &byt, &array(MAX_BYTES - 5, 1), 1, MAX_BYTES);
    let name = "1,048,571 bytes, the padding is missing";
    let cut = array(MAX_BYTES - 5, 0);
    import(list, name, &byt, &cut[..MAX_BYTES - 1], 1, MAX_BYTES);
    for (kind, what, width) in [(6, "uint32", 4), (7, "uint64", 8)] {
        let count = (MAX_BYTES - 4) / width;
        let mut bytes = (count as u32).to_be_bytes().to_vec();
        bytes.resize(4 + count * width, 0x5a);
        let name = format!("{count} {what} elements");
        import(list, &name, &leaf(kind), &bytes, 1, count * width);
        let name = format!("{count} {what} elements, a byte of store less");
        import(list, &name, &leaf(kind), &bytes, 1, count * width - 1);
        bytes[..4].copy_from_slice(&(count as u32 + 1).to_be_bytes());
        let name = format!("{} {what} elements, the last is missing", count + 1);
        import(list, &name, &leaf(kind), &bytes, 1, MAX_BYTES);
    }
}

/// The most rows, and one more; the deepest value.
fn rows_imported(list: &mut List) {
    for (count, words) in [
        (4_095u32, 20_480),
        (4_095, 20_479),
        (4_095, 16_384),
        (4_095, 25_000),
        (4_096, 20_480),
        (4_096, 25_000),
        (u32::MAX, 20_480),
        (256, 10),
        (65_536, 10),
        (1 << 31, 10),
        (257, 10),
        (65_537, 10),
        ((1 << 31) + 1, 10),
        (300, 1_505),
    ] {
        let name = format!("{count} constants, {words} words");
        let record = count.to_be_bytes();
        import_words(list, &name, &numbers::<u32>(C), &record, words, 0);
    }
    for more in [0, 5, 15] {
        let words = 65_536 + more;
        let name = format!("example T, {words} words");
        let (t, xdr) = (numbers::<u32>(T), hex(T_XDR));
        import_words(list, &name, &t, &xdr, words, 8);
    }
    let grammar = numbers::<u32>(BYTE_ARRAYS);
    let empty = [&4_095u32.to_be_bytes()[..], &vec![0; 4 * 4_095]].concat();
    import(
        list,
        "4,095 arrays without elements",
        &grammar,
        &empty,
        4_096,
        0,
    );
    let arrays = [
        &300u32.to_be_bytes()[..],
        &hex("00000001 61000000").repeat(300),
    ]
    .concat();
    let name = |what: &str| format!("300 arrays of a byte{what}");
    import(list, &name(""), &grammar, &arrays, 301, 300);
    import(
        list,
        &name(", a byte of store less"),
        &grammar,
        &arrays,
        301,
        299,
    );
    import(list, &name(", a row less"), &grammar, &arrays, 300, 300);
    for (kind, what) in [(3, "arrays"), (8, "cases")] {
        let head = if kind == 3 { [0, 0, 0, 1] } else { [0; 4] };
        let record = [&head.repeat(255)[..], &[0, 0, 7, 2]].concat();
        import(
            list,
            &format!("255 levels of {what}"),
            &chain(kind),
            &record,
            256,
            0,
        );
        let name = format!("255 levels of {what}, a row less");
        import(list, &name, &chain(kind), &record, 255, 0);
    }
    import(
        list,
        "255 levels of tuples",
        &chain(4),
        &[0, 0, 7, 2],
        256,
        0,
    );
}

/// XDR of at most 1,048,576 bytes whose values have about as many bytes as a record may have, and the
/// most.
fn great_sizes(list: &mut List) {
    for (name, arrays) in row_sizes::great_arrays() {
        let (record, store) = (xdr(&arrays), arrays.store.len());
        import(list, name, &arrays.grammar, &record, arrays.n, store);
    }
    for kind in [3, 4, 8] {
        let grammar = table(&[[kind, 0, 1], [5, 0, 0]], &[1]);
        let rows = [[kind.into(), 2, u64::from(kind != 8), 0], [5, 1, 70_000, 0]];
        let value = borders::value(grammar, &rows, &vec![0x5a; 70_000]);
        let name = format!("kind {kind} of a byte array of 70,000 bytes");
        import(list, &name, &value.grammar, &xdr(&value), 2, 70_000);
    }
    for (kind, element, width) in [(3, 5, 1), (4, 5, 1), (8, 5, 1), (4, 6, 4), (8, 7, 8)] {
        let bytes = MAX_BYTES - if kind == 4 { 4 } else { 8 };
        let bytes = bytes / width * width;
        let grammar = table(&[[kind, 0, 1], [element, 0, 0]], &[1]);
        let array = [element.into(), 1, (bytes / width) as u64, 0];
        let rows = [[kind.into(), 2, u64::from(kind != 8), 0], array];
        let value = borders::value(grammar, &rows, &vec![0x5a; bytes]);
        let name = format!("kind {kind} of kind {element} of {bytes} bytes");
        import(list, &name, &value.grammar, &xdr(&value), 2, bytes);
    }
    for (outer, inner) in [(4, 8), (8, 4)] {
        let nodes = [[outer, 0, 1], [inner, 1, 1], [3, 2, 1], [5, 0, 0]];
        let head = |kind: u32, span| [kind.into(), span, u64::from(kind == 4), 0];
        let count = 1_032_188;
        let mut rows = vec![head(outer, 4_096), head(inner, 4_095), [3, 4_094, 4_093, 0]];
        rows.resize(4_095, [5, 1, 0, 0]);
        rows.push([5, 1, count, 0]);
        let store = vec![0x5a; count as usize];
        let value = borders::value(table(&nodes, &[1, 2, 3]), &rows, &store);
        let name = format!("kind {outer} of kind {inner} of 4,093 byte arrays");
        import(
            list,
            &name,
            &value.grammar,
            &xdr(&value),
            4_096,
            store.len(),
        );
    }
}

/// Counts and tags whose low bits are those of a value that is there.
fn magnitudes(list: &mut List) {
    for more in [1u32 << 8, 1 << 16, 1 << 24, 1 << 31] {
        for (what, grammar, low, behind, rows, store) in [
            ("bytes", BYT, 1, "61000000", 1, 9),
            ("uint32 elements", E, 1, "01020304", 1, 9),
            ("uint64 elements", A64, 1, "0102030405060708", 1, 9),
            ("uint32 values", ARR, 1, "01020304", 2, 0),
            ("as tag", UNI, 1, "00000009", 2, 0),
            ("as tag of a constant", UNI, 0, "", 2, 0),
        ] {
            let record = [&(more + low).to_be_bytes()[..], &hex(behind)].concat();
            let name = format!("{more} + {low} {what}");
            import(list, &name, &numbers::<u32>(grammar), &record, rows, store);
        }
    }
    for tag in [0u32, 1, 99, 100, 255, 256, 700, 1_000, 1_023, 1_024, 1_100] {
        let record = [&tag.to_be_bytes()[..], &[0, 0, 0, 7]].concat();
        let end = if tag % 100 == 0 { 8 } else { 4 };
        let name = format!("tag {tag} of 1,024");
        import(list, &name, &many_cases(), &record[..end], 2, 0);
    }
    for count in [200usize, 300, 40_000, 70_000] {
        let mut record = (count as u32).to_be_bytes().to_vec();
        record.resize(4 + count, 0x61);
        let behind = hex("00000003 62636400 00000002 0102030405060708 090A0B0C0D0E0F10 00000007");
        record.extend(behind);
        let nodes = [[4, 0, 4], [5, 0, 0], [7, 0, 0], [1, 0, 0]];
        let grammar = table(&nodes, &[1, 1, 2, 3]);
        let name = |what: &str| format!("{count} bytes, 3 bytes, 2 uint64 and a number, {what}");
        let store = count + 3 + 16;
        import(list, &name("accepted"), &grammar, &record, 5, store + 2);
        import(
            list,
            &name("a byte of store less"),
            &grammar,
            &record,
            5,
            store - 1,
        );
        import(
            list,
            &name("no store for 3 bytes"),
            &grammar,
            &record,
            5,
            count + 2,
        );
        import(
            list,
            &name("cut by a byte"),
            &grammar,
            &record[..record.len() - 1],
            5,
            store,
        );
        let mut other = record.clone();
        other[count + 11] = 1;
        import(list, &name("padding set"), &grammar, &other, 5, store);
        let longer = [&record[..], &[0]].concat();
        import(list, &name("a byte behind"), &grammar, &longer, 5, store);
        import(list, &name("a row less"), &grammar, &record, 4, store);
    }
}

/// A value of each kind behind so many bytes, which are a multiple of four: accepted, cut by a byte,
/// without a row, and for arrays in the store without room, for an array with more elements than rows
/// and for a case with another tag.
fn far_values(list: &mut List, bytes: usize) {
    let mut front = (bytes as u32).to_be_bytes().to_vec();
    front.resize(4 + bytes, 0x61);
    for (kind, behind, rows, used) in [
        (0, "", 1, 0),
        (1, "01020304", 1, 0),
        (2, "0102030405060708", 1, 0),
        (3, "00000001 01020304", 2, 0),
        (4, "01020304", 2, 0),
        (5, "00000003 62636400", 1, 3),
        (6, "00000001 01020304", 1, 4),
        (7, "00000001 0102030405060708", 1, 8),
        (8, "00000000 01020304", 2, 0),
        (9, "81020304", 1, 0),
        (10, "8102030405060708", 1, 0),
    ] {
        let count = u32::from(matches!(kind, 3 | 4 | 8));
        let nodes = [[4, 0, 2], [5, 0, 0], [kind, 2 * count, count], [1, 0, 0]];
        let grammar = table(&nodes, &[1, 2, 3]);
        let (record, rows) = ([&front[..], &hex(behind)].concat(), rows + 2);
        let store = bytes + used;
        let name = |what: &str| format!("kind {kind} behind {bytes} bytes, {what}");
        import(list, &name("accepted"), &grammar, &record, rows, store);
        import(
            list,
            &name("a row less"),
            &grammar,
            &record,
            rows - 1,
            store,
        );
        if kind > 0 {
            let cut = &record[..record.len() - 1];
            import(list, &name("cut by a byte"), &grammar, cut, rows, store);
        }
        if used > 0 {
            let name = name("a byte of store less");
            import(list, &name, &grammar, &record, rows, store - 1);
        }
        let mut other = record.clone();
        match kind {
            3 | 8 => other[bytes + 7] += 1,
            5 => other[bytes + 11] = 1,
            _ => continue,
        }
        import(list, &name("another byte"), &grammar, &other, rows, store);
    }
    for (kind, width) in [(5, 1), (6, 4), (7, 8)] {
        let grammar = table(&[[4, 0, 2], [kind, 0, 0], [1, 0, 0]], &[1, 2]);
        let mut record = ((bytes / width) as u32).to_be_bytes().to_vec();
        record.resize(4 + bytes, 0x62);
        record.extend([0, 0, 7, 2]);
        let name = format!("a uint32 behind {bytes} bytes of kind {kind}");
        import(list, &name, &grammar, &record, 3, bytes);
    }
}

/// Numbers before so many bytes that few are left in 8 or 16 bits.
fn numbers_before_bytes(list: &mut List) {
    for bytes in [248u32, 65_528] {
        for (kind, width) in [(1, 4), (2, 8), (9, 4), (10, 8)] {
            let grammar = table(&[[4, 0, 2], [kind, 0, 0], [5, 0, 0]], &[1, 2]);
            let mut record = [&vec![7; width][..], &bytes.to_be_bytes()].concat();
            record.resize(width + 4 + bytes as usize, 0x61);
            let name = format!("kind {kind} before {bytes} bytes");
            import(list, &name, &grammar, &record, 3, bytes as usize);
        }
    }
}

/// A tuple of 300 constants before each kind, and XDR of a value with fields of each kind: whole, cut
/// at each byte, and with rows and bytes of store too few.
fn each_kind(list: &mut List) {
    let fields = fields_of_each_kind();
    let record = xdr(&fields);
    let rows = fields.n;
    let used = 12 + 24 + 11;
    import(
        list,
        "fields of each kind",
        &fields.grammar,
        &record,
        rows,
        used,
    );
    for length in 0..record.len() {
        let name = format!("the first {length} bytes of fields of each kind");
        import(list, &name, &fields.grammar, &record[..length], rows, used);
    }
    for rows in 0..fields.n {
        let name = format!("fields of each kind, {rows} rows");
        import(list, &name, &fields.grammar, &record, rows, used);
    }
    for store in [0, 11, 12, 35, 36, 46] {
        let name = format!("fields of each kind, a store of {store} bytes");
        import(list, &name, &fields.grammar, &record, rows, store);
    }
    for kind in 0..=10 {
        let count = u32::from(matches!(kind, 3 | 4 | 8));
        let nodes = [[4, 0, 301], [0; 3], [kind, 301 * count, count], [1, 0, 0]];
        let children = [&[1; 300][..], &[2, 3]].concat();
        let name = format!("kind {kind} behind 300 constants");
        let record = hex("00000000 00000007");
        let end = match kind {
            0 => 0,
            2 | 8 | 10 => 8,
            _ => 4,
        };
        import(
            list,
            &name,
            &table(&nodes, &children),
            &record[..end],
            303,
            4,
        );
        let name = format!("kind {kind} behind 300 constants, no row");
        import(
            list,
            &name,
            &table(&nodes, &children),
            &record[..end],
            301,
            4,
        );
    }
    let arrays = [
        [6, 1, 2, 0],
        [5, 1, 3, 8],
        [7, 1, 1, 11],
        [5, 1, 4, 19],
        [6, 1, 0, 23],
    ];
    let store: Vec<u8> = (1..=23).collect();
    let arrays = tuple(&arrays, &store);
    export(list, "arrays of three kinds", &arrays, 46, 1);
    import(
        list,
        "arrays of three kinds",
        &arrays.grammar,
        &xdr(&arrays),
        6,
        25,
    );
}

/// Both calls under grammars that are refused, the import of example A's record, and what the record's
/// bytes would be.
fn other_bytes(list: &mut List) {
    let a = value(A, A_ROWS, &hex(A_RECORD));
    export(list, "example A", &a, 14, 1);
    import_text(list, "the record of example A", A, A_RECORD, 3, 8);
    import_text(list, "example A", A, "00000007 00000002 41420000", 3, 8);
}

/// The cases of export and import.
pub fn xdr_calls() -> Cases {
    let mut list = List::default();
    examples_exported(&mut list);
    padding_exported(&mut list);
    sizes_exported(&mut list);
    of_writings(&mut list);
    imported(&mut list);
    padded_cases(&mut list);
    padding_imported(&mut list);
    refused(&mut list);
    long_slices(&mut list);
    rows_imported(&mut list);
    great_sizes(&mut list);
    magnitudes(&mut list);
    for bytes in [200, 40_000, 72_000] {
        far_values(&mut list, bytes);
    }
    numbers_before_bytes(&mut list);
    each_kind(&mut list);
    other_bytes(&mut list);
    list.0
}

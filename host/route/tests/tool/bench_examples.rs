//! The bench examples A to G, with the grammar as words and as types.

use route_record::Place;

use crate::run::{file, folder, printed, refused, refused_grammar, route, Run};

const A: [&str; 2] = ["3, 4 0 2, 1 0 0, 5 0 0, 2, 1 2", "tuple(u32, bytes)"];
const B: [&str; 2] = ["1, 0 0 0, 0", "constant"];
const C: [&str; 2] = ["2, 3 0 1, 0 0 0, 1, 1", "array(constant)"];
const D: [&str; 2] = ["1, 8 0 0, 0", "union()"];
const E: [&str; 2] = ["1, 6 0 0, 0", "u32s"];

/// Runs a command under both forms of a grammar, which give the same.
fn both([words, types]: [&str; 2], command: &str, record: &str) -> Run {
    let run = |grammar| route(&[command, "-g", grammar, "--hex", "-"], record.as_bytes());
    let by_types = run(types);
    assert_eq!(run(words), by_types, "{command}, {types}, {record}");
    by_types
}

#[test]
fn accepted_records() {
    let a = "byte  0  tuple of 2\nbyte  0    u32 7\nbyte  4    bytes of 2: 41 42\n";
    let c = "byte 0  array of 3\nbyte 8    constant\nbyte 8    constant\nbyte 8    constant\n";
    let e = "byte  0  u32s of 1: 305419896\n";
    for (grammar, record, rows, bytes, tree) in [
        (A, "07000000 0200000000000000 4142", 3, 14, a),
        (B, "", 1, 0, "byte 0  constant\n"),
        (C, "0300000000000000", 4, 8, c),
        (E, "0100000000000000 78563412", 1, 12, e),
    ] {
        let size = format!("rows {rows}, bytes {bytes}\n");
        assert_eq!(both(grammar, "tree", record), printed(0, tree));
        assert_eq!(both(grammar, "size", record), printed(0, &size));
        let accepted = printed(0, &format!("accepted: {size}"));
        assert_eq!(both(grammar, "check", record), accepted);
    }
}

#[test]
fn refused_records() {
    for (grammar, record, number, byte) in [
        (A, "07000000 0200000000000000 41", 9, 4),
        (C, "ffffffffffffffff", 8, 0),
        (C, "03000000000000", 9, 0),
        (D, "0000000000000000", 10, 0),
        (D, "", 9, 0),
        (E, "0000000000000040 78563412", 9, 0),
    ] {
        for command in ["tree", "check", "size"] {
            let refusal = refused(number, Place::Byte(byte));
            assert_eq!(both(grammar, command, record), refusal);
        }
    }
    for command in ["tree", "check"] {
        assert_eq!(both(B, command, "00"), refused(11, Place::Byte(0)));
    }
}

#[test]
fn cut_records() {
    let start_in_a = |k| if k < 4 { 0 } else { 4 };
    let cuts_of_a = (0..14).map(|k| (A, "0700000002000000000000004142", k, start_in_a(k)));
    let cuts_of_c = (0..8).map(|k| (C, "0300000000000000", k, 0));
    for (grammar, record, k, byte) in cuts_of_a.chain(cuts_of_c) {
        for command in ["tree", "check"] {
            let refusal = refused(9, Place::Byte(byte));
            assert_eq!(both(grammar, command, &record[..2 * k]), refusal);
        }
    }
}

#[test]
fn f() {
    let child = "word 5 is child word 0: 0 (table length 6)";
    let got = route(&["check", "-g", "1, 4 0 1, 1, 0"], b"");
    assert_eq!(got, refused_grammar(5, 5, child));

    let constants = |n| format!("{n}\n{}0\n", "0 0 0\n".repeat(n));
    let got = route(&["check", "-"], constants(256).as_bytes());
    assert_eq!(got, printed(0, "accepted: nodes 256, child words 0\n"));

    let count = "word 0 is the node count: 257 (table length 773)";
    let got = route(&["check", "-"], constants(257).as_bytes());
    assert_eq!(got, refused_grammar(1, 0, count));
}

#[test]
fn g() {
    let folder = folder("bench_example_g");
    let record = &file(&folder, "record.hex", "07000000 0200000000000000 4142");
    for grammar in A {
        let preview = |bytes| {
            let output = "00".repeat(bytes);
            let arguments = ["preview", "-g", grammar, "--hex", record, "-"];
            route(&arguments, output.as_bytes())
        };
        assert_eq!(preview(14), printed(0, "bytes 14, different 4\n"));
        assert_eq!(preview(13), refused(17, Place::Byte(13)));
    }
}

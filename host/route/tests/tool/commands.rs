//! Every command, with files, standard input and both forms of grammar and record.

use std::fs;
use std::process::Command;

use route_record::{Place, MAX_BYTES};

use crate::run::{file, folder, printed, refused, route, run, Run};

const TYPES: &str = "# case A\nroute = tuple(u32, bytes)\nroute\n";
const WORDS: &str = "3,\n4, 0, 2,\n1, 0, 0,\n5, 0, 0,\n2,\n1, 2,\n";
const RECORD: [u8; 14] = [7, 0, 0, 0, 2, 0, 0, 0, 0, 0, 0, 0, 0x41, 0x42];
const HEX: &str = "07 00 00 00\n0200000000000000\t4142\n";

#[test]
fn a_grammar_and_a_record_come_from_files_or_standard_input() {
    let folder = folder("sources");
    let record = &file(&folder, "record", RECORD);
    let hex = &file(&folder, "record.hex", HEX);
    let accepted = printed(0, "accepted: rows 3, bytes 14\n");
    for text in [TYPES, WORDS] {
        let grammar = &file(&folder, "grammar", text);
        let check = |arguments: &[&str], stdin: &[u8]| {
            let got = route(&[&["check"], arguments].concat(), stdin);
            assert_eq!(got, accepted, "{arguments:?}");
        };
        check(&[grammar, record], b"");
        check(&["-", record], text.as_bytes());
        check(&[grammar, "-"], &RECORD);
        check(&[grammar, hex, "--hex"], b"");
        check(&["--hex", "-", hex], text.as_bytes());
        check(&[grammar, "--hex", "-"], HEX.as_bytes());
        check(&["-g", text, record], b"");
        check(&[record, "--grammar", text], b"");
        check(&[record, &format!("-g{text}")], b"");
        check(&[&format!("--grammar={text}"), record], b"");
        check(&["-g", text, "--hex", "--", hex], b"");
    }
}

#[test]
fn check_of_a_grammar_alone() {
    for text in [TYPES, WORDS] {
        let got = route(&["check", "-g", text], b"");
        assert_eq!(got, printed(0, "accepted: nodes 3, child words 2\n"));
    }
}

/// The record of so many constants, whose value has one row more.
fn constants(count: u64) -> [u8; 8] {
    count.to_le_bytes()
}

/// The grammar of `constants`, as an option.
const CONSTANTS: &str = "-garray(constant)";

#[test]
fn check_has_as_many_rows_as_it_is_told() {
    let check = |rows: &str, record: &[u8]| route(&["check", CONSTANTS, "-", rows], record);
    for (capacity, in_force) in [
        (1, 1),
        (300, 300),
        (1_024, 1_024),
        (1_025, 1_025),
        (4_096, 4_096),
        (4_097, 4_096),
        (u64::MAX, 4_096),
    ] {
        let rows = &format!("--rows={capacity}");
        let accepted = printed(0, &format!("accepted: rows {in_force}, bytes 8\n"));
        assert_eq!(check(rows, &constants(in_force - 1)), accepted, "{rows}");
        let answer = check(rows, &constants(in_force));
        assert_eq!(answer, refused(8, Place::Byte(0)), "{rows}");
    }

    // 0 is a number of rows too: 8 comes before 9, and behind 6.
    for record in [&constants(0)[..], &[0; 7], &[]] {
        assert_eq!(check("--rows=0", record), refused(8, Place::Byte(0)));
    }
    let longer = [0; MAX_BYTES + 1];
    assert_eq!(check("--rows=0", &longer), refused(6, Place::Byte(0)));
    assert_eq!(check("--rows=1", &[0; 7]), refused(9, Place::Byte(0)));

    let got = route(&["check", "--rows", "2", "-g", TYPES, "-"], &RECORD);
    assert_eq!(got, refused(8, Place::Byte(4)));
    let got = route(&["check", "--rows", "3", "-g", TYPES, "-"], &RECORD);
    assert_eq!(got, printed(0, "accepted: rows 3, bytes 14\n"));
}

/// What is not told a number of rows has 4,096.
#[test]
fn every_command_takes_values_of_up_to_4096_rows() {
    let folder = folder("rows");
    let small = &file(&folder, "small", constants(0));
    for count in [1_023, 1_024, 4_095] {
        let record = &file(&folder, "record", constants(count));
        let of_record = |command: &str| route(&[command, CONSTANTS, record], b"");
        let size = format!("rows {}, bytes 8\n", count + 1);
        let accepted = printed(0, &format!("accepted: {size}"));
        assert_eq!(of_record("check"), accepted);
        assert_eq!(of_record("size"), printed(0, &size));
        let tree = of_record("tree");
        assert_eq!((tree.status, tree.stderr.as_str()), (Some(0), ""));
        let lines = "byte 8    constant\n".repeat(count as usize);
        assert_eq!(tree.stdout, format!("byte 0  array of {count}\n{lines}"));
        let from_index = route(&["tree", CONSTANTS, record, "--index=0"], b"");
        assert_eq!(from_index, tree);
        let same = |second: &str| route(&["same", CONSTANTS, record, second], b"");
        assert_eq!(same(record), printed(0, "same\n"));
        assert_eq!(same(small), printed(3, "different\n"));
        let begun = count as usize + 1;
        assert_eq!(of_record("accepts"), yes(begun));
        assert_eq!(of_record("choose"), chosen(0, begun));
        let preview = route(&["preview", CONSTANTS, record, record], b"");
        assert_eq!(preview, previewed(8, 0));
        let xdr = format!("{count:08x}\n");
        assert_eq!(of_record("export"), printed(0, &xdr));
        let imported = route(&["import", CONSTANTS, "--hex", "-"], xdr.as_bytes());
        let [least, most] = [count % 256, count / 256];
        assert_eq!(
            imported,
            printed(0, &format!("{least:02x}{most:02x}0000 00000000\n"))
        );
    }

    let record = &file(&folder, "record", constants(4_096));
    let refusal = refused(8, Place::Byte(0));
    for command in ["check", "tree", "size", "export"] {
        let got = route(&[command, CONSTANTS, record], b"");
        assert_eq!(got, refusal, "{command}");
    }
    let got = route(&["import", CONSTANTS, "-"], &4_096_u32.to_be_bytes());
    assert_eq!(got, refusal);
    let of_first = printed(1, &format!("the first record: {}", refusal.stdout));
    let got = route(&["same", CONSTANTS, record, small], b"");
    assert_eq!(got, of_first);
    let got = route(&["accepts", CONSTANTS, record], b"");
    assert_eq!(got, no(1));
    let got = route(&["choose", CONSTANTS, record], b"");
    assert_eq!(got, refused(22, Place::Byte(0)));
    let got = route(&["preview", CONSTANTS, record, small], b"");
    assert_eq!(got, refusal);
}

#[test]
fn tree_of_every_kind() {
    let grammar = "\
        number = u64
        tuple(array(union(constant, number)), bytes, i32, u32s, i64, u64s, u32, tuple(), number)";
    let record = "\
        0200000000000000
          0000000000000000
          0100000000000000 0201000000000000
        0300000000000000 005aff
        ffffffff
        0200000000000000 00000000 ffffffff
        0000000000000080
        0100000000000000 ffffffffffffffff
        ffffffff
        0700000000000000";
    let tree = "\
byte  0  tuple of 9
byte  0    array of 2
byte  8      union tag 0
byte 16        constant
byte 16      union tag 1
byte 24        u64 258
byte 32    bytes of 3: 00 5a ff
byte 43    i32 -1
byte 47    u32s of 2: 0 4294967295
byte 63    i64 -9223372036854775808
byte 71    u64s of 1: 18446744073709551615
byte 87    u32 4294967295
byte 91    tuple of 0
byte 91    u64 7
";
    let got = route(&["tree", "-g", grammar, "--hex", "-"], record.as_bytes());
    assert_eq!(got, printed(0, tree));
}

#[test]
fn tree_of_signed_numbers() {
    for (grammar, record, number) in [
        ("i32", "00000000", "0"),
        ("i32", "ffffff7f", "2147483647"),
        ("i32", "00000080", "-2147483648"),
        ("i32", "fdffffff", "-3"),
        ("i64", "ffffffff00000000", "4294967295"),
        ("i64", "ffffffffffffff7f", "9223372036854775807"),
        ("i64", "ffffffffffffffff", "-1"),
    ] {
        let got = route(&["tree", "-g", grammar, "--hex", "-"], record.as_bytes());
        assert_eq!(got, printed(0, &format!("byte 0  {grammar} {number}\n")));
    }
    let cut = route(&["tree", "-g", "tuple(i32, i64)", "-"], &[0xff; 11]);
    assert_eq!(cut, refused(9, Place::Byte(4)));
}

/// What the tree of an array of the numbers from 0 on says behind the count.
fn elements(grammar: &str, width: usize, count: u8, options: &[&str]) -> String {
    let mut record = u64::from(count).to_le_bytes().to_vec();
    for number in 0..count {
        record.push(number);
        record.resize(record.len() + width - 1, 0);
    }
    let line = route(&[&["tree", "-g", grammar, "-"], options].concat(), &record).stdout;
    let (_, elements) = line
        .split_once(&format!("{grammar} of {count}"))
        .expect(&line);
    elements.to_string()
}

#[test]
fn tree_cuts_long_arrays_unless_all_is_asked_for() {
    for (grammar, width) in [("bytes", 1), ("u32s", 4), ("u64s", 8)] {
        let numbers = |count: u8| {
            let number = |n| {
                if width == 1 {
                    format!("{n:02x}")
                } else {
                    format!("{n}")
                }
            };
            (0..count).map(number).collect::<Vec<_>>().join(" ")
        };
        let first = numbers(16);
        let cut = |count| elements(grammar, width, count, &[]);
        assert_eq!(cut(0), "\n");
        assert_eq!(cut(16), format!(": {first}\n"));
        assert_eq!(cut(17), format!(": {first} and 1 more\n"));
        assert_eq!(cut(255), format!(": {first} and 239 more\n"));
        let all = elements(grammar, width, 255, &["--all"]);
        assert_eq!(all, format!(": {}\n", numbers(255)));
    }
}

#[test]
fn same_has_a_word_and_a_status_for_each_answer() {
    let folder = folder("same");
    let first = &file(&folder, "first", RECORD);
    let serial = &file(&folder, "serial", [&[8], &RECORD[1..]].concat());
    let other = &file(&folder, "other", [&RECORD[..13], &[0x43]].concat());
    let same = |second: &str, stdin: &[u8]| route(&["same", "-g", TYPES, first, second], stdin);
    assert_eq!(same(first, b""), printed(0, "same\n"));
    assert_eq!(same("-", &RECORD), printed(0, "same\n"));
    assert_eq!(same(serial, b""), printed(0, "same\n"));
    assert_eq!(same(other, b""), printed(3, "different\n"));
    let cut = |record: &str| {
        let refusal = refused(9, Place::Byte(4)).stdout;
        printed(1, &format!("the {record} record: {refusal}"))
    };
    assert_eq!(same("-", &RECORD[..13]), cut("second"));
    let got = route(&["same", "-g", TYPES, "-", first], &RECORD[..13]);
    assert_eq!(got, cut("first"));
}

#[test]
fn same_leaves_out_the_first_field_of_a_root_that_is_a_tuple() {
    let folder = folder("same_but_for_the_first_field");
    let answer = |grammar, first, second: &str| {
        let first = &file(&folder, "first.hex", first);
        route(
            &["same", "-g", grammar, "--hex", first, "-"],
            second.as_bytes(),
        )
    };
    let (same, different) = (printed(0, "same\n"), printed(3, "different\n"));
    let (pair, record) = ("tuple(u32, u32)", "07000000 05000000");
    assert_eq!(answer(pair, record, "08000000 05000000"), same);
    assert_eq!(answer(pair, record, "07000000 06000000"), different);
    let (one, none) = ("0100000000000000 41 05000000", "0000000000000000 05000000");
    assert_eq!(answer("tuple(bytes, u32)", one, none), same);
    assert_eq!(answer("tuple(u32)", "07000000", "08000000"), same);
    assert_eq!(answer("u32", "07000000", "08000000"), different);
    let (seven, eight) = ("0100000000000000 07000000", "0100000000000000 08000000");
    assert_eq!(answer("array(tuple(u32))", seven, eight), different);
}

/// What is printed of a record that is accepted, and of one that is not.
fn yes(begun: usize) -> Run {
    printed(0, &format!("yes, values begun {begun}\n"))
}

fn no(begun: usize) -> Run {
    printed(3, &format!("no, values begun {begun}\n"))
}

#[test]
fn accepts_has_a_word_a_count_and_a_status_for_each_answer() {
    let accepts = |record: &[u8]| route(&["accepts", "-g", TYPES, "-"], record);
    assert_eq!(accepts(&RECORD), yes(3));
    assert_eq!(accepts(&RECORD[..13]), no(3));
    assert_eq!(accepts(&RECORD[..12]), no(3));
    assert_eq!(accepts(&RECORD[..11]), no(0));
    assert_eq!(accepts(&[]), no(0));
    assert_eq!(accepts(&[&RECORD[..], &[0]].concat()), no(3));
    let accepts = |grammar: &str, record: &[u8]| route(&["accepts", grammar, "-"], record);
    assert_eq!(accepts("-gconstant", &[]), yes(1));
    assert_eq!(accepts("-gunion()", &[0; 8]), no(0));
    assert_eq!(accepts("-garray(union())", &constants(0)), yes(1));
    assert_eq!(accepts("-garray(union())", &constants(1)), no(2));
}

#[test]
fn accepts_takes_a_grammar_and_a_record_as_files_or_standard_input() {
    let folder = folder("accepts");
    let record = &file(&folder, "record", RECORD);
    let hex = &file(&folder, "record.hex", HEX);
    for text in [TYPES, WORDS] {
        let grammar = &file(&folder, "grammar", text);
        let accepts = |arguments: &[&str], stdin: &[u8]| {
            let got = route(&[&["accepts"], arguments].concat(), stdin);
            assert_eq!(got, yes(3), "{arguments:?}");
        };
        accepts(&[grammar, record], b"");
        accepts(&["-", record], text.as_bytes());
        accepts(&[grammar, "-"], &RECORD);
        accepts(&["--hex", grammar, hex], b"");
        accepts(&[record, "-g", text], b"");
        accepts(
            &[&format!("--grammar={text}"), "--hex", "-"],
            HEX.as_bytes(),
        );
    }
}

/// What is printed of a choice.
fn chosen(number: usize, begun: usize) -> Run {
    printed(0, &format!("grammar {number}, values begun {begun}\n"))
}

#[test]
fn choose_gives_the_first_grammar_that_accepts_and_the_values_begun() {
    let choose = |record: &[u8]| route(&["choose", "-gu64", "-gu32", "-gconstant", "-"], record);
    assert_eq!(choose(&[0; 8]), chosen(0, 1));
    assert_eq!(choose(&[0; 4]), chosen(1, 2));
    assert_eq!(choose(&[]), chosen(2, 3));
    assert_eq!(choose(&[0]), refused(22, Place::Byte(0)));

    let five = ["u32", "array(constant)", "union(u32)", TYPES, WORDS];
    let grammars = five.map(|text| format!("--grammar={text}"));
    let grammars = grammars.iter().map(String::as_str);
    let arguments: Vec<&str> = ["choose", "-"].into_iter().chain(grammars).collect();
    assert_eq!(route(&arguments, &RECORD), chosen(3, 1 + 1 + 1 + 3));
}

#[test]
fn choose_takes_grammars_and_a_record_as_files_or_standard_input() {
    let folder = folder("choose");
    let uint32 = &file(&folder, "uint32", "u32");
    let types = &file(&folder, "types", TYPES);
    let words = &file(&folder, "words", WORDS);
    let record = &file(&folder, "record", RECORD);
    let hex = &file(&folder, "record.hex", HEX);
    let choose = |arguments: &[&str], stdin: &[u8], expected: Run| {
        let got = route(&[&["choose"], arguments].concat(), stdin);
        assert_eq!(got, expected, "{arguments:?}");
    };
    choose(&[types, record], b"", chosen(0, 3));
    choose(&[uint32, words, types, record], b"", chosen(1, 4));
    choose(&[uint32, types, "-"], &RECORD, chosen(1, 4));
    choose(&[uint32, "-", types, record], b"u64", chosen(2, 5));
    choose(&["--hex", uint32, types, hex], b"", chosen(1, 4));
    choose(&[record, "-g", TYPES], b"", chosen(0, 3));
    choose(&["-gu32", record, "--grammar", WORDS], b"", chosen(1, 4));
}

#[test]
fn choose_takes_at_most_16_grammars() {
    let choose = |count| {
        let grammars = vec!["-gu32"; count];
        route(
            &[&["choose"], &grammars[..], &["-gu64", "-"]].concat(),
            &[0; 8],
        )
    };
    assert_eq!(choose(15), chosen(15, 16));
    assert_eq!(choose(16), refused(21, Place::Word(0)));
}

#[test]
fn size_starts_at_the_index_and_ignores_what_follows() {
    let record = [&[0xff, 0xff], &RECORD[..], &[0xee]].concat();
    let size = |index: &str| route(&["size", "-g", TYPES, "-", "--index", index], &record);
    assert_eq!(size("2"), printed(0, "rows 3, bytes 14\n"));
    assert_eq!(size("3"), refused(9, Place::Byte(7)));
    for index in [18, u64::MAX] {
        assert_eq!(size(&index.to_string()), refused(7, Place::Byte(index)));
    }
    let got = route(&["size", "-g", TYPES, "-"], &RECORD);
    assert_eq!(got, printed(0, "rows 3, bytes 14\n"));
    let constant = route(&["size", "-g", "constant", "-", "--index", "17"], &record);
    assert_eq!(constant, printed(0, "rows 1, bytes 0\n"));
}

#[test]
fn tree_starts_at_the_index_and_ignores_what_follows() {
    let record = [&[0xff; 98], &RECORD[..], &[0xee]].concat();
    let tree = |index: &str| route(&["tree", "-g", TYPES, "-", index], &record);
    let rows = "byte  98  tuple of 2\nbyte  98    u32 7\nbyte 102    bytes of 2: 41 42\n";
    assert_eq!(tree("--index=98"), printed(0, rows));
    assert_eq!(tree("--index=99"), refused(9, Place::Byte(103)));
    assert_eq!(tree("--index=114"), refused(7, Place::Byte(114)));
    let whole = route(&["tree", "-g", TYPES, "-"], &record[98..]);
    assert_eq!(whole, refused(11, Place::Byte(14)));
}

/// What a preview prints of so many bytes, of which so many would differ.
fn previewed(bytes: usize, different: usize) -> Run {
    printed(0, &format!("bytes {bytes}, different {different}\n"))
}

#[test]
fn preview_counts_the_bytes_that_would_differ() {
    let folder = folder("preview");
    let record = &file(&folder, "record", RECORD);
    let constant = &file(&folder, "constant", "");
    let shifted = [&RECORD[..], &[0]].concat();
    let last = [&RECORD[..13], &[0x43]].concat();
    for (output, index, different) in [
        (&[0; 14][..], "0", 4),
        (&[0; 20], "3", 4),
        (&[0xee; 14], "0", 14),
        (&[0xee; 17], "1", 14),
        (&RECORD, "0", 0),
        (&last, "0", 1),
        (&shifted, "1", 6),
    ] {
        let arguments = ["preview", "-g", TYPES, record, "-", "--index", index];
        assert_eq!(route(&arguments, output), previewed(14, different));
    }
    let got = route(&["preview", "-g", TYPES, record, "-"], &last);
    assert_eq!(got, previewed(14, 1));
    let got = route(
        &["preview", "-gconstant", constant, "-", "--index=2"],
        &[7; 2],
    );
    assert_eq!(got, previewed(0, 0));
}

#[test]
fn preview_takes_files_standard_input_and_digits_and_changes_no_file() {
    let folder = folder("preview_sources");
    let grammar = &file(&folder, "grammar", WORDS);
    let record = &file(&folder, "record", RECORD);
    let hex = &file(&folder, "record.hex", HEX);
    let output = &file(&folder, "output", [0xee; 15]);
    let preview = |arguments: &[&str], stdin: &[u8]| {
        let got = route(&[&["preview"], arguments].concat(), stdin);
        assert_eq!(got, previewed(14, 14), "{arguments:?}");
    };
    preview(&[grammar, record, output], b"");
    preview(&["-", record, output, "--index", "1"], WORDS.as_bytes());
    preview(&[grammar, "-", output], &RECORD);
    preview(&["--index=1", record, "-", "-g", TYPES], &[0xee; 15]);
    let digits = "ee ".repeat(14);
    preview(&[grammar, "--hex", hex, "-"], digits.as_bytes());
    assert_eq!(fs::read(output).unwrap(), [0xee; 15]);
    assert_eq!(fs::read(record).unwrap(), RECORD);
}

#[test]
fn preview_is_refused_by_the_reading_then_by_the_writing() {
    let folder = folder("preview_refused");
    let record = &file(&folder, "record", RECORD);
    let constant = &file(&folder, "constant", "");
    let preview = |grammar, record, index: u64, output| {
        let index = &format!("--index={index}");
        route(&["preview", "-g", grammar, record, "-", index], output)
    };
    let too_short = |byte| refused(17, Place::Byte(byte));
    assert_eq!(preview(TYPES, record, 0, &[0; 13]), too_short(13));
    assert_eq!(preview(TYPES, record, 1, &RECORD), too_short(14));
    assert_eq!(preview(TYPES, record, u64::MAX, &RECORD), too_short(14));
    assert_eq!(preview("constant", constant, 3, &[0; 2]), too_short(2));

    let cut = &file(&folder, "cut", &RECORD[..13]);
    assert_eq!(preview(TYPES, cut, 0, &[]), refused(9, Place::Byte(4)));
    let longer = &file(&folder, "longer", [&RECORD[..], &[0]].concat());
    assert_eq!(preview(TYPES, longer, 0, &[]), refused(11, Place::Byte(14)));
}

#[test]
fn preview_of_the_longest_record_and_in_longer_outputs() {
    const COUNT: usize = MAX_BYTES - 8;
    let folder = folder("preview_long");
    let longest = [&COUNT.to_le_bytes()[..], &[1; COUNT]].concat();
    let longest = &file(&folder, "longest", longest);
    let got = route(&["preview", "-gbytes", longest, "-"], &[0; MAX_BYTES]);
    assert_eq!(got, previewed(MAX_BYTES, 1_048_571));
    let got = route(&["preview", "-gbytes", longest, "/dev/zero"], b"");
    assert_eq!(got, previewed(MAX_BYTES, 1_048_571));

    let record = &file(&folder, "record", RECORD);
    let output = [&[0; 2 * MAX_BYTES][..], &RECORD].concat();
    let preview = |index: usize| {
        let index = &format!("--index={index}");
        route(&["preview", "-g", TYPES, record, "-", index], &output)
    };
    assert_eq!(preview(0), previewed(14, 4));
    assert_eq!(preview(2 * MAX_BYTES), previewed(14, 0));
    let end = 2 * MAX_BYTES + 14;
    assert_eq!(
        preview(2 * MAX_BYTES + 1),
        refused(17, Place::Byte(end as u64))
    );
}

/// A tuple of an int32, bytes and an array of uint32, its record, and its XDR.
const TRIMS: &str = "-gtuple(i32, bytes, u32s)";
const TRIMS_RECORD: &str = "ffffffff 02000000 00000000 41420100 00000000 00007856 3412\n";
const TRIMS_XDR: &str = "ffffffff 00000002 41420000 00000001 12345678\n";

#[test]
fn export_and_import_turn_bytes_into_each_other() {
    let folder = folder("xdr");
    let record = &file(&folder, "record.hex", TRIMS_RECORD);
    let xdr = &file(&folder, "xdr.hex", TRIMS_XDR);
    for (command, given, expected) in [("export", record, TRIMS_XDR), ("import", xdr, TRIMS_RECORD)]
    {
        let got = route(&[command, TRIMS, "--hex", given], b"");
        assert_eq!(got, printed(0, expected));
    }
    let raw = [0, 0, 0, 7, 0, 0, 0, 2, 0x41, 0x42, 0, 0];
    let digits = "00000007 00000002 41420000\n";
    assert_eq!(
        route(&["export", "-g", WORDS, "-"], &RECORD),
        printed(0, digits)
    );
    let digits = "07000000 02000000 00000000 4142\n";
    assert_eq!(
        route(&["import", "-g", TYPES, "-"], &raw),
        printed(0, digits)
    );
    for command in ["export", "import"] {
        assert_eq!(route(&[command, "-gconstant", "-"], b""), printed(0, ""));
    }
}

/// The file of RFC 4506, section 7: its name, its type, its owner and its data.
#[test]
fn import_of_the_file_of_the_rfc() {
    let grammar = "-gs = bytes; tuple(s, union(constant, s, s), s, s)";
    let xdr = "00000009 73696c6c 7970726f 67000000 00000002 00000004 6c697370 00000004\n\
               6a6f686e 00000006 28717569 74290000\n";
    let record = "09000000 00000000 73696c6c 7970726f 67020000 00000000 00040000 00000000\n\
                  006c6973 70040000 00000000 006a6f68 6e060000 00000000 00287175 697429\n";
    let got = route(&["import", grammar, "--hex", "-"], xdr.as_bytes());
    assert_eq!(got, printed(0, record));
    let got = route(&["export", grammar, "--hex", "-"], record.as_bytes());
    assert_eq!(got, printed(0, xdr));
}

#[test]
fn export_and_import_refuse_as_reading_does() {
    let hex = |command, digits: &str| route(&[command, TRIMS, "--hex", "-"], digits.as_bytes());
    let byte = |number, byte| refused(number, Place::Byte(byte));
    let record = TRIMS_RECORD.trim_end();
    assert_eq!(hex("export", &record[..record.len() - 2]), byte(9, 14));
    assert_eq!(hex("export", &format!("{record}00")), byte(11, 26));
    let xdr = TRIMS_XDR.trim_end();
    assert_eq!(hex("import", &xdr[..xdr.len() - 2]), byte(9, 12));
    assert_eq!(hex("import", &format!("{xdr}00")), byte(11, 20));
    let padded = hex("import", &xdr.replace("41420000", "41420001"));
    let line =
        "refused 23 at byte 4: the padding of the byte array that starts there is not zero\n";
    assert_eq!(padded, printed(1, line));

    // A value whose XDR is short enough and whose record is not.
    let array = [&[0, 0, 0, 252][..], &[7; 252]].concat();
    let long = [&4_095_u32.to_be_bytes(), &array.repeat(4_095)[..]].concat();
    let got = route(&["import", "-garray(bytes)", "-"], &long);
    assert_eq!(got, refused(16, Place::Row(0)));
}

#[test]
fn words_print_a_table_that_is_read_again() {
    for text in [TYPES, WORDS] {
        assert_eq!(route(&["words", "-g", text], b""), printed(0, WORDS));
    }
    let shared = "n = u32\npair = tuple(n, n)\nunion(pair, array(pair), u64s)";
    let words = "\
5,
8, 0, 3,
3, 3, 1,
4, 4, 2,
1, 0, 0,
7, 0, 0,
6,
2, 1, 4, 2, 3, 3,
";
    assert_eq!(route(&["words", "-g", shared], b""), printed(0, words));
    let again = route(&["words", "-"], words.as_bytes());
    assert_eq!(again, printed(0, words));
}

#[test]
fn words_of_signed_numbers() {
    let array = "\
static const uint32_t trims[] = {
    3,
    4, 0, 2,
    9, 0, 0,
    10, 0, 0,
    2,
    1, 2,
};
";
    let got = route(&["words", "-g", "tuple(i32, i64)", "--c", "trims"], b"");
    assert_eq!(got, printed(0, array));
}

#[test]
fn words_of_many_children_take_several_lines() {
    let text = format!("n = u32; tuple(n{})", ", n".repeat(16));
    let sixteen = ["1"; 16].join(", ");
    let words = format!("2,\n4, 0, 17,\n1, 0, 0,\n17,\n{sixteen},\n1,\n");
    assert_eq!(route(&["words", "-g", &text], b""), printed(0, &words));
    let no_child = route(&["words", "-g", "u32"], b"");
    assert_eq!(no_child, printed(0, "1,\n1, 0, 0,\n0,\n"));
}

/// A C compiler takes what the example of the help shows.
#[test]
fn words_are_an_array_in_c() {
    let array = route(&["words", "-gtuple(u32, bytes)", "--c", "_a1"], b"").stdout;
    let program = format!(
        "#include <stdint.h>\n{array}_Static_assert(sizeof _a1 == 13 * 4, \"\");\n\
         int main(void) {{ return _a1[0] != 3; }}\n"
    );
    let mut compiler = Command::new("cc");
    compiler.args(["-std=c11", "-Wall", "-Werror", "-fsyntax-only", "-xc", "-"]);
    assert_eq!(run(&mut compiler, program.as_bytes()), printed(0, ""));
}

//! XDR: export and import through the calls and through a grammar. Random cases are in
//! `host/compare`.

use route_record::calls::{compute_size_of, demarshall, export_xdr, import_xdr, marshall_val};
use route_record::{Grammar, Imported, Place, Refusal, Value, MAX_BYTES, MAX_ROWS, ROW_WORDS};

/// The pattern of the int32 -1.
const MINUS_ONE: u64 = 4_294_967_295;

/// A tuple of an int32, bytes and an array of uint32: the grammar, the record and the XDR of a
/// value, the rows of an import, with the sizes of the record, and what it puts into the store.
const TUPLE: [u32; 17] = [4, 4, 0, 3, 9, 0, 0, 5, 0, 0, 6, 0, 0, 3, 1, 2, 3];
const RECORD: [u8; 26] = [
    0xff, 0xff, 0xff, 0xff, 2, 0, 0, 0, 0, 0, 0, 0, 0x41, 0x42, 1, 0, 0, 0, 0, 0, 0, 0, 0x78, 0x56,
    0x34, 0x12,
];
const XDR: [u8; 20] = [
    0xff, 0xff, 0xff, 0xff, 0, 0, 0, 2, 0x41, 0x42, 0, 0, 0, 0, 0, 1, 0x12, 0x34, 0x56, 0x78,
];
const ROWS: [u64; 4 * ROW_WORDS] = [
    4, 4, 3, 0, 26, 9, 1, MINUS_ONE, 0, 4, 5, 1, 2, 0, 10, 6, 1, 1, 2, 12,
];
const STORE: [u8; 6] = [0x41, 0x42, 0x78, 0x56, 0x34, 0x12];

/// The file of RFC 4506, section 7: a name, a type with a creator or an interpreter, an owner and
/// data.
const FILE: [u32; 21] = [
    4, 4, 0, 4, 8, 4, 3, 0, 0, 0, 5, 0, 0, 7, 3, 1, 3, 3, 2, 3, 3,
];
const FILE_XDR: &[u8; 48] =
    b"\0\0\0\x09sillyprog\0\0\0\0\0\0\x02\0\0\0\x04lisp\0\0\0\x04john\0\0\0\x06(quit)\0\0";

const CONSTANT: [u32; 5] = [1, 0, 0, 0, 0];
const BYTES: [u32; 5] = [1, 5, 0, 0, 0];

fn refused<T>(number: u64, place: Place) -> Result<T, Refusal> {
    Err(Refusal { number, place })
}

/// The import into so many words and bytes, after a look that what it is not to change, of a refused
/// one all, is as it was.
fn import(
    grammar: &[u32],
    record: &[u8],
    words: usize,
    bytes: usize,
) -> Result<(Imported, Vec<u64>, Vec<u8>), Refusal> {
    let (mut rows, mut store) = (vec![99; words], vec![0xee; bytes]);
    let answer = import_xdr(grammar, record, &mut rows, &mut store);
    let (n, used) = answer.map_or((0, 0), |imported| (imported.rows, imported.used));
    let behind = rows.split_off(ROW_WORDS * n);
    assert_eq!(behind, vec![99; words - ROW_WORDS * n], "{answer:?}");
    let behind = store.split_off(used);
    assert_eq!(behind, vec![0xee; bytes - used], "{answer:?}");
    Ok((answer?, rows, store))
}

/// The refusal of an import.
fn import_refused(grammar: &[u32], record: &[u8], words: usize, bytes: usize) -> (u64, Place) {
    let refusal = import(grammar, record, words, bytes).unwrap_err();
    (refusal.number, refusal.place)
}

#[test]
fn a_tuple_is_exported() {
    let mut rows = [0; 4 * ROW_WORDS];
    let n = demarshall(&TUPLE, &RECORD, &mut rows).unwrap().rows;
    for (length, index) in [(20, 0), (24, 4), (30, 4)] {
        let mut out = vec![0xee; length];
        let size = export_xdr(&TUPLE, &rows, n, &RECORD, &mut out, index);
        assert_eq!(size, Ok(20));
        let mut expected = vec![0xee; length];
        expected[index..][..20].copy_from_slice(&XDR);
        assert_eq!(out, expected);
    }
    for (length, index) in [(23, 4), (20, 1), (19, 0), (0, 0), (20, usize::MAX)] {
        let mut out = vec![0xee; length];
        let size = export_xdr(&TUPLE, &rows, n, &RECORD, &mut out, index);
        assert_eq!(size, refused(17, Place::Byte(length as u64)));
        assert_eq!(out, vec![0xee; length]);
    }
    let nothing = |index| export_xdr(&CONSTANT, &[0, 1, 0, 0, 0], 1, &[], &mut [7; 2], index);
    assert_eq!(
        (nothing(2), nothing(3)),
        (Ok(0), refused(17, Place::Byte(2)))
    );
}

#[test]
fn a_tuple_is_imported() {
    let four_rows = 4 * ROW_WORDS;
    let more_than_all = ROW_WORDS * (MAX_ROWS + 1);
    for (words, bytes) in [
        (four_rows, 6),
        (four_rows + ROW_WORDS - 1, 8),
        (more_than_all, MAX_BYTES),
    ] {
        let (imported, rows, store) = import(&TUPLE, &XDR, words, bytes).unwrap();
        assert_eq!(imported, Imported { rows: 4, used: 6 });
        assert_eq!((&rows[..], &store[..]), (&ROWS[..], &STORE[..]));
    }
    let longer = [&XDR[..], &[0]].concat();
    let padded = |byte: usize| {
        let mut xdr = XDR;
        xdr[byte] = 1;
        xdr
    };
    let byte = Place::Byte;
    for (record, words, bytes, expected) in [
        (&XDR[..], four_rows, 5, (17, byte(5))),
        (&XDR, four_rows, 1, (17, byte(1))),
        (&XDR, four_rows, 0, (17, byte(0))),
        (&XDR, four_rows - 1, 8, (8, byte(12))),
        (&XDR, ROW_WORDS - 1, 8, (8, byte(0))),
        (&XDR[..19], four_rows, 8, (9, byte(12))),
        (&XDR[..11], four_rows, 8, (9, byte(4))),
        (&[], four_rows, 8, (9, byte(0))),
        (&longer, four_rows, 8, (11, byte(20))),
        (&padded(10), four_rows, 8, (23, byte(4))),
        (&padded(11), four_rows, 8, (23, byte(4))),
        (&padded(11), four_rows, 2, (23, byte(4))),
        (&padded(11), four_rows, 1, (17, byte(1))),
        (&padded(11)[..19], four_rows, 8, (23, byte(4))),
    ] {
        assert_eq!(import_refused(&TUPLE, record, words, bytes), expected);
    }
}

#[test]
fn the_file_of_the_rfc() {
    let (imported, rows, store) = import(&FILE, FILE_XDR, 6 * ROW_WORDS, 23).unwrap();
    assert_eq!(imported, Imported { rows: 6, used: 23 });
    let expected = [
        [4, 6, 4, 0, 63],
        [5, 1, 9, 0, 17],
        [8, 2, 2, 0, 20],
        [5, 1, 4, 9, 12],
        [5, 1, 4, 13, 12],
        [5, 1, 6, 17, 14],
    ];
    assert_eq!(rows, expected.concat());
    assert_eq!(store, b"sillyproglispjohn(quit)");
    let mut out = [0xee; 50];
    assert_eq!(export_xdr(&FILE, &rows, 6, &store, &mut out, 1), Ok(48));
    assert_eq!(out, [&[0xee][..], FILE_XDR, &[0xee]].concat()[..]);

    let text = "name = bytes tuple(name, union(constant, name, name), name, name)";
    let grammar = text.parse::<Grammar>().unwrap();
    let value = grammar.import_xdr_vec(FILE_XDR).unwrap();
    assert_eq!((value.row_words(), value.store()), (&rows[..], &store[..]));
    assert_eq!(grammar.export_xdr_vec(&value).unwrap(), FILE_XDR);
}

/// Each export is refused by what comes first in the order of writing; faults of what comes later
/// stand beside it.
#[test]
fn the_refusals_of_an_export_in_their_order() {
    let too_long = vec![0; MAX_BYTES + 1];
    let with_row = |mut rows: [u64; 4 * ROW_WORDS], row: usize, words: [u64; ROW_WORDS]| {
        rows[ROW_WORDS * row..][..ROW_WORDS].copy_from_slice(&words);
        rows
    };
    let outside = with_row(ROWS, 2, [5, 1, 2, 5, 10]);
    let span = with_row(outside, 0, [4, 3, 3, 0, 26]);
    let size = with_row(outside, 1, [9, 1, MINUS_ONE, 0, 5]);
    let most = MAX_BYTES as u64;
    let too_large = with_row(ROWS, 0, [4, 4, 3, 0, most + 9]);
    let too_large = with_row(too_large, 2, [5, 1, most - 15, 0, most - 7]);
    let kind = [1, 11, 0, 0, 0];
    for (grammar, rows, n, store, number, place) in [
        (&[][..], ROWS, 0, &too_long[..], 1, Place::Word(0)),
        (&TUPLE[..16], ROWS, 0, &too_long, 2, Place::Word(13)),
        (&kind, ROWS, 0, &too_long, 3, Place::Word(1)),
        (&[1, 0, 0, 1, 0], ROWS, 0, &too_long, 4, Place::Word(2)),
        (&[1, 4, 0, 1, 1, 0], ROWS, 0, &too_long, 5, Place::Word(5)),
        (&CONSTANT, span, 0, &too_long, 6, Place::Byte(0)),
        (&CONSTANT, span, 0, &STORE, 12, Place::Row(0)),
        (&CONSTANT, span, 4, &STORE, 13, Place::Row(0)),
        (&CONSTANT, size, 4, &STORE, 13, Place::Row(1)),
        (&CONSTANT, outside, 4, &STORE, 14, Place::Row(2)),
        (&BYTES, too_large, 4, &too_long[1..], 15, Place::Row(0)),
        (&TUPLE, too_large, 4, &too_long[1..], 16, Place::Row(0)),
        (&TUPLE, ROWS, 4, &STORE, 17, Place::Byte(1)),
    ] {
        let mut out = [0xee];
        let answer = export_xdr(grammar, &rows, n, store, &mut out, 0);
        assert_eq!((answer, out), (refused(number, place), [0xee]));
    }
}

/// The grammar's refusals come first, then 6 for the record or the store, then what the values are
/// refused by.
#[test]
fn the_refusals_before_a_value_is_read() {
    let (too_long, word, byte) = (vec![0; MAX_BYTES + 1], Place::Word, Place::Byte);
    let most = &too_long[1..];
    let kind = [1, 11, 0, 0, 0];
    for (grammar, record, bytes, expected) in [
        (&[][..], &too_long[..], MAX_BYTES + 1, (1, word(0))),
        (&TUPLE[..16], &too_long, MAX_BYTES + 1, (2, word(13))),
        (&kind, &too_long, MAX_BYTES + 1, (3, word(1))),
        (&[1, 0, 0, 1, 0], &too_long, 0, (4, word(2))),
        (&[1, 4, 0, 1, 1, 0], &[], MAX_BYTES + 1, (5, word(5))),
        (&CONSTANT, &too_long, 0, (6, byte(0))),
        (&CONSTANT, &[], MAX_BYTES + 1, (6, byte(0))),
        (&CONSTANT, most, MAX_BYTES, (8, byte(0))),
    ] {
        assert_eq!(
            import_refused(grammar, record, ROW_WORDS - 1, bytes),
            expected
        );
    }
    let refusal = import_refused(&CONSTANT, most, ROW_WORDS, MAX_BYTES);
    assert_eq!(refusal, (11, byte(0)));
}

/// Padding of every length: all of it has to be there and to be zero, and it is not put into the
/// store.
#[test]
fn byte_arrays_of_each_remainder_by_four() {
    for length in 0..=9 {
        let elements: Vec<u8> = (1..=length).collect();
        let padding = (4 - length as usize % 4) % 4;
        let xdr = [&[0, 0, 0, length], &elements[..], &vec![0; padding]].concat();
        let size = xdr.len();
        let (imported, rows, store) = import(&BYTES, &xdr, ROW_WORDS, 9).unwrap();
        let used = elements.len();
        assert_eq!(imported, Imported { rows: 1, used });
        let row = vec![5, 1, used as u64, 0, used as u64 + 8];
        assert_eq!((rows, store), (row, elements));
        for front in 0..size {
            let refusal = import_refused(&BYTES, &xdr[..front], ROW_WORDS, 9);
            assert_eq!(refusal, (9, Place::Byte(0)));
        }
        for place in size - padding..size {
            let mut other = xdr.clone();
            other[place] = 0x80;
            let refusal = import_refused(&BYTES, &other, ROW_WORDS, 9);
            assert_eq!(refusal, (23, Place::Byte(0)));
        }
        let behind = (11, Place::Byte(size as u64));
        assert_eq!(
            import_refused(&BYTES, &[&xdr[..], &[0]].concat(), ROW_WORDS, 9),
            behind
        );
    }
}

/// Places of arrays without elements are those of the arrays behind which they stand.
#[test]
fn arrays_lie_one_behind_the_other() {
    let three = "tuple(bytes, bytes, bytes)".parse::<Grammar>().unwrap();
    let xdr = [0, 0, 0, 0, 0, 0, 0, 3, 7, 8, 9, 0, 0, 0, 0, 0];
    let value = three.import_xdr_vec(&xdr).unwrap();
    let places: Vec<_> = value
        .row_words()
        .chunks(ROW_WORDS)
        .map(|row| row[3])
        .collect();
    assert_eq!((places, value.store()), (vec![0, 0, 0, 3], &[7, 8, 9][..]));
}

#[test]
fn no_store_is_enough_where_there_are_no_elements() {
    let constants = [2, 3, 0, 1, 0, 0, 0, 1, 1];
    let (imported, rows, _) = import(&constants, &[0, 0, 0, 3], 4 * ROW_WORDS, 0).unwrap();
    assert_eq!(imported, Imported { rows: 4, used: 0 });
    assert_eq!(rows[..2 * ROW_WORDS], [3, 4, 3, 0, 8, 0, 1, 0, 0, 0]);
    let (_, row, _) = import(&BYTES, &[0; 4], ROW_WORDS, 0).unwrap();
    assert_eq!(row, [5, 1, 0, 0, 8]);
    let many = [0xff; 4];
    assert_eq!(
        import_refused(&constants, &many, ROW_WORDS * MAX_ROWS, 0),
        (8, Place::Byte(0))
    );
    let refusal = import_refused(&BYTES, &many, ROW_WORDS, 0);
    assert_eq!(refusal, (9, Place::Byte(0)));
}

/// A value with every kind, and its grammar.
fn every_kind() -> (Value<'static>, Grammar) {
    let text = "tuple(array(union(constant, u64)), bytes, u32s, u64s, u32, i32, i64, bytes)";
    let value = Value::build(|value| {
        value.tuple(|fields| {
            fields.array(|cases| {
                cases.tagged_union(0, |case| case.constant());
                cases.tagged_union(1, |case| case.uint64(258));
            });
            fields.byte_array(b"ABCDE");
            fields.uint32_array(&[7, u32::MAX, 0x1234_5678]);
            fields.uint64_array(&[u64::MAX, 0x0102_0304_0506_0708]);
            fields.uint32(7);
            fields.int32(-3);
            fields.int64(i64::MIN);
            fields.byte_array(b"F");
        });
    });
    (value.unwrap(), text.parse().unwrap())
}

const EVERY_KIND_XDR: &[u8; 92] = b"\
    \0\0\0\x02\0\0\0\0\0\0\0\x01\0\0\0\0\0\0\x01\x02\
    \0\0\0\x05ABCDE\0\0\0\
    \0\0\0\x03\0\0\0\x07\xff\xff\xff\xff\x12\x34\x56\x78\
    \0\0\0\x02\xff\xff\xff\xff\xff\xff\xff\xff\x01\x02\x03\x04\x05\x06\x07\x08\
    \0\0\0\x07\xff\xff\xff\xfd\x80\0\0\0\0\0\0\0\
    \0\0\0\x01F\0\0\0";

/// Both round trips, into rows and a store that are just enough, and with vectors: the value that
/// was exported is imported, and what was imported is exported as the same bytes.
#[test]
fn every_kind_goes_round() {
    let (value, grammar) = every_kind();
    let (n, xdr) = (value.row_count(), grammar.export_xdr_vec(&value).unwrap());
    assert_eq!(xdr, EVERY_KIND_XDR);
    let (mut rows, mut store) = (vec![99; ROW_WORDS * n + 3], vec![0xee; 40]);
    let imported = grammar.import_xdr(&xdr, &mut rows, &mut store).unwrap();
    assert_eq!((imported.row_count(), imported.store().len()), (n, 34));
    let of_vec = grammar.import_xdr_vec(&xdr).unwrap();
    assert_eq!(of_vec.row_words(), imported.row_words());
    assert_eq!(of_vec.store(), imported.store());
    let record = grammar.marshall_vec(&value).unwrap();
    assert_eq!(grammar.marshall_vec(&imported).unwrap(), record);
    for index in [0, 5] {
        let mut out = vec![0xee; xdr.len() + 5];
        let size = grammar.export_xdr(&imported, &mut out, index);
        assert_eq!(size, Ok(xdr.len()));
        assert_eq!(out[index..][..xdr.len()], xdr);
        let others = [&out[..index], &out[index + xdr.len()..]].concat();
        assert_eq!(others, [0xee; 5]);
    }
    assert_eq!(store[34..], [0xee; 6]);
    assert_eq!(rows[ROW_WORDS * n..], [99; 3]);
}

/// A row or a byte of the store too few, and what a grammar refuses, leave rows, store and output.
#[test]
fn what_a_grammar_refuses() {
    let (value, grammar) = every_kind();
    let (n, xdr) = (value.row_count(), EVERY_KIND_XDR);
    let (mut rows, mut store) = (vec![99; ROW_WORDS * n], vec![0xee; 34]);
    let fewer = &mut rows[..ROW_WORDS * n - 1];
    let refusal = grammar.import_xdr(xdr, fewer, &mut store).unwrap_err();
    assert_eq!((refusal.number, refusal.place), (8, Place::Byte(84)));
    let refusal = grammar.import_xdr(xdr, &mut rows, &mut store[..33]);
    let refusal = refusal.unwrap_err();
    assert_eq!((refusal.number, refusal.place), (17, Place::Byte(33)));
    for front in 0..xdr.len() {
        let refusal = grammar.import_xdr_vec(&xdr[..front]).unwrap_err();
        assert_eq!(refusal.number, Refusal::BYTES_MISSING);
    }
    assert_eq!((&rows, &store), (&vec![99; ROW_WORDS * n], &vec![0xee; 34]));

    let uint32 = Grammar::check(&[1, 1, 0, 0, 0]).unwrap();
    let refusal = uint32.export_xdr_vec(&value).unwrap_err();
    assert_eq!((refusal.number, refusal.place), (15, Place::Row(0)));
    let too_long = vec![0; MAX_BYTES + 1];
    let refusal = uint32.import_xdr_vec(&too_long).unwrap_err();
    assert_eq!((refusal.number, refusal.place), (6, Place::Byte(0)));
}

/// 16 speaks of the XDR size alone: 4,095 byte arrays of 252 bytes are too long as a record, and of
/// 253 bytes too long as XDR. As XDR the first are read again, with 4,096 rows and a store that is
/// no longer than they are.
#[test]
fn a_value_that_only_xdr_can_hold() {
    let grammar = "array(bytes)".parse::<Grammar>().unwrap();
    let store = vec![7; 253];
    let arrays = |length: u64| -> Vec<u64> {
        let row = [5, 1, length, 0, length + 8];
        let size = 8 + 4_095 * (length + 8);
        [&[3, 4_096, 4_095, 0, size][..], &row.repeat(4_095)].concat()
    };
    let rows = arrays(252);
    assert_eq!(compute_size_of(&rows, 4_096, &store), Ok(1_064_708));
    let value = Value::check(&rows, 4_096, &store).unwrap();
    let xdr = grammar.export_xdr_vec(&value).unwrap();
    assert_eq!(xdr.len(), 1_048_324);
    let imported = grammar.import_xdr_vec(&xdr).unwrap();
    assert_eq!(
        (imported.row_count(), imported.store().len()),
        (4_096, 1_031_940)
    );
    assert_eq!(imported.size(), 1_064_708);
    assert_eq!(grammar.export_xdr_vec(&imported).unwrap(), xdr);
    assert_eq!(grammar.marshall_vec(&imported).unwrap_err().number, 16);

    let rows = arrays(253);
    let value = Value::check(&rows, 4_096, &store).unwrap();
    let refusal = grammar.export_xdr_vec(&value).unwrap_err();
    assert_eq!((refusal.number, refusal.place), (16, Place::Row(0)));
}

/// The longest XDR, and what the same value's record has more.
#[test]
fn the_longest_xdr() {
    let bytes = Grammar::check(&BYTES).unwrap();
    let store = vec![1; MAX_BYTES];
    let of_length = |length: usize| {
        let row = [5, 1, length as u64, 0, length as u64 + 8];
        let mut out = vec![0; MAX_BYTES];
        let exported = export_xdr(&BYTES, &row, 1, &store, &mut out, 0);
        exported.map(|size| out[..size].to_vec())
    };
    for length in [MAX_BYTES - 8, MAX_BYTES - 7, MAX_BYTES - 4] {
        let xdr = of_length(length).unwrap();
        let size = MAX_BYTES - if length == MAX_BYTES - 8 { 4 } else { 0 };
        assert_eq!(xdr.len(), size);
        let value = bytes.import_xdr_vec(&xdr).unwrap();
        assert_eq!(value.store(), &store[..length]);
        let row = value.row_words();
        let mut out = vec![0; MAX_BYTES];
        let written = marshall_val(&BYTES, row, 1, value.store(), &mut out, 0);
        let too_long = refused(16, Place::Row(0));
        let expected = if length == MAX_BYTES - 8 {
            Ok(MAX_BYTES)
        } else {
            too_long
        };
        assert_eq!(written, expected);
    }
    assert_eq!(of_length(MAX_BYTES - 3), refused(16, Place::Row(0)));
}

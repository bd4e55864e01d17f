//! Preview: what writing to a copy of the output gives and changes. Random cases are in
//! `host/compare`.

use route_record::calls::{marshall_val, preview};
use route_record::{Grammar, Place, Preview, Refusal, Value, MAX_BYTES, ROW_WORDS};

/// Case A of document 01: a tuple of a uint32 and bytes, its rows, and its record.
const TUPLE: [u32; 13] = [3, 4, 0, 2, 1, 0, 0, 5, 0, 0, 2, 1, 2];
const ROWS: [u64; 3 * ROW_WORDS] = [4, 3, 2, 0, 14, 1, 1, 7, 0, 4, 5, 1, 2, 12, 10];
const RECORD: [u8; 14] = [7, 0, 0, 0, 2, 0, 0, 0, 0, 0, 0, 0, 0x41, 0x42];

const CONSTANT: [u32; 5] = [1, 0, 0, 0, 0];
const BYTES: [u32; 5] = [1, 5, 0, 0, 0];
const UINT32S: [u32; 5] = [1, 6, 0, 0, 0];

/// The preview of rows, after the comparison with writing to a copy of the output.
fn previewed(
    grammar: &[u32],
    (rows, n): (&[u64], usize),
    store: &[u8],
    out: &[u8],
    index: usize,
) -> Result<Preview, Refusal> {
    let mut copy = out.to_vec();
    let written = marshall_val(grammar, rows, n, store, &mut copy, index);
    let places = out.iter().zip(&copy);
    let changed = places.filter(|(before, after)| before != after).count();
    let expected = written.map(|size| Preview { size, changed });
    let answer = preview(grammar, rows, n, store, out, index);
    assert_eq!(answer, expected, "{out:x?} at {index}");
    answer
}

/// The preview of case A.
fn over(out: &[u8], index: usize) -> Result<Preview, Refusal> {
    previewed(&TUPLE, (&ROWS, 3), &RECORD, out, index)
}

fn accepted(size: usize, changed: usize) -> Result<Preview, Refusal> {
    Ok(Preview { size, changed })
}

fn refused(number: u64, place: Place) -> Result<Preview, Refusal> {
    Err(Refusal { number, place })
}

#[test]
fn the_bytes_that_would_differ_are_counted() {
    assert_eq!(over(&[0; 14], 0), accepted(14, 4));
    assert_eq!(over(&[0; 20], 3), accepted(14, 4));
    assert_eq!(over(&[0xee; 14], 0), accepted(14, 14));
    assert_eq!(over(&[0xee; 17], 1), accepted(14, 14));
    assert_eq!(over(&RECORD, 0), accepted(14, 0));
    let last = [&RECORD[..13], &[0x43]].concat();
    assert_eq!(over(&last, 0), accepted(14, 1));
    let longer = [&RECORD[..], &[0]].concat();
    assert_eq!(over(&longer, 1), accepted(14, 6));

    let out = [1, 0, 0, 0, 0, 0, 0, 0, 0x78, 0, 0x34, 0];
    let row: (&[u64], usize) = (&[6, 1, 1, 0, 12], 1);
    let answer = previewed(&UINT32S, row, &[0x78, 0x56, 0x34, 0x12], &out, 0);
    assert_eq!(answer, accepted(12, 2));
}

#[test]
fn an_output_that_ends_too_early() {
    let too_short = |length| refused(17, Place::Byte(length));
    assert_eq!(over(&[0; 13], 0), too_short(13));
    assert_eq!(over(&[0; 14], 1), too_short(14));
    assert_eq!(over(&[0; 14], usize::MAX), too_short(14));
    assert_eq!(over(&[], 0), too_short(0));

    let row: (&[u64], usize) = (&[0, 1, 0, 0, 0], 1);
    let constant = |index| previewed(&CONSTANT, row, &[], &[7; 2], index);
    assert_eq!(constant(2), accepted(0, 0));
    assert_eq!(constant(3), too_short(2));
}

/// Each is refused by what comes first in the order of writing; faults of what comes later stand
/// beside it.
#[test]
fn the_refusals_are_those_of_writing_in_their_order() {
    let too_long = vec![0; MAX_BYTES + 1];
    let with_row = |mut rows: [u64; 3 * ROW_WORDS], row: usize, words: [u64; ROW_WORDS]| {
        rows[ROW_WORDS * row..][..ROW_WORDS].copy_from_slice(&words);
        rows
    };
    let outside = with_row(ROWS, 2, [5, 1, 2, 13, 10]);
    let span = with_row(outside, 0, [4, 2, 2, 0, 14]);
    let size = with_row(outside, 1, [1, 1, 7, 0, 5]);
    let most = MAX_BYTES as u64;
    let too_large = with_row(ROWS, 0, [4, 3, 2, 0, most + 1]);
    let too_large = with_row(too_large, 2, [5, 1, most - 11, 0, most - 3]);
    let kind = [1, 11, 0, 0, 0];
    let record = &RECORD[..];
    for (grammar, rows, n, store, number, place) in [
        (&[][..], ROWS, 0, &too_long[..], 1, Place::Word(0)),
        (&TUPLE[..12], ROWS, 0, &too_long, 2, Place::Word(10)),
        (&kind, ROWS, 0, &too_long, 3, Place::Word(1)),
        (&[1, 0, 0, 1, 0], ROWS, 0, &too_long, 4, Place::Word(2)),
        (&[1, 4, 0, 1, 1, 0], ROWS, 0, &too_long, 5, Place::Word(5)),
        (&CONSTANT, span, 0, &too_long, 6, Place::Byte(0)),
        (&CONSTANT, span, 0, record, 12, Place::Row(0)),
        (&CONSTANT, span, 3, record, 13, Place::Row(0)),
        (&CONSTANT, size, 3, record, 13, Place::Row(1)),
        (&CONSTANT, outside, 3, record, 14, Place::Row(2)),
        (&BYTES, too_large, 3, &too_long[1..], 15, Place::Row(0)),
        (&TUPLE, too_large, 3, &too_long[1..], 16, Place::Row(0)),
        (&TUPLE, ROWS, 3, record, 17, Place::Byte(1)),
    ] {
        let answer = previewed(grammar, (&rows, n), store, &[0xee], 0);
        assert_eq!(answer, refused(number, place));
    }
}

#[test]
fn the_longest_record_and_longer_outputs() {
    let store = vec![1; MAX_BYTES];
    let bytes = |count: usize, out: &[u8], index| {
        let row: (&[u64], usize) = (&[5, 1, count as u64, 0, count as u64 + 8], 1);
        previewed(&BYTES, row, &store, out, index)
    };
    let out = vec![0; MAX_BYTES + 5];
    let most = MAX_BYTES - 8;
    let answer = accepted(MAX_BYTES, 1_048_571);
    assert_eq!(bytes(most, &out[..MAX_BYTES], 0), answer);
    assert_eq!(bytes(most, &out, 5), answer);
    let end = Place::Byte(out.len() as u64);
    assert_eq!(bytes(most, &out, 6), refused(17, end));
    assert_eq!(bytes(most + 1, &out, 0), refused(16, Place::Row(0)));
}

/// A value with every kind, and its grammar.
fn every_kind() -> (Value<'static>, Grammar) {
    let text = "tuple(array(union(constant, u64)), bytes, u32s, u64s, u32, i32, i64)";
    let value = Value::build(|value| {
        value.tuple(|fields| {
            fields.array(|cases| {
                cases.tagged_union(0, |case| case.constant());
                cases.tagged_union(1, |case| case.uint64(258));
            });
            fields.byte_array(b"AB");
            fields.uint32_array(&[7, u32::MAX]);
            fields.uint64_array(&[u64::MAX]);
            fields.uint32(7);
            fields.int32(-3);
            fields.int64(i64::MIN);
        });
    });
    (value.unwrap(), text.parse().unwrap())
}

/// At each place in and behind outputs that hold nothing of the record, all of it, all of it one
/// byte further on, and all but one byte.
#[test]
fn every_index_of_several_outputs() {
    let (value, grammar) = every_kind();
    let (rows, n) = (value.row_words(), value.row_count());
    let record = grammar.marshall_vec(&value).unwrap();
    let size = record.len();
    let further = [&[0xee], &record[..], &[0xee]].concat();
    let mut outputs = vec![vec![0; size + 2], vec![0xff; size], record.clone(), further];
    outputs.extend((0..size).map(|byte| {
        let mut out = record.clone();
        out[byte] ^= 0x40;
        out
    }));
    for (number, out) in outputs.iter().enumerate() {
        let answers = (0..out.len() + 2).map(|index| {
            let answer = previewed(grammar.words(), (rows, n), value.store(), out, index);
            assert_eq!(grammar.preview(&value, out, index), answer);
            answer
        });
        let accepted = answers.flatten().collect::<Vec<_>>();
        assert_eq!(accepted.len(), out.len() - size + 1);
        match number {
            2 => assert_eq!(accepted[0].changed, 0),
            3 => assert_eq!(accepted[1].changed, 0),
            4.. => assert_eq!(accepted[0].changed, 1),
            _ => (),
        }
    }
}

/// Slices that are only read may be the same one.
#[test]
fn a_store_that_is_the_output() {
    let bytes = [2, 0, 0, 0, 0, 0, 0, 0, 0x41, 0x42];
    let row: (&[u64], usize) = (&[5, 1, 2, 8, 10], 1);
    assert_eq!(previewed(&BYTES, row, &bytes, &bytes, 0), accepted(10, 0));
    let row: (&[u64], usize) = (&[5, 1, 1, 9, 9], 1);
    assert_eq!(previewed(&BYTES, row, &bytes, &bytes, 0), accepted(9, 2));
}

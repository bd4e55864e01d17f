//! Values: their rows as a tree, and what reading and writing under a grammar do with the slices
//! lent. `host/compare/tests/bindings.rs` has random values.

use std::collections::HashSet;
use std::thread;

use route_record::calls::{compute_size_of, signed_number};
use route_record::{
    Builder, Grammar, Place, Refusal, Value, CHECK_ROWS, KINDS, MAX_BYTES, MAX_ROWS, REFUSALS,
    ROW_WORDS,
};

fn grammar() -> Grammar {
    let text = "tuple(u32, array(union(bytes, u64s)), tuple())";
    text.parse().unwrap()
}

/// A record of it: 7, the elements "AB" and 1 and 2^63, and the empty tuple.
fn record() -> Vec<u8> {
    let numbers = |numbers: &[u64]| numbers.iter().flat_map(|n| n.to_le_bytes()).collect();
    let parts: [Vec<u8>; 4] = [
        7_u32.to_le_bytes().to_vec(),
        numbers(&[2, 0, 2]),
        b"AB".to_vec(),
        numbers(&[1, 2, 1, 1 << 63]),
    ];
    parts.concat()
}

#[test]
fn the_rows_in_preorder_with_their_depths() {
    let record = record();
    let value = grammar().demarshall_vec(&record).unwrap();
    let rows = value.rows().map(|(depth, row)| format!("{depth} {row:?}"));
    let expected = [
        "0 Row(0: tuple [4, 8, 3, 0, 62])",
        "1 Row(1: u32 [1, 1, 7, 0, 4])",
        "1 Row(2: array [3, 5, 2, 0, 58])",
        "2 Row(3: union [8, 2, 0, 0, 18])",
        "3 Row(4: bytes [5, 1, 2, 28, 10])",
        "2 Row(5: union [8, 2, 1, 0, 32])",
        "3 Row(6: u64s [7, 1, 2, 46, 24])",
        "1 Row(7: tuple [4, 1, 0, 0, 0])",
    ];
    assert_eq!(rows.collect::<Vec<_>>(), expected);
}

#[test]
fn what_is_shown_of_a_large_value_is_short() {
    let value =
        Value::build(|value| value.array(|v| (0..4_000).for_each(|_| v.byte_array(&[9; 200]))));
    let value = value.unwrap();
    let child = value.root().child(7).unwrap();
    for (shown, expected) in [
        (
            format!("{value:?}"),
            "Value(rows 4001, bytes of the store 800000)",
        ),
        (
            format!("{:?}", value.rows()),
            "Rows(next 0 of Value(rows 4001, bytes of the store 800000))",
        ),
        (format!("{child:?}"), "Row(8: bytes [5, 1, 200, 1400, 208])"),
        (
            format!("{:?}", child.contents()),
            "Elements(Elements(width 1, bytes 1400..1600))",
        ),
    ] {
        assert_eq!(shown, expected);
    }
    assert!(format!("{:?}", value.root().contents()).len() < 100);
}

#[test]
fn lent_rows_and_rows_in_a_vec_are_the_same() {
    let (grammar, record) = (grammar(), record());
    let in_vec = grammar.demarshall_vec(&record).unwrap();
    let mut rows = [99; ROW_WORDS * 9];
    let lent = grammar.demarshall(&record, &mut rows).unwrap();
    assert_eq!(lent.row_words(), in_vec.row_words());
    assert_eq!(rows[ROW_WORDS * 8..], [99; ROW_WORDS]);

    let longer = [&[0xff], &record[..], &[0xff]].concat();
    let end = 1 + record.len();
    let (in_vec, rest_index) = grammar.parse_val_vec(&longer, 1).unwrap();
    assert_eq!(rest_index, end);
    let (lent, rest_index) = grammar.parse_val(&longer, 1, &mut rows).unwrap();
    assert_eq!((lent.row_words(), rest_index), (in_vec.row_words(), end));
    assert_eq!(grammar.check_val(&longer, 1).unwrap().rest_index, end);

    let mut out = vec![0xff; record.len() + 2];
    assert_eq!(grammar.marshall_val(&in_vec, &mut out, 1), Ok(record.len()));
    assert_eq!(out, longer);
    assert_eq!(grammar.marshall(&in_vec, &mut out), Ok(record.len()));
    assert_eq!(out[..record.len()], record);
}

#[test]
fn values_of_more_rows_than_a_check_takes_are_read_and_written() {
    let grammar = "array(u32)".parse::<Grammar>().unwrap();
    for row_count in [CHECK_ROWS + 1, 3_000, MAX_ROWS] {
        let numbers = 1..row_count as u32;
        let value = Value::build(|value| value.array(|v| numbers.for_each(|n| v.uint32(n))));
        let value = value.unwrap();
        let record = grammar.marshall_vec(&value).unwrap();
        let read = grammar.demarshall_vec(&record).unwrap();
        assert_eq!(read.row_count(), row_count);
        assert_eq!(read.row_words(), value.row_words());
        assert_eq!(grammar.marshall_vec(&read).unwrap(), record);

        let longer = [&[0xff], &record[..], &[0xff]].concat();
        let (read, rest_index) = grammar.parse_val_vec(&longer, 1).unwrap();
        assert_eq!(rest_index, 1 + record.len());
        assert_eq!(read.row_words(), value.row_words());
        assert_eq!(grammar.marshall_vec(&read).unwrap(), record);
    }
}

#[test]
fn a_refusal_changes_no_slice() {
    let (grammar, record) = (grammar(), record());
    let refusal = |number, byte: usize| Refusal {
        number,
        place: Place::Byte(byte as u64),
    };
    let mut rows = [99; ROW_WORDS * 9];
    let cut = &record[..record.len() - 1];
    let cut_short = refusal(Refusal::BYTES_MISSING, 38);
    assert_eq!(grammar.demarshall(cut, &mut rows).unwrap_err(), cut_short);
    assert_eq!(grammar.parse_val(cut, 0, &mut rows).unwrap_err(), cut_short);
    assert_eq!(rows, [99; ROW_WORDS * 9]);

    let value = grammar.demarshall_vec(&record).unwrap();
    let mut out = vec![0xff; cut.len()];
    let too_short = refusal(Refusal::OUTPUT_TOO_SHORT, cut.len());
    assert_eq!(grammar.marshall(&value, &mut out), Err(too_short));
    assert!(out.iter().all(|&byte| byte == 0xff));
}

#[test]
fn a_value_of_more_bytes_than_may_be_written_has_a_size() {
    let store = vec![0; MAX_BYTES];
    let mut rows = vec![3, MAX_ROWS as u64, MAX_ROWS as u64 - 1, 0, 4_293_951_488];
    rows.extend([5, 1, MAX_BYTES as u64, 0, MAX_BYTES as u64 + 8].repeat(MAX_ROWS - 1));
    let value = Value::check(&rows, MAX_ROWS, &store).unwrap();
    assert_eq!(value.size(), 4_293_951_488);

    let array_of_bytes = "array(bytes)".parse::<Grammar>().unwrap();
    let refusal = array_of_bytes.marshall_vec(&value).unwrap_err();
    assert_eq!((refusal.number, refusal.place), (16, Place::Row(0)));
}

#[test]
fn elements_are_equal_by_bytes_and_width_wherever_they_lie() {
    let rows = [
        [4, 4, 3, 0, 36],
        [5, 1, 4, 0, 12],
        [5, 1, 4, 4, 12],
        [6, 1, 1, 4, 12],
    ]
    .concat();
    let value = Value::check(&rows, 4, &[7, 0, 0, 0, 7, 0, 0, 0]).unwrap();
    let elements = value.root().children().map(|row| row.elements().unwrap());
    let elements: Vec<_> = elements.collect();
    assert_eq!(elements[0], elements[1]);
    assert_ne!(elements[1], elements[2]);
    assert_eq!(elements.iter().collect::<HashSet<_>>().len(), 2);
}

/// A value of every kind, in which each kind with children has some.
fn every_kind() -> Value<'static> {
    let value = Value::build(|value| {
        value.tuple(|fields| {
            fields.constant();
            fields.uint32(u32::MAX);
            fields.uint64(u64::MAX);
            fields.array(|trims| {
                trims.int32(-1);
                trims.int32(i32::MIN);
            });
            fields.byte_array(&[0xff; 8]);
            fields.uint32_array(&[u32::MAX]);
            fields.uint64_array(&[u64::MAX]);
            fields.tagged_union(9, |value| value.int64(i64::MIN));
            fields.int32(i32::MAX);
            fields.int64(-3);
        });
    });
    value.unwrap()
}

/// A builder sets the size of every value that it closes: that of the part of the table that starts
/// with the row.
#[test]
fn each_row_has_the_size_that_the_library_gives() {
    let value = every_kind();
    let mut kinds = HashSet::new();
    for (_, row) in value.rows() {
        let span = row.words()[1] as usize;
        let part = &value.row_words()[ROW_WORDS * row.index()..][..ROW_WORDS * span];
        let size = compute_size_of(part, span, value.store());
        assert_eq!(Ok(row.size()), size, "{row:?}");
        kinds.insert(row.kind());
    }
    assert_eq!(kinds.len(), KINDS.len());
    assert_eq!(value.size(), 100);
}

#[test]
fn a_wrong_size_is_refused_at_its_row() {
    let value = every_kind();
    let n = value.row_count();
    for row in 0..n {
        for wrong in [1, u64::MAX, 1 << 32] {
            let mut rows = value.row_words().to_vec();
            let size = &mut rows[ROW_WORDS * row + 4];
            *size = size.wrapping_add(wrong);
            let refusal = Value::check(&rows, n, value.store()).unwrap_err();
            let place = Place::Row(row as u64);
            assert_eq!((refusal.number, refusal.place), (13, place));
        }
    }
}

/// The order of a wrong size and of other faults, on the rows of case A of document 01.
#[test]
fn a_wrong_size_is_found_behind_the_children_of_its_row() {
    let case_a = [4, 3, 2, 0, 14, 1, 1, 7, 0, 4, 5, 1, 2, 12, 10];
    let (size_0, size_1, size_2) = ((0, 4, 13), (1, 4, 5), (2, 4, 9));
    let (kind_2, place_2) = ((2, 0, 11), (2, 3, 13));
    for (faults, number, row) in [
        (&[size_0][..], 13, 0),
        (&[size_1], 13, 1),
        (&[size_0, size_1], 13, 1),
        (&[size_1, kind_2], 13, 1),
        (&[size_1, place_2], 13, 1),
        (&[size_2, place_2], 14, 2),
        (&[size_0, place_2], 14, 2),
        (&[size_0, size_2], 13, 2),
        (&[(0, 2, 1), size_0], 13, 0),
        (&[(0, 2, 3), size_2], 13, 2),
    ] {
        let mut rows = case_a;
        for &(row, word, number) in faults {
            rows[ROW_WORDS * row + word] = number;
        }
        let refusal = Value::check(&rows, 3, &[0; 14]).unwrap_err();
        assert_eq!((refusal.number, refusal.place), (number, Place::Row(row)));
    }
}

/// Rows of four words, with no word behind them, are too few words.
#[test]
fn a_table_without_sizes_is_refused() {
    let without_sizes = [4, 3, 2, 0, 1, 1, 7, 0, 5, 1, 2, 12];
    let refusal = Value::check(&without_sizes, 3, &[0; 14]).unwrap_err();
    assert_eq!((refusal.number, refusal.place), (12, Place::Row(0)));
}

/// A signed number is written as these bytes under its type, and read back from them.
fn assert_signed(text: &str, make: impl FnOnce(&mut Builder), bytes: &[u8], number: i64) {
    let grammar = text.parse::<Grammar>().unwrap();
    let built = Value::build(make).unwrap();
    assert_eq!(grammar.marshall_vec(&built).unwrap(), bytes);
    let read = grammar.demarshall_vec(bytes).unwrap();
    let row = read.root();
    assert_eq!((row.kind().text, row.words()), (text, built.row_words()));
    assert_eq!((row.signed(), row.number()), (Some(number), None));
    assert_eq!(format!("{:?}", row.contents()), format!("Signed({number})"));
}

#[test]
fn signed_numbers_at_the_ends_of_both_widths() {
    for (pattern, number) in [
        (0_u32, 0),
        (1, 1),
        (2_147_483_646, i32::MAX - 1),
        (2_147_483_647, i32::MAX),
        (2_147_483_648, i32::MIN),
        (2_147_483_649, i32::MIN + 1),
        (4_294_967_294, -2),
        (4_294_967_295, -1),
    ] {
        let make = |value: &mut Builder| value.int32(number);
        assert_signed("i32", make, &pattern.to_le_bytes(), number.into());
    }
    for (pattern, number) in [
        (0_u64, 0),
        (4_294_967_295, 4_294_967_295),
        (9_223_372_036_854_775_806, i64::MAX - 1),
        (9_223_372_036_854_775_807, i64::MAX),
        (9_223_372_036_854_775_808, i64::MIN),
        (9_223_372_036_854_775_809, i64::MIN + 1),
        (18_446_744_073_709_551_614, -2),
        (18_446_744_073_709_551_615, -1),
    ] {
        let make = |value: &mut Builder| value.int64(number);
        assert_signed("i64", make, &pattern.to_le_bytes(), number);
    }
}

/// Every kind stands in a row, and each row has a signed number where the library gives one.
#[test]
fn a_row_has_the_signed_number_that_the_library_gives() {
    let value = every_kind();
    let (rows, n, store) = (value.row_words(), value.row_count(), value.store());
    let (mut kinds, mut numbers) = (HashSet::new(), Vec::new());
    for (_, row) in value.rows() {
        let not_signed = Refusal {
            number: Refusal::NOT_SIGNED,
            place: Place::Row(row.index() as u64),
        };
        let given = signed_number(rows, n, store, row.index());
        assert_eq!(row.signed().ok_or(not_signed), given, "{row:?}");
        kinds.insert(row.kind());
        numbers.extend(row.signed());
    }
    assert_eq!(kinds.len(), KINDS.len());
    let expected = [-1, i32::MIN.into(), i64::MIN, i32::MAX.into(), -3];
    assert_eq!(numbers, expected);
}

#[test]
fn signed_and_unsigned_numbers_are_two_kinds() {
    let refusal = |text: &str, make: fn(&mut Builder)| {
        let grammar = text.parse::<Grammar>().unwrap();
        let record = grammar.marshall_vec(&Value::build(make).unwrap());
        record.unwrap_err().number
    };
    assert_eq!(refusal("i32", |value| value.uint32(5)), 15);
    assert_eq!(refusal("u32", |value| value.int32(5)), 15);
    assert_eq!(refusal("i64", |value| value.uint64(5)), 15);
    assert_eq!(refusal("u64", |value| value.int64(5)), 15);
    assert_eq!(refusal("i64", |value| value.int32(5)), 15);
}

#[test]
fn words_behind_the_rows_are_not_the_value_s() {
    let words = [4, 2, 1, 0, 4, 1, 1, 7, 0, 4, 9, 9, 9, 9, 9];
    let value = Value::check(&words, 2, &[]).unwrap();
    assert_eq!(value.row_words(), [4, 2, 1, 0, 4, 1, 1, 7, 0, 4]);
    assert_eq!((value.row_count(), value.rows().count()), (2, 2));
}

#[test]
fn each_refusal_has_a_number_a_name_and_a_meaning_of_its_own() {
    let meaning = |number| {
        let place = Place::Row(0);
        Refusal { number, place }.meaning()
    };
    for (&(number, name, of_number), expected) in REFUSALS.iter().zip(1..) {
        assert_eq!((number, meaning(number)), (expected, of_number));
        let same = |other: &&(u64, &str, &str)| other.1 == name || other.2 == of_number;
        assert_eq!(REFUSALS.iter().filter(same).count(), 1, "{name}");
    }
    assert_eq!(REFUSALS.len() as u64, Refusal::PADDING_NOT_ZERO);
    for number in [0, REFUSALS.len() as u64 + 1, u64::MAX] {
        assert_eq!(meaning(number), "no refusal has this number");
    }
}

#[test]
fn kinds_have_names_of_their_own() {
    for kind in KINDS {
        let same = |other: &&route_record::Kind| other.text == kind.text || other.name == kind.name;
        assert_eq!(KINDS.iter().filter(same).count(), 1, "{}", kind.text);
    }
}

#[test]
fn two_threads_at_once() {
    let (grammar, record) = (grammar(), record());
    let read = || {
        for _ in 0..10_000 {
            let value = grammar.demarshall_vec(&record).unwrap();
            assert_eq!(grammar.marshall_vec(&value).unwrap(), record);
        }
    };
    thread::scope(|scope| {
        scope.spawn(read);
        scope.spawn(read);
    });
}

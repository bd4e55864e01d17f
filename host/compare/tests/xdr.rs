//! Export to XDR and import from it: worked numbers, the file of RFC 4506, the limits, both round trips
//! of random values, and the random cases.

use std::collections::BTreeSet;

use compare::{leaf, on_large_stack, table, Case, Random, Record, RowTable, Table, Value};
use route_record::{Place, Refusal, MAX_BYTES, MAX_ROWS, ROW_WORDS};

/// A refusal: its number and its place.
type Refused = (u64, Place);

fn refused_of(refusal: Refusal) -> Refused {
    (refusal.number, refusal.place)
}

/// The size that an export gives, and the output after it.
fn export(value: &Value, out: &[u8], index: usize) -> Result<(usize, Vec<u8>), Refused> {
    let outcome = value.clone().export_case(out.to_vec(), index).compare();
    let [size] = outcome.answer.clone().result().map_err(refused_of)?;
    let (_, out, _) = Value::of(&outcome.after()).expect("an export");
    Ok((size as usize, out))
}

/// What an import gives, and its lent rows and store after it.
#[derive(Debug, PartialEq, Eq)]
struct Imported {
    row_count: usize,
    used: usize,
    rows: Vec<u64>,
    store: Vec<u8>,
}

/// The import into lent rows and a lent store.
fn import(grammar: &[u32], record: &[u8], rows: &[u64], store: &[u8]) -> Result<Imported, Refused> {
    let case = Case::ImportXdr {
        grammar: grammar.to_vec(),
        record: record.to_vec(),
        rows: rows.to_vec(),
        store: store.to_vec(),
    };
    let outcome = case.compare();
    let [row_count, used] = outcome.answer.clone().result().map_err(refused_of)?;
    let Case::ImportXdr { rows, store, .. } = outcome.after() else {
        panic!("an import");
    };
    Ok(Imported {
        row_count: row_count as usize,
        used: used as usize,
        rows,
        store,
    })
}

/// Numbers with blanks and commas between them.
fn numbers<N: std::str::FromStr>(text: &str) -> Vec<N> {
    let parts = text.split([' ', ',']).filter(|part| !part.is_empty());
    let number = |part: &str| part.parse().ok().expect("a number");
    parts.map(number).collect()
}

/// Bytes in hexadecimal, with blanks between them.
fn hex(text: &str) -> Vec<u8> {
    let digits: String = text.split_whitespace().collect();
    compare::list::bytes_of(&digits).expect("hexadecimal digits")
}

/// The value of these rows.
fn value(grammar: &str, rows: &str, store: &[u8]) -> Value {
    let rows: Vec<u64> = numbers(rows);
    Value {
        grammar: numbers(grammar),
        n: rows.len() / ROW_WORDS,
        rows,
        store: store.to_vec(),
    }
}

/// The number of bytes that the arrays of rows have.
fn array_bytes(rows: &[u64]) -> usize {
    let of_row = |row: &[u64]| match row[0] {
        5 => row[2] as usize,
        6 => 4 * row[2] as usize,
        7 => 8 * row[2] as usize,
        _ => 0,
    };
    rows.chunks(ROW_WORDS).map(of_row).sum()
}

/// The XDR of a value that has one, as long as it is.
fn xdr_of(value: &Value) -> Vec<u8> {
    // A number or a count and padding for each row, and the elements.
    let most = 8 * value.n + array_bytes(&value.rows[..ROW_WORDS * value.n]);
    let (size, mut out) = export(value, &vec![0xee; most], 0).expect("XDR");
    assert!(out[size..].iter().all(|&byte| byte == 0xee));
    out.truncate(size);
    out
}

/// The refusal of an import into so many rows and a store of so many bytes.
fn refused(grammar: &str, record: &str, rows: usize, store: usize) -> Refused {
    let (rows, store) = (vec![99; ROW_WORDS * rows], vec![0xee; store]);
    import(&numbers(grammar), &hex(record), &rows, &store).expect_err(record)
}

/// A tuple of an int32, a byte array and a uint32 array, and its XDR.
const T: &str = "4, 4 0 3, 9 0 0, 5 0 0, 6 0 0, 3, 1 2 3";
const T_XDR: &str = "FFFFFFFF 00000002 41420000 00000001 12345678";
const T_ROWS: &str = "4 4 3 0 26, 9 1 4294967295 0 4, 5 1 2 0 10, 6 1 1 2 12";
const BYTES: &str = "1, 5 0 0, 0";
const CONSTANTS: &str = "2, 3 0 1, 0 0 0, 1, 1";
const UNION: &str = "2, 8 0 1, 0 0 0, 1, 1";

#[test]
fn a_tuple_is_exported() {
    let record = hex("FFFFFFFF 0200000000000000 4142 0100000000000000 78563412");
    let rows = "4 4 3 0 26, 9 1 4294967295 0 4, 5 1 2 12 10, 6 1 1 22 12";
    let value = value(T, rows, &record);
    assert_eq!(xdr_of(&value), hex(T_XDR));
    let out = [0xee; 25];
    let expected = [&[0xee; 4], &hex(T_XDR)[..], &[0xee]].concat();
    assert_eq!(export(&value, &out, 4), Ok((20, expected)));
    assert!(export(&value, &out[..24], 4).is_ok());
    assert_eq!(export(&value, &out[..23], 4), Err((17, Place::Byte(23))));
    let far = export(&value, &out, usize::MAX);
    assert_eq!(far, Err((17, Place::Byte(25))));
}

#[test]
fn a_tuple_is_imported() {
    let (grammar, xdr) = (numbers(T), hex(T_XDR));
    let imported = import(&grammar, &xdr, &[99; 4 * ROW_WORDS], &[0xee; 8]);
    let expected = Imported {
        row_count: 4,
        used: 6,
        rows: numbers(T_ROWS),
        store: hex("41 42 78 56 34 12 EE EE"),
    };
    assert_eq!(imported, Ok(expected));
    let imported = import(&grammar, &xdr, &[99; 4 * ROW_WORDS + 3], &[0xee; 6]).expect("accepted");
    assert_eq!(imported.rows[4 * ROW_WORDS..], [99; 3]);
    assert_eq!(imported.store, hex("41 42 78 56 34 12"));
    let of_t = |record: &[u8], rows: usize, store: usize| {
        let (rows, store) = (vec![99; ROW_WORDS * rows], vec![0xee; store]);
        import(&grammar, record, &rows, &store).expect_err("refused")
    };
    assert_eq!(of_t(&xdr, 4, 5), (17, Place::Byte(5)));
    assert_eq!(of_t(&xdr[..19], 4, 8), (9, Place::Byte(12)));
    let longer = [&xdr[..], &[0]].concat();
    assert_eq!(of_t(&longer, 4, 8), (11, Place::Byte(20)));
    assert_eq!(of_t(&xdr, 3, 8), (8, Place::Byte(12)));
    for byte in [10, 11] {
        for bit in 0..8 {
            let mut other = xdr.clone();
            other[byte] = 1 << bit;
            assert_eq!(of_t(&other, 4, 8), (23, Place::Byte(4)));
            assert_eq!(of_t(&other, 4, 2), (23, Place::Byte(4)));
            assert_eq!(of_t(&other, 4, 1), (17, Place::Byte(1)));
            assert_eq!(of_t(&other[..11], 4, 1), (9, Place::Byte(4)));
        }
    }
}

#[test]
fn small_imports() {
    let three = "2, 4 0 3, 5 0 0, 3, 1 1 1";
    let xdr = hex("00000000 00000003 61626300 00000000");
    let imported =
        import(&numbers(three), &xdr, &[99; 4 * ROW_WORDS], &[0xee; 3]).expect("accepted");
    let rows = numbers("4 4 3 0 27, 5 1 0 0 8, 5 1 3 0 11, 5 1 0 3 8");
    assert_eq!((imported.used, imported.rows), (3, rows));
    for padding in ["", "00", "0000"] {
        let record = format!("00000001 07 {padding}");
        assert_eq!(refused(BYTES, &record, 1, 8), (9, Place::Byte(0)));
    }
    let imported = import(
        &numbers(BYTES),
        &hex("00000001 07000000"),
        &[99; ROW_WORDS],
        &[0xee],
    );
    assert_eq!(imported.expect("accepted").store, [7]);
    let imported = import(
        &numbers(CONSTANTS),
        &hex("00000003"),
        &[99; 4 * ROW_WORDS],
        &[],
    );
    let imported = imported.expect("accepted");
    assert_eq!((imported.row_count, imported.used), (4, 0));
    assert_eq!(refused(CONSTANTS, "FFFFFFFF", 4096, 0), (8, Place::Byte(0)));
    assert_eq!(refused(CONSTANTS, "000000", 4, 0), (9, Place::Byte(0)));
    assert_eq!(
        refused("1, 7 0 0, 0", "FFFFFFFF", 1, 0),
        (9, Place::Byte(0))
    );
    assert_eq!(refused(UNION, "00000001", 2, 0), (10, Place::Byte(0)));
    assert_eq!(refused(UNION, "00000000", 1, 0), (8, Place::Byte(4)));
    let too_few = import(&numbers(UNION), &hex("00000000"), &[99; ROW_WORDS - 1], &[]);
    assert_eq!(too_few, Err((8, Place::Byte(0))));
}

/// Two that meet: the one that is given.
#[test]
fn the_order_of_imports_refusals() {
    let (long, bad) = (MAX_BYTES + 1, "1, 11 0 0, 0");
    let longest = "00".repeat(long);
    assert_eq!(refused(bad, &longest, 0, long), (3, Place::Word(1)));
    assert_eq!(refused(BYTES, &longest, 0, 0), (6, Place::Byte(0)));
    assert_eq!(refused(BYTES, "", 0, long), (6, Place::Byte(0)));
    assert_eq!(refused(BYTES, "00000000 FF", 1, long), (6, Place::Byte(0)));
    assert_eq!(refused(BYTES, "", 0, 0), (8, Place::Byte(0)));
    // The count of an array is 9, then 8; bytes missing behind it are none of its own.
    assert_eq!(
        refused("2, 3 0 1, 1 0 0, 1, 1", "00000002", 2, 0),
        (8, Place::Byte(0))
    );
    assert_eq!(
        refused("2, 3 0 1, 1 0 0, 1, 1", "00000002", 3, 0),
        (9, Place::Byte(4))
    );
    // An array behind another one: 17 by what both need.
    let two = "2, 4 0 2, 5 0 0, 2, 1 1";
    let record = "00000001 61000000 00000002 62630001";
    assert_eq!(refused(two, record, 3, 3), (23, Place::Byte(8)));
    assert_eq!(refused(two, record, 3, 2), (17, Place::Byte(2)));
    assert_eq!(refused(two, record, 3, 0), (17, Place::Byte(0)));
    assert_eq!(
        refused(two, &format!("{record} 00"), 3, 3),
        (23, Place::Byte(8))
    );
    let first = "00000001 61000001 00000002 6263";
    assert_eq!(refused(two, first, 2, 1), (23, Place::Byte(0)));
    assert_eq!(
        refused(two, "00000001 61000000 00000002 6263", 3, 1),
        (9, Place::Byte(8))
    );
    let (union_, tag) = ("2, 8 0 1, 5 0 0, 1, 1", "00000001 00000001 61000001 00");
    assert_eq!(refused(union_, tag, 1, 0), (10, Place::Byte(0)));
}

/// The file of RFC 4506, section 7: its name, its type, for an executable the interpreter, its owner and
/// its data.
#[test]
fn the_file_of_the_rfc() {
    let grammar = "4, 4 0 4, 8 4 3, 0 0 0, 5 0 0, 7, 3 1 3 3 2 3 3";
    let xdr = hex(
        "00000009 73696C6C 7970726F 67000000 00000002 00000004 6C697370 00000004 6A6F686E
        00000006 28717569 74290000",
    );
    assert_eq!(xdr.len(), 48);
    let imported =
        import(&numbers(grammar), &xdr, &[99; 6 * ROW_WORDS], &[0xee; 24]).expect("accepted");
    let rows = "4 6 4 0 63, 5 1 9 0 17, 8 2 2 0 20, 5 1 4 9 12, 5 1 4 13 12, 5 1 6 17 14";
    let expected = Imported {
        row_count: 6,
        used: 23,
        rows: numbers(rows),
        store: b"sillyproglispjohn(quit)\xee".to_vec(),
    };
    assert_eq!(imported, expected);
    assert_eq!(xdr_of(&value(grammar, rows, &imported.store)), xdr);
}

/// 4,095 byte arrays of so many bytes in one array, which share a store.
fn arrays_that_share(length: u64) -> Value {
    let root = vec![3, 4_096, 4_095, 0, 8 + 4_095 * (8 + length)];
    let array = [5, 1, length, 0, 8 + length];
    Value {
        grammar: table(&[[3, 0, 1], [5, 0, 0]], &[1]),
        rows: [root, array.repeat(4_095)].concat(),
        n: MAX_ROWS,
        store: vec![0x5a; length as usize],
    }
}

/// A value may be too long to be written, but not to be exported.
#[test]
fn the_size_of_xdr_counts() {
    let fits = arrays_that_share(252);
    let xdr = xdr_of(&fits);
    assert_eq!(xdr.len(), 1_048_324);
    let out = vec![0; 1_064_708];
    let written = model::marshall(&fits.grammar, &fits.rows, fits.n, &fits.store, &out);
    assert_eq!(written.expect_err("too long").number, 16);
    let (rows, store) = (vec![99; ROW_WORDS * MAX_ROWS], vec![0; MAX_BYTES]);
    let imported = import(&fits.grammar, &xdr, &rows, &store).expect("accepted");
    assert_eq!((imported.row_count, imported.used), (4_096, 4_095 * 252));
    assert_eq!(imported.rows[4], 1_064_708);
    let refusal = export(&arrays_that_share(253), &out, 0);
    assert_eq!(refusal, Err((16, Place::Row(0))));
    // The longest byte array that is exported, and one byte more.
    for (length, answer) in [
        (MAX_BYTES - 4, Ok(MAX_BYTES)),
        (MAX_BYTES - 7, Ok(MAX_BYTES)),
        (MAX_BYTES - 8, Ok(MAX_BYTES - 4)),
        (MAX_BYTES - 3, Err((16, Place::Row(0)))),
    ] {
        let bytes = value(
            BYTES,
            &format!("5 1 {length} 0 {}", 8 + length),
            &vec![1; length],
        );
        let size = export(&bytes, &vec![0xee; MAX_BYTES], 0).map(|(size, _)| size);
        assert_eq!(size, answer);
    }
}

/// The record that has the most bytes of all whose value is imported: XDR of 1,048,576 bytes with a
/// count in each of the 4,096 rows, and no padding.
#[test]
fn the_greatest_size_of_an_import() {
    let lengths: Vec<u32> = (0..4_095).map(|k| if k < 63 { 256 } else { 252 }).collect();
    let array = |length: &u32| [&length.to_be_bytes()[..], &vec![7; *length as usize]].concat();
    let arrays: Vec<Vec<u8>> = lengths.iter().map(array).collect();
    let xdr = [&4_095_u32.to_be_bytes()[..], &arrays.concat()].concat();
    assert_eq!(xdr.len(), MAX_BYTES);
    let grammar = table(&[[3, 0, 1], [5, 0, 0]], &[1]);
    let (rows, store) = (vec![99; ROW_WORDS * MAX_ROWS], vec![0; MAX_BYTES]);
    let imported = import(&grammar, &xdr, &rows, &store).expect("accepted");
    let value = Value {
        grammar,
        rows: imported.rows,
        n: MAX_ROWS,
        store: imported.store,
    };
    let sizes: Vec<u64> = value.rows.chunks(ROW_WORDS).map(|row| row[4]).collect();
    assert_eq!(sizes[0], 1_064_960);
    let of_array = |length: &u32| 8 + u64::from(*length);
    assert!(lengths.iter().map(of_array).eq(sizes[1..].iter().copied()));
    let size = Case::ComputeSizeOf {
        rows: value.rows.clone(),
        n: value.n,
        store: value.store.clone(),
    };
    assert_eq!(size.compare().answer.result(), Ok([1_064_960]));
    let too_long = value.marshall(1_064_960).expect_err("16");
    assert_eq!(refused_of(too_long), (16, Place::Row(0)));
    assert_eq!(xdr_of(&value), xdr);
}

/// What random values and their XDR met of: kinds of rows, and numbers of refusals.
#[derive(Default)]
struct Met {
    kinds: BTreeSet<u64>,
    numbers: BTreeSet<u64>,
    spoiled_accepted: usize,
}

/// A random value of a table, with its record; its arrays anywhere in the store.
fn random_value(random: &mut Random, table: &Table) -> Option<(Value, Vec<u8>)> {
    let spare = random.pick(&[0, 5, 30, 100, 100, MAX_ROWS]);
    let Record { bytes, .. } = Record::of(table, random, spare)?;
    let grammar = table.words();
    let reading = model::demarshall(&grammar, &bytes, MAX_ROWS).expect("a sound record");
    let mut rows = RowTable::of(&reading.rows, bytes.clone());
    if random.below(2) == 0 {
        rows.scatter(random);
    }
    let value = Value {
        grammar,
        n: rows.rows.len(),
        rows: rows.words(),
        store: bytes,
    };
    let out = vec![0; value.store.len()];
    let writing = model::marshall(&value.grammar, &value.rows, value.n, &value.store, &out);
    Some((value, writing.expect("as long as the record").out))
}

/// Imports XDR with just enough rows and store, and asks for the same XDR and the same record again.
fn import_and_export(grammar: &[u32], xdr: &[u8], n: usize, used: usize, record: &[u8]) {
    let (rows, store) = (vec![99; ROW_WORDS * n], vec![0xee; used]);
    let imported = import(grammar, xdr, &rows, &store).expect("accepted");
    assert_eq!((imported.row_count, imported.used), (n, used));
    let value = Value {
        grammar: grammar.to_vec(),
        rows: imported.rows,
        n,
        store: imported.store,
    };
    let written = model::marshall(
        grammar,
        &value.rows,
        n,
        &value.store,
        &vec![0; record.len()],
    );
    assert_eq!(written.expect("the same value").out, record);
    assert_eq!(xdr_of(&value), xdr);
    // The places are those of arrays one behind the other.
    let mut end = 0;
    for row in value.rows.chunks(ROW_WORDS) {
        if matches!(row[0], 5..=7) {
            assert_eq!(row[3] as usize, end);
            end += array_bytes(row);
        }
    }
}

/// What is exported is imported as an equal value, with rows and a store that are just enough; with
/// less it is refused with 8 or 17. Its size is a multiple of four, and never above the record's.
#[test]
fn random_values_round_trip() {
    let mut random = Random::new(91);
    let mut met = Met::default();
    on_large_stack(|| {
        for _ in 0..3_000 {
            let table = Table::any(&mut random);
            let Some((value, record)) = random_value(&mut random, &table) else {
                continue;
            };
            met.kinds
                .extend(value.rows.chunks(ROW_WORDS).map(|row| row[0]));
            let (xdr, n) = (xdr_of(&value), value.n);
            let used = array_bytes(&value.rows);
            assert!(xdr.len() % 4 == 0 && xdr.len() <= record.len());
            assert!(record.len() <= xdr.len() + 4 * n);
            assert!(used <= xdr.len());
            import_and_export(&value.grammar, &xdr, n, used, &record);
            let (rows, store) = (vec![99; ROW_WORDS * n], vec![0xee; used]);
            let few = import(&value.grammar, &xdr, &rows[1..], &store);
            met.numbers.insert(few.expect_err("a row too few").0);
            if used > 0 {
                let short = import(&value.grammar, &xdr, &rows, &store[1..]);
                assert_eq!(short, Err((17, Place::Byte(used as u64 - 1))));
            }
        }
    });
    assert_eq!(met.kinds, (0..=10).collect());
    assert_eq!(met.numbers, BTreeSet::from([8]));
}

/// What is imported exports to the same bytes, however it came about: XDR cut, longer, with other
/// bytes and other counts.
#[test]
fn what_is_accepted_exports_to_itself() {
    let mut random = Random::new(92);
    let mut met = Met::default();
    on_large_stack(|| {
        for _ in 0..6_000 {
            let table = Table::any(&mut random);
            let Some((value, _)) = random_value(&mut random, &table) else {
                continue;
            };
            let mut xdr = xdr_of(&value);
            spoil(&mut random, &mut xdr);
            let rows = vec![99; ROW_WORDS * (value.n + 2)];
            let store = vec![0xee; array_bytes(&value.rows) + random.below(9)];
            match import(&value.grammar, &xdr, &rows, &store) {
                Ok(imported) => {
                    met.spoiled_accepted += 1;
                    let again = Value {
                        rows: imported.rows,
                        n: imported.row_count,
                        store: imported.store,
                        ..value
                    };
                    assert_eq!(xdr_of(&again), xdr);
                }
                Err((number, _)) => {
                    met.numbers.insert(number);
                }
            }
        }
    });
    assert!(met.spoiled_accepted > 500, "{}", met.spoiled_accepted);
    assert_eq!(met.numbers, BTreeSet::from([8, 9, 10, 11, 17, 23]));
}

/// Cuts XDR, lengthens it, or changes a byte of it.
fn spoil(random: &mut Random, xdr: &mut Vec<u8>) {
    let length = xdr.len();
    match random.below(4) {
        0 => xdr.truncate(random.within(0..=length)),
        1 => xdr.extend(vec![0; random.below(9)]),
        _ if length > 0 => xdr[random.below(length)] ^= 1 << random.below(8),
        _ => (),
    }
}

/// A proper front part of XDR that is accepted is refused with 9, and so is no other one.
#[test]
fn front_parts_are_refused_with_9() {
    let grammar =
        numbers::<u32>("7, 4 0 6, 1 0 0, 5 0 0, 7 0 0, 3 6 1, 8 6 1, 10 0 0, 7, 1 2 3 4 5 6 6");
    let value = Value {
        grammar: grammar.clone(),
        rows: numbers(
            "4 10 6 0 81, 1 1 7 0 4, 5 1 5 0 13, 7 1 1 0 16, 3 3 2 0 24, 10 1 1 0 8, 10 1 2 0 8, 8 2 0 0 16, 10 1 3 0 8, 10 1 4 0 8",
        ),
        n: 10,
        store: (1..=8).collect(),
    };
    let xdr = xdr_of(&value);
    let (rows, store) = (vec![99; 10 * ROW_WORDS], vec![0xee; 13]);
    assert!(import(&grammar, &xdr, &rows, &store).is_ok());
    for length in 0..xdr.len() {
        let cut = import(&grammar, &xdr[..length], &rows, &store);
        assert_eq!(cut.expect_err("cut").0, 9, "{length}");
    }
}

/// A number of each kind in XDR: most byte first, the pattern of a signed one.
#[test]
fn numbers_most_byte_first() {
    for (kind, width) in [(1, 4), (9, 4), (2, 8), (10, 8)] {
        for number in [0, 1, 0x01020304, 0xfffffffe] {
            let number = if width == 8 { number << 24 | 5 } else { number };
            let value = Value {
                grammar: leaf(kind),
                rows: vec![kind.into(), 1, number, 0, width as u64],
                n: 1,
                store: vec![],
            };
            let expected = &number.to_be_bytes()[8 - width..];
            assert_eq!(xdr_of(&value), expected);
            let imported = import(&leaf(kind), expected, &[99; ROW_WORDS], &[]).expect("accepted");
            assert_eq!(imported.rows, value.rows);
        }
    }
}

/// What the random cases met of: kinds of rows that were exported and imported, numbers of padding
/// bytes that were, the greatest size and the most rows, stores and rows just enough and one too few,
/// and exported and imported values that are too long to be written.
#[derive(Default)]
struct MetCases {
    exported: BTreeSet<u64>,
    imported: BTreeSet<u64>,
    padding: BTreeSet<u64>,
    greatest: u64,
    most_rows: u64,
    just_enough: usize,
    one_too_few: usize,
    too_long_to_write: usize,
    too_long_imported: usize,
}

impl MetCases {
    fn add_rows(kinds: &mut BTreeSet<u64>, padding: &mut BTreeSet<u64>, rows: &[u64]) {
        for row in rows.chunks(ROW_WORDS) {
            kinds.insert(row[0]);
            padding.extend((row[0] == 5).then_some(row[2] % 4));
        }
    }

    /// Adds an export.
    fn export(&mut self, value: &Value, size: u64) {
        let rows = &value.rows[..ROW_WORDS * value.n];
        MetCases::add_rows(&mut self.exported, &mut self.padding, rows);
        self.greatest = self.greatest.max(size);
        let written = model::compute_size_of(&value.rows, value.n, &value.store);
        let is_long = written.expect("a value") > MAX_BYTES as u64;
        self.too_long_to_write += usize::from(is_long);
    }

    /// Adds an accepted import.
    fn import(&mut self, rows: &[u64], row_count: u64, used: u64, store: &[u8]) {
        let rows = &rows[..ROW_WORDS * row_count as usize];
        MetCases::add_rows(&mut self.imported, &mut self.padding, rows);
        self.most_rows = self.most_rows.max(row_count);
        self.too_long_imported += usize::from(rows[4] > MAX_BYTES as u64);
        self.just_enough += usize::from(used > 0 && used == store.len() as u64);
    }
}

/// The random cases of export and import, among those of all calls. An import that is accepted exports
/// to its record again; one that is refused with 17 is accepted, or refused otherwise, with a longer
/// store.
#[test]
fn random_cases() {
    let mut random = Random::new(93);
    let mut met = MetCases::default();
    on_large_stack(|| {
        for _ in 0..25_000 {
            let case = Case::random(&mut random);
            match &case {
                Case::ExportXdr { .. } => {
                    if let Ok([size]) = case.compare().answer.result() {
                        let (value, ..) = Value::of(&case).expect("an export");
                        met.export(&value, size);
                    }
                }
                Case::ImportXdr {
                    grammar,
                    record,
                    rows,
                    store,
                } => import_case(&mut met, grammar, record, rows, store),
                _ => (),
            }
        }
    });
    assert_eq!(met.exported, (0..=10).collect());
    assert_eq!(met.imported, (0..=10).collect());
    assert_eq!(met.padding, (0..=3).collect());
    assert_eq!((met.greatest, met.most_rows), (MAX_BYTES as u64, 4_096));
    assert!(met.just_enough > 0 && met.one_too_few > 0);
    assert!(met.too_long_to_write > 0 && met.too_long_imported > 0);
}

/// A random case of import.
fn import_case(met: &mut MetCases, grammar: &[u32], record: &[u8], rows: &[u64], store: &[u8]) {
    match import(grammar, record, rows, store) {
        Ok(imported) => {
            met.import(
                &imported.rows,
                imported.row_count as u64,
                imported.used as u64,
                store,
            );
            let value = Value {
                grammar: grammar.to_vec(),
                rows: imported.rows,
                n: imported.row_count,
                store: imported.store,
            };
            assert_eq!(xdr_of(&value), record);
        }
        Err((17, place)) => {
            assert_eq!(place, Place::Byte(store.len() as u64));
            let longer = [store, &[0]].concat();
            let answer = import(grammar, record, rows, &longer);
            met.one_too_few += usize::from(answer.is_ok());
            let longest = import(grammar, record, rows, &vec![0; MAX_BYTES]);
            assert_ne!(longest.err().map(|refused| refused.0), Some(17));
        }
        Err(_) => (),
    }
}

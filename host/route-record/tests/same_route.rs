//! Same route: what counts of two records under a root of each form. `host/compare` has random
//! pairs.

use route_record::{Grammar, Place, Refusal, SameRouteRefusal, MAX_ROWS};

fn grammar(text: &str) -> Grammar {
    text.parse().unwrap()
}

/// These numbers as uint32, one behind the other.
fn u32s(numbers: &[u32]) -> Vec<u8> {
    numbers.iter().flat_map(|n| n.to_le_bytes()).collect()
}

/// A uint64, a count or a tag, and what stands behind it.
fn behind(number: u64, rest: &[u8]) -> Vec<u8> {
    [&number.to_le_bytes(), rest].concat()
}

/// Whether two records are of the same route, asked both ways.
fn same(text: &str, first: &[u8], second: &[u8]) -> bool {
    let grammar = grammar(text);
    let answer = grammar.same_route(first, second).unwrap();
    assert_eq!(grammar.same_route(second, first), Ok(answer), "{text}");
    answer
}

#[test]
fn the_first_field_of_the_root_does_not_count() {
    let record = |serial, path| [u32s(&[serial]), behind(2, path)].concat();
    let text = "tuple(u32, bytes)";
    assert!(same(text, &record(7, b"AB"), &record(8, b"AB")));
    assert!(!same(text, &record(7, b"AB"), &record(7, b"AC")));
    assert!(!same(text, &record(7, b"AB"), &record(8, b"AC")));
}

#[test]
fn a_first_field_of_any_kind_and_length_does_not_count() {
    for (field, first, second) in [
        ("u32", u32s(&[1]), u32s(&[2])),
        ("u64", u32s(&[1, 0]), u32s(&[0, 1])),
        ("i32", u32s(&[1]), u32s(&[u32::MAX])),
        ("i64", u32s(&[1, 0]), u32s(&[0, 1 << 31])),
        ("bytes", behind(2, b"AB"), behind(3, b"XYZ")),
        ("u32s", behind(0, &[]), behind(1, &u32s(&[7]))),
        ("u64s", behind(1, &u32s(&[7, 0])), behind(0, &[])),
        ("array(constant)", behind(0, &[]), behind(9, &[])),
        ("array(u32)", behind(1, &u32s(&[7])), behind(0, &[])),
        (
            "union(u32, u64)",
            behind(0, &u32s(&[7])),
            behind(1, &u32s(&[7, 7])),
        ),
        ("tuple(u32, u32)", u32s(&[1, 2]), u32s(&[8, 9])),
    ] {
        let text = format!("tuple({field}, u32)");
        let record = |field: &[u8], number| [field, &u32s(&[number])].concat();
        let answer = |field, number| same(&text, &record(&first, 7), &record(field, number));
        assert!(answer(&second, 7), "{text}");
        assert!(!answer(&second, 8), "{text}");
        assert!(!answer(&first, 8), "{text}");
    }
}

#[test]
fn all_fields_behind_the_first_count() {
    let text = "tuple(u32, u32, u32)";
    assert!(same(text, &u32s(&[1, 2, 3]), &u32s(&[9, 2, 3])));
    assert!(!same(text, &u32s(&[1, 2, 3]), &u32s(&[1, 9, 3])));
    assert!(!same(text, &u32s(&[1, 2, 3]), &u32s(&[1, 2, 9])));
}

#[test]
fn a_tuple_further_in_counts_whole() {
    let text = "tuple(u32, tuple(u32, u32))";
    assert!(same(text, &u32s(&[1, 2, 3]), &u32s(&[9, 2, 3])));
    assert!(!same(text, &u32s(&[1, 2, 3]), &u32s(&[1, 9, 3])));
}

#[test]
fn a_first_field_without_bytes_leaves_the_others() {
    for field in ["constant", "tuple()"] {
        let text = format!("tuple({field}, u32)");
        assert!(same(&text, &u32s(&[7]), &u32s(&[7])), "{text}");
        assert!(!same(&text, &u32s(&[7]), &u32s(&[8])), "{text}");
    }
}

#[test]
fn of_a_tuple_of_one_field_nothing_counts() {
    assert!(same("tuple(u32)", &u32s(&[7]), &u32s(&[8])));
    assert!(same("tuple(bytes)", &behind(0, &[]), &behind(2, b"AB")));
    assert!(same("tuple()", &[], &[]));
}

#[test]
fn of_every_other_root_the_whole_value_counts() {
    for (text, first, second) in [
        ("u32", u32s(&[7]), u32s(&[8])),
        ("u64", u32s(&[7, 0]), u32s(&[8, 0])),
        ("i32", u32s(&[7]), u32s(&[8])),
        ("i64", u32s(&[7, 0]), u32s(&[8, 0])),
        ("bytes", behind(1, b"A"), behind(2, b"AB")),
        ("u32s", behind(1, &u32s(&[7])), behind(1, &u32s(&[8]))),
        ("u64s", behind(1, &u32s(&[7, 0])), behind(1, &u32s(&[8, 0]))),
        (
            "array(tuple(u32, u32))",
            behind(1, &u32s(&[1, 2])),
            behind(1, &u32s(&[9, 2])),
        ),
        (
            "union(tuple(u32, u32))",
            behind(0, &u32s(&[1, 2])),
            behind(0, &u32s(&[9, 2])),
        ),
    ] {
        assert!(same(text, &first, &first), "{text}");
        assert!(!same(text, &first, &second), "{text}");
    }
    assert!(same("constant", &[], &[]));
}

/// It is left out of the comparison alone: its bytes and its rows can be refused.
#[test]
fn the_first_field_is_read_as_all_others_are() {
    let refused = |number, byte| Refusal {
        number,
        place: Place::Byte(byte),
    };
    let of_bytes = grammar("tuple(bytes, u32)");
    let record = [behind(2, b"AB"), u32s(&[7])].concat();
    for (cut, refusal) in [
        (&record[..4], refused(Refusal::BYTES_MISSING, 0)),
        (&record[..9], refused(Refusal::BYTES_MISSING, 0)),
        (&record[..13], refused(Refusal::BYTES_MISSING, 10)),
    ] {
        let answer = of_bytes.same_route(cut, cut);
        assert_eq!(answer, Err(SameRouteRefusal::First(refusal)));
        let answer = of_bytes.same_route(&record, cut);
        assert_eq!(answer, Err(SameRouteRefusal::Second(refusal)));
    }

    let of_cases = grammar("tuple(union(u32), u32)");
    let record = behind(1, &u32s(&[7, 7]));
    let answer = of_cases.same_route(&record, &record);
    let refusal = refused(Refusal::TAG_UNKNOWN, 0);
    assert_eq!(answer, Err(SameRouteRefusal::First(refusal)));

    // The tuple, the array and the number are three rows.
    let of_rows = grammar("tuple(array(constant), u32)");
    let record = |count: usize| behind(count as u64, &u32s(&[7]));
    let most = MAX_ROWS - 3;
    assert_eq!(of_rows.same_route(&record(most), &record(0)), Ok(true));
    let answer = of_rows.same_route(&record(0), &record(most + 1));
    let refusal = refused(Refusal::ROWS_EXHAUSTED, 8);
    assert_eq!(answer, Err(SameRouteRefusal::Second(refusal)));
}

//! The calls on the deepest value rows, on a thread with a small stack. The model is not asked, since
//! it needs more.

use std::thread;

use compare::{set_sizes, Row};
use route_record::{Place, Refusal, ROW_WORDS};

/// The constant, a value of no bytes.
const CONSTANT: Row = [0, 1, 0, 0, 0];

fn at_row<T>(number: u64, row: u64) -> Result<T, Refusal> {
    let place = Place::Row(row);
    Err(Refusal { number, place })
}

/// 4,096 rows, each but the last a value of this kind with the next row in it, and the last one.
fn deepest(kind: u64, last: Row) -> Vec<u64> {
    let parents = (2..=4_096).rev().map(|span| [kind, span, 1, 0, 0]);
    let mut rows: Vec<Row> = parents.chain([last]).collect();
    set_sizes(&mut rows);
    rows.concat()
}

/// The answers to the deepest rows: their size, where the array of the last row is, and the last
/// row's signed number.
type Deepest = (
    Result<u64, Refusal>,
    Result<(usize, usize), Refusal>,
    Result<i64, Refusal>,
);

/// The library's answers to 4,096 rows with a store of 16 bytes, on a thread with a stack of 1 MiB.
fn on_small_stack(words: Vec<u64>) -> Deepest {
    let calls = move || {
        let size = route_record::calls::compute_size_of(&words, 4_096, &[0; 16]);
        let array = route_record::calls::locate_array(&words, 4_096, &[0; 16], 4_095);
        let number = route_record::calls::signed_number(&words, 4_096, &[0; 16], 4_095);
        (size, array, number)
    };
    let thread = thread::Builder::new().stack_size(1 << 20).spawn(calls);
    let thread = thread.expect("a thread with a stack of 1 MiB");
    thread.join().expect("all calls return")
}

#[test]
fn the_deepest_rows() {
    for (kind, own) in [(3, 8), (4, 0), (8, 8)] {
        let size = 4_095 * own;
        let answers = |last| on_small_stack(deepest(kind, last));
        let (no_array, no_number) = (at_row(18, 4_095), at_row(20, 4_095));
        assert_eq!(answers(CONSTANT), (Ok(size), no_array, no_number));
        let array = (Ok(size + 20), Ok((4, 12)), no_number);
        assert_eq!(answers([6, 1, 3, 4, 20]), array);
        let number = (Ok(size + 4), no_array, Ok(-1));
        assert_eq!(answers([9, 1, 4_294_967_295, 0, 4]), number);
        let number = (Ok(size + 8), no_array, Ok(i64::MIN));
        assert_eq!(answers([10, 1, 1 << 63, 0, 8]), number);
        for (number, last) in [
            (13, [11, 1, 0, 0, 0]),
            (13, [9, 1, 1 << 32, 0, 4]),
            (13, [0, 2, 0, 0, 0]),
            (13, [8, 1, 0, 0, 8]),
            (13, [3, 1, u64::MAX, 0, 8]),
            (14, [6, 1, 3, 5, 20]),
            (14, [7, 1, 1 << 61, 0, 8]),
        ] {
            let row = 4_095;
            let refusal = (
                at_row(number, row),
                at_row(number, row),
                at_row(number, row),
            );
            assert_eq!(answers(last), refusal);
        }
    }
}

/// Of several wrong sizes the deepest is found first.
#[test]
fn wrong_sizes_in_the_deepest_rows() {
    for kind in [3, 4, 8] {
        let mut words = deepest(kind, CONSTANT);
        for row in [0, 1, 2_000, 4_094, 4_095] {
            words[ROW_WORDS * row + 4] += 1;
            let row = row as u64;
            let refusal = (at_row(13, row), at_row(13, row), at_row(13, row));
            assert_eq!(on_small_stack(words.clone()), refusal);
        }
    }
}

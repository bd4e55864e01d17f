//! The deepest writings and previews, on a thread with a small stack. They have a program of their
//! own, since a stack that overflows ends it.

use std::thread;

use compare::{chain, Value};
use route_record::{Place, Preview, Refusal, ROW_WORDS};

type Answer = Result<Vec<u8>, Refusal>;

/// The bytes of stack within which a call stays. The walk over the rows needs it: before the
/// grammar's nodes are looked at it goes as deep as the rows do, 4,096 at most. What comes behind
/// it goes no deeper than the grammar, 256 nodes at most.
const STACK: usize = 1 << 20;

/// The library's answer on a thread with the small stack: both writers give it at byte 0 of an
/// output of this length, and the preview over zeros agrees with it.
fn on_small_stack(value: &Value, length: usize) -> Answer {
    let Value {
        grammar,
        rows,
        n,
        store,
    } = value.clone();
    let calls = move || {
        let (mut first, mut second) = (vec![0; length], vec![0; length]);
        let size = route_record::calls::marshall_val(&grammar, &rows, n, &store, &mut first, 0);
        let other = route_record::calls::marshall(&grammar, &rows, n, &store, &mut second);
        let zeros = vec![0; length];
        let preview = route_record::calls::preview(&grammar, &rows, n, &store, &zeros, 0);
        let answers = [
            size.map(|size| first[..size].to_vec()),
            other.map(|size| second[..size].to_vec()),
        ];
        (answers, preview)
    };
    let thread = thread::Builder::new().stack_size(STACK).spawn(calls);
    let thread = thread.expect("a thread with a small stack");
    let ([answer, other], preview) = thread.join().expect("all calls return");
    assert_eq!(answer, other);
    let expected = answer.clone().map(|record| Preview {
        size: record.len(),
        changed: record.iter().filter(|&&byte| byte != 0).count(),
    });
    assert_eq!(preview, expected);
    answer
}

/// The answer on the small stack, which is the model's too.
fn answer(value: &Value, length: usize) -> Answer {
    let answer = value.marshall(length);
    assert_eq!(on_small_stack(value, length), answer);
    answer
}

fn refusal(number: u64, place: Place) -> Answer {
    Err(Refusal { number, place })
}

/// The answers on a chain of this kind, each value of which begins with these bytes.
fn compare_chain(kind: u32, own: &[u8]) {
    let record = [own.repeat(255), vec![7, 0, 0, 0]].concat();
    let mut value = Value::read(&chain(kind), &record);
    assert_eq!(value.n, 256);
    let size = record.len();
    assert_eq!(answer(&value, size), Ok(record));
    let place = Place::Byte(size as u64 - 1);
    assert_eq!(answer(&value, size - 1), refusal(17, place));
    for row in [255, 128, 0] {
        let mut other = value.clone();
        other.rows[ROW_WORDS * row + 4] += 1;
        let refusal = refusal(13, Place::Row(row as u64));
        assert_eq!(answer(&other, size), refusal);
    }
    value.rows[ROW_WORDS * 255] = 9;
    assert_eq!(answer(&value, size), refusal(15, Place::Row(255)));
    value.rows[ROW_WORDS * 255] = 11;
    assert_eq!(answer(&value, size), refusal(13, Place::Row(255)));
}

/// The answers on 4,096 rows, each but the last a value of this kind with the next row in it, and
/// a constant. Deeper than the grammar they are no value of it; the model is not asked, since it
/// needs more stack.
fn deepest_rows(kind: u64) {
    let (word2, own) = (u64::from(kind != 8), if kind == 4 { 0 } else { 8 });
    let parent = |span| [kind, span, word2, 0, own * (span - 1)];
    let parents = (2..=4_096).rev().flat_map(parent);
    let mut value = Value {
        grammar: chain(kind as u32),
        rows: parents.chain([0, 1, 0, 0, 0]).collect(),
        n: 4_096,
        store: vec![],
    };
    assert_eq!(on_small_stack(&value, 0), refusal(15, Place::Row(255)));
    for row in [0, 2_000, 4_095] {
        // Of several wrong sizes the deepest is found first.
        value.rows[ROW_WORDS * row + 4] += 1;
        let refusal = refusal(13, Place::Row(row as u64));
        assert_eq!(on_small_stack(&value, 0), refusal);
    }
    value.rows[ROW_WORDS * 4_095] = 11;
    assert_eq!(on_small_stack(&value, 0), refusal(13, Place::Row(4_095)));
}

#[test]
fn arrays() {
    compare_chain(3, &1u64.to_le_bytes());
    deepest_rows(3);
}

#[test]
fn tuples() {
    compare_chain(4, &[]);
    deepest_rows(4);
}

#[test]
fn unions() {
    compare_chain(8, &0u64.to_le_bytes());
    deepest_rows(8);
}

//! The deepest imports and exports of XDR, on threads with small stacks. They have a program of their
//! own, since a stack that overflows ends it.

use std::thread;

use compare::{chain, Case, Value};
use route_record::{calls, Imported, Place, Refusal, ROW_WORDS};

/// The bytes of stack within which an import stays.
const IMPORT_STACK: usize = 128 * 1_024;

/// The bytes of stack within which an export stays. The walk over the rows needs it: before the
/// grammar's nodes are looked at it goes as deep as the rows do, 4,096 at most.
const EXPORT_STACK: usize = 1 << 20;

/// What the work gives on a thread with so small a stack.
fn on_small_stack<T: Send>(stack: usize, work: impl FnOnce() -> T + Send) -> T {
    thread::scope(|scope| {
        let thread = thread::Builder::new().stack_size(stack);
        let thread = thread.spawn_scoped(scope, work);
        let thread = thread.expect("a thread with a small stack");
        thread.join().expect("all calls return")
    })
}

fn refusal<T>(number: u64, place: Place) -> Result<T, Refusal> {
    Err(Refusal { number, place })
}

/// The import of XDR by a chain of 256 nodes, on the small stack and compared with the model, and the
/// rows after it.
fn import(grammar: &[u32], record: &[u8]) -> (Result<Imported, Refusal>, Vec<u64>) {
    let case = Case::ImportXdr {
        grammar: grammar.to_vec(),
        record: record.to_vec(),
        rows: vec![99; ROW_WORDS * 256],
        store: vec![],
    };
    let answer: Result<[u64; 2], Refusal> = case.compare().answer.result();
    let mut rows = vec![99; ROW_WORDS * 256];
    let imported = on_small_stack(IMPORT_STACK, || {
        calls::import_xdr(grammar, record, &mut rows, &mut [])
    });
    let counts = |imported: Imported| [imported.rows as u64, imported.used as u64];
    assert_eq!(imported.map(counts), answer);
    (imported, rows)
}

/// The export of a value to an output of this length, on the small stack.
fn export(value: &Value, length: usize) -> Result<Vec<u8>, Refusal> {
    let mut out = vec![0; length];
    let Value {
        grammar,
        rows,
        n,
        store,
    } = value;
    let size = on_small_stack(EXPORT_STACK, || {
        calls::export_xdr(grammar, rows, *n, store, &mut out, 0)
    });
    size.map(|size| out[..size].to_vec())
}

/// The answers on a chain of this kind, each value of which begins with these bytes of XDR.
fn compare_chain(kind: u32, own: &[u8]) {
    let grammar = chain(kind);
    let end = 255 * own.len();
    let xdr = [own.repeat(255), vec![0, 0, 0, 7]].concat();
    let (imported, rows) = import(&grammar, &xdr);
    assert_eq!(imported, Ok(Imported { rows: 256, used: 0 }));
    let of_record = if own.is_empty() { 4 } else { 4 + 8 * 255 };
    assert_eq!(rows[4], of_record);
    let (cut, untouched) = import(&grammar, &xdr[..end + 3]);
    assert_eq!(cut, refusal(9, Place::Byte(end as u64)));
    assert_eq!(untouched, vec![99; ROW_WORDS * 256]);

    let mut value = Value {
        grammar,
        rows,
        n: 256,
        store: vec![],
    };
    let case = value.clone().export_case(vec![0; xdr.len()], 0);
    let size = case.compare().answer.result();
    assert_eq!(size, Ok([xdr.len() as u64]));
    let too_short = refusal(17, Place::Byte(xdr.len() as u64 - 1));
    assert_eq!(export(&value, xdr.len() - 1), too_short);
    assert_eq!(export(&value, xdr.len()), Ok(xdr));
    value.rows[ROW_WORDS * 255] = 9;
    assert_eq!(export(&value, 0), refusal(15, Place::Row(255)));
}

/// The answers on 4,096 rows, each but the last a value of this kind with the next row in it, and a
/// constant. Deeper than the grammar they are no value of it; the model is not asked, since it needs
/// more stack.
fn deepest_rows(kind: u64) {
    let (word2, own) = (u64::from(kind != 8), if kind == 4 { 0 } else { 8 });
    let parent = |span| [kind, span, word2, 0, own * (span - 1)];
    let parents = (2..=4_096).rev().flat_map(parent);
    let mut value = Value {
        grammar: chain(kind as u32),
        rows: parents.chain([0, 1, 0, 0, 0]).collect(),
        n: 4_096,
        store: vec![],
    };
    assert_eq!(export(&value, 0), refusal(15, Place::Row(255)));
    for row in [0, 2_000, 4_095] {
        // Of several wrong sizes the deepest is found first.
        value.rows[ROW_WORDS * row + 4] += 1;
        let refusal = refusal(13, Place::Row(row as u64));
        assert_eq!(export(&value, 0), refusal);
    }
    value.rows[ROW_WORDS * 4_095] = 11;
    assert_eq!(export(&value, 0), refusal(13, Place::Row(4_095)));
}

#[test]
fn arrays() {
    compare_chain(3, &1u32.to_be_bytes());
    deepest_rows(3);
}

#[test]
fn tuples() {
    compare_chain(4, &[]);
    deepest_rows(4);
}

#[test]
fn unions() {
    compare_chain(8, &0u32.to_be_bytes());
    deepest_rows(8);
}

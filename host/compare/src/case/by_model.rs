//! The model's answer to each call. Where a buffer is lent, it stands between margins, and what the
//! model gives for it is put there.

use model::{Reading, Refusal, SameRouteRefusal, Writing};
use route_record::ROW_WORDS;

use super::field::between_margins;
use super::Answer;
use crate::refusal;

/// The answer of a call that names no record.
fn answer<const N: usize>(result: Result<[u64; N], Refusal>) -> Answer {
    Answer::of(result.map_err(refusal))
}

/// The answer of a call that changes its one lent buffer and gives no number.
fn fill<T: Copy>(buffer: &mut [T], call: impl FnOnce(&[T]) -> Result<Vec<T>, Refusal>) -> Answer {
    let lent = between_margins(buffer);
    let content = call(lent);
    answer(content.map(|content| {
        lent.copy_from_slice(&content);
        []
    }))
}

pub fn unpack_u32(packed: &[u8], index: usize) -> Answer {
    answer(model::unpack(4, packed, index).map(|number| [number]))
}

pub fn unpack_u64(packed: &[u8], index: usize) -> Answer {
    answer(model::unpack(8, packed, index).map(|number| [number]))
}

pub fn pack_u32(number: u32, out: &mut [u8], index: usize) -> Answer {
    fill(out, |out| model::pack(4, number.into(), out, index))
}

pub fn pack_u64(number: u64, out: &mut [u8], index: usize) -> Answer {
    fill(out, |out| model::pack(8, number, out, index))
}

pub fn unpack_u32_seq(packed: &[u8], index: usize, numbers: &mut [u32]) -> Answer {
    fill(numbers, |lent| {
        let run = model::unpack_seq(4, packed, index, lent.len())?;
        Ok(run.into_iter().map(|number| number as u32).collect())
    })
}

pub fn unpack_u64_seq(packed: &[u8], index: usize, numbers: &mut [u64]) -> Answer {
    fill(numbers, |lent| {
        model::unpack_seq(8, packed, index, lent.len())
    })
}

pub fn pack_u32_seq(numbers: &[u32], out: &mut [u8], index: usize) -> Answer {
    let wide: Vec<u64> = numbers.iter().map(|&number| number.into()).collect();
    fill(out, |out| model::pack_seq(4, &wide, out, index))
}

pub fn pack_u64_seq(numbers: &[u64], out: &mut [u8], index: usize) -> Answer {
    fill(out, |out| model::pack_seq(8, numbers, out, index))
}

pub fn check_grammar(grammar: &[u32]) -> Answer {
    answer(model::check_grammar(grammar).map(|()| []))
}

pub fn compute_size_of(rows: &[u64], n: usize, store: &[u8]) -> Answer {
    answer(model::compute_size_of(rows, n, store).map(|size| [size]))
}

pub fn locate_array(rows: &[u64], n: usize, store: &[u8], row: usize) -> Answer {
    let located = model::locate_array(rows, n, store, row);
    answer(located.map(|(start, length)| [start as u64, length as u64]))
}

pub fn signed_number(rows: &[u64], n: usize, store: &[u8], row: usize) -> Answer {
    let number = model::signed_number(rows, n, store, row);
    answer(number.map(|number| [number as u64]))
}

/// The row count and `rest_index` of a reading.
fn counts(reading: &Reading) -> [u64; 2] {
    [
        (reading.rows.len() / ROW_WORDS) as u64,
        reading.rest_index as u64,
    ]
}

/// The answer of a reading, whose rows are put into the lent ones.
fn read(rows: &mut [u64], reading: Result<Reading, Refusal>) -> Answer {
    let lent = between_margins(rows);
    answer(reading.map(|reading| {
        lent[..reading.rows.len()].copy_from_slice(&reading.rows);
        counts(&reading)
    }))
}

pub fn parse_val(grammar: &[u32], record: &[u8], index: usize, rows: &mut [u64]) -> Answer {
    let capacity = model::capacity(between_margins(rows).len());
    read(rows, model::parse_val(grammar, record, index, capacity))
}

pub fn demarshall(grammar: &[u32], record: &[u8], rows: &mut [u64]) -> Answer {
    let capacity = model::capacity(between_margins(rows).len());
    read(rows, model::demarshall(grammar, record, capacity))
}

/// The answer of a check.
fn check(reading: Result<Reading, Refusal>) -> Answer {
    answer(reading.map(|reading| counts(&reading)))
}

pub fn check_val(grammar: &[u32], record: &[u8], index: usize) -> Answer {
    check(model::check_val(grammar, record, index))
}

pub fn check_whole(grammar: &[u32], record: &[u8]) -> Answer {
    check(model::check_whole(grammar, record))
}

pub fn check_val_with(grammar: &[u32], record: &[u8], index: usize, capacity: usize) -> Answer {
    check(model::check_val_with(grammar, record, index, capacity))
}

pub fn check_whole_with(grammar: &[u32], record: &[u8], capacity: usize) -> Answer {
    check(model::check_whole_with(grammar, record, capacity))
}

/// The answer of a writing, whose output is put into the lent one.
fn write(out: &mut [u8], writing: Result<Writing, Refusal>) -> Answer {
    let lent = between_margins(out);
    answer(writing.map(|writing| {
        lent.copy_from_slice(&writing.out);
        [writing.size as u64]
    }))
}

pub fn marshall_val(
    grammar: &[u32],
    rows: &[u64],
    n: usize,
    store: &[u8],
    out: &mut [u8],
    index: usize,
) -> Answer {
    let writing = model::marshall_val(grammar, rows, n, store, between_margins(out), index);
    write(out, writing)
}

pub fn marshall(grammar: &[u32], rows: &[u64], n: usize, store: &[u8], out: &mut [u8]) -> Answer {
    let writing = model::marshall(grammar, rows, n, store, between_margins(out));
    write(out, writing)
}

pub fn preview(
    grammar: &[u32],
    rows: &[u64],
    n: usize,
    store: &[u8],
    out: &[u8],
    index: usize,
) -> Answer {
    let preview = model::preview(grammar, rows, n, store, out, index);
    answer(preview.map(|preview| [preview.size as u64, preview.changed as u64]))
}

pub fn same_route(grammar: &[u32], first: &[u8], second: &[u8]) -> Answer {
    let (of_model, record) = match model::same_route(grammar, first, second) {
        Ok(same) => return Answer::Accepted(vec![same.into()]),
        Err(SameRouteRefusal::Grammar(of_model)) => (of_model, 0),
        Err(SameRouteRefusal::First(of_model)) => (of_model, 1),
        Err(SameRouteRefusal::Second(of_model)) => (of_model, 2),
    };
    let refusal = refusal(of_model);
    Answer::Refused { refusal, record }
}

pub fn choose_grammar(list: &[u32], record: &[u8]) -> Answer {
    let chosen = model::choose_grammar(list, record);
    answer(chosen.map(|chosen| [chosen.number as u64, chosen.begun as u64]))
}

pub fn export_xdr(
    grammar: &[u32],
    rows: &[u64],
    n: usize,
    store: &[u8],
    out: &mut [u8],
    index: usize,
) -> Answer {
    let writing = model::export_xdr(grammar, rows, n, store, between_margins(out), index);
    write(out, writing)
}

/// The answer of an import, whose rows and store are put into the lent ones.
pub fn import_xdr(grammar: &[u32], record: &[u8], rows: &mut [u64], store: &mut [u8]) -> Answer {
    let (rows, store) = (between_margins(rows), between_margins(store));
    let capacity = model::capacity(rows.len());
    let importing = model::import_xdr(grammar, record, capacity, store);
    answer(importing.map(|importing| {
        rows[..importing.rows.len()].copy_from_slice(&importing.rows);
        store.copy_from_slice(&importing.store);
        [
            (importing.rows.len() / ROW_WORDS) as u64,
            importing.used as u64,
        ]
    }))
}

pub fn accepts(grammar: &[u32], record: &[u8]) -> Answer {
    let verdict = model::accepts(grammar, record);
    answer(verdict.map(|verdict| [verdict.accepted.into(), verdict.begun as u64]))
}

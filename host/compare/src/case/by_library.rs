//! The library's answer to each call. Where a buffer is lent, it stands between margins.

use route_record::{calls, Parsed, Refusal, SameRouteRefusal};

use super::field::between_margins;
use super::Answer;

/// The answer of a call that gives no number.
fn done(result: Result<(), Refusal>) -> Answer {
    Answer::of(result.map(|()| []))
}

pub fn unpack_u32(packed: &[u8], index: usize) -> Answer {
    Answer::of(calls::unpack_u32(packed, index).map(|number| [number.into()]))
}

pub fn unpack_u64(packed: &[u8], index: usize) -> Answer {
    Answer::of(calls::unpack_u64(packed, index).map(|number| [number]))
}

pub fn pack_u32(number: u32, out: &mut [u8], index: usize) -> Answer {
    done(calls::pack_u32(number, between_margins(out), index))
}

pub fn pack_u64(number: u64, out: &mut [u8], index: usize) -> Answer {
    done(calls::pack_u64(number, between_margins(out), index))
}

pub fn unpack_u32_seq(packed: &[u8], index: usize, numbers: &mut [u32]) -> Answer {
    let lent = between_margins(numbers);
    done(calls::unpack_u32_seq(packed, index, lent))
}

pub fn unpack_u64_seq(packed: &[u8], index: usize, numbers: &mut [u64]) -> Answer {
    let lent = between_margins(numbers);
    done(calls::unpack_u64_seq(packed, index, lent))
}

pub fn pack_u32_seq(numbers: &[u32], out: &mut [u8], index: usize) -> Answer {
    done(calls::pack_u32_seq(numbers, between_margins(out), index))
}

pub fn pack_u64_seq(numbers: &[u64], out: &mut [u8], index: usize) -> Answer {
    done(calls::pack_u64_seq(numbers, between_margins(out), index))
}

pub fn check_grammar(grammar: &[u32]) -> Answer {
    done(calls::check_grammar(grammar))
}

pub fn compute_size_of(rows: &[u64], n: usize, store: &[u8]) -> Answer {
    Answer::of(calls::compute_size_of(rows, n, store).map(|size| [size]))
}

pub fn locate_array(rows: &[u64], n: usize, store: &[u8], row: usize) -> Answer {
    let located = calls::locate_array(rows, n, store, row);
    Answer::of(located.map(|(start, length)| [start as u64, length as u64]))
}

pub fn signed_number(rows: &[u64], n: usize, store: &[u8], row: usize) -> Answer {
    let number = calls::signed_number(rows, n, store, row);
    Answer::of(number.map(|number| [number as u64]))
}

/// The answer of a reading.
fn read(parsed: Result<Parsed, Refusal>) -> Answer {
    Answer::of(parsed.map(|parsed| [parsed.rows as u64, parsed.rest_index as u64]))
}

pub fn parse_val(grammar: &[u32], record: &[u8], index: usize, rows: &mut [u64]) -> Answer {
    let lent = between_margins(rows);
    read(calls::parse_val(grammar, record, index, lent))
}

pub fn demarshall(grammar: &[u32], record: &[u8], rows: &mut [u64]) -> Answer {
    read(calls::demarshall(grammar, record, between_margins(rows)))
}

pub fn check_val(grammar: &[u32], record: &[u8], index: usize) -> Answer {
    read(calls::check_val(grammar, record, index))
}

pub fn check_whole(grammar: &[u32], record: &[u8]) -> Answer {
    read(calls::check_whole(grammar, record))
}

pub fn check_val_with(grammar: &[u32], record: &[u8], index: usize, capacity: usize) -> Answer {
    read(calls::check_val_with(grammar, record, index, capacity))
}

pub fn check_whole_with(grammar: &[u32], record: &[u8], capacity: usize) -> Answer {
    read(calls::check_whole_with(grammar, record, capacity))
}

pub fn marshall_val(
    grammar: &[u32],
    rows: &[u64],
    n: usize,
    store: &[u8],
    out: &mut [u8],
    index: usize,
) -> Answer {
    let lent = between_margins(out);
    let size = calls::marshall_val(grammar, rows, n, store, lent, index);
    Answer::of(size.map(|size| [size as u64]))
}

pub fn marshall(grammar: &[u32], rows: &[u64], n: usize, store: &[u8], out: &mut [u8]) -> Answer {
    let size = calls::marshall(grammar, rows, n, store, between_margins(out));
    Answer::of(size.map(|size| [size as u64]))
}

pub fn preview(
    grammar: &[u32],
    rows: &[u64],
    n: usize,
    store: &[u8],
    out: &[u8],
    index: usize,
) -> Answer {
    let preview = calls::preview(grammar, rows, n, store, out, index);
    Answer::of(preview.map(|preview| [preview.size as u64, preview.changed as u64]))
}

pub fn same_route(grammar: &[u32], first: &[u8], second: &[u8]) -> Answer {
    let (refusal, record) = match calls::same_route(grammar, first, second) {
        Ok(same) => return Answer::Accepted(vec![same.into()]),
        Err(SameRouteRefusal::Grammar(refusal)) => (refusal, 0),
        Err(SameRouteRefusal::First(refusal)) => (refusal, 1),
        Err(SameRouteRefusal::Second(refusal)) => (refusal, 2),
    };
    Answer::Refused { refusal, record }
}

pub fn choose_grammar(list: &[u32], record: &[u8]) -> Answer {
    let chosen = calls::choose_grammar(list, record);
    Answer::of(chosen.map(|chosen| [chosen.number as u64, chosen.begun as u64]))
}

pub fn export_xdr(
    grammar: &[u32],
    rows: &[u64],
    n: usize,
    store: &[u8],
    out: &mut [u8],
    index: usize,
) -> Answer {
    let lent = between_margins(out);
    let size = calls::export_xdr(grammar, rows, n, store, lent, index);
    Answer::of(size.map(|size| [size as u64]))
}

pub fn import_xdr(grammar: &[u32], record: &[u8], rows: &mut [u64], store: &mut [u8]) -> Answer {
    let (rows, store) = (between_margins(rows), between_margins(store));
    let imported = calls::import_xdr(grammar, record, rows, store);
    Answer::of(imported.map(|imported| [imported.rows as u64, imported.used as u64]))
}

pub fn accepts(grammar: &[u32], record: &[u8]) -> Answer {
    let verdict = calls::accepts(grammar, record);
    Answer::of(verdict.map(|verdict| [verdict.accepted.into(), verdict.begun as u64]))
}

//! The calls of the vectors, made of the model.

use model::{
    Chosen, Importing, Place, Preview, Reading, Refusal, SameRouteRefusal, Verdict, Writing,
};

use super::flat::{Call, Given, Outcome};

/// A number that a call is given.
fn number(given: &Given) -> u64 {
    match given {
        Given::Number(number) => *number,
        other => panic!("{other:?} is no number"),
    }
}

/// An index, a row number, a row count or a capacity.
fn size(given: &Given) -> usize {
    number(given) as usize
}

/// Bytes that a call is given.
fn bytes(given: &Given) -> &[u8] {
    match given {
        Given::Bytes(bytes) => bytes,
        other => panic!("{other:?} are no bytes"),
    }
}

/// Words of 64 bits that a call is given.
fn words(given: &Given) -> &[u64] {
    match given {
        Given::Words(words) => words,
        other => panic!("{other:?} are no words"),
    }
}

/// Words of 32 bits that a call is given.
fn short_words(given: &Given) -> Vec<u32> {
    words(given).iter().map(|&word| word as u32).collect()
}

/// The outcome of a refusal that names this record.
fn refused(refusal: Refusal, record: u64) -> Outcome {
    let (kind, place) = match refusal.place {
        Place::Word(word) => (1, word),
        Place::Byte(byte) => (2, byte),
        Place::Row(row) => (3, row),
    };
    (vec![refusal.number, kind, place, record], vec![])
}

/// The outcome of a call that gives these numbers and leaves this in the lent buffers.
fn outcome(result: Result<(Vec<u64>, Vec<Given>), Refusal>) -> Outcome {
    match result {
        Ok((numbers, after)) => ([&[0], &numbers[..]].concat(), after),
        Err(refusal) => refused(refusal, 0),
    }
}

/// The number of words of a row.
const ROW_WORDS: usize = 5;

/// The number of rows of these words.
fn row_count(rows: &[u64]) -> u64 {
    (rows.len() / ROW_WORDS) as u64
}

/// The lent rows with these in the place of the first.
fn filled(lent: &[u64], rows: &[u64]) -> Given {
    Given::Words([rows, &lent[rows.len()..]].concat())
}

/// The outcome of a reading whose rows are put into the lent ones.
fn read(reading: Result<Reading, Refusal>, lent: Option<&[u64]>) -> Outcome {
    outcome(reading.map(|reading| {
        let numbers = vec![row_count(&reading.rows), reading.rest_index as u64];
        let after = lent.map(|lent| filled(lent, &reading.rows));
        (numbers, after.into_iter().collect())
    }))
}

/// The outcome of a writing.
fn written(writing: Result<Writing, Refusal>) -> Outcome {
    outcome(writing.map(|writing| (vec![writing.size as u64], vec![Given::Bytes(writing.out)])))
}

/// The outcome of an import, whose rows are put into the lent ones.
fn imported(importing: Result<Importing, Refusal>, lent: &[u64]) -> Outcome {
    outcome(importing.map(|importing| {
        let numbers = vec![row_count(&importing.rows), importing.used as u64];
        let rows = filled(lent, &importing.rows);
        (numbers, vec![rows, Given::Bytes(importing.store)])
    }))
}

/// The outcome of a preview.
fn previewed(preview: Result<Preview, Refusal>) -> Outcome {
    let numbers = |preview: Preview| vec![preview.size as u64, preview.changed as u64];
    outcome(preview.map(|preview| (numbers(preview), vec![])))
}

/// The outcome of packing.
fn packed(out: Result<Vec<u8>, Refusal>) -> Outcome {
    outcome(out.map(|out| (vec![], vec![Given::Bytes(out)])))
}

/// The outcome of unpacking a sequence.
fn unpacked(numbers: Result<Vec<u64>, Refusal>) -> Outcome {
    outcome(numbers.map(|numbers| (vec![], vec![Given::Words(numbers)])))
}

/// The outcome of same route.
fn same_route(grammar: &[u32], first: &[u8], second: &[u8]) -> Outcome {
    match model::same_route(grammar, first, second) {
        Ok(same) => (vec![0, same.into()], vec![]),
        Err(SameRouteRefusal::Grammar(refusal)) => refused(refusal, 0),
        Err(SameRouteRefusal::First(refusal)) => refused(refusal, 1),
        Err(SameRouteRefusal::Second(refusal)) => refused(refusal, 2),
    }
}

/// The outcome of the chooser.
fn chosen(chosen: Result<Chosen, Refusal>) -> Outcome {
    let numbers = |chosen: Chosen| vec![chosen.number as u64, chosen.begun as u64];
    outcome(chosen.map(|chosen| (numbers(chosen), vec![])))
}

/// The outcome of yes or no.
fn answered(verdict: Result<Verdict, Refusal>) -> Outcome {
    let numbers = |verdict: Verdict| vec![verdict.accepted.into(), verdict.begun as u64];
    outcome(verdict.map(|verdict| (numbers(verdict), vec![])))
}

/// What comes of a call by the model.
pub fn of_model(call: &Call) -> Outcome {
    let width = if call.call.contains("u32") { 4 } else { 8 };
    match (call.call.as_str(), &call.given[..]) {
        ("unpack_u32" | "unpack_u64", [from, index]) => {
            let number = model::unpack(width, bytes(from), size(index));
            outcome(number.map(|number| (vec![number], vec![])))
        }
        ("pack_u32" | "pack_u64", [n, out, index]) => {
            packed(model::pack(width, number(n), bytes(out), size(index)))
        }
        ("unpack_u32_seq" | "unpack_u64_seq", [from, index, lent]) => {
            let (from, index, count) = (bytes(from), size(index), words(lent).len());
            unpacked(model::unpack_seq(width, from, index, count))
        }
        ("pack_u32_seq" | "pack_u64_seq", [numbers, out, index]) => {
            let (numbers, out) = (words(numbers), bytes(out));
            packed(model::pack_seq(width, numbers, out, size(index)))
        }
        ("check_grammar", [grammar]) => {
            let checked = model::check_grammar(&short_words(grammar));
            outcome(checked.map(|()| (vec![], vec![])))
        }
        ("compute_size_of", [rows, n, store]) => {
            let size = model::compute_size_of(words(rows), size(n), bytes(store));
            outcome(size.map(|size| (vec![size], vec![])))
        }
        ("locate_array", [rows, n, store, row]) => {
            let located = model::locate_array(words(rows), size(n), bytes(store), size(row));
            let numbers = |(start, length)| vec![start as u64, length as u64];
            outcome(located.map(|located| (numbers(located), vec![])))
        }
        ("signed_number", [rows, n, store, row]) => {
            let number = model::signed_number(words(rows), size(n), bytes(store), size(row));
            outcome(number.map(|number| (vec![number as u64], vec![])))
        }
        ("parse_val", [grammar, record, index, lent]) => {
            let (grammar, capacity) = (short_words(grammar), model::capacity(words(lent).len()));
            let reading = model::parse_val(&grammar, bytes(record), size(index), capacity);
            read(reading, Some(words(lent)))
        }
        ("demarshall", [grammar, record, lent]) => {
            let (grammar, capacity) = (short_words(grammar), model::capacity(words(lent).len()));
            let reading = model::demarshall(&grammar, bytes(record), capacity);
            read(reading, Some(words(lent)))
        }
        ("check_val", [grammar, record, index]) => {
            let grammar = short_words(grammar);
            read(model::check_val(&grammar, bytes(record), size(index)), None)
        }
        ("check_whole", [grammar, record]) => read(
            model::check_whole(&short_words(grammar), bytes(record)),
            None,
        ),
        ("check_val_with", [grammar, record, index, capacity]) => {
            let (grammar, index, capacity) = (short_words(grammar), size(index), size(capacity));
            let reading = model::check_val_with(&grammar, bytes(record), index, capacity);
            read(reading, None)
        }
        ("check_whole_with", [grammar, record, capacity]) => {
            let (grammar, capacity) = (short_words(grammar), size(capacity));
            read(
                model::check_whole_with(&grammar, bytes(record), capacity),
                None,
            )
        }
        ("marshall_val", [grammar, rows, n, store, out, index]) => {
            let (grammar, rows, n) = (short_words(grammar), words(rows), size(n));
            let (store, out, index) = (bytes(store), bytes(out), size(index));
            written(model::marshall_val(&grammar, rows, n, store, out, index))
        }
        ("marshall", [grammar, rows, n, store, out]) => {
            let (grammar, rows, n) = (short_words(grammar), words(rows), size(n));
            written(model::marshall(&grammar, rows, n, bytes(store), bytes(out)))
        }
        ("preview", [grammar, rows, n, store, out, index]) => {
            let (grammar, rows, n) = (short_words(grammar), words(rows), size(n));
            let (store, out, index) = (bytes(store), bytes(out), size(index));
            previewed(model::preview(&grammar, rows, n, store, out, index))
        }
        ("same_route", [grammar, first, second]) => {
            same_route(&short_words(grammar), bytes(first), bytes(second))
        }
        ("choose_grammar", [list, record]) => {
            chosen(model::choose_grammar(&short_words(list), bytes(record)))
        }
        ("export_xdr", [grammar, rows, n, store, out, index]) => {
            let (grammar, rows, n) = (short_words(grammar), words(rows), size(n));
            let (store, out, index) = (bytes(store), bytes(out), size(index));
            written(model::export_xdr(&grammar, rows, n, store, out, index))
        }
        ("import_xdr", [grammar, record, rows, store]) => {
            let (grammar, rows, store) = (short_words(grammar), words(rows), bytes(store));
            let capacity = model::capacity(rows.len());
            imported(
                model::import_xdr(&grammar, bytes(record), capacity, store),
                rows,
            )
        }
        ("accepts", [grammar, record]) => {
            answered(model::accepts(&short_words(grammar), bytes(record)))
        }
        ("show", [input]) => (vec![0], vec![Given::Bytes(model::show(bytes(input)))]),
        (other, given) => panic!("{other} of {} fields", given.len()),
    }
}

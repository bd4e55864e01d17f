//! Safe Rust as an implementation of the library's calls, so that its answers are compared case by
//! case, as the library's are.

use compare::{Answer, Case, Outcome};
use route_record::{Place, Refusal, MAX_ROWS};

use crate::peer;
use crate::program::Call;
use crate::records::{Input, WORDS};

/// The answer of a call that names no record.
fn answer<const N: usize>(result: Result<[u64; N], peer::Refusal>) -> Answer {
    match result {
        Ok(given) => Answer::Accepted(given.to_vec()),
        Err(peer::Refusal { number, place }) => Answer::Refused {
            refusal: Refusal {
                number: number.into(),
                place: match place {
                    peer::Place::Word(word) => Place::Word(word as u64),
                    peer::Place::Byte(byte) => Place::Byte(byte as u64),
                    peer::Place::Row(row) => Place::Row(row as u64),
                },
            },
            record: 0,
        },
    }
}

/// The answer of a reading.
fn read(parsed: Result<peer::Parsed, peer::Refusal>) -> Answer {
    answer(parsed.map(|parsed| [parsed.rows as u64, parsed.rest_index as u64]))
}

/// What comes of a case by safe Rust, and by the model where safe Rust has not the call. Of two
/// records safe Rust does not say which one is refused.
pub fn of_rust(case: &Case) -> Outcome {
    let mut after = case.clone();
    let answer = match &mut after {
        Case::CheckGrammar { grammar } => answer(peer::check_grammar(grammar).map(|()| [])),
        Case::CheckWhole { grammar, record } => read(peer::check_whole(grammar, record)),
        Case::CheckWholeWith {
            grammar,
            record,
            capacity,
        } => read(peer::check_whole_with(grammar, record, *capacity)),
        Case::Demarshall {
            grammar,
            record,
            rows,
        } => read(peer::demarshall(grammar, record, rows)),
        Case::ComputeSizeOf { rows, n, store } => {
            answer(peer::compute_size_of(rows, *n, store).map(|size| [size]))
        }
        Case::Marshall {
            grammar,
            rows,
            n,
            store,
            out,
        } => answer(peer::marshall(grammar, rows, *n, store, out).map(|size| [size as u64])),
        Case::MarshallVal {
            grammar,
            rows,
            n,
            store,
            out,
            index,
        } => {
            let size = peer::marshall_val(grammar, rows, *n, store, out, *index);
            answer(size.map(|size| [size as u64]))
        }
        Case::Preview {
            grammar,
            rows,
            n,
            store,
            out,
            index,
        } => {
            let preview = peer::preview(grammar, rows, *n, store, out, *index);
            answer(preview.map(|preview| [preview.size as u64, preview.changed as u64]))
        }
        Case::SameRoute {
            grammar,
            first,
            second,
        } => {
            let same = peer::same_route(grammar, first, second).map(|same| [same.into()]);
            match (answer(same), case.of_model().answer) {
                (Answer::Refused { refusal, .. }, Answer::Refused { record, .. }) => {
                    Answer::Refused { refusal, record }
                }
                (of_rust, _) => of_rust,
            }
        }
        Case::Accepts { grammar, record } => {
            let verdict = peer::accepts(grammar, record);
            answer(verdict.map(|verdict| [verdict.accepted.into(), verdict.begun as u64]))
        }
        Case::ChooseGrammar { list, record } => {
            let chosen = peer::choose_grammar(list, record);
            answer(chosen.map(|chosen| [chosen.number as u64, chosen.begun as u64]))
        }
        Case::UnpackU32Seq {
            packed,
            index,
            numbers,
        } => answer(peer::unpack_u32_seq(packed, *index, numbers).map(|()| [])),
        Case::PackU32Seq {
            numbers,
            out,
            index,
        } => answer(peer::pack_u32_seq(numbers, out, *index).map(|()| [])),
        Case::ExportXdr {
            grammar,
            rows,
            n,
            store,
            out,
            index,
        } => {
            let size = peer::export_xdr(grammar, rows, *n, store, out, *index);
            answer(size.map(|size| [size as u64]))
        }
        Case::ImportXdr {
            grammar,
            record,
            rows,
            store,
        } => {
            let imported = peer::import_xdr(grammar, record, rows, store);
            answer(imported.map(|imported| [imported.rows as u64, imported.used as u64]))
        }
        _ => return case.of_model(),
    };
    Outcome::with(answer, &after)
}

/// The case of a call on a record; of one on its rows, the record is accepted.
pub fn case_of(call: Call, input: &Input) -> Case {
    let (grammar, record) = (input.grammar.clone(), input.record.clone());
    match call {
        Call::CheckGrammar => Case::CheckGrammar { grammar },
        Call::Check => Case::CheckWhole { grammar, record },
        Call::CheckMost => Case::CheckWholeWith {
            grammar,
            record,
            capacity: MAX_ROWS,
        },
        Call::Read => Case::Demarshall {
            grammar,
            record,
            rows: vec![0xa5; WORDS],
        },
        Call::Write => {
            let (rows, n) = input.rows();
            Case::Marshall {
                grammar,
                rows,
                n,
                out: vec![0xa5; record.len()],
                store: record,
            }
        }
        Call::Preview => {
            let (rows, n) = input.rows();
            Case::Preview {
                grammar,
                rows,
                n,
                store: record,
                out: input.output(),
                index: 0,
            }
        }
        Call::Size => {
            let (rows, n) = input.rows();
            let store = record;
            Case::ComputeSizeOf { rows, n, store }
        }
        Call::SameRoute => Case::SameRoute {
            grammar,
            first: record,
            second: input.other.clone(),
        },
        Call::Accepts => Case::Accepts { grammar, record },
        Call::Choose => Case::ChooseGrammar {
            list: input.list.clone(),
            record,
        },
        Call::Unpack => Case::UnpackU32Seq {
            packed: input.packed().to_vec(),
            index: 0,
            numbers: vec![0xa5; input.numbers().len()],
        },
        Call::Pack => Case::PackU32Seq {
            numbers: input.numbers(),
            out: vec![0xa5; input.packed().len()],
            index: 0,
        },
        Call::Export => {
            let (rows, n) = input.rows();
            Case::ExportXdr {
                grammar,
                rows,
                n,
                store: record,
                out: vec![0xa5; input.xdr().len()],
                index: 0,
            }
        }
        Call::Import => {
            let xdr = input.xdr();
            Case::ImportXdr {
                grammar,
                rows: vec![0xa5; WORDS],
                store: vec![0xa5; xdr.len()],
                record: xdr,
            }
        }
    }
}

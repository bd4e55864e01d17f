//! The programs that are measured, and their calls.

use std::hint::black_box;

use route_record::MAX_ROWS;

use crate::measure::Contender;
use crate::records::{Input, WORDS};

/// What is measured of a record that is accepted whole; `Accepts` also of one that is not.
#[derive(Clone, Copy, Debug, PartialEq, Eq)]
pub enum Call {
    /// The check of the grammar, which the other calls make first, but for the size, unpacking and
    /// packing.
    CheckGrammar,
    /// The check of the record, with no rows, as a value of at most 1,024.
    Check,
    /// That check with capacity 4,096, so that records of more rows are accepted, too.
    CheckMost,
    /// Reading the record into rows.
    Read,
    /// Writing the record's value from its rows.
    Write,
    /// What that writing would change in the input's output.
    Preview,
    /// The size of the value, from its rows.
    Size,
    /// Whether the record and the input's other one are the same route.
    SameRoute,
    /// Whether the record is accepted.
    Accepts,
    /// Which grammar of the input's list is the first that accepts the record.
    Choose,
    /// Unpacking the numbers of a record that is a uint32 array.
    Unpack,
    /// Packing those numbers.
    Pack,
    /// Writing the record's value from its rows as XDR.
    Export,
    /// Reading that XDR into rows and a store.
    Import,
}

impl Call {
    /// The call's name in the tables.
    pub fn name(self) -> &'static str {
        match self {
            Call::CheckGrammar => "check the grammar",
            Call::Check | Call::CheckMost => "check",
            Call::Read => "read",
            Call::Write => "write",
            Call::Preview => "preview",
            Call::Size => "size",
            Call::SameRoute => "same route",
            Call::Accepts => "accepts",
            Call::Choose => "choose",
            Call::Unpack => "unpack",
            Call::Pack => "pack",
            Call::Export => "export",
            Call::Import => "import",
        }
    }
}

/// A program that is measured.
pub trait Program {
    /// The program's name in the tables.
    fn name(&self) -> &'static str;

    /// The call on this record, if the program has it.
    fn contender<'a>(&self, call: Call, input: &'a Input) -> Option<Contender<'a>>;
}

/// A buffer, and where `count` elements of it start that lie half a page behind `source`, modulo a
/// page, at the start of a cache line. On some processors a copy to a place that is nearer, or across
/// lines, takes longer, by one program more than by another.
fn apart<S, T: Clone + Default>(source: &[S], count: usize) -> (Vec<T>, usize) {
    const PAGE: usize = 4_096;
    const LINE: usize = 64;
    let buffer = vec![T::default(); count + PAGE / size_of::<T>()];
    let start = (source.as_ptr().addr() + PAGE / 2) / LINE * LINE;
    let behind = start.wrapping_sub(buffer.as_ptr().addr()) % PAGE;
    (buffer, behind / size_of::<T>())
}

/// The contender of a module that has the library's calls under the library's names.
macro_rules! contender {
    ($($module:ident)::+, $call:expr, $input:expr) => {{
        use $($module)::+ as calls;
        let input: &Input = $input;
        let Input {
            grammar,
            record,
            other,
            list,
        } = input;
        match $call {
            Call::CheckGrammar => Contender::new(|| calls::check_grammar(black_box(grammar))),
            Call::Check => {
                Contender::new(|| calls::check_whole(black_box(grammar), black_box(record)))
            }
            Call::CheckMost => Contender::new(|| {
                calls::check_whole_with(black_box(grammar), black_box(record), MAX_ROWS)
            }),
            Call::Read => {
                let mut rows = vec![0; WORDS];
                Contender::new(move || {
                    calls::demarshall(black_box(grammar), black_box(record), black_box(&mut rows))
                })
            }
            Call::Write => {
                let (rows, n) = input.rows();
                let mut out = vec![0; record.len()];
                Contender::new(move || {
                    let (rows, out) = (black_box(&rows), black_box(&mut out));
                    calls::marshall(black_box(grammar), rows, n, black_box(record), out)
                })
            }
            Call::Preview => {
                let ((rows, n), out) = (input.rows(), input.output());
                Contender::new(move || {
                    let (rows, out) = (black_box(&rows), black_box(&out));
                    calls::preview(black_box(grammar), rows, n, black_box(record), out, 0)
                })
            }
            Call::Size => {
                let (rows, n) = input.rows();
                Contender::new(move || {
                    calls::compute_size_of(black_box(&rows), n, black_box(record))
                })
            }
            Call::SameRoute => Contender::new(|| {
                calls::same_route(black_box(grammar), black_box(record), black_box(other))
            }),
            Call::Accepts => {
                Contender::new(|| calls::accepts(black_box(grammar), black_box(record)))
            }
            Call::Choose => {
                Contender::new(|| calls::choose_grammar(black_box(list), black_box(record)))
            }
            Call::Unpack => {
                let (packed, count) = (input.packed(), input.numbers().len());
                let (mut buffer, start) = apart(packed, count);
                Contender::new(move || {
                    let numbers = &mut buffer[start..][..count];
                    calls::unpack_u32_seq(black_box(packed), 0, black_box(numbers))
                })
            }
            Call::Pack => {
                let (numbers, size) = (input.numbers(), input.packed().len());
                let (mut buffer, start) = apart(&numbers, size);
                Contender::new(move || {
                    let out = &mut buffer[start..][..size];
                    calls::pack_u32_seq(black_box(&numbers), black_box(out), 0)
                })
            }
            Call::Export => {
                let ((rows, n), size) = (input.rows(), input.xdr().len());
                let (mut buffer, start) = apart(record, size);
                Contender::new(move || {
                    let (rows, out) = (black_box(&rows), black_box(&mut buffer[start..][..size]));
                    calls::export_xdr(black_box(grammar), rows, n, black_box(record), out, 0)
                })
            }
            Call::Import => {
                let (xdr, mut rows) = (input.xdr(), vec![0; WORDS]);
                let (mut buffer, start) = apart(&xdr, xdr.len());
                Contender::new(move || {
                    let store = black_box(&mut buffer[start..][..xdr.len()]);
                    calls::import_xdr(
                        black_box(grammar),
                        black_box(&xdr),
                        black_box(&mut rows),
                        store,
                    )
                })
            }
        }
    }};
}

/// The library, called through its bindings.
pub struct Library;

impl Program for Library {
    fn name(&self) -> &'static str {
        "library"
    }

    fn contender<'a>(&self, call: Call, input: &'a Input) -> Option<Contender<'a>> {
        Some(contender!(route_record::calls, call, input))
    }
}

/// The same algorithm in safe Rust.
pub struct Rust;

impl Program for Rust {
    fn name(&self) -> &'static str {
        "Rust"
    }

    fn contender<'a>(&self, call: Call, input: &'a Input) -> Option<Contender<'a>> {
        Some(contender!(crate::peer, call, input))
    }
}

/// The model's calls with the library's parameters.
mod of_model {
    pub use model::{accepts, check_grammar, check_whole, check_whole_with, choose_grammar};
    pub use model::{compute_size_of, export_xdr, marshall, preview, same_route};
    use model::{Importing, Reading, Refusal};

    pub fn demarshall(grammar: &[u32], record: &[u8], rows: &[u64]) -> Result<Reading, Refusal> {
        model::demarshall(grammar, record, model::capacity(rows.len()))
    }

    pub fn import_xdr(
        grammar: &[u32],
        record: &[u8],
        rows: &[u64],
        store: &[u8],
    ) -> Result<Importing, Refusal> {
        model::import_xdr(grammar, record, model::capacity(rows.len()), store)
    }

    pub fn unpack_u32_seq(
        packed: &[u8],
        index: usize,
        numbers: &[u32],
    ) -> Result<Vec<u64>, Refusal> {
        model::unpack_seq(4, packed, index, numbers.len())
    }

    pub fn pack_u32_seq(numbers: &[u32], out: &[u8], index: usize) -> Result<Vec<u8>, Refusal> {
        let wide: Vec<u64> = numbers.iter().map(|&number| number.into()).collect();
        model::pack_seq(4, &wide, out, index)
    }
}

/// The model, which makes trees and vectors.
pub struct Model;

impl Program for Model {
    fn name(&self) -> &'static str {
        "model"
    }

    fn contender<'a>(&self, call: Call, input: &'a Input) -> Option<Contender<'a>> {
        Some(contender!(self::of_model, call, input))
    }
}

/// The copying of a record that is one array, beside which its writing is held, and of as many of its
/// bytes as its XDR has, beside which its export is held.
pub struct Copy;

impl Program for Copy {
    fn name(&self) -> &'static str {
        "copy"
    }

    fn contender<'a>(&self, call: Call, input: &'a Input) -> Option<Contender<'a>> {
        let size = match call {
            Call::Write => input.record.len(),
            Call::Export => input.xdr().len(),
            _ => return None,
        };
        if input.rows().1 != 1 {
            return None;
        }
        let (mut buffer, start) = match call {
            Call::Export => apart(&input.record, size),
            _ => (vec![0; size], 0),
        };
        Some(Contender::new(move || {
            let out = black_box(&mut buffer[start..][..size]);
            out.copy_from_slice(black_box(&input.record[..size]));
        }))
    }
}

/// The library's check with capacity 4,096, beside which its yes is held: that reading is what yes
/// takes, the least lengths aside.
pub struct Check;

impl Program for Check {
    fn name(&self) -> &'static str {
        "check"
    }

    fn contender<'a>(&self, call: Call, input: &'a Input) -> Option<Contender<'a>> {
        match call {
            Call::Accepts => Library.contender(Call::CheckMost, input),
            _ => None,
        }
    }
}

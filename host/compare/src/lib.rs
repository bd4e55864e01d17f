//! Comparison of the library, called through its bindings, and of the show program with the model.
//! A comparison runs one [`Case`] through both, and panics with the case where they differ.

#![forbid(unsafe_code)]
#![deny(missing_docs)]

mod case;
mod difference;
pub mod json;
mod line;
pub mod list;
mod own_bytes;
mod packed;
mod random;
mod random_case;
mod record;
mod row_table;
mod run;
mod shortest;
mod show;
mod shrink;
mod table;
mod writing;

pub use case::{Answer, Case, Field, Outcome};
pub use difference::Difference;
pub use line::{Line, BYTES};
pub use own_bytes::{own_bytes, OwnBytes};
pub use packed::{Calls, Number, U32, U64};
pub use random::Random;
pub use record::Record;
pub use row_table::{set_sizes, Row, RowInput, RowTable};
pub use run::{on_large_stack, run, Answers};
pub use shortest::shortest_record;
pub use show::{show, show_by_model, show_by_program, show_from, show_in_pieces, show_input};
pub use shrink::shrink;
pub use table::{chain, chain_and_number, doubling, grammar_list, grammars_of, leaf};
pub use table::{of_length, root_kinds, table, Table};
pub use writing::Value;

/// The refusal of the model in the bindings' type.
fn refusal(of_model: model::Refusal) -> route_record::Refusal {
    route_record::Refusal {
        number: of_model.number,
        place: match of_model.place {
            model::Place::Word(word) => route_record::Place::Word(word),
            model::Place::Byte(byte) => route_record::Place::Byte(byte),
            model::Place::Row(row) => route_record::Place::Row(row),
        },
    }
}

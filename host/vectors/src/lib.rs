//! Test vectors for a second implementation: files of lines of JSON, each a call with its answer.
//! The calls are listed here, the answers are the model's.

#![forbid(unsafe_code)]
#![deny(missing_docs)]

mod c_table;
mod cases;
mod check;
mod show;
pub mod variants;
mod vector;

pub use c_table::c_table;
pub use check::{check, Counts};
pub use show::Show;
pub use vector::Vector;

use std::collections::HashSet;
use std::path::PathBuf;

use compare::{on_large_stack, Case};

/// A file of vectors.
pub struct File {
    /// Its name, without the folder.
    pub name: &'static str,
    /// Makes its vectors, in order, with the model's answers.
    pub vectors: fn() -> Vec<Vector>,
}

/// All files.
pub const FILES: [File; 12] = [
    File {
        name: "packed.jsonl",
        vectors: || of_cases(cases::packed(), vec![]),
    },
    File {
        name: "grammar.jsonl",
        vectors: || of_cases(cases::grammar(), cases::borders::grammar()),
    },
    File {
        name: "reading.jsonl",
        vectors: || of_cases(cases::reading(), cases::borders::reading()),
    },
    File {
        name: "rows.jsonl",
        vectors: || of_cases(cases::rows(), cases::borders::rows()),
    },
    File {
        name: "signed.jsonl",
        vectors: || of_cases(cases::signed(), cases::borders::signed()),
    },
    File {
        name: "writing.jsonl",
        vectors: || of_cases(cases::writing(), cases::borders::writing()),
    },
    File {
        name: "preview.jsonl",
        vectors: || of_cases(cases::preview(), vec![]),
    },
    File {
        name: "same_route.jsonl",
        vectors: || of_cases(cases::same_route(), vec![]),
    },
    File {
        name: "choosing.jsonl",
        vectors: || of_cases(cases::choosing(), vec![]),
    },
    File {
        name: "xdr.jsonl",
        vectors: || of_cases(cases::xdr_calls(), vec![]),
    },
    File {
        name: "accepts.jsonl",
        vectors: || of_cases(cases::accepts(), vec![]),
    },
    File {
        name: "show.jsonl",
        vectors: || {
            let inputs = cases::show().into_iter().chain(cases::borders::show());
            inputs.map(Vector::of_input).collect()
        },
    },
];

/// The vectors of library calls: those listed, and of the borders those that are not among them.
fn of_cases(mut cases: cases::Cases, mut borders: cases::Cases) -> Vec<Vector> {
    let listed: HashSet<&Case> = cases.iter().map(|(_, case)| case).collect();
    borders.retain(|(_, case)| !listed.contains(case));
    cases.append(&mut borders);
    on_large_stack(|| cases.into_iter().map(Vector::of_case).collect())
}

impl File {
    /// The text of the file: a line for each vector.
    pub fn text(&self) -> String {
        let vectors = (self.vectors)();
        vectors.iter().map(|vector| format!("{vector}\n")).collect()
    }

    /// Where the file stands in the repository.
    pub fn path(&self) -> PathBuf {
        folder().join(self.name)
    }
}

/// The folder of the files.
pub fn folder() -> PathBuf {
    PathBuf::from(env!("CARGO_MANIFEST_DIR")).join("../../vectors")
}

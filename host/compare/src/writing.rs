//! The cases of the writing calls, of preview and of export.

use route_record::{Refusal, MAX_ROWS, ROW_WORDS};

use crate::Case;

/// What the writing calls, preview and export are given, but for the output and the index.
#[derive(Clone, Debug, PartialEq)]
pub struct Value {
    /// The words of the grammar.
    pub grammar: Vec<u32>,
    /// The words of the rows.
    pub rows: Vec<u64>,
    /// How many rows are the value's.
    pub n: usize,
    /// The store.
    pub store: Vec<u8>,
}

impl Value {
    /// The value of a record that the library reads whole, with the record as the store.
    pub fn read(grammar: &[u32], record: &[u8]) -> Value {
        let mut rows = vec![0; ROW_WORDS * MAX_ROWS];
        let parsed = route_record::calls::demarshall(grammar, record, &mut rows);
        let n = parsed.expect("a record of the grammar").rows;
        rows.truncate(ROW_WORDS * n);
        Value {
            grammar: grammar.to_vec(),
            rows,
            n,
            store: record.to_vec(),
        }
    }

    /// The value, the output and the index of a case of a writing call, of preview or of export.
    pub fn of(case: &Case) -> Option<(Value, Vec<u8>, usize)> {
        let (grammar, rows, n, store, out, index) = match case {
            Case::MarshallVal {
                grammar,
                rows,
                n,
                store,
                out,
                index,
            }
            | Case::Preview {
                grammar,
                rows,
                n,
                store,
                out,
                index,
            }
            | Case::ExportXdr {
                grammar,
                rows,
                n,
                store,
                out,
                index,
            } => (grammar, rows, n, store, out, *index),
            Case::Marshall {
                grammar,
                rows,
                n,
                store,
                out,
            } => (grammar, rows, n, store, out, 0),
            _ => return None,
        };
        let value = Value {
            grammar: grammar.clone(),
            rows: rows.clone(),
            n: *n,
            store: store.clone(),
        };
        Some((value, out.clone(), index))
    }

    /// The writing at `index` to this output.
    pub fn marshall_val_case(self, out: Vec<u8>, index: usize) -> Case {
        Case::MarshallVal {
            grammar: self.grammar,
            rows: self.rows,
            n: self.n,
            store: self.store,
            out,
            index,
        }
    }

    /// The preview of the writing at `index` to this output.
    pub fn preview_case(self, out: Vec<u8>, index: usize) -> Case {
        Case::Preview {
            grammar: self.grammar,
            rows: self.rows,
            n: self.n,
            store: self.store,
            out,
            index,
        }
    }

    /// The export at `index` to this output.
    pub fn export_case(self, out: Vec<u8>, index: usize) -> Case {
        Case::ExportXdr {
            grammar: self.grammar,
            rows: self.rows,
            n: self.n,
            store: self.store,
            out,
            index,
        }
    }

    /// The writing at byte 0 to this output.
    pub fn marshall_case(self, out: Vec<u8>) -> Case {
        Case::Marshall {
            grammar: self.grammar,
            rows: self.rows,
            n: self.n,
            store: self.store,
            out,
        }
    }

    /// Compares the writing at byte 0 to an output of this length, and gives the bytes written.
    pub fn marshall(&self, length: usize) -> Result<Vec<u8>, Refusal> {
        let outcome = self.clone().marshall_case(vec![0xa5; length]).compare();
        let [size] = outcome.answer.clone().result()?;
        match outcome.after() {
            Case::Marshall { out, .. } => Ok(out[..size as usize].to_vec()),
            other => panic!("{} is another call", other.call()),
        }
    }
}

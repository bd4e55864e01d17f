//! One call of the library with everything that it is given, and what comes of it, by the model
//! and by the library.

mod by_library;
mod by_model;
mod field;
mod outcome;

pub use field::Field;
pub use outcome::{Answer, Outcome};

use field::Given;

use crate::{Difference, Random, Value};

/// Defines the cases: a variant for each call, with the call's name, what it is given, the buffers
/// that are lent to it and the numbers that it gives when it is accepted.
macro_rules! cases {
    ($(
        $variant:ident $call:ident { $($field:ident: $kind:ty),* }
        lends [$($lent:ident),*] gives [$($given:ident),*];
    )*) => {
        /// A call of the library with everything that it is given. A lent buffer is given as it is
        /// before the call.
        #[derive(Clone, Debug, PartialEq, Eq, Hash)]
        #[allow(missing_docs)]
        pub enum Case {
            $($variant { $($field: $kind),* },)*
        }

        impl Case {
            /// A case of each call, with empty slices and with zeros.
            pub fn blanks() -> Vec<Case> {
                vec![$(Case::$variant { $($field: Default::default()),* }),*]
            }

            /// The name of the call.
            pub fn call(&self) -> &'static str {
                match self {
                    $(Case::$variant { .. } => stringify!($call),)*
                }
            }

            /// What the call is given, by name.
            pub fn fields(&mut self) -> Vec<(&'static str, Field<'_>)> {
                match self {
                    $(Case::$variant { $($field),* } => {
                        vec![$((stringify!($field), $field.as_field())),*]
                    })*
                }
            }

            /// The model's answer to the case, which is then as after the call. The lent buffers
            /// have margins.
            fn call_model(&mut self) -> Answer {
                match self {
                    $(Case::$variant { $($field),* } => {
                        by_model::$call($($field.as_argument()),*)
                    })*
                }
            }

            /// The library's answer to the case, which is then as after the call. The lent buffers
            /// have margins.
            fn call_library(&mut self) -> Answer {
                match self {
                    $(Case::$variant { $($field),* } => {
                        by_library::$call($($field.as_argument()),*)
                    })*
                }
            }

            /// The names of the lent buffers.
            pub fn lent_names(&self) -> &'static [&'static str] {
                match self {
                    $(Case::$variant { .. } => &[$(stringify!($lent)),*],)*
                }
            }

            /// The names of the numbers that the call gives when it is accepted.
            pub fn given_names(&self) -> &'static [&'static str] {
                match self {
                    $(Case::$variant { .. } => &[$(stringify!($given)),*],)*
                }
            }
        }
    };
}

cases! {
    UnpackU32 unpack_u32 { packed: Vec<u8>, index: usize } lends [] gives [number];
    UnpackU64 unpack_u64 { packed: Vec<u8>, index: usize } lends [] gives [number];
    PackU32 pack_u32 { number: u32, out: Vec<u8>, index: usize } lends [out] gives [];
    PackU64 pack_u64 { number: u64, out: Vec<u8>, index: usize } lends [out] gives [];
    UnpackU32Seq unpack_u32_seq { packed: Vec<u8>, index: usize, numbers: Vec<u32> }
        lends [numbers] gives [];
    UnpackU64Seq unpack_u64_seq { packed: Vec<u8>, index: usize, numbers: Vec<u64> }
        lends [numbers] gives [];
    PackU32Seq pack_u32_seq { numbers: Vec<u32>, out: Vec<u8>, index: usize }
        lends [out] gives [];
    PackU64Seq pack_u64_seq { numbers: Vec<u64>, out: Vec<u8>, index: usize }
        lends [out] gives [];
    CheckGrammar check_grammar { grammar: Vec<u32> } lends [] gives [];
    ComputeSizeOf compute_size_of { rows: Vec<u64>, n: usize, store: Vec<u8> }
        lends [] gives [size];
    LocateArray locate_array { rows: Vec<u64>, n: usize, store: Vec<u8>, row: usize }
        lends [] gives [start, length];
    SignedNumber signed_number { rows: Vec<u64>, n: usize, store: Vec<u8>, row: usize }
        lends [] gives [number];
    ParseVal parse_val { grammar: Vec<u32>, record: Vec<u8>, index: usize, rows: Vec<u64> }
        lends [rows] gives [row_count, rest_index];
    Demarshall demarshall { grammar: Vec<u32>, record: Vec<u8>, rows: Vec<u64> }
        lends [rows] gives [row_count, rest_index];
    CheckVal check_val { grammar: Vec<u32>, record: Vec<u8>, index: usize }
        lends [] gives [row_count, rest_index];
    CheckWhole check_whole { grammar: Vec<u32>, record: Vec<u8> }
        lends [] gives [row_count, rest_index];
    CheckValWith check_val_with {
        grammar: Vec<u32>, record: Vec<u8>, index: usize, capacity: usize
    } lends [] gives [row_count, rest_index];
    CheckWholeWith check_whole_with { grammar: Vec<u32>, record: Vec<u8>, capacity: usize }
        lends [] gives [row_count, rest_index];
    MarshallVal marshall_val {
        grammar: Vec<u32>, rows: Vec<u64>, n: usize, store: Vec<u8>, out: Vec<u8>, index: usize
    } lends [out] gives [size];
    Marshall marshall {
        grammar: Vec<u32>, rows: Vec<u64>, n: usize, store: Vec<u8>, out: Vec<u8>
    } lends [out] gives [size];
    Preview preview {
        grammar: Vec<u32>, rows: Vec<u64>, n: usize, store: Vec<u8>, out: Vec<u8>, index: usize
    } lends [] gives [size, changed];
    SameRoute same_route { grammar: Vec<u32>, first: Vec<u8>, second: Vec<u8> }
        lends [] gives [same];
    ChooseGrammar choose_grammar { list: Vec<u32>, record: Vec<u8> }
        lends [] gives [number, begun];
    ExportXdr export_xdr {
        grammar: Vec<u32>, rows: Vec<u64>, n: usize, store: Vec<u8>, out: Vec<u8>, index: usize
    } lends [out] gives [size];
    ImportXdr import_xdr { grammar: Vec<u32>, record: Vec<u8>, rows: Vec<u64>, store: Vec<u8> }
        lends [rows, store] gives [row_count, used];
    Accepts accepts { grammar: Vec<u32>, record: Vec<u8> } lends [] gives [yes, begun];
}

impl Case {
    /// The lent buffers, by name.
    pub fn lent(&mut self) -> Vec<(&'static str, Field<'_>)> {
        let names = self.lent_names();
        let mut lent = self.fields();
        lent.retain(|(name, _)| names.contains(name));
        lent
    }

    /// The numbers of the answers that the call can give, 0 for accepted.
    pub fn answer_numbers(&self) -> &'static [u64] {
        match self {
            Case::UnpackU32 { .. } | Case::UnpackU64 { .. } => &[0, 7, 9],
            Case::UnpackU32Seq { .. } | Case::UnpackU64Seq { .. } => &[0, 7, 9],
            Case::PackU32 { .. } | Case::PackU64 { .. } => &[0, 17],
            Case::PackU32Seq { .. } | Case::PackU64Seq { .. } => &[0, 17],
            Case::CheckGrammar { .. } | Case::Accepts { .. } => &[0, 1, 2, 3, 4, 5],
            Case::ComputeSizeOf { .. } => &[0, 6, 12, 13, 14],
            Case::LocateArray { .. } => &[0, 6, 12, 13, 14, 18],
            Case::SignedNumber { .. } => &[0, 6, 12, 13, 14, 20],
            Case::ParseVal { .. } | Case::CheckVal { .. } | Case::CheckValWith { .. } => {
                &[0, 1, 2, 3, 4, 5, 6, 7, 8, 9, 10]
            }
            Case::Demarshall { .. }
            | Case::CheckWhole { .. }
            | Case::CheckWholeWith { .. }
            | Case::SameRoute { .. } => &[0, 1, 2, 3, 4, 5, 6, 8, 9, 10, 11],
            Case::MarshallVal { .. }
            | Case::Marshall { .. }
            | Case::Preview { .. }
            | Case::ExportXdr { .. } => &[0, 1, 2, 3, 4, 5, 6, 12, 13, 14, 15, 16, 17],
            Case::ChooseGrammar { .. } => &[0, 1, 2, 3, 4, 5, 6, 21, 22],
            Case::ImportXdr { .. } => &[0, 1, 2, 3, 4, 5, 6, 8, 9, 10, 11, 17, 23],
        }
    }

    /// What comes of the case by the model.
    pub fn of_model(&self) -> Outcome {
        Outcome::of(self, Case::call_model)
    }

    /// What comes of the case by the library.
    pub fn of_library(&self) -> Outcome {
        Outcome::by(self, Case::call_library)
    }

    /// The writing that a preview is about, to a copy of the output.
    pub fn previewed(&self) -> Option<Case> {
        let Case::Preview { .. } = self else {
            return None;
        };
        let (value, out, index) = Value::of(self)?;
        Some(value.marshall_val_case(out, index))
    }

    /// The same reading of a proper front part of the record, if the case is a whole reading and the
    /// record is not empty. The length is random, and the same for equal records.
    pub fn front_part(&self) -> Option<Case> {
        let mut front = self.clone();
        let (Case::Demarshall { record, .. }
        | Case::CheckWhole { record, .. }
        | Case::CheckWholeWith { record, .. }) = &mut front
        else {
            return None;
        };
        let longest = record.len().checked_sub(1)?;
        let of_bytes = |seed, &byte: &u8| Random::new(seed ^ u64::from(byte)).number();
        let seed = record.iter().fold(0, of_bytes);
        record.truncate(Random::new(seed).within(0..=longest));
        Some(front)
    }

    /// What comes of the case, by both. Panics with the case where they differ.
    pub fn compare(&self) -> Outcome {
        let (model, library) = (self.of_model(), self.of_library());
        if library != model {
            let case = self.clone();
            let difference = Difference {
                case,
                model,
                library,
            };
            panic!("the model and the library differ:\n{difference}");
        }
        library
    }
}

//! The library's calls in safe Rust: the same algorithm, written as a Rust program is, with slices,
//! `Result` and `?`. Beside these the library's times are measured; nothing else uses them.

mod accepting;
mod choosing;
mod exporting;
mod grammar;
mod importing;
mod packed;
mod reading;
mod refusal;
mod rows;
mod writing;
mod xdr;

pub use accepting::{accepts, Verdict};
pub use choosing::{choose_grammar, Chosen};
pub use exporting::export_xdr;
pub use grammar::check_grammar;
pub use importing::{import_xdr, Imported};
pub use packed::{pack_u32_seq, unpack_u32_seq};
pub use reading::{check_whole, check_whole_with, demarshall, same_route, Parsed};
pub use refusal::{Place, Refusal};
pub use writing::{compute_size_of, marshall, marshall_val, preview, Preview};

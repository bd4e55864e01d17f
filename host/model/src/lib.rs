//! A model of the route-record library, written from the definitions of its Dafny source, from the
//! definition of two's complement, from RFC 4506 and from the table of refusals. It shares nothing
//! with the proved code. A function here only reads the buffers it is given, and gives back what they
//! hold after the call.

#![forbid(unsafe_code)]
#![deny(missing_docs)]

mod accepts;
mod choosing;
mod grammar;
mod packed;
mod preview;
mod reading;
mod refusal;
mod rows;
mod same_route;
mod show;
mod signed;
mod writing;
mod xdr;

pub use accepts::{accepts, least_length, Verdict};
pub use choosing::{choose_grammar, Chosen};
pub use grammar::check_grammar;
pub use packed::{pack, pack_seq, unpack, unpack_seq};
pub use preview::{preview, Preview};
pub use reading::{capacity, check_val, check_val_with, check_whole, check_whole_with};
pub use reading::{demarshall, parse_val, Reading};
pub use refusal::{Place, Refusal};
pub use rows::{compute_size_of, locate_array};
pub use same_route::{same_route, SameRouteRefusal};
pub use show::show;
pub use signed::signed_number;
pub use writing::{marshall, marshall_val, Writing};
pub use xdr::{export_xdr, import_xdr, Importing};

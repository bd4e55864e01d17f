//! The library's calls as they are, on words, rows and bytes of any content.
//!
//! Every call is defined on every input. A refused call changes no slice it was given.
//!
//! ```
//! use route_record::calls::{pack_u32_seq, unpack_u32};
//! use route_record::{Place, Refusal};
//!
//! let mut out = [0xff; 10];
//! assert_eq!(pack_u32_seq(&[7, 305_419_896], &mut out, 1), Ok(()));
//! assert_eq!(out, [0xff, 7, 0, 0, 0, 0x78, 0x56, 0x34, 0x12, 0xff]);
//!
//! assert_eq!(unpack_u32(&out, 5), Ok(305_419_896));
//! assert_eq!(unpack_u32(&out, 7), Err(Refusal { number: 9, place: Place::Byte(7) }));
//! ```

mod accepting;
mod choosing;
mod grammar;
mod packed;
mod reading;
mod rows;
mod same_route;
mod writing;
mod xdr;

pub use accepting::accepts;
pub use choosing::choose_grammar;
pub use grammar::check_grammar;
pub use packed::{
    pack_u32, pack_u32_seq, pack_u64, pack_u64_seq, unpack_u32, unpack_u32_seq, unpack_u64,
    unpack_u64_seq,
};
pub use reading::{
    check_val, check_val_with, check_whole, check_whole_with, demarshall, parse_val,
};
pub use rows::{compute_size_of, locate_array, signed_number};
pub use same_route::same_route;
pub use writing::{marshall, marshall_val, preview};
pub use xdr::{export_xdr, import_xdr};

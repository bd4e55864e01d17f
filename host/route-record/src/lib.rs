//! Safe bindings of the proved route-record library. They pass slices to it and hand back its
//! answers; no answer is decided here. A value's tree is read off rows that the library accepted,
//! and a grammar's text becomes words that the library checks.
//!
//! A [`Grammar`] is a table of words that passed its check. It reads a record into a [`Value`],
//! whose [`Row`]s are a tree, writes a value as its record, and says by a [`Preview`] what writing
//! would change. It says by a [`Verdict`] whether it accepts a record, which it need not read where
//! that is too short. It writes a value as XDR, the bytes of RFC 4506, and reads it from XDR.
//! [`Value::build`] makes a value that was not read. A [`GrammarList`] says by a [`Chosen`] which of
//! its grammars accepts a record. What is refused is refused by a [`Refusal`] with number, place and
//! meaning.
//!
//! ```
#![doc = include_str!("../examples/first_use.rs")]
//! ```
//!
//! [`calls`] has the library's calls as they are, on slices of any content.
//!
//! The library allocates nothing, keeps nothing between calls and starts no thread: calls from
//! several threads at once are fine. It uses less than 1 MiB of stack.
//!
//! # Cut records
//!
//! A proper front part of a record is its first bytes, from none to all but one. The capacity is
//! the number of rows lent; for a check it is the one named, at most 4,096, and 1,024 where none is
//! named, for [`Grammar::demarshall_vec`] 4,096. It is proved (docs/PROMISES.md, request 04) of the
//! library's whole reading ([`calls::demarshall`], [`calls::check_whole`],
//! [`calls::check_whole_with`]) that every proper front part of a record that is accepted, with the
//! same grammar and capacity, is refused with 9 and with nothing else. What a program may conclude:
//! if a record that this grammar and capacity accept was cut, the answer is 9; so an answer other
//! than 9, accepted too, is never that of such a record with its tail lost, and sending again on 9
//! alone misses none of them. A 9 may have another cause, so sending again should have an end.
//!
//! 9 does not mean a cut record: a union without cases has no record, and under it the empty bytes
//! are refused with 9, at any capacity but 0. And of a reading from an index ([`calls::parse_val`],
//! [`calls::check_val`], [`calls::check_val_with`]) the statement is false: under a uint32, from
//! byte 0 on, 9 bytes are accepted, and the first 5 of them too. Nor does it hold of a
//! [`GrammarList`]: what is left of a cut record may be a whole record of another grammar of the
//! list, and where no grammar accepts it the answer is 22. [`Grammar::accepts`] says no to every
//! proper front part of a record to which it says yes, and does not say why.
//!
//! ```
//! use route_record::{Grammar, GrammarList, Refusal};
//!
//! let no_case = "union()".parse::<Grammar>()?;
//! assert_eq!(no_case.check_whole(&[]).unwrap_err().number, Refusal::BYTES_MISSING);
//!
//! let uint32 = "u32".parse::<Grammar>()?;
//! let record = [7, 0, 0, 0, 8, 0, 0, 0, 9];
//! assert_eq!(uint32.check_val(&record, 0)?.rest_index, 4);
//! assert_eq!(uint32.check_val(&record[..5], 0)?.rest_index, 4);
//!
//! let list = GrammarList::new(&["u64".parse()?, uint32])?;
//! assert_eq!(list.choose(&record[..8])?.number, 0);
//! assert_eq!(list.choose(&record[..4])?.number, 1);
//! assert_eq!(list.choose(&record[..7]).unwrap_err().number, Refusal::NO_GRAMMAR_ACCEPTS);
//! # Ok::<(), Box<dyn std::error::Error>>(())
//! ```
//!
//! # In another project
//!
//! ```toml
//! [dependencies]
//! route-record = { path = "where/the/repository/is/host/route-record" }
//! ```
//!
//! It links `libroute_c.a`, which `rt lib --cpu x86-64`, run in the folder `crates/route_c`,
//! builds in its folder `out`. An archive that lies elsewhere is found by the variable
//! `ROUTE_RECORD_LIB_DIR`, the absolute path of its folder, which may stand under `[env]` in the
//! project's `.cargo/config.toml`. `cargo check` and `cargo doc` need no archive.
//!
//! # Where it runs
//!
//! On x86-64 Linux, which the archive is built for; a build for another target stops and says so.
//! Firmware is kept out by that, and by the stack: reading, comparing, saying yes or no and choosing
//! a grammar take less than 64 KiB, importing XDR less than 128 KiB, but what walks rows, so writing,
//! its preview and exporting XDR, up to 1 MiB. The library itself needs no allocator and no operating
//! system; these bindings use `std`.

#![deny(missing_docs, unsafe_code)]

mod builder;
pub mod calls;
mod chosen;
#[allow(unsafe_code)]
mod ffi;
mod grammar;
mod grammar_list;
mod imported;
mod kind;
mod limits;
mod parsed;
mod preview;
mod refusal;
mod text;
mod value;
mod verdict;

pub use builder::Builder;
pub use chosen::Chosen;
pub use grammar::Grammar;
pub use grammar_list::GrammarList;
pub use imported::Imported;
pub use kind::{Class, Kind, KINDS};
pub use limits::{
    CHECK_ROWS, MAX_BYTES, MAX_GRAMMARS, MAX_GRAMMAR_WORDS, MAX_LIST_WORDS, MAX_ROWS, ROW_WORDS,
};
pub use parsed::Parsed;
pub use preview::Preview;
pub use refusal::{Place, Refusal, SameRouteRefusal, REFUSALS};
pub use text::{GrammarError, Position, TextError};
pub use value::{Children, Contents, Elements, Row, Rows, Value};
pub use verdict::Verdict;

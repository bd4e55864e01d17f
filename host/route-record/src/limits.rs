//! The numbers of the format that callers size their slices by.

/// The words of a row: kind, span, word 2, word 3 and size.
pub const ROW_WORDS: usize = 5;

/// The most rows of a value.
pub const MAX_ROWS: usize = 4_096;

/// The capacity of a check that names none: the most rows of a value that
/// [`calls::check_val`](crate::calls::check_val) and
/// [`calls::check_whole`](crate::calls::check_whole) accept.
pub const CHECK_ROWS: usize = 1_024;

/// The most bytes of a record, of XDR, and of a store.
pub const MAX_BYTES: usize = 1_048_576;

/// The most words of a grammar table: of 256 nodes and 1,024 child words.
pub const MAX_GRAMMAR_WORDS: usize = 2 + 3 * 256 + 1_024;

/// The most grammars of a grammar list.
pub const MAX_GRAMMARS: usize = 16;

/// The most words of a grammar list: its count, and each grammar behind its word count.
pub const MAX_LIST_WORDS: usize = 1 + MAX_GRAMMARS * (1 + MAX_GRAMMAR_WORDS);

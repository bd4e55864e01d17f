//! What the question whether a record is accepted gives.

/// Whether a record is accepted whole, and how much work it was to say so.
#[derive(Clone, Copy, Debug, PartialEq, Eq, Hash)]
pub struct Verdict {
    /// Whether the record is accepted.
    pub accepted: bool,
    /// The values begun: one for each time a row is asked for, the refused time too. 0 says that the
    /// record was not read.
    pub begun: usize,
}

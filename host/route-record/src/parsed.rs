//! What an accepted reading gives.

/// The counts that an accepted reading gives.
#[derive(Clone, Copy, Debug, PartialEq, Eq, Hash)]
pub struct Parsed {
    /// The number of rows of the value.
    pub rows: usize,
    /// The first byte behind the value.
    pub rest_index: usize,
}

//! What an accepted import gives.

/// The counts that an accepted import of XDR gives.
#[derive(Clone, Copy, Debug, PartialEq, Eq, Hash)]
pub struct Imported {
    /// The number of rows of the value.
    pub rows: usize,
    /// The number of bytes of the store that the elements of its arrays take.
    pub used: usize,
}

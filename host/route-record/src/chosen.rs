//! What an accepted choice of a grammar gives.

/// The grammar of a list that accepts a record, and how much work finding it was.
#[derive(Clone, Copy, Debug, PartialEq, Eq, Hash)]
pub struct Chosen {
    /// The number of the grammar in its list, from 0 on.
    pub number: usize,
    /// The values begun by the tries of all grammars up to this one, those refused included: one
    /// for each time a row is asked for, the refused time too.
    pub begun: usize,
}

//! What an accepted preview gives.

/// What writing a value would do to an output.
#[derive(Clone, Copy, Debug, PartialEq, Eq, Hash)]
pub struct Preview {
    /// The number of bytes that would be written.
    pub size: usize,
    /// How many of them would differ from what the output holds there.
    pub changed: usize,
}

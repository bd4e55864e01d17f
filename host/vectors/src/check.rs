//! The check of files of vectors against the library.

use std::fmt;

use crate::Vector;

/// How many vectors passed and failed.
#[derive(Clone, Copy, Debug, Default, PartialEq, Eq)]
#[allow(missing_docs)]
pub struct Counts {
    pub passed: usize,
    pub failed: usize,
}

impl fmt::Display for Counts {
    fn fmt(&self, f: &mut fmt::Formatter) -> fmt::Result {
        write!(f, "{} passed, {} failed", self.passed, self.failed)
    }
}

/// Checks each line of a text; calls `report` with the number of each line that fails, from 1 on,
/// and why.
pub fn check(text: &str, counts: &mut Counts, mut report: impl FnMut(usize, &str)) {
    for (line, at) in text.lines().zip(1..) {
        match Vector::parse(line) {
            Ok(vector) if vector.holds_of_library() => {
                counts.passed += 1;
                continue;
            }
            Ok(vector) => report(at, vector.name()),
            Err(error) => report(at, &error),
        }
        counts.failed += 1;
    }
}

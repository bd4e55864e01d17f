//! Exit statuses, and what is said where a command does not end with status 0.

use route_record::{Refusal, SameRouteRefusal};

/// The status of a command that was done; of `same` and `accepts`, that the answer is yes.
pub const DONE: u8 = 0;
/// The status of a refusal by the library.
pub const REFUSED: u8 = 1;
/// The status of a command line, file or text that the tool can do nothing with.
pub const FAILED: u8 = 2;
/// The status of `same` where the routes are different, and of `accepts` where the record is not
/// accepted.
pub const NO: u8 = 3;

/// Why a command does not end with status 0, in lines to print.
pub enum Stop {
    /// The library refused. That is an answer to what was asked, so it goes to standard output.
    Refused(String),
    /// Nothing could be asked. This goes to standard error.
    Failed(String),
    /// The answer is no, and a script that asks takes it for that. It goes to standard output.
    No(String),
}

impl From<Refusal> for Stop {
    fn from(refusal: Refusal) -> Stop {
        Stop::Refused(format!("{refusal}\n"))
    }
}

impl From<SameRouteRefusal> for Stop {
    fn from(refusal: SameRouteRefusal) -> Stop {
        Stop::Refused(format!("{refusal}\n"))
    }
}

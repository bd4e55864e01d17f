//! A case, and what comes of it by the model and by the library.

use std::fmt;

use crate::{Case, Line, Outcome};

/// What is printed before the reading of a front part beside an accepted whole reading.
const FRONT_PART: &str = "a front part of the record, to be refused with 9:";

/// A case with what comes of it by each: one on which they differ, or that of a front part.
#[derive(Clone, Debug, PartialEq, Eq)]
pub struct Difference {
    /// The case.
    pub case: Case,
    /// What comes of it by the model.
    pub model: Outcome,
    /// What comes of it by the library.
    pub library: Outcome,
}

impl fmt::Display for Difference {
    fn fmt(&self, f: &mut fmt::Formatter) -> fmt::Result {
        let line = |name: &str, outcome: &Outcome| {
            let (name, case) = (name.to_string(), self.case.clone());
            let outcome = outcome.clone();
            let line = Line {
                name,
                case,
                outcome,
            };
            line.to_json()
        };
        let (model, library) = (&self.model, &self.library);
        writeln!(f, "{}", line("by the model", model))?;
        write!(f, "{}", line("by the library", library))?;
        if let Some(answer) = library.contradiction() {
            let outcome = Outcome::with(answer.clone(), &self.case);
            write!(f, "\n{}", line("by the library's writing", &outcome))?;
        } else if model.answer == library.answer && model.after() == library.after() {
            match library.unsound_front() {
                Some(front) => write!(f, "\n{FRONT_PART}\n{front}")?,
                None if model == library => (),
                None => write!(f, "\nthe lent buffers differ around the part lent")?,
            }
        }
        Ok(())
    }
}

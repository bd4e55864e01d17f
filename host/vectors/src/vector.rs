//! A line of a file: a library call or a run of the show program.

use std::fmt;

use compare::json::{Fields, Json};
use compare::{Case, Line};

use crate::Show;

/// A line of a file.
#[derive(Debug, PartialEq)]
pub enum Vector {
    /// A call of the library.
    Call(Box<Line>),
    /// A run of the show program.
    Show(Show),
}

impl Vector {
    /// The vector of a case, with the model's answer.
    pub fn of_case((name, case): (String, Case)) -> Vector {
        let outcome = case.of_model();
        Vector::Call(Box::new(Line {
            name,
            case,
            outcome,
        }))
    }

    /// The vector of an input of the show program, with the model's text.
    pub fn of_input((name, input): (String, Vec<u8>)) -> Vector {
        let printed = compare::show_by_model(&input);
        Vector::Show(Show {
            name,
            input,
            printed,
        })
    }

    /// The vector that a line stands for.
    pub fn parse(line: &str) -> Result<Vector, String> {
        let json = Json::parse(line)?;
        match Fields::of(json.clone())?.take_text("call")?.as_str() {
            "show" => Show::from_json(json).map(Vector::Show),
            _ => Line::from_json(json).map(|line| Vector::Call(Box::new(line))),
        }
    }

    /// What the vector shows.
    pub fn name(&self) -> &str {
        match self {
            Vector::Call(line) => &line.name,
            Vector::Show(show) => &show.name,
        }
    }

    /// Whether the library, or the show program, answers as the vector says.
    pub fn holds_of_library(&self) -> bool {
        match self {
            Vector::Call(line) => line.case.of_library() == line.outcome,
            Vector::Show(show) => compare::show_by_program(&show.input) == show.printed,
        }
    }
}

impl fmt::Display for Vector {
    fn fmt(&self, f: &mut fmt::Formatter) -> fmt::Result {
        match self {
            Vector::Call(line) => line.to_json().fmt(f),
            Vector::Show(show) => show.to_json().fmt(f),
        }
    }
}

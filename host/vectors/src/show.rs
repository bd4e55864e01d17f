//! A run of the show program as a line of JSON.

use compare::json::{Fields, Json};
use compare::list::{bytes_of, read_list, Layout};
use compare::BYTES;

/// A run of the show program.
#[derive(Debug, PartialEq)]
pub struct Show {
    /// What the run shows.
    pub name: String,
    /// The standard input.
    pub input: Vec<u8>,
    /// The standard output, each line with its line feed.
    pub printed: String,
}

/// Printed lines: one to a text.
const LINES: Layout<String> = Layout {
    unit: 1,
    units_in_text: 1,
    least_times: 5,
    show: |lines| lines.concat(),
};

impl Show {
    /// The run in JSON.
    pub fn to_json(&self) -> Json {
        let lines: Vec<String> = self.printed.lines().map(String::from).collect();
        let fields = [
            ("name", Json::text(self.name.clone())),
            ("call", Json::text("show")),
            ("input", Json::List(BYTES.list(&self.input))),
            ("printed", Json::List(LINES.list(&lines))),
        ];
        Json::Object(fields.map(|(name, value)| (name.to_string(), value)).into())
    }

    /// The run that stands in JSON.
    pub fn from_json(json: Json) -> Result<Show, String> {
        let mut fields = Fields::of(json)?;
        fields.take("call")?;
        let line = |text: &str| Ok(format!("{text}\n").into_bytes());
        let show = Show {
            name: fields.take_text("name")?,
            input: read_list(fields.take("input")?, bytes_of)?,
            printed: String::from_utf8(read_list(fields.take("printed")?, line)?)
                .map_err(|error| error.to_string())?,
        };
        fields.finish()?;
        Ok(show)
    }
}

//! A value as a tree for people.

use std::fmt::Write;

use route_record::{Class, Contents, Elements, Row, Value};

/// The most elements of an array of bytes or numbers that a line shows if not all are asked for.
pub const SHOWN: usize = 16;

/// The bytes of an element count or of a tag.
const COUNT_BYTES: usize = 8;

/// The rows of a value that was read from byte `start` on, one to a line: the byte where the row's
/// value starts, and the row, indented by its depth. Each line shows this many elements at most.
pub fn tree(value: &Value, mut start: usize, shown: usize) -> String {
    let width = (start as u64 + value.size()).to_string().len();
    let mut text = String::new();
    for (depth, row) in value.rows() {
        let (indent, line) = (2 * depth, describe(&row, shown));
        writeln!(text, "byte {start:width$}  {:indent$}{line}", "").expect("room in a String");
        start += own_bytes(&row);
    }
    text
}

fn describe(row: &Row, shown: usize) -> String {
    let kind = row.kind().text;
    match row.contents() {
        Contents::Number(number) => format!("{kind} {number}"),
        Contents::Signed(number) => format!("{kind} {number}"),
        Contents::Array(children) | Contents::Tuple(children) => {
            format!("{kind} of {}", children.len())
        }
        Contents::Elements(elements) => format!("{kind} of {}", list(&elements, shown)),
        Contents::Case { tag, .. } => format!("{kind} tag {tag}"),
        _ => kind.to_string(),
    }
}

/// The count and the first elements, bytes in hexadecimal digits.
fn list(elements: &Elements, shown: usize) -> String {
    let mut text = elements.len().to_string();
    for (i, number) in elements.numbers().take(shown).enumerate() {
        text += if i == 0 { ": " } else { " " };
        text += &match elements.width() {
            1 => format!("{number:02x}"),
            _ => number.to_string(),
        };
    }
    if elements.len() > shown {
        text += &format!(" and {} more", elements.len() - shown);
    }
    text
}

/// The bytes of a record that are the row's own: rows and their bytes are in the same order.
fn own_bytes(row: &Row) -> usize {
    match row.kind().class {
        Class::Array | Class::Union => COUNT_BYTES,
        Class::Tuple => 0,
        _ => row.size() as usize,
    }
}

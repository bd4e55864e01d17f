//! The show program: the text that it prints for its standard input.

use crate::packed::{unpack, unpack_seq};
use crate::reading::demarshall;
use crate::refusal::{at_byte, Place, Refusal};
use crate::rows::ROW_WORDS;

/// The most bytes of an input.
const MOST_INPUT: usize = 65_536;
/// The most words of a grammar.
const MOST_WORDS: u64 = 1_794;
/// The rows that the program has.
const ROWS: usize = 1_024;

/// The grammar and the record of an input, if it is laid out as one.
fn parts(input: &[u8]) -> Option<(Vec<u32>, &[u8])> {
    let count = unpack(4, input, 0).ok()?;
    if input.len() > MOST_INPUT || count > MOST_WORDS {
        return None;
    }
    let count = count as usize;
    let words = unpack_seq(4, input, 4, count).ok()?;
    let grammar = words.iter().map(|&word| word as u32).collect();
    let length = unpack(4, input, 4 + 4 * count).ok()?;
    let record = &input[8 + 4 * count..];
    (record.len() as u64 == length).then_some((grammar, record))
}

/// The words of the rows that are read from an input.
fn rows(input: &[u8]) -> Result<Vec<u64>, Refusal> {
    let refusal = at_byte(19, input.len().min(MOST_INPUT));
    let (grammar, record) = parts(input).ok_or(refusal)?;
    let reading = demarshall(&grammar, record, ROWS)?;
    Ok(reading.rows)
}

/// The line of a refusal.
fn refusal_line(refusal: Refusal) -> String {
    let (kind, place) = match refusal.place {
        Place::Word(word) => ("word", word),
        Place::Byte(byte) => ("byte", byte),
        Place::Row(row) => ("row", row),
    };
    format!("refused {} {kind} {place}\n", refusal.number)
}

/// The line of the row count, and a line for each row.
fn row_lines(words: &[u64]) -> String {
    let mut lines = format!("rows {}\n", words.len() / ROW_WORDS);
    for row in words.chunks(ROW_WORDS) {
        let words: Vec<String> = row.iter().map(u64::to_string).collect();
        lines += &format!("{}\n", words.join(" "));
    }
    lines
}

/// What the program prints for an input; each line ends with a line feed.
pub fn show(input: &[u8]) -> Vec<u8> {
    let text = match rows(input) {
        Ok(words) => row_lines(&words),
        Err(refusal) => refusal_line(refusal),
    };
    text.into_bytes()
}

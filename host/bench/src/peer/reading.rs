//! The whole reading, with rows and as a check: refusals 6 and 8 to 11. It starts at byte 0, so 7
//! does not arise.

use super::grammar::Grammar;
use super::rows::Row;
use route_record::{CHECK_ROWS, MAX_BYTES, MAX_ROWS};

use super::Refusal;

/// What an accepted reading gives.
#[derive(Clone, Copy, Debug, PartialEq, Eq)]
pub struct Parsed {
    /// The number of rows of the value.
    pub rows: usize,
    /// The first byte behind the value.
    pub rest_index: usize,
}

/// Reads a record as a check, with no rows, as a value of at most 1,024.
pub fn check_whole(words: &[u32], record: &[u8]) -> Result<Parsed, Refusal> {
    check_whole_with(words, record, CHECK_ROWS)
}

/// Reads a record as a check, with no rows, as a value of at most `capacity` and at most 4,096.
pub fn check_whole_with(words: &[u32], record: &[u8], capacity: usize) -> Result<Parsed, Refusal> {
    let grammar = Grammar::of(words)?;
    check(grammar, record, capacity.min(MAX_ROWS))
}

/// Reads a record and lays it out in rows: first as a check, so that a refusal changes no row.
pub fn demarshall(words: &[u32], record: &[u8], rows: &mut [u64]) -> Result<Parsed, Refusal> {
    let grammar = Grammar::of(words)?;
    let (rows, _) = rows.as_chunks_mut();
    let capacity = rows.len().min(MAX_ROWS);
    check(grammar, record, capacity)?;
    read(grammar, 0, record, rows, capacity)
}

/// Whether two records are of the same route. What counts of their values is equal where its bytes
/// are.
pub fn same_route(words: &[u32], first: &[u8], second: &[u8]) -> Result<bool, Refusal> {
    let grammar = Grammar::of(words)?;
    check(grammar, first, MAX_ROWS)?;
    check(grammar, second, MAX_ROWS)?;
    Ok(counted(grammar, first)? == counted(grammar, second)?)
}

/// The bytes that count of a record that was checked: those behind the first field of a root that is
/// a tuple with fields, else all.
fn counted<'a>(grammar: Grammar, record: &'a [u8]) -> Result<&'a [u8], Refusal> {
    let root = grammar.node(0);
    match (root[0], grammar.children(root)) {
        (4, &[field, ..]) => {
            let parsed = read(grammar, field as usize, record, &mut [], MAX_ROWS)?;
            Ok(&record[parsed.rest_index..])
        }
        _ => Ok(record),
    }
}

/// The first pass.
fn check(grammar: Grammar, record: &[u8], capacity: usize) -> Result<Parsed, Refusal> {
    if record.len() > MAX_BYTES {
        return Err(Refusal::at_byte(6, 0));
    }
    let parsed = read(grammar, 0, record, &mut [], capacity)?;
    if parsed.rest_index != record.len() {
        return Err(Refusal::at_byte(11, parsed.rest_index));
    }
    Ok(parsed)
}

/// Whether a check accepts a record that is not too long, and the values that it begins.
pub fn try_whole(grammar: Grammar, record: &[u8]) -> (bool, usize) {
    let mut reader = Reader::new(grammar, record, &mut [], MAX_ROWS);
    let accepted = reader.value(0).is_ok() && reader.at == record.len();
    (accepted, reader.begun)
}

/// Reads a value of node k from byte 0 on.
fn read(
    grammar: Grammar,
    k: usize,
    record: &[u8],
    rows: &mut [Row],
    capacity: usize,
) -> Result<Parsed, Refusal> {
    let mut reader = Reader::new(grammar, record, rows, capacity);
    reader.value(k)?;
    Ok(Parsed {
        rows: reader.begun,
        rest_index: reader.at,
    })
}

/// A reading under way: the position and the values begun, each of which asks for a row.
struct Reader<'a> {
    grammar: Grammar<'a>,
    record: &'a [u8],
    rows: &'a mut [Row],
    capacity: usize,
    at: usize,
    begun: usize,
}

impl<'a> Reader<'a> {
    /// A reading from byte 0 on.
    fn new(
        grammar: Grammar<'a>,
        record: &'a [u8],
        rows: &'a mut [Row],
        capacity: usize,
    ) -> Reader<'a> {
        Reader {
            grammar,
            record,
            rows,
            capacity,
            at: 0,
            begun: 0,
        }
    }

    /// Reads the value of a node that starts here.
    fn value(&mut self, k: usize) -> Result<(), Refusal> {
        let start = self.at;
        let row = self.claim()?;
        let node = self.grammar.node(k);
        let children = self.grammar.children(node);
        let kind = u64::from(node[0]);
        match kind {
            0 => self.put(row, [kind, 1, 0, 0, 0]),
            1 | 9 => {
                let number = self.take_u32()?;
                self.put(row, [kind, 1, u64::from(number), 0, 4]);
            }
            2 | 10 => {
                let number = self.take_u64()?;
                self.put(row, [kind, 1, number, 0, 8]);
            }
            3 => {
                let count = self.take_u64()?;
                if count > (self.capacity - self.begun) as u64 {
                    return Err(Refusal::at_byte(8, start));
                }
                for _ in 0..count {
                    self.value(children[0] as usize)?;
                }
                self.close(row, start, [kind, count]);
            }
            4 => {
                for &child in children {
                    self.value(child as usize)?;
                }
                self.close(row, start, [kind, children.len() as u64]);
            }
            5 => self.elements(row, kind, 1)?,
            6 => self.elements(row, kind, 4)?,
            7 => self.elements(row, kind, 8)?,
            8 => {
                let tag = self.take_u64()?;
                if tag >= children.len() as u64 {
                    return Err(Refusal::at_byte(10, start));
                }
                self.value(children[tag as usize] as usize)?;
                self.close(row, start, [kind, tag]);
            }
            _ => unreachable!("the grammar was checked"),
        }
        Ok(())
    }

    /// Reads an array of numbers of this many bytes: its count, and past its elements.
    fn elements(&mut self, row: usize, kind: u64, width: usize) -> Result<(), Refusal> {
        let start = self.at;
        let count = self.take_u64()?;
        let left = self.record.len() - self.at;
        if count > (left / width) as u64 {
            return Err(Refusal::at_byte(9, start));
        }
        let place = self.at;
        self.at += count as usize * width;
        let size = (self.at - start) as u64;
        self.put(row, [kind, 1, count, place as u64, size]);
        Ok(())
    }

    /// Begins the value that starts here and takes a row for it.
    fn claim(&mut self) -> Result<usize, Refusal> {
        let row = self.begun;
        self.begun += 1;
        if row == self.capacity {
            return Err(Refusal::at_byte(8, self.at));
        }
        Ok(row)
    }

    fn take_u32(&mut self) -> Result<u32, Refusal> {
        self.take().map(u32::from_le_bytes)
    }

    fn take_u64(&mut self) -> Result<u64, Refusal> {
        self.take().map(u64::from_le_bytes)
    }

    /// Takes the next bytes, for a value that starts with them.
    fn take<const WIDTH: usize>(&mut self) -> Result<[u8; WIDTH], Refusal> {
        let left = &self.record[self.at..];
        let bytes = left.first_chunk().ok_or(Refusal::at_byte(9, self.at))?;
        self.at += WIDTH;
        Ok(*bytes)
    }

    /// Puts the row of a value with children once they are read: its span are the rows taken since
    /// it, itself included, and its size the bytes since its start.
    fn close(&mut self, row: usize, start: usize, [kind, word2]: [u64; 2]) {
        let (span, size) = (self.begun - row, self.at - start);
        self.put(row, [kind, span as u64, word2, 0, size as u64]);
    }

    /// Puts a row, where rows are lent.
    fn put(&mut self, row: usize, words: Row) {
        if let Some(lent) = self.rows.get_mut(row) {
            *lent = words;
        }
    }
}

//! Reading a record after GM, which is GenericMarshalling.i.dfy: the value is read as a tree and
//! then laid out as rows.

use std::slice;

use crate::grammar::{check_grammar, node};
use crate::packed::unpack;
use crate::refusal::{at_byte, Refusal};
use crate::rows::{check_length, size_of_v, Elements, MOST_ROWS, ROW_WORDS, V};

/// The rows of a check for which no capacity is named.
const CHECK_ROWS: usize = 1024;

/// An accepted reading.
#[derive(Clone, Debug, PartialEq, Eq)]
pub struct Reading {
    /// The words of the value's rows, five to a row.
    pub rows: Vec<u64>,
    /// The first byte behind the value.
    pub rest_index: usize,
}

/// The capacity in force, in rows, where this one is named.
fn in_force(named: usize) -> usize {
    MOST_ROWS.min(named)
}

/// The capacity, in rows, of a slice of this many words.
pub fn capacity(words: usize) -> usize {
    in_force(words / ROW_WORDS)
}

/// A reader of values: the table of a checked grammar, the record, the next byte to read, the
/// number of rows still free and the number of values begun.
struct Reader<'g, 'a> {
    grammar: &'g [u32],
    record: &'a [u8],
    position: usize,
    rows_left: usize,
    begun: usize,
}

impl<'g, 'a> Reader<'g, 'a> {
    /// A reader from `index` on with so many rows.
    fn new(grammar: &'g [u32], record: &'a [u8], index: usize, capacity: usize) -> Self {
        Reader {
            grammar,
            record,
            position: index,
            rows_left: capacity,
            begun: 0,
        }
    }

    /// Reads a number of `width` bytes.
    fn number(&mut self, width: usize) -> Result<u64, Refusal> {
        let number = unpack(width, self.record, self.position)?;
        self.position += width;
        Ok(number)
    }

    /// Reads an element count and the elements, `width` bytes each.
    fn elements(&mut self, width: usize) -> Result<Elements<'a>, Refusal> {
        let start = self.position;
        let count = self.number(8)?;
        let rest = &self.record[self.position..];
        if count > (rest.len() / width) as u64 {
            return Err(at_byte(9, start));
        }
        let (place, length) = (self.position, count as usize * width);
        self.position += length;
        let packed = &rest[..length];
        Ok(Elements { place, packed })
    }

    /// Reads an element count and as many values of a node. Each of them needs a row.
    fn array(&mut self, element: u32) -> Result<Vec<V<'a>>, Refusal> {
        let start = self.position;
        let count = self.number(8)?;
        if count > self.rows_left as u64 {
            return Err(at_byte(8, start));
        }
        (0..count).map(|_| self.value(element)).collect()
    }

    /// Reads a tag and the value of its case.
    fn case(&mut self, cases: &[u32]) -> Result<V<'a>, Refusal> {
        let start = self.position;
        let tag = self.number(8)?;
        if tag >= cases.len() as u64 {
            return Err(at_byte(10, start));
        }
        let value = self.value(cases[tag as usize])?;
        Ok(V::Case(tag, Box::new(value)))
    }

    /// Reads a value of a node. It is begun when it asks for its row, be there one or not.
    fn value(&mut self, number: u32) -> Result<V<'a>, Refusal> {
        self.begun += 1;
        if self.rows_left == 0 {
            return Err(at_byte(8, self.position));
        }
        self.rows_left -= 1;
        let (kind, children) = node(self.grammar, number);
        match kind {
            0 => Ok(V::Constant),
            1 => self.number(4).map(|number| V::Uint32(number as u32)),
            2 => self.number(8).map(V::Uint64),
            3 => self.array(children[0]).map(V::Array),
            4 => {
                let fields: Result<_, _> = children.iter().map(|&n| self.value(n)).collect();
                fields.map(V::Tuple)
            }
            5 => self.elements(1).map(V::ByteArray),
            6 => self.elements(4).map(V::Uint32Array),
            7 => self.elements(8).map(V::Uint64Array),
            8 => self.case(children),
            9 => self.number(4).map(|pattern| V::Int32(pattern as u32)),
            _ => self.number(8).map(V::Int64),
        }
    }

    /// Reads a value of the root, with which the record ends.
    fn whole(&mut self) -> Result<V<'a>, Refusal> {
        let value = self.value(0)?;
        if self.position < self.record.len() {
            return Err(at_byte(11, self.position));
        }
        Ok(value)
    }
}

/// The values directly in a value.
fn parts<'v, 'a>(value: &'v V<'a>) -> &'v [V<'a>] {
    match value {
        V::Array(values) | V::Tuple(values) => values,
        V::Case(_, value) => slice::from_ref(value),
        _ => &[],
    }
}

/// The kind, word 2 and word 3 of a value's row.
fn words(value: &V) -> [u64; 3] {
    let array = |kind, width, elements: &Elements| {
        let count = elements.packed.len() / width;
        [kind, count as u64, elements.place as u64]
    };
    match value {
        V::Constant => [0, 0, 0],
        V::Uint32(number) => [1, u64::from(*number), 0],
        V::Uint64(number) => [2, *number, 0],
        V::Array(values) => [3, values.len() as u64, 0],
        V::Tuple(values) => [4, values.len() as u64, 0],
        V::ByteArray(elements) => array(5, 1, elements),
        V::Uint32Array(elements) => array(6, 4, elements),
        V::Uint64Array(elements) => array(7, 8, elements),
        V::Case(tag, _) => [8, *tag, 0],
        V::Int32(pattern) => [9, u64::from(*pattern), 0],
        V::Int64(pattern) => [10, *pattern, 0],
    }
}

/// The rows of a value, in preorder.
fn rows(value: &V) -> Vec<u64> {
    let below: Vec<u64> = parts(value).iter().flat_map(rows).collect();
    let span = 1 + (below.len() / ROW_WORDS) as u64;
    let [kind, word2, word3] = words(value);
    let size = size_of_v(value);
    [vec![kind, span, word2, word3, size], below].concat()
}

/// Reads a value of the grammar's root from `index`, in at most `capacity` rows; given is also the
/// first byte behind it.
fn read<'a>(
    grammar: &[u32],
    record: &'a [u8],
    index: usize,
    capacity: usize,
) -> Result<(V<'a>, usize), Refusal> {
    check_grammar(grammar)?;
    check_length(record)?;
    if index > record.len() {
        return Err(at_byte(7, index));
    }
    let mut reader = Reader::new(grammar, record, index, capacity);
    let value = reader.value(0)?;
    Ok((value, reader.position))
}

/// The value of a record that is one of the grammar's root, of at most `capacity` rows.
pub(crate) fn read_whole<'a>(
    grammar: &[u32],
    record: &'a [u8],
    capacity: usize,
) -> Result<V<'a>, Refusal> {
    check_grammar(grammar)?;
    check_length(record)?;
    Reader::new(grammar, record, 0, capacity).whole()
}

/// Whether a record is a value of a checked grammar's root, of at most 4,096 rows, and the number of
/// values begun until this is known. The record is of at most 1,048,576 bytes.
pub(crate) fn try_whole(grammar: &[u32], record: &[u8]) -> (bool, usize) {
    let mut reader = Reader::new(grammar, record, 0, MOST_ROWS);
    let is_accepted = reader.whole().is_ok();
    (is_accepted, reader.begun)
}

/// Reads a value of the grammar's root from `index`, in at most `capacity` rows. A capacity is at
/// most 4,096.
pub fn parse_val(
    grammar: &[u32],
    record: &[u8],
    index: usize,
    capacity: usize,
) -> Result<Reading, Refusal> {
    let (value, rest_index) = read(grammar, record, index, capacity)?;
    let rows = rows(&value);
    Ok(Reading { rows, rest_index })
}

/// Reads a record that is a value of the grammar's root, in at most `capacity` rows.
pub fn demarshall(grammar: &[u32], record: &[u8], capacity: usize) -> Result<Reading, Refusal> {
    let value = read_whole(grammar, record, capacity)?;
    Ok(Reading {
        rows: rows(&value),
        rest_index: record.len(),
    })
}

/// Reads as [`parse_val`] does with the capacity named, or with 4,096 where that is larger: the
/// check, which is lent no rows.
pub fn check_val_with(
    grammar: &[u32],
    record: &[u8],
    index: usize,
    capacity: usize,
) -> Result<Reading, Refusal> {
    parse_val(grammar, record, index, in_force(capacity))
}

/// Reads as [`demarshall`] does with the capacity named, or with 4,096 where that is larger: the
/// check, which is lent no rows.
pub fn check_whole_with(
    grammar: &[u32],
    record: &[u8],
    capacity: usize,
) -> Result<Reading, Refusal> {
    demarshall(grammar, record, in_force(capacity))
}

/// [`check_val_with`] where no capacity is named, which is one of 1,024.
pub fn check_val(grammar: &[u32], record: &[u8], index: usize) -> Result<Reading, Refusal> {
    check_val_with(grammar, record, index, CHECK_ROWS)
}

/// [`check_whole_with`] where no capacity is named, which is one of 1,024.
pub fn check_whole(grammar: &[u32], record: &[u8]) -> Result<Reading, Refusal> {
    check_whole_with(grammar, record, CHECK_ROWS)
}

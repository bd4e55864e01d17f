//! Export to XDR and import from it, after RFC 4506: most byte first, counts and discriminants of 4
//! bytes, opaque data filled up with zeros to a multiple of four. A count of 4 bytes times a width is
//! computed in usize, of 64 bits, where it never wraps.

use crate::grammar::{check_grammar, node};
use crate::packed::{digits, write};
use crate::refusal::{at_byte, at_row, Refusal};
use crate::rows::{check_length, whole_value, Elements, MOST_BYTES, ROW_WORDS, V};
use crate::writing::{check_in_grammar, Writing};

/// An accepted import.
#[derive(Clone, Debug, PartialEq, Eq)]
pub struct Importing {
    /// The words of the value's rows, five to a row.
    pub rows: Vec<u64>,
    /// What the store holds after the call.
    pub store: Vec<u8>,
    /// The number of bytes of the store that the arrays take.
    pub used: usize,
}

/// The number of bytes that fill up so many to a multiple of four.
fn padding(length: usize) -> usize {
    (4 - length % 4) % 4
}

/// The number that bytes are, most byte first.
fn number(bytes: &[u8]) -> u64 {
    let more = |number, &byte: &u8| 256 * number + u64::from(byte);
    bytes.iter().fold(0, more)
}

/// The `width` bytes of a number, most byte first.
fn number_bytes(number: u64, width: usize) -> Vec<u8> {
    let mut bytes = digits(number, width);
    bytes.reverse();
    bytes
}

/// The bytes of numbers of `width` bytes, one behind the other, with those of each number in the other
/// order.
fn turned(bytes: &[u8], width: usize) -> Vec<u8> {
    let numbers = bytes.chunks(width);
    numbers
        .flat_map(|number| number.iter().rev())
        .copied()
        .collect()
}

/// The number of bytes of values, one behind the other.
fn all_sizes(values: &[V]) -> u64 {
    values.iter().map(xdr_size).sum()
}

/// The number of bytes of a value. The packed bytes of an array are as many as its elements times
/// their width.
fn xdr_size(value: &V) -> u64 {
    match value {
        V::Constant => 0,
        V::Uint32(_) | V::Int32(_) => 4,
        V::Uint64(_) | V::Int64(_) => 8,
        V::Array(values) => 4 + all_sizes(values),
        V::Tuple(values) => all_sizes(values),
        V::ByteArray(array) => {
            let length = array.packed.len();
            4 + (length + padding(length)) as u64
        }
        V::Uint32Array(array) | V::Uint64Array(array) => 4 + array.packed.len() as u64,
        V::Case(_, value) => 4 + xdr_size(value),
    }
}

/// The bytes of values, one behind the other.
fn all_bytes(values: &[V]) -> Vec<u8> {
    values.iter().flat_map(xdr_bytes).collect()
}

/// The bytes of an array of numbers of `width` bytes: their count, and the numbers. What fills a byte
/// array up is behind it; the others are a multiple of four as they are.
fn array_bytes(elements: &Elements, width: usize) -> Vec<u8> {
    let count = elements.packed.len() / width;
    let zeros = vec![0; padding(elements.packed.len())];
    let numbers = turned(elements.packed, width);
    [number_bytes(count as u64, 4), numbers, zeros].concat()
}

/// The bytes of a value.
fn xdr_bytes(value: &V) -> Vec<u8> {
    match value {
        V::Constant => vec![],
        V::Uint32(number) | V::Int32(number) => number_bytes(u64::from(*number), 4),
        V::Uint64(number) | V::Int64(number) => number_bytes(*number, 8),
        V::Array(values) => [number_bytes(values.len() as u64, 4), all_bytes(values)].concat(),
        V::Tuple(values) => all_bytes(values),
        V::ByteArray(elements) => array_bytes(elements, 1),
        V::Uint32Array(elements) => array_bytes(elements, 4),
        V::Uint64Array(elements) => array_bytes(elements, 8),
        V::Case(tag, value) => [number_bytes(*tag, 4), xdr_bytes(value)].concat(),
    }
}

/// Writes the value that `n` rows stand for, which is one of the grammar's root, as XDR at `index`.
pub fn export_xdr(
    grammar: &[u32],
    rows: &[u64],
    n: usize,
    store: &[u8],
    out: &[u8],
    index: usize,
) -> Result<Writing, Refusal> {
    check_grammar(grammar)?;
    let value = whole_value(rows, n, store)?;
    check_in_grammar(&value, 0, grammar, 0)?;
    if xdr_size(&value) > MOST_BYTES as u64 {
        return Err(at_row(16, 0));
    }
    let bytes = xdr_bytes(&value);
    Ok(Writing {
        out: write(&bytes, out, index)?,
        size: bytes.len(),
    })
}

/// Word 2 and word 3 of a value's row, the rows of the values in it, and the size of its record.
type Words = (u64, u64, Vec<u64>, u64);

/// The rows of values, and the size of their records.
type Rows = (Vec<u64>, u64);

/// An importer of values: the table of a checked grammar, the record, the next byte to read, the
/// number of rows still free, the length of the store and what the arrays so far put there.
struct Importer<'g, 'a> {
    grammar: &'g [u32],
    record: &'a [u8],
    position: usize,
    rows_left: usize,
    room: usize,
    packed: Vec<u8>,
}

impl Importer<'_, '_> {
    /// Reads a number of `width` bytes.
    fn number(&mut self, width: usize) -> Result<u64, Refusal> {
        let rest = &self.record[self.position..];
        if rest.len() < width {
            return Err(at_byte(9, self.position));
        }
        self.position += width;
        Ok(number(&rest[..width]))
    }

    /// Reads a count, the elements, `width` bytes each, and what fills them up. The elements come
    /// behind those of the arrays so far, least byte first.
    fn elements(&mut self, width: usize) -> Result<Words, Refusal> {
        let start = self.position;
        let count = self.number(4)?;
        let rest = &self.record[self.position..];
        let length = count as usize * width;
        let zeros = padding(length);
        if length + zeros > rest.len() {
            return Err(at_byte(9, start));
        }
        let place = self.packed.len();
        if place + length > self.room {
            return Err(at_byte(17, self.room));
        }
        let (elements, behind) = rest.split_at(length);
        if behind[..zeros].iter().any(|&byte| byte != 0) {
            return Err(at_byte(23, start));
        }
        self.position += length + zeros;
        self.packed.extend(turned(elements, width));
        Ok((count, place as u64, vec![], 8 + length as u64))
    }

    /// Reads values of nodes, one behind the other.
    fn values(&mut self, numbers: &[u32]) -> Result<Rows, Refusal> {
        let (mut rows, mut size) = (Vec::new(), 0);
        for &number in numbers {
            let (own_rows, own_size) = self.value(number)?;
            rows.extend(own_rows);
            size += own_size;
        }
        Ok((rows, size))
    }

    /// Reads a count and as many values of a node. Each of them needs a row.
    fn array(&mut self, element: u32) -> Result<Words, Refusal> {
        let start = self.position;
        let count = self.number(4)?;
        if count > self.rows_left as u64 {
            return Err(at_byte(8, start));
        }
        let (rows, size) = self.values(&vec![element; count as usize])?;
        Ok((count, 0, rows, 8 + size))
    }

    /// Reads a tag and the value of its case.
    fn case(&mut self, cases: &[u32]) -> Result<Words, Refusal> {
        let start = self.position;
        let tag = self.number(4)?;
        if tag >= cases.len() as u64 {
            return Err(at_byte(10, start));
        }
        let (rows, size) = self.value(cases[tag as usize])?;
        Ok((tag, 0, rows, 8 + size))
    }

    /// Reads a tuple.
    fn tuple(&mut self, fields: &[u32]) -> Result<Words, Refusal> {
        let (rows, size) = self.values(fields)?;
        Ok((fields.len() as u64, 0, rows, size))
    }

    /// Reads a value of a node.
    fn value(&mut self, number: u32) -> Result<Rows, Refusal> {
        if self.rows_left == 0 {
            return Err(at_byte(8, self.position));
        }
        self.rows_left -= 1;
        let (kind, children) = node(self.grammar, number);
        let (word2, word3, below, size) = match kind {
            0 => (0, 0, vec![], 0),
            1 | 9 => (self.number(4)?, 0, vec![], 4),
            2 | 10 => (self.number(8)?, 0, vec![], 8),
            3 => self.array(children[0])?,
            4 => self.tuple(children)?,
            5 => self.elements(1)?,
            6 => self.elements(4)?,
            7 => self.elements(8)?,
            _ => self.case(children)?,
        };
        let span = 1 + (below.len() / ROW_WORDS) as u64;
        let own = vec![u64::from(kind), span, word2, word3, size];
        Ok(([own, below].concat(), size))
    }
}

/// Reads XDR that is a value of the grammar's root, in at most `capacity` rows, and packs the elements
/// of its arrays into the store from byte 0 on. A capacity is at most 4,096.
pub fn import_xdr(
    grammar: &[u32],
    record: &[u8],
    capacity: usize,
    store: &[u8],
) -> Result<Importing, Refusal> {
    check_grammar(grammar)?;
    check_length(record)?;
    check_length(store)?;
    let mut importer = Importer {
        grammar,
        record,
        position: 0,
        rows_left: capacity,
        room: store.len(),
        packed: vec![],
    };
    let (rows, _) = importer.value(0)?;
    if importer.position < record.len() {
        return Err(at_byte(11, importer.position));
    }
    let used = importer.packed.len();
    Ok(Importing {
        rows,
        store: [&importer.packed, &store[used..]].concat(),
        used,
    })
}

//! Importing XDR (RFC 4506) whole, into rows and a store: refusals 6, 8 to 11, 17 and 23.

use super::grammar::Grammar;
use super::rows::Row;
use super::xdr::{put_elements, Padded};
use route_record::{MAX_BYTES, MAX_ROWS};

use super::Refusal;

/// What an accepted import gives.
#[derive(Clone, Copy, Debug, PartialEq, Eq)]
pub struct Imported {
    /// The number of rows of the value.
    pub rows: usize,
    /// The bytes of the store that its arrays take.
    pub used: usize,
}

/// Reads the XDR of a value, lays it out in rows and its arrays in a store: first as a check, so that
/// a refusal changes neither.
pub fn import_xdr(
    words: &[u32],
    record: &[u8],
    rows: &mut [u64],
    store: &mut [u8],
) -> Result<Imported, Refusal> {
    let grammar = Grammar::of(words)?;
    if record.len() > MAX_BYTES || store.len() > MAX_BYTES {
        return Err(Refusal::at_byte(6, 0));
    }
    let (rows, _) = rows.as_chunks_mut();
    let lent = Lent {
        capacity: rows.len().min(MAX_ROWS),
        room: store.len(),
    };
    let checked = Importer::new(grammar, record, &mut [], &mut [], lent).root()?;
    if checked.at != record.len() {
        return Err(Refusal::at_byte(11, checked.at));
    }
    let filled = Importer::new(grammar, record, rows, store, lent).root()?;
    Ok(Imported {
        rows: filled.begun,
        used: filled.used,
    })
}

/// How many rows and bytes of a store there are to be filled.
#[derive(Clone, Copy)]
struct Lent {
    capacity: usize,
    room: usize,
}

/// The position, the values begun, the bytes of the store used, and the bytes that a record has of
/// what was read.
#[derive(Clone, Copy)]
struct Filling {
    at: usize,
    begun: usize,
    used: usize,
    size: usize,
}

/// A reading of XDR. Rows and store are empty where it is a check.
struct Importer<'a> {
    grammar: Grammar<'a>,
    record: &'a [u8],
    rows: &'a mut [Row],
    store: &'a mut [u8],
    lent: Lent,
    filling: Filling,
}

impl<'a> Importer<'a> {
    fn new(
        grammar: Grammar<'a>,
        record: &'a [u8],
        rows: &'a mut [Row],
        store: &'a mut [u8],
        lent: Lent,
    ) -> Importer<'a> {
        Importer {
            grammar,
            record,
            rows,
            store,
            lent,
            filling: Filling {
                at: 0,
                begun: 0,
                used: 0,
                size: 0,
            },
        }
    }

    /// Reads the value of the root.
    fn root(mut self) -> Result<Filling, Refusal> {
        self.value(0)?;
        Ok(self.filling)
    }

    /// Reads the value of a node that starts here.
    fn value(&mut self, k: usize) -> Result<(), Refusal> {
        let Filling {
            at: start, size, ..
        } = self.filling;
        let row = self.claim()?;
        let node = self.grammar.node(k);
        let children = self.grammar.children(node);
        let kind = u64::from(node[0]);
        match kind {
            0 => self.put(row, [kind, 1, 0, 0, 0]),
            1 | 9 => {
                let number = self.take_u32()?;
                self.filling.size += 4;
                self.put(row, [kind, 1, u64::from(number), 0, 4]);
            }
            2 | 10 => {
                let number = self.take_u64()?;
                self.filling.size += 8;
                self.put(row, [kind, 1, number, 0, 8]);
            }
            3 => {
                let count = self.take_u32()?;
                if count as usize > self.lent.capacity - self.filling.begun {
                    return Err(Refusal::at_byte(8, start));
                }
                self.filling.size += 8;
                for _ in 0..count {
                    self.value(children[0] as usize)?;
                }
                self.close(row, size, [kind, u64::from(count)]);
            }
            4 => {
                for &child in children {
                    self.value(child as usize)?;
                }
                self.close(row, size, [kind, children.len() as u64]);
            }
            5 => self.elements(row, kind, 1)?,
            6 => self.elements(row, kind, 4)?,
            7 => self.elements(row, kind, 8)?,
            8 => {
                let tag = self.take_u32()?;
                let Some(&child) = children.get(tag as usize) else {
                    return Err(Refusal::at_byte(10, start));
                };
                self.filling.size += 8;
                self.value(child as usize)?;
                self.close(row, size, [kind, u64::from(tag)]);
            }
            _ => unreachable!("the grammar was checked"),
        }
        Ok(())
    }

    /// Reads an array of numbers of this many bytes: its count, its elements and their padding.
    fn elements(&mut self, row: usize, kind: u64, width: usize) -> Result<(), Refusal> {
        let start = self.filling.at;
        let count = self.take_u32()?;
        let Padded { size, padding } = Padded::of(width * count as usize);
        let left = &self.record[self.filling.at..];
        if size + padding > left.len() {
            return Err(Refusal::at_byte(9, start));
        }
        let used = self.filling.used;
        if size > self.lent.room - used {
            return Err(Refusal::at_byte(17, self.lent.room));
        }
        let (elements, behind) = left.split_at(size);
        if behind[..padding].iter().any(|&byte| byte != 0) {
            return Err(Refusal::at_byte(23, start));
        }
        let in_record = 8 + size;
        self.put(
            row,
            [kind, 1, u64::from(count), used as u64, in_record as u64],
        );
        if let Some(lent) = self.store.get_mut(used..used + size) {
            put_elements(width, elements, lent);
        }
        self.filling.at += size + padding;
        self.filling.used += size;
        self.filling.size += in_record;
        Ok(())
    }

    /// Begins the value that starts here and takes a row for it.
    fn claim(&mut self) -> Result<usize, Refusal> {
        let row = self.filling.begun;
        if row == self.lent.capacity {
            return Err(Refusal::at_byte(8, self.filling.at));
        }
        self.filling.begun += 1;
        Ok(row)
    }

    fn take_u32(&mut self) -> Result<u32, Refusal> {
        self.take().map(u32::from_be_bytes)
    }

    fn take_u64(&mut self) -> Result<u64, Refusal> {
        self.take().map(u64::from_be_bytes)
    }

    /// Takes the next bytes, for a value that starts with them.
    fn take<const WIDTH: usize>(&mut self) -> Result<[u8; WIDTH], Refusal> {
        let at = self.filling.at;
        let left = &self.record[at..];
        let bytes = left.first_chunk().ok_or(Refusal::at_byte(9, at))?;
        self.filling.at += WIDTH;
        Ok(*bytes)
    }

    /// Puts the row of a value with children once they are read: its span are the rows taken since
    /// it, itself included, and its size the bytes that a record has more than before it.
    fn close(&mut self, row: usize, before: usize, [kind, word2]: [u64; 2]) {
        let Filling { begun, size, .. } = self.filling;
        let (span, size) = (begun - row, size - before);
        self.put(row, [kind, span as u64, word2, 0, size as u64]);
    }

    /// Puts a row, where rows are lent.
    fn put(&mut self, row: usize, words: Row) {
        if let Some(lent) = self.rows.get_mut(row) {
            *lent = words;
        }
    }
}

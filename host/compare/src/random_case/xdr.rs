//! Random cases of export and import.

use route_record::{MAX_BYTES, MAX_ROWS, ROW_WORDS};

use crate::row_table::element_width;
use crate::{leaf, set_sizes, table, Case, Random, Table, Value};

use super::reading::{any_bytes, sound, within_limits, words, words_of};
use super::writing::{length, writing, Writing};
use super::{index_near, lengthened, lent};

/// The bytes that a row adds to XDR: those of the number, the count or the tag, those of the elements,
/// and the padding. Of a faulty row, any.
fn own_bytes(row: &[u64]) -> [usize; 3] {
    let head = match row[0] {
        2 | 10 => 8,
        1 | 3 | 5..=9 => 4,
        _ => 0,
    };
    let width = element_width(row[0]).unwrap_or(0);
    let elements = width.saturating_mul(row[2] as usize);
    [head, elements, elements.wrapping_neg() % 4]
}

/// The XDR size of a value; of a faulty or too long one, any that is not much too long.
fn xdr_size(value: &Value) -> usize {
    let rows = value.rows.chunks_exact(ROW_WORDS).take(value.n);
    let sizes = rows.map(|row| own_bytes(row).into_iter().fold(0, usize::saturating_add));
    sizes.fold(0, usize::saturating_add).min(MAX_BYTES + 8)
}

/// Arrays that share a store and have about 1,048,576 bytes of XDR together, often as many arrays as
/// there can be.
fn large_value(random: &mut Random) -> Value {
    let (kind, width) = random.pick(&[(5, 1), (5, 1), (6, 4), (7, 8)]);
    let few = random.within(1..=20);
    let arrays = random.pick(&[few, MAX_ROWS - 1]);
    let mut rows = vec![[3, arrays as u64 + 1, arrays as u64, 0, 0]];
    let (mut left, mut longest) = (MAX_BYTES - 4 - 4 * arrays, 0);
    for others in (0..arrays).rev() {
        let count = match others {
            0 => (left / width).saturating_add_signed(random.below(8) as isize - 4),
            _ => left / (others + 1) / width,
        };
        rows.push([kind, 1, count as u64, 0, 0]);
        let length = width * count;
        left = left.saturating_sub(length.next_multiple_of(4));
        longest = longest.max(length);
    }
    set_sizes(&mut rows);
    Value {
        grammar: table(&[[3, 0, 1], [kind as u32, 0, 0]], &[1]),
        n: rows.len(),
        rows: rows.concat(),
        store: lent(random, longest.min(MAX_BYTES)),
    }
}

/// A case of export.
pub(super) fn export(random: &mut Random) -> Case {
    let (value, index) = match random.below(100) {
        0 => (large_value(random), random.below(20)),
        _ => {
            let Writing { value, index, .. } = writing(random);
            (value, index)
        }
    };
    let size = xdr_size(&value);
    let index = match random.below(8) {
        0 => index_near(random, size),
        _ => index,
    };
    let length = length(random, size, index);
    let out = lent(random, length);
    value.export_case(out, index)
}

/// XDR, with what it needs when it is sound and what is where in it.
struct Xdr {
    bytes: Vec<u8>,
    /// How many rows it needs.
    rows: usize,
    /// How many bytes of a store it needs.
    used: usize,
    /// Where the element counts and the tags are, 4 bytes each.
    counts: Vec<usize>,
    /// Where the bytes of the padding are.
    padding: Vec<usize>,
}

impl Xdr {
    /// Bytes that stand for no value in particular.
    fn of_bytes(bytes: Vec<u8>) -> Xdr {
        Xdr {
            bytes,
            rows: 1,
            used: 0,
            counts: vec![],
            padding: vec![],
        }
    }

    /// The XDR of a value of which the model exports this.
    fn of_rows(bytes: Vec<u8>, rows: &[u64]) -> Xdr {
        let mut xdr = Xdr::of_bytes(bytes);
        xdr.rows = rows.len() / ROW_WORDS;
        let mut at = 0;
        for row in rows.chunks(ROW_WORDS) {
            let [head, elements, padding] = own_bytes(row);
            if matches!(row[0], 3 | 5..=8) {
                xdr.counts.push(at);
            }
            let end = at + head + elements;
            xdr.padding.extend(end..end + padding);
            (at, xdr.used) = (end + padding, xdr.used + elements);
        }
        xdr
    }

    /// Makes a fault: a cut, bytes behind it, a byte of the padding that is not zero, another count or
    /// tag, a changed bit.
    fn spoil(&mut self, random: &mut Random) {
        let end = self.bytes.len();
        match random.below(7) {
            0 => {
                let length = random.within(0..=end);
                self.bytes.truncate(length);
                self.counts.retain(|count| count + 4 <= length);
                self.padding.retain(|&byte| byte < length);
            }
            1 => {
                let count = random.within(1..=9);
                let bytes = random.bytes(count);
                let bytes = random.pick(&[&[0; 9][..count], &bytes]).to_vec();
                self.bytes.extend(bytes);
            }
            2 | 3 => self.spoil_padding(random),
            4 | 5 if !self.counts.is_empty() => self.other_count(random),
            _ if end > 0 => self.bytes[random.below(end)] ^= 1 << random.below(8),
            _ => (),
        }
    }

    /// Makes a byte of the padding, if there is one, another than zero.
    fn spoil_padding(&mut self, random: &mut Random) {
        if !self.padding.is_empty() {
            let at = random.pick(&self.padding);
            self.bytes[at] = random.pick(&[1, 0x80, 0xff]);
        }
    }

    /// Changes a count or a tag to a limit or to a number next to one.
    fn other_count(&mut self, random: &mut Random) {
        let at = random.pick(&self.counts);
        let left = (self.bytes.len() - at - 4) as u32;
        let count = &mut self.bytes[at..at + 4];
        let old = u32::from_be_bytes((&*count).try_into().expect("4 bytes"));
        let limits = [
            old,
            old.swap_bytes(),
            left,
            left / 4,
            left / 8,
            MAX_ROWS as u32,
            1 << 29,
            1 << 30,
            1 << 31,
            0,
        ];
        let new = random.pick(&limits);
        let new = new.wrapping_add(random.pick(&[0, 1, u32::MAX]));
        count.copy_from_slice(&new.to_be_bytes());
    }
}

/// The XDR of a random value of a table, if it has one, sound or with faults.
fn input(random: &mut Random, table: &Table) -> Xdr {
    let record = match within_limits(table) {
        true => sound(random, table),
        false => None,
    };
    let Some(record) = record else {
        return Xdr::of_bytes(any_bytes(random));
    };
    let (grammar, record) = (table.words(), record.bytes);
    let rows = model::demarshall(&grammar, &record, MAX_ROWS);
    let rows = rows.expect("a sound record").rows;
    let (n, out) = (rows.len() / ROW_WORDS, vec![0; record.len()]);
    let writing = model::export_xdr(&grammar, &rows, n, &record, &out, 0);
    let writing = writing.expect("XDR is not longer than the record");
    let mut xdr = Xdr::of_rows(writing.out[..writing.size].to_vec(), &rows);
    for _ in 0..random.pick(&[0, 0, 0, 1, 1, 2, 3]) {
        xdr.spoil(random);
    }
    match random.below(80) {
        0 => xdr.bytes = lengthened(random, &xdr.bytes),
        1..4 => return Xdr::of_bytes(any_bytes(random)),
        _ => (),
    }
    xdr
}

/// A table of a tuple of arrays in the store, or of an array or a case of such tuples.
fn arrays(random: &mut Random) -> Table {
    let fields = random.within(1..=4) as u32;
    let root = random.pick(&[4, 3, 8]);
    let mut nodes = vec![[root, 0, 1], [4, 1, fields]];
    for _ in 0..fields {
        nodes.push([random.pick(&[5, 5, 5, 6, 7]), 0, 0]);
    }
    let children = (1..nodes.len() as u32).collect();
    Table { nodes, children }
}

/// A grammar and XDR: an array of numbers, about as long as XDR may be.
fn long_array(random: &mut Random) -> (Vec<u32>, Xdr) {
    let (kind, width) = random.pick(&[(5, 1), (6, 4), (7, 8)]);
    let length = random.within(MAX_BYTES - 9..=MAX_BYTES + 1);
    let count = (length - 4) / width + random.below(2);
    let mut bytes = vec![random.number() as u8; length];
    bytes[..4].copy_from_slice(&(count as u32).to_be_bytes());
    let end = (4 + count * width).min(length);
    if random.below(4) > 0 {
        bytes[end..].fill(0);
    }
    let used = count * width;
    let xdr = Xdr {
        used,
        ..Xdr::of_bytes(bytes)
    };
    (leaf(kind), xdr)
}

/// A grammar and the XDR of arrays of about 1,048,576 bytes of XDR together, the record of which may
/// be longer; where it is too long, any bytes.
fn long_arrays(random: &mut Random) -> (Vec<u32>, Xdr) {
    let value = large_value(random);
    let Value {
        grammar,
        rows,
        n,
        store,
    } = &value;
    let out = vec![0; xdr_size(&value)];
    let xdr = match model::export_xdr(grammar, rows, *n, store, &out, 0) {
        Ok(writing) => Xdr::of_rows(writing.out, rows),
        Err(_) => Xdr::of_bytes(any_bytes(random)),
    };
    (value.grammar, xdr)
}

/// A grammar and XDR of about as many rows as a value may have: an array of constants, of numbers or of
/// byte arrays, alone or before a byte array.
fn many_rows(random: &mut Random) -> (Vec<u32>, Xdr) {
    let rows = MAX_ROWS - 2 + random.below(5);
    let (kind, element) = random.pick(&[
        (0, &[][..]),
        (1, &[1, 2, 3, 4]),
        (10, &[1, 2, 3, 4, 5, 6, 7, 8]),
        (5, &[0, 0, 0, 2, 0x41, 0x42, 0, 0]),
    ]);
    let used = if kind == 5 { 2 } else { 0 };
    let nodes = [[3, 0, 1], [kind, 0, 0]];
    let array = |count: usize| [&(count as u32).to_be_bytes()[..], &element.repeat(count)].concat();
    if random.below(2) == 0 {
        let xdr = Xdr {
            rows,
            used: used * (rows - 1),
            ..Xdr::of_bytes(array(rows - 1))
        };
        return (table(&nodes, &[1]), xdr);
    }
    let behind = [0, 0, 0, 1, 0x43, 0, 0, 0];
    let xdr = Xdr {
        rows,
        used: used * (rows - 3) + 1,
        ..Xdr::of_bytes([&array(rows - 3)[..], &behind].concat())
    };
    let nodes = [[4, 0, 2], [3, 2, 1], [kind, 0, 0], [5, 0, 0]];
    (table(&nodes, &[1, 3, 2]), xdr)
}

/// How many bytes of a store are lent to an import that needs so many: near the need, or not.
fn store_length(random: &mut Random, used: usize) -> usize {
    match random.below(400) {
        0 => MAX_BYTES,
        1 => MAX_BYTES + 1,
        2..50 => random.pick(&[0, 1, 4, 9, 100]),
        50..200 => random.within(used.saturating_sub(9)..=used + 9),
        _ => used + random.below(10),
    }
}

/// A case of import.
pub(super) fn import(random: &mut Random) -> Case {
    let (grammar, mut xdr) = match random.below(400) {
        0 => long_array(random),
        1 => long_arrays(random),
        2..12 => many_rows(random),
        12..110 => {
            let table = arrays(random);
            (words_of(random, &table), input(random, &table))
        }
        _ => {
            let table = super::table(random);
            (words_of(random, &table), input(random, &table))
        }
    };
    let words = words(random, xdr.rows);
    let store = match random.below(8) {
        0 if !xdr.padding.is_empty() => {
            xdr.spoil_padding(random);
            random.within(0..=xdr.used)
        }
        _ => store_length(random, xdr.used),
    };
    Case::ImportXdr {
        grammar,
        record: xdr.bytes,
        rows: lent(random, words),
        store: lent(random, store),
    }
}

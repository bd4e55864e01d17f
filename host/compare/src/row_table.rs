//! Random row tables: sound ones, and faults in their words, in the row count and in the store.

use route_record::{MAX_BYTES, MAX_ROWS, ROW_WORDS};

use crate::Random;

/// The kinds of values of one row, arrays and tuples of no value among them.
const LEAVES: [u64; 10] = [0, 1, 2, 3, 4, 5, 6, 7, 9, 10];

/// The kinds of values of more rows.
const PARENTS: [u64; 3] = [3, 4, 8];

/// The bytes of an element, if the kind is that of an array in the store.
pub(crate) fn element_width(kind: u64) -> Option<usize> {
    match kind {
        5 => Some(1),
        6 => Some(4),
        7 => Some(8),
        _ => None,
    }
}

/// The bytes of the number, the count or the tag that a row of this kind adds to its record.
pub(crate) fn head_width(kind: u64) -> usize {
    match kind {
        0 | 4 => 0,
        1 | 9 => 4,
        _ => 8,
    }
}

/// The words of a row: kind, span, word 2, word 3 and size.
pub type Row = [u64; ROW_WORDS];

/// The sizes that the values of rows have; of faulty rows, any.
fn sizes(rows: &[Row]) -> Vec<u64> {
    let mut sizes = vec![0u64; rows.len()];
    for row in (0..rows.len()).rev() {
        let [kind, span, word2, ..] = rows[row];
        let width = element_width(kind).unwrap_or(0) as u64;
        let mut size = width.wrapping_mul(word2);
        size = size.wrapping_add(head_width(kind) as u64);
        let end = row.saturating_add(span as usize).min(rows.len());
        let mut child = row + 1;
        while child < end {
            size = size.wrapping_add(sizes[child]);
            child = child.saturating_add(rows[child][1].max(1) as usize);
        }
        sizes[row] = size;
    }
    sizes
}

/// Makes the size of each row that of its value.
pub fn set_sizes(rows: &mut [Row]) {
    let sizes = sizes(rows);
    for (row, size) in rows.iter_mut().zip(sizes) {
        row[4] = size;
    }
}

/// By how much the size of each row is above that of its value, modulo 2^64: 0 where it is right.
pub(crate) fn size_errors(rows: &[Row]) -> Vec<u64> {
    let pairs = rows.iter().zip(sizes(rows));
    pairs.map(|(row, size)| row[4].wrapping_sub(size)).collect()
}

/// Makes the sizes of changed rows as right or as wrong as they were.
pub(crate) fn restore_sizes(rows: &mut [Row], errors: &[u64]) {
    set_sizes(rows);
    for (row, error) in rows.iter_mut().zip(errors) {
        row[4] = row[4].wrapping_add(*error);
    }
}

/// A value laid out as rows, with its record as the store.
#[derive(Default)]
pub struct RowTable {
    /// The rows.
    pub rows: Vec<Row>,
    /// The bytes of the value.
    pub record: Vec<u8>,
}

impl RowTable {
    /// The rows of these words, with their store.
    pub fn of(words: &[u64], record: Vec<u8>) -> RowTable {
        let (rows, _) = words.as_chunks();
        RowTable {
            rows: rows.to_vec(),
            record,
        }
    }

    /// The rows and the record of a random value of `n` rows, `n` above 0.
    pub fn sound(random: &mut Random, n: usize) -> RowTable {
        let mut table = RowTable::default();
        table.add(random, n);
        table
    }

    /// Adds a random value of `span` rows behind the others.
    fn add(&mut self, random: &mut Random, span: usize) {
        let kind = random.pick(if span == 1 { &LEAVES } else { &PARENTS });
        let word2 = match kind {
            0 => 0,
            1 | 9 => random.number_of(4),
            2 | 10 => random.number_of(8),
            3 | 4 => random.within((span - 1).min(1)..=span - 1) as u64,
            8 => random.number(),
            _ => random.within(0..=9) as u64,
        };
        let (row, start) = (self.rows.len(), self.record.len());
        self.record.extend(&word2.to_le_bytes()[..head_width(kind)]);
        let elements = element_width(kind).map(|width| random.bytes(width * word2 as usize));
        let place = elements.as_ref().map_or(0, |_| self.record.len());
        self.record.extend(elements.unwrap_or_default());
        self.rows.push([kind, span as u64, word2, place as u64, 0]);
        let children = if kind == 8 { 1 } else { word2 as usize };
        if span > 1 {
            self.add_children(random, children, span - 1);
        }
        self.rows[row][4] = (self.record.len() - start) as u64;
    }

    /// Adds this many random values, at least 1, which have so many rows together.
    fn add_children(&mut self, random: &mut Random, count: usize, rows: usize) {
        let mut left = rows;
        for others in (0..count).rev() {
            let span = match others {
                0 => left,
                _ => random.within(1..=left - others),
            };
            self.add(random, span);
            left -= span;
        }
    }

    /// The table's words.
    pub fn words(&self) -> Vec<u64> {
        self.rows.concat()
    }

    /// The numbers of the rows of arrays in the store.
    pub fn arrays(&self) -> Vec<usize> {
        self.of_kinds(|kind| element_width(kind).is_some())
    }

    /// The numbers of the rows of signed numbers.
    pub fn signed(&self) -> Vec<usize> {
        self.of_kinds(|kind| matches!(kind, 9 | 10))
    }

    /// The numbers of the rows of some kinds.
    fn of_kinds(&self, is_of_them: impl Fn(u64) -> bool) -> Vec<usize> {
        let rows = 0..self.rows.len();
        rows.filter(|&row| is_of_them(self.rows[row][0])).collect()
    }

    /// Moves each array to any place in the store where it has room.
    pub fn scatter(&mut self, random: &mut Random) {
        for [kind, _, count, place, _] in &mut self.rows {
            if let Some(width) = element_width(*kind) {
                let last = self.record.len() - width * *count as usize;
                *place = random.within(0..=last) as u64;
            }
        }
    }

    /// Makes a row one of any kind with as many children; a sound table stays sound.
    pub fn change_kind(&mut self, random: &mut Random, row: usize) {
        let [kind, span, word2, _, size] = self.rows[row];
        let children = match kind {
            3 | 4 => word2,
            8 => 1,
            _ => 0,
        };
        let other = match children {
            0 => [random.pick(&LEAVES), 1, 0, 0, size],
            1 if random.below(3) == 0 => [8, span, random.pick(&[0, 1, u64::MAX]), 0, size],
            _ => [random.pick(&[3, 4]), span, children, 0, size],
        };
        let errors = size_errors(&self.rows);
        self.rows[row] = other;
        restore_sizes(&mut self.rows, &errors);
    }

    /// Changes one of the table's words: a size, or another one, with which the sizes often change.
    pub fn damage(&mut self, random: &mut Random) {
        match random.below(3) {
            0 => {
                let row = random.below(self.rows.len());
                self.damage_size(random, row);
            }
            1 => self.damage_word(random),
            _ => {
                let errors = size_errors(&self.rows);
                self.damage_word(random);
                restore_sizes(&mut self.rows, &errors);
            }
        }
    }

    /// Makes the size of a row another one: a little more or less, that of the row next to it, that
    /// without its own bytes, one that is equal in its lower half, or a limit.
    pub fn damage_size(&mut self, random: &mut Random, row: usize) {
        let [kind, span, _, _, size] = self.rows[row];
        let next = self.rows.get(row + 1).map_or(0, |next| next[4]);
        let steps = [1, 4, 8, head_width(kind) as u64, next, 1 << 32, 1 << 63];
        let near = steps.map(|step| [size.wrapping_add(step), size.wrapping_sub(step)]);
        let length = self.record.len() as u64;
        let limits = [0, 1, span, next, length, MAX_BYTES as u64, u64::MAX];
        let others = [near.as_flattened(), &limits].concat();
        while self.rows[row][4] == size {
            self.rows[row][4] = random.pick(&others);
        }
    }

    /// Changes one of the table's words, but no size, to a limit or to a number next to one.
    fn damage_word(&mut self, random: &mut Random) {
        let (n, arrays) = (self.rows.len(), self.arrays());
        let row = match arrays.len() {
            0 => random.within(0..=n - 1),
            _ if random.below(2) == 0 => random.pick(&arrays),
            _ => random.within(0..=n - 1),
        };
        let [kind, span, count, place, _] = self.rows[row];
        let width = element_width(kind).unwrap_or(1) as u64;
        let length = self.record.len() as u64;
        let room = length.saturating_sub(place) / width;
        let powers = [0, 1 << 31, 1 << 32, 1 << 61, 1 << 62, 1 << 63];
        let bounds = [10, n as u64, (n - row) as u64, length, room];
        let limits = [&powers[..], &bounds, &[kind, span, count, place]].concat();
        let word = &mut self.rows[row][random.below(ROW_WORDS - 1)];
        let old = *word;
        while *word == old {
            *word = random
                .pick(&limits)
                .wrapping_add(random.pick(&[0, 1, u64::MAX]));
        }
    }
}

/// What a call on value rows is given: the words, the row count and the store.
#[derive(Clone)]
pub struct RowInput {
    /// The words of the rows.
    pub words: Vec<u64>,
    /// How many rows are the value's.
    pub n: usize,
    /// The store.
    pub store: Vec<u8>,
}

impl RowInput {
    /// A table as it is.
    pub fn of(table: &RowTable) -> RowInput {
        RowInput {
            words: table.words(),
            n: table.rows.len(),
            store: table.record.clone(),
        }
    }

    /// Puts the row of a constant behind the others, and makes the row count another one.
    pub fn damage_n(&mut self, random: &mut Random) {
        let n = self.n;
        self.words.extend([0, 1, 0, 0, 0]);
        let other = [
            n.wrapping_sub(1),
            n.wrapping_add(1),
            n.wrapping_add(1 << 62),
        ];
        self.n = random.pick(&[&other[..], &[0, MAX_ROWS, MAX_ROWS + 1, usize::MAX]].concat());
    }

    /// Leaves out the last words, or puts a few behind the others.
    pub fn damage_words(&mut self, random: &mut Random) {
        let length = self.words.len();
        let most = random.pick(&[length.saturating_sub(1), length + 9]);
        self.words.resize(random.within(0..=most), 9);
    }

    /// Leaves out the store's last bytes, or makes it as long as it may be, or too long.
    pub fn damage_store(&mut self, random: &mut Random) {
        let length = self.store.len();
        let other = match random.below(80) {
            0 => MAX_BYTES,
            1 => MAX_BYTES + 1,
            2..40 => length.saturating_sub(1),
            _ => random.within(0..=length),
        };
        self.store.resize(other, 0);
    }
}

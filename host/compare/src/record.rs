//! Random records of a grammar, written by the byte rule, and faults in them.

use route_record::{CHECK_ROWS, MAX_ROWS};

use crate::{Random, Table};

/// A random value of a grammar's root, as its bytes.
pub struct Record {
    /// The bytes of the value.
    pub bytes: Vec<u8>,
    /// The number of rows of the value.
    pub rows: usize,
    /// Where the element counts and the tags are in the bytes, 8 bytes each.
    pub counts: Vec<usize>,
    /// How many of the bytes are the first field's, if the root is a tuple with at least one field,
    /// else 0.
    pub first_field: usize,
}

/// The child words of a node.
fn children_of(table: &Table, [_, first, count]: [u32; 3]) -> &[u32] {
    &table.children[first as usize..][..count as usize]
}

/// The rows of the smallest value of each node, if it has one of at most [`MAX_ROWS`].
fn least_rows(table: &Table) -> Vec<Option<usize>> {
    let mut least = vec![None; table.nodes.len()];
    for (k, &node) in table.nodes.iter().enumerate().rev() {
        let children = || children_of(table, node).iter().map(|&c| least[c as usize]);
        let below = match node[0] {
            4 => children().sum(),
            8 => children().flatten().min(),
            _ => Some(0),
        };
        least[k] = below.map(|rows| rows + 1).filter(|&rows| rows <= MAX_ROWS);
    }
    least
}

impl Record {
    /// A record of a sound table's root, of at most `spare` rows above the smallest value, or none
    /// if the root has no value of at most [`MAX_ROWS`] rows.
    pub fn of(table: &Table, random: &mut Random, spare: usize) -> Option<Record> {
        let least = least_rows(table);
        let smallest = least[0]?;
        let mut writer = Writer {
            table,
            random,
            least,
            spare: spare.min(MAX_ROWS - smallest),
            record: Record {
                bytes: Vec::new(),
                rows: 0,
                counts: Vec::new(),
                first_field: 0,
            },
        };
        writer.value(0);
        Some(writer.record)
    }

    /// The bytes of the first field, and those behind it.
    pub fn parts(&self) -> (&[u8], &[u8]) {
        self.bytes.split_at(self.first_field)
    }

    /// Changes one byte, or one count or tag to a limit or to a number next to one. The record is
    /// not empty.
    pub fn damage(&mut self, random: &mut Random) {
        let end = self.bytes.len();
        if self.counts.is_empty() || random.below(3) == 0 {
            self.bytes[random.below(end)] ^= 1 << random.below(8);
            return;
        }
        let at = random.pick(&self.counts);
        let count = &mut self.bytes[at..at + 8];
        let old = u64::from_le_bytes((&*count).try_into().expect("8 bytes"));
        let left = (end - at - 8) as u64;
        let limits = [
            old,
            left,
            left / 4,
            left / 8,
            CHECK_ROWS as u64,
            MAX_ROWS as u64,
            1 << 61,
            1 << 62,
            0,
        ];
        let new = random
            .pick(&limits)
            .wrapping_add(random.pick(&[0, 1, u64::MAX]));
        count.copy_from_slice(&new.to_le_bytes());
    }
}

/// A writer of random values: the table, its smallest values, the rows that values may have above
/// them, and what is written.
struct Writer<'a> {
    table: &'a Table,
    random: &'a mut Random,
    least: Vec<Option<usize>>,
    spare: usize,
    record: Record,
}

impl Writer<'_> {
    /// Writes a value of a node that has one.
    fn value(&mut self, k: usize) {
        self.record.rows += 1;
        let node = self.table.nodes[k];
        let children = children_of(self.table, node);
        match node[0] {
            0 => (),
            1 | 9 => self.number(4),
            2 | 10 => self.number(8),
            3 => self.array(children[0] as usize),
            4 => {
                for (field, &child) in children.iter().enumerate() {
                    self.value(child as usize);
                    if (k, field) == (0, 0) {
                        self.record.first_field = self.record.bytes.len();
                    }
                }
            }
            5 => self.numbers(1),
            6 => self.numbers(4),
            7 => self.numbers(8),
            _ => self.case(children),
        }
    }

    /// Writes a number of this many bytes.
    fn number(&mut self, width: usize) {
        let number = self.random.number_of(width);
        self.record.bytes.extend(&number.to_le_bytes()[..width]);
    }

    /// Writes an element count or a tag.
    fn count(&mut self, count: usize) {
        self.record.counts.push(self.record.bytes.len());
        self.record.bytes.extend((count as u64).to_le_bytes());
    }

    /// Writes an array of numbers of this many bytes.
    fn numbers(&mut self, width: usize) {
        let count = self.random.within(0..=5);
        self.count(count);
        let bytes = self.random.bytes(count * width);
        self.record.bytes.extend(bytes);
    }

    /// Writes an array of values of a node.
    fn array(&mut self, element: usize) {
        let most = self.least[element].map_or(0, |rows| self.spare / rows);
        let most = self.random.pick(&[most.min(3), most]);
        let count = self.random.within(0..=most);
        self.spare -= count * self.least[element].unwrap_or(0);
        self.count(count);
        (0..count).for_each(|_| self.value(element));
    }

    /// Writes a case, one at least of which has a value.
    fn case(&mut self, cases: &[u32]) {
        let rows = |&tag: &usize| self.least[cases[tag] as usize];
        let smallest = (0..cases.len()).filter_map(|tag| rows(&tag)).min();
        let most = smallest.expect("a case that has a value") + self.spare;
        let fits = |tag: &usize| rows(tag).is_some_and(|rows| rows <= most);
        let tags: Vec<usize> = (0..cases.len()).filter(fits).collect();
        let tag = self.random.pick(&tags);
        let child = cases[tag] as usize;
        self.spare = most - self.least[child].expect("the case has a value");
        self.count(tag);
        self.value(child);
    }
}

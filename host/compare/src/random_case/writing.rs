//! Random cases of the writers.

use route_record::{MAX_BYTES, MAX_ROWS};

use crate::{set_sizes, Case, Random, RowInput, RowTable, Table, Value};

use super::reading::{grammar, sound};
use super::{index_near, lent, row_table, spoil_grammar, spoil_rows};

/// A value to be written, with the table of its grammar and its size when it is sound.
struct Input {
    table: Table,
    grammar: Vec<u32>,
    rows: RowTable,
    size: usize,
}

/// A value of a random grammar, as the model reads it from its record; where the grammar has none,
/// any rows.
fn any_value(random: &mut Random) -> Input {
    let (table, grammar) = grammar(random);
    let words = table.words();
    let record = match model::check_grammar(&words) {
        Ok(()) => sound(random, &table),
        Err(_) => None,
    };
    let reading = record.map(|record| {
        let reading = model::demarshall(&words, &record.bytes, MAX_ROWS);
        RowTable::of(&reading.expect("a sound record").rows, record.bytes)
    });
    let mut rows = reading.unwrap_or_else(|| row_table(random));
    let size = rows.record.len();
    if random.below(2) == 0 {
        rows.scatter(random);
    }
    Input {
        table,
        grammar,
        rows,
        size,
    }
}

/// Arrays that share a store and have about 1,048,576 bytes together with their counts, or a few
/// bytes more.
fn large_value(random: &mut Random) -> Input {
    let (kind, width) = random.pick(&[(5, 1), (6, 4), (7, 8)]);
    let arrays = random.within(1..=20);
    let mut left = (MAX_BYTES - 8 - 8 * arrays) / width + random.below(3);
    let mut rows = vec![[3, arrays as u64 + 1, arrays as u64, 0, 0]];
    for others in (0..arrays).rev() {
        let count = left / (others + 1);
        left -= count;
        rows.push([kind, 1, count as u64, random.below(9) as u64, 0]);
    }
    set_sizes(&mut rows);
    let bytes = rows[1..].iter().map(|row| row[2] as usize * width);
    let (size, longest) = (bytes.clone().sum::<usize>(), bytes.max().unwrap_or(0));
    let nodes = vec![[3, 0, 1], [kind as u32, 0, 0]];
    let children = vec![1];
    let table = Table { nodes, children };
    Input {
        grammar: table.words(),
        table,
        rows: RowTable {
            rows,
            record: lent(random, (longest + 8).min(MAX_BYTES)),
        },
        size: size + 8 + 8 * arrays,
    }
}

/// Makes a fault in a row, or in the grammar, or takes another grammar.
fn spoil(random: &mut Random, input: &mut Input) {
    match random.below(6) {
        0..2 => input.rows.damage(random),
        2..4 => {
            let row = random.below(input.rows.rows.len());
            input.rows.change_kind(random, row);
        }
        4 => input.grammar = Table::any(random).words(),
        _ => spoil_grammar(random, &input.table, &mut input.grammar),
    }
}

/// What a writing is given, but for the output, and the size of the value when it is sound.
pub(super) struct Writing {
    pub(super) value: Value,
    pub(super) index: usize,
    pub(super) size: usize,
}

/// A length of output for a value of this size at an index: near the need, or not.
pub(super) fn length(random: &mut Random, size: usize, index: usize) -> usize {
    let need = index.saturating_add(size).min(2 * size + 100);
    match random.below(8) {
        0 => random.within(0..=size),
        1..4 => random.within(need.saturating_sub(3)..=need + 3),
        _ => need + 50,
    }
}

/// A writing, sound or with faults.
pub(super) fn writing(random: &mut Random) -> Writing {
    let mut input = match random.below(100) {
        0 => large_value(random),
        _ => any_value(random),
    };
    let faults = random.pick(&[0, 0, 0, 1, 1, 2]);
    let in_words = random.within(0..=faults);
    (0..in_words).for_each(|_| spoil(random, &mut input));
    let mut rows = RowInput::of(&input.rows);
    (in_words..faults).for_each(|_| spoil_rows(random, &mut rows));
    let value = Value {
        grammar: input.grammar,
        rows: rows.words,
        n: rows.n,
        store: rows.store,
    };
    let index = match random.below(4) {
        0 => index_near(random, input.size),
        _ => random.below(20),
    };
    Writing {
        value,
        index,
        size: input.size,
    }
}

/// A case of a writer.
pub(super) fn case(random: &mut Random) -> Case {
    let Writing { value, index, size } = writing(random);
    let length = length(random, size, index);
    let out = lent(random, length);
    match random.below(2) {
        0 => value.marshall_case(out),
        _ => value.marshall_val_case(out, index),
    }
}

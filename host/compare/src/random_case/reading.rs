//! Random cases of the readers.

use route_record::{CHECK_ROWS, MAX_BYTES, MAX_ROWS, ROW_WORDS};

use crate::{leaf, table, Case, Random, Record, Table};

use super::{index_near, lengthened, lent, spoil_grammar};

/// A record of the table's root, and how many rows it needs when it is sound.
pub(super) struct Input {
    pub(super) bytes: Vec<u8>,
    pub(super) rows: usize,
}

/// A sound record of the table, if there is one, small or large.
pub(super) fn sound(random: &mut Random, table: &Table) -> Option<Record> {
    let spare = match random.below(100) {
        0..2 => MAX_ROWS,
        _ => random.pick(&[0, 0, 5, 30, 100]),
    };
    Record::of(table, random, spare)
}

/// Bytes that stand for no value in particular, half of them mostly zeros.
pub(super) fn any_bytes(random: &mut Random) -> Vec<u8> {
    let count = random.pick(&[0, 1, 4, 8, 20, 100]);
    let bytes = random.bytes(count);
    match random.below(2) {
        0 => bytes,
        _ => bytes.iter().map(|byte| u8::from(*byte > 240)).collect(),
    }
}

/// Makes a fault in a record: a changed byte, count or tag, a cut, bytes behind it.
fn spoil(random: &mut Random, record: &mut Record) {
    let end = record.bytes.len();
    match random.below(4) {
        0 => {
            let length = random.within(0..=end);
            record.bytes.truncate(length);
            record.counts.retain(|count| count + 8 <= length);
        }
        1 => {
            let count = random.within(1..=20);
            record.bytes.extend(random.bytes(count));
        }
        _ if end > 0 => record.damage(random),
        _ => (),
    }
}

/// A record of the table, sound or with faults.
fn input(random: &mut Random, table: &Table) -> Input {
    let Some(mut record) = sound(random, table) else {
        let bytes = any_bytes(random);
        return Input { bytes, rows: 1 };
    };
    for _ in 0..random.pick(&[0, 0, 0, 1, 1, 2, 3]) {
        spoil(random, &mut record);
    }
    let Record { bytes, rows, .. } = record;
    let bytes = match random.below(80) {
        0 => lengthened(random, &bytes),
        1..5 => any_bytes(random),
        _ => bytes,
    };
    Input { bytes, rows }
}

/// How many words are lent to a reading that needs so many rows: near the need, or not.
pub(super) fn words(random: &mut Random, rows: usize) -> usize {
    let need = ROW_WORDS * rows;
    match random.below(8) {
        0 => random.pick(&[0, ROW_WORDS - 1, ROW_WORDS, 2 * ROW_WORDS - 1, 100]),
        1 => ROW_WORDS * MAX_ROWS + random.pick(&[0, 7]),
        2..4 => random.within(need.saturating_sub(9)..=need + 9),
        _ => need + random.below(10),
    }
}

/// A capacity named for a reading that needs so many rows: near the need most often, none, one, near
/// the capacity of a check for which none is named, near the greatest, or far above that.
fn capacity(random: &mut Random, rows: usize) -> usize {
    match random.below(12) {
        0 => random.below(2),
        1 => random.within(CHECK_ROWS - 1..=CHECK_ROWS + 1),
        2 => random.within(MAX_ROWS - 1..=MAX_ROWS + 1),
        3 => random.pick(&[1 << 16, 1 << 32, 1 << 59, 1 << 62, 1 << 63]) + random.below(rows + 2),
        4 => usize::MAX - random.below(2),
        5 => random.number() as usize,
        6..8 => random.within(rows.saturating_sub(2)..=rows + 2),
        _ => rows + random.below(10),
    }
}

/// The words of a table, in some cases with faults.
pub(super) fn words_of(random: &mut Random, table: &Table) -> Vec<u32> {
    let mut words = table.words();
    for _ in 0..random.pick(&[0, 0, 0, 0, 0, 0, 0, 1, 1, 2]) {
        spoil_grammar(random, table, &mut words);
    }
    words
}

/// A table and its words, in some cases with faults.
pub(super) fn grammar(random: &mut Random) -> (Table, Vec<u32>) {
    let table = super::table(random);
    let words = words_of(random, &table);
    (table, words)
}

/// A grammar and a record: an array of numbers, about as long as a record may be.
pub(super) fn long_array(random: &mut Random) -> (Vec<u32>, Input) {
    let (kind, width) = random.pick(&[(5, 1), (6, 4), (7, 8)]);
    let length = random.within(MAX_BYTES - 9..=MAX_BYTES + 1);
    let count = (length - 8) / width + random.below(2);
    let mut bytes = vec![random.number() as u8; length];
    bytes[..8].copy_from_slice(&(count as u64).to_le_bytes());
    (leaf(kind), Input { bytes, rows: 1 })
}

/// A grammar and a record of about as many rows as a check has, where no capacity is named, or as a
/// value may have: an array of constants or of numbers, alone, before a number, behind one, or in a
/// case. The last byte is missing, or there is one more, in some of them.
pub(super) fn many_rows(random: &mut Random) -> (Vec<u32>, Input) {
    let most = random.pick(&[CHECK_ROWS, MAX_ROWS]);
    let rows = most - 2 + random.pick(&[0, 1, 2, 2, 2, 3, 3, 4]);
    let (kind, width) = random.pick(&[(0, 0), (0, 0), (1, 4), (2, 8), (9, 4), (10, 8)]);
    let (element, number) = (random.number() as u8, random.bytes(4));
    // The array with as many elements as leave this number of rows for others.
    let array = |others: usize| {
        let count = rows - 1 - others;
        let elements = vec![element; width * count];
        [&(count as u64).to_le_bytes()[..], &elements].concat()
    };
    let nodes = |root| [root, [3, 2, 1], [kind, 0, 0], [1, 0, 0]];
    let (grammar, mut bytes) = match random.below(4) {
        0 => (table(&[[3, 0, 1], [kind, 0, 0]], &[1]), array(0)),
        1 => {
            let record = [array(2), number].concat();
            (table(&nodes([4, 0, 2]), &[1, 3, 2]), record)
        }
        2 => {
            let record = [number, array(2)].concat();
            (table(&nodes([4, 0, 2]), &[3, 1, 2]), record)
        }
        _ => {
            let record = [vec![0; 8], array(1)].concat();
            (table(&nodes([8, 0, 1]), &[1, 0, 2]), record)
        }
    };
    match random.below(8) {
        0 => bytes.truncate(bytes.len() - 1),
        1 => bytes.push(0),
        _ => (),
    }
    (grammar, Input { bytes, rows })
}

/// A table that passes its limits; a record of another one cannot be made.
pub(super) fn within_limits(table: &Table) -> bool {
    table.nodes.len() <= 256 && table.children.len() <= 1_024
}

/// A record for the table.
pub(super) fn record(random: &mut Random, table: &Table) -> Input {
    match within_limits(table) {
        true => input(random, table),
        false => Input {
            bytes: any_bytes(random),
            rows: 1,
        },
    }
}

/// A case of one of the six readers.
pub(super) fn case(random: &mut Random) -> Case {
    let (grammar, input) = match random.below(300) {
        0 => long_array(random),
        1..16 => many_rows(random),
        _ => {
            let (table, grammar) = grammar(random);
            (grammar, record(random, &table))
        }
    };
    let Input { bytes, rows } = input;
    if random.below(2) == 0 {
        return whole(random, grammar, bytes, rows);
    }
    let before = random.below(5).min(MAX_BYTES.saturating_sub(bytes.len()));
    let front = random.bytes(before);
    let record = [front, bytes].concat();
    let index = match random.below(4) {
        0 => index_near(random, record.len()),
        _ => before,
    };
    from_index(random, grammar, record, index, rows)
}

/// A case of a whole reading that needs so many rows: with rows lent, or as one of the checks.
fn whole(random: &mut Random, grammar: Vec<u32>, record: Vec<u8>, rows: usize) -> Case {
    match random.below(3) {
        0 => {
            let words = words(random, rows);
            Case::Demarshall {
                grammar,
                record,
                rows: lent(random, words),
            }
        }
        1 => Case::CheckWhole { grammar, record },
        _ => Case::CheckWholeWith {
            grammar,
            record,
            capacity: capacity(random, rows),
        },
    }
}

/// A case of a reading from an index on that needs so many rows: with rows lent, or as one of the
/// checks.
fn from_index(
    random: &mut Random,
    grammar: Vec<u32>,
    record: Vec<u8>,
    index: usize,
    rows: usize,
) -> Case {
    match random.below(3) {
        0 => {
            let words = words(random, rows);
            Case::ParseVal {
                grammar,
                record,
                index,
                rows: lent(random, words),
            }
        }
        1 => Case::CheckVal {
            grammar,
            record,
            index,
        },
        _ => Case::CheckValWith {
            grammar,
            record,
            index,
            capacity: capacity(random, rows),
        },
    }
}

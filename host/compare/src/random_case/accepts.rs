//! Random cases of yes or no.

use route_record::MAX_BYTES;

use crate::{doubling, of_length, shortest_record, Case, Random, Table};

use super::reading::{any_bytes, long_array, many_rows, record, within_limits, words_of, Input};

/// The table with unions that have no case in the place of some of its nodes, at any depth.
fn with_empty_unions(random: &mut Random, mut table: Table) -> Table {
    for _ in 0..random.pick(&[1, 1, 2, 4, 20]) {
        let first = random.within(0..=table.children.len()) as u32;
        let k = random.below(table.nodes.len());
        table.nodes[k] = [8, first, 0];
    }
    table
}

/// A record that is about as long as the table's shortest: that one, in some cases with a changed byte,
/// then cut or with zeros behind it, or zeros or any bytes.
fn near_shortest(random: &mut Random, table: &Table) -> Vec<u8> {
    let mut shortest = shortest_record(table, random).unwrap_or_default();
    let least = shortest.len();
    let length = match random.below(4) {
        0 => least,
        1 => random.within(0..=least),
        _ => random.within(least.saturating_sub(9)..=least + 9),
    };
    match random.below(6) {
        0 => return vec![0; length],
        1 => return random.bytes(length),
        2 if least > 0 => shortest[random.below(least)] ^= 1 << random.below(8),
        _ => (),
    }
    shortest.resize(length, 0);
    shortest
}

/// The words of a table, in some cases with faults, and a record for it.
fn of_table(random: &mut Random) -> (Vec<u32>, Vec<u8>) {
    let mut table = super::table(random);
    if random.below(3) == 0 {
        table = with_empty_unions(random, table);
    }
    let bytes = match random.below(4) {
        _ if !within_limits(&table) => any_bytes(random),
        0 => record(random, &table).bytes,
        _ => near_shortest(random, &table),
    };
    (words_of(random, &table), bytes)
}

/// The words of a tuple, in some cases in a union, whose shortest value has a number of bytes near a
/// power of two, and as many zeros, or a few more or less.
fn near_power(random: &mut Random, power: usize) -> (Vec<u32>, Vec<u8>) {
    let bytes = power - 12 + 4 * random.below(6);
    let mut table = of_length(bytes as u32);
    let unions = random.pick(&[0, 0, 1, 2]);
    for _ in 0..unions {
        table = table.below(8, &[0]);
    }
    let least = bytes + 8 * unions;
    let length = random.pick(&[least - 4, least - 1, least, least + 1, power, power + 1]);
    (table.words(), vec![0; length.min(MAX_BYTES + 1)])
}

/// The words of tuples of the next node twice, whose sums do not fit into 32 or 64 bits where there
/// are many nodes, and a short record.
fn doubled(random: &mut Random) -> (Vec<u32>, Vec<u8>) {
    let nodes = random.within(1..=256) as u32;
    let kind = random.pick(&[0, 1, 2, 5, 6, 7, 8, 9, 10]);
    let length = random.pick(&[0, 1, 4, 8, 16, 100]);
    (doubling(nodes, kind), vec![0; length])
}

/// A case of yes or no.
pub(super) fn case(random: &mut Random) -> Case {
    let (grammar, record) = match random.below(200) {
        0 => {
            let (grammar, Input { bytes, .. }) = long_array(random);
            (grammar, bytes)
        }
        1..3 => near_power(random, MAX_BYTES),
        3..13 => {
            let power = random.pick(&[1 << 5, 1 << 8, 1 << 16]);
            near_power(random, power)
        }
        13..25 => doubled(random),
        25..35 => {
            let (grammar, Input { bytes, .. }) = many_rows(random);
            (grammar, bytes)
        }
        _ => of_table(random),
    };
    Case::Accepts { grammar, record }
}

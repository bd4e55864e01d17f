//! Random cases of same route.

use route_record::MAX_ROWS;

use crate::{table, Case, Random, Table};

use super::reading::{any_bytes, record, sound, within_limits, words_of};

/// The bytes with one bit of one of them changed, if there is one.
fn with_other_byte(random: &mut Random, bytes: &[u8]) -> Vec<u8> {
    let mut bytes = bytes.to_vec();
    if !bytes.is_empty() {
        let at = random.below(bytes.len());
        bytes[at] ^= 1 << random.below(8);
    }
    bytes
}

/// Two records of the table, if it has one: equal ones, ones with different first fields that are
/// equal behind them or differ there in a byte, ones that differ in a byte of the first field, and
/// any two. Where the root has no first field, all bytes are behind it.
fn pair(random: &mut Random, table: &Table) -> Option<[Vec<u8>; 2]> {
    let (one, other) = (sound(random, table)?, sound(random, table)?);
    let ((field, behind), (other_field, _)) = (one.parts(), other.parts());
    let second = match random.below(6) {
        0 => one.bytes.clone(),
        1 | 2 => [other_field, behind].concat(),
        3 => [other_field, &with_other_byte(random, behind)].concat(),
        4 => [&with_other_byte(random, field), behind].concat(),
        _ => other.bytes,
    };
    Some([one.bytes, second])
}

/// Two records for the table, in some cases one or both with faults.
fn records(random: &mut Random, table: &Table) -> [Vec<u8>; 2] {
    let pair = match within_limits(table) {
        true => pair(random, table),
        false => None,
    };
    let [first, second] = pair.unwrap_or_else(|| [any_bytes(random), any_bytes(random)]);
    let any = record(random, table).bytes;
    match random.below(8) {
        0 => [any, second],
        1 => [first, any],
        2 => [any, record(random, table).bytes],
        3 => [any.clone(), any],
        _ => [first, second],
    }
}

/// A grammar and two records: a tuple of an array with about as many elements as a record may have
/// rows, or none, and of a number, which is often the same in both.
fn many_rows(random: &mut Random) -> (Vec<u32>, [Vec<u8>; 2]) {
    let (kind, width) = random.pick(&[(0, 0), (1, 4), (2, 8), (9, 4), (10, 8)]);
    let nodes = [[4, 0, 2], [3, 2, 1], [kind, 0, 0], [1, 0, 0]];
    let number = random.bytes(4);
    let other = with_other_byte(random, &number);
    let records = [&number, random.pick(&[&number, &number, &other])].map(|number| {
        let most = random.within(MAX_ROWS - 5..=MAX_ROWS);
        let count = random.pick(&[most, most, most, 0]);
        let elements = vec![random.number() as u8; width * count];
        [&(count as u64).to_le_bytes(), &elements[..], number].concat()
    });
    (table(&nodes, &[1, 3, 2]), records)
}

/// A case of same route: two records of one table, half of the tables with a tuple as the root.
pub(super) fn case(random: &mut Random) -> Case {
    let (grammar, [first, second]) = match random.below(20) {
        0 => many_rows(random),
        _ => {
            let mut table = super::table(random);
            if random.below(2) == 0 {
                table = table.in_a_tuple(random);
            }
            let words = words_of(random, &table);
            (words, records(random, &table))
        }
    };
    Case::SameRoute {
        grammar,
        first,
        second,
    }
}

//! The shortest record of a grammar, written by the byte rule.

use route_record::{MAX_BYTES, MAX_ROWS};

use crate::{Random, Table};

/// The bytes of a node's shortest value, and the fewest rows of one with so many bytes. Where there
/// would be more than a usize holds, it is the greatest that it holds.
type Shortest = (usize, usize);

/// The numbers of a node's children.
fn children_of(table: &Table, k: usize) -> &[u32] {
    let [_, first, count] = table.nodes[k];
    &table.children[first as usize..][..count as usize]
}

/// The shortest value of each node, if it has one.
fn shortest_values(table: &Table) -> Vec<Option<Shortest>> {
    let mut shortest: Vec<Option<Shortest>> = vec![None; table.nodes.len()];
    for k in (0..table.nodes.len()).rev() {
        let add = |(bytes, rows): Shortest, more: Shortest| {
            (bytes.saturating_add(more.0), rows.saturating_add(more.1))
        };
        let mut children = children_of(table, k).iter();
        shortest[k] = match table.nodes[k][0] {
            0 => Some((0, 1)),
            1 | 9 => Some((4, 1)),
            4 => children.try_fold((0, 1), |sum, &c| Some(add(sum, shortest[c as usize]?))),
            8 => {
                let least = children.filter_map(|&c| shortest[c as usize]).min();
                least.map(|least| add((8, 1), least))
            }
            _ => Some((8, 1)),
        };
    }
    shortest
}

/// Writes the shortest value of a node that has one, with random numbers.
fn write(
    table: &Table,
    random: &mut Random,
    all: &[Option<Shortest>],
    k: usize,
    out: &mut Vec<u8>,
) {
    let children = children_of(table, k);
    match table.nodes[k][0] {
        0 => (),
        1 | 9 => out.extend(random.bytes(4)),
        2 | 10 => out.extend(random.bytes(8)),
        4 => {
            for &field in children {
                write(table, random, all, field as usize, out);
            }
        }
        8 => {
            let cases = children.iter().zip(0u64..);
            let cases = cases.filter_map(|(&case, tag)| Some((all[case as usize]?, tag, case)));
            let (_, tag, case) = cases.min().expect("a case that has a value");
            out.extend(tag.to_le_bytes());
            write(table, random, all, case as usize, out);
        }
        _ => out.extend([0; 8]),
    }
}

/// A record of a sound table's root with the fewest bytes, if the root has a value and this one is of
/// at most [`MAX_BYTES`] bytes and [`MAX_ROWS`] rows.
pub fn shortest_record(table: &Table, random: &mut Random) -> Option<Vec<u8>> {
    let all = shortest_values(table);
    let (bytes, rows) = all[0]?;
    if bytes > MAX_BYTES || rows > MAX_ROWS {
        return None;
    }
    let mut record = Vec::new();
    write(table, random, &all, 0, &mut record);
    Some(record)
}

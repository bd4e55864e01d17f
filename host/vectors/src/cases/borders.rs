//! Borders by loops: what holds of each kind, of each count or at each index near a limit is shown
//! of each of them.

use std::collections::BTreeSet;

use compare::{leaf, show_input, Case, Value};

use super::signed::signed_number;
use super::sized::{sized, Bare};
use super::{counted, numbers, table, Cases, List, MAX_BYTES};

const CONSTANT: Bare = [0, 1, 0, 0];

/// Grammar tables.
pub fn grammar() -> Cases {
    let mut list = List::default();
    let mut check = |name: String, nodes: &[[u32; 3]], children: &[u32]| {
        let grammar = table(nodes, children);
        list.add(&name, Case::CheckGrammar { grammar });
    };
    let constant = [0, 0, 0];
    for kind in [3, 4, 8] {
        for child in [0, 1, 2, 3] {
            let name = format!("child {child} of node 1 of 3, kind {kind}");
            let nodes = [constant, [kind, 1, 1], constant];
            check(name, &nodes, &[9, child, 9]);
        }
        for first in [0, 2, 3, 4] {
            for count in [0, 1] {
                let name = format!("kind {kind}, first {first}, count {count}, M 3");
                check(name, &[[kind, first, count], constant], &[1; 3]);
            }
        }
    }
    for kind in [0, 1, 2, 5, 6, 7, 9, 10] {
        for (first, count) in [(1, 0), (0, 1)] {
            let name = format!("kind {kind}, first {first}, count {count}, M 3");
            check(name, &[[kind, first, count], constant], &[1; 3]);
        }
    }
    for (first, count) in [(1_024, 0), (1, 1_024)] {
        let name = format!("a union, first {first}, count {count}, M 1,024");
        check(name, &[[8, first, count], constant], &[1; 1_024]);
    }
    for kind in [11, 12, 256, 65_536, u32::MAX] {
        for node in [1, 2] {
            let mut nodes = [constant; 3];
            nodes[node][0] = kind;
            check(format!("kind {kind} of node {node} of 3"), &nodes, &[]);
        }
    }
    let mut grammar = table(&[constant; 256], &[]);
    grammar.truncate(769);
    let name = "256 nodes, M's word is missing";
    list.add(name, Case::CheckGrammar { grammar });
    list.0
}

/// Adds the size of these rows, with a store of so many bytes.
fn size(list: &mut List, name: &str, rows: &[Bare], store: usize) {
    let (rows, n) = (sized(rows), rows.len());
    let store = vec![0x5a; store];
    list.add(name, Case::ComputeSizeOf { rows, n, store });
}

/// Adds the size of a row as a case in a tuple with a constant behind it.
fn size_in_case(list: &mut List, row: Bare) {
    let name = row.map(|word| word.to_string()).join(" ");
    let rows = [[4, 4, 2, 0], [8, 2, 0, 0], row, CONSTANT];
    size(list, &format!("row {name} in a case"), &rows, 16);
}

/// Sizes and the array locator.
pub fn rows() -> Cases {
    let mut list = List::default();
    for kind in 0..=10 {
        for span in [0, 2, 3] {
            size_in_case(&mut list, [kind, span, 0, 0]);
        }
        let (name, row) = (format!("kind {kind} with a span of 2"), [kind, 2, 0, 0]);
        size(&mut list, &name, &[[4, 3, 1, 0], row, CONSTANT], 16);
    }
    size_in_case(&mut list, [0, 1, 1, 0]);
    size_in_case(&mut list, [4, 1, 0, 0]);
    for (kind, width) in [(5, 1), (6, 4), (7, 8)] {
        let end = 16 - 2 * width;
        let near = [(0, 15), (0, 16), (0, 17), (1, 0), (1, 15 - width), (1, 16)];
        for (count, offset) in near.into_iter().chain([(2, end), (2, end + 1)]) {
            size_in_case(&mut list, [kind, 1, count, offset]);
        }
        let most = MAX_BYTES as u64;
        for (count, offset) in [(0, most), (0, most + 1), (1, most), (2_000, 3)] {
            let name = format!("kind {kind}, count {count}, offset {offset}, the longest store");
            size(&mut list, &name, &[[kind, 1, count, offset]], MAX_BYTES);
        }
    }
    for kind in [3, 4] {
        size_in_case(&mut list, [kind, 1, 1, 0]);
    }
    for row in [[3, 3, 1, 0], [4, 3, 0, 0], [4, 3, 1, 0], [8, 3, 0, 0]] {
        let [kind, _, count, _] = row;
        let rows = [[8, 5, 0, 0], [3, 4, 1, 0], row, CONSTANT, CONSTANT];
        let name = format!("kind {kind}, count {count}, two children, deep");
        size(&mut list, &name, &rows, 16);
    }
    for span in [1, 2, 4, 5] {
        let rows = [[4, span, 2, 0], [1, 1, 7, 0], [5, 1, 2, 12]];
        let name = format!("example A with the root's span {span}");
        size(&mut list, &name, &rows, 14);
    }
    words_and_rows(&mut list);
    list.0
}

/// Other numbers of words than the rows need, and each row of a value located.
fn words_and_rows(list: &mut List) {
    let mut example = sized(&[[4, 3, 2, 0], [1, 1, 7, 0], [5, 1, 2, 12]]);
    example.push(9);
    let mut most = vec![[4, 4_096, 4_095, 0]];
    most.resize(4_096, CONSTANT);
    let mut most = sized(&most);
    most.pop();
    for (n, rows) in [(3, example), (4_096, most)] {
        let name = format!("{} words for {n} rows", rows.len());
        let store = vec![0x5a; 14];
        list.add(&name, Case::ComputeSizeOf { rows, n, store });
    }
    let arrays = [[5, 1, 3, 12], [6, 1, 3, 4], [7, 1, 2, 0], [6, 1, 0, 16]];
    let others = [CONSTANT, [1, 1, 1, 0], [2, 1, 1, 0], [8, 2, 5, 0]];
    let rows = [&[[4, 10, 8, 0]], &arrays[..], &others, &[[3, 1, 0, 0]]].concat();
    for row in 0..=11 {
        let (rows, n, store) = (sized(&rows), 10, vec![0x5a; 16]);
        let case = Case::LocateArray {
            rows,
            n,
            store,
            row,
        };
        list.add(&format!("row {row} of 10"), case);
    }
}

/// Patterns of so many bytes whose numbers are near the ends, near zero and where numbers of fewer
/// bits end, above and below zero; and numbers that are above all patterns of 4 bytes.
fn patterns(width: u32) -> BTreeSet<u64> {
    let greatest = u64::MAX >> (64 - 8 * width);
    let powers = [0, 7, 8, 15, 16, 31, 32, 63].map(|bits| 1u64 << bits);
    let near = powers.map(|power| [power - 1, power, power + 1]).concat();
    let negated = near.iter().map(|number| number.wrapping_neg() & greatest);
    let negated: Vec<u64> = negated.collect();
    near.into_iter().chain(negated).chain([u64::MAX]).collect()
}

/// The signed numbers of patterns, and of each row of a value of all kinds.
pub fn signed() -> Cases {
    let mut list = List::default();
    for (kind, what, width) in [(9, "int32", 4), (10, "int64", 8)] {
        for pattern in patterns(width) {
            let name = format!("{what}, pattern {pattern}");
            let rows = sized(&[[kind, 1, pattern, 0]]);
            list.add(&name, signed_number(&rows, 1, 0, 0));
        }
    }
    let rows = numbers::<u64>(
        "4 15 11 0 64, 0 1 0 0 0, 1 1 1 0 4, 2 1 2 0 8, 3 2 1 0 8, 0 1 0 0 0, 4 2 1 0 0, 0 1 0 0 0, 5 1 0 0 8, \
        6 1 0 0 8, 7 1 0 0 8, 8 2 0 0 8, 0 1 0 0 0, 9 1 4294967287 0 4, 10 1 18446744073709551606 0 8",
    );
    for row in 0..=16 {
        let name = format!("row {row} of 15, of all kinds");
        list.add(&name, signed_number(&rows, 15, 0, row));
    }
    list.0
}

/// A value of these rows.
pub(super) fn value(grammar: Vec<u32>, rows: &[Bare], store: &[u8]) -> Value {
    Value {
        grammar,
        rows: sized(rows),
        n: rows.len(),
        store: store.to_vec(),
    }
}

/// The writers.
pub fn writing() -> Cases {
    let mut list = List::default();
    let mut write = |name: String, value: Value, length: usize, index: usize| {
        list.add(&name, value.marshall_val_case(vec![0xee; length], index));
    };
    for node in 0..=10 {
        for kind in 0..=10 {
            let count = u32::from(matches!(node, 3 | 8));
            let first = if matches!(node, 3 | 4 | 8) { 2 } else { 0 };
            let nodes = [[4, 0, 2], [node, first, count], [0, 0, 0]];
            let span = 1 + u64::from(kind == 8);
            let mut rows = vec![[4, span + 2, 2, 0], CONSTANT, [kind, span, 0, 0]];
            rows.resize(span as usize + 2, CONSTANT);
            let name = format!("a field of kind {kind} under a node of kind {node}");
            write(name, value(table(&nodes, &[2, 1, 2]), &rows, &[]), 20, 0);
        }
    }
    for (fields, given) in [(0, 2), (2, 0)] {
        let grammar = table(&[[4, 0, fields], [0, 0, 0]], &[1; 3]);
        let mut rows = vec![[4, given + 1, given, 0]];
        rows.resize(given as usize + 1, CONSTANT);
        let name = format!("{given} fields under a node of {fields}");
        write(name, value(grammar, &rows, &[]), 9, 0);
    }
    let bytes = |size: usize| {
        let count = size as u64 - 8;
        value(leaf(5), &[[5, 1, count, 0]], &vec![0x5a; size - 8])
    };
    for index in [0, 6, 7, 19, 20, 21, 1 << 32, 1 << 63, usize::MAX] {
        write(format!("14 bytes at {index} of 20"), bytes(14), 20, index);
        let nothing = value(leaf(0), &[CONSTANT], &[]);
        write(format!("no bytes at {index} of 20"), nothing, 20, index);
    }
    let (most, long) = (MAX_BYTES - 1, MAX_BYTES + 100);
    write(format!("{most} bytes"), bytes(most), most, 0);
    write("into a long output".to_string(), bytes(14), long, most);
    list.0
}

/// The readers.
pub fn reading() -> Cases {
    let mut list = List::default();
    let grammar = table(&[[4, 0, 2], [5, 0, 0], [8, 0, 0]], &[1, 2]);
    let record = vec![0; 16];
    let name = "a union without cases as a field";
    list.add(name, Case::CheckWhole { grammar, record });
    // The tuple, the array, its constants and the case have as many rows as there are with 3
    // constants fewer, and the case's constant has none left.
    let nodes = [[4, 0, 2], [3, 2, 1], [8, 3, 2], [0, 0, 0]];
    let grammar = table(&nodes, &[1, 2, 3, 3, 3]);
    for fewer in [4, 3, 2] {
        let record = |rows: u64| counted(rows - fewer, &counted(1, &[]));
        let name = |rows: u64| format!("{} constants and a case", rows - fewer);
        let check = Case::CheckWhole {
            grammar: grammar.clone(),
            record: record(1_024),
        };
        list.add(&name(1_024), check);
        for capacity in [2_000, 4_096] {
            let check = Case::CheckWholeWith {
                grammar: grammar.clone(),
                record: record(capacity),
                capacity: capacity as usize,
            };
            list.add(&name(capacity), check);
        }
    }
    list.0
}

/// Inputs of the show program: numbers of 1 to 20 digits, the longest text, and the most nodes and
/// rows.
pub fn show() -> Vec<(String, Vec<u8>)> {
    let mut list = Vec::new();
    let mut add = |name: String, grammar: &[u32], record: &[u8]| {
        list.push((format!("show: {name}"), show_input(grammar, record)));
    };
    let uint64s = table(&[[3, 0, 1], [2, 0, 0]], &[1]);
    let powers = (0..20).map(|digits| 10u64.pow(digits));
    let near = powers.flat_map(|power| [power - 1, power, power + 1]);
    let numbers = counted(60, &near.flat_map(u64::to_le_bytes).collect::<Vec<u8>>());
    add("numbers of 1 to 20 digits".to_string(), &uint64s, &numbers);
    let longest = counted(1_023, &[0xff; 8 * 1_023]);
    add("the longest text".to_string(), &uint64s, &longest);
    for n in [256, 257] {
        let grammar = table(&vec![[0; 3]; n], &[]);
        add(format!("{n} nodes"), &grammar, &[]);
    }
    for n in [1_023, 1_024] {
        let tuple = table(&[[4, 0, n], [1, 0, 0]], &vec![1; n as usize]);
        let record = vec![0; 4 * n as usize];
        add(format!("a tuple of {n} fields"), &tuple, &record);
    }
    list
}

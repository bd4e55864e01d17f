//! Random cases of the chooser.

use route_record::{MAX_GRAMMARS, MAX_ROWS};

use crate::{doubling, grammar_list, leaf, table, Case, Random, Table};

use super::reading::{long_array, record, Input};
use super::spoil_grammar;

/// The table with one node of another kind that may have the node's first and count.
fn with_other_kind(random: &mut Random, table: &Table) -> Table {
    let mut table = table.clone();
    let k = random.below(table.nodes.len());
    let [kind, _, count] = table.nodes[k];
    table.nodes[k][0] = match kind {
        3 | 4 | 8 if count == 1 => random.pick(&[3, 4, 8]),
        4 | 8 => random.pick(&[4, 8]),
        _ => random.pick(&[0, 1, 2, 5, 6, 7, 9, 10]),
    };
    table
}

/// The words of the grammars of a list, in some cases one with faults, and a record: one for a table
/// that is among them. Of the other tables most differ from it in a node, so that they begin values
/// of the record or accept it too; in half of the cases none before it accepts.
fn grammars(random: &mut Random) -> (Vec<Vec<u32>>, Vec<u8>) {
    let own = super::table(random);
    let Input { bytes, .. } = record(random, &own);
    let most = random.pick(&[1, 2, 3, 5, MAX_GRAMMARS]);
    let count = random.within(1..=most);
    let place = random.within(0..=count - 1);
    let mut tables: Vec<Table> = Vec::new();
    for other in 0..count {
        tables.push(match random.below(8) {
            _ if other == place => own.clone(),
            0 => own.clone(),
            1..4 => super::table(random),
            _ => with_other_kind(random, &own),
        });
    }
    let mut words: Vec<Vec<u32>> = tables.iter().map(Table::words).collect();
    if random.below(2) == 0 {
        for before in &mut words[..place] {
            if model::demarshall(before, &bytes, MAX_ROWS).is_ok() {
                *before = leaf(8);
            }
        }
    }
    if random.below(6) == 0 {
        let spoiled = random.within(0..=count - 1);
        for _ in 0..random.pick(&[1, 1, 2]) {
            spoil_grammar(random, &tables[spoiled], &mut words[spoiled]);
        }
    }
    (words, bytes)
}

/// The words of grammars that begin about as many values of a record as it may have rows, and the
/// record: that of an array of so many constants. All but one of the grammars are the same.
fn many_values(random: &mut Random) -> (Vec<Vec<u32>>, Vec<u8>) {
    let elements = random.within(MAX_ROWS - 4..=MAX_ROWS + 1) as u64;
    let constants = table(&[[3, 0, 1], [0; 3]], &[1]);
    // A field before the array, and a field behind it.
    let behind = table(&[[4, 0, 2], [3, 2, 1], [0; 3]], &[2, 1, 2]);
    let before = table(&[[4, 0, 2], [3, 2, 1], [0; 3]], &[1, 2, 2]);
    let choices = [
        &doubling(12, 0),
        &doubling(13, 0),
        &doubling(13, 0),
        &constants,
        &behind,
        &before,
        &leaf(1),
    ];
    let count = random.within(1..=MAX_GRAMMARS);
    let mut grammars = vec![random.pick(&choices).clone(); count];
    let place = random.within(0..=count - 1);
    grammars[place] = random
        .pick(&[&constants, &constants, &before, &leaf(2)])
        .clone();
    (grammars, elements.to_le_bytes().to_vec())
}

/// The words of grammars of arrays of numbers, and a record that is about as long as it may be.
fn long_record(random: &mut Random) -> (Vec<Vec<u32>>, Vec<u8>) {
    let (grammar, Input { bytes, .. }) = long_array(random);
    let count = random.within(1..=MAX_GRAMMARS);
    let mut grammars: Vec<Vec<u32>> = Vec::new();
    grammars.resize_with(count, || leaf(random.pick(&[5, 6, 7, 2])));
    grammars[random.within(0..=count - 1)] = grammar;
    (grammars, bytes)
}

/// The places of the list's word counts, as far as there are so many grammars.
fn word_counts(list: &[u32]) -> Vec<usize> {
    let (mut places, mut at) = (Vec::new(), 1);
    while let Some(&length) = list.get(at) {
        places.push(at);
        at = at.saturating_add(1 + length as usize);
    }
    places
}

/// Makes a fault in the layout of a list: it is cut, often before or behind a count, has words behind
/// it, or has another count.
fn spoil_list(random: &mut Random, list: &mut Vec<u32>) {
    let mut counts = word_counts(list);
    counts.insert(0, 0);
    let at = random.pick(&counts);
    match random.below(5) {
        0 => {
            let any = random.within(0..=list.len());
            list.truncate(random.pick(&[at, at + 1, any]));
        }
        1 => Table::extend(random, list),
        _ => {
            let Some(count) = list.get_mut(at) else {
                return;
            };
            let limits = [*count, 0, MAX_GRAMMARS as u32, 1 << 8, 1 << 16, 1 << 31];
            let new = random.pick(&limits);
            *count = new.wrapping_add(random.pick(&[0, 1, u32::MAX]));
        }
    }
}

/// A case of the chooser.
pub(super) fn case(random: &mut Random) -> Case {
    let (mut grammars, record) = match random.below(120) {
        0 => long_record(random),
        1..5 => many_values(random),
        _ => grammars(random),
    };
    if random.below(60) == 0 {
        let more = random.pick(&[MAX_GRAMMARS, MAX_GRAMMARS + 1, 40]);
        let grammar = grammars[0].clone();
        grammars.resize(more, grammar);
    }
    let mut list = grammar_list(&grammars);
    for _ in 0..random.pick(&[0, 0, 0, 0, 0, 0, 1, 2]) {
        spoil_list(random, &mut list);
    }
    Case::ChooseGrammar { list, record }
}

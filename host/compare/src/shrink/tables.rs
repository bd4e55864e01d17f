//! Leaving out rows, grammars, nodes and child words, so that a sound table or list stays sound where
//! it can, and the row that a call asks for stays the same one. Any content of the tables is possible.

use std::ops::Range;

use route_record::ROW_WORDS;

use crate::row_table::{restore_sizes, size_errors};
use crate::{grammar_list, grammars_of, Case, Field, Row};

/// The words of the grammar that a call is given.
fn grammar_of(case: &mut Case) -> Option<&mut Vec<u32>> {
    case.fields().into_iter().find_map(|field| match field {
        ("grammar", Field::Uint32s(words)) => Some(words),
        _ => None,
    })
}

/// The words of the grammar list that a call is given.
fn list_of(case: &mut Case) -> Option<&mut Vec<u32>> {
    case.fields().into_iter().find_map(|field| match field {
        ("list", Field::Uint32s(words)) => Some(words),
        _ => None,
    })
}

/// Changes the grammars of a list whose length is that of its counts.
fn edit_list(case: &mut Case, edit: impl FnOnce(&mut Vec<Vec<u32>>)) {
    if let Some(list) = list_of(case) {
        if let Some(mut grammars) = grammars_of(list) {
            edit(&mut grammars);
            *list = grammar_list(&grammars);
        }
    }
}

/// Changes the grammar of this number, that of a call without a list or one of the list.
fn edit_grammar(case: &mut Case, number: usize, edit: impl FnOnce(&mut Vec<u32>)) {
    match grammar_of(case) {
        Some(words) => edit(words),
        None => edit_list(case, |grammars| edit(&mut grammars[number])),
    }
}

/// The rows that a call reads.
struct Rows<'a> {
    words: &'a mut Vec<u64>,
    /// Their count.
    n: &'a mut usize,
    /// The number of the row that the call asks for, if it asks for one.
    asked: Option<&'a mut usize>,
}

/// The rows that a call reads.
fn rows_of(case: &mut Case) -> Option<Rows<'_>> {
    let (mut rows, mut count, mut asked) = (None, None, None);
    for field in case.fields() {
        match field {
            ("rows", Field::Uint64s(words)) => rows = Some(words),
            ("n", Field::Size(n)) => count = Some(n),
            ("row", Field::Size(row)) => asked = Some(row),
            _ => (),
        }
    }
    Some(Rows {
        words: rows?,
        n: count?,
        asked,
    })
}

/// Whether a call reads rows.
pub(super) fn reads_rows(case: &mut Case) -> bool {
    rows_of(case).is_some()
}

/// Changes words of the rows that a call reads, and leaves their sizes as right or as wrong as they
/// were.
pub(super) fn with_sizes(case: &mut Case, edit: impl FnOnce(&mut Vec<u64>)) {
    if let Some(Rows { words, .. }) = rows_of(case) {
        let errors = size_errors(whole_rows(words));
        edit(words);
        restore_sizes(whole_rows(words), &errors);
    }
}

/// The rows of words, without what is left behind the last whole one.
fn whole_rows(words: &mut [u64]) -> &mut [Row] {
    words.as_chunks_mut().0
}

/// N and M of a table whose length is that of its counts.
fn sections(words: &[u32]) -> Option<(usize, usize)> {
    let n = *words.first()? as usize;
    let m = *words.get(1 + n.checked_mul(3)?)? as usize;
    (words.len() == 2 + 3 * n + m).then_some((n, m))
}

/// How many parts of a case's tables can be left out one by one.
pub(super) struct Counts {
    /// Rows of the row table.
    pub(super) rows: usize,
    /// Values directly in the root of the row table.
    pub(super) in_root: usize,
    /// Grammars of the list.
    pub(super) in_list: usize,
    /// The number of each grammar whose length is that of its counts, its nodes and its child words.
    pub(super) grammars: Vec<(usize, usize, usize)>,
}

/// The counts of a case.
pub(super) fn counts(case: &mut Case) -> Counts {
    let list = list_of(case).and_then(|words| grammars_of(words));
    let in_list = list.as_ref().map_or(0, Vec::len);
    let only = || grammar_of(case).map(|words| vec![words.clone()]);
    let grammars = list.or_else(only).unwrap_or_default();
    let grammars = grammars.iter().enumerate().filter_map(|(number, words)| {
        let (nodes, child_words) = sections(words)?;
        Some((number, nodes, child_words))
    });
    let grammars = grammars.collect();
    let (rows, in_root) = match rows_of(case) {
        Some(Rows { words, n, .. }) if (1..=words.len() / ROW_WORDS).contains(n) => {
            (*n, children(words, *n).len())
        }
        _ => (0, 0),
    };
    Counts {
        rows,
        in_root,
        in_list,
        grammars,
    }
}

/// The rows of a row's value, as far as there are so many.
fn value(rows: &[u64], n: usize, row: usize) -> Range<usize> {
    let most = n.min(rows.len() / ROW_WORDS);
    let end = (row as u64).saturating_add(rows[ROW_WORDS * row + 1]);
    row..(end.min(most as u64) as usize).max(row + 1)
}

/// The rows of the values that follow each other in these rows.
fn values_in(rows: &[u64], n: usize, part: Range<usize>) -> Vec<Range<usize>> {
    let (mut next, mut values) = (part.start, Vec::new());
    while next < part.end {
        let of_value = value(rows, n, next);
        next = of_value.end;
        values.push(of_value);
    }
    values
}

/// The rows of the values directly in the root.
fn children(rows: &[u64], n: usize) -> Vec<Range<usize>> {
    values_in(rows, n, 1..value(rows, n, 0).end)
}

impl Rows<'_> {
    /// Keeps these rows alone.
    fn keep(&mut self, kept: Range<usize>) {
        *self.n = kept.len();
        *self.words = self.words[ROW_WORDS * kept.start..ROW_WORDS * kept.end].to_vec();
        if let Some(asked) = &mut self.asked {
            **asked = asked.saturating_sub(kept.start);
        }
    }

    /// Leaves out rows of values that follow each other, so many, in the same value. The spans that
    /// reach over them and the sizes of these values become less, and so does the count of their
    /// parent, if that is an array or a tuple.
    fn remove(&mut self, removed: Range<usize>, values: usize) {
        let (rows, n) = (&mut *self.words, &mut *self.n);
        let size = values_in(rows, *n, removed.clone())
            .iter()
            .fold(0, |sum: u64, of| {
                sum.wrapping_add(rows[ROW_WORDS * of.start + 4])
            });
        let mut parent = None;
        for other in 0..removed.start {
            if value(rows, *n, other).end >= removed.end {
                parent = Some(other);
                let row = &mut rows[ROW_WORDS * other..][..ROW_WORDS];
                row[1] = row[1].saturating_sub(removed.len() as u64);
                row[4] = row[4].wrapping_sub(size);
            }
        }
        if let Some(parent) = parent.filter(|&parent| matches!(rows[ROW_WORDS * parent], 3 | 4)) {
            let count = &mut rows[ROW_WORDS * parent + 2];
            *count = count.saturating_sub(values as u64);
        }
        *n -= removed.len();
        rows.drain(ROW_WORDS * removed.start..ROW_WORDS * removed.end);
        if let Some(asked) = self.asked.as_mut().filter(|row| ***row >= removed.end) {
            **asked -= removed.len();
        }
    }
}

/// Keeps the rows of a row's value alone.
pub(super) fn keep_value(case: &mut Case, row: usize) {
    if let Some(mut rows) = rows_of(case) {
        let kept = value(rows.words, *rows.n, row);
        rows.keep(kept);
    }
}

/// Keeps a child of the root alone, and makes its node the root of the grammar.
pub(super) fn keep_child(case: &mut Case, child: usize) {
    let Some(mut rows) = rows_of(case) else {
        return;
    };
    let (kind, tag) = (rows.words[0], rows.words[2]);
    let kept = children(rows.words, *rows.n)[child].clone();
    rows.keep(kept);
    let field = match kind {
        4 => child,
        8 => tag as usize,
        _ => 0,
    };
    let is_sound = |words: &&mut Vec<u32>| sections(words).is_some_and(|(n, _)| n > 0);
    if let Some(words) = grammar_of(case).filter(is_sound) {
        let child_words = 2 + 3 * words[0] as usize;
        let place = (words[2] as usize).saturating_add(field);
        let node = words[child_words..].get(place).copied().unwrap_or(0);
        (0..node.min(words[0] - 1)).for_each(|_| remove_node(words, 0));
    }
}

/// Leaves out the rows of a row's value.
pub(super) fn drop_value(case: &mut Case, row: usize) {
    if let Some(mut rows) = rows_of(case) {
        let removed = value(rows.words, *rows.n, row);
        rows.remove(removed, 1);
    }
}

/// Leaves out the rows of children of the root.
pub(super) fn drop_children(case: &mut Case, range: &Range<usize>) {
    if let Some(mut rows) = rows_of(case) {
        let removed = &children(rows.words, *rows.n)[range.clone()];
        let (first, last) = (&removed[0], &removed[range.len() - 1]);
        rows.remove(first.start..last.end, range.len());
    }
}

/// Leaves out a node. Child words above its number become one less.
fn remove_node(words: &mut Vec<u32>, node: usize) {
    words[0] -= 1;
    words.drain(1 + 3 * node..4 + 3 * node);
    let children = 2 + 3 * words[0] as usize;
    for child in &mut words[children..] {
        if *child as usize > node {
            *child -= 1;
        }
    }
}

/// Leaves out grammars of a list.
pub(super) fn drop_grammars(case: &mut Case, range: &Range<usize>) {
    edit_list(case, |grammars| drop(grammars.drain(range.clone())));
}

/// Leaves out a node of a grammar.
pub(super) fn drop_node(case: &mut Case, grammar: usize, node: usize) {
    edit_grammar(case, grammar, |words| remove_node(words, node));
}

/// Leaves out a child word of a grammar.
pub(super) fn drop_child(case: &mut Case, grammar: usize, child: usize) {
    edit_grammar(case, grammar, |words| remove_child(words, child));
}

/// Leaves out a child word. Nodes that have it get a count that is one less, and those whose child
/// words stand behind it a first that is one less.
fn remove_child(words: &mut Vec<u32>, child: usize) {
    let children = 2 + 3 * words[0] as usize;
    words.remove(children + child);
    words[children - 1] -= 1;
    for node in words[1..children - 1].chunks_mut(3) {
        let (first, count) = (node[1] as usize, node[2] as usize);
        if first > child {
            node[1] -= 1;
        } else if child - first < count {
            node[2] -= 1;
        }
    }
}

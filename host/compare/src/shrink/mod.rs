//! Making a case smaller as long as something holds of it.

mod tables;

use std::ops::{Div, Range, Sub};

use crate::{Case, Field};

/// How many parts of a slice are tried at most with one length of parts.
const MOST_PARTS: usize = 128;

/// The elements of slices up to this length are lowered one by one.
const MOST_LOWERED: usize = 128;

/// How many smaller cases are tried at most.
const MOST_TRIES: usize = 200_000;

/// What makes a case smaller. A field is meant by its place among the case's fields, a grammar by its
/// number in the list; the only grammar of a call is number 0.
enum Edit {
    /// Keeps the rows of this row's value alone.
    KeepValue(usize),
    /// Keeps this child of the root's row alone, and of the grammar what its node needs.
    KeepChild(usize),
    /// Leaves out the rows of these children of the root's row.
    DropChildren(Range<usize>),
    /// Leaves out the rows of this row's value.
    DropValue(usize),
    /// Leaves out these grammars of a list.
    DropGrammars(Range<usize>),
    /// Leaves out a node of a grammar, and lowers the child words above it.
    DropNode(usize, usize),
    /// Leaves out a child word of a grammar, and takes it from the nodes that have it.
    DropChild(usize, usize),
    /// Leaves out elements of a slice.
    Drop(usize, Range<usize>),
    /// Makes elements of a slice 0.
    Clear(usize, Range<usize>),
    /// Makes a number, or an element of a slice, half of what it is.
    Halve(usize, usize),
    /// Makes a number, or an element of a slice, one less.
    Lower(usize, usize),
    /// Makes one of the last three edits on the words of rows, and the sizes of the rows as right or
    /// as wrong as they were.
    WithSizes(Box<Edit>),
}

/// A number type of the fields.
trait Unsigned: Copy + From<u8> + PartialOrd + Sub<Output = Self> + Div<Output = Self> {}
impl Unsigned for u8 {}
impl Unsigned for u32 {}
impl Unsigned for u64 {}
impl Unsigned for usize {}

/// Changes a slice.
fn edit_slice<N: Unsigned>(elements: &mut Vec<N>, edit: &Edit) {
    match edit {
        Edit::Drop(_, range) => drop(elements.drain(range.clone())),
        Edit::Clear(_, range) => elements[range.clone()].fill(N::from(0)),
        Edit::Halve(_, at) => elements[*at] = elements[*at] / N::from(2),
        Edit::Lower(_, at) if elements[*at] > N::from(0) => {
            elements[*at] = elements[*at] - N::from(1);
        }
        Edit::Lower(..) => (),
        _ => unreachable!("the edit is one of a table"),
    }
}

/// Changes a number.
fn edit_number<N: Unsigned>(number: &mut N, edit: &Edit) {
    let mut element = vec![*number];
    edit_slice(&mut element, edit);
    *number = element[0];
}

/// Changes a field.
fn edit_field(field: Field, edit: &Edit) {
    match field {
        Field::Uint32(number) => edit_number(number, edit),
        Field::Uint64(number) => edit_number(number, edit),
        Field::Size(number) => edit_number(number, edit),
        Field::Bytes(bytes) => edit_slice(bytes, edit),
        Field::Uint32s(words) => edit_slice(words, edit),
        Field::Uint64s(words) => edit_slice(words, edit),
    }
}

impl Edit {
    /// The case that the edit makes of another one.
    fn of(&self, case: &Case) -> Case {
        let mut case = case.clone();
        match self {
            Edit::KeepValue(row) => tables::keep_value(&mut case, *row),
            Edit::KeepChild(child) => tables::keep_child(&mut case, *child),
            Edit::DropChildren(range) => tables::drop_children(&mut case, range),
            Edit::DropValue(row) => tables::drop_value(&mut case, *row),
            Edit::DropGrammars(range) => tables::drop_grammars(&mut case, range),
            Edit::DropNode(grammar, node) => tables::drop_node(&mut case, *grammar, *node),
            Edit::DropChild(grammar, child) => tables::drop_child(&mut case, *grammar, *child),
            Edit::Drop(at, _) | Edit::Clear(at, _) | Edit::Halve(at, _) | Edit::Lower(at, _) => {
                let field = case.fields().into_iter().nth(*at);
                edit_field(field.expect("a field of the case").1, self);
            }
            Edit::WithSizes(edit) => {
                tables::with_sizes(&mut case, |words| edit_slice(words, edit));
            }
        }
        case
    }
}

/// Parts of a slice of this length: halves, quarters and so on, down to single elements if these
/// are not too many.
fn parts(length: usize) -> impl Iterator<Item = Range<usize>> {
    let lengths = (1..).map(move |halvings| length >> halvings);
    let lengths = lengths.take_while(move |&part| part > 0 && length / part <= MOST_PARTS);
    let whole = (length > 0).then_some(0..length);
    let smaller = lengths.flat_map(move |part| {
        let starts = (0..length).step_by(part);
        starts.map(move |start| start..length.min(start + part))
    });
    whole.into_iter().chain(smaller)
}

/// The edits of a slice of this length in field `at`.
fn slice_edits(at: usize, length: usize) -> Vec<Edit> {
    let dropped = parts(length).map(|range| Edit::Drop(at, range));
    dropped.chain(lowering_edits(at, length)).collect()
}

/// The edits of such a slice that leave out no element.
fn lowering_edits(at: usize, length: usize) -> impl Iterator<Item = Edit> {
    let cleared = parts(length).map(move |range| Edit::Clear(at, range));
    let few = if length <= MOST_LOWERED { length } else { 0 };
    let lowered = (0..few).flat_map(move |element| number_edits(at, element));
    cleared.chain(lowered)
}

/// The edits of a number in field `at`, or of an element of a slice there.
fn number_edits(at: usize, element: usize) -> [Edit; 2] {
    [Edit::Halve(at, element), Edit::Lower(at, element)]
}

/// The edits of the tables that a case has.
fn table_edits(case: &mut Case) -> Vec<Edit> {
    let tables::Counts {
        rows,
        in_root,
        in_list,
        grammars,
    } = tables::counts(case);
    let mut edits: Vec<Edit> = Vec::new();
    if grammars.iter().all(|&(_, nodes, _)| nodes == 0) {
        edits.extend((1..rows).rev().map(Edit::KeepValue));
    }
    let step = in_root / MOST_PARTS + 1;
    edits.extend((0..in_root).step_by(step).map(Edit::KeepChild));
    edits.extend(parts(in_root).map(Edit::DropChildren));
    if rows <= MOST_LOWERED {
        edits.extend((1..rows).rev().map(Edit::DropValue));
    }
    edits.extend(parts(in_list).map(Edit::DropGrammars));
    for (grammar, nodes, child_words) in grammars {
        let nodes = (0..nodes).rev();
        edits.extend(nodes.map(|node| Edit::DropNode(grammar, node)));
        let child_words = (0..child_words).rev();
        edits.extend(child_words.map(|child| Edit::DropChild(grammar, child)));
    }
    edits
}

/// The edits that are tried on a case, those that leave out the most first.
fn edits(case: &Case) -> Vec<Edit> {
    let mut case = case.clone();
    let mut edits = table_edits(&mut case);
    let reads_rows = tables::reads_rows(&mut case);
    for (at, (name, field)) in case.fields().into_iter().enumerate() {
        match field {
            Field::Uint32(_) | Field::Uint64(_) | Field::Size(_) => {
                edits.push(Edit::Clear(at, 0..1));
                edits.extend(number_edits(at, 0));
            }
            Field::Bytes(bytes) => edits.extend(slice_edits(at, bytes.len())),
            Field::Uint32s(words) => edits.extend(slice_edits(at, words.len())),
            Field::Uint64s(words) => {
                edits.extend(slice_edits(at, words.len()));
                if reads_rows && name == "rows" {
                    let edit = |edit| Edit::WithSizes(Box::new(edit));
                    edits.extend(lowering_edits(at, words.len()).map(edit));
                }
            }
        }
    }
    edits
}

/// A case that `holds`, as small as single edits make it from one that does: fewer rows, grammars,
/// nodes, words and bytes, and lower numbers.
pub fn shrink(case: &Case, holds: impl Fn(&Case) -> bool) -> Case {
    let (mut smallest, mut tries) = (case.clone(), 0);
    // Edits that did not help are tried again only when all others did not help either.
    let (mut next, mut failed) = (0, 0);
    loop {
        let edits = edits(&smallest);
        while failed < edits.len() && tries < MOST_TRIES {
            let smaller = edits[next % edits.len()].of(&smallest);
            tries += 1;
            if smaller != smallest && holds(&smaller) {
                smallest = smaller;
                break;
            }
            (next, failed) = (next + 1, failed + 1);
        }
        if failed >= edits.len() || tries >= MOST_TRIES {
            return smallest;
        }
        failed = 0;
    }
}

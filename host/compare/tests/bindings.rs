//! The bindings' values and texts on random grammars and records.

use std::collections::HashSet;

use compare::{Random, Record, Table};
use route_record::calls::{locate_array, signed_number};
use route_record::{
    Builder, Class, Contents, Grammar, GrammarError, Kind, Position, Preview, Refusal, Row, Value,
    KINDS, ROW_WORDS,
};

/// A random table of `n` nodes that the root reaches, with up to `shared` more child words than
/// that takes. One node has none.
fn grown(random: &mut Random, n: usize, shared: usize) -> Table {
    let mut below = vec![Vec::new(); n];
    let more = (0..shared).filter_map(|_| n.checked_sub(2).map(|most| 1 + random.below(most + 1)));
    let more: Vec<usize> = more.collect();
    for child in (1..n).chain(more) {
        let parent: &mut Vec<u32> = &mut below[random.below(child)];
        parent.insert(random.below(parent.len() + 1), child as u32);
    }
    let (mut nodes, mut children) = (Vec::new(), Vec::new());
    let leaves = [&[0, 1, 2, 5, 6, 7, 9, 10].repeat(2)[..], &[4, 8]].concat();
    for of_node in below {
        let (kind, first) = match of_node.len() {
            0 => (random.pick(&leaves), 0),
            1 => (random.pick(&[3, 4, 8]), children.len()),
            _ => (random.pick(&[4, 8]), children.len()),
        };
        nodes.push([kind, first as u32, of_node.len() as u32]);
        children.extend(of_node);
    }
    Table { nodes, children }
}

/// Makes the value that starts with a row once more, from what the row says of it.
fn rebuild(row: Row, builder: &mut Builder) {
    let all = |builder: &mut Builder| row.children().for_each(|child| rebuild(child, builder));
    match row.contents() {
        Contents::Constant => builder.constant(),
        Contents::Number(number) if row.kind().number == Kind::UINT32 => {
            builder.uint32(number.try_into().expect("below 2^32"));
        }
        Contents::Number(number) => builder.uint64(number),
        Contents::Signed(number) if row.kind().number == Kind::INT32 => {
            builder.int32(number.try_into().expect("a number of 32 bits"));
        }
        Contents::Signed(number) => builder.int64(number),
        Contents::Array(_) => builder.array(all),
        Contents::Tuple(_) => builder.tuple(all),
        Contents::Elements(elements) => match elements.width() {
            1 => builder.byte_array(elements.bytes()),
            4 => builder.uint32_array(&elements.numbers().map(|n| n as u32).collect::<Vec<_>>()),
            _ => builder.uint64_array(&elements.numbers().collect::<Vec<_>>()),
        },
        Contents::Case { tag, .. } => builder.tagged_union(tag, all),
        other => panic!("{other:?} is of no kind"),
    }
}

/// The children of a row, and all that it says of itself, fit its words and each other.
fn assert_fits(row: Row, depth: usize, parents: &mut Vec<(usize, usize)>, store: &[u8]) {
    let words = row.words();
    let ends_here = |&(_, end): &(usize, usize)| end <= row.index();
    while parents.last().is_some_and(ends_here) {
        parents.pop();
    }
    assert_eq!(parents.len(), depth);
    parents.push((row.index(), row.index() + words[1] as usize));

    let children = row.children();
    assert_eq!(children.len(), children.clone().count());
    for (number, child) in children.clone().enumerate() {
        assert_eq!(
            row.child(number).map(|row| row.index()),
            Some(child.index())
        );
    }
    assert!(row.child(children.len()).is_none());

    let below: u64 = children.map(|child| child.size()).sum();
    let own = match row.kind().class {
        Class::Number { width } | Class::Signed { width } => width,
        Class::Array | Class::Union => 8,
        Class::Elements { width } => 8 + width * words[2] as usize,
        _ => 0,
    };
    assert_eq!((row.size(), words.len()), (own as u64 + below, ROW_WORDS));

    let is = |class: bool, word: usize| class.then_some(words[word]);
    let class = row.kind().class;
    assert_eq!(row.number(), is(matches!(class, Class::Number { .. }), 2));
    let case = row.case().map(|(tag, value)| {
        assert_eq!(value.index(), row.index() + 1);
        tag
    });
    assert_eq!(case, is(class == Class::Union, 2));
    let elements = row.elements();
    assert_eq!(elements.is_some(), matches!(class, Class::Elements { .. }));
    if let Some(elements) = elements {
        let (start, count) = (words[3] as usize, words[2] as usize);
        assert_eq!(elements.range(), start..start + count * elements.width());
        assert_eq!(elements.bytes(), &store[elements.range()]);
        assert_eq!((elements.len(), elements.is_empty()), (count, count == 0));
        assert_eq!(elements.numbers().count(), count);
    }
}

/// Reads a record, walks its rows, builds the value once more and writes it. Gives the kinds met.
fn assert_round_trip(grammar: &Grammar, record: &Record) -> Vec<u32> {
    let value = grammar.demarshall_vec(&record.bytes).expect("a record");
    let (rows, store) = (value.row_words(), value.store());
    let mut parents = Vec::new();
    for (number, (depth, row)) in value.rows().enumerate() {
        assert_eq!(row.index(), number);
        assert_fits(row, depth, &mut parents, store);
        let located = locate_array(rows, record.rows, store, number).ok();
        let range = located.map(|(start, length)| start..start + length);
        assert_eq!(range, row.elements().map(|elements| elements.range()));
        let signed = signed_number(rows, record.rows, store, number).ok();
        assert_eq!(signed, row.signed());
    }

    let built = Value::build(|builder| rebuild(value.root(), builder)).expect("a value");
    let size = record.bytes.len() as u64;
    assert_eq!((built.row_count(), built.size()), (record.rows, size));
    let arrays = built.rows().filter_map(|(_, row)| row.elements());
    let packed: usize = arrays.map(|elements| elements.bytes().len()).sum();
    assert_eq!(built.store().len(), packed);
    for ((depth, read), (of_built, built)) in value.rows().zip(built.rows()) {
        assert_eq!((depth, &read.words()[..3]), (of_built, &built.words()[..3]));
        assert_eq!(read.size(), built.size());
        assert_eq!(read.elements(), built.elements());
    }
    assert_eq!(grammar.marshall_vec(&built).as_ref(), Ok(&record.bytes));
    let others: Vec<u8> = record.bytes.iter().map(|byte| !byte).collect();
    for (out, changed) in [(&record.bytes, 0), (&others, others.len())] {
        let size = out.len();
        let expected = Preview { size, changed };
        assert_eq!(grammar.preview(&built, out, 0), Ok(expected));
    }
    let kinds = value.rows().map(|(_, row)| row.kind().number).collect();
    assert_eq!(
        grammar.marshall_vec(&value.into_owned()).as_ref(),
        Ok(&record.bytes)
    );
    kinds
}

#[test]
fn what_was_read_and_built_again_is_written_as_it_was() {
    let mut random = Random::new(61);
    let mut met = vec![0; KINDS.len()];
    let mut records = 0;
    while records < 800 {
        let (n, shared) = (random.within(1..=40), random.pick(&[0, 3, 10]));
        let table = grown(&mut random, n, shared);
        let spare = random.pick(&[0, 30, 100]);
        if let Some(record) = Record::of(&table, &mut random, spare) {
            let grammar = Grammar::try_from(&table.words()[..]).expect("a sound table");
            for kind in assert_round_trip(&grammar, &record) {
                met[kind as usize] += 1;
            }
            records += 1;
        }
    }
    assert!(met.iter().all(|&rows| rows >= 500), "{met:?}");
}

/// The child words of a node.
fn children(table: &Table, k: usize) -> &[u32] {
    let [_, first, count] = table.nodes[k].map(|word| word as usize);
    &table.children[first..][..count]
}

/// The table as a text: nodes that are a child more than once have a name, and some others.
fn text_of(table: &Table, random: &mut Random) -> String {
    let mut text = String::new();
    let mut used_as = vec![String::new(); table.nodes.len()];
    for k in (0..table.nodes.len()).rev() {
        let kind = &KINDS[table.nodes[k][0] as usize];
        let below = children(table, k).iter();
        let below: Vec<&str> = below.map(|&c| used_as[c as usize].as_str()).collect();
        let comma = random.pick(&[",", ", ", " ,\n  "]);
        used_as[k] = match kind.form() == kind.text {
            true => kind.text.to_string(),
            false => format!("{}({})", kind.text, below.join(comma)),
        };
        let uses = table.children.iter().filter(|&&c| c as usize == k).count();
        if uses > 1 || random.below(2) == 0 {
            let end = random.pick(&["\n", ";", " ", " ;\n\n", " # a type\n"]);
            text += &format!("node{k} = {}{end}", used_as[k]);
            used_as[k] = format!("node{k}");
        }
    }
    text + &used_as[0]
}

/// Node 0 of both tables has the same tree.
fn assert_same_tree(first: &Table, second: &Table) {
    let mut seen = HashSet::from([(0, 0)]);
    let mut pairs = vec![(0, 0)];
    while let Some((a, b)) = pairs.pop() {
        let (a, b) = (a as usize, b as usize);
        assert_eq!(first.nodes[a][0], second.nodes[b][0]);
        let (below_a, below_b) = (children(first, a), children(second, b));
        assert_eq!(below_a.len(), below_b.len());
        let below = below_a.iter().copied().zip(below_b.iter().copied());
        pairs.extend(below.filter(|&pair| seen.insert(pair)));
    }
}

#[test]
fn a_table_written_as_types_has_the_same_tree() {
    let mut random = Random::new(41);
    let mut answers = [0; 3];
    for _ in 0..300 {
        let most = random.pick(&[2, 5, 20, 100, 260]);
        let (n, shared) = (random.within(1..=most), random.pick(&[0, 0, 3, 30, 1_000]));
        let table = grown(&mut random, n, shared);
        let text = text_of(&table, &mut random);
        let m = table.children.len();
        let expected = match (n, m) {
            (257.., _) => Refusal::NODE_COUNT,
            (_, 1_025..) => Refusal::GRAMMAR_LENGTH,
            _ => 0,
        };
        let number = match text.parse::<Grammar>() {
            Ok(grammar) => {
                let [_, nodes, _, below] = grammar.sections();
                assert_eq!((nodes.len(), below.len()), (3 * n, m));
                let nodes = nodes.chunks(3).map(|node| [node[0], node[1], node[2]]);
                let again = Table {
                    nodes: nodes.collect(),
                    children: below.to_vec(),
                };
                assert_same_tree(&table, &again);
                0
            }
            Err(GrammarError::Refused { refusal, .. }) => refusal.number,
            Err(error) => panic!("{error}\n{text}"),
        };
        assert_eq!(number, expected);
        answers[number as usize] += 1;
    }
    assert!(answers.iter().all(|&count| count >= 5), "{answers:?}");
}

/// One part of a text takes another's place.
#[test]
fn a_damaged_text_gives_a_grammar_or_an_error_in_the_text() {
    let mut random = Random::new(43);
    let (mut sound, mut wrong) = (0, 0);
    for _ in 0..3_000 {
        let (n, shared) = (random.within(1..=8), random.pick(&[0, 2]));
        let table = grown(&mut random, n, shared);
        let mut text: Vec<char> = text_of(&table, &mut random).chars().collect();
        let mut part = || {
            let start = random.below(text.len());
            start..(start + random.below(5)).min(text.len())
        };
        let (from, to) = (part(), part());
        let copy = text[from].to_vec();
        text.splice(to, copy);
        let text: String = text.into_iter().collect();
        match text.parse::<Grammar>() {
            Err(GrammarError::Text(error)) => {
                assert!(error.position <= Position::START.behind(&text), "{text}");
                wrong += 1;
            }
            answer => sound += usize::from(answer.is_ok()),
        }
    }
    assert!(sound >= 300 && wrong >= 300, "{sound} {wrong}");
}

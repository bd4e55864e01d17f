//! Numbers of every magnitude, for implementations that hold one of them in 8, 16 or 32 bits, or
//! in a signed type: each just above a power of two, beside a small number with the same low bits.

use compare::{grammar_list, Case, Value};

use super::packed::{pack_u32, pack_u64};
use super::signed::signed_number;
use super::sized::{sized, Bare, SIZE};
use super::{counted, numbers, table, Cases, List, MAX_BYTES, ROW_WORDS};
use super::{A64, ARR, B, BYT, C, E, I32, I64, U32, U64, UNI};

/// What is added to a number so that its lowest 8, 16 or 32 bits stay, or its sign changes.
const STEPS: [(&str, u64); 5] = [
    ("2^8", 1 << 8),
    ("2^16", 1 << 16),
    ("2^31", 1 << 31),
    ("2^32", 1 << 32),
    ("2^63", 1 << 63),
];

/// More bytes, and more elements, than 16 bits count.
const MANY: usize = 70_000;

const CONSTANT: [u32; 3] = [0, 0, 0];

fn check(list: &mut List, name: &str, nodes: &[[u32; 3]], children: &[u32]) {
    let grammar = table(nodes, children);
    list.add(name, Case::CheckGrammar { grammar });
}

/// Kinds, firsts and counts.
fn grammar_words(list: &mut List) {
    for (step, add) in &STEPS[..3] {
        let add = *add as u32;
        for kind in [1, 5, 8, 10] {
            let name = format!("kind {step} + {kind}");
            check(list, &name, &[[kind + add, 0, 0]], &[]);
        }
        for kind in [0, 1, 2, 5, 6, 7, 9, 10] {
            let name = format!("kind {kind} with first {step}");
            check(list, &name, &[[kind, add, 0]], &[0; 512]);
            let name = format!("kind {kind} with count {step}");
            check(list, &name, &[[kind, 0, add]], &[0; 512]);
        }
        let array = |first, count| [[3, first, count], CONSTANT];
        let name = format!("array with count {step} + 1");
        check(list, &name, &array(0, add + 1), &[1; 512]);
        for kind in [3, 4, 8] {
            let nodes = [[kind, add, 1], CONSTANT];
            let name = format!("kind {kind} with first {step} above M");
            check(list, &name, &nodes, &[1; 2]);
            let name = format!("kind {kind} with child {step} + 1");
            check(list, &name, &[[kind, 0, 1], CONSTANT], &[add + 1, 1]);
        }
        for kind in [4, 8] {
            let name = format!("kind {kind} with count {step} + 1 above M");
            check(list, &name, &[[kind, 0, add + 1], CONSTANT], &[1; 2]);
        }
        let name = format!("M {step} and no child words");
        let grammar = vec![1, 0, 0, 0, add];
        list.add(&name, Case::CheckGrammar { grammar });
        let name = format!("N {step} + 1");
        let grammar = vec![add + 1, 0, 0, 0, 0];
        list.add(&name, Case::CheckGrammar { grammar });
    }
    for kind in [3, 8] {
        let name = format!("kind {kind} with first 2^32-1 and count 1");
        check(list, &name, &[[kind, u32::MAX, 1], CONSTANT], &[1]);
    }
    let mut grammar = numbers::<u32>(B);
    grammar.resize(5 + (1 << 16), 0);
    list.add(
        "2^16 words too many",
        Case::CheckGrammar {
            grammar: grammar.clone(),
        },
    );
    grammar[4] = 1 << 16;
    list.add(
        "M 2^16, with its child words",
        Case::CheckGrammar { grammar },
    );
}

/// Nodes, child words and numbers of children from 128 and from 256 on.
fn grammar_places(list: &mut List) {
    for kind in [3, 4, 8] {
        let mut nodes = [CONSTANT; 256];
        nodes[200] = [kind, 600, 1];
        let mut children = [255; 700];
        let name = |what: &str| format!("kind {kind} at node 200, {what}");
        check(list, &name("child 255"), &nodes, &children);
        for (child, what) in [(200, "child 200"), (199, "child 199"), (0, "child 0")] {
            children[600] = child;
            check(list, &name(what), &nodes, &children);
        }
        children[600] = 256;
        check(list, &name("child 256"), &nodes, &children);
        nodes[200] = [kind, 700, 1];
        check(list, &name("first 700 of M 700"), &nodes, &children);
        nodes[200] = [11, 0, 0];
        let what = format!("kind 11 at node 200 behind a node of kind {kind}");
        nodes[0] = [kind, 0, 1];
        check(list, &what, &nodes, &children);
    }
    for kind in [4, 8] {
        let mut children = [1; 700];
        children[600] = 2;
        let nodes = [[kind, 100, 600], CONSTANT];
        let name = format!("kind {kind}, child 500 of 600 is bad");
        check(list, &name, &nodes, &children);
        let nodes = [[kind, 300, 300], CONSTANT];
        let name = format!("kind {kind}, children 300 to 599");
        check(list, &name, &nodes, &children);
    }
}

/// The cases of the grammar check.
pub fn grammar() -> Cases {
    let mut list = List::default();
    grammar_words(&mut list);
    grammar_places(&mut list);
    list.0
}

fn demarshall(grammar: &[u32], record: &[u8], words: usize) -> Case {
    Case::Demarshall {
        grammar: grammar.to_vec(),
        record: record.to_vec(),
        rows: vec![99; words],
    }
}

/// Counts and tags whose low bits are those of a value that is there.
fn counts_read(list: &mut List) {
    for (step, add) in STEPS {
        for (what, grammar, behind) in [
            ("byte array", BYT, 1),
            ("uint32 array", E, 4),
            ("uint64 array", A64, 8),
            ("array of constants", C, 0),
            ("array of uint32 values", ARR, 4),
            ("union", UNI, 4),
        ] {
            let record = counted(add + 1, &vec![7; behind]);
            let name = format!("{what}, count or tag {step} + 1");
            list.add(
                &name,
                demarshall(&numbers::<u32>(grammar), &record, 2 * ROW_WORDS),
            );
        }
    }
    for (what, grammar, width) in [
        ("byte array", BYT, 1),
        ("uint32 array", E, 4),
        ("uint64 array", A64, 8),
    ] {
        let grammar = numbers::<u32>(grammar);
        for count in [200, 300, 40_000, MANY] {
            let record = counted(count as u64, &vec![0x5a; count * width]);
            let name = format!("{what}, {count} elements");
            list.add(&name, demarshall(&grammar, &record, ROW_WORDS));
            let name = format!("{what}, {count} elements, one missing");
            list.add(
                &name,
                demarshall(&grammar, &record[..record.len() - width], ROW_WORDS),
            );
            let short = counted(count as u64 + 1, &vec![0x5a; count * width]);
            let name = format!("{what}, {count} elements and one more counted");
            list.add(&name, demarshall(&grammar, &short, ROW_WORDS));
        }
    }
}

/// Arrays with bytes behind them.
fn bytes_behind(list: &mut List) {
    for (kind, width) in [(5, 1), (6, 4), (7, 8)] {
        for count in [1, 200, 40_000, MANY] {
            let record = counted(count as u64, &vec![0x5a; (count + 2) * width]);
            let (grammar, index) = (grammar_of(kind), 0);
            let name = format!("kind {kind}, {count} elements, and bytes of two behind them");
            list.add(
                &name,
                Case::CheckVal {
                    grammar,
                    record,
                    index,
                },
            );
        }
    }
}

/// A tuple of a byte array and a value of the grammar of one or two nodes below it; and a record of
/// it, with so many bytes before that value.
fn behind_bytes(kind: u32, bytes: usize, value: &[u8]) -> (Vec<u32>, Vec<u8>) {
    let count = u32::from(matches!(kind, 3 | 4 | 8));
    let nodes = [[4, 0, 2], [5, 0, 0], [kind, 2 * count, count], [1, 0, 0]];
    let record = [
        counted(bytes as u64 - 8, &vec![0x5a; bytes - 8]),
        value.to_vec(),
    ]
    .concat();
    (table(&nodes, &[1, 2, 3]), record)
}

/// Values that start, end and are refused far behind byte 0.
fn far_values(list: &mut List) {
    let one = counted(1, &[]);
    let zero = counted(0, &[7, 0, 0, 0]);
    let values: [(u32, Vec<u8>, usize); 11] = [
        (0, vec![], 3),
        (1, vec![7, 0, 0, 0], 3),
        (2, vec![7; 8], 3),
        (3, [&one[..], &[7, 0, 0, 0]].concat(), 4),
        (4, vec![7, 0, 0, 0], 4),
        (5, [&one[..], &[7]].concat(), 3),
        (6, [&one[..], &[7; 4]].concat(), 3),
        (7, [&one[..], &[7; 8]].concat(), 3),
        (8, zero, 4),
        (9, vec![7, 0, 0, 0], 3),
        (10, vec![7; 8], 3),
    ];
    for at in [200, MANY] {
        for (kind, value, rows) in &values {
            let (grammar, record) = behind_bytes(*kind, at, value);
            let name = |what: &str| format!("kind {kind} at byte {at}{what}");
            list.add(&name(""), demarshall(&grammar, &record, ROW_WORDS * rows));
            let more = [&record[..], &[0]].concat();
            list.add(
                &name(", a byte left over"),
                demarshall(&grammar, &more, ROW_WORDS * rows),
            );
            list.add(
                &name(", a row missing"),
                demarshall(&grammar, &record, ROW_WORDS * (rows - 1)),
            );
            if *kind != 0 {
                let cut = &record[..record.len() - 1];
                list.add(
                    &name(", a byte missing"),
                    demarshall(&grammar, cut, ROW_WORDS * rows),
                );
                let cut = &record[..at];
                list.add(
                    &name(", all missing"),
                    demarshall(&grammar, cut, ROW_WORDS * rows),
                );
            }
            if matches!(kind, 3 | 8) {
                let (_, record) = behind_bytes(*kind, at, &counted(9, &[7; 4]));
                list.add(
                    &name(", count or tag 9"),
                    demarshall(&grammar, &record, ROW_WORDS * rows),
                );
            }
            let index = at;
            let alone = grammar_of(*kind);
            let mut rows = vec![99; ROW_WORDS * rows];
            rows.truncate(2 * ROW_WORDS);
            let (grammar, record) = (alone, record.clone());
            list.add(
                &name(" as the index"),
                Case::ParseVal {
                    grammar,
                    record,
                    index,
                    rows,
                },
            );
        }
    }
    for length in [256, 512, 1 << 16] {
        let name = format!("a constant and {length} bytes left over");
        list.add(
            &name,
            demarshall(&numbers::<u32>(B), &vec![0; length], ROW_WORDS),
        );
        let name = format!("a uint32 and {length} bytes left over");
        list.add(
            &name,
            demarshall(&numbers::<u32>(U32), &vec![0; length + 4], ROW_WORDS),
        );
    }
    let words = 1 << 16;
    list.add(
        "2^16 words lent",
        demarshall(&numbers::<u32>(B), &[], words),
    );
    list.add(
        "2^16 + 3 words lent",
        demarshall(&numbers::<u32>(C), &counted(3, &[]), words + 3),
    );
}

/// The grammar of a value of this kind alone, whose child is a uint32.
fn grammar_of(kind: u32) -> Vec<u32> {
    match kind {
        3 | 4 | 8 => table(&[[kind, 0, 1], [1, 0, 0]], &[1]),
        _ => table(&[[kind, 0, 0]], &[]),
    }
}

/// A union of 1,024 cases, and numbers of nodes from 128 on.
fn many_cases() -> Vec<u32> {
    let mut nodes = vec![[8, 0, 1_024]];
    nodes.resize(200, CONSTANT);
    nodes.extend([[1, 0, 0], [2, 0, 0]]);
    let mut children = [1; 1_024];
    (children[700], children[1_023]) = (200, 201);
    table(&nodes, &children)
}

/// Tags of many cases, and the nodes of their values.
fn cases_read(list: &mut List) {
    for tag in [0, 188, 200, 255, 256, 700, 956, 1_023, 1_024, 1_212] {
        let record = counted(tag, &[7, 0, 0, 0, 0, 0, 0, 0]);
        let name = format!("tag {tag} of 1,024");
        let (grammar, index, rows) = (many_cases(), 0, vec![99; 2 * ROW_WORDS]);
        list.add(
            &name,
            Case::ParseVal {
                grammar,
                record,
                index,
                rows,
            },
        );
    }
    for kind in [3, 4] {
        let mut nodes = vec![[kind, 0, 1]];
        nodes.resize(200, CONSTANT);
        nodes.push([1, 0, 0]);
        let record = match kind {
            3 => counted(1, &[7, 0, 0, 0]),
            _ => vec![7, 0, 0, 0],
        };
        let name = format!("kind {kind} of node 200");
        list.add(
            &name,
            demarshall(&table(&nodes, &[200]), &record, 2 * ROW_WORDS),
        );
    }
    for (step, add) in STEPS {
        let (grammar, record, rows) = (numbers::<u32>(U32), vec![7; 9], vec![99; ROW_WORDS]);
        let index = add as usize + 1;
        let name = format!("index {step} + 1");
        list.add(
            &name,
            Case::ParseVal {
                grammar,
                record,
                index,
                rows,
            },
        );
    }
}

/// The cases of the readers.
pub fn reading() -> Cases {
    let mut list = List::default();
    counts_read(&mut list);
    bytes_behind(&mut list);
    far_values(&mut list);
    cases_read(&mut list);
    list.0
}

fn size(rows: &[u64], n: usize, store: usize) -> Case {
    Case::ComputeSizeOf {
        rows: rows.to_vec(),
        n,
        store: vec![0x5a; store],
    }
}

fn locate(rows: &[u64], n: usize, store: usize, row: usize) -> Case {
    Case::LocateArray {
        rows: rows.to_vec(),
        n,
        store: vec![0x5a; store],
        row,
    }
}

/// The row of a constant.
const CONSTANT_ROW: Bare = [0, 1, 0, 0];

/// The rows of a value of a kind, with one child or none.
pub(super) fn sound_row(kind: u64) -> Vec<Bare> {
    match kind {
        3 | 4 => vec![[kind, 2, 1, 0], CONSTANT_ROW],
        8 => vec![[8, 2, 0, 0], CONSTANT_ROW],
        _ => vec![[kind, 1, 0, 0]],
    }
}

/// A row, and so many of another behind it.
fn repeated(first: Bare, other: Bare, times: usize) -> Vec<Bare> {
    let mut rows = vec![first];
    rows.resize(1 + times, other);
    rows
}

/// The words of a row, with their names.
const WORDS: [(usize, &str); ROW_WORDS] = [
    (0, "kind"),
    (1, "span"),
    (2, "word 2"),
    (3, "word 3"),
    (SIZE, "size"),
];

/// Each word of a row of each kind, with the low bits of a sound one.
fn row_words(list: &mut List) {
    for (step, add) in STEPS {
        for kind in 0..=10 {
            let row = sound_row(kind);
            let n = row.len();
            for (word, what) in WORDS {
                let mut other = sized(&row);
                other[word] += add;
                let name = format!("{what} of kind {kind}, {step} more");
                list.add(&name, size(&other, n, 8));
                // The same inside of a tuple, which reaches further.
                let tuple = [&[[4, n as u64 + 2, 2, 0]], &row[..], &[CONSTANT_ROW]].concat();
                let mut tuple = sized(&tuple);
                tuple[ROW_WORDS + word] += add;
                let name = format!("{what} of kind {kind} in a tuple, {step} more");
                list.add(&name, size(&tuple, n + 2, 8));
            }
        }
        for (kind, width) in [(5, 1), (6, 4), (7, 8)] {
            let mut row = sized(&[[kind, 1, 1, 0]]);
            row[2] += add;
            let name = format!("kind {kind}, count {step} + 1");
            list.add(&name, size(&row, 1, width));
        }
        let row = sized(&[CONSTANT_ROW]);
        let name = format!("n {step} + 1");
        list.add(&name, size(&row, add as usize + 1, 0));
        let array = sized(&[[5, 1, 0, 0]]);
        list.add(&name, locate(&array, add as usize + 1, 0, 0));
        let name = format!("row number {step}");
        list.add(&name, locate(&array, 1, 0, add as usize));
    }
    // 5 times the first wraps to 1, and 5 times the second, whose lowest 16 bits are 0, to 2^16.
    for (n, words) in [(0xcccc_cccc_cccc_cccd, 5), (0xcccc_cccc_cccd_0000, 1 << 16)] {
        let mut rows = sized(&[CONSTANT_ROW]);
        rows.resize(words, 9);
        list.add(&format!("n {n}, {words} words"), size(&rows, n, 0));
    }
    for kind in [5, 6, 7] {
        for (span, what) in [(2, "span 2"), (0, "span 0"), (1, "span 1")] {
            let rows = sized(&[[4, 3, 2, 0], [kind, span, 9, 0], CONSTANT_ROW]);
            let name = format!("kind {kind} with {what} and count 9 of an empty store");
            list.add(&name, size(&rows, 3, 0));
        }
    }
    let mut rows = sized(&[CONSTANT_ROW]);
    rows.resize(1 << 16, 9);
    list.add("2^16 words lent", size(&rows, 1, 0));
    list.add("2^16 words lent, n 2", size(&rows, 2, 0));
}

/// A tuple of 300 constants and one value more, which is row 301.
fn after_rows(value: &[Bare]) -> (Vec<u64>, usize) {
    let n = 301 + value.len();
    let before = repeated([4, n as u64, 301, 0], CONSTANT_ROW, 300);
    (sized(&[&before[..], value].concat()), n)
}

/// Rows from 256 on: sound, refused with 13 and with 14, and located.
fn far_rows(list: &mut List) {
    for kind in 0..=10 {
        let sound = sound_row(kind);
        let (rows, n) = after_rows(&sound);
        let name = |what: &str| format!("kind {kind} at row 301{what}");
        list.add(&name(""), size(&rows, n, 8));
        for (word, what) in &WORDS[1..] {
            let mut other = rows.clone();
            other[ROW_WORDS * 301 + word] += if *word == 1 { 1 } else { 9 };
            list.add(&name(&format!(", {what}")), size(&other, n, 8));
        }
        list.add(&name(""), locate(&rows, n, 8, 301));
        list.add(&name(", row number 45"), locate(&rows, n, 8, 45));
        list.add(&name(", row number n"), locate(&rows, n, 8, n));
        // In the middle, where it is followed by others, and as a parent that lacks a child.
        let long = repeated([kind, 301, 301, 0], CONSTANT_ROW, 300);
        let tuple = sized(&[&[[4, 303, 2, 0]], &long[..], &[CONSTANT_ROW]].concat());
        list.add(&name(", a child missing of 301"), size(&tuple, 303, 0));
    }
    let chain = (2..=300).rev().map(|span| [8, span, 300, 0]);
    let chain: Vec<Bare> = chain.chain([[11, 1, 0, 0]]).collect();
    list.add("kind 11 below 299 cases", size(&sized(&chain), 300, 0));
    for kind in [3, 4] {
        let rows = sized(&repeated([kind, 301, 300, 0], [1, 1, 7, 0], 300));
        let name = format!("300 values of kind {kind}");
        list.add(&name, size(&rows, 301, 0));
        let name = format!("300 values of kind {kind}, n 45");
        list.add(&name, size(&rows, 45, 0));
        for (step, add) in STEPS {
            let rows = sized(&[[kind, 2, add + 1, 0], CONSTANT_ROW]);
            let name = format!("kind {kind}, count {step} + 1");
            list.add(&name, size(&rows, 2, 0));
        }
    }
}

/// Children that are not what their parent says: beyond its end, missing, left over, of no rows.
fn children(list: &mut List) {
    for kind in [3, 4, 8] {
        let count = u64::from(kind != 8);
        for rows in [1, 300] {
            let n = rows as u64 + 4;
            let before = repeated([4, n, n - 2, 0], CONSTANT_ROW, rows);
            let inner = [[4, 2, 1, 0], [kind, 2, count, 0], CONSTANT_ROW];
            let rows = sized(&[&before[..], &inner].concat());
            let name = format!("kind {kind} at row {}, beyond its parent's end", n - 2);
            list.add(&name, size(&rows, n as usize, 0));
        }
    }
    for kind in 1..=10 {
        let mut child = sound_row(kind);
        child[0][1] = 0;
        let n = 1 + child.len();
        let rows = sized(&[&[[4, n as u64, 1, 0]], &child[..]].concat());
        let name = format!("kind {kind} of span 0");
        list.add(&name, size(&rows, n, 0));
    }
    for kind in [3, 4] {
        for (step, add) in STEPS {
            let rows = sized(&[[kind, 3, add + 1, 0], CONSTANT_ROW, [11, 1, 0, 0]]);
            let name = format!("kind {kind}, count {step} + 1, the second child is bad");
            list.add(&name, size(&rows, 3, 0));
        }
        let rows = repeated([kind, 302, 300, 0], CONSTANT_ROW, 300);
        let rows = [sized(&rows), vec![9; ROW_WORDS]].concat();
        let name = format!("kind {kind}, a row left over behind 300 children");
        list.add(&name, size(&rows, 302, 0));
    }
    for (number, child) in [(13, [11, 1, 0, 0]), (14, [5, 1, 9, 0])] {
        let rows = sized(&[[4, 2, 1, 0], child, CONSTANT_ROW]);
        let name = format!("the root's span below n before a child's {number}");
        list.add(&name, size(&rows, 3, 0));
    }
}

/// Arrays far behind the store's start, and long ones.
fn far_arrays(list: &mut List) {
    for (kind, width) in [(5, 1), (6, 4), (7, 8)] {
        for (at, count) in [(200, 200), (300, 300), (MANY as u64, 2), (9, MANY as u64)] {
            let row = sized(&[[kind, 1, count, at]]);
            let store = (at + count * width) as usize;
            let name = format!("kind {kind}, {count} elements at {at}");
            list.add(&name, size(&row, 1, store));
            list.add(&name, locate(&row, 1, store, 0));
            let name = format!("kind {kind}, {count} elements at {at}, a byte missing");
            list.add(&name, size(&row, 1, store - 1));
            list.add(&name, locate(&row, 1, store - 1, 0));
        }
        for (step, add) in STEPS {
            let row = sized(&[[kind, 1, 0, add]]);
            let name = format!("kind {kind} without elements at {step}");
            list.add(&name, locate(&row, 1, 8, 0));
        }
        let name = format!("kind {kind} without elements");
        list.add(&name, locate(&sized(&[[kind, 1, 0, 3]]), 1, 8, 0));
    }
}

/// The cases of the size call and of the locator.
pub fn rows() -> Cases {
    let mut list = List::default();
    row_words(&mut list);
    far_rows(&mut list);
    children(&mut list);
    far_arrays(&mut list);
    list.0
}

/// The cases of the signed number: row counts, row numbers and rows of great number.
pub fn signed() -> Cases {
    let mut list = List::default();
    let int32 = sized(&[[9, 1, 7, 0]]);
    for (step, add) in STEPS {
        let add = add as usize;
        let name = format!("n {step} + 1");
        list.add(&name, signed_number(&int32, add + 1, 0, 0));
        let name = format!("row number {step}");
        list.add(&name, signed_number(&int32, 1, 0, add));
    }
    for kind in [9, 10] {
        let (rows, n) = after_rows(&[[kind, 1, (1 << 32) - 7, 0]]);
        for row in [301, 45, 300, n] {
            let name = format!("kind {kind} at row 301, row number {row}");
            list.add(&name, signed_number(&rows, n, 0, row));
        }
        let (rows, n) = after_rows(&[[kind, 2, 7, 0]]);
        let name = format!("kind {kind} at row 301, span");
        list.add(&name, signed_number(&rows, n, 0, 45));
    }
    list.0
}

fn marshall(grammar: Vec<u32>, rows: &[Bare], store: Vec<u8>, length: usize) -> Case {
    let value = Value {
        grammar,
        rows: sized(rows),
        n: rows.len(),
        store,
    };
    value.marshall_case(vec![0xee; length])
}

/// Tags, nodes and rows of great number, and far arrays.
fn written(list: &mut List) {
    for (step, add) in STEPS {
        for tag in [0, 1] {
            let rows = [[8, 2, add + tag, 0], [tag, 1, 0, 0]];
            let name = format!("tag {step} + {tag}");
            list.add(&name, marshall(numbers(UNI), &rows, vec![], 12));
        }
        let value = small_value(U32, &[[1, 1, 7, 0]]);
        let name = format!("index {step} + 1");
        let case = value
            .clone()
            .marshall_val_case(vec![0xee; 9], add as usize + 1);
        list.add(&name, case);
        let mut value = value;
        value.n = add as usize + 1;
        let name = format!("n {step} + 1");
        list.add(&name, value.clone().marshall_val_case(vec![0xee; 4], 0));
        list.add(&name, value.marshall_case(vec![0xee; 4]));
    }
    for tag in [0, 188, 200, 255, 256, 700, 956, 1_023, 1_024, 1_212] {
        for (kind, what) in [(0, "constant"), (1, "uint32"), (2, "uint64")] {
            let rows = [[8, 2, tag, 0], [kind, 1, 0, 0]];
            let name = format!("tag {tag} of 1,024, a {what}");
            list.add(&name, marshall(many_cases(), &rows, vec![], 16));
        }
    }
    for kind in [3, 4] {
        let mut nodes = vec![[kind, 0, 1]];
        nodes.resize(200, CONSTANT);
        nodes.push([1, 0, 0]);
        let rows = [[kind.into(), 2, 1, 0], [1, 1, 7, 0]];
        let name = format!("kind {kind} of node 200");
        list.add(&name, marshall(table(&nodes, &[200]), &rows, vec![], 12));
    }
    for kind in 0..=10 {
        let value = sound_row(kind);
        let n = 301 + value.len() as u64;
        let before = repeated([4, n, 301, 0], CONSTANT_ROW, 300);
        let rows = [before, value].concat();
        let nodes = [[4, 0, 301], CONSTANT, [if kind == 1 { 2 } else { 1 }, 0, 0]];
        let children = [vec![1; 300], vec![2]].concat();
        let name = format!("kind {kind} at row 301, another is wanted");
        list.add(
            &name,
            marshall(table(&nodes, &children), &rows, vec![0; 8], 16),
        );
    }
    for (kind, width) in [(5, 1), (6, 4), (7, 8)] {
        for (at, count) in [(200, 200), (MANY as u64, 2), (9, MANY as u64)] {
            let (row, length) = ([[kind, 1, count, at]], (count * width) as usize);
            let grammar = table(&[[kind as u32, 0, 0]], &[]);
            let store = [vec![0x11; at as usize], vec![0x5a; length]].concat();
            let name = format!("kind {kind}, {count} elements at {at}");
            list.add(&name, marshall(grammar, &row, store, length + 8));
        }
    }
    let rows = repeated([3, 301, 300, 0], [1, 1, 0x0707_0707, 0], 300);
    list.add("300 elements", marshall(numbers(ARR), &rows, vec![], 1_208));
    let grammar = table(&[[4, 0, 45], [1, 0, 0]], &[1; 45]);
    let rows = repeated([4, 302, 301, 0], [1, 1, 7, 0], 301);
    list.add(
        "301 fields, 45 wanted",
        marshall(grammar, &rows, vec![], 1_204),
    );
}

/// A value of each kind, and behind it a uint32 where a constant is wanted.
fn behind_kinds(list: &mut List) {
    for before in [0, 300] {
        for kind in 0..=10 {
            let row = sound_row(kind.into());
            let count = u32::from(matches!(kind, 3 | 4 | 8));
            let fields = before as u32 + 2;
            let nodes = [[4, 0, fields], [kind, fields * count, count], CONSTANT];
            let mut children = vec![2; before];
            children.extend([1, 2, 2]);
            let n = (before + 2 + row.len()) as u64;
            let rows = repeated([4, n, fields.into(), 0], CONSTANT_ROW, before);
            let rows = [&rows[..], &row, &[[1, 1, 7, 0]]].concat();
            let name = format!("a uint32 at row {}, behind kind {kind}", n - 1);
            list.add(
                &name,
                marshall(table(&nodes, &children), &rows, vec![0; 8], 16),
            );
        }
    }
    let case = greatest_size().marshall_case(vec![0xee; 8]);
    list.add(GREATEST_SIZE, case);
}

const GREATEST_SIZE: &str = "the greatest size, 4,293,951,488";

/// The value of the greatest size.
fn greatest_size() -> Value {
    let array = [5, 1, MAX_BYTES as u64, 0];
    Value {
        grammar: table(&[[3, 0, 1], [5, 0, 0]], &[1]),
        rows: sized(&repeated([3, 4_096, 4_095, 0], array, 4_095)),
        n: 4_096,
        store: vec![0; MAX_BYTES],
    }
}

/// The cases of the writers.
pub fn writing() -> Cases {
    let mut list = List::default();
    written(&mut list);
    behind_kinds(&mut list);
    list.0
}

/// A value of one row, or of two.
fn small_value(grammar: &str, rows: &[Bare]) -> Value {
    Value {
        grammar: numbers(grammar),
        rows: sized(rows),
        n: rows.len(),
        store: vec![],
    }
}

/// The cases of preview: indices, row counts, tags, sizes and numbers of changed bytes.
pub fn preview() -> Cases {
    let mut list = List::default();
    let mut add = |name: String, value: &Value, out: Vec<u8>, index: usize| {
        list.add(&name, value.clone().preview_case(out, index));
    };
    let one = small_value(U32, &[[1, 1, 7, 0]]);
    for (step, more) in STEPS {
        let next = more as usize + 1;
        add(format!("index {step} + 1"), &one, vec![0xee; 9], next);
        let rows = Value {
            n: next,
            ..one.clone()
        };
        add(format!("n {step} + 1"), &rows, vec![0xee; 4], 0);
        let case = small_value(UNI, &[[8, 2, more + 1, 0], [1, 1, 7, 0]]);
        add(format!("tag {step} + 1"), &case, vec![0xee; 12], 0);
    }
    for count in [200, 300, 40_000, MANY] {
        let array = Value {
            store: vec![0x5a; count],
            ..small_value(BYT, &[[5, 1, count as u64, 0]])
        };
        let name = |over: &str| format!("{count} bytes over {over}");
        add(name("bytes 00"), &array, vec![0; count + 8], 0);
        let record = counted(count as u64, &vec![0x5a; count]);
        add(name("their record"), &array, record, 0);
        let held = [&vec![0; count][..], &[7, 0, 0, 0]].concat();
        add(
            format!("a uint32 at {count}, over its record"),
            &one,
            held,
            count,
        );
    }
    great_values(&mut list);
    list.0
}

/// A tag of more than 8 bits, and the greatest size.
fn great_values(list: &mut List) {
    let tagged = Value {
        grammar: many_cases(),
        ..small_value(UNI, &[[8, 2, 700, 0], [1, 1, 7, 0]])
    };
    let case = tagged.preview_case(counted(700, &[7, 0, 0, 0]), 0);
    list.add("tag 700 of 1,024, over its record", case);
    let case = greatest_size().preview_case(vec![0xee; 8], 0);
    list.add(GREATEST_SIZE, case);
}

/// Indexes and counts of the packers and unpackers.
pub fn packed() -> Cases {
    let mut list = List::default();
    for index in [200, 300, 40_000, MANY] {
        let name = format!("index {index}");
        let short: Vec<u8> = [vec![0x11; index], (1..=20).collect()].concat();
        let packed = short.clone();
        list.add(&name, Case::UnpackU32 { packed, index });
        let packed = short.clone();
        list.add(&name, Case::UnpackU64 { packed, index });
        let (packed, numbers) = (short.clone(), vec![99; 2]);
        list.add(
            &name,
            Case::UnpackU32Seq {
                packed,
                index,
                numbers,
            },
        );
        let (packed, numbers) = (short.clone(), vec![99; 2]);
        list.add(
            &name,
            Case::UnpackU64Seq {
                packed,
                index,
                numbers,
            },
        );
        let name = format!("index {index}, a byte missing");
        let packed = short[..index + 3].to_vec();
        list.add(&name, Case::UnpackU32 { packed, index });
        let packed = short[..index + 7].to_vec();
        list.add(&name, Case::UnpackU64 { packed, index });
        let name = format!("index {index}, above the length");
        let packed = short[..index - 1].to_vec();
        list.add(&name, Case::UnpackU32 { packed, index });
        let name = format!("index {index}");
        list.add(&name, pack_u32(7, index + 20, index));
        list.add(&name, pack_u64(7, index + 20, index));
        let name = format!("index {index}, no room");
        list.add(&name, pack_u32(7, index + 3, index));
        list.add(&name, pack_u64(7, index + 7, index));
    }
    for (step, add) in STEPS {
        let index = add as usize;
        let name = format!("index {step}, a number at 0");
        list.add(&name, pack_u32(7, 16, index));
        list.add(&name, pack_u64(7, 16, index));
        let (numbers, out) = (vec![7; 2], vec![0xee; 16]);
        list.add(
            &name,
            Case::PackU32Seq {
                numbers,
                out,
                index,
            },
        );
        let (numbers, out) = (vec![7; 2], vec![0xee; 16]);
        list.add(
            &name,
            Case::PackU64Seq {
                numbers,
                out,
                index,
            },
        );
        let (packed, numbers) = (vec![7; 16], vec![99; 2]);
        list.add(
            &name,
            Case::UnpackU32Seq {
                packed,
                index,
                numbers,
            },
        );
        let (packed, numbers) = (vec![7; 16], vec![99; 2]);
        list.add(
            &name,
            Case::UnpackU64Seq {
                packed,
                index,
                numbers,
            },
        );
        let name = format!("index {step} of 16 bytes");
        let packed = vec![7; 16];
        list.add(&name, Case::UnpackU32 { packed, index });
        let packed = vec![7; 16];
        list.add(&name, Case::UnpackU64 { packed, index });
    }
    for count in [300, MANY] {
        for more in [0, 1] {
            let name = format!("{count} numbers, {more} too few bytes");
            let (packed, index) = (vec![7; 4 * count - more], 0);
            let numbers = vec![99; count];
            list.add(
                &name,
                Case::UnpackU32Seq {
                    packed,
                    index,
                    numbers,
                },
            );
            let (packed, index) = (vec![7; 8 * count - more], 0);
            let numbers = vec![99; count];
            list.add(
                &name,
                Case::UnpackU64Seq {
                    packed,
                    index,
                    numbers,
                },
            );
            let (numbers, out) = (vec![0x0707_0707; count], vec![0xee; 4 * count - more]);
            list.add(
                &name,
                Case::PackU32Seq {
                    numbers,
                    out,
                    index,
                },
            );
            let (numbers, out) = (
                vec![0x0707_0707_0707_0707; count],
                vec![0xee; 8 * count - more],
            );
            list.add(
                &name,
                Case::PackU64Seq {
                    numbers,
                    out,
                    index,
                },
            );
        }
    }
    list.0
}

/// Values that differ in the higher bits of a number, of a tag, of a count.
pub fn same_route() -> Cases {
    let mut list = List::default();
    let mut add = |name: String, grammar: Vec<u32>, first: Vec<u8>, second: Vec<u8>| {
        let case = Case::SameRoute {
            grammar,
            first,
            second,
        };
        list.add(&name, case);
    };
    for (step, more) in STEPS {
        let (one, other) = (
            1u64.to_le_bytes().to_vec(),
            (1 + more).to_le_bytes().to_vec(),
        );
        let array = |number: &[u8]| counted(1, number);
        for (order, first, second) in [("", &one, &other), (", exchanged", &other, &one)] {
            let name = format!("uint64 1 and {step} + 1{order}");
            add(name, numbers(U64), first.clone(), second.clone());
            let name = format!("int64 1 and {step} + 1{order}");
            add(name, numbers(I64), first.clone(), second.clone());
            let name = format!("arrays of uint64 1 and {step} + 1{order}");
            add(name, numbers(A64), array(first), array(second));
            if more < 1 << 32 {
                let (first, second) = (&first[..4], &second[..4]);
                let name = format!("uint32 1 and {step} + 1{order}");
                add(name, numbers(U32), first.to_vec(), second.to_vec());
                let name = format!("int32 1 and {step} + 1{order}");
                add(name, numbers(I32), first.to_vec(), second.to_vec());
                let name = format!("arrays of uint32 1 and {step} + 1{order}");
                add(name, numbers(E), array(first), array(second));
            }
        }
    }
    for (first, second) in [(1, 257), (257, 1), (3, 259), (259, 3)] {
        let union = table(&[[8, 0, 600], CONSTANT], &[1; 600]);
        let name = format!("tags {first} and {second}");
        add(name, union, counted(first, &[]), counted(second, &[]));
        let name = format!("{first} and {second} constants");
        add(name, numbers(C), counted(first, &[]), counted(second, &[]));
    }
    let of = |values: &[u32]| {
        let bytes: Vec<u8> = values
            .iter()
            .flat_map(|value| value.to_le_bytes())
            .collect();
        counted(values.len() as u64, &bytes)
    };
    for (name, first, second) in [
        ("the first element differs", [1, 2], [3, 2]),
        ("the last element differs", [1, 2], [1, 3]),
        ("the elements are exchanged", [1, 2], [2, 1]),
        ("elements that are equal", [1, 2], [1, 2]),
    ] {
        for (what, grammar) in [("values", ARR), ("uint32 array", E)] {
            add(
                format!("{what}: {name}"),
                numbers(grammar),
                of(&first),
                of(&second),
            );
        }
    }
    let equal = counted(1, &[0, 1, 2, 3, 4, 5, 6, 7]);
    add(
        "uint64 arrays, equal".to_string(),
        numbers(A64),
        equal.clone(),
        equal,
    );
    let two = counted(2, &[0xff; 16]);
    add(
        "arrays of two uint64, equal".to_string(),
        numbers(A64),
        two.clone(),
        two,
    );
    let case = |number: u8| counted(1, &[number, 0, 0, 0]);
    add(
        "cases of one tag, equal".to_string(),
        numbers(UNI),
        case(1),
        case(1),
    );
    add(
        "cases of one tag that differ".to_string(),
        numbers(UNI),
        case(1),
        case(2),
    );
    let most = counted(4_095, &[]);
    add(
        "4,096 rows, equal".to_string(),
        numbers(C),
        most.clone(),
        most,
    );
    list.0
}

/// The cases of the chooser: counts of the list, and counts and tags of a record.
pub fn choosing() -> Cases {
    let mut list = List::default();
    let mut add = |name: String, words: Vec<u32>, record: Vec<u8>| {
        list.add(
            &name,
            Case::ChooseGrammar {
                list: words,
                record,
            },
        );
    };
    let constants = grammar_list(&[numbers::<u32>(B), numbers(B)]);
    for (step, more) in &STEPS[..3] {
        for (what, at) in [
            ("list count", 0),
            ("first word count", 1),
            ("last word count", 7),
        ] {
            let mut words = constants.clone();
            words[at] += *more as u32;
            add(format!("the {what} is {step} too much"), words, vec![]);
        }
    }
    // Of 257 grammars of 0 words, and of 65,537, the lowest bits count one.
    for (step, more) in &STEPS[..2] {
        let words = grammar_list(&vec![[0u32; 0]; 1 + *more as usize]);
        add(format!("{step} + 1 grammars of 0 words"), words, vec![]);
    }
    for more in [1 << 8, 40_000, 1 << 16] {
        for place in [0, 1] {
            let mut grammars = vec![numbers::<u32>(B); 2];
            grammars[place].resize(5 + more, 0);
            let name = format!("{more} words too many in grammar {place}");
            add(name, grammar_list(&grammars), vec![]);
        }
    }
    // In 32 bits the first grammar of the first list ends before word 0, whose 2 is then the word count
    // of the second, and this one ends with the list. As signed numbers the large counts are below 0.
    for words in [
        "2, 4294967294, 5",
        "1, 4294967295",
        "1, 4294967295, 1, 0 0 0, 0",
        "2, 4294967295, 5, 1, 0 0 0, 0",
        "1, 4294967294, 1, 0 0 0, 0",
        "4294967295, 5, 1, 0 0 0, 0",
    ] {
        add(format!("words {words}"), numbers(words), vec![]);
    }
    for (step, more) in STEPS {
        for (what, grammar, behind) in [
            ("byte array", BYT, 1),
            ("uint32 array", E, 4),
            ("uint64 array", A64, 8),
            ("array of constants", C, 0),
            ("array of values", ARR, 4),
            ("union", UNI, 4),
        ] {
            let name = format!("{what} whose count or tag is {step} + 1, and a uint64");
            let words = grammar_list(&[numbers::<u32>(grammar), numbers(U64)]);
            add(name, words, counted(1 + more, &vec![7; behind]));
        }
    }
    list.0
}

/// Inputs of the show program.
pub fn show() -> Vec<(String, Vec<u8>)> {
    let mut list = Vec::new();
    let mut add = |name: String, input: Vec<u8>| list.push((format!("show: {name}"), input));
    for at in [200, 300, 40_000] {
        for (kind, value) in [
            (1, vec![7, 0, 0, 0]),
            (5, counted(1, &[7])),
            (8, counted(0, &[7; 4])),
            (9, vec![0xf9, 0xff, 0xff, 0xff]),
            (10, vec![0xf9; 8]),
        ] {
            let (grammar, record) = behind_bytes(kind, at, &value);
            let name = |what: &str| format!("kind {kind} at byte {at}{what}");
            add(name(""), compare::show_input(&grammar, &record));
            let cut = &record[..record.len() - 1];
            add(name(", a byte missing"), compare::show_input(&grammar, cut));
            let more = [&record[..], &[0]].concat();
            add(
                name(", a byte left over"),
                compare::show_input(&grammar, &more),
            );
        }
    }
    let mut nodes = [CONSTANT; 256];
    nodes[200] = [11, 0, 0];
    add(
        "kind 11 at node 200".to_string(),
        compare::show_input(&table(&nodes, &[]), &[]),
    );
    for word in [1 << 8, 1 << 16, 1 << 31] {
        let name = format!("a uint32 of first {word}");
        add(
            name,
            compare::show_input(&table(&[[1, word, 0]], &[0; 512]), &[7, 0, 0, 0]),
        );
    }
    for more in [1u32 << 8, 1 << 16, 1 << 31] {
        let mut input = compare::show_input(&numbers::<u32>(U32), &[7, 0, 0, 0]);
        input[24..28].copy_from_slice(&(4 + more).to_le_bytes());
        add(format!("R is {more} too much"), input);
        let mut input = compare::show_input(&numbers::<u32>(U32), &[7, 0, 0, 0]);
        input[..4].copy_from_slice(&(5 + more).to_le_bytes());
        add(format!("W is {more} too much"), input);
    }
    let input = [&1_795u32.to_le_bytes()[..], &[0; 7_184]].concat();
    add("1,795 words 0".to_string(), input);
    let many = table(&[[4, 0, 500], [2, 0, 0]], &[1; 500]);
    add(
        "501 rows".to_string(),
        compare::show_input(&many, &[0xff; 4_000]),
    );
    list
}

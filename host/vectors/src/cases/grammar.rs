//! Grammar tables.

use compare::{doubling, Case};

use super::magnitudes;
use super::{numbers, table, Cases, List};
use super::{A, ARR, B, BYT, C, D, E, I32, I64, KIND_11, MIX, PAIR, TUP0, U32, U64, UNI};

/// Adds the check of a table.
fn check(list: &mut List, name: &str, words: &[u32]) {
    let grammar = words.to_vec();
    list.add(name, Case::CheckGrammar { grammar });
}

/// Adds the checks of listed tables.
fn check_all(list: &mut List, listed: &[(&str, &str)]) {
    for (name, words) in listed {
        check(list, name, &numbers::<u32>(words));
    }
}

const CONSTANT: [u32; 3] = [0, 0, 0];

const ACCEPTED: [(&str, &str); 21] = [
    ("example A, tuple", A),
    ("example B, constant", B),
    ("example C, array of constants", C),
    ("example D, union without cases", D),
    ("example E, array of uint32", E),
    ("uint32", U32),
    ("uint64", U64),
    ("byte array", BYT),
    ("uint64 array", "1, 7 0 0, 0"),
    ("array of uint32 values", ARR),
    ("tuple without fields", TUP0),
    ("one node used twice by one node", PAIR),
    ("union of two cases", UNI),
    ("nested", MIX),
    (
        "one child word used by two nodes",
        "3, 4 0 2, 8 1 1, 2 0 0, 2, 2 2",
    ),
    ("count 0 and first at M", "1, 4 1 0, 1, 99"),
    (
        "child words that no node uses",
        "3, 4 1 1, 3 3 1, 2 0 0, 5, 0 1 4294967295 2 3",
    ),
    ("a node that the root does not reach", "2, 0 0 0, 8 0 0, 0"),
    ("int32", I32),
    ("int64", I64),
    (
        "tuple of both signed kinds",
        "3, 4 0 2, 9 0 0, 10 0 0, 2, 1 2",
    ),
];

const REFUSED_COUNTS: [(&str, &str); 13] = [
    ("no words", ""),
    ("N 0", "0, 0"),
    ("N 0 alone", "0"),
    ("N 2^32-1", "4294967295, 0 0 0, 0"),
    ("N whose 3N+2 wraps in 32 bits", "1431655766, 0 0 0"),
    ("the word of M is missing", "1"),
    ("the last node is cut", "1, 0 0"),
    ("M's word is missing behind the nodes", "1, 0 0 0"),
    ("a child word is missing", "1, 4 0 0, 2, 7"),
    ("a word too many", "1, 0 0 0, 0, 7"),
    ("M 1,025 and no child words", "1, 0 0 0, 1025"),
    ("M 2^32-1", "1, 0 0 0, 4294967295"),
    ("M larger than the child words", "2, 4 0 1, 0 0 0, 2, 1"),
];

const REFUSED_NODES: [(&str, &str); 30] = [
    ("kind 11", KIND_11),
    ("kind 12", "1, 12 0 0, 0"),
    ("kind 256", "1, 256 0 0, 0"),
    ("kind 2^32-1", "1, 4294967295 0 0, 0"),
    (
        "kind 11 at a node that the root does not reach",
        "2, 0 0 0, 11 0 0, 0",
    ),
    ("array with count 0", "2, 3 0 0, 0 0 0, 1, 1"),
    ("array with count 2", "2, 3 0 2, 0 0 0, 2, 1 1"),
    ("array with its child at M", "2, 3 1 1, 0 0 0, 1, 1"),
    ("array with the last child word", "2, 3 1 1, 0 0 0, 2, 9 1"),
    ("constant with first 1", "1, 0 1 0, 1, 0"),
    ("constant with count 1", "2, 0 0 1, 0 0 0, 1, 1"),
    ("uint32 with first 1", "1, 1 1 0, 1, 0"),
    ("uint64 with count 1", "2, 2 0 1, 0 0 0, 1, 1"),
    ("byte array with first 1", "1, 5 1 0, 1, 0"),
    ("uint32 array with count 1", "2, 6 0 1, 0 0 0, 1, 1"),
    ("uint64 array with count 1", "2, 7 0 1, 0 0 0, 1, 1"),
    ("tuple with first+count at M", "2, 4 1 1, 0 0 0, 2, 9 1"),
    ("tuple with first+count above M", "2, 4 1 2, 0 0 0, 2, 1 1"),
    ("tuple with count 0 and first above M", "1, 4 2 0, 1, 99"),
    ("union with first+count at M", "2, 8 0 2, 0 0 0, 2, 1 1"),
    ("union with first+count above M", "2, 8 0 3, 0 0 0, 2, 1 1"),
    ("first+count wraps to 0 in 32 bits", "1, 4 4294967295 1, 0"),
    (
        "first+count wraps to 1 in 32 bits",
        "2, 8 2 4294967295, 0 0 0, 1, 1",
    ),
    ("first at fault in node 1", "3, 4 0 2, 3 2 1, 0 0 0, 2, 1 2"),
    ("count at fault in node 1", "3, 4 0 2, 7 0 1, 0 0 0, 2, 1 2"),
    ("first 2^32-1 with count 0", "1, 8 4294967295 0, 0"),
    ("int32 with count 1", "1, 9 0 1, 1, 1"),
    ("int32 with first 1", "1, 9 1 0, 1, 5"),
    ("int64 with count 1", "2, 10 0 1, 0 0 0, 1, 1"),
    ("int64 with first 1", "1, 10 1 0, 1, 5"),
];

const CHILDREN: [(&str, &str); 11] = [
    ("example F, its own child", "1, 4 0 1, 1, 0"),
    ("child below its node", "3, 0 0 0, 4 0 1, 0 0 0, 1, 0"),
    ("child that is its node", "3, 0 0 0, 4 0 1, 0 0 0, 1, 1"),
    (
        "child that is the next node",
        "3, 0 0 0, 4 0 1, 0 0 0, 1, 2",
    ),
    ("child number N", "3, 0 0 0, 4 0 1, 0 0 0, 1, 3"),
    ("child number 2^32-1", "2, 8 0 1, 0 0 0, 1, 4294967295"),
    (
        "child number 257, whose low byte is 1",
        "2, 3 0 1, 0 0 0, 1, 257",
    ),
    ("the second child is bad", "2, 4 1 3, 0 0 0, 4, 0 1 2 1"),
    (
        "the first of two bad children",
        "3, 4 0 2, 0 0 0, 0 0 0, 2, 3 0",
    ),
    (
        "good for node 0, bad for node 1",
        "3, 4 0 1, 4 0 1, 0 0 0, 1, 1",
    ),
    (
        "the earlier node's bad child, in a later word",
        "3, 4 1 1, 4 0 1, 0 0 0, 2, 0 0",
    ),
];

const ORDER: [(&str, &str); 20] = [
    ("1 before 2", "257, 0 0 0"),
    ("1 before 3", "0, 11 0 0, 0"),
    ("1 before 2 and 3", "257, 11 0 0"),
    ("1 before 4", "0, 3 0 0, 0"),
    ("1 before 5", "0, 4 0 1, 1, 0"),
    ("2 before 3", "1, 11 0 0, 5"),
    ("2 before 4", "1, 3 0 0, 0, 0"),
    ("2 before 5", "1, 4 0 1, 1"),
    ("3 before 4 at one node", "1, 11 7 7, 0"),
    ("3 before 5 at one node", "1, 11 0 1, 1, 0"),
    ("4 before 5 at one node", "2, 4 0 3, 0 0 0, 2, 0 0"),
    ("4 of a kind's rule before 5", "1, 3 0 2, 2, 0 0"),
    ("3 of node 0 before 3 of node 1", "2, 11 0 0, 12 0 0, 0"),
    ("3 of node 0 before 4 of node 1", "2, 11 0 0, 1 1 0, 1, 0"),
    ("3 of node 0 before 5 of node 1", "2, 11 0 0, 4 0 1, 1, 0"),
    ("4 of node 0 before 3 of node 1", "2, 3 0 0, 11 0 0, 0"),
    ("4 of node 0 before 5 of node 1", "2, 3 0 0, 4 0 1, 1, 0"),
    ("5 of node 0 before 3 of node 1", "2, 4 0 1, 11 0 0, 1, 0"),
    ("5 of node 0 before 4 of node 1", "2, 4 0 1, 1 1 0, 1, 0"),
    ("5 of node 0 before 5 of node 1", "2, 4 0 1, 4 0 1, 1, 0"),
];

/// The largest tables, and those beyond a limit.
fn limits(list: &mut List) {
    check(list, "example F, N 256", &table(&[CONSTANT; 256], &[]));
    check(list, "example F, N 257", &table(&[CONSTANT; 257], &[]));
    check(list, "M 1,024", &table(&[CONSTANT], &[9; 1_024]));
    check(list, "M 1,025", &table(&[CONSTANT], &[9; 1_025]));
    let largest = table(&[CONSTANT; 256], &[0; 1_024]);
    check(list, "1,794 words", &largest);
    check(list, "1,793 words, one missing", &largest[..1_793]);
    check(
        list,
        "1,795 words, one too many",
        &[&largest[..], &[0]].concat(),
    );
    check(
        list,
        "a tuple of 1,024 fields",
        &table(&[[4, 0, 1_024], CONSTANT], &[1; 1_024]),
    );
    check(
        list,
        "a union of 1,024 cases",
        &table(&[[8, 0, 1_024], CONSTANT], &[1; 1_024]),
    );
    check(
        list,
        "first+count 1,025",
        &table(&[[4, 1, 1_024], CONSTANT], &[1; 1_024]),
    );
    check(
        list,
        "first 1,024 with count 0",
        &table(&[[8, 1_024, 0], CONSTANT], &[1; 1_024]),
    );
    check(list, "a tree of 2^255 leaves", &doubling(256, 0));
    check(list, "256 levels of arrays", &compare::chain(3));
}

/// Faults at the end of the largest tables.
fn last_words(list: &mut List) {
    let mut nodes = [CONSTANT; 256];
    nodes[255][0] = 11;
    check(list, "kind 11 at node 255", &table(&nodes, &[]));
    let mut nodes = [CONSTANT; 256];
    nodes[254] = [3, 1_023, 1];
    let mut children = [0; 1_024];
    children[1_023] = 255;
    check(
        list,
        "node 255 as the last child word",
        &table(&nodes, &children),
    );
    children[1_023] = 256;
    check(list, "child number 256 of N 256", &table(&nodes, &children));
    nodes[254] = CONSTANT;
    nodes[255] = [4, 1_023, 1];
    check(
        list,
        "the last node can have no child",
        &table(&nodes, &children),
    );
}

/// The cases of the grammar check.
pub fn grammar() -> Cases {
    let mut list = List::default();
    check_all(&mut list, &ACCEPTED);
    check_all(&mut list, &REFUSED_COUNTS);
    check_all(&mut list, &REFUSED_NODES);
    check_all(&mut list, &CHILDREN);
    check_all(&mut list, &ORDER);
    limits(&mut list);
    last_words(&mut list);
    list.0.extend(magnitudes::grammar());
    list.0
}

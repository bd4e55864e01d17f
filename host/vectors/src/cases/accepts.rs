//! Yes or no.

use std::collections::{BTreeSet, HashSet};

use compare::{chain, doubling, grammars_of, of_length, Case, Table};

use super::{choosing, counted, hex, numbers, table, Cases, List, MAX_BYTES, REFUSED_GRAMMARS};
use super::{A, A64, ARR, A_RECORD, B, BYT, C, D, E, I32, I64, MIX, MIX_RECORD, NUMBERS, PAIR};
use super::{TUP0, U32, U64, UNI};

/// Adds a record under a grammar that is words.
fn add_words(list: &mut List, name: &str, grammar: Vec<u32>, record: &[u8]) {
    let record = record.to_vec();
    list.add(name, Case::Accepts { grammar, record });
}

/// Adds a record under a grammar.
fn add(list: &mut List, name: &str, grammar: &str, record: &[u8]) {
    add_words(list, name, numbers(grammar), record);
}

/// Adds the first bytes of a record, or the record with zeros behind it, of each of these lengths.
fn add_lengths(
    list: &mut List,
    name: &str,
    grammar: &[u32],
    record: &[u8],
    lengths: impl IntoIterator<Item = usize>,
) {
    for length in lengths {
        let mut bytes = record.to_vec();
        bytes.resize(length, 0);
        let name = format!("{name}, {length} bytes");
        add_words(list, &name, grammar.to_vec(), &bytes);
    }
}

/// The lengths around a least length, and none.
fn around(least: usize) -> BTreeSet<usize> {
    BTreeSet::from([0, least.saturating_sub(1), least, least + 1])
}

/// An array of unions without cases.
const ARRAY_OF_D: &str = "2, 3 0 1, 8 0 0, 1, 1";
/// A tuple of a uint32 and a union without cases.
const WITH_D: &str = "3, 4 0 2, 1 0 0, 8 0 0, 2, 1 2";
/// A union of a union without cases, a uint32 and a uint64.
const UNION_OF_D: &str = "4, 8 0 3, 8 0 0, 1 0 0, 2 0 0, 3, 1 2 3";

/// Examples A to D and others: name, grammar and record.
const EXAMPLES: [(&str, &str, &str); 30] = [
    ("example A", A, A_RECORD),
    (
        "example A, its first 13 bytes",
        A,
        "07000000 0200000000000000 41",
    ),
    (
        "example A, its first 12 bytes, the least length",
        A,
        "07000000 0200000000000000",
    ),
    (
        "example A, its first 11 bytes",
        A,
        "07000000 02000000000000",
    ),
    ("example A, no bytes", A, ""),
    (
        "example A and a byte more",
        A,
        "07000000 0200000000000000 4142 00",
    ),
    (
        "example A, an accepted record of the least length",
        A,
        "07000000 0000000000000000",
    ),
    ("example B", B, ""),
    ("example B, a byte", B, "00"),
    ("example C", C, "0300000000000000"),
    ("example C, 4,096 rows", C, "FF0F000000000000"),
    ("example C, 4,097 rows", C, "0010000000000000"),
    ("example C, 7 bytes", C, "03000000000000"),
    ("example C, 1,024 rows", C, "FF03000000000000"),
    ("example C, 1,025 rows", C, "0004000000000000"),
    ("example D", D, "0000000000000000"),
    ("example D, no bytes", D, ""),
    (
        "array of example D, count 0",
        ARRAY_OF_D,
        "0000000000000000",
    ),
    (
        "array of example D, count 1",
        ARRAY_OF_D,
        "0100000000000000",
    ),
    ("uint32 and example D", WITH_D, "00000000 0000000000000000"),
    (
        "union of example D, uint32 and uint64, 11 bytes",
        UNION_OF_D,
        "0000000000000000 000000",
    ),
    (
        "union of example D, uint32 and uint64, tag 0",
        UNION_OF_D,
        "0000000000000000 00000000",
    ),
    (
        "union of example D, uint32 and uint64, tag 1",
        UNION_OF_D,
        "0100000000000000 09000000",
    ),
    (
        "union of example D, uint32 and uint64, tag 2 and 4 bytes",
        UNION_OF_D,
        "0200000000000000 09000000",
    ),
    (
        "union of example D, uint32 and uint64, tag 3",
        UNION_OF_D,
        "0300000000000000 09000000",
    ),
    (
        "union of constant and uint32, 7 bytes 00",
        UNI,
        "00000000000000",
    ),
    (
        "union of constant and uint32, 8 bytes 00",
        UNI,
        "0000000000000000",
    ),
    ("uint32, 3 bytes 00", U32, "000000"),
    ("int64, 7 bytes 00", I64, "00000000000000"),
    ("int64, 8 bytes 00", I64, "0000000000000000"),
];

/// The listed examples, and the largest sums and records among them.
fn examples(list: &mut List) {
    for (name, grammar, record) in EXAMPLES {
        add(list, name, grammar, &hex(record));
    }
    let longest = vec![0; MAX_BYTES];
    let name = "20 nodes, each the next twice, and a uint64, 1,048,576 bytes";
    add_words(list, name, doubling(20, 2), &longest);
    let name = "20 nodes, each the next twice, and a uint64, no bytes";
    add_words(list, name, doubling(20, 2), &[]);
    let name = "13 nodes, each the next twice, and a constant, no bytes";
    add_words(list, name, doubling(13, 0), &[]);
    for (bytes, length) in [("1,048,576", MAX_BYTES), ("1,048,577", MAX_BYTES + 1)] {
        let record = counted(length as u64 - 8, &vec![0; length - 8]);
        add(list, &format!("byte array, {bytes} bytes"), BYT, &record);
        let name = format!("byte array, {bytes} bytes 00");
        add(list, &name, BYT, &vec![0; length]);
    }
    add(
        list,
        "no words, 1,048,577 bytes",
        "",
        &vec![0; MAX_BYTES + 1],
    );
}

/// Each kind: a table, and an accepted record of its least length.
fn kinds() -> [(&'static str, Table, Vec<u8>); 11] {
    let leaf = |kind| Table {
        nodes: vec![[kind, 0, 0]],
        children: vec![],
    };
    [
        ("constant", leaf(0), vec![]),
        ("uint32", leaf(1), vec![7; 4]),
        ("uint64", leaf(2), vec![7; 8]),
        ("array of uint64", leaf(2).below(3, &[0]), counted(0, &[])),
        ("tuple of two uint32", leaf(1).below(4, &[0, 0]), vec![7; 8]),
        ("byte array", leaf(5), counted(0, &[])),
        ("uint32 array", leaf(6), counted(0, &[])),
        ("uint64 array", leaf(7), counted(0, &[])),
        (
            "union of uint32",
            leaf(1).below(8, &[0]),
            counted(0, &[7; 4]),
        ),
        ("int32", leaf(9), vec![7; 4]),
        ("int64", leaf(10), vec![7; 8]),
    ]
}

/// Each kind at the edge of its least length: as the root, as a field behind another and before
/// another, as a case, as a case that is the shortest but not the first, and as the type of an array's
/// elements.
fn each_kind(list: &mut List) {
    for (kind, table, record) in kinds() {
        let (least, grammar) = (record.len(), table.words());
        add_lengths(list, kind, &grammar, &record, around(least));
        // A uint32 as the last node, beside the kind.
        let mut beside = table.clone();
        beside.nodes.push([1, 0, 0]);
        let last = beside.nodes.len() - 1;
        let number = vec![8; 4];
        let field = beside.clone().below(4, &[0, last]).words();
        let both = [&record[..], &number].concat();
        let name = format!("a tuple of {kind} and a uint32 behind it");
        add_lengths(list, &name, &field, &both, around(least + 4));
        let field = beside.clone().below(4, &[last, 0]).words();
        let both = [&number[..], &record].concat();
        let name = format!("a tuple of {kind} and a uint32 before it");
        add_lengths(list, &name, &field, &both, around(least + 4));
        let case = table.clone().below(8, &[0]).words();
        let name = format!("a union of {kind}");
        add_lengths(list, &name, &case, &counted(0, &record), around(8 + least));
        // Tag 1 is the kind; the others have more bytes.
        let mut longer = table.clone();
        longer.nodes.push([4, longer.children.len() as u32, 3]);
        longer.nodes.push([2, 0, 0]);
        let count = longer.nodes.len();
        longer.children.extend([count as u32 - 1; 3]);
        let union = longer.below(8, &[count - 2, 0, count - 2]).words();
        let name = format!("a union of {kind} between longer ones");
        add_lengths(list, &name, &union, &counted(1, &record), around(8 + least));
        let array = table.below(3, &[0]).words();
        let name = format!("an array of {kind}");
        add_lengths(list, &name, &array, &counted(0, &[]), around(8));
        let one = counted(1, &record);
        add_words(list, &format!("{name}, count 1"), array, &one);
    }
}

/// Tuples and unions with a part that has no value at each of three places, or with the shortest there,
/// and a union whose shortest case is among longer ones of two lengths.
fn parts(list: &mut List) {
    let nodes = |root| [root, [8, 0, 0], [1, 0, 0], [2, 0, 0]];
    let (none, short, long) = (1, 2, 3);
    for (what, parts) in [
        ("none, 4 and 8", [none, short, long]),
        ("none, 8 and 4", [none, long, short]),
        ("4, none and 8", [short, none, long]),
        ("8, none and 4", [long, none, short]),
        ("4, 8 and none", [short, long, none]),
        ("8, 4 and none", [long, short, none]),
        ("4, 4 and 8", [short, short, long]),
        ("4, 8 and 8", [short, long, long]),
        ("8, 4 and 8", [long, short, long]),
        ("8, 8 and 4", [long, long, short]),
        ("8, 8 and 8", [long, long, long]),
        ("none, none and 4", [none, none, short]),
        ("none, 4 and none", [none, short, none]),
        ("4, none and none", [short, none, none]),
        ("none three times", [none, none, none]),
    ] {
        let length = |part: &u32| [0, 0, 4, 8][*part as usize];
        let sum: usize = parts.iter().map(length).sum();
        let tuple = table(&nodes([4, 0, 3]), &parts);
        let name = format!("a tuple of {what}");
        let lengths = if sum == 0 { [0, 8].into() } else { around(sum) };
        add_lengths(list, &name, &tuple, &[], lengths);
        let union = table(&nodes([8, 0, 3]), &parts);
        let name = format!("a union of {what}");
        let of_value = parts.iter().filter(|&&part| part != none);
        let least = of_value.map(length).min();
        for tag in 0..3 {
            let record = counted(tag, &[]);
            let name = format!("{name}, tag {tag}");
            let lengths = match least {
                Some(least) => vec![8 + least - 1, 8 + least],
                None => vec![8, 20],
            };
            add_lengths(list, &name, &union, &record, lengths);
        }
    }
    let nodes = [[8, 0, 6], [0, 0, 0], [1, 0, 0], [2, 0, 0]];
    let union = table(&nodes, &[3, 2, 3, 1, 3, 2]);
    let name = "a union of 8, 4, 8, 0, 8 and 4, tag 3";
    add_lengths(list, name, &union, &counted(3, &[]), [8]);
}

/// Parts that have no value, at each depth: in a union that has no other case, in one that has, in a
/// tuple and in an array, and where the root does not reach them.
const DEPTHS: [(&str, &str, &str); 18] = [
    (
        "a union of a union without cases",
        "2, 8 0 1, 8 0 0, 1, 1",
        "00000000000000000000000000000000",
    ),
    (
        "a union without cases whose first is 1",
        "2, 8 1 0, 1 0 0, 1, 1",
        "0000000000000000",
    ),
    (
        "a tuple of one field without a value",
        "2, 4 0 1, 8 0 0, 1, 1",
        "0000000000000000",
    ),
    (
        "a tuple without fields whose first is 1",
        "2, 4 1 0, 8 0 0, 1, 1",
        "",
    ),
    (
        "a union of a tuple without a value",
        "4, 8 0 1, 4 1 2, 1 0 0, 8 0 0, 3, 1 2 3",
        "0000000000000000 00000000 0000000000000000",
    ),
    (
        "a union of a tuple without a value and a constant, tag 1",
        "5, 8 0 2, 4 2 2, 0 0 0, 1 0 0, 8 0 0, 4, 1 2 3 4",
        "0100000000000000",
    ),
    (
        "a union of a tuple without a value and a constant, tag 0",
        "5, 8 0 2, 4 2 2, 0 0 0, 1 0 0, 8 0 0, 4, 1 2 3 4",
        "0000000000000000",
    ),
    (
        "a tuple of an array of values that do not exist, and a uint32",
        "4, 4 0 2, 3 2 1, 1 0 0, 8 0 0, 3, 1 2 3",
        "0000000000000000 07000000",
    ),
    (
        "a tuple of an array of values that do not exist, and a uint32, 11 bytes",
        "4, 4 0 2, 3 2 1, 1 0 0, 8 0 0, 3, 1 2 3",
        "0000000000000000 070000",
    ),
    (
        "an array of arrays of values that do not exist",
        "3, 3 0 1, 3 1 1, 8 0 0, 2, 1 2",
        "0200000000000000 0000000000000000 0000000000000000",
    ),
    (
        "an array of tuples without a value",
        "4, 3 0 1, 4 1 2, 1 0 0, 8 0 0, 3, 1 2 3",
        "0000000000000000",
    ),
    (
        "a union of an array of values that do not exist",
        "3, 8 0 1, 3 1 1, 8 0 0, 2, 1 2",
        "0000000000000000 0000000000000000",
    ),
    (
        "a union of an array of values that do not exist, 15 bytes",
        "3, 8 0 1, 3 1 1, 8 0 0, 2, 1 2",
        "0000000000000000 00000000000000",
    ),
    (
        "a uint32 before a union without cases that it does not reach",
        "2, 1 0 0, 8 0 0, 0",
        "07000000",
    ),
    (
        "a uint32 before a long tuple that it does not reach",
        "3, 1 0 0, 4 0 2, 2 0 0, 2, 2 2",
        "07000000",
    ),
    (
        "a tuple of the last of three nodes, the second without a value",
        "3, 4 0 1, 8 0 0, 1 0 0, 1, 2",
        "07000000",
    ),
    (
        "a tuple whose child words are in another order than the nodes",
        "4, 4 0 3, 1 0 0, 8 3 1, 2 0 0, 4, 3 2 1 1",
        "0700000000000000 0000000000000000 08000000 09000000",
    ),
    (
        "a tuple whose child words are in another order than the nodes, 23 bytes",
        "4, 4 0 3, 1 0 0, 8 3 1, 2 0 0, 4, 3 2 1 3",
        "0700000000000000 0000000000000000 08000000 090000",
    ),
];

/// A table of 256 nodes, each but the last of this kind with the next as its one child, and a union
/// without cases.
fn chain_without_value(kind: u32) -> Vec<u32> {
    let mut words = chain(kind);
    words[1 + 3 * 255] = 8;
    words
}

/// Parts that have no value at each depth, and the deepest grammars.
fn depths(list: &mut List) {
    for (name, grammar, record) in DEPTHS {
        add(list, name, grammar, &hex(record));
    }
    for (levels, kind, own, least) in [
        ("arrays", 3, counted(1, &[]), 8),
        ("tuples", 4, vec![], 4),
        ("unions", 8, counted(0, &[]), 255 * 8 + 4),
    ] {
        let record = [own.repeat(255), vec![7, 0, 0, 0]].concat();
        let name = format!("256 levels of {levels} and a uint32");
        let lengths = [least - 1, least, record.len() - 1, record.len()];
        add_lengths(list, &name, &chain(kind), &record, BTreeSet::from(lengths));
        let name = format!("256 levels of {levels} and a union without cases");
        let lengths = [0, 8, 255 * 8, 256 * 8];
        let grammar = chain_without_value(kind);
        let zeros = counted(u64::from(kind == 3), &own.repeat(255));
        add_lengths(list, &name, &grammar, &zeros, lengths);
    }
    add_lengths(
        list,
        "256 levels of arrays and a union without cases, count 0",
        &chain_without_value(3),
        &[],
        [8],
    );
    // The root's one field is the last of 256 nodes, and nodes between them have no value.
    let mut nodes = vec![[8, 0, 0]; 256];
    nodes[0] = [4, 0, 1];
    nodes[255] = [2, 0, 0];
    let grammar = table(&nodes, &[255]);
    let name = "a tuple of node 255, a uint64";
    add_lengths(list, name, &grammar, &[7; 8], around(8));
    // 1,024 fields, and 1,024 cases of which the last alone has a value or is the shortest.
    let fields = table(&[[4, 0, 1_024], [1, 0, 0]], &[1; 1_024]);
    let name = "a tuple of 1,024 uint32";
    add_lengths(list, name, &fields, &[7; 4_096], around(4_096));
    for (other, what) in [(8, "unions without cases"), (2, "uint64")] {
        let cases = [vec![1; 1_023], vec![2]].concat();
        let union = table(&[[8, 0, 1_024], [other, 0, 0], [1, 0, 0]], &cases);
        let name = format!("a union of 1,023 {what} and a uint32");
        add_lengths(list, &name, &union, &counted(1_023, &[7; 4]), [11, 12]);
        let fields = table(&[[4, 0, 1_024], [other, 0, 0], [1, 0, 0]], &cases);
        let name = format!("a tuple of 1,023 {what} and a uint32");
        add_lengths(list, &name, &fields, &[], [4_096, 8_187, 8_188]);
    }
    let nodes = [[4, 0, 1_024], [0, 0, 0], [8, 0, 0]];
    let fields = table(&nodes, &[vec![1; 1_023], vec![2]].concat());
    let name = "a tuple of 1,023 constants and a union without cases";
    add_lengths(list, name, &fields, &[], [0]);
    // The child words before the first are those of a constant.
    let children = [vec![1; 512], vec![2]].concat();
    for (what, kind, length) in [("tuple", 4, 3), ("union", 8, 8)] {
        let grammar = table(&[[kind, 512, 1], [0, 0, 0], [1, 0, 0]], &children);
        let name = format!("a {what} of a uint32 whose first is 512");
        add_lengths(list, &name, &grammar, &[], [length]);
    }
    let mut grammar = chain(4);
    grammar[1 + 3 * 255..][..3].copy_from_slice(&[4, 255, 0]);
    let name = "256 levels of tuples, the last without fields";
    add_lengths(list, name, &grammar, &[], [0]);
}

/// Sums near powers of two, of a tuple, of a union of it and of a union of that, sums that no number of
/// 32 or of 64 bits holds, and an array of values that are too long.
fn sums(list: &mut List) {
    for power in [1usize << 7, 1 << 8, 1 << 15, 1 << 16] {
        for bytes in [power - 4, power, power + 4] {
            let grammar = of_length(bytes as u32);
            let name = format!("a tuple of {bytes} bytes");
            let wrapped = bytes.saturating_sub(power);
            let lengths = [wrapped, bytes - 1, bytes];
            add_lengths(list, &name, &grammar.words(), &[], lengths);
            let union = grammar.below(8, &[0]);
            let name = format!("a union of a tuple of {bytes} bytes");
            add_lengths(list, &name, &union.words(), &[], [bytes + 7, bytes + 8]);
        }
    }
    for more in [-16, -12, -8, -4, 0, 4, 8, 16] {
        let bytes = (MAX_BYTES as i64 + more) as u32;
        let tuple = of_length(bytes);
        let union = tuple.clone().below(8, &[0]);
        let unions = union.clone().below(8, &[0]);
        for (what, grammar) in [
            ("a tuple", tuple),
            ("a union of a tuple", union),
            ("a union of a union of a tuple", unions),
        ] {
            let name = format!("{what} of {bytes} bytes");
            add_lengths(list, &name, &grammar.words(), &[], [MAX_BYTES]);
        }
    }
    // The first field is as long as a sum may be; what is added stays at the limit, or has no value.
    let long = of_length(1 << 21);
    let count = long.nodes.len();
    for (what, kind) in [("uint64", 2), ("constant", 0), ("union without cases", 8)] {
        let mut nodes = long.clone();
        nodes.nodes.push([kind, 0, 0]);
        for (place, fields) in [("behind", [0, count]), ("before", [count, 0])] {
            let tuple = nodes.clone().below(4, &fields).words();
            let name = format!("{what} {place} a tuple of 2,097,152 bytes");
            add_lengths(list, &name, &tuple, &[], [0, MAX_BYTES]);
            let union = nodes.clone().below(8, &fields).words();
            let name = format!("a union of {what}, {place} a tuple of 2,097,152 bytes");
            let tag = u64::from(place == "behind");
            add_lengths(list, &name, &union, &counted(tag, &[]), [7, 8, 16]);
        }
    }
    let fields = long.below(4, &[0; 1_000]);
    let name = "a tuple of 1,000 tuples of 2,097,152 bytes";
    add_lengths(list, name, &fields.words(), &[], [0, 8, MAX_BYTES]);
    for (kind, what) in [
        (1, "uint32"),
        (2, "uint64"),
        (5, "byte array"),
        (8, "union without cases"),
    ] {
        for nodes in [19, 29, 30, 31, 32, 61, 62, 63, 64, 65, 128, 255, 256] {
            let name = format!("{nodes} nodes, each the next twice, and a {what}");
            add_lengths(list, &name, &doubling(nodes, kind), &[], [0]);
        }
    }
    for nodes in [11, 12, 14, 32, 33, 64, 65, 256] {
        let name = format!("{nodes} nodes, each the next twice, and a constant");
        add_lengths(list, &name, &doubling(nodes, 0), &[], [0, 1]);
    }
    for nodes in [17, 18, 19] {
        for (kind, what) in [(1, "uint32"), (2, "uint64")] {
            let name = format!("{nodes} nodes, each the next twice, and a {what}");
            add_lengths(list, &name, &doubling(nodes, kind), &[], [MAX_BYTES]);
        }
    }
    let tuples = (0..19).map(|k| [4, 1 + 2 * k, 2]);
    let nodes: Vec<[u32; 3]> = [[3, 0, 1]]
        .into_iter()
        .chain(tuples)
        .chain([[2, 0, 0]])
        .collect();
    let twice = (2..=20).flat_map(|k| [k, k]);
    let children: Vec<u32> = [1].into_iter().chain(twice).collect();
    let name = "an array of values of 4,194,304 bytes, count 0";
    add_lengths(list, name, &table(&nodes, &children), &[], [8]);
}

/// Records of every length: of a record with unions and an array, of numbers of each width, and of arrays
/// of values.
fn lengths(list: &mut List) {
    let mix = hex(MIX_RECORD);
    add_lengths(list, "MIX", &numbers::<u32>(MIX), &mix, 0..=mix.len() + 1);
    let of_numbers: Vec<u8> = (1..=24).collect();
    let grammar = numbers::<u32>(NUMBERS);
    let name = "numbers of each width";
    add_lengths(
        list,
        name,
        &grammar,
        &of_numbers,
        [0, 4, 12, 16, 22, 23, 24, 25, 32],
    );
    let name = "two uint32";
    add_lengths(list, name, &numbers::<u32>(PAIR), &of_numbers, 0..=9);
    let record = counted(1, &[7; 4]);
    add_lengths(
        list,
        "union of constant and uint32, tag 1",
        &numbers::<u32>(UNI),
        &record,
        7..=13,
    );
    let record = counted(3, &[7; 12]);
    add_lengths(
        list,
        "three elements",
        &numbers::<u32>(ARR),
        &record,
        7..=21,
    );
    for (what, grammar, width) in [("uint32", E, 4), ("uint64", A64, 8), ("bytes", BYT, 1)] {
        let record = counted(2, &vec![7; 2 * width]);
        let (name, end) = (format!("two elements, {what}"), record.len());
        add_lengths(
            list,
            &name,
            &numbers::<u32>(grammar),
            &record,
            [7, 8, end - 1, end, end + 1],
        );
    }
    for (what, grammar) in [
        ("tuple without fields", TUP0),
        ("int32", I32),
        ("int64", I64),
    ] {
        add(list, &format!("{what}, 16 bytes"), grammar, &[7; 16]);
    }
}

/// Elements that are missing, before a constant and in an array of values, and the most rows behind
/// fields that are arrays and signed numbers.
fn elements(list: &mut List) {
    let before_constant = |kind| table(&[[4, 0, 2], [kind, 0, 0], [0, 0, 0]], &[1, 2]);
    for (what, kind, width) in [("byte", 5, 1), ("uint32", 6, 4), ("uint64", 7, 8)] {
        let record = counted(1, &vec![0; width - 1]);
        let name = format!("a {what} array whose element lacks a byte, before a constant");
        add_words(list, &name, before_constant(kind), &record);
    }
    let name = "a byte array of 2^32 elements that are missing, before a constant";
    add_words(list, name, before_constant(5), &counted(1 << 32, &[]));
    let array_of = |kind| table(&[[3, 0, 1], [kind, 0, 0]], &[1]);
    for (what, kind, width) in [("uint64", 2, 8), ("int32", 9, 4), ("int64", 10, 8)] {
        let record = counted(3, &vec![0; width]);
        let name = format!("an array of {what}, count 3, one element there");
        add_words(list, &name, array_of(kind), &record);
    }
    for (what, kind) in [("uint32", 6), ("uint64", 7)] {
        let name = format!("an array of {what} arrays, count 1, no element there");
        add_words(list, &name, array_of(kind), &counted(1, &[]));
    }
    let grammar = "8, 4 0 6, 5 0 0, 6 0 0, 7 0 0, 9 0 0, 10 0 0, 3 6 1, 0 0 0, 7, 1 2 3 4 5 6 7";
    for (rows, constants) in [("4,096", 4_089), ("4,097", 4_090)] {
        let record = [vec![0; 36], counted(constants, &[])].concat();
        let name = format!("constants behind three arrays, an int32 and an int64, {rows} rows");
        add(list, &name, grammar, &record);
    }
}

/// Records that are too long: under grammars that would accept them, or their first bytes, and under
/// others.
fn too_long(list: &mut List) {
    for (what, grammar) in [
        ("constant", B),
        ("example D", D),
        ("uint32", U32),
        ("uint64", U64),
        ("array of constants", C),
        ("example A", A),
        ("union", UNI),
    ] {
        for (bytes, length) in [("1,048,576", MAX_BYTES), ("1,048,577", MAX_BYTES + 1)] {
            let name = format!("{what}, {bytes} bytes 00");
            add(list, &name, grammar, &vec![0; length]);
        }
    }
    for (bytes, length) in [("1,114,112", 1_114_112), ("2,097,160", 2_097_160)] {
        let record = counted(length as u64 - 8, &vec![0; length - 8]);
        add(list, &format!("byte array, {bytes} bytes"), BYT, &record);
    }
    let name = "20 nodes, each the next twice, and a uint64, 1,048,577 bytes";
    add_words(list, name, doubling(20, 2), &vec![0; MAX_BYTES + 1]);
}

/// Grammars that are refused, under records that would be too short, too long, read and refused, or
/// accepted if the fault were not there; among them a constant with both words wrong, and child words
/// that have the lowest 8, 16 or 31 bits of the one of example C.
fn refused_grammars(list: &mut List) {
    for (number, grammar) in REFUSED_GRAMMARS {
        for (what, length) in [
            ("no bytes", 0),
            ("4 bytes", 4),
            ("1,048,576 bytes", MAX_BYTES),
            ("1,048,577 bytes", MAX_BYTES + 1),
        ] {
            let name = format!("{number} of the grammar, {what}");
            add(list, &name, grammar, &vec![0; length]);
        }
    }
    for (number, grammar) in [
        (2, "2, 8 0 0, 1 0 0, 0, 0"),
        (3, "2, 8 0 0, 11 0 0, 0"),
        (4, "2, 8 0 0, 1 1 0, 1, 0"),
        (5, "2, 8 0 0, 4 0 1, 1, 1"),
    ] {
        let name = format!("{number} behind a root without cases");
        add(list, &name, grammar, &[]);
    }
    for (number, grammar) in [
        (3, "2, 1 0 0, 11 0 0, 0"),
        (4, "2, 1 0 0, 1 1 0, 1, 0"),
        (5, "2, 1 0 0, 4 0 1, 1, 1"),
    ] {
        for (what, length) in [("too short", 3), ("accepted", 4)] {
            let name = format!("{number} behind a uint32, a record that would be {what}");
            add(list, &name, grammar, &vec![0; length]);
        }
    }
    let name = "a constant with first 1 and count 1, no bytes";
    add(list, name, "1, 0 1 1, 2, 0 0", &[]);
    for (what, child) in [
        ("2^8 + 1", 257),
        ("2^16 + 1", 65_537),
        ("2^31 + 1", 2_147_483_649),
    ] {
        let grammar = table(&[[3, 0, 1], [0, 0, 0]], &[child]);
        let name = format!("an array with child {what} of 2 nodes, no bytes");
        add_words(list, &name, grammar, &[]);
    }
}

/// Each grammar of the chooser's lists with its record.
fn tries(list: &mut List) {
    for (name, case) in choosing() {
        let Case::ChooseGrammar {
            list: words,
            record,
        } = case
        else {
            continue;
        };
        let name = name.trim_start_matches("choose_grammar: ");
        let grammars = grammars_of(&words).unwrap_or_default();
        for (place, grammar) in grammars.into_iter().enumerate() {
            add_words(list, &format!("{name}, grammar {place}"), grammar, &record);
        }
    }
}

/// The cases of yes or no, each once.
pub fn accepts() -> Cases {
    let mut list = List::default();
    examples(&mut list);
    each_kind(&mut list);
    parts(&mut list);
    depths(&mut list);
    sums(&mut list);
    lengths(&mut list);
    elements(&mut list);
    too_long(&mut list);
    refused_grammars(&mut list);
    tries(&mut list);
    let mut known = HashSet::new();
    list.0.retain(|(_, case)| known.insert(case.clone()));
    list.0
}

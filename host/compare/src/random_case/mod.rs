//! Random cases of every call: sound ones, and ones with a fault or with several.

mod accepts;
mod choosing;
mod preview;
mod reading;
mod same_route;
mod writing;
mod xdr;

use route_record::{MAX_BYTES, MAX_ROWS};

use crate::{set_sizes, Calls, Case, Number, Random, Row, RowInput, RowTable, Table, U32, U64};

impl Case {
    /// A random case of any call. The calls on grammars, rows and records come more often than the
    /// packers and unpackers, which have fewer answers.
    pub fn random(random: &mut Random) -> Case {
        match random.below(62) {
            0..4 => packed(random, &U32),
            4..8 => packed(random, &U64),
            8..11 => check_grammar(random),
            11..20 => on_rows(random),
            20..33 => reading::case(random),
            33..39 => writing::case(random),
            39..43 => preview::case(random),
            43..47 => same_route::case(random),
            47..51 => choosing::case(random),
            51..54 => xdr::export(random),
            54..58 => xdr::import(random),
            _ => accepts::case(random),
        }
    }
}

/// An index from 0 to a little above the length, or one so large that a sum with it could wrap.
fn index_near(random: &mut Random, length: usize) -> usize {
    match random.below(8) {
        0 => random.pick(&[1 << 20, 1 << 32, 1 << 61, 1 << 62, 1 << 63]),
        1 => usize::MAX - random.below(20),
        2 => random.within(length.saturating_sub(9)..=length + 2),
        _ => random.within(0..=length),
    }
}

/// A buffer to be lent: one random byte or word, so many times.
fn lent<T: From<u8> + Clone>(random: &mut Random, length: usize) -> Vec<T> {
    vec![T::from(random.number() as u8); length]
}

/// A case of a packer or an unpacker of one width.
fn packed<N: Number>(random: &mut Random, calls: &Calls<N>) -> Case {
    let most = random.pick(&[0, 8, 24, 24, 100, 2_000]);
    let length = random.within(0..=most);
    let index = index_near(random, length);
    let room = length.saturating_sub(index) / Calls::<N>::WIDTH;
    let count = random.within(room.saturating_sub(2)..=room + 2);
    let numbers = calls.numbers(random, count.max(1));
    let bytes = random.bytes(length);
    match random.below(4) {
        0 => (calls.unpack)(bytes, index),
        1 => (calls.pack)(numbers[0], bytes, index),
        2 => (calls.unpack_seq)(bytes, index, numbers[..count].to_vec()),
        _ => (calls.pack_seq)(numbers[..count].to_vec(), bytes, index),
    }
}

/// A sound table, now and then a deep one, or one with a count at its limit or above.
fn table(random: &mut Random) -> Table {
    match random.below(50) {
        0 => {
            let (n, m) = random.pick(&LIMITS);
            Table::sound(random, n, m)
        }
        1..4 => deep_table(random),
        _ => Table::any(random),
    }
}

/// Numbers of nodes and of child words at a limit or above.
const LIMITS: [(usize, usize); 5] = [
    (256, 1_024),
    (257, 1_024),
    (256, 1_025),
    (1, 1_025),
    (300, 0),
];

/// A table in which each node but the last has the next one as a child, and some tuples the one
/// behind it too.
fn deep_table(random: &mut Random) -> Table {
    let n = random.within(1..=256);
    // Arrays are often empty, so values are deeper without them.
    let kinds = random.pick(&[&[4, 8][..], &[3, 4, 4, 8, 8]]);
    let parent = |k: usize| {
        let kind = random.pick(kinds);
        let is_pair = kind == 4 && k + 2 < n && random.below(40) == 0;
        [kind, k as u32, 1 + u32::from(is_pair)]
    };
    let mut nodes: Vec<[u32; 3]> = (0..n - 1).map(parent).collect();
    nodes.push([random.pick(&[0, 1, 2, 5, 6, 7, 9, 10]), 0, 0]);
    let children = (1..n as u32).collect();
    Table { nodes, children }
}

/// Makes a fault in the words of a table.
fn spoil_grammar(random: &mut Random, table: &Table, words: &mut Vec<u32>) {
    let length = 2 + 3 * table.nodes.len() + table.children.len();
    match random.below(6) {
        0 if !words.is_empty() => table.truncate(random, words),
        1 => Table::extend(random, words),
        _ if words.len() == length => table.damage(random, words),
        _ => (),
    }
}

fn check_grammar(random: &mut Random) -> Case {
    let table = table(random);
    let mut grammar = table.words();
    for _ in 0..random.pick(&[0, 1, 1, 1, 2, 3]) {
        spoil_grammar(random, &table, &mut grammar);
    }
    Case::CheckGrammar { grammar }
}

/// A sound row table, most often a small one.
fn row_table(random: &mut Random) -> RowTable {
    let most = match random.below(300) {
        0 => MAX_ROWS,
        1 => return sharing_a_store(random),
        2..5 => return deep_rows(random),
        _ => random.pick(&[1, 2, 3, 4, 8, 20, 60]),
    };
    let n = random.within(1..=most);
    let mut table = RowTable::sound(random, n);
    if random.below(2) == 0 {
        table.scatter(random);
    }
    table
}

/// Rows each of which but the last has the next one as its child.
fn deep_rows(random: &mut Random) -> RowTable {
    let n = random.within(1..=MAX_ROWS) as u64;
    let parents = (2..=n)
        .rev()
        .map(|span| [random.pick(&[3, 4, 8]), span, 1, 0, 0]);
    let mut rows: Vec<Row> = parents.collect();
    rows.push([random.pick(&[0, 9, 10]), 1, 0, 0, 0]);
    set_sizes(&mut rows);
    let record = vec![];
    RowTable { rows, record }
}

/// The bytes with zeros behind them, as long as a record or a store may be, or too long.
fn lengthened(random: &mut Random, bytes: &[u8]) -> Vec<u8> {
    let mut long = vec![0; MAX_BYTES + random.below(2)];
    let kept = bytes.len().min(MAX_BYTES);
    long[..kept].copy_from_slice(&bytes[..kept]);
    long
}

/// Makes a fault in the row count, in the number of words or in the store.
fn spoil_rows(random: &mut Random, input: &mut RowInput) {
    match random.below(60) {
        0..20 => input.damage_n(random),
        20..40 => input.damage_words(random),
        40 => input.store = lengthened(random, &input.store),
        _ => input.damage_store(random),
    }
}

/// An array of many arrays that overlap in one store, so that the size may be far above it.
fn sharing_a_store(random: &mut Random) -> RowTable {
    let arrays = random.within(1..=4_095);
    let length = random.pick(&[100, 10_000, MAX_BYTES]);
    let mut rows = vec![[3, arrays as u64 + 1, arrays as u64, 0, 0]];
    for _ in 0..arrays {
        let (kind, width) = random.pick(&[(5, 1), (6, 4), (7, 8)]);
        let count = random.within(0..=length / width);
        let place = random.within(0..=length - width * count);
        rows.push([kind, 1, count as u64, place as u64, 0]);
    }
    set_sizes(&mut rows);
    let record = lent(random, length);
    RowTable { rows, record }
}

/// A row number for a call that wants one of the listed rows: such a row, or any where there is
/// none, row 0, the rows around `n`, and those far above.
fn row_number(random: &mut Random, wanted: &[usize], table: &RowTable, n: usize) -> usize {
    let row = match wanted.len() {
        0 => random.below(table.rows.len()),
        _ => random.pick(wanted),
    };
    let near = [0, n.wrapping_sub(1), n, n.wrapping_add(1)];
    let far = [1 << 32, 1 << 62, usize::MAX];
    random.pick(&[&[row; 8], &near[..], &far].concat())
}

/// A case of the size call, of the locator or of the signed number.
fn on_rows(random: &mut Random) -> Case {
    let mut table = row_table(random);
    let faults = random.pick(&[0, 0, 1, 1, 2, 3]);
    let in_words = random.within(0..=faults);
    (0..in_words).for_each(|_| table.damage(random));
    let mut input = RowInput::of(&table);
    (in_words..faults).for_each(|_| spoil_rows(random, &mut input));
    let RowInput {
        words: rows,
        n,
        store,
    } = input;
    match random.below(3) {
        0 => Case::ComputeSizeOf { rows, n, store },
        1 => Case::LocateArray {
            row: row_number(random, &table.arrays(), &table, n),
            rows,
            n,
            store,
        },
        _ => Case::SignedNumber {
            row: row_number(random, &table.signed(), &table, n),
            rows,
            n,
            store,
        },
    }
}

//! Every length, every index and all small tables, which no list of cases says. Each answer is
//! compared with the model's, and how many are accepted is counted beforehand.

use std::ops::Range;

use compare::{leaf, set_sizes, table, Answer, Calls, Case, Number, Random, Row, U32, U64};
use route_record::ROW_WORDS;

/// Compares a case, and gives whether it is accepted.
fn is_accepted(case: Case) -> bool {
    matches!(case.compare().answer, Answer::Accepted(_))
}

/// How many of the cases are accepted.
fn accepted(cases: impl Iterator<Item = Case>) -> usize {
    cases.filter(|case| is_accepted(case.clone())).count()
}

/// All pairs of a length 0 to 20 and an index: 0 to 25, and indices so large that adding a size to
/// them could wrap.
fn lengths_and_indices() -> impl Iterator<Item = (usize, usize)> {
    let indices: Vec<usize> = (0..=25)
        .chain([31, 32, 61, 62, 63].map(|bits| 1 << bits))
        .chain((1 << 32) - 8..1 << 32)
        .chain((1 << 63) - 8..1 << 63)
        .chain(usize::MAX - 64..=usize::MAX)
        .collect();
    let pairs = move |length| {
        indices
            .clone()
            .into_iter()
            .map(move |index| (length, index))
    };
    (0..=20).flat_map(pairs)
}

/// How many accepted cases each of the four packers and unpackers of a width has, the runs for the
/// counts 0 to 6.
fn packed<N: Number>(calls: &Calls<N>) -> [usize; 4] {
    let random = &mut Random::new(1);
    let mut counts = [0; 4];
    for (length, index) in lengths_and_indices() {
        let (bytes, number) = (random.bytes(length), calls.numbers(random, 1)[0]);
        counts[0] += usize::from(is_accepted((calls.unpack)(bytes.clone(), index)));
        counts[1] += usize::from(is_accepted((calls.pack)(number, bytes.clone(), index)));
        for count in 0..=6 {
            let numbers = calls.numbers(random, count);
            let unpack = (calls.unpack_seq)(bytes.clone(), index, numbers.clone());
            let pack = (calls.pack_seq)(numbers, bytes.clone(), index);
            counts[2] += usize::from(is_accepted(unpack));
            counts[3] += usize::from(is_accepted(pack));
        }
    }
    counts
}

/// The pairs of a length and an index with room for one number are 1 + .. + 17 for 4 bytes and
/// 1 + .. + 13 for 8; for the counts 0 to 6 they are 231 + 153 + 91 + 45 + 15 + 1 + 0 and
/// 231 + 91 + 15 + 0.
#[test]
fn packed_everywhere() {
    assert_eq!(packed(&U32), [153, 153, 536, 536]);
    assert_eq!(packed(&U64), [91, 91, 337, 337]);
}

/// All sequences of words whose word i is one of `choices[i]`.
fn sequences<'a>(choices: &'a [&'a [u32]]) -> impl Iterator<Item = Vec<u32>> + 'a {
    let count = choices.iter().map(|words| words.len()).product();
    (0..count).map(|number: usize| {
        let mut rest = number;
        let word = |words: &&[u32]| {
            let word = words[rest % words.len()];
            rest /= words.len();
            word
        };
        choices.iter().map(word).collect()
    })
}

/// How many of all sequences of words whose word i is one of `choices[i]` are sound tables.
fn sound_tables(choices: &[&[u32]]) -> usize {
    accepted(sequences(choices).map(|grammar| Case::CheckGrammar { grammar }))
}

#[test]
fn tables_of_up_to_six_words() {
    let words: &[u32] = &[0, 1, 2, 3, 4, 8, 10, 11, u32::MAX];
    let sound = [0, 1, 2, 3, 4, 5, 6].map(|length| sound_tables(&vec![words; length]));
    // 5 words: the kinds 0, 1, 2, 4, 8, 10 without children. 6 words: these, and first 1 for 4 and
    // 8, with any child word.
    assert_eq!(sound, [0, 0, 0, 0, 0, 6, 8 * 9]);
}

#[test]
fn tables_of_two_nodes_and_two_child_words() {
    let kind: &[u32] = &[0, 3, 4, 11];
    let first: &[u32] = &[0, 1, 2, 3, u32::MAX];
    let count: &[u32] = &[0, 1, 2, u32::MAX];
    let child: &[u32] = &[0, 1, 2, u32::MAX];
    let (two, node) = (&[2][..], [kind, first, count]);
    let table = [&[two], &node[..], &node, &[two, child, child]].concat();
    // Four nodes have no child: kind 0, and kind 4 with first 0, 1 or 2. Node 1 is one of these. As
    // node 0 each of them goes with all 16 pairs of child words, each of the four nodes with one
    // child (kind 3 or 4, first 0 or 1) with 4 pairs, and the tuple of two with 1.
    assert_eq!(sound_tables(&table), 4 * (4 * 16 + 4 * 4 + 1));
}

/// How many of all sequences of words whose word i is one of `choices[i]` are laid out as lists, and
/// how many of these lists accept the empty record.
fn sound_lists(choices: &[&[u32]]) -> (usize, usize) {
    let (mut laid_out, mut accepted) = (0, 0);
    for list in sequences(choices) {
        let record = vec![];
        let case = Case::ChooseGrammar { list, record };
        let number = case.compare().answer.number();
        laid_out += usize::from(number != 21);
        accepted += usize::from(number == 0);
    }
    (laid_out, accepted)
}

#[test]
fn lists_of_up_to_five_words() {
    let words: &[u32] = &[0, 1, 2, 3, 4, 16, 17, u32::MAX];
    let sound = [0, 1, 2, 3, 4, 5].map(|length| sound_lists(&vec![words; length]));
    // Of k grammars with w words there are 8^w, times the ways to share w among k: for lists of 2 to
    // 5 words 1, then 8 + 1, then 8^2 + 2 * 8 + 1, then 8^3 + 3 * 8^2 + 3 * 8 + 1. No grammar of 3
    // words is sound.
    assert_eq!(sound, [0, 0, 1, 9, 81, 729].map(|laid_out| (laid_out, 0)));
}

#[test]
fn lists_of_two_grammars() {
    let (count, length): (&[u32], &[u32]) = (&[0, 1, 2, 3, u32::MAX], &[0, 4, 5, 6, 11, u32::MAX]);
    let (one, zero, kind): (&[u32], &[u32], &[u32]) = (&[1], &[0], &[0, 1, 11]);
    let grammar = [length, one, kind, zero, zero, zero];
    let list = [&[count], &grammar[..], &grammar].concat();
    // Laid out are one grammar of 11 words, whichever of 6 is its sixth; two of 5; three of 4, 0 and 5;
    // three of 5, 4 and 0: each with 9 pairs of kinds. Of two of 5 words, none of kind 11, all but two
    // uint32 accept.
    assert_eq!(sound_lists(&list), ((6 + 1 + 1 + 1) * 9, 4 - 1));
}

/// All rows of these kinds, spans, words 2, and of the words 3 0 and 1, without their sizes.
fn all_rows(kinds: &[u64], spans: &[u64], words2: &[u64]) -> Vec<Row> {
    let mut rows = Vec::new();
    for &kind in kinds {
        for &span in spans {
            for &word2 in words2 {
                rows.extend([0, 1].map(|word3| [kind, span, word2, word3, 0]));
            }
        }
    }
    rows
}

/// The words of rows, each with the size of its value.
fn sized(rows: &[Row]) -> Vec<u64> {
    let mut rows = rows.to_vec();
    set_sizes(&mut rows);
    rows.concat()
}

/// All pairs of rows of kinds that are there, and of the first that is not.
fn pairs_of_rows() -> Vec<Vec<u64>> {
    let kinds = [0, 3, 4, 5, 8, 9, 10, 11];
    let rows = all_rows(&kinds, &[0, 1, 2, u64::MAX], &[0, 1, u64::MAX]);
    let pairs = rows
        .iter()
        .flat_map(|root| rows.iter().map(|child| sized(&[*root, *child])));
    pairs.collect()
}

/// The accepted roots of two rows: an array or a tuple of 1, or a case with one of 3 tags.
const ROOTS: usize = 1 + 1 + 3;

/// The accepted signed numbers in such a root: of kind 9 without the pattern above its limit, and
/// of kind 10.
const SIGNED: usize = 2 + 3;

#[test]
fn sizes_of_two_rows() {
    let cases = pairs_of_rows().into_iter().map(|rows| Case::ComputeSizeOf {
        rows,
        n: 2,
        store: vec![0],
    });
    // In the root there is a constant, an array or a tuple of 0, an array of bytes (none at offset
    // 0 or 1, one at 0) or a signed number.
    assert_eq!(accepted(cases), ROOTS * (1 + 1 + 1 + 3 + SIGNED));
}

#[test]
fn signed_numbers_of_two_rows() {
    let pairs = pairs_of_rows();
    let count = |row: usize| {
        let cases = pairs.iter().map(|rows| Case::SignedNumber {
            rows: rows.clone(),
            n: 2,
            store: vec![0],
            row,
        });
        accepted(cases)
    };
    assert_eq!(count(1), ROOTS * SIGNED);
    for row in [0, 2, 3, 1 << 62, usize::MAX] {
        assert_eq!(count(row), 0, "{row}");
    }
}

/// Example A with the sizes of its three rows each from 0 to 16: one triple is right, and of the wrong
/// sizes the first in the order of the rows' ends is refused.
#[test]
fn sizes_of_three_rows() {
    for number in 0..17 * 17 * 17 {
        let sizes = [number / 289, number / 17 % 17, number % 17];
        let case = Case::ComputeSizeOf {
            rows: [
                [4, 3, 2, 0, sizes[0]],
                [1, 1, 7, 0, sizes[1]],
                [5, 1, 2, 12, sizes[2]],
            ]
            .concat(),
            n: 3,
            store: vec![0; 14],
        };
        let wrong = [1, 2, 0]
            .into_iter()
            .find(|&row| sizes[row] != [14, 4, 10][row]);
        let expected = match wrong {
            Some(row) => [13, 3, row as u64, 0, 0],
            None => [0, 0, 0, 14, 0],
        };
        assert_eq!(case.compare().answer.c_words(), expected);
    }
}

/// The powers of 2 below 2^64 and the numbers next to them, and what these lack to 2^64.
fn near_powers() -> Vec<u64> {
    let powers = (0..64).map(|bit| 1u64 << bit);
    let near = powers.flat_map(|power| [power - 1, power, power + 1]);
    near.flat_map(|number| [number, number.wrapping_neg()])
        .collect()
}

/// Each such number as a pattern: of kind 10 it is the number that Rust's type has for it; of kind
/// 9 its lower half is, and the whole is 13 where it is above the limit.
#[test]
fn signed_numbers_near_powers_of_two() {
    let answer = |kind, pattern| {
        let case = Case::SignedNumber {
            rows: sized(&[[kind, 1, pattern, 0, 0]]),
            n: 1,
            store: vec![],
            row: 0,
        };
        case.compare().answer.c_words()
    };
    let given = |number: i64| [0, 0, 0, number as u64, 0];
    for pattern in near_powers() {
        assert_eq!(answer(10, pattern), given(pattern as i64));
        let low = pattern as u32;
        assert_eq!(answer(9, low.into()), given((low as i32).into()));
        if pattern > low.into() {
            assert_eq!(answer(9, pattern), [13, 3, 0, 0, 0]);
        }
    }
}

/// The writing of these rows, with their sizes, to an output of 100 bytes.
fn writing(grammar: &[u32], rows: &[Row], store: &[u8]) -> Case {
    Case::Marshall {
        grammar: grammar.to_vec(),
        rows: sized(rows),
        n: rows.len(),
        store: store.to_vec(),
        out: vec![0xee; 100],
    }
}

/// All values of two rows, under all tables of a root and a child.
#[test]
fn writings_of_two_rows() {
    let rows = all_rows(&[0, 1, 3, 4, 5, 8, 9], &[1, 2], &[0, 1, 2]);
    let mut written = 0;
    for [kind, count] in [
        [0, 0],
        [3, 1],
        [4, 0],
        [4, 1],
        [4, 2],
        [8, 0],
        [8, 1],
        [8, 2],
    ] {
        for child in [0, 1, 4, 5, 9] {
            let grammar = [2, kind, 0, count, child, 0, 0, 2, 1, 1];
            let pairs = rows
                .iter()
                .flat_map(|root| rows.iter().map(|child| [*root, *child]));
            written += accepted(pairs.map(|pair| writing(&grammar, &pair, &[9])));
        }
    }
    // The root is an array or a tuple of 1, or a case of one union or of two of the other. In it
    // there is a constant, one of 3 uint32, a tuple of 0, an array of bytes (none at offset 0 or 1,
    // one at 0) or one of 3 signed numbers.
    assert_eq!(written, (1 + 1 + 1 + 2) * (1 + 3 + 1 + 3 + 3));
}

/// Arrays of each width, of every count and at every offset of a store of 24 bytes.
#[test]
fn arrays_anywhere_in_the_store() {
    let store: Vec<u8> = (1..=24).collect();
    for (kind, width) in [(5, 1), (6, 4), (7, 8)] {
        for count in 0..=24 / width {
            let last = 24 - count * width;
            let cases = (0..=last + 2).map(|offset| {
                let row = [u64::from(kind), 1, count, offset, 0];
                writing(&leaf(kind), &[row], &store)
            });
            assert_eq!(accepted(cases), last as usize + 1);
        }
    }
}

/// A value of each kind, the values with parts first: nodes, child words and rows.
const NODES: [[u32; 3]; 12] = [
    [4, 0, 11],
    [3, 11, 1],
    [4, 12, 2],
    [8, 14, 2],
    [0, 0, 0],
    [1, 0, 0],
    [2, 0, 0],
    [5, 0, 0],
    [6, 0, 0],
    [7, 0, 0],
    [9, 0, 0],
    [10, 0, 0],
];
const CHILDREN: [u32; 16] = [1, 2, 3, 4, 5, 6, 7, 8, 9, 10, 11, 5, 5, 4, 4, 5];
const ROWS: [Row; 17] = [
    [4, 17, 11, 0, 93],
    [3, 3, 2, 0, 16],
    [1, 1, 1, 0, 4],
    [1, 1, 2, 0, 4],
    [4, 3, 2, 0, 4],
    [1, 1, 3, 0, 4],
    [0, 1, 0, 0, 0],
    [8, 2, 1, 0, 12],
    [1, 1, 4, 0, 4],
    [0, 1, 0, 0, 0],
    [1, 1, 5, 0, 4],
    [2, 1, 6, 0, 8],
    [5, 1, 1, 0, 9],
    [6, 1, 1, 1, 12],
    [7, 1, 1, 2, 16],
    [9, 1, 7, 0, 4],
    [10, 1, 8, 0, 8],
];

/// The rows of the value of each kind that have no part.
const LEAVES: [usize; 13] = [2, 3, 5, 6, 8, 9, 10, 11, 12, 13, 14, 15, 16];

/// Rows of every kind in the place of each row without parts, and of two of them at once: of these
/// that which is of another kind first is refused, and the value itself is written.
#[test]
fn another_kind_in_each_row() {
    let grammar = table(&NODES, &CHILDREN);
    for first in LEAVES {
        for second in LEAVES {
            for kind in [0, 1, 2, 3, 4, 5, 6, 7, 9, 10] {
                let mut rows = ROWS;
                (rows[first], rows[second]) = ([kind, 1, 0, 0, 0], [kind, 1, 0, 0, 0]);
                let other = [first, second]
                    .into_iter()
                    .filter(|&row| ROWS[row][0] != kind);
                let answer = writing(&grammar, &rows, &[9; 10]).compare().answer;
                match other.min() {
                    None => assert_eq!(answer.number(), 0),
                    Some(row) => assert_eq!(answer.c_words()[..3], [15, 3, row as u64]),
                }
            }
        }
    }
}

/// The signed number of each row of the value of each kind, and of those that are not there.
#[test]
fn signed_numbers_of_each_kind() {
    let far = [1 << 32, 1 << 62, 1 << 63, usize::MAX];
    for row in (0..=20).chain(far) {
        let case = Case::SignedNumber {
            rows: ROWS.concat(),
            n: ROWS.len(),
            store: vec![9; 10],
            row,
        };
        let expected = match row {
            15 => [0, 0, 0, 7, 0],
            16 => [0, 0, 0, 8, 0],
            _ => [20, 3, row as u64, 0, 0],
        };
        assert_eq!(case.compare().answer.c_words(), expected);
    }
}

/// Tuples of 0 to 5 fields under nodes of 0 to 5.
#[test]
fn tuple_counts() {
    let constant = [0, 1, 0, 0, 0];
    let cases = (0..36).map(|both| {
        let (fields, given) = (both / 6, u64::from(both % 6));
        let grammar = table(&[[4, 0, fields], [0, 0, 0]], &[1; 6]);
        let mut rows = vec![[4, given + 1, given, 0, 0]];
        rows.resize(given as usize + 1, constant);
        writing(&grammar, &rows, &[])
    });
    assert_eq!(accepted(cases), 6);
}

/// The bytes of a value.
fn record_of(grammar: &[u32], rows: &[Row]) -> Vec<u8> {
    let outcome = writing(grammar, rows, &[9; 10]).compare();
    let (Answer::Accepted(size), Case::Marshall { mut out, .. }) =
        (&outcome.answer, outcome.after())
    else {
        panic!("the value is written");
    };
    out.truncate(size[0] as usize);
    out
}

/// The grammar and the record of the value of each kind: 93 bytes, 17 rows.
fn each_kind() -> (Vec<u32>, Vec<u8>) {
    let grammar = table(&NODES, &CHILDREN);
    let record = record_of(&grammar, &ROWS);
    (grammar, record)
}

/// The words of one row more than the value of each kind has.
const WORDS: usize = ROW_WORDS * (ROWS.len() + 1);

/// The whole reading with so many words lent.
fn reading(grammar: &[u32], record: &[u8], words: usize) -> Case {
    Case::Demarshall {
        grammar: grammar.to_vec(),
        record: record.to_vec(),
        rows: (1_000..).take(words).collect(),
    }
}

#[test]
fn readings_of_every_length_and_capacity() {
    let (grammar, record) = each_kind();
    let longer = [&record[..], &[0; 9]].concat();
    let lengths = (0..=longer.len()).map(|length| reading(&grammar, &longer[..length], WORDS));
    assert_eq!(accepted(lengths), 1);
    let words = (0..WORDS + 9).map(|words| reading(&grammar, &record, words));
    assert_eq!(accepted(words), ROW_WORDS + 9);
    let capacities = (0..=20).map(|capacity| Case::CheckWholeWith {
        grammar: grammar.clone(),
        record: record.clone(),
        capacity,
    });
    assert_eq!(accepted(capacities), 4);
    let slices = (0..=record.len()).map(|length| {
        // A comparison copies the record; here the bytes cut off stand behind it.
        let cut = &record[..length];
        let answer = route_record::calls::check_whole(&grammar, cut);
        let case = Case::CheckWhole {
            grammar: grammar.clone(),
            record: cut.to_vec(),
        };
        assert_eq!(is_accepted(case.clone()), answer.is_ok());
        case
    });
    assert_eq!(accepted(slices), 1);
}

#[test]
fn readings_from_every_index() {
    let (grammar, record) = each_kind();
    let record = [&[7; 3], &record[..], &[7; 3]].concat();
    let far = [1 << 20, 1 << 32, 1 << 63, usize::MAX - 7, usize::MAX];
    let indices = (0..=record.len() + 2).chain(far);
    let cases = indices.clone().map(|index| Case::ParseVal {
        grammar: grammar.clone(),
        record: record.clone(),
        index,
        rows: vec![99; WORDS],
    });
    assert_eq!(accepted(cases), 1);
    for (capacity, count) in [(0, 0), (16, 0), (17, 1), (usize::MAX, 1)] {
        let cases = indices.clone().map(|index| Case::CheckValWith {
            grammar: grammar.clone(),
            record: record.clone(),
            index,
            capacity,
        });
        assert_eq!(accepted(cases), count, "{capacity}");
    }
}

/// The record with each of its bytes made each other one: the bytes of numbers and of elements may
/// be any, and of the 40 bytes of counts and of the tag none may be another one.
#[test]
fn readings_of_every_byte() {
    let (grammar, record) = each_kind();
    let free = record.len() - 40;
    let others = (0..record.len()).flat_map(|at| (1..=255).map(move |flip| (at, flip)));
    let cases = others.map(|(at, flip)| {
        let mut other = record.clone();
        other[at] ^= flip;
        reading(&grammar, &other, WORDS)
    });
    assert_eq!(accepted(cases), 255 * free);
}

/// The fields of the value of each kind: the rows of each, and how many of its bytes may be any.
const FIELDS: [(Range<usize>, u64); 11] = [
    (1..4, 8),
    (4..7, 4),
    (7..9, 4),
    (9..10, 0),
    (10..11, 4),
    (11..12, 8),
    (12..13, 1),
    (13..14, 4),
    (14..15, 8),
    (15..16, 4),
    (16..17, 8),
];

/// The grammar and the record of a tuple of these fields of the value of each kind.
fn tuple_of(fields: &[usize]) -> (Vec<u32>, Vec<u8>) {
    let (mut nodes, mut children) = (NODES, CHILDREN.to_vec());
    nodes[0] = [4, children.len() as u32, fields.len() as u32];
    children.extend(fields.iter().map(|&field| CHILDREN[field]));
    let below = fields.iter().map(|&field| &ROWS[FIELDS[field].0.clone()]);
    let below = below.collect::<Vec<_>>().concat();
    let root = [4, below.len() as u64 + 1, fields.len() as u64, 0, 0];
    let grammar = table(&nodes, &children);
    let record = record_of(&grammar, &[vec![root], below].concat());
    (grammar, record)
}

/// Records that differ in a byte of a number or of an element are of different routes, whichever
/// byte it is, but of the same route where it is one of the first field. Each field of the value of
/// each kind is the first one.
#[test]
fn routes_that_differ_in_each_byte() {
    for (field, (_, free)) in FIELDS.into_iter().enumerate() {
        let others = (0..FIELDS.len()).filter(|&other| other != field);
        let fields: Vec<usize> = [field].into_iter().chain(others).collect();
        let (grammar, record) = tuple_of(&fields);
        let end = tuple_of(&[field]).1.len();
        let mut counts = [0; 2];
        for at in 0..record.len() {
            let mut second = record.clone();
            second[at] ^= 0x80;
            let case = Case::SameRoute {
                grammar: grammar.clone(),
                first: record.clone(),
                second,
            };
            if let Answer::Accepted(same) = case.compare().answer {
                assert_eq!(same, [u64::from(at < end)]);
                counts[same[0] as usize] += 1;
            }
        }
        assert_eq!(counts, [record.len() as u64 - 40 - free, free]);
    }
}

/// Writings of example A at every index of outputs of every length.
#[test]
fn writings_at_every_index() {
    let far = [
        1 << 20,
        1 << 32,
        1 << 63,
        usize::MAX - 14,
        usize::MAX - 13,
        usize::MAX,
    ];
    for length in 0..=40 {
        let indices = (0..=length + 1).chain(far);
        let cases = indices.map(|index| Case::MarshallVal {
            grammar: vec![3, 4, 0, 2, 1, 0, 0, 5, 0, 0, 2, 1, 2],
            rows: vec![4, 3, 2, 0, 14, 1, 1, 7, 0, 4, 5, 1, 2, 12, 10],
            n: 3,
            store: b"\x07\0\0\0\x02\0\0\0\0\0\0\0AB".to_vec(),
            out: vec![0xee; length],
            index,
        });
        assert_eq!(accepted(cases), (length + 1).saturating_sub(14));
    }
}

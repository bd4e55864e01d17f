//! The chooser.

use compare::{chain, doubling, grammar_list, Case};

use super::same_route::ROOTS;
use super::{borders, magnitudes};
use super::{counted, hex, numbers, table, Cases, List, MAX_BYTES};
use super::{A, A64, ARR, A_RECORD, B, BYT, C, D, E, I32, I64, KIND_11, MIX, MIX_RECORD, PAIR};
use super::{TUP0, U32, U64, UNI};

/// Adds the choice from a list of these words.
fn add_words(list: &mut List, name: &str, words: Vec<u32>, record: &[u8]) {
    let record = record.to_vec();
    list.add(
        name,
        Case::ChooseGrammar {
            list: words,
            record,
        },
    );
}

/// Adds the choice from a list of grammars that are words.
fn add_tables(list: &mut List, name: &str, grammars: &[Vec<u32>], record: &[u8]) {
    add_words(list, name, grammar_list(grammars), record);
}

/// Adds the choice from a list of grammars.
fn add(list: &mut List, name: &str, grammars: &[&str], record: &[u8]) {
    let grammars: Vec<Vec<u32>> = grammars.iter().map(|text| numbers(text)).collect();
    add_tables(list, name, &grammars, record);
}

/// Lists that are laid out or not: name and words. The record is empty; a constant accepts it.
const LAYOUTS: [(&str, &str); 35] = [
    ("no words", ""),
    ("count 0", "0"),
    ("count 0 and a constant", "0, 5, 1, 0 0 0, 0"),
    ("one constant", "1, 5, 1, 0 0 0, 0"),
    ("count 1 and nothing behind it", "1"),
    ("count 16 and nothing behind it", "16"),
    ("a word count and nothing behind it", "1, 5"),
    (
        "the last word of the only grammar is missing",
        "1, 5, 1, 0 0 0",
    ),
    ("a word left over", "1, 5, 1, 0 0 0, 0, 0"),
    ("a word left over that is 5", "1, 5, 1, 0 0 0, 0, 5"),
    ("two words left over", "1, 5, 1, 0 0 0, 0, 1 0"),
    ("a grammar left over", "1, 5, 1, 0 0 0, 0, 5, 1, 0 0 0, 0"),
    ("a grammar of 0 words", "1, 0"),
    ("a grammar of 0 words and a word left over", "1, 0, 0"),
    ("a grammar of 1 word", "1, 1, 1"),
    ("a grammar of 1 word, which is missing", "1, 1"),
    (
        "a constant and a grammar of 0 words",
        "2, 5, 1, 0 0 0, 0, 0",
    ),
    (
        "a grammar of 0 words and a constant",
        "2, 0, 5, 1, 0 0 0, 0",
    ),
    ("two grammars of 0 words", "2, 0, 0"),
    (
        "a grammar of 1 word and a constant",
        "2, 1, 1, 5, 1, 0 0 0, 0",
    ),
    (
        "a grammar refused with 4 and one of 0 words",
        "2, 5, 1, 2 0 1, 0, 0",
    ),
    (
        "a grammar of 0 words between constants",
        "3, 5, 1, 0 0 0, 0, 0, 5, 1, 0 0 0, 0",
    ),
    ("count 2 and one constant", "2, 5, 1, 0 0 0, 0"),
    (
        "count 2 and one grammar, which is refused",
        "2, 5, 1, 11 0 0, 0",
    ),
    (
        "count 3 and two constants",
        "3, 5, 1, 0 0 0, 0, 5, 1, 0 0 0, 0",
    ),
    (
        "count 2 and two constants",
        "2, 5, 1, 0 0 0, 0, 5, 1, 0 0 0, 0",
    ),
    ("a word count too small", "1, 4, 1, 0 0 0, 0"),
    ("a word count too large", "1, 6, 1, 0 0 0, 0"),
    (
        "the first word count too small",
        "2, 4, 1, 0 0 0, 0, 5, 1, 0 0 0, 0",
    ),
    (
        "the first word count too large",
        "2, 6, 1, 0 0 0, 0, 5, 1, 0 0 0, 0",
    ),
    (
        "the last word count too small",
        "2, 5, 1, 0 0 0, 0, 4, 1, 0 0 0, 0",
    ),
    (
        "the last word count too large",
        "2, 5, 1, 0 0 0, 0, 6, 1, 0 0 0, 0",
    ),
    (
        "a word count that takes the next grammar in",
        "1, 11, 1, 0 0 0, 0, 5, 1, 0 0 0, 0",
    ),
    (
        "a grammar cut by its word count, the rest another grammar",
        "2, 4, 1, 0 0 0, 0",
    ),
    (
        "a constant and the word count 2^32-1",
        "2, 5, 1, 0 0 0, 0, 4294967295",
    ),
];

/// The layout of lists: the listed ones, a list of three grammars cut at each word, and numbers of
/// grammars.
fn layouts(list: &mut List) {
    for (name, words) in LAYOUTS {
        add_words(list, name, numbers(words), &[]);
    }
    let three = grammar_list(&[U64, U32, B].map(numbers::<u32>));
    for length in 1..three.len() {
        let name = format!("the first {length} of 19 words");
        add_words(list, &name, three[..length].to_vec(), &[]);
    }
    for count in [15, 16, 17, 18, 32] {
        let constants = vec![numbers::<u32>(B); count];
        add_tables(list, &format!("{count} constants"), &constants, &[]);
    }
    // An implementation that checks fewer grammars than it counts, or counts other words.
    for (name, count) in [("count 17", 17), ("count 15", 15), ("count 32", 32)] {
        let mut words = grammar_list(&vec![numbers::<u32>(B); 16]);
        words[0] = count;
        add_words(list, &format!("{name} and 16 constants"), words, &[]);
    }
    let mut words = grammar_list(&vec![numbers::<u32>(B); 17]);
    words[0] = 16;
    add_words(list, "count 16 and 17 constants", words, &[]);
}

/// Lists of each length, of int64 and int32, with a record of an int32: the first accepts, or the last,
/// or none. Lists of 16 grammars with each other count, and with each other number of grammars behind
/// the count.
fn lengths(list: &mut List) {
    let record = [0xff; 4];
    for count in 1..=16 {
        let mut grammars = vec![I64; count];
        let name = format!("{count} of int64, an int32");
        add(list, &name, &grammars, &record);
        grammars[count - 1] = I32;
        let name = format!("an int32 as the last of {count}");
        add(list, &name, &grammars, &record);
        if count > 1 {
            grammars.rotate_right(1);
            let name = format!("an int32 as the first of {count}");
            add(list, &name, &grammars, &record);
        }
    }
    let sixteen = grammar_list(&vec![numbers::<u32>(I32); 16]);
    for count in 1..16 {
        let mut words = sixteen.clone();
        words[0] = count;
        let name = format!("count {count} and 16 of int32");
        add_words(list, &name, words, &record);
        let words = sixteen[..1 + 6 * count as usize].to_vec();
        let name = format!("count 16 and {count} of int32");
        add_words(list, &name, words, &record);
    }
}

/// At each place of a list of 16 a word count that is one less or one more, and a grammar that is
/// refused. The int32 before it accept.
fn places(list: &mut List) {
    let record = [0xff; 4];
    for place in 0..16 {
        let words = grammar_list(&vec![numbers::<u32>(I32); 16]);
        for (length, what) in [(4, "one less"), (6, "one more")] {
            let mut words = words.clone();
            words[1 + 6 * place] = length;
            let name = format!("word count {place} of 16 is {what}");
            add_words(list, &name, words, &record);
        }
        let (number, refused) = REFUSED[place % REFUSED.len()];
        let mut grammars = vec![I32; 16];
        grammars[place] = refused;
        let name = format!("{number} of grammar {place} of 16");
        add(list, &name, &grammars, &record);
    }
}

/// For each refusal of a grammar its number and a grammar of some words that is refused with it; that
/// of 5 is example F.
const REFUSED: [(u32, &str); 5] = [
    (1, "0, 0"),
    (2, "1, 0 0 0"),
    (3, KIND_11),
    (4, "1, 2 0 1, 0"),
    (5, "1, 4 0 1, 1, 0"),
];

/// Grammars that are refused: each refusal at each place among three, each two of them, and 21, 6 and
/// 22 beside them. The constants accept the empty record.
fn refused_grammars(list: &mut List) {
    for (number, grammar) in REFUSED {
        for (place, which) in ["first", "second", "last"].into_iter().enumerate() {
            let mut grammars = [B; 3];
            grammars[place] = grammar;
            let name = format!("{number} of the {which} of three grammars");
            add(list, &name, &grammars, &[]);
        }
        add(
            list,
            &format!("{number} of the only grammar"),
            &[grammar],
            &[],
        );
        let name = format!("{number} behind a constant, which accepts");
        add(list, &name, &[B, grammar], &[]);
        for (other, behind) in REFUSED {
            let name = format!("{number} of the first grammar before {other} of the second");
            add(list, &name, &[grammar, behind], &[]);
        }
        let words = grammar_list(&[B, grammar].map(numbers::<u32>));
        let left_over = [&words[..], &[1]].concat();
        add_words(
            list,
            &format!("21 before {number}, a word left over"),
            left_over,
            &[],
        );
        let mut more = words.clone();
        more[0] = 3;
        add_words(
            list,
            &format!("21 before {number}, a grammar missing"),
            more,
            &[],
        );
        let many = [&vec![B; 16][..], &[grammar]].concat();
        add(
            list,
            &format!("21 before {number}, 17 grammars"),
            &many,
            &[],
        );
        let long = vec![0; MAX_BYTES + 1];
        add(list, &format!("{number} before 6"), &[B, grammar], &long);
        add(list, &format!("{number} before 22"), &[U64, grammar], &[0]);
    }
    let name = "21 before 5, the bad child word is missing";
    add_words(list, name, numbers("1, 6, 1, 4 0 1, 1"), &[]);
    let name = "21 before 22, a word left over";
    add_words(list, name, numbers("1, 5, 1, 2 0 0, 0, 0"), &[]);
}

/// Lists of one grammar: name and grammar. The record is empty.
const SINGLE: [(&str, &str); 9] = [
    ("a grammar of 1 word that is 2", "2"),
    (
        "kind 11 at a node that the root does not reach",
        "2, 0 0 0, 11 0 0, 0",
    ),
    ("array with count 2", "2, 3 0 2, 0 0 0, 2, 1 1"),
    ("uint32 with first 1", "1, 1 1 0, 1, 0"),
    ("count 0 and first at M", "1, 4 1 0, 1, 99"),
    ("first+count wraps to 0 in 32 bits", "1, 4 4294967295 1, 0"),
    ("child number N", "2, 4 0 1, 0 0 0, 1, 2"),
    (
        "the first of two bad children",
        "3, 4 0 2, 0 0 0, 0 0 0, 2, 3 0",
    ),
    ("5 of node 0 before 3 of node 1", "2, 4 0 1, 11 0 0, 1, 0"),
];

/// Lists of one grammar, at the borders of 1 to 5: the listed ones, the largest tables and those beyond
/// a limit, and the borders of each kind.
fn single_grammars(list: &mut List) {
    for (name, grammar) in SINGLE {
        add(list, name, &[grammar], &[]);
    }
    let constants = |count| vec![[0; 3]; count];
    let largest = table(&constants(256), &[0; 1_024]);
    for (name, grammar) in [
        ("N 256", table(&constants(256), &[])),
        ("N 257", table(&constants(257), &[])),
        ("M 1,024", table(&constants(1), &[0; 1_024])),
        ("M 1,025", table(&constants(1), &[0; 1_025])),
        ("1,794 words", largest.clone()),
        ("1,793 words, one missing", largest[..1_793].to_vec()),
        ("1,795 words, one too many", [&largest[..], &[0]].concat()),
        ("1,795 words and N 0", vec![0; 1_795]),
    ] {
        add_tables(list, name, &[grammar], &[]);
    }
    for (name, case) in borders::grammar() {
        if let Case::CheckGrammar { grammar } = case {
            let name = name.trim_start_matches("check_grammar: ");
            add_tables(list, name, &[grammar], &[]);
        }
    }
}

/// Places that are far in the list: the last grammar of 16 is refused behind others of 5 words, of 65
/// and of the most.
fn far_places(list: &mut List) {
    let most = |child: u32| {
        let mut children = [1; 1_024];
        children[1_023] = child;
        table(&[&[[4, 0, 1_024]], &[[0; 3]; 255][..]].concat(), &children)
    };
    for (what, others, refused) in [
        (
            "constants",
            numbers::<u32>(B),
            numbers::<u32>("1, 4 0 1, 1, 0"),
        ),
        (
            "grammars of 65 words",
            doubling(13, 0),
            numbers("1, 11 0 0, 0"),
        ),
        ("grammars of 1,794 words", most(1), vec![0]),
        ("grammars of 1,794 words", most(1), most(0)),
    ] {
        let length = refused.len();
        let grammars = [vec![others; 15], vec![refused]].concat();
        let name = format!("15 {what}, and one of {length} words that is refused");
        add_tables(list, &name, &grammars, &[]);
    }
    add_tables(list, "the longest list", &vec![most(1); 16], &[]);
    // The last of 1,024 fields is a uint32, of which there are no bytes.
    let mut lacks = most(255);
    lacks[1 + 3 * 255] = 1;
    let grammars = [vec![lacks; 15], vec![most(1)]].concat();
    add_tables(list, "the longest list, the last accepts", &grammars, &[]);
    for (k, which) in [(0, "first"), (7, "eighth"), (15, "last")] {
        let mut grammars = vec![numbers::<u32>(U64); 16];
        grammars[k] = vec![];
        let name = format!("a grammar of 0 words as the {which} of 16");
        add_tables(list, &name, &grammars, &[]);
    }
}

/// A tuple of a uint64 and a uint32.
const TWELVE: &str = "3, 4 0 2, 2 0 0, 1 0 0, 2, 1 2";
/// A tuple of two, of three and of four uint64, one node used several times.
const TWO: &str = "2, 4 0 2, 2 0 0, 2, 1 1";
const THREE: &str = "2, 4 0 3, 2 0 0, 3, 1 1 1";
const FOUR: &str = "2, 4 0 4, 2 0 0, 4, 1 1 1 1";
/// A tuple of two constants and a uint32, and the uint32 first.
const LAST: &str = "3, 4 0 3, 0 0 0, 1 0 0, 3, 1 1 2";
const FIRST: &str = "3, 4 0 3, 0 0 0, 1 0 0, 3, 2 1 1";
/// A tuple of a tuple of two constants and a uint32.
const NESTED: &str = "4, 4 0 2, 4 2 2, 1 0 0, 0 0 0, 4, 1 2 3 3";
/// A tuple of a constant, an array of constants and a constant.
const ARRAY_WITHIN: &str = "3, 4 0 3, 3 3 1, 0 0 0, 4, 2 1 2 2";
/// A tuple of a constant, a union of a constant and a uint32, and a constant.
const UNION_WITHIN: &str = "4, 4 0 3, 8 3 2, 0 0 0, 1 0 0, 5, 2 1 2 2 3";
/// An array of tuples of two constants, and a tuple of a constant and such an array.
const PAIRS: &str = "3, 3 0 1, 4 1 2, 0 0 0, 3, 1 2 2";
const PAIRS_BEHIND: &str = "4, 4 0 2, 3 2 1, 4 3 2, 0 0 0, 5, 3 1 2 3 3";
/// An array of tuples of two uint64.
const LONG_PAIRS: &str = "3, 3 0 1, 4 1 2, 2 0 0, 3, 1 2 2";
/// An array of arrays of constants.
const ARRAYS: &str = "3, 3 0 1, 3 1 1, 0 0 0, 2, 1 2";
/// A tuple of two arrays of constants, and of an array of constants and a union of a constant.
const TWO_ARRAYS: &str = "3, 4 0 2, 3 2 1, 0 0 0, 3, 1 1 2";
const ARRAY_AND_UNION: &str = "4, 4 0 2, 3 2 1, 8 2 1, 0 0 0, 3, 1 2 3";
/// A tuple of a byte array and a uint32, and of two byte arrays.
const BYTES_FIRST: &str = "3, 4 0 2, 5 0 0, 1 0 0, 2, 1 2";
const TWO_BYTES: &str = "2, 4 0 2, 5 0 0, 2, 1 1";
/// A union of a union of a constant, and of a union without cases.
const CASES: &str = "3, 8 0 1, 8 1 1, 0 0 0, 2, 1 2";
const NO_CASES: &str = "2, 8 0 1, 8 1 0, 1, 1";

/// Choices: name, grammars and record. The values begun by a refused try are in the name.
const CHOICES: [(&str, &[&str], &str); 85] = [
    (
        "uint64, uint32 and constant, 8 bytes",
        &[U64, U32, B],
        "0000000000000000",
    ),
    (
        "uint64, uint32 and constant, 4 bytes",
        &[U64, U32, B],
        "00000000",
    ),
    ("uint64, uint32 and constant, no bytes", &[U64, U32, B], ""),
    ("uint64, uint32 and constant, 1 byte", &[U64, U32, B], "00"),
    ("uint32, example C and example A", &[U32, C, A], A_RECORD),
    ("example A alone", &[A], A_RECORD),
    (
        "uint32, example C and example A, its record cut",
        &[U32, C, A],
        "07000000 0200000000000000 41",
    ),
    (
        "example A twice, its record cut",
        &[A, A],
        "07000000 0200000000000000 41",
    ),
    ("uint32 and int32, both accept", &[U32, I32], "FFFFFFFF"),
    ("int32 and uint32, both accept", &[I32, U32], "FFFFFFFF"),
    (
        "constant and tuple without fields, both accept",
        &[B, TUP0],
        "",
    ),
    (
        "the second and the third of three accept",
        &[U32, I64, U64],
        "FFFFFFFFFFFFFFFF",
    ),
    (
        "the first and the last of three accept",
        &[I64, U32, U64],
        "FFFFFFFFFFFFFFFF",
    ),
    (
        "the second of two that accept has more values",
        &[U64, PAIR],
        "0000000000000000",
    ),
    ("the same grammar three times", &[U32, U32, U32], "07000000"),
    (
        "a byte array that is a uint64 too",
        &[BYT, U64],
        "0000000000000000",
    ),
    (
        "a uint64 that is a byte array too",
        &[U64, BYT],
        "0000000000000000",
    ),
    ("nested values behind example A", &[A, MIX], MIX_RECORD),
    (
        "an array of int32 behind a uint32",
        &[U32, "2, 3 0 1, 9 0 0, 1, 1"],
        "0200000000000000 05000000 FBFFFFFF",
    ),
    // The node of elements that are not there, and the cases of other tags, are not read.
    (
        "an array without elements of uint32",
        &[ARR, U64],
        "0000000000000000",
    ),
    (
        "an array without elements whose element has no value",
        &["2, 3 0 1, 8 0 0, 1, 1", U64],
        "0000000000000000",
    ),
    (
        "case 1, a constant, of a union whose case 0 is a uint32",
        &["3, 8 0 2, 1 0 0, 0 0 0, 2, 1 2", U64],
        "0100000000000000",
    ),
    (
        "case 1, a constant, of a union whose case 0 has no value",
        &["3, 8 0 2, 8 0 0, 0 0 0, 2, 1 2", U64],
        "0100000000000000",
    ),
    // 9 by the root.
    ("9 at a uint64, 1 begun", &[U64, U32], "07000000"),
    ("9 at an int32, 1 begun", &[I32, B], ""),
    ("9 at an int64, 1 begun", &[I64, B], ""),
    ("9 at the count of an array, 1 begun", &[C, B], ""),
    (
        "9 at the count of a byte array, 1 begun",
        &[BYT, U32],
        "07000000",
    ),
    (
        "9 at the count of an array of uint32, 1 begun",
        &[E, U32],
        "00000000",
    ),
    (
        "9 at the count of an array of uint64, 1 begun",
        &[A64, U32],
        "00000000",
    ),
    ("9 at a tag, 1 begun", &[UNI, U32], "07000000"),
    (
        "9 at the elements of a byte array, 1 begun",
        &[BYT, U64],
        "0100000000000000",
    ),
    (
        "9 at the elements of an array of uint32, 1 begun",
        &[E, TWELVE],
        "0200000000000000 07000000",
    ),
    (
        "9 at the elements of an array of uint64, 1 begun",
        &[A64, TWO],
        "0200000000000000 0700000000000000",
    ),
    // 9 below the root.
    ("9 at the first of three fields, 2 begun", &[FIRST, B], ""),
    ("9 at the last of three fields, 4 begun", &[LAST, B], ""),
    (
        "9 at the second of two fields, 3 begun",
        &[PAIR, U32],
        "07000000",
    ),
    (
        "9 behind a tuple of two constants, 5 begun",
        &[NESTED, B],
        "",
    ),
    (
        "9 at the first of two elements, 2 begun",
        &[ARR, U64],
        "0200000000000000",
    ),
    (
        "9 at the second of two elements, 3 begun",
        &[ARR, TWELVE],
        "0200000000000000 07000000",
    ),
    (
        "9 at the second of three elements, 3 begun",
        &[ARR, TWELVE],
        "0300000000000000 07000000",
    ),
    (
        "9 at the first of 4,095 elements, 2 begun",
        &[ARR, U64],
        "FF0F000000000000",
    ),
    (
        "9 at a field of the first of 2,000 pairs, 3 begun",
        &[LONG_PAIRS, U64],
        "D007000000000000",
    ),
    ("9 in a case, 2 begun", &[UNI, U64], "0100000000000000"),
    (
        "9 at a union without cases behind a uint32, 3 begun",
        &["3, 4 0 2, 1 0 0, 8 0 0, 2, 1 2", U32],
        "07000000",
    ),
    (
        "9 at the 2^64-8 elements of a byte array in a tuple, 2 begun",
        &[TWO_BYTES, U64],
        "F8FFFFFFFFFFFFFF",
    ),
    (
        "9 behind a byte array, 3 begun",
        &[BYTES_FIRST, U64],
        "0000000000000000",
    ),
    (
        "9 at the count of an array in an array, 2 begun",
        &[ARRAYS, U64],
        "0100000000000000",
    ),
    (
        "9 at the count of the second of two arrays, 5 begun",
        &[ARRAYS, TWO],
        "0200000000000000 0200000000000000",
    ),
    // 8 by the count of an array of kind 3: no element is begun.
    ("8 by a count, 1 begun", &[C, U64], "0010000000000000"),
    (
        "8 by a count of 2^64-1, 1 begun",
        &[C, U64],
        "FFFFFFFFFFFFFFFF",
    ),
    (
        "8 by a count behind a constant, 3 begun",
        &[ARRAY_WITHIN, U64],
        "0010000000000000",
    ),
    (
        "8 by the count of an array in an array, 2 begun",
        &[ARRAYS, TWO],
        "0100000000000000 0010000000000000",
    ),
    (
        "8 by a count with 4,093 rows left, 3 begun",
        &[ARRAY_WITHIN, U64],
        "FE0F000000000000",
    ),
    (
        "8 by a count before 9 of its elements, 1 begun",
        &[ARR, U64],
        "0010000000000000",
    ),
    (
        "8 by the count of an array with the last row, 4,096 begun",
        &[TWO_ARRAYS, TWO],
        "FD0F000000000000 0100000000000000",
    ),
    (
        "an array without elements with the last row, 4,096 begun",
        &[TWO_ARRAYS, TWO],
        "FD0F000000000000 0000000000000000",
    ),
    // 8 where no row is left: the value that asks for it is begun.
    (
        "8 at a field behind 4,093 constants, 4,097 begun",
        &[ARRAY_WITHIN, U64],
        "FD0F000000000000",
    ),
    (
        "8 at an array behind 4,094 constants, 4,097 begun",
        &[TWO_ARRAYS, TWO],
        "FE0F000000000000 0100000000000000",
    ),
    (
        "8 at a union behind 4,094 constants, 4,097 begun",
        &[ARRAY_AND_UNION, TWO],
        "FE0F000000000000 0100000000000000",
    ),
    (
        "8 in a case of a union with the last row, 4,097 begun",
        &[ARRAY_AND_UNION, TWO],
        "FD0F000000000000 0000000000000000",
    ),
    (
        "8 at the last of 1,366 pairs, 4,097 begun",
        &[PAIRS, U64],
        "5605000000000000",
    ),
    (
        "8 at a pair of 2,000, 4,097 begun",
        &[PAIRS, U64],
        "D007000000000000",
    ),
    (
        "8 at a constant of a pair, 4,097 begun",
        &[PAIRS_BEHIND, U64],
        "D007000000000000",
    ),
    (
        "1,365 pairs, 4,096 begun",
        &[PAIRS, U64],
        "5505000000000000",
    ),
    // 10 at a tag: the case's value is not begun.
    ("10 at the root, 1 begun", &[UNI, U64], "0200000000000000"),
    (
        "10 of a union without cases, 1 begun",
        &[D, U64],
        "0000000000000000",
    ),
    (
        "10 behind a constant, 3 begun",
        &[UNION_WITHIN, U64],
        "0200000000000000",
    ),
    (
        "10 in a case, 2 begun",
        &[CASES, TWO],
        "0000000000000000 0100000000000000",
    ),
    (
        "10 of a union without cases in a case, 2 begun",
        &[NO_CASES, TWO],
        "0000000000000000 0000000000000000",
    ),
    // 11: all rows of the value were begun.
    ("11 behind a constant, 1 begun", &[B, U32], "07000000"),
    (
        "11 behind a uint32, 1 begun",
        &[U32, U64],
        "0700000000000000",
    ),
    (
        "11 behind two fields, 3 begun",
        &[PAIR, TWELVE],
        "0700000008000000 09000000",
    ),
    (
        "11 behind three elements, 4 begun",
        &[C, TWO],
        "0300000000000000 0000000000000000",
    ),
    (
        "11 behind a case, 2 begun",
        &[UNI, TWO],
        "0000000000000000 0000000000000000",
    ),
    (
        "11 behind a byte array, 1 begun",
        &[BYT, TWO],
        "0000000000000000 0000000000000000",
    ),
    (
        "11 behind a tuple without fields, 1 begun",
        &[TUP0, U32],
        "07000000",
    ),
    (
        "11 behind an array without elements, 1 begun",
        &[ARR, TWO],
        "0000000000000000 0000000000000000",
    ),
    // Several tries, one behind the other.
    (
        "8, 10, 11, 11 and 9 before a grammar that accepts",
        &[C, D, U64, PAIR, FOUR, THREE],
        "0010000000000000 0700000000000000 0000000000000000",
    ),
    (
        "11 and 9 before a byte array, 3 and 1 begun",
        &[PAIR, E, BYT],
        "0400000000000000 41424344",
    ),
    (
        "the most values are begun by the first try",
        &[LAST, U64, U32, B],
        "",
    ),
    // No grammar accepts.
    (
        "22 where the only try is refused with 8",
        &[C],
        "0110000000000000",
    ),
    ("22 where the only try is refused with 9", &[C], ""),
    (
        "22 where the only try is refused with 10",
        &[D],
        "0000000000000000",
    ),
    ("22 where the only try is refused with 11", &[B], "00"),
];

/// Choices: the listed ones, one from 16 at each place, and roots of each kind.
fn choices(list: &mut List) {
    for (name, grammars, record) in CHOICES {
        add(list, name, grammars, &hex(record));
    }
    for place in 0..16 {
        let mut grammars = [D; 16];
        grammars[place] = B;
        let name = format!("15 of example D and a constant at place {place}");
        add(list, &name, &grammars, &[]);
    }
    for place in 0..16 {
        let mut grammars = [U32; 16];
        grammars[place..].fill(U64);
        let name = format!("uint64 from place {place} of 16 on, uint32 before it");
        add(list, &name, &grammars, &[0; 8]);
    }
    add(list, "16 of example D", &[D; 16], &[]);
    for (kind, grammar, accepted, refused) in ROOTS {
        let name = format!("root {kind}, accepted");
        add(list, &name, &[D, grammar], &hex(accepted));
        let name = format!("root {kind}, refused");
        add(list, &name, &[grammar, grammar], &hex(refused));
    }
}

/// Tries with about the most rows, alone and before others, and the most values begun.
fn most_rows(list: &mut List) {
    for rows in [4_096, 4_097] {
        let record = counted(rows - 1, &[]);
        let name = format!("the only grammar, {rows} rows");
        add(list, &name, &[C], &record);
        let name = format!("16 grammars, {rows} rows");
        add(list, &name, &[C; 16], &record);
    }
    for count in [4_094, 4_095, 4_097] {
        let name = format!("{count} constants or a uint64");
        add(list, &name, &[C, U64], &counted(count, &[]));
    }
    for count in [4_091, 4_092] {
        let name = format!("{count} constants between two, or a uint64");
        add(list, &name, &[ARRAY_WITHIN, U64], &counted(count, &[]));
    }
    // Trees of 4,095 rows, and of 8,191.
    let constants = counted(4_095, &[]);
    for (nodes, record) in [(12, &[][..]), (13, &[]), (12, &constants), (13, &constants)] {
        let grammars = [doubling(nodes, 0), numbers(C), numbers(B)];
        let name = format!("a tree of {nodes} levels, {} bytes", record.len());
        add_tables(list, &name, &grammars, record);
    }
    // The first leaf, a uint32, has no bytes.
    let name = "9 at the first leaf of a tree of 13 levels, 13 begun";
    add_tables(list, name, &[doubling(13, 1), numbers(B)], &[]);
    // A field of each kind that can be without children finds no row, and no bytes or 8.
    for kind in [0, 1, 2, 4, 5, 6, 7, 9, 10] {
        let fields = table(&[[4, 0, 2], [3, 2, 1], [0; 3], [kind, 0, 0]], &[1, 3, 2]);
        for (left, behind, last) in [("no", vec![], U64), ("8", counted(5, &[]), TWO)] {
            let record = counted(4_094, &behind);
            let name = format!("8 at kind {kind} with {left} bytes left, 4,097 begun");
            add_tables(list, &name, &[fields.clone(), numbers(last)], &record);
        }
    }
    // Of 2,100 tuples of a uint32 and a uint64 there are rows for 1,365 and bytes for 1,400.
    let tuples = numbers("4, 3 0 1, 4 1 2, 1 0 0, 2 0 0, 3, 1 2 3");
    let name = "8 at tuple 1,365 before 9 at tuple 1,400, 4,097 begun";
    let record = counted(2_100, &[0; 12 * 1_400]);
    add_tables(list, name, &[tuples, numbers(A64)], &record);
    let mut grammars = vec![doubling(13, 0); 16];
    let name = "16 times 4,097 values begun";
    add_tables(list, name, &grammars, &constants);
    for (what, last) in [("example C", C), ("a uint64", U64)] {
        grammars[15] = numbers(last);
        let name = format!("15 times 4,097 values begun, then {what}");
        add_tables(list, &name, &grammars, &constants);
    }
}

/// The deepest grammars, refused and accepted.
fn deepest(list: &mut List) {
    for (levels, kind, own) in [
        ("arrays", 3, counted(1, &[])),
        ("tuples", 4, vec![]),
        ("unions", 8, counted(0, &[])),
    ] {
        let record = [own.repeat(255), vec![7, 0, 0, 0]].concat();
        let grammars = [numbers(U64), chain(kind)];
        add_tables(list, &format!("256 levels of {levels}"), &grammars, &record);
        // The uint32 is missing; the rest is uint64s, too.
        let cut = &record[..record.len() - 4];
        let count = cut.len() / 8;
        let uint64s = table(&[[4, 0, count as u32], [2, 0, 0]], &vec![1; count]);
        let name = format!("256 levels of {levels}, cut");
        add_tables(list, &name, &[chain(kind), uint64s], cut);
    }
}

/// Numbers above 255: the first child word of a tuple, a tag and, above 65,535, the byte where a field
/// starts.
fn large_numbers(list: &mut List) {
    for first in [257, 512] {
        let children = [vec![1; first], vec![2]].concat();
        let tuple = table(&[[4, first as u32, 1], [0; 3], [1, 0, 0]], &children);
        let name = format!("a tuple whose first is {first}");
        add_tables(list, &name, &[tuple, numbers(B)], &[0; 4]);
    }
    let union = table(&[[8, 0, 257], [0; 3]], &[1; 257]);
    let name = "a union of 257 cases, tag 256";
    add_tables(list, name, &[union, numbers(U64)], &counted(256, &[]));
    let record = counted(131_072, &[0; 131_072 + 4]);
    let name = "a uint32 behind 131,072 elements";
    add(list, name, &[BYTES_FIRST, B], &record);
}

/// The longest records, and those a byte longer, before which come 21 and 1 to 5, and behind which 22.
fn long_records(list: &mut List) {
    for (bytes, length) in [("1,048,576", MAX_BYTES), ("1,048,577", MAX_BYTES + 1)] {
        let record = counted(length as u64 - 8, &vec![0x5a; length - 8]);
        let name = format!("a record of {bytes} bytes");
        add(list, &name, &[U64, BYT, BYT], &record);
        let name = format!("a record of {bytes} bytes that no grammar accepts");
        add(list, &name, &[B], &vec![0; length]);
    }
    let more = vec![0; MAX_BYTES + 1];
    for (name, words) in [
        ("21 before 6, count 0", "0"),
        ("21 before 6, no words", ""),
        ("21 before 6, a word left over", "1, 5, 1, 0 0 0, 0, 0"),
        ("1 before 6, a grammar of 0 words", "2, 5, 1, 0 0 0, 0, 0"),
    ] {
        add_words(list, name, numbers(words), &more);
    }
}

/// The cases of the chooser.
pub fn choosing() -> Cases {
    let mut list = List::default();
    choices(&mut list);
    layouts(&mut list);
    lengths(&mut list);
    places(&mut list);
    refused_grammars(&mut list);
    single_grammars(&mut list);
    far_places(&mut list);
    most_rows(&mut list);
    deepest(&mut list);
    large_numbers(&mut list);
    long_records(&mut list);
    list.0.extend(magnitudes::choosing());
    list.0
}

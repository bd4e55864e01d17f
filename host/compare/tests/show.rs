//! The show program, compared with the model: every front part of an input, the longest ones, those
//! that come in pieces or from a file, and random ones.

use std::collections::BTreeMap;
use std::fs::{self, File};
use std::path::Path;
use std::process::Stdio;

use compare::{chain, show, show_from, show_in_pieces, show_input, Case, Random};

/// The bytes of a count or tag.
fn count(count: u64) -> [u8; 8] {
    count.to_le_bytes()
}

/// Example A: a tuple of a uint32 and an array of bytes.
const TUPLE: [u32; 13] = [3, 4, 0, 2, 1, 0, 0, 5, 0, 0, 2, 1, 2];
const TUPLE_RECORD: [u8; 14] = [7, 0, 0, 0, 2, 0, 0, 0, 0, 0, 0, 0, 0x41, 0x42];
const TUPLE_TEXT: &str = "rows 3\n4 3 2 0 14\n1 1 7 0 4\n5 1 2 12 10\n";

/// The grammar of an array of bytes.
const BYTES: [u32; 5] = [1, 5, 0, 0, 0];

/// Example A as an input: 13 words and 14 bytes, behind a count of 4 bytes each.
fn tuple_input() -> Vec<u8> {
    let input = show_input(&TUPLE, &TUPLE_RECORD);
    assert_eq!(input.len(), 74);
    input
}

#[test]
fn no_input() {
    assert_eq!(show(&[]), "refused 19 byte 0\n");
    assert_eq!(show_from(Stdio::null(), &[]), "refused 19 byte 0\n");
}

/// Each front part of an input, with the word count, a word or the record length cut among them.
#[test]
fn short_inputs() {
    let input = tuple_input();
    for length in 0..input.len() {
        let expected = format!("refused 19 byte {length}\n");
        assert_eq!(show(&input[..length]), expected);
    }
}

/// An input of this many bytes, of an array of bytes.
fn long_input(length: usize) -> Vec<u8> {
    // 4 bytes each for the word count, 5 words and the record length, 8 for the element count.
    let elements = length - 36;
    let record = [&count(elements as u64)[..], &vec![0xa5; elements]].concat();
    show_input(&BYTES, &record)
}

#[test]
fn the_longest_inputs() {
    assert_eq!(show(&long_input(65_535)), "rows 1\n5 1 65499 8 65507\n");
    assert_eq!(show(&long_input(65_536)), "rows 1\n5 1 65500 8 65508\n");
    for length in [65_537, 65_538, 70_000, 200_000] {
        let input = long_input(length);
        assert_eq!(input.len(), length);
        assert_eq!(show(&input), "refused 19 byte 65536\n");
    }
    // A sound input, with bytes behind it.
    for more in [1, 70_000] {
        let input = [long_input(65_536), vec![0; more]].concat();
        assert_eq!(show(&input), "refused 19 byte 65536\n");
    }
    assert_eq!(show(&[0; 65_536]), "refused 19 byte 65536\n");
    assert_eq!(show(&vec![0xff; 70_000]), "refused 19 byte 65536\n");
    let longest = show_input(&[1, 0, 0, 0, 0], &[0; 65_508]);
    assert_eq!(show(&longest), "refused 11 byte 0\n");
}

#[test]
fn the_deepest_values() {
    for (kind, own, word2) in [(3, &count(1)[..], 1), (4, &[], 1), (8, &count(0), 0)] {
        let record = [own.repeat(255), vec![7, 0, 0, 0]].concat();
        let parents = (2..=256).rev().map(|span| {
            let size = own.len() * (span - 1) + 4;
            format!("{kind} {span} {word2} 0 {size}\n")
        });
        let text = format!("rows 256\n{}1 1 7 0 4\n", parents.collect::<String>());
        assert_eq!(show(&show_input(&chain(kind), &record)), text);
    }
}

/// The program reads on until the input ends, however few bytes each read gives.
#[test]
fn inputs_in_pieces() {
    for piece in [1, 7, 60] {
        assert_eq!(show_in_pieces(&tuple_input(), piece), TUPLE_TEXT);
    }
    let input = long_input(65_536);
    assert_eq!(show_in_pieces(&input, 5_000), "rows 1\n5 1 65500 8 65508\n");
    let input = long_input(65_537);
    assert_eq!(show_in_pieces(&input, 5_000), "refused 19 byte 65536\n");
    assert_eq!(show_in_pieces(&input, 65_536), "refused 19 byte 65536\n");
}

/// What the program prints for an input in a file.
fn shown_from_file(name: &str, input: &[u8]) -> String {
    let path = Path::new(env!("CARGO_TARGET_TMPDIR")).join(name);
    fs::write(&path, input).expect("a file of the input");
    let file = File::open(&path).expect("the file of the input");
    let text = show_from(file.into(), input);
    fs::remove_file(&path).expect("the file is there");
    text
}

#[test]
fn inputs_in_files() {
    let shown = |input: &[u8]| shown_from_file("show-input", input);
    assert_eq!(shown(&[]), "refused 19 byte 0\n");
    assert_eq!(shown(&tuple_input()), TUPLE_TEXT);
    assert_eq!(shown(&long_input(65_536)), "rows 1\n5 1 65500 8 65508\n");
    assert_eq!(shown(&long_input(65_537)), "refused 19 byte 65536\n");
    assert_eq!(shown(&long_input(200_000)), "refused 19 byte 65536\n");
}

/// A random input: a grammar and a record, sound or with faults, as an input that is cut, longer or
/// changed in a byte of one of its counts in one of four.
fn random_input(random: &mut Random) -> Vec<u8> {
    let (grammar, record) = loop {
        if let Case::CheckWhole { grammar, record } = Case::random(random) {
            break (grammar, record);
        }
    };
    let mut input = show_input(&grammar, &record);
    match random.below(12) {
        0 => input.truncate(random.below(input.len())),
        1 => input.push(0),
        2 => input[random.pick(&[0, 4 + 4 * grammar.len()])] ^= 1 << random.below(8),
        _ => (),
    }
    input
}

#[test]
fn random_inputs() {
    let random = &mut Random::new(80);
    let mut counts: BTreeMap<u64, usize> = BTreeMap::new();
    for _ in 0..1_000 {
        let text = show(&random_input(random));
        let number = text.strip_prefix("refused ").map_or("0", |rest| {
            let end = rest.find(' ').expect("a place");
            &rest[..end]
        });
        *counts.entry(number.parse().expect("a number")).or_default() += 1;
    }
    assert!(
        counts.keys().eq(&[0, 1, 2, 3, 4, 5, 8, 9, 10, 11, 19]),
        "{counts:?}"
    );
}

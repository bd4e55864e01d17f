//! Safe Rust answers as the library does: on the vectors, on random cases, and on what the bench
//! measures, which is what the tables say it is.

use bench::answers::{case_of, of_rust};
use bench::program::Call;
use bench::records::{self, Input};
use compare::{on_large_stack, run, Answer, Answers};
use route_record::{Refusal, CHECK_ROWS, MAX_BYTES, ROW_WORDS};
use vectors::{Vector, FILES};

#[test]
fn the_vectors() {
    let vectors = FILES.iter().flat_map(|file| (file.vectors)());
    on_large_stack(|| {
        for vector in vectors {
            if let Vector::Call(line) = vector {
                assert!(of_rust(&line.case) == line.outcome, "{}", line.name);
            }
        }
    });
}

#[test]
fn random_cases() {
    let (mut answers, mut left) = (Answers::default(), 20_000);
    let goes_on = || {
        left -= 1;
        left > 0
    };
    if let Err(difference) = run(1, of_rust, goes_on, &mut answers) {
        panic!("by safe Rust in the library's place:\n{difference}");
    }
}

/// The answer of both to a call on a record.
fn answer(call: Call, input: &Input) -> Answer {
    let case = case_of(call, input);
    let (library, rust) = (case.of_library(), of_rust(&case));
    assert!(library == rust, "{}", case.call());
    library.answer
}

/// A record is accepted by every call, with so many rows, but by the check that names no capacity
/// only up to 1,024.
fn assert_accepted(input: &Input, rows: usize) {
    let size = input.record.len() as u64;
    assert_eq!(answer(Call::CheckGrammar, input), Answer::Accepted(vec![]));
    let given = Answer::Accepted(vec![rows as u64, size]);
    for call in [Call::CheckMost, Call::Read] {
        assert_eq!(answer(call, input), given);
    }
    if rows <= CHECK_ROWS {
        assert_eq!(answer(Call::Check, input), given);
    } else {
        let [number, ..] = answer(Call::Check, input).c_words();
        assert_eq!(number, Refusal::ROWS_EXHAUSTED);
    }
    for call in [Call::Write, Call::Size] {
        assert_eq!(answer(call, input), Answer::Accepted(vec![size]));
    }
    let given = vec![size, size / 64];
    assert_eq!(answer(Call::Preview, input), Answer::Accepted(given));
    assert_eq!(answer(Call::SameRoute, input), Answer::Accepted(vec![1]));
    let given = vec![1, rows as u64];
    assert_eq!(answer(Call::Accepts, input), Answer::Accepted(given));
    let given = vec![0, rows as u64];
    assert_eq!(answer(Call::Choose, input), Answer::Accepted(given));
    let given = vec![xdr_size(input)];
    assert_eq!(answer(Call::Export, input), Answer::Accepted(given));
    let given = vec![rows as u64, array_bytes(input)];
    assert_eq!(answer(Call::Import, input), Answer::Accepted(given));
}

/// The bytes of the elements of the record's byte arrays and arrays of numbers.
fn array_bytes(input: &Input) -> u64 {
    let (rows, _) = input.rows();
    let bytes = rows.chunks(ROW_WORDS).map(|row| match row[0] {
        5 => row[2],
        6 => 4 * row[2],
        _ => 0,
    });
    bytes.sum()
}

/// The size of the record less 4 bytes for each count and tag, and the padding of byte arrays.
fn xdr_size(input: &Input) -> u64 {
    let (rows, _) = input.rows();
    let size = input.record.len() as u64;
    rows.chunks(ROW_WORDS).fold(size, |size, row| match row[0] {
        3 | 6 | 8 => size - 4,
        5 => size - 4 + row[2].wrapping_neg() % 4,
        _ => size,
    })
}

#[test]
fn what_the_bench_accepts() {
    for rows in [1, 16, 64, 256, 300, 1_024, 4_096] {
        assert_accepted(&records::mixed(rows), rows);
        assert_accepted(&records::numbers(rows), rows);
    }
    let with_serial = records::with_serial(300);
    assert_accepted(&with_serial, 302);
    assert_ne!(with_serial.record[..4], with_serial.other[..4]);
    assert_eq!(with_serial.record[4..], records::mixed(300).record);
    assert_accepted(&records::constants(), 4_096);
    assert_accepted(&records::wide_tuple(), 1_025);
    assert_accepted(&records::long_array(), 1);
    assert_eq!(records::long_array().record.len(), MAX_BYTES);
    assert_eq!(records::long_array().xdr().len(), MAX_BYTES - 4);
}

/// The strays are not read: they are shorter than every value.
#[test]
fn what_the_bench_does_not_read() {
    for (input, nodes) in [
        (records::stray(), 9),
        (records::shared_children(1, vec![7; 3]), 256),
    ] {
        assert_eq!((input.record.len(), input.grammar[0]), (3, nodes));
        let given = vec![0, 0];
        assert_eq!(answer(Call::Accepts, &input), Answer::Accepted(given));
    }
}

/// The values begun are the uint64 array; the array of uint32 and as many elements as the mix has
/// cases; the array, a case of two rows, one of six and the next; the tuple, the serial number and an
/// empty array; and those of the mix.
#[test]
fn what_the_bench_chooses() {
    let input = records::five_grammars(300);
    assert_eq!(input.record[..8], 77_u64.to_le_bytes());
    let begun = 1 + (1 + 77) + (1 + 2 + 6 + 1) + 3 + 300;
    assert_eq!(
        answer(Call::Choose, &input),
        Answer::Accepted(vec![4, begun])
    );
}

#[test]
fn what_the_bench_packs() {
    let input = records::uint32_array(4_096);
    assert_accepted(&input, 1);
    assert!(input.numbers().into_iter().eq(0..4_096));
    for call in [Call::Unpack, Call::Pack] {
        assert_eq!(answer(call, &input), Answer::Accepted(vec![]));
    }
}

#[test]
fn what_the_bench_refuses() {
    for (leaf, length, number) in [(1, 16, 9), (0, 0, 8)] {
        let input = records::shared_children(leaf, vec![7; length]);
        let refused = [number, 2, length as u64, 0, 0];
        assert_eq!(answer(Call::Read, &input).c_words(), refused);
    }
}

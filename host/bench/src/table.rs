//! The measurements: the calls on records of several sizes, and the time per row.

use compare::Answer;
use route_record::CHECK_ROWS;

use crate::answers::{case_of, of_rust};
use crate::measure::measure;
use crate::picture::Curve;
use crate::program::{Call, Program};
use crate::records::{self, Input};
use crate::report::{Limit, Report};

/// The most that the library's time may be, divided by safe Rust's or by that of copying.
const RATIO: f64 = 1.5;

/// The most that a yes may take, divided by the time of the library's check.
const RATIO_TO_CHECK: f64 = 1.2;

/// What "at once" is, in milliseconds.
const AT_ONCE: f64 = 1.0;

/// The numbers of rows for which the time per row is measured.
const ROW_COUNTS: [usize; 5] = [16, 64, 256, 1_024, 4_096];

/// The most that the greatest time per further row of a reading may be, divided by the least.
const SPREAD: f64 = 1.3;

/// The calls in the table for records of all sizes, behind the check.
const CALLS: [Call; 7] = [
    Call::Read,
    Call::Write,
    Call::Preview,
    Call::Size,
    Call::SameRoute,
    Call::Export,
    Call::Import,
];

/// Measures and prints the table of calls.
pub fn calls(report: &mut Report, programs: &[&dyn Program]) {
    report.calls();
    let beside_rust = &[Limit::Beside("Rust", RATIO)][..];
    let beside_copy = &[Limit::Beside("copy", RATIO)][..];
    let sizes: [(&str, fn() -> Input); 4] = [
        ("16 rows", || records::mixed(16)),
        ("300 rows", || records::mixed(300)),
        ("4,096 rows", || records::mixed(4_096)),
        ("1 MiB", records::long_array),
    ];
    for (size, input) in sizes {
        // A check that names no capacity would refuse more rows.
        let check = match input().rows() {
            (_, rows) if rows <= CHECK_ROWS => Call::Check,
            _ => Call::CheckMost,
        };
        for call in [check].into_iter().chain(CALLS) {
            let limits = match (call, size) {
                (Call::SameRoute, _) => &[],
                (Call::Size, "4,096 rows") => beside_rust,
                (_, "300 rows") | (Call::Preview | Call::Import, "1 MiB") => beside_rust,
                (Call::Write | Call::Export, "1 MiB") => beside_copy,
                _ => &[],
            };
            line(report, programs, call, (size, input()), limits);
        }
    }
    let input = ("a serial and 300 rows", records::with_serial(300));
    line(report, programs, Call::SameRoute, input, beside_rust);
    for (name, input) in [
        ("a stray of 3 bytes, nine nodes", records::stray()),
        (
            "a stray of 3 bytes, 256 nodes",
            records::shared_children(1, vec![7; 3]),
        ),
    ] {
        line(report, programs, Call::Accepts, (name, input), beside_rust);
    }
    let input = ("300 rows", records::mixed(300));
    let beside_both = [
        Limit::Beside("Rust", RATIO),
        Limit::Beside("check", RATIO_TO_CHECK),
    ];
    line(report, programs, Call::Accepts, input, &beside_both);
    let input = (
        "five grammars, the last accepts 300 rows",
        records::five_grammars(300),
    );
    line(report, programs, Call::Choose, input, beside_rust);
    let input = ("300 rows", records::mixed(300));
    line(report, programs, Call::CheckGrammar, input, &[]);
    for call in [Call::Unpack, Call::Pack] {
        let input = ("4,096 uint32", records::uint32_array(4_096));
        line(report, programs, call, input, beside_rust);
    }
    for (name, input) in [
        ("array of 4,095 constants", records::constants()),
        ("tuple of 1,024 fields", records::wide_tuple()),
        (
            "256 nodes that share children, refused by 9",
            records::shared_children(1, vec![7; 16]),
        ),
        (
            "256 nodes that share children, refused by 8",
            records::shared_children(0, Vec::new()),
        ),
    ] {
        let at_once = [Limit::Milliseconds(AT_ONCE)];
        line(report, programs, Call::Read, (name, input), &at_once);
    }
}

/// Measures and prints one line of the table of calls.
fn line(
    report: &mut Report,
    programs: &[&dyn Program],
    call: Call,
    (name, input): (&str, Input),
    limits: &[Limit],
) {
    let times = times(programs, call, &[input]);
    report.call(&format!("{}, {name}", call.name()), &times[0], limits);
}

/// The times of a call on each of the records, by program, once the library's answers were
/// compared with safe Rust's. All are measured by turns, so that other work on the machine makes
/// none of them longer than the others.
fn times(programs: &[&dyn Program], call: Call, inputs: &[Input]) -> Vec<Vec<Option<f64>>> {
    let mut times = vec![vec![None; programs.len()]; inputs.len()];
    let mut places = Vec::new();
    let mut contenders = Vec::new();
    for (size, input) in inputs.iter().enumerate() {
        let case = case_of(call, input);
        let differ = case.of_library() != of_rust(&case);
        assert!(!differ, "the library and safe Rust differ: {}", call.name());
        for (place, program) in programs.iter().enumerate() {
            if let Some(contender) = program.contender(call, input) {
                places.push((size, place));
                contenders.push(contender);
            }
        }
    }
    for ((size, place), time) in places.into_iter().zip(measure(&mut contenders)) {
        times[size][place] = Some(time);
    }
    times
}

/// Measures and prints the times per row, and gives the curves of the mixed records.
pub fn rows(report: &mut Report, programs: &[&dyn Program]) -> Vec<Curve> {
    report.rows(&ROW_COUNTS);
    let mut curves = Vec::new();
    for call in [Call::CheckMost, Call::Read, Call::Write] {
        curves.extend(per_row(report, programs, call, ("mixed", records::mixed)));
    }
    for call in [Call::CheckMost, Call::Read] {
        per_row(
            report,
            programs,
            call,
            ("array of uint32", records::numbers),
        );
    }
    curves
}

/// Prints the times per row of a call on records of so many rows, which it accepts: the library's,
/// also without what a record of one row takes, which has the limit of a reading, and those of the
/// others.
fn per_row(
    report: &mut Report,
    programs: &[&dyn Program],
    call: Call,
    (records, record_of): (&str, fn(usize) -> Input),
) -> Vec<Curve> {
    let inputs: Vec<_> = [1].into_iter().chain(ROW_COUNTS).map(record_of).collect();
    for input in &inputs {
        let answer = case_of(call, input).of_library().answer;
        let accepted = matches!(answer, Answer::Accepted(_));
        assert!(accepted, "the library refuses a record: {}", call.name());
    }
    let measured = times(programs, call, &inputs);
    let (one_row, measured) = measured.split_first().expect("the record of one row");
    let mut curves = Vec::new();
    for (place, program) in programs.iter().enumerate() {
        let times = measured.iter().map(|times| times[place]);
        let points = ROW_COUNTS.into_iter().zip(times);
        let points: Option<Vec<_>> = points
            .map(|(rows, time)| Some((rows as f64, time?)))
            .collect();
        let Some(points) = points else { continue };
        let per_row: Vec<_> = points.iter().map(|(rows, time)| time / rows).collect();
        let name = format!("{}, {records}, {}", call.name(), program.name());
        report.per_row(&name, &per_row, None);
        if place == 0 {
            let one_row = one_row[0].expect("the library has every call");
            let further = |&(rows, time): &(f64, f64)| (time - one_row) / (rows - 1.0);
            let further: Vec<_> = points.iter().map(further).collect();
            let limit = (call != Call::Write).then_some(SPREAD);
            report.per_row(&format!("{name}, behind the first row"), &further, limit);
        }
        curves.push(Curve {
            panel: call.name(),
            program: program.name(),
            points,
        });
    }
    curves
}

//! The comparison of the show program.

use std::io::{ErrorKind, Write};
use std::iter;
use std::path::{Path, PathBuf};
use std::process::{ChildStdin, Command, Output, Stdio};
use std::thread;
use std::time::Duration;

/// The time between two pieces of an input.
const PAUSE: Duration = Duration::from_millis(2);

/// A grammar and a record as an input of the program: word count, words, record length, record.
pub fn show_input(grammar: &[u32], record: &[u8]) -> Vec<u8> {
    let words = grammar.iter().flat_map(|word| word.to_le_bytes()).collect();
    let count = (grammar.len() as u32).to_le_bytes().to_vec();
    let length = (record.len() as u32).to_le_bytes().to_vec();
    [count, words, length, record.to_vec()].concat()
}

/// The built program.
fn program() -> PathBuf {
    let root = Path::new(env!("CARGO_MANIFEST_DIR")).ancestors().nth(2);
    let root = root.expect("this crate stands two folders below the repository's root");
    let program = root.join("crates/show/out/show");
    assert!(
        program.is_file(),
        "There is no {}: `rt run <stdin`, run in {}, builds it.",
        program.display(),
        root.join("crates/show").display()
    );
    program
}

/// Writes the pieces, with a pause between two of them. A program that reads no more is fine.
fn write_pieces<'a>(mut pipe: ChildStdin, pieces: impl Iterator<Item = &'a [u8]>) {
    for (i, piece) in pieces.enumerate() {
        if i > 0 {
            thread::sleep(PAUSE);
        }
        match pipe.write_all(piece) {
            Err(error) if error.kind() == ErrorKind::BrokenPipe => return,
            result => result.expect("a pipe to the program"),
        }
    }
}

/// Runs the program with this standard input. If it is a pipe, the pieces are written to it.
fn run<'a>(stdin: Stdio, pieces: impl Iterator<Item = &'a [u8]> + Send) -> Output {
    let mut command = Command::new(program());
    let command = command.stdin(stdin).stdout(Stdio::piped());
    let mut child = command.spawn().expect("the program starts");
    let pipe = child.stdin.take();
    thread::scope(|scope| {
        if let Some(pipe) = pipe {
            scope.spawn(|| write_pieces(pipe, pieces));
        }
        child.wait_with_output().expect("the program's output")
    })
}

/// What the model says the program prints for an input.
pub fn show_by_model(input: &[u8]) -> String {
    String::from_utf8(model::show(input)).expect("text")
}

/// What a run of the program printed.
fn printed(output: Output) -> String {
    assert!(output.status.success(), "{}", output.status);
    String::from_utf8_lossy(&output.stdout).into_owned()
}

/// What the program prints for an input.
pub fn show_by_program(input: &[u8]) -> String {
    printed(run(Stdio::piped(), iter::once(input)))
}

/// Compares what the program printed for an input, and gives it.
fn compare(input: &[u8], output: Output) -> String {
    let (got, expected) = (printed(output), show_by_model(input));
    assert_eq!(got, expected, "show of {} bytes, {input:?}", input.len());
    expected
}

/// Compares what the program prints for an input, and gives it.
pub fn show(input: &[u8]) -> String {
    compare(input, run(Stdio::piped(), iter::once(input)))
}

/// Compares what the program prints for an input that comes in pieces of this length, and gives
/// it.
pub fn show_in_pieces(input: &[u8], length: usize) -> String {
    compare(input, run(Stdio::piped(), input.chunks(length)))
}

/// Compares what the program prints with a standard input that is no pipe and holds these bytes,
/// and gives it.
pub fn show_from(stdin: Stdio, input: &[u8]) -> String {
    compare(input, run(stdin, iter::empty()))
}

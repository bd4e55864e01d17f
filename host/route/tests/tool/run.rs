//! Runs of the tool, and files for them.

use std::ffi::OsStr;
use std::fs;
use std::io::{ErrorKind, Write};
use std::path::{Path, PathBuf};
use std::process::{Command, Stdio};

use route_record::{Place, Refusal};

/// What a run printed, and its exit status.
#[derive(Debug, PartialEq)]
pub struct Run {
    pub status: Option<i32>,
    pub stdout: String,
    pub stderr: String,
}

/// A run that printed this on standard output alone.
pub fn printed(status: i32, stdout: &str) -> Run {
    Run {
        status: Some(status),
        stdout: stdout.to_string(),
        stderr: String::new(),
    }
}

/// A run that printed this refusal.
pub fn refused(number: u64, place: Place) -> Run {
    printed(1, &format!("{}\n", Refusal { number, place }))
}

/// A run that printed this refusal of a grammar, with the line that describes the word.
pub fn refused_grammar(number: u64, word: u64, description: &str) -> Run {
    let mut run = refused(number, Place::Word(word));
    run.stdout += &format!("{description}\n");
    run
}

/// A run that failed and said this on standard error alone.
pub fn failed(stderr: &str) -> Run {
    Run {
        status: Some(2),
        stdout: String::new(),
        stderr: stderr.to_string(),
    }
}

/// The tool with these arguments.
pub fn command(arguments: &[impl AsRef<OsStr>]) -> Command {
    let mut command = Command::new(env!("CARGO_BIN_EXE_route"));
    command.args(arguments);
    command
}

/// Runs the tool with these arguments and this standard input.
pub fn route(arguments: &[impl AsRef<OsStr>], stdin: &[u8]) -> Run {
    run(&mut command(arguments), stdin)
}

/// Runs a command with this standard input, which it need not read.
pub fn run(command: &mut Command, stdin: &[u8]) -> Run {
    command.stdin(Stdio::piped()).stdout(Stdio::piped());
    let mut child = command.stderr(Stdio::piped()).spawn().expect("it starts");
    let mut pipe = child.stdin.take().expect("a pipe to it");
    match pipe.write_all(stdin) {
        Err(error) if error.kind() == ErrorKind::BrokenPipe => (),
        written => written.expect("a pipe to it"),
    }
    drop(pipe);
    let output = child.wait_with_output().expect("its output");
    Run {
        status: output.status.code(),
        stdout: String::from_utf8(output.stdout).expect("text"),
        stderr: String::from_utf8(output.stderr).expect("text"),
    }
}

/// The folder of a test, made new.
pub fn folder(test: &str) -> PathBuf {
    let folder = Path::new(env!("CARGO_TARGET_TMPDIR"))
        .join("route")
        .join(test);
    let _ = fs::remove_dir_all(&folder);
    fs::create_dir_all(&folder).expect("a folder for files");
    folder
}

/// A file of these bytes in the folder of a test. Gives its path.
pub fn file(folder: &Path, name: &str, bytes: impl AsRef<[u8]>) -> String {
    let path = folder.join(name);
    fs::write(&path, bytes).expect("a file");
    path.to_str().expect("a path in UTF-8").to_string()
}

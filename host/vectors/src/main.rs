//! Writes the files of vectors, checks files against the library, or prints their calls as a table of
//! C.

use std::path::{Path, PathBuf};
use std::process::ExitCode;
use std::{env, fs, io};

use vectors::{c_table, check, Counts, Vector, FILES};

/// What the program is called with.
const USAGE: &str = "usage: vectors write | vectors check [FILE..] | vectors c";

/// Writes all files.
fn write() -> io::Result<()> {
    fs::create_dir_all(vectors::folder())?;
    for file in &FILES {
        fs::write(file.path(), file.text())?;
    }
    Ok(())
}

/// The calls of all files as a table of C.
fn table() -> Result<String, String> {
    let mut lines = Vec::new();
    for file in &FILES {
        let path = file.path();
        let text = fs::read_to_string(&path).map_err(|error| format!("{path:?}: {error}"))?;
        for line in text.lines() {
            if let Vector::Call(line) = Vector::parse(line)? {
                lines.push(line);
            }
        }
    }
    Ok(c_table(lines.iter().map(|line| &**line)))
}

/// The status of a command, and its error.
fn end(result: Result<(), String>) -> ExitCode {
    match result {
        Ok(()) => ExitCode::SUCCESS,
        Err(error) => {
            eprintln!("{error}");
            ExitCode::FAILURE
        }
    }
}

/// Checks a file.
fn check_file(path: &Path, counts: &mut Counts) {
    let report = |at: usize, what: &str| println!("{}:{at}: {what}", path.display());
    match fs::read_to_string(path) {
        Ok(text) => check(&text, counts, report),
        Err(error) => {
            println!("{}: {error}", path.display());
            counts.failed += 1;
        }
    }
}

fn main() -> ExitCode {
    let arguments: Vec<String> = env::args().skip(1).collect();
    let arguments: Vec<&str> = arguments.iter().map(String::as_str).collect();
    let paths: Vec<PathBuf> = match arguments[..] {
        ["write"] => return end(write().map_err(|error| error.to_string())),
        ["c"] => return end(table().map(|table| print!("{table}"))),
        ["check"] => FILES.iter().map(|file| file.path()).collect(),
        ["check", ref paths @ ..] => paths.iter().map(PathBuf::from).collect(),
        _ => return end(Err(USAGE.to_string())),
    };
    let mut counts = Counts::default();
    paths.iter().for_each(|path| check_file(path, &mut counts));
    println!("{counts}");
    match counts {
        Counts {
            passed: 1..,
            failed: 0,
        } => ExitCode::SUCCESS,
        _ => ExitCode::FAILURE,
    }
}

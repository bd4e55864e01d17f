//! Building and running a broken model.

use std::io::{self, BufRead, BufReader, BufWriter};
use std::path::{Path, PathBuf};
use std::process::{Child, Command, Stdio};
use std::sync::mpsc::{self, RecvTimeoutError};
use std::time::Duration;
use std::{fs, thread};

use super::flat;
use super::switch::Mode;

/// How long a variant may take for all calls.
const TIME: Duration = Duration::from_secs(60);

/// The most memory of a run, in KiB.
const MEMORY: &str = "4194304";

/// A folder in which models are built.
pub(super) struct Folder(PathBuf);

/// What is seen of a place while all calls are made of the sound model.
#[derive(Default)]
pub(super) struct Seen {
    /// The bits of the numbers' type, and the greatest number.
    pub(super) bits: u32,
    pub(super) greatest: u64,
    /// Modes, each with a kind or width or none, and the calls, as a set of bits, in which the place
    /// gives something else so.
    pub(super) ways: Vec<(Mode, u64, Vec<u64>)>,
}

/// What a compiler says against a source: the file, line and column of each error, from 1 on.
pub(super) type Errors = Vec<(String, usize, usize)>;

impl Folder {
    /// Makes the folder, with the calls in it.
    pub(super) fn new(name: &str, calls: &[flat::Call]) -> io::Result<Folder> {
        let path = std::env::temp_dir().join(format!("variants-{}-{name}", std::process::id()));
        fs::create_dir_all(&path)?;
        let mut file = BufWriter::new(fs::File::create(path.join("calls"))?);
        flat::put(&mut file, calls)?;
        Ok(Folder(path))
    }

    fn path(&self, name: &str) -> PathBuf {
        self.0.join(name)
    }

    /// Compiles a crate, or gives the compiler's errors.
    fn compile(&self, level: &str, arguments: &[&str]) -> io::Result<Result<(), (Errors, String)>> {
        let mut command = Command::new("rustc");
        command
            .current_dir(&self.0)
            .args(["--edition", "2021", "--cap-lints", "allow"]);
        command.args([
            "--error-format",
            "short",
            "-C",
            "overflow-checks=off",
            "-C",
            level,
        ]);
        let output = command.args(arguments).output()?;
        let text = String::from_utf8_lossy(&output.stderr).into_owned();
        if output.status.success() {
            return Ok(Ok(()));
        }
        let error = |line: &str| {
            let (place, _) = line.split_once(": error")?;
            let mut parts = place.split(':');
            let file = parts.next()?.to_string();
            Some((
                file,
                parts.next()?.parse().ok()?,
                parts.next()?.parse().ok()?,
            ))
        };
        Ok(Err((text.lines().filter_map(error).collect(), text)))
    }

    /// Builds the program of a model of these files, or gives the compiler's errors.
    pub(super) fn build(
        &self,
        files: &[(String, String)],
        is_fast: bool,
    ) -> io::Result<Result<(), (Errors, String)>> {
        for (name, text) in files {
            let text = match name.as_str() {
                "lib.rs" => format!("{text}\npub mod variant;\n"),
                _ => text.clone(),
            };
            fs::write(self.path(name), text)?;
        }
        for (name, text) in [
            ("variant.rs", include_str!("switch.rs")),
            ("driver.rs", include_str!("driver.rs")),
            ("flat.rs", include_str!("flat.rs")),
            ("child.rs", include_str!("child.rs")),
        ] {
            fs::write(self.path(name), text)?;
        }
        let level = if is_fast {
            "opt-level=2"
        } else {
            "opt-level=0"
        };
        let model = ["--crate-name", "model", "--crate-type", "rlib", "lib.rs"];
        if let Err(errors) = self.compile(level, &model)? {
            return Ok(Err(errors));
        }
        self.compile(level, &["--extern", "model=libmodel.rlib", "child.rs"])
    }

    /// The built program under a limit of its memory.
    fn program(&self, arguments: &[&str]) -> io::Result<Child> {
        let limited = format!("ulimit -v {MEMORY} && exec \"$0\" \"$@\"");
        let mut command = Command::new("sh");
        command
            .arg("-c")
            .arg(limited)
            .arg(self.path("child"))
            .arg(self.path("calls"));
        command
            .args(arguments)
            .stdin(Stdio::null())
            .stderr(Stdio::null());
        command.stdout(Stdio::piped()).spawn()
    }

    /// What is seen of each place of a sound model, which can be broken in these modes.
    pub(super) fn survey(&self, modes: &[Vec<Mode>]) -> io::Result<Vec<Seen>> {
        let line = |modes: &Vec<Mode>| {
            let modes: Vec<String> = modes.iter().map(Mode::to_string).collect();
            modes.join(" ") + "\n"
        };
        let path = self.path("modes");
        fs::write(&path, modes.iter().map(line).collect::<String>())?;
        let output = self.program(&["survey", &path.to_string_lossy()])?;
        let output = output.wait_with_output()?;
        let mut seen: Vec<Seen> = Vec::new();
        for line in String::from_utf8_lossy(&output.stdout).lines() {
            let (first, rest) = line.split_once(' ').unwrap_or((line, ""));
            let numbers = rest
                .split_whitespace()
                .map(|number| number.parse().expect("a number"));
            let numbers: Vec<u64> = numbers.collect();
            match (first, seen.last_mut()) {
                ("place", _) => seen.push(Seen {
                    bits: numbers[0] as u32,
                    greatest: numbers[1],
                    ..Seen::default()
                }),
                (mode, last) => {
                    let last = last.expect("a place");
                    last.ways.push((
                        mode.parse().expect("a mode"),
                        numbers[0],
                        numbers[1..].to_vec(),
                    ));
                }
            }
        }
        match seen.len() == modes.len() && output.status.success() {
            true => Ok(seen),
            false => Err(io::Error::other(
                "the model does not answer as the vectors say",
            )),
        }
    }

    /// Runs the listed variants; gives for each the vector that catches it, or none.
    pub(super) fn run(&self, list: &[String]) -> io::Result<Vec<Option<String>>> {
        let path = self.path("list");
        fs::write(&path, list.join("\n") + "\n")?;
        let mut results = Vec::new();
        while results.len() < list.len() {
            self.run_from(&path, list.len(), &mut results)?;
        }
        Ok(results)
    }

    /// Runs the variants that have no result yet, up to one that does not end or that ends the
    /// program, which is caught by that.
    fn run_from(
        &self,
        list: &Path,
        length: usize,
        results: &mut Vec<Option<String>>,
    ) -> io::Result<()> {
        let from = results.len().to_string();
        let mut child = self.program(&["run", &list.to_string_lossy(), &from])?;
        let pipe = child.stdout.take().expect("a pipe");
        let (to, lines) = mpsc::channel();
        let reader = thread::spawn(move || {
            for line in BufReader::new(pipe).lines().map_while(Result::ok) {
                if to.send(line).is_err() {
                    return;
                }
            }
        });
        while results.len() < length {
            match lines.recv_timeout(TIME) {
                Ok(line) => results.push(line.strip_prefix("caught ").map(str::to_string)),
                Err(error) => {
                    let why = match error {
                        RecvTimeoutError::Timeout => "it does not end",
                        RecvTimeoutError::Disconnected => "it ends the program",
                    };
                    results.push(Some(why.to_string()));
                    break;
                }
            }
        }
        // The program has ended, or it runs a variant that does not end.
        child.kill().ok();
        child.wait()?;
        reader.join().ok();
        Ok(())
    }
}

impl Drop for Folder {
    fn drop(&mut self) {
        fs::remove_dir_all(&self.0).ok();
    }
}

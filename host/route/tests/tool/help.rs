//! The help, whose examples are run as they stand, and the version.

use std::env;
use std::iter;
use std::path::Path;
use std::process::Command;

use route_record::{Kind, KINDS};

use crate::run::{folder, printed, route, run, Run};

const COMMANDS: [&str; 10] = [
    "check", "tree", "same", "accepts", "choose", "size", "preview", "export", "import", "words",
];

/// The example of each command that a help shows: the line, and what it prints.
fn examples(help: &str) -> Vec<(String, String)> {
    let mut examples: Vec<(String, String)> = Vec::new();
    let mut printing = false;
    for line in help.lines() {
        match (line.strip_prefix("    $ "), line.strip_prefix("    ")) {
            (Some(example), _) => {
                examples.push((example.to_string(), String::new()));
                printing = true;
            }
            (None, Some(printed)) if printing => {
                let (_, all) = examples.last_mut().expect("an example");
                *all += &format!("{printed}\n");
            }
            _ => printing = false,
        }
    }
    examples
}

/// Runs a line as a shell does that finds the tool, in a folder of its own.
fn typed(line: &str, name: &str) -> Run {
    let tool = Path::new(env!("CARGO_BIN_EXE_route"))
        .parent()
        .expect("a folder");
    let path = env::var_os("PATH").expect("a search path");
    let folders = iter::once(tool.to_path_buf()).chain(env::split_paths(&path));
    let path = env::join_paths(folders).expect("a search path");
    let mut shell = Command::new("sh");
    shell
        .args(["-c", line])
        .env("PATH", path)
        .current_dir(folder(name));
    run(&mut shell, b"")
}

#[test]
fn the_examples_print_what_the_help_says() {
    let help = route(&["help"], b"").stdout;
    let examples = examples(&help);
    assert_eq!(examples.len(), COMMANDS.len());
    for ((line, expected), command) in examples.iter().zip(COMMANDS) {
        assert!(line.contains(&format!("route {command} ")), "{line}");
        let got = typed(line, &format!("example_of_{command}"));
        assert_eq!((&got.stdout, got.stderr.as_str()), (expected, ""), "{line}");
        assert_eq!(got.status, Some(0), "{line}");
    }
}

#[test]
fn the_readme_shows_the_example_of_tree() {
    let readme = include_str!("../../../../README.md");
    let help = route(&["help", "tree"], b"").stdout;
    let (line, printed) = &examples(&help)[0];
    let line = line.replace("| route ", "| host/target/release/route ");
    assert!(readme.contains(&format!("    {line}\n")), "{line}");
    let printed: String = printed
        .lines()
        .map(|line| format!("    {line}\n"))
        .collect();
    assert!(readme.contains(&printed), "{printed}");
}

#[test]
fn the_grammar_of_the_help_is_one() {
    let help = route(&["help"], b"").stdout;
    let start = help.find("    point = ").expect("a definition");
    let grammar: Vec<&str> = help[start..].lines().take(2).collect();
    let got = route(&["check", "-g", &grammar.join("\n")], b"");
    assert_eq!(got, printed(0, "accepted: nodes 4, child words 3\n"));
}

#[test]
fn every_way_to_ask_for_help() {
    let help = route(&["help"], b"");
    assert_eq!((help.status, help.stderr.as_str()), (Some(0), ""));
    for ask in ["--help", "-h"] {
        assert_eq!(route(&[ask], b""), help);
    }
    for command in COMMANDS {
        let of_command = route(&["help", command], b"");
        assert_eq!(
            (of_command.status, of_command.stderr.as_str()),
            (Some(0), "")
        );
        assert_eq!(route(&[command, "--help"], b""), of_command);
        assert_eq!(route(&[command, "-h", "missing"], b""), of_command);
        let all = examples(&help.stdout);
        let own = examples(&of_command.stdout);
        assert!(own.len() == 1 && all.contains(&own[0]), "{command}");
        assert!(own[0].0.contains(&format!("route {command} ")), "{command}");
    }
}

#[test]
fn the_help_names_every_kind_and_fits_a_terminal() {
    let help = route(&["help"], b"").stdout;
    let (_, types) = help.split_once("T is again a type:\n").expect("the types");
    let (types, _) = types.split_once("\nDefinitions ").expect("their end");
    let forms = types.replace('\n', " ") + ",";
    for form in KINDS.iter().map(Kind::form) {
        assert!(forms.contains(&format!(" {form},")), "{form}");
    }
    // An example is a line to be typed as it stands.
    let lines = help.lines().filter(|line| !line.starts_with("    $ "));
    let widest = lines
        .max_by_key(|line| line.chars().count())
        .expect("lines");
    assert!((60..=80).contains(&widest.chars().count()), "{widest}");
}

#[test]
fn version() {
    let version = format!("route {}\n", env!("CARGO_PKG_VERSION"));
    for ask in ["--version", "-V"] {
        assert_eq!(route(&[ask], b""), printed(0, &version));
    }
}

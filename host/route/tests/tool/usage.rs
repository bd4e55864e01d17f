//! Bad usage, files that cannot be read, texts that are wrong, and outputs that close.

use std::ffi::OsStr;
use std::fs::File;
use std::io::Write;
use std::os::unix::ffi::OsStrExt;
use std::process::Stdio;

use crate::run::{command, failed, file, folder, printed, route, run};

/// Checks what is said to a command line, which is split at its spaces.
fn assert_misused(line: &str, fault: &str) {
    let arguments: Vec<&str> = line.split_whitespace().collect();
    let expected = failed(&format!("route: {fault}\nTry 'route help'.\n"));
    assert_eq!(route(&arguments, b""), expected, "{line:?}");
}

#[test]
fn commands_and_options_that_are_none() {
    for (line, fault) in [
        ("", "a command is missing"),
        ("show", "there is no command 'show'"),
        ("help show", "there is no command 'show'"),
        ("help tree same", "there are too many arguments"),
        ("--version x", "there are too many arguments"),
        ("tree --raw", "there is no option '--raw'"),
        ("tree -x", "there is no option '-x'"),
        ("tree -g", "-g wants a value"),
        ("size --index", "--index wants a value"),
        (
            "size --index -1",
            "--index wants a number below 2^64, not '-1'",
        ),
        (
            "size --index=1.5",
            "--index wants a number below 2^64, not '1.5'",
        ),
        ("check --rows", "--rows wants a value"),
        (
            "check -gu32 - --rows -1",
            "--rows wants a number below 2^64, not '-1'",
        ),
        (
            "check -gu32 - --rows=18446744073709551616",
            "--rows wants a number below 2^64, not '18446744073709551616'",
        ),
        (
            "check -gu32 - --rows=",
            "--rows wants a number below 2^64, not ''",
        ),
        (
            "check -gu32 - --rows 1,024",
            "--rows wants a number below 2^64, not '1,024'",
        ),
        ("tree --all=1", "there is no option '--all=1'"),
        ("tree -gu32 --index 0 --index=1 -", "--index is given twice"),
        ("check -gu32 - --rows 1 --rows=1", "--rows is given twice"),
        ("words --c a --c b -gu32", "--c is given twice"),
        ("words --c int -gu32", "--c wants a name in C, not 'int'"),
        ("words --c", "--c wants a value"),
        ("words --c 3x", "--c wants a name in C, not '3x'"),
        ("words --c=", "--c wants a name in C, not ''"),
        ("words --c=a-b", "--c wants a name in C, not 'a-b'"),
    ] {
        assert_misused(line, fault);
    }
}

#[test]
fn arguments_that_a_command_does_not_take() {
    let check = "route check GRAMMAR [RECORD [--rows N]]";
    let tree = "route tree GRAMMAR RECORD [--index I] [--all]";
    let same = "route same GRAMMAR FIRST SECOND";
    let accepts = "route accepts GRAMMAR RECORD";
    let choose = "route choose GRAMMAR.. RECORD";
    let preview = "route preview GRAMMAR RECORD OUTPUT [--index I]";
    let export = "route export GRAMMAR RECORD";
    let import = "route import GRAMMAR XDR";
    let words = "route words GRAMMAR [--c NAME]";
    for (line, fault, usage) in [
        ("check", "the grammar is missing", check),
        ("tree g", "a record is missing", tree),
        ("tree -g u32", "a record is missing", tree),
        (
            "tree -g u32 --grammar u64 r",
            "the grammar is given twice",
            tree,
        ),
        (
            "words -gu32 --grammar=u64",
            "the grammar is given twice",
            words,
        ),
        ("same g r", "a record is missing", same),
        ("accepts", "the grammar is missing", accepts),
        ("accepts -g u32", "a record is missing", accepts),
        ("accepts g r r", "there are too many arguments", accepts),
        (
            "accepts -g u32 -g u64 r",
            "the grammar is given twice",
            accepts,
        ),
        (
            "accepts g r --rows 1",
            "--rows is for another command",
            accepts,
        ),
        (
            "accepts - -",
            "standard input can be only one of them",
            accepts,
        ),
        ("choose", "the grammar is missing", choose),
        ("choose g", "a record is missing", choose),
        ("choose -g u32 -g u64", "a record is missing", choose),
        ("choose -g u32 g r", "there are too many arguments", choose),
        (
            "choose g g r --index 0",
            "--index is for another command",
            choose,
        ),
        ("preview", "the grammar is missing", preview),
        ("preview -g u32", "a record is missing", preview),
        ("preview g r", "the output is missing", preview),
        ("preview --hex -g u32 r", "the output is missing", preview),
        ("preview g r o o", "there are too many arguments", preview),
        ("export g", "a record is missing", export),
        ("export g r o", "there are too many arguments", export),
        (
            "export g r --index 0",
            "--index is for another command",
            export,
        ),
        ("import -g u32", "a record is missing", import),
        ("import g r r", "there are too many arguments", import),
        (
            "import g r --rows 1",
            "--rows is for another command",
            import,
        ),
        ("tree g r r", "there are too many arguments", tree),
        ("words -g u32 g", "there are too many arguments", words),
        ("words g --hex", "--hex is for records", words),
        ("check g --hex", "--hex is for records", check),
        ("check g --rows 0", "--rows is for records", check),
        ("check g --index 0", "--index is for another command", check),
        ("tree g r --rows 1", "--rows is for another command", tree),
        ("same g r r --rows 1", "--rows is for another command", same),
        (
            "choose g r --rows 1",
            "--rows is for another command",
            choose,
        ),
        ("same g r r --all", "--all is for another command", same),
        ("tree g r --c n", "--c is for another command", tree),
        (
            "preview g r o --all",
            "--all is for another command",
            preview,
        ),
        ("tree - -", "standard input can be only one of them", tree),
        (
            "same -g u32 - -",
            "standard input can be only one of them",
            same,
        ),
        (
            "preview -g u32 - -",
            "standard input can be only one of them",
            preview,
        ),
        (
            "preview - r -",
            "standard input can be only one of them",
            preview,
        ),
        (
            "choose g - -",
            "standard input can be only one of them",
            choose,
        ),
        (
            "choose - - r",
            "standard input can be only one of them",
            choose,
        ),
    ] {
        assert_misused(line, &format!("{fault}: {usage}"));
    }
}

#[test]
fn files_that_cannot_be_read() {
    let folder = folder("unreadable");
    let grammar = &file(&folder, "grammar", "u32");
    let missing = &folder.join("missing").display().to_string();
    let directory = &folder.display().to_string();
    for arguments in [
        &["tree", missing, grammar][..],
        &["tree", grammar, missing],
        &["preview", grammar, missing, grammar],
        &["preview", grammar, grammar, missing],
        &["choose", grammar, missing, grammar],
        &["choose", grammar, grammar, missing],
    ] {
        let got = route(arguments, b"");
        let start = format!("route: cannot read {missing}: ");
        assert!(got.stderr.starts_with(&start), "{got:?}");
        assert_eq!((got.status, got.stdout.as_str()), (Some(2), ""));
    }
    let got = route(&["check", directory], b"");
    let start = format!("route: cannot read {directory}: ");
    assert!(got.stderr.starts_with(&start), "{got:?}");
    assert_eq!((got.status, got.stdout.as_str()), (Some(2), ""));
}

#[test]
fn a_wrong_text_is_said_with_its_source_line_and_column() {
    let folder = folder("wrong_text");
    let grammar = &file(&folder, "grammar.txt", "# a route\ntuple(bytes,  x)\n");
    let expected = "expected a kind or a name defined before, found 'x'\n";
    let got = route(&["check", grammar], b"");
    assert_eq!(got, failed(&format!("{grammar}:2:15: {expected}")));
    let got = route(&["check", "-"], b"array(x)");
    assert_eq!(got, failed(&format!("standard input:1:7: {expected}")));
    let got = route(&["check", "-g", "x"], b"");
    assert_eq!(got, failed(&format!("--grammar:1:1: {expected}")));
    let got = route(&["choose", "-g", "u32", "-g", "x", "-"], b"");
    let numbered = format!("grammar 1: --grammar:1:1: {expected}");
    assert_eq!(got, failed(&numbered));
    let sound = &file(&folder, "sound.txt", "u32");
    let got = route(&["choose", sound, grammar, "-"], b"");
    assert_eq!(got, failed(&format!("{grammar}:2:15: {expected}")));

    let digit = "expected a hexadecimal digit, found";
    let got = route(&["check", "-g", "u32", "--hex", "-"], b"0700\n0 000x");
    assert_eq!(got, failed(&format!("standard input:2:6: {digit} 'x'\n")));
    let record = &file(&folder, "record.hex", "07000000");
    let got = route(&["preview", "-g", "u32", "--hex", record, "-"], b"0g");
    assert_eq!(got, failed(&format!("standard input:1:2: {digit} 'g'\n")));
}

#[test]
fn bytes_that_are_not_utf_8() {
    let folder = folder("not_utf_8");
    let expected = "expected UTF-8 text, found byte 0xff\n";
    let grammar = &file(&folder, "grammar", b"u32 # \xff");
    let got = route(&["check", grammar], b"");
    assert_eq!(got, failed(&format!("{grammar}:1:7: {expected}")));
    let got = route(&["check", "-g", "u32", "--hex", "-"], b"07\n\xff");
    assert_eq!(got, failed(&format!("standard input:2:1: {expected}")));

    let text = [
        OsStr::new("check"),
        OsStr::new("-g"),
        OsStr::from_bytes(b"\xff"),
    ];
    let fault = "route: the value of -g is not UTF-8\nTry 'route help'.\n";
    assert_eq!(route(&text, b""), failed(fault));
    let text = [OsStr::new("check"), OsStr::from_bytes(b"-g\xff")];
    let fault = "route: the option '-g\u{fffd}' is not UTF-8\nTry 'route help'.\n";
    assert_eq!(route(&text, b""), failed(fault));

    let name = OsStr::from_bytes(b"\xff.grammar");
    File::create(folder.join(name))
        .unwrap()
        .write_all(b"u32")
        .unwrap();
    let got = run(
        command(&[OsStr::new("check"), name]).current_dir(&folder),
        b"",
    );
    assert_eq!(got, printed(0, "accepted: nodes 1, child words 0\n"));
}

#[test]
fn behind_two_dashes_everything_is_a_file() {
    let folder = folder("dashes");
    file(&folder, "--hex", "u32");
    let got = run(command(&["check", "--", "--hex"]).current_dir(&folder), b"");
    assert_eq!(got, printed(0, "accepted: nodes 1, child words 0\n"));
}

/// The record comes when the reader of the output is gone, so every write meets a closed pipe.
#[test]
fn a_reader_that_goes_early_is_no_fault() {
    let mut tree = command(&["tree", "-g", "array(u32)", "-"]);
    tree.stdin(Stdio::piped())
        .stdout(Stdio::piped())
        .stderr(Stdio::piped());
    let mut child = tree.spawn().expect("it starts");
    drop(child.stdout.take());
    let record = [&4_000_u64.to_le_bytes()[..], &[7; 16_000]].concat();
    let mut stdin = child.stdin.take().expect("a pipe to it");
    stdin.write_all(&record).expect("a pipe to it");
    drop(stdin);
    let output = child.wait_with_output().expect("its output");
    assert_eq!(output.status.code(), Some(0));
    assert_eq!(String::from_utf8_lossy(&output.stderr), "");
}

#[test]
fn an_output_that_takes_nothing_is_a_fault() {
    let full = File::options().write(true).open("/dev/full");
    let mut check = command(&["check", "-g", "u32"]);
    check.stdout(full.expect("a device that is always full"));
    let output = check.output().expect("its output");
    assert_eq!(output.status.code(), Some(2));
    let said = String::from_utf8_lossy(&output.stderr);
    assert!(
        said.starts_with("route: cannot write the answer: "),
        "{said}"
    );
}

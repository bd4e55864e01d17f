//! The command line.

use std::ffi::{OsStr, OsString};
use std::slice::Iter;

use route_record::{Grammar, GrammarList};

use crate::answer::Stop;
use crate::commands::{Command, COMMANDS};
use crate::source::Source;

/// What a command line asks for.
pub enum Request {
    /// The help for a command, or for all.
    Help(Option<&'static Command>),
    Version,
    Run(&'static Command, Arguments),
}

/// What a command is given.
pub struct Arguments {
    /// One grammar, or several for a command that takes a list.
    pub grammars: Vec<Source>,
    pub records: Vec<Source>,
    /// Where a record would be written, for a command that takes it.
    pub output: Option<Source>,
    /// Whether the records and the output are hexadecimal digits.
    pub hex: bool,
    /// Where the value starts, or would in the output, if that was given.
    pub index: Option<usize>,
    /// The capacity of a check, if one was given.
    pub rows: Option<usize>,
    /// Whether all elements are to be shown.
    pub all: bool,
    /// The name of an array in C, if one is wanted.
    pub c: Option<String>,
}

impl Arguments {
    pub fn grammar(&self) -> Result<Grammar, Stop> {
        self.grammars[0].grammar()
    }

    /// The list of the grammars. A refusal of one says its number, and so does a wrong text that no
    /// file holds.
    pub fn list(&self) -> Result<GrammarList, Stop> {
        let mut grammars = Vec::new();
        for (number, source) in self.grammars.iter().enumerate() {
            let numbered = |lines| format!("grammar {number}: {lines}");
            grammars.push(source.grammar().map_err(|stop| match (stop, source) {
                (Stop::Refused(lines), _) => Stop::Refused(numbered(lines)),
                (Stop::Failed(lines), Source::Text(_)) => Stop::Failed(numbered(lines)),
                (stop, _) => stop,
            })?);
        }
        Ok(GrammarList::new(&grammars)?)
    }

    /// The record with this number among those given.
    pub fn record(&self, number: usize) -> Result<Vec<u8>, Stop> {
        self.records[number].record(self.hex)
    }

    /// The content of the output, for a command that takes it.
    pub fn output(&self) -> Result<Vec<u8>, Stop> {
        let output = self.output.as_ref().expect("the command takes an output");
        output.output(self.hex, self.index.unwrap_or(0))
    }
}

/// What stands behind a command's name: options, and the arguments that are none.
#[derive(Default)]
struct Given<'a> {
    help: bool,
    hex: bool,
    all: bool,
    grammars: Vec<&'a str>,
    index: Option<usize>,
    rows: Option<usize>,
    c: Option<&'a str>,
    /// The options by name.
    options: Vec<&'a str>,
    names: Vec<&'a OsString>,
}

/// Bad usage, and what is wrong.
fn misused(fault: &str) -> Stop {
    Stop::Failed(format!("route: {fault}\nTry 'route help'.\n"))
}

impl Request {
    /// The request of the arguments behind the program's name.
    pub fn parse(arguments: &[OsString]) -> Result<Request, Stop> {
        let Some((first, rest)) = arguments.split_first() else {
            return Err(misused("a command is missing"));
        };
        match (first.to_str(), rest) {
            (Some("help" | "-h" | "--help"), []) => Ok(Request::Help(None)),
            (Some("help"), [name]) => Ok(Request::Help(Some(command(name)?))),
            (Some("-V" | "--version"), []) => Ok(Request::Version),
            (Some("help" | "-h" | "--help" | "-V" | "--version"), _) => {
                Err(misused("there are too many arguments"))
            }
            _ => {
                let (command, given) = (command(first)?, Given::parse(rest)?);
                match given.help {
                    true => Ok(Request::Help(Some(command))),
                    false => Ok(Request::Run(command, given.arguments_of(command)?)),
                }
            }
        }
    }
}

fn command(name: &OsStr) -> Result<&'static Command, Stop> {
    let found = COMMANDS.iter().find(|command| name == command.name);
    found.ok_or_else(|| misused(&format!("there is no command '{}'", name.display())))
}

impl<'a> Given<'a> {
    fn parse(arguments: &'a [OsString]) -> Result<Given<'a>, Stop> {
        let mut given = Given::default();
        let mut rest = arguments.iter();
        while let Some(argument) = rest.next() {
            match argument.to_str() {
                Some("--") => given.names.extend(rest.by_ref()),
                Some(option) if option.starts_with('-') && option != "-" => {
                    given.take(option, &mut rest)?;
                }
                None if argument.as_encoded_bytes().starts_with(b"-") => {
                    let option = argument.to_string_lossy();
                    return Err(misused(&format!("the option '{option}' is not UTF-8")));
                }
                _ => given.names.push(argument),
            }
        }
        Ok(given)
    }

    /// Takes an option, whose value is `-gTEXT`, `--grammar=TEXT` or the argument behind it.
    fn take(&mut self, whole: &'a str, rest: &mut Iter<'a, OsString>) -> Result<(), Stop> {
        let (option, attached) = match (whole.split_once('='), whole.strip_prefix("-g")) {
            (Some((option, value)), None) => (option, Some(value)),
            (_, Some(value)) if !value.is_empty() => ("-g", Some(value)),
            _ => (whole, None),
        };
        let mut value = || attached.map_or_else(|| value_behind(option, rest), Ok);
        if matches!(option, "--index" | "--rows" | "--c") && self.options.contains(&option) {
            return Err(misused(&format!("{option} is given twice")));
        }
        match (option, attached) {
            ("-h" | "--help", None) => self.help = true,
            ("--hex", None) => self.hex = true,
            ("--all", None) => self.all = true,
            ("-g" | "--grammar", _) => self.grammars.push(value()?),
            ("--index", _) => self.index = Some(number(option, value()?)?),
            ("--rows", _) => self.rows = Some(number(option, value()?)?),
            ("--c", _) => {
                let name = value()?;
                if !is_c_name(name) {
                    let fault = format!("{option} wants a name in C, not '{name}'");
                    return Err(misused(&fault));
                }
                self.c = Some(name);
            }
            _ => return Err(misused(&format!("there is no option '{whole}'"))),
        }
        self.options.push(option);
        Ok(())
    }

    /// The first option that only other commands take.
    fn stray_option(&self, command: &Command) -> Option<&'a str> {
        let is_stray = |option: &&str| {
            let is_of = |command: &Command| command.options.contains(option);
            COMMANDS.iter().any(is_of) && !is_of(command)
        };
        self.options.iter().copied().find(is_stray)
    }

    /// What the command is given, if it takes this.
    fn arguments_of(self, command: &Command) -> Result<Arguments, Stop> {
        let fault = |fault: &str| Err(misused(&format!("{fault}: {}", command.usage())));
        let stray = self.stray_option(command);
        let texts = self.grammars.iter();
        let texts = texts.map(|text| Source::Text(text.to_string()));
        let mut sources = texts.chain(self.names.iter().map(|name| Source::of(name)));
        let (least, most) = command.count.clone().into_inner();
        // Where there is no text, names are grammars: the first, for a list all but the record's.
        let grammar_count = match self.grammars.len() {
            0 if command.takes_list => self.names.len().saturating_sub(most).max(1),
            0 => 1,
            count => count,
        };
        let grammars: Vec<Source> = sources.by_ref().take(grammar_count).collect();
        if grammars.is_empty() {
            return fault("the grammar is missing");
        }
        if grammars.len() > 1 && !command.takes_list {
            return fault("the grammar is given twice");
        }
        if let Some(option) = stray {
            return fault(&format!("{option} is for another command"));
        }
        let mut records: Vec<Source> = sources.collect();
        let has_output = command.takes_output && records.len() > most;
        let output = has_output.then(|| records.pop()).flatten();
        let is_stdin = |source: &&Source| **source == Source::StandardInput;
        let sources = records.iter().chain(&output).chain(&grammars);
        let (count, stdin_uses) = (records.len(), sources.filter(is_stdin).count());
        let faults = [
            (count < least, "a record is missing"),
            (count > most, "there are too many arguments"),
            (command.takes_output && !has_output, "the output is missing"),
            (self.hex && count == 0, "--hex is for records"),
            (self.rows.is_some() && count == 0, "--rows is for records"),
            (stdin_uses > 1, "standard input can be only one of them"),
        ];
        if let Some((_, words)) = faults.iter().find(|(is_so, _)| *is_so) {
            return fault(words);
        }
        Ok(Arguments {
            grammars,
            records,
            output,
            hex: self.hex,
            index: self.index,
            rows: self.rows,
            all: self.all,
            c: self.c.map(str::to_string),
        })
    }
}

/// The argument behind an option.
fn value_behind<'a>(option: &str, rest: &mut Iter<'a, OsString>) -> Result<&'a str, Stop> {
    let value = rest.next();
    let value = value.ok_or_else(|| misused(&format!("{option} wants a value")))?;
    let text = value.to_str();
    text.ok_or_else(|| misused(&format!("the value of {option} is not UTF-8")))
}

/// The number that is the value of an option.
fn number(option: &str, value: &str) -> Result<usize, Stop> {
    let fault = format!("{option} wants a number below 2^64, not '{value}'");
    value.parse().map_err(|_| misused(&fault))
}

/// The keywords of C, with those that became one in C23 and are macros before. Names that begin with
/// `_` are reserved in part, and taken.
const C_KEYWORDS: [&str; 37] = [
    "auto", "break", "case", "char", "const", "continue", "default", "do", "double", "else",
    "enum", "extern", "float", "for", "goto", "if", "inline", "int", "long", "register",
    "restrict", "return", "short", "signed", "sizeof", "static", "struct", "switch", "typedef",
    "union", "unsigned", "void", "volatile", "while", "bool", "true", "false",
];

fn is_c_name(name: &str) -> bool {
    let is_part = |c: char| c.is_ascii_alphanumeric() || c == '_';
    let is_name = name.chars().all(is_part) && name.starts_with(|c: char| !c.is_ascii_digit());
    is_name && !C_KEYWORDS.contains(&name)
}

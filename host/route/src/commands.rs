//! The commands.

use std::ops::RangeInclusive;

use route_record::MAX_ROWS;

use crate::answer::Stop;
use crate::arguments::Arguments;
use crate::hex::hex_lines;
use crate::tree::{tree, SHOWN};

/// A command: what it takes, what the help says of it, and what it does.
pub struct Command {
    pub name: &'static str,
    /// Whether it takes several grammars.
    pub takes_list: bool,
    /// How many records it takes.
    pub count: RangeInclusive<usize>,
    /// Whether an output stands behind the records.
    pub takes_output: bool,
    /// The options that not every command takes.
    pub options: &'static [&'static str],
    /// What it takes behind its grammars, as the help writes it.
    pub records: &'static str,
    pub summary: &'static str,
    /// A line that can be typed.
    pub example: &'static str,
    /// What the example prints.
    pub printed: &'static str,
    /// Gives what is printed.
    pub run: fn(&Arguments) -> Result<String, Stop>,
}

impl Command {
    /// How the command is written.
    pub fn usage(&self) -> String {
        let dots = if self.takes_list { ".." } else { "" };
        format!("route {} GRAMMAR{dots} {}", self.name, self.records)
            .trim_end()
            .to_string()
    }
}

/// All commands, in the order of the help.
pub static COMMANDS: [Command; 10] = [
    Command {
        name: "check",
        takes_list: false,
        count: 0..=1,
        takes_output: false,
        options: &["--rows"],
        records: "[RECORD [--rows N]]",
        summary: "Says whether the grammar is accepted, or the whole record under it as a\n\
                  value of at most N rows. If an accepted record loses its tail, what is\n\
                  left is refused with 9 under the same grammar and N. A 9 may have another\n\
                  cause.",
        example: "echo 07000000 0200000000000000 4142 | \
                  route check -g 'tuple(u32, bytes)' --hex - --rows 3",
        printed: "accepted: rows 3, bytes 14\n",
        run: check,
    },
    Command {
        name: "tree",
        takes_list: false,
        count: 1..=1,
        takes_output: false,
        options: &["--index", "--all"],
        records: "RECORD [--index I] [--all]",
        summary: "Shows a line for each row of the value, and where each value starts.",
        example: "echo 07000000 0200000000000000 4142 | route tree -g 'tuple(u32, bytes)' --hex -",
        printed: "byte  0  tuple of 2\nbyte  0    u32 7\nbyte  4    bytes of 2: 41 42\n",
        run: show_tree,
    },
    Command {
        name: "same",
        takes_list: false,
        count: 2..=2,
        takes_output: false,
        options: &[],
        records: "FIRST SECOND",
        summary: "Says whether two records are of the same route, and so does the status.\n\
                  If the root is a tuple, its first field, whatever its type, does not count.",
        example: "echo 07000000 05000000 >first.hex; echo 08000000 05000000 | \
                  route same -g 'tuple(u32, u32)' --hex first.hex -",
        printed: "same\n",
        run: same,
    },
    Command {
        name: "accepts",
        takes_list: false,
        count: 1..=1,
        takes_output: false,
        options: &[],
        records: "RECORD",
        summary: "Says whether the whole record is accepted, and so does the status, and how\n\
                  many values were begun. A record longer than 1,048,576 bytes, or shorter\n\
                  than every value of the grammar, is not read: no, and 0 values begun.",
        example: "echo 07000000 0200000000000000 4142 | \
                  route accepts -g 'tuple(u32, bytes)' --hex -",
        printed: "yes, values begun 3\n",
        run: accepts,
    },
    Command {
        name: "choose",
        takes_list: true,
        count: 1..=1,
        takes_output: false,
        options: &[],
        records: "RECORD",
        summary: "Gives the first of up to 16 grammars that accepts the whole record, counted\n\
                  from 0, and how many values were begun by all tries, the refused ones too.\n\
                  All grammars are checked first. The refusal of one says its number, and\n\
                  its place is a word of that grammar's own table.",
        example: "echo 07000000 0200000000000000 4142 | \
                  route choose -g u32 -g 'array(constant)' -g 'tuple(u32, bytes)' --hex -",
        printed: "grammar 2, values begun 5\n",
        run: choose,
    },
    Command {
        name: "size",
        takes_list: false,
        count: 1..=1,
        takes_output: false,
        options: &["--index"],
        records: "RECORD [--index I]",
        summary: "Gives the size of the value that starts at byte I. Bytes may follow it.",
        example: "echo ffff 07000000 ff | route size -g u32 --hex - --index 2",
        printed: "rows 1, bytes 4\n",
        run: size,
    },
    Command {
        name: "preview",
        takes_list: false,
        count: 1..=1,
        takes_output: true,
        options: &["--index"],
        records: "RECORD OUTPUT [--index I]",
        summary: "Says how many bytes writing the record at byte I of the output would write,\n\
                  and how many bytes of the output would be different then. Changes nothing.\n\
                  The record is read whole first; refusal 17 is at a byte of the output.",
        example: "echo 07000000 05000000 >record.hex; echo 07000000 06000000 ff | \
                  route preview -g 'tuple(u32, u32)' --hex record.hex -",
        printed: "bytes 8, different 1\n",
        run: preview,
    },
    Command {
        name: "export",
        takes_list: false,
        count: 1..=1,
        takes_output: false,
        options: &[],
        records: "RECORD",
        summary: "Reads the whole record and prints the XDR of its value, the bytes of\n\
                  RFC 4506, in hexadecimal digits.",
        example: "echo 07000000 0200000000000000 4142 | \
                  route export -g 'tuple(u32, bytes)' --hex -",
        printed: "00000007 00000002 41420000\n",
        run: export,
    },
    Command {
        name: "import",
        takes_list: false,
        count: 1..=1,
        takes_output: false,
        options: &[],
        records: "XDR",
        summary: "Reads the whole XDR and prints the record of its value, in hexadecimal\n\
                  digits. A value that XDR can hold may be too long for a record: refusal 16.",
        example: "echo 00000007 00000002 41420000 | \
                  route import -g 'tuple(u32, bytes)' --hex -",
        printed: "07000000 02000000 00000000 4142\n",
        run: import,
    },
    Command {
        name: "words",
        takes_list: false,
        count: 0..=0,
        takes_output: false,
        options: &["--c"],
        records: "[--c NAME]",
        summary: "Prints the words of the grammar's table, or with --c an array in C of them.",
        example: "route words -g 'tuple(u32, bytes)' --c route_grammar",
        printed:
            "static const uint32_t route_grammar[] = {\n    3,\n    4, 0, 2,\n    1, 0, 0,\n    \
                  5, 0, 0,\n    2,\n    1, 2,\n};\n",
        run: words,
    },
];

fn check(arguments: &Arguments) -> Result<String, Stop> {
    let grammar = arguments.grammar()?;
    let counts = if arguments.records.is_empty() {
        let [nodes, _, child_words, _] = grammar.sections();
        format!("nodes {}, child words {}", nodes[0], child_words[0])
    } else {
        // The rows that `tree` has, so that both accept the same records.
        let capacity = arguments.rows.unwrap_or(MAX_ROWS);
        let parsed = grammar.check_whole_with(&arguments.record(0)?, capacity)?;
        format!("rows {}, bytes {}", parsed.rows, parsed.rest_index)
    };
    Ok(format!("accepted: {counts}\n"))
}

fn show_tree(arguments: &Arguments) -> Result<String, Stop> {
    let grammar = arguments.grammar()?;
    let record = arguments.record(0)?;
    let value = match arguments.index {
        Some(index) => grammar.parse_val_vec(&record, index)?.0,
        None => grammar.demarshall_vec(&record)?,
    };
    let shown = if arguments.all { usize::MAX } else { SHOWN };
    Ok(tree(&value, arguments.index.unwrap_or(0), shown))
}

fn same(arguments: &Arguments) -> Result<String, Stop> {
    let grammar = arguments.grammar()?;
    let (first, second) = (arguments.record(0)?, arguments.record(1)?);
    match grammar.same_route(&first, &second)? {
        true => Ok("same\n".to_string()),
        false => Err(Stop::No("different\n".to_string())),
    }
}

fn accepts(arguments: &Arguments) -> Result<String, Stop> {
    let grammar = arguments.grammar()?;
    let verdict = grammar.accepts(&arguments.record(0)?);
    let begun = format!("values begun {}\n", verdict.begun);
    match verdict.accepted {
        true => Ok(format!("yes, {begun}")),
        false => Err(Stop::No(format!("no, {begun}"))),
    }
}

fn choose(arguments: &Arguments) -> Result<String, Stop> {
    let list = arguments.list()?;
    let chosen = list.choose(&arguments.record(0)?)?;
    Ok(format!(
        "grammar {}, values begun {}\n",
        chosen.number, chosen.begun
    ))
}

fn size(arguments: &Arguments) -> Result<String, Stop> {
    let grammar = arguments.grammar()?;
    let record = arguments.record(0)?;
    let (value, _) = grammar.parse_val_vec(&record, arguments.index.unwrap_or(0))?;
    Ok(format!(
        "rows {}, bytes {}\n",
        value.row_count(),
        value.size()
    ))
}

fn preview(arguments: &Arguments) -> Result<String, Stop> {
    let grammar = arguments.grammar()?;
    let (record, output) = (arguments.record(0)?, arguments.output()?);
    let value = grammar.demarshall_vec(&record)?;
    let preview = grammar.preview(&value, &output, arguments.index.unwrap_or(0))?;
    Ok(format!(
        "bytes {}, different {}\n",
        preview.size, preview.changed
    ))
}

fn export(arguments: &Arguments) -> Result<String, Stop> {
    let grammar = arguments.grammar()?;
    let record = arguments.record(0)?;
    let value = grammar.demarshall_vec(&record)?;
    Ok(hex_lines(&grammar.export_xdr_vec(&value)?))
}

fn import(arguments: &Arguments) -> Result<String, Stop> {
    let grammar = arguments.grammar()?;
    let value = grammar.import_xdr_vec(&arguments.record(0)?)?;
    Ok(hex_lines(&grammar.marshall_vec(&value)?))
}

fn words(arguments: &Arguments) -> Result<String, Stop> {
    let grammar = arguments.grammar()?;
    let [node_count, nodes, child_word_count, child_words] = grammar.sections();
    let lines = [node_count]
        .into_iter()
        .chain(nodes.chunks(3))
        .chain([child_word_count])
        .chain(child_words.chunks(16));
    let indent = if arguments.c.is_some() { "    " } else { "" };
    let line = |words: &[u32]| {
        let words: Vec<String> = words.iter().map(u32::to_string).collect();
        format!("{indent}{},\n", words.join(", "))
    };
    let lines: String = lines.map(line).collect();
    Ok(match &arguments.c {
        Some(name) => format!("static const uint32_t {name}[] = {{\n{lines}}};\n"),
        None => lines,
    })
}

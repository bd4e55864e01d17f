//! The help.

use route_record::{Kind, KINDS};

use crate::commands::{Command, COMMANDS};

/// What the help says behind the commands and the forms of a type.
const NOTES: &str = "\
Definitions may stand before it, each before its use, none unused; a comment
starts with #, and a ; may end a definition:
    point = tuple(u32, u32)    # shared by all that name it
    array(point)
Or it is the words of the grammar's table, decimal or 0x.., separated by white
space or commas.

Options:
    -g, --grammar TEXT    the grammar itself; there is no argument GRAMMAR then.
                          Also -gTEXT and --grammar=TEXT. For choose once for
                          each grammar
    --hex                 records, XDR and outputs that are read are hexadecimal
                          digits; white space is ignored
    --index I             the byte where the value starts, for preview in the
                          output; bytes may follow it. Without it size and
                          preview start at 0 and tree reads it whole
    --rows N              the most rows of a value that check accepts. A number
                          above 4,096 counts as 4,096. Without it they are 4,096
    --all                 all elements of arrays, not the first 16 of each
    --c NAME              the definition of an array in C
    -h, --help            this help; behind a command, the help for it
    -V, --version         the version

Exit status:
    0    done; for same, the same route; for accepts, yes
    1    refused; standard output gives the refusal, its place and its meaning
    2    bad usage, an unreadable file or a wrong text; standard error says what
    3    for same, different routes; for accepts, no
";

/// The help for a command, or for all.
pub fn text(command: Option<&Command>) -> String {
    let commands: String = match command {
        Some(command) => entry(command),
        None => COMMANDS.iter().map(entry).collect(),
    };
    let (with_children, without): (Vec<String>, Vec<String>) = KINDS
        .iter()
        .map(Kind::form)
        .partition(|form| form.contains('('));
    let forms = format!("{},\n    {}", without.join(", "), with_children.join(", "));
    format!(
        "\
Checks, shows and compares route records, chooses their grammars, previews
writing them and turns them into XDR and back.

{commands}\
Arguments are files; one may be -, standard input. Records, XDR and outputs are
raw bytes.
A grammar is a type, where T is again a type:
    {forms}
{NOTES}"
    )
}

/// What the help says of a command.
fn entry(command: &Command) -> String {
    let (usage, example) = (command.usage(), command.example);
    let [summary, printed] =
        [command.summary, command.printed].map(|lines| lines.trim_end().replace('\n', "\n    "));
    format!("{usage}\n    {summary}\n    $ {example}\n    {printed}\n\n")
}

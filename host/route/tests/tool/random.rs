//! The tree of random records, and their XDR.

use compare::{Random, Record, Table};
use route_record::{Class, KINDS};

use crate::run::{printed, route};

/// Where the values that start with a count or a tag start, by their lines.
fn counted_starts(tree: &str) -> Vec<usize> {
    let start = |line: &str| {
        let (start, row) = line.strip_prefix("byte ")?.trim_start().split_once(' ')?;
        let word = row.split_whitespace().next()?;
        let kind = KINDS.iter().find(|kind| kind.text == word)?;
        let start = start.parse().expect("a number");
        match kind.class {
            Class::Array | Class::Elements { .. } | Class::Union => Some(Some(start)),
            _ => Some(None),
        }
    };
    let starts = tree.lines().map(|line| start(line).expect(line));
    starts.flatten().collect()
}

#[test]
fn the_tree_of_a_record_says_where_its_values_start() {
    let mut rows = 0;
    let mut random = Random::new(42);
    while rows < 3_000 {
        let table = Table::any(&mut random);
        let large = |record: &Record| record.rows >= 10;
        let Some(record) = Record::of(&table, &mut random, 100).filter(large) else {
            continue;
        };
        let words: Vec<String> = table.words().iter().map(u32::to_string).collect();
        let words = words.join(" ");
        let tree = route(&["tree", "-g", &words, "-"], &record.bytes).stdout;
        assert_eq!(tree.lines().count(), record.rows);
        assert_eq!(counted_starts(&tree), record.counts, "{tree}");
        let accepted = format!(
            "accepted: rows {}, bytes {}\n",
            record.rows,
            record.bytes.len()
        );
        let check = route(&["check", "-g", &words, "-"], &record.bytes);
        assert_eq!(check, printed(0, &accepted));
        rows += record.rows;
    }
}

/// What is exported is imported as the record.
#[test]
fn the_xdr_of_a_record_gives_the_record() {
    let (mut rows, mut bytes) = (0, 0);
    let mut random = Random::new(43);
    while rows < 3_000 || bytes < 10_000 {
        let table = Table::any(&mut random);
        let Some(record) = Record::of(&table, &mut random, 100) else {
            continue;
        };
        let words: Vec<String> = table.words().iter().map(u32::to_string).collect();
        let words = words.join(" ");
        let exported = route(&["export", "-g", &words, "-"], &record.bytes);
        assert_eq!(exported, printed(0, &exported.stdout));
        let xdr = exported.stdout.as_bytes();
        let imported = route(&["import", "-g", &words, "--hex", "-"], xdr);
        assert_eq!(imported, printed(0, &imported.stdout));
        let digits: String = imported.stdout.split_whitespace().collect();
        let expected: String = record.bytes.iter().map(|b| format!("{b:02x}")).collect();
        assert_eq!(digits, expected);
        rows += record.rows;
        bytes += record.bytes.len();
    }
}

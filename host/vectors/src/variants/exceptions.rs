//! Variants that cannot change an answer, each with its reason, and variants by hand.

use std::io;

use super::rules::{Change, Place, Site};
use super::switch::Mode;

/// A number that is below a bound wherever the model comes to it, so that what leaves every number
/// below the bound as it is is no variant. The places are given by file, function (`~` for all of
/// the file) and text; `#1` behind it is the second place of that text in the function alone.
struct Bound {
    file: &'static str,
    functions: &'static [&'static str],
    texts: &'static [&'static str],
    below: u64,
    why: &'static str,
}

/// Variants that cannot change an answer. Ways are given by how they begin.
struct Exception {
    file: &'static str,
    functions: &'static [&'static str],
    texts: &'static [&'static str],
    ways: &'static [&'static str],
    why: &'static str,
}

const BYTES: u64 = 1_048_577;
const LEAST: u64 = 1_048_578;
const ROWS: u64 = 4_097;
const BEGUN: u64 = 4_098;
const LIST_WORDS: u64 = 28_722;

/// The reason of variants that only a slice of 2^31 or more elements can tell.
pub const LONG: &str = "only a slice of 2^31 or more elements can tell";

/// The bounds. A number that is written down is below the next one; those are not listed.
const BOUNDS: [Bound; 93] = [
    Bound {
        file: "accepts.rs",
        functions: &["node_length"],
        texts: &["number", "child"],
        below: 256,
        why: "a node's number",
    },
    Bound {
        file: "accepts.rs",
        functions: &["node_length"],
        texts: &["kind"],
        below: 11,
        why: "a kind of a checked table",
    },
    Bound {
        file: "accepts.rs",
        functions: &["node_length", "accepts"],
        texts: &["least"],
        below: LEAST,
        why: "lengths stop growing at 1,048,577",
    },
    Bound {
        file: "accepts.rs",
        functions: &["lengths_from"],
        texts: &["number", "grammar[0]"],
        below: 257,
        why: "the number of a node, or of all nodes",
    },
    Bound {
        file: "accepts.rs",
        functions: &["lengths_from"],
        texts: &["number#1", "number#2"],
        below: 256,
        why: "a node's number",
    },
    Bound {
        file: "accepts.rs",
        functions: &["accepts"],
        texts: &["begun"],
        below: BEGUN,
        why: "the values begun by a try",
    },
    Bound {
        file: "choosing.rs",
        functions: &["grammars"],
        texts: &["MOST_GRAMMARS", "count#2"],
        below: 17,
        why: "a list has at most 16 grammars, and the count is compared before",
    },
    Bound {
        file: "choosing.rs",
        functions: &["grammars"],
        texts: &["length"],
        below: 1 << 32,
        why: "a word",
    },
    Bound {
        file: "choosing.rs",
        functions: &["in_list"],
        texts: &["refusal.number"],
        below: 6,
        why: "the number of a grammar's refusal",
    },
    Bound {
        file: "choosing.rs",
        functions: &["in_list"],
        texts: &["word"],
        below: 1_795,
        why: "a word of a grammar",
    },
    Bound {
        file: "choosing.rs",
        functions: &["in_list", "choose_grammar"],
        texts: &["first"],
        below: LIST_WORDS,
        why: "the grammars before one that is refused pass",
    },
    Bound {
        file: "choosing.rs",
        functions: &["choose_grammar"],
        texts: &["number"],
        below: 16,
        why: "the number of a grammar",
    },
    Bound {
        file: "choosing.rs",
        functions: &["choose_grammar"],
        texts: &["begun"],
        below: 16 * BEGUN,
        why: "the values begun by 16 tries",
    },
    Bound {
        file: "choosing.rs",
        functions: &["choose_grammar"],
        texts: &["in_try"],
        below: BEGUN,
        why: "the values begun by a try",
    },
    Bound {
        file: "grammar.rs",
        functions: &["~"],
        texts: &["k", "number"],
        below: 256,
        why: "a node's number",
    },
    Bound {
        file: "grammar.rs",
        functions: &["~"],
        texts: &["n", "nodes", "words[0]", "MOST_NODES"],
        below: 257,
        why: "N, which is at most 256",
    },
    Bound {
        file: "grammar.rs",
        functions: &["~"],
        texts: &["place", "node", "i"],
        below: 1_025,
        why: "a word of the nodes, and a child word's number",
    },
    Bound {
        file: "grammar.rs",
        functions: &["sections"],
        texts: &["m#1", "MOST_CHILD_WORDS"],
        below: 1_025,
        why: "M, compared before",
    },
    Bound {
        file: "grammar.rs",
        functions: &["sections"],
        texts: &["2 + 3 * n + m"],
        below: 1_795,
        why: "N and M are compared before",
    },
    Bound {
        file: "grammar.rs",
        functions: &["check_grammar"],
        texts: &[
            "child_words.len()",
            "end#1",
            "end#2",
            "first#2",
            "first#3",
            "first#4",
        ],
        below: 1_025,
        why: "M is at most 1,024, and the sum is compared before",
    },
    Bound {
        file: "grammar.rs",
        functions: &["check_grammar"],
        texts: &["end"],
        below: 1 << 33,
        why: "the sum of two words",
    },
    Bound {
        file: "grammar.rs",
        functions: &["check_grammar"],
        texts: &["child"],
        below: 1 << 32,
        why: "a word",
    },
    Bound {
        file: "grammar.rs",
        functions: &["fits_kind"],
        texts: &["kind"],
        below: 11,
        why: "a kind, compared before",
    },
    Bound {
        file: "grammar.rs",
        functions: &["check_grammar"],
        texts: &["kind#1"],
        below: 11,
        why: "a kind, compared before",
    },
    Bound {
        file: "grammar.rs",
        functions: &["node"],
        texts: &["first", "count", "words[node + 1]", "words[node + 2]"],
        below: 1_025,
        why: "the table is checked",
    },
    Bound {
        file: "grammar.rs",
        functions: &["node"],
        texts: &["words[node]"],
        below: 11,
        why: "the table is checked",
    },
    Bound {
        file: "packed.rs",
        functions: &["~"],
        texts: &["width", "i"],
        below: 9,
        why: "a width is 1, 4 or 8, and `i` is below it",
    },
    Bound {
        file: "packed.rs",
        functions: &["digits"],
        texts: &["rest#1"],
        below: 1,
        why: "nothing is left",
    },
    Bound {
        file: "preview.rs",
        functions: &["preview"],
        texts: &["writing.size", "changed"],
        below: BYTES,
        why: "what is written is at most 1,048,576 bytes long",
    },
    Bound {
        file: "reading.rs",
        functions: &["new", "read", "read_whole", "parse_val", "demarshall"],
        texts: &["capacity"],
        below: ROWS,
        why: "a capacity in force is at most 4,096",
    },
    Bound {
        file: "reading.rs",
        functions: &["~"],
        texts: &["self.rows_left", "span", "values.len()", "MOST_ROWS"],
        below: ROWS,
        why: "a capacity in force is at most 4,096",
    },
    Bound {
        file: "reading.rs",
        functions: &["rows"],
        texts: &["size"],
        below: BYTES,
        why: "a record is at most 1,048,576 bytes long",
    },
    Bound {
        file: "reading.rs",
        functions: &["rows"],
        texts: &["below.len()"],
        below: 20_476,
        why: "the words of at most 4,095 rows",
    },
    Bound {
        file: "reading.rs",
        functions: &["~"],
        texts: &["element", "children[0]", "n", "cases[tag as usize]"],
        below: 256,
        why: "a node's number",
    },
    Bound {
        file: "reading.rs",
        functions: &["value"],
        texts: &["number#0"],
        below: 256,
        why: "a node's number",
    },
    Bound {
        file: "reading.rs",
        functions: &["value"],
        texts: &["number#1", "pattern"],
        below: 1 << 32,
        why: "the number of 4 bytes",
    },
    Bound {
        file: "reading.rs",
        functions: &["~"],
        texts: &["kind", "width"],
        below: 11,
        why: "a kind of a checked table, and a width",
    },
    Bound {
        file: "reading.rs",
        functions: &["case", "words"],
        texts: &["cases.len()", "tag#1", "tag#2", "*tag"],
        below: 1_025,
        why: "a union has at most 1,024 cases, and the tag is compared before",
    },
    Bound {
        file: "reading.rs",
        functions: &["array"],
        texts: &["count#1"],
        below: ROWS,
        why: "compared with the rows left before",
    },
    Bound {
        file: "reading.rs",
        functions: &["~"],
        texts: &[
            "self.position",
            "start",
            "place",
            "rest_index",
            "length",
            "rest.len()",
            "(rest.len() / width)",
            "record.len()",
            "self.record.len()",
            "reader.position",
            "index#2",
            "word3",
            "elements.place",
            "elements.packed.len()",
            "count#1",
        ],
        below: BYTES,
        why: "a record is at most 1,048,576 bytes long, and index and count are compared before",
    },
    Bound {
        file: "reading.rs",
        functions: &["new"],
        texts: &["index"],
        below: BYTES,
        why: "an index is compared with the length before",
    },
    Bound {
        file: "reading.rs",
        functions: &["try_whole"],
        texts: &["reader.begun"],
        below: BEGUN,
        why: "the values begun by a try",
    },
    Bound {
        file: "reading.rs",
        functions: &["words"],
        texts: &["count"],
        below: BYTES,
        why: "a record is at most 1,048,576 bytes long",
    },
    Bound {
        file: "refusal.rs",
        functions: &["~"],
        texts: &["number"],
        below: 24,
        why: "a refusal's number",
    },
    Bound {
        file: "refusal.rs",
        functions: &["at_word"],
        texts: &["word"],
        below: LIST_WORDS,
        why: "a word of a grammar list",
    },
    Bound {
        file: "rows.rs",
        functions: &["is_valid", "value", "children", "whole_value"],
        texts: &[
            "most",
            "row",
            "end",
            "child",
            "rows[row][1]",
            "rows[child][1]",
            "values.len()",
            "(values.len() as u64)",
            "n#1",
            "n#2",
        ],
        below: ROWS,
        why: "there are at most 4,096 rows, and the spans are checked before",
    },
    Bound {
        file: "rows.rs",
        functions: &["table"],
        texts: &["n#2", "n#3", "MOST_ROWS", "ROW_WORDS * n"],
        below: 20_481,
        why: "n is compared before",
    },
    Bound {
        file: "rows.rs",
        functions: &["is_valid"],
        texts: &["MOST_UINT32"],
        below: 1 << 32,
        why: "a constant",
    },
    Bound {
        file: "rows.rs",
        functions: &["value"],
        texts: &["word2#0", "word2#5"],
        below: 1 << 32,
        why: "the number of a uint32 or the pattern of an int32, checked before",
    },
    Bound {
        file: "rows.rs",
        functions: &["value"],
        texts: &["kind"],
        below: 11,
        why: "the row is checked before",
    },
    Bound {
        file: "rows.rs",
        functions: &["elements"],
        texts: &["width"],
        below: 9,
        why: "a width is 1, 4 or 8",
    },
    Bound {
        file: "rows.rs",
        functions: &["elements", "size_of_v"],
        texts: &[
            "end#1",
            "end#2",
            "place#1",
            "place#2",
            "place#3",
            "array.packed.len()",
            "store.len()",
        ],
        below: BYTES,
        why: "a store is at most 1,048,576 bytes long, and the row is checked before",
    },
    Bound {
        file: "rows.rs",
        functions: &["value"],
        texts: &["size_of_v(&value)"],
        below: 4_293_951_489,
        why: "the greatest size of checked rows is 4,293,951,488",
    },
    Bound {
        file: "rows.rs",
        functions: &["locate_array"],
        texts: &["count", "place", "length"],
        below: BYTES,
        why: "a store is at most 1,048,576 bytes long, and the rows are checked before",
    },
    Bound {
        file: "same_route.rs",
        functions: &["~"],
        texts: &["left.len()", "right.len()"],
        below: ROWS,
        why: "the values of an array or a tuple",
    },
    Bound {
        file: "same_route.rs",
        functions: &["~"],
        texts: &["width"],
        below: 9,
        why: "a width is 1, 4 or 8",
    },
    Bound {
        file: "same_route.rs",
        functions: &["are_equal"],
        texts: &["tag", "other"],
        below: 1_025,
        why: "the tags of values that were read",
    },
    Bound {
        file: "show.rs",
        functions: &["refusal_line"],
        texts: &["word"],
        below: 1_795,
        why: "a word of a grammar",
    },
    Bound {
        file: "show.rs",
        functions: &["~"],
        texts: &["record.len()"],
        below: 65_529,
        why: "an input is at most 65,536 bytes long, and the record is behind 8 of them",
    },
    Bound {
        file: "show.rs",
        functions: &["~"],
        texts: &["MOST_INPUT", "byte"],
        below: 65_537,
        why: "an input is at most 65,536 bytes long",
    },
    Bound {
        file: "show.rs",
        functions: &["~"],
        texts: &["MOST_WORDS", "count#1", "count#2", "count#3", "count#4"],
        below: 1_795,
        why: "a grammar has at most 1,794 words",
    },
    Bound {
        file: "show.rs",
        functions: &["row_lines"],
        texts: &["words.len()"],
        below: 5_121,
        why: "the words of at most 1,024 rows",
    },
    Bound {
        file: "show.rs",
        functions: &["parts"],
        texts: &["length", "word"],
        below: 1 << 32,
        why: "numbers of 4 bytes",
    },
    Bound {
        file: "signed.rs",
        functions: &["twos_complement"],
        texts: &["bytes.len()", "width"],
        below: 9,
        why: "a width is 4 or 8",
    },
    Bound {
        file: "signed.rs",
        functions: &["signed_number"],
        texts: &["pattern#0"],
        below: 1 << 32,
        why: "the pattern of an int32, checked before",
    },
    Bound {
        file: "writing.rs",
        functions: &["~"],
        texts: &["row", "values.len()"],
        below: ROWS,
        why: "there are at most 4,096 rows",
    },
    Bound {
        file: "writing.rs",
        functions: &["~"],
        texts: &["width", "kind"],
        below: 11,
        why: "a width, and a kind of a checked table",
    },
    Bound {
        file: "writing.rs",
        functions: &["~"],
        texts: &["count", "elements.packed.len()", "bytes.len()"],
        below: BYTES,
        why: "a store, and what is written, is at most 1,048,576 bytes long",
    },
    Bound {
        file: "writing.rs",
        functions: &["~"],
        texts: &["children.len()", "*tag#1"],
        below: 1_025,
        why: "a node has at most 1,024 children, and the tag is compared before",
    },
    Bound {
        file: "writing.rs",
        functions: &["bytes"],
        texts: &["*tag"],
        below: 1_025,
        why: "the tag of a value of the grammar",
    },
    Bound {
        file: "writing.rs",
        functions: &["~"],
        texts: &["children[0]", "children[*tag as usize]", "field", "number"],
        below: 256,
        why: "a node's number",
    },
    Bound {
        file: "writing.rs",
        functions: &["marshall_val"],
        texts: &["size_of_v(&value)"],
        below: 1 << 32,
        why: "the greatest size is 4,293,951,488",
    },
    Bound {
        file: "writing.rs",
        functions: &["marshall_val"],
        texts: &["MOST_BYTES"],
        below: BYTES,
        why: "a constant",
    },
    Bound {
        file: "rows.rs",
        functions: &["elements"],
        texts: &["row"],
        below: ROWS,
        why: "there are at most 4,096 rows",
    },
    Bound {
        file: "xdr.rs",
        functions: &["~"],
        texts: &["width"],
        below: 9,
        why: "a width is 1, 4 or 8",
    },
    Bound {
        file: "xdr.rs",
        functions: &["~"],
        texts: &["zeros"],
        below: 4,
        why: "at most three bytes fill up",
    },
    Bound {
        file: "xdr.rs",
        functions: &["~"],
        texts: &["kind"],
        below: 11,
        why: "a kind of a checked table",
    },
    Bound {
        file: "xdr.rs",
        functions: &["value", "values", "array", "case"],
        texts: &["number", "element", "children[0]", "cases[tag as usize]"],
        below: 256,
        why: "a node's number",
    },
    Bound {
        file: "xdr.rs",
        functions: &["~"],
        texts: &["fields.len()", "cases.len()"],
        below: 1_025,
        why: "a node has at most 1,024 children",
    },
    Bound {
        file: "xdr.rs",
        functions: &["xdr_bytes"],
        texts: &["*tag"],
        below: 1_025,
        why: "the tag of a value of the grammar",
    },
    Bound {
        file: "xdr.rs",
        functions: &["case"],
        texts: &["tag#1", "tag#2"],
        below: 1_025,
        why: "compared with the number of cases before",
    },
    Bound {
        file: "xdr.rs",
        functions: &["~"],
        texts: &["self.rows_left", "span", "values.len()", "capacity"],
        below: ROWS,
        why: "a capacity in force is at most 4,096",
    },
    Bound {
        file: "xdr.rs",
        functions: &["array"],
        texts: &["count#1", "count#2"],
        below: ROWS,
        why: "compared with the rows left before",
    },
    Bound {
        file: "xdr.rs",
        functions: &["values", "array", "case", "tuple", "value"],
        texts: &["size", "own_size"],
        below: 1_064_961,
        why: "the record of an import is at most 1,064,960 bytes long",
    },
    Bound {
        file: "xdr.rs",
        functions: &["value"],
        texts: &["below.len()"],
        below: 20_476,
        why: "the words of at most 4,095 rows",
    },
    Bound {
        file: "xdr.rs",
        functions: &["xdr_bytes"],
        texts: &["*number#0"],
        below: 1 << 32,
        why: "the number of a uint32 or the pattern of an int32",
    },
    Bound {
        file: "xdr.rs",
        functions: &["array", "elements", "case"],
        texts: &["count", "tag"],
        below: 1 << 32,
        why: "a number of 4 bytes",
    },
    Bound {
        file: "xdr.rs",
        functions: &["elements"],
        texts: &["length", "length + zeros"],
        below: 1 << 36,
        why: "a number of 4 bytes times a width",
    },
    Bound {
        file: "xdr.rs",
        functions: &["elements"],
        texts: &[
            "length#2",
            "length#3",
            "length#4",
            "length#5",
            "count#1",
            "place + length",
        ],
        below: 2 * BYTES,
        why: "compared with the bytes left before",
    },
    Bound {
        file: "xdr.rs",
        functions: &["~"],
        texts: &[
            "self.position",
            "start",
            "place",
            "word3",
            "self.packed.len()",
            "self.room",
            "rest.len()",
            "importer.position",
            "record.len()",
            "used",
            "store.len()",
            "importer.packed.len()",
        ],
        below: BYTES,
        why: "a record and a store are at most 1,048,576 bytes long",
    },
    Bound {
        file: "xdr.rs",
        functions: &["xdr_size", "array_bytes", "export_xdr"],
        texts: &[
            "length",
            "array.packed.len()",
            "elements.packed.len()",
            "count",
            "bytes.len()",
        ],
        below: BYTES,
        why: "a store, and what is exported, is at most 1,048,576 bytes long",
    },
    Bound {
        file: "xdr.rs",
        functions: &["export_xdr"],
        texts: &["xdr_size(&value)"],
        below: 1 << 32,
        why: "the greatest size is below 2^32",
    },
    Bound {
        file: "xdr.rs",
        functions: &["export_xdr"],
        texts: &["MOST_BYTES"],
        below: BYTES,
        why: "a constant",
    },
];

/// The exceptions.
const EXCEPTIONS: [Exception; 95] = [
    Exception {
        file: "accepts.rs",
        functions: &["node_length"],
        texts: &["1_048_577"],
        ways: &["+1"],
        why: "no record of 1,048,577 bytes or more is read",
    },
    Exception {
        file: "accepts.rs",
        functions: &["lengths_from"],
        texts: &["number == grammar[0]"],
        ways: &[">="],
        why: "a number is never above that of all nodes",
    },
    Exception {
        file: "accepts.rs",
        functions: &["accepts"],
        texts: &["record.len() as u64 >= least", "record.len()"],
        ways: &["left32", "signed", "cut32", "extend32"],
        why: "a record of 2^31 bytes or more is too long and not read",
    },
    Exception {
        file: "choosing.rs",
        functions: &["grammars"],
        texts: &["count == 0"],
        ways: &["<="],
        why: "no number is below 0",
    },
    Exception {
        file: "choosing.rs",
        functions: &["grammars"],
        texts: &["count == 0", "count#0"],
        ways: &["left8", "left16", "cut8", "cut16", "extend8", "extend16"],
        why: "a count of 256 or more is refused by the next test, with the same answer",
    },
    Exception {
        file: "choosing.rs",
        functions: &["grammars"],
        texts: &["count > MOST_GRAMMARS"],
        ways: &["signed32"],
        why: LONG,
    },
    Exception {
        file: "choosing.rs",
        functions: &["grammars"],
        texts: &["end == list.len()"],
        ways: &[">="],
        why: "a list that ends before its grammars do is refused before",
    },
    Exception {
        file: "choosing.rs",
        functions: &["grammars"],
        texts: &["end == list.len()", "end", "first", "length", "list.len()"],
        ways: &["left32", "right32", "cut32", "extend32"],
        why: LONG,
    },
    Exception {
        file: "choosing.rs",
        functions: &["grammars"],
        texts: &["first#1"],
        ways: &["cut16", "extend16"],
        why: "a grammar that starts at word 28,722 or behind it is behind one that is refused",
    },
    Exception {
        file: "choosing.rs",
        functions: &["grammars"],
        texts: &["first#2"],
        ways: &["cut16"],
        why: "a grammar that starts at word 28,722 or behind it is behind one that is refused",
    },
    Exception {
        file: "choosing.rs",
        functions: &["~"],
        texts: &["~if count == 0", "~let length =", "check_length(record)?;"],
        ways: &["two statements"],
        why: "the statement behind it refuses nothing",
    },
    Exception {
        file: "grammar.rs",
        functions: &["check_grammar"],
        texts: &["child as usize <= k", "child#0"],
        ways: &["left", "signed", "cut", "extend16"],
        why: "a child of 256 or more is not below N either, which is tested next",
    },
    Exception {
        file: "grammar.rs",
        functions: &["check_grammar"],
        texts: &["count#1", "first#1"],
        ways: &["cut16", "extend16"],
        why: "a first or count of 65,536 or more is above M, which gives the same refusal",
    },
    Exception {
        file: "grammar.rs",
        functions: &["fits_kind"],
        texts: &["count", "first", "count == 0", "first == 0", "count == 1"],
        ways: &["cut16", "extend16", "left16"],
        why: "a first or count of 65,536 or more is above M, which gives the same refusal",
    },
    Exception {
        file: "grammar.rs",
        functions: &["fits_kind"],
        texts: &["count == 0", "first == 0"],
        ways: &["<="],
        why: "no number is below 0",
    },
    Exception {
        file: "grammar.rs",
        functions: &["check_grammar"],
        texts: &["end > child_words.len() as u64"],
        ways: &[
            "false~for kind 0",
            "left~for kind 0",
            "right~for kind 0",
            "signed~for kind 0",
            "false~for kind 1",
            "left~for kind 1",
            "right~for kind 1",
            "signed~for kind 1",
            "false~for kind 2",
            "left~for kind 2",
            "right~for kind 2",
            "signed~for kind 2",
            "false~for kind 5",
            "left~for kind 5",
            "right~for kind 5",
            "signed~for kind 5",
            "false~for kind 6",
            "left~for kind 6",
            "right~for kind 6",
            "signed~for kind 6",
            "false~for kind 7",
            "left~for kind 7",
            "right~for kind 7",
            "signed~for kind 7",
            "false~for kind 9",
            "left~for kind 9",
            "right~for kind 9",
            "signed~for kind 9",
            "false~for kind 10",
            "left~for kind 10",
            "right~for kind 10",
            "signed~for kind 10",
        ],
        why: "these kinds have first and count 0, or are refused by the test before it",
    },
    Exception {
        file: "grammar.rs",
        functions: &["sections"],
        texts: &["m <= MOST_CHILD_WORDS"],
        ways: &["signed32"],
        why: LONG,
    },
    Exception {
        file: "grammar.rs",
        functions: &["sections"],
        texts: &["words.len()", "words.len() == 2 + 3 * n + m as usize"],
        ways: &["cut32", "extend32", "left32"],
        why: LONG,
    },
    Exception {
        file: "packed.rs",
        functions: &["digits"],
        texts: &["rest#0"],
        ways: &["cut", "extend"],
        why: "the remainder by 256 is in the lowest 8 bits",
    },
    Exception {
        file: "packed.rs",
        functions: &["digits", "pack", "pack_seq", "unpack"],
        texts: &["number", "n", "numbers[0]"],
        ways: &["cut32 for width 4"],
        why: "a number of 4 bytes has 32 bits",
    },
    Exception {
        file: "reading.rs",
        functions: &["capacity"],
        texts: &["words"],
        ways: &["cut32", "extend32"],
        why: LONG,
    },
    Exception {
        file: "reading.rs",
        functions: &["number"],
        texts: &["number"],
        ways: &["cut32 for width 4", "extend32 for width 4"],
        why: "a number of 4 bytes has 32 bits, and is held in them",
    },
    Exception {
        file: "reading.rs",
        functions: &["value"],
        texts: &["number#1", "pattern"],
        ways: &["extend32"],
        why: "the number is held in 32 bits",
    },
    Exception {
        file: "reading.rs",
        functions: &["whole"],
        texts: &["self.position < self.record.len()"],
        ways: &["!="],
        why: "a reading stops at the record's end at the latest",
    },
    Exception {
        file: "reading.rs",
        functions: &["value"],
        texts: &["self.rows_left == 0"],
        ways: &["<="],
        why: "no number is below 0",
    },
    Exception {
        file: "reading.rs",
        functions: &["rows"],
        texts: &["below.len()"],
        ways: &["+1"],
        why: "a multiple of 5, which is divided by 5",
    },
    Exception {
        file: "rows.rs",
        functions: &["check_length"],
        texts: &["bytes.len()"],
        ways: &["cut32", "extend32"],
        why: LONG,
    },
    Exception {
        file: "rows.rs",
        functions: &["children"],
        texts: &["(values.len() as u64) < count", "child < end"],
        ways: &["!="],
        why: "the numbers grow by what is left at most",
    },
    Exception {
        file: "rows.rs",
        functions: &["children"],
        texts: &["child == end", "values.len() as u64 == count"],
        ways: &[">="],
        why: "the numbers are never above",
    },
    Exception {
        file: "rows.rs",
        functions: &["elements"],
        texts: &["place#3"],
        ways: &["+1", "-1", "cut", "extend"],
        why: "the offset of a value that is made from rows is not looked at again",
    },
    Exception {
        file: "rows.rs",
        functions: &["is_valid"],
        texts: &["1#0"],
        ways: &["-1"],
        why: "a value of span 0 lacks its children, which is 13 at the same row",
    },
    Exception {
        file: "rows.rs",
        functions: &["is_valid"],
        texts: &["word2 == 0", "word3 == 0"],
        ways: &["<="],
        why: "no number is below 0",
    },
    Exception {
        file: "rows.rs",
        functions: &["table"],
        texts: &["n > MOST_ROWS", "n#1"],
        ways: &["left32", "cut32", "extend32"],
        why: LONG,
    },
    Exception {
        file: "rows.rs",
        functions: &["value"],
        texts: &["size != size_of_v(&value)"],
        ways: &["> for kind 0"],
        why: "no number is below 0",
    },
    Exception {
        file: "rows.rs",
        functions: &["value"],
        texts: &["size != size_of_v(&value)"],
        ways: &["right~for kind 0", "right~for kind 1", "right~for kind 2", "right~for kind 9", "right~for kind 10"],
        why: "a value of these kinds has at most 8 bytes",
    },
    Exception {
        file: "rows.rs",
        functions: &["table"],
        texts: &["ROW_WORDS * n > rows.len()", "rows.len()"],
        ways: &["right32", "signed", "cut32", "extend32"],
        why: LONG,
    },
    Exception {
        file: "rows.rs",
        functions: &["value"],
        texts: &["word2#0", "word2#5"],
        ways: &["extend32"],
        why: "the number is held in 32 bits",
    },
    Exception {
        file: "rows.rs",
        functions: &["whole_value"],
        texts: &["n#2"],
        ways: &["+1"],
        why: "the root's span is n, which was tested",
    },
    Exception {
        file: "same_route.rs",
        functions: &["are_equal"],
        texts: &["8"],
        ways: &["-1", "="],
        why: "the same bytes are compared, in shorter numbers",
    },
    Exception {
        file: "show.rs",
        functions: &["parts", "rows"],
        texts: &["input.len() > MOST_INPUT", "input.len()"],
        ways: &["left32", "signed", "cut32", "extend32"],
        why: LONG,
    },
    Exception {
        file: "show.rs",
        functions: &["parts"],
        texts: &["length", "word"],
        ways: &["extend32"],
        why: "a length of 2^31 or more is no record's; a word is held in 32 bits",
    },
    Exception {
        file: "show.rs",
        functions: &["refusal_line"],
        texts: &["row"],
        ways: &["never"],
        why: "the show program refuses no row",
    },
    Exception {
        file: "show.rs",
        functions: &["row_lines"],
        texts: &["words.len()"],
        ways: &["+1"],
        why: "a multiple of 5, which is divided by 5",
    },
    Exception {
        file: "signed.rs",
        functions: &["twos_complement"],
        texts: &["2 * p < power"],
        ways: &["signed64 for width 4"],
        why: "twice a number of 4 bytes has 33 bits",
    },
    Exception {
        file: "signed.rs",
        functions: &["twos_complement"],
        texts: &["p"],
        ways: &["cut32 for width 4"],
        why: "a number of 4 bytes has 32 bits",
    },
    Exception {
        file: "signed.rs",
        functions: &["twos_complement"],
        texts: &["p#0"],
        ways: &["extend32 for width 4"],
        why: "a number of the upper half becomes a larger one",
    },
    Exception {
        file: "signed.rs",
        functions: &["twos_complement"],
        texts: &["p#1"],
        ways: &["extend32 for width 4"],
        why: "a number of the lower half has 31 bits",
    },
    Exception {
        file: "signed.rs",
        functions: &["twos_complement"],
        texts: &["power#0"],
        ways: &["-1"],
        why: "twice a number is even, and so is the power",
    },
    Exception {
        file: "writing.rs",
        functions: &["array_bytes"],
        texts: &["elements.packed.len()"],
        ways: &["+1 for width 4", "+1 for width 8"],
        why: "a multiple of the width, which is divided by it",
    },
    Exception {
        file: "grammar.rs",
        functions: &["check_grammar"],
        texts: &["~for (k, node)"],
        ways: &["a refusal after", "two statements"],
        why: "the loop is the last statement but for the acceptance",
    },
    Exception {
        file: "grammar.rs",
        functions: &["check_grammar"],
        texts: &["~if kind > 10"],
        ways: &["two statements"],
        why: "the statement behind it refuses nothing",
    },
    Exception {
        file: "packed.rs",
        functions: &["digits"],
        texts: &["~assert_eq!"],
        ways: &["a statement left out"],
        why: "an assertion that holds",
    },
    Exception {
        file: "reading.rs",
        functions: &["elements"],
        texts: &["~if count > (rest.len() / width)"],
        ways: &["two statements"],
        why: "the statement behind it refuses nothing",
    },
    Exception {
        file: "reading.rs",
        functions: &["read"],
        texts: &["~if index > record.len()"],
        ways: &["two statements"],
        why: "the statement behind it refuses nothing",
    },
    Exception {
        file: "reading.rs",
        functions: &["whole"],
        texts: &["~if self.position < self.record.len()"],
        ways: &["a refusal after"],
        why: "what follows accepts",
    },
    Exception {
        file: "rows.rs",
        functions: &["value"],
        texts: &["~if !is_valid"],
        ways: &["two statements"],
        why: "the statement behind it refuses nothing",
    },
    Exception {
        file: "show.rs",
        functions: &["parts"],
        texts: &["~let grammar ="],
        ways: &["two statements"],
        why: "it refuses nothing",
    },
    Exception {
        file: "packed.rs",
        functions: &["unpack_seq", "write", "end"],
        texts: &["count", "packed.len()", "bytes.len()", "out.len()", "index#2", "index#3", "index#4", "index#5"],
        ways: &["cut32", "extend32"],
        why: LONG,
    },
    Exception {
        file: "packed.rs",
        functions: &["write"],
        texts: &["index#1"],
        ways: &["cut32", "extend32"],
        why: LONG,
    },
    Exception {
        file: "packed.rs",
        functions: &["end"],
        texts: &["index#0"],
        ways: &["cut32 for width 4", "cut32 for width 8", "extend32 for width 4", "extend32 for width 8"],
        why: LONG,
    },
    Exception {
        file: "packed.rs",
        functions: &["unpack_seq"],
        texts: &["end(index, count, width) > packed.len() as u128"],
        ways: &["left32", "right32", "signed"],
        why: LONG,
    },
    Exception {
        file: "packed.rs",
        functions: &["unpack_seq", "write"],
        texts: &["index > packed.len()", "end(index, bytes.len(), 1) > out.len() as u128"],
        ways: &["right32"],
        why: LONG,
    },
    Exception {
        file: "rows.rs",
        functions: &["table"],
        texts: &["n == 0", "n#0"],
        ways: &["<=", "left16", "left32", "cut16", "cut32", "extend16", "extend32"],
        why: "an n of 65,536 or more is refused by the next test, with the same answer, and none is below 0",
    },
    Exception {
        file: "rows.rs",
        functions: &["is_valid"],
        texts: &["is_word2_valid"],
        ways: &["true for kind 2", "true for kind 3", "true for kind 4", "true for kind 5", "true for kind 6", "true for kind 7", "true for kind 8", "true for kind 10"],
        why: "these kinds have no rule for word 2",
    },
    Exception {
        file: "rows.rs",
        functions: &["is_valid"],
        texts: &["is_word3_valid"],
        ways: &["true for kind 5", "true for kind 6", "true for kind 7"],
        why: "these kinds have no rule for word 3",
    },
    Exception {
        file: "rows.rs",
        functions: &["is_valid"],
        texts: &["kind#0", "kind#1", "kind#2"],
        ways: &["cut", "extend"],
        why: "a row of a kind above 10 is 13 by its kind",
    },
    Exception {
        file: "rows.rs",
        functions: &["whole_value"],
        texts: &["rows[0][1] != n as u64", "rows[0][1]"],
        ways: &["left16", "left32", "right16", "right32", "cut16", "cut32", "extend16", "extend32"],
        why: "a span of the root above n is 13 at row 0 by the next test, too",
    },
    Exception {
        file: "rows.rs",
        functions: &["whole_value"],
        texts: &["rows[0][1] != n as u64"],
        ways: &["<"],
        why: "a span of the root above n is 13 at row 0 by the next test, too",
    },
    Exception {
        file: "rows.rs",
        functions: &["checked_row"],
        texts: &["n"],
        ways: &["cut16", "cut32", "extend16", "extend32"],
        why: "it looks at n twice, and each look refuses what the other lets pass",
    },
    Exception {
        file: "same_route.rs",
        functions: &["are_equal"],
        texts: &["1"],
        ways: &["+1", "="],
        why: "the same bytes are compared, in longer numbers",
    },
    Exception {
        file: "same_route.rs",
        functions: &["are_equal"],
        texts: &["4"],
        ways: &["+1", "-1", "=1"],
        why: "the same bytes are compared, in longer or shorter numbers",
    },
    Exception {
        file: "show.rs",
        functions: &["parts"],
        texts: &["count > MOST_WORDS", "count#0"],
        ways: &["left16", "left32", "signed", "cut16", "cut32", "extend16", "extend32"],
        why: "an input with so many words is too long, and one without them too short",
    },
    Exception {
        file: "xdr.rs",
        functions: &["padding"],
        texts: &["4#0", "4#1"],
        ways: &["=8"],
        why: "four more before the remainder by four is taken",
    },
    Exception {
        file: "xdr.rs",
        functions: &["padding"],
        texts: &["length"],
        ways: &["cut", "extend"],
        why: "the remainder by four is in the lowest 8 bits",
    },
    Exception {
        file: "xdr.rs",
        functions: &["xdr_size"],
        texts: &["length#1"],
        ways: &["cut", "extend"],
        why: "its remainder by four is asked, which is in the lowest 8 bits",
    },
    Exception {
        file: "xdr.rs",
        functions: &["array_bytes"],
        texts: &["elements.packed.len()#1"],
        ways: &["cut", "extend"],
        why: "its remainder by four is asked, which is in the lowest 8 bits",
    },
    Exception {
        file: "xdr.rs",
        functions: &["elements"],
        texts: &["length#0"],
        ways: &["cut", "extend"],
        why: "its remainder by four is asked, which is in the lowest 8 bits",
    },
    Exception {
        file: "xdr.rs",
        functions: &["number_bytes"],
        texts: &["number"],
        ways: &["cut32 for width 4"],
        why: "a number of 4 bytes has 32 bits",
    },
    Exception {
        file: "xdr.rs",
        functions: &["array_bytes"],
        texts: &["elements.packed.len()#0"],
        ways: &["+1 for width 4", "+1 for width 8"],
        why: "a multiple of the width, which is divided by it",
    },
    Exception {
        file: "xdr.rs",
        functions: &["array_bytes"],
        texts: &["0"],
        ways: &["+1 for width 4", "+1 for width 8", "-1 for width 4", "-1 for width 8"],
        why: "elements of 4 and 8 bytes have no padding",
    },
    Exception {
        file: "xdr.rs",
        functions: &["elements"],
        texts: &["behind[..zeros].iter().any(|&byte| byte != 0)"],
        ways: &["false for width 4", "false for width 8"],
        why: "elements of 4 and 8 bytes have no padding",
    },
    Exception {
        file: "xdr.rs",
        functions: &["export_xdr"],
        texts: &["MOST_BYTES"],
        ways: &["+1"],
        why: "XDR has a multiple of four bytes, and so has the limit",
    },
    Exception {
        file: "xdr.rs",
        functions: &["elements"],
        texts: &["length#1"],
        ways: &["cut32 for width 1"],
        why: "a number of 4 bytes has 32 bits",
    },
    Exception {
        file: "xdr.rs",
        functions: &["elements"],
        texts: &["count#0"],
        ways: &["extend32 for width 4", "extend32 for width 8"],
        why: "a count of 2^31 or more is above all bytes left either way",
    },
    Exception {
        file: "xdr.rs",
        functions: &["array"],
        texts: &["count#0"],
        ways: &["extend32"],
        why: "a count of 2^31 or more is above all rows left either way",
    },
    Exception {
        file: "xdr.rs",
        functions: &["case"],
        texts: &["tag#0"],
        ways: &["extend32"],
        why: "a tag of 2^31 or more is above all cases either way",
    },
    Exception {
        file: "xdr.rs",
        functions: &["elements"],
        texts: &["byte != 0"],
        ways: &[">"],
        why: "no number is below 0",
    },
    Exception {
        file: "xdr.rs",
        functions: &["value"],
        texts: &["self.rows_left == 0"],
        ways: &["<="],
        why: "no number is below 0",
    },
    Exception {
        file: "xdr.rs",
        functions: &["value"],
        texts: &["below.len()"],
        ways: &["+1"],
        why: "a multiple of 5, which is divided by 5",
    },
    Exception {
        file: "xdr.rs",
        functions: &["import_xdr"],
        texts: &["importer.position < record.len()"],
        ways: &["!="],
        why: "a reading stops at the record's end at the latest",
    },
    Exception {
        file: "xdr.rs",
        functions: &["elements"],
        texts: &["~if length + zeros > rest.len()", "~if place + length > self.room", "~if behind[..zeros]"],
        ways: &["two statements"],
        why: "the statement behind it refuses nothing",
    },
    Exception {
        file: "xdr.rs",
        functions: &["elements"],
        texts: &["~if behind[..zeros]"],
        ways: &["a refusal after"],
        why: "what follows accepts, and a refused import gives no store",
    },
    Exception {
        file: "xdr.rs",
        functions: &["import_xdr"],
        texts: &["check_length(record)?;"],
        ways: &["two statements"],
        why: "6 of the record and 6 of the store are the same refusal",
    },
    Exception {
        file: "xdr.rs",
        functions: &["import_xdr"],
        texts: &["check_length(store)?;", "~if importer.position < record.len()"],
        ways: &["two statements"],
        why: "the statement behind it refuses nothing",
    },
    Exception {
        file: "xdr.rs",
        functions: &["import_xdr"],
        texts: &["~if importer.position < record.len()"],
        ways: &["a refusal after"],
        why: "what follows accepts",
    },
];

/// Variants by hand: file, pieces of its text with what stands for each, what is broken.
pub(super) const BY_HAND: [(&str, &[(&str, &str)], &str); 142] = [
    (
        "rows.rs",
        &[
            (
                "    if !is_valid(rows[row], end - row) {",
                "    if rows[row][0] != 5 && !is_valid(rows[row], end - row) {",
            ),
            (
                "        5 => V::ByteArray(elements(rows, row, 1, store)?),",
                "        5 => {
                    let elements = elements(rows, row, 1, store)?;
                    if !is_valid(rows[row], end - row) {
                        return Err(at_row(13, row));
                    }
                    V::ByteArray(elements)
                }",
            ),
        ],
        "14 before 13 of kind 5",
    ),
    (
        "rows.rs",
        &[
            (
                "    if !is_valid(rows[row], end - row) {",
                "    if rows[row][0] != 6 && !is_valid(rows[row], end - row) {",
            ),
            (
                "        6 => V::Uint32Array(elements(rows, row, 4, store)?),",
                "        6 => {
                    let elements = elements(rows, row, 4, store)?;
                    if !is_valid(rows[row], end - row) {
                        return Err(at_row(13, row));
                    }
                    V::Uint32Array(elements)
                }",
            ),
        ],
        "14 before 13 of kind 6",
    ),
    (
        "rows.rs",
        &[
            (
                "    if !is_valid(rows[row], end - row) {",
                "    if rows[row][0] != 7 && !is_valid(rows[row], end - row) {",
            ),
            (
                "        7 => V::Uint64Array(elements(rows, row, 8, store)?),",
                "        7 => {
                    let elements = elements(rows, row, 8, store)?;
                    if !is_valid(rows[row], end - row) {
                        return Err(at_row(13, row));
                    }
                    V::Uint64Array(elements)
                }",
            ),
        ],
        "14 before 13 of kind 7",
    ),
    (
        "same_route.rs",
        &[(
            "        V::Tuple(fields) if !fields.is_empty() =>",
            "        V::Array(fields) | V::Tuple(fields) if !fields.is_empty() =>",
        )],
        "the first element of a root that is an array does not count",
    ),
    (
        "same_route.rs",
        &[(
            "    Ok(are_all_equal(what_counts(&first), what_counts(&second)))",
            "    Ok(match (&first, &second) {
        (V::Case(tag, first), V::Case(other, second)) => {
            tag == other && are_all_equal(what_counts(first), what_counts(second))
        }
        _ => are_all_equal(what_counts(&first), what_counts(&second)),
    })",
        )],
        "the first field of the root's case does not count",
    ),
    (
        "same_route.rs",
        &[(
            "        (V::Tuple(left), V::Tuple(right)) => are_all_equal(left, right),",
            "        (V::Tuple(_), V::Tuple(_)) => are_all_equal(what_counts(left), what_counts(right)),",
        )],
        "the first field of no tuple counts",
    ),
    (
        "same_route.rs",
        &[(
            "if !fields.is_empty() =>",
            "if matches!(fields[..], [V::Uint32(_) | V::Uint64(_), ..]) =>",
        )],
        "a first field counts that is no unsigned number",
    ),
    (
        "same_route.rs",
        &[
            (
                "    check_grammar(grammar)",
                "    let are_as_long = first.len() == second.len();
    check_grammar(grammar)",
            ),
            (
                "    Ok(are_all_equal(",
                "    Ok(are_as_long && are_all_equal(",
            ),
        ],
        "records of different lengths are different routes",
    ),
    (
        "same_route.rs",
        &[("if !fields.is_empty() =>", "if fields.len() > 1 =>")],
        "the only field of a tuple counts",
    ),
    (
        "preview.rs",
        &[("        changed,", "        changed: writing.size,")],
        "each byte of the value counts",
    ),
    (
        "preview.rs",
        &[(".count()", ".count().min(1)")],
        "the first difference ends the count",
    ),
    (
        "preview.rs",
        &[("bytes.filter(", "bytes.skip(index).take_while(")],
        "the first equal byte ends the count",
    ),
    (
        "preview.rs",
        &[(
            "bytes.filter(|&(before, after)| before != after).count()",
            "{
        let is_other: Vec<bool> = bytes.map(|(before, after)| before != after).collect();
        let first = is_other.iter().position(|is_other| *is_other);
        let last = is_other.iter().rposition(|is_other| *is_other);
        first.zip(last).map_or(0, |(first, last)| last - first + 1)
    }",
        )],
        "each byte from the first difference to the last counts",
    ),
    (
        "preview.rs",
        &[
            (
                "    let bytes = out.iter().zip(&writing.out);",
                "    let end = index + writing.size;
    let bytes = out[index..end].chunks(4).zip(writing.out[index..end].chunks(4));",
            ),
            (".count()", ".map(|(before, _)| before.len()).sum::<usize>()"),
        ],
        "each of 4 bytes counts where one differs",
    ),
    (
        "preview.rs",
        &[(".zip(&writing.out)", ".zip(&writing.out[index..index + writing.size])")],
        "the value is compared with the output from byte 0 on",
    ),
    (
        "preview.rs",
        &[("out.iter().zip(&writing.out)", "out[index..].iter().zip(store)")],
        "the store is compared with the output",
    ),
    (
        "preview.rs",
        &[("before != after)", "before != after && *before != 0)")],
        "a byte 0 of the output does not count",
    ),
    (
        "preview.rs",
        &[("before != after)", "before != after && *after != 0)")],
        "a byte 0 of the value does not count",
    ),
    (
        "preview.rs",
        &[("before != after)", "(before ^ after) & 0x7f != 0)")],
        "the highest bit of a byte does not count",
    ),
    (
        "preview.rs",
        &[(
            "    let writing = ",
            "    crate::rows::check_length(out)?;
    let writing = ",
        )],
        "an output of more than 1,048,576 bytes is refused",
    ),
    (
        "preview.rs",
        &[(
            "    let writing = ",
            "    if index > out.len() {
        return Err(crate::refusal::at_byte(17, out.len()));
    }
    let writing = ",
        )],
        "an index above the output's length is refused first",
    ),
    (
        "reading.rs",
        &[(
            "unpack(width, self.record, self.position)?",
            "unpack(width, self.record, self.position).map_err(|_| at_byte(11, self.position))?",
        )],
        "a missing number is refused with 11",
    ),
    (
        "reading.rs",
        &[(
            "        let number = unpack(",
            "        if self.position > 0 && self.position == self.record.len() {
            return Err(at_byte(11, self.position));
        }
        let number = unpack(",
        )],
        "a record that ends between two values is refused with 11",
    ),
    (
        "reading.rs",
        &[(
            "        let count = self.number(8)?;
        let rest",
            "        let count = match self.position == self.record.len() {
            true => 0,
            false => self.number(8)?,
        };
        let rest",
        )],
        "elements whose count is missing are none",
    ),
    (
        "reading.rs",
        &[(
            "        let count = self.number(8)?;
        if count",
            "        let count = match self.position == self.record.len() {
            true => 0,
            false => self.number(8)?,
        };
        if count",
        )],
        "an array whose count is missing has no elements",
    ),
    (
        "reading.rs",
        &[(
            "        if count > (rest.len() / width) as u64 {
            return Err(at_byte(9, start));
        }",
            "        let _ = start;
        let count = count.min((rest.len() / width) as u64);",
        )],
        "missing elements are left out",
    ),
    (
        "reading.rs",
        &[(
            "        let tag = self.number(8)?;",
            "        let tag = self.number(8).map_err(|_| at_byte(10, start))?;",
        )],
        "a missing tag is refused with 10",
    ),
    (
        "choosing.rs",
        &[
            (
                "    let mut begun = 0;",
                "    let mut begun = 0;
    let mut last = Err(at_byte(22, 0));",
            ),
            (
                "            return Ok(Chosen { number, begun });",
                "            last = Ok(Chosen { number, begun });",
            ),
            (
                "    Err(at_byte(22, 0))
}",
                "    last
}",
            ),
        ],
        "the last grammar that accepts is chosen",
    ),
    (
        "choosing.rs",
        &[
            (
                "    for &(first, grammar) in &grammars {
        check_grammar(grammar).map_err(|refusal| in_list(refusal, first))?;
    }",
                "",
            ),
            ("(number, (_, grammar))", "(number, (first, grammar))"),
            (
                "        let (is_accepted, in_try)",
                "        check_grammar(grammar).map_err(|refusal| in_list(refusal, first))?;
        let (is_accepted, in_try)",
            ),
        ],
        "a grammar is checked when it is tried",
    ),
    (
        "choosing.rs",
        &[(
            "    check_length(record)?;",
            "    check_length(record).map_err(|_| at_byte(22, 0))?;",
        )],
        "a record that is too long is one that no grammar accepts",
    ),
    (
        "choosing.rs",
        &[("first + word as usize", "word as usize")],
        "a place is a word of the grammar",
    ),
    (
        "choosing.rs",
        &[("grammars.push((first,", "grammars.push((first - 2 - grammars.len(),")],
        "a place counts the words of the grammars alone",
    ),
    (
        "choosing.rs",
        &[("begun += in_try;", "begun += 1;")],
        "the tries are counted",
    ),
    (
        "reading.rs",
        &[("(is_accepted, reader.begun)", "(is_accepted, MOST_ROWS - reader.rows_left)")],
        "the rows used are counted",
    ),
    (
        "reading.rs",
        &[(
            "        if count > self.rows_left as u64 {",
            "        if count > self.rows_left as u64 {
            self.begun += self.rows_left + 1;",
        )],
        "elements that are too many are begun until no row is left",
    ),
    (
        "reading.rs",
        &[(
            "        if tag >= cases.len() as u64 {",
            "        if tag >= cases.len() as u64 {
            self.begun += 1;",
        )],
        "the value behind a tag that is refused is begun",
    ),
    (
        "reading.rs",
        &[(
            "        if self.position < self.record.len() {",
            "        if self.position < self.record.len() {
            self.begun = 0;",
        )],
        "a try that is refused with 11 begins no value",
    ),
    (
        "reading.rs",
        &[(
            "    let is_accepted = reader.whole().is_ok();",
            "    let outcome = reader.whole().map(|_| ());
    if outcome == Err(at_byte(9, 0)) {
        return (false, 0);
    }
    let is_accepted = outcome.is_ok();",
        )],
        "a try that is refused with 9 at byte 0 begins no value",
    ),
    (
        "reading.rs",
        &[(
            "    check_val_with(grammar, record, index, CHECK_ROWS)",
            "    check_val_with(grammar, record, index, MOST_ROWS)",
        )],
        "a check from an index for which no capacity is named has the greatest",
    ),
    (
        "reading.rs",
        &[(
            "    check_whole_with(grammar, record, CHECK_ROWS)",
            "    check_whole_with(grammar, record, MOST_ROWS)",
        )],
        "a check of a whole record for which no capacity is named has the greatest",
    ),
    (
        "reading.rs",
        &[(
            "    parse_val(grammar, record, index, in_force(capacity))",
            "    match capacity {
        0 => check_val(grammar, record, index),
        _ => parse_val(grammar, record, index, in_force(capacity)),
    }",
        )],
        "0 is no capacity named, from an index",
    ),
    (
        "reading.rs",
        &[(
            "    demarshall(grammar, record, in_force(capacity))",
            "    match capacity {
        0 => check_whole(grammar, record),
        _ => demarshall(grammar, record, in_force(capacity)),
    }",
        )],
        "0 is no capacity named, of a whole record",
    ),
    (
        "reading.rs",
        &[(
            "    parse_val(grammar, record, index, in_force(capacity))",
            "    parse_val(grammar, record, index, in_force(capacity).min(CHECK_ROWS))",
        )],
        "a capacity that is named is one of 1,024 at most, from an index",
    ),
    (
        "reading.rs",
        &[(
            "    demarshall(grammar, record, in_force(capacity))",
            "    demarshall(grammar, record, in_force(capacity).min(CHECK_ROWS))",
        )],
        "a capacity that is named is one of 1,024 at most, of a whole record",
    ),
    (
        "reading.rs",
        &[(
            "    parse_val(grammar, record, index, in_force(capacity))",
            "    parse_val(grammar, record, index, if capacity > MOST_ROWS { 0 } else { capacity })",
        )],
        "a capacity above 4,096 is refused with 8, from an index",
    ),
    (
        "reading.rs",
        &[(
            "    demarshall(grammar, record, in_force(capacity))",
            "    demarshall(grammar, record, if capacity > MOST_ROWS { 0 } else { capacity })",
        )],
        "a capacity above 4,096 is refused with 8, of a whole record",
    ),
    (
        "reading.rs",
        &[(
            "    parse_val(grammar, record, index, in_force(capacity))",
            "    if capacity == 0 {
        return Err(at_byte(8, index));
    }
    parse_val(grammar, record, index, in_force(capacity))",
        )],
        "capacity 0 is refused with 8 before the grammar is checked, from an index",
    ),
    (
        "reading.rs",
        &[(
            "    demarshall(grammar, record, in_force(capacity))",
            "    if capacity == 0 {
        return Err(at_byte(8, 0));
    }
    demarshall(grammar, record, in_force(capacity))",
        )],
        "capacity 0 is refused with 8 before the grammar is checked, of a whole record",
    ),
    (
        "reading.rs",
        &[(
            "    parse_val(grammar, record, index, in_force(capacity))",
            "    check_grammar(grammar)?;
    check_length(record)?;
    if capacity == 0 {
        return Err(at_byte(8, index));
    }
    parse_val(grammar, record, index, in_force(capacity))",
        )],
        "capacity 0 is refused with 8 before 7",
    ),
    (
        "reading.rs",
        &[(
            "    parse_val(grammar, record, index, in_force(capacity))",
            "    let reading = parse_val(grammar, record, index, in_force(capacity));
    match capacity {
        0 if reading == Err(at_byte(8, index)) => Err(at_byte(8, 0)),
        _ => reading,
    }",
        )],
        "capacity 0 is refused with 8 at byte 0",
    ),
    (
        "xdr.rs",
        &[
            (
                "        let place = self.packed.len();
        if place + length > self.room {
            return Err(at_byte(17, self.room));
        }
        let (elements, behind) = rest.split_at(length);
        if behind[..zeros].iter().any(|&byte| byte != 0) {
            return Err(at_byte(23, start));
        }",
                "        let (elements, behind) = rest.split_at(length);
        if behind[..zeros].iter().any(|&byte| byte != 0) {
            return Err(at_byte(23, start));
        }
        let place = self.packed.len();
        if place + length > self.room {
            return Err(at_byte(17, self.room));
        }",
            ),
        ],
        "23 before 17",
    ),
    (
        "xdr.rs",
        &[
            (
                "        if length + zeros > rest.len() {
            return Err(at_byte(9, start));
        }
        let place = self.packed.len();
        if place + length > self.room {
            return Err(at_byte(17, self.room));
        }",
                "        let place = self.packed.len();
        if place + length > self.room {
            return Err(at_byte(17, self.room));
        }
        if length + zeros > rest.len() {
            return Err(at_byte(9, start));
        }",
            ),
        ],
        "17 before 9",
    ),
    (
        "xdr.rs",
        &[
            (
                "        if length + zeros > rest.len() {
            return Err(at_byte(9, start));
        }
        let place = self.packed.len();
        if place + length > self.room {
            return Err(at_byte(17, self.room));
        }
        let (elements, behind) = rest.split_at(length);
        if behind[..zeros].iter().any(|&byte| byte != 0) {
            return Err(at_byte(23, start));
        }",
                "        let held = rest.get(length..).unwrap_or_default();
        if held.iter().take(zeros).any(|&byte| byte != 0) {
            return Err(at_byte(23, start));
        }
        if length + zeros > rest.len() {
            return Err(at_byte(9, start));
        }
        let place = self.packed.len();
        if place + length > self.room {
            return Err(at_byte(17, self.room));
        }
        let elements = &rest[..length];",
            ),
        ],
        "23 before 9, where some of the padding is there",
    ),
    (
        "xdr.rs",
        &[
            (
                "at_byte(17, self.room)",
                "at_byte(17, place)",
            ),
        ],
        "17 at the bytes used",
    ),
    (
        "xdr.rs",
        &[
            (
                "at_byte(17, self.room)",
                "at_byte(17, place + length)",
            ),
        ],
        "17 at the end wanted",
    ),
    (
        "xdr.rs",
        &[
            (
                "at_byte(17, self.room)",
                "at_byte(17, start)",
            ),
        ],
        "17 at the array's start",
    ),
    (
        "xdr.rs",
        &[
            (
                "if place + length > self.room",
                "if length > self.room",
            ),
        ],
        "each array alone is compared with the store",
    ),
    (
        "xdr.rs",
        &[
            (
                "        if behind[..zeros].iter().any(|&byte| byte != 0) {
            return Err(at_byte(23, start));
        }",
                "        let _ = behind;",
            ),
        ],
        "padding is not looked at",
    ),
    (
        "xdr.rs",
        &[
            (
                "at_byte(23, start)",
                "at_byte(9, start)",
            ),
        ],
        "padding that is not zero is refused with 9",
    ),
    (
        "xdr.rs",
        &[
            (
                "at_byte(23, start)",
                "at_byte(23, start + 4 + length)",
            ),
        ],
        "23 at the padding",
    ),
    (
        "xdr.rs",
        &[
            (
                "behind[..zeros].iter().any(",
                "behind[..zeros].iter().take(1).any(",
            ),
        ],
        "the first byte of the padding is looked at alone",
    ),
    (
        "xdr.rs",
        &[
            (
                "behind[..zeros].iter().any(",
                "behind[..zeros].iter().rev().take(1).any(",
            ),
        ],
        "the last byte of the padding is looked at alone",
    ),
    (
        "xdr.rs",
        &[
            (
                "    (4 - length % 4) % 4",
                "    4 - length % 4",
            ),
        ],
        "padding of four behind a multiple of four",
    ),
    (
        "xdr.rs",
        &[
            (
                "    (4 - length % 4) % 4",
                "    length % 4",
            ),
        ],
        "as many bytes of padding as are behind a multiple of four",
    ),
    (
        "xdr.rs",
        &[
            (
                "        let zeros = padding(length);",
                "        let zeros = padding(length).min(rest.len().saturating_sub(length));",
            ),
        ],
        "the padding may be missing at the end",
    ),
    (
        "xdr.rs",
        &[
            (
                "        let zeros = padding(length);",
                "        let zeros = if width == 4 { length % 8 } else { padding(length) };",
            ),
            (
                "    let zeros = vec![0; padding(elements.packed.len())];",
                "    let length = elements.packed.len();
    let zeros = vec![0; if width == 4 { length % 8 } else { padding(length) }];",
            ),
        ],
        "an odd number of uint32 elements has padding",
    ),
    (
        "xdr.rs",
        &[
            (
                "    let zeros = vec![0; padding",
                "    let zeros = vec![0xee; padding",
            ),
        ],
        "the padding is as the output was",
    ),
    (
        "xdr.rs",
        &[
            (
                "[number_bytes(count as u64, 4), numbers, zeros].concat()",
                "[number_bytes((count + zeros.len()) as u64, 4), numbers, zeros].concat()",
            ),
        ],
        "the count of bytes counts the padding",
    ),
    (
        "xdr.rs",
        &[
            (
                "Ok((count, place as u64, vec![], 8 + length as u64))",
                "Ok((count, (start + 4) as u64, vec![], 8 + length as u64))",
            ),
        ],
        "the offset is the place in the record",
    ),
    (
        "xdr.rs",
        &[
            (
                "Ok((count, place as u64, vec![], 8 + length as u64))",
                "Ok((count, if count == 0 { 0 } else { place as u64 }, vec![], 8 + length as u64))",
            ),
        ],
        "the offset of an array without elements is 0",
    ),
    (
        "xdr.rs",
        &[
            (
                "Ok((count, place as u64, vec![], 8 + length as u64))",
                "Ok((count, 0, vec![], 8 + length as u64))",
            ),
        ],
        "every offset is 0",
    ),
    (
        "xdr.rs",
        &[
            (
                "        self.packed.extend(turned(elements, width));",
                "        self.packed.extend(turned(elements, width));
        self.packed.extend(vec![0; zeros.min(self.room - self.packed.len())]);",
            ),
        ],
        "the padding is put into the store",
    ),
    (
        "xdr.rs",
        &[
            (
                "        self.packed.extend(turned(elements, width));",
                "        self.packed.truncate(0);
        self.packed.extend(turned(elements, width));",
            ),
        ],
        "each array is put at byte 0 of the store",
    ),
    (
        "xdr.rs",
        &[
            (
                "number.iter().rev()",
                "number.iter()",
            ),
        ],
        "elements are least byte first",
    ),
    (
        "xdr.rs",
        &[
            (
                "    let numbers = bytes.chunks(width);",
                "    let numbers = bytes.chunks(bytes.len().max(1));
    let _ = width;",
            ),
        ],
        "the bytes of an array are turned round as a whole",
    ),
    (
        "xdr.rs",
        &[
            (
                "    let numbers = bytes.chunks(width);",
                "    let numbers = bytes.chunks(width.min(4));",
            ),
        ],
        "the halves of uint64 elements are exchanged",
    ),
    (
        "xdr.rs",
        &[
            (
                "        self.position += width;
        Ok(number(&rest[..width]))",
                "        self.position += width;
        let number = number(&rest[..width]);
        Ok(if width == 8 { number.rotate_left(32) } else { number })",
            ),
            (
                "    let mut bytes = digits(number, width);",
                "    let number = if width == 8 { number.rotate_left(32) } else { number };
    let mut bytes = digits(number, width);",
            ),
        ],
        "the halves of a number of 8 bytes are exchanged",
    ),
    (
        "xdr.rs",
        &[
            (
                "    bytes.iter().fold(0, more)",
                "    bytes.iter().rev().fold(0, more)",
            ),
            (
                "    bytes.reverse();
",
                "",
            ),
        ],
        "numbers, counts and tags are least byte first",
    ),
    (
        "xdr.rs",
        &[
            (
                "number_bytes(*tag, 4)",
                "number_bytes(*tag, 8)",
            ),
            (
                "        let tag = self.number(4)?;",
                "        let tag = self.number(8)?;",
            ),
            (
                "V::Case(_, value) => 4 + xdr_size(value)",
                "V::Case(_, value) => 8 + xdr_size(value)",
            ),
        ],
        "a tag of 8 bytes",
    ),
    (
        "xdr.rs",
        &[
            (
                "number_bytes(values.len() as u64, 4)",
                "number_bytes(values.len() as u64, 8)",
            ),
            (
                "        let count = self.number(4)?;
        if count",
                "        let count = self.number(8)?;
        if count",
            ),
            (
                "V::Array(values) => 4 + all_sizes(values)",
                "V::Array(values) => 8 + all_sizes(values)",
            ),
        ],
        "a count of values of 8 bytes",
    ),
    (
        "xdr.rs",
        &[
            (
                "number_bytes(count as u64, 4)",
                "number_bytes(count as u64, 8)",
            ),
            (
                "        let count = self.number(4)?;
        let rest",
                "        let count = self.number(8)?;
        let rest",
            ),
        ],
        "a count of elements of 8 bytes",
    ),
    (
        "xdr.rs",
        &[
            (
                "        V::Tuple(values) => all_bytes(values),",
                "        V::Tuple(values) => [number_bytes(values.len() as u64, 4), all_bytes(values)].concat(),",
            ),
            (
                "        let (rows, size) = self.values(fields)?;",
                "        self.number(4)?;
        let (rows, size) = self.values(fields)?;",
            ),
        ],
        "a tuple has a count",
    ),
    (
        "xdr.rs",
        &[
            (
                "        V::Constant => vec![],",
                "        V::Constant => vec![0; 4],",
            ),
            (
                "            0 => (0, 0, vec![], 0),",
                "            0 => {
                self.number(4)?;
                (0, 0, vec![], 0)
            }",
            ),
        ],
        "a constant has four bytes",
    ),
    (
        "xdr.rs",
        &[
            (
                "    if xdr_size(&value) > MOST_BYTES as u64 {",
                "    if crate::rows::size_of_v(&value) > MOST_BYTES as u64 {",
            ),
        ],
        "16 by the size of the record",
    ),
    (
        "xdr.rs",
        &[
            (
                "    let bytes = xdr_bytes(&value);",
                "    let size = crate::rows::size_of_v(&value);
    if index as u128 + u128::from(size) > out.len() as u128 {
        return Err(at_byte(17, out.len()));
    }
    let bytes = xdr_bytes(&value);",
            ),
        ],
        "17 by the size of the record",
    ),
    (
        "xdr.rs",
        &[
            (
                "        rows_left: capacity,",
                "        rows_left: 4096,",
            ),
        ],
        "the capacity is not asked",
    ),
    (
        "xdr.rs",
        &[
            (
                "    check_length(store)?;",
                "    check_length(&store[..store.len().min(record.len())])?;",
            ),
        ],
        "of a store that is too long, the bytes needed are measured alone",
    ),
    (
        "xdr.rs",
        &[
            (
                "    check_length(record)?;",
                "    check_length(record)?;
    if store.len() < record.len() {
        return Err(at_byte(17, store.len()));
    }",
            ),
        ],
        "a store as long as the record is wanted",
    ),
    (
        "xdr.rs",
        &[
            (
                "[&importer.packed, &store[used..]].concat()",
                "[importer.packed, vec![0; store.len() - used]].concat()",
            ),
        ],
        "the store behind the arrays is cleared",
    ),
    (
        "xdr.rs",
        &[
            (
                "    let (rows, _) = importer.value(0)?;",
                "    let (rows, size) = importer.value(0)?;
    if size > MOST_BYTES as u64 {
        return Err(at_row(16, 0));
    }",
            ),
        ],
        "an import that is too long to write is refused",
    ),
    (
        "xdr.rs",
        &[
            (
                "        if tag >= cases.len() as u64 {",
                "        if tag >= cases.len() as u64 && self.rows_left == 0 {
            return Err(at_byte(8, self.position));
        }
        if tag >= cases.len() as u64 {",
            ),
        ],
        "8 of the case value before 10",
    ),
    (
        "accepts.rs",
        &[
            (
                "        8 => lengths.flatten().min().map(|least| 8 + least),",
                "        8 => lengths.flatten().min(),",
            ),
        ],
        "a union has no tag",
    ),
    (
        "accepts.rs",
        &[
            (
                "        8 => lengths.flatten().min().map(|least| 8 + least),",
                "        8 => lengths.flatten().max().map(|greatest| 8 + greatest),",
            ),
        ],
        "a union is as long as its longest case",
    ),
    (
        "accepts.rs",
        &[
            (
                "        8 => lengths.flatten().min().map(|least| 8 + least),",
                "        8 => lengths.flatten().next().map(|first| 8 + first),",
            ),
        ],
        "a union is as long as its first case with a value",
    ),
    (
        "accepts.rs",
        &[
            (
                "        8 => lengths.flatten().min().map(|least| 8 + least),",
                "        8 => lengths.flatten().last().map(|last| 8 + last),",
            ),
        ],
        "a union is as long as its last case with a value",
    ),
    (
        "accepts.rs",
        &[
            (
                "        8 => lengths.flatten().min().map(|least| 8 + least),",
                "        8 => lengths.min().flatten().map(|least| 8 + least),",
            ),
        ],
        "a union has no value where a case has none",
    ),
    (
        "accepts.rs",
        &[
            (
                "        8 => lengths.flatten().min().map(|least| 8 + least),",
                "        8 => Some(8 + lengths.flatten().min().unwrap_or(0)),",
            ),
        ],
        "a union without values has a length of 8",
    ),
    (
        "accepts.rs",
        &[
            (
                "        8 => lengths.flatten().min().map(|least| 8 + least),",
                "        8 if children.is_empty() => Some(8),
        8 => lengths.flatten().min().map(|least| 8 + least),",
            ),
        ],
        "a union without cases has a length of 8",
    ),
    (
        "accepts.rs",
        &[
            (
                "        8 => lengths.flatten().min().map(|least| 8 + least),",
                "        8 => lengths.map(|least| least.unwrap_or(0)).min().map(|least| 8 + least),",
            ),
        ],
        "a case without a value has a length of 0",
    ),
    (
        "accepts.rs",
        &[
            (
                "        8 => lengths.flatten().min().map(|least| 8 + least),",
                "        8 => lengths.map(|least| least.unwrap_or(u64::MAX)).min().map(|least| least.wrapping_add(8)),",
            ),
        ],
        "a case without a value has a length of 2^64-1, to which 8 are added",
    ),
    (
        "accepts.rs",
        &[
            (
                "        4 => lengths.sum(),",
                "        4 => Some(lengths.flatten().sum()),",
            ),
        ],
        "a field without a value is left out",
    ),
    (
        "accepts.rs",
        &[
            (
                "        4 => lengths.sum(),",
                "        4 if children.len() > 1 => lengths.take(children.len() - 1).sum(),
        4 => lengths.sum(),",
            ),
        ],
        "the last of several fields is left out",
    ),
    (
        "accepts.rs",
        &[
            (
                "        4 => lengths.sum(),",
                "        4 => lengths.collect::<Option<Vec<u64>>>().map(|all| all.into_iter().min().unwrap_or(0)),",
            ),
        ],
        "a tuple is as long as its shortest field",
    ),
    (
        "accepts.rs",
        &[
            (
                "        4 => lengths.sum(),",
                "        4 => lengths.collect::<Option<Vec<u64>>>().map(|all| all.into_iter().max().unwrap_or(0)),",
            ),
        ],
        "a tuple is as long as its longest field",
    ),
    (
        "accepts.rs",
        &[
            (
                "        4 => lengths.sum(),",
                "        4 => {
            let mut nodes = children.to_vec();
            nodes.sort();
            nodes.dedup();
            nodes.into_iter().map(|child| behind[place(child)]).sum()
        }",
            ),
        ],
        "a node that a tuple names twice is counted once",
    ),
    (
        "accepts.rs",
        &[
            (
                "        4 => lengths.sum(),",
                "        4 if children.is_empty() => None,
        4 => lengths.sum(),",
            ),
        ],
        "a tuple without fields has no value",
    ),
    (
        "accepts.rs",
        &[
            (
                "        _ => Some(8),
    };
    length.map",
                "        3 => lengths.sum::<Option<u64>>().map(|element| 8 + element),
        _ => Some(8),
    };
    length.map",
            ),
        ],
        "an array has an element",
    ),
    (
        "accepts.rs",
        &[
            (
                "        _ => Some(8),
    };
    length.map",
                "        3 => lengths.sum::<Option<u64>>().and(Some(8)),
        _ => Some(8),
    };
    length.map",
            ),
        ],
        "an array whose elements do not exist has no value",
    ),
    (
        "accepts.rs",
        &[
            (
                "    length.map(|length| length.min(1_048_577))",
                "    length.map(|length| length % (1 << 32))",
            ),
        ],
        "sums of lengths wrap in 32 bits",
    ),
    (
        "accepts.rs",
        &[
            (
                "        4 => lengths.sum(),",
                "        4 => lengths.fold(Some(0u64), |sum, length| Some(sum?.wrapping_add(length?))),",
            ),
            (
                "        8 => lengths.flatten().min().map(|least| 8 + least),",
                "        8 => lengths.flatten().min().map(|least| least.wrapping_add(8)),",
            ),
            (
                "    length.map(|length| length.min(1_048_577))",
                "    length",
            ),
        ],
        "sums of lengths wrap in 64 bits",
    ),
    (
        "accepts.rs",
        &[
            (
                "    Ok(lengths_from(grammar, 0)[0])",
                "    Ok(lengths_from(grammar, 0)[1.min(grammar[0] as usize - 1)])",
            ),
        ],
        "the length of node 1 is taken",
    ),
    (
        "accepts.rs",
        &[
            (
                "    let is_read = check_length(record).is_ok() && is_long_enough;",
                "    check_length(record)?;
    let is_read = is_long_enough;",
            ),
        ],
        "a record that is too long is refused",
    ),
    (
        "accepts.rs",
        &[
            (
                "    let is_read = check_length(record).is_ok() && is_long_enough;",
                "    let is_read = is_long_enough;",
            ),
        ],
        "a record that is too long is read",
    ),
    (
        "accepts.rs",
        &[
            (
                "    let is_read = check_length(record).is_ok() && is_long_enough;",
                "    let is_read = check_length(record).is_ok() && (is_long_enough || least.is_none());",
            ),
        ],
        "a record is read under a root without values",
    ),
    (
        "accepts.rs",
        &[
            (
                "    let is_read = check_length(record).is_ok() && is_long_enough;",
                "    let is_read = check_length(record).is_ok() || is_long_enough;",
            ),
        ],
        "a record is read unless it is too long",
    ),
    (
        "accepts.rs",
        &[
            (
                "    let least = least_length(grammar)?;",
                "    let (accepted, begun) = (false, 0);
    if check_length(record).is_err() {
        return Ok(Verdict { accepted, begun });
    }
    let least = least_length(grammar)?;",
            ),
        ],
        "a record that is too long is answered before the grammar is checked",
    ),
    (
        "accepts.rs",
        &[
            (
                "    let least = least_length(grammar)?;",
                "    let (accepted, begun) = (false, 0);
    if record.is_empty() && check_grammar(grammar).is_err() {
        return Ok(Verdict { accepted, begun });
    }
    let least = least_length(grammar)?;",
            ),
        ],
        "an empty record is answered before the grammar is checked",
    ),
    (
        "accepts.rs",
        &[
            (
                "        true => try_whole(grammar, record),",
                "        true => (true, try_whole(grammar, record).1),",
            ),
        ],
        "a record that is long enough is accepted",
    ),
    (
        "accepts.rs",
        &[
            (
                "        true => try_whole(grammar, record),",
                "        true => match try_whole(grammar, record) {
            (true, begun) => (true, begun),
            _ => (false, 0),
        },",
            ),
        ],
        "with no nothing is counted",
    ),
    (
        "accepts.rs",
        &[
            (
                "        true => try_whole(grammar, record),",
                "        true => {
            let is_accepted = crate::reading::check_whole(grammar, record).is_ok();
            (is_accepted, try_whole(grammar, record).1)
        }",
            ),
        ],
        "a record is read with the rows of a check",
    ),
    (
        "accepts.rs",
        &[
            (
                "        true => try_whole(grammar, record),",
                "        true => match try_whole(grammar, record) {
            (false, 4_097) => (false, 0),
            tried => tried,
        },",
            ),
        ],
        "a value of too many rows counts as not read",
    ),
    (
        "accepts.rs",
        &[
            (
                "        true => try_whole(grammar, record),",
                "        true => match try_whole(grammar, record) {
            (false, 4_097) => (false, 4_096),
            tried => tried,
        },",
            ),
        ],
        "the rows taken are counted with no",
    ),
    (
        "rows.rs",
        &[
            (
                "    if size != size_of_v(&value) {",
                "    if row == 0 && size != size_of_v(&value) {",
            ),
        ],
        "the size of the root alone is compared",
    ),
    (
        "rows.rs",
        &[
            (
                "    if size != size_of_v(&value) {",
                "    if row > 0 && size != size_of_v(&value) {",
            ),
        ],
        "the size of the root is not compared",
    ),
    (
        "rows.rs",
        &[
            (
                "    if size != size_of_v(&value) {",
                "    if end - row > 1 && size != size_of_v(&value) {",
            ),
        ],
        "the size of the last row of a span is not compared",
    ),
    (
        "rows.rs",
        &[
            (
                "    if size != size_of_v(&value) {",
                "    if !matches!(kind, 3 | 4 | 8) && size != size_of_v(&value) {",
            ),
        ],
        "the sizes of values with children are not compared",
    ),
    (
        "rows.rs",
        &[
            (
                "    if size != size_of_v(&value) {",
                "    if size < size_of_v(&value) {",
            ),
        ],
        "a size that is too great passes",
    ),
    (
        "rows.rs",
        &[
            (
                "    if size != size_of_v(&value) {",
                "    if size != 0 && size != size_of_v(&value) {",
            ),
        ],
        "a size of 0 passes",
    ),
    (
        "rows.rs",
        &[
            (
                "    if size != size_of_v(&value) {",
                "    if size != u64::MAX && size != size_of_v(&value) {",
            ),
        ],
        "a size of 2^64-1 passes",
    ),
    (
        "rows.rs",
        &[
            (
                "    let [kind, _, word2, _, size] = rows[row];",
                "    let [kind, _, word2, _, size] = rows[row];
    let own = |row: &Row| match row[0] {
        0 | 4 => 0,
        1 | 9 => 4,
        5 => row[2].wrapping_add(8),
        6 => row[2].wrapping_mul(4).wrapping_add(8),
        7 => row[2].wrapping_mul(8).wrapping_add(8),
        _ => 8,
    };
    let span = rows[row][1] as usize;
    let all = rows[row..row + span].iter().map(own);
    if size != all.fold(0, u64::wrapping_add) {
        return Err(at_row(13, row));
    }",
            ),
        ],
        "a size is compared before 14 and before the children",
    ),
    (
        "rows.rs",
        &[
            (
                "    let [kind, _, word2, _, size] = rows[row];",
                "    let [kind, _, word2, _, size] = rows[row];
    let width = match kind {
        5 => 1,
        6 => 4,
        _ => 8,
    };
    if matches!(kind, 5..=7) && size != word2.wrapping_mul(width).wrapping_add(8) {
        return Err(at_row(13, row));
    }",
            ),
        ],
        "the size of an array in the store is compared before 14",
    ),
    (
        "rows.rs",
        &[
            (
                "    if size != size_of_v(&value) {
        return Err(at_row(13, row));
    }
",
                "    let _ = size;
",
            ),
            (
                "    value(&rows, 0, n, store)
",
                "    fn all<'v, 'a>(value: &'v V<'a>, values: &mut Vec<&'v V<'a>>) {
        values.push(value);
        match value {
            V::Array(parts) | V::Tuple(parts) => parts.iter().for_each(|part| all(part, values)),
            V::Case(_, part) => all(part, values),
            _ => {}
        }
    }
    let value = value(&rows, 0, n, store)?;
    let mut values = vec![];
    all(&value, &mut values);
    for (row, part) in values.into_iter().enumerate() {
        if rows[row][4] != size_of_v(part) {
            return Err(at_row(13, row));
        }
    }
    Ok(value)
",
            ),
        ],
        "the sizes are compared in a walk of their own, parents first",
    ),
    (
        "rows.rs",
        &[
            (
                "    if size != size_of_v(&value) {
        return Err(at_row(13, row));
    }
",
                "    let _ = size;
",
            ),
            (
                "    value(&rows, 0, n, store)
",
                "    fn wrong(value: &V, row: usize, rows: &[Row]) -> Result<usize, Refusal> {
        let parts: Vec<&V> = match value {
            V::Array(parts) | V::Tuple(parts) => parts.iter().collect(),
            V::Case(_, part) => vec![part],
            _ => vec![],
        };
        let mut behind = row + 1;
        for part in parts {
            behind = wrong(part, behind, rows)?;
        }
        match rows[row][4] == size_of_v(value) {
            true => Ok(behind),
            false => Err(at_row(13, row)),
        }
    }
    let value = value(&rows, 0, n, store)?;
    wrong(&value, 0, &rows)?;
    Ok(value)
",
            ),
        ],
        "the sizes are compared in a walk of their own, children first",
    ),
    (
        "rows.rs",
        &[
            (
                "    whole_value(rows, n, store).map(|value| size_of_v(&value))
",
                "    check_length(store)?;
    Ok(table(rows, n)?[0][4])
",
            ),
        ],
        "the size call answers row 0's word and checks no row",
    ),
    (
        "rows.rs",
        &[
            (
                "    whole_value(rows, n, store).map(|value| size_of_v(&value))
",
                "    whole_value(rows, n, store)?;
    Ok(table(rows, n)?[n.min(2) - 1][4])
",
            ),
        ],
        "the size call answers row 1's word",
    ),
    (
        "reading.rs",
        &[
            (
                "    let size = size_of_v(value);",
                "    let size = match value {
        V::Array(_) | V::Case(..) => size_of_v(value) - 8,
        _ => size_of_v(value),
    };",
            ),
        ],
        "the size of a value with children is without its count or tag",
    ),
    (
        "reading.rs",
        &[
            (
                "    let size = size_of_v(value);",
                "    let size = match parts(value) {
        [] => size_of_v(value),
        parts => size_of_v(value) - parts.iter().map(size_of_v).sum::<u64>(),
    };",
            ),
        ],
        "the size is what the row itself adds",
    ),
    (
        "reading.rs",
        &[
            (
                "    let rows = rows(&value);
    Ok(Reading { rows, rest_index })",
                "    let mut rows = rows(&value);
    rows[4] += index as u64;
    Ok(Reading { rows, rest_index })",
            ),
        ],
        "the size of the root is counted from byte 0",
    ),
    (
        "show.rs",
        &[
            (
                "        let words: Vec<String> = row.iter().map(u64::to_string).collect();",
                "        let row = [&row[..4], &[words[4]]].concat();
        let words: Vec<String> = row.iter().map(u64::to_string).collect();",
            ),
        ],
        "the size of the root is on every line",
    ),
    (
        "show.rs",
        &[
            (
                "        let words: Vec<String> = row.iter().map(u64::to_string).collect();",
                "        let words: Vec<String> = row[..4].iter().map(u64::to_string).collect();",
            ),
        ],
        "the size is not printed",
    ),
    (
        "xdr.rs",
        &[
            (
                "Ok((count, place as u64, vec![], 8 + length as u64))",
                "Ok((count, place as u64, vec![], 4 + (length + zeros) as u64))",
            ),
            (
                "Ok((count, 0, rows, 8 + size))",
                "Ok((count, 0, rows, 4 + size))",
            ),
            (
                "Ok((tag, 0, rows, 8 + size))",
                "Ok((tag, 0, rows, 4 + size))",
            ),
        ],
        "the sizes of an import are those of the XDR",
    ),
    (
        "xdr.rs",
        &[
            (
                "8 + length as u64",
                "8 + (length + zeros) as u64",
            ),
        ],
        "the padding is in the size",
    ),
];

/// Whether a text is the one listed: `~` stands for all, and before others for what begins or ends
/// so.
fn is_listed(text: &str, listed: &str) -> bool {
    match listed.strip_prefix('~') {
        Some(part) => text.starts_with(part) || text.ends_with(part),
        None => text == listed,
    }
}

/// Whether a place of this text is among those listed.
fn is_among(site: &Site, text: &str, file: &str, functions: &[&str], texts: &[&str]) -> bool {
    let is_text = |listed: &&str| match listed.split_once('#') {
        Some((listed, nth)) => listed == text && nth == site.nth.to_string(),
        None => is_listed(text, listed),
    };
    site.file == file
        && functions.iter().any(|name| is_listed(&site.function, name))
        && texts.iter().any(|listed| is_text(listed))
}

/// A text without the conversion behind it.
fn uncast(text: &str) -> &str {
    const CASTS: [&str; 4] = [" as u32", " as u64", " as usize", " as u128"];
    let cast = CASTS.iter().find_map(|cast| text.strip_suffix(cast));
    cast.unwrap_or(text)
}

/// The bound of a number of this text at a place.
fn bound(site: &Site, text: &str) -> Option<u64> {
    let text = uncast(text);
    let written = text.replace('_', "").parse::<u64>().ok();
    let listed = BOUNDS
        .iter()
        .filter(|bound| is_among(site, text, bound.file, bound.functions, bound.texts));
    written
        .map(|number| number + 1)
        .or(listed.map(|bound| bound.below).min())
}

/// Whether a mode leaves every number of a place as it is, since they are below a bound.
pub(super) fn is_bounded(place: &Place, mode: Mode) -> bool {
    let of = |text: &str| bound(&place.site, text).unwrap_or(u64::MAX);
    let fits = |below: u64, bits: u32| bits == 64 || below <= 1 << bits;
    match (mode, &place.sides) {
        (Mode::Cut(bits), _) => fits(of(&place.site.text), bits),
        (Mode::Extend(bits), _) => fits(of(&place.site.text), bits - 1),
        (Mode::CutLeft(bits), Some([left, _])) => fits(of(left), bits),
        (Mode::CutRight(bits), Some([_, right])) => fits(of(right), bits),
        (Mode::Signed(bits), Some([left, right])) => fits(of(left).max(of(right)), bits - 1),
        _ => false,
    }
}

/// Refuses a bound that a number seen at its place does not keep.
pub(super) fn check_bound(place: &Place, greatest: u64) -> io::Result<()> {
    let Site {
        file,
        function,
        text,
        ..
    } = &place.site;
    let is_broken = |bound: &&Bound| {
        let is_listed = is_among(&place.site, text, bound.file, bound.functions, bound.texts);
        is_listed && place.sides.is_none() && greatest >= bound.below
    };
    match BOUNDS.iter().find(is_broken) {
        None => Ok(()),
        Some(Bound { below, why, .. }) => Err(io::Error::other(format!(
            "{file} {function}: `{text}` is {greatest}, not below {below}, though {why}"
        ))),
    }
}

/// Whether a way is the one listed, begins with it and goes on with a number or another word, or
/// begins and ends as the parts around `~`.
fn is_way(way: &str, listed: &str) -> bool {
    let goes_on = |rest: &str| rest.starts_with(|c: char| c == ' ' || c.is_ascii_digit());
    match listed.split_once('~') {
        Some((start, end)) => way.starts_with(start) && way.ends_with(end),
        None => way == listed || way.strip_prefix(listed).is_some_and(goes_on),
    }
}

/// Why a variant cannot change an answer, if it is so listed.
pub(super) fn is_excepted(site: &Site, way: &str) -> Option<&'static str> {
    let text = &site.text;
    let exception = EXCEPTIONS.iter().find(|exception| {
        is_among(
            site,
            text,
            exception.file,
            exception.functions,
            exception.texts,
        ) && exception.ways.iter().any(|listed| is_way(way, listed))
    });
    exception.map(|exception| exception.why)
}

/// The entries of both lists that name no place of the model, by file and text.
pub fn unknown(places: &[Place], changes: &[Change]) -> Vec<String> {
    let numbers = places.iter().flat_map(|place| {
        let sides = place.sides.iter().flatten().map(|side| uncast(side));
        sides
            .chain([place.site.text.as_str()])
            .map(|text| (&place.site, text))
    });
    let changed = changes
        .iter()
        .map(|change| (&change.site, change.site.text.as_str()));
    let known: Vec<(&Site, &str)> = numbers.chain(changed).collect();
    let bounds = BOUNDS
        .iter()
        .map(|bound| (bound.file, bound.functions, bound.texts));
    let exceptions = EXCEPTIONS
        .iter()
        .map(|entry| (entry.file, entry.functions, entry.texts));
    let mut unknown = Vec::new();
    for (file, functions, texts) in bounds.chain(exceptions) {
        for text in texts {
            let is_known =
                |(site, of): &(&Site, &str)| is_among(site, of, file, functions, &[text]);
            if !known.iter().any(is_known) {
                unknown.push(format!("{file}: {text}"));
            }
        }
    }
    unknown
}

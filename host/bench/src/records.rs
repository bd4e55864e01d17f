//! The grammars, the records that are read and the values that are written. They are the same in
//! every run.

use compare::table;
use route_record::{Grammar, GrammarList, MAX_BYTES, MAX_ROWS, ROW_WORDS};

/// A grammar table and records to be read by it.
pub struct Input {
    /// The words of the grammar.
    pub grammar: Vec<u32>,
    /// The bytes of the record.
    pub record: Vec<u8>,
    /// The bytes of another record of the same route: a copy, or the record under another serial
    /// number.
    pub other: Vec<u8>,
    /// The words of a grammar list with the grammar, alone or behind others.
    pub list: Vec<u32>,
}

/// The words of the most rows.
pub const WORDS: usize = ROW_WORDS * MAX_ROWS;

impl Input {
    /// A record, a copy of it and a list of the grammar alone.
    fn new(grammar: Vec<u32>, record: Vec<u8>) -> Input {
        let other = record.clone();
        let list = list(&[Grammar::check(&grammar).expect("a sound grammar")]);
        Input {
            grammar,
            record,
            other,
            list,
        }
    }

    /// The words of the rows of a record that is accepted, and the row count.
    pub fn rows(&self) -> (Vec<u64>, usize) {
        let mut rows = vec![0; WORDS];
        let parsed = route_record::calls::demarshall(&self.grammar, &self.record, &mut rows);
        let n = parsed.expect("a sound record").rows;
        rows.truncate(ROW_WORDS * n);
        (rows, n)
    }

    /// The bytes of an output over which the record is previewed: the record, but for the last byte
    /// of each 64.
    pub fn output(&self) -> Vec<u8> {
        let mut out = self.record.clone();
        for part in out.chunks_exact_mut(64) {
            part[63] ^= 1;
        }
        out
    }

    /// The XDR of the value of a record that is accepted.
    pub fn xdr(&self) -> Vec<u8> {
        let (rows, n) = self.rows();
        let mut out = vec![0; self.record.len()];
        let (grammar, store) = (&self.grammar, &self.record);
        let exported = route_record::calls::export_xdr(grammar, &rows, n, store, &mut out, 0);
        out.truncate(exported.expect("XDR is no longer than the record"));
        out
    }

    /// The packed numbers of a record that is a uint32 array: the bytes behind the count.
    pub fn packed(&self) -> &[u8] {
        &self.record[8..]
    }

    /// The numbers of a record that is a uint32 array.
    pub fn numbers(&self) -> Vec<u32> {
        let mut numbers = vec![0; self.packed().len() / 4];
        let unpacked = route_record::calls::unpack_u32_seq(self.packed(), 0, &mut numbers);
        unpacked.expect("the bytes of so many numbers");
        numbers
    }
}

/// A record of `rows` rows: an array of cases, in which four stand over and over, 15 rows together:
/// a uint32; a tuple of a uint32, a uint64, bytes and a uint32 array; an array of one uint32; a
/// tuple of bytes and a uint64. The rows that are left are one more case, an array of uint32; they
/// are none or at least two.
pub fn mixed(rows: usize) -> Input {
    let nodes = [
        [3, 0, 1],  // 0: the root
        [8, 1, 4],  // 1: a case
        [4, 5, 4],  // 2: the tuple of four fields
        [3, 9, 1],  // 3: the array of uint32
        [4, 10, 2], // 4: the tuple of two fields
        [1, 0, 0],  // 5
        [2, 0, 0],  // 6
        [5, 0, 0],  // 7
        [6, 0, 0],  // 8
    ];
    let children = [1, 5, 2, 3, 4, 5, 6, 7, 8, 5, 7, 6];
    let (groups, left) = ((rows - 1) / 15, (rows - 1) % 15);
    assert_ne!(left, 1, "a case is two rows at least");
    let mut record = Vec::new();
    put_u64(&mut record, 4 * groups + usize::from(left > 0));
    for group in 0..groups {
        put_u64(&mut record, 0);
        put_u32(&mut record, group);
        put_u64(&mut record, 1);
        put_u32(&mut record, group);
        put_u64(&mut record, group);
        put_bytes(&mut record, group % 8);
        put_u32s(&mut record, group % 5);
        put_u64(&mut record, 2);
        put_u32s(&mut record, 1);
        put_u64(&mut record, 3);
        put_bytes(&mut record, group % 12);
        put_u64(&mut record, group);
    }
    if left > 0 {
        put_u64(&mut record, 2);
        put_u32s(&mut record, left - 2);
    }
    Input::new(table(&nodes, &children), record)
}

/// Three bytes under the grammar of the mix, which has no value so short.
pub fn stray() -> Input {
    Input::new(mixed(1).grammar, vec![7; 3])
}

/// The grammar of a serial number and the mix.
const WITH_SERIAL: &str = "n = u32; w = u64; b = bytes
    tuple(n, array(union(n, tuple(n, w, b, u32s), array(n), tuple(b, w))))";

/// A serial number, a uint32, and behind it the mix of `rows` rows, in a tuple. The other record has
/// another serial number.
pub fn with_serial(rows: usize) -> Input {
    let grammar = WITH_SERIAL.parse::<Grammar>().expect("a grammar");
    let mix = mixed(rows).record;
    let record = |serial: u32| [&serial.to_le_bytes(), &mix[..]].concat();
    Input {
        other: record(8),
        ..Input::new(grammar.words().to_vec(), record(7))
    }
}

/// The mix of `rows` rows, its grammar behind four others, which refuse it: a uint64 array and an
/// array of uint32, behind which bytes are left over; an array of the first two cases of the mix,
/// which has others; and the tuple with a serial number.
pub fn five_grammars(rows: usize) -> Input {
    let two_cases = "n = u32; array(union(n, tuple(n, u64, bytes, u32s)))";
    let others = ["u64s", "array(u32)", two_cases, WITH_SERIAL];
    let others = others.map(|types| types.parse::<Grammar>().expect("a grammar"));
    let mix = mixed(rows);
    let own = Grammar::check(&mix.grammar).expect("a sound grammar");
    Input {
        list: list(&[&others[..], &[own]].concat()),
        ..mix
    }
}

/// A record of `rows` rows under a grammar of two nodes: an array of uint32.
pub fn numbers(rows: usize) -> Input {
    let mut record = Vec::new();
    put_u32s(&mut record, rows - 1);
    Input::new(table(&[[3, 0, 1], [1, 0, 0]], &[1]), record)
}

/// An array of 4,095 constants: 4,096 rows in 8 bytes.
pub fn constants() -> Input {
    let record = 4_095u64.to_le_bytes().to_vec();
    Input::new(table(&[[3, 0, 1], [0, 0, 0]], &[1]), record)
}

/// A tuple of 1,024 fields, each a uint32.
pub fn wide_tuple() -> Input {
    let grammar = table(&[[4, 0, 1_024], [1, 0, 0]], &[1; 1_024]);
    Input::new(grammar, vec![7; 4 * 1_024])
}

/// One byte array, the record of which has 1,048,576 bytes.
pub fn long_array() -> Input {
    let mut record = Vec::new();
    put_bytes(&mut record, MAX_BYTES - 8);
    Input::new(table(&[[5, 0, 0]], &[]), record)
}

/// One uint32 array of so many numbers.
pub fn uint32_array(count: usize) -> Input {
    let mut record = Vec::new();
    put_u32s(&mut record, count);
    Input::new(table(&[[6, 0, 0]], &[]), record)
}

/// 256 nodes, each but the last a tuple of two fields, both of the next node, and the last of the
/// kind of a leaf: a tree of 2^255 leaves.
pub fn shared_children(leaf: u32, record: Vec<u8>) -> Input {
    let tuples = (0..255).map(|k| [4, 2 * k, 2]);
    let nodes: Vec<_> = tuples.chain([[leaf, 0, 0]]).collect();
    let children: Vec<_> = (1..256).flat_map(|k| [k, k]).collect();
    Input::new(table(&nodes, &children), record)
}

/// The words of the list of these grammars.
fn list(grammars: &[Grammar]) -> Vec<u32> {
    let list = GrammarList::new(grammars).expect("1 to 16 grammars");
    list.words().to_vec()
}

fn put_u32(record: &mut Vec<u8>, number: usize) {
    record.extend((number as u32).to_le_bytes());
}

/// A uint64, an element count or a tag.
fn put_u64(record: &mut Vec<u8>, number: usize) {
    record.extend((number as u64).to_le_bytes());
}

/// An array of so many bytes.
fn put_bytes(record: &mut Vec<u8>, count: usize) {
    put_u64(record, count);
    record.extend((0..count).map(|i| i as u8));
}

/// So many uint32 with their count. As a uint32 array and as an array of uint32 they have the same
/// bytes.
fn put_u32s(record: &mut Vec<u8>, count: usize) {
    put_u64(record, count);
    for i in 0..count {
        put_u32(record, i);
    }
}

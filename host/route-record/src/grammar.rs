//! Grammars that passed their check, and what is done under one: reading, writing, previewing a
//! write, comparing, saying yes or no, exporting to XDR and importing it.

use crate::value::Value;
use crate::{
    calls, Parsed, Preview, Refusal, SameRouteRefusal, Verdict, MAX_BYTES, MAX_ROWS, ROW_WORDS,
};

/// A grammar table that passed its check. A text gives one too, by [`str::parse`].
///
/// ```
/// use route_record::{Grammar, Place, Refusal};
///
/// let grammar = "tuple(u32, bytes)".parse::<Grammar>()?;
/// let record = [7, 0, 0, 0, 2, 0, 0, 0, 0, 0, 0, 0, 0x41, 0x42];
/// let value = grammar.demarshall_vec(&record)?;
/// assert_eq!(value.row_words(), [4, 3, 2, 0, 14, 1, 1, 7, 0, 4, 5, 1, 2, 12, 10]);
/// assert_eq!(grammar.marshall_vec(&value)?, record);
///
/// let refusal = Refusal { number: Refusal::BYTES_MISSING, place: Place::Byte(4) };
/// assert_eq!(grammar.demarshall_vec(&record[..13]).unwrap_err(), refusal);
/// # Ok::<(), Box<dyn std::error::Error>>(())
/// ```
#[derive(Clone, Debug, PartialEq, Eq, Hash)]
pub struct Grammar {
    words: Vec<u32>,
}

/// As [`Grammar::check`] does.
impl TryFrom<&[u32]> for Grammar {
    type Error = Refusal;

    fn try_from(words: &[u32]) -> Result<Grammar, Refusal> {
        Grammar::check(words)
    }
}

impl Grammar {
    /// The grammar of these words, which are copied. Refused as
    /// [`calls::check_grammar`] refuses.
    ///
    /// ```
    /// use route_record::Grammar;
    ///
    /// // A tuple of a uint32 and bytes: three nodes, their kinds and children, two child words.
    /// let grammar = Grammar::check(&[3, 4, 0, 2, 1, 0, 0, 5, 0, 0, 2, 1, 2])?;
    /// assert_eq!(grammar, "tuple(u32, bytes)".parse().unwrap());
    ///
    /// let refusal = Grammar::check(&[1, 4, 0, 1, 1, 0]).unwrap_err();
    /// let words = "refused 5 at word 5: \
    ///     the child's number is not above its node's, or there is no such node";
    /// assert_eq!(refusal.to_string(), words);
    /// # Ok::<(), route_record::Refusal>(())
    /// ```
    pub fn check(words: &[u32]) -> Result<Grammar, Refusal> {
        calls::check_grammar(words)?;
        Ok(Grammar {
            words: words.to_vec(),
        })
    }

    /// The words of the table.
    pub fn words(&self) -> &[u32] {
        &self.words
    }

    /// The sections of the table: the node count, the nodes, the count of child words, the child
    /// words.
    ///
    /// ```
    /// let grammar = "array(u32)".parse::<route_record::Grammar>()?;
    /// assert_eq!(grammar.sections(), [&[2][..], &[3, 0, 1, 1, 0, 0], &[1], &[1]]);
    /// # Ok::<(), route_record::GrammarError>(())
    /// ```
    pub fn sections(&self) -> [&[u32]; 4] {
        let (node_count, rest) = self.words.split_at(1);
        let (nodes, rest) = rest.split_at(3 * node_count[0] as usize);
        let (child_word_count, child_words) = rest.split_at(1);
        [node_count, nodes, child_word_count, child_words]
    }

    /// How many rows the value that starts at byte `index` has and where it ends. Refused as
    /// [`calls::check_val`] refuses, by 8 when the value has more than 1,024 rows;
    /// [`check_val_with`](Grammar::check_val_with) names another number.
    ///
    /// ```
    /// use route_record::Grammar;
    ///
    /// let uint32 = Grammar::check(&[1, 1, 0, 0, 0])?;
    /// assert_eq!(uint32.check_val(&[0xff, 7, 0, 0, 0, 0xff], 1)?.rest_index, 5);
    ///
    /// let array_of_constants = Grammar::check(&[2, 3, 0, 1, 0, 0, 0, 1, 1])?;
    /// assert_eq!(array_of_constants.check_val(&1_023_u64.to_le_bytes(), 0)?.rows, 1_024);
    /// let refusal = array_of_constants.check_val(&1_024_u64.to_le_bytes(), 0).unwrap_err();
    /// assert_eq!(refusal.number, 8);
    /// # Ok::<(), route_record::Refusal>(())
    /// ```
    pub fn check_val(&self, record: &[u8], index: usize) -> Result<Parsed, Refusal> {
        calls::check_val(&self.words, record, index)
    }

    /// How many rows the value of a whole record has. Refused as [`calls::check_whole`] refuses, by
    /// 8 when the value has more than 1,024 rows; [`check_whole_with`](Grammar::check_whole_with)
    /// names another number. Every proper front part of a record that is accepted is refused with
    /// 9, with the same grammar; the capacity of both is 1,024
    /// ([cut records](crate#cut-records)).
    ///
    /// ```
    /// use route_record::Grammar;
    ///
    /// let uint32 = Grammar::check(&[1, 1, 0, 0, 0])?;
    /// assert_eq!(uint32.check_whole(&[7, 0, 0, 0])?.rows, 1);
    ///
    /// let refusal = uint32.check_whole(&[7, 0, 0, 0, 0]).unwrap_err();
    /// let words = "refused 11 at byte 4: the value ends there, and bytes follow it";
    /// assert_eq!(refusal.to_string(), words);
    ///
    /// let array_of_constants = Grammar::check(&[2, 3, 0, 1, 0, 0, 0, 1, 1])?;
    /// assert_eq!(array_of_constants.check_whole(&1_023_u64.to_le_bytes())?.rows, 1_024);
    /// let refusal = array_of_constants.check_whole(&1_024_u64.to_le_bytes()).unwrap_err();
    /// assert_eq!(refusal.number, 8);
    /// # Ok::<(), route_record::Refusal>(())
    /// ```
    pub fn check_whole(&self, record: &[u8]) -> Result<Parsed, Refusal> {
        calls::check_whole(&self.words, record)
    }

    /// As [`check_val`](Grammar::check_val), with `capacity` rows. Refused as
    /// [`calls::check_val_with`] refuses; a capacity above 4,096 counts as 4,096.
    ///
    /// ```
    /// use route_record::{Grammar, MAX_ROWS};
    ///
    /// let array_of_constants = Grammar::check(&[2, 3, 0, 1, 0, 0, 0, 1, 1])?;
    /// let check = |count: u64, capacity| {
    ///     array_of_constants.check_val_with(&count.to_le_bytes(), 0, capacity)
    /// };
    /// assert_eq!(check(4_095, MAX_ROWS)?.rows, 4_096);
    /// assert_eq!(check(4_095, usize::MAX)?.rows, 4_096);
    /// assert_eq!(check(4_096, usize::MAX).unwrap_err().number, 8);
    /// assert_eq!(check(0, 0).unwrap_err().number, 8);
    /// # Ok::<(), route_record::Refusal>(())
    /// ```
    pub fn check_val_with(
        &self,
        record: &[u8],
        index: usize,
        capacity: usize,
    ) -> Result<Parsed, Refusal> {
        calls::check_val_with(&self.words, record, index, capacity)
    }

    /// As [`check_whole`](Grammar::check_whole), with `capacity` rows. Refused as
    /// [`calls::check_whole_with`] refuses; a capacity above 4,096 counts as 4,096. Every proper
    /// front part of a record that is accepted is refused with 9, with the same grammar and
    /// capacity ([cut records](crate#cut-records)).
    ///
    /// ```
    /// use route_record::{Grammar, MAX_ROWS};
    ///
    /// let array_of_constants = Grammar::check(&[2, 3, 0, 1, 0, 0, 0, 1, 1])?;
    /// let check = |count: u64, capacity| {
    ///     array_of_constants.check_whole_with(&count.to_le_bytes(), capacity)
    /// };
    /// assert_eq!(check(4_095, MAX_ROWS)?.rows, 4_096);
    /// assert_eq!(check(4_095, usize::MAX)?.rows, 4_096);
    /// assert_eq!(check(4_096, usize::MAX).unwrap_err().number, 8);
    /// assert_eq!(check(0, 0).unwrap_err().number, 8);
    /// # Ok::<(), route_record::Refusal>(())
    /// ```
    pub fn check_whole_with(&self, record: &[u8], capacity: usize) -> Result<Parsed, Refusal> {
        calls::check_whole_with(&self.words, record, capacity)
    }

    /// Reads the value that starts at byte `index` into the rows lent, and gives it with the first
    /// byte behind it. Refused as [`calls::parse_val`] refuses; the rows are then as they were.
    ///
    /// ```
    /// use route_record::Grammar;
    ///
    /// let uint32 = Grammar::check(&[1, 1, 0, 0, 0])?;
    /// let (record, mut rows) = ([0xff, 7, 0, 0, 0, 0xff], [0; 5]);
    /// let (value, rest_index) = uint32.parse_val(&record, 1, &mut rows)?;
    /// assert_eq!((value.row_words(), rest_index), (&[1, 1, 7, 0, 4][..], 5));
    /// # Ok::<(), route_record::Refusal>(())
    /// ```
    pub fn parse_val<'a>(
        &self,
        record: &'a [u8],
        index: usize,
        rows: &'a mut [u64],
    ) -> Result<(Value<'a>, usize), Refusal> {
        let parsed = calls::parse_val(&self.words, record, index, rows)?;
        let value = Value::read(&rows[..ROW_WORDS * parsed.rows], record);
        Ok((value, parsed.rest_index))
    }

    /// Reads a whole record into the rows lent. Refused as [`calls::demarshall`] refuses; the rows
    /// are then as they were. Every proper front part of a record that is accepted is refused with
    /// 9, with the same grammar and as many rows ([cut records](crate#cut-records)).
    ///
    /// ```
    /// use route_record::Grammar;
    ///
    /// let array_of_constants = Grammar::check(&[2, 3, 0, 1, 0, 0, 0, 1, 1])?;
    /// let (record, mut rows) = ([3, 0, 0, 0, 0, 0, 0, 0], [0; 20]);
    /// let value = array_of_constants.demarshall(&record, &mut rows)?;
    /// assert_eq!(value.root().children().count(), 3);
    ///
    /// let refusal = array_of_constants.demarshall(&record, &mut rows[..19]).unwrap_err();
    /// assert_eq!(refusal.number, 8);
    /// # Ok::<(), route_record::Refusal>(())
    /// ```
    pub fn demarshall<'a>(
        &self,
        record: &'a [u8],
        rows: &'a mut [u64],
    ) -> Result<Value<'a>, Refusal> {
        let parsed = calls::demarshall(&self.words, record, rows)?;
        Ok(Value::read(&rows[..ROW_WORDS * parsed.rows], record))
    }

    /// Reads as [`parse_val`](Grammar::parse_val) does with 4,096 rows, into as many rows as the
    /// value has.
    ///
    /// ```
    /// use route_record::Grammar;
    ///
    /// let uint32 = Grammar::check(&[1, 1, 0, 0, 0])?;
    /// let record = [7, 0, 0, 0, 8, 0, 0, 0];
    /// let (_, rest_index) = uint32.parse_val_vec(&record, 0)?;
    /// let (second, _) = uint32.parse_val_vec(&record, rest_index)?;
    /// assert_eq!(second.row_words(), [1, 1, 8, 0, 4]);
    /// # Ok::<(), route_record::Refusal>(())
    /// ```
    pub fn parse_val_vec<'a>(
        &self,
        record: &'a [u8],
        index: usize,
    ) -> Result<(Value<'a>, usize), Refusal> {
        let parsed = self.check_val_with(record, index, MAX_ROWS)?;
        let mut rows = vec![0; ROW_WORDS * parsed.rows];
        let parsed = calls::parse_val(&self.words, record, index, &mut rows)?;
        Ok((Value::read(rows, record), parsed.rest_index))
    }

    /// Reads as [`demarshall`](Grammar::demarshall) does with 4,096 rows, into as many rows as the
    /// value has.
    ///
    /// ```
    /// use route_record::Grammar;
    ///
    /// let uint32 = Grammar::check(&[1, 1, 0, 0, 0])?;
    /// assert_eq!(uint32.demarshall_vec(&[7, 0, 0, 0])?.row_count(), 1);
    /// # Ok::<(), route_record::Refusal>(())
    /// ```
    ///
    /// Every proper front part of a record that is accepted is refused with 9, with the same
    /// grammar; the capacity of both is 4,096, however many rows the value has
    /// ([cut records](crate#cut-records)):
    ///
    /// ```
    /// use route_record::{Grammar, Refusal};
    ///
    /// let grammar = "tuple(u32, bytes)".parse::<Grammar>()?;
    /// let record = [7, 0, 0, 0, 2, 0, 0, 0, 0, 0, 0, 0, 0x41, 0x42];
    /// for k in 0..record.len() {
    ///     let refusal = grammar.demarshall_vec(&record[..k]).unwrap_err();
    ///     assert_eq!(refusal.number, Refusal::BYTES_MISSING);
    /// }
    /// assert_eq!(grammar.demarshall_vec(&record)?.row_count(), 3);
    /// # Ok::<(), Box<dyn std::error::Error>>(())
    /// ```
    pub fn demarshall_vec<'a>(&self, record: &'a [u8]) -> Result<Value<'a>, Refusal> {
        let parsed = self.check_whole_with(record, MAX_ROWS)?;
        let mut rows = vec![0; ROW_WORDS * parsed.rows];
        calls::demarshall(&self.words, record, &mut rows)?;
        Ok(Value::read(rows, record))
    }

    /// Writes the record of a value at byte `index` of the output and gives its size. Refused by
    /// 15 to 17 as [`calls::marshall_val`] refuses; the output is then as it was.
    ///
    /// ```
    /// use route_record::{Grammar, Value};
    ///
    /// let uint32 = Grammar::check(&[1, 1, 0, 0, 0])?;
    /// let value = Value::build(|value| value.uint32(7))?;
    ///
    /// let mut out = [0xff; 6];
    /// assert_eq!(uint32.marshall_val(&value, &mut out, 1)?, 4);
    /// assert_eq!(out, [0xff, 7, 0, 0, 0, 0xff]);
    ///
    /// let refusal = uint32.marshall_val(&value, &mut out, 3).unwrap_err();
    /// let words =
    ///     "refused 17 at byte 6: the output or store ends there, before what is to be written does";
    /// assert_eq!(refusal.to_string(), words);
    /// # Ok::<(), route_record::Refusal>(())
    /// ```
    pub fn marshall_val(
        &self,
        value: &Value,
        out: &mut [u8],
        index: usize,
    ) -> Result<usize, Refusal> {
        let (rows, n, store) = value.parts();
        calls::marshall_val(&self.words, rows, n, store, out, index)
    }

    /// Writes as [`marshall_val`](Grammar::marshall_val) does at byte 0.
    ///
    /// ```
    /// use route_record::{Grammar, Value};
    ///
    /// let uint32 = Grammar::check(&[1, 1, 0, 0, 0])?;
    /// let mut out = [0xff; 5];
    /// assert_eq!(uint32.marshall(&Value::build(|value| value.uint32(7))?, &mut out)?, 4);
    /// assert_eq!(out, [7, 0, 0, 0, 0xff]);
    /// # Ok::<(), route_record::Refusal>(())
    /// ```
    pub fn marshall(&self, value: &Value, out: &mut [u8]) -> Result<usize, Refusal> {
        let (rows, n, store) = value.parts();
        calls::marshall(&self.words, rows, n, store, out)
    }

    /// The record of a value. Refused by 15 and 16 as [`marshall`](Grammar::marshall) is.
    ///
    /// ```
    /// use route_record::{Grammar, Value};
    ///
    /// let uint32 = Grammar::check(&[1, 1, 0, 0, 0])?;
    /// let record = uint32.marshall_vec(&Value::build(|value| value.uint32(7))?)?;
    /// assert_eq!(record, [7, 0, 0, 0]);
    ///
    /// let wide = Value::build(|value| value.uint64(7))?;
    /// assert_eq!(uint32.marshall_vec(&wide).unwrap_err().number, 15);
    /// # Ok::<(), route_record::Refusal>(())
    /// ```
    pub fn marshall_vec(&self, value: &Value) -> Result<Vec<u8>, Refusal> {
        // A value of more bytes is refused by 15 or 16, whatever output is lent.
        let length = value.size().min(MAX_BYTES as u64) as usize;
        let mut out = vec![0; length];
        self.marshall(value, &mut out)?;
        Ok(out)
    }

    /// What writing a value at byte `index` of the output would do: the size of its record, and how
    /// many bytes of the output would differ afterwards. Changes nothing. Refused by 15 to 17 as
    /// [`calls::preview`] refuses.
    ///
    /// It says what writing to a copy gives and changes:
    ///
    /// ```
    /// use route_record::{Grammar, Preview, Value};
    ///
    /// let grammar = "tuple(u32, u32)".parse::<Grammar>().unwrap();
    /// let value = Value::build(|value| {
    ///     value.tuple(|fields| {
    ///         fields.uint32(7);
    ///         fields.uint32(6);
    ///     });
    /// })?;
    /// let out = [0xff, 7, 0, 0, 0, 5, 0, 0, 0, 0xff];
    /// let preview = grammar.preview(&value, &out, 1)?;
    /// assert_eq!(preview, Preview { size: 8, changed: 1 });
    ///
    /// let mut copy = out;
    /// assert_eq!(grammar.marshall_val(&value, &mut copy, 1)?, preview.size);
    /// let changed = out.iter().zip(&copy).filter(|(before, after)| before != after);
    /// assert_eq!(changed.count(), preview.changed);
    ///
    /// assert_eq!(grammar.preview(&value, &out, 3).unwrap_err().number, 17);
    /// # Ok::<(), route_record::Refusal>(())
    /// ```
    pub fn preview(&self, value: &Value, out: &[u8], index: usize) -> Result<Preview, Refusal> {
        let (rows, n, store) = value.parts();
        calls::preview(&self.words, rows, n, store, out, index)
    }

    /// Whether two records are of the same route: whether their values are equal, but for the first
    /// field of a root that is a tuple, which on the bench is the serial number of the box. Both are
    /// read as [`check_whole_with`](Grammar::check_whole_with) reads with 4,096 rows. Refused as
    /// [`calls::same_route`] refuses.
    ///
    /// ```
    /// use route_record::Grammar;
    ///
    /// let grammar = "tuple(u32, u32)".parse::<Grammar>()?;
    /// let first = [7, 0, 0, 0, 5, 0, 0, 0];
    /// assert_eq!(grammar.same_route(&first, &[8, 0, 0, 0, 5, 0, 0, 0]), Ok(true));
    /// assert_eq!(grammar.same_route(&first, &[7, 0, 0, 0, 6, 0, 0, 0]), Ok(false));
    ///
    /// let refusal = grammar.same_route(&first, &first[..7]).unwrap_err();
    /// let words = "the second record: refused 9 at byte 4: the value that starts there is cut short";
    /// assert_eq!(refusal.to_string(), words);
    /// # Ok::<(), route_record::GrammarError>(())
    /// ```
    pub fn same_route(&self, first: &[u8], second: &[u8]) -> Result<bool, SameRouteRefusal> {
        calls::same_route(&self.words, first, second)
    }

    /// Whether the record is accepted whole, as [`check_whole_with`](Grammar::check_whole_with) does
    /// with 4,096 rows, and the values begun. A record of more than 1,048,576 bytes, or of fewer than
    /// every value of the grammar has, is not read: no, with 0 values begun. [`calls::accepts`] says
    /// more. It refuses nothing but a grammar, which this one passed, so there is no refusal here.
    ///
    /// ```
    /// use route_record::{Grammar, Verdict};
    ///
    /// let grammar = "tuple(u32, bytes)".parse::<Grammar>()?;
    /// let record = [7, 0, 0, 0, 2, 0, 0, 0, 0, 0, 0, 0, 0x41, 0x42];
    /// assert_eq!(grammar.accepts(&record), Verdict { accepted: true, begun: 3 });
    /// assert_eq!(grammar.accepts(&record[..13]), Verdict { accepted: false, begun: 3 });
    /// assert_eq!(grammar.accepts(&record[..3]), Verdict { accepted: false, begun: 0 });
    /// # Ok::<(), route_record::GrammarError>(())
    /// ```
    pub fn accepts(&self, record: &[u8]) -> Verdict {
        calls::accepts(&self.words, record).expect("the library accepted this grammar")
    }

    /// Writes the XDR of a value, its bytes by RFC 4506, at byte `index` of the output and gives
    /// its size. Refused by 15 to 17 as [`calls::export_xdr`] refuses; the output is then as it was.
    ///
    /// ```
    /// use route_record::{Grammar, Value};
    ///
    /// let bytes = Grammar::check(&[1, 5, 0, 0, 0])?;
    /// let value = Value::build(|value| value.byte_array(b"AB"))?;
    ///
    /// let mut out = [0xee; 10];
    /// assert_eq!(bytes.export_xdr(&value, &mut out, 1)?, 8);
    /// assert_eq!(out, [0xee, 0, 0, 0, 2, 0x41, 0x42, 0, 0, 0xee]);
    ///
    /// assert_eq!(bytes.export_xdr(&value, &mut out, 3).unwrap_err().number, 17);
    /// # Ok::<(), route_record::Refusal>(())
    /// ```
    pub fn export_xdr(
        &self,
        value: &Value,
        out: &mut [u8],
        index: usize,
    ) -> Result<usize, Refusal> {
        let (rows, n, store) = value.parts();
        calls::export_xdr(&self.words, rows, n, store, out, index)
    }

    /// The XDR of a value. Refused by 15 and 16 as [`export_xdr`](Grammar::export_xdr) is.
    ///
    /// ```
    /// use route_record::{Grammar, Value};
    ///
    /// let int32 = Grammar::check(&[1, 9, 0, 0, 0])?;
    /// let xdr = int32.export_xdr_vec(&Value::build(|value| value.int32(-3))?)?;
    /// assert_eq!(xdr, [0xff, 0xff, 0xff, 0xfd]);
    /// # Ok::<(), route_record::Refusal>(())
    /// ```
    pub fn export_xdr_vec(&self, value: &Value) -> Result<Vec<u8>, Refusal> {
        // XDR is never longer than the record, and longer XDR is refused, whatever output is lent.
        let most = value.size().min(MAX_BYTES as u64) as usize;
        let mut out = vec![0; most];
        let size = self.export_xdr(value, &mut out, 0)?;
        out.truncate(size);
        Ok(out)
    }

    /// Reads a whole record of XDR into the rows and the store lent. The store of the value is the
    /// part of it that its arrays take. Refused as [`calls::import_xdr`] refuses; rows and store are
    /// then as they were.
    ///
    /// ```
    /// use route_record::Grammar;
    ///
    /// let bytes = Grammar::check(&[1, 5, 0, 0, 0])?;
    /// let xdr = [0, 0, 0, 2, 0x41, 0x42, 0, 0];
    /// let (mut rows, mut store) = ([0; 5], [0; 8]);
    /// let value = bytes.import_xdr(&xdr, &mut rows, &mut store)?;
    /// assert_eq!((value.row_words(), value.store()), (&[5, 1, 2, 0, 10][..], &b"AB"[..]));
    ///
    /// let refusal = bytes.import_xdr(&xdr, &mut rows, &mut store[..1]).unwrap_err();
    /// assert_eq!(refusal.number, 17);
    /// # Ok::<(), route_record::Refusal>(())
    /// ```
    pub fn import_xdr<'a>(
        &self,
        record: &[u8],
        rows: &'a mut [u64],
        store: &'a mut [u8],
    ) -> Result<Value<'a>, Refusal> {
        let imported = calls::import_xdr(&self.words, record, rows, store)?;
        let (rows, store) = (&rows[..ROW_WORDS * imported.rows], &store[..imported.used]);
        Ok(Value::read(rows, store))
    }

    /// Reads as [`import_xdr`](Grammar::import_xdr) does with 4,096 rows and a store as long as the
    /// record, which are enough wherever any import is accepted, into as many rows and bytes as the
    /// value has.
    ///
    /// ```
    /// use route_record::{Grammar, Place, Refusal};
    ///
    /// let grammar = "tuple(i32, bytes)".parse::<Grammar>()?;
    /// let mut xdr = [0xff, 0xff, 0xff, 0xfd, 0, 0, 0, 2, 0x41, 0x42, 0, 0];
    /// let value = grammar.import_xdr_vec(&xdr)?;
    /// let rows = [4, 3, 2, 0, 14, 9, 1, 4_294_967_293, 0, 4, 5, 1, 2, 0, 10];
    /// assert_eq!(value.row_words(), rows);
    /// assert_eq!(grammar.export_xdr_vec(&value)?, xdr);
    ///
    /// // The value's record has other bytes.
    /// let record = [0xfd, 0xff, 0xff, 0xff, 2, 0, 0, 0, 0, 0, 0, 0, 0x41, 0x42];
    /// assert_eq!(grammar.marshall_vec(&value)?, record);
    ///
    /// xdr[11] = 1;
    /// let refusal = Refusal { number: Refusal::PADDING_NOT_ZERO, place: Place::Byte(4) };
    /// assert_eq!(grammar.import_xdr_vec(&xdr).unwrap_err(), refusal);
    /// # Ok::<(), Box<dyn std::error::Error>>(())
    /// ```
    pub fn import_xdr_vec(&self, record: &[u8]) -> Result<Value<'static>, Refusal> {
        let mut rows = vec![0; ROW_WORDS * MAX_ROWS];
        // A longer record is refused, whatever store is lent.
        let mut store = vec![0; record.len().min(MAX_BYTES)];
        let imported = calls::import_xdr(&self.words, record, &mut rows, &mut store)?;
        rows.truncate(ROW_WORDS * imported.rows);
        store.truncate(imported.used);
        rows.shrink_to_fit();
        store.shrink_to_fit();
        Ok(Value::read(rows, store))
    }
}

//! Values: sound rows with their store, and their rows as a tree.

use std::borrow::Cow;
use std::fmt;
use std::hash::{Hash, Hasher};
use std::iter::FusedIterator;
use std::ops::Range;

use crate::{calls, Class, Kind, Refusal, KINDS, ROW_WORDS};

/// A value: rows that stand for one, and the store that their arrays lie in.
///
/// ```
/// use route_record::Grammar;
///
/// let grammar = "tuple(u32, bytes)".parse::<Grammar>()?;
/// let record = [7, 0, 0, 0, 2, 0, 0, 0, 0, 0, 0, 0, 0x41, 0x42];
/// let value = grammar.demarshall_vec(&record)?;
/// assert_eq!(value.size(), 14);
///
/// let fields: Vec<_> = value.root().children().collect();
/// assert_eq!(fields.len(), 2);
/// assert_eq!(fields[0].number(), Some(7));
/// assert_eq!(fields[1].elements().unwrap().bytes(), b"AB");
///
/// let depths: Vec<_> = value.rows().map(|(depth, row)| (depth, row.kind().text)).collect();
/// assert_eq!(depths, [(0, "tuple"), (1, "u32"), (1, "bytes")]);
/// # Ok::<(), Box<dyn std::error::Error>>(())
/// ```
#[derive(Clone)]
pub struct Value<'a> {
    rows: Cow<'a, [u64]>,
    store: Cow<'a, [u8]>,
}

impl<'a> Value<'a> {
    /// The value that rows 0 to `n - 1` stand for. Refused as [`calls::compute_size_of`] refuses.
    ///
    /// ```
    /// use route_record::Value;
    ///
    /// let value = Value::check(&[1, 1, 7, 0, 4], 1, &[])?;
    /// assert_eq!(value.size(), 4);
    ///
    /// let refusal = Value::check(&[1, 1, 4_294_967_296, 0, 4], 1, &[]).unwrap_err();
    /// assert_eq!(refusal.to_string(), "refused 13 at row 0: the row breaks the layout of a value");
    /// # Ok::<(), route_record::Refusal>(())
    /// ```
    pub fn check(rows: &'a [u64], n: usize, store: &'a [u8]) -> Result<Value<'a>, Refusal> {
        calls::compute_size_of(rows, n, store)?;
        Ok(Value::read(&rows[..ROW_WORDS * n], store))
    }

    /// The value of rows that the library has read or checked, with no word behind them.
    pub(crate) fn read(
        rows: impl Into<Cow<'a, [u64]>>,
        store: impl Into<Cow<'a, [u8]>>,
    ) -> Value<'a> {
        Value {
            rows: rows.into(),
            store: store.into(),
        }
    }

    /// The words of the rows, [`ROW_WORDS`] to a row.
    pub fn row_words(&self) -> &[u64] {
        &self.rows
    }

    /// How many rows the value has.
    pub fn row_count(&self) -> usize {
        self.rows.len() / ROW_WORDS
    }

    /// The bytes that the arrays lie in. Of a value just read it is the record, of one just imported
    /// from XDR its arrays one behind the other.
    pub fn store(&self) -> &[u8] {
        &self.store
    }

    /// What the library is given for the value: row words, row count and store.
    pub(crate) fn parts(&self) -> (&[u64], usize, &[u8]) {
        (&self.rows, self.row_count(), &self.store)
    }

    /// The size in bytes: the length of the value's record. It is read off row 0, which the library
    /// wrote or checked.
    pub fn size(&self) -> u64 {
        self.root().size()
    }

    /// The row of the whole value.
    pub fn root(&self) -> Row<'_> {
        self.row(0)
    }

    /// All rows, each with its depth: a row before its children, children in order. The root's
    /// depth is 0.
    pub fn rows(&self) -> Rows<'_> {
        Rows {
            value: self,
            next: 0,
            ends: Vec::new(),
        }
    }

    /// The value with rows and store of its own.
    ///
    /// ```
    /// use route_record::{Grammar, Refusal, Value};
    ///
    /// fn read(grammar: &Grammar, record: Vec<u8>) -> Result<Value<'static>, Refusal> {
    ///     Ok(grammar.demarshall_vec(&record)?.into_owned())
    /// }
    /// let value = read(&Grammar::check(&[1, 1, 0, 0, 0])?, vec![7, 0, 0, 0])?;
    /// assert_eq!(value.root().number(), Some(7));
    /// # Ok::<(), Refusal>(())
    /// ```
    pub fn into_owned(self) -> Value<'static> {
        Value::read(self.rows.into_owned(), self.store.into_owned())
    }

    fn row(&self, index: usize) -> Row<'_> {
        Row { value: self, index }
    }
}

/// The counts of rows and bytes, which may be many.
impl fmt::Debug for Value<'_> {
    fn fmt(&self, f: &mut fmt::Formatter) -> fmt::Result {
        let (rows, bytes) = (self.row_count(), self.store.len());
        write!(f, "Value(rows {rows}, bytes of the store {bytes})")
    }
}

/// A row of a value, and so the value that starts with it.
#[derive(Clone, Copy)]
pub struct Row<'v> {
    value: &'v Value<'v>,
    index: usize,
}

impl<'v> Row<'v> {
    /// The row's number in the table.
    pub fn index(&self) -> usize {
        self.index
    }

    /// The row's words: kind, span, word 2, word 3 and size.
    pub fn words(&self) -> &'v [u64] {
        &self.value.rows[ROW_WORDS * self.index..][..ROW_WORDS]
    }

    /// The row's kind.
    pub fn kind(&self) -> &'static Kind {
        &KINDS[self.words()[0] as usize]
    }

    /// The size in bytes of the row's value: how many bytes of the record it has, its children's
    /// included.
    ///
    /// ```
    /// use route_record::Grammar;
    ///
    /// let grammar = "tuple(u32, bytes)".parse::<Grammar>()?;
    /// let record = [7, 0, 0, 0, 2, 0, 0, 0, 0, 0, 0, 0, 0x41, 0x42];
    /// let value = grammar.demarshall_vec(&record)?;
    /// let sizes: Vec<_> = value.rows().map(|(_, row)| row.size()).collect();
    /// assert_eq!(sizes, [14, 4, 10]);
    /// # Ok::<(), Box<dyn std::error::Error>>(())
    /// ```
    pub fn size(&self) -> u64 {
        self.words()[4]
    }

    /// What the row's value is made of.
    pub fn contents(&self) -> Contents<'v> {
        let words = self.words();
        match self.kind().class {
            Class::Constant => Contents::Constant,
            Class::Number { .. } => Contents::Number(words[2]),
            // A cast to a signed type of the pattern's width keeps its bits.
            Class::Signed { width: 4 } => Contents::Signed((words[2] as i32).into()),
            Class::Signed { .. } => Contents::Signed(words[2] as i64),
            Class::Array => Contents::Array(self.children()),
            Class::Tuple => Contents::Tuple(self.children()),
            Class::Elements { width } => {
                let (start, count) = (words[3] as usize, words[2] as usize);
                let bytes = &self.value.store[start..][..count * width];
                Contents::Elements(Elements {
                    bytes,
                    start,
                    width,
                })
            }
            Class::Union => Contents::Case {
                tag: words[2],
                value: self.value.row(self.index + 1),
            },
        }
    }

    /// The number, of a row that is an unsigned one, so of kind 1 or 2. A signed one is given by
    /// [`signed`](Row::signed).
    pub fn number(&self) -> Option<u64> {
        match self.contents() {
            Contents::Number(number) => Some(number),
            _ => None,
        }
    }

    /// The number, of a row that is a signed one, so of kind 9 or 10: what
    /// [`calls::signed_number`] gives. An unsigned one is given by [`number`](Row::number).
    ///
    /// ```
    /// use route_record::Grammar;
    ///
    /// let grammar = "tuple(i32, u32)".parse::<Grammar>()?;
    /// let value = grammar.demarshall_vec(&[0xff; 8])?;
    /// let fields: Vec<_> = value.root().children().collect();
    /// assert_eq!((fields[0].signed(), fields[0].number()), (Some(-1), None));
    /// assert_eq!((fields[1].signed(), fields[1].number()), (None, Some(4_294_967_295)));
    /// # Ok::<(), Box<dyn std::error::Error>>(())
    /// ```
    pub fn signed(&self) -> Option<i64> {
        match self.contents() {
            Contents::Signed(number) => Some(number),
            _ => None,
        }
    }

    /// The elements, of a row whose elements lie packed in the store.
    pub fn elements(&self) -> Option<Elements<'v>> {
        match self.contents() {
            Contents::Elements(elements) => Some(elements),
            _ => None,
        }
    }

    /// The tag and the value, of a case of a union.
    pub fn case(&self) -> Option<(u64, Row<'v>)> {
        match self.contents() {
            Contents::Case { tag, value } => Some((tag, value)),
            _ => None,
        }
    }

    /// The child with this number, from 0 on, if there is one. The children before it are passed
    /// over one by one.
    pub fn child(&self, number: usize) -> Option<Row<'v>> {
        self.children().nth(number)
    }

    /// The rows of the children: the elements of an array, the fields of a tuple, the value of a
    /// case; none of another kind.
    pub fn children(&self) -> Children<'v> {
        let left = match self.kind().class {
            Class::Array | Class::Tuple => self.words()[2] as usize,
            Class::Union => 1,
            _ => 0,
        };
        Children {
            value: self.value,
            next: self.index + 1,
            left,
        }
    }

    /// The first row behind the value.
    fn end(&self) -> usize {
        self.index + self.words()[1] as usize
    }
}

/// The row's number, kind and words, and no other row.
impl fmt::Debug for Row<'_> {
    fn fmt(&self, f: &mut fmt::Formatter) -> fmt::Result {
        let (index, kind, words) = (self.index, self.kind().text, self.words());
        write!(f, "Row({index}: {kind} {words:?})")
    }
}

/// What a value is made of, by the class of its kind.
#[derive(Clone, Debug)]
#[non_exhaustive]
pub enum Contents<'v> {
    /// Nothing.
    Constant,
    /// An unsigned number.
    Number(u64),
    /// A signed number.
    Signed(i64),
    /// Elements, each a value.
    Array(Children<'v>),
    /// Fields, each a value.
    Tuple(Children<'v>),
    /// Elements, each a number, packed in the store.
    Elements(Elements<'v>),
    /// One case of a union.
    Case {
        /// Which case.
        tag: u64,
        /// Its value.
        value: Row<'v>,
    },
}

/// The numbers of an array that lies packed in the store. Equal where bytes and width are,
/// wherever they lie.
#[derive(Clone, Copy)]
pub struct Elements<'v> {
    bytes: &'v [u8],
    start: usize,
    width: usize,
}

impl<'v> Elements<'v> {
    /// The packed bytes, a part of the store.
    pub fn bytes(&self) -> &'v [u8] {
        self.bytes
    }

    /// Where the packed bytes lie in the store.
    ///
    /// ```
    /// use route_record::Value;
    ///
    /// let value = Value::check(&[6, 1, 1, 3, 12], 1, &[0, 0, 0, 0x78, 0x56, 0x34, 0x12])?;
    /// let elements = value.root().elements().unwrap();
    /// assert_eq!(elements.range(), 3..7);
    /// assert_eq!(elements.bytes(), &value.store()[3..7]);
    /// assert!(elements.numbers().eq([305_419_896]));
    /// # Ok::<(), route_record::Refusal>(())
    /// ```
    pub fn range(&self) -> Range<usize> {
        self.start..self.start + self.bytes.len()
    }

    /// The bytes of one number: 1, 4 or 8.
    pub fn width(&self) -> usize {
        self.width
    }

    /// How many numbers.
    pub fn len(&self) -> usize {
        self.bytes.len() / self.width
    }

    /// Whether there is no number.
    pub fn is_empty(&self) -> bool {
        self.bytes.is_empty()
    }

    /// The numbers, as the library unpacks them.
    pub fn numbers(&self) -> impl Iterator<Item = u64> + 'v {
        let (bytes, width) = (self.bytes, self.width);
        (0..bytes.len()).step_by(width).map(move |index| {
            match width {
                1 => Ok(bytes[index].into()),
                4 => calls::unpack_u32(bytes, index).map(u64::from),
                _ => calls::unpack_u64(bytes, index),
            }
            .expect("the bytes of each number are there")
        })
    }
}

impl PartialEq for Elements<'_> {
    fn eq(&self, other: &Elements) -> bool {
        (self.bytes, self.width) == (other.bytes, other.width)
    }
}

impl Eq for Elements<'_> {}

impl Hash for Elements<'_> {
    fn hash<H: Hasher>(&self, state: &mut H) {
        (self.bytes, self.width).hash(state);
    }
}

/// Width and range, and no element.
impl fmt::Debug for Elements<'_> {
    fn fmt(&self, f: &mut fmt::Formatter) -> fmt::Result {
        let (width, range) = (self.width, self.range());
        write!(f, "Elements(width {width}, bytes {range:?})")
    }
}

/// The rows of a value's children, in order.
#[derive(Clone, Debug)]
pub struct Children<'v> {
    value: &'v Value<'v>,
    next: usize,
    left: usize,
}

impl<'v> Iterator for Children<'v> {
    type Item = Row<'v>;

    fn next(&mut self) -> Option<Row<'v>> {
        self.left = self.left.checked_sub(1)?;
        let child = self.value.row(self.next);
        self.next = child.end();
        Some(child)
    }

    fn size_hint(&self) -> (usize, Option<usize>) {
        (self.left, Some(self.left))
    }
}

impl ExactSizeIterator for Children<'_> {}

impl FusedIterator for Children<'_> {}

/// All rows of a value with their depths.
#[derive(Clone)]
pub struct Rows<'v> {
    value: &'v Value<'v>,
    next: usize,
    /// Where the values around the next row end, the innermost last.
    ends: Vec<usize>,
}

impl<'v> Iterator for Rows<'v> {
    type Item = (usize, Row<'v>);

    fn next(&mut self) -> Option<(usize, Row<'v>)> {
        let next = self.next;
        let row = (next < self.value.row_count()).then(|| self.value.row(next))?;
        while self.ends.last().is_some_and(|&end| end <= next) {
            self.ends.pop();
        }
        let depth = self.ends.len();
        self.ends.push(row.end());
        self.next += 1;
        Some((depth, row))
    }
}

impl FusedIterator for Rows<'_> {}

impl fmt::Debug for Rows<'_> {
    fn fmt(&self, f: &mut fmt::Formatter) -> fmt::Result {
        write!(f, "Rows(next {} of {:?})", self.next, self.value)
    }
}

//! Making a value for writing: its rows and its store.

use std::{fmt, mem};

use crate::{calls, Kind, Refusal, Value, ROW_WORDS};

/// Makes the rows and the store of a value, one value behind the other. [`Value::build`] lends it.
///
/// ```
/// use route_record::{Grammar, Value};
///
/// let value = Value::build(|value| {
///     value.tuple(|fields| {
///         fields.uint32(7);
///         fields.byte_array(b"AB");
///     });
/// })?;
///
/// let grammar = "tuple(u32, bytes)".parse::<Grammar>()?;
/// let record = [7, 0, 0, 0, 2, 0, 0, 0, 0, 0, 0, 0, 0x41, 0x42];
/// assert_eq!(grammar.marshall_vec(&value)?, record);
/// # Ok::<(), Box<dyn std::error::Error>>(())
/// ```
pub struct Builder {
    rows: Vec<u64>,
    store: Vec<u8>,
    /// How many children the value whose children are being made has so far.
    children: u64,
    /// The sizes of these children together.
    children_size: u64,
}

impl Value<'_> {
    /// The value that the closure makes with the builder lent to it. Refused as [`Value::check`]
    /// refuses: by 6 when the arrays have more than 1,048,576 bytes together; by 12 when there is no
    /// value or there are more than 4,096 rows; by 13 when there are two values, or a case has none
    /// or two.
    ///
    /// ```
    /// use route_record::Value;
    ///
    /// let value = Value::build(|value| value.uint32(7))?;
    /// assert_eq!(value.row_words(), [1, 1, 7, 0, 4]);
    ///
    /// let refusal = Value::build(|value| value.tagged_union(0, |_| ())).unwrap_err();
    /// assert_eq!(refusal.number, 13);
    /// # Ok::<(), route_record::Refusal>(())
    /// ```
    pub fn build(make: impl FnOnce(&mut Builder)) -> Result<Value<'static>, Refusal> {
        let mut builder = Builder {
            rows: Vec::new(),
            store: Vec::new(),
            children: 0,
            children_size: 0,
        };
        make(&mut builder);
        let Builder { rows, store, .. } = builder;
        calls::compute_size_of(&rows, rows.len() / ROW_WORDS, &store)?;
        Ok(Value::read(rows, store))
    }
}

impl Builder {
    /// A constant.
    pub fn constant(&mut self) {
        self.row(Kind::CONSTANT, 0, 0, 0);
    }

    /// A uint32.
    pub fn uint32(&mut self, number: u32) {
        self.row(Kind::UINT32, number.into(), 0, 4);
    }

    /// A uint64.
    pub fn uint64(&mut self, number: u64) {
        self.row(Kind::UINT64, number, 0, 8);
    }

    /// An int32. Its row holds the number's 32-bit two's complement pattern.
    ///
    /// ```
    /// use route_record::Value;
    ///
    /// let value = Value::build(|value| value.int32(-3))?;
    /// assert_eq!(value.row_words(), [9, 1, 4_294_967_293, 0, 4]);
    /// # Ok::<(), route_record::Refusal>(())
    /// ```
    pub fn int32(&mut self, number: i32) {
        self.row(Kind::INT32, u64::from(number as u32), 0, 4);
    }

    /// An int64. Its row holds the number's 64-bit two's complement pattern.
    pub fn int64(&mut self, number: i64) {
        self.row(Kind::INT64, number as u64, 0, 8);
    }

    /// An array whose elements the closure makes.
    pub fn array(&mut self, elements: impl FnOnce(&mut Builder)) {
        let (word2, count) = self.parent(Kind::ARRAY, 8, elements);
        self.rows[word2] = count;
    }

    /// A tuple whose fields the closure makes.
    pub fn tuple(&mut self, fields: impl FnOnce(&mut Builder)) {
        let (word2, count) = self.parent(Kind::TUPLE, 0, fields);
        self.rows[word2] = count;
    }

    /// An array of bytes.
    pub fn byte_array(&mut self, bytes: &[u8]) {
        self.elements(Kind::BYTE_ARRAY, bytes.len(), 1, |out| {
            out.copy_from_slice(bytes);
            Ok(())
        });
    }

    /// An array of uint32.
    pub fn uint32_array(&mut self, numbers: &[u32]) {
        let pack = |out: &mut [u8]| calls::pack_u32_seq(numbers, out, 0);
        self.elements(Kind::UINT32_ARRAY, numbers.len(), 4, pack);
    }

    /// An array of uint64.
    pub fn uint64_array(&mut self, numbers: &[u64]) {
        let pack = |out: &mut [u8]| calls::pack_u64_seq(numbers, out, 0);
        self.elements(Kind::UINT64_ARRAY, numbers.len(), 8, pack);
    }

    /// The case of this tag of a union, whose one value the closure makes.
    pub fn tagged_union(&mut self, tag: u64, value: impl FnOnce(&mut Builder)) {
        let (word2, _) = self.parent(Kind::TAGGED_UNION, 8, value);
        self.rows[word2] = tag;
    }

    /// Puts a row of span 1.
    fn row(&mut self, kind: u32, word2: u64, word3: u64, size: u64) {
        self.rows.extend([kind.into(), 1, word2, word3, size]);
        self.children += 1;
        self.children_size += size;
    }

    /// Puts the row of a value with children and the rows that the closure makes; gives where the
    /// row's word 2 stands and how many children were made. The value's size is `own_size` more than
    /// its children's. The span is 0, which no value has, until the children are made.
    fn parent(
        &mut self,
        kind: u32,
        own_size: u64,
        children: impl FnOnce(&mut Builder),
    ) -> (usize, u64) {
        let start = self.rows.len();
        self.rows.extend([kind.into(), 0, 0, 0, 0]);
        let siblings = mem::take(&mut self.children);
        let siblings_size = mem::take(&mut self.children_size);
        children(self);
        let size = own_size + self.children_size;
        let count = mem::replace(&mut self.children, siblings + 1);
        self.children_size = siblings_size + size;
        self.rows[start + 1] = ((self.rows.len() - start) / ROW_WORDS) as u64;
        self.rows[start + 4] = size;
        (start + 2, count)
    }

    /// Puts the row of an array of `count` numbers of `width` bytes, which `pack` packs into the
    /// store's end.
    fn elements(
        &mut self,
        kind: u32,
        count: usize,
        width: usize,
        pack: impl FnOnce(&mut [u8]) -> Result<(), Refusal>,
    ) {
        let offset = self.store.len();
        self.store.resize(offset + count * width, 0);
        pack(&mut self.store[offset..]).expect("the store has room for the numbers");
        let size = 8 + (count * width) as u64;
        self.row(kind, count as u64, offset as u64, size);
    }
}

/// The counts of rows and bytes made so far, which may be many.
impl fmt::Debug for Builder {
    fn fmt(&self, f: &mut fmt::Formatter) -> fmt::Result {
        let (rows, bytes) = (self.rows.len() / ROW_WORDS, self.store.len());
        write!(f, "Builder(rows {rows}, bytes of the store {bytes})")
    }
}

#[cfg(test)]
mod tests {
    use std::panic::{catch_unwind, AssertUnwindSafe};

    use super::*;
    use crate::{Grammar, Place, MAX_BYTES, MAX_ROWS};

    /// The refusal of what the closure makes.
    fn refusal(make: impl FnOnce(&mut Builder)) -> (u64, Place) {
        let refusal = Value::build(make).unwrap_err();
        (refusal.number, refusal.place)
    }

    #[test]
    fn what_is_no_value_is_refused() {
        assert_eq!(refusal(|_| ()), (12, Place::Row(0)));
        let of_two = refusal(|value| {
            value.constant();
            value.constant();
        });
        assert_eq!(of_two, (13, Place::Row(0)));
        assert_eq!(refusal(|v| v.tagged_union(0, |_| ())), (13, Place::Row(0)));
        let of_many = refusal(|v| v.array(|v| (0..MAX_ROWS).for_each(|_| v.constant())));
        assert_eq!(of_many, (12, Place::Row(0)));
        let of_long = refusal(|v| v.byte_array(&[0; MAX_BYTES + 1]));
        assert_eq!(of_long, (6, Place::Byte(0)));
    }

    #[test]
    fn children_that_were_not_made_to_the_end_are_refused() {
        let of_panic = refusal(|value| {
            let make = || value.array(|_| panic!("on purpose"));
            assert!(catch_unwind(AssertUnwindSafe(make)).is_err());
        });
        assert_eq!(of_panic, (13, Place::Row(0)));
    }

    #[test]
    fn a_record_above_the_limit_is_refused() {
        let bytes = Grammar::check(&[1, 5, 0, 0, 0]).unwrap();
        let record_of = |count| {
            let value = Value::build(|value| value.byte_array(&vec![9; count]));
            bytes.marshall_vec(&value.unwrap())
        };
        assert_eq!(record_of(MAX_BYTES - 8).unwrap().len(), MAX_BYTES);
        let refusal = record_of(MAX_BYTES - 7).unwrap_err();
        assert_eq!((refusal.number, refusal.place), (16, Place::Row(0)));
    }
}

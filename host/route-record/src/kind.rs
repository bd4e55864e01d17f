//! The kinds of grammar nodes and value rows, in one table.

/// What a value of a kind is made of.
#[derive(Clone, Copy, Debug, PartialEq, Eq, Hash)]
#[non_exhaustive]
pub enum Class {
    /// Nothing: there is one such value, and it has no bytes.
    Constant,
    /// One unsigned number of so many bytes.
    Number {
        /// Bytes of the number.
        width: usize,
    },
    /// One signed number of so many bytes, in two's complement.
    Signed {
        /// Bytes of the number.
        width: usize,
    },
    /// A count, and as many values of the one child.
    Array,
    /// One value of each child.
    Tuple,
    /// A count, and as many numbers of so many bytes.
    Elements {
        /// Bytes of one number.
        width: usize,
    },
    /// A tag, and one value of the child that the tag numbers.
    Union,
}

/// A kind.
#[derive(Clone, Copy, Debug, PartialEq, Eq, Hash)]
pub struct Kind {
    /// The kind word of a node, and of a row.
    pub number: u32,
    /// The name in the library's source.
    pub name: &'static str,
    /// A short name for people.
    pub text: &'static str,
    /// What its values are made of.
    pub class: Class,
}

/// Makes the named numbers and the table of the kinds, a line to each: number, constant, name in
/// the library's source, short name, class.
macro_rules! kinds {
    ($($number:literal $constant:ident $name:literal $text:literal $class:expr;)*) => {
        /// The numbers of the kinds.
        impl Kind {
            $(#[doc = concat!("Number ", $number, ", `", $text, "`.")]
            pub const $constant: u32 = $number;)*
        }

        /// The kinds, each at the place of its number.
        ///
        /// ```
        /// use route_record::{Class, Kind, KINDS};
        ///
        /// let bytes = &KINDS[Kind::BYTE_ARRAY as usize];
        /// assert_eq!((bytes.number, bytes.name, bytes.text), (5, "GByteArray", "bytes"));
        /// assert_eq!(bytes.class, Class::Elements { width: 1 });
        /// ```
        pub static KINDS: &[Kind] = &[
            $(Kind { number: $number, name: $name, text: $text, class: $class }),*
        ];
    };
}

kinds! {
    0 CONSTANT "GConstant" "constant" Class::Constant;
    1 UINT32 "GUint32" "u32" Class::Number { width: 4 };
    2 UINT64 "GUint64" "u64" Class::Number { width: 8 };
    3 ARRAY "GArray" "array" Class::Array;
    4 TUPLE "GTuple" "tuple" Class::Tuple;
    5 BYTE_ARRAY "GByteArray" "bytes" Class::Elements { width: 1 };
    6 UINT32_ARRAY "GUint32Array" "u32s" Class::Elements { width: 4 };
    7 UINT64_ARRAY "GUint64Array" "u64s" Class::Elements { width: 8 };
    8 TAGGED_UNION "GTaggedUnion" "union" Class::Union;
    9 INT32 "GInt32" "i32" Class::Signed { width: 4 };
    10 INT64 "GInt64" "i64" Class::Signed { width: 8 };
}

#[cfg(test)]
mod tests {
    use super::*;
    use crate::Grammar;

    #[test]
    fn each_kind_stands_at_its_number() {
        for (place, kind) in KINDS.iter().enumerate() {
            assert_eq!(kind.number as usize, place);
        }
    }

    #[test]
    fn the_library_knows_these_kinds_and_no_other() {
        for number in 0..=u32::from(u8::MAX) {
            let count = u32::from(number == Kind::ARRAY);
            let words = [2, number, 0, count, Kind::CONSTANT, 0, 0, 1, 1];
            let known = Grammar::check(&words).is_ok();
            assert_eq!(known, KINDS.iter().any(|kind| kind.number == number));
        }
    }
}

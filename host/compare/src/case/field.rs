//! What a call is given, piece by piece.

/// A number or a slice that a call is given.
#[allow(missing_docs)]
pub enum Field<'a> {
    Uint32(&'a mut u32),
    Uint64(&'a mut u64),
    /// An index, a row number, a row count or a capacity.
    Size(&'a mut usize),
    Bytes(&'a mut Vec<u8>),
    Uint32s(&'a mut Vec<u32>),
    Uint64s(&'a mut Vec<u64>),
}

/// What a call can be given: as a field, and as the argument of a call.
pub(super) trait Given {
    type Argument<'a>
    where
        Self: 'a;
    fn as_field(&mut self) -> Field<'_>;
    fn as_argument(&mut self) -> Self::Argument<'_>;
}

/// Makes numbers, which are handed on by value, fields of the variant behind each.
macro_rules! given_numbers {
    ($($number:ty => $variant:ident),*) => {$(
        impl Given for $number {
            type Argument<'a> = $number;
            fn as_field(&mut self) -> Field<'_> {
                Field::$variant(self)
            }
            fn as_argument(&mut self) -> $number {
                *self
            }
        }
    )*};
}

/// Makes slices of numbers fields of the variant behind each.
macro_rules! given_slices {
    ($($number:ty => $variant:ident),*) => {$(
        impl Given for Vec<$number> {
            type Argument<'a> = &'a mut [$number];
            fn as_field(&mut self) -> Field<'_> {
                Field::$variant(self)
            }
            fn as_argument(&mut self) -> &mut [$number] {
                self
            }
        }
    )*};
}

given_numbers!(u32 => Uint32, u64 => Uint64, usize => Size);
given_slices!(u8 => Bytes, u32 => Uint32s, u64 => Uint64s);

/// A lent buffer stands between this many elements on each side, which no call may change.
const MARGIN: usize = 9;

/// Puts margins around the elements. No two elements of the margins are equal.
fn add_margins<T: From<u8>>(elements: &mut Vec<T>) {
    let margin = |at: usize| T::from(0xa5 + at as u8);
    elements.splice(0..0, (0..MARGIN).map(margin));
    elements.extend((MARGIN..2 * MARGIN).map(margin));
}

/// The elements between the margins.
pub(super) fn between_margins<T>(elements: &mut [T]) -> &mut [T] {
    let end = elements.len() - MARGIN;
    &mut elements[MARGIN..end]
}

/// Takes the margins away.
fn remove_margins<T>(elements: &mut Vec<T>) {
    elements.truncate(elements.len() - MARGIN);
    elements.drain(..MARGIN);
}

impl Field<'_> {
    /// Puts margins around a slice.
    pub(super) fn add_margins(self) {
        match self {
            Field::Bytes(bytes) => add_margins(bytes),
            Field::Uint32s(numbers) => add_margins(numbers),
            Field::Uint64s(numbers) => add_margins(numbers),
            Field::Uint32(_) | Field::Uint64(_) | Field::Size(_) => (),
        }
    }

    /// Takes the margins of a slice away.
    pub(super) fn remove_margins(self) {
        match self {
            Field::Bytes(bytes) => remove_margins(bytes),
            Field::Uint32s(numbers) => remove_margins(numbers),
            Field::Uint64s(numbers) => remove_margins(numbers),
            Field::Uint32(_) | Field::Uint64(_) | Field::Size(_) => (),
        }
    }
}

//! The cases of the packed integers, for both widths.

use std::mem::size_of;

use crate::{Case, Random};

/// A number type of the calls: u32 or u64.
pub trait Number: Copy + TryFrom<u64> {}
impl Number for u32 {}
impl Number for u64 {}

/// The cases of one width.
#[allow(missing_docs)]
pub struct Calls<N> {
    pub unpack: fn(Vec<u8>, usize) -> Case,
    pub pack: fn(N, Vec<u8>, usize) -> Case,
    pub unpack_seq: fn(Vec<u8>, usize, Vec<N>) -> Case,
    pub pack_seq: fn(Vec<N>, Vec<u8>, usize) -> Case,
}

/// The cases for numbers of 4 bytes.
pub const U32: Calls<u32> = Calls {
    unpack: |packed, index| Case::UnpackU32 { packed, index },
    pack: |number, out, index| Case::PackU32 { number, out, index },
    unpack_seq: |packed, index, numbers| Case::UnpackU32Seq {
        packed,
        index,
        numbers,
    },
    pack_seq: |numbers, out, index| Case::PackU32Seq {
        numbers,
        out,
        index,
    },
};

/// The cases for numbers of 8 bytes.
pub const U64: Calls<u64> = Calls {
    unpack: |packed, index| Case::UnpackU64 { packed, index },
    pack: |number, out, index| Case::PackU64 { number, out, index },
    unpack_seq: |packed, index, numbers| Case::UnpackU64Seq {
        packed,
        index,
        numbers,
    },
    pack_seq: |numbers, out, index| Case::PackU64Seq {
        numbers,
        out,
        index,
    },
};

impl<N: Number> Calls<N> {
    /// The bytes of one number.
    pub const WIDTH: usize = size_of::<N>();

    /// This many random numbers.
    pub fn numbers(&self, random: &mut Random, count: usize) -> Vec<N> {
        let most = u64::MAX >> (64 - 8 * Self::WIDTH);
        let number = |_| {
            let number = N::try_from(random.number() & most).ok();
            number.expect("a number of the width")
        };
        (0..count).map(number).collect()
    }
}

//! Packed integers.

use compare::Case;

use super::magnitudes;
use super::{hex, Cases, List, MAX_BYTES};

fn unpack_u32(packed: &str, index: usize) -> Case {
    let packed = hex(packed);
    Case::UnpackU32 { packed, index }
}

fn unpack_u64(packed: &str, index: usize) -> Case {
    let packed = hex(packed);
    Case::UnpackU64 { packed, index }
}

/// Packs into an output of bytes EE.
pub(super) fn pack_u32(number: u32, length: usize, index: usize) -> Case {
    let out = vec![0xee; length];
    Case::PackU32 { number, out, index }
}

pub(super) fn pack_u64(number: u64, length: usize, index: usize) -> Case {
    let out = vec![0xee; length];
    Case::PackU64 { number, out, index }
}

/// Unpacks so many numbers, which are 99 before.
fn unpack_u32_seq(packed: &str, index: usize, count: usize) -> Case {
    Case::UnpackU32Seq {
        packed: hex(packed),
        index,
        numbers: vec![99; count],
    }
}

fn unpack_u64_seq(packed: &str, index: usize, count: usize) -> Case {
    Case::UnpackU64Seq {
        packed: hex(packed),
        index,
        numbers: vec![99; count],
    }
}

fn pack_u32_seq(numbers: &[u32], length: usize, index: usize) -> Case {
    Case::PackU32Seq {
        numbers: numbers.to_vec(),
        out: vec![0xee; length],
        index,
    }
}

fn pack_u64_seq(numbers: &[u64], length: usize, index: usize) -> Case {
    Case::PackU64Seq {
        numbers: numbers.to_vec(),
        out: vec![0xee; length],
        index,
    }
}

/// Nine bytes, of which the last eight are a number.
const NINE: &str = "FF 0102030405060708";

fn unpack_one(list: &mut List) {
    let case = unpack_u32("0100000000000000 78563412", 8);
    list.add("the element of example E", case);
    list.add("least byte first", unpack_u32("78563412", 0));
    list.add("least byte first", unpack_u64("0807060504030201", 0));
    list.add("the largest number", unpack_u32("FFFFFFFF", 0));
    list.add("the largest number", unpack_u64("FFFFFFFFFFFFFFFF", 0));
    list.add("the greatest byte alone", unpack_u32("00000080", 0));
    list.add("the greatest byte alone", unpack_u64("0000000000000080", 0));
    list.add("the last 4 bytes", unpack_u32(NINE, 5));
    list.add("3 bytes left", unpack_u32(NINE, 6));
    list.add("index at the length", unpack_u32(NINE, 9));
    list.add("index above the length, 7 before 9", unpack_u32(NINE, 10));
    list.add("the last 8 bytes", unpack_u64(NINE, 1));
    list.add("7 bytes left", unpack_u64(NINE, 2));
    list.add("index at the length", unpack_u64(NINE, 9));
    list.add("index above the length, 7 before 9", unpack_u64(NINE, 10));
    for (name, index) in [
        ("index 2^64-1", usize::MAX),
        ("index 2^64-4, which wraps to 0 with 4", usize::MAX - 3),
        ("index 2^64-8, which wraps to 0 with 8", usize::MAX - 7),
        ("index 2^63", 1 << 63),
        ("index 2^32", 1 << 32),
    ] {
        list.add(name, unpack_u32(NINE, index));
        list.add(name, unpack_u64(NINE, index));
    }
    list.add("no bytes", unpack_u32("", 0));
    list.add("no bytes", unpack_u64("", 0));
    list.add("no bytes, index 1", unpack_u32("", 1));
    let packed = vec![0x5a; MAX_BYTES + 1];
    let index = MAX_BYTES - 7;
    list.add(
        "1,048,577 bytes are no refusal 6",
        Case::UnpackU64 { packed, index },
    );
}

fn pack_one(list: &mut List) {
    list.add("least byte first, between other bytes", pack_u32(258, 6, 1));
    list.add(
        "least byte first, between other bytes",
        pack_u64(258, 10, 1),
    );
    list.add("the largest number", pack_u32(u32::MAX, 4, 0));
    list.add("the largest number", pack_u64(u64::MAX, 8, 0));
    list.add("0 is written", pack_u32(0, 4, 0));
    list.add("0 is written", pack_u64(0, 8, 0));
    list.add("the last 4 bytes", pack_u32(305_419_896, 9, 5));
    list.add("3 bytes of room", pack_u32(305_419_896, 9, 6));
    list.add("the last 8 bytes", pack_u64(1 << 63, 9, 1));
    list.add("7 bytes of room", pack_u64(1 << 63, 9, 2));
    list.add("index at the length", pack_u32(1, 9, 9));
    list.add("index at the length", pack_u64(1, 9, 9));
    list.add("index above the length", pack_u32(1, 9, 10));
    list.add("index 2^64-1", pack_u32(1, 9, usize::MAX));
    list.add("index 2^64-1", pack_u64(1, 9, usize::MAX));
    list.add(
        "index 2^64-4, which wraps to 0",
        pack_u32(1, 9, usize::MAX - 3),
    );
    list.add(
        "index 2^64-8, which wraps to 0",
        pack_u64(1, 9, usize::MAX - 7),
    );
    list.add("no output", pack_u32(1, 0, 0));
    list.add("no output", pack_u64(1, 0, 0));
    list.add(
        "1,048,577 bytes of output are no refusal",
        pack_u64(7, MAX_BYTES + 1, MAX_BYTES - 7),
    );
}

/// Nine bytes, two numbers of 4 and one more.
const TWO: &str = "01000000 FFFFFFFF 09";
/// Two numbers of 8 bytes.
const TWO_LONG: &str = "0100000000000000 FFFFFFFFFFFFFFFF";

fn unpack_several(list: &mut List) {
    list.add("two numbers, a byte left over", unpack_u32_seq(TWO, 0, 2));
    list.add("two numbers up to the end", unpack_u32_seq(TWO, 1, 2));
    list.add("a byte of the second is missing", unpack_u32_seq(TWO, 2, 2));
    list.add("a number too many", unpack_u32_seq(TWO, 0, 3));
    list.add("two numbers up to the end", unpack_u64_seq(TWO_LONG, 0, 2));
    list.add(
        "a byte of the second is missing",
        unpack_u64_seq(TWO_LONG, 1, 2),
    );
    list.add("a number too many", unpack_u64_seq(TWO_LONG, 0, 3));
    list.add("no numbers at the length", unpack_u32_seq(TWO, 9, 0));
    list.add("no numbers above the length", unpack_u32_seq(TWO, 10, 0));
    list.add("no numbers at the length", unpack_u64_seq("78563412", 4, 0));
    list.add(
        "no numbers above the length",
        unpack_u64_seq("78563412", 5, 0),
    );
    list.add("7 before 9", unpack_u32_seq(TWO, 10, 2));
    list.add("7 before 9", unpack_u64_seq(TWO_LONG, 17, 1));
    list.add("index 2^64-1", unpack_u32_seq(TWO, usize::MAX, 1));
    list.add(
        "index 2^64-8, which wraps to 0",
        unpack_u64_seq(TWO_LONG, usize::MAX - 7, 1),
    );
    list.add("no bytes, no numbers", unpack_u32_seq("", 0, 0));
    list.add("no bytes, no numbers", unpack_u64_seq("", 0, 0));
}

fn pack_several(list: &mut List) {
    list.add(
        "two numbers between other bytes",
        pack_u32_seq(&[1, u32::MAX], 10, 1),
    );
    list.add(
        "two numbers between other bytes",
        pack_u64_seq(&[1, u64::MAX], 18, 1),
    );
    list.add("two numbers up to the end", pack_u32_seq(&[7, 258], 9, 1));
    list.add("a byte of room is missing", pack_u32_seq(&[7, 258], 9, 2));
    list.add("two numbers up to the end", pack_u64_seq(&[7, 258], 17, 1));
    list.add("a byte of room is missing", pack_u64_seq(&[7, 258], 17, 2));
    list.add("no numbers at the length", pack_u32_seq(&[], 6, 6));
    list.add("no numbers above the length", pack_u32_seq(&[], 6, 7));
    list.add("no numbers at the length", pack_u64_seq(&[], 6, 6));
    list.add("no numbers above the length", pack_u64_seq(&[], 6, 7));
    list.add("index 2^64-1", pack_u32_seq(&[7], 6, usize::MAX));
    list.add(
        "index 2^64-8, which wraps to 0",
        pack_u64_seq(&[7], 8, usize::MAX - 7),
    );
    list.add("no output, no numbers", pack_u32_seq(&[], 0, 0));
    list.add("no output, no numbers", pack_u64_seq(&[], 0, 0));
}

/// The cases of the packers and unpackers.
pub fn packed() -> Cases {
    let mut list = List::default();
    unpack_one(&mut list);
    pack_one(&mut list);
    unpack_several(&mut list);
    pack_several(&mut list);
    list.0.extend(magnitudes::packed());
    list.0
}

//! Records without unions against bincode: their bytes are those that bincode 1.3 gives in its
//! fixed-int, little-endian configuration. The bytes here were made with bincode 1.3.3 and serde
//! 1.0.152 by `bincode::serialize`, and `DefaultOptions::new().with_fixint_encoding()` gave the
//! same. The Rust value of each is beside it. Unions are left out: bincode's tags have 4 bytes.

use compare::{leaf, table, Answer, Case, Row, Value};

/// Reads bincode's bytes into these rows, and writes the rows to bincode's bytes.
fn compare_with(bytes: &[u8], grammar: &[u32], rows: &[Row]) {
    let value = Value::read(grammar, bytes);
    assert_eq!(value.rows, rows.concat());
    assert_eq!(value.marshall(bytes.len()), Ok(bytes.to_vec()));
}

#[test]
fn unit_and_numbers() {
    // ()
    compare_with(&[], &table(&[[0, 0, 0]], &[]), &[[0, 1, 0, 0, 0]]);
    // 305_419_896u32
    compare_with(
        &[120, 86, 52, 18],
        &table(&[[1, 0, 0]], &[]),
        &[[1, 1, 305_419_896, 0, 4]],
    );
    // 0x0102_0304_0506_0708u64
    compare_with(
        &[8, 7, 6, 5, 4, 3, 2, 1],
        &table(&[[2, 0, 0]], &[]),
        &[[2, 1, 0x0102_0304_0506_0708, 0, 8]],
    );
}

/// Compares bincode's bytes of a signed number, and asks for the number of their row.
fn compare_signed(number: i64, bytes: &[u8], kind: u32, pattern: u64) {
    let row = [kind.into(), 1, pattern, 0, bytes.len() as u64];
    compare_with(bytes, &leaf(kind), &[row]);
    let signed_number = Case::SignedNumber {
        rows: row.to_vec(),
        n: 1,
        store: vec![],
        row: 0,
    };
    let expected = Answer::Accepted(vec![number as u64]);
    assert_eq!(signed_number.compare().answer, expected);
}

#[test]
fn signed_numbers() {
    let int32s: [(i32, [u8; 4], u64); 8] = [
        (0, [0, 0, 0, 0], 0),
        (1, [1, 0, 0, 0], 1),
        (305_419_896, [120, 86, 52, 18], 305_419_896),
        (i32::MAX, [255, 255, 255, 127], 2_147_483_647),
        (i32::MIN, [0, 0, 0, 128], 2_147_483_648),
        (i32::MIN + 1, [1, 0, 0, 128], 2_147_483_649),
        (-3, [253, 255, 255, 255], 4_294_967_293),
        (-1, [255, 255, 255, 255], 4_294_967_295),
    ];
    for (number, bytes, pattern) in int32s {
        compare_signed(number.into(), &bytes, 9, pattern);
    }
    let int64s: [(i64, [u8; 8], u64); 8] = [
        (0, [0; 8], 0),
        (1, [1, 0, 0, 0, 0, 0, 0, 0], 1),
        (
            0x0102_0304_0506_0708,
            [8, 7, 6, 5, 4, 3, 2, 1],
            0x0102_0304_0506_0708,
        ),
        (
            i64::MAX,
            [255, 255, 255, 255, 255, 255, 255, 127],
            9_223_372_036_854_775_807,
        ),
        (
            i64::MIN,
            [0, 0, 0, 0, 0, 0, 0, 128],
            9_223_372_036_854_775_808,
        ),
        (
            i64::MIN + 1,
            [1, 0, 0, 0, 0, 0, 0, 128],
            9_223_372_036_854_775_809,
        ),
        (
            -3,
            [253, 255, 255, 255, 255, 255, 255, 255],
            18_446_744_073_709_551_613,
        ),
        (-1, [255; 8], 18_446_744_073_709_551_615),
    ];
    for (number, bytes, pattern) in int64s {
        compare_signed(number, &bytes, 10, pattern);
    }
}

#[test]
fn vectors_of_signed_numbers() {
    // vec![0i32, i32::MIN, -1]
    compare_with(
        &[
            3, 0, 0, 0, 0, 0, 0, 0, 0, 0, 0, 0, 0, 0, 0, 128, 255, 255, 255, 255,
        ],
        &table(&[[3, 0, 1], [9, 0, 0]], &[1]),
        &[
            [3, 4, 3, 0, 20],
            [9, 1, 0, 0, 4],
            [9, 1, 2_147_483_648, 0, 4],
            [9, 1, 4_294_967_295, 0, 4],
        ],
    );
    // vec![i64::MAX, i64::MIN, -2]
    compare_with(
        &[
            3, 0, 0, 0, 0, 0, 0, 0, 255, 255, 255, 255, 255, 255, 255, 127, 0, 0, 0, 0, 0, 0, 0,
            128, 254, 255, 255, 255, 255, 255, 255, 255,
        ],
        &table(&[[3, 0, 1], [10, 0, 0]], &[1]),
        &[
            [3, 4, 3, 0, 32],
            [10, 1, 9_223_372_036_854_775_807, 0, 8],
            [10, 1, 9_223_372_036_854_775_808, 0, 8],
            [10, 1, 18_446_744_073_709_551_614, 0, 8],
        ],
    );
}

#[test]
fn signed_and_unsigned() {
    // (-3i32, vec![0x41u8, 0x42])
    compare_with(
        &[253, 255, 255, 255, 2, 0, 0, 0, 0, 0, 0, 0, 65, 66],
        &table(&[[4, 0, 2], [9, 0, 0], [5, 0, 0]], &[1, 2]),
        &[
            [4, 3, 2, 0, 14],
            [9, 1, 4_294_967_293, 0, 4],
            [5, 1, 2, 12, 10],
        ],
    );
    // (-1i32, u32::MAX, -1i64, u64::MAX)
    compare_with(
        &[255; 24],
        &table(
            &[[4, 0, 4], [9, 0, 0], [1, 0, 0], [10, 0, 0], [2, 0, 0]],
            &[1, 2, 3, 4],
        ),
        &[
            [4, 5, 4, 0, 24],
            [9, 1, 4_294_967_295, 0, 4],
            [1, 1, 4_294_967_295, 0, 4],
            [10, 1, u64::MAX, 0, 8],
            [2, 1, u64::MAX, 0, 8],
        ],
    );
}

#[test]
fn a_pair() {
    // (7u32, vec![0x41u8, 0x42])
    compare_with(
        &[7, 0, 0, 0, 2, 0, 0, 0, 0, 0, 0, 0, 65, 66],
        &table(&[[4, 0, 2], [1, 0, 0], [5, 0, 0]], &[1, 2]),
        &[[4, 3, 2, 0, 14], [1, 1, 7, 0, 4], [5, 1, 2, 12, 10]],
    );
}

#[test]
fn vectors_of_numbers() {
    // Vec::<u8>::new()
    let none = [0; 8];
    compare_with(&none, &table(&[[5, 0, 0]], &[]), &[[5, 1, 0, 8, 8]]);
    // vec![1u32, 305_419_896, u32::MAX]
    let uint32s = [
        3, 0, 0, 0, 0, 0, 0, 0, 1, 0, 0, 0, 120, 86, 52, 18, 255, 255, 255, 255,
    ];
    compare_with(&uint32s, &table(&[[6, 0, 0]], &[]), &[[6, 1, 3, 8, 20]]);
    compare_with(
        &uint32s,
        &table(&[[3, 0, 1], [1, 0, 0]], &[1]),
        &[
            [3, 4, 3, 0, 20],
            [1, 1, 1, 0, 4],
            [1, 1, 305_419_896, 0, 4],
            [1, 1, 4_294_967_295, 0, 4],
        ],
    );
    // vec![258u64, u64::MAX]
    let uint64s = [
        2, 0, 0, 0, 0, 0, 0, 0, 2, 1, 0, 0, 0, 0, 0, 0, 255, 255, 255, 255, 255, 255, 255, 255,
    ];
    compare_with(&uint64s, &table(&[[7, 0, 0]], &[]), &[[7, 1, 2, 8, 24]]);
    compare_with(
        &uint64s,
        &table(&[[3, 0, 1], [2, 0, 0]], &[1]),
        &[[3, 3, 2, 0, 24], [2, 1, 258, 0, 8], [2, 1, u64::MAX, 0, 8]],
    );
}

#[test]
fn vectors_of_values() {
    // vec![(), (), ()]
    compare_with(
        &[3, 0, 0, 0, 0, 0, 0, 0],
        &table(&[[3, 0, 1], [0, 0, 0]], &[1]),
        &[
            [3, 4, 3, 0, 8],
            [0, 1, 0, 0, 0],
            [0, 1, 0, 0, 0],
            [0, 1, 0, 0, 0],
        ],
    );
    // vec![vec![1u64], vec![]]
    compare_with(
        &[
            2, 0, 0, 0, 0, 0, 0, 0, 1, 0, 0, 0, 0, 0, 0, 0, 1, 0, 0, 0, 0, 0, 0, 0, 0, 0, 0, 0, 0,
            0, 0, 0,
        ],
        &table(&[[3, 0, 1], [7, 0, 0]], &[1]),
        &[[3, 3, 2, 0, 32], [7, 1, 1, 16, 16], [7, 1, 0, 32, 8]],
    );
}

#[test]
fn tuples_in_tuples() {
    // ((), (5u32, ((), 6u64)), Vec::<u32>::new())
    let nodes = [
        [4, 0, 3],
        [4, 3, 2],
        [4, 5, 2],
        [0, 0, 0],
        [1, 0, 0],
        [2, 0, 0],
        [6, 0, 0],
    ];
    compare_with(
        &[5, 0, 0, 0, 6, 0, 0, 0, 0, 0, 0, 0, 0, 0, 0, 0, 0, 0, 0, 0],
        &table(&nodes, &[3, 1, 6, 4, 2, 3, 5]),
        &[
            [4, 8, 3, 0, 20],
            [0, 1, 0, 0, 0],
            [4, 5, 2, 0, 12],
            [1, 1, 5, 0, 4],
            [4, 3, 2, 0, 8],
            [0, 1, 0, 0, 0],
            [2, 1, 6, 0, 8],
            [6, 1, 0, 20, 8],
        ],
    );
}

#[test]
fn a_route() {
    // A struct of the fields `id` 9u32, `hops`, `weights` vec![300u32, u32::MAX] and `end` ().
    // The hops are a vector of two structs of the fields `node` and `name`: 1u64 with the name
    // b"ab".to_vec(), and u64::MAX with the name Vec::<u8>::new().
    let nodes = [
        [4, 0, 4],
        [3, 4, 1],
        [4, 5, 2],
        [1, 0, 0],
        [2, 0, 0],
        [5, 0, 0],
        [6, 0, 0],
        [0, 0, 0],
    ];
    compare_with(
        &[
            9, 0, 0, 0, 2, 0, 0, 0, 0, 0, 0, 0, 1, 0, 0, 0, 0, 0, 0, 0, 2, 0, 0, 0, 0, 0, 0, 0, 97,
            98, 255, 255, 255, 255, 255, 255, 255, 255, 0, 0, 0, 0, 0, 0, 0, 0, 2, 0, 0, 0, 0, 0,
            0, 0, 44, 1, 0, 0, 255, 255, 255, 255,
        ],
        &table(&nodes, &[3, 1, 6, 7, 2, 4, 5]),
        &[
            [4, 11, 4, 0, 62],
            [1, 1, 9, 0, 4],
            [3, 7, 2, 0, 42],
            [4, 3, 2, 0, 18],
            [2, 1, 1, 0, 8],
            [5, 1, 2, 28, 10],
            [4, 3, 2, 0, 16],
            [2, 1, u64::MAX, 0, 8],
            [5, 1, 0, 46, 8],
            [6, 1, 2, 54, 16],
            [0, 1, 0, 0, 0],
        ],
    );
}

//! The C interface (`host/c/route_record.h`) behind functions that take slices. All `unsafe` of this
//! crate is the one block here.

use std::mem::size_of;

/// `route_answer` of the header.
#[repr(C)]
#[derive(Debug)]
pub struct Answer {
    pub number: u64,
    pub place_kind: u64,
    pub place: u64,
    pub first: u64,
    pub second: u64,
}

// The sizes that the header asserts, of `route_answer` and of `size_t`.
const _: () = assert!(size_of::<Answer>() == 40 && size_of::<usize>() == 8);

/// Declares a C call and the function of the same parameters that makes it. A slice among the
/// parameters is a pointer and a length of the C call. The parameters are taken one by one: `[..]`
/// collects those of the function, then the types and the arguments of the C call.
macro_rules! call {
    ($c:ident = $name:ident($($parameters:tt)*)) => {
        call!($c $name [] [] [] $($parameters)*,);
    };
    ($c:ident $name:ident [$($p:tt)*] [$($t:ty,)*] [$($a:expr,)*] $s:ident: &[$e:ty], $($rest:tt)*) => {
        call!($c $name [$($p)* $s: &[$e],] [$($t,)* *const $e, usize,]
            [$($a,)* $s.as_ptr(), $s.len(),] $($rest)*);
    };
    ($c:ident $name:ident [$($p:tt)*] [$($t:ty,)*] [$($a:expr,)*] $s:ident: &mut [$e:ty], $($rest:tt)*) => {
        call!($c $name [$($p)* $s: &mut [$e],] [$($t,)* *mut $e, usize,]
            [$($a,)* $s.as_mut_ptr(), $s.len(),] $($rest)*);
    };
    ($c:ident $name:ident [$($p:tt)*] [$($t:ty,)*] [$($a:expr,)*] $n:ident: $number:ty, $($rest:tt)*) => {
        call!($c $name [$($p)* $n: $number,] [$($t,)* $number,] [$($a,)* $n,] $($rest)*);
    };
    ($c:ident $name:ident [$($p:tt)*] [$($t:ty,)*] [$($a:expr,)*]) => {
        #[allow(clippy::too_many_arguments)]
        pub fn $name($($p)*) -> Answer {
            extern "C" {
                fn $c($(_: $t),*) -> Answer;
            }
            // SAFETY: the parameters are the header's. Each pointer and length are those of one
            // slice, aligned for its elements; what a `&` lends the call only reads, and a `&mut`
            // keeps its slice apart from every other one. The call keeps no pointer.
            unsafe { $c($($a),*) }
        }
    };
}

call!(route_unpack_u32 = unpack_u32(packed: &[u8], index: usize));
call!(route_unpack_u64 = unpack_u64(packed: &[u8], index: usize));
call!(route_pack_u32 = pack_u32(n: u32, out: &mut [u8], index: usize));
call!(route_pack_u64 = pack_u64(n: u64, out: &mut [u8], index: usize));
call!(route_unpack_u32_seq = unpack_u32_seq(packed: &[u8], index: usize, numbers: &mut [u32]));
call!(route_unpack_u64_seq = unpack_u64_seq(packed: &[u8], index: usize, numbers: &mut [u64]));
call!(route_pack_u32_seq = pack_u32_seq(numbers: &[u32], out: &mut [u8], index: usize));
call!(route_pack_u64_seq = pack_u64_seq(numbers: &[u64], out: &mut [u8], index: usize));
call!(route_check_grammar = check_grammar(words: &[u32]));
call!(route_compute_size_of = compute_size_of(rows: &[u64], n: usize, store: &[u8]));
call!(route_locate_array = locate_array(rows: &[u64], n: usize, store: &[u8], row: usize));
call!(route_signed_number = signed_number(rows: &[u64], n: usize, store: &[u8], row: usize));
call!(route_parse_val = parse_val(grammar: &[u32], record: &[u8], index: usize, rows: &mut [u64]));
call!(route_demarshall = demarshall(grammar: &[u32], record: &[u8], rows: &mut [u64]));
call!(route_check_val = check_val(grammar: &[u32], record: &[u8], index: usize));
call!(route_check_whole = check_whole(grammar: &[u32], record: &[u8]));
call!(route_check_val_with = check_val_with(grammar: &[u32], record: &[u8], index: usize,
    capacity: usize));
call!(route_check_whole_with = check_whole_with(grammar: &[u32], record: &[u8], capacity: usize));
call!(route_marshall_val = marshall_val(grammar: &[u32], rows: &[u64], n: usize, store: &[u8],
    out: &mut [u8], index: usize));
call!(route_marshall = marshall(grammar: &[u32], rows: &[u64], n: usize, store: &[u8],
    out: &mut [u8]));
call!(route_preview = preview(grammar: &[u32], rows: &[u64], n: usize, store: &[u8], out: &[u8],
    index: usize));
call!(route_same_route = same_route(grammar: &[u32], first: &[u8], second: &[u8]));
call!(route_accepts = accepts(grammar: &[u32], record: &[u8]));
call!(route_choose_grammar = choose_grammar(list: &[u32], record: &[u8]));
call!(route_export_xdr = export_xdr(grammar: &[u32], rows: &[u64], n: usize, store: &[u8],
    out: &mut [u8], index: usize));
call!(route_import_xdr = import_xdr(grammar: &[u32], record: &[u8], rows: &mut [u64],
    store: &mut [u8]));

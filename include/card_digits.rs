// card-digits from Rust. A crate takes this file in by
//
//     #[path = "path/to/include/card_digits.rs"]
//     mod card_digits;
//
// and links the archive that tools/build makes: rustc -L native=target/staticlib. Each function takes slices and hands their pointers and
// lengths over; nothing else is unsafe here. It returns number + 256 * position, 0 being done, and a refused call writes nothing. The header
// beside this file, card_digits.h, says the same for C, with the forms, the order of refusals and what is asked of buffers; `raw` has its
// functions as they are.
#![allow(dead_code)]

/// Of the interface: it goes up when a function is added, or an argument or an answer changes.
pub const VERSION: u64 = 1;

/// Done.
pub const DONE: u64 = 0;
/// A slice has the wrong length.
pub const WRONG_LENGTH: u64 = 1;
/// The width is not one of the form's. (2 is the program's alone.)
pub const WRONG_WIDTH: u64 = 3;
/// A recoder of N, or of R at width 4, got byte 31 above 127.
pub const TOO_WIDE: u64 = 4;
/// A digit breaks its own rule; the position is its index.
pub const BROKEN_DIGIT: u64 = 5;
/// N: a digit that is not 0 stands within width - 1 places after another; the position is the later index.
pub const CROWDED: u64 = 6;
/// The sum is negative.
pub const NEGATIVE: u64 = 7;
/// The sum is 2^255 or more (N, and R at width 4), or 2^256 or more (R at widths 5 to 8).
pub const PAST_END: u64 = 8;
/// A choice is neither 0 nor 1.
pub const WRONG_CHOICE: u64 = 9;

/// The bytes of a scalar.
pub const SCALAR_BYTES: usize = 32;
/// The bits of a scalar.
pub const SCALAR_BITS: usize = 256;
/// The digits of a string of N.
pub const N_DIGITS: usize = 256;
/// The entries of a string of R.
pub const R_ENTRIES: usize = 64;
/// The figures that a recoder counts: count and additions.
pub const TALLY_ENTRIES: usize = 2;

/// No call takes more stack.
pub const STACK_BYTES: usize = 4096;

/// The number of a code: `DONE`, or why the call was refused.
#[must_use]
pub const fn number(code: u64) -> u64 {
    code & 255
}

/// The position of a code: the digit's index for `BROKEN_DIGIT` and `CROWDED`, otherwise 0.
#[must_use]
pub const fn position(code: u64) -> usize {
    (code >> 8) as usize
}

/// The functions as C sees them: a slice is a pointer and a length, and a null pointer with length 0 is an empty one.
pub mod raw {
    #[link(name = "card", kind = "static")]
    unsafe extern "C" {
        pub fn card_from_bits(bytes: *const u8, bytes_len: usize, out: *mut u8, out_len: usize) -> u64;
        pub fn card_select(a: *const u8, a_len: usize, b: *const u8, b_len: usize, choice: u32, out: *mut u8, out_len: usize) -> u64;
        pub fn card_is_odd(bytes: *const u8, bytes_len: usize, out: *mut u8, out_len: usize) -> u64;
        pub fn card_zeroize(buf: *mut u8, buf_len: usize) -> u64;
        pub fn card_bits(bytes: *const u8, bytes_len: usize, bits: *mut u8, bits_len: usize) -> u64;
        pub fn card_from_bit_bytes(bits: *const u8, bits_len: usize, out: *mut u8, out_len: usize) -> u64;
        pub fn card_read_words(src: *const u8, src_len: usize, dst: *mut u64, dst_len: usize) -> u64;
        pub fn card_write_words(src: *const u64, src_len: usize, dst: *mut u8, dst_len: usize) -> u64;
        pub fn card_n_recode(scalar: *const u8, scalar_len: usize, width: usize, digits: *mut i8, digits_len: usize, tally: *mut u32, tally_len: usize) -> u64;
        pub fn card_n_test(digits: *const i8, digits_len: usize, width: usize) -> u64;
        pub fn card_n_read(digits: *const i8, digits_len: usize, width: usize, out: *mut u8, out_len: usize) -> u64;
        pub fn card_r_recode(scalar: *const u8, scalar_len: usize, width: usize, digits: *mut i8, digits_len: usize, tally: *mut u32, tally_len: usize) -> u64;
        pub fn card_r_test(digits: *const i8, digits_len: usize, width: usize) -> u64;
        pub fn card_r_read(digits: *const i8, digits_len: usize, width: usize, out: *mut u8, out_len: usize) -> u64;
    }
}

/// `out` becomes the integer of `bytes` modulo 2^255. 32 bytes, 32 bytes. Numbers: 0, 1.
#[must_use]
pub fn from_bits(bytes: &[u8], out: &mut [u8]) -> u64 {
    unsafe { raw::card_from_bits(bytes.as_ptr(), bytes.len(), out.as_mut_ptr(), out.len()) }
}

/// `out` becomes `a` if `choice` is 0 and `b` if it is 1. All three have 32 bytes. Numbers: 0, 1, 9.
#[must_use]
pub fn select(a: &[u8], b: &[u8], choice: u32, out: &mut [u8]) -> u64 {
    unsafe { raw::card_select(a.as_ptr(), a.len(), b.as_ptr(), b.len(), choice, out.as_mut_ptr(), out.len()) }
}

/// `out[0]` becomes 1 if the integer of `bytes` is odd, and 0 if it is even. 32 bytes, 1 byte. Numbers: 0, 1.
#[must_use]
pub fn is_odd(bytes: &[u8], out: &mut [u8]) -> u64 {
    unsafe { raw::card_is_odd(bytes.as_ptr(), bytes.len(), out.as_mut_ptr(), out.len()) }
}

/// The 32 bytes of `buf` become 0. Numbers: 0, 1.
#[must_use]
pub fn zeroize(buf: &mut [u8]) -> u64 {
    unsafe { raw::card_zeroize(buf.as_mut_ptr(), buf.len()) }
}

/// `bits[i]` becomes binary digit i of the integer, as 0 or 1. 32 bytes, 256 bytes. Numbers: 0, 1.
#[must_use]
pub fn bits(bytes: &[u8], bits: &mut [u8]) -> u64 {
    unsafe { raw::card_bits(bytes.as_ptr(), bytes.len(), bits.as_mut_ptr(), bits.len()) }
}

/// The converse of `bits`: a byte that is not 0 counts as 1. 256 bytes, 32 bytes. Numbers: 0, 1.
#[must_use]
pub fn from_bit_bytes(bits: &[u8], out: &mut [u8]) -> u64 {
    unsafe { raw::card_from_bit_bytes(bits.as_ptr(), bits.len(), out.as_mut_ptr(), out.len()) }
}

/// `dst[k]` becomes the little-endian value of bytes 8k to 8k+7. `src` has 8 bytes for each word of `dst`. Numbers: 0, 1.
#[must_use]
pub fn read_words(src: &[u8], dst: &mut [u64]) -> u64 {
    unsafe { raw::card_read_words(src.as_ptr(), src.len(), dst.as_mut_ptr(), dst.len()) }
}

/// The converse of `read_words`. `dst` has 8 bytes for each word of `src`. Numbers: 0, 1.
#[must_use]
pub fn write_words(src: &[u64], dst: &mut [u8]) -> u64 {
    unsafe { raw::card_write_words(src.as_ptr(), src.len(), dst.as_mut_ptr(), dst.len()) }
}

/// The digits of `scalar` in form N, widths 2 to 8; `tally` becomes the count and the additions. 32 bytes, 256 digits, 2 figures. Numbers:
/// 0, 1, 3, 4.
#[must_use]
pub fn n_recode(scalar: &[u8], width: usize, digits: &mut [i8], tally: &mut [u32]) -> u64 {
    unsafe { raw::card_n_recode(scalar.as_ptr(), scalar.len(), width, digits.as_mut_ptr(), digits.len(), tally.as_mut_ptr(), tally.len()) }
}

/// Whether 256 digits are the string of an integer below 2^255 in form N: 0 if so, otherwise why not. Numbers: 0, 1, 3, 5, 6, 7, 8.
#[must_use]
pub fn n_test(digits: &[i8], width: usize) -> u64 {
    unsafe { raw::card_n_test(digits.as_ptr(), digits.len(), width) }
}

/// `out` becomes the 32 bytes of that integer; what the test refuses is refused with the same code. Numbers: 0, 1, 3, 5, 6, 7, 8.
#[must_use]
pub fn n_read(digits: &[i8], width: usize, out: &mut [u8]) -> u64 {
    unsafe { raw::card_n_read(digits.as_ptr(), digits.len(), width, out.as_mut_ptr(), out.len()) }
}

/// The digits of `scalar` in form R, widths 4 to 8; `tally` becomes the number of digits (64, 52, 43, 37, 33: loop by it) and 0. 32 bytes,
/// 64 entries, 2 figures. Numbers: 0, 1, 3, 4.
#[must_use]
pub fn r_recode(scalar: &[u8], width: usize, digits: &mut [i8], tally: &mut [u32]) -> u64 {
    unsafe { raw::card_r_recode(scalar.as_ptr(), scalar.len(), width, digits.as_mut_ptr(), digits.len(), tally.as_mut_ptr(), tally.len()) }
}

/// Whether 64 entries are the string of an integer of the width's range in form R: 0 if so, otherwise why not. Numbers: 0, 1, 3, 5, 7, 8.
#[must_use]
pub fn r_test(digits: &[i8], width: usize) -> u64 {
    unsafe { raw::card_r_test(digits.as_ptr(), digits.len(), width) }
}

/// `out` becomes the 32 bytes of that integer; what the test refuses is refused with the same code. Numbers: 0, 1, 3, 5, 7, 8.
#[must_use]
pub fn r_read(digits: &[i8], width: usize, out: &mut [u8]) -> u64 {
    unsafe { raw::card_r_read(digits.as_ptr(), digits.len(), width, out.as_mut_ptr(), out.len()) }
}

/*
 * card-digits: 32-byte scalars as short signed digits, and back.
 *
 * A scalar is 32 bytes, and byte i weighs 256^i: byte 0 is the lowest. A string of digits belongs to the integer that its weighted digits
 * add up to. There are two forms, each at several widths w. docs/FORMS.md draws them.
 *
 * Form N, widths 2 to 8, 256 digits, integers below 2^255. Digit i weighs 2^i. A digit is 0, or odd and smaller than 2^(w-1) either way.
 * After a digit that is not 0 the next w-1 digits are 0.
 *
 *   7 at width 3     index   0  1  2  3  4 .. 255
 *                    digit  -1  0  0  1  0 ..   0       -1 + 2^3 = 7, count 4, additions 2
 *
 * Form R, widths 4 to 8, 64 entries. Entry i weighs 2^(w*i). The first n entries are digits and the others are 0. Digits before the last lie
 * from -2^(w-1) to 2^(w-1)-1, and the last takes up what is left:
 *
 *   width    digits n    last digit    integers below
 *     4         64         0 to 8          2^255
 *     5         52         0 to 2          2^256
 *     6         43         0 to 16         2^256
 *     7         37         0 to 16         2^256
 *     8         33         0 or 1          2^256
 *
 *   8 at width 4     index   0  1  2 .. 63
 *                    digit  -8  1  0 ..  0              -8 + 16 = 8, count 64
 *
 * The forms' rules fix one string for each integer. They also let in strings whose sum is out of range: those are 7 and 8 below.
 *
 * WHAT A CALL RETURNS. number + 256 * position, where 0 is done. CARD_NUMBER and CARD_POSITION take the two out. The position is an index
 * for 5 and 6, and 0 for the others, so that `code == CARD_WRONG_WIDTH` is a fair test. Refusals are tried in this order: 1 for any slice;
 * 3; 4, or 9; then the digits from index 0 up, and at one index 5 before 6; then 7 or 8. The first that applies is returned.
 *
 * A REFUSED CALL WRITES NOTHING to any buffer.
 *
 * BUFFERS. A slice is a pointer and its length in elements, not in bytes. Lengths must be exact: a longer buffer is refused like a shorter
 * one. A null pointer with length 0 is a slice of no elements. That is a wrong length, 1, everywhere but in card_read_words and
 * card_write_words from none to none, which is done. A pointer must be aligned as C wants it for its element type: 4 bytes for a tally, 8
 * for words. A buffer that is written overlaps no other buffer of the call. Buffers that are only read may be the same.
 *
 * THE MACHINE. The archive is for x86-64-v2 (SSE 4.2, POPCNT) with the System V calling convention (Linux). It wants memcpy and nothing else from outside. There is
 * no heap, no file and no global data that is written: calls are reentrant, and may run in any number of threads, each with its own
 * buffers to write. CARD_STACK_BYTES bounds the stack of a call.
 *
 * NOT PROMISED: how long a call takes, whether that depends on the scalar, and that copies of a scalar are erased.
 */
#ifndef CARD_DIGITS_H
#define CARD_DIGITS_H

#include <stddef.h>
#include <stdint.h>

#ifdef __cplusplus
extern "C" {
#endif

/* Of this page: it goes up when a function is added, or an argument or an answer changes. */
#define CARD_VERSION 1

/* The numbers. 2 is missing: it is the program's alone, for a form letter that it does not know. */
#define CARD_DONE 0
#define CARD_WRONG_LENGTH 1 /* a slice has the wrong length */
#define CARD_WRONG_WIDTH 3  /* the width is not one of the form's */
#define CARD_TOO_WIDE 4     /* a recoder of N, or of R at width 4, got byte 31 above 127 */
#define CARD_BROKEN_DIGIT 5 /* a digit breaks its own rule; the position is its index */
#define CARD_CROWDED 6      /* N: a digit that is not 0 stands within w-1 places after another; the position is the later index */
#define CARD_NEGATIVE 7     /* the sum is negative */
#define CARD_PAST_END 8     /* the sum is 2^255 or more (N, and R at width 4), or 2^256 or more (R at widths 5 to 8) */
#define CARD_WRONG_CHOICE 9 /* a choice is neither 0 nor 1 */

#define CARD_NUMBER(code) ((unsigned)((uint64_t)(code) & 255u))
#define CARD_POSITION(code) ((size_t)((uint64_t)(code) >> 8))

/* The lengths, in elements. */
#define CARD_SCALAR_BYTES 32
#define CARD_SCALAR_BITS 256
#define CARD_N_DIGITS 256
#define CARD_R_ENTRIES 64
#define CARD_TALLY_ENTRIES 2

/* No call takes more stack. Measured by tests/c/stack.c, which tests/run runs. */
#define CARD_STACK_BYTES 4096

/* out becomes the integer of bytes modulo 2^255. Both have 32 bytes. Numbers: 0, 1. */
uint64_t card_from_bits(const uint8_t *bytes, size_t bytes_len, uint8_t *out, size_t out_len);

/* out becomes a if choice is 0, and b if it is 1; any other choice is 9. All three have 32 bytes. a and b may be the same buffer. Numbers:
 * 0, 1, 9. */
uint64_t card_select(const uint8_t *a, size_t a_len, const uint8_t *b, size_t b_len, uint32_t choice, uint8_t *out, size_t out_len);

/* out[0] becomes 1 if the integer of bytes is odd, and 0 if it is even. 32 bytes, 1 byte. Numbers: 0, 1. */
uint64_t card_is_odd(const uint8_t *bytes, size_t bytes_len, uint8_t *out, size_t out_len);

/* The 32 bytes of buf become 0. Numbers: 0, 1. */
uint64_t card_zeroize(uint8_t *buf, size_t buf_len);

/* bits[i] becomes binary digit i of the integer, as 0 or 1. 32 bytes, 256 bytes. Numbers: 0, 1. */
uint64_t card_bits(const uint8_t *bytes, size_t bytes_len, uint8_t *bits, size_t bits_len);

/* The converse: a byte of bits that is not 0 counts as 1. 256 bytes, 32 bytes. Numbers: 0, 1. */
uint64_t card_from_bit_bytes(const uint8_t *bits, size_t bits_len, uint8_t *out, size_t out_len);

/* dst[k] becomes the little-endian value of bytes 8k to 8k+7. src has 8 bytes for each word of dst. Numbers: 0, 1. */
uint64_t card_read_words(const uint8_t *src, size_t src_len, uint64_t *dst, size_t dst_len);

/* The converse. dst has 8 bytes for each word of src. Numbers: 0, 1. */
uint64_t card_write_words(const uint64_t *src, size_t src_len, uint8_t *dst, size_t dst_len);

/* The digits of scalar in form N. 32 bytes, 256 digits, and a tally of exactly 2: tally[0] becomes the count (one more than the highest
 * index of a digit that is not 0, and 0 for the integer 0), tally[1] the additions (how many digits are not 0). Numbers: 0, 1, 3, 4. */
uint64_t card_n_recode(const uint8_t *scalar, size_t scalar_len, size_t width, int8_t *digits, size_t digits_len, uint32_t *tally, size_t tally_len);

/* Whether 256 digits are the string of an integer below 2^255 in form N: 0 if so, otherwise why not. Numbers: 0, 1, 3, 5, 6, 7, 8. */
uint64_t card_n_test(const int8_t *digits, size_t digits_len, size_t width);

/* out becomes the 32 bytes of that integer. What the test refuses is refused here with the same code. 256 digits, 32 bytes. Numbers: 0, 1,
 * 3, 5, 6, 7, 8. */
uint64_t card_n_read(const int8_t *digits, size_t digits_len, size_t width, uint8_t *out, size_t out_len);

/* The digits of scalar in form R. 32 bytes, 64 entries, and a tally of exactly 2: tally[0] becomes n of the table above and tally[1] becomes
 * 0. Loop by tally[0]: at width 8 it is 33, and a loop of 32 loses the top digit. Numbers: 0, 1, 3, 4. */
uint64_t card_r_recode(const uint8_t *scalar, size_t scalar_len, size_t width, int8_t *digits, size_t digits_len, uint32_t *tally, size_t tally_len);

/* Whether 64 entries are the string of an integer of the width's range in form R: 0 if so, otherwise why not. Numbers: 0, 1, 3, 5, 7, 8. */
uint64_t card_r_test(const int8_t *digits, size_t digits_len, size_t width);

/* out becomes the 32 bytes of that integer. What the test refuses is refused here with the same code. 64 entries, 32 bytes. Numbers: 0, 1,
 * 3, 5, 7, 8. */
uint64_t card_r_read(const int8_t *digits, size_t digits_len, size_t width, uint8_t *out, size_t out_len);

#ifdef __cplusplus
}
#endif

#endif

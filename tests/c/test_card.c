/* Calls every function of card_digits.h from C: document 01's figures, every refusal, lent buffers between guards, and round trips. */
#include <stdint.h>
#include <stdio.h>
#include <stdlib.h>
#include <string.h>

#include "calls.h"

static unsigned long checks, failures;
static const char *trying = "";

#define CHECK(what) check((what) != 0, #what, __LINE__)

static void check(int holds, const char *what, int line)
{
    checks++;
    if (!holds) {
        failures++;
        if (failures <= 40)
            printf("line %d: %s%s%s\n", line, trying, *trying ? ": " : "", what);
    }
}

static uint64_t code(uint64_t number, uint64_t position) { return number + 256 * position; }

/* ---- lent buffers: GUARD bytes stand before and after each, and a copy is kept of what it held */

enum { GUARD = 64, ROOM = 4096, SLOTS = 4 };

struct slot {
    size_t bytes;
    _Alignas(8) unsigned char room[ROOM + 2 * GUARD];
    unsigned char kept[ROOM];
};

static struct slot slots[SLOTS];

/* A buffer of so many bytes, all of them `fill`. */
static void *lend(int s, size_t bytes, int fill)
{
    slots[s].bytes = bytes;
    memset(slots[s].room, 0xA5, sizeof slots[s].room);
    memset(slots[s].room + GUARD, fill, bytes);
    memcpy(slots[s].kept, slots[s].room + GUARD, bytes);
    return slots[s].room + GUARD;
}

static int guarded(int s)
{
    size_t end = GUARD + slots[s].bytes;
    for (size_t i = 0; i < sizeof slots[s].room; i++)
        if ((i < GUARD || i >= end) && slots[s].room[i] != 0xA5)
            return 0;
    return 1;
}

/* What the buffer holds now is what it is held to. */
static void keep(int s) { memcpy(slots[s].kept, slots[s].room + GUARD, slots[s].bytes); }

static int untouched(int s) { return guarded(s) && memcmp(slots[s].room + GUARD, slots[s].kept, slots[s].bytes) == 0; }

/* ---- scalars */

static uint64_t seed = 0x9E3779B97F4A7C15u;

static uint64_t next_random(void)
{
    seed ^= seed << 13;
    seed ^= seed >> 7;
    seed ^= seed << 17;
    return seed;
}

/* A scalar of one of several shapes: any bytes, few bits, many bits, a small integer. */
static void random_scalar(uint8_t *s, unsigned turn)
{
    for (int i = 0; i < 32; i++) {
        uint8_t b = (uint8_t)(next_random() >> 24);
        uint8_t c = (uint8_t)(next_random() >> 32);
        switch (turn % 4) {
        case 0: s[i] = b; break;
        case 1: s[i] = b & c & (uint8_t)(next_random() >> 16); break;
        case 2: s[i] = b | c | (uint8_t)(next_random() >> 16); break;
        default: s[i] = i < (int)(turn % 32) ? b : 0; break;
        }
    }
}

static void small(uint8_t *s, unsigned value)
{
    memset(s, 0, 32);
    s[0] = (uint8_t)value;
}

/* 2^bits - 1, for 255 and 256 bits */
static void ones(uint8_t *s, int bits)
{
    memset(s, 0xFF, 32);
    if (bits == 255)
        s[31] = 0x7F;
}

/* The digits' sum, digit i weighing 2^(step * i), is the integer of the bytes: added up here byte by byte. */
static int sums_to(const int8_t *digits, size_t n, unsigned step, const uint8_t *bytes)
{
    int64_t at[80] = { 0 };
    for (size_t i = 0; i < n; i++) {
        size_t place = step * i;
        at[place / 8] += (int64_t)digits[i] * (1 << (place % 8));
    }
    int64_t carry = 0;
    for (size_t k = 0; k < 80; k++) {
        int64_t v = at[k] + carry;
        int64_t low = ((v % 256) + 256) % 256;
        carry = (v - low) / 256;
        if (low != (k < 32 ? bytes[k] : 0))
            return 0;
    }
    return carry == 0;
}

/* ---- the two forms, as 01 states them */

struct form {
    char letter;
    size_t narrowest, length;
    uint64_t (*recode)(const uint8_t *, size_t, size_t, int8_t *, size_t, uint32_t *, size_t);
    uint64_t (*test)(const int8_t *, size_t, size_t);
    uint64_t (*read)(const int8_t *, size_t, size_t, uint8_t *, size_t);
};

static const struct form N = { 'N', 2, 256, card_n_recode, card_n_test, card_n_read };
static const struct form R = { 'R', 4, 64, card_r_recode, card_r_test, card_r_read };

static const unsigned r_digits[9] = { 0, 0, 0, 0, 64, 52, 43, 37, 33 };
static const int r_top[9] = { 0, 0, 0, 0, 8, 2, 16, 16, 1 };

static int keeps_rules(const struct form *f, size_t w, const int8_t *d)
{
    int half = 1 << (w - 1);
    if (f->letter == 'N') {
        size_t free_from = 0;
        for (size_t i = 0; i < 256; i++) {
            int a = d[i] < 0 ? -d[i] : d[i];
            if (a == 0)
                continue;
            if (a % 2 == 0 || a >= half || i < free_from)
                return 0;
            free_from = i + w;
        }
        return 1;
    }
    for (size_t i = 0; i < 64; i++) {
        if (i + 1 < r_digits[w] ? d[i] < -half || d[i] > half - 1 : i + 1 == r_digits[w] ? d[i] < 0 || d[i] > r_top[w] : d[i] != 0)
            return 0;
    }
    return 1;
}

/* Recoding is done, with these rules, this sum and the right tally; the test passes; reading gives the bytes back. */
static void round_trip(const struct form *f, size_t w, const uint8_t *s)
{
    int8_t *d = lend(0, f->length, 0x11);
    uint32_t *tally = lend(1, 8, 0x22);
    CHECK(f->recode(s, 32, w, d, f->length, tally, 2) == 0);
    CHECK(guarded(0) && guarded(1));
    CHECK(keeps_rules(f, w, d));
    CHECK(sums_to(d, f->length, f->letter == 'N' ? 1 : (unsigned)w, s));
    uint32_t count = 0, additions = 0;
    for (size_t i = 0; i < f->length; i++)
        if (d[i] != 0) {
            count = (uint32_t)i + 1;
            additions++;
        }
    CHECK(tally[0] == (f->letter == 'N' ? count : r_digits[w]));
    CHECK(tally[1] == (f->letter == 'N' ? additions : 0));
    CHECK(f->test(d, f->length, w) == 0);
    uint8_t *out = lend(2, 32, 0x33);
    CHECK(f->read(d, f->length, w, out, 32) == 0);
    CHECK(guarded(2) && memcmp(out, s, 32) == 0);
}

/* A recoder's call that is refused with this code, whatever the buffers hold. */
static void recode_refused(const struct form *f, const uint8_t *s, size_t slen, size_t w, size_t dlen, size_t tlen, uint64_t want)
{
    int8_t *d = lend(0, dlen, 0x44);
    uint32_t *tally = lend(1, 4 * tlen, 0x55);
    CHECK(f->recode(s, slen, w, d, dlen, tally, tlen) == want);
    CHECK(untouched(0) && untouched(1));
}

/* A string that the test and the reader refuse with this code. */
static void string_refused(const struct form *f, const int8_t *d, size_t dlen, size_t w, uint64_t want)
{
    CHECK(f->test(d, dlen, w) == want);
    uint8_t *out = lend(2, 32, 0x66);
    CHECK(f->read(d, dlen, w, out, 32) == want);
    CHECK(untouched(2));
}

static void output_refused(const struct form *f, const int8_t *d, size_t dlen, size_t w, size_t olen)
{
    uint8_t *out = lend(2, olen, 0x77);
    CHECK(f->read(d, dlen, w, out, olen) == 1);
    CHECK(untouched(2));
}

/* ---- 01, "Figures on both sides of the edges" */

struct named {
    int index, digit;
};

/* The scalar has these digits, and no others that are not 0, and this count. */
static void figure(const struct form *f, size_t w, const uint8_t *s, const struct named *ds, int n, uint32_t count)
{
    int8_t want[256] = { 0 };
    for (int i = 0; i < n; i++)
        want[ds[i].index] = (int8_t)ds[i].digit;
    int8_t *d = lend(0, f->length, 0x11);
    uint32_t *tally = lend(1, 8, 0x22);
    CHECK(f->recode(s, 32, w, d, f->length, tally, 2) == 0);
    CHECK(memcmp(d, want, f->length) == 0);
    CHECK(tally[0] == count && tally[1] == (f->letter == 'N' ? (uint32_t)n : 0));
    round_trip(f, w, s);
}

/* The string with these digits is refused with this code. */
static void bad_string(const struct form *f, size_t w, const struct named *ds, int n, uint64_t want)
{
    int8_t d[256] = { 0 };
    for (int i = 0; i < n; i++)
        d[ds[i].index] = (int8_t)ds[i].digit;
    string_refused(f, d, f->length, w, want);
}

#define DIGITS(...) (const struct named[]){ __VA_ARGS__ }, (int)(sizeof((const struct named[]){ __VA_ARGS__ }) / sizeof(struct named))

static void figures(void)
{
    uint8_t s[32];
    small(s, 0), figure(&N, 5, s, NULL, 0, 0);
    small(s, 7), figure(&N, 3, s, DIGITS({ 0, -1 }, { 3, 1 }), 4);
    small(s, 7), figure(&N, 2, s, DIGITS({ 0, -1 }, { 3, 1 }), 4);
    small(s, 7), figure(&N, 4, s, DIGITS({ 0, 7 }), 1);
    small(s, 15), figure(&N, 4, s, DIGITS({ 0, -1 }, { 4, 1 }), 5);
    ones(s, 255);
    for (size_t w = 2; w <= 8; w++)
        figure(&N, w, s, DIGITS({ 0, -1 }, { 255, 1 }), 256);
    small(s, 8), figure(&R, 4, s, DIGITS({ 0, -8 }, { 1, 1 }), 64);
    small(s, 7), figure(&R, 4, s, DIGITS({ 0, 7 }), 64);
    small(s, 16), figure(&R, 5, s, DIGITS({ 0, -16 }, { 1, 1 }), 52);
    small(s, 128), figure(&R, 8, s, DIGITS({ 0, -128 }, { 1, 1 }), 33);
    ones(s, 255), figure(&R, 4, s, DIGITS({ 0, -1 }, { 63, 8 }), 64);
    ones(s, 255), figure(&R, 8, s, DIGITS({ 0, -1 }, { 31, -128 }, { 32, 1 }), 33);
    ones(s, 256), figure(&R, 5, s, DIGITS({ 0, -1 }, { 51, 2 }), 52);
    ones(s, 256), figure(&R, 6, s, DIGITS({ 0, -1 }, { 42, 16 }), 43);
    ones(s, 256), figure(&R, 7, s, DIGITS({ 0, -1 }, { 36, 16 }), 37);
    ones(s, 256), figure(&R, 8, s, DIGITS({ 0, -1 }, { 32, 1 }), 33);
    recode_refused(&R, s, 32, 4, 64, 2, 4);
    for (size_t w = 2; w <= 8; w++)
        recode_refused(&N, s, 32, w, 256, 2, 4);

    bad_string(&N, 2, DIGITS({ 0, 1 }, { 1, 1 }), code(6, 1));
    bad_string(&N, 2, DIGITS({ 0, 2 }), code(5, 0));
    bad_string(&N, 2, DIGITS({ 0, -1 }), 7);
    bad_string(&N, 2, DIGITS({ 255, 1 }), 8);
    bad_string(&N, 8, DIGITS({ 255, -128 }), code(5, 255));
    bad_string(&N, 8, DIGITS({ 248, 1 }, { 255, 1 }), code(6, 255));
    bad_string(&N, 3, DIGITS({ 4, 1 }, { 5, 2 }), code(5, 5));
    bad_string(&N, 3, DIGITS({ 4, 1 }, { 5, 1 }, { 6, 2 }), code(6, 5));
    bad_string(&R, 5, DIGITS({ 0, 16 }), code(5, 0));
    bad_string(&R, 5, DIGITS({ 51, 3 }), code(5, 51));
    bad_string(&R, 5, DIGITS({ 52, 1 }), code(5, 52));
    bad_string(&R, 5, DIGITS({ 51, 2 }), 8);
    bad_string(&R, 8, DIGITS({ 63, 1 }), code(5, 63));
    bad_string(&R, 4, DIGITS({ 63, -1 }), code(5, 63));
    bad_string(&R, 4, DIGITS({ 0, -1 }), 7);
    bad_string(&R, 4, DIGITS({ 63, 8 }), 8);

    int8_t d[256] = { -1 };
    d[255] = 1;
    CHECK(card_n_test(d, 256, 2) == 0);
}

/* ---- refusals: lengths before widths before bytes before digits */

static void refusals(const struct form *f)
{
    uint8_t s[64];
    int8_t d[320];
    memset(s, 0xFF, sizeof s);
    memset(d, 0x7E, sizeof d);
    const size_t widths[] = { 0, 1, f->narrowest - 1, 9, 10, 16, 256 + f->narrowest, ((size_t)1 << 32) + 5, SIZE_MAX };
    for (size_t i = 0; i < sizeof widths / sizeof *widths; i++) {
        recode_refused(f, s, 32, widths[i], f->length, 2, 3);
        string_refused(f, d, f->length, widths[i], 3);
        recode_refused(f, s, 31, widths[i], f->length, 2, 1);
        string_refused(f, d, f->length - 1, widths[i], 1);
        output_refused(f, d, f->length, widths[i], 33);
    }
    for (size_t w = f->narrowest; w <= 8; w++) {
        const size_t scalars[] = { 0, 31, 33, 64 };
        for (int i = 0; i < 4; i++) {
            recode_refused(f, s, scalars[i], w, f->length, 2, 1);
            output_refused(f, d, f->length, w, scalars[i]);
        }
        const size_t strings[] = { 0, 1, f->length - 1, f->length + 1, 320 - f->length };
        for (int i = 0; i < 5; i++) {
            recode_refused(f, s, 32, w, strings[i], 2, 1);
            string_refused(f, d, strings[i], w, 1);
            output_refused(f, d, strings[i], w, 31);
        }
        const size_t tallies[] = { 0, 1, 3 };
        for (int i = 0; i < 3; i++)
            recode_refused(f, s, 32, w, f->length, tallies[i], 1);
    }
}

/* ---- bytes, bits, words */

static void whole_scalars(void)
{
    uint8_t a[64], b[64];
    for (unsigned turn = 0; turn < 300; turn++) {
        random_scalar(a, turn);
        random_scalar(b, turn + 1);
        uint8_t *out = lend(0, 32, 0x11);
        CHECK(card_from_bits(a, 32, out, 32) == 0);
        CHECK(guarded(0) && memcmp(out, a, 31) == 0 && out[31] == (a[31] & 127));
        for (uint64_t c = 0; c < 2; c++) {
            out = lend(0, 32, 0x11);
            CHECK(card_select(a, 32, b, 32, c, out, 32) == 0);
            CHECK(guarded(0) && memcmp(out, c ? b : a, 32) == 0);
            out = lend(0, 32, 0x11);
            CHECK(card_select(a, 32, a, 32, c, out, 32) == 0);
            CHECK(guarded(0) && memcmp(out, a, 32) == 0);
        }
        out = lend(0, 1, 0x11);
        CHECK(card_is_odd(a, 32, out, 1) == 0);
        CHECK(guarded(0) && out[0] == a[0] % 2);
        out = lend(0, 32, (int)turn);
        CHECK(card_zeroize(out, 32) == 0);
        small(b, 0);
        CHECK(guarded(0) && memcmp(out, b, 32) == 0);
    }
    const size_t wrong[] = { 0, 1, 31, 33, 64 };
    for (int i = 0; i < 5; i++) {
        size_t n = wrong[i];
        uint8_t *out = lend(0, 32, 0x44);
        CHECK(card_from_bits(a, n, out, 32) == 1 && untouched(0));
        CHECK(card_select(a, n, b, 32, 0, out, 32) == 1 && untouched(0));
        CHECK(card_select(a, 32, b, n, 1, out, 32) == 1 && untouched(0));
        out = lend(0, n, 0x44);
        CHECK(card_from_bits(a, 32, out, n) == 1 && untouched(0));
        CHECK(card_select(a, 32, b, 32, 0, out, n) == 1 && untouched(0));
        CHECK(card_zeroize(out, n) == 1 && untouched(0));
        out = lend(0, 1, 0x44);
        CHECK(card_is_odd(a, n, out, 1) == 1 && untouched(0));
        n = n == 1 ? 2 : n;
        out = lend(0, n, 0x44);
        CHECK(card_is_odd(a, 32, out, n) == 1 && untouched(0));
    }
}

static void bits(void)
{
    uint8_t s[64], byte_bits[512];
    for (unsigned turn = 0; turn < 200; turn++) {
        random_scalar(s, turn);
        uint8_t *b = lend(0, 256, 0x11);
        CHECK(card_bits(s, 32, b, 256) == 0);
        int same = guarded(0);
        for (int i = 0; i < 256; i++)
            same = same && b[i] == ((s[i / 8] >> (i % 8)) & 1);
        CHECK(same);
        for (int i = 0; i < 256; i++)
            byte_bits[i] = b[i] == 0 ? 0 : (uint8_t)(1 + next_random() % 255);
        uint8_t *out = lend(1, 32, 0x22);
        CHECK(card_from_bit_bytes(byte_bits, 256, out, 32) == 0);
        CHECK(guarded(1) && memcmp(out, s, 32) == 0);
    }
    memset(byte_bits, 1, sizeof byte_bits);
    const size_t wrong[] = { 0, 31, 33, 255, 257 };
    for (int i = 0; i < 5; i++) {
        size_t n = wrong[i];
        uint8_t *b = lend(0, n, 0x44);
        CHECK(card_bits(s, 32, b, n) == 1 && untouched(0));
        CHECK(card_from_bit_bytes(byte_bits, 256, b, n) == 1 && untouched(0));
        uint8_t *out = lend(1, 256, 0x44);
        CHECK(card_bits(s, n < 64 ? n : 63, out, 256) == 1 && untouched(1));
        out = lend(1, 32, 0x44);
        CHECK(card_from_bit_bytes(byte_bits, n, out, 32) == 1 && untouched(1));
    }
}

static void words(void)
{
    uint8_t src[160];
    for (size_t i = 0; i < sizeof src; i++)
        src[i] = (uint8_t)next_random();
    for (size_t k = 0; k <= 16; k++) {
        uint64_t *dst = lend(0, 8 * k, 0x11);
        CHECK(card_read_words(src, 8 * k, dst, k) == 0);
        int same = guarded(0);
        for (size_t i = 0; i < 8 * k; i++)
            same = same && (uint8_t)(dst[i / 8] >> (8 * (i % 8))) == src[i];
        CHECK(same);
        uint8_t *back = lend(1, 8 * k, 0x22);
        CHECK(card_write_words(dst, k, back, 8 * k) == 0);
        CHECK(guarded(1) && memcmp(back, src, 8 * k) == 0);
        for (size_t n = 8 * k > 9 ? 8 * k - 9 : 0; n <= 8 * k + 9; n++) {
            if (n == 8 * k)
                continue;
            dst = lend(2, 8 * k, 0x44);
            CHECK(card_read_words(src, n, dst, k) == 1 && untouched(2));
            back = lend(3, n, 0x44);
            CHECK(card_write_words(dst, k, back, n) == 1 && untouched(3));
        }
    }
}

static void round_trips(const struct form *f)
{
    uint8_t s[32];
    for (size_t w = f->narrowest; w <= 8; w++) {
        for (unsigned turn = 0; turn < 400; turn++) {
            random_scalar(s, turn);
            if (f->letter == 'N' || w == 4) {
                s[31] |= 128;
                recode_refused(f, s, 32, w, f->length, 2, 4);
                s[31] &= 127;
            }
            round_trip(f, w, s);
        }
    }
}

/* ---- what is the same for every function: lengths, null pointers, and that a refused call touches no buffer, of those that it only reads
 * either */

static void *lent[SLICES];
static size_t lent_len[SLICES];

/* Lends every slice of the call at its right length, filled with this byte. */
static void lend_all(const struct call *c, int fill)
{
    for (int k = 0; k < SLICES; k++) {
        lent_len[k] = c->slice[k].length;
        lent[k] = lend(k, c->slice[k].size * lent_len[k], fill);
    }
}

static int all_untouched(void)
{
    for (int k = 0; k < SLICES; k++)
        if (!untouched(k))
            return 0;
    return 1;
}

static int made(const struct call *c, uint64_t want) { return c->make(lent, lent_len) == want && all_untouched(); }

/* Slice k null or of another length is 1, whatever else is wrong. */
static void lengths(const struct call *c, int fill)
{
    for (int k = 0; k < SLICES && c->slice[k].size != 0; k++) {
        size_t right = c->slice[k].length;
        const size_t wrong[] = { 0, right - 1, right + 1 };
        for (int i = 0; i < 3; i++) {
            lend_all(c, fill);
            lent_len[k] = wrong[i];
            lent[k] = lend(k, c->slice[k].size * wrong[i], fill);
            CHECK(made(c, CARD_WRONG_LENGTH));
        }
        lend_all(c, fill);
        lent[k] = NULL, lent_len[k] = 0;
        CHECK(made(c, CARD_WRONG_LENGTH));
    }
    memset(lent, 0, sizeof lent);
    memset(lent_len, 0, sizeof lent_len);
    CHECK(made(c, c->kind == WORDS ? CARD_DONE : CARD_WRONG_LENGTH));
}

static void every_call(void)
{
    static const uint32_t choices[] = { 2, 3, 255, 256, 257, 0x10000, 0x80000000, UINT32_MAX };
    static const size_t widths[] = { 0, 1, 9, 10, 256 + 5, ((size_t)1 << 32) + 5, ((size_t)1 << 63) + 5, SIZE_MAX };
    for (const struct call *c = calls; c < calls + CALLS; c++) {
        trying = c->name;
        width = 5, choice = 0;
        lend_all(c, 0);
        CHECK(c->make(lent, lent_len) == CARD_DONE);
        for (int k = 0; k < SLICES; k++)
            CHECK(guarded(k));
        lengths(c, 0);
        width = 9, choice = 2;
        lengths(c, 0xFE);
        for (size_t i = 0; c->kind == CHOICE && i < sizeof choices / sizeof *choices; i++) {
            lend_all(c, 0x44);
            choice = choices[i];
            CHECK(made(c, CARD_WRONG_CHOICE));
            lent_len[1] = 31;
            CHECK(made(c, CARD_WRONG_LENGTH));
        }
        if (c->kind != RECODER && c->kind != STRING)
            continue;
        for (size_t i = 0; i < sizeof widths / sizeof *widths; i++) {
            lend_all(c, 0xFE);
            width = widths[i];
            CHECK(made(c, CARD_WRONG_WIDTH));
        }
        width = 4;
        lend_all(c, 0xFE);
        if (c->kind == RECODER) {
            CHECK(made(c, CARD_TOO_WIDE));
            continue;
        }
        lend_all(c, 0x7E);
        CHECK(made(c, CARD_BROKEN_DIGIT));
        lend_all(c, 0);
        ((int8_t *)lent[0])[63] = 0x7E;
        keep(0);
        uint64_t told = c->make(lent, lent_len);
        CHECK(CARD_NUMBER(told) == CARD_BROKEN_DIGIT && CARD_POSITION(told) == 63 && all_untouched());
        lend_all(c, 0);
        ((int8_t *)lent[0])[0] = -1;
        keep(0);
        CHECK(made(c, CARD_NEGATIVE));
    }
    trying = "";
}

static void macros(void)
{
    static const uint64_t numbers[] = { CARD_DONE, CARD_WRONG_LENGTH, CARD_WRONG_WIDTH, CARD_TOO_WIDE, CARD_BROKEN_DIGIT, CARD_CROWDED,
        CARD_NEGATIVE, CARD_PAST_END, CARD_WRONG_CHOICE };
    static const uint64_t positions[] = { 0, 1, 63, 255, 256, 448, UINT64_MAX >> 8 };
    for (size_t i = 0; i < sizeof numbers / sizeof *numbers; i++) {
        CHECK(numbers[i] == (i < 2 ? i : i + 1));
        for (size_t k = 0; k < sizeof positions / sizeof *positions; k++) {
            CHECK(CARD_NUMBER(code(numbers[i], positions[k])) == numbers[i]);
            CHECK(CARD_POSITION(code(numbers[i], positions[k])) == positions[k]);
        }
    }
    int8_t d[CARD_N_DIGITS] = { 0 };
    d[248] = d[255] = 1;
    uint64_t told = card_n_test(d, CARD_N_DIGITS, 8);
    CHECK(CARD_NUMBER(told) == CARD_CROWDED && CARD_POSITION(told) == 255);
}

int main(void)
{
    macros();
    every_call();
    figures();
    refusals(&N);
    refusals(&R);
    whole_scalars();
    bits();
    words();
    round_trips(&N);
    round_trips(&R);
    if (failures != 0) {
        printf("c: %lu of %lu checks failed\n", failures, checks);
        return EXIT_FAILURE;
    }
    printf("c: %lu checks passed\n", checks);
    return EXIT_SUCCESS;
}

/* Every function of card_digits.h in one shape, for what is tried on all of them: its slices, each with the size of an element and a length
 * that the call takes, and how to call it with pointers p and lengths n. */
#include <stddef.h>
#include <stdint.h>

#include "card_digits.h"

enum { SLICES = 4 };

struct call {
    const char *name;
    uint64_t (*make)(void *const *p, const size_t *n);
    enum { BYTES, WORDS, CHOICE, RECODER, STRING } kind;
    struct {
        size_t size, length;
    } slice[SLICES];
};

/* What is handed over beside the slices. */
static size_t width = 5;
static uint32_t choice = 0;

#define SLICE(k) p[k], n[k]
#define CALL(name, ...) static uint64_t make_##name(void *const *p, const size_t *n) { return name(__VA_ARGS__); }

CALL(card_from_bits, SLICE(0), SLICE(1))
CALL(card_select, SLICE(0), SLICE(1), choice, SLICE(2))
CALL(card_is_odd, SLICE(0), SLICE(1))
CALL(card_zeroize, SLICE(0))
CALL(card_bits, SLICE(0), SLICE(1))
CALL(card_from_bit_bytes, SLICE(0), SLICE(1))
CALL(card_read_words, SLICE(0), SLICE(1))
CALL(card_write_words, SLICE(0), SLICE(1))
CALL(card_n_recode, SLICE(0), width, SLICE(1), SLICE(2))
CALL(card_n_test, SLICE(0), width)
CALL(card_n_read, SLICE(0), width, SLICE(1))
CALL(card_r_recode, SLICE(0), width, SLICE(1), SLICE(2))
CALL(card_r_test, SLICE(0), width)
CALL(card_r_read, SLICE(0), width, SLICE(1))

#define IS(name) #name, make_##name

static const struct call calls[] = {
    { IS(card_from_bits), BYTES, { { 1, CARD_SCALAR_BYTES }, { 1, CARD_SCALAR_BYTES } } },
    { IS(card_select), CHOICE, { { 1, CARD_SCALAR_BYTES }, { 1, CARD_SCALAR_BYTES }, { 1, CARD_SCALAR_BYTES } } },
    { IS(card_is_odd), BYTES, { { 1, CARD_SCALAR_BYTES }, { 1, 1 } } },
    { IS(card_zeroize), BYTES, { { 1, CARD_SCALAR_BYTES } } },
    { IS(card_bits), BYTES, { { 1, CARD_SCALAR_BYTES }, { 1, CARD_SCALAR_BITS } } },
    { IS(card_from_bit_bytes), BYTES, { { 1, CARD_SCALAR_BITS }, { 1, CARD_SCALAR_BYTES } } },
    { IS(card_read_words), WORDS, { { 1, 40 }, { 8, 5 } } },
    { IS(card_write_words), WORDS, { { 8, 5 }, { 1, 40 } } },
    { IS(card_n_recode), RECODER, { { 1, CARD_SCALAR_BYTES }, { 1, CARD_N_DIGITS }, { 4, CARD_TALLY_ENTRIES } } },
    { IS(card_n_test), STRING, { { 1, CARD_N_DIGITS } } },
    { IS(card_n_read), STRING, { { 1, CARD_N_DIGITS }, { 1, CARD_SCALAR_BYTES } } },
    { IS(card_r_recode), RECODER, { { 1, CARD_SCALAR_BYTES }, { 1, CARD_R_ENTRIES }, { 4, CARD_TALLY_ENTRIES } } },
    { IS(card_r_test), STRING, { { 1, CARD_R_ENTRIES } } },
    { IS(card_r_read), STRING, { { 1, CARD_R_ENTRIES }, { 1, CARD_SCALAR_BYTES } } },
};

enum { CALLS = sizeof calls / sizeof *calls };

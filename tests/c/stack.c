/* How much stack a call of card_digits.h takes. Each is made on a stack of its own, painted beforehand; the deepest byte that lost its
 * paint is looked for before anything else runs there. Counted are the call's own frames, its return address, and the frame of the
 * function in calls.h that makes it. With -v a line for each function; exit status 1 if one takes more than the header says. */
#include <stdint.h>
#include <stdio.h>
#include <string.h>
#include <ucontext.h>

#include "calls.h"

enum { STACK = 1 << 18, PAINT = 0xC7 };

static _Alignas(64) unsigned char stack[STACK];
static ucontext_t home, away;

static _Alignas(64) unsigned char room[SLICES][4096];
static void *p[SLICES];
static size_t n[SLICES];
static const struct call *made;
static uint64_t code;
static size_t taken;

/* Makes the call, and counts from this frame down to the deepest byte that was written. */
static void run(void)
{
    code = made->make(p, n);
    const volatile unsigned char *deepest = stack;
    while (*deepest == PAINT)
        deepest++;
    taken = (size_t)((const unsigned char *)__builtin_frame_address(0) - deepest);
}

/* The call on slices that hold this byte throughout. */
static size_t depth(int fill)
{
    for (int k = 0; k < SLICES; k++) {
        p[k] = memset(room[k], fill, sizeof room[k]);
        n[k] = made->slice[k].length;
    }
    memset(stack, PAINT, sizeof stack);
    getcontext(&away);
    away.uc_stack.ss_sp = stack;
    away.uc_stack.ss_size = sizeof stack;
    away.uc_link = &home;
    makecontext(&away, run, 0);
    swapcontext(&home, &away);
    return taken;
}

int main(int argc, char **argv)
{
    static const int fills[] = { 0, 0x5B, 0xFF };
    int say = argc > 1 && strcmp(argv[1], "-v") == 0;
    size_t most = 0;
    for (int c = 0; c < CALLS; c++) {
        made = &calls[c];
        size_t own = 0;
        int done = 0;
        for (width = 0; width <= 16; width++)
            for (int i = 0; i < 3; i++) {
                size_t here = depth(fills[i]);
                own = here > own ? here : own;
                done += code == CARD_DONE;
            }
        if (done == 0) {
            printf("stack: %s was never done\n", made->name);
            return 1;
        }
        if (say)
            printf("%-20s %zu\n", made->name, own);
        most = own > most ? own : most;
    }
    printf("stack: at most %zu bytes a call, and the header says %d\n", most, CARD_STACK_BYTES);
    return most > CARD_STACK_BYTES;
}

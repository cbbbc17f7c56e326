/*
 * 32-bit functions that hooks32.c hooks in the file of this program: NAME by `hooked_NAME`, which calls the original through
 * `original_NAME`. Some are position-independent code and read their own address by a thunk first; some are not.
 *
 * Compile with -m32 -O2 -fPIC -no-pie: the addresses are those of the file. The program prints for each function a hash of
 * its results for many arguments. It fails if a function whose original is set was called without its hook.
 */
#include <stdint.h>
#include <stdio.h>

#define FUNCTION __attribute__((noipa, noinline, visibility("hidden")))

/* room for the trampolines, in pages that may be executed */
__asm__(
    ".pushsection .trampolines, \"ax\", @progbits\n"
    ".globl trampolines\n"
    ".balign 16\n"
    "trampolines: .fill 4096, 1, 0xcc\n"
    ".popsection\n");

static const int table[16] = {3, 1, 4, 1, 5, 9, 2, 6, 5, 3, 5, 8, 9, 7, 9, 3};
static int state = 1;

/* position-independent, with data of their own */
FUNCTION int pic_sum(int n)
{
    int sum = 0, k;
    for (k = 0; k < (n & 15); k++)
        sum += table[k];
    return sum;
}

FUNCTION int pic_next(int n)
{
    state = state * 1103515245 + n;
    return state >> 8;
}

FUNCTION int pic_text(int n)
{
    return "a short text"[n & 7] + n;
}

/* no data, so no thunk */
FUNCTION int plain_sum(int n)
{
    return 3 * n + (n >> 2) - 17;
}

FUNCTION int plain_branch(int n)
{
    if (n < 0)
        return -n * 5;
    if (n % 3 == 0)
        return n / 3;
    return n + 11;
}

FUNCTION int plain_loop(int n)
{
    int sum = 7, k;
    for (k = 0; k < (n & 31); k++)
        sum = sum * 31 + k;
    return sum;
}

FUNCTION int plain_recursive(int n)
{
    return (n & 15) == 0 ? 1 : 1 + 2 * plain_recursive((n & 15) - 1);
}

FUNCTION int plain_wide(int n)
{
    int64_t wide = (int64_t)n * 0x123456789abLL;
    return (int)(wide >> 20) ^ (int)wide;
}

#define EACH(X) X(pic_sum) X(pic_next) X(pic_text) X(plain_sum) X(plain_branch) X(plain_loop) X(plain_recursive) X(plain_wide)

typedef int (*function)(int);

/* the originals are written into the file: they have to be in it, and so are no zeros; 1 is none */
#define HOOK(name)                                                       \
    volatile function original_##name = (function)1;                     \
    static int calls_##name;                                             \
    FUNCTION __attribute__((used)) int hooked_##name(int n)              \
    {                                                                    \
        calls_##name++;                                                  \
        return original_##name(n);                                       \
    }
EACH(HOOK)

static int fails;

static void try_one(const char *name, function f, function original, const int *calls)
{
    uint32_t sum = 0;
    int n;
    for (n = -300; n < 300; n++)
        sum = (sum ^ (uint32_t)f(n * 7)) * 0x01000193u;
    printf("%s %08x\n", name, (unsigned)sum);
    if (original != (function)1 && *calls < 600) {
        printf("%s: its hook was called %d times\n", name, *calls);
        fails = 1;
    }
}

int main(void)
{
#define TRY(name) try_one(#name, name, original_##name, &calls_##name);
    EACH(TRY)
    return fails;
}

/*
 * 32-bit functions that throw, which hooks32.c hooks in the file of this program: NAME by `hooked_NAME`, which calls the
 * original through `original_NAME` and has something to destroy. Some are position-independent code and read their own
 * address by a thunk first. An exception passes the replacement, whose destructor runs, and is caught behind the hook.
 *
 * Compile with g++ -m32 -O2 -fPIC -no-pie. The program prints for each function a hash of what its calls return or throw.
 * It fails if a function whose original is set was called without its hook, or if a destructor did not run.
 */
#include <cstdint>
#include <cstdio>

#define FUNCTION extern "C" __attribute__((noipa, noinline, visibility("hidden")))

/* room for the trampolines, in pages that may be executed */
__asm__(
    ".pushsection .trampolines, \"ax\", @progbits\n"
    ".globl trampolines\n"
    ".balign 16\n"
    "trampolines: .fill 4096, 1, 0xcc\n"
    ".popsection\n");

struct too_large {
    int n;
};

static const int table[8] = {2, 7, 1, 8, 2, 8, 1, 8};
static int state = 1, destroyed;

struct guard {
    ~guard() { destroyed++; }
};

/* it throws itself */
FUNCTION int throws(int n)
{
    if (n > 100)
        throw too_large{n};
    return n + table[n & 7];
}

/* what it calls throws, and it has something to destroy */
FUNCTION int passes_on(int n)
{
    guard here;
    state += throws(n);
    return state;
}

/* it catches what its callee throws */
FUNCTION int catches(int n)
{
    try {
        return passes_on(n);
    } catch (const too_large &thrown) {
        return -thrown.n;
    }
}

#define EACH(X) X(throws) X(passes_on) X(catches)

typedef int (*function)(int);

/* the originals are written into the file: they have to be in it, and so are no zeros; 1 is none */
#define HOOK(name)                                                       \
    extern "C" {                                                         \
    volatile function original_##name = (function)1;                     \
    }                                                                    \
    static int calls_##name;                                             \
    FUNCTION __attribute__((used)) int hooked_##name(int n)              \
    {                                                                    \
        guard here;                                                      \
        calls_##name++;                                                  \
        return original_##name(n);                                       \
    }
EACH(HOOK)

/* what a call returns, or the negative number that it throws */
static int result_of(function f, int n)
{
    try {
        return f(n);
    } catch (const too_large &thrown) {
        return -thrown.n;
    }
}

static int fails;

static void try_one(const char *name, function f, function original, const int *calls)
{
    uint32_t sum = 0;
    int n, before = destroyed;
    for (n = 0; n < 300; n++)
        sum = (sum ^ (uint32_t)result_of(f, n)) * 0x01000193u;
    printf("%s %08x\n", name, (unsigned)sum);
    if (original == (function)1)
        return;
    if (*calls < 300 || destroyed - before < *calls) {
        printf("%s: its hook was called %d times, and %d objects were destroyed\n", name, *calls, destroyed - before);
        fails = 1;
    }
}

int main()
{
#define TRY(name) try_one(#name, name, original_##name, &calls_##name);
    EACH(TRY)
    return fails;
}

/*
 * Many hooks in one process: of functions of the C library and of zlib, and of functions of this program whose first bytes
 * are hard to move. The program calls each with many arguments before, with and after a hook that counts the calls and
 * continues through the trampoline; no result may differ. All hooks of a round are in place at once: first with the
 * trampolines near the libraries, with jumps of 5 bytes, then far from them, with jumps of 14.
 *
 * Linux on x86-64; compile capi/hook/feddurzai_hook.c with it, and link with `-ldl` before glibc 2.34. Without libz.so.1 its
 * functions are left out. The program prints how many functions it hooked by which jump, and why it could not hook the
 * others. It fails if any result differs. hook_libraries.c hooks whole libraries.
 */
#define _GNU_SOURCE
#include "feddurzai_hook.h"

#include <dlfcn.h>
#include <inttypes.h>
#include <locale.h>
#include <stdio.h>
#include <stdlib.h>
#include <string.h>
#include <wchar.h>

enum { LEAST_HOOKED = 50 };

typedef void (*function)(void);

/* a function and its hook */
struct hook {
    const char *name;
    uint64_t (*run)(function);      /* calls it with many arguments, and returns a hash of all results */
    function replacement;
    const char *library;            /* NULL for this program */
    function hooked;
    size_t len;                     /* the size of the function in bytes */
    function original;              /* the trampoline */
    unsigned long calls;            /* of the replacement */
    int installed;
    feddurzai_hook_parts parts;
};

/* ---- the functions, by their types */

#define INT_OF_INT(X) X(abs) X(toascii) X(isalnum) X(isalpha) X(isascii) X(isblank) X(iscntrl) X(isdigit) X(isgraph) X(islower) X(isprint) \
    X(ispunct) X(isspace) X(isupper) X(isxdigit) X(tolower) X(toupper) X(ffs) X(btowc)
#define INT_OF_LOCALE(X) X(isalnum_l) X(isalpha_l) X(isblank_l) X(iscntrl_l) X(isdigit_l) X(isgraph_l) X(islower_l) X(isprint_l) \
    X(ispunct_l) X(isspace_l) X(isupper_l) X(isxdigit_l) X(tolower_l) X(toupper_l)
#define INT_OF_WIDE(X) X(iswalnum) X(iswalpha) X(iswblank) X(iswcntrl) X(iswdigit) X(iswgraph) X(iswlower) X(iswprint) X(iswpunct) \
    X(iswspace) X(iswupper) X(iswxdigit) X(towlower) X(towupper) X(wctob) X(htonl) X(htons)
#define LONG_OF_LONG(X) X(labs)
#define INT_OF_TEXT(X) X(atoi) X(inet_addr) X(inet_network)
#define LONG_OF_TEXT(X) X(atol) X(a64l)
#define INT_OF_TEXTS(X) X(strverscmp) X(strcoll)
#define LONG_OF_DIGITS(X) X(strtol) X(strtoul)
#define DOUBLE_OF_DIGITS(X) X(strtod)
#define SORTS(X) X(qsort)
#define FINDS(X) X(bsearch)
#define SUMS(X) X(adler32) X(crc32)
#define COMBINES(X) X(adler32_combine) X(crc32_combine)
#define PACKS(X) X(compress) X(uncompress)
#define BOUNDS(X) X(compressBound)
/* of this program, below */
#define OWN(X) X(own_branch) X(own_loop) X(own_rip) X(own_call) X(own_jrcxz) X(own_ret) X(own_entered)

#define LIBC(INT, LOCALE, WIDE, LONG, TEXT, LONGTEXT, TEXTS, DIGITS, DOUBLE, SORT, FIND) \
    INT_OF_INT(INT) INT_OF_LOCALE(LOCALE) INT_OF_WIDE(WIDE) LONG_OF_LONG(LONG) INT_OF_TEXT(TEXT) LONG_OF_TEXT(LONGTEXT) INT_OF_TEXTS(TEXTS) \
    LONG_OF_DIGITS(DIGITS) DOUBLE_OF_DIGITS(DOUBLE) SORTS(SORT) FINDS(FIND)
#define LIBZ(SUM, COMBINE, PACK, BOUND) SUMS(SUM) COMBINES(COMBINE) PACKS(PACK) BOUNDS(BOUND)

#define NUMBER(name) at_##name,
enum {
    LIBC(NUMBER, NUMBER, NUMBER, NUMBER, NUMBER, NUMBER, NUMBER, NUMBER, NUMBER, NUMBER, NUMBER)
    LIBZ(NUMBER, NUMBER, NUMBER, NUMBER)
    OWN(NUMBER)
    HOOKS
};

static struct hook hooks[HOOKS];
static unsigned long made;          /* the number of calls that the functions below made */
static locale_t locale;

/* ---- their replacements: each counts the call and continues through the trampoline */

#define ORIGINAL(name, type) (hooks[at_##name].calls++, (type)hooks[at_##name].original)

typedef int (*int_of_int)(int);
typedef int (*int_of_locale)(int, locale_t);
typedef unsigned (*int_of_wide)(unsigned);
typedef long (*long_of_long)(long);
typedef int (*int_of_text)(const char *);
typedef long (*long_of_text)(const char *);
typedef int (*int_of_texts)(const char *, const char *);
typedef long (*long_of_digits)(const char *, char **, int);
typedef double (*double_of_digits)(const char *, char **);
typedef int (*order)(const void *, const void *);
typedef void (*sorts)(void *, size_t, size_t, order);
typedef void *(*finds)(const void *, const void *, size_t, size_t, order);
typedef unsigned long (*sums)(unsigned long, const uint8_t *, unsigned);
typedef unsigned long (*combines)(unsigned long, unsigned long, long);
typedef int (*packs)(uint8_t *, unsigned long *, const uint8_t *, unsigned long);
typedef unsigned long (*bounds)(unsigned long);

#define NEW_INT(name) static int new_##name(int a) { return ORIGINAL(name, int_of_int)(a); }
#define NEW_LOCALE(name) static int new_##name(int a, locale_t l) { return ORIGINAL(name, int_of_locale)(a, l); }
#define NEW_WIDE(name) static unsigned new_##name(unsigned a) { return ORIGINAL(name, int_of_wide)(a); }
#define NEW_LONG(name) static long new_##name(long a) { return ORIGINAL(name, long_of_long)(a); }
#define NEW_TEXT(name) static int new_##name(const char *a) { return ORIGINAL(name, int_of_text)(a); }
#define NEW_LONGTEXT(name) static long new_##name(const char *a) { return ORIGINAL(name, long_of_text)(a); }
#define NEW_TEXTS(name) static int new_##name(const char *a, const char *b) { return ORIGINAL(name, int_of_texts)(a, b); }
#define NEW_DIGITS(name) static long new_##name(const char *a, char **end, int base) { return ORIGINAL(name, long_of_digits)(a, end, base); }
#define NEW_DOUBLE(name) static double new_##name(const char *a, char **end) { return ORIGINAL(name, double_of_digits)(a, end); }
#define NEW_SORT(name) static void new_##name(void *a, size_t n, size_t size, order by) { ORIGINAL(name, sorts)(a, n, size, by); }
#define NEW_FIND(name) static void *new_##name(const void *key, const void *a, size_t n, size_t size, order by) \
    { return ORIGINAL(name, finds)(key, a, n, size, by); }
#define NEW_SUM(name) static unsigned long new_##name(unsigned long sum, const uint8_t *a, unsigned n) { return ORIGINAL(name, sums)(sum, a, n); }
#define NEW_COMBINE(name) static unsigned long new_##name(unsigned long a, unsigned long b, long n) { return ORIGINAL(name, combines)(a, b, n); }
#define NEW_PACK(name) static int new_##name(uint8_t *to, unsigned long *room, const uint8_t *a, unsigned long n) \
    { return ORIGINAL(name, packs)(to, room, a, n); }
#define NEW_BOUND(name) static unsigned long new_##name(unsigned long n) { return ORIGINAL(name, bounds)(n); }

LIBC(NEW_INT, NEW_LOCALE, NEW_WIDE, NEW_LONG, NEW_TEXT, NEW_LONGTEXT, NEW_TEXTS, NEW_DIGITS, NEW_DOUBLE, NEW_SORT, NEW_FIND)
LIBZ(NEW_SUM, NEW_COMBINE, NEW_PACK, NEW_BOUND)
OWN(NEW_INT)

/* ---- calls with many arguments */

static uint64_t mixed(uint64_t sum, uint64_t result)
{
    made++;
    return (sum ^ result) * 0x100000001b3u;
}

static const char *const texts[] = {"", "0", "-1", "42", "0x1f", "077", "  +17 apples", "9223372036854775807", "99999999999999999999", "1.5e3",
    "-0.001x", "inf", "127.0.0.1", "10.0.255.254", "256.1.1.1", "1.2.3", "item#99", "item#100", "alpha1", "alpha001", "zZ./19"};
enum { TEXTS = sizeof texts / sizeof *texts, BYTES = 600 };
static uint8_t bytes[BYTES];

static uint64_t run_INT(function f)
{
    uint64_t sum = 0;
    int a;
    for (a = -1; a < 256; a++)
        sum = mixed(sum, (uint64_t)((int_of_int)f)(a));
    return sum;
}

static uint64_t run_LOCALE(function f)
{
    uint64_t sum = 0;
    int a;
    for (a = -1; a < 256; a++)
        sum = mixed(sum, (uint64_t)((int_of_locale)f)(a, locale));
    return sum;
}

static uint64_t run_WIDE(function f)
{
    uint64_t sum = 0;
    unsigned a;
    for (a = 0; a < 70000; a += 1 + a / 256)
        sum = mixed(sum, ((int_of_wide)f)(a));
    return sum;
}

static uint64_t run_LONG(function f)
{
    uint64_t sum = 0;
    long a;
    for (a = -1000; a < 1000; a++)
        sum = mixed(sum, (uint64_t)((long_of_long)f)(a * 0x10000001));
    return sum;
}

static uint64_t run_TEXT(function f)
{
    uint64_t sum = 0;
    int k;
    for (k = 0; k < TEXTS; k++)
        sum = mixed(sum, (uint64_t)((int_of_text)f)(texts[k]));
    return sum;
}

static uint64_t run_LONGTEXT(function f)
{
    uint64_t sum = 0;
    int k;
    for (k = 0; k < TEXTS; k++)
        sum = mixed(sum, (uint64_t)((long_of_text)f)(texts[k]));
    return sum;
}

/* of a comparison only the sign counts */
static int sign(int n)
{
    return (n > 0) - (n < 0);
}

static uint64_t run_TEXTS(function f)
{
    uint64_t sum = 0;
    int k, j;
    for (k = 0; k < TEXTS; k++)
        for (j = 0; j < TEXTS; j++)
            sum = mixed(sum, (uint64_t)sign(((int_of_texts)f)(texts[k], texts[j])));
    return sum;
}

static uint64_t run_DIGITS(function f)
{
    uint64_t sum = 0;
    int k, base;
    for (k = 0; k < TEXTS; k++)
        for (base = 0; base <= 36; base++) {
            char *end = NULL;
            long n = base == 1 ? 0 : ((long_of_digits)f)(texts[k], &end, base);
            made -= base == 1;
            sum = mixed(sum, (uint64_t)n + (end == NULL ? 0 : (uint64_t)(end - texts[k])));
        }
    return sum;
}

static uint64_t run_DOUBLE(function f)
{
    uint64_t sum = 0, bits;
    int k;
    for (k = 0; k < TEXTS; k++) {
        char *end = NULL;
        double x = ((double_of_digits)f)(texts[k], &end);
        memcpy(&bits, &x, sizeof bits);
        sum = mixed(sum, bits + (uint64_t)(end - texts[k]));
    }
    return sum;
}

static int by_byte(const void *a, const void *b)
{
    return *(const uint8_t *)a - *(const uint8_t *)b;
}

static uint64_t run_SORT(function f)
{
    uint64_t sum = 0;
    size_t n, k;
    uint8_t sorted[BYTES];
    for (n = 0; n <= BYTES; n += 60) {
        memcpy(sorted, bytes, BYTES);
        ((sorts)f)(sorted, n, 1, by_byte);
        sum = mixed(sum, n);
        for (k = 0; k < BYTES; k++)
            sum = sum * 31 + sorted[k];
    }
    return sum;
}

static uint64_t run_FIND(function f)
{
    uint64_t sum = 0;
    int k;
    uint8_t ascending[200];
    for (k = 0; k < 200; k++)
        ascending[k] = (uint8_t)k;
    for (k = 0; k < 256; k++) {
        uint8_t key = (uint8_t)k, *found = ((finds)f)(&key, ascending, 200, 1, by_byte);
        sum = mixed(sum, found == NULL ? 999 : (uint64_t)(found - ascending));
    }
    return sum;
}

static uint64_t run_SUM(function f)
{
    uint64_t sum = 0;
    unsigned n;
    for (n = 0; n <= BYTES; n++)
        sum = mixed(sum, ((sums)f)(n & 0xffff, bytes, n));
    return sum;
}

static uint64_t run_COMBINE(function f)
{
    uint64_t sum = 0;
    unsigned long n;
    for (n = 0; n <= BYTES; n++)
        sum = mixed(sum, ((combines)f)(n * 0x12345 & 0xffffffff, n * 0x54321 & 0xffffffff, (long)n));
    return sum;
}

/* invalid packed data is refused, and the refusal counts as a result */
static uint64_t run_PACK(function f)
{
    uint64_t sum = 0;
    unsigned n;
    for (n = 0; n <= BYTES; n += 20) {
        uint8_t to[2 * BYTES];
        unsigned long room = sizeof to, k;
        int said = ((packs)f)(to, &room, bytes, n);
        sum = mixed(sum, (uint64_t)said);
        for (k = 0; said == 0 && k < room; k++)
            sum = sum * 31 + to[k];
    }
    return sum;
}

static uint64_t run_BOUND(function f)
{
    uint64_t sum = 0;
    unsigned long n;
    for (n = 0; n < 100000; n += 77)
        sum = mixed(sum, ((bounds)f)(n));
    return sum;
}

/* ---- functions of this program whose first bytes are hard to move */

#define BEGIN(name) ".balign 16, 0xcc\n" #name ":\n"
#define END(name) #name "_end:\n"
__asm__(
    ".pushsection own, \"ax\"\n"
    /* a short branch to an instruction that is taken too, over one that would stop the program */
    BEGIN(own_branch) "stc\n jc 1f\n hlt\n 1: lea 5(%rdi), %eax\n ret\n" END(own_branch)
    /* a loop to the very first byte */
    BEGIN(own_loop) "sub $3, %edi\n jg own_loop\n lea 10(%rdi), %eax\n ret\n" END(own_loop)
    /* an operand at RIP */
    BEGIN(own_rip) "mov own_value(%rip), %eax\n add %edi, %eax\n ret\n" END(own_rip)
    /* a call */
    BEGIN(own_call) "call own_callee\n add $1, %eax\n ret\n" END(own_call)
    /* a branch that has only 8 bits, to an instruction after the taken ones */
    BEGIN(own_jrcxz) "mov %edi, %ecx\n jrcxz 1f\n sub $1, %edi\n 1: lea 2(%rdi,%rdi), %eax\n ret\n" END(own_jrcxz)
    /* a single return, and padding that may be overwritten */
    BEGIN(own_ret) "ret\n .byte 0x0f, 0x1f, 0x40, 0x00\n .fill 10, 1, 0xcc\n" END(own_ret)
    /* a loop into the bytes to be overwritten: it is refused */
    BEGIN(own_entered) "xor %eax, %eax\n 1: inc %eax\n cmp %edi, %eax\n jb 1b\n ret\n" END(own_entered)
    BEGIN(own_callee) "lea 7(%rdi,%rdi,2), %eax\n ret\n"
    ".popsection\n"
    ".pushsection .data\n own_value: .long 1234567\n .popsection\n");

#define DECLARE(name) extern const uint8_t name[], name##_end[];
OWN(DECLARE)

/* the result of a single return is the old value of EAX */
static uint64_t run_OWN_RET(function f)
{
    int a;
    for (a = 0; a < 100; a++, made++)
        ((void (*)(int))f)(a);
    return 0;
}

/* ---- the table */

#define LIBC_NAME "libc.so.6"
#define LIBZ_NAME "libz.so.1"
#define EMPTY {{0, 0, 0, 0, 0, 0, 0, 0}, 0, 0, 0, 0, {0}, {0}, {0}, 0, {0}, {0}, 0, 0, 0, {0}, {0}}
#define ROW(name, kind, library) {#name, run_##kind, (function)new_##name, library, NULL, 0, NULL, 0, 0, EMPTY},
#define ROW_INT(name) ROW(name, INT, LIBC_NAME)
#define ROW_LOCALE(name) ROW(name, LOCALE, LIBC_NAME)
#define ROW_WIDE(name) ROW(name, WIDE, LIBC_NAME)
#define ROW_LONG(name) ROW(name, LONG, LIBC_NAME)
#define ROW_TEXT(name) ROW(name, TEXT, LIBC_NAME)
#define ROW_LONGTEXT(name) ROW(name, LONGTEXT, LIBC_NAME)
#define ROW_TEXTS(name) ROW(name, TEXTS, LIBC_NAME)
#define ROW_DIGITS(name) ROW(name, DIGITS, LIBC_NAME)
#define ROW_DOUBLE(name) ROW(name, DOUBLE, LIBC_NAME)
#define ROW_SORT(name) ROW(name, SORT, LIBC_NAME)
#define ROW_FIND(name) ROW(name, FIND, LIBC_NAME)
#define ROW_SUM(name) ROW(name, SUM, LIBZ_NAME)
#define ROW_COMBINE(name) ROW(name, COMBINE, LIBZ_NAME)
#define ROW_PACK(name) ROW(name, PACK, LIBZ_NAME)
#define ROW_BOUND(name) ROW(name, BOUND, LIBZ_NAME)
#define ROW_OWN(name) ROW(name, INT, NULL)
static struct hook hooks[HOOKS] = {
    LIBC(ROW_INT, ROW_LOCALE, ROW_WIDE, ROW_LONG, ROW_TEXT, ROW_LONGTEXT, ROW_TEXTS, ROW_DIGITS, ROW_DOUBLE, ROW_SORT, ROW_FIND)
    LIBZ(ROW_SUM, ROW_COMBINE, ROW_PACK, ROW_BOUND)
    OWN(ROW_OWN)
};

/* finds a function of a library and its size by the library's symbols; none if the loader resolves the symbol (IFUNC) */
static void look_up(struct hook *hook)
{
    void *library = dlopen(hook->library, RTLD_NOW), *symbol;
    size_t len;
    if (library == NULL || feddurzai_hook_find(library, hook->name, &symbol, &len) < 0)
        return;
    hook->hooked = (function)(uintptr_t)symbol;
    hook->len = len;
}

/* installs a hook. Returns 0, or a refusal */
static int32_t install(struct hook *hook, uint32_t flags)
{
    feddurzai_hook_options options = {hook->len, flags, &hook->parts};
    int32_t said = feddurzai_hook_install_with(FEDDURZAI_HOOK_ADDRESS(hook->hooked), FEDDURZAI_HOOK_ADDRESS(hook->replacement), &hook->original,
        &options);
    hook->installed = said == 0;
    if (said == 0)
        hook->calls = 0;
    return said;
}

static void remove_hook(struct hook *hook)
{
    int32_t said = feddurzai_hook_remove(FEDDURZAI_HOOK_ADDRESS(hook->hooked));
    hook->installed = 0;
    if (said < 0) {
        printf("%s: cannot remove the hook: %s\n", hook->name, feddurzai_hook_error_text(said));
        exit(1);
    }
}

/* another name of a function that is already hooked is left out */
static int is_hooked(function f)
{
    int k;
    for (k = 0; k < HOOKS; k++)
        if (hooks[k].installed && hooks[k].hooked == f)
            return 1;
    return 0;
}

/* the refusals of a round, by their cause */
static struct { int32_t said; int count; } refused[32];

static void count_refusal(int32_t said)
{
    int k;
    for (k = 0; refused[k].count != 0 && refused[k].said != said; k++)
        ;
    refused[k].said = said;
    refused[k].count++;
}

/* hooks the functions of the libraries, with trampolines near or far. Returns how many, or -1 if any result differs */
static int round_of(uint32_t flags, const char *title)
{
    static uint64_t before[HOOKS];
    int k, hooked = 0, forms[4] = {0}, differ = 0;
    unsigned long calls = 0;
    memset(refused, 0, sizeof refused);
    for (k = 0; k < at_own_branch; k++)
        if (hooks[k].hooked != NULL)
            before[k] = hooks[k].run(hooks[k].hooked);
    for (k = 0; k < at_own_branch; k++) {
        struct hook *hook = &hooks[k];
        int32_t said;
        if (hook->hooked == NULL || is_hooked(hook->hooked))
            continue;
        said = install(hook, flags);
        if (said < 0)
            count_refusal(said);
        else {
            hooked++;
            forms[hook->parts.detour.form]++;
        }
    }
    for (k = 0; k < at_own_branch; k++)
        if (hooks[k].installed) {
            unsigned long counted = hooks[k].calls, start = made;
            uint64_t result = hooks[k].run(hooks[k].hooked);
            calls += made - start;
            /* other functions may call it too */
            if (result != before[k] || hooks[k].calls - counted < made - start) {
                differ++;
                printf("%s: the result DIFFERS with the hook\n", hooks[k].name);
            }
        }
    for (k = 0; k < at_own_branch; k++)
        if (hooks[k].installed)
            remove_hook(&hooks[k]);
    for (k = 0; k < at_own_branch; k++)
        if (hooks[k].hooked != NULL && hooks[k].run(hooks[k].hooked) != before[k]) {
            differ++;
            printf("%s: the result DIFFERS after the hook was removed\n", hooks[k].name);
        }
    printf("%s: %d functions hooked at once, by a near jump %d, by a relay %d, by 14 bytes %d; %lu calls\n", title, hooked,
        forms[FEDDURZAI_DETOUR_NEAR], forms[FEDDURZAI_DETOUR_RELAY], forms[FEDDURZAI_DETOUR_ABSOLUTE], calls);
    for (k = 0; refused[k].count != 0; k++)
        printf("    not hooked %d: %s\n", refused[k].count, feddurzai_hook_error_text(refused[k].said));
    return differ == 0 ? hooked : -1;
}

/* hooks one function of this program, and compares its results */
static int try_own(int k, const char *where, uint32_t flags, int32_t want, unsigned long want_calls)
{
    struct hook *hook = &hooks[k];
    uint64_t before = hook->run(hook->hooked), hooked = before;
    int32_t said = install(hook, flags);
    if (said == 0) {
        hooked = hook->run(hook->hooked);
        remove_hook(hook);
    }
    if (said != want || hooked != before || hook->run(hook->hooked) != before || (said == 0 && hook->calls != want_calls)) {
        printf("%s, trampoline %s: status %d, %lu calls of the hook: the result DIFFERS\n", hook->name, where, said, hook->calls);
        return 0;
    }
    return 1;
}

static int try_owns(void)
{
    struct own { int hook; int32_t far; unsigned long calls; uint32_t flags; } owns[] = {
        {at_own_branch, 0, 257, 0}, {at_own_loop, 0, 257, 0}, {at_own_rip, FEDDURZAI_TOO_FAR, 257, 0},
        {at_own_call, 0, 257, 0}, {at_own_jrcxz, 0, 257, 0}, {at_own_ret, 0, 100, 0},
    };
    size_t k;
    unsigned long loops = 0;
    int a, left, good = 1;
    for (k = 0; good && k < sizeof owns / sizeof *owns; k++) {
        good = try_own(owns[k].hook, "near", owns[k].flags, 0, owns[k].calls) && good;
        good = try_own(owns[k].hook, "far", owns[k].flags | FEDDURZAI_HOOK_FAR, owns[k].far, owns[k].calls) && good;
    }
    if (!good)
        return 0;
    /* a branch to the start that reaches the hook adds a call in each round of the loop */
    for (a = -1; a < 256; a++)
        for (left = a, loops++; (left -= 3) > 0;)
            loops++;
    good = try_own(at_own_loop, "near", FEDDURZAI_HOOK_ALLOW_LOOPS, 0, loops);
    good = try_own(at_own_loop, "far", FEDDURZAI_HOOK_ALLOW_LOOPS | FEDDURZAI_HOOK_FAR, 0, loops) && good;
    good = try_own(at_own_call, "near", FEDDURZAI_HOOK_PLAIN_CALLS, FEDDURZAI_HOOK_CALL, 0) && good;
    good = try_own(at_own_call, "near", FEDDURZAI_HOOK_PLAIN_CALLS | FEDDURZAI_HOOK_ALLOW_CALLS, 0, 257) && good;
    good = try_own(at_own_entered, "near", 0, FEDDURZAI_ENTERED, 0) && good;
    good = good && hooks[at_own_entered].parts.at == 6 && hooks[at_own_entered].parts.target == 2;
    printf("own: a short branch inside, a loop to the start, an operand at RIP, a call, jrcxz and a single return hooked, near and far;\n"
           "    far, the operand at RIP is refused; a function whose loop enters its first bytes is refused, and a call that is to stay one\n");
    return good;
}

int main(void)
{
    int k, near_hooked, far_hooked, own;
    locale = newlocale(LC_ALL_MASK, "C", (locale_t)0);
    for (k = 0; k < BYTES; k++)
        bytes[k] = (uint8_t)(k * k * 7 + k / 9);
    for (k = 0; k < HOOKS; k++)
        if (hooks[k].library != NULL)
            look_up(&hooks[k]);
#define FIND_OWN(name) hooks[at_##name].hooked = (function)(uintptr_t)name; hooks[at_##name].len = (size_t)(name##_end - name);
    OWN(FIND_OWN)
    hooks[at_own_ret].run = run_OWN_RET;
    near_hooked = round_of(0, "near");
    far_hooked = round_of(FEDDURZAI_HOOK_FAR, "far");
    own = try_owns();
    if (near_hooked < LEAST_HOOKED || far_hooked < 0 || !own) {
        printf("FAILED: %d near, %d far, own %d\n", near_hooked, far_hooked, own);
        return 1;
    }
    printf("%lu calls before, with and after the hooks: nothing differs\n", made);
    return 0;
}

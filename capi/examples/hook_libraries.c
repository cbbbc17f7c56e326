/*
 * Whole libraries hooked at once: every function of libm, libz, liblzma, libzstd and libbz2 whose symbol has a size, in
 * copies of the files that dlopen loads. The program calls functions of each library with many arguments, compresses and
 * decompresses, before the hooks, with all of them, and after their removal. No result may differ. It does so twice: with
 * the trampolines near the libraries, and out of their reach.
 *
 * The replacement of a function whose type is unknown is a stub of two instructions: it counts the call and jumps to the
 * trampoline, and so keeps every argument.
 *
 * Linux on x86-64; compile capi/hook/feddurzai_hook.c with it, and link with `-ldl` before glibc 2.34. A library that is not
 * installed is left out. The program prints how many functions of each were hooked, by which patch, and why the others were
 * not. It fails if a result differs.
 */
#define _GNU_SOURCE
#include "feddurzai_hook.h"

#include <dlfcn.h>
#include <elf.h>
#include <fcntl.h>
#include <inttypes.h>
#include <link.h>
#include <stdio.h>
#include <stdlib.h>
#include <string.h>
#include <sys/mman.h>
#include <sys/stat.h>
#include <unistd.h>

/* a library, and what has to be called in it */
struct library {
    const char *name;
    uint64_t (*run)(void);      /* calls it, and returns a hash of all results */
    uint64_t before;            /* that hash without hooks */
    void *handle;               /* of the loaded copy */
    uint64_t base;              /* the address that its symbols count from */
    uint8_t *file;
    size_t len;
    int functions, hooked, called, by_loader;
};

/* A function and its hook. The stub counts in `calls` and jumps through `original`. */
struct hook {
    struct library *library;
    const char *name;
    uint8_t *target;
    size_t size;
    uint8_t *stub;
    uint64_t calls;
    void *original;
};

enum { MOST = 8192, STUB = 16, TEXTS = 64 };

static struct hook *hooks;
static int hook_count;
static struct library *library;     /* the one that is called */

/* ---- calls with many arguments */

static uint64_t mixed(uint64_t sum, const void *result, size_t len)
{
    const uint8_t *bytes = result;
    size_t k;
    for (k = 0; k < len; k++)
        sum = (sum ^ bytes[k]) * UINT64_C(0x100000001b3);
    return sum;
}

/* the function of a name in the library, or NULL; a conversion that POSIX allows and ISO C does not */
static void (*function_of(const char *name))(void)
{
    void *symbol = dlsym(library->handle, name);
    void (*function)(void);
    memcpy(&function, &symbol, sizeof function);
    return function;
}

/* functions of one and of two numbers, in three types each */
static const char *const of_one[] = {"acos", "acosh", "asin", "asinh", "atan", "atanh", "cbrt", "ceil", "cos", "cosh", "erf", "erfc", "exp",
    "exp10", "exp2", "expm1", "fabs", "floor", "j0", "j1", "lgamma", "log", "log10", "log1p", "log2", "logb", "nearbyint", "rint", "round",
    "roundeven", "significand", "sin", "sinh", "sqrt", "tan", "tanh", "tgamma", "trunc", "y0", "y1"};
static const char *const of_two[] = {"atan2", "copysign", "drem", "fdim", "fmax", "fmin", "fmod", "hypot", "nextafter", "pow", "remainder",
    "scalb"};
static const double numbers[] = {0.0, -0.0, 0.1, -0.3, 0.5, 1.0, -1.0, 1.5, 2.0, -2.5, 3.25, 7.0, 10.0, 100.5, -300.25, 1e-10, 1e10, 1e300};
enum { NUMBERS = sizeof numbers / sizeof *numbers, ONES = sizeof of_one / sizeof *of_one, TWOS = sizeof of_two / sizeof *of_two };

typedef double (*one)(double);
typedef float (*one_float)(float);
typedef long double (*one_long)(long double);
typedef double (*two)(double, double);
typedef float (*two_float)(float, float);
typedef long double (*two_long)(long double, long double);

/* the ten bytes of a long double that have a value */
static uint64_t mixed_long(uint64_t sum, long double x)
{
    return mixed(sum, &x, 10);
}

/* a function of one number with each of them: of the type double, float (`f`) and long double (`l`) */
static uint64_t call_of_one(uint64_t sum, const char *name)
{
    char other[TEXTS];
    one f = (one)function_of(name);
    int k;
    for (k = 0; f != NULL && k < NUMBERS; k++) {
        double x = f(numbers[k]);
        sum = mixed(sum, &x, sizeof x);
    }
    snprintf(other, sizeof other, "%sf", name);
    one_float g = (one_float)function_of(other);
    for (k = 0; g != NULL && k < NUMBERS; k++) {
        float x = g((float)numbers[k]);
        sum = mixed(sum, &x, sizeof x);
    }
    snprintf(other, sizeof other, "%sl", name);
    one_long h = (one_long)function_of(other);
    for (k = 0; h != NULL && k < NUMBERS; k++)
        sum = mixed_long(sum, h(numbers[k]));
    return sum;
}

static uint64_t call_of_two(uint64_t sum, const char *name)
{
    char other[TEXTS];
    two f = (two)function_of(name);
    int k, j;
    for (k = 0; f != NULL && k < NUMBERS * NUMBERS; k++) {
        double x = f(numbers[k / NUMBERS], numbers[k % NUMBERS]);
        sum = mixed(sum, &x, sizeof x);
    }
    snprintf(other, sizeof other, "%sf", name);
    two_float g = (two_float)function_of(other);
    for (k = 0; g != NULL && k < NUMBERS; k++)
        for (j = 0; j < NUMBERS; j++) {
            float x = g((float)numbers[k], (float)numbers[j]);
            sum = mixed(sum, &x, sizeof x);
        }
    snprintf(other, sizeof other, "%sl", name);
    two_long h = (two_long)function_of(other);
    for (k = 0; h != NULL && k < NUMBERS * NUMBERS; k++)
        sum = mixed_long(sum, h(numbers[k / NUMBERS], numbers[k % NUMBERS]));
    return sum;
}

static uint64_t run_libm(void)
{
    uint64_t sum = 0;
    int k;
    for (k = 0; k < ONES; k++)
        sum = call_of_one(sum, of_one[k]);
    for (k = 0; k < TWOS; k++)
        sum = call_of_two(sum, of_two[k]);
    return sum;
}

/* data that compresses well in part */
enum { PLAIN = 60000, PACKED = 90000 };
static uint8_t plain[PLAIN], packed[PACKED], back[PLAIN];

static void make_plain(void)
{
    int k;
    for (k = 0; k < PLAIN; k++)
        plain[k] = (uint8_t)(k < 20000 ? k / 100 : k < 40000 ? "a text that repeats itself, "[k % 28] : k * k * 7 + k / 9);
}

/* what was compressed has to be the data again; the hash is of what is between */
static uint64_t mixed_packed(uint64_t sum, uint64_t said, uint64_t len, uint64_t said_back)
{
    int same = memcmp(plain, back, PLAIN) == 0;
    sum = mixed(sum, &said, sizeof said);
    sum = mixed(sum, &said_back, sizeof said_back);
    sum = mixed(sum, &same, sizeof same);
    sum = mixed(sum, packed, len < PACKED ? (size_t)len : 0);
    memset(back, 0, sizeof back);
    return sum;
}

static uint64_t run_libz(void)
{
    unsigned long (*sums[2])(unsigned long, const uint8_t *, unsigned) = {NULL, NULL};
    int (*pack)(uint8_t *, unsigned long *, const uint8_t *, unsigned long, int), (*unpack)(uint8_t *, unsigned long *, const uint8_t *, unsigned long);
    unsigned long (*combine)(unsigned long, unsigned long, long);
    uint64_t sum = 0;
    unsigned n;
    int k;
    sums[0] = (unsigned long (*)(unsigned long, const uint8_t *, unsigned))function_of("crc32");
    sums[1] = (unsigned long (*)(unsigned long, const uint8_t *, unsigned))function_of("adler32");
    pack = (int (*)(uint8_t *, unsigned long *, const uint8_t *, unsigned long, int))function_of("compress2");
    unpack = (int (*)(uint8_t *, unsigned long *, const uint8_t *, unsigned long))function_of("uncompress");
    combine = (unsigned long (*)(unsigned long, unsigned long, long))function_of("crc32_combine");
    for (k = 0; k < 2; k++)
        for (n = 0; n < 600; n++) {
            unsigned long result = sums[k](n, plain + n, n);
            sum = mixed(sum, &result, sizeof result);
        }
    for (n = 0; n < 300; n++) {
        unsigned long result = combine(n * 77777, n * 99999, (long)n);
        sum = mixed(sum, &result, sizeof result);
    }
    for (k = 0; k < 10; k++) {
        unsigned long len = PACKED, len_back = PLAIN;
        int said = pack(packed, &len, plain, PLAIN, k);
        sum = mixed_packed(sum, (uint64_t)said, len, (uint64_t)unpack(back, &len_back, packed, len));
    }
    return sum;
}

static uint64_t run_liblzma(void)
{
    int (*pack)(uint32_t, int, const void *, const uint8_t *, size_t, uint8_t *, size_t *, size_t);
    int (*unpack)(uint64_t *, uint32_t, const void *, const uint8_t *, size_t *, size_t, uint8_t *, size_t *, size_t);
    uint64_t (*check)(const uint8_t *, size_t, uint64_t), sum = 0;
    uint32_t k;
    pack = (int (*)(uint32_t, int, const void *, const uint8_t *, size_t, uint8_t *, size_t *, size_t))function_of("lzma_easy_buffer_encode");
    unpack = (int (*)(uint64_t *, uint32_t, const void *, const uint8_t *, size_t *, size_t, uint8_t *, size_t *, size_t))function_of("lzma_stream_buffer_decode");
    check = (uint64_t (*)(const uint8_t *, size_t, uint64_t))function_of("lzma_crc64");
    for (k = 0; k < 200; k++) {
        uint64_t result = check(plain + k, k, k);
        sum = mixed(sum, &result, sizeof result);
    }
    for (k = 0; k < 4; k++) {
        uint64_t memory = UINT64_MAX;
        size_t len = 0, from = 0, to = 0;
        int said = pack(k, 4, NULL, plain, PLAIN, packed, &len, PACKED);
        sum = mixed_packed(sum, (uint64_t)said, len, (uint64_t)unpack(&memory, 0, NULL, packed, &from, len, back, &to, PLAIN));
    }
    return sum;
}

static uint64_t run_libzstd(void)
{
    size_t (*pack)(void *, size_t, const void *, size_t, int), (*unpack)(void *, size_t, const void *, size_t);
    uint64_t sum = 0;
    int k;
    pack = (size_t (*)(void *, size_t, const void *, size_t, int))function_of("ZSTD_compress");
    unpack = (size_t (*)(void *, size_t, const void *, size_t))function_of("ZSTD_decompress");
    for (k = 1; k < 20; k += 3) {
        size_t len = pack(packed, PACKED, plain, PLAIN, k);
        sum = mixed_packed(sum, len, len, unpack(back, PLAIN, packed, len));
    }
    return sum;
}

static uint64_t run_libbz2(void)
{
    int (*pack)(char *, unsigned *, char *, unsigned, int, int, int), (*unpack)(char *, unsigned *, char *, unsigned, int, int);
    uint64_t sum = 0;
    int k;
    pack = (int (*)(char *, unsigned *, char *, unsigned, int, int, int))function_of("BZ2_bzBuffToBuffCompress");
    unpack = (int (*)(char *, unsigned *, char *, unsigned, int, int))function_of("BZ2_bzBuffToBuffDecompress");
    for (k = 1; k < 10; k += 4) {
        unsigned len = PACKED, len_back = PLAIN;
        int said = pack((char *)packed, &len, (char *)plain, PLAIN, k, 0, 0);
        sum = mixed_packed(sum, (uint64_t)said, len, (uint64_t)unpack((char *)back, &len_back, (char *)packed, len, k % 2, 0));
    }
    return sum;
}

static struct library libraries[] = {
    {"libm.so.6", run_libm, 0, NULL, 0, NULL, 0, 0, 0, 0, 0},
    {"libz.so.1", run_libz, 0, NULL, 0, NULL, 0, 0, 0, 0, 0},
    {"liblzma.so.5", run_liblzma, 0, NULL, 0, NULL, 0, 0, 0, 0, 0},
    {"libzstd.so.1", run_libzstd, 0, NULL, 0, NULL, 0, 0, 0, 0, 0},
    {"libbz2.so.1.0", run_libbz2, 0, NULL, 0, NULL, 0, 0, 0, 0, 0},
};
enum { LIBRARIES = sizeof libraries / sizeof *libraries };

/* ---- copies of the libraries, and their functions */

/* reads the file of the library that the loader finds by this name. Returns 0 if there is none */
static int read_library(struct library *it)
{
    void *handle = dlopen(it->name, RTLD_LAZY | RTLD_LOCAL);
    struct link_map *map;
    struct stat about;
    int file, good;
    if (handle == NULL || dlinfo(handle, RTLD_DI_LINKMAP, &map) != 0)
        return 0;
    file = open(map->l_name, O_RDONLY | O_CLOEXEC);
    good = file >= 0 && fstat(file, &about) == 0;
    if (good) {
        it->len = (size_t)about.st_size;
        it->file = mmap(NULL, it->len, PROT_READ, MAP_PRIVATE, file, 0);
        good = it->file != MAP_FAILED;
    }
    if (file >= 0)
        close(file);
    dlclose(handle);
    return good;
}

/* loads a copy, whose calls of its own functions stay in it. Returns 0 if that fails */
static int load_copy(struct library *it)
{
    char path[] = "/tmp/feddurzai.XXXXXX";
    int file = mkstemp(path), good = file >= 0 && write(file, it->file, it->len) == (ssize_t)it->len;
    struct link_map *map;
    if (file >= 0)
        close(file);
    it->handle = good ? dlopen(path, RTLD_NOW | RTLD_LOCAL | RTLD_DEEPBIND) : NULL;
    if (file >= 0)
        unlink(path);
    if (it->handle == NULL || dlinfo(it->handle, RTLD_DI_LINKMAP, &map) != 0)
        return 0;
    it->base = map->l_addr;
    return 1;
}

/* notes a function; two symbols at one address count once */
static void note(struct library *it, const char *name, const Elf64_Sym *symbol)
{
    uint8_t *target = (uint8_t *)(uintptr_t)(it->base + symbol->st_value);
    int k;
    for (k = hook_count - 1; k >= 0 && hooks[k].library == it; k--)
        if (hooks[k].target == target)
            return;
    if (hook_count == MOST)
        return;
    hooks[hook_count].library = it;
    hooks[hook_count].name = name;
    hooks[hook_count].target = target;
    hooks[hook_count++].size = symbol->st_size;
    it->functions++;
}

/* notes each function with a size of the dynamic symbols of a file. The file is one that the loader has accepted */
static void note_functions(struct library *it)
{
    const Elf64_Ehdr *header = (const Elf64_Ehdr *)(const void *)it->file;
    const Elf64_Shdr *sections = (const Elf64_Shdr *)(const void *)(it->file + header->e_shoff);
    size_t k, j;
    for (k = 0; k < header->e_shnum; k++) {
        const Elf64_Sym *symbols = (const Elf64_Sym *)(const void *)(it->file + sections[k].sh_offset);
        if (sections[k].sh_type != SHT_DYNSYM)
            continue;
        for (j = 0; j < sections[k].sh_size / sizeof *symbols; j++) {
            int type = ELF64_ST_TYPE(symbols[j].st_info);
            if (symbols[j].st_shndx == SHN_UNDEF || symbols[j].st_size == 0)
                continue;
            it->by_loader += type == STT_GNU_IFUNC;
            if (type == STT_FUNC)
                note(it, (const char *)it->file + sections[sections[k].sh_link].sh_offset + symbols[j].st_name, &symbols[j]);
        }
    }
}

/* ---- stubs */

/* Writes the stub of a hook: it counts the call, and jumps to the trampoline. Returns 0 if it cannot. */
static int write_stub(struct hook *hook, uint8_t *stub)
{
    static const char lines[] =
        "lock inc qword [rel calls]\n"
        "jmp qword [rel original]";
    char names[TEXTS];
    feddurzai_routine_report report;
    int len = snprintf(names, sizeof names, "calls = 0x%" PRIxPTR "\noriginal = 0x%" PRIxPTR, (uintptr_t)&hook->calls,
        (uintptr_t)&hook->original);
    hook->stub = stub;
    return feddurzai_assemble_code(64, (uintptr_t)stub, lines, sizeof lines - 1, names, (size_t)len, stub, STUB, NULL, 0, &report) == 0;
}

/* makes a stub for each hook. The stubs follow the hooks' table, out of reach of the libraries */
static int make_stubs(void)
{
    size_t table = (sizeof *hooks * MOST + 4095) / 4096 * 4096, code = (size_t)MOST * STUB;
    uint8_t *pages = mmap((void *)(uintptr_t)0x100000000000, table + code, PROT_READ | PROT_WRITE, MAP_PRIVATE | MAP_ANONYMOUS, -1, 0);
    int k;
    if (pages == MAP_FAILED)
        return 0;
    hooks = (struct hook *)(void *)pages;
    memset(pages + table, 0xcc, code);
    for (k = 0; k < MOST; k++)
        if (!write_stub(&hooks[k], pages + table + (size_t)k * STUB))
            return 0;
    return mprotect(pages + table, code, PROT_READ | PROT_EXEC) == 0;
}

/* ---- a round: all functions hooked at once */

/* the refusals of a round, by their cause */
static struct { int32_t said; int count; } refused[64];

static void count_refusal(int32_t said)
{
    int k;
    for (k = 0; refused[k].count != 0 && refused[k].said != said; k++)
        ;
    refused[k].said = said;
    refused[k].count++;
}

/* calls each library. Returns how many give another hash than before the hooks */
static int differences(const char *when)
{
    int k, differ = 0;
    for (k = 0; k < LIBRARIES; k++) {
        library = &libraries[k];
        if (library->handle != NULL && library->run() != library->before) {
            printf("%s: the results DIFFER %s\n", library->name, when);
            differ++;
        }
    }
    return differ;
}

/* hooks all functions, compares the calls, and removes the hooks. Returns 0 if that fails or a result differs */
static int round_of(uint32_t flags, const char *title)
{
    feddurzai_hook_parts parts;
    feddurzai_hook_options options = {0, flags | FEDDURZAI_HOOK_DISABLED, &parts};
    int k, forms[4] = {0}, hooked = 0, called = 0;
    uint64_t calls = 0;
    int32_t said;
    memset(refused, 0, sizeof refused);
    for (k = 0; k < LIBRARIES; k++)
        libraries[k].hooked = libraries[k].called = 0;
    for (k = 0; k < hook_count; k++) {
        hooks[k].calls = 0;
        options.size = hooks[k].size;
        said = feddurzai_hook_install_with(hooks[k].target, hooks[k].stub, &hooks[k].original, &options);
        if (said < 0)
            count_refusal(said);
        else {
            forms[parts.detour.form]++;
            hooks[k].library->hooked++;
            hooked++;
        }
    }
    if (differences("with hooks that are not enabled") > 0)
        return 0;
    said = feddurzai_hook_enable(FEDDURZAI_HOOK_ALL);
    if (said < 0) {
        printf("cannot enable the hooks: %s\n", feddurzai_hook_error_text(said));
        return 0;
    }
    if (differences("with the hooks") > 0)
        return 0;
    for (k = 0; k < hook_count; k++) {
        calls += hooks[k].calls;
        called += hooks[k].calls > 0;
        hooks[k].library->called += hooks[k].calls > 0;
    }
    said = feddurzai_hook_remove(FEDDURZAI_HOOK_ALL);
    if (said < 0) {
        printf("cannot remove the hooks: %s\n", feddurzai_hook_error_text(said));
        return 0;
    }
    printf("%s: %d functions hooked at once: by a near jump %d, by a relay %d, by 14 bytes %d; %d of them called %" PRIu64 " times\n", title,
        hooked, forms[FEDDURZAI_DETOUR_NEAR], forms[FEDDURZAI_DETOUR_RELAY], forms[FEDDURZAI_DETOUR_ABSOLUTE], called, calls);
    for (k = 0; k < LIBRARIES; k++)
        if (libraries[k].handle != NULL)
            printf("    %s: %d of %d hooked, %d called\n", libraries[k].name, libraries[k].hooked, libraries[k].functions, libraries[k].called);
    for (k = 0; refused[k].count != 0; k++)
        printf("    not hooked %d: %s\n", refused[k].count, feddurzai_hook_error_text(refused[k].said));
    return differences("after the hooks were removed") == 0 && hooked > 0 && called > 0;
}

int main(void)
{
    int k, loaded = 0, near_round, far_round;
    if (!make_stubs()) {
        printf("cannot make the stubs\n");
        return 1;
    }
    make_plain();
    for (k = 0; k < LIBRARIES; k++) {
        library = &libraries[k];
        if (!read_library(library) || !load_copy(library)) {
            printf("%s is left out: it is not installed, or no copy of it can be loaded\n", library->name);
            library->handle = NULL;
            continue;
        }
        note_functions(library);
        library->before = library->run();
        loaded++;
    }
    near_round = round_of(0, "near");
    far_round = round_of(FEDDURZAI_HOOK_FAR, "far");
    if (loaded == 0 || !near_round || !far_round) {
        printf("FAILED\n");
        return 1;
    }
    printf("%d functions of %d libraries; calls before, with and after the hooks: nothing differs\n", hook_count, loaded);
    return 0;
}

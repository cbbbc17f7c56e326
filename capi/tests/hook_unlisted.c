// Hooks functions with instructions that the opcode table leaves out, by feddurzai_detour_unlisted: glibc's own strlen, memset and strchr, which use EVEX
// on a processor with AVX-512, and three functions of this file. Each is called with many arguments before, with and after the hook. Then all that control
// reaches of it is moved to another page by feddurzai_move_unlisted, and the copy is called with the same arguments. Linux on x86-64.
//
// The hooks are written while no other thread runs. The last line says how many functions were hooked, and how many of them have an instruction without a
// row among the overwritten bytes or the reached ones.
#define _GNU_SOURCE
#include <dlfcn.h>
#include <fcntl.h>
#include <link.h>
#include <stdio.h>
#include <stdlib.h>
#include <string.h>
#include <sys/mman.h>
#include <unistd.h>

#include "feddurzai.h"

#define MOST 4096

static void die(const char *why)
{
    fprintf(stderr, "hook_unlisted: %s\n", why);
    exit(1);
}

// how often a replacement was called
static unsigned long calls;
static size_t (*old_strlen)(const char *);
static void *(*old_memset)(void *, int, size_t);
static char *(*old_strchr)(const char *, int);
static unsigned long (*old_sum)(const unsigned long *, unsigned long);

static size_t new_strlen(const char *s) { calls++; return old_strlen(s); }
static void *new_memset(void *to, int byte, size_t size) { calls++; return old_memset(to, byte, size); }
static char *new_strchr(const char *s, int c) { calls++; return old_strchr(s, c); }
static unsigned long new_sum(const unsigned long *from, unsigned long count) { calls++; return old_sum(from, count); }

// Functions with vpxord, of which the first reads memory at RIP, the second loops behind its first bytes, and the third loops into them: the function
// of the report, which must be refused.
__asm__(
    ".text\n"
    "near_sum:\n"
    "    vpxord nothing(%rip), %zmm0, %zmm1\n"
    "    xor %eax, %eax\n"
    "1:  test %rsi, %rsi\n"
    "    je 2f\n"
    "    add (%rdi), %rax\n"
    "    add $8, %rdi\n"
    "    dec %rsi\n"
    "    jmp 1b\n"
    "2:  ret\n"
    "near_sum_end:\n"
    "loop_sum:\n"
    "    xor %eax, %eax\n"
    "    test %rsi, %rsi\n"
    "    je 2f\n"
    "1:  vpxord %zmm1, %zmm1, %zmm1\n"
    "    add (%rdi), %rax\n"
    "    add $8, %rdi\n"
    "    dec %rsi\n"
    "    jne 1b\n"
    "2:  ret\n"
    "loop_sum_end:\n"
    "bad_sum:\n"
    "    xor %eax, %eax\n"
    "1:  add (%rdi), %rax\n"
    "    vpxord %zmm1, %zmm1, %zmm1\n"
    "    add $8, %rdi\n"
    "    dec %rsi\n"
    "    jne 1b\n"
    "    ret\n"
    "bad_sum_end:\n"
    ".section .rodata\n"
    ".balign 64\n"
    "nothing: .zero 64\n"
    ".text\n");
extern unsigned long near_sum(const unsigned long *, unsigned long), loop_sum(const unsigned long *, unsigned long),
    bad_sum(const unsigned long *, unsigned long);
extern const uint8_t near_sum_end[], loop_sum_end[], bad_sum_end[];

// ---- writing

static int memory = -1;

static void write_code(uint64_t at, const uint8_t *bytes, size_t len)
{
    if (pwrite(memory, bytes, len, (off_t)at) != (ssize_t)len)
        die("/proc/self/mem cannot be written");
}

// a page within 2 GiB of an address
static uint8_t *page_near(uint64_t at)
{
    for (uint64_t far = 1 << 20; far < 0x70000000; far += 1 << 20)
        for (int side = 0; side < 2; side++) {
            void *want = (void *)((side ? at + far : at - far) & ~4095ull);
            void *got = mmap(want, 4096, PROT_READ | PROT_EXEC, MAP_PRIVATE | MAP_ANONYMOUS | MAP_FIXED_NOREPLACE, -1, 0);
            if (got == want)
                return got;
            if (got != MAP_FAILED)
                munmap(got, 4096);
        }
    die("no free page near a function");
    return NULL;
}

// how many bytes there are from an address to the end of its segment, at most MOST
struct span {
    uint64_t at, end;
};

static int finds_segment(struct dl_phdr_info *info, size_t size, void *data)
{
    struct span *span = data;
    (void)size;
    for (int i = 0; i < info->dlpi_phnum; i++) {
        uint64_t from = info->dlpi_addr + info->dlpi_phdr[i].p_vaddr, to = from + info->dlpi_phdr[i].p_memsz;
        if (info->dlpi_phdr[i].p_type == PT_LOAD && from <= span->at && span->at < to)
            span->end = to;
    }
    return 0;
}

// ---- one hook

struct hook {
    uint64_t at;
    uint8_t old[FEDDURZAI_MAX_PATCH], patch[FEDDURZAI_MAX_PATCH], trampoline[512];
    size_t taken;
    int has_unlisted;
};

// whether control reaches an instruction without a row
static int reaches_unlisted(uint64_t at, const uint8_t *code, size_t len)
{
    static uint32_t starts[MOST], leaders[MOST], more[MOST];
    static uint8_t kinds[MOST];
    static const uint32_t first[] = {0};
    int32_t some = feddurzai_flow_from(64, at, code, len, first, 1, starts, MOST, leaders, MOST, kinds, MOST);
    int32_t all = feddurzai_flow_unlisted(64, at, code, len, first, 1, more, MOST, leaders, MOST, kinds, MOST);
    if (some < 0 || all < 0)
        die("no flow graph");
    return all > some;
}

static int32_t make(struct hook *hook, uint64_t at, const uint8_t *code, size_t len, uint64_t to, uint8_t *place, feddurzai_detour_report *report)
{
    int32_t said = feddurzai_detour_unlisted(64, at, code, len, to, (uint64_t)place, FEDDURZAI_START_MOVED, hook->patch, sizeof hook->patch,
        hook->trampoline, sizeof hook->trampoline, report);
    if (said < 0)
        return said;
    hook->at = at;
    hook->taken = report->taken;
    memcpy(hook->old, code, hook->taken);
    hook->has_unlisted = reaches_unlisted(at, code, len);
    write_code((uint64_t)place, hook->trampoline, report->bytes);
    return 0;
}

static unsigned hooked, unlisted;

// ---- one moved function

// the end of the last instruction that control reaches
static size_t reached_end(uint64_t at, const uint8_t *code, size_t len)
{
    static uint32_t starts[MOST], leaders[MOST];
    static uint8_t kinds[MOST];
    static const uint32_t first[] = {0};
    int32_t count = feddurzai_flow_unlisted(64, at, code, len, first, 1, starts, MOST, leaders, MOST, kinds, MOST);
    if (count <= 0)
        die("no flow graph");
    size_t last = starts[count - 1];
    feddurzai_instr instr;
    feddurzai_shape shape;
    int32_t size = feddurzai_decode(64, at + last, code + last, len - last, &instr);
    if (size < 0 && (size = feddurzai_measure(64, code + last, len - last, &shape)) < 0)
        die("no last instruction");
    return last + (size_t)size;
}

// moves a function to a page of its own, and tries the copy in its place
static void tries_copy(const char *name, uint64_t at, const uint8_t *code, size_t len, void *volatile *called, void (*trial)(void))
{
    static uint8_t bytes[MOST];
    static feddurzai_moved map[MOST];
    feddurzai_move_report report;
    uint8_t *place = page_near(at);
    size_t size = reached_end(at, code, len);
    int32_t said = feddurzai_move_unlisted(64, at, code, size, (uint64_t)place, bytes, sizeof bytes, map, MOST, &report);
    if (said < 0) {
        fprintf(stderr, "hook_unlisted: %s: %d at %llu of %zu\n", name, said, (unsigned long long)report.at, size);
        exit(1);
    }
    write_code((uint64_t)place, bytes, report.bytes);
    void *old = *called;
    *called = place;
    trial();
    *called = old;
    printf("%s: %zu bytes moved to %llu, %llu instructions\n", name, size, (unsigned long long)report.bytes, (unsigned long long)report.count);
}

// hooks a function of the C library, or of this file up to an end, and tries it before, with and after the hook
static void tries(const char *name, void *function, const uint8_t *end, void *to, void **original, void *volatile *called, void (*trial)(void))
{
    uint64_t at = (uint64_t)function;
    struct span span = {at, at};
    if (end)
        span.end = (uint64_t)end;
    else
        dl_iterate_phdr(finds_segment, &span);
    size_t len = span.end - at < MOST ? span.end - at : MOST;
    static uint8_t code[MOST];
    memcpy(code, function, len);
    static struct hook hook;
    feddurzai_detour_report report;
    uint8_t *place = page_near(at);
    trial();
    int32_t said = make(&hook, at, code, len, (uint64_t)to, place, &report);
    if (said < 0) {
        fprintf(stderr, "hook_unlisted: %s: %d at %llu, %llu\n", name, said, (unsigned long long)report.at, (unsigned long long)report.target);
        exit(1);
    }
    *original = (void *)place;
    calls = 0;
    write_code(at, hook.patch, hook.taken);
    trial();
    unsigned long met = calls;
    write_code(at, hook.old, hook.taken);
    trial();
    if (met == 0 || calls != met)
        die("a replacement was not called, or called after the hook");
    hooked++;
    unlisted += hook.has_unlisted;
    printf("%s: %zu bytes, a trampoline of %llu, %lu calls%s\n", name, hook.taken, (unsigned long long)report.bytes, met,
        hook.has_unlisted ? ", instructions without a row" : "");
    tries_copy(name, at, code, len, called, trial);
}

// ---- what the functions must do

static char text[8192];
static void *(*volatile call_memset)(void *, int, size_t) = memset;
static size_t (*volatile call_strlen)(const char *) = strlen;
static char *(*volatile call_strchr)(const char *, int) = strchr;

static void fill(size_t from, size_t len)
{
    for (size_t i = 0; i < len; i++)
        text[from + i] = (char)(1 + i % 127);
    text[from + len] = 0;
}

static void tries_strlen(void)
{
    for (size_t from = 0; from < 70; from++)
        for (size_t len = 0; len < 2100; len += len < 300 ? 1 : 97) {
            fill(from, len);
            if (call_strlen(text + from) != len)
                die("strlen");
        }
}

static void tries_strchr(void)
{
    for (size_t from = 0; from < 70; from += 3)
        for (size_t len = 0; len < 1200; len += len < 200 ? 1 : 61) {
            fill(from, len);
            for (int c = 0; c < 128; c += 9) {
                char *want = NULL;
                for (size_t i = 0; i <= len && !want; i++)
                    if (text[from + i] == c)
                        want = text + from + i;
                if (call_strchr(text + from, c) != want)
                    die("strchr");
            }
        }
}

static void tries_memset(void)
{
    for (size_t from = 1; from < 70; from += 2)
        for (size_t len = 0; len < 4000; len += len < 300 ? 1 : 119) {
            for (size_t i = 0; i < from + len + 64; i++)
                text[i] = 7;
            if (call_memset(text + from, (int)(len & 255), len) != text + from)
                die("memset's result");
            for (size_t i = 0; i < from + len + 64; i++)
                if (text[i] != (i >= from && i < from + len ? (char)(len & 255) : 7))
                    die("memset");
        }
}

static unsigned long (*volatile call_sum)(const unsigned long *, unsigned long);

static void tries_sum(void)
{
    static const unsigned long numbers[] = {3, 1, 4, 1, 5, 9, 2, 6, 5, 35};
    unsigned long want = 0;
    for (unsigned long count = 1; count <= 10; count++) {
        want += numbers[count - 1];
        if (call_sum(numbers, count) != want)
            die("a sum");
    }
}

int main(void)
{
    if (!__builtin_cpu_supports("avx512f")) {
        puts("no AVX-512: nothing tried");
        return 0;
    }
    memory = open("/proc/self/mem", O_RDWR);
    if (memory < 0)
        die("no /proc/self/mem");
    setvbuf(stdout, NULL, _IONBF, 0);
    call_sum = near_sum;
    tries("near_sum", (void *)(uintptr_t)near_sum, near_sum_end, (void *)(uintptr_t)new_sum, (void **)&old_sum, (void *volatile *)&call_sum, tries_sum);
    call_sum = loop_sum;
    tries("loop_sum", (void *)(uintptr_t)loop_sum, loop_sum_end, (void *)(uintptr_t)new_sum, (void **)&old_sum, (void *volatile *)&call_sum, tries_sum);

    static struct hook hook;
    feddurzai_detour_report report;
    size_t len = (size_t)(bad_sum_end - (const uint8_t *)(uintptr_t)bad_sum);
    int32_t said = make(&hook, (uint64_t)bad_sum, (const uint8_t *)(uintptr_t)bad_sum, len, (uint64_t)new_sum, page_near((uint64_t)bad_sum), &report);
    if (said != FEDDURZAI_ENTERED || report.target != 2)
        die("the function of the report is not refused");
    unsigned long long from = report.at;
    said = feddurzai_detour(64, (uint64_t)bad_sum, (const uint8_t *)(uintptr_t)bad_sum, len, (uint64_t)new_sum, (uint64_t)bad_sum + 0x10000, 0, hook.patch,
        sizeof hook.patch, hook.trampoline, sizeof hook.trampoline, &report);
    printf("bad_sum: refused, entered from offset %llu; feddurzai_detour says %d\n", from, said);

    tries("strlen", dlsym(RTLD_DEFAULT, "strlen"), NULL, (void *)(uintptr_t)new_strlen, (void **)&old_strlen, (void *volatile *)&call_strlen, tries_strlen);
    tries("strchr", dlsym(RTLD_DEFAULT, "strchr"), NULL, (void *)(uintptr_t)new_strchr, (void **)&old_strchr, (void *volatile *)&call_strchr, tries_strchr);
    tries("memset", dlsym(RTLD_DEFAULT, "memset"), NULL, (void *)(uintptr_t)new_memset, (void **)&old_memset, (void *volatile *)&call_memset, tries_memset);
    printf("%u functions hooked, %u with instructions without a row\n", hooked, unlisted);
    return 0;
}

// Compares what an instruction does on the processor with what feddurzai_effects says.
//
//   effects STEPS PROGRAM ARGUMENT..
//
// PROGRAM is run step by step, at most STEPS of them, 64-bit or 32-bit. Around each instruction of the table that makes no system call the registers are
// compared: general, segment, vector and x87 registers, and flags. So is memory, from 64 bytes in front of each place that the instruction accesses to 64 bytes
// after it, and around the stack pointer. What changed must be listed as written, or as undefined for a flag; a flag that is listed as cleared or set
// must be so. Each kind of difference is printed once, by the name of its row. The status is 1 if there is one.
//
// Another thread or the kernel may write memory too: set GLIBC_TUNABLES=glibc.pthread.rseq=0, since the kernel writes the area of restartable sequences.
#define _GNU_SOURCE
#include <elf.h>
#include <signal.h>
#include <stdint.h>
#include <stdio.h>
#include <stdlib.h>
#include <string.h>
#include <sys/personality.h>
#include <sys/ptrace.h>
#include <sys/uio.h>
#include <sys/user.h>
#include <sys/wait.h>
#include <unistd.h>
#include "feddurzai.h"

enum { AROUND = 64, BELOW = 512, ABOVE = 128, WINDOWS = FEDDURZAI_MAX_MEMORY_USES + 1, LONGEST = 1024, KINDS = 512, XSTATE = 4096, AVX_AT = 576 };

struct state {
    struct user_regs_struct regs;
    uint8_t x[XSTATE];
};

struct window {
    uint64_t at;
    size_t len;
    uint8_t bytes[LONGEST];
};

static pid_t child;
static struct { char name[160]; long count; uint64_t rip; } kinds[KINDS];
static int kind_count;

static void read_state(struct state *state)
{
    struct iovec room = { state->x, sizeof state->x };
    if (ptrace(PTRACE_GETREGS, child, 0, &state->regs) || ptrace(PTRACE_GETREGSET, child, (void *)NT_X86_XSTATE, &room)) {
        perror("registers");
        exit(2);
    }
}

static size_t read_memory(uint64_t at, void *to, size_t len)
{
    struct iovec here = { to, len }, there = { (void *)(uintptr_t)at, len };
    ssize_t got = process_vm_readv(child, &here, 1, &there, 1, 0);
    return got < 0 ? 0 : (size_t)got;
}

static uint64_t general(const struct user_regs_struct *r, unsigned number)
{
    const unsigned long long values[16] = { r->rax, r->rcx, r->rdx, r->rbx, r->rsp, r->rbp, r->rsi, r->rdi, r->r8, r->r9, r->r10, r->r11, r->r12, r->r13, r->r14, r->r15 };
    return values[number & 15];
}

static uint64_t value_of(const struct user_regs_struct *r, uint8_t class, uint8_t number)
{
    switch (class) {
    case FEDDURZAI_LOW8: return general(r, number) & 0xff;
    case FEDDURZAI_R16: return general(r, number) & 0xffff;
    case FEDDURZAI_R32: return general(r, number) & 0xffffffff;
    case FEDDURZAI_R64: return general(r, number);
    default: return 0;
    }
}

static void differs(const char *what, const feddurzai_instr *instr, uint64_t rip)
{
    char row[100] = "?", name[sizeof kinds[0].name];
    feddurzai_text(64, FEDDURZAI_INTEL, instr, row, sizeof row);
    row[strcspn(row, " ")] = 0;
    snprintf(name, sizeof name, "%s: %s", row, what);
    for (int n = 0; n < kind_count; n++)
        if (!strcmp(kinds[n].name, name)) {
            kinds[n].count++;
            return;
        }
    if (kind_count == KINDS)
        return;
    snprintf(kinds[kind_count].name, sizeof kinds[0].name, "%s", name);
    kinds[kind_count].count = 1;
    kinds[kind_count++].rip = rip;
}

// The address of a use of memory: gathers have an index of their own for each element, and 0 here.
static uint64_t address_of(const struct user_regs_struct *r, const feddurzai_memory_use *use, int bits)
{
    if (use->index_class == FEDDURZAI_XMM || use->index_class == FEDDURZAI_YMM)
        return 0;
    uint64_t at = use->displacement;
    if (use->base_class != FEDDURZAI_RIP && use->base_class != FEDDURZAI_EIP)
        at += value_of(r, use->base_class, use->base_number);
    at += value_of(r, use->index_class, use->index_number) * use->scale;
    if (bits == 32 || use->base_class == FEDDURZAI_R32 || use->index_class == FEDDURZAI_R32)
        at &= 0xffffffff;
    if (use->segment == FEDDURZAI_FS)
        at += r->fs_base;
    if (use->segment == FEDDURZAI_GS)
        at += r->gs_base;
    return bits == 32 ? at & 0xffffffff : at;
}

// Whether the report lists a register as written, or perhaps written.
static int is_written(const feddurzai_touched *touched, int first, int last, unsigned number)
{
    for (int n = 0; n < touched->register_count; n++) {
        const feddurzai_use *use = &touched->registers[n];
        if (use->reg_class >= first && use->reg_class <= last && use->access & (FEDDURZAI_WRITE | FEDDURZAI_MAY_WRITE)
            && (use->reg_class == FEDDURZAI_HIGH8 ? (use->reg_number & 3u) == number : use->reg_number == number))
            return 1;
    }
    return 0;
}

static void compare_registers(const struct state *a, const struct state *b, const feddurzai_touched *touched, const feddurzai_instr *instr)
{
    static const char *const names[16] = { "rax", "rcx", "rdx", "rbx", "rsp", "rbp", "rsi", "rdi", "r8", "r9", "r10", "r11", "r12", "r13", "r14", "r15" };
    char what[64];
    for (unsigned n = 0; n < 16; n++)
        if (general(&a->regs, n) != general(&b->regs, n) && !is_written(touched, FEDDURZAI_LOW8, FEDDURZAI_R64, n)) {
            snprintf(what, sizeof what, "%s changed", names[n]);
            differs(what, instr, a->regs.rip);
        }
    const unsigned long long segments[2][6] = { { a->regs.es, a->regs.cs, a->regs.ss, a->regs.ds, a->regs.fs, a->regs.gs },
        { b->regs.es, b->regs.cs, b->regs.ss, b->regs.ds, b->regs.fs, b->regs.gs } };
    for (unsigned n = 0; n < 6; n++)
        if (segments[0][n] != segments[1][n] && !is_written(touched, FEDDURZAI_SEG, FEDDURZAI_SEG, n))
            differs("a segment register changed", instr, a->regs.rip);
    for (unsigned n = 0; n < 16; n++)
        if ((memcmp(a->x + 160 + 16 * n, b->x + 160 + 16 * n, 16) || memcmp(a->x + AVX_AT + 16 * n, b->x + AVX_AT + 16 * n, 16))
            && !is_written(touched, FEDDURZAI_XMM, FEDDURZAI_YMM, n)) {
            snprintf(what, sizeof what, "xmm%u or its upper half changed", n);
            differs(what, instr, a->regs.rip);
        }
    int stack = 0;
    for (unsigned n = 0; n < 8; n++)
        stack |= is_written(touched, FEDDURZAI_ST, FEDDURZAI_MM, n);
    if (!stack && memcmp(a->x + 32, b->x + 32, 128))
        differs("an x87 or MMX register changed", instr, a->regs.rip);
    // the flags that a program has, without TF, which steps
    const uint32_t all = 0xcd5 | FEDDURZAI_FLAG_AC | FEDDURZAI_FLAG_ID;
    uint32_t before = (uint32_t)a->regs.eflags & all, after = (uint32_t)b->regs.eflags & all, changed = before ^ after;
    if (changed & ~(touched->flags_written | touched->flags_undefined)) {
        snprintf(what, sizeof what, "flags %x changed", changed & ~(touched->flags_written | touched->flags_undefined));
        differs(what, instr, a->regs.rip);
    }
    if (touched->flags_cleared & ~touched->flags_kept & after)
        differs("a flag that is listed as cleared is set", instr, a->regs.rip);
    if (touched->flags_set & ~touched->flags_kept & all & ~after)
        differs("a flag that is listed as set is clear", instr, a->regs.rip);
}

static void compare_memory(const struct window *windows, int count, const struct state *a, const feddurzai_touched *touched, const feddurzai_instr *instr, int bits)
{
    static uint8_t now[LONGEST];
    for (int w = 0; w < count; w++) {
        size_t len = read_memory(windows[w].at, now, windows[w].len);
        for (size_t k = 0; k < len; k++) {
            if (now[k] == windows[w].bytes[k])
                continue;
            uint64_t at = windows[w].at + k;
            int listed = 0;
            for (int n = 0; n < touched->memory_count; n++) {
                const feddurzai_memory_use *use = &touched->memory[n];
                uint64_t from = address_of(&a->regs, use, bits);
                // POP to memory at the stack pointer counts from the incremented one
                uint64_t size = use->size ? use->size : LONGEST;
                if (use->access & (FEDDURZAI_WRITE | FEDDURZAI_MAY_WRITE) && (at - from < size || (use->base_number == FEDDURZAI_SP && at - from < size + 8)))
                    listed = 1;
            }
            if (!listed) {
                differs("memory changed that is not listed", instr, a->regs.rip);
                break;
            }
        }
    }
}

int main(int argc, char **argv)
{
    if (argc < 3) {
        fputs("usage: effects STEPS PROGRAM ARGUMENT..\n", stderr);
        return 2;
    }
    long most = atol(argv[1]), steps = 0, compared = 0, measured = 0, calls = 0;
    child = fork();
    if (child == 0) {
        personality(ADDR_NO_RANDOMIZE);
        ptrace(PTRACE_TRACEME, 0, 0, 0);
        execvp(argv[2], argv + 2);
        _exit(127);
    }
    int status;
    waitpid(child, &status, 0);
    static struct state states[2];
    static struct window windows[WINDOWS];
    struct state *a = &states[0], *b = &states[1];
    if (!WIFSTOPPED(status)) {
        fprintf(stderr, "effects: %s does not run\n", argv[2]);
        return 2;
    }
    read_state(a);
    while (steps < most) {
        int bits = a->regs.cs == 0x23 ? 32 : 64;
        uint8_t code[15];
        feddurzai_instr instr;
        feddurzai_touched touched;
        feddurzai_about about;
        size_t len = read_memory(a->regs.rip, code, sizeof code);
        int32_t size = len ? feddurzai_decode((uint32_t)bits, a->regs.rip, code, len, &instr) : 0;
        int looked = size > 0 && feddurzai_effects((uint32_t)bits, &instr, &touched) == 0 && feddurzai_info(&instr, &about) == 0;
        // a system call changes what the kernel likes
        int is_call = size > 0 && ((code[0] == 0x0f && (code[1] == 0x05 || code[1] == 0x34)) || code[0] == 0xcd);
        int count = 0;
        if (looked && !is_call) {
            windows[count].at = a->regs.rsp - BELOW;
            windows[count].len = read_memory(windows[count].at, windows[count].bytes, BELOW + ABOVE);
            count++;
            for (int n = 0; n < touched.memory_count; n++) {
                uint64_t at = address_of(&a->regs, &touched.memory[n], bits);
                if (at == 0)
                    continue;
                windows[count].at = at - AROUND;
                windows[count].len = read_memory(at - AROUND, windows[count].bytes, 2 * AROUND + (touched.memory[n].size < 512 ? touched.memory[n].size : 512));
                count += windows[count].len > 0;
            }
        }
        int signal = 0;
        if (WSTOPSIG(status) != SIGTRAP && WSTOPSIG(status) != SIGSTOP)
            signal = WSTOPSIG(status);
        if (ptrace(PTRACE_SINGLESTEP, child, 0, signal) || waitpid(child, &status, 0) != child || !WIFSTOPPED(status))
            break;
        steps++;
        read_state(b);
        if (is_call)
            calls++;
        else if (!looked)
            measured++;
        else if (!signal && WSTOPSIG(status) == SIGTRAP) {
            compared++;
            compare_registers(a, b, &touched, &instr);
            compare_memory(windows, count, a, &touched, &instr, bits);
        }
        struct state *old = a;
        a = b;
        b = old;
    }
    kill(child, SIGKILL);
    for (int n = 0; n < kind_count; n++)
        printf("%s: %ld, first at %llx\n", kinds[n].name, kinds[n].count, (unsigned long long)kinds[n].rip);
    printf("%ld steps: %ld compared, %ld system calls, %ld without a row; %d kinds of difference\n", steps, compared, calls, measured, kind_count);
    return kind_count > 0;
}

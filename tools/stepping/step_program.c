// Runs a 64-bit program, and executes each of its instructions out of line: in a slot of its own, whose code feddurzai_step makes, or
// feddurzai_step_unlisted where the opcode table has no instruction. Linux on x86-64; one process and one thread.
//
//     cc -O2 -o step_program tools/stepping/step_program.c -I capi FOLDER/libfeddurzai.a
//     step_program [-r] [-n MOST] PROGRAM ARGUMENT..
//
// No byte of the program's code is changed, but its code is not executable: the tool takes that permission from what is mapped at the start, and from
// what the program maps later, such as libraries that it opens. So control comes to no instruction without a fault, at which the tool goes on in the
// instruction's slot. The slot ends with a jump back to the next instruction, which is the next fault: one fault for each instruction. Code that replaces
// other code at the same address, as when a library is closed and another opened, is stepped too, but not code that changes while it may be executed. The
// vDSO is hidden from the program, which makes system calls instead.
//
// -r makes calls by feddurzai_step_call: the program finds its own return addresses on the stack, and not those of slots.
// -n ends the program after so many instructions.
//
// The program prints what it prints. Then the tool prints on standard error how many instructions were executed, at how many addresses, how many of both
// have no row, and which could not be stepped. Those run at their own addresses. It ends with the program's status, or with 125 if there were such.
#define _GNU_SOURCE
#include "feddurzai.h"

#include <elf.h>
#include <errno.h>
#include <inttypes.h>
#include <sched.h>
#include <signal.h>
#include <stddef.h>
#include <stdio.h>
#include <stdlib.h>
#include <string.h>
#include <sys/mman.h>
#include <sys/ptrace.h>
#include <sys/syscall.h>
#include <sys/uio.h>
#include <sys/user.h>
#include <sys/wait.h>
#include <time.h>
#include <unistd.h>

enum { PAGE = 4096, SLOT = 64, POOL = 1 << 20, MOST_POOLS = 256, MOST_RANGES = 1024, BUCKETS = 1 << 20, MOST_REFUSED = 16, FAILED = 125 };

// Some of the program's address space.
struct range {
    uint64_t from, to;
};

// The slots near some code.
struct pool {
    uint64_t base, used;
};

// An address of the program, and its slot: 0 if it cannot be stepped.
struct stop {
    uint64_t ip, place;
    struct stop *next;
    uint8_t bytes[FEDDURZAI_MAX_LEN];
    uint8_t listed, is_syscall;
};

// A system call that changes the address space: its number, UINT64_MAX without one, its arguments, and the address of its SYSCALL in a slot. If it asks for
// executable memory (`runs`), it gets RDX without PROT_EXEC.
struct mapping {
    uint64_t number, from, len, rdx, place;
    int runs;
};

static pid_t child;
static struct pool pools[MOST_POOLS];
static size_t pool_count;
// what the program may execute, if it is asked
static struct range ranges[MOST_RANGES];
static size_t range_count;
static struct stop *buckets[BUCKETS];
// a SYSCALL instruction for the tool's own calls
static uint64_t syscall_at;
static int own_returns;
static uint64_t most = UINT64_MAX;
static uint64_t executed, executed_unlisted, addresses, addresses_unlisted, refused_runs, refused_count, forgotten;
static struct timespec started;

static void tell(void)
{
    struct timespec now;
    clock_gettime(CLOCK_MONOTONIC, &now);
    double seconds = (double)(now.tv_sec - started.tv_sec) + (double)(now.tv_nsec - started.tv_nsec) / 1e9;
    fprintf(stderr, "%" PRIu64 " instructions executed at %" PRIu64 " addresses; without a row: %" PRIu64 " at %" PRIu64 "; at their own address: %" PRIu64
        " at %" PRIu64 "; %" PRIu64 " addresses were given up with their code; %zu pools of slots; %.1f seconds\n", executed, addresses, executed_unlisted, addresses_unlisted,
        refused_runs, refused_count, forgotten, pool_count, seconds);
}

static void die(const char *what)
{
    if (errno != 0)
        perror(what);
    else
        fprintf(stderr, "%s\n", what);
    tell();
    kill(child, SIGKILL);
    exit(FAILED);
}

static void read_registers(struct user_regs_struct *registers)
{
    if (ptrace(PTRACE_GETREGS, child, 0, registers) != 0)
        die("PTRACE_GETREGS");
}

static void write_registers(const struct user_regs_struct *registers)
{
    if (ptrace(PTRACE_SETREGS, child, 0, registers) != 0)
        die("PTRACE_SETREGS");
}

static uint64_t read_rip(void)
{
    errno = 0;
    long rip = ptrace(PTRACE_PEEKUSER, child, (void *)offsetof(struct user_regs_struct, rip), 0);
    if (errno != 0)
        die("PTRACE_PEEKUSER");
    return (uint64_t)rip;
}

static void write_rip(uint64_t rip)
{
    if (ptrace(PTRACE_POKEUSER, child, (void *)offsetof(struct user_regs_struct, rip), (void *)(uintptr_t)rip) != 0)
        die("PTRACE_POKEUSER");
}

static size_t read_bytes(uint64_t from, void *to, size_t count)
{
    struct iovec here = {to, count}, there = {(void *)(uintptr_t)from, count};
    ssize_t got = process_vm_readv(child, &here, 1, &there, 1, 0);
    return got < 0 ? 0 : (size_t)got;
}

static void write_bytes(uint64_t to, const void *from, size_t count)
{
    struct iovec here = {(void *)(uintptr_t)from, count}, there = {(void *)(uintptr_t)to, count};
    if (process_vm_writev(child, &here, 1, &there, 1, 0) != (ssize_t)count)
        die("process_vm_writev");
}

// Waits for the next stop of the program. Returns its signal, or ends with the program.
static int wait_for_stop(void)
{
    int status;
    if (waitpid(child, &status, __WALL) != child)
        die("waitpid");
    if (WIFSTOPPED(status))
        return WSTOPSIG(status);
    tell();
    if (WIFSIGNALED(status)) {
        fprintf(stderr, "ended by signal %d\n", WTERMSIG(status));
        exit(FAILED);
    }
    exit(refused_runs != 0 ? FAILED : WEXITSTATUS(status));
}

// Lets the program run to its next stop, by PTRACE_CONT or PTRACE_SINGLESTEP.
static int go_on(int how, int signal)
{
    if (ptrace((enum __ptrace_request)how, child, 0, (void *)(intptr_t)signal) != 0)
        die("ptrace");
    return wait_for_stop();
}

// A system call of the tool's in the program.
static uint64_t call(uint64_t number, uint64_t a, uint64_t b, uint64_t c, uint64_t d)
{
    struct user_regs_struct before, during;
    read_registers(&before);
    during = before;
    during.rip = syscall_at;
    during.rax = number;
    during.orig_rax = ~0ULL;
    during.rdi = a;
    during.rsi = b;
    during.rdx = c;
    during.r10 = d;
    during.r8 = ~0ULL;
    during.r9 = 0;
    write_registers(&during);
    go_on(PTRACE_SINGLESTEP, 0);
    read_registers(&during);
    write_registers(&before);
    return during.rax;
}

// The address of a SYSCALL instruction near the program's first one, which is the loader's.
static uint64_t find_syscall(uint64_t from)
{
    static uint8_t page[64 * PAGE];
    size_t got = read_bytes(from & ~(uint64_t)(PAGE - 1), page, sizeof page);
    for (size_t i = 0; i + 1 < got; i++)
        if (page[i] == 0x0F && page[i + 1] == 0x05)
            return (from & ~(uint64_t)(PAGE - 1)) + i;
    errno = 0;
    die("no SYSCALL instruction was found");
    return 0;
}

// Maps a pool at an address, or returns 0 if something is there.
static uint64_t map_at(uint64_t address)
{
    const uint64_t flags = MAP_PRIVATE | MAP_ANONYMOUS | MAP_FIXED_NOREPLACE;
    return call(SYS_mmap, address, POOL, PROT_READ | PROT_WRITE | PROT_EXEC, flags) == address ? address : 0;
}

// A slot within reach of some code.
static uint64_t slot_near(uint64_t ip)
{
    const uint64_t reach = 0x40000000;
    for (size_t i = pool_count; i-- > 0;) {
        uint64_t base = pools[i].base;
        if ((base > ip ? base - ip : ip - base) < reach && pools[i].used + SLOT <= POOL) {
            pools[i].used += SLOT;
            return base + pools[i].used - SLOT;
        }
    }
    for (uint64_t away = POOL; away < reach && pool_count < MOST_POOLS; away += POOL) {
        uint64_t below = (ip & ~(uint64_t)(POOL - 1)) - away, above = (ip & ~(uint64_t)(POOL - 1)) + away;
        uint64_t base = ip > away + POOL && (base = map_at(below)) ? base : map_at(above);
        if (base != 0) {
            pools[pool_count++] = (struct pool){base, SLOT};
            return base;
        }
    }
    errno = 0;
    die("there is no room for slots near some code");
    return 0;
}

static int is_slot(uint64_t address)
{
    for (size_t i = 0; i < pool_count; i++)
        if (address - pools[i].base < POOL)
            return 1;
    return 0;
}

static int is_code(uint64_t address)
{
    for (size_t i = 0; i < range_count; i++)
        if (address >= ranges[i].from && address < ranges[i].to)
            return 1;
    return 0;
}

// Forgets what was code at some addresses: the ranges, and the stops there.
static void forget(uint64_t from, uint64_t to)
{
    int was_code = 0;
    for (size_t i = range_count; i-- > 0;) {
        struct range *it = &ranges[i];
        if (it->to <= from || it->from >= to)
            continue;
        was_code = 1;
        if (it->from < from && it->to > to) {
            if (range_count == MOST_RANGES)
                die("too many mappings of code");
            ranges[range_count++] = (struct range){to, it->to};
            it->to = from;
        } else if (it->from < from) {
            it->to = from;
        } else if (it->to > to) {
            it->from = to;
        } else {
            *it = ranges[--range_count];
        }
    }
    for (size_t i = 0; was_code && i < BUCKETS; i++)
        for (struct stop **at = &buckets[i]; *at != NULL;) {
            struct stop *stop = *at;
            if (stop->ip + FEDDURZAI_MAX_LEN > from && stop->ip < to) {
                *at = stop->next;
                free(stop);
                forgotten++;
            } else {
                at = &stop->next;
            }
        }
}

// From now on there is code at some addresses.
static void remember(uint64_t from, uint64_t to)
{
    if (range_count == MOST_RANGES)
        die("too many mappings of code");
    ranges[range_count++] = (struct range){from, to};
}

// Hides the vDSO from the program, which then makes system calls: some systems let nobody take its permissions.
static void hide_vdso(void)
{
    struct user_regs_struct registers;
    uint64_t word, kind;
    read_registers(&registers);
    uint64_t at = registers.rsp;
    if (read_bytes(at, &word, 8) != 8)
        die("the stack");
    at += 8 * (word + 2);
    do {
        if (read_bytes(at, &word, 8) != 8)
            die("the stack");
        at += 8;
    } while (word != 0);
    const uint64_t ignored = AT_IGNORE;
    for (;; at += 16) {
        if (read_bytes(at, &kind, 8) != 8)
            die("the stack");
        if (kind == AT_NULL)
            return;
        if (kind == AT_SYSINFO_EHDR)
            write_bytes(at, &ignored, 8);
    }
}

// Takes the permission to be executed from what is mapped at the start.
static void protect_all(void)
{
    char name[64], line[512], permissions[8];
    uint64_t from, to;
    snprintf(name, sizeof name, "/proc/%d/maps", (int)child);
    FILE *maps = fopen(name, "r");
    if (maps == NULL)
        die(name);
    while (fgets(line, sizeof line, maps) != NULL) {
        if (sscanf(line, "%" SCNx64 "-%" SCNx64 " %7s", &from, &to, permissions) != 3 || permissions[2] != 'x' || is_slot(from) || from >> 63)
            continue;
        if (strstr(line, "[vdso]") != NULL) {
            hide_vdso();
            continue;
        }
        if (call(SYS_mprotect, from, to - from, PROT_READ, 0) != 0)
            die("mprotect");
        remember(from, to);
    }
    fclose(maps);
}

// The code of a slot.
static int32_t code_of(const struct stop *stop, size_t count, uint8_t *code)
{
    feddurzai_step_report report;
    if (own_returns) {
        int32_t len = feddurzai_step_call(64, stop->ip, stop->bytes, count, stop->place, code, SLOT, &report);
        // no call, or one that has no such code
        if (len > 0)
            return len;
    }
    int32_t len = feddurzai_step(64, stop->ip, stop->bytes, count, stop->place, code, SLOT, &report);
    if (len == FEDDURZAI_INVALID || len == FEDDURZAI_TOO_SHORT)
        len = feddurzai_step_unlisted(64, stop->ip, stop->bytes, count, stop->place, code, SLOT, &report);
    return len;
}

// Makes the slot of an address.
static void fill_slot(struct stop *stop, size_t count)
{
    uint8_t code[SLOT];
    feddurzai_instr instr;
    int32_t len = feddurzai_decode(64, stop->ip, stop->bytes, count, &instr);
    stop->listed = len > 0;
    stop->is_syscall = len > 0 && instr.code == FEDDURZAI_CODE_SYSCALL;
    addresses++;
    addresses_unlisted += !stop->listed;
    stop->place = slot_near(stop->ip);
    len = code_of(stop, count, code);
    if (len > 0) {
        write_bytes(stop->place, code, (size_t)len);
        return;
    }
    stop->place = 0;
    if (refused_count++ < MOST_REFUSED) {
        fprintf(stderr, "not stepped: %#" PRIx64 " ", stop->ip);
        for (size_t i = 0; i < count; i++)
            fprintf(stderr, "%02x", stop->bytes[i]);
        fprintf(stderr, ", status %d\n", (int)len);
    }
}

// The stop of an address, NULL if there is no code. Its slot is made when control first comes there.
static struct stop *stop_at(uint64_t ip)
{
    struct stop **bucket = &buckets[(ip ^ ip >> 20) % BUCKETS];
    for (struct stop *stop = *bucket; stop != NULL; stop = stop->next)
        if (stop->ip == ip)
            return stop;
    if (!is_code(ip))
        return NULL;
    struct stop *stop = calloc(1, sizeof *stop);
    if (stop == NULL)
        die("calloc");
    stop->ip = ip;
    stop->next = *bucket;
    *bucket = stop;
    size_t count = read_bytes(ip, stop->bytes, sizeof stop->bytes);
    if (count == 0)
        count = read_bytes(ip, stop->bytes, PAGE - ip % PAGE < sizeof stop->bytes ? PAGE - ip % PAGE : 0);
    fill_slot(stop, count);
    return stop;
}

// Runs an instruction at its own address. Returns the signal of the stop after it.
static int run_in_place(const struct stop *stop)
{
    uint64_t page = stop->ip & ~(uint64_t)(PAGE - 1), end = (stop->ip + FEDDURZAI_MAX_LEN + PAGE - 1) & ~(uint64_t)(PAGE - 1);
    uint64_t len = is_code(end - 1) ? end - page : PAGE;
    if (call(SYS_mprotect, page, len, PROT_READ | PROT_EXEC, 0) != 0)
        die("mprotect");
    int signal = go_on(PTRACE_SINGLESTEP, 0);
    if (call(SYS_mprotect, page, len, PROT_READ, 0) != 0)
        die("mprotect");
    return signal;
}

// Before a system call: what it changes in the address space. It gives nothing the permission to be executed.
static void before_syscall(uint64_t place, struct mapping *mapping)
{
    struct user_regs_struct registers;
    read_registers(&registers);
    *mapping = (struct mapping){registers.rax, registers.rdi, registers.rsi, registers.rdx, place, 0};
    switch (registers.rax) {
    case SYS_mmap:
    case SYS_mprotect:
    case SYS_pkey_mprotect:
        mapping->runs = (registers.rdx & PROT_EXEC) != 0;
        if (mapping->runs) {
            registers.rdx &= ~(uint64_t)PROT_EXEC;
            write_registers(&registers);
        }
        return;
    case SYS_munmap:
    case SYS_mremap:
        return;
    case SYS_clone:
    case SYS_clone3:
    case SYS_fork:
    case SYS_vfork:
    case SYS_execve:
    case SYS_execveat:
        errno = 0;
        die("the program starts another process or thread");
        return;
    default:
        mapping->number = UINT64_MAX;
    }
}

// After a system call: restores RDX, and takes note of code that has come or gone.
static void after_syscall(const struct mapping *mapping)
{
    struct user_regs_struct registers;
    read_registers(&registers);
    if (mapping->runs) {
        registers.rdx = mapping->rdx;
        write_registers(&registers);
    }
    // an error
    if (registers.rax > (uint64_t)-PAGE)
        return;
    uint64_t from = mapping->number == SYS_mmap ? registers.rax : mapping->from;
    uint64_t to = from + ((mapping->len + PAGE - 1) & ~(uint64_t)(PAGE - 1));
    forget(from, to);
    if (mapping->runs)
        remember(from, to);
}

// Runs the program to its end: where it comes to an address of its own, it goes on in that address's slot.
static void run(void)
{
    struct mapping mapping = {UINT64_MAX, 0, 0, 0, 0, 0};
    int signal = 0;
    for (;;) {
        uint64_t rip = read_rip();
        if (mapping.number != UINT64_MAX && rip != mapping.place) {
            after_syscall(&mapping);
            mapping.number = UINT64_MAX;
        }
        struct stop *stop = (signal == SIGSEGV || signal == 0) && !is_slot(rip) ? stop_at(rip) : NULL;
        if (stop == NULL) {
            // the signal is the program's own
            signal = go_on(PTRACE_CONT, signal);
            continue;
        }
        if (executed == most) {
            tell();
            kill(child, SIGKILL);
            exit(0);
        }
        executed++;
        executed_unlisted += !stop->listed;
        if (stop->place == 0) {
            refused_runs++;
            signal = run_in_place(stop);
            signal = signal == SIGTRAP ? 0 : go_on(PTRACE_CONT, signal);
            continue;
        }
        if (stop->is_syscall)
            before_syscall(stop->place, &mapping);
        write_rip(stop->place);
        signal = go_on(PTRACE_CONT, 0);
    }
}

int main(int argc, char **argv)
{
    int option;
    while ((option = getopt(argc, argv, "+rn:")) != -1) {
        if (option == 'r')
            own_returns = 1;
        else if (option == 'n')
            most = strtoull(optarg, NULL, 0);
        else
            optind = argc;
    }
    if (optind >= argc) {
        fprintf(stderr, "usage: %s [-r] [-n MOST] PROGRAM ARGUMENT..\n", argv[0]);
        return FAILED;
    }
    // the program and the tool run in turn, which is fastest on one processor
    cpu_set_t one;
    CPU_ZERO(&one);
    CPU_SET(sched_getcpu(), &one);
    sched_setaffinity(0, sizeof one, &one);
    child = fork();
    if (child == 0) {
        ptrace(PTRACE_TRACEME, 0, 0, 0);
        execvp(argv[optind], argv + optind);
        perror(argv[optind]);
        _exit(FAILED);
    }
    if (child < 0) {
        perror("fork");
        return FAILED;
    }
    clock_gettime(CLOCK_MONOTONIC, &started);
    wait_for_stop();
    ptrace(PTRACE_SETOPTIONS, child, 0, (void *)(intptr_t)PTRACE_O_EXITKILL);
    uint64_t rip = read_rip();
    syscall_at = find_syscall(rip);
    // the tool's own system calls are made in the first slot of all from now on, because the loader's code is not executable any longer
    uint64_t first = slot_near(rip);
    write_bytes(first, "\x0F\x05", 2);
    syscall_at = first;
    protect_all();
    run();
}

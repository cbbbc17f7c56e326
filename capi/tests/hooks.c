/*
 * The calls of feddurzai_hook.h: the checks of a function's code; hooks that are installed, disabled, enabled and removed,
 * alone and several at once; every refusal that a process can cause; SIGTRAP of the program itself; fork; functions that
 * feddurzai_hook.c calls while it works; and threads that run, wait in the kernel, wait there within taken bytes, block
 * signals, start and end.
 *
 * Linux on x86-64. Compile feddurzai_hook.c with -DFEDDURZAI_HOOK_WAITS=100, so that a thread that never answers costs
 * little. Not stripped: the program finds the sizes of its functions.
 */
#define _GNU_SOURCE
#include "feddurzai_hook.h"

#include "check.h"

#include <pthread.h>
#include <signal.h>
#include <stdatomic.h>
#include <stdlib.h>
#include <string.h>
#include <sys/mman.h>
#include <sys/syscall.h>
#include <sys/types.h>
#include <sys/wait.h>
#include <poll.h>
#include <unistd.h>

#define ADDRESS FEDDURZAI_HOOK_ADDRESS

/* ---- the checks of the code, without a process */

/* code, flags, and what the call has to say of it */
struct code {
    uint32_t bits;
    const char *bytes;
    size_t len;
    uint32_t flags;
    int32_t said;
    uint64_t at, target;        /* of a refusal */
    uint64_t unseen_at;         /* of a hook */
};

#define CODE(bits, bytes) bits, bytes, sizeof bytes - 1

static const struct code codes[] = {
    /* EVEX, which no row has, hides a branch to offset 3; NOPs there do not */
    {CODE(64, "\x48\x8b\x07\x48\x89\xc1\x62\xf1\x7c\x48\x28\xc1\xeb\xf5\xc3"), 0, 0, 0, 0, 6},
    {CODE(64, "\x48\x8b\x07\x48\x89\xc1\x62\xf1\x7c\x48\x28\xc1\xeb\xf5\xc3"), FEDDURZAI_HOOK_NEED_SIGHT, FEDDURZAI_HOOK_UNSEEN, 6,
        FEDDURZAI_SIGHT_NOT_READ, 0},
    {CODE(64, "\x48\x8b\x07\x48\x89\xc1\x90\x90\x90\x90\x90\x90\xeb\xf5\xc3"), 0, FEDDURZAI_ENTERED, 12, 3, 0},
    /* a jump table, and code behind it that goes to offset 3 */
    {CODE(64, "\x48\x8b\x07\xff\x24\xc5\x00\x20\x00\x00\x48\xff\xc7\xeb\xf4\xc3"), 0, 0, 0, 0, 3},
    {CODE(64, "\x48\x8b\x07\xff\x24\xc5\x00\x20\x00\x00\x48\xff\xc7\xeb\xf4\xc3"), FEDDURZAI_HOOK_NEED_SIGHT, FEDDURZAI_HOOK_UNSEEN, 3,
        FEDDURZAI_SIGHT_INDIRECT_JUMP, 0},
    /* control runs off the end of the bytes */
    {CODE(64, "\x31\xc0\x31\xc0\x90\x90"), 0, 0, 0, 0, 5},
    {CODE(64, "\x31\xc0\x31\xc0\x90\x90"), FEDDURZAI_HOOK_NEED_SIGHT, FEDDURZAI_HOOK_UNSEEN, 5, FEDDURZAI_SIGHT_ENDED, 0},
    {CODE(64, "\x31\xc0\x31\xc0\x90\xc3"), FEDDURZAI_HOOK_NEED_SIGHT, 0, 0, 0, 6},
    /* a loop behind the taken bytes that goes to the start; a call from there is recursion */
    {CODE(64, "\x80\x3f\x00\x74\x05\x48\xff\xc7\xeb\xf6\xc3"), 0, FEDDURZAI_HOOK_LOOP, 8, 0, 0},
    {CODE(64, "\x80\x3f\x00\x74\x05\x48\xff\xc7\xeb\xf6\xc3"), FEDDURZAI_HOOK_ALLOW_LOOPS, 0, 0, 0, 11},
    {CODE(64, "\x80\x3f\x00\x74\x08\x48\xff\xc7\xe8\xf3\xff\xff\xff\xc3"), 0, 0, 0, 0, 14},
    /* lea rbx, [rip-7]: the base of code that is position-independent. It may be in the taken bytes, which mov reads */
    {CODE(64, "\x53\x48\x8d\x1d\xf9\xff\xff\xff\x5b\xc3"), 0, 0, 0, 0, 10},
    {CODE(64, "\x53\x48\x8b\x1d\xf9\xff\xff\xff\x5b\xc3"), 0, FEDDURZAI_HOOK_OWN_BYTES, 1, 1, 0},
    {CODE(64, "\x53\x48\x8b\x1d\xf8\xff\xff\xff\x5b\xc3"), FEDDURZAI_HOOK_ALLOW_LOOPS, FEDDURZAI_HOOK_OWN_BYTES, 1, 0, 0},
    {CODE(64, "\x53\x48\x8b\x1d\xf7\xff\xff\xff\x5b\xc3"), 0, 0, 0, 0, 10},
    {CODE(64, "\x53\x48\x8b\x1d\x00\x00\x00\x00\x5b\xc3"), 0, 0, 0, 0, 10},
    /* 32-bit: push esi; call a thunk; add esi, .. */
    {CODE(32, "\x56\xe8\x00\x10\x00\x00\x81\xc6\x00\x20\x00\x00\x5e\xc3"), 0, 0, 0, 0, 14},
    {CODE(32, "\x56\xe8\x00\x10\x00\x00\x81\xc6\x00\x20\x00\x00\x5e\xc3"), FEDDURZAI_HOOK_PLAIN_CALLS, FEDDURZAI_HOOK_CALL, 1, 0, 0},
    {CODE(32, "\x56\xe8\x00\x10\x00\x00\x81\xc6\x00\x20\x00\x00\x5e\xc3"), FEDDURZAI_HOOK_PLAIN_CALLS + FEDDURZAI_HOOK_ALLOW_CALLS,
        0, 0, 0, 14},
    /* calls in other forms: the first is not the last taken one; a system call is none */
    {CODE(64, "\x53\xff\xd0\x5b\x48\x31\xc0\xc3"), 0, FEDDURZAI_HOOK_CALL, 1, 0, 0},
    {CODE(64, "\x53\xff\xd0\x5b\x48\x31\xc0\xc3"), FEDDURZAI_HOOK_ALLOW_CALLS, 0, 0, 0, 8},
    {CODE(64, "\x53\xff\x15\x00\x10\x00\x00\x5b\xc3"), 0, 0, 0, 0, 9},
    {CODE(64, "\x31\xc0\x0f\x05\x48\xff\xc0\xc3"), 0, 0, 0, 0, 8},
    /* a breakpoint, and what feddurzai_detour refuses */
    {CODE(64, "\xcc\x48\x89\xe5\x31\xc0\x5d\xc3"), 0, FEDDURZAI_HOOK_BREAKPOINT, 0, 0, 0},
    {CODE(64, "\x31\xc0\xc3"), 0, FEDDURZAI_SMALL, 3, 5, 0},
    {CODE(64, "\x62\xf1\x7c\x48\x28\xc1\xc3"), 0, FEDDURZAI_INVALID, 0, 0, 0},
    {CODE(64, "\x31\xc0\xc3\x31\xc0\xc3"), 0, FEDDURZAI_ENDS, 3, 0, 0},
    {CODE(17, "\x31\xc0\xc3"), 0, FEDDURZAI_BAD_MODE, 0, 0, 0},
};

static void check_codes(void)
{
    size_t k;
    for (k = 0; k < sizeof codes / sizeof *codes; k++) {
        const struct code *it = &codes[k];
        feddurzai_hook_parts parts;
        int before = failures;
        memset(&parts, 0xaa, sizeof parts);
        CHECK(feddurzai_hook_make(it->bits, 0x1000, (const uint8_t *)it->bytes, it->len, 0x5000, 0x3000, it->flags, &parts), it->said);
        CHECK(parts.place, 0x3000);
        if (it->said < 0) {
            CHECK(parts.at, it->at);
            CHECK(parts.target, it->target);
        } else {
            CHECK(parts.unseen_at, it->unseen_at);
            CHECK(parts.taken_at[0] == 0 && parts.place_at[0] == 0, 1);
            CHECK(memcmp(parts.before, it->bytes, (size_t)parts.detour.taken), 0);
        }
        if (failures > before)
            printf("    in row %zu of the codes\n", k);
    }
    CHECK(feddurzai_hook_make(64, 0, NULL, 0, 0, 0, 0, NULL), FEDDURZAI_NULL);
    {
        feddurzai_hook_parts parts;
        CHECK(feddurzai_hook_make(64, 0, NULL, 1, 0, 0, 0, &parts), FEDDURZAI_NULL);
        CHECK(feddurzai_hook_make(64, 0x1000, (const uint8_t *)codes[0].bytes, codes[0].len, 0x5000, 0x1004, 0, &parts), FEDDURZAI_OVERLAPS);
    }
}

/* where the taken instructions are, near and far: je grows, the others keep their lengths */
static void check_places(void)
{
    static const uint8_t code[] = {0x55, 0x48, 0x89, 0xe5, 0x74, 0x10, 0x48, 0xff, 0xc7, 0x48, 0xff, 0xc6, 0x48, 0xff, 0xc0, 0x5d, 0xc3, 0x90,
        0x90, 0x90, 0x90, 0x90, 0x90, 0x90, 0x90, 0x90};
    static const int taken_at[] = {0, 1, 4, 6, 9, 12}, place_at[] = {0, 1, 4, 12, 15, 18};
    feddurzai_hook_parts parts;
    int k;
    CHECK(feddurzai_hook_make(64, 0x1000, code, sizeof code, 0x5000, 0x3000, 0, &parts), 0);
    CHECK(parts.detour.taken, 6);
    CHECK(parts.count, 3);
    CHECK(parts.place_at[2], 4);
    /* out of reach: jne over jmp [rip] is 8 bytes, and its slot follows the jump back */
    CHECK(feddurzai_hook_make(64, 0x1000, code, sizeof code, UINT64_C(0x7e0000000000), UINT64_C(0x7f0000000000), 0, &parts), 0);
    CHECK(parts.detour.taken, 15);
    CHECK(parts.count, 6);
    for (k = 0; k < 6; k++) {
        CHECK(parts.taken_at[k], taken_at[k]);
        CHECK(parts.place_at[k], place_at[k]);
    }
}

/* ---- hooks of functions of this program */

#define FUNCTION __attribute__((noinline))

/* two functions in one: the second begins within the bytes that a hook of the first overwrites */
int outer(int n), within(int n);
extern const uint8_t outer_end[];
__asm__(
    ".text\n"
    ".type outer, @function\n"
    "outer:  lea 1(%rdi), %eax\n"
    "within: lea 2(%rax), %eax\n"
    "        lea 3(%rax), %eax\n"
    "        ret\n"
    "outer_end:\n"
    ".size outer, outer_end - outer\n");

static int (*original)(int), (*original_other)(int);
static int replaced;

FUNCTION static int twice(int n)
{
    return n > 1000 ? -1 : 2 * n;
}

FUNCTION static int thrice(int n)
{
    return n > 1000 ? -1 : 3 * n;
}

static int more(int n)
{
    replaced++;
    return original(n) + 1;
}

static int more_other(int n)
{
    return original_other(n) + 100;
}

/* the compiler must not know what a call returns, nor that two calls return the same */
static int (*volatile call_twice)(int) = twice, (*volatile call_thrice)(int) = thrice, (*volatile call_outer)(int) = outer;

/* the values of both functions, each called with 5 */
static int both(void)
{
    return call_twice(5) * 1000 + call_thrice(5);
}

static void check_one(void)
{
    feddurzai_hook_parts parts;
    feddurzai_hook_options options = {0, FEDDURZAI_HOOK_DISABLED, &parts};
    CHECK(feddurzai_hook_install(ADDRESS(twice), ADDRESS(more), &original), 0);
    CHECK(both(), 11015);
    CHECK(original(5), 10);
    CHECK(replaced, 1);
    CHECK(feddurzai_hook_install(ADDRESS(twice), ADDRESS(more), &original), FEDDURZAI_HOOK_EXISTS);
    CHECK(feddurzai_hook_enable(ADDRESS(twice)), 0);
    CHECK(feddurzai_hook_disable(ADDRESS(twice)), 0);
    CHECK(both(), 10015);
    CHECK(feddurzai_hook_disable(ADDRESS(twice)), 0);
    CHECK(original(5), 10);
    CHECK(feddurzai_hook_enable(ADDRESS(twice)), 0);
    CHECK(both(), 11015);
    CHECK(feddurzai_hook_remove(ADDRESS(twice)), 0);
    CHECK(both(), 10015);
    CHECK(original(5), 10);
    CHECK(feddurzai_hook_remove(ADDRESS(twice)), FEDDURZAI_HOOK_MISSING);
    CHECK(feddurzai_hook_enable(ADDRESS(twice)), FEDDURZAI_HOOK_MISSING);
    CHECK(feddurzai_hook_disable(ADDRESS(thrice)), FEDDURZAI_HOOK_MISSING);
    /* installed, but disabled; and the same trampoline again */
    uint64_t place = (uint64_t)(uintptr_t)original;
    CHECK(feddurzai_hook_install_with(ADDRESS(twice), ADDRESS(more), NULL, &options), 0);
    CHECK(parts.place, place);
    CHECK(memcmp(parts.before, ADDRESS(twice), (size_t)parts.detour.taken), 0);
    CHECK(memcmp(parts.trampoline, ADDRESS(original), (size_t)parts.detour.bytes), 0);
    CHECK(both(), 10015);
    CHECK(feddurzai_hook_enable(ADDRESS(twice)), 0);
    CHECK(both(), 11015);
    CHECK(memcmp(parts.patch, ADDRESS(twice), (size_t)parts.detour.taken), 0);
    CHECK(feddurzai_hook_remove(FEDDURZAI_HOOK_ALL), 0);
    CHECK(both(), 10015);
}

static void check_several(void)
{
    CHECK(feddurzai_hook_apply(), 0);
    CHECK(feddurzai_hook_install(ADDRESS(twice), ADDRESS(more), &original), 0);
    CHECK(feddurzai_hook_install(ADDRESS(thrice), ADDRESS(more_other), &original_other), 0);
    CHECK(both(), 11115);
    CHECK(feddurzai_hook_queue_disable(ADDRESS(twice)), 0);
    CHECK(both(), 11115);
    CHECK(feddurzai_hook_disable(ADDRESS(thrice)), 0);
    CHECK(both(), 11015);
    CHECK(feddurzai_hook_queue_enable(ADDRESS(thrice)), 0);
    CHECK(feddurzai_hook_apply(), 0);
    CHECK(both(), 10115);
    CHECK(feddurzai_hook_apply(), 0);
    CHECK(feddurzai_hook_queue_enable(FEDDURZAI_HOOK_ALL), 0);
    CHECK(feddurzai_hook_queue_disable(ADDRESS(thrice)), 0);
    CHECK(feddurzai_hook_apply(), 0);
    CHECK(both(), 11015);
    CHECK(feddurzai_hook_enable(FEDDURZAI_HOOK_ALL), 0);
    CHECK(both(), 11115);
    CHECK(feddurzai_hook_disable(FEDDURZAI_HOOK_ALL), 0);
    CHECK(both(), 10015);
    CHECK(feddurzai_hook_remove(FEDDURZAI_HOOK_ALL), 0);
    CHECK(feddurzai_hook_queue_enable(ADDRESS(twice)), FEDDURZAI_HOOK_MISSING);
    CHECK(feddurzai_hook_queue_enable(FEDDURZAI_HOOK_ALL), 0);
    CHECK(feddurzai_hook_apply(), 0);
    CHECK(both(), 10015);
}

static int text_to_int(const char *text)
{
    return ((int (*)(const char *))(uintptr_t)original)(text) + 1;
}

static void check_names(void)
{
    int (*volatile convert)(const char *) = atoi;
    void *target;
    size_t size;
    CHECK(feddurzai_hook_find(NULL, "atoi", &target, &size), 0);
    CHECK(target == ADDRESS(atoi), 1);
    CHECK(size > 0, 1);
    CHECK(feddurzai_hook_find(NULL, "no such function", &target, &size), FEDDURZAI_HOOK_NO_SYMBOL);
#ifndef __SANITIZE_ADDRESS__
    /* the loader chooses among several; no symbol of the loader begins at the one it chose */
    CHECK(feddurzai_hook_find(NULL, "memcpy", &target, &size), FEDDURZAI_HOOK_NO_SIZE);
#endif
    CHECK(feddurzai_hook_find(NULL, NULL, &target, &size), FEDDURZAI_HOOK_BAD_ARGUMENT);
    CHECK(feddurzai_hook_install_name("no such function", ADDRESS(more), NULL), FEDDURZAI_HOOK_NO_SYMBOL);
    CHECK(feddurzai_hook_install_name("atoi", ADDRESS(text_to_int), &original), 0);
    CHECK(convert("41"), 42);
    CHECK(feddurzai_hook_remove(ADDRESS(atoi)), 0);
    CHECK(convert("41"), 41);
}

/* writes a byte over code, as another hook library might */
static void poke(volatile uint8_t *target, uint8_t byte)
{
    uint8_t *page = (uint8_t *)((uintptr_t)target & ~(uintptr_t)4095);
    CHECK(mprotect(page, 4096, PROT_READ | PROT_WRITE | PROT_EXEC), 0);
    *target = byte;
    CHECK(mprotect(page, 4096, PROT_READ | PROT_EXEC), 0);
}

static void check_refusals(void)
{
    feddurzai_hook_options options = {64, 0, NULL};
    /* a compiler may take it that code does not change */
    volatile uint8_t *code = ADDRESS(twice);
    uint8_t byte;
    CHECK(feddurzai_hook_install(NULL, ADDRESS(more), NULL), FEDDURZAI_HOOK_BAD_ARGUMENT);
    CHECK(feddurzai_hook_install(ADDRESS(twice), NULL, NULL), FEDDURZAI_HOOK_BAD_ARGUMENT);
    CHECK(feddurzai_hook_install(ADDRESS(twice), ADDRESS(twice), NULL), FEDDURZAI_HOOK_BAD_ARGUMENT);
    CHECK(feddurzai_hook_install(ADDRESS((uint8_t *)ADDRESS(twice) + 1), ADDRESS(more), NULL), FEDDURZAI_HOOK_NO_SIZE);
    options.size = FEDDURZAI_MAX_CODE + 1;
    CHECK(feddurzai_hook_install_with(ADDRESS(twice), ADDRESS(more), NULL, &options), FEDDURZAI_TOO_LARGE);
    options.size = 3;
    CHECK(feddurzai_hook_install_with(ADDRESS(outer), ADDRESS(more), NULL, &options), FEDDURZAI_SMALL);
    /* somebody else writes to a function whose hook is enabled, and to one whose hook is disabled */
    CHECK(feddurzai_hook_install(ADDRESS(twice), ADDRESS(more), &original), 0);
    byte = code[1];
    poke(code + 1, (uint8_t)(byte ^ 1));
    CHECK(feddurzai_hook_disable(ADDRESS(twice)), FEDDURZAI_HOOK_CHANGED);
    CHECK(feddurzai_hook_apply(), 0);
    poke(code + 1, byte);
    CHECK(feddurzai_hook_disable(ADDRESS(twice)), 0);
    byte = code[0];
    poke(code, 0xcc);
    CHECK(feddurzai_hook_enable(ADDRESS(twice)), FEDDURZAI_HOOK_CHANGED);
    poke(code, byte);
    CHECK(feddurzai_hook_remove(ADDRESS(twice)), 0);
    CHECK(both(), 10015);
    CHECK(strlen(feddurzai_hook_error_text(FEDDURZAI_ENTERED)) > 20, 1);
    CHECK(strcmp(feddurzai_hook_error_text(-9999), "an unknown status"), 0);
    CHECK(strcmp(feddurzai_hook_error_text(0), "no error"), 0);
}

static void check_overlaps(void)
{
    feddurzai_hook_options options = {(size_t)(outer_end - (const uint8_t *)ADDRESS(within)), 0, NULL};
    CHECK(feddurzai_hook_install(ADDRESS(outer), ADDRESS(more), &original), 0);
    CHECK(feddurzai_hook_install_with(ADDRESS(within), ADDRESS(more_other), &original_other, &options), FEDDURZAI_HOOK_OVERLAPS);
    CHECK(call_outer(1), 8);
    CHECK(feddurzai_hook_remove(ADDRESS(outer)), 0);
    CHECK(call_outer(1), 7);
    CHECK(feddurzai_hook_install_with(ADDRESS(within), ADDRESS(more_other), &original_other, &options), 0);
    CHECK(feddurzai_hook_remove(ADDRESS(within)), 0);
    CHECK(call_outer(1), 7);
}

/* ---- SIGTRAP of the program, and fork */

static volatile sig_atomic_t own_traps;

static void own_trap(int signal)
{
    (void)signal;
    own_traps++;
}

/* the signal that ends a child that runs f, or 0 if it returns 1 */
static int ends_by(int (*f)(void))
{
    int status;
    pid_t child = fork();
    if (child == 0)
        _exit(f() == 1 ? 0 : 1);
    if (child < 0 || waitpid(child, &status, 0) != child)
        return -1;
    return WIFSIGNALED(status) ? WTERMSIG(status) : -WEXITSTATUS(status);
}

static int runs_int3(void)
{
    __asm__ volatile("int3");
    return 1;
}

static int hooks_again(void)
{
    int good = both() == 11015;
    good = good && feddurzai_hook_remove(ADDRESS(twice)) == 0 && both() == 10015;
    return good && feddurzai_hook_install(ADDRESS(twice), ADDRESS(more), &original) == 0 && both() == 11015;
}

static void check_traps(void)
{
    struct sigaction mine = {.sa_handler = own_trap}, before;
    CHECK(feddurzai_hook_install(ADDRESS(twice), ADDRESS(more), &original), 0);
    /* no handler of the program: an INT3 of its own ends it */
    CHECK(ends_by(runs_int3), SIGTRAP);
    CHECK(ends_by(hooks_again), 0);
    CHECK(both(), 11015);
    /* one that is set now, over that of the hooks; the next change sets theirs again, and passes on */
    sigaction(SIGTRAP, &mine, &before);
    CHECK(feddurzai_hook_disable(ADDRESS(twice)), 0);
    CHECK(runs_int3(), 1);
    CHECK(own_traps, 1);
    raise(SIGTRAP);
    CHECK(own_traps, 2);
    CHECK(feddurzai_hook_remove(ADDRESS(twice)), 0);
}

/* ---- functions that feddurzai_hook.c calls while it works */

static void *(*original_malloc)(size_t);
static void (*original_free)(void *);
static int (*original_close)(int);
static ssize_t (*original_read)(int, void *, size_t);
static ssize_t (*original_pwrite)(int, const void *, size_t, off_t);
static _Atomic int own_calls, busy;

static void *my_malloc(size_t n)
{
    own_calls++;
    return original_malloc(n);
}

static void my_free(void *memory)
{
    own_calls++;
    original_free(memory);
}

/* a call within a call is refused, and does not wait for itself */
static int my_close(int file)
{
    own_calls++;
    busy += feddurzai_hook_apply() == FEDDURZAI_HOOK_BUSY;
    return original_close(file);
}

static ssize_t my_read(int file, void *to, size_t n)
{
    own_calls++;
    return original_read(file, to, n);
}

static ssize_t my_pwrite(int file, const void *from, size_t n, off_t at)
{
    own_calls++;
    return original_pwrite(file, from, n, at);
}

static void check_own_calls(void)
{
    int k;
    CHECK(feddurzai_hook_install_name("malloc", ADDRESS(my_malloc), &original_malloc), 0);
    CHECK(feddurzai_hook_install_name("free", ADDRESS(my_free), &original_free), 0);
    CHECK(feddurzai_hook_install_name("close", ADDRESS(my_close), &original_close), 0);
    CHECK(feddurzai_hook_install_name("read", ADDRESS(my_read), &original_read), 0);
    CHECK(feddurzai_hook_install_name("pwrite", ADDRESS(my_pwrite), &original_pwrite), 0);
    CHECK(feddurzai_hook_install(ADDRESS(twice), ADDRESS(more), &original), 0);
    for (k = 0; k < 20; k++) {
        CHECK(feddurzai_hook_disable(FEDDURZAI_HOOK_ALL), 0);
        CHECK(both(), 10015);
        CHECK(feddurzai_hook_enable(FEDDURZAI_HOOK_ALL), 0);
        CHECK(both(), 11015);
    }
    CHECK(feddurzai_hook_remove(FEDDURZAI_HOOK_ALL), 0);
    CHECK(own_calls > 100, 1);
    CHECK(busy > 20, 1);
}

/* ---- threads */

/* what a thread is to do, and what came of it */
struct task {
    pthread_t thread;
    int pipe[2];
    atomic_int ready, ended;
    long result;
};

static void start(struct task *task, void *(*f)(void *))
{
    CHECK(pipe(task->pipe), 0);
    CHECK(pthread_create(&task->thread, NULL, f, task), 0);
    while (!atomic_load(&task->ready))
        sched_yield();
}

static void end(struct task *task)
{
    atomic_store(&task->ended, 1);
    CHECK(write(task->pipe[1], "x", 1), 1);
    pthread_join(task->thread, NULL);
    close(task->pipe[0]);
    close(task->pipe[1]);
}

/* lets a thread come into the kernel, where it then waits */
static void let_it_wait(void)
{
    struct timespec pause = {0, 50000000L};
    nanosleep(&pause, NULL);
}

/* waits in a call that a signal would end with EINTR */
static void *polls(void *with)
{
    struct task *task = with;
    struct pollfd file = {task->pipe[0], POLLIN, 0};
    atomic_store(&task->ready, 1);
    task->result = poll(&file, 1, -1);
    return NULL;
}

/* a function with a system call among the taken instructions: it returns 7 more than read(file, to, n) */
long reads(int file, void *to, long n);
extern const uint8_t reads_end[];
__asm__(
    ".text\n"
    ".balign 16\n"
    ".type reads, @function\n"
    "reads:\n"
    "    xor %eax, %eax\n"
    "    syscall\n"
    "    lea 7(%rax), %rax\n"
    "    ret\n"
    "reads_end:\n"
    ".size reads, reads_end - reads\n");

static long (*original_reads)(int, void *, long);

static long my_reads(int file, void *to, long n)
{
    return original_reads(file, to, n) + 1000;
}

static void *reads_once(void *with)
{
    struct task *task = with;
    char byte;
    atomic_store(&task->ready, 1);
    task->result = reads(task->pipe[0], &byte, 1);
    return NULL;
}

/* a thread waits within the taken bytes when the hook is installed, and in the trampoline when it is removed */
static void check_waiting(void)
{
    feddurzai_hook_options options = {(size_t)(reads_end - (const uint8_t *)ADDRESS(reads)), 0, NULL};
    uint64_t traps, moved, moved_before;
    struct task poller = {0}, first = {0}, second = {0};
    char byte;
    feddurzai_hook_counts(&traps, &moved_before);
    start(&poller, polls);
    start(&first, reads_once);
    let_it_wait();
    CHECK(feddurzai_hook_install_with(ADDRESS(reads), ADDRESS(my_reads), &original_reads, &options), 0);
    feddurzai_hook_counts(&traps, &moved);
    CHECK(moved - moved_before, 1);
    start(&second, reads_once);
    let_it_wait();
    CHECK(feddurzai_hook_remove(ADDRESS(reads)), 0);
    end(&first);
    CHECK(first.result, 8);
    end(&second);
    CHECK(second.result, 1008);
    end(&poller);
    CHECK(poller.result, 1);
    CHECK(pipe(first.pipe), 0);
    CHECK(write(first.pipe[1], "x", 1), 1);
    CHECK(reads(first.pipe[0], &byte, 1), 8);
    close(first.pipe[0]);
    close(first.pipe[1]);
}

/* a function whose first instruction is a call: with two bytes, so that the address behind it is taken too */
long calls(int file, void *to, long n, long (*f)(int, void *, long));
__asm__(
    ".text\n"
    ".type calls, @function\n"
    "calls:\n"
    "    call *%rcx\n"
    "    lea 5(%rax), %rax\n"
    "    ret\n"
    ".size calls, . - calls\n");

static long (*original_calls)(int, void *, long, long (*)(int, void *, long));

static long my_calls(int file, void *to, long n, long (*f)(int, void *, long))
{
    return original_calls(file, to, n, f) + 100;
}

static void *calls_once(void *with)
{
    struct task *task = with;
    char byte;
    atomic_store(&task->ready, 1);
    task->result = calls(task->pipe[0], &byte, 1, reads);
    return NULL;
}

/* a thread that is in a call that is taken will return to the taken bytes */
static void check_call(void)
{
    feddurzai_hook_options options = {0, FEDDURZAI_HOOK_ALLOW_CALLS, NULL};
    struct task task = {0}, second = {0};
    start(&task, calls_once);
    let_it_wait();
    CHECK(feddurzai_hook_install(ADDRESS(calls), ADDRESS(my_calls), &original_calls), FEDDURZAI_HOOK_CALL);
    CHECK(feddurzai_hook_install_with(ADDRESS(calls), ADDRESS(my_calls), &original_calls, &options), FEDDURZAI_HOOK_BUSY);
    end(&task);
    CHECK(task.result, 13);
    CHECK(feddurzai_hook_install_with(ADDRESS(calls), ADDRESS(my_calls), &original_calls, &options), 0);
    start(&second, calls_once);
    let_it_wait();
    /* it returns to the trampoline, which stays */
    CHECK(feddurzai_hook_remove(ADDRESS(calls)), 0);
    end(&second);
    CHECK(second.result, 113);
}

static int handler_waits[2];

/* a handler of another signal, which waits before it returns */
static void waits(int signal)
{
    char byte;
    (void)signal;
    if (read(handler_waits[0], &byte, 1) != 1)
        abort();
}

/* a handler that interrupted the taken bytes will return there: the change is refused until it has */
static void check_handler(void)
{
    struct sigaction wait = {.sa_handler = waits, .sa_flags = SA_RESTART};
    uint64_t traps, moved, moved_before;
    struct task task = {0};
    feddurzai_hook_counts(&traps, &moved_before);
    CHECK(pipe(handler_waits), 0);
    CHECK(sigaction(SIGUSR1, &wait, NULL), 0);
    start(&task, reads_once);
    let_it_wait();
    CHECK(pthread_kill(task.thread, SIGUSR1), 0);
    let_it_wait();
    CHECK(feddurzai_hook_install(ADDRESS(reads), ADDRESS(my_reads), &original_reads), FEDDURZAI_HOOK_BUSY);
    CHECK(write(handler_waits[1], "x", 1), 1);
    let_it_wait();
    CHECK(feddurzai_hook_install(ADDRESS(reads), ADDRESS(my_reads), &original_reads), 0);
    feddurzai_hook_counts(&traps, &moved);
    CHECK(moved - moved_before, 1);
    end(&task);
    CHECK(task.result, 8);
    CHECK(feddurzai_hook_remove(ADDRESS(reads)), 0);
}

static void block(int signal)
{
    sigset_t set;
    sigemptyset(&set);
    sigaddset(&set, signal);
    pthread_sigmask(SIG_BLOCK, &set, NULL);
}

static void *blocks_traps(void *with)
{
    block(SIGTRAP);
    return polls(with);
}

/* runs and never answers, until it ends */
static void *blocks_questions(void *with)
{
    struct task *task = with;
    block(FEDDURZAI_HOOK_SIGNAL);
    atomic_store(&task->ready, 1);
    while (!atomic_load(&task->ended))
        ;
    return NULL;
}

static void check_blocked(void)
{
    feddurzai_hook_options options = {0, FEDDURZAI_HOOK_ALONE, NULL};
    struct task task = {0};
    start(&task, blocks_traps);
    CHECK(feddurzai_hook_install(ADDRESS(twice), ADDRESS(more), &original), FEDDURZAI_HOOK_TRAP_BLOCKED);
    CHECK(both(), 10015);
    CHECK(feddurzai_hook_install_with(ADDRESS(twice), ADDRESS(more), &original, &options), 0);
    CHECK(both(), 11015);
    CHECK(feddurzai_hook_remove(ADDRESS(twice)), 0);
    end(&task);
    memset(&task, 0, sizeof task);
    start(&task, blocks_questions);
    CHECK(feddurzai_hook_install(ADDRESS(outer), ADDRESS(more), &original), FEDDURZAI_HOOK_BUSY);
    CHECK(call_outer(1), 7);
    CHECK(feddurzai_hook_remove(ADDRESS(outer)), FEDDURZAI_HOOK_MISSING);
    end(&task);
    CHECK(feddurzai_hook_install(ADDRESS(outer), ADDRESS(more), &original), 0);
    CHECK(call_outer(1), 8);
    CHECK(feddurzai_hook_remove(ADDRESS(outer)), 0);
}

static atomic_int wrong;

static void *calls_a_little(void *unused)
{
    int k;
    for (k = 0; k < 200; k++) {
        int n = call_outer(k);
        if (n != k + 6 && n != k + 7)
            atomic_fetch_add(&wrong, 1);
    }
    return unused;
}

/* starts threads that end soon, one after another and two at once */
static void *starts_threads(void *with)
{
    struct task *task = with;
    atomic_store(&task->ready, 1);
    while (!atomic_load(&task->ended)) {
        pthread_t some[2];
        if (pthread_create(&some[0], NULL, calls_a_little, NULL) != 0)
            return NULL;
        if (pthread_create(&some[1], NULL, calls_a_little, NULL) == 0)
            pthread_join(some[1], NULL);
        pthread_join(some[0], NULL);
        task->result += 2;
    }
    return NULL;
}

static void check_short_threads(void)
{
    struct task task = {0};
    int k;
    start(&task, starts_threads);
    for (k = 0; k < 300; k++) {
        CHECK(feddurzai_hook_install(ADDRESS(outer), ADDRESS(more), &original), 0);
        CHECK(feddurzai_hook_remove(ADDRESS(outer)), 0);
    }
    end(&task);
    CHECK(wrong, 0);
    CHECK(task.result > 2, 1);
}

int main(void)
{
    check_codes();
    check_places();
    check_one();
    check_several();
    check_names();
    check_refusals();
    check_overlaps();
    check_traps();
    check_own_calls();
    check_waiting();
    check_call();
    check_handler();
    check_blocked();
    check_short_threads();
    printf("%d checks of hooks, %d failed\n", tests, failures);
    return failures == 0 ? 0 : 1;
}

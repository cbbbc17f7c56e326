/*
 * A hook that is installed and removed while other threads call the function: four threads call it without pause, and the
 * main thread installs its hook and removes it ten thousand times, by turns with a patch of 5 bytes and with one of 14.
 * Each call has to return what the function returns, or what the replacement returns, and nothing else.
 *
 * Linux on x86-64; compile capi/hook/feddurzai_hook.c with it, with -pthread. The program ends by its count. It prints the
 * calls, how many of them met a change and were redirected by SIGTRAP, and how many threads were moved out of the
 * overwritten bytes. A number as the first word is another count than ten thousand.
 */
#define _GNU_SOURCE
#include "feddurzai_hook.h"

#include <inttypes.h>
#include <pthread.h>
#include <sched.h>
#include <stdatomic.h>
#include <stdio.h>
#include <stdlib.h>
#include <sys/mman.h>

enum { THREADS = 4, WAIT_EACH = 100 };

/* the function: the jump of 5 bytes takes its first three instructions, the one of 14 bytes the first five */
uint64_t worked(uint64_t n);
extern const uint8_t worked_end[];
__asm__(
    ".text\n"
    ".balign 16, 0xcc\n"
    ".type worked, @function\n"
    "worked:\n"
    "    push %rbx\n"
    "    mov %rdi, %rbx\n"
    "    inc %rbx\n"
    "    imul $3, %rbx, %rax\n"
    "    xor $0x55, %rax\n"
    "    pop %rbx\n"
    "    ret\n"
    "worked_end:\n"
    ".size worked, worked_end - worked\n");

static const uint64_t ADDED = UINT64_C(1) << 40;
static uint64_t (*original)(uint64_t);

static uint64_t replacement(uint64_t n)
{
    return original(n) + ADDED;
}

/* a page out of reach with a jump to the replacement, so that the patch needs 14 bytes; or NULL */
static void *far_replacement(void)
{
    uint8_t *page = mmap((void *)(uintptr_t)0x100000000000, 4096, PROT_READ | PROT_WRITE, MAP_PRIVATE | MAP_ANONYMOUS, -1, 0);
    uint64_t at = (uint64_t)(uintptr_t)page, to = (uint64_t)(uintptr_t)replacement;
    if (page == MAP_FAILED || feddurzai_jump(64, at, to, FEDDURZAI_JUMP_FAR, page, 4096) < 0)
        return NULL;
    return mprotect(page, 4096, PROT_READ | PROT_EXEC) == 0 ? page : NULL;
}

/* what a thread has counted; each thread has cache lines of its own */
struct caller {
    _Alignas(128) _Atomic(uint64_t) calls;
    uint64_t by_function, by_replacement, wrong;
    uint64_t wrong_n, wrong_result;
    pthread_t thread;
};

static struct caller callers[THREADS];
static atomic_int ended;

static void *call(void *with)
{
    struct caller *me = with;
    uint64_t n;
    for (n = 0; !atomic_load_explicit(&ended, memory_order_relaxed); n++) {
        uint64_t right = ((n + 1) * 3) ^ 0x55, result = worked(n);
        if (result == right)
            me->by_function++;
        else if (result == right + ADDED)
            me->by_replacement++;
        else if (me->wrong++ == 0) {
            me->wrong_n = n;
            me->wrong_result = result;
        }
        atomic_store_explicit(&me->calls, n + 1, memory_order_relaxed);
    }
    return NULL;
}

/* waits until each thread has begun and ended a further call */
static void wait_for_calls(void)
{
    uint64_t before[THREADS];
    int k;
    for (k = 0; k < THREADS; k++)
        before[k] = atomic_load(&callers[k].calls);
    for (k = 0; k < THREADS; k++)
        while (atomic_load(&callers[k].calls) < before[k] + 2)
            sched_yield();
}

static int fail(const char *what, int32_t said)
{
    printf("%s: %s\n", what, feddurzai_hook_error_text(said));
    return 1;
}

int main(int count, char **words)
{
    long rounds = count > 1 ? strtol(words[1], NULL, 10) : 10000, k;
    uint64_t calls = 0, by_function = 0, by_replacement = 0, wrong = 0, traps, moved;
    feddurzai_hook_parts parts;
    feddurzai_hook_options options = {(size_t)(worked_end - (const uint8_t *)(uintptr_t)worked), 0, &parts};
    int forms[4] = {0}, taken[4] = {0};
    void *near = FEDDURZAI_HOOK_ADDRESS(replacement), *far = far_replacement();
    int32_t said;
    if (far == NULL)
        return 1;
    for (k = 0; k < THREADS; k++)
        if (pthread_create(&callers[k].thread, NULL, call, &callers[k]) != 0)
            return 1;
    wait_for_calls();
    for (k = 0; k < rounds; k++) {
        options.flags = k % 2 == 0 ? 0 : FEDDURZAI_HOOK_FAR;
        said = feddurzai_hook_install_with(FEDDURZAI_HOOK_ADDRESS(worked), k % 2 == 0 ? near : far, &original, &options);
        if (said < 0)
            return fail("cannot install the hook", said);
        forms[parts.detour.form]++;
        taken[parts.detour.form] = (int)parts.detour.taken;
        if (k % WAIT_EACH < 2)
            wait_for_calls();
        said = feddurzai_hook_remove(FEDDURZAI_HOOK_ADDRESS(worked));
        if (said < 0)
            return fail("cannot remove the hook", said);
        if (k % WAIT_EACH < 2)
            wait_for_calls();
    }
    atomic_store(&ended, 1);
    for (k = 0; k < THREADS; k++) {
        pthread_join(callers[k].thread, NULL);
        calls += atomic_load(&callers[k].calls);
        by_function += callers[k].by_function;
        by_replacement += callers[k].by_replacement;
        wrong += callers[k].wrong;
        if (callers[k].wrong > 0)
            printf("thread %ld: %" PRIu64 " returned %" PRIx64 "\n", k, callers[k].wrong_n, callers[k].wrong_result);
    }
    feddurzai_hook_counts(&traps, &moved);
    printf("installed and removed: %d hooks by 5 bytes, which take %d, and %d by 14, which take %d\n", forms[FEDDURZAI_DETOUR_NEAR],
        taken[FEDDURZAI_DETOUR_NEAR], forms[FEDDURZAI_DETOUR_ABSOLUTE], taken[FEDDURZAI_DETOUR_ABSOLUTE]);
    printf("%" PRIu64 " calls met a change, %" PRIu64 " threads were moved\n", traps, moved);
    printf("%" PRIu64 " calls of %d threads: %" PRIu64 " by the function, %" PRIu64 " by the replacement, %" PRIu64 " WRONG\n", calls, THREADS,
        by_function, by_replacement, wrong);
    if (forms[FEDDURZAI_DETOUR_NEAR] + forms[FEDDURZAI_DETOUR_ABSOLUTE] != rounds)
        return 1;
    return wrong == 0 && by_function > 0 && by_replacement > 0 && by_function + by_replacement == calls ? 0 : 1;
}

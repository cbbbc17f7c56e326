/*
 * C++ exceptions and hooks: an exception of the original passes the replacement, whose destructors run, and is caught behind
 * the hook; a replacement throws one itself. Where a CALL is taken as the last instruction, it pushes its own return address,
 * and an exception of the callee passes. If it stays a CALL, calls work, but an exception of the callee ends the program, since
 * no unwind information covers the trampoline.
 *
 * Linux on x86-64. Compile feddurzai_hook.c as C, and link it.
 */
#include "feddurzai_hook.h"

#include "check.h"

#include <csignal>
#include <cstdlib>
#include <exception>
#include <sys/wait.h>
#include <unistd.h>

#define FUNCTION extern "C" __attribute__((noipa, noinline))

struct too_large {
    int n;
};

static int destroyed;

struct guard {
    ~guard() { destroyed++; }
};

/* the function: it throws from within, and has something to destroy itself */
FUNCTION int halved(int n)
{
    guard here;
    if (n > 100)
        throw too_large{n};
    return n / 2;
}

/* a function that begins with a call of one that throws: 9 bytes are taken */
extern "C" int begins_with_call(int n);
extern "C" const uint8_t begins_with_call_end[];
__asm__(
    ".text\n"
    ".type begins_with_call, @function\n"
    "begins_with_call:\n"
    "    .cfi_startproc\n"
    "    sub $8, %rsp\n"
    "    .cfi_adjust_cfa_offset 8\n"
    "    call halved\n"
    "    add $8, %rsp\n"
    "    .cfi_adjust_cfa_offset -8\n"
    "    ret\n"
    "    .cfi_endproc\n"
    "begins_with_call_end:\n");

static int (*original)(int);

FUNCTION int passes_on(int n)
{
    guard here;
    return original(n) + 1000;
}

FUNCTION int throws_itself(int n)
{
    guard here;
    throw too_large{-n};
}

/* what a call returns, or the negative number that it throws */
static int result_of(int (*function)(int), int n)
{
    try {
        return function(n);
    } catch (const too_large &thrown) {
        return -thrown.n;
    }
}

/* whether a child that runs the call ends by abort, as std::terminate does */
static int aborts(int (*function)(int), int n)
{
    int status;
    pid_t child = fork();
    if (child == 0) {
        std::set_terminate([] { std::abort(); });
        result_of(function, n);
        _exit(0);
    }
    if (child < 0 || waitpid(child, &status, 0) != child)
        return -1;
    return WIFSIGNALED(status) && WTERMSIG(status) == SIGABRT;
}

int main()
{
    int (*volatile function)(int) = halved;
    uint32_t forms[] = {0, FEDDURZAI_HOOK_FAR};
    CHECK(result_of(function, 40), 20);
    CHECK(result_of(function, 400), -400);
    for (uint32_t flags : forms) {
        feddurzai_hook_options options = {0, flags, nullptr};
        destroyed = 0;
        CHECK(feddurzai_hook_install_with(FEDDURZAI_HOOK_ADDRESS(halved), FEDDURZAI_HOOK_ADDRESS(passes_on), &original, &options), 0);
        CHECK(result_of(function, 40), 1020);
        CHECK(destroyed, 2);
        CHECK(result_of(function, 400), -400);
        CHECK(destroyed, 4);
        CHECK(feddurzai_hook_remove(FEDDURZAI_HOOK_ADDRESS(halved)), 0);
        CHECK(feddurzai_hook_install_with(FEDDURZAI_HOOK_ADDRESS(halved), FEDDURZAI_HOOK_ADDRESS(throws_itself), &original, &options), 0);
        CHECK(result_of(function, 40), 40);
        CHECK(destroyed, 5);
        CHECK(feddurzai_hook_remove(FEDDURZAI_HOOK_ADDRESS(halved)), 0);
        CHECK(result_of(function, 400), -400);
        CHECK(destroyed, 6);
    }
    function = begins_with_call;
    feddurzai_hook_options options = {(size_t)(begins_with_call_end - (const uint8_t *)FEDDURZAI_HOOK_ADDRESS(begins_with_call)), 0, nullptr};
    void *target = FEDDURZAI_HOOK_ADDRESS(begins_with_call), *replacement = FEDDURZAI_HOOK_ADDRESS(passes_on);
    CHECK(result_of(function, 400), -400);
    destroyed = 0;
    CHECK(feddurzai_hook_install_with(target, replacement, &original, &options), 0);
    CHECK(result_of(function, 40), 1020);
    CHECK(destroyed, 2);
    CHECK(result_of(function, 400), -400);
    CHECK(destroyed, 4);
    CHECK(feddurzai_hook_remove(target), 0);
    options.flags = FEDDURZAI_HOOK_PLAIN_CALLS;
    CHECK(feddurzai_hook_install_with(target, replacement, &original, &options), FEDDURZAI_HOOK_CALL);
    CHECK(result_of(function, 400), -400);
    options.flags = FEDDURZAI_HOOK_PLAIN_CALLS | FEDDURZAI_HOOK_ALLOW_CALLS;
    CHECK(feddurzai_hook_install_with(target, replacement, &original, &options), 0);
    CHECK(result_of(function, 40), 1020);
    CHECK(aborts(function, 400), 1);
    CHECK(feddurzai_hook_remove(target), 0);
    CHECK(result_of(function, 400), -400);
    printf("%d checks of hooks and C++ exceptions, %d failed\n", tests, failures);
    return failures == 0 ? 0 : 1;
}

/*
 * A debugger whose breakpoints stay: it sets one at each instruction of a function of another process, and runs each
 * instruction in a slot of its own, from which a jump leads back. So no breakpoint is ever removed, and no other thread
 * could run past one. The program does it in two ways: the process continues in the slot by itself, or the debugger steps
 * it there by the trap flag and moves it past the instruction when that is complete.
 *
 * Linux on x86-64, if ptrace is allowed. The program prints how often each instruction was reached, and the function's
 * results without a debugger, with slots, and stepped.
 */
#define _GNU_SOURCE
#include "feddurzai.h"

#include <inttypes.h>
#include <signal.h>
#include <stdio.h>
#include <string.h>
#include <sys/mman.h>
#include <sys/ptrace.h>
#include <sys/user.h>
#include <sys/wait.h>
#include <unistd.h>

enum { PAGE = 4096, MOST = 32 };

/* the function: a loop with a call and a load by an operand at RIP */
extern const uint8_t summed[], summed_end[];
__asm__(
    ".text\n"
    "summed:\n"
    "    xor %eax, %eax\n"
    "    test %edi, %edi\n"
    "    jle 2f\n"
    "1:  add %edi, %eax\n"
    "    call added\n"
    "    dec %edi\n"
    "    jnz 1b\n"
    "2:  ret\n"
    "added:\n"
    "    add more(%rip), %eax\n"
    "    ret\n"
    "summed_end:\n"
    ".data\n"
    "more: .long 3\n"
    ".text\n");

/* an instruction with its slot, and how often control reached it */
struct stop {
    uint64_t ip;
    uint64_t place;
    feddurzai_step_report step;
    char text[FEDDURZAI_MAX_TEXT];
    int hits;
};

static struct stop stops[MOST];
static size_t stop_count;

static uint64_t address_of(const void *pointer)
{
    return (uint64_t)(uintptr_t)pointer;
}

/* a page within reach of an address, shared with child processes, or NULL */
static uint8_t *near_page(uint64_t address)
{
    uint64_t step;
    for (step = 256 * PAGE; step < 0x70000000; step += 256 * PAGE) {
        void *wanted = (void *)(uintptr_t)((address & ~(uint64_t)(PAGE - 1)) + step);
        void *page = mmap(wanted, PAGE, PROT_READ | PROT_WRITE | PROT_EXEC, MAP_SHARED | MAP_ANONYMOUS | MAP_FIXED_NOREPLACE, -1, 0);
        if (page == wanted)
            return page;
        if (page != MAP_FAILED)
            munmap(page, PAGE);
    }
    return NULL;
}

/* makes a slot for each instruction of the code, in a region that is the page. Returns 0, or a refusal */
static int32_t make_slots(const uint8_t *code, size_t len, uint8_t *page)
{
    feddurzai_region region = {address_of(page), PAGE, 0};
    feddurzai_live live[MOST];
    size_t at = 0;
    memset(page, 0xcc, PAGE);
    while (at < len) {
        uint8_t made[FEDDURZAI_MAX_STEP];
        struct stop *stop = &stops[stop_count++];
        int32_t said = feddurzai_line(64, FEDDURZAI_INTEL, address_of(code) + at, code + at, len - at, NULL, stop->text, sizeof stop->text);
        if (said < 0)
            return said;
        stop->ip = address_of(code) + at;
        said = feddurzai_step_len(64, stop->ip, code + at, len - at, region.base);
        if (said >= 0)
            said = feddurzai_region_reserve(&region, live, MOST, (uint64_t)said, &stop->place);
        if (said >= 0)
            said = feddurzai_step(64, stop->ip, code + at, len - at, stop->place, made, sizeof made, &stop->step);
        if (said >= 0)
            said = feddurzai_region_fill(&region, live, MOST, stop->place, made, (size_t)said, page, PAGE);
        if (said < 0)
            return said;
        at += stop->step.len;
    }
    return 0;
}

/* overwrites the first byte of each instruction with int3 */
static int set_breakpoints(pid_t child)
{
    size_t k;
    for (k = 0; k < stop_count; k++) {
        void *at = (void *)(uintptr_t)stops[k].ip;
        long word = ptrace(PTRACE_PEEKTEXT, child, at, NULL);
        if (ptrace(PTRACE_POKETEXT, child, at, (void *)((word & ~0xffL) | 0xcc)) != 0)
            return -1;
    }
    return 0;
}

/* the instruction whose breakpoint stopped the process, or NULL */
static struct stop *stop_before(uint64_t rip)
{
    size_t k;
    for (k = 0; k < stop_count; k++)
        if (stops[k].ip + 1 == rip)
            return &stops[k];
    return NULL;
}

/* steps a process until the instruction of a slot is complete, and moves it to where it would be without the slot. Between
   done_at and back_at the instruction has happened and a jump to its target is left, so the debugger must not go back to ip */
static int step_through(pid_t child, const struct stop *stop, struct user_regs_struct *regs)
{
    int status;
    do {
        if (ptrace(PTRACE_SINGLESTEP, child, NULL, NULL) != 0 || waitpid(child, &status, 0) != child || !WIFSTOPPED(status))
            return -1;
        ptrace(PTRACE_GETREGS, child, NULL, regs);
    } while (regs->rip >= stop->place && regs->rip < stop->place + stop->step.back_at);
    if (regs->rip == stop->place + stop->step.back_at)
        regs->rip = stop->ip + stop->step.len;
    return ptrace(PTRACE_SETREGS, child, NULL, regs) == 0 ? 0 : -1;
}

/* runs the function in another process, with a breakpoint at each of its instructions. Returns its result, or -1 */
static int debugged(int n, int by_steps)
{
    int status;
    pid_t child = fork();
    if (child == 0) {
        int (*function)(int) = (int (*)(int))(uintptr_t)summed;
        if (ptrace(PTRACE_TRACEME, 0, NULL, NULL) != 0)
            _exit(255);
        raise(SIGSTOP);
        _exit(function(n));
    }
    if (child < 0 || waitpid(child, &status, 0) != child || !WIFSTOPPED(status) || set_breakpoints(child) != 0)
        return -1;
    for (;;) {
        struct user_regs_struct regs;
        struct stop *stop;
        if (ptrace(PTRACE_CONT, child, NULL, NULL) != 0 || waitpid(child, &status, 0) != child)
            return -1;
        if (WIFEXITED(status))
            return WEXITSTATUS(status);
        ptrace(PTRACE_GETREGS, child, NULL, &regs);
        stop = stop_before(regs.rip);
        if (!WIFSTOPPED(status) || WSTOPSIG(status) != SIGTRAP || stop == NULL) {
            kill(child, SIGKILL);
            return -1;
        }
        stop->hits++;
        regs.rip = stop->place;
        ptrace(PTRACE_SETREGS, child, NULL, &regs);
        if (by_steps && step_through(child, stop, &regs) != 0)
            return -1;
    }
}

int main(void)
{
    int (*volatile function)(int) = (int (*)(int))(uintptr_t)summed;
    uint8_t *page = near_page(address_of(summed));
    int want = function(5), went, stepped, hits = 0;
    int32_t said;
    size_t k;
    if (page == NULL) {
        printf("no free page near the function\n");
        return 1;
    }
    said = make_slots(summed, (size_t)(summed_end - summed), page);
    if (said < 0) {
        printf("cannot make a slot for an instruction: status %" PRId32 "\n", said);
        return 1;
    }
    went = debugged(5, 0);
    stepped = debugged(5, 1);
    for (k = 0; k < stop_count; k++) {
        printf("%4d  %" PRIx64 "  %s\n", stops[k].hits, stops[k].ip, stops[k].text);
        hits += stops[k].hits;
    }
    /* three instructions before the loop, four in it and two of the call, and the return; each twice */
    printf("%d instructions in %zu slots: %d without a debugger, %d with slots, %d stepped\n", hits, stop_count, want, went, stepped);
    return went == want && stepped == want && hits == 2 * (3 + 5 * 6 + 1) ? 0 : 1;
}

/*
 * A hook: a jump to another function overwrites the first bytes of a function of this program, and a trampoline in a page
 * near it does what they did. The other function counts the call and continues through the trampoline. A second function,
 * whose loop goes back into its first bytes, is refused.
 *
 * Linux on x86-64; compile capi/hook/feddurzai_hook.c with it. Its symbols say how long the functions are, so do not strip
 * it. The program prints the taken instructions, the patch and the trampoline, the results of the function before and with
 * the hook, the number of calls of the hook, and why the second function is refused.
 */
#include "feddurzai_hook.h"

#include <inttypes.h>
#include <stdio.h>

/* the hooked function; its first instructions are a branch out of them and a load by an operand at RIP */
static volatile int scale = 3;

__attribute__((noipa)) static int scaled_sum(int n)
{
    int sum = 0, i;
    if (n < 0)
        return -2;
    if (scale == 0)
        return -1;
    for (i = 1; i <= n; i++)
        sum += scale * i;
    return sum;
}

/* its loop begins at the second instruction, at offset 2, and so would enter a jump of 5 bytes */
int counts_up(int n);
__asm__(
    ".text\n"
    ".type counts_up, @function\n"
    "counts_up:\n"
    "    xor %eax, %eax\n"
    "1:  inc %eax\n"
    "    cmp %edi, %eax\n"
    "    jb 1b\n"
    "    ret\n"
    ".size counts_up, . - counts_up\n");

static int (*original)(int);
static int hook_calls;

static int hooked_sum(int n)
{
    hook_calls++;
    return original(n);
}

static int fail(const char *what, int32_t said)
{
    printf("%s: %s\n", what, feddurzai_hook_error_text(said));
    return 1;
}

/* prints code, one instruction a line, and the bytes after the instructions */
static void print_code(uint64_t ip, const uint8_t *bytes, size_t code, size_t len)
{
    size_t at = 0;
    while (at < code) {
        feddurzai_instr instr;
        char text[FEDDURZAI_MAX_TEXT];
        int32_t n = feddurzai_line(64, FEDDURZAI_INTEL, ip + at, bytes + at, code - at, &instr, text, sizeof text);
        if (n < 0)
            return;
        printf("  %" PRIx64 "  %s\n", ip + at, text);
        at += (size_t)n;
    }
    for (; at < len; at++)
        printf("%s%02x%s", at == code ? "  db " : " ", bytes[at], at + 1 == len ? "\n" : "");
}

int main(void)
{
    int (*volatile function)(int) = scaled_sum;
    static const int cases[] = {0, 1, 10, 100, -5};
    int before[5], k, same = 1;
    feddurzai_hook_parts parts;
    feddurzai_hook_options options = {0, 0, &parts};
    uint64_t start = (uint64_t)(uintptr_t)scaled_sum;
    int32_t said;
    for (k = 0; k < 5; k++)
        before[k] = function(cases[k]);

    said = feddurzai_hook_install_with(FEDDURZAI_HOOK_ADDRESS(scaled_sum), FEDDURZAI_HOOK_ADDRESS(hooked_sum), &original, &options);
    if (said < 0)
        return fail("cannot hook the function", said);
    printf("taken:\n");
    print_code(start, parts.before, (size_t)parts.detour.taken, (size_t)parts.detour.taken);
    printf("patch:\n");
    print_code(start, parts.patch, (size_t)parts.detour.taken, (size_t)parts.detour.taken);
    printf("trampoline:\n");
    print_code(parts.place, parts.trampoline, (size_t)parts.detour.jump_back + 5, (size_t)parts.detour.bytes);
    for (k = 0; k < 5; k++) {
        int after = function(cases[k]);
        printf("%d: %d before, %d with the hook\n", cases[k], before[k], after);
        same = same && before[k] == after;
    }
    scale = 0;
    same = same && function(7) == -1;
    scale = 3;

    said = feddurzai_hook_remove(FEDDURZAI_HOOK_ADDRESS(scaled_sum));
    if (said < 0)
        return fail("cannot remove the hook", said);
    for (k = 0; k < 5; k++)
        same = same && function(cases[k]) == before[k];

    said = feddurzai_hook_install_with(FEDDURZAI_HOOK_ADDRESS(counts_up), FEDDURZAI_HOOK_ADDRESS(hooked_sum), &original, &options);
    if (said != FEDDURZAI_ENTERED || parts.at != 6 || parts.target != 2)
        return fail("the function whose loop enters its first bytes must be refused", said);
    printf("counts_up is refused: control goes from offset %" PRIu64 " to offset %" PRIu64 ", which would be overwritten\n", parts.at, parts.target);
    printf("the hook was called %d times; %s\n", hook_calls, same ? "the same results" : "OTHER RESULTS");
    return same && hook_calls == 6 ? 0 : 1;
}

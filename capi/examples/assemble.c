/*
 * A function that is assembled, placed and called: a loop with a table of constants. It counts the bits that are 1 in some
 * bytes, and the program compares its counts with those of a loop in C.
 *
 * Linux on x86-64. The program prints the size of the function and the address of its table, and fails if a count differs.
 */
#define _GNU_SOURCE
#include "feddurzai.h"

#include <inttypes.h>
#include <stdio.h>
#include <string.h>
#include <sys/mman.h>

enum { PAGE = 4096, LABELS = 4, TESTS = 256 };

/* uint64_t ones(const uint8_t *bytes, uint64_t count), by a table of the ones in half a byte */
static const char text[] =
    "        xor eax, eax\n"
    "        lea rcx, [rip+counts]\n"
    "        test rsi, rsi\n"
    "        jz done\n"
    "next:   movzx edx, byte [rdi]\n"
    "        mov r8d, edx\n"
    "        and edx, 15\n"
    "        shr r8d, 4\n"
    "        movzx edx, byte [rcx+rdx]\n"
    "        add rax, rdx\n"
    "        movzx edx, byte [rcx+r8]\n"
    "        add rax, rdx\n"
    "        inc rdi\n"
    "        dec rsi\n"
    "        jnz next\n"
    "done:   ret\n"
    "counts: db 0, 1, 1, 2, 1, 2, 2, 3, 1, 2, 2, 3, 2, 3, 3, 4\n";

typedef uint64_t count_function(const uint8_t *bytes, uint64_t count);

static uint64_t ones_in(const uint8_t *bytes, uint64_t count)
{
    uint64_t sum = 0, k;
    for (k = 0; k < count; k++) {
        uint8_t rest = bytes[k];
        for (; rest != 0; rest >>= 1)
            sum += rest & 1;
    }
    return sum;
}

int main(void)
{
    uint8_t *page = mmap(NULL, PAGE, PROT_READ | PROT_WRITE, MAP_PRIVATE | MAP_ANONYMOUS, -1, 0);
    uint8_t bytes[TESTS];
    feddurzai_label labels[LABELS];
    feddurzai_routine_report report;
    count_function *ones;
    uint64_t k;
    int32_t said;
    if (page == MAP_FAILED)
        return 1;
    said = feddurzai_assemble_code(64, (uintptr_t)page, text, sizeof text - 1, NULL, 0, page, PAGE, labels, LABELS, &report);
    if (said < 0) {
        printf("the function is not assembled: status %" PRId32 " in line %" PRIu64 ", column %" PRIu64 "\n", said, report.line, report.column);
        return 1;
    }
    if (mprotect(page, PAGE, PROT_READ | PROT_EXEC) != 0)
        return 1;
    ones = (count_function *)(uintptr_t)page;
    for (k = 0; k < TESTS; k++)
        bytes[k] = (uint8_t)(k * 151 + 7);
    for (k = 0; k <= TESTS; k++) {
        if (ones(bytes, k) != ones_in(bytes, k)) {
            printf("of %" PRIu64 " bytes the count differs\n", k);
            return 1;
        }
    }
    for (k = 0; k < report.labels; k++)
        if (labels[k].len == 6 && memcmp(text + labels[k].offset, "counts", 6) == 0)
            printf("a function of %" PRIu64 " bytes, whose table begins at byte %" PRIu64 ", counts right\n", report.bytes,
                labels[k].address - (uintptr_t)page);
    return 0;
}

/*
 * Unwind information: calls of the library run one instruction at a time by the trap flag, and at each instruction, in
 * the library, in malloc and in what else they call, the stack is walked by .eh_frame, as backtrace() and exceptions do.
 * Each walk has to come to the frame that made the calls, with the registers that a call keeps as they were there, and
 * then to main. With the word `frames` the registers are not compared: code of the kit's compiler `rattle` saves some of
 * them late, and its .debug_frame calls those undefined.
 *
 * Linux on x86-64. Run: it prints how many instructions were walked from, or the first where a walk fails.
 */
#define _GNU_SOURCE
#include "feddurzai.h"

#include <inttypes.h>
#include <signal.h>
#include <stdio.h>
#include <stdlib.h>
#include <string.h>
#include <sys/mman.h>
#include <ucontext.h>
#include <unistd.h>
#include <unwind.h>

/*
 * with_known(f, args) calls f with twenty-one arguments, a known number in each register that a call keeps, and the trap flag;
 * known_back is the address behind the call. No frame of a compiler is between, which would keep these registers itself.
 */
int64_t with_known(void (*f)(void), const uint64_t *args);
extern const char known_back[];
__asm__(
    ".pushsection .text\n"
    ".type with_known, @function\n"
    "with_known:\n"
    "    .cfi_startproc\n"
    "    push %rbx\n    .cfi_adjust_cfa_offset 8\n    .cfi_rel_offset rbx, 0\n"
    "    push %rbp\n    .cfi_adjust_cfa_offset 8\n    .cfi_rel_offset rbp, 0\n"
    "    push %r12\n    .cfi_adjust_cfa_offset 8\n    .cfi_rel_offset r12, 0\n"
    "    push %r13\n    .cfi_adjust_cfa_offset 8\n    .cfi_rel_offset r13, 0\n"
    "    push %r14\n    .cfi_adjust_cfa_offset 8\n    .cfi_rel_offset r14, 0\n"
    "    push %r15\n    .cfi_adjust_cfa_offset 8\n    .cfi_rel_offset r15, 0\n"
    "    sub $136, %rsp\n    .cfi_adjust_cfa_offset 136\n"
    "    mov %rdi, %r11\n"
    "    mov %rsi, %r10\n"
    "    mov 48(%r10), %rax\n    mov %rax, (%rsp)\n"
    "    mov 56(%r10), %rax\n    mov %rax, 8(%rsp)\n"
    "    mov 64(%r10), %rax\n    mov %rax, 16(%rsp)\n"
    "    mov 72(%r10), %rax\n    mov %rax, 24(%rsp)\n"
    "    mov 80(%r10), %rax\n    mov %rax, 32(%rsp)\n"
    "    mov 88(%r10), %rax\n    mov %rax, 40(%rsp)\n"
    "    mov 96(%r10), %rax\n    mov %rax, 48(%rsp)\n"
    "    mov 104(%r10), %rax\n    mov %rax, 56(%rsp)\n"
    "    mov 112(%r10), %rax\n    mov %rax, 64(%rsp)\n"
    "    mov 120(%r10), %rax\n    mov %rax, 72(%rsp)\n"
    "    mov 128(%r10), %rax\n    mov %rax, 80(%rsp)\n"
    "    mov 136(%r10), %rax\n    mov %rax, 88(%rsp)\n"
    "    mov 144(%r10), %rax\n    mov %rax, 96(%rsp)\n"
    "    mov 152(%r10), %rax\n    mov %rax, 104(%rsp)\n"
    "    mov 160(%r10), %rax\n    mov %rax, 112(%rsp)\n"
    "    mov (%r10), %rdi\n    mov 8(%r10), %rsi\n    mov 16(%r10), %rdx\n"
    "    mov 24(%r10), %rcx\n    mov 32(%r10), %r8\n    mov 40(%r10), %r9\n"
    "    movabs $0x1003100310031003, %rbx\n"
    "    movabs $0x1006100610061006, %rbp\n"
    "    movabs $0x100c100c100c100c, %r12\n"
    "    movabs $0x100d100d100d100d, %r13\n"
    "    movabs $0x100e100e100e100e, %r14\n"
    "    movabs $0x100f100f100f100f, %r15\n"
    "    pushf\n    .cfi_adjust_cfa_offset 8\n"
    "    orl $0x100, (%rsp)\n"
    "    popf\n    .cfi_adjust_cfa_offset -8\n"
    "    call *%r11\n"
    "known_back:\n"
    "    add $136, %rsp\n    .cfi_adjust_cfa_offset -136\n"
    "    pop %r15\n    .cfi_adjust_cfa_offset -8\n    .cfi_restore r15\n"
    "    pop %r14\n    .cfi_adjust_cfa_offset -8\n    .cfi_restore r14\n"
    "    pop %r13\n    .cfi_adjust_cfa_offset -8\n    .cfi_restore r13\n"
    "    pop %r12\n    .cfi_adjust_cfa_offset -8\n    .cfi_restore r12\n"
    "    pop %rbp\n    .cfi_adjust_cfa_offset -8\n    .cfi_restore rbp\n"
    "    pop %rbx\n    .cfi_adjust_cfa_offset -8\n    .cfi_restore rbx\n"
    "    cltq\n"
    "    ret\n"
    "    .cfi_endproc\n"
    ".size with_known, . - with_known\n"
    ".popsection\n");

/* a call of the library's function itself; P passes a pointer */
#define CALL(f, ...) with_known((void (*)(void))f, (const uint64_t[21]){__VA_ARGS__})
#define P(pointer) ((uint64_t)(uintptr_t)(pointer))

/* the numbers of these registers in DWARF */
static const int kept[] = {3, 6, 12, 13, 14, 15};

/* in data, since code may have the address of the program's way to the library in its place */
static uint32_t (*volatile of_library)(void) = feddurzai_version;

static uint64_t walked, in_library, first_byte, last_byte;
static void *main_frame;

struct walk {
    int known, main, wrong;
};

static _Unwind_Reason_Code step(struct _Unwind_Context *context, void *data)
{
    struct walk *walk = data;
    size_t i;
    if (_Unwind_GetIP(context) == P(known_back)) {
        walk->known = 1;
        for (i = 0; i < sizeof kept / sizeof *kept; i++)
            if (_Unwind_GetGR(context, kept[i]) != UINT64_C(0x1000100010001000) + kept[i] * UINT64_C(0x0001000100010001))
                walk->wrong = kept[i];
    }
    if (walk->known && _Unwind_FindEnclosingFunction((void *)(_Unwind_GetIP(context) - 1)) == main_frame)
        walk->main = 1;
    return _URC_NO_REASON;
}

/* Whether the registers are not compared. */
static int frames_only;

static void trapped(int signal, siginfo_t *info, void *data)
{
    ucontext_t *at = data;
    uint64_t ip = (uint64_t)at->uc_mcontext.gregs[REG_RIP];
    struct walk walk = {0, 0, 0};
    (void)signal, (void)info;
    if (ip == P(known_back)) {
        at->uc_mcontext.gregs[REG_EFL] &= ~0x100;
        return;
    }
    _Unwind_Backtrace(step, &walk);
    if (!walk.known || !walk.main || (walk.wrong && !frames_only)) {
        printf("unwind: at %#" PRIx64 ", %" PRId64 " behind feddurzai_version, a walk of the stack ", ip,
            (int64_t)(ip - P(of_library)));
        if (!walk.known || !walk.main)
            printf("does not come to main\n");
        else
            printf("finds another register %d of DWARF than there was\n", walk.wrong);
        fflush(stdout);
        _exit(1);
    }
    walked++;
    in_library += ip >= first_byte && ip < last_byte;
}

/* a loop with a branch that grows, a call, a jump table's branch, operands at RIP, and many other instructions */
static const uint8_t code[] =
    "\x55\x48\x89\xe5\x48\x83\xec\x20\x31\xc0\x48\x8b\x0d\x10\x00\x00\x00\x74\x05\xe8\x40\x00\x00\x00"
    "\x48\x01\xc8\xff\x24\xcd\x00\x10\x40\x00\xe2\xf0\x66\x0f\x6f\xc8\xc5\xf8\x58\xc1\xf3\xa4\xd9\xc0"
    "\xc4\xe2\x7d\x18\xc1\x0f\xb6\x44\x8b\x10\x48\xf7\xf1\x87\xd9\x0f\x44\xc1\x66\x90\xe3\xfe\xc9\xc3";

enum { SIZE = sizeof code - 1 };

/* calls of all kinds; what they answer is tested elsewhere */
static void works(void)
{
    static uint8_t out[512], image[4096], patch[64];
    static feddurzai_moved map[64];
    static feddurzai_instr instrs[64];
    static uint32_t starts[128], leaders[128];
    static uint8_t kinds[128];
    feddurzai_move_report moved;
    feddurzai_block blocks[2] = {{0x1000, 0x700000, 0, 24}, {0x9000, 0x900000, 24, SIZE - 24}};
    feddurzai_placed_block places[2];
    feddurzai_blocks_report placed;
    feddurzai_region region = {0x500000, 4096, 0};
    feddurzai_live live[4];
    feddurzai_step_report stepped;
    feddurzai_detour_report detour;
    feddurzai_view view;
    feddurzai_hook_report hook;
    feddurzai_kept_report kept;
    feddurzai_padded_report padded;
    feddurzai_moved_start begins[16];
    static const char lines[] = "next: add rax, size\n  jnz next\n  db 1, 'ab'\n";
    feddurzai_label labels[2];
    feddurzai_routine_report routine;
    feddurzai_byte_offsets parts;
    feddurzai_about about;
    feddurzai_touched touched;
    char text[FEDDURZAI_MAX_TEXT];
    const uint32_t entries[2] = {0, 24};
    uint64_t place;
    uint8_t access;
    size_t at, count;
    int64_t len;

    CALL(feddurzai_move, 64, 0x401000, P(code), SIZE, 0x7fff00000000, P(out), sizeof out, P(map), 64, P(&moved));
    CALL(feddurzai_move, 64, 0x401000, P(code), SIZE, 0x401100, P(out), sizeof out, P(map), 64, P(&moved));
    CALL(feddurzai_move_outside, 64, 0x401000, P(code), SIZE, 0x501000, P(out), sizeof out, P(map), 64, P(&moved));
    CALL(feddurzai_move_unlisted, 64, 0x401000, P(code), SIZE, 0x501000, P(out), sizeof out, P(map), 64, P(&moved));
    CALL(feddurzai_move_blocks, 64, P(code), SIZE, P(blocks), 2, P(out), sizeof out, P(places), 2, P(map), 64, P(&placed));
    CALL(feddurzai_flow, 64, 0x401000, P(code), SIZE, P(starts), 128, P(leaders), 128);
    CALL(feddurzai_flow_from, 64, 0x401000, P(code), SIZE, P(entries), 2, P(starts), 128, P(leaders), 128, P(kinds), 128);
    CALL(feddurzai_flow_unlisted, 64, 0x401000, P(code), SIZE, P(entries), 2, P(starts), 128, P(leaders), 128, P(kinds), 128);
    CALL(feddurzai_detour, 64, 0x401000, P(code), SIZE, 0x7fff00000000, 0x500000, FEDDURZAI_START_MOVED, P(patch), sizeof patch,
        P(out), sizeof out, P(&detour));
    CALL(feddurzai_look, 64, 0x401000, P(code), SIZE, P(entries), 2, 8, P(entries), 1, FEDDURZAI_START_CLOSED, P(&view));
    CALL(feddurzai_detour_unlisted, 64, 0x401000, P(code), SIZE, 0x7fff00000000, 0x500000, FEDDURZAI_START_MOVED, P(patch),
        sizeof patch, P(out), sizeof out, P(&detour));
    CALL(feddurzai_detour_with, 64, 0x401000, P(code), SIZE, 0x7fff00000000, 0x500000, FEDDURZAI_START_MOVED, 0, P(entries), 2,
        P(patch), sizeof patch, P(out), sizeof out, P(begins), 16, P(&hook));
    CALL(feddurzai_detour_endbr, 64, 0x401000, P(code), SIZE, 0x7fff00000000, 0x500000, FEDDURZAI_START_MOVED, 0, P(entries), 2,
        P(patch), sizeof patch, P(out), sizeof out, P(begins), 16, P(&kept));
    CALL(feddurzai_detour_padding, 64, 0x401000, P("\xcc\xcc\xcc\xcc\xcc"), 5, P(code), SIZE, 0x7fff00000000, 0x500000,
        FEDDURZAI_START_MOVED, 0, P(entries), 2, P(out), 5, P(patch), sizeof patch, P(out + 8), sizeof out - 8, P(begins), 16, P(&padded));
    CALL(feddurzai_detour_len, 64, 0x401000, P(code), SIZE, 0x7fff00000000, FEDDURZAI_START_MOVED, 0);
    CALL(feddurzai_region_reserve, P(&region), P(live), 4, FEDDURZAI_MAX_STEP, P(&place));
    len = CALL(feddurzai_step, 64, 0x401000, P(code + 19), 5, place, P(out), sizeof out, P(&stepped));
    if (len > 0)
        CALL(feddurzai_region_fill, P(&region), P(live), 4, place, P(out), (uint64_t)len, P(image), sizeof image);
    CALL(feddurzai_region_release, P(&region), P(live), 4, place);
    CALL(feddurzai_decode_many, 64, 0x401000, P(code), SIZE, P(instrs), 64, P(&count));
    for (at = 0; at < count; at++) {
        CALL(feddurzai_text, 64, at % 3, P(&instrs[at]), P(text), sizeof text);
        CALL(feddurzai_info, P(&instrs[at]), P(&about));
        CALL(feddurzai_effects, 64, P(&instrs[at]), P(&touched));
        CALL(feddurzai_encode, 64, 0x401000, P(&instrs[at]), P(out), sizeof out);
        CALL(feddurzai_notation, instrs[at].code, P(text), sizeof text);
        CALL(feddurzai_row_operand, instrs[at].code, 0, P(&access), P(text), sizeof text);
    }
    CALL(feddurzai_offsets, 64, P(code + 10), SIZE - 10, P(&parts));
    CALL(feddurzai_assemble, 64, 0x401000, P("add rax, rcx"), 12, P(out), sizeof out);
    CALL(feddurzai_assemble_code, 64, 0x401000, P(lines), sizeof lines - 1, P("size = 8"), 8, P(out), sizeof out, P(labels), 2, P(&routine));
    CALL(feddurzai_assemble_code_near, 64, 0x401000, P(lines), sizeof lines - 1, P("size = 8"), 8, P(out), sizeof out, P(labels), 2, P(&routine));
    CALL(feddurzai_jump, 64, 0x401000, 0x7fff00000000, FEDDURZAI_JUMP_FAR, P(out), sizeof out);
    CALL(feddurzai_register_text, FEDDURZAI_ATT, FEDDURZAI_R64, 12, P(text), sizeof text);
}

/* where the library's code is: the mapping that has its functions */
static int finds_library(void)
{
    uint64_t of = P(of_library);
    char row[512];
    FILE *maps = fopen("/proc/self/maps", "r");
    if (maps == NULL)
        return 0;
    while (fgets(row, sizeof row, maps) != NULL)
        if (sscanf(row, "%" SCNx64 "-%" SCNx64, &first_byte, &last_byte) == 2 && of >= first_byte && of < last_byte)
            break;
    fclose(maps);
    return of >= first_byte && of < last_byte;
}

int main(int argc, char **argv)
{
    static uint8_t stack[1 << 16];
    struct sigaction action;
    stack_t other;
    struct walk walk = {0, 0, 0};
    frames_only = argc > 1 && strcmp(argv[1], "frames") == 0;
    if (!finds_library()) {
        printf("unwind: /proc/self/maps does not say where the library is\n");
        return 1;
    }
    main_frame = _Unwind_FindEnclosingFunction((void *)((uintptr_t)main + 1));
    /* what the walk loads at its first time is loaded before */
    _Unwind_Backtrace(step, &walk);
    memset(&other, 0, sizeof other);
    other.ss_sp = stack;
    other.ss_size = sizeof stack;
    memset(&action, 0, sizeof action);
    action.sa_sigaction = trapped;
    action.sa_flags = SA_SIGINFO | SA_ONSTACK;
    if (sigaltstack(&other, NULL) != 0 || sigaction(SIGTRAP, &action, NULL) != 0) {
        printf("unwind: no handler for the trap flag\n");
        return 1;
    }
    works();
    if (in_library < 10000) {
        printf("unwind: only %" PRIu64 " instructions of the library were walked from: does the trap flag work here?\n", in_library);
        return 1;
    }
    printf("at each of %" PRIu64 " instructions, %" PRIu64 " of the library, the stack was walked to main%s\n", walked, in_library,
        frames_only ? ", registers not compared" : "");
    return 0;
}

/*
 * The examples in the comments of feddurzai.h, each with what its comment says of the result. test.sh compares the two: each
 * indented line of a comment is a line of this file too. C99 and C++11.
 */
#include "feddurzai.h"

#include "check.h"

#include <inttypes.h>
#include <stdlib.h>
#include <string.h>

/* the arguments of the examples, fresh for each */
static feddurzai_instr instr, instrs[16];
static feddurzai_byte_offsets parts;
static feddurzai_shape shape;
static feddurzai_about about;
static feddurzai_touched touched;
static feddurzai_moved map[4];
static feddurzai_label labels[1];
static feddurzai_routine_report routine;
static uint8_t bytes[FEDDURZAI_MAX_LEN + 1], out[64], image[4096], patch[FEDDURZAI_MAX_PATCH], trampoline[64], kinds[4], access;
static uint32_t starts[4], leaders[4];
static char text[FEDDURZAI_MAX_TEXT];
static int32_t len, said;

/* Whether some bytes are those of a string. */
#define CHECK_BYTES(got, want) CHECK(memcmp(got, want, sizeof want - 1), 0)
#define CHECK_TEXT(want) CHECK(strcmp(text, want), 0)

static int versions(void)
{
    if (feddurzai_interface() != FEDDURZAI_INTERFACE)
        return 1;
    return 0;
}

static void causes(void)
{
    int32_t said = feddurzai_decode(64, 0x1000, (const uint8_t *)"\x2e\x2e\x74\x7f", 4, &instr);
    CHECK(said, 4);
    said = feddurzai_encoded_len(64, 0x1000, &instr);
    if (FEDDURZAI_CAUSE(said) == FEDDURZAI_CAUSE_TARGET)
        printf("operand %d is out of reach\n", (int)FEDDURZAI_CAUSE_OPERAND(said));
    CHECK(FEDDURZAI_CAUSE(said), FEDDURZAI_CAUSE_TARGET);
    CHECK(FEDDURZAI_CAUSE_OPERAND(said), 0);
}

static void made(void)
{
    memset(&instr, 0, sizeof instr);
    instr.code = FEDDURZAI_CODE_PUSH_R64;
    instr.ops[0].kind = FEDDURZAI_REGISTER;
    instr.ops[0].reg_class = FEDDURZAI_R64;
    instr.ops[0].reg_number = 8;
    len = feddurzai_encode(64, 0, &instr, bytes, sizeof bytes);        // 2: 41 50, push r8
    CHECK(len, 2);
    CHECK_BYTES(bytes, "\x41\x50");

    memset(&instr, 0, sizeof instr);
    instr.code = FEDDURZAI_CODE_MOV_RM64_R64;
    instr.asize = 64;
    instr.ops[0].kind = FEDDURZAI_MEMORY;
    instr.ops[0].reg_class = FEDDURZAI_R64;
    instr.ops[0].reg_number = FEDDURZAI_SP;
    instr.ops[0].scale = 1;
    instr.ops[0].value = 0x10;
    instr.ops[0].disp_bits = FEDDURZAI_DISP_SHORTEST;
    instr.ops[1].kind = FEDDURZAI_REGISTER;
    instr.ops[1].reg_class = FEDDURZAI_R64;
    instr.ops[1].reg_number = FEDDURZAI_BX;
    len = feddurzai_encode(64, 0, &instr, bytes, sizeof bytes);        // 5: 48 89 5c 24 10, mov qword [rsp+0x10], rbx
    CHECK(len, 5);
    CHECK_BYTES(bytes, "\x48\x89\x5c\x24\x10");
}

static void decoded(void)
{
    int32_t len = feddurzai_decode(64, 0x1000, (const uint8_t *)"\x48\x89\x5c\x24\x10", 5, &instr);
    if (len > 0 && feddurzai_text(64, FEDDURZAI_INTEL, &instr, text, sizeof text) >= 0)
        puts(text);                                                    // mov qword [rsp+0x10], rbx
    CHECK(len, 5);
    CHECK_TEXT("mov qword [rsp+0x10], rbx");

    len = feddurzai_offsets(64, (const uint8_t *)"\x48\x89\x5c\x24\x10", 5, &parts);
    printf("displacement: %d byte at %d\n", parts.displacement.len, parts.displacement.at);    // 1 byte at 4
    CHECK(len, 5);
    CHECK(parts.displacement.len, 1);
    CHECK(parts.displacement.at, 4);

    // vpxord zmm0, zmm0, [rip+0x10]
    len = feddurzai_measure(64, (const uint8_t *)"\x62\xf1\x7d\x48\xef\x05\x10\x00\x00\x00", 10, &shape);
    // len is 10, shape.reference FEDDURZAI_REFERENCE_RIP, shape.at 6 and shape.distance 16
    CHECK(len, 10);
    CHECK(shape.kind << 8 | shape.reference, FEDDURZAI_KIND_EVEX << 8 | FEDDURZAI_REFERENCE_RIP);
    CHECK(shape.at << 8 | shape.size, 6 << 8 | 4);
    CHECK(shape.distance, 16);

    len = feddurzai_text(64, FEDDURZAI_ATT, &instr, text, sizeof text);     // 21: movq %rbx, 0x10(%rsp)
    CHECK(len, 21);
    CHECK_TEXT("movq %rbx, 0x10(%rsp)");
}

static void in_pieces(void)
{
    feddurzai_piece pieces[FEDDURZAI_MAX_PIECES];
    feddurzai_decode(64, 0x1000, (const uint8_t *)"\x74\x10", 2, &instr);       // je 0x1012
    int32_t count = feddurzai_pieces(64, FEDDURZAI_INTEL, &instr, text, sizeof text, pieces, FEDDURZAI_MAX_PIECES);
    if (count == 3 && pieces[2].role == FEDDURZAI_ROLE_TARGET)                  // the mnemonic, a space, the number
        printf("to %llx\n", (unsigned long long)pieces[2].value);
    CHECK(count, 3);
    CHECK(pieces[2].value, 0x1012);
}

// Knows one symbol, 8 bytes in front of 0x2000.
static int symbol_of(void *user, uint64_t address, const char **name, size_t *name_len, uint64_t *offset)
{
    if (user != NULL || address != 0x2000)
        return 0;
    *name = "puts@plt";
    *name_len = 8;
    *offset = 8;
    return 1;
}

static void by_options(void)
{
    static const feddurzai_options gnu = FEDDURZAI_GNU_OPTIONS;
    feddurzai_decode(64, 0x1000, (const uint8_t *)"\xe8\xfb\x0f\x00\x00", 5, &instr);
    len = feddurzai_format(64, FEDDURZAI_MASM, &gnu, &instr, 0x1005, "puts@plt", 8, 0, text, sizeof text);
    // call   0x2000 <puts@plt>
    CHECK(len, 24);
    CHECK_TEXT("call   0x2000 <puts@plt>");
    feddurzai_decode(64, 0x1000, (const uint8_t *)"\x66\x90", 2, &instr);
    len = feddurzai_format_code(64, FEDDURZAI_MASM, &gnu, (const uint8_t *)"\x66\x90", 2, &instr, 0x1002, "", 0, 0, text,
        sizeof text);
    // xchg   ax,ax
    CHECK(len, 12);
    CHECK_TEXT("xchg   ax,ax");
    feddurzai_decode(64, 0x1000, (const uint8_t *)"\xe8\xfb\x0f\x00\x00", 5, &instr);
    len = feddurzai_format_with(64, FEDDURZAI_MASM, &gnu, (const uint8_t *)"\xe8\xfb\x0f\x00\x00", 5, &instr, 0x1005,
        symbol_of, NULL, text, sizeof text);
    CHECK(len, 28);
    CHECK_TEXT("call   0x2000 <puts@plt+0x8>");
    len = feddurzai_format_with(64, FEDDURZAI_MASM, &gnu, (const uint8_t *)"\x90", 1, &instr, 0x1005, NULL, NULL, text, sizeof text);
    CHECK(len, 13);
    CHECK_TEXT("call   0x2000");
    feddurzai_decode(64, 0x1000, (const uint8_t *)"\xeb\x00", 2, &instr);
    len = feddurzai_format_with(64, FEDDURZAI_MASM, &gnu, (const uint8_t *)"\xeb\x00", 2, &instr, 0x1002, symbol_of, NULL, text,
        sizeof text);
    CHECK_TEXT("jmp    0x1002");
}

static void decoded_many(void)
{
    size_t count;
    int32_t taken = feddurzai_decode_many(64, 0x1000, (const uint8_t *)"\x90\x06\xc3", 3, instrs, 16, &count);
    // taken is 3, count is 3, and instrs[1].code is FEDDURZAI_CODE_INVALID: 06 begins no instruction of 64-bit code
    CHECK(taken, 3);
    CHECK(count, 3);
    CHECK(instrs[1].code, FEDDURZAI_CODE_INVALID);
}

static void printed_and_read(void)
{
    const char *wanted = "je 0x1010";
    len = feddurzai_line(64, FEDDURZAI_INTEL, 0x1000, (const uint8_t *)"\x74\x10", 2, NULL, text, sizeof text);
    // len is 2, and text is je 0x1012
    CHECK(len, 2);
    CHECK_TEXT("je 0x1012");
    len = feddurzai_assemble(64, 0x1000, wanted, strlen(wanted), bytes, sizeof bytes);         // 2: 74 0e
    CHECK(len, 2);
    CHECK_BYTES(bytes, "\x74\x0e");
    const char *loop = "again: add eax, ecx\n dec ecx\n jne again ; until it is 0\n ret";
    said = feddurzai_assemble_code(64, 0x401000, loop, strlen(loop), NULL, 0, bytes, sizeof bytes, labels, 1, &routine);
    // said is 0, routine.bytes is 7: 01 c8 ff c9 75 fa c3. labels[0].address is 0x401000, and its name has 5 bytes
    CHECK(said, 0);
    CHECK(routine.bytes, 7);
    CHECK_BYTES(bytes, "\x01\xc8\xff\xc9\x75\xfa\xc3");
    CHECK(labels[0].address, 0x401000);
    CHECK(labels[0].len, 5);
    const char *back = "dec ecx\n jmp start", *start = "start = 0x10";
    said = feddurzai_assemble_code_near(64, 0x8000000a, back, strlen(back), start, strlen(start), bytes, sizeof bytes,
        labels, 1, &routine);
    // said is FEDDURZAI_TOO_FAR, routine.line is 2, routine.column is 2, routine.address is 0x10
    CHECK(said, FEDDURZAI_TOO_FAR);
    CHECK(routine.line, 2);
    CHECK(routine.column, 2);
    CHECK(routine.address, 0x10);
    len = feddurzai_jump(64, 0x1000, 0x1010, FEDDURZAI_JUMP_NEAR, bytes, sizeof bytes);        // 5: e9 0b 00 00 00
    CHECK(len, 5);
    CHECK_BYTES(bytes, "\xe9\x0b\x00\x00\x00");
}

static void analysed(void)
{
    feddurzai_decode(64, 0x1000, (const uint8_t *)"\x74\x10", 2, &instr);       // je 0x1012
    if (feddurzai_info(&instr, &about) == 0 && about.flow == FEDDURZAI_FLOW_CONDITIONAL)
        printf("branches to %" PRIx64 "\n", about.target);                      // 1012
    CHECK(about.flow, FEDDURZAI_FLOW_CONDITIONAL);
    CHECK(about.target, 0x1012);

    feddurzai_decode(64, 0, (const uint8_t *)"\x53", 1, &instr);                // push rbx
    if (feddurzai_effects(64, &instr, &touched) == 0)
        printf("%d registers, %d bytes of memory\n", touched.register_count, touched.memory[0].size);
    // 2 registers: RBX is read, RSP is read and written. 8 bytes at ss:[rsp-8] are written
    CHECK(touched.register_count, 2);
    CHECK(touched.registers[0].reg_number, FEDDURZAI_BX);
    CHECK(touched.registers[0].access, FEDDURZAI_READ);
    CHECK(touched.registers[1].reg_number, FEDDURZAI_SP);
    CHECK(touched.registers[1].access, FEDDURZAI_READ_WRITE);
    CHECK(touched.memory[0].size, 8);
    CHECK(touched.memory[0].segment, FEDDURZAI_SS);
    CHECK(touched.memory[0].displacement == (uint64_t)-8, 1);
    CHECK(touched.memory[0].access, FEDDURZAI_WRITE);
}

static void named(void)
{
    size_t n;
    int32_t code;
    int32_t full = feddurzai_full_register(FEDDURZAI_HIGH8, 0);                 // AH
    if (full >= 0)
        feddurzai_register_text(FEDDURZAI_INTEL, (uint8_t)FEDDURZAI_FULL_CLASS(full), FEDDURZAI_FULL_NUMBER(full), text, 7);
    // text is rax
    CHECK_TEXT("rax");

    len = feddurzai_row_operand(FEDDURZAI_CODE_MOV_RM64_R64, 0, &access, text, sizeof text);
    // len is 2, text is Ev, and access is FEDDURZAI_WRITE
    CHECK(len, 2);
    CHECK_TEXT("Ev");
    CHECK(access, FEDDURZAI_WRITE);

    for (n = 0; (code = feddurzai_code_of("leave", 5, n)) >= 0; n++)
        if (feddurzai_notation((uint32_t)code, text, sizeof text) >= 0)
            puts(text);                                                // o16 C9, o32 C9, o64 C9
    CHECK(n, 3);
    CHECK_TEXT("o64 C9");
}

static void moved(void)
{
    feddurzai_move_report report;
    // je 0x1012, moved out of reach: jne over jmp [rip], and the slot with the target
    said = feddurzai_move(64, 0x1000, (const uint8_t *)"\x74\x10", 2, 0x7fff00000000, out, 64, map, 4, &report);
    // said is 0, report.bytes is 16, report.code_bytes is 8, and map[0].form is FEDDURZAI_FAR_FORM
    CHECK(said, 0);
    CHECK(report.bytes, 16);
    CHECK(report.code_bytes, 8);
    CHECK(map[0].form, FEDDURZAI_FAR_FORM);
    // a loop of one instruction goes back to its old address
    said = feddurzai_move_outside(64, 0x1000, (const uint8_t *)"\xeb\xfe", 2, 0x1080, out, 64, map, 4, &report);
    // said is 0, and out begins with e9 7b ff ff ff, jmp 0x1000
    CHECK(said, 0);
    CHECK_BYTES(out, "\xe9\x7b\xff\xff\xff");
    // vpxord zmm0, zmm0, [rip+0x10] refers to 0x101a, also at 0x2000; the jump to it follows it
    const uint8_t evex_loop[] = {0x62, 0xf1, 0x7d, 0x48, 0xef, 0x05, 0x10, 0, 0, 0, 0xeb, 0xf4};
    said = feddurzai_move_unlisted(64, 0x1000, evex_loop, sizeof evex_loop, 0x2000, out, 64, map, 4, &report);
    // said is 0, and out begins with 62 f1 7d 48 ef 05 10 f0 ff ff eb f4
    CHECK(said, 0);
    CHECK_BYTES(out, "\x62\xf1\x7d\x48\xef\x05\x10\xf0\xff\xff\xeb\xf4");
}

static void allocated(void)
{
    feddurzai_region region = {0x10000, 4096, 0};
    feddurzai_live live[64];
    uint64_t place;
    int32_t said = feddurzai_region_reserve(&region, live, 64, 17, &place);     // 0: place is 0x10000, with 32 bytes
    CHECK(place, 0x10000);
    CHECK(live[0].len, 32);
    if (said == 0)
        said = feddurzai_region_fill(&region, live, 64, place, (const uint8_t *)"\x90\xc3", 2, image, 4096);
    CHECK_BYTES(image, "\x90\xc3\xcc");
    if (said == 0)
        said = feddurzai_region_release(&region, live, 64, place);
    CHECK(said, 0);
    CHECK(region.count, 0);
}

static void stepped(void)
{
    feddurzai_step_report report;
    // call 0x2000 at 0x1000, to be stepped at 0x1800
    len = feddurzai_step(64, 0x1000, (const uint8_t *)"\xe8\xfb\x0f\x00\x00", 5, 0x1800, out, sizeof out, &report);
    // len is 10: e8 fb 07 00 00, call 0x2000, and e9 fb f7 ff ff, jmp 0x1005; done_at and back_at are 5
    CHECK(len, 10);
    CHECK_BYTES(out, "\xe8\xfb\x07\x00\x00\xe9\xfb\xf7\xff\xff");
    CHECK(report.done_at, 5);
    CHECK(report.back_at, 5);
    // loop 0x1010 at 0x1000, to be stepped at 0x2000
    len = feddurzai_step(64, 0x1000, (const uint8_t *)"\xe2\x0e", 2, 0x2000, out, sizeof out, &report);
    // len is 14: e2 02 eb 05 e9 07 f0 ff ff, and e9 f4 ef ff ff, jmp 0x1002; done_at is 2 and back_at is 9
    CHECK(len, 14);
    CHECK_BYTES(out, "\xe2\x02\xeb\x05\xe9\x07\xf0\xff\xff\xe9\xf4\xef\xff\xff");
    CHECK(report.done_at, 2);
    CHECK(report.back_at, 9);
    // call 0x2000 at 0x1000, to be stepped at 0x1800
    len = feddurzai_step_call(64, 0x1000, (const uint8_t *)"\xe8\xfb\x0f\x00\x00", 5, 0x1800, out, sizeof out, &report);
    // len is 18: 68 05 10 00 00, push 0x1005; c7 44 24 04 00 00 00 00, mov dword ptr [rsp+4], 0; and e9 ee 07 00 00,
    // jmp 0x2000; done_at is 5 and back_at is 0
    CHECK(len, 18);
    CHECK_BYTES(out, "\x68\x05\x10\x00\x00\xc7\x44\x24\x04\x00\x00\x00\x00\xe9\xee\x07\x00\x00");
    CHECK(report.done_at, 5);
    CHECK(report.back_at, 0);
    // vpxord zmm0, zmm0, [rip+0x10] at 0x1000, to be stepped at 0x2000
    len = feddurzai_step_unlisted(64, 0x1000, (const uint8_t *)"\x62\xf1\x7d\x48\xef\x05\x10\x00\x00\x00", 10, 0x2000,
        out, sizeof out, &report);
    // len is 15: 62 f1 7d 48 ef 05 10 f0 ff ff, and e9 fb ef ff ff, jmp 0x100a; back_at is 10
    CHECK(len, 15);
    CHECK(memcmp(out, "\x62\xf1\x7d\x48\xef\x05\x10\xf0\xff\xff\xe9\xfb\xef\xff\xff", 15), 0);
    CHECK(report.len << 16 | report.done_at << 8 | (int)report.back_at, 10 << 16 | 10 << 8 | 10);
}

static void followed(void)
{
    static const uint32_t entries[] = {0};
    // je 3; nop; ret
    len = feddurzai_flow_from(64, 0, (const uint8_t *)"\x74\x01\x90\xc3", 4, entries, 1, starts, 4, leaders, 4, kinds, 4);
    // len is 3: the offsets 0, 2 and 3 begin three basic blocks, and kinds[2] is FEDDURZAI_FLOW_RETURN
    CHECK(len, 3);
    CHECK(starts[0] << 8 | leaders[0], 0);
    CHECK(starts[1] << 8 | leaders[1], 2 << 8 | 2);
    CHECK(starts[2] << 8 | leaders[2], 3 << 8 | 3);
    CHECK(kinds[2], FEDDURZAI_FLOW_RETURN);
    // xbegin 7; nop; ret
    len = feddurzai_flow_unlisted(64, 0, (const uint8_t *)"\xc7\xf8\x01\x00\x00\x00\x90\xc3", 8, entries, 1, starts, 8,
        leaders, 8, kinds, 8);
    // len is 3: the offsets 0, 6 and 7 begin three basic blocks; feddurzai_flow_from returns 1
    CHECK(len, 3);
    CHECK(starts[1] << 8 | leaders[1], 6 << 8 | 6);
    CHECK(starts[2] << 8 | leaders[2], 7 << 8 | 7);
    CHECK(kinds[0], FEDDURZAI_FLOW_CONDITIONAL);
    len = feddurzai_flow_from(64, 0, (const uint8_t *)"\xc7\xf8\x01\x00\x00\x00\x90\xc3", 8, entries, 1, starts, 8,
        leaders, 8, kinds, 8);
    CHECK(len, 1);
    CHECK(kinds[0], FEDDURZAI_KIND_INVALID);
}

static void hooked(void)
{
    feddurzai_detour_report report;
    // sub rsp, 0x18; xor eax, eax; ret
    static const uint8_t function[] = {0x48, 0x83, 0xec, 0x18, 0x31, 0xc0, 0xc3};
    said = feddurzai_detour(64, 0x1000, function, sizeof function, 0x2000, 0x3000, FEDDURZAI_START_MOVED,
        patch, sizeof patch, trampoline, sizeof trampoline, &report);
    // said is 0. The patch is jmp 0x2000 and int3; the trampoline is sub, xor and, at report.jump_back, jmp 0x1006
    CHECK(said, 0);
    CHECK(report.taken, 6);
    CHECK_BYTES(patch, "\xe9\xfb\x0f\x00\x00\xcc");
    CHECK(report.bytes, 11);
    CHECK_BYTES(trampoline, "\x48\x83\xec\x18\x31\xc0\xe9\xfb\xdf\xff\xff");
    CHECK(report.jump_back, 6);

    // vpxord zmm0, zmm0, [rip+0x10], which is 0x101a; ret
    static const uint8_t evex[] = {0x62, 0xf1, 0x7d, 0x48, 0xef, 0x05, 0x10, 0x00, 0x00, 0x00, 0xc3};
    said = feddurzai_detour_unlisted(64, 0x1000, evex, sizeof evex, 0x2000, 0x3000, FEDDURZAI_START_MOVED,
        patch, sizeof patch, trampoline, sizeof trampoline, &report);
    // said is 0. The trampoline is vpxord zmm0, zmm0, [rip-0x1ff0], which is 0x101a, and jmp 0x100a
    CHECK(said, 0);
    CHECK(report.taken, 10);
    CHECK(report.bytes, 15);
    CHECK_BYTES(trampoline, "\x62\xf1\x7d\x48\xef\x05\x10\xe0\xff\xff\xe9\xfb\xdf\xff\xff");
}

static void looked(void)
{
    feddurzai_view view;
    static const uint32_t moved_at[] = {0};
    // jmp rax; three nops; jmp 0
    said = feddurzai_look(64, 0x1000, (const uint8_t *)"\xff\xe0\x90\x90\x90\xeb\xf9", 7, NULL, 0, 5, moved_at, 1,
        FEDDURZAI_START_CLOSED, &view);
    // said is 0. Sight ends at 0, FEDDURZAI_SIGHT_INDIRECT_JUMP, and the jump at 5 is a suspect: it goes to 0
    CHECK(said, 0);
    CHECK(view.sight, FEDDURZAI_SIGHT_INDIRECT_JUMP);
    CHECK(view.sight_at, 0);
    CHECK(view.is_entered | view.has_inside, 0);
    CHECK(view.has_suspect, 1);
    CHECK(view.suspect_from << 8 | view.suspect_target, 5 << 8);
}

static void hooked_by_rules(void)
{
    feddurzai_hook_report hook;
    feddurzai_moved_start moved[2];
    // mov rax, [rdi]; mov rcx, rax; an instruction that the table does not have; jmp to the second one; ret
    static const uint8_t partly_seen[] = {0x48, 0x8b, 0x07, 0x48, 0x89, 0xc1, 0x62, 0xf1, 0x7c, 0x48, 0x28, 0xc1,
        0xeb, 0xf5, 0xc3};
    said = feddurzai_detour_with(64, 0x1000, partly_seen, sizeof partly_seen, 0x2000, 0x3000, FEDDURZAI_START_MOVED,
        FEDDURZAI_RULE_WHOLE, NULL, 0, patch, sizeof patch, trampoline, sizeof trampoline, moved, 2, &hook);
    // said is FEDDURZAI_UNSEEN, and hook.detour.at is 6. Without whole sight it is 0, and moved[1] has 3 and 3
    CHECK(said, FEDDURZAI_UNSEEN);
    CHECK(hook.detour.at, 6);
    CHECK(hook.detour.target, FEDDURZAI_SIGHT_NOT_READ);
    said = feddurzai_detour_with(64, 0x1000, partly_seen, sizeof partly_seen, 0x2000, 0x3000, FEDDURZAI_START_MOVED,
        0, NULL, 0, patch, sizeof patch, trampoline, sizeof trampoline, moved, 2, &hook);
    CHECK(said, 0);
    CHECK(hook.moved, 2);
    CHECK(moved[1].start << 8 | moved[1].place, 3 << 8 | 3);
}

static void hooked_in_other_forms(void)
{
    static const uint8_t whole_trampoline[] = {0xf3, 0x0f, 0x1e, 0xfa, 0x48, 0x83, 0xec, 0x18, 0x31, 0xc0, 0xe9, 0xfb, 0xdf, 0xff, 0xff};
    feddurzai_kept_report kept;
    feddurzai_padded_report padded;
    feddurzai_moved_start moved[4];
    uint8_t jump[5];
    // sub rsp, 0x18; xor eax, eax; ret
    static const uint8_t short_one[] = {0x48, 0x83, 0xec, 0x18, 0x31, 0xc0, 0xc3};
    said = feddurzai_detour_len(64, 0x1000, short_one, sizeof short_one, 0x2000, FEDDURZAI_START_MOVED, 0);
    // said is 27: sub, xor, the longest form of the jump back, a gap of 7 bytes and a slot
    CHECK(said, 27);

    // endbr64; sub rsp, 0x18; xor eax, eax; ret
    static const uint8_t tracked[] = {0xf3, 0x0f, 0x1e, 0xfa, 0x48, 0x83, 0xec, 0x18, 0x31, 0xc0, 0xc3};
    said = feddurzai_detour_endbr(64, 0x1000, tracked, sizeof tracked, 0x2000, 0x3000, FEDDURZAI_START_MOVED, 0, NULL, 0,
        patch, sizeof patch, trampoline, sizeof trampoline, moved, 4, &kept);
    // said is 0 and kept.kept is 4. The patch is jmp 0x2000 and int3, for 0x1004; the trampoline is endbr64, sub, xor and
    // jmp 0x100a
    CHECK(said, 0);
    CHECK(kept.kept, 4);
    CHECK(kept.hook.detour.taken << 8 | kept.hook.detour.bytes, 6 << 8 | 11);
    CHECK(memcmp(patch, "\xe9\xf7\x0f\x00\x00\xcc", 6), 0);
    CHECK(memcmp(trampoline, whole_trampoline, sizeof whole_trampoline), 0);

    // five bytes of padding; then mov eax, edi; ret
    static const uint8_t small_one[] = {0xcc, 0xcc, 0xcc, 0xcc, 0xcc, 0x89, 0xf8, 0xc3};
    said = feddurzai_detour_padding(64, 0x1000, small_one, 5, small_one + 5, 3, 0x2000, 0x3000, FEDDURZAI_START_MOVED, 0,
        NULL, 0, jump, sizeof jump, patch, sizeof patch, trampoline, sizeof trampoline, moved, 4, &padded);
    // said is 0. The near jump is jmp 0x2000, for 0xffb; the patch is jmp short 0xffb; the trampoline is mov and jmp 0x1002
    CHECK(said, 0);
    CHECK(padded.jump << 8 | padded.hook.detour.taken, 5 << 8 | 2);
    CHECK(memcmp(jump, "\xe9\x00\x10\x00\x00", 5), 0);
    CHECK(memcmp(patch, "\xeb\xf9", 2), 0);
    CHECK(memcmp(trampoline, "\x89\xf8\xe9\xfb\xdf\xff\xff", 7), 0);
}

int main(void)
{
    CHECK(versions(), 0);
    causes();
    made();
    decoded();
    in_pieces();
    by_options();
    decoded_many();
    printed_and_read();
    analysed();
    named();
    moved();
    allocated();
    stepped();
    followed();
    hooked();
    looked();
    hooked_by_rules();
    hooked_in_other_forms();
    printf("%d checks of the header's examples, %d failed\n", tests, failures);
    return failures != 0;
}

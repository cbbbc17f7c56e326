/*
 * Every function with values that are and values that are not what it takes: each is answered by a stated number, and
 * nothing is written where it should not be. And the fields of the structs, by what is put into them.
 */
#include "feddurzai.h"

#include "check.h"

#include <stdlib.h>
#include <string.h>

/* a struct of exactly its size on the heap, so that a write behind it is seen */
static feddurzai_instr *instr_of(const uint8_t *bytes, size_t len, uint32_t bits, uint64_t ip)
{
    feddurzai_instr *instr = malloc(sizeof *instr);
    memset(instr, 0xaa, sizeof *instr);
    CHECK(feddurzai_decode(bits, ip, bytes, len, instr), (long long)len);
    return instr;
}

static void check_layout(void)
{
    CHECK(sizeof(feddurzai_operand), 24);
    CHECK(offsetof(feddurzai_operand, value), 0);
    CHECK(offsetof(feddurzai_operand, offset), 8);
    CHECK(offsetof(feddurzai_operand, selector), 12);
    CHECK(offsetof(feddurzai_operand, kind), 14);
    CHECK(offsetof(feddurzai_operand, reg_class), 15);
    CHECK(offsetof(feddurzai_operand, reg_number), 16);
    CHECK(offsetof(feddurzai_operand, index_class), 17);
    CHECK(offsetof(feddurzai_operand, index_number), 18);
    CHECK(offsetof(feddurzai_operand, scale), 19);
    CHECK(offsetof(feddurzai_operand, disp_bits), 20);
    CHECK(sizeof(feddurzai_instr), 104);
    CHECK(offsetof(feddurzai_instr, code), 96);
    CHECK(offsetof(feddurzai_instr, len), 98);
    CHECK(offsetof(feddurzai_instr, lock), 99);
    CHECK(offsetof(feddurzai_instr, rep), 100);
    CHECK(offsetof(feddurzai_instr, segment), 101);
    CHECK(offsetof(feddurzai_instr, asize), 102);
    CHECK(sizeof(feddurzai_piece), 16);
    CHECK(offsetof(feddurzai_piece, start), 8);
    CHECK(offsetof(feddurzai_piece, end), 9);
    CHECK(offsetof(feddurzai_piece, kind), 10);
    CHECK(offsetof(feddurzai_piece, operand), 11);
    CHECK(offsetof(feddurzai_piece, role), 12);
    CHECK(offsetof(feddurzai_piece, width), 13);
    CHECK(sizeof(feddurzai_use), 3);
    CHECK(sizeof(feddurzai_about), 56);
    CHECK(offsetof(feddurzai_about, ip_address), 8);
    CHECK(offsetof(feddurzai_about, has_target), 16);
    CHECK(offsetof(feddurzai_about, has_ip_address), 17);
    CHECK(offsetof(feddurzai_about, flow), 18);
    CHECK(offsetof(feddurzai_about, memory_size), 19);
    CHECK(offsetof(feddurzai_about, access), 20);
    CHECK(offsetof(feddurzai_about, use_count), 24);
    CHECK(offsetof(feddurzai_about, uses), 25);
    CHECK(sizeof(feddurzai_memory_use), 24);
    CHECK(offsetof(feddurzai_memory_use, size), 8);
    CHECK(offsetof(feddurzai_memory_use, segment), 10);
    CHECK(offsetof(feddurzai_memory_use, base_class), 11);
    CHECK(offsetof(feddurzai_memory_use, base_number), 12);
    CHECK(offsetof(feddurzai_memory_use, index_class), 13);
    CHECK(offsetof(feddurzai_memory_use, index_number), 14);
    CHECK(offsetof(feddurzai_memory_use, scale), 15);
    CHECK(offsetof(feddurzai_memory_use, access), 16);
    CHECK(sizeof(feddurzai_touched), 232);
    CHECK(offsetof(feddurzai_touched, flags_read), 8);
    CHECK(offsetof(feddurzai_touched, flags_written), 12);
    CHECK(offsetof(feddurzai_touched, flags_cleared), 16);
    CHECK(offsetof(feddurzai_touched, flags_set), 20);
    CHECK(offsetof(feddurzai_touched, flags_undefined), 24);
    CHECK(offsetof(feddurzai_touched, flags_kept), 28);
    CHECK(offsetof(feddurzai_touched, memory), 32);
    CHECK(offsetof(feddurzai_touched, registers), 128);
    CHECK(offsetof(feddurzai_touched, memory_count), 224);
    CHECK(offsetof(feddurzai_touched, register_count), 225);
    CHECK(sizeof(feddurzai_moved), 24);
    CHECK(offsetof(feddurzai_moved, new_ip), 8);
    CHECK(offsetof(feddurzai_moved, len), 16);
    CHECK(offsetof(feddurzai_moved, form), 17);
    CHECK(sizeof(feddurzai_move_report), 48);
    CHECK(offsetof(feddurzai_move_report, count), 8);
    CHECK(offsetof(feddurzai_move_report, at), 16);
    CHECK(offsetof(feddurzai_move_report, address), 24);
    CHECK(offsetof(feddurzai_move_report, code_bytes), 32);
    CHECK(offsetof(feddurzai_move_report, slots_at), 40);
    CHECK(sizeof(feddurzai_block), 32);
    CHECK(offsetof(feddurzai_block, new_ip), 8);
    CHECK(offsetof(feddurzai_block, offset), 16);
    CHECK(offsetof(feddurzai_block, len), 24);
    CHECK(sizeof(feddurzai_placed_block), 24);
    CHECK(offsetof(feddurzai_placed_block, code_bytes), 8);
    CHECK(offsetof(feddurzai_placed_block, count), 16);
    CHECK(sizeof(feddurzai_blocks_report), 40);
    CHECK(offsetof(feddurzai_blocks_report, count), 8);
    CHECK(offsetof(feddurzai_blocks_report, block), 16);
    CHECK(offsetof(feddurzai_blocks_report, at), 24);
    CHECK(offsetof(feddurzai_blocks_report, address), 32);
    CHECK(sizeof(feddurzai_region), 24);
    CHECK(offsetof(feddurzai_region, size), 8);
    CHECK(offsetof(feddurzai_region, count), 16);
    CHECK(sizeof(feddurzai_live), 16);
    CHECK(offsetof(feddurzai_live, len), 8);
    CHECK(sizeof(feddurzai_step_report), 32);
    CHECK(offsetof(feddurzai_step_report, back_at), 8);
    CHECK(offsetof(feddurzai_step_report, address), 16);
    CHECK(offsetof(feddurzai_step_report, len), 24);
    CHECK(offsetof(feddurzai_step_report, done_at), 25);
    CHECK(sizeof(feddurzai_label), 40);
    CHECK(offsetof(feddurzai_label, offset), 8);
    CHECK(offsetof(feddurzai_label, len), 16);
    CHECK(offsetof(feddurzai_label, line), 24);
    CHECK(offsetof(feddurzai_label, has_address), 32);
    CHECK(sizeof(feddurzai_routine_report), 56);
    CHECK(offsetof(feddurzai_routine_report, slots), 8);
    CHECK(offsetof(feddurzai_routine_report, labels), 16);
    CHECK(offsetof(feddurzai_routine_report, line), 24);
    CHECK(offsetof(feddurzai_routine_report, column), 32);
    CHECK(offsetof(feddurzai_routine_report, at), 40);
    CHECK(offsetof(feddurzai_routine_report, address), 48);
    CHECK(sizeof(feddurzai_detour_report), 64);
    CHECK(offsetof(feddurzai_detour_report, bytes), 8);
    CHECK(offsetof(feddurzai_detour_report, jump_back), 16);
    CHECK(offsetof(feddurzai_detour_report, slots_at), 24);
    CHECK(offsetof(feddurzai_detour_report, relay_at), 32);
    CHECK(offsetof(feddurzai_detour_report, at), 40);
    CHECK(offsetof(feddurzai_detour_report, target), 48);
    CHECK(offsetof(feddurzai_detour_report, form), 56);
    CHECK(sizeof(feddurzai_moved_start), 16);
    CHECK(offsetof(feddurzai_moved_start, place), 8);
    CHECK(sizeof(feddurzai_hook_report), 136);
    CHECK(offsetof(feddurzai_hook_report, call), 128);
    CHECK(offsetof(feddurzai_hook_report, view), 64);
    CHECK(offsetof(feddurzai_hook_report, moved), 120);
    CHECK(sizeof(feddurzai_kept_report), 144);
    CHECK(offsetof(feddurzai_kept_report, kept), 136);
    CHECK(sizeof(feddurzai_padded_report), 152);
    CHECK(offsetof(feddurzai_padded_report, jump), 136);
    CHECK(offsetof(feddurzai_padded_report, padding), 144);
}

/* what the crate puts into each field stands where the header says */
static void check_fields(void)
{
    /* lock xadd dword fs:[r8d+ecx*8+0x12345678], r9d */
    static const uint8_t locked[] = {0x64, 0xf0, 0x67, 0x45, 0x0f, 0xc1, 0x8c, 0xc8, 0x78, 0x56, 0x34, 0x12};
    static const uint8_t far_call[] = {0x9a, 0x78, 0x56, 0x34, 0x12, 0xcd, 0xab};
    static const uint8_t moves[] = {0xf3, 0xa4};
    static const uint8_t jump[] = {0xeb, 0xfe};
    static const uint8_t rip[] = {0x48, 0x8b, 0x05, 0x10, 0x00, 0x00, 0x00};
    feddurzai_instr *i = instr_of(locked, sizeof locked, 64, 0);
    feddurzai_about *about = malloc(sizeof *about);
    CHECK(i->len, 12);
    CHECK(i->lock, 1);
    CHECK(i->rep, 0);
    CHECK(i->segment, FEDDURZAI_FS);
    CHECK(i->asize, 32);
    CHECK(i->ops[0].kind, FEDDURZAI_MEMORY);
    CHECK(i->ops[0].reg_class, FEDDURZAI_R32);
    CHECK(i->ops[0].reg_number, 8);
    CHECK(i->ops[0].index_class, FEDDURZAI_R32);
    CHECK(i->ops[0].index_number, FEDDURZAI_CX);
    CHECK(i->ops[0].scale, 8);
    CHECK(i->ops[0].disp_bits, 32);
    CHECK(i->ops[0].value, 0x12345678);
    CHECK(i->ops[0].offset, 0);
    CHECK(i->ops[0].selector, 0);
    CHECK(i->ops[1].kind, FEDDURZAI_REGISTER);
    CHECK(i->ops[1].reg_class, FEDDURZAI_R32);
    CHECK(i->ops[1].reg_number, 9);
    CHECK(i->ops[2].kind, FEDDURZAI_NONE);
    CHECK(i->ops[3].kind, FEDDURZAI_NONE);
    CHECK(feddurzai_info(i, about), 0);
    CHECK(about->flow, FEDDURZAI_FLOW_NEXT);
    CHECK(about->memory_size, 4);
    CHECK(about->access[0], FEDDURZAI_READ_WRITE);
    CHECK(about->access[1], FEDDURZAI_READ_WRITE);
    CHECK(about->access[2], FEDDURZAI_ACCESS_NONE);
    CHECK(about->use_count, 3);
    CHECK(about->uses[1].reg_number, FEDDURZAI_CX);
    CHECK(about->uses[1].access, FEDDURZAI_READ);
    CHECK(about->uses[2].reg_number, 9);
    CHECK(about->has_target, 0);
    free(i);
    i = instr_of(far_call, sizeof far_call, 32, 0);
    CHECK(i->ops[0].kind, FEDDURZAI_FAR);
    CHECK(i->ops[0].offset, 0x12345678);
    CHECK(i->ops[0].selector, 0xabcd);
    free(i);
    i = instr_of(moves, sizeof moves, 64, 0);
    CHECK(i->rep, FEDDURZAI_REP);
    free(i);
    i = instr_of(jump, sizeof jump, 64, 0x123456789abc);
    CHECK(i->ops[0].kind, FEDDURZAI_NEAR);
    CHECK(i->ops[0].value, 0x123456789abc);
    CHECK(feddurzai_info(i, about), 0);
    CHECK(about->flow, FEDDURZAI_FLOW_JUMP);
    CHECK(about->has_target, 1);
    CHECK(about->target, 0x123456789abc);
    free(i);
    i = instr_of(rip, sizeof rip, 64, 0x1000);
    CHECK(i->ops[1].reg_class, FEDDURZAI_RIP);
    CHECK(feddurzai_info(i, about), 0);
    CHECK(about->has_ip_address, 1);
    CHECK(about->ip_address, 0x1017);
    free(i);
    free(about);
}

/* the size of the memory operand: of instructions with one, and 0 of those without, whatever their row says of memory */
static void check_memory_sizes(void)
{
    static const struct { uint8_t bytes[8]; size_t len; int size; } cases[] = {
        {{0x31, 0xc0}, 2, 0},                                   /* xor eax, eax */
        {{0x31, 0x00}, 2, 4},                                   /* xor dword [rax], eax */
        {{0xf7, 0xe1}, 2, 0},                                   /* mul ecx */
        {{0xf7, 0x21}, 2, 4},                                   /* mul dword [rcx] */
        {{0x48, 0xf7, 0xf1}, 3, 0},                             /* div rcx */
        {{0xff, 0xd0}, 2, 0},                                   /* call rax */
        {{0xff, 0x10}, 2, 8},                                   /* call qword [rax] */
        {{0x86, 0xc4}, 2, 0},                                   /* xchg ah, al */
        {{0x86, 0x20}, 2, 1},                                   /* xchg byte [rax], ah */
        {{0x48, 0x8d, 0x00}, 3, 0},                             /* lea rax, [rax]: an address alone */
        {{0xa4}, 1, 0},                                         /* movsb: no operand */
        {{0xc5, 0xfc, 0x10, 0x00}, 4, 32},                      /* vmovups ymm0, [rax] */
        {{0xc5, 0xfc, 0x10, 0xc0}, 4, 0},                       /* vmovups ymm0, ymm0 */
    };
    size_t k;
    for (k = 0; k < sizeof cases / sizeof *cases; k++) {
        feddurzai_instr *i = instr_of(cases[k].bytes, cases[k].len, 64, 0);
        feddurzai_about about;
        CHECK(feddurzai_info(i, &about), 0);
        CHECK(about.memory_size, cases[k].size);
        free(i);
    }
}

/* a register that is touched, and what is done to it */
#define CHECK_USE(use, a_class, a_number, an_access) \
    CHECK((use).reg_class, a_class); \
    CHECK((use).reg_number, a_number); \
    CHECK((use).access, an_access)

/* what an instruction touches, in each field: by the manual's pages */
static void check_effects(void)
{
    static const uint8_t xadd[] = {0x64, 0xf0, 0x67, 0x45, 0x0f, 0xc1, 0x8c, 0xc8, 0x78, 0x56, 0x34, 0x12};
    static const uint8_t push[] = {0x53};
    static const uint8_t moves[] = {0xf3, 0xa4};
    static const uint8_t xlat[] = {0xd7};
    static const uint8_t shift[] = {0xd3, 0xe0};                        /* shl eax, cl */
    static const uint8_t clear[] = {0xf8};                              /* clc */
    static const uint8_t set[] = {0xf9};                                /* stc */
    static const uint8_t compare[] = {0xdb, 0xf1};                      /* fcomi st0, st1 */
    static const uint8_t from_register[] = {0xc4, 0xe2, 0x7d, 0x18, 0xc1};  /* vbroadcastss ymm0, xmm1 */
    static const uint8_t from_memory[] = {0xc4, 0xe2, 0x7d, 0x18, 0x01};    /* vbroadcastss ymm0, dword [rcx] */
    static const uint8_t save[] = {0x0f, 0xae, 0x64, 0xc8, 0x10};       /* xsave [rax+rcx*8+0x10] */
    const uint64_t one = 1, status = FEDDURZAI_FLAG_OF | FEDDURZAI_FLAG_SF | FEDDURZAI_FLAG_ZF | FEDDURZAI_FLAG_AF
        | FEDDURZAI_FLAG_PF | FEDDURZAI_FLAG_CF;
    feddurzai_touched *t = malloc(sizeof *t);
    char name[16];
    uint32_t bit;
    feddurzai_instr *i = instr_of(xadd, sizeof xadd, 64, 0);            /* lock xadd dword fs:[r8d+ecx*8+0x12345678], r9d */
    memset(t, 0xaa, sizeof *t);
    CHECK(feddurzai_effects(64, i, t), 0);
    CHECK(t->features, 0);
    CHECK(t->flags_read, 0);
    CHECK(t->flags_written, status);
    CHECK(t->flags_cleared | t->flags_set | t->flags_undefined | t->flags_kept, 0);
    CHECK(t->memory_count, 1);
    CHECK(t->memory[0].displacement, 0x12345678);
    CHECK(t->memory[0].size, 4);
    CHECK(t->memory[0].segment, FEDDURZAI_FS);
    CHECK(t->memory[0].base_class, FEDDURZAI_R32);
    CHECK(t->memory[0].base_number, 8);
    CHECK(t->memory[0].index_class, FEDDURZAI_R32);
    CHECK(t->memory[0].index_number, FEDDURZAI_CX);
    CHECK(t->memory[0].scale, 8);
    CHECK(t->memory[0].access, FEDDURZAI_READ_WRITE);
    CHECK(t->memory[1].segment, 0);
    CHECK(t->register_count, 4);
    CHECK_USE(t->registers[0], FEDDURZAI_R32, 8, FEDDURZAI_READ);
    CHECK_USE(t->registers[1], FEDDURZAI_R32, FEDDURZAI_CX, FEDDURZAI_READ);
    CHECK_USE(t->registers[2], FEDDURZAI_R32, 9, FEDDURZAI_READ_WRITE);
    CHECK_USE(t->registers[3], FEDDURZAI_SEG, 4, FEDDURZAI_READ);
    CHECK_USE(t->registers[4], 0, 0, 0);
    free(i);

    /* a push by the mode: 8 bytes below RSP, 4 below ESP, which reads SS too */
    i = instr_of(push, sizeof push, 64, 0);
    CHECK(feddurzai_effects(64, i, t), 0);
    CHECK(t->register_count, 2);
    CHECK_USE(t->registers[0], FEDDURZAI_R64, FEDDURZAI_BX, FEDDURZAI_READ);
    CHECK_USE(t->registers[1], FEDDURZAI_R64, FEDDURZAI_SP, FEDDURZAI_READ_WRITE);
    CHECK(t->memory_count, 1);
    CHECK(t->memory[0].displacement, (uint64_t)-8);
    CHECK(t->memory[0].size, 8);
    CHECK(t->memory[0].segment, FEDDURZAI_SS);
    CHECK(t->memory[0].base_class << 8 | t->memory[0].base_number, FEDDURZAI_R64 << 8 | FEDDURZAI_SP);
    CHECK(t->memory[0].index_class << 8 | t->memory[0].index_number, 0);
    CHECK(t->memory[0].access, FEDDURZAI_WRITE);
    free(i);
    i = instr_of(push, sizeof push, 32, 0);
    CHECK(feddurzai_effects(32, i, t), 0);
    CHECK(t->register_count, 3);
    CHECK_USE(t->registers[1], FEDDURZAI_SEG, 2, FEDDURZAI_READ);
    CHECK_USE(t->registers[2], FEDDURZAI_R32, FEDDURZAI_SP, FEDDURZAI_READ_WRITE);
    CHECK(t->memory[0].displacement, 0xfffffffc);
    CHECK(t->memory[0].size, 4);
    free(i);

    /* rep movsb: all under the counter */
    i = instr_of(moves, sizeof moves, 64, 0);
    CHECK(feddurzai_effects(64, i, t), 0);
    CHECK(t->flags_read, FEDDURZAI_FLAG_DF);
    CHECK(t->flags_written, 0);
    CHECK(t->register_count, 3);
    CHECK_USE(t->registers[0], FEDDURZAI_R64, FEDDURZAI_SI, FEDDURZAI_MAY_READ | FEDDURZAI_MAY_WRITE);
    CHECK_USE(t->registers[1], FEDDURZAI_R64, FEDDURZAI_DI, FEDDURZAI_MAY_READ | FEDDURZAI_MAY_WRITE);
    CHECK_USE(t->registers[2], FEDDURZAI_R64, FEDDURZAI_CX, FEDDURZAI_READ | FEDDURZAI_MAY_WRITE);
    CHECK(t->memory_count, 2);
    CHECK(t->memory[0].access, FEDDURZAI_MAY_READ);
    CHECK(t->memory[1].access, FEDDURZAI_MAY_WRITE);
    CHECK(t->memory[1].segment, FEDDURZAI_ES);
    free(i);
    i = instr_of(xlat, sizeof xlat, 64, 0);
    CHECK(feddurzai_effects(64, i, t), 0);
    CHECK(t->memory[0].base_class << 8 | t->memory[0].base_number, FEDDURZAI_R64 << 8 | FEDDURZAI_BX);
    CHECK(t->memory[0].index_class << 8 | t->memory[0].index_number, FEDDURZAI_LOW8 << 8 | FEDDURZAI_AX);
    free(i);

    /* flags: written, undefined and kept by a count of 0; cleared; set; those of the x87 unit */
    i = instr_of(shift, sizeof shift, 64, 0);
    CHECK(feddurzai_effects(64, i, t), 0);
    CHECK(t->flags_undefined, FEDDURZAI_FLAG_OF | FEDDURZAI_FLAG_AF);
    CHECK(t->flags_written, FEDDURZAI_FLAG_SF | FEDDURZAI_FLAG_ZF | FEDDURZAI_FLAG_PF | FEDDURZAI_FLAG_CF);
    CHECK(t->flags_kept, status);
    free(i);
    i = instr_of(clear, sizeof clear, 64, 0);
    CHECK(feddurzai_effects(64, i, t), 0);
    CHECK(t->flags_cleared, FEDDURZAI_FLAG_CF);
    CHECK(t->flags_set, 0);
    free(i);
    i = instr_of(set, sizeof set, 64, 0);
    CHECK(feddurzai_effects(64, i, t), 0);
    CHECK(t->flags_set, FEDDURZAI_FLAG_CF);
    CHECK(t->flags_cleared, 0);
    free(i);
    i = instr_of(compare, sizeof compare, 64, 0);
    CHECK(feddurzai_effects(64, i, t), 0);
    CHECK(t->features, one << FEDDURZAI_FEATURE_FPU | one << FEDDURZAI_FEATURE_CMOV);
    CHECK(t->flags_cleared & FEDDURZAI_FLAG_C1, FEDDURZAI_FLAG_C1);
    free(i);

    /* features go by the form */
    i = instr_of(from_register, sizeof from_register, 64, 0);
    CHECK(feddurzai_effects(64, i, t), 0);
    CHECK(t->features, one << FEDDURZAI_FEATURE_AVX2);
    free(i);
    i = instr_of(from_memory, sizeof from_memory, 64, 0);
    CHECK(feddurzai_effects(64, i, t), 0);
    CHECK(t->features, one << FEDDURZAI_FEATURE_AVX);
    free(i);

    /* the most registers: base, index, EDX, EAX, 8 of the x87 unit and 16 vector registers */
    i = instr_of(save, sizeof save, 64, 0);
    CHECK(feddurzai_effects(64, i, t), 0);
    CHECK(t->register_count, 28);
    CHECK(t->memory[0].size, 0);
    CHECK(t->registers[28].reg_class, 0);

    /* refusals, of which the first that stands is told; the struct is unchanged then */
    memset(t, 0xaa, sizeof *t);
    CHECK(feddurzai_effects(17, i, t), FEDDURZAI_BAD_MODE);
    i->lock = 2;
    CHECK(feddurzai_effects(17, i, t), FEDDURZAI_BAD_MODE);
    CHECK(feddurzai_effects(64, i, t), FEDDURZAI_BAD_INSTR);
    i->lock = 0;
    i->code = FEDDURZAI_CODES;
    CHECK(feddurzai_effects(64, i, t), FEDDURZAI_BAD_FORM);
    CHECK(is_untouched(t, sizeof *t), 1);
    free(i);
    free(t);

    CHECK(feddurzai_full_register(FEDDURZAI_LOW8, 0), FEDDURZAI_R64 << 8);
    CHECK(feddurzai_full_register(FEDDURZAI_HIGH8, 3), FEDDURZAI_R64 << 8 | FEDDURZAI_BX);
    CHECK(feddurzai_full_register(FEDDURZAI_R16, 15), FEDDURZAI_R64 << 8 | 15);
    CHECK(FEDDURZAI_FULL_CLASS(feddurzai_full_register(FEDDURZAI_XMM, 9)), FEDDURZAI_YMM);
    CHECK(FEDDURZAI_FULL_NUMBER(feddurzai_full_register(FEDDURZAI_XMM, 9)), 9);
    CHECK(feddurzai_full_register(FEDDURZAI_EIP, 0), FEDDURZAI_RIP << 8);
    CHECK(feddurzai_full_register(FEDDURZAI_SEG, 5), FEDDURZAI_SEG << 8 | 5);
    CHECK(feddurzai_full_register(FEDDURZAI_MM, 7), FEDDURZAI_MM << 8 | 7);
    CHECK(feddurzai_full_register(FEDDURZAI_R64, 16), FEDDURZAI_NO_REGISTER);
    CHECK(feddurzai_full_register(FEDDURZAI_NO_REG, 0), FEDDURZAI_NO_REGISTER);
    CHECK(feddurzai_full_register(15, 0), FEDDURZAI_NO_REGISTER);

    CHECK(feddurzai_feature_name(FEDDURZAI_FEATURE_FPU, name, sizeof name), 3);
    CHECK(strcmp(name, "FPU"), 0);
    CHECK(feddurzai_feature_name(FEDDURZAI_FEATURE_AVX2, name, sizeof name), 4);
    CHECK(strcmp(name, "AVX2"), 0);
    CHECK(feddurzai_feature_name(FEDDURZAI_FEATURE_RDTSCP, name, sizeof name), 6);
    CHECK(strcmp(name, "RDTSCP"), 0);
    CHECK(feddurzai_feature_name(FEDDURZAI_FEATURE_CLFLUSHOPT, name, 11), 10);
    for (bit = 0; bit < FEDDURZAI_FEATURES; bit++)
        CHECK(feddurzai_feature_name(bit, name, 11) > 1, 1);
    CHECK(feddurzai_feature_name(FEDDURZAI_FEATURES, name, sizeof name), FEDDURZAI_NO_NAME);
    CHECK(feddurzai_feature_name(0xffffffff, NULL, 0), FEDDURZAI_NO_NAME);
}

/* the operand that fails the condition: an address, its displacement and a target by the place where they stand */
static void check_cause_operands(void)
{
    static const uint8_t load[] = {0x48, 0x8b, 0x44, 0x8b, 0x10};       /* mov rax, [rbx+rcx*4+0x10] */
    static const uint8_t store[] = {0x48, 0x89, 0x44, 0x8b, 0x10};      /* mov [rbx+rcx*4+0x10], rax */
    static const uint8_t rip[] = {0x48, 0x8b, 0x05, 0x10, 0, 0, 0};     /* mov rax, [rip+0x10] */
    static const uint8_t shuffle[] = {0xc5, 0xf9, 0x70, 0x00, 0x1b};    /* vpshufd xmm0, [rax], 0x1b */
    static const uint8_t padded[] = {0x2e, 0x2e, 0x74, 0x7f};           /* je with a prefix twice: 3 bytes no longer reach */
    uint8_t bytes[FEDDURZAI_MAX_LEN];
    int memory;
    for (memory = 0; memory < 2; memory++) {
        feddurzai_instr *i = instr_of(memory == 1 ? load : store, 5, 64, 0);
        int n;
        i->ops[memory].index_number = FEDDURZAI_SP;                     /* RSP is no index */
        n = feddurzai_encode(64, 0, i, bytes, sizeof bytes);
        CHECK(FEDDURZAI_CAUSE(n), FEDDURZAI_CAUSE_MEMORY);
        CHECK(FEDDURZAI_CAUSE_OPERAND(n), memory);
        i->ops[memory].index_number = FEDDURZAI_CX;
        i->ops[memory].value = 0x100;                                   /* not in 8 bits */
        n = feddurzai_encode(64, 0, i, bytes, sizeof bytes);
        CHECK(FEDDURZAI_CAUSE(n), FEDDURZAI_CAUSE_DISPLACEMENT);
        CHECK(FEDDURZAI_CAUSE_OPERAND(n), memory);
        free(i);
    }
    {
        feddurzai_instr *i = instr_of(rip, sizeof rip, 64, 0x1000);
        int n = feddurzai_encode(64, 0x7fff00000000, i, bytes, sizeof bytes);
        CHECK(FEDDURZAI_CAUSE(n), FEDDURZAI_CAUSE_TARGET);
        CHECK(FEDDURZAI_CAUSE_OPERAND(n), 1);
        i->asize = 16;                                                  /* of the whole instruction */
        n = feddurzai_encode(64, 0x1000, i, bytes, sizeof bytes);
        CHECK(FEDDURZAI_CAUSE(n), FEDDURZAI_CAUSE_ADDRESS_SIZE);
        CHECK(FEDDURZAI_CAUSE_OPERAND(n), 0);
        free(i);
        i = instr_of(shuffle, sizeof shuffle, 64, 0);
        i->ops[2].value = 256;
        n = feddurzai_encode(64, 0, i, bytes, sizeof bytes);
        CHECK(FEDDURZAI_CAUSE(n), FEDDURZAI_CAUSE_IMMEDIATE);
        CHECK(FEDDURZAI_CAUSE_OPERAND(n), 2);
        free(i);
        i = instr_of(padded, sizeof padded, 64, 0);
        n = feddurzai_encode(64, 0, i, bytes, sizeof bytes);
        CHECK(FEDDURZAI_CAUSE(n), FEDDURZAI_CAUSE_TARGET);
        CHECK(FEDDURZAI_CAUSE_OPERAND(n), 0);
        free(i);
    }
}

/* an instruction read and shown in one call, with a struct and without */
/* the parts of three instructions, counted by hand */
static void check_offsets(void)
{
    /* mov [rsp+0x10], rbx; enter 0x10, 1; palignr xmm6, xmm1, 8 */
    static const struct {
        uint8_t bytes[6];
        int32_t len;
        feddurzai_byte_offsets parts;
    } cases[] = {
        {{0x48, 0x89, 0x5c, 0x24, 0x10}, 5, {{0, 1}, {1, 0}, {1, 1}, {2, 1}, {3, 1}, {4, 1}, {{5, 0}, {5, 0}, {5, 0}, {5, 0}}}},
        {{0xc8, 0x10, 0x00, 0x01}, 4, {{0, 0}, {0, 0}, {0, 1}, {1, 0}, {1, 0}, {1, 0}, {{1, 2}, {3, 1}, {4, 0}, {4, 0}}}},
        {{0x66, 0x0f, 0x3a, 0x0f, 0xf1, 0x08}, 6, {{0, 1}, {1, 2}, {3, 1}, {4, 1}, {5, 0}, {5, 0}, {{5, 0}, {5, 0}, {5, 1}, {6, 0}}}},
    };
    static const uint8_t bad[] = {0x06};
    feddurzai_byte_offsets *parts = malloc(sizeof *parts);
    size_t k;
    memset(parts, 0xaa, sizeof *parts);
    CHECK(feddurzai_offsets(17, bad, 1, parts), FEDDURZAI_BAD_MODE);
    CHECK(feddurzai_offsets(64, bad, 1, parts), FEDDURZAI_INVALID);
    CHECK(feddurzai_offsets(64, cases[0].bytes, 4, parts), FEDDURZAI_TOO_SHORT);
    CHECK(feddurzai_offsets(64, NULL, 0, parts), FEDDURZAI_TOO_SHORT);
    CHECK(is_untouched(parts, sizeof *parts), 1);
    for (k = 0; k < sizeof cases / sizeof *cases; k++) {
        CHECK(feddurzai_offsets(64, cases[k].bytes, sizeof cases[k].bytes, parts), cases[k].len);
        CHECK(memcmp(parts, &cases[k].parts, sizeof *parts), 0);
    }
    free(parts);
}

static void check_lines(void)
{
    static const uint8_t mov[] = {0x48, 0x89, 0x5c, 0x24, 0x10, 0x90};
    static const uint8_t bad[] = {0x06};
    feddurzai_instr *i = malloc(sizeof *i);
    feddurzai_instr *read = instr_of(mov, 5, 64, 0);
    char *text = malloc(26);
    int with;
    for (with = 0; with < 2; with++) {
        feddurzai_instr *into = with ? i : NULL;
        memset(i, 0xaa, sizeof *i);
        memset(text, 0xaa, 26);
        CHECK(feddurzai_line(17, 9, 0, bad, 1, into, NULL, 0), FEDDURZAI_BAD_MODE);
        CHECK(feddurzai_line(64, 9, 0, bad, 1, into, NULL, 0), FEDDURZAI_BAD_SYNTAX);
        CHECK(feddurzai_line(64, FEDDURZAI_INTEL, 0, bad, 1, into, NULL, 0), FEDDURZAI_INVALID);
        CHECK(feddurzai_line(64, FEDDURZAI_INTEL, 0, mov, 4, into, NULL, 0), FEDDURZAI_TOO_SHORT);
        CHECK(feddurzai_line(64, FEDDURZAI_INTEL, 0, NULL, 0, into, NULL, 0), FEDDURZAI_TOO_SHORT);
        CHECK(feddurzai_line(64, FEDDURZAI_INTEL, 0, mov, 6, into, NULL, 0), FEDDURZAI_NO_ROOM);
        CHECK(feddurzai_line(64, FEDDURZAI_INTEL, 0, mov, 6, into, text, 25), FEDDURZAI_NO_ROOM);
        CHECK(is_untouched(i, sizeof *i), 1);
        CHECK(is_untouched(text, 26), 1);
        CHECK(feddurzai_line(64, FEDDURZAI_INTEL, 0, mov, 6, into, text, 26), 5);
        CHECK(strcmp(text, "mov qword [rsp+0x10], rbx"), 0);
        CHECK(feddurzai_line(64, FEDDURZAI_ATT, 0, mov, 6, into, text, 26), 5);
        CHECK(strcmp(text, "movq %rbx, 0x10(%rsp)"), 0);
        CHECK(with ? memcmp(i, read, offsetof(feddurzai_instr, asize) + 1) == 0 : is_untouched(i, sizeof *i), 1);
    }
    CHECK(feddurzai_line_text(64, FEDDURZAI_MASM, 0, mov + 5, 1, text, 4), 1);
    CHECK(strcmp(text, "nop"), 0);
    free(i);
    free(read);
    free(text);
}

/* many instructions in one call: what feddurzai_decode reads one by one, single bytes where none stands, and the room's end */
static void check_many(void)
{
    /* nop; no instruction; mov qword [rsp+0x10], rbx; ret; and the first two bytes of a mov */
    static const uint8_t code[] = {0x90, 0x06, 0x48, 0x89, 0x5c, 0x24, 0x10, 0xc3, 0x48, 0x8b};
    static const int lens[] = {1, 1, 5, 1, 1, 1};
    static const int taken[] = {0, 1, 2, 7, 8, 9, 10, 10};
    size_t room, k;
    for (room = 0; room <= 7; room++) {
        feddurzai_instr *many = malloc(room * sizeof *many + 1);
        size_t count = 99, want = room < 6 ? room : 6, at = 0;
        memset(many, 0xaa, room * sizeof *many + 1);
        CHECK(feddurzai_decode_many(64, 0x1000, code, sizeof code, many, room, &count), taken[room]);
        CHECK(count, want);
        for (k = 0; k < want; k++) {
            feddurzai_instr one;
            int32_t said = feddurzai_decode(64, 0x1000 + at, code + at, sizeof code - at, &one);
            CHECK(many[k].len, lens[k]);
            if (said < 0) {
                CHECK(many[k].code, said == FEDDURZAI_INVALID ? FEDDURZAI_CODE_INVALID : FEDDURZAI_CODE_TOO_SHORT);
                CHECK(many[k].ops[0].kind | many[k].ops[3].kind | many[k].lock | many[k].rep | many[k].segment | many[k].asize, 0);
            } else {
                CHECK(memcmp(&many[k], &one, offsetof(feddurzai_instr, asize) + 1), 0);
            }
            at += many[k].len;
        }
        CHECK(is_untouched(many + want, (room - want) * sizeof *many + 1), 1);
        free(many);
    }
    {
        /* the address of the second wraps: its target is the first */
        static const uint8_t wraps[] = {0x90, 0xeb, 0xfd};
        feddurzai_instr two[2];
        size_t count = 99;
        CHECK(feddurzai_decode_many(64, UINT64_MAX, wraps, 3, two, 2, &count), 3);
        CHECK(count, 2);
        CHECK(two[1].ops[0].value == UINT64_MAX, 1);
        count = 99;
        memset(two, 0xaa, sizeof two);
        CHECK(feddurzai_decode_many(17, 0, wraps, 3, two, 2, &count), FEDDURZAI_BAD_MODE);
        CHECK(count, 99);
        CHECK(is_untouched(two, sizeof two), 1);
        CHECK(feddurzai_decode_many(64, 0, NULL, 0, two, 2, &count), 0);
        CHECK(count, 0);
        CHECK(feddurzai_decode_many(64, 0, wraps, 3, NULL, 0, &count), 0);
        CHECK(count, 0);
    }
}

/* Intel texts: bytes and structs of them, with each refusal */
static void check_texts(void)
{
    static const struct { uint32_t bits; uint64_t ip; const char *text; uint8_t bytes[8]; int len; } cases[] = {
        {64, 0, "mov qword [rsp+0x10], rbx", {0x48, 0x89, 0x5c, 0x24, 0x10}, 5},
        {64, 0x401000, "jmp 0x401000", {0xeb, 0xfe}, 2},
        {64, 0x401000, "call 0x402003", {0xe8, 0xfe, 0x0f, 0, 0}, 5},
        {32, 0, "inc eax", {0x40}, 1},
        {16, 0, "mov ax, 0x1234", {0xb8, 0x34, 0x12}, 3},
        {64, 0, "xchg eax, eax", {0x87, 0xc0}, 2},
        {64, 0, "inc eax ", {0}, FEDDURZAI_NO_TEXT},
        {64, 0, "", {0}, FEDDURZAI_NO_TEXT},
        {64, 0, "movq %rax, %rbx", {0}, FEDDURZAI_NO_TEXT},
        {17, 0, "nop", {0}, FEDDURZAI_BAD_MODE},
    };
    size_t k;
    for (k = 0; k < sizeof cases / sizeof *cases; k++) {
        size_t len = strlen(cases[k].text), room = cases[k].len < 0 ? 3 : (size_t)cases[k].len;
        char *text = malloc(len + 1);
        uint8_t *out = malloc(room);
        feddurzai_instr *i = malloc(sizeof *i), *read = malloc(sizeof *read);
        memcpy(text, cases[k].text, len);
        memset(out, 0xaa, room);
        memset(i, 0xaa, sizeof *i);
        CHECK(feddurzai_assemble(cases[k].bits, cases[k].ip, text, len, out, room), cases[k].len);
        CHECK(feddurzai_read_intel(cases[k].bits, cases[k].ip, text, len, i), cases[k].len);
        if (cases[k].len < 0) {
            CHECK(is_untouched(out, room) && is_untouched(i, sizeof *i), 1);
        } else {
            CHECK(memcmp(out, cases[k].bytes, room), 0);
            CHECK(feddurzai_decode(cases[k].bits, cases[k].ip, out, room, read), cases[k].len);
            CHECK(memcmp(i, read, offsetof(feddurzai_instr, asize) + 1), 0);
            CHECK(feddurzai_encoded_len(cases[k].bits, cases[k].ip, i), cases[k].len);
            memset(out, 0xaa, room);
            CHECK(feddurzai_assemble(cases[k].bits, cases[k].ip, text, len, out, room - 1), FEDDURZAI_NO_ROOM);
            CHECK(is_untouched(out, room), 1);
        }
        free(text);
        free(out);
        free(i);
        free(read);
    }
}

/* Whether pieces cover a text of `len` characters without a gap, and none is empty. */
static int cover(const feddurzai_piece *pieces, int count, size_t len)
{
    size_t at = 0;
    int k;
    for (k = 0; k < count; k++) {
        if (pieces[k].start != at || pieces[k].end <= at)
            return 0;
        at = pieces[k].end;
    }
    return at == len;
}

/* the pieces of texts, each with its characters and the letter of its kind, its operand, and of a number its value, width and role */
static void check_pieces(void)
{
    static const struct { uint32_t bits, syntax; const char *bytes; size_t len; const char *want; } cases[] = {
        {64, FEDDURZAI_INTEL, "\xf0\x65\x83\x05\xfe\x0f\0\0\xff", 9,
            "lock:p  :s add:m  :s dword:k0  :s0 gs:r0 ::c0 [:c0 rel:k0  :s0 0x1007:n0=1007/8/5 ]:c0 ,:c  :s 0xffffffff:n1=ffffffff/4/1 "},
        {64, FEDDURZAI_ATT, "\x0f\xb6\x47\xf8", 4,
            "movzbl:m  :s -:o1 0x8:n1=fffffffffffffff8/8/2 (:c1 %rdi:r1 ):c1 ,:c  :s %eax:r0 "},
        {64, FEDDURZAI_INTEL, "\x8b\x04\x9d\x08\0\0\0", 7,
            "mov:m  :s eax:r0 ,:c  :s dword:k1  :s1 [:c1 rbx:r1 *:o1 4:n1=4/1/3 +:o1 0x8:n1=8/8/2 ]:c1 "},
        {32, FEDDURZAI_MASM, "\x9a\x10\0\0\0\x08\0", 7, "callf:m  :s 8h:n0=8/2/6 ::c0 10h:n0=10/4/7 "},
        {64, FEDDURZAI_MASM, "\xeb\x0e", 2, "jmp:m  :s 10h:n0=10/8/4 "},
        {16, FEDDURZAI_ATT, "\x90", 1, "nop:m "},
    };
    static const char letters[] = "pmrknocs";
    size_t n;
    for (n = 0; n < sizeof cases / sizeof *cases; n++) {
        feddurzai_instr i;
        feddurzai_piece pieces[FEDDURZAI_MAX_PIECES];
        char text[FEDDURZAI_MAX_TEXT], shown[1024];
        int count, k, at = 0;
        CHECK(feddurzai_decode(cases[n].bits, 0, (const uint8_t *)cases[n].bytes, cases[n].len, &i), (int)cases[n].len);
        count = feddurzai_pieces(cases[n].bits, cases[n].syntax, &i, text, sizeof text, pieces, FEDDURZAI_MAX_PIECES);
        CHECK(cover(pieces, count, strlen(text)), 1);
        for (k = 0; k < count; k++) {
            const feddurzai_piece *piece = &pieces[k];
            at += sprintf(shown + at, "%.*s:%c", piece->end - piece->start, text + piece->start, letters[piece->kind]);
            if (piece->operand != FEDDURZAI_NO_OPERAND)
                at += sprintf(shown + at, "%d", piece->operand);
            if (piece->kind == FEDDURZAI_PIECE_NUMBER)
                at += sprintf(shown + at, "=%llx/%d/%d", (unsigned long long)piece->value, piece->width, piece->role);
            else
                CHECK(piece->value == 0 && piece->role == 0 && piece->width == 0, 1);
            at += sprintf(shown + at, " ");
        }
        CHECK(strcmp(shown, cases[n].want), 0);

        /* one piece too few: nothing is written */
        memset(text, 0xaa, sizeof text);
        memset(pieces, 0xaa, sizeof pieces);
        CHECK(feddurzai_pieces(cases[n].bits, cases[n].syntax, &i, text, sizeof text, pieces, (size_t)count - 1), FEDDURZAI_NO_ROOM);
        CHECK(is_untouched(text, sizeof text) && is_untouched(pieces, sizeof pieces), 1);
    }
}

/* texts by options, as objdump prints them and otherwise; and options that are none */
static void check_options(void)
{
    static const struct {
        uint32_t syntax;
        feddurzai_options options;
        const char *bytes;
        uint8_t len, offset;
        const char *name, *want;
    } cases[] = {
        {FEDDURZAI_MASM, FEDDURZAI_GNU_OPTIONS, "\x48\x89\x5c\x24\x10", 5, 0, "", "mov    QWORD PTR [rsp+0x10],rbx"},
        {FEDDURZAI_MASM, FEDDURZAI_GNU_OPTIONS, "\xe8\xfb\x0f\0\0", 5, 0, "puts@plt", "call   0x402000 <puts@plt>"},
        {FEDDURZAI_MASM, FEDDURZAI_GNU_OPTIONS, "\x48\x8d\x3d\xbd\x2e\0\0", 7, 4, "message",
            "lea    rdi,[rip+0x2ebd]        # 403ec4 <message+0x4>"},
        {FEDDURZAI_MASM, FEDDURZAI_GNU_OPTIONS, "\x66\x2e\x0f\x1f\x84\0\0\0\0\0", 10, 0, "", "cs nop WORD PTR [rax+rax*1+0x0]"},
        {FEDDURZAI_ATT, FEDDURZAI_GNU_ATT_OPTIONS, "\x48\x8b\x43\x10", 4, 0, "", "mov    0x10(%rbx),%rax"},
        {FEDDURZAI_ATT, FEDDURZAI_GNU_ATT_OPTIONS, "\xc1\xe8\x1f", 3, 0, "", "shr    $0x1f,%eax"},
        {FEDDURZAI_INTEL, {0, 0, 0, 0, 0, 0, 0, FEDDURZAI_SYMBOL_INSTEAD, 0, 0, 0, 0, 0}, "\xe8\xfb\x0f\0\0", 5, 1, "puts@plt", "call puts@plt+0x1"},
        {FEDDURZAI_INTEL, {FEDDURZAI_UPPER, 0, 0, 0, 0, 0, 0, 0, 0, 0, 0, 0, 0}, "\x48\x89\x5c\x24\x10", 5, 0, "", "MOV QWORD [RSP+0x10], RBX"},
        {FEDDURZAI_INTEL, {0, FEDDURZAI_DECIMAL, FEDDURZAI_SIGNED, 0, 0, 0, 0, 0, 0, 0, 0, 0, 0}, "\x83\xc0\x80", 3, 0, "", "add eax, -128"},
        {FEDDURZAI_INTEL, {0, FEDDURZAI_HEX_SUFFIX, 0, 0, FEDDURZAI_SIZE_IF_NEEDED, 0, 0, 0, 0, 0, 0, 0, 0}, "\x48\x89\x5c\x24\x1a", 5, 0, "",
            "mov [rsp+1Ah], rbx"},
    };
    feddurzai_instr i;
    char text[FEDDURZAI_MAX_TEXT];
    size_t n, field;
    for (n = 0; n < sizeof cases / sizeof *cases; n++) {
        uint64_t end = 0x401000 + cases[n].len;
        CHECK(feddurzai_decode(64, 0x401000, (const uint8_t *)cases[n].bytes, cases[n].len, &i), cases[n].len);
        CHECK(feddurzai_format(64, cases[n].syntax, &cases[n].options, &i, end, cases[n].name, strlen(cases[n].name), cases[n].offset,
                  text, sizeof text), (int)strlen(cases[n].want));
        CHECK(strcmp(text, cases[n].want), 0);
    }
    {
        /* GNU's names with the bytes */
        static const feddurzai_options gnu = FEDDURZAI_GNU_OPTIONS;
        const uint8_t *code = (const uint8_t *)"\x66\x66\x90";
        CHECK(feddurzai_decode(64, 0x401000, code, 3, &i), 3);
        CHECK(feddurzai_format_code(64, FEDDURZAI_MASM, &gnu, code, 3, &i, 0x401003, "", 0, 0, text, sizeof text), 17);
        CHECK(strcmp(text, "data16 xchg ax,ax"), 0);
        CHECK(feddurzai_format(64, FEDDURZAI_MASM, &gnu, &i, 0x401003, "", 0, 0, text, sizeof text), 3);
        CHECK(strcmp(text, "nop"), 0);
    }
    /* each number but the column has a last choice */
    for (field = 0; field < sizeof(feddurzai_options); field++) {
        static const uint8_t last[] = {4, 3, 1, 1, 1, 255, 1, 3, 1, 1, 1, 1, 255};
        feddurzai_options options;
        memset(&options, 0, sizeof options);
        ((uint8_t *)&options)[field] = last[field];
        CHECK(feddurzai_format(64, FEDDURZAI_INTEL, &options, &i, 0, "", 0, 0, text, 3), FEDDURZAI_NO_ROOM);
        ((uint8_t *)&options)[field]++;
        CHECK(feddurzai_format(64, FEDDURZAI_INTEL, &options, &i, 0, "", 0, 0, text, 3),
            last[field] == 255 ? FEDDURZAI_NO_ROOM : FEDDURZAI_BAD_OPTIONS);
    }
}

/* the names of registers, and numbers that no register has */
static void check_register_names(void)
{
    static const struct { uint32_t syntax; uint8_t class_, number; const char *text; } cases[] = {
        {FEDDURZAI_INTEL, FEDDURZAI_LOW8, 4, "spl"}, {FEDDURZAI_INTEL, FEDDURZAI_LOW8, 15, "r15b"},
        {FEDDURZAI_INTEL, FEDDURZAI_HIGH8, 0, "ah"}, {FEDDURZAI_INTEL, FEDDURZAI_R16, 5, "bp"},
        {FEDDURZAI_INTEL, FEDDURZAI_R32, 12, "r12d"}, {FEDDURZAI_ATT, FEDDURZAI_R64, 0, "%rax"},
        {FEDDURZAI_MASM, FEDDURZAI_SEG, 4, "fs"}, {FEDDURZAI_INTEL, FEDDURZAI_CR, 8, "cr8"},
        {FEDDURZAI_INTEL, FEDDURZAI_DR, 7, "dr7"}, {FEDDURZAI_INTEL, FEDDURZAI_ST, 3, "st3"},
        {FEDDURZAI_ATT, FEDDURZAI_ST, 3, "%st(3)"}, {FEDDURZAI_INTEL, FEDDURZAI_MM, 7, "mm7"},
        {FEDDURZAI_ATT, FEDDURZAI_XMM, 15, "%xmm15"}, {FEDDURZAI_INTEL, FEDDURZAI_YMM, 9, "ymm9"},
        {FEDDURZAI_INTEL, FEDDURZAI_EIP, 0, "eip"}, {FEDDURZAI_ATT, FEDDURZAI_RIP, 0, "%rip"},
    };
    static const uint8_t counts[] = {0, 16, 4, 16, 16, 16, 6, 16, 8, 8, 8, 16, 16, 1, 1, 0, 0};
    static const char *const segments[] = {NULL, "es", "cs", "ss", "ds", "fs", "gs"};
    char text[8];
    size_t k;
    int class_, number;
    for (k = 0; k < sizeof cases / sizeof *cases; k++) {
        size_t len = strlen(cases[k].text);
        memset(text, 0xaa, sizeof text);
        CHECK(feddurzai_register_text(cases[k].syntax, cases[k].class_, cases[k].number, text, len), FEDDURZAI_NO_ROOM);
        CHECK(is_untouched(text, sizeof text), 1);
        CHECK(feddurzai_register_text(cases[k].syntax, cases[k].class_, cases[k].number, text, len + 1), (int)len);
        CHECK(strcmp(text, cases[k].text), 0);
        CHECK(is_untouched(text + len + 1, sizeof text - len - 1), 1);
    }
    for (class_ = 0; class_ < 17; class_++)
        for (number = 0; number < 256; number++) {
            int32_t said = feddurzai_register_text(FEDDURZAI_ATT, (uint8_t)class_, (uint8_t)number, text, 7);
            CHECK(number < counts[class_] ? said > 0 : said == FEDDURZAI_NO_REGISTER, 1);
        }
    CHECK(feddurzai_register_text(3, 0, 0, NULL, 0), FEDDURZAI_BAD_SYNTAX);
    CHECK(feddurzai_register_text(0, 0, 0, NULL, 0), FEDDURZAI_NO_REGISTER);
    for (number = 0; number < 256; number++) {
        int32_t said = feddurzai_segment_text(FEDDURZAI_INTEL, (uint8_t)number, text, sizeof text);
        CHECK(said, number >= 1 && number <= 6 ? 2 : FEDDURZAI_NO_REGISTER);
        if (said > 0)
            CHECK(strcmp(text, segments[number]), 0);
    }
    CHECK(feddurzai_segment_text(FEDDURZAI_ATT, FEDDURZAI_GS, text, 4), 3);
    CHECK(strcmp(text, "%gs"), 0);
    CHECK(feddurzai_segment_text(9, 0, text, 4), FEDDURZAI_BAD_SYNTAX);
    CHECK(feddurzai_segment_text(FEDDURZAI_ATT, FEDDURZAI_GS, text, 3), FEDDURZAI_NO_ROOM);
}

/* routines as text: bytes and labels, or a refusal with its line and column; and buffers that are too small */
static void check_routines(void)
{
    static const struct { uint32_t bits; uint64_t base; const char *text, *names; int len; const char *bytes; uint64_t line, column; } cases[] = {
        {64, 0x401000, "again: add eax, ecx\n dec ecx\n jne again\n ret", "", 7, "\x01\xc8\xff\xc9\x75\xfa\xc3", 0, 0},
        {64, 0x401000, "mov edi, SIZE-1\n call puts\n ret", "puts = 0x401180\nSIZE = 24", 11, "\xbf\x17\0\0\0\xe8\x76\x01\0\0\xc3", 0, 0},
        {32, 0, "jmp end\n db 1, 'a', \"bc\"\n end: ret", "", 7, "\xeb\x04\x01" "abc\xc3", 0, 0},
        {16, 0x100, "MOV AX, 1234H", "", 3, "\xb8\x34\x12", 0, 0},
        {64, 0x401000, "ret\n align 4\n t: dd t+4", "", 8, "\xc3\x0f\x1f\0\x08\x10\x40\0", 0, 0},
        {64, 0, "", "", 0, "", 0, 0},
        {64, 0, "ret\n  mvo eax, 1", "", FEDDURZAI_NO_TEXT, "", 2, 3},
        {64, 0, "x: inc [rbx]", "", FEDDURZAI_NO_SIZE, "", 1, 4},
        {64, 0, "db 256", "", FEDDURZAI_BAD_DATA, "", 1, 1},
        {64, 0, "nop\n\njmp there", "", FEDDURZAI_UNKNOWN, "", 3, 1},
        {64, 0, "x: nop\n x: nop", "", FEDDURZAI_TWICE, "", 2, 2},
        {64, 0, "nop\nalign 3", "", FEDDURZAI_BAD_ALIGNMENT, "", 2, 1},
        {64, 0x100000000, "x: mov eax, x", "", FEDDURZAI_UNFIT, "", 1, 4},
        {64, 0, "nop", "a = 1\nrax = 2", FEDDURZAI_BAD_NAMES, "", 2, 0},
        {64, 0, "nop\n jz: nop", "", FEDDURZAI_BAD_LABEL, "", 2, 2},
        {64, UINT64_MAX, "nop\nnop", "", FEDDURZAI_WRAPS, "", 2, 1},
        {17, 0, "nop", "1", FEDDURZAI_BAD_MODE, "", 0, 0},
    };
    static const char loop[] = "start: dec ecx\n  jne start\nend:";
    size_t k;
    feddurzai_routine_report *r = malloc(sizeof *r);
    feddurzai_label *labels = malloc(2 * sizeof *labels);
    uint8_t *code = malloc(4);
    for (k = 0; k < sizeof cases / sizeof *cases; k++) {
        size_t room = cases[k].len < 0 ? 3 : (size_t)cases[k].len;
        uint8_t *out = malloc(room ? room : 1);
        feddurzai_label *one = malloc(sizeof *one);
        memset(out, 0xaa, room);
        memset(r, 0xaa, sizeof *r);
        CHECK(feddurzai_assemble_code(cases[k].bits, cases[k].base, cases[k].text, strlen(cases[k].text), cases[k].names, strlen(cases[k].names),
            out, room, one, 1, r), cases[k].len < 0 ? cases[k].len : 0);
        CHECK(cases[k].len < 0 ? is_untouched(out, room) : memcmp(out, cases[k].bytes, room) == 0, 1);
        CHECK(r->bytes, cases[k].len < 0 ? 0 : (uint64_t)cases[k].len);
        CHECK(r->line, cases[k].line);
        CHECK(r->column, cases[k].column);
        free(out);
        free(one);
    }
    /* a label at the end; each buffer too small in turn */
    memset(code, 0xaa, 4);
    memset(labels, 0xaa, 2 * sizeof *labels);
    CHECK(feddurzai_assemble_code(64, 0x1000, loop, sizeof loop - 1, NULL, 0, code, 3, labels, 2, r), FEDDURZAI_NO_ROOM);
    CHECK(feddurzai_assemble_code(64, 0x1000, loop, sizeof loop - 1, NULL, 0, code, 4, labels, 1, r), FEDDURZAI_NO_ROOM);
    CHECK(is_untouched(code, 4) && is_untouched(labels, 2 * sizeof *labels), 1);
    CHECK(r->bytes << 16 | r->labels, 4 << 16 | 2);
    CHECK(feddurzai_assemble_code(64, 0x1000, loop, sizeof loop - 1, NULL, 0, code, 4, labels, 2, r), 0);
    CHECK(memcmp(code, "\xff\xc9\x75\xfc", 4), 0);
    CHECK(labels[0].address, 0x1000);
    CHECK(labels[0].offset << 16 | labels[0].len << 8 | labels[0].line, 5 << 8 | 1);
    CHECK(labels[1].address, 0x1004);
    CHECK(labels[1].offset, 27);
    CHECK(labels[1].len << 8 | labels[1].line, 3 << 8 | 3);
    CHECK(labels[0].has_address << 8 | labels[1].has_address, 0x101);
    CHECK(memcmp(loop + labels[1].offset, "end", 3), 0);
    /* a number as a target must be in reach of the base; if it is not in reach from the branch, it has a slot behind the code */
    CHECK(feddurzai_assemble_code(64, 0x1000, "jmp far", 7, "far = 0x7fff00000000", 20, NULL, 0, NULL, 0, r), FEDDURZAI_NO_TEXT);
    CHECK(feddurzai_assemble_code(64, 0x80000000, "nop\njmp far", 11, "far = 5", 7, NULL, 0, NULL, 0, r), FEDDURZAI_NO_ROOM);
    CHECK(r->bytes << 8 | r->slots, 16 << 8 | 1);
    /* without slots such a branch is refused, and everything else is the same */
    memset(r, 0xaa, sizeof *r);
    CHECK(feddurzai_assemble_code_near(64, 0x80000000, "nop\njmp far", 11, "far = 5", 7, code, 4, labels, 2, r), FEDDURZAI_TOO_FAR);
    CHECK(r->bytes | r->slots | r->labels, 0);
    CHECK(r->line << 16 | r->column << 8 | r->at, 2 << 16 | 1 << 8 | 1);
    CHECK(r->address, 5);
    CHECK(feddurzai_assemble_code_near(64, 0x80000000, "jmp far\nx:", 10, "far = 5", 7, code, 4, labels, 2, r), FEDDURZAI_NO_ROOM);
    CHECK(r->bytes << 16 | r->slots << 8 | r->labels, 5 << 16 | 1);
    CHECK(memcmp(code, "\xff\xc9\x75\xfc", 4), 0);
    CHECK(feddurzai_assemble_code_near(64, 0x1000, loop, sizeof loop - 1, NULL, 0, code, 4, labels, 2, r), 0);
    CHECK(memcmp(code, "\xff\xc9\x75\xfc", 4), 0);
    CHECK(labels[1].address, 0x1004);
    CHECK(feddurzai_assemble_code_near(64, 0, "x: inc [rbx]", 12, NULL, 0, code, 4, labels, 2, r), FEDDURZAI_NO_SIZE);
    CHECK(feddurzai_assemble_code_near(17, 0, "nop", 3, NULL, 0, code, 4, labels, 2, r), FEDDURZAI_BAD_MODE);
    free(r);
    free(labels);
    free(code);
}

/* each form at an address, as the manual spells it, and the reach of the first three */
static void check_jumps(void)
{
    static const struct { uint32_t bits, form; uint64_t at, target; uint8_t bytes[16]; int len; } cases[] = {
        {64, FEDDURZAI_JUMP_SHORT, 0x1000, 0x1081, {0xeb, 0x7f}, 2},
        {64, FEDDURZAI_JUMP_SHORT, 0x1000, 0x0f82, {0xeb, 0x80}, 2},
        {64, FEDDURZAI_JUMP_SHORT, 0x1000, 0x1082, {0}, -256 * FEDDURZAI_CAUSE_TARGET},
        {64, FEDDURZAI_JUMP_NEAR, 0x1000, 0x1081, {0xe9, 0x7c, 0, 0, 0}, 5},
        {64, FEDDURZAI_JUMP_NEAR, 0x1000, 0x80001004, {0xe9, 0xff, 0xff, 0xff, 0x7f}, 5},
        {64, FEDDURZAI_JUMP_NEAR, 0x1000, 0x80001005, {0}, -256 * FEDDURZAI_CAUSE_TARGET},
        {64, FEDDURZAI_JUMP_FAR, 0x1000, 0x123456789abcdef0, {0xff, 0x25, 0, 0, 0, 0, 0xf0, 0xde, 0xbc, 0x9a, 0x78, 0x56, 0x34, 0x12}, 14},
        {64, FEDDURZAI_CALL_NEAR, 0x1000, 0x1000, {0xe8, 0xfb, 0xff, 0xff, 0xff}, 5},
        {64, FEDDURZAI_CALL_FAR, UINT64_MAX, 0x123456789abcdef0,
            {0xff, 0x15, 2, 0, 0, 0, 0xeb, 0x08, 0xf0, 0xde, 0xbc, 0x9a, 0x78, 0x56, 0x34, 0x12}, 16},
        {32, FEDDURZAI_JUMP_NEAR, 0xfffffff0, 0x10, {0xe9, 0x1b, 0, 0, 0}, 5},
        {32, FEDDURZAI_JUMP_NEAR, 0, 0x100000000, {0}, -256 * FEDDURZAI_CAUSE_TARGET},
        {16, FEDDURZAI_JUMP_NEAR, 0x100, 0x200, {0xe9, 0xfd, 0x00}, 3},
        {16, FEDDURZAI_CALL_NEAR, 0x100, 0x200, {0xe8, 0xfd, 0x00}, 3},
        {32, FEDDURZAI_JUMP_FAR, 0, 0, {0}, -256 * FEDDURZAI_CAUSE_ROW},
        {16, FEDDURZAI_CALL_FAR, 0, 0, {0}, -256 * FEDDURZAI_CAUSE_ROW},
        {64, 0, 0, 0, {0}, FEDDURZAI_BAD_JUMP},
        {64, 6, 0, 0, {0}, FEDDURZAI_BAD_JUMP},
        {17, 6, 0, 0, {0}, FEDDURZAI_BAD_MODE},
    };
    size_t k;
    for (k = 0; k < sizeof cases / sizeof *cases; k++) {
        size_t room = cases[k].len < 0 ? FEDDURZAI_MAX_JUMP : (size_t)cases[k].len;
        uint8_t *out = malloc(room);
        memset(out, 0xaa, room);
        CHECK(feddurzai_jump(cases[k].bits, cases[k].at, cases[k].target, cases[k].form, out, room), cases[k].len);
        CHECK(cases[k].len < 0 ? is_untouched(out, room) : memcmp(out, cases[k].bytes, room) == 0, 1);
        if (cases[k].len > 0)
            CHECK(feddurzai_jump(cases[k].bits, cases[k].at, cases[k].target, cases[k].form, out, room - 1), FEDDURZAI_NO_ROOM);
        free(out);
    }
}

/* a width of a displacement that is left to the library: none, 8 or 32 bits, and the least that a base of RBP has */
static void check_shortest_displacements(void)
{
    static const struct { uint8_t base_class, base; uint64_t disp; const char *bytes; int len; } rows[] = {
        {FEDDURZAI_R64, FEDDURZAI_BX, 0, "\x48\x8b\x03", 3},
        {FEDDURZAI_R64, FEDDURZAI_BP, 0, "\x48\x8b\x45\x00", 4},
        {FEDDURZAI_R64, FEDDURZAI_BX, 0x7f, "\x48\x8b\x43\x7f", 4},
        {FEDDURZAI_R64, FEDDURZAI_BX, 0x80, "\x48\x8b\x83\x80\x00\x00\x00", 7},
        {FEDDURZAI_R64, FEDDURZAI_BX, (uint64_t)-128, "\x48\x8b\x43\x80", 4},
        {FEDDURZAI_NO_REG, 0, 0x10, "\x48\x8b\x04\x25\x10\x00\x00\x00", 8},
        {FEDDURZAI_RIP, 0, 0x1017, "\x48\x8b\x05\x10\x00\x00\x00", 7},
    };
    feddurzai_instr mov;
    uint8_t out[FEDDURZAI_MAX_LEN];
    char text[FEDDURZAI_MAX_TEXT];
    size_t i;
    memset(&mov, 0, sizeof mov);
    mov.code = FEDDURZAI_CODE_MOV_R64_RM64;
    mov.asize = 64;
    mov.ops[0].kind = FEDDURZAI_REGISTER;
    mov.ops[0].reg_class = FEDDURZAI_R64;
    mov.ops[1].kind = FEDDURZAI_MEMORY;
    mov.ops[1].scale = 1;
    mov.ops[1].disp_bits = FEDDURZAI_DISP_SHORTEST;
    for (i = 0; i < sizeof rows / sizeof rows[0]; i++) {
        mov.ops[1].reg_class = rows[i].base_class;
        mov.ops[1].reg_number = rows[i].base;
        mov.ops[1].value = rows[i].disp;
        CHECK(feddurzai_encode(64, 0x1000, &mov, out, sizeof out), rows[i].len);
        CHECK(memcmp(out, rows[i].bytes, (size_t)rows[i].len), 0);
        CHECK(feddurzai_encoded_len(64, 0x1000, &mov), rows[i].len);
    }
    mov.ops[1].reg_class = FEDDURZAI_R64;
    mov.ops[1].value = (uint64_t)1 << 32;
    CHECK(FEDDURZAI_CAUSE(feddurzai_encode(64, 0x1000, &mov, out, sizeof out)), FEDDURZAI_CAUSE_DISPLACEMENT);
    CHECK(FEDDURZAI_CAUSE_OPERAND(feddurzai_encode(64, 0x1000, &mov, out, sizeof out)), 1);
    CHECK(feddurzai_text(64, FEDDURZAI_INTEL, &mov, text, sizeof text), FEDDURZAI_BAD_INSTR);
}

/* a function and its cold part, which jump to each other: both are moved at once, and still do */
static void check_blocks(void)
{
    /* 1000: jne 1100; ret   1100: jmp 1006, behind bytes that belong to neither */
    static const uint8_t bytes[] = {0x0f, 0x85, 0xfa, 0x00, 0x00, 0x00, 0xc3, 0xcc, 0xcc, 0xe9, 0x01, 0xff, 0xff, 0xff};
    static const feddurzai_block blocks[] = {{0x1000, 0x2000, 0, 7}, {0x1100, 0x2020, 9, 5}};
    /* 2000: jne 2020; ret   2020: jmp 2006: what is near stays near */
    static const uint8_t want[] = {0x0f, 0x85, 0x1a, 0x00, 0x00, 0x00, 0xc3, 0xe9, 0xe1, 0xff, 0xff, 0xff};
    feddurzai_block bad[2];
    feddurzai_placed_block places[2];
    feddurzai_moved map[3];
    feddurzai_blocks_report report;
    uint8_t out[16];
    CHECK(feddurzai_move_blocks(64, bytes, sizeof bytes, blocks, 2, out, sizeof out, places, 2, map, 3, &report), 0);
    CHECK(report.bytes == 12 && report.count == 3 && report.block == 2, 1);
    CHECK(memcmp(out, want, 12), 0);
    CHECK(places[0].end == 7 && places[0].code_bytes == 7 && places[0].count == 2, 1);
    CHECK(places[1].end == 12 && places[1].code_bytes == 5 && places[1].count == 1, 1);
    CHECK(map[2].old_ip == 0x1100 && map[2].new_ip == 0x2020 && map[2].len == 5 && map[2].form == FEDDURZAI_NEAR_FORM, 1);

    /* the second block is not inside the bytes, passes the address space, or holds what is no instruction */
    memcpy(bad, blocks, sizeof bad);
    bad[1].offset = 10;
    CHECK(feddurzai_move_blocks(64, bytes, sizeof bytes, bad, 2, out, sizeof out, places, 2, map, 3, &report), FEDDURZAI_BAD_BLOCK);
    CHECK(report.block, 1);
    bad[1].offset = UINT64_MAX;
    CHECK(feddurzai_move_blocks(64, bytes, sizeof bytes, bad, 2, out, sizeof out, places, 2, map, 3, &report), FEDDURZAI_BAD_BLOCK);
    bad[1] = blocks[1];
    bad[1].old_ip = UINT64_MAX - 3;
    CHECK(feddurzai_move_blocks(64, bytes, sizeof bytes, bad, 2, out, sizeof out, places, 2, map, 3, &report), FEDDURZAI_WRAPS);
    CHECK(report.block == 1 && report.address == 1, 1);
    bad[1] = blocks[1];
    bad[1].len = 4;
    CHECK(feddurzai_move_blocks(64, bytes, sizeof bytes, bad, 2, out, sizeof out, places, 2, map, 3, &report), FEDDURZAI_TOO_SHORT);
    CHECK(report.block == 1 && report.at == 0, 1);
    bad[1].new_ip = UINT64_MAX - 1;
    bad[1].len = 5;
    CHECK(feddurzai_move_blocks(64, bytes, sizeof bytes, bad, 2, out, sizeof out, places, 2, map, 3, &report), FEDDURZAI_WRAPS);
    CHECK(report.block, 2);
    bad[1].len = FEDDURZAI_MAX_CODE;
    CHECK(feddurzai_move_blocks(64, bytes, sizeof bytes, bad, 2, out, sizeof out, places, 2, map, 3, &report), FEDDURZAI_TOO_LARGE);
}

/* places in a region: the first gap that is long enough, and each again once it is released */
static void check_region(void)
{
    feddurzai_region region = {0x10000, 64, 0};
    feddurzai_live live[3];
    uint8_t image[64];
    uint64_t place = 7;
    memset(image, 0xcc, sizeof image);
    CHECK(feddurzai_region_reserve(&region, live, 3, 0, &place), FEDDURZAI_EMPTY);
    CHECK(feddurzai_region_reserve(&region, live, 3, 65, &place), FEDDURZAI_FULL);
    CHECK(place == 7 && region.count == 0, 1);
    CHECK(feddurzai_region_reserve(&region, live, 3, 17, &place), 0);
    CHECK(place == 0x10000 && live[0].place == 0x10000 && live[0].len == 32, 1);
    CHECK(feddurzai_region_reserve(&region, live, 3, 16, &place), 0);
    CHECK(place == 0x10020 && region.count == 2 && live[1].len == 16, 1);
    CHECK(feddurzai_region_fill(&region, live, 3, 0x10020, (const uint8_t *)"\x90\xc3", 2, image, sizeof image), 0);
    CHECK(image[31] == 0xcc && image[32] == 0x90 && image[33] == 0xc3 && image[34] == 0xcc, 1);
    CHECK(feddurzai_region_fill(&region, live, 3, 0x10020, image, 17, image + 47, 17), FEDDURZAI_NO_ROOM);
    CHECK(feddurzai_region_fill(&region, live, 3, 0x10010, image, 1, image, sizeof image), FEDDURZAI_NOT_LIVE);
    CHECK(feddurzai_region_release(&region, live, 3, 0x10010), FEDDURZAI_NOT_LIVE);
    CHECK(feddurzai_region_release(&region, live, 3, 0x10000), 0);
    CHECK(region.count == 1 && live[0].place == 0x10020, 1);
    CHECK(feddurzai_region_reserve(&region, live, 3, 1, &place), 0);
    CHECK(place == 0x10000 && live[0].len == 16 && live[1].place == 0x10020, 1);
    CHECK(feddurzai_region_reserve(&region, live, 3, 1, &place), 0);
    CHECK(place == 0x10010 && live[1].place == 0x10010 && region.count == 3, 1);
    CHECK(feddurzai_region_reserve(&region, live, 3, 1, &place), FEDDURZAI_NO_ROOM);
    CHECK(feddurzai_region_fill(&region, live, 3, 0x10020, NULL, 0, image, sizeof image), 0);
    CHECK(image[32] == 0xcc && image[33] == 0xcc, 1);
    /* two that stand over one another, a size that is none, and an end past the address space */
    live[1].place = 0x1000f;
    CHECK(feddurzai_region_release(&region, live, 3, 0x10000), FEDDURZAI_BAD_REGION);
    live[1].place = 0x10010;
    region.size = 40;
    CHECK(feddurzai_region_release(&region, live, 3, 0x10000), FEDDURZAI_BAD_REGION);
    region.size = 64;
    region.base = UINT64_MAX - 62;
    CHECK(feddurzai_region_release(&region, live, 3, 0x10000), FEDDURZAI_BAD_REGION);
}

/* targets that are among the moved instructions: they follow, or are kept */
static void check_kept_targets(void)
{
    static const uint8_t loop[] = {0xeb, 0xfe};                     /* jmp to itself */
    static const uint8_t back[] = {0x31, 0xc0, 0xeb, 0xfe};         /* xor eax, eax; and jmp 0x1002, the old end */
    static const uint8_t cut[] = {0x31};
    uint8_t *out = malloc(8);
    feddurzai_moved map[2];
    feddurzai_move_report report;
    CHECK(feddurzai_move(64, 0x1000, loop, 2, 0x2000, out, 8, map, 2, &report), 0);
    CHECK(memcmp(out, loop, 2), 0);
    CHECK(feddurzai_move_outside(64, 0x1000, loop, 2, 0x1040, out, 8, map, 2, &report), 0);
    CHECK(out[0] << 8 | out[1], 0xebbe);
    CHECK(report.bytes == 2 && report.count == 1 && report.code_bytes == 2 && report.slots_at == 2, 1);
    CHECK(map[0].old_ip == 0x1000 && map[0].new_ip == 0x1040 && map[0].len == 2 && map[0].form == FEDDURZAI_SHORT, 1);
    CHECK(feddurzai_move_outside(64, 0x1000, back, 4, 0x2000, out, 8, map, 2, &report), 0);
    CHECK(report.bytes, 7);
    CHECK(memcmp(out, "\x31\xc0\xe9\xfb\xef\xff\xff", 7), 0);
    CHECK(map[1].form, FEDDURZAI_NEAR_FORM);
    memset(out, 0xaa, 8);
    CHECK(feddurzai_move_outside(64, 0x1000, back, 4, 0x2000, out, 6, map, 2, &report), FEDDURZAI_NO_ROOM);
    CHECK(feddurzai_move_outside(64, 0x1000, back, 4, 0x2000, out, 7, map, 1, &report), FEDDURZAI_NO_ROOM);
    CHECK(report.bytes == 7 && report.count == 2, 1);
    CHECK(feddurzai_move_outside(17, 0x1000, back, 4, 0x2000, out, 7, map, 2, &report), FEDDURZAI_BAD_MODE);
    CHECK(feddurzai_move_outside(64, 0x1000, cut, 1, 0x2000, out, 7, map, 2, &report), FEDDURZAI_TOO_SHORT);
    CHECK(feddurzai_move_outside(16, 0xffff, back, 4, 0x2000, out, 7, map, 2, &report), FEDDURZAI_WRAPS);
    CHECK(report.address, 0x10003);
    CHECK(feddurzai_move_outside(16, 0x1000, back, 4, 0xfffe, out, 7, map, 2, &report), FEDDURZAI_WRAPS);
    CHECK(is_untouched(out, 8), 1);
    free(out);
}

/* code with an instruction that the opcode table leaves out */
static void check_unlisted_moves(void)
{
    /* vpxord zmm0, zmm0, [rip+0x10], and jnz back to it; then the same with a far je in place of the jump */
    static const uint8_t loop[] = {0x62, 0xf1, 0x7d, 0x48, 0xef, 0x05, 0x10, 0, 0, 0, 0x75, 0xf4};
    static const uint8_t leaves[] = {0x62, 0xf1, 0x7d, 0x48, 0xef, 0xc0, 0x74, 0x10};
    uint8_t *out = malloc(32), *large = calloc(FEDDURZAI_MAX_CODE + 1, 1);
    feddurzai_moved map[2];
    feddurzai_move_report report, *r = &report;
    CHECK(feddurzai_move(64, 0x1000, loop, sizeof loop, 0x2000, out, 32, map, 2, r), FEDDURZAI_INVALID);
    memset(out, 0xaa, 32);
    CHECK(feddurzai_move_unlisted(64, 0x1000, loop, sizeof loop, 0x2000, out, 11, map, 2, r), FEDDURZAI_NO_ROOM);
    CHECK(feddurzai_move_unlisted(64, 0x1000, loop, sizeof loop, 0x2000, out, 32, map, 1, r), FEDDURZAI_NO_ROOM);
    CHECK(report.bytes == 12 && report.count == 2 && report.code_bytes == 12 && report.slots_at == 12, 1);
    CHECK(is_untouched(out, 32), 1);
    CHECK(feddurzai_move_unlisted(64, 0x1000, loop, sizeof loop, 0x2000, out, 32, map, 2, r), 0);
    CHECK(memcmp(out, "\x62\xf1\x7d\x48\xef\x05\x10\xf0\xff\xff\x75\xf4\xaa", 13), 0);
    CHECK(map[0].old_ip == 0x1000 && map[0].new_ip == 0x2000 && map[0].len == 10 && map[0].form == FEDDURZAI_NEAR_FORM, 1);
    CHECK(map[1].old_ip == 0x100a && map[1].new_ip == 0x200a && map[1].len == 2 && map[1].form == FEDDURZAI_SHORT, 1);
    /* out of reach the je gets a slot behind 6 + 8 bytes, at 14 rounded to 16 */
    CHECK(feddurzai_move_unlisted(64, 0x1000, leaves, sizeof leaves, 0x7fff00000000, out, 32, map, 2, r), 0);
    CHECK(report.bytes == 24 && report.count == 2 && report.code_bytes == 14 && report.slots_at == 16, 1);
    CHECK(memcmp(out, leaves, 6), 0);
    CHECK(feddurzai_move_unlisted(64, 0x1000, loop, sizeof loop, 0x7fff00000000, out, 32, map, 2, r), FEDDURZAI_TOO_FAR);
    CHECK(report.at == 0 && report.address == 0x101a, 1);
    CHECK(feddurzai_move_unlisted(64, 0x1000, loop, 11, 0x2000, out, 32, map, 2, r), FEDDURZAI_TOO_SHORT);
    CHECK(report.at, 10);
    CHECK(feddurzai_move_unlisted(64, 0xfffffffffffffffe, loop, sizeof loop, 0x2000, out, 32, map, 2, r), FEDDURZAI_WRAPS);
    CHECK(report.address, 10);
    CHECK(feddurzai_move_unlisted(64, 0, large, FEDDURZAI_MAX_CODE + 1, 0, NULL, 0, NULL, 0, r), FEDDURZAI_TOO_LARGE);
    CHECK(feddurzai_move_unlisted(17, 0, NULL, 0, 0, NULL, 0, NULL, 0, r), FEDDURZAI_BAD_MODE);
    CHECK(feddurzai_move_unlisted(64, 0, NULL, 0, 0x1000, NULL, 0, NULL, 0, r), 0);
    CHECK(report.bytes == 0 && report.count == 0 && report.code_bytes == 0 && report.slots_at == 0, 1);
    free(out);
    free(large);
}

/* what a step of one instruction at 0x1000 is at a place: the bytes, where the instruction has happened, and where its jump back is */
static void check_step(uint32_t bits, const char *bytes, size_t len, uint64_t place, const char *want, size_t want_len, uint64_t done_at,
    uint64_t back_at)
{
    uint8_t *out = malloc(FEDDURZAI_MAX_STEP + 1);
    feddurzai_step_report *r = malloc(sizeof *r);
    memset(out, 0xaa, FEDDURZAI_MAX_STEP + 1);
    CHECK(feddurzai_step(bits, 0x1000, (const uint8_t *)bytes, len, place, out, FEDDURZAI_MAX_STEP, r), (int)want_len);
    CHECK(memcmp(out, want, want_len), 0);
    CHECK(is_untouched(out + want_len, FEDDURZAI_MAX_STEP + 1 - want_len), 1);
    CHECK(r->bytes, want_len);
    CHECK(r->done_at, done_at);
    CHECK(r->back_at, back_at);
    CHECK(r->len, len);
    CHECK(r->address, 0);
    CHECK(feddurzai_step_len(bits, 0x1000, (const uint8_t *)bytes, len, place % 16) >= (int)want_len, 1);
    free(out);
    free(r);
}

/* steps elsewhere, with their bytes by hand */
static void check_steps(void)
{
    static const uint8_t load[] = {0x8b, 0x05, 0, 0, 0, 0};     /* mov eax, [rip] */
    static const uint8_t call[] = {0xe8, 0xfb, 0x0f, 0, 0};     /* call 0x2000 */
    static const uint8_t bad[] = {0x06};
    feddurzai_region region = {0x500000, 128, 0};
    feddurzai_live live[2];
    feddurzai_step_report r;
    uint8_t out[FEDDURZAI_MAX_STEP], image[128];
    uint64_t place = 0;
    int32_t len;
    /* push rax, and jmp 0x1001 */
    check_step(64, "\x50", 1, 0x2000, "\x50\xe9\xfb\xef\xff\xff", 6, 1, 1);
    check_step(32, "\x50", 1, 0x2000, "\x50\xe9\xfb\xef\xff\xff", 6, 1, 1);
    check_step(16, "\x50", 1, 0x2000, "\x50\xe9\xfd\xef", 4, 1, 1);
    /* jmp to itself: to where it stood */
    check_step(64, "\xeb\xfe", 2, 0x1080, "\xe9\x7b\xff\xff\xff\xe9\x78\xff\xff\xff", 10, 5, 5);
    /* loop 0x1010: there it is a loop over a jump, and a jump behind these; the loop alone has happened after its 2 bytes */
    check_step(64, "\xe2\x0e", 2, 0x2000, "\xe2\x02\xeb\x05\xe9\x07\xf0\xff\xff\xe9\xf4\xef\xff\xff", 14, 2, 9);
    /* the same on ECX: the address size of the counter stays, and it has 3 bytes: jmp 0x1003 behind it */
    check_step(64, "\x67\xe2\x0d", 3, 0x2000, "\x67\xe2\x02\xeb\x05\xe9\x06\xf0\xff\xff\xe9\xf4\xef\xff\xff", 15, 3, 10);
    /* jcxz 0x1010 in 16-bit code: e3, a jump of 2 bytes and one of 3, and a jump to 0x1002 */
    check_step(16, "\xe3\x0e", 2, 0x2000, "\xe3\x02\xeb\x03\xe9\x09\xf0\xe9\xf8\xef", 10, 2, 7);
    /* je 0x1010 that reaches as it is, by an offset of 4 bytes: one instruction */
    check_step(64, "\x74\x0e", 2, 0x2000, "\x0f\x84\x0a\xf0\xff\xff\xe9\xf7\xef\xff\xff", 11, 6, 6);
    /* je out of its reach: jne over a jmp through its address, so 2 bytes; both addresses behind the jump back */
    check_step(64, "\x74\x0e", 2, 0x7f0000000000,
        "\x75\x06\xff\x25\x08\0\0\0\xff\x25\x0a\0\0\0\xcc\xcc\x10\x10\0\0\0\0\0\0\x02\x10\0\0\0\0\0\0", 32, 2, 8);
    /* syscall: RCX gets the address of the jump back */
    check_step(64, "\x0f\x05", 2, 0x2000, "\x0f\x05\xe9\xfb\xef\xff\xff", 7, 2, 2);
    /* a call through its address behind the jump back, which also has one */
    check_step(64, (const char *)call, 5, 0x7f0000000000,
        "\xff\x15\x0a\0\0\0\xff\x25\x0c\0\0\0\xcc\xcc\xcc\xcc\0\x20\0\0\0\0\0\0\x05\x10\0\0\0\0\0\0", 32, 6, 6);
    /* an address is taken modulo 2 to the power of bits: jmp 0 behind the last byte of 16-bit code */
    CHECK(feddurzai_step(16, 0x5ffff, (const uint8_t *)"\x50", 1, 0x10, out, sizeof out, &r), 4);
    CHECK(out[1] == 0xe9 && out[2] == 0xec && out[3] == 0xff, 1);

    memset(out, 0xaa, sizeof out);
    CHECK(feddurzai_step(17, 0x1000, call, 5, 0x2000, out, sizeof out, &r), FEDDURZAI_BAD_MODE);
    CHECK(feddurzai_step(64, 0x1000, bad, 1, 0x2000, out, sizeof out, &r), FEDDURZAI_INVALID);
    CHECK(feddurzai_step(64, 0x1000, call, 4, 0x2000, out, sizeof out, &r), FEDDURZAI_TOO_SHORT);
    CHECK(feddurzai_step(16, 0x1000, (const uint8_t *)"\x50", 1, 0xfffe, out, sizeof out, &r), FEDDURZAI_WRAPS);
    CHECK(r.bytes == 0 && r.back_at == 0 && r.len == 0 && r.done_at == 0 && r.address == 0x10002, 1);
    CHECK(feddurzai_step(16, 0x1000, (const uint8_t *)"\x50", 1, 0x20000, out, sizeof out, &r), FEDDURZAI_WRAPS);
    CHECK(r.address, 0x20004);
    CHECK(feddurzai_step(64, 0x1000, load, 6, 0x7f0000000000, out, sizeof out, &r), FEDDURZAI_TOO_FAR);
    CHECK(r.bytes == 0 && r.address == 0x1006, 1);
    CHECK(is_untouched(out, sizeof out), 1);
    CHECK(feddurzai_step_len(17, 0, call, 5, 0), FEDDURZAI_BAD_MODE);
    CHECK(feddurzai_step_len(64, 0, bad, 1, 0), FEDDURZAI_INVALID);
    CHECK(feddurzai_step_len(64, 0, call, 4, 0), FEDDURZAI_TOO_SHORT);

    /* a place of a region for as many bytes as it may take, wherever that is */
    CHECK(feddurzai_region_reserve(&region, live, 2, 1, &place), 0);
    len = feddurzai_step_len(64, 0x1000, call, 5, region.base);
    CHECK(len, 32);
    CHECK(feddurzai_region_reserve(&region, live, 2, (uint64_t)len, &place), 0);
    CHECK(place, 0x500010);
    len = feddurzai_step(64, 0x1000, call, 5, place, out, sizeof out, &r);
    CHECK(len, 10);
    CHECK(feddurzai_region_fill(&region, live, 2, place, out, (size_t)len, image, sizeof image), 0);
    CHECK(memcmp(image + 16, "\xe8\xeb\x1f\xb0\xff\xe9\xeb\x0f\xb0\xff\xcc\xcc", 12), 0);
}

/* what a stepped CALL at an address is at a place that pushes its own return address: the bytes, and those of its push */
static void check_step_call(uint32_t bits, uint64_t old_ip, const char *bytes, size_t len, uint64_t place, const char *want, size_t want_len,
    uint64_t done_at)
{
    uint8_t *out = malloc(FEDDURZAI_MAX_STEP + 1);
    feddurzai_step_report *r = malloc(sizeof *r);
    memset(out, 0xaa, FEDDURZAI_MAX_STEP + 1);
    CHECK(feddurzai_step_call(bits, old_ip, (const uint8_t *)bytes, len, place, out, FEDDURZAI_MAX_STEP, r), (int)want_len);
    CHECK(memcmp(out, want, want_len), 0);
    CHECK(is_untouched(out + want_len, FEDDURZAI_MAX_STEP + 1 - want_len), 1);
    CHECK(r->bytes, want_len);
    CHECK(r->done_at, done_at);
    CHECK(r->back_at, 0);
    CHECK(r->len, len);
    CHECK(r->address, 0);
    free(out);
    free(r);
}

/* an instruction that has no such code, or is refused for another cause */
static void check_no_step_call(uint32_t bits, const char *bytes, size_t len, uint64_t place, int32_t want, uint64_t address)
{
    feddurzai_step_report r;
    uint8_t out[FEDDURZAI_MAX_STEP];
    memset(out, 0xaa, sizeof out);
    CHECK(feddurzai_step_call(bits, 0x1000, (const uint8_t *)bytes, len, place, out, sizeof out, &r), want);
    CHECK(r.bytes == 0 && r.back_at == 0 && r.len == 0 && r.done_at == 0 && r.address == address, 1);
    CHECK(is_untouched(out, sizeof out), 1);
}

/* calls elsewhere that push their own return addresses, with their bytes by hand */
static void check_step_calls(void)
{
    /* call 0x401015: push 0x401005, mov dword [rsp+4], 0, and jmp 0x401015 from 0x500012 */
    check_step_call(64, 0x401000, "\xe8\x10\0\0\0", 5, 0x500000, "\x68\x05\x10\x40\0\xc7\x44\x24\x04\0\0\0\0\xe9\x03\x10\xf0\xff", 18, 5);
    /* at an address whose low half is negative as a number of 32 bits: push extends its sign, and mov writes the high half */
    check_step_call(64, 0x7fff80000000, "\xff\xd0", 2, 0x500000, "\x68\x02\0\0\x80\xc7\x44\x24\x04\xff\x7f\0\0\xff\xe0", 15, 5);
    /* call [rsp+8]: jmp [rsp+16]; call [rsp]: jmp [rsp+8]; call [rsp+0x78]: jmp [rsp+0x80], of 32 bits */
    check_step_call(64, 0x1000, "\xff\x54\x24\x08", 4, 0x2000, "\x68\x04\x10\0\0\xc7\x44\x24\x04\0\0\0\0\xff\x64\x24\x10", 17, 5);
    check_step_call(64, 0x1000, "\xff\x14\x24", 3, 0x2000, "\x68\x03\x10\0\0\xc7\x44\x24\x04\0\0\0\0\xff\x64\x24\x08", 17, 5);
    check_step_call(64, 0x1000, "\xff\x54\x24\x78", 4, 0x2000,
        "\x68\x04\x10\0\0\xc7\x44\x24\x04\0\0\0\0\xff\xa4\x24\x80\0\0\0", 20, 5);
    /* call [rip+0x10], at 0x1016: jmp [rip-0xffd] from 0x2013 */
    check_step_call(64, 0x1000, "\xff\x15\x10\0\0\0", 6, 0x2000,
        "\x68\x06\x10\0\0\xc7\x44\x24\x04\0\0\0\0\xff\x25\x03\xf0\xff\xff", 19, 5);
    /* call 0x2000 out of reach: jmp through its address, at a multiple of 8 */
    check_step_call(64, 0x1000, "\xe8\xfb\x0f\0\0", 5, 0x7f0000000000,
        "\x68\x05\x10\0\0\xc7\x44\x24\x04\0\0\0\0\xff\x25\x05\0\0\0\xcc\xcc\xcc\xcc\xcc\0\x20\0\0\0\0\0\0", 32, 5);
    /* 32 and 16-bit code: one push */
    check_step_call(32, 0x1000, "\xe8\xfb\x0f\0\0", 5, 0x1800, "\x68\x05\x10\0\0\xe9\xf6\x07\0\0", 10, 5);
    check_step_call(32, 0x1000, "\xff\x54\x24\x04", 4, 0x1800, "\x68\x04\x10\0\0\xff\x64\x24\x08", 9, 5);
    check_step_call(16, 0x1000, "\xe8\xfd\x0f", 3, 0x1800, "\x68\x03\x10\xe9\xfa\x07", 6, 3);

    check_no_step_call(64, "\x90", 1, 0x2000, FEDDURZAI_BAD_FORM, 0);                               /* nop */
    check_no_step_call(64, "\xff\xd4", 2, 0x2000, FEDDURZAI_BAD_FORM, 0);                           /* call rsp */
    check_no_step_call(64, "\xff\x54\x24\xf8", 4, 0x2000, FEDDURZAI_BAD_FORM, 0);                   /* call [rsp-8] */
    check_no_step_call(64, "\xff\x94\x24\xf8\xff\xff\x7f", 7, 0x2000, FEDDURZAI_BAD_FORM, 0);       /* call [rsp+0x7ffffff8] */
    check_no_step_call(64, "\xff\x18", 2, 0x2000, FEDDURZAI_BAD_FORM, 0);                           /* call far [rax] */
    check_no_step_call(32, "\x66\xff\xd0", 3, 0x2000, FEDDURZAI_BAD_FORM, 0);                       /* call ax */
    check_no_step_call(17, "\xff\xd0", 2, 0x2000, FEDDURZAI_BAD_MODE, 0);
    check_no_step_call(64, "\x06", 1, 0x2000, FEDDURZAI_INVALID, 0);
    check_no_step_call(64, "\xe8", 1, 0x2000, FEDDURZAI_TOO_SHORT, 0);
    check_no_step_call(16, "\xff\xd0", 2, 0xfffc, FEDDURZAI_WRAPS, 0x10001);
    check_no_step_call(64, "\xff\x15\0\0\0\0", 6, 0x7f0000000000, FEDDURZAI_TOO_FAR, 0x1006);
}

/* each constant is the code of the row that its name says, by the library's own search and notation */
static void check_codes(void)
{
    static const struct { int code; const char *name; size_t n; const char *notation; } codes[] = {
#include "codes.h"
    };
    char notation[65];
    size_t k;
    for (k = 0; k < sizeof codes / sizeof *codes; k++) {
        CHECK(feddurzai_code_of(codes[k].name, strlen(codes[k].name), codes[k].n), codes[k].code);
        CHECK(feddurzai_notation((uint32_t)codes[k].code, notation, sizeof notation) > 0, 1);
        CHECK(strcmp(notation, codes[k].notation), 0);
    }
}

/* operands of rows: kinds by the entries of the manual, and what chapters 3 to 5 say is done to them */
static void check_row_operands(void)
{
    static const struct { const char *name, *notation; uint32_t index; const char *kind; uint8_t access; } operands[] = {
        {"add", "00 /r", 0, "Eb", FEDDURZAI_READ_WRITE},
        {"add", "00 /r", 1, "Gb", FEDDURZAI_READ},
        {"add", "00 /r", 2, "", FEDDURZAI_ACCESS_NONE},
        {"add", "00 /r", 3, "", FEDDURZAI_ACCESS_NONE},
        {"mov", "REX.W + 89 /r", 0, "Ev", FEDDURZAI_WRITE},
        {"mov", "REX.W + 89 /r", 1, "Gv", FEDDURZAI_READ},
        {"cmp", "3C ib", 0, "AL", FEDDURZAI_READ},
        {"cmp", "3C ib", 1, "Ib", FEDDURZAI_READ},
        {"shl", "D0 /4", 1, "1", FEDDURZAI_READ},
        {"lea", "REX.W + 8D /r", 1, "M", FEDDURZAI_ACCESS_NONE},
    };
    char notation[65], kind[6];
    uint8_t access;
    uint32_t code, index;
    size_t k, n;
    int32_t found;
    for (k = 0; k < sizeof operands / sizeof *operands; k++) {
        for (n = 0; (found = feddurzai_code_of(operands[k].name, strlen(operands[k].name), n)) >= 0; n++) {
            CHECK(feddurzai_notation((uint32_t)found, notation, sizeof notation) > 0, 1);
            if (strcmp(notation, operands[k].notation) == 0)
                break;
        }
        CHECK(found >= 0, 1);
        access = 0xaa;
        CHECK(feddurzai_row_operand((uint32_t)found, operands[k].index, &access, kind, sizeof kind), (int32_t)strlen(operands[k].kind));
        CHECK(strcmp(kind, operands[k].kind), 0);
        CHECK(access, operands[k].access);
    }
    /* a room of 6 for each; an operand that is not there has no access, and none stands behind it */
    for (code = 0; code < FEDDURZAI_CODES; code++) {
        int absent = 0;
        for (index = 0; index < 4; index++) {
            int32_t length = feddurzai_row_operand(code, index, &access, kind, sizeof kind);
            CHECK(length >= 0 && (size_t)length == strlen(kind), 1);
            CHECK(absent && length > 0, 0);
            absent = length == 0;
            CHECK(absent ? access == FEDDURZAI_ACCESS_NONE : access <= FEDDURZAI_READ_WRITE, 1);
        }
    }
    access = 0xaa;
    memset(kind, 0xaa, sizeof kind);
    CHECK(feddurzai_row_operand(FEDDURZAI_CODES, 0, &access, kind, sizeof kind), FEDDURZAI_BAD_CODE);
    CHECK(feddurzai_row_operand(0xffffffff, 4, &access, NULL, 0), FEDDURZAI_BAD_CODE);
    CHECK(feddurzai_row_operand(0, 4, &access, kind, sizeof kind), FEDDURZAI_NO_NAME);
    CHECK(feddurzai_row_operand(0, 0xffffffff, &access, NULL, 0), FEDDURZAI_NO_NAME);
    CHECK(feddurzai_row_operand(0, 0, &access, kind, 2), FEDDURZAI_NO_ROOM);
    CHECK(feddurzai_row_operand(0, 2, &access, NULL, 0), FEDDURZAI_NO_ROOM);
    CHECK(access, 0xaa);
    CHECK(is_untouched((const uint8_t *)kind, sizeof kind), 1);
}

static void check_refusals(void)
{
    static const uint8_t nop[] = {0x90};
    static const uint8_t open[] = {0x48, 0x8b};
    static const uint8_t bad[] = {0x06};
    feddurzai_instr *i = malloc(sizeof *i);
    feddurzai_about *about = malloc(sizeof *about);
    feddurzai_move_report *report = malloc(sizeof *report);
    feddurzai_instr kept;
    feddurzai_touched touched;
    feddurzai_piece pieces[FEDDURZAI_MAX_PIECES];
    char text[FEDDURZAI_MAX_TEXT];
    uint8_t bytes[FEDDURZAI_MAX_LEN];
    uint32_t bits, syntax;
    int n, k, count;

    memset(i, 0xaa, sizeof *i);
    CHECK(feddurzai_decode(17, 0, nop, 1, i), FEDDURZAI_BAD_MODE);
    CHECK(feddurzai_decode(0, 0, NULL, 0, i), FEDDURZAI_BAD_MODE);
    CHECK(feddurzai_decode(64, 0, NULL, 0, i), FEDDURZAI_TOO_SHORT);
    CHECK(feddurzai_decode(64, 0, open, 2, i), FEDDURZAI_TOO_SHORT);
    CHECK(feddurzai_decode(64, 0, bad, 1, i), FEDDURZAI_INVALID);
    CHECK(is_untouched(i, sizeof *i), 1);
    CHECK(feddurzai_text(64, 0, i, text, sizeof text), FEDDURZAI_BAD_INSTR);
    CHECK(feddurzai_encode(64, 0, i, bytes, sizeof bytes), FEDDURZAI_BAD_INSTR);
    CHECK(feddurzai_encoded_len(64, 0, i), FEDDURZAI_BAD_INSTR);
    memset(about, 0xaa, sizeof *about);
    CHECK(feddurzai_info(i, about), FEDDURZAI_BAD_INSTR);
    CHECK(is_untouched(about, sizeof *about), 1);
    CHECK(feddurzai_decode(64, 0, nop, 1, i), 1);
    kept = *i;

    /* modes and styles */
    CHECK(feddurzai_text(17, 0, i, text, sizeof text), FEDDURZAI_BAD_MODE);
    CHECK(feddurzai_text(64, 9, i, text, sizeof text), FEDDURZAI_BAD_SYNTAX);
    CHECK(feddurzai_encode(17, 0, i, bytes, sizeof bytes), FEDDURZAI_BAD_MODE);
    CHECK(feddurzai_move(17, 0, nop, 1, 0, bytes, sizeof bytes, NULL, 0, report), FEDDURZAI_BAD_MODE);
    CHECK(feddurzai_flow(17, 0, nop, 1, NULL, 0, NULL, 0), FEDDURZAI_BAD_MODE);

    /* rooms: none, one too small, one that fits exactly */
    CHECK(feddurzai_text(64, FEDDURZAI_INTEL, i, NULL, 0), FEDDURZAI_NO_ROOM);
    memset(text, 0xaa, sizeof text);
    CHECK(feddurzai_text(64, FEDDURZAI_INTEL, i, text, 3), FEDDURZAI_NO_ROOM);
    CHECK(is_untouched(text, sizeof text), 1);
    CHECK(feddurzai_text(64, FEDDURZAI_INTEL, i, text, 4), 3);
    CHECK(strcmp(text, "nop"), 0);
    CHECK(is_untouched(text + 4, sizeof text - 4), 1);
    CHECK(feddurzai_encode(64, 0, i, NULL, 0), FEDDURZAI_NO_ROOM);
    memset(bytes, 0xaa, sizeof bytes);
    CHECK(feddurzai_encode(64, 0, i, bytes, 1), 1);
    CHECK(bytes[0], 0x90);
    CHECK(is_untouched(bytes + 1, sizeof bytes - 1), 1);

    /* codes and names */
    CHECK(feddurzai_name(FEDDURZAI_CODES, text, sizeof text), FEDDURZAI_BAD_CODE);
    CHECK(feddurzai_name(0xffffffff, text, sizeof text), FEDDURZAI_BAD_CODE);
    CHECK(feddurzai_name(0, NULL, 0), FEDDURZAI_NO_ROOM);
    CHECK(feddurzai_notation(FEDDURZAI_CODES, text, sizeof text), FEDDURZAI_BAD_CODE);
    CHECK(feddurzai_notation(0, NULL, 0), FEDDURZAI_NO_ROOM);
    CHECK(feddurzai_notation(0, text, sizeof text), 5);
    CHECK(strcmp(text, "00 /r"), 0);
    check_row_operands();
    CHECK(feddurzai_name(0, text, 4), 3);
    CHECK(strcmp(text, "add"), 0);
    CHECK(feddurzai_code_of(NULL, 0, 0), FEDDURZAI_NO_NAME);
    CHECK(feddurzai_code_of("add", 3, 1000), FEDDURZAI_NO_NAME);
    CHECK(feddurzai_code_of("\xff\xfe", 2, 0), FEDDURZAI_NO_NAME);
    CHECK(feddurzai_code_of("add", 3, 0), 0);

    /* structs that are no instruction, and instructions that no row has */
    i->code = FEDDURZAI_CODES;
    CHECK(feddurzai_text(64, 0, i, text, sizeof text), FEDDURZAI_BAD_FORM);
    CHECK(feddurzai_info(i, about), FEDDURZAI_BAD_FORM);
    CHECK(feddurzai_encode(64, 0, i, bytes, sizeof bytes), -256 * FEDDURZAI_CAUSE_ROW);
    *i = kept;
    i->lock = 2;
    CHECK(feddurzai_encode(64, 0, i, bytes, sizeof bytes), FEDDURZAI_BAD_INSTR);
    *i = kept;
    i->rep = 1;
    CHECK(feddurzai_encode(64, 0, i, bytes, sizeof bytes), FEDDURZAI_BAD_INSTR);
    *i = kept;
    i->segment = 7;
    CHECK(feddurzai_encode(64, 0, i, bytes, sizeof bytes), FEDDURZAI_BAD_INSTR);
    *i = kept;
    i->asize = 8;
    CHECK(feddurzai_encode(64, 0, i, bytes, sizeof bytes), FEDDURZAI_BAD_INSTR);
    *i = kept;
    i->lock = 1;
    CHECK(FEDDURZAI_CAUSE(feddurzai_encode(64, 0, i, bytes, sizeof bytes)), FEDDURZAI_CAUSE_PREFIX);
    *i = kept;
    i->ops[3].kind = 6;
    CHECK(feddurzai_encode(64, 0, i, bytes, sizeof bytes), FEDDURZAI_BAD_INSTR);
    memset(i, 0, sizeof *i); /* add r/m8, r8 */
    i->ops[0].kind = FEDDURZAI_REGISTER;
    i->ops[0].reg_class = FEDDURZAI_LOW8;
    i->ops[1].kind = FEDDURZAI_REGISTER;
    i->ops[1].reg_class = FEDDURZAI_LOW8;
    i->ops[1].reg_number = 3;
    CHECK(feddurzai_encode(64, 0, i, bytes, sizeof bytes), 2);
    CHECK(bytes[0] << 8 | bytes[1], 0x00d8);
    i->ops[1].reg_number = 200;
    n = feddurzai_encode(64, 0, i, bytes, sizeof bytes);
    CHECK(FEDDURZAI_CAUSE(n), FEDDURZAI_CAUSE_REGISTER);
    CHECK(FEDDURZAI_CAUSE_OPERAND(n), 1);
    CHECK(feddurzai_text(64, 0, i, text, sizeof text), FEDDURZAI_BAD_FORM);
    i->ops[1].reg_class = 15;
    CHECK(feddurzai_encode(64, 0, i, bytes, sizeof bytes), FEDDURZAI_BAD_INSTR);
    i->ops[1].reg_class = FEDDURZAI_NO_REG;
    CHECK(feddurzai_encode(64, 0, i, bytes, sizeof bytes), FEDDURZAI_BAD_INSTR);

    /* structs of any bytes at all */
    srand(1);
    for (k = 0; k < 200000; k++) {
        size_t j;
        for (j = 0; j < sizeof *i; j++)
            ((uint8_t *)i)[j] = (uint8_t)(rand() % 4 != 0 ? rand() % 16 : rand() % 256);
        bits = (uint32_t)(rand() % 5 * 16);
        syntax = (uint32_t)(rand() % 4);
        n = feddurzai_text(bits, syntax, i, text, sizeof text);
        if (n > 160)
            CHECK(n, 160);
        count = feddurzai_pieces(bits, syntax, i, text, sizeof text, pieces, FEDDURZAI_MAX_PIECES);
        CHECK(n < 0 ? count == n : cover(pieces, count, (size_t)n), 1);
        n = feddurzai_encode((uint32_t)(rand() % 5 * 16), (uint64_t)rand(), i, bytes, sizeof bytes);
        if (n > 15)
            CHECK(n, 15);
        if (n >= 0 || FEDDURZAI_CAUSE(n) != 0)
            CHECK(n > 0 ? n : FEDDURZAI_CAUSE_OPERAND(n) <= 3, n > 0 ? n : 1);
        n = feddurzai_info(i, about);
        if (n > 0)
            CHECK(n, 0);
        CHECK(feddurzai_effects(64, i, &touched), n);
    }
    free(i);
    free(about);
    free(report);
}

static void check_code(void)
{
    /* je over a nop, ret */
    static const uint8_t code[] = {0x74, 0x01, 0x90, 0xc3};
    static const uint8_t stops[] = {0x90, 0x06};
    static const uint8_t loop[] = {0xe2, 0x10};
    uint8_t *out = malloc(16);
    feddurzai_moved *map = malloc(3 * sizeof *map);
    feddurzai_move_report *report = malloc(sizeof *report);
    uint32_t *starts = malloc(3 * sizeof *starts), *leaders = malloc(3 * sizeof *leaders);
    uint8_t *large = calloc(1, FEDDURZAI_MAX_CODE + 1);

    memset(out, 0xaa, 16);
    memset(map, 0xaa, 3 * sizeof *map);
    CHECK(feddurzai_move(64, 0x1000, NULL, 0, 0x2000, NULL, 0, NULL, 0, report), 0);
    CHECK(report->bytes, 0);
    CHECK(report->count, 0);
    CHECK(feddurzai_move(16, 0x20000, NULL, 0, 0x2000, NULL, 0, NULL, 0, report), 0);
    CHECK(feddurzai_move(16, 0x1000, NULL, 0, 0x20000, NULL, 0, NULL, 0, report), FEDDURZAI_WRAPS);
    CHECK(report->address, 0x20000);
    CHECK(feddurzai_move(64, 0x1000, code, 4, 0x2000, NULL, 0, NULL, 0, report), FEDDURZAI_NO_ROOM);
    CHECK(report->bytes, 4);
    CHECK(report->count, 3);
    CHECK(report->code_bytes, 4);
    CHECK(report->slots_at, 4);
    CHECK(feddurzai_move(64, 0x1000, code, 4, 0x2000, out, 3, map, 3, report), FEDDURZAI_NO_ROOM);
    CHECK(feddurzai_move(64, 0x1000, code, 4, 0x2000, out, 16, map, 2, report), FEDDURZAI_NO_ROOM);
    CHECK(is_untouched(out, 16), 1);
    CHECK(is_untouched(map, 3 * sizeof *map), 1);
    CHECK(feddurzai_move(64, 0x1000, code, 4, 0x2000, out, 16, map, 3, report), 0);
    CHECK(memcmp(out, code, 4), 0);
    CHECK(is_untouched(out + 4, 12), 1);
    CHECK(map[1].old_ip, 0x1002);
    CHECK(map[1].new_ip, 0x2002);
    CHECK(map[1].len, 1);
    CHECK(map[0].form, FEDDURZAI_SHORT);
    CHECK(map[2].form, FEDDURZAI_ITSELF);
    CHECK(feddurzai_move(64, 0, stops, 2, 0x2000, out, 16, map, 3, report), FEDDURZAI_INVALID);
    CHECK(report->at, 1);
    CHECK(feddurzai_move(64, 0, code, 1, 0x2000, out, 16, map, 3, report), FEDDURZAI_TOO_SHORT);
    CHECK(report->at, 0);
    CHECK(feddurzai_move(16, 0xffff, code, 4, 0, out, 16, map, 3, report), FEDDURZAI_WRAPS);
    CHECK(report->address, 0x10003);
    CHECK(feddurzai_move(32, 0, code, 4, 0xfffffffd, out, 16, map, 3, report), FEDDURZAI_WRAPS);
    CHECK(report->address, 0x100000001);
    CHECK(feddurzai_move(64, UINT64_MAX, code, 4, 0, out, 16, map, 3, report), FEDDURZAI_WRAPS);
    CHECK(report->address, 3);
    /* an operand at RIP reaches 2 gigabytes */
    {
        static const uint8_t rip[] = {0x48, 0x8b, 0x05, 0x10, 0x00, 0x00, 0x00};
        CHECK(feddurzai_move(64, 0x1000, rip, 7, 0x7fff00000000, out, 16, map, 3, report), FEDDURZAI_TOO_FAR);
        CHECK(report->at, 0);
        CHECK(report->address, 0x1017);
        CHECK(report->code_bytes | report->slots_at, 0);
    }
    CHECK(feddurzai_move(64, 0x1000, loop, 2, 0x2000, out, 16, map, 3, report), 0);
    CHECK(map[0].form, FEDDURZAI_BRIDGE);
    CHECK(report->code_bytes, report->bytes);
    CHECK(report->slots_at, report->bytes);
    /* a call and a return far away: 7 bytes, a gap of 1, and the slot */
    {
        static const uint8_t far_call[] = {0xe8, 0x00, 0x01, 0x00, 0x00, 0xc3};
        CHECK(feddurzai_move(64, 0x1000, far_call, 6, 0x7fff00000000, out, 16, map, 3, report), 0);
        CHECK(report->bytes, 16);
        CHECK(report->code_bytes, 7);
        CHECK(report->slots_at, 8);
        CHECK(out[6], 0xc3);
        CHECK(out[8] | out[9] << 8, 0x1105);
    }
    CHECK(feddurzai_move(64, 0, large, FEDDURZAI_MAX_CODE + 1, 0, out, 16, map, 3, report), FEDDURZAI_TOO_LARGE);
    memset(large, 0x90, FEDDURZAI_MAX_CODE);
    CHECK(feddurzai_move(64, 0, large, FEDDURZAI_MAX_MOVED + 1, 0, out, 16, map, 3, report), FEDDURZAI_TOO_MANY);
    CHECK(report->count, FEDDURZAI_MAX_MOVED + 1);

    memset(starts, 0xaa, 3 * sizeof *starts);
    memset(leaders, 0xaa, 3 * sizeof *leaders);
    CHECK(feddurzai_flow(64, 0, NULL, 0, NULL, 0, NULL, 0), 0);
    CHECK(feddurzai_flow(64, 0, code, 4, NULL, 0, NULL, 0), FEDDURZAI_NO_ROOM);
    CHECK(feddurzai_flow(64, 0, code, 4, starts, 2, leaders, 3), FEDDURZAI_NO_ROOM);
    CHECK(feddurzai_flow(64, 0, code, 4, starts, 3, leaders, 2), FEDDURZAI_NO_ROOM);
    CHECK(is_untouched(starts, 3 * sizeof *starts), 1);
    CHECK(is_untouched(leaders, 3 * sizeof *leaders), 1);
    CHECK(feddurzai_flow(64, 0, code, 4, starts, 3, leaders, 3), 3);
    CHECK(starts[0], 0);
    CHECK(starts[1], 2);
    CHECK(starts[2], 3);
    CHECK(leaders[2], 3);
    CHECK(feddurzai_flow(64, 0, large, FEDDURZAI_MAX_CODE + 1, starts, 3, leaders, 3), FEDDURZAI_TOO_LARGE);

    /* 74 01 90 c3 from the nop, twice, and from no byte; then with an invalid byte and one too few behind it */
    {
        static const uint32_t entries[] = {2, 9, 2}, both[] = {2, 0};
        static const uint8_t bad[] = {0x74, 0x00, 0x06, 0xe8};
        uint8_t *kinds = malloc(3), *much = calloc(1, FEDDURZAI_MAX_FLOW + 1);
        memset(starts, 0xaa, 3 * sizeof *starts);
        memset(leaders, 0xaa, 3 * sizeof *leaders);
        memset(kinds, 0xaa, 3);
        CHECK(feddurzai_flow_from(64, 0, NULL, 0, NULL, 0, NULL, 0, NULL, 0, NULL, 0), 0);
        CHECK(feddurzai_flow_from(64, 0, code, 4, NULL, 0, NULL, 0, NULL, 0, NULL, 0), 0);
        CHECK(feddurzai_flow_from(17, 0, code, 4, entries, 3, starts, 3, leaders, 3, kinds, 3), FEDDURZAI_BAD_MODE);
        CHECK(feddurzai_flow_from(64, 0, code, 4, entries, 3, starts, 1, leaders, 3, kinds, 3), FEDDURZAI_NO_ROOM);
        CHECK(feddurzai_flow_from(64, 0, code, 4, entries, 3, starts, 3, leaders, 1, kinds, 3), FEDDURZAI_NO_ROOM);
        CHECK(feddurzai_flow_from(64, 0, code, 4, entries, 3, starts, 3, leaders, 3, kinds, 1), FEDDURZAI_NO_ROOM);
        CHECK(is_untouched(starts, 3 * sizeof *starts), 1);
        CHECK(is_untouched(leaders, 3 * sizeof *leaders), 1);
        CHECK(is_untouched(kinds, 3), 1);
        CHECK(feddurzai_flow_from(64, 0, code, 4, entries, 3, starts, 3, leaders, 3, kinds, 3), 2);
        CHECK(starts[0] == 2 && starts[1] == 3, 1);
        CHECK(leaders[0] == 2 && leaders[1] == 2, 1);
        CHECK(kinds[0] == FEDDURZAI_FLOW_NEXT && kinds[1] == FEDDURZAI_FLOW_RETURN, 1);
        CHECK(is_untouched(starts + 2, sizeof *starts), 1);
        CHECK(is_untouched(kinds + 2, 1), 1);
        CHECK(feddurzai_flow_from(64, 0, bad, 4, both, 2, starts, 3, leaders, 3, kinds, 3), 2);
        CHECK(kinds[0] == FEDDURZAI_FLOW_CONDITIONAL && kinds[1] == FEDDURZAI_KIND_INVALID, 1);
        CHECK(feddurzai_flow_from(64, 0, bad + 3, 1, both + 1, 1, starts, 3, leaders, 3, kinds, 3), 1);
        CHECK(kinds[0], FEDDURZAI_KIND_TOO_SHORT);
        CHECK(feddurzai_flow_from(64, 0, much, FEDDURZAI_MAX_FLOW + 1, both, 2, starts, 3, leaders, 3, kinds, 3),
            FEDDURZAI_TOO_LARGE);
        CHECK(feddurzai_flow_from(64, 0, much, FEDDURZAI_MAX_FLOW, both, 2, starts, 3, leaders, 3, kinds, 3),
            FEDDURZAI_NO_ROOM);
        free(kinds);
        free(much);
    }

    /* jmp rax; three nops; jmp 0: five bytes are overwritten, and an entry is at the last nop */
    {
        static const uint8_t function[] = {0xff, 0xe0, 0x90, 0x90, 0x90, 0xeb, 0xf9};
        static const uint32_t moved[] = {0}, entries[] = {4, 7};
        feddurzai_view *view = malloc(sizeof *view);
        memset(view, 0xaa, sizeof *view);
        CHECK(feddurzai_look(17, 0, function, 7, NULL, 0, 5, moved, 1, 9, view), FEDDURZAI_BAD_MODE);
        CHECK(feddurzai_look(64, 0, function, 7, NULL, 0, 5, moved, 1, 2, view), FEDDURZAI_BAD_START);
        CHECK(feddurzai_look(64, 0, large, FEDDURZAI_MAX_CODE + 1, NULL, 0, 5, moved, 1, 1, view), FEDDURZAI_TOO_LARGE);
        CHECK(is_untouched(view, sizeof *view), 1);
        CHECK(feddurzai_look(64, 0, function, 7, NULL, 0, 5, moved, 1, FEDDURZAI_START_OPEN, view), 0);
        CHECK(view->sight == FEDDURZAI_SIGHT_INDIRECT_JUMP && view->sight_at == 0, 1);
        CHECK(view->is_entered == 0 && view->has_inside == 0 && view->has_suspect == 0, 1);
        CHECK(feddurzai_look(64, 0, function, 7, NULL, 0, 5, moved, 1, FEDDURZAI_START_CLOSED, view), 0);
        CHECK(view->has_suspect == 1 && view->suspect_from == 5 && view->suspect_target == 0, 1);
        CHECK(feddurzai_look(64, 0, function, 7, entries, 2, 5, moved, 1, FEDDURZAI_START_CLOSED, view), 0);
        CHECK(view->has_inside == 1 && view->inside == 4, 1);
        CHECK(view->is_entered == 1 && view->entered_from == 5 && view->entered_target == 0, 1);
        CHECK(view->has_suspect, 0);
        CHECK(feddurzai_look(64, 0, NULL, 0, NULL, 0, 0, NULL, 0, FEDDURZAI_START_OPEN, view), 0);
        CHECK(view->sight, FEDDURZAI_SIGHT_WHOLE);
        free(view);
    }
    free(out);
    free(map);
    free(report);
    free(starts);
    free(leaders);
    free(large);
}

/* each refusal of a detour with its numbers, each form of the jump, and where the parts of the trampoline stand */
static void check_detours(void)
{
    /* sub rsp, 0x18; xor eax, eax; ret */
    static const uint8_t small[] = {0x48, 0x83, 0xec, 0x18, 0x31, 0xc0, 0xc3};
    static const uint8_t near_patch[] = {0xe9, 0xfb, 0x0f, 0x00, 0x00, 0xcc};
    static const uint8_t near_trampoline[] = {0x48, 0x83, 0xec, 0x18, 0x31, 0xc0, 0xe9, 0xfb, 0xdf, 0xff, 0xff};
    /* 7 times xor eax, eax; ret */
    static const uint8_t wide[] = {0x31, 0xc0, 0x31, 0xc0, 0x31, 0xc0, 0x31, 0xc0, 0x31, 0xc0, 0x31, 0xc0, 0x31, 0xc0, 0xc3};
    /* sub edi, 3; jg to the start; lea eax, [rdi+10]; ret */
    static const uint8_t loop[] = {0x83, 0xef, 0x03, 0x7f, 0xfb, 0x8d, 0x47, 0x0a, 0xc3};
    /* xor eax, eax; inc eax; cmp eax, edi; jb to the second; ret */
    static const uint8_t entered[] = {0x31, 0xc0, 0xff, 0xc0, 0x39, 0xf8, 0x72, 0xfa, 0xc3};
    static const uint8_t ends[] = {0xc3, 0x90, 0x90, 0x90, 0x31, 0xc0, 0xc3};
    static const uint8_t bad[] = {0x90, 0x06, 0x90, 0x90, 0x90}, cut[] = {0x90, 0x48};
    static const uint8_t rip[] = {0x90, 0x48, 0x8b, 0x05, 0x10, 0x00, 0x00, 0x00, 0xc3};
    static const uint8_t evex[] = {0x62, 0xf1, 0x7d, 0x48, 0xef, 0x05, 0x10, 0x00, 0x00, 0x00, 0xc3};
    static const uint8_t evex_trampoline[] = {0x62, 0xf1, 0x7d, 0x48, 0xef, 0x05, 0x10, 0xe0, 0xff, 0xff, 0xe9, 0xfb, 0xdf, 0xff, 0xff};
    static const uint8_t around[] = {0x48, 0x8b, 0x07, 0x48, 0x89, 0xc1, 0x62, 0xf1, 0x7c, 0x48, 0x28, 0xc1, 0xeb, 0xf5, 0xc3};
    const uint64_t far = 0x7fff00000000;
    uint8_t *patch = malloc(FEDDURZAI_MAX_PATCH), *out = malloc(64), *large = calloc(1, FEDDURZAI_MAX_CODE + 1);
    feddurzai_detour_report *r = malloc(sizeof *r);
#define DETOUR(bits, code, to, place, start) \
    feddurzai_detour(bits, 0x1000, code, sizeof code, to, place, start, patch, FEDDURZAI_MAX_PATCH, out, 64, r)
    memset(patch, 0xaa, FEDDURZAI_MAX_PATCH);
    memset(out, 0xaa, 64);
    CHECK(DETOUR(17, small, 0x2000, 0x3000, 9), FEDDURZAI_BAD_MODE);
    CHECK(DETOUR(64, small, 0x2000, 0x3000, 2), FEDDURZAI_BAD_START);
    CHECK(feddurzai_detour(64, 0, large, FEDDURZAI_MAX_CODE + 1, 0, 0, 0, NULL, 0, NULL, 0, r), FEDDURZAI_TOO_LARGE);
    CHECK(DETOUR(64, bad, 0x2000, 0x3000, 0), FEDDURZAI_INVALID);
    CHECK(r->at, 1);
    CHECK(DETOUR(64, cut, 0x2000, 0x3000, 0), FEDDURZAI_TOO_SHORT);
    CHECK(r->at, 1);
    CHECK(DETOUR(64, small, far, far + 0x100, 0), FEDDURZAI_SMALL);
    CHECK(r->at, 7);
    CHECK(r->target, 14);
    CHECK(DETOUR(64, ends, 0x2000, 0x3000, 0), FEDDURZAI_ENDS);
    CHECK(r->at, 4);
    CHECK(DETOUR(64, entered, 0x2000, 0x3000, 0), FEDDURZAI_ENTERED);
    CHECK(r->at, 6);
    CHECK(r->target, 2);
    CHECK(DETOUR(32, small, 0x2000, 0xfffffffc, 0), FEDDURZAI_WRAPS);
    CHECK(r->target, 0x100000007);
    CHECK(DETOUR(64, rip, 0x2000, far, 0), FEDDURZAI_TOO_FAR);
    CHECK(r->at, 1);
    CHECK(r->target, 0x1018);
    CHECK(r->taken | r->bytes | r->jump_back | r->slots_at | r->relay_at | r->form, 0);
    CHECK(is_untouched(patch, FEDDURZAI_MAX_PATCH) && is_untouched(out, 64), 1);

    CHECK(DETOUR(64, small, 0x2000, 0x3000, 0), 0);
    CHECK(r->taken, 6);
    CHECK(r->bytes, 11);
    CHECK(r->jump_back, 6);
    CHECK(r->slots_at, 11);
    CHECK(r->relay_at, 11);
    CHECK(r->at | r->target, 0);
    CHECK(r->form, FEDDURZAI_DETOUR_NEAR);
    CHECK(memcmp(patch, near_patch, 6), 0);
    CHECK(memcmp(out, near_trampoline, 11), 0);
    CHECK(is_untouched(patch + 6, FEDDURZAI_MAX_PATCH - 6) && is_untouched(out + 11, 53), 1);
    CHECK(DETOUR(64, small, far, 0x3000, 0), 0);
    CHECK(r->form, FEDDURZAI_DETOUR_RELAY);
    CHECK(r->relay_at, 11);
    CHECK(r->slots_at, 25);
    CHECK(r->bytes, 25);
    CHECK(patch[1], 0x06);
    CHECK(patch[2], 0x20);
    CHECK(out[11], 0xff);
    /* by 14 bytes; the jump back is 6 bytes, and the slot of 8 begins at a multiple of 8 */
    CHECK(DETOUR(64, wide, far, far + 0x100, 0), 0);
    CHECK(r->form, FEDDURZAI_DETOUR_ABSOLUTE);
    CHECK(r->taken, 14);
    CHECK(r->jump_back, 14);
    CHECK(r->slots_at, 24);
    CHECK(r->bytes, 32);
    CHECK(r->relay_at, 32);
    CHECK(out[24] | out[25] << 8, 0x100e);
    /* a branch to the start: 2 bytes to the moved start, or 6 to the function */
    CHECK(DETOUR(64, loop, 0x2000, 0x3000, FEDDURZAI_START_MOVED), 0);
    CHECK(r->jump_back, 5);
    CHECK(DETOUR(64, loop, 0x2000, 0x3000, FEDDURZAI_START_HOOKED), 0);
    CHECK(r->jump_back, 9);
#undef DETOUR
    /* vpxord zmm0, zmm0, [rip+0x10]; ret: by the call that reads it */
    CHECK(feddurzai_detour(64, 0x1000, evex, sizeof evex, 0x2000, 0x3000, 0, patch, FEDDURZAI_MAX_PATCH, out, 64, r), FEDDURZAI_INVALID);
    CHECK(feddurzai_detour_unlisted(64, 0x1000, evex, sizeof evex, 0x2000, 0x3000, 0, patch, FEDDURZAI_MAX_PATCH, out, 14, r), FEDDURZAI_NO_ROOM);
    CHECK(feddurzai_detour_unlisted(64, 0x1000, evex, sizeof evex, 0x2000, 0x3000, 0, patch, FEDDURZAI_MAX_PATCH, out, 64, r), 0);
    CHECK(r->taken, 10);
    CHECK(r->bytes, 15);
    CHECK(r->jump_back, 10);
    CHECK(r->form, FEDDURZAI_DETOUR_NEAR);
    CHECK(memcmp(out, evex_trampoline, 15), 0);
    /* mov rax, [rdi]; mov rcx, rax; vmovaps zmm0, zmm1; jmp to the second one */
    CHECK(feddurzai_detour_unlisted(64, 0x1000, around, sizeof around, 0x2000, 0x3000, 0, patch, FEDDURZAI_MAX_PATCH, out, 64, r), FEDDURZAI_ENTERED);
    CHECK(r->at, 12);
    CHECK(r->target, 3);
    CHECK(feddurzai_detour_unlisted(17, 0, NULL, 0, 0, 0, 9, NULL, 0, NULL, 0, r), FEDDURZAI_BAD_MODE);
    CHECK(feddurzai_detour_unlisted(64, 0, NULL, 0, 0, 0, 9, NULL, 0, NULL, 0, r), FEDDURZAI_BAD_START);
    CHECK(feddurzai_detour_unlisted(64, 0, large, FEDDURZAI_MAX_CODE + 1, 0, 0, 0, NULL, 0, NULL, 0, r), FEDDURZAI_TOO_LARGE);
    free(patch);
    free(out);
    free(large);
    free(r);
}

/* each refusal of a detour by rules with its numbers, what is seen, and where the moved instructions lie */
static void check_ruled_detours(void)
{
    /* mov rax, [rdi]; mov rcx, rax; vsubps zmm0, zmm0, zmm1, which has no row; jmp to the second one; ret */
    static const uint8_t unread[] = {0x48, 0x8b, 0x07, 0x48, 0x89, 0xc1, 0x62, 0xf1, 0x7c, 0x48, 0x28, 0xc1, 0xeb, 0xf5, 0xc3};
    /* mov rax, [rdi]; jmp [8*rax+0x2000]; inc rdi; jmp to the first jump; ret */
    static const uint8_t by_table[] = {0x48, 0x8b, 0x07, 0xff, 0x24, 0xc5, 0x00, 0x20, 0x00, 0x00, 0x48, 0xff, 0xc7, 0xeb, 0xf4, 0xc3};
    /* cmp byte [rdi], 0; je to the end; inc rdi; jmp to the start; ret */
    static const uint8_t loop[] = {0x80, 0x3f, 0x00, 0x74, 0x05, 0x48, 0xff, 0xc7, 0xeb, 0xf6, 0xc3};
    /* sub rsp, 0x18; xor eax, eax; ret */
    static const uint8_t small[] = {0x48, 0x83, 0xec, 0x18, 0x31, 0xc0, 0xc3};
    static const uint8_t patch_of_unread[] = {0xe9, 0xfb, 0x0f, 0x00, 0x00, 0xcc};
    static const uint8_t trampoline_of_unread[] = {0x48, 0x8b, 0x07, 0x48, 0x89, 0xc1, 0xe9, 0xfb, 0xdf, 0xff, 0xff};
    /* je to the end; mov rcx, rax; two nops; ret: in the trampoline the branch has 6 bytes */
    static const uint8_t longer[] = {0x74, 0x05, 0x48, 0x89, 0xc1, 0x90, 0x90, 0xc3};
    static const uint8_t trampoline_of_longer[] = {0x0f, 0x84, 0x01, 0xe0, 0xff, 0xff, 0x48, 0x89, 0xc1, 0xe9, 0xf7, 0xdf, 0xff, 0xff};
    /* sub rsp, 8; call 0x1109; add rsp, 8; ret: in the trampoline push 0x1009; mov dword [rsp+4], 0; jmp 0x1109 */
    static const uint8_t calling[] = {0x48, 0x83, 0xec, 0x08, 0xe8, 0x00, 0x01, 0x00, 0x00, 0x48, 0x83, 0xc4, 0x08, 0xc3};
    static const uint8_t trampoline_of_calling[] = {0x48, 0x83, 0xec, 0x08, 0x68, 0x09, 0x10, 0x00, 0x00, 0xc7, 0x44, 0x24, 0x04, 0x00, 0x00,
        0x00, 0x00, 0xe9, 0xf3, 0xe0, 0xff, 0xff};
    /* push rbx; lea rbx, [rip-7]; pop rbx; ret */
    static const uint8_t based[] = {0x53, 0x48, 0x8d, 0x1d, 0xf9, 0xff, 0xff, 0xff, 0x5b, 0xc3};
    static const uint8_t trampoline_of_based[] = {0x53, 0x48, 0x8d, 0x1d, 0xf9, 0xdf, 0xff, 0xff, 0xe9, 0xfb, 0xdf, 0xff, 0xff};
    static const uint32_t at_10[] = {10}, at_4[] = {9, 4, 5}, outside[] = {0, 6, 7, UINT32_MAX};
    uint8_t *patch = malloc(FEDDURZAI_MAX_PATCH), *out = malloc(64), *large = calloc(1, FEDDURZAI_MAX_CODE + 1);
    feddurzai_moved_start *moved = malloc(4 * sizeof *moved);
    feddurzai_hook_report *r = malloc(sizeof *r);
    feddurzai_detour_report *d = malloc(sizeof *d);
    static const feddurzai_view nothing;
    size_t room;
#define DETOUR_AT(place, code, start, rules, entries, count) \
    feddurzai_detour_with(64, 0x1000, code, sizeof code, 0x2000, place, start, rules, entries, count, patch, FEDDURZAI_MAX_PATCH, \
        out, 64, moved, 4, r)
#define DETOUR(code, start, rules, entries, count) DETOUR_AT(0x3000, code, start, rules, entries, count)
#define NOTHING_IS_SEEN() (memcmp(&r->view, &nothing, offsetof(feddurzai_view, has_suspect) + 1) == 0 && r->moved == 0 && r->call == 0)
    memset(patch, 0xaa, FEDDURZAI_MAX_PATCH);
    memset(out, 0xaa, 64);
    memset(moved, 0xaa, 4 * sizeof *moved);
    memset(r, 0xaa, sizeof *r);
    CHECK(feddurzai_detour_with(17, 0, small, 7, 0, 0, 9, 0, NULL, 0, patch, 28, out, 64, moved, 4, r), FEDDURZAI_BAD_MODE);
    CHECK(NOTHING_IS_SEEN(), 1);
    CHECK(DETOUR(small, 2, 0, NULL, 0), FEDDURZAI_BAD_START);
    CHECK(feddurzai_detour_with(64, 0, large, FEDDURZAI_MAX_CODE + 1, 0, 0, 0, 0, NULL, 0, NULL, 0, NULL, 0, NULL, 0, r),
        FEDDURZAI_TOO_LARGE);
    CHECK(feddurzai_detour_with(64, 0, small, 4, 0, 0, 0, 1, NULL, 0, patch, 28, out, 64, moved, 4, r), FEDDURZAI_SMALL);
    CHECK(r->detour.at == 4 && r->detour.target == 5, 1);

    /* sight ends at 6: refused only if all is to be seen */
    CHECK(DETOUR(unread, FEDDURZAI_START_MOVED, 1, NULL, 0), FEDDURZAI_UNSEEN);
    CHECK(r->detour.at == 6 && r->detour.target == FEDDURZAI_SIGHT_NOT_READ, 1);
    CHECK(r->detour.taken | r->detour.bytes | r->detour.form, 0);
    CHECK(NOTHING_IS_SEEN(), 1);
    CHECK(DETOUR(unread, FEDDURZAI_START_MOVED, 8, NULL, 0), FEDDURZAI_BAD_START);
    CHECK(DETOUR(by_table, FEDDURZAI_START_MOVED, 1, NULL, 0), FEDDURZAI_UNSEEN);
    CHECK(r->detour.at == 3 && r->detour.target == FEDDURZAI_SIGHT_INDIRECT_JUMP, 1);
    /* the same with a case of the table known: it goes back to the jump */
    CHECK(DETOUR(by_table, FEDDURZAI_START_MOVED, 1, at_10, 1), FEDDURZAI_ENTERED);
    CHECK(r->detour.at == 13 && r->detour.target == 3, 1);
    CHECK(DETOUR(by_table, FEDDURZAI_START_MOVED, 0, at_10, 1), FEDDURZAI_ENTERED);
    CHECK(r->detour.at == 13 && r->detour.target == 3, 1);
    CHECK(DETOUR(by_table, FEDDURZAI_START_HOOKED, 0, at_10, 1), FEDDURZAI_ENTERED);
    /* a way back to the start */
    CHECK(DETOUR(loop, FEDDURZAI_START_MOVED, 0, NULL, 0), FEDDURZAI_ENTERED);
    CHECK(r->detour.at == 8 && r->detour.target == 0, 1);
    /* the least entry within */
    CHECK(DETOUR(small, FEDDURZAI_START_MOVED, 0, at_4, 3), FEDDURZAI_ENTERED);
    CHECK(r->detour.at == 4 && r->detour.target == 4, 1);
    /* a trampoline of 11 bytes on the last byte, or with its last byte on the first one, of the function */
    CHECK(DETOUR_AT(0x1006, small, FEDDURZAI_START_MOVED, 0, NULL, 0), FEDDURZAI_OVERLAPS);
    CHECK(r->detour.at | r->detour.target, 0);
    CHECK(DETOUR_AT(0xff6, small, FEDDURZAI_START_MOVED, 0, NULL, 0), FEDDURZAI_OVERLAPS);
    /* before the entry within */
    CHECK(DETOUR_AT(0x1000, small, FEDDURZAI_START_MOVED, 1, at_4, 3), FEDDURZAI_OVERLAPS);
    CHECK(NOTHING_IS_SEEN(), 1);
    CHECK(is_untouched(patch, FEDDURZAI_MAX_PATCH) && is_untouched(out, 64) && is_untouched(moved, 4 * sizeof *moved), 1);

    CHECK(DETOUR_AT(0x1007, small, FEDDURZAI_START_MOVED, 1, NULL, 0), 0);
    CHECK(r->detour.bytes, 11);
    CHECK(DETOUR_AT(0xff5, small, FEDDURZAI_START_MOVED, 1, outside, 4), 0);
    CHECK(r->detour.bytes, 11);
    CHECK(r->view.sight | r->view.is_entered | r->view.has_inside | r->view.has_suspect, 0);

    memset(patch, 0xaa, FEDDURZAI_MAX_PATCH);
    memset(out, 0xaa, 64);
    memset(moved, 0xaa, 4 * sizeof *moved);
    CHECK(DETOUR(unread, FEDDURZAI_START_MOVED, 0, NULL, 0), 0);
    CHECK(memcmp(patch, patch_of_unread, 6), 0);
    CHECK(memcmp(out, trampoline_of_unread, 11), 0);
    CHECK(r->moved, 2);
    CHECK(moved[0].start == 0 && moved[0].place == 0, 1);
    CHECK(moved[1].start == 3 && moved[1].place == 3, 1);
    CHECK(is_untouched(patch + 6, FEDDURZAI_MAX_PATCH - 6) && is_untouched(out + 11, 53), 1);
    CHECK(is_untouched(moved + 2, 2 * sizeof *moved), 1);
    CHECK(r->view.sight == FEDDURZAI_SIGHT_NOT_READ && r->view.sight_at == 6, 1);
    CHECK(r->view.is_entered | r->view.has_inside, 0);
    CHECK(r->view.has_suspect == 1 && r->view.suspect_from == 12 && r->view.suspect_target == 3, 1);
    /* the same detour as without rules */
    CHECK(feddurzai_detour(64, 0x1000, unread, sizeof unread, 0x2000, 0x3000, 0, patch, FEDDURZAI_MAX_PATCH, out, 64, d), 0);
    CHECK(memcmp(d, &r->detour, offsetof(feddurzai_detour_report, form) + 1), 0);

    /* the way back to the start is allowed where the start is to be hooked */
    CHECK(DETOUR(loop, FEDDURZAI_START_HOOKED, 1, NULL, 0), 0);
    CHECK(r->detour.taken == 5 && r->moved == 2 && moved[1].start == 3 && moved[1].place == 3, 1);
    CHECK(r->view.sight, FEDDURZAI_SIGHT_WHOLE);
    CHECK(DETOUR(longer, FEDDURZAI_START_MOVED, 1, NULL, 0), 0);
    CHECK(r->detour.bytes == 14 && r->detour.jump_back == 9, 1);
    CHECK(memcmp(out, trampoline_of_longer, 14), 0);
    CHECK(r->moved == 2 && moved[0].start == 0 && moved[0].place == 0, 1);
    CHECK(moved[1].start == 2 && moved[1].place == 6, 1);

    /* calls: the last moved one pushes its own return address, or is moved as it is, or refused */
    CHECK(DETOUR(calling, FEDDURZAI_START_MOVED, FEDDURZAI_RULE_RETURNS + FEDDURZAI_RULE_NO_CALLS, NULL, 0), 0);
    CHECK(r->detour.bytes == 22 && r->detour.jump_back == 22 && r->moved == 2 && r->call == 9, 1);
    CHECK(memcmp(out, trampoline_of_calling, 22), 0);
    CHECK(DETOUR(calling, FEDDURZAI_START_MOVED, 0, NULL, 0), 0);
    CHECK(r->detour.bytes == 14 && r->detour.jump_back == 9 && r->moved == 2 && r->call == 4, 1);
    CHECK(DETOUR(calling, FEDDURZAI_START_MOVED, FEDDURZAI_RULE_NO_CALLS, NULL, 0), FEDDURZAI_CALLS);
    CHECK(r->detour.at == 4 && r->detour.target == 0, 1);
    CHECK(NOTHING_IS_SEEN(), 1);
    /* an address at RIP stays, here its own */
    CHECK(DETOUR(based, FEDDURZAI_START_MOVED, 0, NULL, 0), 0);
    CHECK(r->detour.bytes == 13 && r->call == 8, 1);
    CHECK(memcmp(out, trampoline_of_based, 13), 0);

    /* a buffer is too small: nothing is written, and the report has what there is */
    for (room = 0; room < 3; room++) {
        memset(patch, 0xaa, FEDDURZAI_MAX_PATCH);
        memset(out, 0xaa, 64);
        memset(moved, 0xaa, 4 * sizeof *moved);
        memset(r, 0xaa, sizeof *r);
        CHECK(feddurzai_detour_with(64, 0x1000, unread, sizeof unread, 0x2000, 0x3000, 0, 0, NULL, 0, patch, room == 0 ? 5 : 6, out,
                  room == 1 ? 10 : 11, moved, room == 2 ? 1 : 2, r), FEDDURZAI_NO_ROOM);
        CHECK(r->detour.taken == 6 && r->detour.bytes == 11 && r->moved == 2, 1);
        CHECK(r->view.sight == FEDDURZAI_SIGHT_NOT_READ && r->view.sight_at == 6 && r->view.suspect_from == 12, 1);
        CHECK(is_untouched(patch, FEDDURZAI_MAX_PATCH) && is_untouched(out, 64) && is_untouched(moved, 4 * sizeof *moved), 1);
    }
#undef NOTHING_IS_SEEN
#undef DETOUR
#undef DETOUR_AT
    free(patch);
    free(out);
    free(large);
    free(moved);
    free(r);
    free(d);
}

/* a hook behind an ENDBR: cmp byte [rdi], 0; je to the end; inc rdi; a jump back; ret */
static void check_kept_detours(void)
{
    static const uint8_t to_first[] = {0xf3, 0x0f, 0x1e, 0xfa, 0x80, 0x3f, 0x00, 0x74, 0x05, 0x48, 0xff, 0xc7, 0xeb, 0xf2, 0xc3};
    static const uint8_t to_fifth[] = {0xf3, 0x0f, 0x1e, 0xfa, 0x80, 0x3f, 0x00, 0x74, 0x05, 0x48, 0xff, 0xc7, 0xeb, 0xf6, 0xc3};
    static const uint8_t plain[] = {0x48, 0x83, 0xec, 0x18, 0x31, 0xc0, 0xc3};
    /* mov eax, edi; int3: too short for the jump behind the ENDBR */
    static const uint8_t small[] = {0xf3, 0x0f, 0x1e, 0xfb, 0x89, 0xf8, 0xc3};
    static const uint32_t within[] = {14, 2};
    uint8_t *patch = malloc(FEDDURZAI_MAX_PATCH), *out = malloc(64);
    feddurzai_moved_start *moved = malloc(4 * sizeof *moved);
    feddurzai_kept_report *r = malloc(sizeof *r);
#define KEPT(bits, code, start, rules, entries, count) \
    feddurzai_detour_endbr(bits, 0x1000, code, sizeof code, 0x2000, 0x3000, start, rules, entries, count, patch, FEDDURZAI_MAX_PATCH, out, \
        64, moved, 4, r)
    memset(out, 0xaa, 64);
    CHECK(KEPT(17, plain, 9, 0, NULL, 0), FEDDURZAI_BAD_MODE);
    CHECK(KEPT(64, plain, 0, 8, NULL, 0), FEDDURZAI_BAD_START);
    /* the loop goes back to the ENDBR, and then into the patch */
    CHECK(KEPT(64, to_first, FEDDURZAI_START_MOVED, 0, NULL, 0), FEDDURZAI_ENTERED);
    CHECK(r->hook.detour.at == 12 && r->hook.detour.target == 0 && r->kept == 0, 1);
    CHECK(is_untouched(out, 64), 1);
    CHECK(KEPT(64, to_first, FEDDURZAI_START_HOOKED, FEDDURZAI_RULE_WHOLE, NULL, 0), 0);
    CHECK(r->kept == 4 && r->hook.detour.taken == 5 && r->hook.moved == 2 && moved[1].start == 3, 1);
    CHECK(memcmp(patch, "\xe9\xf7\x0f\x00\x00", 5), 0);
    CHECK(memcmp(out, to_first, 7), 0);
    /* it goes back to the byte behind it: the offsets count from there */
    CHECK(KEPT(64, to_fifth, FEDDURZAI_START_MOVED, 0, NULL, 0), FEDDURZAI_ENTERED);
    CHECK(r->hook.detour.at == 8 && r->hook.detour.target == 0 && r->kept == 4, 1);
    /* an entry within the ENDBR */
    CHECK(KEPT(64, to_fifth, FEDDURZAI_START_HOOKED, 0, within, 2), FEDDURZAI_ENTERED);
    CHECK(r->hook.detour.at == 2 && r->hook.detour.target == 2 && r->kept == 0, 1);
    CHECK(KEPT(32, small, FEDDURZAI_START_MOVED, 0, NULL, 0), FEDDURZAI_SMALL);
    CHECK(r->hook.detour.at == 3 && r->hook.detour.target == 5 && r->kept == 4, 1);
    /* without one, and one of another mode, the hook is that of the function */
    CHECK(KEPT(64, plain, FEDDURZAI_START_MOVED, 0, NULL, 0), 0);
    CHECK(r->kept == 0 && r->hook.detour.taken == 6 && r->hook.detour.bytes == 11, 1);
    CHECK(KEPT(32, to_first, FEDDURZAI_START_HOOKED, 0, NULL, 0), 0);
    CHECK(r->kept == 0 && r->hook.detour.taken == 7, 1);
#undef KEPT
    free(patch);
    free(out);
    free(moved);
    free(r);
}

/* a hook through padding */
static void check_padded_detours(void)
{
    static const uint8_t padding[] = {0x90, 0xcc, 0xcc, 0x66, 0x90, 0xcc, 0xcc, 0xcc}, code[] = {0xcc, 0xcc, 0x31, 0xc0, 0xcc, 0xcc, 0xcc};
    /* mov eax, edi; ret; and mov eax, edi; jmp into the padding */
    static const uint8_t small[] = {0x89, 0xf8, 0xc3}, entering[] = {0x89, 0xf8, 0xeb, 0xf9};
    uint8_t *jump = malloc(5), *patch = malloc(FEDDURZAI_MAX_PATCH), *out = malloc(64);
    feddurzai_moved_start *moved = malloc(4 * sizeof *moved);
    feddurzai_padded_report *r = malloc(sizeof *r);
#define PADDED(padding, len, code, count, to, place) \
    feddurzai_detour_padding(64, 0x1000, padding, len, code, count, to, place, FEDDURZAI_START_MOVED, 0, NULL, 0, jump, 5, patch, \
        FEDDURZAI_MAX_PATCH, out, 64, moved, 4, r)
    CHECK(feddurzai_detour_padding(17, 0, padding, 8, small, 3, 0, 0, 0, 0, NULL, 0, jump, 5, patch, 28, out, 64, moved, 4, r), FEDDURZAI_BAD_MODE);
    CHECK(PADDED(padding, sizeof padding, small, 3, 0x2000, 0x3000), 0);
    CHECK(r->jump == 5 && r->padding == 0 && r->hook.detour.form == FEDDURZAI_DETOUR_NEAR && r->hook.detour.taken == 2, 1);
    CHECK(memcmp(jump, "\xe9\x00\x10\x00\x00", 5) | memcmp(patch, "\xeb\xf9", 2) | memcmp(out, "\x89\xf8\xe9\xfb\xdf\xff\xff", 7), 0);
    CHECK(feddurzai_detour_padding(64, 0x1000, padding, 8, small, 3, 0x2000, 0x3000, 0, 0, NULL, 0, jump, 4, patch, 28, out, 64, moved, 4, r),
        FEDDURZAI_NO_ROOM);
    CHECK(r->jump == 5 && r->hook.detour.bytes == 7 && r->hook.moved == 1, 1);
    /* by a relay behind the trampoline, and out of reach */
    CHECK(PADDED(padding, sizeof padding, small, 3, 0x7fff00000000, 0x3000), 0);
    CHECK(r->hook.detour.form == FEDDURZAI_DETOUR_RELAY && r->hook.detour.relay_at == 7 && r->hook.detour.bytes == 21, 1);
    CHECK(PADDED(padding, sizeof padding, small, 3, 0x7fff00000000, 0x7ffe00000000), FEDDURZAI_TOO_FAR);
    CHECK(r->padding == 1 && r->jump == 0 && r->hook.detour.at == 0, 1);
    /* too little padding, other code, control into it, and a function without two bytes */
    CHECK(PADDED(padding, 4, small, 3, 0x2000, 0x3000), FEDDURZAI_PADDING);
    CHECK(r->padding == 1 && r->hook.detour.at == 4 && r->hook.detour.target == 5, 1);
    CHECK(PADDED(code, sizeof code, small, 3, 0x2000, 0x3000), FEDDURZAI_PADDING);
    CHECK(r->padding == 1 && r->hook.detour.at == 2 && r->hook.detour.target == 0, 1);
    CHECK(PADDED(padding, sizeof padding, entering, 4, 0x2000, 0x3000), FEDDURZAI_ENTERED);
    CHECK(r->padding == 1 && r->hook.detour.at == 10 && r->hook.detour.target == 5, 1);
    CHECK(PADDED(padding, sizeof padding, small + 2, 1, 0x2000, 0x3000), FEDDURZAI_SMALL);
    CHECK(r->padding == 0 && r->hook.detour.at == 1 && r->hook.detour.target == 2, 1);
    /* the trampoline in the padding */
    CHECK(PADDED(padding, sizeof padding, small, 3, 0x2000, 0xff4), FEDDURZAI_OVERLAPS);
    CHECK(r->padding, 1);
#undef PADDED
    free(jump);
    free(patch);
    free(out);
    free(moved);
    free(r);
}

/* lengths of trampolines: of mov eax, edi; ret and of sub rsp, 0x18; xor eax, eax; ret */
static void check_detour_lengths(void)
{
    static const uint8_t small[] = {0x89, 0xf8, 0xc3}, plain[] = {0x48, 0x83, 0xec, 0x18, 0x31, 0xc0, 0xc3};
    CHECK(feddurzai_detour_len(17, 0, plain, 7, 0, 0, 0), FEDDURZAI_BAD_MODE);
    CHECK(feddurzai_detour_len(64, 0, plain, 7, 0, 2, 0), FEDDURZAI_BAD_START);
    CHECK(feddurzai_detour_len(64, 0, small, 3, 0x2000, 0, 0), 0);
    CHECK(feddurzai_detour_len(64, 0x1000, plain, 7, 0x2000, 0, 0), 27);
    CHECK(feddurzai_detour_len(64, 0x1000, plain, 7, 0x7fff00000000, 0, 0), 41);
    CHECK(feddurzai_detour_len(32, 0x1000, plain + 4, 3, 0x2000, 0, 0), 0);
}

int main(void)
{
    CHECK(feddurzai_interface(), FEDDURZAI_INTERFACE);
    CHECK((feddurzai_version() & ~FEDDURZAI_UNPROVED) >> 24, 0);
    check_layout();
    check_fields();
    check_memory_sizes();
    check_effects();
    check_cause_operands();
    check_lines();
    check_offsets();
    check_many();
    check_texts();
    check_pieces();
    check_options();
    check_register_names();
    check_routines();
    check_jumps();
    check_kept_targets();
    check_unlisted_moves();
    check_shortest_displacements();
    check_blocks();
    check_region();
    check_steps();
    check_step_calls();
    check_codes();
    check_refusals();
    check_code();
    check_detours();
    check_ruled_detours();
    check_kept_detours();
    check_padded_detours();
    check_detour_lengths();
    printf("%d calls and fields, %d wrong\n", tests, failures);
    return failures != 0;
}

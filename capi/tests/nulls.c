/*
 * Every function that takes a pointer: with each pointer NULL in turn and with all, with zeros for everything, and with
 * every room that is too small. It is C99 and C++11, since the header's own functions are compiled as both.
 */
#include "feddurzai.h"

#include "check.h"

#include <stdlib.h>
#include <string.h>

/* je over a nop, ret */
static const uint8_t code[] = {0x74, 0x01, 0x90, 0xc3};
/* mov qword [rsp+0x10], rbx */
static const uint8_t mov[] = {0x48, 0x89, 0x5c, 0x24, 0x10};
/* sub rsp, 0x18; xor eax, eax; ret */
static const uint8_t small[] = {0x48, 0x83, 0xec, 0x18, 0x31, 0xc0, 0xc3};
/* the je as a block, and what stands behind it as another */
static const feddurzai_block whole[] = {{0x1000, 0x2000, 0, 2}, {0x1002, 0x3000, 2, 2}};
static const char mov_text[] = "mov qword [rsp+0x10], rbx";

enum { SPARE = 16 };

/* the structs of the calls, each filled with 0xaa where no call wrote */
static feddurzai_instr instr, unread;
static feddurzai_byte_offsets parts;
static feddurzai_shape shape;
static feddurzai_view view;
static feddurzai_about about;
static feddurzai_touched touched;
static feddurzai_move_report report;
static feddurzai_moved map[3];
static feddurzai_blocks_report blocks_report;
static feddurzai_placed_block places[2];
static feddurzai_region region;
static feddurzai_live live[2];
static uint64_t place;
static feddurzai_detour_report detour;
static feddurzai_hook_report hook;
static feddurzai_kept_report kept;
static feddurzai_padded_report padded;
static feddurzai_moved_start moved[2];
static feddurzai_step_report step;
static feddurzai_label label;
static feddurzai_routine_report routine;
static uint32_t starts[3], leaders[3];
static uint8_t kinds[3], access;
static const uint32_t firsts[2] = {0, 2};
static size_t count;
static uint8_t out[SPARE], patch[6];
static char text[FEDDURZAI_MAX_TEXT];
static feddurzai_piece pieces[FEDDURZAI_MAX_PIECES];

static void fill(void)
{
    memset(&unread, 0xaa, sizeof unread);
    memset(&parts, 0xaa, sizeof parts);
    memset(&about, 0xaa, sizeof about);
    memset(&touched, 0xaa, sizeof touched);
    memset(&report, 0xaa, sizeof report);
    memset(map, 0xaa, sizeof map);
    memset(&blocks_report, 0xaa, sizeof blocks_report);
    memset(places, 0xaa, sizeof places);
    memset(&region, 0xaa, sizeof region);
    memset(live, 0xaa, sizeof live);
    memset(&place, 0xaa, sizeof place);
    memset(&detour, 0xaa, sizeof detour);
    memset(&hook, 0xaa, sizeof hook);
    memset(&kept, 0xaa, sizeof kept);
    memset(&padded, 0xaa, sizeof padded);
    memset(moved, 0xaa, sizeof moved);
    memset(&step, 0xaa, sizeof step);
    memset(&label, 0xaa, sizeof label);
    memset(&routine, 0xaa, sizeof routine);
    memset(starts, 0xaa, sizeof starts);
    memset(kinds, 0xaa, sizeof kinds);
    memset(&access, 0xaa, sizeof access);
    memset(leaders, 0xaa, sizeof leaders);
    memset(&count, 0xaa, sizeof count);
    memset(out, 0xaa, sizeof out);
    memset(patch, 0xaa, sizeof patch);
    memset(text, 0xaa, sizeof text);
    memset(pieces, 0xaa, sizeof pieces);
}

static int nothing_was_written(void)
{
    return is_untouched(&unread, sizeof unread) && is_untouched(&parts, sizeof parts) && is_untouched(&about, sizeof about) && is_untouched(&touched, sizeof touched)
        && is_untouched(&report, sizeof report) && is_untouched(map, sizeof map)
        && is_untouched(&blocks_report, sizeof blocks_report) && is_untouched(places, sizeof places)
        && is_untouched(&region, sizeof region) && is_untouched(live, sizeof live) && is_untouched(&place, sizeof place)
        && is_untouched(&detour, sizeof detour) && is_untouched(&hook, sizeof hook) && is_untouched(moved, sizeof moved)
        && is_untouched(&kept, sizeof kept) && is_untouched(&padded, sizeof padded) && is_untouched(&step, sizeof step)
        && is_untouched(starts, sizeof starts) && is_untouched(leaders, sizeof leaders) && is_untouched(kinds, sizeof kinds)
        && is_untouched(&access, sizeof access) && is_untouched(&label, sizeof label) && is_untouched(&routine, sizeof routine)
        && is_untouched(&count, sizeof count) && is_untouched(out, sizeof out) && is_untouched(patch, sizeof patch)
        && is_untouched(text, sizeof text) && is_untouched(pieces, sizeof pieces);
}

/* NULL where there is something to point to */
static void check_nulls(void)
{
    fill();
    CHECK(feddurzai_decode(64, 0, NULL, 4, &unread), FEDDURZAI_NULL);
    CHECK(feddurzai_decode(64, 0, NULL, SIZE_MAX, &unread), FEDDURZAI_NULL);
    CHECK(feddurzai_decode(64, 0, code, 4, NULL), FEDDURZAI_NULL);
    CHECK(feddurzai_decode(64, 0, NULL, 0, NULL), FEDDURZAI_NULL);
    CHECK(feddurzai_decode(64, 0, NULL, 4, NULL), FEDDURZAI_NULL);

    CHECK(feddurzai_decode_many(64, 0, NULL, 4, &unread, 1, &count), FEDDURZAI_NULL);
    CHECK(feddurzai_decode_many(64, 0, code, 4, NULL, 1, &count), FEDDURZAI_NULL);
    CHECK(feddurzai_decode_many(64, 0, code, 4, &unread, 1, NULL), FEDDURZAI_NULL);
    CHECK(feddurzai_decode_many(64, 0, NULL, 0, NULL, 0, NULL), FEDDURZAI_NULL);

    CHECK(feddurzai_offsets(64, NULL, 4, &parts), FEDDURZAI_NULL);
    CHECK(feddurzai_offsets(64, code, 4, NULL), FEDDURZAI_NULL);
    CHECK(feddurzai_offsets(64, NULL, 0, NULL), FEDDURZAI_NULL);
    CHECK(feddurzai_measure(64, NULL, 4, &shape), FEDDURZAI_NULL);
    CHECK(feddurzai_measure(64, code, 4, NULL), FEDDURZAI_NULL);
    CHECK(feddurzai_measure(64, NULL, 0, NULL), FEDDURZAI_NULL);
    CHECK(feddurzai_line(64, FEDDURZAI_INTEL, 0, NULL, 4, &unread, text, sizeof text), FEDDURZAI_NULL);
    CHECK(feddurzai_line(64, FEDDURZAI_INTEL, 0, NULL, 4, NULL, text, sizeof text), FEDDURZAI_NULL);
    CHECK(feddurzai_line(64, FEDDURZAI_INTEL, 0, code, 4, &unread, NULL, sizeof text), FEDDURZAI_NULL);
    CHECK(feddurzai_line(64, FEDDURZAI_INTEL, 0, code, 4, NULL, NULL, sizeof text), FEDDURZAI_NULL);
    CHECK(feddurzai_line_text(64, FEDDURZAI_INTEL, 0, NULL, 4, text, sizeof text), FEDDURZAI_NULL);
    CHECK(feddurzai_line_text(64, FEDDURZAI_INTEL, 0, code, 4, NULL, sizeof text), FEDDURZAI_NULL);

    CHECK(feddurzai_text(64, FEDDURZAI_INTEL, NULL, text, sizeof text), FEDDURZAI_NULL);
    CHECK(feddurzai_text(64, FEDDURZAI_INTEL, &instr, NULL, sizeof text), FEDDURZAI_NULL);
    CHECK(feddurzai_text(64, FEDDURZAI_INTEL, NULL, NULL, 0), FEDDURZAI_NULL);
    CHECK(feddurzai_text(64, FEDDURZAI_INTEL, NULL, NULL, sizeof text), FEDDURZAI_NULL);

    CHECK(feddurzai_pieces(64, FEDDURZAI_INTEL, NULL, text, sizeof text, pieces, 40), FEDDURZAI_NULL);
    CHECK(feddurzai_pieces(64, FEDDURZAI_INTEL, &instr, NULL, sizeof text, pieces, 40), FEDDURZAI_NULL);
    CHECK(feddurzai_pieces(64, FEDDURZAI_INTEL, &instr, text, sizeof text, NULL, 40), FEDDURZAI_NULL);
    CHECK(feddurzai_pieces(64, FEDDURZAI_INTEL, NULL, NULL, 0, NULL, 0), FEDDURZAI_NULL);
    CHECK(feddurzai_format(64, FEDDURZAI_INTEL, NULL, NULL, 0, NULL, 0, 0, text, sizeof text), FEDDURZAI_NULL);
    CHECK(feddurzai_format(64, FEDDURZAI_INTEL, NULL, &instr, 0, NULL, 1, 0, text, sizeof text), FEDDURZAI_NULL);
    CHECK(feddurzai_format(64, FEDDURZAI_INTEL, NULL, &instr, 0, "x", 1, 0, NULL, sizeof text), FEDDURZAI_NULL);
    CHECK(feddurzai_format_code(64, FEDDURZAI_INTEL, NULL, NULL, 1, &instr, 0, NULL, 0, 0, text, sizeof text), FEDDURZAI_NULL);
    CHECK(feddurzai_format_code(64, FEDDURZAI_INTEL, NULL, NULL, 0, NULL, 0, NULL, 0, 0, text, sizeof text), FEDDURZAI_NULL);
    CHECK(feddurzai_format_code(64, FEDDURZAI_INTEL, NULL, NULL, 0, &instr, 0, NULL, 1, 0, text, sizeof text), FEDDURZAI_NULL);
    CHECK(feddurzai_format_code(64, FEDDURZAI_INTEL, NULL, NULL, 0, &instr, 0, "x", 1, 0, NULL, sizeof text), FEDDURZAI_NULL);

    CHECK(feddurzai_encode(64, 0, NULL, out, sizeof out), FEDDURZAI_NULL);
    CHECK(feddurzai_encode(64, 0, &instr, NULL, sizeof out), FEDDURZAI_NULL);
    CHECK(feddurzai_encode(64, 0, NULL, NULL, 0), FEDDURZAI_NULL);
    CHECK(feddurzai_encode(64, 0, NULL, NULL, sizeof out), FEDDURZAI_NULL);

    CHECK(feddurzai_encoded_len(64, 0, NULL), FEDDURZAI_NULL);

    CHECK(feddurzai_assemble(64, 0, NULL, 3, out, sizeof out), FEDDURZAI_NULL);
    CHECK(feddurzai_assemble(64, 0, "nop", 3, NULL, sizeof out), FEDDURZAI_NULL);
    CHECK(feddurzai_read_intel(64, 0, NULL, 3, &unread), FEDDURZAI_NULL);
    CHECK(feddurzai_read_intel(64, 0, "nop", 3, NULL), FEDDURZAI_NULL);
    CHECK(feddurzai_read_intel(64, 0, NULL, 0, NULL), FEDDURZAI_NULL);

    CHECK(feddurzai_assemble_code(64, 0, NULL, 3, "", 0, out, sizeof out, &label, 1, &routine), FEDDURZAI_NULL);
    CHECK(feddurzai_assemble_code(64, 0, "nop", 3, NULL, 1, out, sizeof out, &label, 1, &routine), FEDDURZAI_NULL);
    CHECK(feddurzai_assemble_code(64, 0, "nop", 3, "", 0, NULL, sizeof out, &label, 1, &routine), FEDDURZAI_NULL);
    CHECK(feddurzai_assemble_code(64, 0, "nop", 3, "", 0, out, sizeof out, NULL, 1, &routine), FEDDURZAI_NULL);
    CHECK(feddurzai_assemble_code(64, 0, "nop", 3, "", 0, out, sizeof out, &label, 1, NULL), FEDDURZAI_NULL);
    CHECK(feddurzai_assemble_code(64, 0, NULL, 0, NULL, 0, NULL, 0, NULL, 0, NULL), FEDDURZAI_NULL);
    CHECK(feddurzai_assemble_code_near(64, 0, NULL, 3, "", 0, out, sizeof out, &label, 1, &routine), FEDDURZAI_NULL);
    CHECK(feddurzai_assemble_code_near(64, 0, "nop", 3, NULL, 1, out, sizeof out, &label, 1, &routine), FEDDURZAI_NULL);
    CHECK(feddurzai_assemble_code_near(64, 0, "nop", 3, "", 0, NULL, sizeof out, &label, 1, &routine), FEDDURZAI_NULL);
    CHECK(feddurzai_assemble_code_near(64, 0, "nop", 3, "", 0, out, sizeof out, NULL, 1, &routine), FEDDURZAI_NULL);
    CHECK(feddurzai_assemble_code_near(64, 0, "nop", 3, "", 0, out, sizeof out, &label, 1, NULL), FEDDURZAI_NULL);
    CHECK(feddurzai_assemble_code_near(64, 0, NULL, 0, NULL, 0, NULL, 0, NULL, 0, NULL), FEDDURZAI_NULL);

    CHECK(feddurzai_jump(64, 0, 0, FEDDURZAI_JUMP_NEAR, NULL, sizeof out), FEDDURZAI_NULL);
    CHECK(feddurzai_register_text(0, FEDDURZAI_R64, 0, NULL, sizeof text), FEDDURZAI_NULL);
    CHECK(feddurzai_segment_text(0, FEDDURZAI_FS, NULL, sizeof text), FEDDURZAI_NULL);

    CHECK(feddurzai_info(NULL, &about), FEDDURZAI_NULL);
    CHECK(feddurzai_info(&instr, NULL), FEDDURZAI_NULL);
    CHECK(feddurzai_info(NULL, NULL), FEDDURZAI_NULL);
    CHECK(feddurzai_effects(64, NULL, &touched), FEDDURZAI_NULL);
    CHECK(feddurzai_effects(64, &instr, NULL), FEDDURZAI_NULL);
    CHECK(feddurzai_effects(64, NULL, NULL), FEDDURZAI_NULL);
    CHECK(feddurzai_feature_name(0, NULL, sizeof text), FEDDURZAI_NULL);

    CHECK(feddurzai_name(0, NULL, sizeof text), FEDDURZAI_NULL);
    CHECK(feddurzai_notation(0, NULL, sizeof text), FEDDURZAI_NULL);
    CHECK(feddurzai_row_operand(0, 0, &access, NULL, sizeof text), FEDDURZAI_NULL);
    CHECK(feddurzai_row_operand(0, 0, NULL, text, sizeof text), FEDDURZAI_NULL);
    CHECK(feddurzai_row_operand(0, 0, NULL, NULL, 0), FEDDURZAI_NULL);
    CHECK(feddurzai_code_of(NULL, 3, 0), FEDDURZAI_NULL);

    CHECK(feddurzai_move(64, 0x1000, NULL, 4, 0x2000, out, sizeof out, map, 3, &report), FEDDURZAI_NULL);
    CHECK(feddurzai_move(64, 0x1000, code, 4, 0x2000, NULL, sizeof out, map, 3, &report), FEDDURZAI_NULL);
    CHECK(feddurzai_move(64, 0x1000, code, 4, 0x2000, out, sizeof out, NULL, 3, &report), FEDDURZAI_NULL);
    CHECK(feddurzai_move(64, 0x1000, code, 4, 0x2000, out, sizeof out, map, 3, NULL), FEDDURZAI_NULL);
    CHECK(feddurzai_move(64, 0x1000, NULL, 0, 0x2000, NULL, 0, NULL, 0, NULL), FEDDURZAI_NULL);
    CHECK(feddurzai_move(64, 0x1000, NULL, 4, 0x2000, NULL, sizeof out, NULL, 3, NULL), FEDDURZAI_NULL);

    CHECK(feddurzai_move_outside(64, 0x1000, NULL, 4, 0x2000, out, sizeof out, map, 3, &report), FEDDURZAI_NULL);
    CHECK(feddurzai_move_outside(64, 0x1000, code, 4, 0x2000, NULL, sizeof out, map, 3, &report), FEDDURZAI_NULL);
    CHECK(feddurzai_move_outside(64, 0x1000, code, 4, 0x2000, out, sizeof out, NULL, 3, &report), FEDDURZAI_NULL);
    CHECK(feddurzai_move_outside(64, 0x1000, code, 4, 0x2000, out, sizeof out, map, 3, NULL), FEDDURZAI_NULL);

    CHECK(feddurzai_move_unlisted(64, 0x1000, NULL, 4, 0x2000, out, sizeof out, map, 3, &report), FEDDURZAI_NULL);
    CHECK(feddurzai_move_unlisted(64, 0x1000, code, 4, 0x2000, NULL, sizeof out, map, 3, &report), FEDDURZAI_NULL);
    CHECK(feddurzai_move_unlisted(64, 0x1000, code, 4, 0x2000, out, sizeof out, NULL, 3, &report), FEDDURZAI_NULL);
    CHECK(feddurzai_move_unlisted(64, 0x1000, code, 4, 0x2000, out, sizeof out, map, 3, NULL), FEDDURZAI_NULL);

    CHECK(feddurzai_move_blocks(64, NULL, 4, whole, 1, out, sizeof out, places, 2, map, 3, &blocks_report), FEDDURZAI_NULL);
    CHECK(feddurzai_move_blocks(64, code, 4, NULL, 1, out, sizeof out, places, 2, map, 3, &blocks_report), FEDDURZAI_NULL);
    CHECK(feddurzai_move_blocks(64, code, 4, whole, 1, NULL, sizeof out, places, 2, map, 3, &blocks_report), FEDDURZAI_NULL);
    CHECK(feddurzai_move_blocks(64, code, 4, whole, 1, out, sizeof out, NULL, 2, map, 3, &blocks_report), FEDDURZAI_NULL);
    CHECK(feddurzai_move_blocks(64, code, 4, whole, 1, out, sizeof out, places, 2, NULL, 3, &blocks_report), FEDDURZAI_NULL);
    CHECK(feddurzai_move_blocks(64, code, 4, whole, 1, out, sizeof out, places, 2, map, 3, NULL), FEDDURZAI_NULL);
    CHECK(feddurzai_move_blocks(64, NULL, 0, NULL, 0, NULL, 0, NULL, 0, NULL, 0, NULL), FEDDURZAI_NULL);

    CHECK(feddurzai_region_reserve(NULL, live, 2, 16, &place), FEDDURZAI_NULL);
    CHECK(feddurzai_region_reserve(&region, NULL, 2, 16, &place), FEDDURZAI_NULL);
    CHECK(feddurzai_region_reserve(&region, live, 2, 16, NULL), FEDDURZAI_NULL);
    CHECK(feddurzai_region_release(NULL, live, 2, 0), FEDDURZAI_NULL);
    CHECK(feddurzai_region_release(&region, NULL, 2, 0), FEDDURZAI_NULL);
    CHECK(feddurzai_region_fill(NULL, live, 2, 0, code, 4, out, sizeof out), FEDDURZAI_NULL);
    CHECK(feddurzai_region_fill(&region, NULL, 2, 0, code, 4, out, sizeof out), FEDDURZAI_NULL);
    CHECK(feddurzai_region_fill(&region, live, 2, 0, NULL, 4, out, sizeof out), FEDDURZAI_NULL);
    CHECK(feddurzai_region_fill(&region, live, 2, 0, code, 4, NULL, sizeof out), FEDDURZAI_NULL);

    CHECK(feddurzai_step(64, 0, NULL, 4, 0x2000, out, sizeof out, &step), FEDDURZAI_NULL);
    CHECK(feddurzai_step_unlisted(64, 0, NULL, 4, 0x2000, out, sizeof out, &step), FEDDURZAI_NULL);
    CHECK(feddurzai_step(64, 0, code, 4, 0x2000, NULL, sizeof out, &step), FEDDURZAI_NULL);
    CHECK(feddurzai_step_unlisted(64, 0, code, 4, 0x2000, NULL, sizeof out, &step), FEDDURZAI_NULL);
    CHECK(feddurzai_step(64, 0, code, 4, 0x2000, out, sizeof out, NULL), FEDDURZAI_NULL);
    CHECK(feddurzai_step_unlisted(64, 0, code, 4, 0x2000, out, sizeof out, NULL), FEDDURZAI_NULL);
    CHECK(feddurzai_step(64, 0, NULL, 0, 0, NULL, 0, NULL), FEDDURZAI_NULL);
    CHECK(feddurzai_step_len(64, 0, NULL, 4, 0), FEDDURZAI_NULL);
    CHECK(feddurzai_step_call(64, 0, NULL, 4, 0x2000, out, sizeof out, &step), FEDDURZAI_NULL);
    CHECK(feddurzai_step_call(64, 0, code, 4, 0x2000, NULL, sizeof out, &step), FEDDURZAI_NULL);
    CHECK(feddurzai_step_call(64, 0, code, 4, 0x2000, out, sizeof out, NULL), FEDDURZAI_NULL);
    CHECK(feddurzai_step_call(64, 0, NULL, 0, 0, NULL, 0, NULL), FEDDURZAI_NULL);

    CHECK(feddurzai_detour(64, 0, NULL, 7, 0x2000, 0x3000, 0, patch, 6, out, sizeof out, &detour), FEDDURZAI_NULL);
    CHECK(feddurzai_detour(64, 0, small, 7, 0x2000, 0x3000, 0, NULL, 6, out, sizeof out, &detour), FEDDURZAI_NULL);
    CHECK(feddurzai_detour(64, 0, small, 7, 0x2000, 0x3000, 0, patch, 6, NULL, sizeof out, &detour), FEDDURZAI_NULL);
    CHECK(feddurzai_detour(64, 0, small, 7, 0x2000, 0x3000, 0, patch, 6, out, sizeof out, NULL), FEDDURZAI_NULL);
    CHECK(feddurzai_detour(64, 0, NULL, 0, 0, 0, 0, NULL, 0, NULL, 0, NULL), FEDDURZAI_NULL);
    CHECK(feddurzai_detour_unlisted(64, 0, NULL, 7, 0x2000, 0x3000, 0, patch, 6, out, sizeof out, &detour), FEDDURZAI_NULL);
    CHECK(feddurzai_detour_unlisted(64, 0, small, 7, 0x2000, 0x3000, 0, NULL, 6, out, sizeof out, &detour), FEDDURZAI_NULL);
    CHECK(feddurzai_detour_unlisted(64, 0, small, 7, 0x2000, 0x3000, 0, patch, 6, NULL, sizeof out, &detour), FEDDURZAI_NULL);
    CHECK(feddurzai_detour_unlisted(64, 0, small, 7, 0x2000, 0x3000, 0, patch, 6, out, sizeof out, NULL), FEDDURZAI_NULL);
#define DETOUR(code, entries, patch, out, moved, hook) \
    feddurzai_detour_with(64, 0, code, 7, 0x2000, 0x3000, 0, 0, entries, 2, patch, 6, out, SPARE, moved, 2, hook)
    CHECK(DETOUR(NULL, firsts, patch, out, moved, &hook), FEDDURZAI_NULL);
    CHECK(DETOUR(small, NULL, patch, out, moved, &hook), FEDDURZAI_NULL);
    CHECK(DETOUR(small, firsts, NULL, out, moved, &hook), FEDDURZAI_NULL);
    CHECK(DETOUR(small, firsts, patch, NULL, moved, &hook), FEDDURZAI_NULL);
    CHECK(DETOUR(small, firsts, patch, out, NULL, &hook), FEDDURZAI_NULL);
    CHECK(DETOUR(small, firsts, patch, out, moved, NULL), FEDDURZAI_NULL);
#undef DETOUR
    CHECK(feddurzai_detour_with(64, 0, NULL, 0, 0, 0, 0, 0, NULL, 0, NULL, 0, NULL, 0, NULL, 0, NULL), FEDDURZAI_NULL);
    CHECK(feddurzai_detour_len(64, 0, NULL, 7, 0x2000, 0, 0), FEDDURZAI_NULL);
#define KEPT(code, entries, patch, out, moved, kept) \
    feddurzai_detour_endbr(64, 0, code, 7, 0x2000, 0x3000, 0, 0, entries, 2, patch, 6, out, SPARE, moved, 2, kept)
    CHECK(KEPT(NULL, firsts, patch, out, moved, &kept), FEDDURZAI_NULL);
    CHECK(KEPT(small, NULL, patch, out, moved, &kept), FEDDURZAI_NULL);
    CHECK(KEPT(small, firsts, NULL, out, moved, &kept), FEDDURZAI_NULL);
    CHECK(KEPT(small, firsts, patch, NULL, moved, &kept), FEDDURZAI_NULL);
    CHECK(KEPT(small, firsts, patch, out, NULL, &kept), FEDDURZAI_NULL);
    CHECK(KEPT(small, firsts, patch, out, moved, NULL), FEDDURZAI_NULL);
#undef KEPT
#define PADDED(padding, code, entries, jump, patch, out, moved, padded) \
    feddurzai_detour_padding(64, 0x1000, padding, 5, code, 7, 0x2000, 0x3000, 0, 0, entries, 2, jump, 5, patch, 6, out, SPARE, moved, \
        2, padded)
    CHECK(PADDED(NULL, small, firsts, out, patch, out, moved, &padded), FEDDURZAI_NULL);
    CHECK(PADDED(small, NULL, firsts, out, patch, out, moved, &padded), FEDDURZAI_NULL);
    CHECK(PADDED(small, small, NULL, out, patch, out, moved, &padded), FEDDURZAI_NULL);
    CHECK(PADDED(small, small, firsts, NULL, patch, out, moved, &padded), FEDDURZAI_NULL);
    CHECK(PADDED(small, small, firsts, out, NULL, out, moved, &padded), FEDDURZAI_NULL);
    CHECK(PADDED(small, small, firsts, out, patch, NULL, moved, &padded), FEDDURZAI_NULL);
    CHECK(PADDED(small, small, firsts, out, patch, out, NULL, &padded), FEDDURZAI_NULL);
    CHECK(PADDED(small, small, firsts, out, patch, out, moved, NULL), FEDDURZAI_NULL);
#undef PADDED

    CHECK(feddurzai_flow(64, 0, NULL, 4, starts, 3, leaders, 3), FEDDURZAI_NULL);
    CHECK(feddurzai_flow(64, 0, code, 4, NULL, 3, leaders, 3), FEDDURZAI_NULL);
    CHECK(feddurzai_flow(64, 0, code, 4, starts, 3, NULL, 3), FEDDURZAI_NULL);
    CHECK(feddurzai_flow(64, 0, NULL, 4, NULL, 3, NULL, 3), FEDDURZAI_NULL);
    CHECK(feddurzai_flow_from(64, 0, NULL, 4, firsts, 2, starts, 3, leaders, 3, kinds, 3), FEDDURZAI_NULL);
    CHECK(feddurzai_flow_unlisted(64, 0, NULL, 4, firsts, 2, starts, 3, leaders, 3, kinds, 3), FEDDURZAI_NULL);
    CHECK(feddurzai_flow_from(64, 0, code, 4, NULL, 2, starts, 3, leaders, 3, kinds, 3), FEDDURZAI_NULL);
    CHECK(feddurzai_flow_unlisted(64, 0, code, 4, NULL, 2, starts, 3, leaders, 3, kinds, 3), FEDDURZAI_NULL);
    CHECK(feddurzai_flow_from(64, 0, code, 4, firsts, 2, NULL, 3, leaders, 3, kinds, 3), FEDDURZAI_NULL);
    CHECK(feddurzai_flow_from(64, 0, code, 4, firsts, 2, starts, 3, NULL, 3, kinds, 3), FEDDURZAI_NULL);
    CHECK(feddurzai_flow_from(64, 0, code, 4, firsts, 2, starts, 3, leaders, 3, NULL, 3), FEDDURZAI_NULL);
    CHECK(feddurzai_look(64, 0, NULL, 4, firsts, 2, 2, firsts, 2, 0, &view), FEDDURZAI_NULL);
    CHECK(feddurzai_look(64, 0, code, 4, NULL, 2, 2, firsts, 2, 0, &view), FEDDURZAI_NULL);
    CHECK(feddurzai_look(64, 0, code, 4, firsts, 2, 2, NULL, 2, 0, &view), FEDDURZAI_NULL);
    CHECK(feddurzai_look(64, 0, code, 4, firsts, 2, 2, firsts, 2, 0, NULL), FEDDURZAI_NULL);
    CHECK(feddurzai_flow_unlisted(64, 0, code, 4, firsts, 2, starts, 3, leaders, 3, NULL, 3), FEDDURZAI_NULL);

    /* before every other refusal, and no cause of the encoder's */
    CHECK(feddurzai_decode(17, 0, code, 4, NULL), FEDDURZAI_NULL);
    CHECK(feddurzai_decode_many(17, 0, code, 4, NULL, 1, &count), FEDDURZAI_NULL);
    CHECK(feddurzai_line(17, 9, 0, NULL, 4, NULL, text, sizeof text), FEDDURZAI_NULL);
    CHECK(feddurzai_text(17, 9, NULL, text, sizeof text), FEDDURZAI_NULL);
    CHECK(feddurzai_pieces(17, 9, &instr, text, sizeof text, NULL, 1), FEDDURZAI_NULL);
    CHECK(feddurzai_encode(17, 0, NULL, out, sizeof out), FEDDURZAI_NULL);
    CHECK(feddurzai_encoded_len(17, 0, NULL), FEDDURZAI_NULL);
    CHECK(feddurzai_assemble(17, 0, NULL, 1, out, sizeof out), FEDDURZAI_NULL);
    CHECK(feddurzai_jump(17, 0, 0, 0, NULL, 1), FEDDURZAI_NULL);
    CHECK(feddurzai_info(&unread, NULL), FEDDURZAI_NULL);
    CHECK(feddurzai_effects(17, &unread, NULL), FEDDURZAI_NULL);
    CHECK(feddurzai_feature_name(FEDDURZAI_FEATURES, NULL, 1), FEDDURZAI_NULL);
    CHECK(feddurzai_name(FEDDURZAI_CODES, NULL, 1), FEDDURZAI_NULL);
    CHECK(feddurzai_row_operand(FEDDURZAI_CODES, 4, NULL, text, sizeof text), FEDDURZAI_NULL);
    CHECK(feddurzai_move(17, 0, code, 4, 0, out, sizeof out, map, 3, NULL), FEDDURZAI_NULL);
    CHECK(feddurzai_flow(17, 0, NULL, 4, starts, 3, leaders, 3), FEDDURZAI_NULL);
    CHECK(feddurzai_flow_from(17, 0, code, 4, NULL, 2, starts, 3, leaders, 3, kinds, 3), FEDDURZAI_NULL);
    CHECK(feddurzai_detour(17, 0, NULL, 7, 0, 0, 9, patch, 6, out, sizeof out, &detour), FEDDURZAI_NULL);
    CHECK(feddurzai_detour_with(17, 0, small, 7, 0, 0, 9, 0, NULL, 1, patch, 6, out, sizeof out, moved, 2, &hook), FEDDURZAI_NULL);
    CHECK(FEDDURZAI_CAUSE(FEDDURZAI_NULL), 0);
    CHECK(nothing_was_written(), 1);

    /* a function's address is that of the one that looks */
    {
        int32_t (*call)(const feddurzai_instr *, feddurzai_about *) = feddurzai_info;
        CHECK(call(NULL, NULL), FEDDURZAI_NULL);
        CHECK(call(&instr, &about), 0);
    }
}

/* NULL with a length of 0 is no bytes, or no room */
static void check_empty(void)
{
    fill();
    CHECK(feddurzai_decode(64, 0, NULL, 0, &unread), FEDDURZAI_TOO_SHORT);
    CHECK(feddurzai_offsets(64, NULL, 0, &parts), FEDDURZAI_TOO_SHORT);
    CHECK(feddurzai_measure(64, NULL, 0, &shape), FEDDURZAI_TOO_SHORT);
    CHECK(feddurzai_line(64, FEDDURZAI_INTEL, 0, NULL, 0, &unread, NULL, 0), FEDDURZAI_TOO_SHORT);
    CHECK(feddurzai_line(64, FEDDURZAI_INTEL, 0, mov, 5, NULL, NULL, 0), FEDDURZAI_NO_ROOM);
    CHECK(feddurzai_line_text(64, FEDDURZAI_INTEL, 0, mov, 5, NULL, 0), FEDDURZAI_NO_ROOM);
    CHECK(feddurzai_text(64, FEDDURZAI_INTEL, &instr, NULL, 0), FEDDURZAI_NO_ROOM);
    CHECK(feddurzai_pieces(64, FEDDURZAI_INTEL, &instr, NULL, 0, pieces, 40), FEDDURZAI_NO_ROOM);
    CHECK(feddurzai_pieces(64, FEDDURZAI_INTEL, &instr, text, sizeof text, NULL, 0), FEDDURZAI_NO_ROOM);
    CHECK(feddurzai_format(64, FEDDURZAI_INTEL, NULL, &instr, 0, NULL, 0, 0, NULL, 0), FEDDURZAI_NO_ROOM);
    CHECK(feddurzai_encode(64, 0, &instr, NULL, 0), FEDDURZAI_NO_ROOM);
    CHECK(feddurzai_assemble(64, 0, NULL, 0, NULL, 0), FEDDURZAI_NO_TEXT);
    CHECK(feddurzai_assemble(64, 0, "nop", 3, NULL, 0), FEDDURZAI_NO_ROOM);
    CHECK(feddurzai_read_intel(64, 0, NULL, 0, &unread), FEDDURZAI_NO_TEXT);
    CHECK(feddurzai_assemble_code(64, 0, NULL, 0, NULL, 0, NULL, 0, NULL, 0, &routine), 0);
    CHECK(feddurzai_assemble_code_near(64, 0, NULL, 0, NULL, 0, NULL, 0, NULL, 0, &routine), 0);
    CHECK(feddurzai_assemble_code_near(64, 0, "nop", 3, NULL, 0, NULL, 0, NULL, 0, &routine), FEDDURZAI_NO_ROOM);
    CHECK(feddurzai_assemble_code(64, 0, "nop", 3, NULL, 0, NULL, 0, NULL, 0, &routine), FEDDURZAI_NO_ROOM);
    CHECK(routine.bytes == 1 && routine.slots == 0 && routine.labels == 0 && routine.line == 0 && routine.address == 0, 1);
    memset(&routine, 0xaa, sizeof routine);
    CHECK(feddurzai_jump(64, 0, 0, FEDDURZAI_JUMP_NEAR, NULL, 0), FEDDURZAI_NO_ROOM);
    CHECK(feddurzai_register_text(0, FEDDURZAI_R64, 0, NULL, 0), FEDDURZAI_NO_ROOM);
    CHECK(feddurzai_segment_text(0, FEDDURZAI_FS, NULL, 0), FEDDURZAI_NO_ROOM);
    CHECK(feddurzai_feature_name(0, NULL, 0), FEDDURZAI_NO_ROOM);
    CHECK(feddurzai_name(0, NULL, 0), FEDDURZAI_NO_ROOM);
    CHECK(feddurzai_notation(0, NULL, 0), FEDDURZAI_NO_ROOM);
    CHECK(feddurzai_row_operand(0, 0, &access, NULL, 0), FEDDURZAI_NO_ROOM);
    CHECK(feddurzai_code_of(NULL, 0, 0), FEDDURZAI_NO_NAME);
    CHECK(feddurzai_flow(64, 0, code, 4, NULL, 0, NULL, 0), FEDDURZAI_NO_ROOM);
    CHECK(feddurzai_flow(64, 0, code, 4, NULL, 0, leaders, 3), FEDDURZAI_NO_ROOM);
    CHECK(feddurzai_flow(64, 0, code, 4, starts, 3, NULL, 0), FEDDURZAI_NO_ROOM);
    CHECK(feddurzai_flow(64, 0, NULL, 0, starts, 3, leaders, 3), 0);
    CHECK(feddurzai_flow(64, 0, NULL, 0, NULL, 0, NULL, 0), 0);
    CHECK(feddurzai_flow_from(64, 0, NULL, 0, NULL, 0, starts, 3, leaders, 3, kinds, 3), 0);
    CHECK(feddurzai_flow_from(64, 0, code, 4, firsts, 2, NULL, 0, NULL, 0, NULL, 0), FEDDURZAI_NO_ROOM);
    CHECK(nothing_was_written(), 1);
    CHECK(feddurzai_move(64, 0x1000, code, 4, 0x2000, NULL, 0, map, 3, &report), FEDDURZAI_NO_ROOM);
    CHECK(feddurzai_move(64, 0x1000, code, 4, 0x2000, out, sizeof out, NULL, 0, &report), FEDDURZAI_NO_ROOM);
    CHECK(feddurzai_move(64, 0x1000, code, 4, 0x2000, NULL, 0, NULL, 0, &report), FEDDURZAI_NO_ROOM);
    CHECK(report.bytes == 4 && report.count == 3 && report.at == 0 && report.address == 0, 1);
    CHECK(report.code_bytes == 4 && report.slots_at == 4, 1);
    CHECK(feddurzai_move(64, 0x1000, NULL, 0, 0x2000, NULL, 0, NULL, 0, &report), 0);
    CHECK(report.bytes == 0 && report.count == 0 && report.at == 0 && report.address == 0, 1);
    CHECK(report.code_bytes == 0 && report.slots_at == 0, 1);
    memset(&report, 0xaa, sizeof report);
    CHECK(feddurzai_move_blocks(64, code, 4, whole, 2, NULL, 0, NULL, 0, NULL, 0, &blocks_report), FEDDURZAI_NO_ROOM);
    CHECK(blocks_report.bytes == 8 && blocks_report.count == 3 && blocks_report.block == 2, 1);
    CHECK(blocks_report.at == 0 && blocks_report.address == 0, 1);
    CHECK(feddurzai_move_blocks(64, NULL, 0, NULL, 0, NULL, 0, NULL, 0, NULL, 0, &blocks_report), 0);
    CHECK(blocks_report.bytes == 0 && blocks_report.count == 0 && blocks_report.block == 0, 1);
    memset(&blocks_report, 0xaa, sizeof blocks_report);
    CHECK(feddurzai_region_reserve(&region, NULL, 0, 16, &place), FEDDURZAI_BAD_REGION);
    CHECK(feddurzai_region_release(&region, NULL, 0, 0), FEDDURZAI_BAD_REGION);
    CHECK(feddurzai_region_fill(&region, NULL, 0, 0, NULL, 0, NULL, 0), FEDDURZAI_BAD_REGION);
    CHECK(nothing_was_written(), 1);
    CHECK(feddurzai_step(64, 0x1000, mov, 5, 0x2000, NULL, 0, &step), FEDDURZAI_NO_ROOM);
    CHECK(step.bytes == 10 && step.back_at == 5 && step.address == 0 && step.len == 5 && step.done_at == 5, 1);
    CHECK(feddurzai_step(64, 0x1000, NULL, 0, 0x2000, NULL, 0, &step), FEDDURZAI_TOO_SHORT);
    CHECK(feddurzai_step_unlisted(64, 0x1000, NULL, 0, 0x2000, NULL, 0, &step), FEDDURZAI_TOO_SHORT);
    CHECK(step.bytes == 0 && step.back_at == 0 && step.address == 0 && step.len == 0 && step.done_at == 0, 1);
    CHECK(feddurzai_step_call(64, 0x1000, (const uint8_t *)"\xff\xd0", 2, 0x2000, NULL, 0, &step), FEDDURZAI_NO_ROOM);
    CHECK(step.bytes == 15 && step.back_at == 0 && step.address == 0 && step.len == 2 && step.done_at == 5, 1);
    CHECK(feddurzai_step_call(64, 0x1000, NULL, 0, 0x2000, NULL, 0, &step), FEDDURZAI_TOO_SHORT);
    CHECK(step.bytes == 0 && step.back_at == 0 && step.address == 0 && step.len == 0 && step.done_at == 0, 1);
    memset(&step, 0xaa, sizeof step);
    CHECK(feddurzai_step_len(64, 0, NULL, 0, 0), FEDDURZAI_TOO_SHORT);
    CHECK(feddurzai_detour(64, 0x1000, small, 7, 0x2000, 0x3000, 0, NULL, 0, NULL, 0, &detour), FEDDURZAI_NO_ROOM);
    CHECK(detour.taken == 6 && detour.bytes == 11 && detour.jump_back == 6 && detour.form == FEDDURZAI_DETOUR_NEAR, 1);
    CHECK(feddurzai_detour(64, 0x1000, NULL, 0, 0x2000, 0x3000, 0, NULL, 0, NULL, 0, &detour), FEDDURZAI_SMALL);
    CHECK(detour.taken == 0 && detour.bytes == 0 && detour.at == 0 && detour.target == 5 && detour.form == 0, 1);
    memset(&detour, 0xaa, sizeof detour);
    CHECK(feddurzai_detour_with(64, 0x1000, small, 7, 0x2000, 0x3000, 0, 1, NULL, 0, NULL, 0, NULL, 0, NULL, 0, &hook), FEDDURZAI_NO_ROOM);
    CHECK(hook.detour.taken == 6 && hook.detour.bytes == 11 && hook.detour.form == FEDDURZAI_DETOUR_NEAR && hook.moved == 2, 1);
    CHECK(feddurzai_detour_with(64, 0x1000, NULL, 0, 0x2000, 0x3000, 0, 1, NULL, 0, NULL, 0, NULL, 0, NULL, 0, &hook), FEDDURZAI_SMALL);
    CHECK(hook.detour.taken == 0 && hook.detour.bytes == 0 && hook.detour.at == 0 && hook.detour.target == 5 && hook.moved == 0, 1);
    memset(&hook, 0xaa, sizeof hook);
    CHECK(nothing_was_written(), 1);
}

/* zero for each number and length, structs of zeros, and NULL for the rest */
static void check_zeros(void)
{
    feddurzai_instr zeros;
    memset(&zeros, 0, sizeof zeros);
    fill();
    CHECK(feddurzai_decode(0, 0, NULL, 0, &unread), FEDDURZAI_BAD_MODE);
    CHECK(feddurzai_decode_many(0, 0, NULL, 0, NULL, 0, &count), FEDDURZAI_BAD_MODE);
    CHECK(feddurzai_offsets(0, NULL, 0, &parts), FEDDURZAI_BAD_MODE);
    CHECK(feddurzai_measure(0, NULL, 0, &shape), FEDDURZAI_BAD_MODE);
    CHECK(feddurzai_line(0, 0, 0, NULL, 0, NULL, NULL, 0), FEDDURZAI_BAD_MODE);
    CHECK(feddurzai_line_text(0, 0, 0, NULL, 0, NULL, 0), FEDDURZAI_BAD_MODE);
    CHECK(feddurzai_text(0, 0, &zeros, NULL, 0), FEDDURZAI_BAD_MODE);
    CHECK(feddurzai_pieces(0, 0, &zeros, NULL, 0, NULL, 0), FEDDURZAI_BAD_MODE);
    CHECK(feddurzai_format(0, 0, NULL, &zeros, 0, NULL, 0, 0, NULL, 0), FEDDURZAI_BAD_MODE);
    CHECK(feddurzai_format_code(0, 0, NULL, NULL, 0, &zeros, 0, NULL, 0, 0, NULL, 0), FEDDURZAI_BAD_MODE);
    CHECK(feddurzai_encode(0, 0, &zeros, NULL, 0), FEDDURZAI_BAD_MODE);
    CHECK(feddurzai_encoded_len(0, 0, &zeros), FEDDURZAI_BAD_MODE);
    CHECK(feddurzai_assemble(0, 0, NULL, 0, NULL, 0), FEDDURZAI_BAD_MODE);
    CHECK(feddurzai_read_intel(0, 0, NULL, 0, &unread), FEDDURZAI_BAD_MODE);
    CHECK(feddurzai_jump(0, 0, 0, 0, NULL, 0), FEDDURZAI_BAD_MODE);
    CHECK(feddurzai_register_text(0, 0, 0, NULL, 0), FEDDURZAI_NO_REGISTER);
    CHECK(feddurzai_segment_text(0, 0, NULL, 0), FEDDURZAI_NO_REGISTER);
    CHECK(feddurzai_full_register(0, 0), FEDDURZAI_NO_REGISTER);
    CHECK(feddurzai_feature_name(0, NULL, 0), FEDDURZAI_NO_ROOM);
    CHECK(feddurzai_effects(0, &zeros, &touched), FEDDURZAI_BAD_MODE);
    CHECK(feddurzai_flow(0, 0, NULL, 0, NULL, 0, NULL, 0), FEDDURZAI_BAD_MODE);
    CHECK(feddurzai_flow_from(0, 0, NULL, 0, NULL, 0, NULL, 0, NULL, 0, NULL, 0), FEDDURZAI_BAD_MODE);
    CHECK(feddurzai_look(0, 0, NULL, 0, NULL, 0, 0, NULL, 0, 0, &view), FEDDURZAI_BAD_MODE);
    CHECK(feddurzai_flow_unlisted(0, 0, NULL, 0, NULL, 0, NULL, 0, NULL, 0, NULL, 0), FEDDURZAI_BAD_MODE);
    CHECK(feddurzai_name(0, NULL, 0), FEDDURZAI_NO_ROOM);
    CHECK(feddurzai_notation(0, NULL, 0), FEDDURZAI_NO_ROOM);
    CHECK(feddurzai_row_operand(0, 0, &access, NULL, 0), FEDDURZAI_NO_ROOM);
    CHECK(feddurzai_code_of(NULL, 0, 0), FEDDURZAI_NO_NAME);
    /* `add` without operands */
    CHECK(feddurzai_info(&zeros, &about), FEDDURZAI_BAD_FORM);
    CHECK(feddurzai_effects(64, &zeros, &touched), FEDDURZAI_BAD_FORM);
    CHECK(feddurzai_text(64, 0, &zeros, text, sizeof text), FEDDURZAI_BAD_FORM);
    CHECK(feddurzai_pieces(64, 0, &zeros, text, sizeof text, pieces, 40), FEDDURZAI_BAD_FORM);
    CHECK(FEDDURZAI_CAUSE(feddurzai_encode(64, 0, &zeros, out, sizeof out)), FEDDURZAI_CAUSE_KIND);
    CHECK(nothing_was_written(), 1);
    CHECK(feddurzai_assemble_code_near(0, 0, NULL, 0, NULL, 0, NULL, 0, NULL, 0, &routine), FEDDURZAI_BAD_MODE);
    CHECK(feddurzai_assemble_code(0, 0, NULL, 0, NULL, 0, NULL, 0, NULL, 0, &routine), FEDDURZAI_BAD_MODE);
    CHECK(routine.bytes == 0 && routine.labels == 0 && routine.line == 0 && routine.column == 0 && routine.at == 0, 1);
    CHECK(feddurzai_move(0, 0, NULL, 0, 0, NULL, 0, NULL, 0, &report), FEDDURZAI_BAD_MODE);
    CHECK(report.bytes == 0 && report.count == 0 && report.at == 0 && report.address == 0, 1);
    CHECK(report.code_bytes == 0 && report.slots_at == 0, 1);
    CHECK(feddurzai_move_blocks(0, NULL, 0, NULL, 0, NULL, 0, NULL, 0, NULL, 0, &blocks_report), FEDDURZAI_BAD_MODE);
    CHECK(blocks_report.bytes == 0 && blocks_report.count == 0 && blocks_report.block == 0, 1);
    memset(&region, 0, sizeof region);
    memset(live, 0, sizeof live);
    CHECK(feddurzai_region_reserve(&region, live, 2, 0, &place), FEDDURZAI_BAD_REGION);
    CHECK(feddurzai_region_release(&region, live, 2, 0), FEDDURZAI_BAD_REGION);
    CHECK(feddurzai_region_fill(&region, live, 2, 0, NULL, 0, out, 0), FEDDURZAI_BAD_REGION);
    CHECK(feddurzai_step(0, 0, NULL, 0, 0, NULL, 0, &step), FEDDURZAI_BAD_MODE);
    CHECK(feddurzai_step_unlisted(0, 0, NULL, 0, 0, NULL, 0, &step), FEDDURZAI_BAD_MODE);
    CHECK(feddurzai_move_unlisted(0, 0, NULL, 0, 0, NULL, 0, NULL, 0, &report), FEDDURZAI_BAD_MODE);
    CHECK(step.bytes == 0 && step.back_at == 0 && step.address == 0 && step.len == 0 && step.done_at == 0, 1);
    CHECK(feddurzai_step_len(0, 0, NULL, 0, 0), FEDDURZAI_BAD_MODE);
    CHECK(feddurzai_step_call(0, 0, NULL, 0, 0, NULL, 0, &step), FEDDURZAI_BAD_MODE);
    CHECK(step.bytes == 0 && step.back_at == 0 && step.address == 0 && step.len == 0 && step.done_at == 0, 1);
    CHECK(feddurzai_detour_unlisted(0, 0, NULL, 0, 0, 0, 0, NULL, 0, NULL, 0, &detour), FEDDURZAI_BAD_MODE);
    CHECK(feddurzai_detour(0, 0, NULL, 0, 0, 0, 0, NULL, 0, NULL, 0, &detour), FEDDURZAI_BAD_MODE);
    CHECK(detour.taken == 0 && detour.bytes == 0 && detour.jump_back == 0 && detour.at == 0 && detour.target == 0, 1);
    CHECK(feddurzai_detour_with(0, 0, NULL, 0, 0, 0, 0, 0, NULL, 0, NULL, 0, NULL, 0, NULL, 0, &hook), FEDDURZAI_BAD_MODE);
    CHECK(hook.detour.taken == 0 && hook.detour.at == 0 && hook.detour.target == 0 && hook.view.sight == 0 && hook.moved == 0, 1);
}

/* a room of `room` bytes, with spare ones behind that no call may write; all are 0xaa */
static uint8_t *room_of(size_t room)
{
    uint8_t *bytes = (uint8_t *)malloc(room + SPARE);
    memset(bytes, 0xaa, room + SPARE);
    return bytes;
}

enum writer { TEXT, PIECES, FORMAT, LINE, LINE_TEXT, ENCODE, ASSEMBLE, JUMP, REGISTER_TEXT, SEGMENT_TEXT, FEATURE_NAME, NAME, NOTATION, ROW_OPERAND };

static int32_t written(enum writer writer, uint8_t *bytes, size_t room)
{
    switch (writer) {
    case TEXT:
        return feddurzai_text(64, FEDDURZAI_INTEL, &instr, (char *)bytes, room);
    case PIECES:
        return feddurzai_pieces(64, FEDDURZAI_INTEL, &instr, (char *)bytes, room, pieces, FEDDURZAI_MAX_PIECES);
    case FORMAT:
        return feddurzai_format(64, FEDDURZAI_INTEL, NULL, &instr, 0, NULL, 0, 0, (char *)bytes, room);
    case LINE:
        return feddurzai_line(64, FEDDURZAI_INTEL, 0, mov, sizeof mov, &unread, (char *)bytes, room);
    case LINE_TEXT:
        return feddurzai_line(64, FEDDURZAI_INTEL, 0, mov, sizeof mov, NULL, (char *)bytes, room);
    case ENCODE:
        return feddurzai_encode(64, 0, &instr, bytes, room);
    case ASSEMBLE:
        return feddurzai_assemble(64, 0, mov_text, sizeof mov_text - 1, bytes, room);
    case JUMP:
        return feddurzai_jump(64, 0x1000, 0x1081, FEDDURZAI_JUMP_SHORT, bytes, room);
    case REGISTER_TEXT:
        return feddurzai_register_text(FEDDURZAI_ATT, FEDDURZAI_R64, 0, (char *)bytes, room);
    case SEGMENT_TEXT:
        return feddurzai_segment_text(FEDDURZAI_INTEL, FEDDURZAI_FS, (char *)bytes, room);
    case FEATURE_NAME:
        return feddurzai_feature_name(FEDDURZAI_FEATURE_AVX2, (char *)bytes, room);
    case NAME:
        return feddurzai_name(instr.code, (char *)bytes, room);
    case NOTATION:
        return feddurzai_notation(instr.code, (char *)bytes, room);
    default:
        return feddurzai_row_operand(instr.code, 1, &access, (char *)bytes, room);
    }
}

/* each room that is too small is refused whole; the least that is not gets `want` and no more, of which `said` is told */
static void check_rooms_of(enum writer writer, const void *want, size_t least, int32_t said)
{
    size_t room;
    uint8_t *bytes;
    for (room = 0; room < least; room++) {
        bytes = room_of(room);
        CHECK(written(writer, bytes, room), FEDDURZAI_NO_ROOM);
        CHECK(is_untouched(bytes, room + SPARE), 1);
        free(bytes);
    }
    bytes = room_of(least);
    CHECK(written(writer, bytes, least), said);
    CHECK(memcmp(bytes, want, least), 0);
    CHECK(is_untouched(bytes + least, SPARE), 1);
    free(bytes);
}

/* the code of a step, in every room up to one more byte than it has: the report always tells how many it has */
static void check_rooms_of_steps(void)
{
    size_t room;
    for (room = 0; room <= 11; room++) {
        uint8_t *bytes = room_of(room);
        int fits = room >= 10;
        CHECK(feddurzai_step(64, 0x1000, mov, sizeof mov, 0x2000, bytes, room, &step), fits ? 10 : FEDDURZAI_NO_ROOM);
        CHECK(step.bytes == 10 && step.back_at == 5 && step.len == 5 && step.done_at == 5, 1);
        CHECK(fits ? memcmp(bytes, mov, sizeof mov) == 0 && is_untouched(bytes + 10, room - 10 + SPARE) : is_untouched(bytes, room + SPARE), 1);
        free(bytes);
    }
}

/* both rooms of a call that has two, from none to one more than is wanted of each */
static void check_pairs_of_rooms(void)
{
    size_t room, second;
    for (room = 0; room <= 5; room++)
        for (second = 0; second <= 4; second++) {
            uint8_t *bytes = room_of(room), *entries = room_of(second * sizeof(feddurzai_moved));
            int fits = room >= 4 && second >= 3;
            CHECK(feddurzai_move(64, 0x1000, code, 4, 0x2000, bytes, room, (feddurzai_moved *)(void *)entries, second, &report),
                fits ? 0 : FEDDURZAI_NO_ROOM);
            CHECK(report.bytes == 4 && report.count == 3, 1);
            CHECK(fits ? memcmp(bytes, code, 4) == 0 && is_untouched(bytes + 4, room - 4 + SPARE) : is_untouched(bytes, room + SPARE), 1);
            CHECK(fits ? is_untouched(entries + 3 * sizeof(feddurzai_moved), (second - 3) * sizeof(feddurzai_moved) + SPARE)
                       : is_untouched(entries, second * sizeof(feddurzai_moved) + SPARE), 1);
            free(bytes);
            free(entries);
        }
    /* the blocks become a branch of 6 bytes, and 90 c3 behind it */
    for (room = 6; room <= 9; room++)
        for (second = 0; second <= 3; second++) {
            uint8_t *bytes = room_of(room), *rows = room_of(second * sizeof(feddurzai_placed_block));
            int fits = room >= 8 && second >= 2;
            CHECK(feddurzai_move_blocks(64, code, 4, whole, 2, bytes, room, (feddurzai_placed_block *)(void *)rows, second, map, 3, &blocks_report),
                fits ? 0 : FEDDURZAI_NO_ROOM);
            CHECK(blocks_report.bytes == 8 && blocks_report.count == 3, 1);
            CHECK(fits ? memcmp(bytes + 6, code + 2, 2) == 0 && is_untouched(bytes + 8, room - 8 + SPARE) : is_untouched(bytes, room + SPARE), 1);
            CHECK(fits ? is_untouched(rows + 2 * sizeof(feddurzai_placed_block), (second - 2) * sizeof(feddurzai_placed_block) + SPARE)
                       : is_untouched(rows, second * sizeof(feddurzai_placed_block) + SPARE), 1);
            free(bytes);
            free(rows);
        }
    for (room = 0; room <= 7; room++)
        for (second = 0; second <= 12; second++) {
            uint8_t *over = room_of(room), *aside = room_of(second);
            int fits = room >= 6 && second >= 11;
            CHECK(feddurzai_detour(64, 0x1000, small, 7, 0x2000, 0x3000, 0, over, room, aside, second, &detour), fits ? 0 : FEDDURZAI_NO_ROOM);
            CHECK(detour.taken == 6 && detour.bytes == 11, 1);
            CHECK(is_untouched(over + (fits ? 6 : 0), room - (fits ? 6 : 0) + SPARE), 1);
            CHECK(is_untouched(aside + (fits ? 11 : 0), second - (fits ? 11 : 0) + SPARE), 1);
            free(over);
            free(aside);
        }
    for (room = 4; room <= 7; room++)
        for (second = 0; second <= 3; second++) {
            uint8_t *over = room_of(room), *aside = room_of(11), *list = room_of(second * sizeof(feddurzai_moved_start));
            int fits = room >= 6 && second >= 2;
            size_t written = fits ? 2 * sizeof(feddurzai_moved_start) : 0;
            CHECK(feddurzai_detour_with(64, 0x1000, small, 7, 0x2000, 0x3000, 0, 1, NULL, 0, over, room, aside, 11,
                      (feddurzai_moved_start *)(void *)list, second, &hook), fits ? 0 : FEDDURZAI_NO_ROOM);
            CHECK(hook.detour.taken == 6 && hook.detour.bytes == 11 && hook.moved == 2, 1);
            CHECK(is_untouched(over + (fits ? 6 : 0), room - (fits ? 6 : 0) + SPARE), 1);
            CHECK(is_untouched(aside + (fits ? 11 : 0), 11 - (fits ? 11 : 0) + SPARE), 1);
            CHECK(is_untouched(list + written, second * sizeof(feddurzai_moved_start) - written + SPARE), 1);
            free(over);
            free(aside);
            free(list);
        }
    for (room = 0; room <= 4; room++)
        for (second = 0; second <= 4; second++) {
            uint8_t *first = room_of(4 * room), *other = room_of(4 * second);
            int fits = room >= 3 && second >= 3;
            CHECK(feddurzai_flow(64, 0, code, 4, (uint32_t *)(void *)first, room, (uint32_t *)(void *)other, second),
                fits ? 3 : FEDDURZAI_NO_ROOM);
            CHECK(is_untouched(first + (fits ? 12 : 0), 4 * room - (fits ? 12 : 0) + SPARE), 1);
            CHECK(is_untouched(other + (fits ? 12 : 0), 4 * second - (fits ? 12 : 0) + SPARE), 1);
            free(first);
            free(other);
        }
}

int main(void)
{
    CHECK(feddurzai_decode(64, 0, mov, sizeof mov, &instr), 5);
    check_nulls();
    check_empty();
    check_zeros();
    check_rooms_of(TEXT, mov_text, sizeof mov_text, sizeof mov_text - 1);
    check_rooms_of(PIECES, mov_text, sizeof mov_text, 12);
    check_rooms_of(FORMAT, mov_text, sizeof mov_text, sizeof mov_text - 1);
    check_rooms_of(LINE, mov_text, sizeof mov_text, sizeof mov);
    check_rooms_of(LINE_TEXT, mov_text, sizeof mov_text, sizeof mov);
    check_rooms_of(ENCODE, mov, sizeof mov, sizeof mov);
    check_rooms_of(ASSEMBLE, mov, sizeof mov, sizeof mov);
    check_rooms_of(JUMP, "\xeb\x7f", 2, 2);
    check_rooms_of(REGISTER_TEXT, "%rax", 5, 4);
    check_rooms_of(SEGMENT_TEXT, "fs", 3, 2);
    check_rooms_of(FEATURE_NAME, "AVX2", 5, 4);
    check_rooms_of(NAME, "mov", 4, 3);
    check_rooms_of(NOTATION, "REX.W + 89 /r", 14, 13);
    check_rooms_of(ROW_OPERAND, "Gv", 3, 2);
    check_rooms_of_steps();
    check_pairs_of_rooms();
    printf("%d answers to NULL, zeros and small rooms, %d wrong\n", tests, failures);
    return failures != 0;
}

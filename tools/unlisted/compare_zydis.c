// Compares the lengths of made encodings, and the addresses that they refer to, in the library for C and in Zydis. docs/unlisted.md has the results.
//
//     cc -O2 -o compare_zydis tools/unlisted/compare_zydis.c -I capi FOLDER/libfeddurzai.a -lZydis
//     compare_zydis COUNT [SEED]
//
// Of each format it makes encodings until Zydis has read COUNT of them. A part is wholly random. The others have the bytes up to the opcode byte, and
// sometimes the field reg of ModRM, of an encoding that Zydis has read before. It prints each difference and a line for each format, and ends with
// status 1 if there was a difference. An encoding that the opcode table has is compared with feddurzai_decode.
#include <Zydis/Zydis.h>
#include <inttypes.h>
#include <stdio.h>
#include <stdlib.h>
#include <string.h>

#include "feddurzai.h"

enum { ROOM = 16, LONGEST = 15, MOST_HEADS = 65536, MOST_NAMES = 64 };

enum format { EVEX, VEX2, VEX3, XOP, NOW3D, MAP_0F, MAP_0F38, MAP_0F3A, ONE_BYTE, FORMATS };
static const char *const NAMES[FORMATS] = {"evex", "vex2", "vex3", "xop", "now3d", "0f", "0f38", "0f3a", "one byte"};

// An encoding: its mode, its bytes, and how many of them stand before ModRM.
struct made {
    int bits;
    size_t front;
    uint8_t bytes[ROOM];
};

// What one format gave.
struct tally {
    uint64_t made, read, measured, listed, neither, addresses, unlike, differences;
    char neither_names[MOST_NAMES][24];
    size_t neither_count;
};

static uint64_t state;

// A random number: xorshift64*.
static uint64_t chance(void)
{
    state ^= state >> 12;
    state ^= state << 25;
    state ^= state >> 27;
    return state * 0x2545F4914F6CDD1DULL;
}

static unsigned below(unsigned n) { return (unsigned)((chance() >> 32) % n); }

static uint8_t one_of(const uint8_t *bytes, size_t count) { return bytes[below((unsigned)count)]; }

#define ONE_OF(...) one_of((const uint8_t[]){__VA_ARGS__}, sizeof((const uint8_t[]){__VA_ARGS__}))

static void append(struct made *made, uint8_t byte) { made->bytes[made->front++] = byte; }

static void fill_rest(struct made *made)
{
    for (size_t i = made->front; i < ROOM; i++)
        made->bytes[i] = (uint8_t)(chance() >> 56);
}

static void append_legacy_prefixes(struct made *made)
{
    for (unsigned n = below(6) / 2; n > 0; n--)
        append(made, ONE_OF(0x66, 0x66, 0x67, 0xF2, 0xF3, 0x2E, 0x64, 0xF0));
    if (made->bits == 64 && below(5) < 2)
        append(made, (uint8_t)(0x40 + below(16)));
}

// The lead, the payload and the opcode byte of EVEX, VEX and XOP.
static void append_vector_front(struct made *made, enum format format)
{
    if (below(4) == 0)
        append(made, ONE_OF(0x67, 0x2E, 0x64, 0x3E, 0x65, 0x36, 0x26));
    uint8_t first = (uint8_t)below(256), second = (uint8_t)below(256);
    if (format == EVEX)
        first = (first & 0xF0) | ONE_OF(1, 2, 3, 5, 6), second |= 4;
    else if (format == VEX3)
        first = (first & 0xE0) | ONE_OF(1, 2, 3);
    else if (format == XOP)
        first = (first & 0xE0) | ONE_OF(8, 9, 10);
    if (made->bits != 64 && format != XOP)
        first |= 0xC0;
    // unused vvvv is 1111 in most instructions
    if (below(2))
        *(format == VEX2 ? &first : &second) |= 0x78;
    append(made, format == EVEX ? 0x62 : format == VEX2 ? 0xC5 : format == VEX3 ? 0xC4 : 0x8F);
    append(made, first);
    if (format != VEX2)
        append(made, second);
    if (format == EVEX)
        append(made, below(2) ? ONE_OF(0x08, 0x28, 0x48) : (uint8_t)below(256));
    append(made, (uint8_t)below(256));
}

static void make_random(struct made *made, enum format format)
{
    made->bits = (int)ONE_OF(16, 32, 64, 64);
    made->front = 0;
    switch (format) {
    case EVEX: case VEX2: case VEX3: case XOP:
        append_vector_front(made, format);
        break;
    case NOW3D:
        append_legacy_prefixes(made);
        append(made, 0x0F), append(made, 0x0F);
        break;
    case MAP_0F:
        append_legacy_prefixes(made);
        append(made, 0x0F);
        append(made, ONE_OF(0x01, 0x0D, 0x0E, 0x18, 0x19, 0x1A, 0x1B, 0x1C, 0x1D, 0x1E, 0x2B, 0x37, 0x78, 0x79, 0xAA, 0xAE, 0xB7, 0xBF, 0xC7, 0xC8,
            0xC9, 0xCA, 0xCB, 0xCC, 0xCD, 0xCE, 0xCF, 0xFF));
        break;
    case MAP_0F38: case MAP_0F3A:
        append_legacy_prefixes(made);
        append(made, 0x0F), append(made, format == MAP_0F38 ? 0x38 : 0x3A), append(made, (uint8_t)below(256));
        break;
    default:
        append_legacy_prefixes(made);
        append(made, ONE_OF(0xC0, 0xC1, 0xC6, 0xC7, 0xD0, 0xD1, 0xD2, 0xD3, 0xD6, 0xD9, 0xDC, 0xDD, 0xDE, 0xDF, 0xF6, 0xF7));
        break;
    }
    fill_rest(made);
    if (format == NOW3D) // a suffix at each place where one can stand
        for (size_t i = made->front + 1; i < ROOM; i++)
            made->bytes[i] = ONE_OF(0x0C, 0x0D, 0x1C, 0x1D, 0x8A, 0x8E, 0x90, 0x94, 0x96, 0x97, 0x9A, 0x9E, 0xA0, 0xA4, 0xA6, 0xA7, 0xAA, 0xAE, 0xB0,
                0xB4, 0xB6, 0xB7, 0xBB, 0xBF);
}

// The same front with another tail.
static void make_like(struct made *made, const struct made *head, enum format format)
{
    *made = *head;
    uint8_t modrm = made->bytes[made->front];
    fill_rest(made);
    if (below(4)) // mod, rm, or both are other ones
        made->bytes[made->front] = (modrm & 0x38) | (made->bytes[made->front] & 0xC7);
    if (format == NOW3D)
        for (size_t i = made->front + 1; i < ROOM; i++)
            made->bytes[i] = head->bytes[made->front + 1 + below(ROOM - (unsigned)made->front - 1)];
}

// What Zydis reads: the length, 0 if nothing, and the address that a relative operand refers to.
struct answer {
    int length, has_address;
    uint64_t address;
    ZydisMnemonic mnemonic;
};

static uint64_t base_of(int bits) { return bits == 16 ? 0x4000 : 0x400000; }

static uint64_t wrapped(uint64_t address, int bits) { return bits == 64 ? address : address & ((1ULL << bits) - 1); }

static struct answer by_zydis(const ZydisDecoder *decoders, const struct made *made)
{
    ZydisDecodedInstruction instruction;
    ZydisDecodedOperand operands[ZYDIS_MAX_OPERAND_COUNT];
    struct answer answer = {0, 0, 0, ZYDIS_MNEMONIC_INVALID};
    if (!ZYAN_SUCCESS(ZydisDecoderDecodeFull(&decoders[made->bits / 32], made->bytes, LONGEST, &instruction, operands)))
        return answer;
    answer.length = instruction.length;
    answer.mnemonic = instruction.mnemonic;
    for (int i = 0; i < instruction.operand_count && !answer.has_address; i++) {
        const ZydisDecodedOperand *operand = &operands[i];
        int at_rip = operand->type == ZYDIS_OPERAND_TYPE_MEMORY
            && (operand->mem.base == ZYDIS_REGISTER_RIP || operand->mem.base == ZYDIS_REGISTER_EIP);
        int branch = operand->type == ZYDIS_OPERAND_TYPE_IMMEDIATE && operand->imm.is_relative;
        ZyanU64 target;
        if ((at_rip || branch) && ZYAN_SUCCESS(ZydisCalcAbsoluteAddress(&instruction, operand, base_of(made->bits), &target))) {
            answer.has_address = 1;
            answer.address = wrapped(target, made->bits);
        }
    }
    return answer;
}

static void tell(const struct made *made, const struct answer *zydis, int length)
{
    printf("differs: %d ", made->bits);
    for (int i = 0; i < LONGEST; i++)
        printf("%02x", made->bytes[i]);
    printf(" zydis %d %s, library %d\n", zydis->length, ZydisMnemonicGetString(zydis->mnemonic), length);
}

// The address that a shape refers to.
static uint64_t target_of(const struct made *made, int length, const feddurzai_shape *shape)
{
    uint64_t target = base_of(made->bits) + (uint64_t)length + (uint64_t)shape->distance;
    int bits = shape->reference == FEDDURZAI_REFERENCE_RIP ? 64 : shape->reference == FEDDURZAI_REFERENCE_EIP ? 32 : made->bits;
    return wrapped(target, bits);
}

static void note_neither(struct tally *tally, ZydisMnemonic mnemonic)
{
    const char *name = ZydisMnemonicGetString(mnemonic);
    tally->neither++;
    for (size_t i = 0; i < tally->neither_count; i++)
        if (strcmp(tally->neither_names[i], name) == 0)
            return;
    if (tally->neither_count < MOST_NAMES)
        snprintf(tally->neither_names[tally->neither_count++], sizeof tally->neither_names[0], "%s", name);
}

static void compare(const struct made *made, const struct answer *zydis, struct tally *tally)
{
    feddurzai_shape shape;
    feddurzai_instr instr;
    int length = feddurzai_measure((uint32_t)made->bits, made->bytes, LONGEST, &shape);
    tally->read++;
    if (zydis->mnemonic == ZYDIS_MNEMONIC_JKZD || zydis->mnemonic == ZYDIS_MNEMONIC_JKNZD) {
        tally->unlike++;
        return;
    }
    if (length < 0) {
        length = feddurzai_decode((uint32_t)made->bits, base_of(made->bits), made->bytes, LONGEST, &instr);
        if (length < 0)
            note_neither(tally, zydis->mnemonic);
        else if (length == zydis->length)
            tally->listed++;
        else
            tally->differences++, tell(made, zydis, length);
        return;
    }
    tally->measured++;
    int has_address = shape.reference != FEDDURZAI_REFERENCE_NONE;
    tally->addresses += (uint64_t)has_address;
    if (length != zydis->length || has_address != zydis->has_address
        || (has_address && target_of(made, length, &shape) != zydis->address))
        tally->differences++, tell(made, zydis, length);
}

static uint64_t compare_format(const ZydisDecoder *decoders, enum format format, uint64_t count)
{
    struct made *heads = malloc(MOST_HEADS * sizeof *heads);
    struct tally tally = {0};
    size_t known = 0;
    if (heads == NULL)
        exit(2);
    while (tally.read < count) {
        struct made made;
        int anew = known == 0 || below(8) == 0;
        if (anew)
            make_random(&made, format);
        else
            make_like(&made, &heads[below((unsigned)known)], format);
        struct answer zydis = by_zydis(decoders, &made);
        tally.made++;
        if (zydis.length == 0)
            continue;
        if (anew)
            heads[known < MOST_HEADS ? known++ : below(MOST_HEADS)] = made;
        compare(&made, &zydis, &tally);
    }
    printf("%s: %" PRIu64 " made, %" PRIu64 " read by Zydis: %" PRIu64 " measured (%" PRIu64 " with an address), %" PRIu64 " of the table, %" PRIu64
           " JKZD and JKNZD, %" PRIu64 " neither; %" PRIu64 " differences\n",
        NAMES[format], tally.made, tally.read, tally.measured, tally.addresses, tally.listed, tally.unlike, tally.neither, tally.differences);
    for (size_t i = 0; i < tally.neither_count; i++)
        printf("%s%s", i ? " " : "  neither measured nor in the table: ", tally.neither_names[i]);
    printf(tally.neither_count ? "\n" : "");
    fflush(stdout);
    free(heads);
    return tally.differences;
}

int main(int argc, char **argv)
{
    ZydisDecoder decoders[3];
    uint64_t differences = 0;
    if (argc < 2 || argc > 3) {
        fprintf(stderr, "usage: %s COUNT [SEED]\n", argv[0]);
        return 2;
    }
    state = argc == 3 ? strtoull(argv[2], NULL, 10) * 2 + 1 : 1;
    ZydisDecoderInit(&decoders[0], ZYDIS_MACHINE_MODE_LONG_COMPAT_16, ZYDIS_STACK_WIDTH_16);
    ZydisDecoderInit(&decoders[1], ZYDIS_MACHINE_MODE_LONG_COMPAT_32, ZYDIS_STACK_WIDTH_32);
    ZydisDecoderInit(&decoders[2], ZYDIS_MACHINE_MODE_LONG_64, ZYDIS_STACK_WIDTH_64);
    for (int format = 0; format < FORMATS; format++)
        differences += compare_format(decoders, (enum format)format, strtoull(argv[1], NULL, 10));
    return differences != 0;
}

/*
 * Feddurzai: decodes, encodes, prints, analyses and relocates x86 machine code (16, 32 and 64-bit).
 *
 * The functions are proved: each meets a definition that a person can read (crates/c_calls/specs), for every value of
 * its arguments. Any argument out of range produces a negative status and never undefined behaviour. capi/README.md
 * says what is proved and what is only tested.
 *
 * The caller must ensure three things that no function can check:
 *  - A pointer that comes with a length points to at least that many elements. It may be NULL if the length is 0.
 *  - A pointer to a struct points to a struct of this header.
 *  - Memory that a call writes does not overlap another argument of that call, and no other thread accesses it while
 *    the call runs.
 *
 * A NULL pointer that is not allowed yields FEDDURZAI_NULL. The inline functions at the end of this header check for it
 * and replace the library's functions. A caller that bypasses them (dlsym, another language) must not pass NULL.
 *
 * Buffers belong to the caller. A buffer is a pointer and the number of its elements: `out` and `room`, for example.
 * The library owns nothing and returns no pointers.
 *
 * Both libraries have unwind information, also below malloc, realloc and free, so that debuggers, profilers and
 * backtrace() find the callers. It is made after the compiler (capi/unwind.py); it is tested, not proved.
 *
 * Threads: the library has no global state and takes no locks, so any number of threads may call it at once.
 *
 * Memory: feddurzai_move, feddurzai_move_outside, feddurzai_move_unlisted, feddurzai_move_blocks, feddurzai_step,
 * feddurzai_step_call, feddurzai_flow, feddurzai_flow_from, feddurzai_flow_unlisted, feddurzai_look, feddurzai_format,
 * feddurzai_format_code, feddurzai_assemble_code, feddurzai_assemble_code_near and all feddurzai_detour functions call
 * malloc, realloc and free, and free all that they allocate before they return. All other functions allocate nothing and
 * may be called from a signal handler or from a hook of malloc.
 *
 * The header is C99 and C++. Numbers are in the machine's byte order. Lengths and sizes are in bytes. "SDM" is the
 * Intel 64 and IA-32 Architectures Software Developer's Manual; sections are of its volume 2 if no volume is named. The
 * indented examples are compiled and run by capi/tests/header_examples.c, which declares the variables that they use.
 */
#ifndef FEDDURZAI_H
#define FEDDURZAI_H

#include <stddef.h>
#include <stdint.h>

#ifdef __cplusplus
extern "C" {
#endif

/* ---- versions ---------------------------------------------------------------------------------------------- */

/* The interface that this header declares. It rises when a struct, a number or a function changes. */
#define FEDDURZAI_INTERFACE 12

/*
 * Returns the interface of the linked library. If it is not FEDDURZAI_INTERFACE, the library does not match this
 * header.
 *
 *     if (feddurzai_interface() != FEDDURZAI_INTERFACE)
 *         return 1;
 */
uint32_t feddurzai_interface(void);

/*
 * Returns the version of the library, which is also the program's: major << 16 | minor << 8 | patch. A library that was
 * built without proofs, for the development of bindings (capi/build.sh --unproved), has the bit FEDDURZAI_UNPROVED too.
 */
uint32_t feddurzai_version(void);
#define FEDDURZAI_UNPROVED 0x80000000u

/* ---- refusals ---------------------------------------------------------------------------------------------- */

/*
 * Statuses. A function that returns int32_t returns 0 or more on success and one of these on refusal.
 *
 * After a refusal the function has written nothing, with one exception: feddurzai_assemble_code,
 * feddurzai_assemble_code_near, feddurzai_move, feddurzai_move_outside, feddurzai_move_unlisted, feddurzai_move_blocks,
 * feddurzai_step, feddurzai_step_call, feddurzai_step_unlisted, feddurzai_detour, feddurzai_detour_unlisted,
 * feddurzai_detour_with, feddurzai_detour_endbr and feddurzai_detour_padding always write their report, unless they return
 * FEDDURZAI_NULL.
 *
 * If several refusals apply, the function returns the first in the order of its comment. FEDDURZAI_NULL precedes all
 * others. Every function that takes a pointer can return it, so the comments do not repeat it.
 */
enum {
    FEDDURZAI_BAD_MODE = -1,        /* bits is not 16, 32 or 64 */
    FEDDURZAI_BAD_SYNTAX = -2,      /* the style is not FEDDURZAI_INTEL, FEDDURZAI_ATT or FEDDURZAI_MASM */
    FEDDURZAI_BAD_CODE = -3,        /* no row of the table has this code */
    FEDDURZAI_BAD_INSTR = -4,       /* the struct is not an instruction: a field holds a number that means nothing */
    FEDDURZAI_BAD_FORM = -5,        /* the operands do not match the row, or no row has the code */
    FEDDURZAI_NO_ROOM = -6,         /* a buffer is too small */
    FEDDURZAI_INVALID = -7,         /* no instruction begins with these bytes, whatever follows them */
    FEDDURZAI_TOO_SHORT = -8,       /* the bytes end before the instruction does */
    FEDDURZAI_NO_NAME = -9,         /* no row has this name and number, no feature this bit, no operand this index */
    FEDDURZAI_NO_MEMORY = -10,      /* malloc returned NULL */
    FEDDURZAI_TOO_LARGE = -11,      /* more than FEDDURZAI_MAX_CODE bytes (feddurzai_flow_from: FEDDURZAI_MAX_FLOW) */
    FEDDURZAI_TOO_MANY = -12,       /* more than FEDDURZAI_MAX_MOVED instructions */
    FEDDURZAI_WRAPS = -13,          /* the old or the new code extends past the address space of the mode */
    FEDDURZAI_TOO_FAR = -14,        /* an instruction cannot reach its target from its new address */
    FEDDURZAI_NULL = -15,           /* NULL for a struct, or with a length above 0; only this header returns it */
    FEDDURZAI_NO_TEXT = -16,        /* no instruction that can be encoded at the address has this text */
    FEDDURZAI_NO_REGISTER = -17,    /* no register has this class and number; no prefix names this segment */
    FEDDURZAI_BAD_JUMP = -18,       /* the form is not one of FEDDURZAI_JUMP_SHORT .. FEDDURZAI_CALL_FAR */
    FEDDURZAI_BAD_START = -19,      /* start is not one of the two numbers that the function takes */
    FEDDURZAI_SMALL = -20,          /* the function is shorter than the jump */
    FEDDURZAI_ENDS = -21,           /* control ends within the overwritten bytes, and other code follows there */
    FEDDURZAI_ENTERED = -22,        /* control may enter the overwritten bytes after the first one;
                                       feddurzai_detour_with: or go back to the first one in mid-function */
    FEDDURZAI_BAD_BLOCK = -23,      /* a block is not inside the given bytes */
    FEDDURZAI_BAD_REGION = -24,     /* the numbers describe no region, or its blocks are unordered, outside it, or not in
                                       units of 16 bytes */
    FEDDURZAI_EMPTY = -25,          /* 0 bytes were requested */
    FEDDURZAI_FULL = -26,           /* no gap of the region is long enough */
    FEDDURZAI_NOT_LIVE = -27,       /* no live block starts at this address */
    FEDDURZAI_UNSEEN = -28,         /* control cannot be followed through the whole function */
    FEDDURZAI_OVERLAPS = -29,       /* the trampoline would lie in the bytes of the function */
    FEDDURZAI_CALLS = -30,          /* a moved call would hand an address in the trampoline to what it calls */
    FEDDURZAI_PADDING = -31,        /* the padding in front of the function has too few bytes, or other code */
    FEDDURZAI_BAD_OPTIONS = -32,    /* a number of the options names no choice */
    FEDDURZAI_BAD_NAMES = -33,      /* a line of the names is no name with a number */
    FEDDURZAI_TOO_MANY_LABELS = -34, /* a text has more than FEDDURZAI_MAX_MOVED labels */
    FEDDURZAI_NO_SIZE = -35,        /* addresses of several sizes fit the text, and no operand tells which: write byte, word .. */
    FEDDURZAI_BAD_DATA = -36,       /* data has what is no number that fits, and no string */
    FEDDURZAI_UNKNOWN = -37,        /* no line has a label of this name */
    FEDDURZAI_TWICE = -38,          /* an earlier line has a label of the same name */
    FEDDURZAI_UNPLACED = -39,       /* a label that is used follows the last of FEDDURZAI_MAX_MOVED instructions and bytes */
    FEDDURZAI_UNFIT = -40,          /* the address of a label does not fit where it stands */
    FEDDURZAI_BAD_ALIGNMENT = -41,  /* an alignment is no power of two from 1 to 4096 */
    FEDDURZAI_UNSETTLED = -42,      /* the addresses of the labels did not settle in 16 rounds (docs/assembler.md) */
    FEDDURZAI_BAD_LABEL = -43       /* a label is a register or another word of an operand, a mnemonic or a prefix */
    /* -256 and below: the instruction has no encoding, see FEDDURZAI_CAUSE */
};

/*
 * Decode a status of -256 or below: why feddurzai_encode, feddurzai_encoded_len or feddurzai_jump finds no encoding.
 *
 * An instruction that has an encoding meets ten conditions (docs/plain-spellings.md). The cause is the first that
 * fails, in the order of the numbers below. FEDDURZAI_CAUSE gives it, and 0 for every other refusal; `said` is the
 * status, a negative number. FEDDURZAI_CAUSE_OPERAND gives the first operand that fails the condition, 0 to 3:
 *  - Causes _KIND to _TARGET concern an operand. _MEMORY and _DISPLACEMENT concern the memory operand. _TARGET concerns
 *    the near target or the memory operand at RIP or EIP. No row has two operands of these kinds.
 *  - Equal vector registers of a gather are reported as operand 0 (_REGISTER).
 *  - The other causes concern the whole instruction; their operand is 0.
 *
 * Some decoded instructions have no encoding at their own address, because the shortest encoding no longer reaches the
 * target. 2e 2e 74 7f is a short branch with a repeated prefix. Without the repetition it has 3 bytes, and its target
 * is 128 bytes past their end, which 8 bits cannot hold. Keep such bytes as they are.
 *
 *     int32_t said = feddurzai_decode(64, 0x1000, (const uint8_t *)"\x2e\x2e\x74\x7f", 4, &instr);
 *     said = feddurzai_encoded_len(64, 0x1000, &instr);
 *     if (FEDDURZAI_CAUSE(said) == FEDDURZAI_CAUSE_TARGET)
 *         printf("operand %d is out of reach\n", (int)FEDDURZAI_CAUSE_OPERAND(said));
 */
#define FEDDURZAI_CAUSE(said) ((-(said)) >> 8)      /* 0 for any other refusal */
#define FEDDURZAI_CAUSE_OPERAND(said) ((-(said)) & 255)
enum {
    FEDDURZAI_CAUSE_ROW = 1,            /* no row of the table that exists in the mode has the code */
    FEDDURZAI_CAUSE_KIND = 2,           /* an operand is of a kind that the row does not take there */
    FEDDURZAI_CAUSE_REGISTER = 3,       /* a register cannot be encoded there */
    FEDDURZAI_CAUSE_MEMORY = 4,         /* base, index and scale are not an address of the mode */
    FEDDURZAI_CAUSE_DISPLACEMENT = 5,   /* the address has no displacement of this width or value */
    FEDDURZAI_CAUSE_IMMEDIATE = 6,      /* an immediate does not fit its size */
    FEDDURZAI_CAUSE_TARGET = 7,         /* a near, RIP or EIP target is out of reach */
    FEDDURZAI_CAUSE_PREFIX = 8,         /* LOCK or a repeat prefix is not allowed */
    FEDDURZAI_CAUSE_ADDRESS_SIZE = 9,   /* the address size is missing, superfluous, or not that of the operand */
    FEDDURZAI_CAUSE_LENGTH = 10         /* the encoding would have more than 15 bytes */
};

/* ---- instructions ------------------------------------------------------------------------------------------ */

#define FEDDURZAI_MAX_LEN 15    /* the longest instruction, in bytes */
#define FEDDURZAI_MAX_TEXT 161  /* the longest text of this library with its terminating 0, in bytes */
#define FEDDURZAI_MAX_PIECES 40 /* the most pieces of a text */
#define FEDDURZAI_CODES 2083    /* the number of rows of the table: codes are 0 to 2082 */

/* The kind of an operand, and the fields of feddurzai_operand that it uses. */
enum {
    FEDDURZAI_NONE = 0,         /* no operand; none follows it either */
    FEDDURZAI_REGISTER = 1,     /* reg_class, reg_number */
    FEDDURZAI_MEMORY = 2,       /* base: reg_class, reg_number; index_class, index_number, scale, disp_bits, value */
    FEDDURZAI_IMMEDIATE = 3,    /* value; a sign-extended immediate is truncated to the operand size */
    FEDDURZAI_NEAR = 4,         /* value: the absolute address of a near branch */
    FEDDURZAI_FAR = 5           /* selector, offset */
};

/* The class of a register, and the meaning and range of its number (SDM volume 1, 3.4 and 3.7.2.1). */
enum {
    FEDDURZAI_NO_REG = 0,   /* no base or no index; the number is 0 */
    FEDDURZAI_LOW8 = 1,     /* AL CL DL BL SPL BPL SIL DIL R8B .. R15B: 0 to 15 */
    FEDDURZAI_HIGH8 = 2,    /* AH CH DH BH: 0 to 3 */
    FEDDURZAI_R16 = 3,      /* AX CX DX BX SP BP SI DI R8W .. R15W: 0 to 15 */
    FEDDURZAI_R32 = 4,      /* EAX to R15D: 0 to 15 */
    FEDDURZAI_R64 = 5,      /* RAX to R15: 0 to 15 */
    FEDDURZAI_SEG = 6,      /* ES CS SS DS FS GS: 0 to 5 */
    FEDDURZAI_CR = 7,       /* control registers: 0 to 15 */
    FEDDURZAI_DR = 8,       /* debug registers: 0 to 7 */
    FEDDURZAI_ST = 9,       /* the x87 stack: 0 to 7 */
    FEDDURZAI_MM = 10,      /* MMX registers: 0 to 7 */
    FEDDURZAI_XMM = 11,     /* 0 to 15 */
    FEDDURZAI_YMM = 12,     /* 0 to 15 */
    FEDDURZAI_EIP = 13,     /* as a base; the number is 0 */
    FEDDURZAI_RIP = 14      /* as a base; the number is 0 */
};

/* The numbers of the general registers without a REX prefix. */
enum {
    FEDDURZAI_AX = 0, FEDDURZAI_CX = 1, FEDDURZAI_DX = 2, FEDDURZAI_BX = 3,
    FEDDURZAI_SP = 4, FEDDURZAI_BP = 5, FEDDURZAI_SI = 6, FEDDURZAI_DI = 7
};

/* Segment prefixes; 0 means none. These are not the numbers of the class FEDDURZAI_SEG, which begin at 0 (SDM 2.1.1). */
enum {
    FEDDURZAI_ES = 1, FEDDURZAI_CS = 2, FEDDURZAI_SS = 3, FEDDURZAI_DS = 4, FEDDURZAI_FS = 5, FEDDURZAI_GS = 6
};

/* Repeat prefixes; 0 means none (SDM 2.1.1). */
enum { FEDDURZAI_REPNE = 0xF2, FEDDURZAI_REP = 0xF3 };

/*
 * As `disp_bits`: lets feddurzai_encode and feddurzai_encoded_len choose the shortest displacement that the address
 * has. Every other function refuses a struct with this value (FEDDURZAI_BAD_INSTR).
 */
#define FEDDURZAI_DISP_SHORTEST 255

/*
 * An operand. Fields that the kind does not use are 0 in what the library writes, and ignored in what it reads.
 *
 * A displacement is sign-extended and then truncated to the address size. With the base RIP or EIP it is the absolute
 * address of the operand (SDM 2.2.1.6).
 */
typedef struct feddurzai_operand {
    uint64_t value;         /* immediate, near target, or displacement */
    uint32_t offset;        /* of a far pointer */
    uint16_t selector;      /* of a far pointer */
    uint8_t kind;           /* FEDDURZAI_NONE .. FEDDURZAI_FAR */
    uint8_t reg_class;      /* of the register, or of the base: FEDDURZAI_LOW8 .. */
    uint8_t reg_number;     /* of the register, or of the base */
    uint8_t index_class;    /* FEDDURZAI_NO_REG without an index */
    uint8_t index_number;
    uint8_t scale;          /* 1, 2, 4 or 8; 1 without an index */
    uint8_t disp_bits;      /* encoded width of the displacement: 0, 8, 16, 32 or 64, or FEDDURZAI_DISP_SHORTEST */
} feddurzai_operand;

/*
 * An instruction. Every function reads the struct that feddurzai_decode fills as the same instruction.
 *
 * To make one, set all bytes to 0; then set `code` (FEDDURZAI_CODE_.. or feddurzai_code_of) and the operands:
 *
 *     memset(&instr, 0, sizeof instr);
 *     instr.code = FEDDURZAI_CODE_PUSH_R64;
 *     instr.ops[0].kind = FEDDURZAI_REGISTER;
 *     instr.ops[0].reg_class = FEDDURZAI_R64;
 *     instr.ops[0].reg_number = 8;
 *     len = feddurzai_encode(64, 0, &instr, bytes, sizeof bytes);        // 2: 41 50, push r8
 *
 * A memory operand needs more than kind, base and index: `scale`, which is 1 also without an index; `disp_bits` if it
 * has a displacement (8, or the 16 or 32 of the address size; 0 encodes none); and the instruction's `asize`: the size
 * of the base and index, or without a general register there the wanted address size, usually that of the mode. With
 * the base RIP, `value` is the address of the operand, `disp_bits` is 32 and `asize` 64.
 *
 *     memset(&instr, 0, sizeof instr);
 *     instr.code = FEDDURZAI_CODE_MOV_RM64_R64;
 *     instr.asize = 64;
 *     instr.ops[0].kind = FEDDURZAI_MEMORY;
 *     instr.ops[0].reg_class = FEDDURZAI_R64;
 *     instr.ops[0].reg_number = FEDDURZAI_SP;
 *     instr.ops[0].scale = 1;
 *     instr.ops[0].value = 0x10;
 *     instr.ops[0].disp_bits = FEDDURZAI_DISP_SHORTEST;
 *     instr.ops[1].kind = FEDDURZAI_REGISTER;
 *     instr.ops[1].reg_class = FEDDURZAI_R64;
 *     instr.ops[1].reg_number = FEDDURZAI_BX;
 *     len = feddurzai_encode(64, 0, &instr, bytes, sizeof bytes);        // 5: 48 89 5c 24 10, mov qword [rsp+0x10], rbx
 */
typedef struct feddurzai_instr {
    feddurzai_operand ops[4];
    uint16_t code;          /* the row of the table, 0 to 2082 */
    uint8_t len;            /* the number of bytes that were decoded; no function reads it */
    uint8_t lock;           /* 1 with LOCK, else 0 */
    uint8_t rep;            /* FEDDURZAI_REP, FEDDURZAI_REPNE or 0 */
    uint8_t segment;        /* FEDDURZAI_ES .. FEDDURZAI_GS, or 0 */
    uint8_t asize;          /* 16, 32 or 64 if the instruction has a memory operand or uses an address size, else 0 */
} feddurzai_instr;

/*
 * Decodes the instruction at the front of `bytes` (SDM 2.1 to 2.3).
 *
 *  - bits: the mode, 16, 32 or 64.
 *  - ip: the address of the first byte, taken modulo 2^bits. Near targets and operands at RIP depend on it.
 *  - bytes, len: the code. At most the first 15 bytes matter, so `len` may be as large as the memory allows.
 *  - instr: receives the instruction.
 *
 * Returns the length of the instruction, 1 to 15, or FEDDURZAI_BAD_MODE, _INVALID, _TOO_SHORT; then *instr is
 * unchanged.
 *
 *     int32_t len = feddurzai_decode(64, 0x1000, (const uint8_t *)"\x48\x89\x5c\x24\x10", 5, &instr);
 *     if (len > 0 && feddurzai_text(64, FEDDURZAI_INTEL, &instr, text, sizeof text) >= 0)
 *         puts(text);                                                    // mov qword [rsp+0x10], rbx
 */
int32_t feddurzai_decode(uint32_t bits, uint64_t ip, const uint8_t *bytes, size_t len, feddurzai_instr *instr);

/* A part of an instruction: the offset of its first byte from the front, and its length in bytes, 0 if it is absent. */
typedef struct feddurzai_part {
    uint8_t at;
    uint8_t len;
} feddurzai_part;

/*
 * The parts of an instruction in the order of its bytes (SDM 2.1, figure 2-1). Multi-byte numbers have their lowest
 * byte first. An absent part has the offset at which it would begin.
 */
typedef struct feddurzai_byte_offsets {
    feddurzai_part prefixes;        /* legacy prefixes and REX */
    feddurzai_part lead;            /* VEX, or the escape bytes 0F, 0F 38 or 0F 3A */
    feddurzai_part opcode;
    feddurzai_part modrm;
    feddurzai_part sib;
    feddurzai_part displacement;    /* also the absolute address of a MOV of the accumulator */
    feddurzai_part immediates[4];   /* by operand: its immediate, the offset of a near branch, a far pointer (its offset,
                                       then the selector), or the byte that names a vector register */
} feddurzai_byte_offsets;

/*
 * Finds the parts of the instruction at the front of `bytes`. `bits`, `bytes` and `len` are as in feddurzai_decode; no
 * address is needed. `parts` receives the offsets.
 *
 * Returns the length of the instruction, 1 to 15, or FEDDURZAI_BAD_MODE, _INVALID, _TOO_SHORT; then *parts is
 * unchanged.
 *
 *     len = feddurzai_offsets(64, (const uint8_t *)"\x48\x89\x5c\x24\x10", 5, &parts);
 *     printf("displacement: %d byte at %d\n", parts.displacement.len, parts.displacement.at);    // 1 byte at 4
 */
int32_t feddurzai_offsets(uint32_t bits, const uint8_t *bytes, size_t len, feddurzai_byte_offsets *parts);

/* The kind of an instruction that the opcode table leaves out: a number of feddurzai_shape.kind. */
enum {
    FEDDURZAI_KIND_EVEX = 0,
    FEDDURZAI_KIND_MASK = 1,            /* a VEX with an opcode byte of the mask registers */
    FEDDURZAI_KIND_VEX = 2,             /* any other VEX */
    FEDDURZAI_KIND_XOP = 3,
    FEDDURZAI_KIND_NOW3D = 4,           /* 3DNow! */
    FEDDURZAI_KIND_LEGACY = 5
};

/* What the relative number of such an instruction refers to: a number of feddurzai_shape.reference. */
enum {
    FEDDURZAI_REFERENCE_NONE = 0,       /* there is no such number; `distance`, `at` and `size` are 0 */
    FEDDURZAI_REFERENCE_RIP = 1,        /* memory at RIP: 64 bits */
    FEDDURZAI_REFERENCE_EIP = 2,        /* memory at EIP, in 64-bit mode after a 67: 32 bits */
    FEDDURZAI_REFERENCE_BRANCH = 3      /* where XBEGIN continues after an abort: the bits of the mode */
};

/*
 * The shape of an instruction that the opcode table leaves out. The address that its relative number refers to is the
 * address after the instruction plus `distance`, modulo 2 to the bits of `reference`.
 */
typedef struct feddurzai_shape {
    int64_t distance;   /* the number, sign-extended */
    uint8_t kind;       /* FEDDURZAI_KIND_EVEX .. */
    uint8_t reference;  /* FEDDURZAI_REFERENCE_NONE .. */
    uint8_t at;         /* the offset of the number in the instruction */
    uint8_t size;       /* how many bytes the number has: 4, or 2 in an XBEGIN with 16-bit operands */
} feddurzai_shape;

/*
 * Measures the instruction at the front of `bytes` if the opcode table leaves it out, by its encoding format alone:
 * EVEX, VEX, XOP, 3DNow!, and some legacy opcodes (SDM 2.3, 2.7, appendix A; docs/unlisted.md lists them). Whether a
 * processor has the instruction is not checked. XBEGIN, JKZD and JKNZD branch, RSM, UIRET, ERETS and ERETU return, and
 * some go elsewhere: docs/unlisted.md lists them. `bits`, `bytes` and `len` are as in feddurzai_decode; no address is
 * needed. `shape` receives the shape.
 *
 * Returns the length of the instruction, 1 to 15, or FEDDURZAI_BAD_MODE, _TOO_SHORT (fewer than 15 bytes, which end
 * inside an encoding that is measured), _INVALID (no such encoding begins there, or an instruction of the table does);
 * then *shape is unchanged.
 *
 *     // vpxord zmm0, zmm0, [rip+0x10]
 *     len = feddurzai_measure(64, (const uint8_t *)"\x62\xf1\x7d\x48\xef\x05\x10\x00\x00\x00", 10, &shape);
 *     // len is 10, shape.reference FEDDURZAI_REFERENCE_RIP, shape.at 6 and shape.distance 16
 */
int32_t feddurzai_measure(uint32_t bits, const uint8_t *bytes, size_t len, feddurzai_shape *shape);

/* The `code` of an item of feddurzai_decode_many at which no instruction begins. No row has these codes. */
enum {
    FEDDURZAI_CODE_TOO_SHORT = 0xFFFE,  /* the bytes end before the instruction does */
    FEDDURZAI_CODE_INVALID = 0xFFFF     /* no instruction begins with the bytes there */
};

/*
 * Decodes many instructions in one call: walks through `bytes` and fills one struct after another.
 *
 *  - bits, ip: the mode, and the address of the first byte, as in feddurzai_decode.
 *  - bytes, len: the code.
 *  - instrs, room: receive the items. One call fills at most 67108864 structs.
 *  - count: receives the number of structs that were filled.
 *
 * The call ends when the bytes or the structs do. An item's `len` is its length, and the next item begins after it.
 * Where no instruction begins, the item is a single byte: `len` is 1, `code` one of the two above, and all else 0.
 * Every other function refuses that struct. A caller that receives its code in pieces stops at the first
 * FEDDURZAI_CODE_TOO_SHORT, and continues there when it has more bytes.
 *
 * Returns the number of bytes that the items take: the next call begins after them. Or FEDDURZAI_BAD_MODE; then *count
 * is unchanged.
 *
 *     size_t count;
 *     int32_t taken = feddurzai_decode_many(64, 0x1000, (const uint8_t *)"\x90\x06\xc3", 3, instrs, 16, &count);
 *     // taken is 3, count is 3, and instrs[1].code is FEDDURZAI_CODE_INVALID: 06 begins no instruction of 64-bit code
 */
int32_t feddurzai_decode_many(uint32_t bits, uint64_t ip, const uint8_t *bytes, size_t len, feddurzai_instr *instrs,
    size_t room, size_t *count);

/* The style of a text. docs/texts.md describes the three. */
enum {
    FEDDURZAI_INTEL = 0,    /* mov qword [rsp+0x10], rbx */
    FEDDURZAI_ATT = 1,      /* movq %rbx, 0x10(%rsp) */
    FEDDURZAI_MASM = 2      /* mov qword ptr [rsp+10h], rbx */
};

/*
 * Writes the text of an instruction.
 *
 *  - bits: the mode. It decides which address and operand sizes the text names.
 *  - syntax: FEDDURZAI_INTEL, FEDDURZAI_ATT or FEDDURZAI_MASM.
 *  - instr: the instruction. Near targets and operands at RIP print as absolute addresses, also in AT&T style.
 *  - out, room: receive the text, ASCII, with a terminating 0. FEDDURZAI_MAX_TEXT bytes are always enough.
 *
 * Returns the length of the text without the 0, or FEDDURZAI_BAD_MODE, _BAD_SYNTAX, _BAD_INSTR, _BAD_FORM, _NO_ROOM.
 *
 *     len = feddurzai_text(64, FEDDURZAI_ATT, &instr, text, sizeof text);     // 21: movq %rbx, 0x10(%rsp)
 */
int32_t feddurzai_text(uint32_t bits, uint32_t syntax, const feddurzai_instr *instr, char *out, size_t room);

/* What a piece of a text is: a number of feddurzai_piece.kind. */
enum {
    FEDDURZAI_PIECE_PREFIX = 0,         /* lock, rep, a32 */
    FEDDURZAI_PIECE_MNEMONIC = 1,
    FEDDURZAI_PIECE_REGISTER = 2,       /* also a segment before an address; in AT&T style with its % */
    FEDDURZAI_PIECE_KEYWORD = 3,        /* another word of an operand: dword, ptr, far32, rel */
    FEDDURZAI_PIECE_NUMBER = 4,         /* with its 0x or h */
    FEDDURZAI_PIECE_OPERATOR = 5,       /* + - * in an address; in AT&T style also $, and * before an operand */
    FEDDURZAI_PIECE_PUNCTUATION = 6,    /* a comma, a colon, a bracket or a parenthesis */
    FEDDURZAI_PIECE_SPACE = 7
};

/* What a number of a text is there for: feddurzai_piece.role. */
enum {
    FEDDURZAI_ROLE_IMMEDIATE = 1,
    FEDDURZAI_ROLE_DISPLACEMENT = 2,    /* beside a base or an index */
    FEDDURZAI_ROLE_SCALE = 3,
    FEDDURZAI_ROLE_TARGET = 4,          /* of a near branch */
    FEDDURZAI_ROLE_ADDRESS = 5,         /* of an operand with neither base nor index, or at RIP or EIP */
    FEDDURZAI_ROLE_SELECTOR = 6,        /* of a far pointer */
    FEDDURZAI_ROLE_OFFSET = 7           /* of a far pointer */
};

#define FEDDURZAI_NO_OPERAND 255        /* the piece belongs to no operand */

/* A piece of a text: the characters from `start` up to `end`, which is not included. */
typedef struct feddurzai_piece {
    uint64_t value;     /* of a number, else 0; of a displacement with a minus before it, the whole displacement */
    uint8_t start;
    uint8_t end;
    uint8_t kind;       /* FEDDURZAI_PIECE_PREFIX .. FEDDURZAI_PIECE_SPACE */
    uint8_t operand;    /* 0 to 3, in the manual's order in every style, or FEDDURZAI_NO_OPERAND */
    uint8_t role;       /* of a number: FEDDURZAI_ROLE_IMMEDIATE .. FEDDURZAI_ROLE_OFFSET, else 0 */
    uint8_t width;      /* of a number, in bytes, else 0 */
} feddurzai_piece;

/*
 * Writes the text of an instruction and its pieces, for colours and links.
 *
 *  - bits, syntax, instr: as in feddurzai_text.
 *  - text, room: receive the text of feddurzai_text with its terminating 0.
 *  - pieces, count: receive the pieces. FEDDURZAI_MAX_PIECES are always enough. They cover the text without a gap, and
 *    none is empty.
 *
 * Returns the number of pieces, or FEDDURZAI_BAD_MODE, _BAD_SYNTAX, _BAD_INSTR, _BAD_FORM, _NO_ROOM.
 *
 *     feddurzai_piece pieces[FEDDURZAI_MAX_PIECES];
 *     feddurzai_decode(64, 0x1000, (const uint8_t *)"\x74\x10", 2, &instr);       // je 0x1012
 *     int32_t count = feddurzai_pieces(64, FEDDURZAI_INTEL, &instr, text, sizeof text, pieces, FEDDURZAI_MAX_PIECES);
 *     if (count == 3 && pieces[2].role == FEDDURZAI_ROLE_TARGET)                  // the mnemonic, a space, the number
 *         printf("to %llx\n", (unsigned long long)pieces[2].value);
 */
int32_t feddurzai_pieces(uint32_t bits, uint32_t syntax, const feddurzai_instr *instr, char *text, size_t room,
    feddurzai_piece *pieces, size_t count);

/* The choices of feddurzai_options. 0 is what feddurzai_text writes. */
enum {
    FEDDURZAI_UPPER_NAMES = 1,          /* letters: prefixes and mnemonics in upper case */
    FEDDURZAI_UPPER_REGISTERS = 2,
    FEDDURZAI_UPPER_KEYWORDS = 3,       /* DWORD PTR */
    FEDDURZAI_UPPER = 4,                /* all of these */
    FEDDURZAI_HEX_PREFIX = 1,           /* digits: 0x2a */
    FEDDURZAI_HEX_SUFFIX = 2,           /* 2Ah */
    FEDDURZAI_DECIMAL = 3,              /* 42 */
    FEDDURZAI_SIGNED = 1,               /* immediates: -0x1 */
    FEDDURZAI_TIGHT = 1,                /* commas: without a space */
    FEDDURZAI_SIZE_IF_NEEDED = 1,       /* size_words: only where no register shows the size */
    FEDDURZAI_RIP_DISTANCE = 1,         /* rip_operands: [rip+0x2ebd] */
    FEDDURZAI_SYMBOL_INSTEAD = 1,       /* symbol_place: in place of the number */
    FEDDURZAI_SYMBOL_COMMENT = 2,       /* at the end of the text, after # and the address */
    FEDDURZAI_SYMBOL_GNU = 3,           /* of a branch target behind the number, of memory at the end */
    FEDDURZAI_GNU_NAMES = 1,            /* names: GNU's names, letters, prefixes and operands of string instructions */
    FEDDURZAI_WRAPPED = 1,              /* distances: [rip+0xffffffffffffdb77] */
    FEDDURZAI_BARE = 1,                 /* absolutes: fs:0x28 */
    FEDDURZAI_NOTE_DISTANCES = 1        /* comments: also of a distance without a symbol */
};

/* How feddurzai_format writes a text. Set all bytes to 0, then the fields that matter. docs/texts.md describes each. */
typedef struct feddurzai_options {
    uint8_t letters;
    uint8_t digits;
    uint8_t immediates;
    uint8_t commas;
    uint8_t size_words;
    uint8_t operand_column;     /* the column of the first operand; at least one space precedes it */
    uint8_t rip_operands;
    uint8_t symbol_place;
    uint8_t names;
    uint8_t distances;
    uint8_t absolutes;
    uint8_t comments;
    uint8_t comment_gap;        /* the spaces in front of a comment, 0 for 2 */
} feddurzai_options;

/* What objdump and GDB write with -M intel, in FEDDURZAI_MASM. */
#define FEDDURZAI_GNU_OPTIONS \
    {FEDDURZAI_UPPER_KEYWORDS, FEDDURZAI_HEX_PREFIX, 0, FEDDURZAI_TIGHT, 0, 7, FEDDURZAI_RIP_DISTANCE, FEDDURZAI_SYMBOL_GNU, \
        FEDDURZAI_GNU_NAMES, FEDDURZAI_WRAPPED, FEDDURZAI_BARE, FEDDURZAI_NOTE_DISTANCES, 8}

/* What they write without, in FEDDURZAI_ATT. */
#define FEDDURZAI_GNU_ATT_OPTIONS \
    {FEDDURZAI_UPPER_KEYWORDS, FEDDURZAI_HEX_PREFIX, 0, FEDDURZAI_TIGHT, 0, 7, FEDDURZAI_RIP_DISTANCE, FEDDURZAI_SYMBOL_GNU, \
        FEDDURZAI_GNU_NAMES, 0, FEDDURZAI_BARE, FEDDURZAI_NOTE_DISTANCES, 8}

/*
 * Writes the text of an instruction by options and with a symbol.
 *
 *  - bits, syntax, instr: as in feddurzai_text.
 *  - options: how the text is written, or NULL for the text of feddurzai_text.
 *  - end: the address of the next instruction. It counts only with FEDDURZAI_RIP_DISTANCE.
 *  - name, name_len, offset: the symbol of the address that the instruction names (the near target or the address of
 *    its memory operand, see feddurzai_info), and how far the address lies after the symbol. A name of 0 bytes is none.
 *  - out, room: receive the text with a terminating 0.
 *
 * Returns the length of the text without the 0, or FEDDURZAI_BAD_MODE, _BAD_SYNTAX, _BAD_OPTIONS, _BAD_INSTR, _BAD_FORM,
 * _NO_MEMORY, _TOO_LARGE (2 gigabytes), _NO_ROOM. The call allocates memory.
 *
 *     static const feddurzai_options gnu = FEDDURZAI_GNU_OPTIONS;
 *     feddurzai_decode(64, 0x1000, (const uint8_t *)"\xe8\xfb\x0f\x00\x00", 5, &instr);
 *     len = feddurzai_format(64, FEDDURZAI_MASM, &gnu, &instr, 0x1005, "puts@plt", 8, 0, text, sizeof text);
 *     // call   0x2000 <puts@plt>
 */
int32_t feddurzai_format(uint32_t bits, uint32_t syntax, const feddurzai_options *options, const feddurzai_instr *instr,
    uint64_t end, const char *name, size_t name_len, uint64_t offset, char *out, size_t room);

/*
 * Writes the text of an instruction as feddurzai_format does, with the bytes that it was read from.
 *
 *  - code, code_len: the bytes of the instruction. With FEDDURZAI_GNU_NAMES the text shows prefixes that have no effect,
 *    as in data16 cs nop WORD PTR [rax+rax*1+0x0], and all prefixes in their order. With 0 bytes, or with the manual's
 *    names, the text is that of feddurzai_format.
 *  - the others, and what is returned: as in feddurzai_format.
 *
 *     feddurzai_decode(64, 0x1000, (const uint8_t *)"\x66\x90", 2, &instr);
 *     len = feddurzai_format_code(64, FEDDURZAI_MASM, &gnu, (const uint8_t *)"\x66\x90", 2, &instr, 0x1002, "", 0, 0, text,
 *         sizeof text);
 *     // xchg   ax,ax
 */
int32_t feddurzai_format_code(uint32_t bits, uint32_t syntax, const feddurzai_options *options, const uint8_t *code,
    size_t code_len, const feddurzai_instr *instr, uint64_t end, const char *name, size_t name_len, uint64_t offset,
    char *out, size_t room);

/*
 * Decodes an instruction and writes its text: feddurzai_decode and feddurzai_text in one call. It is faster than the
 * two, since it does not validate a struct. The arguments are those of the two functions; `instr` may be NULL if only
 * the text is wanted.
 *
 * Returns the length of the instruction, 1 to 15, or FEDDURZAI_BAD_MODE, _BAD_SYNTAX, _INVALID, _TOO_SHORT, _NO_ROOM;
 * then *instr is unchanged.
 *
 * The library itself has two functions: feddurzai_line requires a struct, and feddurzai_line_text takes none. This
 * matters to callers that bypass the header (dlsym, another language).
 *
 *     len = feddurzai_line(64, FEDDURZAI_INTEL, 0x1000, (const uint8_t *)"\x74\x10", 2, NULL, text, sizeof text);
 *     // len is 2, and text is je 0x1012
 */
int32_t feddurzai_line(uint32_t bits, uint32_t syntax, uint64_t ip, const uint8_t *bytes, size_t len,
    feddurzai_instr *instr, char *text, size_t room);
int32_t feddurzai_line_text(uint32_t bits, uint32_t syntax, uint64_t ip, const uint8_t *bytes, size_t len, char *text,
    size_t room);

/*
 * Encodes an instruction: writes the shortest bytes that decode to it at address `ip`.
 *
 *  - bits: the mode.
 *  - ip: the address at which the bytes will be placed, taken modulo 2^bits.
 *  - instr: the instruction; its `len` is ignored.
 *  - out, room: receive the bytes. FEDDURZAI_MAX_LEN bytes are always enough.
 *
 * Returns the number of bytes, or FEDDURZAI_BAD_MODE, _BAD_INSTR, a cause (see FEDDURZAI_CAUSE), _NO_ROOM.
 * feddurzai_instr has two examples. docs/plain-spellings.md defines the shortest encoding.
 */
int32_t feddurzai_encode(uint32_t bits, uint64_t ip, const feddurzai_instr *instr, uint8_t *out, size_t room);

/*
 * Returns the number of bytes that feddurzai_encode would write, 1 to 15, or FEDDURZAI_BAD_MODE, _BAD_INSTR, a cause
 * (see FEDDURZAI_CAUSE).
 */
int32_t feddurzai_encoded_len(uint32_t bits, uint64_t ip, const feddurzai_instr *instr);

/*
 * Assembles a text: writes the bytes that an Intel text stands for at address `ip`.
 *
 *  - bits, ip: the mode, and the address of the bytes, as in feddurzai_encode.
 *  - text, len: the text without a terminating 0. It must be exactly as feddurzai_text prints it in FEDDURZAI_INTEL,
 *    with the same spaces and sizes: `mov qword [rsp+0x10], rbx`, `jmp 0x401000`. `push 5` and `jz` are refused.
 *  - out, room: receive the bytes. FEDDURZAI_MAX_LEN bytes are always enough.
 *
 * If several instructions have the text, the call writes the one with the shortest encoding.
 *
 * Returns the number of bytes, or FEDDURZAI_BAD_MODE, _NO_TEXT, _NO_ROOM.
 *
 *     const char *wanted = "je 0x1010";
 *     len = feddurzai_assemble(64, 0x1000, wanted, strlen(wanted), bytes, sizeof bytes);         // 2: 74 0e
 */
int32_t feddurzai_assemble(uint32_t bits, uint64_t ip, const char *text, size_t len, uint8_t *out, size_t room);

/*
 * Reads an Intel text into a struct: the instruction whose bytes feddurzai_assemble writes. `instr->len` receives their
 * number.
 *
 * Returns that number, 1 to 15, or FEDDURZAI_BAD_MODE, _NO_TEXT; then *instr is unchanged.
 */
int32_t feddurzai_read_intel(uint32_t bits, uint64_t ip, const char *text, size_t len, feddurzai_instr *instr);

/* A label of a routine. Its name is the `len` bytes of the text that begin at `offset`. */
typedef struct feddurzai_label {
    uint64_t address;       /* its address; 0 if it has none */
    uint64_t offset;        /* where its name begins in the text */
    uint64_t len;           /* the length of its name */
    uint64_t line;          /* its line, from 1 */
    uint8_t has_address;    /* 1; 0 only for a label behind the last of FEDDURZAI_MAX_MOVED instructions and bytes of data */
} feddurzai_label;

/* What feddurzai_assemble_code and feddurzai_assemble_code_near report. Fields that do not apply are 0. */
typedef struct feddurzai_routine_report {
    uint64_t bytes;         /* the size of the routine, with its slots */
    uint64_t slots;         /* the number of slots of 8 bytes at its end: of addresses that no branch reaches */
    uint64_t labels;        /* the number of its labels */
    uint64_t line;          /* after a refusal: the refused line of the text (FEDDURZAI_BAD_NAMES: of the names), from 1; for
                               _WRAPS the last line with an instruction or data; 0 if no line is the cause */
    uint64_t column;        /* the column of what is refused in a line of the text, from 1, counted in bytes */
    uint64_t at;            /* _TOO_FAR, _UNPLACED: the number of the instruction, from 0; each byte of data counts as one */
    uint64_t address;       /* _TOO_FAR: its target; _WRAPS: the end that is past the address space */
} feddurzai_routine_report;

/*
 * Assembles a routine: lines of instructions, labels and data. No branch is longer than it has to be. In 64-bit mode a
 * branch whose target is out of reach goes through a slot, 8 bytes behind the code with the target: report.slots counts
 * them.
 *
 *  - bits, base: the mode, and the address of the first byte.
 *  - text, len: the lines, each ended by a line feed; the last may lack it. A line has, each optional, a label and a colon;
 *    an instruction in Intel syntax as people write it, data (db, dw, dd, dq), or an alignment (align 16); and a comment from
 *    ; or # on. A label may be named wherever a number stands: as a branch's target, as memory, as data. docs/assembler.md
 *    describes the texts.
 *  - names, names_len: a line for each name with a number, as the address of a function: `puts = 0x401180`.
 *  - code, room: receive the bytes.
 *  - labels, label_room: receive the labels, in the order of their lines.
 *  - report: receives the report. If a buffer is too small, it has the sizes all the same. So call once without buffers, and
 *    again with those of report.bytes bytes and report.labels labels.
 *
 * Returns 0, or FEDDURZAI_BAD_MODE; _BAD_NAMES for the first such line of the names; _TOO_MANY_LABELS; what is wrong with the
 * first refused line of the text: _NO_TEXT (it is not the text of an instruction), _NO_SIZE, _BAD_DATA, _UNKNOWN, _TWICE,
 * _UNFIT, _BAD_ALIGNMENT, _BAD_LABEL, _TOO_MANY (instructions and bytes of data), or a cause (see FEDDURZAI_CAUSE; its operand is always
 * 0); then _UNPLACED, _WRAPS, _TOO_FAR; then _UNSETTLED; and _NO_ROOM. _NO_MEMORY may replace any of those after _BAD_MODE. The call allocates memory.
 *
 *     const char *loop = "again: add eax, ecx\n dec ecx\n jne again ; until it is 0\n ret";
 *     said = feddurzai_assemble_code(64, 0x401000, loop, strlen(loop), NULL, 0, bytes, sizeof bytes, labels, 1, &routine);
 *     // said is 0, routine.bytes is 7: 01 c8 ff c9 75 fa c3. labels[0].address is 0x401000, and its name has 5 bytes
 */
int32_t feddurzai_assemble_code(uint32_t bits, uint64_t base, const char *text, size_t len, const char *names,
    size_t names_len, uint8_t *code, size_t room, feddurzai_label *labels, size_t label_room,
    feddurzai_routine_report *report);

/*
 * Assembles a routine as feddurzai_assemble_code does, without slots: the first branch that would go through one is
 * refused with FEDDURZAI_TOO_FAR, its line and its target. So nothing follows the code and the data.
 *
 *     const char *back = "dec ecx\n jmp start", *start = "start = 0x10";
 *     said = feddurzai_assemble_code_near(64, 0x8000000a, back, strlen(back), start, strlen(start), bytes, sizeof bytes,
 *         labels, 1, &routine);
 *     // said is FEDDURZAI_TOO_FAR, routine.line is 2, routine.column is 2, routine.address is 0x10
 */
int32_t feddurzai_assemble_code_near(uint32_t bits, uint64_t base, const char *text, size_t len, const char *names,
    size_t names_len, uint8_t *code, size_t room, feddurzai_label *labels, size_t label_room,
    feddurzai_routine_report *report);

/* The forms of feddurzai_jump. Lengths are in bytes. */
enum {
    FEDDURZAI_JUMP_SHORT = 1,   /* jmp, 2 bytes: at most 127 bytes forward or 128 back from their end */
    FEDDURZAI_JUMP_NEAR = 2,    /* jmp, 5 bytes (3 in 16-bit code): in 64-bit code at most 2 gigabytes away */
    FEDDURZAI_JUMP_FAR = 3,     /* 64-bit code, 14 bytes: jmp [rip], and the target in the 8 bytes that follow */
    FEDDURZAI_CALL_NEAR = 4,    /* call, 5 bytes (3 in 16-bit code) */
    FEDDURZAI_CALL_FAR = 5      /* 64-bit code, 16 bytes: call [rip+2], a jump over 8 bytes, and the target in these */
};
#define FEDDURZAI_MAX_JUMP 16   /* the longest jump or call, in bytes */

/*
 * Writes a jump to an address, or a call of it. The code changes no register but, for a call, the stack pointer.
 *
 *  - bits: the mode.
 *  - at: the address at which the code will be placed.
 *  - target: the absolute address to jump to or to call.
 *  - form: FEDDURZAI_JUMP_SHORT .. FEDDURZAI_CALL_FAR.
 *  - out, room: receive the code. FEDDURZAI_MAX_JUMP bytes are always enough.
 *
 * Returns the number of bytes, or FEDDURZAI_BAD_MODE, _BAD_JUMP, a cause, _NO_ROOM. The cause is FEDDURZAI_CAUSE_TARGET
 * if the target is out of reach or not an address of the mode, and FEDDURZAI_CAUSE_ROW for a far form outside 64-bit
 * mode.
 *
 *     len = feddurzai_jump(64, 0x1000, 0x1010, FEDDURZAI_JUMP_NEAR, bytes, sizeof bytes);        // 5: e9 0b 00 00 00
 */
int32_t feddurzai_jump(uint32_t bits, uint64_t at, uint64_t target, uint32_t form, uint8_t *out, size_t room);

/*
 * Writes the name of a register with a terminating 0: `rax`, in AT&T style `%rax`. 7 bytes are always enough.
 *
 * Returns the length of the name, or FEDDURZAI_BAD_SYNTAX, _NO_REGISTER (no register has this class and number),
 * _NO_ROOM.
 */
int32_t feddurzai_register_text(uint32_t syntax, uint8_t reg_class, uint8_t reg_number, char *out, size_t room);

/*
 * Writes the name of the segment register of a prefix, FEDDURZAI_ES .. FEDDURZAI_GS, with a terminating 0: `fs`, in
 * AT&T style `%fs`. 7 bytes are always enough.
 *
 * Returns the length of the name, or FEDDURZAI_BAD_SYNTAX, _NO_REGISTER (no prefix has this number), _NO_ROOM.
 */
int32_t feddurzai_segment_text(uint32_t syntax, uint8_t segment, char *out, size_t room);

/* ---- what an instruction does ------------------------------------------------------------------------------ */

/* Where control goes after an instruction. */
enum {
    FEDDURZAI_FLOW_NEXT = 0,            /* to the next instruction */
    FEDDURZAI_FLOW_JUMP = 1,            /* to a target in the instruction */
    FEDDURZAI_FLOW_INDIRECT_JUMP = 2,   /* to a target in a register or in memory */
    FEDDURZAI_FLOW_CONDITIONAL = 3,     /* to a target in the instruction, or to the next instruction */
    FEDDURZAI_FLOW_RETURN = 4,          /* RET, RETF, IRET, SYSRET, SYSEXIT */
    FEDDURZAI_FLOW_CALL = 5,            /* to a procedure, and later to the next instruction: CALL, SYSCALL, SYSENTER */
    FEDDURZAI_FLOW_INDIRECT_CALL = 6,   /* the same, with a target in a register or in memory */
    FEDDURZAI_FLOW_INTERRUPT = 7,       /* INT, INT1, INT3, INTO */
    FEDDURZAI_FLOW_EXCEPTION = 8        /* UD1, UD2 */
};

/* How an instruction accesses the whole of an operand or register. A write of a part counts as a read and a write. */
enum { FEDDURZAI_ACCESS_NONE = 0, FEDDURZAI_READ = 1, FEDDURZAI_WRITE = 2, FEDDURZAI_READ_WRITE = 3 };

/* A register, and how it is accessed. */
typedef struct feddurzai_use {
    uint8_t reg_class;      /* FEDDURZAI_LOW8 .. */
    uint8_t reg_number;
    uint8_t access;         /* FEDDURZAI_READ ..; in feddurzai_touched also FEDDURZAI_MAY_READ .. */
} feddurzai_use;

/* What feddurzai_info reports of an instruction. */
typedef struct feddurzai_about {
    uint64_t target;            /* the target of a near branch, else 0 */
    uint64_t ip_address;        /* the address of the memory operand at RIP or EIP, else 0 */
    uint8_t has_target;         /* 1 if there is such a target, else 0 */
    uint8_t has_ip_address;     /* 1 if there is such an operand, else 0 */
    uint8_t flow;               /* FEDDURZAI_FLOW_NEXT .. */
    uint8_t memory_size;        /* bytes of the memory operand, 0 to 32; 0 without one, or if it has no size */
    uint8_t access[4];          /* how each operand is accessed: FEDDURZAI_ACCESS_NONE .. */
    uint8_t use_count;          /* the number of entries of `uses`, at most 8 */
    feddurzai_use uses[8];      /* registers by operand; base and index of an address count as read; then zeros */
} feddurzai_about;

/*
 * Reports control flow, operand access, memory size and named registers of an instruction (SDM chapters 3 to 5).
 * feddurzai_effects also reports implied registers and memory, and flags.
 *
 * Returns 0, or FEDDURZAI_BAD_INSTR, _BAD_FORM; then *about is unchanged.
 *
 *     feddurzai_decode(64, 0x1000, (const uint8_t *)"\x74\x10", 2, &instr);       // je 0x1012
 *     if (feddurzai_info(&instr, &about) == 0 && about.flow == FEDDURZAI_FLOW_CONDITIONAL)
 *         printf("branches to %" PRIx64 "\n", about.target);                      // 1012
 */
int32_t feddurzai_info(const feddurzai_instr *instr, feddurzai_about *about);

/* ---- what an instruction touches --------------------------------------------------------------------------- */

/*
 * How a register or memory is accessed, in feddurzai_touched: the bits FEDDURZAI_READ and FEDDURZAI_WRITE, and these
 * two for an access that a condition, a mask, or a repeat prefix with a counter of 0 may suppress. The value is 1, 2,
 * 3, 4, 8, 12 or 9.
 */
enum { FEDDURZAI_MAY_READ = 4, FEDDURZAI_MAY_WRITE = 8 };

/*
 * Flags. Those of EFLAGS have their bits of that register (SDM volume 1, 3.4.3). The condition codes C0 to C3 of the
 * x87 status word have their bits of that word, plus 16 (SDM volume 1, 8.1.3).
 */
enum {
    FEDDURZAI_FLAG_CF = 0x1, FEDDURZAI_FLAG_PF = 0x4, FEDDURZAI_FLAG_AF = 0x10, FEDDURZAI_FLAG_ZF = 0x40,
    FEDDURZAI_FLAG_SF = 0x80, FEDDURZAI_FLAG_TF = 0x100, FEDDURZAI_FLAG_IF = 0x200, FEDDURZAI_FLAG_DF = 0x400,
    FEDDURZAI_FLAG_OF = 0x800, FEDDURZAI_FLAG_IOPL = 0x3000, FEDDURZAI_FLAG_NT = 0x4000, FEDDURZAI_FLAG_RF = 0x10000,
    FEDDURZAI_FLAG_VM = 0x20000, FEDDURZAI_FLAG_AC = 0x40000, FEDDURZAI_FLAG_VIF = 0x80000,
    FEDDURZAI_FLAG_VIP = 0x100000, FEDDURZAI_FLAG_ID = 0x200000,
    FEDDURZAI_FLAG_C0 = 0x1000000, FEDDURZAI_FLAG_C1 = 0x2000000, FEDDURZAI_FLAG_C2 = 0x4000000,
    FEDDURZAI_FLAG_C3 = 0x40000000
};

/* CPUID features, as bit numbers of a set (SDM, CPUID): `features >> FEDDURZAI_FEATURE_AVX2 & 1` tests one. */
enum {
    FEDDURZAI_FEATURE_FPU = 0, FEDDURZAI_FEATURE_TSC = 1, FEDDURZAI_FEATURE_MSR = 2, FEDDURZAI_FEATURE_CX8 = 3,
    FEDDURZAI_FEATURE_SEP = 4, FEDDURZAI_FEATURE_CMOV = 5, FEDDURZAI_FEATURE_CLFSH = 6, FEDDURZAI_FEATURE_MMX = 7,
    FEDDURZAI_FEATURE_FXSR = 8, FEDDURZAI_FEATURE_SSE = 9, FEDDURZAI_FEATURE_SSE2 = 10, FEDDURZAI_FEATURE_SSE3 = 11,
    FEDDURZAI_FEATURE_PCLMULQDQ = 12, FEDDURZAI_FEATURE_MONITOR = 13, FEDDURZAI_FEATURE_SSSE3 = 14,
    FEDDURZAI_FEATURE_FMA = 15, FEDDURZAI_FEATURE_CX16 = 16, FEDDURZAI_FEATURE_SSE41 = 17,
    FEDDURZAI_FEATURE_SSE42 = 18, FEDDURZAI_FEATURE_MOVBE = 19, FEDDURZAI_FEATURE_POPCNT = 20,
    FEDDURZAI_FEATURE_AES = 21, FEDDURZAI_FEATURE_XSAVE = 22, FEDDURZAI_FEATURE_AVX = 23, FEDDURZAI_FEATURE_F16C = 24,
    FEDDURZAI_FEATURE_RDRAND = 25, FEDDURZAI_FEATURE_FSGSBASE = 26, FEDDURZAI_FEATURE_BMI1 = 27,
    FEDDURZAI_FEATURE_AVX2 = 28, FEDDURZAI_FEATURE_BMI2 = 29, FEDDURZAI_FEATURE_RDSEED = 30,
    FEDDURZAI_FEATURE_ADX = 31, FEDDURZAI_FEATURE_SMAP = 32, FEDDURZAI_FEATURE_CLFLUSHOPT = 33,
    FEDDURZAI_FEATURE_CET_SS = 34, FEDDURZAI_FEATURE_CET_IBT = 35, FEDDURZAI_FEATURE_XSAVEOPT = 36,
    FEDDURZAI_FEATURE_LZCNT = 37, FEDDURZAI_FEATURE_PREFETCHW = 38, FEDDURZAI_FEATURE_SYSCALL = 39,
    FEDDURZAI_FEATURE_RDTSCP = 40
};
#define FEDDURZAI_FEATURES 41   /* the number of features */

#define FEDDURZAI_MAX_MEMORY_USES 4
#define FEDDURZAI_MAX_REGISTER_USES 32

/*
 * Memory that an instruction accesses: segment:[base + index * scale + displacement].
 *
 * The registers have the values that they hold before the instruction, with one exception: POP to memory at rSP uses
 * the incremented rSP. With an index of class FEDDURZAI_LOW8 (XLAT) that register is zero-extended and added.
 */
typedef struct feddurzai_memory_use {
    uint64_t displacement;  /* truncated to the address size; with the base RIP or EIP the absolute address */
    uint16_t size;          /* in bytes; 0 if the processor's state decides (XSAVE, XRSTOR) */
    uint8_t segment;        /* FEDDURZAI_ES .. FEDDURZAI_GS: the segment of a prefix, else the default */
    uint8_t base_class;     /* FEDDURZAI_NO_REG without a base */
    uint8_t base_number;
    uint8_t index_class;    /* FEDDURZAI_NO_REG without an index; a vector register in a gather */
    uint8_t index_number;
    uint8_t scale;          /* 1, 2, 4 or 8 */
    uint8_t access;         /* FEDDURZAI_READ .. */
} feddurzai_memory_use;

/*
 * What an instruction touches, whether an operand names it or the instruction implies it. Flags that are in neither
 * flags_written nor flags_undefined keep their values.
 */
typedef struct feddurzai_touched {
    uint64_t features;          /* the CPUID features that it needs, all of them, by FEDDURZAI_FEATURE_FPU .. */
    uint32_t flags_read;        /* flags that its behaviour depends on */
    uint32_t flags_written;     /* flags that it gives a defined value */
    uint32_t flags_cleared;     /* the flags of flags_written that become 0 */
    uint32_t flags_set;         /* the flags of flags_written that become 1 */
    uint32_t flags_undefined;   /* flags that the manual leaves undefined; none is in flags_written */
    uint32_t flags_kept;        /* the flags of these two sets that it may keep, as a shift by a count of 0 does */
    feddurzai_memory_use memory[FEDDURZAI_MAX_MEMORY_USES];     /* the memory operand, then implied memory; then zeros */
    feddurzai_use registers[FEDDURZAI_MAX_REGISTER_USES];       /* named, segment, implied, counter; then zeros */
    uint8_t memory_count;       /* the number of entries of memory */
    uint8_t register_count;     /* the number of entries of registers */
} feddurzai_touched;

/*
 * Reports the registers, memory, flags and CPUID features of an instruction, named and implied (SDM chapters 3 to 5).
 *
 *  - bits: the mode. It decides the size of implied registers and addresses, with the operand and address size.
 *  - instr: the instruction.
 *  - touched: receives the report.
 *
 * `registers` has the registers that feddurzai_info reports; then the segment registers through which memory is
 * accessed, in 64-bit mode FS and GS alone; then implied registers, such as RSP of a push; and last the counter of a
 * repeat prefix. A register may have several entries. Registers that this header cannot name are left out: MXCSR, the
 * x87 control and tag words, descriptor tables, and RIP as the instruction pointer.
 *
 * Returns 0, or FEDDURZAI_BAD_MODE, _BAD_INSTR, _BAD_FORM; then *touched is unchanged. docs/instruction-info.md says
 * more.
 *
 *     feddurzai_decode(64, 0, (const uint8_t *)"\x53", 1, &instr);                // push rbx
 *     if (feddurzai_effects(64, &instr, &touched) == 0)
 *         printf("%d registers, %d bytes of memory\n", touched.register_count, touched.memory[0].size);
 *     // 2 registers: RBX is read, RSP is read and written. 8 bytes at ss:[rsp-8] are written
 */
int32_t feddurzai_effects(uint32_t bits, const feddurzai_instr *instr, feddurzai_touched *touched);

/*
 * Returns the widest register that contains a register: RAX for AL, AH, AX and EAX, YMM1 for XMM1, RIP for EIP, and any
 * other register itself (SDM volume 1, 3.4.1.1 and 14.1.1). Two uses overlap if their widest registers are equal.
 *
 * One overlap is not reported: MMX registers are aliases of the x87 data registers (SDM volume 1, 9.2.2). MM0 to MM7
 * are the low 64 bits of the physical registers R0 to R7, and ST(i) is the physical register (TOP + i) modulo 8. The
 * answer for MMn is MMn, because TOP is known only at run time. A caller that tracks both has to treat every MMn and
 * every ST(i) as overlapping.
 *
 * Returns 0 or more, the class and number together (FEDDURZAI_FULL_CLASS, FEDDURZAI_FULL_NUMBER), or
 * FEDDURZAI_NO_REGISTER.
 *
 *     int32_t full = feddurzai_full_register(FEDDURZAI_HIGH8, 0);                 // AH
 *     if (full >= 0)
 *         feddurzai_register_text(FEDDURZAI_INTEL, (uint8_t)FEDDURZAI_FULL_CLASS(full), FEDDURZAI_FULL_NUMBER(full), text, 7);
 *     // text is rax
 */
int32_t feddurzai_full_register(uint8_t reg_class, uint8_t reg_number);
#define FEDDURZAI_FULL_CLASS(said) ((said) >> 8)
#define FEDDURZAI_FULL_NUMBER(said) ((said) & 255)

/*
 * Writes the name of a CPUID feature with a terminating 0: `AVX2`. `bit` is FEDDURZAI_FEATURE_FPU .. 11 bytes are
 * always enough.
 *
 * Returns the length of the name, or FEDDURZAI_NO_NAME (`bit` is FEDDURZAI_FEATURES or more), _NO_ROOM.
 */
int32_t feddurzai_feature_name(uint32_t bit, char *out, size_t room);

/* ---- the table --------------------------------------------------------------------------------------------- */

/*
 * Writes the name of a row with a terminating 0: its mnemonic in lower case. 17 bytes are always enough.
 *
 * Returns the length of the name, or FEDDURZAI_BAD_CODE, _NO_ROOM.
 */
int32_t feddurzai_name(uint32_t code, char *out, size_t room);

/*
 * Writes the notation of a row with a terminating 0: `REX.W + 81 /0 id` (SDM 3.1.1.1). 65 bytes are always enough.
 *
 * Returns the length of the notation, or FEDDURZAI_BAD_CODE, _NO_ROOM.
 */
int32_t feddurzai_notation(uint32_t code, char *out, size_t room);

/*
 * Reports an operand of a row: the code word of its kind, and its access.
 *
 *  - code: the row, 0 to 2082.
 *  - index: the operand, 0 to 3.
 *  - access: receives FEDDURZAI_ACCESS_NONE, _READ, _WRITE or _READ_WRITE, as in feddurzai_info.
 *  - kind, room: receive the word with a terminating 0. 6 bytes are always enough. An operand that the row does not
 *    have has an empty word and no access.
 *
 * The words follow SDM appendix A.2: an upper-case letter for the addressing method and lower-case letters for the
 * operand type, as in `Eb` or `Gv`. The type y is 64 bits if W is 1, else 32. A fixed register has its name: AL, CL,
 * DX, ES, XMM0; rAX is the accumulator of the operand size. These words are not in A.2, or have another meaning there:
 *
 *  - Zb, Zv: a general register of 8 bits or of the operand size, selected by the low three bits of the opcode.
 *  - Rm: a general register selected by ModR/M.r/m regardless of mod, of 64 bits in 64-bit mode and else 32 (MOV with
 *    CR or DR).
 *  - Xv: a register of the operand size, or 16 bits of memory (LAR, LSL, SLDT, STR, SMSW, MOV from a segment register).
 *    In A.2 the letter X is memory at DS:rSI.
 *  - Kb, Kw: a 32-bit register, or 8 or 16 bits of memory (PEXTRB, PINSRB, PEXTRW, PINSRW).
 *  - Ibs: an immediate of 8 bits, sign-extended to the operand size. Ib is not extended.
 *  - Mf: a far pointer in memory through which CALLF or JMPF goes. Mp is one that LDS, LES, LFS, LGS or LSS loads.
 *  - Mt, Mo: 10 or 16 bytes of memory.
 *  - Vo, Ho: an XMM register, even if the vector size is 32 bytes. Wo: such a register, or 16 bytes of memory.
 *  - Wb, Ww, Wd, Wq: an XMM register, or 1, 2, 4 or 8 bytes of memory.
 *  - Wh, W4, W8: an XMM register, or memory of a half, a quarter or an eighth of the vector size (VPMOVSXBW, VPMOVSXBD,
 *    VPMOVSXBQ).
 *  - gx, gv: the address of a gather, whose index is an XMM register, or a register of the vector size (SDM 2.3.12).
 *  - eAX: AX or EAX, by the operand size. 1: the constant 1. ST, ST(i): the top of the x87 stack, and the register that
 *    ModR/M.r/m selects.
 *
 * Returns the length of the word, 0 for an operand that the row does not have, or FEDDURZAI_BAD_CODE, _NO_NAME (`index`
 * is above 3), _NO_ROOM; then *access and the buffer are unchanged.
 *
 *     len = feddurzai_row_operand(FEDDURZAI_CODE_MOV_RM64_R64, 0, &access, text, sizeof text);
 *     // len is 2, text is Ev, and access is FEDDURZAI_WRITE
 */
int32_t feddurzai_row_operand(uint32_t code, uint32_t index, uint8_t *access, char *kind, size_t room);

/*
 * Finds a row by name: returns the code of the n-th row of the name, counted from 0 in the order of the codes.
 *
 *  - name, len: the mnemonic in lower case, without a terminating 0.
 *  - n: which of its rows.
 *
 * Returns the code, 0 to 2082, or FEDDURZAI_NO_NAME if the name has no more than n rows.
 *
 * The call searches the table, so look a code up once and keep it. To list the rows of a name:
 *
 *     for (n = 0; (code = feddurzai_code_of("leave", 5, n)) >= 0; n++)
 *         if (feddurzai_notation((uint32_t)code, text, sizeof text) >= 0)
 *             puts(text);                                                // o16 C9, o32 C9, o64 C9
 */
int32_t feddurzai_code_of(const char *name, size_t len, size_t n);

/*
 * The codes of common instructions, for the `code` of a struct; feddurzai_code_of finds the others.
 *
 * In the names RM is a register or memory, REL an offset and IMM an immediate, and a number is a width in bits. JMP,
 * CALL, Jcc, RET, PUSH, POP and LEAVE are of 64-bit code, unless _O32, R32 or RM32 marks them as 32-bit code. NOP_RM32
 * and rows with two operands exist in both modes, and those with a 64 in 64-bit mode alone.
 */
/* begin of the codes that codes.py writes */
enum {
    FEDDURZAI_CODE_JMP_REL8 = 631,          /* o64 EB cb */
    FEDDURZAI_CODE_JMP_REL32 = 626,         /* o64 E9 cd */
    FEDDURZAI_CODE_JMP_REL8_O32 = 630,      /* o32 EB cb */
    FEDDURZAI_CODE_JMP_REL32_O32 = 625,     /* o32 E9 cd */
    FEDDURZAI_CODE_JMP_RM64 = 691,          /* o64 FF /4 */
    FEDDURZAI_CODE_JMP_RM32 = 690,          /* o32 FF /4 */
    FEDDURZAI_CODE_CALL_REL32 = 623,        /* o64 E8 cd */
    FEDDURZAI_CODE_CALL_REL32_O32 = 622,    /* o32 E8 cd */
    FEDDURZAI_CODE_CALL_RM64 = 685,         /* o64 FF /2 */
    FEDDURZAI_CODE_CALL_RM32 = 684,         /* o32 FF /2 */
    FEDDURZAI_CODE_JO_REL8 = 154,           /* o64 70 cb */
    FEDDURZAI_CODE_JO_REL32 = 994,          /* o64 0F 80 cd */
    FEDDURZAI_CODE_JO_REL8_O32 = 153,       /* o32 70 cb */
    FEDDURZAI_CODE_JO_REL32_O32 = 993,      /* o32 0F 80 cd */
    FEDDURZAI_CODE_JNO_REL8 = 157,          /* o64 71 cb */
    FEDDURZAI_CODE_JNO_REL32 = 997,         /* o64 0F 81 cd */
    FEDDURZAI_CODE_JNO_REL8_O32 = 156,      /* o32 71 cb */
    FEDDURZAI_CODE_JNO_REL32_O32 = 996,     /* o32 0F 81 cd */
    FEDDURZAI_CODE_JB_REL8 = 160,           /* o64 72 cb */
    FEDDURZAI_CODE_JB_REL32 = 1000,         /* o64 0F 82 cd */
    FEDDURZAI_CODE_JB_REL8_O32 = 159,       /* o32 72 cb */
    FEDDURZAI_CODE_JB_REL32_O32 = 999,      /* o32 0F 82 cd */
    FEDDURZAI_CODE_JAE_REL8 = 163,          /* o64 73 cb */
    FEDDURZAI_CODE_JAE_REL32 = 1003,        /* o64 0F 83 cd */
    FEDDURZAI_CODE_JAE_REL8_O32 = 162,      /* o32 73 cb */
    FEDDURZAI_CODE_JAE_REL32_O32 = 1002,    /* o32 0F 83 cd */
    FEDDURZAI_CODE_JE_REL8 = 166,           /* o64 74 cb */
    FEDDURZAI_CODE_JE_REL32 = 1006,         /* o64 0F 84 cd */
    FEDDURZAI_CODE_JE_REL8_O32 = 165,       /* o32 74 cb */
    FEDDURZAI_CODE_JE_REL32_O32 = 1005,     /* o32 0F 84 cd */
    FEDDURZAI_CODE_JNE_REL8 = 169,          /* o64 75 cb */
    FEDDURZAI_CODE_JNE_REL32 = 1009,        /* o64 0F 85 cd */
    FEDDURZAI_CODE_JNE_REL8_O32 = 168,      /* o32 75 cb */
    FEDDURZAI_CODE_JNE_REL32_O32 = 1008,    /* o32 0F 85 cd */
    FEDDURZAI_CODE_JBE_REL8 = 172,          /* o64 76 cb */
    FEDDURZAI_CODE_JBE_REL32 = 1012,        /* o64 0F 86 cd */
    FEDDURZAI_CODE_JBE_REL8_O32 = 171,      /* o32 76 cb */
    FEDDURZAI_CODE_JBE_REL32_O32 = 1011,    /* o32 0F 86 cd */
    FEDDURZAI_CODE_JA_REL8 = 175,           /* o64 77 cb */
    FEDDURZAI_CODE_JA_REL32 = 1015,         /* o64 0F 87 cd */
    FEDDURZAI_CODE_JA_REL8_O32 = 174,       /* o32 77 cb */
    FEDDURZAI_CODE_JA_REL32_O32 = 1014,     /* o32 0F 87 cd */
    FEDDURZAI_CODE_JS_REL8 = 178,           /* o64 78 cb */
    FEDDURZAI_CODE_JS_REL32 = 1018,         /* o64 0F 88 cd */
    FEDDURZAI_CODE_JS_REL8_O32 = 177,       /* o32 78 cb */
    FEDDURZAI_CODE_JS_REL32_O32 = 1017,     /* o32 0F 88 cd */
    FEDDURZAI_CODE_JNS_REL8 = 181,          /* o64 79 cb */
    FEDDURZAI_CODE_JNS_REL32 = 1021,        /* o64 0F 89 cd */
    FEDDURZAI_CODE_JNS_REL8_O32 = 180,      /* o32 79 cb */
    FEDDURZAI_CODE_JNS_REL32_O32 = 1020,    /* o32 0F 89 cd */
    FEDDURZAI_CODE_JP_REL8 = 184,           /* o64 7A cb */
    FEDDURZAI_CODE_JP_REL32 = 1024,         /* o64 0F 8A cd */
    FEDDURZAI_CODE_JP_REL8_O32 = 183,       /* o32 7A cb */
    FEDDURZAI_CODE_JP_REL32_O32 = 1023,     /* o32 0F 8A cd */
    FEDDURZAI_CODE_JNP_REL8 = 187,          /* o64 7B cb */
    FEDDURZAI_CODE_JNP_REL32 = 1027,        /* o64 0F 8B cd */
    FEDDURZAI_CODE_JNP_REL8_O32 = 186,      /* o32 7B cb */
    FEDDURZAI_CODE_JNP_REL32_O32 = 1026,    /* o32 0F 8B cd */
    FEDDURZAI_CODE_JL_REL8 = 190,           /* o64 7C cb */
    FEDDURZAI_CODE_JL_REL32 = 1030,         /* o64 0F 8C cd */
    FEDDURZAI_CODE_JL_REL8_O32 = 189,       /* o32 7C cb */
    FEDDURZAI_CODE_JL_REL32_O32 = 1029,     /* o32 0F 8C cd */
    FEDDURZAI_CODE_JGE_REL8 = 193,          /* o64 7D cb */
    FEDDURZAI_CODE_JGE_REL32 = 1033,        /* o64 0F 8D cd */
    FEDDURZAI_CODE_JGE_REL8_O32 = 192,      /* o32 7D cb */
    FEDDURZAI_CODE_JGE_REL32_O32 = 1032,    /* o32 0F 8D cd */
    FEDDURZAI_CODE_JLE_REL8 = 196,          /* o64 7E cb */
    FEDDURZAI_CODE_JLE_REL32 = 1036,        /* o64 0F 8E cd */
    FEDDURZAI_CODE_JLE_REL8_O32 = 195,      /* o32 7E cb */
    FEDDURZAI_CODE_JLE_REL32_O32 = 1035,    /* o32 0F 8E cd */
    FEDDURZAI_CODE_JG_REL8 = 199,           /* o64 7F cb */
    FEDDURZAI_CODE_JG_REL32 = 1039,         /* o64 0F 8F cd */
    FEDDURZAI_CODE_JG_REL8_O32 = 198,       /* o32 7F cb */
    FEDDURZAI_CODE_JG_REL32_O32 = 1038,     /* o32 0F 8F cd */
    FEDDURZAI_CODE_RET = 381,               /* o64 C3 */
    FEDDURZAI_CODE_RET_O32 = 380,           /* o32 C3 */
    FEDDURZAI_CODE_RET_IMM16 = 378,         /* o64 C2 iw */
    FEDDURZAI_CODE_PUSH_R64 = 120,          /* o64 50+ro */
    FEDDURZAI_CODE_PUSH_R32 = 119,          /* o32 50+rd */
    FEDDURZAI_CODE_PUSH_IMM8 = 142,         /* o64 6A ib */
    FEDDURZAI_CODE_PUSH_IMM32 = 136,        /* o64 68 id */
    FEDDURZAI_CODE_PUSH_RM64 = 697,         /* o64 FF /6 */
    FEDDURZAI_CODE_POP_R64 = 123,           /* o64 58+ro */
    FEDDURZAI_CODE_POP_R32 = 122,           /* o32 58+rd */
    FEDDURZAI_CODE_POP_RM64 = 289,          /* o64 8F /0 */
    FEDDURZAI_CODE_PUSHFQ = 306,            /* o64 9C */
    FEDDURZAI_CODE_POPFQ = 309,             /* o64 9D */
    FEDDURZAI_CODE_NOP = 290,               /* NF3 90 */
    FEDDURZAI_CODE_INT3 = 402,              /* CC */
    FEDDURZAI_CODE_UD2 = 744,               /* 0F 0B */
    FEDDURZAI_CODE_SYSCALL = 738,           /* 0F 05 */
    FEDDURZAI_CODE_HLT = 639,               /* F4 */
    FEDDURZAI_CODE_LEAVE = 395,             /* o64 C9 */
    FEDDURZAI_CODE_ENDBR64 = 777,           /* F3 0F 1E FA */
    FEDDURZAI_CODE_NOP_RM32 = 780,          /* o32 0F 1F /0 */
    FEDDURZAI_CODE_MOV_RM64_R64 = 275,      /* REX.W + 89 /r */
    FEDDURZAI_CODE_MOV_R64_RM64 = 279,      /* REX.W + 8B /r */
    FEDDURZAI_CODE_MOV_R64_IMM64 = 347,     /* REX.W + B8+ro io */
    FEDDURZAI_CODE_MOV_RM64_IMM32 = 389,    /* REX.W + C7 /0 id */
    FEDDURZAI_CODE_LEA_R64 = 285,           /* REX.W + 8D /r */
    FEDDURZAI_CODE_XCHG_RM64_R64 = 271,     /* REX.W + 87 /r */
    FEDDURZAI_CODE_TEST_RM64_R64 = 267,     /* REX.W + 85 /r */
    FEDDURZAI_CODE_TEST_RM64_IMM32 = 650,   /* REX.W + F7 /0 id */
    FEDDURZAI_CODE_ADD_RM64_R64 = 3,        /* REX.W + 01 /r */
    FEDDURZAI_CODE_ADD_R64_RM64 = 7,        /* REX.W + 03 /r */
    FEDDURZAI_CODE_ADD_RM64_IMM8 = 242,     /* REX.W + 83 /0 ib */
    FEDDURZAI_CODE_ADD_RM64_IMM32 = 210,    /* REX.W + 81 /0 id */
    FEDDURZAI_CODE_OR_RM64_R64 = 19,        /* REX.W + 09 /r */
    FEDDURZAI_CODE_OR_R64_RM64 = 23,        /* REX.W + 0B /r */
    FEDDURZAI_CODE_OR_RM64_IMM8 = 245,      /* REX.W + 83 /1 ib */
    FEDDURZAI_CODE_OR_RM64_IMM32 = 213,     /* REX.W + 81 /1 id */
    FEDDURZAI_CODE_ADC_RM64_R64 = 33,       /* REX.W + 11 /r */
    FEDDURZAI_CODE_ADC_R64_RM64 = 37,       /* REX.W + 13 /r */
    FEDDURZAI_CODE_ADC_RM64_IMM8 = 248,     /* REX.W + 83 /2 ib */
    FEDDURZAI_CODE_ADC_RM64_IMM32 = 216,    /* REX.W + 81 /2 id */
    FEDDURZAI_CODE_SBB_RM64_R64 = 49,       /* REX.W + 19 /r */
    FEDDURZAI_CODE_SBB_R64_RM64 = 53,       /* REX.W + 1B /r */
    FEDDURZAI_CODE_SBB_RM64_IMM8 = 251,     /* REX.W + 83 /3 ib */
    FEDDURZAI_CODE_SBB_RM64_IMM32 = 219,    /* REX.W + 81 /3 id */
    FEDDURZAI_CODE_AND_RM64_R64 = 65,       /* REX.W + 21 /r */
    FEDDURZAI_CODE_AND_R64_RM64 = 69,       /* REX.W + 23 /r */
    FEDDURZAI_CODE_AND_RM64_IMM8 = 254,     /* REX.W + 83 /4 ib */
    FEDDURZAI_CODE_AND_RM64_IMM32 = 222,    /* REX.W + 81 /4 id */
    FEDDURZAI_CODE_SUB_RM64_R64 = 78,       /* REX.W + 29 /r */
    FEDDURZAI_CODE_SUB_R64_RM64 = 82,       /* REX.W + 2B /r */
    FEDDURZAI_CODE_SUB_RM64_IMM8 = 257,     /* REX.W + 83 /5 ib */
    FEDDURZAI_CODE_SUB_RM64_IMM32 = 225,    /* REX.W + 81 /5 id */
    FEDDURZAI_CODE_XOR_RM64_R64 = 91,       /* REX.W + 31 /r */
    FEDDURZAI_CODE_XOR_R64_RM64 = 95,       /* REX.W + 33 /r */
    FEDDURZAI_CODE_XOR_RM64_IMM8 = 260,     /* REX.W + 83 /6 ib */
    FEDDURZAI_CODE_XOR_RM64_IMM32 = 228,    /* REX.W + 81 /6 id */
    FEDDURZAI_CODE_CMP_RM64_R64 = 104,      /* REX.W + 39 /r */
    FEDDURZAI_CODE_CMP_R64_RM64 = 108,      /* REX.W + 3B /r */
    FEDDURZAI_CODE_CMP_RM64_IMM8 = 263,     /* REX.W + 83 /7 ib */
    FEDDURZAI_CODE_CMP_RM64_IMM32 = 231,    /* REX.W + 81 /7 id */
    FEDDURZAI_CODE_MOV_RM32_R32 = 274,      /* o32 89 /r */
    FEDDURZAI_CODE_MOV_R32_RM32 = 278,      /* o32 8B /r */
    FEDDURZAI_CODE_MOV_R32_IMM32 = 346,     /* o32 B8+rd id */
    FEDDURZAI_CODE_MOV_RM32_IMM32 = 388,    /* o32 C7 /0 id */
    FEDDURZAI_CODE_LEA_R32 = 284,           /* o32 8D /r */
    FEDDURZAI_CODE_XCHG_RM32_R32 = 270,     /* o32 87 /r */
    FEDDURZAI_CODE_TEST_RM32_R32 = 266,     /* o32 85 /r */
    FEDDURZAI_CODE_TEST_RM32_IMM32 = 649,   /* o32 F7 /0 id */
    FEDDURZAI_CODE_ADD_RM32_R32 = 2,        /* o32 01 /r */
    FEDDURZAI_CODE_ADD_R32_RM32 = 6,        /* o32 03 /r */
    FEDDURZAI_CODE_ADD_RM32_IMM8 = 241,     /* o32 83 /0 ib */
    FEDDURZAI_CODE_ADD_RM32_IMM32 = 209,    /* o32 81 /0 id */
    FEDDURZAI_CODE_OR_RM32_R32 = 18,        /* o32 09 /r */
    FEDDURZAI_CODE_OR_R32_RM32 = 22,        /* o32 0B /r */
    FEDDURZAI_CODE_OR_RM32_IMM8 = 244,      /* o32 83 /1 ib */
    FEDDURZAI_CODE_OR_RM32_IMM32 = 212,     /* o32 81 /1 id */
    FEDDURZAI_CODE_ADC_RM32_R32 = 32,       /* o32 11 /r */
    FEDDURZAI_CODE_ADC_R32_RM32 = 36,       /* o32 13 /r */
    FEDDURZAI_CODE_ADC_RM32_IMM8 = 247,     /* o32 83 /2 ib */
    FEDDURZAI_CODE_ADC_RM32_IMM32 = 215,    /* o32 81 /2 id */
    FEDDURZAI_CODE_SBB_RM32_R32 = 48,       /* o32 19 /r */
    FEDDURZAI_CODE_SBB_R32_RM32 = 52,       /* o32 1B /r */
    FEDDURZAI_CODE_SBB_RM32_IMM8 = 250,     /* o32 83 /3 ib */
    FEDDURZAI_CODE_SBB_RM32_IMM32 = 218,    /* o32 81 /3 id */
    FEDDURZAI_CODE_AND_RM32_R32 = 64,       /* o32 21 /r */
    FEDDURZAI_CODE_AND_R32_RM32 = 68,       /* o32 23 /r */
    FEDDURZAI_CODE_AND_RM32_IMM8 = 253,     /* o32 83 /4 ib */
    FEDDURZAI_CODE_AND_RM32_IMM32 = 221,    /* o32 81 /4 id */
    FEDDURZAI_CODE_SUB_RM32_R32 = 77,       /* o32 29 /r */
    FEDDURZAI_CODE_SUB_R32_RM32 = 81,       /* o32 2B /r */
    FEDDURZAI_CODE_SUB_RM32_IMM8 = 256,     /* o32 83 /5 ib */
    FEDDURZAI_CODE_SUB_RM32_IMM32 = 224,    /* o32 81 /5 id */
    FEDDURZAI_CODE_XOR_RM32_R32 = 90,       /* o32 31 /r */
    FEDDURZAI_CODE_XOR_R32_RM32 = 94,       /* o32 33 /r */
    FEDDURZAI_CODE_XOR_RM32_IMM8 = 259,     /* o32 83 /6 ib */
    FEDDURZAI_CODE_XOR_RM32_IMM32 = 227,    /* o32 81 /6 id */
    FEDDURZAI_CODE_CMP_RM32_R32 = 103,      /* o32 39 /r */
    FEDDURZAI_CODE_CMP_R32_RM32 = 107,      /* o32 3B /r */
    FEDDURZAI_CODE_CMP_RM32_IMM8 = 262,     /* o32 83 /7 ib */
    FEDDURZAI_CODE_CMP_RM32_IMM32 = 230,    /* o32 81 /7 id */
    FEDDURZAI_CODE_MOV_RM8_R8 = 272,        /* 88 /r */
    FEDDURZAI_CODE_MOV_R8_RM8 = 276,        /* 8A /r */
    FEDDURZAI_CODE_MOV_R8_IMM8 = 344,       /* B0+rb ib */
    FEDDURZAI_CODE_MOV_RM8_IMM8 = 386       /* C6 /0 ib */
};
/* end of the codes that codes.py writes */

/* ---- moving code ------------------------------------------------------------------------------------------- */

#define FEDDURZAI_MAX_CODE 1048576u     /* the most bytes that one call moves, hooks or follows */
#define FEDDURZAI_MAX_FLOW 16777216u    /* the most bytes that feddurzai_flow_from follows */
#define FEDDURZAI_MAX_MOVED 65536u      /* the most instructions that one call moves */

/* The form of a moved instruction. docs/moving.md lists the bytes of each form. */
enum {
    FEDDURZAI_ITSELF = 0,       /* the instruction, with its targets adjusted */
    FEDDURZAI_SHORT = 1,        /* a branch with an offset of 8 bits */
    FEDDURZAI_NEAR_FORM = 2,    /* a branch with an offset of 32 bits (16 in 16-bit code) */
    FEDDURZAI_FAR_FORM = 3,     /* 64-bit mode: a branch through a slot of 8 bytes after the code */
    FEDDURZAI_BRIDGE = 4,       /* a short branch to a near jump, for LOOP, LOOPE, LOOPNE and JRCXZ */
    FEDDURZAI_FAR_BRIDGE = 5    /* 64-bit mode: a short branch to a jump through a slot */
};

/* The old and the new address of a moved instruction. */
typedef struct feddurzai_moved {
    uint64_t old_ip;
    uint64_t new_ip;
    uint8_t len;        /* its old length, in bytes */
    uint8_t form;       /* FEDDURZAI_ITSELF .. */
} feddurzai_moved;

/* What feddurzai_move, feddurzai_move_outside and feddurzai_move_unlisted report. Fields that do not apply are 0. */
typedef struct feddurzai_move_report {
    uint64_t bytes;     /* the size of the moved code with its slots */
    uint64_t count;     /* the number of instructions */
    uint64_t at;        /* _INVALID, _TOO_SHORT: the offset of the byte; _TOO_FAR: the number of the instruction, from 0 */
    uint64_t address;   /* _TOO_FAR: its target; _WRAPS: the end of the code, modulo 2^64 */
    uint64_t code_bytes;    /* the size of the moved code without its slots: control continues at this offset */
    uint64_t slots_at;      /* the offset of the first slot, or `bytes` if there are none */
} feddurzai_move_report;

/*
 * Moves code to another address. Near branches and operands at RIP or EIP keep their targets, and a target that is
 * itself moved is followed to its new address. Branches grow as far as the least closed layout requires
 * (docs/moving.md).
 *
 *  - bits: the mode.
 *  - old_ip, bytes, len: the code and the address of its first byte; at most FEDDURZAI_MAX_CODE bytes. The bytes must
 *    be instructions from end to end, and nothing outside may jump into the middle of one.
 *  - new_ip: the new address of the first byte.
 *  - out, room: receive the moved bytes.
 *  - map, map_room: receive an entry for each instruction, in order.
 *  - report: receives the sizes, also if a buffer is too small. A first call with two buffers of 0 elements reports the
 *    sizes that the second needs.
 *
 * Control leaves the last instruction at out + report->code_bytes. Put a jump back there, and not at out +
 * report->bytes: that is after the slots, where it is never reached. There is space for it if code_bytes == bytes, that
 * is if there are no slots. There are none if all targets are within 2 gigabytes; otherwise choose a nearer address.
 *
 * A target that is the start of a moved instruction is followed, even if it is the first one. So a recursive call of a
 * function whose start is moved bypasses whatever is written over the start, a loop of one instruction stays a loop at
 * the new address, and a jump to the end of the code that is appended to the code targets itself.
 * feddurzai_move_outside keeps every target instead. A target in the middle of an instruction stays where it was.
 *
 * Returns 0, or FEDDURZAI_BAD_MODE, _TOO_LARGE, _WRAPS (the old end), _INVALID or _TOO_SHORT, _TOO_MANY (report->count
 * says how many), _WRAPS (the new end), _TOO_FAR, _NO_ROOM. _NO_MEMORY may replace any of those after the first _WRAPS.
 * If `len` is 0, both ends are `new_ip`. The call allocates memory.
 *
 *     // je 0x1012, moved out of reach: jne over jmp [rip], and the slot with the target
 *     said = feddurzai_move(64, 0x1000, (const uint8_t *)"\x74\x10", 2, 0x7fff00000000, out, 64, map, 4, &report);
 *     // said is 0, report.bytes is 16, report.code_bytes is 8, and map[0].form is FEDDURZAI_FAR_FORM
 */
int32_t feddurzai_move(uint32_t bits, uint64_t old_ip, const uint8_t *bytes, size_t len, uint64_t new_ip, uint8_t *out,
    size_t room, feddurzai_moved *map, size_t map_room, feddurzai_move_report *report);

/*
 * Moves code and keeps every target: a branch or an operand at RIP or EIP still reaches its old target, even if that is
 * one of the moved instructions. Arguments, report, return value and refusals are those of feddurzai_move.
 *
 * Use it for a single instruction, which then behaves as it did at its old address, and for code with a jump to its old
 * end appended, which is then a jump back.
 *
 *     // a loop of one instruction goes back to its old address
 *     said = feddurzai_move_outside(64, 0x1000, (const uint8_t *)"\xeb\xfe", 2, 0x1080, out, 64, map, 4, &report);
 *     // said is 0, and out begins with e9 7b ff ff ff, jmp 0x1000
 */
int32_t feddurzai_move_outside(uint32_t bits, uint64_t old_ip, const uint8_t *bytes, size_t len, uint64_t new_ip,
    uint8_t *out, size_t room, feddurzai_moved *map, size_t map_room, feddurzai_move_report *report);

/*
 * Moves code as feddurzai_move does, with the instructions that the opcode table leaves out and feddurzai_measure
 * measures. Such an instruction is moved whole: its bytes, except that its relative number is set so that it refers to
 * the same address, or to the moved instruction that began there. Its form is FEDDURZAI_NEAR_FORM. Arguments, report and
 * return value are those of feddurzai_move.
 *
 * Returns 0, or FEDDURZAI_BAD_MODE, _TOO_LARGE, _INVALID or _TOO_SHORT (at report->at starts neither an instruction of
 * the table nor one that is measured; an XBEGIN with a 16-bit distance outside 16-bit mode counts as none), _TOO_MANY,
 * _WRAPS (the old end, or else the new one), _TOO_FAR, _NO_ROOM. _NO_MEMORY may replace any of those after _TOO_LARGE.
 *
 *     // vpxord zmm0, zmm0, [rip+0x10] refers to 0x101a, also at 0x2000; the jump to it follows it
 *     const uint8_t evex_loop[] = {0x62, 0xf1, 0x7d, 0x48, 0xef, 0x05, 0x10, 0, 0, 0, 0xeb, 0xf4};
 *     said = feddurzai_move_unlisted(64, 0x1000, evex_loop, sizeof evex_loop, 0x2000, out, 64, map, 4, &report);
 *     // said is 0, and out begins with 62 f1 7d 48 ef 05 10 f0 ff ff eb f4
 */
int32_t feddurzai_move_unlisted(uint32_t bits, uint64_t old_ip, const uint8_t *bytes, size_t len, uint64_t new_ip,
    uint8_t *out, size_t room, feddurzai_moved *map, size_t map_room, feddurzai_move_report *report);

/* A block of code that feddurzai_move_blocks moves. */
typedef struct feddurzai_block {
    uint64_t old_ip;    /* the address of its first byte */
    uint64_t new_ip;    /* the new address of its first byte */
    uint64_t offset;    /* its offset in the given bytes */
    uint64_t len;       /* its size in bytes */
} feddurzai_block;

/* Where a moved block is in `out`. It begins where the one before it ends; the first begins at 0. */
typedef struct feddurzai_placed_block {
    uint64_t end;           /* the offset in `out` of its end */
    uint64_t code_bytes;    /* its size without its slots: control continues at this offset of the block */
    uint64_t count;         /* the number of its instructions: as many map entries follow those of the block before */
} feddurzai_placed_block;

/* What feddurzai_move_blocks reports. Fields that do not apply are 0. */
typedef struct feddurzai_blocks_report {
    uint64_t bytes;     /* the size of all moved blocks with their slots */
    uint64_t count;     /* the number of instructions */
    uint64_t block;     /* the number of the block that fails, from 0; the number of blocks if none is to blame */
    uint64_t at;        /* _INVALID, _TOO_SHORT: the offset of the byte in this block; _TOO_FAR: the number of the
                           instruction in this block, from 0 */
    uint64_t address;   /* _TOO_FAR: its target; _WRAPS: the end of the block, modulo 2^64 */
} feddurzai_blocks_report;

/*
 * Moves several blocks of code at once, each to an address of its own: the parts of a function (.text and .text.cold),
 * or functions that call each other. Targets are kept as in feddurzai_move. A target is followed if it is the start of
 * an instruction of the same block, else of the first block that has one there.
 *
 *  - bits: the mode.
 *  - bytes, len: the bytes that contain all blocks, such as a whole section.
 *  - blocks, count: the blocks. Block b is the blocks[b].len bytes at offset blocks[b].offset; FEDDURZAI_MAX_CODE in
 *    all of them.
 *  - out, room: receive the moved blocks, one after another, each with its slots. Each belongs at its own new address.
 *  - places, places_room: receive the end of each block in `out`. There are as many places as blocks.
 *  - map, map_room: receive an entry for each instruction, block by block.
 *  - report: receives the sizes, also if a buffer is too small. A first call with three buffers of 0 elements reports
 *    the sizes that the second needs.
 *
 * What feddurzai_move says of a jump back, of targets that are followed, and of the code that may be moved applies to
 * each block.
 *
 * Returns 0, or FEDDURZAI_BAD_MODE; _TOO_LARGE (more than FEDDURZAI_MAX_MOVED blocks, or more than FEDDURZAI_MAX_CODE
 * bytes in all of them); for the first block that cannot be read, with its number, _BAD_BLOCK, _WRAPS (its old end),
 * _INVALID or _TOO_SHORT; _TOO_MANY (report->count says how many instructions); _WRAPS (a new end; report->block is the
 * number of blocks); _TOO_FAR; _NO_ROOM. _NO_MEMORY may replace any of those after _TOO_LARGE. The call allocates
 * memory.
 */
int32_t feddurzai_move_blocks(uint32_t bits, const uint8_t *bytes, size_t len, const feddurzai_block *blocks, size_t count,
    uint8_t *out, size_t room, feddurzai_placed_block *places, size_t places_room, feddurzai_moved *map, size_t map_room,
    feddurzai_blocks_report *report);

/* ---- places for moved code --------------------------------------------------------------------------------- */

/*
 * A range of addresses from which blocks of code are allocated. The caller keeps it as three numbers and an array whose
 * first `count` elements are the live blocks, in ascending order of address. `{base, size, 0}` is an empty region.
 *
 * The size is a multiple of 16 from 16 to 1048576. The array has 1 to 65536 elements. The region ends at 2^64 or
 * before. Each block starts a multiple of 16 bytes after the base and has a multiple of 16 bytes, at least 16; it is
 * inside the region and overlaps no other. The functions check all of this; if it does not hold, they return
 * FEDDURZAI_BAD_REGION and change nothing. Each call takes time in proportion to the number of live blocks.
 *
 *     feddurzai_region region = {0x10000, 4096, 0};
 *     feddurzai_live live[64];
 *     uint64_t place;
 *     int32_t said = feddurzai_region_reserve(&region, live, 64, 17, &place);     // 0: place is 0x10000, with 32 bytes
 *     if (said == 0)
 *         said = feddurzai_region_fill(&region, live, 64, place, (const uint8_t *)"\x90\xc3", 2, image, 4096);
 *     if (said == 0)
 *         said = feddurzai_region_release(&region, live, 64, place);
 */
typedef struct feddurzai_region {
    uint64_t base;      /* the first address */
    uint64_t size;      /* in bytes */
    uint64_t count;     /* the number of live blocks */
} feddurzai_region;

/* A live block of a region. */
typedef struct feddurzai_live {
    uint64_t place;     /* its first address */
    uint64_t len;       /* its size in bytes */
} feddurzai_live;

/*
 * Allocates a block of `len` bytes, rounded up to a multiple of 16, in the lowest gap that is long enough. *place
 * receives its address, and the block is inserted into `blocks`. `room` is the number of elements of `blocks`.
 *
 * Returns 0, or FEDDURZAI_BAD_REGION, _EMPTY (`len` is 0), _NO_ROOM (every element of `blocks` is a live block), _FULL.
 */
int32_t feddurzai_region_reserve(feddurzai_region *region, feddurzai_live *blocks, size_t room, uint64_t len,
    uint64_t *place);

/*
 * Frees the live block that starts at `place`. Its bytes are not changed: if an image of the region is kept, clear the
 * block first (feddurzai_region_fill with `len` 0).
 *
 * Returns 0, or FEDDURZAI_BAD_REGION, _NOT_LIVE.
 */
int32_t feddurzai_region_release(feddurzai_region *region, feddurzai_live *blocks, size_t room, uint64_t place);

/*
 * Writes `len` bytes to the front of the live block that starts at `place`, and CC (INT3) to the rest of the block. If
 * `len` is 0, the whole block becomes CC.
 *
 *  - image, image_len: the bytes of the region from its base: its memory, or a copy. Nothing outside the block is
 *    written.
 *
 * Returns 0, or FEDDURZAI_BAD_REGION, _NO_ROOM (the image is shorter than the region), _NOT_LIVE, _NO_ROOM (the block
 * has fewer than `len` bytes).
 */
int32_t feddurzai_region_fill(const feddurzai_region *region, const feddurzai_live *blocks, size_t room, uint64_t place,
    const uint8_t *bytes, size_t len, uint8_t *image, size_t image_len);

/* ---- displaced single stepping ----------------------------------------------------------------------------- */

#define FEDDURZAI_MAX_STEP 53       /* the longest code of a step, in bytes */

/* What feddurzai_step reports. Fields that do not apply are 0. */
typedef struct feddurzai_step_report {
    uint64_t bytes;     /* the size of the code */
    uint64_t back_at;   /* the offset of its jump back: control reaches it when the instruction is complete */
    uint64_t address;   /* _TOO_FAR: the target; _WRAPS: the end of the code, modulo 2^64 */
    uint8_t len;        /* the length of the instruction */
    uint8_t done_at;    /* the offset from which on the instruction has happened: done_at <= back_at */
} feddurzai_step_report;

/*
 * Makes the code with which a debugger runs one instruction at another address, while the breakpoint on it stays: the
 * instruction, moved to `place`, and a jump back to the address after it, old_ip + report->len.
 *
 *  - bits: the mode.
 *  - old_ip: the address of the instruction, taken modulo 2^bits.
 *  - bytes, len: the program's own bytes, without the breakpoint. FEDDURZAI_MAX_LEN bytes are enough.
 *  - place: the address at which the code will be placed.
 *  - out, room: receive the code. FEDDURZAI_MAX_STEP bytes are always enough.
 *  - report: receives the sizes, also if the buffer is too small.
 *
 * Every target is kept: a branch or an operand at RIP or EIP reaches what it reached, even if that is the instruction
 * itself.
 *
 * The first instruction of the code, up to done_at, does what the stepped instruction does. If it cannot reach its
 * target by itself, jumps follow up to back_at: after LOOP 0x1010, for example, e2 02 (LOOP over the next jump), eb 05
 * (JMP to back_at) and e9 (JMP 0x1010). done_at is 2 there, and back_at is 9.
 *
 * The debugger translates the offset of control in the code as follows.
 *  - Before done_at the instruction has not happened: report old_ip, and resume there or at `place`. This includes a
 *    fault, and a repeated string instruction that was interrupted.
 *  - From done_at on and before back_at it has happened, and only the jump to where it goes is left: step on. A
 *    debugger that uses the trap flag steps until control is at back_at or outside the code. Never resume at old_ip:
 *    LOOP, LOOPE and LOOPNE have decremented their counter, and would decrement it twice. Jcc, JCXZ, JECXZ and JRCXZ
 *    have changed nothing.
 *  - At back_at it is complete: report old_ip + report->len.
 *
 * Two kinds of instruction leave an address of the code behind:
 *  - A CALL pushes the address after it in the code, place + done_at, which is place + back_at. The procedure returns
 *    there, and the jump back continues at the right address. Keep the code until then, or replace the pushed address
 *    by old_ip + report->len. Until the debugger replaces it, a procedure that reads its return address reads that of
 *    the code, and so does an unwinder. feddurzai_step_call makes code that pushes old_ip + report->len itself.
 *  - SYSCALL pushes nothing. It leaves the address after it, place + done_at, in RCX, and SYSRET returns there. Keep
 *    the code until the system call returns; the program sees the address of the code in RCX, unless the debugger
 *    replaces it by old_ip + report->len.
 *
 * To place the code of many threads, reserve feddurzai_step_len (or FEDDURZAI_MAX_STEP) bytes by
 * feddurzai_region_reserve, write the code by feddurzai_region_fill, and free it by feddurzai_region_release.
 *
 * Returns the number of bytes, or FEDDURZAI_BAD_MODE, _INVALID, _TOO_SHORT, _WRAPS (the code extends past the address
 * space of the mode), _TOO_FAR (the instruction cannot reach its target from `place`), _NO_ROOM. _NO_MEMORY may replace
 * any of those after _TOO_SHORT. The call allocates memory.
 *
 *     // call 0x2000 at 0x1000, to be stepped at 0x1800
 *     len = feddurzai_step(64, 0x1000, (const uint8_t *)"\xe8\xfb\x0f\x00\x00", 5, 0x1800, out, sizeof out, &report);
 *     // len is 10: e8 fb 07 00 00, call 0x2000, and e9 fb f7 ff ff, jmp 0x1005; done_at and back_at are 5
 *     // loop 0x1010 at 0x1000, to be stepped at 0x2000
 *     len = feddurzai_step(64, 0x1000, (const uint8_t *)"\xe2\x0e", 2, 0x2000, out, sizeof out, &report);
 *     // len is 14: e2 02 eb 05 e9 07 f0 ff ff, and e9 f4 ef ff ff, jmp 0x1002; done_at is 2 and back_at is 9
 */
int32_t feddurzai_step(uint32_t bits, uint64_t old_ip, const uint8_t *bytes, size_t len, uint64_t place, uint8_t *out,
    size_t room, feddurzai_step_report *report);

/*
 * Returns an upper bound of the bytes that feddurzai_step writes for this instruction at any place that is a multiple
 * of 16 bytes after `base`, as the places of a region with that base are: 1 to FEDDURZAI_MAX_STEP. Or
 * FEDDURZAI_BAD_MODE, _INVALID, _TOO_SHORT.
 */
int32_t feddurzai_step_len(uint32_t bits, uint64_t old_ip, const uint8_t *bytes, size_t len, uint64_t base);

/*
 * Makes code as feddurzai_step does, for a near CALL: the called code and an unwinder see the CALL's own return address.
 * The arguments are those of feddurzai_step; FEDDURZAI_MAX_STEP bytes are always enough.
 *
 * The code is `push` of the address after the CALL (old_ip + report->len, modulo 2^bits), in 64-bit mode followed by
 * `mov dword ptr [rsp+4]` of its high 32 bits, and a jump to the target of the CALL. It changes no flag and no register
 * but the stack pointer. There is no jump back, since the procedure returns to the program: back_at is 0, and the code
 * may be freed as soon as control has left it.
 *
 * done_at is the length of the PUSH. Before it nothing has happened: report old_ip, and resume there or at `place`. From
 * done_at on the CALL has begun: step on until control is outside the code, and never resume at old_ip. If the jump
 * faults there, because it cannot read its operand or its target, the stack already has the return address; CALL would
 * have left the stack as it was. To report the fault as one of the CALL, add the size of the address, bits / 8, to the
 * stack pointer and report old_ip.
 *
 * The jump reads its operand after the push. An operand at ESP or RSP is raised by bits / 8, so that it names the same
 * memory; one at RIP keeps its target. These calls have no such code, and are refused with FEDDURZAI_BAD_FORM:
 *  - a far CALL, a CALL with the prefix 66 outside 64-bit mode, and every instruction that is no CALL;
 *  - a CALL through SP, ESP or RSP itself, or through memory below it (call [rsp-8]), which the push changes;
 *  - a CALL whose displacement does not hold what it is raised to (call [rsp+0x7fffffff]).
 * Use feddurzai_step for them. Two more things differ from CALL: with shadow stacks (CET) the RET to a pushed address
 * faults, and in 16-bit code an operand at ESP is raised as if SP does not wrap.
 *
 * Returns the number of bytes, or FEDDURZAI_BAD_MODE, _INVALID, _TOO_SHORT, _BAD_FORM, _WRAPS, _TOO_FAR, _NO_ROOM.
 * _NO_MEMORY may replace any of those after _BAD_FORM. The call allocates memory.
 *
 *     // call 0x2000 at 0x1000, to be stepped at 0x1800
 *     len = feddurzai_step_call(64, 0x1000, (const uint8_t *)"\xe8\xfb\x0f\x00\x00", 5, 0x1800, out, sizeof out, &report);
 *     // len is 18: 68 05 10 00 00, push 0x1005; c7 44 24 04 00 00 00 00, mov dword ptr [rsp+4], 0; and e9 ee 07 00 00,
 *     // jmp 0x2000; done_at is 5 and back_at is 0
 */
int32_t feddurzai_step_call(uint32_t bits, uint64_t old_ip, const uint8_t *bytes, size_t len, uint64_t place,
    uint8_t *out, size_t room, feddurzai_step_report *report);

/*
 * Makes the code with which a debugger runs one instruction that the opcode table leaves out, as feddurzai_measure
 * measures it, at another address. The arguments are those of feddurzai_step; FEDDURZAI_MAX_STEP_UNLISTED bytes are
 * always enough. A debugger calls feddurzai_step first, and this function after _INVALID or _TOO_SHORT.
 *
 * The code is the instruction and a near jump back to the address after it, old_ip + report->len. If the instruction has
 * a relative number (feddurzai_shape), that is set so that it refers to the same address; every other byte stays. The
 * instruction has happened exactly if control is at back_at, which is the length of the instruction; done_at is the same.
 *
 * Returns the number of bytes, or FEDDURZAI_BAD_MODE, _INVALID, _TOO_SHORT (as feddurzai_measure), _WRAPS (the code extends
 * past the address space of the mode), _TOO_FAR (the instruction or the jump back does not reach its address from
 * `place`), _NO_ROOM.
 *
 *     // vpxord zmm0, zmm0, [rip+0x10] at 0x1000, to be stepped at 0x2000
 *     len = feddurzai_step_unlisted(64, 0x1000, (const uint8_t *)"\x62\xf1\x7d\x48\xef\x05\x10\x00\x00\x00", 10, 0x2000,
 *         out, sizeof out, &report);
 *     // len is 15: 62 f1 7d 48 ef 05 10 f0 ff ff, and e9 fb ef ff ff, jmp 0x100a; back_at is 10
 */
#define FEDDURZAI_MAX_STEP_UNLISTED 20
int32_t feddurzai_step_unlisted(uint32_t bits, uint64_t old_ip, const uint8_t *bytes, size_t len, uint64_t place,
    uint8_t *out, size_t room, feddurzai_step_report *report);

/* ---- control flow ------------------------------------------------------------------------------------------ */

/*
 * Follows control from the first byte of some code.
 *
 *  - bits: the mode.
 *  - base, bytes, len: the code and the address of its first byte; at most FEDDURZAI_MAX_CODE bytes.
 *  - starts, room: receive the offsets of the reached instructions, in ascending order. There are at most `len`.
 *  - leaders, leaders_room: receive, for each of them, the offset of the first instruction of its basic block.
 *
 * Jumps and calls are followed to targets inside the bytes, and every call is assumed to return. Indirect targets are
 * unknown. Where no instruction can be decoded, the offset is reached and control ends: this includes instructions that
 * the table does not have.
 *
 * Returns the number of reached offsets, or FEDDURZAI_BAD_MODE, _TOO_LARGE, _NO_MEMORY, _NO_ROOM (a buffer has fewer
 * elements). The call allocates memory.
 */
int32_t feddurzai_flow(uint32_t bits, uint64_t base, const uint8_t *bytes, size_t len, uint32_t *starts, size_t room,
    uint32_t *leaders, size_t leaders_room);

/* The kind of a reached offset: its flow, FEDDURZAI_FLOW_NEXT .., or one of these if no instruction is decoded there. */
enum {
    FEDDURZAI_KIND_TOO_SHORT = 0xfe,    /* the bytes end before the instruction does */
    FEDDURZAI_KIND_INVALID = 0xff       /* no instruction begins there */
};

/*
 * Follows control as feddurzai_flow does, from several offsets: the starts of functions, for example, or a .cold part
 * and the function that it belongs to.
 *
 *  - bits, base, bytes, len: as in feddurzai_flow, but at most FEDDURZAI_MAX_FLOW bytes.
 *  - entries, count: the offsets, in any order. Offsets of `len` or more and repeated ones are ignored. Each other one
 *    begins a basic block.
 *  - starts, room and leaders, leaders_room: as in feddurzai_flow.
 *  - kinds, kinds_room: receive, for each reached offset, the flow of its instruction, or FEDDURZAI_KIND_INVALID or
 *    _TOO_SHORT.
 *
 * With the one offset 0 the call writes the same starts and leaders as feddurzai_flow.
 *
 * Returns the number of reached offsets, at most `len`, or FEDDURZAI_BAD_MODE, _TOO_LARGE (more than FEDDURZAI_MAX_FLOW
 * bytes), _NO_MEMORY, _NO_ROOM (a buffer has fewer elements). The call allocates memory.
 *
 *     static const uint32_t entries[] = {0};
 *     // je 3; nop; ret
 *     len = feddurzai_flow_from(64, 0, (const uint8_t *)"\x74\x01\x90\xc3", 4, entries, 1, starts, 4, leaders, 4, kinds, 4);
 *     // len is 3: the offsets 0, 2 and 3 begin three basic blocks, and kinds[2] is FEDDURZAI_FLOW_RETURN
 */
int32_t feddurzai_flow_from(uint32_t bits, uint64_t base, const uint8_t *bytes, size_t len, const uint32_t *entries,
    size_t count, uint32_t *starts, size_t room, uint32_t *leaders, size_t leaders_room, uint8_t *kinds,
    size_t kinds_room);

/*
 * Follows control as feddurzai_flow_from does, and also through instructions that the opcode table leaves out, as far as
 * feddurzai_measure measures them: to the end of each, and from XBEGIN also to its target, where an aborted transaction
 * continues. Their kind is FEDDURZAI_FLOW_NEXT, that of XBEGIN FEDDURZAI_FLOW_CONDITIONAL. Arguments, answers and refusals
 * are those of feddurzai_flow_from.
 *
 *     // xbegin 7; nop; ret
 *     len = feddurzai_flow_unlisted(64, 0, (const uint8_t *)"\xc7\xf8\x01\x00\x00\x00\x90\xc3", 8, entries, 1, starts, 8,
 *         leaders, 8, kinds, 8);
 *     // len is 3: the offsets 0, 6 and 7 begin three basic blocks; feddurzai_flow_from returns 1
 */
int32_t feddurzai_flow_unlisted(uint32_t bits, uint64_t base, const uint8_t *bytes, size_t len, const uint32_t *entries,
    size_t count, uint32_t *starts, size_t room, uint32_t *leaders, size_t leaders_room, uint8_t *kinds,
    size_t kinds_room);

/* ---- hooks ------------------------------------------------------------------------------------------------- */

/* The target of a moved branch that went to the function's own start. */
enum {
    FEDDURZAI_START_MOVED = 0,      /* the moved first instruction: a loop stays in the trampoline */
    FEDDURZAI_START_HOOKED = 1      /* the start, and so the replacement: a recursive call is hooked too */
};

/* The form of the jump from the function to the replacement. */
enum {
    FEDDURZAI_DETOUR_NEAR = 1,      /* 5 bytes (3 in 16-bit code): a near jump */
    FEDDURZAI_DETOUR_RELAY = 2,     /* 64-bit mode, 5 bytes: a near jump to a relay after the trampoline */
    FEDDURZAI_DETOUR_ABSOLUTE = 3   /* 64-bit mode, 14 bytes: jmp [rip], and the address in the 8 bytes that follow */
};

#define FEDDURZAI_MAX_PATCH 28      /* the longest patch, in bytes */

/*
 * What feddurzai_detour reports. An absent part of the trampoline has the offset of the end, `bytes`. Other fields that
 * do not apply are 0.
 */
typedef struct feddurzai_detour_report {
    uint64_t taken;         /* the size of the patch: so many bytes of the function are overwritten */
    uint64_t bytes;         /* the size of the trampoline, which begins with the moved instructions */
    uint64_t jump_back;     /* the offset of its jump back to the function at `taken` */
    uint64_t slots_at;      /* the offset of the first of its slots of 8 bytes */
    uint64_t relay_at;      /* the offset of its relay, 14 bytes */
    uint64_t at;            /* _INVALID, _TOO_SHORT, _ENDS: the offset of the byte; _SMALL: the size of the function;
                               _ENTERED: the offset that control comes from; _TOO_FAR: the number of the instruction,
                               from 0 */
    uint64_t target;        /* _SMALL: the size of the jump; _ENTERED: the offset that control goes to; _TOO_FAR: the
                               target; _WRAPS: the end of the trampoline, modulo 2^64 */
    uint8_t form;           /* FEDDURZAI_DETOUR_NEAR .., 0 after a refusal */
} feddurzai_detour_report;

/*
 * Makes both parts of a hook. The patch overwrites the first bytes of the function and jumps to the replacement. The
 * trampoline runs the overwritten instructions and continues after them, so calling it is calling the original
 * function. The call writes both to buffers; writing them into the program is left to the caller. docs/hooks.md says
 * what a hook must take care of.
 *
 *  - bits: the mode.
 *  - ip, code, len: the function's address and its bytes from the first; at most FEDDURZAI_MAX_CODE. Give the whole
 *    function: a branch into the overwritten bytes is found in these bytes alone (_ENTERED), and only where control can
 *    be followed. Code that follows an indirect jump, or an instruction that the table does not have, may be missed.
 *  - to: the address of the replacement.
 *  - place: the address at which the trampoline will be placed. Within 2 gigabytes of the function the jump has 5
 *    bytes, wherever the replacement is.
 *  - start: FEDDURZAI_START_MOVED or FEDDURZAI_START_HOOKED.
 *  - patch, patch_room: receive the patch. FEDDURZAI_MAX_PATCH bytes are always enough.
 *  - trampoline, trampoline_room: receive the trampoline.
 *  - report: receives the sizes, also if a buffer is too small. A first call with two buffers of 0 elements reports the
 *    sizes that the second needs.
 *
 * The jump is the first of the three forms above that reaches. The taken instructions are the first ones, as few as
 * cover the jump; after one at which control ends (RET, JMP, UD2) only padding is taken. The patch is filled up with
 * CC. The trampoline has the taken instructions, moved as by feddurzai_move; a jump back, unless control ends in them;
 * and then a gap, slots and the relay as needed. A branch to a taken instruction follows it, a branch to the start goes
 * where `start` says, and every other target stays.
 *
 * Returns 0, or FEDDURZAI_BAD_MODE, _BAD_START, _TOO_LARGE (more than FEDDURZAI_MAX_CODE bytes); _INVALID or _TOO_SHORT
 * (no instruction is decoded in the part to be taken), _SMALL, _ENDS, _ENTERED, _WRAPS (the trampoline), _TOO_FAR,
 * _NO_ROOM. _NO_MEMORY may replace any of those after _TOO_LARGE. The call allocates memory.
 *
 *     // sub rsp, 0x18; xor eax, eax; ret
 *     static const uint8_t function[] = {0x48, 0x83, 0xec, 0x18, 0x31, 0xc0, 0xc3};
 *     said = feddurzai_detour(64, 0x1000, function, sizeof function, 0x2000, 0x3000, FEDDURZAI_START_MOVED,
 *         patch, sizeof patch, trampoline, sizeof trampoline, &report);
 *     // said is 0. The patch is jmp 0x2000 and int3; the trampoline is sub, xor and, at report.jump_back, jmp 0x1006
 */
int32_t feddurzai_detour(uint32_t bits, uint64_t ip, const uint8_t *code, size_t len, uint64_t to, uint64_t place,
    uint32_t start, uint8_t *patch, size_t patch_room, uint8_t *trampoline, size_t trampoline_room,
    feddurzai_detour_report *report);

/*
 * Makes both parts of a hook as feddurzai_detour does, also where the opcode table leaves out some instructions of the
 * function, as far as feddurzai_measure measures them. One that is taken is moved whole: its bytes, with the number at
 * RIP set so that it refers to the same address, or to the moved instruction that began there. Control is followed
 * through such instructions, and from XBEGIN also to its target, so code after them that enters the taken bytes is found
 * (_ENTERED). An XBEGIN with a 16-bit distance outside 16-bit mode counts as no instruction in the part to be taken.
 * Arguments, report and refusals are those of feddurzai_detour.
 *
 *     // vpxord zmm0, zmm0, [rip+0x10], which is 0x101a; ret
 *     static const uint8_t evex[] = {0x62, 0xf1, 0x7d, 0x48, 0xef, 0x05, 0x10, 0x00, 0x00, 0x00, 0xc3};
 *     said = feddurzai_detour_unlisted(64, 0x1000, evex, sizeof evex, 0x2000, 0x3000, FEDDURZAI_START_MOVED,
 *         patch, sizeof patch, trampoline, sizeof trampoline, &report);
 *     // said is 0. The trampoline is vpxord zmm0, zmm0, [rip-0x1ff0], which is 0x101a, and jmp 0x100a
 */
int32_t feddurzai_detour_unlisted(uint32_t bits, uint64_t ip, const uint8_t *code, size_t len, uint64_t to,
    uint64_t place, uint32_t start, uint8_t *patch, size_t patch_room, uint8_t *trampoline, size_t trampoline_room,
    feddurzai_detour_report *report);

/* Whether control after the overwritten bytes may go back to the start of the function. */
enum {
    FEDDURZAI_START_OPEN = 0,       /* it may */
    FEDDURZAI_START_CLOSED = 1      /* only calls may: a loop to the start would reach the replacement */
};

/* Why sight of a function ends. */
enum {
    FEDDURZAI_SIGHT_WHOLE = 0,          /* it does not end */
    FEDDURZAI_SIGHT_NOT_READ = 1,       /* no instruction of the table begins there */
    FEDDURZAI_SIGHT_INDIRECT_JUMP = 2,  /* a jump to an address in a register or in memory */
    FEDDURZAI_SIGHT_ENDED = 3           /* the code ends within the instruction, or control runs off its end */
};

/* What feddurzai_look sees. Offsets count from the first byte of the function; what is not there is 0. */
typedef struct feddurzai_view {
    uint64_t sight_at;          /* the first reached offset at which sight ends */
    uint64_t entered_from;      /* the first reached offset from which control enters the overwritten bytes */
    uint64_t entered_target;    /* the offset to which it goes */
    uint64_t inside;            /* the least entry within the overwritten bytes after the first one */
    uint64_t suspect_from;      /* if sight ends: the first offset that was not reached and would enter them */
    uint64_t suspect_target;    /* the offset to which it would go */
    uint8_t sight;              /* FEDDURZAI_SIGHT_WHOLE .. */
    uint8_t is_entered;         /* 1 if control enters */
    uint8_t has_inside;         /* 1 if an entry is within */
    uint8_t has_suspect;        /* 1 if there is a suspect */
} feddurzai_view;

/*
 * Looks at a function before a hook overwrites its first bytes: how far control can be followed, and whether it enters
 * those bytes. It refuses no function; what it reports is for the caller to weigh (docs/hooks.md, "What is seen").
 *
 *  - bits, ip, code, len: as in feddurzai_detour.
 *  - entries, entry_count: further offsets at which control comes in, in any order: targets of jump tables, landing
 *    pads, a .cold part. 0 adds nothing, and offsets of `len` or more are ignored.
 *  - taken: how many bytes the hook overwrites.
 *  - moved, moved_count: the offsets at which the instructions begin that it moves to its trampoline. Control may go
 *    from one of them to another.
 *  - start: FEDDURZAI_START_OPEN or FEDDURZAI_START_CLOSED.
 *  - view: receives what is seen.
 *
 * Control is followed from the first byte and the entries as by feddurzai_flow_from. It enters where it goes from
 * behind the overwritten bytes into them after the first one, or from a moved instruction to where none begins; with
 * FEDDURZAI_START_CLOSED also where it goes to the start from behind them, unless it is a call. If sight ends anywhere,
 * each offset behind the overwritten bytes that was not reached is read as an instruction too. The first one that would
 * enter in this way is the suspect; it may be data.
 *
 * Returns 0, or FEDDURZAI_BAD_MODE, _BAD_START, _TOO_LARGE (more than FEDDURZAI_MAX_CODE bytes), _NO_MEMORY; then *view is
 * unchanged. The call allocates memory.
 *
 *     static const uint32_t moved_at[] = {0};
 *     // jmp rax; three nops; jmp 0
 *     said = feddurzai_look(64, 0x1000, (const uint8_t *)"\xff\xe0\x90\x90\x90\xeb\xf9", 7, NULL, 0, 5, moved_at, 1,
 *         FEDDURZAI_START_CLOSED, &view);
 *     // said is 0. Sight ends at 0, FEDDURZAI_SIGHT_INDIRECT_JUMP, and the jump at 5 is a suspect: it goes to 0
 */
int32_t feddurzai_look(uint32_t bits, uint64_t ip, const uint8_t *code, size_t len, const uint32_t *entries,
    size_t entry_count, uint64_t taken, const uint32_t *moved, size_t moved_count, uint32_t start, feddurzai_view *view);

/* A moved instruction of a detour. */
typedef struct feddurzai_moved_start {
    uint64_t start;         /* the offset at which it begins in the function */
    uint64_t place;         /* the offset at which its image begins in the trampoline */
} feddurzai_moved_start;

/* What feddurzai_detour_with reports. */
typedef struct feddurzai_hook_report {
    feddurzai_detour_report detour;     /* as of feddurzai_detour; _CALLS: `at` is the offset of the call; _UNSEEN: `at` is
                                           the offset at which sight ends, and `target` is why, FEDDURZAI_SIGHT_NOT_READ
                                           ..; _OVERLAPS: both are 0 */
    feddurzai_view view;                /* what is seen of the function; all 0 after a refusal */
    uint64_t moved;                     /* the number of moved instructions; 0 after a refusal */
    uint64_t call;                      /* the offset of the first call that is moved as it is: what it calls sees a
                                           return address in the trampoline. If there is none, .detour.taken; 0 after a
                                           refusal */
} feddurzai_hook_report;

/* Rules of feddurzai_detour_with, to be added. */
enum {
    FEDDURZAI_RULE_WHOLE = 1,           /* refuse a function of which not everything is seen (_UNSEEN) */
    FEDDURZAI_RULE_RETURNS = 2,         /* a near call that is the last moved instruction pushes the address behind it in
                                           the function and jumps, where it can: what it calls sees the return address
                                           that it always saw, and returns into the function. Not for a process with a
                                           shadow stack (CET) */
    FEDDURZAI_RULE_NO_CALLS = 4         /* refuse any other moved call (_CALLS) */
};

/*
 * Makes a hook by rules: as feddurzai_detour does, but an operand at RIP or EIP keeps its address even if that is in the
 * overwritten bytes, as the base of position-independent code is. The call looks at the function as feddurzai_look does,
 * and refuses the hook if control is seen to enter the overwritten bytes. docs/hooks.md says what the rules are.
 *
 *  - bits, ip, code, len, to, place, start: as in feddurzai_detour.
 *  - rules: FEDDURZAI_RULE_WHOLE .., added, or 0. More than 7 is _BAD_START.
 *  - entries, entry_count: further offsets at which control comes in, as in feddurzai_look.
 *  - patch, patch_room and trampoline, trampoline_room: as in feddurzai_detour.
 *  - moved, moved_room: receive the moved instructions, in order. There are at most as many as the patch has bytes.
 *  - report: receives the report. If a buffer is too small, it has the sizes, the view and the number of moved
 *    instructions all the same; after any other refusal it has the numbers of that refusal.
 *
 * Refused are a trampoline that would lie in the bytes of the function; a moved call, if FEDDURZAI_RULE_NO_CALLS asks for
 * that and it does not push its own return address; an entry within the overwritten bytes after the
 * first one; and a way into them that feddurzai_look reports: from behind them, after the first byte, or from a moved
 * instruction to where none begins. With FEDDURZAI_START_MOVED a way from behind them to the start is refused too,
 * unless it is a call, since it would reach the replacement in mid-function.
 *
 * Returns 0, or the refusals of feddurzai_detour before _NO_ROOM; then _OVERLAPS, _CALLS, _ENTERED, _UNSEEN, _NO_ROOM.
 * _ENTERED reports an entry within as both offsets. _NO_MEMORY may replace any of those after _TOO_LARGE. The call
 * allocates memory.
 *
 *     // mov rax, [rdi]; mov rcx, rax; an instruction that the table does not have; jmp to the second one; ret
 *     static const uint8_t partly_seen[] = {0x48, 0x8b, 0x07, 0x48, 0x89, 0xc1, 0x62, 0xf1, 0x7c, 0x48, 0x28, 0xc1,
 *         0xeb, 0xf5, 0xc3};
 *     said = feddurzai_detour_with(64, 0x1000, partly_seen, sizeof partly_seen, 0x2000, 0x3000, FEDDURZAI_START_MOVED,
 *         FEDDURZAI_RULE_WHOLE, NULL, 0, patch, sizeof patch, trampoline, sizeof trampoline, moved, 2, &hook);
 *     // said is FEDDURZAI_UNSEEN, and hook.detour.at is 6. Without whole sight it is 0, and moved[1] has 3 and 3
 */
int32_t feddurzai_detour_with(uint32_t bits, uint64_t ip, const uint8_t *code, size_t len, uint64_t to, uint64_t place,
    uint32_t start, uint32_t rules, const uint32_t *entries, size_t entry_count, uint8_t *patch, size_t patch_room,
    uint8_t *trampoline, size_t trampoline_room, feddurzai_moved_start *moved, size_t moved_room,
    feddurzai_hook_report *report);

#define FEDDURZAI_MAX_TRAMPOLINE 400    /* the longest trampoline of a detour, in bytes */

/*
 * Returns how many bytes are enough for the trampoline of feddurzai_detour_with at any place, so that a place for it can
 * be reserved first (feddurzai_region_reserve). It is at most FEDDURZAI_MAX_TRAMPOLINE, and 0 if there is no detour at
 * any place. Without FEDDURZAI_RULE_RETURNS it is enough for feddurzai_detour too; for feddurzai_detour_endbr reserve 4
 * bytes more.
 *
 *  - bits, ip, code, len, to, start, rules: as in feddurzai_detour_with.
 *
 * Returns the length, or FEDDURZAI_BAD_MODE, _BAD_START, _TOO_LARGE, _NO_MEMORY. The call allocates memory.
 *
 *     // sub rsp, 0x18; xor eax, eax; ret
 *     static const uint8_t short_one[] = {0x48, 0x83, 0xec, 0x18, 0x31, 0xc0, 0xc3};
 *     said = feddurzai_detour_len(64, 0x1000, short_one, sizeof short_one, 0x2000, FEDDURZAI_START_MOVED, 0);
 *     // said is 27: sub, xor, the longest form of the jump back, a gap of 7 bytes and a slot
 */
int32_t feddurzai_detour_len(uint32_t bits, uint64_t ip, const uint8_t *code, size_t len, uint64_t to, uint32_t start,
    uint32_t rules);

/* What feddurzai_detour_endbr reports. */
typedef struct feddurzai_kept_report {
    feddurzai_hook_report hook;         /* the report of the function behind the kept bytes: its offsets count from there, in
                                           the function and in the trampoline */
    uint64_t kept;                      /* the number of first bytes of the function that stay, 4 or 0; after a refusal, the
                                           offset in the function from which the numbers of the refusal count */
} feddurzai_kept_report;

/*
 * Makes a hook by rules that keeps an ENDBR64 (64-bit mode) or ENDBR32 (32-bit mode) at the start of the function, so that
 * calls through pointers keep working under indirect-branch tracking. Write the patch to the function's address plus
 * report.kept. The trampoline begins with the kept bytes too. A function that begins with none gets the hook of
 * feddurzai_detour_with, and report.kept is 0.
 *
 *  - bits, ip, code, len, to, place, start, rules, entries, entry_count: as in feddurzai_detour_with, of the whole
 *    function and the whole trampoline.
 *  - patch, patch_room, moved, moved_room: as in feddurzai_detour_with, counted from behind the kept bytes.
 *  - trampoline, trampoline_room: receive the trampoline, report.kept + report.hook.detour.bytes bytes.
 *  - report: receives the report.
 *
 * Returns 0, or what feddurzai_detour_with returns; _ENTERED first if control is seen to enter the kept bytes after the first
 * one, or with FEDDURZAI_START_MOVED to go back to the first one from behind them, unless it is a call.
 *
 *     // endbr64; sub rsp, 0x18; xor eax, eax; ret
 *     static const uint8_t tracked[] = {0xf3, 0x0f, 0x1e, 0xfa, 0x48, 0x83, 0xec, 0x18, 0x31, 0xc0, 0xc3};
 *     said = feddurzai_detour_endbr(64, 0x1000, tracked, sizeof tracked, 0x2000, 0x3000, FEDDURZAI_START_MOVED, 0, NULL, 0,
 *         patch, sizeof patch, trampoline, sizeof trampoline, moved, 4, &kept);
 *     // said is 0 and kept.kept is 4. The patch is jmp 0x2000 and int3, for 0x1004; the trampoline is endbr64, sub, xor and
 *     // jmp 0x100a
 */
int32_t feddurzai_detour_endbr(uint32_t bits, uint64_t ip, const uint8_t *code, size_t len, uint64_t to, uint64_t place,
    uint32_t start, uint32_t rules, const uint32_t *entries, size_t entry_count, uint8_t *patch, size_t patch_room,
    uint8_t *trampoline, size_t trampoline_room, feddurzai_moved_start *moved, size_t moved_room,
    feddurzai_kept_report *report);

/* What feddurzai_detour_padding reports. */
typedef struct feddurzai_padded_report {
    feddurzai_hook_report hook;         /* as of feddurzai_detour_with; the form is that of the near jump. _PADDING: `at` is the
                                           first offset in the padding at which no padding begins; or it is the number of
                                           its bytes, and `target` how many are needed */
    uint64_t jump;                      /* the size of the near jump; 0 after a refusal */
    uint64_t padding;                   /* 1 after a refusal that is about the padding or the near jump, else 0: offsets of
                                           _ENTERED then count from the first byte of the padding, and _TOO_FAR is the near
                                           jump's */
} feddurzai_padded_report;

/*
 * Makes a hook by rules of a function that is too small for the near jump but has padding in front of it: a near jump over
 * the last bytes of the padding goes to the replacement, and a short jump of 2 bytes over the first bytes of the function
 * goes to the near jump. Write the near jump first, to the function's address minus report.jump.
 *
 *  - bits, ip, code, len, to, place, start, rules, entries, entry_count: as in feddurzai_detour_with.
 *  - padding, padding_len: the bytes directly in front of the function. The caller knows that they belong to no function.
 *  - jump, jump_room: receive the near jump, 5 bytes, or 3 in 16-bit code.
 *  - patch, patch_room, trampoline, trampoline_room, moved, moved_room: as in feddurzai_detour_with.
 *  - report: receives the report.
 *
 * Returns 0, or FEDDURZAI_BAD_MODE, _BAD_START, _TOO_LARGE; _PADDING (too few bytes; or not all are NOPs of any length and
 * INT3), _ENTERED (control is seen to go into the padding); the refusals of feddurzai_detour about the bytes that the short
 * jump takes; _TOO_FAR (the near jump reaches neither the replacement nor, in 64-bit mode, a relay after the trampoline);
 * and then what feddurzai_detour_with returns, _OVERLAPS also for a trampoline in the padding. The call allocates memory.
 *
 *     // five bytes of padding; then mov eax, edi; ret
 *     static const uint8_t small_one[] = {0xcc, 0xcc, 0xcc, 0xcc, 0xcc, 0x89, 0xf8, 0xc3};
 *     said = feddurzai_detour_padding(64, 0x1000, small_one, 5, small_one + 5, 3, 0x2000, 0x3000, FEDDURZAI_START_MOVED, 0,
 *         NULL, 0, jump, sizeof jump, patch, sizeof patch, trampoline, sizeof trampoline, moved, 4, &padded);
 *     // said is 0. The near jump is jmp 0x2000, for 0xffb; the patch is jmp short 0xffb; the trampoline is mov and jmp 0x1002
 */
int32_t feddurzai_detour_padding(uint32_t bits, uint64_t ip, const uint8_t *padding, size_t padding_len, const uint8_t *code,
    size_t len, uint64_t to, uint64_t place, uint32_t start, uint32_t rules, const uint32_t *entries, size_t entry_count,
    uint8_t *jump, size_t jump_room, uint8_t *patch, size_t patch_room, uint8_t *trampoline, size_t trampoline_room,
    feddurzai_moved_start *moved, size_t moved_room, feddurzai_padded_report *report);

/* ---- null pointers ----------------------------------------------------------------------------------------- */

/*
 * The library does not test for NULL. The functions below do: they return FEDDURZAI_NULL and write nothing if a pointer
 * is NULL that may not be, and else call the library's function. The macros at the end give them the library's names,
 * in calls and as addresses. `#undef feddurzai_decode` makes the name the library's again.
 */

/* Whether a pointer to `count` elements is NULL although `count` is not 0. */
static inline int feddurzai_is_null(const void *pointer, size_t count)
{
    return pointer == NULL && count != 0;
}

static inline int32_t feddurzai_checked_decode(uint32_t bits, uint64_t ip, const uint8_t *bytes, size_t len,
    feddurzai_instr *instr)
{
    if (feddurzai_is_null(bytes, len) || instr == NULL)
        return FEDDURZAI_NULL;
    return feddurzai_decode(bits, ip, bytes, len, instr);
}

static inline int32_t feddurzai_checked_decode_many(uint32_t bits, uint64_t ip, const uint8_t *bytes, size_t len,
    feddurzai_instr *instrs, size_t room, size_t *count)
{
    if (feddurzai_is_null(bytes, len) || feddurzai_is_null(instrs, room) || count == NULL)
        return FEDDURZAI_NULL;
    return feddurzai_decode_many(bits, ip, bytes, len, instrs, room, count);
}

static inline int32_t feddurzai_checked_offsets(uint32_t bits, const uint8_t *bytes, size_t len, feddurzai_byte_offsets *parts)
{
    return feddurzai_is_null(bytes, len) || parts == NULL ? FEDDURZAI_NULL : feddurzai_offsets(bits, bytes, len, parts);
}

static inline int32_t feddurzai_checked_measure(uint32_t bits, const uint8_t *bytes, size_t len, feddurzai_shape *shape)
{
    return feddurzai_is_null(bytes, len) || shape == NULL ? FEDDURZAI_NULL : feddurzai_measure(bits, bytes, len, shape);
}

/* instr may be NULL: then the instruction is not returned */
static inline int32_t feddurzai_checked_line(uint32_t bits, uint32_t syntax, uint64_t ip, const uint8_t *bytes, size_t len,
    feddurzai_instr *instr, char *text, size_t room)
{
    if (feddurzai_is_null(bytes, len) || feddurzai_is_null(text, room))
        return FEDDURZAI_NULL;
    if (instr == NULL)
        return feddurzai_line_text(bits, syntax, ip, bytes, len, text, room);
    return feddurzai_line(bits, syntax, ip, bytes, len, instr, text, room);
}

static inline int32_t feddurzai_checked_line_text(uint32_t bits, uint32_t syntax, uint64_t ip, const uint8_t *bytes,
    size_t len, char *text, size_t room)
{
    if (feddurzai_is_null(bytes, len) || feddurzai_is_null(text, room))
        return FEDDURZAI_NULL;
    return feddurzai_line_text(bits, syntax, ip, bytes, len, text, room);
}

static inline int32_t feddurzai_checked_text(uint32_t bits, uint32_t syntax, const feddurzai_instr *instr, char *out,
    size_t room)
{
    if (instr == NULL || feddurzai_is_null(out, room))
        return FEDDURZAI_NULL;
    return feddurzai_text(bits, syntax, instr, out, room);
}

static inline int32_t feddurzai_checked_pieces(uint32_t bits, uint32_t syntax, const feddurzai_instr *instr, char *text,
    size_t room, feddurzai_piece *pieces, size_t count)
{
    if (instr == NULL || feddurzai_is_null(text, room) || feddurzai_is_null(pieces, count))
        return FEDDURZAI_NULL;
    return feddurzai_pieces(bits, syntax, instr, text, room, pieces, count);
}

/* options may be NULL: then all are 0 */
static inline int32_t feddurzai_checked_format(uint32_t bits, uint32_t syntax, const feddurzai_options *options,
    const feddurzai_instr *instr, uint64_t end, const char *name, size_t name_len, uint64_t offset, char *out, size_t room)
{
    static const feddurzai_options none = {0, 0, 0, 0, 0, 0, 0, 0, 0, 0, 0, 0, 0};
    if (instr == NULL || feddurzai_is_null(name, name_len) || feddurzai_is_null(out, room))
        return FEDDURZAI_NULL;
    return feddurzai_format(bits, syntax, options == NULL ? &none : options, instr, end, name, name_len, offset, out, room);
}

/* options may be NULL: then all are 0 */
static inline int32_t feddurzai_checked_format_code(uint32_t bits, uint32_t syntax, const feddurzai_options *options,
    const uint8_t *code, size_t code_len, const feddurzai_instr *instr, uint64_t end, const char *name, size_t name_len,
    uint64_t offset, char *out, size_t room)
{
    static const feddurzai_options none = {0, 0, 0, 0, 0, 0, 0, 0, 0, 0, 0, 0, 0};
    if (feddurzai_is_null(code, code_len) || instr == NULL || feddurzai_is_null(name, name_len) || feddurzai_is_null(out, room))
        return FEDDURZAI_NULL;
    return feddurzai_format_code(bits, syntax, options == NULL ? &none : options, code, code_len, instr, end, name, name_len,
        offset, out, room);
}

static inline int32_t feddurzai_checked_encode(uint32_t bits, uint64_t ip, const feddurzai_instr *instr, uint8_t *out,
    size_t room)
{
    if (instr == NULL || feddurzai_is_null(out, room))
        return FEDDURZAI_NULL;
    return feddurzai_encode(bits, ip, instr, out, room);
}

static inline int32_t feddurzai_checked_encoded_len(uint32_t bits, uint64_t ip, const feddurzai_instr *instr)
{
    if (instr == NULL)
        return FEDDURZAI_NULL;
    return feddurzai_encoded_len(bits, ip, instr);
}

static inline int32_t feddurzai_checked_assemble(uint32_t bits, uint64_t ip, const char *text, size_t len, uint8_t *out,
    size_t room)
{
    if (feddurzai_is_null(text, len) || feddurzai_is_null(out, room))
        return FEDDURZAI_NULL;
    return feddurzai_assemble(bits, ip, text, len, out, room);
}

static inline int32_t feddurzai_checked_read_intel(uint32_t bits, uint64_t ip, const char *text, size_t len,
    feddurzai_instr *instr)
{
    if (feddurzai_is_null(text, len) || instr == NULL)
        return FEDDURZAI_NULL;
    return feddurzai_read_intel(bits, ip, text, len, instr);
}

static inline int32_t feddurzai_checked_assemble_code(uint32_t bits, uint64_t base, const char *text, size_t len,
    const char *names, size_t names_len, uint8_t *code, size_t room, feddurzai_label *labels, size_t label_room,
    feddurzai_routine_report *report)
{
    if (feddurzai_is_null(text, len) || feddurzai_is_null(names, names_len) || feddurzai_is_null(code, room))
        return FEDDURZAI_NULL;
    if (feddurzai_is_null(labels, label_room) || report == NULL)
        return FEDDURZAI_NULL;
    return feddurzai_assemble_code(bits, base, text, len, names, names_len, code, room, labels, label_room, report);
}

static inline int32_t feddurzai_checked_assemble_code_near(uint32_t bits, uint64_t base, const char *text, size_t len,
    const char *names, size_t names_len, uint8_t *code, size_t room, feddurzai_label *labels, size_t label_room,
    feddurzai_routine_report *report)
{
    if (feddurzai_is_null(text, len) || feddurzai_is_null(names, names_len) || feddurzai_is_null(code, room))
        return FEDDURZAI_NULL;
    if (feddurzai_is_null(labels, label_room) || report == NULL)
        return FEDDURZAI_NULL;
    return feddurzai_assemble_code_near(bits, base, text, len, names, names_len, code, room, labels, label_room, report);
}

static inline int32_t feddurzai_checked_jump(uint32_t bits, uint64_t at, uint64_t target, uint32_t form, uint8_t *out,
    size_t room)
{
    if (feddurzai_is_null(out, room))
        return FEDDURZAI_NULL;
    return feddurzai_jump(bits, at, target, form, out, room);
}

static inline int32_t feddurzai_checked_register_text(uint32_t syntax, uint8_t reg_class, uint8_t reg_number, char *out,
    size_t room)
{
    if (feddurzai_is_null(out, room))
        return FEDDURZAI_NULL;
    return feddurzai_register_text(syntax, reg_class, reg_number, out, room);
}

static inline int32_t feddurzai_checked_segment_text(uint32_t syntax, uint8_t segment, char *out, size_t room)
{
    if (feddurzai_is_null(out, room))
        return FEDDURZAI_NULL;
    return feddurzai_segment_text(syntax, segment, out, room);
}

static inline int32_t feddurzai_checked_info(const feddurzai_instr *instr, feddurzai_about *about)
{
    if (instr == NULL || about == NULL)
        return FEDDURZAI_NULL;
    return feddurzai_info(instr, about);
}

static inline int32_t feddurzai_checked_effects(uint32_t bits, const feddurzai_instr *instr, feddurzai_touched *touched)
{
    if (instr == NULL || touched == NULL)
        return FEDDURZAI_NULL;
    return feddurzai_effects(bits, instr, touched);
}

static inline int32_t feddurzai_checked_feature_name(uint32_t bit, char *out, size_t room)
{
    if (feddurzai_is_null(out, room))
        return FEDDURZAI_NULL;
    return feddurzai_feature_name(bit, out, room);
}

static inline int32_t feddurzai_checked_name(uint32_t code, char *out, size_t room)
{
    if (feddurzai_is_null(out, room))
        return FEDDURZAI_NULL;
    return feddurzai_name(code, out, room);
}

static inline int32_t feddurzai_checked_notation(uint32_t code, char *out, size_t room)
{
    if (feddurzai_is_null(out, room))
        return FEDDURZAI_NULL;
    return feddurzai_notation(code, out, room);
}

static inline int32_t feddurzai_checked_row_operand(uint32_t code, uint32_t index, uint8_t *access, char *kind, size_t room)
{
    if (access == NULL || feddurzai_is_null(kind, room))
        return FEDDURZAI_NULL;
    return feddurzai_row_operand(code, index, access, kind, room);
}

static inline int32_t feddurzai_checked_code_of(const char *name, size_t len, size_t n)
{
    if (feddurzai_is_null(name, len))
        return FEDDURZAI_NULL;
    return feddurzai_code_of(name, len, n);
}

static inline int32_t feddurzai_checked_move(uint32_t bits, uint64_t old_ip, const uint8_t *bytes, size_t len,
    uint64_t new_ip, uint8_t *out, size_t room, feddurzai_moved *map, size_t map_room, feddurzai_move_report *report)
{
    if (feddurzai_is_null(bytes, len) || feddurzai_is_null(out, room) || feddurzai_is_null(map, map_room))
        return FEDDURZAI_NULL;
    if (report == NULL)
        return FEDDURZAI_NULL;
    return feddurzai_move(bits, old_ip, bytes, len, new_ip, out, room, map, map_room, report);
}

static inline int32_t feddurzai_checked_move_outside(uint32_t bits, uint64_t old_ip, const uint8_t *bytes, size_t len,
    uint64_t new_ip, uint8_t *out, size_t room, feddurzai_moved *map, size_t map_room, feddurzai_move_report *report)
{
    if (feddurzai_is_null(bytes, len) || feddurzai_is_null(out, room) || feddurzai_is_null(map, map_room))
        return FEDDURZAI_NULL;
    if (report == NULL)
        return FEDDURZAI_NULL;
    return feddurzai_move_outside(bits, old_ip, bytes, len, new_ip, out, room, map, map_room, report);
}

static inline int32_t feddurzai_checked_move_unlisted(uint32_t bits, uint64_t old_ip, const uint8_t *bytes, size_t len,
    uint64_t new_ip, uint8_t *out, size_t room, feddurzai_moved *map, size_t map_room, feddurzai_move_report *report)
{
    if (feddurzai_is_null(bytes, len) || feddurzai_is_null(out, room) || feddurzai_is_null(map, map_room))
        return FEDDURZAI_NULL;
    if (report == NULL)
        return FEDDURZAI_NULL;
    return feddurzai_move_unlisted(bits, old_ip, bytes, len, new_ip, out, room, map, map_room, report);
}

static inline int32_t feddurzai_checked_move_blocks(uint32_t bits, const uint8_t *bytes, size_t len,
    const feddurzai_block *blocks, size_t count, uint8_t *out, size_t room, feddurzai_placed_block *places,
    size_t places_room, feddurzai_moved *map, size_t map_room, feddurzai_blocks_report *report)
{
    if (feddurzai_is_null(bytes, len) || feddurzai_is_null(blocks, count) || feddurzai_is_null(out, room))
        return FEDDURZAI_NULL;
    if (feddurzai_is_null(places, places_room) || feddurzai_is_null(map, map_room) || report == NULL)
        return FEDDURZAI_NULL;
    return feddurzai_move_blocks(bits, bytes, len, blocks, count, out, room, places, places_room, map, map_room, report);
}

static inline int32_t feddurzai_checked_region_reserve(feddurzai_region *region, feddurzai_live *blocks, size_t room,
    uint64_t len, uint64_t *place)
{
    if (region == NULL || feddurzai_is_null(blocks, room) || place == NULL)
        return FEDDURZAI_NULL;
    return feddurzai_region_reserve(region, blocks, room, len, place);
}

static inline int32_t feddurzai_checked_region_release(feddurzai_region *region, feddurzai_live *blocks, size_t room,
    uint64_t place)
{
    if (region == NULL || feddurzai_is_null(blocks, room))
        return FEDDURZAI_NULL;
    return feddurzai_region_release(region, blocks, room, place);
}

static inline int32_t feddurzai_checked_region_fill(const feddurzai_region *region, const feddurzai_live *blocks,
    size_t room, uint64_t place, const uint8_t *bytes, size_t len, uint8_t *image, size_t image_len)
{
    if (region == NULL || feddurzai_is_null(blocks, room))
        return FEDDURZAI_NULL;
    if (feddurzai_is_null(bytes, len) || feddurzai_is_null(image, image_len))
        return FEDDURZAI_NULL;
    return feddurzai_region_fill(region, blocks, room, place, bytes, len, image, image_len);
}

static inline int32_t feddurzai_checked_step(uint32_t bits, uint64_t old_ip, const uint8_t *bytes, size_t len,
    uint64_t place, uint8_t *out, size_t room, feddurzai_step_report *report)
{
    if (feddurzai_is_null(bytes, len) || feddurzai_is_null(out, room) || report == NULL)
        return FEDDURZAI_NULL;
    return feddurzai_step(bits, old_ip, bytes, len, place, out, room, report);
}

static inline int32_t feddurzai_checked_step_len(uint32_t bits, uint64_t old_ip, const uint8_t *bytes, size_t len,
    uint64_t base)
{
    if (feddurzai_is_null(bytes, len))
        return FEDDURZAI_NULL;
    return feddurzai_step_len(bits, old_ip, bytes, len, base);
}

static inline int32_t feddurzai_checked_step_call(uint32_t bits, uint64_t old_ip, const uint8_t *bytes, size_t len,
    uint64_t place, uint8_t *out, size_t room, feddurzai_step_report *report)
{
    if (feddurzai_is_null(bytes, len) || feddurzai_is_null(out, room) || report == NULL)
        return FEDDURZAI_NULL;
    return feddurzai_step_call(bits, old_ip, bytes, len, place, out, room, report);
}

static inline int32_t feddurzai_checked_step_unlisted(uint32_t bits, uint64_t old_ip, const uint8_t *bytes, size_t len,
    uint64_t place, uint8_t *out, size_t room, feddurzai_step_report *report)
{
    if (feddurzai_is_null(bytes, len) || feddurzai_is_null(out, room) || report == NULL)
        return FEDDURZAI_NULL;
    return feddurzai_step_unlisted(bits, old_ip, bytes, len, place, out, room, report);
}

static inline int32_t feddurzai_checked_flow(uint32_t bits, uint64_t base, const uint8_t *bytes, size_t len,
    uint32_t *starts, size_t room, uint32_t *leaders, size_t leaders_room)
{
    if (feddurzai_is_null(bytes, len) || feddurzai_is_null(starts, room) || feddurzai_is_null(leaders, leaders_room))
        return FEDDURZAI_NULL;
    return feddurzai_flow(bits, base, bytes, len, starts, room, leaders, leaders_room);
}

static inline int32_t feddurzai_checked_flow_from(uint32_t bits, uint64_t base, const uint8_t *bytes, size_t len,
    const uint32_t *entries, size_t count, uint32_t *starts, size_t room, uint32_t *leaders, size_t leaders_room,
    uint8_t *kinds, size_t kinds_room)
{
    if (feddurzai_is_null(bytes, len) || feddurzai_is_null(entries, count) || feddurzai_is_null(starts, room))
        return FEDDURZAI_NULL;
    if (feddurzai_is_null(leaders, leaders_room) || feddurzai_is_null(kinds, kinds_room))
        return FEDDURZAI_NULL;
    return feddurzai_flow_from(bits, base, bytes, len, entries, count, starts, room, leaders, leaders_room, kinds,
        kinds_room);
}

static inline int32_t feddurzai_checked_flow_unlisted(uint32_t bits, uint64_t base, const uint8_t *bytes, size_t len,
    const uint32_t *entries, size_t count, uint32_t *starts, size_t room, uint32_t *leaders, size_t leaders_room,
    uint8_t *kinds, size_t kinds_room)
{
    if (feddurzai_is_null(bytes, len) || feddurzai_is_null(entries, count) || feddurzai_is_null(starts, room))
        return FEDDURZAI_NULL;
    if (feddurzai_is_null(leaders, leaders_room) || feddurzai_is_null(kinds, kinds_room))
        return FEDDURZAI_NULL;
    return feddurzai_flow_unlisted(bits, base, bytes, len, entries, count, starts, room, leaders, leaders_room, kinds,
        kinds_room);
}

static inline int32_t feddurzai_checked_detour(uint32_t bits, uint64_t ip, const uint8_t *code, size_t len, uint64_t to,
    uint64_t place, uint32_t start, uint8_t *patch, size_t patch_room, uint8_t *trampoline, size_t trampoline_room,
    feddurzai_detour_report *report)
{
    if (feddurzai_is_null(code, len) || feddurzai_is_null(patch, patch_room))
        return FEDDURZAI_NULL;
    if (feddurzai_is_null(trampoline, trampoline_room) || report == NULL)
        return FEDDURZAI_NULL;
    return feddurzai_detour(bits, ip, code, len, to, place, start, patch, patch_room, trampoline, trampoline_room, report);
}

static inline int32_t feddurzai_checked_detour_unlisted(uint32_t bits, uint64_t ip, const uint8_t *code, size_t len,
    uint64_t to, uint64_t place, uint32_t start, uint8_t *patch, size_t patch_room, uint8_t *trampoline,
    size_t trampoline_room, feddurzai_detour_report *report)
{
    if (feddurzai_is_null(code, len) || feddurzai_is_null(patch, patch_room))
        return FEDDURZAI_NULL;
    if (feddurzai_is_null(trampoline, trampoline_room) || report == NULL)
        return FEDDURZAI_NULL;
    return feddurzai_detour_unlisted(bits, ip, code, len, to, place, start, patch, patch_room, trampoline,
        trampoline_room, report);
}

static inline int32_t feddurzai_checked_look(uint32_t bits, uint64_t ip, const uint8_t *code, size_t len,
    const uint32_t *entries, size_t entry_count, uint64_t taken, const uint32_t *moved, size_t moved_count, uint32_t start,
    feddurzai_view *view)
{
    if (feddurzai_is_null(code, len) || feddurzai_is_null(entries, entry_count))
        return FEDDURZAI_NULL;
    if (feddurzai_is_null(moved, moved_count) || view == NULL)
        return FEDDURZAI_NULL;
    return feddurzai_look(bits, ip, code, len, entries, entry_count, taken, moved, moved_count, start, view);
}

static inline int32_t feddurzai_checked_detour_with(uint32_t bits, uint64_t ip, const uint8_t *code, size_t len,
    uint64_t to, uint64_t place, uint32_t start, uint32_t rules, const uint32_t *entries, size_t entry_count,
    uint8_t *patch, size_t patch_room, uint8_t *trampoline, size_t trampoline_room, feddurzai_moved_start *moved,
    size_t moved_room, feddurzai_hook_report *report)
{
    if (feddurzai_is_null(code, len) || feddurzai_is_null(entries, entry_count) || feddurzai_is_null(patch, patch_room))
        return FEDDURZAI_NULL;
    if (feddurzai_is_null(trampoline, trampoline_room) || feddurzai_is_null(moved, moved_room) || report == NULL)
        return FEDDURZAI_NULL;
    return feddurzai_detour_with(bits, ip, code, len, to, place, start, rules, entries, entry_count, patch, patch_room,
        trampoline, trampoline_room, moved, moved_room, report);
}

static inline int32_t feddurzai_checked_detour_len(uint32_t bits, uint64_t ip, const uint8_t *code, size_t len, uint64_t to,
    uint32_t start, uint32_t rules)
{
    if (feddurzai_is_null(code, len))
        return FEDDURZAI_NULL;
    return feddurzai_detour_len(bits, ip, code, len, to, start, rules);
}

static inline int32_t feddurzai_checked_detour_endbr(uint32_t bits, uint64_t ip, const uint8_t *code, size_t len,
    uint64_t to, uint64_t place, uint32_t start, uint32_t rules, const uint32_t *entries, size_t entry_count,
    uint8_t *patch, size_t patch_room, uint8_t *trampoline, size_t trampoline_room, feddurzai_moved_start *moved,
    size_t moved_room, feddurzai_kept_report *report)
{
    if (feddurzai_is_null(code, len) || feddurzai_is_null(entries, entry_count) || feddurzai_is_null(patch, patch_room))
        return FEDDURZAI_NULL;
    if (feddurzai_is_null(trampoline, trampoline_room) || feddurzai_is_null(moved, moved_room) || report == NULL)
        return FEDDURZAI_NULL;
    return feddurzai_detour_endbr(bits, ip, code, len, to, place, start, rules, entries, entry_count, patch, patch_room,
        trampoline, trampoline_room, moved, moved_room, report);
}

static inline int32_t feddurzai_checked_detour_padding(uint32_t bits, uint64_t ip, const uint8_t *padding,
    size_t padding_len, const uint8_t *code, size_t len, uint64_t to, uint64_t place, uint32_t start, uint32_t rules,
    const uint32_t *entries, size_t entry_count, uint8_t *jump, size_t jump_room, uint8_t *patch, size_t patch_room,
    uint8_t *trampoline, size_t trampoline_room, feddurzai_moved_start *moved, size_t moved_room,
    feddurzai_padded_report *report)
{
    if (feddurzai_is_null(padding, padding_len) || feddurzai_is_null(code, len) || feddurzai_is_null(entries, entry_count))
        return FEDDURZAI_NULL;
    if (feddurzai_is_null(jump, jump_room) || feddurzai_is_null(patch, patch_room) || report == NULL)
        return FEDDURZAI_NULL;
    if (feddurzai_is_null(trampoline, trampoline_room) || feddurzai_is_null(moved, moved_room))
        return FEDDURZAI_NULL;
    return feddurzai_detour_padding(bits, ip, padding, padding_len, code, len, to, place, start, rules, entries, entry_count,
        jump, jump_room, patch, patch_room, trampoline, trampoline_room, moved, moved_room, report);
}

#define feddurzai_decode feddurzai_checked_decode
#define feddurzai_decode_many feddurzai_checked_decode_many
#define feddurzai_offsets feddurzai_checked_offsets
#define feddurzai_measure feddurzai_checked_measure
#define feddurzai_line feddurzai_checked_line
#define feddurzai_line_text feddurzai_checked_line_text
#define feddurzai_text feddurzai_checked_text
#define feddurzai_pieces feddurzai_checked_pieces
#define feddurzai_format feddurzai_checked_format
#define feddurzai_format_code feddurzai_checked_format_code
#define feddurzai_encode feddurzai_checked_encode
#define feddurzai_encoded_len feddurzai_checked_encoded_len
#define feddurzai_assemble feddurzai_checked_assemble
#define feddurzai_read_intel feddurzai_checked_read_intel
#define feddurzai_assemble_code feddurzai_checked_assemble_code
#define feddurzai_assemble_code_near feddurzai_checked_assemble_code_near
#define feddurzai_jump feddurzai_checked_jump
#define feddurzai_register_text feddurzai_checked_register_text
#define feddurzai_segment_text feddurzai_checked_segment_text
#define feddurzai_info feddurzai_checked_info
#define feddurzai_effects feddurzai_checked_effects
#define feddurzai_feature_name feddurzai_checked_feature_name
#define feddurzai_name feddurzai_checked_name
#define feddurzai_notation feddurzai_checked_notation
#define feddurzai_row_operand feddurzai_checked_row_operand
#define feddurzai_code_of feddurzai_checked_code_of
#define feddurzai_move feddurzai_checked_move
#define feddurzai_move_outside feddurzai_checked_move_outside
#define feddurzai_move_unlisted feddurzai_checked_move_unlisted
#define feddurzai_move_blocks feddurzai_checked_move_blocks
#define feddurzai_region_reserve feddurzai_checked_region_reserve
#define feddurzai_region_release feddurzai_checked_region_release
#define feddurzai_region_fill feddurzai_checked_region_fill
#define feddurzai_step feddurzai_checked_step
#define feddurzai_step_len feddurzai_checked_step_len
#define feddurzai_step_call feddurzai_checked_step_call
#define feddurzai_step_unlisted feddurzai_checked_step_unlisted
#define feddurzai_flow feddurzai_checked_flow
#define feddurzai_flow_from feddurzai_checked_flow_from
#define feddurzai_flow_unlisted feddurzai_checked_flow_unlisted
#define feddurzai_detour feddurzai_checked_detour
#define feddurzai_detour_unlisted feddurzai_checked_detour_unlisted
#define feddurzai_look feddurzai_checked_look
#define feddurzai_detour_with feddurzai_checked_detour_with
#define feddurzai_detour_len feddurzai_checked_detour_len
#define feddurzai_detour_endbr feddurzai_checked_detour_endbr
#define feddurzai_detour_padding feddurzai_checked_detour_padding

/*
 * A resolver of symbols. It returns 1 and writes the name of the symbol at or in front of an address, its length, and how
 * far the address lies after the symbol; or it returns 0. `user` is what feddurzai_format_with was given.
 */
typedef int (*feddurzai_symbol_of)(void *user, uint64_t address, const char **name, size_t *name_len, uint64_t *offset);

/*
 * Writes the text of an instruction as feddurzai_format_code does, with the symbol that a resolver returns.
 *
 *  - symbol_of, user: called at most once, with the target of a near branch or the address of an operand with neither
 *    base nor index, or at RIP or EIP. symbol_of may be NULL.
 *  - the others, and what is returned: as in feddurzai_format_code.
 *
 *     len = feddurzai_format_with(64, FEDDURZAI_MASM, &gnu, (const uint8_t *)"\xe8\xfb\x0f\x00\x00", 5, &instr, 0x1005,
 *         symbol_of, NULL, text, sizeof text);
 */
static inline int32_t feddurzai_format_with(uint32_t bits, uint32_t syntax, const feddurzai_options *options,
    const uint8_t *code, size_t code_len, const feddurzai_instr *instr, uint64_t end, feddurzai_symbol_of symbol_of, void *user,
    char *out, size_t room)
{
    feddurzai_piece pieces[FEDDURZAI_MAX_PIECES];
    char text[FEDDURZAI_MAX_TEXT];
    const char *name = "";
    size_t name_len = 0;
    uint64_t offset = 0;
    int32_t k, count = 0;
    if (symbol_of != NULL)
        count = feddurzai_pieces(bits, syntax, instr, text, sizeof text, pieces, FEDDURZAI_MAX_PIECES);
    for (k = 0; k < count; k++) {
        if (pieces[k].role != FEDDURZAI_ROLE_TARGET && pieces[k].role != FEDDURZAI_ROLE_ADDRESS)
            continue;
        if (!symbol_of(user, pieces[k].value, &name, &name_len, &offset)) {
            name = "";
            name_len = 0;
            offset = 0;
        }
        break;
    }
    return feddurzai_format_code(bits, syntax, options, code, code_len, instr, end, name, name_len, offset, out, room);
}

#ifdef __cplusplus
}
#endif

#endif

// Asks the processor how long an instruction is, and compares its answer with the library's.
//
//   compare BITS COUNT SEED [FILE]
//
// Byte strings are made of every opcode map with every prefix and every ModRM, then at random, or cut from FILE at each offset; COUNT of them. A string lies
// at the end of an executable page with nothing after it: first its first byte, then one byte more at each try. A traced process runs one
// step there. If the processor asks for a byte behind the page, the instruction is longer; if it raises #UD, there is none; otherwise its
// length is the number of bytes. Registers point into memory that may be read and written, so that most instructions run.
//
// Each kind of difference is printed once, with the number of its strings; what differs is asked again by a new process, since a made
// instruction may write anywhere. The last line has the counts. The status is 1 if a kind differs that is no exception below.
#define _GNU_SOURCE
#include <errno.h>
#include <signal.h>
#include <stdint.h>
#include <stdio.h>
#include <stdlib.h>
#include <string.h>
#include <sys/mman.h>
#include <sys/ptrace.h>
#include <sys/user.h>
#include <sys/wait.h>
#include <unistd.h>
#include "feddurzai.h"

enum { PAGE = 4096, LONGEST = 15, KINDS = 4096 };
#define CODE_AT 0x20000000ul       // an executable page, and nothing behind it
#define DATA_AT 0x30000000ul       // what the registers point into
#define DATA_LEN 0x200000ul

enum said { RUNS, REFUSED, UNKNOWN };

struct answer {
    enum said said;
    int len;
};

struct kind {
    char name[96];
    long count;
    int len, ours;
    uint8_t bytes[LONGEST];
};

static uint8_t *page;              // the code page, as this process writes it
static int code_file, data_file;
static pid_t child;
static int bits;
static struct kind kinds[KINDS];
static int kind_count;
static long asked, steps, of_table, measured, refused_by_both, left_out, restarts;

static void die(const char *what)
{
    perror(what);
    exit(2);
}

// A process that never runs a line of its own again: it is stopped, and each step begins with the registers that it is given.
static void begin(void)
{
    if (child > 0) {
        kill(child, SIGKILL);
        waitpid(child, 0, 0);
        restarts++;
    }
    fflush(0);
    child = fork();
    if (child < 0)
        die("fork");
    if (child == 0) {
        if (mmap((void *)CODE_AT, PAGE, PROT_READ | PROT_EXEC, MAP_SHARED | MAP_FIXED_NOREPLACE, code_file, 0) == MAP_FAILED
            || mmap((void *)DATA_AT, DATA_LEN, PROT_READ | PROT_WRITE, MAP_PRIVATE | MAP_FIXED_NOREPLACE, data_file, 0) == MAP_FAILED)
            _exit(3);
        ptrace(PTRACE_TRACEME, 0, 0, 0);
        raise(SIGSTOP);
        _exit(3);
    }
    int status;
    if (waitpid(child, &status, 0) != child || !WIFSTOPPED(status))
        die("the traced process does not begin");
    ptrace(PTRACE_SETOPTIONS, child, 0, PTRACE_O_EXITKILL);
}

// One step over the first `len` bytes at the end of the page. Returns 1 if the processor asks for a byte behind it, 0 if it ran or
// stopped for another reason, -1 if it raised #UD, and -2 if the process is lost.
static int step(const uint8_t *bytes, int len)
{
    const uint64_t end = CODE_AT + PAGE;
    memcpy(page + PAGE - len, bytes, (size_t)len);
    struct user_regs_struct regs;
    memset(&regs, 0, sizeof regs);
    const uint64_t middle = DATA_AT + DATA_LEN / 2;
    regs.rax = regs.rbx = regs.rsi = regs.rdi = regs.rbp = regs.rsp = regs.r8 = regs.r9 = regs.r10 = regs.r11 = regs.r12 = middle;
    regs.r13 = regs.r14 = regs.r15 = middle;
    regs.rcx = 1;
    regs.rdx = 0;
    regs.rip = end - (uint64_t)len;
    regs.eflags = 0x202;
    regs.cs = bits == 64 ? 0x33 : 0x23;
    regs.ss = 0x2b;
    if (bits == 32)
        regs.ds = regs.es = 0x2b;
    regs.orig_rax = (unsigned long)-1;
    if (ptrace(PTRACE_SETREGS, child, 0, &regs) || ptrace(PTRACE_SYSEMU_SINGLESTEP, child, 0, 0))
        return -2;
    int status;
    steps++;
    if (waitpid(child, &status, 0) != child || !WIFSTOPPED(status))
        return -2;
    int signal = WSTOPSIG(status);
    if (signal == SIGILL)
        return -1;
    if (signal != SIGSEGV && signal != SIGBUS)
        return 0;
    siginfo_t info;
    if (ptrace(PTRACE_GETSIGINFO, child, 0, &info))
        return -2;
    if (signal == SIGSEGV && info.si_code > 0 && info.si_code != SI_KERNEL && (uint64_t)info.si_addr >= end && (uint64_t)info.si_addr < end + 16) {
        // behind the page: before the instruction ran it is longer; afterwards it ran, without a trap behind it
        if (ptrace(PTRACE_GETREGS, child, 0, &regs))
            return -2;
        return regs.rip == end - (uint64_t)len ? 1 : 0;
    }
    return 0;
}

static struct answer processor(const uint8_t *bytes)
{
    for (int len = 1; len <= LONGEST; len++) {
        int said = step(bytes, len);
        if (said == -2) {
            begin();
            return (struct answer){ UNKNOWN, len };
        }
        if (said == -1)
            return (struct answer){ REFUSED, len };
        if (said == 0)
            return (struct answer){ RUNS, len };
    }
    return (struct answer){ REFUSED, LONGEST };
}

// The bytes behind prefixes, and whether one of them is 66, F2 or F3.
static int opcode_at(const uint8_t *bytes)
{
    int at = 0;
    while (at < LONGEST - 3 && (memchr("\x66\x67\xf2\xf3\xf0\x2e\x36\x3e\x26\x64\x65", bytes[at], 11) || (bits == 64 && (bytes[at] & 0xf0) == 0x40)))
        at++;
    return at;
}

// What must not run: it would change what the next step needs, or leave this process.
static int must_not_run(const uint8_t *bytes)
{
    const uint8_t *op = bytes + opcode_at(bytes);
    if (op[0] == 0x0f && op[1] == 0x01 && (op[2] == 0xef || op[2] == 0xc1 || op[2] == 0xd9 || op[2] == 0xd8))
        return 1;                                                   // WRPKRU, VMCALL, VMMCALL, VMRUN
    if (op[0] == 0x0f && op[1] == 0x34)
        return 1;                                                   // SYSENTER: the kernel returns to an address of its own
    if (op[0] == 0x0f && op[1] == 0x01 && op[2] == 0xd5)
        return 1;                                                   // XEND
    if (op[0] == 0xc7 && op[1] == 0xf8)
        return 1;                                                   // XBEGIN: it aborts and goes on without a trap
    return 0;
}

struct ours {
    int len;            // 0 if we refuse the string
    int of_table;
};

static struct ours library(const uint8_t *bytes)
{
    struct ours ours = { 0, 0 };
    feddurzai_instr instr;
    feddurzai_shape shape;
    int32_t len = feddurzai_decode((uint32_t)bits, CODE_AT, bytes, LONGEST, &instr);
    if (len > 0) {
        ours.len = len;
        ours.of_table = 1;
        return ours;
    }
    len = feddurzai_measure((uint32_t)bits, bytes, LONGEST, &shape);
    if (len > 0)
        ours.len = len;
    return ours;
}

// The opcode as it is named in a line: its map and its byte, for a group the reg field, and whether F3 stands in front of it.
static void opcode_name(const uint8_t *bytes, char *out, size_t room)
{
    int at = opcode_at(bytes);
    const uint8_t *op = bytes + at;
    const char *front = memchr(bytes, 0xf3, (size_t)at) ? "F3 " : "";
    if (op[0] == 0x0f && (op[1] == 0x38 || op[1] == 0x3a))
        snprintf(out, room, "%s0F %02X %02X", front, op[1], op[2]);
    else if (op[0] == 0x0f)
        snprintf(out, room, "%s0F %02X", front, op[1]);
    else if (op[0] == 0xc4 || op[0] == 0xc5 || op[0] == 0x62 || op[0] == 0x8f)
        snprintf(out, room, "%s%02X, map %d, %02X", front, op[0], op[0] == 0xc5 ? 1 : op[1] & 31, op[op[0] == 0xc5 ? 2 : op[0] == 0x62 ? 4 : 3]);
    else if (op[0] >= 0xd8 && op[0] <= 0xdf)
        snprintf(out, room, "%02X %02X", op[0], op[1]);
    else
        snprintf(out, room, "%s%02X /%d", front, op[0], op[1] >> 3 & 7);
}

static void differs(const char *what, const uint8_t *bytes, struct answer answer, struct ours ours)
{
    char op[64], name[sizeof kinds[0].name];
    opcode_name(bytes, op, sizeof op);
    snprintf(name, sizeof name, "%.24s: %.64s", what, op);
    for (int n = 0; n < kind_count; n++)
        if (!strcmp(kinds[n].name, name)) {
            kinds[n].count++;
            return;
        }
    if (kind_count == KINDS)
        return;
    struct kind *kind = &kinds[kind_count++];
    snprintf(kind->name, sizeof kind->name, "%s", name);
    kind->count = 1;
    kind->len = answer.len;
    kind->ours = ours.len;
    memcpy(kind->bytes, bytes, LONGEST);
}

// Rows that raise #UD where they run: UD1 and UD2 always, and SLDT, STR, SMSW, SGDT and SIDT by the kernel, which stops them (UMIP).
static int raises_ud(const uint8_t *bytes)
{
    const uint8_t *op = bytes + opcode_at(bytes);
    return op[0] == 0x0f && (op[1] == 0x0b || op[1] == 0xb9 || op[1] <= 1);
}

static void compare(const uint8_t *bytes)
{
    if (must_not_run(bytes)) {
        left_out++;
        return;
    }
    asked++;
    struct ours ours = library(bytes);
    struct answer answer = processor(bytes);
    int same = answer.said == RUNS ? answer.len == ours.len : answer.said == REFUSED && ours.len == 0;
    if (!same) {
        // by a new process, whose memory nothing has changed
        begin();
        answer = processor(bytes);
        same = answer.said == RUNS ? answer.len == ours.len : answer.said == REFUSED && ours.len == 0;
    }
    if (answer.said == UNKNOWN) {
        differs("the process is lost", bytes, answer, ours);
        return;
    }
    if (ours.len == 0)
        refused_by_both += same;
    else if (ours.of_table)
        of_table++;
    else
        measured++;
    if (same)
        return;
    if (answer.said == RUNS && ours.len > 0)
        differs("LENGTH", bytes, answer, ours);
    else if (answer.said == RUNS)
        differs("runs, we refuse", bytes, answer, ours);
    else if (ours.of_table && !raises_ud(bytes))
        differs("a row, #UD", bytes, answer, ours);
    // a measured instruction that this processor does not have is no difference: measure does not check what a processor has
}

static uint64_t random_state;

static uint64_t random64(void)
{
    random_state ^= random_state << 13;
    random_state ^= random_state >> 7;
    random_state ^= random_state << 17;
    return random_state;
}

// A string of a legacy map, of VEX or of EVEX: number `n` counts through opcodes, prefixes and ModRM; the bytes behind are random.
static void made(long n, uint8_t *bytes)
{
    for (int k = 0; k < 16; k += 8) {
        uint64_t some = random64();
        memcpy(bytes + k, &some, k ? LONGEST - 8 : 8);
    }
    static const char *const fronts[] = { "", "\x66", "\xf2", "\xf3", "\x48", "\x66\x48", "\xf2\x48", "\xf3\x48", "\x67", "\xf0", "\x66\xf2", "\x66\xf3", "\x2e", "\x64", "\x67\x66", "\x4f" };
    int opcode = (int)(n & 255), modrm = (int)(n >> 8 & 255);
    long rest = n >> 16;
    int family = (int)(rest % 7);
    rest /= 7;
    if (family < 4) {
        const char *front = fronts[rest % 16];
        uint8_t *to = bytes;
        while (*front)
            *to++ = (uint8_t)*front++;
        if (family > 0)
            *to++ = 0x0f;
        if (family > 1)
            *to++ = family == 2 ? 0x38 : 0x3a;
        *to++ = (uint8_t)opcode;
        *to = (uint8_t)modrm;
        return;
    }
    int pp = (int)(rest & 3), l = (int)(rest >> 2 & 1), w = (int)(rest >> 3 & 1);
    // the register of vvvv is often the absent one, which many instructions ask for
    int vvvv = random64() & 1 ? 15 : (int)(random64() & 15);
    if (family == 4 && w == 0) {
        bytes[0] = 0xc5;
        bytes[1] = (uint8_t)(0x80 | vvvv << 3 | l << 2 | pp);
        bytes[2] = (uint8_t)opcode;
        bytes[3] = (uint8_t)modrm;
    } else if (family < 6) {
        bytes[0] = 0xc4;
        bytes[1] = (uint8_t)(0xe0 | (1 + (rest >> 4) % 3));
        bytes[2] = (uint8_t)(w << 7 | vvvv << 3 | l << 2 | pp);
        bytes[3] = (uint8_t)opcode;
        bytes[4] = (uint8_t)modrm;
    } else {
        bytes[0] = 0x62;
        bytes[1] = (uint8_t)(0xf0 | (1 + (rest >> 4) % 6));
        bytes[2] = (uint8_t)(w << 7 | vvvv << 3 | 4 | pp);
        bytes[3] = (uint8_t)((random64() & 1 ? 0x08 : random64() & 255) | l << 5);
        bytes[4] = (uint8_t)opcode;
        bytes[5] = (uint8_t)modrm;
    }
}

int main(int argc, char **argv)
{
    if (argc < 4) {
        fputs("usage: compare BITS COUNT SEED [FILE], with BITS 32 or 64\n", stderr);
        return 2;
    }
    bits = atoi(argv[1]);
    long count = atol(argv[2]);
    random_state = 0x9e3779b97f4a7c15u ^ strtoull(argv[3], 0, 0);
    code_file = memfd_create("code", 0);
    data_file = memfd_create("data", 0);
    if (code_file < 0 || data_file < 0 || ftruncate(code_file, PAGE) || ftruncate(data_file, DATA_LEN))
        die("memory");
    page = mmap(0, PAGE, PROT_READ | PROT_WRITE, MAP_SHARED, code_file, 0);
    if (page == MAP_FAILED)
        die("memory");
    memset(page, 0xcc, PAGE);
    begin();
    uint8_t bytes[16] = { 0 };
    if (argc > 4) {
        FILE *file = fopen(argv[4], "rb");
        if (!file)
            die(argv[4]);
        fseek(file, 0, SEEK_END);
        long size = ftell(file);
        uint8_t *all = malloc((size_t)size + LONGEST);
        rewind(file);
        if (!all || size < LONGEST || fread(all, 1, (size_t)size, file) != (size_t)size)
            die(argv[4]);
        for (long n = 0; n < count; n++) {
            memcpy(bytes, all + random64() % (uint64_t)(size - LONGEST), LONGEST);
            compare(bytes);
        }
    } else {
        // two thirds of every map, one third at random
        const long all = 65536l * 7 * 16 * 3;
        for (long n = 0; n < count; n++) {
            if (n % 3 == 2) {
                for (int k = 0; k < LONGEST; k++)
                    bytes[k] = (uint8_t)random64();
            } else {
                // a step that is prime to the number of strings goes through all of them
                made((long)((unsigned __int128)n * 10000019u % (unsigned long)all), bytes);
            }
            compare(bytes);
        }
    }
    kill(child, SIGKILL);
    int failed = 0;
    for (int n = 0; n < kind_count; n++) {
        printf("%s: %ld, such as", kinds[n].name, kinds[n].count);
        for (int k = 0; k < LONGEST; k++)
            printf(" %02x", kinds[n].bytes[k]);
        printf(" (processor %d, we %d)\n", kinds[n].len, kinds[n].ours);
        failed = 1;
    }
    printf("%d-bit: %ld strings, %ld of the table, %ld measured, %ld refused by both, %d kinds of difference, %ld not run, %ld steps\n", bits, asked, of_table,
        measured, refused_by_both, kind_count, left_out, steps);
    return failed;
}

/*
 * Hooks in the running program: see feddurzai_hook.h and docs/hooks.md. Nothing in this file is proved. The bytes of
 * patch and trampoline come from feddurzai_detour_with, the places of the trampolines from feddurzai_region_reserve.
 *
 * Order of this file: the parts of a hook; the table; sizes of functions; pages; writes; the two signal handlers;
 * asking the threads; a change; the calls of the header.
 */
#ifndef _GNU_SOURCE
#define _GNU_SOURCE
#endif
#include "feddurzai_hook.h"

#if !defined(__linux__) || !defined(__x86_64__) || defined(__ILP32__)
#error "feddurzai_hook.c is for Linux on x86-64"
#endif

#include <dlfcn.h>
#include <elf.h>
#include <errno.h>
#include <fcntl.h>
#include <limits.h>
#include <link.h>
#include <pthread.h>
#include <signal.h>
#include <stdatomic.h>
#include <stdio.h>
#include <stdlib.h>
#include <string.h>
#include <sys/mman.h>
#include <sys/stat.h>
#include <sys/syscall.h>
#include <sys/uio.h>
#include <time.h>
#include <ucontext.h>
#include <unistd.h>

#ifndef MAP_FIXED_NOREPLACE
#define MAP_FIXED_NOREPLACE 0x100000
#endif
#ifndef SYS_membarrier
#define SYS_membarrier 324
#endif
/* of linux/membarrier.h, which old systems do not have: PRIVATE_EXPEDITED_SYNC_CORE. And of linux/futex.h */
enum { BARRIER = 1 << 5, REGISTER_BARRIER = 1 << 6, WAIT_PRIVATE = 128, WAKE_PRIVATE = 129 };

/* how often a thread that blocks the question is looked for before the change is refused; and how much longer one is
   waited for that only needs a processor */
#ifndef FEDDURZAI_HOOK_WAITS
#define FEDDURZAI_HOOK_WAITS 500
#endif
enum { PATIENCE = 20 };

enum {
    PAGE = 4096,
    AREA = 65536,           /* bytes of trampolines that are mapped at once */
    BLOCKS = AREA / 16,     /* the most trampolines there */
    HOOKS_A_CHUNK = 32,
    INT3 = 0xcc,
    STACK = 65536,          /* bytes of a stack that are searched for addresses of taken instructions, */
    PIECE = 512,            /* so many at once */
    WAIT_MS = 10,           /* how long a thread has to answer before it is looked for otherwise */
    TRIES = 100             /* how often a thread that blocks SIGTRAP is looked at, once a millisecond */
};
/* how far a trampoline may be from the function; the rest up to 2 gigabytes is for operands at RIP */
static const uint64_t REACH = 0x70000000;
/* within this distance no other place for a trampoline is tried if an operand does not reach */
static const uint64_t CLOSE_BY = 0x10000000;

static uint64_t address_of(const void *pointer)
{
    return (uint64_t)(uintptr_t)pointer;
}

/* code at an address; the compiler must not take it that code does not change */
static const uint8_t *code_at(uint64_t address)
{
    const uint8_t *code = (const uint8_t *)(uintptr_t)address;
    __asm__ volatile("" : "+r"(code) : : "memory");
    return code;
}

static uint64_t distance(uint64_t a, uint64_t b)
{
    return a < b ? b - a : a - b;
}

/* ---- the parts of a hook ------------------------------------------------------------------------------------ */

/* the distance from the function's start to an address, in the address space of the mode */
static uint64_t offset_of(uint32_t bits, uint64_t ip, uint64_t address)
{
    return bits == 64 ? address - ip : (address - ip) & ((UINT64_C(1) << bits) - 1);
}

static int32_t refuse(feddurzai_hook_parts *parts, int32_t said, uint64_t at, uint64_t target)
{
    parts->at = at;
    parts->target = target;
    return said;
}

/* checks that no taken instruction accesses memory in the bytes that will be overwritten */
static int32_t check_operands(uint32_t bits, uint64_t ip, const uint8_t *code, size_t len, feddurzai_hook_parts *parts)
{
    uint64_t first = ip + parts->kept - parts->jump_len, bytes = parts->jump_len + parts->detour.taken;
    int k;
    for (k = 0; k < parts->count; k++) {
        uint64_t at = parts->taken_at[k];
        feddurzai_instr instr;
        feddurzai_about about;
        if (feddurzai_decode(bits, ip + at, code + at, len - (size_t)at, &instr) < 0 || feddurzai_info(&instr, &about) < 0)
            continue;
        /* LEA has no size: it accesses nothing */
        if (about.has_ip_address && about.memory_size > 0 && offset_of(bits, first, about.ip_address) < bytes)
            return refuse(parts, FEDDURZAI_HOOK_OWN_BYTES, at, offset_of(bits, ip, about.ip_address));
    }
    return 0;
}

/* a refusal of the library by the statuses of this file, where it has one of its own */
static int32_t own_status(int32_t said, const feddurzai_detour_report *report)
{
    switch (said) {
    case FEDDURZAI_ENTERED:
        return report->target == 0 ? FEDDURZAI_HOOK_LOOP : said;
    case FEDDURZAI_UNSEEN:
        return FEDDURZAI_HOOK_UNSEEN;
    case FEDDURZAI_CALLS:
        return FEDDURZAI_HOOK_CALL;
    default:
        return said;
    }
}

static uint32_t rules_of(uint32_t flags)
{
    uint32_t rules = 0;
    if (flags & FEDDURZAI_HOOK_NEED_SIGHT)
        rules += FEDDURZAI_RULE_WHOLE;
    if (!(flags & FEDDURZAI_HOOK_PLAIN_CALLS))
        rules += FEDDURZAI_RULE_RETURNS;
    if (!(flags & FEDDURZAI_HOOK_ALLOW_CALLS))
        rules += FEDDURZAI_RULE_NO_CALLS;
    return rules;
}

static uint32_t start_of(uint32_t flags)
{
    return flags & FEDDURZAI_HOOK_ALLOW_LOOPS ? FEDDURZAI_START_HOOKED : FEDDURZAI_START_MOVED;
}

/* how many bytes in front of the function the caller says are padding */
static uint32_t padding_of(uint32_t flags)
{
    return flags >> 16 & 255;
}

/* the parts from what the library reported of the function behind the kept bytes, and the checks of this file */
static int32_t finish(int32_t said, uint32_t bits, uint64_t ip, const uint8_t *code, size_t len,
    const feddurzai_hook_report *report, const feddurzai_moved_start *moved, feddurzai_hook_parts *parts)
{
    uint64_t kept = parts->kept;
    parts->detour = report->detour;
    if (said < 0 && !parts->in_padding)
        said = own_status(said, &report->detour);
    if (said < 0)
        return refuse(parts, said, report->detour.at, report->detour.target);
    parts->detour.bytes += kept;
    parts->detour.jump_back += kept;
    parts->detour.slots_at += kept;
    parts->detour.relay_at += kept;
    parts->unseen_at = report->view.sight == FEDDURZAI_SIGHT_WHOLE ? len : kept + report->view.sight_at;
    memcpy(parts->before, code + kept, (size_t)parts->detour.taken);
    for (; parts->count < report->moved; parts->count++) {
        parts->taken_at[parts->count] = (uint8_t)(kept + moved[parts->count].start);
        parts->place_at[parts->count] = (uint8_t)(kept + moved[parts->count].place);
    }
    if (code[kept] == INT3)
        return refuse(parts, FEDDURZAI_HOOK_BREAKPOINT, kept, 0);
    return check_operands(bits, ip, code, len, parts);
}

/* the form with a short jump to a near jump in the padding */
static int32_t make_padded(uint32_t bits, uint64_t ip, const uint8_t *code, size_t len, uint64_t to, uint64_t place,
    uint32_t flags, feddurzai_hook_parts *parts)
{
    size_t padding = padding_of(flags);
    feddurzai_moved_start moved[FEDDURZAI_MAX_PATCH];
    feddurzai_padded_report report;
    int32_t said;
    memset(parts, 0, sizeof *parts);
    parts->place = place;
    said = feddurzai_detour_padding(bits, ip, code - padding, padding, code, len, to, place, start_of(flags), rules_of(flags),
        NULL, 0, parts->jump, sizeof parts->jump, parts->patch, sizeof parts->patch, parts->trampoline,
        sizeof parts->trampoline, moved, FEDDURZAI_MAX_PATCH, &report);
    parts->jump_len = (uint8_t)report.jump;
    parts->in_padding = (uint8_t)report.padding;
    memcpy(parts->jump_before, code - report.jump, (size_t)report.jump);
    return finish(said, bits, ip, code, len, &report.hook, moved, parts);
}

int32_t feddurzai_hook_make(uint32_t bits, uint64_t ip, const uint8_t *code, size_t len, uint64_t to, uint64_t place,
    uint32_t flags, feddurzai_hook_parts *parts)
{
    feddurzai_moved_start moved[FEDDURZAI_MAX_PATCH];
    feddurzai_kept_report report;
    int32_t said;
    if (parts == NULL)
        return FEDDURZAI_NULL;
    memset(parts, 0, sizeof *parts);
    parts->place = place;
    report.kept = 0;
    if (flags & FEDDURZAI_HOOK_KEEP_ENDBR)
        said = feddurzai_detour_endbr(bits, ip, code, len, to, place, start_of(flags), rules_of(flags), NULL, 0, parts->patch,
            sizeof parts->patch, parts->trampoline, sizeof parts->trampoline, moved, FEDDURZAI_MAX_PATCH, &report);
    else
        said = feddurzai_detour_with(bits, ip, code, len, to, place, start_of(flags), rules_of(flags), NULL, 0, parts->patch,
            sizeof parts->patch, parts->trampoline, sizeof parts->trampoline, moved, FEDDURZAI_MAX_PATCH, &report.hook);
    if (said == FEDDURZAI_NULL)
        return said;
    parts->kept = (uint8_t)report.kept;
    if ((said == FEDDURZAI_SMALL || said == FEDDURZAI_ENDS) && report.kept == 0 && len > 0 && padding_of(flags) > 0)
        return make_padded(bits, ip, code, len, to, place, flags, parts);
    return finish(said, bits, ip, code, len, &report.hook, moved, parts);
}

/* ---- the table ---------------------------------------------------------------------------------------------- */

/* A hook that is removed, disabled or enabled; and one whose function begins with INT3, since a change is under way. */
enum state { GONE, OFF, ON, TURNING_ON, TURNING_OFF };

/* An earlier hook of a function, under the one that is in its entry. */
struct layer {
    uint64_t replacement, place;
    uint32_t flags;
    feddurzai_hook_parts parts;
    struct layer *under;
};

/*
 * An entry. The signal handlers read `target`, `jump_at`, `state`, `replacement`, `place` and, while the hook is being
 * enabled, `parts`. These change only while the function has its own bytes, or where one hook goes over another: both
 * have as many bytes in the patch then, and move the same instructions. An entry keeps its target for ever.
 */
struct hook {
    _Atomic(uint64_t) target;           /* where the patch is, behind an ENDBR64 that is kept. 0: the entry is free */
    _Atomic(uint64_t) jump_at;          /* where the near jump in the padding is, or 0. It stays there for ever */
    _Atomic(uint64_t) replacement, place;
    atomic_int state;
    uint64_t function;                  /* its first byte, by which it is known to the caller */
    size_t len;
    int wanted;                         /* OFF or ON: what the next change makes of it */
    int was;                            /* the state before the change that is under way */
    int stuck;                          /* a write failed between INT3 and the end of a change */
    uint32_t flags;
    uint64_t places[2];                 /* its trampolines near and far, or 0 */
    uint8_t now[FEDDURZAI_MAX_PATCH];   /* the bytes at the target between changes */
    uint8_t jump[sizeof ((feddurzai_hook_parts *)0)->jump];     /* those at `jump_at`, */
    uint8_t padding[sizeof ((feddurzai_hook_parts *)0)->jump];  /* and the padding that was there */
    feddurzai_hook_parts parts;
    struct layer *under;                /* the hooks of the function before this one, the last first */
};

struct chunk {
    struct hook hooks[HOOKS_A_CHUNK];
    _Atomic(struct chunk *) next;
};

/* Pages for trampolines: readable and executable, CC where there is none. */
struct area {
    feddurzai_region region;
    struct area *next;
    feddurzai_live live[BLOCKS];
};

/* A thread that is asked where it is. `stamp` is 4 times the number of the question, plus one of `answer`. */
struct asked {
    int tid;
    _Atomic(uint32_t) stamp;
};
enum answer { NOT_ASKED, ASKED, OUTSIDE, INSIDE };

/* All state of this file. `lock` guards what no handler reads. */
static struct {
    pthread_mutex_t lock;
    _Atomic(struct chunk *) chunks;
    struct area *areas;
    _Atomic(uint32_t) changes;          /* odd while a change is under way */
    /* the threads that are asked. An array that became too small is kept, since a late answer may come */
    _Atomic(struct asked *) asked;
    _Atomic(uint32_t) room;
    uint32_t asked_count, question;
    _Atomic(uint32_t) answers;          /* a futex: the number of answers so far */
    _Atomic(uint64_t) first, last;      /* all bytes that are being taken are between these addresses */
    _Atomic(uint64_t) traps, moved;     /* calls that met an INT3 of a change; threads moved out of taken bytes */
    /* what the program does at SIGTRAP: the newer of the two, by the lowest bit */
    struct sigaction old_traps[2];
    atomic_uint old_trap;
    int forks, locked_to_fork;          /* 1 when fork knows the lock, and while it has it */
} table = {.lock = PTHREAD_ERRORCHECK_MUTEX_INITIALIZER_NP};

/* A position in the table; {NULL, 0} is before its first entry. */
struct walk {
    struct chunk *chunk;
    int at;
};

/* The next entry, or NULL. A signal handler may call it. */
static struct hook *next_hook(struct walk *walk)
{
    if (walk->chunk == NULL)
        walk->chunk = atomic_load(&table.chunks);
    else if (++walk->at == HOOKS_A_CHUNK) {
        walk->chunk = atomic_load(&walk->chunk->next);
        walk->at = 0;
    }
    if (walk->chunk == NULL || atomic_load(&walk->chunk->hooks[walk->at].target) == 0)
        return NULL;
    return &walk->chunk->hooks[walk->at];
}

/* the entry whose patch is at an address */
static struct hook *hook_at(uint64_t target)
{
    struct walk walk = {NULL, 0};
    struct hook *hook;
    while ((hook = next_hook(&walk)) != NULL)
        if (atomic_load(&hook->target) == target)
            return hook;
    return NULL;
}

/* the entry whose near jump is in the padding at an address */
static struct hook *hook_of_jump(uint64_t address)
{
    struct walk walk = {NULL, 0};
    struct hook *hook;
    while ((hook = next_hook(&walk)) != NULL)
        if (atomic_load(&hook->jump_at) == address)
            return hook;
    return NULL;
}

/* The first free entry, of a new chunk if there is none, or NULL. */
static struct hook *free_hook(void)
{
    _Atomic(struct chunk *) *link = &table.chunks;
    struct chunk *chunk;
    int k;
    for (; (chunk = atomic_load(link)) != NULL; link = &chunk->next)
        for (k = 0; k < HOOKS_A_CHUNK; k++)
            if (atomic_load(&chunk->hooks[k].target) == 0)
                return &chunk->hooks[k];
    chunk = calloc(1, sizeof *chunk);
    if (chunk == NULL)
        return NULL;
    atomic_store(link, chunk);
    return &chunk->hooks[0];
}

/* the hook of a function, or NULL */
static struct hook *hook_of(uint64_t function)
{
    struct walk walk = {NULL, 0};
    struct hook *hook;
    while ((hook = next_hook(&walk)) != NULL)
        if (hook->function == function && atomic_load(&hook->state) != GONE)
            return hook;
    return NULL;
}

/* the offset in its function of an address in the taken bytes of a hook, or 0 if it is not behind their first byte */
static uint64_t inside_of(struct hook *hook, uint64_t address)
{
    uint64_t at = address - atomic_load(&hook->target);
    return at > 0 && at < hook->parts.detour.taken ? hook->parts.kept + at : 0;
}

/* ---- sizes of functions ------------------------------------------------------------------------------------- */

/* A function whose size is looked for in the symbols of the loaded file that has it. */
struct wanted {
    uint64_t target;
    uint64_t size;
};

/* a part of a file that holds `count` elements of `size` bytes, or NULL if the file is shorter */
static const void *part_of(const uint8_t *file, uint64_t len, uint64_t at, uint64_t count, uint64_t size)
{
    return at <= len && count <= (len - at) / size ? file + at : NULL;
}

/* a symbol of a function with a size; the loader resolves the others (IFUNC) */
static int is_function(const Elf64_Sym *symbol)
{
    return ELF64_ST_TYPE(symbol->st_info) == STT_FUNC && symbol->st_size > 0;
}

/* the size of the function that a symbol of .symtab has at an address of the file, or 0 */
static uint64_t size_in_file(const uint8_t *file, uint64_t len, uint64_t address)
{
    const Elf64_Ehdr *header = part_of(file, len, 0, 1, sizeof *header);
    const Elf64_Shdr *sections;
    uint64_t k, j;
    if (header == NULL || memcmp(header->e_ident, ELFMAG, SELFMAG) != 0 || header->e_ident[EI_CLASS] != ELFCLASS64
        || header->e_shentsize != sizeof *sections)
        return 0;
    sections = part_of(file, len, header->e_shoff, header->e_shnum, sizeof *sections);
    for (k = 0; sections != NULL && k < header->e_shnum; k++) {
        uint64_t count = sections[k].sh_size / sizeof(Elf64_Sym);
        const Elf64_Sym *symbols = part_of(file, len, sections[k].sh_offset, count, sizeof *symbols);
        for (j = 0; sections[k].sh_type == SHT_SYMTAB && symbols != NULL && j < count; j++)
            if (symbols[j].st_value == address && is_function(&symbols[j]))
                return symbols[j].st_size;
    }
    return 0;
}

/* the segment of a loaded file that has an address, or NULL */
static const ElfW(Phdr) *segment_of(const struct dl_phdr_info *info, uint64_t address)
{
    int k;
    for (k = 0; k < info->dlpi_phnum; k++) {
        const ElfW(Phdr) *segment = &info->dlpi_phdr[k];
        if (segment->p_type == PT_LOAD && address - info->dlpi_addr - segment->p_vaddr < segment->p_filesz)
            return segment;
    }
    return NULL;
}

/* looks into one loaded file, and ends the search if it has the function */
static int look_into(struct dl_phdr_info *info, size_t unused, void *with)
{
    struct wanted *wanted = with;
    const ElfW(Phdr) *segment = segment_of(info, wanted->target);
    const char *path = info->dlpi_name[0] == 0 ? "/proc/self/exe" : info->dlpi_name;
    const uint8_t *bytes;
    struct stat about;
    uint64_t address = wanted->target - info->dlpi_addr, size;
    size_t len;
    int file;
    void *map;
    (void)unused;
    if (segment == NULL)
        return 0;
    file = open(path, O_RDONLY | O_CLOEXEC);
    if (file < 0)
        return 1;
    len = fstat(file, &about) == 0 && about.st_size > 0 ? (size_t)about.st_size : 0;
    map = len == 0 ? MAP_FAILED : mmap(NULL, len, PROT_READ, MAP_PRIVATE, file, 0);
    close(file);
    if (map == MAP_FAILED)
        return 1;
    size = size_in_file(map, len, address);
    /* another file may have taken its place since: then the bytes differ */
    bytes = part_of(map, len, address - segment->p_vaddr + segment->p_offset, 1, size == 0 ? 1 : size);
    if (size > 0 && bytes != NULL && memcmp(bytes, code_at(wanted->target), (size_t)size) == 0)
        wanted->size = size;
    munmap(map, len);
    return 1;
}

/* the size of a function by the symbol that begins at its first byte, of the loader or else of the file; or 0 */
static uint64_t size_of(const void *target)
{
    struct wanted wanted = {address_of(target), 0};
    const ElfW(Sym) *symbol = NULL;
    Dl_info info;
    if (dladdr1(target, &info, (void **)&symbol, RTLD_DL_SYMENT) != 0 && symbol != NULL && info.dli_saddr == target
        && is_function(symbol))
        return symbol->st_size;
    dl_iterate_phdr(look_into, &wanted);
    return wanted.size;
}

/* ---- pages -------------------------------------------------------------------------------------------------- */

/* /proc/self/maps, read without memory of malloc. */
struct maps {
    int file;
    ssize_t at, have;
    char text[PAGE];
};

struct mapping {
    uint64_t start, end;
    int rights;
    int is_heap;
};

static int next_char(struct maps *maps)
{
    if (maps->at == maps->have) {
        maps->have = read(maps->file, maps->text, sizeof maps->text);
        maps->at = 0;
        if (maps->have <= 0) {
            maps->have = 0;
            return -1;
        }
    }
    return (unsigned char)maps->text[maps->at++];
}

/* reads a number in hexadecimal and the character behind it */
static uint64_t next_number(struct maps *maps, int *behind)
{
    uint64_t n = 0;
    int c;
    while ((c = next_char(maps)) >= 0 && ((c >= '0' && c <= '9') || (c >= 'a' && c <= 'f')))
        n = n * 16 + (uint64_t)(c <= '9' ? c - '0' : c - 'a' + 10);
    *behind = c;
    return n;
}

/* reads a line of the file. Returns 0 at its end */
static int next_mapping(struct maps *maps, struct mapping *mapping)
{
    int c, last = 0, k;
    mapping->start = next_number(maps, &c);
    if (c != '-')
        return 0;
    mapping->end = next_number(maps, &c);
    mapping->rights = mapping->is_heap = 0;
    for (k = 0; k < 3; k++) {
        c = next_char(maps);
        mapping->rights |= c == 'r' ? PROT_READ : c == 'w' ? PROT_WRITE : c == 'x' ? PROT_EXEC : 0;
    }
    while ((c = next_char(maps)) >= 0 && c != '\n') {
        mapping->is_heap |= last == '[' && c == 'h';
        last = c;
    }
    return 1;
}

/* the rights of a page, or -1 */
static int rights_of(uint64_t page)
{
    struct maps maps = {.file = open("/proc/self/maps", O_RDONLY | O_CLOEXEC)};
    struct mapping mapping;
    int rights = -1;
    while (maps.file >= 0 && next_mapping(&maps, &mapping))
        if (mapping.start <= page && page < mapping.end) {
            rights = mapping.rights;
            break;
        }
    if (maps.file >= 0)
        close(maps.file);
    return rights;
}

static int is_near(uint64_t place, uint64_t target)
{
    return distance(place, target) < REACH && distance(place + AREA, target) < REACH;
}

static int is_among(const uint64_t *some, int count, uint64_t place)
{
    while (count-- > 0)
        if (some[count] == place)
            return 1;
    return 0;
}

/* the free place for an area that is nearest to an address, but none of those that failed; or 0 */
static uint64_t free_near(uint64_t target, const uint64_t *failed, int count)
{
    struct maps maps = {.file = open("/proc/self/maps", O_RDONLY | O_CLOEXEC)};
    struct mapping mapping;
    /* the lowest pages cannot be mapped */
    uint64_t from = 0x100000, best = 0;
    int behind_heap = 0;
    while (maps.file >= 0 && next_mapping(&maps, &mapping)) {
        /* the heap grows into the gap behind it */
        if (mapping.start >= from && mapping.start - from >= AREA && !behind_heap) {
            uint64_t place = target & ~(uint64_t)(PAGE - 1);
            place = place < from ? from : place > mapping.start - AREA ? mapping.start - AREA : place;
            if (is_near(place, target) && !is_among(failed, count, place)
                && (best == 0 || distance(place, target) < distance(best, target)))
                best = place;
        }
        behind_heap = mapping.is_heap;
        from = mapping.end > from ? mapping.end : from;
    }
    if (maps.file >= 0)
        close(maps.file);
    return best;
}

/* maps the pages of an area at a place, filled with CC. Returns 0 if that fails */
static int map_area(uint64_t place)
{
    void *wanted = (void *)(uintptr_t)place;
    void *got = mmap(wanted, AREA, PROT_READ | PROT_WRITE, MAP_PRIVATE | MAP_ANONYMOUS | MAP_FIXED_NOREPLACE, -1, 0);
    if (got == MAP_FAILED)
        return 0;
    if (got == wanted) {
        memset(got, INT3, AREA);
        if (mprotect(got, AREA, PROT_READ | PROT_EXEC) == 0)
            return 1;
    }
    munmap(got, AREA);
    return 0;
}

/* makes an area near an address, or out of reach of it. Returns NULL if there is none */
static struct area *new_area(uint64_t target, int far)
{
    uint64_t failed[8], place = 0;
    struct area *area = calloc(1, sizeof *area);
    int k;
    for (k = 0; area != NULL && k < 8; k++) {
        if (far)
            place = (target ^ UINT64_C(0x200000000000)) / AREA * AREA + (uint64_t)k * 64 * AREA;
        else
            place = free_near(target, failed, k);
        if (place != 0 && map_area(place)) {
            area->region.base = place;
            area->region.size = AREA;
            area->next = table.areas;
            table.areas = area;
            return area;
        }
        failed[k] = place;
    }
    free(area);
    return NULL;
}

/* ---- writes ------------------------------------------------------------------------------------------------- */

/* writes code after its pages became writable for the moment: a thread that runs there keeps running */
static int32_t write_by_rights(uint64_t to, const uint8_t *bytes, size_t len)
{
    uint64_t first = to & ~(uint64_t)(PAGE - 1), last = (to + len - 1) & ~(uint64_t)(PAGE - 1), page;
    int rights[2] = {0, 0}, opened = 0, closed = 0, k;
    for (page = first; page <= last; page += PAGE) {
        rights[opened] = rights_of(page);
        if (rights[opened] < 0)
            rights[opened] = PROT_READ | PROT_EXEC;
        if (mprotect((void *)(uintptr_t)page, PAGE, rights[opened] | PROT_WRITE) != 0)
            break;
        opened++;
    }
    if (page > last) {
        for (k = 0; (size_t)k < len; k++)
            ((volatile uint8_t *)(uintptr_t)to)[k] = bytes[k];
        closed = 1;
    }
    for (k = 0; k < opened; k++)
        if (mprotect((void *)(uintptr_t)(first + (uint64_t)k * PAGE), PAGE, rights[k]) != 0)
            closed = 0;
    return closed ? 0 : FEDDURZAI_HOOK_PROTECTED;
}

/* The way to code: /proc/self/mem, by which no right changes, or -1 where that cannot be written. */
static int open_code(void)
{
#ifdef FEDDURZAI_HOOK_BY_RIGHTS
    return -1;
#else
    return open("/proc/self/mem", O_RDWR | O_CLOEXEC);
#endif
}

static void close_code(int mem)
{
    if (mem >= 0)
        close(mem);
}

static int32_t write_code(int mem, uint64_t to, const uint8_t *bytes, size_t len)
{
    if (len == 0 || (mem >= 0 && pwrite(mem, bytes, len, (off_t)to) == (ssize_t)len))
        return 0;
    return write_by_rights(to, bytes, len);
}

/* every processor that runs this program sees what was written: it executes a serializing instruction */
static void serialize(void)
{
    unsigned a = 0, b, c = 0, d;
    syscall(SYS_membarrier, BARRIER, 0, 0);
    __asm__ volatile("cpuid" : "+a"(a), "=b"(b), "+c"(c), "=d"(d) : : "memory");
}

/* ---- the two signal handlers -------------------------------------------------------------------------------- */

/* a system call without a function of the C library, which may be hooked, and without errno */
static long call_system(long number, long a, long b, long c, long d, long e)
{
    register long r10 __asm__("r10") = d, r8 __asm__("r8") = e, r9 __asm__("r9") = 0;
    long result;
    __asm__ volatile("syscall" : "=a"(result) : "a"(number), "D"(a), "S"(b), "d"(c), "r"(r10), "r"(r8), "r"(r9)
        : "rcx", "r11", "memory");
    return result;
}

static int thread_id(void)
{
    return (int)call_system(SYS_gettid, 0, 0, 0, 0, 0);
}

/* gives a SIGTRAP that no hook caused to whoever had the signal before */
static void pass_on(int signal, siginfo_t *info, void *context)
{
    const struct sigaction *old = &table.old_traps[atomic_load(&table.old_trap) & 1];
    int from_program = info->si_code <= 0;
    if (old->sa_flags & SA_SIGINFO)
        old->sa_sigaction(signal, info, context);
    else if (old->sa_handler != SIG_DFL && old->sa_handler != SIG_IGN)
        old->sa_handler(signal);
    else if (old->sa_handler == SIG_DFL || !from_program) {
        /* the kernel ends the program at an INT3 that is ignored, too */
        struct sigaction end = {.sa_handler = SIG_DFL};
        sigaction(signal, &end, NULL);
        call_system(SYS_tgkill, call_system(SYS_getpid, 0, 0, 0, 0, 0), thread_id(), signal, 0, 0);
    }
}

/* whether an address of a hook has an INT3 that no change has written */
static int is_foreign(struct hook *hook, int state, uint64_t address)
{
    uint32_t before = atomic_load(&table.changes);
    int is_int3 = *(const volatile uint8_t *)(uintptr_t)address == INT3;
    return is_int3 && before % 2 == 0 && atomic_load(&table.changes) == before && atomic_load(&hook->state) == state
        && state != TURNING_ON && state != TURNING_OFF;
}

/* a call that met the INT3 of a change goes to the replacement or the trampoline; after the change it starts anew, and
   so does one that met it in the padding while the function gets its own bytes */
static void at_trap(int signal, siginfo_t *info, void *context)
{
    greg_t *rip = &((ucontext_t *)context)->uc_mcontext.gregs[REG_RIP];
    uint64_t address = (uint64_t)*rip - 1;
    int is_int3 = info->si_code == SI_KERNEL || info->si_code == TRAP_BRKPT;
    struct hook *at = is_int3 ? hook_at(address) : NULL, *hook = is_int3 && at == NULL ? hook_of_jump(address) : at;
    int state = hook == NULL ? GONE : atomic_load(&hook->state);
    if (hook == NULL || is_foreign(hook, state, address)) {
        pass_on(signal, info, context);
        return;
    }
    atomic_fetch_add(&table.traps, 1);
    if (state == TURNING_ON)
        *rip = (greg_t)atomic_load(&hook->replacement);
    else if (state == TURNING_OFF && at != NULL)
        *rip = (greg_t)atomic_load(&hook->place);
    else
        *rip -= 1;
}

/* moves an address behind the first of the taken instructions of a hook to the same instruction in the trampoline.
   Returns INSIDE if none begins there, else OUTSIDE */
static enum answer move_out(greg_t *rip)
{
    struct walk walk = {NULL, 0};
    struct hook *hook;
    int k;
    while ((hook = next_hook(&walk)) != NULL) {
        int state = atomic_load(&hook->state);
        uint64_t at = state == TURNING_ON || state == ON ? inside_of(hook, (uint64_t)*rip) : 0;
        if (at == 0)
            continue;
        for (k = 1; k < hook->parts.count; k++)
            if (hook->parts.taken_at[k] == at) {
                *rip = (greg_t)(hook->parts.place + hook->parts.place_at[k]);
                atomic_fetch_add(&table.moved, 1);
                return OUTSIDE;
            }
        return INSIDE;
    }
    return OUTSIDE;
}

/* whether an address is that of a taken instruction behind the first, of a hook that is being enabled */
static int is_taken(uint64_t address)
{
    struct walk walk = {NULL, 0};
    struct hook *hook;
    int k;
    while ((hook = next_hook(&walk)) != NULL) {
        uint64_t at = atomic_load(&hook->state) == TURNING_ON ? inside_of(hook, address) : 0;
        for (k = 1; at != 0 && k < hook->parts.count; k++)
            if (hook->parts.taken_at[k] == at)
                return 1;
    }
    return 0;
}

/*
 * Whether a stack has such an address, from its lowest word on and as far as it can be read: the thread will return
 * there, from a handler of another signal or from a call that is taken.
 */
static int returns_inside(uint64_t stack)
{
    uint64_t words[PIECE / 8], at = (stack + 7) / 8 * 8;
    uint64_t first = atomic_load(&table.first), last = atomic_load(&table.last);
    long pid = call_system(SYS_getpid, 0, 0, 0, 0, 0);
    while (at < stack + STACK) {
        uint64_t k, len = PIECE - at % PIECE;
        struct iovec to = {words, len}, from = {(void *)(uintptr_t)at, len};
        if (call_system(SYS_process_vm_readv, pid, (long)(uintptr_t)&to, 1, (long)(uintptr_t)&from, 1) != (long)len)
            return 0;
        for (k = 0; k < len / 8; k++)
            if (words[k] > first && words[k] < last && is_taken(words[k]))
                return 1;
        at += len;
    }
    return 0;
}

/* a thread that is asked moves itself out of taken bytes, and answers. The value has the number of the question, and
   that of the thread in the array */
static void at_question(int signal, siginfo_t *info, void *context)
{
    greg_t *registers = ((ucontext_t *)context)->uc_mcontext.gregs;
    enum answer answer = move_out(&registers[REG_RIP]);
    uint64_t value = (uint64_t)(uintptr_t)info->si_value.sival_ptr;
    uint32_t number = (uint32_t)value, stamp = (uint32_t)(value >> 32) * 4 + ASKED;
    (void)signal;
    if (info->si_code != SI_QUEUE || number >= atomic_load(&table.room))
        return;
    if (answer == OUTSIDE && returns_inside((uint64_t)registers[REG_RSP]))
        answer = INSIDE;
    /* nothing happens if the question is an older one */
    atomic_compare_exchange_strong(&atomic_load(&table.asked)[number].stamp, &stamp, stamp - ASKED + answer);
    atomic_fetch_add(&table.answers, 1);
    call_system(SYS_futex, (long)(uintptr_t)&table.answers, WAKE_PRIVATE, INT_MAX, 0, 0);
}

/* installs both handlers, or installs them again if the program has set others since */
static int32_t set_handlers(void)
{
    struct sigaction now, ours = {.sa_flags = SA_SIGINFO | SA_ONSTACK | SA_RESTART};
    sigemptyset(&ours.sa_mask);
    if (sigaction(FEDDURZAI_HOOK_SIGNAL, NULL, &now) != 0)
        return FEDDURZAI_HOOK_SIGNAL_USED;
    if (!(now.sa_flags & SA_SIGINFO) || now.sa_sigaction != at_question) {
        if ((now.sa_flags & SA_SIGINFO) || (now.sa_handler != SIG_DFL && now.sa_handler != SIG_IGN))
            return FEDDURZAI_HOOK_SIGNAL_USED;
        ours.sa_sigaction = at_question;
        if (sigaction(FEDDURZAI_HOOK_SIGNAL, &ours, NULL) != 0)
            return FEDDURZAI_HOOK_SIGNAL_USED;
    }
    if (sigaction(SIGTRAP, NULL, &now) != 0)
        return FEDDURZAI_HOOK_SIGNAL_USED;
    if (!(now.sa_flags & SA_SIGINFO) || now.sa_sigaction != at_trap) {
        unsigned slot = atomic_load(&table.old_trap) + 1;
        table.old_traps[slot & 1] = now;
        atomic_store(&table.old_trap, slot);
        /* a call within the handler of the program may meet an INT3 too. No question comes while an address behind an
           INT3 is on the stack: it may be that of a taken instruction */
        ours.sa_flags |= SA_NODEFER;
        ours.sa_sigaction = at_trap;
        sigaddset(&ours.sa_mask, FEDDURZAI_HOOK_SIGNAL);
        if (sigaction(SIGTRAP, &ours, NULL) != 0)
            return FEDDURZAI_HOOK_SIGNAL_USED;
    }
    return 0;
}

/* ---- asking the threads ------------------------------------------------------------------------------------- */

/* An entry of a folder, as getdents64 returns it; opendir would call malloc. */
struct entry {
    uint64_t number, next;
    uint16_t len;
    uint8_t type;
    char name[];
};

/* Calls f for each thread of the process until it returns 0. Returns 0 then or if /proc is missing, else 1. */
static int each_thread(int (*f)(int tid, void *with), void *with)
{
    _Alignas(struct entry) char buffer[2048];
    int folder = open("/proc/self/task", O_RDONLY | O_DIRECTORY | O_CLOEXEC), good = folder >= 0;
    long len = 0, at;
    while (good && (len = syscall(SYS_getdents64, folder, buffer, sizeof buffer)) > 0)
        for (at = 0; good && at < len; at += ((struct entry *)(void *)(buffer + at))->len) {
            int tid = atoi(((struct entry *)(void *)(buffer + at))->name);
            good = tid <= 0 || f(tid, with);
        }
    if (folder >= 0)
        close(folder);
    return good && len == 0;
}

/* reads the front of a file of a thread, and ends it with 0. Returns its length, or -1 with errno */
static ssize_t read_of_thread(int tid, const char *name, char *text, size_t room)
{
    char path[64];
    ssize_t len = -1;
    int file;
    snprintf(path, sizeof path, "/proc/self/task/%d/%s", tid, name);
    file = open(path, O_RDONLY | O_CLOEXEC);
    if (file >= 0) {
        len = read(file, text, room - 1);
        close(file);
    }
    text[len < 0 ? 0 : len] = 0;
    return len;
}

static int is_inside(uint64_t address)
{
    struct walk walk = {NULL, 0};
    struct hook *hook;
    while ((hook = next_hook(&walk)) != NULL)
        if (atomic_load(&hook->state) == TURNING_ON && inside_of(hook, address) != 0)
            return 1;
    return 0;
}

/*
 * Where a thread is, as far as that can be seen without asking it. If it waits in the kernel, its stack and its address
 * are the last two words of the file `syscall`. No address of a taken instruction can come to its stack later.
 */
static enum answer where_rests(int tid)
{
    char text[512], again[512], *stack, *last;
    ssize_t len = read_of_thread(tid, "syscall", text, sizeof text);
    if (len > 0) {
        last = strrchr(text, ' ');
        for (stack = last; stack != NULL && stack > text && stack[-1] != ' '; stack--)
            ;
        if (text[0] == 'r' || last == NULL || is_inside(strtoull(last + 1, NULL, 16)))
            return NOT_ASKED;
        if (returns_inside(strtoull(stack, NULL, 16)))
            return INSIDE;
        read_of_thread(tid, "syscall", again, sizeof again);
        return strcmp(text, again) == 0 ? OUTSIDE : NOT_ASKED;
    }
    /* a thread that has ended is outside */
    len = read_of_thread(tid, "stat", text, sizeof text);
    last = strrchr(text, ')');
    return len <= 0 || (last != NULL && (last[2] == 'Z' || last[2] == 'X')) ? OUTSIDE : NOT_ASKED;
}

/* whether a thread blocks a signal now */
static int blocks_signal(int tid, int signal)
{
    char text[2048], *mask;
    if (read_of_thread(tid, "status", text, sizeof text) <= 0 || (mask = strstr(text, "SigBlk:")) == NULL)
        return 0;
    return (int)(strtoull(mask + 7, NULL, 16) >> (signal - 1) & 1);
}

/* does not block SIGTRAP for long: a thread that starts another one blocks all signals for a moment, and so does one
   that starts */
static int takes_traps(int tid, void *unused)
{
    const struct timespec pause = {0, 1000000L};
    int tries;
    (void)unused;
    for (tries = 0; blocks_signal(tid, SIGTRAP); tries++) {
        if (tries == TRIES)
            return 0;
        nanosleep(&pause, NULL);
    }
    return 1;
}

static int count_thread(int tid, void *with)
{
    (void)tid;
    ++*(int *)with;
    return 1;
}

/* the number of threads, or -1 */
static int thread_count(void)
{
    int count = 0;
    return each_thread(count_thread, &count) ? count : -1;
}

/* notes a thread that is to be asked, unless it is noted */
static int note_thread(int tid, void *with)
{
    struct asked *asked = atomic_load(&table.asked), *more;
    uint32_t k, room = atomic_load(&table.room);
    if (tid == thread_id())
        return 1;
    for (k = 0; k < table.asked_count; k++)
        if (asked[k].tid == tid)
            return 1;
    if (table.asked_count == room) {
        size_t bytes = (room == 0 ? 256 : 2 * (size_t)room) * sizeof *asked;
        more = mmap(NULL, bytes, PROT_READ | PROT_WRITE, MAP_PRIVATE | MAP_ANONYMOUS, -1, 0);
        if (more == MAP_FAILED)
            return 0;
        for (k = 0; k < room; k++) {
            more[k].tid = asked[k].tid;
            atomic_store(&more[k].stamp, atomic_load(&asked[k].stamp));
        }
        atomic_store(&table.asked, more);
        atomic_store(&table.room, (uint32_t)(bytes / sizeof *asked));
        asked = more;
    }
    asked[table.asked_count].tid = tid;
    atomic_store(&asked[table.asked_count++].stamp, table.question * 4 + NOT_ASKED);
    ++*(int *)with;
    return 1;
}

static enum answer answer_of(const struct asked *asked)
{
    return (enum answer)(atomic_load(&asked->stamp) - table.question * 4);
}

/* asks a thread, unless it can be seen where it is */
static void ask(struct asked *asked, uint32_t number)
{
    enum answer answer = where_rests(asked->tid);
    siginfo_t info;
    atomic_store(&asked->stamp, table.question * 4 + answer);
    if (answer != NOT_ASKED)
        return;
    memset(&info, 0, sizeof info);
    info.si_signo = FEDDURZAI_HOOK_SIGNAL;
    info.si_code = SI_QUEUE;
    info.si_pid = getpid();
    info.si_uid = getuid();
    info.si_value.sival_ptr = (void *)(uintptr_t)((uint64_t)table.question << 32 | number);
    atomic_store(&asked->stamp, table.question * 4 + ASKED);
    if (syscall(SYS_rt_tgsigqueueinfo, info.si_pid, asked->tid, info.si_signo, &info) != 0)
        atomic_store(&asked->stamp, table.question * 4 + (errno == ESRCH ? OUTSIDE : NOT_ASKED));
}

/* waits until each noted thread is outside. Returns 0, or FEDDURZAI_HOOK_BUSY */
static int32_t wait_for_answers(void)
{
    const struct timespec pause = {0, WAIT_MS * 1000000L};
    struct asked *asked = atomic_load(&table.asked);
    int waits = 0, late = 0;
    for (;;) {
        uint32_t answers = atomic_load(&table.answers), k, left = 0;
        int blocked = 0;
        for (k = 0; k < table.asked_count; k++) {
            enum answer answer = answer_of(&asked[k]);
            if (answer == NOT_ASKED || (answer == INSIDE && late))
                ask(&asked[k], k);
            else if (answer == ASKED && late && (answer = where_rests(asked[k].tid)) != NOT_ASKED)
                atomic_store(&asked[k].stamp, table.question * 4 + answer);
            answer = answer_of(&asked[k]);
            if (answer == OUTSIDE)
                continue;
            left++;
            blocked = blocked || (late && (answer == INSIDE || blocks_signal(asked[k].tid, FEDDURZAI_HOOK_SIGNAL)));
        }
        if (left == 0)
            return 0;
        waits += !late ? 0 : blocked ? PATIENCE : 1;
        if (waits >= FEDDURZAI_HOOK_WAITS * PATIENCE)
            return FEDDURZAI_HOOK_BUSY;
        late = syscall(SYS_futex, &table.answers, WAIT_PRIVATE, answers, &pause, NULL, 0) != 0 && errno == ETIMEDOUT;
    }
}

/* notes between which addresses all bytes are that hooks take which are being enabled */
static void note_range(void)
{
    struct walk walk = {NULL, 0};
    uint64_t first = UINT64_MAX, last = 0;
    struct hook *hook;
    while ((hook = next_hook(&walk)) != NULL) {
        uint64_t target = atomic_load(&hook->target);
        if (atomic_load(&hook->state) != TURNING_ON)
            continue;
        first = target < first ? target : first;
        last = target + hook->parts.detour.taken > last ? target + hook->parts.detour.taken : last;
    }
    atomic_store(&table.first, first);
    atomic_store(&table.last, last);
}

/*
 * Asks each other thread once, after INT3 is in place: no thread can come behind the first taken instruction any more,
 * so one that was seen elsewhere stays elsewhere. A thread that another starts meanwhile is found in the next round.
 */
static int32_t ask_threads(void)
{
    int32_t said;
    int fresh;
    table.question++;
    table.asked_count = 0;
    note_range();
    do {
        fresh = 0;
        if (!each_thread(note_thread, &fresh))
            return FEDDURZAI_HOOK_NO_PROC;
        said = wait_for_answers();
    } while (said == 0 && fresh > 0);
    return said;
}

/* ---- a change ----------------------------------------------------------------------------------------------- */

static const uint8_t *bytes_of(const struct hook *hook, int state)
{
    return state == ON ? hook->parts.patch : hook->parts.before;
}

/* whether the near jump in the padding is another one than the hook that is to be enabled has */
static int is_jump_due(const struct hook *hook)
{
    return hook->wanted == ON && memcmp(hook->jump, hook->parts.jump, hook->parts.jump_len) != 0;
}

/* Whether a hook is to be changed: `only` this one, or NULL for each. One that goes over another has other bytes. */
static int is_due(struct hook *hook, struct hook *only)
{
    int state = atomic_load(&hook->state);
    int is_other = memcmp(hook->now, bytes_of(hook, hook->wanted), (size_t)hook->parts.detour.taken) != 0 || is_jump_due(hook);
    return state != GONE && (state != hook->wanted || is_other) && (only == NULL || only == hook);
}

static struct hook *next_due(struct walk *walk, struct hook *only)
{
    struct hook *hook;
    while ((hook = next_hook(walk)) != NULL && !is_due(hook, only))
        ;
    return hook;
}

/* whether somebody else has written to a function or to its near jump */
static int is_changed(struct hook *hook)
{
    uint64_t jump_at = atomic_load(&hook->jump_at);
    return memcmp(code_at(atomic_load(&hook->target)), hook->now, (size_t)hook->parts.detour.taken) != 0
        || (jump_at != 0 && memcmp(code_at(jump_at), hook->jump, sizeof hook->jump) != 0);
}

/* checks that each function has the bytes that it should have. Counts the hooks to change, and what they need */
static int32_t check_due(struct hook *only, int *count, int *alone, int *asks)
{
    struct walk walk = {NULL, 0};
    struct hook *hook;
    *count = *asks = 0;
    *alone = 1;
    while ((hook = next_due(&walk, only)) != NULL) {
        int opens = hook->wanted == ON && atomic_load(&hook->state) != ON;
        if (!hook->stuck && is_changed(hook))
            return FEDDURZAI_HOOK_CHANGED;
        ++*count;
        *alone = *alone && (hook->flags & FEDDURZAI_HOOK_ALONE);
        *asks = *asks || (opens && hook->parts.count > 1 && !(hook->flags & FEDDURZAI_HOOK_ALONE));
    }
    return 0;
}

/* what a process with these threads needs for a change while they run */
static int32_t check_process(int threads)
{
    if (threads < 0)
        return FEDDURZAI_HOOK_NO_PROC;
    if (threads > 1 && syscall(SYS_membarrier, REGISTER_BARRIER, 0, 0) != 0)
        return FEDDURZAI_HOOK_NO_BARRIER;
    return each_thread(takes_traps, NULL) ? 0 : FEDDURZAI_HOOK_TRAP_BLOCKED;
}

/* writes the bytes of a hook behind the first, or the first: those of its near jump in the padding, if that changes, and
   then those of the patch */
static int32_t write_one(int mem, struct hook *hook, const uint8_t *jump, const uint8_t *patch, int first)
{
    size_t from = first ? 0 : 1, len = hook->parts.jump_len, taken = (size_t)hook->parts.detour.taken;
    int32_t said = 0;
    if (is_jump_due(hook))
        said = write_code(mem, atomic_load(&hook->jump_at) + from, jump + from, first ? 1 : len - 1);
    return said < 0 ? said : write_code(mem, atomic_load(&hook->target) + from, patch + from, first ? 1 : taken - 1);
}

/* writes INT3 over the first byte of each function */
static int32_t write_traps(int mem, struct hook *only)
{
    static const uint8_t int3 = INT3;
    struct walk walk = {NULL, 0};
    struct hook *hook;
    int32_t said = 0;
    while (said == 0 && (hook = next_due(&walk, only)) != NULL) {
        hook->was = atomic_load(&hook->state);
        atomic_store(&hook->state, hook->wanted == ON ? TURNING_ON : TURNING_OFF);
        said = write_one(mem, hook, &int3, &int3, 1);
    }
    return said;
}

/* gives each function its first byte again */
static void undo_traps(int mem, struct hook *only)
{
    struct walk walk = {NULL, 0};
    struct hook *hook;
    while ((hook = next_due(&walk, only)) != NULL) {
        int state = atomic_load(&hook->state);
        if (!hook->stuck && (state == TURNING_ON || state == TURNING_OFF) && write_one(mem, hook, hook->jump, hook->now, 1) < 0)
            hook->stuck = 1;
    }
    serialize();
    walk = (struct walk){NULL, 0};
    while ((hook = next_due(&walk, only)) != NULL) {
        int state = atomic_load(&hook->state);
        if (!hook->stuck && (state == TURNING_ON || state == TURNING_OFF))
            atomic_store(&hook->state, hook->was);
    }
}

/* writes the bytes of each function behind the first, or the first */
static int32_t write_rest(int mem, struct hook *only, int first)
{
    struct walk walk = {NULL, 0};
    struct hook *hook;
    int32_t said = 0;
    while ((hook = next_due(&walk, only)) != NULL) {
        int32_t here = write_one(mem, hook, hook->parts.jump, bytes_of(hook, hook->wanted), first);
        hook->stuck = here < 0;
        said = here < 0 ? here : said;
    }
    serialize();
    return said;
}

/* makes each change that is due, in a process that allows it: INT3 over each first byte; the threads leave the taken
   bytes; all other bytes; the first bytes. Each processor is serialized behind each step, so none runs a mixture */
static int32_t write_due(int mem, struct hook *only, int asks)
{
    struct walk walk = {NULL, 0};
    struct hook *hook;
    int32_t said = write_traps(mem, only);
    serialize();
    if (said == 0 && asks)
        said = ask_threads();
    if (said < 0) {
        undo_traps(mem, only);
        return said;
    }
    said = write_rest(mem, only, 0);
    if (said == 0)
        said = write_rest(mem, only, 1);
    while ((hook = next_due(&walk, only)) != NULL)
        if (said == 0) {
            if (is_jump_due(hook))
                memcpy(hook->jump, hook->parts.jump, sizeof hook->jump);
            memcpy(hook->now, bytes_of(hook, hook->wanted), sizeof hook->now);
            atomic_store(&hook->state, hook->wanted);
        } else
            hook->stuck = 1;
    return said;
}

/* makes each change that is due, or none */
static int32_t change_due(struct hook *only)
{
    int count, alone, asks, mem, threads;
    int32_t said = check_due(only, &count, &alone, &asks);
    if (said < 0 || count == 0)
        return said;
    threads = thread_count();
    said = alone ? 0 : check_process(threads);
    if (said == 0)
        said = set_handlers();
    if (said < 0)
        return said;
    mem = open_code();
    atomic_fetch_add(&table.changes, 1);
    said = write_due(mem, only, asks && threads != 1);
    atomic_fetch_add(&table.changes, 1);
    close_code(mem);
    return said;
}

/* Changes each hook, or only one, that is not as it is wanted. After a refusal nothing is wanted any more. */
static int32_t change(struct hook *only)
{
    struct walk walk = {NULL, 0};
    struct hook *hook;
    int32_t said = change_due(only);
    while (said < 0 && (hook = next_due(&walk, only)) != NULL)
        if (!hook->stuck)
            hook->wanted = atomic_load(&hook->state);
    return said;
}

/* ---- the calls of the header -------------------------------------------------------------------------------- */

/* a thread that forks within a call has the lock already, and keeps it */
static void before_fork(void)
{
    table.locked_to_fork = pthread_mutex_lock(&table.lock) == 0;
}

static void after_fork(void)
{
    if (table.locked_to_fork)
        pthread_mutex_unlock(&table.lock);
}

/* the child is another thread to the lock */
static void in_child(void)
{
    pthread_mutex_t fresh = PTHREAD_ERRORCHECK_MUTEX_INITIALIZER_NP;
    table.lock = fresh;
}

/* takes the lock; a thread that has it is refused. `cancel` receives whether the thread may be cancelled */
static int32_t enter(int *cancel)
{
    if (pthread_mutex_lock(&table.lock) != 0)
        return FEDDURZAI_HOOK_BUSY;
    pthread_setcancelstate(PTHREAD_CANCEL_DISABLE, cancel);
    if (!table.forks)
        table.forks = pthread_atfork(before_fork, after_fork, in_child) == 0;
    return 0;
}

static int32_t leave(int cancel, int32_t said)
{
    pthread_mutex_unlock(&table.lock);
    pthread_setcancelstate(cancel, NULL);
    return said;
}

/* puts bytes that are at one address into a copy of those at another */
static void put_back(uint8_t *code, uint64_t from, size_t len, uint64_t at, const uint8_t *bytes, uint64_t count)
{
    uint64_t k;
    for (k = 0; k < count; k++)
        if (at + k - from < len)
            code[at + k - from] = bytes[k];
}

/* a copy of some code, with the program's own bytes where hooks have overwritten them, or NULL */
static uint8_t *own_code(uint64_t from, size_t len)
{
    struct walk walk = {NULL, 0};
    uint8_t *code = malloc(len);
    struct hook *hook;
    if (code == NULL)
        return NULL;
    memcpy(code, code_at(from), len);
    while ((hook = next_hook(&walk)) != NULL) {
        int state = atomic_load(&hook->state);
        if (atomic_load(&hook->jump_at) != 0)
            put_back(code, from, len, atomic_load(&hook->jump_at), hook->padding, sizeof hook->padding);
        if (state != GONE && state != OFF)
            put_back(code, from, len, atomic_load(&hook->target), hook->parts.before, hook->parts.detour.taken);
    }
    return code;
}

/* whether other hooks overwrite a part of the bytes that a hook overwrites */
static int overlaps(const struct hook *self, uint64_t target, const feddurzai_hook_parts *parts)
{
    struct walk walk = {NULL, 0};
    struct hook *hook;
    while ((hook = next_hook(&walk)) != NULL) {
        uint64_t at = atomic_load(&hook->target);
        if (hook == self || atomic_load(&hook->state) == GONE)
            continue;
        if (at - hook->parts.jump_len < target + parts->detour.taken && target - parts->jump_len < at + hook->parts.detour.taken)
            return 1;
    }
    return 0;
}

/* What is to be hooked, with what. */
struct job {
    uint64_t target, to;
    const uint8_t *code;        /* behind the padding that the caller spoke of */
    size_t len;
    uint32_t flags;
};

static int32_t make_at(const struct job *job, uint64_t place, feddurzai_hook_parts *parts)
{
    return feddurzai_hook_make(64, job->target, job->code, job->len, job->to, place, job->flags, parts);
}

/* makes a hook with its trampoline in an area, which keeps the place if that succeeds */
static int32_t make_in(const struct job *job, struct area *area, feddurzai_hook_parts *parts)
{
    uint64_t place, k;
    int32_t said = feddurzai_region_reserve(&area->region, area->live, BLOCKS, FEDDURZAI_HOOK_MAX_TRAMPOLINE, &place);
    if (said < 0)
        return FEDDURZAI_FULL;
    said = make_at(job, place, parts);
    if (said < 0)
        feddurzai_region_release(&area->region, area->live, BLOCKS, place);
    /* the block is as long as the trampoline */
    for (k = 0; said == 0 && k < area->region.count; k++)
        if (area->live[k].place == place)
            area->live[k].len = (parts->detour.bytes + 15) / 16 * 16;
    return said;
}

/* makes a hook with a trampoline near the function, or out of its reach */
static int32_t make_new(const struct job *job, int far, feddurzai_hook_parts *parts)
{
    struct area *area;
    int32_t said;
    for (area = table.areas; area != NULL; area = area->next) {
        uint64_t base = area->region.base;
        if (far ? distance(base, job->target) < (UINT64_C(1) << 32) : !is_near(base, job->target))
            continue;
        said = make_in(job, area, parts);
        /* where the area is close, no other one is better */
        if (said == FEDDURZAI_FULL || (said == FEDDURZAI_TOO_FAR && !far && distance(base, job->target) >= CLOSE_BY))
            continue;
        return said;
    }
    area = new_area(job->target, far);
    return area == NULL ? FEDDURZAI_HOOK_NO_PAGE : make_in(job, area, parts);
}

static int same_bytes(uint64_t place, const feddurzai_hook_parts *parts)
{
    return memcmp(code_at(place), parts->trampoline, (size_t)parts->detour.bytes) == 0;
}

/* makes a hook: with the trampoline that the function had before, `kept`, if it is the same; else with a new one */
static int32_t make_hook(const struct job *job, uint64_t kept, feddurzai_hook_parts *parts)
{
    int far = (job->flags & FEDDURZAI_HOOK_FAR) != 0;
    int32_t said;
    if (kept != 0 && make_at(job, kept, parts) == 0 && same_bytes(kept, parts))
        return 0;
    said = make_new(job, far, parts);
    return said == FEDDURZAI_HOOK_NO_PAGE && !far ? make_new(job, 1, parts) : said;
}

/* writes a new trampoline */
static int32_t write_trampoline(const feddurzai_hook_parts *parts)
{
    int mem = open_code();
    int32_t said = write_code(mem, parts->place, parts->trampoline, (size_t)parts->detour.bytes);
    close_code(mem);
    return said;
}

/* frees the place of a trampoline that no one has run */
static void release(uint64_t place)
{
    struct area *area;
    for (area = table.areas; area != NULL; area = area->next)
        feddurzai_region_release(&area->region, area->live, BLOCKS, place);
}

/* whether the first bytes of a function are an ENDBR64 that is kept */
static int keeps_endbr(const struct job *job)
{
    return (job->flags & FEDDURZAI_HOOK_KEEP_ENDBR) && job->len >= 4 && memcmp(job->code, "\xf3\x0f\x1e\xfa", 4) == 0;
}

/* the hook that is in an entry */
static struct layer layer_of(struct hook *hook)
{
    struct layer layer = {atomic_load(&hook->replacement), atomic_load(&hook->place), hook->flags, hook->parts, hook->under};
    return layer;
}

static void set_layer(struct hook *hook, const struct layer *layer)
{
    hook->flags = layer->flags;
    hook->parts = layer->parts;
    hook->under = layer->under;
    atomic_store(&hook->replacement, layer->replacement);
    atomic_store(&hook->place, layer->place);
}

/* puts the hook of an entry under a new one. Returns 0 if there is no memory */
static int cover(struct hook *hook)
{
    struct layer *layer = malloc(sizeof *layer);
    if (layer == NULL)
        return 0;
    *layer = layer_of(hook);
    hook->under = layer;
    return 1;
}

/* takes the last hook out of an entry: the one under it is there again */
static void uncover(struct hook *hook)
{
    struct layer *layer = hook->under;
    set_layer(hook, layer);
    free(layer);
}

/* ends all hooks of an entry whose function has its own bytes */
static void end_hook(struct hook *hook)
{
    while (hook->under != NULL)
        uncover(hook);
    atomic_store(&hook->state, GONE);
}

/* why a hook cannot go over the live one of its function */
static int32_t check_over(const struct job *job, struct hook *live)
{
    if (!(job->flags & FEDDURZAI_HOOK_OVER))
        return FEDDURZAI_HOOK_EXISTS;
    return (job->flags & FEDDURZAI_HOOK_DISABLED) && live->wanted == ON ? FEDDURZAI_HOOK_BAD_ARGUMENT : 0;
}

/* whether a hook overwrites exactly the bytes that the live one of its function does */
static int is_over(const struct hook *hook, const struct hook *live, const feddurzai_hook_parts *parts)
{
    return hook == live && parts->detour.taken == live->parts.detour.taken && parts->jump_len == live->parts.jump_len;
}

/* makes a hook for an entry, and writes its trampoline if it is a new one */
static int32_t place_hook(const struct job *job, struct hook *hook, const struct hook *live, uint64_t at,
    feddurzai_hook_parts *parts)
{
    uint64_t *kept = &hook->places[(job->flags & FEDDURZAI_HOOK_FAR) != 0];
    int32_t said = make_hook(job, *kept, parts);
    if (said < 0)
        return said;
    if (live != NULL && !is_over(hook, live, parts))
        said = FEDDURZAI_HOOK_OTHER_PATCH;
    else if (overlaps(hook, at, parts))
        said = FEDDURZAI_HOOK_OVERLAPS;
    else if (live != NULL && !cover(hook))
        said = FEDDURZAI_HOOK_NO_MEMORY;
    else if (parts->place != *kept && (said = write_trampoline(parts)) < 0 && live != NULL)
        uncover(hook);
    if (said < 0 && parts->place != *kept)
        release(parts->place);
    if (said == 0)
        *kept = parts->place;
    return said;
}

/* installs a hook of a function whose own bytes are in the job. The lock is taken */
static int32_t install(const struct job *job, void *original, feddurzai_hook_parts *parts)
{
    struct hook *live = hook_of(job->target), *hook;
    uint64_t at = job->target + (keeps_endbr(job) ? 4 : 0);
    void *place;
    int32_t said = live == NULL ? 0 : check_over(job, live);
    if (said < 0)
        return said;
    hook = hook_at(at);
    if (hook == NULL && (hook = free_hook()) == NULL)
        return FEDDURZAI_HOOK_NO_MEMORY;
    /* behind its ENDBR64 another function is hooked */
    if (live == NULL && atomic_load(&hook->state) != GONE)
        return FEDDURZAI_HOOK_OVERLAPS;
    said = place_hook(job, hook, live, at, parts);
    if (said < 0)
        return said;
    place = (void *)(uintptr_t)(live == NULL ? parts->place : atomic_load(&hook->replacement));
    if (original != NULL)
        memcpy(original, &place, sizeof place);
    hook->parts = *parts;
    hook->flags = job->flags;
    atomic_store(&hook->replacement, job->to);
    atomic_store(&hook->place, parts->place);
    if (parts->jump_len > 0 && atomic_load(&hook->jump_at) == 0) {
        memcpy(hook->jump, parts->jump_before, sizeof hook->jump);
        memcpy(hook->padding, parts->jump_before, sizeof hook->padding);
        atomic_store(&hook->jump_at, at - parts->jump_len);
    }
    if (live == NULL) {
        hook->stuck = 0;
        hook->function = job->target;
        hook->len = job->len;
        memcpy(hook->now, parts->before, sizeof hook->now);
        atomic_store(&hook->target, at);
        hook->wanted = OFF;
        atomic_store(&hook->state, OFF);
    }
    if (job->flags & FEDDURZAI_HOOK_DISABLED)
        return 0;
    hook->wanted = ON;
    said = change(hook);
    if (said < 0 && !hook->stuck && live != NULL)
        uncover(hook);
    else if (said < 0 && !hook->stuck)
        atomic_store(&hook->state, GONE);
    return said;
}

int32_t feddurzai_hook_install_with(void *target, void *replacement, void *original,
    const feddurzai_hook_options *options)
{
    feddurzai_hook_options with = {0, 0, NULL};
    struct job job = {address_of(target), address_of(replacement), NULL, 0, 0};
    feddurzai_hook_parts parts;
    struct hook *live;
    size_t padding;
    uint8_t *code;
    int32_t said;
    int cancel;
    if (options != NULL)
        with = *options;
    memset(&parts, 0, sizeof parts);
    if (with.parts != NULL)
        *with.parts = parts;
    if (target == NULL || replacement == NULL || target == replacement)
        return FEDDURZAI_HOOK_BAD_ARGUMENT;
    /* before its file is compared with its bytes; and without the lock, since the loader has one too */
    live = hook_of(job.target);
    if (live != NULL && !(with.flags & FEDDURZAI_HOOK_OVER))
        return FEDDURZAI_HOOK_EXISTS;
    job.len = with.size != 0 ? with.size : live != NULL ? live->len : (size_t)size_of(target);
    if (job.len == 0)
        return FEDDURZAI_HOOK_NO_SIZE;
    if (job.len > FEDDURZAI_MAX_CODE)
        return FEDDURZAI_TOO_LARGE;
    said = enter(&cancel);
    if (said < 0)
        return said;
    padding = padding_of(with.flags);
    code = own_code(job.target - padding, padding + job.len);
    job.code = code == NULL ? NULL : code + padding;
    job.flags = with.flags;
    said = code == NULL ? FEDDURZAI_HOOK_NO_MEMORY : install(&job, original, &parts);
    free(code);
    if (with.parts != NULL)
        *with.parts = parts;
    return leave(cancel, said);
}

int32_t feddurzai_hook_install(void *target, void *replacement, void *original)
{
    return feddurzai_hook_install_with(target, replacement, original, NULL);
}

int32_t feddurzai_hook_find(void *library, const char *name, void **target, size_t *size)
{
    size_t found;
    if (name == NULL || target == NULL)
        return FEDDURZAI_HOOK_BAD_ARGUMENT;
    *target = dlsym(library == NULL ? RTLD_DEFAULT : library, name);
    if (*target == NULL)
        return FEDDURZAI_HOOK_NO_SYMBOL;
    found = (size_t)size_of(*target);
    if (size != NULL)
        *size = found;
    return found == 0 ? FEDDURZAI_HOOK_NO_SIZE : 0;
}

int32_t feddurzai_hook_install_name(const char *name, void *replacement, void *original)
{
    feddurzai_hook_options with = {0, 0, NULL};
    void *target;
    int32_t said = feddurzai_hook_find(NULL, name, &target, &with.size);
    return said < 0 ? said : feddurzai_hook_install_with(target, replacement, original, &with);
}

/* removes the last of several hooks of a function: the one before it is enabled if this one was */
static int32_t remove_last(struct hook *hook)
{
    struct layer last = layer_of(hook), *under = hook->under;
    int32_t said;
    set_layer(hook, under);
    if (!hook->stuck)
        hook->wanted = atomic_load(&hook->state);
    said = change(hook);
    if (said < 0 && !hook->stuck)
        set_layer(hook, &last);
    else
        free(under);
    return said;
}

/* notes what is wanted of a hook, or of all, and does it at once or not. `gone` removes what is then disabled */
static int32_t want(void *target, int wanted, int at_once, int gone)
{
    struct walk walk = {NULL, 0};
    struct hook *hook, *only = NULL;
    int32_t said;
    int cancel;
    said = enter(&cancel);
    if (said < 0)
        return said;
    if (target != FEDDURZAI_HOOK_ALL) {
        only = hook_of(address_of(target));
        if (only == NULL)
            return leave(cancel, FEDDURZAI_HOOK_MISSING);
        if (gone && only->under != NULL)
            return leave(cancel, remove_last(only));
    }
    while ((hook = next_hook(&walk)) != NULL)
        if (only == NULL || only == hook)
            hook->wanted = wanted;
    if (at_once)
        said = change(only);
    walk = (struct walk){NULL, 0};
    while (said == 0 && gone && (hook = next_hook(&walk)) != NULL)
        if (only == NULL || only == hook)
            end_hook(hook);
    return leave(cancel, said);
}

int32_t feddurzai_hook_remove(void *target)
{
    return want(target, OFF, 1, 1);
}

int32_t feddurzai_hook_enable(void *target)
{
    return want(target, ON, 1, 0);
}

int32_t feddurzai_hook_disable(void *target)
{
    return want(target, OFF, 1, 0);
}

int32_t feddurzai_hook_queue_enable(void *target)
{
    return want(target, ON, 0, 0);
}

int32_t feddurzai_hook_queue_disable(void *target)
{
    return want(target, OFF, 0, 0);
}

int32_t feddurzai_hook_apply(void)
{
    int cancel;
    int32_t said = enter(&cancel);
    return said < 0 ? said : leave(cancel, change(NULL));
}

void feddurzai_hook_counts(uint64_t *traps, uint64_t *moved)
{
    *traps = atomic_load(&table.traps);
    *moved = atomic_load(&table.moved);
}

const char *feddurzai_hook_error_text(int32_t said)
{
    switch (said) {
    case FEDDURZAI_BAD_MODE: return "the mode is not 16, 32 or 64";
    case FEDDURZAI_NO_ROOM: return "the trampoline would be longer than 256 bytes";
    case FEDDURZAI_INVALID: return "no instruction begins at a byte that would be overwritten";
    case FEDDURZAI_TOO_SHORT: return "the function ends within an instruction that would be overwritten";
    case FEDDURZAI_NO_MEMORY: return "malloc returned no memory";
    case FEDDURZAI_TOO_LARGE: return "the function is longer than 1048576 bytes";
    case FEDDURZAI_WRAPS: return "the trampoline would extend past the address space";
    case FEDDURZAI_TOO_FAR: return "an instruction cannot reach its target from the trampoline";
    case FEDDURZAI_NULL: return "a pointer is NULL that may not be";
    case FEDDURZAI_SMALL: return "the function is shorter than the jump";
    case FEDDURZAI_ENDS: return "control ends within the overwritten bytes, and other code follows there";
    case FEDDURZAI_ENTERED: return "control may enter the overwritten bytes after the first one";
    case FEDDURZAI_OVERLAPS: return "the trampoline would lie in the bytes of the function";
    case FEDDURZAI_PADDING: return "the bytes in front of the function are too few, or no padding";
    case FEDDURZAI_HOOK_BAD_ARGUMENT: return "target or replacement is NULL, or both are the same, or a disabled hook would go over an enabled one";
    case FEDDURZAI_HOOK_NO_SYMBOL: return "no loaded file has a function of this name";
    case FEDDURZAI_HOOK_NO_SIZE: return "no symbol says how long the function is: give its size";
    case FEDDURZAI_HOOK_EXISTS: return "the function has a hook";
    case FEDDURZAI_HOOK_MISSING: return "the function has no hook";
    case FEDDURZAI_HOOK_OVERLAPS: return "the hook would overwrite a part of another hook";
    case FEDDURZAI_HOOK_BREAKPOINT: return "the function begins with INT3, a breakpoint";
    case FEDDURZAI_HOOK_CALL: return "a CALL would be overwritten, and would push an address in the trampoline";
    case FEDDURZAI_HOOK_OWN_BYTES: return "an overwritten instruction accesses the overwritten bytes";
    case FEDDURZAI_HOOK_LOOP: return "a branch goes back to the start of the function, and would reach the replacement";
    case FEDDURZAI_HOOK_UNSEEN: return "control cannot be followed through the whole function";
    case FEDDURZAI_HOOK_NO_PAGE: return "there are no pages for the trampoline";
    case FEDDURZAI_HOOK_PROTECTED: return "the code could not be written";
    case FEDDURZAI_HOOK_CHANGED: return "somebody else has changed the first bytes of the function";
    case FEDDURZAI_HOOK_BUSY: return "a thread did not say where it is, or a call of this thread is at work";
    case FEDDURZAI_HOOK_NO_BARRIER: return "several threads run, and the kernel has no membarrier for their code";
    case FEDDURZAI_HOOK_NO_PROC: return "/proc is not mounted, so the threads are not known";
    case FEDDURZAI_HOOK_TRAP_BLOCKED: return "a thread blocks SIGTRAP";
    case FEDDURZAI_HOOK_SIGNAL_USED: return "the program uses the signal that asks the threads where they are";
    case FEDDURZAI_HOOK_NO_MEMORY: return "there is no memory";
    case FEDDURZAI_HOOK_OTHER_PATCH: return "the patch would not lie exactly over that of the hook before it";
    default: return said < 0 ? "an unknown status" : "no error";
    }
}

/*
 * Hooks in the running program, over feddurzai_detour_with: each call of a function goes to a replacement, which can call
 * the original. Linux on x86-64 with glibc. Compile feddurzai_hook.c with the program, as C11, and link libfeddurzai.
 *
 *     static int (*original)(const char *);
 *     static int mine(const char *text) { return original(text) + 1; }
 *
 *     int32_t said = feddurzai_hook_install_name("atoi", FEDDURZAI_HOOK_ADDRESS(mine), &original);
 *     if (said < 0)
 *         puts(feddurzai_hook_error_text(said));
 *     said = feddurzai_hook_remove(FEDDURZAI_HOOK_ALL);
 *
 * Other threads may call the function all the time. docs/hooks.md says how that works, what is proved (the bytes of
 * patch and trampoline), what is only tested (feddurzai_hook.c), and what a hook leaves to its author.
 *
 * State: one table with an entry for each function that ever had a hook, its trampolines, and the handlers of two
 * signals. Entries and trampolines are never freed, since a thread may still be in them; a function that is hooked
 * again gets its old ones. Any number of threads may call these functions at once: one works, the others wait. A signal
 * handler or a replacement that interrupts such a call and makes another gets FEDDURZAI_HOOK_BUSY. fork waits for the
 * end of a change.
 *
 * Signals: SIGTRAP, for calls that arrive during a change; every other SIGTRAP goes to the handler that the program
 * has. FEDDURZAI_HOOK_SIGNAL, a real-time signal that must be free: it asks a thread where it is.
 *
 * The calls return 0 or a negative status: one of those below, or one of feddurzai_detour_with, as FEDDURZAI_ENTERED.
 * After a negative status nothing has changed, with one exception at FEDDURZAI_HOOK_PROTECTED.
 */
#ifndef FEDDURZAI_HOOK_H
#define FEDDURZAI_HOOK_H

#include "feddurzai.h"

#ifdef __cplusplus
extern "C" {
#endif

/*
 * The signal that asks a thread where it is. Compile feddurzai_hook.c with -DFEDDURZAI_HOOK_SIGNAL=.. for another, and
 * with -DFEDDURZAI_HOOK_BY_RIGHTS to write by mprotect alone, never through /proc/self/mem.
 */
#ifndef FEDDURZAI_HOOK_SIGNAL
#define FEDDURZAI_HOOK_SIGNAL (SIGRTMAX - 1)
#endif

/* A function as the calls below take it. */
#define FEDDURZAI_HOOK_ADDRESS(function) ((void *)(uintptr_t)(function))

/* In place of a target: every hook. */
#define FEDDURZAI_HOOK_ALL ((void *)0)

/* Statuses, besides those of feddurzai.h. feddurzai_hook_error_text has a sentence for each of either kind. */
enum {
    FEDDURZAI_HOOK_BAD_ARGUMENT = -1001,    /* NULL, or the replacement is the target; or _DISABLED over an enabled hook */
    FEDDURZAI_HOOK_NO_SYMBOL = -1002,       /* no loaded file has a function of this name */
    FEDDURZAI_HOOK_NO_SIZE = -1003,         /* no symbol says how long the function is: give its size */
    FEDDURZAI_HOOK_EXISTS = -1004,          /* the function has a hook */
    FEDDURZAI_HOOK_MISSING = -1005,         /* the function has no hook */
    FEDDURZAI_HOOK_OVERLAPS = -1006,        /* the patch would overwrite a part of another hook's patch */
    FEDDURZAI_HOOK_OTHER_PATCH = -1022,     /* over an earlier hook: the patch would not overwrite the same bytes */
    /* of the function's code */
    FEDDURZAI_HOOK_BREAKPOINT = -1007,      /* the function begins with INT3 */
    FEDDURZAI_HOOK_CALL = -1008,            /* a CALL is taken that cannot push its own return address: at */
    FEDDURZAI_HOOK_OWN_BYTES = -1009,       /* a taken instruction accesses the taken bytes: at, target */
    FEDDURZAI_HOOK_LOOP = -1010,            /* a branch behind the taken instructions goes to the start: at */
    FEDDURZAI_HOOK_UNSEEN = -1011,          /* control cannot be followed from this offset on: at; and why: target,
                                               FEDDURZAI_SIGHT_NOT_READ .. */
    /* of the process */
    FEDDURZAI_HOOK_NO_PAGE = -1012,         /* no memory for the trampoline, or none that may be executed */
    FEDDURZAI_HOOK_PROTECTED = -1013,       /* the code could not be written. If this happens between two writes, calls
                                               keep working by SIGTRAP, and the next enable or disable tries again */
    FEDDURZAI_HOOK_CHANGED = -1014,         /* somebody else has changed the function's first bytes */
    FEDDURZAI_HOOK_BUSY = -1015,            /* a thread did not say where it is, or another call of this thread works */
    FEDDURZAI_HOOK_NO_BARRIER = -1016,      /* several threads, but no membarrier(2) with SYNC_CORE (Linux 4.16) */
    FEDDURZAI_HOOK_NO_PROC = -1017,         /* /proc is not mounted */
    FEDDURZAI_HOOK_TRAP_BLOCKED = -1018,    /* a thread blocks SIGTRAP: a call of it during the change would end the
                                               program */
    FEDDURZAI_HOOK_SIGNAL_USED = -1019,     /* the program has a handler of FEDDURZAI_HOOK_SIGNAL */
    FEDDURZAI_HOOK_NO_MEMORY = -1021        /* malloc or mmap returned no memory */
};

/* Flags of an install, to be added. 0 is the careful choice. */
enum {
    FEDDURZAI_HOOK_ALLOW_CALLS = 1,     /* any CALL may be taken. The last one pushes its own return address; what any
                                           other one calls sees a return address in the trampoline: exceptions and
                                           unwinders do not pass it, and a thunk that returns its own address is wrong.
                                           The calling thread must not be in that call */
    FEDDURZAI_HOOK_ALLOW_LOOPS = 2,     /* a branch to the start may exist, and reaches the replacement each time */
    FEDDURZAI_HOOK_NEED_SIGHT = 4,      /* refuse what control cannot be followed through (FEDDURZAI_HOOK_UNSEEN) */
    FEDDURZAI_HOOK_DISABLED = 8,        /* install the hook, but leave it disabled */
    FEDDURZAI_HOOK_FAR = 16,            /* for tests: the trampoline is out of reach. If the replacement is, too, the
                                           patch has 14 bytes */
    FEDDURZAI_HOOK_ALONE = 32,          /* the caller says that no other thread runs the function during any change */
    FEDDURZAI_HOOK_PLAIN_CALLS = 64,    /* a CALL stays one, also the last: for a process with a shadow stack (CET),
                                           where RET to an address that no CALL pushed faults */
    FEDDURZAI_HOOK_KEEP_ENDBR = 128,    /* an ENDBR64 at the start stays, and the trampoline begins with one: for a process
                                           with indirect-branch tracking (CET) */
    FEDDURZAI_HOOK_OVER = 256           /* the function may have hooks. The new one goes over them: it gets the calls, and
                                           its original is the replacement before it. The last installed is the first
                                           that feddurzai_hook_remove removes; enable and disable are for all of them */
};

/*
 * To be added to the flags, too: the caller says that the `count` bytes directly in front of the function, up to 255,
 * are padding, which belongs to no function. If the function is too small for the jump, it gets a short jump of 2 bytes
 * to a near jump that overwrites the last 5 of them. The near jump stays there when the hook is removed.
 */
#define FEDDURZAI_HOOK_PADDING(count) ((uint32_t)(count) << 16)

/* The longest trampoline of a hook, in bytes. */
#define FEDDURZAI_HOOK_MAX_TRAMPOLINE 256

/*
 * The parts of a hook, and where each taken instruction is in the trampoline. Offsets of the function count from its
 * first byte, offsets of the trampoline from `place`; those of a refusal from what `kept` and `in_padding` say.
 */
typedef struct feddurzai_hook_parts {
    feddurzai_detour_report detour;     /* as feddurzai_detour_with reports it: .taken, .form, .bytes, .jump_back, .. */
    uint64_t place;                     /* the address of the trampoline */
    uint64_t at, target;                /* of a refusal: the offsets, or as in `detour` */
    uint64_t unseen_at;                 /* of a hook: the first offset from which control cannot be followed, since no
                                           instruction of the table begins there, the bytes end there or behind it, or
                                           it is an indirect jump. If none, the size */
    uint8_t patch[FEDDURZAI_MAX_PATCH];                 /* .taken bytes, for the function's address plus `kept` */
    uint8_t before[FEDDURZAI_MAX_PATCH];                /* the function's own bytes there */
    uint8_t trampoline[FEDDURZAI_HOOK_MAX_TRAMPOLINE];  /* .bytes bytes */
    uint8_t count;                      /* the number of taken instructions, without padding */
    uint8_t taken_at[FEDDURZAI_MAX_PATCH];              /* their offsets in the function */
    uint8_t place_at[FEDDURZAI_MAX_PATCH];              /* and in the trampoline */
    uint8_t kept;                       /* how many first bytes of the function stay: 4 of an ENDBR, or 0. Of a refusal:
                                           `at` and `target` count from there */
    uint8_t in_padding;                 /* 1 if a refusal is about the padding or the near jump in it: `at` and `target`
                                           are those of feddurzai_detour_padding */
    uint8_t jump_len;                   /* the size of the near jump in front of the function, or 0 */
    uint8_t jump[5];                    /* that jump */
    uint8_t jump_before[5];             /* the padding there */
} feddurzai_hook_parts;

/*
 * Makes the parts of a hook by feddurzai_detour_with, or by feddurzai_detour_endbr or _padding if a flag asks for it, and
 * checks what that call leaves to its caller. Writes nothing but *parts, and works for code of any mode and any process.
 *
 *  - bits, ip, code, len, to, place: as in feddurzai_detour_with. `code` has the program's own bytes; with
 *    FEDDURZAI_HOOK_PADDING(n) those of the padding stand in the n bytes before it.
 *  - flags: FEDDURZAI_HOOK_ALLOW_CALLS, _ALLOW_LOOPS, _NEED_SIGHT, _PLAIN_CALLS, _KEEP_ENDBR and _PADDING count. The
 *    padding is used if the function is too small for the jump (FEDDURZAI_SMALL, _ENDS) and has no ENDBR to keep.
 *
 * Returns 0, or a status of these calls, but FEDDURZAI_HOOK_LOOP for FEDDURZAI_ENTERED with the target 0,
 * FEDDURZAI_HOOK_CALL for FEDDURZAI_CALLS, and FEDDURZAI_HOOK_UNSEEN for FEDDURZAI_UNSEEN; then FEDDURZAI_HOOK_BREAKPOINT,
 * or _OWN_BYTES for the first taken instruction to which it applies.
 */
int32_t feddurzai_hook_make(uint32_t bits, uint64_t ip, const uint8_t *code, size_t len, uint64_t to, uint64_t place,
    uint32_t flags, feddurzai_hook_parts *parts);

/*
 * Installs a hook and enables it: each call of `target` reaches `replacement`.
 *
 *  - target: the first byte of a function. Its size is that of its ELF symbol.
 *  - replacement: a function of the same type.
 *  - original: the address of a function pointer, or NULL. It receives the trampoline, before the first call can reach
 *    the replacement. Calling it is calling the original function, also after the hook is disabled or removed. (Of a
 *    hook over another, FEDDURZAI_HOOK_OVER, it receives the replacement of that one.)
 *
 * The trampoline is within 2 gigabytes of the function if there is a free page, and the patch has 5 bytes. Else it has
 * 14 bytes, unless the replacement is within reach.
 */
int32_t feddurzai_hook_install(void *target, void *replacement, void *original);

/*
 * The same for a function that the loader finds by its name, as dlsym(RTLD_DEFAULT, name) does. In a program that is
 * not position-independent, the address of a library's function may be that of a stub, so give the name.
 */
int32_t feddurzai_hook_install_name(const char *name, void *replacement, void *original);

/* What feddurzai_hook_install_with takes besides. All zeros is what feddurzai_hook_install does. */
typedef struct feddurzai_hook_options {
    size_t size;                    /* the size of the function in bytes; 0: that of its ELF symbol */
    uint32_t flags;                 /* FEDDURZAI_HOOK_ALLOW_CALLS .. */
    feddurzai_hook_parts *parts;    /* receives the parts, also those of a refusal, or NULL */
} feddurzai_hook_options;

/* The same with options. `options` may be NULL. */
int32_t feddurzai_hook_install_with(void *target, void *replacement, void *original,
    const feddurzai_hook_options *options);

/*
 * Finds a function and its size by name.
 *
 *  - library: what dlopen returned, or NULL for every loaded file.
 *  - size: receives the size, or NULL.
 *
 * Returns 0, or FEDDURZAI_HOOK_NO_SYMBOL, _NO_SIZE; *target is set in the latter case too.
 */
int32_t feddurzai_hook_find(void *library, const char *name, void **target, size_t *size);

/*
 * Removes the hook of a function, or FEDDURZAI_HOOK_ALL. The function has its own bytes again. Of several hooks of one
 * function only the last is removed, and the one before it gets the calls; with FEDDURZAI_HOOK_ALL all are.
 */
int32_t feddurzai_hook_remove(void *target);

/* Enables the hook of a function, or FEDDURZAI_HOOK_ALL. An enabled hook stays. */
int32_t feddurzai_hook_enable(void *target);

/* Disables the hook of a function, or FEDDURZAI_HOOK_ALL: the function has its own bytes, and the hook is kept. */
int32_t feddurzai_hook_disable(void *target);

/*
 * Several at once: the first two note what is to be done, with one hook or FEDDURZAI_HOOK_ALL, and feddurzai_hook_apply
 * does it, all or nothing. The processors are serialized three times in all, and not for each hook.
 */
int32_t feddurzai_hook_queue_enable(void *target);
int32_t feddurzai_hook_queue_disable(void *target);
int32_t feddurzai_hook_apply(void);

/* How many calls met the INT3 of a change so far, and how many threads were moved out of bytes that it overwrote. */
void feddurzai_hook_counts(uint64_t *traps, uint64_t *moved);

/* Returns a sentence in English, without a full stop, for a status of these calls or of feddurzai_detour_with. */
const char *feddurzai_hook_error_text(int32_t said);

#ifdef __cplusplus
}
#endif

#endif

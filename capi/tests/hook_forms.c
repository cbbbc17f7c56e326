/*
 * The forms of a hook that feddurzai_hook_install_with makes if a flag asks for them: behind an ENDBR64 that stays, through
 * the padding in front of a small function, and over an earlier hook of the same function; alone, one after another, and
 * while threads call the functions.
 *
 * Linux on x86-64. Compile feddurzai_hook.c with it. Not stripped: the program finds the sizes of its functions.
 */
#define _GNU_SOURCE
#include "feddurzai_hook.h"

#include "check.h"

#include <pthread.h>
#include <stdatomic.h>
#include <string.h>

#define ADDRESS FEDDURZAI_HOOK_ADDRESS

/* ---- the parts, without a process */

/* code with some bytes in front of the function, flags, and what the call has to say of it */
struct code {
    const char *bytes;
    size_t len, front;
    uint32_t flags;
    int32_t said;
    uint64_t at, target;                /* of a refusal */
    int kept, jump_len, in_padding;
    const char *jump, *patch, *trampoline;
};

#define CODE(bytes) bytes, sizeof bytes - 1
#define ENDBR "\xf3\x0f\x1e\xfa"
#define PADDING5 "\xcc\xcc\xcc\xcc\xcc"

static const struct code codes[] = {
    /* endbr64; sub rsp, 0x18; xor eax, eax; ret: with and without the flag. The jump back goes to 0x100a */
    {CODE(ENDBR "\x48\x83\xec\x18\x31\xc0\xc3"), 0, FEDDURZAI_HOOK_KEEP_ENDBR, 0, 0, 0, 4, 0, 0, "", "\xe9\xf7\x0f\x00\x00\xcc",
        ENDBR "\x48\x83\xec\x18\x31\xc0\xe9\xfb\xdf\xff\xff"},
    {CODE(ENDBR "\x48\x83\xec\x18\x31\xc0\xc3"), 0, 0, 0, 0, 0, 0, 0, 0, "", "\xe9\xfb\x0f\x00\x00\xcc\xcc\xcc",
        ENDBR "\x48\x83\xec\x18\xe9\xfb\xdf\xff\xff"},
    /* no ENDBR64 */
    {CODE("\x48\x83\xec\x18\x31\xc0\xc3"), 0, FEDDURZAI_HOOK_KEEP_ENDBR, 0, 0, 0, 0, 0, 0, "", "\xe9\xfb\x0f\x00\x00\xcc",
        "\x48\x83\xec\x18\x31\xc0\xe9\xfb\xdf\xff\xff"},
    /* too small behind the ENDBR64, which the short jump would overwrite; a loop to the ENDBR64 */
    {CODE(PADDING5 ENDBR "\x31\xc0\xc3"), 5, FEDDURZAI_HOOK_KEEP_ENDBR + FEDDURZAI_HOOK_PADDING(5), FEDDURZAI_SMALL, 3, 5, 4, 0, 0, "", "", ""},
    {CODE(ENDBR "\x48\x83\xec\x18\x31\xc0\xeb\xf4"), 0, FEDDURZAI_HOOK_KEEP_ENDBR, FEDDURZAI_HOOK_LOOP, 10, 0, 0, 0, 0, "", "", ""},
    /* mov eax, edi; ret: without the padding, with it, and with too little of it */
    {CODE(PADDING5 "\x89\xf8\xc3"), 5, 0, FEDDURZAI_SMALL, 3, 5, 0, 0, 0, "", "", ""},
    {CODE(PADDING5 "\x89\xf8\xc3"), 5, FEDDURZAI_HOOK_PADDING(5), 0, 0, 0, 0, 5, 0, "\xe9\x00\x10\x00\x00", "\xeb\xf9",
        "\x89\xf8\xe9\xfb\xdf\xff\xff"},
    {CODE(PADDING5 "\x89\xf8\xc3"), 5, FEDDURZAI_HOOK_PADDING(4), FEDDURZAI_PADDING, 4, 5, 0, 0, 1, "", "", ""},
    /* other code there; control goes there */
    {CODE("\xcc\x90\x31\xc0\x90\x89\xf8\xc3"), 5, FEDDURZAI_HOOK_PADDING(5), FEDDURZAI_PADDING, 2, 0, 0, 0, 1, "", "", ""},
    {CODE(PADDING5 "\x31\xc0\xeb\xfa"), 5, FEDDURZAI_HOOK_PADDING(5), FEDDURZAI_ENTERED, 7, 3, 0, 0, 1, "", "", ""},
    /* large enough: no use of the padding */
    {CODE(PADDING5 "\x31\xc0\x48\x31\xd2\xc3"), 5, FEDDURZAI_HOOK_PADDING(5), 0, 0, 0, 0, 0, 0, "", "\xe9\xfb\x0f\x00\x00",
        "\x31\xc0\x48\x31\xd2\xe9\xfb\xdf\xff\xff"},
};

static void check_codes(void)
{
    size_t k;
    for (k = 0; k < sizeof codes / sizeof *codes; k++) {
        const struct code *it = &codes[k];
        const uint8_t *function = (const uint8_t *)it->bytes + it->front;
        feddurzai_hook_parts parts;
        int before = failures;
        memset(&parts, 0xaa, sizeof parts);
        CHECK(feddurzai_hook_make(64, 0x1000, function, it->len - it->front, 0x2000, 0x3000, it->flags, &parts), it->said);
        CHECK(parts.kept, it->kept);
        CHECK(parts.in_padding, it->in_padding);
        CHECK(parts.jump_len, it->jump_len);
        if (it->said < 0) {
            CHECK(parts.at, it->at);
            CHECK(parts.target, it->target);
        } else {
            CHECK(memcmp(parts.jump, it->jump, parts.jump_len), 0);
            CHECK(memcmp(parts.jump_before, function - parts.jump_len, parts.jump_len), 0);
            CHECK(memcmp(parts.patch, it->patch, (size_t)parts.detour.taken), 0);
            CHECK(memcmp(parts.before, function + parts.kept, (size_t)parts.detour.taken), 0);
            CHECK(memcmp(parts.trampoline, it->trampoline, (size_t)parts.detour.bytes), 0);
            CHECK(parts.detour.bytes - parts.detour.jump_back, 5);
            CHECK(parts.unseen_at, it->len - it->front);
            CHECK(parts.taken_at[0] == it->kept && parts.place_at[0] == it->kept, 1);
        }
        if (failures > before)
            printf("    in row %zu of the codes\n", k);
    }
}

/* ---- hooks of functions of this program */

/* a function with an ENDBR64; one of 3 bytes behind other code and 16 bytes of padding; and one that a patch of 5 bytes fits */
int tracked(int n), small(int n), plain(int n);
__asm__(
    ".text\n"
    ".balign 16\n"
    ".type tracked, @function\n"
    "tracked:\n"
    "    endbr64\n"
    "    lea 1(%rdi), %eax\n"
    "    lea 2(%rax), %eax\n"
    "    ret\n"
    ".size tracked, . - tracked\n"
    "    ret\n"
    ".fill 16, 1, 0x90\n"
    ".type small, @function\n"
    "small:\n"
    "    mov %edi, %eax\n"
    "    ret\n"
    ".size small, . - small\n"
    ".balign 16\n"
    ".type plain, @function\n"
    "plain:\n"
    "    lea 5(%rdi), %eax\n"
    "    lea 2(%rax), %eax\n"
    "    ret\n"
    ".size plain, . - plain\n");

static int (*volatile call_tracked)(int) = tracked, (*volatile call_small)(int) = small, (*volatile call_plain)(int) = plain;
static int (*original)(int), (*original_over)(int), (*original_small)(int), (*original_over_small)(int);
static int (*original_tracked)(int), (*original_over_tracked)(int);

static int one_more(int n)
{
    return original(n) + 1;
}

static int over_it(int n)
{
    return original_over(n) + 100;
}

static int small_more(int n)
{
    return original_small(n) + 1;
}

static int small_over(int n)
{
    return original_over_small(n) + 100;
}

static int tracked_more(int n)
{
    return original_tracked(n) + 1;
}

static int tracked_over(int n)
{
    return original_over_tracked(n) + 100;
}

static int32_t install(int (*target)(int), int (*replacement)(int), void *first, uint32_t flags)
{
    feddurzai_hook_options options = {0, flags, NULL};
    return feddurzai_hook_install_with(ADDRESS(target), ADDRESS(replacement), first, &options);
}

static void check_endbr(void)
{
    static const char endbr[] = ENDBR;
    feddurzai_hook_options behind = {7, 0, NULL};
    CHECK(install(tracked, tracked_more, &original_tracked, FEDDURZAI_HOOK_KEEP_ENDBR), 0);
    CHECK(memcmp(ADDRESS(tracked), endbr, 4), 0);
    CHECK(memcmp(ADDRESS(original_tracked), endbr, 4), 0);
    CHECK(call_tracked(5), 9);
    CHECK(original_tracked(5), 8);
    CHECK(install(tracked, tracked_over, &original_over_tracked, FEDDURZAI_HOOK_KEEP_ENDBR), FEDDURZAI_HOOK_EXISTS);
    CHECK(install(tracked, tracked_over, &original_over_tracked, FEDDURZAI_HOOK_OVER), FEDDURZAI_HOOK_OTHER_PATCH);
    CHECK(install(tracked, tracked_over, &original_over_tracked, FEDDURZAI_HOOK_OVER + FEDDURZAI_HOOK_KEEP_ENDBR), 0);
    CHECK(call_tracked(5), 109);
    CHECK(feddurzai_hook_install_with(ADDRESS((uint8_t *)ADDRESS(tracked) + 4), ADDRESS(one_more), NULL, &behind),
        FEDDURZAI_HOOK_OVERLAPS);
    CHECK(feddurzai_hook_remove(ADDRESS(tracked)), 0);
    CHECK(feddurzai_hook_disable(ADDRESS(tracked)), 0);
    CHECK(call_tracked(5), 8);
    CHECK(feddurzai_hook_enable(ADDRESS(tracked)), 0);
    CHECK(call_tracked(5), 9);
    CHECK(feddurzai_hook_remove(ADDRESS(tracked)), 0);
    CHECK(call_tracked(5), 8);
    /* the same function at its first byte, and behind the ENDBR64 again */
    CHECK(install(tracked, tracked_more, &original_tracked, 0), 0);
    CHECK(memcmp(ADDRESS(tracked), endbr, 4) != 0, 1);
    CHECK(call_tracked(5), 9);
    CHECK(feddurzai_hook_remove(ADDRESS(tracked)), 0);
    CHECK(install(tracked, tracked_more, &original_tracked, FEDDURZAI_HOOK_KEEP_ENDBR), 0);
    CHECK(call_tracked(5), 9);
    CHECK(feddurzai_hook_remove(FEDDURZAI_HOOK_ALL), 0);
    CHECK(call_tracked(5), 8);
}

static void check_padding(void)
{
    uint32_t padded = FEDDURZAI_HOOK_PADDING(16);
    CHECK(install(small, small_more, &original_small, 0), FEDDURZAI_SMALL);
    CHECK(install(small, small_more, &original_small, FEDDURZAI_HOOK_PADDING(17)), FEDDURZAI_PADDING);
    CHECK(install(small, small_more, &original_small, padded), 0);
    CHECK(call_small(5), 6);
    CHECK(original_small(5), 5);
    CHECK(feddurzai_hook_disable(ADDRESS(small)), 0);
    CHECK(call_small(5), 5);
    CHECK(feddurzai_hook_enable(ADDRESS(small)), 0);
    CHECK(call_small(5), 6);
    CHECK(install(small, small_over, &original_over_small, padded + FEDDURZAI_HOOK_OVER), 0);
    CHECK(call_small(5), 106);
    CHECK(feddurzai_hook_remove(ADDRESS(small)), 0);
    CHECK(call_small(5), 6);
    CHECK(feddurzai_hook_remove(ADDRESS(small)), 0);
    CHECK(call_small(5), 5);
    /* the near jump of before stays in the padding; the next hook has another one */
    CHECK(install(small, small_over, &original_over_small, padded), 0);
    CHECK(call_small(5), 105);
    CHECK(original_over_small(5), 5);
    CHECK(feddurzai_hook_remove(ADDRESS(small)), 0);
    CHECK(call_small(5), 5);
    CHECK(memcmp(ADDRESS(small), "\x89\xf8\xc3", 3), 0);
}

static void check_over(void)
{
    int (*before)(int);
    CHECK(install(plain, over_it, &original_over, FEDDURZAI_HOOK_OVER), 0);
    CHECK(call_plain(5), 112);
    CHECK(feddurzai_hook_remove(ADDRESS(plain)), 0);
    CHECK(install(plain, one_more, &original, 0), 0);
    CHECK(call_plain(5), 13);
    CHECK(install(plain, over_it, &original_over, 0), FEDDURZAI_HOOK_EXISTS);
    CHECK(install(plain, over_it, &original_over, FEDDURZAI_HOOK_OVER + FEDDURZAI_HOOK_DISABLED), FEDDURZAI_HOOK_BAD_ARGUMENT);
    CHECK(install(plain, over_it, &original_over, FEDDURZAI_HOOK_OVER), 0);
    CHECK(original_over == one_more, 1);
    CHECK(call_plain(5), 113);
    /* both are disabled and enabled */
    CHECK(feddurzai_hook_disable(ADDRESS(plain)), 0);
    CHECK(call_plain(5), 12);
    CHECK(feddurzai_hook_enable(ADDRESS(plain)), 0);
    CHECK(call_plain(5), 113);
    /* the last installed is the first removed */
    CHECK(feddurzai_hook_remove(ADDRESS(plain)), 0);
    CHECK(call_plain(5), 13);
    CHECK(feddurzai_hook_remove(ADDRESS(plain)), 0);
    CHECK(call_plain(5), 12);
    CHECK(feddurzai_hook_remove(ADDRESS(plain)), FEDDURZAI_HOOK_MISSING);
    /* while both are disabled; a queued change does not outlive the removal */
    CHECK(install(plain, one_more, &original, FEDDURZAI_HOOK_DISABLED), 0);
    CHECK(install(plain, over_it, &before, FEDDURZAI_HOOK_OVER + FEDDURZAI_HOOK_DISABLED), 0);
    CHECK(before == one_more, 1);
    CHECK(call_plain(5), 12);
    CHECK(feddurzai_hook_enable(ADDRESS(plain)), 0);
    CHECK(call_plain(5), 113);
    CHECK(feddurzai_hook_disable(ADDRESS(plain)), 0);
    CHECK(feddurzai_hook_queue_enable(ADDRESS(plain)), 0);
    CHECK(feddurzai_hook_remove(ADDRESS(plain)), 0);
    CHECK(call_plain(5), 12);
    CHECK(feddurzai_hook_enable(FEDDURZAI_HOOK_ALL), 0);
    CHECK(call_plain(5), 13);
    /* all at once */
    CHECK(install(plain, over_it, &original_over, FEDDURZAI_HOOK_OVER), 0);
    CHECK(call_plain(5), 113);
    CHECK(feddurzai_hook_remove(FEDDURZAI_HOOK_ALL), 0);
    CHECK(call_plain(5), 12);
    CHECK(feddurzai_hook_remove(ADDRESS(plain)), FEDDURZAI_HOOK_MISSING);
}

/* ---- while threads run */

static atomic_int ended, wrong;
static _Atomic long calls;

/* whether a value is one of the function, of its hook, or of the one over that */
static int is_one_of(int value, int plain_value)
{
    return value == plain_value || value == plain_value + 1 || value == plain_value + 100 || value == plain_value + 101;
}

static void *calls_all(void *unused)
{
    while (!atomic_load(&ended)) {
        if (!is_one_of(call_tracked(5), 8) || !is_one_of(call_small(5), 5) || !is_one_of(call_plain(5), 12))
            atomic_fetch_add(&wrong, 1);
        atomic_fetch_add(&calls, 1);
    }
    return unused;
}

/* a function is hooked, and hooked again; both hooks go, or all at once */
static void change_one(int (*target)(int), int (*first)(int), int (*over)(int), void *of_first, void *of_over, uint32_t flags)
{
    CHECK(install(target, first, of_first, flags), 0);
    CHECK(install(target, over, of_over, flags + FEDDURZAI_HOOK_OVER), 0);
    CHECK(feddurzai_hook_remove(ADDRESS(target)), 0);
    CHECK(feddurzai_hook_remove(ADDRESS(target)), 0);
    CHECK(install(target, over, of_over, flags), 0);
    CHECK(feddurzai_hook_remove(ADDRESS(target)), 0);
}

static void check_threads(void)
{
    pthread_t threads[3];
    int k;
    for (k = 0; k < 3; k++)
        CHECK(pthread_create(&threads[k], NULL, calls_all, NULL), 0);
    for (k = 0; k < 200; k++) {
        change_one(plain, one_more, over_it, &original, &original_over, 0);
        change_one(small, small_more, small_over, &original_small, &original_over_small, FEDDURZAI_HOOK_PADDING(16));
    }
    for (k = 0; k < 200; k++)
        change_one(tracked, tracked_more, tracked_over, &original_tracked, &original_over_tracked, FEDDURZAI_HOOK_KEEP_ENDBR);
    atomic_store(&ended, 1);
    for (k = 0; k < 3; k++)
        CHECK(pthread_join(threads[k], NULL), 0);
    CHECK(wrong, 0);
    CHECK(calls > 0, 1);
}

int main(void)
{
    check_codes();
    check_endbr();
    check_padding();
    check_over();
    check_threads();
    printf("%d checks of the forms of hooks, %d failed\n", tests, failures);
    return failures == 0 ? 0 : 1;
}

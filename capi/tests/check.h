/* What the tests count, and how they tell what is wrong. */
#ifndef CHECK_H
#define CHECK_H

#include <stddef.h>
#include <stdint.h>
#include <stdio.h>

static int failures, tests;

#define CHECK(what, want)                                                                          \
    do {                                                                                           \
        long long got_ = (long long)(what), want_ = (long long)(want);                             \
        tests++;                                                                                   \
        if (got_ != want_) {                                                                       \
            failures++;                                                                            \
            printf("%s:%d: %s is %lld and not %lld\n", __FILE__, __LINE__, #what, got_, want_);    \
        }                                                                                          \
    } while (0)

/* Whether each byte of some memory is 0xaa, with which a test fills what no call may write. */
static inline int is_untouched(const void *memory, size_t len)
{
    const uint8_t *bytes = (const uint8_t *)memory;
    size_t i;
    for (i = 0; i < len; i++)
        if (bytes[i] != 0xaa)
            return 0;
    return 1;
}

#endif

// The library for C: the file is a routine as text, and is assembled whole at 0x400000, in 16-bit mode at 0x4000. An item is a line.
#include <string.h>
#include "measure.h"
#include "feddurzai.h"

enum { MOST = 65536 };

static uint8_t code[MOST * (FEDDURZAI_MAX_LEN + 9)];
static feddurzai_label labels[MOST];

static void sweep(const uint8_t *bytes, size_t size, int bits, struct counts *counts)
{
    feddurzai_routine_report report;
    uint64_t base = bits == 16 ? 0x4000 : 0x400000;
    int32_t said = feddurzai_assemble_code((uint32_t)bits, base, (const char *)bytes, size, NULL, 0, code, sizeof code, labels, MOST, &report);
    if (said < 0) {
        fprintf(stderr, "refused: status %d in line %llu\n", (int)said, (unsigned long long)report.line);
        exit(1);
    }
    for (const uint8_t *at = bytes; (at = memchr(at, '\n', size - (size_t)(at - bytes))) != NULL; at++)
        counts->items++;
    counts->sum += report.bytes;
}

int main(int argc, char **argv)
{
    measure(argc, argv, "feddurzai in C, a routine as text", sweep);
    return 0;
}

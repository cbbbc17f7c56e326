/*
 * Counts the instructions of a file of raw 64-bit code, for bench/rust.sh: the loop of capi/rust/examples/count.rs in C.
 *
 *   count FILE decode|text|line|info|encode
 */
#include "feddurzai.h"

#include <inttypes.h>
#include <stdio.h>
#include <stdlib.h>
#include <string.h>

static const char *const works[] = {"decode", "text", "line", "info", "encode"};
enum work { DECODE, TEXT, LINE, INFO, ENCODE, WORKS };

int main(int argc, char **argv)
{
    FILE *file = argc == 3 ? fopen(argv[1], "rb") : NULL;
    uint64_t found = 0, sum = 0;
    uint8_t *bytes, *out;
    size_t len, at = 0, used = 0;
    int work = 0;
    while (file != NULL && work < WORKS && strcmp(argv[2], works[work]) != 0)
        work += 1;
    if (file == NULL || work == WORKS || fseek(file, 0, SEEK_END) != 0) {
        fprintf(stderr, "usage: count FILE decode|text|line|info|encode\n");
        return 1;
    }
    len = (size_t)ftell(file);
    rewind(file);
    bytes = malloc(len + 1);
    /* no encoding is longer than the bytes that were decoded */
    out = malloc(len + FEDDURZAI_MAX_LEN);
    if (bytes == NULL || out == NULL || fread(bytes, 1, len, file) != len)
        return 1;
    fclose(file);
    while (at < len) {
        feddurzai_instr instr;
        feddurzai_about about;
        feddurzai_touched touched;
        char text[FEDDURZAI_MAX_TEXT];
        uint64_t ip = 0x401000 + at;
        int32_t made, n = work == LINE ? feddurzai_line(64, FEDDURZAI_INTEL, ip, bytes + at, len - at, &instr, text, sizeof text)
                                       : feddurzai_decode(64, ip, bytes + at, len - at, &instr);
        if (n < 0) {
            at += 1;
            continue;
        }
        found += 1;
        sum += instr.code;
        switch (work) {
        case TEXT:
            sum += (uint64_t)feddurzai_text(64, FEDDURZAI_INTEL, &instr, text, sizeof text);
            break;
        case LINE:
            sum += strlen(text);
            break;
        case INFO:
            if (feddurzai_info(&instr, &about) == 0 && feddurzai_effects(64, &instr, &touched) == 0)
                sum += (uint64_t)touched.register_count + touched.memory_count + about.flow;
            break;
        case ENCODE:
            made = feddurzai_encode(64, ip, &instr, out + used, FEDDURZAI_MAX_LEN);
            if (made > 0) {
                used += (size_t)made;
                sum += (uint64_t)made;
            }
            break;
        }
        at += (size_t)n;
    }
    free(bytes);
    free(out);
    printf("%" PRIu64 " instructions, %" PRIu64 "\n", found, sum);
    return 0;
}

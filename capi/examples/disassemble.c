/*
 * Lists a file of raw machine code: address, bytes and text of each instruction, as `listing_program list` does.
 *
 *   disassemble FILE [BITS [BASE [intel|att|masm]]]      BITS is 16, 32 or 64 (64 by default), BASE is hexadecimal
 */
#include "feddurzai.h"

#include <inttypes.h>
#include <stdio.h>
#include <stdlib.h>
#include <string.h>

static uint8_t *read_file(const char *name, size_t *len)
{
    FILE *f = fopen(name, "rb");
    uint8_t *bytes = NULL;
    size_t room = 0, n = 0, got;
    if (f == NULL)
        return NULL;
    do {
        if (n == room) {
            uint8_t *more = realloc(bytes, room = room == 0 ? 65536 : 2 * room);
            if (more == NULL) {
                free(bytes);
                fclose(f);
                return NULL;
            }
            bytes = more;
        }
        got = fread(bytes + n, 1, room - n, f);
        n += got;
    } while (got != 0);
    fclose(f);
    *len = n;
    return bytes;
}

/* prints bytes as hexadecimal digits, padded to the width of 15 bytes */
static void print_bytes(const uint8_t *bytes, size_t len)
{
    static const char digits[] = "0123456789abcdef";
    char column[31];
    size_t i;
    memset(column, ' ', 30);
    column[30] = 0;
    for (i = 0; i < len; i++) {
        column[2 * i] = digits[bytes[i] >> 4];
        column[2 * i + 1] = digits[bytes[i] & 15];
    }
    fputs(column, stdout);
}

static void print_byte_text(uint32_t syntax, uint8_t byte)
{
    if (syntax == FEDDURZAI_MASM)
        printf(byte >= 0xa0 ? "db 0%xh" : "db %xh", byte);
    else
        printf("%s 0x%x", syntax == FEDDURZAI_ATT ? ".byte" : "db", byte);
}

int main(int argc, char **argv)
{
    uint32_t bits = argc > 2 ? (uint32_t)strtoul(argv[2], NULL, 10) : 64;
    uint64_t ip = argc > 3 ? strtoull(argv[3], NULL, 16) : 0;
    const char *style = argc > 4 ? argv[4] : "intel";
    uint32_t syntax = strcmp(style, "att") == 0 ? FEDDURZAI_ATT : strcmp(style, "masm") == 0 ? FEDDURZAI_MASM : FEDDURZAI_INTEL;
    uint64_t mask = bits == 64 ? UINT64_MAX : ((uint64_t)1 << bits) - 1;
    size_t len, at = 0;
    uint8_t *bytes;
    if (argc < 2 || (bits != 16 && bits != 32 && bits != 64)) {
        fprintf(stderr, "usage: disassemble FILE [BITS [BASE [intel|att|masm]]], with BITS 16, 32 or 64 and BASE hexadecimal\n");
        return 1;
    }
    if (feddurzai_interface() != FEDDURZAI_INTERFACE) {
        fprintf(stderr, "disassemble: the library has interface %u, feddurzai.h has %d: install both from one version\n",
            (unsigned)feddurzai_interface(), FEDDURZAI_INTERFACE);
        return 1;
    }
    bytes = read_file(argv[1], &len);
    if (bytes == NULL) {
        perror(argv[1]);
        return 1;
    }
    while (at < len) {
        feddurzai_instr instr;
        char text[FEDDURZAI_MAX_TEXT];
        int32_t n = feddurzai_decode(bits, ip + at, bytes + at, len - at, &instr);
        printf("%0*" PRIx64 " ", (int)(bits / 4), (ip + at) & mask);
        if (n > 0 && feddurzai_text(bits, syntax, &instr, text, sizeof text) >= 0) {
            print_bytes(bytes + at, (size_t)n);
            printf(" %s\n", text);
            at += (size_t)n;
        } else {
            print_bytes(bytes + at, 1);
            putchar(' ');
            print_byte_text(syntax, bytes[at]);
            putchar('\n');
            at += 1;
        }
    }
    free(bytes);
    return 0;
}

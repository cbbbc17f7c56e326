/*
 * Hooks functions of a 32-bit program in its file: NAME by `hooked_NAME`, for each symbol of that form. The patches and the
 * trampolines are those of feddurzai_hook_make with the mode 32.
 *
 *   hooks32 PROGRAM OUT [plain]
 *
 * PROGRAM is tests/hooked32.c, not position-independent as a whole. `plain` leaves each call as it is, and allows it. Each
 * line that is printed has the name of a function, and what was done, or why not.
 */
#include "feddurzai_hook.h"

#include <elf.h>
#include <stdio.h>
#include <stdlib.h>
#include <string.h>

enum { MOST = 1 << 24 };

static uint8_t file[MOST];
static size_t file_len;

static const Elf32_Shdr *sections(void)
{
    return (const Elf32_Shdr *)(const void *)(file + ((const Elf32_Ehdr *)(const void *)file)->e_shoff);
}

static int section_count(void)
{
    return ((const Elf32_Ehdr *)(const void *)file)->e_shnum;
}

/* the symbol of a name, or the next one behind `after` whose name begins with it if `begins` is set; or NULL */
static const Elf32_Sym *symbol_of(const char *name, int begins, const Elf32_Sym *after, const char **whole)
{
    int k;
    for (k = 0; k < section_count(); k++) {
        const Elf32_Sym *symbols = (const Elf32_Sym *)(const void *)(file + sections()[k].sh_offset);
        size_t j, count = sections()[k].sh_size / sizeof *symbols;
        if (sections()[k].sh_type != SHT_SYMTAB)
            continue;
        for (j = after == NULL ? 0 : (size_t)(after - symbols) + 1; j < count; j++) {
            const char *found = (const char *)file + sections()[sections()[k].sh_link].sh_offset + symbols[j].st_name;
            *whole = found;
            if (begins ? strncmp(found, name, strlen(name)) == 0 : strcmp(found, name) == 0)
                return &symbols[j];
        }
    }
    return NULL;
}

/* the bytes of the file that are loaded at an address */
static uint8_t *bytes_at(uint32_t address)
{
    int k;
    for (k = 0; k < section_count(); k++)
        if (sections()[k].sh_type == SHT_PROGBITS && address - sections()[k].sh_addr < sections()[k].sh_size)
            return file + sections()[k].sh_offset + (address - sections()[k].sh_addr);
    printf("no section has the address %x\n", (unsigned)address);
    exit(1);
}

static const Elf32_Sym *known(const char *front, const char *name)
{
    char both[256];
    const char *whole;
    const Elf32_Sym *symbol;
    snprintf(both, sizeof both, "%s%s", front, name);
    symbol = symbol_of(both, 0, NULL, &whole);
    if (symbol == NULL) {
        printf("no symbol %s\n", both);
        exit(1);
    }
    return symbol;
}

int main(int count, char **words)
{
    const Elf32_Sym *symbol = NULL;
    const char *whole;
    uint32_t place, flags = count > 3 && strcmp(words[3], "plain") == 0 ? FEDDURZAI_HOOK_ALLOW_CALLS | FEDDURZAI_HOOK_PLAIN_CALLS : 0;
    FILE *in = count > 2 ? fopen(words[1], "rb") : NULL, *out;
    int hooked = 0;
    if (in == NULL || (file_len = fread(file, 1, MOST, in)) < sizeof(Elf32_Ehdr) || file[EI_CLASS] != ELFCLASS32)
        return 2;
    fclose(in);
    place = known("", "trampolines")->st_value;
    while ((symbol = symbol_of("hooked_", 1, symbol, &whole)) != NULL) {
        const char *name = whole + strlen("hooked_");
        const Elf32_Sym *target;
        uint8_t *original;
        feddurzai_hook_parts parts;
        int32_t said;
        /* a part of a function that the compiler moved away */
        if (strchr(name, '.') != NULL)
            continue;
        target = known("", name);
        original = bytes_at(known("original_", name)->st_value);
        said = feddurzai_hook_make(32, target->st_value, bytes_at(target->st_value), target->st_size, symbol->st_value, place, flags,
            &parts);
        if (said < 0) {
            printf("%s: refused: %s\n", name, feddurzai_hook_error_text(said));
            continue;
        }
        memcpy(bytes_at(target->st_value), parts.patch, (size_t)parts.detour.taken);
        memcpy(bytes_at(place), parts.trampoline, (size_t)parts.detour.bytes);
        memcpy(original, &place, sizeof place);
        printf("%s: hooked, %d bytes taken\n", name, (int)parts.detour.taken);
        place += (uint32_t)(parts.detour.bytes + 15) / 16 * 16;
        hooked++;
    }
    out = fopen(words[2], "wb");
    if (out == NULL || fwrite(file, 1, file_len, out) != file_len || fclose(out) != 0)
        return 2;
    return hooked > 0 ? 0 : 1;
}

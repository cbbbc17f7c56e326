// Capstone, with the details of each instruction, or without them (-DNO_DETAIL). It makes the text in any case.
#include "measure.h"
#include <capstone/capstone.h>

#ifdef NO_DETAIL
#define NAME "capstone, no detail"
#define DETAIL CS_OPT_OFF
#else
#define NAME "capstone, detail"
#define DETAIL CS_OPT_ON
#endif

static void sweep(const uint8_t *bytes, size_t size, int bits, struct counts *counts)
{
    csh handle;
    cs_mode mode = bits == 16 ? CS_MODE_16 : bits == 32 ? CS_MODE_32 : CS_MODE_64;
    if (cs_open(CS_ARCH_X86, mode, &handle) != CS_ERR_OK)
        exit(4);
    cs_option(handle, CS_OPT_DETAIL, DETAIL);
    cs_insn *insn = cs_malloc(handle);
    const uint8_t *place = bytes;
    size_t left = size;
    uint64_t address = 0;
    while (left > 0) {
        if (cs_disasm_iter(handle, &place, &left, &address, insn)) {
            counts->items++;
            counts->sum += insn->id;
        } else {
            counts->errors++;
            place++;
            left--;
            address++;
        }
    }
    cs_free(insn, 1);
    cs_close(&handle);
}

int main(int argc, char **argv)
{
    measure(argc, argv, NAME, sweep);
    return 0;
}

// LLVM's disassembler. It makes the text of each instruction.
#include "measure.h"
#include <llvm-c/Disassembler.h>
#include <llvm-c/Target.h>

static void sweep(const uint8_t *bytes, size_t size, int bits, struct counts *counts)
{
    const char *triple = bits == 16 ? "i386-unknown-linux-code16" : bits == 32 ? "i386-unknown-linux" : "x86_64-unknown-linux";
    LLVMDisasmContextRef context = LLVMCreateDisasm(triple, NULL, 0, NULL, NULL);
    if (!context)
        exit(4);
    size_t place = 0;
    char text[256];
    while (place < size) {
        size_t length = LLVMDisasmInstruction(context, (uint8_t *)bytes + place, size - place, place, text, sizeof text);
        if (length > 0) {
            counts->items++;
            counts->sum += (uint8_t)text[1];
            place += length;
        } else {
            counts->errors++;
            place++;
        }
    }
    LLVMDisasmDispose(context);
}

int main(int argc, char **argv)
{
    LLVMInitializeX86TargetInfo();
    LLVMInitializeX86TargetMC();
    LLVMInitializeX86Disassembler();
    measure(argc, argv, "llvm", sweep);
    return 0;
}
